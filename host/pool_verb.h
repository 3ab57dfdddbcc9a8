/* The verb `pool`, which takes an image alone. */
#ifndef POOL_VERB_H
#define POOL_VERB_H

#include "verbs.h"

int pool_verb(const struct command *command);

#endif
