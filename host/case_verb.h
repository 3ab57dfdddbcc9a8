/* The verb that tells what a case's sheet says. */
#ifndef CASE_VERB_H
#define CASE_VERB_H

#include "verbs.h"

int case_verb(const struct command *command);

#endif
