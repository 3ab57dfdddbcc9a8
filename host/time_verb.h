/* The verb `time`: the times at addresses. */
#ifndef TIME_VERB_H
#define TIME_VERB_H

#include "verbs.h"

int time_verb(const struct command *command);

#endif
