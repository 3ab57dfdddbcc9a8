/* The verb that writes a case sheet of ranges of physical memory. */
#ifndef SHEET_VERB_H
#define SHEET_VERB_H

#include "verbs.h"

int sheet_verb(const struct command *command);

#endif
