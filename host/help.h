/* What the program says about itself. */
#ifndef HELP_H
#define HELP_H

#include "verb_table.h"

#include <stdio.h>

/* Of one verb or, if that is NULL, of all. */
void print_help(FILE *stream, const struct verb *verb);

void print_version(FILE *stream);

#endif
