/* The verbs with what each takes. */
#ifndef VERB_TABLE_H
#define VERB_TABLE_H

#include "verbs.h"

#include <stdbool.h>
#include <stddef.h>

enum { ANY_COUNT = -1, ANY_RANGES = -2, FILES_OF_CASE = 3 };

struct verb {
    const char *name;
    const char *operands, *summary;              /* for its line of the help */
    const char *details;                         /* whole lines, for the help on it alone */
    int files;
    int fewest_numbers, most_numbers;            /* operands behind the files; ANY_RANGES behind the first number */
    int options;                                 /* but for those of every verb */
    int (*run)(const struct command *command);   /* NULL for the help */
};

extern const struct verb verbs[];
extern const size_t verb_count;

/* Ends the program with FAILED if there is none. */
const struct verb *verb_named(const char *name);

/* Whether it takes any number of addresses, from standard input too. */
bool takes_addresses(const struct verb *verb);

/* Whether it takes a number and any number of ranges, from standard input too, and reads its operands itself. */
bool takes_ranges(const struct verb *verb);

#endif
