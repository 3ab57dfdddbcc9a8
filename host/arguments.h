/* The words of a command line, before it is known what they mean to the verb. */
#ifndef ARGUMENTS_H
#define ARGUMENTS_H

#include <stddef.h>

/* Options, each a bit. */
enum {
    NO_PAGEFILE = 1,
    OUTPUT = 2,
    ALL = 4,
    JSON = 8,
    HELP = 16,
    VERSION = 32,
    PAGES = 64,
    PLAIN = 128,
    PAE = 256,
    CR3 = 512,
    OPTIONS_OF_EVERY_VERB = JSON | HELP | VERSION
};

struct option {
    int option;
    const char *name;
    const char *help;    /* whole lines */
};

extern const struct option options[];
extern const size_t option_count;

/* The verb is the first operand; the options stand anywhere. */
struct arguments {
    char **operands;
    int operand_count;
    int options;
    const char *output, *cr3;    /* NULL without -o and --cr3 */
};

/* Moves the operands to the front of `words`. Ends the program with FAILED at an option that there is not. */
struct arguments split_words(char **words, int count);

#endif
