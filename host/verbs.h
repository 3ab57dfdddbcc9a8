/* What the program can be asked. Each verb maps its files, calls the library and reports; it gives the exit status. */
#ifndef VERBS_H
#define VERBS_H

#include <stdbool.h>
#include <stddef.h>
#include <stdint.h>

/* A command line whose use has been judged: `files` are as many as the verb takes, a missing pagefile is NULL. */
struct command {
    char *files[3];
    uint64_t *numbers;
    size_t number_count;
    char **words;              /* the operands behind the files, as they were written */
    size_t word_count;
    const char *output, *cr3;  /* NULL without -o and --cr3 */
    bool all, in_pages, plain, pae;
};

int resolve_verb(const struct command *command);
int page_verb(const struct command *command);
int read_verb(const struct command *command);
int map_verb(const struct command *command);
int lookup_verb(const struct command *command);
int processor_block_verb(const struct command *command);
int list_verb(const struct command *command);
int explain_verb(const struct command *command);

#endif
