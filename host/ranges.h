/* Where a range of addresses leads. */
#ifndef RANGES_H
#define RANGES_H

#include "case_files.h"
#include "glintloom.h"

#include <stdbool.h>
#include <stddef.h>
#include <stdint.h>

/* The refusal of a range: that of its first byte that has one. Past the top there is no address. */
struct range_refusal {
    uint64_t number;
    bool has_address;
    uint64_t address;
};

bool is_refused_range(const struct case_files *files, uint64_t address, uint64_t length, struct range_refusal *refusal);

/* Bytes that follow each other in the range and in the file that they lead to, or that are all of pages of zeros. */
struct stretch {
    uint64_t address, length;
    glint_answer leads_to;    /* for its first byte */
};

struct stretches {
    struct stretch *list;
    size_t count;
};

/* The fewest stretches that make a range of which no byte is refused. The list is to be freed. */
struct stretches stretches_of(const struct case_files *files, uint64_t address, uint64_t length);

#endif
