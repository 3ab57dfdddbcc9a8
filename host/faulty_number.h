/* Where a number begins that a sheet or map is refused for, if the refusal tells that. */
#ifndef FAULTY_NUMBER_H
#define FAULTY_NUMBER_H

#include "hex_dump.h"
#include "mapped_file.h"

#include <stddef.h>
#include <stdint.h>

struct faulty_number {
    const char *file;          /* sheet or map; NULL if the refusal tells no position */
    uint64_t position;
    uint8_t row[ROW_BYTES];    /* a copy of the line of the file's dump that holds it */
    size_t row_length;
};

/* By a refusal and the position that came with it. */
struct faulty_number faulty_number_in(const char *name, struct mapped_file file, uint64_t refusal, uint64_t position);

/* Add to the item at hand the position and, at the end of the item, the line with a mark; nothing if none is told. */
void add_faulty_position(const struct faulty_number *number);
void add_faulty_row(const struct faulty_number *number);

#endif
