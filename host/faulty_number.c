#include "faulty_number.h"

#include "answer_numbers.h"
#include "report.h"

#include <string.h>

struct faulty_number faulty_number_in(const char *name, struct mapped_file file, uint64_t refusal, uint64_t position)
{
    struct faulty_number number = {NULL, 0, {0}, 0};
    if (!has_position(refusal))
        return number;
    size_t start = (size_t)(position - position % ROW_BYTES), left = file.length - start;
    number.file = name;
    number.position = position;
    number.row_length = left < ROW_BYTES ? left : ROW_BYTES;
    memcpy(number.row, file.bytes + start, number.row_length);
    return number;
}

void add_faulty_position(const struct faulty_number *number)
{
    if (number->file != NULL)
        add_position(number->position, number->file);
}

void add_faulty_row(const struct faulty_number *number)
{
    if (number->file != NULL)
        add_marked_row(number->position, number->row, number->row_length);
}
