/* The kinds of the numbers of answers, by the list of the library's header. */
#ifndef ANSWER_NUMBERS_H
#define ANSWER_NUMBERS_H

#include "glintloom.h"

#include <stdbool.h>
#include <stdint.h>

/* False for a number that no answer has. */
bool has_kind(uint64_t number, enum glint_kind kind);

/* Also for a number that no answer has. */
bool is_refusal(uint64_t number);

/* Whether the refusal comes with the position of the number at fault, in the sheet or map. */
bool has_position(uint64_t number);

#endif
