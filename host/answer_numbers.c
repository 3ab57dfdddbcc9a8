#include "answer_numbers.h"

bool has_kind(uint64_t number, enum glint_kind wanted)
{
#define COMPARE(name, value, kind, words) case value: return GLINT_KIND_##kind == wanted;
    switch (number) {
        GLINT_ANSWERS(COMPARE)
        GLINT_REFUSALS(COMPARE)
    }
#undef COMPARE
    return false;
}

bool is_refusal(uint64_t number)
{
    return !has_kind(number, GLINT_KIND_ANSWER) && !has_kind(number, GLINT_KIND_PLACE);
}

bool has_position(uint64_t number)
{
    return number == GLINT_NUMBER_TOO_LONG || number == GLINT_NUMBER_NOT_SHORTEST;
}
