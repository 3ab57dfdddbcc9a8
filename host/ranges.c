#include "ranges.h"

#include "answer_numbers.h"
#include "memory.h"

/* Of the bytes that are left from an address on, those in its page. */
static uint64_t bytes_in_page(uint64_t address, uint64_t left)
{
    uint64_t to_page_end = GLINT_PAGE_BYTES - address % GLINT_PAGE_BYTES;
    return to_page_end < left ? to_page_end : left;
}

/* What a read past the top is refused with, as it is asked for the last address and one more. */
static uint64_t refusal_past_top(const struct case_files *files)
{
    uint8_t bytes[2];
    uint64_t number = glint_read(SLICES(*files), UINT64_MAX, sizeof bytes, bytes, sizeof bytes).number;
    if (!is_refusal(number))
        fail_for_changed_files();
    return number;
}

bool is_refused_range(const struct case_files *files, uint64_t address, uint64_t length, struct range_refusal *refusal)
{
    uint64_t count;
    for (uint64_t left = length; left > 0; left -= count, address += count) {
        uint64_t number = glint_resolve(SLICES(*files), address).number;
        count = bytes_in_page(address, left);
        if (is_refusal(number)) {
            *refusal = (struct range_refusal){number, true, address};
            return true;
        }
        if (left > count && address + count == 0) {
            *refusal = (struct range_refusal){refusal_past_top(files), false, 0};
            return true;
        }
    }
    return false;
}

static bool continues(const struct stretch *stretch, glint_answer answer)
{
    return answer.number == stretch->leads_to.number &&
           (!has_kind(answer.number, GLINT_KIND_PLACE) || answer.offset == stretch->leads_to.offset + stretch->length);
}

struct stretches stretches_of(const struct case_files *files, uint64_t address, uint64_t length)
{
    struct stretches stretches = {NULL, 0};
    size_t room = 0;
    uint64_t count;
    for (uint64_t left = length; left > 0; left -= count, address += count) {
        glint_answer answer = glint_resolve(SLICES(*files), address);
        count = bytes_in_page(address, left);
        if (is_refusal(answer.number))
            fail_for_changed_files();
        if (stretches.count > 0 && continues(&stretches.list[stretches.count - 1], answer)) {
            stretches.list[stretches.count - 1].length += count;
            continue;
        }
        if (stretches.count == room) {
            room = 2 * room + 16;
            stretches.list = enlarge(stretches.list, room, sizeof *stretches.list);
        }
        stretches.list[stretches.count++] = (struct stretch){address, count, answer};
    }
    return stretches;
}
