#include "address_space.h"

#include "glintloom.h"
#include "numbers.h"
#include "report.h"

enum { PLACES_IN_PAGE = GLINT_PAGE_BYTES / GLINT_PLACE_BYTES };

/* The low bits that are let pass are flags of the cache or, of a 64-bit machine, a number of the process (PCID). */
static const char *judge_cr3(uint64_t value, uint64_t mode, uint64_t place)
{
    if (mode != GLINT_MODE_FOUR_LEVEL && value > UINT32_MAX)
        return "CR3 of a 32-bit machine has 32 bits";
    if (mode == GLINT_MODE_PLAIN && place != 0)
        return "bits 5 to 11 of CR3 are a place in the page, which only --pae has";
    if (mode == GLINT_MODE_PAE && value % GLINT_PLACE_BYTES != 0)
        return "CR3 is not a multiple of 32";
    return NULL;
}

const char *parse_cr3(const char *text, size_t length, uint64_t mode, struct address_space *space)
{
    uint64_t value;
    const char *fault = parse_number(text, length, &value);
    if (fault != NULL)
        return fault;
    uint64_t place = value / GLINT_PLACE_BYTES % PLACES_IN_PAGE;
    *space = (struct address_space){mode, value / GLINT_PAGE_BYTES, mode == GLINT_MODE_PAE ? place : 0};
    return judge_cr3(value, mode, place);
}

static const char *profile_of(uint64_t mode)
{
    switch (mode) {
        case GLINT_MODE_FOUR_LEVEL: return "64-bit four-level";
        case GLINT_MODE_PLAIN: return "32-bit plain";
        case GLINT_MODE_PAE: return "32-bit PAE";
    }
    return "unknown profile";
}

void add_address_space(struct address_space space)
{
    add_text("profile", profile_of(space.mode));
    add_value("directory", "directory", space.directory * GLINT_PAGE_BYTES + space.place * GLINT_PLACE_BYTES);
    add_value("directory_page", "directory page", space.directory);
    add_place(space.place, space.mode == GLINT_MODE_PAE);
}
