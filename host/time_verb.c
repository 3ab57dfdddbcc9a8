#include "time_verb.h"

#include "answer_numbers.h"
#include "calendar.h"
#include "case_files.h"
#include "fail.h"
#include "glintloom.h"
#include "numbers.h"
#include "report.h"

enum { TIME_BYTES = 8 };

struct time_found {
    glint_time_answer answer;
    bool zeros;    /* a byte of it came from a page of zeros */
};

/* The time, and what the read call says of its bytes. */
static struct time_found find_time(const struct case_files *files, uint64_t address)
{
    uint8_t bytes[TIME_BYTES];
    glint_bytes read = glint_read(SLICES(*files), address, TIME_BYTES, bytes, TIME_BYTES);
    struct time_found found = {glint_read_time(SLICES(*files), address), read.zeros != 0};
    uint64_t number = found.answer.number;
    bool was_read = number == GLINT_DONE || number == GLINT_TIME_ZERO || number == GLINT_TIME_TOO_LARGE;
    if (read.number != (was_read ? GLINT_DONE : number))
        fail_for_changed_files();
    return found;
}

static int report_time(uint64_t address, const struct time_found *found)
{
    bool refused = is_refusal(found->answer.number);
    begin_item("address", address, found->answer.number);
    if (!refused) {
        uint64_t seconds = (uint64_t)found->answer.time.seconds, ticks = (uint64_t)found->answer.time.ticks;
        char utc[UTC_ROOM];
        put_utc(seconds, ticks, utc);
        add_count("seconds", seconds, "second");
        add_count("ticks", ticks, "tick");
        add_text("utc", utc);
    }
    add_zeros(found->zeros);
    end_answer();
    return refused ? REFUSED : ANSWERED;
}

int time_verb(const struct command *command)
{
    struct case_files files = map_case(command->files);
    struct addresses addresses = addresses_of(command->numbers, command->number_count);
    uint64_t asked[MOST_TOGETHER];
    struct time_found found[MOST_TOGETHER];
    size_t count;
    int status = ANSWERED;
    if (report_case_fault(&files))
        return REFUSED;
    while ((count = next_addresses(&addresses, asked, MOST_TOGETHER)) > 0) {
        for (size_t i = 0; i < count; i++)
            found[i] = find_time(&files, asked[i]);
        check_mapped_files();
        for (size_t i = 0; i < count; i++)
            status |= report_time(asked[i], &found[i]);
        hand_on_answers();
    }
    return status;
}
