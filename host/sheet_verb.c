#include "sheet_verb.h"

#include "address_space.h"
#include "answer_numbers.h"
#include "fail.h"
#include "glintloom.h"
#include "memory.h"
#include "numbers.h"
#include "output_file.h"
#include "report.h"

#include <inttypes.h>
#include <stdlib.h>
#include <string.h>

/* The ranges in pages, in the order in which they were given. */
struct page_ranges {
    uint64_t *starts, *lengths;
    size_t count, room;
};

/* What is shown in bytes too must have a number of them. Gives NULL, or what is wrong in words. */
static const char *judge_pages(uint64_t pages)
{
    return pages <= UINT64_MAX / GLINT_PAGE_BYTES ? NULL : "so many pages have no number of bytes of 64 bits";
}

/* Reads a number of bytes that is whole pages or, `in_pages`, one of pages. */
static const char *parse_pages(const char *text, size_t length, bool in_pages, const char *not_whole, uint64_t *pages)
{
    const char *fault = parse_number(text, length, pages);
    if (fault != NULL)
        return fault;
    if (in_pages)
        return judge_pages(*pages);
    if (*pages % GLINT_PAGE_BYTES != 0)
        return not_whole;
    *pages /= GLINT_PAGE_BYTES;
    return NULL;
}

/* Reads END into the page behind the range: the last byte of a page and the byte behind it have different low bits. */
static const char *parse_end(const char *text, size_t length, uint64_t *end)
{
    const char *fault = parse_number(text, length, end);
    if (fault != NULL)
        return fault;
    uint64_t place = *end % GLINT_PAGE_BYTES;
    if (place != 0 && place != GLINT_PAGE_BYTES - 1)
        return "END is neither the last byte of a page nor the byte behind it";
    *end = *end / GLINT_PAGE_BYTES + (place != 0);
    return NULL;
}

/* Reads the pages from `start` to END. */
static const char *parse_pages_to_end(const char *text, size_t length, uint64_t start, uint64_t *pages)
{
    uint64_t end;
    const char *fault = parse_end(text, length, &end);
    if (fault != NULL)
        return fault;
    if (end < start)
        return "END is before START";
    *pages = end - start;
    return judge_pages(*pages);
}

/* Reads START+LENGTH or, but for `in_pages`, START-END. */
static const char *parse_range(const char *text, size_t length, bool in_pages, uint64_t *start, uint64_t *pages)
{
    size_t before = 0;
    while (before < length && text[before] != '+' && (text[before] != '-' || in_pages))
        before++;
    if (before == length)
        return in_pages ? "no range START+LENGTH" : "no range START+LENGTH or START-END";
    const char *fault = parse_pages(text, before, in_pages, "START is not a multiple of 4,096", start);
    if (fault != NULL)
        return fault;
    const char *rest = text + before + 1;
    size_t rest_length = length - before - 1;
    if (text[before] == '-')
        return parse_pages_to_end(rest, rest_length, *start, pages);
    return parse_pages(rest, rest_length, in_pages, "LENGTH is not a multiple of 4,096", pages);
}

static void add_range(struct page_ranges *ranges, uint64_t start, uint64_t pages)
{
    if (ranges->count == ranges->room) {
        ranges->room = ranges->room == 0 ? GLINT_SHEET_RUNS : 2 * ranges->room;
        ranges->starts = enlarge(ranges->starts, ranges->room, sizeof *ranges->starts);
        ranges->lengths = enlarge(ranges->lengths, ranges->room, sizeof *ranges->lengths);
    }
    ranges->starts[ranges->count] = start;
    ranges->lengths[ranges->count] = pages;
    ranges->count++;
}

/* --cr3 stands in place of the directory, which is the first operand. */
static size_t first_range(const struct command *command)
{
    return command->cr3 == NULL;
}

static void take_operands(const struct command *command, struct page_ranges *ranges)
{
    for (size_t i = first_range(command); i < command->word_count; i++) {
        const char *word = command->words[i];
        uint64_t start, pages;
        const char *fault = parse_range(word, strlen(word), command->in_pages, &start, &pages);
        if (fault != NULL)
            fail("'%s': %s", word, fault);
        add_range(ranges, start, pages);
    }
}

static void take_input(const struct command *command, struct page_ranges *ranges)
{
    char text[LINE_ROOM];
    size_t length;
    for (uint64_t line = 1; read_line(text, &length); line++) {
        uint64_t start, pages;
        if (length == 0)
            continue;
        const char *fault =
            length == LINE_ROOM ? "too long for a range" : parse_range(text, length, command->in_pages, &start, &pages);
        if (fault != NULL)
            fail("standard input, line %" PRIu64 ": %s", line, fault);
        add_range(ranges, start, pages);
    }
}

static uint64_t mode_of(const struct command *command)
{
    if (command->plain && command->pae)
        fail("sheet: --plain and --pae exclude each other");
    return command->plain ? GLINT_MODE_PLAIN : command->pae ? GLINT_MODE_PAE : GLINT_MODE_FOUR_LEVEL;
}

static struct address_space address_space_of(const struct command *command)
{
    static const char half_page[] = "DIRECTORY is not a multiple of 4,096";
    static const char half_page_of_pae[] = "DIRECTORY is not a multiple of 4,096; --cr3 takes a place in the page too";
    struct address_space space = {mode_of(command), 0, 0};
    const char *word = command->cr3 != NULL ? command->cr3 : command->words[0], *fault;
    size_t length = strlen(word);
    if (command->cr3 != NULL)
        fault = parse_cr3(word, length, space.mode, &space);
    else
        fault = parse_pages(word, length, command->in_pages, command->pae ? half_page_of_pae : half_page, &space.directory);
    if (fault != NULL)
        fail("'%s': %s", word, fault);
    return space;
}

/* A number in the first range's place is a directory, too many beside --cr3. */
static void judge_first_range(const struct command *command)
{
    uint64_t number;
    if (command->cr3 == NULL || command->word_count == 0)
        return;
    const char *word = command->words[0];
    if (parse_number(word, strlen(word), &number) == NULL)
        fail("'%s': no range, and --cr3 stands in place of DIRECTORY", word);
}

static void report_ranges(const struct page_ranges *ranges)
{
    begin_items("ranges");
    for (size_t i = 0; i < ranges->count; i++) {
        begin_value("start", ranges->starts[i] * GLINT_PAGE_BYTES);
        add_length(ranges->lengths[i] * GLINT_PAGE_BYTES);
        add_value("first_page", "first page", ranges->starts[i]);
        add_count("pages", ranges->lengths[i], "page");
        end_item();
    }
    end_items();
}

/* The first line; the length asked for is that of the sheet as it was written. */
static void report_sheet(glint_written written, const uint8_t *sheet, struct address_space space, size_t range_count)
{
    bool done = !is_refusal(written.number);
    begin_number(written.number);
    if (done)
        add_length(written.length);
    add_address_space(space);
    add_count("range_count", range_count, "range");
    if (done)
        add_value("asked_length", "image length asked for", glint_image_length(sheet, (size_t)written.length).length);
}

int sheet_verb(const struct command *command)
{
    struct page_ranges ranges = {NULL, NULL, 0, 0};
    struct address_space space = address_space_of(command);
    uint8_t sheet[GLINT_SHEET_BYTES];
    judge_first_range(command);
    if (command->word_count > first_range(command))
        take_operands(command, &ranges);
    else
        take_input(command, &ranges);
    glint_written written = glint_write_sheet(space.directory, space.mode, space.place, ranges.starts, ranges.count,
                                              ranges.lengths, ranges.count, sheet, sizeof sheet);
    bool done = !is_refusal(written.number);
    if (done && command->output != NULL)
        write_output_file(command->output, sheet, (size_t)written.length);
    report_sheet(written, sheet, space, ranges.count);
    report_ranges(&ranges);
    if (done && command->output == NULL) {
        add_digits(sheet, (size_t)written.length);
        add_dump(0, sheet, (size_t)written.length);
    }
    end_answer();
    free(ranges.starts);
    free(ranges.lengths);
    return done ? ANSWERED : REFUSED;
}
