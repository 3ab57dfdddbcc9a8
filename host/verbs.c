#include "verbs.h"

#include "answer_numbers.h"
#include "case_files.h"
#include "explanations.h"
#include "fail.h"
#include "faulty_number.h"
#include "glintloom.h"
#include "mapped_file.h"
#include "memory.h"
#include "numbers.h"
#include "output_file.h"
#include "ranges.h"
#include "report.h"

#include <inttypes.h>
#include <stdlib.h>
#include <string.h>

static int status_of(uint64_t number)
{
    return is_refusal(number) ? REFUSED : ANSWERED;
}

static void report_place(uint64_t address, glint_answer answer)
{
    begin_item("address", address, answer.number);
    add_offset(answer.number, answer.offset);
    add_entries(answer.entries);
}

static int report_places(const uint64_t *asked, const glint_answer *answers, size_t count)
{
    int status = ANSWERED;
    for (size_t i = 0; i < count; i++) {
        report_place(asked[i], answers[i]);
        end_answer();
        status |= status_of(answers[i].number);
    }
    hand_on_answers();
    return status;
}

int resolve_verb(const struct command *command)
{
    struct case_files files = map_case(command->files);
    struct addresses addresses = addresses_of(command->numbers, command->number_count);
    uint64_t asked[MOST_TOGETHER];
    glint_answer answers[MOST_TOGETHER];
    size_t count;
    int status = ANSWERED;
    if (report_case_fault(&files))
        return REFUSED;
    while ((count = next_addresses(&addresses, asked, MOST_TOGETHER)) > 0) {
        for (size_t i = 0; i < count; i++)
            answers[i] = glint_resolve(SLICES(files), asked[i]);
        check_mapped_files();
        status |= report_places(asked, answers, count);
    }
    return status;
}

/* Whether a map is refused whatever is looked up in it; then that is reported, once. */
static bool report_map_fault(const struct mapped_file *map)
{
    /* A lookup judges the map before it judges the address, so any address will do. */
    glint_found found = glint_lookup(map->bytes, map->length, 0);
    if (!has_kind(found.number, GLINT_KIND_CASE) && found.number != GLINT_BAD_EXTENT)
        return false;
    struct faulty_number faulty = faulty_number_in("map", *map, found.number, found.offset);
    check_mapped_files();
    begin_fault("map", found.number);
    add_faulty_position(&faulty);
    add_faulty_row(&faulty);
    end_fault();
    return true;
}

static int report_found(const uint64_t *asked, const glint_found *found, size_t count)
{
    int status = ANSWERED;
    for (size_t i = 0; i < count; i++) {
        begin_item("address", asked[i], found[i].number);
        add_offset(found[i].number, found[i].offset);
        end_answer();
        status |= status_of(found[i].number);
    }
    hand_on_answers();
    return status;
}

int lookup_verb(const struct command *command)
{
    struct mapped_file map = map_file(command->files[0]);
    struct addresses addresses = addresses_of(command->numbers, command->number_count);
    uint64_t asked[MOST_TOGETHER];
    glint_found found[MOST_TOGETHER];
    size_t count;
    int status = ANSWERED;
    if (report_map_fault(&map))
        return REFUSED;
    while ((count = next_addresses(&addresses, asked, MOST_TOGETHER)) > 0) {
        for (size_t i = 0; i < count; i++)
            found[i] = glint_lookup(map.bytes, map.length, asked[i]);
        check_mapped_files();
        status |= report_found(asked, found, count);
    }
    return status;
}

/* The bytes of a found page: those of the part that the page call names or, for a page of zeros, those of the read call. */
static void copy_page(const struct case_files *files, uint64_t start, uint64_t number, uint8_t page[GLINT_PAGE_BYTES])
{
    glint_part part = glint_page(SLICES(*files), start);
    const struct mapped_file *file = part.file == GLINT_IN_IMAGE ? &files->image : &files->pagefile;
    if (part.file != (number == GLINT_ZEROS ? 0 : number))
        fail_for_changed_files();
    if (part.file != 0)
        memcpy(page, file->bytes + part.offset, GLINT_PAGE_BYTES);
    else if (glint_read(SLICES(*files), start, GLINT_PAGE_BYTES, page, GLINT_PAGE_BYTES).number != GLINT_DONE)
        fail_for_changed_files();
}

static int report_page(const struct command *command, const struct case_files *files, uint64_t address)
{
    uint8_t page[GLINT_PAGE_BYTES];
    uint64_t start = address - address % GLINT_PAGE_BYTES;
    glint_answer answer = glint_resolve(SLICES(*files), start);
    bool found = !is_refusal(answer.number);
    if (found)
        copy_page(files, start, answer.number, page);
    check_mapped_files();
    if (found && command->output != NULL) {
        if (answer.number == GLINT_ZEROS)
            warn_of_zeros(start, sizeof page);
        write_output_file(command->output, page, sizeof page);
    }
    report_place(start, answer);
    if (found && command->output == NULL) {
        add_digits(page, sizeof page);
        add_dump(start, page, sizeof page);
    }
    end_answer();
    hand_on_answers();
    return status_of(answer.number);
}

int page_verb(const struct command *command)
{
    struct case_files files = map_case(command->files);
    struct addresses addresses = addresses_of(command->numbers, command->number_count);
    int status = ANSWERED;
    uint64_t address;
    if (report_case_fault(&files))
        return REFUSED;
    while (next_addresses(&addresses, &address, 1) > 0)
        status |= report_page(command, &files, address);
    return status;
}

static void report_refused_read(uint64_t address, const struct range_refusal *refusal)
{
    begin_item("address", address, refusal->number);
    if (refusal->has_address)
        add_refused_address(refusal->address);
    end_answer();
}

static void warn_of_zeros_in(const struct stretches *stretches)
{
    for (size_t i = 0; i < stretches->count; i++)
        if (stretches->list[i].leads_to.number == GLINT_ZEROS)
            warn_of_zeros(stretches->list[i].address, stretches->list[i].length);
}

/* `bytes` is NULL if they are not shown. */
static void report_stretches(uint64_t address, const struct stretches *stretches, const uint8_t *bytes)
{
    begin_items("stretches");
    for (size_t i = 0; i < stretches->count; i++) {
        const struct stretch *stretch = &stretches->list[i];
        begin_item("address", stretch->address, stretch->leads_to.number);
        add_offset(stretch->leads_to.number, stretch->leads_to.offset);
        add_length(stretch->length);
        if (bytes != NULL)
            add_dump(stretch->address, bytes + (stretch->address - address), (size_t)stretch->length);
        end_item();
    }
    end_items();
}

static void report_read(const struct command *command, const struct stretches *stretches, const uint8_t *bytes)
{
    uint64_t address = command->numbers[0], length = command->numbers[1];
    if (command->output != NULL) {
        warn_of_zeros_in(stretches);
        write_output_file(command->output, bytes, (size_t)length);
    }
    begin_item("address", address, GLINT_DONE);
    add_length(length);
    report_stretches(address, stretches, command->output == NULL ? bytes : NULL);
    if (command->output == NULL)
        add_digits(bytes, (size_t)length);
    end_answer();
}

int read_verb(const struct command *command)
{
    struct case_files files = map_case(command->files);
    uint64_t address = command->numbers[0], length = command->numbers[1];
    struct range_refusal refusal;
    if (report_case_fault(&files))
        return REFUSED;
    /* A read that is refused needs no memory, however long it is. */
    if (is_refused_range(&files, address, length, &refusal)) {
        check_mapped_files();
        report_refused_read(address, &refusal);
        return REFUSED;
    }
    uint8_t *bytes = allocate(length, 1);
    if (glint_read(SLICES(files), address, length, bytes, (size_t)length).number != GLINT_DONE)
        fail_for_changed_files();
    struct stretches stretches = stretches_of(&files, address, length);
    check_mapped_files();
    report_read(command, &stretches, bytes);
    free(stretches.list);
    free(bytes);
    return ANSWERED;
}

int map_verb(const struct command *command)
{
    struct case_files files = map_case(command->files);
    uint64_t start = command->numbers[0];
    if (report_case_fault(&files))
        return REFUSED;
    uint8_t *map = allocate(GLINT_MAP_BYTES, 1);
    glint_written written = glint_map(SLICES(files), start, command->numbers[1], map, GLINT_MAP_BYTES);
    check_mapped_files();
    bool made = !is_refusal(written.number);
    if (made && command->output != NULL)
        write_output_file(command->output, map, (size_t)written.length);
    begin_item("start", start, written.number);
    if (made)
        add_length(written.length);
    if (made && command->output == NULL) {
        add_digits(map, (size_t)written.length);
        add_dump(0, map, (size_t)written.length);
    }
    end_answer();
    free(map);
    return status_of(written.number);
}

/* The places in a processor block of its own address and of the word with its directory page. */
enum { SELF_AT = 0x18, DIRECTORY_AT = 0x1D0 };

static uint64_t word_at(const struct mapped_file *file, uint64_t offset)
{
    uint64_t word = 0;
    for (int i = 7; i >= 0; i--)
        word = word << 8 | file->bytes[offset + (uint64_t)i];
    return word;
}

static void report_block(const struct case_files *files, uint64_t from, glint_answer answer)
{
    bool found = !is_refusal(answer.number);
    uint64_t self = found ? word_at(&files->image, answer.offset + SELF_AT) : 0;
    uint64_t directory_word = found ? word_at(&files->image, answer.offset + DIRECTORY_AT) : 0;
    check_mapped_files();
    if (found) {
        begin_item("offset", answer.offset, answer.number);
        add_block(self, directory_word);
        add_entries(answer.entries);
    } else {
        begin_worded_item("image", answer.number);
        add_start(from);
    }
    end_answer();
    hand_on_answers();
}

int processor_block_verb(const struct command *command)
{
    struct case_files files = map_case(command->files);
    uint64_t from = command->number_count > 0 ? command->numbers[0] : 0;
    if (report_case_fault(&files))
        return REFUSED;
    glint_answer answer = glint_processor_block(SLICES(files), from);
    int status = status_of(answer.number);
    report_block(&files, from, answer);
    while (command->all && !is_refusal(answer.number)) {
        from = answer.offset + 1;
        answer = glint_processor_block(SLICES(files), from);
        if (answer.number != GLINT_NO_PROCESSOR_BLOCK)
            report_block(&files, from, answer);
    }
    check_mapped_files();
    return status;
}

int list_verb(const struct command *command)
{
    struct case_files files = map_case(command->files);
    uint64_t head = command->numbers[0];
    if (report_case_fault(&files))
        return REFUSED;
    uint64_t *nodes = allocate(GLINT_LIST_PROCESSES, sizeof *nodes);
    glint_written written = glint_process_list(SLICES(files), head, nodes, GLINT_LIST_PROCESSES);
    check_mapped_files();
    begin_item("head", head, written.number);
    if (!is_refusal(written.number))
        add_nodes(nodes, written.length);
    end_answer();
    free(nodes);
    return status_of(written.number);
}

static void explain_all(void)
{
#define EXPLAIN(name, number, kind, words) report_number(number, NULL);
    GLINT_ANSWERS(EXPLAIN)
    GLINT_REFUSALS(EXPLAIN)
#undef EXPLAIN
}

int explain_verb(const struct command *command)
{
    for (size_t i = 0; i < command->number_count; i++)
        if (glint_words(command->numbers[i]) == NULL)
            fail("no answer has the number %" PRIu64, command->numbers[i]);
    for (size_t i = 0; i < command->number_count; i++)
        report_number(command->numbers[i], explanation_of(command->numbers[i]));
    if (command->number_count == 0)
        explain_all();
    return ANSWERED;
}
