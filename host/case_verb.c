#include "case_verb.h"

#include "address_space.h"
#include "answer_numbers.h"
#include "asked_length.h"
#include "case_files.h"
#include "fail.h"
#include "faulty_number.h"
#include "glintloom.h"
#include "report.h"

/* The numbers of a run, as glint_case writes them. */
struct run {
    uint64_t first_frame, pages, image_page;
};

static struct run run_at(const uint64_t *numbers, uint64_t index)
{
    struct run run = {numbers[3 * index], numbers[3 * index + 1], numbers[3 * index + 2]};
    return run;
}

static void report_runs(const uint64_t *numbers, uint64_t count)
{
    begin_items("runs");
    for (uint64_t i = 0; i < count; i++) {
        struct run run = run_at(numbers, i);
        uint64_t start = run.first_frame * GLINT_PAGE_BYTES;
        begin_range(start, start + run.pages * GLINT_PAGE_BYTES - 1);
        add_value("image_offset", "image offset", run.image_page * GLINT_PAGE_BYTES);
        add_count("pages", run.pages, "page");
        end_item();
    }
    end_items();
}

int case_verb(const struct command *command)
{
    struct case_files files = map_case(command->files);
    uint64_t asked, numbers[GLINT_CASE_NUMBERS];
    glint_case_read read =
        glint_case(files.sheet.bytes, files.sheet.length, files.image.length, files.pagefile.length, numbers, GLINT_CASE_NUMBERS);
    bool accepted = !is_refusal(read.number), asks = asked_image_length(files.sheet, &asked);
    struct faulty_number faulty = faulty_number_in("sheet", files.sheet, read.number, read.length);
    check_mapped_files();
    begin_number(read.number);
    add_faulty_position(&faulty);
    if (accepted) {
        struct run last = run_at(numbers, read.length - 1);
        add_address_space((struct address_space){read.mode, read.directory, read.place});
        add_count("run_count", read.length, "run");
        add_count("pages", last.image_page + last.pages, "page");
    }
    if (asks)
        add_value("asked_length", "image length asked for", asked);
    add_value("image_length", "image length", files.image.length);
    add_value("pagefile_length", "pagefile length", files.pagefile.length);
    if (accepted)
        report_runs(numbers, read.length);
    add_faulty_row(&faulty);
    end_answer();
    return accepted ? ANSWERED : REFUSED;
}
