#include "case_files.h"

#include "answer_numbers.h"
#include "asked_length.h"
#include "fail.h"
#include "faulty_number.h"
#include "report.h"

struct case_files map_case(char *const names[3])
{
    struct case_files files = {{NULL, 0}, {NULL, 0}, {NULL, 0}};
    files.sheet = map_file(names[0]);
    files.image = map_file(names[1]);
    if (names[2] != NULL)
        files.pagefile = map_file(names[2]);
    return files;
}

bool report_case_fault(const struct case_files *files)
{
    /* A call judges the case before it judges the address, so any address will do. */
    glint_answer answer = glint_resolve(SLICES(*files), 0);
    uint64_t number = answer.number, asked;
    if (!has_kind(number, GLINT_KIND_CASE))
        return false;
    struct faulty_number faulty = faulty_number_in("sheet", files->sheet, number, answer.offset);
    check_mapped_files();
    begin_fault("case", number);
    add_faulty_position(&faulty);
    if (number == GLINT_IMAGE_LENGTH_DIFFERS && asked_image_length(files->sheet, &asked))
        add_file_length("asked_length", "the sheet asks for", asked);
    if (number == GLINT_IMAGE_LENGTH_DIFFERS)
        add_file_length("image_length", "the image has", files->image.length);
    if (number == GLINT_PAGEFILE_NOT_WHOLE_PAGES)
        add_file_length("pagefile_length", "the pagefile has", files->pagefile.length);
    add_faulty_row(&faulty);
    end_fault();
    return true;
}

_Noreturn void fail_for_changed_files(void)
{
    fail("the case's files were changed while they were read");
}
