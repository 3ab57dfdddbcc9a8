/* The files of a case, and the refusal of a case as a whole. */
#ifndef CASE_FILES_H
#define CASE_FILES_H

#include "mapped_file.h"

#include <stdbool.h>

struct case_files {
    struct mapped_file sheet, image, pagefile;
};

/* The three slices, as the first arguments of a call. */
#define SLICES(c) \
    (c).sheet.bytes, (c).sheet.length, (c).image.bytes, (c).image.length, (c).pagefile.bytes, (c).pagefile.length

/* Maps sheet, image and pagefile; a missing pagefile is NULL. */
struct case_files map_case(char *const names[3]);

/* Whether the case is refused whatever is asked of it; then that is reported, once. */
bool report_case_fault(const struct case_files *files);

/* For answers that contradict each other. */
_Noreturn void fail_for_changed_files(void);

#endif
