#include "pool_verb.h"

#include "answer_numbers.h"
#include "fail.h"
#include "glintloom.h"
#include "mapped_file.h"
#include "progress.h"
#include "report.h"

#include <string.h>

/* Whether a header counts is decided in its own page, so the image is searched in parts of whole pages. There is a place
 * for each word of a part, so no part is refused. */
enum { PART_BYTES = 256 * GLINT_PAGE_BYTES, PART_HEADERS = PART_BYTES / POOL_HEADER_BYTES };

static uint8_t part[PART_BYTES];    /* a copy, which stays as it is while it is searched and shown */
static uint64_t offsets[PART_HEADERS];

/* The number for the image: the library refuses what stands behind the last whole page, if anything does. */
static uint64_t judge_length(const struct mapped_file *image)
{
    size_t rest = image->length % GLINT_PAGE_BYTES;
    if (rest > 0)
        memcpy(part, image->bytes + (image->length - rest), rest);
    check_mapped_files();
    return glint_pool_headers(part, rest, offsets, PART_HEADERS).number;
}

/* Reports the headers of the part that starts at an image offset, and gives their number. */
static uint64_t report_part(const struct mapped_file *image, size_t start)
{
    size_t left = image->length - start, length = left < PART_BYTES ? left : PART_BYTES;
    memcpy(part, image->bytes + start, length);
    check_mapped_files();
    glint_written headers = glint_pool_headers(part, length, offsets, PART_HEADERS);
    set_progress(start + length, image->length);
    add_headers(start, part, offsets, headers.length);
    return headers.length;
}

int pool_verb(const struct command *command)
{
    struct mapped_file image = map_file(command->files[0]);
    uint64_t number = judge_length(&image), count = 0;
    if (is_refusal(number)) {
        begin_item("image_length", image.length, number);
        end_answer();
        return REFUSED;
    }
    begin_headers(image.length);
    for (size_t start = 0; start < image.length; start += PART_BYTES)
        count += report_part(&image, start);
    end_headers(image.length, count);
    return ANSWERED;
}
