#include "asked_length.h"

#include "glintloom.h"

bool asked_image_length(struct mapped_file sheet, uint64_t *length)
{
    glint_written asked = glint_image_length(sheet.bytes, sheet.length);
    *length = asked.length;
    return asked.number == GLINT_DONE;
}
