/* The image length that a case sheet asks for, to stand beside the one that a file has. */
#ifndef ASKED_LENGTH_H
#define ASKED_LENGTH_H

#include "mapped_file.h"

#include <stdbool.h>
#include <stdint.h>

/* False for a sheet that has a fault of its own. */
bool asked_image_length(struct mapped_file sheet, uint64_t *length);

#endif
