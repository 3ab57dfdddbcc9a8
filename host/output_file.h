/* The file of -o: whole, or as it was before. */
#ifndef OUTPUT_FILE_H
#define OUTPUT_FILE_H

#include <stdbool.h>
#include <stddef.h>
#include <stdint.h>

/* Whether the name is -, for standard output. */
bool is_standard_output(const char *name);

/* Keeps standard output for the bytes: what is printed there from now on goes to standard error. Once, and before anything
 * is written to -. */
void report_on_standard_error(void);

/* Writes a file whole: to a temporary name in its directory, which takes the file's name at the end. A device, a pipe or -
 * is written to directly. Ends the program with FAILED if it cannot be written, if it is one of the mapped files, a regular
 * file that is open on any descriptor, or a device or pipe that standard output or standard error leads to. */
void write_output_file(const char *name, const uint8_t *bytes, size_t length);

#endif
