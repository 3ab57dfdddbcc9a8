/* Input files, mapped read-only and private. */
#ifndef MAPPED_FILE_H
#define MAPPED_FILE_H

#include <stdbool.h>
#include <stddef.h>
#include <stdint.h>
#include <sys/stat.h>

/* An empty file has bytes NULL and length 0. */
struct mapped_file {
    const uint8_t *bytes;
    size_t length;
};

/* Maps a regular file of a stated length for the rest of the run; its time of access stays, where the system allows that.
 * Touching a page that the file has lost since ends the program with FAILED. */
struct mapped_file map_file(const char *name);

/* Ends the program with FAILED if the file system records that the content of a mapped file may have changed since it was
 * mapped; a change of its links, owner or rights alone is told. What a file lost of its last page reads as zeros, so an
 * answer may be shown only after this. */
void check_mapped_files(void);

/* Whether this is one of the mapped files. */
bool is_mapped_file(const struct stat *status);

#endif
