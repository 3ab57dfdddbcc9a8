/* Bytes in hex on standard output. */
#ifndef HEX_DUMP_H
#define HEX_DUMP_H

#include <stddef.h>
#include <stdint.h>

enum { ROW_BYTES = 16 };

/* Lines of an address, 16 bytes and the same bytes as ASCII; * for rows as the one before them, but never for the last. */
void print_hex_dump(uint64_t address, const uint8_t *bytes, size_t length);

/* The line of a file's dump that holds the byte at a position, and a mark below that byte; the line has `count` bytes. */
void print_marked_row(uint64_t position, const uint8_t *row, size_t count);

/* Two digits a byte and nothing between. */
void print_hex_digits(const uint8_t *bytes, size_t length);

#endif
