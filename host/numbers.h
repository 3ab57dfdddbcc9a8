/* Numbers as people write them. */
#ifndef NUMBERS_H
#define NUMBERS_H

#include <stdbool.h>
#include <stddef.h>
#include <stdint.h>

/* Reads a number of 64 bits, nothing before or behind it: hex as 0x.., as 16 digits with a letter among them or as a
 * debugger writes it, with a backquote before the last 8 digits; else decimal. Gives NULL, or what is wrong in words. What
 * could be meant as hex or as decimal, since it begins with 0 or has 16 digits, is wrong. */
const char *parse_number(const char *text, size_t length, uint64_t *number);

enum { LINE_ROOM = 128 };

/* Reads a line of standard input without its blanks at either end, those within as one; false at the end of input. What
 * fills the room is cut, and is no number. */
bool read_line(char text[LINE_ROOM], size_t *length);

/* Addresses of the command line or, if it has none, of standard input, one to a line. */
struct addresses {
    const uint64_t *given;
    size_t given_count;
    size_t next;
    bool from_input;
    uint64_t line;
};

struct addresses addresses_of(const uint64_t *given, size_t given_count);

/* Answers that are given together if their addresses come together: the files are then looked at once for all of them. */
enum { MOST_TOGETHER = 64 };

/* Takes the next addresses: waits for one, and takes the others that are there already, up to `most`. Gives their count, 0
 * behind the last. Ends the program with FAILED at a line that is no address, once those before it were taken. */
size_t next_addresses(struct addresses *addresses, uint64_t *taken, size_t most);

#endif
