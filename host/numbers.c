#include "numbers.h"

#include "fail.h"

#include <errno.h>
#include <inttypes.h>
#include <string.h>
#include <unistd.h>

enum { DIGITS_OF_64_BITS = 16, DIGITS_BEHIND_BACKQUOTE = 8 };

static const char no_number[] = "no number in hex (0x..) or decimal of 64 bits";
static const char unclear_number[] = "hex or decimal? Write hex as 0x.., decimal without 0 in front and not with 16 digits";

static int digit_value(char c)
{
    if (c >= '0' && c <= '9')
        return c - '0';
    if (c >= 'a' && c <= 'f')
        return c - 'a' + 10;
    if (c >= 'A' && c <= 'F')
        return c - 'A' + 10;
    return 16;
}

static bool all_digits(const char *text, size_t length, int base)
{
    for (size_t i = 0; i < length; i++)
        if (digit_value(text[i]) >= base)
            return false;
    return length > 0;
}

/* Reads digits on behind those of `number`. */
static const char *parse_digits(const char *text, size_t length, int base, uint64_t *number)
{
    if (!all_digits(text, length, base))
        return no_number;
    for (size_t i = 0; i < length; i++) {
        uint64_t digit = (uint64_t)digit_value(text[i]);
        if (*number > (UINT64_MAX - digit) / (uint64_t)base)
            return no_number;
        *number = *number * (uint64_t)base + digit;
    }
    return NULL;
}

static const char *parse_hex(const char *text, size_t length, uint64_t *number)
{
    const char *backquote = memchr(text, '`', length);
    size_t before = backquote != NULL ? (size_t)(backquote - text) : length;
    const char *fault = parse_digits(text, before, 16, number);
    if (fault != NULL || backquote == NULL)
        return fault;
    size_t behind = length - before - 1;
    return behind == DIGITS_BEHIND_BACKQUOTE ? parse_digits(backquote + 1, behind, 16, number) : no_number;
}

const char *parse_number(const char *text, size_t length, uint64_t *number)
{
    *number = 0;
    if (length > 2 && text[0] == '0' && (text[1] == 'x' || text[1] == 'X'))
        return parse_hex(text + 2, length - 2, number);
    if (memchr(text, '`', length) != NULL)
        return parse_hex(text, length, number);
    bool decimal = all_digits(text, length, 10);
    if (decimal && (length == DIGITS_OF_64_BITS || (length > 1 && text[0] == '0')))
        return unclear_number;
    return parse_digits(text, length, !decimal && length == DIGITS_OF_64_BITS ? 16 : 10, number);
}

struct addresses addresses_of(const uint64_t *given, size_t given_count)
{
    struct addresses addresses = {given, given_count, 0, given_count == 0, 0};
    return addresses;
}

/* What was read of standard input and not yet taken. */
static struct {
    char bytes[1 << 16];
    size_t next, end;
} input;

/* Waits for input; false at its end. */
static bool fill_input(void)
{
    ssize_t count;
    do
        count = read(STDIN_FILENO, input.bytes, sizeof input.bytes);
    while (count < 0 && errno == EINTR);
    if (count < 0)
        fail("standard input: %s", strerror(errno));
    input.next = 0;
    input.end = (size_t)count;
    return count > 0;
}

static bool is_blank(char c)
{
    return c == ' ' || c == '\t' || c == '\r';
}

bool read_line(char text[LINE_ROOM], size_t *length)
{
    size_t count = 0;
    bool any = false, blank_before = false;
    while (input.next < input.end || fill_input()) {
        char c = input.bytes[input.next++];
        any = true;
        if (c == '\n')
            break;
        if (!is_blank(c) && blank_before && count > 0 && count < LINE_ROOM)
            text[count++] = ' ';
        if (!is_blank(c) && count < LINE_ROOM)
            text[count++] = c;
        blank_before = is_blank(c);
    }
    *length = count;
    return any;
}

static const char *parse_line(const char text[LINE_ROOM], size_t length, uint64_t *address)
{
    return length == LINE_ROOM ? no_number : parse_number(text, length, address);
}

static bool next_line(struct addresses *addresses, uint64_t *address)
{
    char text[LINE_ROOM];
    size_t length;
    while (read_line(text, &length)) {
        addresses->line++;
        if (length == 0)
            continue;
        const char *fault = parse_line(text, length, address);
        if (fault != NULL)
            fail("standard input, line %" PRIu64 ": %s", addresses->line, fault);
        return true;
    }
    return false;
}

/* The next address; false behind the last. */
static bool next_address(struct addresses *addresses, uint64_t *address)
{
    if (addresses->from_input)
        return next_line(addresses, address);
    if (addresses->next == addresses->given_count)
        return false;
    *address = addresses->given[addresses->next++];
    return true;
}

/* Whether the line at hand is whole and an address. */
static bool line_at_hand(void)
{
    char text[LINE_ROOM];
    size_t length, next = input.next;
    uint64_t address;
    if (memchr(input.bytes + next, '\n', input.end - next) == NULL)
        return false;
    read_line(text, &length);
    input.next = next;
    return length > 0 && parse_line(text, length, &address) == NULL;
}

static bool is_at_hand(const struct addresses *addresses)
{
    return addresses->from_input ? line_at_hand() : addresses->next < addresses->given_count;
}

size_t next_addresses(struct addresses *addresses, uint64_t *taken, size_t most)
{
    size_t count = 0;
    while (count < most && (count == 0 || is_at_hand(addresses)) && next_address(addresses, &taken[count]))
        count++;
    return count;
}
