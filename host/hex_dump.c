#include "hex_dump.h"

#include <stdbool.h>
#include <stdio.h>
#include <string.h>

enum {
    HALF_ROW = 8,
    BYTES_AT = 20,                            /* behind 0x, the address and two blanks */
    TEXT_AT = BYTES_AT + 3 * ROW_BYTES + 2,   /* a blank between the halves, one before the text */
    ROW_END = TEXT_AT + ROW_BYTES + 2,
    DIGITS_BYTES = 512                        /* bytes whose digits are printed at once */
};

static const char digits[] = "0123456789ABCDEF";

static void put_byte(char *at, uint8_t byte)
{
    at[0] = digits[byte >> 4];
    at[1] = digits[byte & 15];
}

/* Where the digits of a row's byte stand. */
static size_t digits_at(size_t place)
{
    return BYTES_AT + 3 * place + (place >= HALF_ROW);
}

static void print_row(uint64_t address, const uint8_t *bytes, size_t count)
{
    char row[ROW_END];
    memset(row, ' ', sizeof row);
    row[0] = '0';
    row[1] = 'x';
    for (int i = 0; i < 8; i++)
        put_byte(row + 2 + 2 * i, (uint8_t)(address >> (56 - 8 * i)));
    row[TEXT_AT] = '|';
    for (size_t i = 0; i < count; i++) {
        put_byte(row + digits_at(i), bytes[i]);
        row[TEXT_AT + 1 + i] = bytes[i] >= ' ' && bytes[i] <= '~' ? (char)bytes[i] : '.';
    }
    row[TEXT_AT + 1 + count] = '|';
    fwrite(row, 1, TEXT_AT + 2 + count, stdout);
    putchar('\n');
}

/* Whether the row at a place is as the row before it, and neither the first nor the last. */
static bool is_repeated(const uint8_t *bytes, size_t at, size_t length)
{
    return at >= ROW_BYTES && length - at > ROW_BYTES && memcmp(bytes + at - ROW_BYTES, bytes + at, ROW_BYTES) == 0;
}

void print_hex_dump(uint64_t address, const uint8_t *bytes, size_t length)
{
    bool repeated = false;
    for (size_t at = 0; at < length; at += ROW_BYTES) {
        bool repeated_before = repeated;
        repeated = is_repeated(bytes, at, length);
        if (repeated && !repeated_before)
            fputs("*\n", stdout);
        if (!repeated)
            print_row(address + at, bytes + at, length - at < ROW_BYTES ? length - at : ROW_BYTES);
    }
}

void print_marked_row(uint64_t position, const uint8_t *row, size_t count)
{
    size_t place = position % ROW_BYTES;
    print_row(position - place, row, count);
    printf("%*s^^\n", (int)digits_at(place), "");
}

void print_hex_digits(const uint8_t *bytes, size_t length)
{
    char row[2 * DIGITS_BYTES];
    for (size_t at = 0; at < length; at += DIGITS_BYTES) {
        size_t count = length - at < DIGITS_BYTES ? length - at : DIGITS_BYTES;
        for (size_t i = 0; i < count; i++)
            put_byte(row + 2 * i, bytes[at + i]);
        fwrite(row, 1, 2 * count, stdout);
    }
}
