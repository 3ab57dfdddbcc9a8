#include "safe_text.h"

#include <stdbool.h>
#include <stdint.h>
#include <stdio.h>
#include <stdlib.h>
#include <string.h>

/* Whether the second byte makes a character behind this first one: not overlong, no surrogate, none of U+0080 to U+009F. */
static bool second_byte_fits(uint8_t first, uint8_t second)
{
    switch (first) {
    case 0xC2: return second >= 0xA0;
    case 0xE0: return second >= 0xA0;
    case 0xED: return second < 0xA0;
    case 0xF0: return second >= 0x90;
    case 0xF4: return second < 0x90;
    }
    return true;
}

/* The bytes of the character that stands here in UTF-8, or 0 if there is none or it is a control character. */
static size_t character_bytes(const uint8_t *at)
{
    if (at[0] >= ' ' && at[0] <= '~')
        return 1;
    if (at[0] < 0xC2 || at[0] > 0xF4)
        return 0;
    size_t count = at[0] >= 0xF0 ? 4 : at[0] >= 0xE0 ? 3 : 2;
    for (size_t i = 1; i < count; i++)
        if ((at[i] & 0xC0) != 0x80)
            return 0;
    return second_byte_fits(at[0], at[1]) ? count : 0;
}

char *safe_text(const char *text)
{
    enum { LONGEST = sizeof "\\xNN" - 1 };
    char *safe = malloc(LONGEST * strlen(text) + 1), *end = safe;
    if (safe == NULL)
        return NULL;
    while (*text != '\0') {
        size_t count = character_bytes((const uint8_t *)text);
        if (count > 0)
            memcpy(end, text, count);
        else
            snprintf(end, LONGEST + 1, "\\x%02X", (unsigned)(uint8_t)*text);
        end += count > 0 ? count : LONGEST;
        text += count > 0 ? count : 1;
    }
    *end = '\0';
    return safe;
}
