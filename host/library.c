/* What the library has beside the proved calls, in plain C. */
#include "glintloom.h"

#define TEXT(word) #word
#define VERSION_TEXT(major, minor, patch) TEXT(major) "." TEXT(minor) "." TEXT(patch)

const char *glint_version(void)
{
    return VERSION_TEXT(GLINT_VERSION_MAJOR, GLINT_VERSION_MINOR, GLINT_VERSION_PATCH);
}

const char *glint_words(uint64_t number)
{
#define WORDS(name, value, kind, words) case value: return words;
    switch (number) {
        GLINT_ANSWERS(WORDS)
        GLINT_REFUSALS(WORDS)
    }
#undef WORDS
    return NULL;
}
