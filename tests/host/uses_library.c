/* A small program over the installed library: `uses_library SHEET IMAGE PAGEFILE ADDRESS` prints the library's version, then
 * number, offset, entries and words of where the address leads. */
#include <glintloom.h>

#include <inttypes.h>
#include <stdio.h>
#include <stdlib.h>

enum { MOST_BYTES = 1 << 16 };

#if GLINT_VERSION_MAJOR != 3
#error "another header"
#endif

static size_t read_file(const char *name, uint8_t *bytes)
{
    FILE *file = fopen(name, "rb");
    if (file == NULL)
        exit(2);
    size_t length = fread(bytes, 1, MOST_BYTES, file);
    fclose(file);
    return length;
}

int main(int count, char **words)
{
    static uint8_t sheet[MOST_BYTES], image[MOST_BYTES], pagefile[MOST_BYTES];
    if (count != 5)
        return 2;
    size_t sheet_length = read_file(words[1], sheet);
    size_t image_length = read_file(words[2], image);
    size_t pagefile_length = read_file(words[3], pagefile);
    uint64_t address = strtoull(words[4], NULL, 0);
    glint_answer answer =
        glint_resolve(sheet, sheet_length, image, image_length, pagefile, pagefile_length, address);
    printf("%s\n", glint_version());
    printf("%" PRIu64 " %" PRIu64 " %" PRIu64 " %s\n", answer.number, answer.offset, answer.entries, glint_words(answer.number));
    return 0;
}
