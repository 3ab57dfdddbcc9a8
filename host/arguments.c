#include "arguments.h"

#include "fail.h"

#include <stdbool.h>
#include <string.h>

const struct option options[] = {
    {OUTPUT, "-o",
     "  -o FILE        page (one address), read, map, sheet: raw bytes into FILE, which is made whole or not at all; with\n"
     "                 -o - they go to standard output, and the report to standard error\n"},
    {NO_PAGEFILE, "--no-pagefile", "  --no-pagefile  the case has no pagefile\n"},
    {ALL, "--all", "  --all          processor-block: every block from FROM on\n"},
    {PAGES, "--pages", "  --pages        sheet: DIRECTORY is a page, each RANGE is START+LENGTH in pages of 4,096 bytes\n"},
    {PLAIN, "--plain", "  --plain        sheet: a 32-bit machine without PAE, two levels of 4-byte entries\n"},
    {PAE, "--pae", "  --pae          sheet: a 32-bit machine with PAE, three levels of 8-byte entries\n"},
    {CR3, "--cr3",
     "  --cr3 VALUE    sheet, in place of DIRECTORY: the value of CR3, or of the DTB of a process; its bits from 12 on are\n"
     "                 the directory page and, with --pae, bits 5 to 11 the directory's place in it\n"},
    {JSON, "--json", "  --json         one JSON document; addresses, offsets and lengths are strings in hex\n"},
    {HELP, "--help", "  --help         this text, or what it says of a verb; so does -h\n"},
    {HELP, "-h", ""},
    {VERSION, "--version", "  --version      the version of the program\n"},
};

const size_t option_count = sizeof options / sizeof options[0];

static int option_named(const char *name)
{
    for (size_t i = 0; i < option_count; i++)
        if (strcmp(name, options[i].name) == 0)
            return options[i].option;
    fail("no option '%s'; 'glintloom help' lists them", name);
}

static void set_output(struct arguments *arguments, const char *name)
{
    if (name == NULL || arguments->output != NULL)
        fail("-o takes one file");
    arguments->output = name;
    arguments->options |= OUTPUT;
}

static void set_cr3(struct arguments *arguments, const char *value)
{
    if (value == NULL || arguments->cr3 != NULL)
        fail("--cr3 takes one value");
    arguments->cr3 = value;
    arguments->options |= CR3;
}

struct arguments split_words(char **words, int count)
{
    struct arguments arguments = {words, 0, 0, NULL, NULL};
    bool options_over = false;
    for (int i = 0; i < count; i++) {
        char *word = words[i];
        if (options_over || word[0] != '-')
            words[arguments.operand_count++] = word;
        else if (strcmp(word, "--") == 0)
            options_over = true;
        else if (strcmp(word, "-o") == 0)
            set_output(&arguments, ++i < count ? words[i] : NULL);
        else if (strncmp(word, "-o", 2) == 0)
            set_output(&arguments, word + 2);
        else if (strcmp(word, "--cr3") == 0)
            set_cr3(&arguments, ++i < count ? words[i] : NULL);
        else
            arguments.options |= option_named(word);
    }
    return arguments;
}
