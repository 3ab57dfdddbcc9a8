#include "help.h"

#include "arguments.h"
#include "glintloom.h"

static const char case_help[] =
    "CASE is SHEET IMAGE PAGEFILE, three files, or SHEET IMAGE --no-pagefile; or a folder that holds files of the names\n"
    "sheet, image and, unless --no-pagefile is given, pagefile. An empty file is taken as one. The files must not be\n"
    "changed while the program runs.\n";

static const char number_help[] =
    "Numbers are hex (0x..) or decimal, of 64 bits. Hex are also 16 digits with a letter among them, and what a debugger\n"
    "writes with a backquote (fffff8a0`02bd2ed8). 16 digits without a letter, and decimals that begin with 0, are wrong\n"
    "use: they might be either.\n";

static const char address_help[] =
    "With [ADDRESS...] left out, addresses are read from standard input, one to a line; blank lines are skipped.\n";

static const char answer_help[] =
    "A page of zeros is filled in where the tables say so, and is marked in words: on standard error with -o.\n"
    "A refusal is shown with its number and words; no byte of a page is shown and no file is made for it. A case or map\n"
    "that is refused as a whole is told once, whatever was asked; for 11 and 18 the byte at which the number begins is\n"
    "told and marked.\n";

static const char status_help[] =
    "Exit status: 0 answered; 1 refused, also if only one of several addresses is; 2 wrong use, a file that cannot\n"
    "be had or written, or lack of memory: then what stands on standard output may not be all.\n";

static void print_verb_line(FILE *stream, const struct verb *verb)
{
    enum { SUMMARY_AT = 42 };
    int width = fprintf(stream, "glintloom %s %s", verb->name, verb->operands);
    fprintf(stream, "%*s%s\n", width < SUMMARY_AT ? SUMMARY_AT - width : 1, "", verb->summary);
}

static void print_options(FILE *stream, int taken)
{
    fputc('\n', stream);
    for (size_t i = 0; i < option_count; i++)
        if ((options[i].option & taken) != 0)
            fputs(options[i].help, stream);
    fputs("  --             what follows is no option\n\n", stream);
}

static void print_verb_help(FILE *stream, const struct verb *verb)
{
    print_verb_line(stream, verb);
    fprintf(stream, "\n%s", verb->details);
    if (verb->files == FILES_OF_CASE)
        fputs(case_help, stream);
    if (verb->most_numbers != 0)
        fputs(number_help, stream);
    if (takes_addresses(verb))
        fputs(address_help, stream);
    print_options(stream, verb->options | OPTIONS_OF_EVERY_VERB);
    if (verb->files > 0)
        fputs(answer_help, stream);
    fputs(status_help, stream);
}

void print_help(FILE *stream, const struct verb *verb)
{
    if (verb != NULL) {
        print_verb_help(stream, verb);
        return;
    }
    fputs("glintloom - where the addresses of a Windows memory image lead\n\n", stream);
    for (size_t i = 0; i < verb_count; i++)
        print_verb_line(stream, &verbs[i]);
    fprintf(stream, "\n%s%s%s", case_help, number_help, address_help);
    print_options(stream, ~0);
    fprintf(stream, "%s\n%s", answer_help, status_help);
}

void print_version(FILE *stream)
{
    fprintf(stream, "glintloom %s\n", glint_version());
}
