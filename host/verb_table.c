#include "verb_table.h"

#include "arguments.h"
#include "case_verb.h"
#include "fail.h"
#include "pool_verb.h"
#include "sheet_verb.h"
#include "time_verb.h"

#include <string.h>

const struct verb verbs[] = {
    {"sheet", "DIRECTORY [RANGE...]", "the case sheet of ranges of physical memory",
     "DIRECTORY is the physical address of the top page table, CR3 or the DTB of a process; --cr3 VALUE may stand in its\n"
     "place. The machine is a 64-bit one, unless --plain or --pae says otherwise. A RANGE is START+LENGTH or START-END, in\n"
     "bytes and of whole pages; END is the last byte or the byte behind it. Each range starts at or behind the end of the\n"
     "one before; those that touch are joined. Shown are the sheet's length, what was given, with the profile and in bytes\n"
     "and in pages, the image length that the ranges ask for, and the sheet's bytes.\n"
     "With [RANGE...] left out, ranges are read from standard input, one to a line; blank lines are skipped.\n",
     0, 1, ANY_RANGES, OUTPUT | PAGES | PLAIN | PAE | CR3, sheet_verb},
    {"case", "CASE", "the profile, the directory, the runs and the lengths of a case",
     "Shown are the profile (64-bit four-level, 32-bit plain or 32-bit PAE), the directory and its page, with PAE its place\n"
     "in units of 32 bytes, the runs of physical memory with their places in the image, and the image length that the sheet\n"
     "asks for beside the one that the file has; or the case's fault.\n",
     FILES_OF_CASE, 0, 0, NO_PAGEFILE, case_verb},
    {"resolve", "CASE [ADDRESS...]", "where each address leads",
     "For each address the offset in its file, or its refusal, and the page table entries read.\n",
     FILES_OF_CASE, 0, ANY_COUNT, NO_PAGEFILE, resolve_verb},
    {"page", "CASE [ADDRESS...]", "the 4,096 bytes of each address's page",
     "The address that is shown is the page's start.\n",
     FILES_OF_CASE, 0, ANY_COUNT, NO_PAGEFILE | OUTPUT, page_verb},
    {"read", "CASE ADDRESS LENGTH", "LENGTH bytes, all or none",
     "A line comes before each stretch of bytes that lead to one place, and on from there, or are all of pages of zeros.\n"
     "A refused read names the first address that is refused.\n",
     FILES_OF_CASE, 2, 2, NO_PAGEFILE | OUTPUT, read_verb},
    {"time", "CASE [ADDRESS...]", "the time at each address, in UTC",
     "The 8 bytes from each address on are a FILETIME: ticks of 100 ns since 1 January 1601 UTC, lowest byte first. Shown\n"
     "are whole seconds, the ticks left over, and the date and time in UTC. A time of zero is refused, as is one of 2^63\n"
     "ticks or more.\n",
     FILES_OF_CASE, 0, ANY_COUNT, NO_PAGEFILE, time_verb},
    {"map", "CASE START PAGES", "the map of a range of pages",
     "START is a multiple of 4,096, PAGES is 1 to 1,048,576. Shown are the map's length and bytes.\n",
     FILES_OF_CASE, 2, 2, NO_PAGEFILE | OUTPUT, map_verb},
    {"lookup", "MAP [ADDRESS...]", "what a map has for each address",
     "MAP is a file that 'glintloom map -o' made.\n",
     1, 0, ANY_COUNT, 0, lookup_verb},
    {"processor-block", "CASE [FROM]", "the first processor block at image offset FROM or later",
     "Shown are the block's image offset, its own address (Self) and its directory page (CR3). The search takes no\n"
     "directory page from the sheet. FROM is 0 if it is left out.\n",
     FILES_OF_CASE, 0, 1, NO_PAGEFILE | ALL, processor_block_verb},
    {"list", "CASE HEAD", "the nodes of the process list with this head",
     "Shown is the address of each node, in order; the head is not among them.\n",
     FILES_OF_CASE, 1, 1, NO_PAGEFILE, list_verb},
    {"pool", "IMAGE", "the pool headers of a 32-bit machine's image, each with its 8 bytes",
     "IMAGE is an image alone, of whole pages. Behind the last header stand the image's length and how many there are.\n",
     1, 0, 0, 0, pool_verb},
    {"explain", "[NUMBER...]", "what each number means and what can be done; without one, the words of all",
     "The numbers are those of answers and refusals.\n",
     0, 0, ANY_COUNT, 0, explain_verb},
    {"help", "[VERB]", "this text, or what it says of one verb",
     "With --help behind it a verb says the same.\n",
     0, 0, 0, 0, NULL},
};

const size_t verb_count = sizeof verbs / sizeof verbs[0];

const struct verb *verb_named(const char *name)
{
    for (size_t i = 0; i < verb_count; i++)
        if (strcmp(name, verbs[i].name) == 0)
            return &verbs[i];
    fail("no verb '%s'; 'glintloom help' lists them", name);
}

bool takes_addresses(const struct verb *verb)
{
    return verb->files > 0 && verb->most_numbers == ANY_COUNT;
}

bool takes_ranges(const struct verb *verb)
{
    return verb->most_numbers == ANY_RANGES;
}
