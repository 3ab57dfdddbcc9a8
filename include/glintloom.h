/* The calls of the Glintloom library.
 *
 * Any bytes may be handed in, damaged or not: each call ends with its answer or with one refusal, and a refused call
 * leaves `out` as it was. C keeps what the library cannot see:
 *   - each pointer is valid for its length (NULL with length 0 is an empty slice), and each length is the true one;
 *   - `out` lies apart from the inputs;
 *   - nobody changes the inputs, or the files that they are mapped from, during the call.
 * `sheet` is the case sheet, of 1 to 1,000 runs, `image` the raw memory image, `pagefile` the pagefile (length 0 if there is
 * none).
 *
 * Threads: the calls keep no state, so any number of them may run at once, also over the same inputs; each needs an `out`
 * of its own.
 * Alignment: a uint64_t * is a multiple of 8, as C has it; bytes may lie anywhere.
 * ABI: x86-64 System V alone; the records are handed back by value.
 * Cost: each call on a case reads its sheet anew. A lookup reads the whole map from its start for each address, since the
 * map's faults come first: over a long map glint_resolve is cheaper. A read, a map or a list is gone through twice, so that
 * a refused one writes nothing; the search reads the image from `from` to the block. */
#ifndef GLINTLOOM_H
#define GLINTLOOM_H

#include <stddef.h>
#include <stdint.h>

#ifdef __cplusplus
extern "C" {
#endif

/* The version of this header. MAJOR, which the shared library's name carries, moves where a program that was compiled with
 * an older header could no longer run; MINOR where only something was added; PATCH where the header stays. */
#define GLINT_VERSION_MAJOR 3
#define GLINT_VERSION_MINOR 1
#define GLINT_VERSION_PATCH 0

/* What the number of an answer is about. */
enum glint_kind {
    GLINT_KIND_ANSWER,     /* the call answers, with no place in a file */
    GLINT_KIND_PLACE,      /* it answers with a place in a file */
    GLINT_KIND_CASE,       /* it refuses the case as a whole; some of these refuse a map, or runs to be written, too */
    GLINT_KIND_ADDRESS,    /* it refuses an address of the case */
    GLINT_KIND_CALL        /* it refuses by a rule of its own, on maps, reads, times, lists, blocks, pools or sheets to be
                              written */
};

/* The numbers of the answers, each as (name, number, kind, words). */
#define GLINT_ANSWERS(X)                                                                        \
    X(DONE, 0, ANSWER, "done")                                                                  \
    X(IN_IMAGE, 1, PLACE, "found in the image")                                                 \
    X(IN_PAGEFILE, 2, PLACE, "found in the pagefile")                                           \
    X(ZEROS, 3, ANSWER, "page of zeros, by the tables")

/* The numbers of the refusals, each as (name, number, kind, words). */
#define GLINT_REFUSALS(X)                                                                       \
    X(TRUNCATED, 10, CASE, "sheet or map ends inside a number, or before its last field")       \
    X(NUMBER_TOO_LONG, 11, CASE, "number over 6 groups")                                        \
    X(OUT_OF_LIMITS, 12, CASE, "edition, or a number outside its stated limits")                \
    X(BAD_RUN, 13, CASE, "run gap, length or end wrong")                                        \
    X(TRAILING_BYTES, 14, CASE, "bytes after the last field")                                   \
    X(IMAGE_LENGTH_DIFFERS, 15, CASE, "image length is not the sum of the runs")                \
    X(PAGEFILE_NOT_WHOLE_PAGES, 16, CASE, "pagefile length not a multiple of 4,096")            \
    X(SHEET_BUFFER_SHORT, 17, CALL, "sheet buffer too short")                                   \
    X(NUMBER_NOT_SHORTEST, 18, CASE, "number not in its shortest form")                         \
    X(NOT_CANONICAL, 20, ADDRESS, "address not canonical, or past the top (2^32 for 32 bits)")  \
    X(UPPER_ENTRY_NOT_VALID, 21, ADDRESS, "first or second level entry not valid")              \
    X(REGION_NEEDED, 22, ADDRESS, "region record needed")                                       \
    X(FRAME_IN_NO_RUN, 23, ADDRESS, "frame in no run")                                          \
    X(FRAME_TOO_WIDE, 24, ADDRESS, "frame too wide")                                            \
    X(FILE_BACKED, 25, ADDRESS, "backed by a file")                                             \
    X(OTHER_PAGEFILE, 26, ADDRESS, "another pagefile")                                          \
    X(PAST_PAGEFILE, 27, ADDRESS, "past the pagefile's end")                                    \
    X(PROTOTYPE_CHAIN_TOO_LONG, 28, ADDRESS, "a fourth prototype entry would be needed")        \
    X(PROTOTYPE_UNALIGNED, 29, ADDRESS, "prototype address not a multiple of 8")                \
    X(PAGE_IN_STORE, 31, ADDRESS, "page is in the compressed store")                            \
    X(RESERVED_BIT_SET, 33, ADDRESS, "reserved bit of an upper page table entry set")           \
    X(STATE_NOT_FOLLOWED, 34, ADDRESS, "entry of a 32-bit profile in a state not followed")     \
    X(MODE_NOT_SERVED, 37, CALL, "processor block or list asked of a 32-bit profile")           \
    X(BAD_MAP_RANGE, 40, CALL, "map range wrong")                                               \
    X(OUTSIDE_MAP, 41, CALL, "address outside the map")                                         \
    X(BAD_EXTENT, 43, CALL, "extent wrong")                                                     \
    X(MAP_BUFFER_SHORT, 44, CALL, "map buffer too short")                                       \
    X(READ_BUFFER_SHORT, 45, CALL, "read buffer too short")                                     \
    X(LINK_UNALIGNED, 50, CALL, "list address not a multiple of 8")                             \
    X(BACK_LINK_DIFFERS, 51, CALL, "back link differs")                                         \
    X(TOO_MANY_PROCESSES, 52, CALL, "over 4,096 processes")                                     \
    X(LIST_BUFFER_SHORT, 53, CALL, "list buffer too short")                                     \
    X(NO_PROCESSOR_BLOCK, 55, CALL, "no processor block at or after the offset")                \
    X(TIME_ZERO, 60, CALL, "time zero")                                                         \
    X(TIME_TOO_LARGE, 61, CALL, "ticks of 2^63 or more")                                        \
    X(IMAGE_NOT_WHOLE_PAGES, 70, CALL, "image not whole pages")                                 \
    X(POOL_BUFFER_SHORT, 71, CALL, "more pool headers than the list buffer has places")

#define GLINT_ENUMERATOR(name, number, kind, words) GLINT_##name = number,
enum { GLINT_ANSWERS(GLINT_ENUMERATOR) GLINT_REFUSALS(GLINT_ENUMERATOR) GLINT_FIRST_REFUSAL = 10 };
#undef GLINT_ENUMERATOR

enum {
    GLINT_PAGE_BYTES = 4096,
    GLINT_MAP_PAGES = 1 << 20,     /* a map's range has at most these */
    GLINT_LIST_PROCESSES = 4096,   /* a list has at most these, so `out` of this length is never too short */
    GLINT_SHEET_RUNS = 1000,       /* a sheet has at most these */
    GLINT_CASE_NUMBERS = 3 * GLINT_SHEET_RUNS,   /* `out` of this length is never too short for a case's runs */
    GLINT_PAGE_POOL_HEADERS = 512  /* a page has at most these, so `out` of as many for each page is never too short */
};

/* The profile of a case: the paging mode of its machine, by Intel's manual. Addresses of the 32-bit profiles are below 2^32;
 * their tables are asked for valid entries and entries in transition alone, and lead to the image or to a refusal. */
enum glint_mode {
    GLINT_MODE_FOUR_LEVEL,    /* 64-bit, four levels of 8-byte entries: a sheet of edition 1 */
    GLINT_MODE_PLAIN,         /* 32-bit, two levels of 4-byte entries */
    GLINT_MODE_PAE            /* 32-bit with physical address extension, three levels of 8-byte entries */
};

/* The place of a directory in its page is how many times 32 bytes it lies into it: 0 to 127 with PAE, as bits 5 to 11 of CR3
 * have it, and 0 in the other modes, whose top table is a whole page. */
enum { GLINT_PLACE_BYTES = 32 };

/* No sheet is longer: 1, 6, 1, 1 and 2 bytes before the runs, then at most 12 bytes a run (gap 6, length 6). */
#define GLINT_SHEET_BYTES ((size_t)11 + (size_t)12 * GLINT_SHEET_RUNS)

/* No map is longer: 1, 6 and 3 bytes before the extents, then at most 8 bytes a page (code 1, length 1, first page 6). */
#define GLINT_MAP_BYTES ((size_t)10 + (size_t)8 * GLINT_MAP_PAGES)

/* A refusal by 11 or 18 hands back the position of the number at fault: the byte of the sheet or map, counted from its start,
 * at which that number begins. Each record says in which field; glint_part and glint_time_answer have none for it. */

/* number: 1 or 2 (then offset is the addressed byte's in the image or pagefile), 3, or a refusal (offset is the position for
 * 11 and 18, and 0 for 3 and all other refusals); entries: page table and prototype entries read, again if read again, at
 * most 19, and 2 or 3 with GLINT_MODE_PLAIN or GLINT_MODE_PAE. */
typedef struct { uint64_t number, offset, entries; } glint_answer;

/* number: 0, or a refusal (then length is the position for 11 and 18, else 0, and zeros is 0); length: bytes written; zeros:
 * 1 if a byte came from a page of zeros. */
typedef struct { uint64_t number, length, zeros; } glint_bytes;

/* file: 1 image, 2 pagefile, 0 the empty part (then offset and length are 0). */
typedef struct { uint64_t file, offset, length; } glint_part;

/* number: 0, or a refusal (then length is the position for 11 and 18, else 0); length: elements of `out` written, or of
 * glint_image_length bytes. */
typedef struct { uint64_t number, length; } glint_written;

/* number: 0, or a refusal (then directory, mode and place are 0, and length is the position for 11 and 18, else 0);
 * directory: the frame of the top table; mode: one of enum glint_mode; place: the directory's in that frame; length: runs. */
typedef struct { uint64_t number, directory, mode, place, length; } glint_case_read;

/* number: 1, 2, 3, 21 to 29, 31, 33 or 34 as the map has it, or a refusal of the lookup; offset: for 1 and 2 the addressed
 * byte's, for 11 and 18 the position, else 0. */
typedef struct { uint64_t number, offset; } glint_found;

/* Whole seconds since 1 January 1601 UTC, and the ticks of 100 nanoseconds left over, 0 to 9,999,999; both exact. */
typedef struct { double seconds, ticks; } glint_time;

/* number: 0, or a refusal (then both doubles are 0). */
typedef struct { uint64_t number; glint_time time; } glint_time_answer;

/* These two are plain C and not proved; the calls after them are. Their texts stay for the whole run. */

/* The version of the library that runs, as "MAJOR.MINOR.PATCH". */
const char *glint_version(void);

/* The words of a number, or NULL for a number that no answer has. */
const char *glint_words(uint64_t number);

/* Where an address leads. */
glint_answer glint_resolve(const uint8_t *sheet, size_t sheet_length, const uint8_t *image, size_t image_length,
                           const uint8_t *pagefile, size_t pagefile_length, uint64_t address);

/* The 4,096 bytes of an address's page, as a part of one of the two files; the empty part for a page of zeros and for
 * refusals, which glint_resolve tells apart. */
glint_part glint_page(const uint8_t *sheet, size_t sheet_length, const uint8_t *image, size_t image_length,
                      const uint8_t *pagefile, size_t pagefile_length, uint64_t address);

/* n bytes from an address on into `out`: all of them, or the refusal of the first byte that has one; 45 if n is more than
 * out_length. Bytes past n stay. */
glint_bytes glint_read(const uint8_t *sheet, size_t sheet_length, const uint8_t *image, size_t image_length,
                       const uint8_t *pagefile, size_t pagefile_length, uint64_t address, uint64_t n,
                       uint8_t *out, size_t out_length);

/* The time in the 8 bytes from an address on, at any alignment: a FILETIME, lowest byte first. Refused in this order: by the
 * first byte that is refused, 60 for eight zeros, also those of a page of zeros, 61 for 2^63 ticks or more. */
glint_time_answer glint_read_time(const uint8_t *sheet, size_t sheet_length, const uint8_t *image, size_t image_length,
                                  const uint8_t *pagefile, size_t pagefile_length, uint64_t address);

/* The map of `pages` pages (1 to 2^20) from `start` (a multiple of 4,096) on into `out`, all in one half of the addresses or,
 * of a 32-bit profile, below 2^32; else 40. 44 exactly if it is longer than `out`. Bytes past the map stay. A library without
 * number 31 took a page of the compressed store for one of the pagefile, and one without number 33 went on behind an entry
 * with a reserved bit: their maps are still read, may name places that hold nothing of the page, and are to be made again.
 * Either says 43 to a map with the code that it lacks, as one without number 34 does to a map with code 34; a map without
 * such a page has the same bytes by all, and each reads it. */
glint_written glint_map(const uint8_t *sheet, size_t sheet_length, const uint8_t *image, size_t image_length,
                        const uint8_t *pagefile, size_t pagefile_length, uint64_t start, uint64_t pages,
                        uint8_t *out, size_t out_length);

/* What a map has for an address; the map's own faults come first. A map does not say of what profile it is, so 20 here is
 * for addresses that are not canonical alone. */
glint_found glint_lookup(const uint8_t *map, size_t map_length, uint64_t address);

/* The processor block of 64-bit Windows 7 with the smallest image offset not below `from`: number 1, its offset, and the
 * entries read for its own address; or 55. A case of a 32-bit profile has none: 37. */
glint_answer glint_processor_block(const uint8_t *sheet, size_t sheet_length, const uint8_t *image, size_t image_length,
                                   const uint8_t *pagefile, size_t pagefile_length, uint64_t from);

/* The node addresses of the list from `head` on, in order and without `head`, into `out`; out_length counts 64-bit numbers,
 * and so does the answer's length. Numbers past it stay. A case of a 32-bit profile is 37, whatever the head. */
glint_written glint_process_list(const uint8_t *sheet, size_t sheet_length, const uint8_t *image, size_t image_length,
                                 const uint8_t *pagefile, size_t pagefile_length, uint64_t head,
                                 uint64_t *out, size_t out_length);

/* What the sheet of a case says, checked with the lengths of its two files: the directory page, mode and place, and for each
 * run three numbers into `out`: first frame, pages, and image page, which is how many pages the runs before it have.
 * out_length counts 64-bit numbers: 53 exactly if three a run are more. Numbers past them stay. */
glint_case_read glint_case(const uint8_t *sheet, size_t sheet_length, uint64_t image_length, uint64_t pagefile_length,
                           uint64_t *out, size_t out_length);

/* The length in bytes that a sheet asks of its image, or the sheet's own fault, 10 to 14 or 18: what glint_case compares with
 * image_length for 15. */
glint_written glint_image_length(const uint8_t *sheet, size_t sheet_length);

/* The image offsets that hold a pool header of 32-bit Windows XP or later, ascending, into `out`: 70 if the image is not
 * whole pages, then 71 exactly if there are more headers than out_length; out_length counts 64-bit numbers, and so does the
 * answer's length. Numbers past it stay. A header depends on its page alone, so an image may be handed in by parts of whole
 * pages; the offsets are then from the part's start. */
glint_written glint_pool_headers(const uint8_t *image, size_t image_length, uint64_t *out, size_t out_length);

/* The sheet of a directory page, its mode and its place, and of runs, given by their starts and lengths in pages, into `out`;
 * runs that touch are joined. It is of edition 1 for GLINT_MODE_FOUR_LEVEL, and else of edition 2, to which a library of
 * version 2 says 12. 12 for a number of 2^36 or more, a mode above 2, a place above 127 or, but for GLINT_MODE_PAE, other
 * than 0, lists that differ in length, or a count outside 1 to 1,000; then 13 for a length 0, a start before the end of the
 * run given just before, an end past page 2^36, or joined runs of all 2^36 pages; then 17 exactly if the sheet is longer than
 * `out`. Bytes past the sheet stay. */
glint_written glint_write_sheet(uint64_t directory, uint64_t mode, uint64_t place, const uint64_t *starts,
                                size_t starts_length, const uint64_t *lengths, size_t lengths_length,
                                uint8_t *out, size_t out_length);

#ifdef __cplusplus
}
#endif

#endif
