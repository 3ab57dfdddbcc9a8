/* The cases that the benchmarks are run on. */
#ifndef CASE_H
#define CASE_H

#include <stddef.h>
#include <stdint.h>

enum {
    PAGE_BYTES = 4096,
    MOST_RUNS = 1000,
    MAPPED_PAGES = 1 << 20,
    LIST_NODES = 4096,
    PAE_PLACE = 65
};

#define WALK_IMAGE_BYTES ((size_t)64 << 20)
#define SEARCH_IMAGE_BYTES ((size_t)256 << 20)

/* A sheet and an image; the pagefile is empty and the directory is frame 0. */
struct bench_case {
    uint8_t *image;
    size_t image_length;
    uint8_t sheet[11 + 12 * MOST_RUNS]; /* no accepted sheet is longer */
    size_t sheet_length;
    uint64_t mode, place;
    uint64_t rows[3 * MOST_RUNS]; /* the runs as crates/sheet_reader hands them to the walk */
    size_t run_count;
    uint64_t list_head;
};

uint64_t next_random(void);

/* An image in so many runs, whose tables of this mode map MAPPED_PAGES pages from address 0 on, which are all that the 32-bit
 * modes have, and in mode 0 a list of LIST_NODES nodes in kernel space; all other words are times. `image` has room for
 * WALK_IMAGE_BYTES. */
void make_walk_case(struct bench_case *c, uint8_t *image, size_t run_count, uint64_t mode);

/* Runs that do not touch, with gaps and lengths of up to 2^21 pages. */
void make_runs_apart(uint64_t *starts, uint64_t *lengths, size_t count);

/* What an image has in it that is searched; none has a processor block. */
enum filling {
    ZEROS,
    KERNEL_ADDRESSES, /* one in 16 of any words */
    NOISE,            /* any words */
    POOLS             /* blocks of up to 40 units that fill each page, with any words in them */
};

/* An image of one run. `image` has room for SEARCH_IMAGE_BYTES. */
void make_search_case(struct bench_case *c, uint8_t *image, enum filling filling);

#endif
