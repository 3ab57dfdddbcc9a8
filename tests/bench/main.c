/* Compares the exported calls, and the walk on a parsed case, with the same calls in C and with memcpy, on the same data. */
#include <stdio.h>
#include <stdlib.h>
#include <string.h>
#include <time.h>

#include "case.h"
#include "in_c.h"

enum { ADDRESSES = 1 << 16, SMALL_READS = 1 << 12, LARGE_READS = 1 << 8, SMALL = 64, LARGE = 1 << 16, LISTS = 16, SHEETS = 1 << 10 };
enum { WALK_TURNS = 15, SEARCH_TURNS = 7 };

#define OUT_BYTES ((size_t)16 << 20)

/* One side of the comparison. */
struct calls {
    __typeof__(bench_walk_pages) *walk_pages;
    __typeof__(bench_walk_one) *walk_one;
    __typeof__(glint_resolve) *resolve;
    __typeof__(glint_read) *read;
    __typeof__(glint_read_time) *read_time;
    __typeof__(glint_map) *map;
    __typeof__(glint_write_sheet) *write_sheet;
    __typeof__(glint_processor_block) *processor_block;
    __typeof__(glint_process_list) *process_list;
    __typeof__(glint_pool_headers) *pool_headers;
};

static const struct calls exported = {
    bench_walk_pages,  bench_walk_one,        glint_resolve,      glint_read,        glint_read_time, glint_map,
    glint_write_sheet, glint_processor_block, glint_process_list, glint_pool_headers};
static const struct calls in_c = {c_walk_pages,  c_walk_one,        c_resolve,      c_read,        c_read_time, c_map,
                                  c_write_sheet, c_processor_block, c_process_list, c_pool_headers};

static const uint8_t no_pagefile[1];
static uint64_t random_addresses[ADDRESSES];
static uint64_t starts[GLINT_SHEET_RUNS], lengths[GLINT_SHEET_RUNS];
static uint64_t unexpected; /* answers of another number than the work has */

#define CASE(c) (c)->sheet, (c)->sheet_length, (c)->image, (c)->image_length, no_pagefile, 0
#define PARSED(c) (c)->rows, 3 * (c)->run_count, (c)->image, (c)->image_length
#define SPACE(c) 0, (c)->mode, (c)->place

/* ---- the work; each hands back a sum of its answers */

static uint64_t sum_of(glint_answer answer, uint64_t number) {
    unexpected += answer.number != number;
    return answer.number + answer.offset + answer.entries;
}

static uint64_t walk_consecutive(const struct calls *call, const struct bench_case *c, uint8_t *out) {
    (void)out;
    return call->walk_pages(PARSED(c), no_pagefile, 0, SPACE(c), 0, MAPPED_PAGES);
}

static uint64_t walk_random(const struct calls *call, const struct bench_case *c, uint8_t *out) {
    uint64_t sum = 0;
    (void)out;
    for (int i = 0; i < ADDRESSES; i++) sum += call->walk_one(PARSED(c), no_pagefile, 0, SPACE(c), random_addresses[i]);
    return sum;
}

static uint64_t resolve_consecutive(const struct calls *call, const struct bench_case *c, uint8_t *out) {
    uint64_t sum = 0;
    (void)out;
    for (uint64_t i = 0; i < ADDRESSES; i++) sum += sum_of(call->resolve(CASE(c), PAGE_BYTES * i), 1);
    return sum;
}

static uint64_t resolve_random(const struct calls *call, const struct bench_case *c, uint8_t *out) {
    uint64_t sum = 0;
    (void)out;
    for (int i = 0; i < ADDRESSES; i++) sum += sum_of(call->resolve(CASE(c), random_addresses[i]), 1);
    return sum;
}

static uint64_t resolve_checked(const struct bench_case *c, uint8_t *out) {
    uint64_t sum = 0;
    (void)out;
    for (int i = 0; i < ADDRESSES; i++) sum += sum_of(c_resolve_checked(PARSED(c), SPACE(c), random_addresses[i]), 1);
    return sum;
}

static uint64_t read_random(const struct calls *call, const struct bench_case *c, uint8_t *out, int reads, uint64_t n) {
    uint64_t sum = 0;
    for (int i = 0; i < reads; i++) {
        glint_bytes bytes = call->read(CASE(c), random_addresses[i] / 2, n, out, OUT_BYTES);
        unexpected += bytes.number != 0;
        sum += bytes.length + out[0] + out[n - 1];
    }
    return sum;
}

static uint64_t read_small(const struct calls *call, const struct bench_case *c, uint8_t *out) {
    return read_random(call, c, out, SMALL_READS, SMALL);
}

static uint64_t read_large(const struct calls *call, const struct bench_case *c, uint8_t *out) {
    return read_random(call, c, out, LARGE_READS, LARGE);
}

static uint64_t time_random(const struct calls *call, const struct bench_case *c, uint8_t *out) {
    uint64_t sum = 0;
    (void)out;
    for (int i = 0; i < SMALL_READS; i++) {
        glint_time_answer answer = call->read_time(CASE(c), random_addresses[i] / 16 * 8);
        /* A link of the list has too many ticks. */
        unexpected += answer.number != 0 && answer.number != GLINT_TIME_TOO_LARGE;
        sum += answer.number + (uint64_t)answer.time.seconds + (uint64_t)answer.time.ticks;
    }
    return sum;
}

static uint64_t map_all(const struct calls *call, const struct bench_case *c, uint8_t *out) {
    glint_written map = call->map(CASE(c), 0, MAPPED_PAGES, out, OUT_BYTES);
    unexpected += map.number != 0;
    return map.length;
}

static uint64_t write_sheets(const struct calls *call, const struct bench_case *c, uint8_t *out) {
    uint64_t sum = 0;
    for (uint64_t i = 0; i < SHEETS; i++) {
        glint_written sheet = call->write_sheet(i, 0, 0, starts, c->run_count, lengths, c->run_count, out, OUT_BYTES);
        unexpected += sheet.number != 0;
        sum += sheet.length;
    }
    return sum;
}

static uint64_t list_nodes(const struct calls *call, const struct bench_case *c, uint8_t *out) {
    uint64_t sum = 0;
    for (int i = 0; i < LISTS; i++) {
        glint_written list = call->process_list(CASE(c), c->list_head, (uint64_t *)(void *)out, LIST_NODES);
        unexpected += list.number != 0 || list.length != LIST_NODES;
        sum += list.length;
    }
    return sum;
}

static uint64_t search_block(const struct calls *call, const struct bench_case *c, uint8_t *out) {
    (void)out;
    return sum_of(call->processor_block(CASE(c), 0), 55);
}

static uint64_t search_pool(const struct calls *call, const struct bench_case *c, uint8_t *out) {
    glint_written headers = call->pool_headers(c->image, c->image_length, (uint64_t *)(void *)out, OUT_BYTES / 8);
    unexpected += headers.number != 0;
    return headers.length;
}

/* ---- memcpy of the bytes that the work has to go through */

static void copy_large(const struct bench_case *c, uint8_t *out) {
    for (int i = 0; i < LARGE_READS; i++) {
        memcpy(out, c->image + random_addresses[i] % (c->image_length - LARGE), LARGE);
        __asm__ volatile("" ::: "memory");
    }
}

static void copy_image(const struct bench_case *c, uint8_t *out) {
    memcpy(out, c->image, c->image_length);
    __asm__ volatile("" ::: "memory");
}

/* ---- measuring */

struct work {
    const char *name;
    double units; /* what the name's "a .." counts */
    uint64_t (*run)(const struct calls *call, const struct bench_case *c, uint8_t *out);
    void (*copy)(const struct bench_case *c, uint8_t *out);      /* NULL: memcpy is not the limit */
    uint64_t (*other)(const struct bench_case *c, uint8_t *out); /* the C side, where it is not `run` */
};

/* The first of these are done in the 32-bit modes too. */
enum { WORKS_OF_EVERY_MODE = 4 };

static const struct work walk_works[] = {
    {"walk on a parsed case, consecutive, one call, a page", MAPPED_PAGES, walk_consecutive, NULL, NULL},
    {"walk on a parsed case, random, a call", ADDRESSES, walk_random, NULL, NULL},
    {"address, consecutive pages, a call", ADDRESSES, resolve_consecutive, NULL, NULL},
    {"address, random, a call", ADDRESSES, resolve_random, NULL, NULL},
    {"address, random, a call; C does not check the sheet", ADDRESSES, resolve_random, NULL, resolve_checked},
    {"read of 64 bytes, random, a call", SMALL_READS, read_small, NULL, NULL},
    {"time, random, a call", SMALL_READS, time_random, NULL, NULL},
    {"read of 64 KiB, random, a call", LARGE_READS, read_large, copy_large, NULL},
    {"map of 2^20 pages, a page", MAPPED_PAGES, map_all, NULL, NULL},
    {"process list of 4,096 nodes, a node", (double)LISTS * LIST_NODES, list_nodes, NULL, NULL},
};

static const struct work write_work = {"sheet written, a run", (double)SHEETS * GLINT_SHEET_RUNS, write_sheets, NULL, NULL};

enum { SEARCHED_PAGES = SEARCH_IMAGE_BYTES / PAGE_BYTES };

static const struct {
    enum filling filling;
    struct work work;
} searches[] = {
    {ZEROS, {"processor block, 256 MiB of zeros, a page", SEARCHED_PAGES, search_block, copy_image, NULL}},
    {KERNEL_ADDRESSES,
     {"processor block, 256 MiB with kernel addresses, a page", SEARCHED_PAGES, search_block, copy_image, NULL}},
    {ZEROS, {"pool headers, 256 MiB of zeros, a page", SEARCHED_PAGES, search_pool, copy_image, NULL}},
    {NOISE, {"pool headers, 256 MiB of noise, a page", SEARCHED_PAGES, search_pool, copy_image, NULL}},
    {POOLS, {"pool headers, 256 MiB of dense pools, a page", SEARCHED_PAGES, search_pool, copy_image, NULL}},
};

static const size_t run_counts[] = {1, 2, 8, 32, 210, MOST_RUNS}, run_counts_of_32_bits[] = {1, 32};

static double seconds(void) {
    struct timespec t;
    clock_gettime(CLOCK_MONOTONIC, &t);
    return (double)t.tv_sec + (double)t.tv_nsec * 1e-9;
}

static uint8_t *outs[3]; /* of the exports, of C, of memcpy */

/* The time and the sum of one side: 0 the exports, 1 C, 2 memcpy. */
static double time_side(const struct work *work, const struct bench_case *c, int side, uint64_t *sum) {
    double start = seconds();
    if (side == 0) *sum = work->run(&exported, c, outs[0]);
    if (side == 1) *sum = work->other ? work->other(c, outs[1]) : work->run(&in_c, c, outs[1]);
    if (side == 2) work->copy(c, outs[2]);
    return seconds() - start;
}

/* Prints a row: the best of some turns, in which the sides take turns. */
static void measure(const struct work *work, const struct bench_case *c, int turns) {
    double best[3] = {1e9, 1e9, 1e9};
    uint64_t sums[3] = {0, 0, 0};
    int sides = work->copy ? 3 : 2;
    unexpected = 0;
    for (int turn = 0; turn < turns; turn++)
        for (int side = 0; side < sides; side++) {
            double time = time_side(work, c, side, &sums[side]);
            if (time < best[side]) best[side] = time;
        }
    if (unexpected || sums[0] != sums[1] || memcmp(outs[0], outs[1], OUT_BYTES)) {
        printf("%s: the answers are not as expected, or differ\n", work->name);
        exit(1);
    }
    double ns = 1e9 / work->units;
    printf("%-56s %4d %4zu %10.1f %10.1f %7.2f", work->name, (int)c->mode, c->run_count, best[0] * ns, best[1] * ns,
           best[0] / best[1]);
    if (work->copy) printf(" %10.1f %11.2f", best[2] * ns, best[0] / best[2]);
    printf("\n");
    fflush(stdout);
}

/* Prints the rows of a mode, for an image in so many runs. */
static void measure_walks(struct bench_case *c, uint8_t *image, size_t run_count, uint64_t mode, size_t works) {
    make_walk_case(c, image, run_count, mode);
    for (int i = 0; i < ADDRESSES; i++) random_addresses[i] = next_random() % ((uint64_t)MAPPED_PAGES * PAGE_BYTES);
    for (size_t i = 0; i < works; i++) measure(&walk_works[i], c, WALK_TURNS);
}

int main(void) {
    struct bench_case c = {0};
    uint8_t *image = aligned_alloc(PAGE_BYTES, SEARCH_IMAGE_BYTES);
    for (int side = 0; side < 3; side++) {
        size_t bytes = side == 2 ? SEARCH_IMAGE_BYTES : OUT_BYTES;
        outs[side] = aligned_alloc(PAGE_BYTES, bytes);
        if (!image || !outs[side]) return 1;
        memset(outs[side], 0, bytes);
    }
    printf("%-56s %4s %4s %10s %10s %7s %10s %11s\n", "", "mode", "runs", "ours, ns", "C, ns", "ours/C", "memcpy, ns",
           "ours/memcpy");
    for (size_t k = 0; k < sizeof run_counts / sizeof *run_counts; k++)
        measure_walks(&c, image, run_counts[k], GLINT_MODE_FOUR_LEVEL, sizeof walk_works / sizeof *walk_works);
    for (uint64_t mode = GLINT_MODE_PLAIN; mode <= GLINT_MODE_PAE; mode++)
        for (size_t k = 0; k < sizeof run_counts_of_32_bits / sizeof *run_counts_of_32_bits; k++)
            measure_walks(&c, image, run_counts_of_32_bits[k], mode, WORKS_OF_EVERY_MODE);
    c.mode = GLINT_MODE_FOUR_LEVEL;
    c.run_count = GLINT_SHEET_RUNS;
    make_runs_apart(starts, lengths, c.run_count);
    measure(&write_work, &c, WALK_TURNS);
    for (size_t i = 0; i < sizeof searches / sizeof *searches; i++) {
        make_search_case(&c, image, searches[i].filling);
        measure(&searches[i].work, &c, SEARCH_TURNS);
    }
    free(image);
    for (int side = 0; side < 3; side++) free(outs[side]);
    return 0;
}
