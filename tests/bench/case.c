#include "case.h"

#include "glintloom.h"

#include <string.h>

enum { FRAMES = WALK_IMAGE_BYTES / PAGE_BYTES, NODE_BYTES = 16, UNITS = PAGE_BYTES / 8, MOST_UNITS = 40 };

#define KERNEL 0xFFFFFA8000000000u

uint64_t next_random(void) {
    static uint64_t state = 88172645463325252u;
    state ^= state << 13;
    state ^= state >> 7;
    state ^= state << 17;
    return state;
}

static void shuffle(uint64_t *numbers, size_t count) {
    for (size_t i = count - 1; i > 0; i--) {
        size_t j = next_random() % (i + 1);
        uint64_t kept = numbers[i];
        numbers[i] = numbers[j];
        numbers[j] = kept;
    }
}

static void put_number(struct bench_case *c, uint64_t n) {
    for (; n >= 128; n /= 128) c->sheet[c->sheet_length++] = (uint8_t)(128 + n % 128);
    c->sheet[c->sheet_length++] = (uint8_t)n;
}

/* The runs divide the image as evenly as they can. */
static uint64_t first_page(const struct bench_case *c, size_t run) { return run * (c->image_length / PAGE_BYTES) / c->run_count; }

/* Edition, directory page and, in edition 2, mode and place. */
static void make_address_space(struct bench_case *c, uint64_t mode) {
    c->mode = mode;
    c->place = mode == GLINT_MODE_PAE ? PAE_PLACE : 0;
    c->sheet_length = 0;
    put_number(c, mode == GLINT_MODE_FOUR_LEVEL ? 1 : 2);
    put_number(c, 0);
    if (mode == GLINT_MODE_FOUR_LEVEL) return;
    put_number(c, c->mode);
    put_number(c, c->place);
}

/* Runs one frame apart. */
static void make_runs(struct bench_case *c, size_t run_count, uint64_t mode) {
    c->run_count = run_count;
    make_address_space(c, mode);
    put_number(c, run_count);
    for (size_t i = 0; i < run_count; i++) {
        uint64_t first = first_page(c, i), after = first_page(c, i + 1);
        c->rows[3 * i] = first + i;
        c->rows[3 * i + 1] = after + i;
        c->rows[3 * i + 2] = i;
        put_number(c, i != 0);
        put_number(c, after - first);
    }
}

/* A page's run is the last whose first page is not behind it. */
static uint64_t frame_of(const struct bench_case *c, uint64_t page) { return page + ((page + 1) * c->run_count - 1) / FRAMES; }

static void put_word(struct bench_case *c, uint64_t page, uint64_t place, uint64_t word) {
    memcpy(c->image + page * PAGE_BYTES + place, &word, 8);
}

/* A valid entry in the table at image page `table`, for the frame of image page `to`. */
static void put_entry(struct bench_case *c, uint64_t table, uint64_t index, uint64_t to) {
    put_word(c, table, 8 * index, frame_of(c, to) << 12 | 1);
}

/* Tables below 4 entries of the table at image page `top`, from entry `first` on, for MAPPED_PAGES pages that lead to any
 * pages of the image: 4 + 2,048 of them. Takes the first of `unused`, and hands back the rest. */
static const uint64_t *map_below(struct bench_case *c, uint64_t top, uint64_t first, const uint64_t *unused) {
    const uint64_t *directories = unused, *tables = directories + 4, *behind = tables + 2048;
    for (uint64_t i = 0; i < 4; i++) put_entry(c, top, first + i, directories[i]);
    for (uint64_t i = 0; i < 2048; i++) put_entry(c, directories[i / 512], i % 512, tables[i]);
    for (uint64_t i = 0; i < MAPPED_PAGES; i++) put_entry(c, tables[i / 512], i % 512, next_random() % FRAMES);
    return behind;
}

static const uint64_t *map_pages(struct bench_case *c, const uint64_t *unused) {
    put_entry(c, 0, 0, *unused);
    return map_below(c, *unused, 0, unused + 1);
}

/* An entry of 4 bytes. */
static void put_plain_entry(struct bench_case *c, uint64_t table, uint64_t index, uint64_t to) {
    uint32_t entry = (uint32_t)(frame_of(c, to) << 12 | 1);
    memcpy(c->image + table * PAGE_BYTES + 4 * index, &entry, 4);
}

/* The same with 1,024 tables of 4-byte entries. */
static void map_plain_pages(struct bench_case *c, const uint64_t *tables) {
    for (uint64_t i = 0; i < 1024; i++) put_plain_entry(c, 0, i, tables[i]);
    for (uint64_t i = 0; i < MAPPED_PAGES; i++) put_plain_entry(c, tables[i / 1024], i % 1024, next_random() % FRAMES);
}

/* The head and each node in a page of its own, linked in a shuffled order. */
static void make_list(struct bench_case *c, const uint64_t *unused) {
    static uint64_t order[LIST_NODES + 1], places[LIST_NODES + 1];
    enum { CELLS = LIST_NODES + 1, TABLES = (CELLS + 511) / 512 };
    const uint64_t *pointers = unused, *directory = unused + 1, *tables = directory + 1, *pages = tables + TABLES;
    put_entry(c, 0, KERNEL >> 39 & 511, *pointers);
    put_entry(c, *pointers, KERNEL >> 30 & 511, *directory);
    for (uint64_t i = 0; i < TABLES; i++) put_entry(c, *directory, (KERNEL >> 21 & 511) + i, tables[i]);
    for (uint64_t i = 0; i < CELLS; i++) {
        put_entry(c, tables[i / 512], i % 512, pages[i]);
        order[i] = i;
        places[i] = next_random() % ((PAGE_BYTES - NODE_BYTES) / 8 + 1) * 8;
    }
    shuffle(order, CELLS);
    for (uint64_t i = 0; i < CELLS; i++) {
        uint64_t from = order[i], to = order[(i + 1) % CELLS];
        put_word(c, pages[from], places[from], KERNEL + to * PAGE_BYTES + places[to]);
        put_word(c, pages[to], places[to] + 8, KERNEL + from * PAGE_BYTES + places[from]);
    }
    c->list_head = KERNEL + order[0] * PAGE_BYTES + places[order[0]];
}

/* Words that are ticks of years from 1970 on. */
static void fill_with_times(struct bench_case *c) {
    for (size_t o = 0; o < c->image_length; o += 8) {
        uint64_t ticks = 116444736000000000u + next_random() % ((uint64_t)1 << 54);
        memcpy(c->image + o, &ticks, 8);
    }
}

void make_walk_case(struct bench_case *c, uint8_t *image, size_t run_count, uint64_t mode) {
    static uint64_t free_pages[FRAMES - 1];
    c->image = image;
    c->image_length = WALK_IMAGE_BYTES;
    make_runs(c, run_count, mode);
    fill_with_times(c);
    for (uint64_t i = 0; i < FRAMES - 1; i++) free_pages[i] = i + 1;
    shuffle(free_pages, FRAMES - 1);
    if (mode == GLINT_MODE_PLAIN) map_plain_pages(c, free_pages);
    else if (mode == GLINT_MODE_PAE) map_below(c, 0, PAE_PLACE * GLINT_PLACE_BYTES / 8, free_pages);
    else make_list(c, map_pages(c, free_pages));
}

void make_runs_apart(uint64_t *starts, uint64_t *lengths, size_t count) {
    for (size_t i = 0, end = 0; i < count; i++) {
        starts[i] = end + 1 + (next_random() & ((1 << next_random() % 22) - 1));
        lengths[i] = 1 + (next_random() & ((1 << next_random() % 22) - 1));
        end = starts[i] + lengths[i];
    }
}

/* Headers one block after the other, each with the size of the one before, type 1 and a tag of letters. */
static void lay_pool(struct bench_case *c, uint64_t page) {
    for (uint64_t place = 0, previous = 0, size; place < UNITS; place += size, previous = size) {
        size = 1 + next_random() % MOST_UNITS;
        if (size > UNITS - place) size = UNITS - place;
        put_word(c, page, 8 * place, previous | size << 16 | (uint64_t)1 << 25 | (uint64_t)0x636F7250 << 32);
    }
}

void make_search_case(struct bench_case *c, uint8_t *image, enum filling filling) {
    c->image = image;
    c->image_length = SEARCH_IMAGE_BYTES;
    make_runs(c, 1, GLINT_MODE_FOUR_LEVEL);
    memset(image, 0, c->image_length);
    for (size_t o = 0; filling != ZEROS && o < c->image_length; o += 8) {
        uint64_t word = next_random();
        if (filling == KERNEL_ADDRESSES && word % 16 == 0) word |= KERNEL;
        memcpy(image + o, &word, 8);
    }
    for (uint64_t page = 0; filling == POOLS && page < c->image_length / PAGE_BYTES; page++) lay_pool(c, page);
}
