#include "in_c.h"

#include <stdbool.h>
#include <string.h>

enum { PAGE_BYTES = 4096, MOST_RUNS = 1000, MOST_NODES = 4096 };

/* Refusals, as documents 01 and 02 number them. */
enum {
    TRUNCATED = 10,
    NUMBER_TOO_LONG = 11,
    OUT_OF_LIMITS = 12,
    BAD_RUN = 13,
    TRAILING_BYTES = 14,
    IMAGE_LENGTH_DIFFERS = 15,
    PAGEFILE_NOT_WHOLE_PAGES = 16,
    SHEET_BUFFER_SHORT = 17,
    NUMBER_NOT_SHORTEST = 18,
    NOT_CANONICAL = 20,
    UPPER_ENTRY_NOT_VALID = 21,
    REGION_NEEDED = 22,
    FRAME_IN_NO_RUN = 23,
    FRAME_TOO_WIDE = 24,
    RESERVED_BIT_SET = 33,
    STATE_NOT_FOLLOWED = 34,
    MODE_NOT_SERVED = 37,
    BAD_MAP_RANGE = 40,
    MAP_BUFFER_SHORT = 44,
    READ_BUFFER_SHORT = 45,
    LINK_UNALIGNED = 50,
    BACK_LINK_DIFFERS = 51,
    TOO_MANY_PROCESSES = 52,
    LIST_BUFFER_SHORT = 53,
    NO_PROCESSOR_BLOCK = 55,
    TIME_ZERO = 60,
    TIME_TOO_LARGE = 61,
    IMAGE_NOT_WHOLE_PAGES = 70,
    TOO_MANY_POOL_HEADERS = 71
};

#define NO_PAGE UINT64_MAX

/* What the walk looks at. */
struct world {
    const uint64_t *rows;
    size_t row_numbers;
    uint64_t directory, mode, place;
    const uint8_t *image;
    uint64_t image_length;
};

/* ---- the sheet */

struct sheet {
    uint64_t directory, mode, place;
    uint64_t rows[3 * MOST_RUNS];
    size_t row_numbers;
};

static inline __attribute__((always_inline)) uint64_t read_field(const uint8_t *bytes, size_t length, size_t *at,
                                                                 uint64_t *value) {
    *value = 0;
    for (int shift = 0; shift < 42; shift += 7) {
        if (*at == length) return TRUNCATED;
        uint64_t group = bytes[(*at)++];
        *value |= (group & 127) << shift;
        if (group >= 128) continue;
        if (group == 0 && shift > 0) return NUMBER_NOT_SHORTEST;
        return *value >> 36 ? OUT_OF_LIMITS : 0;
    }
    return NUMBER_TOO_LONG;
}

static uint64_t read_runs(const uint8_t *bytes, size_t length, size_t *at, uint64_t count, struct sheet *sheet, uint64_t *pages) {
    uint64_t end = 0, gap, run, fault;
    *pages = 0;
    for (uint64_t i = 0; i < count; i++) {
        if ((fault = read_field(bytes, length, at, &gap))) return fault;
        if ((fault = read_field(bytes, length, at, &run))) return fault;
        if (gap < (i > 0) || run == 0 || end + gap + run > (uint64_t)1 << 36) return BAD_RUN;
        sheet->rows[3 * i] = end + gap;
        sheet->rows[3 * i + 1] = end = end + gap + run;
        sheet->rows[3 * i + 2] = sheet->rows[3 * i] - *pages;
        *pages += run;
    }
    sheet->row_numbers = 3 * count;
    return 0;
}

/* A call, or gcc no longer compiles the check of the sheet into c_resolve, and C would be the slower in mode 0. */
static __attribute__((noinline)) uint64_t read_mode(const uint8_t *bytes, size_t length, size_t *at, struct sheet *sheet) {
    uint64_t fault;
    if ((fault = read_field(bytes, length, at, &sheet->mode))) return fault;
    if (sheet->mode < GLINT_MODE_PLAIN || sheet->mode > GLINT_MODE_PAE) return OUT_OF_LIMITS;
    if ((fault = read_field(bytes, length, at, &sheet->place))) return fault;
    return sheet->place > (sheet->mode == GLINT_MODE_PAE ? 127 : 0) ? OUT_OF_LIMITS : 0;
}

static uint64_t check_sheet(const uint8_t *bytes, size_t length, uint64_t image_length, uint64_t pagefile_length,
                            struct sheet *sheet) {
    uint64_t edition, count, pages, fault;
    size_t at = 0;
    if ((fault = read_field(bytes, length, &at, &edition))) return fault;
    if (edition != 1 && edition != 2) return OUT_OF_LIMITS;
    if ((fault = read_field(bytes, length, &at, &sheet->directory))) return fault;
    sheet->mode = sheet->place = 0;
    if (edition == 2 && (fault = read_mode(bytes, length, &at, sheet))) return fault;
    if ((fault = read_field(bytes, length, &at, &count))) return fault;
    if (count < 1 || count > MOST_RUNS) return OUT_OF_LIMITS;
    if ((fault = read_runs(bytes, length, &at, count, sheet, &pages))) return fault;
    if (at != length) return TRAILING_BYTES;
    if (image_length != PAGE_BYTES * pages) return IMAGE_LENGTH_DIFFERS;
    return pagefile_length % PAGE_BYTES ? PAGEFILE_NOT_WHOLE_PAGES : 0;
}

static struct world world_of(const struct sheet *sheet, const uint8_t *image, size_t image_length) {
    return (struct world){sheet->rows, sheet->row_numbers, sheet->directory, sheet->mode, sheet->place, image, image_length};
}

/* ---- the walk */

static uint64_t word_at(const uint8_t *bytes) {
    uint64_t word;
    memcpy(&word, bytes, 8);
    return word;
}

static uint32_t half_word_at(const uint8_t *bytes) {
    uint32_t word;
    memcpy(&word, bytes, 4);
    return word;
}

static uint64_t page_of_frame(const struct world *w, uint64_t frame) {
    size_t low = 0, high = w->row_numbers / 3;
    while (low < high) {
        size_t middle = low + (high - low) / 2;
        const uint64_t *row = w->rows + 3 * middle;
        if (frame < row[0]) {
            high = middle;
        } else if (frame < row[1]) {
            uint64_t page = frame - row[2];
            return page < w->image_length / PAGE_BYTES ? page : NO_PAGE;
        } else {
            low = middle + 1;
        }
    }
    return NO_PAGE;
}

static glint_answer refused(uint64_t number, uint64_t entries) { return (glint_answer){number, 0, entries}; }

static glint_answer in_frame(const struct world *w, uint64_t frame, uint64_t a, uint64_t entries) {
    uint64_t page = page_of_frame(w, frame);
    if (page == NO_PAGE) return refused(FRAME_IN_NO_RUN, entries);
    return (glint_answer){1, page * PAGE_BYTES + a % PAGE_BYTES, entries};
}

/* Valid, or in transition. */
static bool is_followed(uint64_t entry) { return (entry & 1) || (entry >> 10 & 3) == 2; }

static glint_answer walk_plain(const struct world *w, uint64_t a) {
    if (a >> 32) return refused(NOT_CANONICAL, 0);
    uint64_t page = page_of_frame(w, w->directory);
    if (page == NO_PAGE) return refused(FRAME_IN_NO_RUN, 0);
    uint32_t entry = half_word_at(w->image + page * PAGE_BYTES + (a >> 22) * 4);
    if (!(entry & 1)) return refused(UPPER_ENTRY_NOT_VALID, 1);
    if (entry & 128) {
        if (entry >> 13 & 511) return refused(FRAME_TOO_WIDE, 1);
        return in_frame(w, (entry >> 22 << 10) | (a >> 12 & 1023), a, 1);
    }
    page = page_of_frame(w, entry >> 12);
    if (page == NO_PAGE) return refused(FRAME_IN_NO_RUN, 1);
    entry = half_word_at(w->image + page * PAGE_BYTES + (a >> 12 & 1023) * 4);
    if (!is_followed(entry)) return refused(STATE_NOT_FOLLOWED, 2);
    return in_frame(w, entry >> 12, a, 2);
}

static glint_answer walk_pae(const struct world *w, uint64_t a) {
    uint64_t frame = w->directory, table = GLINT_PLACE_BYTES * w->place, entries = 0;
    if (a >> 32) return refused(NOT_CANONICAL, 0);
    for (int low = 30;; low -= 9, table = 0) {
        uint64_t page = page_of_frame(w, frame);
        if (page == NO_PAGE) return refused(FRAME_IN_NO_RUN, entries);
        uint64_t entry = word_at(w->image + page * PAGE_BYTES + table + (a >> low & 511) * 8);
        entries++;
        if (!(entry & 1)) {
            if (low > 12) return refused(UPPER_ENTRY_NOT_VALID, entries);
            if (!is_followed(entry)) return refused(STATE_NOT_FOLLOWED, entries);
        } else if (entry >> 48 & 15) {
            return refused(FRAME_TOO_WIDE, entries);
        }
        frame = entry >> 12 & 0xFFFFFFFFF;
        if (low == 12) return in_frame(w, frame, a, entries);
        if (entry & 128) {
            if (low == 30 || (frame & 510)) return refused(RESERVED_BIT_SET, entries);
            return in_frame(w, (frame & ~(uint64_t)511) | (a >> 12 & 511), a, entries);
        }
    }
}

static glint_answer walk_four_level(const struct world *w, uint64_t a) {
    uint64_t high = a >> 47, frame = w->directory, entries = 0, page;
    if (high != 0 && high != 0x1FFFF) return refused(NOT_CANONICAL, 0);
    for (int low = 39;; low -= 9) {
        page = page_of_frame(w, frame);
        if (page == NO_PAGE) return refused(FRAME_IN_NO_RUN, entries);
        uint64_t entry = word_at(w->image + page * PAGE_BYTES + (a >> low & 511) * 8);
        entries++;
        if (!(entry & 1)) return refused(low > 21 ? UPPER_ENTRY_NOT_VALID : REGION_NEEDED, entries);
        if (entry >> 48 & 15) return refused(FRAME_TOO_WIDE, entries);
        frame = entry >> 12 & 0xFFFFFFFFF;
        if (low == 12) break;
        if (entry & 128) {
            uint64_t small = ((uint64_t)1 << (low - 12)) - 1;
            /* The first bit of the frame is PAT. */
            if (low == 39 || (frame & small & ~(uint64_t)1)) return refused(RESERVED_BIT_SET, entries);
            frame = (frame & ~small) | (a >> 12 & small);
            break;
        }
    }
    return in_frame(w, frame, a, entries);
}

static glint_answer walk(const struct world *w, uint64_t a) {
    if (w->mode == GLINT_MODE_FOUR_LEVEL) return walk_four_level(w, a);
    return w->mode == GLINT_MODE_PLAIN ? walk_plain(w, a) : walk_pae(w, a);
}

uint64_t c_walk_one(const uint64_t *rows, size_t rows_length, const uint8_t *image, size_t image_length,
                    const uint8_t *pagefile, size_t pagefile_length, uint64_t directory, uint64_t mode, uint64_t place,
                    uint64_t address) {
    struct world w = {rows, rows_length, directory, mode, place, image, image_length};
    (void)pagefile, (void)pagefile_length;
    return walk(&w, address).offset;
}

uint64_t c_walk_pages(const uint64_t *rows, size_t rows_length, const uint8_t *image, size_t image_length,
                      const uint8_t *pagefile, size_t pagefile_length, uint64_t directory, uint64_t mode, uint64_t place,
                      uint64_t start, uint64_t pages) {
    struct world w = {rows, rows_length, directory, mode, place, image, image_length};
    uint64_t sum = 0;
    (void)pagefile, (void)pagefile_length;
    for (uint64_t i = 0; i < pages; i++) sum += walk(&w, start + PAGE_BYTES * i).offset;
    return sum;
}

glint_answer c_resolve_checked(const uint64_t *rows, size_t rows_length, const uint8_t *image, size_t image_length,
                               uint64_t directory, uint64_t mode, uint64_t place, uint64_t address) {
    struct world w = {rows, rows_length, directory, mode, place, image, image_length};
    return walk(&w, address);
}

glint_answer c_resolve(const uint8_t *sheet, size_t sheet_length, const uint8_t *image, size_t image_length,
                       const uint8_t *pagefile, size_t pagefile_length, uint64_t address) {
    struct sheet s;
    uint64_t fault = check_sheet(sheet, sheet_length, image_length, pagefile_length, &s);
    (void)pagefile;
    if (fault) return refused(fault, 0);
    struct world w = world_of(&s, image, image_length);
    return walk(&w, address);
}

/* ---- bytes */

/* A refused read changes no byte, so the pages are walked once before any is copied. */
static uint64_t read_pass(const struct world *w, uint64_t address, uint64_t n, uint8_t *out, bool copying) {
    for (uint64_t i = 0; i < n;) {
        if (i > UINT64_MAX - address) return NOT_CANONICAL;
        uint64_t a = address + i, m = PAGE_BYTES - a % PAGE_BYTES;
        glint_answer found = walk(w, a);
        if (found.number != 1) return found.number;
        if (n - i < m) m = n - i;
        if (copying) memcpy(out + i, w->image + found.offset, m);
        i += m;
    }
    return 0;
}

glint_bytes c_read(const uint8_t *sheet, size_t sheet_length, const uint8_t *image, size_t image_length,
                   const uint8_t *pagefile, size_t pagefile_length, uint64_t address, uint64_t n,
                   uint8_t *out, size_t out_length) {
    struct sheet s;
    uint64_t fault = check_sheet(sheet, sheet_length, image_length, pagefile_length, &s);
    (void)pagefile;
    if (fault) return (glint_bytes){fault, 0, 0};
    if (n > out_length) return (glint_bytes){READ_BUFFER_SHORT, 0, 0};
    struct world w = world_of(&s, image, image_length);
    if ((fault = read_pass(&w, address, n, out, false))) return (glint_bytes){fault, 0, 0};
    read_pass(&w, address, n, out, true);
    return (glint_bytes){0, n, 0};
}

static glint_time_answer no_time(uint64_t number) { return (glint_time_answer){number, {0, 0}}; }

glint_time_answer c_read_time(const uint8_t *sheet, size_t sheet_length, const uint8_t *image, size_t image_length,
                              const uint8_t *pagefile, size_t pagefile_length, uint64_t address) {
    struct sheet s;
    uint8_t field[8];
    uint64_t fault = check_sheet(sheet, sheet_length, image_length, pagefile_length, &s);
    (void)pagefile;
    if (fault) return no_time(fault);
    struct world w = world_of(&s, image, image_length);
    if ((fault = read_pass(&w, address, sizeof field, field, true))) return no_time(fault);
    uint64_t ticks = word_at(field);
    if (ticks == 0) return no_time(TIME_ZERO);
    if (ticks >> 63) return no_time(TIME_TOO_LARGE);
    return (glint_time_answer){0, {(double)(ticks / 10000000), (double)(ticks % 10000000)}};
}

/* ---- maps */

static size_t put_number(uint8_t *out, size_t size, size_t at, uint64_t n) {
    for (; n >= 128; n /= 128, at++)
        if (at < size) out[at] = (uint8_t)(128 + n % 128);
    if (at < size) out[at] = (uint8_t)n;
    return at + 1;
}

static size_t put_extent(uint8_t *out, size_t size, size_t at, uint64_t code, uint64_t pages, uint64_t first) {
    at = put_number(out, size, at, code);
    at = put_number(out, size, at, pages);
    return code == 1 ? put_number(out, size, at, first) : at;
}

/* Writes what fits, and hands back the length of the whole map. */
static size_t map_pass(const struct world *w, uint64_t start, uint64_t pages, uint8_t *out, size_t size) {
    uint64_t code = 0, length = 0, first = 0;
    size_t at = put_number(out, size, 0, 1);
    at = put_number(out, size, at, start >> 12 & 0xFFFFFFFFF);
    at = put_number(out, size, at, pages);
    for (uint64_t i = 0; i < pages; i++) {
        glint_answer found = walk(w, start + PAGE_BYTES * i);
        uint64_t page = found.offset / PAGE_BYTES, next = code == 1 ? first + length : 0;
        if (length && found.number == code && page == next) {
            length++;
            continue;
        }
        if (length) at = put_extent(out, size, at, code, length, first);
        code = found.number;
        first = page;
        length = 1;
    }
    return put_extent(out, size, at, code, length, first);
}

static bool is_allowed(uint64_t mode, uint64_t start, uint64_t pages) {
    uint64_t half = (uint64_t)1 << 47, top = (uint64_t)1 << 32, bytes = PAGE_BYTES * pages;
    if (start % PAGE_BYTES || pages < 1 || pages > 1 << 20) return false;
    if (mode != GLINT_MODE_FOUR_LEVEL) return start <= top && bytes <= top - start;
    if (start < -half) return start <= half && bytes <= half - start;
    return bytes - 1 <= UINT64_MAX - start;
}

glint_written c_map(const uint8_t *sheet, size_t sheet_length, const uint8_t *image, size_t image_length,
                    const uint8_t *pagefile, size_t pagefile_length, uint64_t start, uint64_t pages,
                    uint8_t *out, size_t out_length) {
    struct sheet s;
    uint64_t fault = check_sheet(sheet, sheet_length, image_length, pagefile_length, &s);
    (void)pagefile;
    if (fault) return (glint_written){fault, 0};
    if (!is_allowed(s.mode, start, pages)) return (glint_written){BAD_MAP_RANGE, 0};
    struct world w = world_of(&s, image, image_length);
    size_t length = map_pass(&w, start, pages, out, 0);
    if (length > out_length) return (glint_written){MAP_BUFFER_SHORT, 0};
    map_pass(&w, start, pages, out, out_length);
    return (glint_written){0, length};
}

/* ---- writing sheets */

/* Runs that touch count as one; 0 if one of them is wrong. */
static uint64_t count_joined(const uint64_t *starts, const uint64_t *lengths, size_t given) {
    uint64_t count = 0, first = 0, end = 0, top = (uint64_t)1 << 36;
    for (size_t i = 0; i < given; i++) {
        if (lengths[i] == 0 || starts[i] < end || starts[i] + lengths[i] > top) return 0;
        if (i == 0 || starts[i] != end) {
            count++;
            first = starts[i];
        }
        end = starts[i] + lengths[i];
        if (end - first == top) return 0;
    }
    return count;
}

/* Writes what fits, and hands back the length of the whole sheet. */
static size_t sheet_pass(uint64_t directory, uint64_t mode, uint64_t place, const uint64_t *starts, const uint64_t *lengths,
                         size_t given, uint64_t count, uint8_t *out, size_t size) {
    uint64_t end = 0;
    size_t at = put_number(out, size, 0, mode == GLINT_MODE_FOUR_LEVEL ? 1 : 2);
    at = put_number(out, size, at, directory);
    if (mode != GLINT_MODE_FOUR_LEVEL) {
        at = put_number(out, size, at, mode);
        at = put_number(out, size, at, place);
    }
    at = put_number(out, size, at, count);
    for (size_t i = 0; i < given;) {
        uint64_t first = starts[i], before = end;
        for (end = first; i < given && starts[i] == end; i++) end += lengths[i];
        at = put_number(out, size, at, first - before);
        at = put_number(out, size, at, end - first);
    }
    return at;
}

glint_written c_write_sheet(uint64_t directory, uint64_t mode, uint64_t place, const uint64_t *starts, size_t starts_length,
                            const uint64_t *lengths, size_t lengths_length, uint8_t *out, size_t out_length) {
    uint64_t all = directory;
    if (mode > GLINT_MODE_PAE || place > (mode == GLINT_MODE_PAE ? 127 : 0)) return (glint_written){OUT_OF_LIMITS, 0};
    if (starts_length != lengths_length || starts_length < 1 || starts_length > GLINT_SHEET_RUNS)
        return (glint_written){OUT_OF_LIMITS, 0};
    for (size_t i = 0; i < starts_length; i++) all |= starts[i] | lengths[i];
    if (all >> 36) return (glint_written){OUT_OF_LIMITS, 0};
    uint64_t count = count_joined(starts, lengths, starts_length);
    if (count == 0) return (glint_written){BAD_RUN, 0};
    size_t length = sheet_pass(directory, mode, place, starts, lengths, starts_length, count, out, 0);
    if (length > out_length) return (glint_written){SHEET_BUFFER_SHORT, 0};
    sheet_pass(directory, mode, place, starts, lengths, starts_length, count, out, out_length);
    return (glint_written){0, length};
}

/* ---- the processor block */

static bool words_fit(const uint8_t *at) {
    const uint64_t floor = 0xFFFF000000000000;
    uint64_t own = word_at(at + 0x18);
    if (own <= floor) return false;
    uint64_t second = word_at(at + 0x20);
    return second > floor && second - own == 0x180 && !(word_at(at + 0x1D0) >> 48 & 15);
}

glint_answer c_processor_block(const uint8_t *sheet, size_t sheet_length, const uint8_t *image, size_t image_length,
                               const uint8_t *pagefile, size_t pagefile_length, uint64_t from) {
    struct sheet s;
    uint64_t fault = check_sheet(sheet, sheet_length, image_length, pagefile_length, &s);
    (void)pagefile;
    if (fault) return refused(fault, 0);
    if (s.mode != GLINT_MODE_FOUR_LEVEL) return refused(MODE_NOT_SERVED, 0);
    for (uint64_t page = from & ~(uint64_t)(PAGE_BYTES - 1); page < image_length; page += PAGE_BYTES)
        for (uint64_t o = page < from ? (from + 7) & ~(uint64_t)7 : page; o <= page + 0xE28; o += 8) {
            if (!words_fit(image + o)) continue;
            struct world w = world_of(&s, image, image_length);
            w.directory = word_at(image + o + 0x1D0) >> 12 & 0xFFFFFFFFF;
            glint_answer found = walk(&w, word_at(image + o + 0x18));
            if (found.number == 1 && found.offset == o) return found;
        }
    return refused(NO_PROCESSOR_BLOCK, 0);
}

/* ---- the process list */

static uint64_t read_link(const struct world *w, uint64_t address, uint64_t *word) {
    glint_answer found = walk(w, address);
    if (found.number != 1) return found.number;
    *word = word_at(w->image + found.offset);
    return 0;
}

/* Follows the links into `nodes`: 0 and their number, or the first fault. */
static uint64_t follow(const struct world *w, uint64_t head, uint64_t *nodes, size_t room, size_t *count) {
    uint64_t node = head, next = 0, back = 0, fault;
    if (head % 8) return LINK_UNALIGNED;
    for (*count = 0;; node = next) {
        if ((fault = read_link(w, node, &next))) return fault;
        if (next % 8) return LINK_UNALIGNED;
        if (next > UINT64_MAX - 8) return NOT_CANONICAL;
        if ((fault = read_link(w, next + 8, &back))) return fault;
        if (back != node) return BACK_LINK_DIFFERS;
        if (next == head) return 0;
        if (*count == MOST_NODES) return TOO_MANY_PROCESSES;
        if (*count == room) return LIST_BUFFER_SHORT;
        nodes[(*count)++] = next;
    }
}

glint_written c_process_list(const uint8_t *sheet, size_t sheet_length, const uint8_t *image, size_t image_length,
                             const uint8_t *pagefile, size_t pagefile_length, uint64_t head,
                             uint64_t *out, size_t out_length) {
    struct sheet s;
    uint64_t nodes[MOST_NODES];
    size_t count;
    uint64_t fault = check_sheet(sheet, sheet_length, image_length, pagefile_length, &s);
    (void)pagefile;
    if (fault) return (glint_written){fault, 0};
    if (s.mode != GLINT_MODE_FOUR_LEVEL) return (glint_written){MODE_NOT_SERVED, 0};
    struct world w = world_of(&s, image, image_length);
    if ((fault = follow(&w, head, nodes, out_length, &count))) return (glint_written){fault, 0};
    memcpy(out, nodes, count * sizeof *nodes);
    return (glint_written){0, count};
}

/* ---- pool headers */

static uint64_t previous_bytes(uint64_t header) { return 8 * (header & 511); }

static uint64_t block_bytes(uint64_t header) { return 8 * (header >> 16 & 511); }

static bool is_pool_header(const uint8_t *page, uint64_t place) {
    uint64_t header = word_at(page + place), previous = previous_bytes(header), block = block_bytes(header);
    if (header & (uint64_t)0x00808080 << 32) return false; /* first, as it leaves one in eight of any words */
    if (block == 0 || place + block > PAGE_BYTES) return false;
    if ((previous == 0) != (place == 0) || previous > place) return false;
    if (place != 0 && block_bytes(word_at(page + place - previous)) != previous) return false;
    return place + block == PAGE_BYTES || previous_bytes(word_at(page + place + block)) == block;
}

/* Writes what fits, and hands back how many there are. */
static size_t pool_pass(const uint8_t *image, size_t image_length, uint64_t *out, size_t room) {
    size_t count = 0;
    for (uint64_t page = 0; page < image_length; page += PAGE_BYTES)
        for (uint64_t place = 0; place < PAGE_BYTES; place += 8) {
            if (!is_pool_header(image + page, place)) continue;
            if (count < room) out[count] = page + place;
            count++;
        }
    return count;
}

glint_written c_pool_headers(const uint8_t *image, size_t image_length, uint64_t *out, size_t out_length) {
    if (image_length % PAGE_BYTES) return (glint_written){IMAGE_NOT_WHOLE_PAGES, 0};
    size_t count = pool_pass(image, image_length, out, 0);
    if (count > out_length) return (glint_written){TOO_MANY_POOL_HEADERS, 0};
    pool_pass(image, image_length, out, out_length);
    return (glint_written){0, count};
}
