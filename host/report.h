/* Answers on standard output, as lines or as one JSON document {"verb": .., "answers": [..]}. In JSON, addresses, offsets
 * and lengths in bytes are strings in hex, so that 64 bits survive; numbers and counts of entries stand as they are. If the
 * program fails, the document still closes, with the message as "error". */
#ifndef REPORT_H
#define REPORT_H

#include <stdbool.h>
#include <stddef.h>
#include <stdint.h>

void begin_report(const char *verb, bool json);
void end_report(void);

/* An item: what was asked (for a page, its start), the number and its words, and what is added. It is a line with lines
 * below it, or an object. */
void begin_item(const char *asked_name, uint64_t asked, uint64_t number);
void begin_worded_item(const char *word, uint64_t number);    /* the line begins with a word; in JSON nothing was asked */
void add_offset(uint64_t number, uint64_t offset);
void add_entries(uint64_t entries);
void add_length(uint64_t bytes);
void add_refused_address(uint64_t address);
void add_position(uint64_t position, const char *file);    /* of a byte of the sheet or map */
void add_start(uint64_t offset);
void add_block(uint64_t self, uint64_t directory_word);
void add_nodes(const uint64_t *nodes, uint64_t count);
void end_item(void);

/* Items of other forms: the number alone, a value alone, and a range of physical memory, whose last byte is `last`. */
void begin_number(uint64_t number);
void begin_value(const char *name, uint64_t value);
void begin_range(uint64_t start, uint64_t last);

/* A value in hex and a count, by the name in JSON and in words; a count's words are those of one. */
void add_value(const char *name, const char *words, uint64_t value);
void add_count(const char *name, uint64_t count, const char *word);

/* The place of a directory in its page: in JSON always, in lines if it may be another than 0. */
void add_place(uint64_t place, bool variable);

/* A text of the program's own, and whether bytes came from a page of zeros, which is marked in words. */
void add_text(const char *name, const char *text);
void add_zeros(bool zeros);

/* Pool headers, an outermost item that is handed on part by part: rows of a hex dump and, behind the last, the item's line;
 * or offsets in JSON. The offsets of a part count from its start. */
enum { POOL_HEADER_BYTES = 8 };
void begin_headers(uint64_t image_length);
void add_headers(uint64_t start, const uint8_t *part, const uint64_t *offsets, uint64_t count);
void end_headers(uint64_t image_length, uint64_t count);

/* Items of the item at hand. */
void begin_items(const char *name);
void end_items(void);

/* Bytes, as lines of a hex dump only, or as digits of a JSON string only; of a dump also one line with a mark. */
void add_dump(uint64_t address, const uint8_t *bytes, size_t length);
void add_marked_row(uint64_t position, const uint8_t *row, size_t count);
void add_digits(const uint8_t *bytes, size_t length);

/* The end of an outermost item. */
void end_answer(void);

/* Hands on what was reported so far. */
void hand_on_answers(void);

/* The refusal of a case or map as a whole, before any answer: a line, or an object of this name beside the answers. */
void begin_fault(const char *name, uint64_t number);
void add_file_length(const char *name, const char *words, uint64_t bytes);
void end_fault(void);

/* Outermost items of their own form: a number with its words and, unless that is NULL, a longer text; a text alone. */
void report_number(uint64_t number, const char *explanation);
void report_text(const char *text);

/* Tells on standard error that bytes are of pages of zeros; ends the program with FAILED if it cannot be told. */
void warn_of_zeros(uint64_t address, uint64_t bytes);

#endif
