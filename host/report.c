#include "report.h"

#include "answer_numbers.h"
#include "cleanup.h"
#include "fail.h"
#include "hex_dump.h"
#include "progress.h"

#include <errno.h>
#include <inttypes.h>
#include <signal.h>
#include <stdio.h>
#include <string.h>
#include <unistd.h>

static bool json;
static bool on_terminal;
static const char *verb_reported;
static bool document_open;  /* JSON: {"verb": .. stands */
static bool answers_open;   /* JSON: "answers":[ stands */
static bool comma_due;      /* JSON: something stands before in this object or array */
static bool line_open;      /* lines: the item's line has no end yet */
static volatile sig_atomic_t headers_open;      /* JSON: an answer's list of pool headers, which is handed on in parts */
static volatile sig_atomic_t between_answers;   /* JSON: some were handed on, and none was begun since */

static void check_output(bool written)
{
    if (!written || ferror(stdout))
        fail("standard output: %s", strerror(errno));
}

static void put_comma(void)
{
    if (comma_due)
        putchar(',');
    comma_due = true;
}

static void put_name(const char *name)
{
    put_comma();
    printf("\"%s\":", name);
}

static void put_json_text(const char *text)
{
    putchar('"');
    for (; *text; text++) {
        if (*text == '\n')
            fputs("\\n", stdout);
        else if (*text == '"' || *text == '\\')
            printf("\\%c", *text);
        else
            putchar(*text);
    }
    putchar('"');
}

static void put_json_hex(const char *name, uint64_t value)
{
    put_name(name);
    printf("\"0x%" PRIX64 "\"", value);
}

static void put_json_count(const char *name, uint64_t value)
{
    put_name(name);
    printf("%" PRIu64, value);
}

static void open_json(char bracket)
{
    putchar(bracket);
    comma_due = false;
}

static void close_json(char bracket)
{
    putchar(bracket);
    comma_due = true;
}

static void close_line(void)
{
    if (line_open)
        putchar('\n');
    line_open = false;
}

static void open_document(void)
{
    /* A JSON document is one line, which a line of progress would wipe out. */
    if (on_terminal && json)
        end_progress();
    else if (on_terminal)
        pause_progress();
    between_answers = false;
    if (document_open || !json)
        return;
    document_open = true;
    open_json('{');
    put_name("verb");
    put_json_text(verb_reported);
}

static void open_report(void)
{
    open_document();
    if (answers_open || !json)
        return;
    answers_open = true;
    put_name("answers");
    open_json('[');
}

/* Nothing but standard output itself fails while an item is open, so the answers can be closed. */
static void put_failure(const char *message)
{
    open_report();
    if (headers_open)
        fputs("]}", stdout);
    close_json(']');
    put_name("error");
    put_json_text(message);
    fputs("}\n", stdout);
}

/* For a signal that ends the program while it waits or works. One that comes within an answer cuts the document. */
static void close_document_for_signal(void)
{
    static const char end[] = "]}],\"error\":\"ended by a signal\"}\n";
    size_t begin = headers_open ? 0 : 2;
    ssize_t written = between_answers ? write(STDOUT_FILENO, end + begin, sizeof end - 1 - begin) : 0;
    (void)written;
    between_answers = false;
}

void begin_report(const char *verb, bool as_json)
{
    verb_reported = verb;
    json = as_json;
    on_terminal = isatty(STDOUT_FILENO);
    if (!json)
        return;
    tell_failure_to(put_failure);
    add_cleanup(close_document_for_signal);
    clean_up_on_signals();
}

void end_report(void)
{
    open_report();
    if (json)
        fputs("]}\n", stdout);
    tell_failure_to(NULL);
    check_output(fflush(stdout) == 0 && close(STDOUT_FILENO) == 0);
}

static void put_number(uint64_t number)
{
    const char *words = glint_words(number);
    put_json_count("number", number);
    put_name("words");
    put_json_text(words ? words : "unknown number");
}

static void begin_line(const char *first_column, uint64_t number)
{
    const char *words = glint_words(number);
    close_line();
    printf("%-18s  %2" PRIu64 " %s%s", first_column, number, is_refusal(number) ? "refused: " : "",
           words ? words : "unknown number");
    line_open = true;
}

void begin_item(const char *asked_name, uint64_t asked, uint64_t number)
{
    char column[sizeof "0x0123456789ABCDEF"];
    open_report();
    if (json) {
        put_comma();
        open_json('{');
        put_json_hex(asked_name, asked);
        put_number(number);
    } else {
        snprintf(column, sizeof column, "0x%016" PRIX64, asked);
        begin_line(column, number);
    }
}

void begin_worded_item(const char *word, uint64_t number)
{
    open_report();
    if (json) {
        put_comma();
        open_json('{');
        put_number(number);
    } else {
        begin_line(word, number);
    }
}

void add_offset(uint64_t number, uint64_t offset)
{
    if (json)
        put_json_hex("offset", offset);
    else if (has_kind(number, GLINT_KIND_PLACE))
        printf(", offset 0x%" PRIX64, offset);
}

void add_entries(uint64_t entries)
{
    if (json)
        put_json_count("entries", entries);
    else
        printf(", %" PRIu64 " %s read", entries, entries == 1 ? "entry" : "entries");
}

void add_length(uint64_t bytes)
{
    if (json)
        put_json_hex("length", bytes);
    else
        printf(", 0x%" PRIX64 " %s", bytes, bytes == 1 ? "byte" : "bytes");
}

void add_refused_address(uint64_t address)
{
    if (json)
        put_json_hex("refused_address", address);
    else
        printf(", first at 0x%016" PRIX64, address);
}

void add_position(uint64_t position, const char *file)
{
    if (json)
        put_json_hex("position", position);
    else
        printf(", at byte 0x%" PRIX64 " of the %s", position, file);
}

void add_start(uint64_t offset)
{
    if (json)
        put_json_hex("from", offset);
    else
        printf(", from 0x%" PRIX64, offset);
}

void add_block(uint64_t self, uint64_t directory_word)
{
    uint64_t directory_page = directory_word >> 12 & 0xFFFFFFFFF;    /* bits 12-47 */
    if (json) {
        put_json_hex("self", self);
        put_json_hex("directory_page", directory_page);
        put_json_hex("cr3", directory_word);
    } else {
        printf(", Self 0x%016" PRIX64 ", directory page 0x%09" PRIX64 ", CR3 0x%016" PRIX64, self, directory_page,
               directory_word);
    }
}

static void put_json_nodes(const uint64_t *nodes, uint64_t count)
{
    put_name("nodes");
    open_json('[');
    for (uint64_t i = 0; i < count; i++) {
        put_comma();
        printf("\"0x%" PRIX64 "\"", nodes[i]);
    }
    close_json(']');
}

void add_nodes(const uint64_t *nodes, uint64_t count)
{
    if (json) {
        put_json_nodes(nodes, count);
        return;
    }
    printf(", %" PRIu64 " %s", count, count == 1 ? "node" : "nodes");
    close_line();
    for (uint64_t i = 0; i < count; i++)
        printf("0x%016" PRIX64 "\n", nodes[i]);
}

void begin_number(uint64_t number)
{
    open_report();
    if (json) {
        put_comma();
        open_json('{');
        put_number(number);
        return;
    }
    const char *words = glint_words(number);
    close_line();
    printf("%2" PRIu64 " %s%s", number, is_refusal(number) ? "refused: " : "", words ? words : "unknown number");
    line_open = true;
}

void begin_value(const char *name, uint64_t value)
{
    if (json) {
        put_comma();
        open_json('{');
        put_json_hex(name, value);
        return;
    }
    close_line();
    printf("0x%016" PRIX64, value);
    line_open = true;
}

void begin_range(uint64_t start, uint64_t last)
{
    if (json) {
        put_comma();
        open_json('{');
        put_json_hex("start", start);
        put_json_hex("last", last);
        return;
    }
    close_line();
    printf("0x%016" PRIX64 " to 0x%016" PRIX64, start, last);
    line_open = true;
}

void add_value(const char *name, const char *words, uint64_t value)
{
    if (json)
        put_json_hex(name, value);
    else
        printf(", %s 0x%" PRIX64, words, value);
}

void add_count(const char *name, uint64_t count, const char *word)
{
    if (json)
        put_json_count(name, count);
    else
        printf(", %" PRIu64 " %s%s", count, word, count == 1 ? "" : "s");
}

void add_place(uint64_t place, bool variable)
{
    if (json)
        put_json_count("place", place);
    else if (variable)
        printf(", place %" PRIu64, place);
}

void add_text(const char *name, const char *text)
{
    if (json) {
        put_name(name);
        put_json_text(text);
    } else {
        printf(", %s", text);
    }
}

void add_zeros(bool zeros)
{
    if (json) {
        put_name("zeros");
        fputs(zeros ? "true" : "false", stdout);
    } else if (zeros) {
        printf(", with bytes of a %s", glint_words(GLINT_ZEROS));
    }
}

void begin_headers(uint64_t image_length)
{
    if (!json)
        return;
    begin_item("image_length", image_length, GLINT_DONE);
    begin_items("headers");
    headers_open = true;
}

void add_headers(uint64_t start, const uint8_t *part, const uint64_t *offsets, uint64_t count)
{
    open_report();
    for (uint64_t i = 0; i < count; i++) {
        if (json) {
            put_comma();
            printf("\"0x%" PRIX64 "\"", start + offsets[i]);
        } else {
            print_hex_dump(start + offsets[i], part + offsets[i], POOL_HEADER_BYTES);
        }
    }
    hand_on_answers();
}

void end_headers(uint64_t image_length, uint64_t count)
{
    headers_open = false;
    if (json) {
        end_items();
    } else {
        begin_item("image_length", image_length, GLINT_DONE);
        printf(", %" PRIu64 " %s", count, count == 1 ? "header" : "headers");
    }
    end_answer();
}

void end_item(void)
{
    if (json)
        close_json('}');
    close_line();
}

void begin_items(const char *name)
{
    if (json) {
        put_name(name);
        open_json('[');
    }
}

void end_items(void)
{
    if (json)
        close_json(']');
}

void add_dump(uint64_t address, const uint8_t *bytes, size_t length)
{
    close_line();
    if (!json)
        print_hex_dump(address, bytes, length);
    check_output(true);
}

void add_marked_row(uint64_t position, const uint8_t *row, size_t count)
{
    close_line();
    if (!json)
        print_marked_row(position, row, count);
}

void add_digits(const uint8_t *bytes, size_t length)
{
    if (!json)
        return;
    put_name("bytes");
    putchar('"');
    print_hex_digits(bytes, length);
    putchar('"');
}

void end_answer(void)
{
    end_item();
    count_answer();
}

void hand_on_answers(void)
{
    check_output(fflush(stdout) == 0);
    between_answers = json;
    resume_progress();
}

void begin_fault(const char *name, uint64_t number)
{
    open_document();
    if (json) {
        put_name(name);
        open_json('{');
        put_number(number);
    } else {
        begin_line(name, number);
    }
}

void add_file_length(const char *name, const char *words, uint64_t bytes)
{
    if (json)
        put_json_hex(name, bytes);
    else
        printf(", %s 0x%" PRIX64 " bytes", words, bytes);
}

void end_fault(void)
{
    end_item();
}

/* Lines of whole words, below a number and behind its place. */
static void put_paragraph(const char *text)
{
    enum { INDENT = 3, MOST_COLUMNS = 100 };
    size_t column = MOST_COLUMNS;
    while (*text) {
        size_t length = strcspn(text, " ");
        bool new_line = column + 1 + length > MOST_COLUMNS;
        printf("%s%.*s", new_line ? "\n   " : " ", (int)length, text);
        column = (new_line ? INDENT : column + 1) + length;
        text += length + strspn(text + length, " ");
    }
}

void report_number(uint64_t number, const char *explanation)
{
    open_report();
    if (json) {
        put_comma();
        open_json('{');
        put_number(number);
    } else {
        printf("%2" PRIu64 " %s", number, glint_words(number));
        line_open = true;
    }
    if (json && explanation != NULL) {
        put_name("explanation");
        put_json_text(explanation);
    } else if (explanation != NULL) {
        put_paragraph(explanation);
    }
    end_answer();
}

void report_text(const char *text)
{
    open_report();
    if (!json) {
        fputs(text, stdout);
        return;
    }
    put_comma();
    open_json('{');
    put_name("text");
    put_json_text(text);
    end_answer();
}

void warn_of_zeros(uint64_t address, uint64_t bytes)
{
    pause_progress();
    if (!note("0x%016" PRIX64 ": %s, 0x%" PRIX64 " bytes", address, glint_words(GLINT_ZEROS), bytes))
        fail("standard error: %s", strerror(errno));
    resume_progress();
}
