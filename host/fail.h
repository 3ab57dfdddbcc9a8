/* The exit statuses, and what is said on standard error: notes, and the end of the program for wrong use or a file that
 * cannot be had. No control character of a name in a message reaches the terminal. */
#ifndef FAIL_H
#define FAIL_H

#include <stdbool.h>

enum { ANSWERED = 0, REFUSED = 1, FAILED = 2 };

/* Cleans up, prints a message on standard error and exits with FAILED. */
_Noreturn void fail(const char *format, ...) __attribute__((format(printf, 1, 2)));

/* Has `told` called with the message of a failure too, before it is printed. */
void tell_failure_to(void (*told)(const char *message));

/* Prints a message on standard error; false if it cannot be printed. */
bool note(const char *format, ...) __attribute__((format(printf, 1, 2)));

/* Writes a text on standard error at once. May be called from a signal handler. */
void write_to_standard_error(const char *text);

#endif
