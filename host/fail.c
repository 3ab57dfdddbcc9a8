#include "fail.h"

#include "cleanup.h"
#include "safe_text.h"

#include <stdarg.h>
#include <stdio.h>
#include <stdlib.h>
#include <string.h>
#include <unistd.h>

static void (*told_of_failure)(const char *message);

/* A message without control characters; NULL if there is no memory for it. */
static char *message_of(const char *format, va_list arguments)
{
    va_list again;
    va_copy(again, arguments);
    int length = vsnprintf(NULL, 0, format, again);
    va_end(again);
    char *text = length < 0 ? NULL : malloc((size_t)length + 1);
    if (text == NULL)
        return NULL;
    vsnprintf(text, (size_t)length + 1, format, arguments);
    char *message = safe_text(text);
    free(text);
    return message;
}

static bool print_message(const char *message)
{
    return fprintf(stderr, "glintloom: %s\n", message) >= 0;
}

_Noreturn void fail(const char *format, ...)
{
    va_list arguments;
    va_start(arguments, format);
    char *message = message_of(format, arguments);
    const char *shown = message != NULL ? message : "not enough memory";
    va_end(arguments);
    if (told_of_failure != NULL)
        told_of_failure(shown);
    clean_up();
    fflush(stdout);
    print_message(shown);
    free(message);
    exit(FAILED);
}

void tell_failure_to(void (*told)(const char *message))
{
    told_of_failure = told;
}

bool note(const char *format, ...)
{
    va_list arguments;
    va_start(arguments, format);
    char *message = message_of(format, arguments);
    bool printed = print_message(message != NULL ? message : "not enough memory") && message != NULL;
    va_end(arguments);
    free(message);
    return printed;
}

void write_to_standard_error(const char *text)
{
    ssize_t written = write(STDERR_FILENO, text, strlen(text));
    (void)written;
}
