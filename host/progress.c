#include "progress.h"

#include "cleanup.h"
#include "fail.h"

#include <errno.h>
#include <signal.h>
#include <stdatomic.h>
#include <stdbool.h>
#include <stdint.h>
#include <string.h>
#include <sys/time.h>
#include <unistd.h>

static atomic_uint_fast64_t answers;
static volatile sig_atomic_t seconds;
static volatile sig_atomic_t percent;   /* of the work for the next answer; 0: not told */
static volatile sig_atomic_t running;
static volatile sig_atomic_t shown;

/* Lays the decimal digits of a number; snprintf may not be used in a signal handler. */
static char *put_decimal(char *at, uint64_t number)
{
    char digits[20];
    size_t count = 0;
    do {
        digits[count++] = (char)('0' + number % 10);
        number /= 10;
    } while (number > 0);
    while (count > 0)
        *at++ = digits[--count];
    return at;
}

static char *put_text(char *at, const char *text)
{
    size_t length = strlen(text);
    memcpy(at, text, length);
    return at + length;
}

static void show_progress(int signal_number)
{
    int saved = errno;
    char line[80];
    (void)signal_number;
    if (!running)
        return;
    char *at = put_text(line, "\rglintloom: ");
    seconds++;
    at = put_decimal(at, (uint64_t)seconds);
    at = put_text(at, " s, ");
    at = put_decimal(at, answers);
    at = put_text(at, " answered");
    if (percent > 0) {
        at = put_text(at, ", ");
        at = put_decimal(at, (uint64_t)percent);
        at = put_text(at, " %");
    }
    *at = '\0';
    shown = true;
    write_to_standard_error(line);
    errno = saved;
}

static void set_timer(time_t interval)
{
    struct itimerval every = {{interval, 0}, {interval, 0}};
    setitimer(ITIMER_REAL, &every, NULL);
}

void start_progress(void)
{
    struct sigaction action = {.sa_handler = show_progress, .sa_flags = SA_RESTART};
    if (!isatty(STDERR_FILENO))
        return;
    sigaction(SIGALRM, &action, NULL);
    add_cleanup(end_progress);
    clean_up_on_signals();
    running = true;
    set_timer(1);
}

void count_answer(void)
{
    answers++;
    percent = 0;
}

void set_progress(uint64_t done, uint64_t whole)
{
    percent = (sig_atomic_t)(100 * done / whole);
}

static void erase_line(void)
{
    if (shown)
        write_to_standard_error("\r\033[K");
    shown = false;
}

/* Holds the timer's signal back, or lets it come. */
static void mask_timer(int how)
{
    sigset_t timer;
    sigemptyset(&timer);
    sigaddset(&timer, SIGALRM);
    sigprocmask(how, &timer, NULL);
}

void pause_progress(void)
{
    if (!running)
        return;
    mask_timer(SIG_BLOCK);
    erase_line();
}

void resume_progress(void)
{
    if (running)
        mask_timer(SIG_UNBLOCK);
}

void end_progress(void)
{
    if (!running)
        return;
    set_timer(0);
    running = false;
    erase_line();
}
