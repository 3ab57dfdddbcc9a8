#include "cleanup.h"

#include <signal.h>
#include <stdbool.h>
#include <stddef.h>
#include <stdlib.h>

enum { MOST_STEPS = 4 };

/* Volatile: a step is in its place before a signal handler can see it counted. */
static void (*volatile steps[MOST_STEPS])(void);
static volatile sig_atomic_t step_count;

void add_cleanup(void (*step)(void))
{
    for (int i = 0; i < step_count; i++)
        if (steps[i] == step)
            return;
    if (step_count == MOST_STEPS)
        abort();
    steps[step_count] = step;
    step_count++;
}

void clean_up(void)
{
    for (int i = 0; i < step_count; i++)
        steps[i]();
}

void end_by_signal(int signal_number)
{
    clean_up();
    signal(signal_number, SIG_DFL);
    raise(signal_number);
}

static bool ends_by_default(int signal_number)
{
    static const int others[] = {SIGCHLD, SIGCONT, SIGTSTP, SIGTTIN, SIGTTOU, SIGURG, SIGWINCH};
    for (size_t i = 0; i < sizeof others / sizeof others[0]; i++)
        if (signal_number == others[i])
            return false;
    return true;
}

void clean_up_on_signals(void)
{
    struct sigaction before, action = {.sa_handler = end_by_signal};
    for (int number = 1; number <= SIGRTMAX; number++)
        if (ends_by_default(number) && sigaction(number, NULL, &before) == 0 && before.sa_handler == SIG_DFL)
            sigaction(number, &action, NULL);
}
