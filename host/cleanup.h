/* What is undone before the program ends, by itself or by a signal. */
#ifndef CLEANUP_H
#define CLEANUP_H

/* Adds a step to the list, once. A signal handler must be able to run it, at any time and again. */
void add_cleanup(void (*step)(void));

/* Runs the steps in the order in which they were added. May be called from a signal handler. */
void clean_up(void);

/* Cleans up and lets the signal at hand end the program; for its handler. */
void end_by_signal(int signal_number);

/* Cleans up before a signal ends the program, too; one that is ignored or handled stays so. */
void clean_up_on_signals(void);

#endif
