/* Elapsed time and answers so far, on standard error if that is a terminal. */
#ifndef PROGRESS_H
#define PROGRESS_H

#include <stdint.h>

/* Shows progress from the first second on, until end_progress. Nothing happens if standard error is no terminal. */
void start_progress(void);

/* Another answer was given. */
void count_answer(void);

/* So much of the work for the next answer is done, which is shown as a percentage. */
void set_progress(uint64_t done, uint64_t whole);

/* Takes the shown line away and holds the next one back, so that something else can be printed on the terminal. */
void pause_progress(void);
void resume_progress(void);

/* Takes the shown line away for good. May be called at any time, and from a signal handler. */
void end_progress(void);

#endif
