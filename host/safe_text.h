/* Texts that may hold a file's name or another word from outside, made fit for a terminal. */
#ifndef SAFE_TEXT_H
#define SAFE_TEXT_H

/* A copy in which control characters, and bytes that are no UTF-8, stand as \xNN; NULL if there is no memory for it. */
char *safe_text(const char *text);

#endif
