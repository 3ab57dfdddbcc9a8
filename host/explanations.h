/* What the numbers of answers mean, at more length than their words. */
#ifndef EXPLANATIONS_H
#define EXPLANATIONS_H

#include <stdint.h>

/* What the number means, why it comes and what can be done, in two or three sentences; NULL if no answer has it. */
const char *explanation_of(uint64_t number);

#endif
