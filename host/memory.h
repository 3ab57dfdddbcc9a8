/* Memory, or the end of the program with FAILED. */
#ifndef MEMORY_H
#define MEMORY_H

#include <stddef.h>
#include <stdint.h>

void *allocate(uint64_t count, size_t size);

/* A block with room for more, which takes the old one's place. */
void *enlarge(void *block, uint64_t count, size_t size);

#endif
