#include "memory.h"

#include "fail.h"

#include <stdlib.h>

void *allocate(uint64_t count, size_t size)
{
    return enlarge(NULL, count, size);
}

void *enlarge(void *block, uint64_t count, size_t size)
{
    void *enlarged = NULL;
    if (count <= SIZE_MAX / size)
        enlarged = realloc(block, count > 0 ? (size_t)count * size : size);   /* of 0 bytes there may be no block */
    if (enlarged == NULL)
        fail("not enough memory");
    return enlarged;
}
