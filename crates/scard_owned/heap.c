/* The three functions by which the library takes memory, over those of the C library, for a processor for which the
 * toolchain has none: ./install puts them into its archive. */
#include "scard_heap.h"

#include <stdlib.h>

static struct scard_memory block(void *at)
{
    static char none;
    struct scard_memory memory = {at != NULL, at != NULL ? at : &none};
    return memory;
}

struct scard_memory rattle_alloc(size_t size, size_t align)
{
    return block(malloc(size > 0 ? size : align));
}

struct scard_memory rattle_realloc(void *at, size_t kept, size_t size, size_t align)
{
    (void)kept;
    return block(realloc(at, size > 0 ? size : align));
}

void rattle_dealloc(void *at)
{
    free(at);
}
