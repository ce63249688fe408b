/* The three functions by which the program's module takes memory, over the memory of WebAssembly, which only grows.
 *
 * A block has 2^k octets for some k, and begins with a head that holds k. Freed blocks of one size are a list, and the
 * next block of that size comes from it. The last block of all is made longer where it is, so that a growing text isn't
 * copied; once it is freed, the heap ends before it. Each answer begins with an empty heap: the program is a function,
 * so nothing of an answer is needed for the next one. A test defines HEAP_FIRST and HEAP_MORE to try the same code over
 * an array. */
#include "plain.h"

#ifndef HEAP_FIRST
#define PAGE ((size_t)65536)
extern unsigned char __heap_base;
/* Where the heap begins. */
#define HEAP_FIRST() (&__heap_base)
/* Makes the memory up to an address usable, and returns whether that was possible. */
#define HEAP_MORE(to) more((size_t)(to))
static int more(size_t to)
{
    size_t pages = __builtin_wasm_memory_size(0), needed = (to + PAGE - 1) / PAGE;
    /* -1 says that there is no more; with a memory of 32 bits only its lower half is left of it */
    return needed <= pages || (u32)__builtin_wasm_memory_grow(0, needed - pages) != (u32)-1;
}
#endif

/* What the toolchain's code takes for a result: whether there is a block, and where. */
struct tried {
    u64 is_there;
    void *at;
};

#define HEAD ((size_t)16)
#define SMALLEST 5
#define LARGEST 40

struct free_block {
    struct free_block *next;
};

static struct free_block *freed[LARGEST + 1];
static unsigned char *heap_end;

/* The least k so that a block of 2^k octets has room for these after its head; above LARGEST without one. */
static int size_for(size_t octets)
{
    int k;
    if (octets > ((size_t)1 << LARGEST) - HEAD) {
        return LARGEST + 1;
    }
    k = 64 - __builtin_clzll((u64)octets + HEAD - 1);
    return k > SMALLEST ? k : SMALLEST;
}

static int *size_of(unsigned char *block)
{
    return (int *)(void *)block;
}

static unsigned char *block_at(void *at)
{
    return (unsigned char *)at - HEAD;
}

static struct tried block(unsigned char *found)
{
    struct tried tried = {found != NULL, found != NULL ? found + HEAD : (unsigned char *)HEAD};
    return tried;
}

/* A block at the end of the heap. */
static unsigned char *new_block(int k)
{
    unsigned char *found;
    if (heap_end == NULL) {
        heap_end = HEAP_FIRST();
        heap_end += (size_t)(-(uintptr_t)heap_end % HEAD);
    }
    found = heap_end;
    if (!HEAP_MORE(found + ((size_t)1 << k))) {
        return NULL;
    }
    heap_end = found + ((size_t)1 << k);
    return found;
}

struct tried rattle_alloc(size_t octets, size_t align)
{
    int k = size_for(octets);
    unsigned char *found;
    (void)align;
    if (k > LARGEST) {
        return block(NULL);
    }
    found = (unsigned char *)freed[k];
    if (found != NULL) {
        freed[k] = freed[k]->next;
    } else {
        found = new_block(k);
    }
    if (found != NULL) {
        *size_of(found) = k;
    }
    return block(found);
}

void rattle_dealloc(void *at)
{
    unsigned char *old = block_at(at);
    int k = *size_of(old);
    struct free_block *it = (struct free_block *)(void *)old;
    if (old + ((size_t)1 << k) == heap_end) {
        heap_end = old;
        return;
    }
    it->next = freed[k];
    freed[k] = it;
}

struct tried rattle_realloc(void *at, size_t kept, size_t octets, size_t align)
{
    unsigned char *old = block_at(at);
    int k = size_for(octets), was = *size_of(old);
    struct tried tried;
    if (k <= was) {
        return block(old);
    }
    if (k <= LARGEST && old + ((size_t)1 << was) == heap_end && HEAP_MORE(old + ((size_t)1 << k))) {
        heap_end = old + ((size_t)1 << k);
        *size_of(old) = k;
        return block(old);
    }
    tried = rattle_alloc(octets, align);
    if (tried.is_there) {
        __builtin_memcpy(tried.at, at, kept);
        rattle_dealloc(at);
    }
    return tried;
}

/* For the host, before each answer: makes the heap empty, and gives room for the words; null without memory. */
#ifdef __wasm__
__attribute__((export_name("scard_room")))
#endif
void *scard_room(size_t octets)
{
    struct tried tried;
    int k;
    for (k = 0; k <= LARGEST; k++) {
        freed[k] = NULL;
    }
    heap_end = NULL;
    tried = rattle_alloc(octets, HEAD);
    return tried.is_there ? tried.at : NULL;
}
