/* scard: the three functions with which the library allocates memory.
 *
 * libscard.a implements them with malloc, realloc and free of the C library. Most programs never need this header. Use
 * it if your program has no such functions, or if the library should take its memory from elsewhere. Then define all
 * three functions, and the linker takes none of them from libscard.a. This works only with libscard.a: libscard.so
 * always uses its own.
 *
 * A call in scard.h that allocates has MEMORY among its statuses. The calls on an open handle may free memory. The
 * calls that allocate nothing are an object of their own in the library. So a program that makes only those calls needs
 * none of these functions.
 */
#ifndef SCARD_HEAP_H
#define SCARD_HEAP_H

#include <stdbool.h>
#include <stddef.h>

#ifdef __cplusplus
extern "C" {
#endif

/* The result of an allocation: a block, or failure. A function returns both fields. A definition that returns only a
 * pointer still compiles, but its results are wrong.
 */
struct scard_memory {
    bool is_there; /* true if `at` is a block */
    void *at;      /* never null; without a block, the address of any octet, which the library doesn't touch */
};

/* Allocates a block of `size` octets. Its address is a multiple of `align`, which is a power of two, at most 16. `size`
 * may be 0, and then the block may have any size. The block may not overlap another block that isn't freed. The library
 * owns it until it calls rattle_dealloc. If there is no memory, is_there is false.
 */
struct scard_memory rattle_alloc(size_t size, size_t align);

/* Resizes a block to `size` octets, in place or at a new address. The block keeps its first `kept` octets, where `kept`
 * is at most `size`. `align` is that of the block. If there is no memory, is_there is false and the old block is
 * unchanged.
 */
struct scard_memory rattle_realloc(void *at, size_t kept, size_t size, size_t align);

/* Frees a block that one of these functions returned. The library frees each block once, and doesn't pass its size. */
void rattle_dealloc(void *at);

#ifdef __cplusplus
}
#endif

#endif
