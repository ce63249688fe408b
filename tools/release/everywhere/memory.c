/* The memory of the program's module: the system's addresses for it. */
#if !defined(_WIN32)
#define _XOPEN_SOURCE 600
#define _DEFAULT_SOURCE 1
#define _DARWIN_C_SOURCE 1
#endif
#include "module.h"

#include <stdlib.h>

#if defined(_WIN32)
#include <windows.h>
#elif HAS_PAGES
#include <sys/mman.h>
#endif

OWN u32 pages;
OWN u64 octets;

/* How many octets of addresses the memory has, and how many of them it may use. */
static OWN u64 reserved, usable;

void trap(void)
{
    abort();
}

/* Reserves addresses, none of them usable yet, or returns null. */
static u8 *reserve(u64 size)
{
    if (size > SIZE_MAX) {
        return NULL;
    }
#if defined(_WIN32)
    return VirtualAlloc(NULL, (SIZE_T)size, MEM_RESERVE, PAGE_NOACCESS);
#elif HAS_PAGES
    {
#if defined(MAP_NORESERVE)
        int how = MAP_PRIVATE | MAP_ANON | MAP_NORESERVE;
#else
        int how = MAP_PRIVATE | MAP_ANON;
#endif
        void *at = mmap(NULL, (size_t)size, PROT_NONE, how, -1, 0);
        return at == MAP_FAILED ? NULL : at;
    }
#else
    return calloc((size_t)size, 1);
#endif
}

/* Gives addresses back. */
static void release(u8 *m)
{
#if defined(_WIN32)
    VirtualFree(m, 0, MEM_RELEASE);
#elif HAS_PAGES
    munmap(m, (size_t)reserved);
#else
    free(m);
#endif
}

/* Makes the first octets usable. All are 0 at first. */
static int grant(u8 *m, u64 size)
{
#if defined(_WIN32)
    return VirtualAlloc(m, (SIZE_T)size, MEM_COMMIT, PAGE_READWRITE) != NULL;
#elif HAS_PAGES
    return mprotect(m, (size_t)size, PROT_READ | PROT_WRITE) == 0;
#else
    (void)m;
    (void)size;
    return 1;
#endif
}

u32 grow(u8 *m, u32 more)
{
    u32 before = pages;
    u64 size = ((u64)before + more) * PAGE;
    if (size > usable || (more > 0 && !grant(m, size))) {
        return 0xFFFFFFFFu;
    }
    pages = before + more;
    octets = size;
    return before;
}

u8 *machine_begin(void)
{
    /* an instruction names an address below 2^32, and adds less than 2^32 to it */
    u64 size = IS_RESERVED ? (u64)1 << 33 : (u64)1 << 31, most = (u64)MODULE_MOST * PAGE;
    u8 *m = NULL;
    for (; m == NULL && size >= (u64)MODULE_PAGES * PAGE; size /= 2) {
        reserved = size;
        m = reserve(size);
        if (IS_RESERVED) {
            break;
        }
    }
    if (m == NULL) {
        return NULL;
    }
    pages = 0;
    usable = reserved < most ? reserved : most;
    if (grow(m, MODULE_PAGES) != 0) {
        release(m);
        return NULL;
    }
    module_begin(m);
    return m;
}

void machine_end(u8 *m)
{
    pages = 0;
    octets = 0;
    release(m);
}
