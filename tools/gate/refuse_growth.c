/* Refuses one growth of memory: the REFUSEth call of malloc or realloc. It says so on standard error. */
#define _GNU_SOURCE
#include <dlfcn.h>
#include <errno.h>
#include <stdlib.h>
#include <unistd.h>

static long calls;

static int is_refused(void)
{
    static const char text[] = "refused\n";
    const char *turn = getenv("REFUSE");
    if (turn == NULL || ++calls != atol(turn))
        return 0;
    errno = ENOMEM;
    return write(2, text, sizeof text - 1) >= 0;
}

void *malloc(size_t size)
{
    static void *(*next)(size_t);
    if (next == NULL)
        next = (void *(*)(size_t))dlsym(RTLD_NEXT, "malloc");
    return is_refused() ? NULL : next(size);
}

void *realloc(void *block, size_t size)
{
    static void *(*next)(void *, size_t);
    if (next == NULL)
        next = (void *(*)(void *, size_t))dlsym(RTLD_NEXT, "realloc");
    return is_refused() ? NULL : next(block, size);
}
