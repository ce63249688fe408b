/* Preloaded, it makes a stream of a program fail. The environment has:
 *
 *   FAIL_FD     the descriptor of the stream
 *   FAIL_STEP   how many octets one call reads or writes at most
 *   FAIL_AFTER  how many octets go through before a call fails
 *   FAIL_ERROR  the error number of that call; with 0 the call succeeds and returns 0
 *   FAIL_TURNS  how many calls fail; later calls go through
 */
#define _GNU_SOURCE
#include <dlfcn.h>
#include <errno.h>
#include <stdlib.h>
#include <unistd.h>

static long before, turns;

static long number(const char *name)
{
    const char *text = getenv(name);
    return text == NULL ? -1 : atol(text);
}

__attribute__((constructor)) static void begin(void)
{
    before = number("FAIL_AFTER");
    turns = number("FAIL_TURNS");
}

/* Returns whether a call on this descriptor fails. */
static int fails(int fd)
{
    if (fd != number("FAIL_FD") || before > 0 || turns == 0)
        return 0;
    turns--;
    errno = (int)number("FAIL_ERROR");
    return 1;
}

/* Returns how many octets a call on this descriptor may take. */
static size_t most(int fd, size_t count)
{
    size_t step = (size_t)number("FAIL_STEP");
    if (fd != number("FAIL_FD"))
        return count;
    if (before > 0 && (size_t)before < step)
        step = (size_t)before;
    return count < step ? count : step;
}

/* Counts the octets that a call took. */
static ssize_t taken(int fd, ssize_t count)
{
    if (fd == number("FAIL_FD") && count > 0)
        before -= count;
    return count;
}

ssize_t read(int fd, void *octets, size_t count)
{
    static ssize_t (*next)(int, void *, size_t);
    if (next == NULL)
        next = (ssize_t (*)(int, void *, size_t))dlsym(RTLD_NEXT, "read");
    if (fails(fd))
        return errno == 0 ? 0 : -1;
    return taken(fd, next(fd, octets, most(fd, count)));
}

ssize_t write(int fd, const void *octets, size_t count)
{
    static ssize_t (*next)(int, const void *, size_t);
    if (next == NULL)
        next = (ssize_t (*)(int, const void *, size_t))dlsym(RTLD_NEXT, "write");
    if (fails(fd))
        return errno == 0 ? 0 : -1;
    return taken(fd, next(fd, octets, most(fd, count)));
}
