/* The program scard over the C of its module: the two functions of the host, and the words. */
#if !defined(_WIN32)
#define _XOPEN_SOURCE 600
#endif
#include "module.h"

#include <limits.h>
#include <stdio.h>
#include <stdlib.h>

#if defined(_WIN32)
#include <fcntl.h>
#include <io.h>
#include <windows.h>
#include <shellapi.h>
#elif HAS_PAGES
#include <signal.h>
#include <unistd.h>
#endif

static const char NOTICE[] = "scard: reading standard input, which is this terminal, up to its end (Ctrl-D)\n";

/* ---- the functions of the host ---- */

#if defined(_WIN32)
#define READ(to, count) _read(0, to, (unsigned)(count))
#define WRITE(from, count) _write(1, from, (unsigned)(count))
#define IS_TERMINAL() _isatty(0)
#elif HAS_PAGES
#define READ(to, count) read(0, to, (size_t)(count))
#define WRITE(from, count) write(1, from, (size_t)(count))
#define IS_TERMINAL() isatty(0)
#else
#define READ(to, count) plain_read(to, (size_t)(count))
#define WRITE(from, count) plain_write(from, (size_t)(count))
#define IS_TERMINAL() 0
static long plain_read(void *to, size_t count)
{
    size_t got = fread(to, 1, count > 8192 ? 8192 : count, stdin);
    return got == 0 && ferror(stdin) ? -1 : (long)got;
}
static long plain_write(const void *from, size_t count)
{
    size_t put = fwrite(from, 1, count > 8192 ? 8192 : count, stdout);
    return fflush(stdout) != 0 || (put == 0 && count > 0) ? -1 : (long)put;
}
#endif

u64 host_read(u8 *m, u32 stream, u64 at, u64 count)
{
    static int is_read;
    u8 *to = piece(m, (u32)at, count);
    (void)stream;
    if (!is_read && IS_TERMINAL()) {
        fputs(NOTICE, stderr);
    }
    is_read = 1;
    return (u64)(int64_t)READ(to, count < INT_MAX ? count : INT_MAX);
}

u64 host_write(u8 *m, u32 stream, u64 at, u64 count)
{
    const u8 *from = piece(m, (u32)at, count);
    (void)stream;
    return (u64)(int64_t)WRITE(from, count < INT_MAX ? count : INT_MAX);
}

/* ---- the words ---- */

/* Runs the program on words with an octet 0 between two. */
static int answered(u8 *m, const char *words, u64 count)
{
    u64 at = scard_room(m, count + 1u);
    if (at == 0 || count > UINT32_MAX) {
        fputs("fault: memory\n", stdout);
        return 2;
    }
    memcpy(piece(m, (u32)at, count), words, (size_t)count);
    return (int)scard_answer(m, at, count);
}

static int without_memory(void)
{
    fputs("fault: memory\n", stdout);
    return 2;
}

static int run(int count, char **words)
{
    u8 *m = machine_begin();
    size_t size = 0;
    char *all, *next;
    int it, status;
    for (it = 0; it < count; it++) {
        size += strlen(words[it]) + 1;
    }
    all = malloc(size + 1);
    if (m == NULL || all == NULL) {
        free(all);
        return without_memory();
    }
    next = all;
    for (it = 0; it < count; it++) {
        size_t length = strlen(words[it]) + 1;
        memcpy(next, words[it], length);
        next += length;
    }
    status = answered(m, all, size > 0 ? size - 1 : 0);
    free(all);
    return status;
}

#if defined(_WIN32)
/* A word of Windows in UTF-8. A half of a surrogate pair by itself becomes an octet that isn't UTF-8. */
static char *utf8_of(const wchar_t *word)
{
    int size = WideCharToMultiByte(CP_UTF8, WC_ERR_INVALID_CHARS, word, -1, NULL, 0, NULL, NULL);
    char *text = malloc(size > 0 ? (size_t)size : 2u);
    if (text != NULL && size > 0) {
        WideCharToMultiByte(CP_UTF8, 0, word, -1, text, size, NULL, NULL);
    } else if (text != NULL) {
        memcpy(text, "\xFF", 2);
    }
    return text;
}

int main(void)
{
    int count = 0, it;
    wchar_t **wide = CommandLineToArgvW(GetCommandLineW(), &count);
    char **words = calloc((size_t)count + 1u, sizeof *words);
    _setmode(0, _O_BINARY);
    _setmode(1, _O_BINARY);
    for (it = 0; wide != NULL && words != NULL && it < count; it++) {
        words[it] = utf8_of(wide[it]);
        if (words[it] == NULL) {
            return without_memory();
        }
    }
    return wide == NULL || words == NULL ? without_memory() : run(count, words);
}
#else
int main(int count, char **words)
{
#if HAS_PAGES
    signal(SIGPIPE, SIG_IGN);
#endif
    return run(count, words);
}
#endif
