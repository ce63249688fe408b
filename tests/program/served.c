/* Runs the C of the program's module again and again, for tools/gate/try-module. served.mjs has the form of the lines.
 * It stands in the place of main.c. */
#include "module.h"

#include <stdio.h>
#include <stdlib.h>
#include <time.h>

#if defined(_WIN32)
#include <fcntl.h>
#include <io.h>
#endif

/* a line, and its parts */
static char *line;
static size_t line_room;
enum { WORDS, PIECES, STEP, READ_FAILS, WRITE_FAILS, PARTS };
static char *parts[PARTS];

/* the text that was written, in hexadecimal */
static char *text;
static size_t text_room;

static u64 step, read_fails, write_fails, was_read, was_written;

static void *grown(void *old, size_t *room, size_t needed)
{
    if (needed > *room) {
        *room = needed * 2;
        old = realloc(old, *room);
        if (old == NULL) {
            abort();
        }
    }
    return old;
}

static int read_line(void)
{
    size_t size = 0;
    int one;
    while ((one = getchar()) != EOF && one != '\n') {
        line = grown(line, &line_room, size + 2);
        line[size++] = (char)one;
    }
    line = grown(line, &line_room, size + 2);
    line[size] = 0;
    return one != EOF;
}

static void part_line(void)
{
    char *at = line;
    int it;
    for (it = 0; it < PARTS; it++) {
        parts[it] = at;
        at += strcspn(at, "\t");
        if (*at) {
            *at++ = 0;
        }
    }
    step = strtoull(parts[STEP], NULL, 10);
    read_fails = strtoull(parts[READ_FAILS], NULL, 10);
    write_fails = strtoull(parts[WRITE_FAILS], NULL, 10);
    was_read = was_written = 0;
}

static u8 digit(char one)
{
    return (u8)(one <= '9' ? one - '0' : one - 'a' + 10);
}

static u64 least(u64 one, u64 other)
{
    return one < other ? one : other;
}

/* Copies at most so many octets of hexadecimal text, up to a comma, and returns how many. */
static u64 copied(u8 *to, const char *from, u64 most)
{
    u64 count;
    for (count = 0; count < most && from[2 * count] && from[2 * count] != ','; count++) {
        to[count] = (u8)(digit(from[2 * count]) << 4 | digit(from[2 * count + 1]));
    }
    return count;
}

u64 host_read(u8 *m, u32 stream, u64 at, u64 count)
{
    u8 *to = piece(m, (u32)at, count);
    u64 got;
    (void)stream;
    if (was_read >= read_fails) {
        return (u64)-1;
    }
    while (*parts[PIECES] == ',') {
        parts[PIECES]++;
    }
    got = copied(to, parts[PIECES], least(count, read_fails - was_read));
    parts[PIECES] += 2 * got;
    was_read += got;
    return got;
}

u64 host_write(u8 *m, u32 stream, u64 at, u64 count)
{
    const u8 *from = piece(m, (u32)at, count);
    u64 taken = least(least(count, step), write_fails - was_written), it;
    (void)stream;
    if (taken == 0 && count > 0) {
        return (u64)-1;
    }
    text = grown(text, &text_room, (size_t)(2 * (was_written + taken) + 1));
    for (it = 0; it < taken; it++) {
        static const char digits[] = "0123456789abcdef";
        text[2 * (was_written + it)] = digits[from[it] >> 4];
        text[2 * (was_written + it) + 1] = digits[from[it] & 15];
    }
    was_written += taken;
    return taken;
}

int main(void)
{
    u8 *m = machine_begin();
    u64 room, count;
    if (m == NULL) {
        return 3;
    }
#if defined(_WIN32)
    _setmode(0, _O_BINARY);
    _setmode(1, _O_BINARY);
#endif
    text = grown(text, &text_room, 1);
    while (read_line()) {
        clock_t began;
        u32 status;
        part_line();
        count = strlen(parts[WORDS]) / 2;
        room = scard_room(m, count);
        copied(piece(m, (u32)room, count), parts[WORDS], count);
        began = clock();
        status = scard_answer(m, room, count);
        text[2 * was_written] = 0;
        printf("%u\t%s\t%.0f\t%u\n", (unsigned)status, text, (double)(clock() - began) * 1e6 / CLOCKS_PER_SEC,
               (unsigned)pages);
        fflush(stdout);
    }
    return 0;
}
