/* Tests tools/release/everywhere/host.c: the words that a host hands over, as the program asks for them. */
#include <assert.h>
#include <stdio.h>
#include <string.h>

#define isatty host_isatty
#undef NULL
#include "../../tools/release/everywhere/host.c"

enum { ROOM = 64 };

/* Whether the word with this number is this text, also if it is asked for out of order. */
static int is(size_t index, const char *text)
{
    unsigned char room[ROOM];
    i64 length = rattle_arg(index, room, sizeof room);
    return length == (i64)strlen(text) && memcmp(room, text, strlen(text)) == 0;
}

static int is_missing(size_t index)
{
    unsigned char room[ROOM];
    return rattle_arg(index, room, sizeof room) == -1;
}

/* A buffer that is too small is full, and nothing after it is written. */
static void is_cut(void)
{
    unsigned char room[4] = {'-', '-', '-', '-'};
    assert(rattle_arg(1, room, 3) == -2 && memcmp(room, "che-", 4) == 0);
    assert(rattle_arg(1, room, 0) == -2 && room[0] == 'c');
}

static int calls;

int scard_main(void)
{
    calls++;
    assert(rattle_errno() != 0 && rattle_env((const unsigned char *)"A", NULL, 0) == -1 && rattle_env_at(0, NULL, 0) == -1);
    assert(host_isatty(0) == 0 && __sysv_signal(13, 1) == 0);
    rattle_set_errno(calls);
    assert(rattle_errno() == calls);
    if (calls == 3) {
        assert(is(0, "") && is_missing(1));
        return 0;
    }
    assert(is(0, "scard") && is(1, "check") && is(2, "") && is(3, "\xFF") && is_missing(4) && is_missing(9));
    assert(is(1, "check") && is(3, "\xFF") && is(0, "scard"));
    is_cut();
    return 40 + calls;
}

int main(void)
{
    static const unsigned char octets[] = "scard\0check\0\0\xFF";
    assert(scard_answer(octets, sizeof octets - 1) == 41);
    assert(scard_answer(octets, sizeof octets - 1) == 42);
    assert(scard_answer(octets, 0) == 0);
    puts("host: 3 passed, 0 failed");
    return 0;
}
