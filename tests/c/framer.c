/* Bursts: which octets of several pieces are kept, when they are a whole block, and which silence ends them. */
#include "check.h"

static struct scard_lent_framer framer;

enum { FIRST = 1, INSIDE = 2, AFTER = 3 };

static void feed(const char *text)
{
    struct octets octets = of_hex(text);
    scard_lent_framer_feed(&framer, octets.at, octets.count);
    free(octets.at);
}

/* Returns whether the burst has these octets, and a silence of this length ends it. */
static int is(const char *text, uint64_t wait)
{
    return framer.count == strlen(text) / 2 && is_hex(framer.octets, scard_lent_framer_burst(&framer), text)
        && scard_lent_framer_wait(&framer, FIRST, INSIDE, AFTER) == wait
        && scard_lent_framer_is_whole(&framer) == (wait == AFTER);
}

static void pieces(void)
{
    memset(&framer, 0xA5, sizeof framer); /* any value is a valid framer */
    CHECK(scard_lent_framer_burst(&framer) == SCARD_BURST_ROOM && !scard_lent_framer_is_whole(&framer));
    scard_lent_framer_begin(&framer);
    scard_lent_framer_feed(&framer, NULL, 0);
    CHECK(is("", FIRST));
    feed("00");
    CHECK(is("00", INSIDE));
    feed("0002");
    CHECK(is("000002", INSIDE));
    feed("9000");
    feed("92");
    CHECK(is("000002900092", AFTER));
    scard_lent_framer_feed(&framer, NULL, 0);
    CHECK(is("000002900092", AFTER));
    feed("6A82EF");
    CHECK(is("0000029000926A82EF", INSIDE));
    scard_lent_framer_begin(&framer);
    CHECK(is("", FIRST));
}

static int whole(const char *text)
{
    scard_lent_framer_begin(&framer);
    feed(text);
    return scard_lent_framer_is_whole(&framer);
}

static void blocks(void)
{
    CHECK(whole("00800080") && whole("00000000") && whole("FFFF0304050604")); /* whatever NAD and PCB are */
    CHECK(!whole("00800081") && !whole("0080") && !whole("008080") && !whole("0080008000") && !whole("000000"));
    CHECK(!whole("0000029000926A82EF") && !whole("0000059000926A82") && whole("0000059000926A8" "2EF"));
}

/* Checks the longest block, and more octets than the framer keeps. */
static void long_ones(void)
{
    uint8_t octets[300];
    size_t count;
    memset(octets, 0, sizeof octets);
    octets[2] = octets[257] = 254;
    for (count = 250; count < 300; count++) {
        scard_lent_framer_begin(&framer);
        scard_lent_framer_feed(&framer, octets, count);
        CHECK(scard_lent_framer_is_whole(&framer) == (count == 258) && framer.count == count);
        CHECK(scard_lent_framer_burst(&framer) == (count < SCARD_BURST_ROOM ? count : SCARD_BURST_ROOM));
        CHECK(memcmp(framer.octets, octets, scard_lent_framer_burst(&framer)) == 0);
    }
    for (count = 0; count < 1000; count++) {
        scard_lent_framer_feed(&framer, octets, sizeof octets);
    }
    CHECK(framer.count == 299 + 300000 && framer.octets[2] == 254 && !scard_lent_framer_is_whole(&framer));
    framer.count = UINT64_MAX - 1;
    scard_lent_framer_feed(&framer, octets, sizeof octets);
    CHECK(framer.count == UINT64_MAX && !scard_lent_framer_is_whole(&framer));
    CHECK(scard_lent_framer_wait(&framer, FIRST, INSIDE, AFTER) == INSIDE);
}

int main(void)
{
    pieces();
    blocks();
    long_ones();
    return verdict_of_checks("framer");
}
