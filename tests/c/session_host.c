/* What the host of a card gets: no message of fewer than four octets unless the setup says so, and no octet of an
 * earlier message after the end of a command.
 */
#include "wired.h"

static struct wired wired;
static const uint8_t reply[] = {0x90, 0x00};
static unsigned called, asks; /* calls of the host, and the requests for time that it makes for each command */
static size_t got;            /* octets of the last command */
static int stale;             /* other octets than 0 after a command, in the part of the buffer that was ever filled */

enum { NEVER_FILLED = MESSAGE_ROOM - 8, MARK = 0xA5 };

static struct scard_host_turn act(void *context, const uint8_t *command, size_t count, size_t granted)
{
    struct scard_host_turn turn = {SCARD_HOST_REPLY, 1, reply, sizeof reply};
    size_t at;
    (void)context;
    called++;
    got = count;
    CHECK(command == wired.commands[1]);
    for (at = count; at < NEVER_FILLED; at++) {
        stale += command[at] != 0;
    }
    if (granted < asks) {
        turn.kind = SCARD_HOST_TIME;
    }
    return turn;
}

static const struct scard_host host = {NULL, act};

static void begins(bool takes_short)
{
    wired_begin(&wired, &host, 1, 0);
    wired.setups[1].host_takes_short = takes_short;
    CHECK(scard_card_session_begin(&wired.card, &wired.setups[1], &host).status == SCARD_OK);
    memset(wired.commands[1] + NEVER_FILLED, MARK, MESSAGE_ROOM - NEVER_FILLED);
    called = asks = 0;
    got = MESSAGE_ROOM;
}

/* Returns whether the card answers a block by these octets. */
static int answers(const char *block, const char *answer)
{
    struct octets octets = of_hex(block);
    int same;
    wired_put(&wired, &wired.to_card, octets.at, octets.count);
    free(octets.at);
    CHECK(scard_card_session_serve(&wired.card).kind == SCARD_SESSION_FAILED); /* no further block */
    same = is_hex(wired.to_terminal.octets, wired.to_terminal.count, answer);
    wired.to_terminal.count = 0;
    return same;
}

/* An empty message after a command: the command isn't there any more, and the host isn't called. */
static void empty(void)
{
    begins(false);
    CHECK(answers("000005002000000025", "000002900092") && called == 1 && got == 5);
    CHECK(answers("00400040", "004002670025") && called == 1);
    CHECK(wired.commands[1][1] == 0);
    CHECK(answers("000005002000000025", "000002900092") && called == 2 && got == 5);
    begins(true);
    CHECK(answers("000005002000000025", "000002900092") && called == 1);
    CHECK(answers("00400040", "0040029000D2") && called == 2 && got == 0);
}

/* Messages of none to four octets, as the first one and after another one. */
static void short_ones(void)
{
    static const char *const first[] = {"00000000", "0000018081", "000002800082", "00000380000083",
                                        "0000048000000084"};
    static const char *const second[] = {"00400040", "00400180C1", "0040028000C2", "004003800000C3",
                                         "00400480000000C4"};
    size_t count;
    for (count = 0; count <= 4; count++) {
        begins(false);
        CHECK(answers(first[count], count < 4 ? "000002670065" : "000002900092") && called == (count == 4));
        CHECK(answers(second[count], count < 4 ? "004002670025" : "0040029000D2") && called == 2u * (count == 4));
        begins(true);
        CHECK(answers(first[count], "000002900092") && called == 1 && got == count);
        CHECK(answers(second[count], "0040029000D2") && called == 2 && got == count);
    }
}

/* Sends the card an I-block of this many octets, none of them 0. Returns the control octet of what the card answers. */
static unsigned sends(uint8_t number, bool more, size_t count)
{
    uint8_t field[SCARD_BLOCK_ROOM], block[SCARD_BLOCK_ROOM];
    unsigned answer;
    memset(field, MARK, sizeof field);
    wired_put(&wired, &wired.to_card, block,
              (size_t)scard_block_i(0, number, more, field, count, block, sizeof block).place);
    CHECK(scard_card_session_serve(&wired.card).kind == SCARD_SESSION_FAILED);
    answer = wired.to_terminal.octets[1];
    wired.to_terminal.count = 0;
    return answer;
}

/* After each command a shorter one, of each length. */
static void shorter(void)
{
    size_t count, next;
    for (count = 4; count <= 32; count++) {
        for (next = 4; next <= count; next++) {
            begins(false);
            CHECK(sends(0, false, count) == 0x00 && called == 1 && got == count);
            CHECK(sends(1, false, next) == 0x40 && called == 2 && got == next);
            CHECK(sends(0, false, count) == 0x00 && called == 3 && got == count);
        }
    }
}

/* Octets of a command that isn't whole: RESYNCH ends it, or the buffer has no room for more. */
static void broken_off(void)
{
    int block;
    begins(false);
    CHECK(sends(0, true, 32) == 0x90 && sends(1, true, 32) == 0x80 && called == 0);
    CHECK(answers("00C000C0", "00E000E0"));
    CHECK(sends(0, false, 5) == 0x00 && called == 1 && got == 5);
    begins(false);
    for (block = 0; block < MESSAGE_ROOM / 32; block++) {
        CHECK(sends((uint8_t)(block % 2), true, 32) == (block % 2 == 0 ? 0x90u : 0x80u));
    }
    CHECK(sends(0, true, 1) == 0x82); /* the buffer is full */
    CHECK(answers("00C000C0", "00E000E0"));
    CHECK(sends(0, false, 4) == 0x00 && called == 1 && got == 4);
}

/* A command that the host asked more time for is the same one at each call. What was never filled isn't overwritten, so
 * a short command after a short one costs nothing.
 */
static void asked_again(void)
{
    size_t at;
    begins(false);
    asks = 2;
    CHECK(sends(0, false, 20) == 0xC3 && called == 1 && got == 20);
    CHECK(answers("00E30101E3", "00C30101C3") && called == 2 && got == 20 && wired.commands[1][19] == MARK);
    CHECK(answers("00E30101E3", "000002900092") && called == 3 && got == 20 && wired.commands[1][19] == MARK);
    for (at = NEVER_FILLED; at < MESSAGE_ROOM; at++) {
        CHECK(wired.commands[1][at] == MARK);
    }
}

/* Each octet is overwritten once. */
static void once(void)
{
    const int before = stale;
    begins(false);
    CHECK(sends(0, false, 20) == 0x00 && sends(1, false, 4) == 0x40 && stale == before);
    wired.commands[1][15] = MARK;
    CHECK(sends(0, false, 4) == 0x00 && stale == before + 1 && wired.commands[1][15] == MARK);
    stale = before;
}

int main(void)
{
    empty();
    short_ones();
    shorter();
    broken_off();
    asked_again();
    once();
    CHECK(stale == 0);
    return verdict_of_checks("session_host");
}
