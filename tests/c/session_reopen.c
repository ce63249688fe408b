/* A terminal has to begin together with its card. This shows what a new terminal gets from a card that wasn't reset,
 * and how to begin a session with a card that can't be reset. */
#include "wired.h"

static struct wired wired;
static uint8_t reply[3] = {0, 0x90, 0x00};
static unsigned acted;

/* Replies with P2 of the command. For INS 10 it first asks for time. */
static struct scard_host_turn act(void *context, const uint8_t *command, size_t count, size_t granted)
{
    struct scard_host_turn turn = {SCARD_HOST_REPLY, 3, reply, sizeof reply};
    (void)context;
    if (granted == 0) {
        acted++;
        reply[0] = count > 3 ? command[3] : 0xFF;
        turn.kind = command[1] == 0x10 ? SCARD_HOST_TIME : SCARD_HOST_REPLY;
    }
    return turn;
}

static const struct scard_host host = {NULL, act};

/* Returns whether the answer to the command with this number has the octet `wanted`. */
static int answers(uint8_t number, uint8_t wanted)
{
    const uint8_t command[5] = {0x00, 0xB0, 0x00, number, 0x01};
    struct scard_turn turn = scard_session_exchange(&wired.terminal, command, sizeof command);
    return turn.kind == SCARD_DONE && turn.count == 3 && wired.answers[0][0] == wanted;
}

/* In one session each command has its own answer. A new terminal alone gets the first answer again, which callers have
 * to know. */
static void reopened(void)
{
    uint8_t number;
    wired_begin(&wired, &host, 1, 0);
    for (number = 1; number < 7; number++) {
        CHECK(answers(number, number));
    }
    wired_begin(&wired, &host, 1, 0);
    CHECK(answers(1, 1));
    CHECK(scard_session_begin(&wired.terminal, &wired.setups[0]).status == SCARD_OK);
    CHECK(answers(2, 1));
}

/* After RESYNCH a new terminal finds the card with its first numbers. */
static void resynced(void)
{
    uint8_t number;
    acted = 0;
    wired_begin(&wired, &host, 1, 0);
    for (number = 1; number < 7; number++) {
        unsigned before;
        CHECK(answers(number, number));
        CHECK(number % 2 == 0 || scard_session_ask_ifs(&wired.terminal, 100).kind == SCARD_IFS_SET);
        CHECK(wired.terminal.lent.terminal.ifsd == (number % 2 == 0 ? 32 : 100));
        before = wired.sent;
        CHECK(scard_session_resync(&wired.terminal, &wired.setups[0]).kind == SCARD_GIVEN_UP);
        CHECK(wired.sent == before + 1 && wired.last[1] == 0xC0 && wired.terminal.lent.terminal.ifsd == 32);
    }
    CHECK(acted == 6 && answers(7, 7) && acted == 7);
}

/* The card was left in the middle of a command, of a request, and of an answer. */
static void left(void)
{
    const uint8_t command[40] = {0x00, 0x10, 0x00, 0x42}, part[5] = {0x00, 0x20, 0x01, 0x55, 0x74};
    wired_begin(&wired, &host, 1, 0);
    wired_card_send(&wired, part, sizeof part); /* a block that is still on the line */
    wired_terminal_send(&wired, part, sizeof part);
    CHECK(scard_session_resync(&wired.terminal, &wired.setups[0]).kind == SCARD_GIVEN_UP && answers(1, 1));
    wired_put(&wired, &wired.to_card, (const uint8_t *)"\x00\x40\x05\x00\x10\x00\x42\x01\x16", 9);
    CHECK(scard_session_resync(&wired.terminal, &wired.setups[0]).kind == SCARD_GIVEN_UP);
    CHECK(wired.card.lent.granted == 0 && answers(2, 2));
    CHECK(scard_session_exchange(&wired.terminal, command, sizeof command).kind == SCARD_DONE);
    CHECK(wired.answers[0][0] == 0x42 && answers(3, 3));
}

/* A card that doesn't answer gets three requests, and no session begins. */
static void silent(void)
{
    wired_begin(&wired, &host, 1, 0);
    wired.is_cut = true;
    wired.sent = 0;
    CHECK(scard_session_resync(&wired.terminal, &wired.setups[0]).kind == SCARD_DEAD);
    CHECK(wired.sent == 3 && is_hex(wired.last, 4, "00C000C0") && wired.waited == 1601146);
    CHECK(scard_session_ask_ifs(&wired.terminal, 100).kind == SCARD_REFUSED_DEAD && wired.sent == 3);
    wired.setups[0].t1.ifsc = 0;
    CHECK(scard_session_resync(&wired.terminal, &wired.setups[0]).kind == SCARD_NO_END && wired.sent == 3);
}

int main(void)
{
    reopened();
    resynced();
    left();
    silent();
    return verdict_of_checks("session_reopen");
}
