/* Damages one block of an exchange. Each octet is changed to each other value, the end is cut at each place, and octets
 * are added after it. The answer is right, and the card acts on the command once and on no other. */
#include "wired.h"

static struct wired wired;
static struct octets command, reply;
static unsigned acted;
static int wrong;

static struct scard_host_turn act(void *context, const uint8_t *octets, size_t count, size_t granted)
{
    struct scard_host_turn turn = {SCARD_HOST_REPLY, 0, reply.at, reply.count};
    (void)context, (void)granted;
    acted++;
    wrong += count != command.count || memcmp(octets, command.at, count) != 0;
    return turn;
}

static const struct scard_host host = {NULL, act};

/* Returns whether an exchange with this damage has the right answer, and the next one too. */
static int comes_out(struct harm harm)
{
    struct scard_turn turn;
    int round;
    wired_begin(&wired, &host, 1, 0);
    wired.harm = harm;
    acted = 0;
    for (round = 0; round < 2; round++) {
        turn = scard_session_exchange(&wired.terminal, command.at, command.count);
        if (turn.kind != SCARD_DONE || turn.count != reply.count || memcmp(wired.answers[0], reply.at, reply.count)) {
            return 0;
        }
    }
    return acted == 2 && wrong == 0;
}

static struct harm one(unsigned block, int kind, size_t at, uint8_t octet)
{
    struct harm harm;
    harm.block = block;
    harm.kind = kind;
    harm.at = at;
    harm.octet = octet;
    return harm;
}

/* Applies every damage to one block, which has this many octets. */
static void every(unsigned block, size_t count)
{
    size_t at;
    unsigned octet;
    for (at = 0; at < count; at++) {
        for (octet = 1; octet < 256; octet++) {
            CHECK(comes_out(one(block, HARM_CHANGE, at, (uint8_t)octet)));
        }
        CHECK(comes_out(one(block, HARM_CUT, at, 0)));
    }
    for (at = 1; at < 40; at++) {
        CHECK(comes_out(one(block, HARM_ADD, at, 0)) && comes_out(one(block, HARM_ADD, at, (uint8_t)at)));
    }
}

static void says(const char *sent, const char *answered)
{
    command = of_hex(sent);
    reply = of_hex(answered);
}

static void forget(void)
{
    free(command.at);
    free(reply.at);
}

/* An answer that contains a shorter one with a right check octet. Then zeros, of which each four are a block. */
static void answers(void)
{
    says("00B0000003", "9000926A82");
    every(1, 9);
    every(2, 9);
    forget();
    says("00B0000010", "000000000000000000000000000000009000");
    every(2, 22);
    forget();
}

/* The front of the command is a command too, on which the card could act. */
static void commands(void)
{
    says("0020000125240102030405060708090A0B0C0D0E0F101112131415161718191A1B1C1D1E", "9000");
    every(1, 32);
    every(2, 6);
    forget();
    says("00200001250102030405060708090A0B0C0D0E0F101112131415161718191A1B1C1D1E1F202122232425", "9000");
    every(1, 36);
    every(2, 4);
    every(3, 14);
    forget();
}

/* Three ways in which a part of a block was once accepted as the whole block. */
static void known(void)
{
    struct harm harm = one(2, HARM_CHANGE, 2, 0x05 ^ 0x02);
    says("00B0000003", "9000926A82"); /* LEN of an answer says 2: 9000 */
    CHECK(comes_out(harm) && wired.blocks > 4);
    forget();
    says("00200001180102030405060708090A0B0C0D0E0F101112131415161718", "9000");
    harm = one(1, HARM_CHANGE, 2, 0x1D ^ 0x04); /* LEN of a command with a PIN says 4: a question how often it may be */
    CHECK(comes_out(harm) && wired.blocks > 4);
    forget();
    says("00B0000010", "000000000000000000000000000000009000");
    harm = one(2, HARM_CUT_FRONT, 3, 0); /* the receiver missed the first three octets */
    CHECK(comes_out(harm) && wired.blocks > 4);
    forget();
}

int main(void)
{
    known();
    answers();
    commands();
    return verdict_of_checks("session_harm");
}
