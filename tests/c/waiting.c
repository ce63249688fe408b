/* How long a terminal waits after each turn, and the waiting times of parameters of T=1. */
#include "check.h"

static struct scard_handle terminal = SCARD_HANDLE_EMPTY, card = SCARD_HANDLE_EMPTY;
static struct scard_lent_terminal lent_terminal;
static struct scard_lent_card lent_card;
static uint8_t commands[2][16], answers[2][16]; /* the terminal's, and the card's */
static uint8_t block[SCARD_BLOCK_ROOM];

#define TERMINAL SCARD_LENT(lent_terminal, commands[0], answers[0])
#define CARD SCARD_LENT(lent_card, commands[1], answers[1])

static int waits(struct scard_turn turn, uint8_t kind, uint8_t wait)
{
    return turn.kind == kind && turn.wait == wait;
}

/* The card asks for this multiple of the time, and the terminal waits that much longer for one block. */
static void in_handles(uint8_t multiple, uint8_t wait)
{
    static const uint8_t command[] = {0x00, 0xA4, 0x04, 0x00, 0x00}, reply[] = {0x90, 0x00};
    struct scard_turn turn;
    CHECK(scard_terminal_open(&terminal, 32, 4, 5).status == SCARD_OK);
    CHECK(scard_card_open(&card, 32, 4, 5).status == SCARD_OK);
    CHECK(waits(scard_terminal_ask_ifs(&terminal, 0, block, sizeof block), SCARD_REFUSED_RESERVED, 0));
    CHECK(waits(scard_terminal_quiet(&terminal, block, sizeof block), SCARD_REFUSED_IDLE, 0));
    turn = scard_terminal_transmit(&terminal, command, sizeof command, block, sizeof block);
    CHECK(waits(turn, SCARD_SEND, 1));
    CHECK(waits(scard_terminal_quiet(&terminal, block, 257), SCARD_NO_ROOM, 0));
    CHECK(waits(scard_card_received(&card, block, turn.count, block, sizeof block), SCARD_DONE, 0));
    turn = scard_card_more_time(&card, multiple, block, sizeof block);
    CHECK(waits(turn, SCARD_SEND, 0));
    turn = scard_terminal_received(&terminal, block, turn.count, block, sizeof block);
    CHECK(waits(turn, SCARD_SEND, wait) && block[1] == 0xE3 && block[3] == multiple);
    CHECK(waits(scard_card_received(&card, block, turn.count, block, sizeof block), SCARD_DONE, 0));
    turn = scard_card_reply(&card, reply, sizeof reply, block, sizeof block);
    CHECK(waits(turn, SCARD_SEND, 0));
    CHECK(waits(scard_terminal_quiet(&terminal, block, sizeof block), SCARD_SEND, 1));
    turn = scard_card_received(&card, block, 4, block, sizeof block);
    CHECK(waits(turn, SCARD_SEND, 0));
    CHECK(waits(scard_terminal_received(&terminal, block, turn.count, block, sizeof block), SCARD_DONE, 0));
    CHECK(waits(scard_card_received(&terminal, block, turn.count, block, sizeof block), SCARD_NO_END, 0));
    scard_close(&terminal);
    scard_close(&card);
}

/* The same over buffers of the caller. */
static void lent(uint8_t multiple, uint8_t wait)
{
    static const uint8_t command[] = {0x00, 0xA4, 0x04, 0x00, 0x00}, reply[] = {0x90, 0x00};
    struct scard_turn turn;
    CHECK(scard_lent_terminal_begin(TERMINAL, 32, 4, 5).status == SCARD_OK);
    CHECK(scard_lent_card_begin(CARD, 32, 4, 5).status == SCARD_OK);
    turn = scard_lent_terminal_transmit(TERMINAL, command, sizeof command, block, sizeof block);
    CHECK(waits(turn, SCARD_SEND, 1));
    CHECK(waits(scard_lent_card_received(CARD, block, turn.count, block, sizeof block), SCARD_DONE, 0));
    turn = scard_lent_card_more_time(CARD, multiple, block, sizeof block);
    CHECK(waits(turn, SCARD_SEND, 0));
    turn = scard_lent_terminal_received(TERMINAL, block, turn.count, block, sizeof block);
    CHECK(waits(turn, SCARD_SEND, wait) && block[1] == 0xE3 && block[3] == multiple);
    CHECK(waits(scard_lent_card_received(CARD, block, turn.count, block, sizeof block), SCARD_DONE, 0));
    turn = scard_lent_card_reply(CARD, reply, sizeof reply, block, sizeof block);
    CHECK(waits(turn, SCARD_SEND, 0));
    turn = scard_lent_terminal_received(TERMINAL, block, turn.count, block, sizeof block);
    CHECK(waits(turn, SCARD_DONE, 0) && scard_lent_terminal_answer(TERMINAL).place == 2);
}

static struct scard_t1 with(uint8_t ifsc, uint8_t bwi, uint8_t cwi)
{
    struct scard_t1 made;
    made.ifsc = ifsc;
    made.bwi = bwi;
    made.cwi = cwi;
    return made;
}

static uint32_t cwt(uint8_t ifsc, uint8_t bwi, uint8_t cwi)
{
    struct scard_t1 params = with(ifsc, bwi, cwi);
    return scard_t1_cwt(&params);
}

static uint64_t bwt(uint8_t ifsc, uint8_t bwi, uint8_t cwi, uint16_t fi, uint16_t di)
{
    struct scard_t1 params = with(ifsc, bwi, cwi);
    return scard_t1_bwt(&params, fi, di);
}

/* CWT is 11 plus a power of two. BWT is 11 units, plus 960 units of 372 cycles times a power of two. */
static void times(void)
{
    CHECK(cwt(32, 4, 0) == 12 && cwt(32, 4, 5) == 43 && cwt(32, 4, 13) == 8203 && cwt(32, 4, 15) == 32779);
    CHECK(bwt(32, 0, 0, 372, 1) == 11 * 372 + 960 * 372);
    CHECK(bwt(32, 0, 0, 512, 8) == 11 * 512 + 960 * 372 * 8);
    CHECK(bwt(32, 4, 13, 372, 1) == 11 * 372 + 16 * 960 * 372);
    CHECK(bwt(32, 9, 15, 372, 1) == 11 * 372 + 512 * 960 * 372);
    CHECK(bwt(254, 4, 5, 512, 8) == 11 * 512 + (uint64_t)16 * 960 * 372 * 8);
    CHECK(bwt(1, 15, 15, 65535, 65535) == 11 * 65535 + (uint64_t)32768 * 960 * 372 * 65535);
    CHECK(cwt(0, 4, 5) == 0 && cwt(255, 4, 5) == 0 && cwt(32, 16, 5) == 0 && cwt(32, 4, 16) == 0);
    CHECK(bwt(0, 4, 5, 372, 1) == 0 && bwt(255, 4, 5, 372, 1) == 0);
    CHECK(bwt(32, 16, 5, 372, 1) == 0 && bwt(32, 4, 16, 372, 1) == 0);
}

/* The lines of docs/C.md, at a clock of 3.579545 MHz: BWI 4 is 1.6 seconds, and CWI 13 is 0.85. */
static void microseconds(void)
{
    struct scard_t1 t1 = with(32, 4, 13);
    uint64_t clock = 3579545, fi = 372, di = 1, wait = 2;
    uint64_t cycles = scard_t1_bwt(&t1, (uint16_t)fi, (uint16_t)di);
    uint64_t block_waiting = (wait * cycles * 1000000 + di * clock - 1) / (di * clock);
    uint64_t character = (scard_t1_cwt(&t1) * fi * 1000000 + di * clock - 1) / (di * clock);
    CHECK(block_waiting == 3194827 && character == 852488);
}

int main(void)
{
    in_handles(1, 1);
    in_handles(0, 1);
    in_handles(3, 3);
    in_handles(255, 255);
    lent(1, 1);
    lent(0, 1);
    lent(3, 3);
    lent(255, 255);
    times();
    microseconds();
    return verdict_of_checks("waiting");
}
