/* A terminal for the suite, over dist/c/scard.c: cc -I../../dist/c terminal.c callback.c ../../dist/c/scard.c */
#include "callback.h"
#include "scard.h"

#include <string.h>

/* the frequency of the card's clock, which is the one of the suite's judge */
#define CLOCK 3571200u
/* microseconds from the end of a block to the terminal's next one: more than BGT */
#define TURN 2000u

static struct scard_lent_terminal terminal;
static uint64_t bwt; /* microseconds */
static uint8_t kept_command[DEVICE_ROOM], kept_answer[DEVICE_ROOM], waiting[DEVICE_ROOM];
static size_t waiting_count;
static int is_waiting; /* whether a command waits for a reset of its card */

#define BUFFERS kept_command, sizeof kept_command, kept_answer, sizeof kept_answer

/* What the terminal does at a turn. */
static struct device_reply does(struct scard_turn turn, uint8_t *out)
{
    struct device_reply reply = {DEVICE_FAILED, (size_t)turn.count, 0, 0};
    if (turn.kind == SCARD_SEND) {
        reply.word = DEVICE_BLOCK;
        reply.waited = TURN;
        reply.waits = (uint32_t)(turn.wait * bwt);
    } else if (turn.kind == SCARD_IFS_SET) {
        reply.word = DEVICE_NOTHING;
    } else if (turn.kind == SCARD_DONE) {
        reply.word = DEVICE_ANSWER;
        reply.count = (size_t)scard_lent_terminal_answer(&terminal, BUFFERS).place;
        memcpy(out, kept_answer, reply.count);
    }
    return reply;
}

/* Before a card that no longer answers the terminal asks for a reset. */
struct device_reply device_send(const uint8_t *command, size_t count, uint8_t *out)
{
    struct scard_turn turn = scard_lent_terminal_transmit(&terminal, BUFFERS, command, count, out, SCARD_BLOCK_ROOM);
    struct device_reply reply = {DEVICE_RESET, 0, 0, 0};
    is_waiting = turn.kind == SCARD_REFUSED_DEAD;
    if (is_waiting) {
        memmove(waiting, command, count);
        waiting_count = count;
        return reply;
    }
    return does(turn, out);
}

struct device_reply device_reset(const uint8_t *octets, size_t count, uint8_t *out)
{
    struct device_reply reply = {DEVICE_FAILED, 0, 0, 0};
    struct scard_atr atr;
    struct scard_t1 t1;
    if (scard_atr_decode(octets, count, &atr).status != SCARD_OK || scard_atr_t1_params(&atr, &t1) != 0 ||
        scard_lent_terminal_begin(&terminal, BUFFERS, t1.ifsc, t1.bwi, t1.cwi).status != SCARD_OK) {
        return reply;
    }
    bwt = scard_t1_bwt(&t1, 372, 1) * 1000000 / CLOCK + 1;
    if (is_waiting) {
        return device_send(waiting, waiting_count, out);
    }
    reply.word = DEVICE_NOTHING;
    return reply;
}

struct device_reply device_heard(const uint8_t *octets, size_t count, uint8_t *out)
{
    return does(scard_lent_terminal_received(&terminal, BUFFERS, octets, count, out, SCARD_BLOCK_ROOM), out);
}

struct device_reply device_silence(uint8_t *out)
{
    return does(scard_lent_terminal_quiet(&terminal, BUFFERS, out, SCARD_BLOCK_ROOM), out);
}
