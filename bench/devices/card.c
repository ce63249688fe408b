/* A card for the suite, over dist/c/scard.c: cc -I../../dist/c card.c callback.c ../../dist/c/scard.c */
#include "callback.h"
#include "scard.h"

#include <string.h>

/* microseconds that the card takes for each waiting time that it asked for: fewer than one has */
#define WORK 1300000u
/* microseconds from the end of a block to the card's answer: more than BGT */
#define TURN 2000u
#define RESYNCH_RESPONSE 0xE0

static const uint8_t answer_to_reset[] = {0x3B, 0x80, 0x81, 0x31, 0x20, 0x45, 0x55};
static struct scard_lent_card card;
static uint8_t kept_command[DEVICE_ROOM], kept_reply[DEVICE_ROOM];
static uint8_t served, asked; /* for how many waiting times it asked */

#define BUFFERS kept_command, sizeof kept_command, kept_reply, sizeof kept_reply

struct device_reply device_reset(const uint8_t *atr, size_t count, uint8_t *out)
{
    struct device_reply reply = {DEVICE_BLOCK, sizeof answer_to_reset, 0, 0};
    (void)atr;
    (void)count;
    served = asked = 0;
    if (scard_lent_card_begin(&card, BUFFERS, 32, 4, 5).status != SCARD_OK) {
        reply.word = DEVICE_NOTHING;
    }
    memcpy(out, answer_to_reset, sizeof answer_to_reset);
    return reply;
}

/* Writes data and 9000 to `out`. Returns the number of octets. */
static size_t done(uint8_t *out, const uint8_t *data, size_t count)
{
    memcpy(out, data, count);
    out[count] = 0x90;
    out[count + 1] = 0x00;
    return count + 2;
}

/* The application of application.py: writes the answer to a command. Returns the number of its octets. */
static size_t answer(const uint8_t *octets, size_t count, uint8_t *out)
{
    uint8_t numbers[256];
    size_t at;
    served++;
    switch (count > 3 ? octets[1] : 0) {
    case 0xCB:
        return done(out, octets + 5, octets[4]);
    case 0xB0:
        for (at = 0; at < sizeof numbers; at++) {
            numbers[at] = (uint8_t)at;
        }
        return done(out, numbers, octets[4] == 0 ? sizeof numbers : octets[4]);
    case 0xCA:
        return done(out, &served, 1);
    case 0x10:
    case 0x20:
    case 0xDA:
        return done(out, octets, 0);
    default:
        out[0] = 0x6D;
        out[1] = 0x00;
        return 2;
    }
}

/* What the host does with a command: it asks for more time once if the command says so, and replies. */
static struct scard_turn host(uint8_t *out, uint32_t *waited)
{
    static uint8_t copy[DEVICE_ROOM], text[DEVICE_ROOM];
    size_t count = (size_t)scard_lent_card_command(&card, BUFFERS).place;
    memcpy(copy, kept_command, count);
    if (count > 3 && copy[1] == 0x10 && asked == 0) {
        asked = copy[3];
        return scard_lent_card_more_time(&card, BUFFERS, copy[3], out, SCARD_BLOCK_ROOM);
    }
    *waited += asked * WORK;
    asked = 0;
    count = answer(copy, count, text);
    return scard_lent_card_reply(&card, BUFFERS, text, count, out, SCARD_BLOCK_ROOM);
}

struct device_reply device_heard(const uint8_t *octets, size_t count, uint8_t *out)
{
    struct device_reply reply = {DEVICE_BLOCK, 0, TURN, 0};
    struct scard_turn turn = scard_lent_card_received(&card, BUFFERS, octets, count, out, SCARD_BLOCK_ROOM);
    if (turn.kind == SCARD_DONE) {
        turn = host(out, &reply.waited);
    }
    reply.word = turn.kind == SCARD_SEND ? DEVICE_BLOCK : DEVICE_NOTHING;
    reply.count = (size_t)turn.count;
    if (reply.word == DEVICE_BLOCK && out[1] == RESYNCH_RESPONSE) {
        asked = 0; /* the command is gone */
    }
    return reply;
}

/* The suite says this only to a terminal. */
static struct device_reply nothing(void)
{
    struct device_reply reply = {DEVICE_NOTHING, 0, 0, 0};
    return reply;
}

struct device_reply device_send(const uint8_t *command, size_t count, uint8_t *out)
{
    (void)command;
    (void)count;
    (void)out;
    return nothing();
}

struct device_reply device_silence(uint8_t *out)
{
    (void)out;
    return nothing();
}
