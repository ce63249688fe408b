/* A terminal and a card in one program. The card is at the other end of the terminal's line, and no time passes. */
#ifndef WIRED_H
#define WIRED_H

#include "check.h"
#include "scard_session.h"

enum { WIRED_ROOM = 1024, MESSAGE_ROOM = 320 };

/* The damage of one block: the one with this number, counted over both ends from 1 on. */
enum harm_kind { HARM_CHANGE, HARM_CUT, HARM_CUT_FRONT, HARM_ADD };

struct harm {
    unsigned block;
    int kind;
    size_t at;      /* the octet that is changed, or how many are left, are cut off the front, or are added */
    uint8_t octet;  /* what it is changed by, or what is added */
};

/* Octets on the line to one end. */
struct way {
    uint8_t octets[WIRED_ROOM];
    size_t count;
};

struct wired {
    struct scard_session terminal;
    struct scard_card_session card;
    struct scard_setup setups[2];
    uint8_t commands[2][MESSAGE_ROOM], answers[2][MESSAGE_ROOM];
    struct way to_card, to_terminal;
    bool is_cut;          /* nothing arrives at the card */
    unsigned rate;        /* this many of 1,000 blocks are lost or damaged */
    struct harm harm;
    unsigned blocks;      /* sent by both ends */
    uint32_t die;
    uint64_t waited;      /* how long the terminal last waited for a block's first octet */
    unsigned sent;        /* blocks of the terminal */
    uint8_t last[SCARD_BLOCK_ROOM];
    struct scard_turn served; /* how the card's serving ended */
};

static inline uint32_t wired_throw(struct wired *wired)
{
    wired->die ^= wired->die << 13;
    wired->die ^= wired->die >> 17;
    wired->die ^= wired->die << 5;
    return wired->die;
}

/* Damages a block at the end of a way. Returns how many octets it has then. */
static inline size_t wired_harm(const struct harm *harm, uint8_t *octets, size_t count)
{
    switch (harm->kind) {
    case HARM_CHANGE:
        octets[harm->at] ^= harm->octet;
        return count;
    case HARM_CUT:
        return harm->at;
    case HARM_CUT_FRONT:
        memmove(octets, octets + harm->at, count - harm->at);
        return count - harm->at;
    default:
        memset(octets + count, harm->octet, harm->at);
        return count + harm->at;
    }
}

/* Puts a block onto a way, disturbed as the random generator says. */
static inline void wired_put(struct wired *wired, struct way *way, const uint8_t *octets, size_t count)
{
    uint8_t *at = way->octets + way->count;
    uint32_t side = wired_throw(wired) % 1000 < wired->rate ? wired_throw(wired) % 4 : 4;
    wired->blocks++;
    if (side == 0 || count > WIRED_ROOM - way->count) {
        return;
    }
    memcpy(at, octets, count);
    if (wired->blocks == wired->harm.block) {
        count = wired_harm(&wired->harm, at, count);
    }
    if (side == 1) { /* a wrong octet, which may be LEN */
        at[wired_throw(wired) % count] ^= (uint8_t)(1 + wired_throw(wired) % 255);
    } else if (side == 2) { /* another node address */
        at[0] ^= 1;
        at[count - 1] ^= 1;
    } else if (side == 3) { /* its end is missing */
        count = 1 + wired_throw(wired) % (count - 1);
    }
    way->count += count;
}

static inline int wired_take(struct way *way, uint8_t *octets, size_t room)
{
    size_t count = way->count < room ? way->count : room;
    memcpy(octets, way->octets, count);
    way->count -= count;
    memmove(way->octets, way->octets + count, way->count);
    return (int)count;
}

static inline int wired_terminal_send(void *context, const uint8_t *octets, size_t count)
{
    struct wired *wired = (struct wired *)context;
    wired->sent++;
    wired->waited = 0;
    memcpy(wired->last, octets, count);
    if (!wired->is_cut) {
        wired_put(wired, &wired->to_card, octets, count);
    }
    return 0;
}

static inline int wired_card_send(void *context, const uint8_t *octets, size_t count)
{
    struct wired *wired = (struct wired *)context;
    wired_put(wired, &wired->to_terminal, octets, count);
    return 0;
}

/* The card's line ends if no octet is on it, so that the terminal goes on. */
static inline int wired_card_receive(void *context, uint8_t *octets, size_t room, uint64_t microseconds)
{
    struct wired *wired = (struct wired *)context;
    if (wired->to_card.count == 0 && microseconds == SCARD_LINE_FOREVER) {
        return SCARD_LINE_FAILED;
    }
    return wired_take(&wired->to_card, octets, room);
}

static inline int wired_terminal_receive(void *context, uint8_t *octets, size_t room, uint64_t microseconds)
{
    struct wired *wired = (struct wired *)context;
    if (wired->waited == 0) {
        wired->waited = microseconds;
    }
    if (wired->to_card.count > 0) {
        wired->served = scard_card_session_serve(&wired->card);
    }
    return wired_take(&wired->to_terminal, octets, room);
}

static inline struct scard_setup wired_setup(struct wired *wired, int end)
{
    static const struct scard_clock clock = {372, 1, 3571200};
    static const struct scard_t1 t1 = {32, 4, 5};
    struct scard_setup setup;
    memset(&setup, 0, sizeof setup);
    setup.line.context = wired;
    setup.line.send = end == 0 ? wired_terminal_send : wired_card_send;
    setup.line.receive = end == 0 ? wired_terminal_receive : wired_card_receive;
    setup.command = wired->commands[end];
    setup.command_room = MESSAGE_ROOM;
    setup.answer = wired->answers[end];
    setup.answer_room = MESSAGE_ROOM;
    setup.t1 = t1;
    setup.clock = clock;
    return setup;
}

/* Resets: both ends are new. */
static inline void wired_begin(struct wired *wired, const struct scard_host *host, uint32_t die, unsigned rate)
{
    memset(wired, 0, sizeof *wired);
    wired->die = die * 2654435761u + 88172645u;
    wired->rate = rate;
    wired->setups[0] = wired_setup(wired, 0);
    wired->setups[1] = wired_setup(wired, 1);
    CHECK(scard_session_begin(&wired->terminal, &wired->setups[0]).status == SCARD_OK);
    CHECK(scard_card_session_begin(&wired->card, &wired->setups[1], host).status == SCARD_OK);
}

#endif
