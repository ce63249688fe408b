/* A terminal and a card at the two ends of a line in virtual time, which has the faults of a real line. Octets have
 * times. Octets of a block may be changed, lost, added, doubled, swapped or late. Both ends run at the same time: the
 * terminal is the program, and the card has its own stack. Define _XOPEN_SOURCE as 700 before you include this file.
 */
#ifndef ROUGH_H
#define ROUGH_H

#include "check.h"
#include "scard_session.h"

#include <ucontext.h>

/* An octet takes 12 etu (ISO/IEC 7816-3, clause 11.2), at 9,600 bits a second. */
enum { ROUGH_OCTET = 1250, ROUGH_ROOM = 1024, ROUGH_WAY = 8192, ROUGH_MESSAGE = 320, ROUGH_STACK = 1 << 17 };

struct heard {
    uint64_t at; /* when its last bit came, in microseconds */
    uint8_t octet;
};

/* Octets that follow one another. */
struct train {
    struct heard octets[ROUGH_ROOM];
    size_t count;
};

/* Octets on the line to an end, in the order of their times. */
struct road {
    struct heard octets[ROUGH_WAY];
    size_t first, count;
};

struct rough_end {
    struct road in;
    uint64_t last;  /* when this end last sent or received an octet */
    uint64_t until; /* it waits until this time, or until an octet comes if it listens */
    bool listens;
    bool by_octets; /* its driver wakes at each octet; if false, once the octets pause */
};

/* The faults of a block on the line. A block with one of the first four is never accepted as a block. */
enum rough_kind {
    ROUGH_CHANGED, ROUGH_CUT, ROUGH_ADDED, ROUGH_ZEROS_AFTER, ROUGH_FRONT_LOST, ROUGH_FRONT_ZEROS, ROUGH_LOST,
    ROUGH_INSERTED, ROUGH_ZEROS, ROUGH_DOUBLED, ROUGH_REPEATED, ROUGH_PAUSED_CWT, ROUGH_RETURNED, ROUGH_CHANGED_TWO,
    ROUGH_SWAPPED, ROUGH_RETURNED_UNSEEN, ROUGH_PAUSED_BWT, ROUGH_NOISE_BEFORE, ROUGH_NOISE_APART, ROUGH_NOISE_AFTER,
    ROUGH_BLOCK_TWICE, ROUGH_BLOCK_LATE, ROUGH_ALL, ROUGH_KINDS = ROUGH_ALL
};

/* A block that was sent. */
struct sent {
    uint64_t at; /* when its first bit began */
    int from;
    uint8_t pcb;
};

struct rough {
    uint64_t now;
    struct rough_end ends[2]; /* the terminal's, the card's */
    struct scard_session terminal;
    struct scard_card_session card;
    struct scard_setup setups[2];
    uint8_t commands[2][ROUGH_MESSAGE], answers[2][ROUGH_MESSAGE];
    ucontext_t main, serving;
    uint8_t stack[ROUGH_STACK];
    bool is_over;  /* the card has to end */
    int kind;      /* enum rough_kind */
    unsigned rate; /* this many of 1,000 blocks have the fault */
    uint64_t die;
    unsigned harmed; /* blocks that had the fault */
    unsigned blocks; /* of both ends; `sent` has the first ones */
    struct sent sent[16];
    bool traces;     /* prints each block, and what arrives of it */
    struct scard_turn served;
};

static struct rough rough;

static inline uint32_t rough_throw(uint32_t sides)
{
    rough.die ^= rough.die << 13;
    rough.die ^= rough.die >> 7;
    rough.die ^= rough.die << 17;
    return (uint32_t)((rough.die >> 16) % sides);
}

/* ---- roads ---- */

static inline uint64_t road_next(const struct road *road)
{
    return road->count > 0 ? road->octets[road->first].at : SCARD_LINE_FOREVER;
}

/* Inserts an octet by its time, after those of the same time. */
static inline void road_put(struct road *road, struct heard heard)
{
    size_t place;
    if (road->first + road->count == ROUGH_WAY) {
        memmove(road->octets, road->octets + road->first, road->count * sizeof *road->octets);
        road->first = 0;
    }
    if (road->count == ROUGH_WAY) {
        abort();
    }
    for (place = road->first + road->count; place > road->first && road->octets[place - 1].at > heard.at; place--) {
        road->octets[place] = road->octets[place - 1];
    }
    road->octets[place] = heard;
    road->count++;
}

/* Returns when the octets pause, counted from the next octet on. */
static inline uint64_t road_pause(const struct road *road, size_t room)
{
    size_t place = road->first, end = road->first + (room < road->count ? room : road->count);
    while (place + 1 < end && road->octets[place + 1].at <= road->octets[place].at + ROUGH_OCTET) {
        place++;
    }
    return road->octets[place].at;
}

static inline int road_take(struct rough_end *end, uint8_t *octets, size_t room)
{
    struct road *road = &end->in;
    size_t count = 0;
    while (count < room && road_next(road) <= rough.now) {
        end->last = road->octets[road->first].at;
        octets[count++] = road->octets[road->first++].octet;
        road->count--;
    }
    road->first = road->count == 0 ? 0 : road->first;
    return (int)count;
}

/* ---- time ---- */

static inline uint64_t rough_wakes(const struct rough_end *end)
{
    uint64_t next = end->listens ? road_next(&end->in) : SCARD_LINE_FOREVER;
    return next < end->until ? next : end->until;
}

/* Makes the terminal wait until this time, or if it listens until an octet comes. The card runs meanwhile. */
static inline void rough_pass(uint64_t until, bool listens)
{
    struct rough_end *terminal = &rough.ends[0], *card = &rough.ends[1];
    terminal->until = until;
    terminal->listens = listens;
    while (rough_wakes(card) <= rough_wakes(terminal)) {
        uint64_t wakes = rough_wakes(card);
        rough.now = wakes > rough.now ? wakes : rough.now;
        if (swapcontext(&rough.main, &rough.serving) != 0) {
            abort();
        }
    }
    until = rough_wakes(terminal);
    rough.now = until > rough.now ? until : rough.now;
}

/* Makes the card wait likewise. */
static inline void rough_card_pass(uint64_t until, bool listens)
{
    rough.ends[1].until = until;
    rough.ends[1].listens = listens;
    if (!rough.is_over && swapcontext(&rough.serving, &rough.main) != 0) {
        abort();
    }
}

static inline void rough_end_pass(struct rough_end *end, uint64_t until, bool listens)
{
    if (end == &rough.ends[0]) {
        rough_pass(until, listens);
    } else {
        rough_card_pass(until, listens);
    }
}

/* ---- what happens to blocks ---- */

/* Removes octets of a train at a place. The octets after them keep their times. train_delay makes the octets from a
 * place on later.
 */
static inline void train_drop(struct train *train, size_t place, size_t count)
{
    memmove(train->octets + place, train->octets + place + count,
            (train->count - place - count) * sizeof *train->octets);
    train->count -= count;
}

static inline void train_delay(struct train *train, size_t place, uint64_t time)
{
    for (; place < train->count; place++) {
        train->octets[place].at += time;
    }
}

static inline uint8_t train_noise(void)
{
    return (uint8_t)(rough_throw(3) == 0 ? 0 : rough_throw(256));
}

/* Inserts noise at a place. The octets after it come later. */
static inline void train_insert(struct train *train, size_t place, size_t count)
{
    uint64_t began = place > 0 ? train->octets[place - 1].at : train->octets[0].at - ROUGH_OCTET;
    size_t at;
    memmove(train->octets + place + count, train->octets + place, (train->count - place) * sizeof *train->octets);
    train->count += count;
    train_delay(train, place + count, count * ROUGH_OCTET);
    for (at = 0; at < count; at++) {
        train->octets[place + at].at = began + (at + 1) * ROUGH_OCTET;
        train->octets[place + at].octet = train_noise();
    }
}

/* Appends zeros to a train, and makes these octets zeros. */
static inline void train_add_zeros(struct train *train, size_t count)
{
    for (; count > 0; count--) {
        train->octets[train->count].octet = 0;
        train->octets[train->count].at = train->octets[train->count - 1].at + ROUGH_OCTET;
        train->count++;
    }
}

static inline void train_zero(struct train *train, size_t place, size_t count)
{
    for (; count > 0; count--) {
        train->octets[place++].octet = 0;
    }
}

/* Repeats octets of a train at a place. */
static inline void train_repeat(struct train *train, size_t place, size_t count)
{
    size_t at;
    train_insert(train, place, count);
    for (at = 0; at < count; at++) {
        train->octets[place + at].octet = train->octets[place + count + at].octet;
    }
}

/* Appends the octets of a whole block, or noise, to a train, this long after its end. */
static inline void train_add(struct train *train, uint64_t gap)
{
    static const uint8_t blocks[][6] = {{0, 0, 2, 0x90, 0, 0x92}, {0, 0x40, 2, 0x90, 0, 0xD2}, {0, 0x80, 0, 0x80},
                                        {0, 0x90, 0, 0x90}, {0, 0xC0, 0, 0xC0}, {0, 0xE0, 0, 0xE0}};
    uint64_t began = train->octets[train->count - 1].at + gap;
    const uint8_t *block = blocks[rough_throw(6)];
    size_t count = rough_throw(2) == 0 ? 0 : 4u + block[2], at, end;
    end = count > 0 ? count : 1 + rough_throw(20);
    for (at = 0; at < end; at++) {
        train->octets[train->count].octet = count > 0 ? block[at] : train_noise();
        train->octets[train->count++].at = began + (at + 1) * ROUGH_OCTET;
    }
}

static inline void train_twice(struct train *train, uint64_t gap)
{
    size_t count = train->count;
    memcpy(train->octets + count, train->octets, count * sizeof *train->octets);
    train->count += count;
    train_delay(train, count, gap + train->octets[count - 1].at - train->octets[0].at + ROUGH_OCTET);
}

static inline uint64_t rough_some(uint64_t time, uint32_t most)
{
    return time + (uint64_t)rough_throw(1000) * (most - 1) * time / 1000;
}

/* Changes one octet to another value. LEN is changed more often than others. */
static inline void train_change(struct train *train)
{
    size_t place = rough_throw(4) == 0 && train->count > 2 ? 2 : rough_throw((uint32_t)train->count);
    train->octets[place].octet ^= (uint8_t)(1 + rough_throw(255));
}

static inline void train_swap(struct train *train, size_t place)
{
    uint8_t octet = train->octets[place].octet;
    size_t other = place + 1 < train->count ? place + 1 : 0;
    train->octets[place].octet = train->octets[other].octet;
    train->octets[other].octet = octet;
}

/* Applies a fault that only moves or changes octets. */
static inline void train_move(struct train *train, int kind, size_t place)
{
    const uint64_t cwt = rough.terminal.cwt, bwt = rough.terminal.bwt;
    switch (kind) {
    case ROUGH_CHANGED:
        train_change(train);
        break;
    case ROUGH_CHANGED_TWO:
        train_change(train);
        train_change(train);
        break;
    case ROUGH_SWAPPED:
        train_swap(train, place);
        break;
    case ROUGH_PAUSED_CWT:
        train_delay(train, place > 0 ? place : 1, rough_some(cwt, 5));
        break;
    case ROUGH_PAUSED_BWT:
        train_delay(train, place > 0 ? place : 1, rough_some(bwt, 3));
        break;
    default:
        train_delay(train, 0, rough_some(bwt, 3));
        break;
    }
}

/* Returns a number of octets below `count`: one to three, or any. */
static inline size_t rough_part(size_t count)
{
    size_t most = rough_throw(2) == 0 ? 3 : count - 1;
    return 1 + rough_throw((uint32_t)(most < count ? most : count - 1));
}

/* Applies a fault that removes octets. */
static inline void train_lose(struct train *train, int kind, size_t place)
{
    const size_t rest = train->count - place, some = rough_part(train->count);
    switch (kind) {
    case ROUGH_CUT:
        train->count = place;
        break;
    case ROUGH_LOST: /* neither the first octet nor the last one */
        place = 1 + place % (train->count - 2);
        train_drop(train, place, rough_part(train->count - place));
        break;
    default: /* the front: all octets up to a place near the end, or any */
        train_drop(train, 0, rough_throw(2) == 0 && rest < train->count ? train->count - rest : some);
        if (kind == ROUGH_FRONT_ZEROS) {
            train_add_zeros(train, 1 + rough_throw(8));
        }
        break;
    }
}

/* Applies a fault that inserts octets. */
static inline void train_fill(struct train *train, int kind, size_t place)
{
    const uint64_t cwt = rough.terminal.cwt, bwt = rough.terminal.bwt;
    const size_t some = 1 + rough_throw(3);
    switch (kind) {
    case ROUGH_ADDED:
        train_add(train, 0);
        break;
    case ROUGH_ZEROS_AFTER:
        train_add_zeros(train, 1 + rough_throw(300));
        break;
    case ROUGH_INSERTED:
        train_insert(train, place, some);
        break;
    case ROUGH_ZEROS:
        train_insert(train, place, some);
        train_zero(train, place, some);
        break;
    case ROUGH_DOUBLED:
        train_repeat(train, place, 1);
        break;
    case ROUGH_REPEATED:
        train_repeat(train, place, 1 + rough_throw((uint32_t)(train->count - place)));
        break;
    case ROUGH_NOISE_BEFORE:
        train_insert(train, 0, some * 2);
        break;
    case ROUGH_NOISE_APART:
        train_insert(train, 0, some * 2);
        train_delay(train, some * 2, rough_some(cwt, 5));
        break;
    case ROUGH_NOISE_AFTER:
        train_add(train, rough_throw(2) == 0 ? rough_some(cwt, 5) : rough_some(bwt / 8, 16));
        break;
    default:
        train_twice(train, rough_throw(2) == 0 ? rough_throw(3) * cwt : rough_some(bwt / 8, 24));
        break;
    }
}

static inline void train_meet(struct train *train, int kind)
{
    size_t place = rough_throw((uint32_t)train->count);
    kind = kind == ROUGH_ALL ? (int)rough_throw(ROUGH_KINDS) : kind;
    switch (kind) {
    case ROUGH_CHANGED:
    case ROUGH_CHANGED_TWO:
    case ROUGH_SWAPPED:
    case ROUGH_PAUSED_CWT:
    case ROUGH_PAUSED_BWT:
    case ROUGH_BLOCK_LATE:
        train_move(train, kind, place);
        break;
    case ROUGH_CUT:
    case ROUGH_FRONT_LOST:
    case ROUGH_FRONT_ZEROS:
    case ROUGH_LOST:
        train_lose(train, kind, place);
        break;
    case ROUGH_RETURNED: /* the other end gets the block as it is */
    case ROUGH_RETURNED_UNSEEN:
        break;
    default:
        train_fill(train, kind, place);
        break;
    }
    rough.harmed++;
}

/* ---- the line ---- */

static inline void rough_trace(const char *who, const struct train *train)
{
    size_t at;
    printf("%10llu %s", (unsigned long long)rough.now, who);
    for (at = 0; at < train->count; at++) {
        bool is_later = at > 0 && train->octets[at].at > train->octets[at - 1].at + ROUGH_OCTET;
        printf("%s%02X", is_later ? " .. " : "", train->octets[at].octet);
    }
    putchar('\n');
}

/* Makes a train of the octets of a block, one after another from now on. */
static inline void train_of(struct train *train, const uint8_t *octets, size_t count)
{
    size_t at;
    for (at = 0; at < count; at++) {
        train->octets[at].octet = octets[at];
        train->octets[at].at = rough.now + (at + 1) * ROUGH_OCTET;
    }
    train->count = count;
}

static inline void road_take_up(struct road *road, const struct train *train)
{
    size_t at;
    for (at = 0; at < train->count; at++) {
        road_put(road, train->octets[at]);
    }
}

/* Returns true if blocks with the fault come back to their sender. */
static inline bool rough_returns(void)
{
    return rough.kind == ROUGH_RETURNED || rough.kind == ROUGH_RETURNED_UNSEEN;
}

/* Sends a block of an end: it takes its time, and arrives at the other end with or without a fault. With an echo, and
 * with a fault that returns it, it also comes back to the sender. If octets of it are changed or lost, the echo has the
 * fault in one of two cases. Only the other end gets noise after the block. At the sender that noise would be a
 * separate burst, as noise on a line without an echo is.
 */
static inline int rough_send(int from, const uint8_t *octets, size_t count)
{
    struct rough_end *end = &rough.ends[from];
    struct train train, heard;
    bool returns = rough.setups[from].echo;
    train_of(&train, octets, count);
    train_of(&heard, octets, count);
    if (rough.blocks < sizeof rough.sent / sizeof *rough.sent) {
        struct sent sent = {rough.now, from, octets[1]};
        rough.sent[rough.blocks] = sent;
    }
    rough.blocks++;
    if (rough.traces) {
        rough_trace(from == 0 ? "t   " : "c   ", &train);
    }
    if (rough_throw(1000) < rough.rate) {
        train_meet(&train, rough.kind);
        returns = returns || rough_returns();
        heard = rough_throw(2) == 0 && train.count <= count ? train : heard;
        if (rough.traces) {
            rough_trace("  as", &train);
        }
    }
    road_take_up(&rough.ends[1 - from].in, &train);
    if (returns) {
        road_take_up(&end->in, &heard);
    }
    end->last = rough.now + count * ROUGH_OCTET;
    rough_end_pass(end, end->last, false);
    return 0;
}

/* Receives octets: as soon as there are any, or once they pause. Waits at most this long after the last octet that the
 * end sent or received.
 */
static inline int rough_receive(int to, uint8_t *octets, size_t room, uint64_t microseconds)
{
    struct rough_end *end = &rough.ends[to];
    uint64_t until = microseconds == SCARD_LINE_FOREVER ? microseconds : end->last + microseconds;
    while (road_next(&end->in) > rough.now && until > rough.now) {
        if (to == 1 && rough.is_over) {
            return SCARD_LINE_FAILED;
        }
        rough_end_pass(end, until, true);
    }
    if (road_next(&end->in) <= rough.now && !end->by_octets && road_pause(&end->in, room) > rough.now) {
        rough_end_pass(end, road_pause(&end->in, room), false);
    }
    return to == 1 && rough.is_over ? SCARD_LINE_FAILED : road_take(end, octets, room);
}

static inline int rough_terminal_send(void *context, const uint8_t *octets, size_t count)
{
    (void)context;
    return rough_send(0, octets, count);
}

static inline int rough_card_send(void *context, const uint8_t *octets, size_t count)
{
    (void)context;
    return rough_send(1, octets, count);
}

static inline int rough_terminal_receive(void *context, uint8_t *octets, size_t room, uint64_t microseconds)
{
    (void)context;
    return rough_receive(0, octets, room, microseconds);
}

static inline int rough_card_receive(void *context, uint8_t *octets, size_t room, uint64_t microseconds)
{
    (void)context;
    return rough_receive(1, octets, room, microseconds);
}

static inline uint64_t rough_now(void *context)
{
    (void)context;
    return rough.now;
}

/* ---- both ends ---- */

static void rough_serve(void)
{
    for (;;) {
        rough.served = scard_card_session_serve(&rough.card);
        rough.ends[1].until = SCARD_LINE_FOREVER;
        rough.ends[1].listens = false;
        if (swapcontext(&rough.serving, &rough.main) != 0) {
            abort();
        }
    }
}

/* Returns the setup of an end, with these parameters of T=1 (IFSC, BWI and CWI) and this silence. */
static inline struct scard_setup rough_setup(int end, struct scard_t1 t1, uint64_t silence)
{
    static const struct scard_clock clock = {372, 1, 3571200};
    struct scard_setup setup;
    memset(&setup, 0, sizeof setup);
    setup.line.send = end == 0 ? rough_terminal_send : rough_card_send;
    setup.line.receive = end == 0 ? rough_terminal_receive : rough_card_receive;
    setup.line.now = rough_now;
    setup.command = rough.commands[end];
    setup.command_room = ROUGH_MESSAGE;
    setup.answer = rough.answers[end];
    setup.answer_room = ROUGH_MESSAGE;
    setup.t1 = t1;
    setup.clock = clock;
    setup.silence = silence;
    return setup;
}

static inline void rough_start(void)
{
    if (getcontext(&rough.serving) != 0) {
        abort();
    }
    rough.serving.uc_stack.ss_sp = rough.stack;
    rough.serving.uc_stack.ss_size = sizeof rough.stack;
    rough.serving.uc_link = NULL;
    makecontext(&rough.serving, rough_serve, 0);
    rough.ends[1].until = SCARD_LINE_FOREVER;
}

/* Resets: both ends are new, and no octet is on the line. The setups are those of `rough`. */
static inline void rough_reset(const struct scard_host *host)
{
    bool is_first = rough.serving.uc_stack.ss_sp == NULL;
    int end;
    if (is_first) {
        rough_start();
    } else {
        rough.is_over = true; /* the call that serves the card ends */
        rough.ends[1].until = rough.now;
        rough_pass(rough.now, false);
        rough.is_over = false;
    }
    for (end = 0; end < 2; end++) {
        rough.ends[end].in.first = rough.ends[end].in.count = 0;
        rough.ends[end].last = rough.now;
    }
    CHECK(scard_session_begin(&rough.terminal, &rough.setups[0]).status == SCARD_OK);
    CHECK(scard_card_session_begin(&rough.card, &rough.setups[1], host).status == SCARD_OK);
    rough.ends[1].until = rough.now;
}

#endif
