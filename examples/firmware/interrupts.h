/* The line of an end, driven by interrupts. No call waits, and between two events the processor sleeps.
 *
 * The interrupts only store what happened: an octet came, the block is sent, the alarm's time is over. The main loop
 * takes the events one by one, and makes a step of the session for each. So one context alone uses the session, and
 * none of its calls runs in an interrupt:
 *
 * - A handler takes a few dozen instructions. So the UART, which holds one octet, gets it read in time, even while the
 *   main loop makes a step or the card's host works.
 * - The stack of a step is needed once, and not a second time on top of the application's.
 *
 * The main loop is this. `step` and `rests` are the program's own: one makes a step of the session, such as
 * scard_lent_session_step, and the other takes an answer or a command, and begins what comes next.
 *
 *     for (;;) {
 *         if (wire_rests(&wire)) {
 *             rests();
 *         } else if (wire_takes(&wire, &came)) {
 *             wire_begins(&wire, step(&came));
 *         } else {
 *             wire_sleep(&wire);
 *         }
 *     }
 */
#ifndef INTERRUPTS_H
#define INTERRUPTS_H

#include "board.h"

/* How many octets the interrupts store. */
enum { WIRE_STORE = 64 };

struct wire {
    struct scard_session_next next;  /* what the session said to do, which is what the wire does now */
    uint64_t last;                   /* when the last octet was sent or received, in microseconds */
    uint64_t due;                    /* when the wait or the last character is over */
    uint8_t block[SCARD_BLOCK_ROOM]; /* the block that is sent, or was sent last: `out` of the session's calls */
};

/* What happened, as the session's step takes it. */
struct wire_came {
    uint8_t event; /* enum scard_line_event */
    uint8_t count;
    uint8_t octets[WIRE_STORE];
};

/* Begins the wire over the first UART, and switches the interrupts on. To test the session, the wire disturbs the
 * octets that it sends as a board_line does. It also takes `in_million` of a million octets that come as damaged: this
 * UART checks no parity.
 */
void wire_begin(struct wire *wire, uint32_t in_million, uint32_t die);

/* Begins what the session says: to send the block, or to wait. */
void wire_begins(struct wire *wire, struct scard_session_next next);

/* Returns true if the wire neither sends nor waits. Then `next` is what the session says to its program. */
bool wire_rests(const struct wire *wire);

/* Takes an event for the session's step. Returns false if none came. */
bool wire_takes(struct wire *wire, struct wire_came *came);

/* Sleeps until an interrupt comes. Returns at once if one came since the last call of wire_takes began. */
void wire_sleep(const struct wire *wire);

#endif
