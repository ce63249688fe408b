/* The steps of a line alone, over the functions of a driver. */
#ifndef LINED_H
#define LINED_H

#include "scard_session.h"

/* Sends the block or waits, as the line says. Returns what the line says then. */
static inline struct scard_line_next lined_step(struct scard_lent_line *state, const struct scard_line *line,
                                                struct scard_line_next next, const uint8_t *block, size_t count)
{
    struct scard_session_next does = {SCARD_SEND, count, 0};
    struct scard_line_came came;
    if (next.kind == SCARD_NEXT_WAIT) {
        does.kind = SCARD_SESSION_WAIT;
        does.wait = next.wait;
    }
    scard_line_does(line, does, block, &came);
    return scard_lent_line_step(state, came.event, came.octets, came.count, scard_line_now(line), block, count);
}

/* Goes on until the line rests. */
static inline struct scard_line_next lined_go(struct scard_lent_line *state, const struct scard_line *line,
                                              struct scard_line_next next, const uint8_t *block, size_t count)
{
    while (next.kind == SCARD_NEXT_SEND || next.kind == SCARD_NEXT_WAIT) {
        next = lined_step(state, line, next, block, count);
    }
    return next;
}

#endif
