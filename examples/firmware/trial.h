/* What all images share: the parameters of the session, the form of a command, and its answer. */
#ifndef TRIAL_H
#define TRIAL_H

#include "board.h"

/* The number of exchanges. examples/firmware/run sets it. */
#ifndef EXCHANGES
#define EXCHANGES 1000
#endif

/* A command has the number of its exchange in its first octets. Its answer has the octets of the command, changed, and
 * 90 00 at its end.
 */
enum { NUMBER = 4, SHORTEST = NUMBER + 1, LONGEST = 200, ROOM = 256, IN_MILLION = 150 };

/* Writes the answer: each octet of the command, changed, and the status bytes. Returns its length. */
static inline size_t trial_answer(const uint8_t *command, size_t count, uint8_t *answer)
{
    size_t place;
    for (place = 0; place < count; place++) {
        answer[place] = (uint8_t)(command[place] ^ 0x5A);
    }
    answer[count] = 0x90;
    answer[count + 1] = 0x00;
    return count + 2;
}

/* Returns a setup without the line and the buffers. An etu is 74.4 microseconds, BWT some 290 milliseconds and CWT 39
 * milliseconds.
 */
static inline struct scard_setup trial_setup(void)
{
    struct scard_setup setup;
    memset(&setup, 0, sizeof setup);
    setup.t1.ifsc = 32;
    setup.t1.bwi = 2;
    setup.t1.cwi = 9;
    setup.clock.fi = 372;
    setup.clock.di = 1;
    setup.clock.hertz = 5000000;
    setup.refuses_empty = true; /* no image sends an empty I-block */
    return setup;
}

/* Returns the numbers of this setup, for a session that interrupts drive. It has the clock of the board. */
static inline struct scard_lent_setup trial_numbers(void)
{
    const struct scard_setup setup = trial_setup();
    struct scard_lent_setup numbers = scard_setup_numbers(&setup);
    numbers.has_clock = 1;
    return numbers;
}

#endif
