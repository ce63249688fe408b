/* A file descriptor as the line of a session, and the two ends of the example. */
#ifndef LINE_H
#define LINE_H

#include "scard_session.h"

/* Returns the time in microseconds, from a clock that never goes back. */
uint64_t line_now(void *context);

/* Returns a line over a file descriptor. `*descriptor` has to stay where it is while the line is in use. If the
 * descriptor delivers whole bursts, as a socket of packets does, the sessions on it use SCARD_SILENCE_NONE. A serial
 * port has its own line, in serial.h.
 */
struct scard_line line_over(int *descriptor);

/* A session with the card at the other end of a line, and the buffers of the session. */
struct terminal {
    struct scard_session session;
    uint8_t command[65544], answer[65538];
};

/* Receives the answer to reset of a card that was just powered up, and begins the session with that card. Returns 0, or
 * -1. Call it once for each power up: a card that goes on under a new session sends old answers. `silence` is that of
 * the setup.
 */
int terminal_begin(struct terminal *terminal, const struct scard_line *line, uint64_t silence);

/* Sends a command. Returns how many octets of `terminal->answer` are the answer, or -1 if there is no answer. */
long terminal_exchange(struct terminal *terminal, const uint8_t *command, size_t count);

/* Powers the card up: sends its answer to reset, and replies to commands until the line ends. Returns 0, or -1 if
 * something failed.
 */
int card_serve(const struct scard_line *line, uint64_t silence);

#endif
