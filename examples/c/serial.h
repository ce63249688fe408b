/* A POSIX serial port as the line of a session: a UART at the I/O contact of a card, as docs/WIRING.md describes. */
#ifndef SERIAL_H
#define SERIAL_H

#include "scard_session.h"

struct serial {
    int descriptor;
    uint64_t last;    /* when the last octet was sent or received, in microseconds */
    uint64_t latency; /* how long the driver holds an octet back, in microseconds: 0, or 20,000 for USB */
};

/* Opens a port with 9,600 bits a second, the rate of a card at 3.5712 MHz before both ends agree on another. Returns 0,
 * or -1 with errno.
 */
int serial_open(struct serial *serial, const char *path, uint64_t latency);

/* Discards what the port holds in both directions. Call it after each reset of the card, before the answer to reset
 * comes. Returns 0, or -1.
 */
int serial_clear(struct serial *serial);

/* Returns a line over an open port. `*serial` has to stay where it is while the line is in use. */
struct scard_line serial_line(struct serial *serial);

void serial_close(struct serial *serial);

#endif
