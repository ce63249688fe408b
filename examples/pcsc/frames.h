/* The frames of a serial CCID reader: 03 06, a message, and the exclusive-or of all these octets. The reader echoes
 * each frame of the host before it answers. */
#ifndef FRAMES_H
#define FRAMES_H

#include <stdbool.h>
#include <stddef.h>
#include <stdint.h>

/* A message is a head and data after it. The first octet of the head is the kind of the message. */
enum { FRAME_HEAD = 10, FRAME_DATA = 512 };

struct frames {
    int line;
    bool is_gone; /* the line ended */
    uint8_t message[FRAME_HEAD + FRAME_DATA];
};

/* Opens a pseudo-terminal, and makes `link` a symbolic link to it. Returns false if it can't. */
bool frames_open(struct frames *frames, const char *link);

/* Reads the next message of the host. Returns the length of its data, or -1 at the end of the line. */
long frames_next(struct frames *frames);

/* Answers the current message with a message of this kind. The data is in it already. `error` is an error of the slot
 * of the reader, or 0 for none. */
void frames_answer(struct frames *frames, uint8_t kind, size_t data, bool has_power, uint8_t error);

#endif
