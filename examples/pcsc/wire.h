/* The messages between the reader and the card, over a Unix socket of packets. A message is one octet that gives its
 * kind, and octets. */
#ifndef WIRE_H
#define WIRE_H

#include <stddef.h>
#include <stdint.h>

enum wire_kind {
    WIRE_POWER = 'P', /* to the card: power up, or reset */
    WIRE_ATR = 'A',   /* from the card: its answer to reset */
    WIRE_BLOCK = 'B', /* octets on the line, either way */
    WIRE_ASKED = 'Q', /* from the card, for a recording: the command that its host gets */
    WIRE_REPLY = 'R', /* likewise: the reply of its host */
    WIRE_TIME = 'T'   /* likewise: how many waiting times its host asks for */
};

enum { WIRE_ROOM = 65544 };

/* Sends a message. Returns 0, or -1 if the other end is gone. */
int wire_send(int socket, enum wire_kind kind, const uint8_t *octets, size_t count);

/* Receives the next message. Waits at most this number of milliseconds, or without limit if it is -1. Returns the
 * number of octets after the kind, or WIRE_NOTHING, WIRE_GONE. */
enum { WIRE_NOTHING = -1, WIRE_GONE = -2 };
long wire_receive(int socket, int milliseconds, uint8_t *kind, uint8_t octets[WIRE_ROOM]);

#endif
