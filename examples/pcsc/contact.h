/* The contact of a reader: the card at a Unix socket, the line to it, the faults of the blocks on that line, and the
 * recording of that line. */
#ifndef CONTACT_H
#define CONTACT_H

#include "plan.h"
#include "record.h"
#include "scard_session.h"
#include "wire.h"

#include <sys/un.h>

struct contact {
    char device[sizeof ((struct sockaddr_un *)0)->sun_path]; /* the name of the socket */
    int socket; /* -1 while there is no card */
    uint64_t gone; /* when the last card was taken out, in milliseconds; 0: never */
    struct plan plan;
    struct record record;
    bool awaits;          /* the terminal waits for a block */
    bool is_lost;         /* no block will come, since one was lost */
    bool is_host_busy;    /* the card's host has a command: the card ignores blocks that come meanwhile */
    size_t place, count;  /* the part of the block in `message` that the session hasn't read yet */
    uint8_t message[WIRE_ROOM];
};

/* Returns true if the card that was connected is still there. */
bool contact_is_made(const struct contact *contact);

/* Looks for a card. Returns true if there is a card. */
bool contact_make(struct contact *contact);
void contact_break(struct contact *contact);

/* Powers the card up, or resets it. Returns the length of its answer to reset, or 0 if no answer came within a second.
 * Reads the plan and begins a recording. `*is_plan` is false if the file holds no valid plan. */
size_t contact_reset(struct contact *contact, uint8_t atr[33], bool *is_plan);

struct scard_line contact_line(struct contact *contact);

#endif
