/* A line in memory with our card at its far end, on which blocks have faults by their number. */
#ifndef LINE_H
#define LINE_H

#include "adapter.h"

/* Damaged: the check octet is wrong. Invalid: another node address, with a valid LRC. Changed: any octet is any other
 * one, LEN too. Cut: octets are missing at the end. Extended: octets follow. Nothing is promised about the faults after
 * these. Headless: octets are missing at the front. Dropped, inserted: one octet is missing, or one more is there.
 * Twice: two octets are other ones. Swapped: two octets are in each other's place. */
enum fault {
    NONE, LOST, DAMAGED, INVALID, CHANGED, CUT, EXTENDED, FAULTS,
    HEADLESS = FAULTS, DROPPED, INSERTED, TWICE, SWAPPED, ALL_FAULTS
};

struct event {
    unsigned block; /* the block's number on the line, from 0, both ways counted */
    enum fault fault;
    uint32_t die;   /* which octet and value, or how many */
};

struct link {
    const struct event *events;
    size_t event_count;
    unsigned blocks; /* how many blocks there were */
};

/* The card's host: writes the reply to a command, returns its length, and says whether it needs more time first. */
struct host {
    size_t (*reply)(void *self, const uint8_t *command, size_t count, uint8_t *out, int *wants_time);
    void *self;
};

/* A new card with this information size and this host. */
void new_card(uint8_t ifsc, struct host host);

/* Gets each block on the line: which end sent it (enum scard_end), its octets, and the octets that arrived, 0 if none
 * did. */
typedef void tap(int from, const uint8_t *sent, size_t count, const uint8_t *came, size_t came_count);

/* From now on this function gets each block on the line. */
void tap_line(tap *hears);

/* libccid's terminal. A missing block is reported to it as a mute card, or as a parity error. */
extern struct terminal libccid_mute, libccid_parity;

#endif
