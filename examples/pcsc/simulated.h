/* A card over a line: a session of the card, with an application as its host. */
#ifndef SIMULATED_H
#define SIMULATED_H

#include "application.h"
#include "scard_session.h"

struct simulated {
    struct scard_card_session session;
    struct scard_line line;
    uint8_t time; /* how many waiting times the card asks for before each reply; 0: none */
    /* gets what the host does: a word of an exchange file ("asked", "reply" or "time") and its octets, with the context
     * of the line */
    void (*tell)(void *context, const char *word, const uint8_t *octets, size_t count);
    uint8_t atr[LONGEST_ATR];
    size_t atr_count;
    uint8_t command[LONGEST_COMMAND], reply[LONGEST_REPLY], made[LONGEST_REPLY];
    size_t made_count;
};

/* Handles a power up or a reset: writes the answer to reset to `atr`, and begins a session. Returns false if the answer
 * doesn't offer T=1. */
bool simulated_reset(struct simulated *card);

/* Answers blocks until the line fails or ends. */
void simulated_serve(struct simulated *card);

/* Reads a word time=N of a command line. Returns false for any other word. */
bool simulated_word(struct simulated *card, const char *word);

#endif
