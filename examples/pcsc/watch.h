/* Finds out, for a recording, what the application of a terminal asked for. It reads the blocks of the terminal, which
 * isn't that of scard. */
#ifndef WATCH_H
#define WATCH_H

#include "record.h"

struct watch {
    struct record *record;
    bool is_open, is_known; /* an exchange is open, and its command is complete */
    bool asks_size;
    uint8_t last;           /* the number of the last I-block of the command */
    uint8_t expected;       /* the number of the next I-block of an answer */
    size_t command_count, answer_count;
    uint8_t command[65544], answer[65538];
};

void watch_begin(struct watch *watch, struct record *record);

/* The terminal sends a block. Writes the lines that come before it: `command` or `ifsd`. Call this before the block is
 * recorded. A command in several blocks is known only at the last of them, so the recorder holds lines back until then.
 */
void watch_sent(struct watch *watch, const uint8_t *block, size_t count);

/* Call this after the block of the terminal is recorded. */
void watch_recorded(struct watch *watch);

/* A block came to the terminal. Writes the lines that come after it: `answer` or `ifs-set`. */
void watch_came(struct watch *watch, const uint8_t *block, size_t count);

/* The session ends. A command that isn't complete becomes its octets so far, and one more. */
void watch_end(struct watch *watch);

#endif
