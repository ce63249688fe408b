/* A device under test in C. callback.c talks the lines of docs/BENCH.md with the suite, and calls the functions below,
 * which the device defines. It needs `fgets`, `fputs` and `fflush`, so firmware that has them can be under test too.
 */
#ifndef CALLBACK_H
#define CALLBACK_H

#include <stddef.h>
#include <stdint.h>

/* The octets that the longest message has: a command of 65,544. A device with less memory defines a smaller number. The
 * commands and answers of the suite have at most 258. */
#ifndef DEVICE_ROOM
#define DEVICE_ROOM 65544
#endif

/* What a device does: it sends a block or nothing. A terminal may also have the answer, give the exchange up, or reset
 * the card. */
enum device_word { DEVICE_BLOCK, DEVICE_NOTHING, DEVICE_ANSWER, DEVICE_FAILED, DEVICE_RESET };

/* What a device did, the number of the octets of a block or an answer, and how many microseconds of virtual time passed
 * before. The octets are in `out`, which has room for DEVICE_ROOM. A terminal with times of its own says in `waits` how
 * many microseconds it waits for the card after this block, and callback.c answers `until` by it. */
struct device_reply {
    enum device_word word;
    size_t count;
    uint32_t waited, waits;
};

/* The card is reset. A card replies with its answer to reset, as a block. A terminal gets the card's, and replies with
 * nothing or its first block. */
struct device_reply device_reset(const uint8_t *atr, size_t count, uint8_t *out);

/* A terminal has to exchange a command. A card replies with nothing. */
struct device_reply device_send(const uint8_t *command, size_t count, uint8_t *out);

/* These octets arrived. */
struct device_reply device_heard(const uint8_t *octets, size_t count, uint8_t *out);

/* Nothing arrived within the waiting time of a terminal. If its times are its own, callback.c says how long it waited. */
struct device_reply device_silence(uint8_t *out);

/* For a terminal that waits by itself: it calls this in device_reset or device_send. Sends a block, and returns how
 * many octets arrived, 0 if none did within the waiting time. `came` has room for DEVICE_ROOM octets. */
size_t device_exchange(const uint8_t *sent, size_t count, uint8_t *came);

#endif
