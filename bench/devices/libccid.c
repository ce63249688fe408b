/* libccid's terminal for the suite, over tools/peers/libccid.c. A word `parity` in the variable LIBCCID says that a
 * block which doesn't arrive is an error of parity to libccid, else a mute card. A word `ifsd` says that it first tells
 * the card to send up to 254 octets, as its driver does. The script `make` beside this file builds it. */
#include "callback.h"
#include "line.h"

#include <stdlib.h>
#include <string.h>

/* more octets than a block has */
enum { MOST = 300 };

void link_exchange(struct link *link, const uint8_t *sent, size_t count, uint8_t *back, size_t *back_count)
{
    static uint8_t octets[DEVICE_ROOM];
    size_t came = device_exchange(sent, count, octets);
    (void)link;
    if (came > MOST) {
        exit(1);
    }
    memcpy(back, octets, came);
    *back_count = came;
}

/* Whether the variable has a word. */
static int has(const char *word)
{
    const char *words = getenv("LIBCCID");
    return words != NULL && strstr(words, word) != NULL;
}

static struct terminal *engine(void)
{
    return has("parity") ? &libccid_parity : &libccid_mute;
}

/* What an engine says: the number of octets, or below 0 that it failed. */
static struct device_reply reply_of(enum device_word word, long got)
{
    struct device_reply reply = {DEVICE_FAILED, 0, 0, 0};
    if (got >= 0) {
        reply.word = word;
        reply.count = (size_t)got;
    }
    return reply;
}

/* The field that a card takes, by the octets of the answers to reset of the suite: TA3. */
struct device_reply device_reset(const uint8_t *atr, size_t count, uint8_t *out)
{
    (void)out;
    engine()->start(NULL, count > 5 ? atr[4] : 32);
    return reply_of(DEVICE_NOTHING, has("ifsd") ? engine()->ask_ifs(254) : 0);
}

struct device_reply device_send(const uint8_t *command, size_t count, uint8_t *out)
{
    return reply_of(DEVICE_ANSWER, engine()->transmit(command, count, out, DEVICE_ROOM));
}

/* The engine waits by itself, so the suite never says this between two commands. */
struct device_reply device_heard(const uint8_t *octets, size_t count, uint8_t *out)
{
    (void)octets;
    (void)count;
    (void)out;
    exit(1);
}

struct device_reply device_silence(uint8_t *out)
{
    (void)out;
    exit(1);
}
