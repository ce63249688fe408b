/* A GemPC Twin at a pseudo-terminal, with this folder's card in it. libccid's driver for serial readers takes it for
 * such a reader. The driver runs T=1 by itself, since the reader exchanges blocks.
 * Run it as: twin LINK [time=N] [lost=parity]
 * LINK becomes a symbolic link to the pseudo-terminal. LINK.plan says how blocks are disturbed. The reader reports a
 * lost block to the host as a mute card, as such a reader does, or with lost=parity as a block with a parity error. */
#include "frames.h"
#include "plan.h"
#include "record.h"
#include "simulated.h"
#include "watch.h"

#include <stdio.h>
#include <string.h>

/* Kinds of messages (USB device class: smart card CCID, clause 6), and errors of the slot. */
enum { SET_PARAMETERS = 0x61, POWER_ON = 0x62, POWER_OFF = 0x63, SLOT_STATUS = 0x65, ESCAPE = 0x6B, EXCHANGE = 0x6F };
enum { DATA_BLOCK = 0x80, STATUS = 0x81, PARAMETERS = 0x82, ESCAPED = 0x83 };
enum { CARD_MUTE = 0xFE, PARITY_ERROR = 0xFD, NO_SUCH_MESSAGE = 0xFF };

struct twin {
    struct frames frames;
    const char *link;
    uint8_t when_lost;
    bool has_power, is_reset; /* the card has power; a power up came, which ends the session */
    bool owes;                /* the reader owes the answer to a block */
    size_t place, count;      /* the part of the block in the message that the card hasn't read yet */
    struct plan plan;
    struct record record;
    struct watch watch;
    struct simulated card;
};

static void answer(struct twin *twin, uint8_t kind, size_t data, uint8_t error)
{
    frames_answer(&twin->frames, kind, data, twin->has_power, error);
}

/* Answers a message that has no block and isn't a power up. */
static void serve_message(struct twin *twin, size_t count)
{
    static const char version[] = "GemTwin-V2.00-scrd";
    uint8_t *data = twin->frames.message + FRAME_HEAD;
    switch (twin->frames.message[0]) {
    case ESCAPE: /* asks for the version of the reader, or how many more slots it has */
        count = count > 0 && data[0] == 0x02 ? sizeof version - 1 : 1;
        memcpy(data, count == 1 ? "\0" : version, count);
        answer(twin, ESCAPED, count, 0);
        break;
    case SET_PARAMETERS:
        answer(twin, PARAMETERS, count, 0);
        break;
    case POWER_OFF:
    case SLOT_STATUS:
        twin->has_power &= twin->frames.message[0] == SLOT_STATUS;
        answer(twin, STATUS, 0, 0);
        break;
    default:
        answer(twin, STATUS, 0, NO_SUCH_MESSAGE);
    }
}

/* ---- the line of the card ---- */

/* Reports that no answer came to the block of the host. */
static void answer_lost(struct twin *twin)
{
    record_word(&twin->record, "quiet");
    twin->owes = false;
    answer(twin, DATA_BLOCK, 0, twin->when_lost);
}

/* Handles a block of the host, which arrives or doesn't. */
static void take_block(struct twin *twin, size_t count)
{
    uint8_t sent[FRAME_DATA], *block = twin->frames.message + FRAME_HEAD;
    size_t arriving;
    memcpy(sent, block, count);
    watch_sent(&twin->watch, sent, count);
    arriving = plan_next(&twin->plan, block, count);
    record_block(&twin->record, 't', sent, count, block, arriving);
    watch_recorded(&twin->watch);
    twin->owes = true; /* for a lost block too: the reader answers it before it reads the next message */
    twin->place = 0;
    twin->count = arriving;
}

/* Serves the host until the host sends a block that arrives, powers the card up, or goes away. */
static void wait_for_block(struct twin *twin)
{
    while (twin->place == twin->count && !twin->is_reset && !twin->frames.is_gone) {
        long data;
        if (twin->owes) {
            answer_lost(twin);
        }
        data = frames_next(&twin->frames);
        twin->is_reset = data >= 0 && twin->frames.message[0] == POWER_ON;
        if (data > 0 && twin->frames.message[0] == EXCHANGE && twin->has_power) {
            take_block(twin, (size_t)data);
        } else if (data >= 0 && !twin->is_reset) {
            serve_message(twin, (size_t)data);
        }
    }
}

static int receive_octets(void *context, uint8_t *octets, size_t room, uint64_t microseconds)
{
    struct twin *twin = context;
    size_t count;
    if (microseconds == SCARD_LINE_FOREVER) { /* a message holds all of a block, so no rest can follow */
        wait_for_block(twin);
    }
    if (twin->is_reset || twin->frames.is_gone) {
        return SCARD_LINE_FAILED;
    }
    count = twin->count - twin->place < room ? twin->count - twin->place : room;
    memcpy(octets, twin->frames.message + FRAME_HEAD + twin->place, count);
    twin->place += count;
    return (int)count;
}

static int send_block(void *context, const uint8_t *octets, size_t count)
{
    struct twin *twin = context;
    uint8_t *block = twin->frames.message + FRAME_HEAD;
    size_t arriving;
    memcpy(block, octets, count);
    twin->place = twin->count = 0;
    arriving = plan_next(&twin->plan, block, count);
    record_block(&twin->record, 'c', octets, count, block, arriving);
    if (arriving == 0) {
        answer_lost(twin);
        return 0;
    }
    watch_came(&twin->watch, block, arriving);
    twin->owes = false;
    answer(twin, DATA_BLOCK, arriving, 0);
    return 0;
}

static void tell(void *context, const char *word, const uint8_t *octets, size_t count)
{
    record_octets(&((struct twin *)context)->record, word, octets, count);
}

/* Powers the card up, and sends its answer to reset to the host. */
static void power_up(struct twin *twin)
{
    char name[256];
    twin->is_reset = twin->owes = false;
    twin->place = twin->count = 0;
    watch_end(&twin->watch);
    snprintf(name, sizeof name, "%s.plan", twin->link);
    if (!plan_load(&twin->plan, name)) {
        fprintf(stderr, "twin: invalid plan: %s\n", name);
    }
    twin->has_power = simulated_reset(&twin->card);
    record_begin(&twin->record, twin->plan.record, twin->card.atr, twin->card.atr_count);
    watch_begin(&twin->watch, &twin->record);
    memcpy(twin->frames.message + FRAME_HEAD, twin->card.atr, twin->card.atr_count);
    answer(twin, DATA_BLOCK, twin->has_power ? twin->card.atr_count : 0, twin->has_power ? 0 : CARD_MUTE);
}

int main(int count, char **words)
{
    static struct twin twin;
    bool is_right = count >= 2;
    int word;
    twin.when_lost = CARD_MUTE;
    twin.card.line = (struct scard_line){&twin, send_block, receive_octets, NULL};
    twin.card.tell = tell;
    for (word = 2; word < count; word++) {
        twin.when_lost = strcmp(words[word], "lost=parity") == 0 ? PARITY_ERROR : twin.when_lost;
        is_right &= strcmp(words[word], "lost=parity") == 0 || simulated_word(&twin.card, words[word]);
    }
    if (!is_right) {
        fputs("usage: twin LINK [time=N] [lost=parity]\n", stderr);
        return 2;
    }
    twin.link = words[1];
    if (!frames_open(&twin.frames, twin.link)) {
        perror(twin.link);
        return 1;
    }
    while (!twin.frames.is_gone) {
        wait_for_block(&twin);
        if (twin.is_reset) {
            power_up(&twin);
            simulated_serve(&twin.card);
        }
        twin.place = twin.count;
    }
    watch_end(&twin.watch);
    record_end(&twin.record);
    return 1;
}
