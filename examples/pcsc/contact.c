#include "contact.h"

#include <poll.h>
#include <stdio.h>
#include <string.h>
#include <sys/socket.h>
#include <time.h>
#include <unistd.h>

/* In milliseconds. pcscd polls for the card every 400 milliseconds, and at other times too. So a card that was taken
 * out stays away for longer than that.
 */
enum { RESET_TIME = 1000, AWAY_TIME = 1000 };

enum { LONGEST_ATR = 33 };

static uint64_t milliseconds(void)
{
    struct timespec time;
    clock_gettime(CLOCK_MONOTONIC, &time);
    return (uint64_t)time.tv_sec * 1000 + (uint64_t)time.tv_nsec / 1000000;
}

bool contact_is_made(const struct contact *contact)
{
    struct pollfd state = {contact->socket, 0, 0};
    return contact->socket >= 0 && (poll(&state, 1, 0) <= 0 || (state.revents & (POLLHUP | POLLERR)) == 0);
}

void contact_break(struct contact *contact)
{
    if (contact->socket >= 0) {
        close(contact->socket);
        contact->gone = milliseconds();
    }
    contact->socket = -1;
    record_end(&contact->record);
}

bool contact_make(struct contact *contact)
{
    struct sockaddr_un at = {.sun_family = AF_UNIX};
    contact_break(contact);
    if (contact->gone != 0 && milliseconds() < contact->gone + AWAY_TIME) {
        return false;
    }
    strcpy(at.sun_path, contact->device);
    contact->socket = socket(AF_UNIX, SOCK_SEQPACKET | SOCK_NONBLOCK | SOCK_CLOEXEC, 0);
    if (contact->socket >= 0 && connect(contact->socket, (struct sockaddr *)&at, sizeof at) != 0) {
        close(contact->socket);
        contact->socket = -1;
    }
    return contact->socket >= 0;
}

/* ---- the line ---- */

static int send_block(void *context, const uint8_t *octets, size_t count)
{
    struct contact *contact = context;
    uint8_t arrives[MOST_ARRIVING];
    size_t arriving;
    memcpy(arrives, octets, count);
    contact->awaits = true;
    contact->place = contact->count = 0;
    arriving = plan_next(&contact->plan, arrives, count);
    contact->is_lost = arriving == 0;
    record_block(&contact->record, 't', octets, count, arrives, contact->is_host_busy ? 0 : arriving);
    if (contact->is_lost) {
        return 0;
    }
    return wire_send(contact->socket, WIRE_BLOCK, arrives, arriving) == 0 ? 0 : SCARD_LINE_FAILED;
}

/* Handles a block from the card. The block is lost, or ignored if nobody waits for it, or ready to be read. */
static void take_block(struct contact *contact, size_t count)
{
    uint8_t sent[SCARD_BLOCK_ROOM];
    size_t arriving;
    if (count == 0 || count > sizeof sent) {
        return;
    }
    memcpy(sent, contact->message, count);
    arriving = plan_next(&contact->plan, contact->message, count);
    contact->is_lost = arriving == 0;
    contact->place = 0;
    contact->count = contact->awaits ? arriving : 0;
    record_block(&contact->record, 'c', sent, count, contact->message, contact->count);
}

/* Records what the card's host does. */
static void take_word(struct contact *contact, uint8_t kind, size_t count)
{
    const char *word = kind == WIRE_ASKED ? "asked" : kind == WIRE_REPLY ? "reply" : "time";
    contact->is_host_busy = kind == WIRE_ASKED;
    record_octets(&contact->record, word, contact->message, count);
}

static long take_message(struct contact *contact, int wait)
{
    uint8_t kind = 0;
    long count = wire_receive(contact->socket, wait, &kind, contact->message);
    if (count >= 0 && kind == WIRE_BLOCK) {
        take_block(contact, (size_t)count);
    } else if (count >= 0 && (kind == WIRE_ASKED || kind == WIRE_REPLY || kind == WIRE_TIME)) {
        take_word(contact, kind, (size_t)count);
    }
    return count;
}

/* Handles a timeout: no octet came within the waiting time. If a block was lost, the time passes only if the plan says
 * so.
 */
static int silence(struct contact *contact, uint64_t microseconds)
{
    if (contact->is_lost && contact->plan.waits) {
        poll(NULL, 0, (int)((microseconds + 999) / 1000));
    } else if (contact->is_lost) {
        record_jump(&contact->record, microseconds);
    }
    if (contact->awaits) {
        record_word(&contact->record, "quiet");
    }
    contact->awaits = contact->is_lost = false;
    return 0;
}

/* Waits until a block is there, a block is known to be lost, or the time is over. Returns 0, or WIRE_GONE. If the
 * terminal waits for no block, it only reads what is there already: a message holds all of a block, so no rest can
 * follow. */
static long wait_for_block(struct contact *contact, uint64_t microseconds)
{
    uint64_t until = milliseconds() + (microseconds + 999) / 1000, now = milliseconds();
    while (contact->count == 0 && !contact->is_lost) {
        long got = take_message(contact, contact->awaits && now < until ? (int)(until - now) : 0);
        now = milliseconds();
        if (got == WIRE_GONE) {
            return got;
        }
        if (got == WIRE_NOTHING && (!contact->awaits || now >= until)) {
            break;
        }
    }
    return 0;
}

static int receive_octets(void *context, uint8_t *octets, size_t room, uint64_t microseconds)
{
    struct contact *contact = context;
    size_t count;
    if (contact->place == contact->count) {
        contact->place = contact->count = 0;
        if (wait_for_block(contact, microseconds) == WIRE_GONE) {
            return SCARD_LINE_FAILED;
        }
    }
    if (contact->count == 0) {
        return silence(contact, microseconds);
    }
    count = contact->count - contact->place < room ? contact->count - contact->place : room;
    memcpy(octets, contact->message + contact->place, count);
    contact->place += count;
    contact->awaits = false;
    return (int)count;
}

/* A lost block may cost no time, so this clock counts what the exchange really takes. */
static uint64_t microseconds_now(void *context)
{
    (void)context;
    return milliseconds() * 1000;
}

struct scard_line contact_line(struct contact *contact)
{
    struct scard_line line = {contact, send_block, receive_octets, microseconds_now};
    return line;
}

/* ---- power ---- */

/* Receives the answer to reset. Discards what the card sent before it. */
static size_t take_atr(struct contact *contact, uint8_t atr[33])
{
    uint64_t until = milliseconds() + RESET_TIME, now = milliseconds();
    long count = wire_send(contact->socket, WIRE_POWER, NULL, 0) == 0 ? WIRE_NOTHING : WIRE_GONE;
    for (; count != WIRE_GONE && now < until; now = milliseconds()) {
        uint8_t kind = 0;
        count = wire_receive(contact->socket, (int)(until - now), &kind, contact->message);
        if (count > 0 && count <= LONGEST_ATR && kind == WIRE_ATR) {
            memcpy(atr, contact->message, (size_t)count);
            return (size_t)count;
        }
    }
    return 0;
}

size_t contact_reset(struct contact *contact, uint8_t atr[33], bool *is_plan)
{
    char name[sizeof contact->device + 8];
    size_t count;
    contact->awaits = contact->is_lost = contact->is_host_busy = false;
    contact->place = contact->count = 0;
    if (!contact_is_made(contact)) {
        return 0;
    }
    count = take_atr(contact, atr);
    snprintf(name, sizeof name, "%s.plan", contact->device);
    *is_plan = plan_load(&contact->plan, name);
    record_begin(&contact->record, contact->plan.record, atr, count);
    return count;
}
