/* Sessions in an event loop: two terminals and two cards in one thread, by the steps of scard_lent_session and
 * scard_lent_card_session. Each line is a pair of sockets, on which an octet takes its time. It needs Linux, for epoll.
 * docs/WIRING.md has the events.
 */
#define _POSIX_C_SOURCE 200809L
#include "scard.h"

#include <fcntl.h>
#include <stdio.h>
#include <string.h>
#include <sys/epoll.h>
#include <sys/socket.h>
#include <time.h>
#include <unistd.h>

/* OCTET is the time of an octet in microseconds, 12 etu at 9,600 bits a second. */
enum { PAIRS = 2, ENDS = 2 * PAIRS, MESSAGE = 80, EXCHANGES = 5, OCTET = 1250 };

/* One end: its session, its buffers, and the one thing that it does now. */
struct end {
    bool is_card, is_over;
    int descriptor;
    struct scard_lent_session terminal;
    struct scard_lent_card_session card;
    uint8_t command[MESSAGE], answer[MESSAGE], block[SCARD_BLOCK_ROOM];
    size_t put; /* how many octets of the block are on the line */
    struct scard_session_next next;
    uint64_t last, due; /* when the last octet was sent or received; when the timer rings */
    unsigned done, right;
};

/* The state and the buffers of an end, as the first five arguments of its steps. */
#define TERMINAL(end) SCARD_LENT((end)->terminal, (end)->command, (end)->answer)
#define CARD(end) SCARD_LENT((end)->card, (end)->command, (end)->answer)

static uint64_t now(void)
{
    struct timespec time;
    clock_gettime(CLOCK_MONOTONIC, &time);
    return (uint64_t)time.tv_sec * 1000000 + (uint64_t)time.tv_nsec / 1000;
}

/* The setup of both ends: 9,600 bits a second, BWI 3 and CWI 10. A busy machine may delay an octet. */
static struct scard_lent_setup setup_of_both(void)
{
    struct scard_lent_setup setup;
    memset(&setup, 0, sizeof setup);
    setup.fi = 372;
    setup.di = 1;
    setup.hertz = 3571200;
    setup.ifsc = 32;
    setup.bwi = 3;
    setup.cwi = 10;
    setup.has_clock = 1;
    return setup;
}

/* The host of a card: it replies with the command of `count` octets and 9000. */
static struct scard_session_next host(struct end *end, size_t count)
{
    uint8_t reply[MESSAGE + 2];
    memcpy(reply, end->command, count);
    memcpy(reply + count, "\x90\x00", 2);
    return scard_lent_card_session_reply(CARD(end), reply, count + 2, now(), end->block, sizeof end->block);
}

/* The application of a terminal: it sends the next command, which is longer each time. */
static size_t command_of(const struct end *end, uint8_t *command)
{
    const size_t count = 5 + 12 * (size_t)end->done;
    memset(command, (int)(16 * end->descriptor + end->done), count);
    return count;
}

static struct scard_session_next next_command(struct end *end)
{
    uint8_t command[MESSAGE];
    const size_t count = command_of(end, command);
    return scard_lent_session_exchange(TERMINAL(end), command, count, now(), end->block, sizeof end->block);
}

static void takes_answer(struct end *end, size_t answered)
{
    uint8_t command[MESSAGE];
    const size_t count = command_of(end, command);
    end->right += answered == count + 2 && memcmp(end->answer, command, count) == 0 && end->answer[count] == 0x90;
    end->done++;
}

/* Passes what the session has to the host or to the application. Returns what the session does then. */
static struct scard_session_next passes(struct end *end, struct scard_session_next next)
{
    if (next.kind != SCARD_DONE) {
        return next;
    }
    if (end->is_card) {
        return host(end, (size_t)next.count);
    }
    takes_answer(end, (size_t)next.count);
    return end->done < EXCHANGES ? next_command(end) : next;
}

/* Begins what the session says, and sets the timer. The timer of a wait counts from the last octet. */
static void does(struct end *end, struct scard_session_next said)
{
    const struct scard_session_next next = passes(end, said);
    end->next = next;
    end->put = 0;
    end->due = UINT64_MAX;
    if (next.kind == SCARD_SEND) {
        end->due = now();
    } else if (next.kind != SCARD_SESSION_WAIT) {
        end->is_over = true;
    } else if (next.wait != UINT64_MAX) {
        end->due = end->last + next.wait;
    }
}

static void happens(struct end *end, uint8_t event, const uint8_t *octets, size_t count)
{
    does(end, end->is_card ? scard_lent_card_session_step(CARD(end), event, octets, count, now(), end->block,
                                                          sizeof end->block)
                           : scard_lent_session_step(TERMINAL(end), event, octets, count, now(), end->block,
                                                     sizeof end->block));
}

/* Passes octets that came, if the end waits for any. Returns false if there are none. */
static bool reads(struct end *end)
{
    uint8_t octets[SCARD_BURST_ROOM];
    ssize_t got = end->next.kind == SCARD_SESSION_WAIT ? read(end->descriptor, octets, sizeof octets) : -1;
    if (got == 0) {
        happens(end, SCARD_EVENT_FAILED, NULL, 0);
    } else if (got > 0) {
        end->last = now();
        happens(end, SCARD_EVENT_CAME, octets, (size_t)got);
    }
    return got >= 0;
}

/* The timer rang: the next octet is due, or the wait is over. */
static void rings(struct end *end)
{
    if (end->next.kind == SCARD_SESSION_WAIT) {
        if (!reads(end)) {
            happens(end, SCARD_EVENT_SILENT, NULL, 0);
        }
        return;
    }
    end->last = now();
    if (end->put == end->next.count) {
        happens(end, SCARD_EVENT_SENT, NULL, 0);
    } else if (write(end->descriptor, end->block + end->put, 1) == 1) {
        end->put++;
        end->due = end->last + OCTET;
    } else {
        happens(end, SCARD_EVENT_FAILED, NULL, 0);
    }
}

static bool begins(struct end *end, int events, int descriptor, bool is_card)
{
    const struct scard_lent_setup setup = setup_of_both();
    struct epoll_event wanted;
    struct scard_verdict begun;
    memset(end, 0, sizeof *end);
    memset(&wanted, 0, sizeof wanted);
    wanted.events = EPOLLIN;
    wanted.data.ptr = end;
    end->is_card = is_card;
    end->descriptor = descriptor;
    end->last = now();
    begun = is_card ? scard_lent_card_session_begin(CARD(end), &setup)
                    : scard_lent_session_begin(TERMINAL(end), &setup);
    return begun.status == SCARD_OK && fcntl(descriptor, F_SETFL, O_NONBLOCK) == 0
        && epoll_ctl(events, EPOLL_CTL_ADD, descriptor, &wanted) == 0;
}

/* Returns how long no timer rings, in milliseconds, rounded up. */
static int until_due(const struct end *ends)
{
    uint64_t due = UINT64_MAX, time = now();
    int at;
    for (at = 0; at < ENDS; at++) {
        due = ends[at].due < due ? ends[at].due : due;
    }
    return due <= time ? 0 : due - time > 1000000 ? 1000 : (int)((due - time + 999) / 1000);
}

/* Waits for events, and passes them to their ends. */
static void turns(struct end *ends, int events)
{
    struct epoll_event came[ENDS];
    int count = epoll_wait(events, came, ENDS, until_due(ends)), at;
    for (at = 0; at < count; at++) {
        reads((struct end *)came[at].data.ptr);
    }
    for (at = 0; at < ENDS; at++) {
        if (ends[at].due <= now()) {
            rings(&ends[at]);
        }
    }
}

int main(void)
{
    static struct end ends[ENDS]; /* a terminal and its card, and the next two */
    int events = epoll_create1(0), pair, lines[2];
    unsigned done = 0, right = 0;
    for (pair = 0; pair < PAIRS; pair++) {
        struct end *terminal = &ends[2 * pair], *card = terminal + 1;
        if (socketpair(AF_UNIX, SOCK_STREAM, 0, lines) != 0 || !begins(terminal, events, lines[0], false)
            || !begins(card, events, lines[1], true)) {
            return 1;
        }
        does(card, scard_lent_card_session_serve(CARD(card), now()));
        does(terminal, next_command(terminal));
    }
    while (!ends[0].is_over || !ends[2].is_over) {
        turns(ends, events);
    }
    for (pair = 0; pair < PAIRS; pair++) {
        done += ends[2 * pair].done;
        right += ends[2 * pair].right;
    }
    printf("%u exchanges, %u right\n", done, right);
    return done == PAIRS * EXCHANGES && right == done ? 0 : 1;
}
