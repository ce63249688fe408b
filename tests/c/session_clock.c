/* The time of an exchange, in virtual time: slow cards, lines that are never silent, interrupts without end, and clocks
 * that stand still or go back. With a clock the limit of an exchange holds whatever comes. Without one an exchange is
 * never ended before its time, and a flood of octets ends in time.
 */
#include "wired.h"

#define OCTET UINT64_C(1250)
#define SECOND UINT64_C(1000000)

/* What the line does: it delivers a slow card's blocks, is never silent, or interrupts each wait. */
enum manner { SLOW, FLOODS, RINGS };

static struct other {
    enum manner manner;
    uint64_t time;
    uint64_t skew;       /* what the clock is ahead of the time; it may wrap */
    unsigned long calls; /* of receive */
    unsigned long rings; /* this many calls are interrupted; 0: all with a time above 0 */
    uint64_t ring;       /* the time from one interrupt to the next */
    unsigned waits;      /* requests for more time before the answer */
    uint8_t block[SCARD_BLOCK_ROOM];
    size_t count;        /* of the block that comes */
    unsigned acted;      /* commands that the card's host got */
} other;

static int sends(void *context, const uint8_t *octets, size_t count)
{
    static const uint8_t status[] = {0x90, 0x00}, ten[] = {10};
    struct scard_verdict made;
    (void)context, (void)octets;
    other.time += count * OCTET;
    made = other.waits > 0 ? scard_block_s_request(0, SCARD_S_WTX, ten, 1, other.block, sizeof other.block)
                           : scard_block_i(0, 0, false, status, 2, other.block, sizeof other.block);
    other.waits -= other.waits > 0;
    other.count = (size_t)made.place;
    return 0;
}

/* A card works for a second before each of its blocks. */
static int works(uint8_t *octets, uint64_t microseconds)
{
    const size_t count = other.count;
    if (count == 0 || microseconds < SECOND) {
        other.time += microseconds;
        return 0;
    }
    other.time += SECOND;
    memcpy(octets, other.block, count);
    other.count = 0;
    return (int)count;
}

/* A timer interrupts each wait. The wait begins again at each call, so it ends only if the session says so. A call with
 * no time takes the block that came meanwhile.
 */
static int rings(uint8_t *octets, uint64_t microseconds)
{
    if (microseconds > 0 && (other.rings == 0 || other.calls < other.rings)) {
        other.time += other.ring;
        return SCARD_LINE_INTERRUPTED;
    }
    return works(octets, microseconds == 0 && other.count > 0 && other.waits == 0 ? SECOND : microseconds);
}

static int receives(void *context, uint8_t *octets, size_t room, uint64_t microseconds)
{
    (void)context;
    other.calls++;
    if (other.manner == FLOODS) {
        memset(octets, 0xFF, room);
        other.time += room * OCTET;
        return (int)room;
    }
    return other.manner == RINGS ? rings(octets, microseconds) : works(octets, microseconds);
}

static uint64_t now(void *context)
{
    (void)context;
    return other.time + other.skew;
}

/* A clock that goes back by a microsecond at each call. */
static uint64_t falls(void *context)
{
    (void)context;
    return other.skew--;
}

static struct wired wired;
static struct scard_session session;

static void begins(enum manner manner, uint64_t (*clock)(void *), uint64_t most)
{
    struct scard_setup setup = wired_setup(&wired, 0);
    memset(&other, 0, sizeof other);
    other.manner = manner;
    setup.line.send = sends;
    setup.line.receive = receives;
    setup.line.now = clock;
    setup.most_microseconds = most;
    CHECK(scard_session_begin(&session, &setup).status == SCARD_OK && session.bwt == 1601146);
}

static uint8_t exchange(void)
{
    static const uint8_t command[] = {0x00, 0xB0, 0x00, 0x00, 0x02};
    return scard_session_exchange(&session, command, sizeof command).kind;
}

/* A card asks for ten waiting times each second, for five minutes. It keeps to its times. */
static void slow_card(uint64_t (*clock)(void *))
{
    begins(SLOW, clock, 0);
    other.waits = 300;
    CHECK(exchange() == SCARD_DONE && other.time > 300 * SECOND && other.time < 310 * SECOND);
    begins(SLOW, clock, 310 * SECOND);
    other.waits = 300;
    CHECK(exchange() == SCARD_DONE);
}

static void limited(void)
{
    begins(SLOW, now, 100 * SECOND);
    other.waits = 300;
    CHECK(exchange() == SCARD_SESSION_USED_UP && other.time > 99 * SECOND && other.time <= 101 * SECOND);
    begins(SLOW, NULL, 100 * SECOND); /* without a clock, the blocks are limited */
    other.waits = 300;
    session.setup.most_blocks = 100;
    CHECK(exchange() == SCARD_SESSION_USED_UP && other.waits == 200);
}

/* A line that is never silent ends an exchange once its time is over, after one more call of the line. */
static void floods(uint64_t (*clock)(void *))
{
    const uint64_t call = SCARD_BURST_ROOM * OCTET;
    begins(FLOODS, clock, 100000);
    CHECK(exchange() == SCARD_SESSION_USED_UP && other.time >= 100000 && other.time <= 100000 + 2 * call);
    begins(FLOODS, clock, SCARD_LINE_FOREVER);
    CHECK(exchange() == SCARD_SESSION_FAILED && other.time <= 65536 * OCTET + 2 * call);
}

/* Interrupts make no wait and no exchange longer. A silent card is dead after seven waiting times. */
static void interrupted(uint64_t ring)
{
    begins(RINGS, now, 5 * SECOND);
    other.ring = ring;
    other.waits = 1000; /* so no block comes without a wait */
    CHECK(exchange() == SCARD_SESSION_USED_UP && other.time >= 5 * SECOND && other.time <= 5 * SECOND + ring);
    begins(RINGS, now, SCARD_LINE_FOREVER);
    other.ring = ring;
    other.waits = 1000;
    CHECK(exchange() == SCARD_DEAD && other.time >= 7 * session.bwt);
    CHECK(other.time <= 7 * (session.bwt + 2 * ring) + 90000);
    begins(RINGS, now, 0); /* what came before the wait was over by the clock counts */
    other.ring = ring;
    other.time = 0;
    CHECK(exchange() == SCARD_DONE && other.time >= session.bwt);
}

/* No call goes on for ever, whatever the clock says. */
static void endless(uint64_t (*clock)(void *))
{
    begins(RINGS, clock, 5 * SECOND);
    CHECK(exchange() == SCARD_SESSION_FAILED);
    CHECK(other.calls > SCARD_MOST_INTERRUPTS && other.calls < SCARD_MOST_INTERRUPTS + 10);
}

/* A card waits for a command as long as it takes: more interrupts than a limited wait may have, and then a command. */
static int card_receives(void *context, uint8_t *octets, size_t room, uint64_t microseconds)
{
    static const uint8_t block[] = {0x00, 0x00, 0x05, 0x00, 0xB0, 0x00, 0x00, 0x02, 0xB7};
    (void)context, (void)room;
    if (++other.calls <= 2 * SCARD_MOST_INTERRUPTS) {
        return SCARD_LINE_INTERRUPTED;
    }
    memcpy(octets, block, sizeof block);
    return microseconds != SCARD_LINE_FOREVER ? 0 : other.acted == 0 ? (int)sizeof block : SCARD_LINE_FAILED;
}

static struct scard_host_turn acts(void *context, const uint8_t *command, size_t count, size_t granted)
{
    static const uint8_t status[] = {0x90, 0x00};
    struct scard_host_turn turn = {SCARD_HOST_REPLY, 0, status, sizeof status};
    (void)context, (void)command, (void)granted;
    other.acted += count == 5;
    return turn;
}

static void card_waits(uint64_t (*clock)(void *))
{
    static struct scard_card_session card;
    const struct scard_host host = {NULL, acts};
    struct scard_setup setup = wired_setup(&wired, 1);
    memset(&other, 0, sizeof other);
    setup.line.send = sends;
    setup.line.receive = card_receives;
    setup.line.now = clock;
    CHECK(scard_card_session_begin(&card, &setup, &host).status == SCARD_OK);
    CHECK(scard_card_session_serve(&card).kind == SCARD_SESSION_FAILED);
    CHECK(other.calls > 2 * SCARD_MOST_INTERRUPTS && other.acted == 1);
}

/* A clock that goes back, at once or all the time, ends nothing. */
static void goes_back(void)
{
    begins(SLOW, falls, 3 * SECOND);
    CHECK(exchange() == SCARD_DONE);
    begins(SLOW, now, 3 * SECOND);
    other.skew = UINT64_MAX - SECOND / 2; /* it wraps */
    CHECK(exchange() == SCARD_DONE);
}

int main(void)
{
    slow_card(NULL);
    slow_card(now);
    limited();
    floods(NULL);
    floods(now);
    interrupted(10000);
    interrupted(1000000);
    endless(NULL);
    endless(falls);
    card_waits(NULL);
    card_waits(now);
    goes_back();
    return verdict_of_checks("session_clock");
}
