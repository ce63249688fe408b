/* Fuzzes the sessions of both ends over a line, a clock and a host that do anything. Each call returns, with one of the
 * documented kinds of turns. An answer fits its buffer, a host gets no octet of an earlier command, and the limits of an
 * exchange hold.
 */
#include "input.h"
#include "scard_session.h"

enum { ROOM = 300, MOST_CALLS = 6 };

/* What the clock does. */
enum clock_kind { NO_CLOCK, STEADY, STANDS, GOES_BACK, JUMPS, CLOCK_KINDS };

static struct input input;
static struct scard_setup setup;
static uint8_t command[ROOM], answer[ROOM], last[SCARD_BLOCK_ROOM];
static size_t last_count;
static uint64_t passed;   /* the time that really passed */
static uint64_t longest;  /* the longest call of the line in the current exchange */
static unsigned sent, clock_kind;
static bool rings;        /* after the end of the input each wait is interrupted */

static uint64_t now(void *context)
{
    (void)context;
    switch (clock_kind) {
    case STEADY:
        return passed;
    case STANDS:
        return 7;
    case GOES_BACK:
        return UINT64_MAX / 2 - passed;
    default:
        return passed * 0x9E3779B97F4A7C15u;
    }
}

static void pass(uint64_t time)
{
    passed += time;
    longest = time > longest ? time : longest;
}

static int sends(void *context, const uint8_t *octets, size_t count)
{
    (void)context;
    SHOULD(count >= 4 && count <= SCARD_BLOCK_ROOM && scard_lrc(octets, count) == 0);
    memcpy(last, octets, last_count = count);
    sent++;
    pass(take(&input));
    return input.left > 0 && *input.at == 0xFE ? SCARD_LINE_FAILED : 0;
}

/* Delivers a block with these octets of the input, or octets of the input as they are. */
static int delivers(uint8_t what, uint8_t *octets, size_t room)
{
    static const uint8_t pcbs[] = {0x00, 0x40, 0x20, 0x60, 0x80, 0x90, 0xC1, 0xC3, 0xE0, 0xE1, 0xC0, 0xE3};
    const uint8_t *from;
    size_t count = take_octets(&input, &from, what % 32);
    struct scard_verdict put;
    if (what < 0x20) {
        count = count < room ? count : room;
        if (count > 0) {
            memcpy(octets, from, count);
        }
        return (int)count;
    }
    put = scard_block_encode(0, pcbs[take(&input) % sizeof pcbs], from, count, octets, room);
    return put.status == SCARD_OK ? (int)put.place : 0;
}

/* What comes after the end of the input: silence, or interrupts without end. A card's line ends. */
static int over(uint64_t microseconds)
{
    if (microseconds == SCARD_LINE_FOREVER) {
        return SCARD_LINE_FAILED;
    }
    if (rings && microseconds > 0) {
        pass(50000);
        return SCARD_LINE_INTERRUPTED;
    }
    pass(microseconds);
    return 0;
}

static int receives(void *context, uint8_t *octets, size_t room, uint64_t microseconds)
{
    uint8_t what;
    (void)context;
    if (input.left == 0) {
        return over(microseconds);
    }
    what = take(&input);
    pass(take(&input));
    if (what >= 0xF0) {
        return what == 0xFF ? (int)room + 1 : what == 0xFE ? SCARD_LINE_FAILED : -3 - what % 4;
    }
    if (what >= 0xE0) {
        return SCARD_LINE_INTERRUPTED;
    }
    if (what >= 0xC0) { /* an echo */
        size_t count = last_count < room ? last_count : room;
        memcpy(octets, last, count);
        return (int)count;
    }
    if (what >= 0x80) {
        pass(microseconds == SCARD_LINE_FOREVER ? 0 : microseconds);
        return 0;
    }
    return delivers(what, octets, room);
}

/* The octets after the command are 0: the buffer was when the session began. */
static struct scard_host_turn serves(void *context, const uint8_t *octets, size_t count, size_t granted)
{
    static uint8_t reply[ROOM];
    struct scard_host_turn turn = {SCARD_HOST_REPLY, 0, reply, 0};
    size_t at;
    (void)context, (void)granted;
    SHOULD(octets == command && count <= setup.command_room && (count >= 4 || setup.host_takes_short));
    for (at = count; at < setup.command_room; at++) {
        SHOULD(octets[at] == 0);
    }
    turn.kind = take(&input) % 5;
    turn.number = take(&input);
    turn.count = take_number(&input) % (ROOM + 1);
    return turn;
}

static void begin_setup(void)
{
    memset(&setup, 0, sizeof setup);
    setup.line.send = sends;
    setup.line.receive = receives;
    setup.line.now = clock_kind == NO_CLOCK ? NULL : now;
    setup.command = command;
    setup.command_room = take_number(&input) % (ROOM + 1);
    setup.answer = answer;
    setup.answer_room = take_number(&input) % (ROOM + 1);
    setup.t1.ifsc = take(&input);
    setup.t1.bwi = take(&input) % 17;
    setup.t1.cwi = take(&input) % 17;
    setup.clock.fi = (uint16_t)take_number(&input);
    setup.clock.di = take(&input) % 66;
    setup.clock.hertz = (uint32_t)take_number(&input) * 200;
    setup.silence = take(&input) < 0xC0 ? 0 : take(&input) < 0x80 ? take_number(&input) : SCARD_SILENCE_NONE;
    setup.most_blocks = 1 + take(&input);
    setup.most_microseconds = 1 + (uint64_t)take_number(&input) * 100;
    setup.echo = take(&input) % 4 == 0;
    setup.refuses_empty = take(&input) % 2 == 0;
    setup.host_takes_short = take(&input) % 2 == 0;
}

/* A turn that is none of these kinds ends a session, which then takes no command. */
static bool goes_on(uint8_t kind)
{
    return kind == SCARD_DONE || kind == SCARD_IFS_SET || kind == SCARD_GIVEN_UP || kind == SCARD_SESSION_NO_STATUS
        || (kind >= SCARD_REFUSED_DEAD && kind <= SCARD_REFUSED_ORDER);
}

static struct scard_turn exchange(struct scard_session *session)
{
    const uint8_t *octets;
    size_t count = take_octets(&input, &octets, take(&input));
    struct scard_turn turn = scard_session_exchange(session, octets, count);
    if (turn.kind == SCARD_DONE) {
        SHOULD(turn.count >= 2 && turn.count <= setup.answer_room);
    }
    return turn;
}

static void terminal(void)
{
    static struct scard_session session;
    int call;
    if (scard_session_begin(&session, &setup).status != SCARD_OK) {
        return;
    }
    for (call = 0; call < MOST_CALLS; call++) {
        const uint8_t which = take(&input);
        const uint64_t began = passed;
        struct scard_turn turn;
        sent = 0;
        longest = 0;
        turn = which % 8 == 7 ? scard_session_ask_ifs(&session, take(&input))
             : which % 8 == 6 ? scard_session_resync(&session, &setup) : exchange(&session);
        SHOULD(*scard_session_turn_name(turn.kind) != 0 && turn.kind != SCARD_NO_END);
        SHOULD(which % 8 == 6 ? sent <= 3 : sent <= setup.most_blocks);
        if (clock_kind == STEADY && which % 8 != 6) { /* the send and the receive that were in progress */
            SHOULD(passed - began <= setup.most_microseconds + 3 * longest);
        }
        if (!goes_on(turn.kind)) {
            turn = scard_session_exchange(&session, command, 0);
            SHOULD(turn.kind == SCARD_REFUSED_BUSY || turn.kind == SCARD_REFUSED_DEAD);
        }
    }
}

/* The host ends serving, or says what isn't valid. The card then still owes a reply. */
static bool ends(uint8_t kind)
{
    return kind == SCARD_DONE || kind == SCARD_REFUSED_TOO_LONG || kind == SCARD_REFUSED_RESERVED;
}

static void card(void)
{
    static struct scard_card_session session;
    const struct scard_host host = {NULL, serves};
    bool owes = false;
    int call;
    if (scard_card_session_begin(&session, &setup, &host).status != SCARD_OK) {
        return;
    }
    for (call = 0; call < MOST_CALLS; call++) {
        struct scard_turn turn = scard_card_session_serve(&session);
        SHOULD(turn.kind == SCARD_SESSION_FAILED || turn.kind == SCARD_SESSION_ECHO
               || (turn.kind == SCARD_REFUSED_ORDER && owes) || ends(turn.kind));
        owes = owes || ends(turn.kind);
    }
}

int LLVMFuzzerTestOneInput(const uint8_t *data, size_t size)
{
    uint8_t manner;
    input.at = data;
    input.left = size;
    manner = take(&input);
    clock_kind = manner / 2 % CLOCK_KINDS;
    rings = manner >= 0x80 && clock_kind == STEADY;
    passed = 0;
    last_count = 0;
    begin_setup();
    if (manner % 2 == 0) {
        terminal();
    } else {
        card();
    }
    return 0;
}
