/* What a session refuses and where it stops: a session that was never begun or is a copy, missing functions, a card
 * that never ends its answer, and answers without status bytes. */
#include "wired.h"

static struct wired wired;
static const uint8_t command[5] = {0x00, 0xB0, 0x00, 0x00, 0x02};
static const uint8_t reply[2] = {0x90, 0x00};
static size_t reply_count = sizeof reply;
static unsigned acted;

static struct scard_host_turn act(void *context, const uint8_t *octets, size_t count, size_t granted)
{
    struct scard_host_turn turn = {SCARD_HOST_REPLY, 0, reply, reply_count};
    (void)context, (void)octets, (void)count, (void)granted;
    acted++;
    return turn;
}

static const struct scard_host host = {NULL, act};

static struct scard_turn exchange(struct scard_session *session)
{
    return scard_session_exchange(session, command, sizeof command);
}

static int answered(void)
{
    struct scard_turn turn = exchange(&wired.terminal);
    return turn.kind == SCARD_DONE && turn.count == 2 && memcmp(wired.answers[0], reply, 2) == 0;
}

/* ---- sessions that never began ---- */

static void zeroed(void)
{
    struct scard_session terminal;
    struct scard_card_session card;
    memset(&terminal, 0, sizeof terminal);
    memset(&card, 0, sizeof card);
    CHECK(exchange(&terminal).kind == SCARD_NO_END && scard_session_ask_ifs(&terminal, 254).kind == SCARD_NO_END);
    CHECK(scard_card_session_serve(&card).kind == SCARD_NO_END);
    memset(&terminal, 0xA5, sizeof terminal);
    memset(&card, 0xA5, sizeof card);
    CHECK(exchange(&terminal).kind == SCARD_NO_END && scard_session_ask_ifs(&terminal, 254).kind == SCARD_NO_END);
    CHECK(scard_card_session_serve(&card).kind == SCARD_NO_END);
}

/* A copy is refused: it has its own numbers, and would take an old answer for a new one. The session itself goes on. */
static void copied(void)
{
    struct scard_session terminal;
    struct scard_card_session card;
    wired_begin(&wired, &host, 1, 0);
    CHECK(answered());
    terminal = wired.terminal;
    card = wired.card;
    acted = wired.sent = 0;
    CHECK(exchange(&terminal).kind == SCARD_NO_END && scard_session_ask_ifs(&terminal, 254).kind == SCARD_NO_END);
    CHECK(scard_card_session_serve(&card).kind == SCARD_NO_END && wired.sent == 0 && acted == 0);
    CHECK(answered() && acted == 1);
}

static void missing(void)
{
    struct scard_host nobody = {NULL, NULL};
    wired_begin(&wired, &host, 1, 0);
    CHECK(answered());
    CHECK(scard_card_session_begin(&wired.card, &wired.setups[1], &nobody).status == SCARD_ARGUMENT);
    wired.setups[0].line.send = NULL;
    CHECK(scard_session_begin(&wired.terminal, &wired.setups[0]).status == SCARD_ARGUMENT);
    CHECK(scard_card_session_begin(&wired.card, &wired.setups[0], &host).status == SCARD_ARGUMENT);
    wired.setups[1].line.receive = NULL;
    CHECK(scard_session_begin(&wired.terminal, &wired.setups[1]).status == SCARD_ARGUMENT);
    CHECK(scard_card_session_begin(&wired.card, &wired.setups[1], &host).status == SCARD_ARGUMENT);
    CHECK(answered()); /* the sessions stayed as they were */
    CHECK(scard_session_resync(&wired.terminal, &wired.setups[0]).kind == SCARD_NO_END);
    CHECK(exchange(&wired.terminal).kind == SCARD_NO_END);
}

/* ---- cards that never end their answer ---- */

/* The card at the other end of a line. It answers each block of the terminal with another block. */
struct feint {
    size_t (*answer)(unsigned sent, uint8_t *out);
    uint8_t out[SCARD_BLOCK_ROOM];
    size_t count;
    unsigned sent;
    uint64_t waited; /* for the last block */
    uint64_t time;
};

static int feint_send(void *context, const uint8_t *octets, size_t count)
{
    struct feint *feint = (struct feint *)context;
    (void)octets, (void)count;
    feint->count = feint->answer(feint->sent++, feint->out);
    feint->waited = 0;
    feint->time += 1000;
    return 0;
}

static int feint_receive(void *context, uint8_t *octets, size_t room, uint64_t microseconds)
{
    struct feint *feint = (struct feint *)context;
    size_t count = feint->count < room ? feint->count : room;
    if (feint->waited == 0) {
        feint->waited = microseconds;
    }
    memcpy(octets, feint->out, count);
    feint->time += count == 0 ? microseconds : 0;
    feint->count = 0;
    return (int)count;
}

static uint64_t feint_now(void *context)
{
    return ((struct feint *)context)->time;
}

static size_t silent(unsigned sent, uint8_t *out)
{
    (void)sent, (void)out;
    return 0;
}

/* An I-block with an empty field, and more to follow. */
static size_t empty(unsigned sent, uint8_t *out)
{
    return scard_block_i(0, sent % 2, true, NULL, 0, out, SCARD_BLOCK_ROOM).place;
}

static size_t more_time(unsigned sent, uint8_t *out)
{
    static const uint8_t multiple = 10;
    (void)sent;
    return scard_block_s_request(0, SCARD_S_WTX, &multiple, 1, out, SCARD_BLOCK_ROOM).place;
}

static struct feint feint;
static struct scard_session session;
static struct scard_setup setup;

static void feints(size_t (*answer)(unsigned sent, uint8_t *out), uint32_t blocks, uint64_t time, bool has_clock)
{
    memset(&feint, 0, sizeof feint);
    feint.answer = answer;
    feint.time = UINT64_MAX - 5000; /* a clock may wrap */
    wired_begin(&wired, &host, 1, 0);
    setup = wired.setups[0];
    setup.line.context = &feint;
    setup.line.send = feint_send;
    setup.line.receive = feint_receive;
    setup.line.now = has_clock ? feint_now : NULL;
    setup.silence = SCARD_SILENCE_NONE;
    setup.most_blocks = blocks;
    setup.most_microseconds = time;
    CHECK(scard_session_begin(&session, &setup).status == SCARD_OK);
}

/* After that the session refuses each call until it begins again. RESYNCH resets the card's numbers. */
static void used_up(unsigned sent)
{
    CHECK(exchange(&session).kind == SCARD_SESSION_USED_UP && feint.sent == sent);
    CHECK(exchange(&session).kind == SCARD_REFUSED_BUSY);
    CHECK(scard_session_ask_ifs(&session, 9).kind == SCARD_REFUSED_BUSY);
    CHECK(feint.sent == sent);
    CHECK(scard_session_resync(&session, &wired.setups[0]).kind == SCARD_GIVEN_UP);
    CHECK(exchange(&session).kind == SCARD_DONE);
}

static void blocks_are_used_up(void)
{
    feints(empty, 7, 0, false);
    used_up(7);
    feints(more_time, 100, SCARD_LINE_FOREVER, false);
    used_up(100);
    feints(empty, 0, 0, false);
    used_up(SCARD_MOST_BLOCKS);
}

/* BWT is 1,601,146 microseconds, and the card asks for ten times that. */
static void time_is_used_up(void)
{
    feints(more_time, 0, 20000000, false); /* without a clock, a wait in which octets came doesn't count */
    used_up(SCARD_MOST_BLOCKS);
    feints(more_time, 0, 20000000, true); /* with a clock, only the time that passed counts */
    used_up(20000);
    feints(silent, 0, 2000000, false); /* the second wait is as long as the time left, and no `quiet` follows it */
    used_up(2);
    CHECK(feint.waited == 2000000 - 1601146);
    feints(silent, 0, 2000000, true);
    used_up(2);
    CHECK(feint.waited == 2000000 - 1601146 - 2000);
    feints(silent, 0, 1000, false);
    used_up(1);
    CHECK(feint.waited == 1000);
    feints(silent, 0, 1000, false); /* RESYNCH isn't limited by it */
    CHECK(scard_session_resync(&session, &setup).kind == SCARD_DEAD && feint.sent == 3 && feint.waited == 1601146);
}

/* ---- answers without status bytes ---- */

static void no_status(void)
{
    wired_begin(&wired, &host, 1, 0);
    for (reply_count = 0; reply_count < 2; reply_count++) {
        struct scard_turn turn = exchange(&wired.terminal);
        CHECK(turn.kind == SCARD_SESSION_NO_STATUS && turn.count == reply_count);
    }
    CHECK(wired.answers[0][0] == 0x90 && answered());
}

int main(void)
{
    zeroed();
    copied();
    missing();
    blocks_are_used_up();
    time_is_used_up();
    no_status();
    return verdict_of_checks("session_guards");
}
