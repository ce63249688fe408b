/* 200 terminals and 200 cards in one thread, by the steps of their sessions, in virtual time. Each pair has a line of
 * its own, on which 50 of 1,000 blocks meet a fault. Each step takes the thread some time. No exchange is wrong, no
 * command is acted on twice, and no event of a session waits long for the steps of other sessions.
 */
#define _XOPEN_SOURCE 700
#include "rough.h"

enum { PAIRS = 200, ENDS = 2 * PAIRS, EXCHANGES = 20, ROOM = 96, SHORTEST = 5, LONGEST = 80, IN_1000 = 50, STEP = 2 };

/* One end: its session, its buffers, and the one thing that it does now. */
struct end {
    struct scard_lent_session terminal;
    struct scard_lent_card_session card;
    uint8_t command[ROOM], answer[ROOM], block[SCARD_BLOCK_ROOM];
    struct scard_lent_setup setup;
    struct scard_session_next next;
    struct rough_end line;
    uint8_t said[LONGEST]; /* a terminal: its command */
    size_t said_count;
    unsigned number, right, given_up; /* the current exchange, or at a card the last command; how the exchanges ended */
    bool is_over;
    uint8_t mask;   /* how the receiver changed the last octet */
    uint64_t since; /* when it began what it does now */
};

static struct end ends[ENDS]; /* a terminal, its card, and so on */
static struct end *first[2 * ENDS]; /* a tournament of all ends: first[1] is the one to which something happens next */
static unsigned wrong, twice, garbled;
static uint64_t latest; /* how long an event waited at most, in microseconds */

/* The state and the buffers of an end, as the first five arguments of its steps, and the last three arguments. */
#define TERMINAL(end) SCARD_LENT((end)->terminal, (end)->command, (end)->answer)
#define CARD(end) SCARD_LENT((end)->card, (end)->command, (end)->answer)
#define BLOCK(end) rough.now, (end)->block, sizeof(end)->block

static bool is_card(const struct end *end)
{
    return (end - ends) % 2 == 1;
}

/* ---- the applications ---- */

/* Sends the next command: the number of its terminal, its own number, and random octets. */
static struct scard_session_next next_command(struct end *end)
{
    size_t at;
    end->number++;
    end->said_count = SHORTEST + rough_throw(LONGEST - SHORTEST + 1);
    for (at = 0; at < end->said_count; at++) {
        end->said[at] = train_noise();
    }
    end->said[0] = (uint8_t)((end - ends) >> 8);
    end->said[1] = (uint8_t)(end - ends);
    end->said[2] = (uint8_t)end->number;
    return scard_lent_session_exchange(TERMINAL(end), end->said, end->said_count, BLOCK(end));
}

/* Writes the reply to a command: each octet of it, changed, and 9000. */
static size_t reply_to(const uint8_t *command, size_t count, uint8_t *reply)
{
    size_t at;
    for (at = 0; at < count; at++) {
        reply[at] = command[at] ^ 0x5A;
    }
    reply[count] = 0x90;
    reply[count + 1] = 0;
    return count + 2;
}

/* The host of a card acts on each command once. Before some commands it asks for time or for a field size. */
static struct scard_session_next host(struct end *end, size_t count)
{
    const long terminal = end - ends - 1;
    uint8_t reply[LONGEST + 2];
    if (end->card.granted == 0 && count % 8 == 0) {
        return scard_lent_card_session_more_time(CARD(end), 2, BLOCK(end));
    }
    if (end->card.granted == 0 && count % 8 == 1) {
        return scard_lent_card_session_ask_ifs(CARD(end), (uint8_t)(8 + rough_throw(247)), BLOCK(end));
    }
    wrong += count > LONGEST || end->command[0] != (uint8_t)(terminal >> 8) || end->command[1] != (uint8_t)terminal;
    twice += end->command[2] <= end->number;
    end->number = end->command[2];
    count = reply_to(end->command, count > LONGEST ? (size_t)LONGEST : count, reply);
    return scard_lent_card_session_reply(CARD(end), reply, count, BLOCK(end));
}

static struct scard_session_next card_goes_on(struct end *end, struct scard_session_next next)
{
    return next.kind == SCARD_DONE ? host(end, (size_t)next.count)
                                   : scard_lent_card_session_serve(CARD(end), rough.now);
}

static bool is_right(const struct end *end, size_t count)
{
    uint8_t wanted[LONGEST + 2];
    return count == reply_to(end->said, end->said_count, wanted) && memcmp(end->answer, wanted, count) == 0;
}

static struct scard_session_next terminal_goes_on(struct end *end, struct scard_session_next next)
{
    if (next.kind == SCARD_GIVEN_UP) {
        end->given_up++;
    } else if (next.kind == SCARD_DONE && is_right(end, (size_t)next.count)) {
        end->right++;
    } else if (next.kind == SCARD_DONE || next.kind == SCARD_SESSION_NO_STATUS) {
        wrong++;
    } else {
        return scard_lent_session_resync(TERMINAL(end), &end->setup, BLOCK(end));
    }
    end->is_over = end->number == EXCHANGES;
    return end->is_over ? next : next_command(end);
}

/* ---- the lines ---- */

static struct end *earlier(struct end *one, struct end *other)
{
    return rough_wakes(&other->line) < rough_wakes(&one->line) ? other : one;
}

/* Finds anew which end comes first, after what happens to this end or to its neighbor, the other end of its line, has
 * changed.
 */
static void plays(const struct end *end)
{
    size_t at;
    for (at = ((size_t)(end - ends) + ENDS) / 2; at > 0; at /= 2) {
        first[at] = earlier(first[2 * at], first[2 * at + 1]);
    }
}

/* Puts the block of an end onto the line, with or without a fault. */
static void put_block(struct end *end)
{
    const struct scard_lent_line_rules *rules = &ends[(end - ends) / 2 * 2].terminal.line.rules;
    struct end *other = &ends[(end - ends) ^ 1];
    struct train train;
    train_of(&train, end->block, (size_t)end->next.count);
    rough.terminal.bwt = rules->bwt;
    rough.terminal.cwt = rules->cwt;
    if (rough_throw(1000) < IN_1000) {
        train_meet(&train, (int)rough_throw(ROUGH_PAUSED_CWT + 1));
    }
    road_take_up(&other->line.in, &train);
    end->line.last = rough.now + (uint64_t)end->next.count * ROUGH_OCTET;
}

/* Begins what a session says, and sets the timer. */
static void does(struct end *end, struct scard_session_next next)
{
    while (next.kind != SCARD_SEND && next.kind != SCARD_SESSION_WAIT && !end->is_over) {
        next = is_card(end) ? card_goes_on(end, next) : terminal_goes_on(end, next);
    }
    end->next = next;
    end->since = rough.now;
    end->line.listens = next.kind == SCARD_SESSION_WAIT;
    if (next.kind == SCARD_SEND) {
        put_block(end);
    }
    end->line.until = end->is_over || next.wait == SCARD_LINE_FOREVER ? SCARD_LINE_FOREVER : end->line.last + next.wait;
    plays(end);
}

static uint64_t later(uint64_t time, uint64_t other)
{
    return time > other ? time : other;
}

/* Passes the time until something happens to an end, if the thread isn't late. */
static void pass(const struct end *end)
{
    const uint64_t wakes = rough_wakes(&end->line);
    rough.now = later(wakes, rough.now + STEP);
    latest = rough.now - later(wakes, end->since) > latest ? rough.now - later(wakes, end->since) : latest;
}

/* Of 1,000 pieces that come, the receiver finds the first octet of one damaged. The next piece has the same bits wrong,
 * and the receiver doesn't see that. So the check octet of the block is right. Returns the event.
 */
static uint8_t hears(struct end *end, uint8_t *octets)
{
    const bool is_garbled = rough_throw(1000) == 0;
    end->mask = is_garbled ? (uint8_t)(1 + rough_throw(255)) : end->mask;
    *octets ^= end->mask;
    end->mask = is_garbled ? end->mask : 0;
    garbled += is_garbled;
    return is_garbled ? SCARD_EVENT_GARBLED : SCARD_EVENT_CAME;
}

/* Takes what happens to an end now. */
static void happens(struct end *end)
{
    uint8_t octets[SCARD_BURST_ROOM], event = SCARD_EVENT_SENT;
    size_t count = 0;
    if (end->line.listens) {
        count = (size_t)road_take(&end->line, octets, sizeof octets);
        event = count == 0 ? (uint8_t)SCARD_EVENT_SILENT : hears(end, octets);
    }
    does(end, is_card(end) ? scard_lent_card_session_step(CARD(end), event, octets, count, BLOCK(end))
                           : scard_lent_session_step(TERMINAL(end), event, octets, count, BLOCK(end)));
}

/* ---- all sessions ---- */

static void begin(struct end *end)
{
    static const uint8_t sizes[] = {32, 254, 8, 100}, times[][2] = {{0, 5}, {1, 3}, {4, 5}, {2, 9}};
    const long pair = (end - ends) / 2;
    end->setup = setup_of(sizes[pair % 4], times[pair / 4 % 4][0], times[pair / 4 % 4][1]);
    end->setup.has_clock = pair % 3 > 0;
    end->setup.refuses_empty = 1;
    CHECK((is_card(end) ? scard_lent_card_session_begin(CARD(end), &end->setup)
                        : scard_lent_session_begin(TERMINAL(end), &end->setup)).status == SCARD_OK);
    does(end, is_card(end) ? scard_lent_card_session_serve(CARD(end), 0) : next_command(end));
}

/* Each exchange of a terminal ended, and half of them ended right at least. */
static void check(const struct end *end)
{
    CHECK(end->right + end->given_up == EXCHANGES && end->right >= EXCHANGES / 2);
}

static void enter_all(void)
{
    unsigned at;
    for (at = 0; at < 2 * ENDS; at++) {
        first[at] = &ends[at % ENDS];
    }
}

static void begin_all(void)
{
    unsigned at;
    for (at = 0; at < ENDS; at++) {
        begin(&ends[at]);
    }
}

/* The loop of the thread: it takes what happens, one event after the other, until all terminals are done. */
static void run_all(void)
{
    unsigned over = 0;
    while (over < PAIRS) {
        struct end *end = first[1];
        pass(end);
        happens(end);
        over += end->is_over;
    }
}

int main(void)
{
    unsigned at, right = 0, given_up = 0;
    rough.die = 88172645463325252u;
    enter_all();
    begin_all();
    run_all();
    for (at = 0; at < ENDS; at += 2) {
        check(&ends[at]);
        right += ends[at].right;
        given_up += ends[at].given_up;
    }
    CHECK(wrong == 0 && twice == 0 && rough.harmed > 100 && garbled > 100 && latest < ROUGH_OCTET);
    CHECK(given_up <= PAIRS * EXCHANGES / 100);
    printf("%d sessions: %u right, %u given up, %u blocks met a fault, %u damaged pieces\n", PAIRS, right, given_up,
           rough.harmed, garbled);
    printf("no event waited longer than %u microseconds\n", (unsigned)latest);
    return verdict_of_checks("session_many");
}
