/* A line that returns what is sent on it, although the setup doesn't say so. No end takes its own block for one of the
 * other end. A card is right if it answers with the octets of the command, and it is never refused for that.
 */
#define _XOPEN_SOURCE 700
#include "rough.h"
#include "wired.h"

/* An elementary time unit at 9,600 bits a second is 104.17 microseconds, and an octet takes 12 of them. */
#define ETU(count) ((uint64_t)(count) * 1000000 / 9600 + 1)
#define OCTET UINT64_C(1250)

/* What answers a block: the line itself, or a card whose reply to each command is the command. */
enum answerer { LINE, CARD };

static struct {
    enum answerer answerer;
    uint64_t time;
    uint64_t takes;          /* how long `send` takes for each octet */
    uint64_t more;           /* and how long besides */
    uint64_t first, each;    /* when the first octet of the answer is there, after the block was sent; and each further
                                one, after the one before */
    uint64_t latency;        /* how much later the driver has it */
    uint64_t end;            /* when the last block was sent */
    uint8_t sent[SCARD_BLOCK_ROOM], answer[SCARD_BLOCK_ROOM], kept[SCARD_BLOCK_ROOM];
    size_t count, kept_count, taken;
    unsigned blocks, seen;   /* blocks that were sent; commands that the card got */
    unsigned lost;           /* how many blocks are lost first; if any, the reply is only the last octets */
} line;

static uint8_t command[32] = {0x00, 0x20, 0x00, 0x01, 0x04, 0x31, 0x32, 0x90, 0x00};
static size_t command_count = 9;

/* A card of one block: it answers an I-block with the same block, and an R-block with its last one. If it has none, it
 * rightly answers with the same R-block.
 */
static void answers(const uint8_t *octets, size_t count)
{
    line.count = line.blocks > line.lost ? count : 0;
    memcpy(line.answer, octets, count);
    if (line.answerer == LINE || line.count == 0 || (line.kept_count == 0 && (octets[1] & 0xC0) == 0x80)) {
        return;
    }
    if (octets[1] < 0x80) {
        if (line.lost > 0) {
            line.count = (size_t)scard_block_i(0, 0, false, command + 7, 2, line.answer, sizeof line.answer).place;
        }
        memcpy(line.kept, line.answer, line.kept_count = line.count);
        line.seen++;
    } else if (octets[1] < 0xC0) {
        memcpy(line.answer, line.kept, line.count = line.kept_count);
    } else {
        line.answer[1] ^= 0x20;
        line.answer[count - 1] ^= 0x20;
    }
}

static int sends(void *context, const uint8_t *octets, size_t count)
{
    (void)context;
    line.blocks++;
    line.taken = 0;
    line.end = line.time + count * line.takes;
    line.time += count * line.takes + line.more;
    answers(octets, count);
    return 0;
}

/* Returns when the driver has the next octet. */
static uint64_t arrives(void)
{
    return line.end + line.first + line.taken * line.each + line.latency;
}

static int receives(void *context, uint8_t *octets, size_t room, uint64_t microseconds)
{
    const uint64_t until = line.time + microseconds;
    size_t count = 0;
    (void)context;
    if (line.taken == line.count || arrives() > until) {
        line.time = until;
        return 0;
    }
    line.time = arrives() > line.time ? arrives() : line.time;
    while (line.taken < line.count && count < room && arrives() <= line.time) {
        octets[count++] = line.answer[line.taken++];
    }
    return (int)count;
}

static uint64_t behind; /* how far the clock goes back while the first block is sent */

static uint64_t now(void *context)
{
    (void)context;
    return UINT64_C(1000000000) + line.time - (line.blocks > 0 ? behind : 0);
}

/* A clock whose steps are too long. */
static uint64_t steps(void *context)
{
    (void)context;
    return line.time / 1000000 * 1000000;
}

static struct wired wired;
static struct scard_session session;
static uint64_t silence;

/* Exchanges one command over the line. `first` is when the first octet of the answer is there. */
static struct scard_turn exchange(bool has_clock, uint64_t takes, uint64_t more, uint64_t first, uint64_t each)
{
    struct scard_setup setup = wired_setup(&wired, 0);
    enum answerer answerer = line.answerer;
    uint64_t latency = line.latency;
    memset(&line, 0, sizeof line);
    line.answerer = answerer;
    line.latency = latency;
    line.takes = takes;
    line.more = more;
    line.first = first;
    line.each = each;
    setup.line.send = sends;
    setup.line.receive = receives;
    setup.line.now = has_clock ? now : NULL;
    setup.silence = silence;
    setup.answer_room = sizeof wired.answers[0];
    CHECK(scard_session_begin(&session, &setup).status == SCARD_OK);
    return scard_session_exchange(&session, command, command_count);
}

static int is_echo(struct scard_turn turn, unsigned blocks)
{
    return turn.kind == SCARD_SESSION_ECHO && turn.count == 0 && line.blocks == blocks;
}

static int is_answer(struct scard_turn turn, unsigned blocks)
{
    return turn.kind == SCARD_DONE && turn.count == command_count && line.blocks == blocks && line.seen == 1
        && memcmp(wired.answers[0], command, command_count) == 0;
}

/* No card at all, and a clock: one block is enough. The echo comes while the block is sent, or right after. Some
 * drivers return from `send` at once. The last block is one of 32 octets.
 */
static void at_once(void)
{
    static const uint64_t late[] = {0, 1, OCTET, ETU(15), ETU(19)};
    size_t at;
    line.answerer = LINE;
    for (at = 0; at < sizeof late / sizeof *late; at++) {
        CHECK(is_echo(exchange(true, OCTET, 0, late[at], 0), 1));        /* all of it is there */
        CHECK(is_echo(exchange(true, OCTET, 0, late[at], OCTET), 1));    /* it comes octet by octet */
        CHECK(is_echo(exchange(true, 0, 0, late[at], OCTET), 1));        /* `send` only fills a buffer */
    }
    command_count = 32;
    CHECK(is_echo(exchange(true, OCTET, 0, 0, 0), 1) && is_echo(exchange(true, 0, 0, OCTET, OCTET), 1));
    CHECK(is_echo(exchange(true, OCTET, ETU(10), 0, 0), 1));
    command_count = 9;
}

/* No card at all, and no time that says so: the line returns the question too, and at last RESYNCH. */
static void asked(void)
{
    line.answerer = LINE;
    CHECK(is_echo(exchange(false, OCTET, 0, 0, 0), 5));
    CHECK(is_echo(exchange(false, 0, 0, OCTET, OCTET), 5));
    CHECK(is_echo(exchange(false, 0, 0, 30000, 0), 5));
    CHECK(is_echo(exchange(true, OCTET, 30000, 0, 0), 5)); /* `send` was late */
    silence = SCARD_SILENCE_NONE;
    CHECK(is_echo(exchange(true, 0, 0, 0, 0), 5) && is_echo(exchange(false, 0, 0, 0, 0), 5));
    silence = 0;
}

/* A right card begins 22 etu after the beginning of the last character. */
static void right(void)
{
    static const uint64_t begins[] = {ETU(20), ETU(22), ETU(23), ETU(100), 1000000};
    size_t at;
    line.answerer = CARD;
    for (at = 0; at < sizeof begins / sizeof *begins; at++) {
        CHECK(is_answer(exchange(true, OCTET, 0, begins[at], OCTET), 1));
        CHECK(is_answer(exchange(true, OCTET, 0, begins[at], 0), 1));
        CHECK(is_answer(exchange(true, 0, 0, begins[at], 0), 1));
        CHECK(is_answer(exchange(true, OCTET, 30000, begins[at], OCTET), begins[at] < 30000 ? 2 : 1));
        CHECK(is_answer(exchange(false, OCTET, 0, begins[at], OCTET), 2) && line.time >= session.bwt);
    }
    CHECK(is_answer(exchange(true, OCTET, ETU(10), ETU(20), OCTET), 2)); /* `send` was a little late */
    CHECK(is_answer(exchange(true, OCTET, ETU(10), ETU(31), OCTET), 1));
    command_count = 32;
    CHECK(is_answer(exchange(true, OCTET, 0, ETU(20), OCTET), 1));
    CHECK(is_answer(exchange(true, OCTET, 30000, ETU(20), OCTET), 2));
    command_count = 9;
}

/* The clock goes back while the command is sent, so it doesn't tell the answer of a card from an echo. */
static void goes_back(void)
{
    behind = 500000;
    line.answerer = CARD;
    CHECK(is_answer(exchange(true, OCTET, 30000, ETU(22), OCTET), 2));
    line.answerer = LINE;
    CHECK(is_echo(exchange(true, OCTET, 0, 0, 0), 2));
    behind = 0;
}

/* The command is lost, so both ends send the same R-block. The clock can't tell when it came. */
static void same_r_block(uint64_t (*clock)(void *), uint64_t takes)
{
    struct scard_setup setup = wired_setup(&wired, 0);
    struct scard_turn turn;
    memset(&line, 0, sizeof line);
    line.answerer = CARD;
    line.lost = 1;
    line.takes = takes;
    line.first = ETU(22);
    setup.line.send = sends;
    setup.line.receive = receives;
    setup.line.now = clock;
    CHECK(scard_session_begin(&session, &setup).status == SCARD_OK);
    turn = scard_session_exchange(&session, command, command_count);
    CHECK(turn.kind == SCARD_DONE && line.seen == 1 && line.blocks <= 4);
}

/* The rows of a session that is over, and of calls besides an exchange. */
static void others(void)
{
    struct scard_setup setup;
    line.answerer = LINE;
    CHECK(is_echo(exchange(true, OCTET, 0, 0, 0), 1));
    setup = session.setup;
    CHECK(scard_session_exchange(&session, command, command_count).kind == SCARD_REFUSED_BUSY);
    CHECK(scard_session_resync(&session, &setup).kind == SCARD_SESSION_ECHO && line.blocks == 2);
    CHECK(scard_session_exchange(&session, command, command_count).kind == SCARD_REFUSED_BUSY);
    CHECK(scard_session_begin(&session, &setup).status == SCARD_OK);
    CHECK(scard_session_ask_ifs(&session, 254).kind == SCARD_SESSION_ECHO && line.blocks == 3);
    setup.line.now = NULL;
    CHECK(scard_session_begin(&session, &setup).status == SCARD_OK);
    CHECK(scard_session_ask_ifs(&session, 254).kind == SCARD_SESSION_ECHO && line.blocks == 4);
    CHECK(scard_session_resync(&session, &setup).kind == SCARD_SESSION_ECHO && line.blocks == 5);
    line.answerer = CARD;
    CHECK(scard_session_resync(&session, &setup).kind == SCARD_GIVEN_UP && line.blocks == 6);
    line.first = ETU(22);
    CHECK(scard_session_exchange(&session, command, command_count).kind == SCARD_DONE);
}

/* ---- the card's end ---- */

static unsigned acted;

/* Replies with the command of `command`, whatever came. */
static struct scard_host_turn act(void *context, const uint8_t *octets, size_t count, size_t granted)
{
    struct scard_host_turn turn = {SCARD_HOST_REPLY, 0, command, command_count};
    (void)context, (void)octets, (void)count, (void)granted;
    acted++;
    return turn;
}

static const struct scard_host host = {NULL, act};

/* A command comes once, and after that only what the card sends. */
static int card_receives(void *context, uint8_t *octets, size_t room, uint64_t microseconds)
{
    static const uint8_t first[] = {0x00, 0x00, 0x04, 0x00, 0xB0, 0x00, 0x00, 0xB4};
    if (line.blocks == 0) {
        memcpy(octets, first, sizeof first);
        line.count = microseconds == SCARD_LINE_FOREVER ? sizeof first : 0;
        line.blocks = line.count > 0;
        return (int)line.count;
    }
    return line.blocks == 1 ? 0 : receives(context, octets, room, microseconds % 1000000000);
}

static void card_hears_itself(bool has_clock, unsigned blocks)
{
    static struct scard_card_session card;
    struct scard_setup setup = wired_setup(&wired, 1);
    memset(&line, 0, sizeof line);
    line.takes = OCTET;
    setup.line.send = sends;
    setup.line.receive = card_receives;
    setup.line.now = has_clock ? now : NULL;
    acted = 0;
    CHECK(scard_card_session_begin(&card, &setup, &host).status == SCARD_OK);
    CHECK(scard_card_session_serve(&card).kind == SCARD_SESSION_ECHO && acted == 1 && line.blocks == 1 + blocks);
}

/* A terminal may ask three times for the card's R-block, and three times more because its next I-block is lost. Each
 * time it sends the octets of that R-block. That is no echo.
 */
static unsigned asks, came;

static int chain_receives(void *context, uint8_t *octets, size_t room, uint64_t microseconds)
{
    static const uint8_t chained[] = {0x00, 0x20, 0x04, 0x00, 0xB0, 0x00, 0x00, 0x94};
    static const uint8_t again[] = {0x00, 0x90, 0x00, 0x90}, rest[] = {0x00, 0x40, 0x01, 0x02, 0x43};
    const uint8_t *block = came == 0 ? chained : came <= asks ? again : rest;
    const size_t count = came == 0 ? sizeof chained : came <= asks ? sizeof again : sizeof rest;
    (void)context;
    if (microseconds != SCARD_LINE_FOREVER) {
        return 0;
    }
    CHECK(count <= room);
    memcpy(octets, block, count);
    return came++ <= asks + 1 ? (int)count : -1;
}

static struct scard_turn asked_for_r_block(unsigned times)
{
    static struct scard_card_session card;
    struct scard_setup setup = wired_setup(&wired, 1);
    memset(&line, 0, sizeof line);
    setup.line.send = sends;
    setup.line.receive = chain_receives;
    setup.line.now = NULL;
    acted = came = 0;
    asks = times;
    CHECK(scard_card_session_begin(&card, &setup, &host).status == SCARD_OK);
    return scard_card_session_serve(&card);
}

static void asked_often(void)
{
    CHECK(asked_for_r_block(6).kind == SCARD_SESSION_FAILED && acted == 1 && line.blocks == 8);
    CHECK(asked_for_r_block(SCARD_MOST_ECHOES).kind == SCARD_SESSION_ECHO && acted == 0);
}

/* A terminal may rightly send the octets of the card's answer as its next command. Without a clock the card asks for it
 * again. After a command of two blocks the numbers of both ends are the same.
 */
static void same_command(bool has_clock)
{
    static const struct scard_t1 t1 = {32, 0, 5};
    const uint8_t longer[40] = {0x00, 0xB0};
    unsigned at;
    rough.setups[0] = rough_setup(0, t1, 0);
    rough.setups[1] = rough_setup(1, t1, 0);
    rough.setups[1].line.now = has_clock ? rough_now : NULL;
    rough.die = 88172645463325252u;
    rough_reset(&host);
    acted = rough.blocks = 0;
    CHECK(scard_session_exchange(&rough.terminal, longer, sizeof longer).kind == SCARD_DONE && rough.blocks == 4);
    for (at = 0; at < 10; at++) {
        struct scard_turn turn = scard_session_exchange(&rough.terminal, command, command_count);
        CHECK(turn.kind == SCARD_DONE && memcmp(rough.answers[0], command, command_count) == 0);
    }
    CHECK(acted == 11 && rough.blocks == (has_clock ? 24 : 44));
}

int main(void)
{
    at_once();
    asked();
    right();
    goes_back();
    same_r_block(NULL, OCTET);
    same_r_block(now, OCTET);
    same_r_block(now, 0);
    same_r_block(steps, 0);
    others();
    card_hears_itself(true, 1);
    card_hears_itself(false, SCARD_MOST_ECHOES);
    asked_often();
    same_command(true);
    same_command(false);
    return verdict_of_checks("session_returns");
}
