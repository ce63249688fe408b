/* A session of both ends without an allocator, small buffers, and states that other code wrote to. */
#include "check.h"

static struct scard_lent_terminal terminal;
static struct scard_lent_card card;
static uint8_t commands[2][16], answers[2][16]; /* the terminal's, and the card's */
static uint8_t block[SCARD_BLOCK_ROOM];

static void begins(size_t room)
{
    CHECK(scard_lent_terminal_begin(&terminal, commands[0], room, answers[0], room, 32, 4, 5).status == SCARD_OK);
    CHECK(scard_lent_card_begin(&card, commands[1], room, answers[1], room, 32, 4, 5).status == SCARD_OK);
}

/* The calls of an end that take octets. */
typedef struct scard_turn terminal_call(struct scard_lent_terminal *, uint8_t *, size_t, uint8_t *, size_t,
                                        const uint8_t *, size_t, uint8_t *, size_t);
typedef struct scard_turn card_call(struct scard_lent_card *, uint8_t *, size_t, uint8_t *, size_t,
                                    const uint8_t *, size_t, uint8_t *, size_t);

/* Makes one of these calls with the octets of a text. The block goes to `block`. */
static struct scard_turn given(terminal_call *of_terminal, card_call *of_card, const char *text, size_t room)
{
    struct octets octets = of_hex(text);
    struct scard_turn turn = of_terminal != NULL
        ? of_terminal(&terminal, commands[0], room, answers[0], room, octets.at, octets.count, block, sizeof block)
        : of_card(&card, commands[1], room, answers[1], room, octets.at, octets.count, block, sizeof block);
    free(octets.at);
    return turn;
}

static struct scard_turn transmit(const char *text, size_t room)
{
    return given(scard_lent_terminal_transmit, NULL, text, room);
}

static struct scard_turn to_terminal(const char *text, size_t room)
{
    return given(scard_lent_terminal_received, NULL, text, room);
}

static struct scard_turn to_card(const char *text, size_t room)
{
    return given(NULL, scard_lent_card_received, text, room);
}

static struct scard_turn reply(const char *text, size_t room)
{
    return given(NULL, scard_lent_card_reply, text, room);
}

static struct scard_turn quiet(size_t room)
{
    return scard_lent_terminal_quiet(&terminal, commands[0], room, answers[0], room, block, sizeof block);
}

static int sends(struct scard_turn turn, const char *text)
{
    return turn.kind == SCARD_SEND && is_hex(block, turn.count, text);
}

static int answered(const char *text, size_t room)
{
    struct scard_verdict v = scard_lent_terminal_answer(&terminal, commands[0], room, answers[0], room);
    return v.status == SCARD_OK && is_hex(answers[0], v.place, text);
}

static int asked(const char *text, size_t room)
{
    struct scard_verdict v = scard_lent_card_command(&card, commands[1], room, answers[1], room);
    return v.status == SCARD_OK && is_hex(commands[1], v.place, text);
}

/* One block is damaged, one is lost, and the card asks for time. */
static void disturbed(void)
{
    begins(16);
    CHECK(sends(transmit("00A4040000", 16), "00000500A4040000A5"));
    CHECK(sends(to_card("00000500A4040000A4", 16), "00810081"));
    CHECK(sends(to_terminal("00810081", 16), "00000500A4040000A5"));
    CHECK(to_card("00000500A4040000A5", 16).kind == SCARD_DONE && asked("00A4040000", 16));
    CHECK(sends(scard_lent_card_more_time(&card, commands[1], 16, answers[1], 16, 1, block, sizeof block),
                "00C30101C3"));
    CHECK(sends(to_terminal("00C30101C3", 16), "00E30101E3"));
    CHECK(to_card("00E30101E3", 16).kind == SCARD_DONE && asked("00A4040000", 16));
    CHECK(sends(reply("9000", 16), "000002900092") && !asked("00A4040000", 16));
    CHECK(sends(quiet(16), "00800080"));
    CHECK(sends(to_card("00800080", 16), "000002900092"));
    CHECK(!answered("9000", 16));
    CHECK(to_terminal("000002900092", 16).kind == SCARD_DONE && answered("9000", 16));
}

/* The answer has two blocks under a new field size. */
static void chained(void)
{
    begins(16);
    CHECK(sends(scard_lent_terminal_ask_ifs(&terminal, commands[0], 16, answers[0], 16, 2, block, sizeof block),
                "00C10102C2"));
    CHECK(sends(to_card("00C10102C2", 16), "00E10102E2"));
    CHECK(to_terminal("00E10102E2", 16).kind == SCARD_IFS_SET);
    CHECK(sends(transmit("00B0000002", 16), "00000500B0000002B7"));
    CHECK(to_card("00000500B0000002B7", 16).kind == SCARD_DONE);
    CHECK(sends(reply("AABB9000", 16), "002002AABB33"));
    CHECK(sends(to_terminal("002002AABB33", 16), "00900090"));
    CHECK(sends(to_card("00900090", 16), "0040029000D2"));
    CHECK(to_terminal("0040029000D2", 16).kind == SCARD_DONE && answered("AABB9000", 16));
}

/* Messages that just fit into the buffers, and longer ones. Then a card that doesn't answer any more. */
static void small(void)
{
    int turn;
    begins(5);
    CHECK(transmit("00A404000000", 5).kind == SCARD_REFUSED_TOO_LONG);
    CHECK(sends(transmit("00A4040000", 5), "00000500A4040000A5"));
    CHECK(transmit("00A4040000", 5).kind == SCARD_REFUSED_BUSY);
    CHECK(to_card("00000500A4040000A5", 5).kind == SCARD_DONE);
    CHECK(to_card("00800080", 5).kind == SCARD_REFUSED_ORDER);
    CHECK(reply("000102030405", 5).kind == SCARD_REFUSED_TOO_LONG);
    CHECK(sends(reply("AABBCC9000", 5), "000005AABBCC900048"));
    CHECK(to_terminal("000005AABBCC900048", 5).kind == SCARD_DONE && answered("AABBCC9000", 5));
    CHECK(transmit("", 5).kind == SCARD_SEND);
    for (turn = 0; turn < 6; turn++) {
        CHECK(quiet(5).kind == SCARD_SEND);
    }
    CHECK(quiet(5).kind == SCARD_DEAD && transmit("", 5).kind == SCARD_REFUSED_DEAD);
    begins(5);
    CHECK(transmit("", 5).kind == SCARD_SEND);
    CHECK(answers[0][0] == 0 && commands[1][0] == 0);
}

/* An answer stays while the card is asked for a size, and the question is given up. */
static void asked_in_vain(void)
{
    int turn;
    begins(16);
    CHECK(sends(transmit("00A4040000", 16), "00000500A4040000A5"));
    CHECK(to_terminal("000002900092", 16).kind == SCARD_DONE);
    CHECK(sends(scard_lent_terminal_ask_ifs(&terminal, commands[0], 16, answers[0], 16, 32, block, sizeof block),
                "00C10120E0"));
    for (turn = 0; turn < 3; turn++) {
        CHECK(sends(quiet(16), "00C10120E0"));
    }
    CHECK(sends(quiet(16), "00C000C0"));
    CHECK(to_terminal("00E000E0", 16).kind == SCARD_GIVEN_UP && answered("9000", 16));
}

/* A command and an answer with one octet more than there is room for. Both ends take their blocks for errors. */
static void too_long(void)
{
    int turn;
    begins(4);
    CHECK(sends(to_card("00000500A4040000A5", 4), "00820082"));
    CHECK(to_card("00000400A40400A4", 4).kind == SCARD_DONE && asked("00A40400", 4));
    CHECK(sends(transmit("00A40400", 4), "00000400A40400A4"));
    CHECK(sends(to_terminal("000005AABBCC900048", 4), "00820082"));
    CHECK(sends(to_terminal("002002AABB33", 4), "00900090"));
    for (turn = 0; turn < 3; turn++) {
        CHECK(sends(to_terminal("004003CC90001F", 4), "00920092"));
    }
    CHECK(sends(to_terminal("004003CC90001F", 4), "00C000C0"));
    CHECK(to_terminal("00E000E0", 4).kind == SCARD_GIVEN_UP && !answered("AABB", 4));
}

/* Invalid arguments, and buffers of other sizes. */
static void refused(void)
{
    begins(16);
    CHECK(scard_lent_terminal_begin(&terminal, NULL, 0, NULL, 0, 0, 4, 5).status == SCARD_ARGUMENT);
    CHECK(scard_lent_card_begin(&card, NULL, 0, NULL, 0, 32, 16, 5).status == SCARD_ARGUMENT);
    CHECK(sends(transmit("00A4040000", 16), "00000500A4040000A5"));
    CHECK(to_card("00000500A4040000A5", 16).kind == SCARD_DONE);
    CHECK(quiet(15).kind == SCARD_NO_END && reply("9000", 15).kind == SCARD_NO_END);
    CHECK(!asked("00A4040000", 15));
    CHECK(scard_lent_card_ask_ifs(&card, commands[1], 16, answers[1], 16, 255, block, sizeof block).kind
          == SCARD_REFUSED_RESERVED);
    CHECK(scard_lent_card_ask_ifs(&card, commands[1], 16, answers[1], 16, 4, block, 257).kind == SCARD_NO_ROOM);
    CHECK(sends(scard_lent_card_ask_ifs(&card, commands[1], 16, answers[1], 16, 4, block, sizeof block),
                "00C10104C4"));
    CHECK(scard_lent_terminal_begin(&terminal, NULL, 0, NULL, 0, 32, 4, 5).status == SCARD_OK);
    CHECK(scard_lent_terminal_transmit(&terminal, NULL, 0, NULL, 0, NULL, 0, block, sizeof block).kind == SCARD_SEND);
}

/* Returns how many octets of the card's command buffer aren't 0 from a place on. */
static int left_from(size_t place)
{
    int left = 0;
    while (place < sizeof commands[1]) {
        left += commands[1][place++] != 0;
    }
    return left;
}

/* The octets of a command are overwritten before a shorter one is joined, and when the card is resynchronized. */
static void overwritten(void)
{
    begins(16);
    CHECK(to_card("00000D0020008008241234FFFFFFFFFF58", 16).kind == SCARD_DONE && left_from(5) > 0);
    CHECK(sends(reply("9000", 16), "000002900092"));
    CHECK(to_card("00400500A4040000E5", 16).kind == SCARD_DONE && asked("00A4040000", 16));
    CHECK(left_from(5) == 0);
    CHECK(sends(reply("9000", 16), "0040029000D2"));
    CHECK(sends(to_card("00C000C0", 16), "00E000E0") && left_from(0) == 0);
}

static int refusals, unchanged; /* how many calls were refused, and how many of them left the state as it was */

static void counts(struct scard_turn turn, const void *before, const void *state, size_t size)
{
    if (turn.kind >= SCARD_REFUSED_DEAD) {
        refusals++;
        unchanged += memcmp(before, state, size) == 0;
    }
}

/* Makes calls of both ends that may be refused. The longest message doesn't fit a buffer of 16 octets. */
static void makes_calls(void)
{
    static const char long_message[] = "0001020304050607080910111213141516";
    struct scard_lent_terminal before;
    struct scard_lent_card card_before;
    memcpy(&before, &terminal, sizeof before);
    memcpy(&card_before, &card, sizeof card_before);
    counts(transmit(long_message, 16), &before, &terminal, sizeof before);
    counts(reply(long_message, 16), &card_before, &card, sizeof card_before);
    counts(quiet(16), &before, &terminal, sizeof before);
    counts(to_card("00000500A4040000A5", 16), &card_before, &card, sizeof card_before);
}

/* Makes calls that answer nothing where the octets are no end. */
static void are_ends(void)
{
    if (quiet(16).kind == SCARD_NO_END) {
        CHECK(transmit("00", 16).kind == SCARD_NO_END && to_terminal("00800080", 16).kind == SCARD_NO_END);
        CHECK(!answered("", 16));
    }
    if (to_card("00000500A4040000A5", 16).kind == SCARD_NO_END) {
        CHECK(reply("9000", 16).kind == SCARD_NO_END && !asked("", 16));
    }
}

/* Sets each octet of a state to each value. The calls are safe, and if one is refused nothing changes. */
static void spoilt(void)
{
    struct scard_lent_terminal before = terminal;
    struct scard_lent_card card_before = card;
    uint8_t *octet;
    size_t place;
    int round;
    refusals = unchanged = 0;
    for (place = 0; place < sizeof before + sizeof card_before; place++) {
        for (round = 0; round < 512; round++) {
            terminal = before;
            card = card_before;
            octet = place < sizeof before ? (uint8_t *)&terminal + place : (uint8_t *)&card + (place - sizeof before);
            *octet = (uint8_t)round;
            round < 256 ? makes_calls() : are_ends();
        }
    }
    CHECK(refusals > 60000 && unchanged == refusals);
    terminal = before;
    card = card_before;
}

int main(void)
{
    disturbed();
    chained();
    small();
    asked_in_vain();
    too_long();
    refused();
    overwritten();
    begins(16);
    spoilt();
    CHECK(transmit("00A4040000", 16).kind == SCARD_SEND);
    spoilt();
    CHECK(to_card("00000500A4040000A5", 16).kind == SCARD_DONE);
    spoilt();
    CHECK(reply("9000", 16).kind == SCARD_SEND && to_terminal("000002900092", 16).kind == SCARD_DONE);
    spoilt();
    return verdict_of_checks("lent");
}
