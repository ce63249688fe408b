/* A recorded session of both ends through the header, and the refusals of the ends. */
#include "check.h"

static struct scard_handle terminal = SCARD_HANDLE_EMPTY;
static struct scard_handle card = SCARD_HANDLE_EMPTY;
static uint8_t block[SCARD_BLOCK_ROOM];

/* The calls of an end that take octets and may return a block. */
typedef struct scard_turn call(struct scard_handle *, const uint8_t *, size_t, uint8_t *, size_t);

/* Makes one of these calls with the octets of a text. The block goes to `block`. */
static struct scard_turn given(call *make, struct scard_handle *handle, const char *text)
{
    struct octets octets = of_hex(text);
    struct scard_turn turn = make(handle, octets.at, octets.count, block, sizeof block);
    free(octets.at);
    return turn;
}

static struct scard_turn to_terminal(const char *text)
{
    return given(scard_terminal_received, &terminal, text);
}

static struct scard_turn to_card(const char *text)
{
    return given(scard_card_received, &card, text);
}

static struct scard_turn transmit(const char *text)
{
    return given(scard_terminal_transmit, &terminal, text);
}

static struct scard_turn reply(const char *text)
{
    return given(scard_card_reply, &card, text);
}

static int sends(struct scard_turn turn, const char *text)
{
    return turn.kind == SCARD_SEND && is_hex(block, turn.count, text);
}

static int holds(struct scard_handle *handle, const char *text)
{
    uint8_t message[16];
    struct scard_verdict v = scard_message(handle, message, sizeof message);
    return v.status == SCARD_OK && is_hex(message, v.place, text);
}

static void opens(void)
{
    CHECK(scard_terminal_open(&terminal, 32, 4, 5).status == SCARD_OK);
    CHECK(scard_card_open(&card, 32, 4, 5).status == SCARD_OK);
}

/* One block is damaged, and one is lost. */
static void disturbed(void)
{
    opens();
    CHECK(sends(transmit("00A4040000"), "00000500A4040000A5"));
    CHECK(sends(to_card("00000500A4040000A4"), "00810081"));
    CHECK(sends(to_terminal("00810081"), "00000500A4040000A5"));
    CHECK(to_card("00000500A4040000A5").kind == SCARD_DONE);
    CHECK(holds(&card, "00A4040000"));
    CHECK(sends(reply("9000"), "000002900092"));
    CHECK(sends(scard_terminal_quiet(&terminal, block, sizeof block), "00800080"));
    CHECK(sends(to_card("00800080"), "000002900092"));
    CHECK(to_terminal("000002900092").kind == SCARD_DONE);
    CHECK(holds(&terminal, "9000"));
}

/* The card asks for more time. Then comes a chained answer under a new field size. */
static void longer(void)
{
    opens();
    CHECK(sends(transmit("00A4040000"), "00000500A4040000A5"));
    CHECK(to_card("00000500A4040000A5").kind == SCARD_DONE);
    CHECK(sends(scard_card_more_time(&card, 1, block, sizeof block), "00C30101C3"));
    CHECK(sends(to_terminal("00C30101C3"), "00E30101E3"));
    CHECK(to_card("00E30101E3").kind == SCARD_DONE);
    CHECK(sends(reply("9000"), "000002900092"));
    CHECK(to_terminal("000002900092").kind == SCARD_DONE);
    opens();
    CHECK(sends(scard_terminal_ask_ifs(&terminal, 2, block, sizeof block), "00C10102C2"));
    CHECK(sends(to_card("00C10102C2"), "00E10102E2"));
    CHECK(to_terminal("00E10102E2").kind == SCARD_IFS_SET);
    CHECK(sends(transmit("00B0000002"), "00000500B0000002B7"));
    CHECK(to_card("00000500B0000002B7").kind == SCARD_DONE);
    CHECK(sends(reply("AABB9000"), "002002AABB33"));
    CHECK(sends(to_terminal("002002AABB33"), "00900090"));
    CHECK(sends(to_card("00900090"), "0040029000D2"));
    CHECK(to_terminal("0040029000D2").kind == SCARD_DONE && holds(&terminal, "AABB9000"));
}

/* Every block is lost. */
static void lost(void)
{
    int turn;
    opens();
    CHECK(sends(transmit("00A4040000"), "00000500A4040000A5"));
    for (turn = 0; turn < 3; turn++) {
        CHECK(sends(scard_terminal_quiet(&terminal, block, sizeof block), "00800080"));
    }
    for (turn = 0; turn < 3; turn++) {
        CHECK(sends(scard_terminal_quiet(&terminal, block, sizeof block), "00C000C0"));
    }
    CHECK(scard_terminal_quiet(&terminal, block, sizeof block).kind == SCARD_DEAD);
    CHECK(transmit("00A4040000").kind == SCARD_REFUSED_DEAD);
}

static void refusals(void)
{
    uint8_t *many = (uint8_t *)calloc(65545, 1);
    CHECK(many != NULL);
    opens();
    CHECK(to_terminal("00800080").kind == SCARD_REFUSED_IDLE);
    CHECK(scard_terminal_quiet(&terminal, block, sizeof block).kind == SCARD_REFUSED_IDLE);
    CHECK(scard_terminal_ask_ifs(&terminal, 255, block, sizeof block).kind == SCARD_REFUSED_RESERVED);
    CHECK(scard_terminal_transmit(&terminal, many, 65545, block, sizeof block).kind == SCARD_REFUSED_TOO_LONG);
    CHECK(scard_message(&terminal, block, sizeof block).status == SCARD_ARGUMENT);
    CHECK(transmit("00A4040000").kind == SCARD_SEND && transmit("00A4040000").kind == SCARD_REFUSED_BUSY);
    CHECK(reply("9000").kind == SCARD_REFUSED_ORDER);
    CHECK(to_card("00000500A4040000A5").kind == SCARD_DONE);
    CHECK(to_card("00800080").kind == SCARD_REFUSED_ORDER);
    CHECK(scard_card_reply(&card, many, 65539, block, sizeof block).kind == SCARD_REFUSED_TOO_LONG);
    CHECK(scard_card_ask_ifs(&card, 0, block, sizeof block).kind == SCARD_REFUSED_RESERVED);
    CHECK(scard_terminal_quiet(&card, block, sizeof block).kind == SCARD_NO_END);
    CHECK(scard_card_more_time(&terminal, 1, block, sizeof block).kind == SCARD_NO_END);
    CHECK(scard_terminal_quiet(&terminal, block, 257).kind == SCARD_NO_ROOM);
    CHECK(scard_message(&card, NULL, 0).place == 5 && holds(&card, "00A4040000"));
    CHECK(scard_terminal_open(&terminal, 0, 4, 5).status == SCARD_ARGUMENT);
    CHECK(scard_card_open(&card, 255, 4, 5).status == SCARD_ARGUMENT);
    CHECK(scard_card_open(&card, 32, 16, 5).status == SCARD_ARGUMENT && holds(&card, "00A4040000"));
    free(many);
    scard_close(&terminal);
    CHECK(!terminal.is_full && scard_terminal_quiet(&terminal, block, sizeof block).kind == SCARD_NO_END);
    scard_close(&terminal);
}

int main(void)
{
    disturbed();
    longer();
    lost();
    refusals();
    scard_close(&card);
    return verdict_of_checks("session");
}
