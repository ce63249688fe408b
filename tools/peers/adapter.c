/* Our side of a comparison, over scard.h. */
#include "adapter.h"

#include "scard.h"

#include <stdlib.h>
#include <string.h>

enum { BWI = 4, CWI = 5, BACK = 300, LONGEST = 65544 };

/* ---- the codecs ---- */

int ours_atr(const uint8_t *octets, size_t count)
{
    return scard_atr_check(octets, count).status == SCARD_OK;
}

int ours_block_decode(const uint8_t *octets, size_t count, uint8_t ifs)
{
    struct scard_block block;
    return scard_block_decode(octets, count, ifs, &block).status == SCARD_OK;
}

size_t ours_block_encode(uint8_t nad, int number, int more, const uint8_t *inf, size_t count, uint8_t *out)
{
    return scard_block_i(nad, (uint8_t)number, more != 0, inf, count, out, SCARD_BLOCK_ROOM).place;
}

int ours_command_ref(const uint8_t *octets, size_t count)
{
    struct scard_command command;
    return scard_command_decode(octets, count, &command).status == SCARD_OK;
}

int ours_command(const uint8_t *octets, size_t count)
{
    struct scard_command command;
    uint8_t *field;
    if (scard_command_decode(octets, count, &command).status != SCARD_OK) {
        return 0;
    }
    field = malloc(command.data_len + 1);
    if (field == NULL) {
        return 0;
    }
    memcpy(field, octets + command.data_place, command.data_len);
    free(field);
    return 1;
}

int ours_forest_check(const uint8_t *octets, size_t count)
{
    return scard_tlv_check(octets, count, SCARD_TLV_LARGEST).status == SCARD_OK;
}

long ours_forest_flat(const uint8_t *octets, size_t count)
{
    static struct scard_part parts[LONGEST / 2];
    struct scard_verdict v = scard_tlv_parts(octets, count, SCARD_TLV_LARGEST, parts, LONGEST / 2);
    return v.status == SCARD_OK ? (long)v.place : -1;
}

long ours_forest(const uint8_t *octets, size_t count)
{
    (void)octets;
    (void)count;
    return -1;
}

uint8_t ours_lrc(const uint8_t *octets, size_t count)
{
    return scard_lrc(octets, count);
}

/* ---- our terminal on a line of the harness ---- */

static struct scard_handle terminal = SCARD_HANDLE_EMPTY;
static struct link *line;

static void start(struct link *link, uint8_t ifsc)
{
    line = link;
    if (scard_terminal_open(&terminal, ifsc, BWI, CWI).status != SCARD_OK) {
        abort();
    }
}

/* Exchanges blocks until the terminal is done. Returns 0, or the code of the harness for a failure. */
static int carry(struct scard_turn turn, uint8_t *block)
{
    uint8_t back[BACK];
    size_t count;
    while (turn.kind == SCARD_SEND) {
        link_exchange(line, block, turn.count, back, &count);
        turn = count > 0 ? scard_terminal_received(&terminal, back, count, block, SCARD_BLOCK_ROOM)
                         : scard_terminal_quiet(&terminal, block, SCARD_BLOCK_ROOM);
    }
    if (turn.kind == SCARD_DONE || turn.kind == SCARD_IFS_SET) {
        return 0;
    }
    return turn.kind == SCARD_GIVEN_UP ? -1 : -2;
}

static long transmit(const uint8_t *command, size_t count, uint8_t *answer, size_t room)
{
    uint8_t block[SCARD_BLOCK_ROOM];
    int failed = carry(scard_terminal_transmit(&terminal, command, count, block, sizeof block), block);
    struct scard_verdict v;
    if (failed) {
        return failed;
    }
    v = scard_message(&terminal, answer, room);
    return v.status == SCARD_OK ? (long)v.place : -2;
}

static int ask_ifs(uint8_t size)
{
    uint8_t block[SCARD_BLOCK_ROOM];
    return carry(scard_terminal_ask_ifs(&terminal, size, block, sizeof block), block);
}

struct terminal ours = {"scard", start, transmit, ask_ifs};

/* ---- both of our ends ---- */

/* Passes one block to the card, and returns the length of its answer. The host replies at once. */
static size_t served(struct scard_handle *card, const uint8_t *sent, size_t count, const uint8_t *reply,
                     size_t reply_count, uint8_t *back)
{
    struct scard_turn turn = scard_card_received(card, sent, count, back, SCARD_BLOCK_ROOM);
    if (turn.kind == SCARD_DONE) {
        turn = scard_card_reply(card, reply, reply_count, back, SCARD_BLOCK_ROOM);
    }
    return turn.kind == SCARD_SEND ? turn.count : 0;
}

size_t ours_exchange_both(uint8_t size, const uint8_t *command, size_t count, const uint8_t *reply, size_t reply_count)
{
    static struct scard_handle both = SCARD_HANDLE_EMPTY, card = SCARD_HANDLE_EMPTY;
    static uint8_t answer[LONGEST];
    uint8_t sent[SCARD_BLOCK_ROOM], back[SCARD_BLOCK_ROOM];
    struct scard_turn turn;
    struct scard_verdict v;
    size_t blocks = 0, back_count;
    if (scard_terminal_open(&both, size, BWI, CWI).status != SCARD_OK
        || scard_card_open(&card, size, BWI, CWI).status != SCARD_OK) {
        return 0;
    }
    turn = scard_terminal_ask_ifs(&both, size, sent, sizeof sent);
    while (turn.kind == SCARD_SEND) {
        back_count = served(&card, sent, turn.count, reply, reply_count, back);
        blocks += 2;
        turn = scard_terminal_received(&both, back, back_count, sent, sizeof sent);
        if (turn.kind == SCARD_IFS_SET) {
            turn = scard_terminal_transmit(&both, command, count, sent, sizeof sent);
        }
    }
    v = scard_message(&both, answer, sizeof answer);
    return v.status == SCARD_OK && v.place == reply_count && memcmp(answer, reply, reply_count) == 0 ? blocks : 0;
}
