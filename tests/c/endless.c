/* Input without an end: each reader stops at its limit, and says so again for all that follows. */
#include "check.h"

/* Two empty blocks, with the numbers 0 and 1, after each of which more follow. */
static const uint8_t BLOCKS[] = {0x00, 0x20, 0x00, 0x20, 0x00, 0x60, 0x00, 0x60};

enum { TURNS = 1000, FILLERS = 65536, PIECE = 100 };

static int is_at(struct scard_verdict v, size_t place, uint8_t reason)
{
    return v.status == SCARD_AT && v.place == place && v.reason == reason;
}

static int is(struct scard_verdict v, uint8_t status, size_t place)
{
    return v.status == status && v.place == place;
}

/* A chain of empty blocks is refused at the first octet of the block after the last one that may come. The receiver has
 * no room for a message.
 */
static void chain(void)
{
    struct scard_lent_receiver state;
    struct scard_verdict v = scard_lent_receiver_begin(&state, 254, 0, 0);
    size_t fed;
    for (fed = 0; v.status != SCARD_AT && fed < 2 * 524285; fed += sizeof BLOCKS) {
        v = scard_lent_receiver_feed(&state, NULL, 0, BLOCKS, sizeof BLOCKS);
    }
    CHECK(is_at(v, 524285, SCARD_CHAIN_TOO_MANY_BLOCKS) && fed == 524288);
    CHECK(is_at(scard_lent_receiver_feed(&state, NULL, 0, BLOCKS, 1), 524285, SCARD_CHAIN_TOO_MANY_BLOCKS));
    CHECK(is_at(scard_lent_receiver_finish(&state, NULL, 0), 524285, SCARD_CHAIN_TOO_MANY_BLOCKS));
}

/* Fillers are refused at the octet after the last one that may come. */
static void forest(void)
{
    static const uint8_t piece[PIECE] = {0};
    struct scard_lent_check state;
    size_t turn;
    CHECK(scard_lent_check_begin(&state, FILLERS).status == SCARD_OK);
    for (turn = 0; turn < TURNS; turn++) {
        struct scard_verdict v = scard_lent_check_feed(&state, piece, sizeof piece);
        CHECK(turn < FILLERS / PIECE ? is(v, SCARD_MORE, PIECE) : is_at(v, FILLERS, SCARD_TLV_TOO_LONG));
    }
    CHECK(is_at(scard_lent_check_finish(&state), FILLERS, SCARD_TLV_TOO_LONG));
}

/* An answer to reset and a block end by themselves, and the readers take nothing after them. */
static void fixed(void)
{
    static const uint8_t octets[] = {0x3B, 0x0F, 0x00};
    struct scard_lent_atr_reader atr;
    struct scard_lent_block_reader block;
    size_t turn, taken = 0;
    scard_lent_atr_reader_begin(&atr);
    CHECK(scard_lent_block_reader_begin(&block, 254).status == SCARD_OK);
    for (turn = 0; turn < TURNS; turn++) {
        struct scard_verdict v = scard_lent_atr_reader_feed(&atr, octets, sizeof octets);
        CHECK(v.status == (taken + sizeof octets < 17 ? SCARD_MORE : SCARD_OK));
        taken += v.place;
        CHECK(is(scard_lent_block_reader_feed(&block, BLOCKS, sizeof BLOCKS), SCARD_OK, turn == 0 ? 4 : 0));
    }
    CHECK(taken == 17 && atr.count == 17 && block.count == 4);
    CHECK(scard_lent_atr_reader_finish(&atr).status == SCARD_OK);
    CHECK(scard_lent_block_reader_finish(&block).status == SCARD_OK);
}

int main(void)
{
    chain();
    forest();
    fixed();
    return verdict_of_checks("endless");
}
