/* Readers that get their octets in pieces. */
#include "check.h"

/* Feeds octets in pieces of this length, each in a separate block, until they end or are refused. */
static struct scard_verdict feed(struct scard_handle *handle, struct octets octets, size_t piece, size_t *taken)
{
    struct scard_verdict v = {SCARD_MORE, 0, 0};
    *taken = 0;
    while (v.status == SCARD_MORE && *taken < octets.count) {
        size_t left = octets.count - *taken, count = left < piece ? left : piece;
        uint8_t *own = (uint8_t *)malloc(count);
        memcpy(own, octets.at + *taken, count);
        v = scard_reader_feed(handle, own, count);
        *taken += v.status == SCARD_OK || v.status == SCARD_MORE ? v.place : 0;
        free(own);
    }
    return v;
}

static void atrs(void)
{
    struct octets good = of_hex("3B8F8001804F0CA000000306030001000000006AFF"), bad = of_hex("3B808131204554");
    struct scard_handle handle = SCARD_HANDLE_EMPTY;
    struct scard_atr atr, whole;
    size_t piece, taken;
    CHECK(scard_atr_decode(good.at, good.count, &whole).status == SCARD_OK);
    for (piece = 1; piece <= good.count; piece++) {
        struct scard_verdict v;
        CHECK(scard_atr_reader_open(&handle).status == SCARD_OK);
        CHECK(strcmp(line_of(scard_reader_finish(&handle), 1), "short at 0") == 0);
        CHECK(scard_atr_reader_value(&handle, &atr).status == SCARD_ARGUMENT);
        v = feed(&handle, good, piece, &taken);
        CHECK(v.status == SCARD_OK && taken == 20);
        CHECK(scard_reader_finish(&handle).status == SCARD_OK);
        memset(&atr, 0, sizeof atr);
        CHECK(scard_atr_reader_value(&handle, &atr).status == SCARD_OK && atr.indicated_count == 2);
        CHECK(memcmp(&atr.indicated, &whole.indicated, 14) == 0 && atr.has_tck == 1 && atr.tck == 0x6A);
        v = scard_reader_feed(&handle, good.at, 1);
        CHECK(v.status == SCARD_OK && v.place == 0);
        CHECK(scard_atr_reader_open(&handle).status == SCARD_OK);
        v = feed(&handle, bad, piece, &taken);
        CHECK(strcmp(line_of(v, SCARD_CODEC_ATR), "refused at 6: BadTck") == 0);
        CHECK(strcmp(line_of(scard_reader_feed(&handle, NULL, 0), 1), "refused at 6: BadTck") == 0);
        CHECK(strcmp(line_of(scard_reader_finish(&handle), 1), "refused at 6: BadTck") == 0);
        CHECK(scard_atr_reader_value(&handle, &atr).status == SCARD_ARGUMENT);
    }
    scard_close(&handle);
    free(good.at);
    free(bad.at);
}

static void blocks(void)
{
    struct octets good = of_hex("00000500A4040000A500"), bad = of_hex("00C101FF");
    struct scard_handle handle = SCARD_HANDLE_EMPTY;
    struct scard_block block;
    uint8_t out[SCARD_BLOCK_ROOM];
    size_t piece, taken;
    CHECK(scard_block_reader_open(&handle, 0).status == SCARD_ARGUMENT);
    CHECK(scard_block_reader_open(&handle, 255).status == SCARD_ARGUMENT);
    for (piece = 1; piece <= good.count; piece++) {
        struct scard_verdict v;
        CHECK(scard_block_reader_open(&handle, 5).status == SCARD_OK);
        CHECK(scard_block_reader_value(&handle, &block, out, sizeof out).status == SCARD_ARGUMENT);
        v = feed(&handle, good, piece, &taken);
        CHECK(v.status == SCARD_OK && taken == 9);
        memset(&block, 0x55, sizeof block);
        v = scard_block_reader_value(&handle, &block, out, 8);
        CHECK(strcmp(line_of(v, 2), "argument 9") == 0 && block.nad == 0x55);
        v = scard_block_reader_value(&handle, &block, out, 9);
        CHECK(v.status == SCARD_OK && is_hex(out, v.place, "00000500A4040000A5"));
        CHECK(block.nad == 0 && block.pcb == 0 && block.inf_place == 3 && block.inf_len == 5);
        CHECK(scard_block_reader_open(&handle, 4).status == SCARD_OK);
        v = feed(&handle, good, piece, &taken);
        CHECK(strcmp(line_of(v, SCARD_CODEC_BLOCK), "refused at 2: OverIfs") == 0);
        CHECK(scard_block_reader_open(&handle, 4).status == SCARD_OK);
        v = feed(&handle, bad, piece, &taken);
        CHECK(strcmp(line_of(v, SCARD_CODEC_BLOCK), "refused at 3: BadIfs") == 0);
    }
    scard_close(&handle);
    free(good.at);
    free(bad.at);
}

static void chains(void)
{
    struct octets chain = of_hex("00200200A4860060020400660000010001FF"), wrong = of_hex("00400040");
    struct scard_handle handle = SCARD_HANDLE_EMPTY;
    uint8_t message[5];
    size_t piece, taken;
    CHECK(scard_receiver_open(&handle, 2, 2, 5).status == SCARD_ARGUMENT);
    CHECK(scard_receiver_open(&handle, 255, 0, 5).status == SCARD_ARGUMENT);
    CHECK(scard_receiver_open(&handle, 2, 0, 131073).status == SCARD_ARGUMENT);
    for (piece = 1; piece <= chain.count; piece++) {
        struct scard_verdict v;
        CHECK(scard_receiver_open(&handle, 2, 0, 5).status == SCARD_OK);
        CHECK(strcmp(line_of(scard_message(&handle, message, 5), 3), "argument 0") == 0);
        v = feed(&handle, chain, piece, &taken);
        CHECK(v.status == SCARD_OK && taken == 17);
        CHECK(strcmp(line_of(scard_message(&handle, message, 4), 3), "argument 5") == 0);
        v = scard_message(&handle, message, 5);
        CHECK(v.status == SCARD_OK && is_hex(message, v.place, "00A4040000"));
        CHECK(scard_receiver_open(&handle, 2, 0, 4).status == SCARD_OK);
        v = feed(&handle, chain, piece, &taken);
        CHECK(strcmp(line_of(v, SCARD_CODEC_CHAIN), "refused at 14: TooLong") == 0);
        CHECK(scard_receiver_open(&handle, 2, 0, 0).status == SCARD_OK);
        v = feed(&handle, wrong, piece, &taken);
        CHECK(strcmp(line_of(v, SCARD_CODEC_CHAIN), "refused at 1: BadSequence") == 0);
        CHECK(scard_message(&handle, message, 5).status == SCARD_ARGUMENT);
    }
    scard_close(&handle);
    free(chain.at);
    free(wrong.at);
}

static void forests(void)
{
    struct octets good = of_hex("6F108407A0000000041010A505BF0C025000"), bad = of_hex("70035A0201");
    struct scard_handle handle = SCARD_HANDLE_EMPTY;
    size_t piece, taken;
    CHECK(scard_tlv_check_open(&handle, SCARD_TLV_LARGEST + 1).status == SCARD_ARGUMENT);
    for (piece = 1; piece <= good.count; piece++) {
        struct scard_verdict v;
        CHECK(scard_tlv_check_open(&handle, 18).status == SCARD_OK);
        CHECK(scard_reader_finish(&handle).status == SCARD_OK);
        v = feed(&handle, good, piece, &taken);
        CHECK(v.status == SCARD_MORE && taken == 18);
        CHECK(scard_reader_finish(&handle).status == SCARD_OK);
        CHECK(scard_tlv_check_open(&handle, 17).status == SCARD_OK);
        v = feed(&handle, good, piece, &taken);
        CHECK(strcmp(line_of(v, SCARD_CODEC_TLV), "refused at 1: TooLong") == 0);
        CHECK(scard_tlv_check_open(&handle, 18).status == SCARD_OK);
        v = feed(&handle, bad, piece, &taken);
        CHECK(strcmp(line_of(v, SCARD_CODEC_TLV), "refused at 3: Overrun") == 0);
        CHECK(scard_tlv_check_open(&handle, 18).status == SCARD_OK);
        CHECK(scard_reader_feed(&handle, good.at, 7).status == SCARD_MORE);
        CHECK(strcmp(line_of(scard_reader_finish(&handle), 6), "short at 7") == 0);
    }
    scard_close(&handle);
    free(good.at);
    free(bad.at);
}

/* A handle that is empty, or has an end or another reader: the calls report it, and leave the handle. */
static void strangers(void)
{
    struct scard_handle handle = SCARD_HANDLE_EMPTY;
    struct scard_block block;
    struct scard_atr atr;
    uint8_t out[SCARD_BLOCK_ROOM];
    CHECK(scard_reader_feed(&handle, NULL, 0).status == SCARD_ARGUMENT);
    CHECK(scard_reader_finish(&handle).status == SCARD_ARGUMENT);
    CHECK(scard_atr_reader_value(&handle, &atr).status == SCARD_ARGUMENT);
    CHECK(scard_block_reader_value(&handle, &block, NULL, 0).status == SCARD_ARGUMENT);
    CHECK(scard_terminal_open(&handle, 32, 4, 13).status == SCARD_OK);
    CHECK(scard_reader_feed(&handle, NULL, 0).status == SCARD_ARGUMENT);
    CHECK(scard_reader_finish(&handle).status == SCARD_ARGUMENT);
    CHECK(scard_terminal_transmit(&handle, NULL, 0, out, sizeof out).kind == SCARD_SEND);
    CHECK(scard_block_reader_open(&handle, 254).status == SCARD_OK);
    CHECK(scard_terminal_quiet(&handle, out, sizeof out).kind == SCARD_NO_END);
    CHECK(scard_card_reply(&handle, NULL, 0, out, sizeof out).kind == SCARD_NO_END);
    CHECK(scard_atr_reader_value(&handle, &atr).status == SCARD_ARGUMENT);
    CHECK(scard_message(&handle, out, sizeof out).status == SCARD_ARGUMENT);
    CHECK(scard_reader_feed(&handle, NULL, 0).status == SCARD_MORE);
    CHECK(strcmp(line_of(scard_reader_finish(&handle), 2), "short at 0") == 0);
    scard_close(&handle);
    CHECK(scard_reader_finish(&handle).status == SCARD_ARGUMENT);
}

int main(void)
{
    atrs();
    blocks();
    chains();
    forests();
    strangers();
    return verdict_of_checks("readers");
}
