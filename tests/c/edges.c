/* Makes each call with null and 0, and with every front of octets in a heap block of exactly that size. */
#include "check.h"

#ifndef WITHOUT_HANDLES
static void nothing_in_a_handle(void)
{
    struct scard_handle handle = SCARD_HANDLE_EMPTY;
    struct scard_block block;
    CHECK(scard_reader_feed(&handle, NULL, 0).status == SCARD_ARGUMENT);
    CHECK(scard_reader_finish(&handle).status == SCARD_ARGUMENT);
    CHECK(scard_block_reader_value(&handle, &block, NULL, 0).status == SCARD_ARGUMENT);
    CHECK(scard_terminal_transmit(&handle, NULL, 0, NULL, 0).kind == SCARD_NO_ROOM);
    CHECK(scard_terminal_received(&handle, NULL, 0, NULL, 0).kind == SCARD_NO_ROOM);
    CHECK(scard_terminal_quiet(&handle, NULL, 0).kind == SCARD_NO_ROOM);
    CHECK(scard_terminal_ask_ifs(&handle, 1, NULL, 0).kind == SCARD_NO_ROOM);
    CHECK(scard_card_received(&handle, NULL, 0, NULL, 0).kind == SCARD_NO_ROOM);
    CHECK(scard_card_reply(&handle, NULL, 0, NULL, 0).kind == SCARD_NO_ROOM);
    CHECK(scard_card_more_time(&handle, 1, NULL, 0).kind == SCARD_NO_ROOM);
    CHECK(scard_card_ask_ifs(&handle, 1, NULL, 0).kind == SCARD_NO_ROOM);
    CHECK(scard_message(&handle, NULL, 0).status == SCARD_ARGUMENT);
    scard_close(&handle);
}
#endif

static void nothing(void)
{
    struct scard_atr atr;
    struct scard_block block;
    struct scard_command command;
    struct scard_response response;
    const struct scard_tag tag = {{0x84, 0, 0}, 1};
    CHECK(scard_lrc(NULL, 0) == 0);
    CHECK(scard_least(SCARD_CODEC_BLOCK, NULL, 0) == 4);
    CHECK(scard_hex_encode(NULL, 0, NULL, 0).status == SCARD_OK);
    CHECK(scard_hex_decode(NULL, 0, NULL, 0).status == SCARD_OK);
    CHECK(scard_atr_check(NULL, 0).status == SCARD_SHORT);
    CHECK(scard_atr_decode(NULL, 0, &atr).status == SCARD_SHORT);
    CHECK(scard_block_decode(NULL, 0, 254, &block).status == SCARD_SHORT);
    CHECK(scard_block_i(0, 0, false, NULL, 0, NULL, 0).place == 4);
    CHECK(scard_block_r(0, 0, 0, NULL, 0).place == 4);
    CHECK(scard_block_s_request(0, SCARD_S_RESYNCH, NULL, 0, NULL, 0).place == 4);
    CHECK(scard_block_s_response(0, SCARD_S_RESYNCH, NULL, 0, NULL, 0).place == 4);
    CHECK(scard_block_encode(0, 0, NULL, 0, NULL, 0).place == 4);
    CHECK(scard_chain_block(NULL, 0, 0, 254, 0, NULL, 0).place == 4);
    CHECK(scard_chain_cut(NULL, 0, 254, 0, NULL, 0).place == 4);
    CHECK(scard_command_decode(NULL, 0, &command).status == SCARD_SHORT);
    CHECK(scard_response_decode(NULL, 0, &response).status == SCARD_SHORT);
    memset(&command, 0, sizeof command);
    command.shape = SCARD_CASE_1;
    CHECK(scard_command_encode(&command, NULL, 0, NULL, 0).place == 4);
    CHECK(scard_response_encode(NULL, 0, 0x90, 0, NULL, 0).place == 2);
    CHECK(scard_tlv_check(NULL, 0, 0).status == SCARD_OK);
    CHECK(scard_tlv_tidy(NULL, 0, 0, NULL, 0).status == SCARD_OK);
    CHECK(scard_tlv_parts(NULL, 0, 0, NULL, 0).status == SCARD_OK);
    CHECK(scard_tlv_first(NULL, 0, NULL, 0) == 0);
    CHECK(scard_tlv_header(&tag, 0, NULL, 0).place == 2);
    CHECK(scard_dol_entry(&tag, 0, NULL, 0).place == 2);
    CHECK(scard_dol_check(NULL, 0).status == SCARD_OK);
    CHECK(scard_dol_entries(NULL, 0, NULL, 0).status == SCARD_OK);
    CHECK(scard_dol_fill(NULL, 0, NULL, 0, NULL, 0).status == SCARD_OK);
}

static void nothing_lent(void)
{
    struct scard_lent_terminal terminal;
    struct scard_lent_card card;
    CHECK(scard_lent_terminal_begin(&terminal, NULL, 0, NULL, 0, 32, 4, 5).status == SCARD_OK);
    CHECK(scard_lent_terminal_transmit(&terminal, NULL, 0, NULL, 0, NULL, 0, NULL, 0).kind == SCARD_NO_ROOM);
    CHECK(scard_lent_terminal_received(&terminal, NULL, 0, NULL, 0, NULL, 0, NULL, 0).kind == SCARD_NO_ROOM);
    CHECK(scard_lent_terminal_quiet(&terminal, NULL, 0, NULL, 0, NULL, 0).kind == SCARD_NO_ROOM);
    CHECK(scard_lent_terminal_ask_ifs(&terminal, NULL, 0, NULL, 0, 1, NULL, 0).kind == SCARD_NO_ROOM);
    CHECK(scard_lent_terminal_answer(&terminal, NULL, 0, NULL, 0).status == SCARD_ARGUMENT);
    CHECK(scard_lent_card_begin(&card, NULL, 0, NULL, 0, 32, 4, 5).status == SCARD_OK);
    CHECK(scard_lent_card_received(&card, NULL, 0, NULL, 0, NULL, 0, NULL, 0).kind == SCARD_NO_ROOM);
    CHECK(scard_lent_card_reply(&card, NULL, 0, NULL, 0, NULL, 0, NULL, 0).kind == SCARD_NO_ROOM);
    CHECK(scard_lent_card_more_time(&card, NULL, 0, NULL, 0, 1, NULL, 0).kind == SCARD_NO_ROOM);
    CHECK(scard_lent_card_ask_ifs(&card, NULL, 0, NULL, 0, 1, NULL, 0).kind == SCARD_NO_ROOM);
    CHECK(scard_lent_card_command(&card, NULL, 0, NULL, 0).status == SCARD_ARGUMENT);
}

#ifndef WITHOUT_HANDLES
static int same(struct scard_verdict v, struct scard_verdict w)
{
    return v.status == w.status && v.reason == w.reason && (v.status == SCARD_OK || v.place == w.place);
}

/* Checks that a reader that gets a front at once says at the end what the call for whole octets says. */
static void in_pieces(const uint8_t *own, size_t count)
{
    struct scard_handle handle = SCARD_HANDLE_EMPTY;
    struct scard_block block;
    CHECK(scard_atr_reader_open(&handle).status == SCARD_OK);
    CHECK(scard_reader_feed(&handle, own, count).place <= count);
    CHECK(same(scard_reader_finish(&handle), scard_atr_check(own, count)));
    CHECK(scard_block_reader_open(&handle, 254).status == SCARD_OK);
    CHECK(scard_reader_feed(&handle, own, count).place <= count);
    CHECK(same(scard_reader_finish(&handle), scard_block_decode(own, count, 254, &block)));
    CHECK(scard_tlv_check_open(&handle, SCARD_TLV_LARGEST).status == SCARD_OK);
    CHECK(scard_reader_feed(&handle, own, count).place <= count);
    CHECK(same(scard_reader_finish(&handle), scard_tlv_check(own, count, SCARD_TLV_LARGEST)));
    CHECK(scard_receiver_open(&handle, 254, 0, 1000).status == SCARD_OK);
    CHECK(scard_reader_feed(&handle, own, count).place <= count);
    CHECK(scard_reader_finish(&handle).status <= SCARD_AT);
    scard_close(&handle);
}
#endif

/* Makes every call that reads octets on a front of them. The sanitizer checks that none reads past its end. */
static void front(const uint8_t *octets, size_t count)
{
    uint8_t *own = (uint8_t *)malloc(count);
    uint8_t *out = (uint8_t *)malloc(4 * count + 4);
    struct scard_atr atr;
    struct scard_block block;
    struct scard_command command;
    struct scard_response response;
    struct scard_part *parts = (struct scard_part *)malloc(count / 2 * sizeof *parts);
    uint8_t *filled = (uint8_t *)malloc(count / 2 * 255);
    struct scard_known known;
    struct scard_verdict v;
    if (count > 0) {
        memcpy(own, octets, count);
    }
    memset(&known, 0, sizeof known);
    known.tag.octets[0] = 0x5A;
    known.tag.count = 1;
    known.value = own;
    known.count = count;
    v = scard_tlv_parts(own, count, SCARD_TLV_LARGEST, parts, count / 2);
    CHECK(v.place <= count && v.status <= SCARD_AT);
    v = scard_dol_fill(own, count, &known, 1, filled, count / 2 * 255);
    CHECK(v.status <= SCARD_AT);
#ifndef WITHOUT_HANDLES
    in_pieces(own, count);
#endif
    v = scard_atr_decode(own, count, &atr);
    CHECK(v.place <= count && v.status <= SCARD_AT);
    v = scard_block_decode(own, count, 254, &block);
    CHECK(v.place <= count && v.status <= SCARD_AT);
    v = scard_command_decode(own, count, &command);
    CHECK(v.place <= count && v.status <= SCARD_AT);
    v = scard_response_decode(own, count, &response);
    CHECK(v.place <= count && v.status <= SCARD_AT);
    v = scard_tlv_check(own, count, SCARD_TLV_LARGEST);
    CHECK(v.place <= count && v.status <= SCARD_AT);
    v = scard_tlv_tidy(own, count, SCARD_TLV_LARGEST, out, count);
    CHECK(v.place <= count && v.status <= SCARD_AT);
    v = scard_dol_check(own, count);
    CHECK(v.place <= count && v.status <= SCARD_AT);
    v = scard_hex_decode((const char *)own, count, out, count / 2);
    CHECK(v.place <= count && v.status <= SCARD_AT);
    v = scard_hex_encode(own, count, (char *)out, 2 * count);
    CHECK(v.status == SCARD_OK && v.place == 2 * count);
    v = scard_chain_cut(own, count, 3, 0, out, 4 * count + 4);
    CHECK(v.status == SCARD_OK && v.place == count + 4 * (count == 0 ? 1 : (count + 2) / 3));
    v = scard_chain_cut(own, count, 3, 0, out, v.place - 1);
    CHECK(v.status == SCARD_ARGUMENT);
    free(own);
    free(out);
    free(parts);
    free(filled);
}

int main(void)
{
    static const char *const samples[] = {
        "3B8F8001804F0CA000000306030001000000006AFF",     "00000500A4040000A5", "00A4040007A000000004101000",
        "6F108407A0000000041010A505BF0C0250009F02065F2A", "00D6000000000201020000", "3030413461345B"};
    size_t sample, count;
    nothing();
#ifndef WITHOUT_HANDLES
    nothing_in_a_handle();
#endif
    nothing_lent();
    for (sample = 0; sample < sizeof samples / sizeof samples[0]; sample++) {
        struct octets octets = of_hex(samples[sample]);
        for (count = 0; count <= octets.count; count++) {
            front(octets.at, count);
        }
        free(octets.at);
    }
    return verdict_of_checks("edges");
}
