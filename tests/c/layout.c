/* Checks that the structs have the same sizes and offsets of fields in the header as in the library. The program reads
 * the numbers that the library writes.
 */
#include "check.h"

#define SIZE(number, type) CHECK(scard_struct_size(number) == sizeof(struct type))
#define PLACE(type, field, place) CHECK(offsetof(struct type, field) == (place))

static void sizes(void)
{
    SIZE(SCARD_STRUCT_VERDICT, scard_verdict);
    SIZE(SCARD_STRUCT_INTERFACE, scard_interface);
    SIZE(SCARD_STRUCT_INDICATED, scard_indicated);
    SIZE(SCARD_STRUCT_ATR, scard_atr);
    SIZE(SCARD_STRUCT_T1, scard_t1);
    SIZE(SCARD_STRUCT_RATES, scard_rates);
    SIZE(SCARD_STRUCT_BLOCK, scard_block);
    SIZE(SCARD_STRUCT_COMMAND, scard_command);
    SIZE(SCARD_STRUCT_RESPONSE, scard_response);
    SIZE(SCARD_STRUCT_TURN, scard_turn);
    SIZE(SCARD_STRUCT_TAG, scard_tag);
    SIZE(SCARD_STRUCT_PART, scard_part);
    SIZE(SCARD_STRUCT_KNOWN, scard_known);
    SIZE(SCARD_STRUCT_HANDLE, scard_handle);
    SIZE(SCARD_STRUCT_LENT_TERMINAL, scard_lent_terminal);
    SIZE(SCARD_STRUCT_LENT_CARD, scard_lent_card);
    SIZE(SCARD_STRUCT_LENT_HEADER, scard_lent_header);
    SIZE(SCARD_STRUCT_LENT_CHECK, scard_lent_check);
    SIZE(SCARD_STRUCT_LENT_RECEIVER, scard_lent_receiver);
    SIZE(SCARD_STRUCT_TEXT, scard_text);
    SIZE(SCARD_STRUCT_ENTRY, scard_entry);
    SIZE(SCARD_STRUCT_NOTE, scard_note);
    SIZE(SCARD_STRUCT_LENT_FRAMER, scard_lent_framer);
    SIZE(SCARD_STRUCT_LENT_BLOCK_READER, scard_lent_block_reader);
    SIZE(SCARD_STRUCT_LENT_ATR_READER, scard_lent_atr_reader);
    SIZE(SCARD_STRUCT_LENT_SENDER, scard_lent_sender);
    SIZE(SCARD_STRUCT_LENT_HEARD, scard_lent_heard);
    SIZE(SCARD_STRUCT_LENT_WATCHED, scard_lent_watched);
    SIZE(SCARD_STRUCT_LENT_JUDGE, scard_lent_judge);
    SIZE(SCARD_STRUCT_DUE, scard_due);
    SIZE(SCARD_STRUCT_JUDGMENT, scard_judgment);
    SIZE(SCARD_STRUCT_LENT_LINE_RULES, scard_lent_line_rules);
    SIZE(SCARD_STRUCT_LENT_LINE_PROGRESS, scard_lent_line_progress);
    SIZE(SCARD_STRUCT_LENT_LINE, scard_lent_line);
    SIZE(SCARD_STRUCT_LINE_NEXT, scard_line_next);
    SIZE(SCARD_STRUCT_LENT_SETUP, scard_lent_setup);
    SIZE(SCARD_STRUCT_LENT_SESSION, scard_lent_session);
    SIZE(SCARD_STRUCT_LENT_CARD_SESSION, scard_lent_card_session);
    SIZE(SCARD_STRUCT_SESSION_NEXT, scard_session_next);
    SIZE(SCARD_STRUCT_PCB, scard_pcb);
    SIZE(SCARD_STRUCT_EXERCISE, scard_exercise);
    SIZE(SCARD_STRUCT_LENT_TIMES, scard_lent_times);
    SIZE(SCARD_STRUCT_MOMENTS, scard_moments);
    SIZE(SCARD_STRUCT_TIMED, scard_timed);
    CHECK(sizeof(struct scard_lent_terminal) < 128 && sizeof(struct scard_lent_card) < 128);
    CHECK(sizeof(struct scard_lent_check) == 92 && sizeof(struct scard_lent_check) < 128);
    CHECK(sizeof(struct scard_lent_receiver) == 32 && sizeof(struct scard_lent_judge) == 592);
    CHECK(sizeof(struct scard_lent_times) == 56);
    CHECK(sizeof(struct scard_lent_block_reader) == 264 && sizeof(struct scard_lent_atr_reader) == 40);
    CHECK(scard_struct_size(0) == 0 && scard_struct_size(45) == 0 && scard_struct_size(255) == 0);
}

static void places(void)
{
    PLACE(scard_lent_line_rules, most_blocks, 48);
    PLACE(scard_lent_line_rules, has_clock, 52);
    PLACE(scard_lent_line_rules, is_card, 55);
    PLACE(scard_lent_line_progress, late, 48);
    PLACE(scard_lent_line_progress, own, 56);
    PLACE(scard_lent_line_progress, interrupts, 60);
    PLACE(scard_lent_line_progress, left, 68);
    PLACE(scard_lent_line_progress, phase, 72);
    PLACE(scard_lent_line_progress, echoes, 78);
    PLACE(scard_lent_line, progress, 56);
    PLACE(scard_lent_line, framer, 136);
    PLACE(scard_lent_session, own, 476);
    PLACE(scard_lent_card_session, granted, 472);
    PLACE(scard_lent_card_session, own, 480);
    PLACE(scard_line_next, count, 8);
    PLACE(scard_line_next, wait, 16);
    PLACE(scard_lent_framer, count, 0);
    PLACE(scard_lent_framer, octets, 8);
    PLACE(scard_lent_block_reader, count, 0);
    PLACE(scard_lent_block_reader, ifs, 4);
    PLACE(scard_lent_block_reader, octets, 5);
    PLACE(scard_lent_atr_reader, count, 0);
    PLACE(scard_lent_atr_reader, octets, 4);
    PLACE(scard_verdict, status, 0);
    PLACE(scard_verdict, reason, 1);
    PLACE(scard_verdict, place, 8);
    PLACE(scard_interface, ta, 1);
    PLACE(scard_interface, tb, 3);
    PLACE(scard_interface, tc, 5);
    PLACE(scard_indicated, bytes, 1);
    PLACE(scard_atr, first, 1);
    PLACE(scard_atr, indicated_count, 7);
    PLACE(scard_atr, indicated, 8);
    PLACE(scard_atr, historical_count, 225);
    PLACE(scard_atr, historical, 226);
    PLACE(scard_atr, has_tck, 241);
    PLACE(scard_atr, tck, 242);
    PLACE(scard_t1, bwi, 1);
    PLACE(scard_t1, cwi, 2);
    PLACE(scard_rates, di, 2);
    PLACE(scard_block, pcb, 1);
    PLACE(scard_block, inf_place, 2);
    PLACE(scard_block, inf_len, 3);
    PLACE(scard_command, p2, 3);
    PLACE(scard_command, shape, 4);
    PLACE(scard_command, has_le, 5);
    PLACE(scard_command, le, 8);
    PLACE(scard_command, data_place, 16);
    PLACE(scard_command, data_len, 24);
    PLACE(scard_response, sw2, 1);
    PLACE(scard_response, data_len, 8);
    PLACE(scard_turn, kind, 0);
    PLACE(scard_turn, wait, 1);
    PLACE(scard_turn, count, 8);
    PLACE(scard_tag, count, 3);
    PLACE(scard_part, is_constructed, 1);
    PLACE(scard_part, len_octets, 2);
    PLACE(scard_part, tag, 3);
    PLACE(scard_part, place, 8);
    PLACE(scard_part, len, 16);
    PLACE(scard_known, format, 4);
    PLACE(scard_known, value, 8);
    PLACE(scard_known, count, 16);
    PLACE(scard_handle, is_full, 8);
    PLACE(scard_lent_terminal, is_answered, 8);
    PLACE(scard_lent_terminal, place, 16);
    PLACE(scard_lent_terminal, answer_len, 48);
    PLACE(scard_lent_card, size, 8);
    PLACE(scard_lent_card, saved_place, 16);
    PLACE(scard_lent_card, reply_len, 56);
    PLACE(scard_lent_header, tag, 1);
    PLACE(scard_lent_header, tag_count, 4);
    PLACE(scard_lent_header, read, 6);
    PLACE(scard_lent_header, number, 8);
    PLACE(scard_lent_check, value_left, 8);
    PLACE(scard_lent_check, header, 12);
    PLACE(scard_lent_check, ends, 24);
    PLACE(scard_lent_check, level, 88);
    PLACE(scard_lent_check, refused, 89);
    PLACE(scard_lent_receiver, max, 8);
    PLACE(scard_lent_receiver, joined, 16);
    PLACE(scard_lent_receiver, ifs, 20);
    PLACE(scard_lent_receiver, came, 25);
    PLACE(scard_lent_receiver, refused, 27);
    PLACE(scard_text, text, 0);
    PLACE(scard_text, size, 8);
    PLACE(scard_note, before_size, 8);
    PLACE(scard_note, after, 16);
    PLACE(scard_note, after_size, 24);
    PLACE(scard_note, number, 32);
    PLACE(scard_note, has_number, 36);
    PLACE(scard_lent_sender, repeats, 9);
    PLACE(scard_lent_sender, corrections, 10);
    PLACE(scard_lent_sender, aborted, 15);
    PLACE(scard_lent_heard, octet, 4);
    PLACE(scard_lent_watched, sender, 8);
    PLACE(scard_lent_watched, heard, 24);
    PLACE(scard_lent_watched, doubt, 29);
    PLACE(scard_lent_watched, last_len, 30);
    PLACE(scard_lent_watched, last, 31);
    PLACE(scard_lent_judge, card, 288);
    PLACE(scard_lent_judge, blocks, 576);
    PLACE(scard_lent_judge, nad, 585);
    PLACE(scard_lent_judge, pairs, 586);
    PLACE(scard_lent_judge, other, 587);
    PLACE(scard_lent_judge, last, 588);
    PLACE(scard_due, asked, 4);
    PLACE(scard_judgment, unanswered, 16);
    PLACE(scard_judgment, verdict, 24);
    PLACE(scard_judgment, silence, 26);
    PLACE(scard_judgment, due, 27);
    PLACE(scard_exercise, due, 5);
    PLACE(scard_lent_times, hertz, 40);
    PLACE(scard_lent_times, cwi, 52);
    PLACE(scard_moments, has_last, 17);
    PLACE(scard_timed, over, 17);
}

/* ---- what the library writes into the fields ---- */

static void verdicts_and_turns(void)
{
    static const uint8_t wtx[] = {0x00, 0xC3, 0x01, 0x07, 0xC5};
    struct octets wrong = of_hex("00000500A4040000A4");
    struct scard_handle handle = SCARD_HANDLE_EMPTY;
    uint8_t out[SCARD_BLOCK_ROOM];
    struct scard_block block;
    struct scard_text name;
    struct scard_verdict v = scard_block_decode(wrong.at, wrong.count, 254, &block);
    struct scard_turn turn;
    CHECK(v.status == SCARD_AT && v.reason == SCARD_BLOCK_BAD_LRC && v.place == 8);
    CHECK(scard_terminal_open(&handle, 32, 4, 5).status == SCARD_OK && handle.at != NULL && handle.is_full);
    turn = scard_terminal_transmit(&handle, wrong.at, 4, out, sizeof out);
    CHECK(turn.kind == SCARD_SEND && turn.wait == 1 && turn.count == 8);
    turn = scard_terminal_received(&handle, wtx, sizeof wtx, out, sizeof out);
    CHECK(turn.kind == SCARD_SEND && turn.wait == 7 && turn.count == 5);
    turn = scard_terminal_transmit(&handle, wrong.at, 4, out, sizeof out);
    CHECK(turn.kind == SCARD_REFUSED_BUSY && turn.wait == 0 && turn.count == 0);
    scard_close(&handle);
    CHECK(!handle.is_full);
    scard_status_text(SCARD_SHORT, &name);
    CHECK(strcmp(name.text, "SHORT") == 0 && name.size == 6);
    free(wrong.at);
}

static void answers_to_reset(void)
{
    struct octets octets = of_hex("3B9211C046A1481147C0C1BB");
    struct scard_atr atr;
    struct scard_t1 params;
    struct scard_rates rates;
    const struct scard_indicated *one = atr.indicated;
    CHECK(scard_atr_decode(octets.at, octets.count, &atr).status == SCARD_OK);
    CHECK(atr.convention == 0 && atr.indicated_count == 3 && atr.historical_count == 2);
    CHECK(atr.first.has_ta == 1 && atr.first.ta == 0x11 && atr.first.has_tb == 0 && atr.first.has_tc == 0);
    CHECK(one[0].protocol == 0 && one[1].protocol == 1 && one[2].protocol == 1);
    CHECK(one[0].bytes.has_tc == 1 && one[0].bytes.tc == 0x46 && one[0].bytes.has_tb == 0);
    CHECK(one[1].bytes.has_tb == 1 && one[1].bytes.tb == 0x48 && one[1].bytes.has_ta == 0);
    CHECK(one[2].bytes.has_ta == 1 && one[2].bytes.ta == 0x47 && one[2].bytes.has_tc == 0);
    CHECK(atr.historical[0] == 0xC0 && atr.historical[1] == 0xC1 && atr.has_tck == 1 && atr.tck == 0xBB);
    CHECK(scard_atr_t1_params(&atr, &params) == SCARD_T1_USABLE);
    CHECK(params.ifsc == 0x47 && params.bwi == 4 && params.cwi == 8);
    CHECK(scard_atr_rates(&atr, &rates) == SCARD_OK && rates.fi == 372 && rates.di == 1);
    free(octets.at);
}

static void blocks_and_apdus(void)
{
    struct octets block = of_hex("214002AABB72"), response = of_hex("AABBCC9001");
    struct octets command = of_hex("01A4020300000211220105");
    struct scard_block b;
    struct scard_command c;
    struct scard_response r;
    CHECK(scard_block_decode(block.at, block.count, 254, &b).status == SCARD_OK);
    CHECK(b.nad == 0x21 && b.pcb == 0x40 && b.inf_place == 3 && b.inf_len == 2);
    CHECK(scard_command_decode(command.at, command.count, &c).status == SCARD_OK);
    CHECK(c.cla == 0x01 && c.ins == 0xA4 && c.p1 == 0x02 && c.p2 == 0x03 && c.shape == SCARD_CASE_4_LONG);
    CHECK(c.has_le == 1 && c.le == 261 && c.data_place == 7 && c.data_len == 2);
    CHECK(scard_response_decode(response.at, response.count, &r).status == SCARD_OK);
    CHECK(r.sw1 == 0x90 && r.sw2 == 0x01 && r.data_len == 3);
    free(block.at);
    free(command.at);
    free(response.at);
}

static void objects(void)
{
    static const uint8_t list[] = {0x9F, 0x02, 0x03}, value[] = {0x12, 0x34};
    struct octets forest = of_hex("6F0BA509BF8101810450005000");
    struct scard_part parts[5];
    struct scard_known known = {{{0x9F, 0x02, 0x00}, 2}, SCARD_COMPRESSED_NUMERIC, value, 2};
    uint8_t out[3];
    struct scard_verdict v = scard_tlv_parts(forest.at, forest.count, 100, parts, 5);
    CHECK(v.status == SCARD_OK && v.place == 5);
    CHECK(parts[2].depth == 3 && parts[2].is_constructed == 1 && parts[2].len_octets == 2);
    CHECK(parts[2].tag.count == 3 && is_hex(parts[2].tag.octets, 3, "BF8101"));
    CHECK(parts[2].place == 9 && parts[2].len == 4);
    CHECK(scard_dol_fill(list, sizeof list, &known, 1, out, sizeof out).status == SCARD_OK && is_hex(out, 3, "1234FF"));
    free(forest.at);
}

static const uint8_t message[100] = {0};

static void lent_terminals(void)
{
    static const uint8_t asks[] = {0x00, 0xC1, 0x01, 0x29, 0xE9};
    struct scard_lent_terminal t;
    uint8_t command[200], answer[300], out[SCARD_BLOCK_ROOM];
    CHECK(scard_lent_terminal_begin(SCARD_LENT(t, command, answer), 40, 4, 5).status == SCARD_OK);
    CHECK(scard_lent_terminal_transmit(SCARD_LENT(t, command, answer), message, 100, out, sizeof out).count == 44);
    CHECK(scard_lent_terminal_received(SCARD_LENT(t, command, answer), asks, 5, out, sizeof out).kind == SCARD_SEND);
    CHECK(scard_lent_terminal_quiet(SCARD_LENT(t, command, answer), out, sizeof out).kind == SCARD_SEND);
    CHECK(t.number == 0 && t.expected == 0 && t.failures == 1 && t.is_answered == 0);
    CHECK(t.ifsc == 41 && t.ifsd == 32 && t.first_ifsc == 40 && t.wait == 1 && t.size == 40 && t.place == 0);
    CHECK(t.most_command == 200 && t.most_answer == 300 && t.command_len == 100 && t.answer_len == 0);
}

static void lent_cards(void)
{
    static const uint8_t asks[] = {0x00, 0xC1, 0x01, 0x2A, 0xEA}, came[] = {0x00, 0x00, 0x01, 0x77, 0x76};
    static const uint8_t acknowledged[] = {0x00, 0x90, 0x00, 0x90}, acknowledged_too[] = {0x00, 0x80, 0x00, 0x80};
    struct scard_lent_card c;
    uint8_t command[200], reply[300], out[SCARD_BLOCK_ROOM];
    CHECK(scard_lent_card_begin(SCARD_LENT(c, command, reply), 40, 4, 5).status == SCARD_OK);
    CHECK(scard_lent_card_received(SCARD_LENT(c, command, reply), asks, 5, out, sizeof out).kind == SCARD_SEND);
    CHECK(scard_lent_card_received(SCARD_LENT(c, command, reply), came, 5, out, sizeof out).kind == SCARD_DONE);
    CHECK(scard_lent_card_reply(SCARD_LENT(c, command, reply), message, 100, out, sizeof out).count == 46);
    CHECK(scard_lent_card_received(SCARD_LENT(c, command, reply), acknowledged, 4, out, sizeof out).count == 46);
    CHECK(c.number == 1 && c.expected == 1 && c.has_saved == 0);
    CHECK(c.ifsc == 40 && c.ifsd == 42 && c.first_ifsc == 40 && c.wait == 3 && c.size == 42 && c.place == 42);
    CHECK(c.most_command == 200 && c.most_reply == 300 && c.command_len == 1 && c.reply_len == 100);
    CHECK(scard_lent_card_received(SCARD_LENT(c, command, reply), acknowledged_too, 4, out, sizeof out).count == 20);
    CHECK(c.number == 0 && c.expected == 1 && c.has_saved == 1 && c.saved_size == 42 && c.saved_place == 84);
}

static void lent_readers(void)
{
    struct octets forest = of_hex("6F8202009F81038201FF"), chain = of_hex("006003AABBCCBE002005DDEE");
    struct scard_lent_check check;
    struct scard_lent_receiver r;
    uint8_t into[100];
    CHECK(scard_lent_check_begin(&check, 1000).status == SCARD_OK);
    CHECK(scard_lent_check_feed(&check, forest.at, 9).status == SCARD_MORE);
    CHECK(check.max == 1000 && check.count == 9 && check.value_left == 0 && check.level == 1 && check.refused == 0);
    CHECK(check.ends[0] == 516 && check.ends[1] == 0 && check.header.kind == 4 && check.header.form == 3);
    CHECK(is_hex(check.header.tag, 3, "9F8103") && check.header.tag_count == 3);
    CHECK(check.header.read == 1 && check.header.number == 1);
    CHECK(scard_lent_check_feed(&check, forest.at + 9, 1).status == SCARD_AT && check.refused == SCARD_TLV_OVERRUN);
    CHECK(scard_lent_receiver_begin(&r, 40, 1, 90).status == SCARD_OK);
    CHECK(scard_lent_receiver_feed(&r, into, sizeof into, chain.at, chain.count).status == SCARD_MORE);
    CHECK(r.max == 90 && r.blocks == 1 && r.joined == 3 && r.ifs == 40 && r.number == 1 && r.refused_at == 0);
    CHECK(r.part == 3 && r.more == 1 && r.len == 5 && r.came == 2 && r.done == 0 && r.refused == 0);
    free(forest.at);
    free(chain.at);
}

int main(void)
{
    sizes();
    places();
    verdicts_and_turns();
    answers_to_reset();
    blocks_and_apdus();
    objects();
    lent_terminals();
    lent_cards();
    lent_readers();
    return verdict_of_checks("layout");
}
