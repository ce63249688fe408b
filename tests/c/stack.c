/* How much stack the calls take. Each call runs on a separate stack that was filled with a pattern before, and stays
 * within the bound that docs/C.md gives. Link it without lazy binding (-Wl,-z,now), which takes 3 KB at the first call
 * of a function. */
#define _XOPEN_SOURCE 700
#include "check.h"
#include "scard_session.h"

#include <ucontext.h>

enum { SIZE = 1 << 18, PAINT = 0xA5, ROUNDS = 400 };

static uint8_t painted[SIZE];
static ucontext_t here, there;
static void (*running)(void);

static void enter(void)
{
    running();
}

/* Returns how many octets of stack a call takes, including those to begin it. */
static size_t depth_of(void (*call)(void))
{
    size_t at = 0;
    memset(painted, PAINT, sizeof painted);
    if (getcontext(&there) != 0) {
        abort();
    }
    there.uc_stack.ss_sp = painted;
    there.uc_stack.ss_size = sizeof painted;
    there.uc_link = &here;
    running = call;
    makecontext(&there, enter, 0);
    if (swapcontext(&here, &there) != 0) {
        abort();
    }
    while (at < SIZE && painted[at] == PAINT) {
        at++;
    }
    return SIZE - at;
}

/* ---- the calls ---- */

static uint8_t commands[2][261], answers[2][258], sent[SCARD_BLOCK_ROOM], got[SCARD_BLOCK_ROOM];
static uint8_t command[261], reply[258], forest[4096], out[4096];
static size_t count;
static struct scard_lent_terminal terminal;
static struct scard_lent_card card;
static struct scard_handle handle = SCARD_HANDLE_EMPTY, reader = SCARD_HANDLE_EMPTY;
static struct scard_turn turn;
static struct scard_verdict verdict;
static struct scard_atr atr;
static struct scard_t1 t1;
static struct scard_rates rates;
static struct scard_command decoded;
static struct scard_response response;
static struct scard_block block;
static struct scard_lent_check check;
static struct scard_lent_receiver receiver;
static struct scard_lent_block_reader block_reader;
static struct scard_lent_atr_reader atr_reader;
static struct scard_lent_judge judge;
static struct scard_judgment judgment;
static struct scard_exercise exercise;
static struct scard_lent_times line_times;
static struct scard_moments moments;
static struct scard_timed timed;
static struct scard_part parts[2048];
static struct scard_entry entries[2];
static struct scard_lent_framer framer;
static struct scard_text text;
static struct scard_pcb pcb;
static struct scard_note note;
static const uint8_t answer_to_reset[] = {0x3B, 0x85, 0x81, 0x31, 0xFE, 0x45, 0x80, 0x73, 0x80, 0x01, 0x40, 0xBC};
static const uint8_t list[] = {0x9F, 0x02, 0x06, 0x5A, 0x08};

#define TERMINAL SCARD_LENT(terminal, commands[0], answers[0])
#define CARD SCARD_LENT(card, commands[1], answers[1])

static void nothing(void)
{
}

static void begin_terminal(void)
{
    verdict = scard_lent_terminal_begin(TERMINAL, 254, 4, 5);
}

static void begin_card(void)
{
    verdict = scard_lent_card_begin(CARD, 254, 4, 5);
}

static void ask_ifs(void)
{
    turn = scard_lent_terminal_ask_ifs(TERMINAL, 254, sent, sizeof sent);
}

static void transmit(void)
{
    turn = scard_lent_terminal_transmit(TERMINAL, command, sizeof command, sent, sizeof sent);
}

static void to_terminal(void)
{
    turn = scard_lent_terminal_received(TERMINAL, got, count, sent, sizeof sent);
}

static void quiet(void)
{
    turn = scard_lent_terminal_quiet(TERMINAL, sent, sizeof sent);
}

static void answered(void)
{
    verdict = scard_lent_terminal_answer(TERMINAL);
}

static void to_card(void)
{
    turn = scard_lent_card_received(CARD, got, count, sent, sizeof sent);
}

static void replies(void)
{
    turn = scard_lent_card_reply(CARD, reply, sizeof reply, sent, sizeof sent);
}

static void more_time(void)
{
    turn = scard_lent_card_more_time(CARD, 2, sent, sizeof sent);
}

static void card_asks_ifs(void)
{
    turn = scard_lent_card_ask_ifs(CARD, 32, sent, sizeof sent);
}

static void asked(void)
{
    verdict = scard_lent_card_command(CARD);
}

static void decode_atr(void)
{
    verdict = scard_atr_decode(answer_to_reset, sizeof answer_to_reset, &atr);
}

static void encode_atr(void)
{
    verdict = scard_atr_encode(&atr, out, sizeof out);
}

static void params(void)
{
    count = scard_atr_t1_params(&atr, &t1);
    count += scard_atr_rates(&atr, &rates);
}

static void times(void)
{
    count = scard_t1_cwt(&t1) + (size_t)scard_t1_bwt(&t1, rates.fi, rates.di);
}

static void names(void)
{
    scard_status_text(SCARD_AT, &text);
    scard_turn_text(SCARD_DONE, &text);
    scard_status_class_text(SCARD_CLASS_INVALID, &text);
    scard_shape_text(SCARD_CASE_4_LONG, &text);
    scard_s_block_text(SCARD_S_WTX, &text);
    scard_reason_text(SCARD_CODEC_CHAIN, SCARD_CHAIN_TOO_LONG, &text);
    scard_reason_sentence_text(SCARD_CODEC_CHAIN, SCARD_CHAIN_TOO_LONG, &text);
    scard_note_of(SCARD_NOTED_STATUS, 0x6F, 0x00, &note);
    scard_note_of(SCARD_NOTED_INSTRUCTION, 0x00, 0xFE, &note);
    verdict.status = scard_is_text(forest, 40);
}

static void blocks(void)
{
    verdict = scard_block_i(0, 0, false, command, 254, sent, sizeof sent);
    verdict = scard_block_decode(sent, verdict.place, 254, &block);
    scard_block_parts(block.pcb, &pcb);
    verdict = scard_chain_cut(forest, 254, 254, 0, out, sizeof out);
}

static void decode_apdu(void)
{
    verdict = scard_command_decode(command, sizeof command, &decoded);
    verdict = scard_response_decode(reply, sizeof reply, &response);
}

static void encode_apdu(void)
{
    verdict = scard_command_encode(&decoded, command + 5, 255, out, sizeof out);
    verdict = scard_response_encode(reply, 256, 0x90, 0x00, out, sizeof out);
}

static void lent_check(void)
{
    verdict = scard_lent_check_begin(&check, sizeof forest);
    verdict = scard_lent_check_feed(&check, forest, sizeof forest);
    verdict = scard_lent_check_finish(&check);
}

static void lent_receiver(void)
{
    verdict = scard_lent_receiver_begin(&receiver, 254, 0, sizeof out);
    verdict = scard_lent_receiver_feed(&receiver, out, sizeof out, sent, sizeof sent);
    verdict = scard_lent_receiver_finish(&receiver, out, sizeof out);
    verdict = scard_lent_receiver_restart(&receiver, out, sizeof out, 1);
}

static void lent_readers(void)
{
    scard_lent_atr_reader_begin(&atr_reader);
    verdict = scard_lent_atr_reader_feed(&atr_reader, answer_to_reset, sizeof answer_to_reset);
    verdict = scard_lent_atr_reader_finish(&atr_reader);
    verdict = scard_lent_atr_reader_value(&atr_reader, &atr);
    verdict = scard_lent_block_reader_begin(&block_reader, 254);
    verdict = scard_lent_block_reader_feed(&block_reader, sent, sizeof sent);
    verdict = scard_lent_block_reader_finish(&block_reader);
    verdict = scard_lent_block_reader_value(&block_reader, &block);
}

static void lent_judge(void)
{
    static const uint8_t asked[] = {0x00, 0x81, 0x00, 0x81};
    verdict = scard_lent_judge_begin(&judge, 254);
    verdict = scard_lent_times_begin(&line_times, &t1, &rates, 3571200);
    verdict = scard_lent_judge_exercise(&judge, SCARD_END_CARD, asked, sizeof asked, SCARD_ARRIVAL_CAME, sent,
                                        sizeof sent, &exercise);
    verdict = scard_lent_times_block(&line_times, &judge, SCARD_END_CARD, asked, sizeof asked, SCARD_ARRIVAL_CAME,
                                     sent, sizeof sent, &moments, &timed);
    verdict = scard_lent_judge_block(&judge, SCARD_END_CARD, asked, sizeof asked, SCARD_ARRIVAL_CAME, sent, sizeof sent,
                                     &judgment);
    scard_lent_judge_quiet(&judge, &judgment);
    scard_lent_judge_finish(&judge, &judgment);
    scard_judge_rule_text(1, &text);
    scard_judge_clause_text(1, &text);
}

static void tlv_check(void)
{
    verdict = scard_tlv_check(forest, sizeof forest, sizeof forest);
}

static void tlv_parts(void)
{
    verdict = scard_tlv_parts(forest, sizeof forest, sizeof forest, parts, 2048);
}

static void tlv_first(void)
{
    count = scard_tlv_first(parts, verdict.place, &parts[0].tag, 1);
}

static void tlv_tidy(void)
{
    verdict = scard_tlv_tidy(forest, sizeof forest, sizeof forest, out, sizeof out);
}

static void lists(void)
{
    verdict = scard_dol_check(list, sizeof list);
    verdict = scard_dol_entries(list, sizeof list, entries, 2);
    verdict = scard_tlv_header(&entries[0].tag, 254, out, sizeof out);
    verdict = scard_dol_entry(&entries[0].tag, 254, out, sizeof out);
    verdict = scard_dol_fill(list, sizeof list, NULL, 0, out, sizeof out);
}

static void hexadecimal(void)
{
    verdict = scard_hex_encode(forest, 2048, (char *)out, sizeof out);
    verdict = scard_hex_decode((const char *)out, sizeof out, forest, sizeof forest);
}

static void open_end(void)
{
    verdict = scard_terminal_open(&handle, 254, 4, 5);
}

static void with_handle(void)
{
    turn = scard_terminal_transmit(&handle, command, sizeof command, sent, sizeof sent);
    turn = scard_terminal_quiet(&handle, sent, sizeof sent);
    verdict = scard_message(&handle, out, sizeof out);
}

static void close_end(void)
{
    scard_close(&handle);
}

static void readers(void)
{
    verdict = scard_tlv_check_open(&reader, sizeof forest);
    verdict = scard_reader_feed(&reader, forest, sizeof forest);
    verdict = scard_reader_finish(&reader);
    verdict = scard_atr_reader_open(&reader);
    verdict = scard_reader_feed(&reader, answer_to_reset, sizeof answer_to_reset);
    verdict = scard_atr_reader_value(&reader, &atr);
    verdict = scard_receiver_open(&reader, 254, 0, 300);
    verdict = scard_reader_feed(&reader, sent, sizeof sent);
    scard_close(&reader);
}

static void framer_calls(void)
{
    scard_lent_framer_begin(&framer);
    scard_lent_framer_feed(&framer, sent, sizeof sent);
    count = scard_lent_framer_is_whole(&framer) + (size_t)scard_lent_framer_wait(&framer, 1, 2, 3);
    count += scard_lent_framer_burst(&framer);
}

/* ---- sessions, over lines whose functions take almost no stack ---- */

static const uint8_t blocks_of[4][9] = {{0, 0, 5, 0x00, 0xA4, 0x04, 0x00, 0x00, 0xA5}, {0, 0, 2, 0x90, 0x00, 0x92},
                                        {0, 0xE0, 0, 0xE0}, {0, 0, 5, 0x00, 0xA4}};
static const uint8_t counts_of[4] = {9, 6, 4, 5};
/* What each call of a line returns: a digit for a block, '-' for silence, '!' for a failure. */
static const char *says;

static int says_next(void *context, uint8_t *octets, size_t room, uint64_t microseconds)
{
    char said = *says != 0 ? *says++ : '!';
    (void)context, (void)room, (void)microseconds;
    if (said == '-' || said == '!') {
        return said == '-' ? 0 : SCARD_LINE_FAILED;
    }
    memcpy(octets, blocks_of[said - '0'], counts_of[said - '0']);
    return counts_of[said - '0'];
}

static int hears(void *context, const uint8_t *octets, size_t octets_count)
{
    (void)context, (void)octets, (void)octets_count;
    return 0;
}

static struct scard_host_turn acts(void *context, const uint8_t *octets, size_t octets_count, size_t granted)
{
    struct scard_host_turn said = {SCARD_HOST_REPLY, 0, reply, 2};
    (void)context, (void)octets, (void)octets_count, (void)granted;
    return said;
}

static struct scard_session session;
static struct scard_card_session card_session;
static struct scard_setup setup;
static const struct scard_host application = {NULL, acts};

static void begin_sessions(void)
{
    verdict = scard_session_begin(&session, &setup);
    verdict = scard_card_session_begin(&card_session, &setup, &application);
}

/* The answer is broken first, so the session drops all octets until the line is silent. */
static void session_exchange(void)
{
    says = "--3-3-1-";
    turn = scard_session_exchange(&session, command, 5);
}

static void session_asks(void)
{
    says = "-1-!";
    turn = scard_session_ask_ifs(&session, 254);
}

static void session_resyncs(void)
{
    says = "-2-";
    turn = scard_session_resync(&session, &setup);
}

static void session_serves(void)
{
    says = "3--0--!";
    turn = scard_card_session_serve(&card_session);
}

/* ---- the bounds, of both processors ---- */

static size_t least, ends; /* the stack to begin a call; the most that a call of a session takes */

static size_t taken(void (*call)(void))
{
    size_t deep = depth_of(call);
    return deep < least ? 0 : deep - least;
}

static void bounded(const char *name, void (*call)(void), size_t bound)
{
    size_t deep = taken(call);
    printf("%s: %zu octets of stack, at most %zu\n", name, deep, bound);
    CHECK(deep <= bound);
}

static void of_end(void (*call)(void))
{
    size_t deep = taken(call);
    ends = deep > ends ? deep : ends;
    memcpy(got, sent, sizeof got);
    count = turn.count;
}

/* Makes an exchange. A block may be damaged, one may be lost, and the card may ask for more time. */
static void exchange(int round)
{
    int at = 0;
    of_end(round % 3 == 0 ? ask_ifs : transmit);
    while (turn.kind == SCARD_SEND) {
        got[count - 1] ^= round > 0 && ++at == round % 7;
        of_end(to_card);
        if (turn.kind == SCARD_DONE && round % 5 == 0) {
            of_end(round % 2 == 0 ? more_time : card_asks_ifs);
            of_end(to_terminal);
            of_end(to_card);
        }
        if (turn.kind == SCARD_DONE) {
            of_end(asked);
            of_end(replies);
        }
        got[1] ^= round > 0 && ++at == round % 11 ? 0x11 : 0;
        of_end(round > 0 && ++at == round % 7 ? quiet : to_terminal);
    }
    of_end(answered);
}

/* Makes objects in 16 levels, with fillers. */
static void make_forest(void)
{
    size_t place = 0;
    while (place < 45) {
        forest[place++] = 0x70;
        forest[place++] = 0x81;
        forest[place] = (uint8_t)(199 - place);
        place++;
    }
    for (place++; place < 200; place += 2) {
        forest[place] = 0x50;
        forest[place + 1] = 0;
    }
}

static void sessions(void)
{
    setup.line.send = hears;
    setup.line.receive = says_next;
    setup.command = commands[0];
    setup.command_room = sizeof commands[0];
    setup.answer = answers[0];
    setup.answer_room = sizeof answers[0];
    setup.t1.ifsc = 254;
    setup.t1.bwi = 4;
    setup.t1.cwi = 5;
    setup.clock.fi = 372;
    setup.clock.di = 1;
    setup.clock.hertz = 3571200;
    bounded("a session: begin", begin_sessions, 2048);
    CHECK(verdict.status == SCARD_OK);
    bounded("a session: exchange", session_exchange, 2048);
    CHECK(turn.kind == SCARD_DONE && turn.count == 2);
    bounded("a session: ask for a size", session_asks, 2048);
    CHECK(turn.kind == SCARD_SESSION_FAILED);
    bounded("a session: resynchronise", session_resyncs, 2048);
    CHECK(turn.kind == SCARD_GIVEN_UP);
    setup.command = commands[1];
    setup.answer = answers[1];
    begin_sessions();
    bounded("a session: serve", session_serves, 2048);
    CHECK(turn.kind == SCARD_SESSION_FAILED && *says == 0);
}

int main(void)
{
    int round;
    least = depth_of(nothing);
    memset(command, 0x20, sizeof command);
    memset(reply, 0x30, sizeof reply);
    command[4] = 255;
    of_end(begin_terminal);
    of_end(begin_card);
    for (round = 0; round < ROUNDS; round++) {
        exchange(round);
    }
    printf("both ends over lent buffers: %zu octets of stack, at most 1024\n", ends);
    CHECK(ends > 0 && ends <= 1024);
    make_forest();
    bounded("answer to reset: decode", decode_atr, 4096);
    bounded("answer to reset: encode", encode_atr, 4096);
    CHECK(verdict.status == SCARD_OK);
    bounded("answer to reset: parameters, rates", params, 4096);
    CHECK(count == 0);
    bounded("waiting times", times, 1024);
    bounded("names", names, 1024);
    bounded("blocks and chains", blocks, 4096);
    CHECK(verdict.status == SCARD_OK);
    bounded("commands and responses: decode", decode_apdu, 1024);
    bounded("commands and responses: encode", encode_apdu, 1024);
    CHECK(verdict.status == SCARD_OK);
    bounded("forests: check that the caller keeps", lent_check, 2048);
    bounded("chains: receiver that the caller keeps", lent_receiver, 1024);
    bounded("a judge that the caller keeps", lent_judge, 4096);
    CHECK(verdict.status == SCARD_OK);
    bounded("blocks and answers to reset: readers that the caller keeps", lent_readers, 4096);
    bounded("forests: check", tlv_check, 1024);
    bounded("forests: parts", tlv_parts, 2048);
    CHECK(verdict.status == SCARD_OK && parts[verdict.place - 1].depth == 16);
    bounded("forests: first", tlv_first, 1024);
    bounded("forests: tidy", tlv_tidy, 2048);
    bounded("data object lists", lists, 2048);
    CHECK(verdict.status == SCARD_OK);
    bounded("hexadecimal text", hexadecimal, 1024);
    CHECK(verdict.status == SCARD_OK);
    bounded("an end in a handle: open", open_end, 4096);
    bounded("an end in a handle: its calls", with_handle, 1024);
    CHECK(turn.kind == SCARD_SEND);
    bounded("an end in a handle: close", close_end, 1024);
    bounded("readers in a handle", readers, 4096);
    bounded("bursts", framer_calls, 1024);
    sessions();
    return verdict_of_checks("stack");
}
