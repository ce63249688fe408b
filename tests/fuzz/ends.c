/* Fuzzes the ends of T=1, the readers, the judge and the framer with states that other code wrote to. A call is refused,
 * or does what it does with a state that the calls made. A refused call writes nothing.
 */
#include "input.h"

#include <stddef.h>

enum { ROOM = 300, MARK = 0xA5 };

/* What a call of an end may write. */
struct held {
    union {
        struct scard_lent_terminal terminal;
        struct scard_lent_card card;
    } state;
    uint8_t command[ROOM], answer[ROOM], out[SCARD_BLOCK_ROOM];
};

static struct held held, before;
static size_t command_room, answer_room;

#define TERMINAL &held.state.terminal, held.command, command_room, held.answer, answer_room
#define CARD &held.state.card, held.command, command_room, held.answer, answer_room

static struct scard_turn call_terminal(uint8_t which, const uint8_t *octets, size_t count, size_t room)
{
    switch (which % 4) {
    case 0:
        return scard_lent_terminal_transmit(TERMINAL, octets, count, held.out, room);
    case 1:
        return scard_lent_terminal_received(TERMINAL, octets, count, held.out, room);
    case 2:
        return scard_lent_terminal_ask_ifs(TERMINAL, (uint8_t)count, held.out, room);
    default:
        return scard_lent_terminal_quiet(TERMINAL, held.out, room);
    }
}

static struct scard_turn call_card(uint8_t which, const uint8_t *octets, size_t count, size_t room)
{
    switch (which % 4) {
    case 0:
        return scard_lent_card_reply(CARD, octets, count, held.out, room);
    case 1:
        return scard_lent_card_received(CARD, octets, count, held.out, room);
    case 2:
        return scard_lent_card_ask_ifs(CARD, (uint8_t)count, held.out, room);
    default:
        return scard_lent_card_more_time(CARD, (uint8_t)count, held.out, room);
    }
}

/* What a turn of an end says of the block in `out`, and of what the call may have written. */
static void right_turn(struct scard_turn turn)
{
    SHOULD(*scard_turn_name(turn.kind) != 0);
    SHOULD(memcmp(held.command + command_room, before.command + command_room, ROOM - command_room) == 0);
    SHOULD(memcmp(held.answer + answer_room, before.answer + answer_room, ROOM - answer_room) == 0);
    if (turn.kind >= SCARD_REFUSED_DEAD) {
        SHOULD(memcmp(&held, &before, sizeof held) == 0);
    } else if (turn.kind == SCARD_SEND) {
        SHOULD(turn.count >= 4 && turn.count <= SCARD_BLOCK_ROOM && held.out[2] == turn.count - 4);
        SHOULD(held.out[0] == 0 && scard_lrc(held.out, (size_t)turn.count) == 0);
    } else {
        SHOULD(memcmp(held.out, before.out, sizeof held.out) == 0);
    }
}

/* The message that an end holds, if any, fits its buffer. */
static void right_message(bool is_card)
{
    struct scard_verdict verdict = is_card ? scard_lent_card_command(CARD) : scard_lent_terminal_answer(TERMINAL);
    SHOULD(verdict.status == SCARD_ARGUMENT || verdict.status == SCARD_OK);
    SHOULD(verdict.status != SCARD_OK || verdict.place <= (is_card ? command_room : answer_room));
}

/* Between the nine octets of a state and its numbers there may be octets that belong to no field. */
static void clear_gap(void)
{
    const size_t octets = offsetof(struct scard_lent_terminal, is_answered) + 1;
    memset((uint8_t *)&held.state + octets, 0, offsetof(struct scard_lent_terminal, place) - octets);
}

/* The sizes of both buffers, and whether the input writes to the state after `begin`. */
static void end(struct input *input, bool is_card)
{
    const uint8_t garbage = take(input);
    uint8_t ifsc = take(input);
    command_room = take(input);
    answer_room = take(input);
    memset(&held, MARK, sizeof held);
    if (is_card) {
        scard_lent_card_begin(CARD, ifsc, 4, 5);
    } else {
        scard_lent_terminal_begin(TERMINAL, ifsc, 4, 5);
    }
    if (garbage % 2 == 1) {
        take_over(input, &held.state, sizeof held.state);
        clear_gap();
    }
    while (input->left > 0) {
        const uint8_t which = take(input);
        const uint8_t *octets;
        size_t count = take_octets(input, &octets, take(input)), room = which < 0xF0 ? sizeof held.out : count;
        before = held;
        right_turn(is_card ? call_card(which, octets, count, room) : call_terminal(which, octets, count, room));
        right_message(is_card);
    }
}

/* A receiver and a check: what they refuse they refuse again, and they take no octet after it. */
static void readers(struct input *input)
{
    static uint8_t message[ROOM];
    struct scard_lent_receiver receiver;
    struct scard_lent_check check;
    struct scard_lent_block_reader block;
    struct scard_lent_atr_reader atr;
    const uint8_t *octets;
    size_t count;
    memset(&receiver, 0, sizeof receiver);
    memset(&check, 0, sizeof check);
    memset(&block, 0, sizeof block);
    scard_lent_receiver_begin(&receiver, take(input), take(input), ROOM);
    scard_lent_check_begin(&check, SCARD_TLV_LARGEST);
    scard_lent_block_reader_begin(&block, take(input));
    scard_lent_atr_reader_begin(&atr);
    if (take(input) % 2 == 1) {
        take_over(input, &receiver, sizeof receiver);
        take_over(input, &check, sizeof check);
        take_over(input, &block, sizeof block);
        take_over(input, &atr, sizeof atr);
    }
    while (input->left > 0) {
        struct scard_verdict verdict;
        count = take_octets(input, &octets, 1 + take(input));
        verdict = scard_lent_receiver_feed(&receiver, message, ROOM, octets, count);
        SHOULD(verdict.status != SCARD_AT || same_verdict(verdict, scard_lent_receiver_finish(&receiver, message, ROOM)));
        verdict = scard_lent_receiver_message(&receiver, message, ROOM);
        SHOULD(verdict.status != SCARD_OK || verdict.place <= ROOM);
        verdict = scard_lent_check_feed(&check, octets, count);
        SHOULD(verdict.status == SCARD_MORE || same_verdict(verdict, scard_lent_check_finish(&check)));
        verdict = scard_lent_block_reader_feed(&block, octets, count);
        SHOULD(verdict.status != SCARD_AT || same_verdict(verdict, scard_lent_block_reader_finish(&block)));
        verdict = scard_lent_atr_reader_feed(&atr, octets, count);
        SHOULD(verdict.status != SCARD_AT || same_verdict(verdict, scard_lent_atr_reader_finish(&atr)));
    }
}

/* A judge with any octets in its state gives some judgment of any octets. */
static void judge(struct input *input)
{
    struct scard_lent_judge state;
    struct scard_judgment said;
    scard_lent_judge_begin(&state, take(input));
    if (take(input) % 2 == 1) {
        memset(&state, take(input), sizeof state);
        take_over(input, &state, sizeof state);
    }
    while (input->left > 0) {
        const uint8_t *octets, *came;
        uint8_t from = take(input), arrival = take(input);
        size_t count = take_octets(input, &octets, take(input)), came_count = take_octets(input, &came, take(input) % 16);
        struct scard_exercise exercise;
        struct scard_verdict before = scard_lent_judge_exercise(&state, from % 3, octets, count, arrival % 4, came,
                                                                came_count, &exercise);
        struct scard_verdict verdict = scard_lent_judge_block(&state, from % 3, octets, count, arrival % 4, came,
                                                              came_count, &said);
        SHOULD(same_verdict(verdict, before) && (verdict.status != SCARD_OK || exercise.broken == said.rule));
        SHOULD(verdict.status == (from % 3 == 2 || arrival % 4 == 3 ? SCARD_ARGUMENT : SCARD_OK));
        SHOULD(verdict.status != SCARD_OK || (said.silence < 4 && said.verdict < 8));
        if (from >= 0xF0) {
            scard_lent_judge_quiet(&state, &said);
        }
        scard_lent_judge_finish(&state, &said);
    }
}

/* A framer with any octets in its state. It says that a burst is whole exactly if its octets are. */
static void framer(struct input *input)
{
    struct scard_lent_framer state;
    scard_lent_framer_begin(&state);
    if (take(input) % 2 == 1) {
        take_over(input, &state, sizeof state);
    }
    while (input->left > 0) {
        const uint8_t *octets;
        size_t count = take_octets(input, &octets, 1 + take(input));
        bool is_whole;
        scard_lent_framer_feed(&state, octets, count);
        count = scard_lent_framer_burst(&state);
        is_whole = state.count < SCARD_BURST_ROOM && count >= 4 && state.octets[2] == count - 4
            && state.octets[2] != 0xFF && scard_lrc(state.octets, count) == 0;
        SHOULD(count <= SCARD_BURST_ROOM && scard_lent_framer_is_whole(&state) == is_whole);
        SHOULD(scard_lent_framer_wait(&state, 1, 2, 3) == (state.count == 0 ? 1u : is_whole ? 3u : 2u));
    }
}

int LLVMFuzzerTestOneInput(const uint8_t *data, size_t size)
{
    struct input input = {data, size};
    switch (take(&input) % 5) {
    case 0:
        end(&input, false);
        break;
    case 1:
        end(&input, true);
        break;
    case 2:
        readers(&input);
        break;
    case 3:
        judge(&input);
        break;
    default:
        framer(&input);
        break;
    }
    return 0;
}
