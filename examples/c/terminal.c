/* A terminal. It receives the answer to reset of a card, and exchanges commands and answers with it. */
#include "line.h"

/* The timeout for the answer to reset: one second. A card begins its answer within 40,000 cycles, and each octet
 * follows within 9,600 etu.
 */
enum { RESET_TIME = 1000000, LONGEST_ATR = 33 };

/* Receives the answer to reset, whose octets say where it ends. */
static int take_atr(const struct scard_line *line, struct scard_atr *atr)
{
    uint8_t octets[LONGEST_ATR];
    size_t count = 0;
    struct scard_verdict verdict = {SCARD_SHORT, 0, 0};
    while (verdict.status == SCARD_SHORT && count < sizeof octets) {
        int got = line->receive(line->context, octets + count, sizeof octets - count, RESET_TIME);
        if (got == SCARD_LINE_INTERRUPTED) {
            continue;
        }
        if (got <= 0) {
            return -1;
        }
        count += (size_t)got;
        verdict = scard_atr_decode(octets, count, atr);
    }
    return verdict.status == SCARD_OK && verdict.place == count ? 0 : -1;
}

int terminal_begin(struct terminal *terminal, const struct scard_line *line, uint64_t silence)
{
    struct scard_setup setup = {.line = *line,
                                .command = terminal->command, .command_room = sizeof terminal->command,
                                .answer = terminal->answer, .answer_room = sizeof terminal->answer,
                                .clock = {372, 1, 3571200}, .silence = silence,
                                .refuses_empty = true}; /* the card of this folder sends no empty I-block */
    struct scard_atr atr;
    if (take_atr(line, &atr) != 0 || scard_atr_t1_params(&atr, &setup.t1) != SCARD_T1_USABLE) {
        return -1;
    }
    return scard_session_begin(&terminal->session, &setup).status == SCARD_OK ? 0 : -1;
}

long terminal_exchange(struct terminal *terminal, const uint8_t *command, size_t count)
{
    struct scard_turn turn = scard_session_exchange(&terminal->session, command, count);
    return turn.kind == SCARD_DONE ? (long)turn.count : -1;
}
