#include "simulated.h"

#include <stdlib.h>
#include <string.h>

/* The application acts when the command is new. The card sends the reply once it needs no more time. */
static struct scard_host_turn host(void *context, const uint8_t *command, size_t count, size_t granted)
{
    struct simulated *card = context;
    struct scard_host_turn turn = {SCARD_HOST_REPLY, card->time, card->made, 0};
    card->tell(card->line.context, "asked", command, count);
    if (granted == 0) {
        card->made_count = application(command, count, card->made);
    }
    if (granted == 0 && card->time > 0) {
        turn.kind = SCARD_HOST_TIME;
        card->tell(card->line.context, "time", &card->time, 1);
    } else {
        turn.count = card->made_count;
        card->tell(card->line.context, "reply", card->made, card->made_count);
    }
    return turn;
}

bool simulated_reset(struct simulated *card)
{
    struct scard_setup setup = {.line = card->line, .command = card->command, .command_room = LONGEST_COMMAND,
                                .answer = card->reply, .answer_room = LONGEST_REPLY, .clock = {372, 1, 3571200},
                                .silence = SCARD_SILENCE_NONE,  /* each message is a whole burst */
                                .host_takes_short = true};      /* so that `tell` has each message */
    struct scard_host acts = {card, host};
    struct scard_atr atr;
    card->atr_count = application(NULL, 0, card->made);
    if (card->atr_count > LONGEST_ATR) {
        return false;
    }
    memcpy(card->atr, card->made, card->atr_count);
    return scard_atr_decode(card->atr, card->atr_count, &atr).status == SCARD_OK
        && scard_atr_t1_params(&atr, &setup.t1) == SCARD_T1_USABLE
        && scard_card_session_begin(&card->session, &setup, &acts).status == SCARD_OK;
}

void simulated_serve(struct simulated *card)
{
    struct scard_turn ended = scard_card_session_serve(&card->session);
    (void)ended; /* the reader went away, or a reset came: the next reset begins a session */
}

bool simulated_word(struct simulated *card, const char *word)
{
    char *end;
    unsigned long time;
    if (strncmp(word, "time=", 5) != 0) {
        return false;
    }
    time = strtoul(word + 5, &end, 10);
    card->time = (uint8_t)time;
    return *end == 0 && end != word + 5 && time <= 255;
}
