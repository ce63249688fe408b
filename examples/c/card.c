/* A card simulator. It replies to each command with the octets of the command and 9000. */
#include "line.h"

#include <stdlib.h>
#include <string.h>

enum { LONGEST_COMMAND = 65544, LONGEST_REPLY = 65538 };

struct card {
    struct scard_card_session session;
    uint8_t command[LONGEST_COMMAND], reply[LONGEST_REPLY];
    uint8_t made[LONGEST_REPLY]; /* the reply that the host makes */
};

/* The host of the card: it makes the reply to a command. */
static struct scard_host_turn echo(void *context, const uint8_t *command, size_t count, size_t granted)
{
    struct card *card = context;
    struct scard_command parts;
    struct scard_host_turn turn = {SCARD_HOST_REPLY, 0, card->made, 2};
    (void)granted; /* this host never asks for time or for a field size */
    if (scard_command_decode(command, count, &parts).status != SCARD_OK || count > sizeof card->made - 2) {
        memcpy(card->made, "\x67\x00", 2);
        return turn;
    }
    memcpy(card->made, command, count);
    memcpy(card->made + count, "\x90\x00", 2);
    turn.count = count + 2;
    return turn;
}

int card_serve(const struct scard_line *line, uint64_t silence)
{
    /* T=1 with IFSC 32, BWI 4 and CWI 5. */
    static const uint8_t atr[] = {0x3B, 0x80, 0x81, 0x31, 0x20, 0x45, 0x55};
    struct scard_setup setup = {.line = *line, .t1 = {32, 4, 5}, .clock = {372, 1, 3571200}, .silence = silence,
                                .refuses_empty = true}; /* the terminal of this folder sends no empty I-block */
    struct card *card = calloc(1, sizeof *card);
    struct scard_host host = {card, echo};
    int result = -1;
    if (card == NULL) {
        return -1;
    }
    setup.command = card->command;
    setup.command_room = sizeof card->command;
    setup.answer = card->reply;
    setup.answer_room = sizeof card->reply;
    if (scard_card_session_begin(&card->session, &setup, &host).status == SCARD_OK
        && line->send(line->context, atr, sizeof atr) == 0
        && scard_card_session_serve(&card->session).kind == SCARD_SESSION_FAILED) {
        result = 0;
    }
    free(card);
    return result;
}
