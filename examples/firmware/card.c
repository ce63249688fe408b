/* The image of a card whose calls wait. */
#include "trial_card.h"

static struct scard_card_session session;
static struct scard_setup setup;
static struct board_line line;

int main(void)
{
    struct scard_host host;
    struct scard_turn turn;
    board_begin();
    line.in_million = IN_MILLION;
    line.die = 2;
    setup = trial_setup();
    setup.line = board_line_of(&line);
    setup.command = kept_command;
    setup.command_room = sizeof kept_command;
    setup.answer = kept_answer;
    setup.answer_room = sizeof kept_answer;
    host.context = NULL;
    host.serve = serve;
    if (scard_card_session_begin(&session, &setup, &host).status != SCARD_OK) {
        board_say("no session\n");
        return 2;
    }
    do {
        turn = scard_card_session_serve(&session);
    } while (turn.kind == SCARD_SESSION_FAILED);
    board_say("the card ended\n");
    return 3;
}
