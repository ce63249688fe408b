/* The image of a terminal whose calls wait. It exchanges commands with the card over a line that loses and damages
 * octets. The program prints `N right, M given up, 0 wrong`.
 */
#include "trial_terminal.h"

static struct scard_session session;
static struct scard_setup setup;
static struct board_line line;

/* Makes one exchange. Returns 1 if it is right, 0 if it was given up, and -1 if it is wrong. A line that returns what
 * is sent on it is the wrong line: RESYNCH doesn't help there.
 */
static int exchange(uint32_t number)
{
    struct scard_turn turn;
    make_command(number);
    turn = scard_session_exchange(&session, command, command_count);
    if (turn.kind == SCARD_DONE) {
        return is_right((size_t)turn.count) ? 1 : -1;
    }
    if (turn.kind == SCARD_SESSION_NO_STATUS) {
        return -1;
    }
    /* the terminal can't reset a dead card here, so it sends RESYNCH until the card answers */
    while (turn.kind != SCARD_GIVEN_UP && turn.kind != SCARD_SESSION_ECHO) {
        turn = scard_session_resync(&session, &setup);
    }
    return turn.kind == SCARD_GIVEN_UP ? 0 : -1;
}

int main(void)
{
    uint32_t number, right = 0, given_up = 0, wrong = 0;
    board_begin();
    line.in_million = IN_MILLION;
    line.die = 1;
    setup = trial_setup();
    setup.line = board_line_of(&line);
    setup.command = kept_command;
    setup.command_room = sizeof kept_command;
    setup.answer = kept_answer;
    setup.answer_room = sizeof kept_answer;
    if (scard_session_begin(&session, &setup).status != SCARD_OK) {
        board_say("no session\n");
        return 2;
    }
    for (number = 1; number <= EXCHANGES; number++) {
        int said = exchange(number);
        right += said > 0;
        given_up += said == 0;
        wrong += said < 0;
    }
    return report(right, given_up, wrong);
}
