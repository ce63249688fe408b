/* The image of a terminal that interrupts drive. It makes the exchanges of terminal.c, with the same checks, and no
 * call in it waits. It stops at the first wrong exchange.
 */
#include "interrupts.h"
#include "trial_terminal.h"

static struct scard_lent_session session;
static struct wire wire;
static uint32_t number, right, given_up, wrong;

/* The state and the buffers of the session, as the first five arguments of its calls, and the last two arguments. */
#define SESSION SCARD_LENT(session, kept_command, kept_answer)
#define BLOCK wire.block, sizeof wire.block

static void begin_exchange(void)
{
    make_command(++number);
    wire_begins(&wire, scard_lent_session_exchange(SESSION, command, command_count, board_now(), BLOCK));
}

/* Begins again. The terminal can't reset a dead card here, so it sends RESYNCH until the card answers. */
static void begin_resync(void)
{
    const struct scard_lent_setup numbers = trial_numbers();
    wire_begins(&wire, scard_lent_session_resync(SESSION, &numbers, board_now(), BLOCK));
}

static void step(const struct wire_came *came)
{
    wire_begins(&wire, scard_lent_session_step(SESSION, came->event, came->octets, came->count, board_now(), BLOCK));
}

/* The session rests. A line that returns what is sent on it is the wrong line: RESYNCH doesn't help there. */
static void rests(void)
{
    switch (wire.next.kind) {
    case SCARD_DONE:
        right += is_right((size_t)wire.next.count);
        wrong += !is_right((size_t)wire.next.count);
        begin_exchange();
        break;
    case SCARD_GIVEN_UP:
        given_up++;
        begin_exchange();
        break;
    case SCARD_SESSION_NO_STATUS:
    case SCARD_SESSION_ECHO:
        wrong++;
        break;
    default:
        begin_resync();
    }
}

int main(void)
{
    const struct scard_lent_setup numbers = trial_numbers();
    struct wire_came came;
    board_begin();
    if (scard_lent_session_begin(SESSION, &numbers).status != SCARD_OK) {
        return 2;
    }
    wire_begin(&wire, IN_MILLION, 1);
    begin_exchange();
    while (number <= EXCHANGES && wrong == 0) {
        if (wire_rests(&wire)) {
            rests();
        } else if (wire_takes(&wire, &came)) {
            step(&came);
        } else {
            wire_sleep(&wire);
        }
    }
    return report(right, given_up, wrong);
}
