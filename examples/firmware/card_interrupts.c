/* The image of a card that interrupts drive. No call in it waits. */
#include "interrupts.h"
#include "trial_card.h"

static struct scard_lent_card_session session;
static struct wire wire;

/* The state and the buffers of the session, as the first five arguments of its calls, and the last two arguments. */
#define SESSION SCARD_LENT(session, kept_command, kept_answer)
#define BLOCK wire.block, sizeof wire.block

/* Asks the host about the command. */
static void ask_host(void)
{
    const struct scard_host_turn host = serve(NULL, kept_command, (size_t)wire.next.count, (size_t)session.granted);
    const uint64_t now = board_now();
    wire_begins(&wire, host.kind == SCARD_HOST_TIME
                           ? scard_lent_card_session_more_time(SESSION, host.number, now, BLOCK)
                           : scard_lent_card_session_reply(SESSION, host.octets, host.count, now, BLOCK));
}

static void step(const struct wire_came *came)
{
    wire_begins(&wire,
                scard_lent_card_session_step(SESSION, came->event, came->octets, came->count, board_now(), BLOCK));
}

/* The session rests: the host owes a reply, or the line failed. */
static void rests(void)
{
    if (wire.next.kind == SCARD_DONE) {
        ask_host();
    } else {
        wire_begins(&wire, scard_lent_card_session_serve(SESSION, board_now()));
    }
}

int main(void)
{
    const struct scard_lent_setup numbers = trial_numbers();
    struct wire_came came;
    board_begin();
    if (scard_lent_card_session_begin(SESSION, &numbers).status != SCARD_OK) {
        return 2;
    }
    wire_begin(&wire, IN_MILLION, 2);
    wire_begins(&wire, scard_lent_card_session_serve(SESSION, board_now()));
    while (wire.next.kind != SCARD_SESSION_ECHO) {
        if (wire_rests(&wire)) {
            rests();
        } else if (wire_takes(&wire, &came)) {
            step(&came);
        } else {
            wire_sleep(&wire);
        }
    }
    board_say("the card ended\n");
    return 3;
}
