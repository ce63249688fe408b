/* A terminal gives up an exchange at each step of it, by scard_lent_session_resync. No command is acted on twice, and
 * the next exchange is right. Before the terminal has sent all blocks of the command, the card hasn't acted on it.
 */
#include "check.h"
#include "scard_session.h"

enum { ROOM = 320, COMMAND = 100, REPLY = 90, IFSC = 32, COMMAND_BLOCKS = 4, MOST_STEPS = 200 };

/* One end, the octets on the way to it, and the one thing that it does now. */
struct end {
    uint8_t command[ROOM], answer[ROOM], block[SCARD_BLOCK_ROOM], came[ROOM];
    size_t count;
    struct scard_session_next next;
};

static struct scard_lent_session terminal;
static struct scard_lent_card_session card;
static struct scard_lent_setup setup;
static struct end at_terminal, at_card;
static unsigned acted[256]; /* how often the card's host acted on each command, by its number */

#define TERMINAL SCARD_LENT(terminal, at_terminal.command, at_terminal.answer)
#define CARD SCARD_LENT(card, at_card.command, at_card.answer)
#define BLOCK(end) 0, (end).block, sizeof(end).block

/* Acts on a command, and replies. */
static struct scard_session_next host(void)
{
    uint8_t reply[REPLY];
    memset(reply, at_card.command[2], sizeof reply);
    acted[at_card.command[2]]++;
    return scard_lent_card_session_reply(CARD, reply, sizeof reply, BLOCK(at_card));
}

static bool does_more(struct scard_session_next next)
{
    return next.kind == SCARD_SEND || next.kind == SCARD_SESSION_WAIT;
}

/* Puts the block of one end onto the way to the other. */
static void put_block(const struct end *from, struct end *to)
{
    memcpy(to->came + to->count, from->block, (size_t)from->next.count);
    to->count += (size_t)from->next.count;
}

/* Returns what happens to an end: its block was sent, octets came, or its wait is over. */
static uint8_t event_at(struct end *end, struct end *other)
{
    if (end->next.kind == SCARD_SEND) {
        put_block(end, other);
        return SCARD_EVENT_SENT;
    }
    return end->count > 0 ? SCARD_EVENT_CAME : SCARD_EVENT_SILENT;
}

/* A step of the card. */
static void card_steps(void)
{
    const uint8_t event = event_at(&at_card, &at_terminal);
    const size_t count = event == SCARD_EVENT_CAME ? at_card.count : 0;
    uint8_t octets[ROOM];
    memcpy(octets, at_card.came, count);
    at_card.count -= count;
    at_card.next = scard_lent_card_session_step(CARD, event, octets, count, BLOCK(at_card));
    if (at_card.next.kind == SCARD_DONE) {
        at_card.next = host();
    }
    CHECK(does_more(at_card.next));
}

/* A step of the terminal. */
static void terminal_steps(void)
{
    const uint8_t event = event_at(&at_terminal, &at_card);
    const size_t count = event == SCARD_EVENT_CAME ? at_terminal.count : 0;
    uint8_t octets[ROOM];
    memcpy(octets, at_terminal.came, count);
    at_terminal.count -= count;
    at_terminal.next = scard_lent_session_step(TERMINAL, event, octets, count, BLOCK(at_terminal));
}

/* The card comes first: it sends, it takes what came, or its wait is over before the terminal's. */
static bool is_cards_turn(void)
{
    return at_card.next.kind == SCARD_SEND || at_card.count > 0
        || (at_terminal.count == 0 && at_terminal.next.kind != SCARD_SEND
            && at_card.next.wait < at_terminal.next.wait);
}

/* Goes on until the terminal's call is over, or for so many steps of the terminal. Returns how many it took. */
static unsigned runs(unsigned most)
{
    unsigned steps = 0;
    while (does_more(at_terminal.next) && steps < most) {
        if (is_cards_turn()) {
            card_steps();
        } else {
            terminal_steps();
            steps++;
        }
    }
    return steps;
}

static void begins(uint8_t number)
{
    uint8_t command[COMMAND];
    memset(command, 0, sizeof command);
    command[2] = number;
    at_terminal.next = scard_lent_session_exchange(TERMINAL, command, sizeof command, BLOCK(at_terminal));
}

/* The answer is the reply to the command with this number, and the host acted on it once. */
static bool is_answered(uint8_t number)
{
    uint8_t reply[REPLY];
    memset(reply, number, sizeof reply);
    return at_terminal.next.kind == SCARD_DONE && at_terminal.next.count == REPLY
        && memcmp(at_terminal.answer, reply, REPLY) == 0 && acted[number] == 1;
}

static void begin_both(void)
{
    at_terminal.count = at_card.count = 0;
    memset(acted, 0, sizeof acted);
    CHECK(scard_lent_session_begin(TERMINAL, &setup).status == SCARD_OK);
    CHECK(scard_lent_card_session_begin(CARD, &setup).status == SCARD_OK);
    at_card.next = scard_lent_card_session_serve(CARD, 0);
}

/* Gives up command 1 after so many steps of the terminal. Returns whether the exchange had more of them. */
static bool gives_up_after(unsigned steps)
{
    unsigned taken, blocks;
    begin_both();
    begins(1);
    taken = runs(steps);
    if (!does_more(at_terminal.next)) {
        CHECK(is_answered(1));
        return false;
    }
    CHECK(taken == steps);
    blocks = terminal.line.progress.blocks - (at_terminal.next.kind == SCARD_SEND);
    at_terminal.next = scard_lent_session_resync(TERMINAL, &setup, BLOCK(at_terminal));
    runs(MOST_STEPS);
    CHECK(at_terminal.next.kind == SCARD_GIVEN_UP && acted[1] <= (blocks >= COMMAND_BLOCKS));
    begins(2);
    runs(MOST_STEPS);
    CHECK(is_answered(2) && acted[1] <= (blocks >= COMMAND_BLOCKS));
    return true;
}

int main(void)
{
    unsigned steps = 0, acted_on = 0;
    setup = setup_of(IFSC, 4, 5);
    setup.refuses_empty = 1;
    while (gives_up_after(steps)) {
        acted_on += acted[1];
        steps++;
    }
    CHECK(steps > 10 && acted_on > 0 && acted_on < steps);
    printf("given up at each of %u steps: the card acted on %u of these commands, on none twice\n", steps, acted_on);
    return verdict_of_checks("session_cancel");
}
