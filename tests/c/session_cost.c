/* An exchange of 64 KiB each way between two sessions in steps, over a line that delivers whole bursts. With a number,
 * it makes so many exchanges: what one of them costs is the difference that more of them make, as a counter of
 * instructions sees it (tools/gate/test-c).
 */
#include "check.h"

enum { LONGEST = 65536, FIELD = 254 };

static uint8_t octets[2][LONGEST], commands[2][LONGEST], answers[2][LONGEST];

struct end {
    uint8_t out[SCARD_BLOCK_ROOM];
    struct scard_session_next next;
};

static struct scard_lent_session terminal;
static struct scard_lent_card_session card;
static struct end ends[2]; /* the terminal and the card */

#define TERMINAL &terminal, commands[0], LONGEST, answers[0], LONGEST
#define CARD &card, commands[1], LONGEST, answers[1], LONGEST

static void begin(void)
{
    struct scard_lent_setup setup = setup_of(FIELD, 4, 13);
    setup.silence = UINT64_MAX;
    CHECK(scard_lent_session_begin(TERMINAL, &setup).status == SCARD_OK);
    CHECK(scard_lent_card_session_begin(CARD, &setup).status == SCARD_OK);
    ends[1].next = scard_lent_card_session_serve(CARD, 0);
}

static void step(int which, enum scard_line_event event, const uint8_t *came, size_t count)
{
    struct end *end = &ends[which];
    end->next = which == 0
        ? scard_lent_session_step(TERMINAL, (uint8_t)event, came, count, 0, end->out, sizeof end->out)
        : scard_lent_card_session_step(CARD, (uint8_t)event, came, count, 0, end->out, sizeof end->out);
}

/* Sends the block of an end. Returns the other end, which takes it. */
static int pass(int which)
{
    const size_t count = (size_t)ends[which].next.count;
    step(which, SCARD_EVENT_SENT, NULL, 0);
    step(1 - which, SCARD_EVENT_CAME, ends[which].out, count);
    return 1 - which;
}

/* Does what the ends say until the terminal rests. The card's host replies at once. */
static void run(void)
{
    int which = 0;
    for (;;) {
        switch (ends[which].next.kind) {
        case SCARD_SEND:
            which = pass(which);
            break;
        case SCARD_SESSION_WAIT:
            step(which, SCARD_EVENT_SILENT, NULL, 0);
            break;
        default:
            if (which == 0) {
                return;
            }
            ends[1].next = scard_lent_card_session_reply(CARD, octets[1], LONGEST, 0, ends[1].out,
                                                         sizeof ends[1].out);
        }
    }
}

int main(int count, char **words)
{
    int left = count > 1 ? atoi(words[1]) : 1;
    size_t place;
    for (place = 0; place < LONGEST; place++) {
        octets[0][place] = (uint8_t)(place * 7);
        octets[1][place] = (uint8_t)(place * 13);
    }
    begin();
    ends[0].next = scard_lent_session_ask_ifs(TERMINAL, FIELD, 0, ends[0].out, sizeof ends[0].out);
    run();
    CHECK(ends[0].next.kind == SCARD_IFS_SET);
    for (; left > 0; left--) {
        ends[0].next = scard_lent_session_exchange(TERMINAL, octets[0], LONGEST, 0, ends[0].out, sizeof ends[0].out);
        run();
        CHECK(ends[0].next.kind == SCARD_DONE && ends[0].next.count == LONGEST);
        CHECK(memcmp(answers[0], octets[1], LONGEST) == 0 && memcmp(commands[1], octets[0], LONGEST) == 0);
    }
    return verdict_of_checks("session_cost");
}
