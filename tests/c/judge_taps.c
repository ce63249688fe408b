/* The judge accuses neither end of this library, whatever the line damages and loses, and whatever of it a tap sees: all
 * sessions of some plans with up to three faults among their first blocks. A block that the tap misses is lost.
 */
#include "check.h"

enum { PLACES = 7, ENDLESS = 120, ROOM = 128 };

/* What the tap sees of a block, and what comes to the other end: the block, damaged octets, or nothing. */
static const char KINDS[][3] = {"bb", "bd", "b-", "dd", "d-", "--", "db"};
enum { FAULTS = sizeof KINDS / sizeof KINDS[0] };

/* A session. In `calls` the terminal makes an exchange at x, and asks for a size at i. In `host`, for each command, the
 * card's host asks for time at w, for a size at i, and replies at r.
 */
struct plan {
    const char *calls, *host;
    size_t command, reply;         /* lengths */
    size_t card_room, answer_room; /* of the card's buffer for commands, and of the terminal's for answers */
    uint8_t ifsc;
};

static const struct plan PLANS[] = {
    {"xxx", "r", 5, 2, ROOM, ROOM, 32},    {"xx", "r", 11, 2, ROOM, ROOM, 4},   {"xx", "r", 5, 80, ROOM, ROOM, 32},
    {"xx", "wwr", 5, 2, ROOM, ROOM, 32},   {"xxx", "ir", 24, 2, ROOM, ROOM, 8}, {"ixix", "r", 5, 40, ROOM, ROOM, 32},
    {"ixx", "iwr", 9, 20, ROOM, ROOM, 5},  {"xx", "r", 5, 80, ROOM, 40, 32},    {"xx", "r", 24, 2, 10, ROOM, 8},
};

static const uint8_t SIZES[] = {40, 10, 60, 16};

/* Both ends, the block that the last turn sends, and what came of it. */
static struct scard_lent_terminal terminal;
static struct scard_lent_card card;
static uint8_t command[ROOM], answer[ROOM], taken[ROOM], reply[ROOM], message[ROOM];
static uint8_t block[SCARD_BLOCK_ROOM], came[SCARD_BLOCK_ROOM];
static struct scard_lent_judge judge;
static const struct plan *plan;
static uint8_t faults[PLACES];
static size_t passed, host_at, sizes;
static int is_told, accused;

#define TERMINAL &terminal, command, ROOM, answer, plan->answer_room
#define CARD &card, taken, plan->card_room, reply, ROOM

/* Copies the block, with its last octet changed if it is damaged. */
static void copied(uint8_t *to, size_t count, char how, uint8_t change)
{
    memcpy(to, block, count);
    to[count - 1] ^= how == 'd' ? change : 0;
}

/* Shows the judge what the tap sees of the block. */
static void tapped(uint8_t from, size_t count, const char *kind)
{
    uint8_t seen[SCARD_BLOCK_ROOM], arrival = SCARD_ARRIVAL_UNSAID;
    struct scard_judgment out;
    if (kind[0] == '-') {
        return;
    }
    if (is_told) {
        arrival = kind[1] == '-' ? SCARD_ARRIVAL_LOST : SCARD_ARRIVAL_CAME;
    }
    copied(seen, count, kind[0], 0x5A);
    CHECK(scard_lent_judge_block(&judge, from, seen, count, arrival, came, count, &out).status == SCARD_OK);
    accused += out.verdict == SCARD_JUDGED_DEVIATION;
}

/* Passes the block of an end over the line. Returns whether anything came to the other end. */
static int passes(uint8_t from, size_t count)
{
    const char *kind = KINDS[passed < PLACES ? faults[passed] : 0];
    passed++;
    copied(came, count, kind[1], 0x33);
    tapped(from, count, kind);
    return kind[1] != '-';
}

static uint8_t next_size(void)
{
    return SIZES[sizes++ % sizeof SIZES];
}

/* The host's next act on its command. */
static struct scard_turn hosted(void)
{
    char act = plan->host[host_at++];
    if (act == 'w') {
        return scard_lent_card_more_time(CARD, 3, block, sizeof block);
    }
    if (act == 'i') {
        return scard_lent_card_ask_ifs(CARD, next_size(), block, sizeof block);
    }
    host_at = 0;
    return scard_lent_card_reply(CARD, message, plan->reply, block, sizeof block);
}

/* The terminal's turn after the end of its waiting time. */
static struct scard_turn quiet(void)
{
    struct scard_judgment out;
    scard_lent_judge_quiet(&judge, &out);
    CHECK(is_told || out.silence != SCARD_SILENCE_CERTAIN);
    return scard_lent_terminal_quiet(TERMINAL, block, sizeof block);
}

/* Sends the terminal's block. Returns its turn after what came of it. */
static struct scard_turn sent(size_t count)
{
    struct scard_turn turn;
    if (!passes(SCARD_END_TERMINAL, count)) {
        return quiet();
    }
    turn = scard_lent_card_received(CARD, came, count, block, sizeof block);
    if (turn.kind == SCARD_DONE) {
        turn = hosted();
    }
    CHECK(turn.kind == SCARD_SEND);
    if (!passes(SCARD_END_CARD, turn.count)) {
        return quiet();
    }
    return scard_lent_terminal_received(TERMINAL, came, turn.count, block, sizeof block);
}

/* Makes a call of the terminal to its end. Returns whether the card still answers. */
static int called(char call)
{
    struct scard_turn turn = call == 'i'
        ? scard_lent_terminal_ask_ifs(TERMINAL, next_size(), block, sizeof block)
        : scard_lent_terminal_transmit(TERMINAL, message, plan->command, block, sizeof block);
    while (turn.kind == SCARD_SEND && passed < ENDLESS) {
        turn = sent(turn.count);
    }
    CHECK(turn.kind == SCARD_DONE || turn.kind == SCARD_IFS_SET || turn.kind == SCARD_GIVEN_UP
          || turn.kind == SCARD_DEAD);
    return turn.kind != SCARD_DEAD;
}

static void session(void)
{
    const char *call = plan->calls;
    passed = host_at = sizes = 0;
    accused = 0;
    CHECK(scard_lent_terminal_begin(TERMINAL, plan->ifsc, 4, 5).status == SCARD_OK);
    CHECK(scard_lent_card_begin(CARD, plan->ifsc, 4, 5).status == SCARD_OK);
    CHECK(scard_lent_judge_begin(&judge, plan->ifsc).status == SCARD_OK);
    while (*call != 0 && called(*call)) {
        call++;
    }
    if (accused > 0) {
        fprintf(stderr, "plan %d, told %d: faults", (int)(plan - PLANS), is_told);
        for (passed = 0; passed < PLACES; passed++) {
            fprintf(stderr, " %s", KINDS[faults[passed]]);
        }
        fprintf(stderr, "\n");
    }
    CHECK(accused == 0);
}

/* Makes all sessions with so many more faults, from a block on. Only a tap that knows what came sees damage in a block
 * that came whole.
 */
static void sessions(size_t from, int more)
{
    session();
    for (; more > 0 && from < PLACES; from++) {
        for (faults[from] = 1; faults[from] < FAULTS - !is_told; faults[from]++) {
            sessions(from + 1, more - 1);
        }
        faults[from] = 0;
    }
}

int main(void)
{
    size_t place;
    for (place = 0; place < ROOM; place++) {
        message[place] = (uint8_t)place;
    }
    for (plan = PLANS; plan < PLANS + sizeof PLANS / sizeof PLANS[0]; plan++) {
        for (is_told = 0; is_told < 2; is_told++) {
            sessions(0, 3);
        }
    }
    return verdict_of_checks("judge_taps");
}
