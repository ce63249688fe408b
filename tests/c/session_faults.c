/* Sessions over a line that is as bad as a real one: the results of exchanges, by the kind of fault, as the ends take
 * empty I-blocks and as they refuse them. The first four kinds are one changed octet of a block, a cut at its end, and
 * octets or zeros added at its end. With these no answer is wrong, and the card acts on no command that wasn't sent and
 * on no command twice. If the ends refuse empty I-blocks, the same holds of all kinds up to an echo that the setup
 * doesn't declare. But if octets are lost at the front, the rest of a block can be a block, by its octets. Some of a
 * million exchanges meet that. For the other kinds the counts are printed.
 *
 * session_faults [EXCHANGES [RATE [KIND [SEED]]]] makes EXCHANGES exchanges of each kind, or only of KIND, with a fault
 * in RATE of 1,000 blocks. With TRACE in the environment it prints each block of the sessions that go wrong.
 */
#define _XOPEN_SOURCE 700
#include "rough.h"

enum { DATA_RANDOM, DATA_ZEROS, DATA_BLOCKS, DATA_KINDS, KEPT = 8 };

static const char *const names[] = {"one octet changed", "end cut", "octets added", "zeros added", "front lost",
                                    "front lost, zeros", "octets lost", "octets inserted", "zeros inserted",
                                    "octet doubled", "octets repeated", "pause of 1 to 5 CWT", "echo, undeclared",
                                    "two octets changed", "octets swapped", "echo, no clock",
                                    "pause of 1 to 3 BWT", "noise before", "noise apart before", "noise after",
                                    "block twice", "block late", "all of them"};

struct counts {
    unsigned long exchanges, right, given_up, over, no_status, wrong, unsent, twice, harmed;
};

static struct counts counts;

/* The commands of a session, the newest at `number` modulo KEPT, and which the card acted on. */
static struct kept {
    uint8_t octets[ROUGH_MESSAGE];
    size_t count;
    bool acted;
} kept[KEPT];
static unsigned number;
static uint8_t reply[ROUGH_MESSAGE];
static size_t reply_count;
static int data, asks;
static bool refuses; /* both ends refuse empty I-blocks */

/* ---- messages ---- */

/* Fills a message from an offset on with whole blocks. After some of them an octet makes the front of the message a
 * block too, of either number, if LEN fits.
 */
static void fill_blocks(uint8_t *octets, size_t at, size_t count)
{
    static const char *const texts[] = {"000002900092", "0040029000D2", "00800080", "00900090", "00E000E0", "00C000C0",
                                        "0000040020000125", "0040040020000165", "00000000", "00400040"};
    while (at < count) {
        const char *text = texts[rough_throw(sizeof texts / sizeof *texts)];
        size_t digits = strlen(text) / 2, place;
        for (place = 0; place < digits && at < count; place++) {
            octets[at++] = (uint8_t)(digit_of(text[2 * place]) * 16 + digit_of(text[2 * place + 1]));
        }
        if (at < count) {
            octets[at] = (uint8_t)(scard_lrc(octets, at) ^ at ^ (rough_throw(2) * 0x40));
            at += rough_throw(2);
        }
    }
}

static void fill(uint8_t *octets, size_t from, size_t count)
{
    size_t at;
    memset(octets + from, 0, count - from);
    if (data == DATA_BLOCKS) {
        fill_blocks(octets, from, count);
    }
    for (at = from; data == DATA_RANDOM && at < count; at++) {
        octets[at] = (uint8_t)rough_throw(256);
    }
}

static size_t some_length(void)
{
    return rough_throw(8) == 0 ? rough_throw(ROUGH_MESSAGE - 10) : rough_throw(40);
}

/* Makes the next command and its reply. The number of the command is in P1 and P2, and in the status bytes. */
static void make_exchange(void)
{
    static const uint8_t instructions[] = {0xA4, 0xB0, 0x20, 0xCB, 0xDA, 0x88};
    struct kept *now = &kept[++number % KEPT];
    size_t length = some_length();
    memset(now->octets, 0, 5);
    now->octets[1] = instructions[rough_throw(sizeof instructions)];
    now->octets[2] = (uint8_t)(number >> 8);
    now->octets[3] = (uint8_t)number;
    now->count = 4 + length;
    fill(now->octets, 4, now->count);
    now->acted = false;
    length = some_length();
    fill(reply, 0, length);
    reply[length] = (uint8_t)(0x60 + (number >> 8) % 0x10);
    reply[length + 1] = (uint8_t)number;
    reply_count = length + 2;
}

static bool is_kept(const struct kept *one, const uint8_t *octets, size_t count)
{
    return one->count == count && memcmp(one->octets, octets, count) == 0;
}

static void acts(const uint8_t *octets, size_t count)
{
    unsigned back;
    for (back = 0; back < KEPT && back < number; back++) {
        struct kept *one = &kept[(number - back) % KEPT];
        if (is_kept(one, octets, count)) {
            counts.twice += back > 0 || one->acted;
            one->acted = true;
            return;
        }
    }
    counts.unsent++;
}

/* The card's application. It works for some time, and may ask for more time before. */
static struct scard_host_turn act(void *context, const uint8_t *octets, size_t count, size_t granted)
{
    struct scard_host_turn turn = {SCARD_HOST_REPLY, 0, reply, reply_count};
    (void)context;
    if (granted == 0) {
        asks = rough_throw(16) == 0 ? 1 + (int)rough_throw(2) : 0;
        acts(octets, count);
    }
    if ((int)granted < asks) {
        turn.kind = granted == 0 ? SCARD_HOST_TIME : SCARD_HOST_IFS;
        turn.number = granted == 0 ? (uint8_t)(1 + rough_throw(3)) : (uint8_t)(8 + rough_throw(246));
    }
    rough_card_pass(rough.now + rough_throw((uint32_t)(rough.terminal.bwt / 2)), false);
    return turn;
}

static const struct scard_host host = {NULL, act};

/* ---- exchanges ---- */

/* Three of four sessions have a clock, and all whose echo has to be seen. */
static bool has_clock(void)
{
    return rough.kind == ROUGH_RETURNED || (rough.kind != ROUGH_RETURNED_UNSEEN && rough_throw(4) > 0);
}

static void begins(void)
{
    static const uint8_t times[][2] = {{0, 5}, {1, 3}, {4, 5}, {0, 0}, {2, 9}};
    static const uint8_t sizes[] = {32, 254, 8, 100};
    const uint8_t *time = times[rough_throw(5)];
    struct scard_t1 t1;
    uint64_t silence = 0;
    int end;
    t1.ifsc = sizes[rough_throw(4)];
    t1.bwi = time[0];
    t1.cwi = time[1];
    rough.setups[0] = rough_setup(0, t1, 0);
    if (rough_throw(3) == 0) {
        CHECK(scard_session_begin(&rough.terminal, &rough.setups[0]).status == SCARD_OK);
        silence = rough.terminal.cwt;
    }
    rough.setups[0].silence = silence;
    rough.setups[1] = rough_setup(1, t1, silence);
    rough.setups[0].echo = rough.setups[1].echo = rough_throw(4) == 0 && !rough_returns();
    rough.setups[0].refuses_empty = rough.setups[1].refuses_empty = refuses;
    for (end = 0; end < 2; end++) {
        rough.setups[end].line.now = has_clock() ? rough_now : NULL;
    }
    rough.ends[0].by_octets = rough_throw(32) == 0;
    rough.ends[1].by_octets = rough_throw(32) == 0;
    data = (int)rough_throw(DATA_KINDS);
    number = 0;
    rough_reset(&host);
}

static bool is_right(struct scard_turn turn)
{
    return turn.count == reply_count && memcmp(rough.answers[0], reply, reply_count) == 0
        && kept[number % KEPT].acted;
}

/* Makes one exchange, or now and then sets a new field size. Returns false if the session is over. */
static bool exchanges(void)
{
    struct scard_turn turn;
    rough_pass(rough.now + rough_throw(3) * rough_throw((uint32_t)rough.terminal.bwt), false);
    if (rough_throw(20) == 0) {
        turn = scard_session_ask_ifs(&rough.terminal, (uint8_t)(8 + rough_throw(247)));
        return turn.kind == SCARD_IFS_SET || turn.kind == SCARD_GIVEN_UP;
    }
    make_exchange();
    counts.exchanges++;
    turn = scard_session_exchange(&rough.terminal, kept[number % KEPT].octets, kept[number % KEPT].count);
    if (turn.kind == SCARD_DONE) {
        counts.right += is_right(turn);
        counts.wrong += !is_right(turn);
    } else if (turn.kind == SCARD_SESSION_NO_STATUS) {
        counts.no_status++;
    } else {
        counts.given_up += turn.kind == SCARD_GIVEN_UP;
        counts.over += turn.kind != SCARD_GIVEN_UP;
    }
    return turn.kind == SCARD_DONE || turn.kind == SCARD_GIVEN_UP || turn.kind == SCARD_SESSION_NO_STATUS;
}

static unsigned long bad(void)
{
    return counts.wrong + counts.unsent + counts.twice;
}

/* Runs a session of 30 exchanges, from a state of the random generator. */
static void session(uint64_t die, bool traces)
{
    int at;
    rough.die = die;
    rough.traces = traces;
    begins();
    for (at = 0; at < 30 && exchanges(); at++) {
        if (traces) {
            printf("exchange %d: wrong %lu, not sent %lu, twice %lu\n", at, counts.wrong, counts.unsent, counts.twice);
        }
    }
}

static void row(int kind, unsigned rate)
{
    printf("%-20s %3u of 1,000, empty %s: %lu exchanges, %lu blocks met it, %lu right, %lu given up, %lu over,"
           " %lu no status, %lu wrong, %lu not sent, %lu twice\n",
           names[kind], rate, refuses ? "refused" : "taken", counts.exchanges, counts.harmed, counts.right,
           counts.given_up, counts.over, counts.no_status, counts.wrong, counts.unsent, counts.twice);
    fflush(stdout);
}

/* Runs sessions in which blocks have this kind of fault, until they have made this many exchanges. */
static void of_kind(int kind, unsigned rate, unsigned long most, uint64_t seed)
{
    const bool traces = getenv("TRACE") != NULL;
    memset(&counts, 0, sizeof counts);
    rough.kind = kind;
    rough.rate = rate;
    rough.harmed = 0;
    while (counts.exchanges < most) {
        unsigned long before = bad();
        struct counts then = counts;
        uint64_t die = ++seed * 0x9E3779B97F4A7C15u | 1;
        session(die, false);
        if (traces && bad() > before) {
            counts = then;
            session(die, true);
            most = 0;
        }
    }
    counts.harmed = rough.harmed;
    row(kind, rate);
    if (kind <= (refuses ? ROUGH_RETURNED : ROUGH_ZEROS_AFTER) || rate == 0) {
        CHECK(bad() <= (kind == ROUGH_FRONT_LOST ? counts.exchanges / 250000 : 0) && counts.no_status == 0);
    }
    CHECK(rate > 0 || counts.right == counts.exchanges);
    CHECK(counts.right > counts.exchanges / 2 || rough_returns());
    CHECK(counts.right + counts.given_up + counts.over + counts.no_status + counts.wrong == counts.exchanges);
}

int main(int count, char **words)
{
    static const unsigned rates[] = {10, 50, 200};
    const unsigned long most = count > 1 ? strtoul(words[1], NULL, 10) : 1500;
    const unsigned rate = count > 2 ? (unsigned)strtoul(words[2], NULL, 10) : 0;
    const int only = count > 3 ? atoi(words[3]) : -1;
    const uint64_t seed = count > 4 ? strtoull(words[4], NULL, 10) : 0;
    int kind;
    size_t at;
    for (kind = 0; kind <= ROUGH_KINDS; kind++) {
        for (at = 0; at < 6; at++) {
            refuses = at % 2 == 1;
            if ((only < 0 || only == kind) && (rate == 0 || rate == rates[at / 2])) {
                of_kind(kind, rates[at / 2], most, seed);
            }
        }
    }
    if (only < 0) {
        of_kind(ROUGH_CHANGED, 0, most, seed);
    }
    return verdict_of_checks("session_faults");
}
