/* How a session takes bursts from its line: pieces, silence, interrupted calls and false lengths. Also its clocks. */
#include "check.h"
#include "lined.h"

/* What the line delivers, one word for each call: "" silence, "!" a failure, "?" an interrupted call, "+" more octets
 * than there is room for, or else octets in hexadecimal. A call takes as many of the octets as it has room for. */
struct script {
    const char *const *words;
    size_t taken; /* digits of the first word that were taken */
    uint64_t waited;
    int calls;
};

static int receive(void *context, uint8_t *octets, size_t room, uint64_t microseconds)
{
    struct script *script = (struct script *)context;
    const char *word = *script->words;
    struct octets all;
    size_t count;
    script->calls++;
    script->waited = microseconds;
    if (word == NULL || word[0] == 0 || word[0] == '!' || word[0] == '?' || word[0] == '+') {
        script->words += word != NULL;
        return word == NULL || word[0] == 0 ? 0
             : word[0] == '!' ? SCARD_LINE_FAILED : word[0] == '?' ? SCARD_LINE_INTERRUPTED : (int)room + 1;
    }
    all = of_hex(word + script->taken);
    count = all.count < room ? all.count : room;
    memcpy(octets, all.at, count);
    free(all.at);
    script->taken += 2 * count;
    if (word[script->taken] == 0) {
        script->words++;
        script->taken = 0;
    }
    return (int)count;
}

static int send(void *context, const uint8_t *octets, size_t count)
{
    (void)context, (void)octets, (void)count;
    return 0;
}

static struct script script;
static struct scard_line line;
static struct scard_lent_line state;

/* A terminal waits as long after a broken burst as for the first octet. */
enum { FIRST = 1000, CWT = 70, AFTER = 20, BGT = 30, BROKEN = FIRST };

static void begins(struct scard_lent_line_rules rules)
{
    scard_lent_line_begin(&state, &rules);
}

static void says(const char *const *words)
{
    struct scard_lent_line_rules rules;
    memset(&script, 0, sizeof script);
    script.words = words;
    line.context = &script;
    line.send = send;
    line.receive = receive;
    memset(&rules, 0, sizeof rules);
    rules.bwt = FIRST;
    rules.cwt = CWT;
    rules.bgt = BGT;
    rules.after = AFTER;
    rules.most_time = SCARD_LINE_FOREVER;
    rules.most_blocks = UINT32_MAX;
    begins(rules);
}

/* Sends a block, which goes nowhere, and takes what comes after it. Returns what the line says then. */
static struct scard_line_next sends(void)
{
    static const uint8_t block[] = {0x00, 0xC1, 0x01, 0xFE, 0x3E};
    return lined_go(&state, &line, scard_lent_line_talk(&state, FIRST, 0), block, sizeof block);
}

/* The same for a line that owes no silence. */
static struct scard_line_next next(void)
{
    state.progress.owed = 0;
    return sends();
}

static int ends(uint8_t kind, uint64_t owed)
{
    return next().kind == kind && state.progress.owed == owed;
}

/* Returns whether the next burst is these octets. The silence that is owed after it says whether it is a whole
 * block. */
static int gives(const char *text, uint64_t owed)
{
    struct scard_line_next said = next();
    return said.kind == SCARD_NEXT_HEARD && state.progress.owed == owed
        && is_hex(state.framer.octets, (size_t)said.count, text);
}

static void whole(void)
{
    static const char *const words[] = {"00", "00", "05", "00A404", "0000A5", "", "00800080", "", "000002900092", "",
                                        "000000", "00", "", "", NULL};
    says(words);
    CHECK(gives("00000500A4040000A5", BGT) && script.waited == AFTER && script.calls == 6);
    CHECK(gives("00800080", BGT) && gives("000002900092", BGT) && gives("00000000", BGT));
    CHECK(ends(SCARD_NEXT_QUIET, 0) && script.waited == FIRST);
    state.rules.after = BGT;
    script.words = words;
    CHECK(gives("00000500A4040000A5", 0) && script.waited == BGT);
}

/* All octets until the line is silent are one burst, whatever LEN says, even if the front of the burst is a block. */
static void lies(void)
{
    static const char *const words[] = {"0000029000926A82EF", "", "00800080", "", "00800080", "00", "",
                                        "000002900092", "00800080", "", "0000FF01020309", "00800080", "",
                                        "000021", "0102", "", "0000FF", "", "00800080", "", NULL};
    says(words);
    CHECK(gives("0000029000926A82EF", BROKEN) && script.waited == CWT);
    CHECK(gives("00800080", BGT));
    CHECK(gives("0080008000", BROKEN) && script.waited == CWT);
    CHECK(gives("00000290009200800080", BROKEN));
    CHECK(gives("0000FF0102030900800080", BROKEN));
    CHECK(gives("0000210102", BROKEN) && gives("0000FF", BROKEN) && gives("00800080", BGT));
}

static void stops(void)
{
    static const char *const words[] = {"00", "", "0000", "", "000005", "", "00000500A4", "", "00800080", "", NULL};
    says(words);
    CHECK(gives("00", BROKEN) && script.waited == CWT);
    CHECK(gives("0000", BROKEN) && gives("000005", BROKEN) && gives("00000500A4", BROKEN) && gives("00800080", BGT));
}

/* An interrupted call isn't silence. A burst whose end wasn't seen is ignored. */
static void interrupted(void)
{
    static const char *const words[] = {"?", "?", "0080", "?", "0080", "?", "", "", "00", "!", "00800080", "!", "0080",
                                        "?", "", "+", NULL};
    says(words);
    CHECK(gives("00800080", BGT));
    CHECK(ends(SCARD_NEXT_QUIET, 0));
    CHECK(ends(SCARD_NEXT_FAILED, BROKEN));
    CHECK(ends(SCARD_NEXT_FAILED, BGT));
    CHECK(gives("0080", BROKEN));
    CHECK(ends(SCARD_NEXT_FAILED, 0));
}

/* On a line of whole bursts, a burst that is a whole block ends at once. Any other burst ends as on other lines. */
static void packets(void)
{
    static const char *const words[] = {"00800080", "00", "800080", "0000029000926A82EF", "", "00800080", NULL};
    says(words);
    state.rules.after = SCARD_SILENCE_NONE;
    state.rules.bgt = 0;
    CHECK(gives("00800080", 0) && script.calls == 1);
    CHECK(gives("00800080", 0) && script.calls == 3 && script.waited == CWT);
    CHECK(gives("0000029000926A82EF", BROKEN) && script.waited == CWT);
    CHECK(gives("00800080", 0) && script.calls == 6);
}

/* A burst with more octets than any block: 259 octets are returned, and the rest isn't taken for the next block. */
static void long_ones(void)
{
    static char text[2 * 300 + 1];
    const char *words[] = {text, "", "00800080", "", NULL};
    memset(text, '1', 2 * 300);
    says(words);
    CHECK(next().count == SCARD_BURST_ROOM && state.framer.count == 300 && state.progress.owed == BROKEN);
    CHECK(state.framer.octets[0] == 0x11 && state.framer.octets[SCARD_BLOCK_ROOM] == 0x11);
    CHECK(gives("00800080", BGT));
}

static int babble(void *context, uint8_t *octets, size_t room, uint64_t microseconds)
{
    (void)microseconds;
    memset(octets, 0xFF, room);
    *(long *)context += (long)room;
    return (int)room;
}

/* A line that is never silent doesn't keep a session waiting. */
static void babbles(void)
{
    long said = 0;
    says(NULL);
    line.context = &said;
    line.receive = babble;
    CHECK(next().count == SCARD_BURST_ROOM && said >= SCARD_BURST_MOST && said < 70000);
    CHECK(state.progress.owed == BROKEN);
    said = 0;
    CHECK(sends().kind == SCARD_NEXT_FAILED && state.progress.owed == BROKEN && said < 70000);
}

/* Takes what comes until the line says to send, or rests. Returns what it says then. */
static uint8_t until_sent(struct scard_line_next next)
{
    while (next.kind == SCARD_NEXT_WAIT) {
        next = lined_step(&state, &line, next, NULL, 0);
    }
    return next.kind;
}

static uint8_t late(void)
{
    return until_sent(scard_lent_line_exchange(&state, SCARD_LINE_FOREVER, 0));
}

static uint8_t settled(void)
{
    return until_sent(scard_lent_line_talk(&state, SCARD_LINE_FOREVER, 0));
}

/* Octets that nobody waited for are dropped, and the line has to be silent before the next block of a card. */
static void drops(void)
{
    static const char *const words[] = {"00E000E0", "?", "00800080", "", "", "00", "", "!", "", "00", "01", "", NULL};
    struct scard_lent_line_progress *progress = &state.progress;
    says(words);
    state.rules.is_card = 1;
    progress->owed = 0;
    CHECK(settled() == SCARD_NEXT_SEND && script.calls == 0);
    progress->owed = BGT;
    CHECK(late() == SCARD_NEXT_SEND && script.waited == BGT && progress->owed == 0 && script.calls == 4);
    CHECK(late() == SCARD_NEXT_SEND && script.waited == 0 && script.calls == 5);
    progress->owed = BROKEN;
    CHECK(late() == SCARD_NEXT_FAILED && script.waited == BROKEN && progress->owed == BROKEN && script.calls == 8);
    CHECK(settled() == SCARD_NEXT_SEND && script.waited == BROKEN && progress->owed == 0 && script.calls == 9);
    state.rules.bgt = 0;
    CHECK(late() == SCARD_NEXT_SEND && script.waited == 0 && script.calls == 12);
}

/* A wait is at most as long as the time that is left, and its length is counted. */
static void times_out(void)
{
    static const char *const words[] = {"", "", "00800080", "", "", NULL};
    const struct scard_lent_line_progress *progress = &state.progress;
    says(words);
    state.rules.most_time = FIRST + AFTER + 10;
    state.progress.owed = 0;
    CHECK(late() == SCARD_NEXT_SEND);
    CHECK(ends(SCARD_NEXT_QUIET, 0) && progress->spent == FIRST);
    CHECK(gives("00800080", BGT) && script.waited == AFTER && progress->spent == FIRST + AFTER);
    CHECK(ends(SCARD_NEXT_USED_UP, 0) && script.waited == 10 && progress->spent == FIRST + AFTER + 10);
    CHECK(ends(SCARD_NEXT_USED_UP, 0) && script.calls == 5);
}

/* A block with an octet that came damaged isn't a whole block, even if the octets are those of one. */
static void garbled(void)
{
    static const uint8_t block[] = {0x00, 0x80, 0x00, 0x80};
    struct scard_line_next said;
    says(NULL);
    state.progress.owed = 0;
    CHECK(scard_lent_line_talk(&state, FIRST, 0).kind == SCARD_NEXT_SEND);
    said = scard_lent_line_step(&state, SCARD_EVENT_SENT, NULL, 0, 0, block, sizeof block);
    CHECK(said.kind == SCARD_NEXT_WAIT && said.wait == FIRST && said.count == 0);
    said = scard_lent_line_step(&state, SCARD_EVENT_GARBLED, block, 2, 0, block, sizeof block);
    CHECK(said.kind == SCARD_NEXT_WAIT && said.wait == CWT);
    said = scard_lent_line_step(&state, SCARD_EVENT_CAME, block + 2, 2, 0, block, sizeof block);
    CHECK(said.kind == SCARD_NEXT_WAIT && said.wait == CWT);
    said = scard_lent_line_step(&state, SCARD_EVENT_SILENT, NULL, 0, 0, NULL, 0);
    CHECK(said.kind == SCARD_NEXT_HEARD && is_hex(state.framer.octets, (size_t)said.count, "00000001"));
    CHECK(state.progress.owed == BROKEN);
}

/* Returns what the line says to an event without octets, and whether that changed nothing. */
static uint8_t refuses(uint8_t event)
{
    const struct scard_lent_line before = state;
    uint8_t kind = scard_lent_line_step(&state, event, NULL, 0, 0, NULL, 0).kind;
    CHECK(memcmp(&before, &state, sizeof before) == 0);
    return kind;
}

/* Events that don't fit, octets that no call left, and a mark that is neither 0 nor 1: it counts as 1. */
static void unfit(void)
{
    struct scard_lent_line_rules rules;
    uint8_t event;
    says(NULL);
    rules = state.rules;
    for (event = SCARD_EVENT_SENT; event <= SCARD_EVENT_FAILED; event++) {
        CHECK(refuses(event) == SCARD_NEXT_ORDER);
    }
    CHECK(refuses(SCARD_EVENT_FAILED + 1) == SCARD_NEXT_ORDER);
    CHECK(scard_lent_line_exchange(&state, FIRST, 0).kind == SCARD_NEXT_WAIT);
    CHECK(refuses(SCARD_EVENT_SENT) == SCARD_NEXT_ORDER);
    state.progress.owed = 0;
    CHECK(scard_lent_line_step(&state, SCARD_EVENT_SILENT, NULL, 0, 0, NULL, 0).kind == SCARD_NEXT_SEND);
    CHECK(refuses(SCARD_EVENT_CAME) == SCARD_NEXT_ORDER && refuses(SCARD_EVENT_SILENT) == SCARD_NEXT_ORDER);
    memset(&state.progress, 0xA5, sizeof state.progress);
    CHECK(refuses(SCARD_EVENT_SILENT) == SCARD_NEXT_ORDER);
    CHECK(scard_lent_line_serve(&state, 0).kind == SCARD_NEXT_WAIT);
    rules.has_echo = 2;
    begins(rules);
    state.progress.owed = 0;
    CHECK(scard_lent_line_talk(&state, FIRST, 0).kind == SCARD_NEXT_SEND);
    CHECK(scard_lent_line_step(&state, SCARD_EVENT_SENT, NULL, 0, 0, NULL, 0).wait == CWT);
}

static struct scard_session session;

static struct scard_setup plain(void)
{
    static const struct scard_clock clock = {372, 1, 3571200};
    static uint8_t command[5], answer[2];
    struct scard_setup setup;
    memset(&setup, 0, sizeof setup);
    says(NULL);
    setup.line = line;
    setup.command = command;
    setup.command_room = sizeof command;
    setup.answer = answer;
    setup.answer_room = sizeof answer;
    setup.clock = clock;
    setup.t1.ifsc = 32;
    setup.t1.bwi = 4;
    setup.t1.cwi = 5;
    return setup;
}

static void clocks(void)
{
    static const struct scard_clock fast = {512, 8, 4000000};
    const struct scard_lent_line_rules *rules = &session.lent.line.rules;
    struct scard_setup setup = plain();
    CHECK(scard_session_begin(&session, &setup).status == SCARD_OK);
    CHECK(session.bwt == 1601146 && session.cwt == 4480 && rules->bgt == 2292 && rules->after == 2292);
    setup.clock = fast;
    setup.silence = 688;
    CHECK(scard_session_begin(&session, &setup).status == SCARD_OK);
    CHECK(session.bwt == 1428656 && session.cwt == 688 && rules->bgt == 352 && rules->after == 688);
    setup.silence = SCARD_SILENCE_NONE;
    setup.t1.bwi = setup.t1.cwi = 15;
    CHECK(scard_session_begin(&session, &setup).status == SCARD_OK && rules->bgt == 0);
    CHECK(session.bwt == 2925527216u && session.cwt == 524464);
    setup.t1.bwi = 0; /* BWT is shorter than CWT, but three quarters of the time that the session waits aren't */
    CHECK(scard_session_begin(&session, &setup).status == SCARD_OK && session.cwt == 524464);
    CHECK(session.bwt / 4 * 3 >= session.cwt && session.bwt < 700000);
}

/* An invalid setup is refused, and the session before it stays. */
static void refused(void)
{
    static const struct scard_clock still[] = {{372, 0, 3571200}, {0, 1, 3571200}, {372, 65, 3571200}, {372, 1, 999}};
    struct scard_setup setup = plain(), other;
    size_t at;
    CHECK(scard_session_begin(&session, &setup).status == SCARD_OK);
    for (at = 0; at < sizeof still / sizeof *still; at++) {
        other = setup;
        other.clock = still[at];
        CHECK(scard_session_begin(&session, &other).status == SCARD_ARGUMENT);
    }
    other = setup;
    other.t1.ifsc = 255;
    CHECK(scard_session_begin(&session, &other).status == SCARD_ARGUMENT);
    other = setup;
    other.silence = session.cwt + 1;
    CHECK(scard_session_begin(&session, &other).status == SCARD_ARGUMENT);
    other.silence--;
    CHECK(session.lent.line.rules.after == 2292 && scard_session_begin(&session, &other).status == SCARD_OK);
    CHECK(session.cwt == 4480 && session.lent.line.rules.after == 4480);
}

static struct scard_host_turn never(void *context, const uint8_t *octets, size_t count, size_t granted)
{
    struct scard_host_turn turn = {SCARD_HOST_END, 0, NULL, 0};
    (void)context, (void)octets, (void)count, (void)granted;
    return turn;
}

/* A driver may lengthen the waiting times between two calls, here by 1,000 microseconds for BWT and by 500 for CWT.
 * Returns how long a session then waits for the last word of a script.
 */
static uint64_t waits(const char *const *words, bool is_card)
{
    static const uint8_t octets[] = {0x00, 0xB0, 0x00, 0x00, 0x02};
    static struct scard_card_session card;
    const struct scard_host host = {NULL, never};
    struct scard_setup setup = plain();
    says(words);
    setup.line = line;
    CHECK(scard_session_begin(&session, &setup).status == SCARD_OK);
    CHECK(scard_card_session_begin(&card, &setup, &host).status == SCARD_OK);
    session.bwt = card.bwt += 1000;
    session.cwt = card.cwt += 500;
    if (is_card) {
        CHECK(scard_card_session_serve(&card).kind == SCARD_SESSION_FAILED);
    } else {
        CHECK(scard_session_exchange(&session, octets, sizeof octets).kind == SCARD_SESSION_FAILED);
    }
    return script.waited;
}

/* A program may change the limits of an exchange between two calls. */
static void limited(void)
{
    static const uint8_t octets[] = {0x00, 0xB0, 0x00, 0x00, 0x02};
    static const char *const words[] = {"", "", "", NULL};
    struct scard_setup setup = plain();
    says(words);
    setup.line = line;
    CHECK(scard_session_begin(&session, &setup).status == SCARD_OK);
    session.setup.most_microseconds = 500000;
    CHECK(scard_session_exchange(&session, octets, sizeof octets).kind == SCARD_SESSION_USED_UP);
    CHECK(script.waited > 400000 && script.waited < 500000 && script.calls == 3);
}

/* An I-block without information is an answer of no octets, or a damaged block if the setup says so. */
static uint8_t empty(bool refuses)
{
    static const uint8_t octets[] = {0x00, 0xB0, 0x00, 0x00, 0x02};
    static const char *const words[] = {"", "", "00000000", "", "!", NULL};
    struct scard_setup setup = plain();
    says(words);
    setup.line = line;
    setup.refuses_empty = refuses;
    CHECK(scard_session_begin(&session, &setup).status == SCARD_OK);
    return scard_session_exchange(&session, octets, sizeof octets).kind;
}

static void lengthened(void)
{
    static const char *const first[] = {"", "", "!", NULL}, *const inside[] = {"", "", "00", "!", NULL};
    static const char *const part[] = {"00", "!", NULL}, *const broken[] = {"00", "", "!", NULL};
    CHECK(waits(first, false) == 1601146 + 1000 && waits(inside, false) == 4480 + 500);
    CHECK(waits(part, true) == 4480 + 500 && waits(broken, true) == (1601146 + 1000) / 4 * 3);
}

int main(void)
{
    whole();
    lies();
    stops();
    interrupted();
    packets();
    long_ones();
    babbles();
    drops();
    times_out();
    garbled();
    unfit();
    clocks();
    refused();
    lengthened();
    limited();
    CHECK(empty(false) == SCARD_SESSION_NO_STATUS && empty(true) == SCARD_SESSION_FAILED);
    return verdict_of_checks("session_line");
}
