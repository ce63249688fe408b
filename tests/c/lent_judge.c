/* Judges of a line, whose state the caller keeps: sessions, each rule, lost blocks, silence, and states that other code
 * wrote to.
 */
#include "check.h"

/* An event on the line: a block of an end without its check octet, or the end of the terminal's waiting time. */
struct event {
    char from; /* t, c, or q for the silence */
    const char *octets;
    const char *reached; /* NULL if nobody knows how it reached the other end, "" if it was lost, or the block */
    const char *told;
};

static struct scard_lent_judge judge;

/* Returns the octets of a block with its check octet. A text that ends with ! gets none. */
static struct octets block_of(const char *text)
{
    size_t length = strlen(text);
    struct octets made = of_hex(text);
    if (length % 2 == 0) {
        made.at = (uint8_t *)realloc(made.at, made.count + 1);
        made.at[made.count] = scard_lrc(made.at, made.count);
        made.count++;
    }
    return made;
}

static const char *rule_of(int rule)
{
    struct scard_text text;
    scard_judge_rule_text((uint8_t)rule, &text);
    CHECK(text.size == strlen(text.text) + 1);
    return text.text;
}

/* Returns a judgment in words: the silence before the block, then the verdict. A deviation also has the rule and what
 * was due: its number, the numbers of the end's next block and of the one that it expects, its request, and the octet.
 */
static const char *words_of(const struct scard_judgment *it, int is_block)
{
    static char line[120];
    int at = 0;
    line[0] = 0;
    if (it->silence != SCARD_SILENCE_NO) {
        at = sprintf(line, "%s silence after %lu%s", it->silence == SCARD_SILENCE_CERTAIN ? "certain" : "possible",
                     (unsigned long)it->unanswered, is_block ? ", " : "");
    }
    if (!is_block) {
        return line;
    }
    switch (it->verdict) {
    case SCARD_JUDGED_PERMITTED:
        strcpy(line + at, "permitted");
        break;
    case SCARD_JUDGED_DAMAGE:
        strcpy(line + at, "damage");
        break;
    case SCARD_JUDGED_ELSEWHERE:
        strcpy(line + at, "elsewhere");
        break;
    case SCARD_JUDGED_UNSEEN:
        sprintf(line + at, "unseen %lu", (unsigned long)it->before);
        break;
    default:
        sprintf(line + at, "%s, due %d %d%d %d %02X", rule_of(it->rule), it->due.owed, it->due.next, it->due.expects,
                it->due.asked, it->due.octet);
    }
    return line;
}

static struct scard_judgment judged(const struct event *it)
{
    struct scard_judgment out;
    memset(&out, 0xA5, sizeof out);
    if (it->from == 'q') {
        scard_lent_judge_quiet(&judge, &out);
    } else {
        struct octets octets = block_of(it->octets), came = block_of(it->reached == NULL ? "" : it->reached);
        uint8_t arrival = it->reached == NULL ? SCARD_ARRIVAL_UNSAID
            : *it->reached == 0 ? SCARD_ARRIVAL_LOST : SCARD_ARRIVAL_CAME;
        uint8_t from = it->from == 't' ? SCARD_END_TERMINAL : SCARD_END_CARD;
        struct scard_verdict v = scard_lent_judge_block(&judge, from, octets.at, octets.count, arrival, came.at,
                                                        came.count, &out);
        CHECK(v.status == SCARD_OK && v.place == 0);
        free(octets.at);
        free(came.at);
    }
    return out;
}

/* Judges all events on a line to a card that accepts fields of 32 octets, up to a row without an end. */
static void session(const struct event *it)
{
    unsigned long blocks = 0;
    memset(&judge, 0xA5, sizeof judge);
    CHECK(scard_lent_judge_begin(&judge, 32).status == SCARD_OK);
    for (; it->from != 0; it++) {
        struct scard_judgment out = judged(it);
        const char *told = words_of(&out, it->from != 'q');
        blocks += it->from != 'q';
        CHECK(out.number == (it->from == 'q' ? 0 : blocks) && judge.blocks == blocks);
        if (strcmp(told, it->told) != 0) {
            fprintf(stderr, "%c %s: \"%s\" in place of \"%s\"\n", it->from, it->octets, told, it->told);
        }
        CHECK(strcmp(told, it->told) == 0);
    }
}

#define COMMAND "00000400A40000"
#define LAST_ROW {0, NULL, NULL, NULL}

static void permitted(void)
{
    static const struct event rows[] = {
        {'t', COMMAND, NULL, "permitted"}, {'c', "0000029000", NULL, "permitted"},
        {'t', "00600100", NULL, "permitted"}, {'c', "008000", NULL, "permitted"},
        {'t', "00000101", NULL, "permitted"}, {'c', "00C30102", NULL, "permitted"},
        {'t', "00E30102", NULL, "permitted"}, {'c', "0040026A82", NULL, "permitted"},
        {'t', "00C10140", NULL, "permitted"}, {'c', "00E10140", NULL, "permitted"}, LAST_ROW,
    };
    session(rows);
}

/* Blocks of a second logical connection, between those of the first and within its chain. */
static void elsewhere(void)
{
    static const struct event rows[] = {
        {'t', COMMAND, NULL, "permitted"}, {'c', "0000029000", NULL, "permitted"},
        {'t', "21000400A40000", NULL, "elsewhere"}, {'c', "1200029000", NULL, "elsewhere"},
        {'t', "00600100", NULL, "permitted"}, {'c', "008000", NULL, "permitted"},
        {'t', "21400400A40000", "21400400A40000", "elsewhere"}, {'q', NULL, NULL, ""},
        {'t', "00000101", "00000101", "permitted"}, {'c', "1240029000", NULL, "elsewhere"},
        {'t', "009100", NULL, "possible silence after 8, permitted"}, LAST_ROW,
    };
    static const struct event wrong[] = {
        {'t', COMMAND, NULL, "permitted"}, {'c', "0000029000", NULL, "permitted"},
        {'t', "21000400A40000", NULL, "elsewhere"}, {'c', "2100029000", NULL, "node address, due 5 11 0 00"}, LAST_ROW,
    };
    session(rows);
    session(wrong);
}

static void deviations(void)
{
    static const struct event rows[][5] = {
        {{'t', COMMAND, NULL, "permitted"}, {'c', "0000029000", NULL, "permitted"},
         {'t', COMMAND, NULL, "sequence number, due 1 11 0 00"}, {'c', "009100", NULL, "permitted"}, LAST_ROW},
        {{'c', "0000029000", NULL, "out of turn, due 1 00 0 00"}, LAST_ROW},
        {{'t', "12000100", NULL, "permitted"}, {'c', "12000100", NULL, "node address, due 1 01 0 00"}, LAST_ROW},
        {{'t', "008400", NULL, "control octet, due 1 00 0 00"}, LAST_ROW},
        {{'t', "00800100", NULL, "length, due 1 00 0 00"}, LAST_ROW},
        {{'t', "00C101FF", NULL, "reserved size, due 1 00 0 00"}, LAST_ROW},
        {{'t', "00C30102", NULL, "request of the other end, due 1 00 0 00"}, LAST_ROW},
        {{'t', "00E10120", NULL, "response to no request, due 1 00 0 00"}, LAST_ROW},
        {{'t', "00C200", NULL, "ABORT outside a chain, due 1 00 0 00"}, LAST_ROW},
        {{'t', "00C10140", NULL, "permitted"},
         {'c', "00E10141", NULL, "response with another octet, due 9 00 0 40"}, LAST_ROW},
        {{'t', "00C10140", NULL, "permitted"}, {'c', "0000029000", NULL, "no response, due 9 00 0 40"}, LAST_ROW},
        {{'t', "00200100", NULL, "permitted"},
         {'c', "0000029000", NULL, "no acknowledgment, due 3 01 0 00"}, LAST_ROW},
        {{'t', "00200100", NULL, "permitted"},
         {'c', "009100", NULL, "error code, due 3 01 0 00"}, LAST_ROW},
        {{'t', COMMAND, NULL, "permitted"}, {'c', "009000", NULL, "no I-block, due 1 01 0 00"}, LAST_ROW},
        {{'t', COMMAND, NULL, "permitted"}, {'c', "008100", NULL, "unseen 1"},
         {'t', "00000400A40001", NULL, "repeat with other octets, due 4 10 0 00"}, LAST_ROW},
        {{'t', COMMAND, NULL, "permitted"}, {'c', "008100", NULL, "unseen 1"},
         {'t', "00C200", NULL, "no repeat, due 4 10 0 00"}, LAST_ROW},
        {{'t', "00200100", NULL, "permitted"}, {'c', "009000", "009000", "permitted"},
         {'t', "00C000", NULL, "RESYNCH too early, due 2 10 0 00"}, LAST_ROW},
        {{'t', COMMAND, COMMAND, "permitted"},
         {'c', "000002900093!", "000002900093!", "check octet, due 1 01 0 00"}, LAST_ROW},
        {{'t', COMMAND, COMMAND, "permitted"},
         {'c', "0000029092!", "0000029092!", "length, due 1 01 0 00"}, LAST_ROW},
        {{'t', COMMAND, NULL, "permitted"}, {'q', NULL, NULL, "possible silence after 1"},
         {'t', COMMAND, NULL, "no R-block, due 5 10 0 00"}, LAST_ROW},
        {{'t', "00C10140", NULL, "permitted"}, {'q', NULL, NULL, "possible silence after 1"},
         {'t', "008200", NULL, "no repeated request, due 7 00 1 00"}, LAST_ROW},
        {{'t', COMMAND, NULL, "permitted"}, {'q', NULL, NULL, "possible silence after 1"},
         {'t', "008000", NULL, "permitted"}, {'c', "0000029000", NULL, "permitted"}, LAST_ROW},
        {{'t', COMMAND, NULL, "permitted"}, {'c', "0040029000", NULL, "sequence number, due 1 01 0 00"},
         {'t', "008200", NULL, "permitted"}, {'c', "0000029000", NULL, "permitted"}, LAST_ROW},
    };
    size_t row;
    for (row = 0; row < sizeof rows / sizeof rows[0]; row++) {
        session(rows[row]);
    }
}

/* The fourth repeat in a row is a deviation. */
static void repeats(void)
{
    static const struct event rows[] = {
        {'t', COMMAND, "", "permitted"}, {'q', NULL, NULL, ""}, {'t', "008200", "", "permitted"},
        {'q', NULL, NULL, ""}, {'t', "008200", "", "permitted"}, {'q', NULL, NULL, ""},
        {'t', "008200", "", "permitted"}, {'q', NULL, NULL, ""},
        {'t', "008200", "", "too many repeats, due 5 10 0 00"}, LAST_ROW,
    };
    session(rows);
}

/* A field of 33 octets, and one of 32. */
static void sizes(void)
{
    char text[2 * 36 + 1];
    struct event rows[] = {{'t', NULL, NULL, "field too long, due 1 00 0 00"}, LAST_ROW};
    sprintf(text, "000021%066d", 0);
    rows[0].octets = text;
    session(rows);
    sprintf(text, "000020%064d", 0);
    rows[0].told = "permitted";
    session(rows);
}

static void arrivals(void)
{
    static const struct event lost[] = {
        {'t', COMMAND, "", "permitted"}, {'c', "0000029000", NULL, "out of turn, due 1 00 0 00"}, LAST_ROW,
    };
    static const struct event damaged[] = {
        {'t', COMMAND, "00000400A40001A0!", "permitted"}, {'c', "008100", NULL, "permitted"},
        {'t', COMMAND, COMMAND, "permitted"}, {'c', "0000029000", "", "permitted"},
        {'q', NULL, NULL, ""}, {'t', "008200", NULL, "permitted"}, LAST_ROW,
    };
    static const struct event silent[] = {
        {'t', COMMAND, COMMAND, "permitted"}, {'t', "008200", NULL, "certain silence after 1, permitted"},
        {'q', NULL, NULL, "possible silence after 2"}, {'q', NULL, NULL, ""}, LAST_ROW,
    };
    static const struct event wrong[] = {
        {'t', "00000400A40000A1!", NULL, "damage"}, {'c', "008100", NULL, "permitted"}, LAST_ROW,
    };
    session(lost);
    session(damaged);
    session(silent);
    session(wrong);
}

static void finished(void)
{
    static const struct event rows[] = {{'t', COMMAND, COMMAND, "permitted"}, LAST_ROW};
    struct scard_lent_judge before;
    struct scard_judgment out;
    session(rows);
    before = judge;
    scard_lent_judge_finish(&judge, &out);
    CHECK(strcmp(words_of(&out, 0), "certain silence after 1") == 0 && out.number == 0 && out.verdict == 0);
    CHECK(judge.blocks == before.blocks && judge.card.heard.kind == before.card.heard.kind);
}

static void argued(void)
{
    struct scard_lent_judge before;
    struct scard_judgment out, left;
    int number;
    memset(&judge, 0xA5, sizeof judge);
    memset(&out, 0xA5, sizeof out);
    before = judge;
    left = out;
    CHECK(scard_lent_judge_begin(&judge, 0).status == SCARD_ARGUMENT);
    CHECK(scard_lent_judge_begin(&judge, 255).status == SCARD_ARGUMENT);
    for (number = 0; number < 256; number++) {
        if (number > 1) {
            CHECK(scard_lent_judge_block(&judge, (uint8_t)number, NULL, 0, 0, NULL, 0, &out).status == SCARD_ARGUMENT);
        }
        if (number > 2) {
            CHECK(scard_lent_judge_block(&judge, 0, NULL, 0, (uint8_t)number, NULL, 0, &out).status == SCARD_ARGUMENT);
        }
    }
    CHECK(memcmp(&judge, &before, sizeof judge) == 0 && memcmp(&out, &left, sizeof out) == 0);
}

static void names(void)
{
    struct scard_text text;
    int rule;
    for (rule = 0; rule < 256; rule++) {
        int is_rule = rule >= SCARD_RULE_NODE_ADDRESS && rule <= SCARD_RULE_CHECK_OCTET;
        CHECK((strlen(rule_of(rule)) > 0) == is_rule);
        scard_judge_clause_text((uint8_t)rule, &text);
        CHECK((strlen(text.text) > 0) == is_rule && text.size == strlen(text.text) + 1);
        CHECK(!is_rule || strncmp(text.text, "11.", 3) == 0);
    }
    CHECK(strcmp(rule_of(SCARD_RULE_EARLY_RESYNCH), "RESYNCH too early") == 0);
    scard_judge_clause_text(SCARD_RULE_EARLY_RESYNCH, &text);
    CHECK(strcmp(text.text, "11.6.3.2 rule 6") == 0);
}

static int is_told(const struct scard_judgment *it)
{
    int deviates = it->verdict == SCARD_JUDGED_DEVIATION;
    return it->verdict <= SCARD_JUDGED_ELSEWHERE && it->silence <= SCARD_SILENCE_CERTAIN
        && (deviates ? it->rule >= 1 && it->rule <= SCARD_RULE_CHECK_OCTET : it->rule == 0)
        && (deviates ? it->due.owed >= 1 && it->due.owed <= SCARD_OWED_ANY_BLOCK : it->due.owed == 0)
        && it->due.next <= 1 && it->due.expects <= 1 && it->due.asked <= SCARD_ASKED_RESYNCH;
}

/* Any octets are a valid state. Two states with the same octets get the same judgment, and a call leaves a valid state.
 */
static void hostile(void)
{
    static const char *const blocks[] = {COMMAND, "0040029000", "008100", "00C000", "00E30102", "00C200", "0000"};
    uint32_t seed = 1;
    int round;
    for (round = 0; round < 4000; round++) {
        struct octets octets = block_of(blocks[round % 7]);
        uint8_t raw[sizeof judge];
        struct scard_judgment out, twin;
        struct scard_lent_judge other;
        size_t place;
        for (place = 0; place < sizeof raw; place++) {
            seed = seed * 1664525 + 1013904223;
            raw[place] = round < 256 ? (uint8_t)round : (uint8_t)(seed >> (round % 3 == 0 ? 30 : 24));
        }
        memcpy(&judge, raw, sizeof raw);
        memcpy(&other, raw, sizeof raw);
        CHECK(scard_lent_judge_block(&judge, round & 1, octets.at, octets.count, (uint8_t)(round % 3), octets.at,
                                     octets.count, &out).status == SCARD_OK);
        CHECK(scard_lent_judge_block(&other, round & 1, octets.at, octets.count, (uint8_t)(round % 3), octets.at,
                                     octets.count, &twin).status == SCARD_OK);
        CHECK(is_told(&out) && out.number == judge.blocks && out.verdict == twin.verdict && out.rule == twin.rule);
        CHECK(out.silence == twin.silence && out.before == twin.before && judge.card.last_len == other.card.last_len);
        scard_lent_judge_quiet(&judge, &out);
        CHECK(is_told(&out) && out.verdict == SCARD_JUDGED_PERMITTED);
        scard_lent_judge_finish(&judge, &out);
        CHECK(out.silence == SCARD_SILENCE_NO && out.unanswered == 0);
        free(octets.at);
    }
}

/* The count of blocks stays at its largest value. */
static void counted(void)
{
    static const struct event row = {'t', COMMAND, NULL, "permitted"};
    CHECK(scard_lent_judge_begin(&judge, 254).status == SCARD_OK);
    judge.blocks = UINT64_MAX - 1;
    CHECK(judged(&row).number == UINT64_MAX);
    CHECK(judged(&row).number == UINT64_MAX);
}

int main(void)
{
    permitted();
    elsewhere();
    deviations();
    repeats();
    sizes();
    arrivals();
    finished();
    argued();
    names();
    hostile();
    counted();
    return verdict_of_checks("lent_judge");
}
