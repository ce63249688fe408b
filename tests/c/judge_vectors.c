/* Judges traces of the vectors `judge` by the calls of the header, and compares what they say with the lines that the
 * program has to print: which blocks came late or early, which end was wrong if the card sent no block, and with
 * --rules how often each end kept and broke each rule and what was due. The JSON object of the program has the same.
 * Traces of one end, with PPS or in the midst of a session are left out. The folder is the first word, or ./vectors.
 */
#include "check.h"

enum { RULES = 23, STATES = 16, LONGEST_LINE = 1 << 16 };

/* How often an end kept each rule and broke it, and how often each block was due from it. */
struct counts {
    unsigned long kept[RULES + 1], broken[RULES + 1], due[STATES + 1];
};

/* The rules and what is due, in the order of the program. */
static const uint8_t RULE_ORDER[RULES] = {
    1, 2, 3, SCARD_RULE_CHECK_OCTET, 4, 5, 6, 7, 8, 9, 10, 11, 12, 13, 14, 15, 16, 17, 18, 19, 20, 21, 22
};
static const struct {
    uint8_t owed;
    const char *name;
} STATE_ORDER[STATES] = {
    {SCARD_OWED_NEW_MESSAGE, "first I-block of a message"}, {SCARD_OWED_NEXT_BLOCK, "next I-block of a chain"},
    {SCARD_OWED_ACKNOWLEDGMENT, "acknowledgment"}, {SCARD_OWED_SAME_BLOCK, "I-block again"},
    {SCARD_OWED_CORRECTION, "R-block after an error"}, {SCARD_OWED_REFUSAL, "R-block that refuses"},
    {SCARD_OWED_SAME_REQUEST, "request again"}, {SCARD_OWED_RESYNCH_RESPONSE, "RESYNCH response"},
    {SCARD_OWED_IFS_RESPONSE, "IFS response"}, {SCARD_OWED_ABORT_RESPONSE, "ABORT response"},
    {SCARD_OWED_WTX_RESPONSE, "WTX response"}, {SCARD_OWED_EITHER_BLOCK, "I-block or R-block after ABORT"},
    {SCARD_OWED_MESSAGE_OR_CORRECTION, "I-block or R-block after an error"},
    {SCARD_OWED_MESSAGE_OR_REFUSAL, "I-block or R-block that refuses"},
    {SCARD_OWED_ACKNOWLEDGMENT_OR_REFUSAL, "acknowledgment or R-block that refuses"},
    {SCARD_OWED_ANY_BLOCK, "any block"},
};

static struct scard_lent_judge judge;
static struct scard_lent_times times;
static struct scard_t1 params;
static struct scard_rates rates;
static struct scard_moments moments;
static struct counts counts[2];
static uint32_t hertz;        /* 0 if the times aren't judged */
static unsigned long earlier; /* how many blocks came before the last reset */
static char said[LONGEST_LINE];

static void say(const char *text)
{
    strncat(said, text, sizeof said - strlen(said) - 1);
}

static void forget_moments(void)
{
    memset(&moments, 0, sizeof moments);
}

/* Begins both states at a reset of the card. */
static void begin(void)
{
    CHECK(scard_lent_judge_begin(&judge, params.ifsc).status == SCARD_OK);
    CHECK(hertz == 0 || scard_lent_times_begin(&times, &params, &rates, hertz).status == SCARD_OK);
    forget_moments();
}

/* Says that the card sent no block. `over` says whether its time was over. */
static void tell_silence(const struct scard_judgment *it, int over)
{
    char line[160];
    const char *how = over ? "which it got  (11.6.2.3 rule 1)"
        : "permitted if the terminal sent before its waiting time ended";
    if (it->silence == SCARD_SILENCE_NO) {
        return;
    }
    sprintf(line, "card: no answer to block %lu, %s\n", earlier + (unsigned long)it->unanswered,
            it->silence == SCARD_SILENCE_POSSIBLE ? "permitted if that was lost unseen" : how);
    say(line);
    if (it->silence == SCARD_SILENCE_CERTAIN && over) {
        counts[SCARD_END_CARD].broken[SCARD_RULE_SILENCE]++;
    }
}

/* Says that a block came too late or too early after the block with this number. */
static void tell_time(const struct scard_timed *it, unsigned long number, unsigned long before)
{
    char line[160];
    if (it->off == SCARD_OFF_TIME_LATE) {
        sprintf(line, "block %lu card: late, %llu microseconds after block %lu, permitted %llu  (11.4.3)\n", number,
                (unsigned long long)it->elapsed, before, (unsigned long long)it->limit);
        say(line);
    } else if (it->off == SCARD_OFF_TIME_EARLY) {
        sprintf(line, "block %lu terminal: early, %llu microseconds after block %lu, permitted from %llu  (11.4.3)\n",
                number, (unsigned long long)it->elapsed, number - 1, (unsigned long long)it->limit);
        say(line);
    }
}

/* Counts what a block of an end exercised. */
static void count(struct counts *end, const struct scard_exercise *it)
{
    int rule;
    for (rule = 1; rule <= RULES; rule++) {
        end->kept[rule] += it->kept >> rule & 1;
    }
    end->broken[it->broken]++;
    end->due[it->due]++;
}

static void block(uint8_t from, struct octets octets, uint8_t arrival, struct octets came)
{
    struct scard_exercise exercise;
    struct scard_timed timed = {0, 0, SCARD_OFF_TIME_NO, 0};
    struct scard_judgment judgment;
    CHECK(scard_lent_judge_exercise(&judge, from, octets.at, octets.count, arrival, came.at, came.count, &exercise)
              .status == SCARD_OK);
    CHECK(hertz == 0 || scard_lent_times_block(&times, &judge, from, octets.at, octets.count, arrival, came.at,
                                               came.count, &moments, &timed).status == SCARD_OK);
    CHECK(scard_lent_judge_block(&judge, from, octets.at, octets.count, arrival, came.at, came.count, &judgment)
              .status == SCARD_OK);
    CHECK(exercise.broken == judgment.rule && (exercise.kept == 0 || exercise.broken == 0));
    CHECK((exercise.kept == 0) == (judgment.verdict != SCARD_JUDGED_PERMITTED
                                   && judgment.verdict != SCARD_JUDGED_UNSEEN));
    count(&counts[from], &exercise);
    tell_silence(&judgment, timed.over);
    tell_time(&timed, earlier + (unsigned long)judgment.number, earlier + (unsigned long)judgment.before);
    forget_moments();
}

/* Takes the line of a block: its octets, and how they reached the other end. */
static void block_line(char *line)
{
    struct octets octets, came;
    char *how = strchr(line + 2, ' ');
    uint8_t from = line[0] == 't' ? SCARD_END_TERMINAL : SCARD_END_CARD, arrival = SCARD_ARRIVAL_UNSAID;
    const char *arrived = "";
    if (how != NULL) {
        *how++ = 0;
        arrival = strcmp(how, "lost") == 0 ? SCARD_ARRIVAL_LOST : SCARD_ARRIVAL_CAME;
        arrived = strncmp(how, "as ", 3) == 0 && strcmp(how, "as none") != 0 ? how + 3 : "";
    }
    octets = of_hex(strcmp(line + 2, "none") == 0 ? "" : line + 2);
    came = of_hex(arrived);
    block(from, octets, arrival, came);
    free(octets.at);
    free(came.at);
}

static void trace_line(char *line)
{
    struct scard_judgment judgment;
    if (line[0] == 't' || line[0] == 'c') {
        block_line(line);
    } else if (strcmp(line, "quiet") == 0) {
        scard_lent_judge_quiet(&judge, &judgment);
        tell_silence(&judgment, 1);
        forget_moments();
    } else if (strcmp(line, "reset") == 0) {
        earlier += (unsigned long)judge.blocks;
        begin();
    } else if (strncmp(line, "at ", 3) == 0) {
        forget_moments();
        moments.has_first = 1;
        moments.first = strtoull(line + 3, NULL, 10);
    } else if (strncmp(line, "until ", 6) == 0) {
        moments.has_last = 1;
        moments.last = strtoull(line + 6, NULL, 10);
    }
}

/* Says what the program says of each rule and of what was due. */
static void tell_counts(void)
{
    const struct counts *terminal = &counts[SCARD_END_TERMINAL], *card = &counts[SCARD_END_CARD];
    char line[200];
    int at;
    for (at = 0; at < RULES; at++) {
        int rule = RULE_ORDER[at];
        struct scard_text text;
        scard_judge_rule_text((uint8_t)rule, &text);
        sprintf(line, "rule %s: terminal kept %lu broken %lu, card kept %lu broken %lu\n", text.text,
                terminal->kept[rule], terminal->broken[rule], card->kept[rule], card->broken[rule]);
        if (terminal->kept[rule] + terminal->broken[rule] + card->kept[rule] + card->broken[rule] == 0) {
            sprintf(line, "rule %s: never\n", text.text);
        }
        say(line);
    }
    for (at = 0; at < STATES; at++) {
        int owed = STATE_ORDER[at].owed;
        sprintf(line, "state %s: terminal %lu, card %lu\n", STATE_ORDER[at].name, terminal->due[owed],
                card->due[owed]);
        if (terminal->due[owed] + card->due[owed] == 0) {
            sprintf(line, "state %s: never\n", STATE_ORDER[at].name);
        }
        say(line);
    }
}

/* Ends each line of a text that a vector has, in place. Returns the end of the text. */
static char *unfold(char *text)
{
    char *from = text, *to = text;
    while (*from != 0) {
        int is_end = from[0] == '\\' && from[1] == 'n';
        *to++ = is_end ? '\n' : *from;
        from += 1 + is_end;
    }
    *to = 0;
    return to;
}

/* Returns whether the calls say this line of the program. */
static int is_said(const char *line)
{
    return strstr(line, ": late, ") != NULL || strstr(line, ": early, ") != NULL
        || strncmp(line, "card: no answer", 15) == 0 || strncmp(line, "rule ", 5) == 0
        || strncmp(line, "state ", 6) == 0;
}

/* Checks that the calls said these lines of the program, in order. */
static void compare(char *wanted)
{
    const char *left = said;
    char *line;
    for (line = strtok(wanted, "\n"); line != NULL; line = strtok(NULL, "\n")) {
        size_t length = strlen(line);
        if (!is_said(line)) {
            continue;
        }
        if (strncmp(left, line, length) != 0 || left[length] != '\n') {
            fprintf(stderr, "\"%s\" in place of \"%.*s\"\n", left, (int)length, line);
            CHECK(0);
            return;
        }
        left += length + 1;
    }
    CHECK(*left == 0);
}

/* Takes the answer to reset: the parameters of T=1, and the rates until PPS (ISO/IEC 7816-3, clause 8.3). */
static void answered(const char *hex)
{
    struct octets octets = of_hex(hex);
    struct scard_atr atr;
    CHECK(scard_atr_decode(octets.at, octets.count, &atr).status == SCARD_OK);
    CHECK(scard_atr_t1_params(&atr, &params) == SCARD_T1_USABLE);
    rates.fi = 372;
    rates.di = 1;
    if (atr.indicated_count > 0 && atr.indicated[0].bytes.has_ta) {
        CHECK(scard_atr_rates(&atr, &rates) == SCARD_OK);
        if (atr.indicated[0].bytes.ta & 0x10) {
            rates.fi = rates.di = 0;
        }
    }
    free(octets.at);
}

/* Runs a line of the vectors, if it is a trace that the calls can judge. Returns 1 for such a trace. */
static int row(char *line)
{
    char *trace = strchr(line, '\t'), *status = trace == NULL ? NULL : strchr(trace + 1, '\t'), *wanted, *at;
    const char *clock = strstr(line, " --clock ");
    int has_rules = strstr(line, " --rules") != NULL;
    if (strncmp(line, "judge ", 6) != 0 || status == NULL || status[1] == '2') {
        return 0;
    }
    *trace++ = *status = 0;
    wanted = status + 3;
    if (strstr(line, " --end") != NULL || strncmp(wanted, "refused", 7) == 0 || strstr(trace, " FF") != NULL
        || strstr(trace, "begins") != NULL) {
        return 0;
    }
    hertz = clock == NULL ? 0 : (uint32_t)strtoul(clock + 9, NULL, 10);
    answered(strtok(line + 6, " "));
    memset(counts, 0, sizeof counts);
    earlier = 0;
    said[0] = 0;
    begin();
    unfold(trace);
    for (at = trace; strcmp(trace, "-") != 0 && at != NULL && *at != 0;) {
        char *end = strchr(at, '\n');
        if (end != NULL) {
            *end++ = 0;
        }
        trace_line(at);
        at = end;
    }
    if (has_rules) {
        tell_counts();
    }
    unfold(wanted);
    compare(wanted);
    return 1;
}

int main(int count_of_words, char **words)
{
    static char line[LONGEST_LINE], path[4096];
    int rows = 0, with_clock = 0, with_rules = 0;
    FILE *file;
    snprintf(path, sizeof path, "%s/judge", count_of_words > 1 ? words[1] : "vectors");
    file = fopen(path, "r");
    CHECK(file != NULL);
    while (file != NULL && fgets(line, sizeof line, file) != NULL) {
        int has_clock = strstr(line, " --clock ") != NULL, has_rules = strstr(line, " --rules") != NULL;
        int done;
        line[strcspn(line, "\n")] = 0;
        done = row(line);
        rows += done;
        with_clock += done && has_clock;
        with_rules += done && has_rules;
    }
    if (file != NULL) {
        fclose(file);
    }
    printf("judge_vectors: %d traces, %d with times, %d with rules\n", rows, with_clock, with_rules);
    CHECK(rows >= 180 && with_clock >= 30 && with_rules >= 12);
    return verdict_of_checks("judge_vectors");
}
