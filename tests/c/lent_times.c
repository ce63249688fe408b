/* What a block exercises, and the times of a line whose state the caller keeps: arguments, moments that fall, times
 * that weren't begun, copies, and states that other code wrote to. tests/c/judge_vectors.c compares what the calls say
 * with what the program prints.
 */
#include "check.h"

static const struct scard_t1 PARAMS = {32, 4, 5};
static const struct scard_rates RATES = {372, 1};
static const uint8_t REQUEST[] = {0, 0xC0, 0, 0xC0}, RESPONSE[] = {0, 0xE0, 0, 0xE0};

static struct scard_lent_judge judge;
static struct scard_lent_times times;

static struct scard_moments at(uint64_t first)
{
    struct scard_moments moments = {0, 0, 1, 0};
    moments.first = (scard_size)first;
    return moments;
}

static struct scard_verdict take(uint8_t from, const uint8_t *octets, uint8_t arrival,
                                 const struct scard_moments *moments, struct scard_timed *out)
{
    return scard_lent_times_block(&times, &judge, from, octets, 4, arrival, octets, 4, moments, out);
}

/* Takes a block of four octets at a moment, as the judge does after it. */
static struct scard_timed block(uint8_t from, const uint8_t *octets, uint64_t first)
{
    struct scard_moments moments = at(first);
    struct scard_timed out;
    struct scard_judgment judgment;
    memset(&out, 0xA5, sizeof out);
    CHECK(take(from, octets, SCARD_ARRIVAL_UNSAID, &moments, &out).status == SCARD_OK);
    CHECK(scard_lent_judge_block(&judge, from, octets, 4, SCARD_ARRIVAL_UNSAID, NULL, 0, &judgment).status == SCARD_OK);
    return out;
}

static void begin(void)
{
    memset(&judge, 0xA5, sizeof judge);
    memset(&times, 0xA5, sizeof times);
    CHECK(scard_lent_judge_begin(&judge, 32).status == SCARD_OK);
    CHECK(scard_lent_times_begin(&times, &PARAMS, &RATES, 3571200).status == SCARD_OK);
}

/* A card's block a microsecond too late, and a terminal's one too early. */
static void off_time(void)
{
    struct scard_timed out;
    begin();
    out = block(SCARD_END_TERMINAL, REQUEST, 7);
    CHECK(out.off == SCARD_OFF_TIME_NO && out.over == 0 && out.elapsed == 0 && out.limit == 0);
    out = block(SCARD_END_CARD, RESPONSE, 1614592);
    CHECK(out.off == SCARD_OFF_TIME_LATE && out.over == 1 && out.elapsed == 1614585 && out.limit == 1614584);
    block(SCARD_END_TERMINAL, REQUEST, 1700000);
    CHECK(block(SCARD_END_CARD, RESPONSE, 1710000).off == SCARD_OFF_TIME_NO);
    out = block(SCARD_END_TERMINAL, REQUEST, 1715728);
    CHECK(out.off == SCARD_OFF_TIME_EARLY && out.over == 0 && out.elapsed == 5728 && out.limit == 5729);
}

/* With a rate of 0 nothing is late. */
static void unknown_rates(void)
{
    static const struct scard_rates none[] = {{0, 1}, {372, 0}, {0, 0}};
    size_t row;
    for (row = 0; row < 3; row++) {
        begin();
        CHECK(scard_lent_times_begin(&times, &PARAMS, &none[row], 3571200).status == SCARD_OK);
        block(SCARD_END_TERMINAL, REQUEST, 0);
        CHECK(block(SCARD_END_CARD, RESPONSE, UINT64_MAX).off == SCARD_OFF_TIME_NO);
    }
}

/* No call of these changes anything. */
static void argued(void)
{
    struct scard_lent_times before;
    struct scard_timed out, left;
    struct scard_moments moments = at(100);
    struct scard_t1 params = PARAMS;
    begin();
    block(SCARD_END_TERMINAL, REQUEST, 100);
    memset(&out, 0xA5, sizeof out);
    before = times;
    left = out;
    CHECK(take(2, RESPONSE, 0, &moments, &out).status == SCARD_ARGUMENT);
    CHECK(take(SCARD_END_CARD, RESPONSE, 3, &moments, &out).status == SCARD_ARGUMENT);
    moments.first = 99;
    CHECK(take(SCARD_END_CARD, RESPONSE, 0, &moments, &out).status == SCARD_ARGUMENT);
    moments.first = 200;
    moments.last = 199;
    moments.has_last = 1;
    CHECK(take(SCARD_END_CARD, RESPONSE, 0, &moments, &out).status == SCARD_ARGUMENT);
    CHECK(scard_lent_times_begin(&times, &PARAMS, &RATES, 0).status == SCARD_ARGUMENT);
    params.ifsc = 0;
    CHECK(scard_lent_times_begin(&times, &params, &RATES, 1).status == SCARD_ARGUMENT);
    params.ifsc = 255;
    CHECK(scard_lent_times_begin(&times, &params, &RATES, 1).status == SCARD_ARGUMENT);
    params.ifsc = 1;
    params.bwi = 16;
    CHECK(scard_lent_times_begin(&times, &params, &RATES, 1).status == SCARD_ARGUMENT);
    params.bwi = 0;
    params.cwi = 16;
    CHECK(scard_lent_times_begin(&times, &params, &RATES, 1).status == SCARD_ARGUMENT);
    CHECK(memcmp(&times, &before, sizeof times) == 0 && memcmp(&out, &left, sizeof out) == 0);
    moments.last = 200;
    CHECK(take(SCARD_END_CARD, RESPONSE, 0, &moments, &out).status == SCARD_OK);
}

/* Times that are all 0 weren't begun, and a copy is such times as the first. */
static void copies(void)
{
    struct scard_moments moments = at(5000000);
    struct scard_timed out, twin;
    struct scard_lent_times copy;
    begin();
    block(SCARD_END_TERMINAL, REQUEST, 0);
    copy = times;
    CHECK(take(SCARD_END_CARD, RESPONSE, 0, &moments, &out).status == SCARD_OK && out.off == SCARD_OFF_TIME_LATE);
    times = copy;
    CHECK(take(SCARD_END_CARD, RESPONSE, 0, &moments, &twin).status == SCARD_OK && twin.elapsed == out.elapsed);
    memset(&times, 0, sizeof times);
    CHECK(take(SCARD_END_CARD, RESPONSE, 0, &moments, &out).status == SCARD_ARGUMENT);
}

/* What a block exercises. The judge doesn't take it. */
static void exercised(void)
{
    static const uint8_t order[] = {1, 2, 3, 4, 5, 7, 8, 9, 18, 19, 23};
    struct scard_exercise out, left;
    struct scard_lent_judge before;
    uint32_t kept = 0;
    size_t place;
    begin();
    before = judge;
    for (place = 0; place < sizeof order; place++) {
        kept |= (uint32_t)1 << order[place];
    }
    CHECK(scard_lent_judge_exercise(&judge, SCARD_END_TERMINAL, REQUEST, 4, 0, NULL, 0, &out).status == SCARD_OK);
    CHECK(out.kept == kept && out.broken == 0 && out.due == SCARD_OWED_NEW_MESSAGE);
    CHECK(scard_lent_judge_exercise(&judge, SCARD_END_CARD, RESPONSE, 4, 0, NULL, 0, &out).status == SCARD_OK);
    CHECK(out.kept == 0 && out.broken == SCARD_RULE_TURN && out.due == 0);
    CHECK(scard_lent_judge_exercise(&judge, SCARD_END_CARD, RESPONSE, 3, 0, NULL, 0, &out).status == SCARD_OK);
    CHECK(out.kept == 0 && out.broken == 0 && out.due == 0);
    left = out;
    CHECK(scard_lent_judge_exercise(&judge, 2, RESPONSE, 4, 0, NULL, 0, &out).status == SCARD_ARGUMENT);
    CHECK(scard_lent_judge_exercise(&judge, 0, RESPONSE, 4, 3, NULL, 0, &out).status == SCARD_ARGUMENT);
    CHECK(memcmp(&judge, &before, sizeof judge) == 0 && memcmp(&out, &left, sizeof out) == 0);
}

/* Any octets in both states: the calls answer, and what they say fits together. */
static void hostile(void)
{
    uint32_t seed = 1;
    int round, taken = 0;
    for (round = 0; round < 4000; round++) {
        struct scard_moments moments = at(seed);
        struct scard_timed out;
        struct scard_exercise exercise;
        uint8_t raw[sizeof times + sizeof judge];
        size_t place;
        for (place = 0; place < sizeof raw; place++) {
            seed = seed * 1664525 + 1013904223;
            raw[place] = round < 256 ? (uint8_t)round : (uint8_t)(seed >> (round % 3 == 0 ? 30 : 24));
        }
        memcpy(&times, raw, sizeof times);
        memcpy(&judge, raw + sizeof times, sizeof judge);
        if (round % 2 == 0) {
            times.bwi &= 15;
            times.cwi &= 15;
            times.ifsc = 32;
            times.least = 0;
        }
        memset(&out, 0, sizeof out);
        if (take((uint8_t)(round / 2 % 2), REQUEST, (uint8_t)(round % 3), &moments, &out).status == SCARD_OK) {
            taken++;
            CHECK(out.off <= SCARD_OFF_TIME_EARLY && out.over <= 1 && (out.off != 0 || out.limit == 0));
            CHECK(out.off != SCARD_OFF_TIME_LATE || (out.over == 1 && out.elapsed > out.limit));
            CHECK(out.off != SCARD_OFF_TIME_EARLY || out.elapsed < out.limit);
        }
        CHECK(scard_lent_judge_exercise(&judge, (uint8_t)(round & 1), REQUEST, 4, 0, NULL, 0, &exercise).status
              == SCARD_OK);
        CHECK(exercise.kept < (uint32_t)1 << 24 && exercise.broken <= SCARD_RULE_CHECK_OCTET);
        CHECK(exercise.due <= SCARD_OWED_ACKNOWLEDGMENT_OR_REFUSAL && (exercise.kept == 0 || exercise.broken == 0));
    }
    CHECK(taken > 1000);
}

int main(void)
{
    off_time();
    unknown_rates();
    argued();
    copies();
    exercised();
    hostile();
    return verdict_of_checks("lent_times");
}
