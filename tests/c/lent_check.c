/* Checks of forests in pieces, whose state the caller keeps, and states that other code wrote to. */
#include "check.h"

/* Feeds octets in pieces of this length, each in a separate block, until they end or are refused. */
static struct scard_verdict feed(struct scard_lent_check *state, struct octets octets, size_t piece)
{
    struct scard_verdict v = {SCARD_MORE, 0, 0};
    size_t taken = 0;
    while (v.status == SCARD_MORE && taken < octets.count) {
        size_t left = octets.count - taken, count = left < piece ? left : piece;
        uint8_t *own = (uint8_t *)malloc(count);
        memcpy(own, octets.at + taken, count);
        v = scard_lent_check_feed(state, own, count);
        CHECK(v.status != SCARD_MORE || v.place == count);
        taken += count;
        free(own);
    }
    return v;
}

static int same(struct scard_verdict a, struct scard_verdict b)
{
    return a.status == b.status && a.reason == b.reason && (a.place == b.place || a.status == SCARD_OK);
}

/* Checks that a check of pieces of 1, 2 and 7 octets, and of all at once, says what `scard_tlv_check` says of the
 * whole. After a refused octet it repeats its verdict. */
static void judged(const char *text, size_t max, const char *line)
{
    struct octets octets = of_hex(text);
    struct scard_verdict whole = scard_tlv_check(octets.at, octets.count, max);
    size_t pieces[4] = {1, 2, 7, 0}, row;
    pieces[3] = octets.count + 1;
    CHECK(strcmp(line_of(whole, SCARD_CODEC_TLV), line) == 0);
    for (row = 0; row < 4; row++) {
        struct scard_lent_check state;
        struct scard_verdict v;
        memset(&state, 0xA5, sizeof state);
        v = scard_lent_check_begin(&state, max);
        CHECK(v.status == SCARD_OK && v.place == 0);
        v = feed(&state, octets, pieces[row]);
        CHECK(v.status == SCARD_MORE || same(v, whole));
        CHECK(same(scard_lent_check_finish(&state), whole));
        v = scard_lent_check_feed(&state, NULL, 0);
        CHECK(v.status == SCARD_AT ? same(v, whole) : v.status == SCARD_MORE && v.place == 0);
        CHECK(same(scard_lent_check_finish(&state), whole));
    }
    free(octets.at);
}

/* Sixteen objects, each inside the one before, and the octets after them. */
static void deep(const char *after, const char *line)
{
    char text[160] = "";
    int level;
    for (level = 0; level < 16; level++) {
        sprintf(text + strlen(text), "61%02X", 64 - 2 * level);
    }
    strcat(text, after);
    judged(text, 100, line);
}

static void verdicts(void)
{
    judged("", 0, "ok 0 octets");
    judged("0000", 2, "ok 2 octets");
    judged("6F108407A0000000041010A505BF0C025000", 100, "ok 18 octets");
    judged("6F108407A0000000041010A505BF0C0250", 100, "short at 17");
    judged("6F8200048402AABB00", 100, "ok 9 octets");
    judged("5F2D840000000241420000", 100, "ok 11 octets");
    judged("9F8101840000000241420000", 100, "ok 12 octets");
    judged("9F818101", 100, "refused at 2: TagLong");
    judged("9F00", 100, "refused at 1: TagSecond");
    judged("9F80", 100, "refused at 1: TagSecond");
    judged("6F058407A0", 100, "refused at 3: Overrun");
    judged("84830100", 100, "refused at 2: TooLong");
    judged("8407A0", 8, "refused at 1: TooLong");
    deep("00", "short at 33");
    deep("84", "refused at 32: TooDeep");
}

static void argued(void)
{
    struct scard_lent_check state, before;
    uint8_t octet = 0x6F;
    memset(&state, 0xA5, sizeof state);
    before = state;
    CHECK(strcmp(line_of(scard_lent_check_begin(&state, SCARD_TLV_LARGEST + 1), 6), "argument 0") == 0);
    CHECK(strcmp(line_of(scard_lent_check_begin(&state, SIZE_MAX), 6), "argument 0") == 0);
    CHECK(strcmp(line_of(scard_lent_check_feed(&state, &octet, 1), 6), "argument 0") == 0);
    CHECK(strcmp(line_of(scard_lent_check_feed(&state, NULL, 0), 6), "argument 0") == 0);
    CHECK(strcmp(line_of(scard_lent_check_finish(&state), 6), "argument 0") == 0);
    CHECK(memcmp(&state, &before, sizeof state) == 0);
    CHECK(scard_lent_check_begin(&state, SCARD_TLV_LARGEST).status == SCARD_OK);
    CHECK(scard_lent_check_finish(&state).status == SCARD_OK);
}

/* Sets each octet of a state to each value. A call is safe, and if it is refused nothing changes. Returns how many
 * states were invalid. */
static size_t spoilt(const struct scard_lent_check *begun, struct octets rest)
{
    size_t place, none = 0;
    int value;
    for (place = 0; place < sizeof *begun; place++) {
        for (value = 0; value < 256; value++) {
            struct scard_lent_check state = *begun, before;
            struct scard_verdict end, fed;
            ((uint8_t *)&state)[place] = (uint8_t)value;
            memcpy(&before, &state, sizeof state);
            end = scard_lent_check_finish(&state);
            CHECK(memcmp(&state, &before, sizeof state) == 0);
            fed = scard_lent_check_feed(&state, rest.at, rest.count);
            CHECK((end.status == SCARD_ARGUMENT) == (fed.status == SCARD_ARGUMENT));
            if (fed.status == SCARD_ARGUMENT) {
                CHECK(memcmp(&state, &before, sizeof state) == 0);
                none++;
            } else {
                CHECK(fed.status == SCARD_MORE || fed.status == SCARD_AT);
                CHECK(scard_lent_check_finish(&state).status != SCARD_ARGUMENT);
            }
        }
    }
    return none;
}

/* Returns a check of at most 64 octets after these. */
static struct scard_lent_check after(const char *text)
{
    struct octets octets = of_hex(text);
    struct scard_lent_check state;
    CHECK(scard_lent_check_begin(&state, 64).status == SCARD_OK);
    CHECK(scard_lent_check_feed(&state, octets.at, octets.count).status == SCARD_MORE);
    free(octets.at);
    return state;
}

static int fits(const struct scard_lent_check *state)
{
    return scard_lent_check_finish(state).status != SCARD_ARGUMENT;
}

/* Returns whether a state is valid with this number in place of its own one, which `field` points to. */
static int fits_with(struct scard_lent_check *state, uint32_t *field, uint32_t number)
{
    uint32_t was = *field;
    int fit;
    *field = number;
    fit = fits(state);
    *field = was;
    return fit;
}

/* Numbers that no octets lead to. Inside two objects, 30 octets are to come. */
static void numbers(void)
{
    struct scard_lent_check p = after("7020701E"), value = after("7020701E5A1C");
    CHECK(fits(&p) && p.level == 2 && fits(&value) && value.value_left == 28);
    /* the inner object would end after the outer one */
    CHECK(!fits_with(&p, &p.ends[1], 35));
    /* the headers of two objects take four octets */
    CHECK(!fits_with(&p, &p.count, 3) && !fits_with(&p, &p.count, 34));
    CHECK(!fits_with(&p, &p.max, 33) && !fits_with(&p, &p.max, SCARD_TLV_LARGEST + 1));
    /* the header of a value hasn't come, or the value would end after the objects */
    CHECK(!fits_with(&p, &p.value_left, 1) && !fits_with(&value, &value.value_left, 29));
    p.level = 3;
    CHECK(!fits(&p));
    p.level = 17;
    CHECK(!fits(&p));
}

/* A tag passes the end of an object with two octets to come, but not that of one with 30. */
static void refusals(void)
{
    struct scard_lent_check roomy = after("7020701E"), full = after("7002");
    roomy.refused = full.refused = SCARD_TLV_OVERRUN;
    CHECK(!fits(&roomy) && fits(&full));
    full.refused = SCARD_TLV_TOO_DEEP;
    CHECK(!fits(&full));
}

/* Headers that are under way in the state inside two objects, and headers that no octets lead to. */
static void headers(void)
{
    static const struct {
        uint32_t count; /* how many octets came: those of the objects, and fillers if there are more than four */
        struct scard_lent_header header;
        int fit;
    } rows[] = {{8, {1, {0x9F, 0, 0}, 1, 0, 0, 0}, 1},
                {8, {2, {0x9F, 0x81, 0}, 2, 0, 0, 0}, 1},
                {8, {3, {0x5A, 0, 0}, 1, 0, 0, 0}, 1},
                {8, {4, {0x5A, 0, 0}, 1, 3, 0, 0}, 1},
                {8, {4, {0x5A, 0, 0}, 1, 3, 1, 0}, 1},
                {4, {1, {0x9F, 0, 0}, 1, 0, 0, 0}, 0},
                {8, {1, {0x5A, 0, 0}, 1, 0, 0, 0}, 0},
                {8, {2, {0x9F, 0x80, 0}, 2, 0, 0, 0}, 0},
                {8, {2, {0x5A, 0x81, 0}, 2, 0, 0, 0}, 0},
                {8, {4, {0x5A, 0, 0}, 1, 3, 1, 256}, 0},
                {8, {4, {0x5A, 0, 0}, 1, 3, 1, 255}, 0}, /* the value would have 65,280 octets at least */
                {8, {4, {0x5A, 0, 0}, 1, 3, 2, 0}, 0},
                {8, {4, {0x5A, 0, 0}, 1, 1, 0, 0}, 0}};
    size_t row;
    for (row = 0; row < sizeof rows / sizeof rows[0]; row++) {
        struct scard_lent_check state = after("7020701E");
        state.count = rows[row].count;
        state.header = rows[row].header;
        CHECK(fits(&state) == rows[row].fit);
    }
}

static void states(void)
{
    struct octets octets = of_hex("6F258407A0000000041010A51ABF0C17611584830000029F3800DF810184000000024142");
    size_t count;
    for (count = 0; count <= octets.count; count++) {
        struct scard_lent_check state;
        struct octets rest = {octets.at + count, octets.count - count};
        CHECK(scard_lent_check_begin(&state, 200).status == SCARD_OK);
        CHECK(scard_lent_check_feed(&state, octets.at, count).status == SCARD_MORE);
        CHECK(spoilt(&state, rest) > 1000);
    }
    free(octets.at);
}

int main(void)
{
    verdicts();
    argued();
    numbers();
    refusals();
    headers();
    states();
    return verdict_of_checks("lent_check");
}
