/* Readers of blocks and of answers to reset, whose state the caller keeps. They are compared with the decoders of whole
 * octets and the readers in handles. Also states that other code wrote. */
#include "check.h"

static const char *const BLOCKS[] = {
    "00000000",                 /* an I-block without a field */
    "00200200A486",             /* more follow */
    "0040056A8290000039",       /* wrong LRC */
    "008000",                   /* an R-block, cut */
    "00800080",                 /* an R-block */
    "00810081FFFF",             /* an R-block, and octets after it */
    "0083",                     /* invalid PCB */
    "00C101FE3E",               /* S(IFS request) of 254 */
    "00C101FF3F",               /* of 255 */
    "00E1010A",                 /* its LRC is missing */
    "00C30105C7",               /* S(WTX request) */
    "00C3020105C7",             /* LEN is invalid for its kind */
    "0000FF",                   /* LEN is reserved */
    "000028",                   /* LEN is more than a size of 32 */
    "",
};

static const char *const ATRS[] = {
    "3B00",                     /* T=0 alone */
    "3B02145000",               /* two historical bytes, and an octet after them */
    "3F65250052096A9000",
    "3B9F95801FC78031E073FE211B63E200A8830F9000A7",
    "3BE00000814520004B",       /* wrong TCK */
    "3B801F8F",
    "3B8080",                   /* cut */
    "3C00",                     /* invalid TS */
    "3BF0FFFFFFF0FFFFFFF0FFFFFFF0FFFFFFF0FFFFFFF0FFFFFFF0FFFFFFF0FFFFFF", /* longer than TS and 32 octets */
    "",
};

static int same(struct scard_verdict a, struct scard_verdict b)
{
    return a.status == b.status && a.reason == b.reason && a.place == b.place;
}

static int is(struct scard_verdict v, uint8_t status, size_t place)
{
    return v.status == status && v.place == place;
}

/* A kind of reader, and a state of either kind. */
struct kind {
    int is_block;
    uint8_t ifs;
};

union state {
    struct scard_lent_block_reader block;
    struct scard_lent_atr_reader atr;
};

static size_t size_of(const struct kind *kind)
{
    return kind->is_block ? sizeof(struct scard_lent_block_reader) : sizeof(struct scard_lent_atr_reader);
}

static void begin(const struct kind *kind, union state *state)
{
    memset(state, 0xA5, sizeof *state);
    if (kind->is_block) {
        CHECK(is(scard_lent_block_reader_begin(&state->block, kind->ifs), SCARD_OK, 0));
        CHECK(state->block.count == 0 && state->block.ifs == kind->ifs);
    } else {
        scard_lent_atr_reader_begin(&state->atr);
        CHECK(state->atr.count == 0);
    }
}

/* Feeds a piece that is in a heap block of exactly its size. */
static struct scard_verdict feed(const struct kind *kind, void *state, const uint8_t *octets, size_t count)
{
    struct scard_verdict v;
    uint8_t *own = (uint8_t *)malloc(count + (count == 0));
    if (count > 0) {
        memcpy(own, octets, count);
    }
    v = kind->is_block ? scard_lent_block_reader_feed((struct scard_lent_block_reader *)state, own, count)
                       : scard_lent_atr_reader_feed((struct scard_lent_atr_reader *)state, own, count);
    free(own);
    return v;
}

static struct scard_verdict finish(const struct kind *kind, const void *state)
{
    return kind->is_block ? scard_lent_block_reader_finish((const struct scard_lent_block_reader *)state)
                          : scard_lent_atr_reader_finish((const struct scard_lent_atr_reader *)state);
}

static uint32_t held(const struct kind *kind, const void *state)
{
    return kind->is_block ? ((const struct scard_lent_block_reader *)state)->count
                          : ((const struct scard_lent_atr_reader *)state)->count;
}

static const uint8_t *kept(const struct kind *kind, const void *state)
{
    return kind->is_block ? ((const struct scard_lent_block_reader *)state)->octets
                          : ((const struct scard_lent_atr_reader *)state)->octets;
}

/* The value that a decoder of whole octets returns, or that a reader returns, over its own octets. */
struct value {
    struct scard_block block;
    struct scard_atr atr;
};

static struct scard_verdict decoded(const struct kind *kind, const uint8_t *octets, size_t count, struct value *value)
{
    memset(value, 0, sizeof *value);
    return kind->is_block ? scard_block_decode(octets, count, kind->ifs, &value->block)
                          : scard_atr_decode(octets, count, &value->atr);
}

static struct scard_verdict value_of(const struct kind *kind, const void *state, struct value *value)
{
    memset(value, 0, sizeof *value);
    return kind->is_block
        ? scard_lent_block_reader_value((const struct scard_lent_block_reader *)state, &value->block)
        : scard_lent_atr_reader_value((const struct scard_lent_atr_reader *)state, &value->atr);
}

/* Checks what the state holds and returns after it got all octets, in any pieces. */
static void ended(const struct kind *kind, union state *state, const uint8_t *octets, size_t count)
{
    struct value whole, value, none;
    struct scard_verdict v = decoded(kind, octets, count, &whole), w = value_of(kind, state, &value);
    union state before = *state;
    uint32_t wanted = (uint32_t)(v.status == SCARD_AT ? v.place + 1 : v.place);
    CHECK(held(kind, state) == wanted);
    CHECK(wanted == 0 || memcmp(kept(kind, state), octets, wanted) == 0);
    memset(&none, 0, sizeof none);
    if (v.status == SCARD_OK) {
        CHECK(is(finish(kind, state), SCARD_OK, 0));
        CHECK(same(w, v) && memcmp(&value, &whole, sizeof value) == 0);
        CHECK(is(feed(kind, state, octets, count), SCARD_OK, 0));
        CHECK(is(feed(kind, state, NULL, 0), SCARD_OK, 0));
    } else {
        CHECK(same(finish(kind, state), v));
        CHECK(is(w, SCARD_ARGUMENT, 0) && memcmp(&value, &none, sizeof value) == 0);
    }
    if (v.status == SCARD_AT) {
        CHECK(same(feed(kind, state, octets, count), v));
        CHECK(same(feed(kind, state, NULL, 0), v));
    } else if (v.status == SCARD_SHORT) {
        CHECK(is(feed(kind, state, NULL, 0), SCARD_MORE, 0));
    }
    CHECK(held(kind, state) == held(kind, &before));
    CHECK(memcmp(kept(kind, state), kept(kind, &before), wanted) == 0);
    CHECK(same(finish(kind, state), v.status == SCARD_OK ? finish(kind, &before) : v));
}

/* Feeds octets in two pieces, and compares each answer with the decoder's on all octets so far. */
static void cut(const struct kind *kind, const uint8_t *octets, size_t count, size_t first)
{
    union state state;
    struct value value;
    size_t place = 0, end = first;
    begin(kind, &state);
    for (;;) {
        struct scard_verdict v = feed(kind, &state, octets + place, end - place);
        struct scard_verdict whole = decoded(kind, octets, end, &value);
        if (whole.status == SCARD_OK) {
            CHECK(is(v, SCARD_OK, whole.place < place ? 0 : whole.place - place));
        } else if (whole.status == SCARD_SHORT) {
            CHECK(is(v, SCARD_MORE, end - place));
        } else {
            CHECK(same(v, whole));
        }
        ended(kind, &state, octets, end);
        if (end == count || whole.status != SCARD_SHORT) {
            break;
        }
        place = end;
        end = count;
    }
}

/* Feeds octets one by one. */
static void one_by_one(const struct kind *kind, const uint8_t *octets, size_t count)
{
    union state state;
    struct value value;
    size_t place;
    begin(kind, &state);
    for (place = 0; place < count; place++) {
        struct scard_verdict v = feed(kind, &state, octets + place, 1);
        struct scard_verdict whole = decoded(kind, octets, place + 1, &value);
        ended(kind, &state, octets, place + 1);
        if (whole.status == SCARD_SHORT) {
            CHECK(is(v, SCARD_MORE, 1));
            continue;
        }
        CHECK(whole.status == SCARD_OK ? is(v, SCARD_OK, 1) : same(v, whole));
        break;
    }
}

static void every_way(const struct kind *kind, const uint8_t *octets, size_t count)
{
    size_t first;
    for (first = 0; first <= count; first += 1 + count / 40) {
        cut(kind, octets, count, first);
    }
    one_by_one(kind, octets, count);
}

static void listed(void)
{
    static const uint8_t SIZES[] = {1, 32, 254};
    struct kind kind = {0, 0};
    size_t row, size;
    for (row = 0; row < sizeof ATRS / sizeof *ATRS; row++) {
        struct octets octets = of_hex(ATRS[row]);
        every_way(&kind, octets.at, octets.count);
        free(octets.at);
    }
    kind.is_block = 1;
    for (row = 0; row < sizeof BLOCKS / sizeof *BLOCKS; row++) {
        struct octets octets = of_hex(BLOCKS[row]);
        for (size = 0; size < sizeof SIZES; size++) {
            kind.ifs = SIZES[size];
            every_way(&kind, octets.at, octets.count);
        }
        free(octets.at);
    }
}

/* Sets each octet of some inputs to each value. */
static void mutated(void)
{
    static const char *const SPELLED[] = {"00200200A486FF", "00C101FE3E", "3BD0970081B1FE451F0709", "3B02145000"};
    size_t row, place;
    int value;
    for (row = 0; row < sizeof SPELLED / sizeof *SPELLED; row++) {
        struct octets octets = of_hex(SPELLED[row]);
        struct kind kind = {row < 2, 40};
        for (place = 0; place < octets.count; place++) {
            uint8_t was = octets.at[place];
            for (value = 0; value < 256; value++) {
                octets.at[place] = (uint8_t)value;
                cut(&kind, octets.at, octets.count, (size_t)value % (octets.count + 1));
                one_by_one(&kind, octets.at, octets.count);
            }
            octets.at[place] = was;
        }
        free(octets.at);
    }
}

/* The longest block, 258 octets, and pieces that are longer than the state's room. */
static void longest(void)
{
    struct kind kind = {1, 254};
    uint8_t field[254], octets[600];
    size_t place;
    struct scard_verdict v;
    for (place = 0; place < sizeof field; place++) {
        field[place] = (uint8_t)(place * 7);
    }
    memset(octets, 0x5A, sizeof octets);
    v = scard_block_i(0, 1, 1, field, sizeof field, octets, sizeof octets);
    CHECK(is(v, SCARD_OK, 258));
    every_way(&kind, octets, 258);
    every_way(&kind, octets, 259);
    every_way(&kind, octets, sizeof octets);
    octets[257] ^= 1;
    every_way(&kind, octets, sizeof octets);
    kind.is_block = 0;
    octets[0] = 0x3B;
    octets[1] = 0x0F;
    every_way(&kind, octets, sizeof octets);
    octets[0] = 0;
    every_way(&kind, octets, sizeof octets);
}

static void argued(void)
{
    struct scard_lent_block_reader state, before;
    struct scard_lent_atr_reader atr;
    struct scard_block block;
    uint8_t octet = 0;
    memset(&state, 0xFF, sizeof state);
    before = state;
    CHECK(is(scard_lent_block_reader_begin(&state, 0), SCARD_ARGUMENT, 0));
    CHECK(is(scard_lent_block_reader_begin(&state, 255), SCARD_ARGUMENT, 0));
    CHECK(is(scard_lent_block_reader_feed(&state, &octet, 1), SCARD_ARGUMENT, 0));
    CHECK(is(scard_lent_block_reader_finish(&state), SCARD_ARGUMENT, 0));
    CHECK(is(scard_lent_block_reader_value(&state, &block), SCARD_ARGUMENT, 0));
    CHECK(memcmp(&state, &before, sizeof state) == 0);
    memset(&state, 0, sizeof state);
    CHECK(is(scard_lent_block_reader_feed(&state, &octet, 1), SCARD_ARGUMENT, 0) && state.count == 0);
    CHECK(is(scard_lent_block_reader_begin(&state, 1), SCARD_OK, 0));
    CHECK(is(scard_lent_block_reader_feed(&state, NULL, 0), SCARD_MORE, 0));
    scard_lent_atr_reader_begin(&atr);
    CHECK(is(scard_lent_atr_reader_feed(&atr, NULL, 0), SCARD_MORE, 0));
    CHECK(is(scard_lent_atr_reader_finish(&atr), SCARD_SHORT, 0));
}

/* Checks a state that other code wrote, in a heap block of its size: it returns what the decoder says of its first
 * octets. */
static void hostile(const struct kind *kind, const union state *given)
{
    size_t size = size_of(kind), room = kind->is_block ? SCARD_BLOCK_ROOM : SCARD_ATR_ROOM;
    size_t had = held(kind, given) < room ? held(kind, given) : room;
    struct value whole, value;
    struct scard_verdict v = decoded(kind, kept(kind, given), had, &whole), w;
    void *own = malloc(size);
    memcpy(own, given, size);
    w = value_of(kind, own, &value);
    CHECK(v.status == SCARD_OK ? same(w, v) : is(w, SCARD_ARGUMENT, 0));
    w = finish(kind, own);
    CHECK(v.status == SCARD_OK ? is(w, SCARD_OK, 0) : same(w, v));
    CHECK(memcmp(own, given, size) == 0);
    w = feed(kind, own, (const uint8_t *)"\x00\x5A\xA5", 3);
    CHECK(v.status == SCARD_OK ? is(w, SCARD_OK, 0) : v.status == SCARD_SHORT || same(w, v));
    CHECK(held(kind, own) <= room);
    free(own);
}

static void states(void)
{
    static const uint32_t COUNTS[] = {0, 1, 2, 3, 4, 5, 32, 33, 34, 257, 258, 259, 65536, 0x80000000u, 0xFFFFFFFFu};
    struct kind kind = {1, 40};
    size_t count, place;
    int value;
    for (kind.is_block = 0; kind.is_block < 2; kind.is_block++) {
        for (count = 0; count < sizeof COUNTS / sizeof *COUNTS; count++) {
            for (place = 0; place < 5; place++) {
                for (value = 0; value < 256; value++) {
                    union state state;
                    begin(&kind, &state);
                    memset(kind.is_block ? state.block.octets : state.atr.octets, value & 0x3F,
                           kind.is_block ? SCARD_BLOCK_ROOM : SCARD_ATR_ROOM);
                    if (kind.is_block) {
                        state.block.count = COUNTS[count];
                        state.block.octets[place] = (uint8_t)value;
                    } else {
                        state.atr.count = COUNTS[count];
                        state.atr.octets[place] = (uint8_t)value;
                    }
                    hostile(&kind, &state);
                }
            }
        }
    }
}

#ifndef WITHOUT_HANDLES
/* Reads octet by octet, and compares with a reader in a handle. */
static void beside_handles(void)
{
    struct scard_handle handle = SCARD_HANDLE_EMPTY;
    struct kind kind = {0, 32};
    size_t row, place, rows;
    for (kind.is_block = 0; kind.is_block < 2; kind.is_block++) {
        rows = kind.is_block ? sizeof BLOCKS / sizeof *BLOCKS : sizeof ATRS / sizeof *ATRS;
        for (row = 0; row < rows; row++) {
            struct octets octets = of_hex(kind.is_block ? BLOCKS[row] : ATRS[row]);
            union state state;
            struct scard_verdict v =
                kind.is_block ? scard_block_reader_open(&handle, kind.ifs) : scard_atr_reader_open(&handle);
            CHECK(v.status == SCARD_OK);
            begin(&kind, &state);
            for (place = 0; place < octets.count; place++) {
                v = scard_reader_feed(&handle, octets.at + place, 1);
                CHECK(same(feed(&kind, &state, octets.at + place, 1), v));
                CHECK(same(finish(&kind, &state), scard_reader_finish(&handle)));
            }
            free(octets.at);
        }
    }
    scard_close(&handle);
}
#endif

int main(void)
{
    listed();
    mutated();
    longest();
    argued();
    states();
#ifndef WITHOUT_HANDLES
    beside_handles();
#endif
    return verdict_of_checks("lent_readers");
}
