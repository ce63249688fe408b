/* The tidy form of forests, compared with one that this program makes in another way: each value in a separate block,
 * the innermost first.
 */
#include "check.h"

enum { MARK = 0x55, BEYOND = 7, DRAWN = 2000 };

/* ---- the tidy form, made here ---- */

/* Allocates a block with room for this many octets. */
static uint8_t *block_of(size_t count)
{
    uint8_t *block = (uint8_t *)malloc(count + 1);
    if (block == NULL) {
        abort();
    }
    return block;
}

static size_t tag_octets(const uint8_t *at)
{
    if ((at[0] & 0x1F) != 0x1F) {
        return 1;
    }
    return at[1] < 0x80 ? 2 : 3;
}

/* Decodes a length field. Returns how many octets the field has. */
static size_t field_of(const uint8_t *at, size_t *len)
{
    size_t place, more = at[0] < 0x80 ? 0 : at[0] - 0x80u;
    *len = more == 0 ? at[0] : 0;
    for (place = 1; place <= more; place++) {
        *len = *len * 256 + at[place];
    }
    return more + 1;
}

/* Writes a length in a field with this many octets after the first, or in the shortest field if `more` is 9. */
static size_t put_field(uint8_t *out, size_t len, size_t more)
{
    size_t place;
    if (more == 9) {
        for (more = 0; len >> (8 * more) > 0; more++) {
        }
        more = len < 0x80 ? 0 : more;
    }
    out[0] = (uint8_t)(more == 0 ? len : 0x80 + more);
    for (place = 1; place <= more; place++) {
        out[place] = (uint8_t)(len >> (8 * (more - place)));
    }
    return more + 1;
}

/* Writes the tidy form of the forest in these octets. Returns its length. */
static size_t tidied(const uint8_t *octets, size_t count, uint8_t *out)
{
    size_t place = 0, written = 0;
    while (place < count) {
        size_t tag, len;
        const uint8_t *value;
        uint8_t *inner;
        if (octets[place] == 0) {
            place++;
            continue;
        }
        tag = tag_octets(octets + place);
        memcpy(out + written, octets + place, tag);
        value = octets + place + tag;
        value += field_of(value, &len);
        place = (size_t)(value - octets) + len;
        written += tag;
        inner = block_of(len);
        if (out[written - tag] & 0x20) {
            len = tidied(value, len, inner);
        } else {
            memcpy(inner, value, len);
        }
        written += put_field(out + written, len, 9);
        memcpy(out + written, inner, len);
        written += len;
        free(inner);
    }
    return written;
}

/* ---- the call ---- */

static int is_marked(const uint8_t *octets, size_t count)
{
    size_t place;
    for (place = 0; place < count; place++) {
        if (octets[place] != MARK) {
            return 0;
        }
    }
    return 1;
}

/* Makes the call with this room in a larger buffer, all of it marked. Returns whether it answers as expected and leaves
 * the rest.
 */
static int answers(const uint8_t *octets, size_t count, size_t room, const uint8_t *wanted, size_t needed)
{
    size_t all = (room > needed ? room : needed) + BEYOND;
    uint8_t *out = block_of(all);
    struct scard_verdict v;
    int good;
    memset(out, MARK, all);
    v = scard_tlv_tidy(octets, count, SCARD_TLV_LARGEST, out, room);
    good = v.reason == 0 && v.place == needed;
    if (room < needed) {
        good &= v.status == SCARD_ARGUMENT && is_marked(out, all);
    } else {
        good &= v.status == SCARD_OK && memcmp(out, wanted, needed) == 0 && is_marked(out + needed, all - needed);
    }
    free(out);
    return good;
}

/* Checks octets that may not be a forest. The call refuses what the check refuses, at once, and leaves the buffer. */
static int is_refused(const uint8_t *octets, size_t count, size_t max, struct scard_verdict check)
{
    uint8_t *out = block_of(count + BEYOND);
    struct scard_verdict v;
    int good;
    memset(out, MARK, count + BEYOND);
    v = scard_tlv_tidy(octets, count, max, out, count + BEYOND);
    good = v.status == check.status && v.reason == check.reason && v.place == check.place
           && is_marked(out, count + BEYOND);
    free(out);
    return good;
}

/* Checks octets of both kinds, in a block of exactly their size, with all sizes of room or with some. */
static int is_right(const uint8_t *octets, size_t count, int all_rooms)
{
    uint8_t *own = (uint8_t *)malloc(count), *wanted = block_of(count);
    struct scard_verdict check;
    size_t needed, room;
    int good;
    if (count > 0) {
        memcpy(own, octets, count);
    }
    check = scard_tlv_check(own, count, SCARD_TLV_LARGEST);
    if (check.status != SCARD_OK) {
        good = is_refused(own, count, SCARD_TLV_LARGEST, check);
    } else {
        needed = tidied(own, count, wanted);
        good = needed <= count && answers(own, count, needed, wanted, needed)
               && answers(own, count, needed + BEYOND, wanted, needed) && answers(own, count, 0, wanted, needed)
               && answers(wanted, needed, needed, wanted, needed);
        if (needed > 0) {
            good = good && answers(own, count, needed - 1, wanted, needed);
        }
        for (room = 1; all_rooms && room < needed; room++) {
            good = good && answers(own, count, room, wanted, needed);
        }
    }
    free(own);
    free(wanted);
    return good;
}

/* ---- forests ---- */

/* The octets so far, with room for all that this test makes. */
struct made {
    uint8_t octets[70000];
    size_t count;
};

static struct made made;
static uint8_t large[sizeof made.octets];

/* Puts the octets so far into an object, with this many octets after the first of its length field, and with fillers.
 */
static void wrap(const char *tag, size_t more, size_t fillers)
{
    struct octets first = of_hex(tag);
    uint8_t field[5];
    size_t octets = put_field(field, made.count, more);
    memmove(made.octets + fillers + first.count + octets, made.octets, made.count);
    memset(made.octets, 0, fillers);
    memcpy(made.octets + fillers, first.at, first.count);
    memcpy(made.octets + fillers + first.count, field, octets);
    made.count += fillers + first.count + octets;
    free(first.at);
}

static void fill(size_t count)
{
    size_t place;
    made.count = count;
    for (place = 0; place < count; place++) {
        made.octets[place] = (uint8_t)(place * 7 + 1);
    }
}

/* Values whose shortest length field has one octet more than that of a value one shorter, in objects of two depths. */
static void boundaries(void)
{
    static const size_t lengths[] = {0, 1, 126, 127, 128, 129, 254, 255, 256, 257, 65534, 65535, 65536, 65537};
    static const size_t inner[][2] = {{125, 127}, {126, 128}, {252, 255}, {253, 256}, {65531, 65535}, {65532, 65536}};
    size_t row, more;
    for (row = 0; row < sizeof lengths / sizeof lengths[0]; row++) {
        fill(lengths[row]);
        wrap("5A", 4, 2);
        CHECK(is_right(made.octets, made.count, lengths[row] < 300));
        wrap("9F8101", 4, 1);
        CHECK(is_right(made.octets, made.count, 0));
        wrap("BF8101", 3, 0);
        wrap("7F20", 4, 0);
        CHECK(is_right(made.octets, made.count, 0));
    }
    /* the value of a constructed object has this many octets once its content is tidy */
    for (row = 0; row < sizeof inner / sizeof inner[0]; row++) {
        for (more = inner[row][0] < 128 ? 1 : inner[row][0] < 256 ? 1 : 2; more <= 4; more++) {
            struct scard_verdict v;
            size_t len, field;
            fill(inner[row][0]);
            wrap("5A", more, 3);
            wrap("70", 4, 1);
            v = scard_tlv_tidy(made.octets, made.count, SCARD_TLV_LARGEST, large, sizeof large);
            field = field_of(large + 1, &len);
            CHECK(v.status == SCARD_OK && len == inner[row][1] && v.place == 1 + field + len);
            CHECK(is_right(made.octets, made.count, inner[row][0] < 300));
        }
    }
}

/* Objects as deep as allowed, and one level deeper. */
static void levels(void)
{
    static const char *const tags[] = {"70", "BF0C", "FF8101"};
    size_t depth, more;
    for (more = 1; more <= 4; more++) {
        fill(3);
        wrap("5A", more, 1);
        for (depth = 2; depth <= 16; depth++) {
            wrap(tags[depth % 3], more, depth % 2);
            CHECK(is_right(made.octets, made.count, 1));
        }
        wrap("70", more, 0);
        CHECK(scard_tlv_check(made.octets, made.count, SCARD_TLV_LARGEST).reason == SCARD_TLV_TOO_DEEP);
        CHECK(is_right(made.octets, made.count, 0));
    }
}

/* ---- drawn forests ---- */

static uint32_t seed = 1;

static unsigned drawn(unsigned below)
{
    seed = seed * 1664525u + 1013904223u;
    return (seed >> 8) % below;
}

/* Draws a list of objects at a depth. Each value may be a list. Returns its length. */
static size_t draw_list(uint8_t *to, unsigned depth)
{
    static const char *const primitive[] = {"5A", "9F02", "DF8101"};
    static const char *const constructed[] = {"70", "BF0C", "FF8101"};
    size_t written = 0, items = drawn(4);
    while (items-- > 0) {
        uint8_t *value = block_of(DRAWN);
        int is_list = depth < 16 && drawn(3) > 0;
        struct octets tag = of_hex((is_list ? constructed : primitive)[drawn(3)]);
        size_t count = is_list ? draw_list(value, depth + 1) : drawn(drawn(8) == 0 ? 300 : 6), more, place;
        for (place = 0; !is_list && place < count; place++) {
            value[place] = (uint8_t)drawn(256);
        }
        more = drawn(5);
        more = count >= 256 && more < 2 ? 2 : count >= 128 && more < 1 ? 1 : more;
        while (drawn(3) == 0 && written < DRAWN / 2) {
            to[written++] = 0;
        }
        if (written + tag.count + 5 + count < DRAWN) {
            memcpy(to + written, tag.at, tag.count);
            written += tag.count;
            written += put_field(to + written, count, more);
            memcpy(to + written, value, count);
            written += count;
        }
        free(tag.at);
        free(value);
    }
    return written;
}

/* Random forests, all their cuts, and changes of one octet. The results may be forests too. */
static void draws(void)
{
    unsigned turn, good = 0;
    for (turn = 0; turn < 600; turn++) {
        size_t count = draw_list(made.octets, 1), place, cut;
        good += scard_tlv_check(made.octets, count, SCARD_TLV_LARGEST).status == SCARD_OK;
        CHECK(is_right(made.octets, count, count < 120));
        for (cut = 0; cut < count && count < 120; cut++) {
            CHECK(is_right(made.octets, cut, 0));
        }
        for (place = 0; place < 20 && count > 0; place++) {
            size_t at = drawn((unsigned)count);
            uint8_t was = made.octets[at];
            made.octets[at] = (uint8_t)drawn(256);
            CHECK(is_right(made.octets, count, 0));
            made.octets[at] = was;
        }
    }
    CHECK(good == turn);
}

/* ---- rows, and the limit ---- */

static void rows(void)
{
    static const char *const all[][2] = {{"", ""},
                                         {"00", ""},
                                         {"0000005A0000", "5A00"},
                                         {"5A81011200", "5A0112"},
                                         {"7081045A820000", "70025A00"},
                                         {"7000", "7000"},
                                         {"7003000000", "7000"},
                                         {"006F8106A504008401556F00", "6F05A5038401556F00"},
                                         {"BF0C84000000075A830000011100", "BF0C035A0111"}};
    size_t row;
    for (row = 0; row < sizeof all / sizeof all[0]; row++) {
        struct octets octets = of_hex(all[row][0]), wanted = of_hex(all[row][1]);
        CHECK(answers(octets.at, octets.count, octets.count, wanted.at, wanted.count));
        CHECK(is_right(octets.at, octets.count, 1));
        free(octets.at);
        free(wanted.at);
    }
}

static void limits(void)
{
    struct octets octets = of_hex("7081045A820000");
    struct scard_verdict wrong = {SCARD_ARGUMENT, 0, 0};
    size_t max;
    for (max = 0; max < octets.count; max++) {
        struct scard_verdict check = scard_tlv_check(octets.at, octets.count, max);
        CHECK(check.status == SCARD_AT && is_refused(octets.at, octets.count, max, check));
    }
    CHECK(is_refused(octets.at, octets.count, SCARD_TLV_LARGEST + 1, wrong));
    CHECK(is_refused(octets.at, octets.count, (size_t)-1, wrong));
    free(octets.at);
}

int main(void)
{
    rows();
    limits();
    boundaries();
    levels();
    draws();
    return verdict_of_checks("tidy");
}
