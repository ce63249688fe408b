/* Objects of a forest with their offsets, the first on a path, and lists that are filled. */
#include "check.h"

static const struct scard_tag tag_6f = {{0x6F, 0, 0}, 1}, tag_84 = {{0x84, 0, 0}, 1}, tag_a5 = {{0xA5, 0, 0}, 1},
                              tag_bf0c = {{0xBF, 0x0C, 0}, 2}, tag_50 = {{0x50, 0, 0}, 1};

/* Returns the parts of a forest, in a block with room for exactly as many as there are. */
static struct scard_part *parts_of(struct octets octets, size_t *count)
{
    struct scard_verdict v = scard_tlv_parts(octets.at, octets.count, SCARD_TLV_LARGEST, NULL, 0);
    struct scard_part *parts;
    *count = v.status == SCARD_ARGUMENT ? v.place : 0;
    parts = (struct scard_part *)malloc(*count * sizeof *parts);
    v = scard_tlv_parts(octets.at, octets.count, SCARD_TLV_LARGEST, parts, *count);
    CHECK(v.status == SCARD_OK && v.place == *count);
    return parts;
}

static int is_part(const struct scard_part *part, int depth, int constructed, int len_octets, const char *tag,
                   size_t place, size_t len)
{
    return part->depth == depth && part->is_constructed == constructed && part->len_octets == len_octets
           && part->tag.count <= 3 && is_hex(part->tag.octets, part->tag.count, tag) && part->place == place
           && part->len == len;
}

static void parts(void)
{
    struct octets octets = of_hex("006F81108407A0000000041010A505BF0C0250000000DF8101820001AA");
    struct scard_part *all, few[2];
    struct scard_verdict v;
    size_t count;
    all = parts_of(octets, &count);
    CHECK(count == 6);
    CHECK(is_part(&all[0], 1, 1, 2, "6F", 4, 16));
    CHECK(is_part(&all[1], 2, 0, 1, "84", 6, 7));
    CHECK(is_part(&all[2], 2, 1, 1, "A5", 15, 5));
    CHECK(is_part(&all[3], 3, 1, 1, "BF0C", 18, 2));
    CHECK(is_part(&all[4], 4, 0, 1, "50", 20, 0));
    CHECK(is_part(&all[5], 1, 0, 3, "DF8101", 28, 1));
    CHECK(octets.at[all[5].place] == 0xAA && all[0].tag.octets[1] == 0 && all[0].tag.octets[2] == 0);
    memset(few, 0x55, sizeof few);
    v = scard_tlv_parts(octets.at, octets.count, SCARD_TLV_LARGEST, few, 2);
    CHECK(strcmp(line_of(v, SCARD_CODEC_TLV), "argument 6") == 0);
    CHECK(few[0].depth == all[0].depth && few[1].depth == all[1].depth && few[1].place == all[1].place);
    v = scard_tlv_parts(octets.at, octets.count - 1, SCARD_TLV_LARGEST, few, 2);
    CHECK(strcmp(line_of(v, SCARD_CODEC_TLV), "short at 28") == 0);
    v = scard_tlv_parts(octets.at, octets.count, 20, few, 2);
    CHECK(strcmp(line_of(v, SCARD_CODEC_TLV), "refused at 20: TooLong") == 0);
    v = scard_tlv_parts(octets.at, octets.count, SCARD_TLV_LARGEST + 1, few, 2);
    CHECK(strcmp(line_of(v, SCARD_CODEC_TLV), "argument 0") == 0);
    v = scard_tlv_parts(NULL, 0, 0, NULL, 0);
    CHECK(v.status == SCARD_OK && v.place == 0);
    free(all);
    free(octets.at);
}

static void firsts(void)
{
    struct octets octets = of_hex("6F0250006F0884008401AA500150");
    struct scard_tag path[4];
    struct scard_part *all;
    size_t count;
    all = parts_of(octets, &count);
    CHECK(count == 6);
    path[0] = tag_6f;
    CHECK(scard_tlv_first(all, count, path, 1) == 0);
    path[1] = tag_84;
    CHECK(scard_tlv_first(all, count, path, 2) == 3);
    path[1] = tag_50;
    CHECK(scard_tlv_first(all, count, path, 2) == 1);
    path[1] = tag_a5;
    CHECK(scard_tlv_first(all, count, path, 2) == count);
    path[0] = tag_84;
    CHECK(scard_tlv_first(all, count, path, 1) == count);
    CHECK(scard_tlv_first(all, count, path, 0) == count);
    CHECK(scard_tlv_first(NULL, 0, NULL, 0) == 0);
    free(all);
    free(octets.at);
    octets = of_hex("6F108407A0000000041010A505BF0C025000");
    all = parts_of(octets, &count);
    path[0] = tag_6f;
    path[1] = tag_a5;
    path[2] = tag_bf0c;
    path[3] = tag_50;
    path[3].octets[2] = 0x99;
    CHECK(scard_tlv_first(all, count, path, 4) == 4);
    CHECK(scard_tlv_first(all, count, path, 3) == 3);
    CHECK(scard_tlv_first(all, count, path + 1, 1) == count);
    free(all);
    free(octets.at);
}

static void fills(void)
{
    static const uint8_t amount[] = {0x12, 0x34}, number[] = {0x47, 0x61}, name[] = {0x41, 0x42};
    struct octets list = of_hex("9F02065A045F20015F20045F2A02E003");
    struct scard_known known[] = {{{{0x9F, 0x02, 0}, 2}, SCARD_NUMERIC, amount, 2},
                                  {{{0x5A, 0, 0}, 1}, SCARD_COMPRESSED_NUMERIC, number, 2},
                                  {{{0x5F, 0x20, 0}, 2}, SCARD_OTHER, name, 2},
                                  {{{0xE0, 0, 0}, 1}, SCARD_OTHER, name, 2},
                                  {{{0x9A, 0, 0}, 1}, SCARD_OTHER, NULL, 0}};
    uint8_t *out = (uint8_t *)malloc(20);
    struct scard_verdict v = scard_dol_fill(list.at, list.count, known, 5, out, 20);
    CHECK(v.status == SCARD_OK && is_hex(out, v.place, "0000000012344761FFFF41414200000000000000"));
    v = scard_dol_fill(list.at, list.count, known, 5, out, 19);
    CHECK(strcmp(line_of(v, SCARD_CODEC_DOL), "argument 20") == 0);
    CHECK(is_hex(out, 20, "0000000012344761FFFF41414200000000000000"));
    v = scard_dol_fill(list.at, list.count, known, 5, NULL, 0);
    CHECK(strcmp(line_of(v, SCARD_CODEC_DOL), "argument 20") == 0);
    v = scard_dol_fill(list.at, list.count, NULL, 0, out, 20);
    CHECK(v.status == SCARD_OK && is_hex(out, v.place, "0000000000000000000000000000000000000000"));
    v = scard_dol_fill(list.at, 1, known, 5, out, 20);
    CHECK(strcmp(line_of(v, SCARD_CODEC_DOL), "short at 1") == 0);
    list.at[3] = 0;
    v = scard_dol_fill(list.at, list.count, known, 5, out, 20);
    CHECK(strcmp(line_of(v, SCARD_CODEC_DOL), "refused at 3: TagZero") == 0);
    list.at[3] = 0x5A;
    known[4].tag = known[1].tag;
    v = scard_dol_fill(list.at, list.count, known, 5, out, 20);
    CHECK(v.status == SCARD_DUPLICATE && v.place == 0 && v.reason == 0);
    known[4].format = 3;
    v = scard_dol_fill(list.at, list.count, known, 5, out, 20);
    CHECK(strcmp(line_of(v, SCARD_CODEC_DOL), "argument 0") == 0);
    known[4].format = 0;
    known[4].tag.count = 2;
    v = scard_dol_fill(list.at, list.count, known, 5, out, 20);
    CHECK(strcmp(line_of(v, SCARD_CODEC_DOL), "argument 0") == 0);
    v = scard_dol_fill(NULL, 0, NULL, 0, NULL, 0);
    CHECK(v.status == SCARD_OK && v.place == 0);
    free(out);
    free(list.at);
}

static int is_entry(const struct scard_entry *entry, const char *tag, int len)
{
    return is_hex(entry->tag.octets, entry->tag.count, tag) && entry->len == len;
}

static void entries(void)
{
    struct octets list = of_hex("9F02065A08DF810103");
    struct scard_entry all[3], few[2];
    struct scard_verdict v = scard_dol_entries(list.at, list.count, all, 3);
    size_t front;
    CHECK(v.status == SCARD_OK && v.place == 3);
    CHECK(is_entry(&all[0], "9F02", 6) && is_entry(&all[1], "5A", 8) && is_entry(&all[2], "DF8101", 3));
    CHECK(all[1].tag.octets[1] == 0 && all[1].tag.octets[2] == 0);
    memset(few, 0x55, sizeof few);
    v = scard_dol_entries(list.at, list.count, few, 2);
    CHECK(strcmp(line_of(v, SCARD_CODEC_DOL), "argument 3") == 0 && is_entry(&few[0], "9F02", 6) && is_entry(&few[1], "5A", 8));
    CHECK(scard_dol_entries(list.at, list.count, NULL, 0).place == 3);
    for (front = 0; front < list.count; front++) {
        struct scard_verdict checked = scard_dol_check(list.at, front);
        v = scard_dol_entries(list.at, front, few, 2);
        CHECK(v.status == checked.status && v.reason == checked.reason);
        CHECK(v.place == (v.status == SCARD_OK ? (size_t)(front > 0) + (front > 3) : front));
    }
    list.at[3] = 0;
    v = scard_dol_entries(list.at, list.count, few, 2);
    CHECK(strcmp(line_of(v, SCARD_CODEC_DOL), "refused at 3: TagZero") == 0);
    free(list.at);
}

/* Checks each front of a forest, in blocks of exactly its size. The parts are inside, and are found by the tags around
 * them. A call doesn't write past an array with room for one part less. */
static void fronts(void)
{
    struct octets octets = of_hex("006F108407A0000000041010A505BF0C0250009F3303E0F8C800DF8101820001AA");
    size_t front, place, count;
    for (front = 0; front <= octets.count; front++) {
        struct octets own;
        struct scard_part *all, few[2];
        struct scard_verdict v;
        own.count = front;
        own.at = (uint8_t *)malloc(front);
        if (front > 0) {
            memcpy(own.at, octets.at, front);
        }
        if (scard_tlv_check(own.at, own.count, SCARD_TLV_LARGEST).status != SCARD_OK) {
            v = scard_tlv_parts(own.at, own.count, SCARD_TLV_LARGEST, NULL, 0);
            CHECK(v.status == SCARD_SHORT && v.place == front);
            v = scard_tlv_parts(own.at, own.count, SCARD_TLV_LARGEST, few, 2);
            CHECK(v.status == SCARD_SHORT && v.place == front);
            free(own.at);
            continue;
        }
        all = parts_of(own, &count);
        if (count > 0) {
            all[count - 1].depth = 0x55;
            v = scard_tlv_parts(own.at, own.count, SCARD_TLV_LARGEST, all, count - 1);
            CHECK(v.status == SCARD_ARGUMENT && v.place == count && all[count - 1].depth == 0x55);
            v = scard_tlv_parts(own.at, own.count, SCARD_TLV_LARGEST, all, count);
            CHECK(v.status == SCARD_OK && v.place == count && all[0].depth == 1);
        }
        for (place = 0; place < count; place++) {
            CHECK(all[place].place + all[place].len <= front);
            if (all[place].depth == 1) {
                CHECK(scard_tlv_first(all, count, &all[place].tag, 1) == place);
            }
        }
        free(all);
        free(own.at);
    }
    free(octets.at);
}

static struct scard_tag tag_of(const char *text)
{
    struct octets octets = of_hex(text);
    struct scard_tag tag = {{0, 0, 0}, 0};
    memcpy(tag.octets, octets.at, octets.count);
    tag.count = (uint8_t)octets.count;
    free(octets.at);
    return tag;
}

/* Headers with the shortest length fields, and entries. A buffer that is one octet too small stays as it was. */
static void built(void)
{
    static const struct {
        const char *tag;
        size_t len;
        const char *header;
    } rows[] = {
        {"84", 0, "8400"}, {"84", 0x7F, "847F"}, {"84", 0x80, "848180"}, {"9F02", 0xFF, "9F0281FF"},
        {"9F02", 0x100, "9F02820100"}, {"70", 0xFFFF, "7082FFFF"}, {"DF8101", 0x10000, "DF810183010000"},
        {"7F49", SCARD_TLV_LARGEST, "7F4983100000"}};
    size_t row;
    for (row = 0; row < sizeof rows / sizeof rows[0]; row++) {
        const struct scard_tag tag = tag_of(rows[row].tag);
        const uint8_t len = (uint8_t)rows[row].len;
        uint8_t out[7], entry[4];
        size_t room = 7, needed = strlen(rows[row].header) / 2;
        struct scard_verdict v = scard_tlv_header(&tag, rows[row].len, out, room);
        CHECK(v.status == SCARD_OK && is_hex(out, v.place, rows[row].header));
        memset(out, 0xA5, sizeof out);
        v = scard_tlv_header(&tag, rows[row].len, out, needed - 1);
        CHECK(v.status == SCARD_ARGUMENT && v.place == needed && out[0] == 0xA5);
        v = scard_dol_entry(&tag, len, entry, sizeof entry);
        CHECK(v.status == SCARD_OK && v.place == (size_t)tag.count + 1 && entry[tag.count] == len);
        CHECK(memcmp(entry, tag.octets, tag.count) == 0);
        memset(entry, 0xA5, sizeof entry);
        v = scard_dol_entry(&tag, len, entry, tag.count);
        CHECK(v.status == SCARD_ARGUMENT && v.place == (size_t)tag.count + 1 && entry[0] == 0xA5);
    }
}

/* What isn't a tag, and a value that no forest can have. */
static void not_built(void)
{
    static const char *const rows[] = {"", "00", "9F", "8401", "9F00", "9F80", "9F8180", "1F8001"};
    const struct scard_tag tag = tag_of("84");
    uint8_t out[7];
    size_t row;
    for (row = 0; row < sizeof rows / sizeof rows[0]; row++) {
        const struct scard_tag wrong = tag_of(rows[row]);
        memset(out, 0xA5, sizeof out);
        CHECK(strcmp(line_of(scard_tlv_header(&wrong, 1, out, 7), SCARD_CODEC_TLV), "argument 0") == 0);
        CHECK(strcmp(line_of(scard_dol_entry(&wrong, 1, out, 7), SCARD_CODEC_DOL), "argument 0") == 0);
        CHECK(out[0] == 0xA5);
    }
    CHECK(strcmp(line_of(scard_tlv_header(&tag, SCARD_TLV_LARGEST + 1, out, 7), SCARD_CODEC_TLV), "argument 0") == 0);
    CHECK(strcmp(line_of(scard_tlv_header(&tag, SIZE_MAX, out, 7), SCARD_CODEC_TLV), "argument 0") == 0);
}

/* A forest that is put together from headers, from the inside out, and the list of its tags. */
static void put_together(void)
{
    static const uint8_t aid[] = {0xA0, 0x00, 0x00, 0x00, 0x03};
    const struct scard_tag inner = tag_of("84"), outer = tag_of("6F");
    uint8_t forest[32], list[8];
    size_t count;
    struct scard_verdict v = scard_tlv_header(&outer, 2 + sizeof aid, forest, sizeof forest);
    CHECK(v.status == SCARD_OK);
    count = v.place;
    v = scard_tlv_header(&inner, sizeof aid, forest + count, sizeof forest - count);
    CHECK(v.status == SCARD_OK);
    count += v.place;
    memcpy(forest + count, aid, sizeof aid);
    count += sizeof aid;
    CHECK(is_hex(forest, count, "6F078405A000000003"));
    CHECK(scard_tlv_check(forest, count, SCARD_TLV_LARGEST).status == SCARD_OK);
    v = scard_dol_entry(&outer, 7, list, sizeof list);
    CHECK(v.status == SCARD_OK);
    count = v.place;
    v = scard_dol_entry(&inner, 5, list + count, sizeof list - count);
    CHECK(v.status == SCARD_OK && is_hex(list, count + v.place, "6F078405"));
    CHECK(scard_dol_check(list, count + v.place).status == SCARD_OK);
}

int main(void)
{
    parts();
    firsts();
    fills();
    entries();
    fronts();
    built();
    not_built();
    put_together();
    return verdict_of_checks("objects");
}
