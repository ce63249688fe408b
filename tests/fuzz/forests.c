/* Fuzzes data objects and lists. The parts of a forest are where their tags are, a check in pieces says what a check of
 * the whole says, tidying twice equals tidying once, and a list is filled by the lengths of its entries.
 */
#include "input.h"

enum { MOST = 600, PARTS = MOST / 2 + 1, LENGTHS = 255 * PARTS };

static struct scard_part parts[PARTS];
static struct scard_entry entries[PARTS];
static uint8_t out[MOST + LENGTHS], twice[MOST];

/* A check gets the octets in pieces of `step`. */
static void in_pieces(const uint8_t *octets, size_t count, size_t max, size_t step, struct scard_verdict checked)
{
    struct scard_lent_check check;
    struct scard_verdict verdict;
    size_t at = 0;
    if (scard_lent_check_begin(&check, max).status != SCARD_OK) {
        return;
    }
    while (at < count) {
        size_t piece = step < count - at ? step : count - at;
        verdict = scard_lent_check_feed(&check, octets + at, piece);
        SHOULD(verdict.status == SCARD_MORE || verdict.status == SCARD_AT);
        at += piece;
    }
    verdict = scard_lent_check_finish(&check);
    SHOULD(verdict.status == checked.status && verdict.reason == checked.reason);
    SHOULD(verdict.status == SCARD_OK || verdict.place == checked.place);
}

/* Each part is inside the octets, after its tag and its length field, and a part of a deeper one is inside it. */
static void lie(const uint8_t *octets, size_t count, size_t max, struct scard_verdict checked)
{
    struct scard_verdict verdict = scard_tlv_parts(octets, count, max, parts, PARTS);
    size_t at;
    SHOULD(verdict.status == checked.status && verdict.reason == checked.reason);
    for (at = 0; verdict.status == SCARD_OK && at < verdict.place; at++) {
        const struct scard_part *part = &parts[at];
        size_t header = part->tag.count + (size_t)part->len_octets;
        SHOULD(part->depth >= 1 && part->depth <= 16 && part->place >= header && part->place + part->len <= count);
        SHOULD(memcmp(octets + part->place - header, part->tag.octets, part->tag.count) == 0);
        SHOULD(at == 0 || part->place > parts[at - 1].place || part->len == 0 || parts[at - 1].len == 0);
        SHOULD(scard_tlv_first(parts, (size_t)verdict.place, &part->tag, 1) <= at || part->depth > 1);
    }
}

static void tidied(const uint8_t *octets, size_t count, size_t max, struct scard_verdict checked)
{
    struct scard_verdict verdict = scard_tlv_tidy(octets, count, max, out, count), again;
    SHOULD(verdict.status == checked.status && verdict.reason == checked.reason);
    if (verdict.status == SCARD_OK) {
        SHOULD(verdict.place <= count);
        again = scard_tlv_tidy(out, (size_t)verdict.place, max, twice, sizeof twice);
        SHOULD(again.status == SCARD_OK && again.place == verdict.place);
        SHOULD(memcmp(out, twice, (size_t)again.place) == 0);
    }
}

static void forest(const uint8_t *octets, size_t count, size_t step, size_t max)
{
    struct scard_verdict checked = scard_tlv_check(octets, count, max);
    if (checked.status == SCARD_ARGUMENT) {
        return;
    }
    SHOULD(may_be(checked, count));
    in_pieces(octets, count, max, step, checked);
    lie(octets, count, max, checked);
    tidied(octets, count, max, checked);
}

/* The first entries have known values, which are octets of the list itself. */
static void list(const uint8_t *octets, size_t count, size_t known_count, uint8_t format)
{
    struct scard_known known[4];
    struct scard_verdict checked = scard_dol_check(octets, count), verdict;
    size_t at, sum = 0;
    verdict = scard_dol_entries(octets, count, entries, PARTS);
    SHOULD(may_be(checked, count) && verdict.status == checked.status && verdict.reason == checked.reason);
    if (checked.status != SCARD_OK) {
        return;
    }
    for (at = 0; at < verdict.place; at++) {
        sum += entries[at].len;
    }
    known_count = known_count < verdict.place ? known_count : (size_t)verdict.place;
    for (at = 0; at < known_count; at++) {
        known[at].tag = entries[at].tag;
        known[at].format = (uint8_t)((format + at) % 3);
        known[at].value = octets;
        known[at].count = count < at * 3 ? count : at * 3;
    }
    verdict = scard_dol_fill(octets, count, known, known_count, out, sizeof out);
    SHOULD(verdict.status == SCARD_DUPLICATE || (verdict.status == SCARD_OK && verdict.place == sum));
}

int LLVMFuzzerTestOneInput(const uint8_t *data, size_t size)
{
    struct input input = {data, size};
    const uint8_t kind = take(&input), number = take(&input);
    const uint8_t *octets;
    size_t count = take_octets(&input, &octets, MOST);
    if (kind % 4 == 3) {
        list(octets, count, number % 5, number);
    } else {
        forest(octets, count, 1 + number % 32, kind % 4 == 2 ? number : SCARD_TLV_LARGEST);
    }
    return 0;
}
