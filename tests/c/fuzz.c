/* Random and changed octets. A decoded value encodes to the same octets. The parts of a forest are where their tags
 * are, and a second tidying changes nothing. A check and a receiver of chains whose state the caller keeps give the
 * same answer for two pieces as for the whole.
 */
#define SCARD_MUST_USE /* the status of a begin doesn't matter here */
#include "check.h"

enum { INPUTS = 1000000, MOST = 64 };

static uint64_t state = 0x9E3779B97F4A7C15u;

static uint32_t any(uint32_t below)
{
    state ^= state << 13;
    state ^= state >> 7;
    state ^= state << 17;
    return (uint32_t)(state >> 33) % below;
}

/* Makes a sample with some octets changed, or octets that are all random. */
static size_t make(uint8_t *octets, const struct octets *samples, size_t sample_count)
{
    const struct octets *sample = &samples[any((uint32_t)sample_count)];
    size_t count = any(8) == 0 ? any(MOST) : sample->count, changes = any(4), place;
    for (place = 0; place < count; place++) {
        octets[place] = place < sample->count ? sample->at[place] : (uint8_t)any(256);
    }
    while (changes-- > 0 && count > 0) {
        octets[any((uint32_t)count)] = (uint8_t)any(256);
    }
    if (any(2) == 0 && count > 0) {
        octets[count - 1] ^= scard_lrc(octets, count);
    }
    return count;
}

static int same(struct scard_verdict v, const uint8_t *out, const uint8_t *octets, size_t count)
{
    return v.status == SCARD_OK && v.place == count && memcmp(out, octets, count) == 0;
}

/* Returns whether the parts of a forest are inside it, each after its tag and length field. */
static int lie(const uint8_t *octets, size_t count, struct scard_verdict checked)
{
    struct scard_part parts[MOST / 2];
    struct scard_verdict v = scard_tlv_parts(octets, count, SCARD_TLV_LARGEST, parts, MOST / 2);
    size_t part;
    if (checked.status != SCARD_OK) {
        return v.status == checked.status && v.reason == checked.reason && v.place == checked.place;
    }
    for (part = 0; part < v.place; part++) {
        size_t header = parts[part].tag.count + (size_t)parts[part].len_octets;
        if (parts[part].place < header || parts[part].place + parts[part].len > count
            || memcmp(octets + parts[part].place - header, parts[part].tag.octets, parts[part].tag.count) != 0) {
            return 0;
        }
    }
    return v.status == SCARD_OK;
}

/* Feeds two pieces to a check whose state the caller keeps. */
static int halved(const uint8_t *octets, size_t count, struct scard_verdict checked)
{
    struct scard_lent_check check;
    size_t first = any((uint32_t)count + 1);
    struct scard_verdict v;
    scard_lent_check_begin(&check, SCARD_TLV_LARGEST);
    scard_lent_check_feed(&check, octets, first);
    scard_lent_check_feed(&check, octets + first, count - first);
    v = scard_lent_check_finish(&check);
    return v.status == checked.status && v.reason == checked.reason
        && (v.status == SCARD_OK || v.place == checked.place);
}

static int again(const uint8_t *octets, size_t count)
{
    uint8_t out[8 * MOST];
    struct scard_atr atr;
    struct scard_block block;
    struct scard_command command;
    struct scard_response response;
    struct scard_verdict v = scard_atr_decode(octets, count, &atr), w;
    int good = v.place <= count && v.status <= SCARD_AT;
    if (v.status == SCARD_OK) {
        good &= same(scard_atr_encode(&atr, out, sizeof out), out, octets, v.place);
    }
    v = scard_block_decode(octets, count, 254, &block);
    good &= v.place <= count && v.status <= SCARD_AT;
    if (v.status == SCARD_OK) {
        w = scard_block_encode(block.nad, block.pcb, octets + block.inf_place, block.inf_len, out, sizeof out);
        good &= same(w, out, octets, v.place);
    }
    v = scard_command_decode(octets, count, &command);
    good &= v.place <= count && v.status <= SCARD_AT;
    v = scard_response_decode(octets, count, &response);
    good &= (v.status == SCARD_OK) == (count >= 2);
    v = scard_tlv_check(octets, count, SCARD_TLV_LARGEST);
    good &= v.place <= count && v.status <= SCARD_AT;
    good &= lie(octets, count, v) && halved(octets, count, v);
    return good;
}

/* Checks the calls that write: an encoder returns the octets that were decoded, and tidying twice equals tidying once.
 */
static int encodes(const uint8_t *octets, size_t count)
{
    uint8_t out[MOST], twice[MOST];
    struct scard_command command;
    struct scard_response response;
    struct scard_verdict v = scard_command_decode(octets, count, &command), w;
    int good = 1;
    if (v.status == SCARD_OK) {
        w = scard_command_encode(&command, octets + command.data_place, command.data_len, out, sizeof out);
        good &= same(w, out, octets, count);
    }
    v = scard_response_decode(octets, count, &response);
    if (v.status == SCARD_OK) {
        w = scard_response_encode(octets, response.data_len, response.sw1, response.sw2, out, sizeof out);
        good &= same(w, out, octets, count);
    }
    v = scard_tlv_check(octets, count, SCARD_TLV_LARGEST);
    w = scard_tlv_tidy(octets, count, SCARD_TLV_LARGEST, out, count);
    good &= v.status == w.status && v.reason == w.reason;
    if (w.status == SCARD_OK) {
        good &= same(scard_tlv_tidy(out, w.place, SCARD_TLV_LARGEST, twice, sizeof twice), twice, out, w.place);
    }
    return good;
}

/* Returns a receiver's verdict on a chain in two pieces. The message is in the buffer. */
static struct scard_verdict received(struct scard_lent_receiver *receiver, uint8_t *message, size_t room,
                                     const uint8_t *chain, size_t count, size_t first)
{
    struct scard_verdict v = scard_lent_receiver_feed(receiver, message, room, chain, first);
    if (v.status == SCARD_MORE) {
        scard_lent_receiver_feed(receiver, message, room, chain + first, count - first);
    }
    return scard_lent_receiver_finish(receiver, message, room);
}

/* Checks that a chain is received as its message. With an octet changed, two receivers of other pieces agree. */
static int arrives(uint8_t *chain, size_t count, uint8_t ifs, const uint8_t *octets, size_t len)
{
    uint8_t message[MOST], other[MOST];
    struct scard_lent_receiver receiver, twin;
    struct scard_verdict v, w;
    int good;
    scard_lent_receiver_begin(&receiver, ifs, 0, MOST);
    v = received(&receiver, message, MOST, chain, count, any((uint32_t)count + 1));
    w = scard_lent_receiver_message(&receiver, message, MOST);
    good = v.status == SCARD_OK && same(w, message, octets, len);
    chain[any((uint32_t)count)] = (uint8_t)any(256);
    scard_lent_receiver_begin(&receiver, ifs, 0, MOST);
    scard_lent_receiver_begin(&twin, ifs, 0, MOST);
    v = received(&receiver, message, MOST, chain, count, any((uint32_t)count + 1));
    w = received(&twin, other, MOST, chain, count, 1);
    good &= v.status == w.status && v.reason == w.reason && v.place == w.place && v.status <= SCARD_AT;
    v = scard_lent_receiver_message(&receiver, message, MOST);
    w = scard_lent_receiver_message(&twin, other, MOST);
    return good && v.status == w.status && v.place == w.place
        && (v.status != SCARD_OK || memcmp(message, other, v.place) == 0);
}

/* Cuts a message and decodes its blocks one after another. Their fields are the message, as are those of a receiver. */
static int joins(const uint8_t *octets, size_t count)
{
    uint8_t chain[8 * MOST], ifs = (uint8_t)(1 + any(254));
    struct scard_verdict v = scard_chain_cut(octets, count, ifs, 0, chain, sizeof chain);
    struct scard_block block;
    size_t place = 0, joined = 0;
    if (v.status != SCARD_OK) {
        return 0;
    }
    while (place < v.place) {
        struct scard_verdict one = scard_block_decode(chain + place, v.place - place, ifs, &block);
        if (one.status != SCARD_OK || joined + block.inf_len > count
            || memcmp(octets + joined, chain + place + block.inf_place, block.inf_len) != 0) {
            return 0;
        }
        joined += block.inf_len;
        place += one.place;
    }
    return joined == count && arrives(chain, v.place, ifs, octets, count);
}

int main(void)
{
    struct octets samples[] = {of_hex("3B8F8001804F0CA000000306030001000000006A"), of_hex("3B808131204555"),
                               of_hex("00000500A4040000A5"), of_hex("00C101FE3E"),
                               of_hex("00A4040007A000000004101000"), of_hex("00D6000000000201020000"),
                               of_hex("6F108407A0000000041010A505BF0C025000"), of_hex("7081045A820000")};
    size_t sample_count = sizeof samples / sizeof samples[0], input;
    uint8_t octets[MOST] = {0};
    for (input = 0; input < INPUTS; input++) {
        size_t count = make(octets, samples, sample_count);
        CHECK(again(octets, count));
        CHECK(encodes(octets, count));
        CHECK(joins(octets, count));
    }
    for (input = 0; input < sample_count; input++) {
        free(samples[input].at);
    }
    return verdict_of_checks("fuzz");
}
