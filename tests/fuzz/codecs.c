/* Fuzzes the codecs of answers to reset, blocks, chains, commands, responses and text. What decodes encodes to the same
 * octets, in whatever pieces a reader gets it, and a message that is cut is received.
 */
#include "input.h"

enum { MOST = 600, ROOM = 2048 };

static uint8_t out[ROOM];

static void same_octets(struct scard_verdict put, const uint8_t *octets, size_t count)
{
    SHOULD(put.status == SCARD_OK && put.place == count && memcmp(out, octets, count) == 0);
}

/* An answer to reset, and how many of the octets are fed first. */
static void atr(const uint8_t *octets, size_t count, size_t first)
{
    struct scard_lent_atr_reader reader;
    struct scard_atr value, again;
    struct scard_t1 t1;
    struct scard_rates rates;
    struct scard_verdict verdict = scard_atr_decode(octets, count, &value), fed;
    SHOULD(may_be(verdict, count) && same_verdict(verdict, scard_atr_check(octets, count)));
    if (verdict.status == SCARD_OK) {
        same_octets(scard_atr_encode(&value, out, ROOM), octets, (size_t)verdict.place);
        if (scard_atr_t1_params(&value, &t1) == SCARD_T1_USABLE) {
            SHOULD(t1.ifsc > 0 && t1.ifsc < 255 && t1.bwi < 16 && t1.cwi < 16 && scard_t1_cwt(&t1) > 11);
        }
        scard_atr_rates(&value, &rates);
    }
    scard_lent_atr_reader_begin(&reader);
    fed = scard_lent_atr_reader_feed(&reader, octets, first);
    if (fed.status == SCARD_MORE) {
        scard_lent_atr_reader_feed(&reader, octets + first, count - first);
    }
    fed = scard_lent_atr_reader_finish(&reader);
    SHOULD(fed.status == verdict.status && fed.reason == verdict.reason);
    SHOULD(fed.status == SCARD_OK || fed.place == verdict.place);
    if (fed.status == SCARD_OK) {
        fed = scard_lent_atr_reader_value(&reader, &again);
        SHOULD(fed.status == SCARD_OK && fed.place == verdict.place);
        same_octets(scard_atr_encode(&again, out, ROOM), octets, (size_t)verdict.place);
    }
}

static void block(const uint8_t *octets, size_t count, size_t first, uint8_t ifs)
{
    struct scard_lent_block_reader reader;
    struct scard_block value;
    struct scard_verdict verdict = scard_block_decode(octets, count, ifs, &value), fed;
    if (ifs == 0 || ifs == 255) {
        SHOULD(verdict.status == SCARD_ARGUMENT);
        return;
    }
    SHOULD(may_be(verdict, count));
    if (verdict.status == SCARD_OK) {
        SHOULD(value.inf_place + value.inf_len < verdict.place && scard_lrc(octets, (size_t)verdict.place) == 0);
        same_octets(scard_block_encode(value.nad, value.pcb, octets + value.inf_place, value.inf_len, out, ROOM),
                    octets, (size_t)verdict.place);
    }
    SHOULD(scard_lent_block_reader_begin(&reader, ifs).status == SCARD_OK);
    fed = scard_lent_block_reader_feed(&reader, octets, first);
    if (fed.status == SCARD_MORE) {
        scard_lent_block_reader_feed(&reader, octets + first, count - first);
    }
    fed = scard_lent_block_reader_finish(&reader);
    SHOULD(fed.status == verdict.status && fed.reason == verdict.reason);
    SHOULD(fed.status == SCARD_OK || fed.place == verdict.place);
}

static void messages(const uint8_t *octets, size_t count)
{
    struct scard_command command;
    struct scard_response response;
    struct scard_verdict verdict = scard_command_decode(octets, count, &command);
    SHOULD(may_be(verdict, count));
    if (verdict.status == SCARD_OK) {
        SHOULD(verdict.place == count && command.data_place + command.data_len <= count);
        same_octets(scard_command_encode(&command, octets + command.data_place, (size_t)command.data_len, out, ROOM),
                    octets, count);
    }
    verdict = scard_response_decode(octets, count, &response);
    SHOULD(may_be(verdict, count) && (verdict.status == SCARD_OK) == (count >= 2));
    if (verdict.status == SCARD_OK) {
        same_octets(scard_response_encode(octets, (size_t)response.data_len, response.sw1, response.sw2, out, ROOM),
                    octets, count);
    }
}

/* A message is cut, and its chain is received in two pieces. */
static void cut(const uint8_t *octets, size_t count, size_t first, uint8_t ifs)
{
    static uint8_t chain[4 * ROOM], message[MOST];
    struct scard_lent_receiver receiver;
    struct scard_verdict put = scard_chain_cut(octets, count, ifs, first % 2, chain, sizeof chain), got;
    if (put.status != SCARD_OK) {
        SHOULD(put.status == SCARD_ARGUMENT && (ifs == 0 || ifs == 255 || put.place > sizeof chain));
        return;
    }
    SHOULD(scard_lent_receiver_begin(&receiver, ifs, first % 2, MOST).status == SCARD_OK);
    first %= (size_t)put.place;
    got = scard_lent_receiver_feed(&receiver, message, MOST, chain, first);
    SHOULD(got.status == SCARD_MORE);
    got = scard_lent_receiver_feed(&receiver, message, MOST, chain + first, (size_t)put.place - first);
    SHOULD(got.status == SCARD_OK && got.place == put.place - first);
    got = scard_lent_receiver_message(&receiver, message, MOST);
    SHOULD(got.status == SCARD_OK && got.place == count && memcmp(message, octets, count) == 0);
}

/* Octets as a chain, in two ways to cut them into pieces. */
static void chain(const uint8_t *octets, size_t count, size_t first, uint8_t ifs)
{
    static uint8_t messages_of[2][MOST];
    struct scard_lent_receiver receivers[2];
    struct scard_verdict verdicts[2];
    int at;
    for (at = 0; at < 2; at++) {
        if (scard_lent_receiver_begin(&receivers[at], ifs, 0, MOST).status != SCARD_OK) {
            return;
        }
        verdicts[at] = scard_lent_receiver_feed(&receivers[at], messages_of[at], MOST, octets, at == 0 ? count : first);
        if (at == 1 && verdicts[at].status == SCARD_MORE) {
            scard_lent_receiver_feed(&receivers[at], messages_of[at], MOST, octets + first, count - first);
        }
        verdicts[at] = scard_lent_receiver_finish(&receivers[at], messages_of[at], MOST);
        SHOULD(verdicts[at].status <= SCARD_AT);
    }
    SHOULD(same_verdict(verdicts[0], verdicts[1]));
    verdicts[0] = scard_lent_receiver_message(&receivers[0], messages_of[0], MOST);
    verdicts[1] = scard_lent_receiver_message(&receivers[1], messages_of[1], MOST);
    SHOULD(same_verdict(verdicts[0], verdicts[1]));
    SHOULD(verdicts[0].status != SCARD_OK || memcmp(messages_of[0], messages_of[1], (size_t)verdicts[0].place) == 0);
}

static void text(const uint8_t *octets, size_t count)
{
    static char digits[2 * MOST];
    struct scard_verdict verdict = scard_hex_decode((const char *)octets, count, out, ROOM);
    SHOULD(verdict.status == SCARD_OK || (verdict.status == SCARD_AT && verdict.place <= count));
    verdict = scard_hex_encode(octets, count, digits, sizeof digits);
    SHOULD(verdict.status == SCARD_OK && verdict.place == 2 * count);
    same_octets(scard_hex_decode(digits, 2 * count, out, ROOM), octets, count);
    scard_is_text(octets, count);
}

int LLVMFuzzerTestOneInput(const uint8_t *data, size_t size)
{
    struct input input = {data, size};
    const uint8_t kind = take(&input), ifs = take(&input);
    const uint8_t *octets;
    size_t first = take(&input), count = take_octets(&input, &octets, MOST);
    first = first < count ? first : count;
    switch (kind % 6) {
    case 0:
        atr(octets, count, first);
        break;
    case 1:
        block(octets, count, first, ifs);
        break;
    case 2:
        messages(octets, count);
        break;
    case 3:
        cut(octets, count, first, ifs);
        break;
    case 4:
        chain(octets, count, first, ifs);
        break;
    default:
        text(octets, count);
        break;
    }
    return 0;
}
