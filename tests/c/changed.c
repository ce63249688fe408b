/* Octets that come in pieces, that end early, or of which one was changed. All calls and readers for a kind of octets
 * have to give the same answer: the verdict, its place and its reason, and the value.
 */
#define SCARD_MUST_USE /* the verdict of a begin doesn't matter here */
#include "check.h"

enum { MOST = 64, ROOM = 131072 };

enum kind { ATR, BLOCK, CHAIN, COMMAND, RESPONSE, FOREST, LIST };

/* Octets that are exactly one value of a kind. `ifs` is the information size of a block or a chain. `ns` and `max` are
 * the first number of a chain and the greatest length of its message.
 */
struct row {
    enum kind kind;
    uint8_t ifs;
    uint8_t ns;
    size_t max;
    const char *text;
};

#define OF(kind, text) {kind, 0, 0, 0, text}
#define OF_BLOCK(ifs, text) {BLOCK, ifs, 0, 0, text}

static const struct row ROWS[] = {
    OF(ATR, "3B00"),
    OF(ATR, "3F00"),
    OF(ATR, "3B8F8001804F0CA000000306030001000000006A"),
    OF(ATR, "3B80810001"),
    OF(ATR, "3B808131204555"),
    OF(ATR, "3B808111FFEF"),
    OF(ATR, "3B8081410141"),
    OF(ATR, "3B1097"),
    OF(ATR, "3B107A"),
    OF(ATR, "3BFF000000F1000000F1000000710000000000000000000000000000000000008E"),
    OF_BLOCK(254, "00000500A4040000A5"),
    OF_BLOCK(254, "00820082"),
    OF_BLOCK(254, "00C101FE3E"),
    OF_BLOCK(254, "00200200A486"),
    OF_BLOCK(254, "006002040066"),
    OF_BLOCK(254, "0000010001"),
    OF_BLOCK(254, "00400040"),
    OF_BLOCK(254, "000002900092"),
    OF_BLOCK(2, "00200200A486"),
    OF_BLOCK(2, "006002040066"),
    OF_BLOCK(2, "0000010001"),
    OF_BLOCK(32, "00000500A4040000A5"),
    OF_BLOCK(32, "00810081"),
    OF_BLOCK(32, "00800080"),
    OF_BLOCK(32, "000002900092"),
    OF_BLOCK(32, "00C000C0"),
    OF_BLOCK(32, "00E000E0"),
    OF_BLOCK(32, "00C30101C3"),
    OF_BLOCK(32, "00E30101E3"),
    OF_BLOCK(32, "00C10102C2"),
    OF_BLOCK(32, "00E10102E2"),
    OF_BLOCK(32, "00000500B0000002B7"),
    OF_BLOCK(2, "002002AABB33"),
    OF_BLOCK(32, "00900090"),
    OF_BLOCK(2, "0040029000D2"),
    {CHAIN, 2, 0, 131072, "00200200A4860060020400660000010001"},
    {CHAIN, 2, 0, 5, "00200200A4860060020400660000010001"},
    {CHAIN, 2, 0, 65544, "00200200A4860060020400660000010001"},
    {CHAIN, 254, 1, 131072, "00400040"},
    {CHAIN, 254, 0, 65538, "000002900092"},
    OF(COMMAND, "00A40400"),
    OF(COMMAND, "00B0000000"),
    OF(COMMAND, "00B00000000000"),
    OF(COMMAND, "00A4040007A000000004101000"),
    OF(COMMAND, "00A4040008A000000004101000"),
    OF(COMMAND, "00D600000000020102"),
    OF(COMMAND, "00D6000000000201020000"),
    OF(COMMAND, "00A4040000"),
    OF(COMMAND, "00B0000002"),
    OF(RESPONSE, "9000"),
    OF(RESPONSE, "AABB9000"),
    OF(RESPONSE, "6110"),
    OF(RESPONSE, "6283"),
    OF(RESPONSE, "6400"),
    OF(RESPONSE, "6A82"),
    OF(RESPONSE, "9101"),
    OF(RESPONSE, "6000"),
    OF(RESPONSE, "7000"),
    OF(FOREST, "6F108407A0000000041010A505BF0C025000"),
    OF(FOREST, "00005A81011200"),
    OF(FOREST, "5A0112"),
    OF(FOREST, "7081045A820000"),
    OF(FOREST, "70025A00"),
    OF(FOREST, ""),
    OF(FOREST, "701E701C701A70187016701470127010700E700C700A70087006700470027000"),
    OF(FOREST, "7020701E701C701A70187016701470127010700E700C700A70087006700470020000"),
    OF(LIST, "9F02065F2A029A03"),
    OF(LIST, "9A02"),
    OF(LIST, "5A04"),
    OF(LIST, "5002"),
    OF(LIST, "6F02"),
    OF(LIST, ""),
    OF(LIST, "9A03"),
};

enum { ROW_COUNT = sizeof ROWS / sizeof *ROWS, FOREST_MOST = 65536 };

static int same(struct scard_verdict a, struct scard_verdict b)
{
    return a.status == b.status && a.reason == b.reason && a.place == b.place;
}

/* Returns whether octets that a call wrote are the first ones of the input. */
static int is_front(struct scard_verdict v, const uint8_t *out, const uint8_t *octets, size_t count)
{
    return v.status == SCARD_OK && v.place == count && memcmp(out, octets, count) == 0;
}

/* ---- the calls on whole octets ---- */

static struct scard_verdict of_atr(const uint8_t *octets, size_t count)
{
    struct scard_atr atr;
    struct scard_verdict v = scard_atr_decode(octets, count, &atr);
    uint8_t out[SCARD_ATR_ROOM];
    CHECK(same(v, scard_atr_check(octets, count)));
    CHECK(v.status != SCARD_OK || is_front(scard_atr_encode(&atr, out, sizeof out), out, octets, v.place));
    return v;
}

static struct scard_verdict of_block(const uint8_t *octets, size_t count, uint8_t ifs)
{
    struct scard_block block;
    struct scard_verdict v = scard_block_decode(octets, count, ifs, &block), w;
    uint8_t out[SCARD_BLOCK_ROOM];
    if (v.status == SCARD_OK) {
        w = scard_block_encode(block.nad, block.pcb, octets + block.inf_place, block.inf_len, out, sizeof out);
        CHECK(is_front(w, out, octets, v.place));
    }
    return v;
}

static struct scard_verdict of_command(const uint8_t *octets, size_t count)
{
    struct scard_command command;
    struct scard_verdict v = scard_command_decode(octets, count, &command), w;
    uint8_t out[MOST];
    if (v.status == SCARD_OK) {
        w = scard_command_encode(&command, octets + command.data_place, command.data_len, out, sizeof out);
        CHECK(is_front(w, out, octets, count));
    }
    return v;
}

static struct scard_verdict of_response(const uint8_t *octets, size_t count)
{
    struct scard_response response;
    struct scard_verdict v = scard_response_decode(octets, count, &response), w;
    uint8_t out[MOST];
    if (v.status == SCARD_OK) {
        w = scard_response_encode(octets, response.data_len, response.sw1, response.sw2, out, sizeof out);
        CHECK(is_front(w, out, octets, count));
    }
    return v;
}

/* The parts and the tidy form of a forest come only where the check accepts it, and the tidy form is one itself. */
static struct scard_verdict of_forest(const uint8_t *octets, size_t count)
{
    struct scard_part parts[MOST / 2];
    uint8_t tidy[MOST];
    struct scard_verdict v = scard_tlv_check(octets, count, FOREST_MOST);
    struct scard_verdict listed = scard_tlv_parts(octets, count, FOREST_MOST, parts, MOST / 2);
    struct scard_verdict tidied = scard_tlv_tidy(octets, count, FOREST_MOST, tidy, sizeof tidy);
    if (v.status == SCARD_OK) {
        CHECK(listed.status == SCARD_OK && tidied.status == SCARD_OK && tidied.place <= count);
        CHECK(scard_tlv_check(tidy, tidied.place, FOREST_MOST).status == SCARD_OK);
    } else {
        CHECK(same(listed, v) && same(tidied, v));
    }
    return v;
}

static struct scard_verdict of_list(const uint8_t *octets, size_t count)
{
    struct scard_entry entries[MOST / 2];
    struct scard_verdict v = scard_dol_check(octets, count);
    struct scard_verdict listed = scard_dol_entries(octets, count, entries, MOST / 2);
    CHECK(v.status == SCARD_OK ? listed.status == SCARD_OK : same(listed, v));
    return v;
}

static struct scard_verdict of_chain(const struct row *row, const uint8_t *octets, size_t count)
{
    static uint8_t message[ROOM];
    struct scard_lent_receiver receiver;
    struct scard_verdict v, end;
    CHECK(scard_lent_receiver_begin(&receiver, row->ifs, row->ns, row->max).status == SCARD_OK);
    v = scard_lent_receiver_feed(&receiver, message, ROOM, octets, count);
    end = scard_lent_receiver_finish(&receiver, message, ROOM);
    CHECK(v.status == SCARD_MORE || v.status == end.status);
    end.place = end.status == SCARD_OK ? v.place : end.place;
    return end;
}

/* Returns the answer to whole octets. */
static struct scard_verdict answer(const struct row *row, const uint8_t *octets, size_t count)
{
    switch (row->kind) {
    case ATR:
        return of_atr(octets, count);
    case BLOCK:
        return of_block(octets, count, row->ifs);
    case CHAIN:
        return of_chain(row, octets, count);
    case COMMAND:
        return of_command(octets, count);
    case RESPONSE:
        return of_response(octets, count);
    case FOREST:
        return of_forest(octets, count);
    default:
        return of_list(octets, count);
    }
}

/* ---- readers ---- */

/* A reader of one kind, whose state is here, or in the handle if `is_held`. */
struct reader {
    const struct row *row;
    int is_held;
    struct scard_lent_atr_reader atr;
    struct scard_lent_block_reader block;
    struct scard_lent_check forest;
    struct scard_lent_receiver chain;
    uint8_t message[ROOM];
};

/* The value of a reader: an answer to reset, a block, or the octets of a message. */
struct value {
    struct scard_atr atr;
    struct scard_block block;
    uint8_t message[MOST];
};

#ifndef WITHOUT_HANDLES
enum { WAYS = 2 };

static struct scard_handle handle = SCARD_HANDLE_EMPTY;

static void begin_held(const struct row *row)
{
    switch (row->kind) {
    case ATR:
        scard_atr_reader_open(&handle);
        break;
    case BLOCK:
        scard_block_reader_open(&handle, row->ifs);
        break;
    case CHAIN:
        scard_receiver_open(&handle, row->ifs, row->ns, row->max);
        break;
    default:
        scard_tlv_check_open(&handle, FOREST_MOST);
    }
}

static struct scard_verdict feed_held(const uint8_t *octets, size_t count)
{
    return scard_reader_feed(&handle, octets, count);
}

static struct scard_verdict finish_held(void)
{
    return scard_reader_finish(&handle);
}

static struct scard_verdict value_held(enum kind kind, struct value *value)
{
    uint8_t octets[SCARD_BLOCK_ROOM];
    switch (kind) {
    case ATR:
        return scard_atr_reader_value(&handle, &value->atr);
    case BLOCK:
        return scard_block_reader_value(&handle, &value->block, octets, sizeof octets);
    default:
        return scard_message(&handle, value->message, sizeof value->message);
    }
}
#else
/* No reader is in a handle. */
enum { WAYS = 1 };

static const struct scard_verdict NEVER = {9, 9, 9};

static void begin_held(const struct row *row)
{
    (void)row;
}

static struct scard_verdict feed_held(const uint8_t *octets, size_t count)
{
    (void)octets;
    (void)count;
    return NEVER;
}

static struct scard_verdict finish_held(void)
{
    return NEVER;
}

static struct scard_verdict value_held(enum kind kind, struct value *value)
{
    (void)kind;
    (void)value;
    return NEVER;
}
#endif

static void begin(struct reader *reader)
{
    const struct row *row = reader->row;
    if (reader->is_held) {
        begin_held(row);
        return;
    }
    switch (row->kind) {
    case ATR:
        scard_lent_atr_reader_begin(&reader->atr);
        break;
    case BLOCK:
        scard_lent_block_reader_begin(&reader->block, row->ifs);
        break;
    case CHAIN:
        scard_lent_receiver_begin(&reader->chain, row->ifs, row->ns, row->max);
        break;
    default:
        scard_lent_check_begin(&reader->forest, FOREST_MOST);
    }
}

static struct scard_verdict feed(struct reader *reader, const uint8_t *octets, size_t count)
{
    if (reader->is_held) {
        return feed_held(octets, count);
    }
    switch (reader->row->kind) {
    case ATR:
        return scard_lent_atr_reader_feed(&reader->atr, octets, count);
    case BLOCK:
        return scard_lent_block_reader_feed(&reader->block, octets, count);
    case CHAIN:
        return scard_lent_receiver_feed(&reader->chain, reader->message, ROOM, octets, count);
    default:
        return scard_lent_check_feed(&reader->forest, octets, count);
    }
}

static struct scard_verdict finish(struct reader *reader)
{
    if (reader->is_held) {
        return finish_held();
    }
    switch (reader->row->kind) {
    case ATR:
        return scard_lent_atr_reader_finish(&reader->atr);
    case BLOCK:
        return scard_lent_block_reader_finish(&reader->block);
    case CHAIN:
        return scard_lent_receiver_finish(&reader->chain, reader->message, ROOM);
    default:
        return scard_lent_check_finish(&reader->forest);
    }
}

static struct scard_verdict value_of(struct reader *reader, struct value *value)
{
    if (reader->is_held) {
        return value_held(reader->row->kind, value);
    }
    switch (reader->row->kind) {
    case ATR:
        return scard_lent_atr_reader_value(&reader->atr, &value->atr);
    case BLOCK:
        return scard_lent_block_reader_value(&reader->block, &value->block);
    default:
        memcpy(value->message, reader->message, MOST);
        return scard_lent_receiver_message(&reader->chain, reader->message, ROOM);
    }
}

static int is_fed(enum kind kind)
{
    return kind == ATR || kind == BLOCK || kind == CHAIN || kind == FOREST;
}

/* Returns whether the end of a value of a kind is known without the end of the input. */
static int ends_by_itself(enum kind kind)
{
    return kind == ATR || kind == BLOCK || kind == CHAIN;
}

/* Joins the information fields of the blocks in these octets. Returns the length of the message. */
static size_t joined(const uint8_t *octets, size_t count, uint8_t ifs, uint8_t *message)
{
    size_t place = 0, length = 0;
    while (place < count) {
        struct scard_block block;
        struct scard_verdict v = scard_block_decode(octets + place, count - place, ifs, &block);
        CHECK(v.status == SCARD_OK);
        if (v.status != SCARD_OK) {
            break;
        }
        memcpy(message + length, octets + place + block.inf_place, block.inf_len);
        length += block.inf_len;
        place += v.place;
    }
    return length;
}

/* Checks the value of a reader whose answer was this. */
static void has_value(struct reader *reader, const uint8_t *octets, struct scard_verdict answer)
{
    struct value value, whole;
    const struct row *row = reader->row;
    struct scard_verdict v;
    size_t length = answer.place;
    memset(&value, 0, sizeof value);
    memset(&whole, 0, sizeof whole);
    v = value_of(reader, &value);
    if (answer.status != SCARD_OK) {
        CHECK(v.status == SCARD_ARGUMENT);
        return;
    }
    if (row->kind == ATR) {
        CHECK(same(scard_atr_decode(octets, answer.place, &whole.atr), answer));
        length = reader->is_held ? 0 : length; /* a handle's call doesn't say it */
    } else if (row->kind == BLOCK) {
        CHECK(same(scard_block_decode(octets, answer.place, row->ifs, &whole.block), answer));
    } else {
        length = joined(octets, answer.place, row->ifs, whole.message);
        memset(value.message + length, 0, MOST - length);
    }
    CHECK(v.status == SCARD_OK && v.place == length && memcmp(&value, &whole, sizeof value) == 0);
}

/* ---- whole octets and pieces ---- */

/* Feeds the octets up to each of these ends, in turn, and finishes. Returns the answer: how many octets the value
 * takes, or the refusal. A reader takes a piece whole unless the value ends in it, takes nothing after that, and keeps
 * its refusal.
 */
static struct scard_verdict fed(struct reader *reader, const uint8_t *octets, const size_t *ends, size_t pieces)
{
    struct scard_verdict last = {SCARD_MORE, 0, 0}, end;
    size_t piece, place = 0, total = 0;
    for (piece = 0; piece < pieces; place = ends[piece++]) {
        size_t count = ends[piece] - place;
        struct scard_verdict v = feed(reader, octets + place, count);
        if (last.status == SCARD_AT) {
            CHECK(same(v, last));
        } else if (last.status == SCARD_OK) {
            CHECK(v.status == SCARD_OK && v.place == 0);
        } else {
            CHECK(v.status != SCARD_MORE || v.place == count);
            total += v.status == SCARD_AT ? 0 : v.place;
            last = v;
        }
    }
    end = finish(reader);
    CHECK(last.status != SCARD_AT || same(end, last));
    CHECK(last.status != SCARD_OK || end.status == SCARD_OK);
    end.place = end.status == SCARD_OK ? total : end.place;
    return end;
}

/* Checks that each reader gives this answer to octets in these pieces. */
static void agrees(const struct row *row, const uint8_t *octets, const size_t *ends, size_t pieces,
                   struct scard_verdict answer)
{
    static struct reader reader;
    reader.row = row;
    for (reader.is_held = 0; reader.is_held < WAYS; reader.is_held++) {
        begin(&reader);
        CHECK(same(fed(&reader, octets, ends, pieces), answer));
        if (ends_by_itself(row->kind)) {
            has_value(&reader, octets, answer);
        }
    }
}

/* Returns the answer to octets, and checks that all calls and all readers give it. The readers get the octets at once
 * and one by one.
 */
static struct scard_verdict agreed(const struct row *row, const uint8_t *octets, size_t count)
{
    struct scard_verdict v = answer(row, octets, count);
    size_t ends[MOST], place;
    if (is_fed(row->kind)) {
        agrees(row, octets, &count, 1, v);
        for (place = 0; place < count; place++) {
            ends[place] = place + 1;
        }
        agrees(row, octets, ends, count, v);
    }
    return v;
}

/* Feeds octets in two pieces, cut at each place. Returns how many cuts these are. */
static unsigned long in_two(const struct row *row, const uint8_t *octets, size_t count, struct scard_verdict answer)
{
    size_t ends[2];
    ends[1] = count;
    for (ends[0] = 0; ends[0] < count; ends[0]++) {
        agrees(row, octets, ends, 2, answer);
    }
    return (unsigned long)count;
}

/* Feeds octets in three pieces, cut at each two places. Returns how many pairs of places these are. */
static unsigned long in_three(const struct row *row, const uint8_t *octets, size_t count, struct scard_verdict answer)
{
    unsigned long cuts = 0;
    size_t ends[3];
    ends[2] = count;
    for (ends[0] = 0; ends[0] < count; ends[0]++) {
        for (ends[1] = ends[0]; ends[1] < count; ends[1]++) {
            agrees(row, octets, ends, 3, answer);
            cuts++;
        }
    }
    return cuts;
}

/* ---- the lists ---- */

/* Each list is accepted to its end, in all pieces. An octet after a value that ends by itself is left, and changes
 * nothing.
 */
static void whole(void)
{
    unsigned long twos = 0, threes = 0;
    size_t row;
    for (row = 0; row < ROW_COUNT; row++) {
        const struct row *of = &ROWS[row];
        struct octets octets = of_hex(of->text);
        struct scard_verdict v = agreed(of, octets.at, octets.count);
        CHECK(v.status == SCARD_OK && v.place == octets.count);
        if (is_fed(of->kind)) {
            twos += in_two(of, octets.at, octets.count, v);
            threes += in_three(of, octets.at, octets.count, v);
        }
        if (ends_by_itself(of->kind)) {
            uint8_t longer[MOST];
            memcpy(longer, octets.at, octets.count);
            longer[octets.count] = 0xFF;
            CHECK(same(agreed(of, longer, octets.count + 1), v));
            in_two(of, longer, octets.count + 1, v);
        }
        free(octets.at);
    }
    printf("whole: %d lists accepted, in %lu cuts into two pieces and %lu into three\n", (int)ROW_COUNT, twos, threes);
    CHECK(ROW_COUNT == 73 && twos == 391 && threes == 3208);
}

/* Each front of a list is short at its length, or it is a shorter value if only the end of the input ends a value. */
static void cut(void)
{
    unsigned long fronts = 0, accepted = 0;
    size_t row, count;
    for (row = 0; row < ROW_COUNT; row++) {
        const struct row *of = &ROWS[row];
        struct octets octets = of_hex(of->text);
        for (count = 0; count < octets.count; count++) {
            struct scard_verdict v = agreed(of, octets.at, count);
            if (v.status == SCARD_SHORT && v.place == count) {
                fronts++;
            } else {
                CHECK(v.status == SCARD_OK && !ends_by_itself(of->kind));
                accepted++;
            }
        }
        free(octets.at);
    }
    printf("cut: %lu fronts short at their length, %lu accepted as shorter values\n", fronts, accepted);
    CHECK(fronts == 464 && accepted == 37);
}

/* The answers to changed octets, by status. `lengths` and `blocks` are the changes of a block's length, and how many of
 * them leave a block.
 */
struct answers {
    unsigned long accepted;
    unsigned long fronts;
    unsigned long refused;
    unsigned long lengths;
    unsigned long blocks;
};

/* Checks octets of which the one at this place was changed. A block is refused at a place unless its length was
 * changed.
 */
static void judge(const struct row *row, const uint8_t *octets, size_t count, size_t place, struct answers *answers)
{
    struct scard_verdict v = agreed(row, octets, count);
    int is_length = row->kind == BLOCK && place == 2;
    if (is_fed(row->kind)) {
        in_two(row, octets, count, v);
    }
    CHECK(v.status == SCARD_AT || row->kind != BLOCK || is_length);
    answers->accepted += v.status == SCARD_OK;
    answers->fronts += v.status == SCARD_SHORT;
    answers->refused += v.status == SCARD_AT;
    answers->lengths += is_length;
    answers->blocks += is_length && v.status == SCARD_OK;
}

/* Sets each octet of each list to each other value. */
static void changed(void)
{
    struct answers got = {0, 0, 0, 0, 0};
    size_t row, place;
    int value;
    for (row = 0; row < ROW_COUNT; row++) {
        struct octets octets = of_hex(ROWS[row].text);
        for (place = 0; place < octets.count; place++) {
            uint8_t was = octets.at[place];
            for (value = 0; value < 256; value++) {
                octets.at[place] = (uint8_t)value;
                if (value != was) {
                    judge(&ROWS[row], octets.at, octets.count, place, &got);
                }
            }
            octets.at[place] = was;
        }
        free(octets.at);
    }
    printf("changed: %lu lists accepted, %lu short, %lu refused; ", got.accepted, got.fronts, got.refused);
    printf("%lu changes of a block's length leave %lu blocks\n", got.lengths, got.blocks);
    CHECK(got.accepted == 39140 && got.fronts == 10064 && got.refused == 78551);
    CHECK(got.lengths == 6375 && got.blocks == 5);
}

int main(void)
{
    whole();
    cut();
    changed();
#ifndef WITHOUT_HANDLES
    scard_close(&handle);
#endif
    return verdict_of_checks("changed");
}
