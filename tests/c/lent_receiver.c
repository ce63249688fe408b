/* Receivers of chains, whose state and message the caller keeps, compared with receivers in handles. Also states that
 * other code wrote to. */
#include "check.h"

enum { ROOM = 300 };

/* A receiver in a handle and one whose state is here. Both get the same octets. */
struct both {
    struct scard_handle handle;
    struct scard_lent_receiver state;
    uint8_t message[ROOM];
};

static void empty(struct both *both)
{
    struct scard_handle handle = SCARD_HANDLE_EMPTY;
    memset(both, 0, sizeof *both);
    both->handle = handle;
}

static void begin(struct both *both, uint8_t ifs, uint8_t ns, size_t max)
{
    struct scard_verdict v = scard_lent_receiver_begin(&both->state, ifs, ns, max);
    CHECK(v.status == SCARD_OK && v.place == 0);
#ifndef WITHOUT_HANDLES
    CHECK(scard_receiver_open(&both->handle, ifs, ns, max).status == SCARD_OK);
#endif
}

/* Closes the handle. */
static void leave(struct both *both)
{
#ifndef WITHOUT_HANDLES
    scard_close(&both->handle);
#else
    (void)both;
#endif
}

#ifndef WITHOUT_HANDLES
static int same(struct scard_verdict a, struct scard_verdict b)
{
    return a.status == b.status && a.reason == b.reason && a.place == b.place;
}

/* Checks that both say the same of all octets so far, and of the message. */
static void agree(struct both *both)
{
    uint8_t copied[ROOM];
    struct scard_verdict lent = scard_lent_receiver_message(&both->state, both->message, ROOM);
    struct scard_verdict held = scard_message(&both->handle, copied, ROOM);
    CHECK(same(scard_lent_receiver_finish(&both->state, both->message, ROOM), scard_reader_finish(&both->handle)));
    CHECK(same(lent, held));
    CHECK(lent.status != SCARD_OK || memcmp(both->message, copied, lent.place) == 0);
}
#endif

/* Feeds octets in pieces of this length, each in a separate block. Returns the last verdict. */
static struct scard_verdict feed(struct both *both, const uint8_t *octets, size_t count, size_t piece)
{
    struct scard_verdict v = {SCARD_MORE, 0, 0};
    size_t taken = 0;
    while (v.status == SCARD_MORE && taken < count) {
        size_t left = count - taken, some = left < piece ? left : piece;
        uint8_t *own = (uint8_t *)malloc(some);
        memcpy(own, octets + taken, some);
        v = scard_lent_receiver_feed(&both->state, both->message, ROOM, own, some);
        CHECK(v.status != SCARD_MORE || v.place == some);
#ifndef WITHOUT_HANDLES
        CHECK(same(v, scard_reader_feed(&both->handle, own, some)));
        agree(both);
#endif
        taken += some;
        free(own);
    }
    return v;
}

/* 00 A4 04 00 00 in blocks of two octets, and an octet after them. */
static const char CHAIN[] = "00200200A4860060020400660000010001FF";

static void chains(void)
{
    struct octets chain = of_hex(CHAIN);
    struct both both;
    size_t piece;
    empty(&both);
    for (piece = 1; piece <= chain.count; piece++) {
        struct scard_verdict v;
        begin(&both, 2, 0, 5);
        v = feed(&both, chain.at, chain.count, piece);
        CHECK(v.status == SCARD_OK);
        v = scard_lent_receiver_message(&both.state, both.message, 5);
        CHECK(v.status == SCARD_OK && is_hex(both.message, v.place, "00A4040000"));
        CHECK(scard_lent_receiver_message(&both.state, both.message, 4).status == SCARD_ARGUMENT);
        begin(&both, 2, 0, 4);
        v = feed(&both, chain.at, chain.count, piece);
        CHECK(strcmp(line_of(v, SCARD_CODEC_CHAIN), "refused at 14: TooLong") == 0);
        begin(&both, 2, 1, 5);
        v = feed(&both, chain.at, chain.count, piece);
        CHECK(strcmp(line_of(v, SCARD_CODEC_CHAIN), "refused at 1: BadSequence") == 0);
    }
    leave(&both);
    free(chain.at);
}

/* Sets each octet of the chain to each value, under limits of 0 to 6 octets and sizes of 1 to 3. */
static void mutated(void)
{
    struct octets chain = of_hex(CHAIN);
    struct both both;
    size_t place;
    int value;
    empty(&both);
    for (place = 0; place < chain.count; place++) {
        uint8_t was = chain.at[place];
        for (value = 0; value < 256; value++) {
            chain.at[place] = (uint8_t)value;
            begin(&both, (uint8_t)(1 + value % 3), 0, place % 7);
            feed(&both, chain.at, chain.count, 1 + (place + (size_t)value) % 5);
            begin(&both, 2, 0, ROOM);
            feed(&both, chain.at, chain.count, 1 + ((size_t)value >> 4));
        }
        chain.at[place] = was;
    }
    leave(&both);
    free(chain.at);
}

/* A message of 300 octets in blocks of 254, which are cut here. */
static void longest_fields(void)
{
    struct both both;
    uint8_t sent[ROOM], octets[ROOM + 8];
    size_t place, piece;
    struct scard_verdict cut;
    empty(&both);
    for (place = 0; place < ROOM; place++) {
        sent[place] = (uint8_t)(place * 7);
    }
    cut = scard_chain_cut(sent, ROOM, 254, 1, octets, sizeof octets);
    CHECK(cut.status == SCARD_OK && cut.place == ROOM + 8);
    for (piece = 1; piece <= cut.place; piece += 1 + piece / 3) {
        begin(&both, 254, 1, ROOM);
        CHECK(feed(&both, octets, cut.place, piece).status == SCARD_OK);
        CHECK(scard_lent_receiver_message(&both.state, both.message, ROOM).place == ROOM);
        CHECK(memcmp(both.message, sent, ROOM) == 0);
    }
    leave(&both);
}

/* Feeds 65,535 pairs of empty blocks after which more follow, and one more such block. */
static void almost_full(struct scard_lent_receiver *state, const uint8_t *pair)
{
    size_t turn;
    CHECK(scard_lent_receiver_begin(state, 254, 0, 0).status == SCARD_OK);
    for (turn = 0; turn < 65535; turn++) {
        CHECK(scard_lent_receiver_feed(state, NULL, 0, pair, 8).status == SCARD_MORE);
    }
    CHECK(scard_lent_receiver_feed(state, NULL, 0, pair, 4).status == SCARD_MORE);
}

/* A chain may have 131,072 blocks. The last of them can't be one after which more follow. */
static void most_blocks(void)
{
    static const uint8_t pair[] = {0x00, 0x20, 0x00, 0x20, 0x00, 0x60, 0x00, 0x60}, last[] = {0x00, 0x40, 0x00, 0x40};
    struct scard_lent_receiver state;
    struct scard_verdict v;
    almost_full(&state, pair);
    CHECK(scard_lent_receiver_feed(&state, NULL, 0, last, 4).status == SCARD_OK && state.blocks == 131072);
    v = scard_lent_receiver_message(&state, NULL, 0);
    CHECK(v.status == SCARD_OK && v.place == 0);
    almost_full(&state, pair);
    v = scard_lent_receiver_feed(&state, NULL, 0, pair + 4, 4);
    CHECK(strcmp(line_of(v, SCARD_CODEC_CHAIN), "refused at 524285: TooManyBlocks") == 0);
}

static int all_are_zero(const uint8_t *octets, size_t count)
{
    size_t place = 0;
    while (place < count && octets[place] == 0) {
        place++;
    }
    return place == count;
}

/* Restarts a receiver after each number of octets of a chain, or of one that is refused, with both numbers. Then every
 * octet of the buffer is 0, and the receiver takes a chain as a new one does.
 */
static void restarted(void)
{
    struct octets chain = of_hex(CHAIN), other = of_hex("00600200A4C60020020400260040010041"),
                  wrong = of_hex("00200200A4860061");
    size_t count;
    for (count = 0; count <= chain.count + wrong.count; count++) {
        const struct octets *first = count <= chain.count ? &chain : &wrong;
        struct scard_lent_receiver state, begun;
        uint8_t message[8];
        const uint8_t ns = (uint8_t)(count & 1);
        const struct octets *again = ns ? &other : &chain;
        struct scard_verdict v;
        memset(message, 0xA5, sizeof message);
        CHECK(scard_lent_receiver_begin(&begun, 2, ns, 5).status == SCARD_OK);
        CHECK(scard_lent_receiver_begin(&state, 2, 0, 5).status == SCARD_OK);
        v = scard_lent_receiver_feed(&state, message, sizeof message, first->at,
                                     first == &chain ? count : count - chain.count);
        CHECK(v.status != SCARD_ARGUMENT);
        v = scard_lent_receiver_restart(&state, message, sizeof message, ns);
        CHECK(v.status == SCARD_OK && v.place == 0 && all_are_zero(message, sizeof message));
        CHECK(memcmp(&state, &begun, sizeof state) == 0);
        CHECK(scard_lent_receiver_feed(&state, message, sizeof message, again->at, again->count).status == SCARD_OK);
        v = scard_lent_receiver_message(&state, message, sizeof message);
        CHECK(v.status == SCARD_OK && is_hex(message, v.place, "00A4040000"));
        CHECK(strcmp(line_of(scard_lent_receiver_restart(&state, message, sizeof message, 2), 3), "argument 0") == 0);
        CHECK(strcmp(line_of(scard_lent_receiver_restart(&state, message, 4, ns), 3), "argument 0") == 0);
        CHECK(is_hex(message, v.place, "00A4040000"));
    }
    free(chain.at);
    free(other.at);
    free(wrong.at);
}

static void argued(void)
{
    struct scard_lent_receiver state, before;
    uint8_t message[5], octet = 0x00;
    memset(&state, 0xA5, sizeof state);
    before = state;
    CHECK(strcmp(line_of(scard_lent_receiver_begin(&state, 0, 0, 5), 3), "argument 0") == 0);
    CHECK(strcmp(line_of(scard_lent_receiver_begin(&state, 255, 0, 5), 3), "argument 0") == 0);
    CHECK(strcmp(line_of(scard_lent_receiver_begin(&state, 2, 2, 5), 3), "argument 0") == 0);
    CHECK(strcmp(line_of(scard_lent_receiver_begin(&state, 2, 0, 131073), 3), "argument 0") == 0);
    CHECK(strcmp(line_of(scard_lent_receiver_begin(&state, 2, 0, SIZE_MAX), 3), "argument 0") == 0);
    CHECK(strcmp(line_of(scard_lent_receiver_feed(&state, message, 5, &octet, 1), 3), "argument 0") == 0);
    CHECK(strcmp(line_of(scard_lent_receiver_finish(&state, message, 5), 3), "argument 0") == 0);
    CHECK(strcmp(line_of(scard_lent_receiver_message(&state, message, 5), 3), "argument 0") == 0);
    CHECK(memcmp(&state, &before, sizeof state) == 0);
    CHECK(scard_lent_receiver_begin(&state, 2, 0, 5).status == SCARD_OK);
    CHECK(scard_lent_receiver_feed(&state, message, 4, &octet, 1).status == SCARD_ARGUMENT);
    CHECK(scard_lent_receiver_feed(&state, message, 5, NULL, 0).status == SCARD_MORE);
    CHECK(scard_lent_receiver_begin(&state, 2, 0, 0).status == SCARD_OK);
    CHECK(scard_lent_receiver_feed(&state, NULL, 0, &octet, 1).status == SCARD_MORE);
    CHECK(scard_lent_receiver_begin(&state, 254, 1, 131072).status == SCARD_OK);
    CHECK(scard_lent_receiver_finish(&state, message, 5).status == SCARD_ARGUMENT);
}

/* Sets each octet of a state to each value. A call stays within a buffer of exactly its size, and if it is refused
 * nothing changes. Returns how many states were invalid. */
static size_t spoilt(const struct scard_lent_receiver *begun, const uint8_t *rest, size_t count)
{
    size_t place, none = 0;
    int value;
    for (place = 0; place < sizeof *begun; place++) {
        for (value = 0; value < 256; value++) {
            struct scard_lent_receiver state = *begun, before;
            struct scard_verdict end, fed;
            uint8_t *message = (uint8_t *)calloc(5, 1), old[5] = {0};
            ((uint8_t *)&state)[place] = (uint8_t)value;
            memcpy(&before, &state, sizeof state);
            end = scard_lent_receiver_finish(&state, message, 5);
            fed = scard_lent_receiver_feed(&state, message, 5, rest, count);
            CHECK((end.status == SCARD_ARGUMENT) == (fed.status == SCARD_ARGUMENT));
            if (fed.status == SCARD_ARGUMENT) {
                CHECK(memcmp(&state, &before, sizeof state) == 0 && memcmp(message, old, 5) == 0);
                none++;
            } else {
                CHECK(scard_lent_receiver_finish(&state, message, 5).status != SCARD_ARGUMENT);
            }
            free(message);
        }
    }
    return none;
}

static void states(void)
{
    struct octets chain = of_hex(CHAIN);
    size_t count;
    for (count = 0; count <= chain.count; count++) {
        struct scard_lent_receiver state;
        uint8_t message[5];
        CHECK(scard_lent_receiver_begin(&state, 2, 0, 5).status == SCARD_OK);
        CHECK(scard_lent_receiver_feed(&state, message, 5, chain.at, count).status != SCARD_AT);
        CHECK(spoilt(&state, chain.at + count, chain.count - count) > 1000);
    }
    free(chain.at);
}

int main(void)
{
    chains();
    mutated();
    longest_fields();
    most_blocks();
    restarted();
    argued();
    states();
    return verdict_of_checks("lent_receiver");
}
