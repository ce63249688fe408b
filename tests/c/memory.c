/* Makes each call that allocates, and refuses each of its allocations in turn. The call reports it, changes nothing,
 * keeps no block, and the next call works. The linker gives the library the malloc, realloc and free of this file.
 */
#include "check.h"

#ifdef __cplusplus
extern "C" {
#endif
void *__real_malloc(size_t size);
void *__real_realloc(void *block, size_t size);
void __real_free(void *block);
void *__wrap_malloc(size_t size);
void *__wrap_realloc(void *block, size_t size);
void __wrap_free(void *block);
#ifdef __cplusplus
}
#endif

static long to_go;   /* the allocation that is refused, 1 for the next; 0: no one */
static int refused;  /* whether one was refused */
static long held;    /* blocks that are allocated */

static int is_refused(void)
{
    if (to_go == 0 || --to_go > 0) {
        return 0;
    }
    refused = 1;
    return 1;
}

void *__wrap_malloc(size_t size)
{
    void *block = is_refused() ? NULL : __real_malloc(size);
    held += block != NULL;
    return block;
}

void *__wrap_realloc(void *block, size_t size)
{
    void *grown = is_refused() ? NULL : __real_realloc(block, size);
    held += block == NULL && grown != NULL;
    return grown;
}

void __wrap_free(void *block)
{
    held -= block != NULL;
    __real_free(block);
}

static const uint8_t amount[] = {0x9F, 0x02};
static const uint8_t forest[] = {0x00, 0x6F, 0x81, 0x06, 0xA5, 0x04, 0x00, 0x84, 0x01, 0xAA};

static int is_memory(struct scard_verdict v)
{
    return v.status == SCARD_MEMORY && v.reason == 0 && v.place == 0;
}

/* ---- calls that open a handle ---- */

static struct scard_verdict open_terminal(struct scard_handle *handle)
{
    return scard_terminal_open(handle, 32, 4, 5);
}

static struct scard_verdict open_card(struct scard_handle *handle)
{
    return scard_card_open(handle, 32, 4, 5);
}

static struct scard_verdict open_block(struct scard_handle *handle)
{
    return scard_block_reader_open(handle, 254);
}

static struct scard_verdict open_receiver(struct scard_handle *handle)
{
    return scard_receiver_open(handle, 254, 0, 1000);
}

static struct scard_verdict open_check(struct scard_handle *handle)
{
    return scard_tlv_check_open(handle, SCARD_TLV_LARGEST);
}

typedef struct scard_verdict opening(struct scard_handle *handle);

static opening *const openings[] = {
    open_terminal, open_card, scard_atr_reader_open, open_block, open_receiver, open_check,
};

enum { OPENINGS = sizeof openings / sizeof openings[0] };

/* Returns whether a terminal that has sent a command still waits for its answer. */
static int is_waiting(struct scard_handle *handle)
{
    uint8_t block[SCARD_BLOCK_ROOM];
    return handle->is_full && scard_terminal_quiet(handle, block, sizeof block).kind == SCARD_SEND
           && scard_terminal_transmit(handle, NULL, 0, block, sizeof block).kind == SCARD_REFUSED_BUSY;
}

static void begin(struct scard_handle *handle)
{
    uint8_t block[SCARD_BLOCK_ROOM];
    CHECK(open_terminal(handle).status == SCARD_OK);
    CHECK(scard_terminal_transmit(handle, amount, sizeof amount, block, sizeof block).kind == SCARD_SEND);
}

/* Opens in a full handle and in an empty one, with each allocation refused in turn. */
static void try_opening(opening *open, int is_full)
{
    struct scard_handle handle = SCARD_HANDLE_EMPTY;
    struct scard_verdict v;
    long turn = 0, at_first = held;
    do {
        long before;
        if (is_full) {
            begin(&handle);
        }
        before = held;
        refused = 0;
        to_go = ++turn;
        v = open(&handle);
        to_go = 0;
        if (refused) {
            CHECK(is_memory(v) && held == before);
            CHECK(is_full ? is_waiting(&handle) : handle.at == NULL && !handle.is_full);
            CHECK(open(&handle).status == SCARD_OK && handle.is_full);
        }
        scard_close(&handle);
    } while (refused);
    CHECK(v.status == SCARD_OK && v.place == 0);
    /* the terminal of the handle begins again without an allocation */
    CHECK(open == open_terminal && is_full ? turn == 1 : turn > 1);
    CHECK(held == at_first);
}

/* ---- calls that allocate nothing ---- */

/* Runs a session and readers. Each allocation after the openings would be refused. */
static void take_none(void)
{
    struct scard_handle terminal = SCARD_HANDLE_EMPTY, card = SCARD_HANDLE_EMPTY;
    uint8_t sent[SCARD_BLOCK_ROOM], back[SCARD_BLOCK_ROOM], answer[4];
    struct scard_turn turn;
    CHECK(open_terminal(&terminal).status == SCARD_OK && open_card(&card).status == SCARD_OK);
    refused = 0;
    to_go = 1;
    turn = scard_terminal_transmit(&terminal, amount, sizeof amount, sent, sizeof sent);
    turn = scard_card_received(&card, sent, turn.count, back, sizeof back);
    CHECK(turn.kind == SCARD_DONE && scard_message(&card, answer, sizeof answer).place == 2);
    turn = scard_card_reply(&card, amount, sizeof amount, back, sizeof back);
    turn = scard_terminal_received(&terminal, back, turn.count, sent, sizeof sent);
    CHECK(turn.kind == SCARD_DONE && scard_message(&terminal, answer, sizeof answer).place == 2);
    to_go = 0;
    CHECK(open_receiver(&card).status == SCARD_OK && open_check(&terminal).status == SCARD_OK);
    to_go = 1;
    CHECK(scard_reader_feed(&card, back, turn.count).status <= SCARD_MORE);
    CHECK(scard_reader_feed(&terminal, forest, sizeof forest).status == SCARD_MORE);
    CHECK(scard_reader_finish(&terminal).status == SCARD_OK);
    CHECK(scard_tlv_check(forest, sizeof forest, SCARD_TLV_LARGEST).status == SCARD_OK);
    CHECK(scard_tlv_tidy(forest, sizeof forest, SCARD_TLV_LARGEST, sent, sizeof sent).place == 7);
    CHECK(!refused);
    to_go = 0;
    scard_close(&terminal);
    scard_close(&card);
    CHECK(held == 0);
}

int main(void)
{
    int open;
    for (open = 0; open < OPENINGS; open++) {
        try_opening(openings[open], 0);
        try_opening(openings[open], 1);
    }
    take_none();
    return verdict_of_checks("memory");
}
