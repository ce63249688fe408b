/* The memory that an end or a receiver of chains frees contains no octet of a message, and it takes no more memory than
 * its limits need. A receiver without a handle that begins anew leaves nothing in its buffer. This file has the memory
 * functions, which check each block that is freed.
 */
#include "check.h"
#include "scard_heap.h"

enum { ALIGN = 16, MOST = 8, ENGINE = 1024 };

/* A PIN block, as the data field of VERIFY has it. */
static const uint8_t pin[] = {0x24, 0x12, 0x34, 0xFF, 0xFF, 0xFF, 0xFF, 0xFF};
static const uint8_t verify[] = {0x00, 0x20, 0x00, 0x80, 0x08, 0x24, 0x12, 0x34, 0xFF, 0xFF, 0xFF, 0xFF, 0xFF};

static uint8_t *blocks[MOST]; /* the allocated blocks; the octets before each have its size */
static int taken, left_behind;

static size_t size_of(const uint8_t *block)
{
    size_t size;
    memcpy(&size, block - ALIGN, sizeof size);
    return size;
}

static int has_pin(const uint8_t *block)
{
    size_t place;
    for (place = 0; place + sizeof pin <= size_of(block); place++) {
        if (memcmp(block + place, pin, sizeof pin) == 0) {
            return 1;
        }
    }
    return 0;
}

/* Returns the index of an allocated block, or of a free entry for NULL. */
static int place_of(const void *block)
{
    int place = 0;
    while (place < MOST && blocks[place] != block) {
        place++;
    }
    if (place == MOST) {
        abort();
    }
    return place;
}

struct scard_memory rattle_alloc(size_t size, size_t align)
{
    uint8_t *whole = (uint8_t *)malloc(size + ALIGN);
    struct scard_memory memory = {1, whole + ALIGN};
    if (whole == NULL || align > ALIGN) {
        abort();
    }
    memcpy(whole, &size, sizeof size);
    blocks[place_of(NULL)] = whole + ALIGN;
    taken++;
    return memory;
}

void rattle_dealloc(void *at)
{
    uint8_t *block = (uint8_t *)at;
    left_behind += has_pin(block);
    blocks[place_of(block)] = NULL;
    free(block - ALIGN);
}

struct scard_memory rattle_realloc(void *at, size_t kept, size_t size, size_t align)
{
    struct scard_memory memory = rattle_alloc(size, align);
    memcpy(memory.at, at, kept);
    rattle_dealloc(at);
    return memory;
}

/* Returns how many of the allocated blocks contain the PIN. */
static int holding(void)
{
    int place, count = 0;
    for (place = 0; place < MOST; place++) {
        count += blocks[place] != NULL && has_pin(blocks[place]);
    }
    return count;
}

/* Returns how many octets are allocated, and counts the blocks of this size. */
static size_t held(size_t size, int *count)
{
    int place;
    size_t all = 0;
    *count = 0;
    for (place = 0; place < MOST; place++) {
        if (blocks[place] != NULL) {
            all += size_of(blocks[place]);
            *count += size_of(blocks[place]) == size;
        }
    }
    return all;
}

/* Makes an I-block with this number. Returns how many octets it has. */
static size_t block_of(int number, const uint8_t *field, size_t count, uint8_t *out)
{
    size_t place;
    uint8_t sum = 0;
    out[0] = 0;
    out[1] = (uint8_t)(number << 6);
    out[2] = (uint8_t)count;
    memcpy(out + 3, field, count);
    for (place = 0; place < count + 3; place++) {
        sum ^= out[place];
    }
    out[count + 3] = sum;
    return count + 4;
}

/* ---- what holds the PIN ---- */

static void in_a_command(struct scard_handle *handle)
{
    uint8_t out[SCARD_BLOCK_ROOM];
    CHECK(scard_terminal_open(handle, 32, 4, 5).status == SCARD_OK);
    CHECK(scard_terminal_transmit(handle, verify, sizeof verify, out, sizeof out).kind == SCARD_SEND);
}

static void in_an_answer(struct scard_handle *handle)
{
    uint8_t out[SCARD_BLOCK_ROOM], in[SCARD_BLOCK_ROOM];
    CHECK(scard_terminal_open(handle, 32, 4, 5).status == SCARD_OK);
    CHECK(scard_terminal_transmit(handle, verify, 4, out, sizeof out).kind == SCARD_SEND);
    CHECK(scard_terminal_received(handle, in, block_of(0, verify, sizeof verify, in), out, sizeof out).kind
          == SCARD_DONE);
}

static void in_a_command_that_came(struct scard_handle *handle)
{
    uint8_t out[SCARD_BLOCK_ROOM], in[SCARD_BLOCK_ROOM];
    CHECK(scard_card_open(handle, 32, 4, 5).status == SCARD_OK);
    CHECK(scard_card_received(handle, in, block_of(0, verify, sizeof verify, in), out, sizeof out).kind == SCARD_DONE);
}

static void in_a_reply(struct scard_handle *handle)
{
    uint8_t out[SCARD_BLOCK_ROOM], in[SCARD_BLOCK_ROOM];
    CHECK(scard_card_open(handle, 32, 4, 5).status == SCARD_OK);
    CHECK(scard_card_received(handle, in, block_of(0, verify, 4, in), out, sizeof out).kind == SCARD_DONE);
    CHECK(scard_card_reply(handle, verify, sizeof verify, out, sizeof out).kind == SCARD_SEND);
}

static void in_a_chain(struct scard_handle *handle)
{
    uint8_t in[SCARD_BLOCK_ROOM];
    CHECK(scard_receiver_open(handle, 32, 0, 1000).status == SCARD_OK);
    CHECK(scard_reader_feed(handle, in, block_of(0, verify, sizeof verify, in)).status == SCARD_OK);
}

/* The block has no LRC yet. */
static void in_a_block_without_its_end(struct scard_handle *handle)
{
    uint8_t in[SCARD_BLOCK_ROOM];
    CHECK(scard_receiver_open(handle, 32, 0, 1000).status == SCARD_OK);
    CHECK(scard_reader_feed(handle, in, block_of(0, verify, sizeof verify, in) - 1).status == SCARD_MORE);
}

typedef void holder(struct scard_handle *handle);
typedef struct scard_verdict opening(struct scard_handle *handle, uint8_t ifsc, uint8_t bwi, uint8_t cwi);

static holder *const holders[] = {
    in_a_command, in_an_answer, in_a_command_that_came, in_a_reply, in_a_chain,
    in_a_block_without_its_end,
};

static void is_overwritten(holder *hold)
{
    struct scard_handle handle = SCARD_HANDLE_EMPTY;
    hold(&handle);
    CHECK(holding() == 1);
    scard_close(&handle);
    CHECK(holding() == 0 && left_behind == 0);
    hold(&handle);
    CHECK(holding() == 1);
    CHECK(scard_atr_reader_open(&handle).status == SCARD_OK);
    CHECK(holding() == 0 && left_behind == 0);
    scard_close(&handle);
}

/* An end that is opened again in its handle allocates nothing, and nothing remains of what it held. */
static void begins_anew(holder *hold, opening *open)
{
    struct scard_handle handle = SCARD_HANDLE_EMPTY;
    int before;
    hold(&handle);
    before = taken;
    CHECK(holding() == 1);
    CHECK(open(&handle, 254, 4, 5).status == SCARD_OK);
    CHECK(holding() == 0 && left_behind == 0 && taken == before);
    hold(&handle);
    CHECK(holding() == 1 && taken == before);
    CHECK(open(&handle, 0, 4, 5).status == SCARD_ARGUMENT && holding() == 1);
    scard_close(&handle);
    CHECK(holding() == 0 && left_behind == 0);
}

/* A receiver whose message the caller keeps begins anew with the PIN in its buffer, whole or without the block's end.
 * After that every octet of the buffer is 0, also those that it never counted.
 */
static void restarts_with_zeros(void)
{
    uint8_t in[SCARD_BLOCK_ROOM], message[sizeof verify + 20];
    const size_t count = block_of(0, verify, sizeof verify, in);
    size_t missing, place, left;
    for (missing = 0; missing <= 1; missing++) {
        struct scard_lent_receiver state;
        struct scard_verdict v;
        memset(message, 0xA5, sizeof message);
        CHECK(scard_lent_receiver_begin(&state, 32, 0, sizeof verify).status == SCARD_OK);
        v = scard_lent_receiver_feed(&state, message, sizeof message, in, count - missing);
        CHECK(v.status == (missing ? SCARD_MORE : SCARD_OK) && memcmp(message, verify, sizeof verify) == 0);
        CHECK(scard_lent_receiver_restart(&state, message, sizeof message, 0).status == SCARD_OK);
        for (left = 0, place = 0; place < sizeof message; place++) {
            left += message[place] != 0;
        }
        CHECK(left == 0);
    }
}

/* ---- how much is allocated ---- */

static void is_exact(void)
{
    struct scard_handle handle = SCARD_HANDLE_EMPTY;
    int commands, answers, messages;
    CHECK(scard_terminal_open(&handle, 32, 4, 5).status == SCARD_OK);
    CHECK(held(65544, &commands) < 65544 + 65538 + ENGINE && held(65538, &answers) > 0);
    CHECK(commands == 1 && answers == 1);
    CHECK(scard_card_open(&handle, 32, 4, 5).status == SCARD_OK);
    CHECK(held(65544, &commands) < 65544 + 65538 + ENGINE && held(65538, &answers) > 0);
    CHECK(commands == 1 && answers == 1);
    scard_close(&handle);
    taken = 0;
    CHECK(scard_receiver_open(&handle, 32, 0, 1000).status == SCARD_OK && taken == 2);
    CHECK(held(1000, &messages) < 1000 + ENGINE && messages == 1);
    scard_close(&handle);
    CHECK(held(0, &messages) == 0 && messages == 0);
}

int main(void)
{
    size_t at;
    for (at = 0; at < sizeof holders / sizeof holders[0]; at++) {
        is_overwritten(holders[at]);
    }
    begins_anew(in_a_command, scard_terminal_open);
    begins_anew(in_an_answer, scard_terminal_open);
    begins_anew(in_a_command_that_came, scard_card_open);
    begins_anew(in_a_reply, scard_card_open);
    restarts_with_zeros();
    is_exact();
    return verdict_of_checks("wiped");
}
