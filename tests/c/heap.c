/* A program with its own memory functions, written from scard_heap.h alone. Its only memory is the blocks of an array.
 */
#include "check.h"
#include "scard_heap.h"

enum { ALIGN = 16, ROOM = 1 << 20 };

static union {
    uint8_t octets[ROOM];
    long double aligned;
} pool;
static size_t used, held, limit = ROOM, wrong;

/* The 16 octets before each block have its size. The memory is free again once no block is allocated. */
struct scard_memory rattle_alloc(size_t size, size_t align)
{
    size_t taken = (size + ALIGN - 1) / ALIGN * ALIGN + ALIGN;
    struct scard_memory memory = {taken <= limit - used, pool.octets};
    wrong += align == 0 || align > ALIGN || (align & (align - 1)) != 0;
    if (memory.is_there) {
        memory.at = pool.octets + used + ALIGN;
        memcpy(pool.octets + used, &size, sizeof size);
        memset(memory.at, 0xA5, size);
        used += taken;
        held++;
    }
    return memory;
}

struct scard_memory rattle_realloc(void *at, size_t kept, size_t size, size_t align)
{
    struct scard_memory memory = rattle_alloc(size, align);
    wrong += kept > size;
    if (memory.is_there) {
        memcpy(memory.at, at, kept);
        rattle_dealloc(at);
    }
    return memory;
}

void rattle_dealloc(void *at)
{
    uint8_t *block = (uint8_t *)at;
    size_t size;
    memcpy(&size, block - ALIGN, sizeof size);
    wrong += held == 0 || block < pool.octets + ALIGN || block + size > pool.octets + used;
    memset(block, 0x5A, size);
    held--;
    used = held == 0 ? 0 : used;
}

/* Checks that the calls that allocate work with this much memory, or report that it isn't enough, and free what they
 * allocated.
 */
static unsigned with(size_t room)
{
    static uint8_t block[SCARD_BLOCK_ROOM], octets[64];
    struct scard_handle end = SCARD_HANDLE_EMPTY, reader = SCARD_HANDLE_EMPTY;
    struct scard_verdict verdicts[2];
    unsigned good = 0, at;
    limit = room;
    verdicts[0] = scard_receiver_open(&reader, 254, 0, 300);
    verdicts[1] = scard_terminal_open(&end, 32, 4, 5);
    for (at = 0; at < 2; at++) {
        CHECK(verdicts[at].status == SCARD_OK || verdicts[at].status == SCARD_MEMORY);
        good += verdicts[at].status == SCARD_OK;
    }
    CHECK(scard_terminal_transmit(&end, octets, 5, block, sizeof block).kind
          == (verdicts[1].status == SCARD_OK ? SCARD_SEND : SCARD_NO_END));
    scard_close(&reader);
    scard_close(&end);
    CHECK(held == 0 && used == 0 && wrong == 0);
    return good;
}

int main(void)
{
    size_t room;
    unsigned before = 0;
    CHECK(with(0) == 0);
    for (room = 16; room <= ROOM; room *= 2) {
        unsigned good = with(room);
        CHECK(good >= before);
        before = good;
    }
    CHECK(before == 2);
    return verdict_of_checks("heap");
}
