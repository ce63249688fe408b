/* Tests tools/release/everywhere/heap.c over an array: blocks never overlap, keep what is in them, and come back. */
#include <assert.h>
#include <stdio.h>
#include <stdlib.h>
#include <string.h>

#define ROOM (1u << 24)
static _Alignas(16) unsigned char arena[ROOM];
static size_t most = ROOM;
#define HEAP_FIRST() arena
#define HEAP_MORE(to) ((size_t)((const unsigned char *)(to) - arena) <= most)
#undef NULL
#include "../../tools/release/everywhere/heap.c"

#define BLOCKS 200
static unsigned char *at[BLOCKS];
static size_t size[BLOCKS];

static unsigned random_number(void)
{
    static unsigned state = 1;
    state = state * 1103515245u + 12345u;
    return state >> 8;
}

static void put(int which, size_t octets)
{
    size[which] = octets;
    memset(at[which], which + 1, octets);
}

static int holds(int which, size_t octets)
{
    size_t it;
    for (it = 0; it < octets; it++) {
        if (at[which][it] != (unsigned char)(which + 1)) {
            return 0;
        }
    }
    return 1;
}

/* Takes, grows and frees blocks at random. Each keeps its octets, so none lies in another. */
static void blocks_keep_their_octets(void)
{
    int turn, which;
    for (turn = 0; turn < 200000; turn++) {
        size_t octets = random_number() % (random_number() % 8 ? 200 : 20000);
        struct tried tried;
        which = (int)(random_number() % BLOCKS);
        if (at[which] == NULL) {
            tried = rattle_alloc(octets, 16);
            assert(tried.is_there == 1 && (uintptr_t)tried.at % 16 == 0);
            at[which] = tried.at;
            put(which, octets);
        } else if (random_number() % 2) {
            assert(holds(which, size[which]));
            rattle_dealloc(at[which]);
            at[which] = NULL;
        } else {
            size_t kept = octets < size[which] ? octets : size[which];
            tried = rattle_realloc(at[which], kept, octets, 16);
            assert(tried.is_there == 1);
            at[which] = tried.at;
            assert(holds(which, kept));
            put(which, octets);
        }
    }
}

/* The last block grows where it is. */
static void last_block_stays(void)
{
    struct tried first = rattle_alloc(100000, 16), longer = rattle_realloc(first.at, 100000, 1000000, 16);
    assert(longer.is_there && longer.at == first.at);
    rattle_dealloc(longer.at);
    assert(rattle_alloc(1000000, 16).at == first.at);
}

/* Without room there is no block, and the old one stays. */
static void room_ends(void)
{
    struct tried kept = rattle_alloc(64, 16), other, none;
    memset(kept.at, 7, 64);
    none = rattle_alloc(ROOM, 16);
    assert(none.is_there == 0);
    none = rattle_alloc((size_t)-1, 16);
    assert(none.is_there == 0);
    none = rattle_realloc(kept.at, 64, ROOM, 16);
    assert(none.is_there == 0 && ((unsigned char *)kept.at)[63] == 7);
    most = 0;
    other = rattle_alloc(3000000, 16);
    assert(other.is_there == 0 && scard_room(3000000) == 0);
    most = ROOM;
    assert(scard_room(10) != 0);
}

/* The last block, once it is freed, leaves its room to a block of any size. */
static void last_block_goes(void)
{
    struct tried large = rattle_alloc(1000000, 16), small;
    rattle_dealloc(large.at);
    small = rattle_alloc(500000, 16);
    assert(small.at == large.at);
    rattle_dealloc(small.at);
}

/* Each answer begins with an empty heap, whatever the one before left. */
static void answers_begin_empty(void)
{
    unsigned char *words = scard_room(10), *end;
    int answer, it;
    size_t octets;
    for (answer = 0; answer < 100; answer++) {
        for (it = 0, octets = 20; it < 15; it++, octets = octets * 3 / 2) {
            struct tried tried = rattle_alloc(octets, 16);
            assert(tried.is_there);
            if (random_number() % 2) {
                rattle_dealloc(tried.at);
            }
        }
        end = heap_end;
        assert(scard_room(10) == words && heap_end < end);
    }
}

int main(void)
{
    blocks_keep_their_octets();
    last_block_stays();
    room_ends();
    last_block_goes();
    answers_begin_empty();
    puts("heap: 5 passed, 0 failed");
    return 0;
}
