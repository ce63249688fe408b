/* Tests tools/release/everywhere/wide.c beside the compiler's own numbers of 128 bits. The names in it are those of the
 * compiler, so they get others here. */
#include <assert.h>
#include <stdio.h>
#include <string.h>

#define __multi3 our_multi3
#define __ashlti3 our_ashlti3
#define __lshrti3 our_lshrti3
#define __udivti3 our_udivti3
#define __umodti3 our_umodti3
#define memcmp our_memcmp
#define bcmp our_bcmp
#undef NULL
#include "../../tools/release/everywhere/wide.c"
#undef memcmp
#undef bcmp

__extension__ typedef unsigned __int128 u128;

static const u64 EDGES[] = {0, 1, 2, 3, 10, 0xFFFF, 0x7FFFFFFF, 0x80000000, 0xFFFFFFFF, 0x100000000, 0x7FFFFFFFFFFFFFFF,
                            0x8000000000000000, 0xFFFFFFFFFFFFFFFF, 1000000007, 0x123456789ABCDEF0};
#define COUNT (sizeof EDGES / sizeof *EDGES)

static u128 joined(struct wide number)
{
    return (u128)number.high << 64 | number.low;
}

static void numbers(u64 a_low, u64 a_high, u64 b_low, u64 b_high)
{
    struct wide made;
    u128 a = (u128)a_high << 64 | a_low, b = (u128)b_high << 64 | b_low;
    our_multi3(&made, a_low, a_high, b_low, b_high);
    assert(joined(made) == a * b);
    if (b != 0) {
        our_udivti3(&made, a_low, a_high, b_low, b_high);
        assert(joined(made) == a / b);
        our_umodti3(&made, a_low, a_high, b_low, b_high);
        assert(joined(made) == a % b);
    }
}

static void shifts(u64 low, u64 high)
{
    struct wide made;
    u128 number = (u128)high << 64 | low;
    int by;
    for (by = 0; by < 128; by++) {
        our_ashlti3(&made, low, high, by);
        assert(joined(made) == number << by);
        our_lshrti3(&made, low, high, by);
        assert(joined(made) == number >> by);
    }
}

static int sign(int number)
{
    return (number > 0) - (number < 0);
}

static void orders(void)
{
    const char *texts[] = {"", "a", "b", "ab", "\x7F", "\x80", "\xFF\xFF", "aa"};
    size_t one, other, count;
    for (one = 0; one < 8; one++) {
        for (other = 0; other < 8; other++) {
            count = strlen(texts[one]) < strlen(texts[other]) ? strlen(texts[one]) : strlen(texts[other]);
            assert(sign(our_memcmp(texts[one], texts[other], count)) == sign(memcmp(texts[one], texts[other], count)));
            assert((our_bcmp(texts[one], texts[other], count) != 0) == (memcmp(texts[one], texts[other], count) != 0));
        }
    }
}

int main(void)
{
    size_t a, b, c, d;
    for (a = 0; a < COUNT; a++) {
        for (b = 0; b < COUNT; b++) {
            shifts(EDGES[a], EDGES[b]);
            for (c = 0; c < COUNT; c++) {
                for (d = 0; d < COUNT; d++) {
                    numbers(EDGES[a], EDGES[b], EDGES[c], EDGES[d]);
                }
            }
        }
    }
    orders();
    puts("wide: 3 passed, 0 failed");
    return 0;
}
