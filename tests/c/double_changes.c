/* Counts the changes of two octets of a block after which a card accepts the octets as a block. Shows that no change of
 * one octet is accepted, no block with its end missing, and no block with octets after it. The counts are those of
 * docs/PROMISES.md. With a number N it counts only for a field of N octets: 254 takes some minutes.
 */
#include "check.h"
#include "scard.h"

#include <stdlib.h>

/* Returns whether an end accepts a burst: it is a whole block with node address 0 and nothing after it. */
static int is_taken(const uint8_t *burst, size_t count)
{
    struct scard_block block;
    struct scard_verdict verdict = scard_block_decode(burst, count, 254, &block);
    return verdict.status == SCARD_OK && verdict.place == count && burst[0] == 0;
}

/* Returns how many changes of these two octets are accepted. */
static unsigned long taken_at(uint8_t *burst, size_t count, size_t first, size_t second)
{
    uint8_t one = burst[first], two = burst[second];
    unsigned long taken = 0;
    int i;
    for (i = 0; i < 65536; i++) {
        burst[first] = (uint8_t)(i >> 8);
        burst[second] = (uint8_t)(i & 255);
        taken += burst[first] != one && burst[second] != two && is_taken(burst, count);
    }
    burst[first] = one;
    burst[second] = two;
    return taken;
}

static unsigned long double_changes(uint8_t *burst, size_t count)
{
    unsigned long taken = 0;
    size_t first, second;
    for (first = 0; first < count; first++) {
        for (second = first + 1; second < count; second++) {
            taken += taken_at(burst, count, first, second);
        }
    }
    return taken;
}

/* Returns how many changes of one octet, shorter fronts and longer bursts are accepted. It has to be 0. */
static unsigned long single_changes(uint8_t *burst, size_t count)
{
    unsigned long taken = 0;
    size_t i;
    for (i = 0; i < 256 * count; i++) {
        uint8_t was = burst[i / 256];
        burst[i / 256] = (uint8_t)(i % 256);
        taken += burst[i / 256] != was && is_taken(burst, count);
        burst[i / 256] = was;
    }
    for (i = 0; i < 260; i++) {
        taken += i != count && is_taken(burst, i);
    }
    return taken;
}

/* Makes an I-block with a field of this size, which repeats a few octets, and a 0 after the block. */
static size_t block_of(uint8_t *burst, size_t size)
{
    uint8_t field[254];
    size_t i;
    memset(burst, 0, 300);
    for (i = 0; i < size; i++) {
        field[i] = (uint8_t)(i * 37 + 5);
    }
    return scard_block_i(0, 0, false, field, size, burst, 300).place;
}

static void counts(size_t size, unsigned long wanted)
{
    uint8_t burst[300];
    size_t count = block_of(burst, size);
    CHECK(count == size + 4 && is_taken(burst, count));
    CHECK(single_changes(burst, count) == 0);
    CHECK(double_changes(burst, count) == wanted);
}

int main(int argc, char **argv)
{
    int size = argc > 1 ? atoi(argv[1]) : 0;
    if (size == 0 || size == 5) {
        counts(5, 3843);
    }
    if (size == 0 || size == 32) {
        counts(32, 134739);
    }
    if (size == 254) {
        counts(254, 8258940);
    }
    return verdict_of_checks("double_changes");
}
