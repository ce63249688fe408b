/* What the harnesses share: the input as a supply of numbers and octets, and a check that ends the program. Each harness
 * defines LLVMFuzzerTestOneInput, as libFuzzer calls it. plain.c calls it for each line of a file.
 */
#ifndef INPUT_H
#define INPUT_H

#define SCARD_MUST_USE /* a harness makes many calls for what they write */
#include "scard.h"

#include <stdio.h>
#include <stdlib.h>
#include <string.h>

int LLVMFuzzerTestOneInput(const uint8_t *data, size_t size);

/* Ends the program with the line of what isn't so. */
#define SHOULD(so)                                                         \
    do {                                                                   \
        if (!(so)) {                                                       \
            fprintf(stderr, "%s:%d: not so: %s\n", __FILE__, __LINE__, #so); \
            abort();                                                       \
        }                                                                  \
    } while (0)

/* The octets of the input that weren't taken yet. */
struct input {
    const uint8_t *at;
    size_t left;
};

/* Takes an octet. After the last one it gives 0. */
static inline uint8_t take(struct input *input)
{
    if (input->left == 0) {
        return 0;
    }
    input->left--;
    return *input->at++;
}

static inline size_t take_number(struct input *input)
{
    size_t high = take(input);
    return high << 8 | take(input);
}

/* Takes at most this many octets, and returns how many there were. */
static inline size_t take_octets(struct input *input, const uint8_t **octets, size_t most)
{
    size_t count = input->left < most ? input->left : most;
    *octets = input->at;
    input->at += count;
    input->left -= count;
    return count;
}

/* Copies octets of the input over a value. What the input doesn't have stays as it is. */
static inline void take_over(struct input *input, void *value, size_t size)
{
    const uint8_t *octets;
    size_t count = take_octets(input, &octets, size);
    if (count > 0) {
        memcpy(value, octets, count);
    }
}

static inline bool same_verdict(struct scard_verdict one, struct scard_verdict other)
{
    return one.status == other.status && one.reason == other.reason && one.place == other.place;
}

/* Returns true if a verdict of a decoder is one that it may give to `count` octets. */
static inline bool may_be(struct scard_verdict verdict, size_t count)
{
    return verdict.status <= SCARD_AT && verdict.place <= count && (verdict.reason != 0) == (verdict.status == SCARD_AT);
}

#endif
