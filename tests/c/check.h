/* Counted checks, and octets in heap blocks of exactly their size. If WITHOUT_HANDLES is defined, tests leave out ends
 * and readers in a handle: these take memory, and the file dist/c/scard.c doesn't have them.
 */
#ifndef CHECK_H
#define CHECK_H

#include "scard.h"

#include <stdio.h>
#include <stdlib.h>
#include <string.h>

static int checks, failures;

#define CHECK(condition)                                                              \
    do {                                                                              \
        checks++;                                                                     \
        if (!(condition)) {                                                           \
            failures++;                                                               \
            fprintf(stderr, "%s:%d: not so: %s\n", __FILE__, __LINE__, #condition);   \
        }                                                                             \
    } while (0)

struct octets {
    uint8_t *at;
    size_t count;
};

static inline int digit_of(char c)
{
    if (c >= '0' && c <= '9') {
        return c - '0';
    }
    return c >= 'a' ? c - 'a' + 10 : c - 'A' + 10;
}

/* Decodes a hexadecimal text into a block of its own. */
static inline struct octets of_hex(const char *text)
{
    struct octets made;
    size_t place;
    made.count = strlen(text) / 2;
    made.at = (uint8_t *)malloc(made.count);
    if (made.at == NULL && made.count > 0) {
        abort();
    }
    for (place = 0; place < made.count; place++) {
        made.at[place] = (uint8_t)(digit_of(text[2 * place]) * 16 + digit_of(text[2 * place + 1]));
    }
    return made;
}

/* Returns whether octets are those of a hexadecimal text. */
static inline int is_hex(const uint8_t *octets, size_t count, const char *text)
{
    struct octets wanted = of_hex(text);
    int same = wanted.count == count && (count == 0 || memcmp(wanted.at, octets, count) == 0);
    free(wanted.at);
    return same;
}

/* Returns a verdict as the line that the command line program prints. */
static inline const char *line_of(struct scard_verdict v, int codec)
{
    static char line[80];
    switch (v.status) {
    case SCARD_OK:
        snprintf(line, sizeof line, "ok %lu octets", (unsigned long)v.place);
        break;
    case SCARD_SHORT:
        snprintf(line, sizeof line, "short at %lu", (unsigned long)v.place);
        break;
    case SCARD_AT:
        snprintf(line, sizeof line, "refused at %lu: %s", (unsigned long)v.place,
                 scard_reason_name(codec, v.reason));
        break;
    case SCARD_MEMORY:
        snprintf(line, sizeof line, "memory");
        break;
    default:
        snprintf(line, sizeof line, "argument %lu", (unsigned long)v.place);
    }
    return line;
}

/* Returns the verdict of a codec on octets, and discards what they decode to. Status 9 means that the codec isn't here.
 */
static inline struct scard_verdict verdict_of_codec(int codec, struct octets octets, uint8_t ifs)
{
    struct scard_verdict none = {9, 9, 9};
    struct scard_atr atr;
    struct scard_block block;
    struct scard_command command;
    struct scard_response response;
    switch (codec) {
    case SCARD_CODEC_ATR:
        return scard_atr_decode(octets.at, octets.count, &atr);
    case SCARD_CODEC_BLOCK:
        return scard_block_decode(octets.at, octets.count, ifs, &block);
    case SCARD_CODEC_COMMAND:
        return scard_command_decode(octets.at, octets.count, &command);
    case SCARD_CODEC_RESPONSE:
        return scard_response_decode(octets.at, octets.count, &response);
    case SCARD_CODEC_TLV:
        return scard_tlv_check(octets.at, octets.count, SCARD_TLV_LARGEST);
    case SCARD_CODEC_DOL:
        return scard_dol_check(octets.at, octets.count);
    default:
        return none;
    }
}

/* The setup of a session at 3.5712 MHz, with these T=1 parameters. */
static inline struct scard_lent_setup setup_of(uint8_t ifsc, uint8_t bwi, uint8_t cwi)
{
    struct scard_lent_setup setup;
    memset(&setup, 0, sizeof setup);
    setup.fi = 372;
    setup.di = 1;
    setup.hertz = 3571200;
    setup.ifsc = ifsc;
    setup.bwi = bwi;
    setup.cwi = cwi;
    return setup;
}

static inline int verdict_of_checks(const char *name)
{
    printf("%s: %d checks, %d failed\n", name, checks, failures);
    return failures == 0 ? 0 : 1;
}

#endif
