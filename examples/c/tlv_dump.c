/* Prints the data objects in octets, one on each line. Objects inside another are indented. Run it as: tlv_dump HEX */
#include "scard.h"

#include <stdio.h>
#include <string.h>

enum { MOST = 65536 };

static void print_hex(const uint8_t *octets, size_t count)
{
    size_t place;
    for (place = 0; place < count; place++) {
        printf("%02X", octets[place]);
    }
}

/* Prints objects, each before the objects inside it. */
static void dump(const uint8_t *octets, const struct scard_part *parts, size_t count)
{
    size_t part;
    for (part = 0; part < count; part++) {
        printf("%*s", 2 * (parts[part].depth - 1), "");
        print_hex(parts[part].tag.octets, parts[part].tag.count);
        if (!parts[part].is_constructed) {
            putchar(' ');
            print_hex(octets + parts[part].place, parts[part].len);
        }
        putchar('\n');
    }
}

int main(int count, char **words)
{
    static uint8_t octets[MOST];
    static struct scard_part parts[MOST / 2]; /* an object has at least two octets */
    struct scard_verdict read, found;
    if (count != 2) {
        fputs("usage: tlv_dump HEX\n", stderr);
        return 2;
    }
    read = scard_hex_decode(words[1], strlen(words[1]), octets, MOST);
    if (read.status != SCARD_OK) {
        fprintf(stderr, "invalid octets: %s at %zu\n", scard_reason_name(SCARD_CODEC_HEX, read.reason), read.place);
        return 2;
    }
    found = scard_tlv_parts(octets, read.place, MOST, parts, MOST / 2);
    if (found.status != SCARD_OK) {
        printf("%s at %zu\n", found.status == SCARD_SHORT ? "short" : scard_reason_name(SCARD_CODEC_TLV, found.reason),
               found.place);
        return 1;
    }
    dump(octets, parts, found.place);
    return 0;
}
