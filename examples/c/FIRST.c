/* A first program: it checks whether octets are a block of T=1 (ISO/IEC 7816-3). It needs no toolchain and no installed
 * library:
 *
 *     cc -Idist/c examples/c/FIRST.c dist/c/scard.c && ./a.out
 *
 * It prints `ok 9 octets`.
 */
#include "scard.h"

#include <stdio.h>

int main(void)
{
    static const uint8_t octets[] = {0x00, 0x00, 0x05, 0x00, 0xA4, 0x04, 0x00, 0x00, 0xA5};
    struct scard_block block;
    struct scard_verdict verdict = scard_block_decode(octets, sizeof octets, 254, &block);
    switch (verdict.status) {
    case SCARD_OK:
        printf("ok %u octets\n", (unsigned)verdict.place);
        return 0;
    case SCARD_SHORT:
        printf("short at %u\n", (unsigned)verdict.place);
        return 1;
    default:
        printf("refused at %u: %s\n", (unsigned)verdict.place, scard_reason_name(SCARD_CODEC_BLOCK, verdict.reason));
        return 1;
    }
}
