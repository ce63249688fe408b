/* The peers' calls that are timed. */
#ifndef PEERS_H
#define PEERS_H

#include "line.h"

/* libccid: an answer to reset without its TCK, an I-block, the checksum of a block, the LRC */
int libccid_atr(const uint8_t *octets, size_t count);
size_t libccid_block_encode(const uint8_t *inf, size_t count, uint8_t *out);
int libccid_block_check(uint8_t *octets, size_t count);
uint8_t libccid_lrc(const uint8_t *octets, size_t count);

/* OpenSC: a command, without a copy; the objects of a forest, -1 if the octets are no forest */
int opensc_command(const uint8_t *octets, size_t count);
long opensc_forest(const uint8_t *octets, size_t count);
/* OpenSSL: the objects of a forest, likewise */
long openssl_forest(const uint8_t *octets, size_t count);

#endif
