/* A card to try clients with. It has a file of 65,536 octets, an echo, and a count of the commands since the reset. */
#include "application.h"
#include "scard.h"

#include <string.h>
#include <unistd.h>

enum { FILE_SIZE = 65536 };

static const uint8_t name[] = {0xF0, 0x53, 0x43, 0x41, 0x52, 0x44, 0x01};
static uint32_t served; /* commands since the reset */

/* Appends the status bytes to a reply with `count` octets of data. Returns its length. */
static size_t ended(uint8_t *reply, size_t count, uint16_t status)
{
    reply[count] = (uint8_t)(status >> 8);
    reply[count + 1] = (uint8_t)status;
    return count + 2;
}

/* The answer offers T=1 twice, so that IFSC 254, BWI 4 and CWI 5 come after TD2. The historical bytes say that the card
 * accepts extended lengths. */
static size_t answer_to_reset(uint8_t *reply)
{
    static const uint8_t historical[] = {0x80, 0x73, 0x80, 0x01, 0x40};
    struct scard_atr atr;
    struct scard_verdict put;
    memset(&atr, 0, sizeof atr);
    atr.indicated_count = 2;
    atr.indicated[0].protocol = 1;
    atr.indicated[1].protocol = 1;
    atr.indicated[1].bytes.has_ta = 1;
    atr.indicated[1].bytes.ta = 254;
    atr.indicated[1].bytes.has_tb = 1;
    atr.indicated[1].bytes.tb = 0x45;
    atr.historical_count = sizeof historical;
    memcpy(atr.historical, historical, sizeof historical);
    put = scard_atr_encode(&atr, reply, LONGEST_ATR);
    return put.status == SCARD_OK ? put.place : 0;
}

static size_t select_by_name(const struct scard_command *command, const uint8_t *data, uint8_t *reply)
{
    static const uint8_t information[] = {0x6F, 0x12, 0x84, 0x07, 0xF0, 0x53, 0x43, 0x41, 0x52, 0x44,
                                          0x01, 0xA5, 0x07, 0x50, 0x05, 's',  'c',  'a',  'r',  'd'};
    if (command->p1 != 0x04) {
        return ended(reply, 0, 0x6A86);
    }
    if (command->data_len != sizeof name || memcmp(data, name, sizeof name) != 0) {
        return ended(reply, 0, 0x6A82);
    }
    memcpy(reply, information, sizeof information);
    return ended(reply, sizeof information, 0x9000);
}

/* An octet of the file is the sum of 7 times its offset, 13 times the high octet of the offset, and 5. */
static size_t read_binary(uint32_t from, uint32_t wanted, uint8_t *reply)
{
    uint32_t count = FILE_SIZE - from < wanted ? FILE_SIZE - from : wanted, at;
    if (from >= 0x8000) {
        return ended(reply, 0, 0x6A86);
    }
    for (at = from; at < from + count; at++) {
        reply[at - from] = (uint8_t)(at * 7 + (at >> 8) * 13 + 5);
    }
    return ended(reply, count, count < wanted ? 0x6282 : 0x9000);
}

/* GET DATA 0101: the number of commands before this one. */
static size_t count_of_commands(uint32_t tag, uint8_t *reply)
{
    int octet;
    if (tag != 0x0101) {
        return ended(reply, 0, 0x6A88);
    }
    for (octet = 0; octet < 4; octet++) {
        reply[octet] = (uint8_t)((served - 1) >> (24 - 8 * octet));
    }
    return ended(reply, 4, 0x9000);
}

/* An instruction of this card alone: it answers after this number of tenths of a second, and doesn't ask for time. */
static size_t late(uint32_t tenths, uint8_t *reply)
{
    for (; tenths > 0; tenths--) {
        usleep(100000);
    }
    return ended(reply, 0, 0x9000);
}

size_t application(const uint8_t *octets, size_t count, uint8_t *reply)
{
    struct scard_command command;
    uint32_t parameters;
    if (octets == NULL) {
        served = 0;
        return answer_to_reset(reply);
    }
    served++;
    if (scard_command_decode(octets, count, &command).status != SCARD_OK) {
        return ended(reply, 0, 0x6700);
    }
    parameters = (uint32_t)command.p1 << 8 | command.p2;
    switch (command.cla << 8 | command.ins) {
    case 0x00A4:
        return select_by_name(&command, octets + command.data_place, reply);
    case 0x00B0:
        return read_binary(parameters, command.le, reply);
    case 0x00CA:
        return count_of_commands(parameters, reply);
    case 0x00CB: /* the echo returns the data field, so both directions have long messages */
        if (command.le < command.data_len) {
            return ended(reply, 0, 0x6700);
        }
        memcpy(reply, octets + command.data_place, command.data_len);
        return ended(reply, command.data_len, 0x9000);
    case 0x8010:
        return late(parameters, reply);
    default:
        return ended(reply, 0, command.cla == 0x00 ? 0x6D00 : 0x6E00);
    }
}
