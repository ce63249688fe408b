/* libccid's side: its engine as a terminal on our line, and its codecs. This file includes the engine's source, since
 * some of the called functions are static there. It also has the functions of the driver below the engine.
 */
#include "peers.h"

#include <stdatomic.h>
#include <stdbool.h>
#include <string.h>

#include <pcsclite.h>
#include <ifdhandler.h>
#include "openct/proto-t1.c"
#include "towitoko/atr.h"

_Atomic int LogLevel;

void log_msg(const int priority, const char *format, ...)
{
    (void)priority;
    (void)format;
}

void log_xxd(const int priority, const char *text, const unsigned char *octets, const int count)
{
    (void)priority;
    (void)text;
    (void)octets;
    (void)count;
}

/* ---- the driver ---- */

static _ccid_descriptor reader;
static struct link *line;
static uint8_t arrived[300];
static size_t arrived_count;
static RESPONSECODE when_lost;

int isCharLevel(int number)
{
    (void)number;
    return 0;
}

_ccid_descriptor *get_ccid_descriptor(unsigned int number)
{
    (void)number;
    return &reader;
}

RESPONSECODE CCID_Transmit(unsigned int number, unsigned int count, const unsigned char octets[], unsigned short wanted,
                           unsigned char waiting)
{
    (void)number;
    (void)wanted;
    (void)waiting;
    link_exchange(line, octets, count, arrived, &arrived_count);
    return IFD_SUCCESS;
}

RESPONSECODE CCID_Receive(unsigned int number, unsigned int *room, unsigned char octets[], unsigned char *chain)
{
    (void)number;
    (void)chain;
    if (arrived_count == 0) {
        return when_lost;
    }
    if (*room > arrived_count) {
        *room = (unsigned)arrived_count;
    }
    memcpy(octets, arrived, *room);
    return IFD_SUCCESS;
}

/* ---- the terminal ---- */

static t1_state_t engine;

static void start(struct link *link, uint8_t ifsc)
{
    line = link;
    reader.readTimeout = 1;
    memset(&engine, 0, sizeof engine);
    t1_init(&engine, 0);
    t1_set_param(&engine, IFD_PROTOCOL_T1_IFSC, ifsc);
}

static void start_mute(struct link *link, uint8_t ifsc)
{
    when_lost = IFD_COMMUNICATION_ERROR;
    start(link, ifsc);
}

static void start_parity(struct link *link, uint8_t ifsc)
{
    when_lost = IFD_PARITY_ERROR;
    start(link, ifsc);
}

static long transmit(const uint8_t *command, size_t count, uint8_t *answer, size_t room)
{
    int got = t1_transceive(&engine, 0, command, count, answer, room);
    return got < 0 ? -2 : got;
}

static int ask_ifs(uint8_t size)
{
    if (t1_negotiate_ifsd(&engine, 0, size) < 0) {
        return -2;
    }
    t1_set_param(&engine, IFD_PROTOCOL_T1_IFSD, size);
    return 0;
}

struct terminal libccid_mute = {"libccid, lost is mute", start_mute, transmit, ask_ifs};
struct terminal libccid_parity = {"libccid, lost is parity", start_parity, transmit, ask_ifs};

/* ---- the codecs ---- */

/* An engine for an information size of 254, made once. */
static t1_state_t *sized(void)
{
    static t1_state_t made;
    if (made.checksum == NULL) {
        t1_init(&made, 0);
        t1_set_param(&made, IFD_PROTOCOL_T1_IFSC, 254);
    }
    return &made;
}

int libccid_atr(const uint8_t *octets, size_t count)
{
    ATR_t atr;
    return ATR_InitFromArray(&atr, octets, (unsigned)count) == ATR_OK;
}

size_t libccid_block_encode(const uint8_t *inf, size_t count, uint8_t *out)
{
    ct_buf_t field;
    size_t taken;
    ct_buf_set(&field, (void *)inf, count);
    return t1_build(sized(), out, 0, T1_I_BLOCK, &field, &taken);
}

int libccid_block_check(uint8_t *octets, size_t count)
{
    return t1_verify_checksum(sized(), octets, count);
}

uint8_t libccid_lrc(const uint8_t *octets, size_t count)
{
    unsigned char sum;
    csum_lrc_compute(octets, count, &sum);
    return sum;
}
