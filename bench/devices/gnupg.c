/* The terminal of GnuPG's own driver for CCID, over the loop of T=1 of its scd/ccid-driver.c. The script `make` beside
 * this file cuts that function and the one below it out of the sources, as gnupg_t1.h, and builds this file. A block that
 * doesn't arrive is a response of the reader without octets, as readers send it for a mute card or an error of parity. */
#include "callback.h"

#include <assert.h>
#include <string.h>

/* ---- what the function needs of its file ---- */

/* messages of CCID: a header, and a block of 259 octets at most, as the function declares its buffers */
enum { HEADER = 10, LONGEST = 259 };
enum { PC_to_RDR_XfrBlock = 0x6F, PC_to_RDR_Escape = 0x6B, RDR_to_PC_DataBlock = 0x80, RDR_to_PC_Escape = 0x83 };
enum { CCID_DRIVER_ERR_INV_VALUE = 1, CCID_DRIVER_ERR_ABORTED, CCID_DRIVER_ERR_CARD_IO_ERROR };
enum { VENDOR_OMNIKEY = 0x076B, CCID_CMD_TIMEOUT = 5000 };
#define DEBUGOUT(text) (void)0
#define DEBUGOUT_1(text, a) (void)0
#define DEBUGOUT_2(text, a, b) (void)0
#define DEBUGOUT_3(text, a, b, c) (void)0
#define DEBUGOUT_4(text, a, b, c, d) (void)0
#define log_assert assert

struct driver {
    int apdu_level, id_vendor, nonnull_nad;
    unsigned ifsc, ep_bulk_in;
    unsigned char t1_ns, t1_nr, seqno;
    void *idev;
};
typedef struct driver *ccid_driver_t;

static const int debug_level = 0;
static uint8_t arrived[DEVICE_ROOM];
static size_t arrived_count;

static void my_npth_protect(void)
{
}

static void my_npth_unprotect(void)
{
}

static void libusb_clear_halt(void *device, unsigned pipe)
{
    (void)device;
    (void)pipe;
}

static void print_progress(ccid_driver_t handle)
{
    (void)handle;
}

static int is_exlen_apdu(const unsigned char *apdu, size_t count)
{
    (void)apdu;
    (void)count;
    return 0;
}

/* Our reader exchanges blocks, so the function never calls this. */
static int ccid_transceive_apdu_level(ccid_driver_t handle, const unsigned char *apdu, size_t count,
                                      unsigned char *answer, size_t room, size_t *answer_count)
{
    (void)handle;
    (void)apdu;
    (void)count;
    (void)answer;
    (void)room;
    (void)answer_count;
    return CCID_DRIVER_ERR_INV_VALUE;
}

static void set_msg_len(unsigned char *message, size_t count)
{
    message[1] = (unsigned char)count;
    message[2] = (unsigned char)(count >> 8);
    message[3] = message[4] = 0;
}

/* Sends the block of a message, and keeps what arrives. */
static int bulk_out(ccid_driver_t handle, unsigned char *message, size_t count, int no_debug)
{
    (void)handle;
    (void)no_debug;
    arrived_count = device_exchange(message + HEADER, count - HEADER, arrived);
    return 0;
}

/* Writes the reader's response to that message. */
static int bulk_in(ccid_driver_t handle, unsigned char *message, size_t room, size_t *count, int type, int number,
                   int timeout, int no_debug)
{
    (void)handle;
    (void)type;
    (void)number;
    (void)timeout;
    (void)no_debug;
    if (arrived_count > LONGEST || arrived_count + HEADER > room) {
        return CCID_DRIVER_ERR_INV_VALUE;
    }
    memset(message, 0, HEADER);
    memcpy(message + HEADER, arrived, arrived_count);
    *count = HEADER + arrived_count;
    return 0;
}

#include "gnupg_t1.h"

/* ---- the device ---- */

static struct driver driver;

/* The field that a card takes, by the octets of the answers to reset of the suite: TA3. */
struct device_reply device_reset(const uint8_t *atr, size_t count, uint8_t *out)
{
    struct device_reply reply = {DEVICE_NOTHING, 0, 0, 0};
    (void)out;
    memset(&driver, 0, sizeof driver);
    driver.ifsc = count > 5 ? atr[4] : 32;
    return reply;
}

struct device_reply device_send(const uint8_t *command, size_t count, uint8_t *out)
{
    struct device_reply reply = {DEVICE_FAILED, 0, 0, 0};
    if (ccid_transceive(&driver, command, count, out, DEVICE_ROOM, &reply.count) == 0) {
        reply.word = DEVICE_ANSWER;
    }
    return reply;
}

/* The function waits by itself, so the suite never says this between two commands. */
struct device_reply device_heard(const uint8_t *octets, size_t count, uint8_t *out)
{
    (void)octets;
    (void)count;
    return device_silence(out);
}

struct device_reply device_silence(uint8_t *out)
{
    struct device_reply reply = {DEVICE_FAILED, 0, 0, 0};
    (void)out;
    return reply;
}
