/* A reader for pcscd (IFD handler 3.0). The terminal is that of scard. The card is the process `card` at a Unix socket,
 * the DEVICENAME of the reader. A plan says how the blocks between them are disturbed. The driver reads it from the
 * file DEVICENAME.plan at each power up, or a client sends it with the control code CONTROL_PLAN. */
#include "application.h"
#include "contact.h"

#include <PCSC/debuglog.h>
#include <PCSC/ifdhandler.h>
#include <PCSC/reader.h>

#include <stdio.h>
#include <string.h>

enum {
    READERS = 8,
    IFSD = 254,
    CONTROL_PLAN = SCARD_CTL_CODE(2049),  /* sets a plan, whose blocks count from here on */
    CONTROL_COUNTS = SCARD_CTL_CODE(2050) /* returns the faults of the blocks so far, as a text */
};

struct reader {
    bool is_open, has_power, has_t1, is_size_set;
    bool is_over; /* the session is over: only a reset works */
    DWORD lun;
    struct contact contact;
    uint8_t atr[MAX_ATR_SIZE];
    size_t atr_count;
    struct scard_session session;
    uint8_t command[LONGEST_COMMAND], answer[LONGEST_REPLY];
};

static struct reader readers[READERS];

static struct reader *find(DWORD lun)
{
    int at;
    for (at = 0; at < READERS; at++) {
        if (readers[at].is_open && readers[at].lun == lun) {
            return &readers[at];
        }
    }
    return NULL;
}

/* ---- sessions ---- */

/* Powers the card up, or resets it, and begins a session with it. */
static bool power_up(struct reader *reader)
{
    struct scard_setup setup = {.line = contact_line(&reader->contact),
                                .command = reader->command, .command_room = sizeof reader->command,
                                .answer = reader->answer, .answer_room = sizeof reader->answer,
                                .clock = {372, 1, 3571200},
                                .silence = SCARD_SILENCE_NONE}; /* each message is a whole burst */
    struct scard_atr atr;
    bool is_plan = true;
    reader->has_power = reader->has_t1 = reader->is_size_set = false;
    reader->is_over = true;
    reader->atr_count = contact_reset(&reader->contact, reader->atr, &is_plan);
    if (!is_plan) {
        Log2(PCSC_LOG_ERROR, "invalid plan: %s.plan", reader->contact.device);
    }
    if (scard_atr_decode(reader->atr, reader->atr_count, &atr).status != SCARD_OK) {
        return false;
    }
    reader->has_power = true;
    reader->is_over = false;
    reader->has_t1 = scard_atr_t1_params(&atr, &setup.t1) == SCARD_T1_USABLE
        && scard_session_begin(&reader->session, &setup).status == SCARD_OK;
    return true;
}

/* ---- exchanges ---- */

/* Returns the error that the client gets if there is no answer. */
static RESPONSECODE no_answer(const struct reader *reader)
{
    return contact_is_made(&reader->contact) ? IFD_COMMUNICATION_ERROR : IFD_ICC_NOT_PRESENT;
}

/* Records a turn that isn't an answer, and returns the error that the client gets. */
static RESPONSECODE failed(struct reader *reader, struct scard_turn turn)
{
    Log2(PCSC_LOG_ERROR, "no answer: %s", scard_session_turn_name(turn.kind));
    reader->is_over = turn.kind != SCARD_GIVEN_UP;
    if (turn.kind == SCARD_GIVEN_UP) {
        reader->is_size_set = false; /* RESYNCH reset it */
        record_word(&reader->contact.record, "given-up");
    } else if (turn.kind == SCARD_DEAD) {
        record_word(&reader->contact.record, "dead");
    }
    return no_answer(reader);
}

/* Tells the card the field size of the reader, once in a session and after each RESYNCH. */
static RESPONSECODE set_size(struct reader *reader)
{
    const uint8_t size = IFSD;
    struct scard_turn turn;
    if (reader->is_size_set) {
        return IFD_SUCCESS;
    }
    record_octets(&reader->contact.record, "ifsd", &size, 1);
    turn = scard_session_ask_ifs(&reader->session, size);
    if (turn.kind != SCARD_IFS_SET) {
        return failed(reader, turn);
    }
    record_word(&reader->contact.record, "ifs-set");
    reader->is_size_set = true;
    return IFD_SUCCESS;
}

RESPONSECODE IFDHTransmitToICC(DWORD Lun, SCARD_IO_HEADER SendPci, PUCHAR TxBuffer, DWORD TxLength, PUCHAR RxBuffer,
                               PDWORD RxLength, PSCARD_IO_HEADER RecvPci)
{
    struct reader *reader = find(Lun);
    DWORD room = *RxLength;
    struct scard_turn turn;
    *RxLength = 0;
    if (reader == NULL || !reader->has_power || !reader->has_t1 || SendPci.Protocol != 1) {
        return reader == NULL || reader->has_power ? IFD_PROTOCOL_NOT_SUPPORTED : IFD_ICC_NOT_PRESENT;
    }
    if (reader->is_over || TxLength > sizeof reader->command || set_size(reader) != IFD_SUCCESS) {
        return no_answer(reader);
    }
    record_octets(&reader->contact.record, "command", TxBuffer, TxLength);
    turn = scard_session_exchange(&reader->session, TxBuffer, TxLength);
    if (turn.kind != SCARD_DONE) {
        return failed(reader, turn);
    }
    record_octets(&reader->contact.record, "answer", reader->answer, turn.count);
    if (turn.count > room) {
        return IFD_ERROR_INSUFFICIENT_BUFFER;
    }
    memcpy(RxBuffer, reader->answer, *RxLength = turn.count);
    RecvPci->Protocol = 1;
    return IFD_SUCCESS;
}

RESPONSECODE IFDHSetProtocolParameters(DWORD Lun, DWORD Protocol, UCHAR Flags, UCHAR PTS1, UCHAR PTS2, UCHAR PTS3)
{
    struct reader *reader = find(Lun);
    (void)Flags, (void)PTS1, (void)PTS2, (void)PTS3;
    if (Protocol != SCARD_PROTOCOL_T1 || reader == NULL) {
        return IFD_PROTOCOL_NOT_SUPPORTED;
    }
    /* pcscd believes that the card has power. So it won't reset the card by itself if the session before is over. */
    if (reader->is_over && !power_up(reader)) {
        return IFD_ERROR_PTS_FAILURE;
    }
    if (!reader->has_t1) {
        return IFD_PROTOCOL_NOT_SUPPORTED;
    }
    return set_size(reader) == IFD_SUCCESS ? IFD_SUCCESS : IFD_ERROR_PTS_FAILURE;
}

/* ---- the reader ---- */

RESPONSECODE IFDHCreateChannelByName(DWORD Lun, LPSTR DeviceName)
{
    int at;
    for (at = 0; at < READERS && readers[at].is_open; at++) {
    }
    if (at == READERS || strlen(DeviceName) >= sizeof readers[at].contact.device) {
        return IFD_COMMUNICATION_ERROR;
    }
    memset(&readers[at], 0, sizeof readers[at]);
    readers[at].is_open = true;
    readers[at].lun = Lun;
    readers[at].contact.socket = -1;
    strcpy(readers[at].contact.device, DeviceName);
    return IFD_SUCCESS;
}

RESPONSECODE IFDHCreateChannel(DWORD Lun, DWORD Channel)
{
    (void)Lun, (void)Channel;
    return IFD_NOT_SUPPORTED; /* this driver opens a reader only by its name */
}

RESPONSECODE IFDHCloseChannel(DWORD Lun)
{
    struct reader *reader = find(Lun);
    if (reader == NULL) {
        return IFD_COMMUNICATION_ERROR;
    }
    contact_break(&reader->contact);
    reader->is_open = false;
    return IFD_SUCCESS;
}

static RESPONSECODE give(const void *octets, size_t count, PDWORD Length, PUCHAR Value)
{
    if (Value != NULL && *Length < count) {
        return IFD_ERROR_INSUFFICIENT_BUFFER;
    }
    if (Value != NULL) {
        memcpy(Value, octets, count);
    }
    *Length = count;
    return IFD_SUCCESS;
}

RESPONSECODE IFDHGetCapabilities(DWORD Lun, DWORD Tag, PDWORD Length, PUCHAR Value)
{
    static const uint8_t one = 1, no = 0, most_readers = READERS;
    static const char vendor[] = "scard";
    struct reader *reader = find(Lun);
    switch (Tag) {
    case TAG_IFD_ATR:
    case SCARD_ATTR_ATR_STRING:
        return reader == NULL || !reader->has_power ? IFD_COMMUNICATION_ERROR
                                                    : give(reader->atr, reader->atr_count, Length, Value);
    case TAG_IFD_SLOTS_NUMBER:
        return give(&one, 1, Length, Value);
    case TAG_IFD_SIMULTANEOUS_ACCESS:
        return give(&most_readers, 1, Length, Value);
    case TAG_IFD_THREAD_SAFE: /* one call at a time */
    case TAG_IFD_SLOT_THREAD_SAFE:
        return give(&no, 1, Length, Value);
    case SCARD_ATTR_VENDOR_NAME:
        return give(vendor, sizeof vendor, Length, Value);
    default:
        return IFD_ERROR_TAG;
    }
}

RESPONSECODE IFDHSetCapabilities(DWORD Lun, DWORD Tag, DWORD Length, PUCHAR Value)
{
    (void)Lun, (void)Tag, (void)Length, (void)Value;
    return IFD_NOT_SUPPORTED;
}

RESPONSECODE IFDHPowerICC(DWORD Lun, DWORD Action, PUCHAR Atr, PDWORD AtrLength)
{
    struct reader *reader = find(Lun);
    *AtrLength = 0;
    if (reader == NULL) {
        return IFD_COMMUNICATION_ERROR;
    }
    if (Action == IFD_POWER_DOWN) {
        reader->has_power = false;
        record_end(&reader->contact.record);
        return IFD_SUCCESS;
    }
    if (!power_up(reader)) {
        return IFD_ERROR_POWER_ACTION;
    }
    memcpy(Atr, reader->atr, *AtrLength = reader->atr_count);
    return IFD_SUCCESS;
}

/* Writes the faults of the blocks so far, as words and numbers. Returns the number of characters. */
static int counts_of(const struct plan *plan, char *text, size_t room)
{
    const uint32_t *faults = plan->faults;
    return snprintf(text, room, "blocks %u lost %u damaged %u spoiled %u changed %u cut %u extended %u", plan->blocks,
                    faults[FAULT_LOST], faults[FAULT_DAMAGED], faults[FAULT_SPOILED], faults[FAULT_CHANGED],
                    faults[FAULT_CUT], faults[FAULT_EXTENDED]);
}

RESPONSECODE IFDHControl(DWORD Lun, DWORD dwControlCode, PUCHAR TxBuffer, DWORD TxLength, PUCHAR RxBuffer,
                         DWORD RxLength, LPDWORD pdwBytesReturned)
{
    struct reader *reader = find(Lun);
    char text[LONGEST_PLAN];
    int length;
    *pdwBytesReturned = 0;
    if (reader == NULL || (dwControlCode == CONTROL_PLAN && TxLength >= sizeof text)) {
        return IFD_COMMUNICATION_ERROR;
    }
    switch (dwControlCode) {
    case CM_IOCTL_GET_FEATURE_REQUEST:
        return IFD_SUCCESS; /* the reader has no features */
    case CONTROL_PLAN:
        memcpy(text, TxBuffer, TxLength);
        text[TxLength] = 0;
        return plan_read(&reader->contact.plan, text) ? IFD_SUCCESS : IFD_COMMUNICATION_ERROR;
    case CONTROL_COUNTS:
        length = counts_of(&reader->contact.plan, text, sizeof text);
        if ((DWORD)length > RxLength) {
            return IFD_ERROR_INSUFFICIENT_BUFFER;
        }
        memcpy(RxBuffer, text, *pdwBytesReturned = (DWORD)length);
        return IFD_SUCCESS;
    default:
        return IFD_ERROR_NOT_SUPPORTED;
    }
}

RESPONSECODE IFDHICCPresence(DWORD Lun)
{
    struct reader *reader = find(Lun);
    if (reader == NULL) {
        return IFD_COMMUNICATION_ERROR;
    }
    if (contact_is_made(&reader->contact)) {
        return IFD_ICC_PRESENT;
    }
    if (reader->contact.socket >= 0) {
        contact_break(&reader->contact); /* the card was taken out; the next call looks for another one */
        return IFD_ICC_NOT_PRESENT;
    }
    return contact_make(&reader->contact) ? IFD_ICC_PRESENT : IFD_ICC_NOT_PRESENT;
}
