// The numbers of scard.h. Made by tools/release/names from dist/api.json. Change neither by hand.
/** What a call of the library says. */
export const Status = Object.freeze({
    OK: 0,
    SHORT: 1,
    AT: 2,
    MEMORY: 3,
    ARGUMENT: 4,
    DUPLICATE: 5,
    MORE: 6,
});
/** What octets are decoded as. */
export const Codec = Object.freeze({
    ATR: 1,
    BLOCK: 2,
    CHAIN: 3,
    COMMAND: 4,
    RESPONSE: 5,
    TLV: 6,
    DOL: 7,
    HEX: 8,
});
/** Why an answer to reset has no usable parameters of T=1. */
export const T1Fault = Object.freeze({
    USABLE: 0,
    NO_T1: 1,
    RESERVED_IFSC: 2,
    CRC: 3,
});
/** What an R-block reports about the block that it answers. */
export const Fault = Object.freeze({
    FREE: 0,
    REDUNDANCY: 1,
    OTHER: 2,
});
/** What an S-block is about. */
export const About = Object.freeze({
    RESYNCH: 0,
    IFS: 1,
    ABORT: 2,
    WTX: 3,
});
/** The case of a command (ISO/IEC 7816-3, clause 12), with short or extended length fields. */
export const Shape = Object.freeze({
    CASE_1: 1,
    CASE_2_SHORT: 2,
    CASE_3_SHORT: 3,
    CASE_4_SHORT: 4,
    CASE_2_LONG: 5,
    CASE_3_LONG: 6,
    CASE_4_LONG: 7,
});
/** The class of two status bytes (ISO/IEC 7816-4, clause 5.1). */
export const StatusClass = Object.freeze({
    NORMAL: 1,
    WARNING: 2,
    EXECUTION: 3,
    CHECKING: 4,
    PROPRIETARY: 5,
    INVALID: 6,
});
/** How a value is cut or padded to the length that a data object list asks for. */
export const Format = Object.freeze({
    NUMERIC: 0,
    COMPRESSED_NUMERIC: 1,
    OTHER: 2,
});
/** What one or two octets are, for `note`. */
export const Noted = Object.freeze({
    STATUS: 1,
    INSTRUCTION: 2,
    CLASS: 3,
    PCB: 4,
    NAD: 5,
    TD: 6,
    TA2: 7,
    TAG: 8,
});
/** What an end or a session does next, or how it ended. */
export const TurnKind = Object.freeze({
    SEND: 0,
    DONE: 1,
    IFS_SET: 2,
    GIVEN_UP: 3,
    DEAD: 4,
    REFUSED_DEAD: 16,
    REFUSED_BUSY: 17,
    REFUSED_TOO_LONG: 18,
    REFUSED_RESERVED: 19,
    REFUSED_IDLE: 20,
    REFUSED_ORDER: 21,
    NO_END: 32,
    NO_ROOM: 33,
    SESSION_FAILED: 64,
    SESSION_USED_UP: 65,
    SESSION_NO_STATUS: 66,
    SESSION_ECHO: 67,
    SESSION_WAIT: 68,
});
/** What happened on the line of a session. */
export const Event = Object.freeze({
    SENT: 0,
    CAME: 1,
    GARBLED: 2,
    SILENT: 3,
    FAILED: 4,
});
/** An end of a line. */
export const End = Object.freeze({
    TERMINAL: 0,
    CARD: 1,
});
/** How octets reached the other end. */
export const Arrival = Object.freeze({
    UNSAID: 0,
    LOST: 1,
    CAME: 2,
});
/** What a judge says of a block. */
export const Judged = Object.freeze({
    PERMITTED: 0,
    DAMAGE: 1,
    UNSEEN: 2,
    DEVIATION: 3,
    ELSEWHERE: 4,
});
/** Whether the card owed a block and sent none. */
export const Silence = Object.freeze({
    NO: 0,
    POSSIBLE: 1,
    CERTAIN: 2,
});
/** Whether a block came too late or too early. */
export const OffTime = Object.freeze({
    NO: 0,
    LATE: 1,
    EARLY: 2,
});
/** A rule of T=1 that a judge knows. */
export const Rule = Object.freeze({
    NODE_ADDRESS: 1,
    CONTROL_OCTET: 2,
    LENGTH: 3,
    RESERVED_SIZE: 4,
    FIELD_SIZE: 5,
    TURN: 6,
    FOREIGN_REQUEST: 7,
    SEQUENCE_NUMBER: 8,
    BLOCK_DUE: 9,
    ACKNOWLEDGMENT_DUE: 10,
    ERROR_CODE: 11,
    REPEAT_DUE: 12,
    REPEATED_OCTETS: 13,
    CORRECTION_DUE: 14,
    REQUEST_DUE: 15,
    RESPONSE_DUE: 16,
    RESPONSE_OCTET: 17,
    UNASKED: 18,
    NO_CHAIN: 19,
    EARLY_RESYNCH: 20,
    TOO_MANY_REPEATS: 21,
    SILENCE: 22,
    CHECK_OCTET: 23,
});
/** The block that an end owed. */
export const Owed = Object.freeze({
    NOTHING_SAID: 0,
    NEW_MESSAGE: 1,
    NEXT_BLOCK: 2,
    ACKNOWLEDGMENT: 3,
    SAME_BLOCK: 4,
    CORRECTION: 5,
    REFUSAL: 6,
    SAME_REQUEST: 7,
    RESYNCH_RESPONSE: 8,
    IFS_RESPONSE: 9,
    ABORT_RESPONSE: 10,
    WTX_RESPONSE: 11,
    EITHER_BLOCK: 12,
    ANY_BLOCK: 13,
    MESSAGE_OR_CORRECTION: 14,
    MESSAGE_OR_REFUSAL: 15,
    ACKNOWLEDGMENT_OR_REFUSAL: 16,
});
/** The request of an end that waits for its response. */
export const Asked = Object.freeze({
    NOTHING: 0,
    IFS: 1,
    WTX: 2,
    ABORT: 3,
    RESYNCH: 4,
});
