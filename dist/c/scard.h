/* scard: the proved smart card stack for programs in C and C++.
 *
 * This header declares codecs for answers to reset, T=1 blocks and chains (ISO/IEC 7816-3), commands and responses
 * (ISO/IEC 7816-4) and data objects (EMV 4.3 Book 3). It also declares readers for octets that arrive in pieces, both
 * ends of a T=1 session, a framer, the line of an end, a session above its line, and a judge of the blocks on a line.
 * Link with libscard.a. docs/C.md says how to link, and what is proved.
 *
 * Units. A length is a number of octets. A place is the offset of an octet, and starts at 0. The length of an array of
 * structs counts structs. Input is a pointer and a length. An output buffer is a pointer and its room, the capacity. A
 * pointer may be null if its length or room is 0.
 *
 * Results. Most calls return a verdict: a status, a reason and a place. The comment of such a call lists the statuses
 * that it can return, without their prefix SCARD_. After the word Room it says how large the output buffer has to be.
 *
 * Memory. The caller owns the memory at every pointer that it passes. No call keeps a pointer after it returns. No call
 * reads or writes past a length. Input may not overlap a buffer that the same call writes. Each comment says what its
 * call writes, and when. In all other cases the call leaves the memory at its pointers unchanged.
 *
 * Threads. The library has no state of its own. Two threads may call it at the same time if each uses its own handles,
 * states and buffers. Only one call at a time may use a given handle, state or buffer. Another thread may use it for
 * the next call if the program orders the two calls, by a lock or by the start or join of a thread.
 */
#ifndef SCARD_H
#define SCARD_H

/* scard.c has no calls on handles. */
#define SCARD_NO_HANDLES

/* The version of this header. scard_version() returns the version of the linked library. If this header belongs to that
 * library, the two numbers are equal.
 */
#define SCARD_VERSION_MAJOR 1
#define SCARD_VERSION_MINOR 5
#define SCARD_VERSION_PATCH 0
#define SCARD_VERSION (SCARD_VERSION_MAJOR * 1000000 + SCARD_VERSION_MINOR * 1000 + SCARD_VERSION_PATCH)
#define SCARD_VERSION_TEXT "1.5.0"

#include <stdbool.h>
#include <stddef.h>
#include <stdint.h>

/* Marks a call whose result the program has to check. The compiler warns if the program ignores the result. To turn the
 * warning off, define SCARD_MUST_USE as nothing before you include this header.
 */
#ifndef SCARD_MUST_USE
#if defined(__cplusplus) && __cplusplus >= 201703L
#define SCARD_MUST_USE [[nodiscard]]
#elif defined(__GNUC__)
#define SCARD_MUST_USE __attribute__((warn_unused_result))
#else
#define SCARD_MUST_USE
#endif
#endif

/* The type of a number of octets or of a time in a struct. It has 64 bits on every machine, so the structs are the same
 * everywhere. If size_t has 64 bits too, the two are the same type.
 */
#if SIZE_MAX > 0xFFFFFFFFu
typedef size_t scard_size;
#elif defined(__GNUC__)
typedef uint64_t scard_size __attribute__((aligned(8)));
#else
typedef uint64_t scard_size;
#endif

#ifdef __cplusplus
extern "C" {
#endif

/* Returns the version of the library, in the form of SCARD_VERSION. */
uint32_t scard_version(void);

/* ---- verdicts ---- */

enum scard_status {
    /* Success. The call decoded a value of `place` octets, or wrote `place` octets. */
    SCARD_OK = 0,
    /* The input ends too early. It has `place` octets, and more octets could still complete a value. */
    SCARD_SHORT = 1,
    /* The input is invalid. `place` is the first octet after which no encoding can continue. `reason` says why. */
    SCARD_AT = 2,
    /* Out of memory. */
    SCARD_MEMORY = 3,
    /* An argument is out of range, and `place` is 0. Or a buffer is too small, and `place` is the room needed. */
    SCARD_ARGUMENT = 4,
    /* Two known values have the same tag. */
    SCARD_DUPLICATE = 5,
    /* A reader consumed the whole piece, which has `place` octets, and needs more. */
    SCARD_MORE = 6
};

struct scard_verdict {
    uint8_t status; /* enum scard_status */
    uint8_t reason; /* the reason, from the codec's enum below; 0 unless the status is SCARD_AT */
    scard_size place; /* depends on the status, so check the status first. SCARD_OK: the number of octets written or
                         consumed. SCARD_ARGUMENT: the room needed. The call wrote nothing, except that the
                         arrays of scard_tlv_parts and scard_dol_entries are unspecified then */
};

/* The codecs, as numbers for scard_reason_name. */
enum scard_codec {
    SCARD_CODEC_ATR = 1,
    SCARD_CODEC_BLOCK = 2,
    SCARD_CODEC_CHAIN = 3,
    SCARD_CODEC_COMMAND = 4,
    SCARD_CODEC_RESPONSE = 5,
    SCARD_CODEC_TLV = 6,
    SCARD_CODEC_DOL = 7,
    SCARD_CODEC_HEX = 8
};

enum scard_atr_reason {
    SCARD_ATR_BAD_TS = 1,   /* TS is neither 3B nor 3F */
    SCARD_ATR_TOO_LONG = 2, /* with this TD, every possible answer has more than 33 octets */
    SCARD_ATR_BAD_TCK = 3   /* TCK is wrong */
};

enum scard_block_reason {
    SCARD_BLOCK_BAD_PCB = 1,  /* PCB isn't one of the 18 valid values */
    SCARD_BLOCK_BAD_LEN = 2,  /* LEN is FF, or wrong for this R- or S-block */
    SCARD_BLOCK_OVER_IFS = 3, /* LEN of an I-block exceeds the information size */
    SCARD_BLOCK_BAD_IFS = 4,  /* the octet of an IFS request or response is 00 or FF */
    SCARD_BLOCK_BAD_LRC = 5   /* LRC is wrong */
};

enum scard_chain_reason {
    SCARD_CHAIN_BAD_NAD = 1,         /* NAD is not 00 */
    SCARD_CHAIN_BAD_PCB = 2,         /* no block has this PCB */
    SCARD_CHAIN_NOT_INFO = 3,        /* the block is an R- or S-block */
    SCARD_CHAIN_BAD_SEQUENCE = 4,    /* the I-block has the wrong number */
    SCARD_CHAIN_TOO_MANY_BLOCKS = 5, /* the last block that a chain may have has M=1 */
    SCARD_CHAIN_BAD_LEN = 6,         /* LEN is FF */
    SCARD_CHAIN_OVER_IFS = 7,        /* LEN exceeds the information size */
    SCARD_CHAIN_TOO_LONG = 8,        /* the message would exceed its limit */
    SCARD_CHAIN_BAD_LRC = 9          /* LRC is wrong */
};

enum scard_command_reason {
    SCARD_COMMAND_TRAILING = 1 /* an octet follows the last one that the length fields allow */
};

enum scard_response_reason {
    SCARD_RESPONSE_TOO_LONG = 1 /* an octet follows the last one of the longest response */
};

enum scard_tlv_reason {
    SCARD_TLV_TOO_DEEP = 1,    /* an object begins inside an object of depth 16 */
    SCARD_TLV_TAG_SECOND = 2,  /* the low seven bits of the second tag octet are all 0 */
    SCARD_TLV_TAG_LONG = 3,    /* the tag would need a fourth octet */
    SCARD_TLV_LENGTH_FORM = 4, /* a length field begins with 80, or with 85 to FF */
    SCARD_TLV_OVERRUN = 5,     /* the octets still needed pass the end of the open object */
    SCARD_TLV_TOO_LONG = 6     /* the octets still needed pass the limit of the whole forest */
};

enum scard_dol_reason {
    SCARD_DOL_TAG_ZERO = 1,   /* a tag begins with 00 */
    SCARD_DOL_TAG_SECOND = 2, /* the low seven bits of the second tag octet are all 0 */
    SCARD_DOL_TAG_LONG = 3    /* the tag would need a fourth octet */
};

enum scard_hex_reason {
    SCARD_HEX_DIGIT = 1, /* a character isn't a hexadecimal digit */
    SCARD_HEX_ODD = 2    /* the number of digits is odd; `place` is the length of the text */
};

/* ---- names ---- */

/* A constant string. The library owns it, so don't free it. */
struct scard_text {
    const char *text; /* terminated by a 0 */
    scard_size size;  /* the number of its octets, including the terminating 0 */
};

/* Write the name of a number to *out. For an unknown number the name is "". The library owns the text.
 *
 * - scard_status_text: of an enum scard_status ("SHORT").
 * - scard_turn_text: of an enum scard_turn_kind ("SEND") or an enum scard_session_next_kind ("SESSION_FAILED").
 * - scard_reason_text: of an enum scard_codec and a reason of that codec ("BadTck").
 * - scard_status_class_text: of an enum scard_status_class ("WARNING").
 * - scard_shape_text: of an enum scard_shape ("CASE_2_SHORT").
 * - scard_s_block_text: of an enum scard_block_about ("RESYNCH").
 */
void scard_status_text(uint8_t status, struct scard_text *out);
void scard_turn_text(uint8_t kind, struct scard_text *out);
void scard_reason_text(uint8_t codec, uint8_t reason, struct scard_text *out);
void scard_status_class_text(uint8_t kind, struct scard_text *out);
void scard_shape_text(uint8_t shape, struct scard_text *out);
void scard_s_block_text(uint8_t about, struct scard_text *out);

/* Writes to *out a sentence on a reason of a codec, to show to people: what is wrong with the octet at `place` of a
 * verdict AT ("TCK is wrong."). It is the comment on the reason above. For an unknown number the sentence is "". The
 * library owns the text.
 */
void scard_reason_sentence_text(uint8_t codec, uint8_t reason, struct scard_text *out);

/* Returns how many more octets must come at least, if octets end early: a value of the codec begins with them, no such
 * value ends before so many more have come, and some value ends then. `codec` is an enum scard_codec. Call it after a
 * verdict SHORT on the octets, or after MORE with all octets that a reader took. A terminal that reads a serial port can
 * then request so many octets and never requests one that doesn't belong to the value.
 *
 * - It is 0 if the octets are a whole value, and if `codec` is SCARD_CODEC_HEX or no codec.
 * - It doesn't check the octets. If a verdict on them is AT, the number has no meaning. For SCARD_CODEC_TLV it is 0 then.
 * - The sizes of a call, such as `ifs`, don't change it.
 */
size_t scard_least(uint8_t codec, const uint8_t *octets, size_t count);

/* Return the same texts as C strings, for C and C++. The library owns the strings, so don't free them. For an unknown
 * number the text is "".
 */
static inline const char *scard_status_name(int status)
{
    struct scard_text name;
    scard_status_text((uint8_t)(status < 0 || status > 255 ? 255 : status), &name);
    return name.text;
}

static inline const char *scard_turn_name(int kind)
{
    struct scard_text name;
    scard_turn_text((uint8_t)(kind < 0 || kind > 255 ? 255 : kind), &name);
    return name.text;
}

static inline const char *scard_status_class_name(int kind)
{
    struct scard_text name;
    scard_status_class_text((uint8_t)(kind < 0 || kind > 255 ? 255 : kind), &name);
    return name.text;
}

static inline const char *scard_shape_name(int shape)
{
    struct scard_text name;
    scard_shape_text((uint8_t)(shape < 0 || shape > 255 ? 255 : shape), &name);
    return name.text;
}

static inline const char *scard_s_block_name(int about)
{
    struct scard_text name;
    scard_s_block_text((uint8_t)(about < 0 || about > 255 ? 255 : about), &name);
    return name.text;
}

static inline const char *scard_reason_name(int codec, int reason)
{
    struct scard_text name;
    int is_number = codec >= 0 && codec <= 255 && reason >= 0 && reason <= 255;
    scard_reason_text((uint8_t)(is_number ? codec : 0), (uint8_t)(is_number ? reason : 0), &name);
    return name.text;
}

static inline const char *scard_reason_sentence(int codec, int reason)
{
    struct scard_text sentence;
    int is_number = codec >= 0 && codec <= 255 && reason >= 0 && reason <= 255;
    scard_reason_sentence_text((uint8_t)(is_number ? codec : 0), (uint8_t)(is_number ? reason : 0), &sentence);
    return sentence.text;
}

/* ---- explanations in words ---- */

/* The kinds of octets that scard_note_of explains. It reads `first` for every kind, and `second` for a kind of two
 * octets.
 */
enum scard_noted {
    SCARD_NOTED_STATUS = 1,      /* SW1 and SW2 of a response (ISO/IEC 7816-4:2005, clause 5.1.3) */
    SCARD_NOTED_INSTRUCTION = 2, /* CLA and INS of a command (clause 5.1.2) */
    SCARD_NOTED_CLASS = 3,       /* CLA of a command (clause 5.1.1) */
    SCARD_NOTED_PCB = 4,         /* PCB, and the first octet of the information field or 0 (ISO/IEC 7816-3, clause
                                    11.3.2.2) */
    SCARD_NOTED_NAD = 5,         /* NAD (clause 11.3.2.1) */
    SCARD_NOTED_TD = 6,          /* the protocol that a TD indicates, 0 to 15 (clause 8.2.3) */
    SCARD_NOTED_TA2 = 7,         /* TA2 (clause 8.3) */
    SCARD_NOTED_TAG = 8          /* the first octet of a tag (ISO/IEC 7816-4:2005, clause 5.2.2.1) */
};

/* An explanation. Its text is `before`, then the number in decimal digits if has_number is 1, then `after`. The library
 * owns both strings, and neither ends with a 0. Without a number, `number` and `has_number` are 0, and `after` is
 * empty.
 */
struct scard_note {
    const char *before;
    scard_size before_size;
    const char *after;
    scard_size after_size;
    uint32_t number;
    uint8_t has_number;
};

/* Writes an explanation of one or two octets to *out. `about` is an enum scard_noted. For example, status bytes give
 * "file or application not found", and a class gives "no secure messaging, channel " and a number. Both strings are
 * empty if the standard has no words for these octets, or if `about` is unknown.
 */
void scard_note_of(uint8_t about, uint8_t first, uint8_t second, struct scard_note *out);

/* Returns true if the octets are text, which can be shown beside their hexadecimal digits: 1 to 40 octets, each 20 to
 * 7E.
 */
bool scard_is_text(const uint8_t *octets, size_t count);

/* ---- octets ---- */

/* Returns the longitudinal redundancy check of `count` octets: their exclusive-or (ISO/IEC 7816-3, clause 11.3). If
 * `count` is 0, the result is 0.
 */
uint8_t scard_lrc(const uint8_t *octets, size_t count);

/* Encodes `count` octets as upper-case hexadecimal text, two digits each, and writes it to `text`, without a
 * terminating 0. Room: 2 * count. Returns OK, ARGUMENT.
 */
SCARD_MUST_USE
struct scard_verdict scard_hex_encode(const uint8_t *octets, size_t count, char *text, size_t room);

/* Decodes hexadecimal text, and writes its octets to `out`. The digits may be upper or lower case. `length` counts
 * characters. Room: length / 2. AT: `place` is the first character that isn't a digit. If all are digits but their
 * number is odd, `place` is the end of the text (enum scard_hex_reason). Returns OK, AT, ARGUMENT.
 */
SCARD_MUST_USE
struct scard_verdict scard_hex_decode(const char *text, size_t length, uint8_t *out, size_t room);

/* ---- answers to reset (ISO/IEC 7816-3, clause 8) ---- */

/* The interface bytes TA, TB and TC. A byte is present if its `has_` field isn't 0. */
struct scard_interface {
    uint8_t has_ta, ta;
    uint8_t has_tb, tb;
    uint8_t has_tc, tc;
};

/* A TD byte: the protocol T that it indicates, 0 to 15, and the interface bytes that follow it. */
struct scard_indicated {
    uint8_t protocol;
    struct scard_interface bytes;
};

struct scard_atr {
    uint8_t convention;                    /* 0: direct (TS is 3B); any other value: inverse (TS is 3F) */
    struct scard_interface first;          /* TA1, TB1, TC1 */
    uint8_t indicated_count;               /* the number of TDs in `indicated`, at most 31 */
    struct scard_indicated indicated[31];
    uint8_t historical_count;              /* the number of historical bytes, at most 15 */
    uint8_t historical[15];
    uint8_t has_tck, tck;                  /* decoding writes them; no other call reads them */
};

/* Checks whether the octets begin with a valid answer to reset. The call ignores octets after the answer. At OK,
 * `place` is the length of the answer. Returns OK, SHORT, AT (enum scard_atr_reason).
 */
SCARD_MUST_USE
struct scard_verdict scard_atr_check(const uint8_t *octets, size_t count);

/* Decodes the answer to reset at the start of the octets. The verdict is that of scard_atr_check. At OK the call writes
 * the answer to *out.
 */
SCARD_MUST_USE
struct scard_verdict scard_atr_decode(const uint8_t *octets, size_t count, struct scard_atr *out);

/* Encodes an answer to reset, and writes it to `out`. Room: at most 33. ARGUMENT with place 0: a count is too large, a
 * protocol is above 15, or the answer would have more than 33 octets. Returns OK, ARGUMENT.
 */
SCARD_MUST_USE
struct scard_verdict scard_atr_encode(const struct scard_atr *atr, uint8_t *out, size_t room);

/* The results of scard_atr_t1_params. Its other result is SCARD_ARGUMENT: the struct holds no valid answer. */
enum scard_t1_fault {
    SCARD_T1_USABLE = 0,        /* success: the call wrote *out; otherwise *out is unchanged */
    SCARD_T1_NO_T1 = 1,         /* the answer doesn't offer T=1 */
    SCARD_T1_RESERVED_IFSC = 2, /* IFSC is 00 or FF */
    SCARD_T1_CRC = 3            /* the answer asks for the CRC, which this stack doesn't support */
};

struct scard_t1 {
    uint8_t ifsc; /* IFSC, the information field size of the card, 1 to 254 octets */
    uint8_t bwi;  /* BWI, the index of its block waiting time, 0 to 15 */
    uint8_t cwi;  /* CWI, the index of its character waiting time, 0 to 15 */
};

/* Writes the T=1 parameters of an answer to reset to *out (ISO/IEC 7816-3, clause 11.4). A parameter that the answer
 * leaves out gets its default: 32 for IFSC, 4 for BWI and 13 for CWI. Returns an enum scard_t1_fault, or
 * SCARD_ARGUMENT.
 */
SCARD_MUST_USE
uint8_t scard_atr_t1_params(const struct scard_atr *atr, struct scard_t1 *out);

struct scard_rates {
    uint16_t fi; /* 0 if reserved */
    uint16_t di; /* 0 if reserved */
};

/* Writes the integers Fi and Di of TA1 to *out (clause 8.3). Without a TA1 they are 372 and 1. Returns SCARD_OK, or
 * SCARD_ARGUMENT if the struct holds no valid answer.
 */
SCARD_MUST_USE
uint8_t scard_atr_rates(const struct scard_atr *atr, struct scard_rates *out);

/* Returns the character waiting time CWT in etu: the longest time between the starts of two characters of one block
 * (clause 11.4). It is 11 + 2^cwi, so 12 to 32,779.
 *
 * This call and the next compute exact results, without rounding. The result is 0 if the struct holds no valid
 * parameters: `ifsc` is 0 or 255, or an index is above 15. An elementary time unit, etu, is `fi` / `di` cycles of the
 * card's clock. `fi` and `di` are the integers in use. They are 372 and 1 until both ends agree on others. docs/C.md
 * says how to convert the times to microseconds.
 */
uint32_t scard_t1_cwt(const struct scard_t1 *params);

/* Returns the block waiting time BWT: the longest time from the start of the last character that the card received to
 * the start of the first one that it sends back (clause 11.4). The unit is a clock cycle divided by `di`, so an etu has
 * `fi` units. BWT is 11 * fi + 2^bwi * 960 * 372 * di.
 */
uint64_t scard_t1_bwt(const struct scard_t1 *params, uint16_t fi, uint16_t di);

/* ---- blocks of T=1 (ISO/IEC 7816-3, clause 11.3) ---- */

/* The largest number of octets of a block. A buffer of this size holds any block. */
#define SCARD_BLOCK_ROOM 258

struct scard_block {
    uint8_t nad;
    uint8_t pcb;
    uint8_t inf_place; /* the offset of the information field in the input: 3 */
    uint8_t inf_len;   /* its length */
};

/* What an R-block reports about the block that it answers. */
enum scard_block_fault { SCARD_FAULT_FREE = 0, SCARD_FAULT_REDUNDANCY = 1, SCARD_FAULT_OTHER = 2 };

/* The kind of an S-block. IFS carries one octet, 1 to 254. WTX carries one octet of any value. The others carry none.
 */
enum scard_block_about { SCARD_S_RESYNCH = 0, SCARD_S_IFS = 1, SCARD_S_ABORT = 2, SCARD_S_WTX = 3 };

/* Decodes the block at the start of the octets, and at OK writes it to *out. `ifs` is the largest information field of
 * an I-block, 1 to 254 octets. At OK, `place` is the length of the block. The call doesn't read the octets after it.
 * Returns OK, SHORT, AT (enum scard_block_reason), ARGUMENT (`ifs` is 0 or 255).
 */
SCARD_MUST_USE
struct scard_verdict scard_block_decode(const uint8_t *octets, size_t count, uint8_t ifs, struct scard_block *out);

/* Encode an I-block, an R-block, or an S-block that requests or responds, and write it to `out`. `nad` is the node
 * address, any octet. `ns` and `nr` are 0 or 1. `more` says that more blocks of the chain follow. `fault` is an enum
 * scard_block_fault, and `about` an enum scard_block_about. `inf` is the information field, at most 254 octets. Room:
 * SCARD_BLOCK_ROOM always suffices. The block itself needs the octets of its field and 4 more. ARGUMENT with place 0:
 * there is no block with these values. Return OK, ARGUMENT.
 */
SCARD_MUST_USE
struct scard_verdict scard_block_i(uint8_t nad, uint8_t ns, bool more, const uint8_t *inf, size_t count,
                                   uint8_t *out, size_t room);
SCARD_MUST_USE
struct scard_verdict scard_block_r(uint8_t nad, uint8_t nr, uint8_t fault, uint8_t *out, size_t room);
SCARD_MUST_USE
struct scard_verdict scard_block_s_request(uint8_t nad, uint8_t about, const uint8_t *inf, size_t count,
                                           uint8_t *out, size_t room);
SCARD_MUST_USE
struct scard_verdict scard_block_s_response(uint8_t nad, uint8_t about, const uint8_t *inf, size_t count,
                                            uint8_t *out, size_t room);

/* Encodes a block of any kind. `pcb` is its control octet, one of 18 values. The rest is as for the calls above. */
SCARD_MUST_USE
struct scard_verdict scard_block_encode(uint8_t nad, uint8_t pcb, const uint8_t *inf, size_t count,
                                        uint8_t *out, size_t room);

/* The kind of a block, by its PCB. */
enum scard_block_kind {
    SCARD_BLOCK_NONE = 0, /* no block has this PCB */
    SCARD_BLOCK_I = 1,
    SCARD_BLOCK_R = 2,
    SCARD_BLOCK_S_REQUEST = 3,
    SCARD_BLOCK_S_RESPONSE = 4
};

/* The parts of a PCB. A part that the kind of block doesn't have is 0. */
struct scard_pcb {
    uint8_t kind;   /* enum scard_block_kind */
    uint8_t number; /* N(S) of an I-block, or N(R) of an R-block: 0 or 1 */
    uint8_t more;   /* I-block: 1 if more blocks of the chain follow */
    uint8_t fault;  /* R-block: enum scard_block_fault */
    uint8_t about;  /* S-block: enum scard_block_about */
};

/* Writes the parts of the control octet `pcb` to *out (ISO/IEC 7816-3, clause 11.3.2.2). */
void scard_block_parts(uint8_t pcb, struct scard_pcb *out);

/* ---- chains of I-blocks (ISO/IEC 7816-3, clause 11.6) ---- */

/* Encodes one block of a message's chain, and writes it to `out`. The block carries the octets of the message from
 * `start` on: `ifs` of them, or the rest if fewer are left. If octets are left after the block, the block says that
 * more blocks follow. `ifs` is 1 to 254 octets. `ns` is the number of the block, 0 or 1. Room: SCARD_BLOCK_ROOM.
 * ARGUMENT with place 0: `ifs` is 0 or 255, `ns` isn't 0 or 1, or `start` is past the message. Returns OK, ARGUMENT.
 */
SCARD_MUST_USE
struct scard_verdict scard_chain_block(const uint8_t *message, size_t count, size_t start, uint8_t ifs, uint8_t ns,
                                       uint8_t *out, size_t room);

/* Encodes the whole chain of a message, and writes its blocks to `out`. The message has at most 131,072 octets. Each
 * information field has `ifs` octets, 1 to 254, except the last, which may have fewer. `ns` is the number of the first
 * block, 0 or 1. Room: the message, and 4 octets for each block. The empty message has one block. ARGUMENT with place
 * 0: an argument is out of its range. Returns OK, ARGUMENT.
 */
SCARD_MUST_USE
struct scard_verdict scard_chain_cut(const uint8_t *message, size_t count, uint8_t ifs, uint8_t ns,
                                     uint8_t *out, size_t room);

/* ---- commands and responses (ISO/IEC 7816-3, clause 12; ISO/IEC 7816-4, clause 5.1) ---- */

enum scard_shape {
    SCARD_CASE_1 = 1,       /* no body after the header */
    SCARD_CASE_2_SHORT = 2, /* Le, 1 to 256 */
    SCARD_CASE_3_SHORT = 3, /* a data field of 1 to 255 octets */
    SCARD_CASE_4_SHORT = 4, /* both */
    SCARD_CASE_2_LONG = 5,  /* Le, 1 to 65,536 */
    SCARD_CASE_3_LONG = 6,  /* a data field of 1 to 65,535 octets */
    SCARD_CASE_4_LONG = 7   /* both */
};

struct scard_command {
    uint8_t cla, ins, p1, p2;
    uint8_t shape;  /* enum scard_shape */
    uint8_t has_le; /* 1 if the command has an Le field, else 0 */
    uint32_t le;    /* the largest number of octets expected in the response; 0 without an Le field */
    scard_size data_place; /* the offset of the data field in the input */
    scard_size data_len;   /* its length */
};

struct scard_response {
    uint8_t sw1, sw2;
    scard_size data_len; /* the length of the data field, which is at the start of the input */
};

/* Decode a command or a response, which has to take all the octets, and at OK write it to *out. Return OK, SHORT, AT
 * (enum scard_command_reason, enum scard_response_reason).
 */
SCARD_MUST_USE
struct scard_verdict scard_command_decode(const uint8_t *octets, size_t count, struct scard_command *out);
SCARD_MUST_USE
struct scard_verdict scard_response_decode(const uint8_t *octets, size_t count, struct scard_response *out);

/* Encodes a command, and writes it to `out`. The call takes the header, the shape and Le from the struct, and ignores
 * the other fields of the struct. `data` is the caller-owned data field. If the shape has no Le, set `le` to 0. If it
 * has no data field, set `count` to 0. Room: at most the data field and 9. ARGUMENT with place 0: no length field can
 * express these values. Returns OK, ARGUMENT.
 */
SCARD_MUST_USE
struct scard_verdict scard_command_encode(const struct scard_command *command, const uint8_t *data, size_t count,
                                          uint8_t *out, size_t room);

/* Encodes a response, and writes it to `out`. The data field has at most 65,536 octets. Room: the data field and 2.
 * Returns OK, ARGUMENT.
 */
SCARD_MUST_USE
struct scard_verdict scard_response_encode(const uint8_t *data, size_t count, uint8_t sw1, uint8_t sw2,
                                           uint8_t *out, size_t room);

enum scard_status_class {
    SCARD_CLASS_NORMAL = 1,
    SCARD_CLASS_WARNING = 2,
    SCARD_CLASS_EXECUTION = 3,
    SCARD_CLASS_CHECKING = 4,
    SCARD_CLASS_PROPRIETARY = 5,
    SCARD_CLASS_INVALID = 6
};

/* Returns the class of two status bytes, an enum scard_status_class (ISO/IEC 7816-4, clause 5.1). */
uint8_t scard_status_class(uint8_t sw1, uint8_t sw2);

/* ---- data objects (EMV 4.3 Book 3, Annex B and clause 5.4) ---- */

/* The largest number of octets of a forest. A forest is a list of data objects and filler octets 00. */
#define SCARD_TLV_LARGEST 1048576

/* Checks whether the octets are a valid forest of at most `max` octets. `max` is at most SCARD_TLV_LARGEST. Returns OK,
 * SHORT, AT (enum scard_tlv_reason), ARGUMENT (`max` is larger).
 */
SCARD_MUST_USE
struct scard_verdict scard_tlv_check(const uint8_t *octets, size_t count, size_t max);

/* Writes the shortest encoding of a forest to `out`: the same objects without fillers, each length in its shortest
 * form. `max` is as in scard_tlv_check. Room: `count` suffices. The call allocates nothing. It makes two passes over
 * the octets, and moves the octets of an object once for each object that contains it. Returns OK, SHORT, AT, ARGUMENT.
 */
SCARD_MUST_USE
struct scard_verdict scard_tlv_tidy(const uint8_t *octets, size_t count, size_t max, uint8_t *out, size_t room);

/* A tag: its octets, padded with 0, and their number, 1 to 3. If a tag is an argument, the library ignores the octets
 * after `count`, and reads a count above 3 as 3.
 */
struct scard_tag {
    uint8_t octets[3];
    uint8_t count;
};

/* An object of a forest. Its value is `len` octets of the forest, starting at the offset `place`. The value of a
 * constructed object consists of the objects inside it.
 */
struct scard_part {
    uint8_t depth;          /* 1 for an outermost object, at most 16 */
    uint8_t is_constructed; /* 1 if the object is constructed, else 0 */
    uint8_t len_octets;     /* the number of octets of its length field, 1 to 5 */
    struct scard_tag tag;
    scard_size place;
    scard_size len;
};

/* Lists the objects of a forest in the array `parts`. Each object comes before the objects inside it; fillers aren't
 * listed. `max` is as in scard_tlv_check. At OK, `place` is the number of objects. Room, in structs: half of `count`
 * suffices. If the room is too small, `place` is the number of structs needed. The call writes while it reads, so the
 * contents of the array are unspecified unless the status is OK. The call allocates nothing. Returns OK, SHORT, AT,
 * ARGUMENT.
 */
SCARD_MUST_USE
struct scard_verdict scard_tlv_parts(const uint8_t *octets, size_t count, size_t max,
                                     struct scard_part *parts, size_t room);

/* Finds the first object on a path of tags. Returns its index in `parts`, or `count` if there is no such object. A path
 * of one tag matches the first outermost object with that tag. With a longer path, the call tries the outermost objects
 * that have the first tag, in order, and searches directly inside each for the rest of the path. `parts` has to be the
 * list of one forest. The call allocates nothing.
 */
size_t scard_tlv_first(const struct scard_part *parts, size_t count, const struct scard_tag *path, size_t tags);

/* Writes the header of a data object to `out`: its tag, and the shortest length field for a value of `len` octets
 * (ISO/IEC 8825-1, clause 8.1). The octets of the value come after it. Those of a constructed object are the objects
 * inside it. `len` is at most SCARD_TLV_LARGEST. Room: at most 7. ARGUMENT with place 0: `tag` is no tag, or `len` is
 * larger. Returns OK, ARGUMENT.
 */
SCARD_MUST_USE
struct scard_verdict scard_tlv_header(const struct scard_tag *tag, size_t len, uint8_t *out, size_t room);

/* Checks whether the octets are a valid data object list (EMV 4.3 Book 3, clause 5.4): tags, and a length octet after
 * each. The call allocates nothing. Returns OK, SHORT, AT (enum scard_dol_reason).
 */
SCARD_MUST_USE
struct scard_verdict scard_dol_check(const uint8_t *octets, size_t count);

/* An entry of a data object list. */
struct scard_entry {
    struct scard_tag tag;
    uint8_t len; /* the length of the value that the list requests, in octets */
};

/* Lists the entries of a data object list in the array `entries`, in their order. At OK, `place` is the number of
 * entries. Room, in structs: half of `count` suffices. If the room is too small, `place` is the number of structs
 * needed. The call writes while it reads, so the contents of the array are unspecified unless the status is OK. The
 * call allocates nothing. Returns OK, SHORT, AT, ARGUMENT.
 */
SCARD_MUST_USE
struct scard_verdict scard_dol_entries(const uint8_t *octets, size_t count, struct scard_entry *entries, size_t room);

/* Writes an entry of a data object list to `out`: its tag, and the length of the value that the list requests. Room: at
 * most 4. ARGUMENT with place 0: `tag` is no tag. Returns OK, ARGUMENT.
 */
SCARD_MUST_USE
struct scard_verdict scard_dol_entry(const struct scard_tag *tag, uint8_t len, uint8_t *out, size_t room);

/* How scard_dol_fill cuts or pads a value to the length that a list requests. */
enum scard_format {
    SCARD_NUMERIC = 0,            /* cuts the leftmost octets; pads with leading 00 */
    SCARD_COMPRESSED_NUMERIC = 1, /* cuts the rightmost octets; pads with trailing FF */
    SCARD_OTHER = 2               /* cuts the rightmost octets; pads with trailing 00 */
};

/* The value of a tag. The caller owns the octets at `value`. */
struct scard_known {
    struct scard_tag tag;
    uint8_t format; /* enum scard_format */
    const uint8_t *value;
    scard_size count;
};

/* Writes to `out` the octets that a data object list requests. For each entry the call writes the known value of its
 * tag, cut or padded to the entry's length. It writes 00s if the tag is that of a constructed object, or has no known
 * value. `known_count` counts structs. Room: the sum of the lengths in the list, at most 255 for each two octets of the
 * list. The call allocates nothing. It compares all pairs of known values, and searches them one by one for each entry.
 *
 * AT: the list is invalid (enum scard_dol_reason). DUPLICATE: two known values have the same tag, even if the list
 * doesn't contain that tag. ARGUMENT with place 0: a known tag is invalid, a format is above 2, or the list has more
 * than 2^48 octets. Returns OK, SHORT, AT, ARGUMENT, DUPLICATE.
 */
SCARD_MUST_USE
struct scard_verdict scard_dol_fill(const uint8_t *list, size_t count, const struct scard_known *known,
                                    size_t known_count, uint8_t *out, size_t room);

/* ---- both ends of a T=1 session (ISO/IEC 7816-3, clause 11.6) ---- */

/* A handle. It holds a terminal, a card or a reader, or is empty. Initialize it with SCARD_HANDLE_EMPTY. scard_close
 * frees what it holds. Never copy a handle, and change it only by these calls.
 *
 * All calls on handles, and no others, need functions for memory. A library without memory lacks them, such as
 * dist/c/scard.c. If SCARD_NO_HANDLES is defined, as in the header beside that file, this header doesn't declare them.
 */
struct scard_handle {
    void *at;
    bool is_full;
};

#define SCARD_HANDLE_EMPTY {NULL, false}

enum scard_turn_kind {
    /* Send the first `count` octets of the buffer, and wait for the other end. */
    SCARD_SEND = 0,
    /* Terminal: the answer is complete. Card: its host has to reply to a command. scard_message returns the answer or
     * the command. */
    SCARD_DONE = 1,
    /* Terminal: the card accepted the information size. */
    SCARD_IFS_SET = 2,
    /* Terminal: both ends resynchronized, and the terminal gave up the exchange or the IFS request. */
    SCARD_GIVEN_UP = 3,
    /* Terminal: the card no longer answers. */
    SCARD_DEAD = 4,
    /* The end refused the call, and nothing changed. */
    SCARD_REFUSED_DEAD = 16,     /* the card no longer answers */
    SCARD_REFUSED_BUSY = 17,     /* an exchange or an IFS request is in progress */
    SCARD_REFUSED_TOO_LONG = 18, /* a command has more than 65,544 octets, a reply has more than 65,538, or either has
                                    more octets than its lent buffer */
    SCARD_REFUSED_RESERVED = 19, /* the size is 0 or 255, which are reserved */
    SCARD_REFUSED_IDLE = 20,     /* the terminal isn't waiting for a block */
    SCARD_REFUSED_ORDER = 21,    /* it isn't the turn of the card's host; or it is, and a block came */
    SCARD_NO_END = 32,           /* the handle holds no such end, or the lent state is invalid */
    SCARD_NO_ROOM = 33           /* the buffer has fewer than SCARD_BLOCK_ROOM octets */
};

struct scard_turn {
    uint8_t kind; /* enum scard_turn_kind */
    uint8_t wait; /* terminal, SCARD_SEND: the timeout for the answer, in block waiting times. It is 1, or the
                     multiple that the terminal granted to the card, 1 to 255. 0: there is no timeout, since a card
                     waits for its terminal without limit, or since the turn sends nothing */
    scard_size count; /* SCARD_SEND: the number of octets to send. SCARD_NO_ROOM: the room needed. Otherwise 0 */
};

#ifndef SCARD_NO_HANDLES

/* Open a terminal or a card in a handle. `ifsc`, `bwi` and `cwi` are the T=1 parameters of the card: `ifsc` is 1 to 254
 * octets, `bwi` and `cwi` are 0 to 15. An end measures no time, so the calls only check the range of the two indexes.
 *
 * These calls allocate all the memory of an end, some 131 KB. The handle owns it until scard_close. The calls free what
 * the handle held before. If it already holds an end of the same kind, they overwrite that end, reuse its memory and
 * allocate nothing. Unless the status is OK, the handle is unchanged. Return OK, MEMORY, ARGUMENT (`ifsc` is 0 or 255,
 * or an index is above 15).
 *
 * Open a terminal at each reset of its card, and at no other time. A terminal and a card begin together. If you open a
 * terminal while its card goes on, the terminal doesn't know the number of the next block. The card may then take the
 * first command for a repeat of the last one. Then the card doesn't pass that command to its host, and sends the last
 * answer again, which looks like a good exchange. So keep one terminal until the next reset of its card.
 */
SCARD_MUST_USE
struct scard_verdict scard_terminal_open(struct scard_handle *handle, uint8_t ifsc, uint8_t bwi, uint8_t cwi);
SCARD_MUST_USE
struct scard_verdict scard_card_open(struct scard_handle *handle, uint8_t ifsc, uint8_t bwi, uint8_t cwi);

/* Frees what the handle holds, and leaves the handle empty. The handle may be empty already. Before the call frees the
 * memory of an end, it overwrites the buffers of that end. Before it frees a receiver of chains, it overwrites the
 * message of that receiver.
 */
void scard_close(struct scard_handle *handle);

/* Drive an end. Each call returns a turn, which says what to do next (enum scard_turn_kind). `out` is a caller-owned
 * buffer of at least SCARD_BLOCK_ROOM octets. If the turn is SCARD_SEND, the call wrote a block to it. Otherwise `out`
 * is unchanged. The calls borrow `command`, `reply` and `octets` until they return. A refused call changes nothing. The
 * list names in parentheses the SCARD_REFUSED_ kinds with which each call may be refused. Every call may also return
 * SCARD_NO_END and SCARD_NO_ROOM.
 *
 * - scard_terminal_transmit: begins an exchange with a command of at most 65,544 octets (DEAD, BUSY, TOO_LONG).
 * - scard_terminal_received: passes to the terminal what the line delivered as one block, valid or not (DEAD, IDLE).
 * - scard_terminal_quiet: reports a timeout: nothing came within `wait` times BWT, which this library doesn't measure.
 *   Never call it earlier: all promises about the two ends rest on their taking turns (DEAD, IDLE).
 * - scard_terminal_ask_ifs: tells the card the largest field that the terminal accepts, `size`, 1 to 254 octets (DEAD,
 *   BUSY, RESERVED).
 * - scard_card_received: passes to the card what the line delivered as one block, valid or not (ORDER).
 * - scard_card_reply: passes to the card the reply of its host, at most 65,538 octets (ORDER, TOO_LONG).
 * - scard_card_more_time: asks the terminal for `multiple` block waiting times, any octet (ORDER).
 * - scard_card_ask_ifs: tells the terminal the largest field that the card accepts, `size`, 1 to 254 octets (ORDER,
 *   RESERVED).
 */
SCARD_MUST_USE
struct scard_turn scard_terminal_transmit(struct scard_handle *handle, const uint8_t *command, size_t count,
                                          uint8_t *out, size_t room);
SCARD_MUST_USE
struct scard_turn scard_terminal_received(struct scard_handle *handle, const uint8_t *octets, size_t count,
                                          uint8_t *out, size_t room);
SCARD_MUST_USE
struct scard_turn scard_terminal_quiet(struct scard_handle *handle, uint8_t *out, size_t room);
SCARD_MUST_USE
struct scard_turn scard_terminal_ask_ifs(struct scard_handle *handle, uint8_t size, uint8_t *out, size_t room);

SCARD_MUST_USE
struct scard_turn scard_card_received(struct scard_handle *handle, const uint8_t *octets, size_t count,
                                      uint8_t *out, size_t room);
SCARD_MUST_USE
struct scard_turn scard_card_reply(struct scard_handle *handle, const uint8_t *reply, size_t count,
                                   uint8_t *out, size_t room);
SCARD_MUST_USE
struct scard_turn scard_card_more_time(struct scard_handle *handle, uint8_t multiple, uint8_t *out, size_t room);
SCARD_MUST_USE
struct scard_turn scard_card_ask_ifs(struct scard_handle *handle, uint8_t size, uint8_t *out, size_t room);

/* Writes the message of an end or of a receiver to `out`. For a terminal it is the answer, from the turn SCARD_DONE
 * until the terminal accepts the next command. For a card it is the command, while its host has to reply to it. For a
 * receiver of chains it is the message, once the chain is complete. Room: 65,544 suffices for an end, and `max` for a
 * receiver. If the room is too small, `place` is the room needed. Returns OK, ARGUMENT (with place 0: there is no
 * message).
 */
SCARD_MUST_USE
struct scard_verdict scard_message(struct scard_handle *handle, uint8_t *out, size_t room);

#endif /* SCARD_NO_HANDLES */

/* ---- both ends without an allocator ---- */

/* The caller-owned state of an end. The fields belong to the library: `begin` writes them, and so does each call that
 * changes the end.
 *
 * An end consists of its state and two buffers, one for commands and one for answers, so each call takes all three.
 * Pass the same buffers each time, with the same sizes, and leave their octets unchanged between calls. A buffer of
 * 65,544 octets fits any command, and one of 65,538 any answer. With a smaller buffer, the end refuses a longer message
 * as too long.
 *
 * A call is safe with any octets in the state. If they aren't the state of an end over buffers of these sizes, the call
 * returns SCARD_NO_END, or ARGUMENT, and changes nothing. These calls allocate nothing.
 */
struct scard_lent_terminal {
    uint8_t number;
    uint8_t expected;
    uint8_t failures;
    uint8_t ifsc;
    uint8_t ifsd;
    uint8_t first_ifsc;
    uint8_t wait;
    uint8_t size;
    uint8_t is_answered;
    scard_size place;
    scard_size most_command;
    scard_size most_answer;
    scard_size command_len;
    scard_size answer_len;
};

struct scard_lent_card {
    uint8_t number;
    uint8_t expected;
    uint8_t has_saved;
    uint8_t saved_size;
    uint8_t ifsc;
    uint8_t ifsd;
    uint8_t first_ifsc;
    uint8_t wait;
    uint8_t size;
    scard_size saved_place;
    scard_size place;
    scard_size most_command;
    scard_size most_reply;
    scard_size command_len;
    scard_size reply_len;
};

/* The first five arguments of these calls, made from a state and two arrays: SCARD_LENT(terminal, command, answer). If
 * you have a pointer to a buffer in place of an array, pass its size yourself: `sizeof` a pointer isn't the size of the
 * buffer.
 */
#define SCARD_LENT(state, command, answer) &(state), (command), sizeof(command), (answer), sizeof(answer)

/* Begin an end with these T=1 parameters. The state may hold anything before. The calls also begin a new session over
 * the same buffers. `ifsc` is 1 to 254 octets, `bwi` and `cwi` are 0 to 15. The calls set both buffers to 0. Return OK
 * with place 0; or ARGUMENT (`ifsc` is 0 or 255, or an index is above 15), and then nothing changes.
 *
 * Begin a terminal together with its card, at a reset of the card, and at no other time. The comment of
 * scard_terminal_open says why.
 */
SCARD_MUST_USE
struct scard_verdict scard_lent_terminal_begin(struct scard_lent_terminal *state,
                                               uint8_t *command, size_t command_room,
                                               uint8_t *answer, size_t answer_room,
                                               uint8_t ifsc, uint8_t bwi, uint8_t cwi);
SCARD_MUST_USE
struct scard_verdict scard_lent_card_begin(struct scard_lent_card *state,
                                           uint8_t *command, size_t command_room,
                                           uint8_t *reply, size_t reply_room,
                                           uint8_t ifsc, uint8_t bwi, uint8_t cwi);

/* Drive an end, as the calls on handles above do. The input and `out` may not overlap either buffer of the end. */
SCARD_MUST_USE
struct scard_turn scard_lent_terminal_transmit(struct scard_lent_terminal *state,
                                               uint8_t *command, size_t command_room,
                                               uint8_t *answer, size_t answer_room,
                                               const uint8_t *octets, size_t count, uint8_t *out, size_t room);
SCARD_MUST_USE
struct scard_turn scard_lent_terminal_received(struct scard_lent_terminal *state,
                                               uint8_t *command, size_t command_room,
                                               uint8_t *answer, size_t answer_room,
                                               const uint8_t *octets, size_t count, uint8_t *out, size_t room);
SCARD_MUST_USE
struct scard_turn scard_lent_terminal_quiet(struct scard_lent_terminal *state,
                                            uint8_t *command, size_t command_room,
                                            uint8_t *answer, size_t answer_room, uint8_t *out, size_t room);
SCARD_MUST_USE
struct scard_turn scard_lent_terminal_ask_ifs(struct scard_lent_terminal *state,
                                              uint8_t *command, size_t command_room,
                                              uint8_t *answer, size_t answer_room,
                                              uint8_t size, uint8_t *out, size_t room);

SCARD_MUST_USE
struct scard_turn scard_lent_card_received(struct scard_lent_card *state,
                                           uint8_t *command, size_t command_room, uint8_t *reply, size_t reply_room,
                                           const uint8_t *octets, size_t count, uint8_t *out, size_t room);
SCARD_MUST_USE
struct scard_turn scard_lent_card_reply(struct scard_lent_card *state,
                                        uint8_t *command, size_t command_room, uint8_t *reply, size_t reply_room,
                                        const uint8_t *octets, size_t count, uint8_t *out, size_t room);
SCARD_MUST_USE
struct scard_turn scard_lent_card_more_time(struct scard_lent_card *state,
                                            uint8_t *command, size_t command_room, uint8_t *reply, size_t reply_room,
                                            uint8_t multiple, uint8_t *out, size_t room);
SCARD_MUST_USE
struct scard_turn scard_lent_card_ask_ifs(struct scard_lent_card *state,
                                          uint8_t *command, size_t command_room, uint8_t *reply, size_t reply_room,
                                          uint8_t size, uint8_t *out, size_t room);

/* Return the length of the terminal's answer, or of the card's command, as the verdict's place. The octets are at the
 * start of the end's own buffer, and the calls don't copy them. The answer is there from the turn SCARD_DONE until the
 * terminal accepts the next command. The command is there while the card's host has to reply to it. Return OK, ARGUMENT
 * (with place 0: there is no answer or command).
 */
SCARD_MUST_USE
struct scard_verdict scard_lent_terminal_answer(const struct scard_lent_terminal *state,
                                                const uint8_t *command, size_t command_room,
                                                const uint8_t *answer, size_t answer_room);
SCARD_MUST_USE
struct scard_verdict scard_lent_card_command(const struct scard_lent_card *state,
                                             const uint8_t *command, size_t command_room,
                                             const uint8_t *reply, size_t reply_room);

/* ---- readers of octets that arrive in pieces ---- */

#ifndef SCARD_NO_HANDLES

/* Open a reader in a handle, for one answer to reset, one block, one chain or one forest.
 *
 * - scard_block_reader_open: an I-block has at most `ifs` octets, 1 to 254.
 * - scard_receiver_open: an I-block has at most `ifs` octets, 1 to 254. The first block has the number `ns`, 0 or 1.
 *   The message has at most `max` octets, and `max` is at most 131,072.
 * - scard_tlv_check_open: the forest has at most `max` octets, and `max` is at most SCARD_TLV_LARGEST.
 *
 * These calls allocate all the memory of a reader: some 700 octets, and `max` more for a receiver. The handle owns it
 * until scard_close. The calls free what the handle held before. Unless the status is OK, the handle is unchanged. To
 * start over, open the reader again. Return OK, MEMORY, ARGUMENT.
 */
SCARD_MUST_USE
struct scard_verdict scard_atr_reader_open(struct scard_handle *handle);
SCARD_MUST_USE
struct scard_verdict scard_block_reader_open(struct scard_handle *handle, uint8_t ifs);
SCARD_MUST_USE
struct scard_verdict scard_receiver_open(struct scard_handle *handle, uint8_t ifs, uint8_t ns, size_t max);
SCARD_MUST_USE
struct scard_verdict scard_tlv_check_open(struct scard_handle *handle, size_t max);

/* Feeds the next octets to a reader, in pieces of any length. OK: the value is complete, and took `place` octets of
 * this piece. From then on the reader consumes no octet. MORE: the reader consumed the whole piece. AT: the input is
 * invalid at `place`, which counts from the first octet ever fed. Later calls return the same verdict again. The reason
 * is one of the codec that the reader is for. ARGUMENT: the handle holds no reader. A check of a forest never returns
 * OK, since a forest has no end of its own. Returns OK, MORE, AT, ARGUMENT.
 */
SCARD_MUST_USE
struct scard_verdict scard_reader_feed(struct scard_handle *handle, const uint8_t *octets, size_t count);

/* Returns the verdict on all octets that a reader consumed, and changes nothing. OK with place 0: the value is
 * complete. SHORT: more octets could follow, and `place` is the number of octets so far. AT: the reader refused the
 * octets. ARGUMENT: the handle holds no reader. Returns OK, SHORT, AT, ARGUMENT.
 */
SCARD_MUST_USE
struct scard_verdict scard_reader_finish(struct scard_handle *handle);

/* Writes the answer to reset of a reader to *out, once it is complete. Returns OK with place 0, ARGUMENT. */
SCARD_MUST_USE
struct scard_verdict scard_atr_reader_value(struct scard_handle *handle, struct scard_atr *out);

/* Copies the block of a reader, once it is complete. The call writes its octets to `octets`, and the decoded block to
 * *out. There `inf_place` is an offset in `octets`. Room: SCARD_BLOCK_ROOM. At OK the call writes both, otherwise
 * neither. Returns OK, ARGUMENT (with place 0: there is no block).
 */
SCARD_MUST_USE
struct scard_verdict scard_block_reader_value(struct scard_handle *handle, struct scard_block *out,
                                              uint8_t *octets, size_t room);

#endif /* SCARD_NO_HANDLES */

/* ---- a check of a forest in pieces, without an allocator ---- */

/* The caller-owned state of a check, 92 octets. The fields belong to the library: `begin` writes them, and so does each
 * piece. The state holds the ends of the open objects, at most 16. Of the input it holds only the octets of an
 * incomplete header.
 *
 * A call is safe with any octets in the state. If they aren't the state of a check, the call returns ARGUMENT and
 * changes nothing. These calls allocate nothing.
 */
struct scard_lent_header {
    uint8_t kind;
    uint8_t tag[3];
    uint8_t tag_count;
    uint8_t form;
    uint8_t read;
    uint32_t number;
};

struct scard_lent_check {
    uint32_t max;
    uint32_t count;
    uint32_t value_left;
    struct scard_lent_header header;
    uint32_t ends[16];
    uint8_t level;
    uint8_t refused;
};

/* Begins a check of a forest. The state may hold anything before. The forest has at most `max` octets, and `max` is at
 * most SCARD_TLV_LARGEST. Returns OK with place 0; or ARGUMENT, and then nothing changes.
 */
SCARD_MUST_USE
struct scard_verdict scard_lent_check_begin(struct scard_lent_check *state, size_t max);

/* Feed the next octets to a check, and return the verdict on all that it consumed. The calls work as scard_reader_feed
 * and scard_reader_finish do with a check in a handle. `feed` returns MORE, AT, ARGUMENT. `finish` returns OK with
 * place 0, SHORT, AT, ARGUMENT. ARGUMENT (with place 0): the state isn't that of a check.
 */
SCARD_MUST_USE
struct scard_verdict scard_lent_check_feed(struct scard_lent_check *state, const uint8_t *octets, size_t count);
SCARD_MUST_USE
struct scard_verdict scard_lent_check_finish(const struct scard_lent_check *state);

/* ---- a chain in pieces, without an allocator ---- */

/* The caller-owned state of a receiver of one chain, 32 octets. The fields belong to the library: `begin` writes them,
 * and so does each piece. The receiver writes the octets of the message to the start of the caller's buffer as they
 * arrive.
 *
 * A call is safe with any octets in the state. If they aren't the state of a receiver whose message fits the buffer,
 * the call returns ARGUMENT and changes nothing. These calls allocate nothing.
 */
struct scard_lent_receiver {
    scard_size refused_at;
    uint32_t max;
    uint32_t blocks;
    uint32_t joined;
    uint8_t ifs;
    uint8_t number;
    uint8_t part;
    uint8_t more;
    uint8_t len;
    uint8_t came;
    uint8_t done;
    uint8_t refused;
};

/* Begins a receiver of one chain. The state may hold anything before. An I-block has at most `ifs` octets, 1 to 254.
 * The first block has the number `ns`, 0 or 1. The message has at most `max` octets, and `max` is at most 131,072.
 * Returns OK with place 0; or ARGUMENT, and then nothing changes.
 */
SCARD_MUST_USE
struct scard_verdict scard_lent_receiver_begin(struct scard_lent_receiver *state, uint8_t ifs, uint8_t ns, size_t max);

/* Feed the next octets to a receiver, and return the verdict on all that it consumed. The calls work as
 * scard_reader_feed and scard_reader_finish do with a receiver in a handle. `message` is the caller-owned buffer of the
 * message, with room for `max` octets. Pass the same buffer each time. What it holds after the message so far belongs
 * to the library. The input may not overlap it. `feed` returns OK, MORE, AT, ARGUMENT. `finish` returns OK with place
 * 0, SHORT, AT, ARGUMENT. ARGUMENT (with place 0): the state isn't that of a receiver, or the buffer is too small for
 * it.
 */
SCARD_MUST_USE
struct scard_verdict scard_lent_receiver_feed(struct scard_lent_receiver *state, uint8_t *message, size_t room,
                                              const uint8_t *octets, size_t count);
SCARD_MUST_USE
struct scard_verdict scard_lent_receiver_finish(const struct scard_lent_receiver *state,
                                                const uint8_t *message, size_t room);

/* Returns the length of the message as the verdict's place, once the chain is complete. The octets are at the start of
 * the buffer, and the call doesn't copy them. Returns OK, ARGUMENT (with place 0: the chain isn't complete).
 */
SCARD_MUST_USE
struct scard_verdict scard_lent_receiver_message(const struct scard_lent_receiver *state,
                                                 const uint8_t *message, size_t room);

/* Begins a receiver anew, for a chain whose first block has the number `ns`, 0 or 1. It keeps the information size and
 * the limit. The call sets every octet of the buffer to 0, so nothing is left of the last message. Returns OK with
 * place 0; or ARGUMENT (`ns` isn't 0 or 1, or as above), and then nothing changes.
 */
SCARD_MUST_USE
struct scard_verdict scard_lent_receiver_restart(struct scard_lent_receiver *state, uint8_t *message, size_t room,
                                                 uint8_t ns);

/* ---- a block and an answer to reset in pieces, without an allocator ---- */

/* The largest number of octets of an answer to reset: TS and 32 more (ISO/IEC 7816-3, clause 8.2.1). */
#define SCARD_ATR_ROOM 33

/* The caller-owned readers of one block and of one answer to reset, 264 and 40 octets. The caller may read the fields,
 * but only the calls may change them. Each call decides anew what the consumed octets are. So a call is safe with any
 * octets in the state, and reads no more than `octets`. These calls allocate nothing.
 */
struct scard_lent_block_reader {
    uint32_t count;                     /* the number of octets consumed, including a refused one */
    uint8_t ifs;                        /* the information size */
    uint8_t octets[SCARD_BLOCK_ROOM];   /* the octets consumed, at the start */
};

struct scard_lent_atr_reader {
    uint32_t count;                     /* the number of octets consumed, including a refused one */
    uint8_t octets[SCARD_ATR_ROOM];     /* the octets consumed, at the start */
};

/* Begin a reader of one block, or of one answer to reset. The state may hold anything before. An I-block has at most
 * `ifs` octets, 1 to 254. For a block the call returns OK with place 0; or ARGUMENT, and then nothing changes.
 */
SCARD_MUST_USE
struct scard_verdict scard_lent_block_reader_begin(struct scard_lent_block_reader *state, uint8_t ifs);
void scard_lent_atr_reader_begin(struct scard_lent_atr_reader *state);

/* Feed the next octets to a reader, and return the verdict on all that it consumed. The calls work as scard_reader_feed
 * and scard_reader_finish do with a reader in a handle. The input may not overlap the state. `feed` returns OK, MORE,
 * AT. `finish` returns OK with place 0, SHORT, AT. For a block they also return ARGUMENT (with place 0) if `ifs` of the
 * state is 0 or 255, and then nothing changes.
 */
SCARD_MUST_USE
struct scard_verdict scard_lent_block_reader_feed(struct scard_lent_block_reader *state,
                                                  const uint8_t *octets, size_t count);
SCARD_MUST_USE
struct scard_verdict scard_lent_block_reader_finish(const struct scard_lent_block_reader *state);
SCARD_MUST_USE
struct scard_verdict scard_lent_atr_reader_feed(struct scard_lent_atr_reader *state,
                                                const uint8_t *octets, size_t count);
SCARD_MUST_USE
struct scard_verdict scard_lent_atr_reader_finish(const struct scard_lent_atr_reader *state);

/* Write the block or the answer to reset of a reader to *out, once it is complete. The verdict's place is its length.
 * Its octets are at the start of `octets` in the state. For a block, *out says where in these octets the information
 * field is. Return OK, ARGUMENT (with place 0: it isn't complete).
 */
SCARD_MUST_USE
struct scard_verdict scard_lent_block_reader_value(const struct scard_lent_block_reader *state,
                                                   struct scard_block *out);
SCARD_MUST_USE
struct scard_verdict scard_lent_atr_reader_value(const struct scard_lent_atr_reader *state, struct scard_atr *out);

/* ---- framing ---- */

/* The largest number of octets of a burst that the framer keeps: one more than the longest block has. */
#define SCARD_BURST_ROOM 259

/* The framer collects a burst. A burst is a run of octets without a silence long enough to end it (ISO/IEC 7816-3,
 * clause 11.4.3). A block is always a whole burst. LEN alone doesn't say where a block ends, since LEN may be the octet
 * that is wrong.
 *
 * The caller owns the struct, some 270 octets. The caller may read the fields, but only the calls may change them. A
 * call is safe with any octets in the struct. These calls allocate nothing.
 */
struct scard_lent_framer {
    scard_size count;                  /* the number of octets of the burst so far, including those that the framer
                                          doesn't keep; it stops at its largest value */
    uint8_t octets[SCARD_BURST_ROOM];  /* the first octets of the burst */
};

/* Begins a burst without octets. The struct may hold anything before. */
void scard_lent_framer_begin(struct scard_lent_framer *framer);

/* Appends octets that arrived to the burst. */
void scard_lent_framer_feed(struct scard_lent_framer *framer, const uint8_t *octets, size_t count);

/* Returns true if the burst so far is a whole block: NAD, PCB, LEN, LEN octets and a check octet, with nothing after
 * them and an exclusive-or of 0.
 */
bool scard_lent_framer_is_whole(const struct scard_lent_framer *framer);

/* Returns how long a silence now ends the burst, in the unit of the arguments. It is `first` before the first octet,
 * `after` once the burst is a whole block, and `inside` otherwise.
 */
uint64_t scard_lent_framer_wait(const struct scard_lent_framer *framer, uint64_t first, uint64_t inside,
                                uint64_t after);

/* Returns how many octets to pass to an end once the burst has ended, at most 259. They are at the start of `octets`.
 */
size_t scard_lent_framer_burst(const struct scard_lent_framer *framer);

/* ---- the line of an end, without an allocator ---- */

/* A line does everything between one block of an end and the next: it says when to send, how long to wait for octets,
 * when a burst has ended, which octets to drop, and when to give up. It measures no time, waits for nothing and calls
 * nothing. A session, which the next part describes, is an end with its line: it makes these steps by itself.
 *
 * Each call returns one thing to do (enum scard_line_next_kind). The program does it, and passes what happened to
 * scard_lent_line_step. A program keeps to these rules:
 *
 * - A wait may end later than the line said, but never earlier. It counts from the last octet that was sent or
 *   received.
 * - Each octet is passed once, in the order in which the octets came.
 * - A block counts as sent once its last bit is on the line.
 * - `now` is the time of the program's clock in microseconds, when the call is made. A clock that goes back counts as
 *   one that stood still. Without a clock, `now` is 0 in each call.
 * - `block` is the block that is sent or was sent last, of `block_count` octets. It is empty at a card that has sent
 *   none.
 *
 * The caller owns the struct, 408 octets. A call is safe with any octets in it. These calls allocate nothing.
 */

/* The rules of a line, which stay the same. Times are in microseconds. A mark that isn't 0 counts as 1. The caller may
 * change the rules while the line neither sends nor waits.
 */
struct scard_lent_line_rules {
    scard_size bwt;         /* BWT: a terminal waits as long for the first octet of an answer */
    scard_size cwt;         /* CWT: the silence that ends a burst which isn't a whole block */
    scard_size bgt;         /* BGT: the pause between a block that came and the next one sent */
    scard_size after;       /* the silence that ends a burst which is a whole block. UINT64_MAX: none, since the line
                               delivers whole bursts */
    scard_size octet;       /* the time of a character, 12 etu */
    scard_size most_time;   /* the most time of an exchange, or UINT64_MAX: no limit */
    uint32_t most_blocks;   /* the most blocks that a terminal sends in an exchange */
    uint8_t has_clock;      /* 1 if `now` is the time of a clock */
    uint8_t has_echo;       /* 1 if the line returns what is sent on it, as a UART on one wire does */
    uint8_t refuses_empty;  /* 1 if an I-block without information counts as a damaged block */
    uint8_t is_card;        /* 1 for the line of a card, 0 for that of a terminal */
};

/* What an end has done on its line so far. The fields belong to the library. */
struct scard_lent_line_progress {
    scard_size owed;      /* the silence before the end sends again, counted from the last octet */
    scard_size first;     /* the wait for the first octet of a burst */
    scard_size asked;     /* the current wait, and when it began */
    scard_size asked_at;
    scard_size began;     /* the current exchange: when it began, and how much of its time is certainly over */
    scard_size spent;
    scard_size late;      /* how much longer the block took than its octets */
    uint32_t own;         /* how many octets of its echo came */
    uint32_t interrupts;  /* of the current wait */
    uint32_t blocks;      /* of the current exchange */
    uint32_t left;        /* how many more octets are dropped before the line has failed */
    uint8_t phase;        /* what the end does now */
    uint8_t is_cut;       /* whether the limit of the exchange made the wait shorter */
    uint8_t is_quick;     /* whether the block took less than half of the time of its octets */
    uint8_t began_at;     /* whether the burst began before the other end may have sent it */
    uint8_t is_spoiled;   /* whether the burst had a damaged octet */
    uint8_t is_whole;     /* whether the burst is a whole block */
    uint8_t echoes;       /* how many bursts in a row began with the block that was just sent */
};

struct scard_lent_line {
    struct scard_lent_line_rules rules;
    struct scard_lent_line_progress progress;
    struct scard_lent_framer framer; /* the current burst, or the last one */
};

/* What happened on the line. */
enum scard_line_event {
    SCARD_EVENT_SENT = 0,    /* the block was sent */
    SCARD_EVENT_CAME = 1,    /* octets came. With none: the wait was interrupted, and it isn't known for how long */
    SCARD_EVENT_GARBLED = 2, /* octets came, and the receiver found one of them damaged, by its parity for example */
    SCARD_EVENT_SILENT = 3,  /* no octet came within the wait */
    SCARD_EVENT_FAILED = 4   /* the line failed */
};

/* What to do next. After each kind from SCARD_NEXT_HEARD to SCARD_NEXT_ECHO the line rests, until one of the calls that
 * begin something.
 */
enum scard_line_next_kind {
    SCARD_NEXT_SEND = 0,    /* send the block. Then comes the event SENT or FAILED */
    SCARD_NEXT_WAIT = 1,    /* wait for octets, at most `wait` microseconds, or without limit if it is UINT64_MAX. Then
                               comes one of the other events */
    SCARD_NEXT_HEARD = 2,   /* a burst has ended. Pass the first `count` octets of `framer.octets` to the end. A burst
                               that the end may not take was replaced by a block with a wrong check octet */
    SCARD_NEXT_QUIET = 3,   /* nothing came within the wait for the first octet */
    SCARD_NEXT_FAILED = 4,  /* the line failed, or was never silent */
    SCARD_NEXT_USED_UP = 5, /* the blocks or the time of the exchange are used up */
    SCARD_NEXT_ECHO = 6,    /* the line returns what is sent on it, and `has_echo` is 0 */
    SCARD_NEXT_ORDER = 7    /* the event doesn't fit what the line is doing, or is none of those above. Nothing changed */
};

struct scard_line_next {
    uint8_t kind;     /* enum scard_line_next_kind */
    scard_size count; /* SCARD_NEXT_HEARD: the number of octets, 1 to 259. Otherwise 0 */
    scard_size wait;  /* SCARD_NEXT_WAIT: how long, in microseconds. Otherwise 0 */
};

/* After this many octets without a silence, a burst is cut, and a line that waits for silence has failed. */
#define SCARD_BURST_MOST 65536

/* After this many interrupts in a row, a line whose wait has a limit has failed. Once a wait is over by the clock, an
 * interrupt is answered by a last wait of 0, so that interrupts make no wait longer.
 */
#define SCARD_MOST_INTERRUPTS 1000000

/* The number of echoes in a row that end an exchange.
 *
 * A line may return what is sent on it, and `has_echo` doesn't say so. An end could then take its own block for one of
 * the other end. So each burst is compared with the block that was just sent. If the burst begins with that block, it
 * is an echo in these cases:
 *
 * - Its first octet came less than 20 etu after the block was sent, by the clock. The other end can't have sent it.
 *   Both ends may rightly send the same R-block one after the other, so an R-block also needs a sending that took about
 *   as long as its octets take: the clock then isn't too coarse to tell.
 * - It is an S-block. No end answers with the S-block that it got.
 * - It is the eighth echo in a row. A terminal asks at most three times for a block (clause 11.6.3.2, rule 7.4), so a
 *   card hears at most six R-blocks like its own last one with nothing between: three until its R-block arrives, and
 *   three because the next I-block is lost.
 *
 * If the time of an I-block says nothing, the end gets it as a damaged block, and asks for it again by an R-block. A
 * card that rightly answers with the octets of the command sends them again. A line with an echo returns the R-block.
 * The time says nothing without a clock, on a line that delivers whole bursts, and if the sending ended so late that
 * the octets may be an echo, or may not.
 */
#define SCARD_MOST_ECHOES 8

/* Begins a line at a reset of the card. The struct may hold anything before, and the rules may have any values. */
void scard_lent_line_begin(struct scard_lent_line *line, const struct scard_lent_line_rules *rules);

/* Begin to send a block, each in its own case. `first` is how long the line waits afterwards for the first octet of the
 * burst: BWT times `wait` of the terminal's turn, and UINT64_MAX for a card.
 *
 * - scard_lent_line_exchange: the first block of an exchange, or at a card the block after a call of its host. Octets
 *   that came meanwhile are dropped first, until the line is silent: for BWT at a terminal, for BGT at a card. The
 *   limits of the exchange count from this call.
 * - scard_lent_line_clear: the same, but the line has to be silent in any case, as before RESYNCH.
 * - scard_lent_line_talk: each other block.
 */
SCARD_MUST_USE
struct scard_line_next scard_lent_line_exchange(struct scard_lent_line *line, uint64_t first, uint64_t now);
SCARD_MUST_USE
struct scard_line_next scard_lent_line_clear(struct scard_lent_line *line, uint64_t first, uint64_t now);
SCARD_MUST_USE
struct scard_line_next scard_lent_line_talk(struct scard_lent_line *line, uint64_t first, uint64_t now);

/* Begins to wait for the terminal's first block at a card, or goes on to wait after a failure. After a broken burst the
 * line first waits for the silence that it owes.
 */
SCARD_MUST_USE
struct scard_line_next scard_lent_line_serve(struct scard_lent_line *line, uint64_t now);

/* Reports what happened (enum scard_line_event). Events other than CAME and GARBLED have no octets. The octets and the
 * block may not overlap the struct.
 */
SCARD_MUST_USE
struct scard_line_next scard_lent_line_step(struct scard_lent_line *line, uint8_t event, const uint8_t *octets,
                                            size_t count, uint64_t now, const uint8_t *block, size_t block_count);

/* ---- a session above its line, without an allocator ---- */

/* A session is an end and its line in one struct. It makes all decisions between the octets of a line and the commands
 * of an application: times, bursts, blocks, repeats and the limits of an exchange. It measures no time, waits for
 * nothing and calls nothing. So the same steps serve a blocking loop, an event loop and an interrupt. scard_session.h
 * is such a loop, over two functions of a driver.
 *
 * Each call returns one thing to do (enum scard_session_next_kind). After SCARD_SEND and SCARD_SESSION_WAIT the program
 * does it, and passes what happened to the step of the session. After every other kind the session rests, until the
 * next call that begins something. A program keeps to three rules:
 *
 * A wait may end later than the session said, but never earlier, and it counts from the last octet that was sent or
 * received. Each octet is passed once, in the order in which the octets came. A block counts as sent once its last bit
 * is on the line.
 *
 * All times are in microseconds, and `now` is the time of the program's clock when the call is made. A clock that goes
 * back counts as one that stood still. Without a clock, `now` is 0 in each call.
 *
 * `out` is the buffer for blocks, of SCARD_BLOCK_ROOM octets at least. Pass the same buffer each time, and leave its
 * octets unchanged: the session compares what comes with the block that it sent last. As for an end without a line, the
 * buffers for commands and answers go with the session from call to call.
 *
 * A call is safe with any octets in the struct. These calls allocate nothing.
 */

/* The numbers of a setup, for either end. Set all of it to 0 first. A mark that isn't 0 counts as 1. */
struct scard_lent_setup {
    scard_size silence;           /* the silence that ends a burst which is a whole block, at most CWT. 0: BGT.
                                     UINT64_MAX: none, since the line delivers whole bursts */
    scard_size most_time;         /* the time limit of one exchange of a terminal. 0: 3,600,000,000. UINT64_MAX: none */
    uint32_t most_blocks;         /* how many blocks a terminal sends at most in one exchange. 0: 262,144 */
    uint32_t hertz;               /* the frequency of the card's clock, at least 1,000 */
    uint16_t fi;                  /* Fi and Di: an etu is Fi/Di cycles of that clock. Di is at most 64 */
    uint16_t di;
    uint8_t ifsc;                 /* the T=1 parameters of the card's answer to reset, as in struct scard_t1 */
    uint8_t bwi;
    uint8_t cwi;
    uint8_t has_clock;            /* 1 if `now` is the time of a clock */
    uint8_t has_echo;             /* 1 if the line returns what is sent on it, as a UART on one wire does */
    uint8_t refuses_empty;        /* 1 if an I-block without information counts as a damaged block */
    uint8_t host_takes_short;     /* a card: 1 if the host also gets messages of fewer than four octets. Otherwise the
                                     session replies 6700 for the host */
};

/* The caller-owned sessions, 480 octets for a terminal and 488 for a card. `begin` writes the limits, and a program may
 * change them between two exchanges. It may also make `line.rules.bwt` and `line.rules.cwt` longer while the session
 * rests, and never shorter. All other fields belong to the library.
 */
struct scard_lent_session {
    struct scard_lent_terminal terminal;
    struct scard_lent_line line;
    scard_size most_time; /* the limits of an exchange, as in the setup */
    uint32_t most_blocks;
    uint32_t own;         /* how many octets at the front of `out` are the block that was sent last */
};

struct scard_lent_card_session {
    struct scard_lent_card card;
    struct scard_lent_line line;
    scard_size granted;           /* how many requests of the host about the current command the terminal granted */
    uint32_t own;                 /* how many octets at the front of `out` are the block that was sent last */
    uint8_t host_takes_short;
};

/* What to do next, and how a call ends. The other kinds are those of enum scard_turn_kind, with these meanings:
 *
 * - SCARD_SEND: send the first `count` octets of `out`. Then comes the event SENT or FAILED.
 * - SCARD_DONE: a terminal has an answer of `count` octets, at least two, at the front of the buffer for answers. At a
 *   card, the host owes a reply to a command of `count` octets at the front of the buffer for commands. If `granted` is
 *   0, the command is new. Otherwise the host got it before, and the terminal granted what the host asked for.
 * - SCARD_IFS_SET, SCARD_GIVEN_UP, SCARD_DEAD: as for a terminal without a line.
 * - SCARD_REFUSED_ kinds: the call was refused, and nothing changed. SCARD_REFUSED_ORDER also: the event doesn't fit
 *   what the session is doing.
 * - SCARD_NO_END: the struct isn't such a session over buffers of these sizes, such as one of zeros.
 * - SCARD_NO_ROOM: `out` has fewer than `count` octets, which is SCARD_BLOCK_ROOM.
 */
enum scard_session_next_kind {
    SCARD_SESSION_FAILED = 64,    /* the line failed. A terminal's exchange isn't over, so only a call that begins the
                                     session again works. A card goes on with scard_lent_card_session_serve */
    SCARD_SESSION_USED_UP = 65,   /* one exchange has used up its blocks or its time, and isn't over either */
    SCARD_SESSION_NO_STATUS = 66, /* the card answered with `count` octets, none or one. A response has at least two.
                                     The session goes on */
    SCARD_SESSION_ECHO = 67,      /* the line returns what is sent on it, and the setup doesn't say so. The exchange
                                     isn't over, and no octet of it is known to come from the other end */
    SCARD_SESSION_WAIT = 68       /* wait for octets, at most `wait` microseconds, or without limit if it is UINT64_MAX.
                                     Then comes one of the events other than SENT */
};

struct scard_session_next {
    uint8_t kind;     /* enum scard_session_next_kind or enum scard_turn_kind */
    scard_size count; /* depends on the kind, otherwise 0 */
    scard_size wait;  /* SCARD_SESSION_WAIT: how long, in microseconds. Otherwise 0 */
};

/* Begin a session at a reset of the card: a new terminal and a new card, never one without the other. The struct may
 * hold anything before. The calls compute all times from the setup, and set both buffers to 0. Return OK with place 0;
 * or ARGUMENT (a parameter or the clock is out of range, or `silence` is above CWT), and then nothing changes.
 */
SCARD_MUST_USE
struct scard_verdict scard_lent_session_begin(struct scard_lent_session *session,
                                              uint8_t *command, size_t command_room,
                                              uint8_t *answer, size_t answer_room,
                                              const struct scard_lent_setup *setup);
SCARD_MUST_USE
struct scard_verdict scard_lent_card_session_begin(struct scard_lent_card_session *session,
                                                   uint8_t *command, size_t command_room,
                                                   uint8_t *reply, size_t reply_room,
                                                   const struct scard_lent_setup *setup);

/* Drive a terminal's session. The input and `out` overlap neither the struct nor its buffers. A call other than the
 * step is refused while an exchange is in progress, and after one that isn't over (BUSY). It is also refused if the
 * card is dead (DEAD).
 *
 * - scard_lent_session_exchange: sends a command, and waits for its answer (also TOO_LONG).
 * - scard_lent_session_ask_ifs: tells the card the largest field that the terminal accepts, `size`, 1 to 254 octets
 *   (also RESERVED).
 * - scard_lent_session_resync: begins the session anew with a card that can't be reset. It first drops octets until the
 *   line is silent for BWT, and then sends RESYNCH, at most three times. No limit of an exchange applies. At
 *   SCARD_GIVEN_UP the card answered, so both ends are as at their start. At SCARD_DEAD it didn't. The call is never
 *   refused, and returns SCARD_NO_END if `begin` would return ARGUMENT: then nothing changes.
 * - scard_lent_session_step: takes what happened, an enum scard_line_event. Events other than CAME and GARBLED have no
 *   octets.
 */
SCARD_MUST_USE
struct scard_session_next scard_lent_session_exchange(struct scard_lent_session *session,
                                                      uint8_t *command, size_t command_room,
                                                      uint8_t *answer, size_t answer_room,
                                                      const uint8_t *octets, size_t count, uint64_t now,
                                                      uint8_t *out, size_t room);
SCARD_MUST_USE
struct scard_session_next scard_lent_session_ask_ifs(struct scard_lent_session *session,
                                                     uint8_t *command, size_t command_room,
                                                     uint8_t *answer, size_t answer_room,
                                                     uint8_t size, uint64_t now, uint8_t *out, size_t room);
SCARD_MUST_USE
struct scard_session_next scard_lent_session_resync(struct scard_lent_session *session,
                                                    uint8_t *command, size_t command_room,
                                                    uint8_t *answer, size_t answer_room,
                                                    const struct scard_lent_setup *setup, uint64_t now,
                                                    uint8_t *out, size_t room);
SCARD_MUST_USE
struct scard_session_next scard_lent_session_step(struct scard_lent_session *session,
                                                  uint8_t *command, size_t command_room,
                                                  uint8_t *answer, size_t answer_room,
                                                  uint8_t event, const uint8_t *octets, size_t count, uint64_t now,
                                                  uint8_t *out, size_t room);

/* Drive a card's session. The input and `out` overlap neither the struct nor its buffers.
 *
 * - scard_lent_card_session_serve: begins to serve the terminal, or goes on after the line failed. It sends nothing.
 *   Call it after `begin`, and after SCARD_SESSION_FAILED if the line works again.
 * - scard_lent_card_session_reply: the reply of the host to the command (ORDER, TOO_LONG). If the session refuses it,
 *   the host still owes a reply.
 * - scard_lent_card_session_more_time: asks the terminal for `multiple` block waiting times, any octet (ORDER).
 * - scard_lent_card_session_ask_ifs: tells the terminal the largest field that the card accepts, `size`, 1 to 254
 *   octets (ORDER, RESERVED).
 * - scard_lent_card_session_step: as for a terminal.
 */
SCARD_MUST_USE
struct scard_session_next scard_lent_card_session_serve(struct scard_lent_card_session *session,
                                                        const uint8_t *command, size_t command_room,
                                                        const uint8_t *reply, size_t reply_room, uint64_t now);
SCARD_MUST_USE
struct scard_session_next scard_lent_card_session_reply(struct scard_lent_card_session *session,
                                                        uint8_t *command, size_t command_room,
                                                        uint8_t *reply, size_t reply_room,
                                                        const uint8_t *octets, size_t count, uint64_t now,
                                                        uint8_t *out, size_t room);
SCARD_MUST_USE
struct scard_session_next scard_lent_card_session_more_time(struct scard_lent_card_session *session,
                                                            uint8_t *command, size_t command_room,
                                                            uint8_t *reply, size_t reply_room,
                                                            uint8_t multiple, uint64_t now,
                                                            uint8_t *out, size_t room);
SCARD_MUST_USE
struct scard_session_next scard_lent_card_session_ask_ifs(struct scard_lent_card_session *session,
                                                          uint8_t *command, size_t command_room,
                                                          uint8_t *reply, size_t reply_room,
                                                          uint8_t size, uint64_t now, uint8_t *out, size_t room);
SCARD_MUST_USE
struct scard_session_next scard_lent_card_session_step(struct scard_lent_card_session *session,
                                                       uint8_t *command, size_t command_room,
                                                       uint8_t *reply, size_t reply_room,
                                                       uint8_t event, const uint8_t *octets, size_t count,
                                                       uint64_t now, uint8_t *out, size_t room);

/* ---- a judge of the blocks on a line, without an allocator ---- */

/* A judge checks each block on a line against the rules of T=1. For a deviation it says which end broke which rule, and
 * which block was due. The line doesn't show whether the other end received a block intact. So the judge permits a
 * block if it is right for something that its sender may have received. It follows the logical connection of the first
 * block, and judges no block of another one. docs/JUDGE.md has the rules.
 */

/* An end of the line. */
enum scard_end {
    SCARD_END_TERMINAL = 0,
    SCARD_END_CARD = 1
};

/* How octets reached the other end. */
enum scard_arrival {
    SCARD_ARRIVAL_UNSAID = 0, /* unknown, as at a tap on the line */
    SCARD_ARRIVAL_LOST = 1,   /* they didn't arrive */
    SCARD_ARRIVAL_CAME = 2    /* they arrived as the octets `came` */
};

enum scard_judged {
    SCARD_JUDGED_PERMITTED = 0,
    SCARD_JUDGED_DAMAGE = 1,    /* not a block: its check octet or length is wrong; no end broke a rule */
    SCARD_JUDGED_UNSEEN = 2,    /* permitted only if the block `before` was damaged or lost unseen */
    SCARD_JUDGED_DEVIATION = 3, /* the block breaks `rule`; `due` says which block was due */
    SCARD_JUDGED_ELSEWHERE = 4  /* a block of another logical connection (11.3.2.1), which isn't judged */
};

/* Whether the card owed a block in answer to the block `unanswered`, and sent none. */
enum scard_silence {
    SCARD_SILENCE_NO = 0,
    SCARD_SILENCE_POSSIBLE = 1, /* it sent none, and may not have received that block intact */
    SCARD_SILENCE_CERTAIN = 2   /* it sent none although it received that block intact: it broke SCARD_RULE_SILENCE */
};

/* The rules, by number. Their clauses are those of ISO/IEC 7816-3:2006. */
enum scard_rule {
    SCARD_RULE_NODE_ADDRESS = 1,        /* no node address, one that isn't swapped in an answer, or one in which the
                                           terminal sent nothing */
    SCARD_RULE_CONTROL_OCTET = 2,       /* no block has this control octet */
    SCARD_RULE_LENGTH = 3,              /* no block of this kind has a field of this length, or LEN doesn't say how
                                           many octets its sender sent */
    SCARD_RULE_RESERVED_SIZE = 4,       /* a size of 0 or 255 octets */
    SCARD_RULE_FIELD_SIZE = 5,          /* a field with more octets than the other end accepts */
    SCARD_RULE_TURN = 6,                /* it is the other end's turn to send */
    SCARD_RULE_FOREIGN_REQUEST = 7,     /* a card asks for RESYNCH, or a terminal for more time */
    SCARD_RULE_SEQUENCE_NUMBER = 8,     /* the wrong number */
    SCARD_RULE_BLOCK_DUE = 9,           /* an I-block, or a request, is due */
    SCARD_RULE_ACKNOWLEDGMENT_DUE = 10, /* the R-block that acknowledges a block of a chain is due */
    SCARD_RULE_ERROR_CODE = 11,         /* an acknowledgment that reports an error */
    SCARD_RULE_REPEAT_DUE = 12,         /* the last I-block is due again */
    SCARD_RULE_REPEATED_OCTETS = 13,    /* a repeated I-block has different octets */
    SCARD_RULE_CORRECTION_DUE = 14,     /* an R-block after an error is due */
    SCARD_RULE_REQUEST_DUE = 15,        /* the same request is due again */
    SCARD_RULE_RESPONSE_DUE = 16,       /* the response to a request is due */
    SCARD_RULE_RESPONSE_OCTET = 17,     /* a response carries a different size or multiple from its request */
    SCARD_RULE_UNASKED = 18,            /* a response without a request */
    SCARD_RULE_NO_CHAIN = 19,           /* ABORT outside a chain */
    SCARD_RULE_EARLY_RESYNCH = 20,      /* RESYNCH within a chain although no block had an error */
    SCARD_RULE_TOO_MANY_REPEATS = 21,   /* a block was already repeated as often as the standard permits */
    SCARD_RULE_SILENCE = 22,            /* no block where one is due */
    SCARD_RULE_CHECK_OCTET = 23         /* a wrong check octet that its sender sent */
};

/* The block that an end owed. */
enum scard_owed {
    SCARD_OWED_NOTHING_SAID = 0,      /* the block isn't a deviation */
    SCARD_OWED_NEW_MESSAGE = 1,       /* the first I-block of a message, with the number `next` */
    SCARD_OWED_NEXT_BLOCK = 2,        /* the next I-block of its chain, with the number `next` */
    SCARD_OWED_ACKNOWLEDGMENT = 3,    /* the R-block with the number `expects` after a block of a chain */
    SCARD_OWED_SAME_BLOCK = 4,        /* its last I-block again, whose number is the opposite of `next` */
    SCARD_OWED_CORRECTION = 5,        /* an R-block with the number `expects` after an error */
    SCARD_OWED_REFUSAL = 6,           /* the same R-block, to refuse an I-block that arrived intact */
    SCARD_OWED_SAME_REQUEST = 7,      /* its request `asked` again */
    SCARD_OWED_RESYNCH_RESPONSE = 8,  /* like the next three, the response to a request; `octet` is the octet that
                                         the request carried, else 0 */
    SCARD_OWED_IFS_RESPONSE = 9,
    SCARD_OWED_ABORT_RESPONSE = 10,
    SCARD_OWED_WTX_RESPONSE = 11,
    SCARD_OWED_EITHER_BLOCK = 12,     /* the first I-block of a message, or an R-block that hands over the right to
                                         send: after ABORT */
    SCARD_OWED_ANY_BLOCK = 13,        /* unknown, since the line damaged its last block */
    SCARD_OWED_MESSAGE_OR_CORRECTION = 14,      /* 1 or 5: the R-block hands over the right to send, or asks for the
                                                   last block again */
    SCARD_OWED_MESSAGE_OR_REFUSAL = 15,         /* 1, or the refusal of the I-block before its request */
    SCARD_OWED_ACKNOWLEDGMENT_OR_REFUSAL = 16   /* 3, or the refusal of the I-block before its request */
};

/* The request of an end that waits for its response. */
enum scard_asked {
    SCARD_ASKED_NOTHING = 0,
    SCARD_ASKED_IFS = 1,
    SCARD_ASKED_WTX = 2,
    SCARD_ASKED_ABORT = 3,
    SCARD_ASKED_RESYNCH = 4
};

struct scard_due {
    uint8_t owed;    /* enum scard_owed */
    uint8_t octet;   /* the size or multiple that a response carries, else 0 */
    uint8_t next;    /* the number of the end's next new I-block, 0 or 1 */
    uint8_t expects; /* the number of the I-block that it expects, 0 or 1 */
    uint8_t asked;   /* enum scard_asked */
};

/* The judgment of a block, and of a silence of the card before it. The numbers of the blocks start at 1 and count the
 * blocks of both ends.
 */
struct scard_judgment {
    scard_size number;     /* the number of this block */
    scard_size before;     /* the number of the other end's last block, 0 before its first */
    scard_size unanswered; /* the number of the block that the card didn't answer, or 0 */
    uint8_t verdict;       /* enum scard_judged */
    uint8_t rule;          /* enum scard_rule for a deviation, else 0 */
    uint8_t silence;       /* enum scard_silence */
    struct scard_due due;  /* all 0 unless the block is a deviation */
};

/* The caller-owned state of a judge, 592 octets. The fields belong to the library: `begin` writes them, and so does
 * each call. A call is safe with any octets in the state: the call continues from some valid state of a judge. These
 * calls allocate nothing.
 */
struct scard_lent_sender {
    uint8_t side;
    uint8_t next;
    uint8_t expects;
    uint8_t pending;
    uint8_t asked;
    uint8_t asked_octet;
    uint8_t before;
    uint8_t before_octet;
    uint8_t tries;
    uint8_t repeats;
    uint8_t corrections;
    uint8_t room;
    uint8_t first_room;
    uint8_t largest_room;
    uint8_t known;
    uint8_t aborted;
};

struct scard_lent_heard {
    uint8_t kind;
    uint8_t block;
    uint8_t about;
    uint8_t detail;
    uint8_t octet;
};

struct scard_lent_watched {
    scard_size number;
    struct scard_lent_sender sender;
    struct scard_lent_heard heard;
    uint8_t doubt;
    uint8_t last_len;
    uint8_t last[254];
};

struct scard_lent_judge {
    struct scard_lent_watched terminal;
    struct scard_lent_watched card;
    scard_size blocks;
    uint8_t has_nad;
    uint8_t nad;
    uint8_t pairs;
    uint8_t other;
    uint8_t last;
};

/* Begins a judge at a reset of the card. The state may hold anything before. `ifsc` is the largest field that the card
 * accepts, 1 to 254 octets. Returns OK with place 0; or ARGUMENT (`ifsc` is 0 or 255), and then nothing changes.
 */
SCARD_MUST_USE
struct scard_verdict scard_lent_judge_begin(struct scard_lent_judge *state, uint8_t ifsc);

/* Judges the octets that were on the line as one block, and writes the judgment to *out. `from` is an enum scard_end:
 * the end that sent them. `arrival` is an enum scard_arrival: how they reached the other end. The call reads `came`
 * only if `arrival` is SCARD_ARRIVAL_CAME. Octets that aren't a block are damage, unless `came` has the same octets:
 * then the end itself sent them wrong. Returns OK with place 0; or ARGUMENT (another end or arrival), and then nothing
 * changes.
 */
SCARD_MUST_USE
struct scard_verdict scard_lent_judge_block(struct scard_lent_judge *state, uint8_t from,
                                            const uint8_t *octets, size_t count, uint8_t arrival,
                                            const uint8_t *came, size_t came_count, struct scard_judgment *out);

/* Reports a timeout of the terminal to the judge. Writes to *out whether the card owed a block and sent none. The other
 * fields of *out are 0.
 */
void scard_lent_judge_quiet(struct scard_lent_judge *state, struct scard_judgment *out);

/* Writes to *out whether the card owes a block now, for example at the end of a recording. The other fields of *out are
 * 0. The state doesn't change.
 */
void scard_lent_judge_finish(const struct scard_lent_judge *state, struct scard_judgment *out);

/* What a block exercises. A permitted block keeps each rule that is at stake: each rule that its sender could break
 * with some block then. A block that isn't permitted breaks one rule, and the judge says nothing about the others. All
 * fields are 0 for damage and for a block of another logical connection.
 */
struct scard_exercise {
    uint32_t kept;  /* the rules that the block keeps: the sum of 1 << rule for each enum scard_rule; else 0 */
    uint8_t broken; /* enum scard_rule: the rule that it breaks, else 0 */
    uint8_t due;    /* enum scard_owed: what was due from its sender, else 0, as if it was the other end's turn */
};

/* Writes to *out what a block exercises. The state doesn't change: call scard_lent_judge_block with the same arguments
 * next. Returns OK with place 0; or ARGUMENT (another end or arrival), and then nothing changes. A card that breaks
 * SCARD_RULE_SILENCE sends no block: the field `silence` of the judgment tells.
 */
SCARD_MUST_USE
struct scard_verdict scard_lent_judge_exercise(const struct scard_lent_judge *state, uint8_t from,
                                               const uint8_t *octets, size_t count, uint8_t arrival,
                                               const uint8_t *came, size_t came_count, struct scard_exercise *out);

/* The caller-owned times of a line, 56 octets. With them a judge says which blocks came too late or too early (ISO/IEC
 * 7816-3:2006, 11.4.3). The fields belong to the library: `begin` writes them, and so does `block`. A call is safe with
 * any octets in the struct: it continues from some valid times or returns ARGUMENT, as it does if all octets are 0.
 * These calls allocate nothing. docs/JUDGE.md has the formulas.
 */
struct scard_lent_times {
    scard_size least;
    scard_size sent_moment;
    scard_size sent_octets;
    scard_size came_moment;
    scard_size came_octets;
    uint32_t hertz;
    uint16_t fi;
    uint16_t di;
    uint8_t has_sent;
    uint8_t has_came;
    uint8_t ifsc;
    uint8_t bwi;
    uint8_t cwi;
};

/* The moments of a block in microseconds, by the caller's clock. A moment is known if its mark isn't 0. */
struct scard_moments {
    scard_size first;  /* when its first octet began: the leading edge of the start bit */
    scard_size last;   /* when its last octet began */
    uint8_t has_first;
    uint8_t has_last;
};

enum scard_off_time {
    SCARD_OFF_TIME_NO = 0,   /* neither, or too little is known */
    SCARD_OFF_TIME_LATE = 1, /* a card's block that began after its waiting time */
    SCARD_OFF_TIME_EARLY = 2 /* a terminal's block that began before the least time after the block before */
};

/* What is said about the time of a block. */
struct scard_timed {
    scard_size elapsed; /* microseconds from the block before to this one: from its last octet, if that moment is known,
                           otherwise from its first. 0 unless the block is late or early */
    scard_size limit;   /* the permitted microseconds: at most if it is late, at least if it is early, else 0 */
    uint8_t off;        /* enum scard_off_time */
    uint8_t over;       /* 1 if the card's waiting time was over when the block began, else 0. A terminal's block after
                           SCARD_SILENCE_CERTAIN tells by this mark which end was wrong: if it is 0, the terminal may
                           have sent too early */
};

/* Begins the times at a reset of the card, and again after an exchange of PPS. The struct may hold anything before.
 * `params` and `rates` are those in force. A rate of 0 isn't known, and then no block is late or early. `hertz` is the
 * frequency of the card's clock. Returns OK with place 0; or ARGUMENT (`hertz` is 0, IFSC is 0 or 255, or an index is
 * above 15), and then nothing changes.
 */
SCARD_MUST_USE
struct scard_verdict scard_lent_times_begin(struct scard_lent_times *times, const struct scard_t1 *params,
                                            const struct scard_rates *rates, uint32_t hertz);

/* Takes the octets of a block with its moments, and writes to *out whether the block came too late or too early. The
 * state of `judge` is that before the block: call scard_lent_judge_block with the same arguments next. Call this for
 * each block, also for one without moments. Returns OK with place 0; or ARGUMENT (another end or arrival, a moment
 * below an earlier one, or times that weren't begun), and then nothing changes.
 */
SCARD_MUST_USE
struct scard_verdict scard_lent_times_block(struct scard_lent_times *times, const struct scard_lent_judge *judge,
                                            uint8_t from, const uint8_t *octets, size_t count, uint8_t arrival,
                                            const uint8_t *came, size_t came_count,
                                            const struct scard_moments *moments, struct scard_timed *out);

/* Write to *out a text about a rule, an enum scard_rule. scard_judge_rule_text gives what breaks the rule ("sequence
 * number"), and scard_judge_clause_text its clause in ISO/IEC 7816-3:2006 ("11.6.2.3 rule 2.2"). For an unknown number
 * the text is "". The library owns the text.
 */
void scard_judge_rule_text(uint8_t rule, struct scard_text *out);
void scard_judge_clause_text(uint8_t rule, struct scard_text *out);

/* ---- sizes of the structs ---- */

/* The structs above, as numbers for scard_struct_size. */
enum scard_struct {
    SCARD_STRUCT_VERDICT = 1,
    SCARD_STRUCT_INTERFACE = 2,
    SCARD_STRUCT_INDICATED = 3,
    SCARD_STRUCT_ATR = 4,
    SCARD_STRUCT_T1 = 5,
    SCARD_STRUCT_RATES = 6,
    SCARD_STRUCT_BLOCK = 7,
    SCARD_STRUCT_COMMAND = 8,
    SCARD_STRUCT_RESPONSE = 9,
    SCARD_STRUCT_TURN = 10,
    SCARD_STRUCT_TAG = 11,
    SCARD_STRUCT_PART = 12,
    SCARD_STRUCT_KNOWN = 13,
    SCARD_STRUCT_HANDLE = 14,
    SCARD_STRUCT_LENT_TERMINAL = 15,
    SCARD_STRUCT_LENT_CARD = 16,
    SCARD_STRUCT_LENT_HEADER = 17,
    SCARD_STRUCT_LENT_CHECK = 18,
    SCARD_STRUCT_LENT_RECEIVER = 19,
    SCARD_STRUCT_TEXT = 20,
    SCARD_STRUCT_ENTRY = 21,
    SCARD_STRUCT_NOTE = 22,
    SCARD_STRUCT_LENT_FRAMER = 23,
    SCARD_STRUCT_LENT_BLOCK_READER = 24,
    SCARD_STRUCT_LENT_ATR_READER = 25,
    SCARD_STRUCT_LENT_SENDER = 26,
    SCARD_STRUCT_LENT_HEARD = 27,
    SCARD_STRUCT_LENT_WATCHED = 28,
    SCARD_STRUCT_LENT_JUDGE = 29,
    SCARD_STRUCT_DUE = 30,
    SCARD_STRUCT_JUDGMENT = 31,
    SCARD_STRUCT_LENT_LINE_RULES = 32,
    SCARD_STRUCT_LENT_LINE_PROGRESS = 33,
    SCARD_STRUCT_LENT_LINE = 34,
    SCARD_STRUCT_LINE_NEXT = 35,
    SCARD_STRUCT_LENT_SETUP = 36,
    SCARD_STRUCT_LENT_SESSION = 37,
    SCARD_STRUCT_LENT_CARD_SESSION = 38,
    SCARD_STRUCT_SESSION_NEXT = 39,
    SCARD_STRUCT_PCB = 40,
    SCARD_STRUCT_EXERCISE = 41,
    SCARD_STRUCT_LENT_TIMES = 42,
    SCARD_STRUCT_MOMENTS = 43,
    SCARD_STRUCT_TIMED = 44
};

/* Returns the size in octets that a struct has in the library, to compare with its sizeof. `number` is an enum
 * scard_struct. For an unknown number the size is 0.
 */
size_t scard_struct_size(uint8_t number);

#ifdef __cplusplus
}
#endif

#endif
