/* The version of the library and its header, the names of statuses, turns, classes, shapes, S-blocks and reasons, and
 * the sentences on reasons.
 */
#include "check.h"
#include "scard_session.h"

#define SPELLED(name) #name
#define AS_TEXT(name) SPELLED(name)

static int is(const char *name, const char *wanted)
{
    return strcmp(name, wanted) == 0;
}

static void versions(void)
{
    CHECK(scard_version() == SCARD_VERSION && SCARD_VERSION == 1005000);
    CHECK(is(SCARD_VERSION_TEXT, AS_TEXT(SCARD_VERSION_MAJOR) "." AS_TEXT(SCARD_VERSION_MINOR) "."
             AS_TEXT(SCARD_VERSION_PATCH)));
}

#define STATUS(name) CHECK(is(scard_status_name(SCARD_##name), #name))
#define TURN(name) CHECK(is(scard_turn_name(SCARD_##name), #name))
#define REASON(codec, number, name) CHECK(is(scard_reason_name(SCARD_CODEC_##codec, SCARD_##codec##_##number), name))

static void statuses(void)
{
    int number;
    STATUS(OK);
    STATUS(SHORT);
    STATUS(AT);
    STATUS(MEMORY);
    STATUS(ARGUMENT);
    STATUS(DUPLICATE);
    STATUS(MORE);
    for (number = -300; number < 600; number++) {
        CHECK(is(scard_status_name(number), "") == (number < SCARD_OK || number > SCARD_MORE));
    }
}

static void turns(void)
{
    int number, named = 0;
    TURN(SEND);
    TURN(DONE);
    TURN(IFS_SET);
    TURN(GIVEN_UP);
    TURN(DEAD);
    TURN(REFUSED_DEAD);
    TURN(REFUSED_BUSY);
    TURN(REFUSED_TOO_LONG);
    TURN(REFUSED_RESERVED);
    TURN(REFUSED_IDLE);
    TURN(REFUSED_ORDER);
    TURN(NO_END);
    TURN(NO_ROOM);
    TURN(SESSION_FAILED);
    TURN(SESSION_USED_UP);
    TURN(SESSION_NO_STATUS);
    TURN(SESSION_ECHO);
    TURN(SESSION_WAIT);
    for (number = -300; number < 600; number++) {
        named += !is(scard_turn_name(number), "");
    }
    CHECK(named == 18);
}

/* No two kinds have the same name, and a session has those of a turn. */
static void session_turns(void)
{
    int number, other;
    for (number = -300; number < 600; number++) {
        const char *name = scard_session_turn_name(number);
        CHECK(is(name, scard_turn_name(number)));
        for (other = -300; other < number && !is(name, ""); other++) {
            CHECK(!is(name, scard_session_turn_name(other)));
        }
    }
}

#define CLASS(name) CHECK(is(scard_status_class_name(SCARD_CLASS_##name), #name))
#define SHAPE(name) CHECK(is(scard_shape_name(SCARD_##name), #name))
#define ABOUT(name) CHECK(is(scard_s_block_name(SCARD_S_##name), #name))

static void classes_and_shapes(void)
{
    int number;
    CLASS(NORMAL);
    CLASS(WARNING);
    CLASS(EXECUTION);
    CLASS(CHECKING);
    CLASS(PROPRIETARY);
    CLASS(INVALID);
    SHAPE(CASE_1);
    SHAPE(CASE_2_SHORT);
    SHAPE(CASE_3_SHORT);
    SHAPE(CASE_4_SHORT);
    SHAPE(CASE_2_LONG);
    SHAPE(CASE_3_LONG);
    SHAPE(CASE_4_LONG);
    ABOUT(RESYNCH);
    ABOUT(IFS);
    ABOUT(ABORT);
    ABOUT(WTX);
    for (number = -300; number < 600; number++) {
        CHECK(is(scard_status_class_name(number), "") == (number < SCARD_CLASS_NORMAL || number > SCARD_CLASS_INVALID));
        CHECK(is(scard_shape_name(number), "") == (number < SCARD_CASE_1 || number > SCARD_CASE_4_LONG));
        CHECK(is(scard_s_block_name(number), "") == (number < SCARD_S_RESYNCH || number > SCARD_S_WTX));
    }
}

/* A reason has a sentence exactly if it has a name. Each begins with a capital letter and ends with a full stop. */
static void sentences(void)
{
    int codec, reason;
    CHECK(is(scard_reason_sentence(SCARD_CODEC_ATR, SCARD_ATR_BAD_TCK), "TCK is wrong."));
    CHECK(is(scard_reason_sentence(SCARD_CODEC_TLV, SCARD_TLV_TOO_DEEP),
             "An object begins inside an object of depth 16."));
    CHECK(is(scard_reason_sentence(SCARD_CODEC_HEX, SCARD_HEX_ODD), "The number of digits is odd."));
    for (codec = -2; codec < 300; codec++) {
        for (reason = -2; reason < 300; reason++) {
            const char *sentence = scard_reason_sentence(codec, reason);
            const size_t size = strlen(sentence);
            CHECK((size == 0) == is(scard_reason_name(codec, reason), ""));
            CHECK(size == 0 || (sentence[0] >= 'A' && sentence[0] <= 'Z' && sentence[size - 1] == '.'));
        }
    }
}

static void reasons(void)
{
    int codec, reason, named = 0;
    REASON(ATR, BAD_TS, "BadTs");
    REASON(ATR, TOO_LONG, "TooLong");
    REASON(ATR, BAD_TCK, "BadTck");
    REASON(BLOCK, BAD_PCB, "BadPcb");
    REASON(BLOCK, BAD_LEN, "BadLen");
    REASON(BLOCK, OVER_IFS, "OverIfs");
    REASON(BLOCK, BAD_IFS, "BadIfs");
    REASON(BLOCK, BAD_LRC, "BadLrc");
    REASON(CHAIN, BAD_NAD, "BadNad");
    REASON(CHAIN, BAD_PCB, "BadPcb");
    REASON(CHAIN, NOT_INFO, "NotInfo");
    REASON(CHAIN, BAD_SEQUENCE, "BadSequence");
    REASON(CHAIN, TOO_MANY_BLOCKS, "TooManyBlocks");
    REASON(CHAIN, BAD_LEN, "BadLen");
    REASON(CHAIN, OVER_IFS, "OverIfs");
    REASON(CHAIN, TOO_LONG, "TooLong");
    REASON(CHAIN, BAD_LRC, "BadLrc");
    REASON(COMMAND, TRAILING, "Trailing");
    REASON(RESPONSE, TOO_LONG, "TooLong");
    REASON(TLV, TOO_DEEP, "TooDeep");
    REASON(TLV, TAG_SECOND, "TagSecond");
    REASON(TLV, TAG_LONG, "TagLong");
    REASON(TLV, LENGTH_FORM, "LengthForm");
    REASON(TLV, OVERRUN, "Overrun");
    REASON(TLV, TOO_LONG, "TooLong");
    REASON(DOL, TAG_ZERO, "TagZero");
    REASON(DOL, TAG_SECOND, "TagSecond");
    REASON(DOL, TAG_LONG, "TagLong");
    REASON(HEX, DIGIT, "Digit");
    REASON(HEX, ODD, "Odd");
    for (codec = -2; codec < 300; codec++) {
        for (reason = -2; reason < 300; reason++) {
            named += !is(scard_reason_name(codec, reason), "");
        }
    }
    CHECK(named == 30);
}

/* The size of a name counts the 0 at its end. A second call returns the same address. */
static void texts(void)
{
    struct scard_text first, again, none;
    scard_status_text(SCARD_DUPLICATE, &first);
    scard_status_text(SCARD_DUPLICATE, &again);
    CHECK(first.size == sizeof "DUPLICATE" && first.text == again.text && first.text[first.size - 1] == 0);
    scard_turn_text(SCARD_REFUSED_TOO_LONG, &first);
    CHECK(first.size == sizeof "REFUSED_TOO_LONG" && is(first.text, "REFUSED_TOO_LONG"));
    scard_reason_text(SCARD_CODEC_CHAIN, SCARD_CHAIN_TOO_MANY_BLOCKS, &first);
    CHECK(first.size == sizeof "TooManyBlocks" && is(first.text, "TooManyBlocks"));
    scard_reason_text(0, 1, &none);
    CHECK(none.size == 1 && none.text[0] == 0);
}

int main(void)
{
    versions();
    statuses();
    turns();
    session_turns();
    classes_and_shapes();
    reasons();
    sentences();
    texts();
    return verdict_of_checks("names");
}
