/* The explanations of octets. */
#include "check.h"

static char said[128];
static int unfit;

/* Returns the text of a note. A note without a number has number 0 and nothing after it. */
static const char *text_of(uint8_t about, uint8_t first, uint8_t second)
{
    struct scard_note note;
    int count = 0;
    scard_note_of(about, first, second, &note);
    if (note.before_size + note.after_size > 100) {
        abort();
    }
    memcpy(said, note.before, note.before_size);
    if (note.has_number) {
        count = sprintf(said + note.before_size, "%u", (unsigned)note.number);
    }
    memcpy(said + note.before_size + count, note.after, note.after_size);
    said[note.before_size + (size_t)count + note.after_size] = 0;
    unfit += note.has_number > 1 || (note.has_number == 0 && (note.number != 0 || note.after_size != 0));
    return said;
}

#define SAYS(about, first, second, text) CHECK(strcmp(text_of(SCARD_NOTED_##about, first, second), text) == 0)

static void responses(void)
{
    SAYS(STATUS, 0x90, 0x00, "no further qualification");
    SAYS(STATUS, 0x6A, 0x82, "file or application not found");
    SAYS(STATUS, 0x61, 0x00, "256 octets available");
    SAYS(STATUS, 0x61, 0x01, "1 octet available");
    SAYS(STATUS, 0x6C, 0x08, "wrong Le: 8 octets available");
    SAYS(STATUS, 0x62, 0x80, "the card has a query of 128 octets");
    SAYS(STATUS, 0x64, 0x02, "the card has a query of 2 octets");
    SAYS(STATUS, 0x64, 0x01, "immediate response required by the card");
    SAYS(STATUS, 0x63, 0xCF, "counter at 15, such as the tries left");
    SAYS(STATUS, 0x63, 0xD0, "");
    SAYS(STATUS, 0x9F, 0x10, "");
}

static void commands(void)
{
    SAYS(INSTRUCTION, 0x00, 0xA4, "SELECT");
    SAYS(INSTRUCTION, 0x7F, 0x04, "DEACTIVATE FILE");
    SAYS(INSTRUCTION, 0x1F, 0xFE, "TERMINATE CARD USAGE");
    SAYS(INSTRUCTION, 0x20, 0xA4, "");
    SAYS(INSTRUCTION, 0x80, 0xA4, "");
    SAYS(INSTRUCTION, 0x80, 0x6F, "invalid instruction");
    SAYS(INSTRUCTION, 0x00, 0x01, "");
    SAYS(CLASS, 0x00, 0, "no secure messaging, channel 0");
    SAYS(CLASS, 0x1F, 0, "secure messaging, header authenticated, channel 3, more commands of its chain follow");
    SAYS(CLASS, 0x04, 0, "secure messaging in a proprietary format, channel 0");
    SAYS(CLASS, 0x6F, 0, "secure messaging, header not processed, channel 19");
    SAYS(CLASS, 0x20, 0, "reserved class");
    SAYS(CLASS, 0x80, 0, "proprietary class");
    SAYS(CLASS, 0xFF, 0, "invalid class");
}

static void blocks(void)
{
    SAYS(PCB, 0x00, 0, "I-block 0, the last of its chain");
    SAYS(PCB, 0x60, 0, "I-block 1, more blocks of its chain follow");
    SAYS(PCB, 0x90, 0, "no error, asks for block 1");
    SAYS(PCB, 0x81, 0, "parity or LRC error, asks for block 0 again");
    SAYS(PCB, 0xC1, 32, "asks for an information field size of 32");
    SAYS(PCB, 0xE3, 5, "grants 5 times the block waiting time");
    SAYS(PCB, 0xE2, 5, "aborts the chain");
    SAYS(NAD, 0x00, 0, "");
    SAYS(NAD, 0x21, 0, "from 1 to 2");
    SAYS(NAD, 0xF8, 0, "from 0 to 7");
}

static void others(void)
{
    SAYS(TD, 1, 0, "offers T=1");
    SAYS(TD, 15, 0, "global interface bytes");
    SAYS(TA2, 0x81, 0, "specific mode, T=1");
    SAYS(TAG, 0x3F, 0, "universal class");
    SAYS(TAG, 0x6F, 0, "application class");
    SAYS(TAG, 0x9F, 0, "context-specific class");
    SAYS(TAG, 0xC0, 0, "private class");
}

/* Returns how many pairs of octets have an explanation. */
static int saying(uint8_t about)
{
    int first, second, count = 0;
    for (first = 0; first < 256; first++) {
        for (second = 0; second < 256; second++) {
            count += text_of(about, (uint8_t)first, (uint8_t)second)[0] != 0;
        }
    }
    return count;
}

static void all(void)
{
    CHECK(saying(SCARD_NOTED_STATUS) == 46 + 2 * 256 + 2 * 127 + 16);
    CHECK(saying(SCARD_NOTED_INSTRUCTION) == 96 * 51 + 256 * 32);
    CHECK(saying(SCARD_NOTED_CLASS) == 65536);
    CHECK(saying(SCARD_NOTED_PCB) == 18 * 256);
    CHECK(saying(SCARD_NOTED_NAD) == 255 * 256);
    CHECK(saying(SCARD_NOTED_TD) == 65536 && saying(SCARD_NOTED_TA2) == 65536 && saying(SCARD_NOTED_TAG) == 65536);
    CHECK(saying(0) == 0 && saying(9) == 0 && saying(255) == 0);
    CHECK(unfit == 0);
}

static void texts(void)
{
    uint8_t octets[41];
    int octet;
    memset(octets, 'A', sizeof octets);
    CHECK(!scard_is_text(NULL, 0) && scard_is_text(octets, 1) && scard_is_text(octets, 40));
    CHECK(!scard_is_text(octets, 41));
    for (octet = 0; octet < 256; octet++) {
        octets[39] = (uint8_t)octet;
        CHECK(scard_is_text(octets, 40) == (octet >= 0x20 && octet <= 0x7E));
    }
}

int main(void)
{
    responses();
    commands();
    blocks();
    others();
    all();
    texts();
    return verdict_of_checks("notes");
}
