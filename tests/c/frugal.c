/* A program without memory functions. It is linked with `-lscard` and no flag, and tools/gate/test-c checks which
 * symbols it needs. It has a session of both ends over buffers of the caller, a check, the parts and the tidy form of a
 * forest, a list that is read and filled, a receiver of a chain, a reader of a block, a command and a response,
 * hexadecimal text, and the LRC.
 */
#include "scard.h"

#include <stdint.h>
#include <string.h>

enum { ROOM = 64, SIZE = 32 };

static struct scard_lent_terminal terminal;
static struct scard_lent_card card;
static uint8_t commands[2][ROOM], answers[2][ROOM]; /* the terminal's, and the card's */
static uint8_t block[SCARD_BLOCK_ROOM];

static const uint8_t select_it[] = {0x00, 0xA4, 0x04, 0x00};
static const uint8_t done[] = {0x90, 0x00};

/* Returns whether the command reaches the card's host, and its reply comes back. */
static int session(void)
{
    struct scard_turn turn;
    if (scard_lent_terminal_begin(&terminal, commands[0], ROOM, answers[0], ROOM, SIZE, 4, 5).status != SCARD_OK
        || scard_lent_card_begin(&card, commands[1], ROOM, answers[1], ROOM, SIZE, 4, 5).status != SCARD_OK) {
        return 0;
    }
    turn = scard_lent_terminal_transmit(&terminal, commands[0], ROOM, answers[0], ROOM, select_it, sizeof select_it,
                                        block, sizeof block);
    if (turn.kind != SCARD_SEND || scard_lrc(block, turn.count) != 0) {
        return 0;
    }
    turn = scard_lent_card_received(&card, commands[1], ROOM, answers[1], ROOM, block, turn.count, block, sizeof block);
    if (turn.kind != SCARD_DONE || scard_lent_card_command(&card, commands[1], ROOM, answers[1], ROOM).place != 4
        || memcmp(commands[1], select_it, sizeof select_it) != 0) {
        return 0;
    }
    turn = scard_lent_card_reply(&card, commands[1], ROOM, answers[1], ROOM, done, sizeof done, block, sizeof block);
    if (turn.kind != SCARD_SEND) {
        return 0;
    }
    turn = scard_lent_terminal_received(&terminal, commands[0], ROOM, answers[0], ROOM, block, turn.count, block,
                                        sizeof block);
    return turn.kind == SCARD_DONE
        && scard_lent_terminal_answer(&terminal, commands[0], ROOM, answers[0], ROOM).place == sizeof done
        && memcmp(answers[0], done, sizeof done) == 0;
}

/* Returns whether the check accepts a forest in two pieces. */
static int forest(void)
{
    static const uint8_t octets[] = {0x6F, 0x02, 0x84, 0x00};
    struct scard_lent_check check;
    return scard_lent_check_begin(&check, SCARD_TLV_LARGEST).status == SCARD_OK
        && scard_lent_check_feed(&check, octets, 3).status == SCARD_MORE
        && scard_lent_check_finish(&check).status == SCARD_SHORT
        && scard_lent_check_feed(&check, octets + 3, 1).status == SCARD_MORE
        && scard_lent_check_finish(&check).status == SCARD_OK;
}

/* Returns whether the calls find the parts of a forest and the entries of a list, and write both. */
static int objects(void)
{
    static const uint8_t octets[] = {0x6F, 0x03, 0x84, 0x01, 0xAA}, list[] = {0x9F, 0x02, 0x06, 0x95, 0x05};
    static const uint8_t loose[] = {0x00, 0x6F, 0x82, 0x00, 0x05, 0x00, 0x84, 0x81, 0x01, 0xAA};
    struct scard_part parts[2];
    struct scard_entry entries[2];
    struct scard_known known = {{{0x9F, 0x02, 0x00}, 2}, SCARD_NUMERIC, done, sizeof done};
    return scard_tlv_parts(octets, sizeof octets, sizeof octets, parts, 2).status == SCARD_OK
        && parts[1].place == 4 && parts[1].len == 1
        && scard_tlv_first(parts, 2, &parts[0].tag, 1) == 0
        && scard_tlv_tidy(loose, sizeof loose, sizeof loose, block, sizeof block).place == sizeof octets
        && memcmp(block, octets, sizeof octets) == 0
        && scard_dol_check(list, sizeof list).status == SCARD_OK
        && scard_dol_entries(list, sizeof list, entries, 2).status == SCARD_OK
        && entries[1].tag.octets[0] == 0x95 && entries[1].len == 5
        && scard_tlv_header(&entries[0].tag, 1, block, sizeof block).place == 3
        && scard_dol_entry(&entries[0].tag, 6, block, sizeof block).place == 3 && memcmp(block, list, 3) == 0
        && scard_dol_fill(list, sizeof list, &known, 1, block, sizeof block).place == 11
        && memcmp(block, "\0\0\0\0\x90\0\0\0\0\0\0", 11) == 0;
}

/* Returns whether a chain of one block is received, and the block is read in two pieces. */
static int chain(void)
{
    struct scard_lent_receiver receiver;
    struct scard_lent_block_reader reader;
    struct scard_verdict verdict = scard_block_i(0, 0, false, done, sizeof done, block, sizeof block);
    return verdict.status == SCARD_OK
        && scard_lent_receiver_begin(&receiver, SIZE, 0, ROOM).status == SCARD_OK
        && scard_lent_receiver_feed(&receiver, answers[0], ROOM, block, verdict.place).status == SCARD_OK
        && scard_lent_receiver_message(&receiver, answers[0], ROOM).place == sizeof done
        && scard_lent_receiver_restart(&receiver, answers[0], ROOM, 0).status == SCARD_OK && answers[0][0] == 0
        && scard_lent_block_reader_begin(&reader, SIZE).status == SCARD_OK
        && scard_lent_block_reader_feed(&reader, block, 3).status == SCARD_MORE
        && scard_lent_block_reader_feed(&reader, block + 3, verdict.place - 3).status == SCARD_OK;
}

/* Returns whether a command and a response are encoded, and come back from hexadecimal text. */
static int written(void)
{
    struct scard_command command = {0x00, 0xA4, 0x04, 0x00, SCARD_CASE_4_SHORT, 1, 256, 0, 0};
    char text[16];
    struct scard_verdict verdict = scard_command_encode(&command, done, sizeof done, block, sizeof block);
    return verdict.status == SCARD_OK && verdict.place == 8 && memcmp(block, select_it, sizeof select_it) == 0
        && scard_hex_encode(block, verdict.place, text, sizeof text).status == SCARD_OK
        && memcmp(text, "00A4040002900000", sizeof text) == 0
        && scard_response_encode(NULL, 0, 0x90, 0x00, block, sizeof block).place == 2
        && scard_hex_decode("9000", 4, block + 2, 2).place == 2 && memcmp(block, block + 2, 2) == 0;
}

int main(void)
{
    return written() && session() && forest() && objects() && chain() ? 0 : 1;
}
