/* Opens a handle in one thread, uses it in a second and closes it in a third, as a reader driver does, while two other
 * threads have their own ends. It runs under the thread sanitizer, if the compiler has it. */
#include "check.h"

#include <pthread.h>

enum { ROUNDS = 1000, LANES = 3 };

/* An end of each kind, and the octets of a block. A lane is in one thread at a time. */
struct lane {
    struct scard_handle terminal, card;
    struct scard_lent_terminal lent;
    uint8_t command[16], answer[16], block[SCARD_BLOCK_ROOM], got[4];
    struct scard_turn turn;
    int good;
};

static void *opens(void *given)
{
    struct lane *lane = (struct lane *)given;
    lane->good = scard_terminal_open(&lane->terminal, 32, 4, 5).status == SCARD_OK
        && scard_card_open(&lane->card, 32, 4, 5).status == SCARD_OK
        && scard_lent_terminal_begin(SCARD_LENT(lane->lent, lane->command, lane->answer), 32, 4, 5).status == SCARD_OK;
    return NULL;
}

static void *exchanges(void *given)
{
    static const uint8_t command[] = {0x00, 0xA4, 0x04, 0x00, 0x00}, reply[] = {0x90, 0x00};
    struct lane *lane = (struct lane *)given;
    uint8_t *block = lane->block;
    struct scard_turn turn = scard_terminal_transmit(&lane->terminal, command, sizeof command, block, SCARD_BLOCK_ROOM);
    turn = scard_card_received(&lane->card, block, turn.count, block, SCARD_BLOCK_ROOM);
    lane->good += turn.kind == SCARD_DONE;
    turn = scard_card_reply(&lane->card, reply, sizeof reply, block, SCARD_BLOCK_ROOM);
    turn = scard_terminal_received(&lane->terminal, block, turn.count, block, SCARD_BLOCK_ROOM);
    lane->good += turn.kind == SCARD_DONE;
    lane->turn = scard_lent_terminal_transmit(SCARD_LENT(lane->lent, lane->command, lane->answer), command,
                                              sizeof command, block, SCARD_BLOCK_ROOM);
    return NULL;
}

static void *closes(void *given)
{
    struct lane *lane = (struct lane *)given;
    lane->good += scard_message(&lane->terminal, lane->got, sizeof lane->got).place == 2;
    lane->good += lane->turn.kind == SCARD_SEND && lane->turn.count == 9;
    scard_close(&lane->terminal);
    scard_close(&lane->card);
    return NULL;
}

int main(void)
{
    static struct lane lanes[LANES];
    void *(*const steps[])(void *) = {opens, exchanges, closes};
    int round, step, one;
    for (round = 0; round < ROUNDS; round++) {
        for (step = 0; step < 3; step++) {
            pthread_t threads[LANES];
            for (one = 0; one < LANES; one++) {
                if (pthread_create(&threads[one], NULL, steps[step], &lanes[one]) != 0) {
                    abort();
                }
            }
            for (one = 0; one < LANES; one++) {
                pthread_join(threads[one], NULL);
            }
        }
        for (one = 0; one < LANES; one++) {
            CHECK(lanes[one].good == 5);
        }
    }
    return verdict_of_checks("threads");
}
