/* The host of both images of a card. It acts on each command once. If a command has a number that the card has answered
 * before, it answers 6F 00, which the terminal counts as wrong: a card may not act on a command twice.
 */
#ifndef TRIAL_CARD_H
#define TRIAL_CARD_H

#include "trial.h"

static uint8_t kept_command[ROOM], kept_answer[ROOM], reply[LONGEST + 2];

static uint32_t number_of(const uint8_t *command)
{
    return command[0] | (uint32_t)command[1] << 8 | (uint32_t)command[2] << 16 | (uint32_t)command[3] << 24;
}

static struct scard_host_turn serve(void *context, const uint8_t *command, size_t count, size_t granted)
{
    static const uint8_t again[] = {0x6F, 0x00};
    static uint32_t last;
    struct scard_host_turn turn;
    (void)context;
    memset(&turn, 0, sizeof turn);
    turn.kind = SCARD_HOST_REPLY;
    if (granted == 0 && count % 16 == 0) {
        turn.kind = SCARD_HOST_TIME; /* the card sometimes asks for more time before it acts */
        turn.number = 2;
        return turn;
    }
    if (count < SHORTEST || count > LONGEST || number_of(command) <= last) {
        turn.octets = again;
        turn.count = sizeof again;
        return turn;
    }
    last = number_of(command);
    turn.octets = reply;
    turn.count = trial_answer(command, count, reply);
    return turn;
}

#endif
