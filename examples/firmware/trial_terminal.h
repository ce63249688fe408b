/* What both images of a terminal share: the commands, which answers are right, and the report. An exchange is right if
 * its answer belongs to its command, and wrong if it has another answer. An exchange that is given up counts as
 * neither: the terminal knows that it has no answer.
 */
#ifndef TRIAL_TERMINAL_H
#define TRIAL_TERMINAL_H

#include "trial.h"

static uint8_t kept_command[ROOM], kept_answer[ROOM], command[LONGEST], wanted[LONGEST + 2];
static size_t command_count, wanted_count;

/* Makes the command of an exchange, and the answer that belongs to it. */
static void make_command(uint32_t number)
{
    static uint32_t die = 7;
    size_t place;
    command_count = SHORTEST + board_any(&die) % (LONGEST - SHORTEST);
    for (place = 0; place < command_count; place++) {
        command[place] = (uint8_t)board_any(&die);
    }
    for (place = 0; place < NUMBER; place++) {
        command[place] = (uint8_t)(number >> 8 * place);
    }
    wanted_count = trial_answer(command, command_count, wanted);
}

/* Returns true if the answer of `count` octets is the one to the command. */
static bool is_right(size_t count)
{
    return count == wanted_count && memcmp(kept_answer, wanted, wanted_count) == 0;
}

/* Prints `N right, M given up, 0 wrong`. Returns the status of the image: 0 if nothing is wrong and half is right. */
static int report(uint32_t right, uint32_t given_up, uint32_t wrong)
{
    board_say_number(right);
    board_say(" right, ");
    board_say_number(given_up);
    board_say(" given up, ");
    board_say_number(wrong);
    board_say(" wrong\n");
    return wrong == 0 && right >= EXCHANGES / 2 ? 0 : 1;
}

#endif
