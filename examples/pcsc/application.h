/* What a card does: its answer to reset, and its reply to each command. application.c is an example. */
#ifndef APPLICATION_H
#define APPLICATION_H

#include <stddef.h>
#include <stdint.h>

enum { LONGEST_COMMAND = 65544, LONGEST_REPLY = 65538, LONGEST_ATR = 33 };

/* Writes the reply to a command to `reply`, including the status bytes. Returns its length, at most LONGEST_REPLY
 * octets. At a reset `command` is NULL, and the function writes the answer to reset, at most LONGEST_ATR octets. That
 * answer has to offer T=1.
 */
size_t application(const uint8_t *command, size_t count, uint8_t *reply);

#endif
