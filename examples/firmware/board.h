/* The board: a UART as the line of a session, a timer, and the connection to the debugger. It is Arm's MPS2 with a
 * Cortex-M4 (AN386), as qemu emulates it.
 */
#ifndef BOARD_H
#define BOARD_H

#include "scard_session.h"

/* The line over the first UART. To test the session, it disturbs the octets that it sends: of a million octets it loses
 * `in_million` and changes `in_million`, by a fixed sequence.
 */
struct board_line {
    uint64_t last;        /* when the last octet was sent or received, in microseconds */
    uint32_t in_million;  /* how many octets of a million are lost, and how many are changed */
    uint32_t die;         /* the state of the fixed sequence */
};

/* The time of a character of 12 bits on the line, in microseconds. A bit takes an etu of trial.h, 74.4 microseconds. */
enum { BOARD_CHARACTER = 893 };

/* Starts the UART and the timer. */
void board_begin(void);

/* Returns the time in microseconds since board_begin. */
uint64_t board_now(void);

/* Disturbs an octet that the line is about to send. Returns false if the octet is lost. */
bool board_disturb(struct board_line *line, uint8_t *octet);

/* Returns the line of a session over the UART. Its calls wait. interrupts.h has a line without a call that waits. */
struct scard_line board_line_of(struct board_line *line);

/* Writes a text, or a number in decimal digits, to the debugger. */
void board_say(const char *text);
void board_say_number(uint32_t number);

/* Ends the program. The debugger, which is qemu, exits with this status. */
void board_end(int status);

/* Returns the next number of a fixed sequence. */
uint32_t board_any(uint32_t *die);

/* The handlers of the interrupts: an octet came, the UART takes another octet, the alarm's time is over. */
void board_octet_came(void);
void board_octet_sent(void);
void board_alarm(void);

#endif
