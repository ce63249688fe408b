/* The registers of the board: Arm's MPS2 with a Cortex-M4 (AN386). */
#ifndef REGISTERS_H
#define REGISTERS_H

#include <stdint.h>

struct uart {
    volatile uint32_t data, state, control, interrupt, divider;
};

struct timer {
    volatile uint32_t control, value, reload, interrupt;
};

#define UART ((struct uart *)0x40004000u)
#define CLOCK ((struct timer *)0x40000000u)
#define ALARM ((struct timer *)0x40001000u)
#define INTERRUPTS_ON (*(volatile uint32_t *)0xE000E100u)

/* The bits of the registers. To clear a bit of `interrupt`, or an overrun in `state`, write it as 1. */
enum {
    TX_FULL = 1,
    RX_FULL = 2,
    RX_OVERRUN = 8, /* an octet came while the one before was unread, and overwrote it */
    TX_ON = 1,
    RX_ON = 2,
    TX_INTERRUPTS = 4,
    RX_INTERRUPTS = 8,
    TX_INTERRUPT = 1,
    RX_INTERRUPT = 2,
    TIMER_ON = 1,
    TIMER_INTERRUPTS = 8,
    TIMER_INTERRUPT = 1
};

/* The numbers of the interrupts. */
enum { RX_NUMBER = 0, TX_NUMBER = 1, ALARM_NUMBER = 9 };

/* Both timers count down with this frequency. */
enum { MEGAHERTZ = 25 };

#endif
