/* The UART, the timer and the startup code of the board. board.h describes the functions. */
#include "board.h"
#include "registers.h"

static uint64_t ticks;
static uint32_t seen;

void board_begin(void)
{
    UART->divider = 1860; /* a bit takes an etu, 372 cycles of the card's 5 MHz */
    UART->control = TX_ON | RX_ON;
    CLOCK->reload = 0xFFFFFFFFu;
    CLOCK->value = 0xFFFFFFFFu;
    CLOCK->control = TIMER_ON;
    seen = CLOCK->value;
}

/* The timer counts down, and wraps after 171 seconds. The program has to read it more often than that. */
uint64_t board_now(void)
{
    uint32_t value = CLOCK->value;
    ticks += (uint32_t)(seen - value);
    seen = value;
    return ticks / MEGAHERTZ;
}

/* ---- the line ---- */

uint32_t board_any(uint32_t *die)
{
    *die = *die * 1664525u + 1013904223u;
    return *die >> 8;
}

bool board_disturb(struct board_line *line, uint8_t *octet)
{
    uint32_t fate = board_any(&line->die) % 1000000u;
    if (fate >= line->in_million && fate < 2 * line->in_million) {
        *octet ^= (uint8_t)(1u + board_any(&line->die) % 255u);
    }
    return fate >= line->in_million;
}

static void put(uint8_t octet)
{
    while (UART->state & TX_FULL) {
    }
    UART->data = octet;
}

/* Waits until the last bit is on the line. The transmitter reports that it is free a character earlier. */
static void await_last_bit(void)
{
    uint64_t began;
    while (UART->state & TX_FULL) {
    }
    began = board_now();
    while (board_now() - began < BOARD_CHARACTER) {
    }
}

static int line_send(void *context, const uint8_t *octets, size_t count)
{
    struct board_line *line = (struct board_line *)context;
    size_t place;
    for (place = 0; place < count; place++) {
        uint8_t octet = octets[place];
        if (board_disturb(line, &octet)) {
            put(octet);
        }
    }
    await_last_bit();
    line->last = board_now();
    return 0;
}

static int line_receive(void *context, uint8_t *octets, size_t room, uint64_t microseconds)
{
    struct board_line *line = (struct board_line *)context;
    size_t count = 0;
    while (!(UART->state & RX_FULL)) {
        uint64_t gone = board_now() - line->last;
        if (microseconds != SCARD_LINE_FOREVER && gone >= microseconds) {
            return 0;
        }
    }
    while (count < room && (UART->state & RX_FULL)) {
        octets[count++] = (uint8_t)UART->data;
    }
    line->last = board_now();
    return (int)count;
}

static uint64_t line_now(void *context)
{
    (void)context;
    return board_now();
}

struct scard_line board_line_of(struct board_line *line)
{
    struct scard_line found;
    found.context = line;
    found.send = line_send;
    found.receive = line_receive;
    found.now = line_now;
    line->last = board_now();
    return found;
}

/* ---- the debugger (semihosting) ---- */

enum { WRITE_TEXT = 0x04, EXIT = 0x20, APPLICATION_EXIT = 0x20026 };

static void debugger(int what, const void *with)
{
    register int r0 __asm__("r0") = what;
    register const void *r1 __asm__("r1") = with;
    __asm__ volatile("bkpt 0xab" : "+r"(r0) : "r"(r1) : "memory");
}

void board_say(const char *text)
{
    debugger(WRITE_TEXT, text);
}

void board_say_number(uint32_t number)
{
    char text[11];
    char *at = text + sizeof text - 1;
    *at = 0;
    do {
        *--at = (char)('0' + number % 10);
        number /= 10;
    } while (number > 0);
    board_say(at);
}

void board_end(int status)
{
    uint32_t said[2];
    said[0] = APPLICATION_EXIT;
    said[1] = (uint32_t)status;
    debugger(EXIT, said);
    for (;;) {
    }
}

/* ---- the start ---- */

extern uint32_t stack_end, data_begin, data_end, data_from, zero_begin, zero_end;
int main(void);

static void reset(void)
{
    uint32_t *to = &data_begin;
    const uint32_t *from = &data_from;
    while (to < &data_end) {
        *to++ = *from++;
    }
    for (to = &zero_begin; to < &zero_end; to++) {
        *to = 0;
    }
    board_end(main());
}

static void fault(void)
{
    board_say("fault\n");
    board_end(4);
}

/* scard.c calls this if an access would leave its buffer, which can't happen. The macro SCARD_OWN_TRAP says that the
 * program defines it.
 */
void scard_trap(void)
{
    board_say("trap\n");
    board_end(3);
}

/* The handlers of interrupts.c. An image without that file switches no interrupt on. */
void board_octet_came(void) __attribute__((weak, alias("fault")));
void board_octet_sent(void) __attribute__((weak, alias("fault")));
void board_alarm(void) __attribute__((weak, alias("fault")));

enum { DEVICES = 15 }; /* the place of the handler of interrupt 0 */

/* The vector table of the processor: the end of the stack, and the handlers of the first exceptions and of devices. */
__attribute__((section(".vectors"), used)) static const struct {
    uint32_t *stack;
    void (*handlers[DEVICES + 16])(void);
} vectors = {&stack_end,
             {reset, fault, fault, fault, fault, fault, [DEVICES + RX_NUMBER] = board_octet_came,
              [DEVICES + TX_NUMBER] = board_octet_sent, [DEVICES + ALARM_NUMBER] = board_alarm}};
