/* The interrupts of the UART and of the alarm, and the steps of the main loop. interrupts.h describes the functions. */
#include "interrupts.h"
#include "registers.h"

/* ---- what the interrupts and the main loop share ---- */

/* The octets that came, each with a mark if it is damaged. Only the interrupt writes `came` and the octets before it.
 * Only the main loop writes `taken`. Both numbers wrap at 256, a multiple of WIRE_STORE.
 */
enum { DAMAGED = 0x100 };

static struct {
    volatile uint16_t octets[WIRE_STORE];
    volatile uint8_t came;
    volatile uint8_t taken;
    bool is_lost; /* an octet was lost before the next one */
} in;

/* The octets that still have to be sent. They belong to the interrupt until `is_done`. */
static struct {
    const uint8_t *octets;
    size_t left;
    volatile bool is_done;
} out;

static struct board_line sends, hears; /* how the octets are disturbed */
static volatile bool is_awake;         /* an interrupt came since the main loop looked */

/* ---- the interrupts: all have one priority, so none interrupts another ---- */

static void store(uint8_t octet)
{
    bool is_damaged = in.is_lost || board_any(&hears.die) % 1000000u < hears.in_million;
    in.is_lost = (uint8_t)(in.came - in.taken) == WIRE_STORE;
    if (!in.is_lost) {
        in.octets[in.came % WIRE_STORE] = (uint16_t)(octet | (is_damaged ? DAMAGED : 0));
        in.came++;
    }
}

void board_octet_came(void)
{
    UART->interrupt = RX_INTERRUPT; /* before the octet is read: the next one may come at once */
    while (UART->state & RX_FULL) {
        if (UART->state & RX_OVERRUN) {
            UART->state = RX_OVERRUN;
            in.is_lost = true;
        }
        store((uint8_t)UART->data);
    }
    is_awake = true;
}

/* Gives the UART the next octet that the test doesn't lose. */
static void send_next(void)
{
    while (out.left > 0) {
        uint8_t octet = *out.octets++;
        out.left--;
        if (board_disturb(&sends, &octet)) {
            UART->data = octet; /* comes last: the interrupt may follow at once */
            return;
        }
    }
    out.is_done = true;
}

void board_octet_sent(void)
{
    UART->interrupt = TX_INTERRUPT;
    send_next();
    is_awake = true;
}

void board_alarm(void)
{
    ALARM->interrupt = TIMER_INTERRUPT;
    ALARM->control = 0;
    is_awake = true;
}

/* ---- the main loop ---- */

void wire_begin(struct wire *wire, uint32_t in_million, uint32_t die)
{
    sends.in_million = hears.in_million = in_million;
    sends.die = die;
    hears.die = ~die;
    memset(wire, 0, sizeof *wire);
    wire->last = board_now();
    UART->control = TX_ON | RX_ON | TX_INTERRUPTS | RX_INTERRUPTS;
    board_octet_came(); /* an octet that came before this has no interrupt */
    INTERRUPTS_ON = 1u << RX_NUMBER | 1u << TX_NUMBER | 1u << ALARM_NUMBER;
}

void wire_begins(struct wire *wire, struct scard_session_next next)
{
    wire->next = next;
    wire->due = UINT64_MAX;
    if (next.kind == SCARD_SEND) {
        out.octets = wire->block;
        out.left = (size_t)next.count;
        out.is_done = false;
        send_next();
    } else if (next.wait < UINT64_MAX - wire->last) {
        wire->due = wire->last + next.wait;
    }
}

bool wire_rests(const struct wire *wire)
{
    return wire->next.kind != SCARD_SEND && wire->next.kind != SCARD_SESSION_WAIT;
}

/* Takes the octets that came. Returns false if there are none. */
static bool take(struct wire *wire, struct wire_came *came)
{
    came->event = SCARD_EVENT_CAME;
    while (came->count < WIRE_STORE && in.taken != in.came) {
        const uint16_t octet = in.octets[in.taken % WIRE_STORE];
        came->octets[came->count++] = (uint8_t)octet;
        came->event = octet & DAMAGED ? SCARD_EVENT_GARBLED : came->event;
        in.taken++;
    }
    wire->last = came->count > 0 ? board_now() : wire->last;
    return came->count > 0;
}

/* Returns true once the last bit is on the line. The transmitter reports that it is free a character earlier. */
static bool is_sent(struct wire *wire, uint64_t now)
{
    if (out.is_done) {
        out.is_done = false;
        wire->last = wire->due = now + BOARD_CHARACTER;
    }
    return now >= wire->due;
}

bool wire_takes(struct wire *wire, struct wire_came *came)
{
    const uint64_t now = board_now(); /* before the look at the octets: no octet that came by now is missed */
    is_awake = false;
    came->count = 0;
    if (wire->next.kind == SCARD_SEND) {
        came->event = SCARD_EVENT_SENT;
        return is_sent(wire, now);
    }
    if (take(wire, came)) {
        return true;
    }
    came->event = SCARD_EVENT_SILENT;
    return now >= wire->due;
}

/* Sets the alarm, but for a minute at most: the program has to read the clock before that wraps. */
static void set_alarm(uint64_t microseconds)
{
    const uint32_t ticks = (uint32_t)(microseconds < 60000000u ? microseconds + 1 : 60000000u) * MEGAHERTZ;
    ALARM->control = 0;
    ALARM->value = ticks;
    ALARM->reload = ticks;
    ALARM->control = TIMER_ON | TIMER_INTERRUPTS;
}

void wire_sleep(const struct wire *wire)
{
    const uint64_t now = board_now();
    set_alarm(now < wire->due ? wire->due - now : 0);
    __asm__ volatile("cpsid i" ::: "memory");
    if (!is_awake) {
        __asm__ volatile("wfi" ::: "memory"); /* an interrupt since cpsid is pending, and so ends it at once */
    }
    __asm__ volatile("cpsie i" ::: "memory");
}
