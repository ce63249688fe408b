/* When both ends send, in virtual time: after BGT, and after the silence that ends a block. After a broken block an end
 * sends once the line was silent for long enough: three quarters of BWT at the card, BWT at the terminal.
 */
#define _XOPEN_SOURCE 700
#include "rough.h"

static const uint8_t reply[2] = {0x90, 0x00}, command[5] = {0x00, 0xB0, 0x00, 0x00, 0x02};
static unsigned acted;

static struct scard_host_turn act(void *context, const uint8_t *octets, size_t count, size_t granted)
{
    struct scard_host_turn turn = {SCARD_HOST_REPLY, 0, reply, sizeof reply};
    (void)context, (void)octets, (void)count, (void)granted;
    acted++;
    return turn;
}

static const struct scard_host host = {NULL, act};

/* BGT is 2,292 microseconds, CWT 4,480, BWT 101,146, and an octet takes 1,250. */
enum { BGT = 2292, CWT = 4480, BWT = 101146, FIRST = 9 * ROUGH_OCTET, ANSWER = 6 * ROUGH_OCTET };

static void begins(uint64_t silence, int kind)
{
    static const struct scard_t1 t1 = {32, 0, 5};
    rough.setups[0] = rough_setup(0, t1, silence);
    rough.setups[1] = rough_setup(1, t1, silence);
    rough.kind = kind;
    rough.rate = 0;
    rough.die = 88172645463325252u;
    rough_reset(&host);
    CHECK(rough.terminal.bwt == BWT && rough.terminal.cwt == CWT);
    acted = 0;
}

/* Returns how long an exchange takes. */
static uint64_t exchange(void)
{
    const uint64_t began = rough.now;
    struct scard_turn turn;
    rough.blocks = 0;
    turn = scard_session_exchange(&rough.terminal, command, sizeof command);
    CHECK(turn.kind == SCARD_DONE && turn.count == 2 && memcmp(rough.answers[0], reply, 2) == 0);
    return rough.now - began;
}

/* Returns the time from the end of a block to the beginning of the next one. */
static uint64_t between(unsigned block, uint64_t octets)
{
    return rough.sent[block].at - rough.sent[block - 1].at - octets * ROUGH_OCTET;
}

/* A block ends once the line was silent for the time of the setup, and BGT passes between two blocks. */
static void silences(void)
{
    begins(0, ROUGH_CHANGED);
    CHECK(exchange() == BGT + FIRST + BGT + ANSWER + BGT && between(1, 9) == BGT); /* BGT after the reset */
    CHECK(exchange() == FIRST + BGT + ANSWER + BGT && between(1, 9) == BGT);
    begins(CWT, ROUGH_CHANGED);
    CHECK(exchange() == BGT + FIRST + CWT + ANSWER + CWT && exchange() == FIRST + CWT + ANSWER + CWT);
    begins(1000, ROUGH_CHANGED);
    CHECK(exchange() == BGT + FIRST + BGT + ANSWER + 1000);
    CHECK(exchange() == BGT - 1000 + FIRST + BGT + ANSWER + 1000 && between(1, 9) == BGT);
    begins(SCARD_SILENCE_NONE, ROUGH_CHANGED);
    CHECK(exchange() == FIRST + ANSWER && between(1, 9) == 0 && exchange() == FIRST + ANSWER);
}

/* The number, in an exchange, of the one block that has the fault. */
static unsigned met;

static int send_some(int from, const uint8_t *octets, size_t count)
{
    rough.rate = rough.blocks == met ? 1000 : 0;
    return rough_send(from, octets, count);
}

static int terminal_sends(void *context, const uint8_t *octets, size_t count)
{
    (void)context;
    return send_some(0, octets, count);
}

static int card_sends(void *context, const uint8_t *octets, size_t count)
{
    (void)context;
    return send_some(1, octets, count);
}

static void meets(int kind, unsigned number, uint64_t card_bwt)
{
    begins(0, kind);
    rough.terminal.setup.line.send = terminal_sends;
    rough.card.setup.line.send = card_sends;
    rough.card.bwt = card_bwt;
    met = number;
    CHECK(exchange() > 0 && acted == 1);
}

/* After a broken block of the terminal, the card answers after three quarters of BWT, and the answer comes within BWT.
 */
static void card_waits(int kind, uint64_t more)
{
    meets(kind, 0, BWT);
    CHECK(rough.blocks == 4 && rough.sent[1].from == 1 && rough.sent[1].pcb > 0x80 && rough.sent[1].pcb < 0x83);
    CHECK(between(1, 9) >= BWT / 4 * 3 && between(1, 9) <= BWT / 4 * 3 + more);
    CHECK(between(1, 9) + 4 * ROUGH_OCTET < BWT);
    CHECK(rough.sent[2].from == 0 && rough.sent[2].pcb == 0x00 && between(2, 4) == BGT);
}

/* It never waits less than CWT. */
static void card_waits_least(void)
{
    meets(ROUGH_CHANGED, 0, CWT);
    CHECK(between(1, 9) == CWT);
}

/* After a broken block of the card, the terminal asks for it again once the line was silent for BWT. */
static void terminal_waits(int kind, uint64_t least, uint64_t most)
{
    meets(kind, 1, BWT);
    CHECK(rough.blocks == 4 && rough.sent[2].from == 0 && rough.sent[2].pcb > 0x80 && rough.sent[2].pcb < 0x93);
    CHECK(rough.sent[3].pcb == 0x00 && between(3, 4) == BGT);
    CHECK(between(2, 6) >= least && between(2, 6) <= most);
}

/* Octets between two exchanges belong to no exchange. All are dropped, until the line was silent for BWT. */
static void late(void)
{
    static const uint8_t noise[4] = {0x00, 0x90, 0x00, 0x90};
    struct train train;
    begins(0, ROUGH_CHANGED);
    CHECK(exchange() > 0);
    rough_pass(rough.now + 50000, false);
    train_of(&train, noise, sizeof noise);
    road_take_up(&rough.ends[0].in, &train);
    rough_pass(rough.now + 50000, false);
    CHECK(exchange() == BWT - (50000 - 4 * ROUGH_OCTET) + FIRST + BGT + ANSWER + BGT && acted == 2);
}

/* A card that works for twice BWT after it asked for three times BWT, while noise comes to the terminal. Its answer is
 * dropped with the noise, and no block of the terminal collides with it.
 */
static struct scard_host_turn works(void *context, const uint8_t *octets, size_t count, size_t granted)
{
    static const uint8_t noise[3] = {0x3F, 0x00, 0xFF};
    struct scard_host_turn turn = act(context, octets, count, granted);
    struct train train;
    if (granted == 0) {
        turn.kind = SCARD_HOST_TIME;
        turn.number = 3;
        return turn;
    }
    rough_card_pass(rough.now + 1000, false);
    train_of(&train, noise, sizeof noise);
    road_take_up(&rough.ends[0].in, &train);
    rough_card_pass(rough.now + 2 * BWT, false);
    return turn;
}

static void granted(void)
{
    begins(0, ROUGH_CHANGED);
    rough.card.host.serve = works;
    CHECK(exchange() > 0 && rough.blocks == 6 && rough.sent[2].pcb == 0xE3);
    CHECK(rough.sent[3].from == 1 && rough.sent[3].pcb == 0x00 && rough.sent[4].pcb == 0x82);
    CHECK(between(4, 6) == 3 * BWT && rough.sent[5].pcb == 0x00 && between(5, 4) == BGT);
}

/* If the line of a card failed while the card waited for silence, the card first waits for that silence at the next
 * call.
 */
static int words(void *context, uint8_t *octets, size_t room, uint64_t microseconds)
{
    static const uint8_t whole[] = {0x00, 0x00, 0x05, 0x00, 0xB0, 0x00, 0x00, 0x02, 0xB7};
    unsigned *call = (unsigned *)context;
    CHECK(room >= sizeof whole);
    switch ((*call)++) {
    case 0: /* the front of a block */
        memcpy(octets, whole, 5);
        return 5;
    case 1: /* silence before its end */
        return 0;
    case 2: /* its rest, which is dropped */
        memcpy(octets, whole, sizeof whole);
        return (int)sizeof whole;
    case 4: /* after a failure: a block that comes without the silence before it */
        CHECK(microseconds == BWT / 4 * 3);
        memcpy(octets, whole, sizeof whole);
        return (int)sizeof whole;
    case 5:
        return 0;
    default:
        return SCARD_LINE_FAILED;
    }
}

static int never(void *context, const uint8_t *octets, size_t count)
{
    (void)context, (void)octets, (void)count;
    CHECK(false);
    return SCARD_LINE_FAILED;
}

static void interrupted(void)
{
    struct scard_card_session card;
    struct scard_setup setup;
    unsigned call = 0;
    begins(0, ROUGH_CHANGED);
    setup = rough.setups[1];
    setup.line.context = &call;
    setup.line.send = never;
    setup.line.receive = words;
    CHECK(scard_card_session_begin(&card, &setup, &host).status == SCARD_OK);
    CHECK(scard_card_session_serve(&card).kind == SCARD_SESSION_FAILED && call == 4);
    CHECK(scard_card_session_serve(&card).kind == SCARD_SESSION_FAILED && call == 7 && acted == 0);
}

int main(void)
{
    silences();
    card_waits(ROUGH_CHANGED, 0);
    card_waits(ROUGH_PAUSED_CWT, 5 * CWT);
    card_waits_least();
    terminal_waits(ROUGH_CHANGED, BWT, BWT);
    terminal_waits(ROUGH_ADDED, BWT + ROUGH_OCTET, BWT + 20 * ROUGH_OCTET);
    terminal_waits(ROUGH_PAUSED_CWT, BWT + CWT, BWT + 5 * CWT);
    late();
    granted();
    interrupted();
    return verdict_of_checks("session_times");
}
