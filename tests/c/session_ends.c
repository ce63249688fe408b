/* Sessions of both ends under faults, with requests of the card's host. */
#include "wired.h"

static struct wired wired;
static uint8_t made[MESSAGE_ROOM];
static size_t made_count;
static unsigned acted, asks; /* commands that the host acted on, and the requests that it makes for each */
static uint32_t last_acted;
static int wrong;
static uint8_t kind_of_end = SCARD_HOST_REPLY;

/* A command has its number in its octets 5 to 8, and then octets that depend on the number. The reply is the command
 * and 9000. The host acts on each command once, in their order. First it asks for time, then for a field size. */
static struct scard_host_turn act(void *context, const uint8_t *command, size_t count, size_t granted)
{
    struct scard_host_turn turn = {SCARD_HOST_REPLY, 5, made, 0};
    uint32_t number = (uint32_t)command[5] << 24 | (uint32_t)command[6] << 16 | (uint32_t)command[7] << 8 | command[8];
    wrong += context != &wired || (granted == 0 && number <= last_acted) || (granted > 0 && number != last_acted);
    if (granted == 0) {
        acted++;
        last_acted = number;
        memcpy(made, command, made_count = count);
        memcpy(made + count, "\x90\x00", 2);
    }
    if (granted < asks) {
        turn.kind = granted == 0 ? SCARD_HOST_TIME : SCARD_HOST_IFS;
        turn.number = granted == 0 ? 5 : (uint8_t)(20 + number % 200);
        return turn;
    }
    turn.kind = kind_of_end;
    turn.count = made_count + 2;
    return turn;
}

static const struct scard_host host = {&wired, act};

static struct scard_turn exchange(uint32_t number, size_t count)
{
    uint8_t command[MESSAGE_ROOM] = {0x00, 0xCB, 0x3F, 0xFF, 0x00};
    size_t place;
    for (place = 5; place < count; place++) {
        command[place] = (uint8_t)(place < 9 ? number >> (24 - 8 * (place - 5)) : number * 7 + place);
    }
    return scard_session_exchange(&wired.terminal, command, count);
}

/* Returns whether the answer is that of this command. */
static int is_answer(struct scard_turn turn, uint32_t number, size_t count)
{
    size_t place;
    int same = turn.kind == SCARD_DONE && turn.count == count + 2;
    for (place = 9; same && place < count; place++) {
        same = wired.answers[0][place] == (uint8_t)(number * 7 + place);
    }
    return same && (uint32_t)(wired.answers[0][5] << 24 | wired.answers[0][6] << 16 | wired.answers[0][7] << 8
                              | wired.answers[0][8]) == number;
}

/* Runs sessions of 40 exchanges at a rate of faults, and prints their results. */
static void sessions(unsigned rate)
{
    uint32_t number = 0;
    unsigned right = 0, failed = 0, dead = 0, round;
    acted = 0;
    last_acted = 0;
    for (round = 0; round < 50; round++) {
        unsigned at;
        wired_begin(&wired, &host, round + 1, rate);
        asks = round % 3;
        for (at = 0; at < 40; at++) {
            size_t count = 9 + (number * 31) % 250;
            struct scard_turn turn = exchange(++number, count);
            right += turn.kind == SCARD_DONE;
            failed += turn.kind == SCARD_GIVEN_UP;
            dead += turn.kind == SCARD_DEAD;
            CHECK(turn.kind == SCARD_DONE ? is_answer(turn, number, count)
                                          : turn.kind == SCARD_GIVEN_UP || turn.kind == SCARD_DEAD);
            if (turn.kind != SCARD_DEAD && at % 8 == 0) {
                turn = scard_session_ask_ifs(&wired.terminal, (uint8_t)(10 + number % 240));
                CHECK(turn.kind == SCARD_IFS_SET || turn.kind == SCARD_GIVEN_UP || turn.kind == SCARD_DEAD);
            }
            if (turn.kind == SCARD_DEAD) {
                wired_begin(&wired, &host, number + 1000, rate);
            }
        }
    }
    CHECK(right <= acted && acted <= number && wrong == 0);
    CHECK(rate > 0 || (right == number && acted == number));
    CHECK(rate > 50 || right > number / 2);
    printf("%lu of 1,000 blocks disturbed: %lu exchanges, %lu right, %lu given up, %lu dead\n", (unsigned long)rate,
           (unsigned long)number, (unsigned long)right, (unsigned long)failed, (unsigned long)dead);
}

/* The terminal waits as many waiting times as it granted, for one block. After that it waits one. */
static void waits(void)
{
    uint64_t bwt;
    wired_begin(&wired, &host, 1, 0);
    last_acted = 0;
    bwt = wired.terminal.bwt;
    asks = 1;
    CHECK(is_answer(exchange(1, 20), 1, 20) && wired.last[1] == 0xE3 && wired.waited == 5 * bwt);
    asks = 0;
    CHECK(is_answer(exchange(2, 20), 2, 20) && wired.waited == bwt);
    asks = 2;
    CHECK(is_answer(exchange(3, 20), 3, 20) && wired.last[1] == 0xE1 && wired.waited == bwt);
}

/* If a command is given up while the host asks for time, the host isn't asked about it again. The next command is
 * new. */
static void given_up(void)
{
    wired_begin(&wired, &host, 1, 0);
    last_acted = 0;
    asks = 1;
    wired_put(&wired, &wired.to_card, (const uint8_t *)"\x00\x00\x09\x00\xCB\x3F\xFF\x00\x00\x00\x00\x01\x03", 13);
    CHECK(scard_card_session_serve(&wired.card).kind == SCARD_SESSION_FAILED && last_acted == 1);
    wired.to_terminal.count = 0;
    CHECK(scard_session_resync(&wired.terminal, &wired.setups[0]).kind == SCARD_GIVEN_UP);
    CHECK(wired.card.lent.granted == 0 && last_acted == 1);
    CHECK(is_answer(exchange(2, 30), 2, 30) && wrong == 0);
}

/* The ways in which a card's session ends. */
static void ends(void)
{
    wired_begin(&wired, &host, 1, 0);
    last_acted = 0;
    asks = 0;
    kind_of_end = SCARD_HOST_END;
    CHECK(exchange(1, 20).kind == SCARD_DEAD && wired.served.kind != SCARD_SESSION_FAILED);
    kind_of_end = SCARD_HOST_IFS;
    wired_begin(&wired, &host, 1, 0);
    wired.setups[1].clock.hertz = 0;
    CHECK(scard_card_session_begin(&wired.card, &wired.setups[1], &host).status == SCARD_ARGUMENT);
    kind_of_end = SCARD_HOST_REPLY;
    wired_begin(&wired, &host, 1, 0);
    wired.card.setup.answer_room = 3;
    CHECK(exchange(2, 20).kind == SCARD_DEAD && wired.served.kind == SCARD_NO_END);
    wired_begin(&wired, &host, 1, 0);
    wired.setups[1].answer_room = 3;
    CHECK(scard_card_session_begin(&wired.card, &wired.setups[1], &host).status == SCARD_OK);
    CHECK(exchange(3, 20).kind == SCARD_DEAD);
}

static int fail(void *context, const uint8_t *octets, size_t count)
{
    (void)context, (void)octets, (void)count;
    return SCARD_LINE_FAILED;
}

/* After the line failed, the exchange stays open until a new session begins. */
static void fails(void)
{
    wired_begin(&wired, &host, 1, 0);
    last_acted = 0;
    wired.terminal.setup.line.send = fail;
    CHECK(exchange(1, 20).kind == SCARD_SESSION_FAILED && exchange(2, 20).kind == SCARD_REFUSED_BUSY);
    CHECK(exchange(3, MESSAGE_ROOM).kind == SCARD_REFUSED_BUSY);
    CHECK(scard_session_begin(&wired.terminal, &wired.setups[0]).status == SCARD_OK);
    CHECK(is_answer(exchange(4, 20), 4, 20));
    CHECK(scard_session_ask_ifs(&wired.terminal, 0).kind == SCARD_REFUSED_RESERVED);
}

int main(void)
{
    sessions(0);
    sessions(20);
    sessions(50);
    sessions(300);
    waits();
    given_up();
    ends();
    fails();
    return verdict_of_checks("session_ends");
}
