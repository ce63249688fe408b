/* A line on which both ends read their own octets back. An end doesn't take what it sent for octets of the other end,
 * but it accepts what comes right after. If the echo differs, the end asks for the block again.
 */
#define _XOPEN_SOURCE 700
#include "rough.h"

static const uint8_t reply[2] = {0x90, 0x00}, command[5] = {0x00, 0xB0, 0x00, 0x00, 0x02};
static unsigned acted;

static struct scard_host_turn act(void *context, const uint8_t *octets, size_t count, size_t granted)
{
    struct scard_host_turn turn = {SCARD_HOST_REPLY, 0, reply, sizeof reply};
    (void)context;
    CHECK(granted == 0 && count == sizeof command && memcmp(octets, command, count) == 0);
    acted++;
    return turn;
}

static const struct scard_host host = {NULL, act};

static void begins(bool terminal_hears, bool card_hears)
{
    static const struct scard_t1 t1 = {32, 0, 5};
    rough.setups[0] = rough_setup(0, t1, 0);
    rough.setups[1] = rough_setup(1, t1, 0);
    rough.setups[0].echo = terminal_hears;
    rough.setups[1].echo = card_hears;
    rough.kind = ROUGH_CHANGED;
    rough.rate = 0;
    rough.die = 88172645463325252u;
    rough_reset(&host);
    acted = rough.blocks = 0;
}

static uint8_t exchange(void)
{
    struct scard_turn turn = scard_session_exchange(&rough.terminal, command, sizeof command);
    CHECK(turn.kind != SCARD_DONE || (turn.count == 2 && memcmp(rough.answers[0], reply, 2) == 0));
    return turn.kind;
}

/* Exchanges on a good line, in each way in which a driver delivers octets. */
static void heard(void)
{
    int way, round;
    for (way = 0; way < 12; way++) {
        begins(way % 3 != 1, way % 3 != 0);
        rough.ends[0].by_octets = way / 3 % 2 == 1;
        rough.ends[1].by_octets = way / 6 == 1;
        for (round = 0; round < 5; round++) {
            CHECK(exchange() == SCARD_DONE);
        }
        CHECK(acted == 5 && rough.blocks == 10);
    }
    rough.ends[0].by_octets = rough.ends[1].by_octets = false;
}

/* The octets of a block come back changed, or not all of them, at one end or the other. */
static void collides(void)
{
    unsigned seed;
    begins(true, true);
    rough.rate = 100;
    for (seed = 0; seed < 400; seed++) {
        uint8_t kind;
        rough.kind = seed % 2 == 0 ? ROUGH_CHANGED : ROUGH_LOST;
        kind = exchange();
        CHECK(kind == SCARD_DONE || kind == SCARD_GIVEN_UP);
    }
    CHECK(rough.blocks > 900 && acted >= 390 && acted <= 400);
}

/* ---- by a script: what the line returns for each block ---- */

struct script {
    const char *words[8]; /* "" is silence */
    size_t next;
    unsigned sent;
    uint8_t last[SCARD_BLOCK_ROOM];
};

static int script_send(void *context, const uint8_t *octets, size_t count)
{
    struct script *script = (struct script *)context;
    script->sent++;
    memcpy(script->last, octets, count);
    return 0;
}

static int script_receive(void *context, uint8_t *octets, size_t room, uint64_t microseconds)
{
    struct script *script = (struct script *)context;
    struct octets all;
    size_t count;
    if (microseconds == 0 || script->words[script->next] == NULL) {
        return 0;
    }
    all = of_hex(script->words[script->next++]);
    count = all.count;
    CHECK(count <= room);
    memcpy(octets, all.at, count);
    free(all.at);
    return (int)count;
}

static struct scard_turn by_script(struct script *script)
{
    static const struct scard_t1 t1 = {32, 0, 5};
    struct scard_setup setup = rough_setup(0, t1, 0);
    static struct scard_session session;
    struct scard_turn turn;
    setup.line.context = script;
    setup.line.send = script_send;
    setup.line.receive = script_receive;
    setup.line.now = NULL;
    setup.echo = true;
    CHECK(scard_session_begin(&session, &setup).status == SCARD_OK);
    turn = scard_session_exchange(&session, command, sizeof command);
    CHECK(turn.kind != SCARD_DONE || (turn.count == 2 && memcmp(rough.answers[0], reply, 2) == 0));
    return turn;
}

/* The first silence is BGT after the reset. */
static void scripts(void)
{
    struct script whole = {{"", "00000500B0000002B7000002900092", "", NULL}, 0, 0, {0}};
    struct script pieces = {{"", "000005", "00B0000002B70000", "02900092", "", NULL}, 0, 0, {0}};
    struct script changed = {{"", "00000500B0000003B7000002900092", "", "00800080", "000002900092", "", NULL},
                             0, 0, {0}};
    struct script missing = {{"", "00000500B0", "", "", "00800080", "000002900092", "", NULL}, 0, 0, {0}};
    struct script more = {{"", "00000500B0000002B700000290009200", "", "", "00820082000002900092", "", NULL},
                          0, 0, {0}};
    struct script none = {{"", "", NULL}, 0, 0, {0}};
    CHECK(by_script(&whole).kind == SCARD_DONE && whole.sent == 1 && whole.next == 3);
    CHECK(by_script(&pieces).kind == SCARD_DONE && pieces.sent == 1 && pieces.next == 5);
    CHECK(by_script(&changed).kind == SCARD_DONE && changed.sent == 2 && is_hex(changed.last, 4, "00800080"));
    CHECK(by_script(&missing).kind == SCARD_DONE && missing.sent == 2 && is_hex(missing.last, 4, "00800080"));
    CHECK(by_script(&more).kind == SCARD_DONE && more.sent == 2 && is_hex(more.last, 4, "00820082"));
    CHECK(by_script(&none).kind == SCARD_SESSION_FAILED && none.sent == 1);
}

int main(void)
{
    heard();
    collides();
    scripts();
    return verdict_of_checks("session_echo");
}
