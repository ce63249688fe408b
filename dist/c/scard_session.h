/* scard_session: a T=1 session in C, on top of the calls in scard.h that allocate nothing.
 *
 * This header implements both ends of a session, the terminal and the card, including the loop that sends and receives
 * blocks. A driver supplies two functions: one sends octets, and the other receives them within a waiting time. Over
 * these two functions the session exchanges whole commands and answers.
 *
 * This header is C and isn't proved, since a proved crate can't call functions of C. It is a loop over the proved steps
 * of a session, scard_lent_session_ and scard_lent_card_session_. It sends the block that a step names, or waits as
 * long as a step says, and passes what happened to the next step. It decides nothing about times, octets, blocks and
 * the limits of an exchange. If you can't wait in a call, in an event loop for example, write your own loop over the
 * same steps (docs/C.md).
 *
 * Begin a session at a reset of its card: a new terminal and a new card, never one without the other. If a card goes on
 * under a new terminal, it takes the first command for a repeat of the one before. It sends the old answer again, as if
 * that were a good one. If you can't reset the card, begin with scard_session_resync.
 *
 * No call allocates memory. Only one call at a time may use a session, from any thread. docs/C.md says how to use it,
 * and docs/WIRING.md how to use a serial port as its line. examples/c has a terminal and a card.
 */
#ifndef SCARD_SESSION_H
#define SCARD_SESSION_H

#include "scard.h"

#include <string.h>

#ifdef __cplusplus
extern "C" {
#endif

/* ---- the line ---- */

enum scard_line_said {
    SCARD_LINE_FAILED = -1,     /* the line failed or ended, or the program ends it */
    SCARD_LINE_INTERRUPTED = -2 /* a signal, for example, interrupted the call before octets or a timeout came */
};

/* A waiting time without a limit. */
#define SCARD_LINE_FOREVER UINT64_MAX

/* The line to the other end: three functions of the driver. The session passes `context`, which is the driver's own, to
 * each function.
 *
 * `send` sends all the octets. It returns 0 once the last bit is on the line, or SCARD_LINE_FAILED. A buffered driver
 * that returns earlier adds the rest of that time to the waits of `receive`.
 *
 * `receive` waits for octets, and returns as soon as there are any. It writes at most `room` of them to `octets`, and
 * returns their number. On a timeout, if no octet came within `microseconds`, it returns 0. It may wait longer than
 * that, but never shorter. The time counts from the last octet that was sent or received. If the line failed, it
 * returns SCARD_LINE_FAILED. If the call was interrupted, it returns SCARD_LINE_INTERRUPTED, and the session calls it
 * again with the same time. Once that time is over by `now`, the session calls it a last time with 0. So with `now`
 * interrupts make no wait longer. Without `now` each of them may begin the wait again, and then `receive` should wait
 * for the rest of its time by itself.
 *
 * `now` returns the time in microseconds, from a clock that never goes back. If it goes back all the same, it counts as
 * a clock that stood still. `now` may be null. Without it the session can promise less about the time of an exchange
 * (`most_microseconds`), and about a line with an echo that the setup doesn't declare (docs/WIRING.md).
 */
struct scard_line {
    void *context;
    int (*send)(void *context, const uint8_t *octets, size_t count);
    int (*receive)(void *context, uint8_t *octets, size_t room, uint64_t microseconds);
    uint64_t (*now)(void *context);
};

/* The clock of the card, which sets the elementary time unit, etu: Fi/Di cycles of a clock with a frequency of `hertz`.
 * Fi is 372 and Di is 1 until both ends negotiate others, whatever the answer to reset offers.
 */
struct scard_clock {
    uint16_t fi;
    uint16_t di;
    uint32_t hertz;
};

/* A value of `silence` for a line that delivers whole bursts, as a line of packets does. A burst that is a whole block
 * then ends at once. The sender of the packets has to keep BGT.
 */
#define SCARD_SILENCE_NONE UINT64_MAX

/* The limits of one exchange if the setup has 0. In the longest exchange the terminal sends 131,081 blocks: a command
 * of 65,544 octets and an answer of 65,538, in fields of one octet, with every block except the answer's last one
 * acknowledged. At 9,600 bits a second this takes some 35 minutes. The limits are some two times that number of blocks,
 * and more than one and a half times that time.
 */
#define SCARD_MOST_BLOCKS 262144
#define SCARD_MOST_MICROSECONDS UINT64_C(3600000000)

/* The setup of a session, for either end. Set all of it to 0 first.
 *
 * The session borrows the two buffers for as long as it is in use. 65,544 octets fit any command, and 65,538 any
 * answer. With smaller buffers, the session refuses longer messages as too long.
 *
 * `silence` is the silence, in microseconds, that ends a burst which is a whole block. It may be any time up to CWT. 0
 * means BGT, 22 etu (ISO/IEC 7816-3, clause 11.4.3). A burst that isn't a whole block yet ends after a silence of CWT.
 * If an octet of a block comes later than `silence` after the one before it, the session may cut the block there. The
 * octets before the cut may then pass for a block, but only if LEN is wrong. A `silence` of CWT rules this out for ends
 * that keep to CWT, but then the session waits that long after every block.
 *
 * `most_microseconds` limits the time of an exchange. With `now`, the exchange ends once that time is over and the call
 * of the line that is in progress has returned. Without `now`, the session counts what is certain: each wait in which
 * no octet came, and 12 etu for each octet that was sent or received (clause 11.2), unless `silence` is
 * SCARD_SILENCE_NONE. So no exchange ends before its time, and octets without end don't make it longer. But a wait in
 * which octets came doesn't count. If a card answers late each time, or asks for more time again and again, only
 * `most_blocks` ends the exchange, and each block may take up to 255 times BWT.
 *
 * `refuses_empty` is for a line whose other end never sends an I-block without information. No command and no response
 * is empty, so such a block is of use only in a chain. The standard permits it there (clause 11.6.2), and few ends send
 * it. But 00000000 is such a block: if the first octets of a block are lost, and the others are 0, it can be what is
 * left, and then it ends a chain early. If `refuses_empty` is true, the session makes such a block a damaged one, and
 * the end asks for it again. If the other end does send it, the exchange is given up.
 */
struct scard_setup {
    struct scard_line line;
    uint8_t *command;
    size_t command_room;
    uint8_t *answer;
    size_t answer_room;
    struct scard_t1 t1; /* the T=1 parameters of the card's answer to reset */
    struct scard_clock clock;
    uint64_t silence;           /* in microseconds; 0: BGT; SCARD_SILENCE_NONE: no silence */
    uint64_t most_microseconds; /* the time limit of one exchange of a terminal; 0: SCARD_MOST_MICROSECONDS;
                                   SCARD_LINE_FOREVER: no limit */
    uint32_t most_blocks;       /* how many blocks a terminal sends at most in one exchange; 0: SCARD_MOST_BLOCKS */
    bool echo;                  /* true if the line returns what is sent on it, as a UART on one wire does */
    bool refuses_empty;         /* true if an I-block without information counts as a damaged block */
    bool host_takes_short;      /* a card: true if the host also gets messages of fewer than four octets. No command is
                                   so short (ISO/IEC 7816-4), so otherwise the session replies 6700 for the host */
};

/* These kinds of scard.h end a call of this header:
 *
 * - SCARD_SESSION_FAILED: the line failed. The exchange isn't over, so only a call that begins the session again works.
 * - SCARD_SESSION_USED_UP: one exchange has used up its blocks or its time. The exchange isn't over either. Continue
 *   with a call that begins the session, such as scard_session_resync. Until then the session refuses every other call,
 *   _BUSY.
 * - SCARD_SESSION_NO_STATUS: the card answered with `count` octets, none or one. A response has at least two. The
 *   session goes on.
 * - SCARD_SESSION_ECHO: the line returns what is sent on it, and `echo` of the setup doesn't say so. No octet of the
 *   exchange is known to come from the other end. The exchange isn't over, as after FAILED. Set `echo`, reset the card,
 *   and begin again.
 */

/* Returns the name of a kind: that of scard_turn_name. */
static inline const char *scard_session_turn_name(int kind)
{
    return scard_turn_name(kind);
}

/* ---- the loop of both ends ---- */

/* Returns what a step said as a turn. */
static inline struct scard_turn scard_session_turn(struct scard_session_next next)
{
    const struct scard_turn turn = {next.kind, 0, next.count};
    return turn;
}

/* Returns true if both functions of a line that the session needs are there. */
static inline bool scard_line_is(const struct scard_line *line)
{
    return line->send != NULL && line->receive != NULL;
}

/* Returns the time of the line's clock, or 0 if it has none. */
static inline uint64_t scard_line_now(const struct scard_line *line)
{
    return line->now != NULL ? line->now(line->context) : 0;
}

/* Returns the numbers of a setup, as the steps take them. */
static inline struct scard_lent_setup scard_setup_numbers(const struct scard_setup *setup)
{
    struct scard_lent_setup numbers;
    memset(&numbers, 0, sizeof numbers);
    numbers.silence = setup->silence;
    numbers.most_time = setup->most_microseconds;
    numbers.most_blocks = setup->most_blocks;
    numbers.hertz = setup->clock.hertz;
    numbers.fi = setup->clock.fi;
    numbers.di = setup->clock.di;
    numbers.ifsc = setup->t1.ifsc;
    numbers.bwi = setup->t1.bwi;
    numbers.cwi = setup->t1.cwi;
    numbers.has_clock = setup->line.now != NULL;
    numbers.has_echo = setup->echo;
    numbers.refuses_empty = setup->refuses_empty;
    numbers.host_takes_short = setup->host_takes_short;
    return numbers;
}

/* What happened on a line, and the octets that came. */
struct scard_line_came {
    uint8_t event; /* enum scard_line_event */
    size_t count;
    uint8_t octets[SCARD_BURST_ROOM];
};

/* Waits for octets, and notes what happened. */
static inline void scard_line_waits(const struct scard_line *line, uint64_t microseconds, struct scard_line_came *came)
{
    const int got = line->receive(line->context, came->octets, sizeof came->octets, microseconds);
    const bool is_count = got > 0 && got <= (int)sizeof came->octets;
    came->event = is_count || got == SCARD_LINE_INTERRUPTED ? SCARD_EVENT_CAME
                  : got == 0                                ? SCARD_EVENT_SILENT
                                                            : SCARD_EVENT_FAILED;
    came->count = is_count ? (size_t)got : 0;
}

/* Sends the block or waits, as a step says. Returns false if it says neither: then the session rests. */
static inline bool scard_line_does(const struct scard_line *line, struct scard_session_next next, const uint8_t *out,
                                   struct scard_line_came *came)
{
    came->count = 0;
    switch (next.kind) {
    case SCARD_SEND:
        came->event = line->send(line->context, out, (size_t)next.count) == 0 ? SCARD_EVENT_SENT : SCARD_EVENT_FAILED;
        return true;
    case SCARD_SESSION_WAIT:
        scard_line_waits(line, next.wait, came);
        return true;
    default:
        return false;
    }
}

/* The state and the buffers of a session of either end, as the first five arguments of its steps. */
#define SCARD_SESSION_END(session)                                                                             \
    &(session)->lent, (session)->setup.command, (session)->setup.command_room, (session)->setup.answer,        \
        (session)->setup.answer_room

/* Notes that a session of either end has begun with a setup. */
#define SCARD_SESSION_BEGUN(session, with)                   \
    do {                                                     \
        (session)->setup = *(with);                          \
        (session)->bwt = (session)->lent.line.rules.bwt;     \
        (session)->cwt = (session)->lent.line.rules.cwt;     \
        (session)->self = (session);                         \
    } while (0)

/* Copies the waiting times to the line of a session. A driver may have made them longer. */
static inline void scard_session_times(struct scard_lent_line_rules *rules, uint64_t bwt, uint64_t cwt)
{
    rules->bwt = bwt;
    rules->cwt = cwt;
}

/* ---- the terminal ---- */

struct scard_session {
    struct scard_lent_session lent;
    struct scard_setup setup;
    uint64_t bwt;     /* BWT and CWT in microseconds; a driver may lengthen them, but never shorten them */
    uint64_t cwt;
    const void *self; /* this session, once begun; a copy of it isn't valid */
};

/* Begins a session with a card that was just reset. The call sends nothing. The caller owns the session, and may not
 * move it: a copy refuses all calls. The session borrows the buffers of the setup, and copies the setup itself. Returns
 * OK; or ARGUMENT if the parameters are invalid, a function of the line is missing, the clock doesn't run, or `silence`
 * is above CWT. With ARGUMENT the session is unchanged.
 */
SCARD_MUST_USE
static inline struct scard_verdict scard_session_begin(struct scard_session *session, const struct scard_setup *setup)
{
    const struct scard_lent_setup numbers = scard_setup_numbers(setup);
    struct scard_verdict verdict = {SCARD_ARGUMENT, 0, 0};
    if (scard_line_is(&setup->line)) {
        verdict = scard_lent_session_begin(&session->lent, setup->command, setup->command_room, setup->answer,
                                           setup->answer_room, &numbers);
    }
    if (verdict.status == SCARD_OK) {
        SCARD_SESSION_BEGUN(session, setup);
    }
    return verdict;
}

/* Does what the steps say until the session rests. */
static inline struct scard_turn scard_session_run(struct scard_session *session, struct scard_session_next next,
                                                  uint8_t out[SCARD_BLOCK_ROOM])
{
    const struct scard_line *line = &session->setup.line;
    struct scard_line_came came;
    while (scard_line_does(line, next, out, &came)) {
        next = scard_lent_session_step(SCARD_SESSION_END(session), came.event, came.octets, came.count,
                                       scard_line_now(line), out, SCARD_BLOCK_ROOM);
    }
    return scard_session_turn(next);
}

/* Returns true if the session was begun and isn't a copy. Then it copies what may change between two exchanges. */
static inline bool scard_session_readies(struct scard_session *session)
{
    if (session->self != session) {
        return false;
    }
    scard_session_times(&session->lent.line.rules, session->bwt, session->cwt);
    session->lent.most_blocks = session->setup.most_blocks;
    session->lent.most_time = session->setup.most_microseconds;
    return true;
}

/* Sends a command, and waits for its answer. The command may not overlap the buffers of the session. The results:
 *
 * - SCARD_DONE: the answer has `count` octets, at least two. They are at the start of the answer buffer until the next
 *   call.
 * - SCARD_SESSION_NO_STATUS: the answer has one octet or none.
 * - SCARD_GIVEN_UP: there is no answer, and it isn't known whether the card acted on the command. The field sizes are
 *   again those of the start.
 * - SCARD_DEAD, SCARD_SESSION_FAILED, SCARD_SESSION_USED_UP, SCARD_SESSION_ECHO: the session is over.
 * - The call was refused, and sent nothing: _DEAD, _BUSY (the line failed before, or a limit was reached), _TOO_LONG,
 *   SCARD_NO_END (the session was never begun, or is a copy).
 */
SCARD_MUST_USE
static inline struct scard_turn scard_session_exchange(struct scard_session *session, const uint8_t *command,
                                                       size_t count)
{
    uint8_t out[SCARD_BLOCK_ROOM];
    struct scard_session_next next = {SCARD_NO_END, 0, 0};
    if (scard_session_readies(session)) {
        next = scard_lent_session_exchange(SCARD_SESSION_END(session), command, count,
                                           scard_line_now(&session->setup.line), out, sizeof out);
    }
    return scard_session_run(session, next, out);
}

/* Tells the card the largest field that the terminal accepts from now on: `size`, 1 to 254 octets. A new session
 * accepts 32. Returns SCARD_IFS_SET, or another result of scard_session_exchange. The call refuses 0 and 255,
 * _RESERVED.
 */
SCARD_MUST_USE
static inline struct scard_turn scard_session_ask_ifs(struct scard_session *session, uint8_t size)
{
    uint8_t out[SCARD_BLOCK_ROOM];
    struct scard_session_next next = {SCARD_NO_END, 0, 0};
    if (scard_session_readies(session)) {
        next = scard_lent_session_ask_ifs(SCARD_SESSION_END(session), size, scard_line_now(&session->setup.line), out,
                                          sizeof out);
    }
    return scard_session_run(session, next, out);
}

/* Begins a session with a card that can't be reset, and whose state isn't known. It also recovers a session that failed
 * or was used up. First the call discards octets until the line is silent for BWT, so that no earlier block passes for
 * an answer. Then it sends RESYNCH to the card (ISO/IEC 7816-3, clause 11.6.3.2), at most three times, and sends
 * nothing else. No limit of an exchange applies. The results:
 *
 * - SCARD_GIVEN_UP: the card answered, so it is as at its start, and the session has begun. It isn't known whether the
 *   card's host acted on a command that was in progress.
 * - SCARD_DEAD: the card didn't answer.
 * - SCARD_SESSION_FAILED: the line failed. SCARD_SESSION_ECHO: it has an echo.
 * - SCARD_NO_END: scard_session_begin would return ARGUMENT.
 *
 * After SCARD_NO_END there is no session. After the others, unless the card answered, later calls are refused, as _DEAD
 * or _BUSY.
 */
SCARD_MUST_USE
static inline struct scard_turn scard_session_resync(struct scard_session *session, const struct scard_setup *setup)
{
    const struct scard_lent_setup numbers = scard_setup_numbers(setup);
    uint8_t out[SCARD_BLOCK_ROOM];
    struct scard_session_next next = {SCARD_NO_END, 0, 0};
    session->self = NULL;
    if (scard_line_is(&setup->line)) {
        next = scard_lent_session_resync(&session->lent, setup->command, setup->command_room, setup->answer,
                                         setup->answer_room, &numbers, scard_line_now(&setup->line), out, sizeof out);
    }
    if (next.kind != SCARD_NO_END) {
        SCARD_SESSION_BEGUN(session, setup);
    }
    return scard_session_run(session, next, out);
}

/* ---- the card ---- */

enum scard_host_kind {
    SCARD_HOST_REPLY = 0, /* the host replies: `count` octets at `octets`, outside the session's buffers */
    SCARD_HOST_TIME = 1,  /* the host needs `number` times the waiting time */
    SCARD_HOST_IFS = 2,   /* the card accepts fields of up to `number` octets from now on, 1 to 254 */
    SCARD_HOST_END = 3    /* the host stops serving */
};

struct scard_host_turn {
    uint8_t kind; /* enum scard_host_kind */
    uint8_t number;
    const uint8_t *octets;
    size_t count;
};

/* The host: the card's application. The session calls `serve` with a command, and copies the octets of a reply. The
 * octets of the buffer after the command are 0: the card overwrites an earlier command. If a message has fewer than
 * four octets, the session replies 6700 for the host, unless the setup says `host_takes_short`.
 * `granted` is the number of the host's requests about this command that the terminal granted. If it is 0, the command
 * is new, so act on it now. Otherwise it is the same command, so continue with it. If the terminal gives a command up
 * while a request of the host is pending, the session doesn't call `serve` for that command again.
 */
struct scard_host {
    void *context;
    struct scard_host_turn (*serve)(void *context, const uint8_t *command, size_t count, size_t granted);
};

struct scard_card_session {
    struct scard_lent_card_session lent;
    struct scard_setup setup;
    struct scard_host host;
    uint64_t bwt;     /* as in struct scard_session; the terminal expects an answer within BWT */
    uint64_t cwt;
    const void *self; /* this session, once begun; a copy of it isn't valid */
};

/* Begins a session at a reset of the card. The session copies the setup and the host, and borrows the buffers of the
 * setup. Returns OK or ARGUMENT as scard_session_begin does; ARGUMENT also if the host has no function.
 */
SCARD_MUST_USE
static inline struct scard_verdict scard_card_session_begin(struct scard_card_session *session,
                                                            const struct scard_setup *setup,
                                                            const struct scard_host *host)
{
    const struct scard_lent_setup numbers = scard_setup_numbers(setup);
    struct scard_verdict verdict = {SCARD_ARGUMENT, 0, 0};
    if (scard_line_is(&setup->line) && host->serve != NULL) {
        verdict = scard_lent_card_session_begin(&session->lent, setup->command, setup->command_room, setup->answer,
                                                setup->answer_room, &numbers);
    }
    if (verdict.status == SCARD_OK) {
        SCARD_SESSION_BEGUN(session, setup);
        session->host = *host;
    }
    return verdict;
}

/* Asks the host about the command of a step, and passes what it said. Returns false if it stops serving. */
static inline bool scard_card_session_asks(struct scard_card_session *session, struct scard_session_next *next,
                                           uint8_t out[SCARD_BLOCK_ROOM])
{
    static const struct scard_session_next stopped = {SCARD_DONE, 0, 0};
    const struct scard_host *host = &session->host;
    const struct scard_host_turn said = host->serve(host->context, session->setup.command, (size_t)next->count,
                                                    (size_t)session->lent.granted);
    const uint64_t now = scard_line_now(&session->setup.line);
    scard_session_times(&session->lent.line.rules, session->bwt, session->cwt);
    switch (said.kind) {
    case SCARD_HOST_REPLY:
        *next = scard_lent_card_session_reply(SCARD_SESSION_END(session), said.octets, said.count, now, out,
                                              SCARD_BLOCK_ROOM);
        return true;
    case SCARD_HOST_TIME:
        *next = scard_lent_card_session_more_time(SCARD_SESSION_END(session), said.number, now, out, SCARD_BLOCK_ROOM);
        return true;
    case SCARD_HOST_IFS:
        *next = scard_lent_card_session_ask_ifs(SCARD_SESSION_END(session), said.number, now, out, SCARD_BLOCK_ROOM);
        return true;
    default:
        *next = stopped;
        return false;
    }
}

/* Serves the terminal: answers its blocks without a time limit. The results:
 *
 * - SCARD_SESSION_FAILED: the line failed or ended. If the line works again, call this again to go on.
 * - SCARD_SESSION_ECHO: the line returns what the card sends.
 * - SCARD_DONE: the host stopped serving.
 * - SCARD_REFUSED_TOO_LONG, _RESERVED: what the host returned is invalid.
 * - SCARD_REFUSED_ORDER: the call before ended with SCARD_DONE, or with what the host returned. The card still owes a
 *   reply, so begin it again.
 * - SCARD_NO_END: the session was never begun, or is a copy.
 *
 * A card has to answer within BWT. So after a broken burst it discards all octets until the line is silent for three
 * quarters of BWT, or for CWT if that is longer. Then it answers. If the terminal pauses inside a block for longer than
 * that, the rest of the block is a burst of its own.
 */
SCARD_MUST_USE
static inline struct scard_turn scard_card_session_serve(struct scard_card_session *session)
{
    const struct scard_line *line = &session->setup.line;
    uint8_t out[SCARD_BLOCK_ROOM] = {0};
    struct scard_line_came came;
    struct scard_session_next next = {SCARD_NO_END, 0, 0};
    if (session->self == session) {
        scard_session_times(&session->lent.line.rules, session->bwt, session->cwt);
        next = scard_lent_card_session_serve(SCARD_SESSION_END(session), scard_line_now(line));
    }
    for (;;) {
        if (scard_line_does(line, next, out, &came)) {
            next = scard_lent_card_session_step(SCARD_SESSION_END(session), came.event, came.octets, came.count,
                                                scard_line_now(line), out, sizeof out);
        } else if (next.kind != SCARD_DONE || !scard_card_session_asks(session, &next, out)) {
            return scard_session_turn(next);
        }
    }
}

#ifdef __cplusplus
}
#endif

#endif
