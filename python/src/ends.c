/* Both ends of a session, step by step: they neither send nor wait. */
#include "scardmodule.h"

#define TERMINAL "terminal"
#define CARD "card"

/* An end, with its two buffers after it: of commands, and of answers. */
struct end {
    struct kept kept;
    size_t command_room, answer_room;
    union {
        struct scard_lent_terminal terminal;
        struct scard_lent_card card;
    } as;
    uint8_t buffers[];
};

/* The arguments with which each call of the library begins. */
#define BUFFERS(end) (end)->buffers, (end)->command_room, (end)->buffers + (end)->command_room, (end)->answer_room
#define AS_TERMINAL(end) &(end)->as.terminal, BUFFERS(end)
#define AS_CARD(end) &(end)->as.card, BUFFERS(end)

/* The rooms are those of the longest messages at most. */
#define LONGEST_COMMAND 65544
#define LONGEST_ANSWER 65538

/* Makes an end from (ifsc, bwi, cwi, command_room, answer_room). */
static PyObject *end_new(PyObject *module, arguments given, Py_ssize_t count, const char *name, bool is_card)
{
    uint8_t ifsc, bwi, cwi;
    uint64_t command_room, answer_room;
    struct scard_verdict verdict;
    struct end *end;
    PyObject *capsule;
    if (!count_is(count, 5) || !octet_of(given[0], &ifsc) || !octet_of(given[1], &bwi) || !octet_of(given[2], &cwi)
        || !number_of(given[3], LONGEST_COMMAND, &command_room) || !number_of(given[4], LONGEST_ANSWER, &answer_room)) {
        return NULL;
    }
    capsule = kept_new(name, sizeof *end + (size_t)(command_room + answer_room));
    if (capsule == NULL) {
        return NULL;
    }
    end = (struct end *)PyCapsule_GetPointer(capsule, name);
    end->command_room = (size_t)command_room;
    end->answer_room = (size_t)answer_room;
    verdict = is_card ? scard_lent_card_begin(AS_CARD(end), ifsc, bwi, cwi)
                      : scard_lent_terminal_begin(AS_TERMINAL(end), ifsc, bwi, cwi);
    if (verdict.status != SCARD_OK) {
        Py_DECREF(capsule);
        return raise_verdict(module, verdict, 0);
    }
    return capsule;
}

/* Returns a turn, with the block that it sends. */
static PyObject *turn_made(PyObject *module, struct scard_turn turn, const uint8_t *out)
{
    PyObject *values[3];
    values[0] = member(module, MADE_KIND, turn.kind);
    values[1] = PyLong_FromLong(turn.wait);
    values[2] = bytes_of(out, turn.kind == SCARD_SEND ? (size_t)turn.count : 0);
    return make(module, MADE_TURN, values, 3);
}

/* A call of an end that takes octets. */
typedef struct scard_turn takes_octets(struct end *end, const struct octets *octets, uint8_t *out);

static PyObject *with_octets(PyObject *module, arguments given, Py_ssize_t count, const char *name,
                             takes_octets *call)
{
    uint8_t out[SCARD_BLOCK_ROOM];
    struct scard_turn turn = {SCARD_NO_END, 0, 0};
    struct octets octets;
    struct end *end;
    if (!count_is(count, 2) || !octets_of(given[1], &octets)) {
        return NULL;
    }
    end = (struct end *)kept_of(module, given[0], name);
    if (end != NULL) {
        turn = call(end, &octets, out);
    }
    octets_release(&octets);
    return end == NULL ? NULL : turn_made(module, turn, out);
}

/* A call of an end that takes a number, or 0. */
typedef struct scard_turn takes_number(struct end *end, uint8_t number, uint8_t *out);

static PyObject *with_number(PyObject *module, arguments given, Py_ssize_t count, const char *name,
                             takes_number *call)
{
    uint8_t number, out[SCARD_BLOCK_ROOM];
    struct end *end;
    if (!count_is(count, 2) || !octet_of(given[1], &number)) {
        return NULL;
    }
    end = (struct end *)kept_of(module, given[0], name);
    return end == NULL ? NULL : turn_made(module, call(end, number, out), out);
}

static PyObject *end_close(arguments given, Py_ssize_t count, const char *name)
{
    if (!count_is(count, 1)) {
        return NULL;
    }
    if (PyCapsule_IsValid(given[0], name)) {
        kept_close((struct kept *)PyCapsule_GetPointer(given[0], name));
    }
    Py_RETURN_NONE;
}

/* ---- the terminal ---- */

static struct scard_turn call_transmit(struct end *end, const struct octets *octets, uint8_t *out)
{
    return scard_lent_terminal_transmit(AS_TERMINAL(end), octets->at, octets->count, out, SCARD_BLOCK_ROOM);
}

static struct scard_turn call_terminal_received(struct end *end, const struct octets *octets, uint8_t *out)
{
    return scard_lent_terminal_received(AS_TERMINAL(end), octets->at, octets->count, out, SCARD_BLOCK_ROOM);
}

static struct scard_turn call_quiet(struct end *end, uint8_t number, uint8_t *out)
{
    (void)number;
    return scard_lent_terminal_quiet(AS_TERMINAL(end), out, SCARD_BLOCK_ROOM);
}

static struct scard_turn call_terminal_ask_ifs(struct end *end, uint8_t number, uint8_t *out)
{
    return scard_lent_terminal_ask_ifs(AS_TERMINAL(end), number, out, SCARD_BLOCK_ROOM);
}

static PyObject *terminal_new(PyObject *module, arguments given, Py_ssize_t count)
{
    return end_new(module, given, count, TERMINAL, false);
}

static PyObject *terminal_transmit(PyObject *module, arguments given, Py_ssize_t count)
{
    return with_octets(module, given, count, TERMINAL, call_transmit);
}

static PyObject *terminal_received(PyObject *module, arguments given, Py_ssize_t count)
{
    return with_octets(module, given, count, TERMINAL, call_terminal_received);
}

static PyObject *terminal_quiet(PyObject *module, arguments given, Py_ssize_t count)
{
    return with_number(module, given, count, TERMINAL, call_quiet);
}

static PyObject *terminal_ask_ifs(PyObject *module, arguments given, Py_ssize_t count)
{
    return with_number(module, given, count, TERMINAL, call_terminal_ask_ifs);
}

/* terminal_answer(terminal): the answer, or None. */
static PyObject *terminal_answer(PyObject *module, arguments given, Py_ssize_t count)
{
    struct scard_verdict verdict;
    struct end *end = count_is(count, 1) ? (struct end *)kept_of(module, given[0], TERMINAL) : NULL;
    if (end == NULL) {
        return NULL;
    }
    verdict = scard_lent_terminal_answer(AS_TERMINAL(end));
    if (verdict.status != SCARD_OK) {
        Py_RETURN_NONE;
    }
    return bytes_of(end->buffers + end->command_room, (size_t)verdict.place);
}

static PyObject *terminal_close(PyObject *module, arguments given, Py_ssize_t count)
{
    (void)module;
    return end_close(given, count, TERMINAL);
}

/* ---- the card ---- */

static struct scard_turn call_card_received(struct end *end, const struct octets *octets, uint8_t *out)
{
    return scard_lent_card_received(AS_CARD(end), octets->at, octets->count, out, SCARD_BLOCK_ROOM);
}

static struct scard_turn call_reply(struct end *end, const struct octets *octets, uint8_t *out)
{
    return scard_lent_card_reply(AS_CARD(end), octets->at, octets->count, out, SCARD_BLOCK_ROOM);
}

static struct scard_turn call_more_time(struct end *end, uint8_t number, uint8_t *out)
{
    return scard_lent_card_more_time(AS_CARD(end), number, out, SCARD_BLOCK_ROOM);
}

static struct scard_turn call_card_ask_ifs(struct end *end, uint8_t number, uint8_t *out)
{
    return scard_lent_card_ask_ifs(AS_CARD(end), number, out, SCARD_BLOCK_ROOM);
}

static PyObject *card_new(PyObject *module, arguments given, Py_ssize_t count)
{
    return end_new(module, given, count, CARD, true);
}

static PyObject *card_received(PyObject *module, arguments given, Py_ssize_t count)
{
    return with_octets(module, given, count, CARD, call_card_received);
}

static PyObject *card_reply(PyObject *module, arguments given, Py_ssize_t count)
{
    return with_octets(module, given, count, CARD, call_reply);
}

static PyObject *card_more_time(PyObject *module, arguments given, Py_ssize_t count)
{
    return with_number(module, given, count, CARD, call_more_time);
}

static PyObject *card_ask_ifs(PyObject *module, arguments given, Py_ssize_t count)
{
    return with_number(module, given, count, CARD, call_card_ask_ifs);
}

/* card_command(card): the command to which the host has to reply, or None. */
static PyObject *card_command(PyObject *module, arguments given, Py_ssize_t count)
{
    struct scard_verdict verdict;
    struct end *end = count_is(count, 1) ? (struct end *)kept_of(module, given[0], CARD) : NULL;
    if (end == NULL) {
        return NULL;
    }
    verdict = scard_lent_card_command(AS_CARD(end));
    if (verdict.status != SCARD_OK) {
        Py_RETURN_NONE;
    }
    return bytes_of(end->buffers, (size_t)verdict.place);
}

static PyObject *card_close(PyObject *module, arguments given, Py_ssize_t count)
{
    (void)module;
    return end_close(given, count, CARD);
}

PyMethodDef end_functions[] = {
    FUNCTION(terminal_new), FUNCTION(terminal_transmit), FUNCTION(terminal_received), FUNCTION(terminal_quiet),
    FUNCTION(terminal_ask_ifs), FUNCTION(terminal_answer), FUNCTION(terminal_close),
    FUNCTION(card_new), FUNCTION(card_received), FUNCTION(card_reply), FUNCTION(card_more_time),
    FUNCTION(card_ask_ifs), FUNCTION(card_command), FUNCTION(card_close), LAST_FUNCTION,
};
