/* Names, answers to reset, blocks, chains, commands and responses. */
#include "scardmodule.h"

/* ---- names and words ---- */

/* Returns the text that a call of the library gives for a codec and a reason. */
static PyObject *reason_by(void (*call)(uint8_t, uint8_t, struct scard_text *), arguments given, Py_ssize_t count)
{
    uint8_t codec, number;
    struct scard_text text;
    if (!count_is(count, 2) || !octet_of(given[0], &codec) || !octet_of(given[1], &number)) {
        return NULL;
    }
    call(codec, number, &text);
    return text_of(&text);
}

/* reason_name(codec, number), reason_sentence(codec, number) and turn_name(kind): the library's words. */
static PyObject *reason_name(PyObject *module, arguments given, Py_ssize_t count)
{
    (void)module;
    return reason_by(scard_reason_text, given, count);
}

static PyObject *reason_sentence(PyObject *module, arguments given, Py_ssize_t count)
{
    (void)module;
    return reason_by(scard_reason_sentence_text, given, count);
}

static PyObject *turn_name(PyObject *module, arguments given, Py_ssize_t count)
{
    uint8_t kind;
    struct scard_text text;
    (void)module;
    if (!count_is(count, 1) || !octet_of(given[0], &kind)) {
        return NULL;
    }
    scard_turn_text(kind, &text);
    return text_of(&text);
}

/* note(about, first, second): the explanation of one or two octets, or "". */
static PyObject *note(PyObject *module, arguments given, Py_ssize_t count)
{
    uint8_t about, first, second;
    struct scard_note made;
    (void)module;
    if (!count_is(count, 3) || !octet_of(given[0], &about) || !octet_of(given[1], &first)
        || !octet_of(given[2], &second)) {
        return NULL;
    }
    scard_note_of(about, first, second, &made);
    if (made.has_number == 0) {
        return PyUnicode_FromStringAndSize(made.before, (Py_ssize_t)made.before_size);
    }
    return Py_BuildValue("(s#Is#)", made.before, (Py_ssize_t)made.before_size, (unsigned)made.number, made.after,
                         (Py_ssize_t)made.after_size);
}

/* hex_decode(text). */
static PyObject *hex_decode(PyObject *module, arguments given, Py_ssize_t count)
{
    Py_ssize_t length;
    const char *text = count_is(count, 1) ? PyUnicode_AsUTF8AndSize(given[0], &length) : NULL;
    struct scard_verdict verdict;
    uint8_t *out;
    PyObject *octets;
    if (text == NULL) {
        return NULL;
    }
    out = (uint8_t *)PyMem_Malloc((size_t)length / 2);
    if (out == NULL) {
        return PyErr_NoMemory();
    }
    verdict = scard_hex_decode(text, (size_t)length, out, (size_t)length / 2);
    octets = verdict.status == SCARD_OK ? bytes_of(out, (size_t)verdict.place)
                                        : raise_verdict(module, verdict, SCARD_CODEC_HEX);
    PyMem_Free(out);
    return octets;
}

/* is_text(octets) and lrc(octets). */
static PyObject *is_text(PyObject *module, arguments given, Py_ssize_t count)
{
    struct octets octets;
    bool is;
    (void)module;
    if (!count_is(count, 1) || !octets_of(given[0], &octets)) {
        return NULL;
    }
    is = scard_is_text(octets.at, octets.count);
    octets_release(&octets);
    return PyBool_FromLong(is);
}

static PyObject *lrc(PyObject *module, arguments given, Py_ssize_t count)
{
    struct octets octets;
    uint8_t check;
    (void)module;
    if (!count_is(count, 1) || !octets_of(given[0], &octets)) {
        return NULL;
    }
    check = scard_lrc(octets.at, octets.count);
    octets_release(&octets);
    return PyLong_FromLong(check);
}

/* ---- answers to reset ---- */

static PyObject *interface_made(PyObject *module, const struct scard_interface *bytes)
{
    PyObject *values[3];
    values[0] = number_or_none(bytes->has_ta, bytes->ta);
    values[1] = number_or_none(bytes->has_tb, bytes->tb);
    values[2] = number_or_none(bytes->has_tc, bytes->tc);
    return make(module, MADE_INTERFACE, values, 3);
}

/* Returns the TDs of an answer as a tuple. */
static PyObject *indicated_made(PyObject *module, const struct scard_atr *atr)
{
    PyObject *all = PyTuple_New(atr->indicated_count);
    Py_ssize_t at;
    for (at = 0; all != NULL && at < atr->indicated_count; at++) {
        const struct scard_indicated *indicated = &atr->indicated[at];
        PyObject *values[2], *one;
        values[0] = PyLong_FromLong(indicated->protocol);
        values[1] = interface_made(module, &indicated->bytes);
        one = make(module, MADE_INDICATED, values, 2);
        if (one == NULL || PyTuple_SetItem(all, at, one) != 0) {
            Py_CLEAR(all);
        }
    }
    return all;
}

/* atr_decode(octets): the answer to reset at the start of the octets. */
static PyObject *atr_decode(PyObject *module, arguments given, Py_ssize_t count)
{
    struct octets octets;
    struct scard_atr atr;
    struct scard_verdict verdict;
    PyObject *values[5];
    if (!count_is(count, 1) || !octets_of(given[0], &octets)) {
        return NULL;
    }
    verdict = scard_atr_decode(octets.at, octets.count, &atr);
    if (verdict.status != SCARD_OK) {
        raise_verdict_on(module, verdict, SCARD_CODEC_ATR, octets.at, octets.count);
    }
    octets_release(&octets);
    if (verdict.status != SCARD_OK) {
        return NULL;
    }
    values[0] = PyBool_FromLong(atr.convention != 0);
    values[1] = interface_made(module, &atr.first);
    values[2] = indicated_made(module, &atr);
    values[3] = bytes_of(atr.historical, atr.historical_count);
    values[4] = number_or_none(atr.has_tck, atr.tck);
    return make(module, MADE_ATR, values, 5);
}

/* atr_check(octets): how many octets the answer takes. */
static PyObject *atr_check(PyObject *module, arguments given, Py_ssize_t count)
{
    struct octets octets;
    struct scard_verdict verdict;
    PyObject *place;
    if (!count_is(count, 1) || !octets_of(given[0], &octets)) {
        return NULL;
    }
    verdict = scard_atr_check(octets.at, octets.count);
    place = verdict.status == SCARD_OK
                ? PyLong_FromUnsignedLongLong(verdict.place)
                : raise_verdict_on(module, verdict, SCARD_CODEC_ATR, octets.at, octets.count);
    octets_release(&octets);
    return place;
}

/* Takes interface bytes from the items of a tuple, from `first` on. */
static bool interface_of(PyObject *items, Py_ssize_t first, struct scard_interface *out)
{
    return octet_or_none(PyTuple_GetItem(items, first), &out->has_ta, &out->ta)
        && octet_or_none(PyTuple_GetItem(items, first + 1), &out->has_tb, &out->tb)
        && octet_or_none(PyTuple_GetItem(items, first + 2), &out->has_tc, &out->tc);
}

/* Returns whether a value is a tuple of that many items. */
static bool tuple_is(PyObject *value, Py_ssize_t most, Py_ssize_t least)
{
    const bool is = PyTuple_Check(value) && PyTuple_Size(value) >= least && PyTuple_Size(value) <= most;
    if (!is) {
        PyErr_SetString(PyExc_TypeError, "an answer to reset has another part here");
    }
    return is;
}

static bool indicated_of(PyObject *all, struct scard_atr *atr)
{
    const Py_ssize_t count = PyTuple_Size(all);
    Py_ssize_t at;
    for (at = 0; at < count; at++) {
        PyObject *one = PyTuple_GetItem(all, at);
        struct scard_indicated *indicated = &atr->indicated[at];
        if (!tuple_is(one, 4, 4) || !octet_of(PyTuple_GetItem(one, 0), &indicated->protocol)
            || !interface_of(one, 1, &indicated->bytes)) {
            return false;
        }
    }
    atr->indicated_count = (uint8_t)count;
    return true;
}

static bool historical_of(PyObject *module, PyObject *value, struct scard_atr *atr)
{
    struct octets octets;
    bool fits;
    if (!octets_of(value, &octets)) {
        return false;
    }
    fits = octets.count <= sizeof atr->historical;
    if (fits) {
        memcpy(atr->historical, octets.at, octets.count);
        atr->historical_count = (uint8_t)octets.count;
    } else {
        raise_argument(module, "an answer to reset has at most 15 historical bytes");
    }
    octets_release(&octets);
    return fits;
}

/* Takes an answer from four arguments: is_inverse, the first interface bytes, the TDs, and the historical bytes. */
static bool atr_of(PyObject *module, arguments given, struct scard_atr *atr)
{
    int is_inverse = PyObject_IsTrue(given[0]);
    memset(atr, 0, sizeof *atr);
    atr->convention = is_inverse == 1;
    return is_inverse >= 0 && tuple_is(given[1], 3, 3) && interface_of(given[1], 0, &atr->first)
        && tuple_is(given[2], 31, 0) && indicated_of(given[2], atr) && historical_of(module, given[3], atr);
}

static PyObject *atr_encode(PyObject *module, arguments given, Py_ssize_t count)
{
    struct scard_atr atr;
    struct scard_verdict verdict;
    uint8_t out[SCARD_ATR_ROOM];
    if (!count_is(count, 4) || !atr_of(module, given, &atr)) {
        return NULL;
    }
    verdict = scard_atr_encode(&atr, out, sizeof out);
    return verdict.status == SCARD_OK ? bytes_of(out, (size_t)verdict.place)
                                      : raise_verdict(module, verdict, SCARD_CODEC_ATR);
}

/* atr_t1(four parts): the parameters of T=1, or the number of the fault. */
static PyObject *atr_t1(PyObject *module, arguments given, Py_ssize_t count)
{
    struct scard_atr atr;
    struct scard_t1 t1;
    uint8_t fault;
    PyObject *values[3];
    if (!count_is(count, 4) || !atr_of(module, given, &atr)) {
        return NULL;
    }
    fault = scard_atr_t1_params(&atr, &t1);
    if (fault == SCARD_ARGUMENT) {
        return raise_argument(module, "there is no such answer to reset");
    }
    if (fault != SCARD_T1_USABLE) {
        return PyLong_FromLong(fault);
    }
    values[0] = PyLong_FromLong(t1.ifsc);
    values[1] = PyLong_FromLong(t1.bwi);
    values[2] = PyLong_FromLong(t1.cwi);
    return make(module, MADE_T1, values, 3);
}

static PyObject *atr_rates(PyObject *module, arguments given, Py_ssize_t count)
{
    struct scard_atr atr;
    struct scard_rates rates;
    PyObject *values[2];
    if (!count_is(count, 4) || !atr_of(module, given, &atr)) {
        return NULL;
    }
    if (scard_atr_rates(&atr, &rates) != SCARD_OK) {
        return raise_argument(module, "there is no such answer to reset");
    }
    values[0] = PyLong_FromLong(rates.fi);
    values[1] = PyLong_FromLong(rates.di);
    return make(module, MADE_RATES, values, 2);
}

/* t1_cwt(ifsc, bwi, cwi) and t1_bwt(ifsc, bwi, cwi, fi, di): 0 if the parameters aren't valid. */
static PyObject *t1_cwt(PyObject *module, arguments given, Py_ssize_t count)
{
    struct scard_t1 t1;
    (void)module;
    if (!count_is(count, 3) || !octet_of(given[0], &t1.ifsc) || !octet_of(given[1], &t1.bwi)
        || !octet_of(given[2], &t1.cwi)) {
        return NULL;
    }
    return PyLong_FromUnsignedLong(scard_t1_cwt(&t1));
}

static PyObject *t1_bwt(PyObject *module, arguments given, Py_ssize_t count)
{
    struct scard_t1 t1;
    uint64_t fi, di;
    (void)module;
    if (!count_is(count, 5) || !octet_of(given[0], &t1.ifsc) || !octet_of(given[1], &t1.bwi)
        || !octet_of(given[2], &t1.cwi) || !number_of(given[3], 65535, &fi) || !number_of(given[4], 65535, &di)) {
        return NULL;
    }
    return PyLong_FromUnsignedLongLong(scard_t1_bwt(&t1, (uint16_t)fi, (uint16_t)di));
}

/* ---- blocks ---- */

/* Decodes the block of the arguments (octets, ifs). Returns false with an exception unless it is a block. */
static bool block_of(PyObject *module, arguments given, Py_ssize_t count, struct octets *octets,
                     struct scard_block *block, struct scard_verdict *verdict)
{
    uint8_t ifs;
    if (!count_is(count, 2) || !octet_of(given[1], &ifs) || !octets_of(given[0], octets)) {
        return false;
    }
    *verdict = scard_block_decode(octets->at, octets->count, ifs, block);
    if (verdict->status != SCARD_OK) {
        raise_verdict_on(module, *verdict, SCARD_CODEC_BLOCK, octets->at, octets->count);
        octets_release(octets);
        return false;
    }
    return true;
}

static PyObject *block_decode(PyObject *module, arguments given, Py_ssize_t count)
{
    struct octets octets;
    struct scard_block block;
    struct scard_verdict verdict;
    PyObject *values[3];
    if (!block_of(module, given, count, &octets, &block, &verdict)) {
        return NULL;
    }
    values[0] = PyLong_FromLong(block.nad);
    values[1] = PyLong_FromLong(block.pcb);
    values[2] = bytes_of(octets.at + block.inf_place, block.inf_len);
    octets_release(&octets);
    return make(module, MADE_BLOCK, values, 3);
}

static PyObject *block_check(PyObject *module, arguments given, Py_ssize_t count)
{
    struct octets octets;
    struct scard_block block;
    struct scard_verdict verdict;
    if (!block_of(module, given, count, &octets, &block, &verdict)) {
        return NULL;
    }
    octets_release(&octets);
    return PyLong_FromUnsignedLongLong(verdict.place);
}

/* Returns the octets of a block that a call wrote, or null with an exception. */
static PyObject *written(PyObject *module, struct scard_verdict verdict, const uint8_t *out)
{
    return verdict.status == SCARD_OK ? bytes_of(out, (size_t)verdict.place)
                                      : raise_verdict(module, verdict, SCARD_CODEC_BLOCK);
}

/* block_encode(nad, pcb, inf). */
static PyObject *block_encode(PyObject *module, arguments given, Py_ssize_t count)
{
    uint8_t nad, pcb, out[SCARD_BLOCK_ROOM];
    struct octets inf;
    struct scard_verdict verdict;
    if (!count_is(count, 3) || !octet_of(given[0], &nad) || !octet_of(given[1], &pcb) || !octets_of(given[2], &inf)) {
        return NULL;
    }
    verdict = scard_block_encode(nad, pcb, inf.at, inf.count, out, sizeof out);
    octets_release(&inf);
    return written(module, verdict, out);
}

/* block_i(nad, ns, more, inf). */
static PyObject *block_i(PyObject *module, arguments given, Py_ssize_t count)
{
    uint8_t nad, ns, more, out[SCARD_BLOCK_ROOM];
    struct octets inf;
    struct scard_verdict verdict;
    if (!count_is(count, 4) || !octet_of(given[0], &nad) || !octet_of(given[1], &ns) || !octet_of(given[2], &more)
        || !octets_of(given[3], &inf)) {
        return NULL;
    }
    verdict = scard_block_i(nad, ns, more != 0, inf.at, inf.count, out, sizeof out);
    octets_release(&inf);
    return written(module, verdict, out);
}

/* block_r(nad, nr, fault). */
static PyObject *block_r(PyObject *module, arguments given, Py_ssize_t count)
{
    uint8_t nad, nr, fault, out[SCARD_BLOCK_ROOM];
    if (!count_is(count, 3) || !octet_of(given[0], &nad) || !octet_of(given[1], &nr) || !octet_of(given[2], &fault)) {
        return NULL;
    }
    return written(module, scard_block_r(nad, nr, fault, out, sizeof out), out);
}

/* block_parts(pcb): the kind, 0 for none, the number, whether more follow, the fault, and what an S-block is about. */
static PyObject *block_parts(PyObject *module, arguments given, Py_ssize_t count)
{
    uint8_t octet;
    struct scard_pcb pcb;
    (void)module;
    if (!count_is(count, 1) || !octet_of(given[0], &octet)) {
        return NULL;
    }
    scard_block_parts(octet, &pcb);
    return Py_BuildValue("(iiiii)", pcb.kind, pcb.number, pcb.more, pcb.fault, pcb.about);
}

/* block_s(nad, about, is_response, inf). */
static PyObject *block_s(PyObject *module, arguments given, Py_ssize_t count)
{
    uint8_t nad, about, is_response, out[SCARD_BLOCK_ROOM];
    struct octets inf;
    struct scard_verdict verdict;
    if (!count_is(count, 4) || !octet_of(given[0], &nad) || !octet_of(given[1], &about)
        || !octet_of(given[2], &is_response) || !octets_of(given[3], &inf)) {
        return NULL;
    }
    verdict = is_response != 0 ? scard_block_s_response(nad, about, inf.at, inf.count, out, sizeof out)
                               : scard_block_s_request(nad, about, inf.at, inf.count, out, sizeof out);
    octets_release(&inf);
    return written(module, verdict, out);
}

/* ---- chains ---- */

/* chain_block(message, start, ifs, ns): the block from an octet of the message on. */
static PyObject *chain_block(PyObject *module, arguments given, Py_ssize_t count)
{
    uint64_t start;
    uint8_t ifs, ns, out[SCARD_BLOCK_ROOM];
    struct octets message;
    struct scard_verdict verdict;
    if (!count_is(count, 4) || !number_of(given[1], SIZE_MAX, &start) || !octet_of(given[2], &ifs)
        || !octet_of(given[3], &ns) || !octets_of(given[0], &message)) {
        return NULL;
    }
    verdict = scard_chain_block(message.at, message.count, (size_t)start, ifs, ns, out, sizeof out);
    octets_release(&message);
    return written(module, verdict, out);
}

/* Returns all blocks of a chain. The first call of the library says how much room they need. */
static PyObject *chain_made(PyObject *module, struct octets *message, uint8_t ifs, uint8_t ns)
{
    struct scard_verdict verdict = scard_chain_cut(message->at, message->count, ifs, ns, NULL, 0);
    const size_t room = (size_t)verdict.place;
    PyObject *out;
    if (verdict.status != SCARD_ARGUMENT || room == 0) {
        return raise_verdict(module, verdict, SCARD_CODEC_CHAIN);
    }
    out = PyBytes_FromStringAndSize(NULL, (Py_ssize_t)room);
    if (out != NULL) {
        uint8_t *at = (uint8_t *)PyBytes_AsString(out);
        Py_BEGIN_ALLOW_THREADS
        verdict = scard_chain_cut(message->at, message->count, ifs, ns, at, room);
        Py_END_ALLOW_THREADS
    }
    if (out != NULL && verdict.status != SCARD_OK) {
        Py_CLEAR(out);
        raise_verdict(module, verdict, SCARD_CODEC_CHAIN);
    }
    return out;
}

/* chain_cut(message, ifs, ns): the blocks of the whole chain, one after another. */
static PyObject *chain_cut(PyObject *module, arguments given, Py_ssize_t count)
{
    uint8_t ifs, ns;
    struct octets message;
    PyObject *out;
    if (!count_is(count, 3) || !octet_of(given[1], &ifs) || !octet_of(given[2], &ns)
        || !octets_of(given[0], &message)) {
        return NULL;
    }
    out = chain_made(module, &message, ifs, ns);
    octets_release(&message);
    return out;
}

/* ---- commands and responses ---- */

static PyObject *command_decode(PyObject *module, arguments given, Py_ssize_t count)
{
    struct octets octets;
    struct scard_command command;
    struct scard_verdict verdict;
    PyObject *values[7];
    if (!count_is(count, 1) || !octets_of(given[0], &octets)) {
        return NULL;
    }
    verdict = scard_command_decode(octets.at, octets.count, &command);
    if (verdict.status != SCARD_OK) {
        raise_verdict_on(module, verdict, SCARD_CODEC_COMMAND, octets.at, octets.count);
        octets_release(&octets);
        return NULL;
    }
    values[0] = PyLong_FromLong(command.cla);
    values[1] = PyLong_FromLong(command.ins);
    values[2] = PyLong_FromLong(command.p1);
    values[3] = PyLong_FromLong(command.p2);
    values[4] = member(module, MADE_SHAPE, command.shape);
    values[5] = bytes_of(octets.at + command.data_place, (size_t)command.data_len);
    if (command.has_le != 0) {
        values[6] = PyLong_FromUnsignedLong(command.le);
    } else {
        values[6] = number_or_none(0, 0);
    }
    octets_release(&octets);
    return make(module, MADE_COMMAND, values, 7);
}

/* Takes Le from a number or None. */
static bool le_of(PyObject *value, struct scard_command *command)
{
    uint64_t le = 0;
    if (value != Py_None && !number_of(value, UINT32_MAX, &le)) {
        return false;
    }
    command->has_le = value != Py_None;
    command->le = (uint32_t)le;
    return true;
}

/* Returns what a call writes into a new `bytes` of `room` octets, of which it says how many it wrote. */
static PyObject *command_made(PyObject *module, const struct scard_command *command, const struct octets *data)
{
    struct scard_verdict verdict = scard_command_encode(command, data->at, data->count, NULL, 0);
    PyObject *out;
    if (verdict.status != SCARD_ARGUMENT || verdict.place == 0) {
        return raise_argument(module, "no length field can express these values");
    }
    out = PyBytes_FromStringAndSize(NULL, (Py_ssize_t)verdict.place);
    if (out != NULL) {
        verdict = scard_command_encode(command, data->at, data->count, (uint8_t *)PyBytes_AsString(out),
                                       (size_t)verdict.place);
    }
    if (out != NULL && verdict.status != SCARD_OK) {
        Py_CLEAR(out);
        raise_verdict(module, verdict, SCARD_CODEC_COMMAND);
    }
    return out;
}

/* command_encode(cla, ins, p1, p2, shape, data, le). */
static PyObject *command_encode(PyObject *module, arguments given, Py_ssize_t count)
{
    struct scard_command command;
    struct octets data;
    PyObject *out;
    memset(&command, 0, sizeof command);
    if (!count_is(count, 7) || !octet_of(given[0], &command.cla) || !octet_of(given[1], &command.ins)
        || !octet_of(given[2], &command.p1) || !octet_of(given[3], &command.p2) || !octet_of(given[4], &command.shape)
        || !le_of(given[6], &command) || !octets_of(given[5], &data)) {
        return NULL;
    }
    out = command_made(module, &command, &data);
    octets_release(&data);
    return out;
}

static PyObject *response_decode(PyObject *module, arguments given, Py_ssize_t count)
{
    struct octets octets;
    struct scard_response response;
    struct scard_verdict verdict;
    PyObject *values[3];
    if (!count_is(count, 1) || !octets_of(given[0], &octets)) {
        return NULL;
    }
    verdict = scard_response_decode(octets.at, octets.count, &response);
    if (verdict.status != SCARD_OK) {
        raise_verdict_on(module, verdict, SCARD_CODEC_RESPONSE, octets.at, octets.count);
        octets_release(&octets);
        return NULL;
    }
    values[0] = bytes_of(octets.at, (size_t)response.data_len);
    values[1] = PyLong_FromLong(response.sw1);
    values[2] = PyLong_FromLong(response.sw2);
    octets_release(&octets);
    return make(module, MADE_RESPONSE, values, 3);
}

static PyObject *response_made(PyObject *module, const struct octets *data, uint8_t sw1, uint8_t sw2)
{
    struct scard_verdict verdict = scard_response_encode(data->at, data->count, sw1, sw2, NULL, 0);
    PyObject *out;
    if (verdict.status != SCARD_ARGUMENT || verdict.place == 0) {
        return raise_argument(module, "no response has such a data field");
    }
    out = PyBytes_FromStringAndSize(NULL, (Py_ssize_t)verdict.place);
    if (out != NULL) {
        verdict = scard_response_encode(data->at, data->count, sw1, sw2, (uint8_t *)PyBytes_AsString(out),
                                        (size_t)verdict.place);
    }
    if (out != NULL && verdict.status != SCARD_OK) {
        Py_CLEAR(out);
        raise_verdict(module, verdict, SCARD_CODEC_RESPONSE);
    }
    return out;
}

/* response_encode(data, sw1, sw2). */
static PyObject *response_encode(PyObject *module, arguments given, Py_ssize_t count)
{
    uint8_t sw1, sw2;
    struct octets data;
    PyObject *out;
    if (!count_is(count, 3) || !octet_of(given[1], &sw1) || !octet_of(given[2], &sw2) || !octets_of(given[0], &data)) {
        return NULL;
    }
    out = response_made(module, &data, sw1, sw2);
    octets_release(&data);
    return out;
}

/* status_class(sw1, sw2). */
static PyObject *status_class(PyObject *module, arguments given, Py_ssize_t count)
{
    uint8_t sw1, sw2;
    (void)module;
    if (!count_is(count, 2) || !octet_of(given[0], &sw1) || !octet_of(given[1], &sw2)) {
        return NULL;
    }
    return PyLong_FromLong(scard_status_class(sw1, sw2));
}

PyMethodDef codec_functions[] = {
    FUNCTION(reason_name), FUNCTION(reason_sentence), FUNCTION(turn_name), FUNCTION(note), FUNCTION(hex_decode),
    FUNCTION(is_text), FUNCTION(lrc),
    FUNCTION(atr_decode), FUNCTION(atr_check), FUNCTION(atr_encode), FUNCTION(atr_t1), FUNCTION(atr_rates),
    FUNCTION(t1_cwt), FUNCTION(t1_bwt),
    FUNCTION(block_decode), FUNCTION(block_check), FUNCTION(block_encode), FUNCTION(block_i), FUNCTION(block_r),
    FUNCTION(block_s), FUNCTION(block_parts), FUNCTION(chain_block), FUNCTION(chain_cut),
    FUNCTION(command_decode), FUNCTION(command_encode), FUNCTION(response_decode), FUNCTION(response_encode),
    FUNCTION(status_class), LAST_FUNCTION,
};
