/* Readers of octets that come in pieces, and bursts. */
#include "scardmodule.h"

#define READER "reader"
#define FRAMER "framer"

/* A reader of one answer to reset, block, chain or forest, by its codec. A receiver of chains has its message here. */
struct reader {
    struct kept kept;
    uint8_t codec;
    size_t max;
    union {
        struct scard_lent_atr_reader atr;
        struct scard_lent_block_reader block;
        struct scard_lent_receiver chain;
        struct scard_lent_check forest;
    } as;
    uint8_t message[];
};

/* Begins a reader by its codec. */
static struct scard_verdict reader_begin(struct reader *reader, uint8_t ifs, uint8_t ns)
{
    struct scard_verdict verdict = {SCARD_OK, 0, 0};
    switch (reader->codec) {
    case SCARD_CODEC_ATR:
        scard_lent_atr_reader_begin(&reader->as.atr);
        break;
    case SCARD_CODEC_BLOCK:
        verdict = scard_lent_block_reader_begin(&reader->as.block, ifs);
        break;
    case SCARD_CODEC_CHAIN:
        verdict = scard_lent_receiver_begin(&reader->as.chain, ifs, ns, reader->max);
        break;
    case SCARD_CODEC_TLV:
        verdict = scard_lent_check_begin(&reader->as.forest, reader->max);
        break;
    default:
        verdict.status = SCARD_ARGUMENT;
    }
    return verdict;
}

/* reader_new(codec, ifs, ns, max). */
static PyObject *reader_new(PyObject *module, arguments given, Py_ssize_t count)
{
    uint8_t codec, ifs, ns;
    uint64_t max;
    struct scard_verdict verdict;
    struct reader *reader;
    PyObject *capsule;
    if (!count_is(count, 4) || !octet_of(given[0], &codec) || !octet_of(given[1], &ifs) || !octet_of(given[2], &ns)
        || !number_of(given[3], SCARD_TLV_LARGEST, &max)) {
        return NULL;
    }
    capsule = kept_new(READER, sizeof *reader + (codec == SCARD_CODEC_CHAIN ? (size_t)max : 0));
    if (capsule == NULL) {
        return NULL;
    }
    reader = (struct reader *)PyCapsule_GetPointer(capsule, READER);
    reader->codec = codec;
    reader->max = (size_t)max;
    verdict = reader_begin(reader, ifs, ns);
    if (verdict.status != SCARD_OK) {
        Py_DECREF(capsule);
        return raise_verdict(module, verdict, codec);
    }
    return capsule;
}

static struct scard_verdict feed(struct reader *reader, const struct octets *octets)
{
    switch (reader->codec) {
    case SCARD_CODEC_ATR:
        return scard_lent_atr_reader_feed(&reader->as.atr, octets->at, octets->count);
    case SCARD_CODEC_BLOCK:
        return scard_lent_block_reader_feed(&reader->as.block, octets->at, octets->count);
    case SCARD_CODEC_CHAIN:
        return scard_lent_receiver_feed(&reader->as.chain, reader->message, reader->max, octets->at, octets->count);
    default:
        return scard_lent_check_feed(&reader->as.forest, octets->at, octets->count);
    }
}

/* reader_feed(reader, octets): how many octets of the piece complete the value, or None if more have to come. */
static PyObject *reader_feed(PyObject *module, arguments given, Py_ssize_t count)
{
    struct octets octets;
    struct scard_verdict verdict = {SCARD_ARGUMENT, 0, 0};
    struct reader *reader;
    uint8_t codec = 0;
    if (!count_is(count, 2) || !octets_of(given[1], &octets)) {
        return NULL;
    }
    reader = (struct reader *)kept_of(module, given[0], READER);
    if (reader != NULL) {
        codec = reader->codec;
        verdict = feed(reader, &octets);
    }
    octets_release(&octets);
    if (reader == NULL) {
        return NULL;
    }
    if (verdict.status == SCARD_MORE) {
        Py_RETURN_NONE;
    }
    return verdict.status == SCARD_OK ? PyLong_FromUnsignedLongLong(verdict.place)
                                      : raise_verdict(module, verdict, codec);
}

static struct scard_verdict finish(const struct reader *reader)
{
    switch (reader->codec) {
    case SCARD_CODEC_ATR:
        return scard_lent_atr_reader_finish(&reader->as.atr);
    case SCARD_CODEC_BLOCK:
        return scard_lent_block_reader_finish(&reader->as.block);
    case SCARD_CODEC_CHAIN:
        return scard_lent_receiver_finish(&reader->as.chain, reader->message, reader->max);
    default:
        return scard_lent_check_finish(&reader->as.forest);
    }
}

/* Returns null with the exception for the verdict of a reader. A reader of a block or of an answer to reset has the
 * octets, and says how many more must come at least.
 */
static PyObject *raise_finished(PyObject *module, struct scard_verdict verdict, const struct reader *reader)
{
    switch (reader->codec) {
    case SCARD_CODEC_ATR:
        return raise_verdict_on(module, verdict, reader->codec, reader->as.atr.octets, reader->as.atr.count);
    case SCARD_CODEC_BLOCK:
        return raise_verdict_on(module, verdict, reader->codec, reader->as.block.octets, reader->as.block.count);
    default:
        return raise_verdict(module, verdict, reader->codec);
    }
}

/* reader_finish(reader): raises unless the value is complete. */
static PyObject *reader_finish(PyObject *module, arguments given, Py_ssize_t count)
{
    struct scard_verdict verdict;
    struct reader *reader = count_is(count, 1) ? (struct reader *)kept_of(module, given[0], READER) : NULL;
    if (reader == NULL) {
        return NULL;
    }
    verdict = finish(reader);
    if (verdict.status != SCARD_OK) {
        return raise_finished(module, verdict, reader);
    }
    Py_RETURN_NONE;
}

/* reader_octets(reader): the octets of a complete answer to reset or block, or the message of a complete chain. */
static PyObject *reader_octets(PyObject *module, arguments given, Py_ssize_t count)
{
    struct scard_verdict verdict = {SCARD_ARGUMENT, 0, 0};
    struct scard_atr atr;
    struct scard_block block;
    const uint8_t *at = NULL;
    struct reader *reader = count_is(count, 1) ? (struct reader *)kept_of(module, given[0], READER) : NULL;
    if (reader == NULL) {
        return NULL;
    }
    if (reader->codec == SCARD_CODEC_ATR) {
        at = reader->as.atr.octets;
        verdict = scard_lent_atr_reader_value(&reader->as.atr, &atr);
    } else if (reader->codec == SCARD_CODEC_BLOCK) {
        at = reader->as.block.octets;
        verdict = scard_lent_block_reader_value(&reader->as.block, &block);
    } else if (reader->codec == SCARD_CODEC_CHAIN) {
        at = reader->message;
        verdict = scard_lent_receiver_message(&reader->as.chain, reader->message, reader->max);
    }
    return verdict.status == SCARD_OK ? bytes_of(at, (size_t)verdict.place)
                                      : raise_argument(module, "the value isn't complete");
}

/* reader_restart(reader, ns): begins a receiver of chains anew. */
static PyObject *reader_restart(PyObject *module, arguments given, Py_ssize_t count)
{
    uint8_t ns;
    struct scard_verdict verdict = {SCARD_ARGUMENT, 0, 0};
    struct reader *reader;
    if (!count_is(count, 2) || !octet_of(given[1], &ns)) {
        return NULL;
    }
    reader = (struct reader *)kept_of(module, given[0], READER);
    if (reader == NULL) {
        return NULL;
    }
    if (reader->codec == SCARD_CODEC_CHAIN) {
        verdict = scard_lent_receiver_restart(&reader->as.chain, reader->message, reader->max, ns);
    }
    if (verdict.status != SCARD_OK) {
        return raise_verdict(module, verdict, reader->codec);
    }
    Py_RETURN_NONE;
}

/* reader_close(reader). */
static PyObject *reader_close(PyObject *module, arguments given, Py_ssize_t count)
{
    (void)module;
    if (!count_is(count, 1)) {
        return NULL;
    }
    if (PyCapsule_IsValid(given[0], READER)) {
        kept_close((struct kept *)PyCapsule_GetPointer(given[0], READER));
    }
    Py_RETURN_NONE;
}

/* ---- bursts ---- */

struct framer {
    struct kept kept;
    struct scard_lent_framer framer;
};

static PyObject *framer_new(PyObject *module, arguments given, Py_ssize_t count)
{
    PyObject *capsule = count_is(count, 0) ? kept_new(FRAMER, sizeof(struct framer)) : NULL;
    (void)module;
    (void)given;
    if (capsule != NULL) {
        scard_lent_framer_begin(&((struct framer *)PyCapsule_GetPointer(capsule, FRAMER))->framer);
    }
    return capsule;
}

/* Takes a framer from a first argument of that many. */
static struct scard_lent_framer *framer_of(PyObject *module, arguments given, Py_ssize_t count, Py_ssize_t wanted)
{
    struct framer *framer = count_is(count, wanted) ? (struct framer *)kept_of(module, given[0], FRAMER) : NULL;
    return framer == NULL ? NULL : &framer->framer;
}

static PyObject *framer_begin(PyObject *module, arguments given, Py_ssize_t count)
{
    struct scard_lent_framer *framer = framer_of(module, given, count, 1);
    if (framer == NULL) {
        return NULL;
    }
    scard_lent_framer_begin(framer);
    Py_RETURN_NONE;
}

static PyObject *framer_feed(PyObject *module, arguments given, Py_ssize_t count)
{
    struct octets octets;
    struct scard_lent_framer *framer;
    if (!count_is(count, 2) || !octets_of(given[1], &octets)) {
        return NULL;
    }
    framer = framer_of(module, given, count, 2);
    if (framer != NULL) {
        scard_lent_framer_feed(framer, octets.at, octets.count);
    }
    octets_release(&octets);
    if (framer == NULL) {
        return NULL;
    }
    Py_RETURN_NONE;
}

static PyObject *framer_is_whole(PyObject *module, arguments given, Py_ssize_t count)
{
    struct scard_lent_framer *framer = framer_of(module, given, count, 1);
    return framer == NULL ? NULL : PyBool_FromLong(scard_lent_framer_is_whole(framer));
}

/* framer_wait(framer, first, inside, after). */
static PyObject *framer_wait(PyObject *module, arguments given, Py_ssize_t count)
{
    uint64_t first, inside, after;
    struct scard_lent_framer *framer;
    if (!count_is(count, 4) || !number_of(given[1], UINT64_MAX, &first) || !number_of(given[2], UINT64_MAX, &inside)
        || !number_of(given[3], UINT64_MAX, &after)) {
        return NULL;
    }
    framer = framer_of(module, given, count, 4);
    return framer == NULL ? NULL : PyLong_FromUnsignedLongLong(scard_lent_framer_wait(framer, first, inside, after));
}

static PyObject *framer_burst(PyObject *module, arguments given, Py_ssize_t count)
{
    struct scard_lent_framer *framer = framer_of(module, given, count, 1);
    return framer == NULL ? NULL : bytes_of(framer->octets, scard_lent_framer_burst(framer));
}

/* framer_count(framer): how many octets came. */
static PyObject *framer_count(PyObject *module, arguments given, Py_ssize_t count)
{
    struct scard_lent_framer *framer = framer_of(module, given, count, 1);
    return framer == NULL ? NULL : PyLong_FromUnsignedLongLong(framer->count);
}

PyMethodDef reader_functions[] = {
    FUNCTION(reader_new), FUNCTION(reader_feed), FUNCTION(reader_finish), FUNCTION(reader_octets),
    FUNCTION(reader_restart), FUNCTION(reader_close),
    FUNCTION(framer_new), FUNCTION(framer_begin), FUNCTION(framer_feed), FUNCTION(framer_is_whole),
    FUNCTION(framer_wait), FUNCTION(framer_burst), FUNCTION(framer_count), LAST_FUNCTION,
};
