/* Data objects and data object lists. */
#include "scardmodule.h"

#define PARTS "forest of data objects"

/* The objects of a forest, each before the objects inside it. */
struct parts {
    struct kept kept;
    size_t count;
    struct scard_part at[];
};

/* tlv_check(octets, max): raises unless the octets are a forest. */
static PyObject *tlv_check(PyObject *module, arguments given, Py_ssize_t count)
{
    struct octets octets;
    uint64_t max;
    struct scard_verdict verdict;
    if (!count_is(count, 2) || !number_of(given[1], SIZE_MAX, &max) || !octets_of(given[0], &octets)) {
        return NULL;
    }
    Py_BEGIN_ALLOW_THREADS
    verdict = scard_tlv_check(octets.at, octets.count, (size_t)max);
    Py_END_ALLOW_THREADS
    if (verdict.status != SCARD_OK) {
        raise_verdict_on(module, verdict, SCARD_CODEC_TLV, octets.at, octets.count);
    }
    octets_release(&octets);
    if (verdict.status != SCARD_OK) {
        return NULL;
    }
    Py_RETURN_NONE;
}

/* Returns the tidy form of a forest: never longer than the forest. */
static PyObject *tidy_made(PyObject *module, const struct octets *octets, size_t max)
{
    uint8_t *out = (uint8_t *)PyMem_Malloc(octets->count);
    struct scard_verdict verdict;
    PyObject *tidy;
    if (out == NULL) {
        return PyErr_NoMemory();
    }
    Py_BEGIN_ALLOW_THREADS
    verdict = scard_tlv_tidy(octets->at, octets->count, max, out, octets->count);
    Py_END_ALLOW_THREADS
    tidy = verdict.status == SCARD_OK ? bytes_of(out, (size_t)verdict.place)
                                      : raise_verdict_on(module, verdict, SCARD_CODEC_TLV, octets->at, octets->count);
    PyMem_Free(out);
    return tidy;
}

/* tlv_tidy(octets, max). */
static PyObject *tlv_tidy(PyObject *module, arguments given, Py_ssize_t count)
{
    struct octets octets;
    uint64_t max;
    PyObject *tidy;
    if (!count_is(count, 2) || !number_of(given[1], SIZE_MAX, &max) || !octets_of(given[0], &octets)) {
        return NULL;
    }
    tidy = tidy_made(module, &octets, (size_t)max);
    octets_release(&octets);
    return tidy;
}

/* Lists the objects of a forest, while other threads run if the forest is long. */
static struct scard_verdict list_parts(const struct octets *octets, size_t max, struct scard_part *parts, size_t room)
{
    struct scard_verdict verdict;
    if (octets->count < LONG_WORK) {
        return scard_tlv_parts(octets->at, octets->count, max, parts, room);
    }
    Py_BEGIN_ALLOW_THREADS
    verdict = scard_tlv_parts(octets->at, octets->count, max, parts, room);
    Py_END_ALLOW_THREADS
    return verdict;
}

/* Returns a capsule with the objects of a forest. The first call of the library says how many there are. */
static PyObject *parts_made(PyObject *module, const struct octets *octets, size_t max)
{
    struct scard_verdict verdict = list_parts(octets, max, NULL, 0);
    const bool has_some = verdict.status == SCARD_ARGUMENT && verdict.place > 0;
    struct parts *parts;
    PyObject *capsule;
    if (!has_some && verdict.status != SCARD_OK) {
        return raise_verdict_on(module, verdict, SCARD_CODEC_TLV, octets->at, octets->count);
    }
    capsule = kept_new(PARTS, sizeof *parts + (size_t)verdict.place * sizeof parts->at[0]);
    if (capsule == NULL) {
        return NULL;
    }
    parts = (struct parts *)PyCapsule_GetPointer(capsule, PARTS);
    parts->count = (size_t)verdict.place;
    verdict = list_parts(octets, max, parts->at, parts->count);
    if (verdict.status != SCARD_OK) {
        Py_DECREF(capsule);
        return raise_verdict(module, verdict, SCARD_CODEC_TLV);
    }
    return capsule;
}

/* tlv_parts(octets, max). */
static PyObject *tlv_parts(PyObject *module, arguments given, Py_ssize_t count)
{
    struct octets octets;
    uint64_t max;
    PyObject *capsule;
    if (!count_is(count, 2) || !number_of(given[1], SIZE_MAX, &max) || !octets_of(given[0], &octets)) {
        return NULL;
    }
    capsule = parts_made(module, &octets, (size_t)max);
    octets_release(&octets);
    return capsule;
}

/* tlv_count(parts): how many objects the forest has. */
static PyObject *tlv_count(PyObject *module, arguments given, Py_ssize_t count)
{
    struct parts *parts;
    if (!count_is(count, 1)) {
        return NULL;
    }
    parts = (struct parts *)kept_of(module, given[0], PARTS);
    return parts == NULL ? NULL : PyLong_FromSize_t(parts->count);
}

/* Takes (parts, index, ..): the object with the index, or null with an exception. */
static struct scard_part *part_of(PyObject *module, arguments given)
{
    uint64_t index;
    struct parts *parts;
    if (!number_of(given[1], SIZE_MAX, &index)) {
        return NULL;
    }
    parts = (struct parts *)kept_of(module, given[0], PARTS);
    if (parts != NULL && index >= parts->count) {
        PyErr_SetString(PyExc_IndexError, "the forest has no such object");
        return NULL;
    }
    return parts == NULL ? NULL : &parts->at[index];
}

/* tlv_tag(parts, index): the tag of an object. */
static PyObject *tlv_tag(PyObject *module, arguments given, Py_ssize_t count)
{
    struct scard_part *part = count_is(count, 2) ? part_of(module, given) : NULL;
    return part == NULL ? NULL : bytes_of(part->tag.octets, part->tag.count);
}

/* tlv_number(parts, index, which): one of the numbers of an object. */
static PyObject *tlv_number(PyObject *module, arguments given, Py_ssize_t count)
{
    uint8_t which;
    struct scard_part *part;
    if (!count_is(count, 3) || !octet_of(given[2], &which)) {
        return NULL;
    }
    part = part_of(module, given);
    if (part == NULL) {
        return NULL;
    }
    switch (which) {
    case 0:
        return PyLong_FromLong(part->depth);
    case 1:
        return PyLong_FromLong(part->is_constructed);
    case 2:
        return PyLong_FromLong(part->len_octets);
    case 3:
        return PyLong_FromUnsignedLongLong(part->place);
    default:
        return PyLong_FromUnsignedLongLong(part->len);
    }
}

/* tlv_value(parts, index, octets): the value of an object of these octets. */
static PyObject *tlv_value(PyObject *module, arguments given, Py_ssize_t count)
{
    struct octets octets;
    struct scard_part *part;
    PyObject *value = NULL;
    if (!count_is(count, 3) || !octets_of(given[2], &octets)) {
        return NULL;
    }
    part = part_of(module, given);
    if (part != NULL && part->place <= octets.count && part->len <= octets.count - part->place) {
        value = bytes_of(octets.at + part->place, (size_t)part->len);
    } else if (part != NULL) {
        PyErr_SetString(PyExc_IndexError, "these aren't the octets of the forest");
    }
    octets_release(&octets);
    return value;
}

/* Returns the object with an index: its forest and the index. */
static PyObject *object_made(PyObject *module, PyObject *forest, size_t index)
{
    PyObject *values[2];
    Py_INCREF(forest);
    values[0] = forest;
    values[1] = PyLong_FromSize_t(index);
    return make(module, MADE_OBJECT, values, 2);
}

/* Takes (parts, .., begin): the objects, and the first one inside an object, or 0 for the outermost ones. */
static struct parts *inside_of(PyObject *module, PyObject *capsule, PyObject *begin, size_t *first)
{
    uint64_t number;
    struct parts *parts;
    if (!number_of(begin, SIZE_MAX, &number)) {
        return NULL;
    }
    parts = (struct parts *)kept_of(module, capsule, PARTS);
    if (parts != NULL && number > parts->count) {
        PyErr_SetString(PyExc_IndexError, "the forest has no such object");
        return NULL;
    }
    *first = (size_t)number;
    return parts;
}

/* Returns the depth of the object before this index, or 0 if there is none. */
static uint8_t depth_before(const struct parts *parts, size_t first)
{
    return first == 0 ? 0 : parts->at[first - 1].depth;
}

/* Returns a list of the objects directly inside the object before `at`. */
static PyObject *list_inside(PyObject *module, PyObject *forest, const struct parts *parts, size_t at)
{
    const uint8_t depth = depth_before(parts, at);
    PyObject *all = PyList_New(0);
    while (all != NULL && at < parts->count && parts->at[at].depth > depth) {
        if (parts->at[at].depth == depth + 1) {
            PyObject *one = object_made(module, forest, at);
            if (one == NULL || PyList_Append(all, one) != 0) {
                Py_CLEAR(all);
            }
            Py_XDECREF(one);
        }
        at++;
    }
    return all;
}

/* tlv_inside(parts, forest, begin): the objects directly inside an object, as a tuple. */
static PyObject *tlv_inside(PyObject *module, arguments given, Py_ssize_t count)
{
    size_t first;
    struct parts *parts = count_is(count, 3) ? inside_of(module, given[0], given[2], &first) : NULL;
    PyObject *list = parts != NULL ? list_inside(module, given[1], parts, first) : NULL;
    PyObject *all = list != NULL ? PyList_AsTuple(list) : NULL;
    Py_XDECREF(list);
    return all;
}

static bool tag_of(PyObject *module, PyObject *value, struct scard_tag *tag)
{
    struct octets octets;
    bool fits;
    memset(tag, 0, sizeof *tag);
    if (!octets_of(value, &octets)) {
        return false;
    }
    fits = octets.count > 0 && octets.count <= sizeof tag->octets;
    if (fits) {
        memcpy(tag->octets, octets.at, octets.count);
        tag->count = (uint8_t)octets.count;
    } else {
        raise_argument(module, "a tag has 1 to 3 octets");
    }
    octets_release(&octets);
    return fits;
}

/* The most octets of a header or of an entry. */
#define HEADER_ROOM 7

/* No object is deeper than 16, so a longer path leads nowhere. */
#define MOST_TAGS 16

/* Takes a path: a tuple of tags. */
static bool path_of(PyObject *module, PyObject *value, struct scard_tag *path, size_t *tags)
{
    const Py_ssize_t count = PyTuple_Check(value) ? PyTuple_Size(value) : 0;
    Py_ssize_t at;
    if (count < 1 || count > MOST_TAGS) {
        raise_argument(module, "a path has 1 to 16 tags");
        return false;
    }
    for (at = 0; at < count; at++) {
        if (!tag_of(module, PyTuple_GetItem(value, at), &path[at])) {
            return false;
        }
    }
    *tags = (size_t)count;
    return true;
}

/* Copies the objects inside an object: they are a forest of their own, in which they are less deep. Returns their
 * number. The library looks for a path in the list of a whole forest.
 */
static size_t copy_inside(const struct parts *parts, size_t first, struct scard_part *out)
{
    const uint8_t depth = depth_before(parts, first);
    size_t at = first;
    while (at < parts->count && parts->at[at].depth > depth) {
        out[at - first] = parts->at[at];
        out[at - first].depth = (uint8_t)(parts->at[at].depth - depth);
        at++;
    }
    return at - first;
}

/* Returns the index of the first object on a path, or the number of objects. */
static bool first_of(const struct parts *parts, size_t first, const struct scard_tag *path, size_t tags, size_t *index)
{
    struct scard_part *inside;
    size_t count, found;
    if (first == 0) {
        *index = scard_tlv_first(parts->at, parts->count, path, tags);
        return true;
    }
    inside = (struct scard_part *)PyMem_Malloc((parts->count - first + 1) * sizeof *inside);
    if (inside == NULL) {
        PyErr_NoMemory();
        return false;
    }
    count = copy_inside(parts, first, inside);
    found = scard_tlv_first(inside, count, path, tags);
    *index = found < count ? first + found : parts->count;
    PyMem_Free(inside);
    return true;
}

/* tlv_first(parts, forest, begin, path): the first object on a path of tags inside an object, or None. */
static PyObject *tlv_first(PyObject *module, arguments given, Py_ssize_t count)
{
    struct scard_tag path[MOST_TAGS];
    size_t tags, first, index;
    struct parts *parts;
    if (!count_is(count, 4) || !path_of(module, given[3], path, &tags)) {
        return NULL;
    }
    parts = inside_of(module, given[0], given[2], &first);
    if (parts == NULL || !first_of(parts, first, path, tags, &index)) {
        return NULL;
    }
    if (index == parts->count) {
        Py_RETURN_NONE;
    }
    return object_made(module, given[1], index);
}

/* ---- data object lists ---- */

/* Returns the entries as a tuple. */
static PyObject *entries_made(PyObject *module, const struct scard_entry *entries, size_t count)
{
    PyObject *all = PyTuple_New((Py_ssize_t)count);
    size_t at;
    for (at = 0; all != NULL && at < count; at++) {
        PyObject *values[2], *one;
        values[0] = bytes_of(entries[at].tag.octets, entries[at].tag.count);
        values[1] = PyLong_FromLong(entries[at].len);
        one = make(module, MADE_ENTRY, values, 2);
        if (one == NULL || PyTuple_SetItem(all, (Py_ssize_t)at, one) != 0) {
            Py_CLEAR(all);
        }
    }
    return all;
}

/* Returns the entries of a list of octets. Half as many entries as octets have room for all. */
static PyObject *entries_of(PyObject *module, const struct octets *octets)
{
    const size_t room = octets->count / 2;
    struct scard_entry *entries = (struct scard_entry *)PyMem_Calloc(room + 1, sizeof *entries);
    struct scard_verdict verdict;
    PyObject *all;
    if (entries == NULL) {
        return PyErr_NoMemory();
    }
    verdict = scard_dol_entries(octets->at, octets->count, entries, room);
    all = verdict.status == SCARD_OK ? entries_made(module, entries, (size_t)verdict.place)
                                     : raise_verdict_on(module, verdict, SCARD_CODEC_DOL, octets->at, octets->count);
    PyMem_Free(entries);
    return all;
}

/* tlv_header(tag, length): the header of a data object with the shortest length field. */
static PyObject *tlv_header(PyObject *module, arguments given, Py_ssize_t count)
{
    uint8_t out[HEADER_ROOM];
    uint64_t length;
    struct scard_tag tag;
    struct scard_verdict verdict;
    if (!count_is(count, 2) || !number_of(given[1], SIZE_MAX, &length) || !tag_of(module, given[0], &tag)) {
        return NULL;
    }
    verdict = scard_tlv_header(&tag, (size_t)length, out, sizeof out);
    return verdict.status == SCARD_OK ? bytes_of(out, (size_t)verdict.place)
                                      : raise_argument(module, "no data object has this tag and this length");
}

/* dol_entry(tag, length): an entry of a data object list. */
static PyObject *dol_entry(PyObject *module, arguments given, Py_ssize_t count)
{
    uint8_t length, out[HEADER_ROOM];
    struct scard_tag tag;
    struct scard_verdict verdict;
    if (!count_is(count, 2) || !octet_of(given[1], &length) || !tag_of(module, given[0], &tag)) {
        return NULL;
    }
    verdict = scard_dol_entry(&tag, length, out, sizeof out);
    return verdict.status == SCARD_OK ? bytes_of(out, (size_t)verdict.place)
                                      : raise_argument(module, "no entry has this tag");
}

/* dol_entries(octets). */
static PyObject *dol_entries(PyObject *module, arguments given, Py_ssize_t count)
{
    struct octets octets;
    PyObject *all;
    if (!count_is(count, 1) || !octets_of(given[0], &octets)) {
        return NULL;
    }
    all = entries_of(module, &octets);
    octets_release(&octets);
    return all;
}

/* The known values of a call, and what holds their octets. */
struct known {
    size_t count;
    struct scard_known *at;
    struct octets *values;
};

static void known_release(struct known *known)
{
    while (known->count > 0) {
        octets_release(&known->values[--known->count]);
    }
    PyMem_Free(known->at);
    PyMem_Free(known->values);
}

/* Takes one known value from a tuple: tag, value, format. */
static bool known_of(PyObject *module, PyObject *value, struct scard_known *known, struct octets *octets)
{
    if (!PyTuple_Check(value) || PyTuple_Size(value) != 3) {
        PyErr_SetString(PyExc_TypeError, "a known value is a tag, octets and a format");
        return false;
    }
    if (!tag_of(module, PyTuple_GetItem(value, 0), &known->tag)
        || !octet_of(PyTuple_GetItem(value, 2), &known->format)
        || !octets_of(PyTuple_GetItem(value, 1), octets)) {
        return false;
    }
    known->value = octets->at;
    known->count = octets->count;
    return true;
}

/* Takes all known values from a tuple. Whatever it returns, known_release frees them. */
static bool all_known_of(PyObject *module, PyObject *given, struct known *known)
{
    const Py_ssize_t count = PyTuple_Check(given) ? PyTuple_Size(given) : -1;
    memset(known, 0, sizeof *known);
    if (count < 0) {
        PyErr_SetString(PyExc_TypeError, "the known values have to be a tuple");
        return false;
    }
    known->at = (struct scard_known *)PyMem_Calloc((size_t)count + 1, sizeof *known->at);
    known->values = (struct octets *)PyMem_Calloc((size_t)count + 1, sizeof *known->values);
    if (known->at == NULL || known->values == NULL) {
        PyErr_NoMemory();
        return false;
    }
    while (known->count < (size_t)count) {
        if (!known_of(module, PyTuple_GetItem(given, (Py_ssize_t)known->count), &known->at[known->count],
                      &known->values[known->count])) {
            return false;
        }
        known->count++;
    }
    return true;
}

/* Returns the octets that a list asks for. The first call of the library says how many there are. */
static PyObject *filled(PyObject *module, const struct octets *list, const struct known *known)
{
    struct scard_verdict verdict = scard_dol_fill(list->at, list->count, known->at, known->count, NULL, 0);
    const size_t room = verdict.status == SCARD_ARGUMENT ? (size_t)verdict.place : 0;
    PyObject *out;
    if (verdict.status != SCARD_OK && room == 0) {
        return raise_verdict_on(module, verdict, SCARD_CODEC_DOL, list->at, list->count);
    }
    out = PyBytes_FromStringAndSize(NULL, (Py_ssize_t)room);
    if (out != NULL) {
        verdict = scard_dol_fill(list->at, list->count, known->at, known->count, (uint8_t *)PyBytes_AsString(out),
                                 room);
    }
    if (out != NULL && verdict.status != SCARD_OK) {
        Py_CLEAR(out);
        raise_verdict(module, verdict, SCARD_CODEC_DOL);
    }
    return out;
}

/* dol_fill(list, known): known is a tuple of tuples (tag, value, format). */
static PyObject *dol_fill(PyObject *module, arguments given, Py_ssize_t count)
{
    struct known known;
    struct octets list;
    PyObject *out = NULL;
    if (!count_is(count, 2)) {
        return NULL;
    }
    if (all_known_of(module, given[1], &known) && octets_of(given[0], &list)) {
        out = filled(module, &list, &known);
        octets_release(&list);
    }
    known_release(&known);
    return out;
}

PyMethodDef object_functions[] = {
    FUNCTION(tlv_check), FUNCTION(tlv_tidy), FUNCTION(tlv_parts), FUNCTION(tlv_count), FUNCTION(tlv_tag),
    FUNCTION(tlv_number), FUNCTION(tlv_value),
    FUNCTION(tlv_inside), FUNCTION(tlv_first), FUNCTION(tlv_header), FUNCTION(dol_entry), FUNCTION(dol_entries),
    FUNCTION(dol_fill), LAST_FUNCTION,
};
