/* A judge of the blocks on a line, and the times of the line. */
#include "scardmodule.h"

#define JUDGE "judge"
#define TIMES "times"

struct judge {
    struct kept kept;
    struct scard_lent_judge judge;
};

struct times {
    struct kept kept;
    struct scard_lent_times times;
};

/* A block of an end, and what came of it. */
struct seen {
    uint8_t from, arrival;
    struct octets octets, came;
};

static PyObject *judge_new(PyObject *module, arguments given, Py_ssize_t count)
{
    uint8_t ifsc;
    struct scard_verdict verdict;
    PyObject *capsule;
    if (!count_is(count, 1) || !octet_of(given[0], &ifsc)) {
        return NULL;
    }
    capsule = kept_new(JUDGE, sizeof(struct judge));
    if (capsule == NULL) {
        return NULL;
    }
    verdict = scard_lent_judge_begin(&((struct judge *)PyCapsule_GetPointer(capsule, JUDGE))->judge, ifsc);
    if (verdict.status != SCARD_OK) {
        Py_DECREF(capsule);
        return raise_verdict(module, verdict, 0);
    }
    return capsule;
}

/* Returns the member of an enum with a number, or None for 0. */
static PyObject *member_or_none(PyObject *module, enum made made, uint8_t number)
{
    return number == 0 ? number_or_none(0, 0) : member(module, made, number);
}

/* Returns which block was due from an end, or None. */
static PyObject *due_made(PyObject *module, const struct scard_judgment *judgment)
{
    const struct scard_due *due = &judgment->due;
    PyObject *values[5];
    if (judgment->verdict != SCARD_JUDGED_DEVIATION) {
        return number_or_none(0, 0);
    }
    values[0] = member(module, MADE_OWED, due->owed);
    values[1] = PyLong_FromLong(due->octet);
    values[2] = PyLong_FromLong(due->next);
    values[3] = PyLong_FromLong(due->expects);
    values[4] = member(module, MADE_ASKED, due->asked);
    return make(module, MADE_DUE, values, 5);
}

static PyObject *judgment_made(PyObject *module, const struct scard_judgment *judgment)
{
    PyObject *values[7];
    values[0] = PyLong_FromUnsignedLongLong(judgment->number);
    values[1] = PyLong_FromUnsignedLongLong(judgment->before);
    values[2] = PyLong_FromUnsignedLongLong(judgment->unanswered);
    values[3] = member(module, MADE_JUDGED, judgment->verdict);
    values[4] = member_or_none(module, MADE_RULE, judgment->rule);
    values[5] = member(module, MADE_SILENCE, judgment->silence);
    values[6] = due_made(module, judgment);
    return make(module, MADE_JUDGMENT, values, 7);
}

/* Takes the block of the arguments (end, octets, arrival, came). Returns false with an exception for other arguments.
 */
static bool seen_of(arguments given, struct seen *seen)
{
    if (!octet_of(given[0], &seen->from) || !octet_of(given[2], &seen->arrival)
        || !octets_of(given[1], &seen->octets)) {
        return false;
    }
    if (!octets_of(given[3], &seen->came)) {
        octets_release(&seen->octets);
        return false;
    }
    return true;
}

static void seen_release(struct seen *seen)
{
    octets_release(&seen->came);
    octets_release(&seen->octets);
}

static PyObject *judged(PyObject *module, PyObject *capsule, const struct seen *seen)
{
    struct scard_judgment judgment;
    struct scard_verdict verdict;
    struct judge *judge = (struct judge *)kept_of(module, capsule, JUDGE);
    if (judge == NULL) {
        return NULL;
    }
    memset(&judgment, 0, sizeof judgment);
    verdict = scard_lent_judge_block(&judge->judge, seen->from, seen->octets.at, seen->octets.count, seen->arrival,
                                     seen->came.at, seen->came.count, &judgment);
    return verdict.status == SCARD_OK ? judgment_made(module, &judgment) : raise_verdict(module, verdict, 0);
}

/* judge_block(judge, end, octets, arrival, came). */
static PyObject *judge_block(PyObject *module, arguments given, Py_ssize_t count)
{
    struct seen seen;
    PyObject *made;
    if (!count_is(count, 5) || !seen_of(given + 1, &seen)) {
        return NULL;
    }
    made = judged(module, given[0], &seen);
    seen_release(&seen);
    return made;
}

/* Returns the rules whose bits are set. */
static PyObject *rules_made(PyObject *module, uint32_t marks)
{
    PyObject *list = PyList_New(0), *made = NULL;
    uint8_t rule;
    bool is_good = list != NULL;
    for (rule = 0; is_good && rule < 32; rule++) {
        PyObject *one = marks >> rule & 1 ? member(module, MADE_RULE, rule) : NULL;
        is_good = (marks >> rule & 1) == 0 || (one != NULL && PyList_Append(list, one) == 0);
        Py_XDECREF(one);
    }
    if (is_good) {
        made = PyList_AsTuple(list);
    }
    Py_XDECREF(list);
    return made;
}

static PyObject *exercised(PyObject *module, PyObject *capsule, const struct seen *seen)
{
    struct scard_exercise exercise;
    struct scard_verdict verdict;
    PyObject *values[3];
    struct judge *judge = (struct judge *)kept_of(module, capsule, JUDGE);
    if (judge == NULL) {
        return NULL;
    }
    verdict = scard_lent_judge_exercise(&judge->judge, seen->from, seen->octets.at, seen->octets.count, seen->arrival,
                                        seen->came.at, seen->came.count, &exercise);
    if (verdict.status != SCARD_OK) {
        return raise_verdict(module, verdict, 0);
    }
    values[0] = rules_made(module, exercise.kept);
    values[1] = member_or_none(module, MADE_RULE, exercise.broken);
    values[2] = member_or_none(module, MADE_OWED, exercise.due);
    return make(module, MADE_EXERCISE, values, 3);
}

/* judge_exercise(judge, end, octets, arrival, came). */
static PyObject *judge_exercise(PyObject *module, arguments given, Py_ssize_t count)
{
    struct seen seen;
    PyObject *made;
    if (!count_is(count, 5) || !seen_of(given + 1, &seen)) {
        return NULL;
    }
    made = exercised(module, given[0], &seen);
    seen_release(&seen);
    return made;
}

/* judge_quiet(judge) and judge_finish(judge). */
static PyObject *judge_quiet(PyObject *module, arguments given, Py_ssize_t count)
{
    struct scard_judgment judgment;
    struct judge *judge = count_is(count, 1) ? (struct judge *)kept_of(module, given[0], JUDGE) : NULL;
    if (judge == NULL) {
        return NULL;
    }
    scard_lent_judge_quiet(&judge->judge, &judgment);
    return judgment_made(module, &judgment);
}

static PyObject *judge_finish(PyObject *module, arguments given, Py_ssize_t count)
{
    struct scard_judgment judgment;
    struct judge *judge = count_is(count, 1) ? (struct judge *)kept_of(module, given[0], JUDGE) : NULL;
    if (judge == NULL) {
        return NULL;
    }
    scard_lent_judge_finish(&judge->judge, &judgment);
    return judgment_made(module, &judgment);
}

/* times_new(ifsc, bwi, cwi, fi, di, hertz). */
static PyObject *times_new(PyObject *module, arguments given, Py_ssize_t count)
{
    struct scard_t1 params;
    struct scard_rates rates;
    struct scard_verdict verdict;
    uint64_t fi, di, hertz;
    PyObject *capsule;
    if (!count_is(count, 6) || !octet_of(given[0], &params.ifsc) || !octet_of(given[1], &params.bwi)
        || !octet_of(given[2], &params.cwi) || !number_of(given[3], UINT16_MAX, &fi)
        || !number_of(given[4], UINT16_MAX, &di) || !number_of(given[5], UINT32_MAX, &hertz)) {
        return NULL;
    }
    rates.fi = (uint16_t)fi;
    rates.di = (uint16_t)di;
    capsule = kept_new(TIMES, sizeof(struct times));
    if (capsule == NULL) {
        return NULL;
    }
    verdict = scard_lent_times_begin(&((struct times *)PyCapsule_GetPointer(capsule, TIMES))->times, &params, &rates,
                                     (uint32_t)hertz);
    if (verdict.status != SCARD_OK) {
        Py_DECREF(capsule);
        return raise_verdict(module, verdict, 0);
    }
    return capsule;
}

/* Takes a moment, or None for one that isn't known. Returns false with an exception for anything else. */
static bool moment_of(PyObject *value, scard_size *moment, uint8_t *has)
{
    uint64_t number = 0;
    *has = value != Py_None;
    if (*has && !number_of(value, UINT64_MAX, &number)) {
        return false;
    }
    *moment = (scard_size)number;
    return true;
}

static PyObject *timed(PyObject *module, PyObject *times_capsule, PyObject *judge_capsule, const struct seen *seen,
                       const struct scard_moments *moments)
{
    struct scard_timed timed;
    struct scard_verdict verdict;
    PyObject *values[4];
    struct times *times = (struct times *)kept_of(module, times_capsule, TIMES);
    struct judge *judge = times == NULL ? NULL : (struct judge *)kept_of(module, judge_capsule, JUDGE);
    if (judge == NULL) {
        return NULL;
    }
    verdict = scard_lent_times_block(&times->times, &judge->judge, seen->from, seen->octets.at, seen->octets.count,
                                     seen->arrival, seen->came.at, seen->came.count, moments, &timed);
    if (verdict.status != SCARD_OK) {
        return raise_verdict(module, verdict, 0);
    }
    values[0] = member(module, MADE_OFF_TIME, timed.off);
    values[1] = PyLong_FromUnsignedLongLong(timed.elapsed);
    values[2] = PyLong_FromUnsignedLongLong(timed.limit);
    values[3] = PyBool_FromLong(timed.over);
    return make(module, MADE_TIMED, values, 4);
}

/* times_block(times, judge, end, octets, arrival, came, first, last). */
static PyObject *times_block(PyObject *module, arguments given, Py_ssize_t count)
{
    struct scard_moments moments;
    struct seen seen;
    PyObject *made;
    if (!count_is(count, 8) || !moment_of(given[6], &moments.first, &moments.has_first)
        || !moment_of(given[7], &moments.last, &moments.has_last) || !seen_of(given + 2, &seen)) {
        return NULL;
    }
    made = timed(module, given[0], given[1], &seen, &moments);
    seen_release(&seen);
    return made;
}

/* rule_text(rule) and clause_text(rule): the library's words of a rule. */
static PyObject *rule_text(PyObject *module, arguments given, Py_ssize_t count)
{
    uint8_t rule;
    struct scard_text text;
    (void)module;
    if (!count_is(count, 1) || !octet_of(given[0], &rule)) {
        return NULL;
    }
    scard_judge_rule_text(rule, &text);
    return text_of(&text);
}

static PyObject *clause_text(PyObject *module, arguments given, Py_ssize_t count)
{
    uint8_t rule;
    struct scard_text text;
    (void)module;
    if (!count_is(count, 1) || !octet_of(given[0], &rule)) {
        return NULL;
    }
    scard_judge_clause_text(rule, &text);
    return text_of(&text);
}

PyMethodDef judge_functions[] = {
    FUNCTION(judge_new), FUNCTION(judge_block), FUNCTION(judge_exercise), FUNCTION(judge_quiet), FUNCTION(judge_finish),
    FUNCTION(times_new), FUNCTION(times_block), FUNCTION(rule_text), FUNCTION(clause_text), LAST_FUNCTION,
};
