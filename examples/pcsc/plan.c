#include "plan.h"

#include <stdio.h>
#include <stdlib.h>
#include <string.h>

static const char blanks[] = " \t\r\n";

static const char *const fault_words[FAULTS] = {"", "lose", "damage", "spoil", "change", "cut", "extend"};

static uint32_t throw_die(struct plan *plan)
{
    plan->die ^= plan->die << 13;
    plan->die ^= plan->die >> 7;
    plan->die ^= plan->die << 17;
    return (uint32_t)(plan->die >> 11);
}

/* Reads the numbers of blocks with a fault, separated by commas. Returns false if the text isn't such a list. */
static bool read_list(struct plan *plan, enum fault fault, char *text)
{
    char *end;
    for (; plan->listed_count < MOST_LISTED; text = end + 1) {
        plan->listed[plan->listed_count].block = (uint32_t)strtoul(text, &end, 10);
        plan->listed[plan->listed_count++].fault = fault;
        if (end == text || (*end != ',' && *end != 0)) {
            return false;
        }
        if (*end == 0) {
            return true;
        }
    }
    return false;
}

static bool read_word(struct plan *plan, char *word)
{
    char *value = strchr(word, '='), *end = word;
    int fault;
    if (value == NULL || value[1] == 0) {
        return false;
    }
    *value++ = 0;
    for (fault = FAULT_LOST; fault < FAULTS; fault++) {
        if (strcmp(word, fault_words[fault]) == 0) {
            return read_list(plan, (enum fault)fault, value);
        }
    }
    if (strcmp(word, "rate") == 0) {
        plan->rate = strtod(value, &end);
    } else if (strcmp(word, "seed") == 0) {
        plan->seed = (uint32_t)strtoul(value, &end, 10);
    } else if (strcmp(word, "clock") == 0) {
        plan->waits = strcmp(value, "real") == 0;
        return plan->waits;
    } else if (strcmp(word, "empty") == 0) {
        plan->refuses_empty = strcmp(value, "damaged") == 0;
        return plan->refuses_empty;
    } else if (strcmp(word, "record") == 0 && strlen(value) < sizeof plan->record) {
        strcpy(plan->record, value);
        return true;
    }
    return *end == 0;
}

bool plan_read(struct plan *plan, const char *text)
{
    char words[LONGEST_PLAN], *word, *rest = NULL;
    bool is_plan = strlen(text) < sizeof words;
    memset(plan, 0, sizeof *plan);
    plan->seed = 1;
    if (is_plan) {
        strcpy(words, text);
        for (word = strtok_r(words, blanks, &rest); word != NULL && is_plan; word = strtok_r(NULL, blanks, &rest)) {
            is_plan = read_word(plan, word);
        }
    }
    if (!is_plan) {
        memset(plan, 0, sizeof *plan);
    }
    plan->die = plan->seed * 2654435761u + 88172645463325252u;
    return is_plan;
}

bool plan_load(struct plan *plan, const char *name)
{
    char text[LONGEST_PLAN + 1] = "";
    FILE *file = fopen(name, "r");
    if (file != NULL) {
        text[fread(text, 1, sizeof text - 1, file)] = 0;
        fclose(file);
    }
    return plan_read(plan, text);
}

static enum fault fault_of(struct plan *plan)
{
    size_t at;
    for (at = 0; at < plan->listed_count; at++) {
        if (plan->listed[at].block == plan->blocks) {
            return plan->listed[at].fault;
        }
    }
    if (plan->rate > 0 && throw_die(plan) % 100000 < plan->rate * 1000) {
        return (enum fault)(FAULT_LOST + throw_die(plan) % (FAULTS - FAULT_LOST));
    }
    return FAULT_NONE;
}

/* Adds octets after a block: 1 to 16, as far as there is room. */
static size_t extend(struct plan *plan, uint8_t *octets, size_t count)
{
    size_t more = 1 + throw_die(plan) % 16;
    for (; more > 0 && count < MOST_ARRIVING; more--) {
        octets[count++] = (uint8_t)throw_die(plan);
    }
    return count;
}

/* Changes an octet to another one, each with the same probability. */
static void change(struct plan *plan, uint8_t *octet)
{
    *octet = (uint8_t)(*octet ^ (1 + throw_die(plan) % 255));
}

/* Returns true if the octets are an I-block without information. */
static bool is_empty(const uint8_t *octets, size_t count)
{
    return count == 4 && octets[1] < 0x80;
}

size_t plan_next(struct plan *plan, uint8_t *octets, size_t count)
{
    enum fault fault;
    plan->blocks++;
    fault = fault_of(plan);
    if (fault == FAULT_NONE && plan->refuses_empty && is_empty(octets, count)) {
        fault = FAULT_DAMAGED;
    }
    plan->faults[fault]++;
    switch (fault) {
    case FAULT_LOST:
        return 0;
    case FAULT_SPOILED:
        octets[0] ^= 0x01;
        octets[count - 1] ^= 0x01;
        return count;
    case FAULT_DAMAGED:
        change(plan, &octets[count - 1]);
        return count;
    case FAULT_CHANGED:
        change(plan, &octets[throw_die(plan) % count]);
        return count;
    case FAULT_CUT:
        return throw_die(plan) % count;
    case FAULT_EXTENDED:
        return extend(plan, octets, count);
    default:
        return count;
    }
}
