#include "judged.h"
#include "line.h"

#include "scard.h"

#include <stdlib.h>
#include <string.h>

static struct scard_lent_judge judge;
static struct judged run;

static void hear(int from, const uint8_t *sent, size_t count, const uint8_t *came, size_t came_count)
{
    struct scard_judgment said;
    uint8_t arrival = came_count > 0 ? SCARD_ARRIVAL_CAME : SCARD_ARRIVAL_LOST;
    if (scard_lent_judge_block(&judge, (uint8_t)from, sent, count, arrival, came, came_count, &said).status
        != SCARD_OK) {
        abort();
    }
    run.blocks++;
    if (said.verdict == SCARD_JUDGED_DEVIATION) {
        run.deviations[from][said.rule]++;
        run.runs[from] = 1;
    }
}

void judge_begins(uint8_t ifsc)
{
    memset(&run, 0, sizeof run);
    if (scard_lent_judge_begin(&judge, ifsc).status != SCARD_OK) {
        abort();
    }
    tap_line(hear);
}

void judge_ends(struct judged *all)
{
    int end, rule;
    all->blocks += run.blocks;
    for (end = 0; end < ENDS; end++) {
        all->runs[end] += run.runs[end];
        for (rule = 0; rule < RULES; rule++) {
            all->deviations[end][rule] += run.deviations[end][rule];
        }
    }
}

const char *rule_text(uint8_t rule)
{
    struct scard_text words;
    scard_judge_rule_text(rule, &words);
    return words.text;
}
