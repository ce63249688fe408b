/* A judge on the line of the harness: which end broke T=1, and by which rule. */
#ifndef JUDGED_H
#define JUDGED_H

#include <stdint.h>

enum { ENDS = 2, RULES = 24 };

/* What the judge said about many runs. The ends are those of enum scard_end, the rules those of enum scard_rule. */
struct judged {
    unsigned long blocks;
    unsigned runs[ENDS];                 /* runs with a deviation of an end */
    unsigned long deviations[ENDS][RULES];
};

/* A run begins with a reset of a card of this information size: from now on the judge gets the blocks of the line. */
void judge_begins(uint8_t ifsc);

/* The run ended: its judgment is added to `all`. */
void judge_ends(struct judged *all);

/* The words of a rule, for printing. */
const char *rule_text(uint8_t rule);

#endif
