/* A plan: which blocks on a line are disturbed, how, and where a recording goes. It is a text such as
 *   lose=3,7 damage=9 spoil=12 change=14 cut=16 extend=18 rate=5 seed=1 clock=real empty=damaged record=FILE
 * with any of these words, or none. Blocks of both directions count from 1 at the power up. */
#ifndef PLAN_H
#define PLAN_H

#include <stdbool.h>
#include <stddef.h>
#include <stdint.h>

enum fault { FAULT_NONE, FAULT_LOST, FAULT_DAMAGED, FAULT_SPOILED, FAULT_CHANGED, FAULT_CUT, FAULT_EXTENDED, FAULTS };

/* MOST_ARRIVING is the largest number of octets that arrive as one block: one more than the longest block has. */
enum { MOST_LISTED = 64, LONGEST_PLAN = 1024, MOST_ARRIVING = 259 };

struct plan {
    struct { uint32_t block; enum fault fault; } listed[MOST_LISTED];
    size_t listed_count;
    double rate;        /* this percentage of the other blocks has a fault, each kind equally often */
    uint32_t seed;
    bool waits;         /* clock=real: a lost block costs its waiting time; otherwise the timeout comes at once */
    bool refuses_empty; /* empty=damaged: each I-block without information is damaged */
    char record[512];   /* "": no recording */
    uint32_t blocks, faults[FAULTS]; /* since the power up: the blocks, and those with each fault */
    uint64_t die;
};

/* Reads a plan from a text. Returns false if the text isn't a valid plan; then the plan has no faults. */
bool plan_read(struct plan *plan, const char *text);

/* Reads a plan from a file, as plan_read does. If there is no file, the plan has no faults. */
bool plan_load(struct plan *plan, const char *file);

/* Changes the next block to what arrives of it. The block is `count` octets in a buffer of MOST_ARRIVING. Returns how
 * many octets arrive, or 0 if the block is lost. The faults: a damaged block has another check octet. A spoiled block
 * has a node address that nobody has, and the check octet that fits it. In a changed block any one octet is another
 * one, even LEN. A cut block lacks octets at its end. An extended block has octets after it. With empty=damaged an
 * I-block without information is damaged, as for ends that set `refuses_empty`. A recording then says so. */
size_t plan_next(struct plan *plan, uint8_t *octets, size_t count);

#endif
