/* What the harness needs of each T=1 stack: a terminal over a line of the harness, and calls to time. */
#ifndef ADAPTER_H
#define ADAPTER_H

#include <stddef.h>
#include <stdint.h>

/* The harness's line, with a card at its far end. It carries one block there and at most one back, in a buffer of 300
 * octets. A count of 0 means that nothing arrived. */
struct link;
void link_exchange(struct link *link, const uint8_t *sent, size_t count, uint8_t *back, size_t *back_count);

struct terminal {
    const char *name;
    /* a new terminal on this line, for a card with this information size */
    void (*start)(struct link *link, uint8_t ifsc);
    /* the length of the answer, -1 if the exchange was given up, -2 if the card is dead */
    long (*transmit)(const uint8_t *command, size_t count, uint8_t *answer, size_t room);
    /* 0 if the card took the size, else as above */
    int (*ask_ifs)(uint8_t size);
};

extern struct terminal ours;

/* 1 if the octets are an answer to reset, a block, a command: else 0 */
int ours_atr(const uint8_t *octets, size_t count);
int ours_block_decode(const uint8_t *octets, size_t count, uint8_t ifs);
int ours_command_ref(const uint8_t *octets, size_t count);
/* the same with a copy of the data field, which is freed before the return */
int ours_command(const uint8_t *octets, size_t count);
/* writes an I-block, and returns its length */
size_t ours_block_encode(uint8_t nad, int number, int more, const uint8_t *inf, size_t count, uint8_t *out);
/* 1 if the octets are a forest of data objects */
int ours_forest_check(const uint8_t *octets, size_t count);
/* how many objects a forest has, by the list of them with their places; -1 if the octets are no forest */
long ours_forest_flat(const uint8_t *octets, size_t count);
/* -1: the library makes no tree */
long ours_forest(const uint8_t *octets, size_t count);
uint8_t ours_lrc(const uint8_t *octets, size_t count);
/* how many blocks a whole exchange takes between our ends, each with this size; 0 if the answer isn't this reply */
size_t ours_exchange_both(uint8_t size, const uint8_t *command, size_t count, const uint8_t *reply, size_t reply_count);

#endif
