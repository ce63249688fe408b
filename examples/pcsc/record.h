/* Records a session. It writes what happens, with moments, as the lines of an exchange file (docs/RECORDED.md). */
#ifndef RECORD_H
#define RECORD_H

#include <stdbool.h>
#include <stddef.h>
#include <stdint.h>
#include <stdio.h>

struct record {
    FILE *file, *held;     /* where lines go: the file, or a text in memory while they are held back */
    char *text;            /* the lines that are held back */
    size_t text_count;
    char name[512];
    uint8_t atr[33];
    size_t atr_count;
    unsigned number;       /* the number of files so far */
    bool is_full;
    uint64_t began, jumped, moment; /* microseconds */
};

/* Begins the recording of a session, at a power up. Its file is NAME.1, NAME.2 and so on, and exists once the session
 * has a line. With the name "" the session isn't recorded. */
void record_begin(struct record *record, const char *name, const uint8_t *atr, size_t count);
void record_end(struct record *record);

/* Writes a line of one word, or of a word and octets. */
void record_word(struct record *record, const char *word);
void record_octets(struct record *record, const char *word, const uint8_t *octets, size_t count);

/* Writes the line of a block: what the end 't' or 'c' sent, and what arrived of it. No octets: the block is lost. */
void record_block(struct record *record, char end, const uint8_t *sent, size_t count, const uint8_t *arrived,
                  size_t arriving);

/* Advances the clock of the recording by a time for which nobody waited. */
void record_jump(struct record *record, uint64_t microseconds);

/* Holds back the next lines until the line before them is known: that of a command which isn't complete yet. Then
 * record_release writes that line and the others. */
void record_hold(struct record *record);
void record_release(struct record *record, const char *word, const uint8_t *octets, size_t count);

#endif
