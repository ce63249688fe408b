#include "record.h"

#include <inttypes.h>
#include <stdlib.h>
#include <string.h>
#include <time.h>

/* When a file is full, in octets. An exchange file has at most 4,194,304, and the longest exchange under faults has
 * less than half as many. */
enum { FULL = 2000000 };

static uint64_t now(void)
{
    struct timespec time;
    clock_gettime(CLOCK_MONOTONIC, &time);
    return (uint64_t)time.tv_sec * 1000000 + (uint64_t)time.tv_nsec / 1000;
}

void record_begin(struct record *record, const char *name, const uint8_t *atr, size_t count)
{
    record_end(record);
    if (strlen(name) >= sizeof record->name || count > sizeof record->atr) {
        name = "";
    } else {
        memcpy(record->atr, atr, count);
        record->atr_count = count;
    }
    if (strcmp(record->name, name) != 0) {
        strcpy(record->name, name);
        record->number = 0;
    }
    record->is_full = false;
    record->jumped = record->moment = 0;
    record->began = now();
}

void record_end(struct record *record)
{
    if (record->held != NULL) {
        record_release(record, NULL, NULL, 0);
    }
    if (record->file != NULL) {
        fclose(record->file);
        record->file = NULL;
    }
}

static void put_octets(FILE *file, const uint8_t *octets, size_t count)
{
    static const char digits[] = "0123456789ABCDEF";
    size_t at;
    if (count == 0) {
        fputs("none", file);
    }
    for (at = 0; at < count; at++) {
        putc(digits[octets[at] >> 4], file);
        putc(digits[octets[at] & 15], file);
    }
}

/* Returns the file of the session, and creates it at the first line. */
static FILE *opened(struct record *record)
{
    char name[sizeof record->name + 16];
    if (record->file == NULL && record->name[0] != 0) {
        snprintf(name, sizeof name, "%s.%u", record->name, ++record->number);
        record->file = fopen(name, "w");
        if (record->file == NULL) {
            record->name[0] = 0;
            return NULL;
        }
        fputs("scard-exchange 2\natr ", record->file);
        put_octets(record->file, record->atr, record->atr_count);
        putc('\n', record->file);
    }
    return record->file;
}

/* Writes a line with the moment, if it differs from the last one. */
static void put_moment(struct record *record, FILE *file)
{
    uint64_t moment = now() - record->began + record->jumped;
    if (moment > record->moment) {
        fprintf(file, "at %" PRIu64 "\n", moment);
        record->moment = moment;
    }
}

/* Returns true if there is room for a command. A full file ends before a command, with a note. */
static bool has_room(struct record *record)
{
    if (opened(record) != NULL && !record->is_full && ftell(record->file) > FULL) {
        fputs("note the file is full: more followed\n", record->file);
        fflush(record->file);
        record->is_full = true;
    }
    return record->file != NULL && !record->is_full;
}

/* Begins the next line with its first word. Returns where the line goes, or NULL if it isn't written. */
static FILE *line(struct record *record, const char *word)
{
    FILE *file = record->held;
    if (file == NULL) {
        if (strcmp(word, "command") == 0 ? !has_room(record) : opened(record) == NULL || record->is_full) {
            return NULL;
        }
        file = record->file;
    }
    put_moment(record, file);
    fputs(word, file);
    return file;
}

static void end_line(struct record *record, FILE *file)
{
    putc('\n', file);
    if (record->held == NULL) {
        fflush(file);
    }
}

void record_word(struct record *record, const char *word)
{
    FILE *file = line(record, word);
    if (file != NULL) {
        end_line(record, file);
    }
}

void record_octets(struct record *record, const char *word, const uint8_t *octets, size_t count)
{
    FILE *file = line(record, word);
    if (file != NULL) {
        putc(' ', file);
        put_octets(file, octets, count);
        end_line(record, file);
    }
}

void record_block(struct record *record, char end, const uint8_t *sent, size_t count, const uint8_t *arrived,
                  size_t arriving)
{
    FILE *file = line(record, end == 't' ? "t " : "c ");
    if (file == NULL) {
        return;
    }
    put_octets(file, sent, count);
    if (arriving == 0) {
        fputs(" lost", file);
    } else if (arriving != count || memcmp(sent, arrived, count) != 0) {
        fputs(" as ", file);
        put_octets(file, arrived, arriving);
    }
    end_line(record, file);
}

void record_jump(struct record *record, uint64_t microseconds)
{
    record->jumped += microseconds;
}

void record_hold(struct record *record)
{
    if (record->held == NULL && has_room(record)) {
        put_moment(record, record->file);
        record->held = open_memstream(&record->text, &record->text_count);
    }
}

void record_release(struct record *record, const char *word, const uint8_t *octets, size_t count)
{
    if (record->held == NULL) {
        return;
    }
    fclose(record->held);
    record->held = NULL;
    if (word != NULL) {
        fprintf(record->file, "%s ", word);
        put_octets(record->file, octets, count);
        putc('\n', record->file);
    }
    fwrite(record->text, 1, record->text_count, record->file);
    fflush(record->file);
    free(record->text);
    record->text = NULL;
}
