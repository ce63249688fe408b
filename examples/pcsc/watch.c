#include "watch.h"

#include "scard.h"

#include <string.h>

void watch_begin(struct watch *watch, struct record *record)
{
    memset(watch, 0, sizeof *watch);
    watch->record = record;
}

/* Adds a field to a message, if the message has room for it. */
static void join(uint8_t *message, size_t *count, size_t room, const uint8_t *block, const struct scard_block *parts)
{
    if (room - *count >= parts->inf_len) {
        memcpy(message + *count, block + parts->inf_place, parts->inf_len);
        *count += parts->inf_len;
    }
}

static int number_of(const struct scard_block *parts)
{
    return parts->pcb >> 6 & 1;
}

/* Handles an I-block of a command: the next block, or the last one again. */
static void send_field(struct watch *watch, const uint8_t *block, const struct scard_block *parts)
{
    bool is_first = !watch->is_open;
    if (is_first) {
        record_hold(watch->record);
        watch->is_open = true;
        watch->command_count = watch->answer_count = 0;
    }
    if (!watch->is_known && (is_first || number_of(parts) != watch->last)) {
        join(watch->command, &watch->command_count, sizeof watch->command, block, parts);
        watch->last = (uint8_t)number_of(parts);
        watch->is_known = (parts->pcb & 0x20) == 0;
    }
}

void watch_sent(struct watch *watch, const uint8_t *block, size_t count)
{
    struct scard_block parts;
    if (scard_block_decode(block, count, 254, &parts).status != SCARD_OK) {
        return;
    }
    if ((parts.pcb & 0x80) == 0) {
        send_field(watch, block, &parts);
    } else if (parts.pcb == 0xC1 && !watch->asks_size && !watch->is_open) {
        record_octets(watch->record, "ifsd", block + parts.inf_place, 1);
        watch->asks_size = true;
    }
}

void watch_recorded(struct watch *watch)
{
    if (watch->is_known) {
        record_release(watch->record, "command", watch->command, watch->command_count);
    }
}

/* Handles an I-block of an answer. It doesn't look for blocks that the terminal accepts twice. */
static void take_field(struct watch *watch, const uint8_t *block, const struct scard_block *parts)
{
    if (!watch->is_open || number_of(parts) != watch->expected) {
        return;
    }
    join(watch->answer, &watch->answer_count, sizeof watch->answer, block, parts);
    watch->expected ^= 1;
    if ((parts->pcb & 0x20) == 0) {
        record_octets(watch->record, "answer", watch->answer, watch->answer_count);
        watch->is_open = watch->is_known = false;
    }
}

void watch_came(struct watch *watch, const uint8_t *block, size_t count)
{
    struct scard_block parts;
    if (scard_block_decode(block, count, 254, &parts).status != SCARD_OK || parts.nad != 0) {
        return;
    }
    if ((parts.pcb & 0x80) == 0) {
        take_field(watch, block, &parts);
    } else if (parts.pcb == 0xE1 && watch->asks_size) {
        record_word(watch->record, "ifs-set");
        watch->asks_size = false;
    } else if (parts.pcb == 0xE0) {
        watch->expected = 0; /* an open exchange has failed; the replay shows what comes now */
    }
}

void watch_end(struct watch *watch)
{
    static const uint8_t unknown = 0;
    struct scard_block one = {0, 0, 0, 1};
    if (watch->is_open && !watch->is_known) {
        join(watch->command, &watch->command_count, sizeof watch->command, &unknown, &one);
        record_release(watch->record, "command", watch->command, watch->command_count);
    }
    watch->is_open = watch->is_known = watch->asks_size = false;
}
