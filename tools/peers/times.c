/* Compares how long each work takes with us and with a peer. Prints a row for each, with the least of its rounds in
 * nanoseconds and the ratio. The two take turns by rounds, so short that some run undisturbed even on a busy machine.
 * usage: times ATRS, a file with an answer to reset in hexadecimal in each line
 */
#define _POSIX_C_SOURCE 200809L
#include "peers.h"

#include <stdio.h>
#include <stdlib.h>
#include <string.h>
#include <time.h>

enum { ROUNDS = 1000, MOST_ATRS = 10000, LONGEST_ATR = 33, COMMAND = 65544, REPLY = 65538, FOREST = 65536 };

static double now(void)
{
    struct timespec at;
    clock_gettime(CLOCK_MONOTONIC, &at);
    return (double)at.tv_sec * 1e9 + (double)at.tv_nsec;
}

typedef long job(void);

static volatile long sink;

static double round_of(job *work, unsigned times)
{
    double began = now();
    unsigned turn;
    for (turn = 0; turn < times; turn++) {
        sink += work();
    }
    return (now() - began) / times;
}

/* How often to repeat a work in a round, so that the round takes at least a third of a millisecond. */
static unsigned times_of(job *work)
{
    unsigned times = 1;
    while (round_of(work, times) * times < 3e5) {
        times *= 2;
    }
    return times;
}

/* Times a work with the peer and with us; `each` is how many things one call does. */
static void row(const char *what, const char *peer, job *theirs, job *our_work, double each)
{
    unsigned their_times = times_of(theirs), our_times = times_of(our_work);
    double their_least = 1e18, our_least = 1e18;
    int turn;
    for (turn = 0; turn < ROUNDS; turn++) {
        double took = round_of(theirs, their_times) / each;
        their_least = took < their_least ? took : their_least;
        took = round_of(our_work, our_times) / each;
        our_least = took < our_least ? took : our_least;
    }
    printf("%-42s %-24s %12.1f %12.1f %8.2f\n", what, peer, their_least, our_least, our_least / their_least);
    fflush(stdout);
}

/* ---- answers to reset ---- */

static uint8_t atrs[MOST_ATRS][LONGEST_ATR];
static size_t atr_counts[MOST_ATRS], atr_count;

static void read_atrs(const char *name)
{
    char line[512];
    FILE *file = fopen(name, "r");
    while (file != NULL && atr_count < MOST_ATRS && fgets(line, sizeof line, file) != NULL) {
        size_t place, count = strcspn(line, "\n") / 2;
        for (place = 0; place < count && count <= LONGEST_ATR; place++) {
            unsigned octet;
            sscanf(line + 2 * place, "%2x", &octet);
            atrs[atr_count][place] = (uint8_t)octet;
        }
        atr_counts[atr_count] = count;
        atr_count += count <= LONGEST_ATR;
    }
    if (file == NULL || atr_count == 0) {
        fprintf(stderr, "times: no answers to reset in %s\n", name);
        exit(2);
    }
    fclose(file);
}

static long over_atrs(int (*accepts)(const uint8_t *, size_t))
{
    long accepted = 0;
    size_t atr;
    for (atr = 0; atr < atr_count; atr++) {
        accepted += accepts(atrs[atr], atr_counts[atr]);
    }
    return accepted;
}

static long atr_theirs(void)
{
    return over_atrs(libccid_atr);
}

static long atr_ours(void)
{
    return over_atrs(ours_atr);
}

/* ---- blocks ---- */

static uint8_t inf[254], block[300];
static size_t inf_count, block_count;

static long check_theirs(void)
{
    return libccid_block_check(block, block_count);
}

static long decode_ours(void)
{
    return ours_block_decode(block, block_count, 254);
}

static long encode_theirs(void)
{
    return (long)libccid_block_encode(inf, inf_count, block);
}

static long encode_ours(void)
{
    return (long)ours_block_encode(0, 0, 0, inf, inf_count, block);
}

/* ---- long octets ---- */

static uint8_t command[COMMAND], reply[REPLY], answer[REPLY], forest[FOREST];
static size_t forest_count;

static long lrc_theirs(void)
{
    return libccid_lrc(forest, FOREST);
}

static long lrc_ours(void)
{
    return ours_lrc(forest, FOREST);
}

static long command_theirs(void)
{
    return opensc_command(command, COMMAND);
}

static long command_ours(void)
{
    return ours_command_ref(command, COMMAND);
}

static size_t replies(void *self, const uint8_t *octets, size_t count, uint8_t *out, int *wants_time)
{
    (void)self;
    (void)octets;
    (void)count;
    *wants_time = 0;
    memcpy(out, reply, REPLY);
    return REPLY;
}

static long exchange(const struct terminal *terminal)
{
    struct link link = {NULL, 0, 0};
    struct host host = {replies, NULL};
    new_card(254, host);
    terminal->start(&link, 254);
    if (terminal->ask_ifs(254) != 0 || terminal->transmit(command, COMMAND, answer, REPLY) != REPLY
        || memcmp(answer, reply, REPLY) != 0) {
        fprintf(stderr, "times: %s: the exchange isn't answered\n", terminal->name);
        exit(1);
    }
    return (long)link.blocks;
}

static long exchange_theirs(void)
{
    return exchange(&libccid_mute);
}

static long exchange_ours(void)
{
    return exchange(&ours);
}

static long both_ours(void)
{
    long blocks = (long)ours_exchange_both(254, command, COMMAND, reply, REPLY);
    if (blocks == 0) {
        fprintf(stderr, "times: our ends: the exchange isn't answered\n");
        exit(1);
    }
    return blocks;
}

/* ---- forests ---- */

static uint32_t state;

static uint32_t any(uint32_t below)
{
    state = state * 1103515245u + 12345u;
    return (state >> 8) % below;
}

struct tag {
    uint8_t octets[3];
    size_t count;
};

static const struct tag outer[] = {{{0x70}, 1}, {{0x6F}, 1}, {{0xA5}, 1}, {{0xBF, 0x0C}, 2}};
static const struct tag inner[] = {
    {{0x5A}, 1}, {{0x84}, 1}, {{0x9F, 0x02}, 2}, {{0x5F, 0x2A}, 2}, {{0xDF, 0x81, 0x29}, 3},
};

/* Writes a tag and room for the length field of a value of at most `most` octets; returns where the value begins. */
static size_t opened(size_t at, const struct tag *tag, size_t most)
{
    memcpy(forest + at, tag->octets, tag->count);
    at += tag->count;
    if (most >= 0x80) {
        forest[at] = most < 0x100 ? 0x81 : 0x82;
        at += most < 0x100 ? 1 : 2;
    }
    return at + 1;
}

/* Fills the length field before a value. */
static void closed(size_t begin, size_t most, size_t len)
{
    forest[begin - 1] = (uint8_t)len;
    if (most >= 0x100) {
        forest[begin - 2] = (uint8_t)(len >> 8);
    }
}

/* Fills the room before `end` with objects of this depth, and returns where they end. A flat forest has values of 100
 * to 250 octets. In a nested one two of three objects above depth 16 have objects inside, and values are short.
 */
static size_t grown(size_t at, size_t end, int depth, int is_flat, long *objects)
{
    while (end - at >= 8) {
        size_t room = end - at - 6, begin, len;
        int nests = !is_flat && depth < 16 && room > 24 && (depth == 1 || any(3) > 0);
        const struct tag *tag = nests ? &outer[any(4)] : &inner[any(5)];
        size_t most = is_flat        ? 100 + any(151)
                      : !nests       ? any(13)
                      : depth == 1 ? 2000 + any(2000)
                                   : 16 + any((uint32_t)room - 8);
        most = most > room ? room : most;
        begin = opened(at, tag, most);
        len = nests ? grown(begin, begin + most, depth + 1, is_flat, objects) - begin : most;
        closed(begin, most, len);
        at = begin + len;
        *objects += 1;
    }
    return at;
}

static long check_forest_ours(void)
{
    return ours_forest_check(forest, forest_count);
}

static long parts_ours(void)
{
    return ours_forest_flat(forest, forest_count);
}

static long walk_opensc(void)
{
    return opensc_forest(forest, forest_count);
}

static long walk_openssl(void)
{
    return openssl_forest(forest, forest_count);
}

static void told_forest(const char *kind, int is_flat)
{
    char what[60];
    long objects = 0;
    memset(forest, 0xA7, sizeof forest);
    state = 7816;
    forest_count = grown(0, FOREST, 1, is_flat, &objects);
    if (walk_opensc() != objects || walk_openssl() != objects || parts_ours() != objects || !check_forest_ours()) {
        fprintf(stderr, "times: the %s forest isn't read alike\n", kind);
        exit(1);
    }
    snprintf(what, sizeof what, "%s forest, %ld objects: check", kind, objects);
    row(what, "OpenSC, a walk", walk_opensc, check_forest_ours, 1);
    row(what, "OpenSSL, a walk", walk_openssl, check_forest_ours, 1);
    snprintf(what, sizeof what, "%s forest, %ld objects: parts", kind, objects);
    row(what, "OpenSC, a walk", walk_opensc, parts_ours, 1);
}

int main(int argc, char **argv)
{
    static const size_t counts[] = {5, 254};
    size_t place;
    if (argc != 2) {
        return 2;
    }
    read_atrs(argv[1]);
    printf("%-42s %-24s %12s %12s %8s\n", "work", "peer", "peer, ns", "ours, ns", "ratio");
    row("an answer to reset", "libccid, TCK unchecked", atr_theirs, atr_ours, (double)atr_count);
    for (place = 0; place < 2; place++) {
        char what[40];
        inf_count = counts[place];
        block_count = libccid_block_encode(inf, inf_count, block);
        snprintf(what, sizeof what, "a block, field of %zu: decode", inf_count);
        row(what, "libccid, checksum alone", check_theirs, decode_ours, 1);
        snprintf(what, sizeof what, "a block, field of %zu: encode", inf_count);
        row(what, "libccid", encode_theirs, encode_ours, 1);
    }
    row("LRC of 64 KiB", "libccid", lrc_theirs, lrc_ours, 1);
    memcpy(command, "\x00\xD6\x00\x00\x00\xFF\xFF", 7); /* 65,535 octets of data, and Le 65,536 */
    memset(reply, 0x5A, sizeof reply);
    row("an exchange of 64 KiB each way, our card", "libccid", exchange_theirs, exchange_ours, 1);
    row("the same, both ends ours", "libccid", exchange_theirs, both_ours, 1);
    row("a command of 64 KiB, in place", "OpenSC", command_theirs, command_ours, 1);
    told_forest("nested", 0);
    told_forest("flat", 1);
    return 0;
}
