/* The card: a process that a reader powers up over a Unix socket. To put the card in, start the process. To take it
 * out, end the process. The card serves one reader at a time. Run it as: card SOCKET [time=N] */
#include "simulated.h"
#include "wire.h"

#include <stdio.h>
#include <string.h>
#include <sys/socket.h>
#include <sys/un.h>
#include <unistd.h>

/* The line to the reader that is connected. */
struct reader {
    int socket;
    bool is_reset, is_gone; /* a reset came, or the reader went away */
    uint8_t octets[WIRE_ROOM];
    size_t place, count; /* the part of a block that isn't read yet */
};

static int send_block(void *context, const uint8_t *octets, size_t count)
{
    struct reader *reader = context;
    return wire_send(reader->socket, WIRE_BLOCK, octets, count) == 0 ? 0 : SCARD_LINE_FAILED;
}

/* Waits for a message: a block, a reset, or the end of the reader. */
static void wait_for_message(struct reader *reader, int milliseconds)
{
    uint8_t kind = 0;
    long count = wire_receive(reader->socket, milliseconds, &kind, reader->octets);
    reader->is_gone = count == WIRE_GONE;
    reader->is_reset = count >= 0 && kind == WIRE_POWER;
    reader->place = 0;
    reader->count = count > 0 && kind == WIRE_BLOCK ? (size_t)count : 0;
}

/* Receives octets. A message holds all of a block, so no rest can follow. A reset ends the session. */
static int receive_octets(void *context, uint8_t *octets, size_t room, uint64_t microseconds)
{
    struct reader *reader = context;
    size_t count;
    if (reader->place == reader->count && !reader->is_reset && !reader->is_gone) {
        wait_for_message(reader, microseconds == SCARD_LINE_FOREVER ? -1 : 0);
    }
    if (reader->is_reset || reader->is_gone) {
        return SCARD_LINE_FAILED;
    }
    count = reader->count - reader->place < room ? reader->count - reader->place : room;
    memcpy(octets, reader->octets + reader->place, count);
    reader->place += count;
    return count == 0 && microseconds == SCARD_LINE_FOREVER ? SCARD_LINE_INTERRUPTED : (int)count;
}

static void tell(void *context, const char *word, const uint8_t *octets, size_t count)
{
    struct reader *reader = context;
    enum wire_kind kind = word[0] == 'a' ? WIRE_ASKED : word[0] == 't' ? WIRE_TIME : WIRE_REPLY;
    wire_send(reader->socket, kind, octets, count);
}

/* Serves a reader from one reset to the next, until the reader goes away. */
static void serve(struct simulated *card, struct reader *reader)
{
    uint8_t unwanted[SCARD_BLOCK_ROOM];
    while (!reader->is_gone) {
        if (!reader->is_reset) { /* without power a card receives nothing */
            receive_octets(reader, unwanted, sizeof unwanted, SCARD_LINE_FOREVER);
            continue;
        }
        reader->is_reset = false;
        reader->place = reader->count = 0;
        if (simulated_reset(card) && wire_send(reader->socket, WIRE_ATR, card->atr, card->atr_count) == 0) {
            simulated_serve(card);
        }
    }
}

static int listen_at(const char *name)
{
    struct sockaddr_un at = {.sun_family = AF_UNIX};
    int listener = socket(AF_UNIX, SOCK_SEQPACKET | SOCK_CLOEXEC, 0);
    if (listener < 0 || strlen(name) >= sizeof at.sun_path) {
        return -1;
    }
    strcpy(at.sun_path, name);
    unlink(name);
    return bind(listener, (struct sockaddr *)&at, sizeof at) == 0 && listen(listener, 0) == 0 ? listener : -1;
}

int main(int count, char **words)
{
    static struct simulated card;
    static struct reader reader;
    int listener;
    card.line = (struct scard_line){&reader, send_block, receive_octets, NULL};
    card.tell = tell;
    if (count < 2 || count > 3 || (count == 3 && !simulated_word(&card, words[2]))) {
        fputs("usage: card SOCKET [time=N]\n", stderr);
        return 2;
    }
    listener = listen_at(words[1]);
    if (listener < 0) {
        perror(words[1]);
        return 1;
    }
    while ((reader.socket = accept4(listener, NULL, NULL, SOCK_CLOEXEC)) >= 0) {
        reader.is_reset = reader.is_gone = false;
        reader.place = reader.count = 0;
        serve(&card, &reader);
        close(reader.socket);
    }
    perror("card");
    return 1;
}
