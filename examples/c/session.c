/* A terminal and a card at the two ends of a pair of sockets, which deliver a whole block or nothing. Each word is a
 * command, and each line of output is its answer. The session begins once, when the card is powered up. Run it as:
 * session HEX.. */
#include "line.h"

#include <stdio.h>
#include <stdlib.h>
#include <string.h>
#include <sys/socket.h>
#include <sys/wait.h>
#include <unistd.h>

enum { MOST = 1024 };

/* Runs the card at its end of the pair. */
static int be_card(int *descriptor)
{
    struct scard_line line = line_over(descriptor);
    return card_serve(&line, SCARD_SILENCE_NONE) == 0 ? 0 : 1;
}

/* Sends the command that a word has in hexadecimal, and prints the answer. */
static int exchange(struct terminal *terminal, const char *word)
{
    uint8_t command[MOST];
    char text[2 * (MOST + 2)];
    struct scard_verdict decoded = scard_hex_decode(word, strlen(word), command, MOST), put;
    long count;
    if (decoded.status != SCARD_OK) {
        fprintf(stderr, "not octets in hexadecimal, or more than %d: %s\n", MOST, word);
        return -1;
    }
    count = terminal_exchange(terminal, command, decoded.place);
    if (count < 0) {
        fprintf(stderr, "no answer to %s\n", word);
        return -1;
    }
    put = scard_hex_encode(terminal->answer, (size_t)count, text, sizeof text);
    if (put.status != SCARD_OK) {
        fputs("the answer is too long\n", stderr);
        return -1;
    }
    printf("%.*s\n", (int)put.place, text);
    return 0;
}

int main(int count, char **words)
{
    static struct terminal terminal;
    struct scard_line line;
    int lines[2], status = 1, failed, at;
    pid_t card;
    if (count < 2) {
        fputs("usage: session HEX..\n", stderr);
        return 2;
    }
    if (socketpair(AF_UNIX, SOCK_SEQPACKET, 0, lines) != 0 || (card = fork()) < 0) {
        perror("session");
        return 2;
    }
    if (card == 0) {
        close(lines[0]);
        _exit(be_card(&lines[1]));
    }
    close(lines[1]);
    line = line_over(&lines[0]);
    failed = terminal_begin(&terminal, &line, SCARD_SILENCE_NONE);
    for (at = 1; at < count && failed == 0; at++) {
        failed = exchange(&terminal, words[at]);
    }
    close(lines[0]);
    waitpid(card, &status, 0);
    return failed == 0 && status == 0 ? 0 : 1;
}
