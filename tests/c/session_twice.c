/* The example's terminal and card over one line, of packets and of octets. Each command has its own answer, a signal
 * isn't silence, and no octets stay on the line after a wrong length. */
#include "check.h"
#include "line.h"
#include "lined.h"

#include <signal.h>
#include <string.h>
#include <sys/socket.h>
#include <sys/time.h>
#include <sys/wait.h>
#include <unistd.h>

static struct terminal terminal;

static void ring(int number)
{
    (void)number;
}

/* Sends a signal every so many microseconds, or none if it is 0. */
static void signals(int microseconds)
{
    struct itimerval often;
    memset(&often, 0, sizeof often);
    often.it_interval.tv_usec = often.it_value.tv_usec = microseconds;
    setitimer(ITIMER_REAL, &often, NULL);
}

/* Returns whether a command of this length, with this number in it, has its own answer. */
static int answers(uint8_t number, size_t count)
{
    uint8_t command[1000];
    long got;
    memset(command, number, sizeof command);
    memcpy(command, "\x00\xB0\x00", 3);
    if (count > 5) {
        command[4] = 0;
        command[5] = (uint8_t)((count - 7) >> 8);
        command[6] = (uint8_t)(count - 7);
    }
    got = terminal_exchange(&terminal, command, count);
    return got == (long)count + 2 && memcmp(terminal.answer, command, count) == 0 && terminal.answer[count] == 0x90;
}

static int be_card(int *descriptor, uint64_t silence)
{
    struct scard_line line = line_over(descriptor);
    return card_serve(&line, silence) == 0 ? 0 : 1;
}

/* Makes this many long exchanges over a pair of sockets. */
static void exchanges(int sockets, uint64_t silence, int most)
{
    struct scard_line line;
    int lines[2], number, status = 1;
    pid_t card;
    CHECK(socketpair(AF_UNIX, sockets, 0, lines) == 0);
    card = fork();
    if (card == 0) {
        close(lines[0]);
        _exit(be_card(&lines[1], silence));
    }
    close(lines[1]);
    line = line_over(&lines[0]);
    CHECK(terminal_begin(&terminal, &line, silence) == 0);
    for (number = 0; number < 6; number++) {
        CHECK(answers((uint8_t)number, 5));
    }
    signals(1000);
    for (number = 0; number < most; number++) {
        CHECK(answers((uint8_t)number, 900));
    }
    signals(0);
    close(lines[0]);
    CHECK(waitpid(card, &status, 0) == card && status == 0);
}

static struct scard_lent_line state;

/* Takes the next burst, within 100 milliseconds. A silence of 5 milliseconds ends a burst. */
static struct scard_line_next takes(const struct scard_line *line)
{
    struct scard_lent_line_rules rules;
    struct scard_line_next next;
    memset(&rules, 0, sizeof rules);
    rules.cwt = rules.after = 5000;
    rules.most_time = SCARD_LINE_FOREVER;
    rules.most_blocks = 1;
    rules.has_clock = 1;
    scard_lent_line_begin(&state, &rules);
    CHECK(scard_lent_line_talk(&state, 100000, scard_line_now(line)).kind == SCARD_NEXT_SEND);
    next = scard_lent_line_step(&state, SCARD_EVENT_SENT, NULL, 0, scard_line_now(line), NULL, 0);
    return lined_go(&state, line, next, NULL, 0);
}

/* Returns whether the next burst is these octets. */
static int comes(const struct scard_line *line, const uint8_t *octets, size_t count)
{
    struct scard_line_next next = takes(line);
    return next.kind == SCARD_NEXT_HEARD && next.count == count && state.framer.count == count
        && memcmp(state.framer.octets, octets, count) == 0;
}

/* Checks the line alone. */
static void bursts(void)
{
    static const uint8_t said[] = {0, 0, 0xFF, 1, 2, 3, 9}, good[] = {0, 0x80, 0, 0x80}, part[] = {0, 0, 5, 0, 0xA4};
    struct scard_line line;
    uint64_t began;
    int lines[2];
    CHECK(socketpair(AF_UNIX, SOCK_STREAM, 0, lines) == 0);
    line = line_over(&lines[1]);
    CHECK(write(lines[0], said, sizeof said) == sizeof said && comes(&line, said, sizeof said));
    CHECK(write(lines[0], good, sizeof good) == sizeof good && comes(&line, good, sizeof good));
    CHECK(write(lines[0], part, sizeof part) == sizeof part && comes(&line, part, sizeof part));
    signals(1000);
    began = line.now(line.context);
    CHECK(takes(&line).kind == SCARD_NEXT_QUIET);
    CHECK(line.now(line.context) - began >= 100000);
    signals(0);
    close(lines[0]);
    CHECK(takes(&line).kind == SCARD_NEXT_FAILED);
    close(lines[1]);
}

int main(void)
{
    struct sigaction action;
    memset(&action, 0, sizeof action);
    action.sa_handler = ring; /* without SA_RESTART, so that calls are interrupted */
    sigaction(SIGALRM, &action, NULL);
    exchanges(SOCK_SEQPACKET, SCARD_SILENCE_NONE, 60);
    exchanges(SOCK_STREAM, 0, 4);
    bursts();
    return verdict_of_checks("session_twice");
}
