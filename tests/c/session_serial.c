/* The example's terminal and card at two serial ports, over pseudo terminals. A relay between them passes octets on
 * like a line of 9,600 bits a second, one every 1.25 milliseconds. It changes some, and delays some.
 */
#include "check.h"
#include "line.h"
#include "serial.h"

#include <fcntl.h>
#include <poll.h>
#include <signal.h>
#include <stdlib.h>
#include <sys/wait.h>
#include <time.h>
#include <unistd.h>

/* The fault of an octet on the line. Octets are counted in each direction from the first. */
struct harm {
    int to_card;
    int number;
    uint8_t by;   /* the octet is changed by this */
    int pause;    /* it is late by the time of this many octets */
};

/* The third octet of a block is LEN. The answer to reset has 7 octets, and blocks of the card follow it. */
static const struct harm harms[] = {{0, 7 + 11 + 2, 0x05, 0}, {1, 9 + 9 + 4 + 5, 0x00, 200}};

static void sleep_for(long microseconds)
{
    struct timespec time;
    time.tv_sec = microseconds / 1000000;
    time.tv_nsec = microseconds % 1000000 * 1000;
    while (nanosleep(&time, &time) != 0) {
    }
}

/* Passes one octet to the other port. */
static void cross(int from, int to, int to_card, int number)
{
    uint8_t octet = 0;
    size_t at;
    if (read(from, &octet, 1) != 1) {
        return;
    }
    for (at = 0; at < sizeof harms / sizeof *harms; at++) {
        if (harms[at].to_card == to_card && harms[at].number == number) {
            octet ^= harms[at].by;
            sleep_for(harms[at].pause * 1250L);
        }
    }
    sleep_for(1250);
    if (write(to, &octet, 1) != 1) {
        _exit(1);
    }
}

/* Runs the line between the two ports. */
static void be_line(int terminal, int card)
{
    struct pollfd waits[2];
    int numbers[2] = {0, 0}, end;
    waits[0].fd = terminal;
    waits[1].fd = card;
    waits[0].events = waits[1].events = POLLIN;
    while (poll(waits, 2, -1) > 0) {
        for (end = 0; end < 2; end++) {
            if ((waits[end].revents & POLLIN) != 0) {
                cross(waits[end].fd, waits[1 - end].fd, end == 0, numbers[1 - end]++);
            }
        }
    }
}

/* Opens a new pseudo terminal, and writes the name of its port. */
static int make_port(char name[64])
{
    int descriptor = posix_openpt(O_RDWR | O_NOCTTY);
    if (descriptor < 0 || grantpt(descriptor) != 0 || unlockpt(descriptor) != 0) {
        puts("session_serial: there are no pseudo terminals: it is left out");
        exit(0);
    }
    snprintf(name, 64, "%s", ptsname(descriptor));
    return descriptor;
}

/* The processes between the ports take some time to wake, most of all on a busy machine. */
enum { LATENCY = 100000 };

static void be_card(const char *name)
{
    struct serial serial;
    struct scard_line line;
    if (serial_open(&serial, name, LATENCY) != 0) {
        _exit(1);
    }
    line = serial_line(&serial);
    card_serve(&line, 0);
    _exit(0);
}

static pid_t card, between;

/* Starts both processes. The port of the terminal is open before either sends. */
static void begin(struct serial *serial)
{
    char names[2][64];
    int ports[2];
    ports[0] = make_port(names[0]);
    ports[1] = make_port(names[1]);
    CHECK(serial_open(serial, names[0], LATENCY) == 0);
    between = fork();
    if (between == 0) {
        be_line(ports[0], ports[1]);
        _exit(0);
    }
    card = fork();
    if (card == 0) {
        be_card(names[1]);
    }
    close(ports[0]);
}

static struct terminal terminal;

/* Returns whether a command has its own answer. If the machine is too busy for such a line, the session may give the
 * command up, and it is sent again. An answer is never that of another command.
 */
static int answers(const char *text)
{
    struct octets command = of_hex(text);
    long got = -1;
    int round;
    for (round = 0; round < 3 && got < 0; round++) {
        got = terminal_exchange(&terminal, command.at, command.count);
    }
    CHECK(got < 0 || (got == (long)command.count + 2 && memcmp(terminal.answer, command.at, command.count) == 0));
    free(command.at);
    return got >= 0;
}

int main(void)
{
    struct serial serial;
    struct scard_line line;
    uint64_t began;
    begin(&serial);
    line = serial_line(&serial);
    CHECK(terminal_begin(&terminal, &line, 0) == 0);
    began = line_now(NULL);
    CHECK(answers("00A4040000"));
    CHECK(line_now(NULL) - began > (9 + 11) * 1250);
    CHECK(answers("00B0F20003")); /* LEN of the answer becomes 2, and the check octet after that is right */
    CHECK(line_now(NULL) - began > terminal.session.bwt);
    CHECK(answers("00B0000102")); /* the command pauses: each end waits for silence, and the card answers in time */
    CHECK(line_now(NULL) - began > terminal.session.bwt / 4 * 7);
    serial_close(&serial);
    kill(card, SIGKILL);
    kill(between, SIGKILL);
    CHECK(waitpid(card, NULL, 0) == card && waitpid(between, NULL, 0) == between);
    return verdict_of_checks("session_serial");
}
