/* Uses a POSIX serial port as the line of a session. */
#include "serial.h"
#include "line.h"

#include <errno.h>
#include <fcntl.h>
#include <poll.h>
#include <termios.h>
#include <unistd.h>

/* Sets the port up for the characters of T=1: eight bits, even parity and two stop bits, so 12 etu in all. The port
 * treats no octet as special. It reads an octet of wrong parity as 00, and the check octet then detects the error.
 */
static int set_up(int descriptor)
{
    struct termios port;
    if (tcgetattr(descriptor, &port) != 0) {
        return -1;
    }
    port.c_iflag = INPCK;
    port.c_oflag = 0;
    port.c_lflag = 0;
    port.c_cflag = CS8 | PARENB | CSTOPB | CREAD | CLOCAL;
    port.c_cc[VMIN] = 0;
    port.c_cc[VTIME] = 0;
    if (cfsetispeed(&port, B9600) != 0 || cfsetospeed(&port, B9600) != 0) {
        return -1;
    }
    return tcsetattr(descriptor, TCSANOW, &port);
}

int serial_clear(struct serial *serial)
{
    serial->last = line_now(NULL);
    return tcflush(serial->descriptor, TCIOFLUSH);
}

int serial_open(struct serial *serial, const char *path, uint64_t latency)
{
    serial->latency = latency;
    serial->descriptor = open(path, O_RDWR | O_NOCTTY | O_NONBLOCK);
    if (serial->descriptor < 0) {
        return -1;
    }
    if (set_up(serial->descriptor) != 0 || serial_clear(serial) != 0) {
        serial_close(serial);
        return -1;
    }
    return 0;
}

void serial_close(struct serial *serial)
{
    close(serial->descriptor);
    serial->descriptor = -1;
}

/* Waits for an event of the port, at most until the time `until`. Returns more than 0 if the event came, 0 on a
 * timeout, or -1. A signal doesn't end the wait.
 */
static int await(struct serial *serial, short event, uint64_t until)
{
    struct pollfd waits;
    int ready;
    waits.fd = serial->descriptor;
    waits.events = event;
    do {
        uint64_t now = line_now(NULL), left = now < until ? (until - now + 999) / 1000 : 0;
        ready = poll(&waits, 1, until == SCARD_LINE_FOREVER ? -1 : left < 1000000000 ? (int)left : 1000000000);
    } while ((ready < 0 && errno == EINTR) || (ready == 0 && line_now(NULL) < until));
    return ready;
}

static int drain(int descriptor)
{
    int said;
    do {
        said = tcdrain(descriptor);
    } while (said != 0 && errno == EINTR);
    return said;
}

/* The waiting times count from the end of the last octet. So this returns only after the port has sent it. */
static int send_octets(void *context, const uint8_t *octets, size_t count)
{
    struct serial *serial = context;
    while (count > 0) {
        ssize_t put = write(serial->descriptor, octets, count);
        if (put < 0 && errno != EINTR && errno != EAGAIN) {
            return SCARD_LINE_FAILED;
        }
        if (put <= 0 && await(serial, POLLOUT, SCARD_LINE_FOREVER) < 0) {
            return SCARD_LINE_FAILED;
        }
        octets += put > 0 ? put : 0;
        count -= put > 0 ? (size_t)put : 0;
    }
    if (drain(serial->descriptor) != 0) {
        return SCARD_LINE_FAILED;
    }
    serial->last = line_now(NULL);
    return 0;
}

static int receive_octets(void *context, uint8_t *octets, size_t room, uint64_t microseconds)
{
    struct serial *serial = context;
    uint64_t until = microseconds == SCARD_LINE_FOREVER ? microseconds : serial->last + microseconds + serial->latency;
    ssize_t got;
    do {
        int ready = await(serial, POLLIN, until);
        if (ready <= 0) {
            return ready == 0 ? 0 : SCARD_LINE_FAILED;
        }
        got = read(serial->descriptor, octets, room);
    } while (got < 0 && (errno == EINTR || errno == EAGAIN));
    serial->last = line_now(NULL);
    return got > 0 ? (int)got : SCARD_LINE_FAILED;
}

struct scard_line serial_line(struct serial *serial)
{
    struct scard_line line;
    line.context = serial;
    line.send = send_octets;
    line.receive = receive_octets;
    line.now = line_now;
    return line;
}
