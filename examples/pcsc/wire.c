#include "wire.h"

#include <errno.h>
#include <poll.h>
#include <sys/socket.h>
#include <sys/uio.h>

int wire_send(int socket, enum wire_kind kind, const uint8_t *octets, size_t count)
{
    uint8_t first = (uint8_t)kind;
    struct iovec parts[2] = {{&first, 1}, {(void *)octets, count}};
    struct msghdr message = {.msg_iov = parts, .msg_iovlen = 2};
    ssize_t put;
    do {
        put = sendmsg(socket, &message, MSG_NOSIGNAL);
    } while (put < 0 && errno == EINTR);
    return put < 0 ? -1 : 0;
}

long wire_receive(int socket, int milliseconds, uint8_t *kind, uint8_t octets[WIRE_ROOM])
{
    struct iovec parts[2] = {{kind, 1}, {octets, WIRE_ROOM}};
    struct msghdr message = {.msg_iov = parts, .msg_iovlen = 2};
    struct pollfd waits = {socket, POLLIN, 0};
    int ready = poll(&waits, 1, milliseconds);
    ssize_t got;
    if (ready <= 0) {
        return ready == 0 || errno == EINTR ? WIRE_NOTHING : WIRE_GONE;
    }
    got = recvmsg(socket, &message, MSG_DONTWAIT);
    if (got < 0 && (errno == EINTR || errno == EAGAIN)) {
        return WIRE_NOTHING;
    }
    return got <= 0 ? WIRE_GONE : got - 1;
}
