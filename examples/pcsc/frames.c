#include "frames.h"

#include "scard.h"

#include <fcntl.h>
#include <stdlib.h>
#include <string.h>
#include <termios.h>
#include <unistd.h>

static const uint8_t begins[2] = {0x03, 0x06};

bool frames_open(struct frames *frames, const char *link)
{
    struct termios raw;
    int host;
    frames->line = posix_openpt(O_RDWR | O_NOCTTY | O_CLOEXEC);
    if (frames->line < 0 || grantpt(frames->line) != 0 || unlockpt(frames->line) != 0) {
        return false;
    }
    host = open(ptsname(frames->line), O_RDWR | O_NOCTTY | O_CLOEXEC); /* keeps the line open while no driver has it */
    if (host < 0 || tcgetattr(host, &raw) != 0) {
        return false;
    }
    cfmakeraw(&raw);
    unlink(link);
    return tcsetattr(host, TCSANOW, &raw) == 0 && symlink(ptsname(frames->line), link) == 0;
}

static bool read_octets(struct frames *frames, uint8_t *octets, size_t count)
{
    while (count > 0) {
        ssize_t got = read(frames->line, octets, count);
        if (got <= 0) {
            frames->is_gone = true;
            return false;
        }
        octets += got;
        count -= (size_t)got;
    }
    return true;
}

static void write_octets(struct frames *frames, const uint8_t *octets, size_t count)
{
    frames->is_gone |= write(frames->line, octets, count) != (ssize_t)count;
}

static void write_message(struct frames *frames, size_t data)
{
    uint8_t frame[sizeof begins + sizeof frames->message + 1];
    size_t count = sizeof begins + FRAME_HEAD + data;
    memcpy(frame, begins, sizeof begins);
    memcpy(frame + sizeof begins, frames->message, FRAME_HEAD + data);
    frame[count] = scard_lrc(frame, count);
    write_octets(frames, frame, count + 1);
}

/* Reads the message of a frame. Returns the length of its data, or -1 if the frame is wrong or the line ended. */
static long read_message(struct frames *frames)
{
    uint8_t check;
    size_t data;
    if (!read_octets(frames, frames->message, FRAME_HEAD)) {
        return -1;
    }
    data = (size_t)frames->message[1] | (size_t)frames->message[2] << 8;
    if (data > FRAME_DATA || !read_octets(frames, frames->message + FRAME_HEAD, data)
        || !read_octets(frames, &check, 1)) {
        return -1;
    }
    return (scard_lrc(frames->message, FRAME_HEAD + data) ^ scard_lrc(begins, 2)) == check ? (long)data : -1;
}

long frames_next(struct frames *frames)
{
    static const uint8_t refused[] = {0x03, 0x15, 0x16};
    uint8_t octet = 0, before = 0;
    while (!frames->is_gone && read_octets(frames, &octet, 1)) {
        long data = before == begins[0] && octet == begins[1] ? read_message(frames) : -1;
        if (data >= 0) {
            write_message(frames, (size_t)data);
            return frames->is_gone ? -1 : data;
        }
        if (before == begins[0] && octet == begins[1] && !frames->is_gone) {
            write_octets(frames, refused, sizeof refused);
        }
        before = octet;
    }
    return -1;
}

void frames_answer(struct frames *frames, uint8_t kind, size_t data, bool has_power, uint8_t error)
{
    uint8_t *message = frames->message;
    message[0] = kind;
    message[1] = (uint8_t)data;
    message[2] = (uint8_t)(data >> 8);
    message[3] = message[4] = 0;
    message[7] = (uint8_t)((error != 0 ? 0x40 : 0) | (has_power ? 0 : 1));
    message[8] = error;
    message[9] = kind == 0x82 ? 1 : 0; /* the parameters are those of T=1 */
    write_message(frames, data);
}
