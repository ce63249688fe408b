/* Talks the lines of the suite, and calls the functions of a device. callback.h describes them. */
#include "callback.h"

#include <stdio.h>
#include <stdlib.h>
#include <string.h>

static char line[2 * DEVICE_ROOM + 32];

/* Reads a line without its end into `line`. Returns 0 at the end of the input. */
static int reads(void)
{
    if (fgets(line, (int)sizeof line, stdin) == NULL) {
        return 0;
    }
    line[strcspn(line, "\r\n")] = '\0';
    return 1;
}

static int digit(char character)
{
    static const char digits[] = "0123456789ABCDEF0123456789abcdef";
    const char *found = character == '\0' ? NULL : strchr(digits, character);
    return found == NULL ? -1 : (int)((found - digits) % 16);
}

/* Writes the octets after a word of the line, or of the line if the word is empty. Returns how many, or -1 if the line
 * has another form. */
static long octets_after(const char *word, uint8_t *out)
{
    const char *text = line + strlen(word);
    long count = 0;
    if (strncmp(line, word, strlen(word)) != 0) {
        return -1;
    }
    for (text += *text == ' '; text[0] != '\0'; text += 2) {
        int high = digit(text[0]), low = high < 0 ? -1 : digit(text[1]);
        if (low < 0 || count == DEVICE_ROOM) {
            return -1;
        }
        out[count++] = (uint8_t)(16 * high + low);
    }
    return count;
}

/* Writes a word and octets as a line, with a blank between them if both are there. */
static void writes(const char *word, const uint8_t *octets, size_t count)
{
    static const char digits[] = "0123456789ABCDEF";
    char two[3] = "";
    size_t at;
    fputs(word, stdout);
    fputs(word[0] != '\0' && count > 0 ? " " : "", stdout);
    for (at = 0; at < count; at++) {
        two[0] = digits[octets[at] >> 4];
        two[1] = digits[octets[at] & 15];
        fputs(two, stdout);
    }
    fputs("\n", stdout);
    fflush(stdout);
}

/* Writes how many microseconds passed. */
static void writes_wait(uint32_t microseconds)
{
    char text[] = "wait 0000000000\n";
    char *at = text + sizeof text - 2;
    for (; microseconds > 0; microseconds /= 10) {
        *--at = (char)('0' + microseconds % 10);
    }
    fputs(text, stdout);
}

static void writes_reply(struct device_reply reply, const uint8_t *out)
{
    static const char *const words[] = {"", "-", "answer", "failed", "reset"};
    int has_octets = reply.word == DEVICE_BLOCK || reply.word == DEVICE_ANSWER;
    if (reply.waited > 0) {
        writes_wait(reply.waited);
    }
    writes(words[reply.word], out, has_octets ? reply.count : 0);
}

/* The microseconds of a line `until US`, as many as fit, or -1 if the line has another form. */
static int64_t microseconds(void)
{
    static const char word[] = "until ";
    const char *text = line + sizeof word - 1;
    int64_t count = 0;
    if (strncmp(line, word, sizeof word - 1) != 0 || *text == '\0') {
        return -1;
    }
    for (; *text != '\0' && count < UINT32_MAX; text++) {
        if (digit(*text) < 0 || digit(*text) > 9) {
            return -1;
        }
        count = 10 * count + digit(*text);
    }
    return count;
}

/* What a terminal does that hears nothing for so long, and waits for `waits` microseconds. */
static struct device_reply until(int64_t microseconds, uint32_t waits, uint8_t *out)
{
    struct device_reply reply = {DEVICE_NOTHING, 0, 0, waits};
    if ((int64_t)waits <= microseconds) {
        reply = device_silence(out);
        reply.waited = waits;
    }
    return reply;
}

/* Calls the function for the line. Returns 0 if the line has another form. */
static int calls(struct device_reply *reply, uint8_t *out)
{
    static uint8_t octets[DEVICE_ROOM];
    int64_t silence = microseconds();
    long count;
    if (silence >= 0) {
        *reply = until(silence, reply->waits, out);
    } else if (strcmp(line, "-") == 0) {
        *reply = device_silence(out);
    } else if ((count = octets_after("reset", octets)) >= 0) {
        *reply = device_reset(octets, (size_t)count, out);
    } else if ((count = octets_after("send", octets)) >= 0) {
        *reply = device_send(octets, (size_t)count, out);
    } else if ((count = octets_after("", octets)) >= 0) {
        *reply = device_heard(octets, (size_t)count, out);
    } else {
        return 0;
    }
    return 1;
}

size_t device_exchange(const uint8_t *sent, size_t count, uint8_t *came)
{
    long found;
    writes("", sent, count);
    if (!reads()) {
        exit(0);
    }
    found = strcmp(line, "-") == 0 ? 0 : octets_after("", came);
    if (found < 0) {
        exit(1);
    }
    return (size_t)found;
}

int main(void)
{
    static uint8_t out[DEVICE_ROOM];
    struct device_reply reply = {DEVICE_NOTHING, 0, 0, 0};
    while (reads()) {
        if (!calls(&reply, out)) {
            return 1;
        }
        writes_reply(reply, out);
    }
    return 0;
}
