/* What the program asks a system for besides memory and its two streams. A module has words, which its host put into
 * memory, and nothing else: no environment, no terminal and no signals. */
#include "plain.h"

/* The octets of the words, with an octet 0 between two, and the word that was asked for last. */
static const unsigned char *words, *last;
static size_t count, last_index;

/* Returns how many octets the word at an address has. */
static size_t length_at(const unsigned char *at)
{
    size_t length = 0;
    while (at + length < words + count && at[length] != 0) {
        length++;
    }
    return length;
}

/* Finds a word by its number, from the one that was asked for last if it comes before. Null without such a word. */
static const unsigned char *word(size_t index)
{
    if (index < last_index) {
        last = words;
        last_index = 0;
    }
    while (last_index < index) {
        const unsigned char *end = last + length_at(last);
        if (end == words + count) {
            return NULL;
        }
        last = end + 1;
        last_index++;
    }
    return last;
}

/* Puts a word at the front of a buffer. Returns its length; -1 if there is no such word, -2 if the buffer is too small,
 * which is then full. */
i64 rattle_arg(size_t index, unsigned char *to, size_t room)
{
    const unsigned char *found = word(index);
    size_t length = found != NULL ? length_at(found) : 0;
    if (found == NULL) {
        return -1;
    }
    __builtin_memcpy(to, found, length < room ? length : room);
    return length <= room ? (i64)length : -2;
}

/* There is no environment. */
i64 rattle_env(const unsigned char *name, unsigned char *to, size_t room)
{
    (void)name, (void)to, (void)room;
    return -1;
}

i64 rattle_env_at(size_t index, unsigned char *to, size_t room)
{
    (void)index, (void)to, (void)room;
    return -1;
}

/* EINVAL of Linux, whose numbers the program has. */
#define INVALID 22

/* The number of the last error, as the program itself sets it. A stream that fails leaves it: the program then says that
 * the stream failed, whatever the number is. The number of an interrupt, after which it would try again, is never set. */
static int last_error;

int rattle_errno(void)
{
    return last_error;
}

void rattle_set_errno(int error)
{
    last_error = error;
}

/* The host says itself that it reads from a terminal. */
int isatty(int stream)
{
    (void)stream;
    return 0;
}

/* No signal comes. */
i64 __sysv_signal(int signal, i64 handler)
{
    (void)signal, (void)handler;
    return 0;
}

/* The program's `main`, under the name that retarget.py gives it. */
int scard_main(void);

/* For the host: runs the program on words, and returns its exit status. */
#ifdef __wasm__
__attribute__((export_name("scard_answer")))
#endif
int scard_answer(const unsigned char *octets, size_t octets_count)
{
    words = last = octets;
    count = octets_count;
    last_index = 0;
    last_error = INVALID;
    return scard_main();
}
