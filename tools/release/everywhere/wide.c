/* Numbers of 128 bits, and the functions over octets that the compiler calls, for the program's module. */
#include "plain.h"

/* A number of 128 bits, as the compiler hands it back: the lower half first. */
struct wide {
    u64 low, high;
};

/* The product of two numbers, by their halves of 32 bits each. */
void __multi3(struct wide *made, u64 a_low, u64 a_high, u64 b_low, u64 b_high)
{
    u64 a0 = (u32)a_low, a1 = a_low >> 32, b0 = (u32)b_low, b1 = b_low >> 32;
    u64 least = a0 * b0, one = a1 * b0, other = a0 * b1;
    u64 middle = (least >> 32) + (u32)one + (u32)other;
    made->low = (u32)least | middle << 32;
    made->high = a1 * b1 + (one >> 32) + (other >> 32) + (middle >> 32) + a_low * b_high + a_high * b_low;
}

void __ashlti3(struct wide *made, u64 low, u64 high, int by)
{
    by &= 127;
    made->low = by < 64 ? low << by : 0;
    made->high = by == 0 ? high : by < 64 ? high << by | low >> (64 - by) : low << (by - 64);
}

void __lshrti3(struct wide *made, u64 low, u64 high, int by)
{
    by &= 127;
    made->high = by < 64 ? high >> by : 0;
    made->low = by == 0 ? low : by < 64 ? low >> by | high << (64 - by) : high >> (by - 64);
}

/* The quotient and the rest, bit by bit. The caller has looked that the divisor isn't 0. */
static void divide(struct wide *quotient, struct wide *rest, struct wide number, struct wide by)
{
    int turn;
    quotient->low = quotient->high = rest->low = rest->high = 0;
    for (turn = 0; turn < 128; turn++) {
        rest->high = rest->high << 1 | rest->low >> 63;
        rest->low = rest->low << 1 | number.high >> 63;
        number.high = number.high << 1 | number.low >> 63;
        number.low <<= 1;
        quotient->high = quotient->high << 1 | quotient->low >> 63;
        quotient->low <<= 1;
        if (rest->high > by.high || (rest->high == by.high && rest->low >= by.low)) {
            rest->high -= by.high + (rest->low < by.low);
            rest->low -= by.low;
            quotient->low |= 1;
        }
    }
}

void __udivti3(struct wide *made, u64 low, u64 high, u64 by_low, u64 by_high)
{
    struct wide rest, number = {low, high}, by = {by_low, by_high};
    divide(made, &rest, number, by);
}

void __umodti3(struct wide *made, u64 low, u64 high, u64 by_low, u64 by_high)
{
    struct wide quotient, number = {low, high}, by = {by_low, by_high};
    divide(&quotient, made, number, by);
}

#ifdef __wasm__
void *memcpy(void *to, const void *from, size_t count)
{
    __builtin_memcpy(to, from, count);
    return to;
}

void *memmove(void *to, const void *from, size_t count)
{
    __builtin_memmove(to, from, count);
    return to;
}

void *memset(void *to, int octet, size_t count)
{
    __builtin_memset(to, octet, count);
    return to;
}
#endif

/* The order of the first octets that differ; 0 if none does. */
int memcmp(const void *one, const void *other, size_t count)
{
    const unsigned char *a = one, *b = other;
    for (; count > 0; a++, b++, count--) {
        if (*a != *b) {
            return *a - *b;
        }
    }
    return 0;
}

int bcmp(const void *one, const void *other, size_t count)
{
    return memcmp(one, other, count);
}
