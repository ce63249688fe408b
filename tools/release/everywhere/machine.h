/* The machine of the program's module, in C for any system: its one memory, and its instructions.
 *
 * On systems of 64 bits with mmap or VirtualAlloc, addresses for all that an instruction can name are reserved, and the
 * system makes those usable that the memory has. So an access outside ends the program. Elsewhere, or if SCARD_CHECKED
 * is defined, each access is compared with the size of the memory, and one outside calls `trap`. The memory never
 * moves: it begins with as many addresses as the system gives, and grows within these.
 *
 * If SCARD_THREADS is defined, each thread has a machine of its own, and several threads can answer at the same time.
 */
#ifndef SCARD_MACHINE_H
#define SCARD_MACHINE_H

#include <stddef.h>
#include <stdint.h>
#include <string.h>

typedef uint8_t u8;
typedef uint32_t u32;
typedef uint64_t u64;

#if defined(_WIN32) || defined(__unix__) || defined(__APPLE__)
#define HAS_PAGES 1
#else
#define HAS_PAGES 0
#endif

#if UINTPTR_MAX > 0xFFFFFFFFu && HAS_PAGES && !defined(SCARD_CHECKED)
#define IS_RESERVED 1
#else
#define IS_RESERVED 0
#endif

/* Whether numbers of several octets lie as in the module, the lowest octet first. */
#if (defined(__BYTE_ORDER__) && __BYTE_ORDER__ == __ORDER_LITTLE_ENDIAN__) || defined(_M_IX86) || defined(_M_X64) || \
    defined(_M_ARM64)
#define LOWEST_FIRST 1
#else
#define LOWEST_FIRST 0
#endif

#if defined(__GNUC__)
#define SELDOM(so) __builtin_expect(!!(so), 0)
#define INLINE __attribute__((unused)) static inline
#define ENDS __attribute__((noreturn))
#else
#define SELDOM(so) (so)
#define INLINE static inline
#define ENDS
#endif

/* A variable of which each thread has its own, if threads have machines. */
#if !defined(SCARD_THREADS)
#define OWN
#elif defined(_MSC_VER)
#define OWN __declspec(thread)
#elif defined(__GNUC__)
#define OWN __thread
#else
#define OWN _Thread_local
#endif

#define PAGE 65536u

/* The number of pages that the memory has now, and how many octets these are. */
extern OWN u32 pages;
extern OWN u64 octets;

/* Ends the program after what can't happen unless a tool that made these files is wrong. */
ENDS void trap(void);

/* Makes the memory larger by some pages. Returns how many it had, or 2^32 - 1 if that isn't possible. */
u32 grow(u8 *m, u32 more);

/* A memory with the constants of the module, or null if the system has no room for one. Only one is open at a time. */
u8 *machine_begin(void);

/* Gives the memory back to the system. */
void machine_end(u8 *m);

#define UNREACHABLE trap()

/* Where `n` octets from an address on are. */
INLINE u8 *place(const u8 *m, u32 a, u32 offset, u32 n)
{
#if !IS_RESERVED
    if (SELDOM((u64)a + offset + n > octets)) {
        trap();
    }
#else
    (void)n;
#endif
    return (u8 *)(uintptr_t)m + ((uintptr_t)a + offset);
}

/* The same for the functions of the host, which may name any number of octets. */
INLINE u8 *piece(const u8 *m, u32 a, u64 n)
{
    if (SELDOM((u64)a + n > octets)) {
        trap();
    }
    return (u8 *)(uintptr_t)m + a;
}

INLINE u32 load8(const u8 *m, u32 a, u32 offset)
{
    return *place(m, a, offset, 1);
}

INLINE u32 load16(const u8 *m, u32 a, u32 offset)
{
    const u8 *at = place(m, a, offset, 2);
    return at[0] | (u32)at[1] << 8;
}

INLINE u32 load32(const u8 *m, u32 a, u32 offset)
{
    const u8 *at = place(m, a, offset, 4);
#if LOWEST_FIRST
    u32 number;
    memcpy(&number, at, sizeof number);
    return number;
#else
    return at[0] | (u32)at[1] << 8 | (u32)at[2] << 16 | (u32)at[3] << 24;
#endif
}

INLINE u64 load64(const u8 *m, u32 a, u32 offset)
{
#if LOWEST_FIRST
    u64 number;
    memcpy(&number, place(m, a, offset, 8), sizeof number);
    return number;
#else
    return load32(m, a, offset) | (u64)load32(m, a, offset + 4) << 32;
#endif
}

INLINE void store8(u8 *m, u32 a, u32 offset, u32 number)
{
    *place(m, a, offset, 1) = (u8)number;
}

INLINE void store16(u8 *m, u32 a, u32 offset, u32 number)
{
    u8 *at = place(m, a, offset, 2);
    at[0] = (u8)number;
    at[1] = (u8)(number >> 8);
}

INLINE void store32(u8 *m, u32 a, u32 offset, u32 number)
{
    u8 *at = place(m, a, offset, 4);
#if LOWEST_FIRST
    memcpy(at, &number, sizeof number);
#else
    at[0] = (u8)number;
    at[1] = (u8)(number >> 8);
    at[2] = (u8)(number >> 16);
    at[3] = (u8)(number >> 24);
#endif
}

INLINE void store64(u8 *m, u32 a, u32 offset, u64 number)
{
#if LOWEST_FIRST
    memcpy(place(m, a, offset, 8), &number, sizeof number);
#else
    store32(m, a, offset + 4, (u32)(number >> 32));
    store32(m, a, offset, (u32)number);
#endif
}

INLINE void copy(u8 *m, u32 to, u32 from, u32 n)
{
    memmove(place(m, to, 0, n), place(m, from, 0, n), n);
}

INLINE void fill(u8 *m, u32 to, u32 octet, u32 n)
{
    memset(place(m, to, 0, n), (int)(octet & 0xFFu), n);
}

INLINE u32 spread32(u32 number, u32 bits)
{
    u32 sign = (u32)1 << (bits - 1u), low = number & (sign | (sign - 1u));
    return (low ^ sign) - sign;
}

INLINE u64 spread64(u64 number, u32 bits)
{
    u64 sign = (u64)1 << (bits - 1u), low = number & (sign | (sign - 1u));
    return (low ^ sign) - sign;
}

INLINE u32 signed_right32(u32 number, u32 by)
{
    return number >> 31 ? ~(~number >> (by & 31u)) : number >> (by & 31u);
}

INLINE u64 signed_right64(u64 number, u64 by)
{
    return number >> 63 ? ~(~number >> (by & 63u)) : number >> (by & 63u);
}

INLINE u32 left32(u32 number, u32 by)
{
    return number << (by & 31u) | number >> ((0u - by) & 31u);
}

INLINE u64 left64(u64 number, u64 by)
{
    return number << (by & 63u) | number >> ((0u - by) & 63u);
}

INLINE u32 right32(u32 number, u32 by)
{
    return number >> (by & 31u) | number << ((0u - by) & 31u);
}

INLINE u64 right64(u64 number, u64 by)
{
    return number >> (by & 63u) | number << ((0u - by) & 63u);
}

INLINE u32 quotient32(u32 number, u32 by)
{
    if (SELDOM(!by)) {
        trap();
    }
    return number / by;
}

INLINE u64 quotient64(u64 number, u64 by)
{
    if (SELDOM(!by)) {
        trap();
    }
    return number / by;
}

INLINE u32 rest32(u32 number, u32 by)
{
    if (SELDOM(!by)) {
        trap();
    }
    return number % by;
}

INLINE u64 rest64(u64 number, u64 by)
{
    if (SELDOM(!by)) {
        trap();
    }
    return number % by;
}

INLINE u32 ones64(u64 number)
{
    u32 count = 0;
    for (; number; number &= number - 1u) {
        count++;
    }
    return count;
}

INLINE u32 ones32(u32 number)
{
    return ones64(number);
}

INLINE u32 trailing64(u64 number)
{
#if defined(__GNUC__)
    return number ? (u32)__builtin_ctzll(number) : 64u;
#else
    return number ? ones64((number & (0u - number)) - 1u) : 64u;
#endif
}

INLINE u32 trailing32(u32 number)
{
    return number ? trailing64(number) : 32u;
}

INLINE u32 leading64(u64 number)
{
#if defined(__GNUC__)
    return number ? (u32)__builtin_clzll(number) : 64u;
#else
    u32 count = 64;
    for (; number; number >>= 1) {
        count--;
    }
    return count;
#endif
}

INLINE u32 leading32(u32 number)
{
    return leading64(number) - 32u;
}

INLINE u64 bits_of(double number)
{
    u64 bits;
    memcpy(&bits, &number, sizeof bits);
    return bits;
}

INLINE double double_of(u64 bits)
{
    double number;
    memcpy(&number, &bits, sizeof number);
    return number;
}

#endif
