/* ---- the machine: written by hand ----
 *
 * The functions of the module see one memory. Here an address has the number of a window in its upper bits, and a place
 * in the window in its lower bits. Window 0 is the constants that the call can reach, 1 the stack of the call, and the
 * windows after them are what the caller's pointers point to, each with its length. So a call uses the caller's buffers
 * where they are.
 * Whatever the functions do, no access leaves the window of its address: one that would calls scard_trap.
 */
#include <stdlib.h>
#include <string.h>

typedef uint8_t u8;
typedef uint32_t u32;
typedef uint64_t u64;

/* An access that would leave its window ends here, and so does a division by 0 and anything else that the module marks
 * as unreachable. It can't happen unless the caller breaks a promise, or a tool that made this file is wrong. A program
 * that defines SCARD_OWN_TRAP has its own function scard_trap, which may not return.
 */
#ifdef SCARD_OWN_TRAP
#ifdef __cplusplus
extern "C"
#endif
void scard_trap(void);
#else
static void scard_trap(void)
{
#if defined(__STDC_HOSTED__) && __STDC_HOSTED__ == 0
    for (;;) {
    }
#else
    abort();
#endif
}
#endif

#define UNREACHABLE  \
    do {             \
        scard_trap(); \
        for (;;) {   \
        }            \
    } while (0)

#if defined(__GNUC__)
#define SELDOM(so) __builtin_expect(!!(so), 0)
#define APART __attribute__((noinline, cold, unused)) static
#define CALLED __attribute__((noinline, unused)) static
#define INLINE __attribute__((unused)) static inline
#define MERGED __attribute__((unused, always_inline)) static inline
#else
#define SELDOM(so) (so)
#define APART static
#define CALLED static
#define INLINE static inline
#define MERGED INLINE
#endif

/* For functions that their source keeps apart from their callers. Under -Os gcc would merge one that is called once, and
 * its locals would be on the stack below all that the caller calls.
 */
#if defined(__GNUC__) && defined(__OPTIMIZE_SIZE__)
#define KEPT __attribute__((noinline)) static
#else
#define KEPT static
#endif

/* For functions that make one access: gcc may call them instead of inlining many, though that takes longer. */
#if defined(__GNUC__) && defined(__OPTIMIZE__) && !defined(__OPTIMIZE_SIZE__)
#define ACCESS __attribute__((unused, always_inline)) static inline
#else
#define ACCESS INLINE
#endif

/* If numbers of several octets lie with the lowest octet first, as in the module, they are read and written whole.
 * Otherwise, or if SCARD_BY_OCTETS is defined, they are read and written octet by octet. So they are on an ARM without
 * unaligned access, such as Cortex-M0, where memcpy would be called for each.
 */
#if !defined(SCARD_BY_OCTETS) && !(defined(__arm__) && !defined(__ARM_FEATURE_UNALIGNED)) && \
    ((defined(__BYTE_ORDER__) && __BYTE_ORDER__ == __ORDER_LITTLE_ENDIAN__) || defined(_M_IX86) || defined(_M_X64) || \
     defined(_M_ARM64))
#define LOWEST_FIRST 1
#else
#define LOWEST_FIRST 0
#endif

/* Whether numbers in the caller's structs lie with the highest octet first. */
#if !defined(HIGHEST_FIRST) && ((defined(__BYTE_ORDER__) && __BYTE_ORDER__ == __ORDER_BIG_ENDIAN__) || \
                                defined(__BIG_ENDIAN__) || defined(__ARMEB__))
#define HIGHEST_FIRST 1
#elif !defined(HIGHEST_FIRST)
#define HIGHEST_FIRST 0
#endif

/* Whether structs of only numbers may lie here in another way than in the module. */
#if HIGHEST_FIRST || defined(SCARD_SHAPED)
#define MAY_LIE_OTHERWISE 1
#else
#define MAY_LIE_OTHERWISE 0
#endif

ACCESS u32 get8(const u8 *at)
{
    return *at;
}

ACCESS u32 get16(const u8 *at)
{
    return at[0] | (u32)at[1] << 8;
}

ACCESS u32 get32(const u8 *at)
{
#if LOWEST_FIRST
    u32 number;
    memcpy(&number, at, sizeof number);
    return number;
#else
    return get16(at) | get16(at + 2) << 16;
#endif
}

ACCESS u64 get64(const u8 *at)
{
#if LOWEST_FIRST
    u64 number;
    memcpy(&number, at, sizeof number);
    return number;
#else
    return get32(at) | (u64)get32(at + 4) << 32;
#endif
}

ACCESS void put8(u8 *at, u32 number)
{
    *at = (u8)number;
}

ACCESS void put16(u8 *at, u32 number)
{
    at[0] = (u8)number;
    at[1] = (u8)(number >> 8);
}

ACCESS void put32(u8 *at, u32 number)
{
#if LOWEST_FIRST
    memcpy(at, &number, sizeof number);
#else
    put16(at, number);
    put16(at + 2, number >> 16);
#endif
}

ACCESS void put64(u8 *at, u64 number)
{
#if LOWEST_FIRST
    memcpy(at, &number, sizeof number);
#else
    put32(at, (u32)number);
    put32(at + 4, (u32)(number >> 32));
#endif
}

/* ---- windows ---- */

#if UINTPTR_MAX > 0xFFFFFFFFu && !defined(SCARD_NARROW)
#define IS_WIDE 1
#define SHIFT 61
typedef u64 extent; /* a number of octets in a window */
#else
#define IS_WIDE 0
#define SHIFT 32
typedef u32 extent;
#endif

/* The number of windows. The last has no octets, so that no address wraps around into the first. */
#define WINDOWS 8
#define ADDRESS(window) (((u64)(window) << SHIFT) + FIRST)

/* An array of structs whose octets lie here in another way than in the module, or that have pointers. `octet` has the
 * place of each octet of such a struct here, or IN_POINTER and its number in a pointer. `element` returns what the
 * pointer in a struct points to, and its length. Addresses of that are in the window `leads_to`.
 */
#define IN_POINTER 0xFFF0u
struct shaped {
    u8 *at;
    u64 count;
    u32 each;
    const uint16_t *octet;
    const u8 *(*element)(const u8 *at, u64 *size);
    u32 leads_to;
};

/* A call in progress: its windows, and the global variables of the module. */
struct call {
#if IS_WIDE
    u64 end[WINDOWS];       /* the first address after the window, less FIRST; 0 without a window */
    uintptr_t from[WINDOWS]; /* what an address less FIRST has to be added to */
#else
    u32 end[WINDOWS]; /* the length */
    u8 *from[WINDOWS];
#endif
    struct shaped *shaped; /* one for each window if there are any, else null */
    u64 g0;
    u32 g1;
};

/* Whether `n` octets from an address less FIRST on leave their window, and where they are. */
#if IS_WIDE
#define LEAVES(m, t, n) ((t) + ((n) - 1u) >= (m)->end[(t) >> SHIFT])
#define PLACE(m, t) ((u8 *)((m)->from[(t) >> SHIFT] + (uintptr_t)(t)))
#else
#define WINDOW(t) ((u32)((t) >> SHIFT))
#define LEAVES(m, t, n) \
    (WINDOW(t) >= WINDOWS || (u32)(t) >= (m)->end[WINDOW(t)] || (m)->end[WINDOW(t)] - (u32)(t) < (n))
#define PLACE(m, t) ((m)->from[WINDOW(t)] + (u32)(t))
#endif

/* ---- structs that lie in another way ---- */

/* Which element an address less FIRST is in, and its window; WINDOWS if it is in no element. */
INLINE u32 leads(const struct call *m, u64 t, uintptr_t *element)
{
    u32 window;
#if IS_WIDE
    *element = (uintptr_t)(t >> 32 & 0x1FFFFFFFu);
    for (window = 0; window < WINDOWS; window++) {
        if (m->shaped[window].element && m->shaped[window].leads_to == (u32)(t >> SHIFT)) {
            return window;
        }
    }
#else
    *element = (uintptr_t)(t >> 32) - WINDOWS;
    for (window = 0; window < WINDOWS && t >> 32 >= WINDOWS; window++) {
        if (m->shaped[window].element) {
            return window;
        }
    }
#endif
    return WINDOWS;
}

/* The octets that a pointer in a struct points to; null if the address isn't that of such octets. The number comes
 * before the address, so that a processor of 32 bits has all three in registers.
 */
APART u8 *element_at(const struct call *m, extent n, u64 t)
{
    uintptr_t element;
    u64 size;
    u32 window = m->shaped ? leads(m, t, &element) : WINDOWS;
    const u8 *found;
    if (window == WINDOWS || element >= m->shaped[window].count) {
        return NULL;
    }
    found = m->shaped[window].element(m->shaped[window].at + element * m->shaped[window].each, &size);
    if ((u32)t >= size || size - (u32)t < n) {
        UNREACHABLE;
    }
    return (u8 *)(uintptr_t)(found + (u32)t);
}

/* The window of structs that an address less FIRST is in, and the struct and the octet in it. Its callers are the deepest
 * of all, so it has no room of its own on the stack.
 */
MERGED const struct shaped *struct_at(const struct call *m, u64 t, uintptr_t *element, u32 *octet)
{
    const struct shaped *one;
    uintptr_t place = (uintptr_t)(t & (((u64)1 << SHIFT) - 1u));
    if (!m->shaped || t >> SHIFT >= WINDOWS) {
        UNREACHABLE;
    }
    one = &m->shaped[t >> SHIFT];
    if (!one->each || place / one->each >= one->count) {
        UNREACHABLE;
    }
    *element = place / one->each;
    *octet = one->octet[place % one->each];
    return one;
}

/* An octet of a struct as the module has it. */
APART u32 octet_at(const struct call *m, u64 t)
{
    uintptr_t element;
    u64 address;
    u32 octet;
    const struct shaped *one = struct_at(m, t, &element, &octet);
    if (octet < IN_POINTER) {
        return one->at[element * one->each + octet];
    }
#if IS_WIDE
    address = ADDRESS(one->leads_to) + ((u64)element << 32);
#else
    address = ADDRESS(WINDOWS + element);
#endif
    return (u32)(address >> 8 * (octet - IN_POINTER)) & 0xFFu;
}

/* An octet of an element or of a struct. */
APART u32 apart_octet(const struct call *m, u64 t)
{
    const u8 *at = element_at(m, 1, t);
    return at ? *at : octet_at(m, t);
}

APART u64 apart_load(const struct call *m, u32 n, u64 t)
{
    const u8 *at = element_at(m, n, t);
    u64 number = 0;
    while (n-- > 0) {
        number = number << 8 | (at ? at[n] : octet_at(m, t + n));
    }
    return number;
}

APART void apart_store(const struct call *m, u64 t, u32 n, u64 number)
{
    uintptr_t element;
    u32 place, octet;
    for (place = 0; place < n; place++) {
        const struct shaped *one = struct_at(m, t + place, &element, &octet);
        if (octet >= IN_POINTER) {
            UNREACHABLE;
        }
        one->at[element * one->each + octet] = (u8)(number >> 8 * place);
    }
}

/* ---- what the functions of the module use ---- */

ACCESS u32 load8(const struct call *m, u64 a, u64 offset)
{
    u64 t = a + (offset - FIRST);
    return SELDOM(LEAVES(m, t, 1u)) ? apart_octet(m, t) : get8(PLACE(m, t));
}

ACCESS u32 load16(const struct call *m, u64 a, u64 offset)
{
    u64 t = a + (offset - FIRST);
    return SELDOM(LEAVES(m, t, 2u)) ? (u32)apart_load(m, 2, t) : get16(PLACE(m, t));
}

ACCESS u32 load32(const struct call *m, u64 a, u64 offset)
{
    u64 t = a + (offset - FIRST);
    return SELDOM(LEAVES(m, t, 4u)) ? (u32)apart_load(m, 4, t) : get32(PLACE(m, t));
}

ACCESS u64 load64(const struct call *m, u64 a, u64 offset)
{
    u64 t = a + (offset - FIRST);
    return SELDOM(LEAVES(m, t, 8u)) ? apart_load(m, 8, t) : get64(PLACE(m, t));
}

ACCESS void store8(const struct call *m, u64 a, u64 offset, u32 number)
{
    u64 t = a + (offset - FIRST);
    if (SELDOM(LEAVES(m, t, 1u))) {
        apart_store(m, t, 1, number);
    } else {
        put8(PLACE(m, t), number);
    }
}

ACCESS void store16(const struct call *m, u64 a, u64 offset, u32 number)
{
    u64 t = a + (offset - FIRST);
    if (SELDOM(LEAVES(m, t, 2u))) {
        apart_store(m, t, 2, number);
    } else {
        put16(PLACE(m, t), number);
    }
}

ACCESS void store32(const struct call *m, u64 a, u64 offset, u32 number)
{
    u64 t = a + (offset - FIRST);
    if (SELDOM(LEAVES(m, t, 4u))) {
        apart_store(m, t, 4, number);
    } else {
        put32(PLACE(m, t), number);
    }
}

ACCESS void store64(const struct call *m, u64 a, u64 offset, u64 number)
{
    u64 t = a + (offset - FIRST);
    if (SELDOM(LEAVES(m, t, 8u))) {
        apart_store(m, t, 8, number);
    } else {
        put64(PLACE(m, t), number);
    }
}

/* Where `n` octets from an address on are, 1 at least; null if they aren't in one piece. */
INLINE u8 *piece(const struct call *m, u64 a, u64 n)
{
    u64 t = a - FIRST;
    if (n >> (SHIFT - 1)) {
        UNREACHABLE;
    }
    return SELDOM(LEAVES(m, t, n)) ? element_at(m, (extent)n, t) : PLACE(m, t);
}

/* The same for fewer than 2^31 octets, which have to be in one piece. */
APART u8 *element_only(const struct call *m, extent n, u64 t)
{
    u8 *found = element_at(m, n, t);
    if (!found) {
        UNREACHABLE;
    }
    return found;
}

ACCESS u8 *at(const struct call *m, u64 a, u32 n)
{
    u64 t = a - FIRST;
    return SELDOM(LEAVES(m, t, n)) ? element_only(m, n, t) : PLACE(m, t);
}

/* Where `n` octets from an address on are. Several accesses are in them, which are all made or none, and are held to
 * their window here, once. On a machine where structs lie in another way it may be null: then each access is to such a
 * struct.
 */
ACCESS u8 *held(const struct call *m, u64 a, u32 n)
{
    return MAY_LIE_OTHERWISE ? piece(m, a, n) : at(m, a, n);
}

#define IS_HELD(p) (!MAY_LIE_OTHERWISE || (p))

ACCESS u32 held8(const u8 *p, u32 place, const struct call *m, u64 a)
{
    return IS_HELD(p) ? get8(p + place) : apart_octet(m, a + place - FIRST);
}

ACCESS u32 held16(const u8 *p, u32 place, const struct call *m, u64 a)
{
    return IS_HELD(p) ? get16(p + place) : (u32)apart_load(m, 2, a + place - FIRST);
}

ACCESS u32 held32(const u8 *p, u32 place, const struct call *m, u64 a)
{
    return IS_HELD(p) ? get32(p + place) : (u32)apart_load(m, 4, a + place - FIRST);
}

ACCESS u64 held64(const u8 *p, u32 place, const struct call *m, u64 a)
{
    return IS_HELD(p) ? get64(p + place) : apart_load(m, 8, a + place - FIRST);
}

ACCESS void put_held8(u8 *p, u32 place, const struct call *m, u64 a, u32 number)
{
    IS_HELD(p) ? put8(p + place, number) : apart_store(m, a + place - FIRST, 1, number);
}

ACCESS void put_held16(u8 *p, u32 place, const struct call *m, u64 a, u32 number)
{
    IS_HELD(p) ? put16(p + place, number) : apart_store(m, a + place - FIRST, 2, number);
}

ACCESS void put_held32(u8 *p, u32 place, const struct call *m, u64 a, u32 number)
{
    IS_HELD(p) ? put32(p + place, number) : apart_store(m, a + place - FIRST, 4, number);
}

ACCESS void put_held64(u8 *p, u32 place, const struct call *m, u64 a, u64 number)
{
    IS_HELD(p) ? put64(p + place, number) : apart_store(m, a + place - FIRST, 8, number);
}

/* Where a loop reads that repeats `turns` / `by` times after its first turn: `step` octets from an address on, and then
 * the next ones. Null if these aren't in one piece, or the turns can't be counted so.
 */
INLINE const u8 *span(const struct call *m, u64 a, u64 turns, u32 by, u32 step)
{
    u64 t = a - FIRST, n = (turns / by + 1u) * step;
    if (turns >> 40 || turns % by || LEAVES(m, t, n)) {
        return NULL;
    }
    return PLACE(m, t);
}

/* The exclusive-or of octets, 1 at least: 32 at a time, if there are as many. */
INLINE u32 exclusive_or(const u8 *at, u64 count)
{
    u64 a = 0, b = 0, c = 0, d = 0;
    for (; count >= 32u; at += 32, count -= 32u) {
        a ^= get64(at);
        b ^= get64(at + 8);
        c ^= get64(at + 16);
        d ^= get64(at + 24);
    }
    a ^= b ^ c ^ d;
    for (; count >= 8u; at += 8, count -= 8u) {
        a ^= get64(at);
    }
    a ^= a >> 32;
    a ^= a >> 16;
    a ^= a >> 8;
    for (; count; at++, count--) {
        a ^= *at;
    }
    return (u32)a & 0xFFu;
}

CALLED void copy(const struct call *m, u64 to, u64 from, u64 n)
{
    u8 *there, *here;
    u64 turn;
    if (!n) {
        return;
    }
    there = piece(m, to, n);
    here = piece(m, from, n);
    if (there && here) {
        memmove(there, here, (size_t)n);
        return;
    }
    for (turn = 0; turn < n; turn++) {
        u64 place = to > from ? n - 1u - turn : turn;
        store8(m, to + place, 0, load8(m, from + place, 0));
    }
}

CALLED void fill(const struct call *m, u64 to, u32 octet, u64 n)
{
    u8 *there = n ? piece(m, to, n) : NULL;
    u64 place;
    if (there) {
        memset(there, (int)(octet & 0xFFu), (size_t)n);
        return;
    }
    for (place = 0; place < n; place++) {
        store8(m, to + place, 0, octet);
    }
}

INLINE u32 spread32(u32 number, u32 bits)
{
    u32 sign = (u32)1 << (bits - 1u), low = number & (sign | (sign - 1u));
    return (low ^ sign) - sign;
}

INLINE u64 spread64(u64 number, u32 bits)
{
    u64 sign = (u64)1 << (bits - 1u), low = number & (sign | (sign - 1u));
    return (low ^ sign) - sign;
}

INLINE u32 signed_right32(u32 number, u32 by)
{
    return number >> 31 ? ~(~number >> (by & 31u)) : number >> (by & 31u);
}

INLINE u64 signed_right64(u64 number, u64 by)
{
    return number >> 63 ? ~(~number >> (by & 63u)) : number >> (by & 63u);
}

INLINE u32 left32(u32 number, u32 by)
{
    return number << (by & 31u) | number >> ((0u - by) & 31u);
}

INLINE u64 left64(u64 number, u64 by)
{
    return number << (by & 63u) | number >> ((0u - by) & 63u);
}

INLINE u32 right32(u32 number, u32 by)
{
    return number >> (by & 31u) | number << ((0u - by) & 31u);
}

INLINE u64 right64(u64 number, u64 by)
{
    return number >> (by & 63u) | number << ((0u - by) & 63u);
}

INLINE u32 quotient32(u32 number, u32 by)
{
    if (SELDOM(!by)) {
        UNREACHABLE;
    }
    return number / by;
}

INLINE u64 quotient64(u64 number, u64 by)
{
    if (SELDOM(!by)) {
        UNREACHABLE;
    }
    return number / by;
}

INLINE u32 rest32(u32 number, u32 by)
{
    if (SELDOM(!by)) {
        UNREACHABLE;
    }
    return number % by;
}

INLINE u64 rest64(u64 number, u64 by)
{
    if (SELDOM(!by)) {
        UNREACHABLE;
    }
    return number % by;
}

INLINE u32 ones64(u64 number)
{
#if defined(__GNUC__) && !defined(SCARD_PLAIN)
    return (u32)__builtin_popcountll(number);
#else
    u32 count = 0;
    for (; number; number &= number - 1u) {
        count++;
    }
    return count;
#endif
}

INLINE u32 ones32(u32 number)
{
    return ones64(number);
}

INLINE u32 trailing64(u64 number)
{
    return number ? ones64((number & (0u - number)) - 1u) : 64u;
}

INLINE u32 trailing32(u32 number)
{
    return number ? trailing64(number) : 32u;
}

INLINE u32 leading64(u64 number)
{
#if defined(__GNUC__) && !defined(SCARD_PLAIN)
    return number ? (u32)__builtin_clzll(number) : 64u;
#else
    u32 count = 64;
    for (; number; number >>= 1) {
        count--;
    }
    return count;
#endif
}

INLINE u32 leading32(u32 number)
{
    return leading64(number) - 32u;
}

/* ---- what the calls use ---- */

/* Sets a window to the caller's octets. */
INLINE void lend(struct call *m, u32 window, const void *at, u64 size)
{
    if (SELDOM(size >> (SHIFT - 1))) {
        UNREACHABLE;
    }
#if IS_WIDE
    m->end[window] = at ? ((u64)window << SHIFT) + size : 0u;
    m->from[window] = (uintptr_t)at - ((uintptr_t)window << SHIFT);
#else
    m->end[window] = at ? (u32)size : 0u;
    m->from[window] = (u8 *)(uintptr_t)at;
#endif
}

/* The same for structs that lie here in another way. */
INLINE void lend_shaped(struct call *m, u32 window, const void *at, u64 count, struct shaped shape)
{
    shape.at = (u8 *)(uintptr_t)at;
    shape.count = at ? count : 0u;
    m->from[window] = 0;
    m->shaped[window] = shape;
}

#if MAY_LIE_OTHERWISE
#define SHAPED_HERE struct shaped shaped[WINDOWS];
#define LEND(m, window, at, count, shape) lend_shaped(m, window, at, count, shape)
#else
#define SHAPED_HERE struct shaped *shaped = NULL;
#define LEND(m, window, at, count, shape) lend(m, window, at, (u64)(count) * (shape).each)
#endif

/* Where a text of the module is; the empty text if it has no place. */
INLINE const char *constant_at(u64 address)
{
    return address - FIRST < sizeof constants ? (const char *)constants + (address - FIRST) : "";
}

INLINE void begin(struct call *m, u8 *stack, u32 size, struct shaped *shaped)
{
    memset(m->end, 0, sizeof m->end);
    if (shaped) {
        memset(shaped, 0, WINDOWS * sizeof *shaped);
    }
    m->shaped = shaped;
    lend(m, 1, stack, size);
    m->g0 = ADDRESS(1) + size;
    m->g1 = 0;
}
