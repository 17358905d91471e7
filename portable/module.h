/* What the C text of the module stands on, in the place of wasm2c's own runtime: an instance with its memory, which may grow within a
 * call of the host, loads and stores within its bounds, and the operations that C has no sign for. The numbers in a memory have their
 * lowest byte first, so a machine that has it last is refused. */
#ifndef KERNELSTINT_MODULE_H
#define KERNELSTINT_MODULE_H
#include <stdint.h>
#include <string.h>

#if defined(__BYTE_ORDER__) && __BYTE_ORDER__ != __ORDER_LITTLE_ENDIAN__
#error "kernelstint's C text is for machines that keep the lowest byte of a number first, and this one doesn't"
#endif

typedef uint8_t u8;
typedef uint16_t u16;
typedef uint32_t u32;
typedef uint64_t u64;
typedef int8_t s8;
typedef int16_t s16;
typedef int32_t s32;
typedef int64_t s64;

/* An instance of the module: its memory of `size` bytes, its two global numbers, and whom it asks for room. */
struct module {
    u8 *data;
    u64 size;
    u64 g0;
    u32 g1;
    void *host;
};

/* What goes between the module and its host is within one file, or for others that are linked with it. */
#ifndef HOST
#define HOST
#endif

/* What the host has: room for `size` bytes, of which it tells at `answer` whether there is some and where, and room that comes back. */
HOST void module_room(struct module *m, u64 answer, u64 size, u64 align);
HOST void module_back(struct module *m, u64 at);
/* The module did what it never does: this doesn't return. */
#ifdef __GNUC__
__attribute__((noreturn))
#endif
HOST void module_trap(void);

/* Sets an instance up, whose memory has the bytes below its base at least, all 0. */
HOST void module_begin(struct module *m);

#ifdef KERNELSTINT_MODULE_TEXT /* the rest is for the text of the module alone */

#define U(x) ((u32)(x))
#define V(x) ((u64)(x))

/* In each function D is the memory, which a call may change. That what is read and written lies within it is proved, and seen once more
 * where CHECKED is defined, as some tests do; then N is the memory's size. */
#ifdef CHECKED
#define BEGIN u8 *D = m->data; u64 N = m->size
#define R D = m->data, N = m->size
#define AT(at, count) (D + within(N, at, count))
static inline u64 within(u64 size, u64 at, u64 count) {
    if (count > size || at > size - count) module_trap();
    return at;
}
#else
#define BEGIN u8 *D = m->data
#define R D = m->data
#define AT(at, count) (D + (at))
#endif

#define LOAD(name, type) static inline type name(const u8 *at) { type it; memcpy(&it, at, sizeof it); return it; }
#define STORE(name, type) static inline void name(u8 *at, type it) { memcpy(at, &it, sizeof it); }
LOAD(load1, u8) LOAD(load2, u16) LOAD(load4, u32) LOAD(load8, u64)
STORE(store1, u8) STORE(store2, u16) STORE(store4, u32) STORE(store8, u64)
#define G1(at) U(load1(AT(at, 1)))
#define G2(at) U(load2(AT(at, 2)))
#define G4(at) load4(AT(at, 4))
#define G8(at) load8(AT(at, 8))
#define H1(at) U((s8)load1(AT(at, 1)))
#define H2(at) U((s16)load2(AT(at, 2)))
#define S1(at, x) store1(AT(at, 1), (u8)(x))
#define S2(at, x) store2(AT(at, 2), (u16)(x))
#define S4(at, x) store4(AT(at, 4), U(x))
#define S8(at, x) store8(AT(at, 8), x)
#define FILL(at, byte, count) memset(AT(at, count), (int)((byte) & 255), count)
#define COPY(to, from, count) memmove(AT(to, count), AT(from, count), count)

static inline u32 clz4(u32 x) { return x ? (u32)__builtin_clz(x) : 32; }
static inline u64 clz8(u64 x) { return x ? (u64)__builtin_clzll(x) : 64; }
static inline u32 ctz4(u32 x) { return x ? (u32)__builtin_ctz(x) : 32; }
static inline u64 ctz8(u64 x) { return x ? (u64)__builtin_ctzll(x) : 64; }
static inline u32 ones4(u32 x) { return (u32)__builtin_popcount(x); }
static inline u64 ones8(u64 x) { return (u64)__builtin_popcountll(x); }
static inline u32 div4(u32 x, u32 y) { if (y == 0) module_trap(); return x / y; }
static inline u64 div8(u64 x, u64 y) { if (y == 0) module_trap(); return x / y; }
static inline u32 rem4(u32 x, u32 y) { if (y == 0) module_trap(); return x % y; }
static inline u64 rem8(u64 x, u64 y) { if (y == 0) module_trap(); return x % y; }
static inline u32 rotl4(u32 x, u32 y) { return x << (y & 31) | x >> ((32 - y) & 31); }
static inline u64 rotl8(u64 x, u64 y) { return x << (y & 63) | x >> ((64 - y) & 63); }
static inline u32 rotr4(u32 x, u32 y) { return x >> (y & 31) | x << ((32 - y) & 31); }
static inline u64 rotr8(u64 x, u64 y) { return x >> (y & 63) | x << ((64 - y) & 63); }

#endif
#endif
