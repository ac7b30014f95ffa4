/* This file is generated: don't edit it. It is the compiled form of the repository's proved sources, translated to C by
 * tools/c_of_module. docs/PROVED.md says what you have to trust. */
#define _POSIX_C_SOURCE 200809L
#include <errno.h>
#include <fcntl.h>
#include <signal.h>
#include <unistd.h>

/* This code avoids what C leaves undefined or unspecified:
 * - aliasing: memory is read and written only by `ld..`, `st..` and `mv..`, whose types may alias all, and by memcpy and the like;
 * - overflow: sums, differences and products are computed with unsigned numbers of at least 32 bits, and cast to their width;
 * - division: no divisor is zero and no quotient is too large, which is proved; a signed number is a cast of an unsigned one;
 * - shifts: each is by less than the width; a shift to the right of a signed number keeps the sign with gcc and clang;
 * - casts to a signed number of the same width keep the bits with gcc and clang;
 * - alignment: `ld..` and `st..` take any address, and locals have the alignment that the module requires;
 * - order of evaluation: expressions have no side effects. Each store and each call is a statement of its own, in the order of
 *   the module. A value that is read before one is in a variable, or is read in that statement itself;
 * - pointers: one that may be outside of its object is computed as a number (`away`); pointers are compared as numbers;
 * - locals that aren't written yet: reading one returns arbitrary bytes, which no answer depends on;
 * - loops: all are jumps, and each one ends, which is proved;
 * - sizes: names differ within their first 63 characters, and no line has more than 4,095, which is as far as C11 promises to go. */
#if !defined(__GNUC__) || __BYTE_ORDER__ != __ORDER_LITTLE_ENDIAN__
#error "this needs gcc or clang, and a little-endian machine"
#endif
/* A machine of 32 bits needs callers that keep 8 bytes in memory for each pointer and each size_t. JavaScript can; C keeps
 * 4. CAPNP_CANONICAL_SLOTS_OF_8 states that all callers do. */
#if __SIZEOF_POINTER__ != 8 && !(__SIZEOF_POINTER__ == 4 && defined(CAPNP_CANONICAL_SLOTS_OF_8))
#error "this needs a machine of 64 bits"
#endif

#include <stddef.h>
#include <stdint.h>
#include <stdlib.h>
#include <string.h>

typedef uint8_t u8;
typedef uint16_t u16;
typedef uint32_t u32;
typedef uint64_t u64;
typedef int8_t i8;
typedef int16_t i16;
typedef int32_t i32;
typedef int64_t i64;
typedef uintptr_t uptr;
typedef u8 *pointer;

/* A pointer in memory takes 8 bytes, as in the module, even if the machine has shorter ones. */
#if __SIZEOF_POINTER__ == 8
struct place { const u8 *at; };
#define PLACE(pointer) { pointer }
#else
struct place { const u8 *at; u32 none; };
#define PLACE(pointer) { pointer, 0 }
#endif

#define INLINE static inline __attribute__((always_inline, unused))
#define NEVER __attribute__((noinline))
#define COLD __attribute__((cold))
#define A(bytes) __attribute__((aligned(bytes)))
#define TRAP() __builtin_trap()

/* Marks a place that is proved unreachable. With CAPNP_CANONICAL_TRAPS the program ends there. */
#ifdef CAPNP_CANONICAL_TRAPS
#define UNREACHABLE() __builtin_trap()
#else
#define UNREACHABLE() __builtin_unreachable()
#endif

/* The place `by` bytes away. It may be outside of the object: it is computed as a number, and may wrap around. */
#define away(pointer, by) ((u8 *)(uptr)((uptr)(pointer) + (by)))

/* Reads a number from any address, or writes one; any types may be kept there. These are macros, which compilers read faster
 * than functions. */
#define MEMORY(suffix, kind) typedef kind at##suffix __attribute__((may_alias, aligned(1)));
#define LOAD(suffix, from) (*(const at##suffix *)(const void *)(from))
#define STORE(suffix, to, value) (void)(*(at##suffix *)(void *)(to) = (value))

MEMORY(8, u8)
MEMORY(16, u16)
MEMORY(32, u32)
MEMORY(64, u64)
#define ld8(from) LOAD(8, from)
#define ld16(from) LOAD(16, from)
#define ld32(from) LOAD(32, from)
#define ld64(from) LOAD(64, from)
#define st8(to, value) STORE(8, to, value)
#define st16(to, value) STORE(16, to, value)
#define st32(to, value) STORE(32, to, value)
#define st64(to, value) STORE(64, to, value)
#if __SIZEOF_POINTER__ == 8
MEMORY(p, pointer)
#define ldp(from) LOAD(p, from)
#define stp(to, value) STORE(p, to, value)
#else
INLINE pointer ldp(const void *from) { return (pointer)(uptr)ld64(from); }
INLINE void stp(void *to, pointer value) { st64(to, (uptr)value); }
#endif

/* Numbers of widths that C doesn't have are only moved, truncated and extended: C keeps them in 64 bits. */
#define PART(bits)                                                                                          \
    INLINE u64 ld##bits(const void *from) { u64 it = 0; memcpy(&it, from, bits / 8); return it; }            \
    INLINE void st##bits(void *to, u64 value) { memcpy(to, &value, bits / 8); }

PART(24)
PART(40)
PART(48)
PART(56)

/* C forbids a null pointer here even with a count of 0. */
INLINE void memcpy_or_none(u8 *to, const u8 *from, u64 count) { if (count) memcpy(to, from, count); }
INLINE void memmove_or_none(u8 *to, const u8 *from, u64 count) { if (count) memmove(to, from, count); }
INLINE void memset_or_none(u8 *to, u8 value, u64 count) { if (count) memset(to, value, count); }

/* The absolute value, which of the smallest number is that number itself; the number of one bits; the number of zero bits
 * before the first one bit, from either end; minimum and maximum; sum and difference, limited to the range of the type; and
 * two numbers, joined and shifted by c modulo their width: the upper half after a shift to the left, the lower one after a
 * shift to the right. */
#define COUNTS(bits)                                                                                    \
    INLINE u##bits abs##bits(u##bits a) { return a >> (bits - 1) ? (u##bits)(0u - a) : a; }             \
    INLINE u##bits ctpop##bits(u##bits a) { return (u##bits)__builtin_popcountll(a); }                  \
    INLINE u##bits cttz##bits(u##bits a) { return (u##bits)(a ? __builtin_ctzll(a) : bits); }           \
    INLINE u##bits ctlz##bits(u##bits a) { return (u##bits)(a ? __builtin_clzll(a) - (64 - bits) : bits); } \
    INLINE u##bits umin##bits(u##bits a, u##bits b) { return a < b ? a : b; }                           \
    INLINE u##bits umax##bits(u##bits a, u##bits b) { return a > b ? a : b; }                           \
    INLINE u##bits smin##bits(u##bits a, u##bits b) { return (i##bits)a < (i##bits)b ? a : b; }         \
    INLINE u##bits smax##bits(u##bits a, u##bits b) { return (i##bits)a > (i##bits)b ? a : b; }         \
    INLINE u##bits uadd_sat##bits(u##bits a, u##bits b) { return (u##bits)(a + b) < a ? (u##bits)-1 : (u##bits)(a + b); } \
    INLINE u##bits usub_sat##bits(u##bits a, u##bits b) { return a < b ? 0 : (u##bits)(a - b); }        \
    INLINE u##bits fshl##bits(u##bits a, u##bits b, u##bits c) { c %= bits; return c ? (u##bits)(a << c | b >> (bits - c)) : a; } \
    INLINE u##bits fshr##bits(u##bits a, u##bits b, u##bits c) { c %= bits; return c ? (u##bits)(a << (bits - c) | b >> c) : b; }

COUNTS(8)
COUNTS(16)
COUNTS(32)
COUNTS(64)

INLINE u16 bswap16(u16 a) { return __builtin_bswap16(a); }
INLINE u32 bswap32(u32 a) { return __builtin_bswap32(a); }
INLINE u64 bswap64(u64 a) { return __builtin_bswap64(a); }

/* Vectors of bytes, which are compared and combined at once. A mask has a byte of ones or zeros for each byte. */
#define VECTOR(count)                                                                         \
    typedef u8 v##count __attribute__((vector_size(count)));                                  \
    typedef i8 w##count __attribute__((vector_size(count)));                                  \
    typedef v##count anyv##count __attribute__((may_alias, aligned(1)));

VECTOR(8)
VECTOR(16)
VECTOR(32)
VECTOR(64)

/* These are macros, because how a long vector is passed to a function depends on the processor. */
#define ldv8(from) (*(const anyv8 *)(const void *)(from))
#define ldv16(from) (*(const anyv16 *)(const void *)(from))
#define ldv32(from) (*(const anyv32 *)(const void *)(from))
#define ldv64(from) (*(const anyv64 *)(const void *)(from))
#define stv8(to, value) (void)(*(anyv8 *)(void *)(to) = (value))
#define stv16(to, value) (void)(*(anyv16 *)(void *)(to) = (value))
#define stv32(to, value) (void)(*(anyv32 *)(void *)(to) = (value))
#define stv64(to, value) (void)(*(anyv64 *)(void *)(to) = (value))

/* All bytes of a vector, combined by or. */
INLINE u8 any_at(const void *vector, int size)
{
    u64 bytes = 0;
    for (int at = 0; at < size; at += 8) bytes |= ld64((const u8 *)vector + at);
    bytes |= bytes >> 32;
    bytes |= bytes >> 16;
    return (u8)(bytes | bytes >> 8);
}

/* A bit for each of the first 8 bytes of a mask. */
INLINE u8 mask_at(const void *vector) { return (u8)((ld64(vector) & 0x8080808080808080u) * 0x0002040810204081u >> 56); }

#define any8(vector) __extension__({ v8 any_ = (vector); any_at(&any_, 8); })
#define any16(vector) __extension__({ v16 any_ = (vector); any_at(&any_, 16); })
#define any32(vector) __extension__({ v32 any_ = (vector); any_at(&any_, 32); })
#define any64(vector) __extension__({ v64 any_ = (vector); any_at(&any_, 64); })
#define mask8(vector) __extension__({ v8 mask_ = (vector); mask_at(&mask_); })
#define mask16(vector) __extension__({ v16 mask_ = (vector); (u16)(mask_at(&mask_) | mask_at((const u8 *)&mask_ + 8) << 8); })
/* 16 bytes of a vector, from byte `at` on; and the 8 bytes of a number. */
#define part16_of_64(vector, at) __extension__({ v64 part_ = (vector); ldv16((const u8 *)&part_ + (at)); })
#define part16_of_32(vector, at) __extension__({ v32 part_ = (vector); ldv16((const u8 *)&part_ + (at)); })
#define v8_of(number) __extension__({ u64 number_ = (number); ldv8(&number_); })

/* Whether a product needs more than 64 bits. It is the sum of three products of halves, if both upper halves aren't above 0. */
INLINE u8 overflows(u64 a, u64 b)
{
    u64 upper = (a >> 32) * (u32)b + (u32)a * (b >> 32);
    return (a >> 32 && b >> 32) || upper >> 32 || a * b < upper << 32;
}

/* The functions of C that the proved code calls. The proofs assume what the toolchain's `libc` and `os` state about them. */
struct s_i64_i64 { u64 f0; u64 f1; };

/* Whether there is memory, and where. If there is none, the place is a byte that nobody owns. */
INLINE struct s_i64_i64 tried(void *block)
{
    static u8 nothing;
    return (struct s_i64_i64){ block != NULL, (uptr)(block ? block : (void *)&nothing) };
}

/* malloc keeps the alignment of every basic type, which is 8 bytes or more; for a larger one there is no memory, and for a size
 * that `size_t` can't hold there is none either. A size of 0 still requests a byte. C99 has neither max_align_t nor _Alignof. */
union basic { long long number; double real; long double longer; void *object; void (*function)(void); };
struct after_a_byte { char byte; union basic basic; };
enum { ALIGNMENT = offsetof(struct after_a_byte, basic) };
typedef char malloc_aligns_to_8_bytes[ALIGNMENT >= 8 ? 1 : -1];

INLINE struct s_i64_i64 rattle_alloc(u64 size, u64 align)
{
    return tried(align <= ALIGNMENT && size <= SIZE_MAX ? malloc(size ? size : align) : NULL);
}

INLINE struct s_i64_i64 rattle_realloc(u8 *block, u64 kept, u64 size, u64 align)
{
    (void)kept;
    return tried(size <= SIZE_MAX ? realloc(block, size ? size : align) : NULL);
}

/* An empty vector has no block. Its place is a local then, which gcc warns would be freed, though no way leads there. */
#ifndef __clang__
#pragma GCC diagnostic push
#pragma GCC diagnostic ignored "-Wfree-nonheap-object"
#endif
INLINE void rattle_dealloc(u8 *block)
{
    free(block);
}
#ifndef __clang__
#pragma GCC diagnostic pop
#endif

/* Further functions of C for a program: its arguments and environment, `errno`, and files. */
extern char **environ;

struct arguments { int count; char **words; };
extern struct arguments arguments;

INLINE void keep_arguments(int count, char **words)
{
    arguments.count = count;
    arguments.words = words;
}

/* Copies a text to the start of a buffer and returns its length; -1 if there is no text, -2 if it doesn't fit. */
INLINE u64 put(const char *text, u8 *to, u64 room)
{
    if (!text) return (u64)-1;
    for (u64 at = 0;; at++) {
        if (!text[at]) return at;
        if (at == room) return (u64)-2;
        to[at] = (u8)text[at];
    }
}

INLINE u64 rattle_arg_count(void)
{
    return (u64)arguments.count;
}

INLINE u64 rattle_arg(u64 number, u8 *to, u64 room)
{
    return put(number < (u64)arguments.count ? arguments.words[number] : NULL, to, room);
}

INLINE u64 rattle_env(u8 *name, u8 *to, u64 room)
{
    return put(getenv((const char *)name), to, room);
}

INLINE u64 rattle_env_at(u64 number, u8 *to, u64 room)
{
    char **entry = environ;
    while (entry && *entry && number) entry++, number--;
    return put(entry ? *entry : NULL, to, room);
}

INLINE u32 rattle_errno(void)
{
    return (u32)errno;
}

INLINE void rattle_set_errno(u32 number)
{
    errno = (int)number;
}

INLINE u64 c_read(u32 file, u8 *to, u64 room)
{
    return (u64)read((int)file, to, room);
}

INLINE u64 c_write(u32 file, u8 *from, u64 size)
{
    return (u64)write((int)file, from, size);
}

INLINE u64 c_lseek(u32 file, u64 offset, u32 whence)
{
    return (u64)lseek((int)file, (off_t)offset, (int)whence);
}

INLINE u32 c_chdir(u8 *path)
{
    return (u32)chdir((const char *)path);
}

INLINE u8 *c_getcwd(u8 *to, u64 room)
{
    return (u8 *)getcwd((char *)to, room);
}

/* Opens a file for reading, or a new or emptied one for writing: the programs need nothing else. The flags are those of Linux:
 * 0 in the last two bits is for reading, and these three bits are for the other. */
INLINE u32 c_open(u8 *path, u32 how, ...)
{
    if ((how & 3) == 0) return (u32)open((const char *)path, O_RDONLY | O_NOCTTY | O_CLOEXEC);
    if ((how & 0x243) == 0x241) return (u32)open((const char *)path, O_WRONLY | O_CREAT | O_TRUNC | O_NOCTTY | O_CLOEXEC, 0666);
    errno = EINVAL;
    return (u32)-1;
}

INLINE u32 c_close(u32 file)
{
    return (u32)close((int)file);
}

INLINE u32 c_strerror(u32 number, u8 *to, u64 room)
{
    return (u32)strerror_r((int)number, (char *)to, room);
}

/* Called at the start, with SIGPIPE and 1: then a write to a closed pipe fails, and doesn't end the program. */
INLINE u64 c_signal(u32 number, u64 how)
{
    return (uptr)signal((int)number, how == 1 ? SIG_IGN : SIG_DFL);
}

/* Further functions of C for a program that shows its progress on a terminal. */
#include <time.h>

INLINE u32 c_isatty(u32 file)
{
    return (u32)isatty((int)file);
}

/* Puts the seconds and nanoseconds of a clock into the 16 bytes of Linux's `struct timespec`. Clock 1 is the one that never goes
 * back: the programs read no other. */
INLINE u32 c_clock_gettime(u32 clock, u8 *to)
{
    struct timespec now;
    if (clock == 1) {
        if (clock_gettime(CLOCK_MONOTONIC, &now) != 0) return (u32)-1;
        st64(to, (u64)now.tv_sec);
        st64(to + 8, (u64)now.tv_nsec);
        return 0;
    }
    errno = EINVAL;
    return (u32)-1;
}

struct s_i16_i16 { u16 f0; u16 f1; };
struct s_i64_i1 { u64 f0; u8 f1; };
struct s_i8_i32 { u8 f0; u32 f1; };
struct s_i8_i64 { u8 f0; u64 f1; };
struct s_i8_i8 { u8 f0; u8 f1; };
struct s_p_i64 { u8 *f0; u64 f1; };

/* mvN moves N bytes between places that may overlap. */
INLINE void mv3(u8 *to, const u8 *from) { u16 part0 = ld16(from); u8 part2 = ld8((from + 2)); st16(to, part0); st8((to + 2), part2); }
INLINE void mv5(u8 *to, const u8 *from) { u32 part0 = ld32(from); u8 part4 = ld8((from + 4)); st32(to, part0); st8((to + 4), part4); }
INLINE void mv6(u8 *to, const u8 *from) { u32 part0 = ld32(from); u16 part4 = ld16((from + 4)); st32(to, part0); st16((to + 4), part4); }
INLINE void mv7(u8 *to, const u8 *from) { u32 part0 = ld32(from); u16 part4 = ld16((from + 4)); u8 part6 = ld8((from + 6)); st32(to, part0); st16((to + 4), part4); st8((to + 6), part6); }
INLINE void mv8(u8 *to, const u8 *from) { u64 part0 = ld64(from); st64(to, part0); }
INLINE void mv9(u8 *to, const u8 *from) { u64 part0 = ld64(from); u8 part8 = ld8((from + 8)); st64(to, part0); st8((to + 8), part8); }
INLINE void mv10(u8 *to, const u8 *from) { u64 part0 = ld64(from); u16 part8 = ld16((from + 8)); st64(to, part0); st16((to + 8), part8); }
INLINE void mv11(u8 *to, const u8 *from) { u64 part0 = ld64(from); u16 part8 = ld16((from + 8)); u8 part10 = ld8((from + 10)); st64(to, part0); st16((to + 8), part8); st8((to + 10), part10); }
INLINE void mv12(u8 *to, const u8 *from) { u64 part0 = ld64(from); u32 part8 = ld32((from + 8)); st64(to, part0); st32((to + 8), part8); }
INLINE void mv13(u8 *to, const u8 *from) { u64 part0 = ld64(from); u32 part8 = ld32((from + 8)); u8 part12 = ld8((from + 12)); st64(to, part0); st32((to + 8), part8); st8((to + 12), part12); }
INLINE void mv14(u8 *to, const u8 *from) { u64 part0 = ld64(from); u32 part8 = ld32((from + 8)); u16 part12 = ld16((from + 12)); st64(to, part0); st32((to + 8), part8); st16((to + 12), part12); }
INLINE void mv15(u8 *to, const u8 *from) { u64 part0 = ld64(from); u32 part8 = ld32((from + 8)); u16 part12 = ld16((from + 12)); u8 part14 = ld8((from + 14)); st64(to, part0); st32((to + 8), part8); st16((to + 12), part12); st8((to + 14), part14); }
INLINE void mv16(u8 *to, const u8 *from) { u64 part0 = ld64(from); u64 part8 = ld64((from + 8)); st64(to, part0); st64((to + 8), part8); }
INLINE void mv17(u8 *to, const u8 *from) { u64 part0 = ld64(from); u64 part8 = ld64((from + 8)); u8 part16 = ld8((from + 16)); st64(to, part0); st64((to + 8), part8); st8((to + 16), part16); }
INLINE void mv18(u8 *to, const u8 *from) { u64 part0 = ld64(from); u64 part8 = ld64((from + 8)); u16 part16 = ld16((from + 16)); st64(to, part0); st64((to + 8), part8); st16((to + 16), part16); }
INLINE void mv19(u8 *to, const u8 *from) { u64 part0 = ld64(from); u64 part8 = ld64((from + 8)); u16 part16 = ld16((from + 16)); u8 part18 = ld8((from + 18)); st64(to, part0); st64((to + 8), part8); st16((to + 16), part16); st8((to + 18), part18); }
INLINE void mv20(u8 *to, const u8 *from) { u64 part0 = ld64(from); u64 part8 = ld64((from + 8)); u32 part16 = ld32((from + 16)); st64(to, part0); st64((to + 8), part8); st32((to + 16), part16); }
INLINE void mv21(u8 *to, const u8 *from) { u64 part0 = ld64(from); u64 part8 = ld64((from + 8)); u32 part16 = ld32((from + 16)); u8 part20 = ld8((from + 20)); st64(to, part0); st64((to + 8), part8); st32((to + 16), part16); st8((to + 20), part20); }
INLINE void mv22(u8 *to, const u8 *from) { u64 part0 = ld64(from); u64 part8 = ld64((from + 8)); u32 part16 = ld32((from + 16)); u16 part20 = ld16((from + 20)); st64(to, part0); st64((to + 8), part8); st32((to + 16), part16); st16((to + 20), part20); }
INLINE void mv23(u8 *to, const u8 *from) { u64 part0 = ld64(from); u64 part8 = ld64((from + 8)); u32 part16 = ld32((from + 16)); u16 part20 = ld16((from + 20)); u8 part22 = ld8((from + 22)); st64(to, part0); st64((to + 8), part8); st32((to + 16), part16); st16((to + 20), part20); st8((to + 22), part22); }
INLINE void mv24(u8 *to, const u8 *from) { u64 part0 = ld64(from); u64 part8 = ld64((from + 8)); u64 part16 = ld64((from + 16)); st64(to, part0); st64((to + 8), part8); st64((to + 16), part16); }
INLINE void mv25(u8 *to, const u8 *from) { u64 part0 = ld64(from); u64 part8 = ld64((from + 8)); u64 part16 = ld64((from + 16)); u8 part24 = ld8((from + 24)); st64(to, part0); st64((to + 8), part8); st64((to + 16), part16); st8((to + 24), part24); }
INLINE void mv27(u8 *to, const u8 *from) { u64 part0 = ld64(from); u64 part8 = ld64((from + 8)); u64 part16 = ld64((from + 16)); u16 part24 = ld16((from + 24)); u8 part26 = ld8((from + 26)); st64(to, part0); st64((to + 8), part8); st64((to + 16), part16); st16((to + 24), part24); st8((to + 26), part26); }
INLINE void mv30(u8 *to, const u8 *from) { u64 part0 = ld64(from); u64 part8 = ld64((from + 8)); u64 part16 = ld64((from + 16)); u32 part24 = ld32((from + 24)); u16 part28 = ld16((from + 28)); st64(to, part0); st64((to + 8), part8); st64((to + 16), part16); st32((to + 24), part24); st16((to + 28), part28); }
INLINE void mv31(u8 *to, const u8 *from) { u64 part0 = ld64(from); u64 part8 = ld64((from + 8)); u64 part16 = ld64((from + 16)); u32 part24 = ld32((from + 24)); u16 part28 = ld16((from + 28)); u8 part30 = ld8((from + 30)); st64(to, part0); st64((to + 8), part8); st64((to + 16), part16); st32((to + 24), part24); st16((to + 28), part28); st8((to + 30), part30); }
INLINE void mv32(u8 *to, const u8 *from) { u64 part0 = ld64(from); u64 part8 = ld64((from + 8)); u64 part16 = ld64((from + 16)); u64 part24 = ld64((from + 24)); st64(to, part0); st64((to + 8), part8); st64((to + 16), part16); st64((to + 24), part24); }
INLINE void mv35(u8 *to, const u8 *from) { u64 part0 = ld64(from); u64 part8 = ld64((from + 8)); u64 part16 = ld64((from + 16)); u64 part24 = ld64((from + 24)); u16 part32 = ld16((from + 32)); u8 part34 = ld8((from + 34)); st64(to, part0); st64((to + 8), part8); st64((to + 16), part16); st64((to + 24), part24); st16((to + 32), part32); st8((to + 34), part34); }
INLINE void mv38(u8 *to, const u8 *from) { u64 part0 = ld64(from); u64 part8 = ld64((from + 8)); u64 part16 = ld64((from + 16)); u64 part24 = ld64((from + 24)); u32 part32 = ld32((from + 32)); u16 part36 = ld16((from + 36)); st64(to, part0); st64((to + 8), part8); st64((to + 16), part16); st64((to + 24), part24); st32((to + 32), part32); st16((to + 36), part36); }
INLINE void mv40(u8 *to, const u8 *from) { u64 part0 = ld64(from); u64 part8 = ld64((from + 8)); u64 part16 = ld64((from + 16)); u64 part24 = ld64((from + 24)); u64 part32 = ld64((from + 32)); st64(to, part0); st64((to + 8), part8); st64((to + 16), part16); st64((to + 24), part24); st64((to + 32), part32); }
INLINE void mv48(u8 *to, const u8 *from) { u64 part0 = ld64(from); u64 part8 = ld64((from + 8)); u64 part16 = ld64((from + 16)); u64 part24 = ld64((from + 24)); u64 part32 = ld64((from + 32)); u64 part40 = ld64((from + 40)); st64(to, part0); st64((to + 8), part8); st64((to + 16), part16); st64((to + 24), part24); st64((to + 32), part32); st64((to + 40), part40); }
INLINE void mv52(u8 *to, const u8 *from) { u64 part0 = ld64(from); u64 part8 = ld64((from + 8)); u64 part16 = ld64((from + 16)); u64 part24 = ld64((from + 24)); u64 part32 = ld64((from + 32)); u64 part40 = ld64((from + 40)); u32 part48 = ld32((from + 48)); st64(to, part0); st64((to + 8), part8); st64((to + 16), part16); st64((to + 24), part24); st64((to + 32), part32); st64((to + 40), part40); st32((to + 48), part48); }
INLINE void mv56(u8 *to, const u8 *from) { u64 part0 = ld64(from); u64 part8 = ld64((from + 8)); u64 part16 = ld64((from + 16)); u64 part24 = ld64((from + 24)); u64 part32 = ld64((from + 32)); u64 part40 = ld64((from + 40)); u64 part48 = ld64((from + 48)); st64(to, part0); st64((to + 8), part8); st64((to + 16), part16); st64((to + 24), part24); st64((to + 32), part32); st64((to + 40), part40); st64((to + 48), part48); }
INLINE void mv64(u8 *to, const u8 *from) { u64 part0 = ld64(from); u64 part8 = ld64((from + 8)); u64 part16 = ld64((from + 16)); u64 part24 = ld64((from + 24)); u64 part32 = ld64((from + 32)); u64 part40 = ld64((from + 40)); u64 part48 = ld64((from + 48)); u64 part56 = ld64((from + 56)); st64(to, part0); st64((to + 8), part8); st64((to + 16), part16); st64((to + 24), part24); st64((to + 32), part32); st64((to + 40), part40); st64((to + 48), part48); st64((to + 56), part56); }

static const u8 g_static_0[29] = "capnp_canon: memory exhausted";
static const u8 g_static_1[36] = "capnp_canon: an argument isn't UTF-8";
static const u8 g_static_2[46] = "Try 'capnp_canon --help' for more information.";
static const u8 g_static_3[4837] = { 85, 115, 97, 103, 101, 58, 32, 99, 97, 112, 110, 112, 95, 99, 97, 110, 111, 110, 32, 99, 97, 110, 111, 110, 32, 91, 45, 45, 102, 108, 97, 116, 93, 32, 91, 45, 45, 112, 97, 99, 107, 93, 32, 91, 45, 45, 104, 101, 120, 93, 32, 91, 79, 80, 84, 73, 79, 78, 93, 46, 46, 46, 32, 91, 70, 73, 76, 69, 93, 46, 46, 46, 10, 32, 32, 111, 114, 58, 32, 32, 99, 97, 112, 110, 112, 95, 99, 97, 110, 111, 110, 32, 99, 104, 101, 99, 107, 32, 91, 45, 45, 113, 117, 105, 101, 116, 93, 32, 91, 79, 80, 84, 73, 79, 78, 93, 46, 46, 46, 32, 91, 70, 73, 76, 69, 93, 46, 46, 46, 10, 32, 32, 111, 114, 58, 32, 32, 99, 97, 112, 110, 112, 95, 99, 97, 110, 111, 110, 32, 115, 105, 122, 101, 32, 91, 79, 80, 84, 73, 79, 78, 93, 46, 46, 46, 32, 91, 70, 73, 76, 69, 93, 46, 46, 46, 10, 32, 32, 111, 114, 58, 32, 32, 99, 97, 112, 110, 112, 95, 99, 97, 110, 111, 110, 32, 100, 105, 103, 101, 115, 116, 32, 91, 45, 45, 99, 104, 101, 99, 107, 32, 91, 45, 45, 113, 117, 105, 101, 116, 93, 93, 32, 91, 79, 80, 84, 73, 79, 78, 93, 46, 46, 46, 32, 91, 70, 73, 76, 69, 93, 46, 46, 46, 10, 32, 32, 111, 114, 58, 32, 32, 99, 97, 112, 110, 112, 95, 99, 97, 110, 111, 110, 32, 118, 97, 108, 105, 100, 97, 116, 101, 32, 91, 45, 45, 115, 99, 104, 101, 109, 97, 32, 70, 73, 76, 69, 58, 84, 89, 80, 69, 93, 32, 91, 45, 45, 113, 117, 105, 101, 116, 93, 32, 91, 79, 80, 84, 73, 79, 78, 93, 46, 46, 46, 32, 91, 70, 73, 76, 69, 93, 46, 46, 46, 10, 32, 32, 111, 114, 58, 32, 32, 99, 97, 112, 110, 112, 95, 99, 97, 110, 111, 110, 32, 115, 104, 111, 119, 32, 91, 45, 45, 106, 115, 111, 110, 32, 124, 32, 45, 45, 99, 111, 108, 111, 114, 93, 32, 91, 45, 45, 118, 97, 108, 117, 101, 115, 93, 32, 91, 45, 45, 100, 101, 112, 116, 104, 32, 78, 93, 32, 91, 79, 80, 84, 73, 79, 78, 93, 46, 46, 46, 32, 91, 70, 73, 76, 69, 93, 46, 46, 46, 10, 32, 32, 111, 114, 58, 32, 32, 99, 97, 112, 110, 112, 95, 99, 97, 110, 111, 110, 32, 100, 105, 102, 102, 32, 91, 45, 45, 113, 117, 105, 101, 116, 93, 32, 91, 79, 80, 84, 73, 79, 78, 93, 46, 46, 46, 32, 70, 73, 76, 69, 32, 70, 73, 76, 69, 10, 32, 32, 111, 114, 58, 32, 32, 99, 97, 112, 110, 112, 95, 99, 97, 110, 111, 110, 32, 45, 45, 104, 101, 108, 112, 32, 124, 32, 45, 45, 118, 101, 114, 115, 105, 111, 110, 10, 82, 101, 97, 100, 115, 32, 102, 114, 97, 109, 101, 100, 32, 67, 97, 112, 39, 110, 32, 80, 114, 111, 116, 111, 32, 109, 101, 115, 115, 97, 103, 101, 115, 32, 102, 114, 111, 109, 32, 102, 105, 108, 101, 115, 32, 111, 114, 32, 115, 116, 97, 110, 100, 97, 114, 100, 32, 105, 110, 112, 117, 116, 44, 32, 111, 110, 101, 32, 97, 102, 116, 101, 114, 32, 116, 104, 101, 32, 111, 116, 104, 101, 114, 44, 32, 97, 110, 100, 32, 97, 110, 115, 119, 101, 114, 115, 10, 101, 97, 99, 104, 32, 111, 110, 101, 46, 10, 10, 99, 97, 110, 111, 110, 32, 32, 32, 32, 32, 32, 32, 32, 119, 114, 105, 116, 101, 115, 32, 101, 97, 99, 104, 32, 109, 101, 115, 115, 97, 103, 101, 32, 105, 110, 32, 99, 97, 110, 111, 110, 105, 99, 97, 108, 32, 102, 111, 114, 109, 44, 32, 97, 115, 32, 97, 32, 102, 114, 97, 109, 101, 32, 111, 102, 32, 111, 110, 101, 32, 115, 101, 103, 109, 101, 110, 116, 10, 32, 32, 45, 45, 102, 108, 97, 116, 32, 32, 32, 32, 32, 97, 115, 32, 114, 97, 119, 32, 119, 111, 114, 100, 115, 58, 32, 116, 104, 101, 32, 119, 111, 114, 100, 115, 32, 111, 102, 32, 116, 104, 101, 32, 109, 101, 115, 115, 97, 103, 101, 32, 119, 105, 116, 104, 111, 117, 116, 32, 97, 32, 115, 101, 103, 109, 101, 110, 116, 32, 116, 97, 98, 108, 101, 10, 32, 32, 45, 45, 112, 97, 99, 107, 32, 32, 32, 32, 32, 112, 97, 99, 107, 101, 100, 10, 32, 32, 45, 45, 104, 101, 120, 32, 32, 32, 32, 32, 32, 97, 115, 32, 114, 97, 119, 32, 119, 111, 114, 100, 115, 32, 105, 110, 32, 104, 101, 120, 32, 100, 105, 103, 105, 116, 115, 44, 32, 111, 110, 101, 32, 108, 105, 110, 101, 32, 102, 111, 114, 32, 101, 97, 99, 104, 32, 109, 101, 115, 115, 97, 103, 101, 10, 99, 104, 101, 99, 107, 32, 32, 32, 32, 32, 32, 32, 32, 119, 114, 105, 116, 101, 115, 32, 97, 32, 108, 105, 110, 101, 32, 102, 111, 114, 32, 101, 97, 99, 104, 32, 109, 101, 115, 115, 97, 103, 101, 58, 32, 96, 99, 97, 110, 111, 110, 105, 99, 97, 108, 96, 44, 32,
        111, 114, 10, 32, 32, 32, 32, 32, 32, 32, 32, 32, 32, 32, 32, 32, 96, 110, 111, 116, 32, 99, 97, 110, 111, 110, 105, 99, 97, 108, 58, 32, 82, 69, 65, 83, 79, 78, 32, 97, 116, 32, 115, 101, 103, 109, 101, 110, 116, 32, 83, 44, 32, 119, 111, 114, 100, 32, 87, 96, 32, 40, 87, 32, 99, 111, 117, 110, 116, 115, 32, 119, 111, 114, 100, 115, 32, 111, 102, 32, 56, 32, 98, 121, 116, 101, 115, 44, 32, 102, 114, 111, 109, 32, 48, 41, 10, 32, 32, 45, 45, 113, 117, 105, 101, 116, 32, 32, 32, 32, 119, 114, 105, 116, 101, 115, 32, 110, 111, 116, 104, 105, 110, 103, 59, 32, 111, 110, 108, 121, 32, 116, 104, 101, 32, 101, 120, 105, 116, 32, 115, 116, 97, 116, 117, 115, 32, 97, 110, 115, 119, 101, 114, 115, 10, 115, 105, 122, 101, 32, 32, 32, 32, 32, 32, 32, 32, 32, 119, 114, 105, 116, 101, 115, 32, 97, 32, 108, 105, 110, 101, 32, 102, 111, 114, 32, 101, 97, 99, 104, 32, 109, 101, 115, 115, 97, 103, 101, 58, 32, 96, 119, 111, 114, 100, 115, 32, 78, 32, 99, 97, 112, 115, 32, 77, 96, 44, 32, 119, 105, 116, 104, 111, 117, 116, 32, 108, 97, 110, 100, 105, 110, 103, 32, 112, 97, 100, 115, 10, 100, 105, 103, 101, 115, 116, 32, 32, 32, 32, 32, 32, 32, 119, 114, 105, 116, 101, 115, 32, 97, 32, 108, 105, 110, 101, 32, 102, 111, 114, 32, 101, 97, 99, 104, 32, 109, 101, 115, 115, 97, 103, 101, 44, 32, 108, 105, 107, 101, 32, 115, 104, 97, 50, 53, 54, 115, 117, 109, 58, 32, 96, 72, 65, 83, 72, 32, 32, 70, 73, 76, 69, 58, 78, 96, 46, 32, 72, 65, 83, 72, 32, 105, 115, 32, 116, 104, 101, 32, 83, 72, 65, 45, 50, 53, 54, 32, 111, 102, 10, 32, 32, 32, 32, 32, 32, 32, 32, 32, 32, 32, 32, 32, 119, 104, 97, 116, 32, 99, 97, 110, 111, 110, 32, 45, 45, 102, 108, 97, 116, 32, 119, 114, 105, 116, 101, 115, 44, 32, 97, 110, 100, 32, 78, 32, 116, 104, 101, 32, 110, 117, 109, 98, 101, 114, 32, 111, 102, 32, 116, 104, 101, 32, 109, 101, 115, 115, 97, 103, 101, 32, 105, 110, 32, 70, 73, 76, 69, 44, 32, 99, 111, 117, 110, 116, 101, 100, 32, 102, 114, 111, 109, 32, 49, 10, 32, 32, 45, 99, 44, 32, 45, 45, 99, 104, 101, 99, 107, 32, 32, 114, 101, 97, 100, 115, 32, 115, 117, 99, 104, 32, 108, 105, 110, 101, 115, 32, 102, 114, 111, 109, 32, 101, 97, 99, 104, 32, 102, 105, 108, 101, 44, 32, 97, 110, 100, 32, 119, 114, 105, 116, 101, 115, 32, 102, 111, 114, 32, 101, 97, 99, 104, 32, 96, 70, 73, 76, 69, 58, 78, 58, 32, 79, 75, 96, 44, 32, 111, 114, 32, 105, 102, 32, 109, 101, 115, 115, 97, 103, 101, 32, 78, 32, 111, 102, 10, 32, 32, 32, 32, 32, 32, 32, 32, 32, 32, 32, 32, 32, 70, 73, 76, 69, 32, 100, 111, 101, 115, 110, 39, 116, 32, 104, 97, 118, 101, 32, 116, 104, 105, 115, 32, 104, 97, 115, 104, 32, 97, 110, 121, 32, 109, 111, 114, 101, 44, 32, 96, 70, 73, 76, 69, 58, 78, 58, 32, 70, 65, 73, 76, 69, 68, 96, 10, 32, 32, 45, 45, 113, 117, 105, 101, 116, 32, 32, 32, 32, 119, 105, 116, 104, 32, 45, 45, 99, 104, 101, 99, 107, 44, 32, 119, 114, 105, 116, 101, 115, 32, 111, 110, 108, 121, 32, 116, 104, 111, 115, 101, 32, 116, 104, 97, 116, 32, 102, 97, 105, 108, 101, 100, 10, 118, 97, 108, 105, 100, 97, 116, 101, 32, 32, 32, 32, 32, 116, 101, 115, 116, 115, 32, 119, 104, 101, 116, 104, 101, 114, 32, 101, 97, 99, 104, 32, 109, 101, 115, 115, 97, 103, 101, 32, 105, 115, 32, 115, 111, 117, 110, 100, 58, 32, 119, 104, 101, 116, 104, 101, 114, 32, 105, 116, 115, 32, 119, 104, 111, 108, 101, 32, 118, 97, 108, 117, 101, 32, 99, 97, 110, 32, 98, 101, 32, 114, 101, 97, 100, 32, 119, 105, 116, 104, 105, 110, 32, 116, 104, 101, 10, 32, 32, 32, 32, 32, 32, 32, 32, 32, 32, 32, 32, 32, 108, 105, 109, 105, 116, 115, 46, 32, 87, 114, 105, 116, 101, 115, 32, 97, 32, 108, 105, 110, 101, 32, 102, 111, 114, 32, 101, 97, 99, 104, 58, 32, 96, 115, 111, 117, 110, 100, 58, 32, 100, 101, 112, 116, 104, 32, 68, 44, 32, 119, 111, 114, 100, 115, 32, 78, 44, 32, 99, 97, 112, 97, 98, 105, 108, 105, 116, 105, 101, 115, 32, 77, 96, 10, 32, 32, 45, 45, 115, 99, 104, 101, 109, 97, 32, 70, 73, 76, 69, 58, 84, 89, 80, 69, 32, 32, 116, 101, 115, 116, 115, 32, 119, 104, 101, 116, 104, 101, 114, 32, 101, 97, 99, 104, 32, 109, 101, 115, 115, 97, 103, 101, 32, 105, 115, 32, 97, 32, 84, 89, 80, 69, 44, 32, 97, 32,
        115, 116, 114, 117, 99, 116, 32, 111, 102, 32, 116, 104, 101, 32, 115, 99, 104, 101, 109, 97, 32, 105, 110, 32, 70, 73, 76, 69, 44, 32, 119, 104, 105, 99, 104, 10, 32, 32, 32, 32, 32, 32, 32, 32, 32, 32, 32, 32, 32, 99, 97, 112, 110, 112, 32, 99, 111, 109, 112, 105, 108, 101, 32, 45, 111, 45, 32, 119, 114, 105, 116, 101, 115, 46, 32, 87, 114, 105, 116, 101, 115, 32, 116, 104, 101, 32, 108, 105, 110, 101, 32, 96, 99, 111, 110, 102, 111, 114, 109, 115, 96, 32, 102, 111, 114, 32, 101, 97, 99, 104, 10, 32, 32, 45, 45, 113, 117, 105, 101, 116, 32, 32, 32, 32, 119, 114, 105, 116, 101, 115, 32, 110, 111, 116, 104, 105, 110, 103, 59, 32, 111, 110, 108, 121, 32, 116, 104, 101, 32, 101, 120, 105, 116, 32, 115, 116, 97, 116, 117, 115, 32, 97, 110, 115, 119, 101, 114, 115, 10, 115, 104, 111, 119, 32, 32, 32, 32, 32, 32, 32, 32, 32, 119, 114, 105, 116, 101, 115, 32, 119, 104, 97, 116, 32, 101, 97, 99, 104, 32, 109, 101, 115, 115, 97, 103, 101, 32, 104, 111, 108, 100, 115, 44, 32, 119, 105, 116, 104, 111, 117, 116, 32, 105, 116, 115, 32, 115, 99, 104, 101, 109, 97, 58, 32, 97, 32, 108, 105, 110, 101, 32, 102, 111, 114, 32, 101, 97, 99, 104, 32, 111, 98, 106, 101, 99, 116, 44, 32, 119, 105, 116, 104, 32, 105, 116, 115, 10, 32, 32, 32, 32, 32, 32, 32, 32, 32, 32, 32, 32, 32, 112, 97, 116, 104, 44, 32, 105, 116, 115, 32, 112, 108, 97, 99, 101, 44, 32, 105, 116, 115, 32, 115, 105, 122, 101, 115, 32, 97, 110, 100, 32, 105, 116, 115, 32, 100, 97, 116, 97, 44, 32, 97, 110, 100, 32, 96, 114, 101, 102, 117, 115, 101, 100, 32, 78, 65, 77, 69, 96, 32, 119, 104, 101, 114, 101, 32, 97, 32, 112, 111, 105, 110, 116, 101, 114, 32, 105, 115, 32, 119, 114, 111, 110, 103, 10, 32, 32, 45, 45, 106, 115, 111, 110, 32, 32, 32, 32, 32, 97, 115, 32, 74, 83, 79, 78, 44, 32, 111, 110, 101, 32, 108, 105, 110, 101, 32, 102, 111, 114, 32, 101, 97, 99, 104, 32, 109, 101, 115, 115, 97, 103, 101, 10, 32, 32, 45, 45, 118, 97, 108, 117, 101, 115, 32, 32, 32, 119, 105, 116, 104, 111, 117, 116, 32, 112, 108, 97, 99, 101, 115, 44, 32, 115, 111, 32, 116, 104, 97, 116, 32, 101, 113, 117, 97, 108, 32, 118, 97, 108, 117, 101, 115, 32, 97, 114, 101, 32, 115, 104, 111, 119, 110, 32, 97, 108, 105, 107, 101, 10, 32, 32, 45, 45, 99, 111, 108, 111, 114, 32, 32, 32, 32, 119, 105, 116, 104, 32, 99, 111, 108, 111, 114, 115, 44, 32, 102, 111, 114, 32, 97, 32, 116, 101, 114, 109, 105, 110, 97, 108, 10, 32, 32, 45, 45, 100, 101, 112, 116, 104, 32, 78, 32, 32, 102, 111, 108, 108, 111, 119, 115, 32, 97, 116, 32, 109, 111, 115, 116, 32, 78, 32, 112, 111, 105, 110, 116, 101, 114, 115, 32, 98, 101, 108, 111, 119, 32, 116, 104, 101, 32, 102, 105, 114, 115, 116, 32, 111, 110, 101, 32, 40, 100, 101, 102, 97, 117, 108, 116, 32, 54, 52, 41, 10, 32, 32, 45, 45, 98, 121, 116, 101, 115, 32, 78, 32, 32, 119, 114, 105, 116, 101, 115, 32, 97, 116, 32, 109, 111, 115, 116, 32, 78, 32, 98, 121, 116, 101, 115, 32, 105, 110, 32, 97, 108, 108, 32, 40, 100, 101, 102, 97, 117, 108, 116, 32, 49, 48, 55, 51, 55, 52, 49, 56, 50, 52, 44, 32, 119, 104, 105, 99, 104, 32, 105, 115, 32, 49, 32, 71, 105, 66, 41, 59, 32, 110, 111, 110, 101, 32, 102, 111, 114, 32, 110, 111, 32, 108, 105, 109, 105, 116, 10, 100, 105, 102, 102, 32, 32, 32, 32, 32, 32, 32, 32, 32, 119, 114, 105, 116, 101, 115, 32, 119, 104, 101, 114, 101, 32, 116, 104, 101, 32, 118, 97, 108, 117, 101, 115, 32, 111, 102, 32, 116, 119, 111, 32, 102, 105, 108, 101, 115, 39, 32, 109, 101, 115, 115, 97, 103, 101, 115, 32, 100, 105, 102, 102, 101, 114, 32, 102, 105, 114, 115, 116, 44, 32, 97, 110, 100, 32, 98, 111, 116, 104, 32, 118, 97, 108, 117, 101, 115, 32, 116, 104, 101, 114, 101, 44, 32, 97, 115, 10, 32, 32, 32, 32, 32, 32, 32, 32, 32, 32, 32, 32, 32, 115, 104, 111, 119, 32, 45, 45, 106, 115, 111, 110, 32, 45, 45, 118, 97, 108, 117, 101, 115, 32, 119, 114, 105, 116, 101, 115, 32, 116, 104, 101, 109, 58, 32, 96, 109, 101, 115, 115, 97, 103, 101, 32, 78, 58, 32, 80, 65, 84, 72, 96, 44, 32, 96, 60, 32, 86, 65, 76, 85, 69, 96, 44, 32, 96, 62, 32, 86, 65, 76, 85, 69, 96, 10, 32, 32, 45, 45, 113, 117, 105, 101, 116, 32, 32, 32, 32, 119, 114, 105, 116,
        101, 115, 32, 110, 111, 116, 104, 105, 110, 103, 59, 32, 111, 110, 108, 121, 32, 116, 104, 101, 32, 101, 120, 105, 116, 32, 115, 116, 97, 116, 117, 115, 32, 97, 110, 115, 119, 101, 114, 115, 10, 10, 32, 32, 45, 45, 97, 116, 32, 80, 65, 84, 72, 32, 32, 32, 32, 32, 99, 97, 110, 111, 110, 44, 32, 115, 105, 122, 101, 44, 32, 100, 105, 103, 101, 115, 116, 32, 97, 110, 100, 32, 115, 104, 111, 119, 32, 97, 114, 101, 32, 97, 98, 111, 117, 116, 32, 97, 32, 112, 97, 114, 116, 32, 111, 102, 32, 101, 97, 99, 104, 32, 109, 101, 115, 115, 97, 103, 101, 58, 32, 116, 104, 101, 32, 118, 97, 108, 117, 101, 32, 111, 102, 32, 116, 104, 101, 10, 32, 32, 32, 32, 32, 32, 32, 32, 32, 32, 32, 32, 32, 32, 32, 32, 112, 111, 105, 110, 116, 101, 114, 32, 116, 111, 32, 119, 104, 105, 99, 104, 32, 80, 65, 84, 72, 32, 108, 101, 97, 100, 115, 44, 32, 49, 32, 116, 111, 32, 51, 50, 32, 105, 110, 100, 101, 120, 101, 115, 32, 98, 101, 116, 119, 101, 101, 110, 32, 100, 111, 116, 115, 44, 32, 115, 117, 99, 104, 32, 97, 115, 32, 48, 46, 50, 46, 91, 55, 93, 46, 49, 32, 40, 115, 101, 101, 10, 32, 32, 32, 32, 32, 32, 32, 32, 32, 32, 32, 32, 32, 32, 32, 32, 116, 104, 101, 32, 109, 97, 110, 117, 97, 108, 41, 10, 32, 32, 45, 45, 112, 97, 99, 107, 101, 100, 32, 32, 32, 32, 32, 32, 116, 104, 101, 32, 105, 110, 112, 117, 116, 32, 105, 115, 32, 112, 97, 99, 107, 101, 100, 10, 32, 32, 45, 45, 102, 114, 111, 109, 45, 102, 108, 97, 116, 32, 32, 32, 116, 104, 101, 32, 105, 110, 112, 117, 116, 32, 105, 115, 32, 116, 104, 101, 32, 114, 97, 119, 32, 119, 111, 114, 100, 115, 32, 111, 102, 32, 111, 110, 101, 32, 109, 101, 115, 115, 97, 103, 101, 59, 32, 116, 104, 101, 32, 99, 111, 109, 109, 97, 110, 100, 115, 32, 111, 116, 104, 101, 114, 32, 116, 104, 97, 110, 32, 99, 97, 110, 111, 110, 32, 97, 108, 115, 111, 32, 97, 99, 99, 101, 112, 116, 10, 32, 32, 32, 32, 32, 32, 32, 32, 32, 32, 32, 32, 32, 32, 32, 32, 45, 45, 102, 108, 97, 116, 32, 97, 115, 32, 97, 32, 110, 97, 109, 101, 32, 102, 111, 114, 32, 116, 104, 105, 115, 32, 111, 112, 116, 105, 111, 110, 10, 32, 32, 45, 45, 110, 101, 115, 116, 105, 110, 103, 32, 78, 32, 32, 32, 116, 104, 101, 32, 110, 101, 115, 116, 105, 110, 103, 32, 108, 105, 109, 105, 116, 58, 32, 97, 116, 32, 109, 111, 115, 116, 32, 78, 32, 115, 116, 114, 117, 99, 116, 115, 32, 97, 110, 100, 32, 108, 105, 115, 116, 115, 32, 105, 110, 115, 105, 100, 101, 32, 111, 110, 101, 32, 97, 110, 111, 116, 104, 101, 114, 32, 40, 100, 101, 102, 97, 117, 108, 116, 32, 54, 52, 41, 10, 32, 32, 45, 45, 119, 111, 114, 100, 115, 32, 78, 32, 32, 32, 32, 32, 116, 104, 101, 32, 116, 114, 97, 118, 101, 114, 115, 97, 108, 32, 108, 105, 109, 105, 116, 32, 111, 102, 32, 101, 97, 99, 104, 32, 109, 101, 115, 115, 97, 103, 101, 44, 32, 97, 110, 100, 32, 116, 104, 101, 32, 109, 111, 115, 116, 32, 119, 111, 114, 100, 115, 32, 111, 102, 32, 56, 32, 98, 121, 116, 101, 115, 32, 116, 104, 97, 116, 32, 105, 116, 115, 32, 102, 114, 97, 109, 101, 10, 32, 32, 32, 32, 32, 32, 32, 32, 32, 32, 32, 32, 32, 32, 32, 32, 109, 97, 121, 32, 104, 97, 118, 101, 32, 40, 100, 101, 102, 97, 117, 108, 116, 32, 56, 51, 56, 56, 54, 48, 56, 44, 32, 119, 104, 105, 99, 104, 32, 105, 115, 32, 54, 52, 32, 77, 105, 66, 41, 59, 32, 110, 111, 110, 101, 32, 102, 111, 114, 32, 110, 111, 32, 108, 105, 109, 105, 116, 10, 32, 32, 45, 45, 112, 114, 111, 103, 114, 101, 115, 115, 32, 32, 32, 32, 115, 104, 111, 119, 115, 32, 111, 110, 32, 115, 116, 97, 110, 100, 97, 114, 100, 32, 101, 114, 114, 111, 114, 32, 104, 111, 119, 32, 109, 97, 110, 121, 32, 98, 121, 116, 101, 115, 32, 97, 114, 101, 32, 114, 101, 97, 100, 32, 97, 110, 100, 32, 104, 111, 119, 32, 109, 97, 110, 121, 32, 109, 101, 115, 115, 97, 103, 101, 115, 32, 97, 114, 101, 32, 100, 111, 110, 101, 44, 32, 105, 102, 10, 32, 32, 32, 32, 32, 32, 32, 32, 32, 32, 32, 32, 32, 32, 32, 32, 116, 104, 97, 116, 32, 105, 115, 32, 97, 32, 116, 101, 114, 109, 105, 110, 97, 108, 59, 32, 119, 105, 116, 104, 111, 117, 116, 32, 116, 104, 105, 115, 32, 111, 112, 116, 105, 111, 110, 44, 32, 111, 110, 108, 121, 32, 105, 102, 32, 116, 104, 101, 32, 99, 111, 109, 109, 97, 110, 100, 32,
        116, 97, 107, 101, 115, 32, 116, 119, 111, 32, 115, 101, 99, 111, 110, 100, 115, 10, 32, 32, 45, 45, 110, 111, 45, 112, 114, 111, 103, 114, 101, 115, 115, 32, 32, 110, 101, 118, 101, 114, 32, 115, 104, 111, 119, 115, 32, 116, 104, 105, 115, 10, 45, 104, 44, 32, 45, 45, 104, 101, 108, 112, 32, 32, 32, 32, 32, 32, 112, 114, 105, 110, 116, 115, 32, 116, 104, 105, 115, 32, 116, 101, 120, 116, 10, 45, 86, 44, 32, 45, 45, 118, 101, 114, 115, 105, 111, 110, 32, 32, 32, 112, 114, 105, 110, 116, 115, 32, 116, 104, 101, 32, 112, 114, 111, 103, 114, 97, 109, 39, 115, 32, 110, 97, 109, 101, 32, 97, 110, 100, 32, 118, 101, 114, 115, 105, 111, 110, 10, 10, 79, 112, 116, 105, 111, 110, 115, 32, 109, 97, 121, 32, 99, 111, 109, 101, 32, 97, 110, 121, 119, 104, 101, 114, 101, 44, 32, 97, 110, 100, 32, 45, 45, 110, 101, 115, 116, 105, 110, 103, 61, 78, 32, 119, 111, 114, 107, 115, 32, 108, 105, 107, 101, 32, 45, 45, 110, 101, 115, 116, 105, 110, 103, 32, 78, 46, 32, 73, 102, 32, 97, 110, 32, 111, 112, 116, 105, 111, 110, 32, 105, 115, 32, 114, 101, 112, 101, 97, 116, 101, 100, 44, 32, 116, 104, 101, 10, 108, 97, 115, 116, 32, 111, 110, 101, 32, 99, 111, 117, 110, 116, 115, 46, 32, 65, 102, 116, 101, 114, 32, 45, 45, 44, 32, 110, 111, 32, 97, 114, 103, 117, 109, 101, 110, 116, 32, 105, 115, 32, 97, 110, 32, 111, 112, 116, 105, 111, 110, 46, 32, 70, 105, 108, 101, 115, 32, 97, 114, 101, 32, 114, 101, 97, 100, 32, 105, 110, 32, 116, 117, 114, 110, 59, 32, 119, 105, 116, 104, 32, 110, 111, 32, 70, 73, 76, 69, 44, 32, 111, 114, 32, 119, 104, 101, 110, 10, 70, 73, 76, 69, 32, 105, 115, 32, 45, 44, 32, 115, 116, 97, 110, 100, 97, 114, 100, 32, 105, 110, 112, 117, 116, 32, 105, 115, 32, 114, 101, 97, 100, 46, 32, 87, 105, 116, 104, 32, 115, 101, 118, 101, 114, 97, 108, 32, 102, 105, 108, 101, 115, 44, 32, 101, 97, 99, 104, 32, 108, 105, 110, 101, 32, 111, 102, 32, 99, 104, 101, 99, 107, 44, 32, 115, 105, 122, 101, 44, 32, 118, 97, 108, 105, 100, 97, 116, 101, 32, 97, 110, 100, 32, 115, 104, 111, 119, 10, 115, 116, 97, 114, 116, 115, 32, 119, 105, 116, 104, 32, 96, 70, 73, 76, 69, 58, 32, 96, 44, 32, 117, 110, 108, 101, 115, 115, 32, 105, 116, 32, 105, 115, 32, 74, 83, 79, 78, 46, 10, 10, 66, 101, 102, 111, 114, 101, 32, 116, 104, 101, 32, 112, 114, 111, 103, 114, 97, 109, 32, 119, 97, 105, 116, 115, 32, 102, 111, 114, 32, 109, 111, 114, 101, 32, 105, 110, 112, 117, 116, 44, 32, 105, 116, 32, 119, 114, 105, 116, 101, 115, 32, 97, 108, 108, 32, 97, 110, 115, 119, 101, 114, 115, 32, 116, 104, 97, 116, 32, 105, 116, 32, 104, 97, 115, 46, 32, 73, 116, 32, 101, 110, 100, 115, 32, 97, 116, 32, 116, 104, 101, 32, 102, 105, 114, 115, 116, 10, 109, 101, 115, 115, 97, 103, 101, 32, 116, 104, 97, 116, 32, 105, 115, 32, 114, 101, 102, 117, 115, 101, 100, 59, 32, 116, 104, 101, 32, 97, 110, 115, 119, 101, 114, 115, 32, 98, 101, 102, 111, 114, 101, 32, 105, 116, 32, 97, 114, 101, 32, 119, 114, 105, 116, 116, 101, 110, 46, 32, 83, 116, 97, 110, 100, 97, 114, 100, 32, 101, 114, 114, 111, 114, 32, 116, 104, 101, 110, 32, 115, 97, 121, 115, 10, 96, 99, 97, 112, 110, 112, 95, 99, 97, 110, 111, 110, 58, 32, 109, 101, 115, 115, 97, 103, 101, 32, 78, 32, 97, 116, 32, 98, 121, 116, 101, 32, 66, 58, 32, 114, 101, 102, 117, 115, 101, 100, 32, 78, 65, 77, 69, 96, 46, 32, 78, 32, 99, 111, 117, 110, 116, 115, 32, 102, 114, 111, 109, 32, 49, 32, 97, 110, 100, 32, 66, 32, 102, 114, 111, 109, 32, 48, 59, 32, 105, 110, 32, 112, 97, 99, 107, 101, 100, 32, 105, 110, 112, 117, 116, 44, 32, 66, 10, 105, 115, 32, 97, 32, 112, 111, 115, 105, 116, 105, 111, 110, 32, 105, 110, 32, 116, 104, 101, 32, 117, 110, 112, 97, 99, 107, 101, 100, 32, 115, 116, 114, 101, 97, 109, 46, 32, 73, 102, 32, 102, 105, 108, 101, 115, 32, 97, 114, 101, 32, 110, 97, 109, 101, 100, 44, 32, 96, 70, 73, 76, 69, 58, 32, 96, 32, 99, 111, 109, 101, 115, 32, 98, 101, 102, 111, 114, 101, 32, 96, 109, 101, 115, 115, 97, 103, 101, 96, 46, 10, 10, 69, 120, 105, 116, 32, 115, 116, 97, 116, 117, 115, 58, 32, 48, 32, 105, 102, 32, 101, 118, 101, 114, 121, 32, 109, 101, 115, 115, 97, 103, 101, 32, 105, 115, 32,
        97, 110, 115, 119, 101, 114, 101, 100, 32, 97, 110, 100, 44, 32, 119, 105, 116, 104, 32, 99, 104, 101, 99, 107, 44, 32, 99, 97, 110, 111, 110, 105, 99, 97, 108, 59, 32, 49, 32, 105, 102, 32, 99, 104, 101, 99, 107, 32, 102, 111, 117, 110, 100, 32, 111, 110, 101, 32, 116, 104, 97, 116, 10, 105, 115, 110, 39, 116, 44, 32, 100, 105, 103, 101, 115, 116, 32, 45, 45, 99, 104, 101, 99, 107, 32, 111, 110, 101, 32, 116, 104, 97, 116, 32, 102, 97, 105, 108, 101, 100, 32, 111, 114, 32, 97, 32, 108, 105, 115, 116, 32, 119, 105, 116, 104, 111, 117, 116, 32, 108, 105, 110, 101, 115, 44, 32, 115, 104, 111, 119, 32, 97, 32, 112, 111, 105, 110, 116, 101, 114, 32, 116, 104, 97, 116, 32, 105, 115, 32, 119, 114, 111, 110, 103, 44, 32, 111, 114, 32, 100, 105, 102, 102, 10, 116, 119, 111, 32, 109, 101, 115, 115, 97, 103, 101, 115, 32, 116, 104, 97, 116, 32, 100, 105, 102, 102, 101, 114, 59, 32, 50, 32, 105, 102, 32, 97, 32, 109, 101, 115, 115, 97, 103, 101, 32, 105, 115, 32, 114, 101, 102, 117, 115, 101, 100, 44, 32, 97, 32, 102, 105, 108, 101, 32, 99, 97, 110, 39, 116, 32, 98, 101, 32, 111, 112, 101, 110, 101, 100, 44, 32, 116, 104, 101, 32, 97, 114, 103, 117, 109, 101, 110, 116, 115, 32, 97, 114, 101, 10, 119, 114, 111, 110, 103, 44, 32, 115, 104, 111, 119, 32, 119, 111, 117, 108, 100, 32, 119, 114, 105, 116, 101, 32, 109, 111, 114, 101, 32, 116, 104, 97, 110, 32, 45, 45, 98, 121, 116, 101, 115, 32, 97, 108, 108, 111, 119, 115, 44, 32, 111, 114, 32, 114, 101, 97, 100, 105, 110, 103, 32, 111, 114, 32, 119, 114, 105, 116, 105, 110, 103, 32, 102, 97, 105, 108, 101, 100, 46 };
static const u8 g_static_4[17] = "capnp_canon 1.1.0";
static const u8 g_static_7[1] = "\n";
static const u8 g_static_8[28] = "failed to write whole buffer";
static const u8 g_static_9[4] = "    ";
static const u8 g_static_11[10] = "--progress";
static const u8 g_static_12[13] = "--no-progress";
static const u8 g_static_13[8] = "--schema";
static const u8 g_static_14[2] = "--";
static const u8 g_static_16[42] = { 0, 0, 1, 0, 2, 0, 3, 0, 4, 0, 5, 0, 5, 1, 5, 2, 5, 3, 5, 4, 5, 5, 5, 6, 5, 7, 5, 8, 5, 9, 5, 10, 6, 0, 6, 1, 6, 2, 6, 3, 6, 4 };
static const u8 g_static_17[6] = "--help";
static const u8 g_static_18[2] = "-h";
static const u8 g_static_19[9] = "--version";
static const u8 g_static_20[2] = "-V";
static const u8 g_static_21[8] = "--packed";
static const u8 g_static_22[6] = "--pack";
static const u8 g_static_23[6] = "--flat";
static const u8 g_static_24[11] = "--from-flat";
static const u8 g_static_25[5] = "--hex";
static const u8 g_static_26[7] = "--quiet";
static const u8 g_static_27[7] = "--check";
static const u8 g_static_28[2] = "-c";
static const u8 g_static_29[6] = "--json";
static const u8 g_static_30[8] = "--values";
static const u8 g_static_31[7] = "--color";
static const u8 g_static_32[9] = "--nesting";
static const u8 g_static_33[7] = "--words";
static const u8 g_static_34[4] = "--at";
static const u8 g_static_35[7] = "--depth";
static const u8 g_static_36[7] = "--bytes";
static const u8 g_static_37[4] = "none";
static const u8 g_static_38[5] = "canon";
static const u8 g_static_39[5] = "check";
static const u8 g_static_40[4] = "size";
static const u8 g_static_41[6] = "digest";
static const u8 g_static_42[8] = "validate";
static const u8 g_static_43[4] = "show";
static const u8 g_static_44[4] = "diff";
static const u8 g_static_45[15] = "missing command";
static const u8 g_static_46[17] = "unknown command '";
static const u8 g_static_47[1] = "'";
static const u8 g_static_48[21] = "unrecognized option '";
static const u8 g_static_49[8] = "option '";
static const u8 g_static_50[15] = "' needs a value";
static const u8 g_static_51[23] = "' doesn't allow a value";
static const u8 g_static_52[17] = "' has no option '";
static const u8 g_static_53[26] = "' can't be combined with '";
static const u8 g_static_54[9] = "' needs '";
static const u8 g_static_55[28] = "capnp_canon: invalid value '";
static const u8 g_static_56[6] = "' for ";
static const u8 g_static_57[13] = "capnp_canon: ";
static const u8 g_static_58[24] = "capnp_canon: write error";
static const struct { struct place p0; u8 p1[32]; } g_static_60[1] = { { PLACE((const u8 *)g_static_60 + 16), { 24, 0, 0, 0, 0, 0, 0, 0, 99, 97, 112, 110, 112, 95, 99, 97, 110, 111, 110, 58, 32, 119, 114, 105, 116, 101, 32, 101, 114, 114, 111, 114 } } };
static const u8 g_static_61[2] = ": ";
static const u8 g_static_62[11] = " (os error ";
static const u8 g_static_63[1] = ")";
static const u8 g_static_64[1] = "-";
static const u8 g_static_66[16] = "entity not found";
static const u8 g_static_67[17] = "permission denied";
static const u8 g_static_68[18] = "connection refused";
static const u8 g_static_69[16] = "connection reset";
static const u8 g_static_70[16] = "host unreachable";
static const u8 g_static_71[19] = "network unreachable";
static const u8 g_static_72[18] = "connection aborted";
static const u8 g_static_73[13] = "not connected";
static const u8 g_static_74[14] = "address in use";
static const u8 g_static_75[21] = "address not available";
static const u8 g_static_76[12] = "network down";
static const u8 g_static_77[11] = "broken pipe";
static const u8 g_static_78[21] = "entity already exists";
static const u8 g_static_79[21] = "operation would block";
static const u8 g_static_80[15] = "not a directory";
static const u8 g_static_81[14] = "is a directory";
static const u8 g_static_82[19] = "directory not empty";
static const u8 g_static_83[38] = "read-only filesystem or storage medium";
static const u8 g_static_84[56] = "filesystem loop or indirection limit (e.g. symlink loop)";
static const u8 g_static_85[25] = "stale network file handle";
static const u8 g_static_86[23] = "invalid input parameter";
static const u8 g_static_87[12] = "invalid data";
static const u8 g_static_88[9] = "timed out";
static const u8 g_static_89[10] = "write zero";
static const u8 g_static_90[16] = "no storage space";
static const u8 g_static_91[23] = "seek on unseekable file";
static const u8 g_static_92[14] = "quota exceeded";
static const u8 g_static_93[14] = "file too large";
static const u8 g_static_94[13] = "resource busy";
static const u8 g_static_95[20] = "executable file busy";
static const u8 g_static_96[8] = "deadlock";
static const u8 g_static_97[27] = "cross-device link or rename";
static const u8 g_static_98[14] = "too many links";
static const u8 g_static_99[16] = "invalid filename";
static const u8 g_static_100[22] = "argument list too long";
static const u8 g_static_101[21] = "operation interrupted";
static const u8 g_static_102[11] = "unsupported";
static const u8 g_static_103[22] = "unexpected end of file";
static const u8 g_static_104[13] = "out of memory";
static const u8 g_static_105[11] = "in progress";
static const u8 g_static_106[11] = "other error";
static const u8 g_static_107[19] = "uncategorized error";
static const u8 g_static_108[39] = "the clock reads a time before its start";
static const u8 g_static_109[35] = "the clock reads a time past its end";
static const u8 g_static_110[13] = ": no struct '";
static const u8 g_static_111[25] = ": not a compiled schema: ";
static const u8 g_static_112[42] = "file name contained an unexpected NUL byte";
static const u8 g_static_116[43] = "gave up reading or writing after 2^64 tries";
static const u8 g_static_117[16] = "TooManySegments(";
static const u8 g_static_118[15] = "MessageTooLong(";
static const u8 g_static_119[10] = "NoSegments";
static const u8 g_static_120[15] = "TooManySegments";
static const u8 g_static_121[14] = "MessageTooLong";
static const u8 g_static_122[9] = "Truncated";
static const u8 g_static_123[10] = "ReadFailed";
static const u8 g_static_124[11] = "WriteFailed";
static const u8 g_static_125[16] = "AllocationFailed";
static const struct { struct place p0; u8 p1[16]; } g_static_126[1] = { { PLACE((const u8 *)g_static_126 + 16), { 3, 0, 0, 0, 0, 0, 0, 0, 46, 46, 46, 0, 0, 0, 0, 0 } } };
static const u8 g_static_132[17] = "InvalidSegmentId(";
static const u8 g_static_133[16] = "MessageTooLarge(";
static const u8 g_static_134[44] = "CannotCreateACanonicalMessageWithACapability";
static const u8 g_static_135[34] = "CantHandleNonStructInlineComposite";
static const u8 g_static_136[33] = "ExistingListPointerIsNotByteSized";
static const u8 g_static_137[47] = "ExistingListValueIsIncompatibleWithExpectedType";
static const u8 g_static_138[25] = "ExistingPointerIsNotAList";
static const u8 g_static_139[48] = "ExpectedAPointerListButGotAListOfDataOnlyStructs";
static const u8 g_static_140[53] = "ExpectedAPrimitiveListButGotAListOfPointerOnlyStructs";
static const u8 g_static_141[38] = "FoundBitListWhereStructListWasExpected";
static const u8 g_static_142[38] = "FoundStructListWhereBitListWasExpected";
static const u8 g_static_143[47] = "InlineCompositeListsElementsOverrunItsWordCount";
static const u8 g_static_144[50] = "InlineCompositeListsOfNonStructTypeAreNotSupported";
static const u8 g_static_145[16] = "InvalidSegmentId";
static const u8 g_static_146[25] = "MalformedDoubleFarPointer";
static const u8 g_static_147[56] = "MessageContainsListPointerOfNonBytesWhereDataWasExpected";
static const u8 g_static_148[56] = "MessageContainsListPointerOfNonBytesWhereTextWasExpected";
static const u8 g_static_149[46] = "MessageContainsListWithIncompatibleElementType";
static const u8 g_static_150[68] = "MessageContainsNonCapabilityPointerWhereCapabilityPointerWasExpected";
static const u8 g_static_151[49] = "MessageContainsNonListPointerWhereDataWasExpected";
static const u8 g_static_152[56] = "MessageContainsNonListPointerWhereListPointerWasExpected";
static const u8 g_static_153[49] = "MessageContainsNonListPointerWhereTextWasExpected";
static const u8 g_static_154[60] = "MessageContainsNonStructPointerWhereStructPointerWasExpected";
static const u8 g_static_155[36] = "MessageContainsNullCapabilityPointer";
static const u8 g_static_156[33] = "MessageContainsOutOfBoundsPointer";
static const u8 g_static_157[41] = "MessageContainsTextThatIsNotNULTerminated";
static const u8 g_static_158[24] = "MessageIsTooDeeplyNested";
static const u8 g_static_159[40] = "MessageIsTooDeeplyNestedOrContainsCycles";
static const u8 g_static_160[15] = "MessageTooLarge";
static const u8 g_static_161[20] = "NestingLimitExceeded";
static const u8 g_static_162[11] = "NoSuchPlace";
static const u8 g_static_163[17] = "ReadLimitExceeded";
static const u8 g_static_164[28] = "TextBlobMissingNULTerminator";
static const u8 g_static_165[24] = "TriedToReadFromNullArena";
static const u8 g_static_166[20] = "UnexpectedFarPointer";
static const u8 g_static_167[18] = "UnknownPointerType";
static const u8 g_static_168[12] = "an interface";
static const u8 g_static_169[13] = "an annotation";
static const u8 g_static_170[32] = "a declaration of an unknown kind";
static const struct { u8 p0[8]; struct place p1; u8 p2[8]; struct place p3; u8 p4[40]; } g_static_171[1] = { { { 10, 0, 0, 0, 0, 0, 0, 0 }, PLACE((const u8 *)g_static_171 + 56), { 10, 0, 0, 0, 0, 0, 0, 0 }, PLACE((const u8 *)g_static_171 + 66), { 2, 0, 0, 0, 0, 0, 0, 0, 0, 0, 0, 0, 0, 0, 0, 0, 255, 255, 255, 255, 255, 255, 255, 255, 65, 110, 121, 80, 111, 105, 110, 116, 101, 114, 40, 41, 0, 0, 0, 0 } } };
static const struct { u8 p0[8]; struct place p1; u8 p2[8]; struct place p3; u8 p4[40]; } g_static_172[1] = { { { 10, 0, 0, 0, 0, 0, 0, 0 }, PLACE((const u8 *)g_static_172 + 56), { 9, 0, 0, 0, 0, 0, 0, 0 }, PLACE((const u8 *)g_static_172 + 65), { 2, 0, 0, 0, 0, 0, 0, 0, 0, 0, 0, 0, 0, 0, 0, 0, 255, 255, 255, 255, 255, 255, 255, 255, 65, 110, 121, 83, 116, 114, 117, 99, 116, 40, 41, 0, 0, 0, 0, 0 } } };
static const struct { u8 p0[8]; struct place p1; u8 p2[8]; struct place p3; u8 p4[40]; } g_static_173[1] = { { { 10, 0, 0, 0, 0, 0, 0, 0 }, PLACE((const u8 *)g_static_173 + 56), { 7, 0, 0, 0, 0, 0, 0, 0 }, PLACE((const u8 *)g_static_173 + 63), { 2, 0, 0, 0, 0, 0, 0, 0, 0, 0, 0, 0, 0, 0, 0, 0, 255, 255, 255, 255, 255, 255, 255, 255, 65, 110, 121, 76, 105, 115, 116, 40, 41, 0, 0, 0, 0, 0, 0, 0 } } };
static const struct { u8 p0[8]; struct place p1; u8 p2[8]; struct place p3; u8 p4[40]; } g_static_174[1] = { { { 10, 0, 0, 0, 0, 0, 0, 0 }, PLACE((const u8 *)g_static_174 + 56), { 10, 0, 0, 0, 0, 0, 0, 0 }, PLACE((const u8 *)g_static_174 + 66), { 2, 0, 0, 0, 0, 0, 0, 0, 0, 0, 0, 0, 0, 0, 0, 0, 255, 255, 255, 255, 255, 255, 255, 255, 67, 97, 112, 97, 98, 105, 108, 105, 116, 121, 40, 41, 0, 0, 0, 0 } } };
static const struct { u8 p0[8]; struct place p1; u8 p2[8]; struct place p3; u8 p4[32]; struct place p5; u8 p6[8]; struct place p7; u8 p8[32]; struct place p9; u8 p10[8]; struct place p11; u8 p12[32]; struct place p13; u8 p14[8]; struct place p15; u8 p16[32]; struct place p17; u8 p18[8]; struct place p19; u8 p20[32]; struct place p21; u8 p22[8]; struct place p23; u8 p24[32]; struct place p25; u8 p26[8]; struct place p27; u8 p28[32]; struct place p29; u8 p30[8]; struct place p31; u8 p32[32]; struct place p33; u8 p34[8]; struct place p35; u8 p36[32]; struct place p37; u8 p38[8]; struct place p39; u8 p40[32]; struct place p41; u8 p42[8]; struct place p43; u8 p44[32]; struct place p45; u8 p46[8]; struct place p47; u8 p48[32]; struct place p49; u8 p50[8]; struct place p51; u8 p52[32]; struct place p53; u8 p54[8]; struct place p55; u8 p56[32]; struct place p57; u8 p58[8]; struct place p59; u8 p60[32]; struct place p61; u8 p62[8]; struct place p63; u8 p64[32]; struct place p65; u8 p66[8]; struct place p67; u8 p68[32]; struct place p69; u8 p70[8]; struct place p71; u8 p72[136]; } g_static_175[1] = { { { 0 }, PLACE((const u8 *)g_static_175 + 1008), { 4, 0, 0, 0, 0, 0, 0, 0 }, PLACE((const u8 *)g_static_175 + 1012), { 2, 0, 0, 0, 0, 0, 0, 0, 0, 0, 0, 0, 0, 0, 0, 0, 255, 255, 255, 255, 255, 255, 255, 255, 1, 0, 0, 0, 0, 0, 0, 0 }, PLACE((const u8 *)g_static_175 + 1014), { 4, 0, 0, 0, 0, 0, 0, 0 }, PLACE((const u8 *)g_static_175 + 1018), { 4, 0, 0, 0, 0, 0, 0, 0, 1, 0, 0, 0, 0, 0, 0, 0, 255, 255, 255, 255, 255, 255, 255, 255, 2, 0, 0, 0, 0, 0, 0, 0 }, PLACE((const u8 *)g_static_175 + 1022), { 4, 0, 0, 0, 0, 0, 0, 0 }, PLACE((const u8 *)g_static_175 + 1026), { 2, 0, 0, 0, 0, 0, 0, 0, 8, 0, 0, 0, 0, 0, 0, 0, 127, 0, 0, 0, 0, 0, 0, 0, 2, 0, 0, 0, 0, 0, 0, 0 }, PLACE((const u8 *)g_static_175 + 1028), { 5, 0, 0, 0, 0, 0, 0, 0 }, PLACE((const u8 *)g_static_175 + 1033), { 3, 0, 0, 0, 0, 0, 0, 0, 16, 0, 0, 0, 0, 0, 0, 0, 255, 127, 0, 0, 0, 0, 0, 0, 2, 0, 0, 0, 0, 0, 0, 0 }, PLACE((const u8 *)g_static_175 + 1036), { 5, 0, 0, 0, 0, 0, 0, 0 }, PLACE((const u8 *)g_static_175 + 1041), { 3, 0, 0, 0, 0, 0, 0, 0, 32, 0, 0, 0, 0, 0, 0, 0, 255, 255, 255, 127, 0, 0, 0, 0, 2, 0, 0, 0, 0, 0, 0, 0 }, PLACE((const u8 *)g_static_175 + 1044), { 5, 0, 0, 0, 0, 0, 0, 0 }, PLACE((const u8 *)g_static_175 + 1049), { 3, 0, 0, 0, 0, 0, 0, 0, 64, 0, 0, 0, 0, 0, 0, 0, 255, 255, 255, 255, 255, 255, 255, 127, 3, 0, 0, 0, 0, 0, 0, 0 }, PLACE((const u8 *)g_static_175 + 1052), { 5, 0, 0, 0, 0, 0, 0, 0 }, PLACE((const u8 *)g_static_175 + 1057), { 2, 0, 0, 0, 0, 0, 0, 0, 8, 0, 0, 0, 0, 0, 0, 0, 255, 255, 255, 255, 255, 255, 255, 255, 3, 0, 0, 0, 0, 0, 0, 0 }, PLACE((const u8 *)g_static_175 + 1059), { 6, 0, 0, 0, 0, 0, 0, 0 }, PLACE((const u8 *)g_static_175 + 1065), { 3, 0, 0, 0, 0, 0, 0, 0, 16, 0, 0, 0, 0, 0, 0, 0, 255, 255, 255, 255, 255, 255, 255, 255, 3, 0, 0, 0, 0, 0, 0, 0 }, PLACE((const u8 *)g_static_175 + 1068), { 6, 0, 0, 0, 0, 0, 0, 0 }, PLACE((const u8 *)g_static_175 + 1074), { 3, 0, 0, 0, 0, 0, 0, 0, 32, 0, 0, 0, 0, 0, 0, 0, 255, 255, 255, 255, 255, 255, 255, 255, 3, 0, 0, 0, 0, 0, 0, 0 }, PLACE((const u8 *)g_static_175 + 1077), { 6, 0, 0, 0, 0, 0, 0, 0 }, PLACE((const u8 *)g_static_175 + 1083), { 3, 0, 0, 0, 0, 0, 0, 0, 64, 0, 0, 0, 0, 0, 0, 0, 255, 255, 255, 255, 255, 255, 255, 255, 4, 0, 0, 0, 0, 0, 0, 0 }, PLACE((const u8 *)g_static_175 + 1086), { 7, 0, 0, 0, 0, 0, 0, 0 }, PLACE((const u8 *)g_static_175 + 1074), { 3, 0, 0, 0, 0, 0, 0, 0, 32, 0, 0, 0, 0, 0, 0, 0, 255, 255, 255, 255, 255, 255, 255, 255, 4, 0, 0, 0, 0, 0, 0, 0 }, PLACE((const u8 *)g_static_175 + 1093), { 7, 0, 0, 0, 0, 0, 0, 0 }, PLACE((const u8 *)g_static_175 + 1083), { 3, 0, 0, 0, 0, 0, 0, 0, 64, 0, 0, 0, 0, 0, 0, 0, 255, 255, 255, 255, 255, 255, 255, 255, 6, 0, 0, 0, 0, 0, 0, 0 }, PLACE((const u8 *)g_static_175 + 1100), { 4, 0, 0, 0, 0, 0, 0, 0 }, PLACE((const u8 *)g_static_175 + 1012), { 2, 0, 0, 0, 0, 0, 0, 0, 0, 0, 0, 0, 0, 0, 0, 0, 255, 255, 255, 255, 255, 255, 255, 255, 7, 0, 0, 0, 0, 0, 0, 0 }, PLACE((const u8 *)g_static_175 + 1104), { 4, 0, 0, 0, 0, 0, 0, 0 }, PLACE((const u8
        *)g_static_175 + 1012), { 2, 0, 0, 0, 0, 0, 0, 0, 0, 0, 0, 0, 0, 0, 0, 0, 255, 255, 255, 255, 255, 255, 255, 255, 10, 0, 0, 0, 0, 0, 0, 0 }, PLACE((const u8 *)g_static_175 + 1108), { 10, 0, 0, 0, 0, 0, 0, 0 }, PLACE((const u8 *)g_static_175 + 1012), { 2, 0, 0, 0, 0, 0, 0, 0, 0, 0, 0, 0, 0, 0, 0, 0, 255, 255, 255, 255, 255, 255, 255, 255, 5, 0, 0, 0, 0, 0, 0, 0 }, PLACE((const u8 *)g_static_175 + 1118), { 0 }, PLACE((const u8 *)g_static_175 + 1065), { 3, 0, 0, 0, 0, 0, 0, 0, 16, 0, 0, 0, 0, 0, 0, 0, 255, 255, 255, 255, 255, 255, 255, 255, 8, 0, 0, 0, 0, 0, 0, 0 }, PLACE((const u8 *)g_static_175 + 1118), { 0 }, PLACE((const u8 *)g_static_175 + 1012), { 2, 0, 0, 0, 0, 0, 0, 0, 0, 0, 0, 0, 0, 0, 0, 0, 255, 255, 255, 255, 255, 255, 255, 255, 9, 0, 0, 0, 0, 0, 0, 0 }, PLACE((const u8 *)g_static_175 + 1118), { 0 }, PLACE((const u8 *)g_static_175 + 1012), { 2, 0, 0, 0, 0, 0, 0, 0, 0, 0, 0, 0, 0, 0, 0, 0, 255, 255, 255, 255, 255, 255, 255, 255, 86, 111, 105, 100, 40, 41, 66, 111, 111, 108, 98, 111, 111, 108, 73, 110, 116, 56, 105, 56, 73, 110, 116, 49, 54, 105, 49, 54, 73, 110, 116, 51, 50, 105, 51, 50, 73, 110, 116, 54, 52, 105, 54, 52, 85, 73, 110, 116, 56, 117, 56, 85, 73, 110, 116, 49, 54, 117, 49, 54, 85, 73, 110, 116, 51, 50, 117, 51, 50, 85, 73, 110, 116, 54, 52, 117, 54, 52, 70, 108, 111, 97, 116, 51, 50, 70, 108, 111, 97, 116, 54, 52, 84, 101, 120, 116, 68, 97, 116, 97, 65, 110, 121, 80, 111, 105, 110, 116, 101, 114, 0, 0 } } };
static const u8 g_static_179[1] = ".";
static const u8 g_static_180[4] = " or ";
static const u8 g_static_181[10] = "AnyPointer";
static const u8 g_static_182[9] = "AnyStruct";
static const u8 g_static_183[7] = "AnyList";
static const u8 g_static_184[10] = "Capability";
static const u8 g_static_185[7] = ": ... (";
static const u8 g_static_186[10] = " left out)";
static const u8 g_static_187[51] = "capnp_canon: 1 listed message is missing or differs";
static const u8 g_static_188[38] = " listed messages are missing or differ";
static const struct { struct place p0; u8 p1[32]; } g_static_189[1] = { { PLACE((const u8 *)g_static_189 + 16), { 20, 0, 0, 0, 0, 0, 0, 0, 116, 104, 101, 32, 108, 105, 115, 116, 32, 105, 115, 110, 39, 116, 32, 85, 84, 70, 45, 56, 0, 0, 0, 0 } } };
static const u8 g_static_190[2] = "  ";
static const u8 g_static_192[14] = { 13, 99, 97, 112, 110, 112, 95, 99, 97, 110, 111, 110, 58, 32 };
static const u8 g_static_193[5] = " MB, ";
static const u8 g_static_194[8] = { 32, 77, 66, 47, 115, 27, 91, 75 };
static const u8 g_static_195[16] = " MB, 1 message, ";
static const u8 g_static_196[11] = " messages, ";
static const u8 g_static_197[16] = "0123456789abcdef";
static const u8 g_static_198[10] = "canonical\n";
static const u8 g_static_199[15] = "not canonical: ";
static const u8 g_static_200[35] = "a number of segments other than one";
static const u8 g_static_201[33] = "no word where a pointer should be";
static const u8 g_static_202[13] = "a far pointer";
static const u8 g_static_203[12] = "a capability";
static const u8 g_static_204[28] = "a pointer of an unknown kind";
static const u8 g_static_205[57] = "a pointer to an empty struct with an offset other than -1";
static const u8 g_static_206[56] = "a pointer to an object that isn't directly next in order";
static const u8 g_static_207[31] = "a list whose padding isn't zero";
static const u8 g_static_208[38] = "a data section whose last word is zero";
static const u8 g_static_209[44] = "a pointer section whose last pointer is null";
static const u8 g_static_210[72] = "a list of structs whose pointer claims more words than its elements take";
static const u8 g_static_211[61] = "a list of structs with more data words than any element needs";
static const u8 g_static_212[59] = "a list of structs with more pointers than any element needs";
static const u8 g_static_213[21] = "words after the value";
static const u8 g_static_214[12] = " at segment ";
static const u8 g_static_215[7] = ", word ";
static const u8 g_static_216[6] = "words ";
static const u8 g_static_217[6] = " caps ";
static const u8 g_static_218[256] = { 152, 47, 138, 66, 145, 68, 55, 113, 207, 251, 192, 181, 165, 219, 181, 233, 91, 194, 86, 57, 241, 17, 241, 89, 164, 130, 63, 146, 213, 94, 28, 171, 152, 170, 7, 216, 1, 91, 131, 18, 190, 133, 49, 36, 195, 125, 12, 85, 116, 93, 190, 114, 254, 177, 222, 128, 167, 6, 220, 155, 116, 241, 155, 193, 193, 105, 155, 228, 134, 71, 190, 239, 198, 157, 193, 15, 204, 161, 12, 36, 111, 44, 233, 45, 170, 132, 116, 74, 220, 169, 176, 92, 218, 136, 249, 118, 82, 81, 62, 152, 109, 198, 49, 168, 200, 39, 3, 176, 199, 127, 89, 191, 243, 11, 224, 198, 71, 145, 167, 213, 81, 99, 202, 6, 103, 41, 41, 20, 133, 10, 183, 39, 56, 33, 27, 46, 252, 109, 44, 77, 19, 13, 56, 83, 84, 115, 10, 101, 187, 10, 106, 118, 46, 201, 194, 129, 133, 44, 114, 146, 161, 232, 191, 162, 75, 102, 26, 168, 112, 139, 75, 194, 163, 81, 108, 199, 25, 232, 146, 209, 36, 6, 153, 214, 133, 53, 14, 244, 112, 160, 106, 16, 22, 193, 164, 25, 8, 108, 55, 30, 76, 119, 72, 39, 181, 188, 176, 52, 179, 12, 28, 57, 74, 170, 216, 78, 79, 202, 156, 91, 243, 111, 46, 104, 238, 130, 143, 116, 111, 99, 165, 120, 20, 120, 200, 132, 8, 2, 199, 140, 250, 255, 190, 144, 235, 108, 80, 164, 247, 163, 249, 190, 242, 120, 113, 198 };
static const u8 g_static_219[64] = { 128, 0, 0, 0, 0, 0, 0, 0, 0, 0, 0, 0, 0, 0, 0, 0, 0, 0, 0, 0, 0, 0, 0, 0, 0, 0, 0, 0, 0, 0, 0, 0, 0, 0, 0, 0, 0, 0, 0, 0, 0, 0, 0, 0, 0, 0, 0, 0, 0, 0, 0, 0, 0, 0, 0, 0, 0, 0, 0, 0, 0, 0, 0, 0 };
static const u8 g_static_220[13] = "sound: depth ";
static const u8 g_static_221[8] = ", words ";
static const u8 g_static_222[15] = ", capabilities ";
static const u8 g_static_223[11] = "{\"message\":";
static const u8 g_static_224[12] = ",\"segments\":";
static const u8 g_static_225[9] = ",\"words\":";
static const u8 g_static_226[8] = ",\"root\":";
static const u8 g_static_227[4] = "null";
static const u8 g_static_229[11] = "\"pointer\":[";
static const u8 g_static_230[14] = "\"double_far\":[";
static const u8 g_static_231[7] = "\"far\":[";
static const u8 g_static_233[2] = "],";
static const u8 g_static_235[6] = "\"at\":[";
static const u8 g_static_236[13] = "\"capability\":";
static const u8 g_static_237[7] = "\"void\":";
static const u8 g_static_238[7] = "\"text\":";
static const u8 g_static_240[9] = "\"bytes\":\"";
static const u8 g_static_241[2] = "\"}";
static const u8 g_static_242[2] = "]}";
static const u8 g_static_243[8] = "\"bits\":[";
static const u8 g_static_244[7] = "\"u16\":[";
static const u8 g_static_245[7] = "\"u32\":[";
static const u8 g_static_246[7] = "\"u64\":[";
static const u8 g_static_247[8] = "\"data\":\"";
static const u8 g_static_248[2] = "\",";
static const u8 g_static_249[14] = "\"cut\":\"depth\"}";
static const u8 g_static_250[8] = "\"list\":[";
static const u8 g_static_251[12] = "\"pointers\":[";
static const u8 g_static_252[11] = "\"structs\":[";
static const u8 g_static_253[13] = "\"data_words\":";
static const u8 g_static_254[17] = ",\"pointer_count\":";
static const u8 g_static_255[8] = "\"count\":";
static const u8 g_static_256[11] = "\"refused\":\"";
static const u8 g_static_257[2] = "}\n";
static const u8 g_static_258[17] = "{\"cut\":\"length\"}\n";
static const u8 g_static_259[8] = "message ";
static const u8 g_static_260[11] = ": segments ";
static const u8 g_static_261[2] = { 27, 91 };
static const u8 g_static_263[4] = "root";
static const u8 g_static_266[4] = { 27, 91, 48, 109 };
static const u8 g_static_267[1] = " ";
static const u8 g_static_268[1] = ":";
static const u8 g_static_269[7] = " double";
static const u8 g_static_270[4] = " far";
static const u8 g_static_271[5] = " null";
static const u8 g_static_272[12] = " capability ";
static const u8 g_static_273[6] = " void ";
static const u8 g_static_274[6] = " bits ";
static const u8 g_static_275[7] = " bytes ";
static const u8 g_static_276[5] = " u16 ";
static const u8 g_static_277[5] = " u32 ";
static const u8 g_static_278[5] = " u64 ";
static const u8 g_static_279[3] = " at";
static const u8 g_static_280[2] = "..";
static const u8 g_static_281[7] = " struct";
static const u8 g_static_282[7] = ", data ";
static const u8 g_static_283[11] = ", pointers ";
static const u8 g_static_284[4] = ": 0x";
static const u8 g_static_285[3] = " 0x";
static const u8 g_static_286[10] = " pointers ";
static const u8 g_static_287[9] = " structs ";
static const u8 g_static_288[13] = "cut at depth ";
static const u8 g_static_289[21] = "cut after 64 elements";
static const u8 g_static_290[8] = "refused ";
static const u8 g_static_291[27] = { 27, 91, 48, 109, 10, 99, 117, 116, 32, 97, 116, 32, 54, 55, 49, 48, 56, 56, 54, 52, 32, 98, 121, 116, 101, 115, 10 };
static const u8 g_static_292[23] = "\n"
    "cut at 67108864 bytes\n";
static const u8 g_static_293[256] = { 0, 0, 0, 0, 0, 0, 0, 0, 0, 0, 0, 0, 0, 0, 0, 0, 1, 0, 0, 0, 0, 0, 0, 0, 0, 0, 0, 0, 0, 0, 0, 0, 0, 1, 0, 0, 0, 0, 0, 0, 0, 0, 0, 0, 0, 0, 0, 0, 1, 0, 0, 0, 0, 1, 0, 0, 0, 0, 0, 0, 0, 0, 0, 0, 0, 0, 1, 0, 0, 0, 0, 0, 0, 0, 0, 0, 0, 0, 0, 0, 1, 0, 0, 0, 0, 0, 1, 0, 0, 0, 0, 0, 0, 0, 0, 0, 0, 1, 0, 0, 0, 0, 1, 0, 0, 0, 0, 0, 0, 0, 0, 0, 1, 0, 0, 0, 0, 1, 0, 0, 0, 0, 1, 0, 0, 0, 0, 0, 0, 0, 0, 1, 0, 0, 0, 0, 0, 0, 0, 0, 0, 0, 0, 0, 1, 0, 0, 0, 0, 0, 0, 1, 0, 0, 0, 0, 0, 0, 0, 0, 0, 1, 0, 0, 0, 0, 0, 1, 0, 0, 0, 0, 0, 0, 0, 0, 1, 0, 0, 0, 0, 1, 0, 0, 0, 0, 0, 1, 0, 0, 0, 0, 0, 0, 1, 0, 0, 0, 0, 1, 0, 0, 0, 0, 0, 0, 0, 0, 1, 0, 0, 0, 0, 0, 1, 0, 0, 0, 0, 1, 0, 0, 0, 0, 0, 1, 0, 0, 0, 0, 1, 0, 0, 0, 0, 1, 0, 0, 0, 0, 1, 0, 0, 0, 0, 1, 0, 0, 0, 0, 1, 0, 0, 0, 0, 1 };
static const u8 g_static_294[1] = { 0 };
static const u8 g_static_295[9] = "conforms\n";
static const u8 g_static_296[5] = ", in ";
static const u8 g_static_297[13] = ", in pointer ";
static const u8 g_static_298[4] = " of ";
static const u8 g_static_299[9] = " at byte ";
static const u8 g_static_300[10] = ": refused ";
static const u8 g_static_301[21] = "the input looks like ";
static const u8 g_static_302[15] = "TooManyMessages";
static const u8 g_static_303[4] = "gzip";
static const u8 g_static_304[4] = "zstd";
static const u8 g_static_305[5] = "bzip2";
static const u8 g_static_306[2] = "xz";
static const u8 g_static_307[13] = "a zip archive";
static const u8 g_static_308[4] = "text";
static const u8 g_static_309[44] = "frames that are neither packed nor raw words";
static const u8 g_static_310[37] = "packed messages, which --packed reads";
static const u8 g_static_311[34] = "raw words, which --from-flat reads";
static const u8 g_static_312[4] = { 13, 27, 91, 75 };
static const u8 g_static_313[5] = ": OK\n";
static const u8 g_static_314[9] = ": FAILED\n";
static const u8 g_static_315[1] = "\\";
static const u8 g_static_316[2] = "\\\\";
static const u8 g_static_317[2] = "\\n";
static const u8 g_static_318[2] = "\\r";
static const u8 g_static_319[25] = ": no line names a message";
static const u8 g_static_320[7] = ": line ";
static const u8 g_static_321[29] = " is not as `digest` writes it";
static const u8 g_static_322[5] = " and ";
static const u8 g_static_323[37] = " more are not as `digest` writes them";
static const u8 g_static_324[33] = "failed to write the buffered data";
static const u8 g_static_325[34] = "capnp_canon: the output is cut at ";
static const u8 g_static_326[6] = " bytes";
static const u8 g_static_327[35] = "capnp_canon: 'diff' needs two files";
static const u8 g_static_328[21] = "capnp_canon: message ";
static const u8 g_static_329[21] = ": too long to compare";
static const u8 g_static_330[2] = "\n"
    "<";
static const u8 g_static_331[2] = "\n"
    ">";
static const u8 g_static_332[3] = " ..";
static const u8 g_static_333[25] = ": only in the first file\n";
static const u8 g_static_334[26] = ": only in the second file\n";
static const struct place switch_table_capnpc_schema_request_read_type_e069d1cb1d6451b2[4] = { PLACE((const u8 *)g_static_171), PLACE((const u8 *)g_static_172), PLACE((const u8 *)g_static_173), PLACE((const u8 *)g_static_174) };
static const u32 switch_table_capnpc_schema_table_Making_add_struct[7] = { 9u, 8u, 8u, 10u, 11u, 12u, 13u };
static const u64 switch_table_capnp_pointers_pointers_canonical_test_li_c3e4b247[6] = { 0u, 1u, 8u, 16u, 32u, 64u };
static const u64 switch_table_capnp_pointers_pointers_sizes_add_object__4567bcc5[8] = { 0u, 1u, 8u, 16u, 32u, 64u, 0u, 0u };
static const u64 switch_table_capnp_copies_copy_copy_object_f743e1513b93edc7[7] = { 0u, 1u, 8u, 16u, 32u, 64u, 0u };
static const u64 switch_table_capnp_show_show_lines_show_pointer_5ccc1b_c0287b34[5] = { 6u, 7u, 5u, 5u, 5u };
static const struct place switch_table_capnp_show_show_lines_show_pointer_5ccc1b_ef2ab783[5] = { PLACE((const u8 *)g_static_274), PLACE((const u8 *)g_static_275), PLACE((const u8 *)g_static_276), PLACE((const u8 *)g_static_277), PLACE((const u8 *)g_static_278) };
static const u64 switch_table_capnp_show_show_lines_Lines_begin[5] = { 1u, 2u, 32u, 31u, 33u };
static const u8 switch_table_typed_conforming_conforms_check_object_5c_a350b32c[15] = { 1, 2, 3, 4, 5, 6, 0, 7, 7, 7, 7, 7, 7, 7, 7 };
static const u8 switch_table_typed_conforming_conforms_check_object_5c_e628d92c[15] = { 0, 0, 0, 0, 0, 0, 0, 0, 1, 2, 3, 4, 5, 6, 7 };
static const u64 switch_table_typed_conforming_conforms_check_object_5c_e20a29a0[5] = { 1u, 8u, 16u, 32u, 64u };
static const struct place switch_table_capnp_canon_inputs_report_refusal[7] = { PLACE((const u8 *)g_static_119), PLACE((const u8 *)g_static_120), PLACE((const u8 *)g_static_121), PLACE((const u8 *)g_static_122), PLACE((const u8 *)g_static_123), PLACE((const u8 *)g_static_124), PLACE((const u8 *)g_static_125) };
static const u64 switch_table_capnp_canon_inputs_report_refusal_49[7] = { 10u, 15u, 14u, 9u, 10u, 11u, 16u };
static const struct place switch_table_capnp_canon_inputs_report_refusal_50[35] = { PLACE((const u8 *)g_static_125), PLACE((const u8 *)g_static_134), PLACE((const u8 *)g_static_135), PLACE((const u8 *)g_static_136), PLACE((const u8 *)g_static_137), PLACE((const u8 *)g_static_138), PLACE((const u8 *)g_static_139), PLACE((const u8 *)g_static_140), PLACE((const u8 *)g_static_141), PLACE((const u8 *)g_static_142), PLACE((const u8 *)g_static_143), PLACE((const u8 *)g_static_144), PLACE((const u8 *)g_static_145), PLACE((const u8 *)g_static_146), PLACE((const u8 *)g_static_147), PLACE((const u8 *)g_static_148), PLACE((const u8 *)g_static_149), PLACE((const u8 *)g_static_150), PLACE((const u8 *)g_static_151), PLACE((const u8 *)g_static_152), PLACE((const u8 *)g_static_153), PLACE((const u8 *)g_static_154), PLACE((const u8 *)g_static_155), PLACE((const u8 *)g_static_156), PLACE((const u8 *)g_static_157), PLACE((const u8 *)g_static_158), PLACE((const u8 *)g_static_159), PLACE((const u8 *)g_static_160), PLACE((const u8 *)g_static_161), PLACE((const u8 *)g_static_162), PLACE((const u8 *)g_static_163), PLACE((const u8 *)g_static_164), PLACE((const u8 *)g_static_165), PLACE((const u8 *)g_static_166), PLACE((const u8 *)g_static_167) };
static const u64 switch_table_capnp_canon_inputs_report_refusal_51[35] = { 16u, 44u, 34u, 33u, 47u, 25u, 48u, 53u, 38u, 38u, 47u, 50u, 16u, 25u, 56u, 56u, 46u, 68u, 49u, 56u, 49u, 60u, 36u, 33u, 41u, 24u, 40u, 15u, 20u, 11u, 17u, 28u, 24u, 20u, 18u };
static const u64 switch_table_capnp_streams_streams_answers_do_job_e47a_da29cb7e[14] = { 35u, 33u, 13u, 12u, 28u, 57u, 56u, 31u, 38u, 44u, 72u, 61u, 59u, 21u };
static const struct place switch_table_capnp_streams_streams_answers_do_job_e47a_0ee39c64[14] = { PLACE((const u8 *)g_static_200), PLACE((const u8 *)g_static_201), PLACE((const u8 *)g_static_202), PLACE((const u8 *)g_static_203), PLACE((const u8 *)g_static_204), PLACE((const u8 *)g_static_205), PLACE((const u8 *)g_static_206), PLACE((const u8 *)g_static_207), PLACE((const u8 *)g_static_208), PLACE((const u8 *)g_static_209), PLACE((const u8 *)g_static_210), PLACE((const u8 *)g_static_211), PLACE((const u8 *)g_static_212), PLACE((const u8 *)g_static_213) };
static const u64 switch_table_main_75[7] = { 5u, 5u, 4u, 6u, 8u, 4u, 4u };
static const struct place switch_table_main_76[7] = { PLACE((const u8 *)g_static_38), PLACE((const u8 *)g_static_39), PLACE((const u8 *)g_static_40), PLACE((const u8 *)g_static_41), PLACE((const u8 *)g_static_42), PLACE((const u8 *)g_static_43), PLACE((const u8 *)g_static_44) };
static const u64 switch_table_main_79[5] = { 9u, 7u, 4u, 7u, 7u };
static const struct place switch_table_main_80[5] = { PLACE((const u8 *)g_static_32), PLACE((const u8 *)g_static_33), PLACE((const u8 *)g_static_34), PLACE((const u8 *)g_static_35), PLACE((const u8 *)g_static_36) };
static const u64 switch_table_main_85[5] = { 5u, 5u, 4u, 6u, 8u };
static const struct place switch_table_main_86[5] = { PLACE((const u8 *)g_static_38), PLACE((const u8 *)g_static_39), PLACE((const u8 *)g_static_40), PLACE((const u8 *)g_static_41), PLACE((const u8 *)g_static_42) };
static const u64 switch_table_main_89[11] = { 8u, 6u, 6u, 11u, 5u, 7u, 7u, 2u, 6u, 8u, 7u };
static const struct place switch_table_main_90[11] = { PLACE((const u8 *)g_static_21), PLACE((const u8 *)g_static_22), PLACE((const u8 *)g_static_23), PLACE((const u8 *)g_static_24), PLACE((const u8 *)g_static_25), PLACE((const u8 *)g_static_26), PLACE((const u8 *)g_static_27), PLACE((const u8 *)g_static_28), PLACE((const u8 *)g_static_29), PLACE((const u8 *)g_static_30), PLACE((const u8 *)g_static_31) };

NEVER COLD u8 std_alloc_vec_Vec_grow_amortized_f0820c3131a574aa(u8 *a_1, u64 a_2);
void core_str_utf8_from_utf8(u8 *a_1, u8 *a_2, u64 a_3);
NEVER COLD u8 std_alloc_vec_Vec_grow_amortized_027f8d73351eaa1e(u8 *a_1);
void std_io_io_print_to_98831ff3adad6f75(u8 *a_1, u32 a_2, u8 *a_3, u64 a_4);
u8 std_io_io_buffer_Buffer_flush(u8 *a_1);
void std_io_io_error_Error_from_bytes(u8 *a_1, u8 a_2, u8 a_3, u8 *a_4, u64 a_5, u64 a_6);
void std_io_io_error_Error_from_raw_os_error(u8 *a_1, u32 a_2);
NEVER COLD u8 core_fmt_formatter_Formatter_write_indented_bf264aed5fa78656(u8 *a_1, u8 *a_2, u64 a_3);
u8 core_cmp_bytes_equal(u8 *a_1, u64 a_2, u8 *a_3, u64 a_4);
void capnp_streams_streams_arguments_ParsedArguments_parse_argument(u8 *a_1, u8 *a_2, u8 *a_3, u64 a_4);
void core_iter_pattern_CharPattern_first_in(u8 *a_1, u8 *a_2, u8 *a_3, u64 a_4);
void core_str_parse_unsigned(u8 *a_1, u8 *a_2, u64 a_3, u32 a_4, u64 a_5);
void std_io_io_LibcRuntimeEprint_eprintln_3878b759d2b8d344(u8 *a_1, u8 *a_2);
void capnp_canon_texts_error_text(u8 *a_1, u8 *a_2);
NEVER COLD u8 core_fmt_formatter_Formatter_write_indented_b6936a32b1fe2110(u8 *a_1, u8 *a_2, u64 a_3);
NEVER u8 core_fmt_formatter_Formatter_cut_and_fill_b6936a32b1fe2110(u8 *a_1, u8 *a_2, u64 a_3);
NEVER u64 core_slice_words_skip_far_878162fd265b9cd6(u8 *a_1, u64 a_2, u64 a_3);
u8 core_fmt_formatter_Formatter_write_piece_cd5e334430faecd3(u8 *a_1, u8 *a_2);
void capnp_streams_streams_task_named_files(u8 *a_1, u8 *a_2, u64 a_3);
NEVER COLD u8 std_alloc_vec_Vec_grow_amortized_4bfbfd015d35923a(u8 *a_1);
void std_time_Instant_now_8eb717cbc750028c(u8 *a_1);
void core_iter_finds_str_rsplit_once_8a142833eb8c5652(u8 *a_1, u8 *a_2, u64 a_3);
void std_fs_File_open_17ffec874b4121f3(u8 *a_1, u8 *a_2, u64 a_3);
void std_io_io_LibcRuntimeEprint_eprintln_cf6e6774fefd6f40(u8 *a_1, u8 *a_2);
void std_io_io_LibcRuntimeEprint_eprintln_213d5a088f689746(u8 *a_1, u8 *a_2);
NEVER COLD u8 std_alloc_vec_Vec_grow_amortized_5e63141f0e39c5e0(u8 *a_1);
NEVER COLD u8 std_alloc_vec_Vec_grow_amortized_ffd95af9aab10bcd(u8 *a_1, u64 a_2);
NEVER COLD void capnp_framing_framing_reading_grow_7f7dbdafe4478eeb(u8 *a_1, u8 *a_2, u8 *a_3);
NEVER COLD u8 std_alloc_vec_Vec_grow_amortized_5400d4f5161e8cc6(u8 *a_1);
u8 core_fmt_formatter_Formatter_write_piece_27b95e09ebc76fa9(u8 *a_1, u8 *a_2);
NEVER COLD u8 core_fmt_formatter_Formatter_write_indented_e28d62ad0fc89b16(u8 *a_1, u8 *a_2, u64 a_3);
u8 core_fmt_formatter_Formatter_write_piece_4802effef235a1ad(u8 *a_1, u8 *a_2);
void core_fmt_inline_InlineText_cut_at_capacity_120(u8 *a_1, u8 *a_2, u64 a_3);
NEVER void capnp_pointers_source_follow_far_e069d1cb1d6451b2(u8 *a_1, u8 *a_2, u64 a_3, u8 *a_4);
u8 capnp_words_error_ErrorKindDisplay_fmt_e28d62ad0fc89b16(u8 *a_1, u8 *a_2);
u8 core_fmt_formatter_Formatter_write_piece_9d414b38dae91653(u8 *a_1, u8 *a_2);
u8 core_fmt_formatter_Formatter_write_piece_50509cbadb0dc36c(u8 *a_1, u8 *a_2);
void capnpc_schema_request_read_request_e069d1cb1d6451b2(u8 *a_1, u8 *a_2, u8 *a_3, u8 *a_4);
NEVER COLD u8 std_alloc_vec_Vec_grow_amortized_827889bc1b348a11(u8 *a_1, u64 a_2);
NEVER COLD u8 std_alloc_vec_Vec_grow_amortized_2c24d1d67a32dcd3(u8 *a_1);
NEVER u8 capnp_pointers_pointers_sizes_add_object_e069d1cb1d6451b2(u8 *a_1, u32 a_2, u32 a_3, u8 *a_4);
void capnp_arena_arena_builder_arena_impl_BuilderArenaImpl__b4c37d35(u8 *a_1, u8 *a_2, u32 a_3);
NEVER COLD void capnp_allocation_landing_follow_e81703f2515d5e3b(u8 *a_1, u8 *a_2, u32 a_3, u32 a_4);
NEVER COLD void capnp_allocation_zeroing_zero_target_e81703f2515d5e3b(u8 *a_1, u8 *a_2);
NEVER COLD void capnp_allocation_zeroing_zero_far_pads_e81703f2515d5e3b(u8 *a_1, u64 a_2);
NEVER void capnp_copies_copy_copy_object_c1b701a44f41e856(u8 *a_1, u8 *a_2, u32 a_3, u32 a_4, u8 *a_5, u8 *a_6, u8 a_7);
void capnp_arena_arena_builder_arena_impl_BuilderArenaImpl__1379eb10(u8 *a_1);
NEVER COLD u8 std_alloc_vec_Vec_grow_amortized_8fec0f8c31ceba3c(u8 *a_1);
NEVER COLD u8 std_alloc_vec_Vec_grow_amortized_221b698824037b9d(u8 *a_1);
NEVER COLD u8 std_alloc_vec_Vec_grow_amortized_b2f6b19ae156e684(u8 *a_1);
NEVER u8 std_alloc_string_add_wide_6427bb82ce6ccfc2(u8 *a_1, u32 a_2);
NEVER COLD u8 std_alloc_vec_Vec_grow_amortized_0806daa96bf12823(u8 *a_1);
NEVER COLD u8 std_alloc_vec_Vec_grow_amortized_c0fa11a24fa7f6ab(u8 *a_1);
struct s_i8_i8 core_cmp_text_RefStrPartialOrd_partial_cmp(u8 *a_1, u8 *a_2);
NEVER COLD u8 std_alloc_vec_Vec_grow_amortized_821e6c9db560de14(u8 *a_1);
COLD void capnpc_schema_table_Making_add_struct(u8 *a_1, u8 *a_2, u8 *a_3);
NEVER COLD u8 std_alloc_vec_Vec_grow_amortized_b03759ee0e33610f(u8 *a_1);
NEVER COLD u8 std_alloc_vec_Vec_grow_amortized_1dbf92116f16fa87(u8 *a_1);
NEVER COLD u8 std_alloc_vec_Vec_grow_amortized_bae5b21efa302e33(u8 *a_1);
NEVER COLD u8 std_alloc_vec_Vec_grow_amortized_83b44bff7dc38b7e(u8 *a_1);
void std_alloc_vec_Vec_drop_9090422f87b2a94e(u8 *a_1);
void std_alloc_vec_Vec_drop_bf55384105172e50(u8 *a_1);
void std_io_steps_make_room_79043aaec86f87a1(u8 *a_1, u8 *a_2, u64 a_3, u64 a_4, u64 a_5);
void std_io_stdio_LockedStdinRead_read(u8 *a_1, u8 *a_2, u8 *a_3, u64 a_4);
void std_io_io_LibcRuntimeEprint_eprintln_3fcc4dc1eb5f1358(u8 *a_1, u8 *a_2);
NEVER u8 std_alloc_string_add_wide_79043aaec86f87a1(u8 *a_1, u32 a_2);
struct s_i8_i8 capnp_canon_inputs_answer_file_dc04ddf330daad4d(u8 *a_1, u8 *a_2, u8 *a_3, u64 a_4, u8 *a_5);
void capnp_framing_framing_reading_read_into_with_7137eb38a50aa573(u8 *a_1, u8 *a_2, u8 *a_3, u64 a_4, u8 *a_5);
struct s_i8_i64 capnp_packing_buffered_standard_BufReaderInputInput_re_81b4ff93(u8 *a_1, u8 *a_2, u64 a_3);
void capnp_canon_progress_Session_count_bytes(u8 *a_1, u64 a_2);
void std_io_io_LibcRuntimeEprint_eprint_a60bf8f0966fe87f(u8 *a_1, u8 *a_2);
u8 core_fmt_formatter_Formatter_write_piece_ad6cde96c05b3f7d(u8 *a_1, u8 *a_2);
void capnp_streams_streams_answers_do_job_7c02f8dc6143463f(u8 *a_1, u8 *a_2, u8 *a_3, u64 a_4, u8 *a_5, u8 *a_6);
void capnp_messages_messages_message_fault_canonical_fault__490a0445(u8 *a_1, u8 *a_2, u8 *a_3);
NEVER void capnp_pointers_source_follow_far_5ccc1be374b2e488(u8 *a_1, u8 *a_2, u64 a_3, u8 *a_4);
u8 capnp_framing_devices_writing_write_all_ebb589c36e6b8e33(u8 *a_1, u8 *a_2, u64 a_3);
void capnp_messages_messages_canonical_copy_canonicalize_re_92f8f3a6(u8 *a_1, u8 *a_2, u8 *a_3, u8 *a_4);
void capnp_messages_messages_path_read_part_9d3526b9b0726c59(u8 *a_1, u8 *a_2, u8 *a_3, u64 a_4, u8 *a_5);
struct s_p_i64 capnp_messages_messages_writing_canonical_bytes_038392_13019918(u8 *a_1);
NEVER u8 core_cmp_slices_groups_equal_i8_31_core_cmp_numbers_U8PartialEq(u8 *a_1, u64 a_2, u8 *a_3);
NEVER void capnp_arena_arena_builder_arena_impl_deallocate_others_b2a31c9c(u8 *a_1, u8 *a_2);
NEVER void core_slice_edits_mirror_e0f4f6844e27f7b4(u8 *a_1, u8 *a_2, u64 a_3);
u8 capnp_messages_text_write_number_ebb589c36e6b8e33(u8 *a_1, u64 a_2);
NEVER u8 capnp_pointers_pointers_sizes_add_object_5ccc1be374b2e488(u8 *a_1, u32 a_2, u32 a_3, u8 *a_4);
NEVER u8 capnp_pointers_pointers_sizes_add_pointers_5ccc1be374b2e488(u8 *a_1, u32 a_2, u32 a_3, u32 a_4, u8 *a_5);
void capnp_messages_messages_canonical_copy_canonicalize_re_6a62b637(u8 *a_1, u8 *a_2, u8 *a_3, u8 a_4, u64 a_5);
struct s_p_i64 capnp_messages_messages_writing_canonical_bytes_bd7e3d_4a746b72(u8 *a_1);
void sha2_Digest_digest_8314f5c2d9589b12(u8 *a_1, u8 *a_2, u64 a_3);
NEVER void capnp_messages_messages_whole_digest_digest_of_copy_02_e6ae90be(u8 *a_1, u8 *a_2, u8 *a_3, u8 a_4, u64 a_5);
void capnp_arena_arena_builder_arena_impl_BuilderArenaImpl__1592d6b0(u8 *a_1);
NEVER void capnp_messages_messages_part_digest_digest_of_part_cop_2943f34a(u8 *a_1, u8 *a_2, u8 *a_3, u8 *a_4, u64 a_5, u8 a_6, u64 a_7);
NEVER u8 capnp_pointers_pointers_validate_validate_object_5ccc1_0a1aa550(u8 *a_1, u32 a_2, u32 a_3, u8 *a_4);
void capnp_refusals_refusals_pointer_of_refusal_a3cb57cd4b1504b3(u8 *a_1, u8 *a_2, u8 a_3, u8 *a_4, u8 *a_5);
void capnp_show_show_message_make_json_9d3526b9b0726c59(u8 *a_1, u8 *a_2, u8 *a_3, u64 a_4, u64 a_5, u8 *a_6, u64 a_7, u8 *a_8);
NEVER COLD u8 std_alloc_vec_Vec_grow_amortized_9634afabedddd7ee(u8 *a_1, u64 a_2);
NEVER COLD u8 std_alloc_vec_Vec_grow_amortized_e6560bd0eee8a70a(u8 *a_1);
void capnp_show_show_message_make_lines_9d3526b9b0726c59(u8 *a_1, u8 *a_2, u8 *a_3, u64 a_4, u64 a_5, u8 *a_6, u64 a_7, u8 *a_8);
void capnp_framing_framing_reading_read_into_with_adb79f1a3ce299d8(u8 *a_1, u8 *a_2, u8 *a_3, u64 a_4, u8 *a_5);
struct s_i8_i64 capnp_packing_packing_unpacking_input_UnpackingInput_u_1b6843d3(u8 *a_1, u8 *a_2, u64 a_3);
void capnp_packing_packing_unpacking_unpack_words(u8 *a_1, u8 *a_2, u64 a_3, u8 *a_4, u64 a_5);
void capnp_packing_packing_place_step(u8 *a_1, u8 *a_2, u8 a_3);
void capnp_framing_framing_segment_read_segment_into_with_7_76ab637d(u8 *a_1, u8 *a_2, u8 *a_3, u64 a_4, u8 *a_5);
void capnp_framing_framing_reading_read_into_with_e17d07640fce9b83(u8 *a_1, u8 *a_2, u8 *a_3, u64 a_4, u8 *a_5);
void typed_streams_conforming_test_message_e9487d0add956215(u8 *a_1, u8 *a_2, u64 a_3, u32 a_4, u8 *a_5, u8 *a_6);
void capnp_framing_framing_reading_read_into_with_f580c6174cdce4ec(u8 *a_1, u8 *a_2, u8 *a_3, u64 a_4, u8 *a_5);
void capnp_framing_framing_segment_read_segment_into_with_e_5cc29fb8(u8 *a_1, u8 *a_2, u8 *a_3, u64 a_4, u8 *a_5);
void capnp_canon_schema_Schema_field_text(u8 *a_1, u8 *a_2, u8 *a_3);
void capnp_canon_inputs_report_refusal(u8 a_1, u8 *a_2, u8 *a_3, u8 *a_4, u64 a_5, u8 *a_6);
void std_io_io_LibcRuntimeEprint_eprintln_ca48b51c48df6db8(u8 *a_1, u8 *a_2);
u64 capnp_streams_looks_unpack(u8 *a_1, u64 a_2, u8 *a_3);
u8 capnp_streams_looks_may_begin_frame(u8 *a_1, u64 a_2);
u8 capnp_streams_looks_begins_with_packed_frame(u8 *a_1, u64 a_2);
void capnp_framing_framing_reading_read_into_with_50f94a68dd18cac1(u8 *a_1, u8 *a_2, u8 *a_3, u64 a_4, u8 *a_5);
struct s_i8_i64 capnp_packing_buffered_standard_BufReaderInputInput_re_133b1ec6(u8 *a_1, u8 *a_2, u64 a_3);
void capnp_streams_device_log_LoggedRead_read_72d120f996089625(u8 *a_1, u8 *a_2, u8 *a_3, u64 a_4);
void capnp_framing_framing_reading_read_into_with_fe1a3e2a4b53f74d(u8 *a_1, u8 *a_2, u8 *a_3, u64 a_4, u8 *a_5);
struct s_i8_i64 capnp_packing_packing_unpacking_input_UnpackingInput_u_5217efb3(u8 *a_1, u8 *a_2, u64 a_3);
void capnp_framing_framing_segment_read_segment_into_with_5_2c4d05bd(u8 *a_1, u8 *a_2, u8 *a_3, u64 a_4, u8 *a_5);
void capnp_framing_framing_reading_read_into_with_31ab0fa233179da9(u8 *a_1, u8 *a_2, u8 *a_3, u64 a_4, u8 *a_5);
void capnp_framing_framing_reading_read_into_with_917c31d355636fb1(u8 *a_1, u8 *a_2, u8 *a_3, u64 a_4, u8 *a_5);
void capnp_framing_framing_segment_read_segment_into_with_3_422e36e3(u8 *a_1, u8 *a_2, u8 *a_3, u64 a_4, u8 *a_5);
void capnp_canon_progress_Session_erase_line(u8 *a_1);
u8 capnp_messages_text_write_number_366e4da2fb9cfb0c(u64 a_1);
void std_io_io_LibcRuntimeEprint_eprintln_d512b0887f7dcccf(u8 *a_1, u8 *a_2);
struct s_i8_i8 capnp_canon_inputs_for_each_file_6c9dfa01aec650e8(u8 *a_1, u8 *a_2, u8 a_3, u8 *a_4, u64 a_5, u8 *a_6);
void capnp_streams_streams_answers_do_job_0c3a29e6ab74430d(u8 *a_1, u8 *a_2, u8 *a_3, u64 a_4, u8 *a_5, u8 *a_6);
u8 capnp_framing_devices_writing_write_all_2f3bb032c6266247(u8 *a_1, u8 *a_2, u64 a_3);
u8 capnp_messages_text_write_number_2f3bb032c6266247(u8 *a_1, u64 a_2);
void capnp_streams_streams_answers_do_job_978907ffaf26f344(u8 *a_1, u8 *a_2, u8 *a_3, u64 a_4, u8 *a_5);
void capnp_streams_streams_answers_do_job_896a2b1bd6915fc3(u8 *a_1, u8 *a_2, u8 *a_3, u64 a_4, u8 *a_5, u8 *a_6);
u8 capnp_framing_devices_writing_write_all_48bcd249c6a62d53(u8 *a_1, u8 *a_2, u64 a_3);
u8 capnp_messages_text_write_number_48bcd249c6a62d53(u8 *a_1, u64 a_2);
struct s_i8_i8 capnp_canon_inputs_report_unopened_6c9dfa01aec650e8(u8 *a_1, u8 *a_2, u64 a_3, u8 *a_4);
void std_io_buffered_write_out_cc0a01cbe8a2ee4a(u8 *a_1, u8 *a_2, u64 a_3, u8 *a_4);
void capnp_streams_device_log_LoggedWrite_write_7beb271a2a4e788d(u8 *a_1, u8 *a_2, u8 *a_3, u64 a_4);
u8 capnp_streams_devices_write_name_and_number_45b6cc80abe1f805(u8 *a_1, u8 *a_2, u64 a_3, u64 a_4);
u8 capnp_messages_text_write_number_45b6cc80abe1f805(u8 *a_1, u64 a_2);
u8 capnp_framing_devices_writing_write_all_45b6cc80abe1f805(u8 *a_1, u8 *a_2, u64 a_3);
NEVER COLD void std_io_buffered_BufWriter_write_cold_4fc199ee41d89934(u8 *a_1, u8 *a_2, u8 *a_3, u64 a_4);
struct s_i8_i8 capnp_canon_inputs_for_each_file_201baf504a729da0(u8 *a_1, u8 *a_2, u8 a_3, u8 *a_4, u64 a_5, u8 *a_6);
u8 capnp_packing_buffered_flush_before_waiting_e31f6730a1a7e578(u8 *a_1, u8 *a_2);
void capnp_streams_streams_answers_do_job_577bcfccc88e56e8(u8 *a_1, u8 *a_2, u8 *a_3, u64 a_4, u8 *a_5, u8 *a_6);
u8 capnp_framing_devices_writing_write_all_c55655458b275944(u8 *a_1, u8 *a_2, u64 a_3);
u8 capnp_messages_text_write_number_c55655458b275944(u8 *a_1, u64 a_2);
u8 capnp_packing_buffered_flush_before_waiting_f994696f9147079a(u8 *a_1, u8 *a_2);
void capnp_streams_streams_answers_do_job_c844357e3c872af1(u8 *a_1, u8 *a_2, u8 *a_3, u64 a_4, u8 *a_5, u8 *a_6);
u8 capnp_packing_buffered_flush_before_waiting_69629ffe1052b2b1(u8 *a_1, u8 *a_2);
u8 capnp_packing_buffered_flush_before_waiting_2220d67589da4f01(u8 *a_1, u8 *a_2);
void capnp_streams_streams_answers_do_job_8d1e943fecffaa36(u8 *a_1, u8 *a_2, u8 *a_3, u64 a_4, u8 *a_5, u8 *a_6);
u8 capnp_framing_devices_writing_write_all_2158b5bf3a48d838(u8 *a_1, u8 *a_2, u64 a_3);
u8 capnp_messages_text_write_number_2158b5bf3a48d838(u8 *a_1, u64 a_2);
u8 capnp_packing_buffered_flush_before_waiting_9ae5cb71f0ee5774(u8 *a_1, u8 *a_2);
u8 capnp_packing_buffered_flush_before_waiting_09378745876fb503(u8 *a_1, u8 *a_2);
struct s_i8_i8 capnp_canon_inputs_report_unopened_201baf504a729da0(u8 *a_1, u8 *a_2, u64 a_3, u8 *a_4, u8 *a_5);
u8 capnp_packing_packing_packing_output_PackingOutput_wri_f76edb1e(u8 *a_1);
u8 capnp_streams_devices_write_name_and_number_91097057b640ab3c(u8 *a_1, u8 *a_2, u64 a_3, u64 a_4);
u8 capnp_messages_text_write_number_91097057b640ab3c(u8 *a_1, u64 a_2);
struct s_i8_i64 capnp_packing_packing_packing_output_PackingOutputOutp_687cfcb2(u8 *a_1, u8 *a_2, u64 a_3);
struct s_i8_i8 capnp_canon_inputs_for_each_file_29f3bd4cdc178bb9(u8 *a_1, u8 *a_2, u8 a_3, u8 *a_4, u64 a_5, u8 *a_6);
u8 capnp_packing_buffered_flush_before_waiting_71ff042200855f5a(u8 *a_1, u8 *a_2);
void capnp_streams_streams_answers_do_job_c0076d98002fc5dc(u8 *a_1, u8 *a_2, u8 *a_3, u64 a_4, u8 *a_5, u8 *a_6);
u8 capnp_framing_devices_writing_write_all_b4ea5f78962d5b24(u8 *a_1, u8 *a_2, u64 a_3);
u8 capnp_messages_text_write_number_b4ea5f78962d5b24(u8 *a_1, u64 a_2);
u8 capnp_packing_buffered_flush_before_waiting_f32b9e79b0aa8d65(u8 *a_1, u8 *a_2);
void capnp_streams_streams_answers_do_job_118ed820e65772e0(u8 *a_1, u8 *a_2, u8 *a_3, u64 a_4, u8 *a_5, u8 *a_6);
u8 capnp_packing_buffered_flush_before_waiting_655b0880b95ff0d7(u8 *a_1, u8 *a_2);
u8 capnp_packing_buffered_flush_before_waiting_6ca625a2475f7e6b(u8 *a_1, u8 *a_2);
void capnp_streams_streams_answers_do_job_4f01145f9fd748d2(u8 *a_1, u8 *a_2, u8 *a_3, u64 a_4, u8 *a_5, u8 *a_6);
u8 capnp_framing_devices_writing_write_all_3cc97480b80713a4(u8 *a_1, u8 *a_2, u64 a_3);
u8 capnp_messages_text_write_number_3cc97480b80713a4(u8 *a_1, u64 a_2);
u8 capnp_packing_buffered_flush_before_waiting_f7fe3c3453fa6952(u8 *a_1, u8 *a_2);
u8 capnp_packing_buffered_flush_before_waiting_a578f45544353664(u8 *a_1, u8 *a_2);
void std_alloc_vec_Vec_drop_7bf4a92c20b9a5ae(u8 *a_1);
u8 capnp_messages_text_write_number_4ccd004bee0474d0(u8 *a_1, u64 a_2);
u8 capnp_framing_devices_writing_write_all_4ccd004bee0474d0(u8 *a_1, u8 *a_2, u64 a_3);
struct s_i8_i8 capnp_canon_inputs_answer_reader_b18d3c20b8dbfa5a(u8 *a_1, u8 *a_2, u8 *a_3, u8 *a_4, u8 *a_5);
u8 capnp_packing_buffered_flush_before_waiting_ade09ec562349fe3(u8 *a_1, u8 *a_2);
void capnp_streams_streams_answers_do_job_ce0327f6800bc606(u8 *a_1, u8 *a_2, u8 *a_3, u64 a_4, u8 *a_5, u8 *a_6);
struct s_i8_i8 capnp_show_show_text_Text_write_1c2599c210499688(u8 *a_1, u8 *a_2);
struct s_i8_i8 capnp_canon_inputs_answer_file_259bc358ac2a9577(u8 *a_1, u8 *a_2, u8 *a_3, u64 a_4, u8 *a_5);
u8 capnp_packing_buffered_flush_before_waiting_0987d5054893558d(u8 *a_1, u8 *a_2);
void capnp_streams_streams_answers_do_job_e47a27b20d7769de(u8 *a_1, u8 *a_2, u8 *a_3, u64 a_4, u8 *a_5, u8 *a_6);
u8 capnp_framing_devices_writing_write_all_e52bf6e83dfc30a4(u8 *a_1, u8 *a_2, u64 a_3);
u8 capnp_messages_text_write_number_e52bf6e83dfc30a4(u8 *a_1, u64 a_2);
u8 capnp_packing_buffered_flush_before_waiting_fd40d7fcdc6f1ab4(u8 *a_1, u8 *a_2);
struct s_i8_i8 capnp_canon_diffs_open_second_and_compare_107c8404766ca521(u8 *a_1, u8 *a_2, u8 *a_3, u8 *a_4);
void capnp_streams_streams_diffs_read_next_5c1e7eb3de607c93(u8 *a_1, u8 *a_2, u8 *a_3, u8 *a_4);
void capnp_streams_streams_diffs_read_next_8c0d117ba7cab090(u8 *a_1, u8 *a_2, u8 *a_3, u8 *a_4);
void capnp_streams_streams_diffs_compare_366e4da2fb9cfb0c(u8 *a_1, u8 *a_2, u64 a_3, u8 *a_4);
void capnp_show_show_compare_find_difference_46c7a4392912af85(u8 *a_1, u8 *a_2, u8 *a_3, u8 *a_4);
void capnp_show_show_compare_make_difference_text_46c7a4392912af85(u8 *a_1, u8 *a_2, u64 a_3, u64 a_4, u64 a_5, u8 *a_6, u8 *a_7);
void capnp_streams_streams_diffs_read_next_769bb4569b8d536c(u8 *a_1, u8 *a_2, u8 *a_3, u8 *a_4);
void capnp_streams_streams_diffs_read_next_7c2a47472500a8d3(u8 *a_1, u8 *a_2, u8 *a_3, u8 *a_4);
struct s_i8_i64 capnp_packing_packing_unpacking_input_UnpackingInput_u_5151aa2b(u8 *a_1, u8 *a_2, u64 a_3);
void capnp_streams_streams_diffs_check_ends_e8c62d8df1ad9828(u8 *a_1, u8 *a_2, u8 *a_3, u8 *a_4);
void capnp_streams_streams_diffs_read_flat_5c1e7eb3de607c93(u8 *a_1, u8 *a_2, u8 *a_3, u8 *a_4);
void capnp_streams_streams_diffs_read_flat_8c0d117ba7cab090(u8 *a_1, u8 *a_2, u8 *a_3, u8 *a_4);
void capnp_streams_streams_diffs_read_next_9affad4089815397(u8 *a_1, u8 *a_2, u8 *a_3, u8 *a_4);
void capnp_streams_streams_diffs_read_next_f7ef17a2887361b5(u8 *a_1, u8 *a_2, u8 *a_3, u8 *a_4);
struct s_i8_i64 capnp_packing_packing_unpacking_input_UnpackingInput_u_4830f424(u8 *a_1, u8 *a_2, u64 a_3);
void capnp_streams_streams_diffs_check_ends_d82c1a4ae1aa0515(u8 *a_1, u8 *a_2, u8 *a_3, u8 *a_4);
void capnp_streams_streams_diffs_read_flat_9affad4089815397(u8 *a_1, u8 *a_2, u8 *a_3, u8 *a_4);
struct s_i8_i8 capnp_canon_diffs_open_second_and_compare_05bb2d50ce1edf5a(u8 *a_1, u8 *a_2, u8 *a_3, u32 a_4);
void capnp_streams_streams_diffs_read_next_28cb2c7335392011(u8 *a_1, u8 *a_2, u8 *a_3, u8 *a_4);
void capnp_streams_streams_diffs_read_next_d8196ca387589751(u8 *a_1, u8 *a_2, u8 *a_3, u8 *a_4);
void capnp_streams_streams_diffs_check_ends_18b72078ada42812(u8 *a_1, u8 *a_2, u8 *a_3, u8 *a_4);
void capnp_streams_streams_diffs_read_flat_28cb2c7335392011(u8 *a_1, u8 *a_2, u8 *a_3, u8 *a_4);
void capnp_streams_streams_diffs_check_ends_b512905abebe1b47(u8 *a_1, u8 *a_2, u8 *a_3, u8 *a_4);
struct s_i8_i8 capnp_canon_diffs_open_second_and_compare_c924fbb241c3d161(u8 *a_1, u8 *a_2, u8 *a_3, u8 *a_4, u8 *a_5);
u8 capnp_packing_buffered_flush_before_waiting_8fe74327c9ebdd71(u8 *a_1, u8 *a_2);
void capnp_streams_streams_diffs_compare_45b6cc80abe1f805(u8 *a_1, u8 *a_2, u64 a_3, u8 *a_4, u8 *a_5);
u8 capnp_streams_streams_diffs_write_end_45b6cc80abe1f805(u8 *a_1, u64 a_2, u8 a_3, u8 a_4);
u8 capnp_packing_buffered_flush_before_waiting_66071071a9ec5d1c(u8 *a_1, u8 *a_2);
struct s_i8_i8 capnp_canon_diffs_open_second_and_compare_927b86b685027e08(u8 *a_1, u8 *a_2, u8 *a_3, u32 a_4, u8 *a_5);
void std_alloc_vec_Vec_drop_acd8a8a758c244f6(u8 *a_1);
