/* This file is generated: don't edit it. It is the compiled form of the repository's proved sources, translated to C by
 * tools/c_of_module. docs/PROVED.md says what you have to trust. */
#define _POSIX_C_SOURCE 200809L
#include <errno.h>
#include <fcntl.h>
#include <signal.h>
#include <unistd.h>

/* This code avoids what C leaves undefined or unspecified:
 * - aliasing: memory is read and written only by `ld..`, `st..` and `mv..`, whose types may alias all, and by memcpy and the like;
 * - overflow: sums, differences and products are computed with unsigned numbers of at least 32 bits, and cast to their width;
 * - division: no divisor is zero and no quotient is too large, which is proved; a signed number is a cast of an unsigned one;
 * - shifts: each is by less than the width; a shift to the right of a signed number keeps the sign with gcc and clang;
 * - casts to a signed number of the same width keep the bits with gcc and clang;
 * - alignment: `ld..` and `st..` take any address, and locals have the alignment that the module requires;
 * - order of evaluation: expressions have no side effects. Each store and each call is a statement of its own, in the order of
 *   the module. A value that is read before one is in a variable, or is read in that statement itself;
 * - pointers: one that may be outside of its object is computed as a number (`away`); pointers are compared as numbers;
 * - locals that aren't written yet: reading one returns arbitrary bytes, which no answer depends on;
 * - loops: all are jumps, and each one ends, which is proved;
 * - sizes: names differ within their first 63 characters, and no line has more than 4,095, which is as far as C11 promises to go. */
#if !defined(__GNUC__) || __BYTE_ORDER__ != __ORDER_LITTLE_ENDIAN__
#error "this needs gcc or clang, and a little-endian machine"
#endif
/* A machine of 32 bits needs callers that keep 8 bytes in memory for each pointer and each size_t. JavaScript can; C keeps
 * 4. CAPNP_CANONICAL_SLOTS_OF_8 states that all callers do. */
#if __SIZEOF_POINTER__ != 8 && !(__SIZEOF_POINTER__ == 4 && defined(CAPNP_CANONICAL_SLOTS_OF_8))
#error "this needs a machine of 64 bits"
#endif

#include <stddef.h>
#include <stdint.h>
#include <stdlib.h>
#include <string.h>

typedef uint8_t u8;
typedef uint16_t u16;
typedef uint32_t u32;
typedef uint64_t u64;
typedef int8_t i8;
typedef int16_t i16;
typedef int32_t i32;
typedef int64_t i64;
typedef uintptr_t uptr;
typedef u8 *pointer;

/* A pointer in memory takes 8 bytes, as in the module, even if the machine has shorter ones. */
#if __SIZEOF_POINTER__ == 8
struct place { const u8 *at; };
#define PLACE(pointer) { pointer }
#else
struct place { const u8 *at; u32 none; };
#define PLACE(pointer) { pointer, 0 }
#endif

#define INLINE static inline __attribute__((always_inline, unused))
#define NEVER __attribute__((noinline))
#define COLD __attribute__((cold))
#define A(bytes) __attribute__((aligned(bytes)))
#define TRAP() __builtin_trap()

/* Marks a place that is proved unreachable. With CAPNP_CANONICAL_TRAPS the program ends there. */
#ifdef CAPNP_CANONICAL_TRAPS
#define UNREACHABLE() __builtin_trap()
#else
#define UNREACHABLE() __builtin_unreachable()
#endif

/* The place `by` bytes away. It may be outside of the object: it is computed as a number, and may wrap around. */
#define away(pointer, by) ((u8 *)(uptr)((uptr)(pointer) + (by)))

/* Reads a number from any address, or writes one; any types may be kept there. These are macros, which compilers read faster
 * than functions. */
#define MEMORY(suffix, kind) typedef kind at##suffix __attribute__((may_alias, aligned(1)));
#define LOAD(suffix, from) (*(const at##suffix *)(const void *)(from))
#define STORE(suffix, to, value) (void)(*(at##suffix *)(void *)(to) = (value))

MEMORY(8, u8)
MEMORY(16, u16)
MEMORY(32, u32)
MEMORY(64, u64)
#define ld8(from) LOAD(8, from)
#define ld16(from) LOAD(16, from)
#define ld32(from) LOAD(32, from)
#define ld64(from) LOAD(64, from)
#define st8(to, value) STORE(8, to, value)
#define st16(to, value) STORE(16, to, value)
#define st32(to, value) STORE(32, to, value)
#define st64(to, value) STORE(64, to, value)
#if __SIZEOF_POINTER__ == 8
MEMORY(p, pointer)
#define ldp(from) LOAD(p, from)
#define stp(to, value) STORE(p, to, value)
#else
INLINE pointer ldp(const void *from) { return (pointer)(uptr)ld64(from); }
INLINE void stp(void *to, pointer value) { st64(to, (uptr)value); }
#endif

/* Numbers of widths that C doesn't have are only moved, truncated and extended: C keeps them in 64 bits. */
#define PART(bits)                                                                                          \
    INLINE u64 ld##bits(const void *from) { u64 it = 0; memcpy(&it, from, bits / 8); return it; }            \
    INLINE void st##bits(void *to, u64 value) { memcpy(to, &value, bits / 8); }

PART(24)
PART(40)
PART(48)
PART(56)

/* C forbids a null pointer here even with a count of 0. */
INLINE void memcpy_or_none(u8 *to, const u8 *from, u64 count) { if (count) memcpy(to, from, count); }
INLINE void memmove_or_none(u8 *to, const u8 *from, u64 count) { if (count) memmove(to, from, count); }
INLINE void memset_or_none(u8 *to, u8 value, u64 count) { if (count) memset(to, value, count); }

/* The absolute value, which of the smallest number is that number itself; the number of one bits; the number of zero bits
 * before the first one bit, from either end; minimum and maximum; sum and difference, limited to the range of the type; and
 * two numbers, joined and shifted by c modulo their width: the upper half after a shift to the left, the lower one after a
 * shift to the right. */
#define COUNTS(bits)                                                                                    \
    INLINE u##bits abs##bits(u##bits a) { return a >> (bits - 1) ? (u##bits)(0u - a) : a; }             \
    INLINE u##bits ctpop##bits(u##bits a) { return (u##bits)__builtin_popcountll(a); }                  \
    INLINE u##bits cttz##bits(u##bits a) { return (u##bits)(a ? __builtin_ctzll(a) : bits); }           \
    INLINE u##bits ctlz##bits(u##bits a) { return (u##bits)(a ? __builtin_clzll(a) - (64 - bits) : bits); } \
    INLINE u##bits umin##bits(u##bits a, u##bits b) { return a < b ? a : b; }                           \
    INLINE u##bits umax##bits(u##bits a, u##bits b) { return a > b ? a : b; }                           \
    INLINE u##bits smin##bits(u##bits a, u##bits b) { return (i##bits)a < (i##bits)b ? a : b; }         \
    INLINE u##bits smax##bits(u##bits a, u##bits b) { return (i##bits)a > (i##bits)b ? a : b; }         \
    INLINE u##bits uadd_sat##bits(u##bits a, u##bits b) { return (u##bits)(a + b) < a ? (u##bits)-1 : (u##bits)(a + b); } \
    INLINE u##bits usub_sat##bits(u##bits a, u##bits b) { return a < b ? 0 : (u##bits)(a - b); }        \
    INLINE u##bits fshl##bits(u##bits a, u##bits b, u##bits c) { c %= bits; return c ? (u##bits)(a << c | b >> (bits - c)) : a; } \
    INLINE u##bits fshr##bits(u##bits a, u##bits b, u##bits c) { c %= bits; return c ? (u##bits)(a << (bits - c) | b >> c) : b; }

COUNTS(8)
COUNTS(16)
COUNTS(32)
COUNTS(64)

INLINE u16 bswap16(u16 a) { return __builtin_bswap16(a); }
INLINE u32 bswap32(u32 a) { return __builtin_bswap32(a); }
INLINE u64 bswap64(u64 a) { return __builtin_bswap64(a); }

/* Vectors of bytes, which are compared and combined at once. A mask has a byte of ones or zeros for each byte. */
#define VECTOR(count)                                                                         \
    typedef u8 v##count __attribute__((vector_size(count)));                                  \
    typedef i8 w##count __attribute__((vector_size(count)));                                  \
    typedef v##count anyv##count __attribute__((may_alias, aligned(1)));

VECTOR(8)
VECTOR(16)
VECTOR(32)
VECTOR(64)

/* These are macros, because how a long vector is passed to a function depends on the processor. */
#define ldv8(from) (*(const anyv8 *)(const void *)(from))
#define ldv16(from) (*(const anyv16 *)(const void *)(from))
#define ldv32(from) (*(const anyv32 *)(const void *)(from))
#define ldv64(from) (*(const anyv64 *)(const void *)(from))
#define stv8(to, value) (void)(*(anyv8 *)(void *)(to) = (value))
#define stv16(to, value) (void)(*(anyv16 *)(void *)(to) = (value))
#define stv32(to, value) (void)(*(anyv32 *)(void *)(to) = (value))
#define stv64(to, value) (void)(*(anyv64 *)(void *)(to) = (value))

/* All bytes of a vector, combined by or. */
INLINE u8 any_at(const void *vector, int size)
{
    u64 bytes = 0;
    for (int at = 0; at < size; at += 8) bytes |= ld64((const u8 *)vector + at);
    bytes |= bytes >> 32;
    bytes |= bytes >> 16;
    return (u8)(bytes | bytes >> 8);
}

/* A bit for each of the first 8 bytes of a mask. */
INLINE u8 mask_at(const void *vector) { return (u8)((ld64(vector) & 0x8080808080808080u) * 0x0002040810204081u >> 56); }

#define any8(vector) __extension__({ v8 any_ = (vector); any_at(&any_, 8); })
#define any16(vector) __extension__({ v16 any_ = (vector); any_at(&any_, 16); })
#define any32(vector) __extension__({ v32 any_ = (vector); any_at(&any_, 32); })
#define any64(vector) __extension__({ v64 any_ = (vector); any_at(&any_, 64); })
#define mask8(vector) __extension__({ v8 mask_ = (vector); mask_at(&mask_); })
#define mask16(vector) __extension__({ v16 mask_ = (vector); (u16)(mask_at(&mask_) | mask_at((const u8 *)&mask_ + 8) << 8); })
/* 16 bytes of a vector, from byte `at` on; and the 8 bytes of a number. */
#define part16_of_64(vector, at) __extension__({ v64 part_ = (vector); ldv16((const u8 *)&part_ + (at)); })
#define part16_of_32(vector, at) __extension__({ v32 part_ = (vector); ldv16((const u8 *)&part_ + (at)); })
#define v8_of(number) __extension__({ u64 number_ = (number); ldv8(&number_); })

/* The functions of C that the proved code calls. The proofs assume what the toolchain's `libc` and `os` state about them. */
struct s_i64_i64 { u64 f0; u64 f1; };

/* Whether there is memory, and where. If there is none, the place is a byte that nobody owns. */
INLINE struct s_i64_i64 tried(void *block)
{
    static u8 nothing;
    return (struct s_i64_i64){ block != NULL, (uptr)(block ? block : (void *)&nothing) };
}

/* malloc keeps the alignment of every basic type, which is 8 bytes or more; for a larger one there is no memory, and for a size
 * that `size_t` can't hold there is none either. A size of 0 still requests a byte. C99 has neither max_align_t nor _Alignof. */
union basic { long long number; double real; long double longer; void *object; void (*function)(void); };
struct after_a_byte { char byte; union basic basic; };
enum { ALIGNMENT = offsetof(struct after_a_byte, basic) };
typedef char malloc_aligns_to_8_bytes[ALIGNMENT >= 8 ? 1 : -1];

INLINE struct s_i64_i64 rattle_alloc(u64 size, u64 align)
{
    return tried(align <= ALIGNMENT && size <= SIZE_MAX ? malloc(size ? size : align) : NULL);
}

INLINE struct s_i64_i64 rattle_realloc(u8 *block, u64 kept, u64 size, u64 align)
{
    (void)kept;
    return tried(size <= SIZE_MAX ? realloc(block, size ? size : align) : NULL);
}

/* An empty vector has no block. Its place is a local then, which gcc warns would be freed, though no way leads there. */
#ifndef __clang__
#pragma GCC diagnostic push
#pragma GCC diagnostic ignored "-Wfree-nonheap-object"
#endif
INLINE void rattle_dealloc(u8 *block)
{
    free(block);
}
#ifndef __clang__
#pragma GCC diagnostic pop
#endif

/* Further functions of C for a program: its arguments and environment, `errno`, and files. */
extern char **environ;

struct arguments { int count; char **words; };
extern struct arguments arguments;

INLINE void keep_arguments(int count, char **words)
{
    arguments.count = count;
    arguments.words = words;
}

/* Copies a text to the start of a buffer and returns its length; -1 if there is no text, -2 if it doesn't fit. */
INLINE u64 put(const char *text, u8 *to, u64 room)
{
    if (!text) return (u64)-1;
    for (u64 at = 0;; at++) {
        if (!text[at]) return at;
        if (at == room) return (u64)-2;
        to[at] = (u8)text[at];
    }
}

INLINE u64 rattle_arg_count(void)
{
    return (u64)arguments.count;
}

INLINE u64 rattle_arg(u64 number, u8 *to, u64 room)
{
    return put(number < (u64)arguments.count ? arguments.words[number] : NULL, to, room);
}

INLINE u64 rattle_env(u8 *name, u8 *to, u64 room)
{
    return put(getenv((const char *)name), to, room);
}

INLINE u64 rattle_env_at(u64 number, u8 *to, u64 room)
{
    char **entry = environ;
    while (entry && *entry && number) entry++, number--;
    return put(entry ? *entry : NULL, to, room);
}

INLINE u32 rattle_errno(void)
{
    return (u32)errno;
}

INLINE void rattle_set_errno(u32 number)
{
    errno = (int)number;
}

INLINE u64 c_read(u32 file, u8 *to, u64 room)
{
    return (u64)read((int)file, to, room);
}

INLINE u64 c_write(u32 file, u8 *from, u64 size)
{
    return (u64)write((int)file, from, size);
}

INLINE u64 c_lseek(u32 file, u64 offset, u32 whence)
{
    return (u64)lseek((int)file, (off_t)offset, (int)whence);
}

INLINE u32 c_chdir(u8 *path)
{
    return (u32)chdir((const char *)path);
}

INLINE u8 *c_getcwd(u8 *to, u64 room)
{
    return (u8 *)getcwd((char *)to, room);
}

/* Opens a file for reading, or a new or emptied one for writing: the programs need nothing else. The flags are those of Linux:
 * 0 in the last two bits is for reading, and these three bits are for the other. */
INLINE u32 c_open(u8 *path, u32 how, ...)
{
    if ((how & 3) == 0) return (u32)open((const char *)path, O_RDONLY | O_NOCTTY | O_CLOEXEC);
    if ((how & 0x243) == 0x241) return (u32)open((const char *)path, O_WRONLY | O_CREAT | O_TRUNC | O_NOCTTY | O_CLOEXEC, 0666);
    errno = EINVAL;
    return (u32)-1;
}

INLINE u32 c_close(u32 file)
{
    return (u32)close((int)file);
}

INLINE u32 c_strerror(u32 number, u8 *to, u64 room)
{
    return (u32)strerror_r((int)number, (char *)to, room);
}

/* Called at the start, with SIGPIPE and 1: then a write to a closed pipe fails, and doesn't end the program. */
INLINE u64 c_signal(u32 number, u64 how)
{
    return (uptr)signal((int)number, how == 1 ? SIG_IGN : SIG_DFL);
}

struct s_i8_i32 { u8 f0; u32 f1; };

/* mvN moves N bytes between places that may overlap. */
INLINE void mv7(u8 *to, const u8 *from) { u32 part0 = ld32(from); u16 part4 = ld16((from + 4)); u8 part6 = ld8((from + 6)); st32(to, part0); st16((to + 4), part4); st8((to + 6), part6); }
INLINE void mv8(u8 *to, const u8 *from) { u64 part0 = ld64(from); st64(to, part0); }
INLINE void mv16(u8 *to, const u8 *from) { u64 part0 = ld64(from); u64 part8 = ld64((from + 8)); st64(to, part0); st64((to + 8), part8); }
INLINE void mv23(u8 *to, const u8 *from) { u64 part0 = ld64(from); u64 part8 = ld64((from + 8)); u32 part16 = ld32((from + 16)); u16 part20 = ld16((from + 20)); u8 part22 = ld8((from + 22)); st64(to, part0); st64((to + 8), part8); st32((to + 16), part16); st16((to + 20), part20); st8((to + 22), part22); }
INLINE void mv24(u8 *to, const u8 *from) { u64 part0 = ld64(from); u64 part8 = ld64((from + 8)); u64 part16 = ld64((from + 16)); st64(to, part0); st64((to + 8), part8); st64((to + 16), part16); }
INLINE void mv32(u8 *to, const u8 *from) { u64 part0 = ld64(from); u64 part8 = ld64((from + 8)); u64 part16 = ld64((from + 16)); u64 part24 = ld64((from + 24)); st64(to, part0); st64((to + 8), part8); st64((to + 16), part16); st64((to + 24), part24); }
INLINE void mv40(u8 *to, const u8 *from) { u64 part0 = ld64(from); u64 part8 = ld64((from + 8)); u64 part16 = ld64((from + 16)); u64 part24 = ld64((from + 24)); u64 part32 = ld64((from + 32)); st64(to, part0); st64((to + 8), part8); st64((to + 16), part16); st64((to + 24), part24); st64((to + 32), part32); }

static const u8 g_static_0[6] = "--help";
static const u8 g_static_1[13] = "bad arguments";
static const u8 g_static_2[478] = "Usage: layout_tool canon NESTING WORDS\n"
    "  or:  layout_tool check NESTING WORDS\n"
    "  or:  layout_tool size NESTING WORDS\n"
    "  or:  layout_tool frame\n"
    "  or:  layout_tool unframe\n"
    "  or:  layout_tool framed-canon NESTING WORDS\n"
    "  or:  layout_tool framed-check NESTING WORDS\n"
    "Reads one message from standard input as hex digits: a line for each segment; for unframe and\n"
    "framed-check, one line with a frame. NESTING is the nesting limit, and WORDS the traversal limit in\n"
    "words; none is no limit.";
static const u8 g_static_3[9] = "bad input";
static const u8 g_static_5[1] = { 0 };
static const u8 g_static_6[1] = "\n";
static const u8 g_static_8[4] = "    ";
static const u8 g_static_10[5] = "frame";
static const u8 g_static_11[7] = "unframe";
static const u8 g_static_12[4] = "none";
static const u8 g_static_13[5] = "canon";
static const u8 g_static_14[5] = "check";
static const u8 g_static_15[4] = "size";
static const u8 g_static_16[12] = "framed-canon";
static const u8 g_static_17[12] = "framed-check";
static const u8 g_static_21[10] = "canonical\n";
static const u8 g_static_22[14] = "not canonical\n";
static const u8 g_static_26[6] = "words ";
static const u8 g_static_27[6] = " caps ";
static const u8 g_static_28[16] = "0123456789abcdef";
static const u8 g_static_30[18] = "canonical message\n";
static const u8 g_static_31[24] = "not a canonical message\n";
static const u8 g_static_32[8] = "refused ";
static const u8 g_static_33[9] = "NoMessage";
static const u8 g_static_34[16] = "AllocationFailed";
static const u8 g_static_35[44] = "CannotCreateACanonicalMessageWithACapability";
static const u8 g_static_36[34] = "CantHandleNonStructInlineComposite";
static const u8 g_static_37[33] = "ExistingListPointerIsNotByteSized";
static const u8 g_static_38[47] = "ExistingListValueIsIncompatibleWithExpectedType";
static const u8 g_static_39[25] = "ExistingPointerIsNotAList";
static const u8 g_static_40[48] = "ExpectedAPointerListButGotAListOfDataOnlyStructs";
static const u8 g_static_41[53] = "ExpectedAPrimitiveListButGotAListOfPointerOnlyStructs";
static const u8 g_static_42[38] = "FoundBitListWhereStructListWasExpected";
static const u8 g_static_43[38] = "FoundStructListWhereBitListWasExpected";
static const u8 g_static_44[47] = "InlineCompositeListsElementsOverrunItsWordCount";
static const u8 g_static_45[50] = "InlineCompositeListsOfNonStructTypeAreNotSupported";
static const u8 g_static_46[16] = "InvalidSegmentId";
static const u8 g_static_47[25] = "MalformedDoubleFarPointer";
static const u8 g_static_48[56] = "MessageContainsListPointerOfNonBytesWhereDataWasExpected";
static const u8 g_static_49[56] = "MessageContainsListPointerOfNonBytesWhereTextWasExpected";
static const u8 g_static_50[46] = "MessageContainsListWithIncompatibleElementType";
static const u8 g_static_51[68] = "MessageContainsNonCapabilityPointerWhereCapabilityPointerWasExpected";
static const u8 g_static_52[49] = "MessageContainsNonListPointerWhereDataWasExpected";
static const u8 g_static_53[56] = "MessageContainsNonListPointerWhereListPointerWasExpected";
static const u8 g_static_54[49] = "MessageContainsNonListPointerWhereTextWasExpected";
static const u8 g_static_55[60] = "MessageContainsNonStructPointerWhereStructPointerWasExpected";
static const u8 g_static_56[36] = "MessageContainsNullCapabilityPointer";
static const u8 g_static_57[33] = "MessageContainsOutOfBoundsPointer";
static const u8 g_static_58[41] = "MessageContainsTextThatIsNotNULTerminated";
static const u8 g_static_59[24] = "MessageIsTooDeeplyNested";
static const u8 g_static_60[40] = "MessageIsTooDeeplyNestedOrContainsCycles";
static const u8 g_static_61[15] = "MessageTooLarge";
static const u8 g_static_62[20] = "NestingLimitExceeded";
static const u8 g_static_63[11] = "NoSuchPlace";
static const u8 g_static_64[17] = "ReadLimitExceeded";
static const u8 g_static_65[28] = "TextBlobMissingNULTerminator";
static const u8 g_static_66[24] = "TriedToReadFromNullArena";
static const u8 g_static_67[20] = "UnexpectedFarPointer";
static const u8 g_static_68[18] = "UnknownPointerType";
static const u8 g_static_69[10] = "NoSegments";
static const u8 g_static_70[15] = "TooManySegments";
static const u8 g_static_71[14] = "MessageTooLong";
static const u8 g_static_72[9] = "Truncated";
static const u8 g_static_73[10] = "ReadFailed";
static const u8 g_static_74[11] = "WriteFailed";
static const u64 switch_table_capnp_copies_copy_copy_object_789b5ce0078f2be2[7] = { 0u, 1u, 8u, 16u, 32u, 64u, 0u };
static const u64 switch_table_capnp_messages_messages_copy_size_add_val_ffe97267[8] = { 0u, 1u, 8u, 16u, 32u, 64u, 0u, 0u };
static const u64 switch_table_capnp_pointers_pointers_canonical_test_li_58523f26[6] = { 0u, 1u, 8u, 16u, 32u, 64u };
static const struct place switch_table_capnp_layout_tool_engine_answer_refusal_0_d0ee3ebd[35] = { PLACE((const u8 *)g_static_34), PLACE((const u8 *)g_static_35), PLACE((const u8 *)g_static_36), PLACE((const u8 *)g_static_37), PLACE((const u8 *)g_static_38), PLACE((const u8 *)g_static_39), PLACE((const u8 *)g_static_40), PLACE((const u8 *)g_static_41), PLACE((const u8 *)g_static_42), PLACE((const u8 *)g_static_43), PLACE((const u8 *)g_static_44), PLACE((const u8 *)g_static_45), PLACE((const u8 *)g_static_46), PLACE((const u8 *)g_static_47), PLACE((const u8 *)g_static_48), PLACE((const u8 *)g_static_49), PLACE((const u8 *)g_static_50), PLACE((const u8 *)g_static_51), PLACE((const u8 *)g_static_52), PLACE((const u8 *)g_static_53), PLACE((const u8 *)g_static_54), PLACE((const u8 *)g_static_55), PLACE((const u8 *)g_static_56), PLACE((const u8 *)g_static_57), PLACE((const u8 *)g_static_58), PLACE((const u8 *)g_static_59), PLACE((const u8 *)g_static_60), PLACE((const u8 *)g_static_61), PLACE((const u8 *)g_static_62), PLACE((const u8 *)g_static_63), PLACE((const u8 *)g_static_64), PLACE((const u8 *)g_static_65), PLACE((const u8 *)g_static_66), PLACE((const u8 *)g_static_67), PLACE((const u8 *)g_static_68) };
static const u64 switch_table_capnp_layout_tool_engine_answer_refusal_0_fd87fa01[35] = { 16u, 44u, 34u, 33u, 47u, 25u, 48u, 53u, 38u, 38u, 47u, 50u, 16u, 25u, 56u, 56u, 46u, 68u, 49u, 56u, 49u, 60u, 36u, 33u, 41u, 24u, 40u, 15u, 20u, 11u, 17u, 28u, 24u, 20u, 18u };
static const struct place switch_table_capnp_layout_tool_engine_answer_refusal_0_24a7d607[7] = { PLACE((const u8 *)g_static_69), PLACE((const u8 *)g_static_70), PLACE((const u8 *)g_static_71), PLACE((const u8 *)g_static_72), PLACE((const u8 *)g_static_73), PLACE((const u8 *)g_static_74), PLACE((const u8 *)g_static_34) };
static const u64 switch_table_capnp_layout_tool_engine_answer_refusal_0_c95a7cd9[7] = { 10u, 15u, 14u, 9u, 10u, 11u, 16u };
static const u64 switch_table_main_18[5] = { 1u, 8u, 16u, 32u, 64u };

struct arguments arguments;
static NEVER COLD u8 std_alloc_vec_Vec_grow_amortized_fe53b0f2d1658541(u8 *a_1, u64 a_2);
static void core_str_utf8_from_utf8(u8 *a_1, u8 *a_2, u64 a_3);
static NEVER u64 core_slice_words_skip_far_52f9edcae2f82f51(u8 *a_1, u64 a_2, u64 a_3);
static NEVER COLD u8 std_alloc_vec_Vec_grow_amortized_b9be21092a786ac5(u8 *a_1);
static u8 core_cmp_text_RefStrPartialEq_eq(u8 *a_1, u8 *a_2);
static u8 std_io_io_buffer_Buffer_flush(u8 *a_1);
static void std_io_io_error_Error_from_raw_os_error(u8 *a_1, u32 a_2);
static NEVER COLD u8 core_fmt_formatter_Formatter_write_indented_bf264aed5fa78656(u8 *a_1, u8 *a_2, u64 a_3);
static u8 core_fmt_formatter_Formatter_write_raw_bf264aed5fa78656(u8 *a_1, u8 *a_2, u64 a_3);
static NEVER COLD u8 std_alloc_vec_Vec_grow_amortized_5400d4f5161e8cc6(u8 *a_1);
static NEVER COLD u8 std_alloc_vec_Vec_grow_amortized_8cb459f74eb976cc(u8 *a_1);
static NEVER void capnp_pointers_source_follow_far_70170357b7303457(u8 *a_1, u8 *a_2, u64 a_3, u8 *a_4);
static struct s_i8_i32 capnp_pointers_pointers_canonical_test_children_701703_62c5c8fc(u8 *a_1, u32 a_2, u32 a_3, u32 a_4, u32 a_5, u8 *a_6);
static NEVER struct s_i8_i32 capnp_pointers_pointers_canonical_test_list_70170357b7303457(u8 *a_1, u32 a_2, u64 a_3, u32 a_4, u32 a_5, u8 *a_6);
static struct s_i8_i32 capnp_pointers_pointers_canonical_test_elements_701703_cdfbd576(u8 *a_1, u32 a_2, u16 a_3, u16 a_4, u32 a_5, u32 a_6, u8 *a_7);
static NEVER COLD void std_io_buffered_BufWriter_write_cold_89ca6214804c96d4(u8 *a_1, u8 *a_2, u8 *a_3, u64 a_4);
static void std_io_buffered_BufWriter_flush_buf_89ca6214804c96d4(u8 *a_1, u8 *a_2);
static NEVER u8 capnp_pointers_pointers_sizes_add_object_70170357b7303457(u8 *a_1, u32 a_2, u32 a_3, u8 *a_4);
static NEVER void capnp_pointers_source_Source_measure_object_70170357b7303457(u8 *a_1, u8 *a_2, u8 *a_3, u32 a_4, u8 *a_5);
static NEVER u8 capnp_pointers_pointers_sizes_add_pointers_70170357b7303457(u8 *a_1, u32 a_2, u32 a_3, u32 a_4, u8 *a_5);
static u8 capnp_messages_text_write_number_05c50f83f81b9c23(u8 *a_1, u64 a_2);
static u8 capnp_layout_tool_frames_write_hex_u32_05c50f83f81b9c23(u8 *a_1, u32 a_2);
static u8 capnp_layout_tool_writing_write_hex_digits_05c50f83f81b9c23(u8 *a_1, u8 *a_2, u64 a_3);
static void capnp_layout_tool_framed_read_frame(u8 *a_1, u8 *a_2);
static void capnp_layout_tool_engine_answer_canon_8738c8d4622c75c1(u8 *a_1, u8 *a_2, u8 *a_3, u8 *a_4, u8 a_5, u8 *a_6);
static void capnp_messages_messages_canonical_copy_canonicalize_to_60f0b323(u8 *a_1, u8 *a_2, u8 *a_3, u8 *a_4, u32 a_5);
static NEVER COLD u8 std_alloc_vec_Vec_grow_amortized_044c3d3b74b9c55e(u8 *a_1, u64 a_2);
static NEVER COLD void capnp_messages_messages_copy_memory_CopySegment_zero_up_to(u8 *a_1, u64 a_2);
static NEVER COLD struct s_i8_i32 capnp_arena_arena_rows_allocate_in_4426f83c3c99ca57(u8 *a_1, u64 a_2, u32 a_3);
static NEVER COLD u32 capnp_arena_arena_rows_allocate_fitting_in_4426f83c3c99ca57(u8 *a_1, u64 a_2, u32 a_3);
static NEVER void capnp_copies_copy_copy_object_789b5ce0078f2be2(u8 *a_1, u8 *a_2, u32 a_3, u32 a_4, u8 *a_5, u8 *a_6, u8 a_7);
static void capnp_arena_arena_builder_arena_impl_BuilderArenaImplB_5cfff9e5(u8 *a_1, u32 a_2, u32 a_3, u64 a_4);
static NEVER COLD void capnp_arena_arena_rows_put_word_in_4426f83c3c99ca57(u8 *a_1, u64 a_2, u32 a_3, u64 a_4);
static struct s_i8_i32 capnp_arena_arena_builder_arena_impl_BuilderArenaImplB_7a3e4931(u8 *a_1, u32 a_2, u32 a_3);
static void capnp_arena_arena_builder_arena_impl_BuilderArenaImplB_c2fb55cd(u8 *a_1, u8 *a_2, u32 a_3);
static NEVER struct s_i8_i32 capnp_arena_arena_bounds_first_fit_by_bounds_4426f83c3c99ca57(u8 *a_1, u64 a_2, u32 a_3);
static void capnp_arena_traits_arena_writing_copy_words_5460ad12cd8c5480(u8 *a_1, u32 a_2, u32 a_3, u8 *a_4, u64 a_5);
static NEVER COLD u8 *capnp_arena_arena_rows_Rows_other_mut_4426f83c3c99ca57(u8 *a_1, u32 a_2);
static u64 capnp_words_words_used_words_in(u8 *a_1, u64 a_2, u64 a_3);
static NEVER u64 capnp_words_lanes_used_words_bound(u8 *a_1, u64 a_2);
static void capnp_copies_copy_elements_put_words_5460ad12cd8c5480(u8 *a_1, u32 a_2, u32 a_3, u8 *a_4, u64 a_5);
static NEVER COLD u64 capnp_arena_arena_rows_word_in_4426f83c3c99ca57(u8 *a_1, u64 a_2, u32 a_3);
static NEVER COLD void capnp_allocation_landing_follow_5460ad12cd8c5480(u8 *a_1, u8 *a_2, u32 a_3, u32 a_4);
static NEVER COLD void capnp_allocation_landing_follow_far_5460ad12cd8c5480(u8 *a_1, u8 *a_2, u64 a_3);
static NEVER COLD void capnp_allocation_zeroing_zero_target_5460ad12cd8c5480(u8 *a_1, u8 *a_2);
static void capnp_allocation_zeroing_zero_pointers_5460ad12cd8c5480(u8 *a_1, u32 a_2, u32 a_3, u32 a_4);
static void capnp_allocation_zeroing_zero_if_inside_5460ad12cd8c5480(u8 *a_1, u32 a_2, u32 a_3, u64 a_4);
static NEVER COLD void capnp_allocation_zeroing_zero_far_pads_5460ad12cd8c5480(u8 *a_1, u64 a_2);
static NEVER void capnp_copies_copy_children_copy_children_out_of_line_7_ae79832a(u8 *a_1, u8 *a_2, u32 a_3, u32 a_4, u8 *a_5, u32 a_6, u8 *a_7, u8 a_8);
static void capnp_messages_messages_copy_size_add_value_70170357b7303457(u8 *a_1, u8 *a_2, u32 a_3, u32 a_4, u32 a_5, u8 *a_6);
static void capnp_messages_messages_copy_size_add_elements_70170357b7303457(u8 *a_1, u8 *a_2, u16 a_3, u16 a_4, u32 a_5, u32 a_6, u8 *a_7);
static u32 capnp_messages_messages_copy_size_struct_words(u8 *a_1, u16 a_2, u16 a_3);
static NEVER void capnp_messages_messages_copy_size_add_pointers_70170357b7303457(u8 *a_1, u8 *a_2, u32 a_3, u32 a_4, u32 a_5, u32 a_6, u8 *a_7);
static NEVER COLD u8 std_alloc_vec_Vec_grow_amortized_0e5e43add44bc681(u8 *a_1);
static NEVER void capnp_arena_arena_builder_arena_impl_deallocate_others_af14abad(u8 *a_1, u8 *a_2);
static NEVER void core_slice_edits_mirror_e0f4f6844e27f7b4(u8 *a_1, u8 *a_2, u64 a_3);
static NEVER void capnp_pointers_source_follow_far_1e87a151ef20e12e(u8 *a_1, u8 *a_2, u64 a_3, u8 *a_4);
static struct s_i8_i32 capnp_pointers_pointers_canonical_test_children_1e87a1_c3c6e6a7(u8 *a_1, u32 a_2, u32 a_3, u32 a_4, u32 a_5, u8 *a_6);
static NEVER struct s_i8_i32 capnp_pointers_pointers_canonical_test_list_1e87a151ef20e12e(u8 *a_1, u32 a_2, u64 a_3, u32 a_4, u32 a_5, u8 *a_6);
static struct s_i8_i32 capnp_pointers_pointers_canonical_test_elements_1e87a1_bd40b792(u8 *a_1, u32 a_2, u16 a_3, u16 a_4, u32 a_5, u32 a_6, u8 *a_7);
static u8 capnp_layout_tool_engine_answer_refusal_05c50f83f81b9c23(u8 *a_1, u8 *a_2);
static u8 layout_tool_print_error(u8 *a_1, u64 a_2);

/* std_alloc::vec::Vec::grow_amortized::<#fe53b0f2d1658541> */
static NEVER COLD u8 std_alloc_vec_Vec_grow_amortized_fe53b0f2d1658541(u8 *a_1, u64 a_2)
{
    u64 r_52;
    u8 common_p7;
    u8 *r_08;
    u64 r_52_1;
    u64 t_e0;
    u64 common_za;
    struct s_i64_i64 r_q0;
    r_52 = ld64(away(a_1, 8ull));
    if (a_2 > (r_52 ^ 0xffffffffffffffffull)) { common_p7 = 0u; goto l_common_57; }
    goto l_join_4f;
l_common_57:;
    return common_p7;
l_join_4f:;
    r_08 = away(a_1, 16ull);
    r_52_1 = ld64(r_08);
    u64 a_by = umax64((r_52 + a_2), 8ull);
    t_e0 = umax64(a_by, (u64)(r_52_1 << 1ull));
    common_za = ((r_52_1 < 0x4000000000000000ull) ? t_e0 : a_by);
    if (!((i64)common_za > (i64)0xffffffffffffffffull)) { common_p7 = 0u; goto l_common_57; }
    if (r_52_1 == 0ull) goto l_std_aw;
    struct s_i64_i64 r_fk = rattle_realloc(ldp(a_1), r_52, common_za, 1ull);
    if ((u8)(r_fk.f0 & 1)) { r_q0 = r_fk; goto l_arm_m7; }
    common_p7 = 0u;
    goto l_common_57;
l_std_aw:;
    struct s_i64_i64 r_q1 = rattle_alloc(t_e0, 1ull);
    struct s_i64_i64 r_1y = r_q1;
    if ((u8)(r_1y.f0 & 1)) { r_q0 = r_1y; goto l_arm_m7; }
    common_p7 = 0u;
    goto l_common_57;
l_arm_m7:;
    stp(a_1, ((u8 *)(uptr)r_q0.f1));
    st64(r_08, common_za);
    common_p7 = 1u;
    goto l_common_57;
}

/* core::str::utf8::from_utf8 */
static void core_str_utf8_from_utf8(u8 *a_1, u8 *a_2, u64 a_3)
{
    A(8) u8 slot_1[16];
    u8 *r_x5;
    u64 r_e3;
    u8 *r_tl;
    u64 r_nq;
    u8 *r_tl_1;
    u8 r_47;
    u8 r_9k;
    u64 r_17;
    u64 r_bl;
    u64 r_r3;
    u64 common_ow;
    u64 r_hx;
    u64 r_hb;
    u64 r_ub;
    u64 r_r3_1;
    u64 r_65;
    u64 common_ag;
    u64 r_r3_2;
    u64 r_z1;
    u8 r_47_2;
    u32 r_i3;
    u8 r_47_3;
    u64 r_7v;
    u64 sink_79;
    u64 sink_b3;
    u64 a_f3;
    u8 r_1q;
    u64 r_b3;
    if (a_3 == 0ull) goto l_after_qh;
    r_x5 = (slot_1 + 8);
    r_e3 = (a_3 + 0xfffffffffffffff8ull);
    r_tl = away(a_2, r_e3);
    r_nq = 0ull;
l_join_kb:;
    r_tl_1 = away(a_2, r_nq);
    r_47 = ld8(r_tl_1);
    r_9k = ((i8)r_47 > (i8)255u);
    r_17 = (a_3 - r_nq);
    if (!(u8)((u8)(r_17 > 1ull) & (u8)r_9k)) goto l_join_mi;
    if (!((i8)ld8(away(r_tl_1, 1ull)) > (i8)255u)) { r_b3 = 1ull; goto l_join_z4; }
    stp(slot_1, a_2);
    st64(r_x5, a_3);
    if (r_17 < 8ull) { r_bl = r_nq; goto l_join_31; }
    goto l_join_80;
l_join_31:;
    if ((i8)ld8((a_2 + (i64)(r_bl))) < (i8)0u) { r_z1 = r_bl; goto l_loop_lp; }
    u64 r_7n = (r_bl + 1ull);
    if (r_7n == a_3) goto l_after_qh;
    r_bl = r_7n;
    goto l_join_31;
l_join_80:;
    r_r3 = (ld64(r_tl_1) & 0x8080808080808080ull);
    if (!(r_r3 == 0ull)) goto l_core_1k;
    common_ow = (r_nq + 8ull);
    goto l_join_gl;
l_core_1k:;
    u64 r_5q = ((u64)(cttz64(r_r3) >> 3ull) + r_nq);
    if (r_5q < (r_nq + 8ull)) { r_z1 = r_5q; goto l_loop_lp; }
    common_ow = r_5q;
l_join_gl:;
    if ((a_3 - common_ow) > 31ull) { r_hx = common_ow; goto l_then_0h; }
    r_hb = common_ow;
    goto l_loop_yz;
l_then_0h:;
    u8 *r_8z = away(a_2, r_hx);
    if (!(((((ld64(away(r_8z, 8ull)) | ld64(r_8z)) | ld64(away(r_8z, 16ull))) | ld64(away(r_8z, 24ull))) & 0x8080808080808080ull) == 0ull)) { r_hb = r_hx; goto l_loop_yz; }
    u64 r_9q = core_slice_words_skip_far_52f9edcae2f82f51(slot_1, (r_hx + 32ull), a_3);
    if ((a_3 - r_9q) > 31ull) { r_hx = r_9q; goto l_then_0h; }
    r_hb = r_9q;
l_loop_yz:;
    r_ub = r_hb;
l_loop_cz:;
    if (!((a_3 - r_ub) > 8ull)) goto l_after_d6;
    r_r3_1 = (ld64((a_2 + (i64)(r_ub))) & 0x8080808080808080ull);
    if (!(r_r3_1 == 0ull)) goto l_join_1k;
    u64 r_5q_1 = (r_ub + 8ull);
    r_65 = r_5q_1;
    common_ag = r_5q_1;
    goto l_core_6r;
l_join_1k:;
    r_65 = (r_ub + 8ull);
    common_ag = ((u64)(cttz64(r_r3_1) >> 3ull) + r_ub);
l_core_6r:;
    if (common_ag < r_65) { r_z1 = common_ag; goto l_loop_lp; }
    r_ub = r_65;
    goto l_loop_cz;
l_after_d6:;
    r_r3_2 = (ld64(r_tl) & 0x8080808080808080ull);
    if (r_r3_2 == 0ull) goto l_after_qh;
    r_z1 = ((u64)(cttz64(r_r3_2) >> 3ull) + r_e3);
l_loop_lp:;
    if (r_z1 < a_3) { r_nq = r_z1; goto l_join_kb; }
    goto l_after_qh;
l_join_mi:;
    if (r_9k) { r_b3 = 1ull; goto l_join_z4; }
    if (r_47 < 194u) { sink_79 = 1ull; sink_b3 = r_nq; a_f3 = 257ull; goto l_common_91; }
    if (!(r_47 < 224u)) goto l_else_cg;
    if (r_17 < 2ull) { sink_79 = 1ull; sink_b3 = r_nq; a_f3 = 0ull; goto l_common_91; }
    u8 r_47_1 = ld8(away(r_tl_1, 1ull));
    if ((i8)r_47_1 > (i8)191u) { r_1q = r_47_1; goto l_join_gq; }
    r_b3 = 2ull;
    goto l_join_z4;
l_else_cg:;
    if (!(r_47 < 240u)) goto l_else_it;
    if (r_17 < 3ull) goto l_join_yp;
    r_47_2 = ld8(away(r_tl_1, 1ull));
    if ((u8)((u8)((i8)r_47_2 > (i8)191u) | (u8)((i8)ld8(away(r_tl_1, 2ull)) > (i8)191u))) { r_1q = r_47_2; goto l_join_gq; }
    r_i3 = (((u32)((u32)r_47 << 6u) + 0xffffc780u) + (u32)r_47_2);
    if (r_i3 < 32u) { r_1q = r_47_2; goto l_join_gq; }
    if (r_i3 < 864u) { r_b3 = 3ull; goto l_join_z4; }
    r_7v = ((r_i3 < 896u) ? 0ull : 3ull);
    goto l_core_78;
l_else_it:;
    if (r_17 < 4ull) goto l_then_18;
    r_47_3 = ld8(away(r_tl_1, 1ull));
    if ((u8)((u8)(u8)((u8)((i8)r_47_3 > (i8)191u) | (u8)((i8)ld8(away(r_tl_1, 2ull)) > (i8)191u)) | (u8)((i8)ld8(away(r_tl_1, 3ull)) > (i8)191u))) goto l_then_18;
    u32 r_i3_1 = (((u32)((u32)r_47 << 6u) + 0xffffc380u) + (u32)r_47_3);
    if (r_i3_1 < 16u) goto l_then_18;
    r_7v = ((r_i3_1 < 272u) ? 4ull : 0ull);
l_core_78:;
    if (r_7v == 0ull) goto l_then_18;
    r_b3 = r_7v;
    goto l_join_z4;
l_common_91:;
    st64(a_1, sink_79);
    st64(away(a_1, 8ull), sink_b3);
    st64(away(a_1, 16ull), a_f3);
    return;
l_then_18:;
    if (!(r_47 < 245u)) { sink_79 = 1ull; sink_b3 = r_nq; a_f3 = 257ull; goto l_common_91; }
l_join_yp:;
    if (r_17 < 2ull) { sink_79 = 1ull; sink_b3 = r_nq; a_f3 = 0ull; goto l_common_91; }
    r_1q = ld8((r_tl_1 + 1));
l_join_gq:;
    if (!(u8)((u8)(((r_47 == 224u) ? 160u : ((r_47 == 240u) ? 144u : 128u)) <= r_1q) & (u8)(r_1q <= ((r_47 == 237u) ? 159u : ((r_47 == 244u) ? 143u : 191u))))) { sink_79 = 1ull; sink_b3 = r_nq; a_f3 = 257ull; goto l_common_91; }
    if (r_17 == 2ull) { sink_79 = 1ull; sink_b3 = r_nq; a_f3 = 0ull; goto l_common_91; }
    if (!((i8)ld8((r_tl_1 + 2)) < (i8)192u)) { sink_79 = 1ull; sink_b3 = r_nq; a_f3 = 513ull; goto l_common_91; }
    sink_79 = 1ull;
    sink_b3 = r_nq;
    a_f3 = ((r_17 > 3ull) ? 769ull : 0ull);
    goto l_common_91;
l_join_z4:;
    r_z1 = (r_b3 + r_nq);
    goto l_loop_lp;
l_after_qh:;
    sink_79 = 0ull;
    sink_b3 = (u64)(uptr)a_2;
    a_f3 = a_3;
    goto l_common_91;
}

/* core::slice::words::skip_far::<#52f9edcae2f82f51> */
static NEVER u64 core_slice_words_skip_far_52f9edcae2f82f51(u8 *a_1, u64 a_2, u64 a_3)
{
    u8 *r_mb;
    u64 r_8l;
    u64 r_z1;
    if (!((a_3 - a_2) > 63ull)) { r_z1 = a_2; goto l_after_91; }
    r_mb = ldp(a_1);
    r_8l = a_2;
l_then_61:;
    u8 *r_2b = away(r_mb, r_8l);
    if (!(((((((((ld64(away(r_2b, 16ull)) | ld64(r_2b)) | ld64(away(r_2b, 32ull))) | ld64(away(r_2b, 48ull))) | ld64(away(r_2b, 8ull))) | ld64(away(r_2b, 24ull))) | ld64(away(r_2b, 40ull))) | ld64(away(r_2b, 56ull))) & 0x8080808080808080ull) == 0ull)) { r_z1 = r_8l; goto l_after_91; }
    u64 r_za = (r_8l + 64ull);
    if ((a_3 - r_za) > 63ull) { r_8l = r_za; goto l_then_61; }
    r_z1 = r_za;
l_after_91:;
    return r_z1;
}

/* std_alloc::vec::Vec::grow_amortized::<#b9be21092a786ac5> */
static NEVER COLD u8 std_alloc_vec_Vec_grow_amortized_b9be21092a786ac5(u8 *a_1)
{
    u64 r_52;
    u8 common_p7;
    u8 *r_08;
    u64 r_52_1;
    u64 t_e0;
    u64 common_za;
    struct s_i64_i64 r_q0;
    r_52 = ld64(away(a_1, 8ull));
    if (r_52 == 0xffffffffffffffffull) { common_p7 = 0u; goto l_common_57; }
    goto l_join_4c;
l_common_57:;
    return common_p7;
l_join_4c:;
    r_08 = away(a_1, 16ull);
    r_52_1 = ld64(r_08);
    u64 a_pn = (umax64(r_52, 3ull) + 1ull);
    t_e0 = umax64(a_pn, (u64)(r_52_1 << 1ull));
    common_za = ((r_52_1 < 0x4000000000000000ull) ? t_e0 : a_pn);
    if (!(common_za < 0x555555555555556ull)) { common_p7 = 0u; goto l_common_57; }
    if (r_52_1 == 0ull) goto l_std_pn;
    struct s_i64_i64 r_v6 = rattle_realloc(ldp(a_1), (r_52 * 24ull), (common_za * 24ull), 8ull);
    if ((u8)(r_v6.f0 & 1)) { r_q0 = r_v6; goto l_arm_m7; }
    common_p7 = 0u;
    goto l_common_57;
l_std_pn:;
    struct s_i64_i64 r_yd = rattle_alloc((t_e0 * 24ull), 8ull);
    struct s_i64_i64 r_1y = r_yd;
    if ((u8)(r_1y.f0 & 1)) { r_q0 = r_1y; goto l_arm_m7; }
    common_p7 = 0u;
    goto l_common_57;
l_arm_m7:;
    stp(a_1, ((u8 *)(uptr)r_q0.f1));
    st64(r_08, common_za);
    common_p7 = 1u;
    goto l_common_57;
}

/* core::cmp::text::RefStrPartialEq::eq */
static u8 core_cmp_text_RefStrPartialEq_eq(u8 *a_1, u8 *a_2)
{
    u8 *r_mb;
    u64 r_qw;
    u8 *r_mb_1;
    u64 r_wy;
    u64 r_ob;
    u64 r_p7;
    u8 common_by;
    u8 common_p7;
    r_mb = ldp(a_1);
    r_qw = ld64((a_1 + 8));
    r_mb_1 = ldp(a_2);
    if (!(r_qw == ld64((a_2 + 8)))) { common_p7 = 0u; goto l_core_57; }
    if (!(r_qw < 8ull)) goto l_join_2o;
    if (!(r_qw > 3ull)) goto l_join_n6;
    u64 r_9h = (r_qw + 0xfffffffffffffffcull);
    r_wy = bswap64(((u64)((u64)ld32((r_mb_1 + (i64)(r_9h))) << 32ull) | (u64)ld32(r_mb_1)));
    r_ob = bswap64(((u64)((u64)ld32((r_mb + (i64)(r_9h))) << 32ull) | (u64)ld32(r_mb)));
    goto l_core_vs;
l_join_n6:;
    if (r_qw == 0ull) { r_wy = 0ull; r_ob = 0ull; goto l_core_vs; }
    u64 r_dt = (u64)(r_qw >> 1ull);
    u64 r_0f = (r_qw + 0xffffffffffffffffull);
    r_wy = (((u64)((u64)ld8((r_mb_1 + (i64)(r_dt))) << 8ull) | (u64)((u64)ld8(r_mb_1) << 16ull)) | (u64)ld8((r_mb_1 + (i64)(r_0f))));
    r_ob = (((u64)((u64)ld8((r_mb + (i64)(r_dt))) << 8ull) | (u64)((u64)ld8(r_mb) << 16ull)) | (u64)ld8((r_mb + (i64)(r_0f))));
l_core_vs:;
    common_p7 = (r_ob == r_wy);
    goto l_core_57;
l_join_2o:;
    if (!(r_qw < 33ull)) goto l_join_ui;
    u64 r_la = (r_qw + 0xfffffffffffffff8ull);
    u64 a_g7 = umin64(r_la, 8ull);
    u64 a_wx = umin64(r_la, 16ull);
    common_p7 = (u8)((u8)(u8)((u8)(u8)((u8)(ld64(r_mb) == ld64(r_mb_1)) & (u8)(ld64((r_mb + (i64)(a_g7))) == ld64((r_mb_1 + (i64)(a_g7))))) & (u8)(ld64((r_mb + (i64)(a_wx))) == ld64((r_mb_1 + (i64)(a_wx))))) & (u8)(ld64((r_mb + (i64)(r_la))) == ld64((r_mb_1 + (i64)(r_la)))));
    goto l_core_57;
l_join_ui:;
    if (!(r_qw < 65ull)) { r_p7 = 0ull; goto l_join_q7; }
    u64 r_8f = (r_qw + 0xfffffffffffffff0ull);
    u64 a_ot = umin64(r_8f, 32ull);
    common_by = (mask16(((((v16)(ldv16(r_mb) != ldv16(r_mb_1)) | (v16)(ldv16((r_mb + 16)) != ldv16((r_mb_1 + 16)))) | (v16)(ldv16((r_mb + (i64)(a_ot))) != ldv16((r_mb_1 + (i64)(a_ot))))) | (v16)(ldv16((r_mb + (i64)(r_8f))) != ldv16((r_mb_1 + (i64)(r_8f)))))) != 0u);
    goto l_core_3p;
l_loop_pe:;
    u64 r_w2 = (r_p7 + 64ull);
    if ((r_qw - r_w2) > 64ull) { r_p7 = r_w2; goto l_join_q7; }
    goto l_after_9n;
l_join_q7:;
    v64 r_nj = (v64)(ldv64((r_mb + (i64)(r_p7))) != ldv64((r_mb_1 + (i64)(r_p7))));
    if (mask16((v16)((w16)(((part16_of_64(r_nj, 16) | part16_of_64(r_nj, 0)) | part16_of_64(r_nj, 32)) | part16_of_64(r_nj, 48)) < (w16)(v16){ 0 })) == 0u) goto l_loop_pe;
    common_by = 1u;
    goto l_core_3p;
l_after_9n:;
    u64 r_20 = (r_qw + 0xffffffffffffffc0ull);
    v64 r_nj_1 = (v64)(ldv64((r_mb + (i64)(r_20))) != ldv64((r_mb_1 + (i64)(r_20))));
    common_by = (mask16((v16)((w16)(((part16_of_64(r_nj_1, 16) | part16_of_64(r_nj_1, 0)) | part16_of_64(r_nj_1, 32)) | part16_of_64(r_nj_1, 48)) < (w16)(v16){ 0 })) != 0u);
l_core_3p:;
    common_p7 = (u8)((u8)common_by ^ (u8)1u);
l_core_57:;
    return common_p7;
}

/* std_io::io::buffer::Buffer::flush */
static u8 std_io_io_buffer_Buffer_flush(u8 *a_1)
{
    A(8) u8 slot_1[88];
    A(8) u8 slot_2[32];
    u64 r_52;
    u8 common_p7;
    u8 *r_1x;
    u32 r_iy;
    u64 t_mz;
    u64 r_in;
    u64 r_ey;
    u64 r_c4;
    u64 r_5p;
    u64 r_11;
    u32 r_ky;
    u64 r_pa;
    u64 r_p1;
    u64 r_31;
    u64 r_zo;
    u64 r_8e;
    u64 r_fq;
    u64 r_oy;
    u32 r_cd;
    u8 r_wb;
    u8 r_45;
    u8 r_l9;
    u8 r_sw_1;
    u8 *r_ym = away(a_1, 1032ull);
    r_52 = ld64(r_ym);
    st64(r_ym, 0ull);
    if (r_52 > 1024ull) { common_p7 = 0u; goto l_common_57; }
    goto l_join_oo;
l_common_57:;
    return common_p7;
l_join_oo:;
    r_1x = away(a_1, 4ull);
    r_iy = ld32(a_1);
    t_mz = (r_52 + 63ull);
    r_in = 0ull;
    r_ey = 0ull;
l_arm_x4:;
    r_c4 = (r_ey + 1ull);
    if (r_52 > r_in) goto l_join_gp;
    common_p7 = 1u;
    goto l_common_57;
l_join_gp:;
    r_5p = (r_52 - r_in);
    r_11 = c_write(r_iy, away(r_1x, r_in), r_5p);
    if (!((i64)r_11 < (i64)0ull)) goto l_else_wv;
    r_ky = rattle_errno();
    if (r_ky == 4u) { r_pa = r_in; goto l_join_p8; }
    std_io_io_error_Error_from_raw_os_error(slot_1, r_ky);
    u8 r_r5 = ld8(slot_1);
    u8 r_dd = ld8((slot_1 + 1));
    u8 r_sw = ld8((slot_1 + 2));
    u8 r_dd_1 = ld8((slot_1 + 3));
    u32 r_uq = ld32((slot_1 + 4));
    u64 r_38 = ld64((slot_1 + 8));
    u64 r_38_1 = ld64((slot_1 + 16));
    u64 r_38_2 = ld64((slot_1 + 24));
    u64 r_38_3 = ld64((slot_1 + 32));
    u64 r_38_4 = ld64((slot_1 + 40));
    u64 r_38_5 = ld64((slot_1 + 48));
    mv32(slot_2, (slot_1 + 56));
    r_p1 = r_38_5;
    r_31 = r_38_4;
    r_zo = r_38_3;
    r_8e = r_38_2;
    r_fq = r_38_1;
    r_oy = r_38;
    r_cd = r_uq;
    r_wb = r_dd_1;
    r_45 = r_sw;
    r_l9 = r_dd;
    r_sw_1 = r_r5;
    goto l_arm_zg;
l_else_wv:;
    if (!(r_11 == 0ull)) goto l_else_p6;
    memset(slot_2, 46u, 32);
    r_p1 = 0x2e2e2e2e2e2e2e2eull;
    r_31 = 0x2e2e2e2e2e2e2e2eull;
    r_zo = 0x2e2e2e2e72656666ull;
    r_8e = 0x756220656c6f6877ull;
    r_fq = 0x206574697277206full;
    r_oy = 0x742064656c696166ull;
    r_cd = 0u;
    r_wb = 0u;
    r_45 = 28u;
    r_l9 = 23u;
    r_sw_1 = 2u;
    goto l_arm_zg;
l_else_p6:;
    r_pa = (umin64(r_11, r_5p) + r_in);
l_join_p8:;
    if (!(r_ey == t_mz)) { r_in = r_pa; r_ey = r_c4; goto l_arm_x4; }
    if (r_52 > r_pa) goto l_std_wt;
    common_p7 = 1u;
    goto l_common_57;
l_std_wt:;
    memset(slot_2, 0u, 32);
    r_p1 = 0ull;
    r_31 = 0ull;
    r_zo = 0ull;
    r_8e = 0ull;
    r_fq = 0ull;
    r_oy = 0ull;
    r_cd = 4u;
    r_wb = 0u;
    r_45 = 0u;
    r_l9 = 35u;
    r_sw_1 = 0u;
l_arm_zg:;
    st64(away(a_1, 1040ull), 1ull);
    st8(away(a_1, 1048ull), r_sw_1);
    st8(away(a_1, 1049ull), r_l9);
    st8(away(a_1, 1050ull), r_45);
    st8(away(a_1, 1051ull), r_wb);
    st32(away(a_1, 1052ull), r_cd);
    st64(away(a_1, 1056ull), r_oy);
    st64(away(a_1, 1064ull), r_fq);
    st64(away(a_1, 1072ull), r_8e);
    st64(away(a_1, 1080ull), r_zo);
    st64(away(a_1, 1088ull), r_31);
    st64(away(a_1, 1096ull), r_p1);
    mv32(away(a_1, 1104ull), slot_2);
    common_p7 = 0u;
    goto l_common_57;
}

/* std_io::io::error::Error::from_raw_os_error */
static void std_io_io_error_Error_from_raw_os_error(u8 *a_1, u32 a_2)
{
    u8 r_n9;
    if ((i32)a_2 < (i32)0u) { r_n9 = 41u; goto l_std_ck; }
    switch (a_2) {
    case 1u: { r_n9 = 1u; goto l_std_ck; }
    case 2u: goto l_arm_xv;
    case 4u: goto l_arm_xv_1;
    case 7u: goto l_arm_xv_2;
    case 11u: goto l_arm_xv_3;
    case 12u: goto l_arm_xv_4;
    case 13u: { r_n9 = 1u; goto l_std_ck; }
    case 16u: goto l_arm_xv_5;
    case 17u: goto l_arm_xv_6;
    case 18u: goto l_arm_xv_7;
    case 20u: goto l_arm_xv_8;
    case 21u: goto l_arm_xv_9;
    case 22u: goto l_arm_xv_10;
    case 26u: goto l_arm_xv_11;
    case 27u: goto l_arm_xv_12;
    case 28u: goto l_arm_xv_13;
    case 29u: goto l_arm_xv_14;
    case 30u: goto l_arm_xv_15;
    case 31u: goto l_arm_xv_16;
    case 32u: goto l_arm_xv_17;
    case 35u: goto l_arm_xv_18;
    case 36u: goto l_arm_xv_19;
    case 38u: goto l_arm_xv_20;
    case 39u: goto l_arm_xv_21;
    case 40u: goto l_arm_xv_22;
    case 95u: goto l_arm_xv_20;
    case 98u: goto l_arm_xv_23;
    case 99u: goto l_arm_xv_24;
    case 100u: goto l_arm_xv_25;
    case 101u: goto l_arm_xv_26;
    case 103u: goto l_arm_xv_27;
    case 104u: goto l_arm_xv_28;
    case 107u: goto l_arm_xv_29;
    case 110u: goto l_arm_xv_30;
    case 111u: goto l_arm_xv_31;
    case 113u: goto l_arm_xv_32;
    case 115u: goto l_arm_xv_33;
    case 116u: goto l_arm_xv_34;
    case 122u: goto l_arm_xv_35;
    default: goto l_default_xv;
    }
l_arm_xv:;
    r_n9 = 0u;
    goto l_std_ck;
l_arm_xv_1:;
    r_n9 = 35u;
    goto l_std_ck;
l_arm_xv_2:;
    r_n9 = 34u;
    goto l_std_ck;
l_arm_xv_3:;
    r_n9 = 13u;
    goto l_std_ck;
l_arm_xv_4:;
    r_n9 = 38u;
    goto l_std_ck;
l_arm_xv_5:;
    r_n9 = 28u;
    goto l_std_ck;
l_arm_xv_6:;
    r_n9 = 12u;
    goto l_std_ck;
l_arm_xv_7:;
    r_n9 = 31u;
    goto l_std_ck;
l_arm_xv_8:;
    r_n9 = 14u;
    goto l_std_ck;
l_arm_xv_9:;
    r_n9 = 15u;
    goto l_std_ck;
l_arm_xv_10:;
    r_n9 = 20u;
    goto l_std_ck;
l_arm_xv_11:;
    r_n9 = 29u;
    goto l_std_ck;
l_arm_xv_12:;
    r_n9 = 27u;
    goto l_std_ck;
l_arm_xv_13:;
    r_n9 = 24u;
    goto l_std_ck;
l_arm_xv_14:;
    r_n9 = 25u;
    goto l_std_ck;
l_arm_xv_15:;
    r_n9 = 17u;
    goto l_std_ck;
l_arm_xv_16:;
    r_n9 = 32u;
    goto l_std_ck;
l_arm_xv_17:;
    r_n9 = 11u;
    goto l_std_ck;
l_arm_xv_18:;
    r_n9 = 30u;
    goto l_std_ck;
l_arm_xv_19:;
    r_n9 = 33u;
    goto l_std_ck;
l_arm_xv_20:;
    r_n9 = 36u;
    goto l_std_ck;
l_arm_xv_21:;
    r_n9 = 16u;
    goto l_std_ck;
l_arm_xv_22:;
    r_n9 = 18u;
    goto l_std_ck;
l_arm_xv_23:;
    r_n9 = 8u;
    goto l_std_ck;
l_arm_xv_24:;
    r_n9 = 9u;
    goto l_std_ck;
l_arm_xv_25:;
    r_n9 = 10u;
    goto l_std_ck;
l_arm_xv_26:;
    r_n9 = 5u;
    goto l_std_ck;
l_arm_xv_27:;
    r_n9 = 6u;
    goto l_std_ck;
l_arm_xv_28:;
    r_n9 = 3u;
    goto l_std_ck;
l_arm_xv_29:;
    r_n9 = 7u;
    goto l_std_ck;
l_arm_xv_30:;
    r_n9 = 22u;
    goto l_std_ck;
l_arm_xv_31:;
    r_n9 = 2u;
    goto l_std_ck;
l_arm_xv_32:;
    r_n9 = 4u;
    goto l_std_ck;
l_arm_xv_33:;
    r_n9 = 39u;
    goto l_std_ck;
l_arm_xv_34:;
    r_n9 = 19u;
    goto l_std_ck;
l_arm_xv_35:;
    r_n9 = 26u;
    goto l_std_ck;
l_default_xv:;
    r_n9 = 41u;
l_std_ck:;
    st8(a_1, 0u);
    st8((a_1 + 1), r_n9);
    st8((a_1 + 2), 0u);
    st8((a_1 + 3), 0u);
    st32((a_1 + 4), a_2);
    memset((a_1 + 8), 0u, 80);
    return;
}

/* core::fmt::formatter::Formatter::write_indented::<#bf264aed5fa78656> */
static NEVER COLD u8 core_fmt_formatter_Formatter_write_indented_bf264aed5fa78656(u8 *a_1, u8 *a_2, u64 a_3)
{
    u8 *r_ur;
    u8 *r_89;
    u64 r_4q;
    u64 r_11;
    u64 r_36;
    u64 r_t9;
    u8 *r_8z;
    u64 r_52;
    u64 r_f5;
    u64 r_9y;
    u64 r_iv;
    u8 *r_8z_1;
    u8 *r_ur_1;
    u64 r_52_1;
    u64 r_f5_1;
    u8 r_fk;
    if (a_3 == 0ull) { r_fk = 0u; goto l_return_ri; }
    r_ur = away(a_1, 1168ull);
    r_89 = away(a_1, 1160ull);
    r_4q = 0ull;
    r_11 = 0ull;
l_core_q2:;
    r_36 = (r_11 + 1ull);
    if (!(ld8((a_2 + (i64)(r_11))) == 10u)) { r_9y = r_4q; goto l_join_lk; }
    r_t9 = (r_36 - r_4q);
    r_8z = away(a_2, ((r_4q > r_36) ? 0ull : r_4q));
    if (r_4q > r_11) { r_9y = r_36; goto l_join_lk; }
    if (!(u8)(ld8(r_ur) & 1)) goto l_core_vw;
    r_52 = ld64(r_89);
    if (r_52 == 0ull) goto l_core_vw;
    r_f5 = 0ull;
    goto l_join_gm;
l_loop_jt:;
    u64 r_36_1 = (r_f5 + 1ull);
    if (r_36_1 == r_52) goto l_core_vw;
    r_f5 = r_36_1;
l_join_gm:;
    u8 r_5h = core_fmt_formatter_Formatter_write_raw_bf264aed5fa78656(a_1, ((u8 *)g_static_8), 4ull);
    if ((u8)(r_5h & 1)) { r_fk = 1u; goto l_return_ri; }
    goto l_loop_jt;
l_core_vw:;
    st8(r_ur, 1u);
    u8 r_2w = core_fmt_formatter_Formatter_write_raw_bf264aed5fa78656(a_1, r_8z, r_t9);
    if ((u8)(r_2w & 1)) { r_fk = 1u; goto l_return_ri; }
    r_9y = r_36;
l_join_lk:;
    if (!(r_36 == a_3)) { r_4q = r_9y; r_11 = r_36; goto l_core_q2; }
    r_iv = usub_sat64(a_3, r_9y);
    r_8z_1 = away(a_2, ((r_9y > a_3) ? 0ull : r_9y));
    if (!(a_3 > r_9y)) { r_fk = 0u; goto l_return_ri; }
    r_ur_1 = away(a_1, 1168ull);
    if (!(u8)(ld8(r_ur_1) & 1)) goto l_arm_qt;
    r_52_1 = ld64(away(a_1, 1160ull));
    if (r_52_1 == 0ull) goto l_arm_qt;
    r_f5_1 = 0ull;
    goto l_join_gm_1;
l_loop_2r:;
    u64 r_36_2 = (r_f5_1 + 1ull);
    if (r_36_2 == r_52_1) goto l_arm_qt;
    r_f5_1 = r_36_2;
l_join_gm_1:;
    u8 r_5h_1 = core_fmt_formatter_Formatter_write_raw_bf264aed5fa78656(a_1, ((u8 *)g_static_8), 4ull);
    if ((u8)(r_5h_1 & 1)) { r_fk = 1u; goto l_return_ri; }
    goto l_loop_2r;
l_arm_qt:;
    st8(r_ur_1, 0u);
    u8 r_2w_1 = core_fmt_formatter_Formatter_write_raw_bf264aed5fa78656(a_1, r_8z_1, r_iv);
    r_fk = r_2w_1;
l_return_ri:;
    return r_fk;
}

/* core::fmt::formatter::Formatter::write_raw::<#bf264aed5fa78656> */
static u8 core_fmt_formatter_Formatter_write_raw_bf264aed5fa78656(u8 *a_1, u8 *a_2, u64 a_3)
{
    u64 r_ay;
    u8 r_47;
    u32 r_cf;
    u64 r_36;
    u8 r_47_1;
    u32 r_7w;
    u64 r_yc;
    u32 r_29;
    u64 r_hc;
    u64 common_vn;
    u8 *r_ym;
    u8 *r_1x;
    u64 r_9w;
    u64 r_uj;
    u8 *r_35;
    u8 *r_62;
    u64 r_zn;
    u8 r_47_2;
    u64 r_km;
    u8 r_fk;
    if (a_3 == 0ull) { r_fk = 0u; goto l_join_ri; }
    r_ay = 0ull;
l_join_tw:;
    r_47 = ld8((a_2 + (i64)(r_ay)));
    r_cf = (u32)r_47;
    if ((i8)r_47 > (i8)255u) { common_vn = 1ull; goto l_join_xq; }
    r_36 = (r_ay + 1ull);
    if (!(a_3 > r_36)) { r_fk = 1u; goto l_join_ri; }
    r_47_1 = ld8((a_2 + (i64)(r_36)));
    if ((i8)r_47_1 > (i8)255u) { r_fk = 1u; goto l_join_ri; }
    u8 narrow_pi = (u8)(umin8(r_47_1, 192u) & 127u);
    r_7w = (u32)narrow_pi;
    if ((r_47 < 194u) ? 1u : (narrow_pi > 63u)) { r_fk = 1u; goto l_join_ri; }
    if (r_47 < 224u) { common_vn = 2ull; goto l_join_xq; }
    r_yc = (r_ay + 2ull);
    if (!(a_3 > r_yc)) { r_fk = 1u; goto l_join_ri; }
    if (!((i8)ld8((a_2 + (i64)(r_yc))) < (i8)192u)) { r_fk = 1u; goto l_join_ri; }
    if (!(r_47 < 240u)) goto l_join_5z;
    r_29 = ((u32)(r_7w << 6u) | ((u32)(r_cf << 12u) + 0xfff20000u));
    if (r_29 < 2048u) { r_fk = 1u; goto l_join_ri; }
    if ((r_29 > 55295u) ? (r_47 < 238u) : 0u) { r_fk = 1u; goto l_join_ri; }
    common_vn = 3ull;
    goto l_join_xq;
l_join_5z:;
    r_hc = (r_ay + 3ull);
    if (!(a_3 > r_hc)) { r_fk = 1u; goto l_join_ri; }
    if (!((i8)ld8((a_2 + (i64)(r_hc))) < (i8)192u)) { r_fk = 1u; goto l_join_ri; }
    if ((((u32)(r_cf << 18u) + 0xfc3f0000u) + (u32)(r_7w << 12u)) < 0x100000u) { common_vn = 4ull; goto l_join_xq; }
    r_fk = 1u;
    goto l_join_ri;
l_join_xq:;
    u64 r_yd = (common_vn + r_ay);
    if (r_yd < a_3) { r_ay = r_yd; goto l_join_tw; }
    r_ym = away(a_1, 1032ull);
    r_1x = away(a_1, 4ull);
    r_9w = ld64(r_ym);
    r_uj = a_3;
    r_35 = a_2;
l_arm_65:;
    r_62 = away(r_35, 1ull);
    r_zn = (r_uj + 0xffffffffffffffffull);
    r_47_2 = ld8(r_35);
    if (!(r_9w > 1023ull)) { r_km = r_9w; goto l_std_41; }
    u8 r_09 = std_io_io_buffer_Buffer_flush(a_1);
    if (!r_09) { r_fk = 1u; goto l_join_ri; }
    u64 r_38 = ld64(r_ym);
    if (r_38 > 1023ull) { r_fk = 1u; goto l_join_ri; }
    r_km = r_38;
l_std_41:;
    st8((r_1x + (i64)(r_km)), r_47_2);
    u64 r_c4 = (r_km + 1ull);
    st64(r_ym, r_c4);
    if (r_zn == 0ull) { r_fk = 0u; goto l_join_ri; }
    r_9w = r_c4;
    r_uj = r_zn;
    r_35 = r_62;
    goto l_arm_65;
l_join_ri:;
    return r_fk;
}

/* std_alloc::vec::Vec::grow_amortized::<#5400d4f5161e8cc6> */
static NEVER COLD u8 std_alloc_vec_Vec_grow_amortized_5400d4f5161e8cc6(u8 *a_1)
{
    u64 r_52;
    u8 common_p7;
    u8 *r_08;
    u64 r_52_1;
    u64 t_e0;
    u64 common_za;
    struct s_i64_i64 r_q0;
    r_52 = ld64(away(a_1, 8ull));
    if (r_52 == 0xffffffffffffffffull) { common_p7 = 0u; goto l_common_57; }
    goto l_join_11;
l_common_57:;
    return common_p7;
l_join_11:;
    r_08 = away(a_1, 16ull);
    r_52_1 = ld64(r_08);
    u64 a_pn = (umax64(r_52, 7ull) + 1ull);
    t_e0 = umax64(a_pn, (u64)(r_52_1 << 1ull));
    common_za = ((r_52_1 < 0x4000000000000000ull) ? t_e0 : a_pn);
    if (!((i64)common_za > (i64)0xffffffffffffffffull)) { common_p7 = 0u; goto l_common_57; }
    if (r_52_1 == 0ull) goto l_std_aw;
    struct s_i64_i64 r_fk = rattle_realloc(ldp(a_1), r_52, common_za, 1ull);
    if ((u8)(r_fk.f0 & 1)) { r_q0 = r_fk; goto l_arm_m7; }
    common_p7 = 0u;
    goto l_common_57;
l_std_aw:;
    struct s_i64_i64 r_q1 = rattle_alloc(t_e0, 1ull);
    struct s_i64_i64 r_1y = r_q1;
    if ((u8)(r_1y.f0 & 1)) { r_q0 = r_1y; goto l_arm_m7; }
    common_p7 = 0u;
    goto l_common_57;
l_arm_m7:;
    stp(a_1, ((u8 *)(uptr)r_q0.f1));
    st64(r_08, common_za);
    common_p7 = 1u;
    goto l_common_57;
}

/* std_alloc::vec::Vec::grow_amortized::<#8cb459f74eb976cc> */
static NEVER COLD u8 std_alloc_vec_Vec_grow_amortized_8cb459f74eb976cc(u8 *a_1)
{
    u64 r_52;
    u8 common_p7;
    u8 *r_08;
    u64 r_52_1;
    u64 t_e0;
    u64 common_za;
    struct s_i64_i64 r_q0;
    r_52 = ld64(away(a_1, 8ull));
    if (r_52 == 0xffffffffffffffffull) { common_p7 = 0u; goto l_common_57; }
    goto l_join_4c;
l_common_57:;
    return common_p7;
l_join_4c:;
    r_08 = away(a_1, 16ull);
    r_52_1 = ld64(r_08);
    u64 a_pn = (umax64(r_52, 3ull) + 1ull);
    t_e0 = umax64(a_pn, (u64)(r_52_1 << 1ull));
    common_za = ((r_52_1 < 0x4000000000000000ull) ? t_e0 : a_pn);
    if (!(common_za < 0x555555555555556ull)) { common_p7 = 0u; goto l_common_57; }
    if (r_52_1 == 0ull) goto l_std_pn;
    struct s_i64_i64 r_v6 = rattle_realloc(ldp(a_1), (r_52 * 24ull), (common_za * 24ull), 8ull);
    if ((u8)(r_v6.f0 & 1)) { r_q0 = r_v6; goto l_arm_m7; }
    common_p7 = 0u;
    goto l_common_57;
l_std_pn:;
    struct s_i64_i64 r_yd = rattle_alloc((t_e0 * 24ull), 8ull);
    struct s_i64_i64 r_1y = r_yd;
    if ((u8)(r_1y.f0 & 1)) { r_q0 = r_1y; goto l_arm_m7; }
    common_p7 = 0u;
    goto l_common_57;
l_arm_m7:;
    stp(a_1, ((u8 *)(uptr)r_q0.f1));
    st64(r_08, common_za);
    common_p7 = 1u;
    goto l_common_57;
}

/* capnp_pointers::source::follow_far::<#70170357b7303457> */
static NEVER void capnp_pointers_source_follow_far_70170357b7303457(u8 *a_1, u8 *a_2, u64 a_3, u8 *a_4)
{
    u64 r_cy;
    u8 *r_rq;
    u8 *r_lz;
    u64 r_j0;
    u64 t_al;
    u32 t_ri;
    u8 r_hr;
    u32 i_io;
    u64 r_gw;
    u64 r_4d;
    u8 *r_rq_1;
    u64 r_52_1;
    u32 r_ab;
    u32 r_4r;
    u64 r_c0;
    u64 r_sw;
    u64 r_ef;
    u64 r_ep;
    u64 r_j0_1;
    u32 r_4r_1;
    u32 r_ab_1;
    u64 r_es;
    u64 r_7u;
    u64 r_lc;
    u64 r_nb;
    u64 r_z3;
    u32 r_vt;
    u32 r_8t;
    u64 r_49;
    u64 r_1t;
    u64 r_a3;
    u64 r_wr;
    u32 r_hb;
    u32 r_tf;
    r_cy = (u64)(a_3 >> 32ull);
    r_rq = away(a_2, 8ull);
    if (!(ld64(r_rq) > r_cy)) goto l_arm_y7;
    u8 *r_2b = away(ldp(a_2), (r_cy * 24ull));
    r_lz = ldp(r_2b);
    u64 r_52 = ld64(away(r_2b, 8ull));
    r_j0 = (r_52 & 0xfffffffffffffff8ull);
    t_al = (u64)(uptr)r_lz;
    t_ri = (u32)((u32)a_3 >> 3u);
    r_hr = ((a_3 & 4ull) == 0ull);
    i_io = (r_hr ? 1u : 2u);
    r_gw = (u64)(r_52 >> 3ull);
    if (r_gw < (u64)(i_io + t_ri)) { r_ef = 23ull; goto l_arm_c6; }
    goto l_join_zm;
l_arm_y7:;
    r_ef = ((a_3 & 0xffffffff00000000ull) | 12ull);
    goto l_arm_c6;
l_join_zm:;
    r_4d = (u64)i_io;
    if (!(ld8(a_4) == 1u)) goto l_arm_ol;
    r_rq_1 = away(a_4, 8ull);
    r_52_1 = ld64(r_rq_1);
    if (r_52_1 < r_4d) { r_ef = 30ull; goto l_arm_c6; }
    st64(a_4, 1ull);
    st64(r_rq_1, (r_52_1 - r_4d));
l_arm_ol:;
    r_ab = (u32)t_al;
    r_4r = (u32)(u64)(t_al >> 32ull);
    r_c0 = (u64)t_ri;
    if (!(r_gw > r_c0)) { r_sw = 0ull; goto l_capnp_0y; }
    r_sw = ld64(away(r_lz, (u64)(r_c0 << 3ull)));
l_capnp_0y:;
    if (r_hr) goto l_else_bd;
    goto l_then_wg;
l_common_68:;
    return;
l_arm_c6:;
    st64(a_1, 1ull);
    st64(away(a_1, 8ull), r_ef);
    memset(away(a_1, 16ull), 0u, 40);
    goto l_common_68;
l_then_wg:;
    r_ep = (u64)(r_sw >> 32ull);
    if (!(ld64(r_rq) > r_ep)) goto l_arm_8h;
    u8 *r_2b_1 = away(ldp(a_2), (r_ep * 24ull));
    r_j0_1 = (ld64(away(r_2b_1, 8ull)) & 0xfffffffffffffff8ull);
    u64 t_al_1 = (u64)(uptr)ldp(r_2b_1);
    r_4r_1 = (u32)(u64)(t_al_1 >> 32ull);
    r_ab_1 = (u32)t_al_1;
    r_es = (u64)(t_ri + 1u);
    if (!(r_gw > r_es)) { r_7u = 0ull; goto l_capnp_o6; }
    r_7u = ld64(away(r_lz, (u64)(r_es << 3ull)));
l_capnp_o6:;
    r_vt = r_ab_1;
    r_8t = r_4r_1;
    r_49 = r_j0_1;
    r_1t = 0ull;
    r_a3 = r_7u;
    r_wr = r_ep;
    r_hb = (u32)((u32)r_sw >> 3u);
    r_tf = 2u;
    goto l_join_s8;
l_arm_8h:;
    st64(a_1, 1ull);
    st64(away(a_1, 8ull), ((r_sw & 0xffffffff00000000ull) | 12ull));
    memset(away(a_1, 16ull), 0u, 40);
    goto l_common_68;
l_else_bd:;
    u64 r_m6 = ((u64)(r_sw >> 2ull) & 0x3fffffffull);
    r_lc = ((r_c0 + 1ull) + r_m6);
    r_nb = (r_gw & 0xffffffffull);
    if (!(r_m6 < 0x20000000ull)) goto l_else_70;
    if (r_lc > r_nb) { r_vt = 0u; r_8t = 0u; r_49 = 0ull; r_1t = 1ull; r_a3 = 23ull; r_wr = 0ull; r_hb = 0u; r_tf = 0u; goto l_join_s8; }
    r_z3 = r_lc;
    goto l_arm_eo;
l_else_70:;
    u64 r_3o = (r_lc + 0xffffffffc0000000ull);
    if ((r_lc < 0x40000000ull) ? 1u : (r_3o > r_nb)) { r_vt = 0u; r_8t = 0u; r_49 = 0ull; r_1t = 1ull; r_a3 = 23ull; r_wr = 0ull; r_hb = 0u; r_tf = 0u; goto l_join_s8; }
    r_z3 = r_3o;
l_arm_eo:;
    r_vt = r_ab;
    r_8t = r_4r;
    r_49 = r_j0;
    r_1t = 0ull;
    r_a3 = r_sw;
    r_wr = r_cy;
    r_hb = (u32)r_z3;
    r_tf = 1u;
l_join_s8:;
    st64(a_1, r_1t);
    st64(away(a_1, 8ull), r_a3);
    st64(away(a_1, 16ull), r_wr);
    st32(away(a_1, 24ull), r_vt);
    st32(away(a_1, 28ull), r_8t);
    st64(away(a_1, 32ull), r_49);
    st32(away(a_1, 40ull), r_hb);
    st32(away(a_1, 44ull), 0u);
    st32(away(a_1, 48ull), r_tf);
    st32(away(a_1, 52ull), 0u);
    goto l_common_68;
}

/* capnp_pointers::pointers::canonical::test_children::<#70170357b7303457> */
static struct s_i8_i32 capnp_pointers_pointers_canonical_test_children_701703_62c5c8fc(u8 *a_1, u32 a_2, u32 a_3, u32 a_4, u32 a_5, u8 *a_6)
{
    u8 *r_xz;
    u8 *r_xm;
    u8 *r_su;
    u8 *r_08;
    u8 r_30;
    u8 *r_rq;
    u8 *r_xz_1;
    u8 *r_xm_1;
    u8 *r_8x;
    u8 *r_su_1;
    u8 *r_9e;
    u8 *r_z0;
    u32 r_y0;
    u64 wide_7l;
    u32 r_kr;
    u64 indvars_fi;
    u32 r_l6;
    u32 r_7m;
    u64 r_24;
    u64 r_gw;
    u64 r_qw;
    u64 r_ep;
    u64 r_y6;
    u64 r_lc;
    u8 t_pa;
    u64 r_lc_1;
    u64 r_nb;
    u64 r_09;
    u32 r_4r;
    u8 r_8u;
    u64 r_52;
    u32 r_8d;
    u32 r_12;
    u32 r_az;
    u32 r_p4;
    u32 r_w0;
    u32 r_w0_1;
    u8 r_ts;
    struct s_i8_i32 r_d4;
    u32 r_xo;
    u64 r_qw_3;
    u8 *r_rv;
    u64 r_qw_4;
    u64 r_24_1;
    u64 r_24_2;
    u32 r_tu;
    u8 r_di;
    u64 r_ep_1;
    u64 r_ij;
    u64 r_c6;
    u8 t_0c;
    u64 r_lc_2;
    u64 r_nb_1;
    u64 r_09_1;
    u32 r_4r_1;
    u64 r_52_1;
    u32 narrow_gg;
    u64 r_52_2;
    u32 r_w0_2;
    u64 r_4i;
    u32 r_tu_1;
    u8 r_di_1;
    struct s_i8_i32 r_cp;
    u8 sink_vv;
    u32 r_us;
    u8 r_1x;
    if (a_3 == 0u) { r_us = a_5; r_1x = 0u; goto l_return_pr; }
    r_xz = away(a_1, 24ull);
    r_xm = away(a_1, 32ull);
    r_su = away(a_1, 40ull);
    r_08 = away(a_6, 16ull);
    r_30 = ((i32)a_4 < (i32)1u);
    r_rq = away(a_6, 8ull);
    r_xz_1 = away(a_6, 24ull);
    r_xm_1 = away(a_6, 32ull);
    r_8x = away(a_6, 36ull);
    r_su_1 = away(a_6, 40ull);
    r_9e = away(a_6, 44ull);
    r_z0 = away(a_6, 45ull);
    r_y0 = (a_4 + 0xffffffffu);
    wide_7l = (u64)a_3;
    indvars_fi = 0ull;
    r_l6 = a_5;
    goto l_join_7l;
l_loop_2y:;
    u64 indvars_r7 = (indvars_fi + 1ull);
    if (indvars_r7 == wide_7l) { r_us = r_kr; r_1x = 0u; goto l_return_pr; }
    indvars_fi = indvars_r7;
    r_l6 = r_kr;
l_join_7l:;
    r_7m = (a_2 + (u32)indvars_fi);
    r_24 = (u64)r_7m;
    r_gw = (u64)(ld64(r_su) >> 3ull);
    if (!(r_gw > r_24)) { sink_vv = 1u; goto l_return_9r; }
    r_qw = ld64(away(ldp(r_xm), (u64)(r_24 << 3ull)));
    if ((r_qw & 2ull) == 0ull) goto l_join_1j;
    sink_vv = (((r_qw & 3ull) == 2ull) ? 2u : (((r_qw & 0xffffffffull) == 3ull) ? 3u : 4u));
    goto l_return_9r;
l_join_1j:;
    if (r_qw == 0ull) { r_kr = r_l6; goto l_loop_2y; }
    if (!((r_qw & 1ull) == 0ull)) goto l_arm_ui;
    r_ep = (u64)(r_qw >> 32ull);
    r_y6 = (u64)(r_qw >> 48ull);
    r_lc = ((r_ep & 65535ull) + r_y6);
    t_pa = (ld8(a_1) != 0u);
    if (t_pa) goto l_join_o1;
    st64(r_08, uadd_sat64(ld64(r_08), 1ull));
l_join_o1:;
    u64 r_m6 = ((u64)(r_qw >> 2ull) & 0x3fffffffull);
    r_lc_1 = ((r_24 + 1ull) + r_m6);
    r_nb = (r_gw & 0xffffffffull);
    if (!(r_m6 < 0x20000000ull)) goto l_else_70;
    if (r_lc_1 > r_nb) { r_p4 = 23u; goto l_arm_rm; }
    r_09 = r_lc_1;
    goto l_arm_f4;
l_else_70:;
    u64 r_3o = (r_lc_1 + 0xffffffffc0000000ull);
    if ((r_lc_1 < 0x40000000ull) ? 1u : (r_3o > r_nb)) { r_p4 = 23u; goto l_arm_rm; }
    r_09 = r_3o;
l_arm_f4:;
    r_4r = (u32)r_09;
    if (r_30) { r_p4 = 26u; goto l_arm_rm; }
    r_8u = (r_nb < (r_09 + r_lc));
    if ((u8)((u8)t_pa | (u8)r_8u)) goto l_capnp_bj;
    if (!(ld8(a_6) == 1u)) { r_8d = r_4r; goto l_arm_7c; }
    r_52 = ld64(r_rq);
    if (r_52 < r_lc) { r_p4 = 30u; goto l_arm_rm; }
    st64(a_6, 1ull);
    st64(r_rq, (r_52 - r_lc));
    r_8d = r_4r;
    goto l_arm_7c;
l_capnp_bj:;
    if (r_8u) { r_p4 = (r_8u ? 23u : 0u); goto l_arm_rm; }
    r_8d = (r_8u ? 0u : r_4r);
l_arm_7c:;
    r_12 = (u32)r_y6;
    r_az = ((u32)r_ep & 65535u);
    if ((r_az | r_12) == 0u) goto l_then_h5;
    goto l_join_8x;
l_arm_rm:;
    st64(r_xz_1, 1ull);
    st32(r_xm_1, r_p4);
    st32(r_8x, 0u);
    st64(r_su_1, 0ull);
    r_tu = 0u;
    r_di = 1u;
    goto l_capnp_cm;
l_then_h5:;
    if (r_8d == r_7m) { r_tu = r_l6; r_di = 0u; goto l_capnp_cm; }
    u64 r_qw_1 = ld64(r_xz);
    st64(r_xz_1, 0ull);
    st64(r_xm_1, r_qw_1);
    st32(r_su_1, r_7m);
    st8(r_9e, 5u);
    memset(r_z0, 0u, 3);
    r_tu = 0u;
    r_di = 1u;
    goto l_capnp_cm;
l_join_8x:;
    if (r_8d == r_l6) goto l_join_p3;
    u64 r_qw_2 = ld64(r_xz);
    st64(r_xz_1, 0ull);
    st64(r_xm_1, r_qw_2);
    st32(r_su_1, r_7m);
    st8(r_9e, 6u);
    memset(r_z0, 0u, 3);
    r_tu = 0u;
    r_di = 1u;
    goto l_capnp_cm;
l_join_p3:;
    r_w0 = (r_l6 + r_az);
    r_w0_1 = (r_w0 + r_12);
    r_ts = (r_y6 == 0ull);
    if (!r_ts) goto l_join_os;
    struct s_i8_i32 t_ph = (struct s_i8_i32){ 0u, 0u };
    t_ph.f1 = r_w0_1;
    r_d4 = t_ph;
    goto l_capnp_o7;
l_join_os:;
    struct s_i8_i32 r_p5 = capnp_pointers_pointers_canonical_test_children_701703_62c5c8fc(a_1, r_w0, r_12, r_y0, r_w0_1, a_6);
    r_d4 = r_p5;
l_capnp_o7:;
    r_xo = r_d4.f1;
    if (!(r_d4.f0 == 0u)) { r_tu = 0u; r_di = 1u; goto l_capnp_cm; }
    r_qw_3 = ld64(r_xz);
    r_rv = ldp(r_xm);
    r_qw_4 = ld64(r_su);
    if (r_az == 0u) goto l_join_vo;
    r_24_1 = (u64)((r_az + 0xffffffffu) + r_l6);
    if (!((u64)(r_qw_4 >> 3ull) > r_24_1)) goto l_then_77;
    if (!(ld64(away(r_rv, (u64)(r_24_1 << 3ull))) == 0ull)) goto l_join_vo;
l_then_77:;
    st64(r_xz_1, 0ull);
    st64(r_xm_1, r_qw_3);
    st32(r_su_1, (r_w0 + 0xffffffffu));
    st8(r_9e, 8u);
    memset(r_z0, 0u, 3);
    r_tu = 0u;
    r_di = 1u;
    goto l_capnp_cm;
l_join_vo:;
    if (r_ts) { r_tu = r_xo; r_di = 0u; goto l_capnp_cm; }
    r_24_2 = (u64)((r_12 + 0xffffffffu) + r_w0);
    if (!((u64)(r_qw_4 >> 3ull) > r_24_2)) goto l_then_77_1;
    if (!(ld64(away(r_rv, (u64)(r_24_2 << 3ull))) == 0ull)) { r_tu = r_xo; r_di = 0u; goto l_capnp_cm; }
l_then_77_1:;
    st64(r_xz_1, 0ull);
    st64(r_xm_1, r_qw_3);
    st32(r_su_1, (r_w0_1 + 0xffffffffu));
    st8(r_9e, 9u);
    memset(r_z0, 0u, 3);
    r_tu = 0u;
    r_di = 1u;
l_capnp_cm:;
    struct s_i8_i32 r_9l = (struct s_i8_i32){ 0 };
    r_9l.f0 = r_di;
    struct s_i8_i32 r_i6 = r_9l;
    r_i6.f1 = r_tu;
    r_cp = r_i6;
    goto l_capnp_7u;
l_arm_ui:;
    r_ep_1 = (u64)(r_qw >> 32ull);
    if (!((u8)((u8)((u8)r_ep_1 & 7u) + 255u) < 5u)) goto l_join_t5;
    r_ij = (u64)(r_qw >> 35ull);
    r_c6 = (u64)(((ld64(away(away(((u8 *)switch_table_main_18), 8 * (r_ep_1 & 7ull)), 0xfffffffffffffff8ull)) * r_ij) + 63ull) >> 6ull);
    t_0c = (ld8(a_1) == 0u);
    if (!t_0c) goto l_join_bd;
    st64(r_08, uadd_sat64(ld64(r_08), 1ull));
l_join_bd:;
    u64 r_m6_1 = ((u64)(r_qw >> 2ull) & 0x3fffffffull);
    r_lc_2 = ((r_24 + 1ull) + r_m6_1);
    r_nb_1 = (r_gw & 0xffffffffull);
    if (!(r_m6_1 < 0x20000000ull)) goto l_else_70_1;
    if (r_lc_2 > r_nb_1) { narrow_gg = 23u; goto l_arm_dw; }
    r_09_1 = r_lc_2;
    goto l_arm_f4_1;
l_else_70_1:;
    u64 r_3o_1 = (r_lc_2 + 0xffffffffc0000000ull);
    if ((r_lc_2 < 0x40000000ull) ? 1u : (r_3o_1 > r_nb_1)) { narrow_gg = 23u; goto l_arm_dw; }
    r_09_1 = r_3o_1;
l_arm_f4_1:;
    r_4r_1 = (u32)r_09_1;
    if (r_30) { narrow_gg = 28u; goto l_arm_dw; }
    if (r_nb_1 < (r_c6 + (r_09_1 & 0xffffffffull))) { narrow_gg = 23u; goto l_arm_dw; }
    if (!t_0c) goto l_arm_8x;
    if (!(ld8(a_6) == 1u)) goto l_arm_8x;
    r_52_1 = ld64(r_rq);
    if (r_52_1 < r_c6) { narrow_gg = 30u; goto l_arm_dw; }
    st64(a_6, 1ull);
    st64(r_rq, (r_52_1 - r_c6));
l_arm_8x:;
    if (r_l6 == r_4r_1) goto l_join_ta;
    goto l_then_9r;
l_arm_dw:;
    st64(r_xz_1, 1ull);
    st32(r_xm_1, narrow_gg);
    st32(r_8x, 0u);
    st64(r_su_1, 0ull);
    r_tu_1 = 0u;
    r_di_1 = 1u;
    goto l_capnp_cm_1;
l_then_9r:;
    u64 r_qw_5 = ld64(r_xz);
    st64(r_xz_1, 0ull);
    st64(r_xm_1, r_qw_5);
    st32(r_su_1, r_7m);
    st8(r_9e, 6u);
    memset(r_z0, 0u, 3);
    r_tu_1 = 0u;
    r_di_1 = 1u;
    goto l_capnp_cm_1;
l_join_ta:;
    r_52_2 = ld64(r_xz);
    u64 r_1q = (ld64(away(away(((u8 *)switch_table_main_18), 8 * (r_ep_1 & 7ull)), 0xfffffffffffffff8ull)) * r_ij);
    r_w0_2 = (r_l6 + (u32)(u64)(r_1q >> 6ull));
    r_4i = (r_1q & 63ull);
    if (r_4i == 0ull) { r_tu_1 = r_w0_2; r_di_1 = 0u; goto l_capnp_cm_1; }
    if (any8(v8_of((u64)(ld64(away(ldp(r_xm), (u64)((u64)r_w0_2 << 3ull))) >> (r_4i & 63u)))) == 0u) { r_tu_1 = (r_w0_2 + 1u); r_di_1 = 0u; goto l_capnp_cm_1; }
    st64(r_xz_1, 0ull);
    st64(r_xm_1, r_52_2);
    st32(r_su_1, r_w0_2);
    st8(r_9e, 7u);
    memset(r_z0, 0u, 3);
    r_tu_1 = 0u;
    r_di_1 = 1u;
l_capnp_cm_1:;
    struct s_i8_i32 r_9l_1 = (struct s_i8_i32){ 0 };
    r_9l_1.f0 = r_di_1;
    struct s_i8_i32 r_i6_1 = r_9l_1;
    r_i6_1.f1 = r_tu_1;
    r_cp = r_i6_1;
    goto l_capnp_7u;
l_join_t5:;
    struct s_i8_i32 r_1d = capnp_pointers_pointers_canonical_test_list_70170357b7303457(a_1, r_7m, r_qw, a_4, r_l6, a_6);
    r_cp = r_1d;
l_capnp_7u:;
    if (r_cp.f0 == 0u) { r_kr = r_cp.f1; goto l_loop_2y; }
    r_us = 0u;
    r_1x = 1u;
    goto l_return_pr;
l_return_9r:;
    u64 r_qw_6 = ld64(r_xz);
    st64(r_xz_1, 0ull);
    st64(r_xm_1, r_qw_6);
    st32(r_su_1, r_7m);
    st8(r_9e, sink_vv);
    memset(r_z0, 0u, 3);
    r_us = 0u;
    r_1x = 1u;
l_return_pr:;
    struct s_i8_i32 r_9l_2 = (struct s_i8_i32){ 0 };
    r_9l_2.f0 = r_1x;
    struct s_i8_i32 r_i6_2 = r_9l_2;
    r_i6_2.f1 = r_us;
    return r_i6_2;
}

/* capnp_pointers::pointers::canonical::test_list::<#70170357b7303457> */
static NEVER struct s_i8_i32 capnp_pointers_pointers_canonical_test_list_70170357b7303457(u8 *a_1, u32 a_2, u64 a_3, u32 a_4, u32 a_5, u8 *a_6)
{
    A(8) u8 slot_1[56];
    u8 *r_xz;
    u64 r_52;
    u8 *r_xw;
    u64 r_38;
    u8 r_y8;
    u8 *r_xw_1;
    u64 r_7l;
    u64 r_gw;
    u64 r_qw;
    u8 t_pa;
    u64 r_lc;
    u64 r_nb;
    u64 r_yz;
    u32 r_nz;
    u64 r_tc;
    u64 r_l8;
    u64 r_3g;
    u8 *r_n9;
    u64 r_ep;
    u64 r_y6;
    u64 r_lc_1;
    u8 *r_rq;
    u64 r_52_1;
    u8 switch_wl;
    u64 r_ij;
    u64 r_c4;
    u64 r_24;
    u64 r_gw_1;
    u8 *r_rq_1;
    u64 r_52_2;
    u64 r_eh;
    u32 t_c8;
    u64 r_ep_1;
    u64 r_y6_1;
    u32 r_12;
    u32 r_az;
    u32 r_68;
    u64 r_c0;
    u8 *r_rq_2;
    u64 r_52_3;
    u32 r_ll;
    u16 t_xg;
    u16 r_py;
    u32 r_12_1;
    u8 *r_rq_3;
    u64 r_52_4;
    u8 *r_rq_4;
    u64 r_52_5;
    u64 r_7e;
    u64 r_c6;
    u8 *r_rq_5;
    u64 r_52_6;
    u64 r_2g;
    u64 r_gm;
    u64 r_dv;
    u8 r_yl;
    u8 r_xq;
    u32 r_mr;
    u64 r_2n;
    u32 r_id;
    u8 r_ru;
    u8 *r_xz_1;
    u32 r_eh_1;
    u64 r_4i;
    u32 r_y0;
    u32 r_68_1;
    u32 r_us;
    u8 r_1x;
    r_xz = away(a_1, 24ull);
    r_52 = ld64(r_xz);
    r_xw = ldp(away(a_1, 32ull));
    r_38 = ld64(away(a_1, 40ull));
    r_y8 = ld8(a_1);
    r_xw_1 = ldp(away(a_1, 8ull));
    r_7l = (u64)a_2;
    r_gw = (u64)(r_38 >> 3ull);
    if (!(r_gw > r_7l)) goto l_arm_um;
    r_qw = ld64(away(r_xw, (u64)(r_7l << 3ull)));
    if (r_qw == 0ull) goto l_arm_um;
    memset(slot_1, 0u, 56);
    t_pa = (r_y8 != 0u);
    if (t_pa) goto l_capnp_sm;
    u8 *r_08 = away(a_6, 16ull);
    st64(r_08, uadd_sat64(ld64(r_08), 1ull));
    if ((r_qw & 3ull) == 2ull) goto l_capnp_d1;
    goto l_join_bd;
l_capnp_sm:;
    if (!((r_qw & 3ull) == 2ull)) goto l_join_bd;
    st32((slot_1 + 8), 32u);
    r_2g = ld64((slot_1 + 8));
    goto l_capnp_8g;
l_join_bd:;
    u64 r_m6 = ((u64)(r_qw >> 2ull) & 0x3fffffffull);
    r_lc = ((r_7l + 1ull) + r_m6);
    r_nb = (r_gw & 0xffffffffull);
    if (!(r_m6 < 0x20000000ull)) goto l_else_70;
    if (r_lc > r_nb) { r_2g = 23ull; goto l_capnp_8g; }
    r_yz = r_lc;
    goto l_capnp_i5;
l_else_70:;
    u64 r_3o = (r_lc + 0xffffffffc0000000ull);
    if ((r_lc < 0x40000000ull) ? 1u : (r_3o > r_nb)) { r_2g = 23ull; goto l_capnp_8g; }
    r_yz = r_3o;
l_capnp_i5:;
    r_nz = (u32)r_yz;
    r_tc = r_52;
    r_l8 = r_qw;
    r_3g = r_38;
    r_n9 = r_xw;
    goto l_arm_s6;
l_capnp_d1:;
    capnp_pointers_source_follow_far_70170357b7303457(slot_1, r_xw_1, r_qw, a_6);
    u64 r_38_1 = ld64((slot_1 + 16));
    u64 r_38_2 = ld64((slot_1 + 8));
    if (ld8(slot_1) == 0u) { r_nz = ld32((slot_1 + 40)); r_tc = r_38_1; r_l8 = r_38_2; r_3g = ld64((slot_1 + 32)); r_n9 = ((u8 *)(uptr)ld64((slot_1 + 24))); goto l_arm_s6; }
    r_gm = r_38_1;
    r_dv = r_38_2;
    goto l_capnp_up;
l_arm_s6:;
    switch ((u8)((u8)r_l8 & 3u)) {
    case 0u: goto l_arm_62;
    case 1u: goto l_arm_z2;
    case 2u: { r_yl = 13u; goto l_capnp_ji; }
    case 3u: goto l_capnp_f9;
    default: goto l_default_e1;
    }
l_arm_62:;
    r_ep = (u64)(r_l8 >> 32ull);
    r_y6 = (u64)(r_l8 >> 48ull);
    if ((i32)a_4 < (i32)1u) { r_yl = 26u; goto l_capnp_ji; }
    r_lc_1 = ((r_ep & 65535ull) + r_y6);
    if (((u64)(r_3g >> 3ull) & 0xffffffffull) < (r_lc_1 + (u64)r_nz)) { r_yl = 23u; goto l_capnp_ji; }
    if (t_pa) goto l_arm_7c;
    if (!(ld8(a_6) == 1u)) goto l_arm_7c;
    r_rq = away(a_6, 8ull);
    r_52_1 = ld64(r_rq);
    if (r_52_1 < r_lc_1) { r_yl = 30u; goto l_capnp_ji; }
    st64(a_6, 1ull);
    st64(r_rq, (r_52_1 - r_lc_1));
l_arm_7c:;
    if ((((u32)r_ep & 65535u) | (u32)r_y6) == 0u) goto l_then_s2;
    goto l_join_s2;
l_arm_z2:;
    switch_wl = (u8)((u8)(u64)(r_l8 >> 32ull) & 7u);
    r_ij = (u64)(r_l8 >> 35ull);
    switch (switch_wl) {
    case 7u: goto l_arm_gg;
    case 6u: goto l_arm_0w;
    case 0u: goto l_arm_gg_1;
    case 5u: goto l_arm_h9;
    case 4u: goto l_arm_h9_1;
    case 3u: goto l_arm_h9_2;
    case 1u: { r_7e = 1ull; goto l_capnp_gg; }
    case 2u: goto l_arm_h9_3;
    default: goto l_default_e1;
    }
l_arm_gg:;
    if ((i32)a_4 < (i32)1u) { r_yl = 26u; goto l_capnp_ji; }
    r_c4 = (r_ij + 1ull);
    r_24 = (u64)r_nz;
    r_gw_1 = (u64)(r_3g >> 3ull);
    if ((r_gw_1 & 0xffffffffull) < (r_c4 + r_24)) { r_yl = 23u; goto l_capnp_ji; }
    if (t_pa) goto l_arm_ga;
    if (!(ld8(a_6) == 1u)) goto l_arm_ga;
    r_rq_1 = away(a_6, 8ull);
    r_52_2 = ld64(r_rq_1);
    if (!(r_52_2 > r_ij)) { r_yl = 30u; goto l_capnp_ji; }
    st64(a_6, 1ull);
    st64(r_rq_1, (r_52_2 - r_c4));
l_arm_ga:;
    if (!(r_gw_1 > r_24)) { r_eh = 0ull; goto l_join_qm; }
    u64 r_qw_1 = ld64(away(r_n9, (u64)(r_24 << 3ull)));
    if ((r_qw_1 & 3ull) == 0ull) { r_eh = r_qw_1; goto l_join_qm; }
    r_yl = 11u;
    goto l_capnp_ji;
l_join_qm:;
    t_c8 = (u32)((u32)r_eh >> 2u);
    r_ep_1 = (u64)(r_eh >> 32ull);
    r_y6_1 = (u64)(r_eh >> 48ull);
    r_12 = (u32)r_y6_1;
    r_az = ((u32)r_ep_1 & 65535u);
    r_68 = (r_az + r_12);
    r_c0 = (u64)t_c8;
    if (r_ij < ((u64)r_68 * r_c0)) { r_yl = 10u; goto l_capnp_ji; }
    if ((u8)((u8)t_pa | (u8)(r_68 != 0u))) goto l_arm_67;
    if (!(ld8(a_6) == 1u)) goto l_arm_67;
    r_rq_2 = away(a_6, 8ull);
    r_52_3 = ld64(r_rq_2);
    if (r_52_3 < r_c0) { r_yl = 30u; goto l_capnp_ji; }
    st64(a_6, 1ull);
    st64(r_rq_2, (r_52_3 - r_c0));
l_arm_67:;
    r_ll = (r_nz + 1u);
    t_xg = (u16)r_ep_1;
    r_py = (u16)r_y6_1;
    if (((u64)a_5 + 1ull) == (u64)r_ll) goto l_arm_bb;
    goto l_then_um;
l_arm_0w:;
    r_12_1 = (u32)r_ij;
    if ((i32)a_4 < (i32)1u) { r_yl = 26u; goto l_capnp_ji; }
    if (((u64)(r_3g >> 3ull) & 0xffffffffull) < (r_ij + (u64)r_nz)) { r_yl = 23u; goto l_capnp_ji; }
    if (t_pa) goto l_capnp_s2;
    if (!(ld8(a_6) == 1u)) goto l_capnp_s2;
    r_rq_3 = away(a_6, 8ull);
    r_52_4 = ld64(r_rq_3);
    if (r_52_4 < r_ij) { r_yl = 30u; goto l_capnp_ji; }
    st64(a_6, 1ull);
    st64(r_rq_3, (r_52_4 - r_ij));
    goto l_capnp_s2;
l_arm_gg_1:;
    if ((i32)a_4 < (i32)1u) { r_yl = 26u; goto l_capnp_ji; }
    if (((u64)(r_3g >> 3ull) & 0xffffffffull) < (u64)r_nz) { r_yl = 23u; goto l_capnp_ji; }
    if (t_pa) { r_xq = 0u; goto l_arm_s2; }
    if (!(ld8(a_6) == 1u)) { r_xq = 0u; goto l_arm_s2; }
    st64(a_6, 1ull);
    r_rq_4 = away(a_6, 8ull);
    r_52_5 = ld64(r_rq_4);
    if (r_52_5 < r_ij) { r_yl = 30u; goto l_capnp_ji; }
    st64(r_rq_4, (r_52_5 - r_ij));
    r_xq = 0u;
    goto l_arm_s2;
l_arm_h9_3:;
    r_7e = 8ull;
    goto l_capnp_gg;
l_arm_h9_2:;
    r_7e = 16ull;
    goto l_capnp_gg;
l_arm_h9_1:;
    r_7e = 32ull;
    goto l_capnp_gg;
l_arm_h9:;
    r_7e = 64ull;
l_capnp_gg:;
    if ((i32)a_4 < (i32)1u) { r_yl = 26u; goto l_capnp_ji; }
    r_c6 = (u64)(((r_7e * r_ij) + 63ull) >> 6ull);
    if (((u64)(r_3g >> 3ull) & 0xffffffffull) < (r_c6 + (u64)r_nz)) { r_yl = 23u; goto l_capnp_ji; }
    if (t_pa) { r_xq = switch_wl; goto l_arm_s2; }
    if (!(ld8(a_6) == 1u)) { r_xq = switch_wl; goto l_arm_s2; }
    r_rq_5 = away(a_6, 8ull);
    r_52_6 = ld64(r_rq_5);
    if (r_52_6 < r_c6) { r_yl = 30u; goto l_capnp_ji; }
    st64(a_6, 1ull);
    st64(r_rq_5, (r_52_6 - r_c6));
    r_xq = switch_wl;
    goto l_arm_s2;
l_default_e1:;
    UNREACHABLE();
l_capnp_8g:;
    r_gm = 0ull;
    r_dv = r_2g;
l_capnp_up:;
    r_mr = ((u32)r_dv & 255u);
    r_2n = r_gm;
    r_id = (u32)(u64)(r_dv >> 32ull);
    r_ru = (u8)r_dv;
    goto l_arm_ud;
l_capnp_ji:;
    r_mr = (u32)r_yl;
    r_2n = 0ull;
    r_id = 0u;
    r_ru = r_yl;
    goto l_arm_ud;
l_capnp_f9:;
    u8 r_e6 = ((r_l8 & 0xffffffffull) == 3ull);
    if (r_e6) goto l_then_um;
    r_mr = (r_e6 ? 1u : 34u);
    r_2n = 0ull;
    r_id = 0u;
    r_ru = 34u;
    goto l_arm_ud;
l_arm_s2:;
    if (r_nz == a_5) goto l_arm_76;
    goto l_then_um;
l_then_s2:;
    if (r_nz == a_2) goto l_arm_um;
    goto l_then_um;
l_join_s2:;
    if (r_nz == a_5) goto l_arm_um;
    goto l_then_um;
l_capnp_s2:;
    if (r_nz == a_5) goto l_arm_1s;
    goto l_then_um;
l_arm_ud:;
    u8 or_i7 = (u8)((u8)((a_3 & 3ull) == 1ull) & (u8)(r_ru == 26u));
    st64(away(a_6, 24ull), 1ull);
    st32(away(a_6, 32ull), (or_i7 ? 28u : r_mr));
    st32(away(a_6, 36ull), (or_i7 ? 0u : r_id));
    st64(away(a_6, 40ull), (or_i7 ? 0ull : r_2n));
    r_us = 0u;
    r_1x = 1u;
    goto l_return_pr;
l_then_um:;
    u64 r_qw_2 = ld64(r_xz);
    st64(away(a_6, 24ull), 0ull);
    st64(away(a_6, 32ull), r_qw_2);
    st32(away(a_6, 40ull), a_2);
    st8(away(a_6, 44ull), 6u);
    memset(away(a_6, 45ull), 0u, 3);
    r_us = 0u;
    r_1x = 1u;
    goto l_return_pr;
l_arm_76:;
    r_xz_1 = away(a_6, 24ull);
    u64 r_1q = (ld64((((u8 *)switch_table_capnp_pointers_pointers_canonical_test_li_58523f26) + (i64)(8 * (u64)r_xq))) * r_ij);
    r_eh_1 = (a_5 + (u32)(u64)(r_1q >> 6ull));
    r_4i = (r_1q & 63ull);
    if (r_4i == 0ull) { r_us = r_eh_1; r_1x = 0u; goto l_return_pr; }
    if (any8(v8_of((u64)(ld64(away(r_n9, (u64)((u64)r_eh_1 << 3ull))) >> (r_4i & 63u)))) == 0u) { r_us = (r_eh_1 + 1u); r_1x = 0u; goto l_return_pr; }
    st64(r_xz_1, 0ull);
    st64(away(a_6, 32ull), r_tc);
    st32(away(a_6, 40ull), r_eh_1);
    st8(away(a_6, 44ull), 7u);
    memset(away(a_6, 45ull), 0u, 3);
    r_us = 0u;
    r_1x = 1u;
    goto l_return_pr;
l_arm_1s:;
    struct s_i8_i32 r_nd = capnp_pointers_pointers_canonical_test_children_701703_62c5c8fc(a_1, a_5, r_12_1, (a_4 + 0xffffffffu), (a_5 + r_12_1), a_6);
    r_us = r_nd.f1;
    r_1x = r_nd.f0;
    goto l_return_pr;
l_arm_bb:;
    r_y0 = (a_4 + 0xffffffffu);
    r_68_1 = (r_az + r_12);
    if (((u64)r_68_1 * (u64)t_c8) == (u64)(a_3 >> 35ull)) goto l_join_1x;
    u64 r_qw_3 = ld64(r_xz);
    st64(away(a_6, 24ull), 0ull);
    st64(away(a_6, 32ull), r_qw_3);
    st32(away(a_6, 40ull), r_nz);
    st8(away(a_6, 44ull), 10u);
    memset(away(a_6, 45ull), 0u, 3);
    r_us = 0u;
    r_1x = 1u;
    goto l_return_pr;
l_join_1x:;
    if (r_68_1 == 0u) { r_us = r_ll; r_1x = 0u; goto l_return_pr; }
    struct s_i8_i32 r_y7 = capnp_pointers_pointers_canonical_test_elements_701703_cdfbd576(a_1, r_ll, t_xg, r_py, t_c8, r_y0, a_6);
    r_us = r_y7.f1;
    r_1x = r_y7.f0;
    goto l_return_pr;
l_arm_um:;
    u64 r_qw_4 = ld64(r_xz);
    st64(away(a_6, 24ull), 0ull);
    st64(away(a_6, 32ull), r_qw_4);
    st32(away(a_6, 40ull), a_2);
    st8(away(a_6, 44ull), 6u);
    memset(away(a_6, 45ull), 0u, 3);
    r_us = 0u;
    r_1x = 1u;
l_return_pr:;
    struct s_i8_i32 r_9l = (struct s_i8_i32){ 0 };
    r_9l.f0 = r_1x;
    struct s_i8_i32 r_i6 = r_9l;
    r_i6.f1 = r_us;
    return r_i6;
}

/* capnp_pointers::pointers::canonical::test_elements::<#70170357b7303457> */
static struct s_i8_i32 capnp_pointers_pointers_canonical_test_elements_701703_cdfbd576(u8 *a_1, u32 a_2, u16 a_3, u16 a_4, u32 a_5, u32 a_6, u8 *a_7)
{
    u32 r_m2;
    u32 r_m2_1;
    u32 r_68;
    u32 r_kq;
    u8 r_kh;
    u8 r_kh_1;
    u8 *r_xm;
    u8 *r_su;
    u32 r_4w;
    u32 r_4w_1;
    u64 wide_7l;
    u64 indvars_lg;
    u32 r_23;
    u8 r_ad;
    u8 r_ja;
    u32 r_kq_1;
    u32 r_w0;
    struct s_i8_i32 r_ff;
    u32 r_xo;
    u8 *r_rv;
    u64 r_24;
    u8 r_oq;
    u8 *r_rv_1;
    u64 r_24_1;
    u8 r_9o;
    u8 r_aj;
    u8 r_jq;
    u32 r_bn;
    u32 r_us;
    u8 r_1x;
    r_m2 = (u32)a_3;
    r_m2_1 = (u32)a_4;
    r_68 = (r_m2_1 + r_m2);
    r_kq = ((r_68 * a_5) + a_2);
    r_kh = (a_3 == 0u);
    r_kh_1 = (a_4 == 0u);
    if (a_5 == 0u) { r_aj = r_kh_1; r_jq = r_kh; r_bn = r_kq; goto l_after_9q; }
    r_xm = away(a_1, 32ull);
    r_su = away(a_1, 40ull);
    r_4w = (r_m2 + 0xffffffffu);
    r_4w_1 = (r_m2_1 + 0xffffffffu);
    wide_7l = (u64)a_5;
    indvars_lg = 0ull;
    r_23 = r_kq;
    r_ad = r_kh;
    r_ja = r_kh_1;
l_join_l2:;
    r_kq_1 = ((r_68 * (u32)indvars_lg) + a_2);
    r_w0 = (r_kq_1 + r_m2);
    if (!r_kh_1) goto l_join_ew;
    struct s_i8_i32 t_ph = (struct s_i8_i32){ 0u, 0u };
    t_ph.f1 = r_23;
    r_ff = t_ph;
    goto l_capnp_28;
l_join_ew:;
    struct s_i8_i32 r_my = capnp_pointers_pointers_canonical_test_children_701703_62c5c8fc(a_1, r_w0, r_m2_1, a_6, r_23, a_7);
    r_ff = r_my;
l_capnp_28:;
    r_xo = r_ff.f1;
    if (!(r_ff.f0 == 0u)) { r_us = 0u; r_1x = 1u; goto l_return_pr; }
    if (r_ad) { r_oq = 1u; goto l_join_mi; }
    r_rv = ldp(r_xm);
    if (r_kh) { r_oq = 1u; goto l_join_mi; }
    r_24 = (u64)(r_4w + r_kq_1);
    if (!((u64)(ld64(r_su) >> 3ull) > r_24)) { r_oq = 0u; goto l_join_mi; }
    r_oq = (ld64(away(r_rv, (u64)(r_24 << 3ull))) != 0ull);
l_join_mi:;
    if (r_ja) { r_9o = 1u; goto l_join_4g; }
    r_rv_1 = ldp(r_xm);
    if (r_kh_1) { r_9o = 1u; goto l_join_4g; }
    r_24_1 = (u64)(r_4w_1 + r_w0);
    if (!((u64)(ld64(r_su) >> 3ull) > r_24_1)) { r_9o = 0u; goto l_join_4g; }
    r_9o = (ld64(away(r_rv_1, (u64)(r_24_1 << 3ull))) != 0ull);
l_join_4g:;
    u64 indvars_r7 = (indvars_lg + 1ull);
    if (indvars_r7 == wide_7l) { r_aj = r_9o; r_jq = r_oq; r_bn = r_xo; goto l_after_9q; }
    indvars_lg = indvars_r7;
    r_23 = r_xo;
    r_ad = r_oq;
    r_ja = r_9o;
    goto l_join_l2;
l_after_9q:;
    if (r_jq ? r_aj : 0u) { r_us = r_bn; r_1x = 0u; goto l_return_pr; }
    u64 r_qw = ld64(away(a_1, 24ull));
    st64(away(a_7, 24ull), 0ull);
    st64(away(a_7, 32ull), r_qw);
    st32(away(a_7, 40ull), (a_2 + 0xffffffffu));
    st8(away(a_7, 44ull), (r_jq ? 12u : 11u));
    memset(away(a_7, 45ull), 0u, 3);
    r_us = 0u;
    r_1x = 1u;
l_return_pr:;
    struct s_i8_i32 r_9l = (struct s_i8_i32){ 0 };
    r_9l.f0 = r_1x;
    struct s_i8_i32 r_i6 = r_9l;
    r_i6.f1 = r_us;
    return r_i6;
}

/* std::io::buffered::BufWriter::write_cold::<#89ca6214804c96d4> */
static NEVER COLD void std_io_buffered_BufWriter_write_cold_89ca6214804c96d4(u8 *a_1, u8 *a_2, u8 *a_3, u64 a_4)
{
    A(8) u8 slot_1[96];
    A(8) u8 slot_2[80];
    A(8) u8 slot_3[96];
    A(1) u8 slot_4[80];
    u8 *r_rq;
    u8 *r_xz;
    u64 r_52;
    u64 r_kk;
    u64 r_vt;
    u64 r_8t;
    u8 *r_08;
    u64 r_j8;
    u64 r_bq;
    u64 r_zx;
    u8 *r_lz;
    u8 *r_2b;
    u64 r_31;
    memset(slot_3, 0u, 96);
    r_rq = away(a_2, 8ull);
    r_xz = away(a_2, 24ull);
    r_52 = ld64(r_xz);
    if (r_52 > a_4) goto l_join_jh;
    std_io_buffered_BufWriter_flush_buf_89ca6214804c96d4(slot_3, a_2);
    if (!(ld8(slot_3) == 0u)) goto l_arm_vo;
    memset(slot_2, 0u, 80);
    r_kk = c_write(1u, a_3, a_4);
    if (!((i64)r_kk < (i64)0ull)) goto l_else_vm;
    u32 r_ky = rattle_errno();
    std_io_io_error_Error_from_raw_os_error(slot_1, r_ky);
    u64 r_38 = ld64(slot_1);
    memcpy(slot_2, (slot_1 + 8), 80);
    r_vt = 1ull;
    r_8t = r_38;
    goto l_std_s8;
l_else_vm:;
    r_vt = 0ull;
    r_8t = umin64(r_kk, a_4);
l_std_s8:;
    st64(a_1, r_vt);
    st64(away(a_1, 8ull), r_8t);
    memcpy(away(a_1, 16ull), slot_2, 80);
l_common_68:;
    return;
l_arm_vo:;
    u64 r_38_1 = ld64((slot_3 + 8));
    st64(a_1, 1ull);
    st64(away(a_1, 8ull), r_38_1);
    memcpy(away(a_1, 16ull), (slot_3 + 16), 80);
    goto l_common_68;
l_join_jh:;
    memset(slot_1, 0u, 96);
    r_08 = away(a_2, 16ull);
    u64 r_52_1 = ld64(r_08);
    if (!((r_52 - r_52_1) < a_4)) { r_j8 = r_52; r_bq = r_52_1; goto l_join_lh; }
    std_io_buffered_BufWriter_flush_buf_89ca6214804c96d4(slot_1, a_2);
    if (!(ld8(slot_1) == 0u)) goto l_arm_yt;
    u64 r_38_2 = ld64(r_xz);
    u64 r_38_3 = ld64(r_08);
    if (!(a_4 > (r_38_2 - r_38_3))) { r_j8 = r_38_2; r_bq = r_38_3; goto l_join_lh; }
    u8 r_6j = std_alloc_vec_Vec_grow_amortized_fe53b0f2d1658541(r_rq, a_4);
    if (!r_6j) goto l_arm_1w;
    r_j8 = ld64(r_xz);
    r_bq = ld64(r_08);
l_join_lh:;
    r_zx = (r_bq + a_4);
    r_lz = ldp(r_rq);
    memset(r_08, 0u, 16);
    r_2b = away(r_lz, r_bq);
    if (((u64)(uptr)r_2b - (u64)(uptr)a_3) < a_4) { r_31 = 0ull; goto l_join_sz; }
    memmove_or_none(r_2b, a_3, a_4);
    goto l_arm_5b;
l_join_sz:;
    st8((r_2b + (i64)(r_31)), ld8((a_3 + (i64)(r_31))));
    u64 r_36 = (r_31 + 1ull);
    if (r_36 == a_4) goto l_arm_5b;
    r_31 = r_36;
    goto l_join_sz;
l_arm_1w:;
    TRAP();
    UNREACHABLE();
l_arm_5b:;
    stp(r_rq, r_lz);
    st64(r_08, r_zx);
    st64(r_xz, r_j8);
    st64(a_1, 0ull);
    st64(away(a_1, 8ull), a_4);
    memset(away(a_1, 16ull), 0u, 80);
    goto l_common_68;
l_arm_yt:;
    u64 r_38_4 = ld64((slot_1 + 8));
    memcpy(slot_4, (slot_1 + 16), 80);
    st64(a_1, 1ull);
    st64(away(a_1, 8ull), r_38_4);
    memcpy(away(a_1, 16ull), slot_4, 80);
    goto l_common_68;
}

/* std::io::buffered::BufWriter::flush_buf::<#89ca6214804c96d4> */
static void std_io_buffered_BufWriter_flush_buf_89ca6214804c96d4(u8 *a_1, u8 *a_2)
{
    A(8) u8 slot_1[88];
    A(8) u8 slot_2[32];
    A(8) u8 slot_3[32];
    A(8) u8 slot_4[32];
    u8 *r_rq;
    u8 *r_lz;
    u8 *r_08;
    u64 r_52;
    u8 *r_x5;
    u8 *r_p9;
    u8 *r_u0;
    u8 *r_e6;
    u8 *r_ix;
    u8 *r_0v;
    u8 *r_g0;
    u8 *r_b9;
    u8 *r_x5_1;
    u8 *r_m4;
    u8 *r_uz;
    u8 *r_7x;
    u8 *r_k0;
    u8 *r_c4;
    u8 *r_sx;
    u8 *r_8i;
    u8 *r_zd;
    u8 *r_tp;
    u8 *r_3o;
    u8 *r_p9_1;
    u8 *r_zo;
    u8 *r_m3;
    u8 *r_97;
    u8 *r_dp;
    u8 *r_lk;
    u8 *r_gt;
    u8 *r_ch;
    u8 *r_ws;
    u8 *r_nk;
    u8 *r_fl;
    u8 *r_5z;
    u8 *r_uu;
    u8 *r_89;
    u8 *r_rk;
    u8 *r_mx;
    u8 *r_0n;
    u8 *r_gs;
    u8 *r_kt;
    u8 *r_ll;
    u8 *r_eo;
    u8 *r_a8;
    u8 *r_zd_1;
    u8 *r_lk_1;
    u8 *r_89_1;
    u8 *r_a8_1;
    u8 *r_c4_1;
    u8 *r_6c;
    u64 r_ja;
    u8 *r_2b;
    u64 r_e9;
    u64 r_4p;
    u64 r_zn;
    u64 r_dq;
    u64 r_38;
    u64 r_38_1;
    u64 r_38_2;
    u64 r_38_3;
    u64 r_38_4;
    u64 r_38_5;
    u64 r_38_6;
    u64 r_sz;
    u64 a_zx;
    u64 r_do;
    u64 r_6f;
    u64 r_di;
    u64 r_5f;
    u64 r_qm;
    u64 r_1y;
    u64 r_5m;
    u64 r_q1;
    u64 r_e1;
    u8 r_x1;
    u64 r_dd;
    u64 r_nl;
    u64 r_t0;
    u64 r_rh;
    u64 r_oc;
    u64 r_hr;
    u64 r_vw;
    u8 *r_lz_1;
    u64 r_t9;
    u8 *t_2b;
    u64 r_ti;
    u64 r_61;
    r_rq = away(a_2, 8ull);
    r_lz = ldp(r_rq);
    r_08 = away(a_2, 16ull);
    r_52 = ld64(r_08);
    if (r_52 == 0ull) { r_q1 = 0ull; goto l_after_cs; }
    r_x5 = (slot_1 + 8);
    r_p9 = (slot_1 + 1);
    r_u0 = (slot_1 + 2);
    r_e6 = (slot_1 + 3);
    r_ix = (slot_1 + 4);
    r_0v = (slot_1 + 5);
    r_g0 = (slot_1 + 6);
    r_b9 = (slot_1 + 7);
    r_x5_1 = (slot_1 + 8);
    r_m4 = (slot_1 + 9);
    r_uz = (slot_1 + 10);
    r_7x = (slot_1 + 11);
    r_k0 = (slot_1 + 12);
    r_c4 = (slot_1 + 13);
    r_sx = (slot_1 + 14);
    r_8i = (slot_1 + 15);
    r_zd = (slot_1 + 16);
    r_tp = (slot_1 + 17);
    r_3o = (slot_1 + 18);
    r_p9_1 = (slot_1 + 19);
    r_zo = (slot_1 + 20);
    r_m3 = (slot_1 + 21);
    r_97 = (slot_1 + 22);
    r_dp = (slot_1 + 23);
    r_lk = (slot_1 + 24);
    r_gt = (slot_1 + 25);
    r_ch = (slot_1 + 26);
    r_ws = (slot_1 + 27);
    r_nk = (slot_1 + 28);
    r_fl = (slot_1 + 29);
    r_5z = (slot_1 + 30);
    r_uu = (slot_1 + 31);
    r_89 = (slot_1 + 32);
    r_rk = (slot_1 + 33);
    r_mx = (slot_1 + 34);
    r_0n = (slot_1 + 35);
    r_gs = (slot_1 + 36);
    r_kt = (slot_1 + 37);
    r_ll = (slot_1 + 38);
    r_eo = (slot_1 + 39);
    r_a8 = (slot_1 + 40);
    r_zd_1 = (slot_1 + 16);
    r_lk_1 = (slot_1 + 24);
    r_89_1 = (slot_1 + 32);
    r_a8_1 = (slot_1 + 40);
    r_c4_1 = (slot_1 + 48);
    r_6c = (slot_1 + 56);
    r_ja = 0ull;
    goto l_join_m7;
l_loop_si:;
    u64 r_vz = (a_zx + r_ja);
    if (r_vz < r_52) { r_ja = r_vz; goto l_join_m7; }
    r_q1 = r_vz;
    goto l_after_cs;
l_join_m7:;
    r_2b = away(r_lz, r_ja);
    r_e9 = (r_52 - r_ja);
    r_4p = 0xffffffffffffffffull;
l_loop_tl:;
    if (r_4p == 0ull) goto l_after_by;
    r_zn = (r_4p + 0xffffffffffffffffull);
    r_dq = c_write(1u, r_2b, r_e9);
    if (!((i64)r_dq < (i64)0ull)) goto l_arm_hd;
    u32 r_ky = rattle_errno();
    std_io_io_error_Error_from_raw_os_error(slot_1, r_ky);
    r_38 = ld64(slot_1);
    r_38_1 = ld64(r_x5);
    r_38_2 = ld64(r_zd_1);
    r_38_3 = ld64(r_lk_1);
    r_38_4 = ld64(r_89_1);
    r_38_5 = ld64(r_a8_1);
    r_38_6 = ld64(r_c4_1);
    mv32(slot_2, r_6c);
    r_sz = (u64)(r_38 >> 8ull);
    st8(slot_1, 0u);
    st8(r_p9, 1u);
    st8(r_u0, 2u);
    st8(r_e6, 3u);
    st8(r_ix, 4u);
    st8(r_0v, 5u);
    st8(r_g0, 6u);
    st8(r_b9, 7u);
    st8(r_x5_1, 8u);
    st8(r_m4, 9u);
    st8(r_uz, 10u);
    st8(r_7x, 11u);
    st8(r_k0, 12u);
    st8(r_c4, 13u);
    st8(r_sx, 14u);
    st8(r_8i, 15u);
    st8(r_zd, 16u);
    st8(r_tp, 17u);
    st8(r_3o, 18u);
    st8(r_p9_1, 19u);
    st8(r_zo, 20u);
    st8(r_m3, 21u);
    st8(r_97, 22u);
    st8(r_dp, 23u);
    st8(r_lk, 24u);
    st8(r_gt, 25u);
    st8(r_ch, 26u);
    st8(r_ws, 27u);
    st8(r_nk, 28u);
    st8(r_fl, 29u);
    st8(r_5z, 30u);
    st8(r_uu, 31u);
    st8(r_89, 32u);
    st8(r_rk, 33u);
    st8(r_mx, 34u);
    st8(r_0n, 35u);
    st8(r_gs, 36u);
    st8(r_kt, 37u);
    st8(r_ll, 38u);
    st8(r_eo, 39u);
    st8(r_a8, 40u);
    if ((u8)r_sz < 41u) goto l_std_go;
    goto l_then_ai;
l_std_go:;
    if (ld8((slot_1 + (i64)((r_sz & 63ull)))) == 35u) { r_4p = r_zn; goto l_loop_tl; }
l_then_ai:;
    mv32(slot_3, slot_2);
    r_do = r_38_1;
    r_6f = r_38_2;
    r_di = r_38_3;
    r_5f = r_38_4;
    r_qm = r_38_5;
    r_1y = r_38_6;
    r_5m = r_38;
    goto l_arm_eg;
l_after_by:;
    memset(slot_3, 46u, 32);
    r_do = 0x2070752065766167ull;
    r_6f = 0x20676e6964616572ull;
    r_di = 0x697469727720726full;
    r_5f = 0x726574666120676eull;
    r_qm = 0x72742034365e3220ull;
    r_1y = 0x2e2e2e2e2e736569ull;
    r_5m = 0x2b1602ull;
    goto l_arm_eg;
l_arm_hd:;
    a_zx = umin64(r_dq, r_e9);
    if (!(a_zx == 0ull)) goto l_loop_si;
    memset(slot_4, 46u, 32);
    r_e1 = r_ja;
    r_x1 = 1u;
    r_dd = 0x211702ull;
    r_nl = 0x742064656c696166ull;
    r_t0 = 0x206574697277206full;
    r_rh = 0x6666756220656874ull;
    r_oc = 0x7461642064657265ull;
    r_hr = 0x2e2e2e2e2e2e2e61ull;
    r_vw = 0x2e2e2e2e2e2e2e2eull;
    goto l_std_kk;
l_arm_eg:;
    mv32(slot_4, slot_3);
    r_e1 = r_ja;
    r_x1 = 1u;
    r_dd = r_5m;
    r_nl = r_do;
    r_t0 = r_6f;
    r_rh = r_di;
    r_oc = r_5f;
    r_hr = r_qm;
    r_vw = r_1y;
    goto l_std_kk;
l_after_cs:;
    memset(slot_4, 0u, 32);
    r_e1 = r_q1;
    r_x1 = 0u;
    r_dd = 0ull;
    r_nl = 0ull;
    r_t0 = 0ull;
    r_rh = 0ull;
    r_oc = 0ull;
    r_hr = 0ull;
    r_vw = 0ull;
l_std_kk:;
    u64 r_52_1 = ld64(r_08);
    r_lz_1 = ldp(r_rq);
    r_t9 = (r_52_1 - r_e1);
    if (r_52_1 == r_e1) { r_61 = r_e1; goto l_std_z5; }
    t_2b = away(r_lz_1, r_e1);
    r_ti = 0ull;
l_join_u2:;
    st8((r_lz_1 + (i64)(r_ti)), ld8(away(t_2b, r_ti)));
    u64 r_36 = (r_ti + 1ull);
    if (!(r_36 == r_t9)) { r_ti = r_36; goto l_join_u2; }
    r_61 = ld64(r_08);
l_std_z5:;
    if (!(r_61 > r_t9)) goto l_std_4l;
    st64(r_08, r_t9);
l_std_4l:;
    st8(a_1, r_x1);
    st64(away(a_1, 8ull), r_dd);
    st64(away(a_1, 16ull), r_nl);
    st64(away(a_1, 24ull), r_t0);
    st64(away(a_1, 32ull), r_rh);
    st64(away(a_1, 40ull), r_oc);
    st64(away(a_1, 48ull), r_hr);
    st64(away(a_1, 56ull), r_vw);
    mv32(away(a_1, 64ull), slot_4);
    return;
}

/* capnp_pointers::pointers::sizes::add_object::<#70170357b7303457> */
static NEVER u8 capnp_pointers_pointers_sizes_add_object_70170357b7303457(u8 *a_1, u32 a_2, u32 a_3, u8 *a_4)
{
    A(8) u8 slot_1[64];
    A(8) u8 slot_2[56];
    A(8) u8 slot_3[24];
    A(8) u8 slot_4[32];
    u8 *r_rq;
    u8 *r_xm;
    u8 r_r5;
    u8 *r_zd;
    u32 r_z4;
    u32 r_uq;
    u64 r_8m;
    u64 r_yz;
    u8 *r_rq_1;
    u32 r_yf;
    u32 r_5d;
    u32 r_bq;
    u32 r_tw;
    u32 r_wu;
    u8 *r_6c;
    u32 r_w0;
    u8 *r_t9;
    u8 *r_su;
    u8 *r_08;
    u8 *r_m3;
    u8 *r_xz;
    u64 wide_24;
    u32 r_e3;
    u32 invariant_w0;
    u8 r_n1;
    u32 r_53;
    u64 r_gw;
    u8 *r_xw;
    u8 t_0c;
    u64 r_nb;
    u8 t_pa;
    u64 r_nb_1;
    u32 r_zt;
    u32 r_rp;
    u64 indvars_rh;
    u32 r_sr;
    u64 r_24;
    u64 r_qw;
    u64 r_y6;
    u32 r_12;
    u32 r_az;
    u32 r_68;
    u64 r_lc;
    u64 r_o3;
    u32 r_4r;
    u64 r_es;
    u8 r_8u;
    u64 r_52_1;
    u32 r_6l;
    u64 r_es_1;
    u64 r_yz_1;
    u32 r_dq;
    u64 r_ep;
    u64 r_c6;
    u64 r_lc_1;
    u64 r_0e;
    u64 r_52_2;
    u64 r_yz_2;
    u32 r_dq_1;
    u8 r_hf;
    u8 r_fk;
    memset(slot_1, 0u, 64);
    memset(slot_2, 0u, 56);
    u64 r_52 = ld64(away(a_1, 24ull));
    mv16((slot_4 + 8), away(a_1, 32ull));
    st64(slot_3, (u64)ld8(a_1));
    r_rq = away(a_1, 8ull);
    mv16((slot_3 + 8), r_rq);
    st64(slot_4, r_52);
    st32((slot_4 + 24), a_2);
    st32((slot_4 + 28), 0u);
    r_xm = away(a_4, 32ull);
    capnp_pointers_source_Source_measure_object_70170357b7303457(slot_2, slot_3, slot_4, a_3, r_xm);
    r_r5 = ld8((slot_2 + 8));
    if (!(ld8(slot_2) == 0u)) goto l_arm_e5;
    r_zd = (slot_2 + 16);
    r_z4 = ld32((slot_2 + 48));
    r_uq = ld32((slot_2 + 52));
    switch (r_r5) {
    case 0u: { r_8m = 0ull; goto l_capnp_my; }
    case 1u: { r_8m = 0ull; goto l_capnp_my; }
    case 3u: goto l_arm_5j;
    case 2u: goto l_arm_1x;
    case 4u: goto l_arm_nl;
    case 5u: goto l_arm_kb;
    default: goto l_noarm_e1;
    }
l_arm_5j:;
    r_8m = (u64)(((ld64((((u8 *)switch_table_capnp_messages_messages_copy_size_add_val_ffe97267) + (i64)(8 * (u64)(r_z4 & 255u)))) * (u64)r_uq) + 63ull) >> 6ull);
    goto l_capnp_my;
l_arm_1x:;
    r_8m = (u64)((u32)(r_z4 >> 16u) + (r_z4 & 65535u));
    goto l_capnp_my;
l_arm_nl:;
    r_8m = (u64)r_z4;
    goto l_capnp_my;
l_arm_kb:;
    r_8m = (((u64)((u32)(r_z4 >> 16u) + (r_z4 & 65535u)) * (u64)r_uq) + 1ull);
    goto l_capnp_my;
l_noarm_e1:;
    UNREACHABLE();
l_capnp_my:;
    r_yz = ld64(a_4);
    if (r_yz > (r_8m ^ 0xffffffffffffffffull)) goto l_arm_4f;
    goto l_arm_r0;
l_arm_e5:;
    u32 r_uq_1 = ld32((slot_2 + 12));
    u64 r_38 = ld64((slot_2 + 16));
    st32(away(a_4, 16ull), (u32)r_r5);
    st32(away(a_4, 20ull), r_uq_1);
    st64(away(a_4, 24ull), r_38);
    r_fk = 1u;
    goto l_return_ri;
l_arm_r0:;
    st64(a_4, (r_yz + r_8m));
    if (r_r5 == 1u) goto l_arm_nc;
    goto l_join_c1;
l_arm_4f:;
    st32(away(a_4, 16ull), 27u);
    st32(away(a_4, 20ull), 0u);
    st64(away(a_4, 24ull), 0xffffffffffffffffull);
    r_fk = 1u;
    goto l_return_ri;
l_arm_nc:;
    r_rq_1 = away(a_4, 8ull);
    r_yf = ld32(r_rq_1);
    if (r_yf == 0xffffffffu) goto l_arm_4f_1;
    st32(r_rq_1, (r_yf + 1u));
    r_fk = 0u;
    goto l_return_ri;
l_arm_4f_1:;
    st32(away(a_4, 16ull), 27u);
    st32(away(a_4, 20ull), 0u);
    st64(away(a_4, 24ull), 0xffffffffffffffffull);
    r_fk = 1u;
    goto l_return_ri;
l_join_c1:;
    r_5d = (u32)(r_z4 >> 16u);
    switch (r_r5) {
    case 0u: { r_fk = 0u; goto l_return_ri; }
    case 5u: goto l_arm_si;
    case 3u: { r_fk = 0u; goto l_return_ri; }
    case 2u: goto l_arm_si_1;
    case 4u: { r_bq = 0u; r_tw = r_z4; r_wu = 1u; goto l_arm_7h; }
    default: goto l_noarm_e1_1;
    }
l_arm_si_1:;
    r_bq = (r_z4 & 65535u);
    r_tw = r_5d;
    r_wu = 1u;
    goto l_arm_7h;
l_arm_si:;
    r_bq = (r_z4 & 65535u);
    r_tw = r_5d;
    r_wu = r_uq;
    goto l_arm_7h;
l_noarm_e1_1:;
    UNREACHABLE();
l_arm_7h:;
    st64(slot_1, (u64)ld8(a_1));
    mv16((slot_1 + 8), r_rq);
    mv32((slot_1 + 24), r_zd);
    r_6c = (slot_1 + 56);
    st32(r_6c, (a_3 + 0xffffffffu));
    if (r_tw == 0u) { r_fk = 0u; goto l_return_ri; }
    r_w0 = (r_tw + r_bq);
    if (r_wu == 0u) { r_fk = 0u; goto l_return_ri; }
    r_t9 = away(a_4, 48ull);
    r_su = away(a_4, 40ull);
    r_08 = away(a_4, 16ull);
    r_m3 = away(a_4, 20ull);
    r_xz = away(a_4, 24ull);
    wide_24 = (u64)r_tw;
    r_e3 = ld32(r_6c);
    invariant_w0 = (r_bq + ld32((slot_1 + 48)));
    r_n1 = ((i32)r_e3 < (i32)1u);
    r_53 = (r_e3 + 0xffffffffu);
    r_gw = (u64)(ld64((slot_1 + 40)) >> 3ull);
    r_xw = ldp((slot_1 + 32));
    t_0c = (ld8(slot_1) == 0u);
    r_nb = (r_gw & 0xffffffffull);
    t_pa = (ld8(slot_1) != 0u);
    r_nb_1 = (r_gw & 0xffffffffull);
    r_zt = 0u;
l_join_85:;
    r_rp = ((r_zt * r_w0) + invariant_w0);
    indvars_rh = 0ull;
    goto l_join_x4;
l_loop_aa:;
    u64 indvars_r7 = (indvars_rh + 1ull);
    if (indvars_r7 == wide_24) goto l_arm_ki;
    indvars_rh = indvars_r7;
l_join_x4:;
    r_sr = (r_rp + (u32)indvars_rh);
    r_24 = (u64)r_sr;
    if (!(r_gw > r_24)) goto l_loop_aa;
    r_qw = ld64(away(r_xw, (u64)(r_24 << 3ull)));
    if (r_qw == 0ull) goto l_loop_aa;
    switch ((u8)((u8)r_qw & 3u)) {
    case 0u: goto l_arm_vb;
    case 1u: goto l_arm_ui;
    case 2u: goto l_after_m8;
    case 3u: goto l_after_m8;
    default: goto l_default_e1;
    }
l_arm_vb:;
    r_y6 = (u64)(r_qw >> 48ull);
    r_12 = (u32)r_y6;
    r_az = ((u32)(u64)(r_qw >> 32ull) & 65535u);
    r_68 = (r_az + r_12);
    if (r_n1) { r_dq = 25u; goto l_arm_h4; }
    if (t_pa) goto l_join_bd;
    st64(r_t9, uadd_sat64(ld64(r_t9), 1ull));
l_join_bd:;
    u64 r_m6 = ((u64)(r_qw >> 2ull) & 0x3fffffffull);
    r_lc = ((r_24 + 1ull) + r_m6);
    if (!(r_m6 < 0x20000000ull)) goto l_else_70;
    if (r_lc > r_nb_1) { r_dq = 23u; goto l_arm_h4; }
    r_o3 = r_lc;
    goto l_join_45;
l_else_70:;
    u64 r_3o = (r_lc + 0xffffffffc0000000ull);
    if ((r_lc < 0x40000000ull) ? 1u : (r_3o > r_nb_1)) { r_dq = 23u; goto l_arm_h4; }
    r_o3 = r_3o;
l_join_45:;
    r_4r = (u32)r_o3;
    r_es = (u64)r_68;
    r_8u = (r_nb_1 < (r_o3 + r_es));
    if ((u8)((u8)t_pa | (u8)r_8u)) goto l_capnp_5r;
    if (!(ld8(r_xm) == 1u)) { r_6l = r_4r; goto l_arm_up; }
    r_52_1 = ld64(r_su);
    if (r_52_1 < r_es) { r_dq = 30u; goto l_arm_h4; }
    st64(r_xm, 1ull);
    st64(r_su, (r_52_1 - r_es));
    r_6l = r_4r;
    goto l_arm_up;
l_capnp_5r:;
    if (r_8u) { r_dq = 23u; goto l_arm_h4; }
    r_6l = (r_8u ? 0u : r_4r);
l_arm_up:;
    r_es_1 = (u64)r_68;
    r_yz_1 = ld64(a_4);
    if (r_yz_1 > (r_es_1 ^ 0xffffffffffffffffull)) goto l_arm_0l;
    goto l_arm_dt;
l_arm_h4:;
    st32(r_08, r_dq);
    st32(r_m3, 0u);
    st64(r_xz, 0ull);
    r_fk = 1u;
    goto l_return_ri;
l_arm_dt:;
    st64(a_4, (r_yz_1 + r_es_1));
    if (r_y6 == 0ull) goto l_loop_aa;
    goto l_join_pd;
l_arm_0l:;
    st32(r_08, 27u);
    st32(r_m3, 0u);
    st64(r_xz, 0xffffffffffffffffull);
    r_fk = 1u;
    goto l_return_ri;
l_join_pd:;
    u8 r_xs = capnp_pointers_pointers_sizes_add_pointers_70170357b7303457(slot_1, (r_6l + r_az), r_12, r_53, a_4);
    r_hf = r_xs;
    goto l_capnp_5o;
l_arm_ui:;
    r_ep = (u64)(r_qw >> 32ull);
    if (!((u8)((u8)((u8)r_ep & 7u) + 255u) < 5u)) goto l_after_m8;
    r_c6 = (u64)(((ld64(away(away(((u8 *)switch_table_main_18), 8 * (r_ep & 7ull)), 0xfffffffffffffff8ull)) * (u64)(r_qw >> 35ull)) + 63ull) >> 6ull);
    if (r_n1) { r_dq_1 = 25u; goto l_arm_h4_1; }
    if (!t_0c) goto l_join_bd_1;
    st64(r_t9, uadd_sat64(ld64(r_t9), 1ull));
l_join_bd_1:;
    u64 r_m6_1 = ((u64)(r_qw >> 2ull) & 0x3fffffffull);
    r_lc_1 = ((r_24 + 1ull) + r_m6_1);
    if (!(r_m6_1 < 0x20000000ull)) goto l_else_70_1;
    if (r_lc_1 > r_nb) { r_dq_1 = 23u; goto l_arm_h4_1; }
    r_0e = r_lc_1;
    goto l_join_z7;
l_else_70_1:;
    u64 r_3o_1 = (r_lc_1 + 0xffffffffc0000000ull);
    if ((r_lc_1 < 0x40000000ull) ? 1u : (r_3o_1 > r_nb)) { r_dq_1 = 23u; goto l_arm_h4_1; }
    r_0e = r_3o_1;
l_join_z7:;
    if (r_nb < (r_0e + r_c6)) { r_dq_1 = 23u; goto l_arm_h4_1; }
    if (!t_0c) goto l_arm_my;
    if (!(ld8(r_xm) == 1u)) goto l_arm_my;
    r_52_2 = ld64(r_su);
    if (r_52_2 < r_c6) { r_dq_1 = 30u; goto l_arm_h4_1; }
    st64(r_xm, 1ull);
    st64(r_su, (r_52_2 - r_c6));
l_arm_my:;
    r_yz_2 = ld64(a_4);
    if (r_yz_2 > (r_c6 ^ 0xffffffffffffffffull)) goto l_arm_0l_1;
    st64(a_4, (r_yz_2 + r_c6));
    goto l_loop_aa;
l_arm_0l_1:;
    st32(r_08, 27u);
    st32(r_m3, 0u);
    st64(r_xz, 0xffffffffffffffffull);
    r_fk = 1u;
    goto l_return_ri;
l_arm_h4_1:;
    st32(r_08, r_dq_1);
    st32(r_m3, 0u);
    st64(r_xz, 0ull);
    r_fk = 1u;
    goto l_return_ri;
l_after_m8:;
    u8 r_sl = capnp_pointers_pointers_sizes_add_object_70170357b7303457(slot_1, r_sr, r_e3, a_4);
    r_hf = r_sl;
    goto l_capnp_5o;
l_default_e1:;
    UNREACHABLE();
l_capnp_5o:;
    if ((u8)(r_hf & 1)) { r_fk = 1u; goto l_return_ri; }
    goto l_loop_aa;
l_arm_ki:;
    u32 r_7t = (r_zt + 1u);
    if (r_7t == r_wu) { r_fk = 0u; goto l_return_ri; }
    r_zt = r_7t;
    goto l_join_85;
l_return_ri:;
    return r_fk;
}

/* capnp_pointers::source::Source::measure_object::<#70170357b7303457> */
static NEVER void capnp_pointers_source_Source_measure_object_70170357b7303457(u8 *a_1, u8 *a_2, u8 *a_3, u32 a_4, u8 *a_5)
{
    A(8) u8 slot_1[56];
    u8 r_dh;
    u8 *r_rv;
    u64 r_tp;
    u8 *r_rv_1;
    u64 r_qw;
    u64 r_24;
    u64 r_gw;
    u64 r_qw_1;
    u64 t_al;
    u8 t_0c;
    u64 r_lc;
    u64 r_nb;
    u64 r_yz;
    u32 r_mk;
    u32 r_qj;
    u64 r_vj;
    u64 r_at;
    u64 r_nl;
    u64 r_b2;
    u64 r_ep;
    u64 r_y6;
    u64 r_lc_1;
    u8 *r_rq;
    u64 r_52;
    u64 r_ep_1;
    u8 switch_wl;
    u64 r_ij;
    u64 r_c4;
    u64 r_24_1;
    u64 r_gw_1;
    u8 *r_rq_1;
    u64 r_52_1;
    u64 r_o0;
    u32 t_c8;
    u64 r_ep_2;
    u64 r_y6_1;
    u32 r_12;
    u8 *r_rq_2;
    u64 r_52_2;
    u32 r_12_1;
    u64 r_c6;
    u8 *r_rq_3;
    u64 r_52_3;
    u64 r_r4;
    u64 r_9r;
    u64 r_xy;
    u64 r_6f;
    u64 r_3l;
    u32 r_rk;
    u32 r_7q;
    u64 r_yr;
    u64 r_c1;
    u32 r_g3;
    u32 r_vx;
    u32 r_7j;
    u32 r_p8;
    r_dh = ld8(a_2);
    r_rv = ldp(away(a_2, 8ull));
    r_tp = ld64(a_3);
    r_rv_1 = ldp((a_3 + 8));
    r_qw = ld64((a_3 + 16));
    r_24 = (u64)ld32((a_3 + 24));
    r_gw = (u64)(r_qw >> 3ull);
    if (!(r_gw > r_24)) { r_6f = 0ull; r_3l = 0ull; r_rk = 0u; r_7q = 0u; r_yr = 0ull; r_c1 = 0ull; r_g3 = 0u; r_vx = 0u; r_7j = 0u; r_p8 = 0u; goto l_capnp_6f; }
    r_qw_1 = ld64(away(r_rv_1, (u64)(r_24 << 3ull)));
    if (r_qw_1 == 0ull) { r_6f = 0ull; r_3l = 0ull; r_rk = 0u; r_7q = 0u; r_yr = 0ull; r_c1 = 0ull; r_g3 = 0u; r_vx = 0u; r_7j = 0u; r_p8 = 0u; goto l_capnp_6f; }
    if ((i32)a_4 < (i32)1u) { r_6f = 0ull; r_3l = 0ull; r_rk = 0u; r_7q = 0u; r_yr = 0ull; r_c1 = 1ull; r_g3 = 25u; r_vx = 0u; r_7j = 0u; r_p8 = 0u; goto l_capnp_6f; }
    t_al = (u64)(uptr)r_rv_1;
    memset(slot_1, 0u, 56);
    t_0c = (r_dh == 0u);
    if (!t_0c) goto l_capnp_sm;
    u8 *r_08 = away(a_5, 16ull);
    st64(r_08, uadd_sat64(ld64(r_08), 1ull));
    if ((r_qw_1 & 3ull) == 2ull) goto l_capnp_d1;
    goto l_join_bd;
l_capnp_sm:;
    if (!((r_qw_1 & 3ull) == 2ull)) goto l_join_bd;
    st32((slot_1 + 8), 32u);
    r_r4 = ld64((slot_1 + 8));
    goto l_arm_5s;
l_join_bd:;
    u64 r_m6 = ((u64)(r_qw_1 >> 2ull) & 0x3fffffffull);
    r_lc = ((r_24 + 1ull) + r_m6);
    r_nb = (r_gw & 0xffffffffull);
    if (!(r_m6 < 0x20000000ull)) goto l_else_70;
    if (r_lc > r_nb) { r_r4 = 23ull; goto l_arm_5s; }
    r_yz = r_lc;
    goto l_capnp_i5;
l_else_70:;
    u64 r_3o = (r_lc + 0xffffffffc0000000ull);
    if ((r_lc < 0x40000000ull) ? 1u : (r_3o > r_nb)) { r_r4 = 23ull; goto l_arm_5s; }
    r_yz = r_3o;
l_capnp_i5:;
    r_mk = 0u;
    r_qj = (u32)r_yz;
    r_vj = r_tp;
    r_at = r_qw_1;
    r_nl = r_qw;
    r_b2 = t_al;
    goto l_arm_xs;
l_capnp_d1:;
    capnp_pointers_source_follow_far_70170357b7303457(slot_1, r_rv, r_qw_1, a_5);
    u64 r_38 = ld64((slot_1 + 16));
    u64 r_38_1 = ld64((slot_1 + 8));
    if (ld8(slot_1) == 0u) { r_mk = ld32((slot_1 + 44)); r_qj = ld32((slot_1 + 40)); r_vj = r_38; r_at = r_38_1; r_nl = ld64((slot_1 + 32)); r_b2 = ld64((slot_1 + 24)); goto l_arm_xs; }
    r_9r = r_38;
    r_xy = r_38_1;
    goto l_arm_i4;
l_arm_xs:;
    switch ((u8)((u8)r_at & 3u)) {
    case 0u: goto l_join_yh;
    case 1u: goto l_arm_z2;
    case 2u: { r_6f = 0ull; r_3l = 0ull; r_rk = 0u; r_7q = 0u; r_yr = 0ull; r_c1 = 1ull; r_g3 = 13u; r_vx = 0u; r_7j = 0u; r_p8 = 0u; goto l_capnp_6f; }
    case 3u: goto l_arm_37;
    default: goto l_default_e1;
    }
l_join_yh:;
    r_ep = (u64)(r_at >> 32ull);
    r_y6 = (u64)(r_at >> 48ull);
    r_lc_1 = ((r_ep & 65535ull) + r_y6);
    if (((u64)(r_nl >> 3ull) & 0xffffffffull) < (r_lc_1 + (u64)r_qj)) { r_6f = 0ull; r_3l = 0ull; r_rk = 0u; r_7q = 0u; r_yr = 0ull; r_c1 = 1ull; r_g3 = 23u; r_vx = 0u; r_7j = 0u; r_p8 = 0u; goto l_capnp_6f; }
    if (!t_0c) goto l_arm_mf;
    if (!(ld8(a_5) == 1u)) goto l_arm_mf;
    r_rq = away(a_5, 8ull);
    r_52 = ld64(r_rq);
    if (r_52 < r_lc_1) { r_6f = 0ull; r_3l = 0ull; r_rk = 0u; r_7q = 0u; r_yr = 0ull; r_c1 = 1ull; r_g3 = 30u; r_vx = 0u; r_7j = 0u; r_p8 = 0u; goto l_capnp_6f; }
    st64(a_5, 1ull);
    st64(r_rq, (r_52 - r_lc_1));
l_arm_mf:;
    r_6f = r_b2;
    r_3l = r_nl;
    r_rk = r_qj;
    r_7q = r_mk;
    r_yr = r_vj;
    r_c1 = 0ull;
    r_g3 = 2u;
    r_vx = 0u;
    r_7j = ((u32)((u32)r_y6 << 16u) | ((u32)r_ep & 65535u));
    r_p8 = 0u;
    goto l_capnp_6f;
l_arm_z2:;
    r_ep_1 = (u64)(r_at >> 32ull);
    switch_wl = (u8)((u8)r_ep_1 & 7u);
    r_ij = (u64)(r_at >> 35ull);
    switch (switch_wl) {
    case 7u: goto l_join_vn;
    case 6u: goto l_join_10;
    case 0u: goto l_arm_ps;
    case 1u: goto l_arm_2q;
    case 2u: goto l_arm_2q;
    case 3u: goto l_arm_2q;
    case 4u: goto l_arm_2q;
    case 5u: goto l_arm_2q;
    default: goto l_default_e1;
    }
l_join_vn:;
    r_c4 = (r_ij + 1ull);
    r_24_1 = (u64)r_qj;
    r_gw_1 = (u64)(r_nl >> 3ull);
    if ((r_gw_1 & 0xffffffffull) < (r_c4 + r_24_1)) { r_6f = 0ull; r_3l = 0ull; r_rk = 0u; r_7q = 0u; r_yr = 0ull; r_c1 = 1ull; r_g3 = 23u; r_vx = 0u; r_7j = 0u; r_p8 = 0u; goto l_capnp_6f; }
    if (!t_0c) goto l_arm_ga;
    if (!(ld8(a_5) == 1u)) goto l_arm_ga;
    r_rq_1 = away(a_5, 8ull);
    r_52_1 = ld64(r_rq_1);
    if (!(r_52_1 > r_ij)) { r_6f = 0ull; r_3l = 0ull; r_rk = 0u; r_7q = 0u; r_yr = 0ull; r_c1 = 1ull; r_g3 = 30u; r_vx = 0u; r_7j = 0u; r_p8 = 0u; goto l_capnp_6f; }
    st64(a_5, 1ull);
    st64(r_rq_1, (r_52_1 - r_c4));
l_arm_ga:;
    if (!(r_gw_1 > r_24_1)) { r_o0 = 0ull; goto l_join_8m; }
    u64 r_qw_2 = ld64(away(((u8 *)(uptr)r_b2), (u64)(r_24_1 << 3ull)));
    if ((r_qw_2 & 3ull) == 0ull) { r_o0 = r_qw_2; goto l_join_8m; }
    r_6f = 0ull;
    r_3l = 0ull;
    r_rk = 0u;
    r_7q = 0u;
    r_yr = 0ull;
    r_c1 = 1ull;
    r_g3 = 2u;
    r_vx = 0u;
    r_7j = 0u;
    r_p8 = 0u;
    goto l_capnp_6f;
l_join_8m:;
    t_c8 = (u32)((u32)r_o0 >> 2u);
    r_ep_2 = (u64)(r_o0 >> 32ull);
    r_y6_1 = (u64)(r_o0 >> 48ull);
    if (r_ij < (((r_ep_2 & 65535ull) + r_y6_1) * (u64)t_c8)) { r_6f = 0ull; r_3l = 0ull; r_rk = 0u; r_7q = 0u; r_yr = 0ull; r_c1 = 1ull; r_g3 = 10u; r_vx = 0u; r_7j = 0u; r_p8 = 0u; goto l_capnp_6f; }
    r_6f = r_b2;
    r_3l = r_nl;
    r_rk = (r_qj + 1u);
    r_7q = 0u;
    r_yr = r_vj;
    r_c1 = 0ull;
    r_g3 = 5u;
    r_vx = 0u;
    r_7j = ((u32)((u32)r_y6_1 << 16u) | ((u32)r_ep_2 & 65535u));
    r_p8 = t_c8;
    goto l_capnp_6f;
l_join_10:;
    r_12 = (u32)r_ij;
    if (((u64)(r_nl >> 3ull) & 0xffffffffull) < (r_ij + (u64)r_qj)) { r_6f = 0ull; r_3l = 0ull; r_rk = 0u; r_7q = 0u; r_yr = 0ull; r_c1 = 1ull; r_g3 = 23u; r_vx = 0u; r_7j = 0u; r_p8 = 0u; goto l_capnp_6f; }
    if (!t_0c) { r_6f = r_b2; r_3l = r_nl; r_rk = r_qj; r_7q = r_mk; r_yr = r_vj; r_c1 = 0ull; r_g3 = 4u; r_vx = 0u; r_7j = r_12; r_p8 = 0u; goto l_capnp_6f; }
    if (!(ld8(a_5) == 1u)) { r_6f = r_b2; r_3l = r_nl; r_rk = r_qj; r_7q = r_mk; r_yr = r_vj; r_c1 = 0ull; r_g3 = 4u; r_vx = 0u; r_7j = r_12; r_p8 = 0u; goto l_capnp_6f; }
    r_rq_2 = away(a_5, 8ull);
    r_52_2 = ld64(r_rq_2);
    if (r_52_2 < r_ij) { r_6f = 0ull; r_3l = 0ull; r_rk = 0u; r_7q = 0u; r_yr = 0ull; r_c1 = 1ull; r_g3 = 30u; r_vx = 0u; r_7j = 0u; r_p8 = 0u; goto l_capnp_6f; }
    st64(a_5, 1ull);
    st64(r_rq_2, (r_52_2 - r_ij));
    r_6f = r_b2;
    r_3l = r_nl;
    r_rk = r_qj;
    r_7q = r_mk;
    r_yr = r_vj;
    r_c1 = 0ull;
    r_g3 = 4u;
    r_vx = 0u;
    r_7j = r_12;
    r_p8 = 0u;
    goto l_capnp_6f;
l_arm_ps:;
    r_6f = r_b2;
    r_3l = r_nl;
    r_rk = r_qj;
    r_7q = r_mk;
    r_yr = r_vj;
    r_c1 = 0ull;
    r_g3 = 3u;
    r_vx = 0u;
    r_7j = 0u;
    r_p8 = (u32)r_ij;
    goto l_capnp_6f;
l_arm_2q:;
    r_12_1 = (u32)r_ij;
    r_c6 = (u64)(((ld64(away(away(((u8 *)switch_table_main_18), 8 * (r_ep_1 & 7ull)), 0xfffffffffffffff8ull)) * r_ij) + 63ull) >> 6ull);
    if (((u64)(r_nl >> 3ull) & 0xffffffffull) < (r_c6 + (u64)r_qj)) { r_6f = 0ull; r_3l = 0ull; r_rk = 0u; r_7q = 0u; r_yr = 0ull; r_c1 = 1ull; r_g3 = 23u; r_vx = 0u; r_7j = 0u; r_p8 = 0u; goto l_capnp_6f; }
    if (!t_0c) goto l_arm_zg;
    if (!(ld8(a_5) == 1u)) goto l_arm_zg;
    r_rq_3 = away(a_5, 8ull);
    r_52_3 = ld64(r_rq_3);
    if (r_52_3 < r_c6) { r_6f = 0ull; r_3l = 0ull; r_rk = 0u; r_7q = 0u; r_yr = 0ull; r_c1 = 1ull; r_g3 = 30u; r_vx = 0u; r_7j = 0u; r_p8 = 0u; goto l_capnp_6f; }
    st64(a_5, 1ull);
    st64(r_rq_3, (r_52_3 - r_c6));
l_arm_zg:;
    r_6f = r_b2;
    r_3l = r_nl;
    r_rk = r_qj;
    r_7q = r_mk;
    r_yr = r_vj;
    r_c1 = 0ull;
    r_g3 = 3u;
    r_vx = 0u;
    r_7j = (u32)switch_wl;
    r_p8 = r_12_1;
    goto l_capnp_6f;
l_arm_37:;
    u8 r_ml = ((r_at & 0xffffffffull) != 3ull);
    r_6f = 0ull;
    r_3l = 0ull;
    r_rk = 0u;
    r_7q = 0u;
    r_yr = 0ull;
    r_c1 = (u64)r_ml;
    r_g3 = (r_ml ? 34u : 1u);
    r_vx = (r_ml ? 0u : (u32)(u64)(r_at >> 32ull));
    r_7j = 0u;
    r_p8 = 0u;
    goto l_capnp_6f;
l_default_e1:;
    UNREACHABLE();
l_arm_5s:;
    r_9r = 0ull;
    r_xy = r_r4;
l_arm_i4:;
    r_6f = 0ull;
    r_3l = 0ull;
    r_rk = 0u;
    r_7q = 0u;
    r_yr = r_9r;
    r_c1 = 1ull;
    r_g3 = ((u32)r_xy & 255u);
    r_vx = (u32)(u64)(r_xy >> 32ull);
    r_7j = 0u;
    r_p8 = 0u;
l_capnp_6f:;
    st64(a_1, r_c1);
    st32(away(a_1, 8ull), r_g3);
    st32(away(a_1, 12ull), r_vx);
    st64(away(a_1, 16ull), r_yr);
    st64(away(a_1, 24ull), r_6f);
    st64(away(a_1, 32ull), r_3l);
    st32(away(a_1, 40ull), r_rk);
    st32(away(a_1, 44ull), r_7q);
    st32(away(a_1, 48ull), r_7j);
    st32(away(a_1, 52ull), r_p8);
    return;
}

/* capnp_pointers::pointers::sizes::add_pointers::<#70170357b7303457> */
static NEVER u8 capnp_pointers_pointers_sizes_add_pointers_70170357b7303457(u8 *a_1, u32 a_2, u32 a_3, u32 a_4, u8 *a_5)
{
    u8 *r_su;
    u8 *r_xm;
    u8 *r_xm_1;
    u8 r_30;
    u8 *r_t9;
    u8 *r_su_1;
    u8 *r_08;
    u8 *r_m3;
    u8 *r_xz;
    u32 r_ra;
    u64 wide_v1;
    u64 indvars_vk;
    u32 r_7m;
    u64 r_24;
    u64 r_gw;
    u64 r_qw;
    u64 r_y6;
    u32 r_12;
    u32 r_az;
    u32 r_68;
    u8 t_pa;
    u64 r_lc;
    u64 r_nb;
    u64 r_o3;
    u32 r_4r;
    u64 r_es;
    u8 r_8u;
    u64 r_52;
    u32 r_6l;
    u64 r_es_1;
    u64 r_yz;
    u64 r_ep;
    u64 r_c6;
    u8 t_0c;
    u64 r_lc_1;
    u64 r_nb_1;
    u64 r_1m;
    u64 r_52_1;
    u64 r_yz_1;
    u8 r_t4;
    u32 sink_qh;
    u64 sink_dw;
    u8 r_fk;
    r_su = away(a_1, 40ull);
    r_xm = away(a_1, 32ull);
    r_xm_1 = away(a_5, 32ull);
    r_30 = ((i32)a_4 < (i32)1u);
    r_t9 = away(a_5, 48ull);
    r_su_1 = away(a_5, 40ull);
    r_08 = away(a_5, 16ull);
    r_m3 = away(a_5, 20ull);
    r_xz = away(a_5, 24ull);
    r_ra = (a_4 + 0xffffffffu);
    wide_v1 = (u64)a_3;
    indvars_vk = 0ull;
    goto l_join_5y;
l_loop_da:;
    u64 indvars_r7 = (indvars_vk + 1ull);
    if (indvars_r7 == wide_v1) { r_fk = 0u; goto l_capnp_ri; }
    indvars_vk = indvars_r7;
l_join_5y:;
    r_7m = (a_2 + (u32)indvars_vk);
    r_24 = (u64)r_7m;
    r_gw = (u64)(ld64(r_su) >> 3ull);
    if (!(r_gw > r_24)) goto l_loop_da;
    r_qw = ld64(away(ldp(r_xm), (u64)(r_24 << 3ull)));
    if (r_qw == 0ull) goto l_loop_da;
    switch ((u8)((u8)r_qw & 3u)) {
    case 0u: goto l_arm_vb;
    case 1u: goto l_arm_ui;
    case 2u: goto l_after_5m;
    case 3u: goto l_after_5m;
    default: goto l_default_e1;
    }
l_arm_vb:;
    r_y6 = (u64)(r_qw >> 48ull);
    r_12 = (u32)r_y6;
    r_az = ((u32)(u64)(r_qw >> 32ull) & 65535u);
    r_68 = (r_az + r_12);
    if (r_30) { sink_qh = 25u; sink_dw = 0ull; goto l_capnp_y7; }
    t_pa = (ld8(a_1) != 0u);
    if (t_pa) goto l_join_bd;
    st64(r_t9, uadd_sat64(ld64(r_t9), 1ull));
l_join_bd:;
    u64 r_m6 = ((u64)(r_qw >> 2ull) & 0x3fffffffull);
    r_lc = ((r_24 + 1ull) + r_m6);
    r_nb = (r_gw & 0xffffffffull);
    if (!(r_m6 < 0x20000000ull)) goto l_else_70;
    if (r_lc > r_nb) { sink_qh = 23u; sink_dw = 0ull; goto l_capnp_y7; }
    r_o3 = r_lc;
    goto l_join_45;
l_else_70:;
    u64 r_3o = (r_lc + 0xffffffffc0000000ull);
    if ((r_lc < 0x40000000ull) ? 1u : (r_3o > r_nb)) { sink_qh = 23u; sink_dw = 0ull; goto l_capnp_y7; }
    r_o3 = r_3o;
l_join_45:;
    r_4r = (u32)r_o3;
    r_es = (u64)r_68;
    r_8u = (r_nb < (r_o3 + r_es));
    if ((u8)((u8)t_pa | (u8)r_8u)) goto l_capnp_li;
    if (!(ld8(r_xm_1) == 1u)) { r_6l = r_4r; goto l_arm_up; }
    r_52 = ld64(r_su_1);
    if (r_52 < r_es) { sink_qh = 30u; sink_dw = 0ull; goto l_capnp_y7; }
    st64(r_xm_1, 1ull);
    st64(r_su_1, (r_52 - r_es));
    r_6l = r_4r;
    goto l_arm_up;
l_capnp_li:;
    if (r_8u) { sink_qh = 23u; sink_dw = 0ull; goto l_capnp_y7; }
    r_6l = (r_8u ? 0u : r_4r);
l_arm_up:;
    r_es_1 = (u64)r_68;
    r_yz = ld64(a_5);
    if (r_yz > (r_es_1 ^ 0xffffffffffffffffull)) { sink_qh = 27u; sink_dw = 0xffffffffffffffffull; goto l_capnp_y7; }
    st64(a_5, (r_yz + r_es_1));
    if (r_y6 == 0ull) goto l_loop_da;
    u8 r_w8 = capnp_pointers_pointers_sizes_add_pointers_70170357b7303457(a_1, (r_6l + r_az), r_12, r_ra, a_5);
    r_t4 = r_w8;
    goto l_capnp_qq;
l_arm_ui:;
    r_ep = (u64)(r_qw >> 32ull);
    if (!((u8)((u8)((u8)r_ep & 7u) + 255u) < 5u)) goto l_after_5m;
    r_c6 = (u64)(((ld64(away(away(((u8 *)switch_table_main_18), 8 * (r_ep & 7ull)), 0xfffffffffffffff8ull)) * (u64)(r_qw >> 35ull)) + 63ull) >> 6ull);
    if (r_30) { sink_qh = 25u; sink_dw = 0ull; goto l_capnp_y7; }
    t_0c = (ld8(a_1) == 0u);
    if (!t_0c) goto l_join_bd_1;
    st64(r_t9, uadd_sat64(ld64(r_t9), 1ull));
l_join_bd_1:;
    u64 r_m6_1 = ((u64)(r_qw >> 2ull) & 0x3fffffffull);
    r_lc_1 = ((r_24 + 1ull) + r_m6_1);
    r_nb_1 = (r_gw & 0xffffffffull);
    if (!(r_m6_1 < 0x20000000ull)) goto l_else_70_1;
    if (r_lc_1 > r_nb_1) { sink_qh = 23u; sink_dw = 0ull; goto l_capnp_y7; }
    r_1m = r_lc_1;
    goto l_join_4v;
l_else_70_1:;
    u64 r_3o_1 = (r_lc_1 + 0xffffffffc0000000ull);
    if ((r_lc_1 < 0x40000000ull) ? 1u : (r_3o_1 > r_nb_1)) { sink_qh = 23u; sink_dw = 0ull; goto l_capnp_y7; }
    r_1m = r_3o_1;
l_join_4v:;
    if (r_nb_1 < (r_1m + r_c6)) { sink_qh = 23u; sink_dw = 0ull; goto l_capnp_y7; }
    if (!t_0c) goto l_arm_8q;
    if (!(ld8(r_xm_1) == 1u)) goto l_arm_8q;
    r_52_1 = ld64(r_su_1);
    if (r_52_1 < r_c6) { sink_qh = 30u; sink_dw = 0ull; goto l_capnp_y7; }
    st64(r_xm_1, 1ull);
    st64(r_su_1, (r_52_1 - r_c6));
l_arm_8q:;
    r_yz_1 = ld64(a_5);
    if (r_yz_1 > (r_c6 ^ 0xffffffffffffffffull)) { sink_qh = 27u; sink_dw = 0xffffffffffffffffull; goto l_capnp_y7; }
    st64(a_5, (r_yz_1 + r_c6));
    goto l_loop_da;
l_after_5m:;
    u8 r_bd = capnp_pointers_pointers_sizes_add_object_70170357b7303457(a_1, r_7m, a_4, a_5);
    r_t4 = r_bd;
    goto l_capnp_qq;
l_default_e1:;
    UNREACHABLE();
l_capnp_qq:;
    if ((u8)(r_t4 & 1)) { r_fk = 1u; goto l_capnp_ri; }
    goto l_loop_da;
l_capnp_y7:;
    st32(r_08, sink_qh);
    st32(r_m3, 0u);
    st64(r_xz, sink_dw);
    r_fk = 1u;
l_capnp_ri:;
    return r_fk;
}

/* capnp_messages::text::write_number::<#05c50f83f81b9c23> */
static u8 capnp_messages_text_write_number_05c50f83f81b9c23(u8 *a_1, u64 a_2)
{
    A(8) u8 slot_1[96];
    A(1) u8 slot_2[1];
    u8 *r_rq;
    u8 *r_xz;
    u8 *r_08;
    u8 *r_x5;
    u8 *r_7u;
    u64 r_j3;
    u64 r_52;
    u64 r_52_1;
    u64 r_5q;
    u8 *r_lz;
    u8 *r_2b;
    u64 r_il;
    u64 r_uu;
    u8 r_fk;
    if (!(a_2 > 9ull)) goto l_join_2u;
    u8 r_2g = capnp_messages_text_write_number_05c50f83f81b9c23(a_1, (a_2 / 10ull));
    if ((u8)(r_2g & 1)) { r_fk = 1u; goto l_return_ri; }
l_join_2u:;
    st8(slot_2, (u8)((u8)(a_2 % 10ull) | 48u));
    r_rq = away(a_1, 8ull);
    r_xz = away(a_1, 24ull);
    r_08 = away(a_1, 16ull);
    r_x5 = (slot_1 + 8);
    r_7u = slot_2;
    r_j3 = 1ull;
l_join_c8:;
    memset(slot_1, 0u, 96);
    r_52 = ld64(r_xz);
    r_52_1 = ld64(r_08);
    if (!(r_j3 < (r_52 - r_52_1))) goto l_std_1k;
    r_5q = (r_52_1 + r_j3);
    r_lz = ldp(r_rq);
    r_2b = away(r_lz, r_52_1);
    if (((u64)(uptr)r_2b - (u64)(uptr)r_7u) < r_j3) { r_il = 0ull; goto l_join_fh; }
    memmove_or_none(r_2b, r_7u, r_j3);
    goto l_arm_5b;
l_join_fh:;
    st8((r_2b + (i64)(r_il)), ld8((r_7u + (i64)(r_il))));
    u64 r_36 = (r_il + 1ull);
    if (!(r_36 == r_j3)) { r_il = r_36; goto l_join_fh; }
l_arm_5b:;
    stp(r_rq, r_lz);
    st64(r_08, r_5q);
    st64(r_xz, r_52);
    r_uu = r_j3;
    goto l_arm_f2;
l_std_1k:;
    std_io_buffered_BufWriter_write_cold_89ca6214804c96d4(slot_1, a_1, r_7u, r_j3);
    u64 r_38 = ld64(r_x5);
    if ((ld8(slot_1) != 0u) ? 1u : (r_38 == 0ull)) goto l_arm_my;
    r_uu = r_38;
l_arm_f2:;
    u64 r_t9 = (r_j3 - r_uu);
    if (r_t9 == 0ull) { r_fk = 0u; goto l_return_ri; }
    u8 *r_1 = away(r_7u, r_uu);
    u64 r_2 = r_t9;
    r_7u = r_1;
    r_j3 = r_2;
    goto l_join_c8;
l_arm_my:;
    st8(away(a_1, 32ull), 1u);
    r_fk = 1u;
l_return_ri:;
    return r_fk;
}

/* capnp_layout::tool::frames::write_hex_u32::<#05c50f83f81b9c23> */
static u8 capnp_layout_tool_frames_write_hex_u32_05c50f83f81b9c23(u8 *a_1, u32 a_2)
{
    A(8) u8 slot_1[96];
    A(8) u8 slot_2[8];
    A(4) u8 slot_3[4];
    u64 r_pt;
    u8 *r_rq;
    u8 *r_xz;
    u8 *r_08;
    u8 *r_x5;
    u8 *r_7u;
    u64 r_j3;
    u64 r_52;
    u64 r_52_1;
    u64 r_5q;
    u8 *r_lz;
    u8 *r_2b;
    u64 r_il;
    u64 r_fe;
    u8 r_fk;
    st64(slot_2, 0ull);
    st32(slot_3, a_2);
    r_pt = 0ull;
l_join_jf:;
    u8 r_47 = ld8((slot_3 + (i64)(r_pt)));
    u8 *r_a7 = (slot_2 + (i64)((u64)(r_pt << 1ull)));
    st8(r_a7, ld8((((u8 *)g_static_28) + (i64)((u64)(u8)((u32)r_47 >> 4u)))));
    st8((r_a7 + 1), ld8((((u8 *)g_static_28) + (i64)((u64)(u8)(r_47 & 15u)))));
    u64 r_c4 = (r_pt + 1ull);
    if (!(r_c4 == 4ull)) { r_pt = r_c4; goto l_join_jf; }
    r_rq = away(a_1, 8ull);
    r_xz = away(a_1, 24ull);
    r_08 = away(a_1, 16ull);
    r_x5 = (slot_1 + 8);
    r_7u = slot_2;
    r_j3 = 8ull;
l_join_c8:;
    memset(slot_1, 0u, 96);
    r_52 = ld64(r_xz);
    r_52_1 = ld64(r_08);
    if (!(r_j3 < (r_52 - r_52_1))) goto l_std_1k;
    r_5q = (r_52_1 + r_j3);
    r_lz = ldp(r_rq);
    r_2b = away(r_lz, r_52_1);
    if (((u64)(uptr)r_2b - (u64)(uptr)r_7u) < r_j3) { r_il = 0ull; goto l_join_fh; }
    memmove_or_none(r_2b, r_7u, r_j3);
    goto l_arm_5b;
l_join_fh:;
    st8((r_2b + (i64)(r_il)), ld8((r_7u + (i64)(r_il))));
    u64 r_36 = (r_il + 1ull);
    if (!(r_36 == r_j3)) { r_il = r_36; goto l_join_fh; }
l_arm_5b:;
    stp(r_rq, r_lz);
    st64(r_08, r_5q);
    st64(r_xz, r_52);
    r_fe = r_j3;
    goto l_arm_on;
l_std_1k:;
    std_io_buffered_BufWriter_write_cold_89ca6214804c96d4(slot_1, a_1, r_7u, r_j3);
    u64 r_38 = ld64(r_x5);
    if ((ld8(slot_1) != 0u) ? 1u : (r_38 == 0ull)) goto l_arm_q6;
    r_fe = r_38;
l_arm_on:;
    u64 r_t9 = (r_j3 - r_fe);
    if (r_t9 == 0ull) { r_fk = 0u; goto l_capnp_ri; }
    u8 *r_1 = away(r_7u, r_fe);
    u64 r_2 = r_t9;
    r_7u = r_1;
    r_j3 = r_2;
    goto l_join_c8;
l_arm_q6:;
    st8(away(a_1, 32ull), 1u);
    r_fk = 1u;
l_capnp_ri:;
    return r_fk;
}

/* capnp_layout::tool::writing::write_hex_digits::<#05c50f83f81b9c23> */
static u8 capnp_layout_tool_writing_write_hex_digits_05c50f83f81b9c23(u8 *a_1, u8 *a_2, u64 a_3)
{
    A(8) u8 slot_1[96];
    A(1) u8 slot_2[16];
    A(8) u8 slot_3[8];
    u64 r_k8;
    u8 *r_rq;
    u8 *r_xz;
    u8 *r_08;
    u8 *r_x5;
    u64 r_09;
    u64 r_pt;
    u8 *r_7u;
    u64 r_j3;
    u64 r_52;
    u64 r_52_1;
    u64 r_5q;
    u8 *r_lz;
    u8 *r_2b;
    u64 r_il;
    u64 r_4j;
    u8 r_fk;
    r_k8 = (u64)(a_3 >> 3ull);
    if (r_k8 == 0ull) { r_fk = 0u; goto l_return_ri; }
    r_rq = away(a_1, 8ull);
    r_xz = away(a_1, 24ull);
    r_08 = away(a_1, 16ull);
    r_x5 = (slot_1 + 8);
    r_09 = 0ull;
l_join_ob:;
    u64 r_qw = ld64(away(a_2, (u64)(r_09 << 3ull)));
    memset(slot_2, 0u, 16);
    st64(slot_3, r_qw);
    r_pt = 0ull;
l_join_jf:;
    u8 r_47 = ld8((slot_3 + (i64)(r_pt)));
    u8 *r_a7 = (slot_2 + (i64)((u64)(r_pt << 1ull)));
    st8(r_a7, ld8((((u8 *)g_static_28) + (i64)((u64)(u8)((u32)r_47 >> 4u)))));
    st8((r_a7 + 1), ld8((((u8 *)g_static_28) + (i64)((u64)(u8)(r_47 & 15u)))));
    u64 r_c4 = (r_pt + 1ull);
    if (r_c4 == 8ull) { r_7u = slot_2; r_j3 = 16ull; goto l_join_c8; }
    r_pt = r_c4;
    goto l_join_jf;
l_join_c8:;
    memset(slot_1, 0u, 96);
    r_52 = ld64(r_xz);
    r_52_1 = ld64(r_08);
    if (!(r_j3 < (r_52 - r_52_1))) goto l_std_1k;
    r_5q = (r_52_1 + r_j3);
    r_lz = ldp(r_rq);
    r_2b = away(r_lz, r_52_1);
    if (((u64)(uptr)r_2b - (u64)(uptr)r_7u) < r_j3) { r_il = 0ull; goto l_join_fh; }
    memmove_or_none(r_2b, r_7u, r_j3);
    goto l_arm_5b;
l_join_fh:;
    st8((r_2b + (i64)(r_il)), ld8((r_7u + (i64)(r_il))));
    u64 r_36 = (r_il + 1ull);
    if (!(r_36 == r_j3)) { r_il = r_36; goto l_join_fh; }
l_arm_5b:;
    stp(r_rq, r_lz);
    st64(r_08, r_5q);
    st64(r_xz, r_52);
    r_4j = r_j3;
    goto l_arm_8s;
l_std_1k:;
    std_io_buffered_BufWriter_write_cold_89ca6214804c96d4(slot_1, a_1, r_7u, r_j3);
    u64 r_38 = ld64(r_x5);
    if ((ld8(slot_1) != 0u) ? 1u : (r_38 == 0ull)) goto l_arm_x7;
    r_4j = r_38;
l_arm_8s:;
    u64 r_t9 = (r_j3 - r_4j);
    if (!(r_t9 == 0ull)) { u8 *r_1 = away(r_7u, r_4j); u64 r_2 = r_t9; r_7u = r_1; r_j3 = r_2; goto l_join_c8; }
    u64 r_c4_1 = (r_09 + 1ull);
    if (r_c4_1 == r_k8) { r_fk = 0u; goto l_return_ri; }
    r_09 = r_c4_1;
    goto l_join_ob;
l_arm_x7:;
    st8(away(a_1, 32ull), 1u);
    r_fk = 1u;
l_return_ri:;
    return r_fk;
}

/* capnp_layout::tool::framed::read_frame */
static void capnp_layout_tool_framed_read_frame(u8 *a_1, u8 *a_2)
{
    A(8) u8 slot_1[128];
    A(8) u8 slot_2[128];
    u8 *r_lz;
    u64 r_52;
    u64 r_24;
    u64 r_c4;
    u64 r_lc;
    u8 *r_bb;
    u64 r_ya;
    u64 r_9x;
    u64 r_4a;
    u64 a_n9;
    u64 r_l5;
    u64 r_rx;
    u64 r_0x;
    u64 r_5q_1;
    u64 r_9t;
    u64 r_t9;
    u8 *r_vt;
    u64 r_8t;
    u64 r_49;
    u64 r_1t;
    u64 r_a3;
    u32 r_wr;
    u32 r_hb;
    u64 r_tf;
    memset(slot_2, 0u, 128);
    if (ld64(away(a_2, 8ull)) == 0ull) goto l_arm_4u;
    u8 *r_fx = ldp(a_2);
    r_lz = ldp(r_fx);
    r_52 = ld64(away(r_fx, 8ull));
    if (r_52 == 0ull) { r_vt = ((u8 *)0); r_8t = 0ull; r_49 = 0ull; r_1t = 1ull; r_a3 = 2ull; r_wr = 0u; r_hb = 0u; r_tf = 0ull; goto l_join_s8; }
    if (r_52 < 4ull) { r_vt = ((u8 *)0); r_8t = 0ull; r_49 = 0ull; r_1t = 1ull; r_a3 = 1ull; r_wr = 3u; r_hb = 0u; r_tf = 0ull; goto l_join_s8; }
    u32 r_5k = ld32(r_lz);
    r_24 = (u64)r_5k;
    r_c4 = (r_24 + 1ull);
    if (r_5k > 511u) { r_vt = ((u8 *)0); r_8t = 0ull; r_49 = 0ull; r_1t = 1ull; r_a3 = 1ull; r_wr = 1u; r_hb = 0u; r_tf = r_c4; goto l_join_s8; }
    r_lc = (((u64)(r_c4 << 2ull) + 4ull) + ((u64)(r_24 << 2ull) & 4ull));
    if (r_52 < r_lc) { r_vt = ((u8 *)0); r_8t = 0ull; r_49 = 0ull; r_1t = 1ull; r_a3 = 1ull; r_wr = 3u; r_hb = 0u; r_tf = 0ull; goto l_join_s8; }
    r_bb = away(r_lz, 4ull);
    memset(slot_1, 0u, 128);
    r_ya = (u64)((r_24 + 32ull) >> 5ull);
    r_9x = 0ull;
    r_4a = 0ull;
l_join_1x:;
    st64((slot_1 + (i64)((u64)(r_4a << 3ull))), r_9x);
    u64 r_vp = (u64)(r_4a << 5ull);
    a_n9 = umin64((r_vp + 32ull), r_c4);
    if (r_vp > r_24) { r_0x = 0ull; goto l_capnp_a1; }
    r_l5 = 0ull;
    r_rx = r_vp;
l_join_rl:;
    u64 r_5q = (r_l5 + (u64)ld32((r_bb + (i64)((u64)(r_rx << 2ull)))));
    u64 r_36 = (r_rx + 1ull);
    if (r_36 == a_n9) { r_0x = r_5q; goto l_capnp_a1; }
    r_l5 = r_5q;
    r_rx = r_36;
    goto l_join_rl;
l_capnp_a1:;
    r_5q_1 = (r_0x + r_9x);
    u64 r_c4_1 = (r_4a + 1ull);
    if (!(r_c4_1 == r_ya)) { r_9x = r_5q_1; r_4a = r_c4_1; goto l_join_1x; }
    r_9t = (r_52 + 0xfffffffffffffffcull);
    if (r_5q_1 > 0x800000ull) { r_vt = ((u8 *)0); r_8t = 0ull; r_49 = 0ull; r_1t = 1ull; r_a3 = 1ull; r_wr = 2u; r_hb = 0u; r_tf = r_5q_1; goto l_join_s8; }
    r_t9 = (r_52 - r_lc);
    if ((u64)(r_t9 >> 3ull) < r_5q_1) { r_vt = ((u8 *)0); r_8t = 0ull; r_49 = 0ull; r_1t = 1ull; r_a3 = 1ull; r_wr = 3u; r_hb = 0u; r_tf = 0ull; goto l_join_s8; }
    goto l_arm_wo;
l_common_68:;
    return;
l_arm_4u:;
    st64(a_1, 1ull);
    st64(away(a_1, 8ull), 2ull);
    memset(away(a_1, 16ull), 0u, 168);
    goto l_common_68;
l_arm_wo:;
    u64 t_al = (u64)(uptr)r_bb;
    memcpy(slot_2, slot_1, 128);
    r_vt = away(r_lz, r_lc);
    r_8t = r_t9;
    r_49 = ((u64)(r_5q_1 << 3ull) + r_lc);
    r_1t = 0ull;
    r_a3 = r_c4;
    r_wr = (u32)t_al;
    r_hb = (u32)(u64)(t_al >> 32ull);
    r_tf = r_9t;
l_join_s8:;
    st64(a_1, r_1t);
    st64(away(a_1, 8ull), r_a3);
    st32(away(a_1, 16ull), r_wr);
    st32(away(a_1, 20ull), r_hb);
    st64(away(a_1, 24ull), r_tf);
    stp(away(a_1, 32ull), r_vt);
    st64(away(a_1, 40ull), r_8t);
    memcpy(away(a_1, 48ull), slot_2, 128);
    st64(away(a_1, 176ull), r_49);
    goto l_common_68;
}

/* capnp_layout::tool::engine::answer_canon::<#8738c8d4622c75c1> */
static void capnp_layout_tool_engine_answer_canon_8738c8d4622c75c1(u8 *a_1, u8 *a_2, u8 *a_3, u8 *a_4, u8 a_5, u8 *a_6)
{
    A(8) u8 slot_1[1];
    A(8) u8 slot_2[96];
    A(8) u8 slot_3[64];
    A(8) u8 slot_4[32];
    A(8) u8 slot_5[136];
    A(8) u8 slot_6[80];
    A(8) u8 slot_7[136];
    A(8) u8 slot_8[32];
    A(8) u8 slot_9[80];
    A(8) u8 slot_10[16];
    A(8) u8 slot_11[24];
    A(8) u8 slot_12[40];
    A(8) u8 slot_13[16];
    A(8) u8 slot_14[16];
    A(1) u8 slot_15[23];
    A(8) u8 slot_16[16];
    A(8) u8 slot_17[24];
    u8 *r_rv;
    u64 r_qw;
    u8 *r_mb;
    u64 r_qw_1;
    u64 r_qw_2;
    u8 r_dh;
    u64 r_eg;
    u64 t_qw;
    u32 t_5k;
    u8 *r_5a;
    u64 r_2l;
    u8 r_ts;
    u64 r_r9;
    u64 r_gj;
    u64 r_sw;
    u8 *r_x5;
    u8 *r_zd;
    u8 *r_x5_1;
    u64 r_52;
    u8 *r_lz;
    u64 r_j0;
    u32 spec_kn;
    u8 *r_x5_2;
    u32 r_uq;
    u64 r_38;
    u8 *r_lk;
    u8 r_r5;
    u32 r_uq_1;
    u8 r_r5_2;
    u32 r_uq_2;
    u64 r_38_2;
    u32 r_fz;
    u64 r_hh_1;
    u64 r_5o;
    u8 *r_3u;
    u8 r_r4;
    u32 r_8n;
    u64 r_ew;
    u64 r_d4;
    u8 *r_lp;
    u64 r_mc;
    u64 r_pb;
    u32 r_3d;
    u32 r_p0;
    u8 r_yp;
    u8 *r_ze;
    u64 r_7f;
    u8 *r_ez;
    u64 r_kl;
    u64 r_or;
    u32 r_45;
    u8 r_lu;
    u8 *r_23;
    u64 r_1s;
    u64 r_36;
    u64 r_mh;
    u8 r_s9;
    u32 r_77;
    u32 r_hh;
    u64 r_1u;
    u32 r_db;
    u8 *r_1e;
    u8 r_sx;
    u8 *r_ap;
    u64 r_x2;
    u64 r_w9;
    u32 r_du;
    u8 r_ch;
    u8 *r_kz;
    u64 r_yt;
    u64 r_1y;
    u64 r_za;
    u64 r_uo;
    u64 r_96;
    u8 *r_4z;
    u8 r_hn;
    u32 r_aj;
    u32 r_21;
    u64 r_l7;
    u64 r_iu;
    u8 *r_a7;
    u64 r_iu_1;
    u8 *r_a7_1;
    u64 r_7n;
    struct s_i64_i64 r_1y_1;
    u8 *r_x5_3;
    u8 *r_zd_2;
    u8 *r_ek;
    u8 *r_zh;
    u8 *r_d2;
    u64 r_qn;
    u8 *r_um;
    u64 r_lw;
    u64 r_g9;
    u8 *r_lz_1;
    u64 r_z6;
    u8 *r_cm;
    u64 r_2k;
    u64 r_z6_1;
    u8 *r_rq;
    u8 *r_xz;
    u8 *r_08;
    u8 *r_x5_4;
    u8 *r_7u;
    u64 r_j3;
    u64 r_52_1;
    u64 r_52_2;
    u64 r_5q;
    u8 *r_lz_2;
    u8 *r_2b_1;
    u64 r_il;
    u64 r_sz;
    u8 *r_rq_1;
    u8 *r_xz_1;
    u8 *r_08_1;
    u8 *r_x5_5;
    u8 *r_7u_1;
    u64 r_j3_1;
    u64 r_52_3;
    u64 r_52_4;
    u64 r_5q_1;
    u8 *r_lz_3;
    u8 *r_2b_2;
    u64 r_il_1;
    u64 r_sz_1;
    u8 r_3i;
    u8 *r_zd_3;
    u8 *r_xw;
    u64 t_gg;
    u64 r_ax;
    u64 r_du_1;
    u64 r_zn;
    u64 r_5x;
    u64 r_zn_1;
    u8 *r_xw_1;
    u64 r_o4;
    u32 r_hd;
    u32 r_67;
    u8 *r_vb;
    u64 r_4x;
    u8 *r_ce;
    u8 *r_4s;
    u64 r_f7;
    u8 r_kb;
    r_rv = ldp((a_2 + 16));
    r_qw = ld64((a_2 + 24));
    r_mb = ldp(a_3);
    r_qw_1 = ld64((a_3 + 8));
    r_qw_2 = ld64((a_3 + 16));
    r_dh = ld8(a_4);
    r_eg = (u64)r_dh;
    t_qw = ld64(away(a_4, 8ull));
    t_5k = ld32(away(a_4, 16ull));
    memset(slot_14, 0u, 16);
    memset(slot_15, 0u, 23);
    memset(slot_16, 0u, 16);
    memset(slot_17, 0u, 24);
    if (r_qw_1 < 0x100000000ull) { r_5a = r_mb; r_2l = r_qw_1; goto l_loop_7z; }
    mv16(slot_13, a_2);
    goto l_join_qu;
l_loop_7z:;
    if (r_2l == 0ull) goto l_arm_jj;
    if (ld64(away(r_5a, 8ull)) < 0x800000000ull) { u8 *r_1 = away(r_5a, 24ull); u64 r_2 = (r_2l + 0xffffffffffffffffull); r_5a = r_1; r_2l = r_2; goto l_loop_7z; }
    goto l_arm_rq;
l_arm_jj:;
    r_ts = (r_qw_1 == 0ull);
    if (r_ts) { r_sw = 0ull; goto l_capnp_4o; }
    r_r9 = 0ull;
    r_gj = 0ull;
l_arm_pg:;
    u64 r_kh = ((u64)(ld64(away(away(r_mb, (r_gj * 24ull)), 8ull)) >> 3ull) + r_r9);
    u64 r_c4 = (r_gj + 1ull);
    if (r_c4 == r_qw_1) { r_sw = r_kh; goto l_capnp_4o; }
    r_r9 = r_kh;
    r_gj = r_c4;
    goto l_arm_pg;
l_capnp_4o:;
    stp(slot_12, r_mb);
    r_x5 = (slot_12 + 8);
    st64(r_x5, r_qw_1);
    r_zd = (slot_12 + 16);
    st64(r_zd, r_qw_2);
    st32((slot_12 + 24), t_5k);
    st32((slot_12 + 28), 0u);
    st64((slot_12 + 32), r_sw);
    st64(slot_11, r_eg);
    r_x5_1 = (slot_11 + 8);
    st64(r_x5_1, t_qw);
    st64((slot_11 + 16), 0ull);
    if (r_ts) { r_db = 12u; goto l_arm_dk; }
    r_52 = ld64(away(r_mb, 8ull));
    if (r_52 < 8ull) { r_db = 23u; goto l_arm_dk; }
    if (!(r_dh == 1u)) goto l_capnp_u2;
    if (t_qw == 0ull) { r_db = 30u; goto l_arm_dk; }
    st64(slot_11, 1ull);
    st64(r_x5_1, (t_qw + 0xffffffffffffffffull));
l_capnp_u2:;
    r_lz = ldp(r_mb);
    r_j0 = (r_52 & 0xfffffffffffffff8ull);
    memset(slot_7, 0u, 136);
    spec_kn = ((r_sw < 0x1fffffffull) ? ((u32)r_sw + 1u) : 0x1fffffffu);
    mv16(slot_8, a_2);
    stp((slot_8 + 16), r_rv);
    st64((slot_8 + 24), r_qw);
    memset(slot_9, 0u, 16);
    stp((slot_9 + 16), slot_12);
    memset((slot_9 + 24), 0u, 16);
    stp((slot_9 + 40), r_lz);
    st64((slot_9 + 48), r_j0);
    st32((slot_9 + 56), 0u);
    st32((slot_9 + 60), 0u);
    st32((slot_9 + 64), t_5k);
    memset((slot_9 + 68), 0u, 12);
    capnp_messages_messages_canonical_copy_canonicalize_to_60f0b323(slot_7, slot_8, slot_9, slot_11, spec_kn);
    r_x5_2 = (slot_7 + 8);
    r_uq = ld32((slot_7 + 12));
    r_38 = ld64((slot_7 + 16));
    r_lk = (slot_7 + 24);
    if (!(ld8(slot_7) == 0u)) goto l_arm_uh;
    u32 r_z4 = ld32(r_x5_2);
    mv16(slot_10, r_lk);
    r_ze = ldp((slot_7 + 40));
    r_7f = ld64((slot_7 + 56));
    r_ez = ldp((slot_7 + 64));
    r_kl = ld64((slot_7 + 72));
    r_or = ld64((slot_7 + 80));
    r_45 = ld32((slot_7 + 96));
    r_lu = ld8((slot_7 + 104));
    r_23 = ldp((slot_7 + 112));
    r_1s = ld64((slot_7 + 120));
    r_36 = ld64((slot_7 + 128));
    r_mh = ld64((slot_7 + 48));
    r_s9 = 1u;
    r_77 = r_z4;
    r_hh = r_uq;
    r_1u = r_38;
    goto l_capnp_x7;
l_arm_uh:;
    r_r5 = ld8(r_x5_2);
    if ((spec_kn != 0x1fffffffu) ? (r_r5 == 27u) : 0u) goto l_capnp_qr;
    mv16(slot_10, r_lk);
    r_ze = ldp((slot_7 + 40));
    r_7f = 0ull;
    r_ez = ((u8 *)0);
    r_kl = 0ull;
    r_or = 0ull;
    r_45 = 0u;
    r_lu = 0u;
    r_23 = ((u8 *)0);
    r_1s = 0ull;
    r_36 = 0ull;
    r_mh = ld64((slot_7 + 48));
    r_s9 = 0u;
    r_77 = (u32)r_r5;
    r_hh = r_uq;
    r_1u = r_38;
    goto l_capnp_x7;
l_capnp_qr:;
    memset(slot_5, 0u, 136);
    memset(slot_6, 0u, 80);
    u8 *t_6c = (slot_3 + 56);
    u8 r_r5_1 = ld8(slot_11);
    u64 r_38_1 = ld64(r_x5_1);
    st64(t_6c, 0ull);
    memset(slot_4, 0u, 24);
    st64(slot_2, (u64)r_r5_1);
    st64((slot_2 + 8), r_38_1);
    st64((slot_2 + 16), 0ull);
    st64(slot_3, 0ull);
    stp((slot_3 + 8), slot_12);
    memset((slot_3 + 16), 0u, 16);
    stp((slot_3 + 32), r_lz);
    st64((slot_3 + 40), r_j0);
    st32((slot_3 + 48), 0u);
    st32((slot_3 + 52), 0u);
    st32(t_6c, t_5k);
    capnp_messages_messages_copy_size_add_value_70170357b7303457(slot_4, slot_3, 0u, t_5k, 1u, slot_2);
    r_uq_1 = ld32((slot_4 + 4));
    r_r5_2 = ld8((slot_4 + 8));
    r_uq_2 = ld32((slot_4 + 12));
    r_38_2 = ld64((slot_4 + 16));
    if (!(ld8(slot_4) == 0u)) goto l_arm_1b;
    r_fz = umin32(r_uq_1, 0x1fffffffu);
    goto l_arm_rb;
l_arm_1b:;
    if (r_r5_2 == 27u) { r_fz = 0x1fffffffu; goto l_arm_rb; }
    goto l_arm_nu;
l_arm_rb:;
    memset(slot_6, 0u, 16);
    stp((slot_6 + 16), slot_12);
    memset((slot_6 + 24), 0u, 16);
    stp((slot_6 + 40), r_lz);
    st64((slot_6 + 48), r_j0);
    st32((slot_6 + 56), 0u);
    st32((slot_6 + 60), 0u);
    st32((slot_6 + 64), t_5k);
    memset((slot_6 + 68), 0u, 12);
    capnp_messages_messages_canonical_copy_canonicalize_to_60f0b323(slot_5, r_lk, slot_6, slot_11, r_fz);
    r_hh_1 = ld64((slot_5 + 128));
    r_5o = ld64((slot_5 + 120));
    r_3u = ldp((slot_5 + 112));
    r_r4 = ld8((slot_5 + 104));
    r_8n = ld32((slot_5 + 96));
    r_ew = ld64((slot_5 + 80));
    r_d4 = ld64((slot_5 + 72));
    r_lp = ldp((slot_5 + 64));
    r_mc = ld64((slot_5 + 56));
    r_pb = ld64((slot_5 + 16));
    r_3d = ld32((slot_5 + 12));
    r_p0 = ld32((slot_5 + 8));
    r_yp = (ld8(slot_5) == 0u);
    goto l_capnp_1y;
l_arm_nu:;
    mv32((slot_5 + 24), r_lk);
    r_hh_1 = 0ull;
    r_5o = 0ull;
    r_3u = ((u8 *)0);
    r_r4 = 0u;
    r_8n = 0u;
    r_ew = 0ull;
    r_d4 = 0ull;
    r_lp = ((u8 *)0);
    r_mc = 0ull;
    r_pb = r_38_2;
    r_3d = r_uq_2;
    r_p0 = (u32)r_r5_2;
    r_yp = 0u;
l_capnp_1y:;
    mv16(slot_10, (slot_5 + 24));
    r_ze = ldp((slot_5 + 40));
    r_7f = r_mc;
    r_ez = r_lp;
    r_kl = r_d4;
    r_or = r_ew;
    r_45 = r_8n;
    r_lu = r_r4;
    r_23 = r_3u;
    r_1s = r_5o;
    r_36 = r_hh_1;
    r_mh = ld64((slot_5 + 48));
    r_s9 = r_yp;
    r_77 = r_p0;
    r_hh = r_3d;
    r_1u = r_pb;
l_capnp_x7:;
    r_1e = r_ze;
    r_sx = (r_7f == 0ull);
    r_ap = r_ez;
    r_x2 = r_kl;
    r_w9 = r_or;
    r_du = r_45;
    r_ch = (u8)(r_lu & 1);
    r_kz = r_23;
    r_yt = r_1s;
    r_1y = r_36;
    r_za = r_mh;
    r_uo = ld64(r_zd);
    r_96 = ld64(r_x5);
    r_4z = ldp(slot_12);
    r_hn = r_s9;
    r_aj = r_77;
    r_21 = r_hh;
    r_l7 = r_1u;
    goto l_capnp_2m;
l_arm_dk:;
    mv16(slot_10, a_2);
    r_1e = r_rv;
    r_sx = 1u;
    r_ap = ((u8 *)0);
    r_x2 = 0ull;
    r_w9 = 0ull;
    r_du = 0u;
    r_ch = 0u;
    r_kz = ((u8 *)0);
    r_yt = 0ull;
    r_1y = 0ull;
    r_za = r_qw;
    r_uo = r_qw_2;
    r_96 = r_qw_1;
    r_4z = r_mb;
    r_hn = 0u;
    r_aj = r_db;
    r_21 = 0u;
    r_l7 = 0ull;
l_capnp_2m:;
    if (r_96 == 0ull) goto l_std_at;
    r_iu = 0ull;
l_join_9n:;
    r_a7 = away(r_4z, (r_iu * 24ull));
    if (ld64((r_a7 + 16)) == 0ull) goto l_core_jc;
    rattle_dealloc(ldp(r_a7));
l_core_jc:;
    u64 r_36_1 = (r_iu + 1ull);
    if (!(r_36_1 == r_96)) { r_iu = r_36_1; goto l_join_9n; }
l_std_at:;
    if (r_uo == 0ull) goto l_capnp_4b;
    rattle_dealloc(r_4z);
    goto l_capnp_4b;
l_arm_rq:;
    mv16(slot_13, a_2);
    if (r_qw_1 == 0ull) goto l_std_at_1;
l_join_qu:;
    r_iu_1 = 0ull;
l_join_9n_1:;
    r_a7_1 = away(r_mb, (r_iu_1 * 24ull));
    if (ld64((r_a7_1 + 16)) == 0ull) goto l_core_jc_1;
    rattle_dealloc(ldp(r_a7_1));
l_core_jc_1:;
    u64 r_36_2 = (r_iu_1 + 1ull);
    if (!(r_36_2 == r_qw_1)) { r_iu_1 = r_36_2; goto l_join_9n_1; }
l_std_at_1:;
    if (r_qw_2 == 0ull) goto l_capnp_4b_1;
    rattle_dealloc(r_mb);
l_capnp_4b_1:;
    mv16(slot_14, slot_13);
    r_o4 = 0xffffffffffffffffull;
    r_hd = 0u;
    r_67 = 27u;
    r_vb = r_rv;
    r_4x = r_qw;
    goto l_arm_uu;
l_capnp_4b:;
    mv16(slot_14, slot_10);
    if (!r_hn) { r_o4 = r_l7; r_hd = r_21; r_67 = r_aj; r_vb = r_1e; r_4x = r_za; goto l_arm_uu; }
    if (!r_ch) goto l_arm_mh;
    if (r_yt == 0ull) goto l_capnp_95;
    goto l_capnp_8u;
l_arm_mh:;
    goto l_after_64;
l_capnp_8u:;
    memset(slot_2, 0u, 24);
    r_7n = (r_yt + 1ull);
    if (r_7n == 0ull) goto l_std_mb;
    if (!(r_7n < 0x800000000000000ull)) goto l_after_64;
    struct s_i64_i64 r_e7 = rattle_alloc((u64)(r_7n << 4ull), 8ull);
    r_1y_1 = r_e7;
    if (!(u8)(r_1y_1.f0 & 1)) goto l_after_64;
    u8 *r_f6 = ((u8 *)(uptr)r_1y_1.f1);
    stp(slot_2, r_f6);
    u8 *r_zd_1 = (slot_2 + 16);
    st64(r_zd_1, r_7n);
    r_ek = (slot_2 + 8);
    r_zh = r_zd_1;
    r_d2 = r_f6;
    r_qn = 0ull;
    goto l_join_yc;
l_std_mb:;
    stp(slot_2, slot_1);
    r_x5_3 = (slot_2 + 8);
    r_zd_2 = (slot_2 + 16);
    memset(r_x5_3, 0u, 16);
    u8 r_gt = std_alloc_vec_Vec_grow_amortized_0e5e43add44bc681(slot_2);
    if (!r_gt) goto l_then_g4;
    r_ek = r_x5_3;
    r_zh = r_zd_2;
    r_d2 = ldp(slot_2);
    r_qn = ld64(r_x5_3);
    goto l_join_yc;
l_then_g4:;
    if (ld64(r_zd_2) == 0ull) goto l_after_64;
    goto l_arm_b8;
l_join_yc:;
    u8 *r_a7_2 = (r_d2 + (i64)((u64)(r_qn << 4ull)));
    stp(r_a7_2, r_ap);
    st64((r_a7_2 + 8), (u64)((u64)r_du << 3ull));
    u64 r_7n_1 = (r_qn + 1ull);
    st64(r_ek, r_7n_1);
    r_um = r_d2;
    r_lw = r_7n_1;
    r_g9 = 0ull;
l_join_f9:;
    u8 *r_2b = away(r_kz, (r_g9 * 40ull));
    r_lz_1 = ldp(r_2b);
    r_z6 = (u64)((u64)ld32(away(r_2b, 32ull)) << 3ull);
    if (!(ld64(r_zh) == r_lw)) { r_cm = r_um; r_2k = r_lw; goto l_after_6r; }
    u8 r_gt_1 = std_alloc_vec_Vec_grow_amortized_0e5e43add44bc681(slot_2);
    if (!r_gt_1) goto l_arm_g4;
    r_cm = ldp(slot_2);
    r_2k = ld64(r_ek);
l_after_6r:;
    u8 *r_a7_3 = (r_cm + (i64)((u64)(r_2k << 4ull)));
    stp(r_a7_3, r_lz_1);
    st64((r_a7_3 + 8), r_z6);
    u64 r_7n_2 = (r_2k + 1ull);
    st64(r_ek, r_7n_2);
    u64 r_36_3 = (r_g9 + 1ull);
    if (r_36_3 == r_yt) goto l_after_64;
    r_um = r_cm;
    r_lw = r_7n_2;
    r_g9 = r_36_3;
    goto l_join_f9;
l_arm_g4:;
    if (ld64(r_zh) == 0ull) goto l_after_64;
l_arm_b8:;
    rattle_dealloc(ldp(slot_2));
l_after_64:;
    TRAP();
    UNREACHABLE();
l_capnp_95:;
    r_z6_1 = (u64)((u64)r_du << 3ull);
    if (!(u8)(a_5 & 1)) goto l_capnp_ak;
    u8 r_f9 = capnp_layout_tool_writing_write_hex_digits_05c50f83f81b9c23(a_6, r_ap, r_z6_1);
    if ((u8)(r_f9 & 1)) { r_3i = 3u; goto l_then_33; }
    r_rq = away(a_6, 8ull);
    r_xz = away(a_6, 24ull);
    r_08 = away(a_6, 16ull);
    r_x5_4 = (slot_2 + 8);
    r_7u = ((u8 *)g_static_6);
    r_j3 = 1ull;
l_join_c8:;
    memset(slot_2, 0u, 96);
    r_52_1 = ld64(r_xz);
    r_52_2 = ld64(r_08);
    if (!(r_j3 < (r_52_1 - r_52_2))) goto l_std_1k;
    r_5q = (r_52_2 + r_j3);
    r_lz_2 = ldp(r_rq);
    r_2b_1 = away(r_lz_2, r_52_2);
    if (((u64)(uptr)r_2b_1 - (u64)(uptr)r_7u) < r_j3) { r_il = 0ull; goto l_join_fh; }
    memcpy_or_none(r_2b_1, r_7u, r_j3);
    goto l_arm_5b;
l_join_fh:;
    st8((r_2b_1 + (i64)(r_il)), ld8((r_7u + (i64)(r_il))));
    u64 r_36_4 = (r_il + 1ull);
    if (!(r_36_4 == r_j3)) { r_il = r_36_4; goto l_join_fh; }
l_arm_5b:;
    stp(r_rq, r_lz_2);
    st64(r_08, r_5q);
    st64(r_xz, r_52_1);
    r_sz = r_j3;
    goto l_arm_mz;
l_std_1k:;
    std_io_buffered_BufWriter_write_cold_89ca6214804c96d4(slot_2, a_6, r_7u, r_j3);
    u64 r_38_3 = ld64(r_x5_4);
    if ((ld8(slot_2) != 0u) ? 1u : (r_38_3 == 0ull)) goto l_join_yv;
    r_sz = r_38_3;
l_arm_mz:;
    u64 r_t9 = (r_j3 - r_sz);
    if (r_t9 == 0ull) { r_3i = 0u; goto l_then_33; }
    u8 *r_3 = away(r_7u, r_sz);
    u64 r_4 = r_t9;
    r_7u = r_3;
    r_j3 = r_4;
    goto l_join_c8;
l_capnp_ak:;
    u8 r_u7 = capnp_layout_tool_frames_write_hex_u32_05c50f83f81b9c23(a_6, 0u);
    if ((u8)(r_u7 & 1)) { r_3i = 3u; goto l_then_33; }
    u8 r_od = capnp_layout_tool_frames_write_hex_u32_05c50f83f81b9c23(a_6, r_du);
    if ((u8)(r_od & 1)) { r_3i = 3u; goto l_then_33; }
    u8 r_f9_1 = capnp_layout_tool_writing_write_hex_digits_05c50f83f81b9c23(a_6, r_ap, r_z6_1);
    if ((u8)(r_f9_1 & 1)) { r_3i = 3u; goto l_then_33; }
    r_rq_1 = away(a_6, 8ull);
    r_xz_1 = away(a_6, 24ull);
    r_08_1 = away(a_6, 16ull);
    r_x5_5 = (slot_2 + 8);
    r_7u_1 = ((u8 *)g_static_6);
    r_j3_1 = 1ull;
l_join_c8_1:;
    memset(slot_2, 0u, 96);
    r_52_3 = ld64(r_xz_1);
    r_52_4 = ld64(r_08_1);
    if (!(r_j3_1 < (r_52_3 - r_52_4))) goto l_std_1k_1;
    r_5q_1 = (r_52_4 + r_j3_1);
    r_lz_3 = ldp(r_rq_1);
    r_2b_2 = away(r_lz_3, r_52_4);
    if (((u64)(uptr)r_2b_2 - (u64)(uptr)r_7u_1) < r_j3_1) { r_il_1 = 0ull; goto l_join_fh_1; }
    memcpy_or_none(r_2b_2, r_7u_1, r_j3_1);
    goto l_arm_5b_1;
l_join_fh_1:;
    st8((r_2b_2 + (i64)(r_il_1)), ld8((r_7u_1 + (i64)(r_il_1))));
    u64 r_36_5 = (r_il_1 + 1ull);
    if (!(r_36_5 == r_j3_1)) { r_il_1 = r_36_5; goto l_join_fh_1; }
l_arm_5b_1:;
    stp(r_rq_1, r_lz_3);
    st64(r_08_1, r_5q_1);
    st64(r_xz_1, r_52_3);
    r_sz_1 = r_j3_1;
    goto l_arm_mz_1;
l_std_1k_1:;
    std_io_buffered_BufWriter_write_cold_89ca6214804c96d4(slot_2, a_6, r_7u_1, r_j3_1);
    u64 r_38_4 = ld64(r_x5_5);
    if ((ld8(slot_2) != 0u) ? 1u : (r_38_4 == 0ull)) goto l_join_yv;
    r_sz_1 = r_38_4;
l_arm_mz_1:;
    u64 r_t9_1 = (r_j3_1 - r_sz_1);
    if (r_t9_1 == 0ull) { r_3i = 0u; goto l_then_33; }
    u8 *r_5 = away(r_7u_1, r_sz_1);
    u64 r_6 = r_t9_1;
    r_7u_1 = r_5;
    r_j3_1 = r_6;
    goto l_join_c8_1;
l_join_yv:;
    st8(away(a_6, 32ull), 1u);
    r_3i = 3u;
l_then_33:;
    st32(slot_4, r_aj);
    st32((slot_4 + 4), r_21);
    r_zd_3 = (slot_4 + 16);
    mv16(r_zd_3, slot_14);
    r_xw = ldp(slot_4);
    u64 r_38_5 = ld64(r_zd_3);
    stp(slot_4, r_ap);
    st64((slot_4 + 8), r_x2);
    st64(r_zd_3, r_w9);
    if (r_38_5 == 0ull) goto l_capnp_t4;
    rattle_dealloc(r_xw);
l_capnp_t4:;
    stp(slot_2, r_kz);
    st64((slot_2 + 8), 0ull);
    st64((slot_2 + 16), r_1y);
    capnp_arena_arena_builder_arena_impl_deallocate_others_af14abad(slot_4, slot_2);
    memset(slot_3, 0u, 40);
    if (!(r_za > 1ull)) goto l_join_jj;
    if (r_za > 15ull) goto l_join_ys;
    t_gg = (u64)((r_za + 0xfffffffffffffffeull) >> 1ull);
    r_ax = 0ull;
    r_du_1 = r_za;
    goto l_join_73;
l_join_ys:;
    u64 r_dt = (u64)(r_za >> 1ull);
    core_slice_edits_mirror_e0f4f6844e27f7b4(r_1e, away(r_1e, ((r_za - r_dt) * 40ull)), r_dt);
    goto l_arm_m6;
l_join_73:;
    r_zn = (r_du_1 + 0xffffffffffffffffull);
    if (!(r_ax < r_zn)) goto l_else_7d;
    u8 *r_a7_4 = (r_1e + (i64)((r_ax * 40ull)));
    u8 *r_a7_5 = (r_1e + (i64)((r_zn * 40ull)));
    mv40(slot_2, r_a7_4);
    mv40(r_a7_4, r_a7_5);
    mv40(r_a7_5, slot_2);
    goto l_core_e6;
l_else_7d:;
    if (!(r_zn < r_ax)) goto l_core_e6;
    u8 *r_a7_6 = (r_1e + (i64)((r_zn * 40ull)));
    u8 *r_a7_7 = (r_1e + (i64)((r_ax * 40ull)));
    mv40(slot_2, r_a7_6);
    mv40(r_a7_6, r_a7_7);
    mv40(r_a7_7, slot_2);
l_core_e6:;
    if (!(r_ax == t_gg)) { u64 r_7 = (r_ax + 1ull); u64 r_8 = r_zn; r_ax = r_7; r_du_1 = r_8; goto l_join_73; }
l_join_jj:;
    if (r_za == 0ull) goto l_capnp_yg;
l_arm_m6:;
    r_5x = r_za;
l_arm_qk:;
    r_zn_1 = (r_5x + 0xffffffffffffffffull);
    mv40(slot_3, (r_1e + (i64)((r_zn_1 * 40ull))));
    r_xw_1 = ldp(slot_4);
    u64 r_38_6 = ld64(r_zd_3);
    mv24(slot_4, slot_3);
    if (r_38_6 == 0ull) goto l_capnp_jj;
    rattle_dealloc(r_xw_1);
l_capnp_jj:;
    if (!(r_zn_1 == 0ull)) { r_5x = r_zn_1; goto l_arm_qk; }
l_capnp_yg:;
    if (r_sx) goto l_std_qq;
    rattle_dealloc(r_1e);
l_std_qq:;
    u8 *r_xw_2 = ldp(r_zd_3);
    u64 r_38_7 = ld64((slot_4 + 24));
    mv16(slot_16, slot_4);
    r_ce = slot_16;
    r_4s = r_xw_2;
    r_f7 = r_38_7;
    r_kb = r_3i;
    goto l_join_me;
l_arm_uu:;
    st64(slot_17, 0ull);
    st32((slot_17 + 8), (r_67 & 255u));
    st32((slot_17 + 12), r_hd);
    st64((slot_17 + 16), r_o4);
    u8 r_kn = capnp_layout_tool_engine_answer_refusal_05c50f83f81b9c23(a_6, slot_17);
    r_ce = slot_14;
    r_4s = r_vb;
    r_f7 = r_4x;
    r_kb = r_kn;
l_join_me:;
    mv16((slot_15 + 7), r_ce);
    st8(a_1, r_kb);
    mv23((a_1 + 1), slot_15);
    stp((a_1 + 24), r_4s);
    st64((a_1 + 32), r_f7);
    return;
}

/* capnp_messages::messages::canonical_copy::canonicalize_to_message::<#50b135528f4b020d> */
static void capnp_messages_messages_canonical_copy_canonicalize_to_60f0b323(u8 *a_1, u8 *a_2, u8 *a_3, u8 *a_4, u32 a_5)
{
    A(8) u8 slot_1[1];
    A(8) u8 slot_2[40];
    A(8) u8 slot_3[64];
    A(8) u8 slot_4[64];
    A(8) u8 slot_5[24];
    A(1) u8 slot_6[7];
    A(1) u8 slot_7[23];
    A(8) u8 slot_8[128];
    A(8) u8 slot_9[104];
    A(8) u8 slot_10[16];
    A(8) u8 slot_11[16];
    A(8) u8 slot_12[16];
    A(1) u8 slot_13[7];
    A(8) u8 slot_14[16];
    u8 r_dh;
    u8 r_dd;
    u64 r_qw;
    u8 *r_rv;
    u64 r_qw_1;
    u32 r_5k;
    u32 r_5k_1;
    u32 r_5k_2;
    u16 r_br;
    u16 r_br_1;
    u8 *r_89;
    u8 *r_a8;
    u8 *r_6c;
    u8 *r_5q;
    u8 *r_ra;
    u8 *r_7x;
    u8 *r_2e;
    u8 *r_x5;
    u8 *r_x5_1;
    u64 r_r5;
    u8 *r_zd;
    u64 r_qe;
    u64 r_ia;
    u64 r_ll;
    u32 r_b2;
    u8 *r_xw;
    u64 r_38_1;
    u64 r_38_2;
    u8 *r_xw_1;
    u64 r_38_3;
    u64 r_38_4;
    u8 *r_xw_2;
    u64 r_38_5;
    u64 r_38_6;
    u8 *r_k5;
    u8 *r_xw_3;
    u64 t_gg;
    u64 r_ax;
    u64 r_du;
    u64 r_zn;
    u8 *r_zd_2;
    u64 r_o3;
    u64 r_zn_1;
    u8 *r_xw_4;
    u32 r_z4;
    u32 r_uq_1;
    u64 r_38_10;
    u8 *r_x5_2;
    u8 *r_89_1;
    u8 *r_rq;
    u64 r_v1;
    u8 *r_x5_3;
    u8 *r_zd_3;
    u64 r_eg;
    u8 r_r5_2;
    u32 r_uq_2;
    u64 r_38_11;
    u8 r_r5_3;
    u8 *r_lz;
    u64 r_qw_3;
    u8 r_2b;
    u32 r_qh;
    u64 r_ip;
    u8 *t_b9;
    u64 r_u7;
    u64 r_lc;
    u64 r_z6;
    u8 *r_2b_1;
    u64 r_nm;
    u64 r_nm_1;
    u64 r_hk;
    u64 r_u7_1;
    u64 r_z6_1;
    u8 *r_2b_2;
    u64 r_nm_2;
    u64 r_nm_3;
    u64 r_zw;
    u32 r_29;
    u32 r_az;
    u32 r_68;
    u8 *r_5q_1;
    u32 r_e3;
    u64 r_24_1;
    u64 r_52_1;
    u32 r_w0;
    u64 r_z6_2;
    u32 r_yf;
    u32 r_e3_1;
    u32 r_ll_1;
    u64 r_3v;
    u64 r_1w;
    u64 r_ty;
    u64 r_7f;
    u32 r_wt;
    u64 r_ep;
    u32 r_4r;
    u64 r_0l;
    u8 *r_hd;
    u8 *r_2b_3;
    u64 r_il;
    u8 *t_6c_1;
    u8 r_2b_4;
    u8 r_qh_1;
    u32 r_ip_1;
    u64 r_wq;
    u8 r_3i;
    u8 r_45;
    u32 r_h0;
    u64 r_r1;
    u64 r_ly;
    u32 r_84;
    u8 r_rw;
    u8 t_w0;
    u64 r_wi;
    u8 r_k8;
    u32 r_2y;
    u64 r_v0;
    u64 r_dw;
    u32 r_cf;
    u8 *r_xw_6;
    u64 r_38_12;
    u64 r_38_13;
    u8 *r_xw_7;
    u64 r_38_14;
    u64 r_38_15;
    u64 r_38_16;
    u64 r_38_17;
    u8 r_r5_4;
    u8 *r_f2;
    u8 *r_xw_8;
    u64 r_38_18;
    u64 r_38_19;
    u8 *r_08;
    u64 r_52_2;
    u64 r_hh;
    u64 r_30;
    u64 r_26;
    u8 *r_x5_4;
    u8 *r_zd_4;
    u8 *r_xw_9;
    u64 t_gg_1;
    u64 r_ax_1;
    u64 r_du_1;
    u64 r_zn_2;
    u64 r_o3_1;
    u64 r_zn_3;
    u8 *r_xw_10;
    u8 *r_6f;
    u64 r_3l;
    u64 r_rk;
    u8 *r_7q;
    u64 r_yr;
    u64 r_c1;
    u64 r_g3;
    u64 r_vx;
    u8 *r_7j;
    u64 r_p8;
    u64 r_6l;
    u8 r_xz;
    u32 r_tv;
    u32 r_6k;
    u64 r_hn;
    r_dh = ld8(a_3);
    r_dd = ld8(away(a_3, 8ull));
    mv23(slot_7, away(a_3, 9ull));
    r_qw = ld64(away(a_3, 32ull));
    r_rv = ldp(away(a_3, 40ull));
    r_qw_1 = ld64(away(a_3, 48ull));
    r_5k = ld32(away(a_3, 56ull));
    r_5k_1 = ld32(away(a_3, 60ull));
    r_5k_2 = ld32(away(a_3, 64ull));
    r_br = ld16(away(a_3, 72ull));
    r_br_1 = ld16(away(a_3, 74ull));
    memset(slot_6, 0u, 7);
    memset(slot_9, 0u, 104);
    memset(slot_10, 0u, 16);
    memset(slot_11, 0u, 16);
    memset(slot_12, 0u, 16);
    memset(slot_13, 0u, 7);
    memset(slot_14, 0u, 16);
    mv32(slot_8, a_2);
    r_89 = (slot_8 + 32);
    stp(r_89, slot_1);
    r_a8 = (slot_8 + 40);
    memset(r_a8, 0u, 16);
    r_6c = (slot_8 + 56);
    stp(r_6c, slot_1);
    r_5q = (slot_8 + 64);
    memset(r_5q, 0u, 40);
    r_ra = (slot_8 + 104);
    stp(r_ra, slot_1);
    r_7x = (slot_8 + 112);
    memset(r_7x, 0u, 16);
    r_2e = (slot_8 + 96);
    if (!(a_5 > 0x1fffffffu)) goto l_join_u0;
    r_ll = (u64)a_5;
    r_b2 = 27u;
    goto l_arm_ge;
l_join_u0:;
    mv24(slot_2, a_2);
    stp(slot_8, slot_1);
    r_x5 = (slot_8 + 8);
    memset(r_x5, 0u, 16);
    r_x5_1 = (slot_2 + 8);
    st64(r_x5_1, 0ull);
    r_r5 = (u64)(u32)(a_5 << 3u);
    r_zd = (slot_2 + 16);
    u64 r_52 = ld64(r_zd);
    if (!(r_52 < r_r5)) { r_qe = r_52; r_ia = 0ull; goto l_arm_nb; }
    u8 r_ai = std_alloc_vec_Vec_grow_amortized_044c3d3b74b9c55e(slot_2, r_r5);
    if (!r_ai) goto l_arm_mn;
    r_qe = ld64(r_zd);
    r_ia = ld64(r_x5_1);
    goto l_arm_nb;
l_arm_mn:;
    u8 *r_lk = (slot_8 + 24);
    st64(r_lk, uadd_sat64(ld64(r_lk), 1ull));
    if (ld64(r_zd) == 0ull) { r_ll = 0ull; r_b2 = 0u; goto l_arm_ge; }
    rattle_dealloc(ldp(slot_2));
    r_ll = 0ull;
    r_b2 = 0u;
    goto l_arm_ge;
l_arm_nb:;
    u8 *r_1e = (slot_8 + 72);
    u32 r_uq = ld32((slot_2 + 4));
    u64 r_38 = ld64(r_1e);
    st32(r_6c, ld32(slot_2));
    st32((slot_8 + 60), r_uq);
    st64(r_5q, r_ia);
    st64(r_1e, r_qe);
    st64((slot_8 + 80), r_r5);
    st32((slot_8 + 88), 0u);
    st32((slot_8 + 92), 0x1fffffffu);
    st8(r_2e, 1u);
    if (r_38 == 0ull) goto l_arm_7h;
    rattle_dealloc(slot_1);
    goto l_arm_7h;
l_arm_ge:;
    r_xw = ldp(r_89);
    r_38_1 = ld64(r_a8);
    r_38_2 = ld64((slot_8 + 48));
    r_xw_1 = ldp(r_6c);
    r_38_3 = ld64(r_5q);
    r_38_4 = ld64((slot_8 + 72));
    r_xw_2 = ldp(r_ra);
    r_38_5 = ld64(r_7x);
    r_38_6 = ld64((slot_8 + 120));
    u8 r_r5_1 = ld8(r_2e);
    mv32(slot_3, slot_8);
    if ((u8)(r_r5_1 & 1)) goto l_then_fq;
    goto l_else_r8;
l_arm_7h:;
    r_k5 = (slot_8 + 88);
    if ((r_ia + r_r5) < 8ull) goto l_join_rb;
    if (!(r_ia < 8ull)) goto l_capnp_dr;
    capnp_messages_messages_copy_memory_CopySegment_zero_up_to(r_6c, 8ull);
l_capnp_dr:;
    st32(r_k5, 1u);
    goto l_join_rb;
l_common_68:;
    return;
l_then_fq:;
    r_xw_3 = ldp(slot_3);
    u8 *r_zd_1 = (slot_3 + 16);
    u64 r_38_7 = ld64(r_zd_1);
    stp(slot_3, r_xw_1);
    st64((slot_3 + 8), r_38_3);
    st64(r_zd_1, r_38_4);
    if (r_38_7 == 0ull) goto l_capnp_4o;
    rattle_dealloc(r_xw_3);
l_capnp_4o:;
    stp(slot_2, r_xw_2);
    st64((slot_2 + 8), r_38_5);
    st64((slot_2 + 16), r_38_6);
    capnp_arena_arena_builder_arena_impl_deallocate_others_af14abad(slot_3, slot_2);
    goto l_capnp_f6;
l_else_r8:;
    if (r_38_4 == 0ull) goto l_core_at;
    rattle_dealloc(r_xw_1);
l_core_at:;
    if (r_38_6 == 0ull) goto l_capnp_f6;
    rattle_dealloc(r_xw_2);
l_capnp_f6:;
    if (!(r_38_1 > 1ull)) goto l_join_jj;
    if (r_38_1 > 15ull) goto l_join_ys;
    t_gg = (u64)((r_38_1 + 0xfffffffffffffffeull) >> 1ull);
    r_ax = 0ull;
    r_du = r_38_1;
    goto l_join_73;
l_join_ys:;
    u64 r_dt = (u64)(r_38_1 >> 1ull);
    core_slice_edits_mirror_e0f4f6844e27f7b4(r_xw, away(r_xw, ((r_38_1 - r_dt) * 40ull)), r_dt);
    goto l_arm_yi;
l_join_73:;
    r_zn = (r_du + 0xffffffffffffffffull);
    if (!(r_ax < r_zn)) goto l_else_7d;
    u8 *r_a7 = (r_xw + (i64)((r_ax * 40ull)));
    u8 *r_a7_1 = (r_xw + (i64)((r_zn * 40ull)));
    mv40(slot_2, r_a7);
    mv40(r_a7, r_a7_1);
    mv40(r_a7_1, slot_2);
    goto l_core_e6;
l_else_7d:;
    if (!(r_zn < r_ax)) goto l_core_e6;
    u8 *r_a7_2 = (r_xw + (i64)((r_zn * 40ull)));
    u8 *r_a7_3 = (r_xw + (i64)((r_ax * 40ull)));
    mv40(slot_2, r_a7_2);
    mv40(r_a7_2, r_a7_3);
    mv40(r_a7_3, slot_2);
l_core_e6:;
    if (!(r_ax == t_gg)) { u64 r_1 = (r_ax + 1ull); u64 r_2 = r_zn; r_ax = r_1; r_du = r_2; goto l_join_73; }
l_join_jj:;
    if (r_38_1 == 0ull) goto l_capnp_p4;
l_arm_yi:;
    r_zd_2 = (slot_3 + 16);
    r_o3 = r_38_1;
l_arm_zl:;
    r_zn_1 = (r_o3 + 0xffffffffffffffffull);
    r_xw_4 = ldp(slot_3);
    u64 r_38_8 = ld64(r_zd_2);
    mv24(slot_3, (r_xw + (i64)((r_zn_1 * 40ull))));
    if (r_38_8 == 0ull) goto l_capnp_jj;
    rattle_dealloc(r_xw_4);
l_capnp_jj:;
    if (!(r_zn_1 == 0ull)) { r_o3 = r_zn_1; goto l_arm_zl; }
l_capnp_p4:;
    if (r_38_2 == 0ull) goto l_std_tt;
    rattle_dealloc(r_xw);
l_std_tt:;
    u8 *r_xw_5 = ldp((slot_3 + 16));
    u64 r_38_9 = ld64((slot_3 + 24));
    mv16(slot_11, slot_3);
    st64(a_1, 1ull);
    st32(away(a_1, 8ull), r_b2);
    st32(away(a_1, 12ull), 0u);
    st64(away(a_1, 16ull), r_ll);
    mv16(away(a_1, 24ull), slot_11);
    stp(away(a_1, 40ull), r_xw_5);
    st64(away(a_1, 48ull), r_38_9);
    memset(away(a_1, 56ull), 0u, 49);
    mv7(away(a_1, 105ull), slot_6);
    memset(away(a_1, 112ull), 0u, 24);
    goto l_common_68;
l_join_rb:;
    r_z4 = ld32(slot_8);
    r_uq_1 = ld32((slot_8 + 4));
    r_38_10 = ld64(r_x5);
    st64(slot_9, 0ull);
    r_x5_2 = (slot_9 + 8);
    mv24(r_x5_2, r_89);
    r_89_1 = (slot_9 + 32);
    memcpy(r_89_1, r_6c, 72);
    mv16(slot_10, (slot_8 + 16));
    r_rq = away(a_4, 8ull);
    r_v1 = (u64)a_5;
    u64 r_qw_2 = ld64(r_rq);
    st64(slot_5, (u64)ld8(a_4));
    r_x5_3 = (slot_5 + 8);
    st64(r_x5_3, r_qw_2);
    r_zd_3 = (slot_5 + 16);
    st64(r_zd_3, 0ull);
    r_eg = (u64)r_dd;
    if (!(r_dh == 0u)) goto l_arm_q5;
    memset(slot_3, 0u, 24);
    u8 *t_6c = (slot_4 + 56);
    st64(t_6c, 0ull);
    st64(slot_4, r_eg);
    mv16((slot_4 + 8), (slot_7 + 7));
    st64((slot_4 + 24), r_qw);
    stp((slot_4 + 32), r_rv);
    st64((slot_4 + 40), r_qw_1);
    st32((slot_4 + 48), r_5k);
    st32((slot_4 + 52), r_5k_1);
    st32(t_6c, r_5k_2);
    capnp_copies_copy_copy_object_789b5ce0078f2be2(slot_3, slot_9, 0u, 0u, slot_4, slot_5, 1u);
    r_r5_2 = ld8(slot_3);
    r_uq_2 = ld32((slot_3 + 12));
    r_38_11 = ld64((slot_3 + 16));
    if (r_r5_2 == 0u) { r_2b = 0u; r_qh = 0u; r_ip = 0ull; goto l_capnp_no; }
    r_r5_3 = ld8((slot_3 + 8));
    r_lz = ldp(r_89_1);
    r_qw_3 = ld64(r_lz);
    if (r_qw_3 == 0ull) goto l_capnp_8g;
    capnp_allocation_landing_follow_5460ad12cd8c5480(slot_2, slot_9, 0u, 0u);
    st64(r_lz, 0ull);
    if (!(ld8(slot_2) == 1u)) goto l_capnp_8g;
    capnp_allocation_zeroing_zero_target_5460ad12cd8c5480(slot_9, (slot_2 + 8));
    if (!((r_qw_3 & 3ull) == 2ull)) goto l_capnp_8g;
    capnp_allocation_zeroing_zero_far_pads_5460ad12cd8c5480(slot_9, r_qw_3);
l_capnp_8g:;
    r_2b = r_r5_3;
    r_qh = r_uq_2;
    r_ip = r_38_11;
l_capnp_no:;
    r_3i = r_r5_2;
    r_45 = r_2b;
    r_h0 = r_qh;
    r_r1 = r_ip;
    goto l_capnp_x6;
l_arm_q5:;
    t_b9 = (slot_7 + 7);
    u64 r_24 = (u64)r_5k;
    r_u7 = (u64)r_br;
    r_lc = (r_u7 + r_24);
    r_z6 = (u64)(r_u7 << 3ull);
    r_2b_1 = away(r_rv, (u64)(r_24 << 3ull));
    if (r_br < 32u) { r_nm = r_u7; goto l_loop_jc; }
    goto l_else_wj;
l_loop_jc:;
    if (r_nm == 0ull) { r_hk = 0ull; goto l_capnp_ev; }
    u64 r_0f = (r_nm + 0xffffffffffffffffull);
    if (ld64(away(r_2b_1, (u64)(r_0f << 3ull))) == 0ull) { r_nm = r_0f; goto l_loop_jc; }
    r_hk = r_nm;
    goto l_capnp_ev;
l_else_wj:;
    if (!(ld64(away(away(r_2b_1, r_z6), 0xfffffffffffffff8ull)) == 0ull)) { r_hk = r_u7; goto l_capnp_ev; }
    u64 r_r2 = capnp_words_lanes_used_words_bound(r_2b_1, r_z6);
    r_nm_1 = r_r2;
l_loop_jc_1:;
    if (r_nm_1 == 0ull) { r_hk = 0ull; goto l_capnp_ev; }
    u64 r_0f_1 = (r_nm_1 + 0xffffffffffffffffull);
    if (ld64(away(r_2b_1, (u64)(r_0f_1 << 3ull))) == 0ull) { r_nm_1 = r_0f_1; goto l_loop_jc_1; }
    r_hk = r_nm_1;
l_capnp_ev:;
    r_u7_1 = (u64)r_br_1;
    r_z6_1 = (u64)(r_u7_1 << 3ull);
    r_2b_2 = away(r_rv, (u64)(r_lc << 3ull));
    if (r_br_1 < 32u) { r_nm_2 = r_u7_1; goto l_loop_jc_2; }
    goto l_else_wj_1;
l_loop_jc_2:;
    if (r_nm_2 == 0ull) { r_zw = 0ull; goto l_capnp_sa; }
    u64 r_0f_2 = (r_nm_2 + 0xffffffffffffffffull);
    if (ld64(away(r_2b_2, (u64)(r_0f_2 << 3ull))) == 0ull) { r_nm_2 = r_0f_2; goto l_loop_jc_2; }
    r_zw = r_nm_2;
    goto l_capnp_sa;
l_else_wj_1:;
    if (!(ld64(away(away(r_2b_2, r_z6_1), 0xfffffffffffffff8ull)) == 0ull)) { r_zw = r_u7_1; goto l_capnp_sa; }
    u64 r_r2_1 = capnp_words_lanes_used_words_bound(r_2b_2, r_z6_1);
    r_nm_3 = r_r2_1;
l_loop_jc_3:;
    if (r_nm_3 == 0ull) { r_zw = 0ull; goto l_capnp_sa; }
    u64 r_0f_3 = (r_nm_3 + 0xffffffffffffffffull);
    if (ld64(away(r_2b_2, (u64)(r_0f_3 << 3ull))) == 0ull) { r_nm_3 = r_0f_3; goto l_loop_jc_3; }
    r_zw = r_nm_3;
l_capnp_sa:;
    r_29 = ((u32)r_hk & 65535u);
    r_az = ((u32)r_zw & 65535u);
    r_68 = (r_az + r_29);
    if (!(r_68 == 0u)) goto l_then_eg;
    st64(ldp(r_89_1), 0xfffffffcull);
    r_7f = 0ull;
    goto l_arm_99;
l_then_eg:;
    r_5q_1 = (slot_9 + 64);
    r_e3 = ld32(r_5q_1);
    r_24_1 = (u64)r_e3;
    r_52_1 = ld64((slot_9 + 40));
    if ((r_24_1 + (u64)r_68) > (u64)((ld64((slot_9 + 56)) + r_52_1) >> 3ull)) goto l_arm_y0;
    r_w0 = (r_e3 + r_68);
    r_z6_2 = (u64)((u64)r_w0 << 3ull);
    if (!(r_52_1 < r_z6_2)) goto l_capnp_uo;
    capnp_messages_messages_copy_memory_CopySegment_zero_up_to(r_89_1, r_z6_2);
l_capnp_uo:;
    st32(r_5q_1, r_w0);
    st64(ldp(r_89_1), (((u64)(r_zw << 48ull) | ((u64)(r_hk << 32ull) & 0xffff00000000ull)) | (u64)((u32)(r_e3 << 2u) + 0xfffffffcu)));
    r_7f = (u64)(r_24_1 << 32ull);
    goto l_arm_99;
l_arm_y0:;
    capnp_arena_arena_builder_arena_impl_BuilderArenaImplB_c2fb55cd(slot_2, slot_9, (r_68 + 1u));
    if (!(ld8(slot_2) == 0u)) goto l_capnp_x3;
    r_yf = ld32((slot_2 + 4));
    r_e3_1 = ld32((slot_2 + 8));
    r_ll_1 = (r_e3_1 + 1u);
    r_3v = ((u64)(r_zw << 48ull) | ((u64)(r_hk << 32ull) & 0xffff00000000ull));
    if (!(r_yf == 0u)) goto l_else_f8;
    u64 r_z6_3 = (u64)((u64)r_e3_1 << 3ull);
    st64(away(ldp(r_89_1), r_z6_3), r_3v);
    r_1w = 0ull;
    r_ty = r_z6_3;
    goto l_capnp_cn;
l_else_f8:;
    u64 r_24_2 = (u64)r_yf;
    capnp_arena_arena_rows_put_word_in_4426f83c3c99ca57(ldp((slot_9 + 80)), (r_24_2 + 0xffffffffffffffffull), r_e3_1, r_3v);
    r_1w = r_24_2;
    r_ty = (u64)((u64)r_e3_1 << 3ull);
l_capnp_cn:;
    st64(ldp(r_89_1), (((u64)(r_1w << 32ull) | r_ty) | 2ull));
    r_7f = (r_1w | (u64)((u64)r_ll_1 << 32ull));
l_arm_99:;
    r_wt = (u32)r_7f;
    r_ep = (u64)(r_7f >> 32ull);
    r_4r = (u32)r_ep;
    r_0l = ((u64)(r_hk << 3ull) & 0x7fff8ull);
    if (r_0l == 0ull) goto l_capnp_am;
    if (!(r_wt == 0u)) goto l_else_j6;
    r_hd = ldp(r_89_1);
    goto l_capnp_x6_1;
l_else_j6:;
    u8 *r_es = capnp_arena_arena_rows_Rows_other_mut_4426f83c3c99ca57(r_89_1, r_wt);
    r_hd = r_es;
l_capnp_x6_1:;
    r_2b_3 = away(r_hd, (u64)(r_ep << 3ull));
    if (!(r_0l < 64ull)) goto l_else_r3;
    if (!(r_0l > 31ull)) goto l_else_dg;
    mv32(r_2b_3, r_2b_1);
    u64 r_bh = (r_0l + 0xffffffffffffffe0ull);
    mv32((r_2b_3 + (i64)(r_bh)), (r_2b_1 + (i64)(r_bh)));
    goto l_capnp_am;
l_else_dg:;
    if (!(r_0l > 15ull)) goto l_then_49;
    mv16(r_2b_3, r_2b_1);
    u64 r_8f = (r_0l + 0xfffffffffffffff0ull);
    mv16((r_2b_3 + (i64)(r_8f)), (r_2b_1 + (i64)(r_8f)));
    goto l_capnp_am;
l_then_49:;
    mv8(r_2b_3, r_2b_1);
    u64 r_la = (r_0l + 0xfffffffffffffff8ull);
    mv8((r_2b_3 + (i64)(r_la)), (r_2b_1 + (i64)(r_la)));
    goto l_capnp_am;
l_else_r3:;
    if (((u64)(uptr)r_2b_3 - (u64)(uptr)r_2b_1) < r_0l) { r_il = 0ull; goto l_join_fh; }
    memmove_or_none(r_2b_3, r_2b_1, r_0l);
    goto l_capnp_am;
l_join_fh:;
    st8((r_2b_3 + (i64)(r_il)), ld8((r_2b_1 + (i64)(r_il))));
    u64 r_c4 = (r_il + 1ull);
    if (!(r_c4 == r_0l)) { r_il = r_c4; goto l_join_fh; }
l_capnp_am:;
    memset(slot_2, 0u, 24);
    t_6c_1 = (slot_3 + 56);
    st64(t_6c_1, 0ull);
    if (r_az == 0u) { r_2b_4 = 0u; r_qh_1 = 0u; r_ip_1 = 0u; r_wq = 0ull; goto l_capnp_no_1; }
    st64(slot_3, r_eg);
    mv16((slot_3 + 8), t_b9);
    st64((slot_3 + 24), r_qw);
    stp((slot_3 + 32), r_rv);
    st64((slot_3 + 40), r_qw_1);
    st32((slot_3 + 48), (r_5k + (u32)r_br));
    st32((slot_3 + 52), 0u);
    st32(t_6c_1, r_5k_2);
    capnp_copies_copy_children_copy_children_out_of_line_7_ae79832a(slot_2, slot_9, r_wt, (r_29 + r_4r), slot_3, r_az, slot_5, 1u);
    r_2b_4 = ld8(slot_2);
    r_qh_1 = ld8((slot_2 + 8));
    r_ip_1 = ld32((slot_2 + 12));
    r_wq = ld64((slot_2 + 16));
l_capnp_no_1:;
    r_3i = r_2b_4;
    r_45 = r_qh_1;
    r_h0 = r_ip_1;
    r_r1 = r_wq;
    goto l_capnp_x6;
l_capnp_x3:;
    r_ly = ld64((slot_2 + 16));
    r_84 = ld32((slot_2 + 12));
    r_rw = ld8((slot_2 + 8));
    goto l_arm_e8;
l_capnp_x6:;
    if (!(r_3i == 0u)) { r_ly = r_r1; r_84 = r_h0; r_rw = r_45; goto l_arm_e8; }
    if (!((u8)(ld8((slot_9 + 72)) & 1) ? (ld64((slot_9 + 88)) == 0ull) : 0u)) { t_w0 = 0u; r_wi = 1ull; r_k8 = 27u; r_2y = 0u; r_v0 = r_v1; r_dw = 0ull; goto l_capnp_i8; }
    t_w0 = 1u;
    r_wi = 0ull;
    r_k8 = ld8(slot_5);
    r_2y = 0u;
    r_v0 = ld64(r_x5_3);
    r_dw = ld64(r_zd_3);
    goto l_capnp_i8;
l_arm_e8:;
    switch (r_rw) {
    case 0u: goto l_t_h9;
    case 27u: goto l_t_h9;
    case 1u: { t_w0 = 0u; r_wi = 1ull; r_k8 = r_rw; r_2y = r_84; r_v0 = r_ly; r_dw = 0ull; goto l_capnp_i8; }
    case 2u: { t_w0 = 0u; r_wi = 1ull; r_k8 = r_rw; r_2y = r_84; r_v0 = r_ly; r_dw = 0ull; goto l_capnp_i8; }
    case 3u: { t_w0 = 0u; r_wi = 1ull; r_k8 = r_rw; r_2y = r_84; r_v0 = r_ly; r_dw = 0ull; goto l_capnp_i8; }
    case 4u: { t_w0 = 0u; r_wi = 1ull; r_k8 = r_rw; r_2y = r_84; r_v0 = r_ly; r_dw = 0ull; goto l_capnp_i8; }
    case 5u: { t_w0 = 0u; r_wi = 1ull; r_k8 = r_rw; r_2y = r_84; r_v0 = r_ly; r_dw = 0ull; goto l_capnp_i8; }
    case 6u: { t_w0 = 0u; r_wi = 1ull; r_k8 = r_rw; r_2y = r_84; r_v0 = r_ly; r_dw = 0ull; goto l_capnp_i8; }
    case 7u: { t_w0 = 0u; r_wi = 1ull; r_k8 = r_rw; r_2y = r_84; r_v0 = r_ly; r_dw = 0ull; goto l_capnp_i8; }
    case 8u: { t_w0 = 0u; r_wi = 1ull; r_k8 = r_rw; r_2y = r_84; r_v0 = r_ly; r_dw = 0ull; goto l_capnp_i8; }
    case 9u: { t_w0 = 0u; r_wi = 1ull; r_k8 = r_rw; r_2y = r_84; r_v0 = r_ly; r_dw = 0ull; goto l_capnp_i8; }
    case 10u: { t_w0 = 0u; r_wi = 1ull; r_k8 = r_rw; r_2y = r_84; r_v0 = r_ly; r_dw = 0ull; goto l_capnp_i8; }
    case 11u: { t_w0 = 0u; r_wi = 1ull; r_k8 = r_rw; r_2y = r_84; r_v0 = r_ly; r_dw = 0ull; goto l_capnp_i8; }
    case 12u: { t_w0 = 0u; r_wi = 1ull; r_k8 = r_rw; r_2y = r_84; r_v0 = r_ly; r_dw = 0ull; goto l_capnp_i8; }
    case 13u: { t_w0 = 0u; r_wi = 1ull; r_k8 = r_rw; r_2y = r_84; r_v0 = r_ly; r_dw = 0ull; goto l_capnp_i8; }
    case 14u: { t_w0 = 0u; r_wi = 1ull; r_k8 = r_rw; r_2y = r_84; r_v0 = r_ly; r_dw = 0ull; goto l_capnp_i8; }
    case 15u: { t_w0 = 0u; r_wi = 1ull; r_k8 = r_rw; r_2y = r_84; r_v0 = r_ly; r_dw = 0ull; goto l_capnp_i8; }
    case 16u: { t_w0 = 0u; r_wi = 1ull; r_k8 = r_rw; r_2y = r_84; r_v0 = r_ly; r_dw = 0ull; goto l_capnp_i8; }
    case 17u: { t_w0 = 0u; r_wi = 1ull; r_k8 = r_rw; r_2y = r_84; r_v0 = r_ly; r_dw = 0ull; goto l_capnp_i8; }
    case 18u: { t_w0 = 0u; r_wi = 1ull; r_k8 = r_rw; r_2y = r_84; r_v0 = r_ly; r_dw = 0ull; goto l_capnp_i8; }
    case 19u: { t_w0 = 0u; r_wi = 1ull; r_k8 = r_rw; r_2y = r_84; r_v0 = r_ly; r_dw = 0ull; goto l_capnp_i8; }
    case 20u: { t_w0 = 0u; r_wi = 1ull; r_k8 = r_rw; r_2y = r_84; r_v0 = r_ly; r_dw = 0ull; goto l_capnp_i8; }
    case 21u: { t_w0 = 0u; r_wi = 1ull; r_k8 = r_rw; r_2y = r_84; r_v0 = r_ly; r_dw = 0ull; goto l_capnp_i8; }
    case 22u: { t_w0 = 0u; r_wi = 1ull; r_k8 = r_rw; r_2y = r_84; r_v0 = r_ly; r_dw = 0ull; goto l_capnp_i8; }
    case 23u: { t_w0 = 0u; r_wi = 1ull; r_k8 = r_rw; r_2y = r_84; r_v0 = r_ly; r_dw = 0ull; goto l_capnp_i8; }
    case 24u: { t_w0 = 0u; r_wi = 1ull; r_k8 = r_rw; r_2y = r_84; r_v0 = r_ly; r_dw = 0ull; goto l_capnp_i8; }
    case 25u: { t_w0 = 0u; r_wi = 1ull; r_k8 = r_rw; r_2y = r_84; r_v0 = r_ly; r_dw = 0ull; goto l_capnp_i8; }
    case 26u: { t_w0 = 0u; r_wi = 1ull; r_k8 = r_rw; r_2y = r_84; r_v0 = r_ly; r_dw = 0ull; goto l_capnp_i8; }
    case 28u: { t_w0 = 0u; r_wi = 1ull; r_k8 = r_rw; r_2y = r_84; r_v0 = r_ly; r_dw = 0ull; goto l_capnp_i8; }
    case 29u: { t_w0 = 0u; r_wi = 1ull; r_k8 = r_rw; r_2y = r_84; r_v0 = r_ly; r_dw = 0ull; goto l_capnp_i8; }
    case 30u: { t_w0 = 0u; r_wi = 1ull; r_k8 = r_rw; r_2y = r_84; r_v0 = r_ly; r_dw = 0ull; goto l_capnp_i8; }
    case 31u: { t_w0 = 0u; r_wi = 1ull; r_k8 = r_rw; r_2y = r_84; r_v0 = r_ly; r_dw = 0ull; goto l_capnp_i8; }
    case 32u: { t_w0 = 0u; r_wi = 1ull; r_k8 = r_rw; r_2y = r_84; r_v0 = r_ly; r_dw = 0ull; goto l_capnp_i8; }
    case 33u: { t_w0 = 0u; r_wi = 1ull; r_k8 = r_rw; r_2y = r_84; r_v0 = r_ly; r_dw = 0ull; goto l_capnp_i8; }
    case 34u: { t_w0 = 0u; r_wi = 1ull; r_k8 = r_rw; r_2y = r_84; r_v0 = r_ly; r_dw = 0ull; goto l_capnp_i8; }
    default: goto l_noarm_e1;
    }
l_noarm_e1:;
    UNREACHABLE();
l_t_h9:;
    t_w0 = 0u;
    r_wi = 1ull;
    r_k8 = 27u;
    r_2y = 0u;
    r_v0 = r_v1;
    r_dw = 0ull;
l_capnp_i8:;
    r_cf = (u32)r_k8;
    r_xw_6 = ldp(r_x5_2);
    r_38_12 = ld64((slot_9 + 16));
    r_38_13 = ld64((slot_9 + 24));
    r_xw_7 = ldp(r_89_1);
    r_38_14 = ld64((slot_9 + 40));
    r_38_15 = ld64((slot_9 + 48));
    r_38_16 = ld64((slot_9 + 56));
    r_38_17 = ld64((slot_9 + 64));
    r_r5_4 = ld8((slot_9 + 72));
    r_f2 = (slot_9 + 73);
    r_xw_8 = ldp((slot_9 + 80));
    r_38_18 = ld64((slot_9 + 88));
    r_38_19 = ld64((slot_9 + 96));
    if (!t_w0) goto l_arm_33;
    r_08 = away(a_4, 16ull);
    r_52_2 = ld64(r_08);
    if (!(r_52_2 == 0ull)) goto l_join_b0;
    st64(a_4, (u64)r_k8);
    st64(r_rq, r_v0);
    st64(r_08, r_dw);
    goto l_capnp_1x;
l_join_b0:;
    if (((ld8(a_4) != 1u) ? 1u : (r_k8 != 1u)) ? 1u : (ld64(r_rq) < r_v0)) goto l_after_jc;
    st64(a_4, 1ull);
    st64(r_rq, r_v0);
l_after_jc:;
    if (r_dw == 0ull) goto l_capnp_1x;
    r_hh = r_52_2;
    r_30 = 0ull;
l_join_p6:;
    r_26 = uadd_sat64(r_hh, 1ull);
    u64 r_36 = (r_30 + 1ull);
    if (!(r_36 == r_dw)) { r_hh = r_26; r_30 = r_36; goto l_join_p6; }
    st64(r_08, r_26);
l_capnp_1x:;
    mv16(slot_12, slot_10);
    mv7(slot_13, r_f2);
    r_6f = r_xw_6;
    r_3l = r_38_12;
    r_rk = r_38_13;
    r_7q = r_xw_7;
    r_yr = r_38_14;
    r_c1 = r_38_15;
    r_g3 = r_38_16;
    r_vx = r_38_17;
    r_7j = r_xw_8;
    r_p8 = r_38_18;
    r_6l = r_38_19;
    r_xz = r_r5_4;
    r_tv = r_z4;
    r_6k = r_uq_1;
    r_hn = r_38_10;
    goto l_join_6f;
l_arm_33:;
    st32(slot_3, r_z4);
    st32((slot_3 + 4), r_uq_1);
    r_x5_4 = (slot_3 + 8);
    st64(r_x5_4, r_38_10);
    r_zd_4 = (slot_3 + 16);
    mv16(r_zd_4, slot_10);
    if (!(u8)(r_r5_4 & 1)) goto l_else_r8_1;
    r_xw_9 = ldp(slot_3);
    u64 r_38_20 = ld64(r_zd_4);
    stp(slot_3, r_xw_7);
    st64(r_x5_4, r_38_14);
    st64(r_zd_4, r_38_15);
    if (r_38_20 == 0ull) goto l_capnp_4o_1;
    rattle_dealloc(r_xw_9);
l_capnp_4o_1:;
    stp(slot_2, r_xw_8);
    st64((slot_2 + 8), r_38_18);
    st64((slot_2 + 16), r_38_19);
    capnp_arena_arena_builder_arena_impl_deallocate_others_af14abad(slot_3, slot_2);
    goto l_capnp_f6_1;
l_else_r8_1:;
    if (r_38_15 == 0ull) goto l_core_at_1;
    rattle_dealloc(r_xw_7);
l_core_at_1:;
    if (r_38_19 == 0ull) goto l_capnp_f6_1;
    rattle_dealloc(r_xw_8);
l_capnp_f6_1:;
    if (!(r_38_12 > 1ull)) goto l_join_jj_1;
    if (r_38_12 > 15ull) goto l_join_ys_1;
    t_gg_1 = (u64)((r_38_12 + 0xfffffffffffffffeull) >> 1ull);
    r_ax_1 = 0ull;
    r_du_1 = r_38_12;
    goto l_join_73_1;
l_join_ys_1:;
    u64 r_dt_1 = (u64)(r_38_12 >> 1ull);
    core_slice_edits_mirror_e0f4f6844e27f7b4(r_xw_6, away(r_xw_6, ((r_38_12 - r_dt_1) * 40ull)), r_dt_1);
    goto l_arm_m6;
l_join_73_1:;
    r_zn_2 = (r_du_1 + 0xffffffffffffffffull);
    if (!(r_ax_1 < r_zn_2)) goto l_else_7d_1;
    u8 *r_a7_4 = (r_xw_6 + (i64)((r_ax_1 * 40ull)));
    u8 *r_a7_5 = (r_xw_6 + (i64)((r_zn_2 * 40ull)));
    mv40(slot_2, r_a7_4);
    mv40(r_a7_4, r_a7_5);
    mv40(r_a7_5, slot_2);
    goto l_core_e6_1;
l_else_7d_1:;
    if (!(r_zn_2 < r_ax_1)) goto l_core_e6_1;
    u8 *r_a7_6 = (r_xw_6 + (i64)((r_zn_2 * 40ull)));
    u8 *r_a7_7 = (r_xw_6 + (i64)((r_ax_1 * 40ull)));
    mv40(slot_2, r_a7_6);
    mv40(r_a7_6, r_a7_7);
    mv40(r_a7_7, slot_2);
l_core_e6_1:;
    if (!(r_ax_1 == t_gg_1)) { u64 r_3 = (r_ax_1 + 1ull); u64 r_4 = r_zn_2; r_ax_1 = r_3; r_du_1 = r_4; goto l_join_73_1; }
l_join_jj_1:;
    if (r_38_12 == 0ull) goto l_capnp_p4_1;
l_arm_m6:;
    r_o3_1 = r_38_12;
l_arm_zl_1:;
    r_zn_3 = (r_o3_1 + 0xffffffffffffffffull);
    r_xw_10 = ldp(slot_3);
    u64 r_38_21 = ld64(r_zd_4);
    mv24(slot_3, (r_xw_6 + (i64)((r_zn_3 * 40ull))));
    if (r_38_21 == 0ull) goto l_capnp_jj_1;
    rattle_dealloc(r_xw_10);
l_capnp_jj_1:;
    if (!(r_zn_3 == 0ull)) { r_o3_1 = r_zn_3; goto l_arm_zl_1; }
l_capnp_p4_1:;
    if (r_38_13 == 0ull) goto l_std_hs;
    rattle_dealloc(r_xw_6);
l_std_hs:;
    u8 *r_xw_11 = ldp(r_zd_4);
    u64 r_38_22 = ld64((slot_3 + 24));
    mv16(slot_14, slot_3);
    mv16(slot_12, slot_14);
    r_6f = r_xw_11;
    r_3l = r_38_22;
    r_rk = 0ull;
    r_7q = ((u8 *)0);
    r_yr = 0ull;
    r_c1 = 0ull;
    r_g3 = 0ull;
    r_vx = 0ull;
    r_7j = ((u8 *)0);
    r_p8 = 0ull;
    r_6l = 0ull;
    r_xz = 0u;
    r_tv = r_cf;
    r_6k = r_2y;
    r_hn = r_v0;
l_join_6f:;
    st64(a_1, r_wi);
    st32(away(a_1, 8ull), r_tv);
    st32(away(a_1, 12ull), r_6k);
    st64(away(a_1, 16ull), r_hn);
    mv16(away(a_1, 24ull), slot_12);
    stp(away(a_1, 40ull), r_6f);
    st64(away(a_1, 48ull), r_3l);
    st64(away(a_1, 56ull), r_rk);
    stp(away(a_1, 64ull), r_7q);
    st64(away(a_1, 72ull), r_yr);
    st64(away(a_1, 80ull), r_c1);
    st64(away(a_1, 88ull), r_g3);
    st64(away(a_1, 96ull), r_vx);
    st8(away(a_1, 104ull), r_xz);
    mv7(away(a_1, 105ull), slot_13);
    stp(away(a_1, 112ull), r_7j);
    st64(away(a_1, 120ull), r_p8);
    st64(away(a_1, 128ull), r_6l);
    goto l_common_68;
}

/* std_alloc::vec::Vec::grow_amortized::<#044c3d3b74b9c55e> */
static NEVER COLD u8 std_alloc_vec_Vec_grow_amortized_044c3d3b74b9c55e(u8 *a_1, u64 a_2)
{
    u64 r_52;
    u8 common_p7;
    u8 *r_08;
    u64 r_52_1;
    u64 t_e0;
    u64 common_za;
    struct s_i64_i64 r_q0;
    r_52 = ld64(away(a_1, 8ull));
    if (a_2 > (r_52 ^ 0xffffffffffffffffull)) { common_p7 = 0u; goto l_common_57; }
    goto l_join_4f;
l_common_57:;
    return common_p7;
l_join_4f:;
    r_08 = away(a_1, 16ull);
    r_52_1 = ld64(r_08);
    u64 a_by = umax64((r_52 + a_2), 8ull);
    t_e0 = umax64(a_by, (u64)(r_52_1 << 1ull));
    common_za = ((r_52_1 < 0x4000000000000000ull) ? t_e0 : a_by);
    if (!((i64)common_za > (i64)0xffffffffffffffffull)) { common_p7 = 0u; goto l_common_57; }
    if (r_52_1 == 0ull) goto l_std_aw;
    struct s_i64_i64 r_fk = rattle_realloc(ldp(a_1), r_52, common_za, 1ull);
    if ((u8)(r_fk.f0 & 1)) { r_q0 = r_fk; goto l_arm_m7; }
    common_p7 = 0u;
    goto l_common_57;
l_std_aw:;
    struct s_i64_i64 r_q1 = rattle_alloc(t_e0, 1ull);
    struct s_i64_i64 r_1y = r_q1;
    if ((u8)(r_1y.f0 & 1)) { r_q0 = r_1y; goto l_arm_m7; }
    common_p7 = 0u;
    goto l_common_57;
l_arm_m7:;
    stp(a_1, ((u8 *)(uptr)r_q0.f1));
    st64(r_08, common_za);
    common_p7 = 1u;
    goto l_common_57;
}

/* capnp_messages::messages::copy_memory::CopySegment::zero_up_to */
static NEVER COLD void capnp_messages_messages_copy_memory_CopySegment_zero_up_to(u8 *a_1, u64 a_2)
{
    u8 *r_rq;
    u64 r_52;
    u64 a_cg;
    u64 r_vz;
    u8 *r_08;
    u64 r_gm;
    u64 r_iu;
    u64 r_a2;
    u8 *r_fx;
    r_rq = away(a_1, 8ull);
    r_52 = ld64(r_rq);
    u8 *r_xz = away(a_1, 24ull);
    u64 r_52_1 = ld64(r_xz);
    a_cg = umin64(r_52_1, umax64(usub_sat64(a_2, r_52), 0x10000ull));
    r_vz = (a_cg + r_52);
    st64(r_xz, (r_52_1 - a_cg));
    if (r_vz > r_52) goto l_join_h0;
    if (!(r_52 > r_vz)) goto l_std_68;
    st64(r_rq, r_vz);
    goto l_std_68;
l_join_h0:;
    r_08 = away(a_1, 16ull);
    u64 r_52_2 = ld64(r_08);
    if (!(a_cg > (r_52_2 - r_52))) { r_gm = r_vz; r_iu = r_52_2; r_a2 = r_52; goto l_join_8u; }
    u8 r_6q = std_alloc_vec_Vec_grow_amortized_044c3d3b74b9c55e(a_1, a_cg);
    if (!r_6q) goto l_std_68;
    u64 r_38 = ld64(r_rq);
    r_gm = (r_38 + a_cg);
    r_iu = ld64(r_08);
    r_a2 = r_38;
l_join_8u:;
    r_fx = ldp(a_1);
    if (!(r_a2 < r_gm)) goto l_std_5n;
    memset_or_none(away(r_fx, r_a2), 0u, a_cg);
l_std_5n:;
    stp(a_1, r_fx);
    st64(r_rq, r_gm);
    st64(r_08, r_iu);
l_std_68:;
    return;
}

/* capnp_arena::arena::rows::allocate_in::<#4426f83c3c99ca57> */
static NEVER COLD struct s_i8_i32 capnp_arena_arena_rows_allocate_in_4426f83c3c99ca57(u8 *a_1, u64 a_2, u32 a_3)
{
    u8 r_us;
    u32 r_1x;
    u8 *r_8z = away(a_1, (a_2 * 40ull));
    if (((u64)ld32(away(r_8z, 32ull)) + (u64)a_3) > (u64)((ld64(away(r_8z, 24ull)) + ld64(away(r_8z, 8ull))) >> 3ull)) { r_us = 0u; r_1x = 0u; goto l_join_pr; }
    u32 r_g9 = capnp_arena_arena_rows_allocate_fitting_in_4426f83c3c99ca57(a_1, a_2, a_3);
    r_us = 1u;
    r_1x = r_g9;
l_join_pr:;
    struct s_i8_i32 r_9l = (struct s_i8_i32){ 0 };
    r_9l.f0 = r_us;
    struct s_i8_i32 r_i6 = r_9l;
    r_i6.f1 = r_1x;
    return r_i6;
}

/* capnp_arena::arena::rows::allocate_fitting_in::<#4426f83c3c99ca57> */
static NEVER COLD u32 capnp_arena_arena_rows_allocate_fitting_in_4426f83c3c99ca57(u8 *a_1, u64 a_2, u32 a_3)
{
    u8 *r_8z;
    u8 *r_9j;
    u32 r_yf;
    u32 r_kq;
    u64 r_z6;
    r_8z = away(a_1, (a_2 * 40ull));
    r_9j = away(r_8z, 32ull);
    r_yf = ld32(r_9j);
    r_kq = (r_yf + a_3);
    r_z6 = (u64)((u64)r_kq << 3ull);
    if (!(ld64(away(r_8z, 8ull)) < r_z6)) goto l_capnp_9n;
    capnp_messages_messages_copy_memory_CopySegment_zero_up_to(r_8z, r_z6);
l_capnp_9n:;
    st32(r_9j, r_kq);
    return r_yf;
}

/* capnp_copies::copy::copy_object::<#789b5ce0078f2be2> */
static NEVER void capnp_copies_copy_copy_object_789b5ce0078f2be2(u8 *a_1, u8 *a_2, u32 a_3, u32 a_4, u8 *a_5, u8 *a_6, u8 a_7)
{
    A(8) u8 slot_1[56];
    A(8) u8 slot_2[64];
    A(8) u8 slot_3[24];
    A(8) u8 slot_4[64];
    u8 r_dh;
    u64 r_eg;
    u8 *r_rv;
    u64 r_qw;
    u64 r_qw_1;
    u8 *r_rv_1;
    u64 r_qw_2;
    u32 r_5k;
    u64 r_24;
    u64 r_gw;
    u64 r_qw_3;
    u64 t_al;
    u8 t_pa;
    u64 r_lc;
    u64 r_nb;
    u64 r_yz;
    u32 r_gx;
    u64 r_qd;
    u64 r_d4;
    u64 r_9h;
    u64 r_27;
    u64 r_ep;
    u64 r_y6;
    u64 r_lc_1;
    u8 *r_rq;
    u64 r_52;
    u32 r_az;
    u8 *t_f6;
    u32 r_4w;
    u8 switch_wl;
    u64 r_ij;
    u64 r_c4;
    u64 r_24_1;
    u64 r_gw_1;
    u8 *r_rq_1;
    u64 r_52_1;
    u64 r_eh;
    u32 t_c8;
    u64 r_ep_1;
    u64 r_y6_1;
    u32 r_12;
    u32 r_az_1;
    u32 r_68;
    u64 r_c0;
    u8 *r_rq_2;
    u64 r_52_2;
    u32 r_ll;
    u8 *t_f6_1;
    u32 r_4w_1;
    u16 r_xg;
    u16 r_py;
    u8 t_q5;
    u32 r_12_1;
    u8 *r_rq_3;
    u64 r_52_3;
    u8 *r_rq_4;
    u64 r_52_4;
    u64 r_v1;
    u64 r_c6;
    u8 *r_rq_5;
    u64 r_52_5;
    u64 r_2g;
    u64 r_jg;
    u64 r_6e;
    u8 *t_f6_2;
    u32 r_4w_2;
    u8 *r_xm;
    u8 r_sz;
    u8 r_10;
    u32 r_kb;
    u32 r_n4;
    u64 r_yp;
    u64 r_q7;
    u64 r_lc_2;
    u64 r_z6;
    u8 *r_c0_1;
    u64 r_nm;
    u64 r_nm_1;
    u64 r_ev;
    u64 r_z6_1;
    u8 *r_c0_2;
    u64 r_nm_2;
    u64 r_nm_3;
    u64 r_mh;
    u64 r_ag;
    u32 r_ib;
    u16 r_xg_1;
    u32 r_29;
    u32 r_68_1;
    u64 r_ro;
    u64 r_xg_2;
    u8 *r_xm_1;
    u8 *r_h6;
    u32 r_yf;
    u64 r_52_6;
    u32 r_w0;
    u64 r_z6_2;
    u8 r_kw;
    u32 r_re;
    struct s_i8_i32 r_jz;
    u64 r_nu;
    u32 r_wt;
    u64 r_ep_2;
    u32 r_4r;
    u64 r_0l;
    u8 *r_c0_3;
    u8 *r_xm_2;
    u8 *r_al;
    u8 *r_2b;
    u64 r_il;
    u8 r_t8;
    u8 r_hg;
    u32 r_lc_3;
    u64 r_nj;
    u8 *t_f6_3;
    u64 r_yo;
    u8 r_tw;
    u8 *r_l2;
    u64 r_nm_4;
    u64 r_61;
    u64 r_kz;
    u64 r_se;
    u32 r_12_2;
    u64 t_0f;
    u8 *r_xm_3;
    u8 r_sz_1;
    u8 *r_h6_1;
    u32 r_yf_2;
    u64 r_52_7;
    u32 r_w0_1;
    u64 r_z6_3;
    u8 r_kw_1;
    u32 r_re_1;
    struct s_i8_i32 r_jz_1;
    u32 r_xo_1;
    u64 r_wf;
    u32 r_zj;
    u32 r_5c;
    u64 r_1q;
    u8 *r_rk;
    u8 *r_2b_1;
    u64 r_il_1;
    u64 r_4i;
    u8 *r_h6_2;
    u32 r_yf_4;
    u64 r_52_8;
    u32 r_w0_2;
    u64 r_z6_4;
    u8 r_kw_2;
    u32 r_re_2;
    struct s_i8_i32 r_jz_2;
    u32 r_xo_2;
    u64 r_bq;
    u32 r_es;
    u32 r_0i;
    u64 r_gw_2;
    u8 *r_x5_2;
    u8 *r_zd;
    u8 *r_lk;
    u8 *r_89;
    u8 *r_a8;
    u8 *r_c4_3;
    u8 *r_6c;
    u8 *r_08_1;
    u64 r_nb_1;
    u8 r_sg;
    u8 *r_rq_6;
    u8 *r_x5_3;
    u8 *r_k0;
    u8 *r_zd_1;
    u32 r_s1;
    u8 t_q5_1;
    u8 *r_x5_4;
    u8 *r_k0_1;
    u8 *r_zd_2;
    u8 *r_ix;
    u8 *r_x5_5;
    u8 *r_zd_3;
    u8 *r_lk_1;
    u8 *r_89_1;
    u8 *r_a8_1;
    u8 *r_c4_4;
    u8 *r_bk;
    u8 *r_6c_1;
    u8 *r_x5_6;
    u8 *r_k0_2;
    u8 *r_zd_4;
    u8 t_0c;
    u8 r_2p;
    u8 *r_yf_6;
    u64 r_0f_4;
    u8 *r_h6_3;
    u8 *r_su;
    u8 *r_r2;
    u8 *r_x5_7;
    u8 *r_k0_3;
    u8 *r_zd_5;
    u8 *r_ix_1;
    u8 *t_6c;
    u8 *t_6c_1;
    u64 indvars_eg;
    u32 r_sr;
    u64 r_24_3;
    u64 r_qw_5;
    u64 switch_f9;
    u64 r_ep_3;
    u64 r_ij_1;
    u64 r_c6_5;
    u64 r_lc_4;
    u64 r_gk;
    u64 r_52_9;
    u64 r_z6_5;
    u8 *r_8a;
    u64 r_se_1;
    u32 r_12_3;
    u32 r_yf_7;
    u64 r_52_10;
    u32 r_w0_3;
    u64 r_z6_6;
    u8 r_kw_3;
    u32 r_re_3;
    struct s_i8_i32 r_pp;
    u32 r_gs;
    u32 r_xx;
    u64 r_4i_1;
    u64 r_y6_2;
    u64 r_q7_1;
    u64 r_lc_6;
    u64 r_lc_7;
    u64 r_jm;
    u32 r_4r_1;
    u8 r_8u;
    u64 r_52_11;
    u32 r_5b;
    u64 r_um;
    u64 r_c9;
    u32 r_az_2;
    u32 r_az_3;
    u32 r_68_2;
    struct s_i8_i32 r_t6;
    u32 r_2g_1;
    u32 sink_rg;
    u8 r_2b_2;
    u8 r_qh;
    u32 r_ip;
    u64 r_wq;
    u8 r_t8_2;
    u8 r_t8_1;
    u32 r_hg_1;
    u64 r_lc_5;
    u64 t_pz;
    u32 t_fy;
    u8 r_1l;
    u8 t_ry;
    u64 r_q7_2;
    u32 r_i4;
    u64 r_pi;
    u16 r_jc;
    u16 r_qp_1;
    u64 r_u7;
    u64 r_z6_7;
    u8 *r_c0_4;
    u64 r_nm_5;
    u64 r_nm_6;
    u64 r_xk;
    u16 r_5f;
    u64 r_5q;
    u64 r_u7_1;
    u64 r_z6_8;
    u8 *r_c0_5;
    u64 r_nm_7;
    u64 r_nm_8;
    u64 r_a3;
    u16 r_rn;
    u16 r_rp;
    u32 r_00;
    u32 r_68_3;
    u32 r_v3;
    u32 r_ll_1;
    u8 *r_xm_4;
    u8 r_sz_2;
    u8 *r_h6_4;
    u32 r_yf_10;
    u64 r_52_12;
    u32 r_w0_4;
    u64 r_z6_9;
    u8 r_kw_4;
    u32 r_re_4;
    struct s_i8_i32 r_jz_3;
    u32 r_xo_5;
    u64 r_mm;
    u32 r_yf_11;
    u32 r_e3_5;
    u32 r_ll_2;
    u64 r_z6_10;
    u64 r_59;
    u64 r_ni;
    u32 r_zf;
    u32 r_21;
    u64 r_c0_6;
    u64 r_u7_2;
    u64 r_a7;
    u32 r_ll_3;
    u32 r_68_4;
    u64 r_z6_12;
    u8 r_hi;
    u8 r_2p_1;
    u8 r_u6;
    u8 r_vw;
    u8 r_bh_2;
    u64 r_8f_2;
    u64 r_la_2;
    u64 r_bh_3;
    u8 r_hi_1;
    u64 r_gw_3;
    u8 *r_x5_8;
    u8 *r_zd_6;
    u8 *r_lk_2;
    u8 *r_89_2;
    u8 *r_a8_2;
    u8 *r_c4_5;
    u8 *r_6c_2;
    u8 *r_08_2;
    u64 r_nb_2;
    u8 r_sg_1;
    u8 *r_rq_7;
    u8 *r_x5_9;
    u8 *r_k0_4;
    u8 *r_zd_7;
    u32 r_mx;
    u8 *r_yf_12;
    u64 r_24_6;
    u64 r_0f_10;
    u8 *r_h6_5;
    u8 *r_su_1;
    u8 *r_r2_1;
    u8 *r_x5_10;
    u8 *r_k0_5;
    u8 *r_zd_8;
    u8 *r_ix_2;
    u8 *r_x5_11;
    u8 *r_zd_9;
    u8 *r_lk_3;
    u8 *r_89_3;
    u8 *r_a8_3;
    u8 *r_c4_6;
    u8 *r_bk_1;
    u8 *r_6c_3;
    u8 *r_x5_12;
    u8 *r_k0_6;
    u8 *r_zd_10;
    u8 t_0c_1;
    u8 *r_x5_13;
    u8 *r_k0_7;
    u8 *r_zd_11;
    u8 *r_ix_3;
    u64 wide_u7;
    u64 r_24_7;
    u8 *t_6c_2;
    u64 indvars_ff;
    u32 r_w0_5;
    u32 r_w0_6;
    u8 *r_c0_7;
    u8 *r_rw;
    u8 *r_2b_3;
    u64 r_il_2;
    u32 r_w0_7;
    u32 r_w0_8;
    u64 indvars_vm;
    u32 r_sr_1;
    u64 r_24_8;
    u64 r_qw_6;
    u64 switch_f9_1;
    u64 r_ep_4;
    u64 r_ij_2;
    u64 r_1q_2;
    u64 r_c6_6;
    u64 r_lc_8;
    u64 r_gk_1;
    u64 r_52_13;
    u64 r_z6_13;
    u8 *r_8a_1;
    u64 r_se_2;
    u32 r_12_4;
    u32 r_yf_13;
    u64 r_52_14;
    u32 r_w0_9;
    u64 r_z6_14;
    struct s_i8_i32 r_tu_5;
    u32 r_yf_14;
    u32 r_e3_6;
    u32 r_ll_4;
    u64 r_6f;
    u64 r_59_1;
    u64 r_ni_1;
    u32 r_gs_1;
    u32 r_xx_1;
    u64 r_1q_3;
    u8 *r_u9;
    u8 *r_2b_4;
    u64 r_il_3;
    u64 r_4i_2;
    u32 r_w0_10;
    u64 r_a5;
    u64 r_y6_3;
    u64 r_q7_3;
    u64 r_lc_10;
    u64 r_lc_11;
    u64 r_jm_1;
    u32 r_4r_2;
    u8 r_8u_1;
    u64 r_52_15;
    u32 r_5b_1;
    u64 r_lc_12;
    u64 r_z6_16;
    u8 *r_c0_8;
    u64 r_nm_9;
    u64 r_nm_10;
    u64 r_ev_1;
    u64 r_z6_17;
    u8 *r_c0_9;
    u64 r_nm_11;
    u64 r_nm_12;
    u64 r_dl;
    u64 r_9n;
    u16 r_xg_3;
    u32 r_29_1;
    u32 r_az_4;
    u32 r_68_5;
    u64 r_ro_1;
    u32 r_yf_15;
    u64 r_52_16;
    u32 r_w0_11;
    u64 r_z6_18;
    u8 r_kw_5;
    u32 r_re_5;
    struct s_i8_i32 r_jz_4;
    u32 r_xo_7;
    u64 r_a7_1;
    u64 r_nu_1;
    u32 r_wt_1;
    u64 r_ep_5;
    u32 r_4r_3;
    u64 r_0l_1;
    u8 *r_c0_10;
    u8 *r_al_1;
    u8 *r_2b_5;
    u64 r_il_4;
    u8 r_2b_6;
    u8 r_qh_1;
    u32 r_ip_1;
    u64 r_wq_1;
    u8 r_t8_4;
    u8 r_t8_3;
    u32 r_hg_2;
    u64 r_lc_9;
    u64 t_pz_1;
    u32 t_fy_1;
    u8 r_1l_1;
    u8 t_ry_1;
    u8 r_5k_1;
    u8 r_qp;
    u32 r_7u;
    u64 r_pz;
    r_dh = ld8(a_5);
    r_eg = (u64)r_dh;
    r_rv = ldp(away(a_5, 8ull));
    r_qw = ld64(away(a_5, 16ull));
    r_qw_1 = ld64(away(a_5, 24ull));
    r_rv_1 = ldp(away(a_5, 32ull));
    r_qw_2 = ld64(away(a_5, 40ull));
    r_5k = ld32(away(a_5, 56ull));
    r_24 = (u64)ld32(away(a_5, 48ull));
    r_gw = (u64)(r_qw_2 >> 3ull);
    if (!(r_gw > r_24)) { r_5k_1 = 0u; r_qp = 0u; r_7u = 0u; r_pz = 0ull; goto l_join_1g; }
    r_qw_3 = ld64(away(r_rv_1, (u64)(r_24 << 3ull)));
    if (r_qw_3 == 0ull) { r_5k_1 = 0u; r_qp = 0u; r_7u = 0u; r_pz = 0ull; goto l_join_1g; }
    t_al = (u64)(uptr)r_rv_1;
    memset(slot_1, 0u, 56);
    t_pa = (r_dh != 0u);
    if (t_pa) goto l_capnp_sm;
    u8 *r_08 = away(a_6, 16ull);
    st64(r_08, uadd_sat64(ld64(r_08), 1ull));
    if ((r_qw_3 & 3ull) == 2ull) goto l_capnp_d1;
    goto l_join_bd;
l_capnp_sm:;
    if (!((r_qw_3 & 3ull) == 2ull)) goto l_join_bd;
    st32((slot_1 + 8), 32u);
    r_2g = ld64((slot_1 + 8));
    goto l_capnp_8g;
l_join_bd:;
    u64 r_m6 = ((u64)(r_qw_3 >> 2ull) & 0x3fffffffull);
    r_lc = ((r_24 + 1ull) + r_m6);
    r_nb = (r_gw & 0xffffffffull);
    if (!(r_m6 < 0x20000000ull)) goto l_else_70;
    if (r_lc > r_nb) { r_2g = 23ull; goto l_capnp_8g; }
    r_yz = r_lc;
    goto l_capnp_i5;
l_else_70:;
    u64 r_3o = (r_lc + 0xffffffffc0000000ull);
    if ((r_lc < 0x40000000ull) ? 1u : (r_3o > r_nb)) { r_2g = 23ull; goto l_capnp_8g; }
    r_yz = r_3o;
l_capnp_i5:;
    r_gx = (u32)r_yz;
    r_qd = r_qw_1;
    r_d4 = r_qw_3;
    r_9h = r_qw_2;
    r_27 = t_al;
    goto l_arm_wn;
l_capnp_d1:;
    capnp_pointers_source_follow_far_70170357b7303457(slot_1, r_rv, r_qw_3, a_6);
    u64 r_38 = ld64((slot_1 + 16));
    u64 r_38_1 = ld64((slot_1 + 8));
    if (ld8(slot_1) == 0u) { r_gx = ld32((slot_1 + 40)); r_qd = r_38; r_d4 = r_38_1; r_9h = ld64((slot_1 + 32)); r_27 = ld64((slot_1 + 24)); goto l_arm_wn; }
    r_jg = r_38;
    r_6e = r_38_1;
    goto l_capnp_qu;
l_arm_wn:;
    switch ((u8)((u8)r_d4 & 3u)) {
    case 0u: goto l_arm_sz;
    case 1u: goto l_arm_z2;
    case 2u: { r_10 = 1u; r_kb = 13u; r_n4 = 0u; r_yp = 0ull; goto l_common_9c; }
    case 3u: goto l_capnp_a6;
    default: goto l_default_e1;
    }
l_arm_sz:;
    r_ep = (u64)(r_d4 >> 32ull);
    r_y6 = (u64)(r_d4 >> 48ull);
    if ((i32)r_5k < (i32)1u) { r_10 = 1u; r_kb = 26u; r_n4 = 0u; r_yp = 0ull; goto l_common_9c; }
    r_lc_1 = ((r_ep & 65535ull) + r_y6);
    if (((u64)(r_9h >> 3ull) & 0xffffffffull) < (r_lc_1 + (u64)r_gx)) { r_10 = 1u; r_kb = 23u; r_n4 = 0u; r_yp = 0ull; goto l_common_9c; }
    if (t_pa) goto l_arm_gk;
    if (!(ld8(a_6) == 1u)) goto l_arm_gk;
    r_rq = away(a_6, 8ull);
    r_52 = ld64(r_rq);
    if (r_52 < r_lc_1) { r_10 = 1u; r_kb = 30u; r_n4 = 0u; r_yp = 0ull; goto l_common_9c; }
    st64(a_6, 1ull);
    st64(r_rq, (r_52 - r_lc_1));
l_arm_gk:;
    r_az = ((u32)r_ep & 65535u);
    t_f6 = ((u8 *)(uptr)r_27);
    r_4w = (r_5k + 0xffffffffu);
    if (a_7 == 1u) goto l_arm_e4;
    goto l_arm_ps;
l_arm_z2:;
    switch_wl = (u8)((u8)(u64)(r_d4 >> 32ull) & 7u);
    r_ij = (u64)(r_d4 >> 35ull);
    switch (switch_wl) {
    case 7u: goto l_arm_gv;
    case 6u: goto l_arm_lc;
    case 0u: goto l_arm_gv_1;
    case 5u: goto l_arm_h9;
    case 4u: goto l_arm_h9_1;
    case 3u: goto l_arm_h9_2;
    case 1u: { r_v1 = 1ull; goto l_capnp_gv; }
    case 2u: goto l_arm_h9_3;
    default: goto l_default_e1;
    }
l_arm_gv:;
    if ((i32)r_5k < (i32)1u) { r_10 = 1u; r_kb = 26u; r_n4 = 0u; r_yp = 0ull; goto l_common_9c; }
    r_c4 = (r_ij + 1ull);
    r_24_1 = (u64)r_gx;
    r_gw_1 = (u64)(r_9h >> 3ull);
    if ((r_gw_1 & 0xffffffffull) < (r_c4 + r_24_1)) { r_10 = 1u; r_kb = 23u; r_n4 = 0u; r_yp = 0ull; goto l_common_9c; }
    if (t_pa) goto l_arm_ga;
    if (!(ld8(a_6) == 1u)) goto l_arm_ga;
    r_rq_1 = away(a_6, 8ull);
    r_52_1 = ld64(r_rq_1);
    if (!(r_52_1 > r_ij)) { r_10 = 1u; r_kb = 30u; r_n4 = 0u; r_yp = 0ull; goto l_common_9c; }
    st64(a_6, 1ull);
    st64(r_rq_1, (r_52_1 - r_c4));
l_arm_ga:;
    if (!(r_gw_1 > r_24_1)) { r_eh = 0ull; goto l_join_qm; }
    u64 r_qw_4 = ld64(away(((u8 *)(uptr)r_27), (u64)(r_24_1 << 3ull)));
    if ((r_qw_4 & 3ull) == 0ull) { r_eh = r_qw_4; goto l_join_qm; }
    r_10 = 1u;
    r_kb = 11u;
    r_n4 = 0u;
    r_yp = 0ull;
    goto l_common_9c;
l_join_qm:;
    t_c8 = (u32)((u32)r_eh >> 2u);
    r_ep_1 = (u64)(r_eh >> 32ull);
    r_y6_1 = (u64)(r_eh >> 48ull);
    r_12 = (u32)r_y6_1;
    r_az_1 = ((u32)r_ep_1 & 65535u);
    r_68 = (r_az_1 + r_12);
    r_c0 = (u64)t_c8;
    if (r_ij < ((u64)r_68 * r_c0)) { r_10 = 1u; r_kb = 10u; r_n4 = 0u; r_yp = 0ull; goto l_common_9c; }
    if ((u8)((u8)t_pa | (u8)(r_68 != 0u))) goto l_arm_ae;
    if (!(ld8(a_6) == 1u)) goto l_arm_ae;
    r_rq_2 = away(a_6, 8ull);
    r_52_2 = ld64(r_rq_2);
    if (r_52_2 < r_c0) { r_10 = 1u; r_kb = 30u; r_n4 = 0u; r_yp = 0ull; goto l_common_9c; }
    st64(a_6, 1ull);
    st64(r_rq_2, (r_52_2 - r_c0));
l_arm_ae:;
    r_ll = (r_gx + 1u);
    t_f6_1 = ((u8 *)(uptr)r_27);
    r_4w_1 = (r_5k + 0xffffffffu);
    r_xg = (u16)r_ep_1;
    r_py = (u16)r_y6_1;
    t_q5 = (a_7 == 1u);
    if (t_q5) goto l_arm_q5;
    r_rn = r_xg;
    r_rp = r_py;
    goto l_capnp_4j;
l_arm_lc:;
    r_12_1 = (u32)r_ij;
    if ((i32)r_5k < (i32)1u) { r_10 = 1u; r_kb = 26u; r_n4 = 0u; r_yp = 0ull; goto l_common_9c; }
    if (((u64)(r_9h >> 3ull) & 0xffffffffull) < (r_ij + (u64)r_gx)) { r_10 = 1u; r_kb = 23u; r_n4 = 0u; r_yp = 0ull; goto l_common_9c; }
    if (t_pa) goto l_arm_57;
    if (!(ld8(a_6) == 1u)) goto l_arm_57;
    r_rq_3 = away(a_6, 8ull);
    r_52_3 = ld64(r_rq_3);
    if (r_52_3 < r_ij) { r_10 = 1u; r_kb = 30u; r_n4 = 0u; r_yp = 0ull; goto l_common_9c; }
    st64(a_6, 1ull);
    st64(r_rq_3, (r_52_3 - r_ij));
    goto l_arm_57;
l_arm_gv_1:;
    if ((i32)r_5k < (i32)1u) { r_10 = 1u; r_kb = 26u; r_n4 = 0u; r_yp = 0ull; goto l_common_9c; }
    if (((u64)(r_9h >> 3ull) & 0xffffffffull) < (u64)r_gx) { r_10 = 1u; r_kb = 23u; r_n4 = 0u; r_yp = 0ull; goto l_common_9c; }
    if (t_pa) goto l_arm_kb;
    if (!(ld8(a_6) == 1u)) goto l_arm_kb;
    st64(a_6, 1ull);
    r_rq_4 = away(a_6, 8ull);
    r_52_4 = ld64(r_rq_4);
    if (r_52_4 < r_ij) { r_10 = 1u; r_kb = 30u; r_n4 = 0u; r_yp = 0ull; goto l_common_9c; }
    st64(r_rq_4, (r_52_4 - r_ij));
    goto l_arm_kb;
l_arm_h9_3:;
    r_v1 = 8ull;
    goto l_capnp_gv;
l_arm_h9_2:;
    r_v1 = 16ull;
    goto l_capnp_gv;
l_arm_h9_1:;
    r_v1 = 32ull;
    goto l_capnp_gv;
l_arm_h9:;
    r_v1 = 64ull;
l_capnp_gv:;
    if ((i32)r_5k < (i32)1u) { r_10 = 1u; r_kb = 26u; r_n4 = 0u; r_yp = 0ull; goto l_common_9c; }
    r_c6 = (u64)(((r_v1 * r_ij) + 63ull) >> 6ull);
    if (((u64)(r_9h >> 3ull) & 0xffffffffull) < (r_c6 + (u64)r_gx)) { r_10 = 1u; r_kb = 23u; r_n4 = 0u; r_yp = 0ull; goto l_common_9c; }
    if (t_pa) goto l_arm_gk_1;
    if (!(ld8(a_6) == 1u)) goto l_arm_gk_1;
    r_rq_5 = away(a_6, 8ull);
    r_52_5 = ld64(r_rq_5);
    if (r_52_5 < r_c6) { r_10 = 1u; r_kb = 30u; r_n4 = 0u; r_yp = 0ull; goto l_common_9c; }
    st64(a_6, 1ull);
    st64(r_rq_5, (r_52_5 - r_c6));
    goto l_arm_gk_1;
l_default_e1:;
    UNREACHABLE();
l_capnp_8g:;
    r_jg = 0ull;
    r_6e = r_2g;
l_capnp_qu:;
    r_10 = 1u;
    r_kb = ((u32)r_6e & 255u);
    r_n4 = (u32)(u64)(r_6e >> 32ull);
    r_yp = r_jg;
    goto l_common_9c;
l_capnp_a6:;
    u8 r_e6 = ((r_d4 & 0xffffffffull) == 3ull);
    if (r_e6) goto l_arm_gt;
    r_10 = 1u;
    r_kb = (r_e6 ? 1u : 34u);
    r_n4 = 0u;
    r_yp = 0ull;
    goto l_common_9c;
l_arm_57:;
    t_f6_2 = ((u8 *)(uptr)r_27);
    r_4w_2 = (r_5k + 0xffffffffu);
    r_xm = away(a_2, 32ull);
    r_sz = (a_3 == 0u);
    if (r_sz) goto l_then_1r;
    goto l_else_6q;
l_arm_gt:;
    switch (a_7) {
    case 0u: goto l_arm_n7;
    case 1u: { r_5k_1 = a_7; r_qp = a_7; r_7u = 0u; r_pz = 0ull; goto l_join_1g; }
    case 2u: goto l_arm_qu;
    default: goto l_noarm_e1;
    }
l_common_9c:;
    st8(a_1, r_10);
    st32(away(a_1, 8ull), r_kb);
    st32(away(a_1, 12ull), r_n4);
    st64(away(a_1, 16ull), r_yp);
    return;
l_arm_n7:;
    if (!(a_3 == 0u)) goto l_else_6q_1;
    st64(away(ldp(away(a_2, 32ull)), (u64)((u64)a_4 << 3ull)), r_d4);
    r_5k_1 = 0u;
    r_qp = 0u;
    r_7u = 0u;
    r_pz = 0ull;
    goto l_join_1g;
l_else_6q_1:;
    capnp_arena_arena_rows_put_word_in_4426f83c3c99ca57(ldp(away(a_2, 80ull)), ((u64)a_3 + 0xffffffffffffffffull), a_4, r_d4);
    r_5k_1 = 0u;
    r_qp = 0u;
    r_7u = 0u;
    r_pz = 0ull;
    goto l_join_1g;
l_arm_qu:;
    r_5k_1 = 1u;
    r_qp = 34u;
    r_7u = 0u;
    r_pz = 0ull;
    goto l_join_1g;
l_noarm_e1:;
    UNREACHABLE();
l_arm_e4:;
    u64 r_24_2 = (u64)r_gx;
    r_q7 = (r_ep & 65535ull);
    r_lc_2 = (r_q7 + r_24_2);
    r_z6 = (u64)(r_q7 << 3ull);
    r_c0_1 = away(t_f6, (u64)(r_24_2 << 3ull));
    if (r_az < 32u) { r_nm = r_q7; goto l_loop_jc; }
    goto l_else_wj;
l_loop_jc:;
    if (r_nm == 0ull) { r_ev = 0ull; goto l_capnp_fc; }
    u64 r_0f = (r_nm + 0xffffffffffffffffull);
    if (ld64(away(r_c0_1, (u64)(r_0f << 3ull))) == 0ull) { r_nm = r_0f; goto l_loop_jc; }
    r_ev = r_nm;
    goto l_capnp_fc;
l_else_wj:;
    if (!(ld64(away(away(r_c0_1, r_z6), 0xfffffffffffffff8ull)) == 0ull)) { r_ev = r_q7; goto l_capnp_fc; }
    u64 r_qz = capnp_words_lanes_used_words_bound(r_c0_1, r_z6);
    r_nm_1 = r_qz;
l_loop_jc_1:;
    if (r_nm_1 == 0ull) { r_ev = 0ull; goto l_capnp_fc; }
    u64 r_0f_1 = (r_nm_1 + 0xffffffffffffffffull);
    if (ld64(away(r_c0_1, (u64)(r_0f_1 << 3ull))) == 0ull) { r_nm_1 = r_0f_1; goto l_loop_jc_1; }
    r_ev = r_nm_1;
l_capnp_fc:;
    r_z6_1 = (u64)(r_y6 << 3ull);
    r_c0_2 = away(t_f6, (u64)(r_lc_2 << 3ull));
    if (r_d4 < 0x20000000000000ull) { r_nm_2 = r_y6; goto l_loop_jc_2; }
    goto l_else_wj_1;
l_loop_jc_2:;
    if (r_nm_2 == 0ull) { r_mh = 0ull; goto l_capnp_kv; }
    u64 r_0f_2 = (r_nm_2 + 0xffffffffffffffffull);
    if (ld64(away(r_c0_2, (u64)(r_0f_2 << 3ull))) == 0ull) { r_nm_2 = r_0f_2; goto l_loop_jc_2; }
    r_mh = r_nm_2;
    goto l_capnp_kv;
l_else_wj_1:;
    if (!(ld64(away(away(r_c0_2, r_z6_1), 0xfffffffffffffff8ull)) == 0ull)) { r_mh = r_y6; goto l_capnp_kv; }
    u64 r_qz_1 = capnp_words_lanes_used_words_bound(r_c0_2, r_z6_1);
    r_nm_3 = r_qz_1;
l_loop_jc_3:;
    if (r_nm_3 == 0ull) { r_mh = 0ull; goto l_capnp_kv; }
    u64 r_0f_3 = (r_nm_3 + 0xffffffffffffffffull);
    if (ld64(away(r_c0_2, (u64)(r_0f_3 << 3ull))) == 0ull) { r_nm_3 = r_0f_3; goto l_loop_jc_3; }
    r_mh = r_nm_3;
l_capnp_kv:;
    r_ag = r_ev;
    r_ib = ((u32)r_mh & 65535u);
    goto l_capnp_ed;
l_arm_ps:;
    r_ag = r_ep;
    r_ib = (u32)r_y6;
l_capnp_ed:;
    r_xg_1 = (u16)r_ag;
    r_29 = ((u32)r_ag & 65535u);
    r_68_1 = (r_ib + r_29);
    if (!(r_68_1 == 0u)) goto l_join_3p;
    if (!(a_3 == 0u)) goto l_else_6q_2;
    u64 r_7l = (u64)a_4;
    st64(away(ldp(away(a_2, 32ull)), (u64)(r_7l << 3ull)), 0xfffffffcull);
    r_ro = 0ull;
    r_xg_2 = r_7l;
    goto l_capnp_sg;
l_else_6q_2:;
    u64 r_7l_1 = (u64)a_3;
    capnp_arena_arena_rows_put_word_in_4426f83c3c99ca57(ldp(away(a_2, 80ull)), (r_7l_1 + 0xffffffffffffffffull), a_4, 0xfffffffcull);
    r_ro = r_7l_1;
    r_xg_2 = (u64)a_4;
l_capnp_sg:;
    r_nu = ((u64)(r_xg_2 << 32ull) | r_ro);
    goto l_arm_zo;
l_join_3p:;
    r_xm_1 = away(a_2, 32ull);
    if (!(a_3 == 0u)) goto l_else_6q_3;
    r_h6 = away(a_2, 64ull);
    r_yf = ld32(r_h6);
    r_52_6 = ld64(away(a_2, 40ull));
    if (((u64)r_yf + (u64)r_68_1) > (u64)((ld64(away(a_2, 56ull)) + r_52_6) >> 3ull)) { r_kw = 0u; r_re = 0u; goto l_join_ax; }
    r_w0 = (r_yf + r_68_1);
    r_z6_2 = (u64)((u64)r_w0 << 3ull);
    if (!(r_52_6 < r_z6_2)) goto l_capnp_9l;
    capnp_messages_messages_copy_memory_CopySegment_zero_up_to(r_xm_1, r_z6_2);
l_capnp_9l:;
    st32(r_h6, r_w0);
    r_kw = 1u;
    r_re = r_yf;
l_join_ax:;
    struct s_i8_i32 t_9l = (struct s_i8_i32){ 0 };
    t_9l.f0 = r_kw;
    struct s_i8_i32 t_3s = t_9l;
    t_3s.f1 = r_re;
    r_jz = t_3s;
    goto l_capnp_c2;
l_else_6q_3:;
    struct s_i8_i32 r_tu = capnp_arena_arena_rows_allocate_in_4426f83c3c99ca57(ldp(away(a_2, 80ull)), ((u64)a_3 + 0xffffffffffffffffull), r_68_1);
    r_jz = r_tu;
l_capnp_c2:;
    if (!(r_jz.f0 == 1u)) goto l_arm_2h;
    u32 r_xo = r_jz.f1;
    capnp_arena_arena_builder_arena_impl_BuilderArenaImplB_5cfff9e5(a_2, a_3, a_4, (((u64)((u64)r_ib << 48ull) | ((u64)(r_ag << 32ull) & 0xffff00000000ull)) | (u64)(u32)((r_xo + (a_4 ^ 0xffffffffu)) << 2u)));
    r_nu = ((u64)((u64)r_xo << 32ull) | (u64)a_3);
    goto l_arm_zo;
l_arm_2h:;
    capnp_arena_arena_builder_arena_impl_BuilderArenaImplB_c2fb55cd(slot_1, a_2, (r_68_1 + 1u));
    if (!(ld8(slot_1) == 0u)) goto l_arm_x3;
    u32 r_yf_1 = ld32((slot_1 + 4));
    u32 r_e3 = ld32((slot_1 + 8));
    capnp_arena_arena_builder_arena_impl_BuilderArenaImplB_5cfff9e5(a_2, r_yf_1, r_e3, ((u64)((u64)r_ib << 48ull) | ((u64)(r_ag << 32ull) & 0xffff00000000ull)));
    capnp_arena_arena_builder_arena_impl_BuilderArenaImplB_5cfff9e5(a_2, a_3, a_4, (((u64)((u64)r_yf_1 << 32ull) | (u64)((u64)r_e3 << 3ull)) | 2ull));
    r_nu = ((u64)((u64)(r_e3 + 1u) << 32ull) | (u64)r_yf_1);
l_arm_zo:;
    r_wt = (u32)r_nu;
    r_ep_2 = (u64)(r_nu >> 32ull);
    r_4r = (u32)r_ep_2;
    r_0l = ((u64)(r_ag << 3ull) & 0x7fff8ull);
    r_c0_3 = away(t_f6, (u64)((u64)r_gx << 3ull));
    if (r_xg_1 == 0u) goto l_capnp_am;
    r_xm_2 = away(a_2, 32ull);
    if (!(r_wt == 0u)) goto l_else_h1;
    r_al = ldp(r_xm_2);
    goto l_capnp_kr;
l_else_h1:;
    u8 *r_x5 = capnp_arena_arena_rows_Rows_other_mut_4426f83c3c99ca57(r_xm_2, r_wt);
    r_al = r_x5;
l_capnp_kr:;
    r_2b = away(r_al, (u64)(r_ep_2 << 3ull));
    if (!(r_xg_1 < 8u)) goto l_else_r3;
    if (!(r_xg_1 > 3u)) goto l_else_1o;
    mv32(r_2b, r_c0_3);
    u64 r_bh = (r_0l + 0xffffffffffffffe0ull);
    mv32((r_2b + (i64)(r_bh)), (r_c0_3 + (i64)(r_bh)));
    goto l_capnp_am;
l_else_1o:;
    if (r_xg_1 == 1u) goto l_then_49;
    mv16(r_2b, r_c0_3);
    u64 r_8f = (r_0l + 0xfffffffffffffff0ull);
    mv16((r_2b + (i64)(r_8f)), (r_c0_3 + (i64)(r_8f)));
    goto l_capnp_am;
l_then_49:;
    mv8(r_2b, r_c0_3);
    u64 r_la = (r_0l + 0xfffffffffffffff8ull);
    mv8((r_2b + (i64)(r_la)), (r_c0_3 + (i64)(r_la)));
    goto l_capnp_am;
l_else_r3:;
    if (((u64)(uptr)r_2b - (u64)(uptr)r_c0_3) < r_0l) { r_il = 0ull; goto l_join_fh; }
    memmove_or_none(r_2b, r_c0_3, r_0l);
    goto l_capnp_am;
l_join_fh:;
    st8((r_2b + (i64)(r_il)), ld8((r_c0_3 + (i64)(r_il))));
    u64 r_c4_1 = (r_il + 1ull);
    if (!(r_c4_1 == r_0l)) { r_il = r_c4_1; goto l_join_fh; }
l_capnp_am:;
    memset(slot_1, 0u, 24);
    st64((slot_2 + 56), 0ull);
    if (r_ib == 0u) { r_t8 = 0u; r_hg = 0u; r_lc_3 = 0u; r_nj = 0ull; goto l_capnp_mp; }
    st64(slot_2, r_eg);
    stp((slot_2 + 8), r_rv);
    st64((slot_2 + 16), r_qw);
    st64((slot_2 + 24), r_qd);
    stp((slot_2 + 32), t_f6);
    st64((slot_2 + 40), r_9h);
    st32((slot_2 + 48), (r_az + r_gx));
    st32((slot_2 + 52), 0u);
    st32((slot_2 + 56), r_4w);
    capnp_copies_copy_children_copy_children_out_of_line_7_ae79832a(slot_1, a_2, r_wt, (r_29 + r_4r), slot_2, r_ib, a_6, a_7);
    r_t8 = ld8(slot_1);
    r_hg = ld8((slot_1 + 8));
    r_lc_3 = ld32((slot_1 + 12));
    r_nj = ld64((slot_1 + 16));
l_capnp_mp:;
    r_5k_1 = r_t8;
    r_qp = r_hg;
    r_7u = r_lc_3;
    r_pz = r_nj;
    goto l_join_1g;
l_arm_x3:;
    r_5k_1 = 1u;
    r_qp = ld8((slot_1 + 8));
    r_7u = ld32((slot_1 + 12));
    r_pz = ld64((slot_1 + 16));
    goto l_join_1g;
l_arm_kb:;
    r_yo = 0ull;
    r_tw = 0u;
    r_l2 = away(((u8 *)(uptr)r_27), (u64)((u64)r_gx << 3ull));
    r_nm_4 = 0ull;
    r_61 = 0ull;
    r_kz = 0ull;
    goto l_capnp_rj;
l_arm_gk_1:;
    t_f6_3 = ((u8 *)(uptr)r_27);
    switch (switch_wl) {
    case 5u: goto l_capnp_9l_1;
    case 4u: goto l_capnp_vt;
    case 3u: goto l_capnp_3x;
    case 1u: goto l_capnp_3m;
    case 2u: goto l_capnp_qf;
    default: goto l_noarm_e1_1;
    }
l_capnp_3m:;
    u64 r_c6_1 = (u64)((r_ij + 63ull) >> 6ull);
    r_yo = 1ull;
    r_tw = switch_wl;
    r_l2 = away(t_f6_3, (u64)((u64)r_gx << 3ull));
    r_nm_4 = (u64)(r_c6_1 << 3ull);
    r_61 = r_c6_1;
    r_kz = 1ull;
    goto l_capnp_rj;
l_capnp_qf:;
    u64 r_c6_2 = (u64)(((u64)(r_ij << 3ull) + 63ull) >> 6ull);
    r_yo = 2ull;
    r_tw = switch_wl;
    r_l2 = away(t_f6_3, (u64)((u64)r_gx << 3ull));
    r_nm_4 = (u64)(r_c6_2 << 3ull);
    r_61 = r_c6_2;
    r_kz = 8ull;
    goto l_capnp_rj;
l_capnp_3x:;
    u64 r_c6_3 = (u64)(((u64)(r_ij << 4ull) + 63ull) >> 6ull);
    r_yo = 3ull;
    r_tw = switch_wl;
    r_l2 = away(t_f6_3, (u64)((u64)r_gx << 3ull));
    r_nm_4 = (u64)(r_c6_3 << 3ull);
    r_61 = r_c6_3;
    r_kz = 16ull;
    goto l_capnp_rj;
l_capnp_vt:;
    u64 r_c6_4 = (u64)(((u64)(r_ij << 5ull) + 63ull) >> 6ull);
    r_yo = 4ull;
    r_tw = switch_wl;
    r_l2 = away(t_f6_3, (u64)((u64)r_gx << 3ull));
    r_nm_4 = (u64)(r_c6_4 << 3ull);
    r_61 = r_c6_4;
    r_kz = 32ull;
    goto l_capnp_rj;
l_capnp_9l_1:;
    r_yo = 5ull;
    r_tw = switch_wl;
    r_l2 = away(t_f6_3, (u64)((u64)r_gx << 3ull));
    r_nm_4 = (u64)(r_ij << 3ull);
    r_61 = r_ij;
    r_kz = 64ull;
    goto l_capnp_rj;
l_noarm_e1_1:;
    UNREACHABLE();
l_capnp_rj:;
    r_se = (u64)(((r_kz * r_ij) + 63ull) >> 6ull);
    r_12_2 = (u32)r_se;
    t_0f = (r_61 + 0xffffffffffffffffull);
    r_xm_3 = away(a_2, 32ull);
    r_sz_1 = (a_3 == 0u);
    if (!r_sz_1) goto l_else_6q_4;
    r_h6_1 = away(a_2, 64ull);
    r_yf_2 = ld32(r_h6_1);
    r_52_7 = ld64(away(a_2, 40ull));
    if ((r_se + (u64)r_yf_2) > (u64)((ld64(away(a_2, 56ull)) + r_52_7) >> 3ull)) { r_kw_1 = 0u; r_re_1 = 0u; goto l_join_ax_1; }
    r_w0_1 = (r_yf_2 + r_12_2);
    r_z6_3 = (u64)((u64)r_w0_1 << 3ull);
    if (!(r_52_7 < r_z6_3)) goto l_capnp_9l_2;
    capnp_messages_messages_copy_memory_CopySegment_zero_up_to(r_xm_3, r_z6_3);
l_capnp_9l_2:;
    st32(r_h6_1, r_w0_1);
    r_kw_1 = 1u;
    r_re_1 = r_yf_2;
l_join_ax_1:;
    struct s_i8_i32 t_9l_1 = (struct s_i8_i32){ 0 };
    t_9l_1.f0 = r_kw_1;
    struct s_i8_i32 t_3s_1 = t_9l_1;
    t_3s_1.f1 = r_re_1;
    r_jz_1 = t_3s_1;
    goto l_capnp_c2_1;
l_else_6q_4:;
    struct s_i8_i32 r_tu_1 = capnp_arena_arena_rows_allocate_in_4426f83c3c99ca57(ldp(away(a_2, 80ull)), ((u64)a_3 + 0xffffffffffffffffull), r_12_2);
    r_jz_1 = r_tu_1;
l_capnp_c2_1:;
    if (!(r_jz_1.f0 == 1u)) goto l_arm_2h_1;
    r_xo_1 = r_jz_1.f1;
    r_wf = ((((r_d4 & 0xfffffff800000000ull) | (u64)((u64)r_tw << 32ull)) | (u64)(u32)((r_xo_1 + (a_4 ^ 0xffffffffu)) << 2u)) | 1ull);
    if (!r_sz_1) goto l_else_6q_5;
    st64(away(ldp(r_xm_3), (u64)((u64)a_4 << 3ull)), r_wf);
    r_zj = r_xo_1;
    r_5c = 0u;
    goto l_switch_5c;
l_else_6q_5:;
    capnp_arena_arena_rows_put_word_in_4426f83c3c99ca57(ldp(away(a_2, 80ull)), ((u64)a_3 + 0xffffffffffffffffull), a_4, r_wf);
    r_zj = r_xo_1;
    r_5c = a_3;
    goto l_switch_5c;
l_arm_2h_1:;
    capnp_arena_arena_builder_arena_impl_BuilderArenaImplB_c2fb55cd(slot_1, a_2, (r_12_2 + 1u));
    if (!(ld8(slot_1) == 0u)) goto l_arm_x3_1;
    u32 r_yf_3 = ld32((slot_1 + 4));
    u32 r_e3_1 = ld32((slot_1 + 8));
    capnp_arena_arena_builder_arena_impl_BuilderArenaImplB_5cfff9e5(a_2, r_yf_3, r_e3_1, (((r_d4 & 0xfffffff800000000ull) | (u64)((u64)r_tw << 32ull)) | 1ull));
    capnp_arena_arena_builder_arena_impl_BuilderArenaImplB_5cfff9e5(a_2, a_3, a_4, (((u64)((u64)r_yf_3 << 32ull) | (u64)((u64)r_e3_1 << 3ull)) | 2ull));
    r_zj = (r_e3_1 + 1u);
    r_5c = r_yf_3;
l_switch_5c:;
    r_1q = (ld64((((u8 *)switch_table_capnp_copies_copy_copy_object_789b5ce0078f2be2) + (i64)(8 * r_yo))) * r_ij);
    if (r_nm_4 == 0ull) goto l_capnp_6p;
    if (!(r_5c == 0u)) goto l_else_h1_1;
    r_rk = ldp(r_xm_3);
    goto l_capnp_3u;
l_else_h1_1:;
    u8 *r_x5_1 = capnp_arena_arena_rows_Rows_other_mut_4426f83c3c99ca57(r_xm_3, r_5c);
    r_rk = r_x5_1;
l_capnp_3u:;
    r_2b_1 = away(r_rk, (u64)((u64)r_zj << 3ull));
    if (!(r_nm_4 < 64ull)) goto l_else_r3_1;
    if (!(r_nm_4 > 31ull)) goto l_else_dg;
    mv32(r_2b_1, r_l2);
    u64 r_bh_1 = (r_nm_4 + 0xffffffffffffffe0ull);
    mv32((r_2b_1 + (i64)(r_bh_1)), (r_l2 + (i64)(r_bh_1)));
    goto l_capnp_6p;
l_else_dg:;
    if (!(r_nm_4 > 15ull)) goto l_then_49_1;
    mv16(r_2b_1, r_l2);
    u64 r_8f_1 = (r_nm_4 + 0xfffffffffffffff0ull);
    mv16((r_2b_1 + (i64)(r_8f_1)), (r_l2 + (i64)(r_8f_1)));
    goto l_capnp_6p;
l_then_49_1:;
    mv8(r_2b_1, r_l2);
    u64 r_la_1 = (r_nm_4 + 0xfffffffffffffff8ull);
    mv8((r_2b_1 + (i64)(r_la_1)), (r_l2 + (i64)(r_la_1)));
    goto l_capnp_6p;
l_else_r3_1:;
    if (((u64)(uptr)r_2b_1 - (u64)(uptr)r_l2) < r_nm_4) { r_il_1 = 0ull; goto l_join_fh_1; }
    memmove_or_none(r_2b_1, r_l2, r_nm_4);
    goto l_capnp_6p;
l_join_fh_1:;
    st8((r_2b_1 + (i64)(r_il_1)), ld8((r_l2 + (i64)(r_il_1))));
    u64 r_c4_2 = (r_il_1 + 1ull);
    if (!(r_c4_2 == r_nm_4)) { r_il_1 = r_c4_2; goto l_join_fh_1; }
l_capnp_6p:;
    r_4i = (r_1q & 63ull);
    if (r_4i == 0ull) { r_5k_1 = 0u; r_qp = 0u; r_7u = 0u; r_pz = 0ull; goto l_join_1g; }
    capnp_arena_arena_builder_arena_impl_BuilderArenaImplB_5cfff9e5(a_2, r_5c, (r_zj + (u32)t_0f), (ld64(away(r_l2, (u64)(t_0f << 3ull))) & ((u64)(0xffffffffffffffffull << (r_4i & 63u)) ^ 0xffffffffffffffffull)));
    r_5k_1 = 0u;
    r_qp = 0u;
    r_7u = 0u;
    r_pz = 0ull;
    goto l_join_1g;
l_arm_x3_1:;
    r_5k_1 = 1u;
    r_qp = ld8((slot_1 + 8));
    r_7u = ld32((slot_1 + 12));
    r_pz = ld64((slot_1 + 16));
    goto l_join_1g;
l_then_1r:;
    r_h6_2 = away(a_2, 64ull);
    r_yf_4 = ld32(r_h6_2);
    r_52_8 = ld64(away(a_2, 40ull));
    if ((r_ij + (u64)r_yf_4) > (u64)((ld64(away(a_2, 56ull)) + r_52_8) >> 3ull)) { r_kw_2 = 0u; r_re_2 = 0u; goto l_join_ax_2; }
    r_w0_2 = (r_yf_4 + r_12_1);
    r_z6_4 = (u64)((u64)r_w0_2 << 3ull);
    if (!(r_52_8 < r_z6_4)) goto l_capnp_9l_3;
    capnp_messages_messages_copy_memory_CopySegment_zero_up_to(r_xm, r_z6_4);
l_capnp_9l_3:;
    st32(r_h6_2, r_w0_2);
    r_kw_2 = 1u;
    r_re_2 = r_yf_4;
l_join_ax_2:;
    struct s_i8_i32 t_9l_2 = (struct s_i8_i32){ 0 };
    t_9l_2.f0 = r_kw_2;
    struct s_i8_i32 t_3s_2 = t_9l_2;
    t_3s_2.f1 = r_re_2;
    r_jz_2 = t_3s_2;
    goto l_capnp_c2_2;
l_else_6q:;
    struct s_i8_i32 r_tu_2 = capnp_arena_arena_rows_allocate_in_4426f83c3c99ca57(ldp(away(a_2, 80ull)), ((u64)a_3 + 0xffffffffffffffffull), r_12_1);
    r_jz_2 = r_tu_2;
l_capnp_c2_2:;
    if (!(r_jz_2.f0 == 1u)) goto l_arm_2h_2;
    r_xo_2 = r_jz_2.f1;
    r_bq = (((r_d4 & 0xfffffff800000000ull) | (u64)(u32)((r_xo_2 + (a_4 ^ 0xffffffffu)) << 2u)) | 0x600000001ull);
    if (!r_sz) goto l_else_6q_6;
    st64(away(ldp(r_xm), (u64)((u64)a_4 << 3ull)), r_bq);
    r_es = r_xo_2;
    r_0i = 0u;
    goto l_arm_3e;
l_else_6q_6:;
    capnp_arena_arena_rows_put_word_in_4426f83c3c99ca57(ldp(away(a_2, 80ull)), ((u64)a_3 + 0xffffffffffffffffull), a_4, r_bq);
    r_es = r_xo_2;
    r_0i = a_3;
    goto l_arm_3e;
l_arm_2h_2:;
    capnp_arena_arena_builder_arena_impl_BuilderArenaImplB_c2fb55cd(slot_1, a_2, (r_12_1 + 1u));
    if (!(ld8(slot_1) == 0u)) goto l_arm_x3_2;
    u32 r_yf_5 = ld32((slot_1 + 4));
    u32 r_e3_2 = ld32((slot_1 + 8));
    capnp_arena_arena_builder_arena_impl_BuilderArenaImplB_5cfff9e5(a_2, r_yf_5, r_e3_2, ((r_d4 & 0xfffffff800000000ull) | 0x600000001ull));
    capnp_arena_arena_builder_arena_impl_BuilderArenaImplB_5cfff9e5(a_2, a_3, a_4, (((u64)((u64)r_yf_5 << 32ull) | (u64)((u64)r_e3_2 << 3ull)) | 2ull));
    r_es = (r_e3_2 + 1u);
    r_0i = r_yf_5;
l_arm_3e:;
    if (r_ij == 0ull) { r_5k_1 = 0u; r_qp = 0u; r_7u = 0u; r_pz = 0ull; goto l_join_1g; }
    r_gw_2 = (u64)(r_9h >> 3ull);
    r_x5_2 = (slot_4 + 8);
    r_zd = (slot_4 + 16);
    r_lk = (slot_4 + 24);
    r_89 = (slot_4 + 32);
    r_a8 = (slot_4 + 40);
    r_c4_3 = (slot_4 + 48);
    r_6c = (slot_4 + 56);
    r_08_1 = away(a_6, 16ull);
    r_nb_1 = (r_gw_2 & 0xffffffffull);
    r_sg = (r_5k == 1u);
    r_rq_6 = away(a_6, 8ull);
    r_x5_3 = (slot_3 + 8);
    r_k0 = (slot_3 + 12);
    r_zd_1 = (slot_3 + 16);
    r_s1 = (r_5k + 0xfffffffeu);
    t_q5_1 = (a_7 == 1u);
    r_x5_4 = (slot_1 + 8);
    r_k0_1 = (slot_1 + 12);
    r_zd_2 = (slot_1 + 16);
    r_ix = (slot_1 + 4);
    r_x5_5 = (slot_2 + 8);
    r_zd_3 = (slot_2 + 16);
    r_lk_1 = (slot_2 + 24);
    r_89_1 = (slot_2 + 32);
    r_a8_1 = (slot_2 + 40);
    r_c4_4 = (slot_2 + 48);
    r_bk = (slot_2 + 52);
    r_6c_1 = (slot_2 + 56);
    r_x5_6 = (slot_1 + 8);
    r_k0_2 = (slot_1 + 12);
    r_zd_4 = (slot_1 + 16);
    t_0c = (r_dh == 0u);
    r_2p = (r_0i == 0u);
    r_yf_6 = away(a_2, 80ull);
    r_0f_4 = ((u64)r_0i + 0xffffffffffffffffull);
    r_h6_3 = away(a_2, 64ull);
    r_su = away(a_2, 40ull);
    r_r2 = away(a_2, 56ull);
    r_x5_7 = (slot_1 + 8);
    r_k0_3 = (slot_1 + 12);
    r_zd_5 = (slot_1 + 16);
    r_ix_1 = (slot_1 + 4);
    t_6c = (slot_4 + 56);
    t_6c_1 = (slot_2 + 56);
    indvars_eg = 0ull;
    goto l_join_1e;
l_loop_qw:;
    u64 indvars_r7 = (indvars_eg + 1ull);
    if (indvars_r7 == r_ij) { r_5k_1 = 0u; r_qp = 0u; r_7u = 0u; r_pz = 0ull; goto l_join_1g; }
    indvars_eg = indvars_r7;
l_join_1e:;
    u32 t_s7 = (u32)indvars_eg;
    r_sr = (r_es + t_s7);
    r_24_3 = (u64)(r_gx + t_s7);
    memset(slot_3, 0u, 24);
    st64(t_6c, 0ull);
    if (!(r_gw_2 > r_24_3)) goto l_capnp_v7;
    r_qw_5 = ld64(away(t_f6_2, (u64)(r_24_3 << 3ull)));
    if (r_qw_5 == 0ull) goto l_capnp_v7;
    switch_f9 = (r_qw_5 & 3ull);
    r_ep_3 = (u64)(r_qw_5 >> 32ull);
    if (!((switch_f9 == 1ull) ? ((u8)((u8)((u8)r_ep_3 & 7u) + 255u) < 5u) : 0u)) goto l_join_br;
    r_ij_1 = (u64)(r_qw_5 >> 35ull);
    r_c6_5 = (u64)(((ld64(away(away(((u8 *)switch_table_main_18), 8 * (r_ep_3 & 7ull)), 0xfffffffffffffff8ull)) * r_ij_1) + 63ull) >> 6ull);
    if (!t_0c) goto l_join_bd_1;
    st64(r_08_1, uadd_sat64(ld64(r_08_1), 1ull));
l_join_bd_1:;
    u64 r_m6_1 = ((u64)(r_qw_5 >> 2ull) & 0x3fffffffull);
    r_lc_4 = ((r_24_3 + 1ull) + r_m6_1);
    if (!(r_m6_1 < 0x20000000ull)) goto l_else_70_1;
    if (r_lc_4 > r_nb_1) { r_t8_1 = 23u; r_hg_1 = 0u; r_lc_5 = 0ull; goto l_capnp_mp_1; }
    r_gk = r_lc_4;
    goto l_arm_vo;
l_else_70_1:;
    u64 r_3o_1 = (r_lc_4 + 0xffffffffc0000000ull);
    if ((r_lc_4 < 0x40000000ull) ? 1u : (r_3o_1 > r_nb_1)) { r_t8_1 = 23u; r_hg_1 = 0u; r_lc_5 = 0ull; goto l_capnp_mp_1; }
    r_gk = r_3o_1;
l_arm_vo:;
    if (r_sg) { r_t8_1 = 26u; r_hg_1 = 0u; r_lc_5 = 0ull; goto l_capnp_mp_1; }
    if (r_nb_1 < (r_gk + r_c6_5)) { r_t8_1 = 23u; r_hg_1 = 0u; r_lc_5 = 0ull; goto l_capnp_mp_1; }
    if (!t_0c) goto l_arm_p5;
    if (!(ld8(a_6) == 1u)) goto l_arm_p5;
    r_52_9 = ld64(r_rq_6);
    if (r_52_9 < r_c6_5) { r_t8_1 = 30u; r_hg_1 = 0u; r_lc_5 = 0ull; goto l_capnp_mp_1; }
    st64(a_6, 1ull);
    st64(r_rq_6, (r_52_9 - r_c6_5));
l_arm_p5:;
    r_z6_5 = (u64)(r_c6_5 << 3ull);
    r_8a = away(t_f6_2, (u64)(r_gk << 3ull));
    r_se_1 = (u64)(((ld64(away(away(((u8 *)switch_table_main_18), 8 * (r_ep_3 & 7ull)), 0xfffffffffffffff8ull)) * r_ij_1) + 63ull) >> 6ull);
    r_12_3 = (u32)r_se_1;
    if (!r_2p) goto l_else_xr;
    r_yf_7 = ld32(r_h6_3);
    r_52_10 = ld64(r_su);
    if ((r_se_1 + (u64)r_yf_7) > (u64)((ld64(r_r2) + r_52_10) >> 3ull)) { r_kw_3 = 0u; r_re_3 = 0u; goto l_join_ax_3; }
    r_w0_3 = (r_yf_7 + r_12_3);
    r_z6_6 = (u64)((u64)r_w0_3 << 3ull);
    if (!(r_52_10 < r_z6_6)) goto l_capnp_9l_4;
    capnp_messages_messages_copy_memory_CopySegment_zero_up_to(r_xm, r_z6_6);
l_capnp_9l_4:;
    st32(r_h6_3, r_w0_3);
    r_kw_3 = 1u;
    r_re_3 = r_yf_7;
l_join_ax_3:;
    struct s_i8_i32 t_9l_3 = (struct s_i8_i32){ 0 };
    t_9l_3.f0 = r_kw_3;
    struct s_i8_i32 t_3s_3 = t_9l_3;
    t_3s_3.f1 = r_re_3;
    r_pp = t_3s_3;
    goto l_capnp_h1;
l_else_xr:;
    struct s_i8_i32 r_tu_3 = capnp_arena_arena_rows_allocate_in_4426f83c3c99ca57(ldp(r_yf_6), r_0f_4, r_12_3);
    r_pp = r_tu_3;
l_capnp_h1:;
    if (!(r_pp.f0 == 1u)) goto l_arm_2h_3;
    u32 r_xo_3 = r_pp.f1;
    capnp_arena_arena_builder_arena_impl_BuilderArenaImplB_5cfff9e5(a_2, r_0i, r_sr, ((r_qw_5 & 0xffffffff00000001ull) | (u64)(u32)((r_xo_3 + (r_sr ^ 0xffffffffu)) << 2u)));
    r_gs = r_xo_3;
    r_xx = r_0i;
    goto l_arm_t1;
l_arm_2h_3:;
    capnp_arena_arena_builder_arena_impl_BuilderArenaImplB_c2fb55cd(slot_1, a_2, (r_12_3 + 1u));
    if (!(ld8(slot_1) == 0u)) goto l_arm_vh;
    u32 r_yf_8 = ld32(r_ix_1);
    u32 r_e3_3 = ld32(r_x5_7);
    capnp_arena_arena_builder_arena_impl_BuilderArenaImplB_5cfff9e5(a_2, r_yf_8, r_e3_3, (r_qw_5 & 0xffffffff00000001ull));
    capnp_arena_arena_builder_arena_impl_BuilderArenaImplB_5cfff9e5(a_2, r_0i, r_sr, (((u64)((u64)r_yf_8 << 32ull) | (u64)((u64)r_e3_3 << 3ull)) | 2ull));
    r_gs = (r_e3_3 + 1u);
    r_xx = r_yf_8;
l_arm_t1:;
    u64 r_1q_1 = (ld64(away(away(((u8 *)switch_table_main_18), 8 * (r_ep_3 & 7ull)), 0xfffffffffffffff8ull)) * r_ij_1);
    capnp_arena_traits_arena_writing_copy_words_5460ad12cd8c5480(a_2, r_xx, r_gs, r_8a, r_z6_5);
    r_4i_1 = (r_1q_1 & 63ull);
    if (r_4i_1 == 0ull) goto l_capnp_v7;
    u64 r_0f_5 = (r_c6_5 + 0xffffffffffffffffull);
    capnp_arena_arena_builder_arena_impl_BuilderArenaImplB_5cfff9e5(a_2, r_xx, (r_gs + (u32)r_0f_5), (ld64(away(r_8a, (u64)(r_0f_5 << 3ull))) & ((u64)(0xffffffffffffffffull << (r_4i_1 & 63u)) ^ 0xffffffffffffffffull)));
    goto l_capnp_v7;
l_arm_vh:;
    r_t8_1 = ld8(r_x5_7);
    r_hg_1 = ld32(r_k0_3);
    r_lc_5 = ld64(r_zd_5);
    goto l_capnp_mp_1;
l_join_br:;
    if (!(switch_f9 == 0ull)) goto l_else_4r;
    r_y6_2 = (u64)(r_qw_5 >> 48ull);
    r_q7_1 = (r_ep_3 & 65535ull);
    r_lc_6 = (r_q7_1 + r_y6_2);
    if (t_pa) goto l_join_o1;
    st64(r_08_1, uadd_sat64(ld64(r_08_1), 1ull));
l_join_o1:;
    u64 r_m6_2 = ((u64)(r_qw_5 >> 2ull) & 0x3fffffffull);
    r_lc_7 = ((r_24_3 + 1ull) + r_m6_2);
    if (!(r_m6_2 < 0x20000000ull)) goto l_else_70_2;
    if (r_lc_7 > r_nb_1) { r_t8_2 = 23u; goto l_capnp_mp_2; }
    r_jm = r_lc_7;
    goto l_arm_h8;
l_else_70_2:;
    u64 r_3o_2 = (r_lc_7 + 0xffffffffc0000000ull);
    if ((r_lc_7 < 0x40000000ull) ? 1u : (r_3o_2 > r_nb_1)) { r_t8_2 = 23u; goto l_capnp_mp_2; }
    r_jm = r_3o_2;
l_arm_h8:;
    r_4r_1 = (u32)r_jm;
    if (r_sg) { r_t8_2 = 26u; goto l_capnp_mp_2; }
    r_8u = (r_nb_1 < (r_jm + r_lc_6));
    if ((u8)((u8)t_pa | (u8)r_8u)) goto l_capnp_li;
    if (!(ld8(a_6) == 1u)) { r_5b = r_4r_1; goto l_arm_7a; }
    r_52_11 = ld64(r_rq_6);
    if (r_52_11 < r_lc_6) { r_t8_2 = 30u; goto l_capnp_mp_2; }
    st64(a_6, 1ull);
    st64(r_rq_6, (r_52_11 - r_lc_6));
    r_5b = r_4r_1;
    goto l_arm_7a;
l_capnp_li:;
    if (r_8u) { r_t8_2 = 23u; goto l_capnp_mp_2; }
    r_5b = (r_8u ? 0u : r_4r_1);
l_arm_7a:;
    if (!t_q5_1) { r_um = r_ep_3; r_c9 = r_y6_2; goto l_capnp_2z; }
    u64 r_24_4 = (u64)r_5b;
    u64 r_ck = capnp_words_words_used_words_in(t_f6_2, r_24_4, r_q7_1);
    u64 r_ck_1 = capnp_words_words_used_words_in(t_f6_2, (r_q7_1 + r_24_4), r_y6_2);
    r_um = r_ck;
    r_c9 = r_ck_1;
l_capnp_2z:;
    r_az_2 = ((u32)r_um & 65535u);
    r_az_3 = ((u32)r_c9 & 65535u);
    r_68_2 = (r_az_3 + r_az_2);
    if (!(r_68_2 == 0u)) goto l_join_k5;
    capnp_arena_arena_builder_arena_impl_BuilderArenaImplB_5cfff9e5(a_2, r_0i, r_sr, 0xfffffffcull);
    r_2g_1 = r_sr;
    sink_rg = r_0i;
    goto l_arm_v3;
l_join_k5:;
    r_t6 = capnp_arena_arena_builder_arena_impl_BuilderArenaImplB_7a3e4931(a_2, r_0i, r_68_2);
    if (!(r_t6.f0 == 1u)) goto l_arm_2h_4;
    u32 r_xo_4 = r_t6.f1;
    capnp_arena_arena_builder_arena_impl_BuilderArenaImplB_5cfff9e5(a_2, r_0i, r_sr, ((((u64)(r_um << 32ull) & 0xffff00000000ull) | (u64)(r_c9 << 48ull)) | (u64)(u32)((r_xo_4 + (r_sr ^ 0xffffffffu)) << 2u)));
    r_2g_1 = r_xo_4;
    sink_rg = r_0i;
    goto l_arm_v3;
l_arm_2h_4:;
    capnp_arena_arena_builder_arena_impl_BuilderArenaImplB_c2fb55cd(slot_1, a_2, (r_68_2 + 1u));
    if (!(ld8(slot_1) == 0u)) goto l_arm_vh_1;
    u32 r_yf_9 = ld32(r_ix);
    u32 r_e3_4 = ld32(r_x5_4);
    capnp_arena_arena_builder_arena_impl_BuilderArenaImplB_5cfff9e5(a_2, r_yf_9, r_e3_4, (((u64)(r_um << 32ull) & 0xffff00000000ull) | (u64)(r_c9 << 48ull)));
    capnp_arena_arena_builder_arena_impl_BuilderArenaImplB_5cfff9e5(a_2, r_0i, r_sr, (((u64)((u64)r_yf_9 << 32ull) | (u64)((u64)r_e3_4 << 3ull)) | 2ull));
    r_2g_1 = (r_e3_4 + 1u);
    sink_rg = r_yf_9;
l_arm_v3:;
    capnp_copies_copy_elements_put_words_5460ad12cd8c5480(a_2, sink_rg, r_2g_1, away(t_f6_2, (u64)((u64)r_5b << 3ull)), ((u64)(r_um << 3ull) & 0x7fff8ull));
    memset(slot_1, 0u, 24);
    st64(t_6c_1, 0ull);
    if (r_az_3 == 0u) { r_2b_2 = 0u; r_qh = 0u; r_ip = 0u; r_wq = 0ull; goto l_capnp_no; }
    st64(slot_2, r_eg);
    stp(r_x5_5, r_rv);
    st64(r_zd_3, r_qw);
    st64(r_lk_1, r_qd);
    stp(r_89_1, t_f6_2);
    st64(r_a8_1, r_9h);
    st32(r_c4_4, (r_5b + ((u32)r_ep_3 & 65535u)));
    st32(r_bk, 0u);
    st32(r_6c_1, r_s1);
    capnp_copies_copy_children_copy_children_out_of_line_7_ae79832a(slot_1, a_2, sink_rg, (r_az_2 + r_2g_1), slot_2, r_az_3, a_6, a_7);
    r_2b_2 = ld8(slot_1);
    r_qh = ld8(r_x5_6);
    r_ip = ld32(r_k0_2);
    r_wq = ld64(r_zd_4);
l_capnp_no:;
    t_pz = r_wq;
    t_fy = r_ip;
    r_1l = r_qh;
    t_ry = r_2b_2;
    goto l_capnp_rz;
l_arm_vh_1:;
    t_pz = ld64(r_zd_2);
    t_fy = ld32(r_k0_1);
    r_1l = ld8(r_x5_4);
    t_ry = 1u;
    goto l_capnp_rz;
l_capnp_mp_2:;
    r_5k_1 = 1u;
    r_qp = r_t8_2;
    r_7u = 0u;
    r_pz = 0ull;
    goto l_join_1g;
l_else_4r:;
    st64(slot_4, r_eg);
    stp(r_x5_2, r_rv);
    st64(r_zd, r_qw);
    st64(r_lk, r_qd);
    stp(r_89, t_f6_2);
    st64(r_a8, r_9h);
    st64(r_c4_3, r_24_3);
    st32(r_6c, r_4w_2);
    capnp_copies_copy_copy_object_789b5ce0078f2be2(slot_3, a_2, r_0i, r_sr, slot_4, a_6, a_7);
    t_pz = ld64(r_zd_1);
    t_fy = ld32(r_k0);
    r_1l = ld8(r_x5_3);
    t_ry = ld8(slot_3);
    goto l_capnp_rz;
l_capnp_v7:;
    goto l_loop_qw;
l_capnp_mp_1:;
    r_5k_1 = 1u;
    r_qp = r_t8_1;
    r_7u = r_hg_1;
    r_pz = r_lc_5;
    goto l_join_1g;
l_capnp_rz:;
    if (t_ry == 0u) goto l_loop_qw;
    r_5k_1 = 1u;
    r_qp = r_1l;
    r_7u = t_fy;
    r_pz = t_pz;
    goto l_join_1g;
l_arm_x3_2:;
    r_5k_1 = 1u;
    r_qp = ld8((slot_1 + 8));
    r_7u = ld32((slot_1 + 12));
    r_pz = ld64((slot_1 + 16));
    goto l_join_1g;
l_arm_q5:;
    if ((u8)((u8)(t_c8 == 0u) | (u8)((u16)(r_py | r_xg) == 0u))) { r_rn = 0u; r_rp = 0u; goto l_capnp_4j; }
    r_q7_2 = (r_ep_1 & 65535ull);
    r_i4 = 0u;
    r_pi = (u64)r_ll;
    r_jc = 0u;
    r_qp_1 = 0u;
l_join_20:;
    u16 r_to = (u16)(r_xg - r_qp_1);
    r_u7 = (u64)r_to;
    r_z6_7 = (u64)(r_u7 << 3ull);
    r_c0_4 = away(t_f6_1, (u64)((r_pi + (u64)r_qp_1) << 3ull));
    if (r_to < 32u) { r_nm_5 = r_u7; goto l_loop_jc_4; }
    goto l_else_wj_2;
l_loop_jc_4:;
    if (r_nm_5 == 0ull) { r_xk = 0ull; goto l_capnp_k4; }
    u64 r_0f_6 = (r_nm_5 + 0xffffffffffffffffull);
    if (ld64(away(r_c0_4, (u64)(r_0f_6 << 3ull))) == 0ull) { r_nm_5 = r_0f_6; goto l_loop_jc_4; }
    r_xk = r_nm_5;
    goto l_capnp_k4;
l_else_wj_2:;
    if (!(ld64(away(away(r_c0_4, r_z6_7), 0xfffffffffffffff8ull)) == 0ull)) { r_xk = r_u7; goto l_capnp_k4; }
    u64 r_qz_2 = capnp_words_lanes_used_words_bound(r_c0_4, r_z6_7);
    r_nm_6 = r_qz_2;
l_loop_jc_5:;
    if (r_nm_6 == 0ull) { r_xk = 0ull; goto l_capnp_k4; }
    u64 r_0f_7 = (r_nm_6 + 0xffffffffffffffffull);
    if (ld64(away(r_c0_4, (u64)(r_0f_7 << 3ull))) == 0ull) { r_nm_6 = r_0f_7; goto l_loop_jc_5; }
    r_xk = r_nm_6;
l_capnp_k4:;
    r_5f = (u16)(r_qp_1 + (u16)r_xk);
    r_5q = (r_pi + r_q7_2);
    u16 r_to_1 = (u16)(r_py - r_jc);
    r_u7_1 = (u64)r_to_1;
    r_z6_8 = (u64)(r_u7_1 << 3ull);
    r_c0_5 = away(t_f6_1, (u64)((r_5q + (u64)r_jc) << 3ull));
    if (r_to_1 < 32u) { r_nm_7 = r_u7_1; goto l_loop_jc_6; }
    goto l_else_wj_3;
l_loop_jc_6:;
    if (r_nm_7 == 0ull) { r_a3 = 0ull; goto l_capnp_8b; }
    u64 r_0f_8 = (r_nm_7 + 0xffffffffffffffffull);
    if (ld64(away(r_c0_5, (u64)(r_0f_8 << 3ull))) == 0ull) { r_nm_7 = r_0f_8; goto l_loop_jc_6; }
    r_a3 = r_nm_7;
    goto l_capnp_8b;
l_else_wj_3:;
    if (!(ld64(away(away(r_c0_5, r_z6_8), 0xfffffffffffffff8ull)) == 0ull)) { r_a3 = r_u7_1; goto l_capnp_8b; }
    u64 r_qz_3 = capnp_words_lanes_used_words_bound(r_c0_5, r_z6_8);
    r_nm_8 = r_qz_3;
l_loop_jc_7:;
    if (r_nm_8 == 0ull) { r_a3 = 0ull; goto l_capnp_8b; }
    u64 r_0f_9 = (r_nm_8 + 0xffffffffffffffffull);
    if (ld64(away(r_c0_5, (u64)(r_0f_9 << 3ull))) == 0ull) { r_nm_8 = r_0f_9; goto l_loop_jc_7; }
    r_a3 = r_nm_8;
l_capnp_8b:;
    u16 r_5f_1 = (u16)(r_jc + (u16)r_a3);
    u32 r_ff = (r_i4 + 1u);
    if (r_ff == t_c8) { r_rn = r_5f; r_rp = r_5f_1; goto l_capnp_4j; }
    r_i4 = r_ff;
    r_pi = (r_5q + r_y6_1);
    r_jc = r_5f_1;
    r_qp_1 = r_5f;
    goto l_join_20;
l_capnp_4j:;
    r_00 = (u32)r_rn;
    r_68_3 = ((u32)r_rp + r_00);
    r_v3 = (r_68_3 * t_c8);
    r_ll_1 = (r_v3 + 1u);
    r_xm_4 = away(a_2, 32ull);
    r_sz_2 = (a_3 == 0u);
    if (!r_sz_2) goto l_else_6q_7;
    r_h6_4 = away(a_2, 64ull);
    r_yf_10 = ld32(r_h6_4);
    r_52_12 = ld64(away(a_2, 40ull));
    if (((u64)r_yf_10 + (u64)r_ll_1) > (u64)((ld64(away(a_2, 56ull)) + r_52_12) >> 3ull)) { r_kw_4 = 0u; r_re_4 = 0u; goto l_join_ax_4; }
    r_w0_4 = (r_yf_10 + r_ll_1);
    r_z6_9 = (u64)((u64)r_w0_4 << 3ull);
    if (!(r_52_12 < r_z6_9)) goto l_capnp_9l_5;
    capnp_messages_messages_copy_memory_CopySegment_zero_up_to(r_xm_4, r_z6_9);
l_capnp_9l_5:;
    st32(r_h6_4, r_w0_4);
    r_kw_4 = 1u;
    r_re_4 = r_yf_10;
l_join_ax_4:;
    struct s_i8_i32 t_9l_4 = (struct s_i8_i32){ 0 };
    t_9l_4.f0 = r_kw_4;
    struct s_i8_i32 t_3s_4 = t_9l_4;
    t_3s_4.f1 = r_re_4;
    r_jz_3 = t_3s_4;
    goto l_capnp_c2_3;
l_else_6q_7:;
    struct s_i8_i32 r_tu_4 = capnp_arena_arena_rows_allocate_in_4426f83c3c99ca57(ldp(away(a_2, 80ull)), ((u64)a_3 + 0xffffffffffffffffull), r_ll_1);
    r_jz_3 = r_tu_4;
l_capnp_c2_3:;
    if (!(r_jz_3.f0 == 1u)) goto l_arm_g1;
    r_xo_5 = r_jz_3.f1;
    r_mm = (((u64)((u64)r_v3 << 35ull) | (u64)(u32)((r_xo_5 + (a_4 ^ 0xffffffffu)) << 2u)) | 0x700000001ull);
    if (!r_sz_2) goto l_else_6q_8;
    st64(away(ldp(r_xm_4), (u64)((u64)a_4 << 3ull)), r_mm);
    r_zf = r_xo_5;
    r_21 = 0u;
    goto l_arm_dc;
l_else_6q_8:;
    capnp_arena_arena_rows_put_word_in_4426f83c3c99ca57(ldp(away(a_2, 80ull)), ((u64)a_3 + 0xffffffffffffffffull), a_4, r_mm);
    r_zf = r_xo_5;
    r_21 = a_3;
    goto l_arm_dc;
l_arm_g1:;
    capnp_arena_arena_builder_arena_impl_BuilderArenaImplB_c2fb55cd(slot_1, a_2, (r_v3 + 2u));
    if (!(ld8(slot_1) == 0u)) goto l_arm_x3_3;
    r_yf_11 = ld32((slot_1 + 4));
    r_e3_5 = ld32((slot_1 + 8));
    r_ll_2 = (r_e3_5 + 1u);
    r_z6_10 = ((u64)((u64)r_v3 << 35ull) | 0x700000001ull);
    if (!(r_yf_11 == 0u)) goto l_else_kj;
    u64 r_z6_11 = (u64)((u64)r_e3_5 << 3ull);
    st64(away(ldp(r_xm_4), r_z6_11), r_z6_10);
    r_59 = r_z6_11;
    goto l_capnp_9d;
l_else_kj:;
    u64 r_24_5 = (u64)r_yf_11;
    capnp_arena_arena_rows_put_word_in_4426f83c3c99ca57(ldp(away(a_2, 80ull)), (r_24_5 + 0xffffffffffffffffull), r_e3_5, r_z6_10);
    r_59 = ((u64)((u64)r_e3_5 << 3ull) | (u64)(r_24_5 << 32ull));
l_capnp_9d:;
    r_ni = (r_59 | 2ull);
    if (!r_sz_2) goto l_else_6q_9;
    st64(away(ldp(r_xm_4), (u64)((u64)a_4 << 3ull)), r_ni);
    goto l_core_5s;
l_else_6q_9:;
    capnp_arena_arena_rows_put_word_in_4426f83c3c99ca57(ldp(away(a_2, 80ull)), ((u64)a_3 + 0xffffffffffffffffull), a_4, r_ni);
l_core_5s:;
    r_zf = r_ll_2;
    r_21 = r_yf_11;
l_arm_dc:;
    r_c0_6 = (u64)t_c8;
    r_u7_2 = (u64)r_rn;
    r_a7 = (((u64)((u64)r_rp << 48ull) | (u64)(r_u7_2 << 32ull)) | (u64)(r_c0_6 << 2ull));
    if (!(r_21 == 0u)) goto l_else_kj_1;
    st64(away(ldp(r_xm_4), (u64)((u64)r_zf << 3ull)), r_a7);
    goto l_arm_5k;
l_else_kj_1:;
    capnp_arena_arena_rows_put_word_in_4426f83c3c99ca57(ldp(away(a_2, 80ull)), ((u64)r_21 + 0xffffffffffffffffull), r_zf, r_a7);
l_arm_5k:;
    r_ll_3 = (r_zf + 1u);
    r_68_4 = (r_az_1 + r_12);
    if ((u8)((u8)(r_68_3 == 0u) | (u8)(t_c8 == 0u))) { r_5k_1 = 0u; r_qp = 0u; r_7u = 0u; r_pz = 0ull; goto l_join_1g; }
    r_z6_12 = (u64)(r_u7_2 << 3ull);
    r_hi = (r_rn == 0u);
    r_2p_1 = (r_21 == 0u);
    r_u6 = (r_rn < 8u);
    r_vw = (r_rn > 3u);
    r_bh_2 = (r_rn == 1u);
    r_8f_2 = (r_z6_12 + 0xfffffffffffffff0ull);
    r_la_2 = (r_z6_12 + 0xfffffffffffffff8ull);
    r_bh_3 = (r_z6_12 + 0xffffffffffffffe0ull);
    r_hi_1 = (r_rp == 0u);
    r_gw_3 = (u64)(r_9h >> 3ull);
    r_x5_8 = (slot_4 + 8);
    r_zd_6 = (slot_4 + 16);
    r_lk_2 = (slot_4 + 24);
    r_89_2 = (slot_4 + 32);
    r_a8_2 = (slot_4 + 40);
    r_c4_5 = (slot_4 + 48);
    r_6c_2 = (slot_4 + 56);
    r_08_2 = away(a_6, 16ull);
    r_nb_2 = (r_gw_3 & 0xffffffffull);
    r_sg_1 = (r_5k == 1u);
    r_rq_7 = away(a_6, 8ull);
    r_x5_9 = (slot_3 + 8);
    r_k0_4 = (slot_3 + 12);
    r_zd_7 = (slot_3 + 16);
    r_mx = ((r_4w_1 == 0x80000000u) ? 0x80000000u : (r_5k + 0xfffffffeu));
    r_yf_12 = away(a_2, 80ull);
    r_24_6 = (u64)r_21;
    r_0f_10 = (r_24_6 + 0xffffffffffffffffull);
    r_h6_5 = away(a_2, 64ull);
    r_su_1 = away(a_2, 40ull);
    r_r2_1 = away(a_2, 56ull);
    r_x5_10 = (slot_1 + 8);
    r_k0_5 = (slot_1 + 12);
    r_zd_8 = (slot_1 + 16);
    r_ix_2 = (slot_1 + 4);
    r_x5_11 = (slot_2 + 8);
    r_zd_9 = (slot_2 + 16);
    r_lk_3 = (slot_2 + 24);
    r_89_3 = (slot_2 + 32);
    r_a8_3 = (slot_2 + 40);
    r_c4_6 = (slot_2 + 48);
    r_bk_1 = (slot_2 + 52);
    r_6c_3 = (slot_2 + 56);
    r_x5_12 = (slot_1 + 8);
    r_k0_6 = (slot_1 + 12);
    r_zd_10 = (slot_1 + 16);
    t_0c_1 = (r_dh == 0u);
    r_x5_13 = (slot_1 + 8);
    r_k0_7 = (slot_1 + 12);
    r_zd_11 = (slot_1 + 16);
    r_ix_3 = (slot_1 + 4);
    wide_u7 = (u64)r_rp;
    r_24_7 = (u64)r_21;
    t_6c_2 = (slot_2 + 56);
    indvars_ff = 0ull;
    goto l_join_hy;
l_loop_qw_1:;
    u64 indvars_r7_1 = (indvars_ff + 1ull);
    if (indvars_r7_1 == r_c0_6) { r_5k_1 = 0u; r_qp = 0u; r_7u = 0u; r_pz = 0ull; goto l_join_1g; }
    indvars_ff = indvars_r7_1;
l_join_hy:;
    u32 t_nk = (u32)indvars_ff;
    r_w0_5 = ((r_68_4 * t_nk) + r_ll);
    r_w0_6 = (r_ll_3 + (r_68_3 * t_nk));
    r_c0_7 = away(t_f6_1, (u64)((u64)r_w0_5 << 3ull));
    if (r_hi) goto l_capnp_j9;
    if (!r_2p_1) goto l_else_h1_2;
    r_rw = ldp(r_xm_4);
    goto l_capnp_ss;
l_else_h1_2:;
    u8 *r_x5_14 = capnp_arena_arena_rows_Rows_other_mut_4426f83c3c99ca57(r_xm_4, r_21);
    r_rw = r_x5_14;
l_capnp_ss:;
    r_2b_3 = away(r_rw, (u64)((u64)r_w0_6 << 3ull));
    if (!r_u6) goto l_else_r3_2;
    if (!r_vw) goto l_else_l8;
    mv32(r_2b_3, r_c0_7);
    mv32((r_2b_3 + (i64)(r_bh_3)), (r_c0_7 + (i64)(r_bh_3)));
    goto l_capnp_j9;
l_else_l8:;
    if (r_bh_2) goto l_then_1s;
    mv16(r_2b_3, r_c0_7);
    mv16((r_2b_3 + (i64)(r_8f_2)), (r_c0_7 + (i64)(r_8f_2)));
    goto l_capnp_j9;
l_then_1s:;
    mv8(r_2b_3, r_c0_7);
    mv8((r_2b_3 + (i64)(r_la_2)), (r_c0_7 + (i64)(r_la_2)));
    goto l_capnp_j9;
l_else_r3_2:;
    if (((u64)(uptr)r_2b_3 - (u64)(uptr)r_c0_7) < r_z6_12) { r_il_2 = 0ull; goto l_join_fh_2; }
    memmove_or_none(r_2b_3, r_c0_7, r_z6_12);
    goto l_capnp_j9;
l_join_fh_2:;
    st8((r_2b_3 + (i64)(r_il_2)), ld8((r_c0_7 + (i64)(r_il_2))));
    u64 r_c4_7 = (r_il_2 + 1ull);
    if (!(r_c4_7 == r_z6_12)) { r_il_2 = r_c4_7; goto l_join_fh_2; }
l_capnp_j9:;
    r_w0_7 = (r_w0_5 + r_az_1);
    r_w0_8 = (r_w0_6 + r_00);
    if (r_hi_1) goto l_loop_qw_1;
    indvars_vm = 0ull;
    goto l_join_iw;
l_loop_w2:;
    u64 indvars_r7_2 = (indvars_vm + 1ull);
    if (indvars_r7_2 == wide_u7) goto l_loop_qw_1;
    indvars_vm = indvars_r7_2;
l_join_iw:;
    u32 t_nk_1 = (u32)indvars_vm;
    r_sr_1 = (r_w0_8 + t_nk_1);
    r_24_8 = (u64)(r_w0_7 + t_nk_1);
    memset(slot_3, 0u, 24);
    memset(slot_4, 0u, 64);
    if (!(r_gw_3 > r_24_8)) goto l_capnp_v7_1;
    r_qw_6 = ld64(away(t_f6_1, (u64)(r_24_8 << 3ull)));
    if (r_qw_6 == 0ull) goto l_capnp_v7_1;
    switch_f9_1 = (r_qw_6 & 3ull);
    r_ep_4 = (u64)(r_qw_6 >> 32ull);
    if (!((switch_f9_1 == 1ull) ? ((u8)((u8)((u8)r_ep_4 & 7u) + 255u) < 5u) : 0u)) goto l_join_br_1;
    r_ij_2 = (u64)(r_qw_6 >> 35ull);
    r_1q_2 = (ld64(away(away(((u8 *)switch_table_main_18), 8 * (r_ep_4 & 7ull)), 0xfffffffffffffff8ull)) * r_ij_2);
    r_c6_6 = (u64)((r_1q_2 + 63ull) >> 6ull);
    if (!t_0c_1) goto l_join_bd_2;
    st64(r_08_2, uadd_sat64(ld64(r_08_2), 1ull));
l_join_bd_2:;
    u64 r_m6_3 = ((u64)(r_qw_6 >> 2ull) & 0x3fffffffull);
    r_lc_8 = ((r_24_8 + 1ull) + r_m6_3);
    if (!(r_m6_3 < 0x20000000ull)) goto l_else_70_3;
    if (r_lc_8 > r_nb_2) { r_t8_3 = 23u; r_hg_2 = 0u; r_lc_9 = 0ull; goto l_capnp_mp_3; }
    r_gk_1 = r_lc_8;
    goto l_arm_vo_1;
l_else_70_3:;
    u64 r_3o_3 = (r_lc_8 + 0xffffffffc0000000ull);
    if ((r_lc_8 < 0x40000000ull) ? 1u : (r_3o_3 > r_nb_2)) { r_t8_3 = 23u; r_hg_2 = 0u; r_lc_9 = 0ull; goto l_capnp_mp_3; }
    r_gk_1 = r_3o_3;
l_arm_vo_1:;
    if (r_sg_1) { r_t8_3 = 26u; r_hg_2 = 0u; r_lc_9 = 0ull; goto l_capnp_mp_3; }
    if (r_nb_2 < (r_gk_1 + r_c6_6)) { r_t8_3 = 23u; r_hg_2 = 0u; r_lc_9 = 0ull; goto l_capnp_mp_3; }
    if (!t_0c_1) goto l_arm_p5_1;
    if (!(ld8(a_6) == 1u)) goto l_arm_p5_1;
    r_52_13 = ld64(r_rq_7);
    if (r_52_13 < r_c6_6) { r_t8_3 = 30u; r_hg_2 = 0u; r_lc_9 = 0ull; goto l_capnp_mp_3; }
    st64(a_6, 1ull);
    st64(r_rq_7, (r_52_13 - r_c6_6));
l_arm_p5_1:;
    r_z6_13 = (u64)(r_c6_6 << 3ull);
    r_8a_1 = away(t_f6_1, (u64)(r_gk_1 << 3ull));
    r_se_2 = (u64)(((ld64(away(away(((u8 *)switch_table_main_18), 8 * (r_ep_4 & 7ull)), 0xfffffffffffffff8ull)) * r_ij_2) + 63ull) >> 6ull);
    r_12_4 = (u32)r_se_2;
    if (!r_2p_1) goto l_capnp_5b;
    r_yf_13 = ld32(r_h6_5);
    r_52_14 = ld64(r_su_1);
    if ((r_se_2 + (u64)r_yf_13) > (u64)((ld64(r_r2_1) + r_52_14) >> 3ull)) goto l_arm_2h_5;
    r_w0_9 = (r_yf_13 + r_12_4);
    r_z6_14 = (u64)((u64)r_w0_9 << 3ull);
    if (!(r_52_14 < r_z6_14)) goto l_then_rx;
    capnp_messages_messages_copy_memory_CopySegment_zero_up_to(r_xm_4, r_z6_14);
    goto l_then_rx;
l_capnp_5b:;
    r_tu_5 = capnp_arena_arena_rows_allocate_in_4426f83c3c99ca57(ldp(r_yf_12), r_0f_10, r_12_4);
    if (r_tu_5.f0 == 1u) goto l_else_gb;
    goto l_arm_2h_5;
l_then_rx:;
    st32(r_h6_5, r_w0_9);
    st64(away(ldp(r_xm_4), (u64)((u64)r_sr_1 << 3ull)), ((r_qw_6 & 0xffffffff00000001ull) | (u64)(u32)((r_yf_13 + (r_sr_1 ^ 0xffffffffu)) << 2u)));
    r_gs_1 = r_yf_13;
    r_xx_1 = 0u;
    goto l_arm_t1_1;
l_else_gb:;
    u32 r_xo_6 = r_tu_5.f1;
    capnp_arena_arena_rows_put_word_in_4426f83c3c99ca57(ldp(r_yf_12), r_0f_10, r_sr_1, ((r_qw_6 & 0xffffffff00000001ull) | (u64)(u32)((r_xo_6 + (r_sr_1 ^ 0xffffffffu)) << 2u)));
    r_gs_1 = r_xo_6;
    r_xx_1 = r_21;
    goto l_arm_t1_1;
l_arm_2h_5:;
    capnp_arena_arena_builder_arena_impl_BuilderArenaImplB_c2fb55cd(slot_1, a_2, (r_12_4 + 1u));
    if (!(ld8(slot_1) == 0u)) goto l_arm_vh_2;
    r_yf_14 = ld32(r_ix_3);
    r_e3_6 = ld32(r_x5_13);
    r_ll_4 = (r_e3_6 + 1u);
    r_6f = (r_qw_6 & 0xffffffff00000001ull);
    if (!(r_yf_14 == 0u)) goto l_else_eu;
    u64 r_z6_15 = (u64)((u64)r_e3_6 << 3ull);
    st64(away(ldp(r_xm_4), r_z6_15), r_6f);
    r_59_1 = r_z6_15;
    goto l_capnp_9d_1;
l_else_eu:;
    u64 r_24_9 = (u64)r_yf_14;
    capnp_arena_arena_rows_put_word_in_4426f83c3c99ca57(ldp(r_yf_12), (r_24_9 + 0xffffffffffffffffull), r_e3_6, r_6f);
    r_59_1 = ((u64)(r_24_9 << 32ull) | (u64)((u64)r_e3_6 << 3ull));
l_capnp_9d_1:;
    r_ni_1 = (r_59_1 | 2ull);
    if (!r_2p_1) goto l_else_bj;
    st64(away(ldp(r_xm_4), (u64)((u64)r_sr_1 << 3ull)), r_ni_1);
    goto l_core_5s_1;
l_else_bj:;
    capnp_arena_arena_rows_put_word_in_4426f83c3c99ca57(ldp(r_yf_12), r_0f_10, r_sr_1, r_ni_1);
l_core_5s_1:;
    r_gs_1 = r_ll_4;
    r_xx_1 = r_yf_14;
l_arm_t1_1:;
    r_1q_3 = (ld64(away(away(((u8 *)switch_table_main_18), 8 * (r_ep_4 & 7ull)), 0xfffffffffffffff8ull)) * r_ij_2);
    if (r_c6_6 == 0ull) goto l_capnp_pq;
    if (!(r_xx_1 == 0u)) goto l_else_h1_3;
    r_u9 = ldp(r_xm_4);
    goto l_capnp_m1;
l_else_h1_3:;
    u8 *r_x5_15 = capnp_arena_arena_rows_Rows_other_mut_4426f83c3c99ca57(r_xm_4, r_xx_1);
    r_u9 = r_x5_15;
l_capnp_m1:;
    r_2b_4 = away(r_u9, (u64)((u64)r_gs_1 << 3ull));
    if (!(r_1q_2 < 449ull)) goto l_else_r3_3;
    if (!(r_1q_2 > 192ull)) goto l_else_9l;
    mv32(r_2b_4, r_8a_1);
    u64 r_bh_4 = (r_z6_13 + 0xffffffffffffffe0ull);
    mv32((r_2b_4 + (i64)(r_bh_4)), (r_8a_1 + (i64)(r_bh_4)));
    goto l_capnp_pq;
l_else_9l:;
    if (r_c6_6 == 1ull) goto l_then_49_2;
    mv16(r_2b_4, r_8a_1);
    u64 r_8f_3 = (r_z6_13 + 0xfffffffffffffff0ull);
    mv16((r_2b_4 + (i64)(r_8f_3)), (r_8a_1 + (i64)(r_8f_3)));
    goto l_capnp_pq;
l_then_49_2:;
    mv8(r_2b_4, r_8a_1);
    u64 r_la_3 = (r_z6_13 + 0xfffffffffffffff8ull);
    mv8((r_2b_4 + (i64)(r_la_3)), (r_8a_1 + (i64)(r_la_3)));
    goto l_capnp_pq;
l_else_r3_3:;
    if (((u64)(uptr)r_2b_4 - (u64)(uptr)r_8a_1) < r_z6_13) { r_il_3 = 0ull; goto l_join_fh_3; }
    memmove_or_none(r_2b_4, r_8a_1, r_z6_13);
    goto l_capnp_pq;
l_join_fh_3:;
    st8((r_2b_4 + (i64)(r_il_3)), ld8((r_8a_1 + (i64)(r_il_3))));
    u64 r_c4_8 = (r_il_3 + 1ull);
    if (!(r_c4_8 == r_z6_13)) { r_il_3 = r_c4_8; goto l_join_fh_3; }
l_capnp_pq:;
    r_4i_2 = (r_1q_3 & 63ull);
    if (r_4i_2 == 0ull) goto l_capnp_v7_1;
    u64 r_0f_11 = (r_c6_6 + 0xffffffffffffffffull);
    r_w0_10 = (r_gs_1 + (u32)r_0f_11);
    r_a5 = (ld64(away(r_8a_1, (u64)(r_0f_11 << 3ull))) & ((u64)(0xffffffffffffffffull << (r_4i_2 & 63u)) ^ 0xffffffffffffffffull));
    if (!(r_xx_1 == 0u)) goto l_else_eu_1;
    st64(away(ldp(r_xm_4), (u64)((u64)r_w0_10 << 3ull)), r_a5);
    goto l_capnp_v7_1;
l_else_eu_1:;
    capnp_arena_arena_rows_put_word_in_4426f83c3c99ca57(ldp(r_yf_12), ((u64)r_xx_1 + 0xffffffffffffffffull), r_w0_10, r_a5);
    goto l_capnp_v7_1;
l_arm_vh_2:;
    r_t8_3 = ld8(r_x5_13);
    r_hg_2 = ld32(r_k0_7);
    r_lc_9 = ld64(r_zd_11);
    goto l_capnp_mp_3;
l_join_br_1:;
    if (!(switch_f9_1 == 0ull)) goto l_else_4r_1;
    r_y6_3 = (u64)(r_qw_6 >> 48ull);
    r_q7_3 = (r_ep_4 & 65535ull);
    r_lc_10 = (r_q7_3 + r_y6_3);
    if (t_pa) goto l_join_o1_1;
    st64(r_08_2, uadd_sat64(ld64(r_08_2), 1ull));
l_join_o1_1:;
    u64 r_m6_4 = ((u64)(r_qw_6 >> 2ull) & 0x3fffffffull);
    r_lc_11 = ((r_24_8 + 1ull) + r_m6_4);
    if (!(r_m6_4 < 0x20000000ull)) goto l_else_70_4;
    if (r_lc_11 > r_nb_2) { r_t8_4 = 23u; goto l_capnp_mp_4; }
    r_jm_1 = r_lc_11;
    goto l_arm_h8_1;
l_else_70_4:;
    u64 r_3o_4 = (r_lc_11 + 0xffffffffc0000000ull);
    if ((r_lc_11 < 0x40000000ull) ? 1u : (r_3o_4 > r_nb_2)) { r_t8_4 = 23u; goto l_capnp_mp_4; }
    r_jm_1 = r_3o_4;
l_arm_h8_1:;
    r_4r_2 = (u32)r_jm_1;
    if (r_sg_1) { r_t8_4 = 26u; goto l_capnp_mp_4; }
    r_8u_1 = (r_nb_2 < (r_jm_1 + r_lc_10));
    if ((u8)((u8)t_pa | (u8)r_8u_1)) goto l_capnp_li_1;
    if (!(ld8(a_6) == 1u)) { r_5b_1 = r_4r_2; goto l_arm_7a_1; }
    r_52_15 = ld64(r_rq_7);
    if (r_52_15 < r_lc_10) { r_t8_4 = 30u; goto l_capnp_mp_4; }
    st64(a_6, 1ull);
    st64(r_rq_7, (r_52_15 - r_lc_10));
    r_5b_1 = r_4r_2;
    goto l_arm_7a_1;
l_capnp_li_1:;
    if (r_8u_1) { r_t8_4 = 23u; goto l_capnp_mp_4; }
    r_5b_1 = (r_8u_1 ? 0u : r_4r_2);
l_arm_7a_1:;
    if (!t_q5) { r_dl = r_ep_4; r_9n = r_y6_3; goto l_capnp_hv; }
    u64 r_24_10 = (u64)r_5b_1;
    r_lc_12 = (r_q7_3 + r_24_10);
    r_z6_16 = (u64)(r_q7_3 << 3ull);
    r_c0_8 = away(t_f6_1, (u64)(r_24_10 << 3ull));
    if (r_q7_3 < 32ull) { r_nm_9 = r_q7_3; goto l_loop_jc_8; }
    goto l_else_wj_4;
l_loop_jc_8:;
    if (r_nm_9 == 0ull) { r_ev_1 = 0ull; goto l_capnp_fc_1; }
    u64 r_0f_12 = (r_nm_9 + 0xffffffffffffffffull);
    if (ld64(away(r_c0_8, (u64)(r_0f_12 << 3ull))) == 0ull) { r_nm_9 = r_0f_12; goto l_loop_jc_8; }
    r_ev_1 = r_nm_9;
    goto l_capnp_fc_1;
l_else_wj_4:;
    if (!(ld64(away(away(r_c0_8, r_z6_16), 0xfffffffffffffff8ull)) == 0ull)) { r_ev_1 = r_q7_3; goto l_capnp_fc_1; }
    u64 r_qz_4 = capnp_words_lanes_used_words_bound(r_c0_8, r_z6_16);
    r_nm_10 = r_qz_4;
l_loop_jc_9:;
    if (r_nm_10 == 0ull) { r_ev_1 = 0ull; goto l_capnp_fc_1; }
    u64 r_0f_13 = (r_nm_10 + 0xffffffffffffffffull);
    if (ld64(away(r_c0_8, (u64)(r_0f_13 << 3ull))) == 0ull) { r_nm_10 = r_0f_13; goto l_loop_jc_9; }
    r_ev_1 = r_nm_10;
l_capnp_fc_1:;
    r_z6_17 = (u64)(r_y6_3 << 3ull);
    r_c0_9 = away(t_f6_1, (u64)(r_lc_12 << 3ull));
    if (r_qw_6 < 0x20000000000000ull) { r_nm_11 = r_y6_3; goto l_loop_jc_10; }
    goto l_else_wj_5;
l_loop_jc_10:;
    if (r_nm_11 == 0ull) { r_dl = r_ev_1; r_9n = 0ull; goto l_capnp_hv; }
    u64 r_0f_14 = (r_nm_11 + 0xffffffffffffffffull);
    if (ld64(away(r_c0_9, (u64)(r_0f_14 << 3ull))) == 0ull) { r_nm_11 = r_0f_14; goto l_loop_jc_10; }
    r_dl = r_ev_1;
    r_9n = r_nm_11;
    goto l_capnp_hv;
l_else_wj_5:;
    if (!(ld64(away(away(r_c0_9, r_z6_17), 0xfffffffffffffff8ull)) == 0ull)) { r_dl = r_ev_1; r_9n = r_y6_3; goto l_capnp_hv; }
    u64 r_qz_5 = capnp_words_lanes_used_words_bound(r_c0_9, r_z6_17);
    r_nm_12 = r_qz_5;
l_loop_jc_11:;
    if (r_nm_12 == 0ull) { r_dl = r_ev_1; r_9n = 0ull; goto l_capnp_hv; }
    u64 r_0f_15 = (r_nm_12 + 0xffffffffffffffffull);
    if (ld64(away(r_c0_9, (u64)(r_0f_15 << 3ull))) == 0ull) { r_nm_12 = r_0f_15; goto l_loop_jc_11; }
    r_dl = r_ev_1;
    r_9n = r_nm_12;
l_capnp_hv:;
    r_xg_3 = (u16)r_dl;
    r_29_1 = ((u32)r_dl & 65535u);
    r_az_4 = ((u32)r_9n & 65535u);
    r_68_5 = (r_az_4 + r_29_1);
    if (!(r_68_5 == 0u)) goto l_join_lx;
    if (!r_2p_1) goto l_else_n6;
    u64 r_24_11 = (u64)r_sr_1;
    st64(away(ldp(r_xm_4), (u64)(r_24_11 << 3ull)), 0xfffffffcull);
    r_ro_1 = r_24_11;
    goto l_capnp_sg_1;
l_else_n6:;
    capnp_arena_arena_rows_put_word_in_4426f83c3c99ca57(ldp(r_yf_12), r_0f_10, r_sr_1, 0xfffffffcull);
    r_ro_1 = (u64)r_sr_1;
l_capnp_sg_1:;
    r_nu_1 = ((u64)(r_ro_1 << 32ull) | r_24_6);
    goto l_arm_zo_1;
l_join_lx:;
    if (!r_2p_1) goto l_else_xr_1;
    r_yf_15 = ld32(r_h6_5);
    r_52_16 = ld64(r_su_1);
    if (((u64)r_yf_15 + (u64)r_68_5) > (u64)((ld64(r_r2_1) + r_52_16) >> 3ull)) { r_kw_5 = 0u; r_re_5 = 0u; goto l_join_ax_5; }
    r_w0_11 = (r_yf_15 + r_68_5);
    r_z6_18 = (u64)((u64)r_w0_11 << 3ull);
    if (!(r_52_16 < r_z6_18)) goto l_capnp_9l_6;
    capnp_messages_messages_copy_memory_CopySegment_zero_up_to(r_xm_4, r_z6_18);
l_capnp_9l_6:;
    st32(r_h6_5, r_w0_11);
    r_kw_5 = 1u;
    r_re_5 = r_yf_15;
l_join_ax_5:;
    struct s_i8_i32 t_9l_5 = (struct s_i8_i32){ 0 };
    t_9l_5.f0 = r_kw_5;
    struct s_i8_i32 t_3s_5 = t_9l_5;
    t_3s_5.f1 = r_re_5;
    r_jz_4 = t_3s_5;
    goto l_capnp_c2_4;
l_else_xr_1:;
    struct s_i8_i32 r_tu_6 = capnp_arena_arena_rows_allocate_in_4426f83c3c99ca57(ldp(r_yf_12), r_0f_10, r_68_5);
    r_jz_4 = r_tu_6;
l_capnp_c2_4:;
    if (!(r_jz_4.f0 == 1u)) goto l_arm_2h_6;
    r_xo_7 = r_jz_4.f1;
    r_a7_1 = ((((u64)(r_dl << 32ull) & 0xffff00000000ull) | (u64)(r_9n << 48ull)) | (u64)(u32)((r_xo_7 + (r_sr_1 ^ 0xffffffffu)) << 2u));
    if (!r_2p_1) goto l_else_6u;
    st64(away(ldp(r_xm_4), (u64)((u64)r_sr_1 << 3ull)), r_a7_1);
    goto l_capnp_qg;
l_else_6u:;
    capnp_arena_arena_rows_put_word_in_4426f83c3c99ca57(ldp(r_yf_12), r_0f_10, r_sr_1, r_a7_1);
    goto l_capnp_qg;
l_arm_2h_6:;
    capnp_arena_arena_builder_arena_impl_BuilderArenaImplB_c2fb55cd(slot_1, a_2, (r_68_5 + 1u));
    if (!(ld8(slot_1) == 0u)) goto l_arm_vh_3;
    u32 r_yf_16 = ld32(r_ix_2);
    u32 r_e3_7 = ld32(r_x5_10);
    capnp_arena_arena_builder_arena_impl_BuilderArenaImplB_5cfff9e5(a_2, r_yf_16, r_e3_7, (((u64)(r_dl << 32ull) & 0xffff00000000ull) | (u64)(r_9n << 48ull)));
    capnp_arena_arena_builder_arena_impl_BuilderArenaImplB_5cfff9e5(a_2, r_21, r_sr_1, (((u64)((u64)r_yf_16 << 32ull) | (u64)((u64)r_e3_7 << 3ull)) | 2ull));
    r_nu_1 = ((u64)((u64)(r_e3_7 + 1u) << 32ull) | (u64)r_yf_16);
    goto l_arm_zo_1;
l_capnp_qg:;
    r_nu_1 = ((u64)((u64)r_xo_7 << 32ull) | r_24_7);
l_arm_zo_1:;
    r_wt_1 = (u32)r_nu_1;
    r_ep_5 = (u64)(r_nu_1 >> 32ull);
    r_4r_3 = (u32)r_ep_5;
    r_0l_1 = ((u64)(r_dl << 3ull) & 0x7fff8ull);
    r_c0_10 = away(t_f6_1, (u64)((u64)r_5b_1 << 3ull));
    if (r_xg_3 == 0u) goto l_capnp_5c;
    if (!(r_wt_1 == 0u)) goto l_else_h1_4;
    r_al_1 = ldp(r_xm_4);
    goto l_capnp_kr_1;
l_else_h1_4:;
    u8 *r_x5_16 = capnp_arena_arena_rows_Rows_other_mut_4426f83c3c99ca57(r_xm_4, r_wt_1);
    r_al_1 = r_x5_16;
l_capnp_kr_1:;
    r_2b_5 = away(r_al_1, (u64)(r_ep_5 << 3ull));
    if (!(r_xg_3 < 8u)) goto l_else_r3_4;
    if (!(r_xg_3 > 3u)) goto l_else_1o_1;
    mv32(r_2b_5, r_c0_10);
    u64 r_bh_5 = (r_0l_1 + 0xffffffffffffffe0ull);
    mv32((r_2b_5 + (i64)(r_bh_5)), (r_c0_10 + (i64)(r_bh_5)));
    goto l_capnp_5c;
l_else_1o_1:;
    if (r_xg_3 == 1u) goto l_then_49_3;
    mv16(r_2b_5, r_c0_10);
    u64 r_8f_4 = (r_0l_1 + 0xfffffffffffffff0ull);
    mv16((r_2b_5 + (i64)(r_8f_4)), (r_c0_10 + (i64)(r_8f_4)));
    goto l_capnp_5c;
l_then_49_3:;
    mv8(r_2b_5, r_c0_10);
    u64 r_la_4 = (r_0l_1 + 0xfffffffffffffff8ull);
    mv8((r_2b_5 + (i64)(r_la_4)), (r_c0_10 + (i64)(r_la_4)));
    goto l_capnp_5c;
l_else_r3_4:;
    if (((u64)(uptr)r_2b_5 - (u64)(uptr)r_c0_10) < r_0l_1) { r_il_4 = 0ull; goto l_join_fh_4; }
    memmove_or_none(r_2b_5, r_c0_10, r_0l_1);
    goto l_capnp_5c;
l_join_fh_4:;
    st8((r_2b_5 + (i64)(r_il_4)), ld8((r_c0_10 + (i64)(r_il_4))));
    u64 r_c4_9 = (r_il_4 + 1ull);
    if (!(r_c4_9 == r_0l_1)) { r_il_4 = r_c4_9; goto l_join_fh_4; }
l_capnp_5c:;
    memset(slot_1, 0u, 24);
    st64(t_6c_2, 0ull);
    if (r_az_4 == 0u) { r_2b_6 = 0u; r_qh_1 = 0u; r_ip_1 = 0u; r_wq_1 = 0ull; goto l_capnp_no_1; }
    st64(slot_2, r_eg);
    stp(r_x5_11, r_rv);
    st64(r_zd_9, r_qw);
    st64(r_lk_3, r_qd);
    stp(r_89_3, t_f6_1);
    st64(r_a8_3, r_9h);
    st32(r_c4_6, (r_5b_1 + ((u32)r_ep_4 & 65535u)));
    st32(r_bk_1, 0u);
    st32(r_6c_3, r_mx);
    capnp_copies_copy_children_copy_children_out_of_line_7_ae79832a(slot_1, a_2, r_wt_1, (r_29_1 + r_4r_3), slot_2, r_az_4, a_6, a_7);
    r_2b_6 = ld8(slot_1);
    r_qh_1 = ld8(r_x5_12);
    r_ip_1 = ld32(r_k0_6);
    r_wq_1 = ld64(r_zd_10);
l_capnp_no_1:;
    t_pz_1 = r_wq_1;
    t_fy_1 = r_ip_1;
    r_1l_1 = r_qh_1;
    t_ry_1 = r_2b_6;
    goto l_capnp_rz_1;
l_arm_vh_3:;
    t_pz_1 = ld64(r_zd_8);
    t_fy_1 = ld32(r_k0_5);
    r_1l_1 = ld8(r_x5_10);
    t_ry_1 = 1u;
    goto l_capnp_rz_1;
l_capnp_mp_4:;
    r_5k_1 = 1u;
    r_qp = r_t8_4;
    r_7u = 0u;
    r_pz = 0ull;
    goto l_join_1g;
l_else_4r_1:;
    st64(slot_4, r_eg);
    stp(r_x5_8, r_rv);
    st64(r_zd_6, r_qw);
    st64(r_lk_2, r_qd);
    stp(r_89_2, t_f6_1);
    st64(r_a8_2, r_9h);
    st64(r_c4_5, r_24_8);
    st32(r_6c_2, r_4w_1);
    capnp_copies_copy_copy_object_789b5ce0078f2be2(slot_3, a_2, r_21, r_sr_1, slot_4, a_6, a_7);
    t_pz_1 = ld64(r_zd_7);
    t_fy_1 = ld32(r_k0_4);
    r_1l_1 = ld8(r_x5_9);
    t_ry_1 = ld8(slot_3);
    goto l_capnp_rz_1;
l_capnp_v7_1:;
    goto l_loop_w2;
l_capnp_mp_3:;
    r_5k_1 = 1u;
    r_qp = r_t8_3;
    r_7u = r_hg_2;
    r_pz = r_lc_9;
    goto l_join_1g;
l_capnp_rz_1:;
    if (t_ry_1 == 0u) goto l_loop_w2;
    r_5k_1 = 1u;
    r_qp = r_1l_1;
    r_7u = t_fy_1;
    r_pz = t_pz_1;
    goto l_join_1g;
l_arm_x3_3:;
    r_5k_1 = 1u;
    r_qp = ld8((slot_1 + 8));
    r_7u = ld32((slot_1 + 12));
    r_pz = ld64((slot_1 + 16));
l_join_1g:;
    r_10 = r_5k_1;
    r_kb = (u32)r_qp;
    r_n4 = r_7u;
    r_yp = r_pz;
    goto l_common_9c;
}

/* capnp_arena::arena::builder_arena_impl::BuilderArenaImplBuilderArena::put_word::<#2176d171b07bb354> */
static void capnp_arena_arena_builder_arena_impl_BuilderArenaImplB_5cfff9e5(u8 *a_1, u32 a_2, u32 a_3, u64 a_4)
{
    if (!(a_2 == 0u)) goto l_else_6q;
    st64(away(ldp(away(a_1, 32ull)), (u64)((u64)a_3 << 3ull)), a_4);
    goto l_capnp_68;
l_else_6q:;
    capnp_arena_arena_rows_put_word_in_4426f83c3c99ca57(ldp(away(a_1, 80ull)), ((u64)a_2 + 0xffffffffffffffffull), a_3, a_4);
l_capnp_68:;
    return;
}

/* capnp_arena::arena::rows::put_word_in::<#4426f83c3c99ca57> */
static NEVER COLD void capnp_arena_arena_rows_put_word_in_4426f83c3c99ca57(u8 *a_1, u64 a_2, u32 a_3, u64 a_4)
{
    st64(away(ldp(away(a_1, (a_2 * 40ull))), (u64)((u64)a_3 << 3ull)), a_4);
    return;
}

/* capnp_arena::arena::builder_arena_impl::BuilderArenaImplBuilderArena::allocate::<#2176d171b07bb354> */
static struct s_i8_i32 capnp_arena_arena_builder_arena_impl_BuilderArenaImplB_7a3e4931(u8 *a_1, u32 a_2, u32 a_3)
{
    u8 *r_xm;
    u8 *r_h6;
    u32 r_yf;
    u64 r_52;
    u32 r_kq;
    u64 r_z6;
    u8 r_kw;
    u32 r_re;
    struct s_i8_i32 r_hc;
    r_xm = away(a_1, 32ull);
    if (!(a_2 == 0u)) goto l_else_6q;
    r_h6 = away(a_1, 64ull);
    r_yf = ld32(r_h6);
    r_52 = ld64(away(a_1, 40ull));
    if (((u64)r_yf + (u64)a_3) > (u64)((ld64(away(a_1, 56ull)) + r_52) >> 3ull)) { r_kw = 0u; r_re = 0u; goto l_join_ax; }
    r_kq = (r_yf + a_3);
    r_z6 = (u64)((u64)r_kq << 3ull);
    if (!(r_52 < r_z6)) goto l_capnp_9l;
    capnp_messages_messages_copy_memory_CopySegment_zero_up_to(r_xm, r_z6);
l_capnp_9l:;
    st32(r_h6, r_kq);
    r_kw = 1u;
    r_re = r_yf;
l_join_ax:;
    struct s_i8_i32 t_9l = (struct s_i8_i32){ 0 };
    t_9l.f0 = r_kw;
    struct s_i8_i32 t_3s = t_9l;
    t_3s.f1 = r_re;
    r_hc = t_3s;
    goto l_capnp_fn;
l_else_6q:;
    struct s_i8_i32 r_yo = capnp_arena_arena_rows_allocate_in_4426f83c3c99ca57(ldp(away(a_1, 80ull)), ((u64)a_2 + 0xffffffffffffffffull), a_3);
    r_hc = r_yo;
l_capnp_fn:;
    return r_hc;
}

/* capnp_arena::arena::builder_arena_impl::BuilderArenaImplBuilderArena::allocate_anywhere::<#2176d171b07bb354> */
static void capnp_arena_arena_builder_arena_impl_BuilderArenaImplB_c2fb55cd(u8 *a_1, u8 *a_2, u32 a_3)
{
    u8 *r_2g;
    u8 *r_h6;
    u8 *r_su;
    u8 *r_yf_1;
    u32 r_ll;
    u64 r_q9;
    u32 r_zh;
    u32 r_kq;
    u64 r_z6;
    u64 sink_zz;
    u64 sink_4j;
    u64 sink_vm;
    u64 r_oh;
    u32 r_yv;
    r_2g = away(a_2, 72ull);
    if (!(u8)(ld8(r_2g) & 1)) goto l_join_el;
    r_h6 = away(a_2, 64ull);
    u32 r_yf = ld32(r_h6);
    r_su = away(a_2, 40ull);
    u64 r_52 = ld64(r_su);
    if (!(((u64)r_yf + (u64)a_3) > (u64)((ld64(away(a_2, 56ull)) + r_52) >> 3ull))) { r_q9 = r_52; r_zh = r_yf; goto l_then_ma; }
    r_yf_1 = away(a_2, 80ull);
    struct s_i8_i32 r_of = capnp_arena_arena_bounds_first_fit_by_bounds_4426f83c3c99ca57(ldp(r_yf_1), ld64(away(a_2, 88ull)), a_3);
    r_ll = (r_of.f1 + 1u);
    if (!(r_of.f0 == 1u)) goto l_arm_90;
    if (!(r_ll == 0u)) goto l_else_6v;
    r_q9 = ld64(r_su);
    r_zh = ld32(r_h6);
l_then_ma:;
    r_kq = (r_zh + a_3);
    r_z6 = (u64)((u64)r_kq << 3ull);
    if (!(r_q9 < r_z6)) goto l_capnp_9l;
    capnp_messages_messages_copy_memory_CopySegment_zero_up_to(away(a_2, 32ull), r_z6);
l_capnp_9l:;
    st32(r_h6, r_kq);
    r_oh = 0ull;
    r_yv = r_zh;
    goto l_join_iz;
l_else_6v:;
    u32 r_97 = capnp_arena_arena_rows_allocate_fitting_in_4426f83c3c99ca57(ldp(r_yf_1), ((u64)r_ll + 0xffffffffffffffffull), a_3);
    r_oh = (u64)r_ll;
    r_yv = r_97;
    goto l_join_iz;
l_arm_90:;
    if (!(u8)(ld8(r_2g) & 1)) goto l_join_el;
    if ((ld64(away(a_2, 88ull)) + 0xffffffff00000002ull) < 0xffffffff00000001ull) { sink_4j = 0x1b00000000ull; sink_vm = 0xffffffffffffffffull; goto l_arm_bx; }
l_join_el:;
    if (!(a_3 > 0x1fffffffu)) goto l_join_fz;
    sink_4j = 0x1b00000000ull;
    sink_vm = (u64)a_3;
    goto l_arm_bx;
l_join_fz:;
    st64(a_2, uadd_sat64(ld64(a_2), 1ull));
    sink_4j = 0ull;
    sink_vm = 0ull;
    goto l_arm_bx;
l_common_8p:;
    st32(away(a_1, 12ull), 0u);
    st64(away(a_1, 16ull), sink_zz);
    return;
l_arm_bx:;
    st32(a_1, 1u);
    st64(away(a_1, 4ull), sink_4j);
    sink_zz = sink_vm;
    goto l_common_8p;
l_join_iz:;
    st32(a_1, 0u);
    st64(away(a_1, 4ull), ((u64)((u64)r_yv << 32ull) | r_oh));
    sink_zz = 0ull;
    goto l_common_8p;
}

/* capnp_arena::arena::bounds::first_fit_by_bounds::<#4426f83c3c99ca57> */
static NEVER struct s_i8_i32 capnp_arena_arena_bounds_first_fit_by_bounds_4426f83c3c99ca57(u8 *a_1, u64 a_2, u32 a_3)
{
    u8 r_0f;
    u64 r_7l;
    u64 r_z3;
    u64 r_0b;
    u64 r_yl;
    u64 r_3m;
    u64 r_z6;
    u64 r_fs;
    u64 r_dt;
    u64 r_zv;
    u64 r_oc;
    u8 r_r3;
    u8 *r_8z;
    u32 r_yf;
    u64 r_gw;
    u32 r_da;
    u64 r_36;
    u32 r_g2;
    u64 r_2b;
    u64 r_j8;
    u64 r_0o;
    u32 r_cm;
    u32 r_er;
    r_0f = (a_2 != 0ull);
    r_7l = (u64)a_3;
    r_z3 = 0ull;
l_loop_s3:;
    if ((u8)((u8)r_0f & (u8)((r_z3 & 1ull) == 0ull))) { r_0b = r_z3; r_yl = 1ull; goto l_join_rv; }
    r_oc = r_z3;
    goto l_capnp_ph;
l_loop_jc:;
    if (r_3m == 0ull) { r_oc = r_z3; goto l_capnp_ph; }
    r_z6 = r_3m;
    r_fs = r_z3;
    goto l_join_a3;
l_join_rv:;
    r_3m = (u64)(r_yl << 1ull);
    if ((r_3m <= a_2) ? ((r_0b & 2ull) == 0ull) : 0u) { u64 r_1 = (u64)(r_0b >> 1ull); u64 r_2 = r_3m; r_0b = r_1; r_yl = r_2; goto l_join_rv; }
    goto l_loop_jc;
l_join_a3:;
    r_dt = (u64)(r_z6 >> 1ull);
    if (r_dt > (a_2 - r_fs)) { r_zv = r_fs; goto l_after_g3; }
    u64 r_5q = (r_dt + r_fs);
    r_zv = ((ld32(away(away(a_1, (r_5q * 40ull)), 0xfffffffffffffffcull)) < a_3) ? r_5q : r_fs);
l_after_g3:;
    if (r_z6 > 3ull) { r_z6 = r_dt; r_fs = r_zv; goto l_join_a3; }
    r_oc = r_zv;
l_capnp_ph:;
    r_r3 = (r_oc < a_2);
    if (!r_r3) { r_er = 0u; goto l_return_qi; }
    r_8z = away(a_1, (r_oc * 40ull));
    r_yf = ld32(away(r_8z, 32ull));
    r_gw = (u64)((ld64(away(r_8z, 24ull)) + ld64(away(r_8z, 8ull))) >> 3ull);
    if (((u64)r_yf + r_7l) > r_gw) goto l_join_qt;
    r_er = (u32)r_oc;
    goto l_return_qi;
l_join_qt:;
    r_da = ((u32)r_gw - r_yf);
    if (!((r_oc & 1ull) == 0ull)) goto l_join_f2;
    r_0o = (r_oc | 1ull);
    r_cm = r_da;
    goto l_capnp_jz;
l_join_f2:;
    r_36 = (r_oc + 1ull);
    r_g2 = r_da;
    r_2b = r_36;
    r_j8 = 1ull;
l_join_jy:;
    u32 a_xy = umax32(ld32(away((a_1 + (i64)(((r_oc - r_j8) * 40ull))), 36ull)), r_g2);
    if ((r_2b & 2ull) == 0ull) { u32 r_3 = a_xy; u64 r_4 = (u64)(r_2b >> 1ull); u64 r_5 = (u64)(r_j8 << 1ull); r_g2 = r_3; r_2b = r_4; r_j8 = r_5; goto l_join_jy; }
    r_0o = r_36;
    r_cm = a_xy;
l_capnp_jz:;
    st32(away(r_8z, 36ull), r_cm);
    r_z3 = r_0o;
    goto l_loop_s3;
l_return_qi:;
    struct s_i8_i32 r_u3 = (struct s_i8_i32){ 0 };
    r_u3.f0 = (u8)r_r3;
    struct s_i8_i32 r_i6 = r_u3;
    r_i6.f1 = r_er;
    return r_i6;
}

/* capnp_arena_traits::arena::writing::copy_words::<#5460ad12cd8c5480> */
static void capnp_arena_traits_arena_writing_copy_words_5460ad12cd8c5480(u8 *a_1, u32 a_2, u32 a_3, u8 *a_4, u64 a_5)
{
    u8 *r_xm;
    u8 *r_9t;
    u8 *r_2b;
    u64 r_4p;
    u64 r_31;
    if (a_5 == 0ull) goto l_join_68;
    r_xm = away(a_1, 32ull);
    if (!(a_2 == 0u)) goto l_else_al;
    r_9t = ldp(r_xm);
    goto l_capnp_iq;
l_else_al:;
    u8 *r_ph = capnp_arena_arena_rows_Rows_other_mut_4426f83c3c99ca57(r_xm, a_2);
    r_9t = r_ph;
l_capnp_iq:;
    r_2b = away(r_9t, (u64)((u64)a_3 << 3ull));
    if (!(a_5 < 64ull)) goto l_else_5e;
    if (!(a_5 > 31ull)) goto l_else_5w;
    mv32(r_2b, a_4);
    u64 r_l6 = (a_5 + 0xffffffffffffffe0ull);
    mv32((r_2b + (i64)(r_l6)), (a_4 + (i64)(r_l6)));
    goto l_join_68;
l_else_5w:;
    if (!(a_5 > 15ull)) goto l_else_t1;
    mv16(r_2b, a_4);
    u64 r_8y = (a_5 + 0xfffffffffffffff0ull);
    mv16((r_2b + (i64)(r_8y)), (a_4 + (i64)(r_8y)));
    goto l_join_68;
l_else_t1:;
    if (!(a_5 > 7ull)) { r_4p = 0ull; goto l_join_5n; }
    mv8(r_2b, a_4);
    u64 r_t8 = (a_5 + 0xfffffffffffffff8ull);
    mv8((r_2b + (i64)(r_t8)), (a_4 + (i64)(r_t8)));
    goto l_join_68;
l_join_5n:;
    st8((r_2b + (i64)(r_4p)), ld8((a_4 + (i64)(r_4p))));
    u64 r_c4 = (r_4p + 1ull);
    if (r_c4 == a_5) goto l_join_68;
    r_4p = r_c4;
    goto l_join_5n;
l_else_5e:;
    if (((u64)(uptr)r_2b - (u64)(uptr)a_4) < a_5) { r_31 = 0ull; goto l_join_sz; }
    memmove_or_none(r_2b, a_4, a_5);
    goto l_join_68;
l_join_sz:;
    st8((r_2b + (i64)(r_31)), ld8((a_4 + (i64)(r_31))));
    u64 r_c4_1 = (r_31 + 1ull);
    if (!(r_c4_1 == a_5)) { r_31 = r_c4_1; goto l_join_sz; }
l_join_68:;
    return;
}

/* capnp_arena::arena::rows::Rows::other_mut::<#4426f83c3c99ca57> */
static NEVER COLD u8 *capnp_arena_arena_rows_Rows_other_mut_4426f83c3c99ca57(u8 *a_1, u32 a_2)
{
    return ldp(away(away(ldp(away(a_1, 48ull)), ((u64)a_2 * 40ull)), 0xffffffffffffffd8ull));
}

/* capnp_words::words::used_words_in */
static u64 capnp_words_words_used_words_in(u8 *a_1, u64 a_2, u64 a_3)
{
    u64 r_v8;
    u8 *r_8z;
    u64 r_nm;
    u64 r_nm_1;
    u64 r_z1;
    r_v8 = (u64)(a_3 << 3ull);
    r_8z = away(a_1, (u64)(a_2 << 3ull));
    if (a_3 < 32ull) { r_nm = a_3; goto l_loop_jc; }
    goto l_else_wj;
l_loop_jc:;
    if (r_nm == 0ull) { r_z1 = 0ull; goto l_capnp_91; }
    u64 r_0f = (r_nm + 0xffffffffffffffffull);
    if (ld64(away(r_8z, (u64)(r_0f << 3ull))) == 0ull) { r_nm = r_0f; goto l_loop_jc; }
    r_z1 = r_nm;
    goto l_capnp_91;
l_else_wj:;
    if (!(ld64(away(away(r_8z, r_v8), 0xfffffffffffffff8ull)) == 0ull)) { r_z1 = a_3; goto l_capnp_91; }
    u64 r_qz = capnp_words_lanes_used_words_bound(r_8z, r_v8);
    r_nm_1 = r_qz;
l_loop_jc_1:;
    if (r_nm_1 == 0ull) { r_z1 = 0ull; goto l_capnp_91; }
    u64 r_0f_1 = (r_nm_1 + 0xffffffffffffffffull);
    if (ld64(away(r_8z, (u64)(r_0f_1 << 3ull))) == 0ull) { r_nm_1 = r_0f_1; goto l_loop_jc_1; }
    r_z1 = r_nm_1;
l_capnp_91:;
    return r_z1;
}

/* capnp_words::lanes::used_words_bound */
static NEVER u64 capnp_words_lanes_used_words_bound(u8 *a_1, u64 a_2)
{
    u64 t_rn;
    u64 r_ur;
    u64 r_z1;
    u64 r_k8 = (u64)(a_2 >> 3ull);
    t_rn = (r_k8 - ((u64)(a_2 >> 3ull) & 0xfffffff8ull));
    r_ur = r_k8;
l_loop_0k:;
    if (!(r_ur > 7ull)) { r_z1 = t_rn; goto l_common_91; }
    u64 r_la = (r_ur + 0xfffffffffffffff8ull);
    if (any64(ldv64((a_1 + (i64)((u64)(r_la << 3ull))))) == 0u) { r_ur = r_la; goto l_loop_0k; }
    r_z1 = r_ur;
l_common_91:;
    return r_z1;
}

/* capnp_copies::copy::elements::put_words::<#5460ad12cd8c5480> */
static void capnp_copies_copy_elements_put_words_5460ad12cd8c5480(u8 *a_1, u32 a_2, u32 a_3, u8 *a_4, u64 a_5)
{
    u8 *r_xm;
    u8 *r_9t;
    u8 *r_2b;
    u64 r_31;
    if (!(a_5 < 8ull)) goto l_then_3p;
l_common_68:;
    return;
l_then_3p:;
    r_xm = away(a_1, 32ull);
    if (!(a_2 == 0u)) goto l_else_al;
    r_9t = ldp(r_xm);
    goto l_capnp_iq;
l_else_al:;
    u8 *r_ph = capnp_arena_arena_rows_Rows_other_mut_4426f83c3c99ca57(r_xm, a_2);
    r_9t = r_ph;
l_capnp_iq:;
    r_2b = away(r_9t, (u64)((u64)a_3 << 3ull));
    if (!(a_5 < 64ull)) goto l_else_5e;
    if (!(a_5 > 31ull)) goto l_else_o9;
    mv32(r_2b, a_4);
    u64 r_l6 = (a_5 + 0xffffffffffffffe0ull);
    mv32((r_2b + (i64)(r_l6)), (a_4 + (i64)(r_l6)));
    goto l_common_68;
l_else_o9:;
    if (!(a_5 > 15ull)) goto l_then_b7;
    mv16(r_2b, a_4);
    u64 r_8y = (a_5 + 0xfffffffffffffff0ull);
    mv16((r_2b + (i64)(r_8y)), (a_4 + (i64)(r_8y)));
    goto l_common_68;
l_then_b7:;
    mv8(r_2b, a_4);
    u64 r_t8 = (a_5 + 0xfffffffffffffff8ull);
    mv8((r_2b + (i64)(r_t8)), (a_4 + (i64)(r_t8)));
    goto l_common_68;
l_else_5e:;
    if (((u64)(uptr)r_2b - (u64)(uptr)a_4) < a_5) { r_31 = 0ull; goto l_join_sz; }
    memmove_or_none(r_2b, a_4, a_5);
    goto l_common_68;
l_join_sz:;
    st8((r_2b + (i64)(r_31)), ld8((a_4 + (i64)(r_31))));
    u64 r_c4 = (r_31 + 1ull);
    if (r_c4 == a_5) goto l_common_68;
    r_31 = r_c4;
    goto l_join_sz;
}

/* capnp_arena::arena::rows::word_in::<#4426f83c3c99ca57> */
static NEVER COLD u64 capnp_arena_arena_rows_word_in_4426f83c3c99ca57(u8 *a_1, u64 a_2, u32 a_3)
{
    return ld64(away(ldp(away(a_1, (a_2 * 40ull))), (u64)((u64)a_3 << 3ull)));
}

/* capnp_allocation::landing::follow::<#5460ad12cd8c5480> */
static NEVER COLD void capnp_allocation_landing_follow_5460ad12cd8c5480(u8 *a_1, u8 *a_2, u32 a_3, u32 a_4)
{
    A(8) u8 slot_1[32];
    A(8) u8 slot_2[24];
    u8 *r_xm;
    u8 r_sz;
    u64 r_0f;
    u8 *r_9a;
    u8 *r_po;
    u64 r_qw;
    u64 r_2n;
    u64 r_0f_1;
    u8 *r_li;
    u64 r_m5;
    u64 r_lc;
    u64 r_iy;
    u8 r_4p;
    u64 r_b4;
    u32 r_8c;
    u32 r_kb;
    u8 r_ud;
    r_xm = away(a_2, 32ull);
    r_sz = (a_3 == 0u);
    if (r_sz) goto l_join_c3;
    r_0f = ((u64)a_3 + 0xffffffffffffffffull);
    if (!(r_0f < ld64(away(a_2, 88ull)))) goto l_capnp_ao;
    u8 *r_2b = away(ldp(away(a_2, 80ull)), (r_0f * 40ull));
    r_9a = away(r_2b, 32ull);
    r_po = r_2b;
    goto l_arm_ob;
l_join_c3:;
    if (!(u8)(ld8(away(a_2, 72ull)) & 1)) goto l_capnp_ao;
    r_9a = away(a_2, 64ull);
    r_po = r_xm;
l_arm_ob:;
    if (ld32(r_9a) > a_4) goto l_capnp_6l;
l_capnp_ao:;
    r_2n = 0ull;
    goto l_else_y9;
l_capnp_6l:;
    r_qw = ld64(away(ldp(r_po), (u64)((u64)a_4 << 3ull)));
    memset(slot_1, 0u, 32);
    if (!((r_qw & 3ull) == 2ull)) { r_2n = r_qw; goto l_else_y9; }
    capnp_allocation_landing_follow_far_5460ad12cd8c5480(slot_1, a_2, r_qw);
    r_ud = ld8(slot_1);
    goto l_capnp_ty;
l_else_y9:;
    if (r_sz) goto l_join_c3_1;
    r_0f_1 = ((u64)a_3 + 0xffffffffffffffffull);
    if (!(r_0f_1 < ld64(away(a_2, 88ull)))) { r_m5 = 0ull; goto l_capnp_p5; }
    r_li = away(away(ldp(away(a_2, 80ull)), (r_0f_1 * 40ull)), 32ull);
    goto l_arm_ef;
l_join_c3_1:;
    if (!(u8)(ld8(away(a_2, 72ull)) & 1)) { r_m5 = 0ull; goto l_capnp_p5; }
    r_li = away(a_2, 64ull);
l_arm_ef:;
    r_m5 = (u64)ld32(r_li);
l_capnp_p5:;
    u64 r_m6 = ((u64)(r_2n >> 2ull) & 0x3fffffffull);
    r_lc = (((u64)a_4 + 1ull) + r_m6);
    if (!(r_m6 < 0x20000000ull)) goto l_else_70;
    if (r_lc > r_m5) { r_4p = 0u; r_b4 = 0ull; r_8c = 0u; r_kb = 0u; goto l_capnp_lp; }
    r_iy = r_lc;
    goto l_arm_wn;
l_else_70:;
    u64 r_3o = (r_lc + 0xffffffffc0000000ull);
    if ((r_lc < 0x40000000ull) ? 1u : (r_3o > r_m5)) { r_4p = 0u; r_b4 = 0ull; r_8c = 0u; r_kb = 0u; goto l_capnp_lp; }
    r_iy = r_3o;
l_arm_wn:;
    r_4p = 1u;
    r_b4 = r_2n;
    r_8c = a_3;
    r_kb = (u32)r_iy;
l_capnp_lp:;
    st64((slot_1 + 8), r_b4);
    st32((slot_1 + 16), r_8c);
    st32((slot_1 + 20), r_kb);
    st32((slot_1 + 24), 0u);
    st32((slot_1 + 28), 0u);
    r_ud = r_4p;
l_capnp_ty:;
    mv24(slot_2, (slot_1 + 8));
    st64(a_1, (u64)r_ud);
    mv24(away(a_1, 8ull), slot_2);
    return;
}

/* capnp_allocation::landing::follow_far::<#5460ad12cd8c5480> */
static NEVER COLD void capnp_allocation_landing_follow_far_5460ad12cd8c5480(u8 *a_1, u8 *a_2, u64 a_3)
{
    u64 r_cy;
    u32 r_4r;
    u32 t_ri;
    u8 *r_xm;
    u8 r_ts;
    u64 r_52;
    u64 r_0f;
    u8 *r_jx;
    u8 *r_ly;
    u64 r_pz;
    u32 r_x0;
    u64 r_ra;
    u64 r_6p;
    u32 r_01;
    u64 r_rh;
    u32 r_5s;
    u64 r_g9;
    u8 *r_jt;
    u8 *r_8j;
    u64 r_t5;
    u64 r_lw;
    u64 pre_0f;
    u8 *r_li;
    u64 r_wm;
    u64 r_lc;
    u64 r_z3;
    u64 r_vt;
    u64 r_8t;
    u32 r_49;
    u32 r_1t;
    u32 r_a3;
    r_cy = (u64)(a_3 >> 32ull);
    r_4r = (u32)r_cy;
    t_ri = (u32)((u32)a_3 >> 3u);
    r_xm = away(a_2, 32ull);
    r_ts = (r_cy == 0ull);
    if (r_ts) goto l_join_c3;
    r_52 = ld64(away(a_2, 88ull));
    r_0f = (r_cy + 0xffffffffffffffffull);
    if (!(r_0f < r_52)) goto l_capnp_8h;
    u8 *r_2b = away(ldp(away(a_2, 80ull)), (r_0f * 40ull));
    r_jx = away(r_2b, 32ull);
    r_ly = r_2b;
    goto l_arm_my;
l_join_c3:;
    if (!(u8)(ld8(away(a_2, 72ull)) & 1)) goto l_capnp_50;
    r_jx = away(a_2, 64ull);
    r_ly = r_xm;
l_arm_my:;
    if (!(ld32(r_jx) > t_ri)) { r_pz = 0ull; goto l_capnp_87; }
    r_pz = ld64(away(ldp(r_ly), (a_3 & 0xfffffff8ull)));
l_capnp_87:;
    if ((a_3 & 4ull) == 0ull) goto l_else_y9;
    goto l_then_8r;
l_capnp_50:;
    if ((a_3 & 4ull) == 0ull) { r_vt = 0ull; r_8t = 0ull; r_49 = 0u; r_1t = 0u; r_a3 = 0u; goto l_join_s8; }
    r_t5 = 0ull;
    r_lw = 0ull;
    goto l_capnp_31;
l_capnp_8h:;
    if ((a_3 & 4ull) == 0ull) { r_vt = 0ull; r_8t = 0ull; r_49 = 0u; r_1t = 0u; r_a3 = 0u; goto l_join_s8; }
    r_ra = r_0f;
    r_6p = r_52;
    r_01 = (t_ri + 1u);
    r_rh = 0ull;
    goto l_then_pl;
l_then_8r:;
    r_x0 = (t_ri + 1u);
    if (r_ts) goto l_join_hy;
    r_ra = (r_cy + 0xffffffffffffffffull);
    r_6p = ld64(away(a_2, 88ull));
    r_01 = r_x0;
    r_rh = r_pz;
l_then_pl:;
    if (!(r_ra < r_6p)) { r_t5 = r_rh; r_lw = 0ull; goto l_capnp_31; }
    u8 *r_2b_1 = away(ldp(away(a_2, 80ull)), (r_ra * 40ull));
    r_5s = r_01;
    r_g9 = r_rh;
    r_jt = away(r_2b_1, 32ull);
    r_8j = r_2b_1;
    goto l_arm_hj;
l_join_hy:;
    if (!(u8)(ld8(away(a_2, 72ull)) & 1)) { r_t5 = r_pz; r_lw = 0ull; goto l_capnp_31; }
    r_5s = r_x0;
    r_g9 = r_pz;
    r_jt = away(a_2, 64ull);
    r_8j = r_xm;
l_arm_hj:;
    if (!(ld32(r_jt) > r_5s)) { r_t5 = r_g9; r_lw = 0ull; goto l_capnp_31; }
    r_t5 = r_g9;
    r_lw = ld64(away(ldp(r_8j), (u64)((u64)r_5s << 3ull)));
l_capnp_31:;
    r_vt = 1ull;
    r_8t = r_lw;
    r_49 = (u32)(u64)(r_t5 >> 32ull);
    r_1t = (u32)((u32)r_t5 >> 3u);
    r_a3 = 2u;
    goto l_join_s8;
l_else_y9:;
    if (r_ts) goto l_join_hy_1;
    pre_0f = (r_cy + 0xffffffffffffffffull);
    if (!(pre_0f < ld64(away(a_2, 88ull)))) { r_wm = 0ull; goto l_capnp_v7; }
    r_li = away(away(ldp(away(a_2, 80ull)), (pre_0f * 40ull)), 32ull);
    goto l_arm_ef;
l_join_hy_1:;
    if (!(u8)(ld8(away(a_2, 72ull)) & 1)) { r_wm = 0ull; goto l_capnp_v7; }
    r_li = away(a_2, 64ull);
l_arm_ef:;
    r_wm = (u64)ld32(r_li);
l_capnp_v7:;
    u64 r_m6 = ((u64)(r_pz >> 2ull) & 0x3fffffffull);
    r_lc = (r_m6 + (u64)(t_ri + 1u));
    if (!(r_m6 < 0x20000000ull)) goto l_else_70;
    if (r_lc > r_wm) { r_vt = 0ull; r_8t = 0ull; r_49 = 0u; r_1t = 0u; r_a3 = 0u; goto l_join_s8; }
    r_z3 = r_lc;
    goto l_arm_eo;
l_else_70:;
    u64 r_3o = (r_lc + 0xffffffffc0000000ull);
    if ((r_lc < 0x40000000ull) ? 1u : (r_3o > r_wm)) { r_vt = 0ull; r_8t = 0ull; r_49 = 0u; r_1t = 0u; r_a3 = 0u; goto l_join_s8; }
    r_z3 = r_3o;
l_arm_eo:;
    r_vt = 1ull;
    r_8t = r_pz;
    r_49 = r_4r;
    r_1t = (u32)r_z3;
    r_a3 = 1u;
l_join_s8:;
    st64(a_1, r_vt);
    st64(away(a_1, 8ull), r_8t);
    st32(away(a_1, 16ull), r_49);
    st32(away(a_1, 20ull), r_1t);
    st32(away(a_1, 24ull), r_a3);
    st32(away(a_1, 28ull), 0u);
    return;
}

/* capnp_allocation::zeroing::zero_target::<#5460ad12cd8c5480> */
static NEVER COLD void capnp_allocation_zeroing_zero_target_5460ad12cd8c5480(u8 *a_1, u8 *a_2)
{
    u64 r_tp;
    u32 r_5k;
    u32 r_5k_1;
    u32 r_4r;
    u32 r_12;
    u64 r_24;
    u64 r_lc;
    u64 r_lc_1;
    u8 r_2p;
    u64 r_0f;
    u8 *r_li;
    u64 r_ef;
    u32 r_68;
    u64 r_es;
    u64 r_lc_2;
    u64 r_0f_1;
    u8 *r_tl;
    u64 r_z6;
    u8 *r_2b;
    u8 *t_2b;
    u64 r_ij;
    u8 *r_xm;
    u8 r_2p_1;
    u64 r_0f_2;
    u8 *r_5s;
    u8 *r_g9;
    u64 r_eh;
    u32 t_c8;
    u64 r_y6_1;
    u32 r_az;
    u32 t_12;
    u64 r_c4;
    u64 r_lc_3;
    u64 r_0f_3;
    u8 *r_8r;
    u32 r_wq;
    u32 r_2j;
    u64 r_ic;
    u64 r_b6;
    u64 r_se;
    u64 r_24_1;
    u64 r_lc_4;
    u64 r_0f_4;
    u8 *r_jd;
    u64 r_um;
    u8 *r_2b_2;
    u8 *t_2b_1;
    r_tp = ld64(a_2);
    r_5k = ld32((a_2 + 8));
    r_5k_1 = ld32((a_2 + 12));
    switch ((u8)((u8)r_tp & 3u)) {
    case 0u: goto l_arm_vb;
    case 1u: goto l_arm_a9;
    case 2u: goto l_join_68;
    case 3u: goto l_join_68;
    default: goto l_default_e1;
    }
l_arm_vb:;
    u64 r_ep = (u64)(r_tp >> 32ull);
    r_4r = (u32)r_ep;
    u64 r_y6 = (u64)(r_tp >> 48ull);
    r_12 = (u32)r_y6;
    r_24 = (u64)r_5k_1;
    r_lc = ((r_ep & 65535ull) + r_24);
    r_lc_1 = (r_lc + r_y6);
    r_2p = (r_5k == 0u);
    if (r_2p) goto l_join_c3;
    r_0f = ((u64)r_5k + 0xffffffffffffffffull);
    if (!(r_0f < ld64(away(a_1, 88ull)))) { r_ef = 0ull; goto l_capnp_5p; }
    r_li = away(away(ldp(away(a_1, 80ull)), (r_0f * 40ull)), 32ull);
    goto l_arm_ef;
l_join_c3:;
    if (!(u8)(ld8(away(a_1, 72ull)) & 1)) { r_ef = 0ull; goto l_capnp_5p; }
    r_li = away(a_1, 64ull);
l_arm_ef:;
    r_ef = (u64)ld32(r_li);
l_capnp_5p:;
    if (r_lc_1 > r_ef) goto l_join_68;
    capnp_allocation_zeroing_zero_pointers_5460ad12cd8c5480(a_1, r_5k, (u32)r_lc, r_12);
    r_68 = ((r_4r & 65535u) + r_12);
    r_es = (u64)r_68;
    if (r_68 == 0u) goto l_join_68;
    r_lc_2 = (r_es + r_24);
    if (r_2p) goto l_join_qp;
    r_0f_1 = ((u64)r_5k + 0xffffffffffffffffull);
    if (r_0f_1 < ld64(away(a_1, 88ull))) goto l_capnp_n3;
    goto l_join_68;
l_join_qp:;
    if (!(u8)(ld8(away(a_1, 72ull)) & 1)) goto l_join_68;
    if (r_lc_2 > (u64)ld32(away(a_1, 64ull))) goto l_join_68;
    goto l_then_yj;
l_capnp_n3:;
    if (r_lc_2 > (u64)ld32(away(away(ldp(away(a_1, 80ull)), (r_0f_1 * 40ull)), 32ull))) goto l_join_68;
    goto l_else_0v;
l_then_yj:;
    r_tl = ldp(away(a_1, 32ull));
    goto l_capnp_w0;
l_else_0v:;
    u8 *r_x5 = capnp_arena_arena_rows_Rows_other_mut_4426f83c3c99ca57(away(a_1, 32ull), r_5k);
    r_tl = r_x5;
l_capnp_w0:;
    r_z6 = (u64)(r_es << 3ull);
    r_2b = away(r_tl, (u64)(r_24 << 3ull));
    if (r_68 < 8u) goto l_then_5x;
    memset_or_none(r_2b, 0u, r_z6);
    goto l_join_68;
l_then_5x:;
    t_2b = away(r_2b, r_z6);
    if (!(r_68 > 3u)) goto l_else_gn;
    memset(r_2b, 0, 32);
    memset(away(t_2b, 0xffffffffffffffe0ull), 0, 32);
    goto l_join_68;
l_else_gn:;
    if (r_68 == 1u) goto l_then_51;
    memset(r_2b, 0, 16);
    memset(away(t_2b, 0xfffffffffffffff0ull), 0, 16);
    goto l_join_68;
l_then_51:;
    memset(r_2b, 0, 8);
    memset(away(t_2b, 0xfffffffffffffff8ull), 0, 8);
    goto l_join_68;
l_arm_a9:;
    r_ij = (u64)(r_tp >> 35ull);
    switch ((u8)((u8)(u64)(r_tp >> 32ull) & 7u)) {
    case 7u: goto l_arm_so;
    case 6u: goto l_arm_gq;
    case 0u: { r_ic = 0ull; goto l_capnp_nc; }
    case 5u: goto l_arm_h9;
    case 4u: goto l_arm_h9_1;
    case 1u: goto l_arm_h9_2;
    case 2u: goto l_arm_h9_3;
    case 3u: goto l_arm_h9_4;
    default: goto l_default_e1;
    }
l_arm_so:;
    r_xm = away(a_1, 32ull);
    r_2p_1 = (r_5k == 0u);
    if (r_2p_1) goto l_join_c3_1;
    r_0f_2 = ((u64)r_5k + 0xffffffffffffffffull);
    if (!(r_0f_2 < ld64(away(a_1, 88ull)))) { r_eh = 0ull; goto l_capnp_qm; }
    u8 *r_2b_1 = away(ldp(away(a_1, 80ull)), (r_0f_2 * 40ull));
    r_5s = away(r_2b_1, 32ull);
    r_g9 = r_2b_1;
    goto l_arm_hj;
l_join_c3_1:;
    if (!(u8)(ld8(away(a_1, 72ull)) & 1)) { r_eh = 0ull; goto l_capnp_qm; }
    r_5s = away(a_1, 64ull);
    r_g9 = r_xm;
l_arm_hj:;
    if (!(ld32(r_5s) > r_5k_1)) { r_eh = 0ull; goto l_capnp_qm; }
    r_eh = ld64(away(ldp(r_g9), (u64)((u64)r_5k_1 << 3ull)));
l_capnp_qm:;
    t_c8 = (u32)((u32)r_eh >> 2u);
    r_y6_1 = (u64)(r_eh >> 48ull);
    r_az = ((u32)(u64)(r_eh >> 32ull) & 65535u);
    t_12 = (u32)r_y6_1;
    r_c4 = (((u64)(r_az + t_12) * (u64)t_c8) + 1ull);
    r_lc_3 = (r_c4 + (u64)r_5k_1);
    if (r_2p_1) goto l_join_v8;
    r_0f_3 = ((u64)r_5k + 0xffffffffffffffffull);
    if (!(r_0f_3 < ld64(away(a_1, 88ull)))) goto l_join_68;
    r_8r = away(away(ldp(away(a_1, 80ull)), (r_0f_3 * 40ull)), 32ull);
    goto l_arm_w5;
l_join_v8:;
    if (!(u8)(ld8(away(a_1, 72ull)) & 1)) goto l_join_68;
    r_8r = away(a_1, 64ull);
l_arm_w5:;
    if (r_lc_3 > (u64)ld32(r_8r)) goto l_join_68;
    if (!((r_y6_1 != 0ull) ? (t_c8 != 0u) : 0u)) goto l_capnp_r3;
    r_wq = (r_5k_1 + 1u);
    r_2j = 0u;
l_join_g6:;
    u32 r_w0 = (r_wq + r_az);
    capnp_allocation_zeroing_zero_pointers_5460ad12cd8c5480(a_1, r_5k, r_w0, t_12);
    u32 r_ff = (r_2j + 1u);
    if (!(r_ff == t_c8)) { r_wq = (r_w0 + t_12); r_2j = r_ff; goto l_join_g6; }
l_capnp_r3:;
    capnp_allocation_zeroing_zero_if_inside_5460ad12cd8c5480(a_1, r_5k, r_5k_1, r_c4);
    goto l_join_68;
l_arm_gq:;
    capnp_allocation_zeroing_zero_pointers_5460ad12cd8c5480(a_1, r_5k, r_5k_1, (u32)r_ij);
    goto l_join_68;
l_arm_h9_2:;
    r_ic = 1ull;
    goto l_capnp_nc;
l_arm_h9_3:;
    r_ic = 8ull;
    goto l_capnp_nc;
l_arm_h9_4:;
    r_ic = 16ull;
    goto l_capnp_nc;
l_arm_h9_1:;
    r_ic = 32ull;
    goto l_capnp_nc;
l_arm_h9:;
    r_ic = 64ull;
l_capnp_nc:;
    r_b6 = (r_ic * r_ij);
    r_se = (u64)((r_b6 + 63ull) >> 6ull);
    if (r_se == 0ull) goto l_join_68;
    r_24_1 = (u64)r_5k_1;
    r_lc_4 = (r_se + r_24_1);
    if (r_5k == 0u) goto l_join_qp_1;
    r_0f_4 = ((u64)r_5k + 0xffffffffffffffffull);
    if (r_0f_4 < ld64(away(a_1, 88ull))) goto l_capnp_n3_1;
    goto l_join_68;
l_join_qp_1:;
    if (!(u8)(ld8(away(a_1, 72ull)) & 1)) goto l_join_68;
    if (r_lc_4 > (u64)ld32(away(a_1, 64ull))) goto l_join_68;
    goto l_then_yj_1;
l_capnp_n3_1:;
    if (r_lc_4 > (u64)ld32(away(away(ldp(away(a_1, 80ull)), (r_0f_4 * 40ull)), 32ull))) goto l_join_68;
    goto l_else_0v_1;
l_then_yj_1:;
    r_jd = ldp(away(a_1, 32ull));
    goto l_capnp_w4;
l_else_0v_1:;
    u8 *r_x5_1 = capnp_arena_arena_rows_Rows_other_mut_4426f83c3c99ca57(away(a_1, 32ull), r_5k);
    r_jd = r_x5_1;
l_capnp_w4:;
    r_um = ((u64)(r_se << 3ull) & 0x7fffffff8ull);
    r_2b_2 = away(r_jd, (u64)(r_24_1 << 3ull));
    if (r_b6 < 449ull) goto l_then_5t;
    memset_or_none(r_2b_2, 0u, r_um);
    goto l_join_68;
l_then_5t:;
    t_2b_1 = away(r_2b_2, r_um);
    if (!(r_b6 > 192ull)) goto l_else_9l;
    memset(r_2b_2, 0, 32);
    memset(away(t_2b_1, 0xffffffffffffffe0ull), 0, 32);
    goto l_join_68;
l_else_9l:;
    if (r_se == 1ull) goto l_then_51_1;
    memset(r_2b_2, 0, 16);
    memset(away(t_2b_1, 0xfffffffffffffff0ull), 0, 16);
    goto l_join_68;
l_then_51_1:;
    memset(r_2b_2, 0, 8);
    memset(away(t_2b_1, 0xfffffffffffffff8ull), 0, 8);
l_join_68:;
    return;
l_default_e1:;
    UNREACHABLE();
}

/* capnp_allocation::zeroing::zero_pointers::<#5460ad12cd8c5480> */
static void capnp_allocation_zeroing_zero_pointers_5460ad12cd8c5480(u8 *a_1, u32 a_2, u32 a_3, u32 a_4)
{
    A(8) u8 slot_1[32];
    u64 r_v1;
    u64 r_lc;
    u8 r_sz;
    u64 r_0f;
    u8 *r_li;
    u64 r_ap;
    u8 *r_yf;
    u64 r_0f_1;
    u8 *r_xm;
    u8 *r_x5;
    u64 indvars_mo;
    u32 r_7m;
    u8 *r_2b;
    u64 r_qw;
    u8 *r_lz;
    u64 r_sq;
    u64 r_9s;
    r_v1 = (u64)a_4;
    r_lc = (r_v1 + (u64)a_3);
    r_sz = (a_2 == 0u);
    if (r_sz) goto l_join_c3;
    r_0f = ((u64)a_2 + 0xffffffffffffffffull);
    if (!(r_0f < ld64(away(a_1, 88ull)))) { r_ap = 0ull; goto l_capnp_ow; }
    r_li = away(away(ldp(away(a_1, 80ull)), (r_0f * 40ull)), 32ull);
    goto l_arm_ef;
l_join_c3:;
    if (!(u8)(ld8(away(a_1, 72ull)) & 1)) { r_ap = 0ull; goto l_capnp_ow; }
    r_li = away(a_1, 64ull);
l_arm_ef:;
    r_ap = (u64)ld32(r_li);
l_capnp_ow:;
    if (!(u8)((u8)(r_lc <= r_ap) & (u8)(a_4 != 0u))) goto l_join_68;
    r_yf = away(a_1, 80ull);
    r_0f_1 = ((u64)a_2 + 0xffffffffffffffffull);
    r_xm = away(a_1, 32ull);
    r_x5 = (slot_1 + 8);
    indvars_mo = 0ull;
l_join_xy:;
    r_7m = (a_3 + (u32)indvars_mo);
    memset(slot_1, 0u, 32);
    if (!r_sz) goto l_capnp_2f;
    r_2b = away(ldp(r_xm), (u64)((u64)r_7m << 3ull));
    r_qw = ld64(r_2b);
    if (r_qw == 0ull) goto l_capnp_o8;
    goto l_then_gs;
l_capnp_2f:;
    r_lz = ldp(r_yf);
    r_sq = capnp_arena_arena_rows_word_in_4426f83c3c99ca57(r_lz, r_0f_1, r_7m);
    if (r_sq == 0ull) goto l_capnp_o8;
    goto l_else_sl;
l_then_gs:;
    capnp_allocation_landing_follow_5460ad12cd8c5480(slot_1, a_1, 0u, r_7m);
    st64(r_2b, 0ull);
    r_9s = r_qw;
    goto l_capnp_2f_1;
l_else_sl:;
    capnp_allocation_landing_follow_5460ad12cd8c5480(slot_1, a_1, a_2, r_7m);
    capnp_arena_arena_rows_put_word_in_4426f83c3c99ca57(r_lz, r_0f_1, r_7m, 0ull);
    r_9s = r_sq;
l_capnp_2f_1:;
    if (!(ld8(slot_1) == 1u)) goto l_capnp_o8;
    capnp_allocation_zeroing_zero_target_5460ad12cd8c5480(a_1, r_x5);
    if (!((r_9s & 3ull) == 2ull)) goto l_capnp_o8;
    capnp_allocation_zeroing_zero_far_pads_5460ad12cd8c5480(a_1, r_9s);
l_capnp_o8:;
    u64 indvars_r7 = (indvars_mo + 1ull);
    if (!(indvars_r7 == r_v1)) { indvars_mo = indvars_r7; goto l_join_xy; }
l_join_68:;
    return;
}

/* capnp_allocation::zeroing::zero_if_inside::<#5460ad12cd8c5480> */
static void capnp_allocation_zeroing_zero_if_inside_5460ad12cd8c5480(u8 *a_1, u32 a_2, u32 a_3, u64 a_4)
{
    u64 r_7l;
    u64 r_o7;
    u8 r_sz;
    u64 r_0f;
    u8 *r_w5;
    u32 r_73;
    u8 *r_xm;
    u8 *r_3j;
    u64 r_um;
    u8 *r_2b;
    u8 *t_2b;
    if (a_4 == 0ull) goto l_join_68;
    r_7l = (u64)a_3;
    r_o7 = (a_4 + r_7l);
    r_sz = (a_2 == 0u);
    if (r_sz) goto l_join_v8;
    r_0f = ((u64)a_2 + 0xffffffffffffffffull);
    if (!(r_0f < ld64(away(a_1, 88ull)))) goto l_join_68;
    r_w5 = away(away(ldp(away(a_1, 80ull)), (r_0f * 40ull)), 32ull);
    goto l_capnp_ah;
l_join_v8:;
    if (!(u8)(ld8(away(a_1, 72ull)) & 1)) goto l_join_68;
    r_w5 = away(a_1, 64ull);
l_capnp_ah:;
    if (r_o7 > (u64)ld32(r_w5)) goto l_join_68;
    r_73 = (u32)a_4;
    if (r_73 == 0u) goto l_join_68;
    r_xm = away(a_1, 32ull);
    if (!r_sz) goto l_else_al;
    r_3j = ldp(r_xm);
    goto l_capnp_02;
l_else_al:;
    u8 *r_ph = capnp_arena_arena_rows_Rows_other_mut_4426f83c3c99ca57(r_xm, a_2);
    r_3j = r_ph;
l_capnp_02:;
    r_um = ((u64)(a_4 << 3ull) & 0x7fffffff8ull);
    r_2b = away(r_3j, (u64)(r_7l << 3ull));
    if (r_73 < 8u) goto l_then_5x;
    memset_or_none(r_2b, 0u, r_um);
    goto l_join_68;
l_then_5x:;
    t_2b = away(r_2b, r_um);
    if (!(r_73 > 3u)) goto l_else_gn;
    memset(r_2b, 0, 32);
    memset(away(t_2b, 0xffffffffffffffe0ull), 0, 32);
    goto l_join_68;
l_else_gn:;
    if (r_73 == 1u) goto l_then_51;
    memset(r_2b, 0, 16);
    memset(away(t_2b, 0xfffffffffffffff0ull), 0, 16);
    goto l_join_68;
l_then_51:;
    memset(r_2b, 0, 8);
    memset(away(t_2b, 0xfffffffffffffff8ull), 0, 8);
l_join_68:;
    return;
}

/* capnp_allocation::zeroing::zero_far_pads::<#5460ad12cd8c5480> */
static NEVER COLD void capnp_allocation_zeroing_zero_far_pads_5460ad12cd8c5480(u8 *a_1, u64 a_2)
{
    u8 r_hr;
    u64 t_3h;
    u64 r_cy;
    u32 r_4r;
    u64 r_ls;
    u64 r_79;
    u64 r_0f;
    u8 *r_i6;
    u8 *r_2b;
    u8 *t_2b;
    r_hr = ((a_2 & 4ull) == 0ull);
    t_3h = (r_hr ? 1ull : 2ull);
    r_cy = (u64)(a_2 >> 32ull);
    r_4r = (u32)r_cy;
    r_ls = ((u64)(a_2 >> 3ull) & 0x1fffffffull);
    r_79 = (t_3h + r_ls);
    if (r_cy == 0ull) goto l_join_su;
    r_0f = (r_cy + 0xffffffffffffffffull);
    if (r_0f < ld64(away(a_1, 88ull))) goto l_capnp_n3;
    goto l_capnp_68;
l_join_su:;
    if (!(u8)(ld8(away(a_1, 72ull)) & 1)) goto l_capnp_68;
    if (r_79 > (u64)ld32(away(a_1, 64ull))) goto l_capnp_68;
    goto l_then_3n;
l_capnp_n3:;
    if (r_79 > (u64)ld32(away(away(ldp(away(a_1, 80ull)), (r_0f * 40ull)), 32ull))) goto l_capnp_68;
    goto l_else_ja;
l_then_3n:;
    r_i6 = ldp(away(a_1, 32ull));
    goto l_else_l1;
l_else_ja:;
    u8 *r_x5 = capnp_arena_arena_rows_Rows_other_mut_4426f83c3c99ca57(away(a_1, 32ull), r_4r);
    r_i6 = r_x5;
l_else_l1:;
    r_2b = away(r_i6, (u64)(r_ls << 3ull));
    t_2b = away(r_2b, (u64)(t_3h << 3ull));
    if (r_hr) goto l_then_qw;
    memset(r_2b, 0, 16);
    memset(away(t_2b, 0xfffffffffffffff0ull), 0, 16);
    goto l_capnp_68;
l_then_qw:;
    memset(r_2b, 0, 8);
    memset(away(t_2b, 0xfffffffffffffff8ull), 0, 8);
l_capnp_68:;
    return;
}

/* capnp_copies::copy::children::copy_children_out_of_line::<#789b5ce0078f2be2> */
static NEVER void capnp_copies_copy_children_copy_children_out_of_line_7_ae79832a(u8 *a_1, u8 *a_2, u32 a_3, u32 a_4, u8 *a_5, u32 a_6, u8 *a_7, u8 a_8)
{
    A(8) u8 slot_1[24];
    A(8) u8 slot_2[64];
    A(8) u8 slot_3[24];
    A(8) u8 slot_4[64];
    u64 r_eg;
    u8 *r_rv;
    u64 r_qw;
    u64 r_qw_1;
    u8 *r_rv_1;
    u64 r_qw_2;
    u32 r_5k;
    u32 r_5k_1;
    u64 r_gw;
    u8 *r_x5;
    u8 *r_zd;
    u8 *r_lk;
    u8 *r_89;
    u8 *r_a8;
    u8 *r_c4;
    u8 *r_6c;
    u8 t_pa;
    u8 *r_08;
    u64 r_nb;
    u8 r_n1;
    u8 *r_rq;
    u8 *r_x5_1;
    u8 *r_k0;
    u8 *r_zd_1;
    u32 r_mx;
    u8 t_q5;
    u8 *r_xm;
    u8 r_sz;
    u8 *r_yf;
    u64 r_7l;
    u64 r_0f;
    u8 *r_h6;
    u8 *r_su;
    u8 *r_r2;
    u8 *r_x5_2;
    u8 *r_k0_1;
    u8 *r_zd_2;
    u8 *r_ix;
    u8 *r_x5_3;
    u8 *r_zd_3;
    u8 *r_lk_1;
    u8 *r_89_1;
    u8 *r_a8_1;
    u8 *r_c4_1;
    u8 *r_bk;
    u8 *r_6c_1;
    u8 *r_x5_4;
    u8 *r_k0_2;
    u8 *r_zd_4;
    u8 t_0c;
    u8 *r_x5_5;
    u8 *r_k0_3;
    u8 *r_zd_5;
    u8 *r_ix_1;
    u64 wide_7l;
    u64 r_7l_1;
    u8 *t_6c;
    u64 indvars_7s;
    u32 r_7m;
    u64 r_24;
    u64 r_qw_3;
    u64 switch_f9;
    u64 r_ep;
    u64 r_ij;
    u64 r_1q;
    u64 r_c6;
    u64 r_lc;
    u64 r_la;
    u64 r_52;
    u64 r_z6;
    u8 *r_dx;
    u64 r_se;
    u32 r_12;
    u32 r_yf_1;
    u64 r_52_1;
    u32 r_w0;
    u64 r_z6_1;
    struct s_i8_i32 r_tu;
    u32 r_yf_2;
    u32 r_e3;
    u32 r_ll;
    u64 r_6f;
    u64 r_59;
    u64 r_ni;
    u32 r_gs;
    u32 r_xx;
    u64 r_1q_1;
    u8 *r_u9;
    u8 *r_2b;
    u64 r_il;
    u64 r_4i;
    u32 r_w0_1;
    u64 r_a5;
    u64 r_y6;
    u64 r_q7;
    u64 r_lc_1;
    u64 r_lc_2;
    u64 r_09;
    u32 r_4r;
    u8 r_8u;
    u64 r_52_2;
    u32 r_5b;
    u64 r_lc_3;
    u64 r_z6_3;
    u8 *r_2b_1;
    u64 r_nm;
    u64 r_nm_1;
    u64 r_p3;
    u64 r_z6_4;
    u8 *r_2b_2;
    u64 r_nm_2;
    u64 r_nm_3;
    u64 r_dl;
    u64 r_9n;
    u16 r_xg;
    u32 r_29;
    u32 r_az;
    u32 r_68;
    u64 r_ro;
    u32 r_yf_3;
    u64 r_52_3;
    u32 r_w0_2;
    u64 r_z6_5;
    u8 r_kw;
    u32 r_re;
    struct s_i8_i32 r_jz;
    u32 r_xo_1;
    u64 r_a7;
    u32 r_yf_4;
    u32 r_e3_1;
    u32 r_ll_1;
    u64 r_r8;
    u64 r_59_1;
    u64 r_ni_1;
    u64 r_nu;
    u32 r_wt;
    u64 r_ep_1;
    u32 r_4r_1;
    u64 r_0l;
    u8 *r_2b_3;
    u8 *r_al;
    u8 *r_2b_4;
    u64 r_il_1;
    u8 r_2b_5;
    u8 r_qh;
    u32 r_ip;
    u64 r_wq;
    u64 t_i2;
    u32 t_1i;
    u8 r_k7;
    u8 t_yl;
    u64 r_7k;
    u32 r_zq;
    u8 r_p9;
    u64 r_uo;
    u32 r_93;
    u8 r_8y;
    u8 r_10;
    u32 r_kb;
    u32 r_n4;
    u64 r_yp;
    u8 r_dh = ld8(a_5);
    r_eg = (u64)r_dh;
    r_rv = ldp(away(a_5, 8ull));
    r_qw = ld64(away(a_5, 16ull));
    r_qw_1 = ld64(away(a_5, 24ull));
    r_rv_1 = ldp(away(a_5, 32ull));
    r_qw_2 = ld64(away(a_5, 40ull));
    r_5k = ld32(away(a_5, 48ull));
    r_5k_1 = ld32(away(a_5, 56ull));
    r_gw = (u64)(r_qw_2 >> 3ull);
    r_x5 = (slot_4 + 8);
    r_zd = (slot_4 + 16);
    r_lk = (slot_4 + 24);
    r_89 = (slot_4 + 32);
    r_a8 = (slot_4 + 40);
    r_c4 = (slot_4 + 48);
    r_6c = (slot_4 + 56);
    t_pa = (r_dh != 0u);
    r_08 = away(a_7, 16ull);
    r_nb = (r_gw & 0xffffffffull);
    r_n1 = ((i32)r_5k_1 < (i32)1u);
    r_rq = away(a_7, 8ull);
    r_x5_1 = (slot_3 + 8);
    r_k0 = (slot_3 + 12);
    r_zd_1 = (slot_3 + 16);
    r_mx = ((r_5k_1 == 0x80000000u) ? 0x80000000u : (r_5k_1 + 0xffffffffu));
    t_q5 = (a_8 == 1u);
    r_xm = away(a_2, 32ull);
    r_sz = (a_3 == 0u);
    r_yf = away(a_2, 80ull);
    r_7l = (u64)a_3;
    r_0f = (r_7l + 0xffffffffffffffffull);
    r_h6 = away(a_2, 64ull);
    r_su = away(a_2, 40ull);
    r_r2 = away(a_2, 56ull);
    r_x5_2 = (slot_1 + 8);
    r_k0_1 = (slot_1 + 12);
    r_zd_2 = (slot_1 + 16);
    r_ix = (slot_1 + 4);
    r_x5_3 = (slot_2 + 8);
    r_zd_3 = (slot_2 + 16);
    r_lk_1 = (slot_2 + 24);
    r_89_1 = (slot_2 + 32);
    r_a8_1 = (slot_2 + 40);
    r_c4_1 = (slot_2 + 48);
    r_bk = (slot_2 + 52);
    r_6c_1 = (slot_2 + 56);
    r_x5_4 = (slot_1 + 8);
    r_k0_2 = (slot_1 + 12);
    r_zd_4 = (slot_1 + 16);
    t_0c = (r_dh == 0u);
    r_x5_5 = (slot_1 + 8);
    r_k0_3 = (slot_1 + 12);
    r_zd_5 = (slot_1 + 16);
    r_ix_1 = (slot_1 + 4);
    wide_7l = (u64)a_6;
    r_7l_1 = (u64)a_3;
    t_6c = (slot_2 + 56);
    indvars_7s = 0ull;
    goto l_join_99;
l_loop_da:;
    u64 indvars_r7 = (indvars_7s + 1ull);
    if (indvars_r7 == wide_7l) { r_10 = 0u; r_kb = 0u; r_n4 = 0u; r_yp = 0ull; goto l_capnp_9c; }
    indvars_7s = indvars_r7;
l_join_99:;
    u32 t_s7 = (u32)indvars_7s;
    r_7m = (a_4 + t_s7);
    r_24 = (u64)(r_5k + t_s7);
    memset(slot_3, 0u, 24);
    memset(slot_4, 0u, 64);
    if (!(r_gw > r_24)) goto l_capnp_v7;
    r_qw_3 = ld64(away(r_rv_1, (u64)(r_24 << 3ull)));
    if (r_qw_3 == 0ull) goto l_capnp_v7;
    switch_f9 = (r_qw_3 & 3ull);
    r_ep = (u64)(r_qw_3 >> 32ull);
    if (!((switch_f9 == 1ull) ? ((u8)((u8)((u8)r_ep & 7u) + 255u) < 5u) : 0u)) goto l_join_br;
    r_ij = (u64)(r_qw_3 >> 35ull);
    r_1q = (ld64(away(away(((u8 *)switch_table_main_18), 8 * (r_ep & 7ull)), 0xfffffffffffffff8ull)) * r_ij);
    r_c6 = (u64)((r_1q + 63ull) >> 6ull);
    if (!t_0c) goto l_join_bd;
    st64(r_08, uadd_sat64(ld64(r_08), 1ull));
l_join_bd:;
    u64 r_m6 = ((u64)(r_qw_3 >> 2ull) & 0x3fffffffull);
    r_lc = ((r_24 + 1ull) + r_m6);
    if (!(r_m6 < 0x20000000ull)) goto l_else_70;
    if (r_lc > r_nb) { r_7k = 0ull; r_zq = 0u; r_p9 = 23u; goto l_arm_i0; }
    r_la = r_lc;
    goto l_arm_i0_1;
l_else_70:;
    u64 r_3o = (r_lc + 0xffffffffc0000000ull);
    if ((r_lc < 0x40000000ull) ? 1u : (r_3o > r_nb)) { r_7k = 0ull; r_zq = 0u; r_p9 = 23u; goto l_arm_i0; }
    r_la = r_3o;
l_arm_i0_1:;
    if (r_n1) { r_7k = 0ull; r_zq = 0u; r_p9 = 26u; goto l_arm_i0; }
    if (r_nb < (r_la + r_c6)) { r_7k = 0ull; r_zq = 0u; r_p9 = 23u; goto l_arm_i0; }
    if (!t_0c) goto l_arm_5g;
    if (!(ld8(a_7) == 1u)) goto l_arm_5g;
    r_52 = ld64(r_rq);
    if (r_52 < r_c6) { r_7k = 0ull; r_zq = 0u; r_p9 = 30u; goto l_arm_i0; }
    st64(a_7, 1ull);
    st64(r_rq, (r_52 - r_c6));
l_arm_5g:;
    r_z6 = (u64)(r_c6 << 3ull);
    r_dx = away(r_rv_1, (u64)(r_la << 3ull));
    r_se = (u64)(((ld64(away(away(((u8 *)switch_table_main_18), 8 * (r_ep & 7ull)), 0xfffffffffffffff8ull)) * r_ij) + 63ull) >> 6ull);
    r_12 = (u32)r_se;
    if (!r_sz) goto l_capnp_5b;
    r_yf_1 = ld32(r_h6);
    r_52_1 = ld64(r_su);
    if ((r_se + (u64)r_yf_1) > (u64)((ld64(r_r2) + r_52_1) >> 3ull)) goto l_arm_2h;
    r_w0 = (r_yf_1 + r_12);
    r_z6_1 = (u64)((u64)r_w0 << 3ull);
    if (!(r_52_1 < r_z6_1)) goto l_then_rx;
    capnp_messages_messages_copy_memory_CopySegment_zero_up_to(r_xm, r_z6_1);
    goto l_then_rx;
l_capnp_5b:;
    r_tu = capnp_arena_arena_rows_allocate_in_4426f83c3c99ca57(ldp(r_yf), r_0f, r_12);
    if (r_tu.f0 == 1u) goto l_else_gb;
    goto l_arm_2h;
l_then_rx:;
    st32(r_h6, r_w0);
    st64(away(ldp(r_xm), (u64)((u64)r_7m << 3ull)), ((r_qw_3 & 0xffffffff00000001ull) | (u64)(u32)((r_yf_1 + (r_7m ^ 0xffffffffu)) << 2u)));
    r_gs = r_yf_1;
    r_xx = 0u;
    goto l_arm_t1;
l_else_gb:;
    u32 r_xo = r_tu.f1;
    capnp_arena_arena_rows_put_word_in_4426f83c3c99ca57(ldp(r_yf), r_0f, r_7m, ((r_qw_3 & 0xffffffff00000001ull) | (u64)(u32)((r_xo + (r_7m ^ 0xffffffffu)) << 2u)));
    r_gs = r_xo;
    r_xx = a_3;
    goto l_arm_t1;
l_arm_2h:;
    capnp_arena_arena_builder_arena_impl_BuilderArenaImplB_c2fb55cd(slot_1, a_2, (r_12 + 1u));
    if (!(ld8(slot_1) == 0u)) goto l_arm_vh;
    r_yf_2 = ld32(r_ix_1);
    r_e3 = ld32(r_x5_5);
    r_ll = (r_e3 + 1u);
    r_6f = (r_qw_3 & 0xffffffff00000001ull);
    if (!(r_yf_2 == 0u)) goto l_else_eu;
    u64 r_z6_2 = (u64)((u64)r_e3 << 3ull);
    st64(away(ldp(r_xm), r_z6_2), r_6f);
    r_59 = r_z6_2;
    goto l_capnp_9d;
l_else_eu:;
    u64 r_24_1 = (u64)r_yf_2;
    capnp_arena_arena_rows_put_word_in_4426f83c3c99ca57(ldp(r_yf), (r_24_1 + 0xffffffffffffffffull), r_e3, r_6f);
    r_59 = ((u64)(r_24_1 << 32ull) | (u64)((u64)r_e3 << 3ull));
l_capnp_9d:;
    r_ni = (r_59 | 2ull);
    if (!r_sz) goto l_else_bj;
    st64(away(ldp(r_xm), (u64)((u64)r_7m << 3ull)), r_ni);
    goto l_core_5s;
l_else_bj:;
    capnp_arena_arena_rows_put_word_in_4426f83c3c99ca57(ldp(r_yf), r_0f, r_7m, r_ni);
l_core_5s:;
    r_gs = r_ll;
    r_xx = r_yf_2;
l_arm_t1:;
    r_1q_1 = (ld64(away(away(((u8 *)switch_table_main_18), 8 * (r_ep & 7ull)), 0xfffffffffffffff8ull)) * r_ij);
    if (r_c6 == 0ull) goto l_capnp_pq;
    if (!(r_xx == 0u)) goto l_else_h1;
    r_u9 = ldp(r_xm);
    goto l_capnp_m1;
l_else_h1:;
    u8 *r_x5_6 = capnp_arena_arena_rows_Rows_other_mut_4426f83c3c99ca57(r_xm, r_xx);
    r_u9 = r_x5_6;
l_capnp_m1:;
    r_2b = away(r_u9, (u64)((u64)r_gs << 3ull));
    if (!(r_1q < 449ull)) goto l_else_r3;
    if (!(r_1q > 192ull)) goto l_else_9l;
    mv32(r_2b, r_dx);
    u64 r_bh = (r_z6 + 0xffffffffffffffe0ull);
    mv32((r_2b + (i64)(r_bh)), (r_dx + (i64)(r_bh)));
    goto l_capnp_pq;
l_else_9l:;
    if (r_c6 == 1ull) goto l_then_49;
    mv16(r_2b, r_dx);
    u64 r_8f = (r_z6 + 0xfffffffffffffff0ull);
    mv16((r_2b + (i64)(r_8f)), (r_dx + (i64)(r_8f)));
    goto l_capnp_pq;
l_then_49:;
    mv8(r_2b, r_dx);
    u64 r_la_1 = (r_z6 + 0xfffffffffffffff8ull);
    mv8((r_2b + (i64)(r_la_1)), (r_dx + (i64)(r_la_1)));
    goto l_capnp_pq;
l_else_r3:;
    if (((u64)(uptr)r_2b - (u64)(uptr)r_dx) < r_z6) { r_il = 0ull; goto l_join_fh; }
    memmove_or_none(r_2b, r_dx, r_z6);
    goto l_capnp_pq;
l_join_fh:;
    st8((r_2b + (i64)(r_il)), ld8((r_dx + (i64)(r_il))));
    u64 r_c4_2 = (r_il + 1ull);
    if (!(r_c4_2 == r_z6)) { r_il = r_c4_2; goto l_join_fh; }
l_capnp_pq:;
    r_4i = (r_1q_1 & 63ull);
    if (r_4i == 0ull) goto l_capnp_v7;
    u64 r_0f_1 = (r_c6 + 0xffffffffffffffffull);
    r_w0_1 = (r_gs + (u32)r_0f_1);
    r_a5 = (ld64(away(r_dx, (u64)(r_0f_1 << 3ull))) & ((u64)(0xffffffffffffffffull << (r_4i & 63u)) ^ 0xffffffffffffffffull));
    if (!(r_xx == 0u)) goto l_else_eu_1;
    st64(away(ldp(r_xm), (u64)((u64)r_w0_1 << 3ull)), r_a5);
    goto l_capnp_v7;
l_else_eu_1:;
    capnp_arena_arena_rows_put_word_in_4426f83c3c99ca57(ldp(r_yf), ((u64)r_xx + 0xffffffffffffffffull), r_w0_1, r_a5);
    goto l_capnp_v7;
l_arm_vh:;
    r_7k = ld64(r_zd_5);
    r_zq = ld32(r_k0_3);
    r_p9 = ld8(r_x5_5);
    goto l_arm_i0;
l_join_br:;
    if (!(switch_f9 == 0ull)) goto l_else_4r;
    r_y6 = (u64)(r_qw_3 >> 48ull);
    r_q7 = (r_ep & 65535ull);
    r_lc_1 = (r_q7 + r_y6);
    if (t_pa) goto l_join_o1;
    st64(r_08, uadd_sat64(ld64(r_08), 1ull));
l_join_o1:;
    u64 r_m6_1 = ((u64)(r_qw_3 >> 2ull) & 0x3fffffffull);
    r_lc_2 = ((r_24 + 1ull) + r_m6_1);
    if (!(r_m6_1 < 0x20000000ull)) goto l_else_70_1;
    if (r_lc_2 > r_nb) { r_7k = 0ull; r_zq = 0u; r_p9 = 23u; goto l_arm_i0; }
    r_09 = r_lc_2;
    goto l_arm_f4;
l_else_70_1:;
    u64 r_3o_1 = (r_lc_2 + 0xffffffffc0000000ull);
    if ((r_lc_2 < 0x40000000ull) ? 1u : (r_3o_1 > r_nb)) { r_7k = 0ull; r_zq = 0u; r_p9 = 23u; goto l_arm_i0; }
    r_09 = r_3o_1;
l_arm_f4:;
    r_4r = (u32)r_09;
    if (r_n1) { r_7k = 0ull; r_zq = 0u; r_p9 = 26u; goto l_arm_i0; }
    r_8u = (r_nb < (r_09 + r_lc_1));
    if ((u8)((u8)t_pa | (u8)r_8u)) goto l_capnp_5r;
    if (!(ld8(a_7) == 1u)) { r_5b = r_4r; goto l_arm_7a; }
    r_52_2 = ld64(r_rq);
    if (r_52_2 < r_lc_1) { r_7k = 0ull; r_zq = 0u; r_p9 = 30u; goto l_arm_i0; }
    st64(a_7, 1ull);
    st64(r_rq, (r_52_2 - r_lc_1));
    r_5b = r_4r;
    goto l_arm_7a;
l_capnp_5r:;
    if (r_8u) { r_7k = 0ull; r_zq = 0u; r_p9 = 23u; goto l_arm_i0; }
    r_5b = (r_8u ? 0u : r_4r);
l_arm_7a:;
    if (!t_q5) { r_dl = r_ep; r_9n = r_y6; goto l_capnp_hv; }
    u64 r_24_2 = (u64)r_5b;
    r_lc_3 = (r_q7 + r_24_2);
    r_z6_3 = (u64)(r_q7 << 3ull);
    r_2b_1 = away(r_rv_1, (u64)(r_24_2 << 3ull));
    if (r_q7 < 32ull) { r_nm = r_q7; goto l_loop_jc; }
    goto l_else_wj;
l_loop_jc:;
    if (r_nm == 0ull) { r_p3 = 0ull; goto l_capnp_bk; }
    u64 r_0f_2 = (r_nm + 0xffffffffffffffffull);
    if (ld64(away(r_2b_1, (u64)(r_0f_2 << 3ull))) == 0ull) { r_nm = r_0f_2; goto l_loop_jc; }
    r_p3 = r_nm;
    goto l_capnp_bk;
l_else_wj:;
    if (!(ld64(away(away(r_2b_1, r_z6_3), 0xfffffffffffffff8ull)) == 0ull)) { r_p3 = r_q7; goto l_capnp_bk; }
    u64 r_qz = capnp_words_lanes_used_words_bound(r_2b_1, r_z6_3);
    r_nm_1 = r_qz;
l_loop_jc_1:;
    if (r_nm_1 == 0ull) { r_p3 = 0ull; goto l_capnp_bk; }
    u64 r_0f_3 = (r_nm_1 + 0xffffffffffffffffull);
    if (ld64(away(r_2b_1, (u64)(r_0f_3 << 3ull))) == 0ull) { r_nm_1 = r_0f_3; goto l_loop_jc_1; }
    r_p3 = r_nm_1;
l_capnp_bk:;
    r_z6_4 = (u64)(r_y6 << 3ull);
    r_2b_2 = away(r_rv_1, (u64)(r_lc_3 << 3ull));
    if (r_qw_3 < 0x20000000000000ull) { r_nm_2 = r_y6; goto l_loop_jc_2; }
    goto l_else_wj_1;
l_loop_jc_2:;
    if (r_nm_2 == 0ull) { r_dl = r_p3; r_9n = 0ull; goto l_capnp_hv; }
    u64 r_0f_4 = (r_nm_2 + 0xffffffffffffffffull);
    if (ld64(away(r_2b_2, (u64)(r_0f_4 << 3ull))) == 0ull) { r_nm_2 = r_0f_4; goto l_loop_jc_2; }
    r_dl = r_p3;
    r_9n = r_nm_2;
    goto l_capnp_hv;
l_else_wj_1:;
    if (!(ld64(away(away(r_2b_2, r_z6_4), 0xfffffffffffffff8ull)) == 0ull)) { r_dl = r_p3; r_9n = r_y6; goto l_capnp_hv; }
    u64 r_qz_1 = capnp_words_lanes_used_words_bound(r_2b_2, r_z6_4);
    r_nm_3 = r_qz_1;
l_loop_jc_3:;
    if (r_nm_3 == 0ull) { r_dl = r_p3; r_9n = 0ull; goto l_capnp_hv; }
    u64 r_0f_5 = (r_nm_3 + 0xffffffffffffffffull);
    if (ld64(away(r_2b_2, (u64)(r_0f_5 << 3ull))) == 0ull) { r_nm_3 = r_0f_5; goto l_loop_jc_3; }
    r_dl = r_p3;
    r_9n = r_nm_3;
l_capnp_hv:;
    r_xg = (u16)r_dl;
    r_29 = ((u32)r_dl & 65535u);
    r_az = ((u32)r_9n & 65535u);
    r_68 = (r_az + r_29);
    if (!(r_68 == 0u)) goto l_join_lx;
    if (!r_sz) goto l_else_n6;
    u64 r_24_3 = (u64)r_7m;
    st64(away(ldp(r_xm), (u64)(r_24_3 << 3ull)), 0xfffffffcull);
    r_ro = r_24_3;
    goto l_capnp_sg;
l_else_n6:;
    capnp_arena_arena_rows_put_word_in_4426f83c3c99ca57(ldp(r_yf), r_0f, r_7m, 0xfffffffcull);
    r_ro = (u64)r_7m;
l_capnp_sg:;
    r_nu = ((u64)(r_ro << 32ull) | r_7l);
    goto l_arm_zo;
l_join_lx:;
    if (!r_sz) goto l_else_xr;
    r_yf_3 = ld32(r_h6);
    r_52_3 = ld64(r_su);
    if (((u64)r_yf_3 + (u64)r_68) > (u64)((ld64(r_r2) + r_52_3) >> 3ull)) { r_kw = 0u; r_re = 0u; goto l_join_ax; }
    r_w0_2 = (r_yf_3 + r_68);
    r_z6_5 = (u64)((u64)r_w0_2 << 3ull);
    if (!(r_52_3 < r_z6_5)) goto l_capnp_9l;
    capnp_messages_messages_copy_memory_CopySegment_zero_up_to(r_xm, r_z6_5);
l_capnp_9l:;
    st32(r_h6, r_w0_2);
    r_kw = 1u;
    r_re = r_yf_3;
l_join_ax:;
    struct s_i8_i32 t_9l = (struct s_i8_i32){ 0 };
    t_9l.f0 = r_kw;
    struct s_i8_i32 t_3s = t_9l;
    t_3s.f1 = r_re;
    r_jz = t_3s;
    goto l_capnp_c2;
l_else_xr:;
    struct s_i8_i32 r_tu_1 = capnp_arena_arena_rows_allocate_in_4426f83c3c99ca57(ldp(r_yf), r_0f, r_68);
    r_jz = r_tu_1;
l_capnp_c2:;
    if (!(r_jz.f0 == 1u)) goto l_arm_2h_1;
    r_xo_1 = r_jz.f1;
    r_a7 = ((((u64)(r_dl << 32ull) & 0xffff00000000ull) | (u64)(r_9n << 48ull)) | (u64)(u32)((r_xo_1 + (r_7m ^ 0xffffffffu)) << 2u));
    if (!r_sz) goto l_else_6u;
    st64(away(ldp(r_xm), (u64)((u64)r_7m << 3ull)), r_a7);
    goto l_capnp_qg;
l_else_6u:;
    capnp_arena_arena_rows_put_word_in_4426f83c3c99ca57(ldp(r_yf), r_0f, r_7m, r_a7);
    goto l_capnp_qg;
l_arm_2h_1:;
    capnp_arena_arena_builder_arena_impl_BuilderArenaImplB_c2fb55cd(slot_1, a_2, (r_68 + 1u));
    if (!(ld8(slot_1) == 0u)) goto l_arm_vh_1;
    r_yf_4 = ld32(r_ix);
    r_e3_1 = ld32(r_x5_2);
    r_ll_1 = (r_e3_1 + 1u);
    r_r8 = (((u64)(r_dl << 32ull) & 0xffff00000000ull) | (u64)(r_9n << 48ull));
    if (!(r_yf_4 == 0u)) goto l_else_eu_2;
    u64 r_z6_6 = (u64)((u64)r_e3_1 << 3ull);
    st64(away(ldp(r_xm), r_z6_6), r_r8);
    r_59_1 = r_z6_6;
    goto l_capnp_9d_1;
l_else_eu_2:;
    u64 r_24_4 = (u64)r_yf_4;
    capnp_arena_arena_rows_put_word_in_4426f83c3c99ca57(ldp(r_yf), (r_24_4 + 0xffffffffffffffffull), r_e3_1, r_r8);
    r_59_1 = ((u64)(r_24_4 << 32ull) | (u64)((u64)r_e3_1 << 3ull));
l_capnp_9d_1:;
    r_ni_1 = (r_59_1 | 2ull);
    if (!r_sz) goto l_else_6u_1;
    st64(away(ldp(r_xm), (u64)((u64)r_7m << 3ull)), r_ni_1);
    goto l_capnp_k5;
l_else_6u_1:;
    capnp_arena_arena_rows_put_word_in_4426f83c3c99ca57(ldp(r_yf), r_0f, r_7m, r_ni_1);
    goto l_capnp_k5;
l_capnp_qg:;
    r_nu = ((u64)((u64)r_xo_1 << 32ull) | r_7l_1);
    goto l_arm_zo;
l_capnp_k5:;
    r_nu = ((u64)((u64)r_ll_1 << 32ull) | (u64)r_yf_4);
l_arm_zo:;
    r_wt = (u32)r_nu;
    r_ep_1 = (u64)(r_nu >> 32ull);
    r_4r_1 = (u32)r_ep_1;
    r_0l = ((u64)(r_dl << 3ull) & 0x7fff8ull);
    r_2b_3 = away(r_rv_1, (u64)((u64)r_5b << 3ull));
    if (r_xg == 0u) goto l_capnp_5c;
    if (!(r_wt == 0u)) goto l_else_h1_1;
    r_al = ldp(r_xm);
    goto l_capnp_kr;
l_else_h1_1:;
    u8 *r_x5_7 = capnp_arena_arena_rows_Rows_other_mut_4426f83c3c99ca57(r_xm, r_wt);
    r_al = r_x5_7;
l_capnp_kr:;
    r_2b_4 = away(r_al, (u64)(r_ep_1 << 3ull));
    if (!(r_xg < 8u)) goto l_else_r3_1;
    if (!(r_xg > 3u)) goto l_else_1o;
    mv32(r_2b_4, r_2b_3);
    u64 r_bh_1 = (r_0l + 0xffffffffffffffe0ull);
    mv32((r_2b_4 + (i64)(r_bh_1)), (r_2b_3 + (i64)(r_bh_1)));
    goto l_capnp_5c;
l_else_1o:;
    if (r_xg == 1u) goto l_then_49_1;
    mv16(r_2b_4, r_2b_3);
    u64 r_8f_1 = (r_0l + 0xfffffffffffffff0ull);
    mv16((r_2b_4 + (i64)(r_8f_1)), (r_2b_3 + (i64)(r_8f_1)));
    goto l_capnp_5c;
l_then_49_1:;
    mv8(r_2b_4, r_2b_3);
    u64 r_la_2 = (r_0l + 0xfffffffffffffff8ull);
    mv8((r_2b_4 + (i64)(r_la_2)), (r_2b_3 + (i64)(r_la_2)));
    goto l_capnp_5c;
l_else_r3_1:;
    if (((u64)(uptr)r_2b_4 - (u64)(uptr)r_2b_3) < r_0l) { r_il_1 = 0ull; goto l_join_fh_1; }
    memmove_or_none(r_2b_4, r_2b_3, r_0l);
    goto l_capnp_5c;
l_join_fh_1:;
    st8((r_2b_4 + (i64)(r_il_1)), ld8((r_2b_3 + (i64)(r_il_1))));
    u64 r_c4_3 = (r_il_1 + 1ull);
    if (!(r_c4_3 == r_0l)) { r_il_1 = r_c4_3; goto l_join_fh_1; }
l_capnp_5c:;
    memset(slot_1, 0u, 24);
    st64(t_6c, 0ull);
    if (r_az == 0u) { r_2b_5 = 0u; r_qh = 0u; r_ip = 0u; r_wq = 0ull; goto l_capnp_no; }
    st64(slot_2, r_eg);
    stp(r_x5_3, r_rv);
    st64(r_zd_3, r_qw);
    st64(r_lk_1, r_qw_1);
    stp(r_89_1, r_rv_1);
    st64(r_a8_1, r_qw_2);
    st32(r_c4_1, (r_5b + ((u32)r_ep & 65535u)));
    st32(r_bk, 0u);
    st32(r_6c_1, r_mx);
    capnp_copies_copy_children_copy_children_out_of_line_7_ae79832a(slot_1, a_2, r_wt, (r_29 + r_4r_1), slot_2, r_az, a_7, a_8);
    r_2b_5 = ld8(slot_1);
    r_qh = ld8(r_x5_4);
    r_ip = ld32(r_k0_2);
    r_wq = ld64(r_zd_4);
l_capnp_no:;
    t_i2 = r_wq;
    t_1i = r_ip;
    r_k7 = r_qh;
    t_yl = r_2b_5;
    goto l_capnp_6w;
l_arm_vh_1:;
    t_i2 = ld64(r_zd_2);
    t_1i = ld32(r_k0_1);
    r_k7 = ld8(r_x5_2);
    t_yl = 1u;
    goto l_capnp_6w;
l_else_4r:;
    st64(slot_4, r_eg);
    stp(r_x5, r_rv);
    st64(r_zd, r_qw);
    st64(r_lk, r_qw_1);
    stp(r_89, r_rv_1);
    st64(r_a8, r_qw_2);
    st64(r_c4, r_24);
    st32(r_6c, r_5k_1);
    capnp_copies_copy_copy_object_789b5ce0078f2be2(slot_3, a_2, a_3, r_7m, slot_4, a_7, a_8);
    t_i2 = ld64(r_zd_1);
    t_1i = ld32(r_k0);
    r_k7 = ld8(r_x5_1);
    t_yl = ld8(slot_3);
    goto l_capnp_6w;
l_capnp_v7:;
    goto l_loop_da;
l_capnp_6w:;
    if (t_yl == 0u) goto l_loop_da;
    r_uo = t_i2;
    r_93 = t_1i;
    r_8y = r_k7;
    goto l_arm_12;
l_arm_i0:;
    r_uo = r_7k;
    r_93 = r_zq;
    r_8y = r_p9;
l_arm_12:;
    r_10 = 1u;
    r_kb = (u32)r_8y;
    r_n4 = r_93;
    r_yp = r_uo;
l_capnp_9c:;
    st8(a_1, r_10);
    st32(away(a_1, 8ull), r_kb);
    st32(away(a_1, 12ull), r_n4);
    st64(away(a_1, 16ull), r_yp);
    return;
}

/* capnp_messages::messages::copy_size::add_value::<#70170357b7303457> */
static void capnp_messages_messages_copy_size_add_value_70170357b7303457(u8 *a_1, u8 *a_2, u32 a_3, u32 a_4, u32 a_5, u8 *a_6)
{
    A(8) u8 slot_1[56];
    A(8) u8 slot_2[64];
    A(8) u8 slot_3[64];
    A(8) u8 slot_4[64];
    A(8) u8 slot_5[24];
    u64 r_52;
    u8 *r_xw;
    u64 r_38;
    u8 r_y8;
    u8 *r_rq;
    u8 *r_xw_1;
    u64 r_7l;
    u64 r_gw;
    u64 r_qw;
    u8 t_pa;
    u64 r_lc;
    u64 r_nb;
    u64 r_yz;
    u32 r_gx;
    u32 r_qd;
    u64 r_d4;
    u64 r_9h;
    u64 r_27;
    u8 *r_hv;
    u64 r_ep;
    u64 r_y6;
    u64 r_lc_1;
    u8 *r_rq_1;
    u64 r_52_1;
    u64 r_ep_1;
    u8 switch_wl;
    u64 r_ij;
    u64 r_c4;
    u64 r_24;
    u64 r_gw_1;
    u8 *r_rq_2;
    u64 r_52_2;
    u64 r_eh;
    u32 t_c8;
    u32 r_12;
    u32 r_az;
    u32 r_68;
    u64 r_c0;
    u8 *r_rq_3;
    u64 r_52_3;
    u32 r_12_1;
    u8 *r_rq_4;
    u64 r_52_4;
    u32 r_12_2;
    u8 *r_rq_5;
    u64 r_52_5;
    u32 r_12_3;
    u64 r_c6;
    u8 *r_rq_6;
    u64 r_52_6;
    u64 r_2g;
    u64 r_jg;
    u64 r_6e;
    u32 r_v1;
    u32 r_pr;
    u8 r_oq;
    u32 r_5v;
    u32 r_2t;
    u16 r_t8;
    u32 r_5d;
    u16 r_gr;
    u32 r_98;
    u32 r_pp;
    u32 r_9q;
    u32 r_ai;
    u32 r_m0;
    u64 r_ph;
    u64 r_es;
    u64 r_u7;
    u64 r_lc_3;
    u64 r_24_1;
    u64 r_z6;
    u8 r_c6_1;
    u32 r_xu;
    u32 r_t2;
    u64 r_4c_1;
    u8 *r_2b;
    u64 r_nm;
    u64 r_nm_1;
    u64 r_js;
    u32 spec_xy;
    u64 r_z6_1;
    u8 r_p1;
    u32 r_q6;
    u32 r_5w;
    u64 r_cx;
    u8 *r_2b_1;
    u64 r_nm_2;
    u64 r_nm_3;
    u64 r_js_1;
    u32 spec_xy_1;
    u32 r_p0;
    u32 r_y6_1;
    u32 r_zi;
    u32 r_3l;
    u64 r_4c;
    u8 *r_tz;
    u64 r_lc_2;
    u8 r_kk;
    u16 r_hp;
    u16 r_mw;
    u32 r_y9;
    u64 r_lc_4;
    u32 r_12_4;
    u32 r_mx;
    memset(slot_2, 0u, 64);
    memset(slot_3, 0u, 64);
    memset(slot_4, 0u, 64);
    memset(slot_5, 0u, 24);
    r_52 = ld64(away(a_2, 24ull));
    r_xw = ldp(away(a_2, 32ull));
    r_38 = ld64(away(a_2, 40ull));
    r_y8 = ld8(a_2);
    r_rq = away(a_2, 8ull);
    r_xw_1 = ldp(r_rq);
    r_7l = (u64)a_3;
    r_gw = (u64)(r_38 >> 3ull);
    if (!(r_gw > r_7l)) goto l_join_ud;
    r_qw = ld64(away(r_xw, (u64)(r_7l << 3ull)));
    if (r_qw == 0ull) goto l_join_ud;
    memset(slot_1, 0u, 56);
    t_pa = (r_y8 != 0u);
    if (t_pa) goto l_capnp_sm;
    u8 *r_08 = away(a_6, 16ull);
    st64(r_08, uadd_sat64(ld64(r_08), 1ull));
    if ((r_qw & 3ull) == 2ull) goto l_capnp_d1;
    goto l_join_bd;
l_capnp_sm:;
    if (!((r_qw & 3ull) == 2ull)) goto l_join_bd;
    st32((slot_1 + 8), 32u);
    r_2g = ld64((slot_1 + 8));
    goto l_capnp_8g;
l_join_bd:;
    u64 r_m6 = ((u64)(r_qw >> 2ull) & 0x3fffffffull);
    r_lc = ((r_7l + 1ull) + r_m6);
    r_nb = (r_gw & 0xffffffffull);
    if (!(r_m6 < 0x20000000ull)) goto l_else_70;
    if (r_lc > r_nb) { r_2g = 23ull; goto l_capnp_8g; }
    r_yz = r_lc;
    goto l_capnp_i5;
l_else_70:;
    u64 r_3o = (r_lc + 0xffffffffc0000000ull);
    if ((r_lc < 0x40000000ull) ? 1u : (r_3o > r_nb)) { r_2g = 23ull; goto l_capnp_8g; }
    r_yz = r_3o;
l_capnp_i5:;
    r_gx = 0u;
    r_qd = (u32)r_yz;
    r_d4 = r_52;
    r_9h = r_qw;
    r_27 = r_38;
    r_hv = r_xw;
    goto l_arm_wn;
l_capnp_d1:;
    capnp_pointers_source_follow_far_70170357b7303457(slot_1, r_xw_1, r_qw, a_6);
    u64 r_38_1 = ld64((slot_1 + 16));
    u64 r_38_2 = ld64((slot_1 + 8));
    if (ld8(slot_1) == 0u) { r_gx = ld32((slot_1 + 44)); r_qd = ld32((slot_1 + 40)); r_d4 = r_38_1; r_9h = r_38_2; r_27 = ld64((slot_1 + 32)); r_hv = ((u8 *)(uptr)ld64((slot_1 + 24))); goto l_arm_wn; }
    r_jg = r_38_1;
    r_6e = r_38_2;
    goto l_capnp_qu;
l_arm_wn:;
    switch ((u8)((u8)r_9h & 3u)) {
    case 0u: goto l_arm_9l;
    case 1u: goto l_arm_z2;
    case 2u: { r_pp = 1u; r_9q = 0u; r_ai = 13u; r_m0 = 0u; r_ph = 0ull; goto l_common_4n; }
    case 3u: goto l_capnp_7o;
    default: goto l_default_e1;
    }
l_arm_9l:;
    r_ep = (u64)(r_9h >> 32ull);
    r_y6 = (u64)(r_9h >> 48ull);
    if ((i32)a_4 < (i32)1u) { r_pp = 1u; r_9q = 0u; r_ai = 26u; r_m0 = 0u; r_ph = 0ull; goto l_common_4n; }
    r_lc_1 = ((r_ep & 65535ull) + r_y6);
    if (((u64)(r_27 >> 3ull) & 0xffffffffull) < (r_lc_1 + (u64)r_qd)) { r_pp = 1u; r_9q = 0u; r_ai = 23u; r_m0 = 0u; r_ph = 0ull; goto l_common_4n; }
    if (t_pa) goto l_arm_mf;
    if (!(ld8(a_6) == 1u)) goto l_arm_mf;
    r_rq_1 = away(a_6, 8ull);
    r_52_1 = ld64(r_rq_1);
    if (r_52_1 < r_lc_1) { r_pp = 1u; r_9q = 0u; r_ai = 30u; r_m0 = 0u; r_ph = 0ull; goto l_common_4n; }
    st64(a_6, 1ull);
    st64(r_rq_1, (r_52_1 - r_lc_1));
l_arm_mf:;
    r_v1 = r_qd;
    r_pr = r_gx;
    r_oq = 2u;
    r_5v = ((u32)((u32)r_y6 << 16u) | ((u32)r_ep & 65535u));
    r_2t = 0u;
    goto l_arm_tt;
l_arm_z2:;
    r_ep_1 = (u64)(r_9h >> 32ull);
    switch_wl = (u8)((u8)r_ep_1 & 7u);
    r_ij = (u64)(r_9h >> 35ull);
    switch (switch_wl) {
    case 7u: goto l_arm_kl;
    case 6u: goto l_arm_oi;
    case 0u: goto l_arm_oi_1;
    case 1u: goto l_arm_oi_2;
    case 2u: goto l_arm_oi_2;
    case 3u: goto l_arm_oi_2;
    case 4u: goto l_arm_oi_2;
    case 5u: goto l_arm_oi_2;
    default: goto l_default_e1;
    }
l_arm_kl:;
    if ((i32)a_4 < (i32)1u) { r_pp = 1u; r_9q = 0u; r_ai = 26u; r_m0 = 0u; r_ph = 0ull; goto l_common_4n; }
    r_c4 = (r_ij + 1ull);
    r_24 = (u64)r_qd;
    r_gw_1 = (u64)(r_27 >> 3ull);
    if ((r_gw_1 & 0xffffffffull) < (r_c4 + r_24)) { r_pp = 1u; r_9q = 0u; r_ai = 23u; r_m0 = 0u; r_ph = 0ull; goto l_common_4n; }
    if (t_pa) goto l_arm_ga;
    if (!(ld8(a_6) == 1u)) goto l_arm_ga;
    r_rq_2 = away(a_6, 8ull);
    r_52_2 = ld64(r_rq_2);
    if (!(r_52_2 > r_ij)) { r_pp = 1u; r_9q = 0u; r_ai = 30u; r_m0 = 0u; r_ph = 0ull; goto l_common_4n; }
    st64(a_6, 1ull);
    st64(r_rq_2, (r_52_2 - r_c4));
l_arm_ga:;
    if (!(r_gw_1 > r_24)) { r_eh = 0ull; goto l_join_qm; }
    u64 r_qw_1 = ld64(away(r_hv, (u64)(r_24 << 3ull)));
    if ((r_qw_1 & 3ull) == 0ull) { r_eh = r_qw_1; goto l_join_qm; }
    r_pp = 1u;
    r_9q = 0u;
    r_ai = 11u;
    r_m0 = 0u;
    r_ph = 0ull;
    goto l_common_4n;
l_join_qm:;
    t_c8 = (u32)((u32)r_eh >> 2u);
    r_12 = (u32)(u64)(r_eh >> 48ull);
    r_az = ((u32)(u64)(r_eh >> 32ull) & 65535u);
    r_68 = (r_az + r_12);
    r_c0 = (u64)t_c8;
    if (r_ij < ((u64)r_68 * r_c0)) { r_pp = 1u; r_9q = 0u; r_ai = 10u; r_m0 = 0u; r_ph = 0ull; goto l_common_4n; }
    if ((u8)((u8)t_pa | (u8)(r_68 != 0u))) goto l_arm_8v;
    if (!(ld8(a_6) == 1u)) goto l_arm_8v;
    r_rq_3 = away(a_6, 8ull);
    r_52_3 = ld64(r_rq_3);
    if (r_52_3 < r_c0) { r_pp = 1u; r_9q = 0u; r_ai = 30u; r_m0 = 0u; r_ph = 0ull; goto l_common_4n; }
    st64(a_6, 1ull);
    st64(r_rq_3, (r_52_3 - r_c0));
l_arm_8v:;
    r_v1 = (r_qd + 1u);
    r_pr = 0u;
    r_oq = 5u;
    r_5v = ((u32)(r_12 << 16u) | r_az);
    r_2t = t_c8;
    goto l_arm_tt;
l_arm_oi:;
    r_12_1 = (u32)r_ij;
    if ((i32)a_4 < (i32)1u) { r_pp = 1u; r_9q = 0u; r_ai = 26u; r_m0 = 0u; r_ph = 0ull; goto l_common_4n; }
    if (((u64)(r_27 >> 3ull) & 0xffffffffull) < (r_ij + (u64)r_qd)) { r_pp = 1u; r_9q = 0u; r_ai = 23u; r_m0 = 0u; r_ph = 0ull; goto l_common_4n; }
    if (t_pa) { r_v1 = r_qd; r_pr = r_gx; r_oq = 4u; r_5v = r_12_1; r_2t = 0u; goto l_arm_tt; }
    if (!(ld8(a_6) == 1u)) { r_v1 = r_qd; r_pr = r_gx; r_oq = 4u; r_5v = r_12_1; r_2t = 0u; goto l_arm_tt; }
    r_rq_4 = away(a_6, 8ull);
    r_52_4 = ld64(r_rq_4);
    if (r_52_4 < r_ij) { r_pp = 1u; r_9q = 0u; r_ai = 30u; r_m0 = 0u; r_ph = 0ull; goto l_common_4n; }
    st64(a_6, 1ull);
    st64(r_rq_4, (r_52_4 - r_ij));
    r_v1 = r_qd;
    r_pr = r_gx;
    r_oq = 4u;
    r_5v = r_12_1;
    r_2t = 0u;
    goto l_arm_tt;
l_arm_oi_1:;
    r_12_2 = (u32)r_ij;
    if ((i32)a_4 < (i32)1u) { r_pp = 1u; r_9q = 0u; r_ai = 26u; r_m0 = 0u; r_ph = 0ull; goto l_common_4n; }
    if (((u64)(r_27 >> 3ull) & 0xffffffffull) < (u64)r_qd) { r_pp = 1u; r_9q = 0u; r_ai = 23u; r_m0 = 0u; r_ph = 0ull; goto l_common_4n; }
    if (t_pa) { r_v1 = r_qd; r_pr = r_gx; r_oq = 3u; r_5v = 0u; r_2t = r_12_2; goto l_arm_tt; }
    if (!(ld8(a_6) == 1u)) { r_v1 = r_qd; r_pr = r_gx; r_oq = 3u; r_5v = 0u; r_2t = r_12_2; goto l_arm_tt; }
    st64(a_6, 1ull);
    r_rq_5 = away(a_6, 8ull);
    r_52_5 = ld64(r_rq_5);
    if (r_52_5 < r_ij) { r_pp = 1u; r_9q = 0u; r_ai = 30u; r_m0 = 0u; r_ph = 0ull; goto l_common_4n; }
    st64(r_rq_5, (r_52_5 - r_ij));
    r_v1 = r_qd;
    r_pr = r_gx;
    r_oq = 3u;
    r_5v = 0u;
    r_2t = r_12_2;
    goto l_arm_tt;
l_arm_oi_2:;
    r_12_3 = (u32)r_ij;
    if ((i32)a_4 < (i32)1u) { r_pp = 1u; r_9q = 0u; r_ai = 26u; r_m0 = 0u; r_ph = 0ull; goto l_common_4n; }
    r_c6 = (u64)(((ld64(away(away(((u8 *)switch_table_main_18), 8 * (r_ep_1 & 7ull)), 0xfffffffffffffff8ull)) * r_ij) + 63ull) >> 6ull);
    if (((u64)(r_27 >> 3ull) & 0xffffffffull) < (r_c6 + (u64)r_qd)) { r_pp = 1u; r_9q = 0u; r_ai = 23u; r_m0 = 0u; r_ph = 0ull; goto l_common_4n; }
    if (t_pa) goto l_arm_eq;
    if (!(ld8(a_6) == 1u)) goto l_arm_eq;
    r_rq_6 = away(a_6, 8ull);
    r_52_6 = ld64(r_rq_6);
    if (r_52_6 < r_c6) { r_pp = 1u; r_9q = 0u; r_ai = 30u; r_m0 = 0u; r_ph = 0ull; goto l_common_4n; }
    st64(a_6, 1ull);
    st64(r_rq_6, (r_52_6 - r_c6));
l_arm_eq:;
    r_v1 = r_qd;
    r_pr = r_gx;
    r_oq = 3u;
    r_5v = (u32)switch_wl;
    r_2t = r_12_3;
    goto l_arm_tt;
l_default_e1:;
    UNREACHABLE();
l_capnp_8g:;
    r_jg = 0ull;
    r_6e = r_2g;
l_capnp_qu:;
    r_pp = 1u;
    r_9q = 0u;
    r_ai = ((u32)r_6e & 255u);
    r_m0 = (u32)(u64)(r_6e >> 32ull);
    r_ph = r_jg;
    goto l_common_4n;
l_join_ud:;
    r_p0 = 0u;
    r_y6_1 = 0u;
    r_zi = 0u;
    r_3l = 0u;
    r_4c = 0ull;
    r_tz = ((u8 *)0);
    r_lc_2 = 0ull;
    r_kk = 0u;
    r_hp = 0u;
    r_mw = 0u;
    r_y9 = 0u;
    goto l_capnp_qq;
l_arm_tt:;
    r_t8 = (u16)r_5v;
    r_5d = (u32)(r_5v >> 16u);
    r_gr = (u16)r_5d;
    r_98 = (u32)(r_5v >> 8u);
    switch (r_oq) {
    case 5u: goto l_arm_6q;
    case 4u: { r_p0 = r_2t; r_y6_1 = r_5v; r_zi = r_pr; r_3l = r_v1; r_4c = r_27; r_tz = r_hv; r_lc_2 = r_d4; r_kk = r_oq; r_hp = r_t8; r_mw = r_gr; r_y9 = r_5v; goto l_capnp_qq; }
    case 2u: goto l_arm_89;
    case 3u: goto l_arm_5j;
    default: goto l_noarm_e1;
    }
l_capnp_7o:;
    r_pp = 1u;
    r_9q = 0u;
    r_ai = (((r_9h & 0xffffffffull) == 3ull) ? 1u : 34u);
    r_m0 = 0u;
    r_ph = 0ull;
l_common_4n:;
    st32(a_1, r_pp);
    st32(away(a_1, 4ull), r_9q);
    st32(away(a_1, 8ull), r_ai);
    st32(away(a_1, 12ull), r_m0);
    st64(away(a_1, 16ull), r_ph);
    return;
l_arm_89:;
    st64(slot_1, r_d4);
    stp((slot_1 + 8), r_hv);
    st64((slot_1 + 16), r_27);
    st32((slot_1 + 24), r_v1);
    st32((slot_1 + 28), r_pr);
    u32 r_28 = capnp_messages_messages_copy_size_struct_words(slot_1, (u16)((u16)((u32)(u16)r_98 << 8u) | (u16)(r_t8 & 255u)), r_gr);
    r_p0 = r_2t;
    r_y6_1 = r_5v;
    r_zi = r_pr;
    r_3l = r_v1;
    r_4c = r_27;
    r_tz = r_hv;
    r_lc_2 = r_d4;
    r_kk = 2u;
    r_hp = r_t8;
    r_mw = r_gr;
    r_y9 = r_28;
    goto l_capnp_qq;
l_arm_5j:;
    r_p0 = r_2t;
    r_y6_1 = r_5v;
    r_zi = r_pr;
    r_3l = r_v1;
    r_4c = r_27;
    r_tz = r_hv;
    r_lc_2 = r_d4;
    r_kk = 3u;
    r_hp = r_t8;
    r_mw = r_gr;
    r_y9 = (u32)(u64)(((ld64((((u8 *)switch_table_capnp_messages_messages_copy_size_add_val_ffe97267) + (i64)(8 * (u64)(r_5v & 255u)))) * (u64)r_2t) + 63ull) >> 6ull);
    goto l_capnp_qq;
l_arm_6q:;
    if (r_2t == 0u) { r_p0 = 0u; r_y6_1 = r_5v; r_zi = r_pr; r_3l = r_v1; r_4c = r_27; r_tz = r_hv; r_lc_2 = r_d4; r_kk = 5u; r_hp = r_t8; r_mw = r_gr; r_y9 = 1u; goto l_capnp_qq; }
    u16 r_pz = (u16)((u16)((u32)(u16)r_98 << 8u) | (u16)(r_t8 & 255u));
    r_es = (u64)r_5d;
    r_u7 = (u64)r_pz;
    r_lc_3 = (r_u7 + r_es);
    r_24_1 = (u64)r_v1;
    r_z6 = (u64)(r_u7 << 3ull);
    r_c6_1 = (r_pz < 32u);
    r_xu = 0u;
    r_t2 = 0u;
    r_4c_1 = r_24_1;
l_join_n8:;
    r_2b = away(r_hv, (u64)(r_4c_1 << 3ull));
    if (r_c6_1) { r_nm = r_u7; goto l_loop_jc; }
    goto l_else_wj;
l_loop_jc:;
    if (r_nm == 0ull) { r_js = 0ull; goto l_capnp_xf; }
    u64 r_0f = (r_nm + 0xffffffffffffffffull);
    if (ld64(away(r_2b, (u64)(r_0f << 3ull))) == 0ull) { r_nm = r_0f; goto l_loop_jc; }
    r_js = r_nm;
    goto l_capnp_xf;
l_else_wj:;
    if (!(ld64(away(away(r_2b, r_z6), 0xfffffffffffffff8ull)) == 0ull)) { r_js = r_u7; goto l_capnp_xf; }
    u64 r_qz = capnp_words_lanes_used_words_bound(r_2b, r_z6);
    r_nm_1 = r_qz;
l_loop_jc_1:;
    if (r_nm_1 == 0ull) { r_js = 0ull; goto l_capnp_xf; }
    u64 r_0f_1 = (r_nm_1 + 0xffffffffffffffffull);
    if (ld64(away(r_2b, (u64)(r_0f_1 << 3ull))) == 0ull) { r_nm_1 = r_0f_1; goto l_loop_jc_1; }
    r_js = r_nm_1;
l_capnp_xf:;
    spec_xy = umax32((u32)r_js, r_t2);
    u32 r_ff = (r_xu + 1u);
    if (!(r_ff == r_2t)) { u32 r_1 = r_ff; u32 r_2 = spec_xy; u64 r_3 = (r_4c_1 + r_lc_3); r_xu = r_1; r_t2 = r_2; r_4c_1 = r_3; goto l_join_n8; }
    r_z6_1 = (u64)(r_es << 3ull);
    r_p1 = (r_5v < 0x200000u);
    r_q6 = 0u;
    r_5w = 0u;
    r_cx = r_24_1;
l_join_my:;
    r_2b_1 = away(r_hv, (u64)((r_cx + r_u7) << 3ull));
    if (r_p1) { r_nm_2 = r_es; goto l_loop_jc_2; }
    goto l_else_wj_1;
l_loop_jc_2:;
    if (r_nm_2 == 0ull) { r_js_1 = 0ull; goto l_capnp_xf_1; }
    u64 r_0f_2 = (r_nm_2 + 0xffffffffffffffffull);
    if (ld64(away(r_2b_1, (u64)(r_0f_2 << 3ull))) == 0ull) { r_nm_2 = r_0f_2; goto l_loop_jc_2; }
    r_js_1 = r_nm_2;
    goto l_capnp_xf_1;
l_else_wj_1:;
    if (!(ld64(away(away(r_2b_1, r_z6_1), 0xfffffffffffffff8ull)) == 0ull)) { r_js_1 = r_es; goto l_capnp_xf_1; }
    u64 r_qz_1 = capnp_words_lanes_used_words_bound(r_2b_1, r_z6_1);
    r_nm_3 = r_qz_1;
l_loop_jc_3:;
    if (r_nm_3 == 0ull) { r_js_1 = 0ull; goto l_capnp_xf_1; }
    u64 r_0f_3 = (r_nm_3 + 0xffffffffffffffffull);
    if (ld64(away(r_2b_1, (u64)(r_0f_3 << 3ull))) == 0ull) { r_nm_3 = r_0f_3; goto l_loop_jc_3; }
    r_js_1 = r_nm_3;
l_capnp_xf_1:;
    spec_xy_1 = umax32((u32)r_js_1, r_5w);
    u32 r_ff_1 = (r_q6 + 1u);
    if (!(r_ff_1 == r_2t)) { u32 r_4 = r_ff_1; u32 r_5 = spec_xy_1; u64 r_6 = (r_cx + r_lc_3); r_q6 = r_4; r_5w = r_5; r_cx = r_6; goto l_join_my; }
    r_p0 = r_2t;
    r_y6_1 = r_5v;
    r_zi = r_pr;
    r_3l = r_v1;
    r_4c = r_27;
    r_tz = r_hv;
    r_lc_2 = r_d4;
    r_kk = 5u;
    r_hp = r_t8;
    r_mw = r_gr;
    r_y9 = (((spec_xy_1 + spec_xy) * r_2t) + 1u);
    goto l_capnp_qq;
l_noarm_e1:;
    UNREACHABLE();
l_capnp_qq:;
    r_lc_4 = ((u64)r_y9 + (u64)a_5);
    if (r_lc_4 > 0x1fffffffull) { r_pp = 1u; r_9q = 0u; r_ai = 27u; r_m0 = 0u; r_ph = 0x1fffffffull; goto l_common_4n; }
    r_12_4 = (u32)r_lc_4;
    r_mx = ((a_4 == 0x80000000u) ? 0x80000000u : (a_4 + 0xffffffffu));
    switch (r_kk) {
    case 0u: goto l_arm_jm;
    case 1u: goto l_arm_jm_1;
    case 3u: goto l_arm_jm_2;
    case 2u: goto l_arm_eo;
    case 4u: goto l_arm_eo_1;
    case 5u: goto l_arm_eo_2;
    default: goto l_default_e1;
    }
l_arm_jm:;
    st32(slot_5, 0u);
    st32((slot_5 + 4), r_12_4);
    goto l_join_v6;
l_arm_jm_1:;
    st32(slot_5, 0u);
    st32((slot_5 + 4), r_12_4);
    goto l_join_v6;
l_arm_jm_2:;
    st32(slot_5, 0u);
    st32((slot_5 + 4), r_12_4);
    goto l_join_v6;
l_arm_eo:;
    st64(slot_2, (u64)ld8(a_2));
    mv16((slot_2 + 8), r_rq);
    st64((slot_2 + 24), r_lc_2);
    stp((slot_2 + 32), r_tz);
    st64((slot_2 + 40), r_4c);
    st32((slot_2 + 48), r_3l);
    st32((slot_2 + 52), r_zi);
    st32((slot_2 + 56), r_mx);
    capnp_messages_messages_copy_size_add_elements_70170357b7303457(slot_5, slot_2, r_hp, r_mw, 1u, r_12_4, a_6);
    goto l_join_v6;
l_arm_eo_1:;
    st64(slot_3, (u64)ld8(a_2));
    mv16((slot_3 + 8), r_rq);
    st64((slot_3 + 24), r_lc_2);
    stp((slot_3 + 32), r_tz);
    st64((slot_3 + 40), r_4c);
    st32((slot_3 + 48), r_3l);
    st32((slot_3 + 52), r_zi);
    st32((slot_3 + 56), r_mx);
    capnp_messages_messages_copy_size_add_pointers_70170357b7303457(slot_5, slot_3, r_3l, r_y6_1, r_mx, r_12_4, a_6);
    goto l_join_v6;
l_arm_eo_2:;
    st64(slot_4, (u64)ld8(a_2));
    mv16((slot_4 + 8), r_rq);
    st64((slot_4 + 24), r_lc_2);
    stp((slot_4 + 32), r_tz);
    st64((slot_4 + 40), r_4c);
    st32((slot_4 + 48), r_3l);
    st32((slot_4 + 52), r_zi);
    st32((slot_4 + 56), r_mx);
    capnp_messages_messages_copy_size_add_elements_70170357b7303457(slot_5, slot_4, r_hp, r_mw, r_p0, r_12_4, a_6);
l_join_v6:;
    r_pp = (u32)ld8(slot_5);
    r_9q = ld32((slot_5 + 4));
    r_ai = (u32)ld8((slot_5 + 8));
    r_m0 = ld32((slot_5 + 12));
    r_ph = ld64((slot_5 + 16));
    goto l_common_4n;
}

/* capnp_messages::messages::copy_size::add_elements::<#70170357b7303457> */
static void capnp_messages_messages_copy_size_add_elements_70170357b7303457(u8 *a_1, u8 *a_2, u16 a_3, u16 a_4, u32 a_5, u32 a_6, u8 *a_7)
{
    A(8) u8 slot_1[24];
    u32 r_m2;
    u32 r_m2_1;
    u32 r_68;
    u8 *r_t9;
    u8 *r_r2;
    u8 *r_ix;
    u32 r_31;
    u32 r_19;
    u32 r_kt;
    memset(slot_1, 0u, 24);
    if (a_4 == 0u) goto l_then_4n;
    goto l_join_ux;
l_common_68:;
    return;
l_then_4n:;
    st32(a_1, 0u);
    st32(away(a_1, 4ull), a_6);
    memset(away(a_1, 8ull), 0u, 16);
    goto l_common_68;
l_join_ux:;
    r_m2 = (u32)a_3;
    r_m2_1 = (u32)a_4;
    r_68 = (r_m2_1 + r_m2);
    if (a_5 == 0u) { r_kt = a_6; goto l_after_iz; }
    r_t9 = away(a_2, 48ull);
    r_r2 = away(a_2, 56ull);
    r_ix = (slot_1 + 4);
    r_31 = a_6;
    r_19 = 0u;
l_join_qy:;
    capnp_messages_messages_copy_size_add_pointers_70170357b7303457(slot_1, a_2, (((r_19 * r_68) + r_m2) + ld32(r_t9)), r_m2_1, ld32(r_r2), r_31, a_7);
    if (!(ld8(slot_1) == 0u)) goto l_arm_5d;
    u32 r_yf = ld32(r_ix);
    u32 r_7t = (r_19 + 1u);
    if (r_7t == a_5) { r_kt = r_yf; goto l_after_iz; }
    r_31 = r_yf;
    r_19 = r_7t;
    goto l_join_qy;
l_arm_5d:;
    u32 r_cf = (u32)ld8((slot_1 + 8));
    u32 r_uq = ld32((slot_1 + 12));
    u64 r_38 = ld64((slot_1 + 16));
    st32(a_1, 1u);
    st32(away(a_1, 4ull), 0u);
    st32(away(a_1, 8ull), r_cf);
    st32(away(a_1, 12ull), r_uq);
    st64(away(a_1, 16ull), r_38);
    goto l_common_68;
l_after_iz:;
    st32(a_1, 0u);
    st32(away(a_1, 4ull), r_kt);
    memset(away(a_1, 8ull), 0u, 16);
    goto l_common_68;
}

/* capnp_messages::messages::copy_size::struct_words */
static u32 capnp_messages_messages_copy_size_struct_words(u8 *a_1, u16 a_2, u16 a_3)
{
    u8 *r_rv;
    u64 r_bi;
    u64 r_lc;
    u64 r_z6;
    u8 *r_2b;
    u64 r_nm;
    u64 r_nm_1;
    u64 r_w7;
    u64 r_bi_1;
    u64 r_z6_1;
    u8 *r_2b_1;
    u64 r_nm_2;
    u64 r_nm_3;
    u64 r_yv;
    r_rv = ldp((a_1 + 8));
    u64 r_24 = (u64)ld32((a_1 + 24));
    r_bi = (u64)a_2;
    r_lc = (r_24 + r_bi);
    r_z6 = (u64)(r_bi << 3ull);
    r_2b = away(r_rv, (u64)(r_24 << 3ull));
    if (a_2 < 32u) { r_nm = r_bi; goto l_loop_jc; }
    goto l_else_wj;
l_loop_jc:;
    if (r_nm == 0ull) { r_w7 = 0ull; goto l_capnp_yc; }
    u64 r_0f = (r_nm + 0xffffffffffffffffull);
    if (ld64(away(r_2b, (u64)(r_0f << 3ull))) == 0ull) { r_nm = r_0f; goto l_loop_jc; }
    r_w7 = r_nm;
    goto l_capnp_yc;
l_else_wj:;
    if (!(ld64(away(away(r_2b, r_z6), 0xfffffffffffffff8ull)) == 0ull)) { r_w7 = r_bi; goto l_capnp_yc; }
    u64 r_qz = capnp_words_lanes_used_words_bound(r_2b, r_z6);
    r_nm_1 = r_qz;
l_loop_jc_1:;
    if (r_nm_1 == 0ull) { r_w7 = 0ull; goto l_capnp_yc; }
    u64 r_0f_1 = (r_nm_1 + 0xffffffffffffffffull);
    if (ld64(away(r_2b, (u64)(r_0f_1 << 3ull))) == 0ull) { r_nm_1 = r_0f_1; goto l_loop_jc_1; }
    r_w7 = r_nm_1;
l_capnp_yc:;
    r_bi_1 = (u64)a_3;
    r_z6_1 = (u64)(r_bi_1 << 3ull);
    r_2b_1 = away(r_rv, (u64)(r_lc << 3ull));
    if (a_3 < 32u) { r_nm_2 = r_bi_1; goto l_loop_jc_2; }
    goto l_else_wj_1;
l_loop_jc_2:;
    if (r_nm_2 == 0ull) { r_yv = 0ull; goto l_capnp_7g; }
    u64 r_0f_2 = (r_nm_2 + 0xffffffffffffffffull);
    if (ld64(away(r_2b_1, (u64)(r_0f_2 << 3ull))) == 0ull) { r_nm_2 = r_0f_2; goto l_loop_jc_2; }
    r_yv = r_nm_2;
    goto l_capnp_7g;
l_else_wj_1:;
    if (!(ld64(away(away(r_2b_1, r_z6_1), 0xfffffffffffffff8ull)) == 0ull)) { r_yv = r_bi_1; goto l_capnp_7g; }
    u64 r_qz_1 = capnp_words_lanes_used_words_bound(r_2b_1, r_z6_1);
    r_nm_3 = r_qz_1;
l_loop_jc_3:;
    if (r_nm_3 == 0ull) { r_yv = 0ull; goto l_capnp_7g; }
    u64 r_0f_3 = (r_nm_3 + 0xffffffffffffffffull);
    if (ld64(away(r_2b_1, (u64)(r_0f_3 << 3ull))) == 0ull) { r_nm_3 = r_0f_3; goto l_loop_jc_3; }
    r_yv = r_nm_3;
l_capnp_7g:;
    return (u32)(r_yv + r_w7);
}

/* capnp_messages::messages::copy_size::add_pointers::<#70170357b7303457> */
static NEVER void capnp_messages_messages_copy_size_add_pointers_70170357b7303457(u8 *a_1, u8 *a_2, u32 a_3, u32 a_4, u32 a_5, u32 a_6, u8 *a_7)
{
    A(8) u8 slot_1[24];
    u8 *r_ix;
    u32 r_6t;
    u32 r_ja;
    u32 r_kt;
    memset(slot_1, 0u, 24);
    if (a_4 == 0u) { r_kt = a_6; goto l_after_iz; }
    r_ix = (slot_1 + 4);
    r_6t = 0u;
    r_ja = a_6;
l_join_qo:;
    capnp_messages_messages_copy_size_add_value_70170357b7303457(slot_1, a_2, (r_6t + a_3), a_5, r_ja, a_7);
    if (!(ld8(slot_1) == 0u)) goto l_arm_5d;
    u32 r_yf = ld32(r_ix);
    u32 r_7t = (r_6t + 1u);
    if (r_7t == a_4) { r_kt = r_yf; goto l_after_iz; }
    r_6t = r_7t;
    r_ja = r_yf;
    goto l_join_qo;
l_common_68:;
    return;
l_arm_5d:;
    u32 r_cf = (u32)ld8((slot_1 + 8));
    u32 r_uq = ld32((slot_1 + 12));
    u64 r_38 = ld64((slot_1 + 16));
    st32(a_1, 1u);
    st32(away(a_1, 4ull), 0u);
    st32(away(a_1, 8ull), r_cf);
    st32(away(a_1, 12ull), r_uq);
    st64(away(a_1, 16ull), r_38);
    goto l_common_68;
l_after_iz:;
    st32(a_1, 0u);
    st32(away(a_1, 4ull), r_kt);
    memset(away(a_1, 8ull), 0u, 16);
    goto l_common_68;
}

/* std_alloc::vec::Vec::grow_amortized::<#0e5e43add44bc681> */
static NEVER COLD u8 std_alloc_vec_Vec_grow_amortized_0e5e43add44bc681(u8 *a_1)
{
    u64 r_52;
    u8 common_p7;
    u8 *r_08;
    u64 r_52_1;
    u64 t_e0;
    u64 common_za;
    struct s_i64_i64 r_q0;
    r_52 = ld64(away(a_1, 8ull));
    if (r_52 == 0xffffffffffffffffull) { common_p7 = 0u; goto l_common_57; }
    goto l_join_4c;
l_common_57:;
    return common_p7;
l_join_4c:;
    r_08 = away(a_1, 16ull);
    r_52_1 = ld64(r_08);
    u64 a_pn = (umax64(r_52, 3ull) + 1ull);
    t_e0 = umax64(a_pn, (u64)(r_52_1 << 1ull));
    common_za = ((r_52_1 < 0x4000000000000000ull) ? t_e0 : a_pn);
    if (!(common_za < 0x800000000000000ull)) { common_p7 = 0u; goto l_common_57; }
    if (r_52_1 == 0ull) goto l_std_gm;
    struct s_i64_i64 r_v6 = rattle_realloc(ldp(a_1), (u64)(r_52 << 4ull), (u64)(common_za << 4ull), 8ull);
    if ((u8)(r_v6.f0 & 1)) { r_q0 = r_v6; goto l_arm_m7; }
    common_p7 = 0u;
    goto l_common_57;
l_std_gm:;
    struct s_i64_i64 r_yd = rattle_alloc((u64)(t_e0 << 4ull), 8ull);
    struct s_i64_i64 r_1y = r_yd;
    if ((u8)(r_1y.f0 & 1)) { r_q0 = r_1y; goto l_arm_m7; }
    common_p7 = 0u;
    goto l_common_57;
l_arm_m7:;
    stp(a_1, ((u8 *)(uptr)r_q0.f1));
    st64(r_08, common_za);
    common_p7 = 1u;
    goto l_common_57;
}

/* capnp_arena::arena::builder_arena_impl::deallocate_others::<#d296b2bbb7f15f1d> */
static NEVER void capnp_arena_arena_builder_arena_impl_deallocate_others_af14abad(u8 *a_1, u8 *a_2)
{
    A(8) u8 slot_1[40];
    u8 *r_mb;
    u64 r_qw;
    u64 r_qw_1;
    u64 t_gg;
    u64 r_ax;
    u64 r_du;
    u64 r_zn;
    u8 *r_ud;
    u64 r_i5;
    u64 r_zn_1;
    u8 *r_mb_1;
    r_mb = ldp(a_2);
    r_qw = ld64((a_2 + 8));
    r_qw_1 = ld64((a_2 + 16));
    switch (r_qw) {
    case 0ull: goto l_then_3e;
    case 1ull: goto l_join_4d;
    default: goto l_then_vy;
    }
l_then_3e:;
    if (r_qw_1 == 0ull) goto l_join_68;
    goto l_join_wd;
l_then_vy:;
    if (r_qw > 15ull) goto l_then_ys;
    t_gg = (u64)((r_qw + 0xfffffffffffffffeull) >> 1ull);
    r_ax = 0ull;
    r_du = r_qw;
    goto l_join_73;
l_then_ys:;
    u64 r_dt = (u64)(r_qw >> 1ull);
    core_slice_edits_mirror_e0f4f6844e27f7b4(r_mb, away(r_mb, ((r_qw - r_dt) * 40ull)), r_dt);
    goto l_join_4d;
l_join_73:;
    r_zn = (r_du + 0xffffffffffffffffull);
    if (!(r_ax < r_zn)) goto l_else_7d;
    u8 *r_a7 = (r_mb + (i64)((r_ax * 40ull)));
    u8 *r_a7_1 = (r_mb + (i64)((r_zn * 40ull)));
    mv40(slot_1, r_a7);
    mv40(r_a7, r_a7_1);
    mv40(r_a7_1, slot_1);
    goto l_core_e6;
l_else_7d:;
    if (!(r_zn < r_ax)) goto l_core_e6;
    u8 *r_a7_2 = (r_mb + (i64)((r_zn * 40ull)));
    u8 *r_a7_3 = (r_mb + (i64)((r_ax * 40ull)));
    mv40(slot_1, r_a7_2);
    mv40(r_a7_2, r_a7_3);
    mv40(r_a7_3, slot_1);
l_core_e6:;
    if (!(r_ax == t_gg)) { u64 r_1 = (r_ax + 1ull); u64 r_2 = r_zn; r_ax = r_1; r_du = r_2; goto l_join_73; }
l_join_4d:;
    r_ud = (a_1 + 16);
    r_i5 = r_qw;
l_arm_bj:;
    r_zn_1 = (r_i5 + 0xffffffffffffffffull);
    r_mb_1 = ldp(a_1);
    u64 r_qw_2 = ld64(r_ud);
    mv24(a_1, (r_mb + (i64)((r_zn_1 * 40ull))));
    if (r_qw_2 == 0ull) goto l_capnp_jj;
    rattle_dealloc(r_mb_1);
l_capnp_jj:;
    if (!(r_zn_1 == 0ull)) { r_i5 = r_zn_1; goto l_arm_bj; }
    if (r_qw_1 == 0ull) goto l_join_68;
l_join_wd:;
    rattle_dealloc(r_mb);
l_join_68:;
    return;
}

/* core::slice::edits::mirror::<#e0f4f6844e27f7b4> */
static NEVER void core_slice_edits_mirror_e0f4f6844e27f7b4(u8 *a_1, u8 *a_2, u64 a_3)
{
    A(8) u8 slot_1[40];
    u64 r_tw;
    r_tw = 0ull;
l_join_ad:;
    u8 *r_8z = away(a_1, (r_tw * 40ull));
    u8 *r_8z_1 = away(a_2, ((a_3 + (r_tw ^ 0xffffffffffffffffull)) * 40ull));
    mv40(slot_1, r_8z);
    mv40(r_8z, r_8z_1);
    mv40(r_8z_1, slot_1);
    u64 r_c4 = (r_tw + 1ull);
    if (!(r_c4 == a_3)) { r_tw = r_c4; goto l_join_ad; }
    return;
}

/* capnp_pointers::source::follow_far::<#1e87a151ef20e12e> */
static NEVER void capnp_pointers_source_follow_far_1e87a151ef20e12e(u8 *a_1, u8 *a_2, u64 a_3, u8 *a_4)
{
    u64 r_cy;
    u64 r_yz;
    u64 r_z6;
    u64 r_we;
    u64 r_9r;
    u8 *r_rq;
    u8 *r_rv;
    u64 r_52;
    u64 r_l5;
    u64 r_rx;
    u64 r_de;
    u64 r_52_1;
    u64 r_l5_1;
    u64 r_rx_1;
    u64 r_e4;
    u64 r_qa;
    u32 r_5k;
    u64 r_24;
    u64 r_z6_1;
    u8 *r_xz;
    u8 *r_2b;
    u64 t_al;
    u32 t_ri;
    u8 r_hr;
    u32 i_io;
    u64 r_4d;
    u8 *r_rq_1;
    u64 r_52_2;
    u32 r_ab;
    u32 r_4r;
    u64 r_c0;
    u64 r_sw;
    u64 r_ef;
    u64 r_ep;
    u64 r_yz_1;
    u64 r_z6_2;
    u64 r_we_1;
    u64 r_9r_1;
    u8 *r_rv_1;
    u64 r_52_3;
    u64 r_l5_2;
    u64 r_rx_2;
    u64 r_de_1;
    u64 r_52_4;
    u64 r_l5_3;
    u64 r_rx_3;
    u64 r_e4_1;
    u64 r_qa_1;
    u64 r_z6_3;
    u32 r_4r_1;
    u32 r_ab_1;
    u32 r_x0;
    u64 r_7u;
    u64 r_lc;
    u64 r_z3;
    u32 r_vt;
    u32 r_8t;
    u64 r_49;
    u64 r_1t;
    u64 r_a3;
    u64 r_wr;
    u32 r_hb;
    u32 r_tf;
    r_cy = (u64)(a_3 >> 32ull);
    r_yz = ld64(a_2);
    if (!(r_yz > r_cy)) goto l_arm_y7;
    r_z6 = (r_cy & 0xffffffe0ull);
    r_we = (r_z6 + 32ull);
    r_9r = ((u64)(a_3 >> 34ull) & 0x3ffffff8ull);
    r_rq = away(a_2, 8ull);
    r_rv = ldp(r_rq);
    if (!(((a_3 & 0x1f00000000ull) > 0x1000000000ull) ? (r_we < r_yz) : 0u)) goto l_join_2d;
    r_52 = ld64(away(away(a_2, 48ull), r_9r));
    if (r_we > r_cy) { r_l5 = 0ull; r_rx = r_cy; goto l_join_rl; }
    r_de = 0ull;
    goto l_capnp_wc;
l_join_rl:;
    u64 r_5q = (r_l5 + (u64)ld32((r_rv + (i64)((u64)(r_rx << 2ull)))));
    u64 r_36 = (r_rx + 1ull);
    if (r_36 == r_we) { r_de = r_5q; goto l_capnp_wc; }
    r_l5 = r_5q;
    r_rx = r_36;
    goto l_join_rl;
l_capnp_wc:;
    r_qa = (r_52 - r_de);
    goto l_arm_mi;
l_join_2d:;
    r_52_1 = ld64((away(a_2, 40ull) + (i64)(r_9r)));
    if (r_z6 == r_cy) { r_e4 = 0ull; goto l_capnp_az; }
    r_l5_1 = 0ull;
    r_rx_1 = r_z6;
l_join_rl_1:;
    u64 r_5q_1 = (r_l5_1 + (u64)ld32((r_rv + (i64)((u64)(r_rx_1 << 2ull)))));
    u64 r_36_1 = (r_rx_1 + 1ull);
    if (r_36_1 == r_cy) { r_e4 = r_5q_1; goto l_capnp_az; }
    r_l5_1 = r_5q_1;
    r_rx_1 = r_36_1;
    goto l_join_rl_1;
l_capnp_az:;
    r_qa = (r_e4 + r_52_1);
l_arm_mi:;
    r_5k = ld32((r_rv + (i64)((u64)(r_cy << 2ull))));
    r_24 = (u64)r_5k;
    r_z6_1 = (u64)(r_24 << 3ull);
    r_xz = away(a_2, 24ull);
    r_2b = away(ldp(r_xz), (u64)(r_qa << 3ull));
    t_al = (u64)(uptr)r_2b;
    t_ri = (u32)((u32)a_3 >> 3u);
    r_hr = ((a_3 & 4ull) == 0ull);
    i_io = (r_hr ? 1u : 2u);
    if (r_5k < (i_io + t_ri)) { r_ef = 23ull; goto l_arm_c6; }
    goto l_join_zm;
l_arm_y7:;
    r_ef = ((a_3 & 0xffffffff00000000ull) | 12ull);
    goto l_arm_c6;
l_join_zm:;
    r_4d = (u64)i_io;
    if (!(ld8(a_4) == 1u)) goto l_arm_ol;
    r_rq_1 = away(a_4, 8ull);
    r_52_2 = ld64(r_rq_1);
    if (r_52_2 < r_4d) { r_ef = 30ull; goto l_arm_c6; }
    st64(a_4, 1ull);
    st64(r_rq_1, (r_52_2 - r_4d));
l_arm_ol:;
    r_ab = (u32)t_al;
    r_4r = (u32)(u64)(t_al >> 32ull);
    r_c0 = (u64)t_ri;
    if (!(r_5k > t_ri)) { r_sw = 0ull; goto l_capnp_0y; }
    r_sw = ld64(away(r_2b, (u64)(r_c0 << 3ull)));
l_capnp_0y:;
    if (r_hr) goto l_else_bd;
    goto l_then_fu;
l_common_68:;
    return;
l_arm_c6:;
    st64(a_1, 1ull);
    st64(away(a_1, 8ull), r_ef);
    memset(away(a_1, 16ull), 0u, 40);
    goto l_common_68;
l_then_fu:;
    r_ep = (u64)(r_sw >> 32ull);
    r_yz_1 = ld64(a_2);
    if (!(r_yz_1 > r_ep)) goto l_arm_8h;
    r_z6_2 = (r_ep & 0xffffffe0ull);
    r_we_1 = (r_z6_2 + 32ull);
    r_9r_1 = ((u64)(r_sw >> 34ull) & 0x3ffffff8ull);
    r_rv_1 = ldp(r_rq);
    if (!(((r_sw & 0x1f00000000ull) > 0x1000000000ull) ? (r_we_1 < r_yz_1) : 0u)) goto l_join_2d_1;
    r_52_3 = ld64(away(away(a_2, 48ull), r_9r_1));
    if (r_we_1 > r_ep) { r_l5_2 = 0ull; r_rx_2 = r_ep; goto l_join_rl_2; }
    r_de_1 = 0ull;
    goto l_capnp_wc_1;
l_join_rl_2:;
    u64 r_5q_2 = (r_l5_2 + (u64)ld32((r_rv_1 + (i64)((u64)(r_rx_2 << 2ull)))));
    u64 r_36_2 = (r_rx_2 + 1ull);
    if (r_36_2 == r_we_1) { r_de_1 = r_5q_2; goto l_capnp_wc_1; }
    r_l5_2 = r_5q_2;
    r_rx_2 = r_36_2;
    goto l_join_rl_2;
l_capnp_wc_1:;
    r_qa_1 = (r_52_3 - r_de_1);
    goto l_arm_mi_1;
l_join_2d_1:;
    r_52_4 = ld64((away(a_2, 40ull) + (i64)(r_9r_1)));
    if (r_z6_2 == r_ep) { r_e4_1 = 0ull; goto l_capnp_az_1; }
    r_l5_3 = 0ull;
    r_rx_3 = r_z6_2;
l_join_rl_3:;
    u64 r_5q_3 = (r_l5_3 + (u64)ld32((r_rv_1 + (i64)((u64)(r_rx_3 << 2ull)))));
    u64 r_36_3 = (r_rx_3 + 1ull);
    if (r_36_3 == r_ep) { r_e4_1 = r_5q_3; goto l_capnp_az_1; }
    r_l5_3 = r_5q_3;
    r_rx_3 = r_36_3;
    goto l_join_rl_3;
l_capnp_az_1:;
    r_qa_1 = (r_e4_1 + r_52_4);
l_arm_mi_1:;
    r_z6_3 = (u64)((u64)ld32((r_rv_1 + (i64)((u64)(r_ep << 2ull)))) << 3ull);
    u64 t_al_1 = (u64)(uptr)away(ldp(r_xz), (u64)(r_qa_1 << 3ull));
    r_4r_1 = (u32)(u64)(t_al_1 >> 32ull);
    r_ab_1 = (u32)t_al_1;
    r_x0 = (t_ri + 1u);
    if (!(r_5k > r_x0)) { r_7u = 0ull; goto l_capnp_o6; }
    r_7u = ld64(away(r_2b, (u64)((u64)r_x0 << 3ull)));
l_capnp_o6:;
    r_vt = r_ab_1;
    r_8t = r_4r_1;
    r_49 = r_z6_3;
    r_1t = 0ull;
    r_a3 = r_7u;
    r_wr = r_ep;
    r_hb = (u32)((u32)r_sw >> 3u);
    r_tf = 2u;
    goto l_join_s8;
l_arm_8h:;
    st64(a_1, 1ull);
    st64(away(a_1, 8ull), ((r_sw & 0xffffffff00000000ull) | 12ull));
    memset(away(a_1, 16ull), 0u, 40);
    goto l_common_68;
l_else_bd:;
    u64 r_m6 = ((u64)(r_sw >> 2ull) & 0x3fffffffull);
    r_lc = ((r_c0 + 1ull) + r_m6);
    if (!(r_m6 < 0x20000000ull)) goto l_else_70;
    if (r_lc > r_24) { r_vt = 0u; r_8t = 0u; r_49 = 0ull; r_1t = 1ull; r_a3 = 23ull; r_wr = 0ull; r_hb = 0u; r_tf = 0u; goto l_join_s8; }
    r_z3 = r_lc;
    goto l_arm_eo;
l_else_70:;
    u64 r_3o = (r_lc + 0xffffffffc0000000ull);
    if ((r_lc < 0x40000000ull) ? 1u : (r_3o > r_24)) { r_vt = 0u; r_8t = 0u; r_49 = 0ull; r_1t = 1ull; r_a3 = 23ull; r_wr = 0ull; r_hb = 0u; r_tf = 0u; goto l_join_s8; }
    r_z3 = r_3o;
l_arm_eo:;
    r_vt = r_ab;
    r_8t = r_4r;
    r_49 = r_z6_1;
    r_1t = 0ull;
    r_a3 = r_sw;
    r_wr = r_cy;
    r_hb = (u32)r_z3;
    r_tf = 1u;
l_join_s8:;
    st64(a_1, r_1t);
    st64(away(a_1, 8ull), r_a3);
    st64(away(a_1, 16ull), r_wr);
    st32(away(a_1, 24ull), r_vt);
    st32(away(a_1, 28ull), r_8t);
    st64(away(a_1, 32ull), r_49);
    st32(away(a_1, 40ull), r_hb);
    st32(away(a_1, 44ull), 0u);
    st32(away(a_1, 48ull), r_tf);
    st32(away(a_1, 52ull), 0u);
    goto l_common_68;
}

/* capnp_pointers::pointers::canonical::test_children::<#1e87a151ef20e12e> */
static struct s_i8_i32 capnp_pointers_pointers_canonical_test_children_1e87a1_c3c6e6a7(u8 *a_1, u32 a_2, u32 a_3, u32 a_4, u32 a_5, u8 *a_6)
{
    u8 *r_xz;
    u8 *r_xm;
    u8 *r_su;
    u8 *r_08;
    u8 r_30;
    u8 *r_rq;
    u8 *r_xz_1;
    u8 *r_xm_1;
    u8 *r_8x;
    u8 *r_su_1;
    u8 *r_9e;
    u8 *r_z0;
    u32 r_y0;
    u64 wide_7l;
    u32 r_kr;
    u64 indvars_fi;
    u32 r_l6;
    u32 r_7m;
    u64 r_24;
    u64 r_gw;
    u64 r_qw;
    u64 r_ep;
    u64 r_y6;
    u64 r_lc;
    u8 t_pa;
    u64 r_lc_1;
    u64 r_nb;
    u64 r_09;
    u32 r_4r;
    u8 r_8u;
    u64 r_52;
    u32 r_8d;
    u32 r_12;
    u32 r_az;
    u32 r_p4;
    u32 r_w0;
    u32 r_w0_1;
    u8 r_ts;
    struct s_i8_i32 r_d4;
    u32 r_xo;
    u64 r_qw_3;
    u8 *r_rv;
    u64 r_qw_4;
    u64 r_24_1;
    u64 r_24_2;
    u32 r_tu;
    u8 r_di;
    u64 r_ep_1;
    u64 r_ij;
    u64 r_c6;
    u8 t_0c;
    u64 r_lc_2;
    u64 r_nb_1;
    u64 r_09_1;
    u32 r_4r_1;
    u64 r_52_1;
    u32 narrow_gg;
    u64 r_52_2;
    u32 r_w0_2;
    u64 r_4i;
    u32 r_tu_1;
    u8 r_di_1;
    struct s_i8_i32 r_cp;
    u8 sink_vv;
    u32 r_us;
    u8 r_1x;
    if (a_3 == 0u) { r_us = a_5; r_1x = 0u; goto l_return_pr; }
    r_xz = away(a_1, 24ull);
    r_xm = away(a_1, 32ull);
    r_su = away(a_1, 40ull);
    r_08 = away(a_6, 16ull);
    r_30 = ((i32)a_4 < (i32)1u);
    r_rq = away(a_6, 8ull);
    r_xz_1 = away(a_6, 24ull);
    r_xm_1 = away(a_6, 32ull);
    r_8x = away(a_6, 36ull);
    r_su_1 = away(a_6, 40ull);
    r_9e = away(a_6, 44ull);
    r_z0 = away(a_6, 45ull);
    r_y0 = (a_4 + 0xffffffffu);
    wide_7l = (u64)a_3;
    indvars_fi = 0ull;
    r_l6 = a_5;
    goto l_join_7l;
l_loop_2y:;
    u64 indvars_r7 = (indvars_fi + 1ull);
    if (indvars_r7 == wide_7l) { r_us = r_kr; r_1x = 0u; goto l_return_pr; }
    indvars_fi = indvars_r7;
    r_l6 = r_kr;
l_join_7l:;
    r_7m = (a_2 + (u32)indvars_fi);
    r_24 = (u64)r_7m;
    r_gw = (u64)(ld64(r_su) >> 3ull);
    if (!(r_gw > r_24)) { sink_vv = 1u; goto l_return_9r; }
    r_qw = ld64(away(ldp(r_xm), (u64)(r_24 << 3ull)));
    if ((r_qw & 2ull) == 0ull) goto l_join_1j;
    sink_vv = (((r_qw & 3ull) == 2ull) ? 2u : (((r_qw & 0xffffffffull) == 3ull) ? 3u : 4u));
    goto l_return_9r;
l_join_1j:;
    if (r_qw == 0ull) { r_kr = r_l6; goto l_loop_2y; }
    if (!((r_qw & 1ull) == 0ull)) goto l_arm_ui;
    r_ep = (u64)(r_qw >> 32ull);
    r_y6 = (u64)(r_qw >> 48ull);
    r_lc = ((r_ep & 65535ull) + r_y6);
    t_pa = (ld8(a_1) != 0u);
    if (t_pa) goto l_join_o1;
    st64(r_08, uadd_sat64(ld64(r_08), 1ull));
l_join_o1:;
    u64 r_m6 = ((u64)(r_qw >> 2ull) & 0x3fffffffull);
    r_lc_1 = ((r_24 + 1ull) + r_m6);
    r_nb = (r_gw & 0xffffffffull);
    if (!(r_m6 < 0x20000000ull)) goto l_else_70;
    if (r_lc_1 > r_nb) { r_p4 = 23u; goto l_arm_rm; }
    r_09 = r_lc_1;
    goto l_arm_f4;
l_else_70:;
    u64 r_3o = (r_lc_1 + 0xffffffffc0000000ull);
    if ((r_lc_1 < 0x40000000ull) ? 1u : (r_3o > r_nb)) { r_p4 = 23u; goto l_arm_rm; }
    r_09 = r_3o;
l_arm_f4:;
    r_4r = (u32)r_09;
    if (r_30) { r_p4 = 26u; goto l_arm_rm; }
    r_8u = (r_nb < (r_09 + r_lc));
    if ((u8)((u8)t_pa | (u8)r_8u)) goto l_capnp_bj;
    if (!(ld8(a_6) == 1u)) { r_8d = r_4r; goto l_arm_7c; }
    r_52 = ld64(r_rq);
    if (r_52 < r_lc) { r_p4 = 30u; goto l_arm_rm; }
    st64(a_6, 1ull);
    st64(r_rq, (r_52 - r_lc));
    r_8d = r_4r;
    goto l_arm_7c;
l_capnp_bj:;
    if (r_8u) { r_p4 = (r_8u ? 23u : 0u); goto l_arm_rm; }
    r_8d = (r_8u ? 0u : r_4r);
l_arm_7c:;
    r_12 = (u32)r_y6;
    r_az = ((u32)r_ep & 65535u);
    if ((r_az | r_12) == 0u) goto l_then_h5;
    goto l_join_8x;
l_arm_rm:;
    st64(r_xz_1, 1ull);
    st32(r_xm_1, r_p4);
    st32(r_8x, 0u);
    st64(r_su_1, 0ull);
    r_tu = 0u;
    r_di = 1u;
    goto l_capnp_cm;
l_then_h5:;
    if (r_8d == r_7m) { r_tu = r_l6; r_di = 0u; goto l_capnp_cm; }
    u64 r_qw_1 = ld64(r_xz);
    st64(r_xz_1, 0ull);
    st64(r_xm_1, r_qw_1);
    st32(r_su_1, r_7m);
    st8(r_9e, 5u);
    memset(r_z0, 0u, 3);
    r_tu = 0u;
    r_di = 1u;
    goto l_capnp_cm;
l_join_8x:;
    if (r_8d == r_l6) goto l_join_p3;
    u64 r_qw_2 = ld64(r_xz);
    st64(r_xz_1, 0ull);
    st64(r_xm_1, r_qw_2);
    st32(r_su_1, r_7m);
    st8(r_9e, 6u);
    memset(r_z0, 0u, 3);
    r_tu = 0u;
    r_di = 1u;
    goto l_capnp_cm;
l_join_p3:;
    r_w0 = (r_l6 + r_az);
    r_w0_1 = (r_w0 + r_12);
    r_ts = (r_y6 == 0ull);
    if (!r_ts) goto l_join_5r;
    struct s_i8_i32 t_ph = (struct s_i8_i32){ 0u, 0u };
    t_ph.f1 = r_w0_1;
    r_d4 = t_ph;
    goto l_capnp_o7;
l_join_5r:;
    struct s_i8_i32 r_e9 = capnp_pointers_pointers_canonical_test_children_1e87a1_c3c6e6a7(a_1, r_w0, r_12, r_y0, r_w0_1, a_6);
    r_d4 = r_e9;
l_capnp_o7:;
    r_xo = r_d4.f1;
    if (!(r_d4.f0 == 0u)) { r_tu = 0u; r_di = 1u; goto l_capnp_cm; }
    r_qw_3 = ld64(r_xz);
    r_rv = ldp(r_xm);
    r_qw_4 = ld64(r_su);
    if (r_az == 0u) goto l_join_vo;
    r_24_1 = (u64)((r_az + 0xffffffffu) + r_l6);
    if (!((u64)(r_qw_4 >> 3ull) > r_24_1)) goto l_then_77;
    if (!(ld64(away(r_rv, (u64)(r_24_1 << 3ull))) == 0ull)) goto l_join_vo;
l_then_77:;
    st64(r_xz_1, 0ull);
    st64(r_xm_1, r_qw_3);
    st32(r_su_1, (r_w0 + 0xffffffffu));
    st8(r_9e, 8u);
    memset(r_z0, 0u, 3);
    r_tu = 0u;
    r_di = 1u;
    goto l_capnp_cm;
l_join_vo:;
    if (r_ts) { r_tu = r_xo; r_di = 0u; goto l_capnp_cm; }
    r_24_2 = (u64)((r_12 + 0xffffffffu) + r_w0);
    if (!((u64)(r_qw_4 >> 3ull) > r_24_2)) goto l_then_77_1;
    if (!(ld64(away(r_rv, (u64)(r_24_2 << 3ull))) == 0ull)) { r_tu = r_xo; r_di = 0u; goto l_capnp_cm; }
l_then_77_1:;
    st64(r_xz_1, 0ull);
    st64(r_xm_1, r_qw_3);
    st32(r_su_1, (r_w0_1 + 0xffffffffu));
    st8(r_9e, 9u);
    memset(r_z0, 0u, 3);
    r_tu = 0u;
    r_di = 1u;
l_capnp_cm:;
    struct s_i8_i32 r_9l = (struct s_i8_i32){ 0 };
    r_9l.f0 = r_di;
    struct s_i8_i32 r_i6 = r_9l;
    r_i6.f1 = r_tu;
    r_cp = r_i6;
    goto l_capnp_7u;
l_arm_ui:;
    r_ep_1 = (u64)(r_qw >> 32ull);
    if (!((u8)((u8)((u8)r_ep_1 & 7u) + 255u) < 5u)) goto l_join_p8;
    r_ij = (u64)(r_qw >> 35ull);
    r_c6 = (u64)(((ld64(away(away(((u8 *)switch_table_main_18), 8 * (r_ep_1 & 7ull)), 0xfffffffffffffff8ull)) * r_ij) + 63ull) >> 6ull);
    t_0c = (ld8(a_1) == 0u);
    if (!t_0c) goto l_join_bd;
    st64(r_08, uadd_sat64(ld64(r_08), 1ull));
l_join_bd:;
    u64 r_m6_1 = ((u64)(r_qw >> 2ull) & 0x3fffffffull);
    r_lc_2 = ((r_24 + 1ull) + r_m6_1);
    r_nb_1 = (r_gw & 0xffffffffull);
    if (!(r_m6_1 < 0x20000000ull)) goto l_else_70_1;
    if (r_lc_2 > r_nb_1) { narrow_gg = 23u; goto l_arm_dw; }
    r_09_1 = r_lc_2;
    goto l_arm_f4_1;
l_else_70_1:;
    u64 r_3o_1 = (r_lc_2 + 0xffffffffc0000000ull);
    if ((r_lc_2 < 0x40000000ull) ? 1u : (r_3o_1 > r_nb_1)) { narrow_gg = 23u; goto l_arm_dw; }
    r_09_1 = r_3o_1;
l_arm_f4_1:;
    r_4r_1 = (u32)r_09_1;
    if (r_30) { narrow_gg = 28u; goto l_arm_dw; }
    if (r_nb_1 < (r_c6 + (r_09_1 & 0xffffffffull))) { narrow_gg = 23u; goto l_arm_dw; }
    if (!t_0c) goto l_arm_8x;
    if (!(ld8(a_6) == 1u)) goto l_arm_8x;
    r_52_1 = ld64(r_rq);
    if (r_52_1 < r_c6) { narrow_gg = 30u; goto l_arm_dw; }
    st64(a_6, 1ull);
    st64(r_rq, (r_52_1 - r_c6));
l_arm_8x:;
    if (r_l6 == r_4r_1) goto l_join_ta;
    goto l_then_9r;
l_arm_dw:;
    st64(r_xz_1, 1ull);
    st32(r_xm_1, narrow_gg);
    st32(r_8x, 0u);
    st64(r_su_1, 0ull);
    r_tu_1 = 0u;
    r_di_1 = 1u;
    goto l_capnp_cm_1;
l_then_9r:;
    u64 r_qw_5 = ld64(r_xz);
    st64(r_xz_1, 0ull);
    st64(r_xm_1, r_qw_5);
    st32(r_su_1, r_7m);
    st8(r_9e, 6u);
    memset(r_z0, 0u, 3);
    r_tu_1 = 0u;
    r_di_1 = 1u;
    goto l_capnp_cm_1;
l_join_ta:;
    r_52_2 = ld64(r_xz);
    u64 r_1q = (ld64(away(away(((u8 *)switch_table_main_18), 8 * (r_ep_1 & 7ull)), 0xfffffffffffffff8ull)) * r_ij);
    r_w0_2 = (r_l6 + (u32)(u64)(r_1q >> 6ull));
    r_4i = (r_1q & 63ull);
    if (r_4i == 0ull) { r_tu_1 = r_w0_2; r_di_1 = 0u; goto l_capnp_cm_1; }
    if (any8(v8_of((u64)(ld64(away(ldp(r_xm), (u64)((u64)r_w0_2 << 3ull))) >> (r_4i & 63u)))) == 0u) { r_tu_1 = (r_w0_2 + 1u); r_di_1 = 0u; goto l_capnp_cm_1; }
    st64(r_xz_1, 0ull);
    st64(r_xm_1, r_52_2);
    st32(r_su_1, r_w0_2);
    st8(r_9e, 7u);
    memset(r_z0, 0u, 3);
    r_tu_1 = 0u;
    r_di_1 = 1u;
l_capnp_cm_1:;
    struct s_i8_i32 r_9l_1 = (struct s_i8_i32){ 0 };
    r_9l_1.f0 = r_di_1;
    struct s_i8_i32 r_i6_1 = r_9l_1;
    r_i6_1.f1 = r_tu_1;
    r_cp = r_i6_1;
    goto l_capnp_7u;
l_join_p8:;
    struct s_i8_i32 r_r7 = capnp_pointers_pointers_canonical_test_list_1e87a151ef20e12e(a_1, r_7m, r_qw, a_4, r_l6, a_6);
    r_cp = r_r7;
l_capnp_7u:;
    if (r_cp.f0 == 0u) { r_kr = r_cp.f1; goto l_loop_2y; }
    r_us = 0u;
    r_1x = 1u;
    goto l_return_pr;
l_return_9r:;
    u64 r_qw_6 = ld64(r_xz);
    st64(r_xz_1, 0ull);
    st64(r_xm_1, r_qw_6);
    st32(r_su_1, r_7m);
    st8(r_9e, sink_vv);
    memset(r_z0, 0u, 3);
    r_us = 0u;
    r_1x = 1u;
l_return_pr:;
    struct s_i8_i32 r_9l_2 = (struct s_i8_i32){ 0 };
    r_9l_2.f0 = r_1x;
    struct s_i8_i32 r_i6_2 = r_9l_2;
    r_i6_2.f1 = r_us;
    return r_i6_2;
}

/* capnp_pointers::pointers::canonical::test_list::<#1e87a151ef20e12e> */
static NEVER struct s_i8_i32 capnp_pointers_pointers_canonical_test_list_1e87a151ef20e12e(u8 *a_1, u32 a_2, u64 a_3, u32 a_4, u32 a_5, u8 *a_6)
{
    A(8) u8 slot_1[56];
    u8 *r_xz;
    u64 r_52;
    u8 *r_xw;
    u64 r_38;
    u8 r_y8;
    u8 *r_xw_1;
    u64 r_7l;
    u64 r_gw;
    u64 r_qw;
    u8 t_pa;
    u64 r_lc;
    u64 r_nb;
    u64 r_yz;
    u32 r_nz;
    u64 r_tc;
    u64 r_l8;
    u64 r_3g;
    u8 *r_n9;
    u64 r_ep;
    u64 r_y6;
    u64 r_lc_1;
    u8 *r_rq;
    u64 r_52_1;
    u8 switch_wl;
    u64 r_ij;
    u64 r_c4;
    u64 r_24;
    u64 r_gw_1;
    u8 *r_rq_1;
    u64 r_52_2;
    u64 r_eh;
    u32 t_c8;
    u64 r_ep_1;
    u64 r_y6_1;
    u32 r_12;
    u32 r_az;
    u32 r_68;
    u64 r_c0;
    u8 *r_rq_2;
    u64 r_52_3;
    u32 r_ll;
    u16 t_xg;
    u16 r_py;
    u32 r_12_1;
    u8 *r_rq_3;
    u64 r_52_4;
    u8 *r_rq_4;
    u64 r_52_5;
    u64 r_7e;
    u64 r_c6;
    u8 *r_rq_5;
    u64 r_52_6;
    u64 r_2g;
    u64 r_gm;
    u64 r_dv;
    u8 r_yl;
    u8 r_xq;
    u32 r_mr;
    u64 r_2n;
    u32 r_id;
    u8 r_ru;
    u8 *r_xz_1;
    u32 r_eh_1;
    u64 r_4i;
    u32 r_y0;
    u32 r_68_1;
    u32 r_us;
    u8 r_1x;
    r_xz = away(a_1, 24ull);
    r_52 = ld64(r_xz);
    r_xw = ldp(away(a_1, 32ull));
    r_38 = ld64(away(a_1, 40ull));
    r_y8 = ld8(a_1);
    r_xw_1 = ldp(away(a_1, 8ull));
    r_7l = (u64)a_2;
    r_gw = (u64)(r_38 >> 3ull);
    if (!(r_gw > r_7l)) goto l_arm_um;
    r_qw = ld64(away(r_xw, (u64)(r_7l << 3ull)));
    if (r_qw == 0ull) goto l_arm_um;
    memset(slot_1, 0u, 56);
    t_pa = (r_y8 != 0u);
    if (t_pa) goto l_capnp_sm;
    u8 *r_08 = away(a_6, 16ull);
    st64(r_08, uadd_sat64(ld64(r_08), 1ull));
    if ((r_qw & 3ull) == 2ull) goto l_capnp_hz;
    goto l_join_bd;
l_capnp_sm:;
    if (!((r_qw & 3ull) == 2ull)) goto l_join_bd;
    st32((slot_1 + 8), 32u);
    r_2g = ld64((slot_1 + 8));
    goto l_capnp_8g;
l_join_bd:;
    u64 r_m6 = ((u64)(r_qw >> 2ull) & 0x3fffffffull);
    r_lc = ((r_7l + 1ull) + r_m6);
    r_nb = (r_gw & 0xffffffffull);
    if (!(r_m6 < 0x20000000ull)) goto l_else_70;
    if (r_lc > r_nb) { r_2g = 23ull; goto l_capnp_8g; }
    r_yz = r_lc;
    goto l_capnp_i5;
l_else_70:;
    u64 r_3o = (r_lc + 0xffffffffc0000000ull);
    if ((r_lc < 0x40000000ull) ? 1u : (r_3o > r_nb)) { r_2g = 23ull; goto l_capnp_8g; }
    r_yz = r_3o;
l_capnp_i5:;
    r_nz = (u32)r_yz;
    r_tc = r_52;
    r_l8 = r_qw;
    r_3g = r_38;
    r_n9 = r_xw;
    goto l_arm_s6;
l_capnp_hz:;
    capnp_pointers_source_follow_far_1e87a151ef20e12e(slot_1, r_xw_1, r_qw, a_6);
    u64 r_38_1 = ld64((slot_1 + 16));
    u64 r_38_2 = ld64((slot_1 + 8));
    if (ld8(slot_1) == 0u) { r_nz = ld32((slot_1 + 40)); r_tc = r_38_1; r_l8 = r_38_2; r_3g = ld64((slot_1 + 32)); r_n9 = ((u8 *)(uptr)ld64((slot_1 + 24))); goto l_arm_s6; }
    r_gm = r_38_1;
    r_dv = r_38_2;
    goto l_capnp_up;
l_arm_s6:;
    switch ((u8)((u8)r_l8 & 3u)) {
    case 0u: goto l_arm_62;
    case 1u: goto l_arm_z2;
    case 2u: { r_yl = 13u; goto l_capnp_ji; }
    case 3u: goto l_capnp_f9;
    default: goto l_default_e1;
    }
l_arm_62:;
    r_ep = (u64)(r_l8 >> 32ull);
    r_y6 = (u64)(r_l8 >> 48ull);
    if ((i32)a_4 < (i32)1u) { r_yl = 26u; goto l_capnp_ji; }
    r_lc_1 = ((r_ep & 65535ull) + r_y6);
    if (((u64)(r_3g >> 3ull) & 0xffffffffull) < (r_lc_1 + (u64)r_nz)) { r_yl = 23u; goto l_capnp_ji; }
    if (t_pa) goto l_arm_7c;
    if (!(ld8(a_6) == 1u)) goto l_arm_7c;
    r_rq = away(a_6, 8ull);
    r_52_1 = ld64(r_rq);
    if (r_52_1 < r_lc_1) { r_yl = 30u; goto l_capnp_ji; }
    st64(a_6, 1ull);
    st64(r_rq, (r_52_1 - r_lc_1));
l_arm_7c:;
    if ((((u32)r_ep & 65535u) | (u32)r_y6) == 0u) goto l_then_s2;
    goto l_join_s2;
l_arm_z2:;
    switch_wl = (u8)((u8)(u64)(r_l8 >> 32ull) & 7u);
    r_ij = (u64)(r_l8 >> 35ull);
    switch (switch_wl) {
    case 7u: goto l_arm_gg;
    case 6u: goto l_arm_0w;
    case 0u: goto l_arm_gg_1;
    case 5u: goto l_arm_h9;
    case 4u: goto l_arm_h9_1;
    case 3u: goto l_arm_h9_2;
    case 1u: { r_7e = 1ull; goto l_capnp_gg; }
    case 2u: goto l_arm_h9_3;
    default: goto l_default_e1;
    }
l_arm_gg:;
    if ((i32)a_4 < (i32)1u) { r_yl = 26u; goto l_capnp_ji; }
    r_c4 = (r_ij + 1ull);
    r_24 = (u64)r_nz;
    r_gw_1 = (u64)(r_3g >> 3ull);
    if ((r_gw_1 & 0xffffffffull) < (r_c4 + r_24)) { r_yl = 23u; goto l_capnp_ji; }
    if (t_pa) goto l_arm_ga;
    if (!(ld8(a_6) == 1u)) goto l_arm_ga;
    r_rq_1 = away(a_6, 8ull);
    r_52_2 = ld64(r_rq_1);
    if (!(r_52_2 > r_ij)) { r_yl = 30u; goto l_capnp_ji; }
    st64(a_6, 1ull);
    st64(r_rq_1, (r_52_2 - r_c4));
l_arm_ga:;
    if (!(r_gw_1 > r_24)) { r_eh = 0ull; goto l_join_qm; }
    u64 r_qw_1 = ld64(away(r_n9, (u64)(r_24 << 3ull)));
    if ((r_qw_1 & 3ull) == 0ull) { r_eh = r_qw_1; goto l_join_qm; }
    r_yl = 11u;
    goto l_capnp_ji;
l_join_qm:;
    t_c8 = (u32)((u32)r_eh >> 2u);
    r_ep_1 = (u64)(r_eh >> 32ull);
    r_y6_1 = (u64)(r_eh >> 48ull);
    r_12 = (u32)r_y6_1;
    r_az = ((u32)r_ep_1 & 65535u);
    r_68 = (r_az + r_12);
    r_c0 = (u64)t_c8;
    if (r_ij < ((u64)r_68 * r_c0)) { r_yl = 10u; goto l_capnp_ji; }
    if ((u8)((u8)t_pa | (u8)(r_68 != 0u))) goto l_arm_67;
    if (!(ld8(a_6) == 1u)) goto l_arm_67;
    r_rq_2 = away(a_6, 8ull);
    r_52_3 = ld64(r_rq_2);
    if (r_52_3 < r_c0) { r_yl = 30u; goto l_capnp_ji; }
    st64(a_6, 1ull);
    st64(r_rq_2, (r_52_3 - r_c0));
l_arm_67:;
    r_ll = (r_nz + 1u);
    t_xg = (u16)r_ep_1;
    r_py = (u16)r_y6_1;
    if (((u64)a_5 + 1ull) == (u64)r_ll) goto l_arm_bb;
    goto l_then_um;
l_arm_0w:;
    r_12_1 = (u32)r_ij;
    if ((i32)a_4 < (i32)1u) { r_yl = 26u; goto l_capnp_ji; }
    if (((u64)(r_3g >> 3ull) & 0xffffffffull) < (r_ij + (u64)r_nz)) { r_yl = 23u; goto l_capnp_ji; }
    if (t_pa) goto l_capnp_s2;
    if (!(ld8(a_6) == 1u)) goto l_capnp_s2;
    r_rq_3 = away(a_6, 8ull);
    r_52_4 = ld64(r_rq_3);
    if (r_52_4 < r_ij) { r_yl = 30u; goto l_capnp_ji; }
    st64(a_6, 1ull);
    st64(r_rq_3, (r_52_4 - r_ij));
    goto l_capnp_s2;
l_arm_gg_1:;
    if ((i32)a_4 < (i32)1u) { r_yl = 26u; goto l_capnp_ji; }
    if (((u64)(r_3g >> 3ull) & 0xffffffffull) < (u64)r_nz) { r_yl = 23u; goto l_capnp_ji; }
    if (t_pa) { r_xq = 0u; goto l_arm_s2; }
    if (!(ld8(a_6) == 1u)) { r_xq = 0u; goto l_arm_s2; }
    st64(a_6, 1ull);
    r_rq_4 = away(a_6, 8ull);
    r_52_5 = ld64(r_rq_4);
    if (r_52_5 < r_ij) { r_yl = 30u; goto l_capnp_ji; }
    st64(r_rq_4, (r_52_5 - r_ij));
    r_xq = 0u;
    goto l_arm_s2;
l_arm_h9_3:;
    r_7e = 8ull;
    goto l_capnp_gg;
l_arm_h9_2:;
    r_7e = 16ull;
    goto l_capnp_gg;
l_arm_h9_1:;
    r_7e = 32ull;
    goto l_capnp_gg;
l_arm_h9:;
    r_7e = 64ull;
l_capnp_gg:;
    if ((i32)a_4 < (i32)1u) { r_yl = 26u; goto l_capnp_ji; }
    r_c6 = (u64)(((r_7e * r_ij) + 63ull) >> 6ull);
    if (((u64)(r_3g >> 3ull) & 0xffffffffull) < (r_c6 + (u64)r_nz)) { r_yl = 23u; goto l_capnp_ji; }
    if (t_pa) { r_xq = switch_wl; goto l_arm_s2; }
    if (!(ld8(a_6) == 1u)) { r_xq = switch_wl; goto l_arm_s2; }
    r_rq_5 = away(a_6, 8ull);
    r_52_6 = ld64(r_rq_5);
    if (r_52_6 < r_c6) { r_yl = 30u; goto l_capnp_ji; }
    st64(a_6, 1ull);
    st64(r_rq_5, (r_52_6 - r_c6));
    r_xq = switch_wl;
    goto l_arm_s2;
l_default_e1:;
    UNREACHABLE();
l_capnp_8g:;
    r_gm = 0ull;
    r_dv = r_2g;
l_capnp_up:;
    r_mr = ((u32)r_dv & 255u);
    r_2n = r_gm;
    r_id = (u32)(u64)(r_dv >> 32ull);
    r_ru = (u8)r_dv;
    goto l_arm_ud;
l_capnp_ji:;
    r_mr = (u32)r_yl;
    r_2n = 0ull;
    r_id = 0u;
    r_ru = r_yl;
    goto l_arm_ud;
l_capnp_f9:;
    u8 r_e6 = ((r_l8 & 0xffffffffull) == 3ull);
    if (r_e6) goto l_then_um;
    r_mr = (r_e6 ? 1u : 34u);
    r_2n = 0ull;
    r_id = 0u;
    r_ru = 34u;
    goto l_arm_ud;
l_arm_s2:;
    if (r_nz == a_5) goto l_arm_76;
    goto l_then_um;
l_then_s2:;
    if (r_nz == a_2) goto l_arm_um;
    goto l_then_um;
l_join_s2:;
    if (r_nz == a_5) goto l_arm_um;
    goto l_then_um;
l_capnp_s2:;
    if (r_nz == a_5) goto l_arm_fy;
    goto l_then_um;
l_arm_ud:;
    u8 or_i7 = (u8)((u8)((a_3 & 3ull) == 1ull) & (u8)(r_ru == 26u));
    st64(away(a_6, 24ull), 1ull);
    st32(away(a_6, 32ull), (or_i7 ? 28u : r_mr));
    st32(away(a_6, 36ull), (or_i7 ? 0u : r_id));
    st64(away(a_6, 40ull), (or_i7 ? 0ull : r_2n));
    r_us = 0u;
    r_1x = 1u;
    goto l_return_pr;
l_then_um:;
    u64 r_qw_2 = ld64(r_xz);
    st64(away(a_6, 24ull), 0ull);
    st64(away(a_6, 32ull), r_qw_2);
    st32(away(a_6, 40ull), a_2);
    st8(away(a_6, 44ull), 6u);
    memset(away(a_6, 45ull), 0u, 3);
    r_us = 0u;
    r_1x = 1u;
    goto l_return_pr;
l_arm_76:;
    r_xz_1 = away(a_6, 24ull);
    u64 r_1q = (ld64((((u8 *)switch_table_capnp_pointers_pointers_canonical_test_li_58523f26) + (i64)(8 * (u64)r_xq))) * r_ij);
    r_eh_1 = (a_5 + (u32)(u64)(r_1q >> 6ull));
    r_4i = (r_1q & 63ull);
    if (r_4i == 0ull) { r_us = r_eh_1; r_1x = 0u; goto l_return_pr; }
    if (any8(v8_of((u64)(ld64(away(r_n9, (u64)((u64)r_eh_1 << 3ull))) >> (r_4i & 63u)))) == 0u) { r_us = (r_eh_1 + 1u); r_1x = 0u; goto l_return_pr; }
    st64(r_xz_1, 0ull);
    st64(away(a_6, 32ull), r_tc);
    st32(away(a_6, 40ull), r_eh_1);
    st8(away(a_6, 44ull), 7u);
    memset(away(a_6, 45ull), 0u, 3);
    r_us = 0u;
    r_1x = 1u;
    goto l_return_pr;
l_arm_fy:;
    struct s_i8_i32 r_0z = capnp_pointers_pointers_canonical_test_children_1e87a1_c3c6e6a7(a_1, a_5, r_12_1, (a_4 + 0xffffffffu), (a_5 + r_12_1), a_6);
    r_us = r_0z.f1;
    r_1x = r_0z.f0;
    goto l_return_pr;
l_arm_bb:;
    r_y0 = (a_4 + 0xffffffffu);
    r_68_1 = (r_az + r_12);
    if (((u64)r_68_1 * (u64)t_c8) == (u64)(a_3 >> 35ull)) goto l_join_1x;
    u64 r_qw_3 = ld64(r_xz);
    st64(away(a_6, 24ull), 0ull);
    st64(away(a_6, 32ull), r_qw_3);
    st32(away(a_6, 40ull), r_nz);
    st8(away(a_6, 44ull), 10u);
    memset(away(a_6, 45ull), 0u, 3);
    r_us = 0u;
    r_1x = 1u;
    goto l_return_pr;
l_join_1x:;
    if (r_68_1 == 0u) { r_us = r_ll; r_1x = 0u; goto l_return_pr; }
    struct s_i8_i32 r_7w = capnp_pointers_pointers_canonical_test_elements_1e87a1_bd40b792(a_1, r_ll, t_xg, r_py, t_c8, r_y0, a_6);
    r_us = r_7w.f1;
    r_1x = r_7w.f0;
    goto l_return_pr;
l_arm_um:;
    u64 r_qw_4 = ld64(r_xz);
    st64(away(a_6, 24ull), 0ull);
    st64(away(a_6, 32ull), r_qw_4);
    st32(away(a_6, 40ull), a_2);
    st8(away(a_6, 44ull), 6u);
    memset(away(a_6, 45ull), 0u, 3);
    r_us = 0u;
    r_1x = 1u;
l_return_pr:;
    struct s_i8_i32 r_9l = (struct s_i8_i32){ 0 };
    r_9l.f0 = r_1x;
    struct s_i8_i32 r_i6 = r_9l;
    r_i6.f1 = r_us;
    return r_i6;
}

/* capnp_pointers::pointers::canonical::test_elements::<#1e87a151ef20e12e> */
static struct s_i8_i32 capnp_pointers_pointers_canonical_test_elements_1e87a1_bd40b792(u8 *a_1, u32 a_2, u16 a_3, u16 a_4, u32 a_5, u32 a_6, u8 *a_7)
{
    u32 r_m2;
    u32 r_m2_1;
    u32 r_68;
    u32 r_kq;
    u8 r_kh;
    u8 r_kh_1;
    u8 *r_xm;
    u8 *r_su;
    u32 r_4w;
    u32 r_4w_1;
    u64 wide_7l;
    u64 indvars_lg;
    u32 r_23;
    u8 r_ad;
    u8 r_ja;
    u32 r_kq_1;
    u32 r_w0;
    struct s_i8_i32 r_ff;
    u32 r_xo;
    u8 *r_rv;
    u64 r_24;
    u8 r_oq;
    u8 *r_rv_1;
    u64 r_24_1;
    u8 r_9o;
    u8 r_aj;
    u8 r_jq;
    u32 r_bn;
    u32 r_us;
    u8 r_1x;
    r_m2 = (u32)a_3;
    r_m2_1 = (u32)a_4;
    r_68 = (r_m2_1 + r_m2);
    r_kq = ((r_68 * a_5) + a_2);
    r_kh = (a_3 == 0u);
    r_kh_1 = (a_4 == 0u);
    if (a_5 == 0u) { r_aj = r_kh_1; r_jq = r_kh; r_bn = r_kq; goto l_after_9q; }
    r_xm = away(a_1, 32ull);
    r_su = away(a_1, 40ull);
    r_4w = (r_m2 + 0xffffffffu);
    r_4w_1 = (r_m2_1 + 0xffffffffu);
    wide_7l = (u64)a_5;
    indvars_lg = 0ull;
    r_23 = r_kq;
    r_ad = r_kh;
    r_ja = r_kh_1;
l_join_l2:;
    r_kq_1 = ((r_68 * (u32)indvars_lg) + a_2);
    r_w0 = (r_kq_1 + r_m2);
    if (!r_kh_1) goto l_join_0e;
    struct s_i8_i32 t_ph = (struct s_i8_i32){ 0u, 0u };
    t_ph.f1 = r_23;
    r_ff = t_ph;
    goto l_capnp_28;
l_join_0e:;
    struct s_i8_i32 r_vw = capnp_pointers_pointers_canonical_test_children_1e87a1_c3c6e6a7(a_1, r_w0, r_m2_1, a_6, r_23, a_7);
    r_ff = r_vw;
l_capnp_28:;
    r_xo = r_ff.f1;
    if (!(r_ff.f0 == 0u)) { r_us = 0u; r_1x = 1u; goto l_return_pr; }
    if (r_ad) { r_oq = 1u; goto l_join_mi; }
    r_rv = ldp(r_xm);
    if (r_kh) { r_oq = 1u; goto l_join_mi; }
    r_24 = (u64)(r_4w + r_kq_1);
    if (!((u64)(ld64(r_su) >> 3ull) > r_24)) { r_oq = 0u; goto l_join_mi; }
    r_oq = (ld64(away(r_rv, (u64)(r_24 << 3ull))) != 0ull);
l_join_mi:;
    if (r_ja) { r_9o = 1u; goto l_join_4g; }
    r_rv_1 = ldp(r_xm);
    if (r_kh_1) { r_9o = 1u; goto l_join_4g; }
    r_24_1 = (u64)(r_4w_1 + r_w0);
    if (!((u64)(ld64(r_su) >> 3ull) > r_24_1)) { r_9o = 0u; goto l_join_4g; }
    r_9o = (ld64(away(r_rv_1, (u64)(r_24_1 << 3ull))) != 0ull);
l_join_4g:;
    u64 indvars_r7 = (indvars_lg + 1ull);
    if (indvars_r7 == wide_7l) { r_aj = r_9o; r_jq = r_oq; r_bn = r_xo; goto l_after_9q; }
    indvars_lg = indvars_r7;
    r_23 = r_xo;
    r_ad = r_oq;
    r_ja = r_9o;
    goto l_join_l2;
l_after_9q:;
    if (r_jq ? r_aj : 0u) { r_us = r_bn; r_1x = 0u; goto l_return_pr; }
    u64 r_qw = ld64(away(a_1, 24ull));
    st64(away(a_7, 24ull), 0ull);
    st64(away(a_7, 32ull), r_qw);
    st32(away(a_7, 40ull), (a_2 + 0xffffffffu));
    st8(away(a_7, 44ull), (r_jq ? 12u : 11u));
    memset(away(a_7, 45ull), 0u, 3);
    r_us = 0u;
    r_1x = 1u;
l_return_pr:;
    struct s_i8_i32 r_9l = (struct s_i8_i32){ 0 };
    r_9l.f0 = r_1x;
    struct s_i8_i32 r_i6 = r_9l;
    r_i6.f1 = r_us;
    return r_i6;
}

/* capnp_layout::tool::engine::answer_refusal::<#05c50f83f81b9c23> */
static u8 capnp_layout_tool_engine_answer_refusal_05c50f83f81b9c23(u8 *a_1, u8 *a_2)
{
    A(8) u8 slot_1[96];
    u8 r_dh;
    u8 r_dd;
    u8 *r_rq;
    u8 *r_xz;
    u8 *r_08;
    u8 *r_x5;
    u8 *r_7u;
    u64 r_j3;
    u64 r_52;
    u64 r_52_1;
    u64 r_5q;
    u8 *r_lz;
    u8 *r_2b;
    u64 r_il;
    u64 r_4j;
    u8 *r_w4;
    u64 r_l7;
    u8 *r_x5_1;
    u8 *r_7u_1;
    u64 r_j3_1;
    u64 r_52_2;
    u64 r_52_3;
    u64 r_5q_1;
    u8 *r_lz_1;
    u8 *r_2b_1;
    u64 r_il_1;
    u64 r_4j_1;
    u8 *r_x5_2;
    u8 *r_7u_2;
    u64 r_j3_2;
    u64 r_52_4;
    u64 r_52_5;
    u64 r_5q_2;
    u8 *r_lz_2;
    u8 *r_2b_2;
    u64 r_il_2;
    u64 r_fe;
    u8 r_fk;
    r_dh = ld8(a_2);
    r_dd = ld8(away(a_2, 8ull));
    r_rq = away(a_1, 8ull);
    r_xz = away(a_1, 24ull);
    r_08 = away(a_1, 16ull);
    r_x5 = (slot_1 + 8);
    r_7u = ((u8 *)g_static_32);
    r_j3 = 8ull;
l_join_c8:;
    memset(slot_1, 0u, 96);
    r_52 = ld64(r_xz);
    r_52_1 = ld64(r_08);
    if (!(r_j3 < (r_52 - r_52_1))) goto l_std_1k;
    r_5q = (r_52_1 + r_j3);
    r_lz = ldp(r_rq);
    r_2b = away(r_lz, r_52_1);
    if (((u64)(uptr)r_2b - (u64)(uptr)r_7u) < r_j3) { r_il = 0ull; goto l_join_fh; }
    memcpy_or_none(r_2b, r_7u, r_j3);
    goto l_arm_5b;
l_join_fh:;
    st8((r_2b + (i64)(r_il)), ld8((r_7u + (i64)(r_il))));
    u64 r_36 = (r_il + 1ull);
    if (!(r_36 == r_j3)) { r_il = r_36; goto l_join_fh; }
l_arm_5b:;
    stp(r_rq, r_lz);
    st64(r_08, r_5q);
    st64(r_xz, r_52);
    r_4j = r_j3;
    goto l_arm_8s;
l_std_1k:;
    std_io_buffered_BufWriter_write_cold_89ca6214804c96d4(slot_1, a_1, r_7u, r_j3);
    u64 r_38 = ld64(r_x5);
    if ((ld8(slot_1) != 0u) ? 1u : (r_38 == 0ull)) goto l_return_q6;
    r_4j = r_38;
l_arm_8s:;
    u64 r_t9 = (r_j3 - r_4j);
    if (!(r_t9 == 0ull)) { u8 *r_1 = away(r_7u, r_4j); u64 r_2 = r_t9; r_7u = r_1; r_j3 = r_2; goto l_join_c8; }
    switch (r_dh) {
    case 0u: goto l_switch_0w;
    case 1u: goto l_switch_xa;
    case 2u: { r_w4 = ((u8 *)g_static_33); r_l7 = 9ull; goto l_join_qn; }
    default: goto l_noarm_e1;
    }
l_noarm_e1:;
    UNREACHABLE();
l_switch_0w:;
    r_w4 = ldp((((u8 *)switch_table_capnp_layout_tool_engine_answer_refusal_0_d0ee3ebd) + (i64)(8 * (u64)r_dd)));
    r_l7 = ld64((((u8 *)switch_table_capnp_layout_tool_engine_answer_refusal_0_fd87fa01) + (i64)(8 * (u64)r_dd)));
    goto l_join_qn;
l_switch_xa:;
    r_w4 = ldp((((u8 *)switch_table_capnp_layout_tool_engine_answer_refusal_0_24a7d607) + (i64)(8 * (u64)r_dd)));
    r_l7 = ld64((((u8 *)switch_table_capnp_layout_tool_engine_answer_refusal_0_c95a7cd9) + (i64)(8 * (u64)r_dd)));
l_join_qn:;
    r_x5_1 = (slot_1 + 8);
    r_7u_1 = r_w4;
    r_j3_1 = r_l7;
l_join_c8_1:;
    memset(slot_1, 0u, 96);
    r_52_2 = ld64(r_xz);
    r_52_3 = ld64(r_08);
    if (!(r_j3_1 < (r_52_2 - r_52_3))) goto l_std_1k_1;
    r_5q_1 = (r_52_3 + r_j3_1);
    r_lz_1 = ldp(r_rq);
    memset(r_08, 0u, 16);
    r_2b_1 = away(r_lz_1, r_52_3);
    if (((u64)(uptr)r_2b_1 - (u64)(uptr)r_7u_1) < r_j3_1) { r_il_1 = 0ull; goto l_join_fh_1; }
    memmove_or_none(r_2b_1, r_7u_1, r_j3_1);
    goto l_arm_5b_1;
l_join_fh_1:;
    st8((r_2b_1 + (i64)(r_il_1)), ld8((r_7u_1 + (i64)(r_il_1))));
    u64 r_36_1 = (r_il_1 + 1ull);
    if (!(r_36_1 == r_j3_1)) { r_il_1 = r_36_1; goto l_join_fh_1; }
l_arm_5b_1:;
    stp(r_rq, r_lz_1);
    st64(r_08, r_5q_1);
    st64(r_xz, r_52_2);
    r_4j_1 = r_j3_1;
    goto l_arm_8s_1;
l_std_1k_1:;
    std_io_buffered_BufWriter_write_cold_89ca6214804c96d4(slot_1, a_1, r_7u_1, r_j3_1);
    u64 r_38_1 = ld64(r_x5_1);
    if ((ld8(slot_1) != 0u) ? 1u : (r_38_1 == 0ull)) goto l_return_q6;
    r_4j_1 = r_38_1;
l_arm_8s_1:;
    u64 r_t9_1 = (r_j3_1 - r_4j_1);
    if (!(r_t9_1 == 0ull)) { u8 *r_3 = away(r_7u_1, r_4j_1); u64 r_4 = r_t9_1; r_7u_1 = r_3; r_j3_1 = r_4; goto l_join_c8_1; }
    r_x5_2 = (slot_1 + 8);
    r_7u_2 = ((u8 *)g_static_6);
    r_j3_2 = 1ull;
l_join_c8_2:;
    memset(slot_1, 0u, 96);
    r_52_4 = ld64(r_xz);
    r_52_5 = ld64(r_08);
    if (!(r_j3_2 < (r_52_4 - r_52_5))) goto l_std_1k_2;
    r_5q_2 = (r_52_5 + r_j3_2);
    r_lz_2 = ldp(r_rq);
    r_2b_2 = away(r_lz_2, r_52_5);
    if (((u64)(uptr)r_2b_2 - (u64)(uptr)r_7u_2) < r_j3_2) { r_il_2 = 0ull; goto l_join_fh_2; }
    memcpy_or_none(r_2b_2, r_7u_2, r_j3_2);
    goto l_arm_5b_2;
l_join_fh_2:;
    st8((r_2b_2 + (i64)(r_il_2)), ld8((r_7u_2 + (i64)(r_il_2))));
    u64 r_36_2 = (r_il_2 + 1ull);
    if (!(r_36_2 == r_j3_2)) { r_il_2 = r_36_2; goto l_join_fh_2; }
l_arm_5b_2:;
    stp(r_rq, r_lz_2);
    st64(r_08, r_5q_2);
    st64(r_xz, r_52_4);
    r_fe = r_j3_2;
    goto l_arm_on;
l_std_1k_2:;
    std_io_buffered_BufWriter_write_cold_89ca6214804c96d4(slot_1, a_1, r_7u_2, r_j3_2);
    u64 r_38_2 = ld64(r_x5_2);
    if ((ld8(slot_1) != 0u) ? 1u : (r_38_2 == 0ull)) goto l_return_q6;
    r_fe = r_38_2;
l_arm_on:;
    u64 r_t9_2 = (r_j3_2 - r_fe);
    if (r_t9_2 == 0ull) { r_fk = 1u; goto l_capnp_ri; }
    u8 *r_5 = away(r_7u_2, r_fe);
    u64 r_6 = r_t9_2;
    r_7u_2 = r_5;
    r_j3_2 = r_6;
    goto l_join_c8_2;
l_return_q6:;
    st8(away(a_1, 32ull), 1u);
    r_fk = 3u;
l_capnp_ri:;
    return r_fk;
}

/* layout_tool::print_error */
static u8 layout_tool_print_error(u8 *a_1, u64 a_2)
{
    A(8) u8 slot_1[1136];
    A(8) u8 slot_2[1176];
    u8 *r_ix;
    u8 *r_s4;
    u8 *r_uy;
    u8 *r_ky;
    u8 *r_lp;
    u8 *r_e1;
    u64 r_pv;
    u64 r_m0;
    u8 *r_w9;
    u8 *r_62;
    u64 r_0f;
    u8 r_47;
    u64 r_km;
    u64 r_c4;
    u64 r_4x;
    st32(slot_2, 2u);
    r_ix = (slot_2 + 4);
    memset(r_ix, 0u, 1132);
    r_s4 = (slot_2 + 1136);
    st32(r_s4, 32u);
    r_uy = (slot_2 + 1140);
    r_ky = (slot_2 + 1152);
    memset(r_uy, 0u, 12);
    st64(r_ky, 0xffffffffffffffffull);
    r_lp = (slot_2 + 1160);
    memset(r_lp, 0u, 16);
    mv24(slot_1, r_s4);
    st32(r_s4, 32u);
    memset(r_uy, 0u, 12);
    st64(r_ky, 0xffffffffffffffffull);
    r_e1 = (slot_2 + 1032);
    r_pv = 0ull;
    r_m0 = a_2;
    r_w9 = a_1;
l_arm_td:;
    r_62 = away(r_w9, 1ull);
    r_0f = (r_m0 + 0xffffffffffffffffull);
    r_47 = ld8(r_w9);
    if (!(r_pv > 1023ull)) { r_km = r_pv; goto l_std_41; }
    u8 r_m5 = std_io_io_buffer_Buffer_flush(slot_2);
    u64 r_38 = ld64(r_e1);
    if (r_m5 ? (r_38 < 1024ull) : 0u) { r_km = r_38; goto l_std_41; }
    goto l_core_pf;
l_std_41:;
    st8((r_ix + (i64)(r_km)), r_47);
    r_c4 = (r_km + 1ull);
    st64(r_e1, r_c4);
    if (r_0f == 0ull) goto l_arm_lb;
    r_pv = r_c4;
    r_m0 = r_0f;
    r_w9 = r_62;
    goto l_arm_td;
l_core_pf:;
    mv24(r_s4, slot_1);
    goto l_join_78;
l_arm_lb:;
    mv24(r_s4, slot_1);
    mv24(slot_1, r_s4);
    st32(r_s4, 32u);
    memset(r_uy, 0u, 12);
    st64(r_ky, 0xffffffffffffffffull);
    if (!(ld64(r_lp) == 0ull)) goto l_else_58;
    if (!(r_km > 1022ull)) { r_4x = r_c4; goto l_std_vs; }
    u8 r_m5_1 = std_io_io_buffer_Buffer_flush(slot_2);
    u64 r_38_1 = ld64(r_e1);
    if (r_m5_1 ? (r_38_1 < 1024ull) : 0u) { r_4x = r_38_1; goto l_std_vs; }
    goto l_core_pf_1;
l_std_vs:;
    st8((r_ix + (i64)(r_4x)), 10u);
    st64(r_e1, (r_4x + 1ull));
    goto l_core_pf_1;
l_else_58:;
    core_fmt_formatter_Formatter_write_indented_bf264aed5fa78656(slot_2, ((u8 *)g_static_6), 1ull);
l_core_pf_1:;
    mv24(r_s4, slot_1);
l_join_78:;
    st32(slot_1, ld32(slot_2));
    memcpy((slot_1 + 4), r_ix, 1132);
    std_io_io_buffer_Buffer_flush(slot_1);
    return 2u;
}

int main(int count, char **words)
{
    keep_arguments(count, words);
    A(8) u8 slot_1[1];
    A(8) u8 slot_2[1136];
    A(8) u8 slot_3[4096];
    A(8) u8 slot_4[192];
    A(8) u8 slot_5[184];
    A(8) u8 slot_6[184];
    A(8) u8 slot_7[24];
    A(8) u8 slot_8[24];
    A(8) u8 slot_9[24];
    A(8) u8 slot_10[40];
    A(8) u8 slot_11[32];
    A(8) u8 slot_12[24];
    A(8) u8 slot_13[32];
    A(8) u8 slot_14[24];
    A(8) u8 slot_15[24];
    A(8) u8 slot_16[8224];
    A(8) u8 slot_17[40];
    A(8) u8 slot_18[16];
    A(8) u8 slot_19[16];
    u8 *r_x5;
    u8 *r_x5_1;
    u8 *r_zd;
    u8 *r_zd_1;
    u64 r_bk;
    u8 *r_pp;
    u64 r_pa;
    u64 r_hi;
    u32 r_s3;
    u64 r_38;
    u8 *r_xw;
    u64 r_5q;
    u64 r_ps;
    u8 *r_7o;
    u64 r_t8;
    u64 r_o2;
    u64 r_38_1;
    u8 *r_xw_1;
    u64 r_38_2;
    u64 r_38_3;
    u64 r_iu;
    u8 *r_a7;
    u64 r_38_4;
    u64 r_iu_1;
    u8 *r_a7_1;
    u8 *r_xw_2;
    u64 r_38_5;
    u64 r_iu_2;
    u8 *r_a7_2;
    u8 *r_m7;
    u64 r_wf;
    u64 r_5q_1;
    u8 *r_xw_3;
    u8 t_ts;
    u8 *r_x5_2;
    u8 *r_zd_2;
    u8 *r_a0;
    u64 r_z2;
    u64 r_vr;
    u64 r_0o;
    u8 *r_cv;
    u64 r_z6;
    u64 r_0w;
    u8 r_45;
    u64 r_xw_4;
    u64 r_2c_1;
    u64 r_gs_1;
    u64 r_mz;
    u64 r_7n_1;
    u64 r_zn;
    u8 *r_a7_4;
    u64 r_2c;
    u64 r_gs;
    u64 r_7n_2;
    u64 r_zn_1;
    u8 *r_rv;
    u64 r_qw;
    u64 r_qw_1;
    u8 *r_m7_1;
    u64 r_wf_1;
    u64 r_5q_2;
    u64 r_iu_3;
    u8 *r_a7_7;
    u8 *r_xw_5;
    u64 r_38_6;
    u64 r_38_7;
    u64 r_iu_4;
    u8 *r_a7_8;
    u8 *r_xw_6;
    u64 r_38_8;
    u8 *r_lz;
    u64 r_52;
    u8 *r_ix;
    u8 *r_s4;
    u8 *r_uy;
    u8 *r_ky;
    u8 *r_lp;
    u8 *r_e1;
    u64 r_pv;
    u64 r_m0;
    u8 *r_w9;
    u8 *r_62;
    u64 r_0f;
    u8 r_47;
    u64 r_km;
    u64 r_c4;
    u64 r_4x;
    u8 r_bu;
    u8 r_ri;
    u8 r_vx;
    u8 spec_q8;
    u8 r_3u;
    u8 r_jh;
    u8 *r_lz_1;
    u64 r_52_1;
    u8 r_47_1;
    u32 r_cf;
    u32 r_to;
    u32 r_to_1;
    u32 r_t2;
    u64 r_j1_1;
    u64 r_3n_1;
    u8 r_47_2;
    u64 r_b2;
    u64 r_3z;
    u64 r_lc;
    u64 r_j1_2;
    u64 r_3n_2;
    u8 r_47_3;
    u64 r_b2_1;
    u64 r_3z_1;
    u64 r_lc_1;
    u64 r_j1;
    u64 r_3n;
    u8 r_47_4;
    u64 r_b2_2;
    u64 r_3z_2;
    u64 r_lc_2;
    u64 r_8r;
    u32 ph_2n;
    u8 *r_lz_2;
    u64 r_52_2;
    u8 r_47_5;
    u32 r_cf_1;
    u32 r_to_2;
    u32 r_to_3;
    u32 r_l2;
    u64 r_j1_4;
    u64 r_3n_4;
    u8 r_47_6;
    u64 r_b2_3;
    u64 r_3z_3;
    u64 r_j1_3;
    u64 r_3n_3;
    u8 r_47_7;
    u64 r_b2_4;
    u64 r_3z_4;
    u64 r_j5;
    u8 r_vq;
    u8 r_z5;
    u8 r_nu;
    u8 r_6n;
    u64 r_jq;
    u32 r_yl;
    u8 r_c9;
    u8 r_ml;
    u8 r_td;
    u64 r_gk;
    u32 r_ax;
    u64 r_u2;
    struct s_i64_i64 r_1y;
    u8 *r_6v;
    u8 *r_x5_3;
    u8 *r_zd_3;
    u8 *r_lk;
    u8 *r_89;
    u8 *r_x5_4;
    u8 *r_of;
    u8 *r_rk;
    u8 *r_zd_4;
    u64 r_wa;
    u8 *r_99;
    u64 r_52_4;
    u64 r_52_5;
    u64 r_ne;
    u64 r_b5;
    u8 *r_hh;
    u64 r_cg;
    u64 r_8j;
    u8 r_47_8;
    u8 *r_6q;
    u64 r_cv_1;
    u64 r_7n_7;
    u8 *r_xw_7;
    u64 r_38_11;
    u8 *r_x5_5;
    u8 *r_x5_6;
    u8 *r_zd_5;
    u8 *r_zd_6;
    u64 r_4n;
    u8 *r_ep;
    u64 r_g8;
    u8 *r_2x;
    u64 r_ft;
    u64 r_lg;
    u64 t_pk;
    u8 r_5d;
    u64 r_t9;
    u64 r_pg;
    u8 *r_bl;
    u64 r_dt;
    u8 *r_7d;
    u64 r_78;
    u64 r_tz;
    u8 *r_46;
    u64 r_dq;
    u64 r_7n_8;
    u8 *r_xw_8;
    u64 r_k6;
    u8 r_47_9;
    u8 r_47_10;
    u8 sink_0e;
    u8 r_8t;
    u8 sink_4g;
    u64 r_bg;
    u64 r_zb;
    u8 *r_zs;
    u64 r_0e;
    u8 *r_ie;
    u8 r_nd;
    u64 r_ix_1;
    u8 r_fs;
    u8 *r_xw_9;
    u64 r_38_12;
    u64 r_38_13;
    u64 r_iu_5;
    u8 *r_a7_10;
    u64 r_ym;
    u8 *r_lz_3;
    u64 r_7n_9;
    u8 *r_xw_10;
    u64 r_38_14;
    u64 r_38_15;
    u64 r_iu_6;
    u8 *r_a7_12;
    u8 *r_69;
    u64 r_jc;
    u64 r_6q_1;
    u64 r_hb;
    u8 t_1d;
    u8 r_9o;
    u8 r_wo;
    u8 r_7k;
    u8 *r_5a;
    u64 r_2l;
    u64 r_r9;
    u64 r_gj;
    u64 r_kh;
    u8 *r_x5_7;
    u8 *r_zd_7;
    u64 r_52_6;
    u8 t_0q;
    u64 r_iu_7;
    u8 *r_a7_13;
    u64 r_4h;
    u8 *r_lz_4;
    u8 *r_x5_8;
    u8 *r_zd_8;
    u8 *r_lk_1;
    u8 *r_89_1;
    u8 *r_gs_2;
    u8 *r_a8;
    u64 r_gw;
    u64 r_qw_2;
    u64 r_ep_1;
    u64 r_y6;
    u64 r_q7;
    u64 r_lc_3;
    u64 r_m6;
    u64 r_nb;
    u64 r_qs;
    u32 r_12;
    u32 r_az;
    u32 r_ff_1;
    u32 r_68;
    u8 r_ts;
    struct s_i8_i32 r_b5_1;
    u32 r_68_1;
    u64 r_es;
    u64 r_ij;
    u64 r_c6;
    u64 r_m6_1;
    u64 r_nb_1;
    u64 r_qs_1;
    u32 r_ff_2;
    u64 r_4i;
    u8 r_gy;
    u8 t_n1;
    u8 r_r3;
    u8 r_so;
    u32 r_j6;
    u64 r_qk;
    u8 *r_xw_11;
    u64 r_38_16;
    u64 r_38_17;
    u64 r_iu_8;
    u8 *r_a7_14;
    u8 r_bk_1;
    u64 r_iu_9;
    u8 *r_a7_15;
    u8 r_rg;
    u8 r_s6;
    u64 r_g4;
    u8 r_r4;
    u64 r_o1;
    u8 *r_x5_9;
    u8 *r_7u;
    u64 r_j3;
    u64 r_52_7;
    u64 r_5q_5;
    u8 *r_2b;
    u64 r_il;
    u64 r_fe;
    u8 *r_x5_10;
    u8 *r_7u_1;
    u64 r_j3_1;
    u64 r_52_8;
    u64 r_5q_6;
    u8 *r_2b_1;
    u64 r_il_1;
    u64 r_fe_1;
    u8 r_h3;
    u64 r_g8_1;
    u32 r_bu_1;
    u8 r_jh_1;
    u8 *r_5a_1;
    u64 r_2l_1;
    u8 r_ts_1;
    u64 r_r9_1;
    u64 r_gj_1;
    u64 r_sw;
    u8 *r_x5_11;
    u8 *r_zd_9;
    u8 *t_6c_1;
    u64 r_52_9;
    u64 r_oe;
    u8 *r_zd_10;
    u8 *r_zo;
    u8 *r_lk_2;
    u32 r_rh;
    u8 r_ix_2;
    u32 r_fs_1;
    u32 r_sk;
    u64 r_ve;
    u64 r_bk_2;
    u32 r_pp_1;
    u32 r_pa_1;
    u8 r_vh;
    u8 *r_f9;
    u64 r_jl;
    u64 r_jc_1;
    u64 r_iu_11;
    u8 *r_a7_16;
    u64 r_4g_1;
    u32 r_uk;
    u32 r_o2_1;
    u8 r_zu;
    u8 *r_lg_1;
    u64 r_8u;
    u64 r_iu_10;
    u8 *r_a7_17;
    u64 r_a7_18;
    u8 *r_x5_12;
    u8 *r_7u_2;
    u64 r_j3_2;
    u64 r_52_10;
    u64 r_5q_7;
    u8 *r_2b_2;
    u64 r_il_2;
    u64 r_4j;
    u8 *r_x5_13;
    u8 *r_7u_3;
    u64 r_j3_3;
    u64 r_52_11;
    u64 r_5q_8;
    u8 *r_2b_3;
    u64 r_il_3;
    u64 r_4j_1;
    u8 *r_x5_14;
    u8 *r_7u_4;
    u64 r_j3_4;
    u64 r_52_12;
    u64 r_5q_9;
    u8 *r_2b_4;
    u64 r_il_4;
    u64 r_fe_2;
    u32 r_o4;
    u64 r_hd;
    u32 r_67;
    u8 r_jh_2;
    u8 *r_m1;
    u64 r_vt;
    u32 r_12_1;
    u64 indvars_ez;
    u64 indvars_3k;
    u64 r_g2;
    u8 *r_15_1;
    u8 *r_x5_15;
    u8 *r_7u_5;
    u64 r_j3_5;
    u64 r_52_13;
    u64 r_5q_10;
    u8 *r_2b_6;
    u64 r_il_5;
    u64 r_fe_3;
    u8 r_bk_3;
    u64 r_iu_12;
    u8 *r_a7_19;
    u64 r_74;
    u32 r_y0;
    u64 r_0o_1;
    u8 r_0d_2;
    u64 r_iu_13;
    u8 *r_a7_20;
    u8 r_s6_1;
    u8 r_jh_3;
    u64 r_iu_14;
    u8 *r_a7_21;
    u8 *r_x5_16;
    u64 r_52_14;
    u64 t_nb;
    u8 *r_a8_1;
    u8 *t_c4;
    u8 *r_x5_17;
    u8 *r_xw_13;
    u8 *r_xw_14;
    u64 indvars_rl;
    u64 r_a0_1;
    u64 r_we;
    u64 r_9r;
    u64 r_52_15;
    u64 r_l5;
    u64 r_rx;
    u64 r_2z;
    u64 r_52_16;
    u64 r_l5_1;
    u64 r_rx_1;
    u64 r_6u;
    u64 r_j7;
    u64 r_hl;
    u8 *r_a5;
    u8 *r_7u_6;
    u64 r_j3_6;
    u64 r_52_17;
    u64 r_5q_13;
    u8 *r_2b_7;
    u64 r_il_6;
    u64 r_4j_2;
    u8 r_2c_2;
    u8 r_0d_3;
    u8 r_s6_2;
    u8 r_z5_1;
    u64 r_iu_15;
    u8 *r_a7_22;
    u64 r_38_27;
    u64 r_38_28;
    u64 r_38_29;
    u8 *r_89_2;
    u8 *t_f6;
    u64 r_eb;
    u64 r_i4;
    u64 r_gz;
    u8 *r_lk_3;
    u8 *r_s3_1;
    u8 *t_6c_2;
    u32 r_y4;
    u8 t_0q_1;
    u64 r_lt;
    u64 r_24_1;
    u8 *r_2b_8;
    u8 *r_x5_18;
    u8 *r_zd_11;
    u8 *r_lk_4;
    u8 *r_89_3;
    u8 *r_gs_3;
    u8 *r_a8_2;
    u64 r_qw_3;
    u64 r_ep_2;
    u64 r_y6_1;
    u64 r_q7_1;
    u64 r_lc_4;
    u64 r_m6_2;
    u64 r_i9;
    u32 r_12_2;
    u32 r_az_1;
    u32 r_qt;
    u32 r_ff_3;
    u32 r_68_2;
    u8 r_ts_2;
    struct s_i8_i32 r_d4;
    u32 r_xo;
    u32 r_68_3;
    u32 r_tu;
    u8 r_di;
    u64 r_ij_1;
    u64 r_c6_1;
    u64 r_m6_3;
    u64 r_i9_1;
    u32 narrow_j8;
    u32 r_12_3;
    u32 r_ff_4;
    u64 r_4i_1;
    u32 r_tu_1;
    u8 r_di_1;
    struct s_i8_i32 r_uq;
    u8 r_5h;
    u64 r_r4_1;
    u32 r_9a;
    u32 r_q2;
    u64 r_8p;
    u64 r_r6;
    u8 *r_x5_19;
    u8 *r_7u_7;
    u64 r_j3_7;
    u64 r_52_18;
    u64 r_5q_15;
    u8 *r_2b_9;
    u64 r_il_7;
    u64 r_fe_4;
    u8 *r_x5_20;
    u8 *r_7u_8;
    u64 r_j3_8;
    u64 r_52_19;
    u64 r_5q_16;
    u8 *r_2b_10;
    u64 r_il_8;
    u64 r_fe_5;
    u8 r_2c_3;
    u32 r_dv;
    u64 r_5n;
    u64 r_lu;
    u32 r_h7;
    u8 r_0d_4;
    u8 r_s6_3;
    u8 r_sw_1;
    u8 r_4g;
    u8 r_2g;
    u8 r_r5;
    u8 *r_xw_15;
    u8 r_sw_2;
    u8 spec_8q;
    u64 r_38_32;
    u64 r_38_33;
    u8 r_bk_4;
    u64 r_iu_16;
    u8 *r_a7_23;
    u8 r_jx;
    u64 r_iu_17;
    u8 *r_a7_24;
    u8 r_2c_4;
    u64 r_iu_18;
    u8 *r_a7_25;
    u8 r_sv;
    u8 *r_ix_3;
    u8 *r_s4_1;
    u8 *r_uy_1;
    u8 *r_ky_1;
    u8 *r_lp_1;
    u8 *r_e1_1;
    u64 r_pv_1;
    u64 r_m0_1;
    u8 *r_w9_1;
    u8 *r_62_1;
    u64 r_0f_1;
    u8 r_47_11;
    u64 r_km_1;
    u64 r_c4_6;
    u64 r_pv_2;
    u64 r_m0_2;
    u8 *r_w9_2;
    u8 *r_62_2;
    u64 r_0f_2;
    u8 r_47_12;
    u64 r_km_2;
    u64 r_4x_1;
    u8 r_qe;
    u8 r_ri_1;
    u8 r_un;
    c_signal(13u, 1ull);
    memset(slot_19, 0u, 16);
    stp(slot_18, ((u8 *)g_static_0));
    st64((slot_18 + 8), 6ull);
    memset(slot_4, 0u, 24);
    stp(slot_3, slot_1);
    r_x5 = (slot_3 + 8);
    memset(r_x5, 0u, 16);
    r_x5_1 = (slot_2 + 8);
    r_zd = (slot_2 + 16);
    r_zd_1 = (slot_3 + 16);
    r_bk = 0ull;
    r_pp = slot_1;
    r_pa = 0ull;
l_join_qu:;
    r_hi = 256ull;
    r_s3 = 0u;
l_join_du:;
    stp(slot_2, slot_1);
    memset(r_x5_1, 0u, 16);
    if (r_hi == 0ull) { r_ps = 0ull; r_7o = slot_1; goto l_join_44; }
    u8 r_ab = std_alloc_vec_Vec_grow_amortized_fe53b0f2d1658541(slot_2, r_hi);
    if (!r_ab) goto l_then_ne;
    r_38 = ld64(r_x5_1);
    r_xw = ldp(slot_2);
    r_5q = (r_38 + r_hi);
    if (!(r_38 < r_5q)) { r_ps = r_5q; r_7o = r_xw; goto l_join_44; }
    memset_or_none(away(r_xw, r_38), 0u, r_hi);
    r_ps = r_5q;
    r_7o = r_xw;
    goto l_join_44;
l_then_ne:;
    if (ld64(r_zd) == 0ull) goto l_arm_5s;
    goto l_arm_g8;
l_join_44:;
    r_t8 = rattle_arg(r_pa, r_7o, r_ps);
    rattle_set_errno((((i64)r_t8 > (i64)0xffffffffffffffffull) ? 0u : ((r_t8 == 0xffffffffffffffffull) ? 22u : 36u)));
    u32 r_90 = rattle_errno();
    switch (r_90) {
    case 0u: goto l_arm_tu;
    case 36u: goto l_arm_i7;
    default: goto l_arm_g4;
    }
l_arm_tu:;
    r_o2 = (((i64)r_t8 > (i64)0ull) ? umin64(r_t8, r_ps) : 0ull);
    r_38_1 = ld64(r_zd);
    memset(slot_2, 0u, 24);
    core_str_utf8_from_utf8(slot_2, r_7o, r_o2);
    if (ld8(slot_2) == 1u) goto l_arm_we;
    goto l_arm_cw;
l_arm_i7:;
    if (ld64(r_zd) == 0ull) goto l_std_8x;
    rattle_dealloc(r_7o);
l_std_8x:;
    u32 r_ff = (r_s3 + 1u);
    if (r_ff == 64u) goto l_arm_qr;
    u64 r_1 = uadd_sat64(r_hi, r_hi);
    u32 r_2 = r_ff;
    r_hi = r_1;
    r_s3 = r_2;
    goto l_join_du;
l_arm_g4:;
    if (ld64(r_zd) == 0ull) goto l_after_5s;
    rattle_dealloc(r_7o);
    goto l_after_5s;
l_arm_we:;
    if (r_38_1 == 0ull) goto l_arm_zb;
    rattle_dealloc(r_7o);
    goto l_arm_zb;
l_arm_cw:;
    if (!(ld64(r_zd_1) == r_bk)) { r_m7 = r_pp; r_wf = r_bk; goto l_join_bw; }
    u8 r_c2 = std_alloc_vec_Vec_grow_amortized_b9be21092a786ac5(slot_3);
    if (!r_c2) goto l_arm_98;
    r_m7 = ldp(slot_3);
    r_wf = ld64(r_x5);
    goto l_join_bw;
l_arm_98:;
    if (r_38_1 == 0ull) goto l_then_tl;
    rattle_dealloc(r_7o);
l_then_tl:;
    r_xw_1 = ldp(slot_3);
    r_38_2 = ld64(r_x5);
    r_38_3 = ld64(r_zd_1);
    if (r_38_2 == 0ull) goto l_std_s3;
    r_iu = 0ull;
l_join_9n:;
    r_a7 = away(r_xw_1, (r_iu * 24ull));
    if (ld64((r_a7 + 16)) == 0ull) goto l_core_jc;
    rattle_dealloc(ldp(r_a7));
l_core_jc:;
    u64 r_36 = (r_iu + 1ull);
    if (!(r_36 == r_38_2)) { r_iu = r_36; goto l_join_9n; }
l_std_s3:;
    if (r_38_3 == 0ull) { r_vr = 38ull; goto l_std_zv; }
    r_a0 = r_xw_1;
    r_z2 = 38ull;
    goto l_std_m0;
l_arm_g8:;
    rattle_dealloc(ldp(slot_2));
l_arm_5s:;
l_arm_qr:;
    r_38_4 = ld64(r_zd_1);
    if (r_bk == 0ull) goto l_std_s3_1;
    r_iu_1 = 0ull;
l_join_9n_1:;
    r_a7_1 = away(r_pp, (r_iu_1 * 24ull));
    if (ld64((r_a7_1 + 16)) == 0ull) goto l_core_jc_1;
    rattle_dealloc(ldp(r_a7_1));
l_core_jc_1:;
    u64 r_36_1 = (r_iu_1 + 1ull);
    if (!(r_36_1 == r_bk)) { r_iu_1 = r_36_1; goto l_join_9n_1; }
l_std_s3_1:;
    if (r_38_4 == 0ull) { r_vr = 38ull; goto l_std_zv; }
    r_a0 = r_pp;
    r_z2 = 38ull;
    goto l_std_m0;
l_arm_zb:;
    r_xw_2 = ldp(slot_3);
    r_38_5 = ld64(r_zd_1);
    if (r_bk == 0ull) goto l_std_s3_2;
    r_iu_2 = 0ull;
l_join_9n_2:;
    r_a7_2 = away(r_xw_2, (r_iu_2 * 24ull));
    if (ld64((r_a7_2 + 16)) == 0ull) goto l_core_jc_2;
    rattle_dealloc(ldp(r_a7_2));
l_core_jc_2:;
    u64 r_36_2 = (r_iu_2 + 1ull);
    if (!(r_36_2 == r_bk)) { r_iu_2 = r_36_2; goto l_join_9n_2; }
l_std_s3_2:;
    if (r_38_5 == 0ull) { r_vr = 21ull; goto l_std_zv; }
    r_a0 = r_xw_2;
    r_z2 = 21ull;
    goto l_std_m0;
l_join_bw:;
    u8 *r_a7_3 = (r_m7 + (i64)((r_wf * 24ull)));
    stp(r_a7_3, r_7o);
    st64((r_a7_3 + 8), r_o2);
    st64((r_a7_3 + 16), r_38_1);
    u64 r_7n = (r_wf + 1ull);
    st64(r_x5, r_7n);
    u64 r_36_3 = (r_pa + 1ull);
    if (r_36_3 == 0xffffffffffffffffull) { r_5q_1 = r_7n; goto l_arm_fy; }
    r_bk = r_7n;
    r_pp = r_m7;
    r_pa = r_36_3;
    goto l_join_qu;
l_after_5s:;
    r_5q_1 = r_bk;
l_arm_fy:;
    r_xw_3 = ldp(slot_3);
    t_ts = (ld64(r_zd_1) == 0ull);
    stp(slot_4, slot_1);
    r_x5_2 = (slot_4 + 8);
    memset(r_x5_2, 0u, 16);
    r_zd_2 = (slot_4 + 16);
    r_0o = 0ull;
    r_cv = slot_1;
    r_z6 = r_5q_1;
    r_0w = 0ull;
    r_45 = 0u;
    r_xw_4 = 1ull;
    goto l_loop_nx;
l_std_m0:;
    rattle_dealloc(r_a0);
    r_vr = r_z2;
l_std_zv:;
    st8((slot_2 + 4), 4u);
    st8((slot_2 + 5), 5u);
    st8((slot_2 + 6), 6u);
    st8((slot_2 + 7), 7u);
    st8((slot_2 + 8), 8u);
    st8((slot_2 + 9), 9u);
    st8((slot_2 + 10), 10u);
    st8((slot_2 + 11), 11u);
    st8((slot_2 + 12), 12u);
    st8((slot_2 + 13), 13u);
    st8((slot_2 + 14), 14u);
    st8((slot_2 + 15), 15u);
    st8((slot_2 + 16), 16u);
    st8((slot_2 + 17), 17u);
    st8((slot_2 + 18), 18u);
    st8((slot_2 + 19), 19u);
    st8((slot_2 + 20), 20u);
    st8((slot_2 + 21), 21u);
    st8((slot_2 + 22), 22u);
    st8((slot_2 + 23), 23u);
    st8((slot_2 + 24), 24u);
    st8((slot_2 + 25), 25u);
    st8((slot_2 + 26), 26u);
    st8((slot_2 + 27), 27u);
    st8((slot_2 + 28), 28u);
    st8((slot_2 + 29), 29u);
    st8((slot_2 + 30), 30u);
    st8((slot_2 + 31), 31u);
    st8((slot_2 + 32), 32u);
    st8((slot_2 + 33), 33u);
    st8((slot_2 + 34), 34u);
    st8((slot_2 + 35), 35u);
    st8((slot_2 + 36), 36u);
    st8((slot_2 + 37), 37u);
    st8((slot_2 + 38), 38u);
    st8((slot_2 + 39), 39u);
    st8((slot_2 + 40), 40u);
    if (ld8((slot_2 + (i64)(r_vr))) == 38u) goto l_arm_5s_1;
    goto l_arm_ta;
l_loop_nx:;
    if (r_45) { r_2c = r_z6; r_gs = r_0w; goto l_after_2x; }
    r_2c_1 = r_z6;
    r_gs_1 = r_0w;
    r_mz = 0ull;
l_join_2x:;
    if (r_2c_1 == 0ull) goto l_std_b1;
    r_7n_1 = (r_gs_1 + 1ull);
    r_zn = (r_2c_1 + 0xffffffffffffffffull);
    r_a7_4 = away(r_xw_3, (r_gs_1 * 24ull));
    if (ld64((r_a7_4 + 16)) == 0ull) goto l_layout_94;
    rattle_dealloc(ldp(r_a7_4));
l_layout_94:;
    u64 r_36_4 = (r_mz + 1ull);
    if (r_36_4 == r_xw_4) { r_2c = r_zn; r_gs = r_7n_1; goto l_after_2x; }
    r_2c_1 = r_zn;
    r_gs_1 = r_7n_1;
    r_mz = r_36_4;
    goto l_join_2x;
l_after_2x:;
    if (r_2c == 0ull) goto l_std_b1;
    r_7n_2 = (r_gs + 1ull);
    r_zn_1 = (r_2c + 0xffffffffffffffffull);
    u8 *r_a7_5 = (r_xw_3 + (i64)((r_gs * 24ull)));
    r_rv = ldp(r_a7_5);
    r_qw = ld64((r_a7_5 + 8));
    r_qw_1 = ld64((r_a7_5 + 16));
    if (!(ld64(r_zd_2) == r_0o)) { r_m7_1 = r_cv; r_wf_1 = r_0o; goto l_core_bw; }
    u8 r_c2_1 = std_alloc_vec_Vec_grow_amortized_b9be21092a786ac5(slot_4);
    if (!r_c2_1) goto l_arm_r8;
    r_m7_1 = ldp(slot_4);
    r_wf_1 = ld64(r_x5_2);
l_core_bw:;
    u8 *r_a7_6 = (r_m7_1 + (i64)((r_wf_1 * 24ull)));
    stp(r_a7_6, r_rv);
    st64((r_a7_6 + 8), r_qw);
    st64((r_a7_6 + 16), r_qw_1);
    u64 r_7n_3 = (r_wf_1 + 1ull);
    st64(r_x5_2, r_7n_3);
    r_0o = r_7n_3;
    r_cv = r_m7_1;
    r_z6 = r_zn_1;
    r_0w = r_7n_2;
    r_45 = 1u;
    r_xw_4 = 0ull;
    goto l_loop_nx;
l_arm_r8:;
    if (r_qw_1 == 0ull) goto l_core_2x;
    rattle_dealloc(r_rv);
l_core_2x:;
    if (r_zn_1 == 0ull) goto l_std_v6;
    r_5q_2 = (r_gs + r_2c);
    if (r_7n_2 < r_5q_2) { r_iu_3 = r_7n_2; goto l_join_9n_3; }
    goto l_std_v6;
l_join_9n_3:;
    r_a7_7 = away(r_xw_3, (r_iu_3 * 24ull));
    if (ld64((r_a7_7 + 16)) == 0ull) goto l_core_xy;
    rattle_dealloc(ldp(r_a7_7));
l_core_xy:;
    u64 r_7n_4 = (r_iu_3 + 1ull);
    if (!(r_7n_4 == r_5q_2)) { r_iu_3 = r_7n_4; goto l_join_9n_3; }
l_std_v6:;
    if (t_ts) goto l_std_tl;
    rattle_dealloc(r_xw_3);
l_std_tl:;
    r_xw_5 = ldp(slot_4);
    r_38_6 = ld64(r_x5_2);
    r_38_7 = ld64(r_zd_2);
    if (r_38_6 == 0ull) goto l_std_we;
    r_iu_4 = 0ull;
l_join_9n_4:;
    r_a7_8 = away(r_xw_5, (r_iu_4 * 24ull));
    if (ld64((r_a7_8 + 16)) == 0ull) goto l_core_jc_3;
    rattle_dealloc(ldp(r_a7_8));
l_core_jc_3:;
    u64 r_36_5 = (r_iu_4 + 1ull);
    if (!(r_36_5 == r_38_6)) { r_iu_4 = r_36_5; goto l_join_9n_4; }
l_std_we:;
    if (r_38_7 == 0ull) goto l_arm_5s_1;
    rattle_dealloc(r_xw_5);
    goto l_arm_5s_1;
l_std_b1:;
    if (t_ts) goto l_arm_bi;
    rattle_dealloc(r_xw_3);
    goto l_arm_bi;
l_arm_5s_1:;
    goto l_arm_ef;
l_arm_bi:;
    r_xw_6 = ldp(slot_4);
    r_38_8 = ld64(r_zd_2);
    switch (r_0o) {
    case 1ull: goto l_then_vy;
    case 3ull: goto l_then_3v;
    default: goto l_arm_hz;
    }
l_arm_ta:;
    u8 r_1d = layout_tool_print_error(((u8 *)g_static_1), 13ull);
    r_sv = r_1d;
    goto l_arm_4z;
l_then_vy:;
    r_lz = ldp(r_xw_6);
    r_52 = ld64(away(r_xw_6, 8ull));
    stp(slot_19, r_lz);
    st64((slot_19 + 8), r_52);
    u8 r_sg = core_cmp_text_RefStrPartialEq_eq(slot_19, slot_18);
    if (!r_sg) goto l_then_qk;
    st32(slot_3, 1u);
    r_ix = (slot_3 + 4);
    memset(r_ix, 0u, 1132);
    r_s4 = (slot_3 + 1136);
    st32(r_s4, 32u);
    r_uy = (slot_3 + 1140);
    r_ky = (slot_3 + 1152);
    memset(r_uy, 0u, 12);
    st64(r_ky, 0xffffffffffffffffull);
    r_lp = (slot_3 + 1160);
    memset(r_lp, 0u, 16);
    mv24(slot_2, r_s4);
    st32(r_s4, 32u);
    memset(r_uy, 0u, 12);
    st64(r_ky, 0xffffffffffffffffull);
    r_e1 = (slot_3 + 1032);
    r_pv = 0ull;
    r_m0 = 478ull;
    r_w9 = ((u8 *)g_static_2);
l_arm_td:;
    r_62 = away(r_w9, 1ull);
    r_0f = (r_m0 + 0xffffffffffffffffull);
    r_47 = ld8(r_w9);
    if (!(r_pv > 1023ull)) { r_km = r_pv; goto l_std_41; }
    u8 r_m5 = std_io_io_buffer_Buffer_flush(slot_3);
    u64 r_38_9 = ld64(r_e1);
    if (r_m5 ? (r_38_9 < 1024ull) : 0u) { r_km = r_38_9; goto l_std_41; }
    goto l_core_pf;
l_std_41:;
    st8((r_ix + (i64)(r_km)), r_47);
    r_c4 = (r_km + 1ull);
    st64(r_e1, r_c4);
    if (!(r_0f == 0ull)) { r_pv = r_c4; r_m0 = r_0f; r_w9 = r_62; goto l_arm_td; }
    mv24(r_s4, slot_2);
    mv24(slot_2, r_s4);
    st32(r_s4, 32u);
    memset(r_uy, 0u, 12);
    st64(r_ky, 0xffffffffffffffffull);
    if (ld64(r_lp) == 0ull) goto l_arm_ku;
    goto l_else_w4;
l_core_pf:;
    mv24(r_s4, slot_2);
    r_ri = 0u;
    goto l_join_78;
l_arm_ku:;
    if (!(r_km > 1022ull)) { r_4x = r_c4; goto l_std_vs; }
    u8 r_m5_1 = std_io_io_buffer_Buffer_flush(slot_3);
    u64 r_38_10 = ld64(r_e1);
    if (r_m5_1 ? (r_38_10 < 1024ull) : 0u) { r_4x = r_38_10; goto l_std_vs; }
    r_bu = 0u;
    goto l_core_pf_1;
l_std_vs:;
    st8((r_ix + (i64)(r_4x)), 10u);
    st64(r_e1, (r_4x + 1ull));
    r_bu = 1u;
    goto l_core_pf_1;
l_else_w4:;
    u8 r_bh = core_fmt_formatter_Formatter_write_indented_bf264aed5fa78656(slot_3, ((u8 *)g_static_6), 1ull);
    r_bu = (r_bh == 0u);
l_core_pf_1:;
    mv24(r_s4, slot_2);
    r_ri = r_bu;
l_join_78:;
    st32(slot_2, ld32(slot_3));
    memcpy((slot_2 + 4), r_ix, 1132);
    r_vx = std_io_io_buffer_Buffer_flush(slot_2);
    if (ld64((r_xw_6 + 16)) == 0ull) goto l_std_vx;
    rattle_dealloc(ldp(r_xw_6));
l_std_vx:;
    spec_q8 = ((u8)((u8)r_ri & (u8)r_vx) ? 0u : 2u);
    if (r_38_8 == 0ull) { r_sv = spec_q8; goto l_arm_4z; }
    rattle_dealloc(r_xw_6);
    r_sv = spec_q8;
    goto l_arm_4z;
l_then_qk:;
    stp(slot_2, r_lz);
    st64((slot_2 + 8), r_52);
    stp(slot_3, ((u8 *)g_static_10));
    st64((slot_3 + 8), 5ull);
    stp(slot_4, ((u8 *)g_static_11));
    st64((slot_4 + 8), 7ull);
    u8 r_sg_1 = core_cmp_text_RefStrPartialEq_eq(slot_2, slot_3);
    if (r_sg_1) { r_3u = 1u; r_jh = 3u; goto l_capnp_uw; }
    u8 r_sg_2 = core_cmp_text_RefStrPartialEq_eq(slot_2, slot_4);
    r_3u = (u8)r_sg_2;
    r_jh = (r_sg_2 ? 4u : 0u);
l_capnp_uw:;
    r_c9 = r_3u;
    r_ml = r_jh;
    r_td = 0u;
    r_gk = 0ull;
    r_ax = 0u;
    goto l_capnp_ri;
l_then_3v:;
    r_lz_1 = ldp(away(r_xw_6, 24ull));
    r_52_1 = ld64(away(r_xw_6, 32ull));
    if (r_52_1 == 0ull) goto l_arm_7p;
    r_47_1 = ld8(r_lz_1);
    r_cf = (u32)r_47_1;
    if ((i8)r_47_1 > (i8)255u) { r_t2 = r_cf; goto l_core_dp; }
    r_to = (u32)(u8)(ld8((r_lz_1 + 1)) & 63u);
    if (!(r_47_1 < 224u)) goto l_join_zf;
    r_t2 = (((u32)(r_cf << 6u) & 1984u) | r_to);
    goto l_core_dp;
l_join_zf:;
    r_to_1 = (u32)(u8)(ld8((r_lz_1 + 2)) & 63u);
    if (!(r_47_1 < 240u)) goto l_join_pb;
    r_t2 = (((u32)(r_to << 6u) | ((u32)(r_cf << 12u) & 61440u)) | r_to_1);
    goto l_core_dp;
l_join_pb:;
    r_t2 = (((u32)(r_to_1 << 6u) | ((u32)(r_to << 12u) | ((u32)(r_cf << 18u) & 0x1c0000u))) | (u32)(u8)(ld8((r_lz_1 + 3)) & 63u));
l_core_dp:;
    if (r_t2 == 43u) goto l_arm_7p;
    switch (r_47_1) {
    case 45u: goto l_then_oe;
    case 43u: goto l_then_oe_1;
    default: { r_j1 = 0ull; r_3n = 0ull; goto l_join_t6; }
    }
l_then_oe:;
    if (r_52_1 == 1ull) goto l_arm_7p;
    r_j1_1 = 0ull;
    r_3n_1 = 1ull;
    goto l_join_t6_1;
l_loop_2r:;
    u64 r_36_6 = (r_3n_1 + 1ull);
    if (r_36_6 == r_52_1) goto l_arm_4m;
    r_j1_1 = r_lc;
    r_3n_1 = r_36_6;
l_join_t6_1:;
    r_47_2 = ld8((r_lz_1 + (i64)(r_3n_1)));
    if (!((u8)(r_47_2 + 208u) < 10u)) goto l_arm_hz;
    r_b2 = (r_j1_1 * 10ull);
    r_3z = (u64)(u8)(r_47_2 & 15u);
    if (r_b2 > (r_3z ^ 0xffffffffffffffffull)) goto l_arm_hz;
    r_lc = (r_b2 + r_3z);
    if (r_lc > 0x80000000ull) goto l_arm_hz;
    goto l_loop_2r;
l_arm_4m:;
    ph_2n = (0u - (u32)r_lc);
    goto l_arm_54;
l_then_oe_1:;
    if (r_52_1 == 1ull) goto l_arm_7p;
    r_j1_2 = 0ull;
    r_3n_2 = 1ull;
    goto l_join_t6_2;
l_loop_w5:;
    u64 r_7n_5 = (r_3n_2 + 1ull);
    if (r_7n_5 == r_52_1) { r_8r = r_lc_1; goto l_arm_d6; }
    r_j1_2 = r_lc_1;
    r_3n_2 = r_7n_5;
l_join_t6_2:;
    r_47_3 = ld8((r_lz_1 + (i64)(r_3n_2)));
    if (!((u8)(r_47_3 + 208u) < 10u)) goto l_arm_hz;
    r_b2_1 = (r_j1_2 * 10ull);
    r_3z_1 = (u64)(u8)(r_47_3 & 15u);
    if (r_b2_1 > (r_3z_1 ^ 0xffffffffffffffffull)) goto l_arm_hz;
    r_lc_1 = (r_b2_1 + r_3z_1);
    if (r_lc_1 > 0x7fffffffull) goto l_arm_hz;
    goto l_loop_w5;
l_loop_2r_1:;
    u64 r_36_7 = (r_3n + 1ull);
    if (r_36_7 == r_52_1) { r_8r = r_lc_2; goto l_arm_d6; }
    r_j1 = r_lc_2;
    r_3n = r_36_7;
l_join_t6:;
    r_47_4 = ld8((r_lz_1 + (i64)(r_3n)));
    if (!((u8)(r_47_4 + 208u) < 10u)) goto l_arm_hz;
    r_b2_2 = (r_j1 * 10ull);
    r_3z_2 = (u64)(u8)(r_47_4 & 15u);
    if (r_b2_2 > (r_3z_2 ^ 0xffffffffffffffffull)) goto l_arm_hz;
    r_lc_2 = (r_b2_2 + r_3z_2);
    if (r_lc_2 > 0x7fffffffull) goto l_arm_hz;
    goto l_loop_2r_1;
l_arm_d6:;
    ph_2n = (u32)r_8r;
l_arm_54:;
    r_lz_2 = ldp(away(r_xw_6, 48ull));
    r_52_2 = ld64(away(r_xw_6, 56ull));
    stp(slot_2, r_lz_2);
    st64((slot_2 + 8), r_52_2);
    stp(slot_3, ((u8 *)g_static_12));
    st64((slot_3 + 8), 4ull);
    u8 r_sg_3 = core_cmp_text_RefStrPartialEq_eq(slot_2, slot_3);
    if (r_sg_3) { r_j5 = 0ull; r_vq = 0u; goto l_arm_mk; }
    if (r_52_2 == 0ull) goto l_arm_i0;
    r_47_5 = ld8(r_lz_2);
    r_cf_1 = (u32)r_47_5;
    if ((i8)r_47_5 > (i8)255u) { r_l2 = r_cf_1; goto l_core_yc; }
    r_to_2 = (u32)(u8)(ld8((r_lz_2 + 1)) & 63u);
    if (!(r_47_5 < 224u)) goto l_join_zf_1;
    r_l2 = (((u32)(r_cf_1 << 6u) & 1984u) | r_to_2);
    goto l_core_yc;
l_join_zf_1:;
    r_to_3 = (u32)(u8)(ld8((r_lz_2 + 2)) & 63u);
    if (!(r_47_5 < 240u)) goto l_join_pb_1;
    r_l2 = (((u32)(r_to_2 << 6u) | ((u32)(r_cf_1 << 12u) & 61440u)) | r_to_3);
    goto l_core_yc;
l_join_pb_1:;
    r_l2 = (((u32)(r_to_3 << 6u) | ((u32)(r_to_2 << 12u) | ((u32)(r_cf_1 << 18u) & 0x1c0000u))) | (u32)(u8)(ld8((r_lz_2 + 3)) & 63u));
l_core_yc:;
    if (r_l2 == 43u) goto l_arm_i0;
    if (!(r_47_5 == 43u)) { r_j1_3 = 0ull; r_3n_3 = 0ull; goto l_join_t6_3; }
    if (r_52_2 == 1ull) goto l_arm_i0;
    r_j1_4 = 0ull;
    r_3n_4 = 1ull;
l_join_t6_4:;
    r_47_6 = ld8((r_lz_2 + (i64)(r_3n_4)));
    if (!(u8)((u8)(r_j1_4 < 0x199999999999999aull) & (u8)((u8)(r_47_6 + 208u) < 10u))) goto l_arm_i0;
    r_b2_3 = (r_j1_4 * 10ull);
    r_3z_3 = (u64)(u8)(r_47_6 & 15u);
    if (r_b2_3 > (r_3z_3 ^ 0xffffffffffffffffull)) goto l_arm_i0;
    u64 r_5q_3 = (r_b2_3 + r_3z_3);
    u64 r_7n_6 = (r_3n_4 + 1ull);
    if (r_7n_6 == r_52_2) { r_j5 = r_5q_3; r_vq = 1u; goto l_arm_mk; }
    r_j1_4 = r_5q_3;
    r_3n_4 = r_7n_6;
    goto l_join_t6_4;
l_join_t6_3:;
    r_47_7 = ld8((r_lz_2 + (i64)(r_3n_3)));
    if (!(u8)((u8)(r_j1_3 < 0x199999999999999aull) & (u8)((u8)(r_47_7 + 208u) < 10u))) goto l_arm_i0;
    r_b2_4 = (r_j1_3 * 10ull);
    r_3z_4 = (u64)(u8)(r_47_7 & 15u);
    if (r_b2_4 > (r_3z_4 ^ 0xffffffffffffffffull)) goto l_arm_i0;
    u64 r_5q_4 = (r_b2_4 + r_3z_4);
    u64 r_36_8 = (r_3n_3 + 1ull);
    if (r_36_8 == r_52_2) { r_j5 = r_5q_4; r_vq = 1u; goto l_arm_mk; }
    r_j1_3 = r_5q_4;
    r_3n_3 = r_36_8;
    goto l_join_t6_3;
l_arm_mk:;
    u64 r_52_3 = ld64(away(r_xw_6, 8ull));
    stp(slot_2, ldp(r_xw_6));
    st64((slot_2 + 8), r_52_3);
    stp(slot_3, ((u8 *)g_static_13));
    st64((slot_3 + 8), 5ull);
    stp(slot_4, ((u8 *)g_static_14));
    st64((slot_4 + 8), 5ull);
    stp(slot_5, ((u8 *)g_static_15));
    st64((slot_5 + 8), 4ull);
    stp(slot_6, ((u8 *)g_static_16));
    st64((slot_6 + 8), 12ull);
    stp(slot_7, ((u8 *)g_static_17));
    st64((slot_7 + 8), 12ull);
    u8 r_sg_4 = core_cmp_text_RefStrPartialEq_eq(slot_2, slot_3);
    if (r_sg_4) { r_z5 = 1u; r_nu = 0u; r_6n = r_vq; r_jq = r_j5; r_yl = ph_2n; goto l_capnp_f7; }
    u8 r_sg_5 = core_cmp_text_RefStrPartialEq_eq(slot_2, slot_4);
    if (r_sg_5) { r_z5 = 1u; r_nu = 1u; r_6n = r_vq; r_jq = r_j5; r_yl = ph_2n; goto l_capnp_f7; }
    u8 r_sg_6 = core_cmp_text_RefStrPartialEq_eq(slot_2, slot_5);
    if (r_sg_6) { r_z5 = 1u; r_nu = 2u; r_6n = r_vq; r_jq = r_j5; r_yl = ph_2n; goto l_capnp_f7; }
    u8 r_sg_7 = core_cmp_text_RefStrPartialEq_eq(slot_2, slot_6);
    if (r_sg_7) { r_z5 = 1u; r_nu = 5u; r_6n = r_vq; r_jq = r_j5; r_yl = ph_2n; goto l_capnp_f7; }
    u8 r_sg_8 = core_cmp_text_RefStrPartialEq_eq(slot_2, slot_7);
    r_z5 = (u8)r_sg_8;
    r_nu = (r_sg_8 ? 6u : 0u);
    r_6n = (r_sg_8 ? r_vq : 0u);
    r_jq = (r_sg_8 ? r_j5 : 0ull);
    r_yl = (r_sg_8 ? ph_2n : 0u);
l_capnp_f7:;
    r_c9 = r_z5;
    r_ml = r_nu;
    r_td = r_6n;
    r_gk = r_jq;
    r_ax = r_yl;
    goto l_capnp_ri;
l_arm_i0:;
    goto l_arm_hz;
l_capnp_ri:;
    if (!(r_c9 == 1u)) goto l_arm_hz;
    r_u2 = (u64)r_td;
    struct s_i64_i64 r_ze = rattle_alloc(8192ull, 1ull);
    r_1y = r_ze;
    if (!(u8)(r_1y.f0 & 1)) goto l_arm_jg;
    u64 r_22 = c_lseek(0u, 0ull, 1u);
    memset(slot_16, 0u, 8208);
    st8((slot_16 + 8208), (u8)((i64)r_22 > (i64)0xffffffffffffffffull));
    r_6v = (slot_16 + 8216);
    memset((slot_16 + 8209), 0u, 15);
    st64(slot_17, (u64)(uptr)slot_1);
    r_x5_3 = (slot_17 + 8);
    stp(r_x5_3, ((u8 *)(uptr)r_1y.f1));
    r_zd_3 = (slot_17 + 16);
    st64(r_zd_3, 0ull);
    r_lk = (slot_17 + 24);
    st64(r_lk, 8192ull);
    r_89 = (slot_17 + 32);
    st64(r_89, 0ull);
    memset(slot_15, 0u, 24);
    stp(slot_2, slot_1);
    r_x5_4 = (slot_2 + 8);
    memset(r_x5_4, 0u, 16);
    memset(slot_3, 0u, 4096);
    r_of = (slot_16 + 8200);
    r_rk = (slot_16 + 8192);
    r_zd_4 = (slot_2 + 16);
    r_wa = 0ull;
    r_99 = slot_1;
    goto l_join_in;
l_loop_fu:;
    if ((u8)(ld8(r_6v) & 1)) goto l_arm_6m;
    r_wa = r_7n_7;
    r_99 = r_6q;
l_join_in:;
    r_52_4 = ld64(r_of);
    r_52_5 = ld64(r_rk);
    if (!(r_52_4 == r_52_5)) goto l_join_gn;
    r_ne = c_read(0u, slot_3, 4096ull);
    if ((i64)r_ne < (i64)0ull) goto l_arm_yl;
    r_b5 = umin64(r_ne, 4096ull);
    goto l_arm_0q;
l_join_gn:;
    u64 a_1y = umin64((r_52_4 - r_52_5), 4096ull);
    memcpy_or_none(slot_3, away(slot_16, r_52_5), a_1y);
    st64(r_rk, (a_1y + r_52_5));
    r_b5 = a_1y;
    goto l_arm_0q;
l_arm_yl:;
    rattle_errno();
    goto l_arm_6m;
l_arm_0q:;
    if (r_b5 == 0ull) goto l_arm_u4;
    r_hh = r_99;
    r_cg = r_wa;
    r_8j = 0ull;
l_join_ye:;
    r_47_8 = ld8(away(slot_3, r_8j));
    if (!(ld64(r_zd_4) == r_cg)) { r_6q = r_hh; r_cv_1 = r_cg; goto l_std_f9; }
    u8 r_lv = std_alloc_vec_Vec_grow_amortized_5400d4f5161e8cc6(slot_2);
    if (!r_lv) goto l_arm_6m_1;
    r_6q = ldp(slot_2);
    r_cv_1 = ld64(r_x5_4);
l_std_f9:;
    st8((r_6q + (i64)(r_cv_1)), r_47_8);
    r_7n_7 = (r_cv_1 + 1ull);
    st64(r_x5_4, r_7n_7);
    u64 r_c4_1 = (r_8j + 1ull);
    if (r_c4_1 == r_b5) goto l_loop_fu;
    r_hh = r_6q;
    r_cg = r_7n_7;
    r_8j = r_c4_1;
    goto l_join_ye;
l_arm_6m_1:;
    if (ld64(r_zd_4) == 0ull) { r_7k = 1u; goto l_capnp_i0; }
    r_wo = 1u;
    goto l_arm_nx;
l_arm_6m:;
    if (ld64(r_zd_4) == 0ull) { r_7k = 0u; goto l_capnp_i0; }
    r_wo = 0u;
    goto l_arm_nx;
l_arm_u4:;
    r_xw_7 = ldp(slot_2);
    r_38_11 = ld64(r_zd_4);
    stp(slot_3, slot_1);
    r_x5_5 = (slot_3 + 8);
    memset(r_x5_5, 0u, 16);
    if (r_wa == 0ull) { r_69 = slot_1; r_jc = 0ull; r_6q_1 = 0ull; r_hb = 0ull; t_1d = 1u; r_9o = 0u; goto l_capnp_ew; }
    r_x5_6 = (slot_2 + 8);
    r_zd_5 = (slot_2 + 16);
    r_zd_6 = (slot_3 + 16);
    r_4n = 0ull;
    r_ep = r_xw_7;
    r_g8 = r_wa;
l_arm_m6:;
    r_2x = r_ep;
    r_ft = 0ull;
    r_lg = r_g8;
l_arm_jy:;
    if (ld8(r_2x) == 10u) { t_pk = r_ft; goto l_capnp_9y; }
    u64 r_zn_2 = (r_lg + 0xffffffffffffffffull);
    if (r_zn_2 == 0ull) { t_pk = r_g8; goto l_capnp_9y; }
    u8 *r_3 = away(r_2x, 1ull);
    u64 r_4 = (r_ft + 1ull);
    u64 r_5 = r_zn_2;
    r_2x = r_3;
    r_ft = r_4;
    r_lg = r_5;
    goto l_arm_jy;
l_capnp_9y:;
    r_5d = (t_pk >= r_g8);
    u64 r_4m = (t_pk + 1ull);
    r_t9 = (r_g8 - r_4m);
    r_pg = umin64(t_pk, r_g8);
    r_bl = (r_5d ? ((u8 *)g_static_5) : away(r_ep, r_4m));
    stp(slot_2, slot_1);
    memset(r_x5_6, 0u, 16);
    r_dt = (u64)(r_pg >> 1ull);
    if (r_dt == 0ull) goto l_after_u4;
    r_7d = slot_1;
    r_78 = 0ull;
    r_tz = 0ull;
l_join_ed:;
    if (!(ld64(r_zd_5) == r_78)) { r_46 = r_7d; r_dq = r_78; goto l_std_95; }
    u8 r_lv_1 = std_alloc_vec_Vec_grow_amortized_5400d4f5161e8cc6(slot_2);
    if (!r_lv_1) goto l_arm_h4;
    r_46 = ldp(slot_2);
    r_dq = ld64(r_x5_6);
l_std_95:;
    st8((r_46 + (i64)(r_dq)), 0u);
    r_7n_8 = (r_dq + 1ull);
    st64(r_x5_6, r_7n_8);
    u64 r_c4_2 = (r_tz + 1ull);
    if (r_c4_2 == r_dt) goto l_after_a9;
    r_7d = r_46;
    r_78 = r_7n_8;
    r_tz = r_c4_2;
    goto l_join_ed;
l_arm_h4:;
    if (ld64(r_zd_5) == 0ull) { r_ix_1 = 1ull; r_fs = 1u; goto l_arm_wf; }
    r_0e = 1ull;
    r_ie = ldp(slot_2);
    r_nd = 1u;
    goto l_arm_4m_1;
l_after_a9:;
    r_xw_8 = ldp(slot_2);
    if ((u8)((u8)((r_pg & 1ull) == 0ull) & (u8)(r_dt == r_7n_8))) { r_k6 = 0ull; goto l_join_r5; }
    goto l_arm_ne;
l_after_u4:;
    if (t_pk == 0ull) { r_bg = r_4n; r_zb = 0ull; r_zs = slot_1; goto l_arm_h4_1; }
    r_ix_1 = 0ull;
    r_fs = 0u;
    goto l_arm_wf;
l_join_r5:;
    u8 *r_a7_9 = (r_ep + (i64)((u64)(r_k6 << 1ull)));
    r_47_9 = ld8(r_a7_9);
    r_47_10 = ld8((r_a7_9 + 1));
    if (r_47_9 < 48u) goto l_arm_ne;
    if (r_47_9 < 58u) { sink_0e = 208u; goto l_arm_wf_1; }
    if (r_47_9 < 65u) goto l_arm_ne;
    if (r_47_9 < 71u) { sink_0e = 201u; goto l_arm_wf_1; }
    if ((u8)(r_47_9 + 159u) < 6u) { sink_0e = 169u; goto l_arm_wf_1; }
    goto l_arm_ne;
l_arm_wf_1:;
    r_8t = (u8)(sink_0e + r_47_9);
    if (r_47_10 < 48u) goto l_arm_ne;
    if (r_47_10 < 58u) { sink_4g = 208u; goto l_arm_jq; }
    if (r_47_10 < 65u) goto l_arm_ne;
    if (r_47_10 < 71u) { sink_4g = 201u; goto l_arm_jq; }
    if ((u8)(r_47_10 + 159u) < 6u) { sink_4g = 169u; goto l_arm_jq; }
    goto l_arm_ne;
l_arm_jq:;
    st8((r_xw_8 + (i64)(r_k6)), (u8)((u8)((u8)((u32)r_8t << 4u) + r_47_10) + sink_4g));
    u64 r_c4_3 = (r_k6 + 1ull);
    if (r_c4_3 == r_dt) goto l_arm_nl;
    r_k6 = r_c4_3;
    goto l_join_r5;
l_arm_ne:;
    if (ld64(r_zd_5) == 0ull) { r_ix_1 = 0ull; r_fs = 0u; goto l_arm_wf; }
    r_0e = 0ull;
    r_ie = r_xw_8;
    r_nd = 0u;
    goto l_arm_4m_1;
l_arm_nl:;
    r_bg = ld64(r_x5_5);
    r_zb = ld64(r_zd_5);
    r_zs = r_xw_8;
l_arm_h4_1:;
    if (!(ld64(r_zd_6) == r_bg)) { r_ym = r_bg; goto l_join_r2; }
    u8 r_0c = std_alloc_vec_Vec_grow_amortized_8cb459f74eb976cc(slot_3);
    if (!r_0c) goto l_arm_98_1;
    r_ym = ld64(r_x5_5);
    goto l_join_r2;
l_arm_4m_1:;
    rattle_dealloc(r_ie);
    r_ix_1 = r_0e;
    r_fs = r_nd;
l_arm_wf:;
    r_xw_9 = ldp(slot_3);
    r_38_12 = ld64(r_x5_5);
    r_38_13 = ld64(r_zd_6);
    if (r_38_12 == 0ull) goto l_std_at;
    r_iu_5 = 0ull;
l_join_9n_5:;
    r_a7_10 = away(r_xw_9, (r_iu_5 * 24ull));
    if (ld64((r_a7_10 + 16)) == 0ull) goto l_core_jc_4;
    rattle_dealloc(ldp(r_a7_10));
l_core_jc_4:;
    u64 r_36_9 = (r_iu_5 + 1ull);
    if (!(r_36_9 == r_38_12)) { r_iu_5 = r_36_9; goto l_join_9n_5; }
l_std_at:;
    if (r_38_13 == 0ull) { r_69 = ((u8 *)0); r_jc = 0ull; r_6q_1 = 0ull; r_hb = r_ix_1; t_1d = 0u; r_9o = r_fs; goto l_capnp_ew; }
    rattle_dealloc(r_xw_9);
    r_69 = ((u8 *)0);
    r_jc = 0ull;
    r_6q_1 = 0ull;
    r_hb = r_ix_1;
    t_1d = 0u;
    r_9o = r_fs;
    goto l_capnp_ew;
l_arm_98_1:;
    if (r_zb == 0ull) goto l_then_tl_1;
    rattle_dealloc(r_zs);
    goto l_then_tl_1;
l_join_r2:;
    r_lz_3 = ldp(slot_3);
    u8 *r_a7_11 = (r_lz_3 + (i64)((r_ym * 24ull)));
    stp(r_a7_11, r_zs);
    st64((r_a7_11 + 8), r_dt);
    st64((r_a7_11 + 16), r_zb);
    r_7n_9 = (r_ym + 1ull);
    st64(r_x5_5, r_7n_9);
    if ((u8)((u8)r_5d | (u8)(r_t9 == 0ull))) goto l_after_hh;
    r_4n = r_7n_9;
    r_ep = r_bl;
    r_g8 = r_t9;
    goto l_arm_m6;
l_then_tl_1:;
    r_xw_10 = ldp(slot_3);
    r_38_14 = ld64(r_x5_5);
    r_38_15 = ld64(r_zd_6);
    if (r_38_14 == 0ull) goto l_std_at_1;
    r_iu_6 = 0ull;
l_join_9n_6:;
    r_a7_12 = away(r_xw_10, (r_iu_6 * 24ull));
    if (ld64((r_a7_12 + 16)) == 0ull) goto l_core_jc_5;
    rattle_dealloc(ldp(r_a7_12));
l_core_jc_5:;
    u64 r_36_10 = (r_iu_6 + 1ull);
    if (!(r_36_10 == r_38_14)) { r_iu_6 = r_36_10; goto l_join_9n_6; }
l_std_at_1:;
    if (r_38_15 == 0ull) { r_69 = ((u8 *)0); r_jc = 0ull; r_6q_1 = 0ull; r_hb = 1ull; t_1d = 0u; r_9o = 1u; goto l_capnp_ew; }
    rattle_dealloc(r_xw_10);
    r_69 = ((u8 *)0);
    r_jc = 0ull;
    r_6q_1 = 0ull;
    r_hb = 1ull;
    t_1d = 0u;
    r_9o = 1u;
    goto l_capnp_ew;
l_after_hh:;
    r_69 = r_lz_3;
    r_jc = r_7n_9;
    r_6q_1 = ld64(r_zd_6);
    r_hb = 0ull;
    t_1d = 1u;
    r_9o = 0u;
l_capnp_ew:;
    if (r_38_11 == 0ull) goto l_capnp_nn;
    rattle_dealloc(r_xw_7);
    goto l_capnp_nn;
l_arm_nx:;
    rattle_dealloc(ldp(slot_2));
    r_7k = r_wo;
l_capnp_i0:;
    r_4g = r_7k;
    goto l_arm_q0;
l_capnp_nn:;
    if (!t_1d) { r_4g = r_9o; goto l_arm_q0; }
    memset(slot_8, 0u, 24);
    memset(slot_9, 0u, 24);
    memset(slot_10, 0u, 40);
    memset(slot_11, 0u, 32);
    memset(slot_12, 0u, 24);
    memset(slot_13, 0u, 32);
    memset(slot_14, 0u, 24);
    switch (r_ml) {
    case 0u: goto l_arm_oq;
    case 1u: goto l_arm_hk;
    case 2u: goto l_arm_5b;
    case 3u: goto l_arm_8y;
    case 4u: goto l_arm_xs;
    case 5u: goto l_arm_oq_1;
    case 6u: goto l_arm_os;
    default: goto l_default_e1;
    }
l_arm_oq:;
    st64(slot_8, r_u2);
    st64((slot_8 + 8), r_gk);
    st32((slot_8 + 16), r_ax);
    stp(slot_11, slot_1);
    memset((slot_11 + 8), 0u, 16);
    st64((slot_11 + 24), r_hb);
    stp(slot_12, r_69);
    st64((slot_12 + 8), r_jc);
    st64((slot_12 + 16), r_6q_1);
    capnp_layout_tool_engine_answer_canon_8738c8d4622c75c1(slot_10, slot_11, slot_12, slot_8, 1u, slot_17);
    goto l_capnp_oa;
l_arm_hk:;
    if (r_jc < 0x100000000ull) { r_5a = r_69; r_2l = r_jc; goto l_loop_7z; }
l_join_qu_1:;
    r_iu_7 = 0ull;
    goto l_join_9n_7;
l_loop_7z:;
    if (r_2l == 0ull) goto l_arm_9y;
    if (ld64(away(r_5a, 8ull)) < 0x800000000ull) { u8 *r_6 = away(r_5a, 24ull); u64 r_7 = (r_2l + 0xffffffffffffffffull); r_5a = r_6; r_2l = r_7; goto l_loop_7z; }
    goto l_join_qu_1;
l_arm_9y:;
    if (r_jc == 0ull) { r_rg = 12u; goto l_std_2k; }
    r_r9 = 0ull;
    r_gj = 0ull;
l_arm_pg:;
    r_kh = ((u64)(ld64(away(away(r_69, (r_gj * 24ull)), 8ull)) >> 3ull) + r_r9);
    u64 r_c4_4 = (r_gj + 1ull);
    if (!(r_c4_4 == r_jc)) { r_r9 = r_kh; r_gj = r_c4_4; goto l_arm_pg; }
    stp(slot_4, r_69);
    r_x5_7 = (slot_4 + 8);
    st64(r_x5_7, r_jc);
    r_zd_7 = (slot_4 + 16);
    st64(r_zd_7, r_6q_1);
    st32((slot_4 + 24), r_ax);
    st32((slot_4 + 28), 0u);
    st64((slot_4 + 32), r_kh);
    r_52_6 = ld64(away(r_69, 8ull));
    if (r_52_6 < 8ull) { r_bk_1 = 23u; goto l_arm_qu; }
    t_0q = (r_td == 1u);
    if (!t_0q) { r_4h = r_gk; goto l_arm_4w; }
    if (r_gk == 0ull) { r_bk_1 = 30u; goto l_arm_qu; }
    r_4h = (r_gk + 0xffffffffffffffffull);
    goto l_arm_4w;
l_join_9n_7:;
    r_a7_13 = away(r_69, (r_iu_7 * 24ull));
    if (ld64((r_a7_13 + 16)) == 0ull) goto l_core_jc_6;
    rattle_dealloc(ldp(r_a7_13));
l_core_jc_6:;
    u64 r_36_11 = (r_iu_7 + 1ull);
    if (!(r_36_11 == r_jc)) { r_iu_7 = r_36_11; goto l_join_9n_7; }
    if (r_6q_1 == 0ull) { r_r4 = 27u; r_o1 = 0xffffffffffffffffull; goto l_capnp_5s; }
    r_s6 = 27u;
    r_g4 = 0xffffffffffffffffull;
    goto l_capnp_f3;
l_arm_4w:;
    r_lz_4 = ldp(r_69);
    u8 *t_6c = (slot_3 + 56);
    st64(t_6c, 0ull);
    st64((slot_3 + 8), (u64)(uptr)slot_4);
    memset((slot_3 + 16), 0u, 16);
    stp((slot_3 + 32), r_lz_4);
    st64((slot_3 + 40), (r_52_6 & 0xfffffffffffffff8ull));
    st32((slot_3 + 48), 0u);
    st32((slot_3 + 52), 0u);
    st64(slot_3, 0ull);
    st32(t_6c, r_ax);
    st64(slot_2, r_u2);
    r_x5_8 = (slot_2 + 8);
    st64(r_x5_8, r_4h);
    r_zd_8 = (slot_2 + 16);
    st64(r_zd_8, 0ull);
    r_lk_1 = (slot_2 + 24);
    st64(r_lk_1, 1ull);
    r_89_1 = (slot_2 + 32);
    st32(r_89_1, 30u);
    r_gs_2 = (slot_2 + 36);
    st32(r_gs_2, 0u);
    r_a8 = (slot_2 + 40);
    st64(r_a8, 0ull);
    r_gw = (u64)(r_52_6 >> 3ull);
    r_qw_2 = ld64(r_lz_4);
    if (!((r_qw_2 & 2ull) == 0ull)) { t_n1 = 1u; r_r3 = 0u; r_so = 0u; r_j6 = 0u; r_qk = 0ull; goto l_capnp_6w; }
    if (r_qw_2 == 0ull) { t_n1 = 1u; r_r3 = 1u; r_so = 0u; r_j6 = 0u; r_qk = 0ull; goto l_capnp_6w; }
    r_ep_1 = (u64)(r_qw_2 >> 32ull);
    if (!((r_qw_2 & 1ull) == 0ull)) goto l_arm_st;
    r_y6 = (u64)(r_qw_2 >> 48ull);
    r_q7 = (r_ep_1 & 65535ull);
    r_lc_3 = (r_q7 + r_y6);
    st64(r_zd_8, 1ull);
    r_m6 = ((u64)(r_qw_2 >> 2ull) & 0x3fffffffull);
    r_nb = (r_gw & 0xffffffffull);
    if (!(r_m6 < 0x20000000ull)) goto l_else_j9;
    if (r_m6 < r_nb) { r_qs = (r_m6 + 1ull); goto l_arm_xd; }
    t_n1 = 0u;
    r_r3 = 0u;
    r_so = 23u;
    r_j6 = 0u;
    r_qk = 0ull;
    goto l_capnp_6w;
l_else_j9:;
    if (r_m6 == 0x3fffffffull) { r_qs = 0ull; goto l_arm_xd; }
    t_n1 = 0u;
    r_r3 = 0u;
    r_so = 23u;
    r_j6 = 0u;
    r_qk = 0ull;
    goto l_capnp_6w;
l_arm_xd:;
    if ((i32)r_ax < (i32)1u) { t_n1 = 0u; r_r3 = 0u; r_so = 26u; r_j6 = 0u; r_qk = 0ull; goto l_capnp_6w; }
    if (r_nb < (r_qs + r_lc_3)) { t_n1 = 0u; r_r3 = 0u; r_so = 23u; r_j6 = 0u; r_qk = 0ull; goto l_capnp_6w; }
    if (!t_0q) goto l_arm_7c;
    if (r_4h < r_lc_3) { t_n1 = 0u; r_r3 = 0u; r_so = 30u; r_j6 = 0u; r_qk = 0ull; goto l_capnp_6w; }
    st64(slot_2, 1ull);
    st64(r_x5_8, (r_4h - r_lc_3));
l_arm_7c:;
    r_12 = (u32)r_y6;
    r_az = ((u32)r_ep_1 & 65535u);
    if (!((r_az | r_12) == 0u)) goto l_join_4n;
    if (r_qs == 0ull) { t_n1 = 1u; r_r3 = 1u; r_so = 0u; r_j6 = 0u; r_qk = 0ull; goto l_capnp_6w; }
    memset(r_lk_1, 0u, 20);
    st8((slot_2 + 44), 5u);
    goto l_arm_od;
l_join_4n:;
    if (r_qs == 1ull) goto l_join_4w;
    memset(r_lk_1, 0u, 20);
    st8((slot_2 + 44), 6u);
    goto l_arm_od;
l_join_4w:;
    r_ff_1 = (r_az + 1u);
    r_68 = (r_ff_1 + r_12);
    r_ts = (r_y6 == 0ull);
    if (!r_ts) goto l_join_ab;
    struct s_i8_i32 t_ph = (struct s_i8_i32){ 0u, 0u };
    t_ph.f1 = r_68;
    r_b5_1 = t_ph;
    goto l_capnp_0j;
l_join_ab:;
    struct s_i8_i32 r_cg_1 = capnp_pointers_pointers_canonical_test_children_701703_62c5c8fc(slot_3, r_ff_1, r_12, (r_ax + 0xffffffffu), r_68, slot_2);
    r_b5_1 = r_cg_1;
l_capnp_0j:;
    if (!(r_b5_1.f0 == 0u)) { r_gy = 1u; goto l_arm_s8; }
    if (r_az == 0u) goto l_join_vo;
    if (!(r_gw > r_q7)) goto l_then_lv;
    if (!(ld64(away(r_lz_4, (u64)(r_q7 << 3ull))) == 0ull)) goto l_join_vo;
l_then_lv:;
    memset(r_lk_1, 0u, 16);
    st32(r_a8, r_az);
    st8((slot_2 + 44), 8u);
    goto l_arm_od;
l_join_vo:;
    if (r_ts) { t_n1 = 1u; r_r3 = 1u; r_so = 0u; r_j6 = 0u; r_qk = 0ull; goto l_capnp_6w; }
    r_68_1 = (r_az + r_12);
    r_es = (u64)r_68_1;
    if (!(r_gw > r_es)) goto l_then_bv;
    if (!(ld64(away(r_lz_4, (u64)(r_es << 3ull))) == 0ull)) { t_n1 = 1u; r_r3 = 1u; r_so = 0u; r_j6 = 0u; r_qk = 0ull; goto l_capnp_6w; }
l_then_bv:;
    memset(r_lk_1, 0u, 16);
    st32(r_a8, r_68_1);
    st8((slot_2 + 44), 9u);
    goto l_arm_od;
l_arm_st:;
    if (!((u8)((u8)((u8)r_ep_1 & 7u) + 255u) < 5u)) goto l_capnp_98;
    r_ij = (u64)(r_qw_2 >> 35ull);
    r_c6 = (u64)(((ld64(away(away(((u8 *)switch_table_main_18), 8 * (r_ep_1 & 7ull)), 0xfffffffffffffff8ull)) * r_ij) + 63ull) >> 6ull);
    r_m6_1 = ((u64)(r_qw_2 >> 2ull) & 0x3fffffffull);
    r_nb_1 = (r_gw & 0xffffffffull);
    if (!(r_m6_1 < 0x20000000ull)) goto l_else_j9_1;
    if (r_m6_1 < r_nb_1) { r_qs_1 = (r_m6_1 + 1ull); goto l_arm_xd_1; }
    t_n1 = 0u;
    r_r3 = 0u;
    r_so = 23u;
    r_j6 = 0u;
    r_qk = 0ull;
    goto l_capnp_6w;
l_else_j9_1:;
    if (r_m6_1 == 0x3fffffffull) { r_qs_1 = 0ull; goto l_arm_xd_1; }
    t_n1 = 0u;
    r_r3 = 0u;
    r_so = 23u;
    r_j6 = 0u;
    r_qk = 0ull;
    goto l_capnp_6w;
l_arm_xd_1:;
    if ((i32)r_ax < (i32)1u) { t_n1 = 0u; r_r3 = 0u; r_so = 28u; r_j6 = 0u; r_qk = 0ull; goto l_capnp_6w; }
    if (r_nb_1 < (r_qs_1 + r_c6)) { t_n1 = 0u; r_r3 = 0u; r_so = 23u; r_j6 = 0u; r_qk = 0ull; goto l_capnp_6w; }
    if (t_0q ? (r_4h < r_c6) : 0u) { t_n1 = 0u; r_r3 = 0u; r_so = 30u; r_j6 = 0u; r_qk = 0ull; goto l_capnp_6w; }
    if (r_qs_1 == 1ull) goto l_join_t1;
    memset(r_lk_1, 0u, 20);
    st8((slot_2 + 44), 6u);
    goto l_arm_od;
l_join_t1:;
    u64 r_1q = (ld64(away(away(((u8 *)switch_table_main_18), 8 * (r_ep_1 & 7ull)), 0xfffffffffffffff8ull)) * r_ij);
    r_ff_2 = ((u32)(u64)(r_1q >> 6ull) + 1u);
    r_4i = (r_1q & 63ull);
    if (r_4i == 0ull) { t_n1 = 1u; r_r3 = 1u; r_so = 0u; r_j6 = 0u; r_qk = 0ull; goto l_capnp_6w; }
    if (any8(v8_of((u64)(ld64(away(r_lz_4, (u64)((u64)r_ff_2 << 3ull))) >> (r_4i & 63u)))) == 0u) { t_n1 = 1u; r_r3 = 1u; r_so = 0u; r_j6 = 0u; r_qk = 0ull; goto l_capnp_6w; }
    memset(r_lk_1, 0u, 16);
    st32(r_a8, r_ff_2);
    st8((slot_2 + 44), 7u);
    goto l_arm_od;
l_capnp_98:;
    struct s_i8_i32 r_46_1 = capnp_pointers_pointers_canonical_test_list_70170357b7303457(slot_3, 0u, r_qw_2, r_ax, 1u, slot_2);
    u8 t_5h = r_46_1.f0;
    if (t_5h == 0u) { t_n1 = 1u; r_r3 = 1u; r_so = 0u; r_j6 = 0u; r_qk = 0ull; goto l_capnp_6w; }
    r_gy = t_5h;
    goto l_arm_s8;
l_arm_od:;
    memset((slot_2 + 45), 0u, 3);
    r_gy = 1u;
l_arm_s8:;
    if (ld8(r_lk_1) == 0u) goto l_arm_po;
    t_n1 = 0u;
    r_r3 = 0u;
    r_so = (u8)ld32(r_89_1);
    r_j6 = ld32(r_gs_2);
    r_qk = ld64(r_a8);
    goto l_capnp_6w;
l_arm_po:;
    t_n1 = 1u;
    r_r3 = (r_gy != 1u);
    r_so = 0u;
    r_j6 = 0u;
    r_qk = 0ull;
l_capnp_6w:;
    r_xw_11 = ldp(slot_4);
    r_38_16 = ld64(r_x5_7);
    r_38_17 = ld64(r_zd_7);
    if (r_38_16 == 0ull) goto l_std_at_2;
    r_iu_8 = 0ull;
l_join_9n_8:;
    r_a7_14 = away(r_xw_11, (r_iu_8 * 24ull));
    if (ld64((r_a7_14 + 16)) == 0ull) goto l_core_jc_7;
    rattle_dealloc(ldp(r_a7_14));
l_core_jc_7:;
    u64 r_36_12 = (r_iu_8 + 1ull);
    if (!(r_36_12 == r_38_16)) { r_iu_8 = r_36_12; goto l_join_9n_8; }
l_std_at_2:;
    if (r_38_17 == 0ull) goto l_capnp_r8;
    rattle_dealloc(r_xw_11);
    goto l_capnp_r8;
l_arm_qu:;
    r_iu_9 = 0ull;
l_join_9n_9:;
    r_a7_15 = away(r_69, (r_iu_9 * 24ull));
    if (ld64((r_a7_15 + 16)) == 0ull) goto l_core_jc_8;
    rattle_dealloc(ldp(r_a7_15));
l_core_jc_8:;
    u64 r_36_13 = (r_iu_9 + 1ull);
    if (r_36_13 == r_jc) { r_rg = r_bk_1; goto l_std_2k; }
    r_iu_9 = r_36_13;
    goto l_join_9n_9;
l_std_2k:;
    if (r_6q_1 == 0ull) { r_r4 = r_rg; r_o1 = 0ull; goto l_capnp_5s; }
    r_s6 = r_rg;
    r_g4 = 0ull;
l_capnp_f3:;
    rattle_dealloc(r_69);
    r_r4 = r_s6;
    r_o1 = r_g4;
l_capnp_5s:;
    r_h3 = r_r4;
    r_g8_1 = r_o1;
    r_bu_1 = 0u;
    goto l_arm_15;
l_capnp_r8:;
    if (!t_n1) { r_h3 = r_so; r_g8_1 = r_qk; r_bu_1 = r_j6; goto l_arm_15; }
    if (!r_r3) goto l_else_qn;
    r_x5_9 = (slot_2 + 8);
    r_7u = ((u8 *)g_static_21);
    r_j3 = 10ull;
l_join_c8:;
    memset(slot_2, 0u, 96);
    r_52_7 = ld64(r_zd_3);
    if (!(r_j3 < (ld64(r_lk) - r_52_7))) goto l_std_my;
    r_5q_5 = (r_52_7 + r_j3);
    r_2b = away(ldp(r_x5_3), r_52_7);
    if (((u64)(uptr)r_2b - (u64)(uptr)r_7u) < r_j3) { r_il = 0ull; goto l_join_fh; }
    memcpy_or_none(r_2b, r_7u, r_j3);
    goto l_arm_2v;
l_join_fh:;
    st8((r_2b + (i64)(r_il)), ld8((r_7u + (i64)(r_il))));
    u64 r_36_14 = (r_il + 1ull);
    if (!(r_36_14 == r_j3)) { r_il = r_36_14; goto l_join_fh; }
l_arm_2v:;
    st64(r_zd_3, r_5q_5);
    r_fe = r_j3;
    goto l_arm_on;
l_std_my:;
    std_io_buffered_BufWriter_write_cold_89ca6214804c96d4(slot_2, slot_17, r_7u, r_j3);
    u64 r_38_18 = ld64(r_x5_9);
    if ((ld8(slot_2) != 0u) ? 1u : (r_38_18 == 0ull)) goto l_join_un;
    r_fe = r_38_18;
l_arm_on:;
    u64 r_t9_1 = (r_j3 - r_fe);
    if (r_t9_1 == 0ull) { r_jh_1 = 0u; goto l_capnp_td; }
    u8 *r_8 = away(r_7u, r_fe);
    u64 r_9 = r_t9_1;
    r_7u = r_8;
    r_j3 = r_9;
    goto l_join_c8;
l_else_qn:;
    r_x5_10 = (slot_2 + 8);
    r_7u_1 = ((u8 *)g_static_22);
    r_j3_1 = 14ull;
l_join_c8_1:;
    memset(slot_2, 0u, 96);
    r_52_8 = ld64(r_zd_3);
    if (!(r_j3_1 < (ld64(r_lk) - r_52_8))) goto l_std_my_1;
    r_5q_6 = (r_52_8 + r_j3_1);
    r_2b_1 = away(ldp(r_x5_3), r_52_8);
    if (((u64)(uptr)r_2b_1 - (u64)(uptr)r_7u_1) < r_j3_1) { r_il_1 = 0ull; goto l_join_fh_1; }
    memcpy_or_none(r_2b_1, r_7u_1, r_j3_1);
    goto l_arm_2v_1;
l_join_fh_1:;
    st8((r_2b_1 + (i64)(r_il_1)), ld8((r_7u_1 + (i64)(r_il_1))));
    u64 r_36_15 = (r_il_1 + 1ull);
    if (!(r_36_15 == r_j3_1)) { r_il_1 = r_36_15; goto l_join_fh_1; }
l_arm_2v_1:;
    st64(r_zd_3, r_5q_6);
    r_fe_1 = r_j3_1;
    goto l_arm_on_1;
l_std_my_1:;
    std_io_buffered_BufWriter_write_cold_89ca6214804c96d4(slot_2, slot_17, r_7u_1, r_j3_1);
    u64 r_38_19 = ld64(r_x5_10);
    if ((ld8(slot_2) != 0u) ? 1u : (r_38_19 == 0ull)) goto l_join_un;
    r_fe_1 = r_38_19;
l_arm_on_1:;
    u64 r_t9_2 = (r_j3_1 - r_fe_1);
    if (r_t9_2 == 0ull) { r_jh_1 = 0u; goto l_capnp_td; }
    u8 *r_10 = away(r_7u_1, r_fe_1);
    u64 r_11 = r_t9_2;
    r_7u_1 = r_10;
    r_j3_1 = r_11;
    goto l_join_c8_1;
l_join_un:;
    st8(r_89, 1u);
    r_jh_1 = 3u;
    goto l_capnp_td;
l_arm_15:;
    st64(slot_5, 0ull);
    st32((slot_5 + 8), (u32)r_h3);
    st32((slot_5 + 12), r_bu_1);
    st64((slot_5 + 16), r_g8_1);
    u8 r_0d = capnp_layout_tool_engine_answer_refusal_05c50f83f81b9c23(slot_17, slot_5);
    r_jh_1 = r_0d;
l_capnp_td:;
    st8(slot_10, r_jh_1);
    stp((slot_10 + 8), slot_1);
    memset((slot_10 + 16), 0u, 16);
    goto l_capnp_oa;
l_arm_5b:;
    memset(slot_5, 0u, 24);
    if (r_jc < 0x100000000ull) { r_5a_1 = r_69; r_2l_1 = r_jc; goto l_loop_7z_1; }
l_join_qu_2:;
    r_iu_10 = 0ull;
    goto l_join_9n_10;
l_loop_7z_1:;
    if (r_2l_1 == 0ull) goto l_arm_jj;
    if (ld64(away(r_5a_1, 8ull)) < 0x800000000ull) { u8 *r_13 = away(r_5a_1, 24ull); u64 r_14 = (r_2l_1 + 0xffffffffffffffffull); r_5a_1 = r_13; r_2l_1 = r_14; goto l_loop_7z_1; }
    goto l_join_qu_2;
l_arm_jj:;
    r_ts_1 = (r_jc == 0ull);
    if (r_ts_1) { r_sw = 0ull; goto l_capnp_4o; }
    r_r9_1 = 0ull;
    r_gj_1 = 0ull;
l_arm_pg_1:;
    u64 r_kh_1 = ((u64)(ld64(away(away(r_69, (r_gj_1 * 24ull)), 8ull)) >> 3ull) + r_r9_1);
    u64 r_c4_5 = (r_gj_1 + 1ull);
    if (r_c4_5 == r_jc) { r_sw = r_kh_1; goto l_capnp_4o; }
    r_r9_1 = r_kh_1;
    r_gj_1 = r_c4_5;
    goto l_arm_pg_1;
l_capnp_4o:;
    stp(slot_4, r_69);
    r_x5_11 = (slot_4 + 8);
    st64(r_x5_11, r_jc);
    r_zd_9 = (slot_4 + 16);
    st64(r_zd_9, r_6q_1);
    st32((slot_4 + 24), r_ax);
    st32((slot_4 + 28), 0u);
    st64((slot_4 + 32), r_sw);
    t_6c_1 = (slot_3 + 56);
    st64(t_6c_1, 0ull);
    if (!r_ts_1) goto l_arm_a8;
    r_4g_1 = 0ull;
    r_uk = 0u;
    r_o2_1 = 12u;
    r_zu = 1u;
    r_lg_1 = r_69;
    r_8u = r_6q_1;
    goto l_std_at_3;
l_arm_a8:;
    r_52_9 = ld64(away(r_69, 8ull));
    if (r_52_9 < 8ull) { r_rh = 23u; goto l_capnp_nb; }
    if (!(r_td == 1u)) { r_oe = r_gk; goto l_arm_gr; }
    if (r_gk == 0ull) { r_rh = 30u; goto l_capnp_nb; }
    r_oe = (r_gk + 0xffffffffffffffffull);
l_arm_gr:;
    u8 *r_lz_5 = ldp(r_69);
    st64(slot_3, 0ull);
    st64((slot_3 + 8), (u64)(uptr)slot_4);
    memset((slot_3 + 16), 0u, 16);
    stp((slot_3 + 32), r_lz_5);
    st64((slot_3 + 40), (r_52_9 & 0xfffffffffffffff8ull));
    st32((slot_3 + 48), 0u);
    st32((slot_3 + 52), 0u);
    st32(t_6c_1, r_ax);
    r_zd_10 = (slot_2 + 16);
    memset(slot_2, 0u, 16);
    st32(r_zd_10, 30u);
    r_zo = (slot_2 + 20);
    st32(r_zo, 0u);
    r_lk_2 = (slot_2 + 24);
    st64(r_lk_2, 0ull);
    st64((slot_2 + 32), r_u2);
    st64((slot_2 + 40), r_oe);
    st64((slot_2 + 48), 0ull);
    u8 r_4b = capnp_pointers_pointers_sizes_add_object_70170357b7303457(slot_3, 0u, r_ax, slot_2);
    if ((u8)(r_4b & 1)) goto l_arm_t6;
    r_ix_2 = 0u;
    r_fs_1 = ld32(slot_2);
    r_sk = ld32((slot_2 + 4));
    r_ve = ld64((slot_2 + 8));
    goto l_capnp_wf;
l_arm_t6:;
    r_ix_2 = 1u;
    r_fs_1 = (u32)ld8(r_zd_10);
    r_sk = ld32(r_zo);
    r_ve = ld64(r_lk_2);
    goto l_capnp_wf;
l_capnp_nb:;
    r_bk_2 = 0ull;
    r_pp_1 = 0u;
    r_pa_1 = r_rh;
    r_vh = 1u;
    r_f9 = r_69;
    r_jl = r_jc;
    r_jc_1 = r_6q_1;
    goto l_join_qu_3;
l_capnp_wf:;
    u8 *r_xw_12 = ldp(slot_4);
    u64 r_38_20 = ld64(r_x5_11);
    u64 r_38_21 = ld64(r_zd_9);
    if (r_38_20 == 0ull) { r_4g_1 = r_ve; r_uk = r_sk; r_o2_1 = r_fs_1; r_zu = r_ix_2; r_lg_1 = r_xw_12; r_8u = r_38_21; goto l_std_at_3; }
    r_bk_2 = r_ve;
    r_pp_1 = r_sk;
    r_pa_1 = r_fs_1;
    r_vh = r_ix_2;
    r_f9 = r_xw_12;
    r_jl = r_38_20;
    r_jc_1 = r_38_21;
l_join_qu_3:;
    r_iu_11 = 0ull;
l_join_9n_11:;
    r_a7_16 = away(r_f9, (r_iu_11 * 24ull));
    if (ld64((r_a7_16 + 16)) == 0ull) goto l_core_jc_9;
    rattle_dealloc(ldp(r_a7_16));
l_core_jc_9:;
    u64 r_36_16 = (r_iu_11 + 1ull);
    if (r_36_16 == r_jl) { r_4g_1 = r_bk_2; r_uk = r_pp_1; r_o2_1 = r_pa_1; r_zu = r_vh; r_lg_1 = r_f9; r_8u = r_jc_1; goto l_std_at_3; }
    r_iu_11 = r_36_16;
    goto l_join_9n_11;
l_std_at_3:;
    if (r_8u == 0ull) goto l_capnp_ou;
    rattle_dealloc(r_lg_1);
    goto l_capnp_ou;
l_join_9n_10:;
    r_a7_17 = away(r_69, (r_iu_10 * 24ull));
    if (ld64((r_a7_17 + 16)) == 0ull) goto l_core_jc_10;
    rattle_dealloc(ldp(r_a7_17));
l_core_jc_10:;
    u64 r_36_17 = (r_iu_10 + 1ull);
    if (!(r_36_17 == r_jc)) { r_iu_10 = r_36_17; goto l_join_9n_10; }
    if (r_6q_1 == 0ull) goto l_capnp_5s_1;
    rattle_dealloc(r_69);
l_capnp_5s_1:;
    r_o4 = 27u;
    r_hd = 0xffffffffffffffffull;
    r_67 = 0u;
    goto l_arm_uu;
l_capnp_ou:;
    if (!(r_zu == 0u)) { r_o4 = r_o2_1; r_hd = r_4g_1; r_67 = r_uk; goto l_arm_uu; }
    r_a7_18 = ((u64)((u64)r_uk << 32ull) | (u64)r_o2_1);
    r_x5_12 = (slot_2 + 8);
    r_7u_2 = ((u8 *)g_static_26);
    r_j3_2 = 6ull;
l_join_c8_2:;
    memset(slot_2, 0u, 96);
    r_52_10 = ld64(r_zd_3);
    if (!(r_j3_2 < (ld64(r_lk) - r_52_10))) goto l_std_my_2;
    r_5q_7 = (r_52_10 + r_j3_2);
    r_2b_2 = away(ldp(r_x5_3), r_52_10);
    if (((u64)(uptr)r_2b_2 - (u64)(uptr)r_7u_2) < r_j3_2) { r_il_2 = 0ull; goto l_join_fh_2; }
    memcpy_or_none(r_2b_2, r_7u_2, r_j3_2);
    goto l_arm_2v_2;
l_join_fh_2:;
    st8((r_2b_2 + (i64)(r_il_2)), ld8((r_7u_2 + (i64)(r_il_2))));
    u64 r_36_18 = (r_il_2 + 1ull);
    if (!(r_36_18 == r_j3_2)) { r_il_2 = r_36_18; goto l_join_fh_2; }
l_arm_2v_2:;
    st64(r_zd_3, r_5q_7);
    r_4j = r_j3_2;
    goto l_arm_8s;
l_std_my_2:;
    std_io_buffered_BufWriter_write_cold_89ca6214804c96d4(slot_2, slot_17, r_7u_2, r_j3_2);
    u64 r_38_22 = ld64(r_x5_12);
    if ((ld8(slot_2) != 0u) ? 1u : (r_38_22 == 0ull)) goto l_arm_un;
    r_4j = r_38_22;
l_arm_8s:;
    u64 r_t9_3 = (r_j3_2 - r_4j);
    if (!(r_t9_3 == 0ull)) { u8 *r_15 = away(r_7u_2, r_4j); u64 r_16 = r_t9_3; r_7u_2 = r_15; r_j3_2 = r_16; goto l_join_c8_2; }
    u8 r_y5 = capnp_messages_text_write_number_05c50f83f81b9c23(slot_17, r_a7_18);
    if ((u8)(r_y5 & 1)) { r_jh_2 = 3u; goto l_capnp_td_1; }
    goto l_arm_qn;
l_arm_un:;
    st8(r_89, 1u);
    r_jh_2 = 3u;
    goto l_capnp_td_1;
l_arm_qn:;
    r_x5_13 = (slot_2 + 8);
    r_7u_3 = ((u8 *)g_static_27);
    r_j3_3 = 6ull;
l_join_c8_3:;
    memset(slot_2, 0u, 96);
    r_52_11 = ld64(r_zd_3);
    if (!(r_j3_3 < (ld64(r_lk) - r_52_11))) goto l_std_my_3;
    r_5q_8 = (r_52_11 + r_j3_3);
    r_2b_3 = away(ldp(r_x5_3), r_52_11);
    if (((u64)(uptr)r_2b_3 - (u64)(uptr)r_7u_3) < r_j3_3) { r_il_3 = 0ull; goto l_join_fh_3; }
    memcpy_or_none(r_2b_3, r_7u_3, r_j3_3);
    goto l_arm_2v_3;
l_join_fh_3:;
    st8((r_2b_3 + (i64)(r_il_3)), ld8((r_7u_3 + (i64)(r_il_3))));
    u64 r_36_19 = (r_il_3 + 1ull);
    if (!(r_36_19 == r_j3_3)) { r_il_3 = r_36_19; goto l_join_fh_3; }
l_arm_2v_3:;
    st64(r_zd_3, r_5q_8);
    r_4j_1 = r_j3_3;
    goto l_arm_8s_1;
l_std_my_3:;
    std_io_buffered_BufWriter_write_cold_89ca6214804c96d4(slot_2, slot_17, r_7u_3, r_j3_3);
    u64 r_38_23 = ld64(r_x5_13);
    if ((ld8(slot_2) != 0u) ? 1u : (r_38_23 == 0ull)) goto l_arm_un_1;
    r_4j_1 = r_38_23;
l_arm_8s_1:;
    u64 r_t9_4 = (r_j3_3 - r_4j_1);
    if (!(r_t9_4 == 0ull)) { u8 *r_17 = away(r_7u_3, r_4j_1); u64 r_18 = r_t9_4; r_7u_3 = r_17; r_j3_3 = r_18; goto l_join_c8_3; }
    u8 r_y5_1 = capnp_messages_text_write_number_05c50f83f81b9c23(slot_17, (r_4g_1 & 0xffffffffull));
    if ((u8)(r_y5_1 & 1)) { r_jh_2 = 3u; goto l_capnp_td_1; }
    goto l_arm_qn_1;
l_arm_un_1:;
    st8(r_89, 1u);
    r_jh_2 = 3u;
    goto l_capnp_td_1;
l_arm_qn_1:;
    r_x5_14 = (slot_2 + 8);
    r_7u_4 = ((u8 *)g_static_6);
    r_j3_4 = 1ull;
l_join_c8_4:;
    memset(slot_2, 0u, 96);
    r_52_12 = ld64(r_zd_3);
    if (!(r_j3_4 < (ld64(r_lk) - r_52_12))) goto l_std_my_4;
    r_5q_9 = (r_52_12 + r_j3_4);
    r_2b_4 = away(ldp(r_x5_3), r_52_12);
    if (((u64)(uptr)r_2b_4 - (u64)(uptr)r_7u_4) < r_j3_4) { r_il_4 = 0ull; goto l_join_fh_4; }
    memcpy_or_none(r_2b_4, r_7u_4, r_j3_4);
    goto l_arm_2v_4;
l_join_fh_4:;
    st8((r_2b_4 + (i64)(r_il_4)), ld8((r_7u_4 + (i64)(r_il_4))));
    u64 r_36_20 = (r_il_4 + 1ull);
    if (!(r_36_20 == r_j3_4)) { r_il_4 = r_36_20; goto l_join_fh_4; }
l_arm_2v_4:;
    st64(r_zd_3, r_5q_9);
    r_fe_2 = r_j3_4;
    goto l_arm_on_2;
l_std_my_4:;
    std_io_buffered_BufWriter_write_cold_89ca6214804c96d4(slot_2, slot_17, r_7u_4, r_j3_4);
    u64 r_38_24 = ld64(r_x5_14);
    if ((ld8(slot_2) != 0u) ? 1u : (r_38_24 == 0ull)) goto l_arm_un_2;
    r_fe_2 = r_38_24;
l_arm_on_2:;
    u64 r_t9_5 = (r_j3_4 - r_fe_2);
    if (r_t9_5 == 0ull) { r_jh_2 = 0u; goto l_capnp_td_1; }
    u8 *r_19 = away(r_7u_4, r_fe_2);
    u64 r_20 = r_t9_5;
    r_7u_4 = r_19;
    r_j3_4 = r_20;
    goto l_join_c8_4;
l_arm_un_2:;
    st8(r_89, 1u);
    r_jh_2 = 3u;
    goto l_capnp_td_1;
l_arm_uu:;
    st64(slot_5, 0ull);
    st32((slot_5 + 8), (r_o4 & 255u));
    st32((slot_5 + 12), r_67);
    st64((slot_5 + 16), r_hd);
    u8 r_0d_1 = capnp_layout_tool_engine_answer_refusal_05c50f83f81b9c23(slot_17, slot_5);
    r_jh_2 = r_0d_1;
l_capnp_td_1:;
    st8(slot_10, r_jh_2);
    stp((slot_10 + 8), slot_1);
    memset((slot_10 + 16), 0u, 16);
    goto l_capnp_oa;
l_arm_8y:;
    if (r_jc < 0x100000000ull) { r_m1 = r_69; r_vt = r_jc; goto l_loop_mq; }
    r_74 = 0ull;
    r_y0 = 27u;
    r_0o_1 = 0xffffffffffffffffull;
    goto l_arm_1h;
l_loop_mq:;
    if (r_vt == 0ull) goto l_join_4p;
    if (ld64(away(r_m1, 8ull)) < 0x800000000ull) { u8 *r_21 = away(r_m1, 24ull); u64 r_23 = (r_vt + 0xffffffffffffffffull); r_m1 = r_21; r_vt = r_23; goto l_loop_mq; }
    r_74 = 0ull;
    r_y0 = 27u;
    r_0o_1 = 0xffffffffffffffffull;
    goto l_arm_1h;
l_join_4p:;
    if (r_jc == 0ull) { r_74 = 1ull; r_y0 = 0u; r_0o_1 = 0ull; goto l_arm_1h; }
    if (r_jc > 512ull) { r_74 = 1ull; r_y0 = 1u; r_0o_1 = r_jc; goto l_arm_1h; }
    r_12_1 = (u32)r_jc;
    u8 r_sx = capnp_layout_tool_frames_write_hex_u32_05c50f83f81b9c23(slot_17, (r_12_1 + 0xffffffffu));
    if ((u8)(r_sx & 1)) { r_bk_3 = 3u; goto l_capnp_qu; }
    indvars_ez = 0ull;
    goto l_capnp_ti;
l_loop_51:;
    u64 indvars_r7 = (indvars_ez + 1ull);
    if (indvars_r7 == r_jc) goto l_arm_ig;
    indvars_ez = indvars_r7;
l_capnp_ti:;
    u8 r_ai = capnp_layout_tool_frames_write_hex_u32_05c50f83f81b9c23(slot_17, (u32)(u64)(ld64(away(away(r_69, (indvars_ez * 24ull)), 8ull)) >> 3ull));
    if ((u8)(r_ai & 1)) { r_bk_3 = 3u; goto l_capnp_qu; }
    goto l_loop_51;
l_arm_ig:;
    if (!((r_12_1 & 1u) == 0u)) goto l_join_qu_4;
    u8 r_m3 = capnp_layout_tool_frames_write_hex_u32_05c50f83f81b9c23(slot_17, 0u);
    if ((u8)(r_m3 & 1)) { r_bk_3 = 3u; goto l_capnp_qu; }
l_join_qu_4:;
    indvars_3k = 0ull;
    goto l_join_53;
l_loop_vv:;
    u64 indvars_r7_1 = (indvars_3k + 1ull);
    if (indvars_r7_1 == r_jc) goto l_arm_qn_2;
    indvars_3k = indvars_r7_1;
l_join_53:;
    if (!(r_jc > indvars_3k)) { r_g2 = 0ull; r_15_1 = ((u8 *)g_static_5); goto l_capnp_1p; }
    u8 *r_2b_5 = away(r_69, (indvars_3k * 24ull));
    r_g2 = ld64(away(r_2b_5, 8ull));
    r_15_1 = ldp(r_2b_5);
l_capnp_1p:;
    u8 r_48 = capnp_layout_tool_writing_write_hex_digits_05c50f83f81b9c23(slot_17, r_15_1, r_g2);
    if ((u8)(r_48 & 1)) { r_bk_3 = 3u; goto l_capnp_qu; }
    goto l_loop_vv;
l_arm_qn_2:;
    r_x5_15 = (slot_2 + 8);
    r_7u_5 = ((u8 *)g_static_6);
    r_j3_5 = 1ull;
l_join_c8_5:;
    memset(slot_2, 0u, 96);
    r_52_13 = ld64(r_zd_3);
    if (!(r_j3_5 < (ld64(r_lk) - r_52_13))) goto l_std_my_5;
    r_5q_10 = (r_52_13 + r_j3_5);
    r_2b_6 = away(ldp(r_x5_3), r_52_13);
    if (((u64)(uptr)r_2b_6 - (u64)(uptr)r_7u_5) < r_j3_5) { r_il_5 = 0ull; goto l_join_fh_5; }
    memcpy_or_none(r_2b_6, r_7u_5, r_j3_5);
    goto l_arm_2v_5;
l_join_fh_5:;
    st8((r_2b_6 + (i64)(r_il_5)), ld8((r_7u_5 + (i64)(r_il_5))));
    u64 r_36_21 = (r_il_5 + 1ull);
    if (!(r_36_21 == r_j3_5)) { r_il_5 = r_36_21; goto l_join_fh_5; }
l_arm_2v_5:;
    st64(r_zd_3, r_5q_10);
    r_fe_3 = r_j3_5;
    goto l_arm_on_3;
l_std_my_5:;
    std_io_buffered_BufWriter_write_cold_89ca6214804c96d4(slot_2, slot_17, r_7u_5, r_j3_5);
    u64 r_38_25 = ld64(r_x5_15);
    if ((ld8(slot_2) != 0u) ? 1u : (r_38_25 == 0ull)) goto l_arm_un_3;
    r_fe_3 = r_38_25;
l_arm_on_3:;
    u64 r_t9_6 = (r_j3_5 - r_fe_3);
    if (r_t9_6 == 0ull) { r_bk_3 = 0u; goto l_capnp_qu; }
    u8 *r_24 = away(r_7u_5, r_fe_3);
    u64 r_25 = r_t9_6;
    r_7u_5 = r_24;
    r_j3_5 = r_25;
    goto l_join_c8_5;
l_arm_un_3:;
    st8(r_89, 1u);
    r_bk_3 = 3u;
l_capnp_qu:;
    r_iu_12 = 0ull;
l_join_9n_12:;
    r_a7_19 = away(r_69, (r_iu_12 * 24ull));
    if (ld64((r_a7_19 + 16)) == 0ull) goto l_core_jc_11;
    rattle_dealloc(ldp(r_a7_19));
l_core_jc_11:;
    u64 r_36_22 = (r_iu_12 + 1ull);
    if (!(r_36_22 == r_jc)) { r_iu_12 = r_36_22; goto l_join_9n_12; }
    if (r_6q_1 == 0ull) { r_jh_3 = r_bk_3; goto l_capnp_td_2; }
    r_s6_1 = r_bk_3;
    goto l_return_f3;
l_arm_1h:;
    st64(slot_3, r_74);
    st32((slot_3 + 8), r_y0);
    st32((slot_3 + 12), 0u);
    st64((slot_3 + 16), r_0o_1);
    r_0d_2 = capnp_layout_tool_engine_answer_refusal_05c50f83f81b9c23(slot_17, slot_3);
    if (r_jc == 0ull) goto l_std_d0;
    r_iu_13 = 0ull;
l_join_9n_13:;
    r_a7_20 = away(r_69, (r_iu_13 * 24ull));
    if (ld64((r_a7_20 + 16)) == 0ull) goto l_core_jc_12;
    rattle_dealloc(ldp(r_a7_20));
l_core_jc_12:;
    u64 r_36_23 = (r_iu_13 + 1ull);
    if (!(r_36_23 == r_jc)) { r_iu_13 = r_36_23; goto l_join_9n_13; }
l_std_d0:;
    if (r_6q_1 == 0ull) { r_jh_3 = r_0d_2; goto l_capnp_td_2; }
    r_s6_1 = r_0d_2;
l_return_f3:;
    rattle_dealloc(r_69);
    r_jh_3 = r_s6_1;
l_capnp_td_2:;
    st8(slot_10, r_jh_3);
    stp((slot_10 + 8), slot_1);
    memset((slot_10 + 16), 0u, 16);
    goto l_capnp_oa;
l_arm_xs:;
    memset(slot_6, 0u, 184);
    stp(slot_3, r_69);
    st64((slot_3 + 8), r_jc);
    st64((slot_3 + 16), r_6q_1);
    if (r_jc > 1ull) { r_iu_14 = 0ull; goto l_join_9n_14; }
    goto l_join_e4;
l_join_9n_14:;
    r_a7_21 = away(r_69, (r_iu_14 * 24ull));
    if (ld64((r_a7_21 + 16)) == 0ull) goto l_core_jc_13;
    rattle_dealloc(ldp(r_a7_21));
l_core_jc_13:;
    u64 r_36_24 = (r_iu_14 + 1ull);
    if (!(r_36_24 == r_jc)) { r_iu_14 = r_36_24; goto l_join_9n_14; }
    if (r_6q_1 == 0ull) { r_z5_1 = 2u; goto l_capnp_f7_1; }
    r_s6_2 = 2u;
    goto l_return_f3_1;
l_join_e4:;
    capnp_layout_tool_framed_read_frame(slot_6, slot_3);
    r_x5_16 = (slot_6 + 8);
    if (!(ld8(slot_6) == 0u)) goto l_arm_se;
    memcpy(slot_4, r_x5_16, 176);
    r_52_14 = ld64(slot_4);
    t_nb = (r_52_14 & 0xffffffffull);
    if (t_nb == 0ull) { r_2c_2 = 0u; goto l_capnp_2x; }
    r_a8_1 = (slot_4 + 40);
    t_c4 = (slot_4 + 48);
    r_x5_17 = (slot_2 + 8);
    r_xw_13 = ldp((slot_4 + 8));
    r_xw_14 = ldp((slot_4 + 24));
    indvars_rl = 0ull;
l_join_6x:;
    if (!(r_52_14 > indvars_rl)) { r_hl = 0ull; r_a5 = ((u8 *)g_static_5); goto l_capnp_7n; }
    r_a0_1 = (indvars_rl & 0xffffffe0ull);
    r_we = (r_a0_1 + 32ull);
    r_9r = ((u64)(indvars_rl >> 2ull) & 0x3ffffff8ull);
    if (!(((indvars_rl & 31ull) > 16ull) ? (r_we < r_52_14) : 0u)) goto l_join_hb;
    r_52_15 = ld64(away(t_c4, r_9r));
    if (r_we > indvars_rl) { r_l5 = 0ull; r_rx = indvars_rl; goto l_join_rl; }
    r_2z = 0ull;
    goto l_capnp_zc;
l_join_rl:;
    u64 r_5q_11 = (r_l5 + (u64)ld32((r_xw_13 + (i64)((u64)(r_rx << 2ull)))));
    u64 r_36_25 = (r_rx + 1ull);
    if (r_36_25 == r_we) { r_2z = r_5q_11; goto l_capnp_zc; }
    r_l5 = r_5q_11;
    r_rx = r_36_25;
    goto l_join_rl;
l_capnp_zc:;
    r_j7 = (r_52_15 - r_2z);
    goto l_capnp_oz;
l_join_hb:;
    r_52_16 = ld64((r_a8_1 + (i64)(r_9r)));
    if (r_a0_1 == indvars_rl) { r_6u = 0ull; goto l_capnp_mx; }
    r_l5_1 = 0ull;
    r_rx_1 = r_a0_1;
l_join_rl_1:;
    u64 r_5q_12 = (r_l5_1 + (u64)ld32((r_xw_13 + (i64)((u64)(r_rx_1 << 2ull)))));
    u64 r_36_26 = (r_rx_1 + 1ull);
    if (r_36_26 == indvars_rl) { r_6u = r_5q_12; goto l_capnp_mx; }
    r_l5_1 = r_5q_12;
    r_rx_1 = r_36_26;
    goto l_join_rl_1;
l_capnp_mx:;
    r_j7 = (r_6u + r_52_16);
l_capnp_oz:;
    r_hl = (u64)((u64)ld32((r_xw_13 + (i64)((u64)(indvars_rl << 2ull)))) << 3ull);
    r_a5 = away(r_xw_14, (u64)(r_j7 << 3ull));
l_capnp_7n:;
    u8 r_xh = capnp_layout_tool_writing_write_hex_digits_05c50f83f81b9c23(slot_17, r_a5, r_hl);
    if ((u8)(r_xh & 1)) { r_2c_2 = 3u; goto l_capnp_2x; }
    r_7u_6 = ((u8 *)g_static_6);
    r_j3_6 = 1ull;
l_join_c8_6:;
    memset(slot_2, 0u, 96);
    r_52_17 = ld64(r_zd_3);
    if (!(r_j3_6 < (ld64(r_lk) - r_52_17))) goto l_std_my_6;
    r_5q_13 = (r_52_17 + r_j3_6);
    r_2b_7 = away(ldp(r_x5_3), r_52_17);
    if (((u64)(uptr)r_2b_7 - (u64)(uptr)r_7u_6) < r_j3_6) { r_il_6 = 0ull; goto l_join_fh_6; }
    memcpy_or_none(r_2b_7, r_7u_6, r_j3_6);
    goto l_arm_2v_6;
l_join_fh_6:;
    st8((r_2b_7 + (i64)(r_il_6)), ld8((r_7u_6 + (i64)(r_il_6))));
    u64 r_36_27 = (r_il_6 + 1ull);
    if (!(r_36_27 == r_j3_6)) { r_il_6 = r_36_27; goto l_join_fh_6; }
l_arm_2v_6:;
    st64(r_zd_3, r_5q_13);
    r_4j_2 = r_j3_6;
    goto l_arm_8s_2;
l_std_my_6:;
    std_io_buffered_BufWriter_write_cold_89ca6214804c96d4(slot_2, slot_17, r_7u_6, r_j3_6);
    u64 r_38_26 = ld64(r_x5_17);
    if ((ld8(slot_2) != 0u) ? 1u : (r_38_26 == 0ull)) goto l_arm_un_4;
    r_4j_2 = r_38_26;
l_arm_8s_2:;
    u64 r_t9_7 = (r_j3_6 - r_4j_2);
    if (r_t9_7 == 0ull) goto l_arm_0x;
    u8 *r_26 = away(r_7u_6, r_4j_2);
    u64 r_27 = r_t9_7;
    r_7u_6 = r_26;
    r_j3_6 = r_27;
    goto l_join_c8_6;
l_arm_un_4:;
    st8(r_89, 1u);
    r_2c_2 = 3u;
    goto l_capnp_2x;
l_arm_0x:;
    u64 indvars_r7_2 = (indvars_rl + 1ull);
    if (indvars_r7_2 == t_nb) { r_2c_2 = 0u; goto l_capnp_2x; }
    indvars_rl = indvars_r7_2;
    goto l_join_6x;
l_capnp_2x:;
    if (r_jc == 0ull) goto l_std_d0_1;
    if (ld64((r_69 + 16)) == 0ull) goto l_std_d0_1;
    rattle_dealloc(ldp(r_69));
l_std_d0_1:;
    if (r_6q_1 == 0ull) { r_z5_1 = r_2c_2; goto l_capnp_f7_1; }
    r_s6_2 = r_2c_2;
    goto l_return_f3_1;
l_arm_se:;
    st64(slot_5, (u64)ld8(r_x5_16));
    st32((slot_5 + 8), (u32)ld8((slot_6 + 16)));
    st32((slot_5 + 12), ld32((slot_6 + 20)));
    st64((slot_5 + 16), ld64((slot_6 + 24)));
    r_0d_3 = capnp_layout_tool_engine_answer_refusal_05c50f83f81b9c23(slot_17, slot_5);
    if (r_jc == 0ull) goto l_std_d0_2;
    if (ld64((r_69 + 16)) == 0ull) goto l_std_d0_2;
    rattle_dealloc(ldp(r_69));
l_std_d0_2:;
    if (r_6q_1 == 0ull) { r_z5_1 = r_0d_3; goto l_capnp_f7_1; }
    r_s6_2 = r_0d_3;
l_return_f3_1:;
    rattle_dealloc(r_69);
    r_z5_1 = r_s6_2;
l_capnp_f7_1:;
    st8(slot_10, r_z5_1);
    stp((slot_10 + 8), slot_1);
    memset((slot_10 + 16), 0u, 16);
    goto l_capnp_oa;
l_arm_oq_1:;
    st64(slot_9, r_u2);
    st64((slot_9 + 8), r_gk);
    st32((slot_9 + 16), r_ax);
    stp(slot_13, slot_1);
    memset((slot_13 + 8), 0u, 16);
    st64((slot_13 + 24), r_hb);
    stp(slot_14, r_69);
    st64((slot_14 + 8), r_jc);
    st64((slot_14 + 16), r_6q_1);
    capnp_layout_tool_engine_answer_canon_8738c8d4622c75c1(slot_10, slot_13, slot_14, slot_9, 0u, slot_17);
    goto l_capnp_oa;
l_arm_os:;
    memset(slot_7, 0u, 24);
    stp(slot_6, r_69);
    st64((slot_6 + 8), r_jc);
    st64((slot_6 + 16), r_6q_1);
    if (r_jc > 1ull) { r_iu_15 = 0ull; goto l_join_9n_15; }
    goto l_join_s9;
l_join_9n_15:;
    r_a7_22 = away(r_69, (r_iu_15 * 24ull));
    if (ld64((r_a7_22 + 16)) == 0ull) goto l_core_jc_14;
    rattle_dealloc(ldp(r_a7_22));
l_core_jc_14:;
    u64 r_36_28 = (r_iu_15 + 1ull);
    if (!(r_36_28 == r_jc)) { r_iu_15 = r_36_28; goto l_join_9n_15; }
    if (r_6q_1 == 0ull) { r_sw_1 = 2u; goto l_capnp_54; }
    r_s6_3 = 2u;
    goto l_capnp_f3_1;
l_join_s9:;
    memset(slot_4, 0u, 192);
    memset(slot_5, 0u, 184);
    capnp_layout_tool_framed_read_frame(slot_5, slot_6);
    r_38_27 = ld64((slot_5 + 8));
    r_38_28 = ld64((slot_5 + 16));
    r_38_29 = ld64((slot_5 + 24));
    if (!(ld8(slot_5) == 0u)) goto l_capnp_65;
    r_89_2 = (slot_5 + 32);
    t_f6 = ((u8 *)(uptr)r_38_28);
    if (r_38_27 == 0ull) { r_gz = 0ull; goto l_capnp_a5; }
    r_eb = 0ull;
    r_i4 = 0ull;
l_join_uz:;
    u64 r_5q_14 = (r_eb + (u64)ld32((t_f6 + (i64)(((u64)(r_i4 << 2ull) & 0x3fffffffcull)))));
    u64 r_36_29 = (r_i4 + 1ull);
    if (r_36_29 == r_38_27) { r_gz = r_5q_14; goto l_capnp_a5; }
    r_eb = r_5q_14;
    r_i4 = r_36_29;
    goto l_join_uz;
l_capnp_a5:;
    st64(slot_4, r_38_27);
    stp((slot_4 + 8), t_f6);
    st64((slot_4 + 16), r_38_29);
    r_lk_3 = (slot_4 + 24);
    memcpy(r_lk_3, r_89_2, 152);
    st32((slot_4 + 176), r_ax);
    st32((slot_4 + 180), 0u);
    r_s3_1 = (slot_4 + 184);
    st64(r_s3_1, r_gz);
    t_6c_2 = (slot_3 + 56);
    st64(t_6c_2, 0ull);
    if (!(r_38_27 == 1ull)) goto l_arm_cb;
    r_y4 = ld32(t_f6);
    if (r_y4 == 0u) { r_9a = 23u; r_q2 = 0u; r_8p = 0ull; goto l_capnp_94; }
    t_0q_1 = (r_td == 1u);
    if (!t_0q_1) { r_lt = r_gk; goto l_arm_kr; }
    if (r_gk == 0ull) { r_9a = 30u; r_q2 = 0u; r_8p = 0ull; goto l_capnp_94; }
    r_lt = (r_gk + 0xffffffffffffffffull);
l_arm_kr:;
    r_24_1 = (u64)r_y4;
    r_2b_8 = away(ldp(r_lk_3), (u64)(ld64((slot_4 + 40)) << 3ull));
    st64(slot_3, 0ull);
    st64((slot_3 + 8), (u64)(uptr)slot_4);
    memset((slot_3 + 16), 0u, 16);
    stp((slot_3 + 32), r_2b_8);
    st64((slot_3 + 40), (u64)(r_24_1 << 3ull));
    st32((slot_3 + 48), 0u);
    st32((slot_3 + 52), 0u);
    st32(t_6c_2, r_ax);
    st64(slot_2, r_u2);
    r_x5_18 = (slot_2 + 8);
    st64(r_x5_18, r_lt);
    r_zd_11 = (slot_2 + 16);
    st64(r_zd_11, 0ull);
    r_lk_4 = (slot_2 + 24);
    st64(r_lk_4, 1ull);
    r_89_3 = (slot_2 + 32);
    st32(r_89_3, 30u);
    r_gs_3 = (slot_2 + 36);
    st32(r_gs_3, 0u);
    r_a8_2 = (slot_2 + 40);
    st64(r_a8_2, 0ull);
    r_qw_3 = ld64(r_2b_8);
    if ((r_qw_3 & 2ull) == 0ull) goto l_join_4p_1;
    goto l_arm_cb;
l_join_4p_1:;
    if (r_qw_3 == 0ull) { r_r4_1 = 1ull; goto l_arm_5s_2; }
    r_ep_2 = (u64)(r_qw_3 >> 32ull);
    if (!((r_qw_3 & 1ull) == 0ull)) goto l_arm_st_1;
    r_y6_1 = (u64)(r_qw_3 >> 48ull);
    r_q7_1 = (r_ep_2 & 65535ull);
    r_lc_4 = (r_q7_1 + r_y6_1);
    st64(r_zd_11, 1ull);
    r_m6_2 = ((u64)(r_qw_3 >> 2ull) & 0x3fffffffull);
    if (!(r_m6_2 < 0x20000000ull)) goto l_else_jl;
    if (r_m6_2 < r_24_1) { r_i9 = (r_m6_2 + 1ull); goto l_arm_td_1; }
    r_qt = 23u;
    goto l_arm_nd;
l_else_jl:;
    if (r_m6_2 == 0x3fffffffull) { r_i9 = 0ull; goto l_arm_td_1; }
    r_qt = 23u;
    goto l_arm_nd;
l_arm_td_1:;
    if ((i32)r_ax < (i32)1u) { r_qt = 26u; goto l_arm_nd; }
    if ((r_i9 + r_lc_4) > r_24_1) { r_qt = 23u; goto l_arm_nd; }
    if (!t_0q_1) goto l_arm_7c_1;
    if (r_lt < r_lc_4) { r_qt = 30u; goto l_arm_nd; }
    st64(slot_2, 1ull);
    st64(r_x5_18, (r_lt - r_lc_4));
l_arm_7c_1:;
    r_12_2 = (u32)r_y6_1;
    r_az_1 = ((u32)r_ep_2 & 65535u);
    if ((r_az_1 | r_12_2) == 0u) goto l_then_jc;
    goto l_join_4n_1;
l_arm_nd:;
    st64(r_lk_4, 1ull);
    st32(r_89_3, r_qt);
    st32(r_gs_3, 0u);
    st64(r_a8_2, 0ull);
    r_tu = 0u;
    r_di = 1u;
    goto l_capnp_cm;
l_then_jc:;
    if (r_i9 == 0ull) { r_tu = 1u; r_di = 0u; goto l_capnp_cm; }
    memset(r_lk_4, 0u, 20);
    st8((slot_2 + 44), 5u);
    memset((slot_2 + 45), 0u, 3);
    r_tu = 0u;
    r_di = 1u;
    goto l_capnp_cm;
l_join_4n_1:;
    if (r_i9 == 1ull) goto l_join_4w_1;
    memset(r_lk_4, 0u, 20);
    st8((slot_2 + 44), 6u);
    memset((slot_2 + 45), 0u, 3);
    r_tu = 0u;
    r_di = 1u;
    goto l_capnp_cm;
l_join_4w_1:;
    r_ff_3 = (r_az_1 + 1u);
    r_68_2 = (r_ff_3 + r_12_2);
    r_ts_2 = (r_y6_1 == 0ull);
    if (!r_ts_2) goto l_join_if;
    struct s_i8_i32 t_ph_1 = (struct s_i8_i32){ 0u, 0u };
    t_ph_1.f1 = r_68_2;
    r_d4 = t_ph_1;
    goto l_capnp_o7;
l_join_if:;
    struct s_i8_i32 r_ec = capnp_pointers_pointers_canonical_test_children_1e87a1_c3c6e6a7(slot_3, r_ff_3, r_12_2, (r_ax + 0xffffffffu), r_68_2, slot_2);
    r_d4 = r_ec;
l_capnp_o7:;
    r_xo = r_d4.f1;
    if (!(r_d4.f0 == 0u)) { r_tu = 0u; r_di = 1u; goto l_capnp_cm; }
    if (r_az_1 == 0u) goto l_join_vo_1;
    if (!(ld64(away(r_2b_8, (u64)(r_q7_1 << 3ull))) == 0ull)) goto l_join_vo_1;
    memset(r_lk_4, 0u, 16);
    st32(r_a8_2, r_az_1);
    st8((slot_2 + 44), 8u);
    memset((slot_2 + 45), 0u, 3);
    r_tu = 0u;
    r_di = 1u;
    goto l_capnp_cm;
l_join_vo_1:;
    if (r_ts_2) { r_tu = r_xo; r_di = 0u; goto l_capnp_cm; }
    r_68_3 = (r_az_1 + r_12_2);
    if (!(r_y4 > r_68_3)) goto l_then_bv_1;
    if (!(ld64(away(r_2b_8, (u64)(u32)(r_68_3 << 3u))) == 0ull)) { r_tu = r_xo; r_di = 0u; goto l_capnp_cm; }
l_then_bv_1:;
    memset(r_lk_4, 0u, 16);
    st32(r_a8_2, r_68_3);
    st8((slot_2 + 44), 9u);
    memset((slot_2 + 45), 0u, 3);
    r_tu = 0u;
    r_di = 1u;
l_capnp_cm:;
    struct s_i8_i32 r_9l = (struct s_i8_i32){ 0 };
    r_9l.f0 = r_di;
    struct s_i8_i32 r_i6 = r_9l;
    r_i6.f1 = r_tu;
    r_uq = r_i6;
    goto l_capnp_gz;
l_arm_st_1:;
    if (!((u8)((u8)((u8)r_ep_2 & 7u) + 255u) < 5u)) goto l_join_6u;
    r_ij_1 = (u64)(r_qw_3 >> 35ull);
    r_c6_1 = (u64)(((ld64(away(away(((u8 *)switch_table_main_18), 8 * (r_ep_2 & 7ull)), 0xfffffffffffffff8ull)) * r_ij_1) + 63ull) >> 6ull);
    r_m6_3 = ((u64)(r_qw_3 >> 2ull) & 0x3fffffffull);
    if (!(r_m6_3 < 0x20000000ull)) goto l_else_jl_1;
    if (r_m6_3 < r_24_1) { r_i9_1 = (r_m6_3 + 1ull); goto l_arm_td_2; }
    narrow_j8 = 23u;
    goto l_arm_ka;
l_else_jl_1:;
    if (r_m6_3 == 0x3fffffffull) { r_i9_1 = 0ull; goto l_arm_td_2; }
    narrow_j8 = 23u;
    goto l_arm_ka;
l_arm_td_2:;
    if ((i32)r_ax < (i32)1u) { narrow_j8 = 28u; goto l_arm_ka; }
    if ((r_i9_1 + r_c6_1) > r_24_1) { narrow_j8 = 23u; goto l_arm_ka; }
    if (t_0q_1 ? (r_lt < r_c6_1) : 0u) { narrow_j8 = 30u; goto l_arm_ka; }
    if (r_i9_1 == 1ull) goto l_join_t1_1;
    goto l_then_1w;
l_arm_ka:;
    st64(r_lk_4, 1ull);
    st32(r_89_3, narrow_j8);
    st32(r_gs_3, 0u);
    st64(r_a8_2, 0ull);
    r_tu_1 = 0u;
    r_di_1 = 1u;
    goto l_capnp_cm_1;
l_then_1w:;
    memset(r_lk_4, 0u, 20);
    st8((slot_2 + 44), 6u);
    memset((slot_2 + 45), 0u, 3);
    r_tu_1 = 0u;
    r_di_1 = 1u;
    goto l_capnp_cm_1;
l_join_t1_1:;
    u64 r_1q_1 = (ld64(away(away(((u8 *)switch_table_main_18), 8 * (r_ep_2 & 7ull)), 0xfffffffffffffff8ull)) * r_ij_1);
    r_12_3 = (u32)(u64)(r_1q_1 >> 6ull);
    r_ff_4 = (r_12_3 + 1u);
    r_4i_1 = (r_1q_1 & 63ull);
    if (r_4i_1 == 0ull) { r_tu_1 = r_ff_4; r_di_1 = 0u; goto l_capnp_cm_1; }
    if (any8(v8_of((u64)(ld64(away(r_2b_8, (u64)((u64)r_ff_4 << 3ull))) >> (r_4i_1 & 63u)))) == 0u) { r_tu_1 = (r_12_3 + 2u); r_di_1 = 0u; goto l_capnp_cm_1; }
    memset(r_lk_4, 0u, 16);
    st32(r_a8_2, r_ff_4);
    st8((slot_2 + 44), 7u);
    memset((slot_2 + 45), 0u, 3);
    r_tu_1 = 0u;
    r_di_1 = 1u;
l_capnp_cm_1:;
    struct s_i8_i32 r_9l_1 = (struct s_i8_i32){ 0 };
    r_9l_1.f0 = r_di_1;
    struct s_i8_i32 r_i6_1 = r_9l_1;
    r_i6_1.f1 = r_tu_1;
    r_uq = r_i6_1;
    goto l_capnp_gz;
l_join_6u:;
    struct s_i8_i32 r_yv = capnp_pointers_pointers_canonical_test_list_1e87a151ef20e12e(slot_3, 0u, r_qw_3, r_ax, 1u, slot_2);
    r_uq = r_yv;
l_capnp_gz:;
    r_5h = r_uq.f0;
    if (!(r_5h == 0u)) goto l_arm_s8_1;
    r_r4_1 = (u64)r_uq.f1;
l_arm_5s_2:;
    r_r6 = r_r4_1;
    goto l_arm_x5;
l_arm_s8_1:;
    if (!(ld8(r_lk_4) == 0u)) goto l_arm_2a;
    if (r_5h == 1u) goto l_arm_cb;
    r_r6 = 1ull;
    goto l_arm_x5;
l_arm_2a:;
    r_9a = ld32(r_89_3);
    r_q2 = ld32(r_gs_3);
    r_8p = ld64(r_a8_2);
    goto l_capnp_94;
l_capnp_65:;
    r_dv = (u32)r_38_28;
    r_5n = (r_38_27 & 255ull);
    r_lu = r_38_29;
    r_h7 = (u32)(u64)(r_38_28 >> 32ull);
    goto l_arm_e3;
l_capnp_94:;
    r_dv = r_9a;
    r_5n = 0ull;
    r_lu = r_8p;
    r_h7 = r_q2;
    goto l_arm_e3;
l_arm_cb:;
    goto l_else_qn_1;
l_arm_x5:;
    if (!(ld64(r_s3_1) == r_r6)) goto l_else_qn_1;
    r_x5_19 = (slot_2 + 8);
    r_7u_7 = ((u8 *)g_static_30);
    r_j3_7 = 18ull;
l_join_c8_7:;
    memset(slot_2, 0u, 96);
    r_52_18 = ld64(r_zd_3);
    if (!(r_j3_7 < (ld64(r_lk) - r_52_18))) goto l_std_my_7;
    r_5q_15 = (r_52_18 + r_j3_7);
    r_2b_9 = away(ldp(r_x5_3), r_52_18);
    if (((u64)(uptr)r_2b_9 - (u64)(uptr)r_7u_7) < r_j3_7) { r_il_7 = 0ull; goto l_join_fh_7; }
    memcpy_or_none(r_2b_9, r_7u_7, r_j3_7);
    goto l_arm_2v_7;
l_join_fh_7:;
    st8((r_2b_9 + (i64)(r_il_7)), ld8((r_7u_7 + (i64)(r_il_7))));
    u64 r_36_30 = (r_il_7 + 1ull);
    if (!(r_36_30 == r_j3_7)) { r_il_7 = r_36_30; goto l_join_fh_7; }
l_arm_2v_7:;
    st64(r_zd_3, r_5q_15);
    r_fe_4 = r_j3_7;
    goto l_arm_on_4;
l_std_my_7:;
    std_io_buffered_BufWriter_write_cold_89ca6214804c96d4(slot_2, slot_17, r_7u_7, r_j3_7);
    u64 r_38_30 = ld64(r_x5_19);
    if ((ld8(slot_2) != 0u) ? 1u : (r_38_30 == 0ull)) goto l_join_un_1;
    r_fe_4 = r_38_30;
l_arm_on_4:;
    u64 r_t9_8 = (r_j3_7 - r_fe_4);
    if (r_t9_8 == 0ull) { r_2c_3 = 0u; goto l_capnp_2x_1; }
    u8 *r_28 = away(r_7u_7, r_fe_4);
    u64 r_29 = r_t9_8;
    r_7u_7 = r_28;
    r_j3_7 = r_29;
    goto l_join_c8_7;
l_else_qn_1:;
    r_x5_20 = (slot_2 + 8);
    r_7u_8 = ((u8 *)g_static_31);
    r_j3_8 = 24ull;
l_join_c8_8:;
    memset(slot_2, 0u, 96);
    r_52_19 = ld64(r_zd_3);
    if (!(r_j3_8 < (ld64(r_lk) - r_52_19))) goto l_std_my_8;
    r_5q_16 = (r_52_19 + r_j3_8);
    r_2b_10 = away(ldp(r_x5_3), r_52_19);
    if (((u64)(uptr)r_2b_10 - (u64)(uptr)r_7u_8) < r_j3_8) { r_il_8 = 0ull; goto l_join_fh_8; }
    memcpy_or_none(r_2b_10, r_7u_8, r_j3_8);
    goto l_arm_2v_8;
l_join_fh_8:;
    st8((r_2b_10 + (i64)(r_il_8)), ld8((r_7u_8 + (i64)(r_il_8))));
    u64 r_36_31 = (r_il_8 + 1ull);
    if (!(r_36_31 == r_j3_8)) { r_il_8 = r_36_31; goto l_join_fh_8; }
l_arm_2v_8:;
    st64(r_zd_3, r_5q_16);
    r_fe_5 = r_j3_8;
    goto l_arm_on_5;
l_std_my_8:;
    std_io_buffered_BufWriter_write_cold_89ca6214804c96d4(slot_2, slot_17, r_7u_8, r_j3_8);
    u64 r_38_31 = ld64(r_x5_20);
    if ((ld8(slot_2) != 0u) ? 1u : (r_38_31 == 0ull)) goto l_join_un_1;
    r_fe_5 = r_38_31;
l_arm_on_5:;
    u64 r_t9_9 = (r_j3_8 - r_fe_5);
    if (r_t9_9 == 0ull) { r_2c_3 = 0u; goto l_capnp_2x_1; }
    u8 *r_30 = away(r_7u_8, r_fe_5);
    u64 r_31 = r_t9_9;
    r_7u_8 = r_30;
    r_j3_8 = r_31;
    goto l_join_c8_8;
l_join_un_1:;
    st8(r_89, 1u);
    r_2c_3 = 3u;
l_capnp_2x_1:;
    if (r_jc == 0ull) goto l_std_2k_1;
    if (ld64((r_69 + 16)) == 0ull) goto l_std_2k_1;
    rattle_dealloc(ldp(r_69));
l_std_2k_1:;
    if (r_6q_1 == 0ull) { r_sw_1 = r_2c_3; goto l_capnp_54; }
    r_s6_3 = r_2c_3;
    goto l_capnp_f3_1;
l_arm_e3:;
    st64(slot_7, r_5n);
    st32((slot_7 + 8), (r_dv & 255u));
    st32((slot_7 + 12), r_h7);
    st64((slot_7 + 16), r_lu);
    r_0d_4 = capnp_layout_tool_engine_answer_refusal_05c50f83f81b9c23(slot_17, slot_7);
    if (r_jc == 0ull) goto l_std_2k_2;
    if (ld64((r_69 + 16)) == 0ull) goto l_std_2k_2;
    rattle_dealloc(ldp(r_69));
l_std_2k_2:;
    if (r_6q_1 == 0ull) { r_sw_1 = r_0d_4; goto l_capnp_54; }
    r_s6_3 = r_0d_4;
l_capnp_f3_1:;
    rattle_dealloc(r_69);
    r_sw_1 = r_s6_3;
l_capnp_54:;
    st8(slot_10, r_sw_1);
    stp((slot_10 + 8), slot_1);
    memset((slot_10 + 16), 0u, 16);
    goto l_capnp_oa;
l_default_e1:;
    UNREACHABLE();
l_arm_q0:;
    if (r_4g == 0u) { r_2g = 2u; goto l_capnp_8g; }
    memset(slot_15, 0u, 24);
    u8 r_0d_5 = capnp_layout_tool_engine_answer_refusal_05c50f83f81b9c23(slot_17, slot_15);
    r_2g = r_0d_5;
l_capnp_8g:;
    r_sw_2 = r_2g;
    goto l_capnp_kf;
l_capnp_oa:;
    r_r5 = ld8(slot_10);
    r_xw_15 = ldp((slot_10 + 8));
    if (ld64((slot_10 + 24)) == 0ull) { r_sw_2 = r_r5; goto l_capnp_kf; }
    rattle_dealloc(r_xw_15);
    r_sw_2 = r_r5;
l_capnp_kf:;
    memset(slot_2, 0u, 96);
    std_io_buffered_BufWriter_flush_buf_89ca6214804c96d4(slot_2, slot_17);
    spec_8q = ((ld8(slot_2) == 0u) ? r_sw_2 : 3u);
    mv32(slot_2, slot_17);
    std_io_buffered_BufWriter_flush_buf_89ca6214804c96d4(slot_3, slot_2);
    if (ld64((slot_2 + 24)) == 0ull) goto l_std_ws;
    rattle_dealloc(ldp((slot_2 + 8)));
l_std_ws:;
    r_38_32 = ld64(r_rk);
    r_38_33 = ld64(r_of);
    if (r_38_33 == r_38_32) goto l_arm_zv;
    c_lseek(0u, (r_38_32 - r_38_33), 1u);
    goto l_arm_zv;
l_arm_7p:;
    u8 r_1d_1 = layout_tool_print_error(((u8 *)g_static_1), 13ull);
    r_bk_4 = r_1d_1;
    goto l_join_qu_5;
l_arm_hz:;
    u8 r_1d_2 = layout_tool_print_error(((u8 *)g_static_1), 13ull);
    if (r_0o == 0ull) { r_jx = r_1d_2; goto l_std_we_1; }
    r_bk_4 = r_1d_2;
l_join_qu_5:;
    r_iu_16 = 0ull;
l_join_9n_16:;
    r_a7_23 = away(r_xw_6, (r_iu_16 * 24ull));
    if (ld64((r_a7_23 + 16)) == 0ull) goto l_core_jc_15;
    rattle_dealloc(ldp(r_a7_23));
l_core_jc_15:;
    u64 r_36_32 = (r_iu_16 + 1ull);
    if (r_36_32 == r_0o) { r_jx = r_bk_4; goto l_std_we_1; }
    r_iu_16 = r_36_32;
    goto l_join_9n_16;
l_std_we_1:;
    if (r_38_8 == 0ull) { r_sv = r_jx; goto l_arm_4z; }
    rattle_dealloc(r_xw_6);
    r_sv = r_jx;
    goto l_arm_4z;
l_arm_zv:;
    switch (spec_8q) {
    case 0u: { r_2c_4 = spec_8q; goto l_join_2x_1; }
    case 1u: { r_2c_4 = spec_8q; goto l_join_2x_1; }
    case 2u: goto l_arm_3t;
    case 3u: goto l_arm_qu_1;
    default: goto l_noarm_e1;
    }
l_arm_jg:;
    if (r_0o == 0ull) goto l_std_we_2;
    r_iu_17 = 0ull;
l_join_9n_17:;
    r_a7_24 = away(r_xw_6, (r_iu_17 * 24ull));
    if (ld64((r_a7_24 + 16)) == 0ull) goto l_core_jc_16;
    rattle_dealloc(ldp(r_a7_24));
l_core_jc_16:;
    u64 r_36_33 = (r_iu_17 + 1ull);
    if (!(r_36_33 == r_0o)) { r_iu_17 = r_36_33; goto l_join_9n_17; }
l_std_we_2:;
    if (r_38_8 == 0ull) goto l_arm_ef;
    rattle_dealloc(r_xw_6);
    goto l_arm_ef;
l_arm_3t:;
    u8 r_0b = layout_tool_print_error(((u8 *)g_static_3), 9ull);
    r_2c_4 = r_0b;
    goto l_join_2x_1;
l_arm_qu_1:;
    r_2c_4 = 2u;
l_join_2x_1:;
    if (r_0o == 0ull) goto l_std_we_3;
    r_iu_18 = 0ull;
l_join_9n_18:;
    r_a7_25 = away(r_xw_6, (r_iu_18 * 24ull));
    if (ld64((r_a7_25 + 16)) == 0ull) goto l_core_jc_17;
    rattle_dealloc(ldp(r_a7_25));
l_core_jc_17:;
    u64 r_36_34 = (r_iu_18 + 1ull);
    if (!(r_36_34 == r_0o)) { r_iu_18 = r_36_34; goto l_join_9n_18; }
l_std_we_3:;
    if (r_38_8 == 0ull) { r_sv = r_2c_4; goto l_arm_4z; }
    rattle_dealloc(r_xw_6);
    r_sv = r_2c_4;
    goto l_arm_4z;
l_noarm_e1:;
    UNREACHABLE();
l_arm_4z:;
    r_un = r_sv;
    goto l_layout_3d;
l_arm_ef:;
    st32(slot_3, 1u);
    r_ix_3 = (slot_3 + 4);
    memset(r_ix_3, 0u, 1132);
    r_s4_1 = (slot_3 + 1136);
    st32(r_s4_1, 32u);
    r_uy_1 = (slot_3 + 1140);
    r_ky_1 = (slot_3 + 1152);
    memset(r_uy_1, 0u, 12);
    st64(r_ky_1, 0xffffffffffffffffull);
    r_lp_1 = (slot_3 + 1160);
    memset(r_lp_1, 0u, 16);
    mv24(slot_2, r_s4_1);
    st32(r_s4_1, 32u);
    memset(r_uy_1, 0u, 12);
    st64(r_ky_1, 0xffffffffffffffffull);
    r_e1_1 = (slot_3 + 1032);
    r_pv_1 = 0ull;
    r_m0_1 = 8ull;
    r_w9_1 = ((u8 *)g_static_32);
l_arm_td_3:;
    r_62_1 = away(r_w9_1, 1ull);
    r_0f_1 = (r_m0_1 + 0xffffffffffffffffull);
    r_47_11 = ld8(r_w9_1);
    if (!(r_pv_1 > 1023ull)) { r_km_1 = r_pv_1; goto l_std_41_1; }
    u8 r_m5_2 = std_io_io_buffer_Buffer_flush(slot_3);
    u64 r_38_34 = ld64(r_e1_1);
    if (r_m5_2 ? (r_38_34 < 1024ull) : 0u) { r_km_1 = r_38_34; goto l_std_41_1; }
    goto l_core_v0;
l_std_41_1:;
    st8((r_ix_3 + (i64)(r_km_1)), r_47_11);
    r_c4_6 = (r_km_1 + 1ull);
    st64(r_e1_1, r_c4_6);
    if (!(r_0f_1 == 0ull)) { r_pv_1 = r_c4_6; r_m0_1 = r_0f_1; r_w9_1 = r_62_1; goto l_arm_td_3; }
    u8 t_ts_1 = (ld64(r_lp_1) == 0ull);
    st32(r_s4_1, 32u);
    memset(r_uy_1, 0u, 12);
    st64(r_ky_1, 0xffffffffffffffffull);
    if (t_ts_1) { r_pv_2 = r_c4_6; r_m0_2 = 16ull; r_w9_2 = ((u8 *)g_static_34); goto l_arm_td_4; }
    goto l_core_fr;
l_arm_td_4:;
    r_62_2 = away(r_w9_2, 1ull);
    r_0f_2 = (r_m0_2 + 0xffffffffffffffffull);
    r_47_12 = ld8(r_w9_2);
    if (!(r_pv_2 > 1023ull)) { r_km_2 = r_pv_2; goto l_std_41_2; }
    u8 r_m5_3 = std_io_io_buffer_Buffer_flush(slot_3);
    u64 r_38_35 = ld64(r_e1_1);
    if (r_m5_3 ? (r_38_35 < 1024ull) : 0u) { r_km_2 = r_38_35; goto l_std_41_2; }
    goto l_core_v0;
l_std_41_2:;
    st8((r_ix_3 + (i64)(r_km_2)), r_47_12);
    u64 r_c4_7 = (r_km_2 + 1ull);
    st64(r_e1_1, r_c4_7);
    if (r_0f_2 == 0ull) goto l_core_3b;
    r_pv_2 = r_c4_7;
    r_m0_2 = r_0f_2;
    r_w9_2 = r_62_2;
    goto l_arm_td_4;
l_core_v0:;
    mv24(r_s4_1, slot_2);
    r_ri_1 = 0u;
    goto l_layout_78;
l_core_3b:;
    mv24(r_s4_1, slot_2);
    goto l_arm_9c;
l_core_fr:;
    u8 r_6r = core_fmt_formatter_Formatter_write_indented_bf264aed5fa78656(slot_3, ((u8 *)g_static_34), 16ull);
    mv24(r_s4_1, slot_2);
    if (!(r_6r == 0u)) { r_ri_1 = 0u; goto l_layout_78; }
l_arm_9c:;
    mv24(slot_2, r_s4_1);
    st32(r_s4_1, 32u);
    memset(r_uy_1, 0u, 12);
    st64(r_ky_1, 0xffffffffffffffffull);
    if (!(ld64(r_lp_1) == 0ull)) goto l_else_w4_1;
    u64 r_38_36 = ld64(r_e1_1);
    if (!(r_38_36 > 1023ull)) { r_4x_1 = r_38_36; goto l_std_vs_1; }
    u8 r_m5_4 = std_io_io_buffer_Buffer_flush(slot_3);
    u64 r_38_37 = ld64(r_e1_1);
    if (r_m5_4 ? (r_38_37 < 1024ull) : 0u) { r_4x_1 = r_38_37; goto l_std_vs_1; }
    r_qe = 0u;
    goto l_core_v0_1;
l_std_vs_1:;
    st8((r_ix_3 + (i64)(r_4x_1)), 10u);
    st64(r_e1_1, (r_4x_1 + 1ull));
    r_qe = 1u;
    goto l_core_v0_1;
l_else_w4_1:;
    u8 r_bh_1 = core_fmt_formatter_Formatter_write_indented_bf264aed5fa78656(slot_3, ((u8 *)g_static_6), 1ull);
    r_qe = (r_bh_1 == 0u);
l_core_v0_1:;
    mv24(r_s4_1, slot_2);
    r_ri_1 = r_qe;
l_layout_78:;
    st32(slot_2, ld32(slot_3));
    memcpy((slot_2 + 4), r_ix_3, 1132);
    u8 r_vx_1 = std_io_io_buffer_Buffer_flush(slot_2);
    r_un = ((u8)((u8)r_ri_1 & (u8)r_vx_1) ? 1u : 2u);
l_layout_3d:;
    return (u32)r_un;
}
