/* This file is generated: don't edit it. It is the compiled form of the repository's proved sources, translated to C by
 * tools/c_of_module. docs/PROVED.md says what you have to trust. */
#define CAPNP_CANONICAL_SLOTS_OF_8
#if __SIZEOF_POINTER__ == 4
#pragma GCC diagnostic ignored "-Wconversion"
#endif

/* This code avoids what C leaves undefined or unspecified:
 * - aliasing: memory is read and written only by `ld..`, `st..` and `mv..`, whose types may alias all, and by memcpy and the like;
 * - overflow: sums, differences and products are computed with unsigned numbers of at least 32 bits, and cast to their width;
 * - division: no divisor is zero and no quotient is too large, which is proved; a signed number is a cast of an unsigned one;
 * - shifts: each is by less than the width; a shift to the right of a signed number keeps the sign with gcc and clang;
 * - casts to a signed number of the same width keep the bits with gcc and clang;
 * - alignment: `ld..` and `st..` take any address, and locals have the alignment that the module requires;
 * - order of evaluation: expressions have no side effects. Each store and each call is a statement of its own, in the order of
 *   the module. A value that is read before one is in a variable, or is read in that statement itself;
 * - pointers: one that may be outside of its object is computed as a number (`away`); pointers are compared as numbers;
 * - locals that aren't written yet: reading one returns arbitrary bytes, which no answer depends on;
 * - loops: all are jumps, and each one ends, which is proved;
 * - sizes: names differ within their first 63 characters, and no line has more than 4,095, which is as far as C11 promises to go. */
#if !defined(__GNUC__) || __BYTE_ORDER__ != __ORDER_LITTLE_ENDIAN__
#error "this needs gcc or clang, and a little-endian machine"
#endif
/* A machine of 32 bits needs callers that keep 8 bytes in memory for each pointer and each size_t. JavaScript can; C keeps
 * 4. CAPNP_CANONICAL_SLOTS_OF_8 states that all callers do. */
#if __SIZEOF_POINTER__ != 8 && !(__SIZEOF_POINTER__ == 4 && defined(CAPNP_CANONICAL_SLOTS_OF_8))
#error "this needs a machine of 64 bits"
#endif

#include <stddef.h>
#include <stdint.h>
#include <stdlib.h>
#include <string.h>

typedef uint8_t u8;
typedef uint16_t u16;
typedef uint32_t u32;
typedef uint64_t u64;
typedef int8_t i8;
typedef int16_t i16;
typedef int32_t i32;
typedef int64_t i64;
typedef uintptr_t uptr;
typedef u8 *pointer;

/* A pointer in memory takes 8 bytes, as in the module, even if the machine has shorter ones. */
#if __SIZEOF_POINTER__ == 8
struct place { const u8 *at; };
#define PLACE(pointer) { pointer }
#else
struct place { const u8 *at; u32 none; };
#define PLACE(pointer) { pointer, 0 }
#endif

#define INLINE static inline __attribute__((always_inline, unused))
#define NEVER __attribute__((noinline))
#define COLD __attribute__((cold))
#define A(bytes) __attribute__((aligned(bytes)))
#define TRAP() __builtin_trap()

/* Marks a place that is proved unreachable. With CAPNP_CANONICAL_TRAPS the program ends there. */
#ifdef CAPNP_CANONICAL_TRAPS
#define UNREACHABLE() __builtin_trap()
#else
#define UNREACHABLE() __builtin_unreachable()
#endif

/* The place `by` bytes away. It may be outside of the object: it is computed as a number, and may wrap around. */
#define away(pointer, by) ((u8 *)(uptr)((uptr)(pointer) + (by)))

/* Reads a number from any address, or writes one; any types may be kept there. These are macros, which compilers read faster
 * than functions. */
#define MEMORY(suffix, kind) typedef kind at##suffix __attribute__((may_alias, aligned(1)));
#define LOAD(suffix, from) (*(const at##suffix *)(const void *)(from))
#define STORE(suffix, to, value) (void)(*(at##suffix *)(void *)(to) = (value))

MEMORY(8, u8)
MEMORY(16, u16)
MEMORY(32, u32)
MEMORY(64, u64)
#define ld8(from) LOAD(8, from)
#define ld16(from) LOAD(16, from)
#define ld32(from) LOAD(32, from)
#define ld64(from) LOAD(64, from)
#define st8(to, value) STORE(8, to, value)
#define st16(to, value) STORE(16, to, value)
#define st32(to, value) STORE(32, to, value)
#define st64(to, value) STORE(64, to, value)
#if __SIZEOF_POINTER__ == 8
MEMORY(p, pointer)
#define ldp(from) LOAD(p, from)
#define stp(to, value) STORE(p, to, value)
#else
INLINE pointer ldp(const void *from) { return (pointer)(uptr)ld64(from); }
INLINE void stp(void *to, pointer value) { st64(to, (uptr)value); }
#endif

/* Numbers of widths that C doesn't have are only moved, truncated and extended: C keeps them in 64 bits. */
#define PART(bits)                                                                                          \
    INLINE u64 ld##bits(const void *from) { u64 it = 0; memcpy(&it, from, bits / 8); return it; }            \
    INLINE void st##bits(void *to, u64 value) { memcpy(to, &value, bits / 8); }

PART(24)
PART(40)
PART(48)
PART(56)

/* C forbids a null pointer here even with a count of 0. */
INLINE void memcpy_or_none(u8 *to, const u8 *from, u64 count) { if (count) memcpy(to, from, count); }
INLINE void memmove_or_none(u8 *to, const u8 *from, u64 count) { if (count) memmove(to, from, count); }
INLINE void memset_or_none(u8 *to, u8 value, u64 count) { if (count) memset(to, value, count); }

/* The absolute value, which of the smallest number is that number itself; the number of one bits; the number of zero bits
 * before the first one bit, from either end; minimum and maximum; sum and difference, limited to the range of the type; and
 * two numbers, joined and shifted by c modulo their width: the upper half after a shift to the left, the lower one after a
 * shift to the right. */
#define COUNTS(bits)                                                                                    \
    INLINE u##bits abs##bits(u##bits a) { return a >> (bits - 1) ? (u##bits)(0u - a) : a; }             \
    INLINE u##bits ctpop##bits(u##bits a) { return (u##bits)__builtin_popcountll(a); }                  \
    INLINE u##bits cttz##bits(u##bits a) { return (u##bits)(a ? __builtin_ctzll(a) : bits); }           \
    INLINE u##bits ctlz##bits(u##bits a) { return (u##bits)(a ? __builtin_clzll(a) - (64 - bits) : bits); } \
    INLINE u##bits umin##bits(u##bits a, u##bits b) { return a < b ? a : b; }                           \
    INLINE u##bits umax##bits(u##bits a, u##bits b) { return a > b ? a : b; }                           \
    INLINE u##bits smin##bits(u##bits a, u##bits b) { return (i##bits)a < (i##bits)b ? a : b; }         \
    INLINE u##bits smax##bits(u##bits a, u##bits b) { return (i##bits)a > (i##bits)b ? a : b; }         \
    INLINE u##bits uadd_sat##bits(u##bits a, u##bits b) { return (u##bits)(a + b) < a ? (u##bits)-1 : (u##bits)(a + b); } \
    INLINE u##bits usub_sat##bits(u##bits a, u##bits b) { return a < b ? 0 : (u##bits)(a - b); }        \
    INLINE u##bits fshl##bits(u##bits a, u##bits b, u##bits c) { c %= bits; return c ? (u##bits)(a << c | b >> (bits - c)) : a; } \
    INLINE u##bits fshr##bits(u##bits a, u##bits b, u##bits c) { c %= bits; return c ? (u##bits)(a << (bits - c) | b >> c) : b; }

COUNTS(8)
COUNTS(16)
COUNTS(32)
COUNTS(64)

INLINE u16 bswap16(u16 a) { return __builtin_bswap16(a); }
INLINE u32 bswap32(u32 a) { return __builtin_bswap32(a); }
INLINE u64 bswap64(u64 a) { return __builtin_bswap64(a); }

/* Vectors of bytes, which are compared and combined at once. A mask has a byte of ones or zeros for each byte. */
#define VECTOR(count)                                                                         \
    typedef u8 v##count __attribute__((vector_size(count)));                                  \
    typedef i8 w##count __attribute__((vector_size(count)));                                  \
    typedef v##count anyv##count __attribute__((may_alias, aligned(1)));

VECTOR(8)
VECTOR(16)
VECTOR(32)
VECTOR(64)

/* These are macros, because how a long vector is passed to a function depends on the processor. */
#define ldv8(from) (*(const anyv8 *)(const void *)(from))
#define ldv16(from) (*(const anyv16 *)(const void *)(from))
#define ldv32(from) (*(const anyv32 *)(const void *)(from))
#define ldv64(from) (*(const anyv64 *)(const void *)(from))
#define stv8(to, value) (void)(*(anyv8 *)(void *)(to) = (value))
#define stv16(to, value) (void)(*(anyv16 *)(void *)(to) = (value))
#define stv32(to, value) (void)(*(anyv32 *)(void *)(to) = (value))
#define stv64(to, value) (void)(*(anyv64 *)(void *)(to) = (value))

/* All bytes of a vector, combined by or. */
INLINE u8 any_at(const void *vector, int size)
{
    u64 bytes = 0;
    for (int at = 0; at < size; at += 8) bytes |= ld64((const u8 *)vector + at);
    bytes |= bytes >> 32;
    bytes |= bytes >> 16;
    return (u8)(bytes | bytes >> 8);
}

/* A bit for each of the first 8 bytes of a mask. */
INLINE u8 mask_at(const void *vector) { return (u8)((ld64(vector) & 0x8080808080808080u) * 0x0002040810204081u >> 56); }

#define any8(vector) __extension__({ v8 any_ = (vector); any_at(&any_, 8); })
#define any16(vector) __extension__({ v16 any_ = (vector); any_at(&any_, 16); })
#define any32(vector) __extension__({ v32 any_ = (vector); any_at(&any_, 32); })
#define any64(vector) __extension__({ v64 any_ = (vector); any_at(&any_, 64); })
#define mask8(vector) __extension__({ v8 mask_ = (vector); mask_at(&mask_); })
#define mask16(vector) __extension__({ v16 mask_ = (vector); (u16)(mask_at(&mask_) | mask_at((const u8 *)&mask_ + 8) << 8); })
/* 16 bytes of a vector, from byte `at` on; and the 8 bytes of a number. */
#define part16_of_64(vector, at) __extension__({ v64 part_ = (vector); ldv16((const u8 *)&part_ + (at)); })
#define part16_of_32(vector, at) __extension__({ v32 part_ = (vector); ldv16((const u8 *)&part_ + (at)); })
#define v8_of(number) __extension__({ u64 number_ = (number); ldv8(&number_); })

#include "capnp_layout.h"

struct s_i8_i32 { u8 f0; u32 f1; };

/* mvN moves N bytes between places that may overlap. */
INLINE void mv8(u8 *to, const u8 *from) { u64 part0 = ld64(from); st64(to, part0); }
INLINE void mv16(u8 *to, const u8 *from) { u64 part0 = ld64(from); u64 part8 = ld64((from + 8)); st64(to, part0); st64((to + 8), part8); }
INLINE void mv24(u8 *to, const u8 *from) { u64 part0 = ld64(from); u64 part8 = ld64((from + 8)); u64 part16 = ld64((from + 16)); st64(to, part0); st64((to + 8), part8); st64((to + 16), part16); }
INLINE void mv32(u8 *to, const u8 *from) { u64 part0 = ld64(from); u64 part8 = ld64((from + 8)); u64 part16 = ld64((from + 16)); u64 part24 = ld64((from + 24)); st64(to, part0); st64((to + 8), part8); st64((to + 16), part16); st64((to + 24), part24); }

static const u8 g_static_6[1] = { 0 };
static const u32 switch_table_capnp_in_place_existing_get_list_d7a666d2d35ab297[7] = { 0u, 1u, 8u, 16u, 32u, 64u, 0u };
static const u8 switch_table_typed_conforming_conforms_check_object_07_c60b4b8c[15] = { 1, 2, 3, 4, 5, 6, 0, 7, 7, 7, 7, 7, 7, 7, 7 };
static const u8 switch_table_typed_conforming_conforms_check_object_07_7954c1fd[15] = { 0, 0, 0, 0, 0, 0, 0, 0, 1, 2, 3, 4, 5, 6, 7 };
static const u64 switch_table_capnp_copies_copy_copy_object_5ec03199cc959fcd[7] = { 0u, 1u, 8u, 16u, 32u, 64u, 0u };
static const u64 switch_table_capnp_pointers_pointers_validate_validate_f7685ec9[5] = { 1u, 8u, 16u, 32u, 64u };
static const u64 switch_table_capnp_layout_get_struct_list[4] = { 8u, 16u, 32u, 64u };
static const u64 switch_table_capnp_layout_get_struct_list_12[8] = { 0u, 1u, 8u, 16u, 32u, 64u, 0u, 0u };
static const u32 switch_table_capnp_layout_list[8] = { 0u, 1u, 8u, 16u, 32u, 64u, 0u, 0u };

static NEVER COLD void capnp_in_place_existing_struct_behind_pad_d7a666d2d35ab297(u8 *a_1, u8 *a_2, u32 a_3, u64 a_4);
static NEVER COLD void capnp_allocation_landing_follow_far_d7a666d2d35ab297(u8 *a_1, u8 *a_2, u64 a_3);
static NEVER void capnp_in_place_opening_open_narrow_struct_d7a666d2d35ab297(u8 *a_1, u8 *a_2, u32 a_3, u32 a_4, u32 a_5, u16 a_6, u16 a_7, u16 a_8, u16 a_9);
static struct s_i8_i32 capnp_lent_arena_lent_arena_LentArenaBuilderArena_allo_b39b26fb(u8 *a_1, u32 a_2);
static void capnp_lent_arena_lent_arena_LentArenaBuilderArena_allo_c5878f28(u8 *a_1, u8 *a_2, u32 a_3);
static NEVER void capnp_in_place_widening_copy_words_at_once_d7a666d2d35ab297(u8 *a_1, u32 a_2, u32 a_3, u32 a_4);
static NEVER COLD void capnp_in_place_moving_transfer_row_across_d7a666d2d35ab297(u8 *a_1, u8 *a_2, u32 a_3, u32 a_4, u32 a_5, u32 a_6, u32 a_7);
static NEVER COLD void capnp_allocation_zeroing_zero_far_pads_d7a666d2d35ab297(u8 *a_1, u64 a_2);
static NEVER COLD void capnp_in_place_moving_zero_pads_of_row_d7a666d2d35ab297(u8 *a_1, u32 a_2, u32 a_3, u32 a_4, u32 a_5, u32 a_6);
static void capnp_allocation_zeroing_zero_if_inside_d7a666d2d35ab297(u8 *a_1, u32 a_2, u32 a_3, u64 a_4);
static NEVER void capnp_in_place_opening_new_struct_d7a666d2d35ab297(u8 *a_1, u8 *a_2, u32 a_3, u16 a_4, u16 a_5);
static void capnp_in_place_existing_get_list_d7a666d2d35ab297(u8 *a_1, u8 *a_2, u32 a_3, u8 a_4);
static void capnp_in_place_remaking_allocate_struct_list_d7a666d2d35ab297(u8 *a_1, u8 *a_2, u32 a_3, u16 a_4, u16 a_5);
static NEVER COLD void capnp_allocation_landing_follow_d7a666d2d35ab297(u8 *a_1, u8 *a_2, u32 a_3, u32 a_4);
static NEVER COLD void capnp_allocation_zeroing_zero_target_d7a666d2d35ab297(u8 *a_1, u8 *a_2);
static NEVER u32 capnp_layout_c_building_texts_set_any_data(u8 *a_1, u64 a_2, u8 *a_3, u64 a_4, u8 *a_5, u64 a_6);
static NEVER u32 capnp_layout_c_building_texts_set_any_text(u8 *a_1, u64 a_2, u8 *a_3, u64 a_4, u8 *a_5, u64 a_6);
static NEVER u32 capnp_layout_c_building_objects_init_any_struct_list(u8 *a_1, u64 a_2, u8 *a_3, u8 *a_4, u16 a_5, u32 a_6, u16 a_7, u16 a_8, u8 *a_9);
static void capnp_allocation_making_make_struct_list_d7a666d2d35ab297(u8 *a_1, u8 *a_2, u32 a_3, u32 a_4, u32 a_5, u16 a_6, u16 a_7);
static NEVER u8 typed_conforming_conforms_check_object_07dcb38b0fe92235(u8 *a_1, u64 a_2, u8 *a_3, u8 *a_4, u32 a_5, u8 *a_6);
static NEVER void capnp_pointers_source_follow_far_07dcb38b0fe92235(u8 *a_1, u8 *a_2, u64 a_3, u8 *a_4);
static NEVER u8 typed_conforming_conforms_is_utf8_by_bytes(u8 *a_1, u32 a_2);
static NEVER u64 core_slice_words_skip_far_52f9edcae2f82f51(u8 *a_1, u64 a_2, u64 a_3);
static void typed_conforming_conforms_narrow_elements_error(u8 *a_1, u8 a_2, u8 a_3);
static NEVER u32 typed_conforming_table_tested_word(u8 *a_1, u64 a_2, u32 a_3, u8 *a_4, u32 a_5);
static void capnp_builders_builders_PointerBuilder_copy_from_5ec03_b2338d7d(u8 *a_1, u8 *a_2, u8 *a_3, u8 *a_4, u8 a_5);
static void capnp_copies_copy_copy_value_5ec03199cc959fcd(u8 *a_1, u8 *a_2, u32 a_3, u32 a_4, u8 *a_5, u8 *a_6, u8 a_7);
static NEVER void capnp_copies_copy_copy_object_5ec03199cc959fcd(u8 *a_1, u8 *a_2, u32 a_3, u32 a_4, u8 *a_5, u8 *a_6, u8 a_7);
static u64 capnp_words_words_used_words_in(u8 *a_1, u64 a_2, u64 a_3);
static NEVER u64 capnp_words_lanes_used_words_bound(u8 *a_1, u64 a_2);
static void capnp_copies_copy_elements_put_words_d7a666d2d35ab297(u8 *a_1, u32 a_2, u8 *a_3, u64 a_4);
static void capnp_arena_traits_arena_writing_copy_words_d7a666d2d35ab297(u8 *a_1, u32 a_2, u8 *a_3, u64 a_4);
static NEVER void capnp_copies_copy_children_copy_children_out_of_line_5_f210a996(u8 *a_1, u8 *a_2, u32 a_3, u32 a_4, u8 *a_5, u32 a_6, u8 *a_7, u8 a_8);
static void capnp_pointers_source_expected_narrow_elements_error(u8 *a_1, u8 a_2, u8 a_3);
static u32 capnp_layout_c_capnp_layout_struct(u8 *a_1, u8 *a_2, u64 a_3, u32 a_4, u32 a_5, u8 *a_6);
static NEVER u8 capnp_pointers_pointers_validate_validate_object_07dcb_94c64086(u8 *a_1, u32 a_2, u32 a_3, u8 *a_4);
static NEVER u8 capnp_pointers_pointers_validate_validate_pointers_07d_b5563fe6(u8 *a_1, u32 a_2, u32 a_3, u32 a_4, u8 *a_5);
static NEVER void capnp_layout_c_validation_refused_pointer(u8 *a_1, u8 *a_2, u32 a_3, u8 *a_4);
static void capnp_refusals_refusals_search_search_object_07dcb38b0fe92235(u8 *a_1, u8 *a_2, u32 a_3, u32 a_4, u8 *a_5);
static NEVER void capnp_refusals_refusals_search_search_pointers_07dcb38b0fe92235(u8 *a_1, u8 *a_2, u32 a_3, u32 a_4, u32 a_5, u8 *a_6);

/* capnp_in_place::existing::struct_behind_pad::<#d7a666d2d35ab297> */
static NEVER COLD void capnp_in_place_existing_struct_behind_pad_d7a666d2d35ab297(u8 *a_1, u8 *a_2, u32 a_3, u64 a_4)
{
    A(8) u8 slot_1[32];
    u64 t_24;
    u64 r_lc;
    u64 r_iy;
    u32 r_ed;
    u32 r_uo;
    u64 r_4i;
    u8 r_5g;
    u32 r_12;
    u32 r_az;
    u64 r_lc_1;
    u64 r_fq;
    u32 r_pp;
    u32 r_9q;
    u32 r_ai;
    u32 r_m0;
    if (!((a_4 & 3ull) == 2ull)) goto l_else_kq;
    capnp_allocation_landing_follow_far_d7a666d2d35ab297(slot_1, a_2, a_4);
    r_ed = ld32((slot_1 + 20));
    r_uo = ld32((slot_1 + 16));
    r_4i = ld64((slot_1 + 8));
    r_5g = (ld8(slot_1) == 1u);
    goto l_capnp_v4;
l_else_kq:;
    t_24 = (u64)ld32(away(a_2, 16ull));
    u64 r_m6 = ((u64)(a_4 >> 2ull) & 0x3fffffffull);
    r_lc = (((u64)a_3 + 1ull) + r_m6);
    if (!(r_m6 < 0x20000000ull)) goto l_else_vv;
    if (r_lc > t_24) { r_ed = 0u; r_uo = 0u; r_4i = 0ull; r_5g = 0u; goto l_capnp_v4; }
    r_iy = r_lc;
    goto l_arm_wn;
l_else_vv:;
    u64 r_3o = (r_lc + 0xffffffffc0000000ull);
    if ((r_lc < 0x40000000ull) ? 1u : (r_3o > t_24)) { r_ed = 0u; r_uo = 0u; r_4i = 0ull; r_5g = 0u; goto l_capnp_v4; }
    r_iy = r_3o;
l_arm_wn:;
    r_ed = (u32)r_iy;
    r_uo = 0u;
    r_4i = a_4;
    r_5g = 1u;
l_capnp_v4:;
    if (!r_5g) { r_pp = 0u; r_9q = 0u; r_ai = 0u; r_m0 = 0u; goto l_capnp_4n; }
    r_12 = (u32)(u64)(r_4i >> 48ull);
    r_az = ((u32)(u64)(r_4i >> 32ull) & 65535u);
    if (!((r_4i & 3ull) == 0ull)) { r_pp = 0u; r_9q = 0u; r_ai = 0u; r_m0 = 0u; goto l_capnp_4n; }
    r_lc_1 = ((u64)(r_az + r_12) + (u64)r_ed);
    if (!(r_uo == 0u)) { r_fq = 0ull; goto l_capnp_zu; }
    r_fq = (u64)ld32(away(a_2, 16ull));
l_capnp_zu:;
    if (r_lc_1 > r_fq) { r_pp = 0u; r_9q = 0u; r_ai = 0u; r_m0 = 0u; goto l_capnp_4n; }
    r_pp = 1u;
    r_9q = r_uo;
    r_ai = r_ed;
    r_m0 = ((u32)(r_12 << 16u) | r_az);
l_capnp_4n:;
    st32(a_1, r_pp);
    st32(away(a_1, 4ull), r_9q);
    st32(away(a_1, 8ull), r_ai);
    st32(away(a_1, 12ull), r_m0);
    return;
}

/* capnp_allocation::landing::follow_far::<#d7a666d2d35ab297> */
static NEVER COLD void capnp_allocation_landing_follow_far_d7a666d2d35ab297(u8 *a_1, u8 *a_2, u64 a_3)
{
    u32 t_ri;
    u32 r_yf;
    u64 r_bb;
    u32 r_x0;
    u64 r_t5;
    u64 r_lw;
    u64 t_24;
    u64 r_lc;
    u64 r_z3;
    u64 r_vt;
    u64 r_8t;
    u32 r_49;
    u32 r_1t;
    u32 r_a3;
    t_ri = (u32)((u32)a_3 >> 3u);
    if (!(a_3 < 0x100000000ull)) goto l_capnp_50;
    r_yf = ld32(away(a_2, 16ull));
    if (!(r_yf > t_ri)) { r_bb = 0ull; goto l_capnp_mb; }
    r_bb = ld64(away(ldp(a_2), (a_3 & 0xfffffff8ull)));
l_capnp_mb:;
    if ((a_3 & 4ull) == 0ull) goto l_then_n8;
    goto l_then_zx;
l_capnp_50:;
    if ((a_3 & 4ull) == 0ull) { r_vt = 0ull; r_8t = 0ull; r_49 = 0u; r_1t = 0u; r_a3 = 0u; goto l_join_s8; }
    r_t5 = 0ull;
    r_lw = 0ull;
    goto l_capnp_31;
l_then_zx:;
    r_x0 = (t_ri + 1u);
    if (!(r_yf > r_x0)) { r_t5 = r_bb; r_lw = 0ull; goto l_capnp_31; }
    r_t5 = r_bb;
    r_lw = ld64(away(ldp(a_2), (u64)((u64)r_x0 << 3ull)));
l_capnp_31:;
    r_vt = 1ull;
    r_8t = r_lw;
    r_49 = (u32)(u64)(r_t5 >> 32ull);
    r_1t = (u32)((u32)r_t5 >> 3u);
    r_a3 = 2u;
    goto l_join_s8;
l_then_n8:;
    t_24 = (u64)r_yf;
    u64 r_m6 = ((u64)(r_bb >> 2ull) & 0x3fffffffull);
    r_lc = (r_m6 + (u64)(t_ri + 1u));
    if (!(r_m6 < 0x20000000ull)) goto l_else_vv;
    if (r_lc > t_24) { r_vt = 0ull; r_8t = 0ull; r_49 = 0u; r_1t = 0u; r_a3 = 0u; goto l_join_s8; }
    r_z3 = r_lc;
    goto l_arm_eo;
l_else_vv:;
    u64 r_3o = (r_lc + 0xffffffffc0000000ull);
    if ((r_lc < 0x40000000ull) ? 1u : (r_3o > t_24)) { r_vt = 0ull; r_8t = 0ull; r_49 = 0u; r_1t = 0u; r_a3 = 0u; goto l_join_s8; }
    r_z3 = r_3o;
l_arm_eo:;
    r_vt = 1ull;
    r_8t = r_bb;
    r_49 = 0u;
    r_1t = (u32)r_z3;
    r_a3 = 1u;
l_join_s8:;
    st64(a_1, r_vt);
    st64(away(a_1, 8ull), r_8t);
    st32(away(a_1, 16ull), r_49);
    st32(away(a_1, 20ull), r_1t);
    st32(away(a_1, 24ull), r_a3);
    st32(away(a_1, 28ull), 0u);
    return;
}

/* capnp_in_place::opening::open_narrow_struct::<#d7a666d2d35ab297> */
static NEVER void capnp_in_place_opening_open_narrow_struct_d7a666d2d35ab297(u8 *a_1, u8 *a_2, u32 a_3, u32 a_4, u32 a_5, u16 a_6, u16 a_7, u16 a_8, u16 a_9)
{
    A(8) u8 slot_1[24];
    u16 a_1p;
    u16 a_1p_1;
    u8 *r_08;
    u32 r_yf;
    u64 r_6n;
    u32 r_m2;
    u32 r_m2_1;
    u32 r_68;
    u64 r_24;
    u64 r_z6;
    u64 r_c0;
    u8 *r_2b;
    u8 r_4t;
    u32 storemerge_w0;
    u32 r_29;
    u32 r_m2_2;
    u8 *r_xp;
    u8 *r_c5;
    u64 r_m4;
    u32 r_eh;
    u32 r_w0;
    u32 r_m2_3;
    u8 r_sz;
    u64 wide_bi;
    u64 indvars_64;
    u32 r_sr;
    u32 r_sr_1;
    u32 r_yf_1;
    u64 r_24_1;
    u8 *r_fx;
    u64 r_qw;
    u64 r_lc;
    u64 r_24_2;
    u64 r_sm;
    u32 r_4r;
    u64 r_79;
    u64 r_sx;
    u64 r_nw;
    u8 pre_r5;
    u32 r_uq;
    u64 r_38;
    u32 t_cf;
    u32 r_68_1;
    u64 r_es;
    u64 r_7l;
    u64 r_z6_1;
    u8 *r_2b_1;
    u8 *t_2b;
    u64 r_es_1;
    u64 r_z6_2;
    u8 *r_2b_2;
    u8 *t_2b_1;
    u8 t_us;
    u32 r_39;
    u32 r_y7;
    u64 r_tm;
    u32 r_cp;
    u32 r_0z;
    u32 r_q6;
    u64 r_dv;
    a_1p = umax16(a_6, a_8);
    a_1p_1 = umax16(a_7, a_9);
    r_08 = away(a_2, 16ull);
    r_yf = ld32(r_08);
    if (!(r_yf > a_3)) { r_6n = 0ull; goto l_capnp_ob; }
    r_6n = ld64(away(ldp(a_2), (u64)((u64)a_3 << 3ull)));
l_capnp_ob:;
    r_m2 = (u32)a_1p;
    r_m2_1 = (u32)a_1p_1;
    r_68 = (r_m2_1 + r_m2);
    if (r_68 > ((u32)umin64((u64)(ld64(away(a_2, 8ull)) >> 3ull), 0x1fffffffull) - r_yf)) goto l_arm_5h;
    r_24 = (u64)r_yf;
    r_z6 = (u64)(r_24 << 3ull);
    r_c0 = (u64)(u32)(r_68 << 3u);
    r_2b = away(ldp(a_2), r_z6);
    r_4t = (r_68 < 8u);
    if (r_4t) goto l_then_1k;
    memset_or_none(r_2b, 0u, r_c0);
    goto l_arm_pm;
l_then_1k:;
    if (!(r_68 > 3u)) goto l_else_b7;
    memset(r_2b, 0, 32);
    memset(away(away(r_2b, r_c0), 0xffffffffffffffe0ull), 0, 32);
    goto l_arm_pm;
l_else_b7:;
    if (!(r_68 > 1u)) goto l_else_3c;
    memset(r_2b, 0, 16);
    memset(away(away(r_2b, r_c0), 0xfffffffffffffff0ull), 0, 16);
    goto l_arm_pm;
l_else_3c:;
    if (r_68 == 0u) goto l_arm_pm;
    memset(r_2b, 0, 8);
    memset(away(away(r_2b, r_c0), 0xfffffffffffffff8ull), 0, 8);
    goto l_arm_pm;
l_arm_5h:;
    u8 *r_xz = away(a_2, 24ull);
    st64(r_xz, uadd_sat64(ld64(r_xz), 1ull));
    r_cp = 1u;
    r_0z = 0u;
    r_q6 = 0u;
    r_dv = 0ull;
    goto l_capnp_rr;
l_arm_pm:;
    storemerge_w0 = (r_yf + r_68);
    st32(r_08, storemerge_w0);
    r_29 = ((u32)(r_m2_1 << 16u) | r_m2);
    r_m2_2 = (u32)a_6;
    if (!(a_6 == 1u)) goto l_else_bm;
    if (a_4 == 0u) goto l_arm_97;
    r_c5 = ldp(a_2);
    r_m4 = 0ull;
    goto l_capnp_wf;
l_arm_97:;
    r_xp = ldp(a_2);
    if (!(storemerge_w0 > a_5)) { r_c5 = r_xp; r_m4 = 0ull; goto l_capnp_wf; }
    r_c5 = r_xp;
    r_m4 = ld64(away(r_xp, (u64)((u64)a_5 << 3ull)));
l_capnp_wf:;
    st64((r_c5 + (i64)(r_z6)), r_m4);
    goto l_capnp_a3;
l_else_bm:;
    capnp_in_place_widening_copy_words_at_once_d7a666d2d35ab297(a_2, a_5, r_yf, r_m2_2);
l_capnp_a3:;
    r_eh = (a_5 + r_m2_2);
    r_w0 = (r_yf + r_m2);
    r_m2_3 = (u32)a_7;
    memset(slot_1, 0u, 24);
    r_sz = (a_4 == 0u);
    if (!r_sz) goto l_capnp_zl;
    if (a_7 == 0u) goto l_capnp_8g;
    wide_bi = (u64)a_7;
    indvars_64 = 0ull;
l_join_n3:;
    u32 t_nk = (u32)indvars_64;
    r_sr = (r_eh + t_nk);
    r_sr_1 = (r_w0 + t_nk);
    r_yf_1 = ld32(r_08);
    if (!(r_yf_1 > r_sr)) goto l_arm_da;
    r_24_1 = (u64)r_sr;
    r_fx = ldp(a_2);
    r_qw = ld64(away(r_fx, (u64)(r_24_1 << 3ull)));
    if (r_qw == 0ull) goto l_arm_da;
    if (!((r_qw & 2ull) == 0ull)) { r_nw = r_qw; goto l_arm_i3; }
    u64 r_m6 = ((u64)(r_qw >> 2ull) & 0x3fffffffull);
    r_lc = ((r_24_1 + 1ull) + r_m6);
    r_24_2 = (u64)r_yf_1;
    if (!(r_m6 < 0x20000000ull)) goto l_else_70;
    if (r_lc > r_24_2) goto l_arm_da;
    r_sm = r_lc;
    goto l_arm_ib;
l_else_70:;
    u64 r_3o = (r_lc + 0xffffffffc0000000ull);
    if ((r_lc < 0x40000000ull) ? 1u : (r_3o > r_24_2)) goto l_arm_da;
    r_sm = r_3o;
l_arm_ib:;
    r_4r = (u32)r_sm;
    u8 r_7q = ((r_qw & 1ull) == 0ull);
    r_79 = (u64)(r_qw >> ((r_7q ? 48ull : 35ull) & 63u));
    r_sx = ((((u64)r_79 & 0xffffffffffffull) << (16u & 63u)) & 0xffffffffffffull);
    if (!r_7q) goto l_arm_td;
    u32 r_sh = (u32)(r_sx | ((((u64)r_qw & 0xffffffffffffull) >> (32u & 63u))));
    if (((u32)(r_sh >> 16u) | (r_sh & 65535u)) == 0u) { r_nw = 0xfffffffcull; goto l_arm_i3; }
    r_nw = (((r_qw & 0xffff00000000ull) | (u64)(u32)((r_4r + (r_sr_1 ^ 0xffffffffu)) << 2u)) | (u64)((u64)r_sx << 32ull));
    goto l_arm_i3;
l_arm_td:;
    r_nw = ((((u64)(r_79 << 35ull) | (r_qw & 0x700000000ull)) | (u64)(u32)((r_4r + (r_sr_1 ^ 0xffffffffu)) << 2u)) | 1ull);
l_arm_i3:;
    st64((r_fx + (i64)((u64)((u64)r_sr_1 << 3ull))), r_nw);
l_arm_da:;
    u64 indvars_r7 = (indvars_64 + 1ull);
    if (!(indvars_r7 == wide_bi)) { indvars_64 = indvars_r7; goto l_join_n3; }
l_capnp_8g:;
    goto l_capnp_he;
l_capnp_zl:;
    capnp_in_place_moving_transfer_row_across_d7a666d2d35ab297(slot_1, a_2, a_4, r_eh, 0u, r_w0, r_m2_3);
    pre_r5 = ld8(slot_1);
    r_uq = ld32((slot_1 + 12));
    r_38 = ld64((slot_1 + 16));
    t_cf = (u32)ld8((slot_1 + 8));
    if (!(pre_r5 == 0u)) goto l_arm_ai;
l_capnp_he:;
    st64((ldp(a_2) + (i64)((u64)((u64)a_3 << 3ull))), (((u64)((u64)a_1p_1 << 48ull) | (u64)((u64)a_1p << 32ull)) | (u64)(u32)((r_yf + (a_3 ^ 0xffffffffu)) << 2u)));
    r_68_1 = (r_m2_3 + r_m2_2);
    r_es = (u64)r_68_1;
    if (!(u8)((u8)r_sz & (u8)(r_68_1 != 0u))) goto l_capnp_ab;
    r_7l = (u64)a_5;
    if ((r_es + r_7l) > (u64)ld32(r_08)) goto l_capnp_ab;
    r_z6_1 = (u64)(r_es << 3ull);
    r_2b_1 = away(ldp(a_2), (u64)(r_7l << 3ull));
    if (r_68_1 < 8u) goto l_then_5x;
    memset_or_none(r_2b_1, 0u, r_z6_1);
    goto l_capnp_ab;
l_then_5x:;
    t_2b = away(r_2b_1, r_z6_1);
    if (!(r_68_1 > 3u)) goto l_else_gn;
    memset(r_2b_1, 0, 32);
    memset(away(t_2b, 0xffffffffffffffe0ull), 0, 32);
    goto l_capnp_ab;
l_else_gn:;
    if (r_68_1 == 1u) goto l_then_qw;
    memset(r_2b_1, 0, 16);
    memset(away(t_2b, 0xfffffffffffffff0ull), 0, 16);
    goto l_capnp_ab;
l_then_qw:;
    memset(r_2b_1, 0, 8);
    memset(away(t_2b, 0xfffffffffffffff8ull), 0, 8);
l_capnp_ab:;
    if (!((r_6n & 3ull) == 2ull)) { t_us = 0u; r_39 = r_yf; r_y7 = r_29; r_tm = 0ull; goto l_join_8y; }
    capnp_allocation_zeroing_zero_far_pads_d7a666d2d35ab297(a_2, r_6n);
    t_us = 0u;
    r_39 = r_yf;
    r_y7 = r_29;
    r_tm = 0ull;
    goto l_join_8y;
l_arm_ai:;
    capnp_in_place_moving_zero_pads_of_row_d7a666d2d35ab297(a_2, a_4, r_eh, 0u, r_w0, r_m2_3);
    r_es_1 = (u64)r_68;
    if (r_68 == 0u) { t_us = pre_r5; r_39 = t_cf; r_y7 = r_uq; r_tm = r_38; goto l_join_8y; }
    if ((r_24 + r_es_1) > (u64)ld32(r_08)) { t_us = pre_r5; r_39 = t_cf; r_y7 = r_uq; r_tm = r_38; goto l_join_8y; }
    r_z6_2 = (u64)(r_es_1 << 3ull);
    r_2b_2 = away(ldp(a_2), r_z6);
    if (r_4t) goto l_then_5x_1;
    memset_or_none(r_2b_2, 0u, r_z6_2);
    t_us = pre_r5;
    r_39 = t_cf;
    r_y7 = r_uq;
    r_tm = r_38;
    goto l_join_8y;
l_then_5x_1:;
    t_2b_1 = away(r_2b_2, r_z6_2);
    if (!(r_68 > 3u)) goto l_else_gn_1;
    memset(r_2b_2, 0, 32);
    memset(away(t_2b_1, 0xffffffffffffffe0ull), 0, 32);
    t_us = pre_r5;
    r_39 = t_cf;
    r_y7 = r_uq;
    r_tm = r_38;
    goto l_join_8y;
l_else_gn_1:;
    if (r_68 == 1u) goto l_then_51;
    memset(r_2b_2, 0, 16);
    memset(away(t_2b_1, 0xfffffffffffffff0ull), 0, 16);
    t_us = pre_r5;
    r_39 = t_cf;
    r_y7 = r_uq;
    r_tm = r_38;
    goto l_join_8y;
l_then_51:;
    memset(r_2b_2, 0, 8);
    memset(away(t_2b_1, 0xfffffffffffffff8ull), 0, 8);
    t_us = pre_r5;
    r_39 = t_cf;
    r_y7 = r_uq;
    r_tm = r_38;
l_join_8y:;
    r_cp = (u32)t_us;
    r_0z = r_39;
    r_q6 = r_y7;
    r_dv = r_tm;
l_capnp_rr:;
    st32(a_1, r_cp);
    st32(away(a_1, 4ull), 0u);
    st32(away(a_1, 8ull), r_0z);
    st32(away(a_1, 12ull), r_q6);
    st64(away(a_1, 16ull), r_dv);
    return;
}

/* capnp_lent_arena::lent_arena::LentArenaBuilderArena::allocate::<#c3c55ce8c29dddf2> */
static struct s_i8_i32 capnp_lent_arena_lent_arena_LentArenaBuilderArena_allo_b39b26fb(u8 *a_1, u32 a_2)
{
    u8 *r_08;
    u32 r_e3;
    u64 r_z6;
    u8 *r_2b;
    u8 r_us;
    u32 r_1x;
    r_08 = away(a_1, 16ull);
    r_e3 = ld32(r_08);
    if (a_2 > ((u32)umin64((u64)(ld64(away(a_1, 8ull)) >> 3ull), 0x1fffffffull) - r_e3)) { r_us = 0u; r_1x = 0u; goto l_join_pr; }
    r_z6 = (u64)((u64)a_2 << 3ull);
    r_2b = away(ldp(a_1), (u64)((u64)r_e3 << 3ull));
    if (a_2 < 8u) goto l_then_1p;
    memset_or_none(r_2b, 0u, r_z6);
    goto l_capnp_pp;
l_then_1p:;
    if (!(a_2 > 3u)) goto l_else_ye;
    memset(r_2b, 0, 32);
    memset(away(away(r_2b, r_z6), 0xffffffffffffffe0ull), 0, 32);
    goto l_capnp_pp;
l_else_ye:;
    if (!(a_2 > 1u)) goto l_else_o7;
    memset(r_2b, 0, 16);
    memset(away(away(r_2b, r_z6), 0xfffffffffffffff0ull), 0, 16);
    goto l_capnp_pp;
l_else_o7:;
    if (a_2 == 0u) goto l_capnp_pp;
    memset(r_2b, 0, 8);
    memset(away(away(r_2b, r_z6), 0xfffffffffffffff8ull), 0, 8);
l_capnp_pp:;
    st32(r_08, (r_e3 + a_2));
    r_us = 1u;
    r_1x = r_e3;
l_join_pr:;
    struct s_i8_i32 r_9l = (struct s_i8_i32){ 0 };
    r_9l.f0 = r_us;
    struct s_i8_i32 r_i6 = r_9l;
    r_i6.f1 = r_1x;
    return r_i6;
}

/* capnp_lent_arena::lent_arena::LentArenaBuilderArena::allocate_anywhere::<#c3c55ce8c29dddf2> */
static void capnp_lent_arena_lent_arena_LentArenaBuilderArena_allo_c5878f28(u8 *a_1, u8 *a_2, u32 a_3)
{
    u8 *r_08;
    u32 r_e3;
    u64 r_z6;
    u8 *r_2b;
    r_08 = away(a_2, 16ull);
    r_e3 = ld32(r_08);
    if (a_3 > ((u32)umin64((u64)(ld64(away(a_2, 8ull)) >> 3ull), 0x1fffffffull) - r_e3)) goto l_join_el;
    goto l_then_1z;
l_common_68:;
    return;
l_then_1z:;
    r_z6 = (u64)((u64)a_3 << 3ull);
    r_2b = away(ldp(a_2), (u64)((u64)r_e3 << 3ull));
    if (a_3 < 8u) goto l_then_1p;
    memset_or_none(r_2b, 0u, r_z6);
    goto l_capnp_tn;
l_then_1p:;
    if (!(a_3 > 3u)) goto l_else_ye;
    memset(r_2b, 0, 32);
    memset(away(away(r_2b, r_z6), 0xffffffffffffffe0ull), 0, 32);
    goto l_capnp_tn;
l_else_ye:;
    if (!(a_3 > 1u)) goto l_else_o7;
    memset(r_2b, 0, 16);
    memset(away(away(r_2b, r_z6), 0xfffffffffffffff0ull), 0, 16);
    goto l_capnp_tn;
l_else_o7:;
    if (a_3 == 0u) goto l_capnp_tn;
    memset(r_2b, 0, 8);
    memset(away(away(r_2b, r_z6), 0xfffffffffffffff8ull), 0, 8);
l_capnp_tn:;
    st32(r_08, (r_e3 + a_3));
    st32(a_1, 0u);
    st32(away(a_1, 4ull), 0u);
    st32(away(a_1, 8ull), r_e3);
    st32(away(a_1, 12ull), 0u);
    st64(away(a_1, 16ull), 0ull);
    goto l_common_68;
l_join_el:;
    if (!(a_3 > 0x1fffffffu)) goto l_join_5h;
    st32(a_1, 1u);
    st32(away(a_1, 4ull), 0u);
    st32(away(a_1, 8ull), 27u);
    st32(away(a_1, 12ull), 0u);
    st64(away(a_1, 16ull), (u64)a_3);
    goto l_common_68;
l_join_5h:;
    u8 *r_xz = away(a_2, 24ull);
    st64(r_xz, uadd_sat64(ld64(r_xz), 1ull));
    st32(a_1, 1u);
    memset(away(a_1, 4ull), 0u, 20);
    goto l_common_68;
}

/* capnp_in_place::widening::copy_words_at_once::<#d7a666d2d35ab297> */
static NEVER void capnp_in_place_widening_copy_words_at_once_d7a666d2d35ab297(u8 *a_1, u32 a_2, u32 a_3, u32 a_4)
{
    u8 *r_fx;
    u64 r_7l;
    u64 r_7l_1;
    u64 r_v1;
    u64 r_z6;
    u8 *r_2b;
    u64 r_z6_1;
    u8 *r_2b_1;
    u64 r_z6_2;
    u64 r_il;
    u64 r_z6_5;
    u8 *t_2b;
    u8 *t_2b_1;
    u64 r_gm;
    u64 r_au;
    if (a_4 == 0u) goto l_capnp_68;
    r_fx = ldp(a_1);
    r_7l = (u64)a_2;
    r_7l_1 = (u64)a_3;
    r_v1 = (u64)a_4;
    if ((r_v1 + r_7l) > r_7l_1) goto l_else_is;
    r_z6 = (u64)(r_7l_1 << 3ull);
    r_2b = away(r_fx, r_z6);
    r_z6_1 = (u64)(r_7l << 3ull);
    r_2b_1 = away(r_fx, r_z6_1);
    r_z6_2 = (u64)(r_v1 << 3ull);
    if (!(a_4 < 8u)) goto l_else_k5;
    if (!(a_4 > 3u)) goto l_else_uv;
    mv32(r_2b, r_2b_1);
    u64 r_bh = (r_z6_2 + 0xffffffffffffffe0ull);
    mv32((r_2b + (i64)(r_bh)), (r_2b_1 + (i64)(r_bh)));
    goto l_capnp_68;
l_else_uv:;
    if (a_4 == 1u) goto l_then_49;
    mv16(r_2b, r_2b_1);
    u64 r_8f = (r_z6_2 + 0xfffffffffffffff0ull);
    mv16((r_2b + (i64)(r_8f)), (r_2b_1 + (i64)(r_8f)));
    goto l_capnp_68;
l_then_49:;
    mv8(r_2b, r_2b_1);
    u64 r_la = (r_z6_2 + 0xfffffffffffffff8ull);
    mv8((r_2b + (i64)(r_la)), (r_2b_1 + (i64)(r_la)));
    goto l_capnp_68;
l_else_k5:;
    if ((r_z6 - r_z6_1) < r_z6_2) { r_il = 0ull; goto l_join_fh; }
    memmove_or_none(r_2b, r_2b_1, r_z6_2);
    goto l_capnp_68;
l_join_fh:;
    st8((r_2b + (i64)(r_il)), ld8((r_2b_1 + (i64)(r_il))));
    u64 r_c4 = (r_il + 1ull);
    if (r_c4 == r_z6_2) goto l_capnp_68;
    r_il = r_c4;
    goto l_join_fh;
l_else_is:;
    u64 r_z6_3 = (u64)(r_7l << 3ull);
    u64 r_z6_4 = (u64)(r_7l_1 << 3ull);
    r_z6_5 = (u64)(r_v1 << 3ull);
    t_2b = away(r_fx, r_z6_3);
    t_2b_1 = away(r_fx, r_z6_4);
    if (r_z6_4 > r_z6_3) { r_au = r_z6_5; goto l_join_0e; }
    r_gm = 0ull;
l_join_1r:;
    st8(away(t_2b_1, r_gm), ld8(away(t_2b, r_gm)));
    u64 r_c4_1 = (r_gm + 1ull);
    if (r_c4_1 == r_z6_5) goto l_capnp_68;
    r_gm = r_c4_1;
    goto l_join_1r;
l_join_0e:;
    u64 r_0f = (r_au + 0xffffffffffffffffull);
    st8(away(t_2b_1, r_0f), ld8(away(t_2b, r_0f)));
    if (!(r_0f == 0ull)) { r_au = r_0f; goto l_join_0e; }
l_capnp_68:;
    return;
}

/* capnp_in_place::moving::transfer_row_across::<#d7a666d2d35ab297> */
static NEVER COLD void capnp_in_place_moving_transfer_row_across_d7a666d2d35ab297(u8 *a_1, u8 *a_2, u32 a_3, u32 a_4, u32 a_5, u32 a_6, u32 a_7)
{
    u8 r_sz;
    u8 *r_08;
    u8 r_eo;
    u8 *r_rq;
    u64 wide_v1;
    u64 indvars_rj;
    u32 r_7m;
    u32 r_7m_1;
    u32 r_yf;
    u64 r_24;
    u8 *r_fx;
    u64 r_qw;
    u64 r_lc;
    u64 r_24_1;
    u64 r_pb;
    u32 r_4r;
    u8 r_7q;
    u64 t_wl;
    u64 r_79;
    u64 r_15;
    u64 r_sx;
    u64 r_j0;
    u64 r_z6;
    u64 r_r5;
    u64 r_of;
    u8 *r_nw;
    u64 r_10;
    u8 r_le;
    if (a_7 == 0u) { r_le = 0u; goto l_capnp_zp; }
    r_sz = (a_3 == 0u);
    r_08 = away(a_2, 16ull);
    r_eo = (a_3 == a_5);
    r_rq = away(a_2, 8ull);
    wide_v1 = (u64)a_7;
    indvars_rj = 0ull;
l_join_ue:;
    u32 t_nk = (u32)indvars_rj;
    r_7m = (a_4 + t_nk);
    r_7m_1 = (a_6 + t_nk);
    if (!r_sz) goto l_arm_da;
    r_yf = ld32(r_08);
    if (!(r_yf > r_7m)) goto l_arm_da;
    r_24 = (u64)r_7m;
    r_fx = ldp(a_2);
    r_qw = ld64(away(r_fx, (u64)(r_24 << 3ull)));
    if (r_qw == 0ull) goto l_arm_da;
    if (!((r_qw & 2ull) == 0ull)) { r_nw = r_fx; r_10 = r_qw; goto l_arm_i3; }
    u64 r_m6 = ((u64)(r_qw >> 2ull) & 0x3fffffffull);
    r_lc = ((r_24 + 1ull) + r_m6);
    r_24_1 = (u64)r_yf;
    if (!(r_m6 < 0x20000000ull)) goto l_else_70;
    if (r_lc > r_24_1) goto l_arm_da;
    r_pb = r_lc;
    goto l_arm_w1;
l_else_70:;
    u64 r_3o = (r_lc + 0xffffffffc0000000ull);
    if ((r_lc < 0x40000000ull) ? 1u : (r_3o > r_24_1)) goto l_arm_da;
    r_pb = r_3o;
l_arm_w1:;
    r_4r = (u32)r_pb;
    r_7q = ((r_qw & 1ull) == 0ull);
    t_wl = (r_qw & 0x700000000ull);
    r_79 = (u64)(r_qw >> ((r_7q ? 48ull : 35ull) & 63u));
    r_15 = (r_7q ? ((((u64)r_qw & 0xffffffffffffull) >> (32u & 63u))) : 0u);
    r_sx = ((((u64)r_79 & 0xffffffffffffull) << (16u & 63u)) & 0xffffffffffffull);
    r_j0 = (r_sx | r_15);
    if (!r_eo) goto l_join_gd;
    if (!r_7q) goto l_arm_ue;
    u32 r_sh = (u32)r_j0;
    if (((u32)(r_sh >> 16u) | (r_sh & 65535u)) == 0u) { r_nw = r_fx; r_10 = 0xfffffffcull; goto l_arm_i3; }
    r_nw = r_fx;
    r_10 = ((u64)((u64)r_sx << 32ull) | (u64)(((r_15 << (32u & 63u)) & 0xffffffffffffull) | (u64)(u32)((r_4r + (r_7m_1 ^ 0xffffffffu)) << 2u)));
    goto l_arm_i3;
l_arm_ue:;
    r_nw = r_fx;
    r_10 = ((((u64)(r_79 << 35ull) | (u64)(u32)((r_4r + (r_7m_1 ^ 0xffffffffu)) << 2u)) | t_wl) | 1ull);
    goto l_arm_i3;
l_join_gd:;
    if (r_yf == (u32)umin64((u64)(ld64(r_rq) >> 3ull), 0x1fffffffull)) goto l_arm_5h;
    r_z6 = (u64)(r_24_1 << 3ull);
    memset(away(r_fx, r_z6), 0, 8);
    st32(r_08, (r_yf + 1u));
    r_r5 = (u64)(u32)(((r_yf ^ 0xffffffffu) + r_4r) << 2u);
    if (!r_7q) goto l_arm_10;
    r_of = (((r_qw & 0xffff00000000ull) | (u64)(r_79 << 48ull)) | r_r5);
    goto l_capnp_72;
l_arm_10:;
    r_of = ((((u64)(r_79 << 35ull) | t_wl) | r_r5) | 1ull);
l_capnp_72:;
    st64((ldp(a_2) + (i64)(r_z6)), r_of);
    r_nw = ldp(a_2);
    r_10 = (r_z6 | 2ull);
l_arm_i3:;
    st64((r_nw + (i64)((u64)((u64)r_7m_1 << 3ull))), r_10);
l_arm_da:;
    u64 indvars_r7 = (indvars_rj + 1ull);
    if (indvars_r7 == wide_v1) { r_le = 0u; goto l_capnp_zp; }
    indvars_rj = indvars_r7;
    goto l_join_ue;
l_arm_5h:;
    u8 *r_xz = away(a_2, 24ull);
    st64(r_xz, uadd_sat64(ld64(r_xz), 1ull));
    r_le = 1u;
l_capnp_zp:;
    st8(a_1, r_le);
    memset(away(a_1, 8ull), 0u, 16);
    return;
}

/* capnp_allocation::zeroing::zero_far_pads::<#d7a666d2d35ab297> */
static NEVER COLD void capnp_allocation_zeroing_zero_far_pads_d7a666d2d35ab297(u8 *a_1, u64 a_2)
{
    u8 r_hr;
    u64 t_3h;
    u8 *r_2b;
    u8 *t_2b;
    r_hr = ((a_2 & 4ull) == 0ull);
    t_3h = (r_hr ? 1ull : 2ull);
    if (!(a_2 < 0x100000000ull)) goto l_capnp_68;
    if ((t_3h + (u64)(a_2 >> 3ull)) > (u64)ld32(away(a_1, 16ull))) goto l_capnp_68;
    r_2b = away(ldp(a_1), (a_2 & 0xfffffff8ull));
    t_2b = away(r_2b, (u64)(t_3h << 3ull));
    if (r_hr) goto l_then_qw;
    memset(r_2b, 0, 16);
    memset(away(t_2b, 0xfffffffffffffff0ull), 0, 16);
    goto l_capnp_68;
l_then_qw:;
    memset(r_2b, 0, 8);
    memset(away(t_2b, 0xfffffffffffffff8ull), 0, 8);
l_capnp_68:;
    return;
}

/* capnp_in_place::moving::zero_pads_of_row::<#d7a666d2d35ab297> */
static NEVER COLD void capnp_in_place_moving_zero_pads_of_row_d7a666d2d35ab297(u8 *a_1, u32 a_2, u32 a_3, u32 a_4, u32 a_5, u32 a_6)
{
    u8 r_sz;
    u8 *r_08;
    u8 r_sz_1;
    u64 wide_v1;
    u64 indvars_m0;
    u32 r_7m;
    u32 r_7m_1;
    u32 r_yf;
    u32 r_w2;
    u64 r_qw;
    if (a_6 == 0u) goto l_after_68;
    r_sz = (a_2 == 0u);
    r_08 = away(a_1, 16ull);
    r_sz_1 = (a_4 == 0u);
    wide_v1 = (u64)a_6;
    indvars_m0 = 0ull;
l_join_qx:;
    u32 t_nk = (u32)indvars_m0;
    r_7m = (a_3 + t_nk);
    r_7m_1 = (a_5 + t_nk);
    if (!r_sz) goto l_then_7t;
    r_yf = ld32(r_08);
    if (!(r_yf > r_7m)) goto l_then_7t;
    if ((u8)((u8)r_sz_1 & (u8)((ld64(away(ldp(a_1), (u64)((u64)r_7m << 3ull))) & 3ull) != 2ull))) { r_w2 = r_yf; goto l_arm_7z; }
    goto l_capnp_4g;
l_then_7t:;
    if (!r_sz_1) goto l_capnp_4g;
    r_w2 = ld32(r_08);
l_arm_7z:;
    if (!(r_w2 > r_7m_1)) goto l_capnp_4g;
    r_qw = ld64(away(ldp(a_1), (u64)((u64)r_7m_1 << 3ull)));
    if (!((r_qw & 3ull) == 2ull)) goto l_capnp_4g;
    capnp_allocation_zeroing_zero_far_pads_d7a666d2d35ab297(a_1, r_qw);
l_capnp_4g:;
    u64 indvars_r7 = (indvars_m0 + 1ull);
    if (!(indvars_r7 == wide_v1)) { indvars_m0 = indvars_r7; goto l_join_qx; }
l_after_68:;
    return;
}

/* capnp_allocation::zeroing::zero_if_inside::<#d7a666d2d35ab297> */
static void capnp_allocation_zeroing_zero_if_inside_d7a666d2d35ab297(u8 *a_1, u32 a_2, u32 a_3, u64 a_4)
{
    u64 r_7l;
    u32 r_73;
    u64 r_um;
    u8 *r_2b;
    u8 *t_2b;
    if (!(u8)((u8)(a_2 == 0u) & (u8)(a_4 != 0ull))) goto l_join_68;
    r_7l = (u64)a_3;
    if ((a_4 + r_7l) > (u64)ld32(away(a_1, 16ull))) goto l_join_68;
    r_73 = (u32)a_4;
    if (r_73 == 0u) goto l_join_68;
    r_um = ((u64)(a_4 << 3ull) & 0x7fffffff8ull);
    r_2b = away(ldp(a_1), (u64)(r_7l << 3ull));
    if (r_73 < 8u) goto l_then_5x;
    memset_or_none(r_2b, 0u, r_um);
    goto l_join_68;
l_then_5x:;
    t_2b = away(r_2b, r_um);
    if (!(r_73 > 3u)) goto l_else_gn;
    memset(r_2b, 0, 32);
    memset(away(t_2b, 0xffffffffffffffe0ull), 0, 32);
    goto l_join_68;
l_else_gn:;
    if (r_73 == 1u) goto l_then_51;
    memset(r_2b, 0, 16);
    memset(away(t_2b, 0xfffffffffffffff0ull), 0, 16);
    goto l_join_68;
l_then_51:;
    memset(r_2b, 0, 8);
    memset(away(t_2b, 0xfffffffffffffff8ull), 0, 8);
l_join_68:;
    return;
}

/* capnp_in_place::opening::new_struct::<#d7a666d2d35ab297> */
static NEVER void capnp_in_place_opening_new_struct_d7a666d2d35ab297(u8 *a_1, u8 *a_2, u32 a_3, u16 a_4, u16 a_5)
{
    u32 r_m2;
    u32 r_m2_1;
    u32 r_68;
    u8 *r_08;
    u32 r_e3;
    u64 r_c0;
    u8 *r_2b;
    u8 *t_2b;
    u64 r_6l;
    u32 r_96;
    r_m2 = (u32)a_4;
    r_m2_1 = (u32)a_5;
    r_68 = (r_m2_1 + r_m2);
    if (r_68 == 0u) { r_6l = 0xfffffffcull; r_96 = a_3; goto l_arm_7a; }
    r_08 = away(a_2, 16ull);
    r_e3 = ld32(r_08);
    if (r_68 > ((u32)umin64((u64)(ld64(away(a_2, 8ull)) >> 3ull), 0x1fffffffull) - r_e3)) goto l_arm_5h;
    r_c0 = (u64)(u32)(r_68 << 3u);
    r_2b = away(ldp(a_2), (u64)((u64)r_e3 << 3ull));
    if (r_68 < 8u) goto l_then_5x;
    memset_or_none(r_2b, 0u, r_c0);
    goto l_capnp_od;
l_then_5x:;
    t_2b = away(r_2b, r_c0);
    if (!(r_68 > 3u)) goto l_else_gn;
    memset(r_2b, 0, 32);
    memset(away(t_2b, 0xffffffffffffffe0ull), 0, 32);
    goto l_capnp_od;
l_else_gn:;
    if (r_68 == 1u) goto l_then_qw;
    memset(r_2b, 0, 16);
    memset(away(t_2b, 0xfffffffffffffff0ull), 0, 16);
    goto l_capnp_od;
l_then_qw:;
    memset(r_2b, 0, 8);
    memset(away(t_2b, 0xfffffffffffffff8ull), 0, 8);
l_capnp_od:;
    st32(r_08, (r_e3 + r_68));
    r_6l = (((u64)((u64)a_5 << 48ull) | (u64)((u64)a_4 << 32ull)) | (u64)(u32)((r_e3 + (a_3 ^ 0xffffffffu)) << 2u));
    r_96 = r_e3;
l_arm_7a:;
    st64((ldp(a_2) + (i64)((u64)((u64)a_3 << 3ull))), r_6l);
    st32(a_1, 0u);
    st32(away(a_1, 4ull), 0u);
    st32(away(a_1, 8ull), r_96);
    st32(away(a_1, 12ull), ((u32)(r_m2_1 << 16u) | r_m2));
    st64(away(a_1, 16ull), 0ull);
l_common_68:;
    return;
l_arm_5h:;
    u8 *r_xz = away(a_2, 24ull);
    st64(r_xz, uadd_sat64(ld64(r_xz), 1ull));
    st32(a_1, 1u);
    memset(away(a_1, 4ull), 0u, 20);
    goto l_common_68;
}

/* capnp_in_place::existing::get_list::<#d7a666d2d35ab297> */
static void capnp_in_place_existing_get_list_d7a666d2d35ab297(u8 *a_1, u8 *a_2, u32 a_3, u8 a_4)
{
    A(8) u8 slot_1[32];
    u32 r_yf;
    u64 r_7l;
    u8 *r_fx;
    u64 r_qw;
    u64 t_24;
    u64 r_lc;
    u64 r_iy;
    u32 r_m1;
    u32 r_14;
    u64 r_y7;
    u8 r_hf;
    u32 r_e2;
    u64 r_ep;
    u8 switch_wl;
    u64 r_qw_1;
    u64 r_y6;
    u32 r_1d;
    u32 r_pp;
    u32 r_9q;
    u64 r_ai;
    u32 r_m0;
    u32 r_ph;
    u32 r_mc;
    r_yf = ld32(away(a_2, 16ull));
    if (!(r_yf > a_3)) { r_pp = 0u; r_9q = 0u; r_ai = 0ull; r_m0 = 0u; r_ph = 0u; r_mc = 0u; goto l_join_4n; }
    r_7l = (u64)a_3;
    r_fx = ldp(a_2);
    r_qw = ld64(away(r_fx, (u64)(r_7l << 3ull)));
    if (r_qw == 0ull) { r_pp = 0u; r_9q = 0u; r_ai = 0ull; r_m0 = 0u; r_ph = 0u; r_mc = 0u; goto l_join_4n; }
    if (!((r_qw & 3ull) == 2ull)) goto l_else_jd;
    capnp_allocation_landing_follow_far_d7a666d2d35ab297(slot_1, a_2, r_qw);
    r_m1 = ld32((slot_1 + 20));
    r_14 = ld32((slot_1 + 16));
    r_y7 = ld64((slot_1 + 8));
    r_hf = (ld8(slot_1) == 1u);
    goto l_capnp_nn;
l_else_jd:;
    t_24 = (u64)r_yf;
    u64 r_m6 = ((u64)(r_qw >> 2ull) & 0x3fffffffull);
    r_lc = ((r_7l + 1ull) + r_m6);
    if (!(r_m6 < 0x20000000ull)) goto l_else_vv;
    if (r_lc > t_24) goto l_arm_5s;
    r_iy = r_lc;
    goto l_arm_wn;
l_else_vv:;
    u64 r_3o = (r_lc + 0xffffffffc0000000ull);
    if ((r_lc < 0x40000000ull) ? 1u : (r_3o > t_24)) goto l_arm_5s;
    r_iy = r_3o;
l_arm_wn:;
    r_m1 = (u32)r_iy;
    r_14 = 0u;
    r_y7 = r_qw;
    r_hf = 1u;
l_capnp_nn:;
    if (!r_hf) { r_e2 = 23u; goto l_arm_3i; }
    if ((r_y7 & 3ull) == 1ull) goto l_arm_n5;
    r_e2 = 5u;
    goto l_arm_3i;
l_common_68:;
    return;
l_arm_5s:;
    r_e2 = 23u;
l_arm_3i:;
    st32(a_1, 1u);
    st32(away(a_1, 4ull), 0u);
    st32(away(a_1, 8ull), r_e2);
    memset(away(a_1, 12ull), 0u, 16);
    goto l_common_68;
l_arm_n5:;
    r_ep = (u64)(r_y7 >> 32ull);
    switch_wl = (u8)((u8)r_ep & 7u);
    switch (switch_wl) {
    case 7u: goto l_then_p7;
    case 0u: { r_1d = 0u; goto l_switch_i6; }
    case 6u: { r_1d = 0u; goto l_switch_i6; }
    case 5u: goto l_arm_q3;
    case 1u: goto l_arm_q3_1;
    case 2u: goto l_arm_q3_2;
    case 3u: goto l_arm_q3_3;
    case 4u: goto l_arm_q3_4;
    default: goto l_default_e1;
    }
l_then_p7:;
    if (!((r_14 == 0u) ? (r_yf > r_m1) : 0u)) { r_pp = 23u; r_9q = 0u; r_ai = 0ull; r_m0 = 0u; r_ph = 1u; r_mc = 0u; goto l_join_4n; }
    r_qw_1 = ld64(away(r_fx, (u64)((u64)r_m1 << 3ull)));
    r_y6 = (u64)(r_qw_1 >> 48ull);
    switch (a_4) {
    case 1u: { r_pp = 9u; r_9q = 0u; r_ai = 0ull; r_m0 = 0u; r_ph = 1u; r_mc = 0u; goto l_join_4n; }
    case 2u: goto l_arm_1p;
    case 3u: goto l_arm_1p;
    case 4u: goto l_arm_1p;
    case 5u: goto l_arm_1p;
    case 6u: goto l_arm_mq;
    case 0u: goto l_arm_on;
    default: goto l_default_e1;
    }
l_arm_1p:;
    if ((r_qw_1 & 0xffff00000000ull) == 0ull) { r_pp = 4u; r_9q = 0u; r_ai = 0ull; r_m0 = 0u; r_ph = 1u; r_mc = 0u; goto l_join_4n; }
    goto l_arm_on;
l_arm_mq:;
    if (r_y6 == 0ull) { r_pp = 4u; r_9q = 0u; r_ai = 0ull; r_m0 = 0u; r_ph = 1u; r_mc = 0u; goto l_join_4n; }
l_arm_on:;
    r_pp = 0u;
    r_9q = (r_m1 + 1u);
    r_ai = (((u64)(r_y6 << 32ull) | ((u64)(r_qw_1 >> 16ull) & 0xffff0000ull)) | 7ull);
    r_m0 = (u32)((u32)r_qw_1 >> 2u);
    r_ph = 0u;
    r_mc = 1u;
    goto l_join_4n;
l_arm_q3_1:;
    r_1d = 1u;
    goto l_switch_i6;
l_arm_q3_2:;
    r_1d = 8u;
    goto l_switch_i6;
l_arm_q3_3:;
    r_1d = 16u;
    goto l_switch_i6;
l_arm_q3_4:;
    r_1d = 32u;
    goto l_switch_i6;
l_arm_q3:;
    r_1d = 64u;
    goto l_switch_i6;
l_default_e1:;
    UNREACHABLE();
l_switch_i6:;
    if (r_1d < ld32((((u8 *)switch_table_capnp_in_place_existing_get_list_d7a666d2d35ab297) + (i64)(4 * (u64)a_4)))) { r_pp = 4u; r_9q = 0u; r_ai = 0ull; r_m0 = 0u; r_ph = 1u; r_mc = 0u; goto l_join_4n; }
    if ((u8)((u8)(a_4 == 6u) & (u8)(switch_wl != 6u))) { r_pp = 4u; r_9q = 0u; r_ai = 0ull; r_m0 = 0u; r_ph = 1u; r_mc = 0u; goto l_join_4n; }
    r_pp = r_14;
    r_9q = r_m1;
    r_ai = (r_ep & 7ull);
    r_m0 = (u32)(u64)(r_y7 >> 35ull);
    r_ph = 0u;
    r_mc = 1u;
l_join_4n:;
    st32(a_1, r_ph);
    st32(away(a_1, 4ull), r_mc);
    st32(away(a_1, 8ull), r_pp);
    st32(away(a_1, 12ull), r_9q);
    st64(away(a_1, 16ull), r_ai);
    st32(away(a_1, 24ull), r_m0);
    goto l_common_68;
}

/* capnp_in_place::remaking::allocate_struct_list::<#d7a666d2d35ab297> */
static void capnp_in_place_remaking_allocate_struct_list_d7a666d2d35ab297(u8 *a_1, u8 *a_2, u32 a_3, u16 a_4, u16 a_5)
{
    u32 r_cb;
    u32 r_ll;
    u8 *r_08;
    u32 r_e3;
    u32 r_da;
    u64 r_z6;
    u8 *r_2b;
    u32 r_z3;
    u64 r_z6_1;
    u8 *r_2b_1;
    u32 r_n4;
    u32 r_qa;
    u32 sink_7h;
    u32 r_pj;
    u32 r_dd;
    u64 sink_nl;
    r_cb = (((u32)a_5 + (u32)a_4) * a_3);
    r_ll = (r_cb + 1u);
    r_08 = away(a_2, 16ull);
    r_e3 = ld32(r_08);
    r_da = ((u32)umin64((u64)(ld64(away(a_2, 8ull)) >> 3ull), 0x1fffffffull) - r_e3);
    if (r_ll > r_da) goto l_arm_ky;
    r_z6 = (u64)((u64)r_ll << 3ull);
    r_2b = away(ldp(a_2), (u64)((u64)r_e3 << 3ull));
    if (r_ll < 8u) goto l_then_1k;
    memset_or_none(r_2b, 0u, r_z6);
    r_n4 = r_ll;
    r_qa = 0u;
    goto l_arm_fn;
l_then_1k:;
    if (!(r_ll > 3u)) goto l_else_b7;
    memset(r_2b, 0, 32);
    memset(away(away(r_2b, r_z6), 0xffffffffffffffe0ull), 0, 32);
    r_n4 = r_ll;
    r_qa = 0u;
    goto l_arm_fn;
l_else_b7:;
    if (!(r_ll > 1u)) goto l_else_3c;
    memset(r_2b, 0, 16);
    memset(away(away(r_2b, r_z6), 0xfffffffffffffff0ull), 0, 16);
    r_n4 = r_ll;
    r_qa = 0u;
    goto l_arm_fn;
l_else_3c:;
    if (r_ll == 0u) { r_n4 = 0u; r_qa = 0u; goto l_arm_fn; }
    memset(r_2b, 0, 8);
    memset(away(away(r_2b, r_z6), 0xfffffffffffffff8ull), 0, 8);
    r_n4 = 1u;
    r_qa = 0u;
    goto l_arm_fn;
l_arm_ky:;
    r_z3 = (r_cb + 2u);
    if (r_z3 > r_da) goto l_join_12;
    r_z6_1 = (u64)((u64)r_z3 << 3ull);
    r_2b_1 = away(ldp(a_2), (u64)((u64)r_e3 << 3ull));
    if (r_z3 < 8u) goto l_then_1k_1;
    memset_or_none(r_2b_1, 0u, r_z6_1);
    r_n4 = r_z3;
    r_qa = 1u;
    goto l_arm_fn;
l_then_1k_1:;
    if (!(r_z3 > 3u)) goto l_else_ey;
    memset(r_2b_1, 0, 32);
    memset(away(away(r_2b_1, r_z6_1), 0xffffffffffffffe0ull), 0, 32);
    r_n4 = r_z3;
    r_qa = 1u;
    goto l_arm_fn;
l_else_ey:;
    if (!(r_cb < 0xfffffffeu)) goto l_else_3c_1;
    memset(r_2b_1, 0, 16);
    memset(away(away(r_2b_1, r_z6_1), 0xfffffffffffffff0ull), 0, 16);
    r_n4 = r_z3;
    r_qa = 1u;
    goto l_arm_fn;
l_else_3c_1:;
    if (r_z3 == 0u) { r_n4 = 0u; r_qa = 1u; goto l_arm_fn; }
    memset(r_2b_1, 0, 8);
    memset(away(away(r_2b_1, r_z6_1), 0xfffffffffffffff8ull), 0, 8);
    r_n4 = 1u;
    r_qa = 1u;
    goto l_arm_fn;
l_join_12:;
    if (!(r_z3 > 0x1fffffffu)) goto l_join_5h;
    sink_7h = 1u;
    r_pj = 27u;
    r_dd = 0u;
    sink_nl = (u64)r_z3;
    goto l_common_5v;
l_join_5h:;
    u8 *r_xz = away(a_2, 24ull);
    st64(r_xz, uadd_sat64(ld64(r_xz), 1ull));
    sink_7h = 1u;
    r_pj = 0u;
    r_dd = 0u;
    sink_nl = 0ull;
    goto l_common_5v;
l_arm_fn:;
    st32(r_08, (r_n4 + r_e3));
    st64((ldp(a_2) + (i64)((u64)((u64)(r_qa + r_e3) << 3ull))), (((u64)((u64)a_5 << 48ull) | (u64)((u64)a_4 << 32ull)) | (u64)((u64)a_3 << 2ull)));
    sink_7h = 0u;
    r_pj = r_e3;
    r_dd = r_qa;
    sink_nl = 0ull;
l_common_5v:;
    st32(a_1, sink_7h);
    st32(away(a_1, 4ull), 0u);
    st32(away(a_1, 8ull), r_pj);
    st32(away(a_1, 12ull), r_dd);
    st64(away(a_1, 16ull), sink_nl);
    return;
}

/* capnp_allocation::landing::follow::<#d7a666d2d35ab297> */
static NEVER COLD void capnp_allocation_landing_follow_d7a666d2d35ab297(u8 *a_1, u8 *a_2, u32 a_3, u32 a_4)
{
    A(8) u8 slot_1[32];
    A(8) u8 slot_2[24];
    u32 r_yf;
    u64 r_7l;
    u64 r_qw;
    u64 t_24;
    u64 r_lc;
    u64 r_2i;
    u64 r_cy;
    u64 r_0u;
    u64 r_iy;
    u64 r_54;
    u8 r_m4;
    u64 r_s1;
    u32 r_78;
    u8 r_ud;
    if (!(a_3 == 0u)) goto l_then_ud;
    r_yf = ld32(away(a_2, 16ull));
    if (r_yf > a_4) goto l_capnp_04;
    r_2i = ((u64)a_4 + 1ull);
    r_cy = (u64)r_yf;
    r_0u = 0ull;
    goto l_then_rn;
l_capnp_04:;
    r_7l = (u64)a_4;
    r_qw = ld64(away(ldp(a_2), (u64)(r_7l << 3ull)));
    memset(slot_1, 0u, 32);
    if (!((r_qw & 3ull) == 2ull)) goto l_capnp_jd;
    capnp_allocation_landing_follow_far_d7a666d2d35ab297(slot_1, a_2, r_qw);
    r_ud = ld8(slot_1);
    goto l_capnp_ty;
l_then_ud:;
    r_m4 = 0u;
    r_s1 = 0ull;
    r_78 = 0u;
    goto l_capnp_8k;
l_capnp_jd:;
    t_24 = (u64)r_yf;
    u64 r_m6 = ((u64)(r_qw >> 2ull) & 0x3fffffffull);
    r_lc = ((r_7l + 1ull) + r_m6);
    if (r_m6 < 0x20000000ull) { r_2i = r_lc; r_cy = t_24; r_0u = r_qw; goto l_then_rn; }
    goto l_else_vv;
l_then_rn:;
    if (r_2i > r_cy) { r_m4 = 0u; r_s1 = 0ull; r_78 = 0u; goto l_capnp_8k; }
    r_iy = r_0u;
    r_54 = r_2i;
    goto l_arm_wn;
l_else_vv:;
    u64 r_3o = (r_lc + 0xffffffffc0000000ull);
    if ((r_lc < 0x40000000ull) ? 1u : (r_3o > t_24)) { r_m4 = 0u; r_s1 = 0ull; r_78 = 0u; goto l_capnp_8k; }
    r_iy = r_qw;
    r_54 = r_3o;
l_arm_wn:;
    r_m4 = 1u;
    r_s1 = r_iy;
    r_78 = (u32)r_54;
l_capnp_8k:;
    st64((slot_1 + 8), r_s1);
    st32((slot_1 + 16), 0u);
    st32((slot_1 + 20), r_78);
    st32((slot_1 + 24), 0u);
    st32((slot_1 + 28), 0u);
    r_ud = r_m4;
l_capnp_ty:;
    mv24(slot_2, (slot_1 + 8));
    st64(a_1, (u64)r_ud);
    mv24(away(a_1, 8ull), slot_2);
    return;
}

/* capnp_allocation::zeroing::zero_target::<#d7a666d2d35ab297> */
static NEVER COLD void capnp_allocation_zeroing_zero_target_d7a666d2d35ab297(u8 *a_1, u8 *a_2)
{
    A(8) u8 slot_1[32];
    u64 r_tp;
    u32 r_5k;
    u32 r_5k_1;
    u32 r_4r;
    u64 r_y6;
    u32 r_12;
    u64 r_24;
    u64 r_lc;
    u64 r_lc_1;
    u8 r_2p;
    u64 r_p5;
    u32 r_wt;
    u8 *r_x5;
    u64 indvars_ny;
    u32 r_zy;
    u8 *r_2b;
    u64 r_qw;
    u32 r_68;
    u64 r_es;
    u64 r_z6;
    u8 *r_2b_1;
    u8 *t_2b;
    u64 r_ij;
    u8 r_2p_1;
    u64 r_eh;
    u32 t_c8;
    u64 r_y6_1;
    u32 r_az;
    u32 t_12;
    u64 r_c4;
    u8 *r_08;
    u8 *r_x5_1;
    u32 r_te;
    u32 r_52;
    u32 r_w0;
    u64 indvars_4c;
    u32 r_sr;
    u8 *r_2b_2;
    u64 r_qw_1;
    u64 r_lc_2;
    u64 r_yh;
    u8 *r_x5_2;
    u64 indvars_4c_1;
    u32 r_sr_1;
    u8 *r_2b_3;
    u64 r_qw_2;
    u64 r_w1;
    u64 r_b6;
    u64 r_se;
    u64 r_24_1;
    u64 r_um;
    u8 *r_2b_4;
    u8 *t_2b_1;
    r_tp = ld64(a_2);
    r_5k = ld32((a_2 + 8));
    r_5k_1 = ld32((a_2 + 12));
    switch ((u8)((u8)r_tp & 3u)) {
    case 0u: goto l_arm_vb;
    case 1u: goto l_arm_a9;
    case 2u: goto l_join_68;
    case 3u: goto l_join_68;
    default: goto l_default_e1;
    }
l_arm_vb:;
    u64 r_ep = (u64)(r_tp >> 32ull);
    r_4r = (u32)r_ep;
    r_y6 = (u64)(r_tp >> 48ull);
    r_12 = (u32)r_y6;
    r_24 = (u64)r_5k_1;
    r_lc = ((r_ep & 65535ull) + r_24);
    r_lc_1 = (r_lc + r_y6);
    r_2p = (r_5k == 0u);
    if (!r_2p) goto l_capnp_jc;
    u64 t_24 = (u64)ld32(away(a_1, 16ull));
    if (r_lc_1 > t_24) goto l_join_68;
    r_p5 = t_24;
    goto l_capnp_m4;
l_capnp_jc:;
    if (r_lc_1 == 0ull) { r_p5 = 0ull; goto l_capnp_m4; }
    goto l_join_68;
l_capnp_m4:;
    r_wt = (u32)r_lc;
    if (!(u8)((u8)(r_y6 != 0ull) & (u8)(((r_lc & 0xffffffffull) + r_y6) <= r_p5))) goto l_capnp_jd;
    r_x5 = (slot_1 + 8);
    indvars_ny = 0ull;
l_join_ip:;
    r_zy = ((u32)indvars_ny + r_wt);
    r_2b = away(ldp(a_1), (u64)((u64)r_zy << 3ull));
    r_qw = ld64(r_2b);
    if (r_qw == 0ull) goto l_capnp_yw;
    capnp_allocation_landing_follow_d7a666d2d35ab297(slot_1, a_1, r_5k, r_zy);
    st64(r_2b, 0ull);
    if (!(ld8(slot_1) == 1u)) goto l_capnp_yw;
    capnp_allocation_zeroing_zero_target_d7a666d2d35ab297(a_1, r_x5);
    if (!((r_qw & 3ull) == 2ull)) goto l_capnp_yw;
    capnp_allocation_zeroing_zero_far_pads_d7a666d2d35ab297(a_1, r_qw);
l_capnp_yw:;
    u64 indvars_r7 = (indvars_ny + 1ull);
    if (!(indvars_r7 == r_y6)) { indvars_ny = indvars_r7; goto l_join_ip; }
l_capnp_jd:;
    r_68 = ((r_4r & 65535u) + r_12);
    r_es = (u64)r_68;
    if (!(u8)((u8)r_2p & (u8)(r_68 != 0u))) goto l_join_68;
    if ((r_es + r_24) > (u64)ld32(away(a_1, 16ull))) goto l_join_68;
    r_z6 = (u64)(r_es << 3ull);
    r_2b_1 = away(ldp(a_1), (u64)(r_24 << 3ull));
    if (r_68 < 8u) goto l_then_5x;
    memset_or_none(r_2b_1, 0u, r_z6);
    goto l_join_68;
l_then_5x:;
    t_2b = away(r_2b_1, r_z6);
    if (!(r_68 > 3u)) goto l_else_gn;
    memset(r_2b_1, 0, 32);
    memset(away(t_2b, 0xffffffffffffffe0ull), 0, 32);
    goto l_join_68;
l_else_gn:;
    if (r_68 == 1u) goto l_then_51;
    memset(r_2b_1, 0, 16);
    memset(away(t_2b, 0xfffffffffffffff0ull), 0, 16);
    goto l_join_68;
l_then_51:;
    memset(r_2b_1, 0, 8);
    memset(away(t_2b, 0xfffffffffffffff8ull), 0, 8);
    goto l_join_68;
l_arm_a9:;
    r_ij = (u64)(r_tp >> 35ull);
    switch ((u8)((u8)(u64)(r_tp >> 32ull) & 7u)) {
    case 7u: goto l_arm_1o;
    case 6u: goto l_arm_6p;
    case 0u: { r_w1 = 0ull; goto l_capnp_mu; }
    case 5u: goto l_arm_h9;
    case 4u: goto l_arm_h9_1;
    case 1u: goto l_arm_h9_2;
    case 2u: goto l_arm_h9_3;
    case 3u: goto l_arm_h9_4;
    default: goto l_default_e1;
    }
l_arm_1o:;
    r_2p_1 = (r_5k == 0u);
    if (!r_2p_1) { r_eh = 0ull; goto l_capnp_qm; }
    if (!(ld32(away(a_1, 16ull)) > r_5k_1)) { r_eh = 0ull; goto l_capnp_qm; }
    r_eh = ld64(away(ldp(a_1), (u64)((u64)r_5k_1 << 3ull)));
l_capnp_qm:;
    t_c8 = (u32)((u32)r_eh >> 2u);
    r_y6_1 = (u64)(r_eh >> 48ull);
    r_az = ((u32)(u64)(r_eh >> 32ull) & 65535u);
    t_12 = (u32)r_y6_1;
    r_c4 = (((u64)(r_az + t_12) * (u64)t_c8) + 1ull);
    if (!r_2p_1) goto l_join_68;
    r_08 = away(a_1, 16ull);
    if ((r_c4 + (u64)r_5k_1) > (u64)ld32(r_08)) goto l_join_68;
    if (!((r_y6_1 != 0ull) ? (t_c8 != 0u) : 0u)) goto l_capnp_r8;
    r_x5_1 = (slot_1 + 8);
    r_te = (r_5k_1 + 1u);
    r_52 = 0u;
l_join_b2:;
    r_w0 = (r_te + r_az);
    if ((r_y6_1 + (u64)r_w0) > (u64)ld32(r_08)) goto l_capnp_to;
    indvars_4c = 0ull;
l_join_m1:;
    r_sr = (r_w0 + (u32)indvars_4c);
    r_2b_2 = away(ldp(a_1), (u64)((u64)r_sr << 3ull));
    r_qw_1 = ld64(r_2b_2);
    if (r_qw_1 == 0ull) goto l_capnp_yw_1;
    capnp_allocation_landing_follow_d7a666d2d35ab297(slot_1, a_1, 0u, r_sr);
    st64(r_2b_2, 0ull);
    if (!(ld8(slot_1) == 1u)) goto l_capnp_yw_1;
    capnp_allocation_zeroing_zero_target_d7a666d2d35ab297(a_1, r_x5_1);
    if (!((r_qw_1 & 3ull) == 2ull)) goto l_capnp_yw_1;
    capnp_allocation_zeroing_zero_far_pads_d7a666d2d35ab297(a_1, r_qw_1);
l_capnp_yw_1:;
    u64 indvars_r7_1 = (indvars_4c + 1ull);
    if (!(indvars_r7_1 == r_y6_1)) { indvars_4c = indvars_r7_1; goto l_join_m1; }
l_capnp_to:;
    u32 r_ff = (r_52 + 1u);
    if (!(r_ff == t_c8)) { r_te = (r_w0 + t_12); r_52 = r_ff; goto l_join_b2; }
l_capnp_r8:;
    capnp_allocation_zeroing_zero_if_inside_d7a666d2d35ab297(a_1, 0u, r_5k_1, r_c4);
    goto l_join_68;
l_arm_6p:;
    r_lc_2 = (r_ij + (u64)r_5k_1);
    if (!(r_5k == 0u)) { r_yh = 0ull; goto l_capnp_hx; }
    r_yh = (u64)ld32(away(a_1, 16ull));
l_capnp_hx:;
    if (!(u8)((u8)(r_ij != 0ull) & (u8)(r_lc_2 <= r_yh))) goto l_join_68;
    r_x5_2 = (slot_1 + 8);
    indvars_4c_1 = 0ull;
l_join_m1_1:;
    r_sr_1 = (r_5k_1 + (u32)indvars_4c_1);
    r_2b_3 = away(ldp(a_1), (u64)((u64)r_sr_1 << 3ull));
    r_qw_2 = ld64(r_2b_3);
    if (r_qw_2 == 0ull) goto l_capnp_o8;
    capnp_allocation_landing_follow_d7a666d2d35ab297(slot_1, a_1, r_5k, r_sr_1);
    st64(r_2b_3, 0ull);
    if (!(ld8(slot_1) == 1u)) goto l_capnp_o8;
    capnp_allocation_zeroing_zero_target_d7a666d2d35ab297(a_1, r_x5_2);
    if (!((r_qw_2 & 3ull) == 2ull)) goto l_capnp_o8;
    capnp_allocation_zeroing_zero_far_pads_d7a666d2d35ab297(a_1, r_qw_2);
l_capnp_o8:;
    u64 indvars_r7_2 = (indvars_4c_1 + 1ull);
    if (indvars_r7_2 == r_ij) goto l_join_68;
    indvars_4c_1 = indvars_r7_2;
    goto l_join_m1_1;
l_arm_h9_2:;
    r_w1 = 1ull;
    goto l_capnp_mu;
l_arm_h9_3:;
    r_w1 = 8ull;
    goto l_capnp_mu;
l_arm_h9_4:;
    r_w1 = 16ull;
    goto l_capnp_mu;
l_arm_h9_1:;
    r_w1 = 32ull;
    goto l_capnp_mu;
l_arm_h9:;
    r_w1 = 64ull;
l_capnp_mu:;
    r_b6 = (r_w1 * r_ij);
    r_se = (u64)((r_b6 + 63ull) >> 6ull);
    if (!(u8)((u8)(r_5k == 0u) & (u8)(r_se != 0ull))) goto l_join_68;
    r_24_1 = (u64)r_5k_1;
    if ((r_se + r_24_1) > (u64)ld32(away(a_1, 16ull))) goto l_join_68;
    r_um = ((u64)(r_se << 3ull) & 0x7fffffff8ull);
    r_2b_4 = away(ldp(a_1), (u64)(r_24_1 << 3ull));
    if (r_b6 < 449ull) goto l_then_5t;
    memset_or_none(r_2b_4, 0u, r_um);
    goto l_join_68;
l_then_5t:;
    t_2b_1 = away(r_2b_4, r_um);
    if (!(r_b6 > 192ull)) goto l_else_9l;
    memset(r_2b_4, 0, 32);
    memset(away(t_2b_1, 0xffffffffffffffe0ull), 0, 32);
    goto l_join_68;
l_else_9l:;
    if (r_se == 1ull) goto l_then_51_1;
    memset(r_2b_4, 0, 16);
    memset(away(t_2b_1, 0xfffffffffffffff0ull), 0, 16);
    goto l_join_68;
l_then_51_1:;
    memset(r_2b_4, 0, 8);
    memset(away(t_2b_1, 0xfffffffffffffff8ull), 0, 8);
l_join_68:;
    return;
l_default_e1:;
    UNREACHABLE();
}

/* capnp_layout_c::building::texts::set_any_data */
static NEVER u32 capnp_layout_c_building_texts_set_any_data(u8 *a_1, u64 a_2, u8 *a_3, u64 a_4, u8 *a_5, u64 a_6)
{
    A(8) u8 slot_1[32];
    A(8) u8 slot_2[32];
    u32 r_iy;
    u64 a_js;
    u64 r_24;
    u32 common_hy;
    u32 r_d3;
    u8 *r_8z;
    u64 r_qw;
    u64 r_se;
    u32 r_12;
    u64 r_z6;
    u8 *r_8z_1;
    u32 r_w0;
    u8 *r_8z_2;
    u64 r_4p;
    u64 r_31;
    u32 storemerge_jl;
    u32 r_a5;
    r_iy = ld32(a_3);
    a_js = umin64((u64)(a_2 >> 3ull), 0x1fffffffull);
    r_24 = (u64)r_iy;
    if ((u8)((u8)(a_js >= r_24) & (u8)(a_4 < r_24))) goto l_join_i7;
    common_hy = 61u;
l_common_2g:;
    return common_hy;
l_join_i7:;
    if (a_6 > 0x1fffffffull) { common_hy = 59u; goto l_common_2g; }
    r_d3 = (u32)a_4;
    stp(slot_2, a_1);
    st64((slot_2 + 8), a_2);
    st32((slot_2 + 16), r_iy);
    st32((slot_2 + 20), 0u);
    st64((slot_2 + 24), 0ull);
    r_8z = away(a_1, ((u64)(a_4 << 3ull) & 0x7fffffff8ull));
    r_qw = ld64(r_8z);
    if (r_qw == 0ull) goto l_capnp_y1;
    capnp_allocation_landing_follow_d7a666d2d35ab297(slot_1, slot_2, 0u, r_d3);
    st64(r_8z, 0ull);
    if (!(ld8(slot_1) == 1u)) goto l_capnp_y1;
    capnp_allocation_zeroing_zero_target_d7a666d2d35ab297(slot_2, (slot_1 + 8));
    if (!((r_qw & 3ull) == 2ull)) goto l_capnp_y1;
    capnp_allocation_zeroing_zero_far_pads_d7a666d2d35ab297(slot_2, r_qw);
l_capnp_y1:;
    r_se = (u64)(((u64)(a_6 << 3ull) + 63ull) >> 6ull);
    r_12 = (u32)r_se;
    if (((u32)a_js - r_iy) < r_12) { storemerge_jl = r_iy; r_a5 = 1u; goto l_capnp_3p; }
    r_z6 = (u64)(r_se << 3ull);
    r_8z_1 = away(a_1, (u64)(r_24 << 3ull));
    if (a_6 < 57ull) goto l_then_08;
    memset_or_none(r_8z_1, 0u, r_z6);
    goto l_arm_x0;
l_then_08:;
    if (!(a_6 > 24ull)) goto l_else_1i;
    memset(r_8z_1, 0, 32);
    memset(away(away(r_8z_1, r_z6), 0xffffffffffffffe0ull), 0, 32);
    goto l_arm_x0;
l_else_1i:;
    if (!(a_6 > 8ull)) goto l_else_we;
    memset(r_8z_1, 0, 16);
    memset(away(away(r_8z_1, r_z6), 0xfffffffffffffff0ull), 0, 16);
    goto l_arm_x0;
l_else_we:;
    if (r_se == 0ull) goto l_arm_x0;
    memset(r_8z_1, 0, 8);
    memset(away(away(r_8z_1, r_z6), 0xfffffffffffffff8ull), 0, 8);
l_arm_x0:;
    r_w0 = (r_iy + r_12);
    st64(r_8z, (((u64)(a_6 << 35ull) | (u64)(u32)((r_iy + (r_d3 ^ 0xffffffffu)) << 2u)) | 0x200000001ull));
    if (a_6 == 0ull) { storemerge_jl = r_w0; r_a5 = 0u; goto l_capnp_3p; }
    r_8z_2 = away(a_1, (u64)(r_24 << 3ull));
    if (!(a_6 < 64ull)) goto l_else_5e;
    if (!(a_6 > 31ull)) goto l_else_5w;
    mv32(r_8z_2, a_5);
    u64 r_l6 = (a_6 + 0xffffffffffffffe0ull);
    mv32((r_8z_2 + (i64)(r_l6)), (a_5 + (i64)(r_l6)));
    storemerge_jl = r_w0;
    r_a5 = 0u;
    goto l_capnp_3p;
l_else_5w:;
    if (!(a_6 > 15ull)) goto l_else_t1;
    mv16(r_8z_2, a_5);
    u64 r_8y = (a_6 + 0xfffffffffffffff0ull);
    mv16((r_8z_2 + (i64)(r_8y)), (a_5 + (i64)(r_8y)));
    storemerge_jl = r_w0;
    r_a5 = 0u;
    goto l_capnp_3p;
l_else_t1:;
    if (!(a_6 > 7ull)) { r_4p = 0ull; goto l_join_5n; }
    mv8(r_8z_2, a_5);
    u64 r_t8 = (a_6 + 0xfffffffffffffff8ull);
    mv8((r_8z_2 + (i64)(r_t8)), (a_5 + (i64)(r_t8)));
    storemerge_jl = r_w0;
    r_a5 = 0u;
    goto l_capnp_3p;
l_join_5n:;
    st8((r_8z_2 + (i64)(r_4p)), ld8((a_5 + (i64)(r_4p))));
    u64 r_c4 = (r_4p + 1ull);
    if (r_c4 == a_6) { storemerge_jl = r_w0; r_a5 = 0u; goto l_capnp_3p; }
    r_4p = r_c4;
    goto l_join_5n;
l_else_5e:;
    if (((u64)(uptr)r_8z_2 - (u64)(uptr)a_5) < a_6) { r_31 = 0ull; goto l_join_sz; }
    memmove_or_none(r_8z_2, a_5, a_6);
    storemerge_jl = r_w0;
    r_a5 = 0u;
    goto l_capnp_3p;
l_join_sz:;
    st8((r_8z_2 + (i64)(r_31)), ld8((a_5 + (i64)(r_31))));
    u64 r_c4_1 = (r_31 + 1ull);
    if (r_c4_1 == a_6) { storemerge_jl = r_w0; r_a5 = 0u; goto l_capnp_3p; }
    r_31 = r_c4_1;
    goto l_join_sz;
l_capnp_3p:;
    st32(a_3, storemerge_jl);
    common_hy = r_a5;
    goto l_common_2g;
}

/* capnp_layout_c::building::texts::set_any_text */
static NEVER u32 capnp_layout_c_building_texts_set_any_text(u8 *a_1, u64 a_2, u8 *a_3, u64 a_4, u8 *a_5, u64 a_6)
{
    A(8) u8 slot_1[32];
    A(8) u8 slot_2[32];
    u32 r_iy;
    u64 a_js;
    u64 r_24;
    u32 common_hy;
    u32 r_d3;
    u64 r_1p;
    u8 *r_8z;
    u64 r_qw;
    u64 r_se;
    u32 r_12;
    u64 r_z6;
    u8 *r_8z_1;
    u8 *t_2b;
    u32 r_w0;
    u8 *r_8z_2;
    u64 r_4p;
    u64 r_31;
    u32 storemerge_jl;
    u32 r_a5;
    r_iy = ld32(a_3);
    a_js = umin64((u64)(a_2 >> 3ull), 0x1fffffffull);
    r_24 = (u64)r_iy;
    if ((u8)((u8)(a_js >= r_24) & (u8)(a_4 < r_24))) goto l_join_6g;
    common_hy = 61u;
l_common_2g:;
    return common_hy;
l_join_6g:;
    if (a_6 > 0x1ffffffeull) { common_hy = 59u; goto l_common_2g; }
    r_d3 = (u32)a_4;
    stp(slot_2, a_1);
    st64((slot_2 + 8), a_2);
    st32((slot_2 + 16), r_iy);
    st32((slot_2 + 20), 0u);
    st64((slot_2 + 24), 0ull);
    r_1p = (a_6 + 1ull);
    r_8z = away(a_1, ((u64)(a_4 << 3ull) & 0x7fffffff8ull));
    r_qw = ld64(r_8z);
    if (r_qw == 0ull) goto l_capnp_g2;
    capnp_allocation_landing_follow_d7a666d2d35ab297(slot_1, slot_2, 0u, r_d3);
    st64(r_8z, 0ull);
    if (!(ld8(slot_1) == 1u)) goto l_capnp_g2;
    capnp_allocation_zeroing_zero_target_d7a666d2d35ab297(slot_2, (slot_1 + 8));
    if (!((r_qw & 3ull) == 2ull)) goto l_capnp_g2;
    capnp_allocation_zeroing_zero_far_pads_d7a666d2d35ab297(slot_2, r_qw);
l_capnp_g2:;
    r_se = (u64)(((u64)(r_1p << 3ull) + 63ull) >> 6ull);
    r_12 = (u32)r_se;
    if (((u32)a_js - r_iy) < r_12) { storemerge_jl = r_iy; r_a5 = 1u; goto l_capnp_3p; }
    r_z6 = (u64)(r_se << 3ull);
    r_8z_1 = away(a_1, (u64)(r_24 << 3ull));
    if (a_6 < 56ull) goto l_then_bm;
    memset_or_none(r_8z_1, 0u, r_z6);
    goto l_arm_x0;
l_then_bm:;
    t_2b = away(r_8z_1, r_z6);
    if (!(a_6 > 23ull)) goto l_else_m0;
    memset(r_8z_1, 0, 32);
    memset(away(t_2b, 0xffffffffffffffe0ull), 0, 32);
    goto l_arm_x0;
l_else_m0:;
    if (!(a_6 > 7ull)) goto l_then_5f;
    memset(r_8z_1, 0, 16);
    memset(away(t_2b, 0xfffffffffffffff0ull), 0, 16);
    goto l_arm_x0;
l_then_5f:;
    memset(r_8z_1, 0, 8);
    memset(away(t_2b, 0xfffffffffffffff8ull), 0, 8);
l_arm_x0:;
    r_w0 = (r_iy + r_12);
    st64(r_8z, (((u64)(r_1p << 35ull) | (u64)(u32)((r_iy + (r_d3 ^ 0xffffffffu)) << 2u)) | 0x200000001ull));
    if (a_6 == 0ull) { storemerge_jl = r_w0; r_a5 = 0u; goto l_capnp_3p; }
    r_8z_2 = away(a_1, (u64)(r_24 << 3ull));
    if (!(a_6 < 64ull)) goto l_else_5e;
    if (!(a_6 > 31ull)) goto l_else_5w;
    mv32(r_8z_2, a_5);
    u64 r_l6 = (a_6 + 0xffffffffffffffe0ull);
    mv32((r_8z_2 + (i64)(r_l6)), (a_5 + (i64)(r_l6)));
    storemerge_jl = r_w0;
    r_a5 = 0u;
    goto l_capnp_3p;
l_else_5w:;
    if (!(a_6 > 15ull)) goto l_else_t1;
    mv16(r_8z_2, a_5);
    u64 r_8y = (a_6 + 0xfffffffffffffff0ull);
    mv16((r_8z_2 + (i64)(r_8y)), (a_5 + (i64)(r_8y)));
    storemerge_jl = r_w0;
    r_a5 = 0u;
    goto l_capnp_3p;
l_else_t1:;
    if (!(a_6 > 7ull)) { r_4p = 0ull; goto l_join_5n; }
    mv8(r_8z_2, a_5);
    u64 r_t8 = (a_6 + 0xfffffffffffffff8ull);
    mv8((r_8z_2 + (i64)(r_t8)), (a_5 + (i64)(r_t8)));
    storemerge_jl = r_w0;
    r_a5 = 0u;
    goto l_capnp_3p;
l_join_5n:;
    st8((r_8z_2 + (i64)(r_4p)), ld8((a_5 + (i64)(r_4p))));
    u64 r_c4 = (r_4p + 1ull);
    if (r_c4 == a_6) { storemerge_jl = r_w0; r_a5 = 0u; goto l_capnp_3p; }
    r_4p = r_c4;
    goto l_join_5n;
l_else_5e:;
    if (((u64)(uptr)r_8z_2 - (u64)(uptr)a_5) < a_6) { r_31 = 0ull; goto l_join_sz; }
    memmove_or_none(r_8z_2, a_5, a_6);
    storemerge_jl = r_w0;
    r_a5 = 0u;
    goto l_capnp_3p;
l_join_sz:;
    st8((r_8z_2 + (i64)(r_31)), ld8((a_5 + (i64)(r_31))));
    u64 r_c4_1 = (r_31 + 1ull);
    if (r_c4_1 == a_6) { storemerge_jl = r_w0; r_a5 = 0u; goto l_capnp_3p; }
    r_31 = r_c4_1;
    goto l_join_sz;
l_capnp_3p:;
    st32(a_3, storemerge_jl);
    common_hy = r_a5;
    goto l_common_2g;
}

/* capnp_layout_c::building::objects::init_any_struct_list */
static NEVER u32 capnp_layout_c_building_objects_init_any_struct_list(u8 *a_1, u64 a_2, u8 *a_3, u8 *a_4, u16 a_5, u32 a_6, u16 a_7, u16 a_8, u8 *a_9)
{
    A(8) u8 slot_1[32];
    A(8) u8 slot_2[24];
    A(8) u8 slot_3[32];
    u32 r_ab;
    u32 r_4r;
    u32 r_iy;
    u32 common_hy;
    u8 *r_zd;
    u32 r_w0;
    u8 *r_8z;
    u64 r_qw;
    u64 t_fj;
    u64 t_tp = ld64(a_4);
    r_ab = (u32)t_tp;
    u64 r_kc = (u64)(t_tp >> 32ull);
    r_4r = (u32)r_kc;
    st32(a_9, 0u);
    r_iy = ld32(a_3);
    u64 r_or = (u64)(t_tp >> 48ull);
    u64 r_24 = (u64)r_iy;
    if (((umin64((u64)(a_2 >> 3ull), 0x1fffffffull) >= r_24) ? (((r_or + (t_tp & 0xffffffffull)) + (r_kc & 65535ull)) <= r_24) : 0u) ? (a_5 < (u16)r_or) : 0u) goto l_join_lx;
    common_hy = 61u;
l_common_2g:;
    return common_hy;
l_join_lx:;
    if (a_6 > 0x1fffffffu) { common_hy = 59u; goto l_common_2g; }
    if ((((u64)a_8 + (u64)a_7) * (u64)a_6) > 0x1fffffffull) { common_hy = 59u; goto l_common_2g; }
    stp(slot_3, a_1);
    st64((slot_3 + 8), a_2);
    r_zd = (slot_3 + 16);
    st32(r_zd, r_iy);
    st32((slot_3 + 20), 0u);
    st64((slot_3 + 24), 0ull);
    r_w0 = ((r_ab + (u32)a_5) + (r_4r & 65535u));
    r_8z = away(a_1, (u64)((u64)r_w0 << 3ull));
    r_qw = ld64(r_8z);
    if (r_qw == 0ull) goto l_capnp_78;
    capnp_allocation_landing_follow_d7a666d2d35ab297(slot_1, slot_3, 0u, r_w0);
    st64(r_8z, 0ull);
    if (!(ld8(slot_1) == 1u)) goto l_capnp_78;
    capnp_allocation_zeroing_zero_target_d7a666d2d35ab297(slot_3, (slot_1 + 8));
    if (!((r_qw & 3ull) == 2ull)) goto l_capnp_78;
    capnp_allocation_zeroing_zero_far_pads_d7a666d2d35ab297(slot_3, r_qw);
l_capnp_78:;
    capnp_allocation_making_make_struct_list_d7a666d2d35ab297(slot_2, slot_3, 0u, r_w0, a_6, a_7, a_8);
    t_fj = ld64((slot_2 + 4));
    if (!(ld8(slot_2) == 0u)) goto l_arm_px;
    st32(a_3, ld32(r_zd));
    st32(a_9, (u32)(u64)(((u64)(t_fj >> 29ull) + 8ull) >> 3ull));
    common_hy = 0u;
    goto l_common_2g;
l_arm_px:;
    st32(a_3, ld32(r_zd));
    common_hy = (((t_fj & 0xff00000000ull) == 0ull) ? 1u : (((u32)(u64)(t_fj >> 32ull) & 255u) + 32u));
    goto l_common_2g;
}

/* capnp_allocation::making::make_struct_list::<#d7a666d2d35ab297> */
static void capnp_allocation_making_make_struct_list_d7a666d2d35ab297(u8 *a_1, u8 *a_2, u32 a_3, u32 a_4, u32 a_5, u16 a_6, u16 a_7)
{
    u32 r_cb;
    u32 r_ll;
    u8 *r_08;
    u32 r_e3;
    u32 r_da;
    u64 r_24;
    u64 r_z6;
    u8 *r_2b;
    u32 r_z3;
    u64 r_z6_1;
    u64 r_z6_2;
    u8 *r_2b_1;
    u64 r_13;
    u32 sink_iw;
    u64 r_7a;
    u64 sink_zn;
    r_cb = (((u32)a_7 + (u32)a_6) * a_5);
    r_ll = (r_cb + 1u);
    r_08 = away(a_2, 16ull);
    r_e3 = ld32(r_08);
    r_da = ((u32)umin64((u64)(ld64(away(a_2, 8ull)) >> 3ull), 0x1fffffffull) - r_e3);
    if (r_ll > r_da) goto l_arm_ky;
    r_24 = (u64)r_e3;
    r_z6 = (u64)((u64)r_ll << 3ull);
    r_2b = away(ldp(a_2), (u64)(r_24 << 3ull));
    if (r_ll < 8u) goto l_then_1k;
    memset_or_none(r_2b, 0u, r_z6);
    goto l_capnp_od;
l_then_1k:;
    if (!(r_ll > 3u)) goto l_else_b7;
    memset(r_2b, 0, 32);
    memset(away(away(r_2b, r_z6), 0xffffffffffffffe0ull), 0, 32);
    goto l_capnp_od;
l_else_b7:;
    if (!(r_ll > 1u)) goto l_else_em;
    memset(r_2b, 0, 16);
    memset(away(away(r_2b, r_z6), 0xfffffffffffffff0ull), 0, 16);
    goto l_capnp_od;
l_else_em:;
    if (r_ll == 0u) goto l_capnp_od;
    memset(r_2b, 0, 8);
    memset(away(away(r_2b, r_z6), 0xfffffffffffffff8ull), 0, 8);
l_capnp_od:;
    st32(r_08, (r_e3 + r_ll));
    st64((ldp(a_2) + (i64)((u64)((u64)a_4 << 3ull))), (((u64)((u64)r_cb << 35ull) | (u64)(u32)((r_e3 + (a_4 ^ 0xffffffffu)) << 2u)) | 0x700000001ull));
    r_13 = ((u64)(r_24 << 32ull) | (u64)a_3);
    goto l_arm_97;
l_arm_ky:;
    r_z3 = (r_cb + 2u);
    if (r_z3 > r_da) goto l_join_12;
    r_z6_1 = (u64)((u64)r_e3 << 3ull);
    r_z6_2 = (u64)((u64)r_z3 << 3ull);
    r_2b_1 = away(ldp(a_2), r_z6_1);
    if (r_z3 < 8u) goto l_then_1k_1;
    memset_or_none(r_2b_1, 0u, r_z6_2);
    goto l_capnp_22;
l_then_1k_1:;
    if (!(r_z3 > 3u)) goto l_else_ey;
    memset(r_2b_1, 0, 32);
    memset(away(away(r_2b_1, r_z6_2), 0xffffffffffffffe0ull), 0, 32);
    goto l_capnp_22;
l_else_ey:;
    if (!(r_cb < 0xfffffffeu)) goto l_else_em_1;
    memset(r_2b_1, 0, 16);
    memset(away(away(r_2b_1, r_z6_2), 0xfffffffffffffff0ull), 0, 16);
    goto l_capnp_22;
l_else_em_1:;
    if (r_z3 == 0u) goto l_capnp_22;
    memset(r_2b_1, 0, 8);
    memset(away(away(r_2b_1, r_z6_2), 0xfffffffffffffff8ull), 0, 8);
    goto l_capnp_22;
l_join_12:;
    if (!(r_z3 > 0x1fffffffu)) goto l_join_5h;
    sink_iw = 1u;
    r_7a = 0x1b00000000ull;
    sink_zn = (u64)r_z3;
    goto l_common_ak;
l_join_5h:;
    u8 *r_xz = away(a_2, 24ull);
    st64(r_xz, uadd_sat64(ld64(r_xz), 1ull));
    sink_iw = 1u;
    r_7a = 0ull;
    sink_zn = 0ull;
    goto l_common_ak;
l_capnp_22:;
    st32(r_08, (r_e3 + r_z3));
    st64((ldp(a_2) + (i64)(r_z6_1)), ((u64)((u64)r_cb << 35ull) | 0x700000001ull));
    st64((ldp(a_2) + (i64)((u64)((u64)a_4 << 3ull))), (r_z6_1 | 2ull));
    r_13 = (u64)((u64)(r_e3 + 1u) << 32ull);
l_arm_97:;
    st64((ldp(a_2) + (i64)(((u64)(r_13 >> 29ull) & 0x7fffffff8ull))), (((u64)((u64)a_7 << 48ull) | (u64)((u64)a_6 << 32ull)) | (u64)((u64)a_5 << 2ull)));
    sink_iw = 0u;
    r_7a = r_13;
    sink_zn = 0ull;
l_common_ak:;
    st32(a_1, sink_iw);
    st64(away(a_1, 4ull), r_7a);
    st32(away(a_1, 12ull), 0u);
    st64(away(a_1, 16ull), sink_zn);
    return;
}

/* typed_conforming::conforms::check_object::<#07dcb38b0fe92235> */
static NEVER u8 typed_conforming_conforms_check_object_07dcb38b0fe92235(u8 *a_1, u64 a_2, u8 *a_3, u8 *a_4, u32 a_5, u8 *a_6)
{
    A(8) u8 slot_1[56];
    A(4) u8 slot_2[16];
    A(8) u8 slot_3[64];
    u8 r_dh;
    u8 r_dd;
    u32 r_5k;
    u32 r_5k_1;
    u32 r_5k_2;
    u8 *r_xz;
    u64 r_52;
    u8 *r_xw;
    u64 r_38;
    u8 r_y8;
    u8 *r_rq;
    u8 *r_xw_1;
    u8 *r_08;
    u8 *r_r2;
    u32 r_e3;
    u8 *r_su;
    u64 r_7l;
    u64 r_gw;
    u64 r_qw;
    u64 t_al;
    u8 t_pa;
    u64 r_lc;
    u64 r_nb;
    u64 r_yz;
    u32 r_ag;
    u32 r_38_1;
    u64 r_7w;
    u64 r_un;
    u64 r_o2;
    u64 r_hq;
    u64 r_ep;
    u64 r_y6;
    u64 r_lc_1;
    u8 *r_t9;
    u64 r_52_1;
    u64 r_ep_1;
    u8 switch_wl;
    u64 r_ij;
    u64 r_c4;
    u64 r_24;
    u64 r_gw_1;
    u8 *r_t9_1;
    u64 r_52_2;
    u64 r_eh;
    u32 t_c8;
    u32 r_12;
    u32 r_az;
    u32 r_68;
    u64 r_c0;
    u8 *r_t9_2;
    u64 r_52_3;
    u32 r_12_1;
    u8 *r_t9_3;
    u64 r_52_4;
    u32 r_12_2;
    u8 *r_t9_4;
    u64 r_52_5;
    u32 r_12_3;
    u64 r_c6;
    u8 *r_t9_5;
    u64 r_52_6;
    u64 r_2g;
    u64 r_jg;
    u64 r_6e;
    u32 r_7k;
    u32 r_4n;
    u64 r_f7;
    u8 switch_vz;
    u8 r_a3;
    u32 r_ow;
    u32 r_hw;
    u64 r_yw;
    u64 r_ps;
    u8 *t_f6;
    u8 *t_f6_1;
    u64 r_24_1;
    u64 wide_es;
    u64 indvars_qd;
    u64 r_jd;
    u32 r_bj;
    u8 r_47;
    u8 r_c0_1;
    u8 r_la;
    u8 r_qf;
    u32 r_hk;
    u64 r_wj;
    u32 r_mx;
    u64 r_99;
    u32 r_lf;
    u64 r_g2;
    u32 r_xd;
    u8 r_x2;
    u32 r_5d;
    u32 r_j5;
    u32 r_rr;
    u32 r_hr;
    u8 r_dh_1;
    u32 r_mx_1;
    u8 *r_89;
    u8 *t_f6_2;
    u64 r_24_2;
    u8 *r_3s;
    u64 r_cz;
    u32 r_iz;
    u8 *r_fd;
    u64 r_1x;
    u32 narrow_68;
    u8 *r_x5;
    u8 *r_lk;
    u8 *r_nk;
    u8 *r_p9;
    u8 *r_ix;
    u8 *r_x5_1;
    u8 *r_k0;
    u8 *r_r2_2;
    u8 *r_t9_6;
    u8 *r_sl;
    u8 *r_e7;
    u8 *r_ud;
    u8 *r_ng;
    u8 *r_zh;
    u8 *r_z8;
    u8 *r_sd;
    u8 *r_x5_2;
    u8 *r_zd;
    u8 *r_lk_1;
    u8 *r_nk_1;
    u8 *r_x5_3;
    u8 *r_k0_1;
    u8 *r_zd_1;
    u8 *r_x5_4;
    u8 *r_zd_2;
    u8 *r_lk_2;
    u8 *r_nk_2;
    u64 wide_es_1;
    u64 r_gw_2;
    u8 t_pa_1;
    u64 r_nb_1;
    u8 r_n1;
    u8 t_0c;
    u64 r_nb_2;
    u8 r_n1_1;
    u8 t_pa_2;
    u64 r_nb_3;
    u8 r_n1_2;
    u32 r_w0;
    u32 r_w0_1;
    u32 r_w0_2;
    u64 indvars_vr;
    u32 t_nk;
    u32 r_sr;
    u64 r_24_3;
    u64 r_qw_3;
    u32 r_yf_1;
    u32 common_8i;
    u64 r_ep_2;
    u8 switch_wl_1;
    u8 t_8c;
    u64 r_ij_1;
    u64 r_c6_1;
    u64 r_lc_2;
    u64 r_y0;
    u64 r_52_9;
    u64 r_ij_2;
    u32 r_12_4;
    u64 r_c6_2;
    u64 r_lc_3;
    u64 r_5g;
    u32 r_4r;
    u8 r_8u;
    u64 r_52_10;
    u32 r_ry;
    u64 r_24_4;
    u64 r_gw_3;
    u64 indvars_qd_1;
    u32 switch_4w;
    u8 r_nu;
    u8 r_ol;
    u64 r_ij_3;
    u32 r_12_5;
    u64 r_c6_3;
    u64 r_lc_4;
    u64 r_5g_1;
    u32 r_4r_1;
    u8 r_8u_1;
    u64 r_52_11;
    u32 r_0n;
    u64 r_24_5;
    u64 r_gw_4;
    u64 indvars_qd_2;
    u8 r_bv;
    u8 r_w9;
    u32 r_sl_1;
    u64 r_ko;
    u32 r_8n;
    u8 r_p9_1;
    u8 r_8f;
    u32 r_73;
    u32 r_g6;
    u32 r_8q;
    u64 r_o5;
    u8 r_jm;
    u8 r_fk;
    r_dh = ld8(a_3);
    r_dd = ld8((a_3 + 1));
    r_5k = ld32((a_3 + 4));
    r_5k_1 = ld32((a_3 + 8));
    r_5k_2 = ld32((a_3 + 12));
    st64((slot_3 + 56), 0ull);
    r_xz = away(a_4, 24ull);
    r_52 = ld64(r_xz);
    r_xw = ldp(away(a_4, 32ull));
    r_38 = ld64(away(a_4, 40ull));
    r_y8 = ld8(a_4);
    r_rq = away(a_4, 8ull);
    r_xw_1 = ldp(r_rq);
    r_08 = away(a_4, 16ull);
    r_r2 = away(a_4, 56ull);
    r_e3 = ld32(r_r2);
    r_su = away(a_6, 40ull);
    r_7l = (u64)a_5;
    r_gw = (u64)(r_38 >> 3ull);
    if (!(r_gw > r_7l)) { r_7k = 0u; r_4n = 0u; r_f7 = 0ull; switch_vz = 0u; r_a3 = 0u; r_ow = 0u; r_hw = 0u; r_yw = 0ull; r_ps = 0ull; goto l_arm_1h; }
    r_qw = ld64(away(r_xw, (u64)(r_7l << 3ull)));
    if (r_qw == 0ull) { r_7k = 0u; r_4n = 0u; r_f7 = 0ull; switch_vz = 0u; r_a3 = 0u; r_ow = 0u; r_hw = 0u; r_yw = 0ull; r_ps = 0ull; goto l_arm_1h; }
    t_al = (u64)(uptr)r_xw;
    memset(slot_1, 0u, 56);
    t_pa = (r_y8 != 0u);
    if (t_pa) goto l_capnp_sm;
    u8 *r_r2_1 = away(a_6, 56ull);
    st64(r_r2_1, uadd_sat64(ld64(r_r2_1), 1ull));
    if ((r_qw & 3ull) == 2ull) goto l_capnp_74;
    goto l_join_bd;
l_capnp_sm:;
    if (!((r_qw & 3ull) == 2ull)) goto l_join_bd;
    st32((slot_1 + 8), 32u);
    r_2g = ld64((slot_1 + 8));
    goto l_capnp_8g;
l_join_bd:;
    u64 r_m6 = ((u64)(r_qw >> 2ull) & 0x3fffffffull);
    r_lc = ((r_7l + 1ull) + r_m6);
    r_nb = (r_gw & 0xffffffffull);
    if (!(r_m6 < 0x20000000ull)) goto l_else_70;
    if (r_lc > r_nb) { r_2g = 23ull; goto l_capnp_8g; }
    r_yz = r_lc;
    goto l_capnp_i5;
l_else_70:;
    u64 r_3o = (r_lc + 0xffffffffc0000000ull);
    if ((r_lc < 0x40000000ull) ? 1u : (r_3o > r_nb)) { r_2g = 23ull; goto l_capnp_8g; }
    r_yz = r_3o;
l_capnp_i5:;
    r_ag = 0u;
    r_38_1 = (u32)r_yz;
    r_7w = r_52;
    r_un = r_qw;
    r_o2 = r_38;
    r_hq = t_al;
    goto l_arm_gc;
l_capnp_74:;
    capnp_pointers_source_follow_far_07dcb38b0fe92235(slot_1, r_xw_1, r_qw, r_su);
    u64 r_38_2 = ld64((slot_1 + 16));
    u64 r_38_3 = ld64((slot_1 + 8));
    if (ld8(slot_1) == 0u) { r_ag = ld32((slot_1 + 44)); r_38_1 = ld32((slot_1 + 40)); r_7w = r_38_2; r_un = r_38_3; r_o2 = ld64((slot_1 + 32)); r_hq = ld64((slot_1 + 24)); goto l_arm_gc; }
    r_jg = r_38_2;
    r_6e = r_38_3;
    goto l_capnp_qu;
l_arm_gc:;
    switch ((u8)((u8)r_un & 3u)) {
    case 0u: goto l_arm_zd;
    case 1u: goto l_arm_z2;
    case 2u: { r_mx = 13u; r_99 = 0ull; r_lf = 0u; goto l_arm_am; }
    case 3u: goto l_capnp_32;
    default: goto l_default_e1;
    }
l_arm_zd:;
    r_ep = (u64)(r_un >> 32ull);
    r_y6 = (u64)(r_un >> 48ull);
    if ((i32)r_e3 < (i32)1u) { r_mx = 26u; r_99 = 0ull; r_lf = 0u; goto l_arm_am; }
    r_lc_1 = ((r_ep & 65535ull) + r_y6);
    if (((u64)(r_o2 >> 3ull) & 0xffffffffull) < (r_lc_1 + (u64)r_38_1)) { r_mx = 23u; r_99 = 0ull; r_lf = 0u; goto l_arm_am; }
    if (t_pa) goto l_arm_mf;
    if (!(ld8(r_su) == 1u)) goto l_arm_mf;
    r_t9 = away(a_6, 48ull);
    r_52_1 = ld64(r_t9);
    if (r_52_1 < r_lc_1) { r_mx = 30u; r_99 = 0ull; r_lf = 0u; goto l_arm_am; }
    st64(r_su, 1ull);
    st64(r_t9, (r_52_1 - r_lc_1));
l_arm_mf:;
    r_7k = 0u;
    r_4n = ((u32)((u32)r_y6 << 16u) | ((u32)r_ep & 65535u));
    r_f7 = r_7w;
    switch_vz = 1u;
    r_a3 = 2u;
    r_ow = r_ag;
    r_hw = r_38_1;
    r_yw = r_o2;
    r_ps = r_hq;
    goto l_arm_1h;
l_arm_z2:;
    r_ep_1 = (u64)(r_un >> 32ull);
    switch_wl = (u8)((u8)r_ep_1 & 7u);
    r_ij = (u64)(r_un >> 35ull);
    switch (switch_wl) {
    case 7u: goto l_arm_td;
    case 6u: goto l_arm_ff;
    case 0u: goto l_arm_ff_1;
    case 1u: goto l_arm_ff_2;
    case 2u: goto l_arm_ff_2;
    case 3u: goto l_arm_ff_2;
    case 4u: goto l_arm_ff_2;
    case 5u: goto l_arm_ff_2;
    default: goto l_default_e1;
    }
l_arm_td:;
    if ((i32)r_e3 < (i32)1u) { r_mx = 26u; r_99 = 0ull; r_lf = 0u; goto l_arm_am; }
    r_c4 = (r_ij + 1ull);
    r_24 = (u64)r_38_1;
    r_gw_1 = (u64)(r_o2 >> 3ull);
    if ((r_gw_1 & 0xffffffffull) < (r_c4 + r_24)) { r_mx = 23u; r_99 = 0ull; r_lf = 0u; goto l_arm_am; }
    if (t_pa) goto l_arm_ga;
    if (!(ld8(r_su) == 1u)) goto l_arm_ga;
    r_t9_1 = away(a_6, 48ull);
    r_52_2 = ld64(r_t9_1);
    if (!(r_52_2 > r_ij)) { r_mx = 30u; r_99 = 0ull; r_lf = 0u; goto l_arm_am; }
    st64(r_su, 1ull);
    st64(r_t9_1, (r_52_2 - r_c4));
l_arm_ga:;
    if (!(r_gw_1 > r_24)) { r_eh = 0ull; goto l_join_qm; }
    u64 r_qw_1 = ld64(away(((u8 *)(uptr)r_hq), (u64)(r_24 << 3ull)));
    if ((r_qw_1 & 3ull) == 0ull) { r_eh = r_qw_1; goto l_join_qm; }
    r_mx = 11u;
    r_99 = 0ull;
    r_lf = 0u;
    goto l_arm_am;
l_join_qm:;
    t_c8 = (u32)((u32)r_eh >> 2u);
    r_12 = (u32)(u64)(r_eh >> 48ull);
    r_az = ((u32)(u64)(r_eh >> 32ull) & 65535u);
    r_68 = (r_az + r_12);
    r_c0 = (u64)t_c8;
    if (r_ij < ((u64)r_68 * r_c0)) { r_mx = 10u; r_99 = 0ull; r_lf = 0u; goto l_arm_am; }
    if ((u8)((u8)t_pa | (u8)(r_68 != 0u))) goto l_arm_8v;
    if (!(ld8(r_su) == 1u)) goto l_arm_8v;
    r_t9_2 = away(a_6, 48ull);
    r_52_3 = ld64(r_t9_2);
    if (r_52_3 < r_c0) { r_mx = 30u; r_99 = 0ull; r_lf = 0u; goto l_arm_am; }
    st64(r_su, 1ull);
    st64(r_t9_2, (r_52_3 - r_c0));
l_arm_8v:;
    r_7k = t_c8;
    r_4n = ((u32)(r_12 << 16u) | r_az);
    r_f7 = r_7w;
    switch_vz = 1u;
    r_a3 = 5u;
    r_ow = 0u;
    r_hw = (r_38_1 + 1u);
    r_yw = r_o2;
    r_ps = r_hq;
    goto l_arm_1h;
l_arm_ff:;
    r_12_1 = (u32)r_ij;
    if ((i32)r_e3 < (i32)1u) { r_mx = 26u; r_99 = 0ull; r_lf = 0u; goto l_arm_am; }
    if (((u64)(r_o2 >> 3ull) & 0xffffffffull) < (r_ij + (u64)r_38_1)) { r_mx = 23u; r_99 = 0ull; r_lf = 0u; goto l_arm_am; }
    if (t_pa) { r_7k = 0u; r_4n = r_12_1; r_f7 = r_7w; switch_vz = 1u; r_a3 = 4u; r_ow = r_ag; r_hw = r_38_1; r_yw = r_o2; r_ps = r_hq; goto l_arm_1h; }
    if (!(ld8(r_su) == 1u)) { r_7k = 0u; r_4n = r_12_1; r_f7 = r_7w; switch_vz = 1u; r_a3 = 4u; r_ow = r_ag; r_hw = r_38_1; r_yw = r_o2; r_ps = r_hq; goto l_arm_1h; }
    r_t9_3 = away(a_6, 48ull);
    r_52_4 = ld64(r_t9_3);
    if (r_52_4 < r_ij) { r_mx = 30u; r_99 = 0ull; r_lf = 0u; goto l_arm_am; }
    st64(r_su, 1ull);
    st64(r_t9_3, (r_52_4 - r_ij));
    r_7k = 0u;
    r_4n = r_12_1;
    r_f7 = r_7w;
    switch_vz = 1u;
    r_a3 = 4u;
    r_ow = r_ag;
    r_hw = r_38_1;
    r_yw = r_o2;
    r_ps = r_hq;
    goto l_arm_1h;
l_arm_ff_1:;
    r_12_2 = (u32)r_ij;
    if ((i32)r_e3 < (i32)1u) { r_mx = 26u; r_99 = 0ull; r_lf = 0u; goto l_arm_am; }
    if (((u64)(r_o2 >> 3ull) & 0xffffffffull) < (u64)r_38_1) { r_mx = 23u; r_99 = 0ull; r_lf = 0u; goto l_arm_am; }
    if (t_pa) { r_7k = r_12_2; r_4n = 0u; r_f7 = r_7w; switch_vz = 1u; r_a3 = 3u; r_ow = r_ag; r_hw = r_38_1; r_yw = r_o2; r_ps = r_hq; goto l_arm_1h; }
    if (!(ld8(r_su) == 1u)) { r_7k = r_12_2; r_4n = 0u; r_f7 = r_7w; switch_vz = 1u; r_a3 = 3u; r_ow = r_ag; r_hw = r_38_1; r_yw = r_o2; r_ps = r_hq; goto l_arm_1h; }
    st64(r_su, 1ull);
    r_t9_4 = away(a_6, 48ull);
    r_52_5 = ld64(r_t9_4);
    if (r_52_5 < r_ij) { r_mx = 30u; r_99 = 0ull; r_lf = 0u; goto l_arm_am; }
    st64(r_t9_4, (r_52_5 - r_ij));
    r_7k = r_12_2;
    r_4n = 0u;
    r_f7 = r_7w;
    switch_vz = 1u;
    r_a3 = 3u;
    r_ow = r_ag;
    r_hw = r_38_1;
    r_yw = r_o2;
    r_ps = r_hq;
    goto l_arm_1h;
l_arm_ff_2:;
    r_12_3 = (u32)r_ij;
    if ((i32)r_e3 < (i32)1u) { r_mx = 26u; r_99 = 0ull; r_lf = 0u; goto l_arm_am; }
    r_c6 = (u64)(((ld64(away(away(((u8 *)switch_table_capnp_pointers_pointers_validate_validate_f7685ec9), 8 * (r_ep_1 & 7ull)), 0xfffffffffffffff8ull)) * r_ij) + 63ull) >> 6ull);
    if (((u64)(r_o2 >> 3ull) & 0xffffffffull) < (r_c6 + (u64)r_38_1)) { r_mx = 23u; r_99 = 0ull; r_lf = 0u; goto l_arm_am; }
    if (t_pa) goto l_arm_eq;
    if (!(ld8(r_su) == 1u)) goto l_arm_eq;
    r_t9_5 = away(a_6, 48ull);
    r_52_6 = ld64(r_t9_5);
    if (r_52_6 < r_c6) { r_mx = 30u; r_99 = 0ull; r_lf = 0u; goto l_arm_am; }
    st64(r_su, 1ull);
    st64(r_t9_5, (r_52_6 - r_c6));
l_arm_eq:;
    r_7k = r_12_3;
    r_4n = (u32)switch_wl;
    r_f7 = r_7w;
    switch_vz = 1u;
    r_a3 = 3u;
    r_ow = r_ag;
    r_hw = r_38_1;
    r_yw = r_o2;
    r_ps = r_hq;
    goto l_arm_1h;
l_default_e1:;
    UNREACHABLE();
l_capnp_8g:;
    r_jg = 0ull;
    r_6e = r_2g;
l_capnp_qu:;
    r_mx = ((u32)r_6e & 255u);
    r_99 = r_jg;
    r_lf = (u32)(u64)(r_6e >> 32ull);
    goto l_arm_am;
l_capnp_32:;
    u8 r_e6 = ((r_un & 0xffffffffull) == 3ull);
    if (r_e6) { r_7k = 0u; r_4n = 0u; r_f7 = 0ull; switch_vz = 0u; r_a3 = 1u; r_ow = 0u; r_hw = 0u; r_yw = 0ull; r_ps = 0ull; goto l_arm_1h; }
    r_mx = (r_e6 ? 1u : 34u);
    r_99 = 0ull;
    r_lf = 0u;
    goto l_arm_am;
l_arm_1h:;
    switch (r_dh) {
    case 0u: goto l_join_xx;
    case 2u: goto l_arm_y7;
    case 3u: goto l_arm_y7_1;
    case 4u: goto l_arm_r1;
    case 7u: goto l_arm_cz;
    case 1u: goto l_arm_lh;
    case 5u: goto l_arm_t4;
    case 6u: goto l_arm_ha;
    default: goto l_noarm_e1;
    }
l_arm_y7:;
    t_f6 = ((u8 *)(uptr)r_ps);
    switch (r_a3) {
    case 0u: { r_fk = r_a3; goto l_return_ri; }
    case 3u: goto l_arm_cq;
    case 4u: goto l_after_m6;
    case 5u: goto l_after_m6;
    case 1u: { r_g2 = 0ull; r_xd = 0u; r_x2 = 20u; goto l_arm_b3; }
    case 2u: { r_g2 = 0ull; r_xd = 0u; r_x2 = 20u; goto l_arm_b3; }
    default: goto l_noarm_e1_1;
    }
l_arm_cq:;
    if (!((r_4n & 255u) == 2u)) goto l_after_m6;
    if (r_7k == 0u) { r_g2 = 0ull; r_xd = 0u; r_x2 = 24u; goto l_arm_b3; }
    u64 r_es = (u64)(r_7k + 0xffffffffu);
    u8 r_pa = ((ld64(away(t_f6, (((u64)((u64)r_hw << 3ull) + r_es) & 0xffffffff8ull))) & (u64)(255ull << (((u64)(r_es << 3ull) & 56ull) & 63u))) != 0ull);
    r_la = r_pa;
    r_qf = (r_pa ? 24u : 0u);
    r_hk = 0u;
    r_wj = 0ull;
    goto l_typed_i0;
l_after_m6:;
    r_g2 = 0ull;
    r_xd = 0u;
    r_x2 = 15u;
    goto l_arm_b3;
l_noarm_e1_1:;
    UNREACHABLE();
l_arm_y7_1:;
    t_f6_1 = ((u8 *)(uptr)r_ps);
    switch (r_a3) {
    case 0u: { r_fk = r_a3; goto l_return_ri; }
    case 3u: goto l_arm_cq_1;
    case 4u: goto l_after_m6_1;
    case 5u: goto l_after_m6_1;
    case 1u: { r_g2 = 0ull; r_xd = 0u; r_x2 = 20u; goto l_arm_b3; }
    case 2u: { r_g2 = 0ull; r_xd = 0u; r_x2 = 20u; goto l_arm_b3; }
    default: goto l_noarm_e1_2;
    }
l_arm_cq_1:;
    if (!((r_4n & 255u) == 2u)) goto l_after_m6_1;
    if (r_7k == 0u) { r_g2 = 0ull; r_xd = 0u; r_x2 = 24u; goto l_arm_b3; }
    u64 r_es_1 = (u64)(r_7k + 0xffffffffu);
    r_24_1 = (u64)r_hw;
    if ((ld64(away(t_f6_1, (((u64)(r_24_1 << 3ull) + r_es_1) & 0xffffffff8ull))) & (u64)(255ull << (((u64)(r_es_1 << 3ull) & 56ull) & 63u))) == 0ull) goto l_join_zu;
    r_g2 = 0ull;
    r_xd = 0u;
    r_x2 = 24u;
    goto l_arm_b3;
l_after_m6_1:;
    r_g2 = 0ull;
    r_xd = 0u;
    r_x2 = 15u;
    goto l_arm_b3;
l_noarm_e1_2:;
    UNREACHABLE();
l_join_zu:;
    wide_es = (u64)(u32)((r_7k + 7u) >> 3u);
    indvars_qd = 0ull;
    goto l_join_aa;
l_loop_qu:;
    u64 indvars_r7 = (indvars_qd + 1ull);
    if (!(indvars_r7 == wide_es)) { indvars_qd = indvars_r7; goto l_join_aa; }
    goto l_join_xx;
l_join_aa:;
    if ((ld64(away(t_f6_1, (u64)((indvars_qd + r_24_1) << 3ull))) & 0x8080808080808080ull) == 0ull) goto l_loop_qu;
    st64(slot_1, r_f7);
    stp((slot_1 + 8), t_f6_1);
    st64((slot_1 + 16), r_yw);
    st32((slot_1 + 24), r_hw);
    st32((slot_1 + 28), r_ow);
    u8 r_ik = typed_conforming_conforms_is_utf8_by_bytes(slot_1, r_7k);
    r_la = (u8)((u8)r_ik ^ (u8)1u);
    r_qf = (r_ik ? 0u : 4u);
    r_hk = 0u;
    r_wj = 0ull;
    goto l_typed_i0;
l_arm_r1:;
    switch (r_a3) {
    case 0u: { r_fk = r_a3; goto l_return_ri; }
    case 3u: goto l_arm_k5;
    case 4u: goto l_after_m6_2;
    case 5u: goto l_after_m6_2;
    case 1u: { r_g2 = 0ull; r_xd = 0u; r_x2 = 18u; goto l_arm_b3; }
    case 2u: { r_g2 = 0ull; r_xd = 0u; r_x2 = 18u; goto l_arm_b3; }
    default: goto l_noarm_e1_3;
    }
l_arm_k5:;
    if ((r_4n & 255u) == 2u) { r_fk = 0u; goto l_return_ri; }
l_after_m6_2:;
    r_g2 = 0ull;
    r_xd = 0u;
    r_x2 = 14u;
    goto l_arm_b3;
l_noarm_e1_3:;
    UNREACHABLE();
l_arm_cz:;
    memset(slot_1, 0u, 24);
    switch (r_a3) {
    case 0u: { r_jd = 0ull; r_bj = 0u; r_47 = r_a3; r_c0_1 = 0u; goto l_typed_bq; }
    case 3u: goto l_arm_wh;
    case 4u: goto l_arm_rf;
    case 5u: goto l_arm_u0;
    case 1u: goto l_arm_r0;
    case 2u: goto l_arm_r0;
    default: goto l_noarm_e1_4;
    }
l_arm_wh:;
    typed_conforming_conforms_narrow_elements_error(slot_1, r_dd, (u8)r_4n);
    r_jd = ld64((slot_1 + 16));
    r_bj = ld32((slot_1 + 12));
    r_47 = ld8((slot_1 + 8));
    r_c0_1 = (ld8(slot_1) == 1u);
    goto l_typed_bq;
l_arm_rf:;
    u8 switch_2z = ((u8)(r_dd + 255u) < 5u);
    r_jd = 0ull;
    r_bj = 0u;
    r_47 = (switch_2z ? 16u : 0u);
    r_c0_1 = switch_2z;
    goto l_typed_bq;
l_arm_u0:;
    switch (r_dd) {
    case 0u: { r_jd = 0ull; r_bj = 0u; r_47 = 0u; r_c0_1 = 0u; goto l_typed_bq; }
    case 7u: { r_jd = 0ull; r_bj = 0u; r_47 = 0u; r_c0_1 = 0u; goto l_typed_bq; }
    case 1u: goto l_arm_r0_1;
    case 6u: goto l_arm_s9;
    case 2u: goto l_arm_d9;
    case 3u: goto l_arm_d9;
    case 4u: goto l_arm_d9;
    case 5u: goto l_arm_d9;
    default: goto l_noarm_e1_5;
    }
l_arm_r0_1:;
    r_jd = 0ull;
    r_bj = 0u;
    r_47 = 9u;
    r_c0_1 = 1u;
    goto l_typed_bq;
l_arm_s9:;
    u8 r_dt = (r_4n < 0x10000u);
    r_jd = 0ull;
    r_bj = 0u;
    r_47 = (r_dt ? 6u : 0u);
    r_c0_1 = r_dt;
    goto l_typed_bq;
l_arm_d9:;
    u8 r_ed = ((r_4n & 65535u) == 0u);
    r_jd = 0ull;
    r_bj = 0u;
    r_47 = (r_ed ? 7u : 0u);
    r_c0_1 = r_ed;
    goto l_typed_bq;
l_noarm_e1_5:;
    UNREACHABLE();
l_arm_r0:;
    r_jd = 0ull;
    r_bj = 0u;
    r_47 = 19u;
    r_c0_1 = 1u;
    goto l_typed_bq;
l_noarm_e1_4:;
    UNREACHABLE();
l_typed_bq:;
    r_la = r_c0_1;
    r_qf = r_47;
    r_hk = r_bj;
    r_wj = r_jd;
    goto l_typed_i0;
l_arm_lh:;
    r_la = switch_vz;
    r_qf = (switch_vz ? 17u : 0u);
    r_hk = 0u;
    r_wj = 0ull;
    goto l_typed_i0;
l_arm_t4:;
    switch (r_a3) {
    case 0u: goto l_join_xx;
    case 2u: goto l_join_xx;
    case 1u: { r_g2 = 0ull; r_xd = 0u; r_x2 = 21u; goto l_arm_b3; }
    case 3u: { r_g2 = 0ull; r_xd = 0u; r_x2 = 21u; goto l_arm_b3; }
    case 4u: { r_g2 = 0ull; r_xd = 0u; r_x2 = 21u; goto l_arm_b3; }
    case 5u: { r_g2 = 0ull; r_xd = 0u; r_x2 = 21u; goto l_arm_b3; }
    default: goto l_noarm_e1;
    }
l_arm_ha:;
    u8 switch_rj = ((u8)(r_a3 + 255u) < 2u);
    r_la = switch_rj;
    r_qf = (switch_rj ? 19u : 0u);
    r_hk = 0u;
    r_wj = 0ull;
    goto l_typed_i0;
l_noarm_e1:;
    UNREACHABLE();
l_typed_i0:;
    if (r_la) { r_g2 = r_wj; r_xd = r_hk; r_x2 = r_qf; goto l_arm_b3; }
    goto l_join_xx;
l_arm_am:;
    u64 r_52_7 = ld64(r_xz);
    st32(a_6, r_mx);
    st32((a_6 + 4), r_lf);
    st64((a_6 + 8), r_99);
    st64((a_6 + 16), r_52_7);
    st32((a_6 + 24), a_5);
    st32((a_6 + 28), r_5k_1);
    st32((a_6 + 32), r_5k_2);
    st32((a_6 + 36), 0u);
    r_fk = 1u;
    goto l_return_ri;
l_arm_b3:;
    u64 r_52_8 = ld64(r_xz);
    st32(a_6, (u32)r_x2);
    st32((a_6 + 4), r_xd);
    st64((a_6 + 8), r_g2);
    st64((a_6 + 16), r_52_8);
    st32((a_6 + 24), a_5);
    st32((a_6 + 28), r_5k_1);
    st32((a_6 + 32), r_5k_2);
    st32((a_6 + 36), 0u);
    r_fk = 1u;
    goto l_return_ri;
l_join_xx:;
    r_5d = (u32)(r_4n >> 16u);
    switch (r_a3) {
    case 0u: { r_fk = 0u; goto l_return_ri; }
    case 1u: { r_fk = 0u; goto l_return_ri; }
    case 3u: { r_fk = 0u; goto l_return_ri; }
    case 2u: goto l_arm_si;
    case 4u: { r_j5 = 0u; r_rr = 1u; r_hr = r_4n; goto l_arm_t1; }
    case 5u: goto l_arm_si_1;
    default: goto l_noarm_e1_6;
    }
l_arm_si:;
    r_j5 = (r_4n & 65535u);
    r_rr = r_5d;
    r_hr = 1u;
    goto l_arm_t1;
l_arm_si_1:;
    r_j5 = (r_4n & 65535u);
    r_rr = r_5d;
    r_hr = r_7k;
    goto l_arm_t1;
l_noarm_e1_6:;
    UNREACHABLE();
l_arm_t1:;
    r_dh_1 = ld8(a_4);
    u32 r_yf = ld32(r_r2);
    r_mx_1 = ((r_yf == 0x80000000u) ? 0x80000000u : (r_yf + 0xffffffffu));
    u8 *r_rv = ldp(r_rq);
    u64 r_qw_2 = ld64(r_08);
    st64(slot_3, (u64)r_dh_1);
    stp((slot_3 + 8), r_rv);
    st64((slot_3 + 16), r_qw_2);
    st64((slot_3 + 24), r_f7);
    r_89 = (slot_3 + 32);
    st64(r_89, r_ps);
    st64((slot_3 + 40), r_yw);
    st32((slot_3 + 48), r_hw);
    st32((slot_3 + 52), r_ow);
    st32((slot_3 + 56), r_mx_1);
    t_f6_2 = ((u8 *)(uptr)r_ps);
    switch (r_dh) {
    case 5u: goto l_after_pt;
    case 7u: goto l_after_pt;
    case 0u: { r_3s = ((u8 *)g_static_6); r_cz = 0ull; r_iz = 0u; r_fd = ((u8 *)g_static_6); r_1x = 0ull; goto l_typed_1x; }
    case 1u: { r_3s = ((u8 *)g_static_6); r_cz = 0ull; r_iz = 0u; r_fd = ((u8 *)g_static_6); r_1x = 0ull; goto l_typed_1x; }
    case 2u: { r_3s = ((u8 *)g_static_6); r_cz = 0ull; r_iz = 0u; r_fd = ((u8 *)g_static_6); r_1x = 0ull; goto l_typed_1x; }
    case 3u: { r_3s = ((u8 *)g_static_6); r_cz = 0ull; r_iz = 0u; r_fd = ((u8 *)g_static_6); r_1x = 0ull; goto l_typed_1x; }
    case 4u: { r_3s = ((u8 *)g_static_6); r_cz = 0ull; r_iz = 0u; r_fd = ((u8 *)g_static_6); r_1x = 0ull; goto l_typed_1x; }
    case 6u: { r_3s = ((u8 *)g_static_6); r_cz = 0ull; r_iz = 0u; r_fd = ((u8 *)g_static_6); r_1x = 0ull; goto l_typed_1x; }
    default: goto l_noarm_e1_7;
    }
l_after_pt:;
    r_24_2 = (u64)r_5k;
    if (!(a_2 > r_24_2)) { r_3s = a_1; r_cz = a_2; r_iz = r_5k; r_fd = ((u8 *)g_static_6); r_1x = 0ull; goto l_typed_1x; }
    u64 r_c4_1 = (r_24_2 + 1ull);
    r_3s = a_1;
    r_cz = a_2;
    r_iz = r_5k;
    r_fd = away(a_1, (u64)(r_c4_1 << 2ull));
    r_1x = umin64((u64)ld32((a_1 + (i64)((u64)(r_24_2 << 2ull)))), (a_2 - r_c4_1));
    goto l_typed_1x;
l_noarm_e1_7:;
    UNREACHABLE();
l_typed_1x:;
    if (r_rr == 0u) { r_fk = 0u; goto l_return_ri; }
    narrow_68 = (r_rr + r_j5);
    if (r_hr == 0u) { r_fk = 0u; goto l_return_ri; }
    r_x5 = (slot_1 + 8);
    r_lk = (slot_1 + 24);
    r_nk = (slot_1 + 28);
    r_p9 = (slot_2 + 1);
    r_ix = (slot_2 + 4);
    r_x5_1 = (slot_2 + 8);
    r_k0 = (slot_2 + 12);
    r_r2_2 = away(a_6, 56ull);
    r_t9_6 = away(a_6, 48ull);
    r_sl = (a_6 + 4);
    r_e7 = (a_6 + 8);
    r_ud = (a_6 + 16);
    r_ng = (a_6 + 24);
    r_zh = (a_6 + 28);
    r_z8 = (a_6 + 32);
    r_sd = (a_6 + 36);
    r_x5_2 = (slot_1 + 8);
    r_zd = (slot_1 + 16);
    r_lk_1 = (slot_1 + 24);
    r_nk_1 = (slot_1 + 28);
    r_x5_3 = (slot_1 + 8);
    r_k0_1 = (slot_1 + 12);
    r_zd_1 = (slot_1 + 16);
    r_x5_4 = (slot_1 + 8);
    r_zd_2 = (slot_1 + 16);
    r_lk_2 = (slot_1 + 24);
    r_nk_2 = (slot_1 + 28);
    wide_es_1 = (u64)r_rr;
    r_gw_2 = (u64)(r_yw >> 3ull);
    t_pa_1 = (r_dh_1 != 0u);
    r_nb_1 = (r_gw_2 & 0xffffffffull);
    r_n1 = ((i32)r_mx_1 < (i32)1u);
    t_0c = (r_dh_1 == 0u);
    r_nb_2 = (r_gw_2 & 0xffffffffull);
    r_n1_1 = ((i32)r_mx_1 < (i32)1u);
    t_pa_2 = (r_dh_1 != 0u);
    r_nb_3 = (r_gw_2 & 0xffffffffull);
    r_n1_2 = ((i32)r_mx_1 < (i32)1u);
    r_w0 = 0u;
l_join_u5:;
    r_w0_1 = (r_hw + (r_w0 * narrow_68));
    r_w0_2 = (r_w0_1 + r_j5);
    indvars_vr = 0ull;
    goto l_join_je;
l_loop_c4:;
    u64 indvars_r7_1 = (indvars_vr + 1ull);
    if (indvars_r7_1 == wide_es_1) goto l_join_ki;
    indvars_vr = indvars_r7_1;
l_join_je:;
    st32(slot_2, 0u);
    t_nk = (u32)indvars_vr;
    r_sr = (r_w0_2 + t_nk);
    r_24_3 = (u64)r_sr;
    if (!(r_gw_2 > r_24_3)) goto l_typed_kc;
    r_qw_3 = ld64(away(t_f6_2, (u64)(r_24_3 << 3ull)));
    if (r_qw_3 == 0ull) goto l_typed_kc;
    if (!(r_1x > indvars_vr)) { common_8i = 0u; goto l_typed_dt; }
    r_yf_1 = ld32((r_fd + (i64)((u64)(indvars_vr << 2ull))));
    if (!((r_yf_1 & 15u) == 7u)) { common_8i = r_yf_1; goto l_typed_dt; }
    st64(slot_1, r_f7);
    mv16(r_x5, r_89);
    st32(r_lk, r_w0_1);
    st32(r_nk, 0u);
    u32 r_n1_3 = typed_conforming_table_tested_word(r_3s, r_cz, r_yf_1, slot_1, r_j5);
    common_8i = r_n1_3;
l_typed_dt:;
    if (!((r_qw_3 & 3ull) == 1ull)) goto l_after_xg;
    r_ep_2 = (u64)(r_qw_3 >> 32ull);
    switch_wl_1 = (u8)((u8)r_ep_2 & 7u);
    if (!((u8)(switch_wl_1 + 255u) < 5u)) goto l_after_xg;
    t_8c = (switch_wl_1 != 2u);
    if (t_8c) goto l_after_3v;
    switch (common_8i) {
    case 2u: goto l_then_hu;
    case 3u: goto l_then_9h;
    default: goto l_after_3v;
    }
l_then_hu:;
    r_ij_1 = (u64)(r_qw_3 >> 35ull);
    r_c6_1 = (u64)(((u64)(r_ij_1 << 3ull) + 63ull) >> 6ull);
    if (!t_0c) goto l_join_bd_1;
    st64(r_r2_2, uadd_sat64(ld64(r_r2_2), 1ull));
l_join_bd_1:;
    u64 r_m6_1 = ((u64)(r_qw_3 >> 2ull) & 0x3fffffffull);
    r_lc_2 = ((r_24_3 + 1ull) + r_m6_1);
    if (!(r_m6_1 < 0x20000000ull)) goto l_else_70_1;
    if (r_lc_2 > r_nb_2) { r_g6 = 23u; r_8q = 0u; r_o5 = 0ull; goto l_typed_8l; }
    r_y0 = r_lc_2;
    goto l_arm_2y;
l_else_70_1:;
    u64 r_3o_1 = (r_lc_2 + 0xffffffffc0000000ull);
    if ((r_lc_2 < 0x40000000ull) ? 1u : (r_3o_1 > r_nb_2)) { r_g6 = 23u; r_8q = 0u; r_o5 = 0ull; goto l_typed_8l; }
    r_y0 = r_3o_1;
l_arm_2y:;
    if (r_n1_1) { r_g6 = 26u; r_8q = 0u; r_o5 = 0ull; goto l_typed_8l; }
    if (r_nb_2 < (r_y0 + r_c6_1)) { r_g6 = 23u; r_8q = 0u; r_o5 = 0ull; goto l_typed_8l; }
    if (!t_0c) goto l_arm_b5;
    if (!(ld8(r_su) == 1u)) goto l_arm_b5;
    r_52_9 = ld64(r_t9_6);
    if (r_52_9 < r_c6_1) { r_g6 = 30u; r_8q = 0u; r_o5 = 0ull; goto l_typed_8l; }
    st64(r_su, 1ull);
    st64(r_t9_6, (r_52_9 - r_c6_1));
l_arm_b5:;
    if (r_ij_1 == 0ull) { r_g6 = 24u; r_8q = 0u; r_o5 = 0ull; goto l_typed_8l; }
    u64 r_19 = (r_ij_1 + 0xffffffffull);
    if ((ld64(away(t_f6_2, ((((u64)(r_y0 << 3ull) & 0x7fffffff8ull) + (r_19 & 0xffffffffull)) & 0xffffffff8ull))) & (u64)(255ull << (((u64)(r_19 << 3ull) & 56ull) & 63u))) == 0ull) goto l_typed_kc;
    r_g6 = 24u;
    r_8q = 0u;
    r_o5 = 0ull;
    goto l_typed_8l;
l_then_9h:;
    r_ij_2 = (u64)(r_qw_3 >> 35ull);
    r_12_4 = (u32)r_ij_2;
    r_c6_2 = (u64)(((u64)(r_ij_2 << 3ull) + 63ull) >> 6ull);
    if (t_pa_1) goto l_join_bd_2;
    st64(r_r2_2, uadd_sat64(ld64(r_r2_2), 1ull));
l_join_bd_2:;
    u64 r_m6_2 = ((u64)(r_qw_3 >> 2ull) & 0x3fffffffull);
    r_lc_3 = ((r_24_3 + 1ull) + r_m6_2);
    if (!(r_m6_2 < 0x20000000ull)) goto l_else_70_2;
    if (r_lc_3 > r_nb_1) { r_g6 = 23u; r_8q = 0u; r_o5 = 0ull; goto l_typed_8l; }
    r_5g = r_lc_3;
    goto l_arm_mu;
l_else_70_2:;
    u64 r_3o_2 = (r_lc_3 + 0xffffffffc0000000ull);
    if ((r_lc_3 < 0x40000000ull) ? 1u : (r_3o_2 > r_nb_1)) { r_g6 = 23u; r_8q = 0u; r_o5 = 0ull; goto l_typed_8l; }
    r_5g = r_3o_2;
l_arm_mu:;
    r_4r = (u32)r_5g;
    if (r_n1) { r_g6 = 26u; r_8q = 0u; r_o5 = 0ull; goto l_typed_8l; }
    r_8u = (r_nb_1 < (r_5g + r_c6_2));
    if ((u8)((u8)t_pa_1 | (u8)r_8u)) goto l_capnp_ar;
    if (!(ld8(r_su) == 1u)) { r_ry = r_4r; goto l_arm_b5_1; }
    r_52_10 = ld64(r_t9_6);
    if (r_52_10 < r_c6_2) { r_g6 = 30u; r_8q = 0u; r_o5 = 0ull; goto l_typed_8l; }
    st64(r_su, 1ull);
    st64(r_t9_6, (r_52_10 - r_c6_2));
    r_ry = r_4r;
    goto l_arm_b5_1;
l_capnp_ar:;
    if (r_8u) { r_g6 = 23u; r_8q = 0u; r_o5 = 0ull; goto l_typed_8l; }
    r_ry = (r_8u ? 0u : r_4r);
l_arm_b5_1:;
    if (r_ij_2 == 0ull) { r_g6 = 24u; r_8q = 0u; r_o5 = 0ull; goto l_typed_8l; }
    u64 r_19_1 = (r_ij_2 + 0xffffffffull);
    r_24_4 = (u64)r_ry;
    if (!((ld64(away(t_f6_2, (((u64)(r_24_4 << 3ull) + (r_19_1 & 0xffffffffull)) & 0xffffffff8ull))) & (u64)(255ull << (((u64)(r_19_1 << 3ull) & 56ull) & 63u))) == 0ull)) { r_g6 = 24u; r_8q = 0u; r_o5 = 0ull; goto l_typed_8l; }
    r_gw_3 = (u64)((r_ij_2 + 7ull) >> 3ull);
    indvars_qd_1 = 0ull;
    goto l_join_aa_1;
l_loop_ob:;
    u64 indvars_r7_2 = (indvars_qd_1 + 1ull);
    if (!(indvars_r7_2 == r_gw_3)) { indvars_qd_1 = indvars_r7_2; goto l_join_aa_1; }
    goto l_typed_kc;
l_join_aa_1:;
    if ((ld64(away(t_f6_2, (u64)((indvars_qd_1 + r_24_4) << 3ull))) & 0x8080808080808080ull) == 0ull) goto l_loop_ob;
    st64(slot_1, r_f7);
    stp(r_x5_2, t_f6_2);
    st64(r_zd, r_yw);
    st32(r_lk_1, r_ry);
    st32(r_nk_1, 0u);
    u8 r_ik_1 = typed_conforming_conforms_is_utf8_by_bytes(slot_1, r_12_4);
    if (r_ik_1) goto l_typed_kc;
    r_g6 = 4u;
    r_8q = 0u;
    r_o5 = 0ull;
    goto l_typed_8l;
l_after_3v:;
    switch_4w = ((common_8i & 15u) + 0xffffffffu);
    if (!(switch_4w < 15u)) { r_nu = 0u; r_ol = 0u; goto l_typed_qq; }
    r_nu = ld8((((u8 *)switch_table_typed_conforming_conforms_check_object_07_c60b4b8c) + (i64)((u64)switch_4w)));
    r_ol = ld8((((u8 *)switch_table_typed_conforming_conforms_check_object_07_7954c1fd) + (i64)((u64)switch_4w)));
l_typed_qq:;
    r_ij_3 = (u64)(r_qw_3 >> 35ull);
    r_12_5 = (u32)r_ij_3;
    r_c6_3 = (u64)(((ld64(away(away(((u8 *)switch_table_capnp_pointers_pointers_validate_validate_f7685ec9), 8 * (r_ep_2 & 7ull)), 0xfffffffffffffff8ull)) * r_ij_3) + 63ull) >> 6ull);
    if (t_pa_2) goto l_join_bd_3;
    st64(r_r2_2, uadd_sat64(ld64(r_r2_2), 1ull));
l_join_bd_3:;
    u64 r_m6_3 = ((u64)(r_qw_3 >> 2ull) & 0x3fffffffull);
    r_lc_4 = ((r_24_3 + 1ull) + r_m6_3);
    if (!(r_m6_3 < 0x20000000ull)) goto l_else_70_3;
    if (r_lc_4 > r_nb_3) { r_g6 = 23u; r_8q = 0u; r_o5 = 0ull; goto l_typed_8l; }
    r_5g_1 = r_lc_4;
    goto l_arm_mu_1;
l_else_70_3:;
    u64 r_3o_3 = (r_lc_4 + 0xffffffffc0000000ull);
    if ((r_lc_4 < 0x40000000ull) ? 1u : (r_3o_3 > r_nb_3)) { r_g6 = 23u; r_8q = 0u; r_o5 = 0ull; goto l_typed_8l; }
    r_5g_1 = r_3o_3;
l_arm_mu_1:;
    r_4r_1 = (u32)r_5g_1;
    if (r_n1_2) { r_g6 = 26u; r_8q = 0u; r_o5 = 0ull; goto l_typed_8l; }
    r_8u_1 = (r_nb_3 < (r_5g_1 + r_c6_3));
    if ((u8)((u8)t_pa_2 | (u8)r_8u_1)) goto l_capnp_ar_1;
    if (!(ld8(r_su) == 1u)) { r_0n = r_4r_1; goto l_arm_g5; }
    r_52_11 = ld64(r_t9_6);
    if (r_52_11 < r_c6_3) { r_g6 = 30u; r_8q = 0u; r_o5 = 0ull; goto l_typed_8l; }
    st64(r_su, 1ull);
    st64(r_t9_6, (r_52_11 - r_c6_3));
    r_0n = r_4r_1;
    goto l_arm_g5;
l_capnp_ar_1:;
    if (r_8u_1) { r_g6 = 23u; r_8q = 0u; r_o5 = 0ull; goto l_typed_8l; }
    r_0n = (r_8u_1 ? 0u : r_4r_1);
l_arm_g5:;
    switch (r_nu) {
    case 0u: goto l_typed_kc;
    case 2u: goto l_arm_eu;
    case 3u: goto l_arm_eu_1;
    case 4u: goto l_arm_u7;
    case 7u: goto l_typed_a3;
    case 1u: goto l_typed_r0;
    case 5u: { r_g6 = 21u; r_8q = 0u; r_o5 = 0ull; goto l_typed_8l; }
    case 6u: goto l_typed_kc;
    default: goto l_default_e1;
    }
l_arm_eu:;
    if (t_8c) { r_g6 = 15u; r_8q = 0u; r_o5 = 0ull; goto l_typed_8l; }
    if (r_ij_3 == 0ull) { r_g6 = 24u; r_8q = 0u; r_o5 = 0ull; goto l_typed_8l; }
    u64 r_19_2 = (r_ij_3 + 0xffffffffull);
    u8 r_pa_1 = ((ld64(away(t_f6_2, (((u64)((u64)r_0n << 3ull) + (r_19_2 & 0xffffffffull)) & 0xffffffff8ull))) & (u64)(255ull << (((u64)(r_19_2 << 3ull) & 56ull) & 63u))) != 0ull);
    r_bv = (u8)r_pa_1;
    r_w9 = (r_pa_1 ? 24u : 0u);
    r_sl_1 = 0u;
    r_ko = 0ull;
    goto l_typed_gu;
l_arm_eu_1:;
    if (t_8c) { r_g6 = 15u; r_8q = 0u; r_o5 = 0ull; goto l_typed_8l; }
    if (r_ij_3 == 0ull) { r_g6 = 24u; r_8q = 0u; r_o5 = 0ull; goto l_typed_8l; }
    u64 r_19_3 = (r_ij_3 + 0xffffffffull);
    r_24_5 = (u64)r_0n;
    if (!((ld64(away(t_f6_2, (((u64)(r_24_5 << 3ull) + (r_19_3 & 0xffffffffull)) & 0xffffffff8ull))) & (u64)(255ull << (((u64)(r_19_3 << 3ull) & 56ull) & 63u))) == 0ull)) { r_g6 = 24u; r_8q = 0u; r_o5 = 0ull; goto l_typed_8l; }
    r_gw_4 = (u64)((r_ij_3 + 7ull) >> 3ull);
    indvars_qd_2 = 0ull;
    goto l_join_aa_2;
l_loop_ob_1:;
    u64 indvars_r7_3 = (indvars_qd_2 + 1ull);
    if (!(indvars_r7_3 == r_gw_4)) { indvars_qd_2 = indvars_r7_3; goto l_join_aa_2; }
    goto l_typed_kc;
l_join_aa_2:;
    if ((ld64(away(t_f6_2, (u64)((indvars_qd_2 + r_24_5) << 3ull))) & 0x8080808080808080ull) == 0ull) goto l_loop_ob_1;
    st64(slot_1, r_f7);
    stp(r_x5_4, t_f6_2);
    st64(r_zd_2, r_yw);
    st32(r_lk_2, r_0n);
    st32(r_nk_2, 0u);
    u8 r_ik_2 = typed_conforming_conforms_is_utf8_by_bytes(slot_1, r_12_5);
    r_bv = (u8)(u8)((u8)r_ik_2 ^ (u8)1u);
    r_w9 = (r_ik_2 ? 0u : 4u);
    r_sl_1 = 0u;
    r_ko = 0ull;
    goto l_typed_gu;
l_arm_u7:;
    r_bv = (u8)t_8c;
    r_w9 = (t_8c ? 14u : 0u);
    r_sl_1 = 0u;
    r_ko = 0ull;
    goto l_typed_gu;
l_typed_a3:;
    memset(slot_1, 0u, 24);
    typed_conforming_conforms_narrow_elements_error(slot_1, r_ol, switch_wl_1);
    r_bv = ld8(slot_1);
    r_w9 = ld8(r_x5_3);
    r_sl_1 = ld32(r_k0_1);
    r_ko = ld64(r_zd_1);
l_typed_gu:;
    if (!(r_bv == 1u)) { r_jm = r_bv; goto l_typed_9j; }
    r_g6 = (u32)r_w9;
    r_8q = r_sl_1;
    r_o5 = r_ko;
    goto l_typed_8l;
l_after_xg:;
    r_8n = (u32)(common_8i >> 4u);
    switch ((common_8i & 15u)) {
    case 1u: { r_p9_1 = 1u; r_8f = 0u; r_73 = 0u; goto l_typed_n5; }
    case 2u: goto l_arm_r0_2;
    case 3u: goto l_arm_r0_3;
    case 4u: goto l_arm_r0_4;
    case 5u: goto l_arm_r0_5;
    case 6u: goto l_arm_r0_6;
    case 8u: goto l_arm_r0_7;
    case 9u: goto l_arm_r0_8;
    case 10u: goto l_arm_r0_9;
    case 11u: goto l_arm_r0_10;
    case 12u: goto l_arm_r0_11;
    case 13u: goto l_arm_r0_12;
    case 14u: goto l_arm_r0_13;
    case 15u: goto l_arm_r0_14;
    default: goto l_default_r0;
    }
l_arm_r0_2:;
    r_p9_1 = 2u;
    r_8f = 0u;
    r_73 = 0u;
    goto l_typed_n5;
l_arm_r0_3:;
    r_p9_1 = 3u;
    r_8f = 0u;
    r_73 = 0u;
    goto l_typed_n5;
l_arm_r0_4:;
    r_p9_1 = 4u;
    r_8f = 0u;
    r_73 = 0u;
    goto l_typed_n5;
l_arm_r0_5:;
    r_p9_1 = 5u;
    r_8f = 0u;
    r_73 = r_8n;
    goto l_typed_n5;
l_arm_r0_6:;
    r_p9_1 = 6u;
    r_8f = 0u;
    r_73 = 0u;
    goto l_typed_n5;
l_arm_r0_7:;
    r_p9_1 = 7u;
    r_8f = 0u;
    r_73 = r_8n;
    goto l_typed_n5;
l_arm_r0_8:;
    r_p9_1 = 7u;
    r_8f = 1u;
    r_73 = r_8n;
    goto l_typed_n5;
l_arm_r0_9:;
    r_p9_1 = 7u;
    r_8f = 2u;
    r_73 = r_8n;
    goto l_typed_n5;
l_arm_r0_10:;
    r_p9_1 = 7u;
    r_8f = 3u;
    r_73 = r_8n;
    goto l_typed_n5;
l_arm_r0_11:;
    r_p9_1 = 7u;
    r_8f = 4u;
    r_73 = r_8n;
    goto l_typed_n5;
l_arm_r0_12:;
    r_p9_1 = 7u;
    r_8f = 5u;
    r_73 = r_8n;
    goto l_typed_n5;
l_arm_r0_13:;
    r_p9_1 = 7u;
    r_8f = 6u;
    r_73 = r_8n;
    goto l_typed_n5;
l_arm_r0_14:;
    r_p9_1 = 7u;
    r_8f = 7u;
    r_73 = r_8n;
    goto l_typed_n5;
l_default_r0:;
    r_p9_1 = 0u;
    r_8f = 0u;
    r_73 = 0u;
l_typed_n5:;
    st8(slot_2, r_p9_1);
    st8(r_p9, r_8f);
    st32(r_ix, r_73);
    st32(r_x5_1, r_iz);
    st32(r_k0, t_nk);
    u8 r_fc = typed_conforming_conforms_check_object_07dcb38b0fe92235(r_3s, r_cz, slot_2, slot_3, r_sr, a_6);
    r_jm = r_fc;
    goto l_typed_9j;
l_typed_kc:;
    goto l_loop_c4;
l_typed_r0:;
    r_g6 = 17u;
    r_8q = 0u;
    r_o5 = 0ull;
l_typed_8l:;
    st32(a_6, r_g6);
    st32(r_sl, r_8q);
    st64(r_e7, r_o5);
    st64(r_ud, r_f7);
    st32(r_ng, r_sr);
    st32(r_zh, r_iz);
    st32(r_z8, t_nk);
    st32(r_sd, 0u);
    r_fk = 1u;
    goto l_return_ri;
l_typed_9j:;
    if ((u8)(r_jm & 1)) { r_fk = 1u; goto l_return_ri; }
    goto l_loop_c4;
l_join_ki:;
    u32 r_7t = (r_w0 + 1u);
    if (r_7t == r_hr) { r_fk = 0u; goto l_return_ri; }
    r_w0 = r_7t;
    goto l_join_u5;
l_return_ri:;
    return r_fk;
}

/* capnp_pointers::source::follow_far::<#07dcb38b0fe92235> */
static NEVER void capnp_pointers_source_follow_far_07dcb38b0fe92235(u8 *a_1, u8 *a_2, u64 a_3, u8 *a_4)
{
    u64 r_cy;
    u8 *r_e7;
    u64 r_j0;
    u64 t_vj;
    u32 t_ri;
    u8 r_hr;
    u32 i_io;
    u64 r_gw;
    u64 r_4d;
    u8 *r_rq;
    u64 r_52;
    u32 r_ab;
    u32 r_4r;
    u8 *t_gz;
    u64 r_c0;
    u64 r_sw;
    u64 r_ef;
    u64 r_ep;
    u64 r_j0_1;
    u32 r_4r_1;
    u32 r_ab_1;
    u64 r_es;
    u64 r_7u;
    u64 r_lc;
    u64 r_nb;
    u64 r_z3;
    u32 r_vt;
    u32 r_8t;
    u64 r_49;
    u64 r_1t;
    u64 r_a3;
    u64 r_wr;
    u32 r_hb;
    u32 r_tf;
    r_cy = (u64)(a_3 >> 32ull);
    r_e7 = (a_2 + 8);
    if (!(ld64(r_e7) > r_cy)) goto l_arm_y7;
    u8 *r_2b = away(ldp(a_2), (u64)(r_cy << 4ull));
    u64 r_qw = ld64((r_2b + 8));
    r_j0 = (r_qw & 0xfffffffffffffff8ull);
    t_vj = ((r_qw < 8ull) ? (u64)(uptr)((u8 *)g_static_6) : (u64)(uptr)ldp(r_2b));
    t_ri = (u32)((u32)a_3 >> 3u);
    r_hr = ((a_3 & 4ull) == 0ull);
    i_io = (r_hr ? 1u : 2u);
    r_gw = (u64)(r_qw >> 3ull);
    if (r_gw < (u64)(i_io + t_ri)) { r_ef = 23ull; goto l_arm_c6; }
    goto l_join_zm;
l_arm_y7:;
    r_ef = ((a_3 & 0xffffffff00000000ull) | 12ull);
    goto l_arm_c6;
l_join_zm:;
    r_4d = (u64)i_io;
    if (!(ld8(a_4) == 1u)) goto l_arm_r7;
    r_rq = away(a_4, 8ull);
    r_52 = ld64(r_rq);
    if (r_52 < r_4d) { r_ef = 30ull; goto l_arm_c6; }
    st64(a_4, 1ull);
    st64(r_rq, (r_52 - r_4d));
l_arm_r7:;
    r_ab = (u32)t_vj;
    r_4r = (u32)(u64)(t_vj >> 32ull);
    t_gz = ((u8 *)(uptr)t_vj);
    r_c0 = (u64)t_ri;
    if (!(r_gw > r_c0)) { r_sw = 0ull; goto l_capnp_0y; }
    r_sw = ld64(away(t_gz, (u64)(r_c0 << 3ull)));
l_capnp_0y:;
    if (r_hr) goto l_else_bd;
    goto l_then_9h;
l_common_68:;
    return;
l_arm_c6:;
    st64(a_1, 1ull);
    st64(away(a_1, 8ull), r_ef);
    memset(away(a_1, 16ull), 0u, 40);
    goto l_common_68;
l_then_9h:;
    r_ep = (u64)(r_sw >> 32ull);
    if (!(ld64(r_e7) > r_ep)) goto l_arm_8h;
    u8 *r_2b_1 = away(ldp(a_2), (u64)(r_ep << 4ull));
    u64 r_qw_1 = ld64((r_2b_1 + 8));
    r_j0_1 = (r_qw_1 & 0xfffffffffffffff8ull);
    u64 t_vj_1 = ((r_qw_1 < 8ull) ? (u64)(uptr)((u8 *)g_static_6) : (u64)(uptr)ldp(r_2b_1));
    r_4r_1 = (u32)(u64)(t_vj_1 >> 32ull);
    r_ab_1 = (u32)t_vj_1;
    r_es = (u64)(t_ri + 1u);
    if (!(r_gw > r_es)) { r_7u = 0ull; goto l_capnp_o6; }
    r_7u = ld64(away(t_gz, (u64)(r_es << 3ull)));
l_capnp_o6:;
    r_vt = r_ab_1;
    r_8t = r_4r_1;
    r_49 = r_j0_1;
    r_1t = 0ull;
    r_a3 = r_7u;
    r_wr = r_ep;
    r_hb = (u32)((u32)r_sw >> 3u);
    r_tf = 2u;
    goto l_join_s8;
l_arm_8h:;
    st64(a_1, 1ull);
    st64(away(a_1, 8ull), ((r_sw & 0xffffffff00000000ull) | 12ull));
    memset(away(a_1, 16ull), 0u, 40);
    goto l_common_68;
l_else_bd:;
    u64 r_m6 = ((u64)(r_sw >> 2ull) & 0x3fffffffull);
    r_lc = ((r_c0 + 1ull) + r_m6);
    r_nb = (r_gw & 0xffffffffull);
    if (!(r_m6 < 0x20000000ull)) goto l_else_70;
    if (r_lc > r_nb) { r_vt = 0u; r_8t = 0u; r_49 = 0ull; r_1t = 1ull; r_a3 = 23ull; r_wr = 0ull; r_hb = 0u; r_tf = 0u; goto l_join_s8; }
    r_z3 = r_lc;
    goto l_arm_eo;
l_else_70:;
    u64 r_3o = (r_lc + 0xffffffffc0000000ull);
    if ((r_lc < 0x40000000ull) ? 1u : (r_3o > r_nb)) { r_vt = 0u; r_8t = 0u; r_49 = 0ull; r_1t = 1ull; r_a3 = 23ull; r_wr = 0ull; r_hb = 0u; r_tf = 0u; goto l_join_s8; }
    r_z3 = r_3o;
l_arm_eo:;
    r_vt = r_ab;
    r_8t = r_4r;
    r_49 = r_j0;
    r_1t = 0ull;
    r_a3 = r_sw;
    r_wr = r_cy;
    r_hb = (u32)r_z3;
    r_tf = 1u;
l_join_s8:;
    st64(a_1, r_1t);
    st64(away(a_1, 8ull), r_a3);
    st64(away(a_1, 16ull), r_wr);
    st32(away(a_1, 24ull), r_vt);
    st32(away(a_1, 28ull), r_8t);
    st64(away(a_1, 32ull), r_49);
    st32(away(a_1, 40ull), r_hb);
    st32(away(a_1, 44ull), 0u);
    st32(away(a_1, 48ull), r_tf);
    st32(away(a_1, 52ull), 0u);
    goto l_common_68;
}

/* typed_conforming::conforms::is_utf8_by_bytes */
static NEVER u8 typed_conforming_conforms_is_utf8_by_bytes(u8 *a_1, u32 a_2)
{
    A(8) u8 slot_1[16];
    u64 r_24;
    u8 *r_2b;
    u8 *r_x5;
    u64 r_la;
    u8 *r_a7;
    u64 r_g3;
    u8 *r_a7_1;
    u8 r_47;
    u8 r_9k;
    u64 r_5p;
    u64 r_t3;
    u64 r_r3;
    u64 r_gt;
    u64 r_hb;
    u64 r_kc;
    u64 r_r3_1;
    u64 r_65;
    u64 common_ag;
    u64 r_r3_2;
    u64 r_s7;
    u8 r_47_1;
    u32 r_i3;
    u8 r_47_2;
    u64 r_21;
    u64 r_5q;
    u8 t_gg;
    r_24 = (u64)usub_sat32(a_2, 1u);
    r_2b = away(ldp((a_1 + 8)), (u64)((u64)ld32((a_1 + 24)) << 3ull));
    if (a_2 < 2u) { t_gg = 1u; goto l_typed_jg; }
    r_x5 = (slot_1 + 8);
    r_la = (r_24 + 0xfffffffffffffff8ull);
    r_a7 = away(r_2b, r_la);
    r_g3 = 0ull;
l_join_dd:;
    r_a7_1 = away(r_2b, r_g3);
    r_47 = ld8(r_a7_1);
    r_9k = ((i8)r_47 > (i8)255u);
    r_5p = (r_24 - r_g3);
    if (!(u8)((u8)(r_5p > 1ull) & (u8)r_9k)) goto l_join_mi;
    if (!((i8)ld8((r_a7_1 + 1)) > (i8)255u)) { r_5q = 1ull; goto l_join_dk; }
    stp(slot_1, r_2b);
    st64(r_x5, r_24);
    if (r_5p < 8ull) { r_t3 = r_g3; goto l_join_92; }
    goto l_join_id;
l_join_92:;
    if ((i8)ld8((r_2b + (i64)(r_t3))) < (i8)0u) { r_s7 = r_t3; goto l_loop_8m; }
    u64 r_7n = (r_t3 + 1ull);
    if (r_7n == r_24) { t_gg = 1u; goto l_typed_jg; }
    r_t3 = r_7n;
    goto l_join_92;
l_join_id:;
    r_r3 = (ld64(r_a7_1) & 0x8080808080808080ull);
    if (r_r3 == 0ull) goto l_join_ts;
    r_s7 = ((u64)(cttz64(r_r3) >> 3ull) + r_g3);
    goto l_loop_8m;
l_join_ts:;
    u64 r_4k = (r_g3 + 8ull);
    if ((r_24 - r_4k) > 31ull) { r_gt = r_4k; goto l_then_io; }
    r_hb = r_4k;
    goto l_loop_yz;
l_then_io:;
    u8 *r_2b_1 = away(r_2b, r_gt);
    if (!(((((ld64(away(r_2b_1, 8ull)) | ld64(r_2b_1)) | ld64(away(r_2b_1, 16ull))) | ld64(away(r_2b_1, 24ull))) & 0x8080808080808080ull) == 0ull)) { r_hb = r_gt; goto l_loop_yz; }
    u64 r_k0 = core_slice_words_skip_far_52f9edcae2f82f51(slot_1, (r_gt + 32ull), r_24);
    if ((r_24 - r_k0) > 31ull) { r_gt = r_k0; goto l_then_io; }
    r_hb = r_k0;
l_loop_yz:;
    r_kc = r_hb;
l_loop_av:;
    if (!((r_24 - r_kc) > 8ull)) goto l_after_1q;
    r_r3_1 = (ld64((r_2b + (i64)(r_kc))) & 0x8080808080808080ull);
    if (!(r_r3_1 == 0ull)) goto l_join_1k;
    u64 r_5q_1 = (r_kc + 8ull);
    r_65 = r_5q_1;
    common_ag = r_5q_1;
    goto l_core_6r;
l_join_1k:;
    r_65 = (r_kc + 8ull);
    common_ag = ((u64)(cttz64(r_r3_1) >> 3ull) + r_kc);
l_core_6r:;
    if (common_ag < r_65) { r_s7 = common_ag; goto l_loop_8m; }
    r_kc = r_65;
    goto l_loop_av;
l_after_1q:;
    r_r3_2 = (ld64(r_a7) & 0x8080808080808080ull);
    if (r_r3_2 == 0ull) { t_gg = 1u; goto l_typed_jg; }
    r_s7 = ((u64)(cttz64(r_r3_2) >> 3ull) + r_la);
l_loop_8m:;
    if (r_s7 < r_24) { r_g3 = r_s7; goto l_join_dd; }
    t_gg = 1u;
    goto l_typed_jg;
l_join_mi:;
    if (r_9k) { r_5q = 1ull; goto l_join_dk; }
    if (r_47 < 194u) { t_gg = 0u; goto l_typed_jg; }
    if (!(r_47 < 224u)) goto l_else_cg;
    if (r_5p < 2ull) { t_gg = 0u; goto l_typed_jg; }
    if ((i8)ld8((r_a7_1 + 1)) > (i8)191u) { t_gg = 0u; goto l_typed_jg; }
    r_5q = 2ull;
    goto l_join_dk;
l_else_cg:;
    if (!(r_47 < 240u)) goto l_else_rt;
    if (r_5p < 3ull) { t_gg = 0u; goto l_typed_jg; }
    r_47_1 = ld8((r_a7_1 + 1));
    if ((u8)((u8)((i8)r_47_1 > (i8)191u) | (u8)((i8)ld8((r_a7_1 + 2)) > (i8)191u))) { t_gg = 0u; goto l_typed_jg; }
    r_i3 = (((u32)((u32)r_47 << 6u) + 0xffffc780u) + (u32)r_47_1);
    if (r_i3 < 32u) { t_gg = 0u; goto l_typed_jg; }
    if (r_i3 < 864u) { r_5q = 3ull; goto l_join_dk; }
    r_21 = ((r_i3 < 896u) ? 0ull : 3ull);
    goto l_core_vh;
l_else_rt:;
    if (r_5p < 4ull) { t_gg = 0u; goto l_typed_jg; }
    r_47_2 = ld8((r_a7_1 + 1));
    if ((u8)((u8)(u8)((u8)((i8)r_47_2 > (i8)191u) | (u8)((i8)ld8((r_a7_1 + 2)) > (i8)191u)) | (u8)((i8)ld8((r_a7_1 + 3)) > (i8)191u))) { t_gg = 0u; goto l_typed_jg; }
    u32 r_i3_1 = (((u32)((u32)r_47 << 6u) + 0xffffc380u) + (u32)r_47_2);
    if (r_i3_1 < 16u) { t_gg = 0u; goto l_typed_jg; }
    r_21 = ((r_i3_1 < 272u) ? 4ull : 0ull);
l_core_vh:;
    if (r_21 == 0ull) { t_gg = 0u; goto l_typed_jg; }
    r_5q = r_21;
l_join_dk:;
    r_s7 = (r_5q + r_g3);
    goto l_loop_8m;
l_typed_jg:;
    return t_gg;
}

/* core::slice::words::skip_far::<#52f9edcae2f82f51> */
static NEVER u64 core_slice_words_skip_far_52f9edcae2f82f51(u8 *a_1, u64 a_2, u64 a_3)
{
    u8 *r_mb;
    u64 r_8l;
    u64 r_z1;
    if (!((a_3 - a_2) > 63ull)) { r_z1 = a_2; goto l_after_91; }
    r_mb = ldp(a_1);
    r_8l = a_2;
l_then_61:;
    u8 *r_2b = away(r_mb, r_8l);
    if (!(((((((((ld64(away(r_2b, 16ull)) | ld64(r_2b)) | ld64(away(r_2b, 32ull))) | ld64(away(r_2b, 48ull))) | ld64(away(r_2b, 8ull))) | ld64(away(r_2b, 24ull))) | ld64(away(r_2b, 40ull))) | ld64(away(r_2b, 56ull))) & 0x8080808080808080ull) == 0ull)) { r_z1 = r_8l; goto l_after_91; }
    u64 r_za = (r_8l + 64ull);
    if ((a_3 - r_za) > 63ull) { r_8l = r_za; goto l_then_61; }
    r_z1 = r_za;
l_after_91:;
    return r_z1;
}

/* typed_conforming::conforms::narrow_elements_error */
static void typed_conforming_conforms_narrow_elements_error(u8 *a_1, u8 a_2, u8 a_3)
{
    u64 r_6f;
    u32 r_3l;
    u32 r_bv;
    u32 r_yl;
    switch (a_3) {
    case 1u: goto l_then_0w;
    case 0u: { r_bv = 0u; goto l_capnp_un; }
    case 6u: { r_bv = 0u; goto l_capnp_un; }
    case 7u: { r_bv = 0u; goto l_capnp_un; }
    case 5u: goto l_arm_h9;
    case 2u: goto l_arm_h9_1;
    case 3u: goto l_arm_h9_2;
    case 4u: goto l_arm_h9_3;
    default: goto l_noarm_e1;
    }
l_then_0w:;
    u8 r_vg = (a_2 != 1u);
    r_6f = (u64)r_vg;
    r_3l = (r_vg ? 8u : 0u);
l_common_6f:;
    st64(a_1, r_6f);
    st32(away(a_1, 8ull), r_3l);
    st32(away(a_1, 12ull), 0u);
    st64(away(a_1, 16ull), 0ull);
    return;
l_arm_h9_1:;
    r_bv = 8u;
    goto l_capnp_un;
l_arm_h9_2:;
    r_bv = 16u;
    goto l_capnp_un;
l_arm_h9_3:;
    r_bv = 32u;
    goto l_capnp_un;
l_arm_h9:;
    r_bv = 64u;
    goto l_capnp_un;
l_noarm_e1:;
    UNREACHABLE();
l_capnp_un:;
    switch (a_2) {
    case 5u: goto l_arm_h9_4;
    case 4u: goto l_arm_h9_5;
    case 3u: goto l_arm_h9_6;
    case 1u: { r_yl = 1u; goto l_capnp_u0; }
    case 2u: goto l_arm_h9_7;
    case 6u: goto l_join_iu;
    case 0u: { r_6f = 0ull; r_3l = 0u; goto l_common_6f; }
    case 7u: { r_6f = 0ull; r_3l = 0u; goto l_common_6f; }
    default: goto l_noarm_e1_1;
    }
l_arm_h9_7:;
    r_yl = 8u;
    goto l_capnp_u0;
l_arm_h9_6:;
    r_yl = 16u;
    goto l_capnp_u0;
l_arm_h9_5:;
    r_yl = 32u;
    goto l_capnp_u0;
l_arm_h9_4:;
    r_yl = 64u;
    goto l_capnp_u0;
l_noarm_e1_1:;
    UNREACHABLE();
l_capnp_u0:;
    if (r_yl > r_bv) goto l_join_wm;
    r_6f = 0ull;
    r_3l = 0u;
    goto l_common_6f;
l_join_iu:;
    if (a_3 == 6u) { r_6f = 0ull; r_3l = 0u; goto l_common_6f; }
l_join_wm:;
    r_6f = 1ull;
    r_3l = 16u;
    goto l_common_6f;
}

/* typed_conforming::table::tested_word */
static NEVER u32 typed_conforming_table_tested_word(u8 *a_1, u64 a_2, u32 a_3, u8 *a_4, u32 a_5)
{
    u8 *r_rv;
    u64 r_7l;
    u64 r_24;
    u32 r_4t;
    u64 r_pi;
    u64 r_es;
    u32 common_hy;
    u64 t_24;
    u64 r_vl;
    u32 common_ws;
    u64 r_c4;
    u32 common_lv;
    u64 r_bm;
    r_rv = ldp((a_4 + 8));
    if (!((a_3 & 15u) == 7u)) { common_hy = a_3; goto l_common_2g; }
    r_7l = (u64)a_5;
    r_24 = (u64)ld32((a_4 + 24));
    r_4t = a_3;
    r_pi = 0ull;
l_join_c2:;
    r_es = (u64)(u32)(r_4t >> 4u);
    if ((u8)((u8)(r_pi <= r_es) & (u8)(a_2 > r_es))) goto l_typed_8c;
    common_hy = 0u;
l_common_2g:;
    return common_hy;
l_typed_8c:;
    t_24 = (u64)ld32((a_1 + (i64)((u64)(r_es << 2ull))));
    r_vl = (u64)(t_24 >> 2ull);
    if (!(r_vl < r_7l)) { common_ws = 0u; goto l_typed_41; }
    common_ws = ((u32)(u64)(ld64(away(r_rv, (u64)((r_vl + r_24) << 3ull))) >> (((u64)(t_24 << 4ull) & 48ull) & 63u)) & 65535u);
l_typed_41:;
    r_c4 = (r_es + 1ull);
    if (!(a_2 > r_c4)) { common_lv = 0u; goto l_typed_5f; }
    common_lv = ld32((a_1 + (i64)((u64)(r_c4 << 2ull))));
l_typed_5f:;
    if (!(common_ws == common_lv)) goto l_else_96;
    u64 r_4i = (r_es + 2ull);
    if (a_2 > r_4i) { r_bm = r_4i; goto l_typed_75; }
    common_hy = 0u;
    goto l_common_2g;
l_else_96:;
    u64 r_1h = (r_es + 3ull);
    if (a_2 > r_1h) { r_bm = r_1h; goto l_typed_75; }
    common_hy = 0u;
    goto l_common_2g;
l_typed_75:;
    u32 r_yf = ld32((a_1 + (i64)((u64)(r_bm << 2ull))));
    if ((r_yf & 15u) == 7u) { r_4t = r_yf; r_pi = r_c4; goto l_join_c2; }
    common_hy = r_yf;
    goto l_common_2g;
}

/* capnp_builders::builders::PointerBuilder::copy_from::<#5ec03199cc959fcd> */
static void capnp_builders_builders_PointerBuilder_copy_from_5ec03_b2338d7d(u8 *a_1, u8 *a_2, u8 *a_3, u8 *a_4, u8 a_5)
{
    A(8) u8 slot_1[32];
    A(8) u8 slot_2[24];
    A(8) u8 slot_3[16];
    A(8) u8 slot_4[32];
    A(8) u8 slot_5[64];
    A(8) u8 slot_6[64];
    u64 r_eg;
    u8 *r_rq;
    u8 *r_xz;
    u32 r_5k;
    u32 r_yf;
    u32 r_yf_1;
    u8 *r_k8;
    u64 r_z6;
    u8 *r_fx;
    u8 *r_2b;
    u64 r_qw;
    r_eg = (u64)ld8(a_3);
    r_rq = away(a_3, 8ull);
    r_xz = away(a_3, 24ull);
    r_5k = ld32(away(a_3, 56ull));
    memset(slot_2, 0u, 24);
    st64((slot_5 + 56), 0ull);
    st64((slot_6 + 56), 0ull);
    r_yf = ld32(away(a_2, 8ull));
    r_yf_1 = ld32(away(a_2, 12ull));
    mv16(slot_3, r_rq);
    mv32(slot_4, r_xz);
    if (!(r_yf == 0u)) { r_k8 = ((u8 *)g_static_6); goto l_capnp_13; }
    r_k8 = ldp(ldp(a_2));
l_capnp_13:;
    r_z6 = (u64)((u64)r_yf_1 << 3ull);
    r_fx = ldp(a_2);
    if (ld64(away(r_k8, r_z6)) == 0ull) goto l_then_uo;
    goto l_join_9r;
l_common_pq:;
    st8(a_1, ld8(slot_2));
    st32(away(a_1, 8ull), (u32)ld8((slot_2 + 8)));
    st32(away(a_1, 12ull), ld32((slot_2 + 12)));
    st64(away(a_1, 16ull), ld64((slot_2 + 16)));
    return;
l_then_uo:;
    st64(slot_5, r_eg);
    mv16((slot_5 + 8), r_rq);
    mv32((slot_5 + 24), r_xz);
    st32((slot_5 + 56), r_5k);
    capnp_copies_copy_copy_value_5ec03199cc959fcd(slot_2, r_fx, r_yf, r_yf_1, slot_5, a_4, a_5);
    goto l_common_pq;
l_join_9r:;
    r_2b = away(ldp(r_fx), r_z6);
    r_qw = ld64(r_2b);
    if (r_qw == 0ull) goto l_capnp_vp;
    capnp_allocation_landing_follow_d7a666d2d35ab297(slot_1, r_fx, r_yf, r_yf_1);
    st64(r_2b, 0ull);
    if (!(ld8(slot_1) == 1u)) goto l_capnp_vp;
    capnp_allocation_zeroing_zero_target_d7a666d2d35ab297(r_fx, (slot_1 + 8));
    if (!((r_qw & 3ull) == 2ull)) goto l_capnp_vp;
    capnp_allocation_zeroing_zero_far_pads_d7a666d2d35ab297(r_fx, r_qw);
l_capnp_vp:;
    u8 *r_fx_1 = ldp(a_2);
    st64(slot_6, r_eg);
    mv16((slot_6 + 8), slot_3);
    mv32((slot_6 + 24), slot_4);
    st32((slot_6 + 56), r_5k);
    capnp_copies_copy_copy_value_5ec03199cc959fcd(slot_2, r_fx_1, r_yf, r_yf_1, slot_6, a_4, a_5);
    goto l_common_pq;
}

/* capnp_copies::copy::copy_value::<#5ec03199cc959fcd> */
static void capnp_copies_copy_copy_value_5ec03199cc959fcd(u8 *a_1, u8 *a_2, u32 a_3, u32 a_4, u8 *a_5, u8 *a_6, u8 a_7)
{
    A(8) u8 slot_1[32];
    A(8) u8 slot_2[24];
    A(8) u8 slot_3[64];
    u8 r_r5;
    u32 r_uq;
    u64 r_38;
    u8 r_r5_1;
    u8 *r_2b;
    u64 r_qw;
    u32 r_vm;
    u32 r_40;
    u64 r_u2;
    u64 r_eg = (u64)ld8(a_5);
    u32 r_5k = ld32(away(a_5, 56ull));
    mv16((slot_3 + 8), away(a_5, 8ull));
    mv32((slot_3 + 24), away(a_5, 24ull));
    memset(slot_2, 0u, 24);
    u8 *t_6c = (slot_3 + 56);
    st64(t_6c, 0ull);
    st64(slot_3, r_eg);
    st32(t_6c, r_5k);
    capnp_copies_copy_copy_object_5ec03199cc959fcd(slot_2, a_2, a_3, a_4, slot_3, a_6, (u8)a_7);
    r_r5 = ld8(slot_2);
    r_uq = ld32((slot_2 + 12));
    r_38 = ld64((slot_2 + 16));
    if (r_r5 == 0u) { r_vm = 0u; r_40 = 0u; r_u2 = 0ull; goto l_capnp_o5; }
    r_r5_1 = ld8((slot_2 + 8));
    r_2b = away(ldp(a_2), (u64)((u64)a_4 << 3ull));
    r_qw = ld64(r_2b);
    if (r_qw == 0ull) goto l_capnp_ku;
    capnp_allocation_landing_follow_d7a666d2d35ab297(slot_1, a_2, a_3, a_4);
    st64(r_2b, 0ull);
    if (!(ld8(slot_1) == 1u)) goto l_capnp_ku;
    capnp_allocation_zeroing_zero_target_d7a666d2d35ab297(a_2, (slot_1 + 8));
    if (!((r_qw & 3ull) == 2ull)) goto l_capnp_ku;
    capnp_allocation_zeroing_zero_far_pads_d7a666d2d35ab297(a_2, r_qw);
l_capnp_ku:;
    r_vm = (u32)r_r5_1;
    r_40 = r_uq;
    r_u2 = r_38;
l_capnp_o5:;
    st8(a_1, r_r5);
    st32(away(a_1, 8ull), r_vm);
    st32(away(a_1, 12ull), r_40);
    st64(away(a_1, 16ull), r_u2);
    return;
}

/* capnp_copies::copy::copy_object::<#5ec03199cc959fcd> */
static NEVER void capnp_copies_copy_copy_object_5ec03199cc959fcd(u8 *a_1, u8 *a_2, u32 a_3, u32 a_4, u8 *a_5, u8 *a_6, u8 a_7)
{
    A(8) u8 slot_1[56];
    A(8) u8 slot_2[64];
    A(8) u8 slot_3[24];
    A(8) u8 slot_4[64];
    A(8) u8 slot_5[24];
    u8 r_dh;
    u64 r_eg;
    u8 *r_rv;
    u64 r_qw;
    u64 r_qw_1;
    u8 *r_rv_1;
    u64 r_qw_2;
    u32 r_5k;
    u64 r_24;
    u64 r_gw;
    u64 r_qw_3;
    u64 t_al;
    u8 t_pa;
    u64 r_lc;
    u64 r_nb;
    u64 r_yz;
    u32 r_gx;
    u64 r_qd;
    u64 r_d4;
    u64 r_9h;
    u64 r_27;
    u64 r_ep;
    u64 r_y6;
    u64 r_lc_1;
    u8 *r_rq;
    u64 r_52;
    u32 r_az;
    u8 *t_f6;
    u32 r_4w;
    u8 switch_wl;
    u64 r_ij;
    u64 r_c4;
    u64 r_24_1;
    u64 r_gw_1;
    u8 *r_rq_1;
    u64 r_52_1;
    u64 r_eh;
    u32 t_c8;
    u64 r_ep_1;
    u64 r_y6_1;
    u32 r_12;
    u32 r_az_1;
    u32 r_68;
    u64 r_c0;
    u8 *r_rq_2;
    u64 r_52_2;
    u32 r_ll;
    u8 *t_f6_1;
    u32 r_4w_1;
    u16 r_xg;
    u16 r_py;
    u8 t_q5;
    u32 r_12_1;
    u8 *r_rq_3;
    u64 r_52_3;
    u8 *r_rq_4;
    u64 r_52_4;
    u64 r_v1;
    u64 r_c6;
    u8 *r_rq_5;
    u64 r_52_5;
    u64 r_2g;
    u64 r_jg;
    u64 r_6e;
    u8 *t_f6_2;
    u32 r_4w_2;
    u8 *r_rq_6;
    u8 *r_08_1;
    u32 r_e3;
    u8 r_10;
    u32 r_kb;
    u32 r_n4;
    u64 r_yp;
    u64 r_q7;
    u64 r_lc_2;
    u64 r_z6;
    u8 *r_c0_1;
    u64 r_nm;
    u64 r_nm_1;
    u64 r_ev;
    u64 r_z6_1;
    u8 *r_c0_2;
    u64 r_nm_2;
    u64 r_nm_3;
    u64 r_mh;
    u64 r_ag;
    u32 r_ib;
    u16 r_xg_1;
    u32 r_29;
    u32 r_68_1;
    u8 *r_08_2;
    u32 r_e3_1;
    u64 r_24_3;
    u64 r_c0_3;
    u8 *r_2b;
    u8 *t_2b;
    u64 pre_bv;
    u32 r_6n;
    u32 r_qt;
    u64 r_0l;
    u8 *r_c0_4;
    u8 *r_2b_1;
    u64 r_il;
    u8 r_t8;
    u8 r_hg;
    u32 r_lc_3;
    u64 r_nj;
    u8 *t_f6_3;
    u64 r_yo;
    u8 r_tw;
    u8 *r_l2;
    u64 r_nm_4;
    u64 r_61;
    u64 r_kz;
    u64 r_b6;
    u64 r_se;
    u32 r_12_2;
    u64 t_0f;
    u8 *r_08_3;
    u32 r_e3_3;
    u64 r_z6_3;
    u8 *r_2b_2;
    u64 r_1q;
    u8 *r_2b_3;
    u64 r_il_1;
    u64 r_4i;
    u64 r_z6_4;
    u8 *r_2b_4;
    u64 r_7l_1;
    u64 r_gw_2;
    u8 *r_x5;
    u8 *r_zd;
    u8 *r_lk;
    u8 *r_89;
    u8 *r_a8;
    u8 *r_c4_3;
    u8 *r_6c;
    u8 *r_08_4;
    u64 r_nb_1;
    u8 r_sg;
    u8 *r_rq_7;
    u8 *r_x5_1;
    u8 *r_k0;
    u8 *r_zd_1;
    u32 r_s1;
    u8 t_q5_1;
    u8 *r_x5_2;
    u8 *r_k0_1;
    u8 *r_zd_2;
    u8 *r_ix;
    u8 *r_x5_3;
    u8 *r_zd_3;
    u8 *r_lk_1;
    u8 *r_89_1;
    u8 *r_a8_1;
    u8 *r_c4_4;
    u8 *r_bk;
    u8 *r_6c_1;
    u8 *r_x5_4;
    u8 *r_k0_2;
    u8 *r_zd_4;
    u8 t_0c;
    u8 *r_x5_5;
    u8 *r_k0_3;
    u8 *r_zd_5;
    u8 *r_ix_1;
    u8 *t_6c;
    u64 r_7l_2;
    u8 *t_6c_1;
    u64 indvars_eg;
    u32 r_sr;
    u64 r_24_4;
    u64 r_qw_5;
    u64 switch_f9;
    u64 r_ep_2;
    u64 r_ij_1;
    u64 r_c6_5;
    u64 r_lc_4;
    u64 r_gk;
    u64 r_52_6;
    u64 r_z6_5;
    u8 *r_8a;
    u64 r_1q_1;
    u64 r_se_1;
    u32 r_12_3;
    u32 r_e3_4;
    u64 r_z6_6;
    u8 *r_2b_5;
    u32 r_oh;
    u64 r_4i_1;
    u64 r_y6_2;
    u64 r_q7_1;
    u64 r_lc_6;
    u64 r_lc_7;
    u64 r_jm;
    u32 r_4r;
    u8 r_8u;
    u64 r_52_7;
    u32 r_5b;
    u64 r_um;
    u64 r_c9;
    u32 r_az_2;
    u32 r_az_3;
    u32 r_68_2;
    struct s_i8_i32 r_57;
    u64 r_zw;
    u32 r_4r_1;
    u8 r_2b_6;
    u8 r_qh;
    u32 r_ip;
    u64 r_wq;
    u8 r_t8_2;
    u8 r_t8_1;
    u32 r_hg_1;
    u64 r_lc_5;
    u64 t_pz;
    u32 t_fy;
    u8 r_1l;
    u8 t_ry;
    u64 r_q7_2;
    u32 r_i4;
    u64 r_pi;
    u16 r_jc;
    u16 r_qp_1;
    u64 r_u7;
    u64 r_z6_9;
    u8 *r_c0_5;
    u64 r_nm_5;
    u64 r_nm_6;
    u64 r_xk;
    u16 r_5f;
    u64 r_5q;
    u64 r_u7_1;
    u64 r_z6_10;
    u8 *r_c0_6;
    u64 r_nm_7;
    u64 r_nm_8;
    u64 r_a3;
    u16 r_xa;
    u16 r_fz;
    u64 r_fj;
    u32 r_wt;
    u32 r_ll_1;
    u32 r_68_3;
    u32 r_00;
    u32 r_68_4;
    u64 r_z6_11;
    u8 r_hi;
    u8 r_u6;
    u8 r_vw;
    u8 r_bh_2;
    u64 r_8f_2;
    u64 r_la_2;
    u64 r_bh_3;
    u8 r_hi_1;
    u64 r_gw_3;
    u8 *r_x5_6;
    u8 *r_zd_6;
    u8 *r_lk_2;
    u8 *r_89_2;
    u8 *r_a8_2;
    u8 *r_c4_5;
    u8 *r_6c_2;
    u8 *r_08_5;
    u64 r_nb_2;
    u8 r_sg_1;
    u8 *r_rq_8;
    u8 *r_x5_7;
    u8 *r_k0_4;
    u8 *r_zd_7;
    u32 r_mx;
    u8 *r_rq_9;
    u8 *r_08_6;
    u8 *r_xz_2;
    u8 *r_x5_8;
    u8 *r_zd_8;
    u8 *r_lk_3;
    u8 *r_89_3;
    u8 *r_a8_3;
    u8 *r_c4_6;
    u8 *r_bk_1;
    u8 *r_6c_3;
    u8 *r_x5_9;
    u8 *r_k0_5;
    u8 *r_zd_9;
    u8 t_0c_1;
    u64 wide_c0;
    u64 wide_u7;
    u8 *t_6c_2;
    u8 *t_6c_3;
    u32 r_wt_1;
    u64 indvars_ff;
    u32 r_w0;
    u32 r_w0_1;
    u8 *r_c0_7;
    u8 *r_2b_7;
    u64 r_il_2;
    u32 r_w0_2;
    u32 r_w0_3;
    u64 indvars_vm;
    u32 r_sr_1;
    u64 r_24_7;
    u64 r_qw_6;
    u64 switch_f9_1;
    u64 r_ep_3;
    u64 r_ij_2;
    u64 r_1q_3;
    u64 r_c6_6;
    u64 r_lc_8;
    u64 r_gk_1;
    u64 r_52_8;
    u64 r_z6_12;
    u8 *r_8a_1;
    u64 r_1q_4;
    u64 r_se_2;
    u32 r_12_4;
    u32 r_e3_7;
    u64 r_z6_13;
    u8 *r_2b_9;
    u64 r_1q_5;
    u8 *r_2b_10;
    u64 r_il_3;
    u64 r_4i_2;
    u64 r_y6_3;
    u64 r_q7_3;
    u64 r_lc_9;
    u64 r_lc_10;
    u64 r_jm_1;
    u32 r_4r_2;
    u8 r_8u_1;
    u64 r_52_9;
    u32 r_5b_1;
    u64 r_lc_11;
    u64 r_z6_14;
    u8 *r_c0_8;
    u64 r_nm_9;
    u64 r_nm_10;
    u64 r_ev_1;
    u64 r_z6_15;
    u8 *r_c0_9;
    u64 r_nm_11;
    u64 r_nm_12;
    u64 r_dl;
    u64 r_9n;
    u16 r_xg_2;
    u32 r_29_1;
    u32 r_az_4;
    u32 r_68_5;
    u32 r_e3_8;
    u64 r_c0_10;
    u8 *r_2b_12;
    u8 *t_2b_1;
    u64 r_s8;
    u32 r_4r_3;
    u64 r_0l_1;
    u8 *r_c0_11;
    u8 *r_2b_13;
    u64 r_il_4;
    u8 r_2b_14;
    u8 r_qh_2;
    u32 r_ip_1;
    u64 r_wq_1;
    u8 r_2b_11;
    u8 r_2b_8;
    u64 r_qh_1;
    u64 t_ko;
    u32 t_h6;
    u8 r_ex;
    u8 t_jr;
    u8 r_rh;
    u8 r_hg_2;
    u32 r_je;
    u64 r_s2;
    u8 r_5k_1;
    u8 r_qp;
    u32 r_7u;
    u64 r_pz;
    r_dh = ld8(a_5);
    r_eg = (u64)r_dh;
    r_rv = ldp(away(a_5, 8ull));
    r_qw = ld64(away(a_5, 16ull));
    r_qw_1 = ld64(away(a_5, 24ull));
    r_rv_1 = ldp(away(a_5, 32ull));
    r_qw_2 = ld64(away(a_5, 40ull));
    r_5k = ld32(away(a_5, 56ull));
    r_24 = (u64)ld32(away(a_5, 48ull));
    r_gw = (u64)(r_qw_2 >> 3ull);
    if (!(r_gw > r_24)) { r_5k_1 = 0u; r_qp = 0u; r_7u = 0u; r_pz = 0ull; goto l_join_1g; }
    r_qw_3 = ld64(away(r_rv_1, (u64)(r_24 << 3ull)));
    if (r_qw_3 == 0ull) { r_5k_1 = 0u; r_qp = 0u; r_7u = 0u; r_pz = 0ull; goto l_join_1g; }
    t_al = (u64)(uptr)r_rv_1;
    memset(slot_1, 0u, 56);
    t_pa = (r_dh != 0u);
    if (t_pa) goto l_capnp_sm;
    u8 *r_08 = away(a_6, 16ull);
    st64(r_08, uadd_sat64(ld64(r_08), 1ull));
    if ((r_qw_3 & 3ull) == 2ull) goto l_capnp_nl;
    goto l_join_bd;
l_capnp_sm:;
    if (!((r_qw_3 & 3ull) == 2ull)) goto l_join_bd;
    st32((slot_1 + 8), 32u);
    r_2g = ld64((slot_1 + 8));
    goto l_capnp_8g;
l_join_bd:;
    u64 r_m6 = ((u64)(r_qw_3 >> 2ull) & 0x3fffffffull);
    r_lc = ((r_24 + 1ull) + r_m6);
    r_nb = (r_gw & 0xffffffffull);
    if (!(r_m6 < 0x20000000ull)) goto l_else_70;
    if (r_lc > r_nb) { r_2g = 23ull; goto l_capnp_8g; }
    r_yz = r_lc;
    goto l_capnp_i5;
l_else_70:;
    u64 r_3o = (r_lc + 0xffffffffc0000000ull);
    if ((r_lc < 0x40000000ull) ? 1u : (r_3o > r_nb)) { r_2g = 23ull; goto l_capnp_8g; }
    r_yz = r_3o;
l_capnp_i5:;
    r_gx = (u32)r_yz;
    r_qd = r_qw_1;
    r_d4 = r_qw_3;
    r_9h = r_qw_2;
    r_27 = t_al;
    goto l_arm_wn;
l_capnp_nl:;
    capnp_pointers_source_follow_far_07dcb38b0fe92235(slot_1, r_rv, r_qw_3, a_6);
    u64 r_38 = ld64((slot_1 + 16));
    u64 r_38_1 = ld64((slot_1 + 8));
    if (ld8(slot_1) == 0u) { r_gx = ld32((slot_1 + 40)); r_qd = r_38; r_d4 = r_38_1; r_9h = ld64((slot_1 + 32)); r_27 = ld64((slot_1 + 24)); goto l_arm_wn; }
    r_jg = r_38;
    r_6e = r_38_1;
    goto l_capnp_qu;
l_arm_wn:;
    switch ((u8)((u8)r_d4 & 3u)) {
    case 0u: goto l_arm_sz;
    case 1u: goto l_arm_z2;
    case 2u: { r_10 = 1u; r_kb = 13u; r_n4 = 0u; r_yp = 0ull; goto l_common_9c; }
    case 3u: goto l_capnp_a6;
    default: goto l_default_e1;
    }
l_arm_sz:;
    r_ep = (u64)(r_d4 >> 32ull);
    r_y6 = (u64)(r_d4 >> 48ull);
    if ((i32)r_5k < (i32)1u) { r_10 = 1u; r_kb = 26u; r_n4 = 0u; r_yp = 0ull; goto l_common_9c; }
    r_lc_1 = ((r_ep & 65535ull) + r_y6);
    if (((u64)(r_9h >> 3ull) & 0xffffffffull) < (r_lc_1 + (u64)r_gx)) { r_10 = 1u; r_kb = 23u; r_n4 = 0u; r_yp = 0ull; goto l_common_9c; }
    if (t_pa) goto l_arm_gk;
    if (!(ld8(a_6) == 1u)) goto l_arm_gk;
    r_rq = away(a_6, 8ull);
    r_52 = ld64(r_rq);
    if (r_52 < r_lc_1) { r_10 = 1u; r_kb = 30u; r_n4 = 0u; r_yp = 0ull; goto l_common_9c; }
    st64(a_6, 1ull);
    st64(r_rq, (r_52 - r_lc_1));
l_arm_gk:;
    r_az = ((u32)r_ep & 65535u);
    t_f6 = ((u8 *)(uptr)r_27);
    r_4w = (r_5k + 0xffffffffu);
    if (a_7 == 1u) goto l_arm_e4;
    goto l_arm_ps;
l_arm_z2:;
    switch_wl = (u8)((u8)(u64)(r_d4 >> 32ull) & 7u);
    r_ij = (u64)(r_d4 >> 35ull);
    switch (switch_wl) {
    case 7u: goto l_arm_gv;
    case 6u: goto l_arm_lc;
    case 0u: goto l_arm_gv_1;
    case 5u: goto l_arm_h9;
    case 4u: goto l_arm_h9_1;
    case 3u: goto l_arm_h9_2;
    case 1u: { r_v1 = 1ull; goto l_capnp_gv; }
    case 2u: goto l_arm_h9_3;
    default: goto l_default_e1;
    }
l_arm_gv:;
    if ((i32)r_5k < (i32)1u) { r_10 = 1u; r_kb = 26u; r_n4 = 0u; r_yp = 0ull; goto l_common_9c; }
    r_c4 = (r_ij + 1ull);
    r_24_1 = (u64)r_gx;
    r_gw_1 = (u64)(r_9h >> 3ull);
    if ((r_gw_1 & 0xffffffffull) < (r_c4 + r_24_1)) { r_10 = 1u; r_kb = 23u; r_n4 = 0u; r_yp = 0ull; goto l_common_9c; }
    if (t_pa) goto l_arm_ga;
    if (!(ld8(a_6) == 1u)) goto l_arm_ga;
    r_rq_1 = away(a_6, 8ull);
    r_52_1 = ld64(r_rq_1);
    if (!(r_52_1 > r_ij)) { r_10 = 1u; r_kb = 30u; r_n4 = 0u; r_yp = 0ull; goto l_common_9c; }
    st64(a_6, 1ull);
    st64(r_rq_1, (r_52_1 - r_c4));
l_arm_ga:;
    if (!(r_gw_1 > r_24_1)) { r_eh = 0ull; goto l_join_qm; }
    u64 r_qw_4 = ld64(away(((u8 *)(uptr)r_27), (u64)(r_24_1 << 3ull)));
    if ((r_qw_4 & 3ull) == 0ull) { r_eh = r_qw_4; goto l_join_qm; }
    r_10 = 1u;
    r_kb = 11u;
    r_n4 = 0u;
    r_yp = 0ull;
    goto l_common_9c;
l_join_qm:;
    t_c8 = (u32)((u32)r_eh >> 2u);
    r_ep_1 = (u64)(r_eh >> 32ull);
    r_y6_1 = (u64)(r_eh >> 48ull);
    r_12 = (u32)r_y6_1;
    r_az_1 = ((u32)r_ep_1 & 65535u);
    r_68 = (r_az_1 + r_12);
    r_c0 = (u64)t_c8;
    if (r_ij < ((u64)r_68 * r_c0)) { r_10 = 1u; r_kb = 10u; r_n4 = 0u; r_yp = 0ull; goto l_common_9c; }
    if ((u8)((u8)t_pa | (u8)(r_68 != 0u))) goto l_arm_ae;
    if (!(ld8(a_6) == 1u)) goto l_arm_ae;
    r_rq_2 = away(a_6, 8ull);
    r_52_2 = ld64(r_rq_2);
    if (r_52_2 < r_c0) { r_10 = 1u; r_kb = 30u; r_n4 = 0u; r_yp = 0ull; goto l_common_9c; }
    st64(a_6, 1ull);
    st64(r_rq_2, (r_52_2 - r_c0));
l_arm_ae:;
    r_ll = (r_gx + 1u);
    t_f6_1 = ((u8 *)(uptr)r_27);
    r_4w_1 = (r_5k + 0xffffffffu);
    r_xg = (u16)r_ep_1;
    r_py = (u16)r_y6_1;
    t_q5 = (a_7 == 1u);
    if (t_q5) goto l_arm_q5;
    r_xa = r_xg;
    r_fz = r_py;
    goto l_capnp_l9;
l_arm_lc:;
    r_12_1 = (u32)r_ij;
    if ((i32)r_5k < (i32)1u) { r_10 = 1u; r_kb = 26u; r_n4 = 0u; r_yp = 0ull; goto l_common_9c; }
    if (((u64)(r_9h >> 3ull) & 0xffffffffull) < (r_ij + (u64)r_gx)) { r_10 = 1u; r_kb = 23u; r_n4 = 0u; r_yp = 0ull; goto l_common_9c; }
    if (t_pa) goto l_arm_22;
    if (!(ld8(a_6) == 1u)) goto l_arm_22;
    r_rq_3 = away(a_6, 8ull);
    r_52_3 = ld64(r_rq_3);
    if (r_52_3 < r_ij) { r_10 = 1u; r_kb = 30u; r_n4 = 0u; r_yp = 0ull; goto l_common_9c; }
    st64(a_6, 1ull);
    st64(r_rq_3, (r_52_3 - r_ij));
    goto l_arm_22;
l_arm_gv_1:;
    if ((i32)r_5k < (i32)1u) { r_10 = 1u; r_kb = 26u; r_n4 = 0u; r_yp = 0ull; goto l_common_9c; }
    if (((u64)(r_9h >> 3ull) & 0xffffffffull) < (u64)r_gx) { r_10 = 1u; r_kb = 23u; r_n4 = 0u; r_yp = 0ull; goto l_common_9c; }
    if (t_pa) goto l_arm_kb;
    if (!(ld8(a_6) == 1u)) goto l_arm_kb;
    st64(a_6, 1ull);
    r_rq_4 = away(a_6, 8ull);
    r_52_4 = ld64(r_rq_4);
    if (r_52_4 < r_ij) { r_10 = 1u; r_kb = 30u; r_n4 = 0u; r_yp = 0ull; goto l_common_9c; }
    st64(r_rq_4, (r_52_4 - r_ij));
    goto l_arm_kb;
l_arm_h9_3:;
    r_v1 = 8ull;
    goto l_capnp_gv;
l_arm_h9_2:;
    r_v1 = 16ull;
    goto l_capnp_gv;
l_arm_h9_1:;
    r_v1 = 32ull;
    goto l_capnp_gv;
l_arm_h9:;
    r_v1 = 64ull;
l_capnp_gv:;
    if ((i32)r_5k < (i32)1u) { r_10 = 1u; r_kb = 26u; r_n4 = 0u; r_yp = 0ull; goto l_common_9c; }
    r_c6 = (u64)(((r_v1 * r_ij) + 63ull) >> 6ull);
    if (((u64)(r_9h >> 3ull) & 0xffffffffull) < (r_c6 + (u64)r_gx)) { r_10 = 1u; r_kb = 23u; r_n4 = 0u; r_yp = 0ull; goto l_common_9c; }
    if (t_pa) goto l_arm_gk_1;
    if (!(ld8(a_6) == 1u)) goto l_arm_gk_1;
    r_rq_5 = away(a_6, 8ull);
    r_52_5 = ld64(r_rq_5);
    if (r_52_5 < r_c6) { r_10 = 1u; r_kb = 30u; r_n4 = 0u; r_yp = 0ull; goto l_common_9c; }
    st64(a_6, 1ull);
    st64(r_rq_5, (r_52_5 - r_c6));
    goto l_arm_gk_1;
l_default_e1:;
    UNREACHABLE();
l_capnp_8g:;
    r_jg = 0ull;
    r_6e = r_2g;
l_capnp_qu:;
    r_10 = 1u;
    r_kb = ((u32)r_6e & 255u);
    r_n4 = (u32)(u64)(r_6e >> 32ull);
    r_yp = r_jg;
    goto l_common_9c;
l_capnp_a6:;
    u8 r_e6 = ((r_d4 & 0xffffffffull) == 3ull);
    if (r_e6) goto l_arm_gt;
    r_10 = 1u;
    r_kb = (r_e6 ? 1u : 34u);
    r_n4 = 0u;
    r_yp = 0ull;
    goto l_common_9c;
l_arm_22:;
    t_f6_2 = ((u8 *)(uptr)r_27);
    r_4w_2 = (r_5k + 0xffffffffu);
    r_rq_6 = away(a_2, 8ull);
    r_08_1 = away(a_2, 16ull);
    r_e3 = ld32(r_08_1);
    if (((u32)umin64((u64)(ld64(r_rq_6) >> 3ull), 0x1fffffffull) - r_e3) < r_12_1) goto l_arm_4g;
    goto l_then_dc;
l_arm_gt:;
    switch (a_7) {
    case 0u: goto l_arm_7a;
    case 1u: { r_5k_1 = a_7; r_qp = a_7; r_7u = 0u; r_pz = 0ull; goto l_join_1g; }
    case 2u: goto l_arm_qu;
    default: goto l_noarm_e1;
    }
l_common_9c:;
    st8(a_1, r_10);
    st32(away(a_1, 8ull), r_kb);
    st32(away(a_1, 12ull), r_n4);
    st64(away(a_1, 16ull), r_yp);
    return;
l_arm_7a:;
    st64((ldp(a_2) + (i64)((u64)((u64)a_4 << 3ull))), r_d4);
    r_5k_1 = 0u;
    r_qp = 0u;
    r_7u = 0u;
    r_pz = 0ull;
    goto l_join_1g;
l_arm_qu:;
    r_5k_1 = 1u;
    r_qp = 34u;
    r_7u = 0u;
    r_pz = 0ull;
    goto l_join_1g;
l_noarm_e1:;
    UNREACHABLE();
l_arm_e4:;
    u64 r_24_2 = (u64)r_gx;
    r_q7 = (r_ep & 65535ull);
    r_lc_2 = (r_q7 + r_24_2);
    r_z6 = (u64)(r_q7 << 3ull);
    r_c0_1 = away(t_f6, (u64)(r_24_2 << 3ull));
    if (r_az < 32u) { r_nm = r_q7; goto l_loop_jc; }
    goto l_else_wj;
l_loop_jc:;
    if (r_nm == 0ull) { r_ev = 0ull; goto l_capnp_fc; }
    u64 r_0f = (r_nm + 0xffffffffffffffffull);
    if (ld64(away(r_c0_1, (u64)(r_0f << 3ull))) == 0ull) { r_nm = r_0f; goto l_loop_jc; }
    r_ev = r_nm;
    goto l_capnp_fc;
l_else_wj:;
    if (!(ld64(away(away(r_c0_1, r_z6), 0xfffffffffffffff8ull)) == 0ull)) { r_ev = r_q7; goto l_capnp_fc; }
    u64 r_qz = capnp_words_lanes_used_words_bound(r_c0_1, r_z6);
    r_nm_1 = r_qz;
l_loop_jc_1:;
    if (r_nm_1 == 0ull) { r_ev = 0ull; goto l_capnp_fc; }
    u64 r_0f_1 = (r_nm_1 + 0xffffffffffffffffull);
    if (ld64(away(r_c0_1, (u64)(r_0f_1 << 3ull))) == 0ull) { r_nm_1 = r_0f_1; goto l_loop_jc_1; }
    r_ev = r_nm_1;
l_capnp_fc:;
    r_z6_1 = (u64)(r_y6 << 3ull);
    r_c0_2 = away(t_f6, (u64)(r_lc_2 << 3ull));
    if (r_d4 < 0x20000000000000ull) { r_nm_2 = r_y6; goto l_loop_jc_2; }
    goto l_else_wj_1;
l_loop_jc_2:;
    if (r_nm_2 == 0ull) { r_mh = 0ull; goto l_capnp_kv; }
    u64 r_0f_2 = (r_nm_2 + 0xffffffffffffffffull);
    if (ld64(away(r_c0_2, (u64)(r_0f_2 << 3ull))) == 0ull) { r_nm_2 = r_0f_2; goto l_loop_jc_2; }
    r_mh = r_nm_2;
    goto l_capnp_kv;
l_else_wj_1:;
    if (!(ld64(away(away(r_c0_2, r_z6_1), 0xfffffffffffffff8ull)) == 0ull)) { r_mh = r_y6; goto l_capnp_kv; }
    u64 r_qz_1 = capnp_words_lanes_used_words_bound(r_c0_2, r_z6_1);
    r_nm_3 = r_qz_1;
l_loop_jc_3:;
    if (r_nm_3 == 0ull) { r_mh = 0ull; goto l_capnp_kv; }
    u64 r_0f_3 = (r_nm_3 + 0xffffffffffffffffull);
    if (ld64(away(r_c0_2, (u64)(r_0f_3 << 3ull))) == 0ull) { r_nm_3 = r_0f_3; goto l_loop_jc_3; }
    r_mh = r_nm_3;
l_capnp_kv:;
    r_ag = r_ev;
    r_ib = ((u32)r_mh & 65535u);
    goto l_capnp_ed;
l_arm_ps:;
    r_ag = r_ep;
    r_ib = (u32)r_y6;
l_capnp_ed:;
    r_xg_1 = (u16)r_ag;
    r_29 = ((u32)r_ag & 65535u);
    r_68_1 = (r_ib + r_29);
    if (!(r_68_1 == 0u)) goto l_join_iw;
    u64 r_7l = (u64)a_4;
    st64((ldp(a_2) + (i64)((u64)(r_7l << 3ull))), 0xfffffffcull);
    pre_bv = r_7l;
    r_6n = a_3;
    goto l_arm_y5;
l_join_iw:;
    r_08_2 = away(a_2, 16ull);
    r_e3_1 = ld32(r_08_2);
    if (r_68_1 > ((u32)umin64((u64)(ld64(away(a_2, 8ull)) >> 3ull), 0x1fffffffull) - r_e3_1)) goto l_arm_45;
    r_24_3 = (u64)r_e3_1;
    r_c0_3 = (u64)(u32)(r_68_1 << 3u);
    r_2b = away(ldp(a_2), (u64)(r_24_3 << 3ull));
    if (r_68_1 < 8u) goto l_then_5x;
    memset_or_none(r_2b, 0u, r_c0_3);
    goto l_capnp_od;
l_then_5x:;
    t_2b = away(r_2b, r_c0_3);
    if (!(r_68_1 > 3u)) goto l_else_gn;
    memset(r_2b, 0, 32);
    memset(away(t_2b, 0xffffffffffffffe0ull), 0, 32);
    goto l_capnp_od;
l_else_gn:;
    if (r_68_1 == 1u) goto l_then_qw;
    memset(r_2b, 0, 16);
    memset(away(t_2b, 0xfffffffffffffff0ull), 0, 16);
    goto l_capnp_od;
l_then_qw:;
    memset(r_2b, 0, 8);
    memset(away(t_2b, 0xfffffffffffffff8ull), 0, 8);
l_capnp_od:;
    st32(r_08_2, (r_e3_1 + r_68_1));
    st64((ldp(a_2) + (i64)((u64)((u64)a_4 << 3ull))), (((u64)((u64)r_ib << 48ull) | ((u64)(r_ag << 32ull) & 0xffff00000000ull)) | (u64)(u32)((r_e3_1 + (a_4 ^ 0xffffffffu)) << 2u)));
    pre_bv = r_24_3;
    r_6n = a_3;
    goto l_arm_y5;
l_arm_45:;
    capnp_lent_arena_lent_arena_LentArenaBuilderArena_allo_c5878f28(slot_1, a_2, (r_68_1 + 1u));
    if (!(ld8(slot_1) == 0u)) goto l_arm_x3;
    u32 r_yf = ld32((slot_1 + 4));
    u32 r_e3_2 = ld32((slot_1 + 8));
    u64 r_z6_2 = (u64)((u64)r_e3_2 << 3ull);
    st64((ldp(a_2) + (i64)(r_z6_2)), ((u64)((u64)r_ib << 48ull) | ((u64)(r_ag << 32ull) & 0xffff00000000ull)));
    st64((ldp(a_2) + (i64)((u64)((u64)a_4 << 3ull))), (((u64)((u64)r_yf << 32ull) | r_z6_2) | 2ull));
    pre_bv = (u64)(r_e3_2 + 1u);
    r_6n = r_yf;
l_arm_y5:;
    r_qt = (u32)pre_bv;
    r_0l = ((u64)(r_ag << 3ull) & 0x7fff8ull);
    r_c0_4 = away(t_f6, (u64)((u64)r_gx << 3ull));
    if (r_xg_1 == 0u) goto l_capnp_am;
    r_2b_1 = away(ldp(a_2), (u64)(pre_bv << 3ull));
    if (!(r_xg_1 < 8u)) goto l_else_r3;
    if (!(r_xg_1 > 3u)) goto l_else_1o;
    mv32(r_2b_1, r_c0_4);
    u64 r_bh = (r_0l + 0xffffffffffffffe0ull);
    mv32((r_2b_1 + (i64)(r_bh)), (r_c0_4 + (i64)(r_bh)));
    goto l_capnp_am;
l_else_1o:;
    if (r_xg_1 == 1u) goto l_then_49;
    mv16(r_2b_1, r_c0_4);
    u64 r_8f = (r_0l + 0xfffffffffffffff0ull);
    mv16((r_2b_1 + (i64)(r_8f)), (r_c0_4 + (i64)(r_8f)));
    goto l_capnp_am;
l_then_49:;
    mv8(r_2b_1, r_c0_4);
    u64 r_la = (r_0l + 0xfffffffffffffff8ull);
    mv8((r_2b_1 + (i64)(r_la)), (r_c0_4 + (i64)(r_la)));
    goto l_capnp_am;
l_else_r3:;
    if (((u64)(uptr)r_2b_1 - (u64)(uptr)r_c0_4) < r_0l) { r_il = 0ull; goto l_join_fh; }
    memmove_or_none(r_2b_1, r_c0_4, r_0l);
    goto l_capnp_am;
l_join_fh:;
    st8((r_2b_1 + (i64)(r_il)), ld8((r_c0_4 + (i64)(r_il))));
    u64 r_c4_1 = (r_il + 1ull);
    if (!(r_c4_1 == r_0l)) { r_il = r_c4_1; goto l_join_fh; }
l_capnp_am:;
    memset(slot_1, 0u, 24);
    st64((slot_2 + 56), 0ull);
    if (r_ib == 0u) { r_t8 = 0u; r_hg = 0u; r_lc_3 = 0u; r_nj = 0ull; goto l_capnp_mp; }
    st64(slot_2, r_eg);
    stp((slot_2 + 8), r_rv);
    st64((slot_2 + 16), r_qw);
    st64((slot_2 + 24), r_qd);
    stp((slot_2 + 32), t_f6);
    st64((slot_2 + 40), r_9h);
    st32((slot_2 + 48), (r_az + r_gx));
    st32((slot_2 + 52), 0u);
    st32((slot_2 + 56), r_4w);
    capnp_copies_copy_children_copy_children_out_of_line_5_f210a996(slot_1, a_2, r_6n, (r_29 + r_qt), slot_2, r_ib, a_6, a_7);
    r_t8 = ld8(slot_1);
    r_hg = ld8((slot_1 + 8));
    r_lc_3 = ld32((slot_1 + 12));
    r_nj = ld64((slot_1 + 16));
l_capnp_mp:;
    r_5k_1 = r_t8;
    r_qp = r_hg;
    r_7u = r_lc_3;
    r_pz = r_nj;
    goto l_join_1g;
l_arm_x3:;
    r_5k_1 = 1u;
    r_qp = ld8((slot_1 + 8));
    r_7u = ld32((slot_1 + 12));
    r_pz = ld64((slot_1 + 16));
    goto l_join_1g;
l_arm_kb:;
    r_yo = 0ull;
    r_tw = 0u;
    r_l2 = away(((u8 *)(uptr)r_27), (u64)((u64)r_gx << 3ull));
    r_nm_4 = 0ull;
    r_61 = 0ull;
    r_kz = 0ull;
    goto l_capnp_rj;
l_arm_gk_1:;
    t_f6_3 = ((u8 *)(uptr)r_27);
    switch (switch_wl) {
    case 5u: goto l_capnp_9l;
    case 4u: goto l_capnp_vt;
    case 3u: goto l_capnp_3x;
    case 1u: goto l_capnp_3m;
    case 2u: goto l_capnp_qf;
    default: goto l_noarm_e1_1;
    }
l_capnp_3m:;
    u64 r_c6_1 = (u64)((r_ij + 63ull) >> 6ull);
    r_yo = 1ull;
    r_tw = switch_wl;
    r_l2 = away(t_f6_3, (u64)((u64)r_gx << 3ull));
    r_nm_4 = (u64)(r_c6_1 << 3ull);
    r_61 = r_c6_1;
    r_kz = 1ull;
    goto l_capnp_rj;
l_capnp_qf:;
    u64 r_c6_2 = (u64)(((u64)(r_ij << 3ull) + 63ull) >> 6ull);
    r_yo = 2ull;
    r_tw = switch_wl;
    r_l2 = away(t_f6_3, (u64)((u64)r_gx << 3ull));
    r_nm_4 = (u64)(r_c6_2 << 3ull);
    r_61 = r_c6_2;
    r_kz = 8ull;
    goto l_capnp_rj;
l_capnp_3x:;
    u64 r_c6_3 = (u64)(((u64)(r_ij << 4ull) + 63ull) >> 6ull);
    r_yo = 3ull;
    r_tw = switch_wl;
    r_l2 = away(t_f6_3, (u64)((u64)r_gx << 3ull));
    r_nm_4 = (u64)(r_c6_3 << 3ull);
    r_61 = r_c6_3;
    r_kz = 16ull;
    goto l_capnp_rj;
l_capnp_vt:;
    u64 r_c6_4 = (u64)(((u64)(r_ij << 5ull) + 63ull) >> 6ull);
    r_yo = 4ull;
    r_tw = switch_wl;
    r_l2 = away(t_f6_3, (u64)((u64)r_gx << 3ull));
    r_nm_4 = (u64)(r_c6_4 << 3ull);
    r_61 = r_c6_4;
    r_kz = 32ull;
    goto l_capnp_rj;
l_capnp_9l:;
    r_yo = 5ull;
    r_tw = switch_wl;
    r_l2 = away(t_f6_3, (u64)((u64)r_gx << 3ull));
    r_nm_4 = (u64)(r_ij << 3ull);
    r_61 = r_ij;
    r_kz = 64ull;
    goto l_capnp_rj;
l_noarm_e1_1:;
    UNREACHABLE();
l_capnp_rj:;
    r_b6 = (r_kz * r_ij);
    r_se = (u64)((r_b6 + 63ull) >> 6ull);
    r_12_2 = (u32)r_se;
    t_0f = (r_61 + 0xffffffffffffffffull);
    r_08_3 = away(a_2, 16ull);
    r_e3_3 = ld32(r_08_3);
    if (((u32)umin64((u64)(ld64(away(a_2, 8ull)) >> 3ull), 0x1fffffffull) - r_e3_3) < r_12_2) goto l_join_wg;
    r_z6_3 = (u64)(r_se << 3ull);
    r_2b_2 = away(ldp(a_2), (u64)((u64)r_e3_3 << 3ull));
    if (r_b6 < 449ull) goto l_then_ij;
    memset_or_none(r_2b_2, 0u, r_z6_3);
    goto l_arm_od;
l_then_ij:;
    if (!(r_b6 > 192ull)) goto l_else_np;
    memset(r_2b_2, 0, 32);
    memset(away(away(r_2b_2, r_z6_3), 0xffffffffffffffe0ull), 0, 32);
    goto l_arm_od;
l_else_np:;
    if (!(r_b6 > 64ull)) goto l_else_we;
    memset(r_2b_2, 0, 16);
    memset(away(away(r_2b_2, r_z6_3), 0xfffffffffffffff0ull), 0, 16);
    goto l_arm_od;
l_else_we:;
    if (r_se == 0ull) goto l_arm_od;
    memset(r_2b_2, 0, 8);
    memset(away(away(r_2b_2, r_z6_3), 0xfffffffffffffff8ull), 0, 8);
    goto l_arm_od;
l_join_wg:;
    if (!(r_b6 > 0x7ffffff80ull)) goto l_join_5h;
    r_5k_1 = 1u;
    r_qp = 27u;
    r_7u = 0u;
    r_pz = (r_se + 1ull);
    goto l_join_1g;
l_join_5h:;
    u8 *r_xz = away(a_2, 24ull);
    st64(r_xz, uadd_sat64(ld64(r_xz), 1ull));
    r_5k_1 = 1u;
    r_qp = 0u;
    r_7u = 0u;
    r_pz = 0ull;
    goto l_join_1g;
l_arm_od:;
    st32(r_08_3, (r_e3_3 + r_12_2));
    st64((ldp(a_2) + (i64)((u64)((u64)a_4 << 3ull))), ((((r_d4 & 0xfffffff800000000ull) | (u64)((u64)r_tw << 32ull)) | (u64)(u32)((r_e3_3 + (a_4 ^ 0xffffffffu)) << 2u)) | 1ull));
    r_1q = (ld64((((u8 *)switch_table_capnp_copies_copy_copy_object_5ec03199cc959fcd) + (i64)(8 * r_yo))) * r_ij);
    if (r_nm_4 == 0ull) goto l_capnp_6p;
    r_2b_3 = away(ldp(a_2), (u64)((u64)r_e3_3 << 3ull));
    if (!(r_nm_4 < 64ull)) goto l_else_r3_1;
    if (!(r_nm_4 > 31ull)) goto l_else_dg;
    mv32(r_2b_3, r_l2);
    u64 r_bh_1 = (r_nm_4 + 0xffffffffffffffe0ull);
    mv32((r_2b_3 + (i64)(r_bh_1)), (r_l2 + (i64)(r_bh_1)));
    goto l_capnp_6p;
l_else_dg:;
    if (!(r_nm_4 > 15ull)) goto l_then_49_1;
    mv16(r_2b_3, r_l2);
    u64 r_8f_1 = (r_nm_4 + 0xfffffffffffffff0ull);
    mv16((r_2b_3 + (i64)(r_8f_1)), (r_l2 + (i64)(r_8f_1)));
    goto l_capnp_6p;
l_then_49_1:;
    mv8(r_2b_3, r_l2);
    u64 r_la_1 = (r_nm_4 + 0xfffffffffffffff8ull);
    mv8((r_2b_3 + (i64)(r_la_1)), (r_l2 + (i64)(r_la_1)));
    goto l_capnp_6p;
l_else_r3_1:;
    if (((u64)(uptr)r_2b_3 - (u64)(uptr)r_l2) < r_nm_4) { r_il_1 = 0ull; goto l_join_fh_1; }
    memmove_or_none(r_2b_3, r_l2, r_nm_4);
    goto l_capnp_6p;
l_join_fh_1:;
    st8((r_2b_3 + (i64)(r_il_1)), ld8((r_l2 + (i64)(r_il_1))));
    u64 r_c4_2 = (r_il_1 + 1ull);
    if (!(r_c4_2 == r_nm_4)) { r_il_1 = r_c4_2; goto l_join_fh_1; }
l_capnp_6p:;
    r_4i = (r_1q & 63ull);
    if (r_4i == 0ull) { r_5k_1 = 0u; r_qp = 0u; r_7u = 0u; r_pz = 0ull; goto l_join_1g; }
    st64((ldp(a_2) + (i64)((u64)((u64)(r_e3_3 + (u32)t_0f) << 3ull))), (ld64(away(r_l2, (u64)(t_0f << 3ull))) & ((u64)(0xffffffffffffffffull << (r_4i & 63u)) ^ 0xffffffffffffffffull)));
    r_5k_1 = 0u;
    r_qp = 0u;
    r_7u = 0u;
    r_pz = 0ull;
    goto l_join_1g;
l_then_dc:;
    r_z6_4 = (u64)(r_ij << 3ull);
    r_2b_4 = away(ldp(a_2), (u64)((u64)r_e3 << 3ull));
    if (r_d4 < 0x4000000000ull) goto l_then_fc;
    memset_or_none(r_2b_4, 0u, r_z6_4);
    goto l_capnp_od_1;
l_then_fc:;
    if (!(r_d4 > 0x1fffffffffull)) goto l_else_k7;
    memset(r_2b_4, 0, 32);
    memset(away(away(r_2b_4, r_z6_4), 0xffffffffffffffe0ull), 0, 32);
    goto l_capnp_od_1;
l_else_k7:;
    if (!(r_d4 > 0xfffffffffull)) goto l_else_at;
    memset(r_2b_4, 0, 16);
    memset(away(away(r_2b_4, r_z6_4), 0xfffffffffffffff0ull), 0, 16);
    goto l_capnp_od_1;
l_else_at:;
    if (r_ij == 0ull) goto l_capnp_od_1;
    memset(r_2b_4, 0, 8);
    memset(away(away(r_2b_4, r_z6_4), 0xfffffffffffffff8ull), 0, 8);
l_capnp_od_1:;
    st32(r_08_1, (r_e3 + r_12_1));
    st64((ldp(a_2) + (i64)((u64)((u64)a_4 << 3ull))), (((r_d4 & 0xfffffff800000000ull) | (u64)(u32)((r_e3 + (a_4 ^ 0xffffffffu)) << 2u)) | 0x600000001ull));
    if (r_ij == 0ull) { r_5k_1 = 0u; r_qp = 0u; r_7u = 0u; r_pz = 0ull; goto l_join_1g; }
    goto l_join_a0;
l_arm_4g:;
    if (!(r_ij == 0x1fffffffull)) goto l_join_5h_1;
    r_5k_1 = 1u;
    r_qp = 27u;
    r_7u = 0u;
    r_pz = (r_ij + 1ull);
    goto l_join_1g;
l_join_5h_1:;
    u8 *r_xz_1 = away(a_2, 24ull);
    st64(r_xz_1, uadd_sat64(ld64(r_xz_1), 1ull));
    r_5k_1 = 1u;
    r_qp = 0u;
    r_7u = 0u;
    r_pz = 0ull;
    goto l_join_1g;
l_join_a0:;
    r_7l_1 = (u64)a_3;
    r_gw_2 = (u64)(r_9h >> 3ull);
    r_x5 = (slot_4 + 8);
    r_zd = (slot_4 + 16);
    r_lk = (slot_4 + 24);
    r_89 = (slot_4 + 32);
    r_a8 = (slot_4 + 40);
    r_c4_3 = (slot_4 + 48);
    r_6c = (slot_4 + 56);
    r_08_4 = away(a_6, 16ull);
    r_nb_1 = (r_gw_2 & 0xffffffffull);
    r_sg = (r_5k == 1u);
    r_rq_7 = away(a_6, 8ull);
    r_x5_1 = (slot_3 + 8);
    r_k0 = (slot_3 + 12);
    r_zd_1 = (slot_3 + 16);
    r_s1 = (r_5k + 0xfffffffeu);
    t_q5_1 = (a_7 == 1u);
    r_x5_2 = (slot_1 + 8);
    r_k0_1 = (slot_1 + 12);
    r_zd_2 = (slot_1 + 16);
    r_ix = (slot_1 + 4);
    r_x5_3 = (slot_2 + 8);
    r_zd_3 = (slot_2 + 16);
    r_lk_1 = (slot_2 + 24);
    r_89_1 = (slot_2 + 32);
    r_a8_1 = (slot_2 + 40);
    r_c4_4 = (slot_2 + 48);
    r_bk = (slot_2 + 52);
    r_6c_1 = (slot_2 + 56);
    r_x5_4 = (slot_1 + 8);
    r_k0_2 = (slot_1 + 12);
    r_zd_4 = (slot_1 + 16);
    t_0c = (r_dh == 0u);
    r_x5_5 = (slot_1 + 8);
    r_k0_3 = (slot_1 + 12);
    r_zd_5 = (slot_1 + 16);
    r_ix_1 = (slot_1 + 4);
    t_6c = (slot_4 + 56);
    r_7l_2 = (u64)a_3;
    t_6c_1 = (slot_2 + 56);
    indvars_eg = 0ull;
    goto l_join_1e;
l_loop_qw:;
    u64 indvars_r7 = (indvars_eg + 1ull);
    if (indvars_r7 == r_ij) { r_5k_1 = 0u; r_qp = 0u; r_7u = 0u; r_pz = 0ull; goto l_join_1g; }
    indvars_eg = indvars_r7;
l_join_1e:;
    u32 t_s7 = (u32)indvars_eg;
    r_sr = (r_e3 + t_s7);
    r_24_4 = (u64)(r_gx + t_s7);
    memset(slot_3, 0u, 24);
    st64(t_6c, 0ull);
    if (!(r_gw_2 > r_24_4)) goto l_capnp_v7;
    r_qw_5 = ld64(away(t_f6_2, (u64)(r_24_4 << 3ull)));
    if (r_qw_5 == 0ull) goto l_capnp_v7;
    switch_f9 = (r_qw_5 & 3ull);
    r_ep_2 = (u64)(r_qw_5 >> 32ull);
    if (!((switch_f9 == 1ull) ? ((u8)((u8)((u8)r_ep_2 & 7u) + 255u) < 5u) : 0u)) goto l_join_br;
    r_ij_1 = (u64)(r_qw_5 >> 35ull);
    r_c6_5 = (u64)(((ld64(away(away(((u8 *)switch_table_capnp_pointers_pointers_validate_validate_f7685ec9), 8 * (r_ep_2 & 7ull)), 0xfffffffffffffff8ull)) * r_ij_1) + 63ull) >> 6ull);
    if (!t_0c) goto l_join_bd_1;
    st64(r_08_4, uadd_sat64(ld64(r_08_4), 1ull));
l_join_bd_1:;
    u64 r_m6_1 = ((u64)(r_qw_5 >> 2ull) & 0x3fffffffull);
    r_lc_4 = ((r_24_4 + 1ull) + r_m6_1);
    if (!(r_m6_1 < 0x20000000ull)) goto l_else_70_1;
    if (r_lc_4 > r_nb_1) { r_t8_1 = 23u; r_hg_1 = 0u; r_lc_5 = 0ull; goto l_capnp_mp_1; }
    r_gk = r_lc_4;
    goto l_arm_vo;
l_else_70_1:;
    u64 r_3o_1 = (r_lc_4 + 0xffffffffc0000000ull);
    if ((r_lc_4 < 0x40000000ull) ? 1u : (r_3o_1 > r_nb_1)) { r_t8_1 = 23u; r_hg_1 = 0u; r_lc_5 = 0ull; goto l_capnp_mp_1; }
    r_gk = r_3o_1;
l_arm_vo:;
    if (r_sg) { r_t8_1 = 26u; r_hg_1 = 0u; r_lc_5 = 0ull; goto l_capnp_mp_1; }
    if (r_nb_1 < (r_gk + r_c6_5)) { r_t8_1 = 23u; r_hg_1 = 0u; r_lc_5 = 0ull; goto l_capnp_mp_1; }
    if (!t_0c) goto l_arm_p5;
    if (!(ld8(a_6) == 1u)) goto l_arm_p5;
    r_52_6 = ld64(r_rq_7);
    if (r_52_6 < r_c6_5) { r_t8_1 = 30u; r_hg_1 = 0u; r_lc_5 = 0ull; goto l_capnp_mp_1; }
    st64(a_6, 1ull);
    st64(r_rq_7, (r_52_6 - r_c6_5));
l_arm_p5:;
    r_z6_5 = (u64)(r_c6_5 << 3ull);
    r_8a = away(t_f6_2, (u64)(r_gk << 3ull));
    r_1q_1 = (ld64(away(away(((u8 *)switch_table_capnp_pointers_pointers_validate_validate_f7685ec9), 8 * (r_ep_2 & 7ull)), 0xfffffffffffffff8ull)) * r_ij_1);
    r_se_1 = (u64)((r_1q_1 + 63ull) >> 6ull);
    r_12_3 = (u32)r_se_1;
    r_e3_4 = ld32(r_08_1);
    if (((u32)umin64((u64)(ld64(r_rq_6) >> 3ull), 0x1fffffffull) - r_e3_4) < r_12_3) goto l_arm_45_1;
    r_z6_6 = (u64)(r_se_1 << 3ull);
    r_2b_5 = away(ldp(a_2), (u64)((u64)r_e3_4 << 3ull));
    if (r_1q_1 < 449ull) goto l_then_ij_1;
    memset_or_none(r_2b_5, 0u, r_z6_6);
    goto l_core_kl;
l_then_ij_1:;
    if (!(r_1q_1 > 192ull)) goto l_else_np_1;
    memset(r_2b_5, 0, 32);
    memset(away(away(r_2b_5, r_z6_6), 0xffffffffffffffe0ull), 0, 32);
    goto l_core_kl;
l_else_np_1:;
    if (!(r_1q_1 > 64ull)) goto l_else_r8;
    memset(r_2b_5, 0, 16);
    memset(away(away(r_2b_5, r_z6_6), 0xfffffffffffffff0ull), 0, 16);
    goto l_core_kl;
l_else_r8:;
    if (r_se_1 == 0ull) goto l_core_kl;
    memset(r_2b_5, 0, 8);
    memset(away(away(r_2b_5, r_z6_6), 0xfffffffffffffff8ull), 0, 8);
l_core_kl:;
    st32(r_08_1, (r_e3_4 + r_12_3));
    st64((ldp(a_2) + (i64)((u64)((u64)r_sr << 3ull))), ((r_qw_5 & 0xffffffff00000001ull) | (u64)(u32)((r_e3_4 + (r_sr ^ 0xffffffffu)) << 2u)));
    r_oh = r_e3_4;
    goto l_arm_4s;
l_arm_45_1:;
    capnp_lent_arena_lent_arena_LentArenaBuilderArena_allo_c5878f28(slot_1, a_2, (r_12_3 + 1u));
    if (!(ld8(slot_1) == 0u)) goto l_arm_vh;
    u32 r_e3_5 = ld32(r_x5_5);
    u64 r_z6_7 = (u64)((u64)r_e3_5 << 3ull);
    u32 r_yf_1 = ld32(r_ix_1);
    st64((ldp(a_2) + (i64)(r_z6_7)), (r_qw_5 & 0xffffffff00000001ull));
    st64((ldp(a_2) + (i64)((u64)((u64)r_sr << 3ull))), (((u64)((u64)r_yf_1 << 32ull) | r_z6_7) | 2ull));
    r_oh = (r_e3_5 + 1u);
l_arm_4s:;
    u64 r_1q_2 = (ld64(away(away(((u8 *)switch_table_capnp_pointers_pointers_validate_validate_f7685ec9), 8 * (r_ep_2 & 7ull)), 0xfffffffffffffff8ull)) * r_ij_1);
    capnp_arena_traits_arena_writing_copy_words_d7a666d2d35ab297(a_2, r_oh, r_8a, r_z6_5);
    r_4i_1 = (r_1q_2 & 63ull);
    if (r_4i_1 == 0ull) goto l_capnp_v7;
    u64 r_0f_4 = (r_c6_5 + 0xffffffffffffffffull);
    st64((ldp(a_2) + (i64)((u64)((u64)(r_oh + (u32)r_0f_4) << 3ull))), (ld64(away(r_8a, (u64)(r_0f_4 << 3ull))) & ((u64)(0xffffffffffffffffull << (r_4i_1 & 63u)) ^ 0xffffffffffffffffull)));
    goto l_capnp_v7;
l_arm_vh:;
    r_t8_1 = ld8(r_x5_5);
    r_hg_1 = ld32(r_k0_3);
    r_lc_5 = ld64(r_zd_5);
    goto l_capnp_mp_1;
l_join_br:;
    if (!(switch_f9 == 0ull)) goto l_else_4r;
    r_y6_2 = (u64)(r_qw_5 >> 48ull);
    r_q7_1 = (r_ep_2 & 65535ull);
    r_lc_6 = (r_q7_1 + r_y6_2);
    if (t_pa) goto l_join_o1;
    st64(r_08_4, uadd_sat64(ld64(r_08_4), 1ull));
l_join_o1:;
    u64 r_m6_2 = ((u64)(r_qw_5 >> 2ull) & 0x3fffffffull);
    r_lc_7 = ((r_24_4 + 1ull) + r_m6_2);
    if (!(r_m6_2 < 0x20000000ull)) goto l_else_70_2;
    if (r_lc_7 > r_nb_1) { r_t8_2 = 23u; goto l_capnp_mp_2; }
    r_jm = r_lc_7;
    goto l_arm_h8;
l_else_70_2:;
    u64 r_3o_2 = (r_lc_7 + 0xffffffffc0000000ull);
    if ((r_lc_7 < 0x40000000ull) ? 1u : (r_3o_2 > r_nb_1)) { r_t8_2 = 23u; goto l_capnp_mp_2; }
    r_jm = r_3o_2;
l_arm_h8:;
    r_4r = (u32)r_jm;
    if (r_sg) { r_t8_2 = 26u; goto l_capnp_mp_2; }
    r_8u = (r_nb_1 < (r_jm + r_lc_6));
    if ((u8)((u8)t_pa | (u8)r_8u)) goto l_capnp_li;
    if (!(ld8(a_6) == 1u)) { r_5b = r_4r; goto l_arm_7a_1; }
    r_52_7 = ld64(r_rq_7);
    if (r_52_7 < r_lc_6) { r_t8_2 = 30u; goto l_capnp_mp_2; }
    st64(a_6, 1ull);
    st64(r_rq_7, (r_52_7 - r_lc_6));
    r_5b = r_4r;
    goto l_arm_7a_1;
l_capnp_li:;
    if (r_8u) { r_t8_2 = 23u; goto l_capnp_mp_2; }
    r_5b = (r_8u ? 0u : r_4r);
l_arm_7a_1:;
    if (!t_q5_1) { r_um = r_ep_2; r_c9 = r_y6_2; goto l_capnp_2z; }
    u64 r_24_5 = (u64)r_5b;
    u64 r_ck = capnp_words_words_used_words_in(t_f6_2, r_24_5, r_q7_1);
    u64 r_ck_1 = capnp_words_words_used_words_in(t_f6_2, (r_q7_1 + r_24_5), r_y6_2);
    r_um = r_ck;
    r_c9 = r_ck_1;
l_capnp_2z:;
    r_az_2 = ((u32)r_um & 65535u);
    r_az_3 = ((u32)r_c9 & 65535u);
    r_68_2 = (r_az_3 + r_az_2);
    if (!(r_68_2 == 0u)) goto l_join_vr;
    u64 r_24_6 = (u64)r_sr;
    st64((ldp(a_2) + (i64)((u64)(r_24_6 << 3ull))), 0xfffffffcull);
    r_zw = ((u64)(r_24_6 << 32ull) | r_7l_1);
    goto l_arm_ww;
l_join_vr:;
    r_57 = capnp_lent_arena_lent_arena_LentArenaBuilderArena_allo_b39b26fb(a_2, r_68_2);
    if (!(r_57.f0 == 1u)) goto l_arm_3o;
    u32 r_xo = r_57.f1;
    st64((ldp(a_2) + (i64)((u64)((u64)r_sr << 3ull))), ((((u64)(r_um << 32ull) & 0xffff00000000ull) | (u64)(r_c9 << 48ull)) | (u64)(u32)((r_xo + (r_sr ^ 0xffffffffu)) << 2u)));
    r_zw = ((u64)((u64)r_xo << 32ull) | r_7l_2);
    goto l_arm_ww;
l_arm_3o:;
    capnp_lent_arena_lent_arena_LentArenaBuilderArena_allo_c5878f28(slot_1, a_2, (r_68_2 + 1u));
    if (!(ld8(slot_1) == 0u)) goto l_arm_vh_1;
    u32 r_yf_2 = ld32(r_ix);
    u32 r_e3_6 = ld32(r_x5_2);
    u64 r_z6_8 = (u64)((u64)r_e3_6 << 3ull);
    st64((ldp(a_2) + (i64)(r_z6_8)), (((u64)(r_um << 32ull) & 0xffff00000000ull) | (u64)(r_c9 << 48ull)));
    st64((ldp(a_2) + (i64)((u64)((u64)r_sr << 3ull))), (((u64)((u64)r_yf_2 << 32ull) | r_z6_8) | 2ull));
    r_zw = ((u64)((u64)(r_e3_6 + 1u) << 32ull) | (u64)r_yf_2);
l_arm_ww:;
    r_4r_1 = (u32)(u64)(r_zw >> 32ull);
    capnp_copies_copy_elements_put_words_d7a666d2d35ab297(a_2, r_4r_1, away(t_f6_2, (u64)((u64)r_5b << 3ull)), ((u64)(r_um << 3ull) & 0x7fff8ull));
    memset(slot_1, 0u, 24);
    st64(t_6c_1, 0ull);
    if (r_az_3 == 0u) { r_2b_6 = 0u; r_qh = 0u; r_ip = 0u; r_wq = 0ull; goto l_capnp_no; }
    st64(slot_2, r_eg);
    stp(r_x5_3, r_rv);
    st64(r_zd_3, r_qw);
    st64(r_lk_1, r_qd);
    stp(r_89_1, t_f6_2);
    st64(r_a8_1, r_9h);
    st32(r_c4_4, (r_5b + ((u32)r_ep_2 & 65535u)));
    st32(r_bk, 0u);
    st32(r_6c_1, r_s1);
    capnp_copies_copy_children_copy_children_out_of_line_5_f210a996(slot_1, a_2, (u32)r_zw, (r_az_2 + r_4r_1), slot_2, r_az_3, a_6, a_7);
    r_2b_6 = ld8(slot_1);
    r_qh = ld8(r_x5_4);
    r_ip = ld32(r_k0_2);
    r_wq = ld64(r_zd_4);
l_capnp_no:;
    t_pz = r_wq;
    t_fy = r_ip;
    r_1l = r_qh;
    t_ry = r_2b_6;
    goto l_capnp_rz;
l_arm_vh_1:;
    t_pz = ld64(r_zd_2);
    t_fy = ld32(r_k0_1);
    r_1l = ld8(r_x5_2);
    t_ry = 1u;
    goto l_capnp_rz;
l_capnp_mp_2:;
    r_5k_1 = 1u;
    r_qp = r_t8_2;
    r_7u = 0u;
    r_pz = 0ull;
    goto l_join_1g;
l_else_4r:;
    st64(slot_4, r_eg);
    stp(r_x5, r_rv);
    st64(r_zd, r_qw);
    st64(r_lk, r_qd);
    stp(r_89, t_f6_2);
    st64(r_a8, r_9h);
    st64(r_c4_3, r_24_4);
    st32(r_6c, r_4w_2);
    capnp_copies_copy_copy_object_5ec03199cc959fcd(slot_3, a_2, a_3, r_sr, slot_4, a_6, a_7);
    t_pz = ld64(r_zd_1);
    t_fy = ld32(r_k0);
    r_1l = ld8(r_x5_1);
    t_ry = ld8(slot_3);
    goto l_capnp_rz;
l_capnp_v7:;
    goto l_loop_qw;
l_capnp_mp_1:;
    r_5k_1 = 1u;
    r_qp = r_t8_1;
    r_7u = r_hg_1;
    r_pz = r_lc_5;
    goto l_join_1g;
l_capnp_rz:;
    if (t_ry == 0u) goto l_loop_qw;
    r_5k_1 = 1u;
    r_qp = r_1l;
    r_7u = t_fy;
    r_pz = t_pz;
    goto l_join_1g;
l_arm_q5:;
    if ((u8)((u8)(t_c8 == 0u) | (u8)((u16)(r_py | r_xg) == 0u))) { r_xa = 0u; r_fz = 0u; goto l_capnp_l9; }
    r_q7_2 = (r_ep_1 & 65535ull);
    r_i4 = 0u;
    r_pi = (u64)r_ll;
    r_jc = 0u;
    r_qp_1 = 0u;
l_join_20:;
    u16 r_to = (u16)(r_xg - r_qp_1);
    r_u7 = (u64)r_to;
    r_z6_9 = (u64)(r_u7 << 3ull);
    r_c0_5 = away(t_f6_1, (u64)((r_pi + (u64)r_qp_1) << 3ull));
    if (r_to < 32u) { r_nm_5 = r_u7; goto l_loop_jc_4; }
    goto l_else_wj_2;
l_loop_jc_4:;
    if (r_nm_5 == 0ull) { r_xk = 0ull; goto l_capnp_k4; }
    u64 r_0f_5 = (r_nm_5 + 0xffffffffffffffffull);
    if (ld64(away(r_c0_5, (u64)(r_0f_5 << 3ull))) == 0ull) { r_nm_5 = r_0f_5; goto l_loop_jc_4; }
    r_xk = r_nm_5;
    goto l_capnp_k4;
l_else_wj_2:;
    if (!(ld64(away(away(r_c0_5, r_z6_9), 0xfffffffffffffff8ull)) == 0ull)) { r_xk = r_u7; goto l_capnp_k4; }
    u64 r_qz_2 = capnp_words_lanes_used_words_bound(r_c0_5, r_z6_9);
    r_nm_6 = r_qz_2;
l_loop_jc_5:;
    if (r_nm_6 == 0ull) { r_xk = 0ull; goto l_capnp_k4; }
    u64 r_0f_6 = (r_nm_6 + 0xffffffffffffffffull);
    if (ld64(away(r_c0_5, (u64)(r_0f_6 << 3ull))) == 0ull) { r_nm_6 = r_0f_6; goto l_loop_jc_5; }
    r_xk = r_nm_6;
l_capnp_k4:;
    r_5f = (u16)(r_qp_1 + (u16)r_xk);
    r_5q = (r_pi + r_q7_2);
    u16 r_to_1 = (u16)(r_py - r_jc);
    r_u7_1 = (u64)r_to_1;
    r_z6_10 = (u64)(r_u7_1 << 3ull);
    r_c0_6 = away(t_f6_1, (u64)((r_5q + (u64)r_jc) << 3ull));
    if (r_to_1 < 32u) { r_nm_7 = r_u7_1; goto l_loop_jc_6; }
    goto l_else_wj_3;
l_loop_jc_6:;
    if (r_nm_7 == 0ull) { r_a3 = 0ull; goto l_capnp_8b; }
    u64 r_0f_7 = (r_nm_7 + 0xffffffffffffffffull);
    if (ld64(away(r_c0_6, (u64)(r_0f_7 << 3ull))) == 0ull) { r_nm_7 = r_0f_7; goto l_loop_jc_6; }
    r_a3 = r_nm_7;
    goto l_capnp_8b;
l_else_wj_3:;
    if (!(ld64(away(away(r_c0_6, r_z6_10), 0xfffffffffffffff8ull)) == 0ull)) { r_a3 = r_u7_1; goto l_capnp_8b; }
    u64 r_qz_3 = capnp_words_lanes_used_words_bound(r_c0_6, r_z6_10);
    r_nm_8 = r_qz_3;
l_loop_jc_7:;
    if (r_nm_8 == 0ull) { r_a3 = 0ull; goto l_capnp_8b; }
    u64 r_0f_8 = (r_nm_8 + 0xffffffffffffffffull);
    if (ld64(away(r_c0_6, (u64)(r_0f_8 << 3ull))) == 0ull) { r_nm_8 = r_0f_8; goto l_loop_jc_7; }
    r_a3 = r_nm_8;
l_capnp_8b:;
    u16 r_5f_1 = (u16)(r_jc + (u16)r_a3);
    u32 r_ff = (r_i4 + 1u);
    if (r_ff == t_c8) { r_xa = r_5f; r_fz = r_5f_1; goto l_capnp_l9; }
    r_i4 = r_ff;
    r_pi = (r_5q + r_y6_1);
    r_jc = r_5f_1;
    r_qp_1 = r_5f;
    goto l_join_20;
l_capnp_l9:;
    capnp_allocation_making_make_struct_list_d7a666d2d35ab297(slot_5, a_2, a_3, a_4, t_c8, r_xa, r_fz);
    r_fj = ld64((slot_5 + 4));
    if (!(ld8(slot_5) == 0u)) goto l_arm_mo;
    r_wt = (u32)r_fj;
    r_ll_1 = ((u32)(u64)(r_fj >> 32ull) + 1u);
    r_68_3 = (r_az_1 + r_12);
    r_00 = (u32)r_xa;
    r_68_4 = ((u32)r_fz + r_00);
    if ((u8)((u8)(r_68_4 == 0u) | (u8)(t_c8 == 0u))) { r_rh = 0u; r_hg_2 = 0u; r_je = 0u; r_s2 = 0ull; goto l_capnp_nb; }
    r_z6_11 = (u64)((u64)r_xa << 3ull);
    r_hi = (r_xa == 0u);
    r_u6 = (r_xa < 8u);
    r_vw = (r_xa > 3u);
    r_bh_2 = (r_xa == 1u);
    r_8f_2 = (r_z6_11 + 0xfffffffffffffff0ull);
    r_la_2 = (r_z6_11 + 0xfffffffffffffff8ull);
    r_bh_3 = (r_z6_11 + 0xffffffffffffffe0ull);
    r_hi_1 = (r_fz == 0u);
    r_gw_3 = (u64)(r_9h >> 3ull);
    r_x5_6 = (slot_4 + 8);
    r_zd_6 = (slot_4 + 16);
    r_lk_2 = (slot_4 + 24);
    r_89_2 = (slot_4 + 32);
    r_a8_2 = (slot_4 + 40);
    r_c4_5 = (slot_4 + 48);
    r_6c_2 = (slot_4 + 56);
    r_08_5 = away(a_6, 16ull);
    r_nb_2 = (r_gw_3 & 0xffffffffull);
    r_sg_1 = (r_5k == 1u);
    r_rq_8 = away(a_6, 8ull);
    r_x5_7 = (slot_3 + 8);
    r_k0_4 = (slot_3 + 12);
    r_zd_7 = (slot_3 + 16);
    r_mx = ((r_4w_1 == 0x80000000u) ? 0x80000000u : (r_5k + 0xfffffffeu));
    r_rq_9 = away(a_2, 8ull);
    r_08_6 = away(a_2, 16ull);
    r_xz_2 = away(a_2, 24ull);
    r_x5_8 = (slot_2 + 8);
    r_zd_8 = (slot_2 + 16);
    r_lk_3 = (slot_2 + 24);
    r_89_3 = (slot_2 + 32);
    r_a8_3 = (slot_2 + 40);
    r_c4_6 = (slot_2 + 48);
    r_bk_1 = (slot_2 + 52);
    r_6c_3 = (slot_2 + 56);
    r_x5_9 = (slot_1 + 8);
    r_k0_5 = (slot_1 + 12);
    r_zd_9 = (slot_1 + 16);
    t_0c_1 = (r_dh == 0u);
    wide_c0 = (u64)t_c8;
    wide_u7 = (u64)r_fz;
    t_6c_2 = (slot_4 + 56);
    t_6c_3 = (slot_2 + 56);
    r_wt_1 = (u32)r_fj;
    indvars_ff = 0ull;
    goto l_join_hy;
l_loop_da:;
    u64 indvars_r7_1 = (indvars_ff + 1ull);
    if (indvars_r7_1 == wide_c0) { r_rh = 0u; r_hg_2 = 0u; r_je = 0u; r_s2 = 0ull; goto l_capnp_nb; }
    indvars_ff = indvars_r7_1;
l_join_hy:;
    u32 t_nk = (u32)indvars_ff;
    r_w0 = ((r_68_3 * t_nk) + r_ll);
    r_w0_1 = (r_ll_1 + (r_68_4 * t_nk));
    r_c0_7 = away(t_f6_1, (u64)((u64)r_w0 << 3ull));
    if (r_hi) goto l_capnp_j9;
    r_2b_7 = away(ldp(a_2), (u64)((u64)r_w0_1 << 3ull));
    if (!r_u6) goto l_else_r3_2;
    if (!r_vw) goto l_else_l8;
    mv32(r_2b_7, r_c0_7);
    mv32((r_2b_7 + (i64)(r_bh_3)), (r_c0_7 + (i64)(r_bh_3)));
    goto l_capnp_j9;
l_else_l8:;
    if (r_bh_2) goto l_then_1s;
    mv16(r_2b_7, r_c0_7);
    mv16((r_2b_7 + (i64)(r_8f_2)), (r_c0_7 + (i64)(r_8f_2)));
    goto l_capnp_j9;
l_then_1s:;
    mv8(r_2b_7, r_c0_7);
    mv8((r_2b_7 + (i64)(r_la_2)), (r_c0_7 + (i64)(r_la_2)));
    goto l_capnp_j9;
l_else_r3_2:;
    if (((u64)(uptr)r_2b_7 - (u64)(uptr)r_c0_7) < r_z6_11) { r_il_2 = 0ull; goto l_join_fh_2; }
    memmove_or_none(r_2b_7, r_c0_7, r_z6_11);
    goto l_capnp_j9;
l_join_fh_2:;
    st8((r_2b_7 + (i64)(r_il_2)), ld8((r_c0_7 + (i64)(r_il_2))));
    u64 r_c4_7 = (r_il_2 + 1ull);
    if (!(r_c4_7 == r_z6_11)) { r_il_2 = r_c4_7; goto l_join_fh_2; }
l_capnp_j9:;
    r_w0_2 = (r_w0 + r_az_1);
    r_w0_3 = (r_w0_1 + r_00);
    if (r_hi_1) goto l_loop_da;
    indvars_vm = 0ull;
    goto l_join_iw_1;
l_loop_w2:;
    u64 indvars_r7_2 = (indvars_vm + 1ull);
    if (indvars_r7_2 == wide_u7) goto l_loop_da;
    indvars_vm = indvars_r7_2;
l_join_iw_1:;
    u32 t_nk_1 = (u32)indvars_vm;
    r_sr_1 = (r_w0_3 + t_nk_1);
    r_24_7 = (u64)(r_w0_2 + t_nk_1);
    memset(slot_3, 0u, 24);
    st64(t_6c_2, 0ull);
    if (!(r_gw_3 > r_24_7)) goto l_capnp_v7_1;
    r_qw_6 = ld64(away(t_f6_1, (u64)(r_24_7 << 3ull)));
    if (r_qw_6 == 0ull) goto l_capnp_v7_1;
    switch_f9_1 = (r_qw_6 & 3ull);
    r_ep_3 = (u64)(r_qw_6 >> 32ull);
    if (!((switch_f9_1 == 1ull) ? ((u8)((u8)((u8)r_ep_3 & 7u) + 255u) < 5u) : 0u)) goto l_join_br_1;
    r_ij_2 = (u64)(r_qw_6 >> 35ull);
    r_1q_3 = (ld64(away(away(((u8 *)switch_table_capnp_pointers_pointers_validate_validate_f7685ec9), 8 * (r_ep_3 & 7ull)), 0xfffffffffffffff8ull)) * r_ij_2);
    r_c6_6 = (u64)((r_1q_3 + 63ull) >> 6ull);
    if (!t_0c_1) goto l_join_bd_2;
    st64(r_08_5, uadd_sat64(ld64(r_08_5), 1ull));
l_join_bd_2:;
    u64 r_m6_3 = ((u64)(r_qw_6 >> 2ull) & 0x3fffffffull);
    r_lc_8 = ((r_24_7 + 1ull) + r_m6_3);
    if (!(r_m6_3 < 0x20000000ull)) goto l_else_70_3;
    if (r_lc_8 > r_nb_2) { r_2b_8 = 23u; r_qh_1 = 0ull; goto l_capnp_no_1; }
    r_gk_1 = r_lc_8;
    goto l_arm_vo_1;
l_else_70_3:;
    u64 r_3o_3 = (r_lc_8 + 0xffffffffc0000000ull);
    if ((r_lc_8 < 0x40000000ull) ? 1u : (r_3o_3 > r_nb_2)) { r_2b_8 = 23u; r_qh_1 = 0ull; goto l_capnp_no_1; }
    r_gk_1 = r_3o_3;
l_arm_vo_1:;
    if (r_sg_1) { r_2b_8 = 26u; r_qh_1 = 0ull; goto l_capnp_no_1; }
    if (r_nb_2 < (r_gk_1 + r_c6_6)) { r_2b_8 = 23u; r_qh_1 = 0ull; goto l_capnp_no_1; }
    if (!t_0c_1) goto l_arm_p5_1;
    if (!(ld8(a_6) == 1u)) goto l_arm_p5_1;
    r_52_8 = ld64(r_rq_8);
    if (r_52_8 < r_c6_6) { r_2b_8 = 30u; r_qh_1 = 0ull; goto l_capnp_no_1; }
    st64(a_6, 1ull);
    st64(r_rq_8, (r_52_8 - r_c6_6));
l_arm_p5_1:;
    r_z6_12 = (u64)(r_c6_6 << 3ull);
    r_8a_1 = away(t_f6_1, (u64)(r_gk_1 << 3ull));
    r_1q_4 = (ld64(away(away(((u8 *)switch_table_capnp_pointers_pointers_validate_validate_f7685ec9), 8 * (r_ep_3 & 7ull)), 0xfffffffffffffff8ull)) * r_ij_2);
    r_se_2 = (u64)((r_1q_4 + 63ull) >> 6ull);
    r_12_4 = (u32)r_se_2;
    r_e3_7 = ld32(r_08_6);
    if (((u32)umin64((u64)(ld64(r_rq_9) >> 3ull), 0x1fffffffull) - r_e3_7) < r_12_4) goto l_join_t5;
    r_z6_13 = (u64)(r_se_2 << 3ull);
    r_2b_9 = away(ldp(a_2), (u64)((u64)r_e3_7 << 3ull));
    if (r_1q_4 < 449ull) goto l_then_ij_2;
    memset_or_none(r_2b_9, 0u, r_z6_13);
    goto l_arm_kl;
l_then_ij_2:;
    if (!(r_1q_4 > 192ull)) goto l_else_np_2;
    memset(r_2b_9, 0, 32);
    memset(away(away(r_2b_9, r_z6_13), 0xffffffffffffffe0ull), 0, 32);
    goto l_arm_kl;
l_else_np_2:;
    if (!(r_1q_4 > 64ull)) goto l_else_we_1;
    memset(r_2b_9, 0, 16);
    memset(away(away(r_2b_9, r_z6_13), 0xfffffffffffffff0ull), 0, 16);
    goto l_arm_kl;
l_else_we_1:;
    if (r_se_2 == 0ull) goto l_arm_kl;
    memset(r_2b_9, 0, 8);
    memset(away(away(r_2b_9, r_z6_13), 0xfffffffffffffff8ull), 0, 8);
    goto l_arm_kl;
l_join_t5:;
    if (r_1q_4 > 0x7ffffff80ull) { r_2b_8 = 27u; r_qh_1 = 0x20000000ull; goto l_capnp_no_1; }
    st64(r_xz_2, uadd_sat64(ld64(r_xz_2), 1ull));
    r_2b_8 = 0u;
    r_qh_1 = 0ull;
    goto l_capnp_no_1;
l_arm_kl:;
    st32(r_08_6, (r_e3_7 + r_12_4));
    st64((ldp(a_2) + (i64)((u64)((u64)r_sr_1 << 3ull))), ((r_qw_6 & 0xffffffff00000001ull) | (u64)(u32)((r_e3_7 + (r_sr_1 ^ 0xffffffffu)) << 2u)));
    r_1q_5 = (ld64(away(away(((u8 *)switch_table_capnp_pointers_pointers_validate_validate_f7685ec9), 8 * (r_ep_3 & 7ull)), 0xfffffffffffffff8ull)) * r_ij_2);
    if (r_c6_6 == 0ull) goto l_capnp_pq;
    r_2b_10 = away(ldp(a_2), (u64)((u64)r_e3_7 << 3ull));
    if (!(r_1q_3 < 449ull)) goto l_else_r3_3;
    if (!(r_1q_3 > 192ull)) goto l_else_9l;
    mv32(r_2b_10, r_8a_1);
    u64 r_bh_4 = (r_z6_12 + 0xffffffffffffffe0ull);
    mv32((r_2b_10 + (i64)(r_bh_4)), (r_8a_1 + (i64)(r_bh_4)));
    goto l_capnp_pq;
l_else_9l:;
    if (r_c6_6 == 1ull) goto l_then_49_2;
    mv16(r_2b_10, r_8a_1);
    u64 r_8f_3 = (r_z6_12 + 0xfffffffffffffff0ull);
    mv16((r_2b_10 + (i64)(r_8f_3)), (r_8a_1 + (i64)(r_8f_3)));
    goto l_capnp_pq;
l_then_49_2:;
    mv8(r_2b_10, r_8a_1);
    u64 r_la_3 = (r_z6_12 + 0xfffffffffffffff8ull);
    mv8((r_2b_10 + (i64)(r_la_3)), (r_8a_1 + (i64)(r_la_3)));
    goto l_capnp_pq;
l_else_r3_3:;
    if (((u64)(uptr)r_2b_10 - (u64)(uptr)r_8a_1) < r_z6_12) { r_il_3 = 0ull; goto l_join_fh_3; }
    memmove_or_none(r_2b_10, r_8a_1, r_z6_12);
    goto l_capnp_pq;
l_join_fh_3:;
    st8((r_2b_10 + (i64)(r_il_3)), ld8((r_8a_1 + (i64)(r_il_3))));
    u64 r_c4_8 = (r_il_3 + 1ull);
    if (!(r_c4_8 == r_z6_12)) { r_il_3 = r_c4_8; goto l_join_fh_3; }
l_capnp_pq:;
    r_4i_2 = (r_1q_5 & 63ull);
    if (r_4i_2 == 0ull) goto l_capnp_v7_1;
    u64 r_0f_9 = (r_c6_6 + 0xffffffffffffffffull);
    st64((ldp(a_2) + (i64)((u64)((u64)(r_e3_7 + (u32)r_0f_9) << 3ull))), (ld64(away(r_8a_1, (u64)(r_0f_9 << 3ull))) & ((u64)(0xffffffffffffffffull << (r_4i_2 & 63u)) ^ 0xffffffffffffffffull)));
    goto l_capnp_v7_1;
l_join_br_1:;
    if (!(switch_f9_1 == 0ull)) goto l_else_4r_1;
    r_y6_3 = (u64)(r_qw_6 >> 48ull);
    r_q7_3 = (r_ep_3 & 65535ull);
    r_lc_9 = (r_q7_3 + r_y6_3);
    if (t_pa) goto l_join_o1_1;
    st64(r_08_5, uadd_sat64(ld64(r_08_5), 1ull));
l_join_o1_1:;
    u64 r_m6_4 = ((u64)(r_qw_6 >> 2ull) & 0x3fffffffull);
    r_lc_10 = ((r_24_7 + 1ull) + r_m6_4);
    if (!(r_m6_4 < 0x20000000ull)) goto l_else_70_4;
    if (r_lc_10 > r_nb_2) { r_2b_11 = 23u; goto l_capnp_no_2; }
    r_jm_1 = r_lc_10;
    goto l_arm_h8_1;
l_else_70_4:;
    u64 r_3o_4 = (r_lc_10 + 0xffffffffc0000000ull);
    if ((r_lc_10 < 0x40000000ull) ? 1u : (r_3o_4 > r_nb_2)) { r_2b_11 = 23u; goto l_capnp_no_2; }
    r_jm_1 = r_3o_4;
l_arm_h8_1:;
    r_4r_2 = (u32)r_jm_1;
    if (r_sg_1) { r_2b_11 = 26u; goto l_capnp_no_2; }
    r_8u_1 = (r_nb_2 < (r_jm_1 + r_lc_9));
    if ((u8)((u8)t_pa | (u8)r_8u_1)) goto l_capnp_li_1;
    if (!(ld8(a_6) == 1u)) { r_5b_1 = r_4r_2; goto l_arm_7a_2; }
    r_52_9 = ld64(r_rq_8);
    if (r_52_9 < r_lc_9) { r_2b_11 = 30u; goto l_capnp_no_2; }
    st64(a_6, 1ull);
    st64(r_rq_8, (r_52_9 - r_lc_9));
    r_5b_1 = r_4r_2;
    goto l_arm_7a_2;
l_capnp_li_1:;
    if (r_8u_1) { r_2b_11 = 23u; goto l_capnp_no_2; }
    r_5b_1 = (r_8u_1 ? 0u : r_4r_2);
l_arm_7a_2:;
    if (!t_q5) { r_dl = r_ep_3; r_9n = r_y6_3; goto l_capnp_hv; }
    u64 r_24_8 = (u64)r_5b_1;
    r_lc_11 = (r_q7_3 + r_24_8);
    r_z6_14 = (u64)(r_q7_3 << 3ull);
    r_c0_8 = away(t_f6_1, (u64)(r_24_8 << 3ull));
    if (r_q7_3 < 32ull) { r_nm_9 = r_q7_3; goto l_loop_jc_8; }
    goto l_else_wj_4;
l_loop_jc_8:;
    if (r_nm_9 == 0ull) { r_ev_1 = 0ull; goto l_capnp_fc_1; }
    u64 r_0f_10 = (r_nm_9 + 0xffffffffffffffffull);
    if (ld64(away(r_c0_8, (u64)(r_0f_10 << 3ull))) == 0ull) { r_nm_9 = r_0f_10; goto l_loop_jc_8; }
    r_ev_1 = r_nm_9;
    goto l_capnp_fc_1;
l_else_wj_4:;
    if (!(ld64(away(away(r_c0_8, r_z6_14), 0xfffffffffffffff8ull)) == 0ull)) { r_ev_1 = r_q7_3; goto l_capnp_fc_1; }
    u64 r_qz_4 = capnp_words_lanes_used_words_bound(r_c0_8, r_z6_14);
    r_nm_10 = r_qz_4;
l_loop_jc_9:;
    if (r_nm_10 == 0ull) { r_ev_1 = 0ull; goto l_capnp_fc_1; }
    u64 r_0f_11 = (r_nm_10 + 0xffffffffffffffffull);
    if (ld64(away(r_c0_8, (u64)(r_0f_11 << 3ull))) == 0ull) { r_nm_10 = r_0f_11; goto l_loop_jc_9; }
    r_ev_1 = r_nm_10;
l_capnp_fc_1:;
    r_z6_15 = (u64)(r_y6_3 << 3ull);
    r_c0_9 = away(t_f6_1, (u64)(r_lc_11 << 3ull));
    if (r_qw_6 < 0x20000000000000ull) { r_nm_11 = r_y6_3; goto l_loop_jc_10; }
    goto l_else_wj_5;
l_loop_jc_10:;
    if (r_nm_11 == 0ull) { r_dl = r_ev_1; r_9n = 0ull; goto l_capnp_hv; }
    u64 r_0f_12 = (r_nm_11 + 0xffffffffffffffffull);
    if (ld64(away(r_c0_9, (u64)(r_0f_12 << 3ull))) == 0ull) { r_nm_11 = r_0f_12; goto l_loop_jc_10; }
    r_dl = r_ev_1;
    r_9n = r_nm_11;
    goto l_capnp_hv;
l_else_wj_5:;
    if (!(ld64(away(away(r_c0_9, r_z6_15), 0xfffffffffffffff8ull)) == 0ull)) { r_dl = r_ev_1; r_9n = r_y6_3; goto l_capnp_hv; }
    u64 r_qz_5 = capnp_words_lanes_used_words_bound(r_c0_9, r_z6_15);
    r_nm_12 = r_qz_5;
l_loop_jc_11:;
    if (r_nm_12 == 0ull) { r_dl = r_ev_1; r_9n = 0ull; goto l_capnp_hv; }
    u64 r_0f_13 = (r_nm_12 + 0xffffffffffffffffull);
    if (ld64(away(r_c0_9, (u64)(r_0f_13 << 3ull))) == 0ull) { r_nm_12 = r_0f_13; goto l_loop_jc_11; }
    r_dl = r_ev_1;
    r_9n = r_nm_12;
l_capnp_hv:;
    r_xg_2 = (u16)r_dl;
    r_29_1 = ((u32)r_dl & 65535u);
    r_az_4 = ((u32)r_9n & 65535u);
    r_68_5 = (r_az_4 + r_29_1);
    if (!(r_68_5 == 0u)) goto l_join_gd;
    u64 r_24_9 = (u64)r_sr_1;
    st64((ldp(a_2) + (i64)((u64)(r_24_9 << 3ull))), 0xfffffffcull);
    r_s8 = r_24_9;
    goto l_arm_rv;
l_join_gd:;
    r_e3_8 = ld32(r_08_6);
    if (r_68_5 > ((u32)umin64((u64)(ld64(r_rq_9) >> 3ull), 0x1fffffffull) - r_e3_8)) goto l_arm_xy;
    r_c0_10 = (u64)(u32)(r_68_5 << 3u);
    r_2b_12 = away(ldp(a_2), (u64)((u64)r_e3_8 << 3ull));
    if (r_68_5 < 8u) goto l_then_5x_1;
    memset_or_none(r_2b_12, 0u, r_c0_10);
    goto l_capnp_kl;
l_then_5x_1:;
    t_2b_1 = away(r_2b_12, r_c0_10);
    if (!(r_68_5 > 3u)) goto l_else_gn_1;
    memset(r_2b_12, 0, 32);
    memset(away(t_2b_1, 0xffffffffffffffe0ull), 0, 32);
    goto l_capnp_kl;
l_else_gn_1:;
    if (r_68_5 == 1u) goto l_then_qw_1;
    memset(r_2b_12, 0, 16);
    memset(away(t_2b_1, 0xfffffffffffffff0ull), 0, 16);
    goto l_capnp_kl;
l_then_qw_1:;
    memset(r_2b_12, 0, 8);
    memset(away(t_2b_1, 0xfffffffffffffff8ull), 0, 8);
l_capnp_kl:;
    st32(r_08_6, (r_e3_8 + r_68_5));
    st64((ldp(a_2) + (i64)((u64)((u64)r_sr_1 << 3ull))), ((((u64)(r_dl << 32ull) & 0xffff00000000ull) | (u64)(r_9n << 48ull)) | (u64)(u32)((r_e3_8 + (r_sr_1 ^ 0xffffffffu)) << 2u)));
    r_s8 = (u64)r_e3_8;
l_arm_rv:;
    r_4r_3 = (u32)r_s8;
    r_0l_1 = ((u64)(r_dl << 3ull) & 0x7fff8ull);
    r_c0_11 = away(t_f6_1, (u64)((u64)r_5b_1 << 3ull));
    if (r_xg_2 == 0u) goto l_capnp_5c;
    r_2b_13 = away(ldp(a_2), (u64)(r_s8 << 3ull));
    if (!(r_xg_2 < 8u)) goto l_else_r3_4;
    if (!(r_xg_2 > 3u)) goto l_else_1o_1;
    mv32(r_2b_13, r_c0_11);
    u64 r_bh_5 = (r_0l_1 + 0xffffffffffffffe0ull);
    mv32((r_2b_13 + (i64)(r_bh_5)), (r_c0_11 + (i64)(r_bh_5)));
    goto l_capnp_5c;
l_else_1o_1:;
    if (r_xg_2 == 1u) goto l_then_49_3;
    mv16(r_2b_13, r_c0_11);
    u64 r_8f_4 = (r_0l_1 + 0xfffffffffffffff0ull);
    mv16((r_2b_13 + (i64)(r_8f_4)), (r_c0_11 + (i64)(r_8f_4)));
    goto l_capnp_5c;
l_then_49_3:;
    mv8(r_2b_13, r_c0_11);
    u64 r_la_4 = (r_0l_1 + 0xfffffffffffffff8ull);
    mv8((r_2b_13 + (i64)(r_la_4)), (r_c0_11 + (i64)(r_la_4)));
    goto l_capnp_5c;
l_else_r3_4:;
    if (((u64)(uptr)r_2b_13 - (u64)(uptr)r_c0_11) < r_0l_1) { r_il_4 = 0ull; goto l_join_fh_4; }
    memmove_or_none(r_2b_13, r_c0_11, r_0l_1);
    goto l_capnp_5c;
l_join_fh_4:;
    st8((r_2b_13 + (i64)(r_il_4)), ld8((r_c0_11 + (i64)(r_il_4))));
    u64 r_c4_9 = (r_il_4 + 1ull);
    if (!(r_c4_9 == r_0l_1)) { r_il_4 = r_c4_9; goto l_join_fh_4; }
l_capnp_5c:;
    memset(slot_1, 0u, 24);
    st64(t_6c_3, 0ull);
    if (r_az_4 == 0u) { r_2b_14 = 0u; r_qh_2 = 0u; r_ip_1 = 0u; r_wq_1 = 0ull; goto l_capnp_no_3; }
    st64(slot_2, r_eg);
    stp(r_x5_8, r_rv);
    st64(r_zd_8, r_qw);
    st64(r_lk_3, r_qd);
    stp(r_89_3, t_f6_1);
    st64(r_a8_3, r_9h);
    st32(r_c4_6, (r_5b_1 + ((u32)r_ep_3 & 65535u)));
    st32(r_bk_1, 0u);
    st32(r_6c_3, r_mx);
    capnp_copies_copy_children_copy_children_out_of_line_5_f210a996(slot_1, a_2, r_wt_1, (r_29_1 + r_4r_3), slot_2, r_az_4, a_6, a_7);
    r_2b_14 = ld8(slot_1);
    r_qh_2 = ld8(r_x5_9);
    r_ip_1 = ld32(r_k0_5);
    r_wq_1 = ld64(r_zd_9);
l_capnp_no_3:;
    t_ko = r_wq_1;
    t_h6 = r_ip_1;
    r_ex = r_qh_2;
    t_jr = r_2b_14;
    goto l_capnp_z0;
l_arm_xy:;
    st64(r_xz_2, uadd_sat64(ld64(r_xz_2), 1ull));
    t_ko = 0ull;
    t_h6 = 0u;
    r_ex = 0u;
    t_jr = 1u;
    goto l_capnp_z0;
l_capnp_no_2:;
    r_rh = 1u;
    r_hg_2 = r_2b_11;
    r_je = 0u;
    r_s2 = 0ull;
    goto l_capnp_nb;
l_else_4r_1:;
    st64(slot_4, r_eg);
    stp(r_x5_6, r_rv);
    st64(r_zd_6, r_qw);
    st64(r_lk_2, r_qd);
    stp(r_89_2, t_f6_1);
    st64(r_a8_2, r_9h);
    st64(r_c4_5, r_24_7);
    st32(r_6c_2, r_4w_1);
    capnp_copies_copy_copy_object_5ec03199cc959fcd(slot_3, a_2, r_wt, r_sr_1, slot_4, a_6, a_7);
    t_ko = ld64(r_zd_7);
    t_h6 = ld32(r_k0_4);
    r_ex = ld8(r_x5_7);
    t_jr = ld8(slot_3);
    goto l_capnp_z0;
l_capnp_v7_1:;
    goto l_loop_w2;
l_capnp_no_1:;
    r_rh = 1u;
    r_hg_2 = r_2b_8;
    r_je = 0u;
    r_s2 = r_qh_1;
    goto l_capnp_nb;
l_capnp_z0:;
    if (t_jr == 0u) goto l_loop_w2;
    r_rh = 1u;
    r_hg_2 = r_ex;
    r_je = t_h6;
    r_s2 = t_ko;
    goto l_capnp_nb;
l_arm_mo:;
    r_rh = 1u;
    r_hg_2 = (u8)(u64)(r_fj >> 32ull);
    r_je = ld32((slot_5 + 12));
    r_s2 = ld64((slot_5 + 16));
l_capnp_nb:;
    r_5k_1 = r_rh;
    r_qp = r_hg_2;
    r_7u = r_je;
    r_pz = r_s2;
l_join_1g:;
    r_10 = r_5k_1;
    r_kb = (u32)r_qp;
    r_n4 = r_7u;
    r_yp = r_pz;
    goto l_common_9c;
}

/* capnp_words::words::used_words_in */
static u64 capnp_words_words_used_words_in(u8 *a_1, u64 a_2, u64 a_3)
{
    u64 r_v8;
    u8 *r_8z;
    u64 r_nm;
    u64 r_nm_1;
    u64 r_z1;
    r_v8 = (u64)(a_3 << 3ull);
    r_8z = away(a_1, (u64)(a_2 << 3ull));
    if (a_3 < 32ull) { r_nm = a_3; goto l_loop_jc; }
    goto l_else_wj;
l_loop_jc:;
    if (r_nm == 0ull) { r_z1 = 0ull; goto l_capnp_91; }
    u64 r_0f = (r_nm + 0xffffffffffffffffull);
    if (ld64(away(r_8z, (u64)(r_0f << 3ull))) == 0ull) { r_nm = r_0f; goto l_loop_jc; }
    r_z1 = r_nm;
    goto l_capnp_91;
l_else_wj:;
    if (!(ld64(away(away(r_8z, r_v8), 0xfffffffffffffff8ull)) == 0ull)) { r_z1 = a_3; goto l_capnp_91; }
    u64 r_qz = capnp_words_lanes_used_words_bound(r_8z, r_v8);
    r_nm_1 = r_qz;
l_loop_jc_1:;
    if (r_nm_1 == 0ull) { r_z1 = 0ull; goto l_capnp_91; }
    u64 r_0f_1 = (r_nm_1 + 0xffffffffffffffffull);
    if (ld64(away(r_8z, (u64)(r_0f_1 << 3ull))) == 0ull) { r_nm_1 = r_0f_1; goto l_loop_jc_1; }
    r_z1 = r_nm_1;
l_capnp_91:;
    return r_z1;
}

/* capnp_words::lanes::used_words_bound */
static NEVER u64 capnp_words_lanes_used_words_bound(u8 *a_1, u64 a_2)
{
    u64 t_rn;
    u64 r_ur;
    u64 r_z1;
    u64 r_k8 = (u64)(a_2 >> 3ull);
    t_rn = (r_k8 - ((u64)(a_2 >> 3ull) & 0xfffffff8ull));
    r_ur = r_k8;
l_loop_0k:;
    if (!(r_ur > 7ull)) { r_z1 = t_rn; goto l_common_91; }
    u64 r_la = (r_ur + 0xfffffffffffffff8ull);
    if (any64(ldv64((a_1 + (i64)((u64)(r_la << 3ull))))) == 0u) { r_ur = r_la; goto l_loop_0k; }
    r_z1 = r_ur;
l_common_91:;
    return r_z1;
}

/* capnp_copies::copy::elements::put_words::<#d7a666d2d35ab297> */
static void capnp_copies_copy_elements_put_words_d7a666d2d35ab297(u8 *a_1, u32 a_2, u8 *a_3, u64 a_4)
{
    u8 *r_2b;
    u64 r_31;
    if (!(a_4 < 8ull)) goto l_then_ka;
l_common_68:;
    return;
l_then_ka:;
    r_2b = away(ldp(a_1), (u64)((u64)a_2 << 3ull));
    if (!(a_4 < 64ull)) goto l_else_5e;
    if (!(a_4 > 31ull)) goto l_else_o9;
    mv32(r_2b, a_3);
    u64 r_l6 = (a_4 + 0xffffffffffffffe0ull);
    mv32((r_2b + (i64)(r_l6)), (a_3 + (i64)(r_l6)));
    goto l_common_68;
l_else_o9:;
    if (!(a_4 > 15ull)) goto l_then_b7;
    mv16(r_2b, a_3);
    u64 r_8y = (a_4 + 0xfffffffffffffff0ull);
    mv16((r_2b + (i64)(r_8y)), (a_3 + (i64)(r_8y)));
    goto l_common_68;
l_then_b7:;
    mv8(r_2b, a_3);
    u64 r_t8 = (a_4 + 0xfffffffffffffff8ull);
    mv8((r_2b + (i64)(r_t8)), (a_3 + (i64)(r_t8)));
    goto l_common_68;
l_else_5e:;
    if (((u64)(uptr)r_2b - (u64)(uptr)a_3) < a_4) { r_31 = 0ull; goto l_join_sz; }
    memmove_or_none(r_2b, a_3, a_4);
    goto l_common_68;
l_join_sz:;
    st8((r_2b + (i64)(r_31)), ld8((a_3 + (i64)(r_31))));
    u64 r_c4 = (r_31 + 1ull);
    if (r_c4 == a_4) goto l_common_68;
    r_31 = r_c4;
    goto l_join_sz;
}

/* capnp_arena_traits::arena::writing::copy_words::<#d7a666d2d35ab297> */
static void capnp_arena_traits_arena_writing_copy_words_d7a666d2d35ab297(u8 *a_1, u32 a_2, u8 *a_3, u64 a_4)
{
    u8 *r_2b;
    u64 r_4p;
    u64 r_31;
    if (a_4 == 0ull) goto l_join_68;
    r_2b = away(ldp(a_1), (u64)((u64)a_2 << 3ull));
    if (!(a_4 < 64ull)) goto l_else_5e;
    if (!(a_4 > 31ull)) goto l_else_5w;
    mv32(r_2b, a_3);
    u64 r_l6 = (a_4 + 0xffffffffffffffe0ull);
    mv32((r_2b + (i64)(r_l6)), (a_3 + (i64)(r_l6)));
    goto l_join_68;
l_else_5w:;
    if (!(a_4 > 15ull)) goto l_else_t1;
    mv16(r_2b, a_3);
    u64 r_8y = (a_4 + 0xfffffffffffffff0ull);
    mv16((r_2b + (i64)(r_8y)), (a_3 + (i64)(r_8y)));
    goto l_join_68;
l_else_t1:;
    if (!(a_4 > 7ull)) { r_4p = 0ull; goto l_join_5n; }
    mv8(r_2b, a_3);
    u64 r_t8 = (a_4 + 0xfffffffffffffff8ull);
    mv8((r_2b + (i64)(r_t8)), (a_3 + (i64)(r_t8)));
    goto l_join_68;
l_join_5n:;
    st8((r_2b + (i64)(r_4p)), ld8((a_3 + (i64)(r_4p))));
    u64 r_c4 = (r_4p + 1ull);
    if (r_c4 == a_4) goto l_join_68;
    r_4p = r_c4;
    goto l_join_5n;
l_else_5e:;
    if (((u64)(uptr)r_2b - (u64)(uptr)a_3) < a_4) { r_31 = 0ull; goto l_join_sz; }
    memmove_or_none(r_2b, a_3, a_4);
    goto l_join_68;
l_join_sz:;
    st8((r_2b + (i64)(r_31)), ld8((a_3 + (i64)(r_31))));
    u64 r_c4_1 = (r_31 + 1ull);
    if (!(r_c4_1 == a_4)) { r_31 = r_c4_1; goto l_join_sz; }
l_join_68:;
    return;
}

/* capnp_copies::copy::children::copy_children_out_of_line::<#5ec03199cc959fcd> */
static NEVER void capnp_copies_copy_children_copy_children_out_of_line_5_f210a996(u8 *a_1, u8 *a_2, u32 a_3, u32 a_4, u8 *a_5, u32 a_6, u8 *a_7, u8 a_8)
{
    A(8) u8 slot_1[24];
    A(8) u8 slot_2[64];
    A(8) u8 slot_3[24];
    A(8) u8 slot_4[64];
    u64 r_eg;
    u8 *r_rv;
    u64 r_qw;
    u64 r_qw_1;
    u8 *r_rv_1;
    u64 r_qw_2;
    u32 r_5k;
    u32 r_5k_1;
    u64 r_gw;
    u8 *r_x5;
    u8 *r_zd;
    u8 *r_lk;
    u8 *r_89;
    u8 *r_a8;
    u8 *r_c4;
    u8 *r_6c;
    u8 t_pa;
    u8 *r_08;
    u64 r_nb;
    u8 r_n1;
    u8 *r_rq;
    u8 *r_x5_1;
    u8 *r_k0;
    u8 *r_zd_1;
    u32 r_mx;
    u8 t_q5;
    u8 *r_rq_1;
    u8 *r_08_1;
    u8 *r_xz;
    u8 *r_x5_2;
    u8 *r_zd_2;
    u8 *r_lk_1;
    u8 *r_89_1;
    u8 *r_a8_1;
    u8 *r_c4_1;
    u8 *r_bk;
    u8 *r_6c_1;
    u8 *r_x5_3;
    u8 *r_k0_1;
    u8 *r_zd_3;
    u8 t_0c;
    u64 wide_v1;
    u8 *t_6c;
    u8 *t_6c_1;
    u64 indvars_fg;
    u32 r_7m;
    u64 r_24;
    u64 r_qw_3;
    u64 switch_f9;
    u64 r_ep;
    u64 r_ij;
    u64 r_1q;
    u64 r_c6;
    u64 r_lc;
    u64 r_la;
    u64 r_52;
    u64 r_z6;
    u8 *r_dx;
    u64 r_1q_1;
    u64 r_se;
    u32 r_12;
    u32 r_e3;
    u64 r_z6_1;
    u8 *r_2b;
    u64 r_1q_2;
    u8 *r_2b_1;
    u64 r_il;
    u64 r_4i;
    u64 r_y6;
    u64 r_q7;
    u64 r_lc_1;
    u64 r_lc_2;
    u64 r_09;
    u32 r_4r;
    u8 r_8u;
    u64 r_52_1;
    u32 r_5b;
    u64 r_lc_3;
    u64 r_z6_2;
    u8 *r_2b_2;
    u64 r_nm;
    u64 r_nm_1;
    u64 r_p3;
    u64 r_z6_3;
    u8 *r_2b_3;
    u64 r_nm_2;
    u64 r_nm_3;
    u64 r_dl;
    u64 r_9n;
    u16 r_xg;
    u32 r_29;
    u32 r_az;
    u32 r_68;
    u32 r_e3_1;
    u64 r_c0;
    u8 *r_2b_4;
    u8 *t_2b;
    u64 r_s8;
    u32 r_4r_1;
    u64 r_0l;
    u8 *r_2b_5;
    u8 *r_2b_6;
    u64 r_il_1;
    u8 r_2b_7;
    u8 r_qh;
    u32 r_ip;
    u64 r_wq;
    u64 t_i2;
    u32 t_1i;
    u8 r_k7;
    u8 t_yl;
    u64 r_7k;
    u8 r_zq;
    u64 r_uo;
    u32 r_93;
    u8 r_8y;
    u8 r_10;
    u32 r_kb;
    u32 r_n4;
    u64 r_yp;
    u8 r_dh = ld8(a_5);
    r_eg = (u64)r_dh;
    r_rv = ldp(away(a_5, 8ull));
    r_qw = ld64(away(a_5, 16ull));
    r_qw_1 = ld64(away(a_5, 24ull));
    r_rv_1 = ldp(away(a_5, 32ull));
    r_qw_2 = ld64(away(a_5, 40ull));
    r_5k = ld32(away(a_5, 48ull));
    r_5k_1 = ld32(away(a_5, 56ull));
    r_gw = (u64)(r_qw_2 >> 3ull);
    r_x5 = (slot_4 + 8);
    r_zd = (slot_4 + 16);
    r_lk = (slot_4 + 24);
    r_89 = (slot_4 + 32);
    r_a8 = (slot_4 + 40);
    r_c4 = (slot_4 + 48);
    r_6c = (slot_4 + 56);
    t_pa = (r_dh != 0u);
    r_08 = away(a_7, 16ull);
    r_nb = (r_gw & 0xffffffffull);
    r_n1 = ((i32)r_5k_1 < (i32)1u);
    r_rq = away(a_7, 8ull);
    r_x5_1 = (slot_3 + 8);
    r_k0 = (slot_3 + 12);
    r_zd_1 = (slot_3 + 16);
    r_mx = ((r_5k_1 == 0x80000000u) ? 0x80000000u : (r_5k_1 + 0xffffffffu));
    t_q5 = (a_8 == 1u);
    r_rq_1 = away(a_2, 8ull);
    r_08_1 = away(a_2, 16ull);
    r_xz = away(a_2, 24ull);
    r_x5_2 = (slot_2 + 8);
    r_zd_2 = (slot_2 + 16);
    r_lk_1 = (slot_2 + 24);
    r_89_1 = (slot_2 + 32);
    r_a8_1 = (slot_2 + 40);
    r_c4_1 = (slot_2 + 48);
    r_bk = (slot_2 + 52);
    r_6c_1 = (slot_2 + 56);
    r_x5_3 = (slot_1 + 8);
    r_k0_1 = (slot_1 + 12);
    r_zd_3 = (slot_1 + 16);
    t_0c = (r_dh == 0u);
    wide_v1 = (u64)a_6;
    t_6c = (slot_4 + 56);
    t_6c_1 = (slot_2 + 56);
    indvars_fg = 0ull;
    goto l_join_22;
l_loop_da:;
    u64 indvars_r7 = (indvars_fg + 1ull);
    if (indvars_r7 == wide_v1) { r_10 = 0u; r_kb = 0u; r_n4 = 0u; r_yp = 0ull; goto l_capnp_9c; }
    indvars_fg = indvars_r7;
l_join_22:;
    u32 t_nk = (u32)indvars_fg;
    r_7m = (a_4 + t_nk);
    r_24 = (u64)(r_5k + t_nk);
    memset(slot_3, 0u, 24);
    st64(t_6c, 0ull);
    if (!(r_gw > r_24)) goto l_capnp_v7;
    r_qw_3 = ld64(away(r_rv_1, (u64)(r_24 << 3ull)));
    if (r_qw_3 == 0ull) goto l_capnp_v7;
    switch_f9 = (r_qw_3 & 3ull);
    r_ep = (u64)(r_qw_3 >> 32ull);
    if (!((switch_f9 == 1ull) ? ((u8)((u8)((u8)r_ep & 7u) + 255u) < 5u) : 0u)) goto l_join_br;
    r_ij = (u64)(r_qw_3 >> 35ull);
    r_1q = (ld64(away(away(((u8 *)switch_table_capnp_pointers_pointers_validate_validate_f7685ec9), 8 * (r_ep & 7ull)), 0xfffffffffffffff8ull)) * r_ij);
    r_c6 = (u64)((r_1q + 63ull) >> 6ull);
    if (!t_0c) goto l_join_bd;
    st64(r_08, uadd_sat64(ld64(r_08), 1ull));
l_join_bd:;
    u64 r_m6 = ((u64)(r_qw_3 >> 2ull) & 0x3fffffffull);
    r_lc = ((r_24 + 1ull) + r_m6);
    if (!(r_m6 < 0x20000000ull)) goto l_else_70;
    if (r_lc > r_nb) { r_7k = 0ull; r_zq = 23u; goto l_arm_i0; }
    r_la = r_lc;
    goto l_arm_i0_1;
l_else_70:;
    u64 r_3o = (r_lc + 0xffffffffc0000000ull);
    if ((r_lc < 0x40000000ull) ? 1u : (r_3o > r_nb)) { r_7k = 0ull; r_zq = 23u; goto l_arm_i0; }
    r_la = r_3o;
l_arm_i0_1:;
    if (r_n1) { r_7k = 0ull; r_zq = 26u; goto l_arm_i0; }
    if (r_nb < (r_la + r_c6)) { r_7k = 0ull; r_zq = 23u; goto l_arm_i0; }
    if (!t_0c) goto l_arm_5g;
    if (!(ld8(a_7) == 1u)) goto l_arm_5g;
    r_52 = ld64(r_rq);
    if (r_52 < r_c6) { r_7k = 0ull; r_zq = 30u; goto l_arm_i0; }
    st64(a_7, 1ull);
    st64(r_rq, (r_52 - r_c6));
l_arm_5g:;
    r_z6 = (u64)(r_c6 << 3ull);
    r_dx = away(r_rv_1, (u64)(r_la << 3ull));
    r_1q_1 = (ld64(away(away(((u8 *)switch_table_capnp_pointers_pointers_validate_validate_f7685ec9), 8 * (r_ep & 7ull)), 0xfffffffffffffff8ull)) * r_ij);
    r_se = (u64)((r_1q_1 + 63ull) >> 6ull);
    r_12 = (u32)r_se;
    r_e3 = ld32(r_08_1);
    if (((u32)umin64((u64)(ld64(r_rq_1) >> 3ull), 0x1fffffffull) - r_e3) < r_12) goto l_join_m2;
    r_z6_1 = (u64)(r_se << 3ull);
    r_2b = away(ldp(a_2), (u64)((u64)r_e3 << 3ull));
    if (r_1q_1 < 449ull) goto l_then_ij;
    memset_or_none(r_2b, 0u, r_z6_1);
    goto l_arm_kl;
l_then_ij:;
    if (!(r_1q_1 > 192ull)) goto l_else_np;
    memset(r_2b, 0, 32);
    memset(away(away(r_2b, r_z6_1), 0xffffffffffffffe0ull), 0, 32);
    goto l_arm_kl;
l_else_np:;
    if (!(r_1q_1 > 64ull)) goto l_else_we;
    memset(r_2b, 0, 16);
    memset(away(away(r_2b, r_z6_1), 0xfffffffffffffff0ull), 0, 16);
    goto l_arm_kl;
l_else_we:;
    if (r_se == 0ull) goto l_arm_kl;
    memset(r_2b, 0, 8);
    memset(away(away(r_2b, r_z6_1), 0xfffffffffffffff8ull), 0, 8);
    goto l_arm_kl;
l_join_m2:;
    if (r_1q_1 > 0x7ffffff80ull) { r_7k = 0x20000000ull; r_zq = 27u; goto l_arm_i0; }
    st64(r_xz, uadd_sat64(ld64(r_xz), 1ull));
    r_7k = 0ull;
    r_zq = 0u;
    goto l_arm_i0;
l_arm_kl:;
    st32(r_08_1, (r_e3 + r_12));
    st64((ldp(a_2) + (i64)((u64)((u64)r_7m << 3ull))), ((r_qw_3 & 0xffffffff00000001ull) | (u64)(u32)((r_e3 + (r_7m ^ 0xffffffffu)) << 2u)));
    r_1q_2 = (ld64(away(away(((u8 *)switch_table_capnp_pointers_pointers_validate_validate_f7685ec9), 8 * (r_ep & 7ull)), 0xfffffffffffffff8ull)) * r_ij);
    if (r_c6 == 0ull) goto l_capnp_pq;
    r_2b_1 = away(ldp(a_2), (u64)((u64)r_e3 << 3ull));
    if (!(r_1q < 449ull)) goto l_else_r3;
    if (!(r_1q > 192ull)) goto l_else_9l;
    mv32(r_2b_1, r_dx);
    u64 r_bh = (r_z6 + 0xffffffffffffffe0ull);
    mv32((r_2b_1 + (i64)(r_bh)), (r_dx + (i64)(r_bh)));
    goto l_capnp_pq;
l_else_9l:;
    if (r_c6 == 1ull) goto l_then_49;
    mv16(r_2b_1, r_dx);
    u64 r_8f = (r_z6 + 0xfffffffffffffff0ull);
    mv16((r_2b_1 + (i64)(r_8f)), (r_dx + (i64)(r_8f)));
    goto l_capnp_pq;
l_then_49:;
    mv8(r_2b_1, r_dx);
    u64 r_la_1 = (r_z6 + 0xfffffffffffffff8ull);
    mv8((r_2b_1 + (i64)(r_la_1)), (r_dx + (i64)(r_la_1)));
    goto l_capnp_pq;
l_else_r3:;
    if (((u64)(uptr)r_2b_1 - (u64)(uptr)r_dx) < r_z6) { r_il = 0ull; goto l_join_fh; }
    memmove_or_none(r_2b_1, r_dx, r_z6);
    goto l_capnp_pq;
l_join_fh:;
    st8((r_2b_1 + (i64)(r_il)), ld8((r_dx + (i64)(r_il))));
    u64 r_c4_2 = (r_il + 1ull);
    if (!(r_c4_2 == r_z6)) { r_il = r_c4_2; goto l_join_fh; }
l_capnp_pq:;
    r_4i = (r_1q_2 & 63ull);
    if (r_4i == 0ull) goto l_capnp_v7;
    u64 r_0f = (r_c6 + 0xffffffffffffffffull);
    st64((ldp(a_2) + (i64)((u64)((u64)(r_e3 + (u32)r_0f) << 3ull))), (ld64(away(r_dx, (u64)(r_0f << 3ull))) & ((u64)(0xffffffffffffffffull << (r_4i & 63u)) ^ 0xffffffffffffffffull)));
    goto l_capnp_v7;
l_join_br:;
    if (!(switch_f9 == 0ull)) goto l_else_4r;
    r_y6 = (u64)(r_qw_3 >> 48ull);
    r_q7 = (r_ep & 65535ull);
    r_lc_1 = (r_q7 + r_y6);
    if (t_pa) goto l_join_o1;
    st64(r_08, uadd_sat64(ld64(r_08), 1ull));
l_join_o1:;
    u64 r_m6_1 = ((u64)(r_qw_3 >> 2ull) & 0x3fffffffull);
    r_lc_2 = ((r_24 + 1ull) + r_m6_1);
    if (!(r_m6_1 < 0x20000000ull)) goto l_else_70_1;
    if (r_lc_2 > r_nb) { r_7k = 0ull; r_zq = 23u; goto l_arm_i0; }
    r_09 = r_lc_2;
    goto l_arm_f4;
l_else_70_1:;
    u64 r_3o_1 = (r_lc_2 + 0xffffffffc0000000ull);
    if ((r_lc_2 < 0x40000000ull) ? 1u : (r_3o_1 > r_nb)) { r_7k = 0ull; r_zq = 23u; goto l_arm_i0; }
    r_09 = r_3o_1;
l_arm_f4:;
    r_4r = (u32)r_09;
    if (r_n1) { r_7k = 0ull; r_zq = 26u; goto l_arm_i0; }
    r_8u = (r_nb < (r_09 + r_lc_1));
    if ((u8)((u8)t_pa | (u8)r_8u)) goto l_capnp_5r;
    if (!(ld8(a_7) == 1u)) { r_5b = r_4r; goto l_arm_7a; }
    r_52_1 = ld64(r_rq);
    if (r_52_1 < r_lc_1) { r_7k = 0ull; r_zq = 30u; goto l_arm_i0; }
    st64(a_7, 1ull);
    st64(r_rq, (r_52_1 - r_lc_1));
    r_5b = r_4r;
    goto l_arm_7a;
l_capnp_5r:;
    if (r_8u) { r_7k = 0ull; r_zq = 23u; goto l_arm_i0; }
    r_5b = (r_8u ? 0u : r_4r);
l_arm_7a:;
    if (!t_q5) { r_dl = r_ep; r_9n = r_y6; goto l_capnp_hv; }
    u64 r_24_1 = (u64)r_5b;
    r_lc_3 = (r_q7 + r_24_1);
    r_z6_2 = (u64)(r_q7 << 3ull);
    r_2b_2 = away(r_rv_1, (u64)(r_24_1 << 3ull));
    if (r_q7 < 32ull) { r_nm = r_q7; goto l_loop_jc; }
    goto l_else_wj;
l_loop_jc:;
    if (r_nm == 0ull) { r_p3 = 0ull; goto l_capnp_bk; }
    u64 r_0f_1 = (r_nm + 0xffffffffffffffffull);
    if (ld64(away(r_2b_2, (u64)(r_0f_1 << 3ull))) == 0ull) { r_nm = r_0f_1; goto l_loop_jc; }
    r_p3 = r_nm;
    goto l_capnp_bk;
l_else_wj:;
    if (!(ld64(away(away(r_2b_2, r_z6_2), 0xfffffffffffffff8ull)) == 0ull)) { r_p3 = r_q7; goto l_capnp_bk; }
    u64 r_qz = capnp_words_lanes_used_words_bound(r_2b_2, r_z6_2);
    r_nm_1 = r_qz;
l_loop_jc_1:;
    if (r_nm_1 == 0ull) { r_p3 = 0ull; goto l_capnp_bk; }
    u64 r_0f_2 = (r_nm_1 + 0xffffffffffffffffull);
    if (ld64(away(r_2b_2, (u64)(r_0f_2 << 3ull))) == 0ull) { r_nm_1 = r_0f_2; goto l_loop_jc_1; }
    r_p3 = r_nm_1;
l_capnp_bk:;
    r_z6_3 = (u64)(r_y6 << 3ull);
    r_2b_3 = away(r_rv_1, (u64)(r_lc_3 << 3ull));
    if (r_qw_3 < 0x20000000000000ull) { r_nm_2 = r_y6; goto l_loop_jc_2; }
    goto l_else_wj_1;
l_loop_jc_2:;
    if (r_nm_2 == 0ull) { r_dl = r_p3; r_9n = 0ull; goto l_capnp_hv; }
    u64 r_0f_3 = (r_nm_2 + 0xffffffffffffffffull);
    if (ld64(away(r_2b_3, (u64)(r_0f_3 << 3ull))) == 0ull) { r_nm_2 = r_0f_3; goto l_loop_jc_2; }
    r_dl = r_p3;
    r_9n = r_nm_2;
    goto l_capnp_hv;
l_else_wj_1:;
    if (!(ld64(away(away(r_2b_3, r_z6_3), 0xfffffffffffffff8ull)) == 0ull)) { r_dl = r_p3; r_9n = r_y6; goto l_capnp_hv; }
    u64 r_qz_1 = capnp_words_lanes_used_words_bound(r_2b_3, r_z6_3);
    r_nm_3 = r_qz_1;
l_loop_jc_3:;
    if (r_nm_3 == 0ull) { r_dl = r_p3; r_9n = 0ull; goto l_capnp_hv; }
    u64 r_0f_4 = (r_nm_3 + 0xffffffffffffffffull);
    if (ld64(away(r_2b_3, (u64)(r_0f_4 << 3ull))) == 0ull) { r_nm_3 = r_0f_4; goto l_loop_jc_3; }
    r_dl = r_p3;
    r_9n = r_nm_3;
l_capnp_hv:;
    r_xg = (u16)r_dl;
    r_29 = ((u32)r_dl & 65535u);
    r_az = ((u32)r_9n & 65535u);
    r_68 = (r_az + r_29);
    if (!(r_68 == 0u)) goto l_join_gd;
    u64 r_24_2 = (u64)r_7m;
    st64((ldp(a_2) + (i64)((u64)(r_24_2 << 3ull))), 0xfffffffcull);
    r_s8 = r_24_2;
    goto l_arm_rv;
l_join_gd:;
    r_e3_1 = ld32(r_08_1);
    if (r_68 > ((u32)umin64((u64)(ld64(r_rq_1) >> 3ull), 0x1fffffffull) - r_e3_1)) goto l_arm_xy;
    r_c0 = (u64)(u32)(r_68 << 3u);
    r_2b_4 = away(ldp(a_2), (u64)((u64)r_e3_1 << 3ull));
    if (r_68 < 8u) goto l_then_5x;
    memset_or_none(r_2b_4, 0u, r_c0);
    goto l_capnp_kl;
l_then_5x:;
    t_2b = away(r_2b_4, r_c0);
    if (!(r_68 > 3u)) goto l_else_gn;
    memset(r_2b_4, 0, 32);
    memset(away(t_2b, 0xffffffffffffffe0ull), 0, 32);
    goto l_capnp_kl;
l_else_gn:;
    if (r_68 == 1u) goto l_then_qw;
    memset(r_2b_4, 0, 16);
    memset(away(t_2b, 0xfffffffffffffff0ull), 0, 16);
    goto l_capnp_kl;
l_then_qw:;
    memset(r_2b_4, 0, 8);
    memset(away(t_2b, 0xfffffffffffffff8ull), 0, 8);
l_capnp_kl:;
    st32(r_08_1, (r_e3_1 + r_68));
    st64((ldp(a_2) + (i64)((u64)((u64)r_7m << 3ull))), ((((u64)(r_dl << 32ull) & 0xffff00000000ull) | (u64)(r_9n << 48ull)) | (u64)(u32)((r_e3_1 + (r_7m ^ 0xffffffffu)) << 2u)));
    r_s8 = (u64)r_e3_1;
l_arm_rv:;
    r_4r_1 = (u32)r_s8;
    r_0l = ((u64)(r_dl << 3ull) & 0x7fff8ull);
    r_2b_5 = away(r_rv_1, (u64)((u64)r_5b << 3ull));
    if (r_xg == 0u) goto l_capnp_5c;
    r_2b_6 = away(ldp(a_2), (u64)(r_s8 << 3ull));
    if (!(r_xg < 8u)) goto l_else_r3_1;
    if (!(r_xg > 3u)) goto l_else_1o;
    mv32(r_2b_6, r_2b_5);
    u64 r_bh_1 = (r_0l + 0xffffffffffffffe0ull);
    mv32((r_2b_6 + (i64)(r_bh_1)), (r_2b_5 + (i64)(r_bh_1)));
    goto l_capnp_5c;
l_else_1o:;
    if (r_xg == 1u) goto l_then_49_1;
    mv16(r_2b_6, r_2b_5);
    u64 r_8f_1 = (r_0l + 0xfffffffffffffff0ull);
    mv16((r_2b_6 + (i64)(r_8f_1)), (r_2b_5 + (i64)(r_8f_1)));
    goto l_capnp_5c;
l_then_49_1:;
    mv8(r_2b_6, r_2b_5);
    u64 r_la_2 = (r_0l + 0xfffffffffffffff8ull);
    mv8((r_2b_6 + (i64)(r_la_2)), (r_2b_5 + (i64)(r_la_2)));
    goto l_capnp_5c;
l_else_r3_1:;
    if (((u64)(uptr)r_2b_6 - (u64)(uptr)r_2b_5) < r_0l) { r_il_1 = 0ull; goto l_join_fh_1; }
    memmove_or_none(r_2b_6, r_2b_5, r_0l);
    goto l_capnp_5c;
l_join_fh_1:;
    st8((r_2b_6 + (i64)(r_il_1)), ld8((r_2b_5 + (i64)(r_il_1))));
    u64 r_c4_3 = (r_il_1 + 1ull);
    if (!(r_c4_3 == r_0l)) { r_il_1 = r_c4_3; goto l_join_fh_1; }
l_capnp_5c:;
    memset(slot_1, 0u, 24);
    st64(t_6c_1, 0ull);
    if (r_az == 0u) { r_2b_7 = 0u; r_qh = 0u; r_ip = 0u; r_wq = 0ull; goto l_capnp_no; }
    st64(slot_2, r_eg);
    stp(r_x5_2, r_rv);
    st64(r_zd_2, r_qw);
    st64(r_lk_1, r_qw_1);
    stp(r_89_1, r_rv_1);
    st64(r_a8_1, r_qw_2);
    st32(r_c4_1, (r_5b + ((u32)r_ep & 65535u)));
    st32(r_bk, 0u);
    st32(r_6c_1, r_mx);
    capnp_copies_copy_children_copy_children_out_of_line_5_f210a996(slot_1, a_2, a_3, (r_29 + r_4r_1), slot_2, r_az, a_7, a_8);
    r_2b_7 = ld8(slot_1);
    r_qh = ld8(r_x5_3);
    r_ip = ld32(r_k0_1);
    r_wq = ld64(r_zd_3);
l_capnp_no:;
    t_i2 = r_wq;
    t_1i = r_ip;
    r_k7 = r_qh;
    t_yl = r_2b_7;
    goto l_capnp_6w;
l_arm_xy:;
    st64(r_xz, uadd_sat64(ld64(r_xz), 1ull));
    t_i2 = 0ull;
    t_1i = 0u;
    r_k7 = 0u;
    t_yl = 1u;
    goto l_capnp_6w;
l_else_4r:;
    st64(slot_4, r_eg);
    stp(r_x5, r_rv);
    st64(r_zd, r_qw);
    st64(r_lk, r_qw_1);
    stp(r_89, r_rv_1);
    st64(r_a8, r_qw_2);
    st64(r_c4, r_24);
    st32(r_6c, r_5k_1);
    capnp_copies_copy_copy_object_5ec03199cc959fcd(slot_3, a_2, a_3, r_7m, slot_4, a_7, a_8);
    t_i2 = ld64(r_zd_1);
    t_1i = ld32(r_k0);
    r_k7 = ld8(r_x5_1);
    t_yl = ld8(slot_3);
    goto l_capnp_6w;
l_capnp_v7:;
    goto l_loop_da;
l_capnp_6w:;
    if (t_yl == 0u) goto l_loop_da;
    r_uo = t_i2;
    r_93 = t_1i;
    r_8y = r_k7;
    goto l_arm_12;
l_arm_i0:;
    r_uo = r_7k;
    r_93 = 0u;
    r_8y = r_zq;
l_arm_12:;
    r_10 = 1u;
    r_kb = (u32)r_8y;
    r_n4 = r_93;
    r_yp = r_uo;
l_capnp_9c:;
    st8(a_1, r_10);
    st32(away(a_1, 8ull), r_kb);
    st32(away(a_1, 12ull), r_n4);
    st64(away(a_1, 16ull), r_yp);
    return;
}

/* capnp_pointers::source::expected::narrow_elements_error */
static void capnp_pointers_source_expected_narrow_elements_error(u8 *a_1, u8 a_2, u8 a_3)
{
    u64 r_6f;
    u32 r_3l;
    u32 r_oc;
    u32 r_yl;
    switch (a_3) {
    case 1u: goto l_then_0w;
    case 0u: { r_oc = 0u; goto l_capnp_bc; }
    case 6u: { r_oc = 0u; goto l_capnp_bc; }
    case 7u: { r_oc = 0u; goto l_capnp_bc; }
    case 5u: goto l_arm_h9;
    case 2u: goto l_arm_h9_1;
    case 3u: goto l_arm_h9_2;
    case 4u: goto l_arm_h9_3;
    default: goto l_noarm_e1;
    }
l_then_0w:;
    u8 r_vg = (a_2 != 1u);
    r_6f = (u64)r_vg;
    r_3l = (r_vg ? 8u : 0u);
l_common_6f:;
    st64(a_1, r_6f);
    st32(away(a_1, 8ull), r_3l);
    st32(away(a_1, 12ull), 0u);
    st64(away(a_1, 16ull), 0ull);
    return;
l_arm_h9_1:;
    r_oc = 8u;
    goto l_capnp_bc;
l_arm_h9_2:;
    r_oc = 16u;
    goto l_capnp_bc;
l_arm_h9_3:;
    r_oc = 32u;
    goto l_capnp_bc;
l_arm_h9:;
    r_oc = 64u;
    goto l_capnp_bc;
l_noarm_e1:;
    UNREACHABLE();
l_capnp_bc:;
    switch (a_2) {
    case 5u: goto l_arm_h9_4;
    case 4u: goto l_arm_h9_5;
    case 3u: goto l_arm_h9_6;
    case 1u: { r_yl = 1u; goto l_capnp_u0; }
    case 2u: goto l_arm_h9_7;
    case 6u: goto l_join_iu;
    case 0u: { r_6f = 0ull; r_3l = 0u; goto l_common_6f; }
    case 7u: { r_6f = 0ull; r_3l = 0u; goto l_common_6f; }
    default: goto l_default_e1;
    }
l_arm_h9_7:;
    r_yl = 8u;
    goto l_capnp_u0;
l_arm_h9_6:;
    r_yl = 16u;
    goto l_capnp_u0;
l_arm_h9_5:;
    r_yl = 32u;
    goto l_capnp_u0;
l_arm_h9_4:;
    r_yl = 64u;
    goto l_capnp_u0;
l_default_e1:;
    UNREACHABLE();
l_capnp_u0:;
    if (r_yl > r_oc) goto l_join_wm;
    r_6f = 0ull;
    r_3l = 0u;
    goto l_common_6f;
l_join_iu:;
    if (a_3 == 6u) { r_6f = 0ull; r_3l = 0u; goto l_common_6f; }
l_join_wm:;
    r_6f = 1ull;
    r_3l = 16u;
    goto l_common_6f;
}

/* capnp_layout_c::capnp_layout_struct */
static u32 capnp_layout_c_capnp_layout_struct(u8 *a_1, u8 *a_2, u64 a_3, u32 a_4, u32 a_5, u8 *a_6)
{
    A(8) u8 slot_1[56];
    A(8) u8 slot_2[24];
    u64 r_yz;
    u8 *r_x5;
    u8 *r_zd;
    u8 *r_jg;
    u64 r_hg;
    u64 r_7l;
    u64 r_oz;
    u64 r_qw_1;
    u64 r_lc;
    u64 r_nb;
    u64 r_yz_1;
    u32 r_ob;
    u64 r_oh;
    u64 r_q1;
    u64 r_ly;
    u8 *r_mf;
    u64 r_ep;
    u64 r_y6;
    u64 r_lc_1;
    u64 r_52;
    u64 r_un;
    u64 r_bb;
    u64 r_o5;
    u32 r_04;
    u16 r_b2;
    u8 *r_3n;
    u32 r_v8;
    u32 r_bb_1;
    u32 r_gw;
    st64((slot_2 + 16), 0ull);
    r_yz = ld64(a_2);
    st64(slot_2, 1ull);
    r_x5 = (slot_2 + 8);
    st64(r_x5, r_yz);
    r_zd = (slot_2 + 16);
    if (!(a_3 < ld64((a_1 + 8)))) { r_jg = ((u8 *)g_static_6); r_hg = 0ull; goto l_arm_cr; }
    u8 *r_2b = away(ldp(a_1), (u64)(a_3 << 4ull));
    u64 r_qw = ld64((r_2b + 8));
    r_jg = ((r_qw < 8ull) ? ((u8 *)g_static_6) : ldp(r_2b));
    r_hg = (r_qw & 0xfffffffffffffff8ull);
l_arm_cr:;
    r_7l = (u64)a_4;
    r_oz = (u64)(r_hg >> 3ull);
    if (!(r_oz > r_7l)) { r_bb = 0ull; r_o5 = 0ull; r_04 = 0u; r_b2 = 0u; r_3n = ((u8 *)g_static_6); r_v8 = 0x7fffffffu; goto l_arm_c9; }
    r_qw_1 = ld64(away(r_jg, (u64)(r_7l << 3ull)));
    if (r_qw_1 == 0ull) { r_bb = 0ull; r_o5 = 0ull; r_04 = 0u; r_b2 = 0u; r_3n = ((u8 *)g_static_6); r_v8 = 0x7fffffffu; goto l_arm_c9; }
    if ((i32)a_5 < (i32)1u) { r_bb_1 = 58u; goto l_arm_c9_1; }
    st64(r_zd, 1ull);
    if ((r_qw_1 & 3ull) == 2ull) goto l_capnp_fq;
    u64 r_m6 = ((u64)(r_qw_1 >> 2ull) & 0x3fffffffull);
    r_lc = ((r_7l + 1ull) + r_m6);
    r_nb = (r_oz & 0xffffffffull);
    if (!(r_m6 < 0x20000000ull)) goto l_else_70;
    if (r_lc > r_nb) goto l_capnp_5s;
    r_yz_1 = r_lc;
    goto l_capnp_i5;
l_else_70:;
    u64 r_3o = (r_lc + 0xffffffffc0000000ull);
    if ((r_lc < 0x40000000ull) ? 1u : (r_3o > r_nb)) goto l_capnp_5s;
    r_yz_1 = r_3o;
l_capnp_i5:;
    r_ob = (u32)r_yz_1;
    r_oh = a_3;
    r_q1 = r_qw_1;
    r_ly = r_hg;
    r_mf = r_jg;
    goto l_arm_7y;
l_capnp_5s:;
    r_un = 23ull;
    goto l_arm_61;
l_capnp_fq:;
    capnp_pointers_source_follow_far_07dcb38b0fe92235(slot_1, a_1, r_qw_1, slot_2);
    u64 r_38 = ld64((slot_1 + 8));
    if (ld8(slot_1) == 0u) { r_ob = ld32((slot_1 + 40)); r_oh = ld64((slot_1 + 16)); r_q1 = r_38; r_ly = ld64((slot_1 + 32)); r_mf = ((u8 *)(uptr)ld64((slot_1 + 24))); goto l_arm_7y; }
    r_un = r_38;
    goto l_arm_61;
l_arm_7y:;
    r_ep = (u64)(r_q1 >> 32ull);
    if (!((r_q1 & 3ull) == 0ull)) { r_bb_1 = 53u; goto l_arm_c9_1; }
    r_y6 = (u64)(r_q1 >> 48ull);
    r_lc_1 = ((r_ep & 65535ull) + r_y6);
    if (((u64)(r_ly >> 3ull) & 0xffffffffull) < (r_lc_1 + (u64)r_ob)) { r_bb_1 = 55u; goto l_arm_c9_1; }
    if (!(ld8(slot_2) == 1u)) goto l_capnp_jb;
    r_52 = ld64(r_x5);
    if (r_52 < r_lc_1) { r_bb_1 = 62u; goto l_arm_c9_1; }
    st64(slot_2, 1ull);
    st64(r_x5, (r_52 - r_lc_1));
    goto l_capnp_jb;
l_arm_61:;
    r_bb_1 = (((u32)r_un & 255u) + 32u);
    goto l_arm_c9_1;
l_capnp_jb:;
    u32 r_az = ((u32)r_ep & 65535u);
    r_bb = (u64)(u32)(r_az << 3u);
    r_o5 = r_oh;
    r_04 = (r_ob + r_az);
    r_b2 = (u16)r_y6;
    r_3n = away(r_mf, (u64)((u64)r_ob << 3ull));
    r_v8 = (a_5 + 0xffffffffu);
l_arm_c9:;
    if (r_yz == 0xffffffffffffffffull) goto l_capnp_7m;
    st64(a_2, ((ld8(slot_2) == 1u) ? ld64(r_x5) : 0ull));
l_capnp_7m:;
    stp(a_6, r_3n);
    st64((a_6 + 8), r_bb);
    st64((a_6 + 16), r_o5);
    st32((a_6 + 24), r_04);
    st32((a_6 + 28), r_v8);
    st16((a_6 + 32), r_b2);
    memset((a_6 + 34), 0u, 6);
    r_gw = 0u;
    goto l_join_ti;
l_arm_c9_1:;
    if (r_yz == 0xffffffffffffffffull) goto l_capnp_rz;
    st64(a_2, ((ld8(slot_2) == 1u) ? ld64(r_x5) : 0ull));
l_capnp_rz:;
    stp(a_6, ((u8 *)g_static_6));
    memset((a_6 + 8), 0u, 32);
    r_gw = r_bb_1;
l_join_ti:;
    return r_gw;
}

/* capnp_pointers::pointers::validate::validate_object::<#07dcb38b0fe92235> */
static NEVER u8 capnp_pointers_pointers_validate_validate_object_07dcb_94c64086(u8 *a_1, u32 a_2, u32 a_3, u8 *a_4)
{
    A(8) u8 slot_1[56];
    A(8) u8 slot_2[64];
    u64 r_52;
    u8 *r_xw;
    u64 r_38;
    u8 r_y8;
    u8 *r_rq;
    u8 *r_xw_1;
    u8 *r_08;
    u8 *r_su;
    u64 r_7l;
    u64 r_gw;
    u64 r_qw;
    u64 t_al;
    u8 t_pa;
    u64 r_lc;
    u64 r_nb;
    u64 r_yz;
    u32 r_ag;
    u32 r_38_1;
    u64 r_7w;
    u64 r_un;
    u64 r_o2;
    u64 r_hq;
    u64 r_ep;
    u64 r_y6;
    u64 r_lc_1;
    u8 *r_t9;
    u64 r_52_1;
    u8 switch_wl;
    u64 r_ij_1;
    u64 r_c4;
    u64 r_24;
    u64 r_gw_1;
    u8 *r_t9_1;
    u64 r_52_2;
    u64 r_eh;
    u32 t_c8;
    u32 r_12_1;
    u32 r_az_1;
    u32 r_68;
    u64 r_c0;
    u8 *r_t9_2;
    u64 r_52_3;
    u32 r_12_2;
    u8 *r_t9_3;
    u64 r_52_4;
    u8 *r_t9_4;
    u64 r_52_5;
    u64 r_hn;
    u64 r_c6;
    u8 *r_t9_5;
    u64 r_52_6;
    u64 r_2g;
    u64 r_jg;
    u64 r_6e;
    u32 t_h6;
    u32 a_op;
    u64 r_tq;
    u32 r_hc;
    u64 r_vo;
    u32 r_k1;
    u32 a_8q;
    u32 r_nx;
    u32 r_b0;
    u32 r_ub;
    u32 r_7c;
    u32 r_ae;
    u32 r_3i;
    u32 r_ij;
    u8 *r_c4_1;
    u8 *r_6c;
    u32 r_68_1;
    u32 invariant_w0;
    u32 r_e3;
    u32 r_e5;
    u8 r_fk;
    memset(slot_2, 0u, 64);
    r_52 = ld64(away(a_1, 24ull));
    r_xw = ldp(away(a_1, 32ull));
    r_38 = ld64(away(a_1, 40ull));
    r_y8 = ld8(a_1);
    r_rq = away(a_1, 8ull);
    r_xw_1 = ldp(r_rq);
    r_08 = away(a_1, 16ull);
    r_su = away(a_4, 40ull);
    r_7l = (u64)a_2;
    r_gw = (u64)(r_38 >> 3ull);
    if (!(r_gw > r_7l)) { r_fk = 0u; goto l_return_ri; }
    r_qw = ld64(away(r_xw, (u64)(r_7l << 3ull)));
    if (r_qw == 0ull) { r_fk = 0u; goto l_return_ri; }
    t_al = (u64)(uptr)r_xw;
    memset(slot_1, 0u, 56);
    t_pa = (r_y8 != 0u);
    if (t_pa) goto l_capnp_sm;
    u8 *r_r2 = away(a_4, 56ull);
    st64(r_r2, uadd_sat64(ld64(r_r2), 1ull));
    if ((r_qw & 3ull) == 2ull) goto l_capnp_74;
    goto l_join_bd;
l_capnp_sm:;
    if (!((r_qw & 3ull) == 2ull)) goto l_join_bd;
    st32((slot_1 + 8), 32u);
    r_2g = ld64((slot_1 + 8));
    goto l_capnp_8g;
l_join_bd:;
    u64 r_m6 = ((u64)(r_qw >> 2ull) & 0x3fffffffull);
    r_lc = ((r_7l + 1ull) + r_m6);
    r_nb = (r_gw & 0xffffffffull);
    if (!(r_m6 < 0x20000000ull)) goto l_else_70;
    if (r_lc > r_nb) { r_2g = 23ull; goto l_capnp_8g; }
    r_yz = r_lc;
    goto l_capnp_i5;
l_else_70:;
    u64 r_3o = (r_lc + 0xffffffffc0000000ull);
    if ((r_lc < 0x40000000ull) ? 1u : (r_3o > r_nb)) { r_2g = 23ull; goto l_capnp_8g; }
    r_yz = r_3o;
l_capnp_i5:;
    r_ag = 0u;
    r_38_1 = (u32)r_yz;
    r_7w = r_52;
    r_un = r_qw;
    r_o2 = r_38;
    r_hq = t_al;
    goto l_arm_gc;
l_capnp_74:;
    capnp_pointers_source_follow_far_07dcb38b0fe92235(slot_1, r_xw_1, r_qw, r_su);
    u64 r_38_2 = ld64((slot_1 + 16));
    u64 r_38_3 = ld64((slot_1 + 8));
    if (ld8(slot_1) == 0u) { r_ag = ld32((slot_1 + 44)); r_38_1 = ld32((slot_1 + 40)); r_7w = r_38_2; r_un = r_38_3; r_o2 = ld64((slot_1 + 32)); r_hq = ld64((slot_1 + 24)); goto l_arm_gc; }
    r_jg = r_38_2;
    r_6e = r_38_3;
    goto l_capnp_qu;
l_arm_gc:;
    switch ((u8)((u8)r_un & 3u)) {
    case 0u: goto l_arm_4l;
    case 1u: goto l_arm_z2;
    case 2u: { r_hc = 13u; r_vo = 0ull; r_k1 = 0u; goto l_arm_zi; }
    case 3u: goto l_capnp_32;
    default: goto l_default_e1;
    }
l_arm_4l:;
    r_ep = (u64)(r_un >> 32ull);
    r_y6 = (u64)(r_un >> 48ull);
    if ((i32)a_3 < (i32)1u) { r_hc = 26u; r_vo = 0ull; r_k1 = 0u; goto l_arm_zi; }
    r_lc_1 = ((r_ep & 65535ull) + r_y6);
    if (((u64)(r_o2 >> 3ull) & 0xffffffffull) < (r_lc_1 + (u64)r_38_1)) { r_hc = 23u; r_vo = 0ull; r_k1 = 0u; goto l_arm_zi; }
    if (t_pa) goto l_arm_67;
    if (!(ld8(r_su) == 1u)) goto l_arm_67;
    r_t9 = away(a_4, 48ull);
    r_52_1 = ld64(r_t9);
    if (r_52_1 < r_lc_1) { r_hc = 30u; r_vo = 0ull; r_k1 = 0u; goto l_arm_zi; }
    st64(r_su, 1ull);
    st64(r_t9, (r_52_1 - r_lc_1));
l_arm_67:;
    u32 r_12 = (u32)r_y6;
    u32 r_az = ((u32)r_ep & 65535u);
    u32 r_y0 = (a_3 + 0xffffffffu);
    a_8q = smax32(r_y0, 0u);
    r_nx = (r_az + r_12);
    r_b0 = r_y0;
    r_ub = r_38_1;
    r_7c = r_ag;
    r_ae = r_az;
    r_3i = r_12;
    r_ij = 1u;
    goto l_arm_2c;
l_arm_z2:;
    switch_wl = (u8)((u8)(u64)(r_un >> 32ull) & 7u);
    r_ij_1 = (u64)(r_un >> 35ull);
    switch (switch_wl) {
    case 7u: goto l_arm_ot;
    case 6u: goto l_arm_3a;
    case 0u: goto l_arm_ot_1;
    case 5u: goto l_arm_h9;
    case 4u: goto l_arm_h9_1;
    case 3u: goto l_arm_h9_2;
    case 1u: { r_hn = 1ull; goto l_capnp_ot; }
    case 2u: goto l_arm_h9_3;
    default: goto l_default_e1;
    }
l_arm_ot:;
    if ((i32)a_3 < (i32)1u) { r_hc = 26u; r_vo = 0ull; r_k1 = 0u; goto l_arm_zi; }
    r_c4 = (r_ij_1 + 1ull);
    r_24 = (u64)r_38_1;
    r_gw_1 = (u64)(r_o2 >> 3ull);
    if ((r_gw_1 & 0xffffffffull) < (r_c4 + r_24)) { r_hc = 23u; r_vo = 0ull; r_k1 = 0u; goto l_arm_zi; }
    if (t_pa) goto l_arm_ga;
    if (!(ld8(r_su) == 1u)) goto l_arm_ga;
    r_t9_1 = away(a_4, 48ull);
    r_52_2 = ld64(r_t9_1);
    if (!(r_52_2 > r_ij_1)) { r_hc = 30u; r_vo = 0ull; r_k1 = 0u; goto l_arm_zi; }
    st64(r_su, 1ull);
    st64(r_t9_1, (r_52_2 - r_c4));
l_arm_ga:;
    if (!(r_gw_1 > r_24)) { r_eh = 0ull; goto l_join_qm; }
    u64 r_qw_1 = ld64(away(((u8 *)(uptr)r_hq), (u64)(r_24 << 3ull)));
    if ((r_qw_1 & 3ull) == 0ull) { r_eh = r_qw_1; goto l_join_qm; }
    r_hc = 11u;
    r_vo = 0ull;
    r_k1 = 0u;
    goto l_arm_zi;
l_join_qm:;
    t_c8 = (u32)((u32)r_eh >> 2u);
    r_12_1 = (u32)(u64)(r_eh >> 48ull);
    r_az_1 = ((u32)(u64)(r_eh >> 32ull) & 65535u);
    r_68 = (r_az_1 + r_12_1);
    r_c0 = (u64)t_c8;
    if (r_ij_1 < ((u64)r_68 * r_c0)) { r_hc = 10u; r_vo = 0ull; r_k1 = 0u; goto l_arm_zi; }
    if ((u8)((u8)t_pa | (u8)(r_68 != 0u))) goto l_arm_gu;
    if (!(ld8(r_su) == 1u)) goto l_arm_gu;
    r_t9_2 = away(a_4, 48ull);
    r_52_3 = ld64(r_t9_2);
    if (r_52_3 < r_c0) { r_hc = 30u; r_vo = 0ull; r_k1 = 0u; goto l_arm_zi; }
    st64(r_su, 1ull);
    st64(r_t9_2, (r_52_3 - r_c0));
l_arm_gu:;
    u32 r_y0_1 = (a_3 + 0xffffffffu);
    a_8q = smax32(r_y0_1, 0u);
    r_nx = (((r_az_1 + r_12_1) * t_c8) + 1u);
    r_b0 = r_y0_1;
    r_ub = (r_38_1 + 1u);
    r_7c = 0u;
    r_ae = r_az_1;
    r_3i = r_12_1;
    r_ij = t_c8;
    goto l_arm_2c;
l_arm_3a:;
    r_12_2 = (u32)r_ij_1;
    if ((i32)a_3 < (i32)1u) { r_hc = 26u; r_vo = 0ull; r_k1 = 0u; goto l_arm_zi; }
    if (((u64)(r_o2 >> 3ull) & 0xffffffffull) < (r_ij_1 + (u64)r_38_1)) { r_hc = 23u; r_vo = 0ull; r_k1 = 0u; goto l_arm_zi; }
    if (t_pa) goto l_arm_vk;
    if (!(ld8(r_su) == 1u)) goto l_arm_vk;
    r_t9_3 = away(a_4, 48ull);
    r_52_4 = ld64(r_t9_3);
    if (r_52_4 < r_ij_1) { r_hc = 30u; r_vo = 0ull; r_k1 = 0u; goto l_arm_zi; }
    st64(r_su, 1ull);
    st64(r_t9_3, (r_52_4 - r_ij_1));
    goto l_arm_vk;
l_arm_ot_1:;
    if ((i32)a_3 < (i32)1u) { r_hc = 26u; r_vo = 0ull; r_k1 = 0u; goto l_arm_zi; }
    if (((u64)(r_o2 >> 3ull) & 0xffffffffull) < (u64)r_38_1) { r_hc = 23u; r_vo = 0ull; r_k1 = 0u; goto l_arm_zi; }
    if (t_pa) goto l_arm_x2;
    if (!(ld8(r_su) == 1u)) goto l_arm_x2;
    st64(r_su, 1ull);
    r_t9_4 = away(a_4, 48ull);
    r_52_5 = ld64(r_t9_4);
    if (r_52_5 < r_ij_1) { r_hc = 30u; r_vo = 0ull; r_k1 = 0u; goto l_arm_zi; }
    st64(r_t9_4, (r_52_5 - r_ij_1));
    goto l_arm_x2;
l_arm_h9_3:;
    r_hn = 8ull;
    goto l_capnp_ot;
l_arm_h9_2:;
    r_hn = 16ull;
    goto l_capnp_ot;
l_arm_h9_1:;
    r_hn = 32ull;
    goto l_capnp_ot;
l_arm_h9:;
    r_hn = 64ull;
l_capnp_ot:;
    if ((i32)a_3 < (i32)1u) { r_hc = 26u; r_vo = 0ull; r_k1 = 0u; goto l_arm_zi; }
    r_c6 = (u64)(((r_hn * r_ij_1) + 63ull) >> 6ull);
    if (((u64)(r_o2 >> 3ull) & 0xffffffffull) < (r_c6 + (u64)r_38_1)) { r_hc = 23u; r_vo = 0ull; r_k1 = 0u; goto l_arm_zi; }
    if (t_pa) goto l_arm_j5;
    if (!(ld8(r_su) == 1u)) goto l_arm_j5;
    r_t9_5 = away(a_4, 48ull);
    r_52_6 = ld64(r_t9_5);
    if (r_52_6 < r_c6) { r_hc = 30u; r_vo = 0ull; r_k1 = 0u; goto l_arm_zi; }
    st64(r_su, 1ull);
    st64(r_t9_5, (r_52_6 - r_c6));
    goto l_arm_j5;
l_default_e1:;
    UNREACHABLE();
l_capnp_8g:;
    r_jg = 0ull;
    r_6e = r_2g;
l_capnp_qu:;
    r_hc = ((u32)r_6e & 255u);
    r_vo = r_jg;
    r_k1 = (u32)(u64)(r_6e >> 32ull);
    goto l_arm_zi;
l_capnp_32:;
    u8 r_e6 = ((r_un & 0xffffffffull) == 3ull);
    if (r_e6) goto l_arm_ix;
    r_hc = (r_e6 ? 1u : 34u);
    r_vo = 0ull;
    r_k1 = 0u;
    goto l_arm_zi;
l_arm_vk:;
    u32 r_y0_2 = (a_3 + 0xffffffffu);
    a_8q = smax32(r_y0_2, 0u);
    r_nx = r_12_2;
    r_b0 = r_y0_2;
    r_ub = r_38_1;
    r_7c = r_ag;
    r_ae = 0u;
    r_3i = r_12_2;
    r_ij = 1u;
    goto l_arm_2c;
l_arm_ix:;
    u8 *r_08_1 = away(a_4, 16ull);
    st64(r_08_1, uadd_sat64(ld64(r_08_1), 1ull));
    r_fk = 0u;
    goto l_return_ri;
l_arm_x2:;
    a_op = smax32(a_3, 1u);
    r_tq = 0ull;
    goto l_capnp_bx;
l_arm_j5:;
    t_h6 = smax32(a_3, 1u);
    switch (switch_wl) {
    case 5u: goto l_arm_h9_4;
    case 4u: goto l_arm_h9_5;
    case 3u: goto l_arm_h9_6;
    case 1u: { a_op = t_h6; r_tq = 1ull; goto l_capnp_bx; }
    case 2u: goto l_arm_h9_7;
    default: goto l_noarm_e1;
    }
l_arm_h9_7:;
    a_op = t_h6;
    r_tq = 8ull;
    goto l_capnp_bx;
l_arm_h9_6:;
    a_op = t_h6;
    r_tq = 16ull;
    goto l_capnp_bx;
l_arm_h9_5:;
    a_op = t_h6;
    r_tq = 32ull;
    goto l_capnp_bx;
l_arm_h9_4:;
    a_op = t_h6;
    r_tq = 64ull;
    goto l_capnp_bx;
l_noarm_e1:;
    UNREACHABLE();
l_capnp_bx:;
    st32(a_4, umin32((a_op + 0xffffffffu), ld32(a_4)));
    u8 *r_rq_1 = away(a_4, 8ull);
    st64(r_rq_1, uadd_sat64((u64)(((r_tq * r_ij_1) + 63ull) >> 6ull), ld64(r_rq_1)));
    r_fk = 0u;
    goto l_return_ri;
l_arm_zi:;
    st32(away(a_4, 24ull), r_hc);
    st32(away(a_4, 28ull), r_k1);
    st64(away(a_4, 32ull), r_vo);
    r_fk = 1u;
    goto l_return_ri;
l_arm_2c:;
    st32(a_4, umin32(a_8q, ld32(a_4)));
    u8 *r_rq_2 = away(a_4, 8ull);
    st64(r_rq_2, uadd_sat64((u64)r_nx, ld64(r_rq_2)));
    u8 *r_rv = ldp(r_rq);
    u64 r_qw_2 = ld64(r_08);
    st64(slot_2, (u64)ld8(a_1));
    stp((slot_2 + 8), r_rv);
    st64((slot_2 + 16), r_qw_2);
    st64((slot_2 + 24), r_7w);
    st64((slot_2 + 32), r_hq);
    st64((slot_2 + 40), r_o2);
    r_c4_1 = (slot_2 + 48);
    st32(r_c4_1, r_ub);
    st32((slot_2 + 52), r_7c);
    r_6c = (slot_2 + 56);
    st32(r_6c, r_b0);
    if (r_3i == 0u) { r_fk = 0u; goto l_return_ri; }
    r_68_1 = (r_3i + r_ae);
    if (r_ij == 0u) { r_fk = 0u; goto l_return_ri; }
    invariant_w0 = (r_ae + ld32(r_c4_1));
    r_e3 = ld32(r_6c);
    r_e5 = 0u;
    goto l_join_wb;
l_loop_i4:;
    u32 r_ff = (r_e5 + 1u);
    if (r_ff == r_ij) { r_fk = 0u; goto l_return_ri; }
    r_e5 = r_ff;
l_join_wb:;
    u8 r_7j = capnp_pointers_pointers_validate_validate_pointers_07d_b5563fe6(slot_2, ((r_e5 * r_68_1) + invariant_w0), r_3i, r_e3, a_4);
    if ((u8)(r_7j & 1)) { r_fk = 1u; goto l_return_ri; }
    goto l_loop_i4;
l_return_ri:;
    return r_fk;
}

/* capnp_pointers::pointers::validate::validate_pointers::<#07dcb38b0fe92235> */
static NEVER u8 capnp_pointers_pointers_validate_validate_pointers_07d_b5563fe6(u8 *a_1, u32 a_2, u32 a_3, u32 a_4, u8 *a_5)
{
    u8 *r_su;
    u8 *r_xm;
    u8 *r_su_1;
    u8 *r_r2;
    u8 r_30;
    u8 *r_t9;
    u32 t_y0;
    u8 *r_rq;
    u8 *r_xz;
    u8 *r_do;
    u8 *r_xm_1;
    u8 r_93;
    u32 t_1n;
    u64 wide_7l;
    u64 indvars_fi;
    u32 r_7m;
    u64 r_24;
    u64 r_gw;
    u64 r_qw;
    u64 r_ep;
    u64 r_y6;
    u64 r_lc;
    u8 t_pa;
    u64 r_lc_1;
    u64 r_nb;
    u64 r_9v;
    u32 r_4r;
    u8 r_8u;
    u64 r_52;
    u32 r_ae;
    u32 r_12;
    u32 r_az;
    u64 r_ep_1;
    u64 r_c6;
    u8 t_0c;
    u64 r_lc_2;
    u64 r_nb_1;
    u64 r_n2;
    u64 r_52_1;
    u8 r_hf;
    u32 r_dq;
    u8 r_fk;
    r_su = away(a_1, 40ull);
    r_xm = away(a_1, 32ull);
    r_su_1 = away(a_5, 40ull);
    r_r2 = away(a_5, 56ull);
    r_30 = ((i32)a_4 < (i32)1u);
    r_t9 = away(a_5, 48ull);
    t_y0 = (a_4 + 0xffffffffu);
    r_rq = away(a_5, 8ull);
    r_xz = away(a_5, 24ull);
    r_do = away(a_5, 28ull);
    r_xm_1 = away(a_5, 32ull);
    r_93 = (a_4 == 0x80000000u);
    t_1n = smax32(t_y0, 0u);
    wide_7l = (u64)a_3;
    indvars_fi = 0ull;
    goto l_join_7l;
l_loop_2y:;
    u64 indvars_r7 = (indvars_fi + 1ull);
    if (indvars_r7 == wide_7l) { r_fk = 0u; goto l_return_ri; }
    indvars_fi = indvars_r7;
l_join_7l:;
    r_7m = (a_2 + (u32)indvars_fi);
    r_24 = (u64)r_7m;
    r_gw = (u64)(ld64(r_su) >> 3ull);
    if (!(r_gw > r_24)) goto l_loop_2y;
    r_qw = ld64(away(ldp(r_xm), (u64)(r_24 << 3ull)));
    if (r_qw == 0ull) goto l_loop_2y;
    switch ((u8)((u8)r_qw & 3u)) {
    case 0u: goto l_arm_kb;
    case 1u: goto l_arm_ui;
    case 2u: goto l_after_3a;
    case 3u: goto l_after_3a;
    default: goto l_default_e1;
    }
l_arm_kb:;
    r_ep = (u64)(r_qw >> 32ull);
    r_y6 = (u64)(r_qw >> 48ull);
    r_lc = ((r_ep & 65535ull) + r_y6);
    t_pa = (ld8(a_1) != 0u);
    if (t_pa) goto l_join_bd;
    st64(r_r2, uadd_sat64(ld64(r_r2), 1ull));
l_join_bd:;
    u64 r_m6 = ((u64)(r_qw >> 2ull) & 0x3fffffffull);
    r_lc_1 = ((r_24 + 1ull) + r_m6);
    r_nb = (r_gw & 0xffffffffull);
    if (!(r_m6 < 0x20000000ull)) goto l_else_70;
    if (r_lc_1 > r_nb) { r_dq = 23u; goto l_return_h4; }
    r_9v = r_lc_1;
    goto l_arm_g3;
l_else_70:;
    u64 r_3o = (r_lc_1 + 0xffffffffc0000000ull);
    if ((r_lc_1 < 0x40000000ull) ? 1u : (r_3o > r_nb)) { r_dq = 23u; goto l_return_h4; }
    r_9v = r_3o;
l_arm_g3:;
    r_4r = (u32)r_9v;
    if (r_30) { r_dq = 26u; goto l_return_h4; }
    r_8u = (r_nb < (r_9v + r_lc));
    if ((u8)((u8)t_pa | (u8)r_8u)) goto l_capnp_uj;
    if (!(ld8(r_su_1) == 1u)) { r_ae = r_4r; goto l_arm_0g; }
    r_52 = ld64(r_t9);
    if (r_52 < r_lc) { r_dq = 30u; goto l_return_h4; }
    st64(r_su_1, 1ull);
    st64(r_t9, (r_52 - r_lc));
    r_ae = r_4r;
    goto l_arm_0g;
l_capnp_uj:;
    if (r_8u) { r_dq = 23u; goto l_return_h4; }
    r_ae = (r_8u ? 0u : r_4r);
l_arm_0g:;
    r_12 = (u32)r_y6;
    r_az = ((u32)r_ep & 65535u);
    st32(a_5, (r_93 ? 0u : umin32(t_1n, ld32(a_5))));
    st64(r_rq, uadd_sat64((u64)(r_az + r_12), ld64(r_rq)));
    if (r_y6 == 0ull) goto l_loop_2y;
    u8 r_le = capnp_pointers_pointers_validate_validate_pointers_07d_b5563fe6(a_1, (r_ae + r_az), r_12, t_y0, a_5);
    r_hf = r_le;
    goto l_capnp_5o;
l_arm_ui:;
    r_ep_1 = (u64)(r_qw >> 32ull);
    if (!((u8)((u8)((u8)r_ep_1 & 7u) + 255u) < 5u)) goto l_after_3a;
    r_c6 = (u64)(((ld64(away(away(((u8 *)switch_table_capnp_pointers_pointers_validate_validate_f7685ec9), 8 * (r_ep_1 & 7ull)), 0xfffffffffffffff8ull)) * (u64)(r_qw >> 35ull)) + 63ull) >> 6ull);
    t_0c = (ld8(a_1) == 0u);
    if (!t_0c) goto l_join_bd_1;
    st64(r_r2, uadd_sat64(ld64(r_r2), 1ull));
l_join_bd_1:;
    u64 r_m6_1 = ((u64)(r_qw >> 2ull) & 0x3fffffffull);
    r_lc_2 = ((r_24 + 1ull) + r_m6_1);
    r_nb_1 = (r_gw & 0xffffffffull);
    if (!(r_m6_1 < 0x20000000ull)) goto l_else_70_1;
    if (r_lc_2 > r_nb_1) { r_dq = 23u; goto l_return_h4; }
    r_n2 = r_lc_2;
    goto l_arm_l9;
l_else_70_1:;
    u64 r_3o_1 = (r_lc_2 + 0xffffffffc0000000ull);
    if ((r_lc_2 < 0x40000000ull) ? 1u : (r_3o_1 > r_nb_1)) { r_dq = 23u; goto l_return_h4; }
    r_n2 = r_3o_1;
l_arm_l9:;
    if (r_30) { r_dq = 26u; goto l_return_h4; }
    if (r_nb_1 < (r_n2 + r_c6)) { r_dq = 23u; goto l_return_h4; }
    if (!t_0c) goto l_arm_z5;
    if (!(ld8(r_su_1) == 1u)) goto l_arm_z5;
    r_52_1 = ld64(r_t9);
    if (r_52_1 < r_c6) { r_dq = 30u; goto l_return_h4; }
    st64(r_su_1, 1ull);
    st64(r_t9, (r_52_1 - r_c6));
l_arm_z5:;
    st32(a_5, umin32(t_y0, ld32(a_5)));
    st64(r_rq, uadd_sat64(r_c6, ld64(r_rq)));
    goto l_loop_2y;
l_after_3a:;
    u8 r_ep_2 = capnp_pointers_pointers_validate_validate_object_07dcb_94c64086(a_1, r_7m, a_4, a_5);
    r_hf = r_ep_2;
    goto l_capnp_5o;
l_default_e1:;
    UNREACHABLE();
l_capnp_5o:;
    if ((u8)(r_hf & 1)) { r_fk = 1u; goto l_return_ri; }
    goto l_loop_2y;
l_return_h4:;
    st32(r_xz, r_dq);
    st32(r_do, 0u);
    st64(r_xm_1, 0ull);
    r_fk = 1u;
l_return_ri:;
    return r_fk;
}

/* capnp_layout_c::validation::refused_pointer */
static NEVER void capnp_layout_c_validation_refused_pointer(u8 *a_1, u8 *a_2, u32 a_3, u8 *a_4)
{
    A(8) u8 slot_1[40];
    A(8) u8 slot_2[64];
    u8 *r_e7;
    u8 *r_mb;
    u64 r_qw;
    u8 *r_rq;
    u64 r_52;
    u64 r_l1;
    u8 *r_jf;
    u64 sink_x3;
    u64 a_zs;
    u8 *r_9l;
    u64 r_zl;
    u64 r_vt;
    u64 r_8t;
    u32 r_49;
    u32 r_1t;
    u32 r_a3;
    u32 r_wr;
    u64 r_hb;
    st64((slot_2 + 56), 0ull);
    r_e7 = (a_2 + 8);
    if (ld64(r_e7) == 0ull) { r_vt = 1ull; r_8t = 0ull; r_49 = 0u; r_1t = 0u; r_a3 = 12u; r_wr = 0u; r_hb = 0ull; goto l_join_s8; }
    r_mb = ldp(a_2);
    r_qw = ld64((r_mb + 8));
    if (r_qw < 8ull) { r_vt = 1ull; r_8t = 0ull; r_49 = 0u; r_1t = 0u; r_a3 = 23u; r_wr = 0u; r_hb = 0ull; goto l_join_s8; }
    if (!(ld8(a_4) == 1u)) { r_l1 = r_qw; r_jf = r_mb; goto l_arm_co; }
    r_rq = away(a_4, 8ull);
    r_52 = ld64(r_rq);
    if (r_52 == 0ull) { r_vt = 1ull; r_8t = 0ull; r_49 = 0u; r_1t = 0u; r_a3 = 30u; r_wr = 0u; r_hb = 0ull; goto l_join_s8; }
    st64(a_4, 1ull);
    st64(r_rq, (r_52 + 0xffffffffffffffffull));
    if (ld64(r_e7) == 0ull) { sink_x3 = 2ull; a_zs = 0ull; r_9l = ((u8 *)g_static_6); r_zl = 0ull; goto l_arm_wl; }
    u8 *r_mb_1 = ldp(a_2);
    r_l1 = ld64((r_mb_1 + 8));
    r_jf = r_mb_1;
l_arm_co:;
    sink_x3 = 0ull;
    a_zs = (u64)(uptr)a_2;
    r_9l = ((r_l1 < 8ull) ? ((u8 *)g_static_6) : ldp(r_jf));
    r_zl = (r_l1 & 0xfffffffffffffff8ull);
l_arm_wl:;
    st64(slot_2, sink_x3);
    st64((slot_2 + 8), a_zs);
    memset((slot_2 + 16), 0u, 16);
    stp((slot_2 + 32), r_9l);
    st64((slot_2 + 40), r_zl);
    st32((slot_2 + 48), 0u);
    st32((slot_2 + 52), 0u);
    st32((slot_2 + 56), a_3);
    memset(slot_1, 0u, 40);
    capnp_refusals_refusals_search_search_object_07dcb38b0fe92235(slot_1, slot_2, 0u, a_3, a_4);
    r_vt = (u64)ld8(slot_1);
    r_8t = ld64((slot_1 + 8));
    r_49 = ld32((slot_1 + 16));
    r_1t = ld32((slot_1 + 20));
    r_a3 = ld32((slot_1 + 24));
    r_wr = ld32((slot_1 + 28));
    r_hb = ld64((slot_1 + 32));
l_join_s8:;
    st64(a_1, r_vt);
    st64(away(a_1, 8ull), r_8t);
    st32(away(a_1, 16ull), r_49);
    st32(away(a_1, 20ull), r_1t);
    st32(away(a_1, 24ull), r_a3);
    st32(away(a_1, 28ull), r_wr);
    st64(away(a_1, 32ull), r_hb);
    return;
}

/* capnp_refusals::refusals::search::search_object::<#07dcb38b0fe92235> */
static void capnp_refusals_refusals_search_search_object_07dcb38b0fe92235(u8 *a_1, u8 *a_2, u32 a_3, u32 a_4, u8 *a_5)
{
    A(8) u8 slot_1[56];
    A(8) u8 slot_2[64];
    u8 r_dh;
    u64 r_eg;
    u8 *r_rv;
    u64 r_qw;
    u64 r_52;
    u8 *r_xw;
    u64 r_38;
    u64 r_7l;
    u64 r_gw;
    u64 r_qw_1;
    u64 t_al;
    u8 t_pa;
    u64 r_lc;
    u64 r_nb;
    u64 r_yz;
    u32 r_ag;
    u32 r_38_1;
    u64 r_7w;
    u64 r_un;
    u64 r_o2;
    u64 r_hq;
    u64 r_ep;
    u64 r_y6;
    u64 r_lc_1;
    u8 *r_rq;
    u64 r_52_1;
    u64 r_ij;
    u64 r_c4;
    u64 r_24;
    u64 r_gw_1;
    u8 *r_rq_1;
    u64 r_52_2;
    u64 r_eh;
    u32 t_c8;
    u32 r_12;
    u32 r_az;
    u32 r_68;
    u64 r_c0;
    u8 *r_rq_2;
    u64 r_52_3;
    u32 r_12_1;
    u8 *r_rq_3;
    u64 r_52_4;
    u8 *r_rq_4;
    u64 r_52_5;
    u64 r_hn;
    u64 r_c6;
    u8 *r_rq_5;
    u64 r_52_6;
    u64 r_2g;
    u64 r_jg;
    u64 r_6e;
    u32 r_ef;
    u64 r_kn;
    u32 r_9a;
    u32 r_nt;
    u32 r_p0;
    u32 r_ne;
    u32 r_dl;
    u32 r_mb;
    u8 *r_c4_1;
    u8 *r_6c;
    u32 r_68_1;
    u32 invariant_w0;
    u32 r_e3;
    u32 r_08_1;
    u64 r_lt;
    u64 r_5a;
    u32 r_8y;
    u32 r_5c;
    u32 r_rj;
    u32 r_40;
    u64 r_uj;
    memset(slot_2, 0u, 64);
    r_dh = ld8(a_2);
    r_eg = (u64)r_dh;
    r_rv = ldp(away(a_2, 8ull));
    r_qw = ld64(away(a_2, 16ull));
    r_52 = ld64(away(a_2, 24ull));
    r_xw = ldp(away(a_2, 32ull));
    r_38 = ld64(away(a_2, 40ull));
    r_7l = (u64)a_3;
    r_gw = (u64)(r_38 >> 3ull);
    if (!(r_gw > r_7l)) goto l_arm_h9;
    r_qw_1 = ld64(away(r_xw, (u64)(r_7l << 3ull)));
    if (r_qw_1 == 0ull) goto l_arm_h9;
    t_al = (u64)(uptr)r_xw;
    memset(slot_1, 0u, 56);
    t_pa = (r_dh != 0u);
    if (t_pa) goto l_capnp_sm;
    u8 *r_08 = away(a_5, 16ull);
    st64(r_08, uadd_sat64(ld64(r_08), 1ull));
    if ((r_qw_1 & 3ull) == 2ull) goto l_capnp_nl;
    goto l_join_bd;
l_capnp_sm:;
    if (!((r_qw_1 & 3ull) == 2ull)) goto l_join_bd;
    st32((slot_1 + 8), 32u);
    r_2g = ld64((slot_1 + 8));
    goto l_capnp_8g;
l_join_bd:;
    u64 r_m6 = ((u64)(r_qw_1 >> 2ull) & 0x3fffffffull);
    r_lc = ((r_7l + 1ull) + r_m6);
    r_nb = (r_gw & 0xffffffffull);
    if (!(r_m6 < 0x20000000ull)) goto l_else_70;
    if (r_lc > r_nb) { r_2g = 23ull; goto l_capnp_8g; }
    r_yz = r_lc;
    goto l_capnp_i5;
l_else_70:;
    u64 r_3o = (r_lc + 0xffffffffc0000000ull);
    if ((r_lc < 0x40000000ull) ? 1u : (r_3o > r_nb)) { r_2g = 23ull; goto l_capnp_8g; }
    r_yz = r_3o;
l_capnp_i5:;
    r_ag = 0u;
    r_38_1 = (u32)r_yz;
    r_7w = r_52;
    r_un = r_qw_1;
    r_o2 = r_38;
    r_hq = t_al;
    goto l_arm_gc;
l_capnp_nl:;
    capnp_pointers_source_follow_far_07dcb38b0fe92235(slot_1, r_rv, r_qw_1, a_5);
    u64 r_38_2 = ld64((slot_1 + 16));
    u64 r_38_3 = ld64((slot_1 + 8));
    if (ld8(slot_1) == 0u) { r_ag = ld32((slot_1 + 44)); r_38_1 = ld32((slot_1 + 40)); r_7w = r_38_2; r_un = r_38_3; r_o2 = ld64((slot_1 + 32)); r_hq = ld64((slot_1 + 24)); goto l_arm_gc; }
    r_jg = r_38_2;
    r_6e = r_38_3;
    goto l_capnp_qu;
l_arm_gc:;
    switch ((u8)((u8)r_un & 3u)) {
    case 0u: goto l_arm_4l;
    case 1u: goto l_arm_z2;
    case 2u: { r_ef = 13u; r_kn = 0ull; r_9a = 0u; goto l_arm_c6; }
    case 3u: goto l_capnp_32;
    default: goto l_default_e1;
    }
l_arm_4l:;
    r_ep = (u64)(r_un >> 32ull);
    r_y6 = (u64)(r_un >> 48ull);
    if ((i32)a_4 < (i32)1u) { r_ef = 26u; r_kn = 0ull; r_9a = 0u; goto l_arm_c6; }
    r_lc_1 = ((r_ep & 65535ull) + r_y6);
    if (((u64)(r_o2 >> 3ull) & 0xffffffffull) < (r_lc_1 + (u64)r_38_1)) { r_ef = 23u; r_kn = 0ull; r_9a = 0u; goto l_arm_c6; }
    if (t_pa) goto l_join_1n;
    if (!(ld8(a_5) == 1u)) goto l_join_1n;
    r_rq = away(a_5, 8ull);
    r_52_1 = ld64(r_rq);
    if (r_52_1 < r_lc_1) { r_ef = 30u; r_kn = 0ull; r_9a = 0u; goto l_arm_c6; }
    st64(a_5, 1ull);
    st64(r_rq, (r_52_1 - r_lc_1));
l_join_1n:;
    r_nt = r_38_1;
    r_p0 = r_ag;
    r_ne = ((u32)r_ep & 65535u);
    r_dl = (u32)r_y6;
    r_mb = 1u;
    goto l_arm_6s;
l_arm_z2:;
    r_ij = (u64)(r_un >> 35ull);
    switch ((u8)((u8)(u64)(r_un >> 32ull) & 7u)) {
    case 7u: goto l_arm_ot;
    case 6u: goto l_arm_3a;
    case 0u: goto l_arm_ot_1;
    case 5u: goto l_arm_h9_1;
    case 4u: goto l_arm_h9_2;
    case 3u: goto l_arm_h9_3;
    case 1u: { r_hn = 1ull; goto l_capnp_ot; }
    case 2u: goto l_arm_h9_4;
    default: goto l_default_e1;
    }
l_arm_ot:;
    if ((i32)a_4 < (i32)1u) { r_ef = 26u; r_kn = 0ull; r_9a = 0u; goto l_arm_c6; }
    r_c4 = (r_ij + 1ull);
    r_24 = (u64)r_38_1;
    r_gw_1 = (u64)(r_o2 >> 3ull);
    if ((r_gw_1 & 0xffffffffull) < (r_c4 + r_24)) { r_ef = 23u; r_kn = 0ull; r_9a = 0u; goto l_arm_c6; }
    if (t_pa) goto l_arm_ga;
    if (!(ld8(a_5) == 1u)) goto l_arm_ga;
    r_rq_1 = away(a_5, 8ull);
    r_52_2 = ld64(r_rq_1);
    if (!(r_52_2 > r_ij)) { r_ef = 30u; r_kn = 0ull; r_9a = 0u; goto l_arm_c6; }
    st64(a_5, 1ull);
    st64(r_rq_1, (r_52_2 - r_c4));
l_arm_ga:;
    if (!(r_gw_1 > r_24)) { r_eh = 0ull; goto l_join_qm; }
    u64 r_qw_2 = ld64(away(((u8 *)(uptr)r_hq), (u64)(r_24 << 3ull)));
    if ((r_qw_2 & 3ull) == 0ull) { r_eh = r_qw_2; goto l_join_qm; }
    r_ef = 11u;
    r_kn = 0ull;
    r_9a = 0u;
    goto l_arm_c6;
l_join_qm:;
    t_c8 = (u32)((u32)r_eh >> 2u);
    r_12 = (u32)(u64)(r_eh >> 48ull);
    r_az = ((u32)(u64)(r_eh >> 32ull) & 65535u);
    r_68 = (r_az + r_12);
    r_c0 = (u64)t_c8;
    if (r_ij < ((u64)r_68 * r_c0)) { r_ef = 10u; r_kn = 0ull; r_9a = 0u; goto l_arm_c6; }
    if ((u8)((u8)t_pa | (u8)(r_68 != 0u))) goto l_join_l6;
    if (!(ld8(a_5) == 1u)) goto l_join_l6;
    r_rq_2 = away(a_5, 8ull);
    r_52_3 = ld64(r_rq_2);
    if (r_52_3 < r_c0) { r_ef = 30u; r_kn = 0ull; r_9a = 0u; goto l_arm_c6; }
    st64(a_5, 1ull);
    st64(r_rq_2, (r_52_3 - r_c0));
l_join_l6:;
    r_nt = (r_38_1 + 1u);
    r_p0 = 0u;
    r_ne = r_az;
    r_dl = r_12;
    r_mb = t_c8;
    goto l_arm_6s;
l_arm_3a:;
    r_12_1 = (u32)r_ij;
    if ((i32)a_4 < (i32)1u) { r_ef = 26u; r_kn = 0ull; r_9a = 0u; goto l_arm_c6; }
    if (((u64)(r_o2 >> 3ull) & 0xffffffffull) < (r_ij + (u64)r_38_1)) { r_ef = 23u; r_kn = 0ull; r_9a = 0u; goto l_arm_c6; }
    if (t_pa) { r_nt = r_38_1; r_p0 = r_ag; r_ne = 0u; r_dl = r_12_1; r_mb = 1u; goto l_arm_6s; }
    if (!(ld8(a_5) == 1u)) { r_nt = r_38_1; r_p0 = r_ag; r_ne = 0u; r_dl = r_12_1; r_mb = 1u; goto l_arm_6s; }
    r_rq_3 = away(a_5, 8ull);
    r_52_4 = ld64(r_rq_3);
    if (r_52_4 < r_ij) { r_ef = 30u; r_kn = 0ull; r_9a = 0u; goto l_arm_c6; }
    st64(a_5, 1ull);
    st64(r_rq_3, (r_52_4 - r_ij));
    r_nt = r_38_1;
    r_p0 = r_ag;
    r_ne = 0u;
    r_dl = r_12_1;
    r_mb = 1u;
    goto l_arm_6s;
l_arm_ot_1:;
    if ((i32)a_4 < (i32)1u) { r_ef = 26u; r_kn = 0ull; r_9a = 0u; goto l_arm_c6; }
    if (((u64)(r_o2 >> 3ull) & 0xffffffffull) < (u64)r_38_1) { r_ef = 23u; r_kn = 0ull; r_9a = 0u; goto l_arm_c6; }
    if (t_pa) goto l_arm_h9;
    if (!(ld8(a_5) == 1u)) goto l_arm_h9;
    st64(a_5, 1ull);
    r_rq_4 = away(a_5, 8ull);
    r_52_5 = ld64(r_rq_4);
    if (r_52_5 < r_ij) { r_ef = 30u; r_kn = 0ull; r_9a = 0u; goto l_arm_c6; }
    st64(r_rq_4, (r_52_5 - r_ij));
    goto l_arm_h9;
l_arm_h9_4:;
    r_hn = 8ull;
    goto l_capnp_ot;
l_arm_h9_3:;
    r_hn = 16ull;
    goto l_capnp_ot;
l_arm_h9_2:;
    r_hn = 32ull;
    goto l_capnp_ot;
l_arm_h9_1:;
    r_hn = 64ull;
l_capnp_ot:;
    if ((i32)a_4 < (i32)1u) { r_ef = 26u; r_kn = 0ull; r_9a = 0u; goto l_arm_c6; }
    r_c6 = (u64)(((r_hn * r_ij) + 63ull) >> 6ull);
    if (((u64)(r_o2 >> 3ull) & 0xffffffffull) < (r_c6 + (u64)r_38_1)) { r_ef = 23u; r_kn = 0ull; r_9a = 0u; goto l_arm_c6; }
    if (t_pa) goto l_arm_h9;
    if (!(ld8(a_5) == 1u)) goto l_arm_h9;
    r_rq_5 = away(a_5, 8ull);
    r_52_6 = ld64(r_rq_5);
    if (r_52_6 < r_c6) { r_ef = 30u; r_kn = 0ull; r_9a = 0u; goto l_arm_c6; }
    st64(a_5, 1ull);
    st64(r_rq_5, (r_52_6 - r_c6));
    goto l_arm_h9;
l_default_e1:;
    UNREACHABLE();
l_capnp_8g:;
    r_jg = 0ull;
    r_6e = r_2g;
l_capnp_qu:;
    r_ef = ((u32)r_6e & 255u);
    r_kn = r_jg;
    r_9a = (u32)(u64)(r_6e >> 32ull);
    goto l_arm_c6;
l_capnp_32:;
    u8 r_e6 = ((r_un & 0xffffffffull) == 3ull);
    if (r_e6) goto l_arm_h9;
    r_ef = (r_e6 ? 1u : 34u);
    r_kn = 0ull;
    r_9a = 0u;
    goto l_arm_c6;
l_common_68:;
    return;
l_arm_c6:;
    st64(a_1, 1ull);
    st64(away(a_1, 8ull), r_52);
    st32(away(a_1, 16ull), a_3);
    st32(away(a_1, 20ull), 0u);
    st32(away(a_1, 24ull), r_ef);
    st32(away(a_1, 28ull), r_9a);
    st64(away(a_1, 32ull), r_kn);
    goto l_common_68;
l_arm_6s:;
    st64(slot_2, r_eg);
    stp((slot_2 + 8), r_rv);
    st64((slot_2 + 16), r_qw);
    st64((slot_2 + 24), r_7w);
    st64((slot_2 + 32), r_hq);
    st64((slot_2 + 40), r_o2);
    r_c4_1 = (slot_2 + 48);
    st32(r_c4_1, r_nt);
    st32((slot_2 + 52), r_p0);
    r_6c = (slot_2 + 56);
    st32(r_6c, ((a_4 == 0x80000000u) ? 0x80000000u : (a_4 + 0xffffffffu)));
    memset(slot_1, 0u, 40);
    if (r_dl == 0u) { r_lt = 0ull; r_5a = 0ull; r_8y = 0u; r_5c = 0u; r_rj = 0u; r_40 = 0u; r_uj = 0ull; goto l_capnp_ov; }
    r_68_1 = (r_dl + r_ne);
    if (r_mb == 0u) { r_lt = 0ull; r_5a = 0ull; r_8y = 0u; r_5c = 0u; r_rj = 0u; r_40 = 0u; r_uj = 0ull; goto l_capnp_ov; }
    invariant_w0 = (r_ne + ld32(r_c4_1));
    r_e3 = ld32(r_6c);
    r_08_1 = 0u;
    goto l_join_3t;
l_loop_j4:;
    u32 r_ff = (r_08_1 + 1u);
    if (r_ff == r_mb) { r_lt = 0ull; r_5a = 0ull; r_8y = 0u; r_5c = 0u; r_rj = 0u; r_40 = 0u; r_uj = 0ull; goto l_capnp_ov; }
    r_08_1 = r_ff;
l_join_3t:;
    capnp_refusals_refusals_search_search_pointers_07dcb38b0fe92235(slot_1, slot_2, ((r_08_1 * r_68_1) + invariant_w0), r_dl, r_e3, a_5);
    if (!(ld8(slot_1) == 1u)) goto l_loop_j4;
    r_lt = 1ull;
    r_5a = ld64((slot_1 + 8));
    r_8y = ld32((slot_1 + 16));
    r_5c = ld32((slot_1 + 20));
    r_rj = ld32((slot_1 + 24));
    r_40 = ld32((slot_1 + 28));
    r_uj = ld64((slot_1 + 32));
l_capnp_ov:;
    st64(a_1, r_lt);
    st64(away(a_1, 8ull), r_5a);
    st32(away(a_1, 16ull), r_8y);
    st32(away(a_1, 20ull), r_5c);
    st32(away(a_1, 24ull), r_rj);
    st32(away(a_1, 28ull), r_40);
    st64(away(a_1, 32ull), r_uj);
    goto l_common_68;
l_arm_h9:;
    memset(a_1, 0u, 40);
    goto l_common_68;
}

/* capnp_refusals::refusals::search::search_pointers::<#07dcb38b0fe92235> */
static NEVER void capnp_refusals_refusals_search_search_pointers_07dcb38b0fe92235(u8 *a_1, u8 *a_2, u32 a_3, u32 a_4, u32 a_5, u8 *a_6)
{
    A(8) u8 slot_1[40];
    u32 r_n6;
    memset(slot_1, 0u, 40);
    r_n6 = 0u;
    goto l_join_r5;
l_loop_0k:;
    u32 r_7t = (r_n6 + 1u);
    if (r_7t == a_4) goto l_after_h9;
    r_n6 = r_7t;
l_join_r5:;
    capnp_refusals_refusals_search_search_object_07dcb38b0fe92235(slot_1, a_2, (r_n6 + a_3), a_5, a_6);
    if (ld8(slot_1) == 1u) goto l_arm_os;
    goto l_loop_0k;
l_common_68:;
    return;
l_arm_os:;
    st64(a_1, 1ull);
    mv32(away(a_1, 8ull), (slot_1 + 8));
    goto l_common_68;
l_after_h9:;
    memset(a_1, 0u, 40);
    goto l_common_68;
}

uint32_t capnp_layout_start(uint8_t *bytes, size_t room, uint32_t *used)
{
    u8 *a_1 = (u8 *)bytes;
    u64 a_2 = (u64)room;
    u8 *a_3 = (u8 *)used;
    u32 common_hy;
    if (a_2 < 8ull) { common_hy = 1u; goto l_capnp_2g; }
    memset((((uptr)a_1 == (uptr)((u8 *)0)) ? away(a_1, 4096ull) : away(a_1, 0ull)), 0, 8);
    st32(a_3, 1u);
    common_hy = 0u;
l_capnp_2g:;
    return common_hy;
}

uint32_t capnp_layout_set_element_bool(uint8_t *bytes, size_t room, uint32_t used, uint64_t list, uint32_t index, bool value)
{
    u8 *a_1 = (u8 *)bytes;
    u64 a_2 = (u64)room;
    u32 a_3 = (u32)used;
    u64 a_4 = (u64)list;
    u32 a_5 = (u32)index;
    u8 a_6 = (u8)value;
    u64 r_cq;
    u8 *r_8a;
    u8 r_o9;
    u8 storemerge_ur;
    u32 common_hy;
    u64 r_cy = (u64)(a_4 >> 32ull);
    u64 r_7l = (u64)a_3;
    r_cq = (a_4 & 0xffffffffull);
    if (!(u8)((u8)(a_5 < (u32)r_cy) & (u8)((umin64((u64)(a_2 >> 3ull), 0x1fffffffull) >= r_7l) ? (((u64)((r_cy + 63ull) >> 6ull) + r_cq) <= r_7l) : 0u))) { common_hy = 61u; goto l_capnp_2g; }
    r_8a = away(away((((uptr)a_1 == (uptr)((u8 *)0)) ? away(a_1, 4096ull) : away(a_1, 0ull)), (u64)(r_cq << 3ull)), (u64)(u32)(a_5 >> 3u));
    r_o9 = (u8)((u32)1u << ((u8)((u8)a_5 & 7u) & 7u));
    if (!a_6) goto l_else_97;
    storemerge_ur = (u8)(ld8(r_8a) | r_o9);
    goto l_typed_rd;
l_else_97:;
    storemerge_ur = (u8)(ld8(r_8a) & (u8)(r_o9 ^ 255u));
l_typed_rd:;
    st8(r_8a, storemerge_ur);
    common_hy = 0u;
l_capnp_2g:;
    return common_hy;
}

uint32_t capnp_layout_set_element_u16(uint8_t *bytes, size_t room, uint32_t used, uint64_t list, uint32_t index, uint16_t value)
{
    u8 *a_1 = (u8 *)bytes;
    u64 a_2 = (u64)room;
    u32 a_3 = (u32)used;
    u64 a_4 = (u64)list;
    u32 a_5 = (u32)index;
    u16 a_6 = (u16)value;
    u64 r_cq;
    u32 common_hy;
    u64 r_cy = (u64)(a_4 >> 32ull);
    u64 r_7l = (u64)a_3;
    r_cq = (a_4 & 0xffffffffull);
    if (!(u8)((u8)(a_5 < (u32)r_cy) & (u8)((umin64((u64)(a_2 >> 3ull), 0x1fffffffull) >= r_7l) ? (((u64)(((u64)(r_cy << 4ull) + 63ull) >> 6ull) + r_cq) <= r_7l) : 0u))) { common_hy = 61u; goto l_capnp_2g; }
    st16(away(away((((uptr)a_1 == (uptr)((u8 *)0)) ? away(a_1, 4096ull) : away(a_1, 0ull)), (u64)(r_cq << 3ull)), (u64)((u64)a_5 << 1ull)), a_6);
    common_hy = 0u;
l_capnp_2g:;
    return common_hy;
}

uint32_t capnp_layout_set_element_u32(uint8_t *bytes, size_t room, uint32_t used, uint64_t list, uint32_t index, uint32_t value)
{
    u8 *a_1 = (u8 *)bytes;
    u64 a_2 = (u64)room;
    u32 a_3 = (u32)used;
    u64 a_4 = (u64)list;
    u32 a_5 = (u32)index;
    u32 a_6 = (u32)value;
    u64 r_cq;
    u32 common_hy;
    u64 r_cy = (u64)(a_4 >> 32ull);
    u64 r_7l = (u64)a_3;
    r_cq = (a_4 & 0xffffffffull);
    if (!(u8)((u8)(a_5 < (u32)r_cy) & (u8)((umin64((u64)(a_2 >> 3ull), 0x1fffffffull) >= r_7l) ? (((u64)(((u64)(r_cy << 5ull) + 63ull) >> 6ull) + r_cq) <= r_7l) : 0u))) { common_hy = 61u; goto l_capnp_2g; }
    st32(away(away((((uptr)a_1 == (uptr)((u8 *)0)) ? away(a_1, 4096ull) : away(a_1, 0ull)), (u64)(r_cq << 3ull)), (u64)((u64)a_5 << 2ull)), a_6);
    common_hy = 0u;
l_capnp_2g:;
    return common_hy;
}

uint32_t capnp_layout_set_element_u64(uint8_t *bytes, size_t room, uint32_t used, uint64_t list, uint32_t index, uint64_t value)
{
    u8 *a_1 = (u8 *)bytes;
    u64 a_2 = (u64)room;
    u32 a_3 = (u32)used;
    u64 a_4 = (u64)list;
    u32 a_5 = (u32)index;
    u64 a_6 = (u64)value;
    u64 r_cq;
    u32 common_hy;
    u64 r_cy = (u64)(a_4 >> 32ull);
    u64 r_7l = (u64)a_3;
    r_cq = (a_4 & 0xffffffffull);
    if (!(u8)((u8)(a_5 < (u32)r_cy) & (u8)((umin64((u64)(a_2 >> 3ull), 0x1fffffffull) >= r_7l) ? ((r_cy + r_cq) <= r_7l) : 0u))) { common_hy = 61u; goto l_capnp_2g; }
    st64(away(away((((uptr)a_1 == (uptr)((u8 *)0)) ? away(a_1, 4096ull) : away(a_1, 0ull)), (u64)(r_cq << 3ull)), (u64)((u64)a_5 << 3ull)), a_6);
    common_hy = 0u;
l_capnp_2g:;
    return common_hy;
}

uint32_t capnp_layout_set_element_u8(uint8_t *bytes, size_t room, uint32_t used, uint64_t list, uint32_t index, uint8_t value)
{
    u8 *a_1 = (u8 *)bytes;
    u64 a_2 = (u64)room;
    u32 a_3 = (u32)used;
    u64 a_4 = (u64)list;
    u32 a_5 = (u32)index;
    u8 a_6 = (u8)value;
    u64 r_cq;
    u32 common_hy;
    u64 r_cy = (u64)(a_4 >> 32ull);
    u64 r_7l = (u64)a_3;
    r_cq = (a_4 & 0xffffffffull);
    if (!(u8)((u8)(a_5 < (u32)r_cy) & (u8)((umin64((u64)(a_2 >> 3ull), 0x1fffffffull) >= r_7l) ? (((u64)(((u64)(r_cy << 3ull) + 63ull) >> 6ull) + r_cq) <= r_7l) : 0u))) { common_hy = 61u; goto l_capnp_2g; }
    st8(away(away((((uptr)a_1 == (uptr)((u8 *)0)) ? away(a_1, 4096ull) : away(a_1, 0ull)), (u64)(r_cq << 3ull)), (u64)a_5), a_6);
    common_hy = 0u;
l_capnp_2g:;
    return common_hy;
}

bool capnp_layout_open(const struct capnp_segment *list, size_t count, struct capnp_segments *to)
{
    u8 *a_1 = (u8 *)list;
    u64 a_2 = (u64)count;
    u8 *a_3 = (u8 *)to;
    u8 *r_8z;
    u8 *r_5a;
    u64 r_2l;
    u8 r_5k;
    r_8z = (((uptr)a_1 == (uptr)((u8 *)0)) ? away(a_1, 4096ull) : away(a_1, 0ull));
    if (a_2 > 0xffffffffull) { r_5k = 0u; goto l_capnp_6l; }
    r_5a = r_8z;
    r_2l = a_2;
l_loop_7z:;
    if (r_2l == 0ull) goto l_arm_7c;
    if (ld64(away(r_5a, 8ull)) < 0x800000000ull) { u8 *r_1 = away(r_5a, 16ull); u64 r_2 = (r_2l + 0xffffffffffffffffull); r_5a = r_1; r_2l = r_2; goto l_loop_7z; }
    r_5k = 0u;
    goto l_capnp_6l;
l_arm_7c:;
    stp(a_3, r_8z);
    st64((a_3 + 8), a_2);
    r_5k = 1u;
l_capnp_6l:;
    return r_5k;
}

uint32_t capnp_layout_get_struct(uint8_t *bytes, size_t room, uint32_t *used, uint64_t place, uint16_t index, uint16_t data_words,
                                 uint16_t pointers, struct capnp_struct_at *inner)
{
    u8 *a_1 = (u8 *)bytes;
    u64 a_2 = (u64)room;
    u8 *a_3 = (u8 *)used;
    u64 a_4 = (u64)place;
    u16 a_5 = (u16)index;
    u16 a_6 = (u16)data_words;
    u16 a_7 = (u16)pointers;
    u8 *a_8 = (u8 *)inner;
    A(4) u8 slot_1[16];
    A(8) u8 slot_2[24];
    A(8) u8 slot_3[32];
    u8 *r_8z;
    u8 *r_sl;
    u8 *r_bf;
    u32 r_iy;
    u64 r_cy;
    u64 r_24;
    u32 r_w0;
    u8 *r_zd;
    u64 r_24_1;
    u64 r_qw;
    u64 switch_f9;
    u64 r_lc;
    u64 r_3h;
    u32 r_12;
    u64 r_ep;
    u64 r_y6;
    u16 r_a6;
    u16 r_ka;
    u32 r_yg;
    u32 r_qx;
    u32 r_z4;
    u32 r_uq;
    u16 r_ej;
    u16 r_hb;
    u32 r_dn;
    u8 r_xl;
    u32 common_43;
    r_8z = (((uptr)a_1 == (uptr)((u8 *)0)) ? away(a_1, 4096ull) : away(a_1, 0ull));
    r_sl = (a_8 + 4);
    r_bf = (a_8 + 6);
    st64(a_8, 0ull);
    r_iy = ld32(a_3);
    r_cy = (u64)(a_4 >> 32ull);
    u64 r_56 = (u64)(a_4 >> 48ull);
    r_24 = (u64)r_iy;
    if (!(((umin64((u64)(a_2 >> 3ull), 0x1fffffffull) >= r_24) ? (((r_56 + (a_4 & 0xffffffffull)) + (r_cy & 65535ull)) <= r_24) : 0u) ? (a_5 < (u16)r_56) : 0u)) { common_43 = 61u; goto l_capnp_gi; }
    r_w0 = (((u32)a_5 + (u32)a_4) + ((u32)r_cy & 65535u));
    stp(slot_3, r_8z);
    st64((slot_3 + 8), a_2);
    r_zd = (slot_3 + 16);
    st32(r_zd, r_iy);
    st32((slot_3 + 20), 0u);
    st64((slot_3 + 24), 0ull);
    memset(slot_2, 0u, 24);
    if (!(r_iy > r_w0)) goto l_join_zt;
    r_24_1 = (u64)r_w0;
    r_qw = ld64(away(r_8z, (u64)(r_24_1 << 3ull)));
    if (r_qw == 0ull) goto l_join_zt;
    switch_f9 = (r_qw & 3ull);
    if (switch_f9 == 2ull) goto l_capnp_07;
    u64 r_m6 = ((u64)(r_qw >> 2ull) & 0x3fffffffull);
    r_lc = ((r_24_1 + 1ull) + r_m6);
    if (!(r_m6 < 0x20000000ull)) goto l_else_70;
    if (r_lc > r_24) goto l_capnp_8g;
    r_3h = r_lc;
    goto l_arm_cj;
l_else_70:;
    u64 r_3o = (r_lc + 0xffffffffc0000000ull);
    if ((r_lc < 0x40000000ull) ? 1u : (r_3o > r_24)) goto l_capnp_8g;
    r_3h = r_3o;
l_arm_cj:;
    r_12 = (u32)r_3h;
    r_ep = (u64)(r_qw >> 32ull);
    r_y6 = (u64)(r_qw >> 48ull);
    if (!(switch_f9 == 0ull)) goto l_capnp_8g;
    if ((((r_ep & 65535ull) + r_y6) + r_3h) > r_24) goto l_capnp_8g;
    r_a6 = (u16)r_ep;
    r_ka = (u16)r_y6;
    r_yg = r_12;
    r_qx = 0u;
    goto l_arm_4z;
l_capnp_8g:;
    goto l_capnp_5s;
l_capnp_07:;
    capnp_in_place_existing_struct_behind_pad_d7a666d2d35ab297(slot_1, slot_3, r_w0, r_qw);
    u8 t_0q = (ld8(slot_1) == 1u);
    u32 r_0s = (t_0q ? ld32((slot_1 + 12)) : 0u);
    if (t_0q) { r_a6 = (u16)r_0s; r_ka = (u16)(u32)(r_0s >> 16u); r_yg = ld32((slot_1 + 8)); r_qx = ld32((slot_1 + 4)); goto l_arm_4z; }
    goto l_capnp_5s;
l_arm_4z:;
    if (!(u8)((u8)(a_6 <= r_a6) & (u8)(a_7 <= r_ka))) goto l_join_5w;
    r_ej = r_a6;
    r_hb = r_ka;
    r_dn = r_yg;
    goto l_arm_4x;
l_join_5w:;
    capnp_in_place_opening_open_narrow_struct_d7a666d2d35ab297(slot_2, slot_3, r_w0, r_qx, r_yg, r_a6, r_ka, a_6, a_7);
    goto l_capnp_zn;
l_capnp_5s:;
    r_xl = 21u;
    goto l_arm_28;
l_join_zt:;
    capnp_in_place_opening_new_struct_d7a666d2d35ab297(slot_2, slot_3, r_w0, a_6, a_7);
l_capnp_zn:;
    r_z4 = ld32((slot_2 + 8));
    r_uq = ld32((slot_2 + 12));
    u8 r_r5 = ld8(slot_2);
    st32(a_3, ld32(r_zd));
    if (!(r_r5 == 0u)) { r_xl = (u8)r_z4; goto l_arm_28; }
    r_ej = (u16)r_uq;
    r_hb = (u16)(u32)(r_uq >> 16u);
    r_dn = r_z4;
l_arm_4x:;
    st32(a_8, r_dn);
    st16(r_sl, r_ej);
    st16(r_bf, r_hb);
    common_43 = 0u;
    goto l_capnp_gi;
l_arm_28:;
    u8 r_lt = r_xl;
    common_43 = ((r_lt == 0u) ? 1u : ((u32)r_lt + 32u));
l_capnp_gi:;
    return common_43;
}

uint32_t capnp_layout_get_list(uint8_t *bytes, size_t room, uint32_t used, uint64_t place, uint16_t index, uint32_t size,
                               struct capnp_elements_at *to)
{
    u8 *a_1 = (u8 *)bytes;
    u64 a_2 = (u64)room;
    u32 a_3 = (u32)used;
    u64 a_4 = (u64)place;
    u16 a_5 = (u16)index;
    u32 a_6 = (u32)size;
    u8 *a_7 = (u8 *)to;
    A(8) u8 slot_1[32];
    A(8) u8 slot_2[32];
    u8 *r_sl;
    u8 *r_bf;
    u8 *r_e7;
    u8 *r_a4;
    u64 r_cy;
    u32 r_ao;
    u16 r_uk;
    u16 r_gs;
    u32 r_9o;
    u32 r_9j;
    u32 common_ps;
    memset(slot_2, 0u, 32);
    r_sl = (a_7 + 4);
    r_bf = (a_7 + 6);
    r_e7 = (a_7 + 8);
    r_a4 = (a_7 + 12);
    r_cy = (u64)(a_4 >> 32ull);
    u64 r_56 = (u64)(a_4 >> 48ull);
    u64 r_7l = (u64)a_3;
    memset(a_7, 0u, 16);
    if ((u8)((u8)(a_6 > 6u) | (u8)(((umin64((u64)(a_2 >> 3ull), 0x1fffffffull) < r_7l) ? 1u : (((r_56 + (a_4 & 0xffffffffull)) + (r_cy & 65535ull)) > r_7l)) ? 1u : (a_5 >= (u16)r_56)))) { common_ps = 61u; goto l_capnp_r5; }
    stp(slot_1, (((uptr)a_1 == (uptr)((u8 *)0)) ? away(a_1, 4096ull) : away(a_1, 0ull)));
    st64((slot_1 + 8), a_2);
    st32((slot_1 + 16), a_3);
    st32((slot_1 + 20), 0u);
    st64((slot_1 + 24), 0ull);
    capnp_in_place_existing_get_list_d7a666d2d35ab297(slot_2, slot_1, (((u32)a_5 + (u32)a_4) + ((u32)r_cy & 65535u)), (u8)a_6);
    if (!(ld8(slot_2) == 0u)) goto l_arm_kq;
    if (!(ld8((slot_2 + 4)) == 1u)) { r_ao = 0u; r_uk = 0u; r_gs = 0u; r_9o = 0u; r_9j = 0u; goto l_capnp_5b; }
    r_ao = ld32((slot_2 + 12));
    r_uk = ld16((slot_2 + 18));
    r_gs = ld16((slot_2 + 20));
    r_9o = ld32((slot_2 + 24));
    r_9j = (u32)ld8((slot_2 + 16));
l_capnp_5b:;
    st32(a_7, r_ao);
    st16(r_sl, r_uk);
    st16(r_bf, r_gs);
    st32(r_e7, r_9o);
    st32(r_a4, r_9j);
    common_ps = 0u;
    goto l_capnp_r5;
l_arm_kq:;
    u8 r_r5 = ld8((slot_2 + 8));
    common_ps = ((r_r5 == 0u) ? 1u : ((u32)r_r5 + 32u));
l_capnp_r5:;
    return common_ps;
}

uint32_t capnp_layout_get_struct_list(uint8_t *bytes, size_t room, uint32_t *used, uint64_t place, uint16_t index, uint16_t data_words,
                                      uint16_t pointers, struct capnp_elements_at *to)
{
    u8 *a_1 = (u8 *)bytes;
    u64 a_2 = (u64)room;
    u8 *a_3 = (u8 *)used;
    u64 a_4 = (u64)place;
    u16 a_5 = (u16)index;
    u16 a_6 = (u16)data_words;
    u16 a_7 = (u16)pointers;
    u8 *a_8 = (u8 *)to;
    A(8) u8 slot_1[24];
    A(4) u8 slot_2[12];
    A(8) u8 slot_3[24];
    A(8) u8 slot_4[12];
    A(8) u8 slot_5[32];
    A(8) u8 slot_6[32];
    u8 *r_8z;
    u8 *r_sl;
    u8 *r_bf;
    u8 *r_e7;
    u8 *r_a4;
    u32 r_iy;
    u64 r_cy;
    u64 r_24;
    u32 r_w0;
    u8 *r_zd;
    u32 t_wt;
    u64 t_ep;
    u32 t_u2;
    u64 r_38_1;
    u32 r_z4;
    u8 r_a3;
    u16 r_xg;
    u16 r_xg_1;
    u8 r_q6;
    u16 r_cg;
    u16 r_0j;
    u16 a_b9;
    u16 a_b9_1;
    u64 r_24_1;
    u32 r_m2;
    u32 r_m2_1;
    u32 r_68;
    u8 r_ed;
    u64 r_0f;
    u32 r_z4_1;
    u32 r_uq;
    u32 r_uq_1;
    u32 r_w0_1;
    u8 *r_xw;
    u32 r_z4_2;
    u64 indvars_ak;
    u32 r_ma;
    u8 r_cr;
    u64 r_ry;
    u64 r_ik;
    u32 r_sr;
    u64 r_lu;
    u32 r_ze;
    u8 *r_nw;
    u64 r_10;
    u64 r_1q;
    u64 r_se;
    u64 r_um;
    u8 *r_2b;
    u8 *t_2b;
    u8 r_2g;
    u32 r_cf;
    u32 r_4s;
    u64 r_3d;
    u16 r_fl;
    u16 r_t4;
    u32 i_kb;
    u32 r_d3;
    u8 r_ed_1;
    u64 r_24_2;
    u64 r_u7;
    u64 r_k5;
    u64 r_c3;
    u32 r_ze_1;
    u32 r_z4_3;
    u32 r_uq_2;
    u32 r_uq_3;
    u32 r_w0_2;
    u32 r_ll;
    u32 r_57;
    u32 r_00;
    u32 r_00_1;
    u32 r_68_1;
    u8 r_2p;
    u8 r_bh;
    u8 *r_xw_1;
    u32 r_z4_4;
    u32 r_89;
    u32 r_vl;
    u32 r_ab;
    u64 r_nw_1;
    u32 r_w0_3;
    u32 r_w0_4;
    u8 r_mj;
    u8 *r_x5;
    u8 *r_k0;
    u8 *r_zd_1;
    u32 r_6o;
    u32 r_ch;
    u32 r_hm;
    u32 r_z4_5;
    u8 *r_xw_2;
    u64 r_24_3;
    u64 indvars_l9;
    u32 r_sr_1;
    u32 r_sr_2;
    u64 r_24_4;
    u64 r_qw;
    u64 r_lc;
    u64 r_sm;
    u32 r_4r;
    u64 r_79;
    u64 r_sx;
    u64 r_nw_2;
    u8 r_r5;
    u32 r_uq_4;
    u64 r_38_2;
    u32 r_60;
    u32 r_ql;
    u32 r_hj;
    u8 *r_nw_3;
    u64 r_10_1;
    u64 r_lc_1;
    u32 r_wt;
    u64 r_um_1;
    u8 *r_2b_2;
    u8 *t_2b_1;
    u8 r_ne;
    u8 r_ne_1;
    u32 r_cf_1;
    u32 r_wt_1;
    u16 r_xg_2;
    u32 r_4r_1;
    u64 r_c4;
    u64 r_24_5;
    u32 r_wt_2;
    u64 r_um_2;
    u8 *r_2b_3;
    u8 *t_2b_2;
    u8 r_51;
    u32 r_dh;
    u8 r_yg;
    u8 r_xz;
    u32 r_p1;
    u16 r_r3;
    u32 r_rc;
    u64 r_2b_1;
    u32 r_qh;
    u8 r_ip;
    u32 r_wq;
    u8 r_ek;
    u32 r_y7;
    u32 r_0y;
    u64 r_m7;
    u32 r_z4_6;
    u32 r_f1;
    u32 r_d0;
    u16 r_yj;
    u16 r_ho;
    u64 r_mc;
    u32 r_wz;
    u32 r_eo;
    u32 r_ao;
    u16 r_uk;
    u16 r_gs;
    u32 r_9o;
    u32 r_9j;
    u32 pre_g4;
    u32 r_ck;
    u64 r_hr;
    u32 common_43;
    r_8z = (((uptr)a_1 == (uptr)((u8 *)0)) ? away(a_1, 4096ull) : away(a_1, 0ull));
    r_sl = (a_8 + 4);
    r_bf = (a_8 + 6);
    r_e7 = (a_8 + 8);
    r_a4 = (a_8 + 12);
    memset(a_8, 0u, 16);
    r_iy = ld32(a_3);
    r_cy = (u64)(a_4 >> 32ull);
    u64 r_56 = (u64)(a_4 >> 48ull);
    r_24 = (u64)r_iy;
    if (!(((umin64((u64)(a_2 >> 3ull), 0x1fffffffull) >= r_24) ? (((r_56 + (a_4 & 0xffffffffull)) + (r_cy & 65535ull)) <= r_24) : 0u) ? (a_5 < (u16)r_56) : 0u)) { common_43 = 61u; goto l_capnp_gi; }
    r_w0 = (((u32)a_5 + (u32)a_4) + ((u32)r_cy & 65535u));
    stp(slot_6, r_8z);
    st64((slot_6 + 8), a_2);
    r_zd = (slot_6 + 16);
    st32(r_zd, r_iy);
    st32((slot_6 + 20), 0u);
    st64((slot_6 + 24), 0ull);
    memset(slot_5, 0u, 32);
    capnp_in_place_existing_get_list_d7a666d2d35ab297(slot_5, slot_6, r_w0, 0u);
    u64 r_38 = ld64((slot_5 + 8));
    t_wt = (u32)r_38;
    t_ep = (u64)(r_38 >> 32ull);
    t_u2 = (u32)t_ep;
    r_38_1 = ld64((slot_5 + 16));
    if (!(ld8(slot_5) == 0u)) { pre_g4 = t_wt; r_ck = r_iy; r_hr = r_38; goto l_arm_45; }
    r_z4 = ld32((slot_5 + 24));
    r_a3 = (u8)r_38_1;
    r_xg = (u16)(u64)(r_38_1 >> 16ull);
    r_xg_1 = (u16)(u64)(r_38_1 >> 32ull);
    if (ld8((slot_5 + 4)) == 1u) goto l_arm_w4;
    r_ao = 0u;
    r_uk = 0u;
    r_gs = 0u;
    r_9o = 0u;
    r_9j = 0u;
    goto l_capnp_5b;
l_arm_w4:;
    r_q6 = (r_a3 == 7u);
    if (!r_q6) goto l_join_wd;
    if (!(u8)((u8)(a_6 <= r_xg) & (u8)(a_7 <= r_xg_1))) { r_cg = r_xg; r_0j = r_xg_1; goto l_capnp_fo; }
    r_yj = r_xg_1;
    r_ho = r_xg;
    r_mc = r_38_1;
    r_wz = t_u2;
    r_eo = r_z4;
    goto l_arm_w0;
l_join_wd:;
    switch (r_a3) {
    case 1u: { r_f1 = r_iy; r_d0 = 8u; goto l_arm_fb; }
    case 0u: { r_cg = 0u; r_0j = 0u; goto l_capnp_fo; }
    case 6u: goto l_arm_h9;
    case 4u: goto l_arm_h9_1;
    case 5u: goto l_arm_h9_1;
    case 2u: goto l_arm_h9_1;
    case 3u: goto l_arm_h9_1;
    default: goto l_noarm_e1;
    }
l_arm_h9:;
    r_cg = 0u;
    r_0j = 1u;
    goto l_capnp_fo;
l_arm_h9_1:;
    r_cg = 1u;
    r_0j = 0u;
    goto l_capnp_fo;
l_noarm_e1:;
    UNREACHABLE();
l_capnp_fo:;
    a_b9 = umax16(r_cg, a_6);
    a_b9_1 = umax16(r_0j, a_7);
    r_24_1 = (u64)r_z4;
    r_m2 = (u32)a_b9;
    r_m2_1 = (u32)a_b9_1;
    r_68 = (r_m2_1 + r_m2);
    if (((u64)r_68 * r_24_1) > 0x1fffffffull) { r_f1 = r_iy; r_d0 = 27u; goto l_arm_fb; }
    if (!((u8)(r_a3 + 254u) < 4u)) goto l_arm_46;
    r_ed = (t_wt == 0u);
    if (((u64)(((ld64((((u8 *)switch_table_capnp_layout_get_struct_list) + (i64)(8 * ((r_38_1 + 254ull) & 255ull)))) * r_24_1) + 63ull) >> 6ull) + t_ep) > (r_ed ? r_24 : 0ull)) { r_f1 = r_iy; r_d0 = 23u; goto l_arm_fb; }
    if (!(r_iy > r_w0)) { r_0f = 0ull; goto l_capnp_d7; }
    r_0f = ld64(away(r_8z, (u64)((u64)r_w0 << 3ull)));
l_capnp_d7:;
    capnp_in_place_remaking_allocate_struct_list_d7a666d2d35ab297(slot_1, slot_6, r_z4, a_b9, a_b9_1);
    r_z4_1 = ld32((slot_1 + 8));
    r_uq = ld32((slot_1 + 12));
    if (!(ld8(slot_1) == 0u)) goto l_arm_2p;
    r_uq_1 = ld32((slot_1 + 4));
    r_w0_1 = ((r_z4_1 + 1u) + r_uq);
    if (r_z4 == 0u) goto l_capnp_lp;
    r_xw = ldp(slot_6);
    r_z4_2 = ld32(r_zd);
    indvars_ak = 0ull;
    r_ma = r_w0_1;
l_join_6i:;
    switch (r_a3) {
    case 0u: { r_cr = 1u; r_ry = 0ull; goto l_capnp_qn; }
    case 6u: { r_cr = 1u; r_ry = 0ull; goto l_capnp_qn; }
    case 7u: { r_cr = 1u; r_ry = 0ull; goto l_capnp_qn; }
    case 1u: goto l_arm_h9_2;
    case 2u: goto l_arm_h9_3;
    case 3u: goto l_arm_h9_4;
    case 4u: goto l_arm_h9_5;
    case 5u: goto l_arm_h9_6;
    default: goto l_noarm_e1_1;
    }
l_arm_h9_2:;
    r_cr = 1u;
    r_ry = 1ull;
    goto l_capnp_qn;
l_arm_h9_3:;
    r_cr = 1u;
    r_ry = 8ull;
    goto l_capnp_qn;
l_arm_h9_4:;
    r_cr = 1u;
    r_ry = 16ull;
    goto l_capnp_qn;
l_arm_h9_5:;
    r_cr = 1u;
    r_ry = 32ull;
    goto l_capnp_qn;
l_arm_h9_6:;
    r_cr = 0u;
    r_ry = 64ull;
    goto l_capnp_qn;
l_noarm_e1_1:;
    UNREACHABLE();
l_capnp_qn:;
    r_ik = (r_ry * indvars_ak);
    r_sr = ((u32)(u64)(r_ik >> 6ull) + t_u2);
    if (!(r_ed ? (r_z4_2 > r_sr) : 0u)) { r_lu = 0ull; goto l_capnp_zz; }
    r_lu = ld64(away(r_xw, (u64)((u64)r_sr << 3ull)));
l_capnp_zz:;
    st64((r_xw + (i64)((u64)((u64)r_ma << 3ull))), ((u64)(r_lu >> ((r_ik & 63ull) & 63u)) & (r_cr ? ((u64)(0xffffffffffffffffull << (r_ry & 63u)) ^ 0xffffffffffffffffull) : 0xffffffffffffffffull)));
    u64 indvars_r7 = (indvars_ak + 1ull);
    if (!(indvars_r7 == r_24_1)) { u64 indvars_1 = indvars_r7; u32 r_1 = (r_ma + r_68); indvars_ak = indvars_1; r_ma = r_1; goto l_join_6i; }
l_capnp_lp:;
    r_ze = (r_68 * r_z4);
    if (!(r_uq == 0u)) goto l_capnp_4f;
    r_nw = ldp(slot_6);
    r_10 = (((u64)((u64)r_ze << 35ull) | (u64)(u32)((r_z4_1 + (r_w0 ^ 0xffffffffu)) << 2u)) | 0x700000001ull);
    goto l_capnp_i3;
l_capnp_4f:;
    u8 *r_lz = ldp(slot_6);
    u64 r_z6 = (u64)((u64)r_z4_1 << 3ull);
    st64((r_lz + (i64)(r_z6)), ((u64)((u64)r_ze << 35ull) | 0x700000001ull));
    r_nw = r_lz;
    r_10 = ((r_z6 | (u64)((u64)r_uq_1 << 32ull)) | 2ull);
l_capnp_i3:;
    st64((r_nw + (i64)((u64)((u64)r_w0 << 3ull))), r_10);
    r_1q = (ld64((((u8 *)switch_table_capnp_layout_get_struct_list_12) + (i64)(8 * (r_38_1 & 255ull)))) * r_24_1);
    r_se = (u64)((r_1q + 63ull) >> 6ull);
    if (!(u8)((u8)r_ed & (u8)(r_se != 0ull))) goto l_capnp_25;
    if ((r_se + t_ep) > (u64)ld32(r_zd)) goto l_capnp_25;
    r_um = ((u64)(r_se << 3ull) & 0x7fffffff8ull);
    r_2b = away(r_nw, (u64)(t_ep << 3ull));
    if (r_1q < 449ull) goto l_then_5t;
    memset_or_none(r_2b, 0u, r_um);
    goto l_capnp_25;
l_then_5t:;
    t_2b = away(r_2b, r_um);
    if (!(r_1q > 192ull)) goto l_else_9l;
    memset(r_2b, 0, 32);
    memset(away(t_2b, 0xffffffffffffffe0ull), 0, 32);
    goto l_capnp_25;
l_else_9l:;
    if (r_se == 1ull) goto l_then_qw;
    memset(r_2b, 0, 16);
    memset(away(t_2b, 0xfffffffffffffff0ull), 0, 16);
    goto l_capnp_25;
l_then_qw:;
    memset(r_2b, 0, 8);
    memset(away(t_2b, 0xfffffffffffffff8ull), 0, 8);
l_capnp_25:;
    if (!((r_0f & 3ull) == 2ull)) goto l_capnp_68;
    capnp_allocation_zeroing_zero_far_pads_d7a666d2d35ab297(slot_6, r_0f);
l_capnp_68:;
    r_2g = 0u;
    r_cf = r_w0_1;
    r_4s = ((u32)(r_m2 << 16u) | 7u);
    r_3d = ((u64)(r_24_1 << 32ull) | (u64)a_b9_1);
    goto l_capnp_8g;
l_arm_2p:;
    r_2g = 1u;
    r_cf = (r_z4_1 & 255u);
    r_4s = r_uq;
    r_3d = ld64((slot_1 + 16));
l_capnp_8g:;
    r_ek = r_2g;
    r_y7 = r_cf;
    r_0y = r_4s;
    r_m7 = r_3d;
    goto l_capnp_cx;
l_arm_46:;
    switch (r_a3) {
    case 0u: { r_fl = 0u; r_t4 = 0u; goto l_capnp_fi; }
    case 6u: goto l_arm_h9_7;
    case 7u: goto l_arm_h9_8;
    case 1u: goto l_arm_h9_9;
    case 2u: goto l_arm_h9_9;
    case 3u: goto l_arm_h9_9;
    case 4u: goto l_arm_h9_9;
    case 5u: goto l_arm_h9_9;
    default: goto l_noarm_e1_2;
    }
l_arm_h9_7:;
    r_fl = 0u;
    r_t4 = 1u;
    goto l_capnp_fi;
l_arm_h9_8:;
    r_fl = r_xg;
    r_t4 = r_xg_1;
    goto l_capnp_fi;
l_arm_h9_9:;
    r_fl = 1u;
    r_t4 = 0u;
    goto l_capnp_fi;
l_noarm_e1_2:;
    UNREACHABLE();
l_capnp_fi:;
    i_kb = (u32)r_q6;
    r_d3 = usub_sat32(t_u2, i_kb);
    r_ed_1 = (t_wt == 0u);
    r_24_2 = (u64)r_d3;
    r_u7 = (u64)r_t4;
    r_k5 = (u64)r_q6;
    if (((r_24_2 + r_k5) + ((r_u7 + (u64)r_fl) * r_24_1)) > (r_ed_1 ? r_24 : 0ull)) { r_f1 = r_iy; r_d0 = 23u; goto l_arm_fb; }
    memset(slot_2, 0u, 12);
    if (!(r_iy > r_w0)) { r_c3 = 0ull; goto l_capnp_rd; }
    r_c3 = ld64(away(r_8z, (u64)((u64)r_w0 << 3ull)));
l_capnp_rd:;
    r_ze_1 = (r_68 * r_z4);
    capnp_in_place_remaking_allocate_struct_list_d7a666d2d35ab297(slot_3, slot_6, r_z4, a_b9, a_b9_1);
    r_z4_3 = ld32((slot_3 + 8));
    r_uq_2 = ld32((slot_3 + 12));
    if (!(ld8(slot_3) == 0u)) goto l_arm_2p_1;
    r_uq_3 = ld32((slot_3 + 4));
    r_w0_2 = (r_uq_2 + r_z4_3);
    r_ll = (r_w0_2 + 1u);
    r_57 = (r_d3 + i_kb);
    r_00 = (u32)r_fl;
    r_00_1 = (u32)r_t4;
    r_68_1 = (r_00_1 + r_00);
    r_2p = (r_z4 == 0u);
    if ((u8)((u8)r_2p | (u8)(r_fl == 0u))) goto l_capnp_0m;
    r_bh = (r_fl == 1u);
    r_xw_1 = ldp(slot_6);
    r_z4_4 = ld32(r_zd);
    r_89 = 0u;
    r_vl = r_ll;
    r_ab = r_57;
l_join_lx:;
    if (!r_bh) goto l_else_1c;
    if (!(r_ed_1 ? (r_z4_4 > r_ab) : 0u)) { r_nw_1 = 0ull; goto l_capnp_i3_1; }
    r_nw_1 = ld64(away(r_xw_1, (u64)((u64)r_ab << 3ull)));
l_capnp_i3_1:;
    st64((r_xw_1 + (i64)((u64)((u64)r_vl << 3ull))), r_nw_1);
    goto l_capnp_fj;
l_else_1c:;
    capnp_in_place_widening_copy_words_at_once_d7a666d2d35ab297(slot_6, r_ab, r_vl, r_00);
l_capnp_fj:;
    u32 r_7t = (r_89 + 1u);
    if (!(r_7t == r_z4)) { u32 r_2 = r_7t; u32 r_3 = (r_vl + r_68); u32 r_4 = (r_ab + r_68_1); r_89 = r_2; r_vl = r_3; r_ab = r_4; goto l_join_lx; }
l_capnp_0m:;
    if (r_t4 == 0u) goto l_arm_ed;
    r_w0_3 = (r_57 + r_00);
    r_w0_4 = (r_ll + r_m2);
    if (r_2p) goto l_arm_ed;
    r_mj = (r_uq_3 == t_wt);
    r_x5 = (slot_1 + 8);
    r_k0 = (slot_1 + 12);
    r_zd_1 = (slot_1 + 16);
    r_6o = 0u;
    r_ch = r_w0_4;
    r_hm = r_w0_3;
l_join_0z:;
    memset(slot_1, 0u, 24);
    if (!r_mj) goto l_capnp_xe;
    r_z4_5 = ld32(r_zd);
    r_xw_2 = ldp(slot_6);
    r_24_3 = (u64)r_z4_5;
    indvars_l9 = 0ull;
l_join_j9:;
    u32 t_nk = (u32)indvars_l9;
    r_sr_1 = (r_hm + t_nk);
    r_sr_2 = (r_ch + t_nk);
    if (!(r_ed_1 ? (r_z4_5 > r_sr_1) : 0u)) goto l_arm_mf;
    r_24_4 = (u64)r_sr_1;
    r_qw = ld64(away(r_xw_2, (u64)(r_24_4 << 3ull)));
    if (r_qw == 0ull) goto l_arm_mf;
    if (!((r_qw & 2ull) == 0ull)) { r_nw_2 = r_qw; goto l_arm_i3; }
    u64 r_m6 = ((u64)(r_qw >> 2ull) & 0x3fffffffull);
    r_lc = ((r_24_4 + 1ull) + r_m6);
    if (!(r_m6 < 0x20000000ull)) goto l_else_70;
    if (r_lc > r_24_3) goto l_arm_mf;
    r_sm = r_lc;
    goto l_arm_ib;
l_else_70:;
    u64 r_3o = (r_lc + 0xffffffffc0000000ull);
    if ((r_lc < 0x40000000ull) ? 1u : (r_3o > r_24_3)) goto l_arm_mf;
    r_sm = r_3o;
l_arm_ib:;
    r_4r = (u32)r_sm;
    u8 r_7q = ((r_qw & 1ull) == 0ull);
    r_79 = (u64)(r_qw >> ((r_7q ? 48ull : 35ull) & 63u));
    r_sx = ((((u64)r_79 & 0xffffffffffffull) << (16u & 63u)) & 0xffffffffffffull);
    if (!r_7q) goto l_arm_td;
    u32 r_sh = (u32)(r_sx | ((((u64)r_qw & 0xffffffffffffull) >> (32u & 63u))));
    if (((u32)(r_sh >> 16u) | (r_sh & 65535u)) == 0u) { r_nw_2 = 0xfffffffcull; goto l_arm_i3; }
    r_nw_2 = (((r_qw & 0xffff00000000ull) | (u64)(u32)((r_4r + (r_sr_2 ^ 0xffffffffu)) << 2u)) | (u64)((u64)r_sx << 32ull));
    goto l_arm_i3;
l_arm_td:;
    r_nw_2 = ((((u64)(r_79 << 35ull) | (r_qw & 0x700000000ull)) | (u64)(u32)((r_4r + (r_sr_2 ^ 0xffffffffu)) << 2u)) | 1ull);
l_arm_i3:;
    st64((r_xw_2 + (i64)((u64)((u64)r_sr_2 << 3ull))), r_nw_2);
l_arm_mf:;
    u64 indvars_r7_1 = (indvars_l9 + 1ull);
    if (!(indvars_r7_1 == r_u7)) { indvars_l9 = indvars_r7_1; goto l_join_j9; }
    goto l_arm_fj;
l_capnp_xe:;
    capnp_in_place_moving_transfer_row_across_d7a666d2d35ab297(slot_1, slot_6, t_wt, r_hm, r_uq_3, r_ch, r_00_1);
    r_r5 = ld8(r_x5);
    r_uq_4 = ld32(r_k0);
    r_38_2 = ld64(r_zd_1);
    if (!(ld8(slot_1) == 0u)) { r_60 = 0u; r_ql = r_w0_4; r_hj = r_w0_3; goto l_join_3y; }
l_arm_fj:;
    u32 r_7t_1 = (r_6o + 1u);
    if (r_7t_1 == r_z4) goto l_arm_ed;
    u32 r_5 = r_7t_1;
    u32 r_6 = (r_ch + r_68);
    u32 r_7 = (r_hm + r_68_1);
    r_6o = r_5;
    r_ch = r_6;
    r_hm = r_7;
    goto l_join_0z;
l_join_3y:;
    capnp_in_place_moving_zero_pads_of_row_d7a666d2d35ab297(slot_6, t_wt, r_hj, r_uq_3, r_ql, r_00_1);
    u32 r_7t_2 = (r_60 + 1u);
    if (r_7t_2 == r_z4) goto l_arm_li;
    u32 r_8 = r_7t_2;
    u32 r_9 = (r_ql + r_68);
    u32 r_11 = (r_hj + r_68_1);
    r_60 = r_8;
    r_ql = r_9;
    r_hj = r_11;
    goto l_join_3y;
l_arm_2p_1:;
    r_2b_1 = ld64((slot_3 + 16));
    r_qh = r_uq_2;
    r_ip = 1u;
    r_wq = (r_z4_3 & 255u);
    goto l_capnp_no;
l_arm_ed:;
    if (!(r_uq_2 == 0u)) goto l_capnp_4f_1;
    r_nw_3 = ldp(slot_6);
    r_10_1 = (((u64)((u64)r_ze_1 << 35ull) | (u64)(u32)((r_z4_3 + (r_w0 ^ 0xffffffffu)) << 2u)) | 0x700000001ull);
    goto l_capnp_i3_2;
l_capnp_4f_1:;
    u8 *r_lz_1 = ldp(slot_6);
    u64 r_z6_1 = (u64)((u64)r_z4_3 << 3ull);
    st64((r_lz_1 + (i64)(r_z6_1)), ((u64)((u64)r_ze_1 << 35ull) | 0x700000001ull));
    r_nw_3 = r_lz_1;
    r_10_1 = ((r_z6_1 | (u64)((u64)r_uq_3 << 32ull)) | 2ull);
l_capnp_i3_2:;
    st64((r_nw_3 + (i64)((u64)((u64)r_w0 << 3ull))), r_10_1);
    r_lc_1 = (((u64)r_68_1 * r_24_1) + r_k5);
    if (!(u8)((u8)r_ed_1 & (u8)(r_lc_1 != 0ull))) goto l_capnp_25_1;
    if ((r_lc_1 + r_24_2) > (u64)ld32(r_zd)) goto l_capnp_25_1;
    r_wt = (u32)r_lc_1;
    if (r_wt == 0u) goto l_capnp_25_1;
    r_um_1 = ((u64)(r_lc_1 << 3ull) & 0x7fffffff8ull);
    r_2b_2 = away(r_nw_3, (u64)(r_24_2 << 3ull));
    if (r_wt < 8u) goto l_then_5x;
    memset_or_none(r_2b_2, 0u, r_um_1);
    goto l_capnp_25_1;
l_then_5x:;
    t_2b_1 = away(r_2b_2, r_um_1);
    if (!(r_wt > 3u)) goto l_else_gn;
    memset(r_2b_2, 0, 32);
    memset(away(t_2b_1, 0xffffffffffffffe0ull), 0, 32);
    goto l_capnp_25_1;
l_else_gn:;
    if (r_wt == 1u) goto l_then_qw_1;
    memset(r_2b_2, 0, 16);
    memset(away(t_2b_1, 0xfffffffffffffff0ull), 0, 16);
    goto l_capnp_25_1;
l_then_qw_1:;
    memset(r_2b_2, 0, 8);
    memset(away(t_2b_1, 0xfffffffffffffff8ull), 0, 8);
l_capnp_25_1:;
    if (!((r_c3 & 3ull) == 2ull)) goto l_capnp_1d;
    capnp_allocation_zeroing_zero_far_pads_d7a666d2d35ab297(slot_6, r_c3);
l_capnp_1d:;
    r_51 = 0u;
    r_dh = r_ll;
    r_yg = 7u;
    r_xz = 0u;
    r_p1 = ((u32)(r_m2_1 << 16u) | r_m2);
    r_r3 = 0u;
    r_rc = r_z4;
    goto l_join_0h;
l_arm_li:;
    r_ne = (u8)r_uq_4;
    r_ne_1 = (u8)(u32)(r_uq_4 >> 8u);
    r_cf_1 = (u32)r_r5;
    r_wt_1 = (u32)r_38_2;
    r_xg_2 = (u16)(u64)(r_38_2 >> 16ull);
    r_4r_1 = (u32)(u64)(r_38_2 >> 32ull);
    r_c4 = ((u64)r_ze_1 + 1ull);
    if (!(r_uq_3 == 0u)) goto l_capnp_ju;
    r_24_5 = (u64)r_w0_2;
    if ((r_c4 + r_24_5) > (u64)ld32(r_zd)) goto l_capnp_ju;
    r_wt_2 = (u32)r_c4;
    if (r_wt_2 == 0u) goto l_capnp_ju;
    r_um_2 = ((u64)(r_c4 << 3ull) & 0x7fffffff8ull);
    r_2b_3 = away(ldp(slot_6), (u64)(r_24_5 << 3ull));
    if (r_wt_2 < 8u) goto l_then_5x_1;
    memset_or_none(r_2b_3, 0u, r_um_2);
    goto l_capnp_ju;
l_then_5x_1:;
    t_2b_2 = away(r_2b_3, r_um_2);
    if (!(r_wt_2 > 3u)) goto l_else_gn_1;
    memset(r_2b_3, 0, 32);
    memset(away(t_2b_2, 0xffffffffffffffe0ull), 0, 32);
    goto l_capnp_ju;
l_else_gn_1:;
    if (r_wt_2 == 1u) goto l_then_qw_2;
    memset(r_2b_3, 0, 16);
    memset(away(t_2b_2, 0xfffffffffffffff0ull), 0, 16);
    goto l_capnp_ju;
l_then_qw_2:;
    memset(r_2b_3, 0, 8);
    memset(away(t_2b_2, 0xfffffffffffffff8ull), 0, 8);
l_capnp_ju:;
    r_51 = 1u;
    r_dh = r_cf_1;
    r_yg = r_ne;
    r_xz = r_ne_1;
    r_p1 = fshl32(r_wt_1, r_uq_4, 16u);
    r_r3 = r_xg_2;
    r_rc = r_4r_1;
l_join_0h:;
    st8(slot_2, r_yg);
    st8((slot_2 + 1), r_xz);
    st32((slot_2 + 2), r_p1);
    st16((slot_2 + 6), r_r3);
    st32((slot_2 + 8), r_rc);
    r_2b_1 = ld64((slot_2 + 4));
    r_qh = ld32(slot_2);
    r_ip = r_51;
    r_wq = r_dh;
l_capnp_no:;
    r_ek = r_ip;
    r_y7 = r_wq;
    r_0y = r_qh;
    r_m7 = r_2b_1;
l_capnp_cx:;
    r_z4_6 = ld32(r_zd);
    if (r_ek == 0u) goto l_arm_3f;
    r_f1 = r_z4_6;
    r_d0 = r_y7;
l_arm_fb:;
    pre_g4 = r_d0;
    r_ck = r_f1;
    r_hr = (u64)r_d0;
    goto l_arm_45;
l_arm_3f:;
    st32(slot_4, r_0y);
    st64((slot_4 + 4), r_m7);
    u64 r_38_3 = ld64(slot_4);
    st32(a_3, r_z4_6);
    r_yj = (u16)(u64)(r_38_3 >> 32ull);
    r_ho = (u16)(u64)(r_38_3 >> 16ull);
    r_mc = r_38_3;
    r_wz = r_y7;
    r_eo = (u32)(u64)(r_m7 >> 32ull);
l_arm_w0:;
    r_ao = r_wz;
    r_uk = r_ho;
    r_gs = r_yj;
    r_9o = r_eo;
    r_9j = ((u32)r_mc & 255u);
l_capnp_5b:;
    st32(a_8, r_ao);
    st16(r_sl, r_uk);
    st16(r_bf, r_gs);
    st32(r_e7, r_9o);
    st32(r_a4, r_9j);
    common_43 = 0u;
    goto l_capnp_gi;
l_arm_45:;
    st32(a_3, r_ck);
    common_43 = (((r_hr & 255ull) == 0ull) ? 1u : ((pre_g4 & 255u) + 32u));
l_capnp_gi:;
    return common_43;
}

uint32_t capnp_layout_clear(uint8_t *bytes, size_t room, uint32_t used, uint64_t place, uint16_t index)
{
    u8 *a_1 = (u8 *)bytes;
    u64 a_2 = (u64)room;
    u32 a_3 = (u32)used;
    u64 a_4 = (u64)place;
    u16 a_5 = (u16)index;
    A(8) u8 slot_1[32];
    A(8) u8 slot_2[32];
    u64 r_cy;
    u32 r_w0;
    u8 *r_2b;
    u64 r_qw;
    u32 common_43;
    r_cy = (u64)(a_4 >> 32ull);
    u64 r_56 = (u64)(a_4 >> 48ull);
    u64 r_7l = (u64)a_3;
    if (!(((umin64((u64)(a_2 >> 3ull), 0x1fffffffull) >= r_7l) ? (((r_56 + (a_4 & 0xffffffffull)) + (r_cy & 65535ull)) <= r_7l) : 0u) ? (a_5 < (u16)r_56) : 0u)) { common_43 = 61u; goto l_capnp_gi; }
    u8 *r_8z = (((uptr)a_1 == (uptr)((u8 *)0)) ? away(a_1, 4096ull) : away(a_1, 0ull));
    stp(slot_2, r_8z);
    st64((slot_2 + 8), a_2);
    st32((slot_2 + 16), a_3);
    st32((slot_2 + 20), 0u);
    st64((slot_2 + 24), 0ull);
    r_w0 = (((u32)a_5 + (u32)a_4) + ((u32)r_cy & 65535u));
    r_2b = away(r_8z, (u64)((u64)r_w0 << 3ull));
    r_qw = ld64(r_2b);
    if (r_qw == 0ull) goto l_typed_8g;
    capnp_allocation_landing_follow_d7a666d2d35ab297(slot_1, slot_2, 0u, r_w0);
    st64(r_2b, 0ull);
    if (!(ld8(slot_1) == 1u)) goto l_typed_8g;
    capnp_allocation_zeroing_zero_target_d7a666d2d35ab297(slot_2, (slot_1 + 8));
    if (!((r_qw & 3ull) == 2ull)) goto l_typed_8g;
    capnp_allocation_zeroing_zero_far_pads_d7a666d2d35ab297(slot_2, r_qw);
l_typed_8g:;
    common_43 = 0u;
l_capnp_gi:;
    return common_43;
}

uint32_t capnp_layout_set_bool(uint8_t *bytes, size_t room, uint32_t used, uint64_t place, uint32_t offset, bool value)
{
    u8 *a_1 = (u8 *)bytes;
    u64 a_2 = (u64)room;
    u32 a_3 = (u32)used;
    u64 a_4 = (u64)place;
    u32 a_5 = (u32)offset;
    u8 a_6 = (u8)value;
    u8 *r_8z;
    u64 r_cy;
    u64 r_cq;
    u8 *r_8a;
    u8 r_o9;
    u8 storemerge_ur;
    u32 common_hy;
    r_8z = (((uptr)a_1 == (uptr)((u8 *)0)) ? away(a_1, 4096ull) : away(a_1, 0ull));
    r_cy = (u64)(a_4 >> 32ull);
    u64 r_7l = (u64)a_3;
    r_cq = (a_4 & 0xffffffffull);
    if (!((umin64((u64)(a_2 >> 3ull), 0x1fffffffull) >= r_7l) ? ((((u64)(a_4 >> 48ull) + r_cq) + (r_cy & 65535ull)) <= r_7l) : 0u)) { common_hy = 61u; goto l_capnp_2g; }
    if (!(((u32)((u32)r_cy << 6u) & 0x3fffc0u) > a_5)) { common_hy = 61u; goto l_capnp_2g; }
    r_8a = away(away(r_8z, (u64)(r_cq << 3ull)), (u64)(u32)(a_5 >> 3u));
    r_o9 = (u8)((u32)1u << ((u8)((u8)a_5 & 7u) & 7u));
    if (!a_6) goto l_else_8b;
    storemerge_ur = (u8)(ld8(r_8a) | r_o9);
    goto l_capnp_rd;
l_else_8b:;
    storemerge_ur = (u8)(ld8(r_8a) & (u8)(r_o9 ^ 255u));
l_capnp_rd:;
    st8(r_8a, storemerge_ur);
    common_hy = 0u;
l_capnp_2g:;
    return common_hy;
}

uint32_t capnp_layout_set_capability(uint8_t *bytes, size_t room, uint32_t used, uint64_t place, uint16_t index, uint32_t capability)
{
    u8 *a_1 = (u8 *)bytes;
    u64 a_2 = (u64)room;
    u32 a_3 = (u32)used;
    u64 a_4 = (u64)place;
    u16 a_5 = (u16)index;
    u32 a_6 = (u32)capability;
    A(8) u8 slot_1[32];
    A(8) u8 slot_2[32];
    u64 r_cy;
    u32 r_w0;
    u8 *r_2b;
    u64 r_qw;
    u32 common_43;
    r_cy = (u64)(a_4 >> 32ull);
    u64 r_56 = (u64)(a_4 >> 48ull);
    u64 r_7l = (u64)a_3;
    if (!(((umin64((u64)(a_2 >> 3ull), 0x1fffffffull) >= r_7l) ? (((r_56 + (a_4 & 0xffffffffull)) + (r_cy & 65535ull)) <= r_7l) : 0u) ? (a_5 < (u16)r_56) : 0u)) { common_43 = 61u; goto l_capnp_gi; }
    u8 *r_8z = (((uptr)a_1 == (uptr)((u8 *)0)) ? away(a_1, 4096ull) : away(a_1, 0ull));
    stp(slot_2, r_8z);
    st64((slot_2 + 8), a_2);
    st32((slot_2 + 16), a_3);
    st32((slot_2 + 20), 0u);
    st64((slot_2 + 24), 0ull);
    r_w0 = (((u32)a_5 + (u32)a_4) + ((u32)r_cy & 65535u));
    r_2b = away(r_8z, (u64)((u64)r_w0 << 3ull));
    r_qw = ld64(r_2b);
    if (r_qw == 0ull) goto l_typed_5c;
    capnp_allocation_landing_follow_d7a666d2d35ab297(slot_1, slot_2, 0u, r_w0);
    st64(r_2b, 0ull);
    if (!(ld8(slot_1) == 1u)) goto l_typed_5c;
    capnp_allocation_zeroing_zero_target_d7a666d2d35ab297(slot_2, (slot_1 + 8));
    if (!((r_qw & 3ull) == 2ull)) goto l_typed_5c;
    capnp_allocation_zeroing_zero_far_pads_d7a666d2d35ab297(slot_2, r_qw);
l_typed_5c:;
    st64(r_2b, ((u64)((u64)a_6 << 32ull) | 3ull));
    common_43 = 0u;
l_capnp_gi:;
    return common_43;
}

uint32_t capnp_layout_set_u16(uint8_t *bytes, size_t room, uint32_t used, uint64_t place, uint32_t offset, uint16_t value)
{
    u8 *a_1 = (u8 *)bytes;
    u64 a_2 = (u64)room;
    u32 a_3 = (u32)used;
    u64 a_4 = (u64)place;
    u32 a_5 = (u32)offset;
    u16 a_6 = (u16)value;
    u8 *r_8z;
    u64 r_cy;
    u64 r_cq;
    u32 common_hy;
    r_8z = (((uptr)a_1 == (uptr)((u8 *)0)) ? away(a_1, 4096ull) : away(a_1, 0ull));
    r_cy = (u64)(a_4 >> 32ull);
    u64 r_7l = (u64)a_3;
    r_cq = (a_4 & 0xffffffffull);
    if (!((umin64((u64)(a_2 >> 3ull), 0x1fffffffull) >= r_7l) ? ((((u64)(a_4 >> 48ull) + r_cq) + (r_cy & 65535ull)) <= r_7l) : 0u)) { common_hy = 61u; goto l_capnp_2g; }
    if (!(((u32)((u32)r_cy << 2u) & 0x3fffcu) > a_5)) { common_hy = 61u; goto l_capnp_2g; }
    st16(away(away(r_8z, (u64)(r_cq << 3ull)), (u64)((u64)a_5 << 1ull)), a_6);
    common_hy = 0u;
l_capnp_2g:;
    return common_hy;
}

uint32_t capnp_layout_set_u32(uint8_t *bytes, size_t room, uint32_t used, uint64_t place, uint32_t offset, uint32_t value)
{
    u8 *a_1 = (u8 *)bytes;
    u64 a_2 = (u64)room;
    u32 a_3 = (u32)used;
    u64 a_4 = (u64)place;
    u32 a_5 = (u32)offset;
    u32 a_6 = (u32)value;
    u8 *r_8z;
    u64 r_cy;
    u64 r_cq;
    u32 common_hy;
    r_8z = (((uptr)a_1 == (uptr)((u8 *)0)) ? away(a_1, 4096ull) : away(a_1, 0ull));
    r_cy = (u64)(a_4 >> 32ull);
    u64 r_7l = (u64)a_3;
    r_cq = (a_4 & 0xffffffffull);
    if (!((umin64((u64)(a_2 >> 3ull), 0x1fffffffull) >= r_7l) ? ((((u64)(a_4 >> 48ull) + r_cq) + (r_cy & 65535ull)) <= r_7l) : 0u)) { common_hy = 61u; goto l_capnp_2g; }
    if (!(((u32)((u32)r_cy << 1u) & 0x1fffeu) > a_5)) { common_hy = 61u; goto l_capnp_2g; }
    st32(away(away(r_8z, (u64)(r_cq << 3ull)), (u64)((u64)a_5 << 2ull)), a_6);
    common_hy = 0u;
l_capnp_2g:;
    return common_hy;
}

uint32_t capnp_layout_set_u64(uint8_t *bytes, size_t room, uint32_t used, uint64_t place, uint32_t offset, uint64_t value)
{
    u8 *a_1 = (u8 *)bytes;
    u64 a_2 = (u64)room;
    u32 a_3 = (u32)used;
    u64 a_4 = (u64)place;
    u32 a_5 = (u32)offset;
    u64 a_6 = (u64)value;
    u64 r_cq;
    u32 common_hy;
    u64 r_cy = (u64)(a_4 >> 32ull);
    u64 r_7l = (u64)a_3;
    r_cq = (a_4 & 0xffffffffull);
    if (!(((umin64((u64)(a_2 >> 3ull), 0x1fffffffull) >= r_7l) ? ((((u64)(a_4 >> 48ull) + r_cq) + (r_cy & 65535ull)) <= r_7l) : 0u) ? (((u32)r_cy & 65535u) > a_5) : 0u)) { common_hy = 61u; goto l_capnp_2g; }
    st64(away(away((((uptr)a_1 == (uptr)((u8 *)0)) ? away(a_1, 4096ull) : away(a_1, 0ull)), (u64)(r_cq << 3ull)), (u64)((u64)a_5 << 3ull)), a_6);
    common_hy = 0u;
l_capnp_2g:;
    return common_hy;
}

uint32_t capnp_layout_set_u8(uint8_t *bytes, size_t room, uint32_t used, uint64_t place, uint32_t offset, uint8_t value)
{
    u8 *a_1 = (u8 *)bytes;
    u64 a_2 = (u64)room;
    u32 a_3 = (u32)used;
    u64 a_4 = (u64)place;
    u32 a_5 = (u32)offset;
    u8 a_6 = (u8)value;
    u8 *r_8z;
    u64 r_cy;
    u64 r_cq;
    u32 common_hy;
    r_8z = (((uptr)a_1 == (uptr)((u8 *)0)) ? away(a_1, 4096ull) : away(a_1, 0ull));
    r_cy = (u64)(a_4 >> 32ull);
    u64 r_7l = (u64)a_3;
    r_cq = (a_4 & 0xffffffffull);
    if (!((umin64((u64)(a_2 >> 3ull), 0x1fffffffull) >= r_7l) ? ((((u64)(a_4 >> 48ull) + r_cq) + (r_cy & 65535ull)) <= r_7l) : 0u)) { common_hy = 61u; goto l_capnp_2g; }
    if (!(((u32)((u32)r_cy << 3u) & 0x7fff8u) > a_5)) { common_hy = 61u; goto l_capnp_2g; }
    st8(away(away(r_8z, (u64)(r_cq << 3ull)), (u64)a_5), a_6);
    common_hy = 0u;
l_capnp_2g:;
    return common_hy;
}

uint32_t capnp_layout_set_data(uint8_t *bytes, size_t room, uint32_t *used, uint64_t word, const uint8_t *data, size_t size)
{
    u8 *a_1 = (u8 *)bytes;
    u64 a_2 = (u64)room;
    u8 *a_3 = (u8 *)used;
    u64 a_4 = (u64)word;
    u8 *a_5 = (u8 *)data;
    u64 a_6 = (u64)size;
    A(8) u8 slot_1[32];
    A(8) u8 slot_2[32];
    u8 *r_8z;
    u8 *r_8z_1;
    u32 r_iy;
    u64 a_js;
    u64 r_24;
    u64 r_v8;
    u32 r_d3;
    u8 *r_2b;
    u64 r_qw;
    u64 r_se;
    u32 r_12;
    u64 r_z6;
    u8 *r_2b_1;
    u32 r_w0;
    u64 r_pe;
    u32 storemerge_ar;
    u32 r_zo;
    u32 r_gw;
    r_8z = (((uptr)a_1 == (uptr)((u8 *)0)) ? away(a_1, 4096ull) : away(a_1, 0ull));
    r_8z_1 = (((uptr)a_5 == (uptr)((u8 *)0)) ? away(a_5, 4096ull) : away(a_5, 0ull));
    if (!(a_6 < 64ull)) goto l_join_ky;
    r_iy = ld32(a_3);
    a_js = umin64((u64)(a_2 >> 3ull), 0x1fffffffull);
    r_24 = (u64)r_iy;
    if (!(u8)((u8)(a_js >= r_24) & (u8)(a_4 < r_24))) goto l_join_ky;
    r_v8 = (u64)(a_4 << 3ull);
    if (!(ld64(away(r_8z, r_v8)) == 0ull)) goto l_join_ky;
    r_d3 = (u32)a_4;
    stp(slot_2, r_8z);
    st64((slot_2 + 8), a_2);
    st32((slot_2 + 16), r_iy);
    st32((slot_2 + 20), 0u);
    st64((slot_2 + 24), 0ull);
    r_2b = away(r_8z, (r_v8 & 0x7fffffff8ull));
    r_qw = ld64(r_2b);
    if (r_qw == 0ull) goto l_capnp_y1;
    capnp_allocation_landing_follow_d7a666d2d35ab297(slot_1, slot_2, 0u, r_d3);
    st64(r_2b, 0ull);
    if (!(ld8(slot_1) == 1u)) goto l_capnp_y1;
    capnp_allocation_zeroing_zero_target_d7a666d2d35ab297(slot_2, (slot_1 + 8));
    if (!((r_qw & 3ull) == 2ull)) goto l_capnp_y1;
    capnp_allocation_zeroing_zero_far_pads_d7a666d2d35ab297(slot_2, r_qw);
l_capnp_y1:;
    r_se = (u64)(((u64)(a_6 << 3ull) + 63ull) >> 6ull);
    r_12 = (u32)r_se;
    if (((u32)a_js - r_iy) < r_12) { storemerge_ar = r_iy; r_zo = 1u; goto l_capnp_9g; }
    r_z6 = (u64)(r_se << 3ull);
    r_2b_1 = away(r_8z, (u64)(r_24 << 3ull));
    if (a_6 < 57ull) goto l_then_08;
    memset_or_none(r_2b_1, 0u, r_z6);
    goto l_arm_x0;
l_then_08:;
    if (!(a_6 > 24ull)) goto l_else_1i;
    memset(r_2b_1, 0, 32);
    memset(away(away(r_2b_1, r_z6), 0xffffffffffffffe0ull), 0, 32);
    goto l_arm_x0;
l_else_1i:;
    if (!(a_6 > 8ull)) goto l_else_we;
    memset(r_2b_1, 0, 16);
    memset(away(away(r_2b_1, r_z6), 0xfffffffffffffff0ull), 0, 16);
    goto l_arm_x0;
l_else_we:;
    if (r_se == 0ull) goto l_arm_x0;
    memset(r_2b_1, 0, 8);
    memset(away(away(r_2b_1, r_z6), 0xfffffffffffffff8ull), 0, 8);
l_arm_x0:;
    r_w0 = (r_iy + r_12);
    st64(r_2b, (((u64)(a_6 << 35ull) | (u64)(u32)((r_iy + (r_d3 ^ 0xffffffffu)) << 2u)) | 0x200000001ull));
    if (a_6 == 0ull) { storemerge_ar = r_w0; r_zo = 0u; goto l_capnp_9g; }
    if (!(a_6 > 31ull)) goto l_else_5w;
    mv32(r_2b_1, r_8z_1);
    u64 r_l6 = (a_6 + 0xffffffffffffffe0ull);
    mv32((r_2b_1 + (i64)(r_l6)), (r_8z_1 + (i64)(r_l6)));
    storemerge_ar = r_w0;
    r_zo = 0u;
    goto l_capnp_9g;
l_else_5w:;
    if (!(a_6 > 15ull)) goto l_else_t1;
    mv16(r_2b_1, r_8z_1);
    u64 r_8y = (a_6 + 0xfffffffffffffff0ull);
    mv16((r_2b_1 + (i64)(r_8y)), (r_8z_1 + (i64)(r_8y)));
    storemerge_ar = r_w0;
    r_zo = 0u;
    goto l_capnp_9g;
l_else_t1:;
    if (!(a_6 > 7ull)) { r_pe = 0ull; goto l_join_pp; }
    mv8(r_2b_1, r_8z_1);
    u64 r_t8 = (a_6 + 0xfffffffffffffff8ull);
    mv8((r_2b_1 + (i64)(r_t8)), (r_8z_1 + (i64)(r_t8)));
    storemerge_ar = r_w0;
    r_zo = 0u;
    goto l_capnp_9g;
l_join_pp:;
    st8((r_2b_1 + (i64)(r_pe)), ld8((r_8z_1 + (i64)(r_pe))));
    u64 r_c4 = (r_pe + 1ull);
    if (r_c4 == a_6) { storemerge_ar = r_w0; r_zo = 0u; goto l_capnp_9g; }
    r_pe = r_c4;
    goto l_join_pp;
l_capnp_9g:;
    st32(a_3, storemerge_ar);
    r_gw = r_zo;
    goto l_capnp_ti;
l_join_ky:;
    u32 r_1x = capnp_layout_c_building_texts_set_any_data(r_8z, a_2, a_3, a_4, r_8z_1, a_6);
    r_gw = r_1x;
l_capnp_ti:;
    return r_gw;
}

uint32_t capnp_layout_set_text(uint8_t *bytes, size_t room, uint32_t *used, uint64_t word, const uint8_t *text, size_t size)
{
    u8 *a_1 = (u8 *)bytes;
    u64 a_2 = (u64)room;
    u8 *a_3 = (u8 *)used;
    u64 a_4 = (u64)word;
    u8 *a_5 = (u8 *)text;
    u64 a_6 = (u64)size;
    A(8) u8 slot_1[32];
    A(8) u8 slot_2[32];
    u8 *r_8z;
    u8 *r_8z_1;
    u32 r_iy;
    u64 a_js;
    u64 r_24;
    u64 r_v8;
    u32 r_d3;
    u64 r_1p;
    u8 *r_2b;
    u64 r_qw;
    u64 r_se;
    u32 r_12;
    u64 r_z6;
    u8 *r_2b_1;
    u8 *t_2b;
    u32 r_w0;
    u64 r_pe;
    u32 storemerge_ar;
    u32 r_zo;
    u32 r_gw;
    r_8z = (((uptr)a_1 == (uptr)((u8 *)0)) ? away(a_1, 4096ull) : away(a_1, 0ull));
    r_8z_1 = (((uptr)a_5 == (uptr)((u8 *)0)) ? away(a_5, 4096ull) : away(a_5, 0ull));
    if (!(a_6 < 64ull)) goto l_join_1n;
    r_iy = ld32(a_3);
    a_js = umin64((u64)(a_2 >> 3ull), 0x1fffffffull);
    r_24 = (u64)r_iy;
    if (!(u8)((u8)(a_js >= r_24) & (u8)(a_4 < r_24))) goto l_join_1n;
    r_v8 = (u64)(a_4 << 3ull);
    if (!(ld64(away(r_8z, r_v8)) == 0ull)) goto l_join_1n;
    r_d3 = (u32)a_4;
    stp(slot_2, r_8z);
    st64((slot_2 + 8), a_2);
    st32((slot_2 + 16), r_iy);
    st32((slot_2 + 20), 0u);
    st64((slot_2 + 24), 0ull);
    r_1p = (a_6 + 1ull);
    r_2b = away(r_8z, (r_v8 & 0x7fffffff8ull));
    r_qw = ld64(r_2b);
    if (r_qw == 0ull) goto l_capnp_g2;
    capnp_allocation_landing_follow_d7a666d2d35ab297(slot_1, slot_2, 0u, r_d3);
    st64(r_2b, 0ull);
    if (!(ld8(slot_1) == 1u)) goto l_capnp_g2;
    capnp_allocation_zeroing_zero_target_d7a666d2d35ab297(slot_2, (slot_1 + 8));
    if (!((r_qw & 3ull) == 2ull)) goto l_capnp_g2;
    capnp_allocation_zeroing_zero_far_pads_d7a666d2d35ab297(slot_2, r_qw);
l_capnp_g2:;
    r_se = (u64)(((u64)(r_1p << 3ull) + 63ull) >> 6ull);
    r_12 = (u32)r_se;
    if (((u32)a_js - r_iy) < r_12) { storemerge_ar = r_iy; r_zo = 1u; goto l_capnp_9g; }
    r_z6 = (u64)(r_se << 3ull);
    r_2b_1 = away(r_8z, (u64)(r_24 << 3ull));
    if (a_6 < 56ull) goto l_then_bm;
    memset_or_none(r_2b_1, 0u, r_z6);
    goto l_arm_x0;
l_then_bm:;
    t_2b = away(r_2b_1, r_z6);
    if (!(a_6 > 23ull)) goto l_else_m0;
    memset(r_2b_1, 0, 32);
    memset(away(t_2b, 0xffffffffffffffe0ull), 0, 32);
    goto l_arm_x0;
l_else_m0:;
    if (!(a_6 > 7ull)) goto l_then_5f;
    memset(r_2b_1, 0, 16);
    memset(away(t_2b, 0xfffffffffffffff0ull), 0, 16);
    goto l_arm_x0;
l_then_5f:;
    memset(r_2b_1, 0, 8);
    memset(away(t_2b, 0xfffffffffffffff8ull), 0, 8);
l_arm_x0:;
    r_w0 = (r_iy + r_12);
    st64(r_2b, (((u64)(r_1p << 35ull) | (u64)(u32)((r_iy + (r_d3 ^ 0xffffffffu)) << 2u)) | 0x200000001ull));
    if (a_6 == 0ull) { storemerge_ar = r_w0; r_zo = 0u; goto l_capnp_9g; }
    if (!(a_6 > 31ull)) goto l_else_5w;
    mv32(r_2b_1, r_8z_1);
    u64 r_l6 = (a_6 + 0xffffffffffffffe0ull);
    mv32((r_2b_1 + (i64)(r_l6)), (r_8z_1 + (i64)(r_l6)));
    storemerge_ar = r_w0;
    r_zo = 0u;
    goto l_capnp_9g;
l_else_5w:;
    if (!(a_6 > 15ull)) goto l_else_t1;
    mv16(r_2b_1, r_8z_1);
    u64 r_8y = (a_6 + 0xfffffffffffffff0ull);
    mv16((r_2b_1 + (i64)(r_8y)), (r_8z_1 + (i64)(r_8y)));
    storemerge_ar = r_w0;
    r_zo = 0u;
    goto l_capnp_9g;
l_else_t1:;
    if (!(a_6 > 7ull)) { r_pe = 0ull; goto l_join_pp; }
    mv8(r_2b_1, r_8z_1);
    u64 r_t8 = (a_6 + 0xfffffffffffffff8ull);
    mv8((r_2b_1 + (i64)(r_t8)), (r_8z_1 + (i64)(r_t8)));
    storemerge_ar = r_w0;
    r_zo = 0u;
    goto l_capnp_9g;
l_join_pp:;
    st8((r_2b_1 + (i64)(r_pe)), ld8((r_8z_1 + (i64)(r_pe))));
    u64 r_c4 = (r_pe + 1ull);
    if (r_c4 == a_6) { storemerge_ar = r_w0; r_zo = 0u; goto l_capnp_9g; }
    r_pe = r_c4;
    goto l_join_pp;
l_capnp_9g:;
    st32(a_3, storemerge_ar);
    r_gw = r_zo;
    goto l_capnp_ti;
l_join_1n:;
    u32 r_m6 = capnp_layout_c_building_texts_set_any_text(r_8z, a_2, a_3, a_4, r_8z_1, a_6);
    r_gw = r_m6;
l_capnp_ti:;
    return r_gw;
}

uint32_t capnp_layout_open_frame(const uint8_t *frame, size_t size, uint64_t words, struct capnp_segment *room, size_t rooms,
                                 uint32_t *count, uint64_t *bytes)
{
    u8 *a_1 = (u8 *)frame;
    u64 a_2 = (u64)size;
    u64 a_3 = (u64)words;
    u8 *a_4 = (u8 *)room;
    u64 a_5 = (u64)rooms;
    u8 *a_6 = (u8 *)count;
    u8 *a_7 = (u8 *)bytes;
    u8 *r_8z;
    u8 *r_8z_1;
    u32 r_5k;
    u64 r_24;
    u64 r_lc;
    u8 *r_bb;
    u64 r_ui;
    u64 r_eo;
    u64 r_5q;
    u64 r_15;
    u64 r_es;
    u64 r_19;
    u64 r_fk;
    u32 r_of;
    u32 common_hy;
    r_8z = (((uptr)a_1 == (uptr)((u8 *)0)) ? away(a_1, 4096ull) : away(a_1, 0ull));
    r_8z_1 = (((uptr)a_4 == (uptr)((u8 *)0)) ? away(a_4, 4096ull) : away(a_4, 0ull));
    if (a_2 == 0ull) { r_of = 2u; goto l_arm_zv; }
    if (a_2 < 4ull) { r_of = 19u; goto l_arm_zv; }
    r_5k = ld32(r_8z);
    r_24 = (u64)r_5k;
    if (r_5k > 511u) { r_of = 17u; goto l_arm_zv; }
    u64 r_vo = (u64)(r_24 << 2ull);
    r_lc = ((r_vo + 8ull) + (r_vo & 4ull));
    if (a_2 < r_lc) { r_15 = r_lc; goto l_arm_f2; }
    r_bb = away(r_8z, 4ull);
    r_ui = 0ull;
    r_eo = 0ull;
l_join_x9:;
    r_5q = (r_ui + (u64)ld32((r_bb + (i64)((u64)(r_eo << 2ull)))));
    if (!(r_eo == r_24)) { u64 r_1 = r_5q; u64 r_2 = (r_eo + 1ull); r_ui = r_1; r_eo = r_2; goto l_join_x9; }
    if (a_3 < r_5q) { r_of = 18u; goto l_arm_zv; }
    r_15 = ((u64)(r_5q << 3ull) + r_lc);
l_arm_f2:;
    if (a_2 < r_15) { r_of = 19u; goto l_arm_zv; }
    u32 r_ff = (r_5k + 1u);
    st32(a_6, r_ff);
    st64(a_7, r_15);
    r_es = (u64)r_ff;
    if (a_5 < r_es) { common_hy = 1u; goto l_capnp_2g; }
    u64 r_vo_1 = (u64)(r_es << 2ull);
    r_19 = ((r_vo_1 + 4ull) + ((r_vo_1 & 4ull) ^ 4ull));
    r_fk = 0ull;
l_join_zy:;
    u64 r_yz = (u64)((u64)ld32(((r_8z + (i64)((u64)(r_fk << 2ull))) + 4)) << 3ull);
    u8 *r_a7 = (r_8z_1 + (i64)((u64)(r_fk << 4ull)));
    stp(r_a7, away(r_8z, r_19));
    st64((r_a7 + 8), r_yz);
    u64 r_c4 = (r_fk + 1ull);
    if (r_c4 == r_es) { common_hy = 0u; goto l_capnp_2g; }
    u64 r_3 = (r_yz + r_19);
    u64 r_4 = r_c4;
    r_19 = r_3;
    r_fk = r_4;
    goto l_join_zy;
l_arm_zv:;
    st32(a_6, 0u);
    st64(a_7, 0ull);
    common_hy = r_of;
l_capnp_2g:;
    return common_hy;
}

uint32_t capnp_layout_init_list(uint8_t *bytes, size_t room, uint32_t *used, uint64_t place, uint16_t index, uint32_t size,
                                uint32_t count, uint32_t *first)
{
    u8 *a_1 = (u8 *)bytes;
    u64 a_2 = (u64)room;
    u8 *a_3 = (u8 *)used;
    u64 a_4 = (u64)place;
    u16 a_5 = (u16)index;
    u32 a_6 = (u32)size;
    u32 a_7 = (u32)count;
    u8 *a_8 = (u8 *)first;
    A(8) u8 slot_1[32];
    A(8) u8 slot_2[32];
    u8 *r_8z;
    u32 r_73;
    u32 r_4r;
    u32 r_iy;
    u64 a_js;
    u64 r_24;
    u8 *a_9r;
    u32 common_49;
    u8 switch_y6;
    u32 r_w0;
    u8 *r_2b;
    u64 r_qw;
    u64 r_rp;
    u32 common_jv;
    u64 r_z6;
    u8 *r_2b_1;
    u32 common_43;
    r_8z = (((uptr)a_1 == (uptr)((u8 *)0)) ? away(a_1, 4096ull) : away(a_1, 0ull));
    r_73 = (u32)a_4;
    u64 r_cy = (u64)(a_4 >> 32ull);
    r_4r = (u32)r_cy;
    st32(a_8, 0u);
    r_iy = ld32(a_3);
    u64 r_56 = (u64)(a_4 >> 48ull);
    a_js = umin64((u64)(a_2 >> 3ull), 0x1fffffffull);
    r_24 = (u64)r_iy;
    if ((u8)((u8)(a_6 > 6u) | (u8)(((a_js < r_24) ? 1u : (((r_56 + (a_4 & 0xffffffffull)) + (r_cy & 65535ull)) > r_24)) ? 1u : (a_5 >= (u16)r_56)))) { common_43 = 61u; goto l_capnp_gi; }
    goto l_after_ic;
l_common_jg:;
    st32(a_9r, r_iy);
    common_43 = common_49;
    goto l_capnp_gi;
l_after_ic:;
    if (a_7 > 0x1fffffffu) { common_43 = 59u; goto l_capnp_gi; }
    switch_y6 = (u8)a_6;
    stp(slot_2, r_8z);
    st64((slot_2 + 8), a_2);
    st32((slot_2 + 16), r_iy);
    st32((slot_2 + 20), 0u);
    st64((slot_2 + 24), 0ull);
    r_w0 = (((u32)a_5 + r_73) + (r_4r & 65535u));
    r_2b = away(r_8z, (u64)((u64)r_w0 << 3ull));
    r_qw = ld64(r_2b);
    if (r_qw == 0ull) goto l_capnp_vg;
    capnp_allocation_landing_follow_d7a666d2d35ab297(slot_1, slot_2, 0u, r_w0);
    st64(r_2b, 0ull);
    if (!(ld8(slot_1) == 1u)) goto l_capnp_vg;
    capnp_allocation_zeroing_zero_target_d7a666d2d35ab297(slot_2, (slot_1 + 8));
    if (!((r_qw & 3ull) == 2ull)) goto l_capnp_vg;
    capnp_allocation_zeroing_zero_far_pads_d7a666d2d35ab297(slot_2, r_qw);
l_capnp_vg:;
    switch (switch_y6) {
    case 6u: { common_jv = a_7; goto l_capnp_nn; }
    case 0u: { r_rp = 0ull; goto l_capnp_hz; }
    case 5u: goto l_arm_h9;
    case 4u: goto l_arm_h9_1;
    case 1u: goto l_arm_h9_2;
    case 2u: goto l_arm_h9_3;
    case 3u: goto l_arm_h9_4;
    default: goto l_default_e1;
    }
l_arm_h9_2:;
    r_rp = 1ull;
    goto l_capnp_hz;
l_arm_h9_3:;
    r_rp = 8ull;
    goto l_capnp_hz;
l_arm_h9_4:;
    r_rp = 16ull;
    goto l_capnp_hz;
l_arm_h9_1:;
    r_rp = 32ull;
    goto l_capnp_hz;
l_arm_h9:;
    r_rp = 64ull;
    goto l_capnp_hz;
l_default_e1:;
    UNREACHABLE();
l_capnp_hz:;
    common_jv = (u32)(u64)(((r_rp * (u64)a_7) + 63ull) >> 6ull);
l_capnp_nn:;
    if (common_jv > ((u32)a_js - r_iy)) goto l_join_aq;
    r_z6 = (u64)((u64)common_jv << 3ull);
    r_2b_1 = away(r_8z, (u64)(r_24 << 3ull));
    if (common_jv < 8u) goto l_then_i3;
    memset_or_none(r_2b_1, 0u, r_z6);
    goto l_arm_bw;
l_then_i3:;
    if (!(common_jv > 3u)) goto l_else_2d;
    memset(r_2b_1, 0, 32);
    memset(away(away(r_2b_1, r_z6), 0xffffffffffffffe0ull), 0, 32);
    goto l_arm_bw;
l_else_2d:;
    if (!(common_jv > 1u)) goto l_else_1i;
    memset(r_2b_1, 0, 16);
    memset(away(away(r_2b_1, r_z6), 0xfffffffffffffff0ull), 0, 16);
    goto l_arm_bw;
l_else_1i:;
    if (common_jv == 0u) goto l_arm_bw;
    memset(r_2b_1, 0, 8);
    memset(away(away(r_2b_1, r_z6), 0xfffffffffffffff8ull), 0, 8);
    goto l_arm_bw;
l_join_aq:;
    a_9r = a_3;
    common_49 = ((common_jv < 0x1fffffffu) ? 1u : 59u);
    goto l_common_jg;
l_arm_bw:;
    st64(r_2b, ((((u64)((u64)a_7 << 35ull) | (u64)((u64)a_6 << 32ull)) | (u64)(u32)((r_iy + (r_w0 ^ 0xffffffffu)) << 2u)) | 1ull));
    st32(a_3, (common_jv + r_iy));
    a_9r = a_8;
    common_49 = 0u;
    goto l_common_jg;
l_capnp_gi:;
    return common_43;
}

uint32_t capnp_layout_init_root(uint8_t *bytes, size_t room, uint32_t *used, uint16_t data_words, uint16_t pointers, uint32_t *at)
{
    u8 *a_1 = (u8 *)bytes;
    u64 a_2 = (u64)room;
    u8 *a_3 = (u8 *)used;
    u16 a_4 = (u16)data_words;
    u16 a_5 = (u16)pointers;
    u8 *a_6 = (u8 *)at;
    A(8) u8 slot_1[32];
    A(8) u8 slot_2[32];
    u8 *r_8z;
    u32 r_iy;
    u64 a_js;
    u64 r_24;
    u64 r_qw;
    u32 r_68;
    u64 r_c0;
    u8 *r_2b;
    u8 *t_2b;
    u32 r_wf;
    u64 storemerge_9j;
    u32 r_tz;
    u32 common_43;
    r_8z = (((uptr)a_1 == (uptr)((u8 *)0)) ? away(a_1, 4096ull) : away(a_1, 0ull));
    st32(a_6, 0u);
    r_iy = ld32(a_3);
    a_js = umin64((u64)(a_2 >> 3ull), 0x1fffffffull);
    r_24 = (u64)r_iy;
    if (!(u8)((u8)(r_iy != 0u) & (u8)(a_js >= r_24))) { common_43 = 61u; goto l_capnp_gi; }
    stp(slot_2, r_8z);
    st64((slot_2 + 8), a_2);
    st32((slot_2 + 16), r_iy);
    st32((slot_2 + 20), 0u);
    st64((slot_2 + 24), 0ull);
    r_qw = ld64(r_8z);
    if (r_qw == 0ull) goto l_capnp_cx;
    capnp_allocation_landing_follow_d7a666d2d35ab297(slot_1, slot_2, 0u, 0u);
    st64(r_8z, 0ull);
    if (!(ld8(slot_1) == 1u)) goto l_capnp_cx;
    capnp_allocation_zeroing_zero_target_d7a666d2d35ab297(slot_2, (slot_1 + 8));
    if (!((r_qw & 3ull) == 2ull)) goto l_capnp_cx;
    capnp_allocation_zeroing_zero_far_pads_d7a666d2d35ab297(slot_2, r_qw);
l_capnp_cx:;
    r_68 = ((u32)a_5 + (u32)a_4);
    if (r_68 == 0u) { r_wf = r_iy; storemerge_9j = 0xfffffffcull; r_tz = 0u; goto l_arm_o5; }
    if (r_68 > ((u32)a_js - r_iy)) goto l_arm_jg;
    r_c0 = (u64)(u32)(r_68 << 3u);
    r_2b = away(r_8z, (u64)(r_24 << 3ull));
    if (r_68 < 8u) goto l_then_5x;
    memset_or_none(r_2b, 0u, r_c0);
    goto l_capnp_s4;
l_then_5x:;
    t_2b = away(r_2b, r_c0);
    if (!(r_68 > 3u)) goto l_else_gn;
    memset(r_2b, 0, 32);
    memset(away(t_2b, 0xffffffffffffffe0ull), 0, 32);
    goto l_capnp_s4;
l_else_gn:;
    if (r_68 == 1u) goto l_then_qw;
    memset(r_2b, 0, 16);
    memset(away(t_2b, 0xfffffffffffffff0ull), 0, 16);
    goto l_capnp_s4;
l_then_qw:;
    memset(r_2b, 0, 8);
    memset(away(t_2b, 0xfffffffffffffff8ull), 0, 8);
l_capnp_s4:;
    r_wf = (r_iy + r_68);
    storemerge_9j = (((u64)((u64)a_5 << 48ull) | (u64)((u64)a_4 << 32ull)) | (u64)((u32)(r_iy << 2u) + 0xfffffffcu));
    r_tz = r_iy;
l_arm_o5:;
    st64(r_8z, storemerge_9j);
    st32(a_3, r_wf);
    st32(a_6, r_tz);
    common_43 = 0u;
    goto l_capnp_gi;
l_arm_jg:;
    st32(a_3, r_iy);
    common_43 = 1u;
l_capnp_gi:;
    return common_43;
}

uint32_t capnp_layout_init_struct(uint8_t *bytes, size_t room, uint32_t *used, uint64_t place, uint16_t index, uint16_t data_words,
                                  uint16_t pointers, uint32_t *at)
{
    u8 *a_1 = (u8 *)bytes;
    u64 a_2 = (u64)room;
    u8 *a_3 = (u8 *)used;
    u64 a_4 = (u64)place;
    u16 a_5 = (u16)index;
    u16 a_6 = (u16)data_words;
    u16 a_7 = (u16)pointers;
    u8 *a_8 = (u8 *)at;
    A(8) u8 slot_1[32];
    A(8) u8 slot_2[32];
    u8 *r_8z;
    u32 r_iy;
    u64 r_cy;
    u64 a_js;
    u64 r_24;
    u32 r_w0;
    u8 *r_2b;
    u64 r_qw;
    u32 r_68;
    u64 r_c0;
    u8 *r_2b_1;
    u8 *t_2b;
    u32 r_wf;
    u64 storemerge_9j;
    u32 r_tz;
    u32 common_43;
    r_8z = (((uptr)a_1 == (uptr)((u8 *)0)) ? away(a_1, 4096ull) : away(a_1, 0ull));
    st32(a_8, 0u);
    r_iy = ld32(a_3);
    r_cy = (u64)(a_4 >> 32ull);
    u64 r_56 = (u64)(a_4 >> 48ull);
    a_js = umin64((u64)(a_2 >> 3ull), 0x1fffffffull);
    r_24 = (u64)r_iy;
    if (!(((a_js >= r_24) ? (((r_56 + (a_4 & 0xffffffffull)) + (r_cy & 65535ull)) <= r_24) : 0u) ? (a_5 < (u16)r_56) : 0u)) { common_43 = 61u; goto l_capnp_gi; }
    stp(slot_2, r_8z);
    st64((slot_2 + 8), a_2);
    st32((slot_2 + 16), r_iy);
    st32((slot_2 + 20), 0u);
    st64((slot_2 + 24), 0ull);
    r_w0 = (((u32)a_5 + (u32)a_4) + ((u32)r_cy & 65535u));
    r_2b = away(r_8z, (u64)((u64)r_w0 << 3ull));
    r_qw = ld64(r_2b);
    if (r_qw == 0ull) goto l_capnp_cx;
    capnp_allocation_landing_follow_d7a666d2d35ab297(slot_1, slot_2, 0u, r_w0);
    st64(r_2b, 0ull);
    if (!(ld8(slot_1) == 1u)) goto l_capnp_cx;
    capnp_allocation_zeroing_zero_target_d7a666d2d35ab297(slot_2, (slot_1 + 8));
    if (!((r_qw & 3ull) == 2ull)) goto l_capnp_cx;
    capnp_allocation_zeroing_zero_far_pads_d7a666d2d35ab297(slot_2, r_qw);
l_capnp_cx:;
    r_68 = ((u32)a_7 + (u32)a_6);
    if (r_68 == 0u) { r_wf = r_iy; storemerge_9j = 0xfffffffcull; r_tz = r_w0; goto l_arm_o5; }
    if (r_68 > ((u32)a_js - r_iy)) goto l_arm_jg;
    r_c0 = (u64)(u32)(r_68 << 3u);
    r_2b_1 = away(r_8z, (u64)(r_24 << 3ull));
    if (r_68 < 8u) goto l_then_5x;
    memset_or_none(r_2b_1, 0u, r_c0);
    goto l_capnp_x0;
l_then_5x:;
    t_2b = away(r_2b_1, r_c0);
    if (!(r_68 > 3u)) goto l_else_gn;
    memset(r_2b_1, 0, 32);
    memset(away(t_2b, 0xffffffffffffffe0ull), 0, 32);
    goto l_capnp_x0;
l_else_gn:;
    if (r_68 == 1u) goto l_then_qw;
    memset(r_2b_1, 0, 16);
    memset(away(t_2b, 0xfffffffffffffff0ull), 0, 16);
    goto l_capnp_x0;
l_then_qw:;
    memset(r_2b_1, 0, 8);
    memset(away(t_2b, 0xfffffffffffffff8ull), 0, 8);
l_capnp_x0:;
    r_wf = (r_iy + r_68);
    storemerge_9j = (((u64)((u64)a_7 << 48ull) | (u64)((u64)a_6 << 32ull)) | (u64)(u32)((r_iy + (r_w0 ^ 0xffffffffu)) << 2u));
    r_tz = r_iy;
l_arm_o5:;
    st64(r_2b, storemerge_9j);
    st32(a_3, r_wf);
    st32(a_8, r_tz);
    common_43 = 0u;
    goto l_capnp_gi;
l_arm_jg:;
    st32(a_3, r_iy);
    common_43 = 1u;
l_capnp_gi:;
    return common_43;
}

uint32_t capnp_layout_init_struct_list(uint8_t *bytes, size_t room, uint32_t *used, uint64_t place, uint16_t index, uint32_t count,
                                       uint16_t data_words, uint16_t pointers, uint32_t *first)
{
    u8 *a_1 = (u8 *)bytes;
    u64 a_2 = (u64)room;
    u8 *a_3 = (u8 *)used;
    u64 a_4 = (u64)place;
    u16 a_5 = (u16)index;
    u32 a_6 = (u32)count;
    u16 a_7 = (u16)data_words;
    u16 a_8 = (u16)pointers;
    u8 *a_9 = (u8 *)first;
    A(8) u8 slot_1[8];
    u8 *r_8z;
    u32 r_iy;
    u64 r_cy;
    u64 a_js;
    u64 r_24;
    u32 r_w0;
    u64 r_7l;
    u64 r_bi;
    u64 r_bi_1;
    u8 *r_2b;
    u32 r_cb;
    u32 r_ll;
    u64 r_z6;
    u8 *r_2b_1;
    u32 r_4n;
    u32 r_8k;
    u32 common_43;
    r_8z = (((uptr)a_1 == (uptr)((u8 *)0)) ? away(a_1, 4096ull) : away(a_1, 0ull));
    st64(slot_1, a_4);
    r_iy = ld32(a_3);
    r_cy = (u64)(a_4 >> 32ull);
    u64 r_56 = (u64)(a_4 >> 48ull);
    a_js = umin64((u64)(a_2 >> 3ull), 0x1fffffffull);
    r_24 = (u64)r_iy;
    if (!(((a_js >= r_24) ? (((r_56 + (a_4 & 0xffffffffull)) + (r_cy & 65535ull)) <= r_24) : 0u) ? (a_5 < (u16)r_56) : 0u)) goto l_join_vo;
    r_w0 = (((u32)a_5 + (u32)a_4) + ((u32)r_cy & 65535u));
    r_7l = (u64)a_6;
    r_bi = (u64)a_7;
    r_bi_1 = (u64)a_8;
    if (!(a_6 < 0x20000000u)) goto l_join_vo;
    if (!(((r_bi_1 + r_bi) * r_7l) < (a_js - r_24))) goto l_join_vo;
    r_2b = away(r_8z, (u64)((u64)r_w0 << 3ull));
    if (!(ld64(r_2b) == 0ull)) goto l_join_vo;
    r_cb = (((u32)a_8 + (u32)a_7) * a_6);
    r_ll = (r_cb + 1u);
    if (r_ll > ((u32)a_js - r_iy)) { r_4n = r_iy; r_8k = r_w0; goto l_capnp_tt; }
    r_z6 = (u64)((u64)r_ll << 3ull);
    r_2b_1 = away(r_8z, (u64)(r_24 << 3ull));
    if (r_ll < 8u) goto l_then_1k;
    memset_or_none(r_2b_1, 0u, r_z6);
    goto l_capnp_x0;
l_then_1k:;
    if (!(r_ll > 3u)) goto l_else_b7;
    memset(r_2b_1, 0, 32);
    memset(away(away(r_2b_1, r_z6), 0xffffffffffffffe0ull), 0, 32);
    goto l_capnp_x0;
l_else_b7:;
    if (!(r_ll > 1u)) goto l_else_em;
    memset(r_2b_1, 0, 16);
    memset(away(away(r_2b_1, r_z6), 0xfffffffffffffff0ull), 0, 16);
    goto l_capnp_x0;
l_else_em:;
    if (r_ll == 0u) goto l_capnp_x0;
    memset(away(away(r_2b_1, r_z6), 0xfffffffffffffff8ull), 0, 8);
l_capnp_x0:;
    st64(r_2b, (((u64)((u64)r_cb << 35ull) | (u64)(u32)((r_iy + (r_w0 ^ 0xffffffffu)) << 2u)) | 0x700000001ull));
    st64(r_2b_1, (((u64)(r_bi_1 << 48ull) | (u64)(r_bi << 32ull)) | (u64)(r_7l << 2ull)));
    r_4n = (r_iy + r_ll);
    r_8k = r_iy;
l_capnp_tt:;
    st32(a_3, r_4n);
    st32(a_9, (r_8k + 1u));
    common_43 = 0u;
    goto l_capnp_gi;
l_join_vo:;
    u32 r_kz = capnp_layout_c_building_objects_init_any_struct_list(r_8z, a_2, a_3, slot_1, a_5, a_6, a_7, a_8, a_9);
    common_43 = r_kz;
l_capnp_gi:;
    return common_43;
}

uint32_t capnp_layout_capability(const struct capnp_segments *segments, uint64_t segment, uint32_t word, uint32_t *index)
{
    u8 *a_1 = (u8 *)segments;
    u64 a_2 = (u64)segment;
    u32 a_3 = (u32)word;
    u8 *a_4 = (u8 *)index;
    u8 *r_2b;
    u64 r_qw;
    u64 r_7l;
    u64 r_qw_1;
    u32 storemerge_fa;
    u32 r_n7;
    if (!(a_2 < ld64((a_1 + 8)))) { storemerge_fa = 0u; r_n7 = 54u; goto l_capnp_4d; }
    r_2b = away(ldp(a_1), (u64)(a_2 << 4ull));
    r_qw = ld64((r_2b + 8));
    r_7l = (u64)a_3;
    if (!((u64)(r_qw >> 3ull) > r_7l)) { storemerge_fa = 0u; r_n7 = 54u; goto l_capnp_4d; }
    r_qw_1 = ld64(away(((r_qw < 8ull) ? ((u8 *)g_static_6) : ldp(r_2b)), (u64)(r_7l << 3ull)));
    if (r_qw_1 == 0ull) { storemerge_fa = 0u; r_n7 = 54u; goto l_capnp_4d; }
    if (!((r_qw_1 & 0xffffffffull) == 3ull)) { storemerge_fa = 0u; r_n7 = 49u; goto l_capnp_4d; }
    storemerge_fa = (u32)(u64)(r_qw_1 >> 32ull);
    r_n7 = 0u;
l_capnp_4d:;
    st32(a_4, storemerge_fa);
    return r_n7;
}

uint32_t capnp_layout_check(const struct capnp_segments *segments, const uint32_t *table, size_t words, uint32_t row, uint64_t *left,
                            int32_t nesting, struct capnp_misfit *misfit)
{
    u8 *a_1 = (u8 *)segments;
    u8 *a_2 = (u8 *)table;
    u64 a_3 = (u64)words;
    u32 a_4 = (u32)row;
    u8 *a_5 = (u8 *)left;
    u32 a_6 = (u32)nesting;
    u8 *a_7 = (u8 *)misfit;
    A(4) u8 slot_1[16];
    A(8) u8 slot_2[64];
    A(8) u8 slot_3[64];
    u8 *r_8z;
    u64 r_yz;
    u8 *t_6c;
    u8 *r_mb;
    u64 r_qw;
    u8 trunc_mp;
    u8 r_r5;
    u64 r_38;
    u64 r_r9;
    u32 r_hp;
    u32 r_ri;
    u32 r_vv;
    u32 r_uq;
    u64 r_y5;
    u64 r_tj;
    u8 r_0a;
    u32 r_vh;
    u64 r_4v;
    u32 r_ct;
    u32 r_ld;
    u32 r_k6;
    u32 r_9m;
    u64 r_2z;
    u32 r_yw;
    u32 r_vi;
    u32 r_ev;
    u64 r_cj;
    u32 r_ot;
    u32 r_zv;
    u32 r_sp;
    u32 r_j1;
    r_8z = (((uptr)a_2 == (uptr)((u8 *)0)) ? away(a_2, 4096ull) : away(a_2, 0ull));
    r_yz = ld64(a_5);
    t_6c = (slot_3 + 56);
    st64(t_6c, 0ull);
    if (ld64((a_1 + 8)) == 0ull) { r_y5 = r_yz; r_tj = r_yz; r_0a = 0u; r_vh = 44u; r_4v = 0ull; r_ct = 0u; r_ld = 0u; r_k6 = 0u; goto l_capnp_zw; }
    r_mb = ldp(a_1);
    r_qw = ld64((r_mb + 8));
    if (r_qw < 8ull) { r_y5 = r_yz; r_tj = r_yz; r_0a = 0u; r_vh = 55u; r_4v = 0ull; r_ct = 0u; r_ld = 0u; r_k6 = 0u; goto l_capnp_zw; }
    if (!(r_yz == 0ull)) goto l_arm_fk;
    r_9m = 62u;
    r_2z = 0ull;
    r_yw = 0u;
    r_vi = 0u;
    r_ev = 0u;
    goto l_arm_h9;
l_arm_fk:;
    u8 *r_rv = ldp(r_mb);
    st64(slot_3, 0ull);
    st64((slot_3 + 8), (u64)(uptr)a_1);
    memset((slot_3 + 16), 0u, 16);
    stp((slot_3 + 32), r_rv);
    st64((slot_3 + 40), (r_qw & 0xfffffffffffffff8ull));
    st32((slot_3 + 48), 0u);
    st32((slot_3 + 52), 0u);
    st32(t_6c, a_6);
    st32(slot_1, 5u);
    st32((slot_1 + 4), a_4);
    st32((slot_1 + 8), 0u);
    st32((slot_1 + 12), 0u);
    st32(slot_2, 30u);
    memset((slot_2 + 4), 0u, 36);
    u8 *r_a8 = (slot_2 + 40);
    st64(r_a8, 1ull);
    u8 *r_c4 = (slot_2 + 48);
    st64(r_c4, (r_yz + 0xffffffffffffffffull));
    st64((slot_2 + 56), 0ull);
    u8 r_pp = typed_conforming_conforms_check_object_07dcb38b0fe92235(r_8z, a_3, slot_1, slot_3, 0u, slot_2);
    trunc_mp = (u8)(r_pp & 1);
    r_r5 = ld8(r_a8);
    r_38 = ld64(r_c4);
    if (!trunc_mp) { r_r9 = 0ull; r_hp = 0u; r_ri = 0u; r_vv = 0u; r_uq = 32u; goto l_typed_4q; }
    r_r9 = ld64((slot_2 + 16));
    r_hp = ld32((slot_2 + 24));
    r_ri = ld32((slot_2 + 28));
    r_vv = ld32((slot_2 + 32));
    r_uq = ((ld32(slot_2) & 255u) + 32u);
l_typed_4q:;
    r_y5 = ld64(a_5);
    r_tj = ((r_r5 == 1u) ? r_38 : 0ull);
    r_0a = (u8)((u8)trunc_mp ^ (u8)1u);
    r_vh = r_uq;
    r_4v = r_r9;
    r_ct = r_hp;
    r_ld = r_ri;
    r_k6 = r_vv;
l_capnp_zw:;
    if (r_y5 == 0xffffffffffffffffull) goto l_capnp_fy;
    st64(a_5, r_tj);
    if (r_0a) { r_cj = 0ull; r_ot = 0u; r_zv = 0u; r_sp = 0u; r_j1 = 0u; goto l_capnp_nx; }
    r_9m = r_vh;
    r_2z = r_4v;
    r_yw = r_ct;
    r_vi = r_ld;
    r_ev = r_k6;
    goto l_arm_h9;
l_capnp_fy:;
    if (r_0a) { r_cj = 0ull; r_ot = 0u; r_zv = 0u; r_sp = 0u; r_j1 = 0u; goto l_capnp_nx; }
    r_9m = r_vh;
    r_2z = r_4v;
    r_yw = r_ct;
    r_vi = r_ld;
    r_ev = r_k6;
l_arm_h9:;
    r_cj = r_2z;
    r_ot = r_yw;
    r_zv = r_vi;
    r_sp = r_ev;
    r_j1 = r_9m;
l_capnp_nx:;
    st64(a_7, r_cj);
    st32((a_7 + 8), r_ot);
    st32((a_7 + 12), r_zv);
    st32((a_7 + 16), r_sp);
    st32((a_7 + 20), 0u);
    return r_j1;
}

uint32_t capnp_layout_copy(uint8_t *bytes, size_t room, uint32_t *used, uint64_t place, uint16_t index,
                           const struct capnp_segments *segments, uint64_t *left, uint64_t segment, uint32_t word, int32_t nesting)
{
    u8 *a_1 = (u8 *)bytes;
    u64 a_2 = (u64)room;
    u8 *a_3 = (u8 *)used;
    u64 a_4 = (u64)place;
    u16 a_5 = (u16)index;
    u8 *a_6 = (u8 *)segments;
    u8 *a_7 = (u8 *)left;
    u64 a_8 = (u64)segment;
    u32 a_9 = (u32)word;
    u32 a_10 = (u32)nesting;
    A(8) u8 slot_1[24];
    A(8) u8 slot_2[16];
    A(8) u8 slot_3[64];
    A(8) u8 slot_4[24];
    A(8) u8 slot_5[32];
    u8 *r_8z;
    u32 r_73;
    u32 r_4r;
    u32 r_iy;
    u8 *r_x5;
    u8 *r_n3;
    u64 r_4v;
    u8 t_r5;
    u8 r_r5;
    u32 r_cf;
    u32 common_ps;
    r_8z = (((uptr)a_1 == (uptr)((u8 *)0)) ? away(a_1, 4096ull) : away(a_1, 0ull));
    r_73 = (u32)a_4;
    u64 r_cy = (u64)(a_4 >> 32ull);
    r_4r = (u32)r_cy;
    r_iy = ld32(a_3);
    u64 r_56 = (u64)(a_4 >> 48ull);
    u64 r_24 = (u64)r_iy;
    if (!(((umin64((u64)(a_2 >> 3ull), 0x1fffffffull) >= r_24) ? (((r_56 + (a_4 & 0xffffffffull)) + (r_cy & 65535ull)) <= r_24) : 0u) ? (a_5 < (u16)r_56) : 0u)) { common_ps = 61u; goto l_capnp_r5; }
    u64 r_yz = ld64(a_7);
    st64(slot_4, 1ull);
    r_x5 = (slot_4 + 8);
    st64(r_x5, r_yz);
    st64((slot_4 + 16), 0ull);
    if (!(a_8 < ld64((a_6 + 8)))) { r_n3 = ((u8 *)g_static_6); r_4v = 0ull; goto l_capnp_fp; }
    u8 *r_2b = away(ldp(a_6), (u64)(a_8 << 4ull));
    u64 r_qw = ld64((r_2b + 8));
    r_n3 = ((r_qw < 8ull) ? ((u8 *)g_static_6) : ldp(r_2b));
    r_4v = (r_qw & 0xfffffffffffffff8ull);
l_capnp_fp:;
    stp(slot_5, r_8z);
    st64((slot_5 + 8), a_2);
    u8 *r_zd = (slot_5 + 16);
    st32(r_zd, r_iy);
    st32((slot_5 + 20), 0u);
    st64((slot_5 + 24), 0ull);
    memset(slot_1, 0u, 24);
    u8 *t_6c = (slot_3 + 56);
    st64(t_6c, 0ull);
    stp(slot_2, slot_5);
    st32((slot_2 + 8), 0u);
    st32((slot_2 + 12), (((u32)a_5 + r_73) + (r_4r & 65535u)));
    st64(slot_3, 0ull);
    stp((slot_3 + 8), a_6);
    st64((slot_3 + 16), 0ull);
    st64((slot_3 + 24), a_8);
    stp((slot_3 + 32), r_n3);
    st64((slot_3 + 40), r_4v);
    st32((slot_3 + 48), a_9);
    st32((slot_3 + 52), 0u);
    st32(t_6c, a_10);
    capnp_builders_builders_PointerBuilder_copy_from_5ec03_b2338d7d(slot_1, slot_2, slot_3, slot_4, 0u);
    t_r5 = ld8(slot_1);
    r_r5 = ld8((slot_1 + 8));
    r_cf = (u32)r_r5;
    st32(a_3, ld32(r_zd));
    if (ld64(a_7) == 0xffffffffffffffffull) goto l_capnp_5n;
    st64(a_7, ((ld8(slot_4) == 1u) ? ld64(r_x5) : 0ull));
l_capnp_5n:;
    if (t_r5 == 0u) { common_ps = 0u; goto l_capnp_r5; }
    common_ps = ((r_r5 == 0u) ? 1u : (r_cf + 32u));
l_capnp_r5:;
    return common_ps;
}

uint32_t capnp_layout_copy_canonical(uint8_t *bytes, size_t room, uint32_t *used, uint64_t place, uint16_t index,
                                     const struct capnp_segments *segments, uint64_t *left, uint64_t segment, uint32_t word,
                                     int32_t nesting)
{
    u8 *a_1 = (u8 *)bytes;
    u64 a_2 = (u64)room;
    u8 *a_3 = (u8 *)used;
    u64 a_4 = (u64)place;
    u16 a_5 = (u16)index;
    u8 *a_6 = (u8 *)segments;
    u8 *a_7 = (u8 *)left;
    u64 a_8 = (u64)segment;
    u32 a_9 = (u32)word;
    u32 a_10 = (u32)nesting;
    A(8) u8 slot_1[24];
    A(8) u8 slot_2[16];
    A(8) u8 slot_3[64];
    A(8) u8 slot_4[24];
    A(8) u8 slot_5[32];
    u8 *r_8z;
    u32 r_73;
    u32 r_4r;
    u32 r_iy;
    u8 *r_x5;
    u8 *r_n3;
    u64 r_4v;
    u8 t_r5;
    u8 r_r5;
    u32 r_cf;
    u32 common_ps;
    r_8z = (((uptr)a_1 == (uptr)((u8 *)0)) ? away(a_1, 4096ull) : away(a_1, 0ull));
    r_73 = (u32)a_4;
    u64 r_cy = (u64)(a_4 >> 32ull);
    r_4r = (u32)r_cy;
    r_iy = ld32(a_3);
    u64 r_56 = (u64)(a_4 >> 48ull);
    u64 r_24 = (u64)r_iy;
    if (!(((umin64((u64)(a_2 >> 3ull), 0x1fffffffull) >= r_24) ? (((r_56 + (a_4 & 0xffffffffull)) + (r_cy & 65535ull)) <= r_24) : 0u) ? (a_5 < (u16)r_56) : 0u)) { common_ps = 61u; goto l_capnp_r5; }
    u64 r_yz = ld64(a_7);
    st64(slot_4, 1ull);
    r_x5 = (slot_4 + 8);
    st64(r_x5, r_yz);
    st64((slot_4 + 16), 0ull);
    if (!(a_8 < ld64((a_6 + 8)))) { r_n3 = ((u8 *)g_static_6); r_4v = 0ull; goto l_capnp_fp; }
    u8 *r_2b = away(ldp(a_6), (u64)(a_8 << 4ull));
    u64 r_qw = ld64((r_2b + 8));
    r_n3 = ((r_qw < 8ull) ? ((u8 *)g_static_6) : ldp(r_2b));
    r_4v = (r_qw & 0xfffffffffffffff8ull);
l_capnp_fp:;
    stp(slot_5, r_8z);
    st64((slot_5 + 8), a_2);
    u8 *r_zd = (slot_5 + 16);
    st32(r_zd, r_iy);
    st32((slot_5 + 20), 0u);
    st64((slot_5 + 24), 0ull);
    memset(slot_1, 0u, 24);
    u8 *t_6c = (slot_3 + 56);
    st64(t_6c, 0ull);
    stp(slot_2, slot_5);
    st32((slot_2 + 8), 0u);
    st32((slot_2 + 12), (((u32)a_5 + r_73) + (r_4r & 65535u)));
    st64(slot_3, 0ull);
    stp((slot_3 + 8), a_6);
    st64((slot_3 + 16), 0ull);
    st64((slot_3 + 24), a_8);
    stp((slot_3 + 32), r_n3);
    st64((slot_3 + 40), r_4v);
    st32((slot_3 + 48), a_9);
    st32((slot_3 + 52), 0u);
    st32(t_6c, a_10);
    capnp_builders_builders_PointerBuilder_copy_from_5ec03_b2338d7d(slot_1, slot_2, slot_3, slot_4, 1u);
    t_r5 = ld8(slot_1);
    r_r5 = ld8((slot_1 + 8));
    r_cf = (u32)r_r5;
    st32(a_3, ld32(r_zd));
    if (ld64(a_7) == 0xffffffffffffffffull) goto l_capnp_5n;
    st64(a_7, ((ld8(slot_4) == 1u) ? ld64(r_x5) : 0ull));
l_capnp_5n:;
    if (t_r5 == 0u) { common_ps = 0u; goto l_capnp_r5; }
    common_ps = ((r_r5 == 0u) ? 1u : (r_cf + 32u));
l_capnp_r5:;
    return common_ps;
}

uint32_t capnp_layout_data(const struct capnp_segments *segments, uint64_t *left, uint64_t segment, uint32_t word,
                           int32_t nesting, struct capnp_found_bytes *to)
{
    u8 *a_1 = (u8 *)segments;
    u8 *a_2 = (u8 *)left;
    u64 a_3 = (u64)segment;
    u32 a_4 = (u32)word;
    (void)nesting;
    u8 *a_5 = (u8 *)to;
    A(8) u8 slot_1[56];
    A(8) u8 slot_2[24];
    u8 *t_zd;
    u64 r_yz;
    u8 *r_x5;
    u8 *r_jg;
    u64 r_hg;
    u64 r_7l;
    u64 r_oz;
    u64 r_qw_1;
    u64 r_lc;
    u64 r_nb;
    u64 r_yz_1;
    u32 r_vg;
    u64 r_dq;
    u64 r_an;
    u8 *r_y1;
    u64 r_ij;
    u64 r_c6;
    u64 r_24;
    u8 t_0q;
    u64 r_52;
    u64 r_vs;
    u8 r_bb;
    u8 *r_o5;
    u64 r_04;
    u64 r_2b_1;
    u32 r_wt;
    u32 r_8i;
    t_zd = (slot_2 + 16);
    r_yz = ld64(a_2);
    st64(slot_2, 1ull);
    r_x5 = (slot_2 + 8);
    st64(r_x5, r_yz);
    if (!(a_3 < ld64((a_1 + 8)))) { r_jg = ((u8 *)g_static_6); r_hg = 0ull; goto l_arm_cr; }
    u8 *r_2b = away(ldp(a_1), (u64)(a_3 << 4ull));
    u64 r_qw = ld64((r_2b + 8));
    r_jg = ((r_qw < 8ull) ? ((u8 *)g_static_6) : ldp(r_2b));
    r_hg = (r_qw & 0xfffffffffffffff8ull);
l_arm_cr:;
    r_7l = (u64)a_4;
    r_oz = (u64)(r_hg >> 3ull);
    if (!(r_oz > r_7l)) { r_bb = 1u; r_o5 = ((u8 *)g_static_6); r_04 = 0ull; goto l_arm_c9; }
    r_qw_1 = ld64(away(r_jg, (u64)(r_7l << 3ull)));
    if (r_qw_1 == 0ull) { r_bb = 1u; r_o5 = ((u8 *)g_static_6); r_04 = 0ull; goto l_arm_c9; }
    st64(t_zd, 1ull);
    if ((r_qw_1 & 3ull) == 2ull) goto l_capnp_wj;
    u64 r_m6 = ((u64)(r_qw_1 >> 2ull) & 0x3fffffffull);
    r_lc = ((r_7l + 1ull) + r_m6);
    r_nb = (r_oz & 0xffffffffull);
    if (!(r_m6 < 0x20000000ull)) goto l_else_70;
    if (r_lc > r_nb) goto l_capnp_8g;
    r_yz_1 = r_lc;
    goto l_capnp_i5;
l_else_70:;
    u64 r_3o = (r_lc + 0xffffffffc0000000ull);
    if ((r_lc < 0x40000000ull) ? 1u : (r_3o > r_nb)) goto l_capnp_8g;
    r_yz_1 = r_3o;
l_capnp_i5:;
    r_vg = (u32)r_yz_1;
    r_dq = r_qw_1;
    r_an = r_hg;
    r_y1 = r_jg;
    goto l_arm_fc;
l_capnp_wj:;
    capnp_pointers_source_follow_far_07dcb38b0fe92235(slot_1, a_1, r_qw_1, slot_2);
    u64 r_38 = ld64((slot_1 + 8));
    if (ld8(slot_1) == 0u) { r_vg = ld32((slot_1 + 40)); r_dq = r_38; r_an = ld64((slot_1 + 32)); r_y1 = ((u8 *)(uptr)ld64((slot_1 + 24))); goto l_arm_fc; }
    r_vs = r_38;
    goto l_capnp_l3;
l_arm_fc:;
    if ((r_dq & 0x700000003ull) == 0x200000001ull) goto l_join_hu;
    r_2b_1 = (((r_dq & 3ull) == 1ull) ? 14ull : 18ull);
    goto l_arm_22;
l_join_hu:;
    r_ij = (u64)(r_dq >> 35ull);
    r_c6 = (u64)(((u64)(r_ij << 3ull) + 63ull) >> 6ull);
    r_24 = (u64)r_vg;
    if (((u64)(r_an >> 3ull) & 0xffffffffull) < (r_c6 + r_24)) { r_2b_1 = 23ull; goto l_arm_22; }
    t_0q = (ld8(slot_2) == 1u);
    if (!t_0q) goto l_arm_gd;
    r_52 = ld64(r_x5);
    if (r_52 < r_c6) { r_2b_1 = 30ull; goto l_arm_22; }
    st64(r_x5, (r_52 - r_c6));
    goto l_arm_gd;
l_capnp_8g:;
    r_vs = 23ull;
l_capnp_l3:;
    r_2b_1 = (r_vs & 0xffffffff000000ffull);
    goto l_arm_22;
l_arm_gd:;
    r_bb = t_0q;
    r_o5 = away(r_y1, (u64)(r_24 << 3ull));
    r_04 = r_ij;
l_arm_c9:;
    if (r_yz == 0xffffffffffffffffull) goto l_capnp_mh;
    st64(a_2, (r_bb ? ld64(r_x5) : 0ull));
l_capnp_mh:;
    stp(a_5, r_o5);
    st64((a_5 + 8), r_04);
    r_8i = 0u;
    goto l_capnp_rt;
l_arm_22:;
    r_wt = (u32)r_2b_1;
    if (r_yz == 0xffffffffffffffffull) goto l_capnp_ih;
    st64(a_2, ((ld8(slot_2) == 1u) ? ld64(r_x5) : 0ull));
l_capnp_ih:;
    stp(a_5, ((u8 *)g_static_6));
    st64((a_5 + 8), 0ull);
    r_8i = (r_wt + 32u);
l_capnp_rt:;
    return r_8i;
}

uint32_t capnp_layout_list(const struct capnp_segments *segments, uint64_t *left, uint64_t segment, uint32_t word,
                           int32_t nesting, uint32_t expected, struct capnp_found_list *to)
{
    u8 *a_1 = (u8 *)segments;
    u8 *a_2 = (u8 *)left;
    u64 a_3 = (u64)segment;
    u32 a_4 = (u32)word;
    u32 a_5 = (u32)nesting;
    u32 a_6 = (u32)expected;
    u8 *a_7 = (u8 *)to;
    A(8) u8 slot_1[56];
    A(8) u8 slot_2[24];
    u8 *t_zd;
    u64 r_yz;
    u8 *r_x5;
    u8 *r_r0;
    u64 r_ij;
    u8 r_x5_1;
    u64 r_7l;
    u64 r_oz;
    u64 r_qw_1;
    u64 t_al;
    u64 r_lc;
    u64 r_nb;
    u64 r_yz_1;
    u32 r_wm;
    u64 r_ig;
    u64 r_1s;
    u64 r_bu;
    u64 r_qb;
    u8 switch_wl;
    u64 r_ij_1;
    u64 r_c4;
    u64 r_24;
    u64 r_gw;
    u8 r_uz;
    u8 t_0q;
    u64 r_52;
    u64 r_eh;
    u32 t_c8;
    u64 r_y6;
    u32 r_12;
    u32 r_az;
    u32 r_68;
    u64 r_c0;
    u64 r_52_1;
    u32 r_12_1;
    u8 r_uz_1;
    u64 r_52_2;
    u64 r_52_3;
    u64 r_zh;
    u64 r_c6;
    u8 r_uz_3;
    u64 r_52_4;
    u8 r_we;
    u32 r_y0;
    u32 r_ll;
    u32 r_29;
    u8 r_5t;
    u8 r_dp;
    u8 r_9w;
    u32 r_k0;
    u32 r_kt;
    u8 r_ux;
    u32 r_34;
    u8 r_sk;
    u8 r_8c;
    u8 *t_f6;
    u64 r_99;
    u32 r_y0_1;
    u64 r_z6;
    u64 r_es;
    u64 r_yj;
    u64 r_es_1;
    u8 r_bb;
    u64 r_o5;
    u64 r_04;
    u32 r_b2;
    u64 r_3n;
    u32 r_v8;
    u8 *r_fw;
    u32 r_zx;
    u8 r_x7;
    u32 r_cf;
    u32 r_8i;
    t_zd = (slot_2 + 16);
    r_yz = ld64(a_2);
    st64(slot_2, 1ull);
    r_x5 = (slot_2 + 8);
    st64(r_x5, r_yz);
    if (!(a_3 < ld64((a_1 + 8)))) { r_r0 = ((u8 *)g_static_6); r_ij = 0ull; goto l_capnp_a5; }
    u8 *r_2b = away(ldp(a_1), (u64)(a_3 << 4ull));
    u64 r_qw = ld64((r_2b + 8));
    r_r0 = ((r_qw < 8ull) ? ((u8 *)g_static_6) : ldp(r_2b));
    r_ij = (r_qw & 0xfffffffffffffff8ull);
l_capnp_a5:;
    r_x5_1 = (u8)umin32(a_6, 7u);
    r_7l = (u64)a_4;
    r_oz = (u64)(r_ij >> 3ull);
    if (!(r_oz > r_7l)) { r_bb = 1u; r_o5 = 0ull; r_04 = 0ull; r_b2 = 0u; r_3n = 0ull; r_v8 = 0u; r_fw = ((u8 *)g_static_6); r_zx = 0x7fffffffu; goto l_arm_c9; }
    r_qw_1 = ld64(away(r_r0, (u64)(r_7l << 3ull)));
    if (r_qw_1 == 0ull) { r_bb = 1u; r_o5 = 0ull; r_04 = 0ull; r_b2 = 0u; r_3n = 0ull; r_v8 = 0u; r_fw = ((u8 *)g_static_6); r_zx = 0x7fffffffu; goto l_arm_c9; }
    if ((i32)a_5 < (i32)1u) { r_x7 = 28u; goto l_arm_vg; }
    t_al = (u64)(uptr)r_r0;
    st64(t_zd, 1ull);
    if ((r_qw_1 & 3ull) == 2ull) goto l_capnp_vo;
    u64 r_m6 = ((u64)(r_qw_1 >> 2ull) & 0x3fffffffull);
    r_lc = ((r_7l + 1ull) + r_m6);
    r_nb = (r_oz & 0xffffffffull);
    if (!(r_m6 < 0x20000000ull)) goto l_else_70;
    if (r_lc > r_nb) goto l_arm_5s;
    r_yz_1 = r_lc;
    goto l_capnp_i5;
l_else_70:;
    u64 r_3o = (r_lc + 0xffffffffc0000000ull);
    if ((r_lc < 0x40000000ull) ? 1u : (r_3o > r_nb)) goto l_arm_5s;
    r_yz_1 = r_3o;
l_capnp_i5:;
    r_wm = (u32)r_yz_1;
    r_ig = a_3;
    r_1s = r_qw_1;
    r_bu = r_ij;
    r_qb = t_al;
    goto l_arm_an;
l_capnp_vo:;
    capnp_pointers_source_follow_far_07dcb38b0fe92235(slot_1, a_1, r_qw_1, slot_2);
    u64 r_38 = ld64((slot_1 + 8));
    if (ld8(slot_1) == 0u) { r_wm = ld32((slot_1 + 40)); r_ig = ld64((slot_1 + 16)); r_1s = r_38; r_bu = ld64((slot_1 + 32)); r_qb = ld64((slot_1 + 24)); goto l_arm_an; }
    r_99 = r_38;
    goto l_arm_zy;
l_arm_an:;
    switch_wl = (u8)((u8)(u64)(r_1s >> 32ull) & 7u);
    if (!((r_1s & 3ull) == 1ull)) { r_x7 = 19u; goto l_arm_vg; }
    r_ij_1 = (u64)(r_1s >> 35ull);
    switch (switch_wl) {
    case 7u: goto l_join_vn;
    case 6u: goto l_join_10;
    case 0u: goto l_join_fa;
    case 5u: goto l_arm_qu;
    case 4u: goto l_arm_qu_1;
    case 3u: goto l_arm_qu_2;
    case 1u: { r_zh = 1ull; goto l_join_d6; }
    case 2u: goto l_arm_qu_3;
    default: goto l_default_e1;
    }
l_join_vn:;
    r_c4 = (r_ij_1 + 1ull);
    r_24 = (u64)r_wm;
    r_gw = (u64)(r_bu >> 3ull);
    if ((r_gw & 0xffffffffull) < (r_c4 + r_24)) { r_x7 = 23u; goto l_arm_vg; }
    r_uz = ld8(slot_2);
    t_0q = (r_uz == 1u);
    if (!t_0q) goto l_arm_ga;
    r_52 = ld64(r_x5);
    if (!(r_52 > r_ij_1)) { r_x7 = 30u; goto l_arm_vg; }
    st64(slot_2, 1ull);
    st64(r_x5, (r_52 - r_c4));
l_arm_ga:;
    if (!(r_gw > r_24)) { r_eh = 0ull; goto l_join_qm; }
    u64 r_qw_2 = ld64(away(((u8 *)(uptr)r_qb), (u64)(r_24 << 3ull)));
    if ((r_qw_2 & 3ull) == 0ull) { r_eh = r_qw_2; goto l_join_qm; }
    r_x7 = 11u;
    goto l_arm_vg;
l_join_qm:;
    t_c8 = (u32)((u32)r_eh >> 2u);
    r_y6 = (u64)(r_eh >> 48ull);
    r_12 = (u32)r_y6;
    r_az = ((u32)(u64)(r_eh >> 32ull) & 65535u);
    r_68 = (r_az + r_12);
    r_c0 = (u64)t_c8;
    if (r_ij_1 < ((u64)r_68 * r_c0)) { r_x7 = 10u; goto l_arm_vg; }
    if (!(u8)((u8)t_0q & (u8)(r_68 == 0u))) goto l_arm_8e;
    r_52_1 = ld64(r_x5);
    if (r_52_1 < r_c0) { r_x7 = 30u; goto l_arm_vg; }
    st64(slot_2, 1ull);
    st64(r_x5, (r_52_1 - r_c0));
    goto l_arm_8e;
l_join_10:;
    r_12_1 = (u32)r_ij_1;
    if (((u64)(r_bu >> 3ull) & 0xffffffffull) < (r_ij_1 + (u64)r_wm)) { r_x7 = 23u; goto l_arm_vg; }
    r_uz_1 = ld8(slot_2);
    if (!(r_uz_1 == 1u)) goto l_arm_dk;
    r_52_2 = ld64(r_x5);
    if (r_52_2 < r_ij_1) { r_x7 = 30u; goto l_arm_vg; }
    st64(slot_2, 1ull);
    st64(r_x5, (r_52_2 - r_ij_1));
    goto l_arm_dk;
l_join_fa:;
    if (((u64)(r_bu >> 3ull) & 0xffffffffull) < (u64)r_wm) { r_x7 = 23u; goto l_arm_vg; }
    u8 r_uz_2 = ld8(slot_2);
    if (!(r_uz_2 == 1u)) { r_we = r_uz_2; r_y0 = 0u; goto l_arm_da; }
    st64(slot_2, 1ull);
    r_52_3 = ld64(r_x5);
    if (r_52_3 < r_ij_1) { r_x7 = 30u; goto l_arm_vg; }
    st64(r_x5, (r_52_3 - r_ij_1));
    r_we = 1u;
    r_y0 = 0u;
    goto l_arm_da;
l_arm_qu_3:;
    r_zh = 8ull;
    goto l_join_d6;
l_arm_qu_2:;
    r_zh = 16ull;
    goto l_join_d6;
l_arm_qu_1:;
    r_zh = 32ull;
    goto l_join_d6;
l_arm_qu:;
    r_zh = 64ull;
l_join_d6:;
    r_c6 = (u64)(((r_zh * r_ij_1) + 63ull) >> 6ull);
    if (((u64)(r_bu >> 3ull) & 0xffffffffull) < (r_c6 + (u64)r_wm)) { r_x7 = 23u; goto l_arm_vg; }
    r_uz_3 = ld8(slot_2);
    if (!(r_uz_3 == 1u)) goto l_arm_eq;
    r_52_4 = ld64(r_x5);
    if (r_52_4 < r_c6) { r_x7 = 30u; goto l_arm_vg; }
    st64(slot_2, 1ull);
    st64(r_x5, (r_52_4 - r_c6));
l_arm_eq:;
    r_we = r_uz_3;
    r_y0 = (u32)switch_wl;
    goto l_arm_da;
l_default_e1:;
    UNREACHABLE();
l_arm_da:;
    memset(slot_1, 0u, 24);
    capnp_pointers_source_expected_narrow_elements_error(slot_1, r_x5_1, (u8)r_y0);
    r_9w = r_we;
    r_k0 = (u32)r_ij_1;
    r_kt = r_y0;
    r_ux = 3u;
    r_34 = r_wm;
    r_sk = ld8((slot_1 + 8));
    r_8c = ld8(slot_1);
    goto l_capnp_yx;
l_arm_dk:;
    u8 switch_5v = ((u8)(r_x5_1 + 255u) < 5u);
    r_9w = r_uz_1;
    r_k0 = 0u;
    r_kt = r_12_1;
    r_ux = 4u;
    r_34 = r_wm;
    r_sk = (switch_5v ? 16u : 0u);
    r_8c = (u8)switch_5v;
    goto l_capnp_yx;
l_arm_8e:;
    r_ll = (r_wm + 1u);
    r_29 = ((u32)(r_12 << 16u) | r_az);
    switch (r_x5_1) {
    case 0u: { r_5t = 0u; r_dp = 0u; goto l_capnp_wn; }
    case 7u: { r_5t = 0u; r_dp = 0u; goto l_capnp_wn; }
    case 1u: goto l_arm_h9;
    case 6u: goto l_arm_xj;
    case 2u: goto l_arm_m9;
    case 3u: goto l_arm_m9;
    case 4u: goto l_arm_m9;
    case 5u: goto l_arm_m9;
    default: goto l_default_e1;
    }
l_arm_h9:;
    r_5t = 1u;
    r_dp = 9u;
    goto l_capnp_wn;
l_arm_xj:;
    u8 r_ts = (r_y6 == 0ull);
    r_5t = r_ts;
    r_dp = (r_ts ? 6u : 0u);
    goto l_capnp_wn;
l_arm_m9:;
    u8 r_2p = (r_az == 0u);
    r_5t = r_2p;
    r_dp = (r_2p ? 7u : 0u);
l_capnp_wn:;
    r_9w = r_uz;
    r_k0 = t_c8;
    r_kt = r_29;
    r_ux = 5u;
    r_34 = r_ll;
    r_sk = r_dp;
    r_8c = (u8)r_5t;
l_capnp_yx:;
    t_f6 = ((u8 *)(uptr)r_qb);
    switch (r_8c) {
    case 1u: { r_x7 = r_sk; goto l_arm_vg; }
    case 0u: goto l_arm_om;
    default: goto l_arm_m6;
    }
l_arm_5s:;
    r_99 = 23ull;
l_arm_zy:;
    r_x7 = (u8)r_99;
    goto l_arm_vg;
l_arm_om:;
    switch (r_ux) {
    case 5u: goto l_arm_qj;
    case 4u: goto l_arm_15;
    case 3u: goto l_arm_x6;
    default: goto l_default_e1;
    }
l_arm_x6:;
    r_y0_1 = (a_5 + 0xffffffffu);
    r_z6 = (u64)((u64)r_34 << 3ull);
    r_es = (u64)r_k0;
    switch ((u8)r_kt) {
    case 7u: goto l_arm_h9_1;
    case 6u: { r_es_1 = r_es; goto l_capnp_vm; }
    case 0u: { r_yj = 0ull; goto l_capnp_42; }
    case 5u: goto l_arm_h9_2;
    case 4u: goto l_arm_h9_3;
    case 1u: goto l_arm_h9_4;
    case 2u: goto l_arm_h9_5;
    case 3u: goto l_arm_h9_6;
    default: goto l_noarm_e1;
    }
l_arm_h9_1:;
    r_es_1 = 0ull;
    goto l_capnp_vm;
l_arm_h9_4:;
    r_yj = 1ull;
    goto l_capnp_42;
l_arm_h9_5:;
    r_yj = 8ull;
    goto l_capnp_42;
l_arm_h9_6:;
    r_yj = 16ull;
    goto l_capnp_42;
l_arm_h9_3:;
    r_yj = 32ull;
    goto l_capnp_42;
l_arm_h9_2:;
    r_yj = 64ull;
l_capnp_42:;
    r_es_1 = (u64)(((r_yj * r_es) + 63ull) >> 6ull);
    goto l_capnp_vm;
l_noarm_e1:;
    UNREACHABLE();
l_capnp_vm:;
    r_bb = r_9w;
    r_o5 = (u64)(r_es_1 << 3ull);
    r_04 = r_ig;
    r_b2 = r_34;
    r_3n = (u64)(r_kt & 255u);
    r_v8 = r_k0;
    r_fw = away(t_f6, r_z6);
    r_zx = r_y0_1;
    goto l_arm_c9;
l_arm_15:;
    r_bb = r_9w;
    r_o5 = (u64)((u64)r_kt << 3ull);
    r_04 = r_ig;
    r_b2 = r_34;
    r_3n = 6ull;
    r_v8 = r_kt;
    r_fw = away(t_f6, (u64)((u64)r_34 << 3ull));
    r_zx = (a_5 + 0xffffffffu);
    goto l_arm_c9;
l_arm_qj:;
    u64 r_es_2 = (u64)(u32)(r_kt >> 16u);
    u64 r_c0_1 = (u64)(r_kt & 65535u);
    r_bb = r_9w;
    r_o5 = ((u64)((u64)r_k0 << 3ull) * (r_c0_1 + r_es_2));
    r_04 = r_ig;
    r_b2 = r_34;
    r_3n = (((u64)(r_es_2 << 32ull) | (u64)(r_c0_1 << 16ull)) | 7ull);
    r_v8 = r_k0;
    r_fw = away(t_f6, (u64)((u64)r_34 << 3ull));
    r_zx = (a_5 + 0xffffffffu);
l_arm_c9:;
    if (r_yz == 0xffffffffffffffffull) goto l_capnp_ov;
    st64(a_2, ((r_bb == 1u) ? ld64(r_x5) : 0ull));
l_capnp_ov:;
    u32 r_k2 = (ld32((((u8 *)switch_table_capnp_layout_list) + (i64)(4 * (r_3n & 255ull)))) + ((u32)((u32)r_3n >> 10u) & 0x3fffc0u));
    stp(a_7, r_fw);
    st64((a_7 + 8), r_o5);
    st64((a_7 + 16), r_04);
    st32((a_7 + 24), r_b2);
    st32((a_7 + 28), r_v8);
    st32((a_7 + 32), r_k2);
    st32((a_7 + 36), r_zx);
    st16((a_7 + 40), (((r_3n & 255ull) == 6ull) ? 1u : (u16)(u64)(r_3n >> 32ull)));
    memset((a_7 + 42), 0u, 6);
    r_8i = 0u;
    goto l_capnp_rt;
l_arm_m6:;
    r_x7 = r_ux;
l_arm_vg:;
    r_cf = (u32)r_x7;
    if (r_yz == 0xffffffffffffffffull) goto l_capnp_lv;
    st64(a_2, ((ld8(slot_2) == 1u) ? ld64(r_x5) : 0ull));
l_capnp_lv:;
    stp(a_7, ((u8 *)g_static_6));
    memset((a_7 + 8), 0u, 40);
    r_8i = (r_cf + 32u);
l_capnp_rt:;
    return r_8i;
}

uint32_t capnp_layout_struct(const struct capnp_segments *segments, uint64_t *left, uint64_t segment, uint32_t word,
                             int32_t nesting, struct capnp_found_struct *to)
{
    u8 *a_1 = (u8 *)segments;
    u8 *a_2 = (u8 *)left;
    u64 a_3 = (u64)segment;
    u32 a_4 = (u32)word;
    u32 a_5 = (u32)nesting;
    u8 *a_6 = (u8 *)to;
    u32 r_2p = capnp_layout_c_capnp_layout_struct(a_1, a_2, a_3, a_4, a_5, a_6);
    return r_2p;
}

uint32_t capnp_layout_root(const struct capnp_segments *segments, uint64_t *left, int32_t nesting, struct capnp_found_struct *to)
{
    u8 *a_1 = (u8 *)segments;
    u8 *a_2 = (u8 *)left;
    u32 a_3 = (u32)nesting;
    u8 *a_4 = (u8 *)to;
    u64 r_yz;
    u32 r_8o;
    u32 r_gw;
    r_yz = ld64(a_2);
    if (ld64((a_1 + 8)) == 0ull) { r_8o = 44u; goto l_arm_qq; }
    if (ld64((ldp(a_1) + 8)) < 8ull) { r_8o = 55u; goto l_arm_qq; }
    switch (r_yz) {
    case 0ull: { r_8o = 62u; goto l_arm_qq; }
    case 0xffffffffffffffffull: goto l_capnp_gc;
    default: goto l_then_o6;
    }
l_then_o6:;
    st64(a_2, (r_yz + 0xffffffffffffffffull));
l_capnp_gc:;
    u32 r_04 = capnp_layout_c_capnp_layout_struct(a_1, a_2, 0ull, 0u, a_3, a_4);
    r_gw = r_04;
    goto l_capnp_ti;
l_arm_qq:;
    stp(a_4, ((u8 *)g_static_6));
    memset((a_4 + 8), 0u, 32);
    r_gw = r_8o;
l_capnp_ti:;
    return r_gw;
}

uint32_t capnp_layout_text(const struct capnp_segments *segments, uint64_t *left, uint64_t segment, uint32_t word,
                           int32_t nesting, struct capnp_found_bytes *to)
{
    u8 *a_1 = (u8 *)segments;
    u8 *a_2 = (u8 *)left;
    u64 a_3 = (u64)segment;
    u32 a_4 = (u32)word;
    (void)nesting;
    u8 *a_5 = (u8 *)to;
    A(8) u8 slot_1[56];
    A(8) u8 slot_2[24];
    u8 *t_zd;
    u64 r_yz;
    u8 *r_x5;
    u8 *r_jg;
    u64 r_hg;
    u64 r_7l;
    u64 r_oz;
    u64 r_qw_1;
    u64 r_lc;
    u64 r_nb;
    u64 r_yz_1;
    u32 r_vg;
    u64 r_dq;
    u64 r_an;
    u8 *r_y1;
    u64 r_ij;
    u64 r_c6;
    u64 r_24;
    u8 t_0q;
    u64 r_52;
    u64 t_z6;
    u64 r_nb_1;
    u64 r_uv;
    u8 r_3w;
    u8 *r_nm;
    u64 r_o8;
    u64 t_al;
    u32 r_bb;
    u32 r_8i;
    t_zd = (slot_2 + 16);
    r_yz = ld64(a_2);
    st64(slot_2, 1ull);
    r_x5 = (slot_2 + 8);
    st64(r_x5, r_yz);
    if (!(a_3 < ld64((a_1 + 8)))) { r_jg = ((u8 *)g_static_6); r_hg = 0ull; goto l_arm_cr; }
    u8 *r_2b = away(ldp(a_1), (u64)(a_3 << 4ull));
    u64 r_qw = ld64((r_2b + 8));
    r_jg = ((r_qw < 8ull) ? ((u8 *)g_static_6) : ldp(r_2b));
    r_hg = (r_qw & 0xfffffffffffffff8ull);
l_arm_cr:;
    r_7l = (u64)a_4;
    r_oz = (u64)(r_hg >> 3ull);
    if (!(r_oz > r_7l)) { r_3w = 1u; r_nm = ((u8 *)g_static_6); r_o8 = 0ull; goto l_arm_yn; }
    r_qw_1 = ld64(away(r_jg, (u64)(r_7l << 3ull)));
    if (r_qw_1 == 0ull) { r_3w = 1u; r_nm = ((u8 *)g_static_6); r_o8 = 0ull; goto l_arm_yn; }
    st64(t_zd, 1ull);
    if ((r_qw_1 & 3ull) == 2ull) goto l_capnp_v3;
    u64 r_m6 = ((u64)(r_qw_1 >> 2ull) & 0x3fffffffull);
    r_lc = ((r_7l + 1ull) + r_m6);
    r_nb = (r_oz & 0xffffffffull);
    if (!(r_m6 < 0x20000000ull)) goto l_else_70;
    if (r_lc > r_nb) goto l_capnp_8g;
    r_yz_1 = r_lc;
    goto l_capnp_i5;
l_else_70:;
    u64 r_3o = (r_lc + 0xffffffffc0000000ull);
    if ((r_lc < 0x40000000ull) ? 1u : (r_3o > r_nb)) goto l_capnp_8g;
    r_yz_1 = r_3o;
l_capnp_i5:;
    r_vg = (u32)r_yz_1;
    r_dq = r_qw_1;
    r_an = r_hg;
    r_y1 = r_jg;
    goto l_arm_fc;
l_capnp_8g:;
    r_uv = 23ull;
    goto l_capnp_f1;
l_capnp_v3:;
    capnp_pointers_source_follow_far_07dcb38b0fe92235(slot_1, a_1, r_qw_1, slot_2);
    u64 r_38 = ld64((slot_1 + 8));
    if (ld8(slot_1) == 0u) { r_vg = ld32((slot_1 + 40)); r_dq = r_38; r_an = ld64((slot_1 + 32)); r_y1 = ((u8 *)(uptr)ld64((slot_1 + 24))); goto l_arm_fc; }
    r_uv = r_38;
    goto l_capnp_f1;
l_arm_fc:;
    if ((r_dq & 0x700000003ull) == 0x200000001ull) goto l_join_hu;
    r_bb = (((r_dq & 3ull) == 1ull) ? 15u : 20u);
    goto l_arm_c9;
l_join_hu:;
    r_ij = (u64)(r_dq >> 35ull);
    r_c6 = (u64)(((u64)(r_ij << 3ull) + 63ull) >> 6ull);
    r_24 = (u64)r_vg;
    if (((u64)(r_an >> 3ull) & 0xffffffffull) < (r_c6 + r_24)) { r_bb = 23u; goto l_arm_c9; }
    t_0q = (ld8(slot_2) == 1u);
    if (!t_0q) goto l_arm_ka;
    r_52 = ld64(r_x5);
    if (r_52 < r_c6) { r_bb = 30u; goto l_arm_c9; }
    st64(slot_2, 1ull);
    st64(r_x5, (r_52 - r_c6));
l_arm_ka:;
    t_z6 = (u64)(r_24 << 3ull);
    if (r_ij == 0ull) { r_bb = 24u; goto l_arm_c9; }
    u64 r_19 = (r_ij + 0xffffffffull);
    r_nb_1 = (r_19 & 0xffffffffull);
    if ((ld64(away(r_y1, ((r_nb_1 + t_z6) & 0xffffffff8ull))) & (u64)(255ull << (((u64)(r_19 << 3ull) & 56ull) & 63u))) == 0ull) goto l_arm_ge;
    r_bb = 24u;
    goto l_arm_c9;
l_capnp_f1:;
    r_bb = ((u32)r_uv & 255u);
    goto l_arm_c9;
l_arm_ge:;
    r_3w = t_0q;
    r_nm = away(r_y1, t_z6);
    r_o8 = r_nb_1;
l_arm_yn:;
    t_al = (u64)(uptr)r_nm;
    if (r_yz == 0xffffffffffffffffull) goto l_capnp_px;
    st64(a_2, (r_3w ? ld64(r_x5) : 0ull));
l_capnp_px:;
    st64(a_5, t_al);
    st64((a_5 + 8), r_o8);
    r_8i = 0u;
    goto l_capnp_rt;
l_arm_c9:;
    if (r_yz == 0xffffffffffffffffull) goto l_capnp_ih;
    st64(a_2, ((ld8(slot_2) == 1u) ? ld64(r_x5) : 0ull));
l_capnp_ih:;
    stp(a_5, ((u8 *)g_static_6));
    st64((a_5 + 8), 0ull);
    r_8i = (r_bb + 32u);
l_capnp_rt:;
    return r_8i;
}

uint32_t capnp_layout_type(const struct capnp_segments *segments, uint64_t *left, uint64_t segment, uint32_t word, uint32_t *kind)
{
    u8 *a_1 = (u8 *)segments;
    u8 *a_2 = (u8 *)left;
    u64 a_3 = (u64)segment;
    u32 a_4 = (u32)word;
    u8 *a_5 = (u8 *)kind;
    A(8) u8 slot_1[56];
    A(8) u8 slot_2[24];
    u8 *t_zd;
    u64 r_yz;
    u8 *r_x5;
    u8 *r_2b;
    u64 r_qw;
    u64 t_gw;
    u64 r_7l;
    u64 r_qw_1;
    u64 r_lc;
    u64 r_s3;
    u64 r_fs;
    u64 r_bd;
    u8 r_bb;
    u32 r_o5;
    u32 r_04;
    t_zd = (slot_2 + 16);
    r_yz = ld64(a_2);
    st64(slot_2, 1ull);
    r_x5 = (slot_2 + 8);
    st64(r_x5, r_yz);
    if (!(a_3 < ld64((a_1 + 8)))) { r_bb = 1u; r_o5 = 0u; r_04 = 0u; goto l_capnp_c9; }
    r_2b = away(ldp(a_1), (u64)(a_3 << 4ull));
    r_qw = ld64((r_2b + 8));
    t_gw = (u64)(r_qw >> 3ull);
    r_7l = (u64)a_4;
    if (!(t_gw > r_7l)) { r_bb = 1u; r_o5 = 0u; r_04 = 0u; goto l_capnp_c9; }
    r_qw_1 = ld64(away(((r_qw < 8ull) ? ((u8 *)g_static_6) : ldp(r_2b)), (u64)(r_7l << 3ull)));
    if (r_qw_1 == 0ull) { r_bb = 1u; r_o5 = 0u; r_04 = 0u; goto l_capnp_c9; }
    st64(t_zd, 1ull);
    if ((r_qw_1 & 3ull) == 2ull) goto l_capnp_x3;
    u64 r_m6 = ((u64)(r_qw_1 >> 2ull) & 0x3fffffffull);
    r_lc = ((r_7l + 1ull) + r_m6);
    r_s3 = (t_gw & 0xffffffffull);
    if (!(r_m6 < 0x20000000ull)) goto l_else_70;
    if (r_lc > r_s3) goto l_arm_5s;
    goto l_capnp_5s;
l_else_70:;
    if ((r_lc < 0x40000000ull) ? 1u : ((r_lc + 0xffffffffc0000000ull) > r_s3)) goto l_arm_5s;
l_capnp_5s:;
    r_fs = r_qw_1;
    goto l_arm_d4;
l_capnp_x3:;
    capnp_pointers_source_follow_far_07dcb38b0fe92235(slot_1, a_1, r_qw_1, slot_2);
    u64 r_38 = ld64((slot_1 + 8));
    if (ld8(slot_1) == 0u) { r_fs = r_38; goto l_arm_d4; }
    r_bd = r_38;
    goto l_arm_vy;
l_arm_d4:;
    switch ((u8)((u8)r_fs & 3u)) {
    case 0u: { r_bb = 1u; r_o5 = 1u; r_04 = 0u; goto l_capnp_c9; }
    case 1u: goto l_arm_h9;
    case 2u: goto l_arm_h9_1;
    case 3u: goto l_arm_t7;
    default: goto l_default_e1;
    }
l_arm_h9:;
    r_bb = 1u;
    r_o5 = 2u;
    r_04 = 0u;
    goto l_capnp_c9;
l_arm_h9_1:;
    r_bb = 0u;
    r_o5 = 0u;
    r_04 = 33u;
    goto l_capnp_c9;
l_arm_t7:;
    u8 r_e6 = ((r_fs & 0xffffffffull) == 3ull);
    r_bb = r_e6;
    r_o5 = (r_e6 ? 3u : 0u);
    r_04 = (r_e6 ? 0u : 34u);
    goto l_capnp_c9;
l_default_e1:;
    UNREACHABLE();
l_arm_5s:;
    r_bd = 23ull;
l_arm_vy:;
    r_bb = 0u;
    r_o5 = 0u;
    r_04 = ((u32)r_bd & 255u);
l_capnp_c9:;
    if (r_yz == 0xffffffffffffffffull) goto l_capnp_og;
    st64(a_2, ((ld8(slot_2) == 1u) ? ld64(r_x5) : 0ull));
l_capnp_og:;
    st32(a_5, (r_bb ? r_o5 : 0u));
    return (r_bb ? 0u : (r_04 + 32u));
}

uint32_t capnp_layout_validate(const struct capnp_segments *segments, uint64_t *left, int32_t nesting, uint64_t *segment,
                               uint32_t *word)
{
    u8 *a_1 = (u8 *)segments;
    u8 *a_2 = (u8 *)left;
    u32 a_3 = (u32)nesting;
    u8 *a_4 = (u8 *)segment;
    u8 *a_5 = (u8 *)word;
    A(8) u8 slot_1[64];
    A(8) u8 slot_2[64];
    A(8) u8 slot_3[24];
    A(8) u8 slot_4[40];
    u64 r_yz;
    u8 *t_6c;
    u8 *r_mb;
    u64 r_qw;
    u8 *r_lk;
    u8 r_r5;
    u64 r_38;
    u8 r_r4;
    u64 r_mx;
    u8 r_hv;
    u64 r_34;
    u32 r_cf;
    u32 common_ps;
    st64(a_4, 0ull);
    st32(a_5, 0u);
    r_yz = ld64(a_2);
    t_6c = (slot_2 + 56);
    st64(t_6c, 0ull);
    if (ld64((a_1 + 8)) == 0ull) { r_r4 = 12u; goto l_capnp_5s; }
    r_mb = ldp(a_1);
    r_qw = ld64((r_mb + 8));
    if (r_qw < 8ull) { r_r4 = 23u; goto l_capnp_5s; }
    if (r_yz == 0ull) { r_r4 = 30u; goto l_capnp_5s; }
    u8 *r_rv = ldp(r_mb);
    st64(slot_2, 0ull);
    st64((slot_2 + 8), (u64)(uptr)a_1);
    memset((slot_2 + 16), 0u, 16);
    stp((slot_2 + 32), r_rv);
    st64((slot_2 + 40), (r_qw & 0xfffffffffffffff8ull));
    st32((slot_2 + 48), 0u);
    st32((slot_2 + 52), 0u);
    st32(t_6c, a_3);
    st32(slot_1, smax32(a_3, 0u));
    memset((slot_1 + 4), 0u, 20);
    r_lk = (slot_1 + 24);
    st32(r_lk, 30u);
    st32((slot_1 + 28), 0u);
    st64((slot_1 + 32), 0ull);
    u8 *r_a8 = (slot_1 + 40);
    st64(r_a8, 1ull);
    u8 *r_c4 = (slot_1 + 48);
    st64(r_c4, (r_yz + 0xffffffffffffffffull));
    st64((slot_1 + 56), 0ull);
    u8 r_5s = capnp_pointers_pointers_validate_validate_object_07dcb_94c64086(slot_2, 0u, a_3, slot_1);
    r_r5 = ld8(r_a8);
    r_38 = ld64(r_c4);
    if (!(u8)(r_5s & 1)) goto l_arm_vw;
    r_mx = ld64(a_2);
    r_hv = ld8(r_lk);
    r_34 = ((r_r5 == 1u) ? r_38 : 0ull);
    goto l_arm_jp;
l_capnp_5s:;
    r_mx = r_yz;
    r_hv = r_r4;
    r_34 = r_yz;
l_arm_jp:;
    r_cf = (u32)r_hv;
    st64(slot_3, 1ull);
    st64((slot_3 + 8), r_mx);
    st64((slot_3 + 16), 0ull);
    if (r_mx == 0xffffffffffffffffull) goto l_capnp_ea;
    st64(a_2, r_34);
l_capnp_ea:;
    capnp_layout_c_validation_refused_pointer(slot_4, a_1, a_3, slot_3);
    if (ld8(slot_4) == 1u) goto l_arm_n4;
    goto l_join_wm;
l_arm_vw:;
    if (ld64(a_2) == 0xffffffffffffffffull) { common_ps = 0u; goto l_capnp_r5; }
    st64(a_2, ((r_r5 == 1u) ? r_38 : 0ull));
    common_ps = 0u;
    goto l_capnp_r5;
l_arm_n4:;
    u32 r_z4 = ld32((slot_4 + 16));
    st64(a_4, ld64((slot_4 + 8)));
    st32(a_5, r_z4);
l_join_wm:;
    common_ps = (r_cf + 32u);
l_capnp_r5:;
    return common_ps;
}
