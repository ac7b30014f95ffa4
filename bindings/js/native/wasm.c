/* The library as a WebAssembly module that needs no import: the generated C, and the functions of C that it calls.
 *
 * JavaScript puts what it passes after `__heap_base`, tells capnp_canonical_heap where the free memory starts, and calls.
 * malloc takes memory from there on. A call frees it before it returns, and the next one starts again: there is one call at a
 * time. Numbers of size_t and segments that a call reads or writes in memory have 8 bytes (CAPNP_CANONICAL_SLOTS_OF_8). */
#define CAPNP_CANONICAL_SLOTS_OF_8
#include "capnp_canonical.c"

#define EXPORT(name) __attribute__((export_name(#name), used, visibility("default")))

extern u8 __heap_base;

enum { PAGE = 65536, HEAD = 16 };
/* Where free memory starts, and the last block, or 0. The 16 bytes before a block hold its size. */
static u32 top, last;

/* Makes the memory reach to `end`. Returns whether it does. */
static int reaches(u64 end)
{
    u64 pages = (end + PAGE - 1) / PAGE, now = __builtin_wasm_memory_size(0);
    return pages <= now || (pages <= 65536 && __builtin_wasm_memory_grow(0, pages - now) != (size_t)-1);
}

EXPORT(capnp_canonical_heap) u32 capnp_canonical_heap(u32 from)
{
    top = from;
    last = 0;
    return reaches(from);
}

EXPORT(capnp_canonical_heap_base) u32 capnp_canonical_heap_base(void)
{
    return ((u32)(uptr)&__heap_base + 15) & ~15u;
}

/* The header's text of a refusal, written like capnp_canonical_name writes a name. */
EXPORT(capnp_canonical_write_error_text) u32 capnp_canonical_write_error_text(u32 answer, char *to, u32 room)
{
    const char *text = capnp_canonical_error_text(answer);
    u32 length = 0;
    for (; text[length]; length++)
        if (length + 1 < room) to[length] = text[length];
    if (room) to[length < room ? length : room - 1] = 0;
    return length;
}

/* No block is larger than C allows: offsets within it are signed numbers. */
void *malloc(size_t size)
{
    if (size > PTRDIFF_MAX) return NULL;
    u64 at = (((u64)top + 15) & ~15ull) + HEAD, end = at + size;
    if (end > UINT32_MAX || !reaches(end)) return NULL;
    st64((u8 *)(uptr)(at - HEAD), size);
    top = (u32)end;
    last = (u32)at;
    return (void *)(uptr)at;
}

/* Memory is reused only if the block is the last one. */
void free(void *block)
{
    if (block && (u32)(uptr)block == last) top = last - HEAD, last = 0;
}

void *realloc(void *block, size_t size)
{
    if (!block) return malloc(size);
    u64 kept = ld64((u8 *)block - HEAD);
    if (size <= kept) return block;
    if (size > PTRDIFF_MAX) return NULL;
    if ((u32)(uptr)block == last) {
        u64 end = (u64)last + size;
        if (end > UINT32_MAX || !reaches(end)) return NULL;
        st64((u8 *)block - HEAD, size);
        top = (u32)end;
        return block;
    }
    void *made = malloc(size);
    if (made) memcpy(made, block, (size_t)kept);
    return made;
}

#undef memcpy
#undef memmove
#undef memset
/* Each is one instruction of WebAssembly. */
void *memcpy(void *restrict to, const void *restrict from, size_t size) { return __builtin_memcpy(to, from, size); }
void *memmove(void *to, const void *from, size_t size) { return __builtin_memmove(to, from, size); }
void *memset(void *to, int value, size_t size) { return __builtin_memset(to, value, size); }
