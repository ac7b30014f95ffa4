/* Further functions of C for a program that shows its progress on a terminal. */
#include <time.h>

INLINE u32 c_isatty(u32 file)
{
    return (u32)isatty((int)file);
}

/* Puts the seconds and nanoseconds of a clock into the 16 bytes of Linux's `struct timespec`. Clock 1 is the one that never goes
 * back: the programs read no other. */
INLINE u32 c_clock_gettime(u32 clock, u8 *to)
{
    struct timespec now;
    if (clock == 1) {
        if (clock_gettime(CLOCK_MONOTONIC, &now) != 0) return (u32)-1;
        st64(to, (u64)now.tv_sec);
        st64(to + 8, (u64)now.tv_nsec);
        return 0;
    }
    errno = EINVAL;
    return (u32)-1;
}
