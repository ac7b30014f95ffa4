/* Further functions of C for a program that makes folders. */
#include <sys/stat.h>

INLINE u32 c_mkdir(u8 *path, u32 mode)
{
    return (u32)mkdir((const char *)path, (mode_t)mode);
}

/* Puts whether a folder or a file is at a path into the 256 bytes of Linux's `struct statx`, and the mark that nothing else is
 * known: the programs ask for nothing else. The folder -100 is the working directory. */
INLINE u32 c_statx(u32 folder, u8 *path, u32 how, u32 wanted, u8 *to)
{
    struct stat found;
    (void)wanted;
    if (folder == (u32)-100 && how == 0) {
        if (stat((const char *)path, &found) != 0) return (u32)-1;
        memset(to, 0, 256);
        st32(to, 1);
        st16(to + 28, S_ISDIR(found.st_mode) ? 0x4000 : S_ISREG(found.st_mode) ? 0x8000 : 0);
        return 0;
    }
    errno = EINVAL;
    return (u32)-1;
}
