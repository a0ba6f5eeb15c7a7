/* Loaded before the C library, it stands for a disk with a cache that is lost with the power. A block that is written
 * reaches the file only when it is flushed, and one more before that ends the program. From the environment:
 *
 *     TFS_CUT       so many blocks are stored, then the power is taken and the program ends
 *     TFS_FAIL      so many blocks are stored, then flushes fail
 *     TFS_STORES    a file to which the number of each stored block is added, a line each
 *     TFS_DEVICE    if set, every plain file is said to be a block device
 */
#define _GNU_SOURCE
#include <errno.h>
#include <fcntl.h>
#include <stdio.h>
#include <stdlib.h>
#include <string.h>
#include <sys/stat.h>
#include <sys/syscall.h>
#include <unistd.h>

#define BLOCK 512

enum { POWER_TAKEN = 99, NOT_A_BLOCK = 98, NOT_FLUSHED = 97 };

static char cached[BLOCK];
static off_t cached_at = -1; /* where the block in the cache belongs, -1 if there is none */
static long stored;

ssize_t pwrite64(int file, const void *bytes, size_t count, off_t at)
{
    const char *cut = getenv("TFS_CUT");

    (void)file;
    if (count != BLOCK || at % BLOCK != 0)
        _exit(NOT_A_BLOCK);
    if (cached_at != -1)
        _exit(NOT_FLUSHED);
    if (cut != NULL && stored == atol(cut))
        _exit(POWER_TAKEN);
    memcpy(cached, bytes, BLOCK);
    cached_at = at;
    return BLOCK;
}

int fdatasync(int file)
{
    const char *fail = getenv("TFS_FAIL");
    int notes = open(getenv("TFS_STORES"), O_WRONLY | O_APPEND | O_CREAT, 0666);

    errno = EIO;
    if ((fail != NULL && stored == atol(fail)) || cached_at == -1 || notes < 0 ||
        dprintf(notes, "%ld\n", (long)(cached_at / BLOCK)) < 0 ||
        syscall(SYS_pwrite64, file, cached, BLOCK, cached_at) != BLOCK)
        return -1;
    close(notes);
    cached_at = -1;
    stored++;
    return 0;
}

int statx(int folder, const char *path, int flags, unsigned mask, struct statx *found)
{
    int failed = (int)syscall(SYS_statx, folder, path, flags, mask, found);

    if (failed == 0 && getenv("TFS_DEVICE") != NULL && S_ISREG(found->stx_mode))
        found->stx_mode = (unsigned short)((found->stx_mode & ~S_IFMT) | S_IFBLK);
    return failed;
}
