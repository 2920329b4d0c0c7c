/* Loaded before a program (LD_PRELOAD), it lets one of the program's writes to standard output fail, the one whose number from 1 is
   in FAIL_AT; those before and behind it do what they always do. */
#define _GNU_SOURCE
#include <errno.h>
#include <stdlib.h>
#include <sys/syscall.h>
#include <sys/types.h>
#include <unistd.h>

ssize_t write(int fd, const void *bytes, size_t count)
{
    static long calls;
    const char *at = getenv("FAIL_AT");

    if (fd == STDOUT_FILENO && at != NULL && ++calls == atol(at)) {
        errno = ENOSPC;
        return -1;
    }
    return syscall(SYS_write, fd, bytes, count);
}
