/* Preloaded into a program by progress.py and serve.py. Before the read of the number AT, from 1, that names its place in the file, it
   waits for 1.1 seconds. Where SYNCS is set it waits in each of the first SYNCS syncs for a fifth of a second, and makes none. Where
   HANGS is set each sync waits for as long as the file of that name exists. */
#define _GNU_SOURCE
#include <stdlib.h>
#include <sys/syscall.h>
#include <unistd.h>

static long number_of(const char *name)
{
    const char *number = getenv(name);
    return number ? atol(number) : 0;
}

ssize_t pread(int fd, void *bytes, size_t length, off_t offset)
{
    static long made;
    if (++made == number_of("AT"))
        usleep(1100000);
    return syscall(SYS_pread64, fd, bytes, length, offset);
}

ssize_t pread64(int fd, void *bytes, size_t length, off_t offset)
{
    return pread(fd, bytes, length, offset);
}

int fdatasync(int fd)
{
    static long made;
    while (getenv("HANGS") && access(getenv("HANGS"), F_OK) == 0)
        usleep(1000);
    if (!getenv("SYNCS"))
        return syscall(SYS_fdatasync, fd);
    if (++made <= number_of("SYNCS"))
        usleep(200000);
    return 0;
}
