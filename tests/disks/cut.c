/* Preloaded into a program by pieces.py. INPUTS names files, with a colon between two. A read of one of them ends at the next of the
   places CUTS, rising numbers with a colon after each, and after MOST bytes, where MOST is set; it goes on until WAITS lines have come,
   or the end, where WAITS is set. OUTPUT names files in the same way, which take ROOM bytes in all: a write takes those for which there
   is room, and fails where there is none. Where INTERRUPTED is set, a signal interrupts every second read and write of all these. */
#define _GNU_SOURCE
#include <errno.h>
#include <sys/syscall.h>
#include <unistd.h>

#include "named_files.h"

/* How many bytes of a file were read, and where the cuts begin that were not passed yet. */
struct file {
    size_t at;
    const char *cuts;
};

/* How many bytes come before the next cut. */
static size_t before_cut(struct file *file)
{
    file->cuts = file->cuts ? file->cuts : getenv("CUTS");
    while (file->cuts && *file->cuts) {
        char *end;
        size_t place = strtoul(file->cuts, &end, 10);
        if (place > file->at)
            return place - file->at;
        file->cuts = end + (*end == ':');
    }
    return (size_t)-1;
}

static size_t most_bytes(struct file *file)
{
    size_t cut = before_cut(file), most = getenv("MOST") ? strtoul(getenv("MOST"), NULL, 10) : cut;
    return most < cut ? most : cut;
}

static int is_interrupted(void)
{
    static unsigned long calls;
    if (!getenv("INTERRUPTED") || __atomic_add_fetch(&calls, 1, __ATOMIC_RELAXED) % 2 == 0)
        return 0;
    errno = EINTR;
    return 1;
}

static ssize_t read_piece(int fd, struct file *file, char *bytes, size_t length)
{
    size_t most = most_bytes(file), have = 0;
    if (is_interrupted())
        return -1;
    long waits = getenv("WAITS") ? atol(getenv("WAITS")) : 0;
    do {
        ssize_t got = syscall(SYS_read, fd, bytes + have, length - have < most ? length - have : most);
        if (got <= 0)
            return have ? (ssize_t)have : got;
        for (ssize_t k = 0; k < got; k++)
            waits -= bytes[have + k] == '\n';
        have += got;
        file->at += got;
    } while (waits > 0);
    return have;
}

ssize_t read(int fd, void *bytes, size_t length)
{
    static struct file files[MOST_FILES];
    int place = length ? place_of(fd, "INPUTS") : 0;
    return place ? read_piece(fd, &files[place - 1], bytes, length) : syscall(SYS_read, fd, bytes, length);
}

ssize_t write(int fd, const void *bytes, size_t length)
{
    static size_t taken;
    if (length == 0 || !place_of(fd, "OUTPUT"))
        return syscall(SYS_write, fd, bytes, length);
    if (is_interrupted())
        return -1;
    size_t room = strtoul(getenv("ROOM"), NULL, 10) - taken;
    if (room == 0) {
        errno = ENOSPC;
        return -1;
    }
    ssize_t written = syscall(SYS_write, fd, bytes, length < room ? length : room);
    taken += written > 0 ? written : 0;
    return written;
}
