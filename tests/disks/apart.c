/* Preloaded into a program by pieces.py beside record.c: each allocation in a thread but the first one takes at least a third of a
   millisecond, and so does each turn in which a thread lets the others run. */
#define _GNU_SOURCE
#include <sched.h>
#include <stddef.h>
#include <unistd.h>

void *__libc_malloc(size_t size);

void *malloc(size_t size)
{
    if (gettid() != getpid())
        usleep(300);
    return __libc_malloc(size);
}

int sched_yield(void)
{
    return usleep(1000);
}
