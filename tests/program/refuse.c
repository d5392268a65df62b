/* Preloaded into a program by refusing.py: its allocation of the number REFUSED, counted from 1, gets no
   memory, nor do the next ones up to REFUSALS in all, where that is set, nor that of the number ALSO, where
   that is set; every other one gets what the C library gives. The thread of the number THREAD is not made. At the end it writes how many blocks were not
   given back, and how many allocations it was asked for, into the file named by HELD. */
#define _GNU_SOURCE
#include <dlfcn.h>
#include <errno.h>
#include <fcntl.h>
#include <pthread.h>
#include <stddef.h>
#include <stdio.h>
#include <stdlib.h>
#include <sys/syscall.h>
#include <unistd.h>

void *__libc_malloc(size_t size);
void *__libc_calloc(size_t count, size_t size);
void *__libc_realloc(void *block, size_t size);
void __libc_free(void *block);

static long held, asked;

static long number_of(const char *name, long otherwise)
{
    const char *number = getenv(name);
    return number ? atol(number) : otherwise;
}

static int is_refused(void)
{
    static long first = -1, refusals, also;
    if (first < 0) {
        refusals = number_of("REFUSALS", 1);
        also = number_of("ALSO", 0);
        first = number_of("REFUSED", 0);
    }
    long number = __atomic_add_fetch(&asked, 1, __ATOMIC_SEQ_CST);
    return number == also || (first > 0 && first <= number && number < first + refusals);
}

static void *counted(void *block)
{
    if (block)
        __atomic_fetch_add(&held, 1, __ATOMIC_SEQ_CST);
    return block;
}

void *malloc(size_t size)
{
    return is_refused() ? NULL : counted(__libc_malloc(size));
}

void *calloc(size_t count, size_t size)
{
    return counted(__libc_calloc(count, size));
}

void *realloc(void *block, size_t size)
{
    if (is_refused())
        return NULL;
    return block ? __libc_realloc(block, size) : counted(__libc_realloc(block, size));
}

void free(void *block)
{
    if (block)
        __atomic_fetch_sub(&held, 1, __ATOMIC_SEQ_CST);
    __libc_free(block);
}

int pthread_create(pthread_t *thread, const pthread_attr_t *how, void *(*call)(void *), void *with)
{
    static long made;
    int (*make)(pthread_t *, const pthread_attr_t *, void *(*)(void *), void *) = dlsym(RTLD_NEXT, "pthread_create");
    return ++made == number_of("THREAD", 0) ? EAGAIN : make(thread, how, call, with);
}

static void report(void)
{
    const char *file = getenv("HELD");
    int out = file ? open(file, O_WRONLY | O_CREAT | O_TRUNC, 0600) : -1;
    if (out >= 0) {
        dprintf(out, "%ld %ld\n", held, asked);
        close(out);
    }
}

/* A program with threads ends by this call, which runs no destructor. */
void _exit(int status)
{
    report();
    for (;;)
        syscall(SYS_exit_group, status);
}

__attribute__((destructor)) static void report_at_end(void)
{
    report();
}
