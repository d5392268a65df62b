/* Preloaded into a program by costs.py: at its end it writes into the file named by COUNTED how many allocations it made, of how many
   bytes in all, and how many bytes it held at most. A program with threads ends by _exit, without destructors. */
#include <fcntl.h>
#include <malloc.h>
#include <stddef.h>
#include <stdio.h>
#include <stdlib.h>
#include <sys/syscall.h>
#include <unistd.h>

void *__libc_malloc(size_t size);
void *__libc_realloc(void *block, size_t size);
void __libc_free(void *block);

static long allocations, bytes, held, most;

static void *taken(void *block, size_t size)
{
    __atomic_fetch_add(&allocations, 1, __ATOMIC_RELAXED);
    __atomic_fetch_add(&bytes, size, __ATOMIC_RELAXED);
    long now = __atomic_add_fetch(&held, malloc_usable_size(block), __ATOMIC_RELAXED);
    if (now > __atomic_load_n(&most, __ATOMIC_RELAXED))
        __atomic_store_n(&most, now, __ATOMIC_RELAXED);
    return block;
}

static void freed(void *block)
{
    __atomic_fetch_sub(&held, malloc_usable_size(block), __ATOMIC_RELAXED);
}

void *malloc(size_t size)
{
    return taken(__libc_malloc(size), size);
}

void *realloc(void *block, size_t size)
{
    freed(block);
    return taken(__libc_realloc(block, size), size);
}

void free(void *block)
{
    freed(block);
    __libc_free(block);
}

__attribute__((destructor)) static void report(void)
{
    const char *file = getenv("COUNTED");
    int out = file ? open(file, O_WRONLY | O_CREAT | O_TRUNC, 0600) : -1;
    if (out >= 0) {
        dprintf(out, "%ld %ld %ld\n", allocations, bytes, most);
        close(out);
    }
}

void _exit(int status)
{
    report();
    syscall(SYS_exit_group, status);
    __builtin_unreachable();
}
