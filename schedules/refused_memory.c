// Preloaded, answers the call number REFUSED_CALL of the C library's allocator as if there were no memory, and writes at the end how many
// calls there were into the file REFUSED_COUNT (schedules/refused_memory).
#define _GNU_SOURCE
#include <errno.h>
#include <stdio.h>
#include <stdlib.h>
#include <sys/syscall.h>
#include <unistd.h>

extern void *__libc_malloc(size_t size);
extern void *__libc_calloc(size_t many, size_t size);
extern void *__libc_realloc(void *old, size_t size);
extern void *__libc_memalign(size_t alignment, size_t size);

static long refused, calls;
static int counts;

__attribute__((constructor)) static void begin(void)
{
    const char *number = getenv("REFUSED_CALL");
    refused = number ? atol(number) : 0;
    counts = 1;
}

static int refuses(void)
{
    if (!counts || __atomic_add_fetch(&calls, 1, __ATOMIC_RELAXED) != refused)
        return 0;
    errno = ENOMEM;
    return 1;
}

void *malloc(size_t size)
{
    return refuses() ? NULL : __libc_malloc(size);
}

void *calloc(size_t many, size_t size)
{
    return refuses() ? NULL : __libc_calloc(many, size);
}

void *realloc(void *old, size_t size)
{
    return refuses() ? NULL : __libc_realloc(old, size);
}

void *aligned_alloc(size_t alignment, size_t size)
{
    return refuses() ? NULL : __libc_memalign(alignment, size);
}

int posix_memalign(void **to, size_t alignment, size_t size)
{
    void *made = refuses() ? NULL : __libc_memalign(alignment, size);
    if (!made)
        return ENOMEM;
    *to = made;
    return 0;
}

__attribute__((destructor)) static void end(void)
{
    const char *name = getenv("REFUSED_COUNT");
    counts = 0;
    FILE *file = name ? fopen(name, "w") : NULL;
    if (file) {
        fprintf(file, "%ld\n", calls);
        fclose(file);
    }
}

// A program may end by this and pass over what is to be done at the end.
void _exit(int status)
{
    end();
    for (;;)
        syscall(SYS_exit_group, status);
}
