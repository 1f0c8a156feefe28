/* Preloaded into a program, it refuses one growth of its memory: the one with the number in REFUSED_GROWTH,
   counted from 1 over all calls of malloc, calloc, realloc, aligned_alloc and posix_memalign. If the program
   comes to that growth, the file named by REFUSED_MARK is made. */
#define _GNU_SOURCE
#include <dlfcn.h>
#include <errno.h>
#include <fcntl.h>
#include <stdatomic.h>
#include <stddef.h>
#include <stdlib.h>
#include <unistd.h>

static atomic_long growths;
static atomic_long refused_growth = -1;

static int is_refused(void)
{
    long number = atomic_load(&refused_growth);
    if (number < 0) {
        const char *text = getenv("REFUSED_GROWTH");
        number = text ? atol(text) : 0;
        atomic_store(&refused_growth, number);
    }
    if (atomic_fetch_add(&growths, 1) + 1 != number)
        return 0;
    const char *mark = getenv("REFUSED_MARK");
    int file = mark ? open(mark, O_WRONLY | O_CREAT, 0600) : -1;
    if (file >= 0)
        close(file);
    errno = ENOMEM;
    return 1;
}

static void *next(const char *name)
{
    return dlsym(RTLD_NEXT, name);
}

void *malloc(size_t size)
{
    static void *(*real)(size_t);
    if (!real)
        real = (void *(*)(size_t))next("malloc");
    return is_refused() ? NULL : real(size);
}

void *realloc(void *block, size_t size)
{
    static void *(*real)(void *, size_t);
    if (!real)
        real = (void *(*)(void *, size_t))next("realloc");
    return is_refused() ? NULL : real(block, size);
}

void *aligned_alloc(size_t alignment, size_t size)
{
    static void *(*real)(size_t, size_t);
    if (!real)
        real = (void *(*)(size_t, size_t))next("aligned_alloc");
    return is_refused() ? NULL : real(alignment, size);
}

int posix_memalign(void **block, size_t alignment, size_t size)
{
    static int (*real)(void **, size_t, size_t);
    if (!real)
        real = (int (*)(void **, size_t, size_t))next("posix_memalign");
    return is_refused() ? ENOMEM : real(block, alignment, size);
}
