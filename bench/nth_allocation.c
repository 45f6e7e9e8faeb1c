/* Refuses the allocation of the number REFUSED, counted from 1, and tells in the end how many were asked
   for, the refused one among them. For LD_PRELOAD. */
#define _GNU_SOURCE
#include <dlfcn.h>
#include <errno.h>
#include <stdatomic.h>
#include <stdio.h>
#include <stdlib.h>
#include <sys/syscall.h>
#include <unistd.h>

static atomic_long asked;
static long refused = -1;

static int is_refused(void) {
    return refused >= 0 && ++asked == refused;
}

/* What the C library has under this name. */
#define NEXT(result, name, ...)                                        \
    static result (*next)(__VA_ARGS__);                                \
    if (!next) *(void **)&next = dlsym(RTLD_NEXT, #name)

void *malloc(size_t size) {
    NEXT(void *, malloc, size_t);
    if (!is_refused()) return next(size);
    errno = ENOMEM;
    return NULL;
}

void *realloc(void *old, size_t size) {
    NEXT(void *, realloc, void *, size_t);
    if (!is_refused()) return next(old, size);
    errno = ENOMEM;
    return NULL;
}

void *aligned_alloc(size_t alignment, size_t size) {
    NEXT(void *, aligned_alloc, size_t, size_t);
    if (!is_refused()) return next(alignment, size);
    errno = ENOMEM;
    return NULL;
}

int posix_memalign(void **place, size_t alignment, size_t size) {
    NEXT(int, posix_memalign, void **, size_t, size_t);
    return is_refused() ? ENOMEM : next(place, alignment, size);
}

__attribute__((constructor)) static void begin(void) {
    const char *number = getenv("REFUSED");
    if (number) refused = atol(number);
}

static void tell(void) {
    if (refused >= 0) dprintf(STDERR_FILENO, "allocations %ld\n", (long)asked);
    refused = -1;
}

__attribute__((destructor)) static void end(void) { tell(); }

/* A program that starts threads ends so, and runs no destructor. */
void _exit(int status) {
    tell();
    syscall(SYS_exit_group, status);
    __builtin_unreachable();
}
