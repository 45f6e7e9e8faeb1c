/* Refuses the start of the thread of the number REFUSED, counted from 1, and tells in the end how many starts
   were asked for, the refused one among them. For LD_PRELOAD. */
#define _GNU_SOURCE
#include <dlfcn.h>
#include <errno.h>
#include <pthread.h>
#include <stdatomic.h>
#include <stdio.h>
#include <stdlib.h>
#include <sys/syscall.h>
#include <unistd.h>

typedef int start_call(pthread_t *, const pthread_attr_t *, void *(*)(void *), void *);

static atomic_long asked;

int pthread_create(pthread_t *thread, const pthread_attr_t *attributes, void *(*body)(void *), void *given) {
    const char *refused = getenv("REFUSED");
    start_call *next;
    if (++asked == (refused ? atol(refused) : 0)) return EAGAIN;
    *(void **)&next = dlsym(RTLD_NEXT, "pthread_create");
    return next(thread, attributes, body, given);
}

/* A program that starts threads ends so, and runs no destructor. */
void _exit(int status) {
    dprintf(STDERR_FILENO, "threads %ld\n", (long)asked);
    syscall(SYS_exit_group, status);
    __builtin_unreachable();
}
