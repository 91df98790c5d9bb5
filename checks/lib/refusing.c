// Refuses the program that it is loaded before (LD_PRELOAD) one allocation, and each thread from one on.
//
// REFUSED_ALLOCATION: the number of the allocation that gets nothing, from 1 on. REFUSED_THREAD: that of the first thread
// that isn't made. 0 or nothing: none. How many allocations there were is written to the file of COUNTED, where it's given.
#define _GNU_SOURCE
#include <dlfcn.h>
#include <errno.h>
#include <fcntl.h>
#include <pthread.h>
#include <stdio.h>
#include <stdlib.h>
#include <sys/syscall.h>
#include <unistd.h>

static long number(const char *name) {
    const char *text = getenv(name);
    return text ? atol(text) : 0;
}

static long made, begun, refused_allocation, refused_thread;
static int is_counting;

__attribute__((constructor)) static void begin(void) {
    refused_allocation = number("REFUSED_ALLOCATION");
    refused_thread = number("REFUSED_THREAD");
    is_counting = 1;
}

static int is_refused(void) {
    return is_counting && __atomic_add_fetch(&made, 1, __ATOMIC_SEQ_CST) == refused_allocation;
}

void *malloc(size_t size) {
    static void *(*next)(size_t);
    if (!next) next = (void *(*)(size_t))dlsym(RTLD_NEXT, "malloc");
    if (is_refused()) {
        errno = ENOMEM;
        return NULL;
    }
    return next(size);
}

void *realloc(void *old, size_t size) {
    static void *(*next)(void *, size_t);
    if (!next) next = (void *(*)(void *, size_t))dlsym(RTLD_NEXT, "realloc");
    if (is_refused()) {
        errno = ENOMEM;
        return NULL;
    }
    return next(old, size);
}

int pthread_create(pthread_t *thread, const pthread_attr_t *attributes, void *(*run)(void *), void *given) {
    static int (*next)(pthread_t *, const pthread_attr_t *, void *(*)(void *), void *);
    if (!next) next = (int (*)(pthread_t *, const pthread_attr_t *, void *(*)(void *), void *))dlsym(RTLD_NEXT, "pthread_create");
    long count = __atomic_add_fetch(&begun, 1, __ATOMIC_SEQ_CST);
    if (refused_thread && count >= refused_thread) return EAGAIN;
    return next(thread, attributes, run, given);
}

// The program ends by this.
void _exit(int status) {
    const char *path = getenv("COUNTED");
    int file = path ? open(path, O_WRONLY | O_CREAT | O_TRUNC, 0600) : -1;
    if (file >= 0) {
        char text[32];
        int length = snprintf(text, sizeof text, "%ld\n", made);
        if (write(file, text, length) < length) status = 99;
        close(file);
    }
    syscall(SYS_exit_group, status);
    __builtin_unreachable();
}
