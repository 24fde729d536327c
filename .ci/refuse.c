// Refuses growths of memory, threads and reads; it is loaded before the C library.
//
// The environment asks for it: request number REFUSE_AT, from 1, is answered by NULL; thread number REFUSE_THREAD, from
// 1, isn't started; the file REFUSE_COUNT gets how many requests there were; each read takes REFUSE_BEYOND bytes at most;
// the end of a file is answered by the error REFUSE_END, a number.
//
// The program itself asks for it by a request for a block that no memory holds, as kernel_tests does.
// Its size is n more than
//   1 * 2^60   the next request is refused exactly where n requests or more were counted; it isn't counted itself
//   2 * 2^60   the count begins again, and of what comes only request number n is refused; none where n is 0
//   3 * 2^60   the count begins again, and of what comes request number n and all later ones are refused
// and that request is answered by NULL, and counted nowhere.
#define _GNU_SOURCE
#include <dlfcn.h>
#include <errno.h>
#include <pthread.h>
#include <stdatomic.h>
#include <stdio.h>
#include <stdlib.h>
#include <unistd.h>

static atomic_long asked;             // requests of the whole process
static atomic_long counted;           // requests since the program last said what to refuse
static atomic_long only, from;        // which of these are refused: 0 for none
static atomic_int probe;              // what becomes of the next request: 1 given, 2 refused
static int told;

// Whether the size is none of a block but what the program says.
static int hears(size_t size) {
    long n = (long)(size & ((1ul << 60) - 1));
    switch (size >> 60) {
    case 1:
        probe = counted >= n ? 2 : 1;
        return 1;
    case 2:
        counted = 0;
        only = n;
        from = 0;
        return 1;
    case 3:
        counted = 0;
        only = 0;
        from = n;
        return 1;
    default:
        return 0;
    }
}

static int is_asked_for(long number) {
    const char *at = getenv("REFUSE_AT");
    return at != NULL && atol(at) == number;
}

static int refused(size_t size) {
    int yes;
    if (told)
        return 0;
    if (hears(size)) {
        yes = 1;
    } else if (probe != 0) {
        yes = atomic_exchange(&probe, 0) == 2;
    } else {
        long number = atomic_fetch_add(&counted, 1) + 1;
        yes = is_asked_for(atomic_fetch_add(&asked, 1) + 1) || number == only || (from != 0 && number >= from);
    }
    if (yes)
        errno = ENOMEM;
    return yes;
}

void *malloc(size_t size) {
    void *(*next)(size_t) = (void *(*)(size_t))dlsym(RTLD_NEXT, "malloc");
    return refused(size) ? NULL : next(size);
}

void *realloc(void *old, size_t size) {
    void *(*next)(void *, size_t) = (void *(*)(void *, size_t))dlsym(RTLD_NEXT, "realloc");
    return refused(size) ? NULL : next(old, size);
}

void *aligned_alloc(size_t align, size_t size) {
    void *(*next)(size_t, size_t) = (void *(*)(size_t, size_t))dlsym(RTLD_NEXT, "aligned_alloc");
    return refused(size) ? NULL : next(align, size);
}

int pthread_create(pthread_t *thread, const pthread_attr_t *attributes, void *(*start)(void *), void *with) {
    int (*next)(pthread_t *, const pthread_attr_t *, void *(*)(void *), void *) =
        (int (*)(pthread_t *, const pthread_attr_t *, void *(*)(void *), void *))dlsym(RTLD_NEXT, "pthread_create");
    static atomic_long started;
    const char *at = getenv("REFUSE_THREAD");
    long number = atomic_fetch_add(&started, 1) + 1;
    if (at != NULL && atol(at) == number)
        return EAGAIN;
    return next(thread, attributes, start, with);
}

ssize_t read(int file, void *into, size_t count) {
    ssize_t (*next)(int, void *, size_t) = (ssize_t (*)(int, void *, size_t))dlsym(RTLD_NEXT, "read");
    const char *most = getenv("REFUSE_BEYOND"), *error = getenv("REFUSE_END");
    if (most != NULL && (size_t)atol(most) < count)
        count = (size_t)atol(most);
    ssize_t done = next(file, into, count);
    if (done == 0 && count != 0 && error != NULL) {
        errno = atoi(error);
        return -1;
    }
    return done;
}

__attribute__((destructor)) static void tell(void) {
    const char *name = getenv("REFUSE_COUNT");
    told = 1;
    FILE *file = name == NULL ? NULL : fopen(name, "w");
    if (file == NULL)
        return;
    fprintf(file, "%ld\n", (long)asked);
    fclose(file);
}

// A program that can start threads ends by this call, and no destructor runs.
void _exit(int status) {
    void (*next)(int) = (void (*)(int))dlsym(RTLD_NEXT, "_exit");
    tell();
    next(status);
    __builtin_unreachable();
}
