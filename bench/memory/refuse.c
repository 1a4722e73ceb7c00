// Put in front of the C library: refuses one growth of memory of a program, or all from one on. The environment says which:
// REFUSE_FROM is the number, from 1, of the first growth that is refused, REFUSE_ALL asks for all behind it too, and REFUSE_TOLD is the
// number of a file descriptor, to which the number of growths is written at the end.
#define _GNU_SOURCE
#include <dlfcn.h>
#include <errno.h>
#include <pthread.h>
#include <stdatomic.h>
#include <stdio.h>
#include <stdlib.h>
#include <sys/syscall.h>
#include <unistd.h>

extern void *__libc_malloc(size_t);
extern void *__libc_calloc(size_t, size_t);
extern void *__libc_realloc(void *, size_t);
extern void *__libc_memalign(size_t, size_t);

static atomic_ulong growths;
static unsigned long first;
static int all, told = -1;

// The numbers are read at the first growth, which may come before any constructor.
static atomic_int known;

static unsigned long number(const char *name) {
    const char *text = getenv(name);
    unsigned long value = 0;
    while (text && *text >= '0' && *text <= '9') value = value * 10 + (unsigned long)(*text++ - '0');
    return value;
}

__attribute__((constructor)) static void begin(void) {
    first = number("REFUSE_FROM");
    all = number("REFUSE_ALL") != 0;
    if (getenv("REFUSE_TOLD")) told = (int)number("REFUSE_TOLD");
    atomic_store(&known, 1);
}

static void end(void) {
    if (told < 0) return;
    char text[32];
    int size = snprintf(text, sizeof text, "%lu\n", atomic_load(&growths));
    if (write(told, text, (size_t)size) < 0) abort();
}

// The program may end without its destructors.
void _exit(int status) {
    end();
    syscall(SYS_exit_group, status);
    __builtin_unreachable();
}

void exit(int status) {
    _exit(status);
}

// Growths before the program's own code aren't its own.
static int refused(void) {
    if (!atomic_load(&known)) return 0;
    unsigned long n = atomic_fetch_add(&growths, 1) + 1;
    if (first == 0 || n < first) return 0;
    return all || n == first;
}

void *malloc(size_t size) {
    if (refused()) {
        errno = ENOMEM;
        return NULL;
    }
    return __libc_malloc(size);
}

void *calloc(size_t count, size_t size) {
    if (refused()) {
        errno = ENOMEM;
        return NULL;
    }
    return __libc_calloc(count, size);
}

void *realloc(void *old, size_t size) {
    if (refused()) {
        errno = ENOMEM;
        return NULL;
    }
    return __libc_realloc(old, size);
}

void *memalign(size_t align, size_t size) {
    if (refused()) {
        errno = ENOMEM;
        return NULL;
    }
    return __libc_memalign(align, size);
}

void *aligned_alloc(size_t align, size_t size) {
    return memalign(align, size);
}

int posix_memalign(void **out, size_t align, size_t size) {
    void *made = memalign(align, size);
    if (!made) return ENOMEM;
    *out = made;
    return 0;
}

// A thread wants a stack.
int pthread_create(pthread_t *thread, const pthread_attr_t *attributes, void *(*body)(void *), void *argument) {
    static _Atomic(void *) real;
    if (refused()) return EAGAIN;
    void *found = atomic_load(&real);
    if (!found) {
        found = dlsym(RTLD_NEXT, "pthread_create");
        atomic_store(&real, found);
    }
    return ((int (*)(pthread_t *, const pthread_attr_t *, void *(*)(void *), void *))found)(thread, attributes, body, argument);
}
