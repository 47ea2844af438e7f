// Refuses growths of a program: the call of malloc, calloc, realloc, posix_memalign or aligned_alloc of the number
// REFUSE, counted from 1; where LASTING is set, each one behind it too. With TELL the count of calls goes to that file,
// and behind it, a line each, the count at each opening of a file: the growth of that number came last before that.
#define _GNU_SOURCE
#include <dlfcn.h>
#include <errno.h>
#include <fcntl.h>
#include <stdarg.h>
#include <stddef.h>
#include <stdio.h>
#include <stdlib.h>
#include <unistd.h>

enum { OPENINGS = 64 };

static long calls, refuse, lasting;
static long openings[OPENINGS];
static int opened;

__attribute__((constructor)) static void begin(void) {
    const char *number = getenv("REFUSE");
    refuse = number ? atol(number) : 0;
    lasting = getenv("LASTING") != NULL;
    calls = 0;
}

__attribute__((destructor)) static void end(void) {
    const char *name = getenv("TELL");
    int told = opened;
    int out = name ? open(name, O_WRONLY | O_CREAT | O_TRUNC, 0644) : -1;
    if (0 <= out) {
        dprintf(out, "%ld\n", calls);
        for (int number = 0; number < told; number++) {
            dprintf(out, "%ld\n", openings[number]);
        }
        close(out);
    }
}

static int is_refused(void) {
    calls++;
    return refuse && (calls == refuse || (lasting && refuse < calls));
}

#define NEXT(name) (real ? real : (real = dlsym(RTLD_NEXT, #name)))

void *malloc(size_t size) {
    static void *(*real)(size_t);
    if (is_refused()) {
        errno = ENOMEM;
        return NULL;
    }
    return NEXT(malloc)(size);
}

void *realloc(void *block, size_t size) {
    static void *(*real)(void *, size_t);
    if (is_refused()) {
        errno = ENOMEM;
        return NULL;
    }
    return NEXT(realloc)(block, size);
}

extern void *__libc_calloc(size_t, size_t);

void *calloc(size_t count, size_t size) {
    if (is_refused()) {
        errno = ENOMEM;
        return NULL;
    }
    return __libc_calloc(count, size);
}

int posix_memalign(void **block, size_t alignment, size_t size) {
    static int (*real)(void **, size_t, size_t);
    return is_refused() ? ENOMEM : NEXT(posix_memalign)(block, alignment, size);
}

void *aligned_alloc(size_t alignment, size_t size) {
    static void *(*real)(size_t, size_t);
    if (is_refused()) {
        errno = ENOMEM;
        return NULL;
    }
    return NEXT(aligned_alloc)(alignment, size);
}

int open(const char *name, int flags, ...) {
    static int (*real)(const char *, int, ...);
    va_list rest;
    va_start(rest, flags);
    int mode = flags & O_CREAT ? va_arg(rest, int) : 0;
    va_end(rest);
    if (opened < OPENINGS) {
        openings[opened++] = calls;
    }
    return NEXT(open)(name, flags, mode);
}
