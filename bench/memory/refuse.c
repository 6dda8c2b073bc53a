/* Refuses one call for memory of a program: LD_PRELOAD it, with the number of the call in REFUSE (from 1; 0: none), and the name of a
   file in REFUSED, to which the number of calls that were made is written at the end. Calls to give memory back aren't counted. */
#define _GNU_SOURCE
#include <dlfcn.h>
#include <errno.h>
#include <fcntl.h>
#include <stdatomic.h>
#include <stdio.h>
#include <stdlib.h>
#include <string.h>
#include <sys/syscall.h>
#include <unistd.h>

static atomic_long made;
static long refused = -1;
static void *(*first_malloc)(size_t), *(*first_realloc)(void *, size_t), *(*first_calloc)(size_t, size_t);
static int (*first_memalign)(void **, size_t, size_t);

/* dlsym may ask for memory itself: it gets some of this. */
static char early[65536];
static size_t early_used;

static void *early_memory(size_t size) {
    size_t at = early_used;
    early_used += (size + 63) / 64 * 64;
    return early_used <= sizeof early ? early + at : NULL;
}

static int is_early(void *at) { return (char *)at >= early && (char *)at < early + sizeof early; }

__attribute__((constructor)) static void begin(void) {
    const char *number = getenv("REFUSE");
    first_calloc = dlsym(RTLD_NEXT, "calloc");
    first_realloc = dlsym(RTLD_NEXT, "realloc");
    first_memalign = dlsym(RTLD_NEXT, "posix_memalign");
    first_malloc = dlsym(RTLD_NEXT, "malloc");
    atomic_store(&made, 0);
    refused = number ? atol(number) : 0;
}

__attribute__((destructor)) static void end(void) {
    const char *name = getenv("REFUSED");
    char text[32];
    int file = name ? open(name, O_WRONLY | O_CREAT | O_TRUNC, 0600) : -1;
    if (file >= 0) {
        int size = snprintf(text, sizeof text, "%ld\n", atomic_load(&made));
        if (write(file, text, size) != size)
            syscall(SYS_exit_group, 99);
        close(file);
    }
}

/* A build that isn't proved ends so, past the destructor. */
void _exit(int status) {
    end();
    syscall(SYS_exit_group, status);
    __builtin_unreachable();
}

static int is_refused(void) {
    if (refused < 0 || atomic_fetch_add(&made, 1) + 1 != refused)
        return 0;
    errno = ENOMEM;
    return 1;
}

void *malloc(size_t size) { return !first_malloc ? early_memory(size) : is_refused() ? NULL : first_malloc(size); }

void *calloc(size_t count, size_t size) {
    return !first_calloc ? early_memory(count * size) : is_refused() ? NULL : first_calloc(count, size);
}

void *realloc(void *at, size_t size) {
    if (!first_realloc || is_early(at)) {
        void *to = malloc(size);
        if (to && at)
            memcpy(to, at, size);
        return to;
    }
    return is_refused() ? NULL : first_realloc(at, size);
}

int posix_memalign(void **to, size_t align, size_t size) { return is_refused() ? ENOMEM : first_memalign(to, align, size); }

void free(void *at) {
    static void (*first_free)(void *);
    if (!first_free)
        first_free = dlsym(RTLD_NEXT, "free");
    if (!is_early(at))
        first_free(at);
}
