/* For LD_PRELOAD: each sync of a file takes SLOW microseconds more, as on a disk that is that much slower. Where SYNCED is set, the file that it names holds how many syncs
   there were, once the program ends. */
#define _GNU_SOURCE
#include <dlfcn.h>
#include <stdatomic.h>
#include <stdio.h>
#include <stdlib.h>
#include <sys/syscall.h>
#include <time.h>
#include <unistd.h>

static long more = -1;
static atomic_long many;

static int slowly(const char *name, int file) {
    if (more < 0) {
        const char *text = getenv("SLOW");
        more = text ? atol(text) : 0;
    }
    atomic_fetch_add(&many, 1);
    if (more > 0) {
        struct timespec time = {more / 1000000, more % 1000000 * 1000};
        nanosleep(&time, NULL);
    }
    return ((int (*)(int))dlsym(RTLD_NEXT, name))(file);
}

int fsync(int file) { return slowly("fsync", file); }

int fdatasync(int file) { return slowly("fdatasync", file); }

__attribute__((destructor)) static void tell(void) {
    const char *path = getenv("SYNCED");
    FILE *out = path ? fopen(path, "w") : NULL;
    if (out) {
        fprintf(out, "%ld\n", atomic_load(&many));
        fclose(out);
    }
}

/* A build that isn't proved ends so, past the destructor. */
void _exit(int status) {
    tell();
    syscall(SYS_exit_group, status);
    __builtin_unreachable();
}
