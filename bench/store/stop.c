/* Stops a program at one of the writes to its files: LD_PRELOAD it, with the number of the call in STOP (from 1; 0: at none), the front
   of the files' paths in STOPPED, and in KEPT how much of that write is made: `none`, `half` or `whole` of it. Writes are pwrite,
   ftruncate, fsync and fdatasync of these files, counted together. At each sync the file's bytes are copied to its path with `.synced`
   behind it, which is what is left where all that was written later is lost. At the end the number of calls stands in the file CALLS. */
#define _GNU_SOURCE
#include <dlfcn.h>
#include <fcntl.h>
#include <stdio.h>
#include <stdlib.h>
#include <string.h>
#include <sys/syscall.h>
#include <unistd.h>

static long made;

static int path_of(int file, char *to, size_t size) {
    const char *front = getenv("STOPPED");
    char link[64];
    snprintf(link, sizeof link, "/proc/self/fd/%d", file);
    ssize_t len = readlink(link, to, size - 1);
    if (!front || len < 0)
        return 0;
    to[len] = 0;
    return strncmp(to, front, strlen(front)) == 0;
}

static void told(void) {
    const char *name = getenv("CALLS");
    char text[32];
    int size = snprintf(text, sizeof text, "%ld\n", made);
    int file = name ? syscall(SYS_open, name, O_WRONLY | O_CREAT | O_TRUNC, 0600) : -1;
    if (file >= 0 && syscall(SYS_write, file, text, size) != size)
        syscall(SYS_exit_group, 99);
}

__attribute__((destructor)) static void end(void) { told(); }

/* A build that isn't proved ends so, past the destructor. */
void _exit(int status) {
    told();
    syscall(SYS_exit_group, status);
    __builtin_unreachable();
}

/* Whether the program stops at this call of a file. */
static int stops(int file) {
    char path[4096];
    if (!path_of(file, path, sizeof path))
        return 0;
    made++;
    return made == atol(getenv("STOP") ? getenv("STOP") : "0");
}

static void stop(void) {
    told();
    syscall(SYS_exit_group, 77);
}

ssize_t pwrite(int file, const void *bytes, size_t size, off_t at) {
    if (stops(file)) {
        const char *kept = getenv("KEPT");
        size_t part = !kept || !strcmp(kept, "none") ? 0 : !strcmp(kept, "half") ? size / 2 : size;
        if (part && syscall(SYS_pwrite64, file, bytes, part, at) != (long)part)
            syscall(SYS_exit_group, 99);
        stop();
    }
    return syscall(SYS_pwrite64, file, bytes, size, at);
}

int ftruncate(int file, off_t size) {
    if (stops(file)) {
        if (getenv("KEPT") && !strcmp(getenv("KEPT"), "whole") && syscall(SYS_ftruncate, file, size) != 0)
            syscall(SYS_exit_group, 99);
        stop();
    }
    return syscall(SYS_ftruncate, file, size);
}

static void synced(int file) {
    char path[4096], to[4200], bytes[65536];
    if (!path_of(file, path, sizeof path))
        return;
    snprintf(to, sizeof to, "%s.synced", path);
    int out = syscall(SYS_open, to, O_WRONLY | O_CREAT | O_TRUNC, 0600);
    off_t at = 0;
    for (ssize_t size; (size = syscall(SYS_pread64, file, bytes, sizeof bytes, at)) > 0; at += size)
        if (syscall(SYS_write, out, bytes, size) != size)
            syscall(SYS_exit_group, 99);
    close(out);
}

static int sync_file(long call, int file) {
    if (stops(file)) {
        if (getenv("KEPT") && !strcmp(getenv("KEPT"), "whole"))
            synced(file);
        stop();
    }
    synced(file);
    return syscall(call, file);
}

int fsync(int file) { return sync_file(SYS_fsync, file); }

int fdatasync(int file) { return sync_file(SYS_fdatasync, file); }
