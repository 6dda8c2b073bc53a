/* Ends a program by a signal where it takes more than it may: LD_PRELOAD it, or beneath AFL++ AFL_PRELOAD. Each process that it forks,
   as AFL++ does for each run, may take so many seconds of processor time as SECONDS says, and gets SIGXCPU then; and one that has
   taken more than so many megabytes (of 10^6 bytes) as MEGABYTES says gets SIGABRT at its end. */
#include <pthread.h>
#include <stdlib.h>
#include <sys/resource.h>
#include <sys/syscall.h>
#include <unistd.h>

static long seconds, megabytes;

static void in_child(void) {
    struct rlimit limit = {seconds, seconds + 1};
    setrlimit(RLIMIT_CPU, &limit);
}

static long number(const char *name) {
    const char *text = getenv(name);
    return text ? atol(text) : 0;
}

__attribute__((constructor)) static void begin(void) {
    seconds = number("SECONDS"), megabytes = number("MEGABYTES");
    if (seconds)
        pthread_atfork(NULL, NULL, in_child);
}

__attribute__((destructor)) static void end(void) {
    struct rusage used;
    if (megabytes && !getrusage(RUSAGE_SELF, &used) && used.ru_maxrss > megabytes * 1000000 / 1024)
        abort();
}

/* A build that isn't proved ends so, past the destructor. */
void _exit(int status) {
    end();
    syscall(SYS_exit_group, status);
    __builtin_unreachable();
}
