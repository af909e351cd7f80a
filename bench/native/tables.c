// Preloaded into the program, gives each thread that waits by epoll a table of descriptors of its own, a copy of the one that it shared
// until then. So each loop of the watch port has as many descriptors as the system allows a process (ulimit -Hn), and a crowd can be
// measured that is too large for one table. Nothing else changes: a loop uses only what there was when it began, and what it opens itself.
#define _GNU_SOURCE
#include <dlfcn.h>
#include <sched.h>
#include <stdio.h>
#include <stdlib.h>
#include <sys/epoll.h>

int epoll_wait(int poll, struct epoll_event *events, int most, int timeout) {
    static int (*system_call)(int, struct epoll_event *, int, int);
    static __thread int has_own;
    if (!has_own) {
        if (!system_call) *(void **)&system_call = dlsym(RTLD_NEXT, "epoll_wait");
        if (unshare(CLONE_FILES)) {
            perror("a table of descriptors for a thread");
            abort();
        }
        has_own = 1;
    }
    return system_call(poll, events, most, timeout);
}
