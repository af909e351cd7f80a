// An allocator for bench/refusals.py, by LD_PRELOAD: the allocation of the number REFUSED is refused once, all others are the C
// library's. If that happens, the file MARK is made.
//
// Where SHEET names a file, the numbers in it say which one is refused, and only the allocations of a port's loop count. So one server may
// be refused one after another. The loop's thread is one that has waited for epoll: where LOOP is set the process's first thread, which is
// the loop of the main port, and otherwise any other one. The loops of those who follow on the main port have waited too, but nobody
// follows there then.
#define _GNU_SOURCE
#include <errno.h>
#include <fcntl.h>
#include <stdlib.h>
#include <sys/epoll.h>
#include <sys/mman.h>
#include <unistd.h>

extern void *__libc_malloc(size_t);
extern void *__libc_calloc(size_t, size_t);
extern void *__libc_realloc(void *, size_t);
extern void *__libc_memalign(size_t, size_t);

struct sheet {
    long refused;  // the number of the allocation that is refused, 0 for none
    long asked;    // how many were asked for since that was written
    long waits;    // whether the loop waits
};

static long count;
static struct sheet *sheet;
static int is_of_main;
// Found without a call, which would ask for memory itself.
static __thread int is_loop __attribute__((tls_model("initial-exec")));

__attribute__((constructor)) static void open_sheet(void) {
    const char *path = getenv("SHEET");
    if (!path) return;
    is_of_main = getenv("LOOP") != NULL;
    int file = open(path, O_RDWR);
    sheet = mmap(NULL, sizeof *sheet, PROT_READ | PROT_WRITE, MAP_SHARED, file, 0);
    if (sheet == MAP_FAILED) abort();
    close(file);
}

int epoll_wait(int poll, struct epoll_event *events, int most, int timeout) {
    is_loop = is_of_main == (gettid() == getpid());
    if (sheet && is_loop) sheet->waits = 1;
    int ready = epoll_pwait(poll, events, most, timeout, NULL);
    if (sheet && is_loop) sheet->waits = 0;
    return ready;
}

static int is_refused_of_sheet(void) {
    if (!is_loop || __sync_add_and_fetch(&sheet->asked, 1) != sheet->refused) return 0;
    errno = ENOMEM;
    return 1;
}

static int is_refused(void) {
    if (sheet) return is_refused_of_sheet();
    static long refused = -1;
    if (refused < 0) {
        const char *text = getenv("REFUSED");
        refused = text ? atol(text) : 0;
    }
    if (__sync_add_and_fetch(&count, 1) != refused) return 0;
    const char *mark = getenv("MARK");
    if (mark) close(creat(mark, 0600));
    errno = ENOMEM;
    return 1;
}

void *malloc(size_t size) { return is_refused() ? NULL : __libc_malloc(size); }

void *calloc(size_t n, size_t size) { return is_refused() ? NULL : __libc_calloc(n, size); }

void *realloc(void *old, size_t size) { return is_refused() ? NULL : __libc_realloc(old, size); }

void *aligned_alloc(size_t align, size_t size) { return is_refused() ? NULL : __libc_memalign(align, size); }

int posix_memalign(void **to, size_t align, size_t size) {
    if (is_refused()) return ENOMEM;
    *to = __libc_memalign(align, size);
    return *to ? 0 : ENOMEM;
}
