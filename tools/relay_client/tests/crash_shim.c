// A file that crashes, for test_crashes.py, by LD_PRELOAD: the calls that write, sync or cut the file CRASH_FILE, or one whose name begins
// so, or that sync its folder, are counted, and the call of the number CRASH_AT, or each write if that is -1, is done as CRASH_HOW says:
//
//   before, after   the process is killed before it, or behind it
//   part            a write writes half of its bytes, and the process is killed; before any other call
//   short           a write writes half of its bytes, and all goes on
//   ENOSPC, EIO     it fails in this way and does nothing
//   EINTR           so too; of each write only every other one
//   half-ENOSPC     a write writes half of its bytes, and all later ones fail
//
// CRASH_LOG gets a line for each of these calls before it is done: its number, its name, how many bytes it is of, and whether it is of
// the `file`, of `another` file, or of the `folder`. A write of zeros alone, which are put ahead of what will be written, is called
// `zeros`, and is no write else. Behind a sync of the file that succeeded there is the line `synced BYTES`: how many bytes it had before it
// without the zeros at its end, so these are on the disk. Each sync of the file takes CRASH_SLOW milliseconds more.
#define _GNU_SOURCE
#include <errno.h>
#include <fcntl.h>
#include <limits.h>
#include <signal.h>
#include <stdio.h>
#include <stdlib.h>
#include <string.h>
#include <sys/syscall.h>
#include <sys/uio.h>
#include <unistd.h>

enum whose { NONE, THE_FILE, ANOTHER, FOLDER };
enum how { NOT, BEFORE, AFTER, PART, SHORT, FAILS, FILLS };

static const char *const WORDS[] = {"none", "file", "another", "folder"};
static const char *file, *how_word;
static char folder[PATH_MAX];
static long at, count, slow;
static int log_fd = -1, is_full, error;
static enum how how;

__attribute__((constructor)) static void begin(void) {
    const char *at_word = getenv("CRASH_AT"), *slow_word = getenv("CRASH_SLOW"), *log = getenv("CRASH_LOG");
    file = getenv("CRASH_FILE");
    how_word = getenv("CRASH_HOW");
    if (!file) return;
    snprintf(folder, sizeof folder, "%s", file);
    char *slash = strrchr(folder, '/');
    if (slash) *slash = 0;
    at = at_word ? atol(at_word) : 0;
    slow = slow_word ? atol(slow_word) : 0;
    if (log) log_fd = open(log, O_WRONLY | O_CREAT | O_APPEND | O_CLOEXEC, 0600);
    if (!how_word) return;
    error = strstr(how_word, "ENOSPC") ? ENOSPC : strstr(how_word, "EINTR") ? EINTR : EIO;
    how = !strcmp(how_word, "before") ? BEFORE : !strcmp(how_word, "after") ? AFTER : !strcmp(how_word, "part") ? PART
        : !strcmp(how_word, "short") ? SHORT : !strncmp(how_word, "half-", 5) ? FILLS : FAILS;
}

// Descriptors are known by the names of their files, however they were made.
static enum whose whose(int fd) {
    char link[32], name[PATH_MAX];
    if (!file) return NONE;
    snprintf(link, sizeof link, "/proc/self/fd/%d", fd);
    ssize_t length = readlink(link, name, sizeof name - 1);
    if (length < 0) return NONE;
    name[length] = 0;
    if (!strcmp(name, file)) return THE_FILE;
    if (!strcmp(name, folder)) return FOLDER;
    return strncmp(name, file, strlen(file)) ? NONE : ANOTHER;
}

static void note(const char *line, int length) {
    if (log_fd >= 0) syscall(SYS_write, log_fd, line, length);
}

static void die(void) {
    kill(getpid(), SIGKILL);
    for (;;) pause();
}

// Counts a call; what is to be done with it.
static enum how counted(const char *name, long size, enum whose of) {
    char line[128];
    long number = __sync_add_and_fetch(&count, 1);
    note(line, snprintf(line, sizeof line, "%ld %s %ld %s\n", number, name, size, WORDS[of]));
    if (at == -1 && strstr(name, "write")) {
        static int has_failed;
        has_failed = how == FAILS && !has_failed;
        return how == FAILS && !has_failed ? NOT : how;
    }
    if (number != at) return NOT;
    if (how == BEFORE || (how == PART && !strstr(name, "write") && strcmp(name, "zeros"))) die();
    return how;
}

static int are_zeros(const char *bytes, size_t size) {
    for (size_t i = 0; i < size; i++)
        if (bytes[i]) return 0;
    return size > 0;
}

// How many bytes the file has without the zeros at its end.
static long length_without_zeros(int fd) {
    char link[32], bytes[4096];
    long length = 0, before = 0;
    ssize_t n;
    snprintf(link, sizeof link, "/proc/self/fd/%d", fd);
    int again = syscall(SYS_openat, AT_FDCWD, link, O_RDONLY | O_CLOEXEC);
    while ((n = syscall(SYS_read, again, bytes, sizeof bytes)) > 0) {
        for (ssize_t i = 0; i < n; i++)
            if (bytes[i]) length = before + i + 1;
        before += n;
    }
    close(again);
    return length;
}

static ssize_t writes(int fd, const void *bytes, size_t size, const char *name, off_t place) {
    enum whose of = whose(fd);
    if (of == NONE) return place < 0 ? syscall(SYS_write, fd, bytes, size) : syscall(SYS_pwrite64, fd, bytes, size, place);
    enum how now = counted(are_zeros(bytes, size) ? "zeros" : name, size, of);
    if (is_full || now == FAILS) {
        errno = error;
        return -1;
    }
    if (now == FILLS) is_full = 1;
    if (now == PART || now == SHORT || now == FILLS) size = (size + 1) / 2;
    ssize_t done = place < 0 ? syscall(SYS_write, fd, bytes, size) : syscall(SYS_pwrite64, fd, bytes, size, place);
    if (now == PART || now == AFTER) die();
    return done;
}

ssize_t write(int fd, const void *bytes, size_t size) { return writes(fd, bytes, size, "write", -1); }

ssize_t pwrite(int fd, const void *bytes, size_t size, off_t place) { return writes(fd, bytes, size, "pwrite", place); }

ssize_t pwrite64(int fd, const void *bytes, size_t size, off_t place) { return writes(fd, bytes, size, "pwrite", place); }

// Of the file as one write of its first piece: whoever calls it has to go on behind what was written.
ssize_t writev(int fd, const struct iovec *pieces, int n) {
    if (whose(fd) == NONE) return syscall(SYS_writev, fd, pieces, n);
    while (n > 1 && pieces->iov_len == 0) pieces++, n--;
    return n > 0 ? writes(fd, pieces->iov_base, pieces->iov_len, "writev", -1) : 0;
}

static int syncs(int fd, const char *name, long call) {
    enum whose of = whose(fd);
    if (of == NONE) return syscall(call, fd);
    char line[64];
    long size = of == FOLDER ? 0 : length_without_zeros(fd);
    enum how now = counted(name, size, of);
    if (now == FAILS) {
        errno = error;
        return -1;
    }
    if (of == THE_FILE) usleep(1000 * slow);
    int done = syscall(call, fd);
    if (done == 0 && of == THE_FILE) note(line, snprintf(line, sizeof line, "synced %ld\n", size));
    if (now == AFTER) die();
    return done;
}

int fdatasync(int fd) { return syncs(fd, "fdatasync", SYS_fdatasync); }

int fsync(int fd) { return syncs(fd, "fsync", SYS_fsync); }

int ftruncate(int fd, off_t size) {
    enum whose of = whose(fd);
    if (of == NONE) return syscall(SYS_ftruncate, fd, size);
    enum how now = counted("ftruncate", size, of);
    if (now == FAILS) {
        errno = error;
        return -1;
    }
    int done = syscall(SYS_ftruncate, fd, size);
    if (now == AFTER) die();
    return done;
}

int ftruncate64(int fd, off_t size) { return ftruncate(fd, size); }
