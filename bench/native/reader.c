// The reading client of bench/serving.py: the same for a relay, for nginx with nchan and for mosquitto, so that what is measured is the
// server. One thread and one epoll; a follower costs a read of what came and a walk over the heads of its frames.
//
//   reader burst KIND PORT FOLLOWERS MOVES PIDS   moves sent at once; prints deliveries, seconds, processor time, context switches, memory
//   reader turns KIND PORT FOLLOWERS MOVES PIDS   each move is sent when all followers had the one before
//   reader arrives KIND PORT FOLLOWERS MOVES PIDS the same, but nothing is read until the server rests:
//                                                 prints when the last one had each move
//   reader connects KIND PORT CONNECTIONS PIDS    connections opened and closed, 64 at a time; prints how many a second, processor time
//   reader rush KIND PORT JOININGS MOVES PIDS     the same of followers that come to a board of this many moves,
//                                                 and go once they are greeted
//   reader joins KIND PORT JOININGS MOVES PIDS    followers that join such a board all at once on connections that stand;
//                                                 prints what a joining takes
//   reader idle KIND PORT FOLLOWERS PIDS          followers that wait; prints the server's resident kilobytes before and with them
//
// KIND is relay, nchan or mosquitto. Of a relay PORT may be MAIN/WATCH: then followers watch at the second one. PIDS are the server's
// processes, separated by commas.
//
// In `arrives` the system stamps what comes to a follower with its time, so the reading client takes no part in what is measured. Its
// followers are in as many processes as their descriptors need.
#define _GNU_SOURCE
#include <poll.h>
#include <signal.h>
#include <stdio.h>
#include <stdlib.h>
#include <string.h>
#include <sys/epoll.h>
#include <sys/resource.h>
#include <sys/socket.h>
#include <sys/wait.h>
#include <time.h>
#include <unistd.h>

#include "peers.h"
#include "processes.h"

// The processor seconds of the server since then.
static double since(struct seconds then) {
    struct seconds now = spent_in_all();
    return now.own + now.system - then.own - then.system;
}

static void moves(int followers, int count, int at_once) {
    struct peer *peers = calloc(followers + 1, sizeof *peers);
    unsigned char *out = malloc((size_t)count * 160);
    size_t *ends = malloc((count + 1) * sizeof *ends), end = 0;
    peers[0] = publisher();
    set_nonblocking(peers[0].fd);
    long empty = resident();
    double began = now();
    struct seconds idle = spent_in_all();
    for (int i = 1; i <= followers; i++) {
        peers[i] = follower();
        look_after(peers, i + 1);
    }
    double joined = now() - began, joining = since(idle);
    for (int i = 0; i < count; i++) {
        end += publication(out + end, i);
        ends[i] = end;
    }
    int poll = epoll_create1(0);
    for (int i = 0; i <= followers; i++) {
        struct epoll_event e = {.events = EPOLLIN, .data.u32 = i};
        if (epoll_ctl(poll, EPOLL_CTL_ADD, peers[i].fd, &e)) die("epoll_ctl");
    }
    usleep(300000);
    long full = resident();
    struct spent before = spent();
    double start = now();
    size_t sent = 0;
    int ply = at_once ? count : 1;  // how many are sent, and had by all where done is followers
    int done = 0;
    for (;;) {
        while (sent < ends[ply - 1]) {
            ssize_t n = write(peers[0].fd, out + sent, ends[ply - 1] - sent);
            if (n < 0 && errno == EAGAIN) break;
            if (n <= 0) die("write");
            sent += n;
        }
        struct epoll_event got[256];
        int n = epoll_wait(poll, got, 256, sent < ends[ply - 1] ? 1 : 10000);
        if (n == 0 && sent == ends[ply - 1]) {
            fprintf(stderr, "nothing more came: %d of %d have %d texts\n", done, followers, ply);
            exit(1);
        }
        for (int i = 0; i < n; i++) {
            struct peer *p = &peers[got[i].data.u32];
            int had = hears(p, ply);
            done += had && p != peers;
        }
        if (done == followers) {
            if (ply == count) break;
            ply++;
            done = 0;
        }
    }
    double took = now() - start;
    struct spent after = spent();
    struct rusage own;
    getrusage(RUSAGE_SELF, &own);
    double all = (double)followers * count;
    printf("{\"deliveries\": %.0f, \"seconds\": %.6f, \"a_second\": %.0f, \"cpu_us\": %.3f, \"switches\": %.4f, \"client_seconds\": %.3f, ",
           all, took, all / took, (after.seconds - before.seconds) * 1e6 / all, (after.switches - before.switches) / all,
           own.ru_utime.tv_sec + own.ru_stime.tv_sec + (own.ru_utime.tv_usec + own.ru_stime.tv_usec) / 1e6);
    printf("\"joinings_a_second\": %.0f, \"joining_cpu_us\": %.1f, \"before_kb\": %ld, \"resident_kb\": %ld, \"bytes_each\": %.0f}\n",
           followers / joined, joining * 1e6 / followers, empty, full, (full - empty) * 1024. / followers);
}

// ---- when a move has arrived, the reading client left out

enum { MOST_A_PROCESS = 18000, MOST_PROCESSES = 64 };

static double real_time(void) {
    struct timespec t;
    clock_gettime(CLOCK_REALTIME, &t);
    return t.tv_sec + t.tv_nsec / 1e9;
}

static double later(double a, double b) { return a > b ? a : b; }

// Reads what has come; returns when the last of it came, as the system stamped it. Two frames may have one stamp, that of the second. So
// where a ping is the last one, nobody knows when the move before it came, and what is returned is 0.
static double stamped(struct peer *p) {
    union {
        char bytes[256];
        struct cmsghdr aligned;
    } told;
    double last = 0;
    for (;;) {
        struct iovec into = {chunk, sizeof chunk};
        struct msghdr m = {.msg_iov = &into, .msg_iovlen = 1, .msg_control = &told, .msg_controllen = sizeof told};
        ssize_t n = recvmsg(p->fd, &m, MSG_DONTWAIT);
        if (n < 0 && errno == EAGAIN) return p->ends_in_text ? last : 0;
        if (n <= 0) die("recvmsg");
        take(p, chunk, n);
        for (struct cmsghdr *c = CMSG_FIRSTHDR(&m); c; c = CMSG_NXTHDR(&m, c)) {
            struct timespec t;
            if (c->cmsg_level != SOL_SOCKET || c->cmsg_type != SCM_TIMESTAMPNS) continue;
            memcpy(&t, CMSG_DATA(c), sizeof t);
            last = t.tv_sec + t.tv_nsec / 1e9;
        }
    }
}

// Reads what has come to all of them, until each has this many texts; returns when the last of it came. Their pings are answered so.
static double stamped_of_all(struct peer *peers, int followers, int texts) {
    double last = 0;
    for (int i = 0; i < followers; i++) {
        last = later(last, stamped(&peers[i]));
        while (peers[i].texts < texts) {
            usleep(10000);
            last = later(last, stamped(&peers[i]));
        }
    }
    return last;
}

// Waits for a word, and answers pings of these meanwhile, who have this many texts. Returns when the last text came that was read so.
static double awaits(int words, struct peer *peers, int followers, int texts) {
    struct pollfd waited = {words, POLLIN, 0};
    double last = 0;
    while (!poll(&waited, 1, PING_SECONDS * 1000)) last = later(last, stamped_of_all(peers, followers, texts));
    return last;
}

// A process of followers. It says that they are there, and after each word of its parent when the last of them had the move.
static void part(int followers, int count, int words, int answers) {
    struct peer *peers = calloc(followers, sizeof *peers);
    double last = 0;
    for (int i = 0; i < followers; i++) {
        int one = 1;
        peers[i] = follower();
        if (setsockopt(peers[i].fd, SOL_SOCKET, SO_TIMESTAMPNS, &one, sizeof one)) die("stamps");
        look_after(peers, i + 1);
    }
    put(answers, &last, sizeof last);
    for (int ply = 0; ply < count; ply++) {
        char word;
        last = awaits(words, peers, followers, ply);
        if (read(words, &word, 1) != 1) exit(1);
        last = later(last, stamped_of_all(peers, followers, ply + 1));
        put(answers, &last, sizeof last);
    }
    char word;
    exit(read(words, &word, 1) == 1 ? 0 : 1);
}

static double last_of(int answers, int parts, struct peer *board) {
    double last = 0, one;
    for (int i = 0; i < parts; i++) {
        awaits(answers, board, 1, 0);
        if (read(answers, &one, sizeof one) != sizeof one) die("a process of followers ended");
        last = later(last, one);
    }
    return last;
}

// Waits until the server has taken less than a twentieth of a processor for a fifth of a second. Some of it looks around each second.
static void server_rests(void) {
    for (double before = spent().seconds, now;; before = now) {
        usleep(200000);
        now = spent().seconds;
        if (now - before < 0.01) return;
    }
}

static int in_order(const void *a, const void *b) { return *(double *)a < *(double *)b ? -1 : *(double *)a > *(double *)b; }

static void arrivals(int followers, int count) {
    int parts = (followers + MOST_A_PROCESS - 1) / MOST_A_PROCESS, words[MOST_PROCESSES][2], answers[2];
    double *took = malloc(count * sizeof *took), used = 0;
    unsigned char frame[160];
    if (parts > MOST_PROCESSES || count < 1) die("too many followers, or no move");
    struct peer board = publisher();
    long empty = resident();
    if (pipe(answers)) die("pipe");
    double began = now();
    struct seconds idle = spent_in_all();
    for (int i = 0; i < parts; i++) {
        if (pipe(words[i])) die("pipe");
        if (fork()) continue;
        for (int k = 0; k <= i; k++) close(words[k][1]);
        close(answers[0]);
        dialled = i * 20000;
        part(followers / parts + (i < followers % parts), count, words[i][0], answers[1]);
    }
    close(answers[1]);
    last_of(answers[0], parts, &board);
    double joined = now() - began, joining = since(idle);
    server_rests();
    long full = resident();
    for (int ply = 0; ply < count; ply++) {
        size_t length = publication(frame, ply);
        struct spent before = spent();
        double sent = real_time();
        put(board.fd, frame, length);
        if (kind == RELAY) read_text(&board);
        server_rests();
        used += spent().seconds - before.seconds;
        for (int i = 0; i < parts; i++) put(words[i][1], "m", 1);
        took[ply] = last_of(answers[0], parts, &board) - sent;
        if (took[ply] < 0) die("each follower had a ping after the move");
    }
    qsort(took, count, sizeof *took, in_order);
    printf("{\"followers\": %d, \"least_ms\": %.1f, \"median_ms\": %.1f, \"most_ms\": %.1f, \"cpu_us\": %.3f, ",
           followers, took[0] * 1e3, took[count / 2] * 1e3, took[count - 1] * 1e3, used * 1e6 / ((double)followers * count));
    printf("\"joinings_a_second\": %.0f, \"joining_cpu_us\": %.1f, \"before_kb\": %ld, \"resident_kb\": %ld, \"bytes_each\": %.0f}\n",
           followers / joined, joining * 1e6 / followers, empty, full, (full - empty) * 1024. / followers);
    fflush(stdout);
    for (int i = 0; i < parts; i++) put(words[i][1], "e", 1);
    while (wait(NULL) > 0) continue;
}

// Whether all has come that one asked for: the head, or the greeting after it.
static int is_answered(const char *text, int length, int joins) {
    static const char greeted[] = "\"reply\":\"following\"}", ended[] = "\r\n\r\n";
    const char *last = joins ? greeted : ended;
    int n = strlen(last);
    if (length < n || memcmp(text + length - n, last, n)) return 0;
    if (memcmp(text, "HTTP/1.1 101", 12)) die("no upgrade");
    return 1;
}

// Beside them some peers wait.
static void connects(int count, int joins, struct peer *waiting, int waiting_count) {
    enum { MOST = 64 };
    static struct {
        int fd, at;
        char text[1024];
    } open[MOST];
    char ask[512];
    size_t length = asking(ask, sizeof ask, joins);
    int poll = epoll_create1(0), started = 0, ended = 0;
    struct seconds before = spent_in_all();
    double start = now();
    for (int i = 0; i < MOST && started < count; i++, started++) {
        struct epoll_event e = {.events = EPOLLIN, .data.u32 = i};
        open[i].fd = dial(follow_port);
        put(open[i].fd, ask, length);
        epoll_ctl(poll, EPOLL_CTL_ADD, open[i].fd, &e);
    }
    while (ended < count) {
        struct epoll_event got[MOST];
        int n = epoll_wait(poll, got, MOST, 10000);
        if (n <= 0) die("nothing more came");
        look_after(waiting, waiting_count);
        for (int k = 0; k < n; k++) {
            int i = got[k].data.u32;
            ssize_t came = read(open[i].fd, open[i].text + open[i].at, sizeof open[i].text - open[i].at);
            if (came <= 0) die("handshake");
            open[i].at += came;
            if (!is_answered(open[i].text, open[i].at, joins)) continue;
            ended++;
            close(open[i].fd);
            open[i].at = 0;
            if (started == count) continue;
            started++;
            struct epoll_event e = {.events = EPOLLIN, .data.u32 = i};
            open[i].fd = dial(follow_port);
            put(open[i].fd, ask, length);
            epoll_ctl(poll, EPOLL_CTL_ADD, open[i].fd, &e);
        }
    }
    double took = now() - start;
    usleep(500000);
    printf("{\"connections\": %d, \"seconds\": %.3f, \"a_second\": %.0f, \"cpu_us\": %.1f, \"own_us\": %.1f, \"resident_kb\": %ld}\n",
           count, took, count / took, since(before) * 1e6 / count, (spent_in_all().own - before.own) * 1e6 / count, resident());
}

// A board with this many moves, and a follower of it that stays, so that it is watched all the time.
static void board_with_moves(struct peer waiting[2], int count) {
    unsigned char frame[160];
    if (kind != RELAY) die("only a relay tells who joined");
    waiting[0] = publisher();
    for (int ply = 0; ply < count; ply++) {
        put(waiting[0].fd, frame, publication(frame, ply));
        read_text(&waiting[0]);
    }
    set_nonblocking(waiting[0].fd);
    waiting[1] = follower();
}

// Followers that come at once to a board with this many moves.
static void rush(int joinings, int count) {
    struct peer waiting[2];
    board_with_moves(waiting, count);
    connects(joinings, 1, waiting, 2);
}

// These ask at once, and are waited for until each is greeted.
static void join_all(struct peer *peers, int count) {
    char text[128];
    unsigned char frame[160];
    snprintf(text, sizeof text, "{\"cmd\":\"follow\",\"board\":\"%s\",\"spectator\":1}", name);
    size_t length = ws_text(frame, text);
    for (int i = 0; i < count; i++) put(peers[i].fd, frame, length);
    for (int i = 0; i < count; i++) {
        read_text(&peers[i]);
        if (!strstr(peers[i].last, "following")) die(peers[i].last);
    }
}

// What a joining takes by itself. The connections stand before it is measured, as many at once as a process may have, and go after it.
static void joins(int joinings, int count) {
    struct peer waiting[2], *peers = calloc(MOST_A_PROCESS, sizeof *peers);
    struct seconds used = {0, 0};
    double took = 0;
    board_with_moves(waiting, count);
    for (int done = 0, some; done < joinings; done += some) {
        some = joinings - done < MOST_A_PROCESS ? joinings - done : MOST_A_PROCESS;
        for (int i = 0; i < some; i++) peers[i] = (struct peer){.fd = shake_hands(follow_port, "/")};
        server_rests();
        struct seconds before = spent_in_all();
        double start = now();
        join_all(peers, some);
        took += now() - start;
        server_rests();
        struct seconds after = spent_in_all();
        used.own += after.own - before.own;
        used.system += after.system - before.system;
        for (int i = 0; i < some; i++) close(peers[i].fd);
        server_rests();
        look_after(waiting, 2);
    }
    printf("{\"joinings\": %d, \"a_second\": %.0f, \"cpu_us\": %.1f, \"own_us\": %.1f}\n",
           joinings, joinings / took, (used.own + used.system) * 1e6 / joinings, used.own * 1e6 / joinings);
}

static void idle(int followers) {
    enum { MOST_A_BOARD = 1000 };
    struct peer *peers = calloc(followers + followers / MOST_A_BOARD + 1, sizeof *peers);
    int count = 0;
    long before = resident();
    for (int i = 0; i < followers; i++) {
        if (i % MOST_A_BOARD == 0) {
            snprintf(name, sizeof name, "r%d_%d", getpid(), i);
            peers[count] = publisher();
            set_nonblocking(peers[count++].fd);
        }
        peers[count++] = follower();
        look_after(peers, count);
    }
    usleep(500000);
    printf("{\"followers\": %d, \"resident_kb\": %ld, \"before_kb\": %ld}\n", followers, resident(), before);
}

int main(int argc, char **argv) {
    if (argc < 6) {
        fprintf(stderr, "see the head of reader.c\n");
        return 2;
    }
    struct rlimit most;
    getrlimit(RLIMIT_NOFILE, &most);
    most.rlim_cur = most.rlim_max;
    setrlimit(RLIMIT_NOFILE, &most);
    signal(SIGPIPE, SIG_IGN);
    kind = !strcmp(argv[2], "relay") ? RELAY : !strcmp(argv[2], "nchan") ? NCHAN : MOSQUITTO;
    port = atoi(argv[3]);
    follow_port = strchr(argv[3], '/') ? atoi(strchr(argv[3], '/') + 1) : port;
    pids = argv[argc - 1];
    snprintf(name, sizeof name, "r%d", getpid());
    int first = atoi(argv[4]);
    if (!strcmp(argv[1], "connects")) connects(first, 0, NULL, 0);
    else if (!strcmp(argv[1], "rush")) rush(first, atoi(argv[5]));
    else if (!strcmp(argv[1], "joins")) joins(first, atoi(argv[5]));
    else if (!strcmp(argv[1], "idle")) idle(first);
    else if (!strcmp(argv[1], "arrives")) arrivals(first, atoi(argv[5]));
    else moves(first, atoi(argv[5]), !strcmp(argv[1], "burst"));
    return 0;
}
