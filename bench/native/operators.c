// The clients of bench/operators.py: an operator at a relay's main port, those who follow its board, and a crowd beside them.
//
//   operators PORT FOLLOWERS MOVES CROWD PEERS AHEAD
//
// The followers are one process with one epoll (peers.h), and so is the crowd, so that the operator's own process does nothing but wait for
// its answers. It sends each move 10 ms after the answer before. CROWD is what the PEERS beside do without end:
//
//   joins     each comes, follows the board, and goes once it is greeted or refused
//   comes     all come at once and shake hands, and go once each is answered; a quarter of a second later they come again
//   refused   each asks to follow the board, which is full, and asks again at each answer; AHEAD questions are on their way at a time
//   owns      all have the key of another board, send a move that is not legal there, and again at each answer; AHEAD are on their way
//   nobody    there are none
//
// Says `there` once all followers have joined, and goes on at a line on standard input. At the end all followers have all moves,
// or the status is 1. Then it says in JSON how long the operator waited for an answer, and how many of the crowd came or joined, and
// were refused, in a second.
#define _GNU_SOURCE
#include <signal.h>
#include <stdio.h>
#include <stdlib.h>
#include <string.h>
#include <sys/epoll.h>
#include <sys/mman.h>
#include <sys/prctl.h>
#include <sys/wait.h>
#include <unistd.h>

#include "peers.h"
#include "processes.h"

static const int PAUSE = 10000;  // microseconds between an answer and the next move
static const int MOST_SECONDS = 120;  // of a run: then it is lost, and so are the processes beside it

// What the processes tell one another.
static volatile struct {
    int there;  // followers that have joined
    long texts;  // that they have in all
    long joined, refused;
} *told;

static int listen_to(int poll, int fd, void *peer) {
    struct epoll_event e = {.events = EPOLLIN, .data.ptr = peer};
    return epoll_ctl(poll, EPOLL_CTL_ADD, fd, &e);
}

// ---- the others

static void follow(int count, int) {
    struct peer *peers = calloc(count, sizeof *peers);
    int poll = epoll_create1(0);
    for (int i = 0; i < count; i++) {
        peers[i] = follower();
        if (listen_to(poll, peers[i].fd, &peers[i])) die("epoll_ctl");
        told->there++;
    }
    for (;;) {
        struct epoll_event got[256];
        int n = epoll_wait(poll, got, 256, -1);
        for (int i = 0; i < n; i++) {
            struct peer *p = got[i].data.ptr;
            long before = p->texts;
            hears(p, 0);
            told->texts += p->texts - before;
        }
    }
}

struct newcomer {
    int fd, have;
    char came[1024];
};

static void come(struct newcomer *one, int poll) {
    char ask[512];
    size_t length = asking(ask, sizeof ask, 1);
    one->fd = dial(port);
    one->have = 0;
    put(one->fd, ask, length);
    if (listen_to(poll, one->fd, one)) die("epoll_ctl");
}

static void join_and_leave(int count, int) {
    struct newcomer *all = calloc(count, sizeof *all);
    int poll = epoll_create1(0);
    for (int i = 0; i < count; i++) come(&all[i], poll);
    for (;;) {
        struct epoll_event got[64];
        int n = epoll_wait(poll, got, 64, -1);
        for (int i = 0; i < n; i++) {
            struct newcomer *one = got[i].data.ptr;
            ssize_t came = read(one->fd, one->came + one->have, sizeof one->came - one->have);
            if (came <= 0) die("a newcomer");
            one->have += came;
            int follows = memmem(one->came, one->have, "\"following\"", 11) != NULL;
            if (!follows && !memmem(one->came, one->have, "\"refused\"", 9)) continue;
            told->joined += follows;
            told->refused += !follows;
            close(one->fd);
            come(one, poll);
        }
    }
}

// Reads what came to a newcomer. Returns whether it is all of the answer to its request.
static int is_answered(struct newcomer *one) {
    ssize_t came = read(one->fd, one->came + one->have, sizeof one->came - one->have);
    if (came <= 0) die("a newcomer");
    one->have += came;
    return one->have >= 4 && !memcmp(one->came + one->have - 4, "\r\n\r\n", 4);
}

static void come_and_go(int count, int) {
    struct newcomer *all = calloc(count, sizeof *all);
    int poll = epoll_create1(0);
    char ask[512];
    size_t length = request(ask, sizeof ask, "/");
    for (;;) {
        // The server is at the first address alone.
        dialled = 0;
        for (int i = 0; i < count; i++) {
            all[i] = (struct newcomer){.fd = dial(port)};
            put(all[i].fd, ask, length);
            if (listen_to(poll, all[i].fd, &all[i])) die("epoll_ctl");
        }
        for (int left = count; left > 0;) {
            struct epoll_event got[256];
            int n = epoll_wait(poll, got, 256, -1);
            for (int i = 0; i < n; i++) {
                if (!is_answered(got[i].data.ptr)) continue;
                left--;
                told->joined++;
            }
        }
        for (int i = 0; i < count; i++) close(all[i].fd);
        // The system keeps the ports of closed connections for a second.
        usleep(250000);
    }
}

// So many connections with this path send the text, and again at each answer, which has to have this word.
static void ask_in_vain(int count, int ahead, const char *path, const char *text, const char *word) {
    struct peer *peers = calloc(count, sizeof *peers);
    unsigned char frame[160];
    size_t length = ws_text(frame, text);
    int poll = epoll_create1(0);
    for (int i = 0; i < count; i++) {
        peers[i].fd = shake_hands(port, path);
        for (int k = 0; k < ahead; k++) put(peers[i].fd, frame, length);
        set_nonblocking(peers[i].fd);
        if (listen_to(poll, peers[i].fd, &peers[i])) die("epoll_ctl");
    }
    for (;;) {
        struct epoll_event got[64];
        int n = epoll_wait(poll, got, 64, -1);
        for (int i = 0; i < n; i++) {
            struct peer *p = got[i].data.ptr;
            long before = p->texts;
            hears(p, 0);
            if (p->texts > before && p->skip == 0 && !strstr(p->last, word)) die(p->last);
            told->refused += p->texts - before;
            for (; before < p->texts; before++) put(p->fd, frame, length);
        }
    }
}

static void be_refused(int count, int ahead) {
    char text[128];
    snprintf(text, sizeof text, "{\"cmd\":\"follow\",\"board\":\"%s\",\"spectator\":1}", name);
    ask_in_vain(count, ahead, "/", text, "TooManyFollowers");
}

static void own(int count, int ahead) {
    static const char path[] = "/?key=of-all-of-a-crowd", open[] = "{\"cmd\":\"open\",\"board\":\"owned\",\"start\":518}";
    unsigned char frame[160];
    struct peer first = {.fd = shake_hands(port, path)};
    put(first.fd, frame, ws_text(frame, open));
    while (first.texts < 1 || first.skip > 0) hears(&first, 0);
    ask_in_vain(count, ahead, path, "{\"cmd\":\"submit\",\"board\":\"owned\",\"move\":\"a1b8\"}", "Illegal");
}

// ---- the operator

static int by_size(const void *a, const void *b) {
    double x = *(const double *)a, y = *(const double *)b;
    return (x > y) - (x < y);
}

// How long it waited for each answer, in ascending order.
static double *play(struct peer *owner, int moves) {
    double *waited = calloc(moves, sizeof *waited);
    unsigned char frame[160];
    for (int ply = 0; ply < moves; ply++) {
        size_t length = publication(frame, ply);
        double sent = now();
        put(owner->fd, frame, length);
        do hears(owner, 0);
        while (owner->texts < ply + 2 || owner->skip > 0);
        waited[ply] = now() - sent;
        if (!strstr(owner->last, "played")) die(owner->last);
        usleep(PAUSE);
    }
    qsort(waited, moves, sizeof *waited, by_size);
    return waited;
}

static void wait_for_all(long texts) {
    for (double end = now() + 30; told->texts < texts; usleep(1000)) {
        if (now() < end) continue;
        fprintf(stderr, "followers have %ld texts of %ld\n", told->texts, texts);
        exit(1);
    }
}

// A process beside this one, which ends with it.
static int start(void (*what)(int, int), int first, int second) {
    int pid = fork();
    if (pid < 0) die("fork");
    if (pid > 0) return pid;
    prctl(PR_SET_PDEATHSIG, SIGKILL);
    what(first, second);
    exit(0);
}

static void nobody(int, int) { pause(); }

int main(int argc, char **argv) {
    if (argc != 7) {
        fprintf(stderr, "see the head of operators.c\n");
        return 2;
    }
    alarm(MOST_SECONDS);
    int count = atoi(argv[2]), moves = atoi(argv[3]);
    void (*crowd)(int, int) = nobody;
    if (!strcmp(argv[4], "joins")) crowd = join_and_leave;
    if (!strcmp(argv[4], "comes")) crowd = come_and_go;
    if (!strcmp(argv[4], "refused")) crowd = be_refused;
    if (!strcmp(argv[4], "owns")) crowd = own;
    port = follow_port = atoi(argv[1]);
    snprintf(name, sizeof name, "o%d", getpid());
    told = mmap(NULL, sizeof *told, PROT_READ | PROT_WRITE, MAP_SHARED | MAP_ANONYMOUS, -1, 0);
    if (told == MAP_FAILED) die("mmap");
    struct peer owner = publisher();
    start(follow, count, 0);
    for (double end = now() + 60; told->there < count; usleep(1000))
        if (now() > end) die("the followers did not come");
    puts("there");
    fflush(stdout);
    getchar();
    start(crowd, atoi(argv[5]), atoi(argv[6]));
    usleep(500000);
    long joined = told->joined, refused = told->refused;
    double began = now(), *waited = play(&owner, moves), took = now() - began;
    joined = told->joined - joined;
    refused = told->refused - refused;
    wait_for_all((long)count * moves);
    printf("{\"median_ms\": %.3f, \"p99_ms\": %.3f, \"most_ms\": %.3f, \"joined_a_second\": %.0f, \"refused_a_second\": %.0f}\n",
           waited[moves / 2] * 1e3, waited[moves * 99 / 100] * 1e3, waited[moves - 1] * 1e3, joined / took, refused / took);
    return 0;
}
