// The spectators of bench/soak.py, which compare all that they are sent.
//
//   spectators PORT BOARDS COUNT GAME [again]
//
// The boards s0, s1 .. play the same game. GAME is a file with a line for each place: the position before its move as a FEN, a tab, and the
// move; the last line has no move. Before the games end, as agreed, their length comes on standard input. Of ten spectators of a board
//
//   seven read everything as it comes, some of them from the first place on, the others from now on;
//   one has a small buffer, reads slowly from the first place on, and comes again from there once it has nearly all;
//   two end their connections after a while, or reset them, and come again from the place that they wait for.
//
// Says `there` once all have joined. Once all have had the end it says in JSON what was compared and how late the moves came to those who
// read as they come, after the first of them had each. A text that is not the next one of its board, or a connection that ends otherwise,
// is reported on standard error, and the status is 1. With `again` a connection may end at any time, since the server is killed and started
// again: who was on it comes again from the place that it waits for, as soon as there is a server.
#define _GNU_SOURCE
#include <arpa/inet.h>
#include <errno.h>
#include <fcntl.h>
#include <netinet/tcp.h>
#include <signal.h>
#include <stdio.h>
#include <stdlib.h>
#include <string.h>
#include <sys/epoll.h>
#include <sys/resource.h>
#include <time.h>
#include <unistd.h>

enum { MOST_PLIES = 16384, SLOW_BYTES = 512, SLOW_ROOM = 16384, MOST_JOINING = 50 };
static const double SLOW_SECONDS = 0.02;

enum kind { READS, SLOW, COMES_AGAIN };
enum stage { IS_AWAY, SHAKES_HANDS, JOINS, WATCHES, IS_OVER, IS_DONE };

struct spectator {
    int fd, board;
    enum kind kind;
    enum stage stage;
    int asked;  // the place that it asked for, or -1
    int next;   // the place of the move that it waits for
    int has_joined;
    double came_at, leaves_at;
    int have;
    unsigned char bytes[1024];
};

static int port, boards, count, plies, poll_fd;
static char *fens[MOST_PLIES + 1], *moves[MOST_PLIES];
static struct spectator *spectators;
static double *had_first;  // by board and place: when the first one had the move
static long compared, joinings, pings, late_count;
static double most_late, all_late;
static int there, done, comes_again;
static long losses, early;

static void die(const char *what) {
    perror(what);
    exit(1);
}

static double now(void) {
    struct timespec t;
    clock_gettime(CLOCK_MONOTONIC, &t);
    return t.tv_sec + t.tv_nsec / 1e9;
}

static void wrong(const struct spectator *s, const char *what) {
    fprintf(stderr, "spectator %ld of board s%d, kind %d, at stage %d, %.3f s after it came, waiting for place %d: %s\n",
            (long)(s - spectators), s->board, s->kind, s->stage, now() - s->came_at, s->next, what);
    exit(1);
}

// ---- the game

static void read_game(const char *path) {
    FILE *file = fopen(path, "r");
    char *line = NULL;
    size_t room = 0;
    ssize_t length;
    if (!file) die(path);
    for (int at = 0; (length = getline(&line, &room, file)) > 0; at++) {
        if (line[length - 1] == '\n') line[length - 1] = 0;
        char *tab = strchr(line, '\t');
        if (tab) *tab = 0;
        fens[at] = strdup(line);
        if (!tab) break;
        moves[at] = strdup(tab + 1);
        plies = at + 1;
    }
    fclose(file);
}

// The length of the games, which came before the first of them ended.
static int length_told(void) {
    static int length = -1;
    if (length < 0 && scanf("%d", &length) != 1) die("the length of the games");
    return length;
}

// ---- coming and going

// There are some 28,000 ports of the own machine for connections to one address of loopback, so of many each 20,000 go to another one.
// Negative if nobody listens there.
static int dial(int room) {
    static long dialled;
    struct sockaddr_in to = {.sin_family = AF_INET, .sin_port = htons(port),
                             .sin_addr.s_addr = htonl(INADDR_LOOPBACK + dialled++ / 20000 % 200)};
    int fd = socket(AF_INET, SOCK_STREAM, 0), one = 1, segment = 536;
    if (fd < 0) die("socket");
    // One with little room takes short segments. Of long ones none would fit, and the other side would ask for room ever more rarely.
    if (room) setsockopt(fd, SOL_SOCKET, SO_RCVBUF, &room, sizeof room), setsockopt(fd, IPPROTO_TCP, TCP_MAXSEG, &segment, sizeof segment);
    setsockopt(fd, IPPROTO_TCP, TCP_NODELAY, &one, sizeof one);
    if (!connect(fd, (struct sockaddr *)&to, sizeof to)) return fd;
    if (!comes_again) die("connect");
    close(fd);
    return -1;
}

static void comes(struct spectator *s, int from) {
    char text[128], sent[512];
    int n = snprintf(sent, sizeof sent,
                     "GET / HTTP/1.1\r\nHost: a\r\nUpgrade: websocket\r\nConnection: Upgrade\r\n"
                     "Sec-WebSocket-Key: dGhlIHNhbXBsZSBub25jZQ==\r\nSec-WebSocket-Version: 13\r\n\r\n");
    int length = snprintf(text, sizeof text, "{\"cmd\":\"follow\",\"board\":\"s%d\",\"spectator\":1}", s->board);
    if (from >= 0) length = snprintf(text, sizeof text, "{\"cmd\":\"follow\",\"board\":\"s%d\",\"spectator\":1,\"from\":%d}",
                                     s->board, from);
    sent[n++] = (char)0x81;
    sent[n++] = (char)(0x80 | length);
    memset(sent + n, 0, 4);  // the mask
    memcpy(sent + n + 4, text, length);
    n += 4 + length;
    s->stage = IS_AWAY;
    s->asked = from;
    s->have = 0;
    s->came_at = now();
    s->leaves_at = s->came_at + 5 + rand() % 20000 / 1000.;
    s->fd = dial(s->kind == SLOW ? SLOW_ROOM : 0);
    if (s->fd < 0) return;
    if (write(s->fd, sent, n) != n) {
        if (!comes_again) die("write");
        close(s->fd);
        return;
    }
    fcntl(s->fd, F_SETFL, O_NONBLOCK);
    s->stage = SHAKES_HANDS;
    joinings++;
    if (s->kind == SLOW) return;
    struct epoll_event e = {.events = EPOLLIN, .data.u32 = s - spectators};
    if (epoll_ctl(poll_fd, EPOLL_CTL_ADD, s->fd, &e)) die("epoll_ctl");
}

static void goes(struct spectator *s) {
    struct linger reset = {1, 0};
    if (s->kind == COMES_AGAIN && rand() % 2) setsockopt(s->fd, SOL_SOCKET, SO_LINGER, &reset, sizeof reset);
    close(s->fd);
}

// ---- comparing

static void is(struct spectator *s, const char *text, const char *wanted) {
    char said[700];
    if (!strcmp(text, wanted)) return;
    snprintf(said, sizeof said, "%s came, and not %s", text, wanted);
    wrong(s, said);
}

static void is_greeted(struct spectator *s, const char *text) {
    char wanted[300];
    if (comes_again && strstr(text, "\"NoSuchBoard\"")) {
        // A server that was just started has not told the watch port of all boards yet.
        early++;
        close(s->fd);
        s->stage = IS_AWAY;
        return;
    }
    const char *joined = strstr(text, "\"joined\":");
    int place = joined ? atoi(joined + 9) : -1;
    if (place < 0 || place > plies || (s->asked >= 0 && place != s->asked)) wrong(s, text);
    snprintf(wanted, sizeof wanted, "{\"fen\":\"%s\",\"joined\":%d,\"reply\":\"following\"}", fens[place], place);
    is(s, text, wanted);
    s->next = place;
    s->stage = WATCHES;
    there += !s->has_joined;
    s->has_joined = 1;
    if (there == count) {
        there++;
        puts("there");
        fflush(stdout);
    }
}

static void is_late(struct spectator *s) {
    double *first = &had_first[s->board * MOST_PLIES + s->next];
    if (s->kind != READS || s->asked >= 0) return;
    if (!*first) *first = now();
    double late = now() - *first;
    most_late = late > most_late ? late : most_late;
    all_late += late;
    late_count++;
}

static void is_told(struct spectator *s, const char *text) {
    char wanted[300];
    if (s->stage == JOINS) return is_greeted(s, text);
    if (s->stage != WATCHES) wrong(s, text);
    if (strstr(text, "\"over\"")) {
        if (s->next != length_told()) wrong(s, "the end came");
        is(s, text, "{\"outcome\":\"agreed\",\"reply\":\"over\"}");
        s->stage = IS_OVER;
        return;
    }
    if (s->next == plies) wrong(s, text);
    snprintf(wanted, sizeof wanted, "{\"move\":\"%s\",\"place\":%d,\"reply\":\"move\"}", moves[s->next], s->next);
    is(s, text, wanted);
    is_late(s);
    s->next++;
    compared++;
}

static void is_closed(struct spectator *s, const unsigned char *payload, int length) {
    if (s->stage != IS_OVER || length != 2 || (payload[0] << 8 | payload[1]) != 1000) wrong(s, "a close came");
    s->stage = IS_DONE;
    close(s->fd);
    done++;
}

// Takes the frame at the front of what came; returns how many bytes it has, or 0 if it is not whole.
static int take_frame(struct spectator *s, const unsigned char *bytes, int n) {
    char text[300];
    if (n < 2) return 0;
    int length = bytes[1] & 0x7f, at = 2;
    if (length == 126) {
        if (n < 4) return 0;
        length = bytes[2] << 8 | bytes[3];
        at = 4;
    }
    if (length >= (int)sizeof text) wrong(s, "a frame that is too long");
    if (n < at + length) return 0;
    memcpy(text, bytes + at, length);
    text[length] = 0;
    if (bytes[0] == 0x81) {
        is_told(s, text);
    } else if (bytes[0] == 0x89) {
        static const unsigned char pong[] = {0x8a, 0x80, 0, 0, 0, 0};
        if (length) wrong(s, "a ping with a payload");
        if (write(s->fd, pong, sizeof pong) < 0 && errno != EAGAIN && !comes_again) die("pong");
        pings++;
    } else if (bytes[0] == 0x88) {
        is_closed(s, bytes + at, length);
    } else {
        wrong(s, "a frame of another kind");
    }
    return at + length;
}

static int take_head(struct spectator *s) {
    unsigned char *end = memmem(s->bytes, s->have, "\r\n\r\n", 4);
    if (!end) return 0;
    if (memcmp(s->bytes, "HTTP/1.1 101 ", 13)) wrong(s, "no upgrade");
    s->stage = JOINS;
    return end + 4 - s->bytes;
}

static void take_all(struct spectator *s) {
    int at = 0;
    while (s->stage != IS_DONE && s->stage != IS_AWAY) {
        int taken = s->stage == SHAKES_HANDS ? take_head(s) : take_frame(s, s->bytes + at, s->have - at);
        if (!taken) break;
        at += taken;
    }
    memmove(s->bytes, s->bytes + at, s->have - at);
    s->have -= at;
}

// The server is gone. Who has had the end is through.
static void is_lost(struct spectator *s) {
    close(s->fd);
    losses++;
    if (s->stage == IS_OVER) {
        s->stage = IS_DONE;
        done++;
        return;
    }
    if (s->stage == WATCHES) s->asked = s->next;
    s->stage = IS_AWAY;
}

static void lost_ones_come(void) {
    static double due;
    if (!comes_again || now() < due) return;
    due = now() + 0.1;
    for (struct spectator *s = spectators; s < spectators + count; s++)
        if (s->stage == IS_AWAY && s->came_at) comes(s, s->asked);
}

// Reads once; returns whether something came.
static int reads(struct spectator *s, int most) {
    if (s->stage == IS_AWAY) return 0;
    int room = (int)sizeof s->bytes - s->have;
    ssize_t n = read(s->fd, s->bytes + s->have, most < room ? most : room);
    if (n < 0 && errno == EAGAIN) return 0;
    if (n <= 0 && comes_again) {
        is_lost(s);
        return 0;
    }
    if (n <= 0) wrong(s, n ? strerror(errno) : "the connection ended");
    s->have += n;
    take_all(s);
    return s->stage != IS_DONE;
}

// ---- time

static void slow_ones_read(void) {
    static double due;
    if (now() < due) return;
    due = now() + SLOW_SECONDS;
    for (struct spectator *s = spectators; s < spectators + count; s++) {
        if (s->kind != SLOW || s->fd <= 0 || s->stage == IS_AWAY || s->stage == IS_DONE) continue;
        reads(s, SLOW_BYTES);
        // It has nearly all that was played by then, so it begins again, until the games have ended.
        if (!done && s->stage == WATCHES && s->next > 200 && !had_first[s->board * MOST_PLIES + s->next + 20]) {
            goes(s);
            comes(s, 0);
        }
    }
}

static void others_go_and_come(void) {
    static double due;
    if (now() < due) return;
    due = now() + 0.1;
    for (struct spectator *s = spectators; s < spectators + count; s++) {
        if (s->kind != COMES_AGAIN || s->stage != WATCHES || now() < s->leaves_at) continue;
        goes(s);
        comes(s, s->next);
    }
}

static void take_turn(void) {
    struct epoll_event got[256];
    int n = epoll_wait(poll_fd, got, 256, 10);
    for (int k = 0; k < n; k++) reads(&spectators[got[k].data.u32], sizeof spectators->bytes);
    slow_ones_read();
    lost_ones_come();
    if (there > count) others_go_and_come();
}

static enum kind kind_of(int at) {
    int turn = at / boards % 10;
    return turn < 7 ? READS : turn < 8 ? SLOW : COMES_AGAIN;
}

int main(int argc, char **argv) {
    if (argc != 5 && argc != 6) {
        fprintf(stderr, "see the head of spectators.c\n");
        return 2;
    }
    struct rlimit most;
    getrlimit(RLIMIT_NOFILE, &most);
    most.rlim_cur = most.rlim_max;
    setrlimit(RLIMIT_NOFILE, &most);
    port = atoi(argv[1]);
    boards = atoi(argv[2]);
    count = atoi(argv[3]);
    comes_again = argc == 6;
    signal(SIGPIPE, comes_again ? SIG_IGN : SIG_DFL);
    read_game(argv[4]);
    spectators = calloc(count, sizeof *spectators);
    had_first = calloc((size_t)boards * MOST_PLIES, sizeof *had_first);
    poll_fd = epoll_create1(0);
    for (int at = 0; at < count; at++) {
        struct spectator *s = &spectators[at];
        s->board = at % boards;
        s->kind = kind_of(at);
        comes(s, s->kind == SLOW || at / boards % 3 == 2 ? 0 : -1);
        while (at - there >= MOST_JOINING) take_turn();
    }
    while (done < count) take_turn();
    printf("{\"compared\": %ld, \"joinings\": %ld, \"pings\": %ld, \"late_ms\": %.3f, \"most_late_ms\": %.3f, \"losses\": %ld,"
           " \"early\": %ld}\n", compared, joinings, pings, late_count ? all_late * 1e3 / late_count : 0, most_late * 1e3, losses, early);
    return 0;
}
