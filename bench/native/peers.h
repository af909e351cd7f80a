// Connections to a server that is measured, and what they send and read: the same for a relay, for nginx with nchan and for mosquitto. A
// follower costs a read of what came and a walk over the heads of its frames.
#ifndef PEERS_H
#define PEERS_H

#include <arpa/inet.h>
#include <errno.h>
#include <fcntl.h>
#include <netinet/tcp.h>
#include <stdio.h>
#include <stdlib.h>
#include <string.h>
#include <sys/epoll.h>
#include <time.h>
#include <unistd.h>

#include "processes.h"

enum kind { RELAY, NCHAN, MOSQUITTO };

static enum kind kind;
static int port;
static int follow_port;  // where followers come in
static char name[32];  // of the board or channel, another one each run

static double now(void) {
    struct timespec t;
    clock_gettime(CLOCK_MONOTONIC, &t);
    return t.tv_sec + t.tv_nsec / 1e9;
}

// ---- a game that no draw ends: both sides' knights go round, with a pawn's step each 91 plies

static void move_at(int ply, char *text) {
    static const char *white[] = {"g1f3", "f3g5", "g5h3", "h3g1"};
    static const char *black[] = {"g8h6", "h6f5", "f5g3", "g3h5", "h5f6", "f6g8"};
    int steps[2] = {0, 0}, turns[2] = {0, 0};
    for (int at = 0;; at++) {
        int side = at % 2;
        if (at % 91 == 90) {
            char file = 'a' + steps[side] / 2;
            int rank = side == 0 ? 2 + steps[side] % 2 : 7 - steps[side] % 2;
            snprintf(text, 6, "%c%d%c%d", file, rank, file, side == 0 ? rank + 1 : rank - 1);
            steps[side]++;
        } else {
            snprintf(text, 6, "%s", side == 0 ? white[turns[0] % 4] : black[turns[1] % 6]);
            turns[side]++;
        }
        if (at == ply) return;
    }
}

// ---- frames

// A masked text frame, the key being 0.
static size_t ws_text(unsigned char *to, const char *text) {
    size_t n = strlen(text);
    to[0] = 0x81;
    to[1] = 0x80 | n;
    memset(to + 2, 0, 4);
    memcpy(to + 6, text, n);
    return n + 6;
}

static size_t mqtt_publish(unsigned char *to, const char *text) {
    size_t n = strlen(text), topic = strlen(name);
    to[0] = 0x30;
    to[1] = 2 + topic + n;
    to[2] = 0;
    to[3] = topic;
    memcpy(to + 4, name, topic);
    memcpy(to + 4 + topic, text, n);
    return 4 + topic + n;
}

// The one command or publication of a move.
static size_t publication(unsigned char *to, int ply) {
    char move[8], text[120];
    move_at(ply, move);
    if (kind == RELAY)
        snprintf(text, sizeof text, "{\"cmd\":\"submit\",\"board\":\"%s\",\"move\":\"%s\"}", name, move);
    else
        snprintf(text, sizeof text, "{\"move\":\"%s\",\"place\":%d,\"reply\":\"move\"}", move, ply);
    return kind == MOSQUITTO ? mqtt_publish(to, text) : ws_text(to, text);
}

struct peer {
    int fd;
    unsigned char head[8];
    int have;   // bytes of the head
    long skip;  // bytes of the payload still to come
    long texts;
    char last[128];  // the first bytes of the last payload
    int kept;
    int ends_in_text;  // the last frame is one
};

// How long the head is and how long its payload; 0 where more bytes are needed.
static int head_length(const struct peer *p, long *payload) {
    if (p->have < 2) return 0;
    if (kind == MOSQUITTO) {
        long n = 0;
        for (int at = 1; at < p->have; at++) {
            n |= (long)(p->head[at] & 0x7f) << (7 * (at - 1));
            if (!(p->head[at] & 0x80)) {
                *payload = n;
                return at + 1;
            }
        }
        return 0;
    }
    long n = p->head[1] & 0x7f;
    if (n < 126) {
        *payload = n;
        return 2;
    }
    if (p->have < 4) return 0;
    *payload = p->head[2] << 8 | p->head[3];
    return 4;
}

static void put(int fd, const void *bytes, size_t n) {
    while (n > 0) {
        ssize_t done = write(fd, bytes, n);
        if (done <= 0) die("write");
        bytes = (const char *)bytes + done;
        n -= done;
    }
}

static void take(struct peer *p, const unsigned char *bytes, long n) {
    while (n > 0) {
        if (p->skip > 0) {
            long part = n < p->skip ? n : p->skip;
            long room = (long)sizeof p->last - 1 - p->kept;
            if (room > 0) {
                long keep = part < room ? part : room;
                memcpy(p->last + p->kept, bytes, keep);
                p->kept += keep;
                p->last[p->kept] = 0;
            }
            p->skip -= part;
            bytes += part;
            n -= part;
            continue;
        }
        p->head[p->have++] = *bytes++;
        n--;
        long payload;
        int length = head_length(p, &payload);
        if (!length) continue;
        int type = kind == MOSQUITTO ? p->head[0] >> 4 : p->head[0] & 15;
        if (kind != MOSQUITTO && type == 8) {
            fprintf(stderr, "closed by the server after %ld texts: %s\n", p->texts, p->last);
            exit(1);
        }
        if (kind != MOSQUITTO && type == 9) put(p->fd, "\x8a\x80\0\0\0\0", 6);  // a pong, or the peer counts as gone after a while
        p->ends_in_text = kind == MOSQUITTO ? type == 3 : type == 1;
        p->texts += p->ends_in_text;
        p->skip = payload;
        p->kept = 0;
        p->have = 0;
    }
}

// ---- connections

// There are some 28,000 ports of the own machine for connections to one address, so of many each 20,000 go to another one of loopback.
// There a relay has to watch at 0.0.0.0.
static int dialled;

static int dial(int port) {
    int fd = socket(AF_INET, SOCK_STREAM, 0), one = 1;
    struct sockaddr_in to = {.sin_family = AF_INET, .sin_port = htons(port), .sin_addr.s_addr = htonl(INADDR_LOOPBACK + dialled++ / 20000)};
    if (fd < 0) die("socket");
    setsockopt(fd, IPPROTO_TCP, TCP_NODELAY, &one, sizeof one);
    if (connect(fd, (struct sockaddr *)&to, sizeof to)) die("connect");
    return fd;
}

static size_t request(char *to, size_t room, const char *path) {
    return snprintf(to, room,
                    "GET %s HTTP/1.1\r\nHost: 127.0.0.1:%d\r\nUpgrade: websocket\r\nConnection: Upgrade\r\n"
                    "Sec-WebSocket-Key: dGhlIHNhbXBsZSBub25jZQ==\r\nSec-WebSocket-Version: 13\r\n\r\n",
                    path, port);
}

static int shake_hands(int port, const char *path) {
    int fd = dial(port), at = 0;
    char text[1024];
    put(fd, text, request(text, sizeof text, path));
    while (at < 4 || memcmp(text + at - 4, "\r\n\r\n", 4)) {
        if (at == sizeof text || read(fd, text + at, 1) != 1) die("handshake");
        at++;
    }
    if (memcmp(text, "HTTP/1.1 101", 12)) die("no upgrade");
    return fd;
}

static void read_text(struct peer *p) {
    unsigned char byte;
    long before = p->texts;
    while (p->texts == before || p->skip > 0) {
        if (read(p->fd, &byte, 1) != 1) die("read");
        take(p, &byte, 1);
    }
}

static int mqtt(int subscribes) {
    int fd = dial(port);
    unsigned char text[128], answer[8];
    static int client;
    int n = snprintf((char *)text + 14, 100, "b%d-%d", getpid(), client++);
    memcpy(text, "\x10\0\0\4MQTT\4\2\0\0\0", 13);
    text[1] = 12 + n;
    text[13] = n;
    put(fd, text, 14 + n);
    if (read(fd, answer, 4) != 4 || answer[3]) die("connack");
    if (!subscribes) return fd;
    n = strlen(name);
    unsigned char to[64] = {0x82, 5 + n, 0, 1, 0, n};
    memcpy(to + 6, name, n);
    to[6 + n] = 0;
    put(fd, to, 7 + n);
    if (read(fd, answer, 5) != 5 || answer[4]) die("suback");
    return fd;
}

static struct peer publisher(void) {
    struct peer p = {.fd = -1};
    char text[128];
    unsigned char frame[160];
    if (kind == MOSQUITTO) {
        p.fd = mqtt(0);
    } else if (kind == NCHAN) {
        snprintf(text, sizeof text, "/pub/%s", name);
        p.fd = shake_hands(port, text);
    } else {
        p.fd = shake_hands(port, "/");
        snprintf(text, sizeof text, "{\"cmd\":\"open\",\"board\":\"%s\",\"start\":518}", name);
        put(p.fd, frame, ws_text(frame, text));
        read_text(&p);
        if (!strstr(p.last, "opened")) die(p.last);
    }
    return p;
}

static void set_nonblocking(int fd) { fcntl(fd, F_SETFL, fcntl(fd, F_GETFL) | O_NONBLOCK); }

// Reads of it do not wait.
static struct peer follower(void) {
    struct peer p = {.fd = -1};
    char text[128];
    unsigned char frame[160];
    if (kind == MOSQUITTO) {
        p.fd = mqtt(1);
    } else if (kind == NCHAN) {
        snprintf(text, sizeof text, "/sub/%s", name);
        p.fd = shake_hands(port, text);
    } else {
        p.fd = shake_hands(follow_port, "/");
        snprintf(text, sizeof text, "{\"cmd\":\"follow\",\"board\":\"%s\",\"spectator\":1}", name);
        put(p.fd, frame, ws_text(frame, text));
        read_text(&p);
        if (!strstr(p.last, "following")) die(p.last);
        p.texts = 0;
    }
    set_nonblocking(p.fd);
    return p;
}

// What a newcomer asks for: to connect, and to join if that is said; the bytes in all.
static size_t asking(char *ask, size_t room, int joins) {
    char text[100];
    snprintf(text, sizeof text, kind == NCHAN ? "/sub/%s" : "/", name);
    size_t length = request(ask, room, text);
    if (!joins) return length;
    snprintf(text, sizeof text, "{\"cmd\":\"follow\",\"board\":\"%s\",\"spectator\":1}", name);
    return length + ws_text((unsigned char *)ask + length, text);
}

static unsigned char chunk[1 << 16];

// Reads what came; returns whether the peer has this many texts now and had fewer before.
static int hears(struct peer *p, long texts) {
    long before = p->texts;
    ssize_t n = read(p->fd, chunk, sizeof chunk);
    if (n == 0 || (n < 0 && errno != EAGAIN)) {
        fprintf(stderr, "lost a peer with %ld texts\n", p->texts);
        exit(1);
    }
    if (n > 0) take(p, chunk, n);
    return before < texts && p->texts >= texts;
}

enum { PING_SECONDS = 10 };  // how often those who only wait are read

// Reads these, of whom no read waits, where that is due. So their pings are answered while nothing else reads them.
static inline void look_after(struct peer *peers, int count) {
    static double done_at;
    if (now() < done_at + PING_SECONDS) return;
    for (int i = 0; i < count; i++) hears(&peers[i], 0);
    done_at = now();
}

#endif
