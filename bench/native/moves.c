// Many operators at once, for bench/journal.py: each board has two of one key, one for each side, and each sends its move as soon as the
// other's is answered.
//
//   moves PORT BOARDS MOVES     so many moves on each board, of at most 2,900
//
// Prints how many moves were answered in a second, and how long an operator waited for an answer: the median and the 99th percentile.
#define _GNU_SOURCE
#include <stdio.h>
#include <stdlib.h>
#include <string.h>
#include <sys/epoll.h>
#include <unistd.h>

#include "peers.h"
#include "processes.h"

static const int MOST_SECONDS = 300;

static int by_size(const void *a, const void *b) {
    double x = *(const double *)a, y = *(const double *)b;
    return (x > y) - (x < y);
}

struct board {
    struct peer sides[2];
    int made;
    long wanted;  // texts that whoever moves has when it is answered
    double sent;
};

static char (*game)[8];

static void send_move(struct board *board, int number) {
    char text[120];
    unsigned char frame[160];
    snprintf(text, sizeof text, "{\"cmd\":\"submit\",\"board\":\"o%d-%d\",\"move\":\"%s\"}", getpid(), number, game[board->made]);
    struct peer *mover = &board->sides[board->made % 2];
    board->wanted = mover->texts + 1;
    board->sent = now();
    put(mover->fd, frame, ws_text(frame, text));
}

static void come(struct board *board, int number) {
    char text[120];
    unsigned char frame[160];
    for (int side = 0; side < 2; side++) {
        snprintf(text, sizeof text, "/?key=of-both-operators-of-%d", number);
        board->sides[side].fd = shake_hands(port, text);
    }
    snprintf(text, sizeof text, "{\"cmd\":\"open\",\"board\":\"o%d-%d\",\"start\":518}", getpid(), number);
    put(board->sides[0].fd, frame, ws_text(frame, text));
    read_text(&board->sides[0]);
    if (!strstr(board->sides[0].last, "opened")) die(board->sides[0].last);
}

int main(int argc, char **argv) {
    if (argc != 4) {
        fprintf(stderr, "see the head of moves.c\n");
        return 2;
    }
    alarm(MOST_SECONDS);
    port = atoi(argv[1]);
    int count = atoi(argv[2]), moves = atoi(argv[3]), poll = epoll_create1(0);
    long answered = 0, all = (long)count * moves;
    struct board *boards = calloc(count, sizeof *boards);
    double *waited = calloc(all, sizeof *waited);
    game = calloc(moves, sizeof *game);
    for (int i = 0; i < moves; i++) move_at(i, game[i]);
    for (int i = 0; i < count; i++) come(&boards[i], i);
    for (int i = 0; i < 2 * count; i++) {
        struct peer *peer = &boards[i / 2].sides[i % 2];
        struct epoll_event e = {.events = EPOLLIN, .data.u32 = i};
        set_nonblocking(peer->fd);
        if (epoll_ctl(poll, EPOLL_CTL_ADD, peer->fd, &e)) die("epoll_ctl");
    }
    double began = now();
    for (int i = 0; i < count; i++) send_move(&boards[i], i);
    while (answered < all) {
        struct epoll_event got[256];
        int n = epoll_wait(poll, got, 256, -1);
        for (int i = 0; i < n; i++) {
            int number = got[i].data.u32 / 2, side = got[i].data.u32 % 2;
            struct board *board = &boards[number];
            struct peer *peer = &board->sides[side];
            hears(peer, 0);
            // Else it is a ping, or a part of the answer.
            if (side != board->made % 2 || peer->texts < board->wanted || peer->skip > 0) continue;
            if (!strstr(peer->last, "played")) die(peer->last);
            waited[answered++] = now() - board->sent;
            if (++board->made < moves) send_move(board, number);
        }
    }
    double took = now() - began;
    qsort(waited, all, sizeof *waited, by_size);
    printf("{\"moves_a_second\": %.0f, \"median_ms\": %.3f, \"p99_ms\": %.3f}\n", all / took, waited[all / 2] * 1e3,
           waited[all * 99 / 100] * 1e3);
    return 0;
}
