// How long a write of some bytes at the end of a file takes with the sync behind it, for bench/journal.py.
//
//   syncs FILE BYTES COUNT PAUSE     so many, with a pause of so many microseconds behind each
//
// Prints the median, the 99th percentile and the most.
#define _GNU_SOURCE
#include <fcntl.h>
#include <stdio.h>
#include <stdlib.h>
#include <string.h>
#include <time.h>
#include <unistd.h>

#include "processes.h"

static double now(void) {
    struct timespec t;
    clock_gettime(CLOCK_MONOTONIC, &t);
    return t.tv_sec + t.tv_nsec / 1e9;
}

static int by_size(const void *a, const void *b) {
    double x = *(const double *)a, y = *(const double *)b;
    return (x > y) - (x < y);
}

int main(int argc, char **argv) {
    if (argc != 5) {
        fprintf(stderr, "see the head of syncs.c\n");
        return 2;
    }
    int size = atoi(argv[2]), count = atoi(argv[3]), pause = atoi(argv[4]);
    int file = open(argv[1], O_WRONLY | O_CREAT | O_APPEND, 0600);
    char *bytes = malloc(size);
    double *took = calloc(count, sizeof *took);
    if (file < 0) die(argv[1]);
    memset(bytes, 'x', size);
    for (int i = 0; i < count; i++) {
        double began = now();
        if (write(file, bytes, size) != size) die("write");
        if (fdatasync(file)) die("fdatasync");
        took[i] = now() - began;
        if (pause) usleep(pause);
    }
    qsort(took, count, sizeof *took, by_size);
    printf("{\"median_ms\": %.3f, \"p99_ms\": %.3f, \"most_ms\": %.3f}\n", took[count / 2] * 1e3, took[count * 99 / 100] * 1e3,
           took[count - 1] * 1e3);
    return 0;
}
