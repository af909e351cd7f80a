// The processes of a server that is measured: the processor time and the memory of all of them. What is inline here not every client needs.
#ifndef PROCESSES_H
#define PROCESSES_H

#include <dirent.h>
#include <stdio.h>
#include <stdlib.h>
#include <string.h>
#include <unistd.h>

static const char *pids;  // parted by commas

static void die(const char *what) {
    perror(what);
    exit(1);
}

struct spent {
    double seconds;
    long switches;
};

// Of the threads that there are.
static inline struct spent spent(void) {
    struct spent all = {0, 0};
    char list[256], path[300];
    snprintf(list, sizeof list, "%s", pids);
    for (char *pid = strtok(list, ","); pid; pid = strtok(NULL, ",")) {
        snprintf(path, sizeof path, "/proc/%s/task", pid);
        DIR *tasks = opendir(path);
        if (!tasks) die(path);
        for (struct dirent *task; (task = readdir(tasks));) {
            if (task->d_name[0] == '.') continue;
            snprintf(path, sizeof path, "/proc/%s/task/%s/schedstat", pid, task->d_name);
            FILE *file = fopen(path, "r");
            unsigned long long on, wait;
            long slices;
            if (!file) continue;
            if (fscanf(file, "%llu %llu %ld", &on, &wait, &slices) == 3) {
                all.seconds += on / 1e9;
                all.switches += slices;
            }
            fclose(file);
        }
        closedir(tasks);
    }
    return all;
}

static inline long resident(void) {
    long all = 0;
    char list[256], path[300], line[256];
    snprintf(list, sizeof list, "%s", pids);
    for (char *pid = strtok(list, ","); pid; pid = strtok(NULL, ",")) {
        snprintf(path, sizeof path, "/proc/%s/status", pid);
        FILE *file = fopen(path, "r");
        if (!file) die(path);
        long kilobytes;
        while (fgets(line, sizeof line, file))
            if (sscanf(line, "VmRSS: %ld", &kilobytes) == 1) all += kilobytes;
        fclose(file);
    }
    return all;
}

struct seconds {
    double own, system;
};

// The processor seconds of all threads, those that have ended too. The system counts them in hundredths,
// and tells what was the program's own.
static inline struct seconds spent_in_all(void) {
    struct seconds all = {0, 0};
    char list[256], path[300];
    snprintf(list, sizeof list, "%s", pids);
    for (char *pid = strtok(list, ","); pid; pid = strtok(NULL, ",")) {
        unsigned long user, system;
        snprintf(path, sizeof path, "/proc/%s/stat", pid);
        FILE *file = fopen(path, "r");
        if (!file) die(path);
        if (fscanf(file, "%*d %*s %*c %*d %*d %*d %*d %*d %*u %*u %*u %*u %*u %lu %lu", &user, &system) != 2) die(path);
        all.own += (double)user / sysconf(_SC_CLK_TCK);
        all.system += (double)system / sysconf(_SC_CLK_TCK);
        fclose(file);
    }
    return all;
}

#endif
