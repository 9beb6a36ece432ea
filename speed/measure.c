#include "measure.h"
#include "table.h"
#include <stdio.h>
#include <stdlib.h>
#include <string.h>
#include <sys/wait.h>
#include <time.h>
#include <unistd.h>

static int rounds = 800, all_runs = 1, one_run;
static double round_ns = 40000;

/* The argument by which a process is told that it is one of several runs. */
#define ONE_RUN "one-run"

static void usage(const char *name) {
    fprintf(stderr, "usage: %s [quick] [tsv] [runs 1..%d]\n", name, MOST_RUNS);
    exit(2);
}

void take_arguments(int argc, char **argv) {
    for (int i = 1; i < argc; i++) {
        if (!strcmp(argv[i], "quick")) {
            rounds = 120;
            round_ns = 15000;
        } else if (!strcmp(argv[i], "tsv")) {
            for_machines();
        } else if (!strcmp(argv[i], ONE_RUN)) {
            one_run = 1;
        } else if (!strcmp(argv[i], "runs") && i + 1 < argc) {
            all_runs = atoi(argv[++i]);
            if (all_runs < 1 || all_runs > MOST_RUNS) usage(argv[0]);
        } else {
            usage(argv[0]);
        }
    }
}

int quick(void) { return rounds < 800; }
int runs(void) { return all_runs; }
int is_one_run(void) { return one_run; }

uint32_t chance(void) {
    static uint64_t s = 88172645463325252ull;
    s ^= s << 13;
    s ^= s >> 7;
    s ^= s << 17;
    return (uint32_t)(s >> 16);
}

static double timed(contest *q, int side, long calls) {
    struct timespec a, b;
    clock_gettime(CLOCK_MONOTONIC, &a);
    q->call[side](q->on[side], calls);
    clock_gettime(CLOCK_MONOTONIC, &b);
    return (double)(b.tv_sec - a.tv_sec) * 1e9 + (double)(b.tv_nsec - a.tv_nsec);
}

/* Enough calls for a round; all sides make the same number of them. */
static void calibrate(contest *q) {
    for (q->calls = 1; q->calls < 1000000; q->calls *= 2) {
        double sum = 0;
        for (int s = 0; s < q->sides; s++) sum += timed(q, s, q->calls);
        if (sum > q->sides * round_ns) break;
    }
}

/* Every contest is in every round, so that all see the same quiet and busy times. The side that comes first after
 * another contest loses up to 6 % of a short call, so each comes first in its turn. */
static void one_round(contest *list, int count, int first) {
    for (contest *q = list; q < list + count; q++) {
        for (int i = 0; i < q->sides; i++) {
            int s = (first + i) % q->sides;
            q->call[s](q->on[s], 1);
            double ns = timed(q, s, q->calls) / (double)q->calls;
            if (ns < q->ns[s][0]) q->ns[s][0] = ns;
        }
    }
}

static void measure_here(contest *list, int count, void (*compare)(void)) {
    for (contest *q = list; q < list + count; q++) {
        calibrate(q);
        for (int s = 0; s < q->sides; s++) q->ns[s][0] = 1e30;
    }
    for (int r = 0; r < rounds; r++) one_round(list, count, r);
    compare();
}

static void hand_over(const contest *list, int count) {
    for (const contest *q = list; q < list + count; q++) {
        for (int s = 0; s < q->sides; s++) printf("%.9g\n", q->ns[s][0]);
    }
    exit(0);
}

static void fail(const char *what) {
    perror(what);
    exit(2);
}

/* This program once more, as one run; what it prints. */
static FILE *begin_run(pid_t *child) {
    int ends[2];
    if (pipe(ends) != 0) fail("pipe");
    *child = fork();
    if (*child < 0) fail("fork");
    if (*child == 0) {
        dup2(ends[1], STDOUT_FILENO);
        close(ends[0]);
        close(ends[1]);
        execl("/proc/self/exe", "run", ONE_RUN, quick() ? "quick" : NULL, NULL);
        fail("run");
    }
    close(ends[1]);
    return fdopen(ends[0], "r");
}

static void take_run(contest *list, int count, int run) {
    pid_t child;
    int status, missing = 0;
    FILE *times = begin_run(&child);
    for (contest *q = list; q < list + count; q++) {
        for (int s = 0; s < q->sides; s++) missing += fscanf(times, "%lf", &q->ns[s][run]) != 1;
    }
    fclose(times);
    if (waitpid(child, &status, 0) < 0 || status != 0 || missing != 0) {
        fprintf(stderr, "run %d has failed\n", run + 1);
        exit(2);
    }
}

/* Each of several runs is a process of its own: code, memory and stack lie elsewhere then, and that alone can move a
 * call by a tenth for as long as a process lives. */
void measure(contest *list, int count, void (*compare)(void)) {
    if (one_run || all_runs == 1) measure_here(list, count, compare);
    if (one_run) hand_over(list, count);
    if (all_runs == 1) return;
    for (int run = 0; run < all_runs; run++) take_run(list, count, run);
}

void say_how(void) {
    say("Nanoseconds, the best of %d rounds", rounds);
    if (all_runs > 1) say(", medians of %d runs", all_runs);
    say(".\n");
}

static int by_size(const void *a, const void *b) {
    double x = *(const double *)a, y = *(const double *)b;
    return (x > y) - (x < y);
}

double median(const double *of_run) {
    double v[MOST_RUNS];
    memcpy(v, of_run, sizeof *v * (size_t)all_runs);
    qsort(v, (size_t)all_runs, sizeof *v, by_size);
    return (v[all_runs / 2] + v[(all_runs - 1) / 2]) / 2;
}

double typical(const contest *q, int side) { return median(q->ns[side]); }
