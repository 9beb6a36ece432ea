/* Times of calls: the best of many short rounds, in which sides that do the same thing take turns. */
#ifndef MEASURE_H
#define MEASURE_H
#include <stdint.h>

enum { MOST_SIDES = 6, MOST_RUNS = 99 };

typedef struct {
    int sides;
    void (*call[MOST_SIDES])(void *on, long calls);
    void *on[MOST_SIDES];
    long calls;                       /* in a round */
    double ns[MOST_SIDES][MOST_RUNS]; /* of a call, by side and run */
} contest;

/* `quick`, `runs N`, and `tsv` for tables; any other word ends the program. */
void take_arguments(int argc, char **argv);
int quick(void);
int runs(void);
/* Whether this process is one of several runs: it measures, hands over its times and ends. */
int is_one_run(void);
/* All contests, in all runs; a process calls it once. After a run `compare` looks at what the sides have left. */
void measure(contest *list, int count, void (*compare)(void));
/* A sentence for people: of how many rounds and runs the numbers are. */
void say_how(void);
/* Of a number for each run. */
double median(const double *of_run);
/* The median of a side's times. */
double typical(const contest *q, int side);
/* A number by chance, the same ones in every process. */
uint32_t chance(void);

#endif
