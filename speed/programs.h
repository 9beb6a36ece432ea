/* The programs that are measured, as bytes. */
#ifndef PROGRAMS_H
#define PROGRAMS_H
#include <remus.h>

typedef struct {
    uint8_t b[REMUS_MAX_PROGRAM];
    size_t n;
} program;

/* Sink: the time. */
void make_clock(program *o);
/* Sink: the mean of three globals. */
void make_average(program *o);
/* A branch point with plus and minus: two globals subtracted at odd times, added at even ones. */
void make_toggle(program *o);
/* Globals: worst erase count, corrected bits, spare blocks; sinks: class 0 to 3, alarm, wear in hundredths. */
void make_health(program *o);
/* A cell with the largest reading so far; a blank one changes nothing. */
void make_maximum(program *o);
/* `deployments` of one reactor with `cells` running maxima each, up to 31. */
void make_maxima(program *o, int deployments, int cells);
/* A reactor that deploys itself down to `depth`, where its operator is blank, and counts on the way back. */
void make_nest(program *o, int depth);
/* A binary tree of small deployments, and beside it under the same root one of `more` levels, or none for 0. */
void make_tree(program *o, int levels, int more);
/* `reactors` reactors of `commands` mixed R commands each: main deploys up to 31 of them, and those one more each. */
void make_wide(program *o, int reactors, int commands);

#endif
