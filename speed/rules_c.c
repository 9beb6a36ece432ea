/* The rules in C, compiled in. */
#include "rules.h"
#include <stdlib.h>

typedef struct {
    uint32_t mark;
    int32_t v;
} value;

typedef struct {
    int rule;
    uint32_t time;
    int32_t most;
} state;

static const value blank = {REMUS_BLANK, 0};

static value get(const uint32_t *readings, int i) { return (value){readings[2 * i], (int32_t)readings[2 * i + 1]}; }

static void put(uint32_t *sinks, int i, value s) {
    sinks[2 * i] = s.mark;
    sinks[2 * i + 1] = (uint32_t)s.v;
}

static void average(const uint32_t *readings, uint32_t *sinks) {
    value a = get(readings, 0), b = get(readings, 1), c = get(readings, 2), r = blank;
    int32_t s;
    if ((a.mark & b.mark & c.mark) && !__builtin_add_overflow(a.v, b.v, &s) && !__builtin_add_overflow(s, c.v, &s)) {
        r = (value){REMUS_NUMBER, s / 3};
    }
    put(sinks, 0, r);
}

static void toggle(uint32_t *time, const uint32_t *readings, uint32_t *sinks) {
    value a = get(readings, 0), b = get(readings, 1), r = blank;
    int32_t s;
    int odd = ++*time & 1;
    if ((a.mark & b.mark) && !(odd ? __builtin_sub_overflow(a.v, b.v, &s) : __builtin_add_overflow(a.v, b.v, &s))) {
        r = (value){REMUS_NUMBER, s};
    }
    put(sinks, 0, r);
}

static void health(const uint32_t *readings, uint32_t *sinks) {
    value erase = get(readings, 0), bits = get(readings, 1), spare = get(readings, 2), wear = blank, class = blank;
    int32_t p;
    if (erase.mark && !__builtin_mul_overflow(erase.v, 100, &p)) wear = (value){REMUS_NUMBER, p / 3000};
    if (spare.mark) {
        if (spare.v < 4) {
            class = (value){REMUS_NUMBER, 3};
        } else if ((wear.mark && wear.v > 89) || (bits.mark && bits.v > 40)) {
            class = (value){REMUS_NUMBER, 2};
        } else if (wear.mark && bits.mark) {
            class = (value){REMUS_NUMBER, wear.v > 69 || bits.v > 20};
        }
    }
    put(sinks, 0, class);
    put(sinks, 1, class.mark ? (value){REMUS_TRUTH, class.v > 1} : blank);
    put(sinks, 2, wear);
}

static void maximum(int32_t *most, const uint32_t *readings, uint32_t *sinks) {
    value a = get(readings, 0);
    if (a.mark && a.v > *most) *most = a.v;
    put(sinks, 0, (value){REMUS_NUMBER, *most});
}

static void *open_rule(int rule) {
    state *s = malloc(sizeof *s);
    if (!s) exit(2);
    *s = (state){rule, 0, INT32_MIN};
    return s;
}

static void turn(void *h, const uint32_t *readings, uint32_t *sinks) {
    state *s = h;
    switch (s->rule) {
    case AVERAGE: average(readings, sinks); break;
    case TOGGLE: toggle(&s->time, readings, sinks); break;
    case HEALTH: health(readings, sinks); break;
    default: maximum(&s->most, readings, sinks);
    }
}

const engine compiled_in = {"C compiled in", open_rule, turn, NULL, free};
