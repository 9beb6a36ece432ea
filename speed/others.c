/* others.c: four rules in the machine and in other ways to run a rule, held to the same sinks and measured.
 *
 *     others [quick] [tsv] [runs N] */
#include "measure.h"
#include "rules.h"
#include "table.h"
#include "work.h"
#include <stdio.h>
#include <stdlib.h>
#include <string.h>

const int rule_readings[RULES] = {3, 2, 3, 1}, rule_results[RULES] = {1, 1, 3, 1};
static const char *const rule_name[RULES] = {"average", "toggle", "health", "running maximum"};

/* ---- the machine as an engine ---- */

static void *open_machine(int rule, const face *f) {
    static void (*const make[RULES])(program *) = {make_average, make_toggle, make_health, make_maximum};
    work *w = new_work(rule_name[rule]);
    make[rule](&w->program);
    set_up(w, f, f, 0);
    f->start(w->program.b, w->program.n, w->side[0].memory, REMUS_WORD_BYTES * w->n);
    return w;
}

static void *open_by_hand(int rule) { return open_machine(rule, &by_hand); }
static void *open_library(int rule) { return open_machine(rule, &on_words); }

static void machine_turn(void *h, const uint32_t *readings, uint32_t *sinks) {
    const work *w = h;
    const side *s = &w->side[0];
    uint64_t r = s->face->turn(w->program.b, w->program.n, s->memory, REMUS_WORD_BYTES * w->n,
                               (const uint8_t *)readings, w->readings_len, (uint8_t *)sinks,
                               REMUS_PAIR_BYTES * MOST_RESULTS);
    if (remus_number(r) != REMUS_OK) {
        fprintf(stderr, "%s: turn gives %u %u\n", w->name, remus_number(r), remus_place(r));
        exit(2);
    }
}

static const engine machine_by_hand = {"the machine in C", open_by_hand, machine_turn, NULL, free};
static const engine machine = {"the machine", open_library, machine_turn, NULL, free};

static const engine *const engines[] = {&compiled_in, &luajit, &lua, &machine_by_hand, &machine, &duktape};
enum { ENGINES = sizeof engines / sizeof *engines };

/* ---- all give the same sinks ---- */

/* At the edges of 32 bits or of a rule, small, or anything. */
static uint32_t wild_content(void) {
    static const int32_t edge[] = {
        INT32_MIN, INT32_MIN + 1, INT32_MAX, INT32_MAX - 1, -1, 0, 1, 1 << 30, -(1 << 30), 21474836, 21474837,
        -21474836, -21474837, 3, 4, 20, 21, 40, 41, 2099, 2100, 2699, 2700,
    };
    switch (chance() % 5) {
    case 0: return chance();
    case 1: return (uint32_t)edge[chance() % (sizeof edge / sizeof *edge)];
    case 2: return chance() % 60;
    case 3: return INT32_MAX - chance() % 100;
    default: return chance() % 4000;
    }
}

static void wild_readings(int count, uint32_t *readings) {
    for (int k = 0; k < count; k++) {
        readings[2 * k] = chance() % 6 == 0 ? REMUS_BLANK : REMUS_NUMBER;
        readings[2 * k + 1] = readings[2 * k] == REMUS_BLANK ? 0 : wild_content();
    }
}

static void hold_equal(int rule, long count) {
    void *h[ENGINES];
    for (int e = 0; e < ENGINES; e++) h[e] = engines[e]->open(rule);
    for (long t = 0; t < count; t++) {
        uint32_t readings[2 * MOST_READINGS], first[2 * MOST_RESULTS], sinks[2 * MOST_RESULTS];
        wild_readings(rule_readings[rule], readings);
        engines[0]->turn(h[0], readings, first);
        for (int e = 1; e < ENGINES; e++) {
            engines[e]->turn(h[e], readings, sinks);
            if (memcmp(sinks, first, REMUS_PAIR_BYTES * (size_t)rule_results[rule]) == 0) continue;
            fprintf(stderr, "%s: %s differs at turn %ld\n", rule_name[rule], engines[e]->name, t);
            exit(2);
        }
    }
    for (int e = 0; e < ENGINES; e++) engines[e]->close(h[e]);
}

/* ---- times ---- */

typedef struct {
    const engine *engine;
    void *h;
    uint32_t turns;
} player;

static uint32_t calm[SETS][2 * MOST_READINGS];

static void calm_readings(void) {
    for (int s = 0; s < SETS; s++) {
        for (int k = 0; k < MOST_READINGS; k++) {
            calm[s][2 * k] = REMUS_NUMBER;
            calm[s][2 * k + 1] = chance() % 5000;
        }
    }
}

static void run_turns(void *on, long calls) {
    player *p = on;
    uint32_t sinks[2 * MOST_RESULTS];
    for (long j = 0; j < calls; j++) p->engine->turn(p->h, calm[p->turns++ % SETS], sinks);
}

static void run_exchanges(void *on, long calls) {
    player *p = on;
    for (long j = 0; j < calls; j++) p->engine->exchange(p->h);
}

/* The engines' turns of each rule, then the exchanges of those that have any. */
static contest list[2 * RULES];

static void add(contest *q, int rule, const engine *e, void (*call)(void *, long)) {
    player *p = malloc(sizeof *p);
    if (!p) exit(2);
    *p = (player){e, e->open(rule), 0};
    q->call[q->sides] = call;
    q->on[q->sides++] = p;
}

static void add_all(void) {
    for (int rule = 0; rule < RULES; rule++) {
        for (int e = 0; e < ENGINES; e++) {
            add(&list[rule], rule, engines[e], run_turns);
            if (engines[e]->exchange) add(&list[RULES + rule], rule, engines[e], run_exchanges);
        }
    }
}

/* Sinks have been compared before. */
static void nothing_left(void) {}

/* A row for each side, a column for each of the rules' contests. */
static void rule_table(const char *name, const char *unit, const contest *of_rule) {
    char columns[99];
    snprintf(columns, sizeof columns, "%s | %s | %s | %s | %s", unit, rule_name[0], rule_name[1], rule_name[2],
             rule_name[3]);
    table(name, columns);
    for (int s = 0; s < of_rule->sides; s++) {
        const player *p = of_rule->on[s];
        row(p->engine->name);
        for (int rule = 0; rule < RULES; rule++) cell_ns(typical(&of_rule[rule], s));
        end_row();
    }
}

int main(int argc, char **argv) {
    take_arguments(argc, argv);
    long count = quick() ? 20000 : 200000;
    for (int rule = 0; rule < RULES && !is_one_run(); rule++) hold_equal(rule, count);
    calm_readings();
    add_all();
    measure(list, 2 * RULES, nothing_left);
    say_how();
    say("All gave the same sinks on %ld random turns of each rule.\n", count);
    rule_table("Beside other ways to run a rule", "ns a turn", list);
    rule_table("To exchange the rule", "ns", list + RULES);
    return 0;
}
