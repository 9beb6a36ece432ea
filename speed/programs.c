#include "programs.h"
#include "codes.h"
#include <stdio.h>
#include <stdlib.h>
#include <string.h>

/* ---- a program in parts: the tables, and the commands of each reactor ---- */

static struct {
    int globals, shapes, reactors;
    uint8_t global[31], shape[32][16], entry[64][4], command[64][160][8];
} t;

static int global(int kind) {
    t.global[t.globals] = (uint8_t)kind;
    return ++t.globals;
}

/* Kinds as digits, such as "010". */
static int shape(const char *sources, const char *sinks) {
    uint8_t *s = t.shape[t.shapes];
    s[0] = (uint8_t)strlen(sources);
    s[1] = (uint8_t)strlen(sinks);
    for (int i = 0; sources[i]; i++) s[2 + i] = (uint8_t)(sources[i] - '0');
    for (int i = 0; sinks[i]; i++) s[9 + i] = (uint8_t)(sinks[i] - '0');
    return t.shapes++;
}

static int reactor(int shape) {
    t.entry[t.reactors][0] = (uint8_t)shape;
    return t.reactors++;
}

/* A command of the newest reactor, D commands first; its location. */
static int command(int code, int x, int a, int b, uint32_t v) {
    uint8_t *entry = t.entry[t.reactors - 1];
    int k = entry[1] + entry[2], in_d = code == ALLOC_MONO || code == MAKE_POLY || code == CELL;
    uint8_t bytes[4] = {(uint8_t)code, (uint8_t)x, (uint8_t)a, (uint8_t)b};
    memcpy(t.command[t.reactors - 1][k], bytes, 4);
    memcpy(t.command[t.reactors - 1][k] + 4, &v, 4);
    entry[in_d ? 1 : 2]++;
    return t.shape[entry[0]][0] + k;
}

static int alloc_mono(int reactor) { return command(ALLOC_MONO, reactor, 0, 0, 0); }
static int make_poly(int shape) { return command(MAKE_POLY, shape, 0, 0, 0); }
static int number(int32_t v) { return command(CONSTANT, 0, 0, 0, (uint32_t)v); }
static int reactor_of(int shape, int reactor) { return command(CONSTANT, 2 + shape, 0, 0, (uint32_t)reactor); }
static int read_global(int x) { return command(GLOBAL, x, 0, 0, 0); }
static void supply(int deployment, int x, int a) { command(SUPPLY, x, a, deployment, 0); }
static void react(int deployment) { command(REACT, 0, 0, deployment, 0); }
static int consume(int deployment, int x) { return command(CONSUME, x, 0, deployment, 0); }
static void sink(int x, int a) { command(SINK, x, a, 0, 0); }
static int alloc_poly(int operator, int point) { return command(ALLOC_POLY, 0, operator, point, 0); }
static int primitive(int x, int a, int b) { return command(PRIMITIVE, x, a, b, 0); }
static int choose(int truth, int a, int b) { return command(PRIMITIVE, CHOOSE, truth, a, (uint32_t)b); }
static int cell(int32_t first) { return command(CELL, 0, 0, 0, (uint32_t)first); }
static int fetch(int cell) { return command(FETCH, 0, 0, cell, 0); }
static void keep(int cell, int a) { command(KEEP, 0, a, cell, 0); }

/* Supplies a, runs the deployment and gives its sink. */
static int apply(int deployment, int a) {
    supply(deployment, 0, a);
    react(deployment);
    return consume(deployment, 0);
}

static void add_bytes(program *o, const void *bytes, size_t n) {
    if (n > sizeof o->b - o->n) {
        fprintf(stderr, "program too long\n");
        exit(2);
    }
    memcpy(o->b + o->n, bytes, n);
    o->n += n;
}

/* The parts as bytes; then there are none. */
static void finish(program *o) {
    uint8_t header[8] = {1, (uint8_t)t.shapes, (uint8_t)t.reactors, (uint8_t)t.globals};
    o->n = 0;
    add_bytes(o, header, 8);
    add_bytes(o, t.global, (size_t)t.globals);
    add_bytes(o, t.shape, 16 * (size_t)t.shapes);
    add_bytes(o, t.entry, 4 * (size_t)t.reactors);
    for (int r = 0; r < t.reactors; r++) add_bytes(o, t.command[r], 8 * (size_t)(t.entry[r][1] + t.entry[r][2]));
    memset(&t, 0, sizeof t);
}

/* ---- the programs ---- */

void make_clock(program *o) {
    reactor(shape("", "0"));
    sink(0, read_global(0));
    finish(o);
}

void make_average(program *o) {
    for (int i = 0; i < 3; i++) global(0);
    reactor(shape("", "0"));
    int a = read_global(1), b = read_global(2), sum = primitive(ADD, a, b), c = read_global(3);
    sum = primitive(ADD, sum, c);
    sink(0, primitive(DIVIDE, sum, number(3)));
    finish(o);
}

/* An even time is what its half, cut, gives times two. */
void make_toggle(program *o) {
    global(0);
    global(0);
    int binary = shape("00", "0"), main = shape("", "0");
    for (int i = 0; i < 2; i++) {
        reactor(binary);
        sink(0, primitive(i == 0 ? ADD : SUBTRACT, 0, 1));
    }
    reactor(main);
    int point = make_poly(binary), time = read_global(0), a = read_global(1), b = read_global(2), two = number(2);
    int even = primitive(EQUAL, primitive(TIMES, primitive(DIVIDE, time, two), two), time);
    int plus = reactor_of(binary, 0), minus = reactor_of(binary, 1);
    int d = alloc_poly(choose(even, plus, minus), point);
    supply(d, 0, a);
    supply(d, 1, b);
    react(d);
    sink(0, consume(d, 0));
    finish(o);
}

/* Wear = erase * 100 / 3000; class 3 if spare < 4, else 2 if wear > 89 or bits > 40, else 1 if wear > 69 or bits > 20,
 * else 0; alarm: class > 1. */
void make_health(program *o) {
    for (int i = 0; i < 3; i++) global(0);
    reactor(shape("", "010"));
    int erase = read_global(1), bits = read_global(2), spare = read_global(3), c100 = number(100), c3000 = number(3000);
    int wear = primitive(DIVIDE, primitive(TIMES, erase, c100), c3000);
    int c4 = number(4), low = primitive(LESS, spare, c4);
    int c89 = number(89), wear2 = primitive(LESS, c89, wear), c40 = number(40), bits2 = primitive(LESS, c40, bits);
    int bad = primitive(OR, wear2, bits2);
    int c69 = number(69), wear1 = primitive(LESS, c69, wear), c20 = number(20), bits1 = primitive(LESS, c20, bits);
    int worn = primitive(OR, wear1, bits1);
    int c0 = number(0), c1 = number(1), c2 = number(2), c3 = number(3);
    int class = choose(low, c3, choose(bad, c2, choose(worn, c1, c0)));
    int alarm = primitive(LESS, c1, class);
    sink(0, class);
    sink(1, alarm);
    sink(2, wear);
    finish(o);
}

void make_maximum(program *o) {
    global(0);
    reactor(shape("", "0"));
    int c = cell(INT32_MIN), old = fetch(c), g = read_global(1), up = primitive(LESS, old, g);
    int most = primitive(INSTEAD, choose(up, g, old), old);
    keep(c, most);
    sink(0, most);
    finish(o);
}

void make_maxima(program *o, int deployments, int cells) {
    int c[31], d[31], last = 0;
    global(0);
    int watcher = shape("0", "0"), main = shape("", "0");
    reactor(watcher);
    for (int i = 0; i < cells; i++) c[i] = cell(i);
    for (int i = 0; i < cells; i++) {
        int old = fetch(c[i]);
        last = choose(primitive(LESS, old, 0), 0, old);
        keep(c[i], last);
    }
    sink(0, last);
    reactor(main);
    for (int i = 0; i < deployments; i++) d[i] = alloc_mono(0);
    int g = read_global(1);
    for (int i = 0; i < deployments; i++) last = apply(d[i], g);
    sink(0, last);
    finish(o);
}

/* 1 divided by the count down is blank at 0, and so is the operator then. */
void make_nest(program *o, int depth) {
    int nested = shape("0", "0"), main = shape("", "0");
    reactor(nested);
    int point = make_poly(nested), one = number(1), inverse = primitive(DIVIDE, one, 0);
    int more = primitive(LESS, inverse, one), self = reactor_of(nested, 0);
    int d = alloc_poly(choose(more, self, self), point);
    int got = apply(d, primitive(SUBTRACT, 0, one)), zero = number(0);
    sink(0, primitive(ADD, primitive(INSTEAD, got, zero), one));
    reactor(main);
    int below = alloc_mono(0);
    sink(0, apply(below, number(depth - 2)));
    finish(o);
}

void make_tree(program *o, int levels, int more) {
    int s = shape("", "0");
    reactor(s);
    sink(0, read_global(0));
    for (int k = 1; k <= levels; k++) {
        reactor(s);
        int a = alloc_mono(k - 1), b = alloc_mono(k - 1), beside = k == levels && more ? alloc_mono(more) : -1;
        react(a);
        react(b);
        int x = consume(a, 0), y = consume(b, 0), sum = primitive(ADD, x, y);
        if (beside >= 0) {
            react(beside);
            sum = primitive(ADD, sum, consume(beside, 0));
        }
        sink(0, sum);
    }
    finish(o);
}

/* A reactor of make_wide, its number k, with a child or -1: all commands but the last are of mixed kinds. */
static void wide_one(int k, int child, int commands) {
    if (child >= 0) child = alloc_mono(child);
    int x = read_global(1), y = read_global(2), truth = read_global(3), z = number(k + 3);
    int in = child >= 0 ? apply(child, x) : 0;
    for (int i = k; t.entry[t.reactors - 1][2] < commands - 1; i++) {
        switch (i % 8) {
        case 0: in = primitive(ADD, in, x); break;
        case 1: y = primitive(SUBTRACT, y, in); break;
        case 2: truth = primitive(LESS, y, in); break;
        case 3: in = choose(truth, in, y); break;
        case 4: x = primitive(DIVIDE, in, z); break;
        case 5: in = primitive(INSTEAD, x, y); break;
        case 6: truth = primitive(NOT, truth, 0); break;
        default: y = primitive(TIMES, x, z); break;
        }
    }
    sink(0, in);
}

void make_wide(program *o, int reactors, int commands) {
    int leaves = (reactors - 1) / 2, middles = reactors - 1 - leaves, d[31];
    for (int i = 0; i < 3; i++) global(i == 2);
    int inner = shape("0", "0"), main = shape("", "0");
    for (int k = 0; k < leaves + middles; k++) {
        reactor(inner);
        wide_one(k, k >= leaves && k - leaves < leaves ? k - leaves : -1, commands);
    }
    reactor(main);
    if (middles > 31) middles = 31;
    for (int k = 0; k < middles; k++) d[k] = alloc_mono(reactors - 2 - k);
    int last = read_global(1);
    for (int k = 0; k < middles; k++) last = apply(d[k], last);
    sink(0, last);
    finish(o);
}
