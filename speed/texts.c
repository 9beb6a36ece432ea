#include "texts.h"
#include "measure.h"
#include <stdarg.h>
#include <stdio.h>
#include <string.h>

static void put(text *o, const char *format, ...) {
    va_list list;
    va_start(list, format);
    o->n += (size_t)vsnprintf((char *)o->b + o->n, MOST_TEXT - o->n, format, list);
    va_end(list);
}

void write_average(text *o) {
    o->n = 0;
    put(o, "(source a) (source b) (source c)\n(defr (average x y z) (/ (+ (+ x y) z) 3))\n"
           "(defr (main) (average a b c))\n");
}

void write_health(text *o) {
    o->n = 0;
    put(o, "(source erases) (source spares)\n(defr (percent part whole) (/ (* 100 part) whole))\n"
           "(defr (left used rated) (percent (- rated used) rated))\n(defr (main)\n  (out (left erases 3000)\n"
           "       (/ (left erases 3000) 20)\n       (/ (+ (left erases 3000) (percent spares 64)) 2)))\n");
}

/* A balanced sum of the leaves from i to before e: 32 calls of z, then sources. */
static void put_sum(text *o, int i, int e) {
    if (e - i > 1) {
        put(o, "(+ ");
        put_sum(o, i, (i + e) / 2);
        put(o, " ");
        put_sum(o, (i + e) / 2, e);
        put(o, ")");
    } else if (i < 32) {
        put(o, "(z)");
    } else {
        put(o, "s%d", i - 32);
    }
}

static void put_sources(text *o, const char *format) {
    for (int i = 0; i < REMUS_MAX_GLOBALS; i++) {
        put(o, "(source ");
        put(o, format, i);
        put(o, ")\n");
    }
}

void write_largest(text *o) {
    o->n = 0;
    put_sources(o, "s%d");
    put(o, "(defr (z) 1)\n");
    for (int i = 1; i < 32; i++) {
        put(o, "(defr (d%d) ", i);
        put_sum(o, 0, 48);
        put(o, ")\n");
    }
}

void write_spaces(text *o, size_t bytes) {
    o->n = bytes;
    memset(o->b, ' ', bytes);
}

void write_chance(text *o, size_t bytes) {
    o->n = bytes;
    for (size_t i = 0; i < bytes; i++) o->b[i] = (uint8_t)chance();
    o->b[0] = '(';
}

void write_numbers(text *o, size_t bytes) {
    o->n = 0;
    put(o, "(defr (m) (+");
    while (o->n + 14 < bytes) put(o, " %u", 1000000000u + chance() % 1000000000u);
    put(o, "))");
}

void write_names(text *o, size_t bytes) {
    o->n = 0;
    put_sources(o, "aaaaaaaaaaaaaa%02d");
    put(o, "(defr (m) (+");
    while (o->n + 20 < bytes) put(o, " aaaaaaaaaaaaaa%02u", 31 + chance() % 69);
    put(o, "))");
}

void compiles(void *of_text, long calls) {
    text *o = of_text;
    for (long j = 0; j < calls; j++) o->answer = remus_compile(o->b, o->n, o->output, sizeof o->output);
}
