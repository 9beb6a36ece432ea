#include "table.h"
#include <stdarg.h>
#include <stdio.h>

static int tabs;
static const char *tag;

void for_machines(void) { tabs = 1; }

void say(const char *format, ...) {
    va_list a;
    if (tabs) return;
    va_start(a, format);
    vprintf(format, a);
    va_end(a);
}

void table(const char *name, const char *columns) {
    tag = name;
    if (tabs) return;
    printf("\n## %s\n\n| %s |\n|---|", name, columns);
    for (const char *c = columns; *c; c++) {
        if (*c == '|') printf("---|");
    }
    printf("\n");
}

static void open_cell(void) { printf(tabs ? "\t" : " "); }
static void close_cell(void) { printf(tabs ? "" : " |"); }

/* 51955 as 51,955. */
static void number(size_t x) {
    if (tabs) {
        printf("%zu", x);
        return;
    }
    if (x >= 1000) number(x / 1000);
    printf(x >= 1000 ? ",%03zu" : "%zu", x % 1000);
}

static void nanoseconds(double ns) {
    if (tabs || ns < 9.95) {
        printf(tabs ? "%.2f" : "%.1f", ns);
    } else {
        number((size_t)(ns + 0.5));
    }
}

static void open_row(void) {
    if (tabs) {
        printf("%s\t", tag);
    } else {
        printf("| ");
    }
}

void row(const char *first) {
    open_row();
    printf("%s", first);
    close_cell();
}

void row_count(size_t first) {
    open_row();
    number(first);
    close_cell();
}

void cell_count(size_t x) {
    open_cell();
    number(x);
    close_cell();
}

void cell_ns(double ns) {
    open_cell();
    nanoseconds(ns);
    close_cell();
}

void cell_ratio(double times) {
    open_cell();
    printf(tabs ? "%.3f" : "%.2f", times);
    close_cell();
}

void cell_part(double ns, double times) {
    open_cell();
    nanoseconds(ns);
    printf(tabs ? "\t%.3f" : " (%.1f)", times);
    close_cell();
}

void cell_at(size_t x, double ns) {
    open_cell();
    number(x);
    printf(tabs ? "\t" : ": ");
    nanoseconds(ns);
    printf(tabs ? "" : " ns");
    close_cell();
}

void cell_rate(double ns, const char *unit) {
    open_cell();
    printf(tabs ? "%.4f\t%s" : "%.2g ns a %s", ns, unit);
    close_cell();
}

void end_row(void) { printf("\n"); }
