/* Bytes of stack that a call takes, its arguments among them: it runs on a stack of its own, which is painted before
 * and looked at afterwards. */
#define _GNU_SOURCE
#include "stack.h"
#include "table.h"
#include "texts.h"
#include "work.h"
#include <stdio.h>
#include <stdlib.h>
#include <string.h>
#include <sys/mman.h>
#include <ucontext.h>

enum { SIZE = 1 << 20, PAINT = 0xA5, SINK_WORDS = REMUS_MAX_SINKS * REMUS_PAIR_WORDS };

static uint8_t *area;
static ucontext_t here, there;
static work *on;
static uint64_t answer;

static void nothing(void) {}

static void turn_words(void) {
    answer = remus_turn_words(on->program.b, on->program.n, on->memory[0], on->n, on->readings[0],
                              on->readings_len / REMUS_WORD_BYTES, on->sinks[0], SINK_WORDS);
}

static void turn_bytes(void) {
    answer = remus_turn(on->program.b, on->program.n, (uint8_t *)on->memory[0], REMUS_WORD_BYTES * on->n,
                        (const uint8_t *)on->readings[0], on->readings_len, (uint8_t *)on->sinks[0],
                        REMUS_WORD_BYTES * SINK_WORDS);
}

static void start_bytes(void) {
    answer = remus_start(on->program.b, on->program.n, (uint8_t *)on->memory[0], REMUS_WORD_BYTES * on->n);
}

static void check(void) { answer = remus_check(on->program.b, on->program.n); }

static void figure(void) { answer = remus_figure(on->program.b, on->program.n); }

static text source;

static void compile(void) { answer = remus_compile(source.b, source.n, source.output, sizeof source.output); }

static size_t touched(void (*call)(void)) {
    memset(area, PAINT, SIZE);
    getcontext(&there);
    there.uc_stack.ss_sp = area;
    there.uc_stack.ss_size = SIZE;
    there.uc_link = &here;
    makecontext(&there, call, 0);
    swapcontext(&here, &there);
    size_t clean = 0;
    while (clean < SIZE && area[clean] == PAINT) clean++;
    return SIZE - clean;
}

/* Of a call that has been made before: what the loader takes once is not counted. */
static size_t stack_of(void (*call)(void)) {
    answer = 0;
    size_t bytes = touched(call) - touched(nothing);
    if (remus_number(answer) != REMUS_OK) {
        fprintf(stderr, "stack: %u %u\n", remus_number(answer), remus_place(answer));
        exit(2);
    }
    return bytes;
}

/* The larger of a first turn and a later one. */
static size_t stack_of_turn(void (*turn)(void)) {
    start_bytes();
    size_t first = stack_of(turn), later = stack_of(turn);
    return first > later ? first : later;
}

/* The larger of `so_far` and a turn of the program. */
static size_t larger(size_t so_far) {
    set_up(on, &on_words, &on_words, REMUS_MAX_WORDS);
    size_t bytes = stack_of_turn(turn_words);
    return bytes > so_far ? bytes : so_far;
}

static void row_of(const char *name, size_t bytes) {
    row(name);
    cell_count(bytes);
    end_row();
}

static void words_table(void) {
    static void (*const small[])(program *) = {make_clock, make_average, make_maximum, make_toggle, make_health};
    size_t bytes = 0;
    table("Stack, on words", "turn | bytes");
    for (size_t k = 0; k < sizeof small / sizeof *small; k++) {
        small[k](&on->program);
        bytes = larger(bytes);
    }
    row_of("shallow, with at most 192 used words", bytes);
    make_maxima(&on->program, 31, 31);
    bytes = larger(0);
    make_wide(&on->program, 64, 100);
    row_of("shallow, with more", larger(bytes));
    make_nest(&on->program, 60);
    size_t to_60 = larger(0);
    make_nest(&on->program, 64);
    bytes = larger(0);
    row_of("nested to depth 64", bytes);
    row_of("of which a level", (bytes - to_60) / 4);
}

static void bytes_table(void) {
    static const size_t n[] = {11, 64, 256, 1024, 4096, 8192, 16384};
    table("Stack, on bytes", "n | start | turn of the clock");
    make_clock(&on->program);
    for (size_t k = 0; k < sizeof n / sizeof *n; k++) {
        set_up(on, &on_bytes, &on_bytes, n[k]);
        row_count(n[k]);
        cell_count(stack_of(start_bytes));
        cell_count(stack_of_turn(turn_bytes));
        end_row();
    }
}

static void program_table(void) {
    table("Stack, of a program or a text alone", "call | bytes");
    make_wide(&on->program, 64, 100);
    write_largest(&source);
    check();
    figure();
    compile();
    row_of("check", stack_of(check));
    row_of("figure", stack_of(figure));
    row_of("compile", stack_of(compile));
}

void stack_tables(void) {
    on = new_work("stack");
    area = mmap(0, SIZE, PROT_READ | PROT_WRITE, MAP_PRIVATE | MAP_ANONYMOUS, -1, 0);
    if (area == MAP_FAILED) exit(2);
    words_table();
    bytes_table();
    program_table();
}
