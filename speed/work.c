#include "work.h"
#include "baseline.h"
#include "measure.h"
#include <stdio.h>
#include <stdlib.h>
#include <string.h>

enum { WARM = 4, SINK_BYTES = REMUS_MAX_SINKS * REMUS_PAIR_BYTES };

/* The library on words. */
static uint64_t start_words(const uint8_t *p, size_t n, uint8_t *m, size_t memlen) {
    return remus_start_words(p, n, (uint32_t *)m, memlen / REMUS_WORD_BYTES);
}

static uint64_t turn_words(const uint8_t *p, size_t n, uint8_t *m, size_t memlen, const uint8_t *rd, size_t rdlen,
                           uint8_t *sk, size_t sklen) {
    return remus_turn_words(p, n, (uint32_t *)m, memlen / REMUS_WORD_BYTES, (const uint32_t *)rd,
                            rdlen / REMUS_WORD_BYTES, (uint32_t *)sk, sklen / REMUS_WORD_BYTES);
}

static uint64_t preview_words(const uint8_t *p, size_t n, const uint8_t *m, size_t memlen, uint8_t *wk, size_t wklen,
                              const uint8_t *rd, size_t rdlen, uint8_t *sk, size_t sklen) {
    return remus_preview_words(p, n, (const uint32_t *)m, memlen / REMUS_WORD_BYTES, (uint32_t *)wk,
                               wklen / REMUS_WORD_BYTES, (const uint32_t *)rd, rdlen / REMUS_WORD_BYTES,
                               (uint32_t *)sk, sklen / REMUS_WORD_BYTES);
}

const face by_hand = {base_check, base_start, base_turn, NULL, NULL};
const face on_words = {remus_check, start_words, turn_words, remus_figure, preview_words};
const face on_bytes = {remus_check, remus_start, remus_turn, remus_figure, remus_preview};

static void die(const work *w, const char *call, uint64_t answer) {
    fprintf(stderr, "%s: %s gives %u %u\n", w->name, call, remus_number(answer), remus_place(answer));
    exit(2);
}

work *new_work(const char *name) {
    work *w = aligned_alloc(PAGE, sizeof *w);
    if (!w) exit(2);
    memset(w, 0, sizeof *w);
    w->name = name;
    return w;
}

/* Known ones, small enough that no sum or product of them passes 32 bits. */
static void calm_readings(work *w) {
    int globals = w->program.b[3];
    w->readings_len = REMUS_PAIR_BYTES * (size_t)globals;
    for (int s = 0; s < SETS; s++) {
        for (int k = 0; k < globals; k++) {
            uint32_t kind = w->program.b[8 + k];
            w->readings[s][2 * k] = REMUS_NUMBER + kind;
            w->readings[s][2 * k + 1] = chance() % (kind ? 2 : 5000);
        }
    }
}

static void begin(work *w, int i, const face *f, size_t n) {
    side *s = &w->side[i];
    *s = (side){f, w, (uint8_t *)w->memory[i], (uint8_t *)w->work_memory[i], (uint8_t *)w->sinks[i], 0, 0};
    memset(s->memory, 0xEE, sizeof w->memory[i]);
    memset(s->sinks, 0, sizeof w->sinks[i]);
    w->n = n;
    uint64_t r = f->start(w->program.b, w->program.n, s->memory, REMUS_WORD_BYTES * n);
    if (remus_number(r) != REMUS_OK) die(w, "start", r);
    turns(s, WARM);
}

void set_up(work *w, const face *left, const face *right, size_t n) {
    calm_readings(w);
    if (n == 0) {
        begin(w, 0, left, REMUS_MAX_WORDS);
        n = used_words(w);
    }
    begin(w, 0, left, n);
    begin(w, 1, right, n);
}

size_t used_words(const work *w) { return w->memory[0][0]; }

void compare(const work *w) {
    const side *a = &w->side[0], *b = &w->side[1];
    if (a->turns == b->turns && a->last == b->last && memcmp(a->memory, b->memory, REMUS_WORD_BYTES * w->n) == 0 &&
        memcmp(a->work_memory, b->work_memory, REMUS_WORD_BYTES * w->n) == 0 &&
        memcmp(a->sinks, b->sinks, sizeof w->sinks[0]) == 0) {
        return;
    }
    fprintf(stderr, "%s: the sides differ\n", w->name);
    exit(2);
}

void turns(void *of_side, long calls) {
    side *s = of_side;
    const work *w = s->work;
    uint32_t k = s->turns;
    uint64_t r = 0;
    for (long j = 0; j < calls; j++) {
        r = s->face->turn(w->program.b, w->program.n, s->memory, REMUS_WORD_BYTES * w->n,
                          (const uint8_t *)w->readings[k++ % SETS], w->readings_len, s->sinks, SINK_BYTES);
    }
    if (remus_number(r) != REMUS_OK) die(w, "turn", r);
    s->turns = k;
    s->last = r;
}

void previews(void *of_side, long calls) {
    side *s = of_side;
    const work *w = s->work;
    uint64_t r = 0;
    for (long j = 0; j < calls; j++) {
        r = s->face->preview(w->program.b, w->program.n, s->memory, REMUS_WORD_BYTES * w->n, s->work_memory,
                             REMUS_WORD_BYTES * w->n, (const uint8_t *)w->readings[s->turns % SETS], w->readings_len,
                             s->sinks, SINK_BYTES);
    }
    if (remus_number(r) != REMUS_OK) die(w, "preview", r);
    s->last = r;
}

void checks(void *of_side, long calls) {
    const side *s = of_side;
    const work *w = s->work;
    uint64_t r = 0;
    for (long j = 0; j < calls; j++) r = s->face->check(w->program.b, w->program.n);
    if (remus_number(r) != REMUS_OK) die(w, "check", r);
}

void figures(void *of_side, long calls) {
    const side *s = of_side;
    const work *w = s->work;
    uint64_t r = 0;
    for (long j = 0; j < calls; j++) r = s->face->figure(w->program.b, w->program.n);
    if (remus_number(r) != REMUS_OK) die(w, "figure", r);
}

void refused_turns(void *of_side, long calls) {
    const side *s = of_side;
    const work *w = s->work;
    uint64_t r = 0;
    for (long j = 0; j < calls; j++) {
        r = s->face->turn(w->program.b, w->program.n, s->memory, REMUS_WORD_BYTES * w->n,
                          (const uint8_t *)w->readings[0], w->readings_len + REMUS_WORD_BYTES, s->sinks, SINK_BYTES);
    }
    if (remus_number(r) != REMUS_READINGS_LENGTH) die(w, "turn", r);
}
