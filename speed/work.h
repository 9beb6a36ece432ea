/* Work to be measured: a program with readings, and for each of two sides a face, memory and sinks. */
#ifndef WORK_H
#define WORK_H
#include "programs.h"
#include <remus.h>

enum { SETS = 64, PAGE = 4096 };

/* The calls of one implementation; slices are bytes, and a face on words takes whole ones. */
typedef struct {
    uint64_t (*check)(const uint8_t *, size_t);
    uint64_t (*start)(const uint8_t *, size_t, uint8_t *, size_t);
    uint64_t (*turn)(const uint8_t *, size_t, uint8_t *, size_t, const uint8_t *, size_t, uint8_t *, size_t);
    /* null by hand, both */
    uint64_t (*figure)(const uint8_t *, size_t);
    uint64_t (*preview)(const uint8_t *, size_t, const uint8_t *, size_t, uint8_t *, size_t, const uint8_t *, size_t,
                        uint8_t *, size_t);
} face;

extern const face by_hand, on_words, on_bytes;

typedef struct work work;

typedef struct {
    const face *face;
    const work *work;
    uint8_t *memory, *work_memory, *sinks;
    uint32_t turns; /* so far; picks the readings */
    uint64_t last;  /* answer of a turn */
} side;

struct work {
    program program;
    const char *name;
    size_t n; /* words of memory */
    uint32_t readings[SETS][REMUS_MAX_GLOBALS * REMUS_PAIR_WORDS]; /* used in a circle */
    size_t readings_len; /* bytes */
    side side[2];
    /* At the same place in a page for both sides, as placement alone can move a short call by a third. */
    _Alignas(PAGE) uint32_t memory[2][REMUS_MAX_WORDS + PAGE / REMUS_WORD_BYTES];
    _Alignas(PAGE) uint32_t work_memory[2][REMUS_MAX_WORDS + PAGE / REMUS_WORD_BYTES];
    _Alignas(64) uint32_t sinks[2][16];
};

/* Its program is to be filled in. */
work *new_work(const char *name);
/* Starts both sides on n words, or for 0 on as many as come to be used, and has them run some turns. */
void set_up(work *w, const face *left, const face *right, size_t n);
/* Words in use, of both sides alike. */
size_t used_words(const work *w);
/* Ends the program if the sides differ in memory, sinks or last answer. */
void compare(const work *w);

/* Calls of a side: turns, previews of the next one, checks, figures, and turns that 10 refuses, after the tests of
 * program and image. */
void turns(void *of_side, long calls);
void previews(void *of_side, long calls);
void checks(void *of_side, long calls);
void figures(void *of_side, long calls);
void refused_turns(void *of_side, long calls);

#endif
