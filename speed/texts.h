/* The texts that are measured, in Haai, and their calls. */
#ifndef TEXTS_H
#define TEXTS_H
#include <remus.h>

enum { MOST_TEXT = 1 << 16 };

typedef struct {
    const char *name;
    uint8_t b[MOST_TEXT];
    size_t n;
    uint64_t answer; /* of the last call */
    uint8_t output[REMUS_MAX_COMPILED];
} text;

/* The mean of three sources. */
void write_average(text *o);
/* Two sources; percent of erases left, a class, a mean. */
void write_health(text *o);
/* 31 sources and 32 definitions; all but the first have 32 calls, and 128 R commands. */
void write_largest(text *o);
/* `bytes` bytes: spaces; any bytes, of which the first is a bracket; a sum with as many operands as there is room for,
 * which are numbers, or names of 16 bytes that are compared with those of 31 sources and are none of them. */
void write_spaces(text *o, size_t bytes);
void write_chance(text *o, size_t bytes);
void write_numbers(text *o, size_t bytes);
void write_names(text *o, size_t bytes);

void compiles(void *of_text, long calls);

#endif
