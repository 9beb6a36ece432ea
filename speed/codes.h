/* The bytecode's command codes and primitives, by rules 2.32 and 1.10 of docs/MANUAL.md. */
#ifndef CODES_H
#define CODES_H

enum {
    ALLOC_MONO = 1, MAKE_POLY, CONSTANT, GLOBAL, SUPPLY, REACT, CONSUME, SINK, ALLOC_POLY, PRIMITIVE,
    CELL, FETCH, KEEP
};
enum { ADD, SUBTRACT, TIMES, DIVIDE, WITHDRAWN, LESS, EQUAL, NOT, AND, OR, KNOWN, CHOOSE, INSTEAD, TICK, PRIMITIVES };

#endif
