/* The machine by hand: check, start and turn with the tests and the answers that the library has, on every call. It is
 * what the library's times are divided by, so it is written for speed.
 *
 * - One forward pass over the program: a command is one load of 64 bits, its zero bytes one mask. What is refused
 *   leaves the fast path for a cold function that finds number and place.
 * - The tables are tested eight bytes at a time.
 * - The check notes the slot of each location in a byte, as Supply, React and Sink have none; so results go to a
 *   pointer that moves on by itself.
 * - Soundness is one ascending pass over the image. Owners lie below their children, so a child's depth is noted when
 *   its owner is met, and is there when the child is. Names that hit no deployment are caught by counting.
 * - A slot is one word of 64 bits, mark low and content high, and primitives have no branch.
 * - Nested deployments run on a pile of frames in one threaded loop.
 * - A kept value waits in its Keep's own slot, with the cell's index and the Keep before it in the mark's spare bits.
 * - Only deployments that ran are cleared, and a refused turn is undone in place.
 *
 * No heap, no global state, no recursion. Words are the processor's own, low byte first, as on x86-64. */
#include "baseline.h"
#include "codes.h"
#include <string.h>

#define LIKELY(c) __builtin_expect(!!(c), 1)
#define UNLIKELY(c) __builtin_expect(!!(c), 0)
#define INLINE static inline __attribute__((always_inline))
#define NOINLINE static __attribute__((noinline))
#define COLD static __attribute__((cold, noinline))

enum { MAX_N = 16384, MAX_TURNS = 2147483647, MAX_DEPTH = 64, MIN_SIZE = 5 };
#define ONES 0x0101010101010101ull
#define HIGH 0x8080808080808080ull
#define CONTENT 0xFFFFFFFF00000000ull

typedef uint64_t v2 __attribute__((vector_size(16)));

INLINE uint32_t ld32(const uint8_t *p) {
    uint32_t v;
    memcpy(&v, p, 4);
    return v;
}

INLINE uint64_t ld64(const uint8_t *p) {
    uint64_t v;
    memcpy(&v, p, 8);
    return v;
}

INLINE v2 ldv(const uint8_t *p) {
    v2 v;
    memcpy(&v, p, 16);
    return v;
}

INLINE void st32(uint8_t *p, uint32_t v) { memcpy(p, &v, 4); }
INLINE void st64(uint8_t *p, uint64_t v) { memcpy(p, &v, 8); }
INLINE void stv(uint8_t *p, v2 v) { memcpy(p, &v, 16); }

INLINE uint64_t pack(uint64_t number, uint64_t place) {
    return number << 32 | (place > 0xFFFFFFFFu ? 0xFFFFFFFFu : place);
}

/* What the check notes of a reactor. */
typedef struct {
    uint16_t dcmd, rcmd, end; /* bytes of the program: its D commands, its R commands, their end */
    uint16_t size;            /* words of a deployment */
    uint16_t dby, rby, kby;   /* bytes of the slots: first D slot, first R slot, first sink */
    uint8_t shape, nd;        /* its shape, the count of its D commands */
    uint16_t map;             /* where its locations begin in the table of slots */
} rinfo;

typedef struct {
    uint32_t S, R, G;
    const uint8_t *shapes;
    rinfo ri[64];
    uint8_t slot[65536 / 8 + 64 * 7 + 16]; /* by location, one reactor after the other */
} prog;

/* ---- check: the tables ---- */

/* The lowest illegal byte of the header; called only if there is one. */
COLD uint64_t header_fault(const uint8_t *p) {
    if (p[0] != 1) return pack(2, 0);
    if (p[1] < 1 || p[1] > 32) return pack(2, 1);
    if (p[2] < 1 || p[2] > 64) return pack(2, 2);
    if (p[3] > 31) return pack(2, 3);
    for (uint64_t i = 4; i < 8; i++) {
        if (p[i]) return pack(2, i);
    }
    __builtin_unreachable();
}

/* The lowest illegal byte of shape k at s, from 0; 16 if there is none. */
COLD uint32_t shape_fault(const uint8_t *s, uint32_t k) {
    if (s[0] > 7) return 0;
    if (s[1] < 1 || s[1] > 7) return 1;
    for (uint32_t i = 0; i < 7; i++) {
        if (s[2 + i] > (i < s[0] ? k + 1 : 0)) return 2 + i;
    }
    for (uint32_t i = 0; i < 7; i++) {
        if (s[9 + i] > (i < s[1] ? k + 1 : 0)) return 9 + i;
    }
    return 16;
}

/* A main of shape s: no sources, no reactor among its sinks. */
INLINE int fits_main(const uint8_t *s) {
    return s[0] == 0 && !(ld64(s + 8) >> 8 & ~ONES);
}

/* The lowest illegal byte of the tables; called only if there is one. */
COLD uint64_t table_fault(const uint8_t *p, const prog *q) {
    size_t at = 8;
    for (; at < 8 + q->G; at++) {
        if (p[at] > 1) return pack(2, at);
    }
    for (uint32_t k = 0; k < q->S; k++, at += 16) {
        uint32_t bad = shape_fault(p + at, k);
        if (bad < 16) return pack(2, at + bad);
    }
    for (uint32_t k = 0; k < q->R; k++, at += 4) {
        const uint8_t *e = p + at;
        if (e[0] >= q->S || (k == q->R - 1 && !fits_main(q->shapes + 16 * e[0]))) return pack(2, at);
        if (e[1] > 32) return pack(2, at + 1);
        if (e[2] < 1 || e[2] > 128) return pack(2, at + 2);
        if (e[3]) return pack(2, at + 3);
    }
    __builtin_unreachable();
}

/* Whether a kind of the globals or a byte of the shapes is illegal. A load past the globals stays inside the shapes;
 * a kind above its limit clears the high bit of its byte in limit minus kind. */
INLINE int kinds_wrong(const uint8_t *globals, uint32_t G, const uint8_t *shapes, const uint8_t *end) {
    uint64_t bad = 0, limit = ONES;
    uint32_t k;
    for (k = 0; k + 8 <= G; k += 8) bad |= ld64(globals + k);
    if (G & 7) bad |= ld64(globals + k) << (64 - 8 * (G & 7));
    bad &= ~ONES;
    for (const uint8_t *s = shapes; s < end; s += 16, limit += ONES) {
        uint32_t ns = s[0], nk = s[1];
        if (UNLIKELY(ns > 7 || nk - 1 > 6)) return 1;
        uint64_t vs = ld64(s + 2) & 0x00FFFFFFFFFFFFFFull, vk = ld64(s + 8) >> 8;
        uint64_t ls = limit & ((1ull << 8 * ns) - 1), lk = limit & ((1ull << 8 * nk) - 1);
        bad |= (vs | vk | ~((ls | HIGH) - vs) | ~((lk | HIGH) - vk)) & HIGH;
    }
    return bad != 0;
}

/* The reactors' entries into q; the length that they call for, or 0 if one is illegal. */
INLINE uint32_t take_entries(const uint8_t *en, uint32_t off, prog *q) {
    const uint8_t *s = q->shapes;
    for (uint32_t k = 0; k < q->R; k++) {
        uint32_t e = ld32(en + 4 * k);
        uint32_t sh = e & 255, nd = e >> 8 & 255, nr = e >> 16; /* nr with the zero byte */
        if (UNLIKELY(sh >= q->S || nd > 32 || nr - 1 > 127)) return 0;
        s = q->shapes + 16 * sh;
        rinfo *ri = &q->ri[k];
        ri->dcmd = (uint16_t)off;
        ri->rcmd = (uint16_t)(off + 8 * nd);
        off += 8 * (nd + nr);
        ri->end = (uint16_t)off;
        ri->dby = (uint16_t)(8 * s[0]);
        ri->rby = (uint16_t)(8 * (s[0] + nd));
        ri->shape = (uint8_t)sh;
        ri->nd = (uint8_t)nd;
    }
    return LIKELY(fits_main(s)) ? off : 0;
}

/* Length, header and tables: 0 and q filled in but for what the commands tell, or the refusal. */
INLINE uint64_t check_tables(const uint8_t *p, size_t n, prog *q) {
    if (UNLIKELY(n < 8 || n > 65535)) return pack(1, n);
    uint64_t h = ld64(p);
    uint32_t S = h >> 8 & 255, R = h >> 16 & 255, G = h >> 24 & 255;
    if (UNLIKELY((h & 0xFFFFFFFF000000FFull) != 1 || S - 1 > 31 || R - 1 > 63 || G > 31)) return header_fault(p);
    const uint8_t *shapes = p + 8 + G, *en = shapes + 16 * S;
    uint32_t off = 8 + G + 16 * S + 4 * R;
    if (UNLIKELY(n < off)) return pack(1, n);
    q->S = S;
    q->R = R;
    q->G = G;
    q->shapes = shapes;
    if (UNLIKELY(kinds_wrong(p + 8, G, shapes, en))) return table_fault(p, q);
    off = take_entries(en, off, q);
    if (UNLIKELY(!off)) return table_fault(p, q);
    return LIKELY(n == off) ? 0 : pack(1, n);
}

/* ---- check: the commands ---- */

/* Standings: 0 to 33 a value of that kind, DEPLOYMENT or BRANCH and a shape, CELLS and a kind, OTHER.
 * What is due: of a deployment, bit x for a source not yet supplied and bit 7 for a React to come; of a branch point
 * and of a cell, 1 for an AllocPoly or a Keep to come. */
enum { DEPLOYMENT = 0x80, BRANCH = 0xC0, CELLS = 0xE0, OTHER = 0xFF };

INLINE int is_value(uint32_t s) { return s < 0x40; }
INLINE int is_deployment(uint32_t s) { return (s & 0xC0) == DEPLOYMENT; }
INLINE int is_branch(uint32_t s) { return (uint8_t)(s - BRANCH) < 32; }
INLINE int is_cell(uint32_t s) { return (s & 0xFE) == CELLS; }
INLINE uint8_t all_due(const uint8_t *shape) { return (uint8_t)(0x7F + (1u << shape[0])); }

/* Whether 3 lets a command pass. */
COLD int formed(const prog *q, const uint8_t *c, int in_d) {
    uint32_t x = c[1], a = c[2], b = c[3], v = ld32(c + 4);
    if (in_d != (c[0] == ALLOC_MONO || c[0] == MAKE_POLY || c[0] == CELL)) return 0;
    switch (c[0]) {
    case ALLOC_MONO: return x < q->R && !a && !b && !v;
    case MAKE_POLY: return x < q->S && !a && !b && !v;
    case CELL: return !a && !b && (x == 0 || (x == 1 && v <= 1));
    case CONSTANT:
        if (a || b) return 0;
        if (x < 2) return x == 0 || v <= 1;
        return x - 2 < q->S && v < q->R && q->ri[v].shape == x - 2;
    case GLOBAL: return x <= q->G && !a && !b && !v;
    case SUPPLY: return !v;
    case REACT: case FETCH: return !x && !a && !v;
    case CONSUME: return !a && !v;
    case SINK: return !b && !v;
    case ALLOC_POLY: case KEEP: return !x && !v;
    case PRIMITIVE:
        if (b && (x == NOT || x == KNOWN)) return 0;
        return x < PRIMITIVES && (x == CHOOSE ? v <= 255 : v == 0);
    default: return 0;
    }
}

/* A primitive that 3 and 25 let pass and that is wrong: 4 before 5. */
COLD uint32_t primitive_number(const uint8_t *c, const uint8_t *st) {
    uint32_t x = c[1];
    if (!is_value(st[c[2]])) return 4;
    if (x != NOT && x != KNOWN && !is_value(st[c[3]])) return 4;
    if (x == CHOOSE && !is_value(st[c[4]])) return 4;
    return 5;
}

/* The number of a command of reactor `own` that 3 lets pass and that is wrong: 25, 4, 5, then 6, 19, 20, 21. */
COLD uint32_t command_number(const prog *q, const uint8_t *c, uint32_t own, const uint8_t *st, const uint8_t *due) {
    uint32_t x = c[1], a = st[c[2]], b = st[c[3]];
    const uint8_t *port = q->shapes + 16 * (c[0] == SINK ? q->ri[own].shape : b & 31);
    switch (c[0]) {
    case ALLOC_MONO: return 21;
    case SUPPLY:
        if (!is_value(a) || !is_deployment(b)) return 4;
        if (x >= port[0] || port[2 + x] != a) return 5;
        return due[c[3]] & 0x80 ? 6 : 20;
    case REACT:
        if (!is_deployment(b)) return 4;
        return due[c[3]] & 0x80 ? 19 : 20;
    case CONSUME:
        if (!is_deployment(b)) return 4;
        return x >= port[1] ? 5 : 19;
    case SINK:
        if (!is_value(a)) return 4;
        return x >= port[1] || port[9 + x] != a ? 5 : 6;
    case ALLOC_POLY:
        if (!is_value(a) || !is_branch(b)) return 4;
        return a != 2 + (b & 31) ? 5 : 20;
    case FETCH: return 4;
    case KEEP:
        if (!is_value(a) || !is_cell(b)) return 4;
        return a != (b & 1) ? 5 : 20;
    default: return x == WITHDRAWN ? 25 : primitive_number(c, st);
    }
}

/* The refusal of a command that is known to be wrong. */
COLD uint64_t command_fault(const uint8_t *p, const uint8_t *c, const prog *q, uint32_t own, const uint8_t *st,
                            const uint8_t *due) {
    int in_d = c < p + q->ri[own].rcmd;
    return pack(formed(q, c, in_d) ? command_number(q, c, own, st, due) : 3, (uint64_t)(c - p));
}

/* A D command w of reactor `own`: its standing and what is due; 0 if it is wrong. */
INLINE int declare(const prog *q, uint32_t own, uint64_t w, uint8_t *st, uint8_t *due) {
    uint32_t code = w & 255, x = w >> 8 & 255;
    *due = 1;
    if (code == CELL) {
        *st = (uint8_t)(CELLS | x);
        return LIKELY(!(w & 0xFFFFFE00u || (x && w >> 33)));
    }
    if (UNLIKELY(w >> 16)) return 0;
    if (code == ALLOC_MONO) {
        if (UNLIKELY(x >= own)) return 0;
        uint32_t sh = q->ri[x].shape;
        *st = (uint8_t)(DEPLOYMENT | sh);
        *due = all_due(q->shapes + 16 * sh);
        return 1;
    }
    *st = (uint8_t)(BRANCH | x);
    return LIKELY(code == MAKE_POLY && x < q->S);
}

/* 0 if the program is accepted and q filled in; else the refusal. */
NOINLINE uint64_t check(const uint8_t *p, size_t n, prog *q) {
    uint64_t refusal = check_tables(p, n, q);
    if (UNLIKELY(refusal)) return refusal;
    const uint8_t *const shapes = q->shapes, *const en = shapes + 16 * q->S, *c = en + 4 * q->R;
    const uint32_t S = q->S, R = q->R, G = q->G;

    /* All of st but the locations reached is OTHER, so no operand needs a range test. */
    uint8_t st[256], due[256];
    const v2 other = {~0ull, ~0ull};
    for (int k = 0; k < 256; k += 16) stv(st + k, other);
    /* By code, primitives by 256 and their number. */
#pragma GCC diagnostic push
#pragma GCC diagnostic ignored "-Woverride-init"
    static const void *const T[512] = {
        [0 ... 511] = &&fault,
        [CONSTANT] = &&constant, [GLOBAL] = &&global, [SUPPLY] = &&supply, [REACT] = &&react,
        [CONSUME] = &&consume, [SINK] = &&sink, [ALLOC_POLY] = &&allocpoly, [FETCH] = &&fetch, [KEEP] = &&keep,
        [256 + ADD] = &&numbers, [256 + SUBTRACT] = &&numbers, [256 + TIMES] = &&numbers, [256 + DIVIDE] = &&numbers,
        [256 + TICK] = &&numbers, [256 + LESS] = &&compare, [256 + EQUAL] = &&compare, [256 + NOT] = &&not,
        [256 + AND] = &&truths, [256 + OR] = &&truths, [256 + KNOWN] = &&known, [256 + CHOOSE] = &&choose,
        [256 + INSTEAD] = &&instead,
    };
#pragma GCC diagnostic pop
#define X (w >> 8 & 255)
#define A (w >> 16 & 255)
#define B (w >> 24 & 255)
#define GO                                                              \
    do {                                                                \
        w = ld64(c);                                                    \
        uint32_t code_ = w & 255, prim_ = (uint32_t)X + 256;            \
        goto *T[code_ == PRIMITIVE ? prim_ : code_];                    \
    } while (0)
#define NEXT(s)                                                         \
    do {                                                                \
        st[loc++] = (uint8_t)(s);                                       \
        c += 8;                                                         \
        if (c == end) goto done;                                        \
        GO;                                                             \
    } while (0)
/* A command with a slot. */
#define STAND(s)                                                        \
    do {                                                                \
        slot[loc] = (uint8_t)next++;                                    \
        NEXT(s);                                                        \
    } while (0)
#define NEED(cond)                                                      \
    do {                                                                \
        if (UNLIKELY(!(cond))) goto fault;                              \
    } while (0)
    uint32_t mapped = 0;
    for (uint32_t k = 0; k < R; k++) {
        rinfo *ri = &q->ri[k];
        const uint8_t *own = shapes + 16 * ri->shape, *end = p + ri->rcmd, *port;
        size_t loc = own[0];
        /* Open: D commands that wait for a React, a branch point's for that of its AllocPoly, or for a Keep;
         * km: own sinks that are not set. */
        uint32_t nk = own[1], open = ri->nd, km = (1u << nk) - 1, sb;
        uint64_t w;
        st64(st, ld64(own + 2) | ~0ull << 8 * loc);
        for (; c < end; c += 8, loc++) NEED(declare(q, k, ld64(c), st + loc, due + loc));
        end = p + ri->end;
        uint8_t *const slot = q->slot + mapped;
        ri->map = (uint16_t)mapped;
        stv(slot, (v2){0x0706050403020100ull, 0x0F0E0D0C0B0A0908ull});
        if (UNLIKELY(loc > 16)) {
            for (uint32_t l = 16; l < loc; l++) slot[l] = (uint8_t)l;
        }
        uint32_t next = (uint32_t)loc;
        GO;
    constant:
        NEED(!(w & 0xFFFF0000u));
        if (X == 1) NEED(w >> 32 <= 1);
        if (X > 1) NEED(X - 2 < S && w >> 32 < R && q->ri[w >> 32].shape == X - 2);
        STAND(X);
    global:
        NEED(!(w >> 16) && X <= G);
        STAND(X ? p[7 + X] : 0);
    supply:
        sb = st[B];
        port = shapes + 16 * (sb & 31);
        NEED(!(w >> 32) && is_deployment(sb));
        NEED(X < port[0] && port[2 + X] == st[A] && (due[B] >> X & 1));
        due[B] ^= (uint8_t)(1u << X);
        NEXT(OTHER);
    react:
        NEED(!(w & 0xFFFFFFFF00FFFF00ull) && is_deployment(st[B]) && due[B] == 0x80);
        due[B] = 0;
        open--;
        NEXT(OTHER);
    consume:
        sb = st[B];
        port = shapes + 16 * (sb & 31);
        NEED(!(w & 0xFFFFFFFF00FF0000ull) && is_deployment(sb));
        NEED(X < port[1] && due[B] == 0);
        STAND(port[9 + X]);
    sink:
        NEED(!(w >> 24) && X < nk);
        NEED(own[9 + X] == st[A] && (km >> X & 1));
        km ^= 1u << X;
        NEXT(OTHER);
    allocpoly:
        sb = st[B];
        NEED(!(w & 0xFFFFFFFF0000FF00ull) && is_branch(sb));
        NEED(st[A] == 2 + (sb & 31) && due[B] == 1);
        due[B] = 0;
        due[loc] = all_due(shapes + 16 * (sb & 31));
        STAND(DEPLOYMENT | (sb & 31));
    fetch:
        sb = st[B];
        NEED(!(w & 0xFFFFFFFF00FFFF00ull) && is_cell(sb));
        STAND(sb & 1);
    keep:
        sb = st[B];
        NEED(!(w & 0xFFFFFFFF0000FF00ull) && is_cell(sb));
        NEED(st[A] == (sb & 1) && due[B]);
        due[B] = 0;
        open--;
        STAND(OTHER);
    numbers: /* two numbers to a number */
        NEED(!(w >> 32) && !(st[A] | st[B]));
        STAND(0);
    compare: /* two numbers to a truth */
        NEED(!(w >> 32) && !(st[A] | st[B]));
        STAND(1);
    not:
        NEED(!(w >> 24) && st[A] == 1);
        STAND(1);
    truths:
        NEED(!(w >> 32) && st[A] == 1 && st[B] == 1);
        STAND(1);
    known:
        NEED(!(w >> 24) && is_value(st[A]));
        STAND(1);
    choose:
        sb = st[B];
        NEED(!(w >> 40) && st[A] == 1 && is_value(sb) && sb == st[w >> 32]);
        STAND(sb);
    instead:
        sb = st[B];
        NEED(!(w >> 32) && is_value(sb) && sb == st[A]);
        STAND(sb);
    done:
        if (UNLIKELY(open | km)) return pack(7, (uint64_t)(en - p) + 4 * k);
        mapped += (uint32_t)loc;
        ri->kby = (uint16_t)(8 * next);
        ri->size = (uint16_t)(3 + 2 * (next + nk));
        for (size_t l = 0; l < loc; l += 16) stv(st + l, other);
        continue;
    fault:
        return command_fault(p, c, q, k, st, due);
    }
    return 0;
}
#undef X
#undef A
#undef B
#undef GO
#undef NEXT

/* ---- memory ---- */

#define W(i) (m + 4 * (size_t)(i))

/* The or of `bytes` bytes, a multiple of 4. */
INLINE uint64_t any(const uint8_t *a, size_t bytes) {
    uint64_t r = 0;
    if (bytes >= 64) {
        v2 x = ldv(a), y = ldv(a + 16), z = ldv(a + 32), t = ldv(a + 48);
        for (a += 64, bytes -= 64; bytes >= 64; a += 64, bytes -= 64) {
            x |= ldv(a);
            y |= ldv(a + 16);
            z |= ldv(a + 32);
            t |= ldv(a + 48);
        }
        x |= y | z | t;
        r = x[0] | x[1];
    }
    for (; bytes >= 8; a += 8, bytes -= 8) r |= ld64(a);
    if (bytes) r |= ld32(a);
    return r;
}

/* Zeroes `bytes` bytes, a multiple of 8. */
INLINE void wipe(uint8_t *a, size_t bytes) {
    const v2 z = {0, 0};
    for (; bytes >= 64; a += 64, bytes -= 64) {
        stv(a, z);
        stv(a + 16, z);
        stv(a + 32, z);
        stv(a + 48, z);
    }
    for (; bytes >= 16; a += 16, bytes -= 16) stv(a, z);
    if (bytes) st64(a, 0);
}

/* The or of one deployment's slots but the D slots. */
INLINE uint64_t any_slot(const rinfo *ri, const uint8_t *slots) {
    return any(slots, ri->dby) | any(slots + ri->rby, 4 * (ri->size - 3u) - ri->rby);
}

/* Zeroes one deployment's slots but the D slots. */
INLINE void clear(const rinfo *ri, uint8_t *slots) {
    if (ri->nd == 0) {
        wipe(slots, 4 * (ri->size - 3u));
    } else {
        wipe(slots, ri->dby);
        wipe(slots + ri->rby, 4 * (ri->size - 3u) - ri->rby);
    }
}

/* A value of kind 0 or 1: blank, or 1 and any content, or 2 and 0 or 1. */
INLINE int legal(uint32_t kind, uint64_t s) {
    return s == 0 || ((uint32_t)s == 1 + kind && !(kind && s >> 33));
}

/* Depths are noted by index, of deployments that have been named; 0 for the others. */
INLINE void clear_depths(uint8_t *depth, uint32_t u) {
    if (u > 512) {
        memset(depth, 0, u);
    } else {
        for (uint32_t j = 0; j < u; j += 16) stv(depth + j, (v2){0, 0});
    }
    depth[2] = 1;
}

/* The chain from `at` of a branch point of shape x, owned at i with depth d. No deployment begins above `last`. */
INLINE int sound_chain(const prog *q, const uint8_t *m, uint32_t i, uint32_t d, uint32_t x, uint32_t at, uint32_t last,
                       uint8_t *depth, uint32_t *named) {
    uint64_t seen = 0;
    uint32_t below = last + 1;
    while (at) {
        if (UNLIKELY(at <= i || at >= below)) return 0;
        uint32_t k = ld32(W(at));
        if (UNLIKELY(k >= q->R || q->ri[k].shape != x || (seen >> k & 1) || depth[at] != 0)) return 0;
        seen |= 1ull << k;
        depth[at] = (uint8_t)(d + 1);
        ++*named;
        below = at;
        at = ld32(W(at + 2));
    }
    return 1;
}

/* At the greatest depth a child would be too deep: every D slot has to be an empty branch point or a cell. */
COLD int childless(const rinfo *ri, const uint8_t *p, const uint8_t *slot) {
    for (const uint8_t *c = p + ri->dcmd, *end = p + ri->rcmd; c < end; c += 8, slot += 8) {
        if (c[0] == CELL ? !legal(c[1], ld64(slot)) : ld64(slot) != 5) return 0;
    }
    return 1;
}

/* Whether the image is sound. The D slots are tested here and not in a function: that takes a nanosecond less. */
NOINLINE int sound(const prog *q, const uint8_t *p, const uint8_t *m, uint32_t n) {
    uint32_t u = ld32(m), turns = ld32(m + 4), main = q->R - 1, R = q->R;
    if (UNLIKELY(u > n || turns > MAX_TURNS)) return 0;
    if (turns == 0) return u == 2u + q->ri[main].size && ld32(W(2)) == main && !any(W(3), 4 * (size_t)(n - 3));
    if (UNLIKELY(u < 2 + MIN_SIZE || ld32(W(2)) != main || ld32(W(4)) != 0)) return 0;
    if (UNLIKELY(any(W(u), 4 * (size_t)(n - u)))) return 0;
    uint8_t depth[MAX_N + 64];
    clear_depths(depth, u);
    uint32_t last = u - MIN_SIZE, named = 0, count = 0, i = 2;
    do {
        uint64_t head = ld64(W(i));
        uint32_t r = (uint32_t)head, d = depth[i];
        if (UNLIKELY(head >> 32 != 1 || r >= R || d == 0)) return 0;
        const rinfo *ri = &q->ri[r];
        uint32_t size = ri->size;
        if (UNLIKELY(size > u - i)) return 0;
        const uint8_t *slots = W(i + 3);
        count++;
        if (ri->nd == 0) {
            if (UNLIKELY(any(slots, 4 * (size - 3)))) return 0;
        } else {
            if (UNLIKELY(any_slot(ri, slots))) return 0;
            const uint8_t *c = p + ri->dcmd, *end = p + ri->rcmd, *slot = slots + ri->dby;
            if (UNLIKELY(d >= MAX_DEPTH)) {
                if (!childless(ri, p, slot)) return 0;
                c = end;
            }
            for (; c < end; c += 8, slot += 8) {
                uint64_t s = ld64(slot);
                uint32_t at = (uint32_t)(s >> 32), x = c[1];
                if (c[0] == ALLOC_MONO) {
                    if (UNLIKELY((uint32_t)s != 4 || at <= i || at > last || ld32(W(at)) != x ||
                                 ld32(W(at + 2)) != 0 || depth[at] != 0)) {
                        return 0;
                    }
                    depth[at] = (uint8_t)(d + 1);
                    named++;
                } else if (c[0] == CELL) {
                    if (UNLIKELY(!legal(x, s))) return 0;
                } else {
                    if (UNLIKELY((uint32_t)s != 5)) return 0;
                    if (UNLIKELY(!sound_chain(q, m, i, d, x, at, last, depth, &named))) return 0;
                }
            }
        }
        i += size;
    } while (i <= last);
    /* Each of count - 1 children was named once; more names hit something else. */
    return i == u && named == count - 1;
}

/* ---- the place of an image that is not sound ---- */

/* 1 where a deployment begins; 0 if they do not tile the used words. */
COLD int tile(const prog *q, const uint8_t *m, uint32_t u, uint8_t *begins) {
    memset(begins, 0, u);
    for (uint32_t i = 2; i < u;) {
        uint32_t r = ld32(W(i));
        if (r >= q->R || q->ri[r].size > u - i) return 0;
        begins[i] = 1;
        i += q->ri[r].size;
    }
    return 1;
}

/* Whether D command c of the deployment at i fits its slot s. What is named once goes from 1 to 3, twice to 5. */
COLD int slot_fits(const prog *q, const uint8_t *m, uint32_t i, const uint8_t *c, uint64_t s, uint8_t *begins) {
    uint32_t at = (uint32_t)(s >> 32), x = c[1], below = ld32(m);
    uint64_t seen = 0;
    int mono = c[0] == ALLOC_MONO;
    if (c[0] == CELL) return legal(x, s);
    if ((uint32_t)s != (mono ? 4 : 5) || (mono && !at)) return 0;
    for (; at; at = ld32(W(at + 2))) {
        if (at <= i || at >= below || !begins[at]) return 0;
        uint32_t k = ld32(W(at));
        if (mono ? k != x || ld32(W(at + 2)) : q->ri[k].shape != x || (seen >> k & 1)) return 0;
        seen |= 1ull << k;
        below = at;
        begins[at] = begins[at] == 1 ? 3 : 5;
    }
    return 1;
}

/* Whether the deployment at i fits: wired, its slots zero but D slots, and those sound. */
COLD int deployment_fits(const prog *q, const uint8_t *p, const uint8_t *m, uint32_t i, uint8_t *begins) {
    const rinfo *ri = &q->ri[ld32(W(i))];
    const uint8_t *slot = W(i + 3) + ri->dby;
    if (ld32(W(i + 1)) != 1 || (i == 2 && ld32(W(4))) || any_slot(ri, W(i + 3))) return 0;
    for (const uint8_t *c = p + ri->dcmd, *end = p + ri->rcmd; c < end; c += 8, slot += 8) {
        if (!slot_fits(q, m, i, c, ld64(slot), begins)) return 0;
    }
    return 1;
}

/* 0 for the frame; the lowest deployment that does not fit; the lowest that is not named once; 0 for a depth. */
COLD uint64_t image_fault(const prog *q, const uint8_t *p, const uint8_t *m, uint32_t n) {
    uint32_t u = ld32(m), turns = ld32(m + 4), size = q->ri[q->R - 1].size, i;
    uint8_t begins[MAX_N];
    if (u > n || turns > MAX_TURNS || u < 2 + MIN_SIZE || ld32(W(2)) != q->R - 1) return 0;
    if (!tile(q, m, u, begins) || any(W(u), 4 * (size_t)(n - u))) return 0;
    if (turns == 0) return any(W(3), 4 * (size - 1)) ? 2 : 2 + size;
    for (i = 2; i < u; i += q->ri[ld32(W(i))].size) {
        if (!deployment_fits(q, p, m, i, begins)) return i;
    }
    for (i = 2 + size; i < u; i += q->ri[ld32(W(i))].size) {
        if (begins[i] != 3) return i;
    }
    return 0;
}

/* ---- primitives, on slots ---- */

/* S if a and b are numbers and it is not `over`, else blank; a number's mark is 1. */
INLINE uint64_t number_of(uint64_t a, uint64_t b, uint64_t over, uint64_t s) { return s & -(a & b & 1 & ~over); }

/* A number is content << 32 | 1, so that the sum of a and b's content passes 64 bits where that of the contents
 * passes 32. */
INLINE uint64_t sum(uint64_t a, uint64_t b) {
    int64_t s;
    uint64_t over = __builtin_add_overflow((int64_t)a, (int64_t)(b & CONTENT), &s);
    return number_of(a, b, over, (uint64_t)s);
}

INLINE uint64_t difference(uint64_t a, uint64_t b) {
    int64_t s;
    uint64_t over = __builtin_sub_overflow((int64_t)a, (int64_t)(b & CONTENT), &s);
    return number_of(a, b, over, (uint64_t)s);
}

INLINE uint64_t product(uint64_t a, uint64_t b) {
    int32_t s;
    uint64_t over = __builtin_mul_overflow((int32_t)(a >> 32), (int32_t)(b >> 32), &s);
    return number_of(a, b, over, (uint64_t)(uint32_t)s << 32 | 1);
}

/* A blank divisor has content 0. */
INLINE uint64_t quotient(uint64_t a, uint64_t b) {
    int32_t v = (int32_t)(a >> 32), d = (int32_t)(b >> 32);
    if (UNLIKELY(d == 0 || !a || (d == -1 && v == INT32_MIN))) return 0;
    v = UNLIKELY(d == -1) ? -v : v / d;
    return (uint64_t)(uint32_t)v << 32 | 1;
}

INLINE uint64_t tick_difference(uint64_t a, uint64_t b) { return (a - (b & CONTENT)) & -(a & b & 1); }

/* A truth is content << 32 | 2. */
INLINE uint64_t truth_of(uint64_t a, uint64_t b, uint64_t t) { return (t << 32 | 2) & -(a & b & 1); }
INLINE uint64_t less_than(uint64_t a, uint64_t b) { return truth_of(a, b, (int64_t)a < (int64_t)b); }
INLINE uint64_t equal_to(uint64_t a, uint64_t b) { return truth_of(a, b, a == b); }
INLINE uint64_t negation(uint64_t a) { return a ^ (a & 2) << 31; }

/* False if one is false; else true if both are known. */
INLINE uint64_t conjunction(uint64_t a, uint64_t b) {
    return (a & b) | (((a & ~(a >> 31)) | (b & ~(b >> 31))) & 2);
}

/* True if one is true; else false if both are known. */
INLINE uint64_t disjunction(uint64_t a, uint64_t b) {
    uint64_t r = a | b;
    return r & -(((a & b) >> 1 | r >> 32) & 1);
}

INLINE uint64_t choice(uint64_t t, uint64_t a, uint64_t b) {
    a = t >> 32 ? a : b;
    return t ? a : 0;
}

INLINE uint64_t first_known(uint64_t a, uint64_t b) { return a ? a : b; }

/* ---- turn ---- */

/* A turn refused with 14 or 15: the image was sound with u0 words used; words up to u may have been written, but
 * not words 0 and 1. */
COLD void undo(const prog *q, const uint8_t *p, uint8_t *m, uint32_t u0, uint32_t u) {
    if (ld32(m + 4) == 0) {
        memset(W(3), 0, 4 * (size_t)(u - 3));
        return;
    }
    for (uint32_t i = 2; i < u0;) {
        const rinfo *ri = &q->ri[ld32(W(i))];
        uint8_t *slot = W(i + 3);
        clear(ri, slot);
        slot += ri->dby;
        for (const uint8_t *c = p + ri->dcmd, *end = p + ri->rcmd; c < end; c += 8, slot += 8) {
            uint32_t at = ld32(slot + 4);
            if (c[0] != CELL && at >= u0) st32(slot + 4, ld32(W(at + 2)));
        }
        i += ri->size;
    }
    memset(W(u0), 0, 4 * (size_t)(u - u0));
}

/* The refusal of a new deployment of reactor x below `height` + 1 open ones with `left` words to take; 0 if none. */
INLINE uint64_t no_place(const prog *q, uint32_t x, uint32_t height, uint32_t left) {
    if (UNLIKELY(height + 2 > MAX_DEPTH)) return pack(15, x);
    if (UNLIKELY(q->ri[x].size > left)) return pack(14, x);
    return 0;
}

/* Runs the D commands of the deployment at dep; 0, or the refusal. */
INLINE uint64_t wire(const prog *q, const uint8_t *p, uint8_t *m, uint32_t n, uint32_t dep, uint32_t height,
                     uint32_t *u) {
    const rinfo *ri = &q->ri[ld32(W(dep))];
    uint8_t *slot = W(dep + 3) + ri->dby;
    for (const uint8_t *c = p + ri->dcmd, *end = p + ri->rcmd; c < end; c += 8, slot += 8) {
        if (c[0] == MAKE_POLY) {
            st64(slot, 5);
        } else if (c[0] == CELL) {
            st64(slot, (ld64(c) & CONTENT) | (c[1] + 1u));
        } else {
            uint64_t refusal = no_place(q, c[1], height, n - *u);
            if (UNLIKELY(refusal)) return refusal;
            st32(W(*u), c[1]);
            st64(slot, (uint64_t)*u << 32 | 4);
            *u += q->ri[c[1]].size;
        }
    }
    st32(W(dep + 1), 1);
    return 0;
}

/* The deployment of reactor x at a branch point, made if missing: its index, or the refusal, which is 2^32 or more. */
INLINE uint64_t find_or_make(const prog *q, uint8_t *m, uint32_t n, uint32_t x, uint8_t *point, uint32_t height,
                             uint32_t *u) {
    uint32_t head = ld32(point + 4), at = head;
    while (at && ld32(W(at)) != x) at = ld32(W(at + 2));
    if (LIKELY(at)) return at;
    uint64_t refusal = no_place(q, x, height, n - *u);
    if (UNLIKELY(refusal)) return refusal;
    at = *u;
    *u += q->ri[x].size;
    st32(W(at), x);
    st32(W(at + 2), head);
    st32(point + 4, at);
    return at;
}

/* The readings as values; how many of them are legal, up to the first that is not. */
INLINE uint32_t take_readings(const uint8_t *kinds, const uint8_t *rd, uint32_t G, uint64_t *values) {
    uint32_t k = 0;
    for (; k < G; k++) {
        uint64_t s = ld64(rd + 8 * k);
        if (UNLIKELY(!legal(kinds[k], s))) break;
        values[k] = s;
    }
    return k;
}

/* Fills the cells, from the newest Keep's slot on: a mark in 2 bits, the cell's index in 14, the next Keep's in 14. */
INLINE void fill_cells(uint8_t *m, uint32_t kept) {
    while (kept) {
        uint64_t v = ld64(W(kept));
        st64(m + (v & 0xFFFC), v & (CONTENT | 3));
        kept = v >> 16 & 0x3FFF;
    }
}

/* An open deployment below the topmost. */
typedef struct {
    const uint8_t *c, *cend;  /* the command that runs, and the end */
    const uint8_t *map;       /* its locations' slots */
    uint8_t *base, *out, *ks; /* all slots, the next result's, the sinks */
} frame;

uint64_t base_turn(const uint8_t *p, size_t n, uint8_t *m, size_t memlen, const uint8_t *rd, size_t rdlen, uint8_t *sk,
                   size_t sklen) {
    prog q;
    uint64_t glob[32], refusal = check(p, n, &q);
    if (UNLIKELY(refusal)) return refusal;
    size_t words = memlen / 4;
    if (UNLIKELY(words < 2 || words > MAX_N)) return pack(8, words);
    uint32_t N = (uint32_t)words;
    if (UNLIKELY(!sound(&q, p, m, N))) return pack(9, image_fault(&q, p, m, N));
    uint32_t G = q.G;
    if (UNLIKELY(rdlen / 4 != 2 * (size_t)G)) return pack(10, rdlen / 4);
    uint32_t taken = take_readings(p + 8, rd, G, glob + 1);
    if (UNLIKELY(taken < G)) return pack(11, taken);
    uint32_t kbytes = 8u * q.shapes[16 * q.ri[q.R - 1].shape + 1];
    if (UNLIKELY(sklen / 4 < kbytes / 4)) return pack(12, kbytes / 4);
    uint32_t turns = ld32(m + 4);
    if (UNLIKELY(turns == MAX_TURNS)) return pack(13, 0);
    glob[0] = (uint64_t)(turns + 1) << 32 | 1;

    uint16_t ran[MAX_N / MIN_SIZE + 1]; /* a turn runs no deployment twice */
    frame pile[MAX_DEPTH];
    uint32_t nran = 0, height = 0, kept = 0; /* kept: the index of the newest Keep's slot */
    uint32_t u0 = ld32(m), u = u0, dep = 2;
    const rinfo *ri = &q.ri[q.R - 1];
    const uint8_t *c, *cend, *map;
    uint8_t *base, *out, *ks;
    uint64_t w, d;
    /* By code, primitives after the last of them; the check lets nothing pass that has no entry. */
    enum { P = KEEP + 1 };
    static const void *const T[P + PRIMITIVES] = {
        [CONSTANT] = &&constant, [GLOBAL] = &&global, [SUPPLY] = &&supply, [REACT] = &&react,
        [CONSUME] = &&consume, [SINK] = &&sink, [ALLOC_POLY] = &&allocpoly, [FETCH] = &&fetch, [KEEP] = &&keep,
        [P + ADD] = &&add, [P + SUBTRACT] = &&subtract, [P + TIMES] = &&times, [P + DIVIDE] = &&divide,
        [P + TICK] = &&tick, [P + LESS] = &&less, [P + EQUAL] = &&equal, [P + NOT] = &&not, [P + AND] = &&and,
        [P + OR] = &&or, [P + KNOWN] = &&known, [P + CHOOSE] = &&choose, [P + INSTEAD] = &&instead,
    };
#define X (w >> 8 & 255)
#define A ld64(base + 8 * (size_t)map[w >> 16 & 255])
#define B ld64(base + 8 * (size_t)map[w >> 24 & 255])
#define C ld64(base + 8 * (size_t)map[w >> 32 & 255])
#define AT_B_IN_D (base + (w >> 21 & 0x7F8)) /* up to the D commands every location has a slot */
#define GO                                                              \
    do {                                                                \
        w = ld64(c);                                                    \
        uint32_t code_ = w & 255, prim_ = (uint32_t)X + P - PRIMITIVE;  \
        goto *T[code_ + (code_ == PRIMITIVE ? prim_ : 0)];              \
    } while (0)
#define NEXT                                                            \
    do {                                                                \
        c += 8;                                                         \
        if (c == cend) goto leave;                                      \
        GO;                                                             \
    } while (0)
#define GIVE(v)                                                         \
    do {                                                                \
        st64(out, (v));                                                 \
        out += 8;                                                       \
        NEXT;                                                           \
    } while (0)

open: /* the deployment at dep, of ri, on top of `height` others */
    ran[nran++] = (uint16_t)dep;
    base = W(dep + 3);
    c = p + ri->rcmd;
    cend = p + ri->end;
    map = q.slot + ri->map;
    out = base + ri->rby;
    ks = base + ri->kby;
    if (UNLIKELY(ld32(W(dep + 1)) == 0)) {
        refusal = wire(&q, p, m, N, dep, height, &u);
        if (UNLIKELY(refusal)) goto refuse;
    }
    GO;
constant: GIVE((w & CONTENT) | (X < 2 ? X + 1 : 3));
global: GIVE(glob[X]);
supply: /* of a deployment's slot the mark 4 is shifted out, which leaves its index times 4 */
    d = B;
    if (LIKELY(d)) st64(m + (d >> 30) + 12 + 8 * X, A);
    NEXT;
react:
    d = B;
    if (UNLIKELY(!d)) NEXT;
    pile[height++] = (frame){c, cend, map, base, out, ks};
    dep = (uint32_t)(d >> 32);
    ri = &q.ri[ld32(W(dep))];
    goto open;
consume:
    d = B;
    if (LIKELY(d)) d = ld64(W((d >> 32) + 3) + q.ri[ld32(W(d >> 32))].kby + 8 * X);
    GIVE(d);
sink:
    st64(ks + 8 * X, A);
    NEXT;
allocpoly:
    d = A;
    if (UNLIKELY(!d)) GIVE(0);
    d = refusal = find_or_make(&q, m, N, (uint32_t)(d >> 32), AT_B_IN_D, height, &u);
    if (UNLIKELY(refusal >> 32)) goto refuse;
    GIVE(d << 32 | 4);
fetch: GIVE(ld64(AT_B_IN_D));
keep:
    d = A | (uint32_t)(AT_B_IN_D - m) | kept << 16;
    kept = (uint32_t)(out - m) >> 2;
    GIVE(d);
add: GIVE(sum(A, B));
subtract: GIVE(difference(A, B));
times: GIVE(product(A, B));
divide: GIVE(quotient(A, B));
tick: GIVE(tick_difference(A, B));
less: GIVE(less_than(A, B));
equal: GIVE(equal_to(A, B));
not: GIVE(negation(A));
and: GIVE(conjunction(A, B));
or: GIVE(disjunction(A, B));
known: GIVE((uint64_t)(A != 0) << 32 | 2);
choose: GIVE(choice(A, B, C));
instead: GIVE(first_known(A, B));
leave:
    if (height) {
        const frame *o = &pile[--height];
        c = o->c;
        cend = o->cend;
        map = o->map;
        base = o->base;
        out = o->out;
        ks = o->ks;
        NEXT;
    }
    /* Main has left: ks are its sinks. */
    for (uint32_t k = 0; k < kbytes; k += 8) st64(sk + k, ld64(ks + k));
    fill_cells(m, kept);
    for (uint32_t k = 0; k < nran; k++) clear(&q.ri[ld32(W(ran[k]))], W(ran[k] + 3));
    st32(m, u);
    st32(m + 4, turns + 1);
    return u;
refuse:
    undo(&q, p, m, u0, u);
    return refusal;
}

/* ---- check and start ---- */

uint64_t base_check(const uint8_t *p, size_t n) {
    prog q;
    uint64_t refusal = check(p, n, &q);
    return refusal ? refusal : q.ri[q.R - 1].size;
}

uint64_t base_start(const uint8_t *p, size_t n, uint8_t *mem, size_t memlen) {
    prog q;
    uint64_t refusal = check(p, n, &q);
    if (UNLIKELY(refusal)) return refusal;
    size_t words = memlen / 4;
    if (UNLIKELY(words < 2 || words > MAX_N)) return pack(8, words);
    uint32_t main = q.R - 1, size = q.ri[main].size;
    if (UNLIKELY(words - 2 < size)) return pack(14, main);
    memset(mem, 0, 4 * words);
    st32(mem, 2 + size);
    st32(mem + 8, main);
    return 2 + size;
}
