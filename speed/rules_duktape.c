/* The rules in Duktape, whose numbers are doubles; blank is undefined. */
#include "rules.h"
#include <duktape.h>
#include <stdio.h>
#include <stdlib.h>

#define OUTSIDE(a) a " < -2147483648 || " a " > 2147483647"

static const char *const source[RULES] = {
    "(function (a, b, c) {\n"
    "  if (a === undefined || b === undefined || c === undefined) return undefined;\n"
    "  var s = a + b;\n"
    "  if (" OUTSIDE("s") ") return undefined;\n"
    "  s = s + c;\n"
    "  if (" OUTSIDE("s") ") return undefined;\n"
    "  return (s / 3) | 0;\n"
    "})",

    "(function () { var t = 0; return function (a, b) {\n"
    "  t = t + 1;\n"
    "  if (a === undefined || b === undefined) return undefined;\n"
    "  var s = t % 2 === 1 ? a - b : a + b;\n"
    "  if (" OUTSIDE("s") ") return undefined;\n"
    "  return s;\n"
    "}; })()",

    "(function (erase, bits, spare, out) {\n"
    "  var wear, cls, p;\n"
    "  if (erase !== undefined) {\n"
    "    p = erase * 100;\n"
    "    if (!(" OUTSIDE("p") ")) wear = (p / 3000) | 0;\n"
    "  }\n"
    "  if (spare !== undefined) {\n"
    "    if (spare < 4) cls = 3;\n"
    "    else if (wear !== undefined && wear > 89 || bits !== undefined && bits > 40) cls = 2;\n"
    "    else if (wear !== undefined && bits !== undefined) cls = wear > 69 || bits > 20 ? 1 : 0;\n"
    "  }\n"
    "  out[0] = cls;\n"
    "  out[1] = cls === undefined ? undefined : cls > 1;\n"
    "  out[2] = wear;\n"
    "})",

    "(function () { var most = -2147483648; return function (a) {\n"
    "  if (a !== undefined && a > most) most = a;\n"
    "  return most;\n"
    "}; })()",
};

typedef struct {
    duk_context *c; /* the rule's function at 0, an array for several sinks at 1 */
    int rule;
} vm;

static void die(vm *v) {
    fprintf(stderr, "duktape: %s\n", duk_safe_to_string(v->c, -1));
    exit(2);
}

static void load_rule(void *h) {
    vm *v = h;
    if (duk_peval_string(v->c, source[v->rule])) die(v);
    duk_replace(v->c, 0);
}

static void *open_rule(int rule) {
    vm *v = malloc(sizeof *v);
    if (!v) exit(2);
    *v = (vm){duk_create_heap_default(), rule};
    if (!v->c) exit(2);
    duk_push_undefined(v->c);
    duk_push_array(v->c);
    for (duk_uarridx_t i = 0; i < MOST_RESULTS; i++) {
        duk_push_undefined(v->c);
        duk_put_prop_index(v->c, 1, i);
    }
    load_rule(v);
    return v;
}

static void put(duk_context *c, uint32_t *sink) {
    int type = duk_get_type(c, -1);
    sink[0] = type == DUK_TYPE_NUMBER ? REMUS_NUMBER : type == DUK_TYPE_BOOLEAN ? REMUS_TRUTH : REMUS_BLANK;
    sink[1] = type == DUK_TYPE_NUMBER ? (uint32_t)duk_get_int(c, -1) : (uint32_t)duk_get_boolean(c, -1);
    duk_pop(c);
}

static void turn(void *h, const uint32_t *readings, uint32_t *sinks) {
    vm *v = h;
    int n = rule_readings[v->rule], k = rule_results[v->rule];
    duk_dup(v->c, 0);
    for (int i = 0; i < n; i++) {
        if (readings[2 * i]) {
            duk_push_int(v->c, (int32_t)readings[2 * i + 1]);
        } else {
            duk_push_undefined(v->c);
        }
    }
    if (k > 1) duk_dup(v->c, 1);
    if (duk_pcall(v->c, n + (k > 1))) die(v);
    if (k == 1) {
        put(v->c, sinks);
        return;
    }
    duk_pop(v->c);
    for (int i = 0; i < k; i++) {
        duk_get_prop_index(v->c, 1, (duk_uarridx_t)i);
        put(v->c, sinks + 2 * i);
    }
}

static void close_rule(void *h) {
    vm *v = h;
    duk_destroy_heap(v->c);
    free(v);
}

const engine duktape = {"Duktape", open_rule, turn, load_rule, close_rule};
