/* Other ways to run a rule: an engine holds one, loaded once. */
#ifndef RULES_H
#define RULES_H
#include <remus.h>

enum { AVERAGE, TOGGLE, HEALTH, MAXIMUM, RULES };
enum { MOST_READINGS = 3, MOST_RESULTS = 3 };
extern const int rule_readings[RULES], rule_results[RULES];

/* Readings and sinks are pairs of mark and content. */
typedef struct {
    const char *name;
    void *(*open)(int rule);
    void (*turn)(void *, const uint32_t *readings, uint32_t *sinks);
    void (*exchange)(void *); /* loads the rule's text anew, where there is one */
    void (*close)(void *);
} engine;

extern const engine compiled_in, lua, luajit, duktape;

#endif
