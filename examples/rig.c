/* rig.c: programs on the Remus machine: a check, a figure, a start, turns on bytes and on words, previews, refusals, and
 * one that is made of a text.
 *
 *     cc -Ibuild examples/rig.c build/libremus.a
 *
 * The toggle has two readings. On odd turns its sink is their difference, on even turns their sum: main chooses by the
 * time which of two reactors runs at its branch point, and each is deployed on the first turn that needs it. */
#include <inttypes.h>
#include <remus.h>
#include <stdio.h>
#include <string.h>

enum {
    ROOM = REMUS_MAX_WORDS * REMUS_WORD_BYTES, /* for any program's memory; this one takes as much as its figure says */
    SPARE = 3,                                 /* bytes past the last word, to see that they are kept */
    UNUSED = 0xEE                              /* what is in memory before a start, which does not mind */
};

/* A command is eight bytes: code, x, a, b and four bytes of v. The locations that a and b name count from 0 in each
 * reactor: sources, D commands, R commands, sinks. */
static const uint8_t toggle[] = {
    1, 2, 3, 2, 0, 0, 0, 0,                         /* header: format 1, 2 shapes, 3 reactors, 2 globals */
    0, 0,                                           /* globals 1 and 2 are numbers */
    2, 1, 0, 0, 0, 0, 0, 0, 0, 0, 0, 0, 0, 0, 0, 0, /* shape 0: two sources and one sink, numbers */
    0, 1, 0, 0, 0, 0, 0, 0, 0, 0, 0, 0, 0, 0, 0, 0, /* shape 1: no source and one sink, a number */
    0, 0, 2, 0,                                     /* reactor 0, plus: shape 0, no D and 2 R commands */
    0, 0, 2, 0,                                     /* reactor 1, minus: the same */
    1, 1, 16, 0,                                    /* reactor 2, main: shape 1, 1 D and 16 R commands */
    /* plus: its sources are locations 0 and 1 */
    10, 0, 0, 1, 0, 0, 0, 0, /*  2 Primitive 0, add: 0 and 1 */
    8, 0, 2, 0, 0, 0, 0, 0,  /*  3 Sink 0: location 2 */
    /* minus */
    10, 1, 0, 1, 0, 0, 0, 0, /*  2 Primitive 1, subtract: 0 less 1 */
    8, 0, 2, 0, 0, 0, 0, 0,  /*  3 Sink 0: location 2 */
    /* main */
    2, 0, 0, 0, 0, 0, 0, 0,   /*  0 MakePoly: a branch point for reactors of shape 0 */
    4, 0, 0, 0, 0, 0, 0, 0,   /*  1 Global 0, the time */
    4, 1, 0, 0, 0, 0, 0, 0,   /*  2 Global 1, the first reading */
    4, 2, 0, 0, 0, 0, 0, 0,   /*  3 Global 2, the second reading */
    3, 0, 0, 0, 2, 0, 0, 0,   /*  4 Constant: the number 2 */
    10, 3, 1, 4, 0, 0, 0, 0,  /*  5 Primitive 3, divide: half the time, cut */
    10, 2, 5, 4, 0, 0, 0, 0,  /*  6 Primitive 2, times: twice that */
    10, 6, 6, 1, 0, 0, 0, 0,  /*  7 Primitive 6, equal: whether it is the time, which is even then */
    3, 2, 0, 0, 0, 0, 0, 0,   /*  8 Constant: reactor 0, plus */
    3, 2, 0, 0, 1, 0, 0, 0,   /*  9 Constant: reactor 1, minus */
    10, 11, 7, 8, 9, 0, 0, 0, /* 10 Primitive 11, choose: plus if 7 is true, else minus */
    9, 0, 10, 0, 0, 0, 0, 0,  /* 11 AllocPoly: the deployment of that reactor at branch point 0 */
    5, 0, 2, 11, 0, 0, 0, 0,  /* 12 Supply: the first reading to its source 0 */
    5, 1, 3, 11, 0, 0, 0, 0,  /* 13 Supply: the second reading to its source 1 */
    6, 0, 0, 11, 0, 0, 0, 0,  /* 14 React: run it */
    7, 0, 0, 11, 0, 0, 0, 0,  /* 15 Consume: its sink 0 */
    8, 0, 15, 0, 0, 0, 0, 0,  /* 16 Sink 0: location 15 */
};

/* The average of three readings, in Haai. */
static const char average[] = "(source a) (source b) (source c)\n"
                              "(defr (average x y z) (/ (+ (+ x y) z) 3))\n"
                              "(defr (main) (average a b c))\n";

/* What each refusal means, and what its place is. No call gives another number. */
static const struct {
    const char *meaning, *place;
} why[] = {
    [REMUS_PROGRAM_LENGTH] = {"the program is not as long as its counts call for", "bytes"},
    [REMUS_TABLE_BYTE] = {"a byte of the program's tables is not legal", "byte"},
    [REMUS_COMMAND] = {"a command is not legal", "byte"},
    [REMUS_OPERAND] = {"a command names a location that it may not", "byte"},
    [REMUS_PORT_OR_KIND] = {"a command names no such port, or a value of another kind", "byte"},
    [REMUS_SET_TWICE] = {"a command sets a source or a sink for the second time", "byte"},
    [REMUS_MISSING] = {"a reactor lacks a React, an AllocPoly, a Keep or a Sink", "byte"},
    [REMUS_MEMORY_LENGTH] = {"memory is too short or too long", "words"},
    [REMUS_UNSOUND_IMAGE] = {"memory is not as this program left it", "word"},
    [REMUS_READINGS_LENGTH] = {"the readings are not a pair for each global", "words"},
    [REMUS_READING] = {"a reading is of the wrong kind, or its content is not legal", "reading"},
    [REMUS_SINK_SPACE] = {"the space for sinks is too short", "words needed"},
    [REMUS_CLOCK] = {"no further turn can be counted", "place"},
    [REMUS_NO_ROOM] = {"too few words are left for a new deployment", "reactor"},
    [REMUS_TOO_DEEP] = {"a new deployment would be too deep", "reactor"},
    [REMUS_TEXT_FORM] = {"a word of the text stands where it cannot", "byte"},
    [REMUS_TEXT_NAME] = {"a name of the text is unknown, unfit or repeated, or a count of operands is wrong", "byte"},
    [REMUS_OUTPUT_SPACE] = {"the output space is too short", "bytes needed"},
    [REMUS_TOO_EARLY] = {"a React or a Consume comes too early", "byte"},
    [REMUS_TOO_LATE] = {"a command comes too late, or for the second time", "byte"},
    [REMUS_NOT_LOWER] = {"an AllocMono names a reactor that is not lower", "byte"},
    [REMUS_WORK_LENGTH] = {"work memory is not as long as memory", "words"},
    [REMUS_CIRCULAR] = {"a reactor may come to deploy itself again", "reactor"},
    [REMUS_FIGURE_TOO_LARGE] = {"the program may take more words than memory can have", "place"},
    [REMUS_WITHDRAWN] = {"a command is the remainder, which is withdrawn", "byte"},
};

/* Whether an answer is a refusal; if so, says why. */
static int refused(uint64_t answer) {
    uint32_t number = remus_number(answer);
    if (number == REMUS_OK) {
        return 0;
    }
    printf("refused %" PRIu32 ": %s (%s %" PRIu32 ")\n", number, why[number].meaning, why[number].place,
           remus_place(answer));
    return 1;
}

/* A blank has no content to show. */
static void print_value(const uint8_t *pairs, size_t i) {
    if (!remus_known(pairs, i)) {
        printf(" blank");
    } else if (remus_mark(pairs, i) == REMUS_TRUTH) {
        printf(" %s", remus_content(pairs, i) ? "true" : "false");
    } else {
        printf(" %" PRId32, remus_content(pairs, i));
    }
}

static void check(void) {
    printf("check: ");
    uint64_t answer = remus_check(toggle, sizeof toggle);
    if (!refused(answer)) {
        printf("accepted, main has %" PRIu32 " words\n", remus_place(answer));
    }
}

/* Words that are enough for all turns: 0 and 1, 31 of main, and 11 of each reactor that main may deploy. */
static size_t figure(void) {
    printf("figure: ");
    uint64_t answer = remus_figure(toggle, sizeof toggle);
    if (refused(answer)) {
        return 0;
    }
    printf("%" PRIu32 " words are enough\n", remus_place(answer));
    return remus_place(answer);
}

static void start(uint8_t *memory, size_t memory_len) {
    printf("start in %zu words: ", memory_len / REMUS_WORD_BYTES);
    memset(memory, UNUSED, memory_len);
    uint64_t answer = remus_start(toggle, sizeof toggle, memory, memory_len);
    if (!refused(answer)) {
        printf("%" PRIu32 " in use\n", remus_place(answer));
    }
}

/* The turn after those completed: one that was refused does not count, nor does a preview. */
static void print_next(const uint8_t *memory, const uint8_t *readings, size_t readings_len) {
    printf("turn %" PRIu32 ", %s", remus_word(memory, 1) + 1, readings_len == 0 ? "no readings" : "readings");
    for (size_t i = 0; i < readings_len / REMUS_PAIR_BYTES; i++) {
        print_value(readings, i);
    }
    printf(": ");
}

/* What comes of a turn, or would come of it. */
static void print_outcome(uint64_t answer, const uint8_t *sinks) {
    if (!refused(answer)) {
        printf("sink");
        print_value(sinks, 0);
        printf(", %" PRIu32 " words in use\n", remus_place(answer));
    }
}

static void turn(uint8_t *memory, size_t memory_len, const uint8_t *readings, size_t readings_len) {
    print_next(memory, readings, readings_len);
    uint8_t sinks[REMUS_PAIR_BYTES];
    uint64_t answer =
        remus_turn(toggle, sizeof toggle, memory, memory_len, readings, readings_len, sinks, sizeof sinks);
    print_outcome(answer, sinks);
}

static void preview(const uint8_t *memory, size_t memory_len, uint8_t *work, size_t work_len, const uint8_t *readings,
                    size_t readings_len) {
    printf("preview of ");
    print_next(memory, readings, readings_len);
    uint8_t sinks[REMUS_PAIR_BYTES];
    uint64_t answer = remus_preview(toggle, sizeof toggle, memory, memory_len, work, work_len, readings, readings_len,
                                    sinks, sizeof sinks);
    print_outcome(answer, sinks);
}

/* Three turns, one with a reading missing, and one that is refused; with other readings it is tried, then made. */
static void run(size_t words) {
    static uint8_t memory[ROOM + SPARE], work[ROOM];
    size_t work_len = words * REMUS_WORD_BYTES, memory_len = work_len + SPARE;
    start(memory, memory_len);
    uint8_t readings[2 * REMUS_PAIR_BYTES];
    remus_put(readings, 0, REMUS_NUMBER, 7);
    remus_put(readings, 1, REMUS_NUMBER, 5);
    for (int i = 0; i < 3; i++) {
        turn(memory, memory_len, readings, sizeof readings);
    }
    remus_put(readings, 1, REMUS_BLANK, 0);
    turn(memory, memory_len, readings, sizeof readings);
    turn(memory, memory_len, NULL, 0);
    remus_put(readings, 1, REMUS_NUMBER, -5);
    preview(memory, memory_len, work, work_len, readings, sizeof readings);
    turn(memory, memory_len, readings, sizeof readings);
    printf("memory: %s\n", memcmp(work, memory, work_len) == 0 ? "as the preview has shown" : "otherwise");
    int kept = 1;
    for (size_t i = work_len; i < memory_len; i++) {
        kept = kept && memory[i] == UNUSED;
    }
    printf("bytes past the last word: %s\n", kept ? "kept" : "lost");
}

/* One word less: the second turn has no room for the second deployment, however often it is tried. A work memory with
 * the room for it is not taken. */
static void run_short(size_t words) {
    static uint8_t memory[ROOM], work[ROOM], before[ROOM];
    size_t work_len = words * REMUS_WORD_BYTES, memory_len = work_len - REMUS_WORD_BYTES;
    start(memory, memory_len);
    uint8_t readings[2 * REMUS_PAIR_BYTES];
    remus_put(readings, 0, REMUS_NUMBER, 7);
    remus_put(readings, 1, REMUS_NUMBER, 5);
    turn(memory, memory_len, readings, sizeof readings);
    memcpy(before, memory, memory_len);
    preview(memory, memory_len, work, work_len, readings, sizeof readings);
    preview(memory, memory_len, work, memory_len, readings, sizeof readings);
    turn(memory, memory_len, readings, sizeof readings);
    printf("memory: %s\n", memcmp(before, memory, memory_len) == 0 ? "as before the refusals" : "changed");
}

/* The first three turns on the processor's own words: these lengths count words. */
static void run_on_words(size_t words) {
    static uint32_t memory[REMUS_MAX_WORDS];
    uint32_t sinks[REMUS_PAIR_WORDS];
    const uint32_t readings[] = {REMUS_NUMBER, 7, REMUS_NUMBER, 5};
    if (refused(remus_start_words(toggle, sizeof toggle, memory, words))) {
        return;
    }
    for (int i = 1; i <= 3; i++) {
        uint64_t answer = remus_turn_words(toggle, sizeof toggle, memory, words, readings,
                                           sizeof readings / sizeof readings[0], sinks, REMUS_PAIR_WORDS);
        if (refused(answer)) {
            return;
        }
        printf("on words, turn %d: sink %" PRId32 ", %" PRIu32 " words in use\n", i, remus_signed(sinks[1]),
               remus_place(answer));
    }
}

/* The bytes of a text's program, and 0 if there is none. */
static size_t compile(const char *text, uint8_t *program, size_t program_len) {
    printf("compile: ");
    uint64_t answer = remus_compile((const uint8_t *)text, strlen(text), program, program_len);
    if (refused(answer)) {
        return 0;
    }
    printf("%" PRIu32 " bytes\n", remus_place(answer));
    return remus_place(answer);
}

/* Two turns of the average, the second with a reading missing; and a text that lacks a bracket. */
static void run_text(void) {
    static uint8_t program[REMUS_MAX_COMPILED];
    static uint32_t memory[REMUS_MAX_WORDS];
    uint32_t sinks[REMUS_PAIR_WORDS], readings[] = {REMUS_NUMBER, 10, REMUS_NUMBER, 20, REMUS_NUMBER, 30};
    size_t len = compile(average, program, sizeof program);
    size_t words = remus_place(remus_figure(program, len));
    if (refused(remus_start_words(program, len, memory, words))) {
        return;
    }
    for (int i = 1; i <= 2; i++) {
        if (refused(remus_turn_words(program, len, memory, words, readings, sizeof readings / sizeof readings[0], sinks,
                                     REMUS_PAIR_WORDS))) {
            return;
        }
        printf("average, turn %d: sink", i);
        if (sinks[0] == REMUS_BLANK) {
            printf(" blank\n");
        } else {
            printf(" %" PRId32 "\n", remus_signed(sinks[1]));
        }
        readings[2] = REMUS_BLANK;
        readings[3] = 0;
    }
    compile("(defr (main) (+ 1 2)", program, sizeof program);
}

int main(void) {
    check();
    size_t words = figure();
    if (words == 0) {
        return 1;
    }
    run(words);
    run_short(words);
    run_on_words(words);
    run_text();
    return 0;
}
