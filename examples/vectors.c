/* vectors.c: holds the library to files of test vectors.
 *
 *     cc -Ibuild examples/vectors.c build/libremus.a -o vectors && ./vectors FILE...
 *
 * A line is a call and what comes of it, or a comment after `#`. Its fields have one space between them, and stand in
 * one of two forms:
 *
 *     NUMBER PLACE PROGRAM                                            check
 *     NUMBER PLACE PROGRAM ?                                          figure, which asks for memory
 *     NUMBER PLACE TEXT LENGTH!AFTER                                  compile: so many bytes of output space after it
 *     NUMBER PLACE PROGRAM MEMORY                                     image: 0 0 if sound, else 9 and the place
 *     NUMBER PLACE PROGRAM MEMORY AFTER                               start
 *     NUMBER PLACE PROGRAM MEMORY AFTER READINGS SINKS AFTER          turn
 *     NUMBER PLACE PROGRAM MEMORY WORK READINGS SINKS AFTER AFTER     preview: work memory after, sinks after
 *
 *     check PROGRAM -> NUMBER PLACE
 *     figure PROGRAM -> NUMBER PLACE
 *     start PROGRAM MEMORY -> NUMBER PLACE AFTER
 *     turn PROGRAM MEMORY READINGS SINKS -> NUMBER PLACE AFTER AFTER
 *     preview PROGRAM MEMORY WORK READINGS SINKS -> NUMBER PLACE AFTER AFTER
 *     compile TEXT LENGTH -> NUMBER PLACE AFTER
 *
 * A program is its bytes in hexadecimal, `-` if it has none, `=` if it is the program of the line before. Words are
 * `N:` and the bytes of N words in hexadecimal, low byte first; what is not written is zero. A text is its bytes, and
 * output space is ee before the call; what is not written of it is ee after it.
 *
 * Each line is tried on bytes, with every slice at each of four addresses in a row and with 0 to 3 bytes past its last
 * word, and then on words; a turn is tried as a preview too, a figure by turns in so many words, and what a text becomes
 * by a check. Number and place
 * have to be the line's, and so has every word; the bytes past the last word and those around each slice have to be as
 * before. It stops at the first line that differs. */
#include <remus.h>
#include <stdio.h>
#include <stdlib.h>
#include <string.h>

enum {
    MOST_WORDS = 20000,  /* of a slice: some more than the machine takes */
    MOST_FIELDS = 11,    /* of a line */
    MOST_LINE = 1 << 20, /* bytes of a line */
    GUARD = 16,          /* bytes on each side of a slice */
    FILLED = 0xA0,       /* plus the number of bytes past the last word: what these and the guards hold */
    UNWRITTEN = 0xEE     /* what output space holds before a text is compiled */
};

enum kind { CHECK, IMAGE, START, TURN, PREVIEW, FIGURE, COMPILE, KINDS };
static const char *const names[KINDS] = {"check", "image", "start", "turn", "preview", "figure", "compile"};

/* Bytes that a line gives. */
struct given {
    size_t len;
    uint8_t bytes[MOST_WORDS * REMUS_WORD_BYTES];
};

/* Of a compile, `program` is the text and `work` the output space. */
static struct vector {
    enum kind kind;
    uint32_t number, place;
    struct given program, memory, memory_after, work, work_after, readings, sinks, sinks_after;
} vector;

/* The slices of a line, from its fourth field on. How many they are tells the kind, but for a figure. */
static struct given *const slices[KINDS][7] = {
    [IMAGE] = {&vector.memory},
    [START] = {&vector.memory, &vector.memory_after},
    [TURN] = {&vector.memory, &vector.memory_after, &vector.readings, &vector.sinks, &vector.sinks_after},
    [PREVIEW] = {&vector.memory, &vector.work, &vector.readings, &vector.sinks, &vector.work_after,
                 &vector.sinks_after},
};

/* A slice that is lent, in a room that begins at a word. */
struct lent {
    size_t len;
    uint8_t *at, filled;
    uint32_t room[MOST_WORDS + 2 * GUARD / REMUS_WORD_BYTES + 2];
};

static struct lent program, memory, work, readings, sinks;

/* The line that is tried. */
static const char *file_name;
static unsigned long line_number;

/* ---- reading a line ---- */

/* The decimal number of a field, cut to 32 bits as places are. */
static int read_number(const char *field, uint32_t *number) {
    char *end;
    unsigned long long value = strtoull(field, &end, 10);
    *number = value > UINT32_MAX ? UINT32_MAX : (uint32_t)value;
    return end != field && *end == '\0';
}

static int digit(char c) {
    if (c >= '0' && c <= '9') {
        return c - '0';
    }
    return c >= 'a' && c <= 'f' ? c - 'a' + 10 : -1;
}

/* At most `most` bytes in hexadecimal; how many there are goes to `len`. */
static int read_bytes(const char *field, uint8_t *bytes, size_t most, size_t *len) {
    size_t n = strlen(field) / 2;
    if (strlen(field) % 2 != 0 || n > most) {
        return 0;
    }
    for (size_t i = 0; i < n; i++) {
        int high = digit(field[2 * i]), low = digit(field[2 * i + 1]);
        if (high < 0 || low < 0) {
            return 0;
        }
        bytes[i] = (uint8_t)(16 * high + low);
    }
    *len = n;
    return 1;
}

static int read_program(const char *field, struct given *given) {
    if (strcmp(field, "=") == 0) {
        return 1;
    }
    return read_bytes(strcmp(field, "-") == 0 ? "" : field, given->bytes, sizeof given->bytes, &given->len);
}

static int read_words(char *field, struct given *given) {
    char *bytes = strchr(field, ':');
    uint32_t count;
    size_t written;
    if (bytes == NULL) {
        return 0;
    }
    *bytes++ = '\0';
    if (!read_number(field, &count) || count > MOST_WORDS) {
        return 0;
    }
    given->len = (size_t)count * REMUS_WORD_BYTES;
    memset(given->bytes, 0, given->len);
    return read_bytes(bytes, given->bytes, given->len, &written);
}

/* Output space: so many bytes, of which the written ones are given. */
static int read_output(const char *length, const char *bytes) {
    uint32_t count;
    size_t written;
    if (!read_number(length, &count) || count > sizeof vector.work.bytes) {
        return 0;
    }
    vector.work.len = vector.work_after.len = count;
    memset(vector.work.bytes, UNWRITTEN, count);
    memset(vector.work_after.bytes, UNWRITTEN, count);
    return read_bytes(strcmp(bytes, "-") == 0 ? "" : bytes, vector.work_after.bytes, count, &written);
}

/* Cuts a line at its spaces. How many fields it has, and 0 if there are too many. */
static size_t split(char *line, char *fields[MOST_FIELDS]) {
    size_t n = 0;
    line[strcspn(line, "\n")] = '\0';
    while (line != NULL) {
        char *space = strchr(line, ' ');
        if (n == MOST_FIELDS) {
            return 0;
        }
        fields[n++] = line;
        if (space != NULL) {
            *space++ = '\0';
        }
        line = space;
    }
    return n;
}

/* Brings the fields of the second form into the order of the first. How many there are then. */
static size_t reorder(char *fields[MOST_FIELDS], size_t n) {
    static const struct {
        const char *call;
        size_t fields, kept, order[9];
    } forms[] = {
        {"check", 5, 3, {3, 4, 1}},
        {"figure", 5, 4, {3, 4, 1, 0}},
        {"start", 7, 5, {4, 5, 1, 2, 6}},
        {"turn", 10, 8, {6, 7, 1, 2, 8, 3, 4, 9}},
        {"preview", 11, 9, {7, 8, 1, 2, 3, 4, 5, 9, 10}},
        {"compile", 7, 5, {4, 5, 1, 2, 6}},
    };
    for (size_t f = 0; f < sizeof forms / sizeof forms[0]; f++) {
        if (n == forms[f].fields && strcmp(fields[0], forms[f].call) == 0) {
            char *given[MOST_FIELDS];
            memcpy(given, fields, sizeof given);
            for (size_t i = 0; i < forms[f].kept; i++) {
                fields[i] = given[forms[f].order[i]];
            }
            return forms[f].kept;
        }
    }
    return n;
}

/* There is no call for an image alone. A turn with one word of readings is refused with 9 if the image is not sound,
 * and if it is then with 10 and 1, since readings are pairs. */
static void ask_by_turn(void) {
    if (vector.number == REMUS_OK) {
        vector.number = REMUS_READINGS_LENGTH;
        vector.place = 1;
    }
    vector.memory_after = vector.memory;
    vector.readings.len = REMUS_WORD_BYTES;
}

/* Whether a field stands for the memory that a figure asks for: in the second form the call's name is put there. */
static int asks(const char *field) { return strcmp(field, "?") == 0 || strcmp(field, names[FIGURE]) == 0; }

/* Output space in the first form, `LENGTH!AFTER`, as two fields. */
static size_t part_output(char *fields[MOST_FIELDS], size_t n) {
    char *bytes = n == 4 ? strchr(fields[3], '!') : NULL;
    if (bytes == NULL) {
        return n;
    }
    *bytes++ = '\0';
    fields[4] = bytes;
    return 5;
}

/* Whether there is a kind of line with these n fields; if so, it is the vector's now. */
static int read_kind(char *fields[MOST_FIELDS], size_t n) {
    if (n == 4 && asks(fields[3])) {
        vector.kind = FIGURE;
        return 1;
    }
    if (n == 5 && strchr(fields[3], ':') == NULL) {
        vector.kind = COMPILE;
        return 1;
    }
    for (int kind = 0; kind < FIGURE; kind++) {
        size_t count = 3;
        while (slices[kind][count - 3] != NULL) {
            count++;
        }
        if (count == n) {
            vector.kind = (enum kind)kind;
            return 1;
        }
    }
    return 0;
}

/* Whether the line is understood; if so, it is the vector now. */
static int read_line(char *line) {
    char *fields[MOST_FIELDS] = {NULL};
    size_t n = split(line, fields);
    n = part_output(fields, reorder(fields, n));
    if (!read_kind(fields, n) || !read_number(fields[0], &vector.number) || !read_number(fields[1], &vector.place) ||
        !read_program(fields[2], &vector.program)) {
        return 0;
    }
    vector.memory.len = vector.memory_after.len = vector.work.len = vector.work_after.len = 0;
    vector.readings.len = vector.sinks.len = vector.sinks_after.len = 0;
    for (size_t i = 0; slices[vector.kind][i] != NULL; i++) {
        if (!read_words(fields[3 + i], slices[vector.kind][i])) {
            return 0;
        }
    }
    if (vector.kind == COMPILE && !read_output(fields[3], fields[4])) {
        return 0;
    }
    if (vector.kind == IMAGE) {
        ask_by_turn();
    }
    if (vector.kind == PREVIEW) {
        vector.memory_after = vector.memory;
    }
    return 1;
}

/* Makes of a turn its preview. If the turn runs, to its end or to 14 or 15, work memory has to be then what the turn
 * leaves as memory, else what it was. */
static void turn_to_preview(void) {
    int ran = vector.number == REMUS_OK || vector.number == REMUS_NO_ROOM || vector.number == REMUS_TOO_DEEP;
    vector.kind = PREVIEW;
    vector.work.len = vector.memory.len;
    memset(vector.work.bytes, FILLED, vector.work.len);
    vector.work_after = ran ? vector.memory_after : vector.work;
    vector.memory_after = vector.memory;
}

/* ---- the calls ---- */

static void lend(struct lent *lent, const struct given *given, size_t address, size_t spare) {
    lent->at = (uint8_t *)lent->room + GUARD + address % REMUS_WORD_BYTES;
    lent->len = given->len + spare % REMUS_WORD_BYTES;
    lent->filled = (uint8_t)(FILLED + spare % REMUS_WORD_BYTES);
    memset(lent->at - GUARD, lent->filled, GUARD + lent->len + GUARD);
    memcpy(lent->at, given->bytes, given->len);
}

/* The slices of words differ in address and in spare bytes, so that a mix-up of two of them shows. */
static uint64_t call_on_bytes(size_t address, size_t spare) {
    lend(&program, &vector.program, address, 0);
    lend(&memory, &vector.memory, address + 1, spare);
    lend(&readings, &vector.readings, address + 2, spare + 1);
    lend(&sinks, &vector.sinks, address + 3, spare + 2);
    lend(&work, &vector.work, address, vector.kind == COMPILE ? 0 : spare + 3);
    switch (vector.kind) {
    case COMPILE:
        return remus_compile(program.at, program.len, work.at, work.len);
    case CHECK:
        return remus_check(program.at, program.len);
    case FIGURE:
        return remus_figure(program.at, program.len);
    case START:
        return remus_start(program.at, program.len, memory.at, memory.len);
    case PREVIEW:
        return remus_preview(program.at, program.len, memory.at, memory.len, work.at, work.len, readings.at,
                             readings.len, sinks.at, sinks.len);
    default:
        return remus_turn(program.at, program.len, memory.at, memory.len, readings.at, readings.len, sinks.at,
                          sinks.len);
    }
}

/* The same words in the processor's own byte order, and back. */
static uint32_t *lend_words(struct lent *lent, const struct given *given) {
    uint32_t *words = lent->room + GUARD / REMUS_WORD_BYTES;
    lend(lent, given, 0, 0);
    for (size_t i = 0; i < lent->len / REMUS_WORD_BYTES; i++) {
        words[i] = remus_word(lent->at, i);
    }
    return words;
}

static void to_bytes(struct lent *lent, const uint32_t *words) {
    for (size_t i = 0; i < lent->len / REMUS_WORD_BYTES; i++) {
        remus_put_word(lent->at, i, words[i]);
    }
}

static uint64_t call_on_words(void) {
    uint32_t *m = lend_words(&memory, &vector.memory);
    uint32_t *w = lend_words(&work, &vector.work);
    uint32_t *r = lend_words(&readings, &vector.readings);
    uint32_t *s = lend_words(&sinks, &vector.sinks);
    uint64_t answer;
    lend(&program, &vector.program, 0, 0);
    if (vector.kind == CHECK) {
        answer = remus_check(program.at, program.len);
    } else if (vector.kind == FIGURE) {
        answer = remus_figure(program.at, program.len);
    } else if (vector.kind == COMPILE) {
        return remus_compile(program.at, program.len, work.at, work.len);
    } else if (vector.kind == START) {
        answer = remus_start_words(program.at, program.len, m, memory.len / REMUS_WORD_BYTES);
    } else if (vector.kind == PREVIEW) {
        answer = remus_preview_words(program.at, program.len, m, memory.len / REMUS_WORD_BYTES, w,
                                     work.len / REMUS_WORD_BYTES, r, readings.len / REMUS_WORD_BYTES, s,
                                     sinks.len / REMUS_WORD_BYTES);
    } else {
        answer = remus_turn_words(program.at, program.len, m, memory.len / REMUS_WORD_BYTES, r,
                                  readings.len / REMUS_WORD_BYTES, s, sinks.len / REMUS_WORD_BYTES);
    }
    to_bytes(&memory, m);
    to_bytes(&work, w);
    to_bytes(&readings, r);
    to_bytes(&sinks, s);
    return answer;
}

/* ---- what came of them ---- */

static int all(uint8_t filled, const uint8_t *from, const uint8_t *to) {
    while (from < to && *from == filled) {
        from++;
    }
    return from == to;
}

/* Whether the slice has these bytes, and all that were not given it are as they were. */
static int holds(const struct lent *lent, const struct given *before, const struct given *after) {
    return before->len == after->len && memcmp(lent->at, after->bytes, after->len) == 0 &&
           all(lent->filled, lent->at - GUARD, lent->at) &&
           all(lent->filled, lent->at + after->len, lent->at + lent->len + GUARD);
}

/* What is not as the line says, or null. */
static const char *difference(uint64_t answer) {
    if (remus_number(answer) != vector.number || remus_place(answer) != vector.place) {
        return "answer";
    }
    if (!holds(&memory, &vector.memory, &vector.memory_after)) {
        return "memory";
    }
    if (!holds(&work, &vector.work, &vector.work_after)) {
        return "work memory";
    }
    if (!holds(&sinks, &vector.sinks, &vector.sinks_after)) {
        return "sink space";
    }
    if (!holds(&readings, &vector.readings, &vector.readings)) {
        return "readings";
    }
    return holds(&program, &vector.program, &vector.program) ? NULL : "program";
}

static int agrees(uint64_t answer, const char *face) {
    const char *what = difference(answer);
    if (what == NULL) {
        return 1;
    }
    fprintf(stderr, "%s:%lu: %s on %s: wrong %s; answer %lu, %lu, expected %lu, %lu\n", file_name,
            line_number, names[vector.kind], face, what, (unsigned long)remus_number(answer),
            (unsigned long)remus_place(answer), (unsigned long)vector.number, (unsigned long)vector.place);
    return 0;
}

/* Whether all calls of the vector's kind agree with it. */
static int try_calls(void) {
    for (size_t address = 0; address < REMUS_WORD_BYTES; address++) {
        for (size_t spare = 0; spare < REMUS_WORD_BYTES; spare++) {
            if (!agrees(call_on_bytes(address, spare), "bytes")) {
                return 0;
            }
        }
    }
    return agrees(call_on_words(), "words");
}

/* Whether a start and three turns succeed in as many words as the line says are enough. Blank readings suit every
 * program, and the fourth byte of one is how many it takes. */
static int try_turns(void) {
    static uint8_t in[REMUS_MAX_WORDS * REMUS_WORD_BYTES];
    uint8_t blanks[REMUS_MAX_GLOBALS * REMUS_PAIR_BYTES] = {0}, out[REMUS_MAX_SINKS * REMUS_PAIR_BYTES];
    const struct given *p = &vector.program;
    size_t len = (size_t)vector.place * REMUS_WORD_BYTES;
    uint64_t answer = remus_start(p->bytes, p->len, in, len);
    for (int i = 0; i < 3 && remus_number(answer) == REMUS_OK; i++) {
        answer = remus_turn(p->bytes, p->len, in, len, blanks, p->bytes[3] * REMUS_PAIR_BYTES, out, sizeof out);
    }
    if (remus_number(answer) != REMUS_OK) {
        fprintf(stderr, "%s:%lu: %lu words are not enough: %lu, %lu\n", file_name, line_number,
                (unsigned long)vector.place, (unsigned long)remus_number(answer), (unsigned long)remus_place(answer));
    }
    return remus_number(answer) == REMUS_OK;
}

/* Whether the check accepts what the text has become. */
static int try_check(void) {
    uint64_t answer = remus_check(work.at, vector.place);
    if (remus_number(answer) != REMUS_OK) {
        fprintf(stderr, "%s:%lu: what is compiled is refused: %lu, %lu\n", file_name, line_number,
                (unsigned long)remus_number(answer), (unsigned long)remus_place(answer));
    }
    return remus_number(answer) == REMUS_OK;
}

/* Whether the vector agrees; then it is counted by its kind. */
static int try_vector(unsigned long agreed[KINDS]) {
    if (!try_calls()) {
        return 0;
    }
    agreed[vector.kind]++;
    if (vector.kind == FIGURE && vector.number == REMUS_OK) {
        return try_turns();
    }
    if (vector.kind == COMPILE && vector.number == REMUS_OK) {
        return try_check();
    }
    if (vector.kind != TURN) {
        return 1;
    }
    turn_to_preview();
    return try_calls();
}

/* Whether all lines of a file agree. */
static int try_lines(FILE *file, unsigned long agreed[KINDS]) {
    static char line[MOST_LINE];
    for (line_number = 1; fgets(line, sizeof line, file) != NULL; line_number++) {
        if (line[0] == '#') {
            continue;
        }
        if (!read_line(line)) {
            fprintf(stderr, "%s:%lu: not a vector of any call\n", file_name, line_number);
            return 0;
        }
        if (!try_vector(agreed)) {
            return 0;
        }
    }
    if (ferror(file)) {
        perror(file_name);
        return 0;
    }
    return 1;
}

static int try_file(const char *name, unsigned long agreed[KINDS]) {
    FILE *file = fopen(name, "r");
    if (file == NULL) {
        perror(name);
        return 0;
    }
    file_name = name;
    int agree = try_lines(file, agreed);
    fclose(file);
    return agree;
}

int main(int argc, char **argv) {
    unsigned long agreed[KINDS] = {0};
    if (argc < 2) {
        fprintf(stderr, "usage: %s FILE...\n", argv[0]);
        return 2;
    }
    for (int i = 1; i < argc; i++) {
        if (!try_file(argv[i], agreed)) {
            return 1;
        }
    }
    for (int kind = 0; kind < KINDS; kind++) {
        printf("%s vectors: %lu agree\n", names[kind], agreed[kind]);
    }
    return 0;
}
