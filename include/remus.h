/* remus.h: the Remus reactive machine, for C and C++. Link with libremus.a.
 *
 * A program is bytecode, a rule set of up to 65,535 bytes. It runs in turns: each turn takes readings and gives sinks.
 *
 *     remus_compile  makes a program of a text in the language Haai
 *     remus_check    says whether a program is well formed
 *     remus_figure   says how many words of memory are enough for a program
 *     remus_start    makes memory ready for a program's first turn
 *     remus_turn     runs one turn
 *     remus_preview  shows what a turn would do, and leaves memory as it is
 *
 * The caller lends the program, the memory, the readings and the space for the sinks, and to a preview a work memory; to
 * remus_compile a text and the space for the program.
 * The library has no heap and no data of its own and keeps nothing between calls, so it is reentrant: calls may run at
 * the same time if what one of them may write is lent to no other. It needs memcpy, memmove and memset, and nothing
 * else. No bytes have to be validated before a call: each call tests all that it is lent, and returns whatever it
 * finds. What the calls answer and leave is proved to be as defined, for every input.
 *
 * Slices. A slice is a pointer and a length. Lengths count bytes; but in the calls whose names end in _words all but
 * the program's count words.
 *
 *   - A word has 32 bits. In a slice of bytes it is four of them, low byte first, at any address. If the length is no
 *     multiple of four, the one to three last bytes make no word: no call reads them, and none writes them.
 *   - In a slice of words it is a uint32_t, in the processor's own byte order, and the slice is aligned as uint32_t is.
 *   - A slice that a call may write, one declared without const, must share no byte with another slice of that call.
 *   - The pointer of an empty slice is not used and may be null.
 *
 * Answers. An answer is a number, which says how the call ended, and a place, which says where: see remus_number and
 * remus_place. Any number but 0 is a refusal. A refused call changes no byte, so it can be made again once its fault is
 * corrected; only a preview that ends with 14 or 15 has written its work memory.
 *
 * Values. A value is a pair of words, a mark and a content. A reading that is missing is blank, and so is a sink whose
 * value is not known. Blank is not zero and not false: look at the mark before the content.
 *
 * Terms. A program consists of reactors. A reactor has sources, commands and sinks; its shape says how many sources and
 * sinks, and of which kinds. A deployment is a copy of a reactor in memory, with words of its own. Main is the last
 * reactor: its deployment is the first in memory, and its sinks are what a turn gives. A branch point is a place for
 * deployments of several reactors of one shape, of which a turn picks one. A cell remembers a value from turn to turn.
 * A global is a value from outside: global 0 is the time, which is the completed turns plus 1; the others are readings.
 *
 * Memory. Word 0 is the number of words in use, word 1 the number of completed turns. From word 2 on deployments follow
 * one another, main first; all words past them are zero. A deployment is three words (its reactor; 1 once it is wired,
 * which its first run does, else 0; the next deployment of its branch point, or 0), then its slots, which are pairs.
 * Only the machine writes memory. Between calls it may be stored, moved and brought back; another program needs a new
 * start.
 *
 * Stack. A compile takes 4 KB, a figure 9 KB, a turn or a preview on words 2 to 8 KB, and up to 22 KB if deployments
 * nest 64 deep (measured on x86-64, not proved). The calls on bytes work on a copy of memory, which they have on the
 * stack too: up to 64 KB more.
 */
#ifndef REMUS_H
#define REMUS_H

#include <stddef.h>
#include <stdint.h>

#ifdef __cplusplus
extern "C" {
#endif

#define REMUS_MAX_PROGRAM 65535    /* bytes of a program */
#define REMUS_MAX_COMPILED 41639   /* bytes of a program that is made of a text: so much output space is always enough */
#define REMUS_MAX_SHAPES 32        /* of a program */
#define REMUS_MAX_REACTORS 64      /* of a program; they count from 0 */
#define REMUS_MAX_GLOBALS 31       /* readings of a turn, in pairs: the time is not among them */
#define REMUS_MAX_SINKS 7          /* sinks of main, in pairs: space for so many is enough for any program */
#define REMUS_MIN_WORDS 2          /* words of memory, at least */
#define REMUS_MAX_WORDS 16384      /* words of memory, at most */
#define REMUS_MAX_DEPTH 64         /* deployments one inside the other, main among them */
#define REMUS_MAX_TURNS 2147483647 /* completed turns after a start */

#define REMUS_WORD_BYTES 4 /* bytes of a word */
#define REMUS_PAIR_WORDS 2 /* words of a pair, which is a reading or a sink */
#define REMUS_PAIR_BYTES 8 /* bytes of a pair */

/* The number of an answer, and what its place is then. Bytes of the program and words of memory count from 0, and a
 * command's place is its first byte. A place above 4,294,967,295, as a length can be, is given as 4,294,967,295.
 *
 * Of several faults the first is told. The program's come first: header, tables, then each reactor's commands in order
 * and 7 at its end, with 1 tested before each of the three; of one command 3, 25, 4, 5, and then 6, 19, 20 or 21. Then
 * come 8, 22 and 9 to 13 in this order, and 14 and 15 as the turn runs; for a figure, 23 and 24. A text has no program to
 * test: of 16, 17 and 18 each is tested over the whole text before the next. */
enum remus_numbers {
    /* Done. Place: of a compile, the bytes of the program; of a check, the size of main in words; of a figure, the words
     * of memory that are enough; of a start or a turn, the words of memory now in use; of a preview, those of work
     * memory. */
    REMUS_OK = 0,

    /* Faults of the program, which every call tests. */

    /* The program has under 8 bytes, over 65,535, or not as many as its own counts call for. Place: its length. */
    REMUS_PROGRAM_LENGTH = 1,
    /* A byte of the header, the global kinds, the shapes or the reactor entries is not legal. Place: the lowest such
     * byte; where main has a shape that main cannot have, the first byte of main's entry. */
    REMUS_TABLE_BYTE = 2,
    /* A command has an unknown code, stands in the wrong sequence, has x out of range, an illegal constant or first
     * content of a cell, or a byte that has to be zero and is not. Place: the command. */
    REMUS_COMMAND = 3,
    /* An operand names a location that it may not: of the wrong sort, or not an earlier one. Place: the command. */
    REMUS_OPERAND = 4,
    /* There is no such source or sink, or a value is not of the kind that is asked for. Place: the command. */
    REMUS_PORT_OR_KIND = 5,
    /* A source or an own sink is set twice. Place: the command. */
    REMUS_SET_TWICE = 6,
    /* A reactor ends and a deployment has no React, a branch point no AllocPoly, a cell no Keep, or an own sink no
     * value. Place: the first byte of the reactor's entry. */
    REMUS_MISSING = 7,
    /* A React before all sources are supplied, or a Consume before the React. Place: the command. */
    REMUS_TOO_EARLY = 19,
    /* A second React of one deployment, AllocPoly of one branch point or Keep of one cell, or a Supply after the React.
     * Place: the command. */
    REMUS_TOO_LATE = 20,
    /* An AllocMono names its own reactor or a higher one. Place: the command. */
    REMUS_NOT_LOWER = 21,
    /* The command is primitive 4, the remainder, which is withdrawn. Place: the command. */
    REMUS_WITHDRAWN = 25,

    /* Faults of a text, which remus_compile alone tests. Bytes of the text count from 0. */

    /* A word or bracket stands where the form has no place for it. Place: its first byte; the text's length if the text
     * ends too soon. */
    REMUS_TEXT_FORM = 16,
    /* A name is unknown or cannot stand there, is given a second time or is taken; an operator has not as many operands
     * as it takes, or has several sinks; or main has parameters. Place: the lowest such word's first byte; for a count
     * of operands the operator's, for main its name's. */
    REMUS_TEXT_NAME = 17,
    /* The output space is too short. Place: the bytes that are needed; 0 if a definition has more commands than a
     * reactor can have, so that no space is enough. */
    REMUS_OUTPUT_SPACE = 18,

    /* Why a program has no figure, which remus_figure alone tests: it can be started and run all the same. */

    /* A deployment may come to deploy its own reactor again, at once or by way of others. Place: the lowest reactor, of
     * main and those that main may come to deploy, of which this holds. */
    REMUS_CIRCULAR = 23,
    /* The figure would be over 16,384. Place: 0. */
    REMUS_FIGURE_TOO_LARGE = 24,

    /* Faults of what else is lent: start tests 8, turn 8 to 13, preview these and 22. */

    /* Memory has under 2 words or over 16,384. Place: its whole words. */
    REMUS_MEMORY_LENGTH = 8,
    /* Work memory has fewer words than memory, or more. Place: its whole words. */
    REMUS_WORK_LENGTH = 22,
    /* Memory is not as a start or a turn of this program leaves it. Place: where, as an index of memory.
     *   - 0 if word 0 or word 1 is wrong, if deployments, main first, do not fill the words in use exactly, or if a
     *     word past these is not zero;
     *   - else the lowest deployment whose wired word, slots, cells or chains are wrong, for main also its next. A
     *     chain is the deployments of one branch point, from the newest on by next. A child that is not what its slot
     *     asks for, its next too, is a fault of the deployment with the slot. Before the first turn main alone is
     *     judged by this;
     *   - else the lowest deployment after main that slots and their chains do not name exactly once; before the first
     *     turn the second deployment, as main has to stand alone then;
     *   - else 0: a deployment is deeper than 64. */
    REMUS_UNSOUND_IMAGE = 9,
    /* The readings are not one pair for each global but the time. Place: their whole words. */
    REMUS_READINGS_LENGTH = 10,
    /* A reading's mark is neither blank nor that of its global's kind, or its content is illegal: a blank's that is not
     * 0, a truth's that is not 0 or 1. Place: the first such pair, from 0. */
    REMUS_READING = 11,
    /* The space for sinks is shorter than a pair for each sink of main. Place: the words that are needed. */
    REMUS_SINK_SPACE = 12,
    /* 2,147,483,647 turns are completed: start anew. Place: 0. */
    REMUS_CLOCK = 13,

    /* Faults that are met as a deployment is made: by start, 14 for main; by turn and preview, 15, then 14. */

    /* The words that are left of memory are fewer than the new deployment takes. Place: its reactor. */
    REMUS_NO_ROOM = 14,
    /* The new deployment would be at depth 65. Place: its reactor. */
    REMUS_TOO_DEEP = 15
};

/* The mark of a reading or a sink. Marks 3 (reactor), 4 (deployment) and 5 (branch point) occur only inside memory. */
enum remus_marks {
    REMUS_BLANK = 0,  /* not known; its content is 0 */
    REMUS_NUMBER = 1, /* its content is a signed number, in two's complement */
    REMUS_TRUTH = 2   /* its content is 0 for false, 1 for true */
};

/* Makes a program of a text, and writes it to the output space from its first byte on; bytes past it are kept. What it
 * writes, remus_check accepts, and the sinks of a completed turn are what main's expressions mean: docs/HAAI.md has the
 * language. A text may have any bytes and any length. Gives 0 and the bytes of the program, or 16, 17 or 18. */
uint64_t remus_compile(const uint8_t *text, size_t text_len, uint8_t *output, size_t output_len);

/* Tests a program. Gives 0 and the size of main in words, or the program's fault: 1 to 7, 19 to 21, 25. */
uint64_t remus_check(const uint8_t *program, size_t program_len);

/* Finds the figure of a program, a number of words that is always enough: in memory of so many, or of more, a start is
 * not refused with 14, and no turn or preview after it with 14 or 15. Counted are words 0 and 1, main, and all that may
 * ever be deployed: for each AllocMono its reactor, for each branch point every reactor of its shape, and what those
 * deploy in the same way. Gives 0 and the figure, or the program's fault, 23 or 24. */
uint64_t remus_figure(const uint8_t *program, size_t program_len);

/* Makes memory ready for the first turn: zeroes all its words, whatever they were, and places main. Memory needs 2
 * words more than the size of main, and further ones for what turns will deploy: without these a turn is refused with
 * 14. The figure counts them in. Gives 0 and the words in use, or the program's fault, 8 or 14. */
uint64_t remus_start(const uint8_t *program, size_t program_len, uint8_t *memory, size_t memory_len);

/* Runs one turn, on memory as a start or a turn of this program has left it. Readings are a pair for each global from 1
 * on, in order. Main's sinks are written to the sink space as pairs, in order; bytes past them are kept. Gives 0 and
 * the words in use, or the program's fault, or 8 to 15. */
uint64_t remus_turn(const uint8_t *program, size_t program_len, uint8_t *memory, size_t memory_len,
                    const uint8_t *readings, size_t readings_len, uint8_t *sinks, size_t sinks_len);

/* Tries a turn and leaves memory as it is. Takes what remus_turn takes, and a work memory of as many words as memory,
 * whatever they hold. On 0 the sinks are the turn's, and work memory is what the turn would leave as memory; on 14 and
 * 15 work memory is a copy of memory. Then the turn can be made, with the same outcome, or work memory be taken for
 * memory, which comes to the same. Gives what the turn would give, or 22. */
uint64_t remus_preview(const uint8_t *program, size_t program_len, const uint8_t *memory, size_t memory_len,
                       uint8_t *work, size_t work_len, const uint8_t *readings, size_t readings_len, uint8_t *sinks,
                       size_t sinks_len);

/* The same three calls on words. Where the processor has the low byte first, both forms have the same memory. */
uint64_t remus_start_words(const uint8_t *program, size_t program_len, uint32_t *memory, size_t memory_words);
uint64_t remus_turn_words(const uint8_t *program, size_t program_len, uint32_t *memory, size_t memory_words,
                          const uint32_t *readings, size_t readings_words, uint32_t *sinks, size_t sinks_words);
uint64_t remus_preview_words(const uint8_t *program, size_t program_len, const uint32_t *memory, size_t memory_words,
                             uint32_t *work, size_t work_words, const uint32_t *readings, size_t readings_words,
                             uint32_t *sinks, size_t sinks_words);

/* An answer is its number times 4,294,967,296 plus its place. */
static inline uint32_t remus_number(uint64_t answer) { return (uint32_t)(answer >> 32); }
static inline uint32_t remus_place(uint64_t answer) { return (uint32_t)(answer & 0xFFFFFFFFu); }

/* Reads and writes word i of a slice of bytes: remus_word(memory, 1) is the number of completed turns. */
static inline uint32_t remus_word(const uint8_t *bytes, size_t i) {
    const uint8_t *at = bytes + REMUS_WORD_BYTES * i;
    return (uint32_t)at[0] | (uint32_t)at[1] << 8 | (uint32_t)at[2] << 16 | (uint32_t)at[3] << 24;
}
static inline void remus_put_word(uint8_t *bytes, size_t i, uint32_t word) {
    uint8_t *at = bytes + REMUS_WORD_BYTES * i;
    at[0] = (uint8_t)(word & 0xFFu);
    at[1] = (uint8_t)(word >> 8 & 0xFFu);
    at[2] = (uint8_t)(word >> 16 & 0xFFu);
    at[3] = (uint8_t)(word >> 24 & 0xFFu);
}

/* A word as a signed number, as the content of a number is. */
static inline int32_t remus_signed(uint32_t word) {
    return word <= 0x7FFFFFFFu ? (int32_t)word : -(int32_t)(0xFFFFFFFFu - word) - 1;
}

/* Pair i of a slice of bytes, from 0, is sink i, or the reading of global i + 1. Its mark, its content, and whether it
 * is known: 0 if it is blank, else 1. */
static inline uint32_t remus_mark(const uint8_t *pairs, size_t i) { return remus_word(pairs, REMUS_PAIR_WORDS * i); }
static inline int32_t remus_content(const uint8_t *pairs, size_t i) {
    return remus_signed(remus_word(pairs, REMUS_PAIR_WORDS * i + 1));
}
static inline int remus_known(const uint8_t *pairs, size_t i) { return remus_mark(pairs, i) != REMUS_BLANK; }

/* Writes pair i of a slice of bytes. A blank's content is 0. */
static inline void remus_put(uint8_t *pairs, size_t i, uint32_t mark, int32_t content) {
    remus_put_word(pairs, REMUS_PAIR_WORDS * i, mark);
    remus_put_word(pairs, REMUS_PAIR_WORDS * i + 1, (uint32_t)content);
}

#ifdef __cplusplus
}
#endif

#endif
