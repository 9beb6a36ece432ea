/* The machine of docs/MANUAL.md by hand in C, an implementation of its own.
 * A slice is a pointer and a length in bytes; a word has four, low byte first. An answer is number << 32 | place. */
#ifndef BASELINE_H
#define BASELINE_H
#include <stddef.h>
#include <stdint.h>

uint64_t base_check(const uint8_t *program, size_t program_len);
uint64_t base_start(const uint8_t *program, size_t program_len, uint8_t *memory, size_t memory_len);
uint64_t base_turn(const uint8_t *program, size_t program_len, uint8_t *memory, size_t memory_len,
                   const uint8_t *readings, size_t readings_len, uint8_t *sinks, size_t sinks_len);

#endif
