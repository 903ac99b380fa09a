/*
 * bench.h: what the benches share: lines of text, numbers drawn from a seed,
 * checks and their count.
 */
#ifndef BENCH_H
#define BENCH_H

#include <stdbool.h>
#include <stddef.h>
#include <stdint.h>

#define LENGTH(array) (sizeof(array) / sizeof(array)[0])

/* Writes a text: start.c on a board, host.c on a host. */
void put(const char *text);

/* Add to the line that is being made; end_line writes it. */
void add(const char *text);
void add_hex(uint64_t n);
void add_number(int32_t n);
void end_line(void);

/* The next number, by Marsaglia's shifts 13, 17, 5. */
uint32_t next(void);

/* Counts what held and what did not; end_checks ends the line with both. */
void check(bool held);
void end_checks(void);

#endif
