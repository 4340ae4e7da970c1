/*
 * Puts the stand-in in the place of the library's two functions. mutants.py has the compiler include it before driver.c
 * and stand_in.c. The names differ, so that the rest of the library can be linked.
 */
#ifndef STAND_IN_H
#define STAND_IN_H

#include <stddef.h>
#include <stdint.h>

#define tm_line_read stand_in_line_read
#define tm_line_write stand_in_line_write

uint8_t tm_line_read(const uint8_t *line, size_t line_len, uint8_t *table, size_t table_len, uint64_t out[8]);

uint8_t tm_line_write(
    uint64_t tapes, uint64_t symbols, uint64_t states, uint64_t start,
    const uint8_t *table, size_t table_len,
    uint8_t *line, size_t line_len,
    uint64_t out[8]);

#endif
