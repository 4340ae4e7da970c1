/*
 * The Turing machine engines, for C. Link crates/capi/out/libcapi.a, which `rt lib` in crates/capi makes for x86-64 Linux.
 *
 * Every function returns 0, or the number of the first refusal that applies (below). A refused call changes nothing but
 * out[0], and that only at 6, 10, 17, 19 and 20, which name a place there. No call allocates, prints, or keeps a pointer.
 *
 * Slices. `T *x, size_t x_len` is memory of x_len elements, aligned as T is; an empty one may be NULL. Memory that a call
 * may write must overlap nothing else that is lent to the call. `out`, `state`, `cur`, `engine` and `times` are arrays or
 * single values: they are never NULL, and have at least as many elements as the declaration says.
 *
 * Out. An accepted call writes the places of `out` that its comment names, and leaves the others as they were. Where no
 * place is named, it leaves all of `out`.
 *
 * Machine: tapes (1 to 3), symbols (1 to 256), states (1 to 65536), start state. `table` has eight bytes for each
 * entry; that of state q reading a0, a1, a2 is number q * symbols^tapes + a0 + symbols * a1 + symbols^2 * a2:
 *     byte 0     1, or all eight bytes 0 for an entry that is not defined (the machine halts there)
 *     bytes 1-2  the next state, low byte first
 *     bytes 3-5  the symbol to write on each tape (0 for a tape that the machine lacks)
 *     byte 6     move0 + 3 * move1 + 9 * move2, where a move is 0 left, 1 right, 2 none (2 for a tape that it lacks)
 *     byte 7     0
 *
 * Plain engine: `state` and engine[16]: steps, then length, origin, head, lowest and highest of tapes 0, 1 and 2, as
 * places in the tape's cells (position p is at origin + p). c0, c1, c2 are the cells of the tapes, at most 2^30 each;
 * those of a tape that the machine lacks are neither read nor written.
 *
 * Run-length engine (one tape): `state`, `cur` (the symbol under the head) and engine[7]: steps, macro steps, live runs
 * on the left, on the right, then head, lowest and highest, each raised by 2^63. ls and rs are the symbols, ll and rl
 * the lengths of the runs of each side, nearest to the head last. A side has as many places as the shorter of its two
 * slices, at most 1048576.
 *
 * The numbers of an engine come from tm_sim_new or tm_chain_new and go unchanged into the next call, with the same
 * memory. Others are accepted where they fit, and else refused by 12.
 *
 * Stop rule: `rule` is the state whose step ends a run: on the plain engine after the step, on the run-length engine
 * before it. TM_NO_RULE, or any number from 65536 on, is no rule.
 *
 * Outcome of a run, in out[0] to out[4]; a run leaves out[5] to out[7]:
 *     out[0]  TM_HALTED, TM_OUT_OF_FUEL, TM_NEVER_HALTS, TM_STOPPED or TM_FULL (the next step lacks space)
 *     out[1]  steps made since the start
 *     out[2]  the state, where halted or never halting, else 0
 *     out[3]  where never halting, 0 if the machine stays for ever, 1 if it moves on over blanks; else 0
 *     out[4]  where it moves on over blanks, the move (0 left, 1 right), else 0
 *
 * Refusals:
 *      1  tapes not 1 to 3
 *      2  symbols not 1 to 256
 *      3  states not 1 to 65536
 *      4  start not below states
 *      5  table not of 8 bytes for each entry
 *      6  an entry off its layout or out of range; out[0] is the lowest such entry's number
 *      7  packed words not exactly the table's, or several tapes
 *      8  several tapes
 *      9  word over 1048576 symbols
 *     10  a symbol of the word not below `symbols`; out[0] is the first such place
 *     11  cells or run places too few or too many
 *     12  numbers that are no engine of this machine, or a tape that the machine lacks
 *     13  steps and fuel, or a timeline's target, over 2^62
 *     14  a timeline's numbers out of range
 *     15  a store of too few slots
 *     16  the slot to restore holds no engine of its step
 *     17  a glyph that is not allowed; out[0] is the first such place
 *     18  an output too short
 *     19  a malformed line; out[0] is the place of the first byte that no line of the form has after those before it, or the
 *         line's length where it ends early
 *     20  a letter other than Z, or a digit, that the line's rows lack; out[0] is the first such place
 *     21  a table that has no line of the form
 */
#ifndef TURING_H
#define TURING_H

#include <stddef.h>
#include <stdint.h>

#ifdef __cplusplus
extern "C" {
#endif

#define TM_NO_RULE 65536

enum tm_outcome { TM_HALTED, TM_OUT_OF_FUEL, TM_NEVER_HALTS, TM_STOPPED, TM_FULL };
enum tm_status { TM_RUNNING, TM_HAS_HALTED, TM_LACKS_SPACE };
enum tm_call { TM_SEEK, TM_FORWARD, TM_BACK };

/* A run: a symbol, and how many cells in a row hold it. */
struct tm_run {
    uint8_t symbol;
    uint64_t len;
};

/* ---- tables and words ---- */

/* Whether the table is one of the machine. Refuses 1 to 6. */
uint8_t tm_check(
    uint64_t tapes, uint64_t symbols, uint64_t states, uint64_t start,
    const uint8_t *table, size_t table_len,
    uint64_t out[8]);

/* Writes the packed words of a table of one tape, states * symbols of them, to the first places of `words`.
 * Refuses 1 to 6; 7 several tapes; 18 too few words. */
uint8_t tm_pack(
    uint64_t tapes, uint64_t symbols, uint64_t states, uint64_t start,
    const uint8_t *table, size_t table_len,
    uint64_t *words, size_t words_len,
    uint64_t out[8]);

/* Writes the symbol of each glyph of `word` to the first places of `symbols`. A glyph's symbol is the place of the
 * first equal one among the first 256 of `glyphs`; it must be 0, the blank, or have a flag that is not 0.
 * Refuses 17; 18 `symbols` shorter than the word. */
uint8_t tm_encode(
    const uint32_t *glyphs, size_t glyphs_len,
    const uint8_t *flags, size_t flags_len,
    const uint32_t *word, size_t word_len,
    uint8_t *symbols, size_t symbols_len,
    uint64_t out[8]);

/* Tables of one tape, 2 to 10 symbols and 1 to 25 lettered states as a line, such as 1RB1LB_1LA1RZ. An entry is the symbol
 * written, L or R, and the letter of the next state; --- is an entry that is not defined. An underscore parts two rows. Z is
 * a halting state, whose row is not in the line. A line has no newline. */

/* Reads a line. Writes its table to the first places of `table`, eight bytes for each entry; Z's row is its last one and has
 * no entry that is defined. out[0] is the number of symbols, out[1] that of states, Z's among them. The start state is 0.
 * Refuses 19; 20; 18 `table` shorter than 8 * symbols * states. */
uint8_t tm_line_read(
    const uint8_t *line, size_t line_len,
    uint8_t *table, size_t table_len,
    uint64_t out[8]);

/* Writes the line of a table to the first places of `line`; out[0] is the number of its bytes, at most 774. A last row
 * without an entry that is defined is Z's.
 * Refuses 1 to 6; 21 several tapes, symbols not 2 to 10, lettered rows not 1 to 25, a start state other than 0, an entry
 * that does not move, or a row before the last without an entry that is defined; 18 too short a line. */
uint8_t tm_line_write(
    uint64_t tapes, uint64_t symbols, uint64_t states, uint64_t start,
    const uint8_t *table, size_t table_len,
    uint8_t *line, size_t line_len,
    uint64_t out[8]);

/* The entry for `state` and the symbols read on each tape (0 for a tape that the machine lacks): out[0] is 0 where it is
 * not defined, as past the table's end, else 1; then out[1] is the next state, out[2] to out[4] are the symbols written
 * and out[5] to out[7] the moves of tapes 0, 1 and 2.
 * Refuses 1 to 6. */
uint8_t tm_lookup(
    uint64_t tapes, uint64_t symbols, uint64_t states, uint64_t start,
    const uint8_t *table, size_t table_len,
    uint16_t state, uint8_t a0, uint8_t a1, uint8_t a2,
    uint64_t out[8]);

/* out[0] is 0 where `glyph` is none of the first 256 of `glyphs`, else 1, and out[1] its symbol. Refuses nothing. */
uint8_t tm_symbol_for(
    const uint32_t *glyphs, size_t glyphs_len,
    uint32_t glyph,
    uint64_t out[8]);

/* out[0] is 1 where the symbol has a flag that is not 0, else 0. Refuses nothing. */
uint8_t tm_is_input(
    const uint8_t *flags, size_t flags_len,
    uint8_t symbol,
    uint64_t out[8]);

/* ---- packed words ---- */

/* A packed word is move + 256 * write + 65536 * next + 2^32 * next * stride; 3 is that of an entry that is not defined,
 * and any other word is that of one that is, a low byte over 1 being no move. None of these refuses. */

/* out[0] is the word of an entry: for `defined` 0 of one that is not defined, else of this write, move (0 left, 1 right,
 * else none) and next state; 3 where next * stride passes 32 bits. */
uint8_t tm_packed_new(
    uint8_t defined, uint8_t write, uint8_t dir, uint16_t next,
    uint64_t stride,
    uint64_t out[8]);

/* The parts of any word: out[0] is 0 where it is not defined, else 1; out[1] the move, out[2] the write, out[3] the next
 * state, out[4] next * stride. */
uint8_t tm_packed(
    uint64_t word,
    uint64_t out[8]);

/* The step of any word, defined or not: out[0] is the next state, out[1] to out[3] are the symbols written and out[4] to
 * out[6] the moves of tapes 0, 1 and 2. */
uint8_t tm_packed_action(
    uint64_t word,
    uint64_t out[8]);

/* The entry of any word; out as tm_lookup's. */
uint8_t tm_packed_entry(
    uint64_t word,
    uint64_t out[8]);

/* ---- the plain engine ---- */

/* A fresh engine: the start state, the word on tape 0 from position 0 on, heads at 0. Writes the cells, `state` and
 * `engine`.
 * Refuses 1 to 6; 9; 10; 11 cells under word + 32 (other tapes 32) or over 2^30. */
uint8_t tm_sim_new(
    uint64_t tapes, uint64_t symbols, uint64_t states, uint64_t start,
    const uint8_t *table, size_t table_len,
    const uint8_t *word, size_t word_len,
    uint8_t *c0, size_t c0_len, uint8_t *c1, size_t c1_len, uint8_t *c2, size_t c2_len,
    uint16_t *state, uint64_t engine[16],
    uint64_t out[8]);

/* One step; out[0] is TM_RUNNING (the step was made), TM_HAS_HALTED or TM_LACKS_SPACE.
 * Refuses as tm_sim_run with fuel 1. */
uint8_t tm_sim_step(
    uint64_t tapes, uint64_t symbols, uint64_t states, uint64_t start,
    const uint8_t *table, size_t table_len,
    uint8_t *c0, size_t c0_len, uint8_t *c1, size_t c1_len, uint8_t *c2, size_t c2_len,
    uint16_t *state, uint64_t engine[16],
    uint64_t out[8]);

/* Runs for at most `fuel` steps; out is the outcome.
 * Refuses 1 to 6; 11 cells over 2^30; 12; 13. */
uint8_t tm_sim_run(
    uint64_t tapes, uint64_t symbols, uint64_t states, uint64_t start,
    const uint8_t *table, size_t table_len,
    uint8_t *c0, size_t c0_len, uint8_t *c1, size_t c1_len, uint8_t *c2, size_t c2_len,
    uint16_t *state, uint64_t engine[16],
    uint64_t rule, uint64_t fuel,
    uint64_t out[8]);

/* The same over the words that tm_pack writes, which is faster.
 * Refuses 1 to 6; 7; 11 cells over 2^30; 12; 13. */
uint8_t tm_sim_run_packed(
    uint64_t tapes, uint64_t symbols, uint64_t states, uint64_t start,
    const uint8_t *table, size_t table_len,
    const uint64_t *words, size_t words_len,
    uint8_t *c0, size_t c0_len, uint8_t *c1, size_t c1_len, uint8_t *c2, size_t c2_len,
    uint16_t *state, uint64_t engine[16],
    uint64_t rule, uint64_t fuel,
    uint64_t out[8]);

/* Questions on one tape, at any position. Each refuses 1 to 6; 11 cells over 2^30; 12. */

/* out[0] is the symbol at position `at`. */
uint8_t tm_sim_get(
    uint64_t tapes, uint64_t symbols, uint64_t states, uint64_t start,
    const uint8_t *table, size_t table_len,
    const uint8_t *c0, size_t c0_len, const uint8_t *c1, size_t c1_len, const uint8_t *c2, size_t c2_len,
    uint16_t state, const uint64_t engine[16],
    uint64_t tape, int64_t at,
    uint64_t out[8]);

/* out[0] is 0 for a blank tape, and out[1] and out[2] are left; else it is 1, and out[1] and out[2] are the lowest and
 * the highest position that is not blank, raised by 2^63. */
uint8_t tm_sim_non_blank(
    uint64_t tapes, uint64_t symbols, uint64_t states, uint64_t start,
    const uint8_t *table, size_t table_len,
    const uint8_t *c0, size_t c0_len, const uint8_t *c1, size_t c1_len, const uint8_t *c2, size_t c2_len,
    uint16_t state, const uint64_t engine[16],
    uint64_t tape,
    uint64_t out[8]);

/* out[0] is the number of cells that are not blank. */
uint8_t tm_sim_count(
    uint64_t tapes, uint64_t symbols, uint64_t states, uint64_t start,
    const uint8_t *table, size_t table_len,
    const uint8_t *c0, size_t c0_len, const uint8_t *c1, size_t c1_len, const uint8_t *c2, size_t c2_len,
    uint16_t state, const uint64_t engine[16],
    uint64_t tape,
    uint64_t out[8]);

/* Writes the symbols at positions `from`, from + 1, .. to all of `cells`. */
uint8_t tm_sim_window(
    uint64_t tapes, uint64_t symbols, uint64_t states, uint64_t start,
    const uint8_t *table, size_t table_len,
    const uint8_t *c0, size_t c0_len, const uint8_t *c1, size_t c1_len, const uint8_t *c2, size_t c2_len,
    uint16_t state, const uint64_t engine[16],
    uint64_t tape, int64_t from,
    uint8_t *cells, size_t cells_len,
    uint64_t out[8]);

/* The nearest cell that is not blank, from position `from` on, to the left for dir 0, to the right for 1, else at
 * `from` alone: out[0] is 0 where there is none, and out[1] is left; else it is 1, and out[1] is the cell's position
 * raised by 2^63. */
uint8_t tm_sim_find(
    uint64_t tapes, uint64_t symbols, uint64_t states, uint64_t start,
    const uint8_t *table, size_t table_len,
    const uint8_t *c0, size_t c0_len, const uint8_t *c1, size_t c1_len, const uint8_t *c2, size_t c2_len,
    uint16_t state, const uint64_t engine[16],
    uint64_t tape, int64_t from, uint8_t dir,
    uint64_t out[8]);

/* ---- a timeline of the plain engine ---- */

/* A new timeline on the engine at hand, which is saved in slot 0: at most `most` slots are kept (1 to 512), `every`
 * steps apart at first (1 to 2^32). Writes slot 0 of `store`, and `times`: most, starting step, slots recorded,
 * interval. A slot is 128 bytes more than the cells of the machine's tapes; the store has most + 1 slots.
 * Between the calls of one timeline the caller leaves its table, cells, store and numbers alone: a call does not notice
 * that they were changed, unless they no longer fit (12, 14, 15, 16).
 * Refuses 1 to 6; 11 cells over 2^30; 12; 14; 15. */
uint8_t tm_sim_timeline_new(
    uint64_t tapes, uint64_t symbols, uint64_t states, uint64_t start,
    const uint8_t *table, size_t table_len,
    const uint8_t *c0, size_t c0_len, const uint8_t *c1, size_t c1_len, const uint8_t *c2, size_t c2_len,
    uint8_t *store, size_t store_len,
    uint16_t state, const uint64_t engine[16],
    uint64_t times[4], uint64_t most, uint64_t every,
    uint64_t out[8]);

/* Moves to step `number` (which: TM_SEEK), or that many steps forward (TM_FORWARD) or back (TM_BACK, or any other): no
 * further than where the machine halts, and not back beyond the starting step. out is the outcome of a run there with
 * fuel 0, or TM_FULL where a step on the way lacked space. `which` has 8 bits: 256 arrives as 0, a seek, so the caller
 * tests a wider number first.
 * Refuses 1 to 6; 11 cells over 2^30; 12; 14; 15; 13; 16. */
uint8_t tm_sim_timeline_call(
    uint64_t tapes, uint64_t symbols, uint64_t states, uint64_t start,
    const uint8_t *table, size_t table_len,
    uint8_t *c0, size_t c0_len, uint8_t *c1, size_t c1_len, uint8_t *c2, size_t c2_len,
    uint8_t *store, size_t store_len,
    uint16_t *state, uint64_t engine[16],
    uint64_t times[4], uint8_t which, uint64_t number,
    uint64_t out[8]);

/* ---- the run-length engine ---- */

/* A fresh engine, as tm_sim_new. Writes the right side's runs, `state`, `cur` and `engine`.
 * Refuses 1 to 6; 8; 9; 10; 11 fewer right places than the word has runs after its first symbol, or a side over
 * 1048576. */
uint8_t tm_chain_new(
    uint64_t tapes, uint64_t symbols, uint64_t states, uint64_t start,
    const uint8_t *table, size_t table_len,
    const uint8_t *word, size_t word_len,
    const uint8_t *ls, size_t ls_len, const uint64_t *ll, size_t ll_len,
    uint8_t *rs, size_t rs_len, uint64_t *rl, size_t rl_len,
    uint16_t *state, uint8_t *cur, uint64_t engine[7],
    uint64_t out[8]);

/* Runs for at most `fuel` steps; out is the outcome.
 * Refuses 1 to 6; 8; 11 a side over 1048576; 12; 13. */
uint8_t tm_chain_run(
    uint64_t tapes, uint64_t symbols, uint64_t states, uint64_t start,
    const uint8_t *table, size_t table_len,
    uint8_t *ls, size_t ls_len, uint64_t *ll, size_t ll_len,
    uint8_t *rs, size_t rs_len, uint64_t *rl, size_t rl_len,
    uint16_t *state, uint8_t *cur, uint64_t engine[7],
    uint64_t rule, uint64_t fuel,
    uint64_t out[8]);

/* Questions, answered as the plain engine's. Each refuses 1 to 6; 8; 11 a side over 1048576; 12. */

/* out[0] is the symbol at position `at`. */
uint8_t tm_chain_get(
    uint64_t tapes, uint64_t symbols, uint64_t states, uint64_t start,
    const uint8_t *table, size_t table_len,
    const uint8_t *ls, size_t ls_len, const uint64_t *ll, size_t ll_len,
    const uint8_t *rs, size_t rs_len, const uint64_t *rl, size_t rl_len,
    uint16_t state, uint8_t cur, const uint64_t engine[7],
    int64_t at,
    uint64_t out[8]);

/* As tm_sim_non_blank. */
uint8_t tm_chain_non_blank(
    uint64_t tapes, uint64_t symbols, uint64_t states, uint64_t start,
    const uint8_t *table, size_t table_len,
    const uint8_t *ls, size_t ls_len, const uint64_t *ll, size_t ll_len,
    const uint8_t *rs, size_t rs_len, const uint64_t *rl, size_t rl_len,
    uint16_t state, uint8_t cur, const uint64_t engine[7],
    uint64_t out[8]);

/* out[0] is the number of cells that are not blank. */
uint8_t tm_chain_count(
    uint64_t tapes, uint64_t symbols, uint64_t states, uint64_t start,
    const uint8_t *table, size_t table_len,
    const uint8_t *ls, size_t ls_len, const uint64_t *ll, size_t ll_len,
    const uint8_t *rs, size_t rs_len, const uint64_t *rl, size_t rl_len,
    uint16_t state, uint8_t cur, const uint64_t engine[7],
    uint64_t out[8]);

/* Writes the symbols at positions `from`, from + 1, .. to all of `cells`. */
uint8_t tm_chain_window(
    uint64_t tapes, uint64_t symbols, uint64_t states, uint64_t start,
    const uint8_t *table, size_t table_len,
    const uint8_t *ls, size_t ls_len, const uint64_t *ll, size_t ll_len,
    const uint8_t *rs, size_t rs_len, const uint64_t *rl, size_t rl_len,
    uint16_t state, uint8_t cur, const uint64_t engine[7],
    int64_t from,
    uint8_t *cells, size_t cells_len,
    uint64_t out[8]);

/* Writes the runs on the left of the head, the nearest last, to the first places of `runs`; out[0] is how many they are.
 * Refuses also, after 12, 18 fewer places than runs. */
uint8_t tm_chain_left(
    uint64_t tapes, uint64_t symbols, uint64_t states, uint64_t start,
    const uint8_t *table, size_t table_len,
    const uint8_t *ls, size_t ls_len, const uint64_t *ll, size_t ll_len,
    const uint8_t *rs, size_t rs_len, const uint64_t *rl, size_t rl_len,
    uint16_t state, uint8_t cur, const uint64_t engine[7],
    struct tm_run *runs, size_t runs_len,
    uint64_t out[8]);

/* The same of those on the right, the nearest last too. */
uint8_t tm_chain_right(
    uint64_t tapes, uint64_t symbols, uint64_t states, uint64_t start,
    const uint8_t *table, size_t table_len,
    const uint8_t *ls, size_t ls_len, const uint64_t *ll, size_t ll_len,
    const uint8_t *rs, size_t rs_len, const uint64_t *rl, size_t rl_len,
    uint16_t state, uint8_t cur, const uint64_t engine[7],
    struct tm_run *runs, size_t runs_len,
    uint64_t out[8]);

/* ---- a timeline of the run-length engine ---- */

/* As tm_sim_timeline_new; a slot is 128 bytes more than 9 * the run places of both sides.
 * Refuses 1 to 6; 8; 11 a side over 1048576; 12; 14; 15. */
uint8_t tm_chain_timeline_new(
    uint64_t tapes, uint64_t symbols, uint64_t states, uint64_t start,
    const uint8_t *table, size_t table_len,
    const uint8_t *ls, size_t ls_len, const uint64_t *ll, size_t ll_len,
    const uint8_t *rs, size_t rs_len, const uint64_t *rl, size_t rl_len,
    uint8_t *store, size_t store_len,
    uint16_t state, uint8_t cur, const uint64_t engine[7],
    uint64_t times[4], uint64_t most, uint64_t every,
    uint64_t out[8]);

/* As tm_sim_timeline_call.
 * Refuses 1 to 6; 8; 11 a side over 1048576; 12; 14; 15; 13; 16. */
uint8_t tm_chain_timeline_call(
    uint64_t tapes, uint64_t symbols, uint64_t states, uint64_t start,
    const uint8_t *table, size_t table_len,
    uint8_t *ls, size_t ls_len, uint64_t *ll, size_t ll_len,
    uint8_t *rs, size_t rs_len, uint64_t *rl, size_t rl_len,
    uint8_t *store, size_t store_len,
    uint16_t *state, uint8_t *cur, uint64_t engine[7],
    uint64_t times[4], uint8_t which, uint64_t number,
    uint64_t out[8]);

#ifdef __cplusplus
}
#endif

#endif
