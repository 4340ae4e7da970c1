/*
 * Runs one-tape tables on the engines of the library, for try.py. Cases come on standard input, answers go to standard
 * output, both in a binary form: numbers are unsigned with the low byte first, n8 to n32 by their bits.
 *
 *   K  tm_check alone                                                              the answer is its code n8
 *   P  the plain engine, `space` cells                                             the answer is steps + 3 records
 *   C  the run-length engine, `space` run places on either side                    the answer is steps + 3 records
 *
 * After that letter a case has symbols n16, states n32, start n16, steps n8, half n8, space n32, the word's length n16,
 * the table's length n32, the word and the table. The first steps + 1 records are those of a timeline that seeks 0, 1, ..,
 * steps. The last two are those of fresh engines that run with fuel steps / 4, rounded down, and with fuel `steps`.
 *
 * A record:
 *   place 0    the first code of the case's calls that is not 0, or UNFIT for a number that has no place in a record; if
 *              this is not 0 all else is 0
 *   place 1    the outcome, out[0]
 *   place 2-3  the verdict's state + 1 where it has one, else 0, low byte first
 *   place 4    out[3] + 2 * out[4]
 *   place 5    the verdict's steps, out[1]
 *   place 6-7  the engine's state, low byte first
 *   place 8    the engine's steps
 *   place 9    head; 10 lowest; 11 highest: positions, raised by 128
 *   place 12   the count of cells that are not blank
 *   from 13    the cells at the positions from -half to half
 */
#include <stdio.h>
#include <stdlib.h>
#include <string.h>

#include "../../include/turing.h"

enum { HEAD = 13, MOST_HALF = 127, MOST_WINDOW = 2 * MOST_HALF + 1, RAISED = 128, UNFIT = 255, JUNK = 0xe5 };
enum { SLOTS = 1, INTERVAL = 1000, SLOT_HEAD = 128 };

static struct {
    uint64_t symbols, states, start, steps, half;
    size_t space, word_len, table_len;
} asked;

/* Memory that is lent; it is made larger where a case needs more. */
static struct memory {
    void *at;
    size_t size;
} word, table, store, cells, left_symbols, left_lengths, right_symbols, right_lengths;

static uint64_t out[8], times[4];

static void fail(const char *why)
{
    fprintf(stderr, "driver: %s\n", why);
    exit(2);
}

/* ---- standard input, memory and standard output ---- */

static void take(void *to, size_t len)
{
    if (len > 0 && fread(to, 1, len, stdin) != len)
        fail("a case ends early");
}

static uint64_t take_number(int bits)
{
    uint8_t bytes[8];
    uint64_t number = 0;
    int i;

    take(bytes, (size_t)bits / 8);
    for (i = bits / 8; i > 0; i--)
        number = number << 8 | bytes[i - 1];
    return number;
}

/* Makes `len` bytes of junk. */
static void lend(struct memory *memory, size_t len)
{
    if (memory->size < len) {
        free(memory->at);
        memory->size = 2 * len;
        memory->at = malloc(memory->size);
        if (memory->at == NULL)
            fail("no memory");
    }
    if (len > 0)
        memset(memory->at, JUNK, len);
}

static void put(const void *from, size_t len)
{
    if (fwrite(from, 1, len, stdout) != len)
        fail("an answer cannot be written");
}

/* ---- an engine of either kind ---- */

/* What is to be seen of an engine. */
struct view {
    uint64_t state, steps, head, lowest, highest, score; /* positions raised by RAISED */
    uint8_t window[MOST_WINDOW];
};

/* The calls of an engine; each gives its code. */
struct kind {
    uint8_t (*fresh)(void);
    uint8_t (*begin)(void);
    uint8_t (*seek)(uint64_t target);
    uint8_t (*run)(uint64_t fuel);
    uint8_t (*look)(struct view *view);
};

#define MACHINE 1, asked.symbols, asked.states, asked.start, table.at, asked.table_len

static size_t window_len(void)
{
    return (size_t)(2 * asked.half + 1);
}

static int64_t window_from(void)
{
    return -(int64_t)asked.half;
}

/* ---- the plain engine ---- */

static struct {
    uint16_t state;
    uint64_t numbers[16];
} plain;

#define CELLS cells.at, asked.space, NULL, 0, NULL, 0
#define PLAIN_STORE store.at, (SLOTS + 1) * (SLOT_HEAD + asked.space)

static uint8_t plain_fresh(void)
{
    lend(&cells, asked.space);
    memset(&plain, JUNK, sizeof plain);
    return tm_sim_new(MACHINE, word.at, asked.word_len, CELLS, &plain.state, plain.numbers, out);
}

static uint8_t plain_begin(void)
{
    lend(&store, (SLOTS + 1) * (SLOT_HEAD + asked.space));
    return tm_sim_timeline_new(MACHINE, CELLS, PLAIN_STORE, plain.state, plain.numbers, times, SLOTS, INTERVAL, out);
}

static uint8_t plain_seek(uint64_t target)
{
    return tm_sim_timeline_call(MACHINE, CELLS, PLAIN_STORE, &plain.state, plain.numbers, times, TM_SEEK, target, out);
}

static uint8_t plain_run(uint64_t fuel)
{
    return tm_sim_run(MACHINE, CELLS, &plain.state, plain.numbers, TM_NO_RULE, fuel, out);
}

static uint8_t plain_look(struct view *view)
{
    uint64_t count[8] = {0}, none[8], origin = plain.numbers[2];
    uint8_t code;

    view->state = plain.state;
    view->steps = plain.numbers[0];
    view->head = plain.numbers[3] - origin + RAISED;
    view->lowest = plain.numbers[4] - origin + RAISED;
    view->highest = plain.numbers[5] - origin + RAISED;
    code = tm_sim_count(MACHINE, CELLS, plain.state, plain.numbers, 0, count);
    view->score = count[0];
    if (code != 0)
        return code;
    return tm_sim_window(
        MACHINE, CELLS, plain.state, plain.numbers, 0, window_from(), view->window, window_len(), none);
}

/* ---- the run-length engine ---- */

static struct {
    uint16_t state;
    uint8_t cur;
    uint64_t numbers[7];
} chain;

#define PLACES asked.space
#define LEFT left_symbols.at, PLACES, left_lengths.at, PLACES
#define RIGHT right_symbols.at, PLACES, right_lengths.at, PLACES
#define CHAIN_STORE store.at, (SLOTS + 1) * (SLOT_HEAD + 9 * 2 * PLACES)

static uint8_t chain_fresh(void)
{
    lend(&left_symbols, PLACES);
    lend(&left_lengths, 8 * PLACES);
    lend(&right_symbols, PLACES);
    lend(&right_lengths, 8 * PLACES);
    memset(&chain, JUNK, sizeof chain);
    return tm_chain_new(
        MACHINE, word.at, asked.word_len, LEFT, RIGHT, &chain.state, &chain.cur, chain.numbers, out);
}

static uint8_t chain_begin(void)
{
    lend(&store, (SLOTS + 1) * (SLOT_HEAD + 9 * 2 * PLACES));
    return tm_chain_timeline_new(
        MACHINE, LEFT, RIGHT, CHAIN_STORE, chain.state, chain.cur, chain.numbers, times, SLOTS, INTERVAL, out);
}

static uint8_t chain_seek(uint64_t target)
{
    return tm_chain_timeline_call(
        MACHINE, LEFT, RIGHT, CHAIN_STORE, &chain.state, &chain.cur, chain.numbers, times, TM_SEEK, target, out);
}

static uint8_t chain_run(uint64_t fuel)
{
    return tm_chain_run(MACHINE, LEFT, RIGHT, &chain.state, &chain.cur, chain.numbers, TM_NO_RULE, fuel, out);
}

static uint8_t chain_look(struct view *view)
{
    uint64_t count[8] = {0}, none[8], origin = UINT64_C(1) << 63;
    uint8_t code;

    view->state = chain.state;
    view->steps = chain.numbers[0];
    view->head = chain.numbers[4] - origin + RAISED;
    view->lowest = chain.numbers[5] - origin + RAISED;
    view->highest = chain.numbers[6] - origin + RAISED;
    code = tm_chain_count(MACHINE, LEFT, RIGHT, chain.state, chain.cur, chain.numbers, count);
    view->score = count[0];
    if (code != 0)
        return code;
    return tm_chain_window(
        MACHINE, LEFT, RIGHT, chain.state, chain.cur, chain.numbers, window_from(), view->window, window_len(), none);
}

/* ---- records ---- */

static int has_state(void)
{
    return out[0] == TM_HALTED || out[0] == TM_NEVER_HALTS;
}

/* Whether each number has a place in a record. */
static int fits(const struct view *view)
{
    int verdict = out[0] <= TM_FULL && out[1] <= 255 && out[3] <= 1 && out[4] <= 1;
    int named = out[2] < (has_state() ? 65535 : 1);
    int positions = view->head - 1 < 255 && view->lowest - 1 < 255 && view->highest - 1 < 255;

    return verdict && named && positions && view->steps <= 255 && view->score <= 255;
}

static void fill(uint8_t *record, const struct view *view)
{
    uint64_t named = has_state() ? out[2] + 1 : 0;

    record[1] = (uint8_t)out[0];
    record[2] = (uint8_t)named;
    record[3] = (uint8_t)(named >> 8);
    record[4] = (uint8_t)(out[3] + 2 * out[4]);
    record[5] = (uint8_t)out[1];
    record[6] = (uint8_t)view->state;
    record[7] = (uint8_t)(view->state >> 8);
    record[8] = (uint8_t)view->steps;
    record[9] = (uint8_t)view->head;
    record[10] = (uint8_t)view->lowest;
    record[11] = (uint8_t)view->highest;
    record[12] = (uint8_t)view->score;
    memcpy(record + HEAD, view->window, window_len());
}

/* Puts the record of the engine as it stands, with the code so far. Gives the code, with those of the questions. */
static uint8_t put_record(const struct kind *kind, uint8_t code)
{
    uint8_t record[HEAD + MOST_WINDOW] = {0};
    struct view view;

    memset(&view, JUNK, sizeof view);
    if (code == 0)
        code = kind->look(&view);
    if (code == 0 && !fits(&view))
        code = UNFIT;
    record[0] = code;
    if (code == 0)
        fill(record, &view);
    put(record, HEAD + window_len());
    return code;
}

static uint8_t put_timeline(const struct kind *kind)
{
    uint8_t code = kind->fresh();
    uint64_t step;

    if (code == 0)
        code = kind->begin();
    for (step = 0; step <= asked.steps; step++) {
        memset(out, JUNK, sizeof out);
        if (code == 0)
            code = kind->seek(step);
        code = put_record(kind, code);
    }
    return code;
}

static uint8_t put_run(const struct kind *kind, uint8_t code, uint64_t fuel)
{
    if (code == 0)
        code = kind->fresh();
    memset(out, JUNK, sizeof out);
    if (code == 0)
        code = kind->run(fuel);
    return put_record(kind, code);
}

static void put_records(const struct kind *kind)
{
    uint8_t code = put_timeline(kind);

    code = put_run(kind, code, asked.steps / 4);
    put_run(kind, code, asked.steps);
}

/* ---- cases ---- */

static void take_case(void)
{
    asked.symbols = take_number(16);
    asked.states = take_number(32);
    asked.start = take_number(16);
    asked.steps = take_number(8);
    asked.half = take_number(8);
    asked.space = (size_t)take_number(32);
    asked.word_len = (size_t)take_number(16);
    asked.table_len = (size_t)take_number(32);
    if (asked.half > MOST_HALF)
        fail("a window is too wide");
    lend(&word, asked.word_len);
    lend(&table, asked.table_len);
    take(word.at, asked.word_len);
    take(table.at, asked.table_len);
}

int main(void)
{
    static const struct kind plain_kind = {plain_fresh, plain_begin, plain_seek, plain_run, plain_look};
    static const struct kind chain_kind = {chain_fresh, chain_begin, chain_seek, chain_run, chain_look};
    uint8_t code;
    int kind;

    while ((kind = getchar()) != EOF) {
        take_case();
        if (kind == 'P') {
            put_records(&plain_kind);
        } else if (kind == 'C') {
            put_records(&chain_kind);
        } else if (kind == 'K') {
            code = tm_check(MACHINE, out);
            put(&code, 1);
        } else {
            fail("a case of no known kind");
        }
    }
    if (fflush(stdout) != 0)
        fail("the answers cannot be written");
    return 0;
}
