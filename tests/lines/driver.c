/*
 * Calls tm_line_read and tm_line_write, and the plain engine, for try.py. Cases come on standard input, answers go to
 * standard output, both in a binary form: numbers are unsigned with the low byte first, n8 to n64 by their bits.
 *
 *   R  fill n8, null n8, length n32, room n32, the line                             reads a line
 *   W  fill n8, null n8, tapes n64, symbols n64, states n64, start n64, length n32, room n32, the table
 *                                                                                   writes the line of a table
 *   S  symbols n64, states n64, fuel n64, cells n32, length n32, the table          runs the plain engine, blank word
 *   P  length n32, count n32, 256 bits, then for each prefix its bytes, code n8, place n8, symbols n8, states n8 and,
 *      for code 0, its table                                                        tries prefixes with every next byte
 *
 * The answer to R, W and S is code n8, kept n8, out 8 * n64, and the `room` bytes of the lent buffer (none for S). kept
 * is 1 where nothing around the lent memory changed, nor what was lent for reading. The answer to P is the number of
 * mismatches n64, how many of them follow n32, and for each the line's length n32, the line, and its answer as to R.
 *
 * Before each call byte j of the lent buffer is 37 * (fill + j), and out[i] is 0xbad0000000000000 + 256 * fill + i.
 * `null` is 1 where an empty slice is lent as NULL.
 */
#include <stdio.h>
#include <stdlib.h>
#include <string.h>

#include "../../include/turing.h"

enum { GUARD = 32, PREFIX_ROOM = 256, PREFIX_FILL = 7, SHOWN = 5, LONGEST_PREFIX = 40 };

/* Memory lent to a call: `len` bytes with GUARD bytes on either side. `before` is a copy of it all. */
struct lent {
    uint8_t *block, *before;
    size_t len, size;
};

static struct lent input, buffer, outs;

static void fail(const char *why)
{
    fprintf(stderr, "driver: %s\n", why);
    exit(2);
}

/* ---- standard input and output ---- */

static void take(void *to, size_t len)
{
    if (fread(to, 1, len, stdin) != len)
        fail("a case ends early");
}

static uint64_t take_number(int bits)
{
    uint8_t bytes[8];
    uint64_t number = 0;
    int i;

    take(bytes, (size_t)bits / 8);
    for (i = bits / 8; i > 0; i--)
        number = number << 8 | bytes[i - 1];
    return number;
}

static void put(const void *from, size_t len)
{
    if (fwrite(from, 1, len, stdout) != len)
        fail("an answer cannot be written");
}

static void put_number(uint64_t number, int bits)
{
    uint8_t bytes[8];
    int i;

    for (i = 0; i < bits / 8; i++, number >>= 8)
        bytes[i] = (uint8_t)number;
    put(bytes, (size_t)bits / 8);
}

/* ---- lent memory ---- */

static uint8_t *at(const struct lent *lent)
{
    return lent->block + GUARD;
}

/* Makes `len` bytes with the byte `guard` around them. */
static void lend(struct lent *lent, size_t len, uint8_t guard)
{
    if (lent->size < len + 2 * GUARD) {
        lent->size = 2 * len + 2 * GUARD;
        free(lent->block);
        free(lent->before);
        lent->block = malloc(lent->size);
        lent->before = malloc(lent->size);
        if (lent->block == NULL || lent->before == NULL)
            fail("no memory");
    }
    lent->len = len;
    memset(lent->block, guard, GUARD);
    memset(at(lent) + len, guard, GUARD);
}

/* Keeps a copy of what is lent. */
static void keep(struct lent *lent)
{
    memcpy(lent->before, lent->block, lent->len + 2 * GUARD);
}

static void restore(struct lent *lent)
{
    memcpy(lent->block, lent->before, lent->len + 2 * GUARD);
}

/* Whether the bytes around it are as they were. */
static int guarded(const struct lent *lent)
{
    return memcmp(lent->block, lent->before, GUARD) == 0
        && memcmp(at(lent) + lent->len, lent->before + GUARD + lent->len, GUARD) == 0;
}

/* Whether the bytes from place `from` on, and those around it all, are as they were. */
static int same_from(const struct lent *lent, size_t from)
{
    return guarded(lent) && memcmp(at(lent) + from, lent->before + GUARD + from, lent->len - from) == 0;
}

/* The slice to lend, NULL for an empty one where the case says so. */
static uint8_t *slice(const struct lent *lent, int null)
{
    return null && lent->len == 0 ? NULL : at(lent);
}

static uint64_t *out(void)
{
    return (uint64_t *)(void *)at(&outs);
}

/* Bytes of the form stand around what is read, so that reading too far changes the answer. */
static void lend_input(size_t len, unsigned fill)
{
    lend(&input, len, (uint8_t)"1LA-_"[fill % 5]);
}

static void lend_outputs(size_t room, unsigned fill)
{
    size_t j;

    lend(&buffer, room, 0xc3);
    for (j = 0; j < room; j++)
        at(&buffer)[j] = (uint8_t)(37 * (fill + j));
    keep(&buffer);
    lend(&outs, 8 * sizeof(uint64_t), 0x5a);
    for (j = 0; j < 8; j++)
        out()[j] = UINT64_C(0xbad0000000000000) + 256 * fill + j;
    keep(&outs);
}

static void put_answer(uint8_t code, size_t room)
{
    int i;

    put_number(code, 8);
    put_number((uint64_t)(same_from(&input, 0) && guarded(&buffer) && guarded(&outs)), 8);
    for (i = 0; i < 8; i++)
        put_number(out()[i], 64);
    put(at(&buffer), room);
}

/* ---- single cases ---- */

static void read_case(void)
{
    unsigned fill = (unsigned)take_number(8);
    int null = (int)take_number(8);
    size_t len = (size_t)take_number(32), room = (size_t)take_number(32);
    uint8_t code;

    lend_input(len, fill);
    take(at(&input), len);
    keep(&input);
    lend_outputs(room, fill);
    code = tm_line_read(slice(&input, null), len, slice(&buffer, null), room, out());
    put_answer(code, room);
}

static void write_case(void)
{
    unsigned fill = (unsigned)take_number(8);
    int null = (int)take_number(8);
    uint64_t tapes = take_number(64), symbols = take_number(64), states = take_number(64), start = take_number(64);
    size_t len = (size_t)take_number(32), room = (size_t)take_number(32);
    uint8_t code;

    lend_input(len, fill);
    take(at(&input), len);
    keep(&input);
    lend_outputs(room, fill);
    code = tm_line_write(
        tapes, symbols, states, start, slice(&input, null), len, slice(&buffer, null), room, out());
    put_answer(code, room);
}

#ifdef NO_ENGINE
/* A driver without the library runs nothing. */
static uint8_t run(uint64_t symbols, uint64_t states, uint64_t fuel, size_t len, size_t cells)
{
    (void)symbols, (void)states, (void)fuel, (void)len, (void)cells;
    return 255;
}
#else
/* Makes a fresh engine with a blank word and runs it. */
static uint8_t run(uint64_t symbols, uint64_t states, uint64_t fuel, size_t len, size_t cells)
{
    uint16_t state = 0;
    uint64_t engine[16] = {0};
    const uint8_t *table = at(&input);
    uint8_t *tape = at(&buffer);
    uint8_t code;

    code = tm_sim_new(
        1, symbols, states, 0, table, len, NULL, 0, tape, cells, NULL, 0, NULL, 0, &state, engine, out());
    if (code != 0)
        return code;
    return tm_sim_run(
        1, symbols, states, 0, table, len, tape, cells, NULL, 0, NULL, 0, &state, engine, TM_NO_RULE, fuel, out());
}
#endif

static void run_case(void)
{
    uint64_t symbols = take_number(64), states = take_number(64), fuel = take_number(64);
    size_t cells = (size_t)take_number(32), len = (size_t)take_number(32);

    lend_input(len, 0);
    take(at(&input), len);
    keep(&input);
    lend_outputs(cells, 0);
    put_answer(run(symbols, states, fuel, len, cells), 0);
}

/* ---- prefixes ---- */

/* What the reader must answer for a prefix. */
struct answer {
    uint8_t code, place, symbols, states;
    uint8_t table[PREFIX_ROOM];
    size_t table_len;
};

/* The mismatches of one case, and the first of them as they are put out. */
static uint64_t mismatches;
static struct {
    uint8_t line[LONGEST_PREFIX + 1];
    size_t len;
} shown[SHOWN];

static void mismatch(const uint8_t *line, size_t len)
{
    if (mismatches < SHOWN) {
        memcpy(shown[mismatches].line, line, len);
        shown[mismatches].len = len;
    }
    mismatches++;
}

static uint8_t call(size_t len)
{
    return tm_line_read(at(&input), len, at(&buffer), PREFIX_ROOM, out());
}

/* Whether a call was refused by `code` at `place`, and nothing else changed. */
static int refused(uint8_t got, uint8_t code, uint64_t place)
{
    return got == code && out()[0] == place && same_from(&outs, sizeof(uint64_t)) && same_from(&buffer, 0)
        && same_from(&input, 0);
}

/* Whether a call was accepted and changed only the first `table_len` bytes and the first two places of out. */
static int accepted(uint8_t got, size_t table_len)
{
    return got == 0 && same_from(&outs, 2 * sizeof(uint64_t)) && same_from(&buffer, table_len)
        && same_from(&input, 0);
}

static int as_given(uint8_t got, const struct answer *want)
{
    if (want->code != 0)
        return refused(got, want->code, want->place);
    return accepted(got, want->table_len) && out()[0] == want->symbols && out()[1] == want->states
        && memcmp(at(&buffer), want->table, want->table_len) == 0;
}

/* Whether the answer is one for a line of `len` bytes of which each may follow those before it. */
static int for_viable(uint8_t got, size_t len)
{
    uint64_t first = out()[0], second = out()[1];

    if (got == 19)
        return refused(got, 19, len);
    if (got == 20)
        return refused(got, 20, first) && first < len;
    return first <= 10 && second <= 26 && 8 * first * second <= PREFIX_ROOM
        && accepted(got, (size_t)(8 * first * second));
}

/* Tries the prefix with every byte after it. */
static void try_next(const uint8_t *prefix, size_t len, const uint8_t next[32])
{
    unsigned byte;

    lend_input(len + 1, PREFIX_FILL);
    memcpy(at(&input), prefix, len);
    at(&input)[len] = 0;
    keep(&input);
    for (byte = 0; byte < 256; byte++) {
        int may_follow = next[byte / 8] >> byte % 8 & 1;
        uint8_t got;

        at(&input)[len] = input.before[GUARD + len] = (uint8_t)byte;
        got = call(len + 1);
        if (!(may_follow ? for_viable(got, len + 1) : refused(got, 19, len)))
            mismatch(at(&input), len + 1);
        if (got == 0 || mismatches > 0)
            restore(&buffer);
        restore(&outs);
    }
}

static void try_prefix(const uint8_t *prefix, size_t len, const struct answer *want, const uint8_t next[32])
{
    lend_input(len, PREFIX_FILL);
    memcpy(at(&input), prefix, len);
    keep(&input);
    if (!as_given(call(len), want))
        mismatch(prefix, len);
    restore(&buffer);
    restore(&outs);
    try_next(prefix, len, next);
}

static void take_answer(struct answer *want)
{
    want->code = (uint8_t)take_number(8);
    want->place = (uint8_t)take_number(8);
    want->symbols = (uint8_t)take_number(8);
    want->states = (uint8_t)take_number(8);
    want->table_len = want->code == 0 ? 8 * (size_t)want->symbols * want->states : 0;
    if (want->table_len > PREFIX_ROOM)
        fail("the table of a prefix is too long");
    take(want->table, want->table_len);
}

/* Calls for the lines that showed a mismatch once more, to put out the answers. */
static void put_mismatches(void)
{
    uint64_t count = mismatches < SHOWN ? mismatches : SHOWN, i;

    put_number(mismatches, 64);
    put_number(count, 32);
    for (i = 0; i < count; i++) {
        uint8_t code;

        lend_input(shown[i].len, PREFIX_FILL);
        memcpy(at(&input), shown[i].line, shown[i].len);
        keep(&input);
        lend_outputs(PREFIX_ROOM, PREFIX_FILL);
        code = call(shown[i].len);
        put_number(shown[i].len, 32);
        put(shown[i].line, shown[i].len);
        put_answer(code, PREFIX_ROOM);
    }
}

static void prefix_case(void)
{
    size_t len = (size_t)take_number(32), count = (size_t)take_number(32);
    uint8_t next[32], prefix[LONGEST_PREFIX];
    struct answer want;

    if (len > LONGEST_PREFIX)
        fail("a prefix is too long");
    take(next, sizeof next);
    mismatches = 0;
    lend_outputs(PREFIX_ROOM, PREFIX_FILL);
    while (count-- > 0) {
        take(prefix, len);
        take_answer(&want);
        try_prefix(prefix, len, &want, next);
    }
    put_mismatches();
}

int main(void)
{
    int kind;

    while ((kind = getchar()) != EOF) {
        if (kind == 'R')
            read_case();
        else if (kind == 'W')
            write_case();
        else if (kind == 'S')
            run_case();
        else if (kind == 'P')
            prefix_case();
        else
            fail("a case of no known kind");
    }
    if (fflush(stdout) != 0)
        fail("the answers cannot be written");
    return 0;
}
