/* How to call the library from C: the listing's table of document 01 on the blank word, run by both engines and moved
 * along a timeline. include/turing.h says what each function takes and answers. */
#include <stdio.h>

#include "turing.h"

/* The machine's numbers and its table, which every call takes: one tape, 2 symbols, 3 states, start state 0. The table is
 * read from a line in the one-line form; the third state is Z, in which the machine halts. */
static const char line[] = "1RB1LB_1LA1RZ";
static uint8_t table[48];
#define MACHINE 1, 2, 3, 0, table, sizeof table

/* Cells of tape 0; the machine lacks the other two, which need none. */
static uint8_t cells[64];
#define CELLS cells, sizeof cells, NULL, 0, NULL, 0

/* A run's places on each side of the head, symbols beside lengths. */
static uint8_t left_symbols[16], right_symbols[16];
static uint64_t left_lengths[16], right_lengths[16];
#define RUNS left_symbols, 16, left_lengths, 16, right_symbols, 16, right_lengths, 16

static uint64_t out[8];

/* Prints what a call answered: its refusal, or the outcome that `out` holds. */
static void tell(const char *call, uint8_t refusal)
{
    static const char *const outcomes[] = {"halted", "out of fuel", "never halts, seen", "stopped", "full"};
    if (refusal != 0)
        printf("%s: refused %d\n", call, refusal);
    else
        printf("%s: %s at %llu\n", call, outcomes[out[0]], (unsigned long long)out[1]);
}

static void read_table(void)
{
    uint8_t refusal = tm_line_read((const uint8_t *)line, sizeof line - 1, table, sizeof table, out);
    if (refusal != 0)
        printf("refused %d\n", refusal);
}

/* Makes a fresh plain engine; its numbers go into each later call, which changes them in place. */
static void fresh(uint16_t *state, uint64_t engine[16])
{
    uint8_t refusal = tm_sim_new(MACHINE, NULL, 0, CELLS, state, engine, out);
    if (refusal != 0)
        printf("refused %d\n", refusal);
}

static void run_twice(void)
{
    uint16_t state = 0;
    uint64_t engine[16] = {0};
    fresh(&state, engine);
    tell("plain, fuel 5", tm_sim_run(MACHINE, CELLS, &state, engine, TM_NO_RULE, 5, out));
    tell("plain, fuel 5 again", tm_sim_run(MACHINE, CELLS, &state, engine, TM_NO_RULE, 5, out));
}

/* Up to 8 checkpoints, 16 steps apart at first, in a store of 8 + 1 slots of 128 bytes and the cells. */
static void travel(void)
{
    static uint8_t store[9 * (128 + sizeof cells)];
    uint16_t state = 0;
    uint64_t engine[16] = {0}, times[4] = {0};
    fresh(&state, engine);
    uint8_t refusal = tm_sim_timeline_new(MACHINE, CELLS, store, sizeof store, state, engine, times, 8, 16, out);
    if (refusal != 0)
        printf("refused %d\n", refusal);
#define MOVE(which, number) \
    tm_sim_timeline_call(MACHINE, CELLS, store, sizeof store, &state, engine, times, which, number, out)
    tell("timeline, seek 3", MOVE(TM_SEEK, 3));
    tell("timeline, back 1", MOVE(TM_BACK, 1));
    tell("timeline, forward 100", MOVE(TM_FORWARD, 100));
}

/* The run-length engine tests its stop rule before a step; the plain one would stop after it, at 2. */
static void stop_on_state_1(void)
{
    uint16_t state = 0;
    uint8_t under_head = 0;
    uint64_t engine[7] = {0};
    uint8_t refusal = tm_chain_new(MACHINE, NULL, 0, RUNS, &state, &under_head, engine, out);
    if (refusal != 0)
        printf("refused %d\n", refusal);
    tell("run-length, stop on state 1, fuel 5", tm_chain_run(MACHINE, RUNS, &state, &under_head, engine, 1, 5, out));
}

int main(void)
{
    read_table();
    run_twice();
    travel();
    stop_on_state_1();
    return 0;
}
