/*
 * Holds nomyugereka.h to the library: every macro to its number, and every call to what its parameters mean, each with
 * lengths and values that would be noticed in another's place. Prints what is wrong; the exit status is 0 if nothing is.
 */
#include "nomyugereka.h"

#include <stdio.h>
#include <string.h>

static int faults, looks;

static void hold(const char *what, uint64_t got, uint64_t wanted)
{
    looks++;
    if (got != wanted) {
        faults++;
        printf("%s is %llu and not %llu\n", what, (unsigned long long)got, (unsigned long long)wanted);
    }
}

#define HOLD(expression, wanted) hold(#expression, (uint64_t)(expression), (wanted))

static uint64_t answer(uint64_t kind, uint64_t value) { return kind * 4294967296u + value; }

/* One state, initial and final; letter 0 is plain, 1 opens and 2 closes, each by one move. */
static const uint8_t table[] = {0, 22, 1, 1, 3, 1, 0, 3, 0, 1, 2, 3, 0, 0, 0, 0, 0, 1, 0, 0, 0, 2, 0, 0};

/* Two states and a plain move from the first, which is initial, to the second, which is final. */
static const uint8_t step[] = {0, 13, 1, 2, 1, 0, 0, 1, 0, 1, 2, 0, 0, 0, 1};

static uint16_t scratch[NOMYUGEREKA_SCRATCH_NUMBERS];
static uint8_t out[NOMYUGEREKA_TABLE_BYTES];
static uint8_t state[NOMYUGEREKA_STATE_BYTES + 1];

static void sizes(void)
{
    HOLD(NOMYUGEREKA_STATES, 64);
    HOLD(NOMYUGEREKA_LETTERS, 32);
    HOLD(NOMYUGEREKA_MARKS, 64);
    HOLD(NOMYUGEREKA_MOVES, 1024);
    HOLD(NOMYUGEREKA_TABLE_BYTES, 4200);
    HOLD(NOMYUGEREKA_LOG_LETTERS, 16777215);
    HOLD(NOMYUGEREKA_SHOWN_LETTERS, 4096);
    HOLD(NOMYUGEREKA_DEPTH, 32);
    HOLD(NOMYUGEREKA_SCRATCH_NUMBERS, 16384);
    HOLD(NOMYUGEREKA_STATE_BYTES, 17184);
}

static void kinds(void)
{
    HOLD(NOMYUGEREKA_REFUSED, 0);
    HOLD(NOMYUGEREKA_GOING, 1);
    HOLD(NOMYUGEREKA_ACCEPTED, 2);
    HOLD(NOMYUGEREKA_UNFINISHED, 3);
    HOLD(NOMYUGEREKA_STOP, 4);
    HOLD(NOMYUGEREKA_WRITTEN, 5);
    HOLD(NOMYUGEREKA_NO_LOG, 6);
    HOLD(NOMYUGEREKA_GOOD, 7);
    HOLD(nomyugereka_kind(answer(4, 4294967295u)), 4);
    HOLD(nomyugereka_value(answer(4, 4294967295u)), 4294967295u);
}

static void refusals(void)
{
    HOLD(NOMYUGEREKA_REFUSAL_LENGTH, 1);
    HOLD(NOMYUGEREKA_REFUSAL_VERSION, 2);
    HOLD(NOMYUGEREKA_REFUSAL_LIMIT, 3);
    HOLD(NOMYUGEREKA_REFUSAL_SIZE, 4);
    HOLD(NOMYUGEREKA_REFUSAL_LIST, 5);
    HOLD(NOMYUGEREKA_REFUSAL_MOVE, 6);
    HOLD(NOMYUGEREKA_REFUSAL_LENT, 7);
    HOLD(NOMYUGEREKA_REFUSAL_LARGE, 8);
    HOLD(NOMYUGEREKA_REFUSAL_ROOM, 9);
    HOLD(NOMYUGEREKA_REFUSAL_LONG, 10);
    HOLD(NOMYUGEREKA_REFUSAL_LETTER, 11);
    HOLD(NOMYUGEREKA_REFUSAL_LETTERS, 12);
    HOLD(NOMYUGEREKA_REFUSAL_DEPTH, 13);
    HOLD(NOMYUGEREKA_REFUSAL_STATE, 14);
}

static void tables(void)
{
    HOLD(nomyugereka_check(table, sizeof table), answer(7, 0));
    HOLD(nomyugereka_check(table, sizeof table - 1), 1);
    HOLD(nomyugereka_write(table, sizeof table, out, sizeof table), answer(5, sizeof table));
    HOLD(memcmp(out, table, sizeof table), 0);
    HOLD(nomyugereka_write(table, sizeof table, out, sizeof table - 1), 9);
    HOLD(nomyugereka_trim(step, sizeof step, scratch, NOMYUGEREKA_SCRATCH_NUMBERS, out, sizeof step), answer(5, sizeof step));
    HOLD(memcmp(out, step, sizeof step), 0);
    HOLD(nomyugereka_trim(step, sizeof step, scratch, NOMYUGEREKA_SCRATCH_NUMBERS - 1, out, sizeof step), 7);
    HOLD(nomyugereka_trim(step, sizeof step, scratch, NOMYUGEREKA_SCRATCH_NUMBERS, out, sizeof step - 1), 9);
    HOLD(nomyugereka_shortest(step, sizeof step, scratch, NOMYUGEREKA_SCRATCH_NUMBERS, out, 1), answer(5, 1));
    HOLD(out[0], 0);
    HOLD(nomyugereka_shortest(step, sizeof step, scratch, NOMYUGEREKA_SCRATCH_NUMBERS - 1, out, 1), 7);
    HOLD(nomyugereka_shortest(step, sizeof step, scratch, NOMYUGEREKA_SCRATCH_NUMBERS, out, 0), 9);
}

/* The state stands at an odd address, which a state of bytes may. */
static void readers(void)
{
    uint8_t *odd = state + 1;
    HOLD(nomyugereka_begin(table, sizeof table, odd, NOMYUGEREKA_STATE_BYTES), answer(1, 0));
    HOLD(nomyugereka_begin(table, sizeof table, odd, NOMYUGEREKA_STATE_BYTES - 1), 7);
    HOLD(nomyugereka_letter(table, sizeof table, odd, NOMYUGEREKA_STATE_BYTES, 1), answer(1, 0));
    HOLD(nomyugereka_letter(table, sizeof table, odd, NOMYUGEREKA_STATE_BYTES, 3), 11);
    HOLD(nomyugereka_finish(table, sizeof table, odd, NOMYUGEREKA_STATE_BYTES), answer(3, 0));
    HOLD(nomyugereka_letter(table, sizeof table, odd, NOMYUGEREKA_STATE_BYTES, 2), answer(1, 0));
    HOLD(nomyugereka_finish(table, sizeof table, odd, NOMYUGEREKA_STATE_BYTES), answer(2, 0));
    HOLD(nomyugereka_letter(table, sizeof table, odd, NOMYUGEREKA_STATE_BYTES, 2), answer(4, 2));
    HOLD(nomyugereka_finish(table, sizeof table, odd, NOMYUGEREKA_STATE_BYTES - 1), 7);
}

static void logs(void)
{
    static const uint8_t log[] = {2, 1};
    int32_t balance = 5, lowest = 6;
    HOLD(nomyugereka_read_log(table, sizeof table, log, 2, state, NOMYUGEREKA_STATE_BYTES), answer(4, 0));
    HOLD(nomyugereka_read_log(table, sizeof table, log + 1, 1, state, NOMYUGEREKA_STATE_BYTES), answer(3, 0));
    HOLD(nomyugereka_read_log(table, sizeof table, log, 2, state, NOMYUGEREKA_STATE_BYTES - 1), 7);
    HOLD(nomyugereka_balance(table, sizeof table, log, 2, &balance, &lowest), answer(7, 0));
    HOLD(balance + 1, 1);
    HOLD(lowest + 1, 0);
}

int main(void)
{
    sizes();
    kinds();
    refusals();
    tables();
    readers();
    logs();
    printf("%d\n", looks);
    return faults != 0;
}
