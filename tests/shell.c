/* A desk's shell in small, over include/desk.h: takes the table on standard input through check, compile, start and play, a few steps and events at a
 * time, and prints each event and the end, or `open 0`, as a listing has them; the four totals are the listing program's alone. Called as `shell macro`
 * it loads a compiled macro instead. Before it plays it asks for a run with a bank of 63 readings, to see it refused. */
#include <stdio.h>
#include <string.h>

#include "desk.h"

enum { SLICE = 30, EVENTS = 3, MOST_STEPS = 65535, MACRO_BYTES = 65536 };

static uint8_t table[CUE_TABLE_BYTES + 1]; /* one byte more, so that a longer table is seen to be one */
static uint8_t code[MACRO_BYTES];
static uint8_t state[CUE_STATE_BYTES];
static uint8_t readings[CUE_READINGS];
static uint8_t answers[EVENTS * CUE_ANSWER_BYTES];

/* Prints an answer, if there is something to print; whether there is more to come. */
static int shown(uint64_t answer)
{
    unsigned first = CUE_FIRST(answer), second = CUE_SECOND(answer);

    switch (CUE_TAG(answer)) {
    case CUE_REFUSAL:
        printf("refused %u %u\n", first, second);
        return 0;
    case CUE_END:
        printf("end %u\n", first);
        return 0;
    case CUE_SET:
        printf("set %u %u\n", first, second);
        return 1;
    case CUE_HOLD:
        printf("hold %u\n", first);
        return 1;
    case CUE_RELEASE:
        printf("release %u\n", first);
        return 1;
    default: /* done, the allowance used, or no room for another event */
        return 1;
    }
}

/* The length of the macro that is then in `code`, 0 where there is none. */
static size_t macro(int compiled)
{
    uint64_t answer;
    size_t n;

    if (compiled) {
        n = fread(code, 1, sizeof code, stdin);
        return shown(cue_load(code, n)) ? n : 0;
    }
    n = fread(table, 1, sizeof table, stdin);
    if (!shown(cue_check(table, n)))
        return 0;
    answer = cue_compile(table, n, code, sizeof code);
    return shown(answer) ? CUE_SECOND(answer) : 0;
}

/* At most so many steps of the macro, its events printed. */
static uint64_t played(size_t n, unsigned steps)
{
    uint64_t answer = cue_play(code, n, state, sizeof state, readings, sizeof readings, (uint16_t)steps, answers, sizeof answers);
    unsigned i;

    for (i = 0; i < CUE_EVENTS(answer); i++)
        shown(cue_answer(answers, i));
    return answer;
}

int main(int count, char **arguments)
{
    size_t n = macro(count == 2 && strcmp(arguments[1], "macro") == 0);
    unsigned left = MOST_STEPS;
    uint64_t answer;

    if (n == 0 || !shown(cue_start(code, n, state, sizeof state)))
        return 1;
    shown(cue_run(code, n, state, sizeof state, readings, sizeof readings - 1, SLICE));
    while (left > 0) {
        answer = played(n, left < SLICE ? left : SLICE);
        left -= CUE_STEPS(answer);
        if (!shown(answer))
            return CUE_TAG(answer) != CUE_END;
    }
    printf("open 0\n");
    return 0;
}
