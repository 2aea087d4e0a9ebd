/* The cue macros' library for the desk's shell: libdesk.a (rt lib, in crates/desk).
 *
 * A byte slice is a pointer and then a length. What the caller ensures: each pointer is valid for that many bytes (it may be anything where
 * the length is 0), to be read and, where it is not const, to be written; nobody else reads or writes the bytes during a call; and the slices of one
 * call do not overlap. Nothing is asked of what the bytes hold, nor of the lengths: anything is answered.
 *
 * An answer is one number: tag + 2^8 * steps + 2^24 * first + 2^40 * second. The steps are 0 but for the answers of a run and of a play.
 *
 *   tag                 first                       second
 *   0 refusal           its number                  its place
 *   1 done              0                           the macro's length, of a compile; else 0
 *   2 allowance used    0                           the events, of a play; else 0
 *   3 end               0, or the condition         the events, of a play; else 0
 *   4 set               the channel, 1 to 512       the level, 0 to 255
 *   5 hold              the group, 0 to 63          0
 *   6 release           the group, 0 to 63          0
 *   8 no room left      0                           the events, of a play
 *
 * There is no other tag. The definitions number a machine that has no next step 7 (answer_numbers, crates/bytecode/specs/Answers.antt), and no cue_run
 * or cue_play answers it, whatever bytes are lent: never_stuck and never-stuck-playing in crates/desk/specs/Calls.antt. From a start of a macro on, over any list of runs and
 * plays, every number answered and every byte of the state are those of the plain machine of paper 01: calls and both, there.
 *
 * Stack: what the library takes of it on x86-64, measured (tests/tests/stack.rs, which holds the numbers below to it) and rounded up.
 *
 * A refusal writes nothing. No function keeps anything between calls, allocates or locks: calls on different states may go on at once.
 */
#ifndef DESK_H
#define DESK_H

#include <stddef.h>
#include <stdint.h>

#ifdef __cplusplus
extern "C" {
#endif

#define CUE_TAG(answer) ((unsigned)((answer) & 0xff))
#define CUE_STEPS(answer) ((unsigned)((answer) >> 8 & 0xffff))
#define CUE_FIRST(answer) ((unsigned)((answer) >> 24 & 0xffff))
#define CUE_SECOND(answer) ((unsigned)((answer) >> 40))

enum cue_tag {
    CUE_REFUSAL = 0,
    CUE_DONE = 1,
    CUE_USED = 2,
    CUE_END = 3,
    CUE_SET = 4,
    CUE_HOLD = 5,
    CUE_RELEASE = 6,
    CUE_FULL = 8
};

/* The length of a run state and of a bank of readings, and the most that a table has, in bytes. */
#define CUE_STATE_BYTES 24576
#define CUE_READINGS 64
#define CUE_TABLE_BYTES 16384

/* What a play takes for an event, in bytes. */
#define CUE_ANSWER_BYTES 8

/* The table check: done, or a refusal by the first that holds of these, with its place (entries count from 0):
 *
 *   1  the table is empty, over 16,384 bytes or not in eights    0
 *   2  it does not read as one tree within the layout            the first entry that does not read; the entry count where it ends early
 *   3  a name is undefined, or twice in a block                  the entry; of two the second
 *   4  a type, a sort of name or a count of operands is wrong    the entry
 *   5  a label is out of a goto's reach                          the goto
 *   6  a body is over its limits                                 the procedure's entry, the first such; 0 for the root if no procedure is
 *
 * Of 3, 4 and 5 the refusal is at the first entry, inner before outer and left to right, that has one of them, and is the least of that entry's.
 * The table is read only. The work is linear in its entries but for looking names up: an entry may walk all names in sight.
 * Stack: under 99,000 bytes (measured: 98,568 with a for in a for's bounds, 31 of them, which is refused by 6 at the end; 96,216 with tables that are
 * accepted). */
uint64_t cue_check(const uint8_t *table, size_t n);

/* The compiler: the table check's refusal, whatever `out` is; or 7 (place 0) where the macro is longer than m bytes; or done, with the macro's length
 * as `second`: then the macro is the first so many bytes of `out`, and those behind it are as they were. A macro that was compiled passes the
 * loading check. Equal tables compile to equal bytes, whatever `out` held. The work is linear in the table's entries but for looking names up, as the
 * check's. Stack: under 142,000 bytes (measured: 140,328 with operators, faders and functions in one another, 64 deep, the most of all that was
 * tried; 131,944 with a block in a block). */
uint64_t cue_compile(const uint8_t *table, size_t n, uint8_t *out, size_t m);

/* The loading check: refusal 8 (place: the first record that does not read; an SH whose address is not above that of the SH before it is one) or 9
 * (place: the lowest address at fault), or done.
 * Stack: under 39,000 bytes, at every call and whatever the macro's size, since the compiler gives the indexes of all sizes one frame. */
uint64_t cue_load(const uint8_t *code, size_t n);

/* The start of a macro: refusal 8 or 9 as above, 10 where len is not CUE_STATE_BYTES, or done; then all of the state has been written,
 * whatever it held: it stands before the macro's first instruction. Stack: under 39,000 bytes. */
uint64_t cue_start(const uint8_t *code, size_t n, uint8_t *state, size_t len);

/* A run of at most `allowance` steps from a state that a start or a run of the same macro left (docs/STATE.md has the layout; any other bytes are
 * refused or, where they are a sound state of this macro, run). Fader n reads readings[n - 1].
 *
 *   refusal 8, 9      as above
 *   refusal 10        len is not CUE_STATE_BYTES, or the bytes are no sound state of this macro
 *   refusal 11        m is not CUE_READINGS
 *   set, hold, release  what the last of the steps taken gave; run again to go on
 *   allowance used    the steps are the allowance; run again to go on
 *   end               by 0, or by the condition (20 to 28) after its releases; further runs give the end again, with 0 steps
 *
 * The refusals are tested in this order. Every run makes the loading check anew and tests the state, so that its time grows with the
 * macro's length and not with the allowance alone. How many readings it took is not told: the end sheet is the listing
 * program's. Stack: under 39,000 bytes. */
uint64_t cue_run(const uint8_t *code, size_t n, uint8_t *state, size_t len, const uint8_t *readings, size_t m, uint16_t allowance);

/* A play: as many runs as fit into one call, with the same readings, and tested once: the first run with the allowance, each later one with what the
 * steps before it left, as long as a run gives an event and `answers` has room for another 8 bytes. The i-th event's answer, as cue_run gives it, is
 * written at answers + 8 * i, little-endian (cue_answer reads it); bytes behind the last stay as they are.
 *
 *   refusal 8 to 11   as cue_run, in this order; nothing is written
 *   allowance used    the steps are the allowance; play again to go on
 *   end               as cue_run
 *   no room left      there is none for another event, and the allowance may not be used up; play again to go on. Where k is below 8 no run is
 *                     made and nothing is written
 *
 * The steps are those of all runs, `second` is the number of events written (CUE_EVENTS). The loading check and the test of the state are made once for
 * all of them, so that a desk calls this once a frame: examples/frames.c. Stack: under 40,000 bytes. */
uint64_t cue_play(const uint8_t *code, size_t n, uint8_t *state, size_t len, const uint8_t *readings, size_t m, uint16_t allowance, uint8_t *answers,
                  size_t k);

/* How many events a play wrote; of a refusal `second` is its place. */
#define CUE_EVENTS(answer) (CUE_TAG(answer) == CUE_REFUSAL ? 0 : CUE_SECOND(answer))

/* The i-th event's answer of a play. */
static inline uint64_t cue_answer(const uint8_t *answers, size_t i)
{
    uint64_t answer = 0;
    int byte;

    for (byte = CUE_ANSWER_BYTES - 1; byte >= 0; byte--)
        answer = answer << 8 | answers[CUE_ANSWER_BYTES * i + (size_t)byte];
    return answer;
}

#ifdef __cplusplus
}
#endif

#endif
