/* One call a frame: a macro beside the desk's other work. A frame lasts 25 ms: the faders are read, the macro is played for at most STEPS steps,
 * its events go out, and the desk has the rest of the frame for itself.
 *
 *     cc -std=c99 -I include -o frames examples/frames.c crates/desk/out/libdesk.a
 *     ./frames 8 < examples/chase.table
 *
 * prints the events of the first 8 frames, or of all frames to the end of the macro where it ends before. */
#define _POSIX_C_SOURCE 199309L
#include <stdio.h>
#include <stdlib.h>
#include <time.h>

#include "desk.h"

enum { STEPS = 100, CHANNELS = 512, MACRO_BYTES = 65536 };

static uint8_t table[CUE_TABLE_BYTES + 1];
static uint8_t code[MACRO_BYTES];
static uint8_t state[CUE_STATE_BYTES];
static uint8_t readings[CUE_READINGS];
static uint8_t answers[CHANNELS * CUE_ANSWER_BYTES]; /* as many events as there are channels; a frame with more goes on in the next */

/* What a desk does here is its own: this one's faders all stand at 0, and its events are printed. */
static void read_faders(void)
{
}

static void send(uint64_t event)
{
    static const char *const words[] = {"set", "hold", "release"};

    printf("%s %u", words[CUE_TAG(event) - CUE_SET], CUE_FIRST(event));
    if (CUE_TAG(event) == CUE_SET)
        printf(" %u", CUE_SECOND(event));
    printf("\n");
}

static void next_frame(void)
{
    struct timespec frame = {0, 25 * 1000 * 1000};

    nanosleep(&frame, NULL);
}

/* A frame: whether the macro goes on. */
static int play_frame(size_t n)
{
    uint64_t answer;
    unsigned i;

    read_faders();
    answer = cue_play(code, n, state, sizeof state, readings, sizeof readings, STEPS, answers, sizeof answers);
    for (i = 0; i < CUE_EVENTS(answer); i++)
        send(cue_answer(answers, i));
    if (CUE_TAG(answer) == CUE_END)
        printf("end %u\n", CUE_FIRST(answer));
    return CUE_TAG(answer) == CUE_USED || CUE_TAG(answer) == CUE_FULL;
}

int main(int count, char **arguments)
{
    int frames = count == 2 ? atoi(arguments[1]) : 1000, frame;
    size_t bytes = fread(table, 1, sizeof table, stdin);
    uint64_t compiled = cue_compile(table, bytes, code, sizeof code);

    if (CUE_TAG(compiled) != CUE_DONE) {
        fprintf(stderr, "frames: refused %u %u\n", CUE_FIRST(compiled), CUE_SECOND(compiled));
        return 1;
    }
    cue_start(code, CUE_SECOND(compiled), state, sizeof state);
    for (frame = 0; frame < frames; frame++) {
        printf("frame %d\n", frame);
        if (!play_frame(CUE_SECOND(compiled)))
            break;
        next_frame();
    }
    return 0;
}
