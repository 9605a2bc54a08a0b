/*
 * Two terminals at the ends of a line, over two lines in memory that delay each frame by 3000 ticks. A fault on phase a begins
 * at tick 100000. Prints the verdicts of each set and each alarm that turns, in the form of a report's lines: these are the
 * lines `set` and `alarm` of `./linediff bench < examples/scenarios/internal_fault.csv`.
 */
#include <inttypes.h>
#include <stdio.h>
#include <stdlib.h>

#include "linediff.h"

enum { END = 200000, FAULT = 100000, DELAY = 3000, SPACING = 1000, CYCLE = 20, SLOT = 125, ON_ITS_WAY = DELAY / SLOT + 1 };

/* What one station is: its terminal, what its clock shows at tick 0, and the frames that are on their way to it, in a ring. */
typedef struct {
    linediff_terminal terminal;
    uint64_t start;
    uint8_t frames[ON_ITS_WAY][32];
    uint64_t due[ON_ITS_WAY];
    uint64_t sent, taken;
} station;

static void check(uint32_t status)
{
    if (status != LINEDIFF_DONE) {
        fprintf(stderr, "a call ended with status %" PRIu32 "\n", status);
        exit(1);
    }
}

/* A wave of 20 steps a cycle, which begins at its crest at step 0. */
static int16_t wave(int amplitude, unsigned step, uint64_t tick)
{
    static const int quarter[6] = {16384, 15582, 13255, 9630, 5063, 0};
    unsigned k = (unsigned)(tick / SPACING + step) % CYCLE;
    unsigned half = k > CYCLE / 2 ? CYCLE - k : k;
    int cosine = half > CYCLE / 4 ? -quarter[CYCLE / 2 - half] : quarter[half];
    return (int16_t)(amplitude * cosine / 16384);
}

static void print_judged(uint64_t tick, unsigned me, const linediff_judged *judged)
{
    static const char letters[] = "WROT";
    if (judged->given) {
        printf("set,%" PRIu64 ",%u,%" PRIu32 ",%c%c%c\n", tick, me, judged->number, letters[judged->verdicts[0]],
               letters[judged->verdicts[1]], letters[judged->verdicts[2]]);
    }
}

static void print_changes(uint64_t tick, unsigned me, const linediff_changes *changes)
{
    static const char *const names[] = {"Unlocked", "Yellow", "Silent", "Unaligned", "Fault"};
    for (unsigned i = 0; i < changes->count; i++) {
        const linediff_change *change = &changes->items[i];
        printf("alarm,%" PRIu64 ",%u,%u,%s,%s\n", tick, me, change->peer, names[change->alarm], change->on ? "on" : "off");
    }
}

/* Hands a frame to the terminal, where one has come. */
static void receive(station *here, unsigned me, uint64_t tick)
{
    unsigned place = here->taken % ON_ITS_WAY;
    if (here->taken == here->sent || here->due[place] > tick) {
        return;
    }
    linediff_chunk chunk;
    linediff_heard heard;
    for (unsigned i = 0; i < sizeof chunk.bytes; i++) {
        chunk.bytes[i] = here->frames[place][i];
    }
    chunk.count = 256;
    here->taken++;
    check(linediff_bits(&here->terminal, tick + here->start, (uint8_t)(3 - me), &chunk, &heard));
    print_judged(tick, me, &heard.judged);
    print_changes(tick, me, &heard.changes);
}

/* Takes a sample, where the clock has come to the next multiple of the spacing. */
static void sample(station *here, unsigned me, uint64_t tick)
{
    uint64_t clock = tick + here->start;
    if (tick == 0 || clock / SPACING == (clock - 1) / SPACING) {
        return;
    }
    int amplitude = tick < FAULT ? 1000 : me == 1 ? 12000 : 9000;
    unsigned step = me == 1 ? (tick < FAULT ? 0 : 2) : (tick < FAULT ? 10 : 3);
    unsigned behind = me == 1 ? 0 : 10;
    linediff_sampled sampled;
    check(linediff_sample(&here->terminal, clock, wave(amplitude, step, tick), wave(1000, 13 + behind, tick),
                          wave(1000, 7 + behind, tick), &sampled));
    print_judged(tick, me, &sampled.judged);
    print_changes(tick, me, &sampled.changes);
}

/* Sends the next frame to the other station. */
static void send(station *here, station *there, unsigned me, uint64_t tick)
{
    linediff_slotted slotted;
    unsigned place = there->sent % ON_ITS_WAY;
    check(linediff_slot(&here->terminal, tick + here->start, &slotted));
    for (unsigned i = 0; i < sizeof slotted.frames[0].bytes; i++) {
        there->frames[place][i] = slotted.frames[0].bytes[i];
    }
    there->due[place] = tick + DELAY;
    there->sent++;
    print_changes(tick, me, &slotted.changes);
}

int main(void)
{
    static station ends[2]; /* zeroed */
    linediff_settings settings;
    linediff_refusal refusal;
    linediff_usual(2, 5, &settings);
    settings.drift = 20;
    ends[1].start = 4200;
    for (unsigned me = 1; me <= 2; me++) {
        check(linediff_new(&ends[me - 1].terminal, &settings, (uint8_t)me, &refusal));
    }
    for (uint64_t tick = 0; tick < END; tick++) {
        for (unsigned me = 1; me <= 2; me++) {
            receive(&ends[me - 1], me, tick);
        }
        for (unsigned me = 1; me <= 2; me++) {
            sample(&ends[me - 1], me, tick);
        }
        for (unsigned me = 1; tick % SLOT == 0 && me <= 2; me++) {
            send(&ends[me - 1], &ends[2 - me], me, tick);
        }
    }
    for (unsigned me = 1; me <= 2; me++) {
        linediff_free(&ends[me - 1].terminal);
    }
    return 0;
}
