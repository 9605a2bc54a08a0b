/* Calls of the library that the examples don't make, each told in a line, for tests/library.py. */
#include <inttypes.h>
#include <stdio.h>
#include <string.h>

#include "linediff.h"

static linediff_settings usual(void)
{
    linediff_settings settings;
    linediff_usual(2, 5, &settings);
    return settings;
}

/* How linediff_new ends with these settings. */
static void tell_new(const char *name, const linediff_settings *settings, uint8_t me)
{
    linediff_terminal terminal;
    linediff_refusal refusal = {77, 77};
    memset(&terminal, 0, sizeof terminal);
    uint32_t status = linediff_new(&terminal, settings, me, &refusal);
    printf("%s %" PRIu32 " %" PRIu32 " %" PRIu32 "\n", name, status, refusal.reason, refusal.ticks);
    linediff_free(&terminal);
}

/* Each setting out of its range, and what else settings are refused for. */
static void tell_settings(void)
{
    linediff_settings settings = usual();
    tell_new("usual", &settings, 1);
#define TELL(field, value)         \
    do {                           \
        settings = usual();        \
        settings.field = value;    \
        tell_new(#field, &settings, 1); \
    } while (0)
    TELL(stations, 4);
    TELL(channels, 13);
    TELL(spacing, 499);
    TELL(cycle, 19);
    TELL(drift, 201);
    TELL(slow, 0);
    TELL(age, 999);
    TELL(limit, 0);
    TELL(silent, 0);
    TELL(count, 33);
    TELL(pickup, 0);
    TELL(rn, 0);
    TELL(rd, 7);
    TELL(p, -10001);
    TELL(q, 0);
    TELL(worda, 127);
    TELL(wordb, 1);
    TELL(misses, 0);
    TELL(limit, 48001);
    TELL(wordb, 155);
    settings = usual();
    settings.channels = 1;
    tell_new("channels", &settings, 1);
    settings = usual();
    tell_new("station 0", &settings, 0);
    tell_new("station 3", &settings, 3);
}

/* How each call ends, and whether one that isn't made leaves the handle and what it tells as they were. */
static void tell_statuses(void)
{
    static linediff_terminal terminal, before;
    static linediff_sampled sampled;
    static linediff_slotted slotted;
    static linediff_heard heard;
    static linediff_changes changes;
    static linediff_chunk chunk;
    static const struct {
        uint64_t now;
        uint8_t peer;
        uint16_t count;
    } calls[] = {{0, 2, 256}, {LINEDIFF_LAST_STAMP + 1, 2, 256}, {1, 1, 256}, {1, 0, 256}, {1, 3, 256}, {1, 2, 257}, {1, 2, 256},
                 {2, 2, 0}, {LINEDIFF_LAST_STAMP, 2, 1}};
    linediff_settings settings = usual();
    linediff_refusal refusal = {77, 77};
    for (unsigned made = 0; made < 3; made++) {
        if (made == 1) {
            printf("new %" PRIu32 "\n", linediff_new(&terminal, &settings, 1, &refusal));
            before = terminal;
            uint32_t again = linediff_new(&terminal, &settings, 2, &refusal);
            printf("new again %" PRIu32 " %d %" PRIu32 "\n", again, memcmp(&before, &terminal, sizeof terminal) == 0, refusal.reason);
        } else if (made == 2) {
            linediff_free(&terminal);
            linediff_free(&terminal);
        }
        for (unsigned i = 0; i < sizeof calls / sizeof calls[0]; i++) {
            memset(&sampled, 0x5A, sizeof sampled);
            memset(&slotted, 0x5A, sizeof slotted);
            memset(&heard, 0x5A, sizeof heard);
            memset(&changes, 0x5A, sizeof changes);
            chunk.count = calls[i].count;
            before = terminal;
            printf("call %u:%u", made, i);
            uint32_t ends[] = {linediff_sample(&terminal, calls[i].now, 1, 2, 3, &sampled), linediff_slot(&terminal, calls[i].now, &slotted),
                               linediff_bits(&terminal, calls[i].now, calls[i].peer, &chunk, &heard),
                               linediff_fault(&terminal, calls[i].now, calls[i].peer, &changes)};
            uint8_t told[] = {sampled.own.kind, slotted.count, heard.frame.kind, changes.count};
            for (unsigned j = 0; j < 4; j++) {
                printf(" %" PRIu32 ":%d", ends[j], told[j] == 0x5A);
            }
            printf(" %d\n", memcmp(&before, &terminal, sizeof terminal) == 0);
        }
    }
}

int main(void)
{
    tell_settings();
    tell_statuses();
    return 0;
}
