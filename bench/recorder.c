// How many events a second lfts.h records:
//
//     cc -O2 -I../recorders/c -o recorder recorder.c && ./recorder OUT [EVENTS]
//
// The events are those of a load that misses both levels, again and again: issue, primary miss, primary miss of
// level two, two fills of 64 bytes, reply. They are numbered at the call, then by cycles, then by cycles with a
// time map (OUT.map). A turn prints its events and its seconds of processor time.

#define LFTS_IMPLEMENTATION
#include "lfts.h"

#include <inttypes.h>
#include <stdlib.h>
#include <string.h>
#include <time.h>

enum { BANKS = 4, BLOCK = 64, EVENTS_OF_A_LOAD = 6 };

static const uint8_t bytes[BLOCK];

static void load(lfts_recorder *r, uint32_t block) {
    unsigned bank = block % BANKS, tag = block % 64;
    lfts_issue(r, 0, bank, LFTS_LOAD, tag, 8, (uint64_t)block * BLOCK, NULL);
    lfts_primary(r, bank, 0, tag, 3);
    lfts_second_primary(r, bank, block, 5);
    lfts_fill2(r, bank, block, bytes);
    lfts_fill1(r, bank, block, bytes);
    lfts_reply(r, 0, bank, tag, 8, bytes);
}

static int turn(const char *name, const char *trace, const char *map, bool cycles, uint32_t loads) {
    static lfts_recorder r;
    clock_t before = clock();
    double seconds;
    lfts_open(&r, lfts_to_path(trace), 1, BANKS, BLOCK, 1, 2);
    if (map) lfts_map(&r, lfts_to_path(map));
    for (uint32_t i = 0; i < loads; i++) {
        if (cycles) lfts_cycle(&r, i);
        load(&r, i);
    }
    lfts_close(&r);
    seconds = (double)(clock() - before) / CLOCKS_PER_SEC;
    printf("%s: %" PRIu32 " events in %.3f s, %.1f million a second\n", name, loads * EVENTS_OF_A_LOAD, seconds,
           loads * EVENTS_OF_A_LOAD / seconds / 1e6);
    if (lfts_refused(&r) > 0) fprintf(stderr, "%s\n", lfts_error(&r));
    return lfts_refused(&r) > 0;
}

int main(int count, char **words) {
    static char map[1024];
    const char *trace = count > 1 ? words[1] : "/dev/null";
    uint32_t loads = (uint32_t)strtoul(count > 2 ? words[2] : "12000000", NULL, 0) / EVENTS_OF_A_LOAD;
    snprintf(map, sizeof map, strcmp(trace, "/dev/null") == 0 ? "%s" : "%s.map", trace);
    return turn("at the call", trace, NULL, false, loads) | turn("by cycles", trace, NULL, true, loads) |
           turn("by cycles, with a map", trace, map, true, loads);
}
