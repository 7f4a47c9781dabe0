// A lockup-free cache of one port and one bank that records itself:
//
//     cc -o example example.c && ./example example.lfts && score check example.toml example.lfts
//
// Level one has four lines and a register for each tag. Level two has room for every block. The model has no
// clock: each event is numbered at its call.

#define LFTS_IMPLEMENTATION
#include "lfts.h"

#include <stdlib.h>

enum { TAGS = 4, BLOCKS = 16, LINES = 4, REQUESTS = 10000 };

typedef struct line {
    bool valid, dirty;
    uint32_t block;
    uint8_t bytes[8];
} line;

typedef struct request {
    bool waits;
    lfts_op op;
    uint32_t block;
    uint8_t byte;
} request;

static lfts_recorder r;
static line lines[LINES], second[BLOCKS];
static request requests[TAGS];

// A request takes effect on its line: a load reads the block, a store writes its first byte.
static void serve(unsigned tag, line *l) {
    request *q = &requests[tag];
    q->waits = false;
    if (q->op == LFTS_LOAD) {
        lfts_reply(&r, 0, 0, tag, 8, l->bytes);
    } else {
        l->dirty = true;
        l->bytes[0] = q->byte;
        lfts_reply(&r, 0, 0, tag, 0, NULL);
    }
}

// A block comes into level one, and what waits for it is served from the oldest request on.
static void fill(uint32_t block, unsigned oldest) {
    line *l = &lines[block % LINES];
    if (!second[block].valid) lfts_fill2(&r, 0, block, second[block].bytes);
    second[block].valid = true;
    if (l->valid) {
        lfts_evict1(&r, 0, l->block, l->dirty, l->bytes);
        second[l->block] = *l;
    }
    *l = second[block];
    l->block = block;
    l->dirty = false;
    lfts_fill1(&r, 0, block, l->bytes);
    for (unsigned i = oldest; i < oldest + TAGS; i++)
        if (requests[i % TAGS].waits && requests[i % TAGS].block == block) serve(i % TAGS, l);
}

static void miss(unsigned tag, uint32_t block) {
    for (unsigned other = 0; other < TAGS; other++) {
        if (requests[other].waits && requests[other].block == block) {
            lfts_merge(&r, 0, 0, tag, tag);
            return;
        }
    }
    lfts_primary(&r, 0, 0, tag, tag);
    if (second[block].valid)
        lfts_second_hit(&r, 0, block);
    else
        lfts_second_primary(&r, 0, block, tag);
}

static void issue(unsigned tag) {
    uint32_t block = (uint32_t)rand() % BLOCKS;
    line *l = &lines[block % LINES];
    request q = {true, rand() % 2 ? LFTS_STORE : LFTS_LOAD, block, (uint8_t)rand()};
    if (q.op == LFTS_LOAD)
        lfts_issue(&r, 0, 0, LFTS_LOAD, tag, 8, block * 8, NULL);
    else
        lfts_issue(&r, 0, 0, LFTS_STORE, tag, 1, block * 8, &q.byte);
    if (l->valid && l->block == block) {
        requests[tag] = q;
        lfts_hit(&r, 0, 0, tag);
        serve(tag, l);
    } else {
        miss(tag, block);
        requests[tag] = q;
    }
}

int main(int count, char **words) {
    lfts_open(&r, lfts_to_path(count > 1 ? words[1] : "example.lfts"), 1, 1, 8, 1, 2);
    for (unsigned i = 0; i < REQUESTS; i++) {
        unsigned tag = i % TAGS;
        if (requests[tag].waits) fill(requests[tag].block, tag);
        issue(tag);
    }
    if (lfts_close(&r) == LFTS_OK && lfts_refused(&r) == 0) return 0;
    fprintf(stderr, "%s\n", lfts_error(&r));
    return 1;
}
