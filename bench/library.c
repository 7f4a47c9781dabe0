// What it costs to ask a board after each record whether something broke:
//
//     cc -O2 -I../library -o library library.c ../crates/library_c/out/libwudzark.a && ./library CONFIG TRACE [TURNS]
//
// In each turn the trace is fed in four ways, one after another, so that each meets the same machine: in pieces of 64
// KiB, record by record, record by record with a question after each, and in pieces with a question after each. The
// least and the median processor time of each way are printed, and what the third takes of the second.

#include "wudzark.h"

#include <stdio.h>
#include <stdlib.h>
#include <string.h>
#include <time.h>

enum { PIECE = 65536, WAYS = 4, MOST_TURNS = 101 };

static const char *const names[WAYS] = {"pieces", "records", "records, asked", "pieces, asked"};

typedef struct bytes {
    size_t length;
    unsigned char *at;
} bytes;

// Where each record ends, and the header and the memory records before them.
typedef struct ends {
    size_t count;
    size_t *at;
} ends;

static void fail(const char *what) {
    fprintf(stderr, "%s\n", what);
    exit(1);
}

static bytes read_file(const char *path) {
    FILE *file = fopen(path, "rb");
    bytes b = {0, NULL};
    long length = 0;
    if (!file || fseek(file, 0, SEEK_END) != 0 || (length = ftell(file)) < 0) fail(path);
    rewind(file);
    b.length = (size_t)length;
    b.at = (unsigned char *)malloc(b.length + 1);
    if (!b.at || fread(b.at, 1, b.length, file) != b.length) fail(path);
    fclose(file);
    return b;
}

static size_t ones(const unsigned char *at, size_t count) {
    size_t found = 0;
    for (size_t i = 0; i < 8 * count; i++) found += at[i / 8] >> i % 8 & 1;
    return found;
}

// How long a record is.
static size_t record_length(const unsigned char *r, size_t block, size_t factor) {
    switch (r[0]) {
    case 0:
    case 14:
        return 8;
    case 1:
        return 20 + (r[8] == 1 ? r[10] : 0u);
    case 2:
        return 12 + (size_t)r[9];
    case 7:
        return 12 + block;
    case 8:
        return 20 + ones(r + 12, 8);
    case 10:
    case 15:
        return 16;
    case 12:
        return 12 + factor * block;
    case 13:
        return 12 + 8 * factor + ones(r + 12, 8 * factor);
    default:
        return 12;
    }
}

static ends ends_of(bytes trace) {
    size_t block = trace.at[8], factor = trace.at[10] ? trace.at[10] : 1;
    size_t memory = trace.at[12] | (size_t)trace.at[13] << 8 | (size_t)trace.at[14] << 16;
    ends e = {0, (size_t *)malloc(trace.length * sizeof(size_t) / 8)};
    if (!e.at) fail("out of memory");
    for (size_t at = 16 + memory * (4 + block); at < trace.length; at += record_length(trace.at + at, block, factor))
        e.at[e.count++] = at;
    e.at[e.count++] = trace.length;
    return e;
}

static void feed(wudzark_board *board, const unsigned char *piece, size_t length, bool asks) {
    char line[WUDZARK_LINE_BYTES];
    if (wudzark_feed(board, piece, length) != WUDZARK_FINE) fail("the trace is refused");
    if (asks && wudzark_broken(board, line, sizeof line).status != WUDZARK_FINE) fail("the trace is broken");
}

static double turn(int way, bytes config, bytes trace, ends e) {
    wudzark_board board = WUDZARK_BOARD;
    char line[WUDZARK_LINE_BYTES];
    clock_t before = clock();
    if (wudzark_open(&board, config.at, config.length, line, sizeof line).status != WUDZARK_FINE) fail("not opened");
    if (way == 0 || way == 3) {
        for (size_t at = 0; at < trace.length; at += PIECE)
            feed(&board, trace.at + at, trace.length - at < PIECE ? trace.length - at : PIECE, way == 3);
    } else {
        for (size_t i = 0, at = 0; i < e.count; at = e.at[i++]) feed(&board, trace.at + at, e.at[i] - at, way == 2);
    }
    if (wudzark_finish(&board, line, sizeof line).status != WUDZARK_FINE) fail("no yes");
    return (double)(clock() - before) / CLOCKS_PER_SEC;
}

static int by_size(const void *a, const void *b) {
    double x = *(const double *)a, y = *(const double *)b;
    return (x > y) - (x < y);
}

int main(int count, char **words) {
    static double seconds[WAYS][MOST_TURNS];
    double least[WAYS], median[WAYS];
    int turns = count > 3 ? atoi(words[3]) : 31;
    bytes config, trace;
    ends e;
    if (count < 3 || turns < 1 || turns > MOST_TURNS) fail("library CONFIG TRACE [TURNS]");
    config = read_file(words[1]);
    trace = read_file(words[2]);
    e = ends_of(trace);
    for (int i = 0; i < turns; i++)
        for (int way = 0; way < WAYS; way++) seconds[way][i] = turn(way, config, trace, e);
    for (int way = 0; way < WAYS; way++) {
        qsort(seconds[way], (size_t)turns, sizeof(double), by_size);
        least[way] = seconds[way][0];
        median[way] = seconds[way][turns / 2];
        printf("%-15s least %.1f ns, median %.1f ns a record\n", names[way], least[way] / (double)e.count * 1e9,
               median[way] / (double)e.count * 1e9);
    }
    printf("asking after each record: least %.3f, median %.3f of feeding\n", least[2] / least[1],
           median[2] / median[1]);
    return 0;
}
