// Calls the library as the words of the command line say, and prints what it answered. tests/library knows what is
// due.
//
//     driver judge STEP CONFIG TRACE..  each trace in pieces of STEP bytes, 0 for one piece: whether something broke,
//                                       after how many bytes, and the verdict
//     driver many CONFIG TRACE..        the same of all traces at once, a byte of each in turn
//     driver misuse CONFIG TRACE        calls that a board refuses, and lines that have no room
//     driver first CONFIG TRACE         its first final fault, and a refused feed that is told while the board is open
//     driver null CONFIG TRACE          calls with NULL for no bytes
//     driver damaged COUNT CONFIG TRACE so many copies of the trace with other bytes in it, whole and in pieces
//     driver memory CONFIG TRACE        the trace with each allocation refused in turn; linked with --wrap=malloc

#include "wudzark.h"

#include <stdio.h>
#include <stdlib.h>
#include <string.h>

#define ROOM WUDZARK_LINE_BYTES

typedef struct bytes {
    size_t length;
    char *at;
} bytes;

// What was said of one trace.
typedef struct told {
    wudzark_answer broke, verdict;
    size_t after; // the bytes with which it broke
    char broke_line[ROOM], line[ROOM];
} told;

static void fail(const char *what) {
    fprintf(stderr, "%s\n", what);
    exit(1);
}

static void expect(bool holds, const char *what) {
    if (!holds) fail(what);
}

static bytes read_file(const char *path) {
    FILE *file = fopen(path, "rb");
    bytes b = {0, NULL};
    long length = 0;
    if (!file || fseek(file, 0, SEEK_END) != 0 || (length = ftell(file)) < 0) fail(path);
    rewind(file);
    b.length = (size_t)length;
    b.at = (char *)malloc(b.length + 1);
    if (!b.at || fread(b.at, 1, b.length, file) != b.length) fail(path);
    fclose(file);
    return b;
}

static int shown(wudzark_answer answer) { return (int)wudzark_shown(answer, ROOM); }

static void print(const told *t) {
    if (t->broke.length) printf("%u after=%zu %.*s | ", t->broke.status, t->after, shown(t->broke), t->broke_line);
    printf("%u %.*s\n", t->verdict.status, shown(t->verdict), t->line);
}

static bool is_same(const told *a, const told *b) {
    return a->verdict.status == b->verdict.status && a->verdict.length == b->verdict.length &&
           memcmp(a->line, b->line, (size_t)shown(a->verdict)) == 0;
}

// Feeds a piece, and asks. Whether more are wanted.
static bool feed(wudzark_board *board, told *t, const char *piece, size_t length) {
    wudzark_status status = wudzark_feed(board, piece, length);
    t->after += length;
    t->broke = wudzark_broken(board, t->broke_line, ROOM);
    return status == WUDZARK_FINE && t->broke.status == WUDZARK_FINE;
}

static void finish(wudzark_board *board, told *t) {
    t->verdict = wudzark_finish(board, t->line, ROOM);
    expect(!board->live, "the board is open after wudzark_finish");
}

// The board's answers after what it was fed so far, and then to all the rest.
static void feed_rest(wudzark_board *board, told *t, bytes trace, size_t step) {
    size_t at = 0;
    while (at < trace.length) {
        size_t n = step && step < trace.length - at ? step : trace.length - at;
        at += n;
        if (!feed(board, t, trace.at + at - n, n)) break;
    }
    if (at < trace.length) wudzark_feed(board, trace.at + at, trace.length - at);
    finish(board, t);
}

static told judge(bytes config, bytes trace, size_t step) {
    wudzark_board board = WUDZARK_BOARD;
    told t;
    memset(&t, 0, sizeof t);
    t.verdict = wudzark_open(&board, config.at, config.length, t.line, ROOM);
    if (t.verdict.status == WUDZARK_FINE) feed_rest(&board, &t, trace, step);
    return t;
}

static void judge_each(size_t step, char **words, int count) {
    bytes config = read_file(words[0]);
    for (int i = 1; i < count; i++) {
        bytes trace = read_file(words[i]);
        told t = judge(config, trace, step);
        print(&t);
        free(trace.at);
    }
    free(config.at);
}

static void judge_together(char **words, int count) {
    bytes config = read_file(words[0]);
    size_t n = (size_t)count - 1, longest = 0;
    wudzark_board *boards = (wudzark_board *)calloc(n, sizeof *boards);
    bytes *traces = (bytes *)calloc(n, sizeof *traces);
    told *t = (told *)calloc(n, sizeof *t);
    if (!boards || !traces || !t) fail("out of memory");
    for (size_t i = 0; i < n; i++) {
        traces[i] = read_file(words[1 + i]);
        if (traces[i].length > longest) longest = traces[i].length;
        t[i].verdict = wudzark_open(&boards[i], config.at, config.length, t[i].line, ROOM);
        expect(t[i].verdict.status == WUDZARK_FINE, "a board was not opened");
    }
    for (size_t at = 0; at < longest; at++)
        for (size_t i = 0; i < n; i++)
            if (at < traces[i].length) wudzark_feed(&boards[i], traces[i].at + at, 1);
    for (size_t i = 0; i < n; i++) {
        finish(&boards[i], &t[i]);
        print(&t[i]);
        free(traces[i].at);
    }
    free(traces);
    free(boards);
    free(t);
    free(config.at);
}

// The first final fault stays what is told, and the board is given up. A refused feed is told without closing it.
static void first_fault(char **words) {
    bytes config = read_file(words[0]), trace = read_file(words[1]);
    wudzark_board board = WUDZARK_BOARD, moved;
    char line[ROOM];
    wudzark_answer answer = wudzark_open(&board, config.at, config.length, line, ROOM);
    for (size_t at = 0; at < trace.length && answer.status == WUDZARK_FINE; at++) {
        if (wudzark_feed(&board, trace.at + at, 1) != WUDZARK_FINE) break;
        moved = board; // a board may be moved between calls
        memset(&board, '#', sizeof board);
        board = moved;
        answer = wudzark_broken(&board, line, ROOM);
    }
    expect(wudzark_abort(&board) == WUDZARK_FINE && !board.live, "not given up");
    expect(wudzark_abort(&board) == WUDZARK_MISUSED, "given up twice");
    printf("%u %.*s\n", answer.status, shown(answer), line);
    wudzark_open(&board, config.at, config.length, line, ROOM);
    answer = wudzark_feed_told(&board, trace.at, 8, line, ROOM);
    expect(answer.status == WUDZARK_FINE && answer.length == 0, "fed");
    expect(wudzark_feed(&board, "\0\0\0\0\0\0\0\0", 8) == WUDZARK_REFUSED, "not refused");
    answer = wudzark_feed_told(&board, NULL, 0, line, ROOM);
    printf("%u %.*s\n", answer.status, shown(answer), line);
    expect(board.live && wudzark_abort(&board) == WUDZARK_FINE, "a refused board is open");
    free(trace.at);
    free(config.at);
}

// NULL stands for no bytes.
static void no_bytes(char **words) {
    bytes config = read_file(words[0]), trace = read_file(words[1]);
    wudzark_board board = WUDZARK_BOARD;
    expect(wudzark_version() == WUDZARK_VERSION_NUMBER, "another version");
    expect(wudzark_open(&board, NULL, 0, NULL, 0).status == WUDZARK_REFUSED, "no configuration was taken");
    expect(wudzark_open(&board, config.at, config.length, NULL, 0).status == WUDZARK_FINE, "not opened");
    expect(wudzark_feed(&board, NULL, 0) == WUDZARK_FINE, "no bytes were refused");
    expect(wudzark_feed(&board, trace.at, trace.length) == WUDZARK_FINE, "refused");
    expect(wudzark_feed_told(&board, NULL, 0, NULL, 0).status == WUDZARK_FINE, "refused");
    printf("%u ", wudzark_broken(&board, NULL, 0).status);
    printf("%u\n", wudzark_finish(&board, NULL, 0).status);
    free(trace.at);
    free(config.at);
}

// No line, and nothing written.
static void is_misused(wudzark_answer answer, const char *line, const char *what) {
    expect(answer.status == WUDZARK_MISUSED && answer.length == 0 && line[0] == '#', what);
}

static void misuse(char **words) {
    bytes config = read_file(words[0]), trace = read_file(words[1]);
    wudzark_board board = WUDZARK_BOARD;
    wudzark_answer answer;
    char line[ROOM];
    memset(line, '#', sizeof line);
    is_misused(wudzark_finish(&board, line, ROOM), line, "a closed board was finished");
    is_misused(wudzark_broken(&board, line, ROOM), line, "a closed board was asked");
    expect(wudzark_feed(&board, trace.at, 1) == WUDZARK_MISUSED, "a closed board was fed");
    answer = wudzark_open(&board, "\xff", 1, line, ROOM);
    printf("%u %.*s\n", answer.status, shown(answer), line);
    memset(line, '#', sizeof line);
    expect(wudzark_open(&board, config.at, config.length, line, ROOM).status == WUDZARK_FINE, "not opened");
    is_misused(wudzark_open(&board, config.at, config.length, line, ROOM), line, "an open board was opened");
    expect(wudzark_feed(&board, trace.at, 0) == WUDZARK_FINE, "no bytes were refused");
    expect(wudzark_feed(&board, trace.at, trace.length) == WUDZARK_FINE, "the trace was refused");
    answer = wudzark_broken(&board, line, 3);
    printf("%u %.*s of %zu\n", answer.status, 4, line, answer.length);
    answer = wudzark_finish(&board, line, 0);
    printf("%u %.*s of %zu\n", answer.status, 4, line, answer.length);
    free(trace.at);
    free(config.at);
}

static void damage(unsigned long count, char **words) {
    bytes config = read_file(words[0]), trace = read_file(words[1]), copy = trace;
    unsigned counts[4] = {0, 0, 0, 0};
    copy.at = (char *)malloc(trace.length);
    if (!copy.at) fail("out of memory");
    srand(1);
    for (unsigned long i = 0; i < count; i++) {
        told whole, cut;
        memcpy(copy.at, trace.at, trace.length);
        copy.length = trace.length - (i % 3 == 0 ? (size_t)rand() % trace.length : 0);
        for (unsigned long k = 0; k < 1 + i % 4; k++) copy.at[(size_t)rand() % trace.length] = (char)rand();
        whole = judge(config, copy, 0);
        cut = judge(config, copy, 1 + (size_t)rand() % 40);
        expect(is_same(&whole, &cut), "another answer to the same bytes in pieces");
        expect(whole.broke.length == 0 || whole.verdict.status != WUDZARK_FINE, "a yes to what broke");
        expect(cut.broke.length == 0 || cut.verdict.status != WUDZARK_FINE, "a yes to what broke");
        counts[whole.verdict.status]++;
    }
    printf("yes=%u no=%u refused=%u\n", counts[0], counts[1], counts[2]);
    free(copy.at);
    free(trace.at);
    free(config.at);
}

#ifdef REFUSE_MEMORY
static long due = -1; // the allocations before the one that is refused

void *__real_malloc(size_t size);
void *__real_realloc(void *block, size_t size);
void *__wrap_malloc(size_t size);
void *__wrap_realloc(void *block, size_t size);

static bool is_refused(void) { return due >= 0 && due-- == 0; }
void *__wrap_malloc(size_t size) { return is_refused() ? NULL : __real_malloc(size); }
void *__wrap_realloc(void *block, size_t size) { return is_refused() ? NULL : __real_realloc(block, size); }

// Whether the line of what broke was lost, and the status not.
static bool is_silent(wudzark_answer broke, wudzark_answer whole) {
    return broke.status == whole.status && broke.length == 0 && whole.length > 0;
}

// With one allocation refused the answer is `refused memory`, or one without its line. With none it is that of before.
static void refuse_memory(char **words) {
    bytes config = read_file(words[0]), trace = read_file(words[1]);
    told whole = judge(config, trace, 16), t;
    unsigned refused = 0, silent = 0;
    for (long n = 0;; n++) {
        bool all;
        due = n;
        t = judge(config, trace, 16);
        all = due >= 0;
        due = -1;
        if (all) break;
        if (t.verdict.status == WUDZARK_REFUSED && t.verdict.length == 14 && !memcmp(t.line, "refused memory", 14))
            refused++;
        else if (is_silent(t.broke, whole.broke) || is_silent(t.verdict, whole.verdict))
            silent++;
        else
            fail("a refused allocation is not told");
    }
    expect(is_same(&t, &whole), "another answer with all memory");
    printf("refused=%u silent=%u\n", refused, silent);
    free(trace.at);
    free(config.at);
}
#endif

int main(int count, char **words) {
    const char *word = count > 3 ? words[1] : "";
    if (strcmp(word, "judge") == 0)
        judge_each(strtoul(words[2], NULL, 10), words + 3, count - 3);
    else if (strcmp(word, "many") == 0)
        judge_together(words + 2, count - 2);
    else if (strcmp(word, "misuse") == 0)
        misuse(words + 2);
    else if (strcmp(word, "first") == 0)
        first_fault(words + 2);
    else if (strcmp(word, "null") == 0)
        no_bytes(words + 2);
    else if (strcmp(word, "damaged") == 0)
        damage(strtoul(words[2], NULL, 10), words + 3);
#ifdef REFUSE_MEMORY
    else if (strcmp(word, "memory") == 0)
        refuse_memory(words + 2);
#endif
    else
        fail("driver judge|many|misuse|first|null|damaged|memory ..");
    return 0;
}
