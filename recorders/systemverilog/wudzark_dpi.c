// The C side of wudzark_pkg.sv: a scoreboard that is fed what a recorder writes. Compile it as C or as C++ beside
// lfts_dpi.c, with recorders/c and library on the include path, and link libwudzark.a.

#include "lfts.h"
#include "wudzark.h"

#include "svdpi.h"

#include <errno.h>
#include <stdio.h>
#include <stdlib.h>
#include <string.h>

#ifdef __cplusplus
extern "C" {
#endif

// Of lfts_dpi.c.
lfts_recorder *lfts_dpi_new(void);
void lfts_dpi_free(void *r);

typedef struct scoreboard {
    wudzark_board board;
    wudzark_answer answer; // the last one. The first that is not fine stays
    FILE *copy;            // also gets the trace, or NULL
    char line[WUDZARK_LINE_BYTES + 1];
} scoreboard;

static int told(scoreboard *s, wudzark_answer answer) {
    s->answer = answer;
    s->line[wudzark_shown(answer, WUDZARK_LINE_BYTES)] = '\0';
    return (int)answer.status;
}

// What the library is not asked for is a refusal too.
static int refused(scoreboard *s, const char *what, const char *why) {
    int length = snprintf(s->line, sizeof s->line, "%s%s%s", what, *why ? ": " : "", why);
    wudzark_answer answer = {WUDZARK_REFUSED, length > 0 ? (size_t)length : 0};
    return told(s, answer);
}

static int refused_file(scoreboard *s, const char *path) { return refused(s, path, strerror(errno)); }

static bool stays(const scoreboard *s) { return s->answer.status != WUDZARK_FINE; }

// Whether something broke in what was fed. If not, the answer stays as it is.
static void ask(scoreboard *s) {
    wudzark_answer broke = wudzark_broken(&s->board, s->line, WUDZARK_LINE_BYTES);
    if (broke.status != WUDZARK_FINE) told(s, broke);
}

// All bytes of a file, or NULL.
static char *read_file(const char *path, size_t *length) {
    FILE *file = fopen(path, "rb");
    char *bytes = NULL;
    long end;
    if (!file) return NULL;
    if (fseek(file, 0, SEEK_END) == 0 && (end = ftell(file)) >= 0 && (bytes = (char *)malloc((size_t)end + 1))) {
        rewind(file);
        *length = fread(bytes, 1, (size_t)end, file);
    }
    fclose(file);
    return bytes;
}

// NULL where memory is out. The scoreboard says whether the configuration was taken.
void *wudzark_dpi_open(const char *path) {
    scoreboard *s = (scoreboard *)calloc(1, sizeof *s);
    size_t length = 0;
    char *config;
    if (!s) return NULL;
    config = read_file(path, &length);
    if (config)
        told(s, wudzark_open(&s->board, config, length, s->line, WUDZARK_LINE_BYTES));
    else
        refused_file(s, path);
    free(config);
    return s;
}

unsigned wudzark_dpi_status(void *handle) { return (unsigned)((scoreboard *)handle)->answer.status; }

const char *wudzark_dpi_line(void *handle) { return ((scoreboard *)handle)->line; }

// A piece that is refused is an answer that stays, or what broke in the records before that.
static int take(void *context, const void *bytes, size_t count) {
    scoreboard *s = (scoreboard *)context;
    if (!stays(s) && s->board.live) {
        told(s, wudzark_feed_told(&s->board, bytes, count, s->line, WUDZARK_LINE_BYTES));
        if (stays(s)) ask(s);
    }
    return s->copy && fwrite(bytes, 1, count, s->copy) != count;
}

static void close_copy(scoreboard *s) {
    if (s->copy) fclose(s->copy);
    s->copy = NULL;
}

// A recorder for lfts_pkg, which writes to the scoreboard, and to a file where the path has one. NULL where the file
// cannot be written, the shape is none, or memory is out: the line says which.
void *wudzark_dpi_record(void *handle, const char *path, unsigned ports, unsigned banks, unsigned block,
                         unsigned factor, unsigned version) {
    scoreboard *s = (scoreboard *)handle;
    lfts_recorder *r;
    close_copy(s);
    if (*path && !(s->copy = fopen(path, "wb"))) {
        refused_file(s, path);
        return NULL;
    }
    r = lfts_dpi_new();
    if (r && lfts_open(r, lfts_to_function(take, s), ports, banks, block, factor, version) == LFTS_OK) return r;
    refused(s, r ? lfts_error(r) : "out of memory", "");
    lfts_dpi_free(r);
    close_copy(s);
    return NULL;
}

// Feeds what the recorder has of this cycle and of those before it, and asks. Without a scoreboard, which was
// finished, and without a recorder there is nothing to ask. What stops the simulation may abort it, so the copy is
// whole then.
unsigned wudzark_dpi_check(void *handle, void *recorder) {
    scoreboard *s = (scoreboard *)handle;
    lfts_recorder *r = (lfts_recorder *)recorder;
    if (!s || !r) return WUDZARK_FINE;
    lfts_end_cycle(r);
    lfts_flush(r);
    if (!stays(s) && s->board.live) ask(s);
    if (stays(s) && s->copy) fflush(s->copy);
    return (unsigned)s->answer.status;
}

// The verdict, or the answer that stays. A second call answers the same.
unsigned wudzark_dpi_finish(void *handle) {
    scoreboard *s = (scoreboard *)handle;
    close_copy(s);
    if (stays(s))
        wudzark_abort(&s->board);
    else if (s->board.live)
        told(s, wudzark_finish(&s->board, s->line, WUDZARK_LINE_BYTES));
    return (unsigned)s->answer.status;
}

void wudzark_dpi_free(void *handle) {
    scoreboard *s = (scoreboard *)handle;
    if (!s) return;
    close_copy(s);
    wudzark_abort(&s->board);
    free(s);
}

#ifdef __cplusplus
}
#endif
