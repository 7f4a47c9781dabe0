// Judges a trace as a simulator would: piece by piece, and only up to the first final fault.
//
//     cc -o judge example.c $(pkg-config --cflags --libs wudzark) && ./judge CONFIG TRACE

#include "wudzark.h"

#include <stdio.h>

// Feeds the trace. The first refusal or final fault stays what is told, and after it no more is read. What broke in a
// piece that is refused stands before what is refused in it.
static wudzark_answer judge(wudzark_board *board, FILE *trace, char *line) {
    char piece[64];
    size_t length;
    wudzark_answer broke, answer = {WUDZARK_FINE, 0};
    while (answer.status == WUDZARK_FINE && (length = fread(piece, 1, sizeof piece, trace)) > 0) {
        answer = wudzark_feed_told(board, piece, length, line, WUDZARK_LINE_BYTES);
        broke = wudzark_broken(board, line, WUDZARK_LINE_BYTES);
        if (broke.status != WUDZARK_FINE) answer = broke;
    }
    if (answer.status == WUDZARK_FINE) return wudzark_finish(board, line, WUDZARK_LINE_BYTES);
    wudzark_abort(board);
    return answer;
}

int main(int count, char **words) {
    static char config[1 << 16];
    char line[WUDZARK_LINE_BYTES];
    wudzark_board board = WUDZARK_BOARD;
    FILE *file = count == 3 ? fopen(words[1], "rb") : NULL, *trace = count == 3 ? fopen(words[2], "rb") : NULL;
    wudzark_answer answer;
    if (!file || !trace) {
        fprintf(stderr, "judge CONFIG TRACE\n");
        return WUDZARK_REFUSED;
    }
    answer = wudzark_open(&board, config, fread(config, 1, sizeof config, file), line, sizeof line);
    if (answer.status == WUDZARK_FINE) answer = judge(&board, trace, line);
    printf("%.*s\n", (int)wudzark_shown(answer, sizeof line), line);
    fclose(trace);
    fclose(file);
    return (int)answer.status;
}
