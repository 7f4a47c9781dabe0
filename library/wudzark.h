// wudzark.h - judges the trace of a two-level lockup-free cache inside the process that records it.
//
// For C99 and C++11; a class for C++17 stands at the end. Link libwudzark.a, or libwudzark.so. Its calls are proved:
// what each of them answers is a contract that the code was checked against, and docs/TRUST.md says what that means
// for a caller in C.
//
// A board judges one trace. Open it for a hierarchy, and feed it the bytes of the trace in pieces of any length. Ask
// after each piece whether there is a final fault, also after one that is refused: what broke before the bytes that
// are refused comes first. The first fault is the answer: no later bytes can make it a yes, and the board is given up.
// Without one, finish the board for the verdict:
//
//     wudzark_board board = WUDZARK_BOARD;
//     char line[WUDZARK_LINE_BYTES];
//     wudzark_answer broke, answer = wudzark_open(&board, config, config_length, line, sizeof line);
//     while (answer.status == WUDZARK_FINE && (piece = next_piece(&length))) {
//         answer = wudzark_feed_told(&board, piece, length, line, sizeof line);
//         broke = wudzark_broken(&board, line, sizeof line); // leaves the line as it is, if there is no fault
//         if (broke.status != WUDZARK_FINE) answer = broke;
//     }
//     if (answer.status == WUDZARK_FINE)
//         answer = wudzark_finish(&board, line, sizeof line);
//     else
//         wudzark_abort(&board);
//     printf("%.*s\n", (int)wudzark_shown(answer, sizeof line), line);
//
// A line is what `score` prints for the same bytes, without a newline and without a zero at its end. `length` is that
// of the whole line. Only as many bytes of it are written as there is room for: wudzark_shown says how many. A length
// of 0 says that there is no line, or that memory ran out while the line was made; the status is right in both cases.
//
// Boards share nothing, so a program may have any number of them, for example one on each thread. The library keeps
// nothing itself: it reads no file, starts no thread, prints nothing, and never ends the process. If memory runs out,
// the call says so.
//
// A caller must keep these conditions, since nothing checks code in C:
//
//     | about          | condition                                                                                   |
//     |----------------|---------------------------------------------------------------------------------------------|
//     | a board        | it is made by WUDZARK_BOARD, or of zeros, and after that only the calls write to it         |
//     | a board        | it may be moved between calls: of a board and its copies only one is used and closed        |
//     | a board        | one call at a time. Between calls it may go to another thread, as any memory may: by a lock |
//     | a board        | it is finished or aborted; otherwise its memory is never freed                              |
//     | a pointer      | that many bytes can be read or written there; with 0 bytes it may be NULL                   |
//     | a call         | none of its arguments overlap: the board, the bytes that are read, the line                 |
//     | a call         | not in a signal handler, and not in the forked child of a process with threads              |
//     | the C library  | malloc, realloc and free are one allocator, and align blocks as C says, up to 16 bytes      |
//
// NULL for 0 bytes is what this header allows. Whoever calls the symbols of the library without it gives a pointer
// that is not NULL.

#ifndef WUDZARK_H
#define WUDZARK_H

#include <stdbool.h>
#include <stddef.h>
#include <stdint.h>

// The version of this header, as text and as major * 10000 + minor * 100 + patch.
#define WUDZARK_VERSION "0.3.0"
#define WUDZARK_VERSION_NUMBER 300

#ifdef __cplusplus
extern "C" {
#endif

// The status of an answer: that of `score` for the same bytes.
typedef enum wudzark_status {
    WUDZARK_FINE = 0,    // opened, taken, nothing broke so far, or a yes
    WUDZARK_BROKEN = 1,  // a no, or a final fault
    WUDZARK_REFUSED = 2, // the input cannot be judged, or memory ran out
    WUDZARK_MISUSED = 3  // the board is not open, or wudzark_open found it open: nothing was done
} wudzark_status;

// Enough room for every line, except the refusal of a configuration with a very long key.
#define WUDZARK_LINE_BYTES 256

typedef struct wudzark_board {
    bool live;
    void *session;
} wudzark_board;

#define WUDZARK_BOARD                                                                                                 \
    { false, NULL }

typedef struct wudzark_answer {
    wudzark_status status;
    size_t length; // of the line, in bytes
} wudzark_answer;

// The version of the library, as the number of WUDZARK_VERSION_NUMBER.
uint32_t wudzark_version(void);

// Opens the board for the hierarchy that the text of a configuration says. With WUDZARK_REFUSED it is not open, and
// the line says why: `refused config ..` or `refused memory`.
wudzark_answer wudzark_open(wudzark_board *board, const void *config, size_t config_length, char *line, size_t room);

// Feeds the next bytes of the trace. WUDZARK_REFUSED says that the bytes are not a trace, or that memory ran out.
// Later bytes are then ignored.
wudzark_status wudzark_feed(wudzark_board *board, const void *bytes, size_t length);

// The same, and with WUDZARK_REFUSED the line says why: `refused format ..` or `refused memory`. The board stays open,
// and each later feed is refused for the same reason, so with 0 bytes it only asks.
wudzark_answer wudzark_feed_told(wudzark_board *board, const void *bytes, size_t length, char *line, size_t room);

// Whether there is a final fault: no bytes that follow can lead to a yes. Then the line says what broke, for example
// `broken bank=0 number=5 rule=ReplyData upon log=0 event=1 at=104`. The status is WUDZARK_BROKEN, or WUDZARK_REFUSED
// if the trace is of another hierarchy. WUDZARK_FINE says that no record so far is at fault, unless memory ran out in
// a feed, and leaves the line as it is. After a feed that refused the format it tells of the records before that.
// Missing numbers, and logs that wait for one another, are only known at the end.
wudzark_answer wudzark_broken(wudzark_board *board, char *line, size_t room);

// The verdict on all bytes that were fed, with its line: WUDZARK_FINE for a yes, WUDZARK_BROKEN for a no. The board is
// then closed, and may be opened again. After a final fault this is the verdict on a trace that was cut, and mostly
// `refused format Truncated`: then use wudzark_abort, and keep the line of wudzark_broken.
wudzark_answer wudzark_finish(wudzark_board *board, char *line, size_t room);

// Closes the board without a verdict, and frees what it has. It may be opened again. WUDZARK_MISUSED says that it was
// not open, which does no harm.
wudzark_status wudzark_abort(wudzark_board *board);

// How many bytes of an answer's line were written into so much room.
static inline size_t wudzark_shown(wudzark_answer answer, size_t room) {
    return answer.length < room ? answer.length : room;
}

// The library wants pointers that are not NULL. These have nothing behind them that is read or written.
static inline const void *wudzark_bytes(const void *bytes) { return bytes ? bytes : ""; }
static inline char *wudzark_line(char *line) {
    static char none;
    return line ? line : &none;
}

#define wudzark_open(board, config, length, line, room)                                                               \
    wudzark_open(board, wudzark_bytes(config), length, wudzark_line(line), room)
#define wudzark_feed(board, bytes, length) wudzark_feed(board, wudzark_bytes(bytes), length)
#define wudzark_feed_told(board, bytes, length, line, room)                                                           \
    wudzark_feed_told(board, wudzark_bytes(bytes), length, wudzark_line(line), room)
#define wudzark_broken(board, line, room) wudzark_broken(board, wudzark_line(line), room)
#define wudzark_finish(board, line, room) wudzark_finish(board, wudzark_line(line), room)

#ifdef __cplusplus
}
#endif

#if defined(__cplusplus) && __cplusplus >= 201703L

#include <string_view>
#include <utility>

namespace wudzark {

enum class status : std::uint32_t {
    fine = WUDZARK_FINE,
    broken = WUDZARK_BROKEN,
    refused = WUDZARK_REFUSED,
    misused = WUDZARK_MISUSED
};

struct answer {
    wudzark::status status;
    std::string_view line; // valid until the next call of this scoreboard; cut off after WUDZARK_LINE_BYTES
    explicit operator bool() const { return status == wudzark::status::fine; }
};

// A board that is moved and not copied, and that its destructor aborts. The first answer that is a refusal or a final
// fault stays: `broken` and `finish` answer it from then on, until the scoreboard is opened again. Of a piece that is
// refused, and has a final fault before that, this fault stays.
class scoreboard {
  public:
    scoreboard() = default;
    explicit scoreboard(std::string_view configuration) { (void)open(configuration); }
    scoreboard(const scoreboard &) = delete;
    scoreboard &operator=(const scoreboard &) = delete;
    scoreboard(scoreboard &&other) noexcept { take(other); }
    scoreboard &operator=(scoreboard &&other) noexcept {
        if (this != &other) {
            abort();
            take(other);
        }
        return *this;
    }
    ~scoreboard() { abort(); }

    [[nodiscard]] answer open(std::string_view configuration) {
        if (board.live) return {status::misused, {}};
        first = {WUDZARK_FINE, 0};
        return kept(wudzark_open(&board, configuration.data(), configuration.size(), line, sizeof line));
    }
    [[nodiscard]] status feed(std::string_view bytes) { return feed(bytes.data(), bytes.size()); }
    [[nodiscard]] status feed(const void *bytes, std::size_t length) {
        if (stays()) return status(board.live ? wudzark_feed(&board, bytes, length) : first.status);
        const answer fed = kept(wudzark_feed_told(&board, bytes, length, line, sizeof line));
        if (stays()) kept(wudzark_broken(&board, line, sizeof line));
        return fed.status;
    }
    [[nodiscard]] answer broken() {
        if (stays()) return told(first);
        return kept(wudzark_broken(&board, line, sizeof line));
    }
    [[nodiscard]] answer finish() {
        if (!stays()) return told(wudzark_finish(&board, line, sizeof line));
        abort();
        return told(first);
    }
    // Closes it without a verdict.
    void abort() noexcept { wudzark_abort(&board); }

    [[nodiscard]] bool is_open() const { return board.live; }
    // The answer that stays, or one that is fine.
    [[nodiscard]] answer refusal() const { return told(first); }

  private:
    [[nodiscard]] bool stays() const { return first.status != WUDZARK_FINE; }
    answer told(wudzark_answer a) const { return {status(a.status), {line, wudzark_shown(a, sizeof line)}}; }
    answer kept(wudzark_answer a) {
        if (a.status == WUDZARK_BROKEN || a.status == WUDZARK_REFUSED) first = a;
        return told(a);
    }
    void take(scoreboard &other) {
        board = std::exchange(other.board, wudzark_board{false, nullptr});
        first = std::exchange(other.first, wudzark_answer{WUDZARK_FINE, 0});
        for (std::size_t i = 0; i < sizeof line; i++) line[i] = other.line[i];
    }

    wudzark_board board = WUDZARK_BOARD;
    wudzark_answer first = {WUDZARK_FINE, 0};
    char line[WUDZARK_LINE_BYTES] = {};
};

} // namespace wudzark

#endif
#endif
