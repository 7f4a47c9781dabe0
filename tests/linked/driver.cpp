// The class of wudzark.h.
//
//     driver CONFIG TRACE..    what broke and the verdict of each trace, each on a scoreboard of its own

#include "wudzark.h"

#include <fstream>
#include <iostream>
#include <iterator>
#include <stdexcept>
#include <string>
#include <thread>
#include <type_traits>
#include <utility>
#include <vector>

static_assert(!std::is_copy_constructible_v<wudzark::scoreboard> && !std::is_copy_assignable_v<wudzark::scoreboard>);
static_assert(std::is_nothrow_move_constructible_v<wudzark::scoreboard>);
static_assert(std::is_nothrow_move_assignable_v<wudzark::scoreboard>);

using wudzark::scoreboard;
using wudzark::status;

static std::string read_file(const char *path) {
    std::ifstream file(path, std::ios::binary);
    return {std::istreambuf_iterator<char>(file), {}};
}

static void expect(bool holds, const char *what) {
    if (!holds) throw std::runtime_error(what);
}

// What broke, and then the verdict: that of a second scoreboard, since the first one keeps what broke.
static void judge(scoreboard &board, scoreboard &other, const std::string &trace) {
    for (char byte : trace) {
        if (board.feed(&byte, 1) != status::fine || !board.broken()) break;
    }
    if (wudzark::answer kept = board.refusal(); kept.line.rfind("broken", 0) == 0) {
        const std::string line(kept.line);
        expect(board.finish().line == line && board.broken().line == line && !board.is_open(), "it stays");
        std::cout << line;
    }
    (void)other.feed(trace);
    std::cout << " | " << other.finish().line << '\n';
}

// Moves, what stays of a refusal, and boards that go from one thread to another.
static void check_class(const std::string &config, const std::string &trace) {
    scoreboard none;
    expect(!none.is_open() && none.finish().status == status::misused && none.feed({}) == status::misused, "none");
    expect(none.open("").status == status::refused && none.finish().line == none.refusal().line, "no configuration");
    expect(none.open(config) && none.open(config).status == status::misused && none.refusal(), "opened");
    scoreboard moved = std::move(none);
    expect(moved.is_open() && !none.is_open() && none.finish().status == status::misused, "moved");
    expect(moved.feed(trace.substr(0, 8)) == status::fine && moved.feed(std::string(8, '\0')) == status::refused,
           "fed");
    const std::string line(moved.refusal().line);
    expect(line == "refused format HeaderRange at=0" && moved.is_open() && moved.feed(trace) == status::refused,
           "told");
    none = std::move(moved);
    expect(none.refusal().line == line && none.broken().line == line && none.finish().line == line, "kept");
    none.abort();
    expect(none.open(config) && none.refusal() && none.feed(trace) == status::fine, "opened again");
    scoreboard *passed = &none;
    std::thread([passed] { expect(passed->broken() || !passed->refusal(), "on another thread"); }).join();
    scoreboard left(config); // given up at its end
    expect(left.is_open() && left.feed({}) == status::fine, "left");
}

int main(int count, char **words) {
    const std::string config = read_file(words[1]);
    check_class(config, read_file(words[2]));
    std::vector<scoreboard> boards;
    for (int i = 2; i < 2 * count; i++) boards.emplace_back(config);
    for (int i = 2; i < count; i++) {
        const auto place = static_cast<std::size_t>(2 * i - 4);
        judge(boards[place], boards[place + 1], read_file(words[i]));
    }
    return 0;
}
