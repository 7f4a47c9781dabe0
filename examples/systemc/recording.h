// What the cache does, as a trace for `score`: the recorder, and the library that judges what it records.
//
// An event is recorded by `record->hit(..)`, with the calls of recorders/c/lfts.hpp, in the cycle that is under way:
// that of sc_time_stamp(), with all its delta cycles. The recorder puts the events of a cycle in order when it ends,
// so processes may run in any order.
//
// Where LFC_JUDGED is defined, a scoreboard of library/wudzark.h is fed what the recorder writes.

#ifndef LFC_RECORDING_H
#define LFC_RECORDING_H

#include <lfts.hpp>
#ifdef LFC_JUDGED
#include <wudzark.h>
#endif

#include <cstdint>
#include <fstream>
#include <iostream>
#include <optional>
#include <string>
#include <systemc>

namespace lfc {

class recording {
  public:
    // Where a path is empty nothing is written there.
    recording(const std::string &trace, const std::string &map, const std::string &configuration, lfts::shape of,
              std::uint32_t memory_records)
        : recorder([this](lfts::bytes piece) { return take(piece); }, of) {
        if (!trace.empty()) file.open(trace, std::ios::binary);
        if (!map.empty()) recorder.map(map.c_str());
        recorder.memory_count(memory_records);
#ifdef LFC_JUDGED
        static_cast<void>(board.open(configuration)); // broken() tells a refusal
#else
        static_cast<void>(configuration);
#endif
    }
    recording(const recording &) = delete;
    recording &operator=(const recording &) = delete;

    // The recorder, in the cycle that is under way.
    lfts::recorder *operator->() {
        recorder.cycle(sc_core::sc_time_stamp().value());
        return &recorder;
    }

    // Ends the cycle. What broke for good up to here, which only the library can tell.
    std::optional<std::string> broken() {
#ifdef LFC_JUDGED
        recorder.end_cycle();
        recorder.flush();
        if (auto answer = board.broken(); !answer) return std::string(answer.line);
#endif
        return {};
    }

    // Ends the trace. Whether it is whole and the recorder took each call; if not, standard error says why.
    bool finish() {
        bool is_whole = recorder.close();
        if (file.is_open()) file.close();
        if (!is_whole) std::cerr << recorder.first_refusal() << '\n';
        return is_whole && file.good();
    }

  private:
    bool take(lfts::bytes piece) {
        if (file.is_open()) file.write(reinterpret_cast<const char *>(piece.data()), std::streamsize(piece.size()));
#ifdef LFC_JUDGED
        static_cast<void>(board.feed(piece.data(), piece.size())); // as above
#endif
        return file.good();
    }

    std::ofstream file;
#ifdef LFC_JUDGED
    wudzark::scoreboard board;
#endif
    lfts::recorder recorder; // the last one, so that it ends first
};

} // namespace lfc

#endif
