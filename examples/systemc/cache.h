// A clocked two-level lockup-free cache over TLM-2.0: two ports, two banks.
//
// A port is a target of the base protocol with four phases (approximately timed). It splits a transaction into parts
// of 1, 2, 4 or 8 aligned bytes, which go to the banks of their blocks. A bank has both levels. Each bank is an
// initiator of a loosely timed memory: b_transport answers at once, and the bank keeps the block until its delay is
// over.

#ifndef LFC_CACHE_H
#define LFC_CACHE_H

#include "recording.h"

#include <algorithm>
#include <array>
#include <cstdint>
#include <cstring>
#include <deque>
#include <list>
#include <memory>
#include <string>
#include <systemc>
#include <tlm>
#include <tlm_utils/simple_initiator_socket.h>
#include <tlm_utils/simple_target_socket.h>
#include <utility>
#include <vector>

namespace lfc {

using sc_core::sc_time;
using sc_core::sc_time_stamp;
using tlm::tlm_generic_payload;

constexpr unsigned ports = 2, banks = 2, block_bytes = 16, tags = 32;
constexpr unsigned sets1 = 2, ways1 = 2, registers1 = 3, entries1 = 3;
constexpr unsigned sets2 = 2, ways2 = 4, registers2 = 2;

// The configuration for `score`, of the same numbers.
inline std::string configuration() {
    auto level = [](const char *name, unsigned sets, unsigned ways, unsigned registers, unsigned entries) {
        return "\n[" + std::string(name) + "]\nsets = " + std::to_string(sets) + "\nways = " + std::to_string(ways) +
               "\norganisation = \"explicit\"\nregisters = " + std::to_string(registers) +
               "\nentries = " + std::to_string(entries) + "\n";
    };
    return "ports = " + std::to_string(ports) + "\nbanks = " + std::to_string(banks) +
           "\nblock = " + std::to_string(block_bytes) + "\ntags = " + std::to_string(tags) + "\n" +
           level("level1", sets1, ways1, registers1, entries1) + level("level2", sets2, ways2, registers2, 1);
}

enum class fault {
    none,
    store_hit_keeps_clean, // a store that hits sets no dirty bit
    byte_enables_ignored,  // a store to a part of a word writes the whole word
    burst_answered_early,  // a burst is answered when its first part is done
    looked_up_at_once      // a request may be looked up in the delta cycle of its issue
};

// What the modules share.
struct context {
    recording &record;
    fault bug;
};

using word = std::array<std::uint8_t, 8>;
using block_data = std::array<std::uint8_t, block_bytes>;

// A part of a transaction: what a bank is asked for.
struct part {
    unsigned port, tag;
    bool store;
    std::uint64_t address;
    unsigned size;
    word bytes; // what a store writes

    std::uint32_t block() const { return static_cast<std::uint32_t>(address / block_bytes); }
    unsigned offset() const { return static_cast<unsigned>(address % block_bytes); }
    std::uint64_t mask() const { return ((std::uint64_t{1} << size) - 1) << offset(); }
};

struct reply {
    unsigned tag;
    word bytes; // what a load read
};

// A queue between two processes. What is put there is seen from the next cycle on, and not in a later delta cycle or
// by a process that happens to run later in the same one.
template <class T> class clocked_queue {
  public:
    void put(const T &item) { items.emplace_back(item, sc_time_stamp()); }
    bool is_ready(bool at_once = false) const {
        return !items.empty() && (at_once || items.front().second < sc_time_stamp());
    }
    const T &head() const { return items.front().first; }
    void pop() { items.pop_front(); }

  private:
    std::deque<std::pair<T, sc_time>> items;
};

// The queues between the ports and a bank.
struct queues {
    std::array<clocked_queue<part>, ports> requests;
    std::array<clocked_queue<reply>, ports> replies;
};

// --- lines and registers --------------------------------------------------------------------------------------------

struct line {
    bool valid = false;
    std::uint32_t block = 0;
    std::uint64_t dirty = 0; // a bit for each byte
    std::uint64_t fill = 0;  // the number of its fill
    block_data bytes{};
};

// The lines of one level of a bank.
template <unsigned sets, unsigned ways> class lines {
  public:
    line *find(std::uint32_t block) {
        for (line &it : set(block))
            if (it.valid && it.block == block) return &it;
        return nullptr;
    }
    bool has_room(std::uint32_t block) { return room(block) != nullptr; }
    line &fill(std::uint32_t block, const block_data &bytes) {
        line &it = *room(block);
        it = {true, block, 0, ++fills, bytes};
        return it;
    }
    // The oldest line of the block's set, of those that may leave.
    template <class May> line *victim(std::uint32_t block, May may_leave) {
        line *found = nullptr;
        for (line &it : set(block))
            if (it.valid && may_leave(it) && (!found || it.fill < found->fill)) found = &it;
        return found;
    }

  private:
    std::array<line, ways> &set(std::uint32_t block) { return all[block / banks % sets]; }
    line *room(std::uint32_t block) {
        for (line &it : set(block))
            if (!it.valid) return &it;
        return nullptr;
    }

    std::array<std::array<line, ways>, sets> all;
    std::uint64_t fills = 0;
};

// A miss status holding register of level one.
struct miss {
    bool busy = false, asked = false, supplied = false;
    std::uint32_t block = 0;
    std::vector<part> targets;
};

// One of level two: a block that memory was asked for, and when it comes.
struct fetch {
    bool busy = false;
    std::uint32_t block = 0;
    block_data bytes{};
    sc_time due;
};

template <class Registers> auto free_of(Registers &registers) {
    return std::find_if(registers.begin(), registers.end(), [](const auto &it) { return !it.busy; });
}

template <class Registers> auto holder_of(Registers &registers, std::uint32_t block) {
    return std::find_if(registers.begin(), registers.end(),
                        [=](const auto &it) { return it.busy && it.block == block; });
}

// --- a bank ---------------------------------------------------------------------------------------------------------

// In a cycle each level does one thing, level two first.
class bank : public sc_core::sc_module {
  public:
    sc_core::sc_in<bool> clk{"clk"};
    tlm_utils::simple_initiator_socket<bank> memory{"memory"};

    bank(sc_core::sc_module_name name, unsigned number, queues &wires, context &shared)
        : sc_module(name), number(number), wires(wires), record(shared.record), bug(shared.bug) {
        SC_HAS_PROCESS(bank);
        SC_METHOD(edge);
        sensitive << clk.pos();
        dont_initialize();
    }

  private:
    void edge() {
        if (!take_answer()) look_up_second();
        if (!give_up_recalled() && !fill_supplied()) look_up();
    }

    // Level two. A block that came from memory is filled. Where its set is full a line leaves, and level one gives it
    // up before.
    bool take_answer() {
        for (fetch &it : fetches) {
            if (!it.busy || it.due > sc_time_stamp()) continue;
            if (!second.has_room(it.block)) return make_room(it.block);
            second.fill(it.block, it.bytes);
            record->fill2(number, it.block, it.bytes);
            holder_of(misses, it.block)->supplied = true;
            it.busy = false;
            return true;
        }
        return false;
    }

    // A line for which a register of level one waits stays.
    bool make_room(std::uint32_t block) {
        line *leaving =
            second.victim(block, [this](const line &it) { return holder_of(misses, it.block) == misses.end(); });
        if (!leaving) return false;
        if (first.find(leaving->block)) {
            recalled = {true, leaving->block};
            return true;
        }
        record->evict2(number, leaving->block, {leaving->dirty}, leaving->bytes);
        write_back(*leaving);
        leaving->valid = false;
        return true;
    }

    void look_up_second() {
        for (unsigned i = 0; i < registers1; i++) {
            miss &it = misses[asking = (asking + 1) % registers1];
            if (!it.asked) continue;
            auto free = free_of(fetches);
            if (second.find(it.block)) {
                record->second_hit(number, it.block);
                it.supplied = true;
            } else if (free != fetches.end()) {
                record->second_primary(number, it.block, static_cast<unsigned>(free - fetches.begin()));
                read(*free, it.block);
            } else {
                record->second_stall(number, it.block);
                return;
            }
            it.asked = false;
            return;
        }
    }

    // Level one.
    bool give_up_recalled() {
        if (!recalled.first) return false;
        recalled.first = false;
        evict(*first.find(recalled.second));
        return true;
    }

    // A block that level two supplied is filled, and its targets are served. Where its set is full a line leaves.
    bool fill_supplied() {
        auto it = std::find_if(misses.begin(), misses.end(), [](const miss &m) { return m.supplied; });
        if (it == misses.end()) return false;
        if (!first.has_room(it->block)) {
            evict(*first.victim(it->block, [](const line &) { return true; }));
            return true;
        }
        line &filled = first.fill(it->block, second.find(it->block)->bytes);
        record->fill1(number, it->block, filled.bytes);
        for (const part &target : it->targets) serve(target, filled, true);
        *it = miss();
        return true;
    }

    void evict(line &leaving) {
        record->evict1(number, leaving.block, leaving.dirty, leaving.bytes);
        line &below = *second.find(leaving.block);
        for (unsigned i = 0; i < block_bytes; i++)
            if (leaving.dirty >> i & 1) below.bytes[i] = leaving.bytes[i];
        below.dirty |= leaving.dirty;
        leaving.valid = false;
    }

    void look_up() {
        for (unsigned i = 0; i < ports; i++) {
            clocked_queue<part> &requests = wires.requests[turn = (turn + 1) % ports];
            if (!requests.is_ready(bug == fault::looked_up_at_once)) continue;
            if (accept(requests.head())) requests.pop();
            return;
        }
    }

    // A request that finds no room stays the head of its queue.
    bool accept(const part &request) {
        auto held = holder_of(misses, request.block()), free = free_of(misses);
        if (line *found = first.find(request.block())) {
            record->hit(number, request.port, request.tag);
            serve(request, *found, bug != fault::store_hit_keeps_clean);
        } else if (held != misses.end() && held->targets.size() < entries1) {
            record->merge(number, request.port, request.tag, static_cast<unsigned>(held - misses.begin()));
            held->targets.push_back(request);
        } else if (held == misses.end() && free != misses.end()) {
            record->primary(number, request.port, request.tag, static_cast<unsigned>(free - misses.begin()));
            *free = {true, true, false, request.block(), {request}};
        } else {
            record->stall(number, request.port, request.tag);
            return false;
        }
        return true;
    }

    void serve(const part &request, line &at, bool makes_dirty) {
        reply answer{request.tag, {}};
        std::uint8_t *bytes = at.bytes.data() + request.offset();
        if (request.store) {
            if (bug == fault::byte_enables_ignored)
                std::memcpy(at.bytes.data() + request.offset() / 8 * 8, request.bytes.data(), 8);
            std::memcpy(bytes, request.bytes.data(), request.size);
            if (makes_dirty) at.dirty |= request.mask();
        } else {
            std::memcpy(answer.bytes.data(), bytes, request.size);
        }
        wires.replies[request.port].put(answer);
    }

    // Memory answers at once. Its delay says when the block would come.
    void read(fetch &it, std::uint32_t block) {
        it.busy = true;
        it.block = block;
        it.due = sc_time_stamp() + transport(tlm::TLM_READ_COMMAND, block, it.bytes, nullptr);
    }

    void write_back(line &it) {
        block_data enables;
        for (unsigned i = 0; i < block_bytes; i++)
            enables[i] = it.dirty >> i & 1 ? TLM_BYTE_ENABLED : TLM_BYTE_DISABLED;
        transport(tlm::TLM_WRITE_COMMAND, it.block, it.bytes, enables.data());
    }

    sc_time transport(tlm::tlm_command command, std::uint32_t block, block_data &bytes, std::uint8_t *enables) {
        tlm_generic_payload whole;
        sc_time delay;
        whole.set_command(command);
        whole.set_address(std::uint64_t{block} * block_bytes);
        whole.set_data_ptr(bytes.data());
        whole.set_data_length(block_bytes);
        whole.set_streaming_width(block_bytes);
        whole.set_byte_enable_ptr(enables);
        whole.set_byte_enable_length(enables ? block_bytes : 0);
        memory->b_transport(whole, delay);
        sc_assert(whole.is_response_ok());
        return delay;
    }

    const unsigned number;
    queues &wires;
    recording &record;
    const fault bug;
    lines<sets1, ways1> first;
    lines<sets2, ways2> second;
    std::array<miss, registers1> misses;
    std::array<fetch, registers2> fetches;
    std::pair<bool, std::uint32_t> recalled{false, 0};
    unsigned asking = 0, turn = 0;
};

// --- a port ---------------------------------------------------------------------------------------------------------

class port : public sc_core::sc_module {
  public:
    sc_core::sc_in<bool> clk{"clk"};
    tlm_utils::simple_target_socket<port> socket{"socket"};

    port(sc_core::sc_module_name name, unsigned number, std::array<queues, banks> &wires, context &shared)
        : sc_module(name), number(number), wires(wires), record(shared.record), bug(shared.bug) {
        SC_HAS_PROCESS(port);
        SC_METHOD(edge);
        sensitive << clk.pos();
        dont_initialize();
        socket.register_nb_transport_fw(this, &port::transport);
    }

  private:
    // A transaction that was accepted.
    struct transaction {
        tlm_generic_payload *whole;
        std::vector<unsigned> parts; // their tags
        unsigned waiting;            // parts without a reply
    };

    // Whose tag it is: a part, and its place in the data of its transaction.
    struct slot {
        transaction *of = nullptr;
        std::size_t place = 0;
        part asked{};
    };

    void edge() {
        for (queues &it : wires)
            if (it.replies[number].is_ready()) {
                take(it.replies[number].head());
                it.replies[number].pop();
            }
        if (!responding && !finished.empty()) respond();
        if (pending) accept();
    }

    tlm::tlm_sync_enum transport(tlm_generic_payload &whole, tlm::tlm_phase &phase, sc_time &delay) {
        sc_assert(delay == sc_core::SC_ZERO_TIME); // an initiator that runs ahead would need a queue of its own
        if (phase == tlm::BEGIN_REQ) {
            whole.acquire();
            pending = &whole;
            return tlm::TLM_ACCEPTED;
        }
        sc_assert(phase == tlm::END_RESP);
        end_response();
        return tlm::TLM_COMPLETED;
    }

    // All parts of a transaction are issued together, when there are tags for them.
    void accept() {
        std::vector<std::pair<std::size_t, unsigned>> parts = split(*pending);
        if (parts.size() >
            static_cast<std::size_t>(std::count_if(slots.begin(), slots.end(), [](const slot &it) { return !it.of; })))
            return;
        open.push_back({pending, {}, static_cast<unsigned>(parts.size())});
        for (auto [place, size] : parts) issue(open.back(), place, size);
        if (parts.empty()) finished.push_back(&open.back());
        tlm_generic_payload &whole = *std::exchange(pending, nullptr);
        tlm::tlm_phase phase = tlm::END_REQ;
        sc_time delay;
        socket->nb_transport_bw(whole, phase, delay);
    }

    void issue(transaction &of, std::size_t place, unsigned size) {
        auto free = std::find_if(slots.begin(), slots.end(), [](const slot &it) { return !it.of; });
        unsigned tag = static_cast<unsigned>(free - slots.begin());
        part request{number, tag, of.whole->is_write(), of.whole->get_address() + place, size, {}};
        if (request.store) std::memcpy(request.bytes.data(), of.whole->get_data_ptr() + place, size);
        *free = {&of, place, request};
        of.parts.push_back(tag);
        unsigned to = request.block() % banks;
        wires[to].requests[number].put(request);
        if (request.store)
            record->store(number, to, tag, request.address, {of.whole->get_data_ptr() + place, size});
        else
            record->load(number, to, tag, size, request.address);
    }

    void take(const reply &answer) {
        slot &it = slots[answer.tag];
        if (!it.of) return; // only with a fault
        if (!it.asked.store) std::memcpy(it.of->whole->get_data_ptr() + it.place, answer.bytes.data(), it.asked.size);
        bool is_first = it.of->waiting == it.of->parts.size();
        if (it.of->waiting > 0) it.of->waiting--;
        if (bug == fault::burst_answered_early ? is_first : it.of->waiting == 0) finished.push_back(it.of);
    }

    void respond() {
        responding = finished.front();
        finished.pop_front();
        responding->whole->set_response_status(tlm::TLM_OK_RESPONSE);
        tlm::tlm_phase phase = tlm::BEGIN_RESP;
        sc_time delay;
        if (socket->nb_transport_bw(*responding->whole, phase, delay) != tlm::TLM_ACCEPTED) end_response();
    }

    // The initiator took the response. It is recorded as it has it.
    void end_response() {
        for (unsigned tag : responding->parts) {
            slot &it = slots[tag];
            unsigned from = it.asked.block() % banks;
            if (it.asked.store)
                record->reply(number, from, tag);
            else
                record->reply(number, from, tag, {responding->whole->get_data_ptr() + it.place, it.asked.size});
            it.of = nullptr;
        }
        responding->whole->release();
        open.remove_if([this](const transaction &it) { return &it == responding; });
        responding = nullptr;
    }

    // The parts of a transaction, each a place and a size: as few as there can be of 1, 2, 4 or 8 bytes that are
    // aligned and all enabled.
    static std::vector<std::pair<std::size_t, unsigned>> split(const tlm_generic_payload &whole) {
        std::vector<std::pair<std::size_t, unsigned>> parts;
        auto is_enabled = [&whole](std::size_t place) {
            const std::uint8_t *enables = whole.get_byte_enable_ptr();
            return !enables || enables[place % whole.get_byte_enable_length()] == TLM_BYTE_ENABLED;
        };
        auto fits = [&](std::size_t place, unsigned size) {
            if ((whole.get_address() + place) % size != 0 || place + size > whole.get_data_length()) return false;
            for (unsigned i = 0; i < size; i++)
                if (!is_enabled(place + i)) return false;
            return true;
        };
        for (std::size_t place = 0; place < whole.get_data_length();) {
            unsigned size = 8;
            while (size > 0 && !fits(place, size)) size /= 2;
            if (size > 0) parts.emplace_back(place, size);
            place += std::max(size, 1U);
        }
        return parts;
    }

    const unsigned number;
    std::array<queues, banks> &wires;
    recording &record;
    const fault bug;
    std::array<slot, tags> slots;
    std::list<transaction> open;
    std::deque<transaction *> finished; // and not answered yet
    tlm_generic_payload *pending = nullptr;
    transaction *responding = nullptr;
};

// --- the cache ------------------------------------------------------------------------------------------------------

// SystemC may run the processes of one delta cycle in any order. Its kernel takes the order in which they were
// constructed.
class cache : public sc_core::sc_module {
  public:
    sc_core::sc_in<bool> clk{"clk"};
    std::array<std::unique_ptr<port>, ports> each_port;
    std::array<std::unique_ptr<bank>, banks> each_bank;

    cache(sc_core::sc_module_name name, context &shared, bool banks_first) : sc_module(name) {
        if (banks_first) make_banks(shared);
        for (unsigned i = 0; i < ports; i++) {
            each_port[i] = std::make_unique<port>(("port" + std::to_string(i)).c_str(), i, wires, shared);
            each_port[i]->clk(clk);
        }
        if (!banks_first) make_banks(shared);
    }

  private:
    void make_banks(context &shared) {
        for (unsigned i = 0; i < banks; i++) {
            each_bank[i] = std::make_unique<bank>(("bank" + std::to_string(i)).c_str(), i, wires[i], shared);
            each_bank[i]->clk(clk);
        }
    }

    std::array<queues, banks> wires;
};

} // namespace lfc

#endif
