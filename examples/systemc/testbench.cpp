// Two requesters, the cache and its memory. Words `name=value` set the seed, the fault, and where the trace, its time
// map and the configuration go: see the Makefile.
//
// The status is 0 if the requesters got all replies, and 1 if not, or if the library stopped the simulation.

#define LFTS_IMPLEMENTATION
#include "cache.h"

#include <fstream>
#include <iostream>
#include <map>
#include <random>
#include <tlm_utils/multi_passthrough_target_socket.h>

using namespace lfc;

namespace {

constexpr unsigned footprint = 64;  // blocks
constexpr std::size_t longest = 32; // bytes of a transaction
constexpr unsigned most_outstanding = 6;
const sc_time period(10, sc_core::SC_NS);

// A number below `limit`.
unsigned draw(std::mt19937 &random, unsigned limit) { return static_cast<unsigned>(random() % limit); }

// A loosely timed memory: it does at once what it is asked for, and its delay says when that would be done.
class memory : public sc_core::sc_module {
  public:
    tlm_utils::multi_passthrough_target_socket<memory> socket{"socket"};
    std::array<std::uint8_t, footprint * block_bytes> bytes;

    memory(sc_core::sc_module_name name, unsigned seed) : sc_module(name), random(seed) {
        for (std::uint8_t &it : bytes) it = static_cast<std::uint8_t>(random());
        socket.register_b_transport(this, &memory::transport);
    }

  private:
    void transport(int, tlm_generic_payload &whole, sc_time &delay) {
        std::uint8_t *here = bytes.data() + whole.get_address(), *there = whole.get_data_ptr();
        const std::uint8_t *enables = whole.get_byte_enable_ptr();
        for (unsigned i = 0; i < whole.get_data_length(); i++) {
            if (whole.is_read())
                there[i] = here[i];
            else if (!enables || enables[i] == TLM_BYTE_ENABLED)
                here[i] = there[i];
        }
        delay += period * (5 + draw(random, 20));
        whole.set_response_status(tlm::TLM_OK_RESPONSE);
    }

    std::mt19937 random;
};

// A transaction with its bytes.
struct request : tlm_generic_payload {
    std::array<std::uint8_t, longest> data{}, enables{};
};

// Sends loads and stores of 1 to 32 bytes to any address, some with byte enables.
class requester : public sc_core::sc_module, tlm::tlm_mm_interface {
  public:
    sc_core::sc_in<bool> clk{"clk"};
    tlm_utils::simple_initiator_socket<requester> socket{"socket"};

    requester(sc_core::sc_module_name name, unsigned seed, unsigned requests)
        : sc_module(name), random(seed), left(requests) {
        SC_HAS_PROCESS(requester);
        SC_METHOD(edge);
        sensitive << clk.pos();
        dont_initialize();
        socket.register_nb_transport_bw(this, &requester::transport);
    }
    bool is_done() const { return left == 0 && outstanding == 0; }

  private:
    void edge() {
        if (responded) {
            send(*std::exchange(responded, nullptr), tlm::END_RESP);
            outstanding--;
        }
        if (left == 0 || requesting || outstanding == most_outstanding || draw(random, 4) == 0) return;
        left--;
        outstanding++;
        requesting = true;
        request &whole = made();
        send(whole, tlm::BEGIN_REQ);
        whole.release();
    }

    request &made() {
        request &it = *new request;
        unsigned length = draw(random, 4) > 0 ? 1 + draw(random, 8) : 1 + draw(random, longest);
        it.set_mm(this);
        it.acquire();
        it.set_command(draw(random, 2) == 0 ? tlm::TLM_READ_COMMAND : tlm::TLM_WRITE_COMMAND);
        it.set_address(draw(random, footprint * block_bytes - length + 1));
        it.set_data_ptr(it.data.data());
        it.set_data_length(length);
        it.set_streaming_width(length);
        if (it.is_write())
            for (std::uint8_t &byte : it.data) byte = static_cast<std::uint8_t>(random());
        if (draw(random, 4) == 0) {
            for (std::uint8_t &byte : it.enables) byte = draw(random, 3) > 0 ? TLM_BYTE_ENABLED : TLM_BYTE_DISABLED;
            it.set_byte_enable_ptr(it.enables.data());
            it.set_byte_enable_length(length);
        }
        return it;
    }

    void send(tlm_generic_payload &whole, tlm::tlm_phase phase) {
        sc_time delay;
        socket->nb_transport_fw(whole, phase, delay);
    }

    // A response is taken at once, or with the next clock.
    tlm::tlm_sync_enum transport(tlm_generic_payload &whole, tlm::tlm_phase &phase, sc_time &) {
        if (phase == tlm::END_REQ) {
            requesting = false;
            return tlm::TLM_ACCEPTED;
        }
        sc_assert(phase == tlm::BEGIN_RESP && whole.is_response_ok());
        if (draw(random, 2) == 0) {
            responded = &whole;
            return tlm::TLM_ACCEPTED;
        }
        outstanding--;
        return tlm::TLM_COMPLETED;
    }

    void free(tlm_generic_payload *whole) override { delete static_cast<request *>(whole); }

    std::mt19937 random;
    unsigned left, outstanding = 0;
    bool requesting = false; // END_REQ did not come yet
    tlm_generic_payload *responded = nullptr;
};

class testbench : public sc_core::sc_module {
  public:
    sc_core::sc_clock clk{"clk", period};
    memory below;
    cache design;
    std::array<std::unique_ptr<requester>, ports> requesters;
    bool failed = false;

    testbench(sc_core::sc_module_name name, context &shared, unsigned seed, unsigned requests, bool banks_first)
        : sc_module(name), below("memory", seed), design("cache", shared, banks_first), record(shared.record) {
        design.clk(clk);
        for (auto &it : design.each_bank) it->memory.bind(below.socket);
        for (unsigned i = 0; i < ports; i++) {
            std::string named = "requester" + std::to_string(i);
            requesters[i] = std::make_unique<requester>(named.c_str(), seed * ports + i + 1, requests);
            requesters[i]->clk(clk);
            requesters[i]->socket.bind(design.each_port[i]->socket);
        }
        SC_HAS_PROCESS(testbench);
        SC_METHOD(half);
        sensitive << clk.negedge_event();
        dont_initialize();
    }

  private:
    // The design works at the rising edge, so the cycle is over now.
    void half() {
        if (auto told = record.broken()) {
            std::cout << sc_time_stamp() << ": " << *told << '\n';
            failed = true;
        } else if (!std::all_of(requesters.begin(), requesters.end(), [](const auto &it) { return it->is_done(); })) {
            return;
        }
        sc_core::sc_stop();
    }

    recording &record;
};

} // namespace

int sc_main(int count, char **words) {
    std::map<std::string, std::string> given{{"seed", "1"}, {"bug", "0"}, {"requests", "2000"}, {"order", "0"}};
    for (int i = 1; i < count; i++) {
        std::string it = words[i];
        given[it.substr(0, it.find('='))] = it.substr(it.find('=') + 1);
    }
    auto number = [&given](const char *name) { return static_cast<unsigned>(std::stoul(given[name])); };

    if (!given["config"].empty()) std::ofstream(given["config"]) << configuration();
    recording record(given["trace"], given["map"], configuration(), {ports, banks, block_bytes}, footprint);
    context shared{record, static_cast<fault>(number("bug"))};
    testbench top("top", shared, number("seed"), number("requests"), number("order") == 1);
    for (std::uint32_t i = 0; i < footprint; i++)
        record->memory(i, {top.below.bytes.data() + i * block_bytes, block_bytes});

    sc_core::sc_start(period * 200 * (1 + number("requests")));
    bool is_done = sc_core::sc_get_status() == sc_core::SC_STOPPED;
    if (!is_done) std::cout << sc_time_stamp() << ": the cache hangs\n";
    return record.finish() && is_done && !top.failed ? 0 : 1;
}
