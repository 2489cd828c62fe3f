/* Plays an observation, as tlscore reads it, at the ports of the monitor of interfaces/systemc, and prints what it reports: the beats
   behind a line `time T` pass in the clock at T ns, and behind `= reset` reset is high for a clock. Lines `= end` end it. With the word
   `predicts` the predictor has the wires in place of the monitor. For tests/systemc.py. */
#include "zuldegei_systemc.h"

#include <iostream>
#include <map>
#include <sstream>

using namespace sc_core;

static const unsigned CLIENTS = 2;

/* A signal for each port of the monitor, by channel, field and client. */
struct Wires {
    std::map<std::string, std::unique_ptr<sc_signal<bool>>> bits;
    std::map<std::string, std::unique_ptr<sc_signal<uint32_t>>> words;
    std::map<std::string, std::unique_ptr<sc_signal<uint64_t>>> data;

    sc_signal<bool> &bit(const std::string &name) {
        auto &it = bits[name];
        if (!it) it.reset(new sc_signal<bool>);
        return *it;
    }
    sc_signal<uint32_t> &word(const std::string &name) {
        auto &it = words[name];
        if (!it) it.reset(new sc_signal<uint32_t>);
        return *it;
    }
    sc_signal<uint64_t> &payload(const std::string &name) {
        auto &it = data[name];
        if (!it) it.reset(new sc_signal<uint64_t>);
        return *it;
    }
};

static void bind_tilelink(zuldegei::TileLink &to, Wires &wires) {
    to.clock(wires.bit("clock")), to.reset(wires.bit("reset"));
    for (unsigned i = 0; i < CLIENTS; i++) {
        const std::string a = "A" + std::to_string(i), d = "D" + std::to_string(i);
        to.a_valid[i](wires.bit(a)), to.a_ready[i](wires.bit("high")), to.a_opcode[i](wires.word(a + "opcode"));
        to.a_param[i](wires.word(a + "param")), to.a_size[i](wires.word(a + "size")), to.a_source[i](wires.word(a + "source"));
        to.a_address[i](wires.word(a + "address")), to.a_mask[i](wires.word(a + "mask")), to.a_data[i](wires.payload(a));
        to.a_corrupt[i](wires.bit(a + "corrupt"));
        to.d_valid[i](wires.bit(d)), to.d_ready[i](wires.bit("high")), to.d_opcode[i](wires.word(d + "opcode"));
        to.d_param[i](wires.word(d + "param")), to.d_size[i](wires.word(d + "size")), to.d_source[i](wires.word(d + "source"));
        to.d_denied[i](wires.bit(d + "denied")), to.d_data[i](wires.payload(d)), to.d_corrupt[i](wires.bit(d + "corrupt"));
    }
}

static void bind(zuldegei::Monitor &to, Wires &wires) {
    bind_tilelink(to, wires);
    to.aw_valid(wires.bit("AW")), to.aw_ready(wires.bit("high")), to.aw_id(wires.word("AWid")), to.aw_addr(wires.word("AWaddr"));
    to.aw_len(wires.word("AWlen")), to.aw_size(wires.word("AWsize")), to.aw_burst(wires.word("AWburst"));
    to.w_valid(wires.bit("W")), to.w_ready(wires.bit("high")), to.w_data(wires.payload("W")), to.w_strb(wires.word("Wstrb"));
    to.w_last(wires.bit("Wlast"));
    to.b_valid(wires.bit("B")), to.b_ready(wires.bit("high")), to.b_id(wires.word("Bid")), to.b_resp(wires.word("Bresp"));
    to.ar_valid(wires.bit("AR")), to.ar_ready(wires.bit("high")), to.ar_id(wires.word("ARid")), to.ar_addr(wires.word("ARaddr"));
    to.ar_len(wires.word("ARlen")), to.ar_size(wires.word("ARsize")), to.ar_burst(wires.word("ARburst"));
    to.r_valid(wires.bit("R")), to.r_ready(wires.bit("high")), to.r_id(wires.word("Rid")), to.r_data(wires.payload("R"));
    to.r_resp(wires.word("Rresp")), to.r_last(wires.bit("Rlast"));
}

static uint64_t number(std::istringstream &words, int base) {
    std::string word;
    words >> word;
    const char *const names[] = {"OKAY", "EXOKAY", "SLVERR", "DECERR"};
    for (int i = 0; i < 4; i++)
        if (word == names[i]) return i;
    return std::stoull(word, nullptr, base);
}

/* Puts a beat on its wires, and its valid high; where the port isn't there, nothing. */
static void put(Wires &wires, std::string channel, std::istringstream &words) {
    auto word = [&](const char *field, int base = 10) { wires.word(channel + field).write(uint32_t(number(words, base))); };
    auto payload = [&] { wires.payload(channel).write(number(words, 16)); };
    auto bit = [&](const char *field) { wires.bit(channel + field).write(number(words, 10) != 0); };
    if (!wires.bits.count(channel == "A" || channel == "D" ? channel + "0" : channel)) return;
    if (channel == "A" || channel == "D") {
        channel += std::to_string(number(words, 10));
        word("opcode"), word("param"), word("size"), word("source");
        if (channel[0] == 'A') word("address", 16), word("mask", 16), payload();
        else bit("denied"), payload();
        bit("corrupt");
    } else if (channel == "W") payload(), word("strb", 16), bit("last");
    else if (channel == "B") word("id"), word("resp");
    else if (channel == "R") word("id"), payload(), word("resp"), bit("last");
    else word("id"), word("addr", 16), word("len"), word("size"), word("burst");
    wires.bit(channel).write(true);
}

/* A rising edge at a time, at which what was put passes. */
static void edge(Wires &wires, uint64_t now) {
    sc_start(sc_time(double(now), SC_NS) - sc_time_stamp());
    wires.bit("clock").write(true);
    sc_start(sc_time(1, SC_NS));
    wires.bit("clock").write(false);
    for (auto &it : wires.bits)
        if (it.first != "high" && it.first != "clock") it.second->write(false);
    sc_start(sc_time(1, SC_NS));
}

/* Plays lines from the first `time` on; the answer is whether `= end` came. */
static bool play(Wires &wires, std::string line) {
    uint64_t now = 0;
    do {
        std::istringstream words(line);
        std::string first, second;
        words >> first;
        if (first == "time" || first == "=") {
            if (now) edge(wires, now);
            words >> second;
            now = first == "time" ? std::stoull(second) : second == "reset" ? now + 3 : 0;
            if (second == "end") return true;
            if (second == "reset") wires.bit("reset").write(true);
        } else put(wires, first, words);
    } while (std::getline(std::cin, line));
    if (now) edge(wires, now);
    return false;
}

/* Plays all behind a reset, and tells how much was judged and how much was wrong. */
static void run(Wires &wires, const std::string &setup, const std::string &line, bool predicts) {
    wires.bit("high").write(true);
    wires.bit("reset").write(true);
    if (predicts) {
        zuldegei::Predictor predictor("predictor", CLIENTS, setup);
        bind_tilelink(predictor, wires);
        edge(wires, 2);
        if (play(wires, line)) predictor.finish();
        std::cout << "compared " << predictor.compared() << " wrong " << predictor.wrong() << "\n";
        return;
    }
    zuldegei::Monitor monitor("monitor", CLIENTS, setup);
    bind(monitor, wires);
    edge(wires, 2);
    if (play(wires, line)) monitor.finish();
    std::cout << "judged " << monitor.judged() << " wrong " << monitor.wrong() << "\n";
}

int sc_main(int count, char **given) {
    const std::string word = count > 1 ? given[1] : "";
    sc_set_time_resolution(1, SC_NS);
    if (word != "stops") sc_report_handler::set_actions("zuldegei", SC_ERROR, SC_DISPLAY);
    std::string setup, line;
    while (std::getline(std::cin, line) && line.compare(0, 5, "time ") != 0) setup += line + "\n";
    Wires wires;
    try {
        run(wires, setup, line, word == "predicts");
    } catch (const sc_report &report) {
        std::cout << "stopped: " << report.get_msg() << "\n";
        return 1;
    }
    return 0;
}
