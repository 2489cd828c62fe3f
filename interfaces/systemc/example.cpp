/* A bridge that is played by hand, beside the monitor of zuldegei_systemc.h: a Put and a Get of what it wrote, as they pass at the
   bridge's ports. With a word, `wrong`, the reply to the Get has a wrong byte, and the simulation stops in its clock. */
#include "zuldegei_systemc.h"

#include <cstdio>
#include <string>

using namespace sc_core;

/* The bridge: a client, and four pages of memory behind one region (docs/SCRIPT.md, "Set-up lines"). */
static const char *const SETUP = "config 1 4 16 2 16 12 h\n"
                                 "region 0 4 10 gpah\n"
                                 "page 10 4 good\n"
                                 "profile tilelink\n";
static const uint64_t WRITTEN = 0x1122334455667788, OTHER = 0x1122334455667789;

/* What passes at the ports, a beat in each clock. */
struct Played : sc_module {
    sc_in<bool> clock{"clock"};
    sc_signal<bool> reset, high, low, a_valid, d_valid, aw_valid, w_valid, b_valid, ar_valid, r_valid;
    sc_signal<uint32_t> zero, one, three, full, opcode, source, address, reply, axi_address;
    sc_signal<uint64_t> data;
    bool is_wrong;

    Played(sc_module_name name, bool is_wrong) : sc_module(name), is_wrong(is_wrong) {
        SC_HAS_PROCESS(Played);
        SC_THREAD(play);
        sensitive << clock.neg();
    }

    /* One beat: its valid is high for a clock. */
    void pass(sc_signal<bool> &valid, uint64_t payload) {
        data.write(payload);
        valid.write(true);
        wait();
        valid.write(false);
    }

    /* A request of 8 bytes. */
    void ask(uint32_t what, uint32_t by, uint64_t payload) {
        opcode.write(what), source.write(by), address.write(0x8), axi_address.write(0x10008);
        pass(a_valid, payload);
    }

    void play() {
        high.write(true), one.write(1), three.write(3), full.write(0xff), reset.write(true);
        wait();
        reset.write(false);
        ask(0, 5, WRITTEN); /* PutFullData */
        pass(aw_valid, 0), pass(w_valid, WRITTEN), pass(b_valid, 0);
        reply.write(0); /* AccessAck */
        pass(d_valid, 0);
        ask(4, 7, 0); /* Get */
        pass(ar_valid, 0), pass(r_valid, WRITTEN);
        reply.write(1); /* AccessAckData */
        pass(d_valid, is_wrong ? OTHER : WRITTEN);
        sc_stop();
    }
};

/* Binds the monitor to what is played. Signals that no beat of it changes are constant. */
static void bind(zuldegei::Monitor &monitor, Played &it) {
    monitor.reset(it.reset);
    monitor.a_valid[0](it.a_valid), monitor.a_ready[0](it.high), monitor.a_corrupt[0](it.low);
    monitor.a_opcode[0](it.opcode), monitor.a_param[0](it.zero), monitor.a_size[0](it.three), monitor.a_source[0](it.source);
    monitor.a_address[0](it.address), monitor.a_mask[0](it.full), monitor.a_data[0](it.data);
    monitor.d_valid[0](it.d_valid), monitor.d_ready[0](it.high), monitor.d_denied[0](it.low), monitor.d_corrupt[0](it.low);
    monitor.d_opcode[0](it.reply), monitor.d_param[0](it.zero), monitor.d_size[0](it.three), monitor.d_source[0](it.source);
    monitor.d_data[0](it.data);
    monitor.aw_valid(it.aw_valid), monitor.aw_ready(it.high), monitor.aw_id(it.zero), monitor.aw_addr(it.axi_address);
    monitor.aw_len(it.zero), monitor.aw_size(it.three), monitor.aw_burst(it.one);
    monitor.w_valid(it.w_valid), monitor.w_ready(it.high), monitor.w_data(it.data), monitor.w_strb(it.full), monitor.w_last(it.high);
    monitor.b_valid(it.b_valid), monitor.b_ready(it.high), monitor.b_id(it.zero), monitor.b_resp(it.zero);
    monitor.ar_valid(it.ar_valid), monitor.ar_ready(it.high), monitor.ar_id(it.three), monitor.ar_addr(it.axi_address);
    monitor.ar_len(it.zero), monitor.ar_size(it.three), monitor.ar_burst(it.one);
    monitor.r_valid(it.r_valid), monitor.r_ready(it.high), monitor.r_id(it.three), monitor.r_data(it.data), monitor.r_resp(it.zero);
    monitor.r_last(it.high);
}

int sc_main(int count, char **words) {
    sc_clock clock("clock", 10, SC_NS);
    Played played("played", count > 1 && std::string(words[1]) == "wrong");
    zuldegei::Monitor monitor("monitor", 1, SETUP);
    played.clock(clock), monitor.clock(clock);
    bind(monitor, played);
    try {
        sc_start();
        monitor.finish();
    } catch (const sc_report &report) {
        std::printf("stopped at %s: %s\n", sc_time_stamp().to_string().c_str(), report.get_msg());
    }
    std::printf("%llu beats judged, %llu wrong\n", (unsigned long long)monitor.judged(), (unsigned long long)monitor.wrong());
    return monitor.wrong() > 0;
}
