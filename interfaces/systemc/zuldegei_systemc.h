/* Judges each beat that passes at the ports of a bridge from TileLink to AXI4, at the clock edge at which it passes, in SystemC
   (docs/SCOREBOARD.md says what is judged). zuldegei::Monitor goes beside any design: bind its ports to the wires of both ports of
   the bridge, all in one clock. The wires have the types that Verilator's --sc gives them: bool, uint32_t up to 32 bits, and uint64_t.
   zuldegei::Predictor has the wires of TileLink alone, and compares replies with those of the model of tlbridge; what it asks of the
   bridge is said in interfaces/systemverilog/zuldegei_predictor.sv.

   A wrong beat is an SC_REPORT_ERROR of the kind "zuldegei", whose text is the line of tlscore; its times are those of sc_time_stamp, in
   the unit of sc_get_time_resolution. By SystemC's own setting such an error throws sc_report, which ends sc_start in the clock of the
   first wrong beat; what passed behind it in that clock isn't judged then. To go on and only print them:

     sc_core::sc_report_handler::set_actions("zuldegei", sc_core::SC_ERROR, sc_core::SC_DISPLAY);

   A call that can't be carried out, as by a set-up that is refused, is an SC_REPORT_FATAL of the same kind. */
#ifndef ZULDEGEI_SYSTEMC_H
#define ZULDEGEI_SYSTEMC_H

#include "zuldegei.h"

#include <cstdint>
#include <cstdio>
#include <cstring>
#include <deque>
#include <memory>
#include <string>
#include <systemc>
#include <vector>

namespace zuldegei {

/* The wires of clock, reset and TileLink: place i of each is client i. */
class TileLink : public sc_core::sc_module {
  public:
    using Bits = sc_core::sc_vector<sc_core::sc_in<bool>>;
    using Words = sc_core::sc_vector<sc_core::sc_in<uint32_t>>;
    using Data = sc_core::sc_vector<sc_core::sc_in<uint64_t>>;

    sc_core::sc_in<bool> clock{"clock"}, reset{"reset"};
    Bits a_valid, a_ready, a_corrupt;
    Words a_opcode, a_param, a_size, a_source, a_address, a_mask;
    Data a_data;
    Bits d_valid, d_ready, d_denied, d_corrupt;
    Words d_opcode, d_param, d_size, d_source;
    Data d_data;

  protected:
    unsigned clients_;
    bool is_masked_;
    std::vector<std::vector<uint8_t>> lanes_; /* of the request that each source of each client asked last */

    TileLink(sc_core::sc_module_name name, unsigned clients, bool is_masked)
        : sc_module(name), a_valid("a_valid", clients), a_ready("a_ready", clients), a_corrupt("a_corrupt", clients),
          a_opcode("a_opcode", clients), a_param("a_param", clients), a_size("a_size", clients), a_source("a_source", clients),
          a_address("a_address", clients), a_mask("a_mask", clients), a_data("a_data", clients), d_valid("d_valid", clients),
          d_ready("d_ready", clients), d_denied("d_denied", clients), d_corrupt("d_corrupt", clients), d_opcode("d_opcode", clients),
          d_param("d_param", clients), d_size("d_size", clients), d_source("d_source", clients), d_data("d_data", clients),
          clients_(clients), is_masked_(is_masked), lanes_(clients, std::vector<uint8_t>(256, 0)) {}

    /* What the lanes hold, and zero elsewhere, the lowest lane first. */
    struct Lanes {
        uint8_t bytes[8];
        Lanes(uint64_t data, uint32_t lanes) {
            for (int k = 0; k < 8; k++) bytes[k] = lanes >> k & 1 ? uint8_t(data >> 8 * k) : uint8_t(0);
        }
    };

    bool passes_a(unsigned i) const { return a_valid[i].read() && a_ready[i].read(); }
    bool passes_d(unsigned i) const { return d_valid[i].read() && d_ready[i].read(); }

    /* The payload of a beat on channel A, whose lanes are noted. */
    Lanes data_of_a(unsigned i) {
        const uint32_t mask = a_mask[i].read(), source = a_source[i].read();
        if (source < 256) lanes_[i][source] = uint8_t(mask);
        return Lanes(a_data[i].read(), a_opcode[i].read() < 4 ? mask : 0);
    }

    /* The payload of a beat on channel D, where it tells something. */
    Lanes data_of_d(unsigned i) const {
        const uint32_t source = d_source[i].read();
        const bool has_data = d_opcode[i].read() == 1 && !d_corrupt[i].read();
        return Lanes(d_data[i].read(), !is_masked_ ? 0xffu : has_data && source < 256 ? lanes_[i][source] : 0u);
    }
};

class Monitor : public TileLink {
  public:
    /* AXI4. */
    sc_core::sc_in<bool> aw_valid{"aw_valid"}, aw_ready{"aw_ready"}, w_valid{"w_valid"}, w_ready{"w_ready"}, w_last{"w_last"};
    sc_core::sc_in<bool> b_valid{"b_valid"}, b_ready{"b_ready"}, ar_valid{"ar_valid"}, ar_ready{"ar_ready"};
    sc_core::sc_in<bool> r_valid{"r_valid"}, r_ready{"r_ready"}, r_last{"r_last"};
    sc_core::sc_in<uint32_t> aw_id{"aw_id"}, aw_addr{"aw_addr"}, aw_len{"aw_len"}, aw_size{"aw_size"}, aw_burst{"aw_burst"};
    sc_core::sc_in<uint32_t> ar_id{"ar_id"}, ar_addr{"ar_addr"}, ar_len{"ar_len"}, ar_size{"ar_size"}, ar_burst{"ar_burst"};
    sc_core::sc_in<uint32_t> w_strb{"w_strb"}, b_id{"b_id"}, b_resp{"b_resp"}, r_id{"r_id"}, r_resp{"r_resp"};
    sc_core::sc_in<uint64_t> w_data{"w_data"}, r_data{"r_data"};

    /* A monitor of a bridge with CLIENTS clients. SETUP has the lines that stand ahead of the first beat. If IS_MASKED, lanes of a reply
       that its request doesn't cover, and all of a corrupt beat, are handed over as zero, whatever the device has there. */
    Monitor(sc_core::sc_module_name name, unsigned clients, const std::string &setup, bool is_masked = true)
        : TileLink(name, clients, is_masked), board_(nullptr, tlscore_free) {
        int status = 0;
        char fault[256] = "";
        board_.reset(tlscore_new(setup.c_str(), &status, fault, sizeof fault));
        if (!board_) SC_REPORT_FATAL("zuldegei", (std::string("the set-up is refused: ") + fault).c_str());
        SC_HAS_PROCESS(Monitor);
        SC_METHOD(judge);
        sensitive << clock.pos();
        dont_initialize();
    }

    /* Judges the end of the run, at which all should be quiet: what has no answer is wrong. */
    void finish() { note(tlscore_end(board_.get())); }

    /* How many beats were judged, and how much was wrong. */
    uint64_t judged() const { return counts().first; }
    uint64_t wrong() const { return counts().second; }

  private:
    /* W data whose AW hasn't come yet. */
    struct Held {
        uint64_t time, data;
        uint32_t strobes;
        bool is_last;
    };

    std::unique_ptr<tlscore, void (*)(tlscore *)> board_;
    std::deque<Held> held_;
    uint64_t lacking_ = 0, told_ = UINT64_MAX; /* W beats of the AW that came; the time that was told last */
    bool was_reset_ = true;

    std::pair<uint64_t, uint64_t> counts() const {
        uint64_t judged = 0, wrong = 0;
        tlscore_judged(board_.get(), &judged, &wrong);
        return {judged, wrong};
    }

    void note(int code) {
        if (code == 0) return;
        char text[1024] = "";
        if (code < 0) {
            tlscore_fault(board_.get(), text, sizeof text);
            SC_REPORT_FATAL("zuldegei", (std::to_string(code) + ": " + text).c_str());
        }
        tlscore_text(board_.get(), text, sizeof text);
        std::string lines(text);
        while (!lines.empty() && lines.back() == '\n') lines.pop_back();
        SC_REPORT_ERROR("zuldegei", lines.c_str());
    }

    void tell_time(uint64_t now) {
        if (told_ == now) return;
        told_ = now;
        note(tlscore_time(board_.get(), now));
    }

    void judge_a(unsigned i) {
        const Lanes data = data_of_a(i);
        note(tlscore_a(board_.get(), i, a_opcode[i].read(), a_param[i].read(), a_size[i].read(), a_source[i].read(), a_address[i].read(),
                       a_mask[i].read(), data.bytes, 8, 0, a_corrupt[i].read()));
    }

    void judge_d(unsigned i) {
        const Lanes data = data_of_d(i);
        note(tlscore_d(board_.get(), i, d_opcode[i].read(), d_param[i].read(), d_size[i].read(), d_source[i].read(), d_denied[i].read(),
                       data.bytes, 8, 0, d_corrupt[i].read()));
    }

    void judge_w() {
        while (lacking_ > 0 && !held_.empty()) {
            const Held beat = held_.front();
            held_.pop_front();
            lacking_--;
            tell_time(beat.time);
            note(tlscore_w(board_.get(), Lanes(beat.data, beat.strobes).bytes, 8, 0, beat.strobes, beat.is_last));
        }
    }

    void judge_axi(uint64_t now) {
        if (aw_valid.read() && aw_ready.read()) {
            tell_time(now);
            lacking_ += aw_len.read() + 1;
            note(tlscore_aw(board_.get(), aw_id.read(), aw_addr.read(), aw_len.read(), aw_size.read(), aw_burst.read()));
        }
        if (ar_valid.read() && ar_ready.read()) {
            tell_time(now);
            note(tlscore_ar(board_.get(), ar_id.read(), ar_addr.read(), ar_len.read(), ar_size.read(), ar_burst.read()));
        }
        if (w_valid.read() && w_ready.read()) held_.push_back({now, w_data.read(), w_strb.read(), w_last.read()});
        judge_w();
        if (b_valid.read() && b_ready.read()) {
            tell_time(now);
            note(tlscore_b(board_.get(), b_id.read(), b_resp.read()));
        }
        if (r_valid.read() && r_ready.read()) {
            tell_time(now);
            note(tlscore_r(board_.get(), r_id.read(), Lanes(r_data.read(), 0xff).bytes, 8, 0, r_resp.read(), r_last.read()));
        }
    }

    /* The order within a clock is that of docs/SCOREBOARD.md. */
    void judge() {
        const bool begins_reset = reset.read() && !was_reset_;
        const uint64_t now = sc_core::sc_time_stamp().value();
        was_reset_ = reset.read();
        if (was_reset_) {
            held_.clear();
            lacking_ = 0;
            if (begins_reset) note(tlscore_reset(board_.get()));
            return;
        }
        for (unsigned i = 0; i < clients_; i++)
            if (passes_a(i)) {
                tell_time(now);
                judge_a(i);
            }
        judge_axi(now);
        for (unsigned i = 0; i < clients_; i++)
            if (passes_d(i)) {
                tell_time(now);
                judge_d(i);
            }
    }
};

class Predictor : public TileLink {
  public:
    /* A predictor for a bridge with CLIENTS clients. SETUP has the lines of a script that stand ahead of the first command. Masked lanes
       are as for the monitor. */
    Predictor(sc_core::sc_module_name name, unsigned clients, const std::string &setup, bool is_masked = true)
        : TileLink(name, clients, is_masked), bridge_(nullptr, tlbridge_free), begun_(clients, false),
          due_(clients, std::vector<std::deque<tlbridge_d>>(256)) {
        int status = 0;
        char fault[256] = "";
        bridge_.reset(tlbridge_new(setup.c_str(), &status, fault, sizeof fault));
        if (!bridge_) SC_REPORT_FATAL("zuldegei", (std::string("the set-up is refused: ") + fault).c_str());
        SC_HAS_PROCESS(Predictor);
        SC_METHOD(compare);
        sensitive << clock.pos();
        dont_initialize();
    }

    /* Tells what is due at the end of the run, at which all should be quiet. */
    void finish() {
        for (unsigned i = 0; i < clients_; i++)
            for (const auto &its : due_[i]) if (!its.empty()) tell("expected " + shown(i, its.front()));
    }

    /* How many beats on channel D were compared, and how much was wrong. */
    uint64_t compared() const { return compared_; }
    uint64_t wrong() const { return wrong_; }

  private:
    std::unique_ptr<tlbridge, void (*)(tlbridge *)> bridge_;
    std::vector<bool> begun_; /* whose message isn't whole */
    std::vector<std::vector<std::deque<tlbridge_d>>> due_; /* the beats to each source of each client that are still to come */
    uint64_t compared_ = 0, wrong_ = 0;

    void tell(const std::string &why) {
        wrong_++;
        SC_REPORT_ERROR("zuldegei", why.c_str());
    }

    static std::string shown(unsigned i, const tlbridge_d &it) {
        char text[96];
        uint64_t data = 0;
        for (int k = 0; k < 8; k++) data |= uint64_t(it.data[k]) << 8 * k;
        std::snprintf(text, sizeof text, "D %u %u %u %u %u %u %016llx %u", i, it.opcode, it.param, it.size, it.source, it.denied,
                      (unsigned long long)data, it.corrupt);
        return text;
    }

    /* All replies that a client can take now. */
    void take(unsigned i) {
        unsigned beats = 0;
        tlbridge_d beat;
        while (tlbridge_take(bridge_.get(), i, nullptr, &beats) == TLBRIDGE_REPLY)
            for (unsigned k = 0; k < beats; k++) {
                tlbridge_reply_d(bridge_.get(), k, &beat);
                due_[i][beat.source].push_back(beat);
            }
    }

    void offer(unsigned i) {
        const uint32_t source = a_source[i].read();
        const Lanes data = data_of_a(i);
        uint64_t number = 0;
        if (source < 256 && !due_[i][source].empty()) {
            tell("client " + std::to_string(i) + " source " + std::to_string(source) + " is busy");
            due_[i][source].clear();
        }
        const int answer = tlbridge_offer(bridge_.get(), i, a_opcode[i].read(), a_param[i].read(), a_size[i].read(), source,
                                          a_address[i].read(), a_mask[i].read(), data.bytes, 8, a_corrupt[i].read(), &number);
        begun_[i] = answer == TLBRIDGE_MORE;
        if (answer == TLBRIDGE_ACCEPTED) {
            tlbridge_drain(bridge_.get());
            take(i);
        } else if (answer != TLBRIDGE_MORE)
            tell("the model refuses a beat of client " + std::to_string(i) + ": answer " + std::to_string(answer) + ", rule "
                 + std::to_string(number));
    }

    void compare_d(unsigned i) {
        const uint32_t source = d_source[i].read();
        const Lanes data = data_of_d(i);
        tlbridge_d seen = {{}, d_opcode[i].read(), d_param[i].read(), d_size[i].read(), source, d_denied[i].read(), d_corrupt[i].read()};
        std::memcpy(seen.data, data.bytes, 8);
        if (source > 255 || due_[i][source].empty()) return tell(shown(i, seen) + " expected nothing");
        const tlbridge_d wanted = due_[i][source].front();
        due_[i][source].pop_front();
        compared_++;
        if (std::memcmp(&seen, &wanted, sizeof seen)) tell(shown(i, seen) + " expected " + shown(i, wanted));
    }

    /* Nobody can predict what becomes of a request that is under way at a reset. */
    void note_reset() {
        for (unsigned i = 0; i < clients_; i++) {
            bool is_quiet = !begun_[i];
            for (const auto &its : due_[i]) is_quiet = is_quiet && its.empty();
            if (!is_quiet) SC_REPORT_FATAL("zuldegei", "a reset while a request is under way");
        }
    }

    /* A beat may be answered in the clock in which its request is whole: A comes before D. */
    void compare() {
        if (reset.read()) return note_reset();
        for (unsigned i = 0; i < clients_; i++) if (passes_a(i)) offer(i);
        for (unsigned i = 0; i < clients_; i++) if (passes_d(i)) compare_d(i);
    }
};

} // namespace zuldegei
#endif
