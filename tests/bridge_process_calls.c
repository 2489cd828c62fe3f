/* Wrong calls of the model in interfaces/c/zuldegei.h, one by one: each gets its error and changes nothing. Then what steps write through
   their pointers, and bridges beside each other, also in threads of their own. It prints a line for each that isn't so. */
#include "zuldegei.h"

#include <inttypes.h>
#include <pthread.h>
#include <stdio.h>
#include <string.h>

static int failed;

static void same(const char *name, int64_t got, int64_t wanted) {
    if (got != wanted) failed = 1, printf("%s: %" PRId64 ", not %" PRId64 "\n", name, got, wanted);
}

static void says(const char *name, const char *got, const char *wanted) {
    if (strcmp(got, wanted)) failed = 1, printf("%s: %s, not %s\n", name, got, wanted);
}

static const char SETUP[] = "config 2 4 16 2 16 12 hh\nregion 0 4 10 gpah\npage 10 4 good\n";
static const uint8_t DATA[8] = {0x88, 0x77, 0x66, 0x55, 0x44, 0x33, 0x22, 0x11};
static const uint8_t LONG[16];
static const uint64_t OVER = UINT64_C(1) << 32;

/* All that a bridge tells of itself. */
typedef struct {
    int64_t choices, work, in_flight;
    struct tlbridge_step steps[4];
    struct tlbridge_w w;
    struct tlbridge_d d;
    int byte, has[6];
} state;

static state state_of(tlbridge *bridge) {
    state now;
    memset(&now, 0, sizeof now);
    now.choices = tlbridge_choices(bridge), now.work = tlbridge_work(bridge), now.in_flight = tlbridge_in_flight(bridge);
    for (unsigned k = 0; k < 4; k++) now.has[k] = tlbridge_choose(bridge, k, &now.steps[k]);
    now.has[4] = tlbridge_sent_w(bridge, 0, &now.w), now.has[5] = tlbridge_reply_d(bridge, 0, &now.d);
    now.byte = tlbridge_byte(bridge, 0x10008);
    return now;
}

/* What the bridge that wrong calls are made of has told. */
static state before;

static void changes_nothing(tlbridge *bridge, const char *name) {
    state now = state_of(bridge);
    if (memcmp(&now, &before, sizeof now)) failed = 1, printf("%s: the bridge has changed\n", name);
}

/* A call that gets an error, and leaves the bridge as it is. */
#define REFUSED(call, wanted) same(#call, (call), (wanted)), changes_nothing(bridge, #call)

/* A set-up that is refused: its status, and its fault. */
static void no_bridge(const char *setup, int wanted, const char *fault) {
    char text[64] = "?";
    int status = 77;
    same(setup ? setup : "no set-up", tlbridge_new(setup, &status, text, sizeof text) == NULL, 1);
    same(setup ? setup : "no set-up", status, wanted), says(setup ? setup : "no set-up", text, fault);
}

static void setups(void) {
    static char wide[256], spaced[256];
    char text[8] = "?";
    int status = 77;
    no_bridge(NULL, TLBRIDGE_NULL, "");
    no_bridge("", TLBRIDGE_WORD - 1, "script fault: line 1, word 1");
    no_bridge("\n\n# nothing\n", TLBRIDGE_WORD - 1, "script fault: line 4, word 1");
    no_bridge("config 2 4 16 2 16 12", TLBRIDGE_WORD - 8, "script fault: line 1, word 8");
    no_bridge("config 2 4 16 2 16 12 hh\npage 10 zz good\n", TLBRIDGE_WORD - 3, "script fault: line 2, word 3");
    no_bridge("config 2 4 16 2 16 12 hh\nconfig 2 4 16 2 16 12 hh\n", TLBRIDGE_WORD - 1, "script fault: line 2, word 1");
    no_bridge("config 2 4 999 2 16 12 hh", TLBRIDGE_WORD - 4, "script fault: line 1, word 4");
    no_bridge("config 2 4 99 2 16 12 hh", TLBRIDGE_SETUP, "set-up fault: BadConfig 0");
    no_bridge("config 2 4 16 2 16 12 hh\nregion 0 4 10 gpah\nregion 3 1 20 gpah", TLBRIDGE_SETUP, "set-up fault: RegionOverlap 1");
    no_bridge("config 2 4 16 2 16 12 hh\nmem 10000\n", TLBRIDGE_WORD - 1, "script fault: line 2, word 1");
    no_bridge("config 2 4 16 2 16 12 hh\npump\n", TLBRIDGE_WORD - 1, "script fault: line 2, word 1");
    no_bridge("config 2 4 16 2 16 12 hh\nprofile bridge\n", TLBRIDGE_WORD - 1, "script fault: line 2, word 1");
    no_bridge("config 2 4 16 2 16 12 hh\001\n", TLBRIDGE_WORD, "script fault: line 1, word 0");
    snprintf(wide, sizeof wide, "config 2 4 16 2 16 12 hh\n#%0128d\n", 0);
    no_bridge(wide, TLBRIDGE_WORD, "script fault: line 2, word 0");
    same("cut", tlbridge_new("config", &status, text, sizeof text) == NULL, 1), says("cut", text, "script ");
    same("no room to tell", tlbridge_new(SETUP, &status, NULL, 8) == NULL, 1), same("no room to tell", status, TLBRIDGE_NULL);
    same("nobody asks", tlbridge_new("config", NULL, NULL, 0) == NULL, 1);
    snprintf(spaced, sizeof spaced, "%s#%0127d\r\n\nbad 10008", SETUP, 0);
    tlbridge *bridge = tlbridge_new(spaced, &status, text, sizeof text);
    same("the longest line", bridge != NULL, 1), same("the longest line", status, TLBRIDGE_OK), says("the longest line", text, "");
    tlbridge_free(bridge), tlbridge_free(NULL);
}

static void nulls(tlbridge *bridge) {
    struct tlbridge_burst burst;
    struct tlbridge_step step = {0, TLBRIDGE_PUMP, 0};
    struct tlbridge_w w;
    struct tlbridge_d d;
    REFUSED(tlbridge_offer(NULL, 0, 0, 0, 3, 5, 8, 0xff, DATA, 8, false, NULL), TLBRIDGE_NULL);
    REFUSED(tlbridge_take(NULL, 0, NULL, NULL), TLBRIDGE_NULL);
    REFUSED(tlbridge_reply_d(NULL, 0, &d), TLBRIDGE_NULL);
    REFUSED(tlbridge_pump(NULL, &burst), TLBRIDGE_NULL);
    REFUSED(tlbridge_sent_w(NULL, 0, &w), TLBRIDGE_NULL);
    REFUSED(tlbridge_perform(NULL, 0, 0), TLBRIDGE_NULL);
    REFUSED(tlbridge_answer_b(NULL, 0, NULL), TLBRIDGE_NULL);
    REFUSED(tlbridge_answer_r(NULL, 0, NULL, NULL, NULL), TLBRIDGE_NULL);
    REFUSED(tlbridge_drain(NULL), TLBRIDGE_NULL);
    REFUSED(tlbridge_choices(NULL), TLBRIDGE_NULL);
    REFUSED(tlbridge_choose(NULL, 0, &step), TLBRIDGE_NULL);
    REFUSED(tlbridge_make(NULL, &step), TLBRIDGE_NULL);
    REFUSED(tlbridge_byte(NULL, 0x10008), TLBRIDGE_NULL);
    REFUSED(tlbridge_work(NULL), TLBRIDGE_NULL);
    REFUSED(tlbridge_in_flight(NULL), TLBRIDGE_NULL);
    REFUSED(tlbridge_offer(bridge, 0, 0, 0, 3, 6, 8, 0xff, NULL, 8, false, NULL), TLBRIDGE_NULL);
    REFUSED(tlbridge_reply_d(bridge, 0, NULL), TLBRIDGE_NULL);
    REFUSED(tlbridge_sent_w(bridge, 0, NULL), TLBRIDGE_NULL);
    REFUSED(tlbridge_choose(bridge, 0, NULL), TLBRIDGE_NULL);
    REFUSED(tlbridge_make(bridge, NULL), TLBRIDGE_NULL);
}

static void offers(tlbridge *bridge) {
    REFUSED(tlbridge_offer(bridge, 256, 0, 0, 3, 6, 8, 0xff, DATA, 8, false, NULL), TLBRIDGE_RANGE);
    REFUSED(tlbridge_offer(bridge, 0, 256, 0, 3, 6, 8, 0xff, DATA, 8, false, NULL), TLBRIDGE_RANGE);
    REFUSED(tlbridge_offer(bridge, 0, 0, 256, 3, 6, 8, 0xff, DATA, 8, false, NULL), TLBRIDGE_RANGE);
    REFUSED(tlbridge_offer(bridge, 0, 0, 0, 256, 6, 8, 0xff, DATA, 8, false, NULL), TLBRIDGE_RANGE);
    REFUSED(tlbridge_offer(bridge, 0, 0, 0, 3, 256, 8, 0xff, DATA, 8, false, NULL), TLBRIDGE_RANGE);
    REFUSED(tlbridge_offer(bridge, 0, 0, 0, 3, 6, OVER, 0xff, DATA, 8, false, NULL), TLBRIDGE_RANGE);
    REFUSED(tlbridge_offer(bridge, 0, 0, 0, 3, 6, 8, 0x100, DATA, 8, false, NULL), TLBRIDGE_RANGE);
    REFUSED(tlbridge_offer(bridge, 0, 0, 0, 3, 6, 8, 0xff, LONG, 9, false, NULL), TLBRIDGE_RANGE);
    REFUSED(tlbridge_offer(bridge, 0, 0, 0, 3, 6, 8, 0xff, DATA, 4, false, NULL), TLBRIDGE_RANGE);
    REFUSED(tlbridge_offer(bridge, 0, 3, 0, 3, 6, 8, 0xff, NULL, 0, false, NULL), TLBRIDGE_RANGE);
    REFUSED(tlbridge_offer(bridge, 0, 4, 0, 3, 6, 8, 0xff, DATA, 4, false, NULL), TLBRIDGE_RANGE);
}

/* What isn't there. The bridge has sent a write of two beats, and nobody has taken a reply. */
static void ranges(tlbridge *bridge) {
    struct tlbridge_step step = {0, 0, 0}, far = {0, TLBRIDGE_PERFORM, 65536}, id = {0, TLBRIDGE_ANSWER_B, 256}, other = {0, 5, 0};
    struct tlbridge_w w;
    struct tlbridge_d d;
    REFUSED(tlbridge_take(bridge, 256, NULL, NULL), TLBRIDGE_RANGE);
    REFUSED(tlbridge_reply_d(bridge, 0, &d), TLBRIDGE_RANGE);
    REFUSED(tlbridge_reply_d(bridge, UINT32_MAX, &d), TLBRIDGE_RANGE);
    REFUSED(tlbridge_sent_w(bridge, 2, &w), TLBRIDGE_RANGE);
    REFUSED(tlbridge_sent_w(bridge, UINT32_MAX, &w), TLBRIDGE_RANGE);
    REFUSED(tlbridge_perform(bridge, 0, 65536), TLBRIDGE_RANGE);
    REFUSED(tlbridge_answer_b(bridge, 256, NULL), TLBRIDGE_RANGE);
    REFUSED(tlbridge_answer_r(bridge, 256, NULL, NULL, NULL), TLBRIDGE_RANGE);
    REFUSED(tlbridge_choose(bridge, 3, &step), TLBRIDGE_RANGE);
    REFUSED(tlbridge_choose(bridge, OVER, &step), TLBRIDGE_RANGE);
    REFUSED(tlbridge_choose(bridge, UINT64_MAX, &step), TLBRIDGE_RANGE);
    REFUSED(tlbridge_make(bridge, &step), TLBRIDGE_RANGE);
    REFUSED(tlbridge_make(bridge, &far), TLBRIDGE_RANGE);
    REFUSED(tlbridge_make(bridge, &id), TLBRIDGE_RANGE);
    REFUSED(tlbridge_make(bridge, &other), TLBRIDGE_RANGE);
    REFUSED(tlbridge_byte(bridge, OVER), TLBRIDGE_RANGE);
    REFUSED(tlbridge_byte(bridge, 0), TLBRIDGE_NO_BYTE);
    REFUSED(tlbridge_byte(bridge, UINT32_MAX), TLBRIDGE_NO_BYTE);
}

/* Steps that give nothing write nothing, and leave the bridge as it is. */
static void idle(tlbridge *bridge) {
    uint64_t number = 7;
    unsigned beats = 7, resp = 7;
    uint8_t data[8] = {7};
    bool last = true;
    REFUSED(tlbridge_offer(bridge, 2, 0, 0, 3, 6, 8, 0xff, DATA, 8, false, &number), TLBRIDGE_NO_CLIENT);
    REFUSED(tlbridge_take(bridge, 0, &number, &beats), TLBRIDGE_NOTHING);
    REFUSED(tlbridge_take(bridge, 2, &number, &beats), TLBRIDGE_NO_CLIENT);
    REFUSED(tlbridge_answer_b(bridge, 0, &resp), TLBRIDGE_NOTHING);
    REFUSED(tlbridge_answer_r(bridge, 255, data, &resp, &last), TLBRIDGE_NOTHING);
    REFUSED(tlbridge_perform(bridge, UINT64_MAX, 65535), TLBRIDGE_NO_SUCH);
    same("what wrong steps write", number == 7 && beats == 7 && resp == 7 && data[0] == 7 && last, 1);
    REFUSED(tlbridge_offer(bridge, 0, 0, 0, 3, 1, 8, 0xff, DATA, 8, false, &number), TLBRIDGE_REFUSED);
    same("the rule", (int64_t)number, 10);
}

/* A bridge whose first client has accepted a Put of two beats, sent its burst, and offered the first beat of another. */
static tlbridge *begun(void) {
    struct tlbridge_burst burst;
    struct tlbridge_w w;
    uint64_t number = 7;
    tlbridge *bridge = tlbridge_new(SETUP, NULL, NULL, 0);
    same("a first beat", tlbridge_offer(bridge, 0, 0, 0, 4, 5, 16, 0xff, DATA, 8, false, &number), TLBRIDGE_MORE);
    same("its number", (int64_t)number, 7);
    same("a last beat", tlbridge_offer(bridge, 0, 0, 0, 4, 5, 16, 0xff, LONG, 8, false, &number), TLBRIDGE_ACCEPTED);
    same("its number", (int64_t)number, 0);
    same("a read", tlbridge_offer(bridge, 1, 4, 0, 3, 255, 0x1000, 0xff, NULL, 0, false, NULL), TLBRIDGE_ACCEPTED);
    same("another first beat", tlbridge_offer(bridge, 0, 0, 0, 4, 0, 8192, 0xff, DATA, 8, false, &number), TLBRIDGE_MORE);
    same("a burst", tlbridge_pump(bridge, &burst), TLBRIDGE_SENT);
    same("its fields", burst.serial == 0 && burst.is_write && burst.id == 0 && burst.address == 0x10010 && burst.len == 1
                           && burst.size == 3 && burst.burst == 1 && burst.w_beats == 2, 1);
    same("its first beat", tlbridge_sent_w(bridge, 0, &w), TLBRIDGE_OK);
    same("its first beat", !memcmp(w.data, DATA, 8) && w.strobes == 0xff && !w.last, 1);
    return bridge;
}

static void wrong_calls(void) {
    tlbridge *bridge = begun();
    before = state_of(bridge);
    nulls(bridge), offers(bridge), ranges(bridge), idle(bridge);
    tlbridge_free(bridge);
}

/* Each step to the end, with null for what isn't asked and with room for it. */
static void to_the_end(void) {
    struct tlbridge_burst burst;
    struct tlbridge_w w;
    struct tlbridge_d d;
    uint64_t number;
    unsigned resp = 7, beats;
    uint8_t data[8];
    bool last = false;
    tlbridge *bridge = begun();
    same("choices", tlbridge_choices(bridge), 3), same("work", tlbridge_work(bridge), 6), same("in flight", tlbridge_in_flight(bridge), 2);
    same("a beat", tlbridge_perform(bridge, 0, 1), TLBRIDGE_DONE), same("again", tlbridge_perform(bridge, 0, 1), TLBRIDGE_ALREADY);
    same("no burst", tlbridge_sent_w(bridge, 0, &w), TLBRIDGE_RANGE);
    same("a beat", tlbridge_perform(bridge, 0, 0), TLBRIDGE_DONE), same("written", tlbridge_byte(bridge, 0x10010), 0x88);
    same("a B", tlbridge_answer_b(bridge, 0, &resp), TLBRIDGE_B), same("its response", resp, 0);
    same("a read", tlbridge_pump(bridge, &burst), TLBRIDGE_SENT), same("it has none", burst.is_write || burst.w_beats, 0);
    same("no W beat", tlbridge_sent_w(bridge, 0, &w), TLBRIDGE_RANGE), same("idle", tlbridge_pump(bridge, &burst), TLBRIDGE_IDLE);
    same("a beat", tlbridge_perform(bridge, burst.serial, 0), TLBRIDGE_DONE);
    same("an R", tlbridge_answer_r(bridge, burst.id, data, &resp, &last), TLBRIDGE_R);
    same("its fields", !memcmp(data, LONG, 8) && resp == 0 && last, 1);
    same("a reply", tlbridge_take(bridge, 1, &number, &beats), TLBRIDGE_REPLY), same("its number", number == 1 && beats == 1, 1);
    same("its beat", tlbridge_reply_d(bridge, 0, &d), TLBRIDGE_OK);
    same("its fields", d.opcode == 1 && !d.param && d.size == 3 && d.source == 255 && !d.denied && !d.corrupt, 1);
    same("another", tlbridge_take(bridge, 0, NULL, NULL), TLBRIDGE_REPLY), same("none is left", tlbridge_drain(bridge), 0);
    same("its beat", tlbridge_reply_d(bridge, 0, &d), TLBRIDGE_OK), same("it has no data", d.opcode, 0);
    tlbridge_free(bridge);
}

/* A bridge that nobody else uses, in a thread: the bytes that it wrote. */
static void *alone(void *out) {
    tlbridge *bridge = tlbridge_new(SETUP, NULL, NULL, 0);
    for (unsigned k = 0; k < 500; k++) {
        uint8_t data[8] = {(uint8_t)k};
        tlbridge_offer(bridge, k % 2, 0, 0, 3, k % 256, k % 512 * 8, 0xff, data, 8, false, NULL);
        tlbridge_drain(bridge), tlbridge_take(bridge, k % 2, NULL, NULL);
    }
    for (unsigned k = 0; k < 500; k++) *(int *)out += tlbridge_byte(bridge, 0x10000 + k * 8);
    tlbridge_free(bridge);
    return NULL;
}

static void threads(void) {
    pthread_t started[4];
    int sums[4] = {0};
    for (int k = 0; k < 4; k++) pthread_create(&started[k], NULL, alone, &sums[k]);
    for (int k = 0; k < 4; k++) pthread_join(started[k], NULL);
    for (int k = 0; k < 4; k++) same("a thread", sums[k], 255 * 128 + 243 * 122);
}

int main(void) {
    setups(), wrong_calls(), to_the_end(), threads();
    return failed;
}
