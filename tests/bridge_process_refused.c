/* Each malloc and realloc of tlbridge_new refused, alone, and with the next one too: it answers null, with TLBRIDGE_MEMORY and its text, or
   had no need of it; made again it gives the bridge. Behind it no step and no question asks for memory. It prints a line for each
   that doesn't do so. */
#include "refused_growths.h"
#include "zuldegei.h"

#include <inttypes.h>
#include <stdio.h>
#include <string.h>

static int failed;

static const char SETUP[] = "config 2 4 16 2 16 12 hh\nregion 0 4 10 gpah\nregion 8 1 20 g---\npage 10 4 good\npage 20 1 slverr\nbad 10018\n";
static const uint8_t DATA[8] = {0x88, 0x77, 0x66, 0x55, 0x44, 0x33, 0x22, 0x11};

static void fails(const char *why, long at) { failed = 1, printf("%ld: %s\n", at, why); }

/* A bridge whose growths from a place on are refused; and then a bridge that is made without. The answer is whether one was refused. */
static bool made(long at, long count) {
    char fault[64] = "?";
    int status = 7;
    well = at, refused = count, met = 0;
    tlbridge *bridge = tlbridge_new(SETUP, &status, fault, sizeof fault);
    well = MOST, refused = 0;
    if (bridge ? status != TLBRIDGE_OK || fault[0] : status != TLBRIDGE_MEMORY || strcmp(fault, "out of memory")) fails(fault, at);
    if (bridge && met == 2) fails("two in a row aren't seen", at);
    tlbridge_free(bridge);
    return met > 0;
}

/* The fault of a set-up, and the text of it, where the growths from a place on are refused. */
static bool told(long at) {
    char fault[64] = "?";
    int status = 7;
    well = at, refused = 1, met = 0;
    tlbridge *bridge = tlbridge_new("config 2 4 99 2 16 12 hh\n", &status, fault, sizeof fault);
    well = MOST, refused = 0;
    bool is_memory = status == TLBRIDGE_MEMORY && !strcmp(fault, "out of memory");
    bool is_setup = status == TLBRIDGE_SETUP && (!strcmp(fault, "set-up fault: BadConfig 0") || (met && !fault[0]));
    if (bridge || !(is_memory || is_setup)) fails(fault, at);
    tlbridge_free(bridge);
    return met > 0;
}

/* Every kind of step, and every question, where no memory is given at all. */
static void without_memory(void) {
    struct tlbridge_burst burst;
    struct tlbridge_step step;
    struct tlbridge_w w;
    struct tlbridge_d d;
    uint8_t data[8];
    unsigned beats = 0;
    tlbridge *bridge = tlbridge_new(SETUP, NULL, NULL, 0);
    well = 0, refused = MOST, met = 0;
    for (unsigned k = 0; k < 400; k++) {
        bool is_read = k / 8 % 2;
        if (is_read) tlbridge_offer(bridge, k % 2, 4, 0, 12, k % 256, k % 4 * 4096, 0xff, NULL, 0, false, NULL);
        else for (unsigned n = 0; n < 512; n++) tlbridge_offer(bridge, k % 2, 0, 0, 12, k % 256, k % 4 * 4096, 0xff, DATA, 8, false, NULL);
        while (k % 3 && tlbridge_pump(bridge, &burst) == TLBRIDGE_SENT) tlbridge_sent_w(bridge, 0, &w);
        for (unsigned n = 0; n < 100 && tlbridge_choose(bridge, (uint64_t)tlbridge_choices(bridge) / 2, &step) == 0; n++) tlbridge_make(bridge, &step);
        tlbridge_answer_b(bridge, k % 16, NULL), tlbridge_answer_r(bridge, k % 16, data, NULL, NULL);
        tlbridge_work(bridge), tlbridge_in_flight(bridge), tlbridge_byte(bridge, 0x10000 + k);
        if (k % 7 == 0) tlbridge_drain(bridge);
        if (tlbridge_take(bridge, k % 2, NULL, &beats) == TLBRIDGE_REPLY) tlbridge_reply_d(bridge, beats - 1, &d);
    }
    well = MOST, refused = 0;
    if (met) fails("steps ask for memory", met);
    if (tlbridge_byte(bridge, 0x10000) != DATA[0]) fails("nothing was written", 0);
    tlbridge_free(bridge);
}

int main(void) {
    long at = 0, faults = 0;
    for (; at < MOST && made(at, 1); at++) made(at, 2);
    for (; faults < MOST && told(faults);) faults++;
    if (at < 20 || at == MOST || faults < 2) failed = 1, printf("%ld growths of memory, and %ld behind a fault\n", at, faults);
    without_memory();
    return failed;
}
