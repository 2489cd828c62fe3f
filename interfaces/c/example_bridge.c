/* Drives the model of a bridge: a Put and a Get of its bytes, which go to the memory in the order in which the memory likes to carry them
   out. Whatever that is, the Get is told what the Put wrote, since it was accepted behind it. */
#include "zuldegei.h"

#include <inttypes.h>
#include <stdio.h>

static const uint8_t PUT[8] = {0x88, 0x77, 0x66, 0x55, 0x44, 0x33, 0x22, 0x11};

/* The bridge: two clients, and four pages of memory behind one region (docs/SCRIPT.md, "Set-up lines"). */
static const char *const SETUP = "config 2 4 16 2 16 12 hh\n"
                                 "region 0 4 10 gpah\n"
                                 "page 10 4 good\n";

/* Makes steps of bridge and memory, each time the last of those that are possible, and tells how many. */
static int last_first(tlbridge *bridge) {
    struct tlbridge_step step;
    int steps = 0;
    for (int64_t left; (left = tlbridge_choices(bridge)) > 0; steps++) {
        tlbridge_choose(bridge, (uint64_t)left - 1, &step);
        tlbridge_make(bridge, &step);
    }
    return steps;
}

/* Takes a reply, and prints its beats. */
static void take(tlbridge *bridge, unsigned client) {
    struct tlbridge_d beat;
    uint64_t number;
    unsigned beats;
    if (tlbridge_take(bridge, client, &number, &beats) != TLBRIDGE_REPLY) return;
    for (unsigned k = 0; k < beats; k++) {
        tlbridge_reply_d(bridge, k, &beat);
        printf("request %" PRIu64 ": opcode %u, source %u, denied %u, data", number, beat.opcode, beat.source, beat.denied);
        for (int lane = 7; lane >= 0; lane--) printf(" %02x", beat.data[lane]);
        puts("");
    }
}

int main(void) {
    char fault[128];
    int status;
    tlbridge *bridge = tlbridge_new(SETUP, &status, fault, sizeof fault);
    if (!bridge) {
        fprintf(stderr, "%s\n", fault);
        return 2;
    }
    tlbridge_offer(bridge, 0, 0, 0, 3, 5, 0x8, 0xff, PUT, 8, false, NULL);
    tlbridge_offer(bridge, 1, 4, 0, 3, 7, 0x8, 0xff, NULL, 0, false, NULL);
    printf("%d steps\n", last_first(bridge));
    take(bridge, 0), take(bridge, 1);
    tlbridge_free(bridge);
    return 0;
}
