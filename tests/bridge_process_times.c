/* The workloads `requests` and `drains` of crates/benches by the calls of the model in C: so many Puts, or Gets, of eight bytes at a time are
   offered, drained, and their replies taken. It prints how many replies there were, and how many steps were made.

       bridge_process_times WORKLOAD SIZE TIMES */
#include "zuldegei.h"

#include <inttypes.h>
#include <stdio.h>
#include <stdlib.h>
#include <string.h>

/* The world of crates/benches/src/worlds.rt. */
static const char *const SETUP = "config 8 8 16 4 256 12 hhhhhhhh\nregion 0 64 40 gpah\npage 40 64 good\n";

int main(int count, char **given) {
    if (count != 4) return 6;
    unsigned opcode = strcmp(given[1], "drains") ? 0 : 4, size = (unsigned)atoi(given[2]), times = (unsigned)atoi(given[3]);
    uint64_t replies = 0, steps = 0;
    tlbridge *bridge = tlbridge_new(SETUP, NULL, NULL, 0);
    for (unsigned n = 0; n < times; n++) {
        for (unsigned k = 0; k < size; k++) {
            uint8_t data[8] = {(uint8_t)k};
            steps += tlbridge_offer(bridge, k % 8, opcode, 0, 3, k / 8 % 8, k % 64 * 4104, 0xff, data, 8, false, NULL) == TLBRIDGE_ACCEPTED;
        }
        steps += (uint64_t)tlbridge_drain(bridge);
        for (unsigned k = 0; k < size; k++) replies += tlbridge_take(bridge, k % 8, NULL, NULL) == TLBRIDGE_REPLY;
    }
    tlbridge_free(bridge);
    printf("%" PRIu64 " %" PRIu64 "\n", replies, steps + replies);
    return 0;
}
