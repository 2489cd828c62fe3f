/* Judges what was observed at the ports of a bridge, call by call: a Put and its answer, and a Get that shows another byte. */
#include "zuldegei.h"

#include <stdio.h>

static const uint8_t PUT[8] = {0x88, 0x77, 0x66, 0x55, 0x44, 0x33, 0x22, 0x11};
static const uint8_t SHOWN[8] = {0x89, 0x77, 0x66, 0x55, 0x44, 0x33, 0x22, 0x11};
static const uint8_t NOTHING[8] = {0};

/* The bridge: two clients, and four pages of memory behind one region (docs/SCRIPT.md, "Set-up lines"). */
static const char *const SETUP = "config 2 4 16 2 16 12 hh\n"
                                 "region 0 4 10 gpah\n"
                                 "page 10 4 good\n"
                                 "profile tilelink\n";

/* Prints what a call found, and tells whether it was anything. */
static int shown(tlscore *board, int time, int answer) {
    char text[256];
    if (answer > 0 && tlscore_text(board, text, sizeof text) > 0) printf("%d ns: %d, %s", time, answer, text);
    return answer != 0;
}

int main(void) {
    char fault[128];
    int status, wrong = 0;
    tlscore *board = tlscore_new(SETUP, &status, fault, sizeof fault);
    if (!board) {
        fprintf(stderr, "%s\n", fault);
        return 2;
    }
    tlscore_time(board, 10);
    wrong += shown(board, 10, tlscore_a(board, 0, 0, 0, 3, 5, 0x8, 0xff, PUT, 8, 0, false));
    tlscore_time(board, 20);
    wrong += shown(board, 20, tlscore_d(board, 0, 0, 0, 3, 5, false, NOTHING, 8, 0, false));
    tlscore_time(board, 30);
    wrong += shown(board, 30, tlscore_a(board, 1, 4, 0, 3, 7, 0x8, 0xff, NOTHING, 8, 0, false));
    tlscore_time(board, 40);
    wrong += shown(board, 40, tlscore_d(board, 1, 1, 0, 3, 7, false, SHOWN, 8, 0, false));
    tlscore_free(board);
    return wrong > 0;
}
