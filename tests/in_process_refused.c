/* Each malloc and realloc of a run refused, alone, and with the next one too: the call that asked for it answers TLSCORE_MEMORY, nothing
   that the board tells has changed, and made again the call does what it is to do. One alone isn't seen where a list of the set-up is
   copied, once in a run: there the toolchain's library asks for the room that the list may need, and where that is refused for what it
   needs now. It prints a line for each that doesn't do so. */
#include "refused_growths.h"
#include "zuldegei.h"

#include <inttypes.h>
#include <stdio.h>
#include <string.h>

enum { STEPS = 10 };

/* All that a board tells of itself without memory. */
typedef struct {
    int64_t outstanding, open_bursts;
    uint64_t judged, wrong, compared, told;
    int bytes[3];
} state;

static state state_of(tlscore *board) {
    state now;
    memset(&now, 0, sizeof now);
    now.outstanding = tlscore_outstanding(board), now.open_bursts = tlscore_open_bursts(board);
    tlscore_judged(board, &now.judged, &now.wrong), tlscore_compared(board, &now.compared, &now.told);
    for (unsigned k = 0; k < 3; k++) now.bytes[k] = tlscore_byte(board, 0x10008 + k * 0x1000);
    return now;
}

static const uint8_t DATA[8] = {0x88, 0x77, 0x66, 0x55, 0x44, 0x33, 0x22, 0x11}, ZERO[8] = {0};
static const char SETUP[] = "config 2 4 16 2 16 12 hh\nregion 0 4 10 gpah\npage 10 4 good\naxi strict\n";

static int step(tlscore *board, int number) {
    switch (number) {
    case 0: return tlscore_fill(board, 0x11000, DATA, 8);
    case 1: return tlscore_line(board, "A 0 0 0 3 5 00000008 ff 1122334455667788 0");
    case 2: return tlscore_time(board, 10);
    case 3: return tlscore_a(board, 0, 0, 0, 3, 6, 0x2008, 0xff, DATA, 8, 0, false);
    case 4: return tlscore_aw(board, 0, 0x10008, 0, 3, 1);
    case 5: return tlscore_w(board, DATA, 8, 0, 0xff, true);
    case 6: return tlscore_d(board, 0, 0, 0, 3, 5, false, NULL, 0, 0, false);
    case 7: return tlscore_a(board, 1, 4, 0, 3, 7, 0x1000, 0xff, NULL, 0, 0, false);
    case 8: return tlscore_d(board, 1, 1, 0, 3, 7, false, ZERO, 8, 0, false);
    default: return tlscore_end(board);
    }
}

static const int WANTED[STEPS] = {0, 0, 0, 0, 0, 0, 0, 0, TLSCORE_REPLY + 7, TLSCORE_REPLY + 9};
static const char LAST[] = "= wrong 15 reply 9 UNANSWERED client 0 source 6 at 10\n= wrong 15 axi 14 UNANSWERED write 0 at 10\n";

static int failed, seen;
static const char *profile;
static long at;

static void fails(const char *why, int number) { failed = 1, printf("%s, %ld: %s, in step %d\n", profile, at, why, number); }

/* The fault that is told of refused memory, where no more is refused. */
static void tells(tlscore *board, int number) {
    char text[32];
    if (refused == 0 && (tlscore_fault(board, text, sizeof text) < 0 || strcmp(text, "out of memory"))) fails("another fault", number);
}

/* Makes a step until memory isn't refused. */
static void tried(tlscore *board, int number) {
    int answer;
    for (;;) {
        state before = state_of(board);
        answer = step(board, number);
        if (answer != TLSCORE_MEMORY) break;
        state after = state_of(board);
        seen++;
        if (memcmp(&before, &after, sizeof before)) fails("something has changed", number);
        tells(board, number);
    }
    if (answer != WANTED[number]) fails("another answer", number);
}

static void texts(tlscore *board) {
    char text[256];
    int64_t length;
    for (int k = 0; k < 2; k++) {
        while ((length = tlscore_text(board, text, sizeof text)) == TLSCORE_MEMORY) seen++;
        if (length != (int64_t)strlen(LAST) || strcmp(text, LAST)) fails(text, STEPS);
        if (tlscore_end(board) != TLSCORE_WORD - 1) fails("no fault", STEPS);
        while ((length = tlscore_fault(board, text, sizeof text)) == TLSCORE_MEMORY) seen++;
        if (strcmp(text, "script fault: line 16, word 1")) fails(text, STEPS);
    }
}

/* A run in which so many are refused in a row: how many of them its calls answered by TLSCORE_MEMORY, or had no need of. */
static int run(int count) {
    char setup[256], fault[32];
    int status;
    tlscore *board;
    snprintf(setup, sizeof setup, "%sprofile %s\n", SETUP, profile);
    well = at, refused = count, met = seen = 0;
    while (!(board = tlscore_new(setup, &status, fault, sizeof fault))) {
        if (status != TLSCORE_MEMORY || strcmp(fault, "out of memory")) return fails("no board", -1), 0;
        seen++;
    }
    for (int number = 0; number < STEPS; number++) tried(board, number);
    texts(board);
    well = MOST, refused = 0;
    tlscore_free(board);
    return met;
}

static int put(tlscore *board) { return tlscore_a(board, 0, 0, 0, 3, 5, 8, 0xff, DATA, 8, 0, false); }

/* Whether one was refused from a place on to the beat that is called behind one that a line holds, which is wrong: what was found of that
   is told, be it by the call itself or behind its refusal. */
static bool held_is_told(void) {
    char text[64];
    well = MOST, refused = 0;
    tlscore *board = tlscore_new(SETUP, NULL, NULL, 0);
    if (tlscore_line(board, "A 1 7 0 3 9 8 ff 0 0")) fails("it isn't held", 0);
    well = at, refused = 1, met = 0;
    int answer = put(board), wanted = met ? TLSCORE_MEMORY : TLSCORE_REQUEST + 1;
    well = MOST, refused = 0;
    if (answer != wanted) fails("another answer behind a held beat", 1);
    if (tlscore_text(board, text, sizeof text) < 0 || strcmp(text, "= wrong 5 request 1 OPCODE\n")) fails("what was held is lost", 1);
    if (met && put(board)) fails("another answer", 2);
    tlscore_free(board);
    return met;
}

int main(void) {
    static const char *const PROFILES[] = {"bridge", "tilelink"};
    for (int k = 0; k < 2; k++) {
        int unseen = 0;
        profile = PROFILES[k];
        for (at = 0; at < MOST && run(1); at++) {
            unseen += seen == 0;
            if (run(2) == 2 && seen < 1) fails("two in a row aren't seen", -1);
        }
        if (at < 100 || at == MOST || unseen != 1) failed = 1, printf("%s: %ld growths of memory, %d unseen\n", profile, at, unseen);
    }
    for (at = 0; held_is_told();) at++;
    if (at == 0) failed = 1, puts("no growth behind a held beat");
    return failed;
}
