/* Wrong calls of interfaces/c/zuldegei.h, one by one: each gets its error and changes nothing. Then what is found, asked and told, and
   boards beside each other, also in threads of their own. It prints a line for each that isn't so. */
#include "zuldegei.h"

#include <inttypes.h>
#include <pthread.h>
#include <stdio.h>
#include <string.h>

static int failed;

static void same(const char *name, int64_t got, int64_t wanted) {
    if (got != wanted) failed = 1, printf("%s: %" PRId64 ", not %" PRId64 "\n", name, got, wanted);
}

static void says(const char *name, const char *got, const char *wanted) {
    if (strcmp(got, wanted)) failed = 1, printf("%s: %s, not %s\n", name, got, wanted);
}

static const char SETUP[] = "config 2 4 16 2 16 12 hh\nregion 0 4 10 gpah\npage 10 4 good\n";
static const uint8_t DATA[8] = {0x88, 0x77, 0x66, 0x55, 0x44, 0x33, 0x22, 0x11};
static const uint8_t OTHER[8] = {0x89, 0x77, 0x66, 0x55, 0x44, 0x33, 0x22, 0x11};
static const uint8_t LONG[33];
static const uint64_t OVER = UINT64_C(1) << 32;

/* All that a board tells of itself. */
typedef struct {
    int64_t outstanding, open_bursts, length;
    uint64_t judged, wrong, compared, told;
    int byte;
    char text[256];
} state;

static state state_of(tlscore *board) {
    state now;
    memset(&now, 0, sizeof now);
    now.outstanding = tlscore_outstanding(board), now.open_bursts = tlscore_open_bursts(board);
    same("judged", tlscore_judged(board, &now.judged, &now.wrong), 0);
    same("compared", tlscore_compared(board, &now.compared, &now.told), 0);
    now.byte = tlscore_byte(board, 0x10008);
    now.length = tlscore_text(board, now.text, sizeof now.text);
    return now;
}

/* What the board that wrong calls are made of has told. */
static state before;

static void changes_nothing(tlscore *board, const char *name) {
    state now = state_of(board);
    if (memcmp(&now, &before, sizeof now)) failed = 1, printf("%s: the board has changed\n", name);
}

/* A call that gets an error, and leaves the board as it is. */
#define REFUSED(call, wanted) same(#call, (call), (wanted)), changes_nothing(board, #call)

/* A set-up that is refused: its status, and its fault. */
static void no_board(const char *setup, int wanted, const char *fault) {
    char text[64] = "?";
    int status = 77;
    same(setup ? setup : "no set-up", tlscore_new(setup, &status, text, sizeof text) == NULL, 1);
    same(setup ? setup : "no set-up", status, wanted), says(setup ? setup : "no set-up", text, fault);
}

static void setups(void) {
    static char wide[256], spaced[256], ended[256];
    char text[8] = "?";
    int status = 77;
    no_board(NULL, TLSCORE_NULL, "");
    no_board("", TLSCORE_WORD - 1, "script fault: line 1, word 1");
    no_board("\n\n# nothing\n", TLSCORE_WORD - 1, "script fault: line 4, word 1");
    no_board("config 2 4 16 2 16 12", TLSCORE_WORD - 8, "script fault: line 1, word 8");
    no_board("config 2 4 16 2 16 12 hh\npage 10 zz good\n", TLSCORE_WORD - 3, "script fault: line 2, word 3");
    no_board("config 2 4 16 2 16 12 hh\nconfig 2 4 16 2 16 12 hh\n", TLSCORE_WORD - 1, "script fault: line 2, word 1");
    no_board("config 2 4 999 2 16 12 hh", TLSCORE_SETUP, "set-up fault: BadConfig 0");
    no_board("config 2 4 16 2 16 12 hh\nmem 10000\n", TLSCORE_WORD - 1, "script fault: line 2, word 1");
    no_board("config 2 4 16 2 16 12 hh\nD 0 0 0 3 5 0 0 0\n", TLSCORE_WORD - 1, "script fault: line 2, word 1");
    no_board("config 2 4 16 2 16 12 hh\nfill 10000 0\n", TLSCORE_WORD - 2, "script fault: line 2, word 2");
    no_board("config 2 4 16 2 16 12 hh\001\n", TLSCORE_WORD, "script fault: line 1, word 0");
    snprintf(wide, sizeof wide, "config 2 4 16 2 16 12 hh\n#%0128d\n", 0);
    no_board(wide, TLSCORE_WORD, "script fault: line 2, word 0");
    snprintf(ended, sizeof ended, "config 2 4 16 2 16 12 hh\n#%0126d\r\r\n", 0);
    no_board(ended, TLSCORE_WORD, "script fault: line 2, word 0");
    same("cut", tlscore_new("config", &status, text, sizeof text) == NULL, 1), says("cut", text, "script ");
    same("no room to tell", tlscore_new(SETUP, &status, NULL, 8) == NULL, 1), same("no room to tell", status, TLSCORE_NULL);
    same("nobody asks", tlscore_new("config", NULL, NULL, 0) == NULL, 1);
    snprintf(spaced, sizeof spaced, "%s#%0127d\r\n\nfill 10008 89", SETUP, 0);
    tlscore *board = tlscore_new(spaced, &status, text, sizeof text);
    same("the longest line", board != NULL, 1), same("the longest line", status, TLSCORE_OK), says("the longest line", text, "");
    same("filled", tlscore_byte(board, 0x10008), 0x89), tlscore_free(board), tlscore_free(NULL);
}

static void nulls(tlscore *board) {
    uint64_t n;
    REFUSED(tlscore_a(NULL, 0, 0, 0, 3, 5, 8, 0xff, DATA, 8, 0, false), TLSCORE_NULL);
    REFUSED(tlscore_d(NULL, 0, 0, 0, 3, 5, false, DATA, 8, 0, false), TLSCORE_NULL);
    REFUSED(tlscore_aw(NULL, 0, 8, 0, 3, 1), TLSCORE_NULL);
    REFUSED(tlscore_w(NULL, DATA, 8, 0, 0, true), TLSCORE_NULL);
    REFUSED(tlscore_b(NULL, 0, 0), TLSCORE_NULL);
    REFUSED(tlscore_ar(NULL, 0, 8, 0, 3, 1), TLSCORE_NULL);
    REFUSED(tlscore_r(NULL, 0, DATA, 8, 0, 0, true), TLSCORE_NULL);
    REFUSED(tlscore_unknown(NULL, 0, 0), TLSCORE_NULL);
    REFUSED(tlscore_fill(NULL, 0x10000, DATA, 8), TLSCORE_NULL);
    REFUSED(tlscore_time(NULL, 0), TLSCORE_NULL);
    REFUSED(tlscore_drained(NULL), TLSCORE_NULL);
    REFUSED(tlscore_reset(NULL), TLSCORE_NULL);
    REFUSED(tlscore_end(NULL), TLSCORE_NULL);
    REFUSED(tlscore_line(NULL, "= reset"), TLSCORE_NULL);
    REFUSED(tlscore_text(NULL, NULL, 0), TLSCORE_NULL);
    REFUSED(tlscore_fault(NULL, NULL, 0), TLSCORE_NULL);
    REFUSED(tlscore_outstanding(NULL), TLSCORE_NULL);
    REFUSED(tlscore_open_bursts(NULL), TLSCORE_NULL);
    REFUSED(tlscore_judged(NULL, &n, &n), TLSCORE_NULL);
    REFUSED(tlscore_compared(NULL, &n, &n), TLSCORE_NULL);
    REFUSED(tlscore_byte(NULL, 0x10008), TLSCORE_NULL);
    REFUSED(tlscore_a(board, 0, 0, 0, 3, 6, 8, 0xff, NULL, 8, 0, false), TLSCORE_NULL);
    REFUSED(tlscore_d(board, 0, 0, 0, 3, 5, false, NULL, 8, 0, false), TLSCORE_NULL);
    REFUSED(tlscore_w(board, NULL, 8, 0, 0xff, true), TLSCORE_NULL);
    REFUSED(tlscore_r(board, 0, NULL, 8, 0, 0, true), TLSCORE_NULL);
    REFUSED(tlscore_fill(board, 0x10000, NULL, 8), TLSCORE_NULL);
    REFUSED(tlscore_line(board, NULL), TLSCORE_NULL);
    REFUSED(tlscore_text(board, NULL, 8), TLSCORE_NULL);
    REFUSED(tlscore_fault(board, NULL, 8), TLSCORE_NULL);
    REFUSED(tlscore_judged(board, NULL, &n), TLSCORE_NULL);
    REFUSED(tlscore_judged(board, &n, NULL), TLSCORE_NULL);
    REFUSED(tlscore_compared(board, NULL, &n), TLSCORE_NULL);
    REFUSED(tlscore_compared(board, &n, NULL), TLSCORE_NULL);
}

static void tilelink_ranges(tlscore *board) {
    REFUSED(tlscore_a(board, 256, 0, 0, 3, 6, 8, 0xff, DATA, 8, 0, false), TLSCORE_RANGE);
    REFUSED(tlscore_a(board, 0, 256, 0, 3, 6, 8, 0xff, DATA, 8, 0, false), TLSCORE_RANGE);
    REFUSED(tlscore_a(board, 0, 0, 256, 3, 6, 8, 0xff, DATA, 8, 0, false), TLSCORE_RANGE);
    REFUSED(tlscore_a(board, 0, 0, 0, 256, 6, 8, 0xff, DATA, 8, 0, false), TLSCORE_RANGE);
    REFUSED(tlscore_a(board, 0, 0, 0, 3, 256, 8, 0xff, DATA, 8, 0, false), TLSCORE_RANGE);
    REFUSED(tlscore_a(board, 0, 0, 0, 3, 6, OVER, 0xff, DATA, 8, 0, false), TLSCORE_RANGE);
    REFUSED(tlscore_a(board, 0, 0, 0, 3, 6, 8, 0x100, DATA, 8, 0, false), TLSCORE_RANGE);
    REFUSED(tlscore_a(board, 0, 0, 0, 3, 6, 8, 0xff, LONG, 9, 0, false), TLSCORE_RANGE);
    REFUSED(tlscore_a(board, 0, 0, 0, 3, 6, 8, 0xff, DATA, 4, 0, false), TLSCORE_RANGE);
    REFUSED(tlscore_a(board, 0, 3, 0, 3, 6, 8, 0xff, DATA, 0, 0, false), TLSCORE_RANGE);
    REFUSED(tlscore_a(board, 0, 4, 0, 3, 6, 8, 0xff, DATA, 4, 0, false), TLSCORE_RANGE);
    REFUSED(tlscore_a(board, 0, 4, 0, 3, 6, 8, 0xff, NULL, 0, 1, false), TLSCORE_RANGE);
    REFUSED(tlscore_a(board, 0, 0, 0, 3, 6, 8, 0xff, DATA, 8, 0x100, false), TLSCORE_RANGE);
    REFUSED(tlscore_d(board, 256, 0, 0, 3, 5, false, DATA, 8, 0, false), TLSCORE_RANGE);
    REFUSED(tlscore_d(board, 0, 256, 0, 3, 5, false, DATA, 8, 0, false), TLSCORE_RANGE);
    REFUSED(tlscore_d(board, 0, 0, 256, 3, 5, false, DATA, 8, 0, false), TLSCORE_RANGE);
    REFUSED(tlscore_d(board, 0, 0, 0, 256, 5, false, DATA, 8, 0, false), TLSCORE_RANGE);
    REFUSED(tlscore_d(board, 0, 0, 0, 3, 256, false, DATA, 8, 0, false), TLSCORE_RANGE);
    REFUSED(tlscore_d(board, 0, 0, 0, 3, 5, false, LONG, 16, 0, false), TLSCORE_RANGE);
    REFUSED(tlscore_d(board, 0, 1, 0, 3, 5, false, NULL, 0, 0, false), TLSCORE_RANGE);
    REFUSED(tlscore_d(board, 0, 0, 0, 3, 5, false, DATA, 8, 0x100, false), TLSCORE_RANGE);
    REFUSED(tlscore_unknown(board, 7, 0), TLSCORE_RANGE);
    REFUSED(tlscore_unknown(board, TLSCORE_A, 256), TLSCORE_RANGE);
    REFUSED(tlscore_unknown(board, TLSCORE_AW, 1), TLSCORE_RANGE);
}

static void axi_ranges(tlscore *board) {
    REFUSED(tlscore_aw(board, 256, 0x10008, 0, 3, 1), TLSCORE_RANGE);
    REFUSED(tlscore_aw(board, 0, OVER, 0, 3, 1), TLSCORE_RANGE);
    REFUSED(tlscore_aw(board, 0, 0x10008, 256, 3, 1), TLSCORE_RANGE);
    REFUSED(tlscore_aw(board, 0, 0x10008, 0, 256, 1), TLSCORE_RANGE);
    REFUSED(tlscore_aw(board, 0, 0x10008, 0, 3, 256), TLSCORE_RANGE);
    REFUSED(tlscore_ar(board, 256, 0x10008, 0, 3, 1), TLSCORE_RANGE);
    REFUSED(tlscore_ar(board, 0, OVER, 0, 3, 1), TLSCORE_RANGE);
    REFUSED(tlscore_ar(board, 0, 0x10008, 256, 3, 1), TLSCORE_RANGE);
    REFUSED(tlscore_ar(board, 0, 0x10008, 0, 256, 1), TLSCORE_RANGE);
    REFUSED(tlscore_ar(board, 0, 0x10008, 0, 3, 256), TLSCORE_RANGE);
    REFUSED(tlscore_w(board, DATA, 8, 0, 0x100, true), TLSCORE_RANGE);
    REFUSED(tlscore_w(board, DATA, 8, 0x100, 0, true), TLSCORE_RANGE);
    REFUSED(tlscore_w(board, DATA, 4, 0, 0xf, true), TLSCORE_RANGE); /* the port has 64 bits */
    REFUSED(tlscore_w(board, DATA, 4, 0, 0x10, true), TLSCORE_RANGE);
    REFUSED(tlscore_w(board, DATA, 4, 0x10, 0, true), TLSCORE_RANGE);
    REFUSED(tlscore_w(board, DATA, 0, 0, 0, true), TLSCORE_RANGE);
    REFUSED(tlscore_w(board, LONG, 16, 0, 0, true), TLSCORE_RANGE);
    REFUSED(tlscore_b(board, 256, 0), TLSCORE_RANGE);
    REFUSED(tlscore_b(board, 0, 4), TLSCORE_RANGE);
    REFUSED(tlscore_r(board, 256, DATA, 8, 0, 0, true), TLSCORE_RANGE);
    REFUSED(tlscore_r(board, 0, DATA, 8, 0, 4, true), TLSCORE_RANGE);
    REFUSED(tlscore_r(board, 0, DATA, 0, 0, 0, true), TLSCORE_RANGE);
    REFUSED(tlscore_r(board, 0, DATA, 8, 0x100, 0, true), TLSCORE_RANGE);
    REFUSED(tlscore_r(board, 0, DATA, 4, 0, 0, true), TLSCORE_RANGE);
    REFUSED(tlscore_r(board, 0, DATA, 4, 0x10, 0, true), TLSCORE_RANGE);
}

static void other_ranges(tlscore *board) {
    static char wide[256];
    REFUSED(tlscore_fill(board, 0x10000, DATA, 0), TLSCORE_RANGE);
    REFUSED(tlscore_fill(board, 0x10000, LONG, 33), TLSCORE_RANGE);
    REFUSED(tlscore_fill(board, OVER, DATA, 8), TLSCORE_RANGE);
    REFUSED(tlscore_fill(board, 0x10000, DATA, 8), TLSCORE_WORD - 1); /* a beat was judged */
    REFUSED(tlscore_byte(board, OVER), TLSCORE_RANGE);
    REFUSED(tlscore_byte(board, 0), TLSCORE_NO_BYTE);
    REFUSED(tlscore_line(board, "B 0 okay"), TLSCORE_WORD - 3);
    REFUSED(tlscore_line(board, "page 10 4 good"), TLSCORE_WORD - 1);
    REFUSED(tlscore_line(board, "= reset\n"), TLSCORE_WORD);
    snprintf(wide, sizeof wide, "#%0128d", 0);
    REFUSED(tlscore_line(board, wide), TLSCORE_WORD);
    REFUSED(tlscore_line(board, "A 0 0 0 3 6 8 1ff 0 0"), TLSCORE_WORD - 8);
}

/* The text of what was found last, or of a fault, whole, cut, and where nobody has room for it. */
static void tells(const char *name, int64_t (*asked)(tlscore *, char *, size_t), tlscore *board, const char *wanted) {
    char text[256], cut[256];
    int64_t length = (int64_t)strlen(wanted);
    for (size_t room = 1; room <= sizeof text; room += room < 12 ? 1 : 61) {
        same(name, asked(board, text, room), length), snprintf(cut, room, "%s", wanted), says(name, text, cut);
    }
    same(name, asked(board, text, sizeof text), length), says(name, text, wanted), same(name, asked(board, NULL, 0), length);
}

/* What is found, asked and told behind all of them; the set-up has three lines. */
static void found(tlscore *board) {
    uint64_t n, m;
    tells("fault", tlscore_fault, board, "script fault: line 8, word 8");
    same("held", tlscore_line(board, "A 1 7 0 3 9 8 ff 0 0"), TLSCORE_OK);
    tells("nothing yet", tlscore_text, board, ""), tells("no fault", tlscore_fault, board, "");
    same("of what was held", tlscore_time(board, 40), TLSCORE_REQUEST + 1);
    tells("of what was held", tlscore_text, board, "= wrong 8 request 1 OPCODE\n");
    same("get", tlscore_a(board, 1, 4, 0, 3, 7, 8, 0xff, NULL, 0, 0, false), TLSCORE_OK), tells("get", tlscore_text, board, "");
    same("acknowledged", tlscore_d(board, 0, 0, 0, 3, 5, false, NULL, 0, 0, false), TLSCORE_OK);
    same("wrong", tlscore_d(board, 1, 1, 0, 3, 7, false, OTHER, 8, 0, false), TLSCORE_REPLY + 7);
    tells("wrong", tlscore_text, board, "= wrong 12 reply 7 PAYLOAD expected D 1 1 0 3 7 0 1122334455667788 0 at 40\n");
    same("write data alone", tlscore_w(board, DATA, 8, 0, 0xf, true), TLSCORE_AXI + 6);
    same("no client", tlscore_unknown(board, TLSCORE_D, 2), TLSCORE_NO_CLIENT), same("x", tlscore_unknown(board, TLSCORE_R, 0), TLSCORE_AXI + 13);
    same("counts", tlscore_judged(board, &n, &m), 0), same("judged", (int64_t)n, 11), same("wrong beats", (int64_t)m, 6);
    same("counts", tlscore_compared(board, &n, &m), 0), same("compared", (int64_t)n, 8), same("of", (int64_t)m, 8);
    same("put", tlscore_a(board, 0, 0, 0, 3, 5, 8, 0xff, OTHER, 8, 0, false), TLSCORE_OK);
    same("end", tlscore_end(board), TLSCORE_REPLY + 9), same("behind", tlscore_end(board), TLSCORE_WORD - 1);
    tells("end", tlscore_text, board, "= wrong 17 reply 9 UNANSWERED client 0 source 5 at 40\n= wrong 17 axi 14 UNANSWERED write 0 at 40\n");
}

/* An AXI4 port of 32 bits, by set-ups that say so otherwise, and of 64: whether it takes four bytes of write data without an address. */
static void widths(void) {
    static const struct {
        const char *setup;
        int wanted;
    } given[] = {{"config 2 4 16 2 16 12 hh 4", TLSCORE_AXI + 6}, {"# wide\r\n\n  #\n  config 2 4  16 2 16 12 hh  004  \r\n", TLSCORE_AXI + 6},
                 {"config 2 4 16 2 16 12 hh", TLSCORE_RANGE}, {"config 2 4 16 2 16 12 hh 8\n# 4\n", TLSCORE_RANGE},
                 {"config 2 4 16 2 16 12 hh \n# 4 4 4 4 4 4 4 4 4\npage 10 4 good\n", TLSCORE_RANGE}};
    for (size_t k = 0; k < sizeof given / sizeof *given; k++) {
        tlscore *board = tlscore_new(given[k].setup, NULL, NULL, 0);
        same(given[k].setup, tlscore_w(board, DATA, 4, 0, 0xf, true), given[k].wanted);
        same(given[k].setup, tlscore_r(board, 0, DATA, 4, 0, 0, true), given[k].wanted == TLSCORE_RANGE ? TLSCORE_RANGE : TLSCORE_AXI + 10);
        same(given[k].setup, tlscore_w(board, DATA, 8, 0, 0xf, true), TLSCORE_AXI + 6);
        tlscore_free(board);
    }
}

/* Beats of a board of its own, in a thread of its own: how many of them are wrong. */
static void *alone(void *wrong) {
    tlscore *board = tlscore_new(SETUP, NULL, NULL, 0);
    uint64_t judged = 0;
    for (unsigned k = 0; board && k < 2000; k++) {
        tlscore_a(board, 0, 0, 0, 3, 5, k % 512 * 8, 0xff, DATA, 8, 0, false);
        tlscore_d(board, 0, 0, 0, 3, 5, false, NULL, 0, 0, false);
        tlscore_a(board, 1, 4, 0, 3, k % 256, k % 512 * 8, 0xff, NULL, 0, 0, false);
        tlscore_d(board, 1, 1, 0, 3, k % 256, false, k % 4 ? DATA : OTHER, 8, 0, false);
    }
    tlscore_judged(board, &judged, (uint64_t *)wrong);
    tlscore_free(board);
    return NULL;
}

static void threads(void) {
    pthread_t started[4];
    uint64_t wrong[4] = {0};
    for (int k = 0; k < 4; k++) same("a thread", pthread_create(&started[k], NULL, alone, &wrong[k]), 0);
    for (int k = 0; k < 4; k++) pthread_join(started[k], NULL), same("wrong in a thread", (int64_t)wrong[k], 500);
}

/* A text in each room: as much as it has place for, a zero behind that, and nothing behind the room. */
static void rooms(tlscore *board) {
    static const char whole[] = "= wrong 7 reply 1 UNASKED\n";
    const size_t length = sizeof whole - 1;
    for (size_t room = 0; room < length + 4; room++) {
        char text[64];
        const size_t shown = room > length ? length : room ? room - 1 : 0, behind = room ? shown + 1 : 0;
        memset(text, '~', sizeof text);
        same("length", tlscore_text(board, text, room), (int64_t)length), same("shown", memcmp(text, whole, shown), 0);
        same("its end", room ? text[shown] : 0, 0), same("behind it", text[behind], '~');
    }
}

int main(void) {
    tlscore *board = tlscore_new(SETUP, NULL, NULL, 0), *other = tlscore_new(SETUP, NULL, NULL, 0);
    if (!board || !other) return puts("no board"), 1;
    says("version", tlscore_version(), ZULDEGEI_VERSION), setups(), widths();
    same("filled", tlscore_fill(other, 0x10008, OTHER, 8), 0), same("no page", tlscore_fill(other, 0, DATA, 8), TLSCORE_WORD - 2);
    same("put", tlscore_a(board, 0, 0, 0, 3, 5, 8, 0xff, DATA, 8, 0, false), 0);
    same("sent", tlscore_aw(board, 0, 0x10008, 0, 3, 1), 0);
    same("alone", tlscore_w(board, DATA, 8, 0, 0xff, true), 0);
    same("no such reply", tlscore_d(board, 1, 0, 0, 3, 5, false, NULL, 0, 0, false), TLSCORE_REPLY + 1);
    before = state_of(board);
    same("outstanding", before.outstanding, 1), same("open", before.open_bursts, 1), same("judged", (int64_t)before.judged, 4);
    says("text", before.text, "= wrong 7 reply 1 UNASKED\n"), rooms(board);
    nulls(board), tilelink_ranges(board), axi_ranges(board), other_ranges(board), found(board);
    same("byte of the other", tlscore_byte(other, 0x10008), 0x89), same("its requests", tlscore_outstanding(other), 0);
    tlscore_free(board), tlscore_free(other), threads();
    return failed;
}
