/* Stands for the library in tests/uvm.py: it takes each line, and finds the one wrong that the environment's WRONG names. */
#include <stdint.h>
#include <stdio.h>
#include <stdlib.h>
#include <string.h>

static uint64_t lines, wrong;

void *tlscore_new(const char *setup, int *status, char *fault, uint64_t room)
{
    *status = strncmp(setup, "config ", 7) ? -1001 : 0;
    snprintf(fault, room, "%s", *status ? "script fault: line 1, word 1" : "");
    return *status ? NULL : &lines;
}

int tlscore_line(void *board, const char *line)
{
    const char *at = getenv("WRONG");
    int is_wrong = at && !strcmp(at, line);

    (void)board;
    lines++;
    wrong += is_wrong;
    return is_wrong ? 207 : 0;
}

int64_t tlscore_text(void *board, char *text, uint64_t room)
{
    (void)board;
    return snprintf(text, room, "= wrong %llu reply 7 PAYLOAD\n", (unsigned long long)lines);
}

int64_t tlscore_fault(void *board, char *text, uint64_t room)
{
    (void)board;
    return snprintf(text, room, "no fault");
}

int64_t tlscore_outstanding(void *board)
{
    return board != &lines;
}

int64_t tlscore_open_bursts(void *board)
{
    return board != &lines;
}

int tlscore_judged(void *board, uint64_t *judged, uint64_t *found)
{
    (void)board;
    *judged = lines;
    *found = wrong;
    return 0;
}

int tlscore_compared(void *board, uint64_t *compared, uint64_t *told)
{
    (void)board;
    *compared = *told = 0;
    return 0;
}

void tlscore_free(void *board)
{
    (void)board;
}

/* The other calls of the package, which nobody makes here. */
#define NONE(name) \
    void name(void) \
    { \
        abort(); \
    }
NONE(tlscore_version) NONE(tlscore_a) NONE(tlscore_d) NONE(tlscore_aw) NONE(tlscore_w) NONE(tlscore_b)
NONE(tlscore_ar) NONE(tlscore_r) NONE(tlscore_unknown) NONE(tlscore_fill) NONE(tlscore_time) NONE(tlscore_drained)
NONE(tlscore_reset) NONE(tlscore_end) NONE(tlscore_byte) NONE(tlscore_fail) NONE(tlbridge_new) NONE(tlbridge_free)
NONE(tlbridge_offer) NONE(tlbridge_take) NONE(tlbridge_reply_d) NONE(tlbridge_pump) NONE(tlbridge_sent_w)
NONE(tlbridge_perform) NONE(tlbridge_answer_b) NONE(tlbridge_answer_r) NONE(tlbridge_drain) NONE(tlbridge_choices)
NONE(tlbridge_choose) NONE(tlbridge_make) NONE(tlbridge_byte) NONE(tlbridge_work) NONE(tlbridge_in_flight)
