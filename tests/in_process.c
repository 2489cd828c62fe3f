/* Judges the observation on standard input as tlscore does, by the library in the process.

       in_process lines      hands over each line behind the set-up as it is
       in_process numbers    hands over each beat, filling, time and answer by numbers

   The set-up is all that stands ahead of the first line that is none of it. A line that isn't a right one of its kind goes over as it is,
   and so do comments, questions and answers that settle or withdraw a beat; with them each line counts as one, as by lines. Each answer
   has to be that of the first line of the text: a call of which it isn't is named, and the status is 9. */
#define _POSIX_C_SOURCE 200809L /* strdup */
#include "zuldegei.h"

#include <inttypes.h>
#include <stdio.h>
#include <stdlib.h>
#include <string.h>

/* BY_LINE is no answer of the library: a line that isn't handed over by numbers. */
enum { MOST_WORDS = 40, ROOM = 1 << 20, BY_LINE = -999 };

static char text[ROOM];

/* The words of a line, how many there are, and which comes next; `right` until one isn't what it should be. */
typedef struct {
    int count, next;
    bool right;
    char *at[MOST_WORDS];
    char room[4096];
} words;

static void split(words *in, const char *line) {
    in->count = in->next = 0;
    in->right = true;
    snprintf(in->room, sizeof in->room, "%s", line);
    for (char *at = strtok(in->room, " \t"); at && in->count < MOST_WORDS; at = strtok(NULL, " \t")) in->at[in->count++] = at;
}

static bool is(const words *in, int place, const char *word) { return place < in->count && !strcmp(in->at[place], word); }

/* The next word, which has only these characters, and at most so many. */
static const char *word(words *in, const char *characters, size_t most) {
    const char *found = in->next < in->count ? in->at[in->next++] : "";
    size_t length = strlen(found);
    if (!length || length > most || found[strspn(found, characters)]) in->right = false;
    return found;
}

static uint64_t number(words *in, const char *digits, int base, int bits) {
    uint64_t value = strtoull(word(in, digits, 16), NULL, base);
    if (bits < 64 && value >> bits) in->right = false;
    return value;
}

static uint64_t decimal(words *in, int bits) { return number(in, "0123456789", 10, bits); }
static uint64_t hexadecimal(words *in, int bits) { return number(in, "0123456789abcdefABCDEF", 16, bits); }
static unsigned field(words *in) { return (unsigned)decimal(in, 8); }

/* Whether every word was right, and none is left. */
static bool is_whole(const words *in) { return in->right && in->next == in->count; }

/* A payload by lanes, of which nobody knows those that have a digit x or z. Its bytes may be fewer than 8 where the others are 0. */
typedef struct {
    uint8_t bytes[8];
    uint64_t unknown;
    size_t length;
} payload;

static payload data_of(words *in) {
    payload data = {{0}, 0, 0};
    const char *digits = word(in, "0123456789abcdefABCDEFxXzZ", 16);
    size_t length = in->right ? strlen(digits) : 0;
    for (size_t k = 0; k < length; k++) {
        char digit[2] = {digits[length - 1 - k], 0};
        if (strchr("xXzZ", digit[0])) data.unknown |= 1u << k / 2;
        else data.bytes[k / 2] |= (uint8_t)(strtoul(digit, NULL, 16) << (k % 2 ? 4 : 0));
    }
    if (length == 1 && data.unknown) data.unknown = 0xff; /* one alone stands for all of it */
    for (size_t k = 0; k < 8; k++) if (data.bytes[k] || data.unknown >> k & 1) data.length = k + 1;
    return data;
}

/* Whether the AXI4 port has 32 bits, as the set-up says. */
static bool is_narrow;

/* How many bytes of a payload are handed over: as few as the call takes. */
static size_t given(const payload *data, bool may_be_none) { return data->length || !may_be_none ? 8 : 0; }
static size_t half(const payload *data, uint64_t lanes) { return !is_narrow || data->length > 4 || lanes >> 4 ? 8 : 4; }

static unsigned response(words *in) {
    static const char *const names[] = {"OKAY", "EXOKAY", "SLVERR", "DECERR"};
    const char *found = word(in, "ACDEKLORSVXY", 6);
    for (unsigned k = 0; k < 4; k++) if (!strcmp(found, names[k])) return k;
    in->right = false;
    return 0;
}

static int a_beat(tlscore *board, words *in) {
    unsigned client = field(in), opcode = field(in), param = field(in), size = field(in), source = field(in);
    uint64_t address = hexadecimal(in, 32), mask = hexadecimal(in, 8);
    payload data = data_of(in);
    bool corrupt = decimal(in, 1);
    size_t length = given(&data, opcode >= 4);
    if (!is_whole(in)) return BY_LINE;
    return tlscore_a(board, client, opcode, param, size, source, address, mask, length ? data.bytes : NULL, length, data.unknown, corrupt);
}

static int d_beat(tlscore *board, words *in) {
    unsigned client = field(in), opcode = field(in), param = field(in), size = field(in), source = field(in);
    bool denied = decimal(in, 1);
    payload data = data_of(in);
    bool corrupt = decimal(in, 1);
    size_t length = given(&data, opcode != 1);
    if (!is_whole(in)) return BY_LINE;
    return tlscore_d(board, client, opcode, param, size, source, denied, length ? data.bytes : NULL, length, data.unknown, corrupt);
}

static int address_beat(tlscore *board, words *in) {
    bool writes = is(in, 0, "AW");
    unsigned id = field(in);
    uint64_t address = hexadecimal(in, 32);
    unsigned len = field(in), size = field(in), burst = field(in);
    if (!is_whole(in)) return BY_LINE;
    return writes ? tlscore_aw(board, id, address, len, size, burst) : tlscore_ar(board, id, address, len, size, burst);
}

static int w_beat(tlscore *board, words *in) {
    payload data = data_of(in);
    uint64_t strobes = hexadecimal(in, 8);
    bool last = decimal(in, 1);
    return is_whole(in) ? tlscore_w(board, data.bytes, half(&data, strobes), data.unknown, strobes, last) : BY_LINE;
}

static int b_beat(tlscore *board, words *in) {
    unsigned id = field(in), resp = response(in);
    return is_whole(in) ? tlscore_b(board, id, resp) : BY_LINE;
}

static int r_beat(tlscore *board, words *in) {
    unsigned id = field(in);
    payload data = data_of(in);
    unsigned resp = response(in);
    bool last = decimal(in, 1);
    return is_whole(in) ? tlscore_r(board, id, data.bytes, half(&data, 0), data.unknown, resp, last) : BY_LINE;
}

static int filling(tlscore *board, words *in) {
    uint8_t bytes[32];
    size_t count = 0;
    uint64_t address = hexadecimal(in, 32);
    for (; in->next < in->count && count < sizeof bytes; count++) {
        in->right = in->right && strlen(in->at[in->next]) < 3;
        bytes[count] = (uint8_t)hexadecimal(in, 8);
    }
    return is_whole(in) && count ? tlscore_fill(board, address, bytes, count) : BY_LINE;
}

static int time_of(tlscore *board, words *in) {
    uint64_t time = decimal(in, 64);
    return is_whole(in) ? tlscore_time(board, time) : BY_LINE;
}

static int answer(tlscore *board, words *in) {
    if (is(in, 1, "drained")) return tlscore_drained(board);
    if (is(in, 1, "reset")) return tlscore_reset(board);
    return is(in, 1, "end") ? tlscore_end(board) : BY_LINE;
}

/* Hands a line over by numbers; BY_LINE where it is none of these, or isn't right. */
static int by_numbers(tlscore *board, words *in) {
    static const struct {
        const char *name;
        int (*call)(tlscore *, words *);
    } kinds[] = {{"A", a_beat}, {"D", d_beat}, {"AW", address_beat}, {"AR", address_beat}, {"W", w_beat}, {"B", b_beat}, {"R", r_beat},
                 {"fill", filling}, {"time", time_of}, {"=", answer}};
    for (size_t k = 0; k < sizeof kinds / sizeof *kinds; k++) {
        if (is(in, 0, kinds[k].name)) return in->next = 1, kinds[k].call(board, in);
    }
    return BY_LINE;
}

/* The lines of the input without their line feeds. */
static char **lines;
static size_t line_count;

static void read_lines(void) {
    static char line[4096];
    while (fgets(line, sizeof line, stdin)) {
        line[strcspn(line, "\n")] = 0;
        if (line_count % 1024 == 0) lines = realloc(lines, (line_count + 1024) * sizeof *lines);
        lines[line_count++] = strdup(line);
    }
}

static int ends_with(int status) {
    for (size_t k = 0; k < line_count; k++) free(lines[k]);
    free(lines);
    return status;
}

static bool is_setup(const words *in) {
    static const char *const names[] = {"config", "region", "page", "bad", "profile", "axi", "errors", "x"};
    for (size_t k = 0; k < sizeof names / sizeof *names; k++) if (is(in, 0, names[k])) return true;
    if (is(in, 0, "=")) return !(is(in, 1, "reset") || is(in, 1, "end") || is(in, 1, "drained"));
    return !in->count || in->at[0][0] == '#';
}

/* The answer that the first line of the text asks for, as zuldegei.h has it. */
static int told(void) {
    static const char *const ports[] = {"client", "request", "reply", "axi"};
    char port[16] = "";
    int rule = 0;
    const char *found = strstr(text, "= wrong ");
    if (!found || sscanf(found, "= wrong %*u %15s %d", port, &rule) != 2) return TLSCORE_OK;
    for (int k = 0; k < 4; k++) if (!strcmp(port, ports[k])) return k ? 100 * k + rule : TLSCORE_NO_CLIENT;
    return -1;
}

/* Prints what a call found. Its answer and its text have to agree. */
static bool show(tlscore *board, int status) {
    int64_t length = tlscore_text(board, text, sizeof text);
    if (length != (int64_t)strlen(text) || told() != status) {
        fprintf(stderr, "the answer is %d, and the text of %" PRId64 " bytes is %s\n", status, length, text);
        return false;
    }
    fputs(text, stdout);
    return true;
}

static int fails(tlscore *board, int status) {
    if (tlscore_fault(board, text, sizeof text) < 0) snprintf(text, sizeof text, "error %d", status);
    tlscore_free(board);
    fprintf(stderr, "%s\n", text);
    return ends_with(status == TLSCORE_MEMORY ? 4 : 2);
}

/* The held beat is judged, and the last line says how many were. */
static int ends(tlscore *board) {
    uint64_t judged, wrong, compared, told_bytes;
    int status = tlscore_line(board, "= more");
    if (status < 0) return fails(board, status);
    if (!show(board, status)) return ends_with(9);
    tlscore_judged(board, &judged, &wrong), tlscore_compared(board, &compared, &told_bytes);
    printf("= judged %" PRIu64 " wrong %" PRIu64 " outstanding %" PRId64 " open %" PRId64 " compared %" PRIu64 " of %" PRIu64 "\n", judged,
           wrong, tlscore_outstanding(board), tlscore_open_bursts(board), compared, told_bytes);
    tlscore_free(board);
    return ends_with(wrong > 0);
}

/* Whether a beat on channel A passed: whether the next line that isn't skipped is a right one by numbers, or another answer. What may be
   withdrawn, or dropped by a fault behind it, was no handshake, and goes over as a line. */
static bool has_passed(size_t at) {
    words in;
    for (at++; at < line_count; at++) {
        split(&in, lines[at]);
        if (!in.count || in.at[0][0] == '#') continue;
        return by_numbers(NULL, &in) != BY_LINE || is(&in, 1, "more") || is(&in, 1, "accepted");
    }
    return true;
}

static int judge(tlscore *board, size_t at, bool numbers) {
    words in;
    split(&in, lines[at]);
    int status = numbers && (!is(&in, 0, "A") || has_passed(at)) ? by_numbers(board, &in) : BY_LINE;
    return status == BY_LINE ? tlscore_line(board, lines[at]) : status;
}

int main(int count, char **given_words) {
    static char setup[ROOM];
    size_t used = 0, at = 0;
    bool numbers = count > 1 && !strcmp(given_words[1], "numbers");
    int status;
    words in;
    read_lines();
    for (; at < line_count && (split(&in, lines[at]), is_setup(&in)); at++) {
        is_narrow = is_narrow || (is(&in, 0, "config") && in.count > 8 && strtoul(in.at[8], NULL, 10) == 4);
        used += (size_t)snprintf(setup + used, sizeof setup - used, "%s\n", lines[at]);
    }
    tlscore *board = tlscore_new(setup, &status, text, sizeof text);
    if (!board) return fprintf(stderr, "%s\n", text), ends_with(status == TLSCORE_MEMORY ? 4 : 2);
    for (; at < line_count; at++) {
        status = judge(board, at, numbers);
        if (status < 0) return fails(board, status);
        if (!show(board, status)) return tlscore_free(board), ends_with(9);
    }
    return ends(board);
}
