/* The calls of zuldegei.h, each as the words of calls that the proved library takes: crates/score_calls has what they mean. Of a board it
   keeps where the library's own value lies, and how wide its AXI4 port is, which no call asks of the library. */
#ifndef _DEFAULT_SOURCE
#define _DEFAULT_SOURCE /* on_exit */
#endif
#include "calls.h"

/* The proved library. */
#ifdef __cplusplus
extern "C" {
#endif
bool tlscore_open(void **out);
uint64_t tlscore_call(void *at, uint64_t word);
#ifdef __cplusplus
}
#endif

/* The kinds of calls, as crates/score_calls/src/words.rt has them; those of beats are the channels. */
enum {
    UNKNOWN = 7, FILL, TIME, DRAINED, RESET, END, LINE, BEGIN, CLOSE, TEXT_LENGTH, FAULT_LENGTH, TEXT_BYTE, OUTSTANDING, OPEN_BURSTS,
    JUDGED, WRONG, TOLD, COMPARED, BYTE
};

/* The most bytes of a filling. */
enum { FILL_BYTES = 32 };

static const handle_calls BOARD = {tlscore_open, tlscore_call, LINE, BEGIN, CLOSE, FAULT_LENGTH, TEXT_BYTE};

struct tlscore {
    void *at;
    size_t bus_bytes; /* of its AXI4 port: 8 or 4 */
};

/* How many bytes the AXI4 port of a set-up has that was taken: by the ninth word of its first line that has words, else 8. */
static size_t bus_bytes_of(const char *setup) {
    unsigned words = 0;
    while (*(setup += strspn(setup, " \r\n")) == '#') setup += strcspn(setup, "\n");
    for (; *setup && !strchr("\r\n", *setup) && ++words < 9; setup += strspn(setup, " ")) setup += strcspn(setup, " \r\n");
    return words == 9 && strtoul(setup, NULL, 10) == 4 ? 4 : 8;
}

/* The library's own value, where there is a board. */
static void *at_of(tlscore *board) { return board ? board->at : NULL; }

/* A call of a head alone. */
static int alone(tlscore *board, uint64_t head) { return board ? status_of(tlscore_call(board->at, head)) : TLSCORE_NULL; }

/* A call of a head and one word. */
static int with_word(tlscore *board, uint64_t head, uint64_t word) {
    tlscore_call(board->at, head);
    return status_of(tlscore_call(board->at, word));
}

/* What is wrong with a call that has a payload, of which so many bytes may be given. LANES has the lanes that it names. */
static int wrong_data(const tlscore *board, const uint8_t *data, size_t length, bool may, uint64_t lanes) {
    if (!board || (!data && length)) return TLSCORE_NULL;
    return (length != 8 && !may) || lanes >> length ? TLSCORE_RANGE : 0;
}

/* Whether a payload has as many bytes as the AXI4 port. */
static bool is_bus(const tlscore *board, size_t length) { return board && length == board->bus_bytes; }

/* A number that is asked for. */
static int64_t count_of(tlscore *board, uint64_t head) {
    if (!board) return TLSCORE_NULL;
    return (int64_t)tlscore_call(board->at, head);
}

/* Two such numbers. */
static int counts_of(tlscore *board, uint64_t head, uint64_t *first, uint64_t other, uint64_t *second) {
    if (!board || !first || !second) return TLSCORE_NULL;
    *first = tlscore_call(board->at, head);
    *second = tlscore_call(board->at, other);
    return 0;
}

const char *tlscore_version(void) { return ZULDEGEI_VERSION; }

tlscore *tlscore_new(const char *setup, int *status, char *fault, size_t room) {
    void *at = opened(&BOARD, setup, status, fault, room);
    tlscore *board = at ? (tlscore *)malloc(sizeof *board) : NULL;
    if (board) {
        board->at = at, board->bus_bytes = bus_bytes_of(setup);
    } else if (at) {
        if (status) *status = TLSCORE_MEMORY;
        if (room) tell_fault(&BOARD, at, TLSCORE_MEMORY, fault, room);
        give_back(&BOARD, at);
    }
    return board;
}

void tlscore_free(tlscore *board) {
    if (board) give_back(&BOARD, board->at);
    free(board);
}

int tlscore_a(tlscore *board, unsigned client, unsigned opcode, unsigned param, unsigned size, unsigned source, uint64_t address,
              uint64_t mask, const uint8_t *data, size_t length, uint64_t unknown, bool corrupt) {
    int wrong = wrong_data(board, data, length, !length && opcode >= 4, unknown);
    if (wrong) return wrong;
    if (!are_bytes(client, opcode, param, size, source) || address > UINT32_MAX || mask > 255) return TLSCORE_RANGE;
    tlscore_call(board->at, TLSCORE_A | byte_at(1, client) | byte_at(2, opcode) | byte_at(3, param) | byte_at(4, size) | byte_at(5, source)
                            | byte_at(6, mask) | byte_at(7, corrupt));
    return with_word(board, address | unknown << 32, word_of(data, length, 0));
}

int tlscore_d(tlscore *board, unsigned client, unsigned opcode, unsigned param, unsigned size, unsigned source, bool denied,
              const uint8_t *data, size_t length, uint64_t unknown, bool corrupt) {
    int wrong = wrong_data(board, data, length, !length && opcode != 1, unknown);
    if (wrong) return wrong;
    if (!are_bytes(client, opcode, param, size, source)) return TLSCORE_RANGE;
    uint64_t flags = (uint64_t)denied | (uint64_t)corrupt << 1;
    return with_word(board, TLSCORE_D | byte_at(1, client) | byte_at(2, opcode) | byte_at(3, param) | byte_at(4, size)
                                | byte_at(5, source) | byte_at(6, unknown) | byte_at(7, flags), word_of(data, length, 0));
}

/* An address, of a write or a read. */
static int address_beat(tlscore *board, uint64_t head, unsigned id, uint64_t address, unsigned len, unsigned size, unsigned burst) {
    if (!board) return TLSCORE_NULL;
    if (!are_bytes(id, len, size, burst, 0) || address > UINT32_MAX) return TLSCORE_RANGE;
    return with_word(board, head | byte_at(1, id) | byte_at(2, len) | byte_at(3, size) | byte_at(4, burst), address);
}

int tlscore_aw(tlscore *board, unsigned id, uint64_t address, unsigned len, unsigned size, unsigned burst) {
    return address_beat(board, TLSCORE_AW, id, address, len, size, burst);
}

int tlscore_ar(tlscore *board, unsigned id, uint64_t address, unsigned len, unsigned size, unsigned burst) {
    return address_beat(board, TLSCORE_AR, id, address, len, size, burst);
}

int tlscore_w(tlscore *board, const uint8_t *data, size_t length, uint64_t unknown, uint64_t strobes, bool last) {
    int wrong = wrong_data(board, data, length, is_bus(board, length), unknown | strobes);
    if (wrong) return wrong;
    return with_word(board, TLSCORE_W | byte_at(1, strobes) | byte_at(2, last) | byte_at(3, unknown), word_of(data, length, 0));
}

int tlscore_b(tlscore *board, unsigned id, unsigned resp) {
    if (!board) return TLSCORE_NULL;
    return id > 255 || resp > 3 ? TLSCORE_RANGE : alone(board, TLSCORE_B | byte_at(1, id) | byte_at(2, resp));
}

int tlscore_r(tlscore *board, unsigned id, const uint8_t *data, size_t length, uint64_t unknown, unsigned resp, bool last) {
    int wrong = wrong_data(board, data, length, is_bus(board, length), unknown);
    if (wrong) return wrong;
    if (id > 255 || resp > 3) return TLSCORE_RANGE;
    return with_word(board, TLSCORE_R | byte_at(1, id) | byte_at(2, resp) | byte_at(3, last) | byte_at(4, unknown), word_of(data, length, 0));
}

int tlscore_unknown(tlscore *board, unsigned channel, unsigned client) {
    if (!board) return TLSCORE_NULL;
    if (channel > TLSCORE_R || client > (channel > TLSCORE_D ? 0u : 255u)) return TLSCORE_RANGE;
    return alone(board, UNKNOWN | byte_at(1, channel) | byte_at(2, client));
}

int tlscore_fill(tlscore *board, uint64_t address, const uint8_t *bytes, size_t length) {
    if (!board || !bytes) return TLSCORE_NULL;
    if (!length || length > FILL_BYTES || address > UINT32_MAX) return TLSCORE_RANGE;
    return with_bytes(&BOARD, board->at, FILL | address << 32, bytes, length);
}

int tlscore_time(tlscore *board, uint64_t time) { return board ? with_word(board, TIME, time) : TLSCORE_NULL; }
int tlscore_drained(tlscore *board) { return alone(board, DRAINED); }
int tlscore_reset(tlscore *board) { return alone(board, RESET); }
int tlscore_end(tlscore *board) { return alone(board, END); }

int tlscore_line(tlscore *board, const char *line) {
    return board && line ? with_line(&BOARD, board->at, line, strlen(line)) : TLSCORE_NULL;
}

int64_t tlscore_text(tlscore *board, char *text, size_t room) { return text_by(&BOARD, at_of(board), TEXT_LENGTH, text, room); }
int64_t tlscore_fault(tlscore *board, char *text, size_t room) { return text_by(&BOARD, at_of(board), FAULT_LENGTH, text, room); }
int64_t tlscore_outstanding(tlscore *board) { return count_of(board, OUTSTANDING); }
int64_t tlscore_open_bursts(tlscore *board) { return count_of(board, OPEN_BURSTS); }

int tlscore_judged(tlscore *board, uint64_t *judged, uint64_t *wrong) { return counts_of(board, JUDGED, judged, WRONG, wrong); }
int tlscore_compared(tlscore *board, uint64_t *compared, uint64_t *told) { return counts_of(board, COMPARED, compared, TOLD, told); }

int tlscore_byte(tlscore *board, uint64_t address) {
    if (!board) return TLSCORE_NULL;
    if (address > UINT32_MAX) return TLSCORE_RANGE;
    uint64_t answer = tlscore_call(board->at, BYTE | address << 32);
    return answer < 256 ? (int)answer : TLSCORE_NO_BYTE;
}

/* What exit calls: it goes on with the other such calls, and then ends with the status that is given it here. */
static void end_failed(int status, void *unused) {
    (void)unused;
    if (!status) exit(EXIT_FAILURE);
}

void tlscore_fail(void) {
    static bool is_said;
    if (!__atomic_test_and_set(&is_said, __ATOMIC_RELAXED)) on_exit(end_failed, NULL);
}
