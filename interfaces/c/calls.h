/* What zuldegei.c and tlbridge.c share: bytes as words, the answers that are errors, and the set-up and the texts of what lies behind a
   handle, by the words of calls that the proved library takes for it. */
#ifndef ZULDEGEI_CALLS_H
#define ZULDEGEI_CALLS_H

#include "zuldegei.h"

#include <stdlib.h>
#include <string.h>

/* The most bytes of a line. */
enum { LINE_BYTES = 128 };

/* The answers of the library that are faults, from these on: at a word of a line, and of a set-up. */
#define WORD_FAULT (UINT64_C(1) << 32)
#define REFUSED (UINT64_C(1) << 33)

/* How one kind of handle is opened and called, and its kinds of calls. */
typedef struct {
    bool (*open)(void **out);
    uint64_t (*call)(void *at, uint64_t word);
    uint64_t line, begin, close, fault_length, text_byte;
} handle_calls;

static inline int status_of(uint64_t answer) {
    if (answer < WORD_FAULT) return (int)answer;
    if (answer < REFUSED) return TLSCORE_WORD - (int)(answer - WORD_FAULT);
    if (answer == REFUSED) return TLSCORE_SETUP;
    return answer == REFUSED + 1 ? TLSCORE_MEMORY : TLSCORE_RANGE;
}

/* Eight bytes from a place on, the first the lowest, with zeros behind the last. */
static inline uint64_t word_of(const void *bytes, size_t length, size_t place) {
    const uint8_t *from = (const uint8_t *)bytes;
    uint64_t word = 0;
    for (size_t k = 0; k < 8 && place + k < length; k++) word |= (uint64_t)from[place + k] << 8 * k;
    return word;
}

/* A number that is known to fit, as the byte of a head at a place. */
static inline uint64_t byte_at(unsigned place, uint64_t number) { return number << 8 * place; }

/* Whether all are bytes. */
static inline bool are_bytes(unsigned a, unsigned b, unsigned c, unsigned d, unsigned e) { return (a | b | c | d | e) < 256; }

/* A call of a head and bytes by eights. */
static inline int with_bytes(const handle_calls *by, void *at, uint64_t head, const void *bytes, size_t length) {
    uint64_t answer = by->call(at, head | byte_at(1, length));
    for (size_t place = 0; place < length; place += 8) answer = by->call(at, word_of(bytes, length, place));
    return status_of(answer);
}

/* A line of a length. One that is too long has no words, as one with a byte that no line may have. */
static inline int with_line(const handle_calls *by, void *at, const char *line, size_t length) {
    if (length == LINE_BYTES + 1 && line[length - 1] == '\r' && line[length - 2] != '\r') length--;
    return length > LINE_BYTES ? with_bytes(by, at, by->line, "\001", 1) : with_bytes(by, at, by->line, line, length);
}

/* A text, by the call that makes it. */
static inline int64_t text_by(const handle_calls *by, void *at, uint64_t head, char *text, size_t room) {
    if (!at || (!text && room)) return TLSCORE_NULL;
    if (room) text[0] = 0;
    uint64_t length = by->call(at, head);
    if (length >= WORD_FAULT) return status_of(length);
    size_t shown = length < room ? (size_t)length : room ? room - 1 : 0;
    for (size_t place = 0; place < shown; place++) text[place] = (char)(by->call(at, by->text_byte | byte_at(1, place)) & 255);
    if (room) text[shown] = 0;
    return (int64_t)length;
}

/* Each line of a set-up, and then its end. */
static inline int set_up(const handle_calls *by, void *at, const char *setup) {
    while (*setup) {
        size_t length = strcspn(setup, "\n");
        int status = with_line(by, at, setup, length);
        if (status) return status;
        setup += length + (setup[length] == '\n');
    }
    return status_of(by->call(at, by->begin));
}

/* What the programs print of a set-up that ended so. It is told without the library where memory was refused. */
static inline void tell_fault(const handle_calls *by, void *at, int ended, char *fault, size_t room) {
    static const char no_memory[] = "out of memory";
    fault[0] = 0;
    if (ended == TLSCORE_MEMORY) strncat(fault, no_memory, room - 1);
    else if (ended && at) text_by(by, at, by->fault_length, fault, room);
}

static inline void give_back(const handle_calls *by, void *at) {
    if (!at) return;
    by->call(at, by->close);
    free(at); /* the library took it by malloc, and holds nothing of it any more */
}

/* A handle whose set-up is whole, or null and why there is none. */
static inline void *opened(const handle_calls *by, const char *setup, int *status, char *fault, size_t room) {
    void *at = NULL;
    int ended = !setup || (room && !fault) ? TLSCORE_NULL : by->open(&at) ? 0 : TLSCORE_MEMORY;
    if (at) ended = set_up(by, at, setup);
    if (status) *status = ended;
    if (room && fault) tell_fault(by, at, ended, fault, room);
    if (!ended) return at;
    give_back(by, at);
    return NULL;
}

#endif
