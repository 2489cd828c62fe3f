/* Two parts of zuldegei in the process of a test: the scoreboard of tlscore, and behind it ("The model") the model of tlbridge.

   The scoreboard: what was observed at the ports of a bridge goes in beat by beat, and each call answers at once whether its beat can be
   right. docs/SCOREBOARD.md says what is judged, and what the verdicts mean.

   The answer of a call that judges is TLSCORE_OK where nothing is wrong; above 0 what was found (enum tlscore_verdict); and below 0
   why nothing was done (enum tlscore_error), which is no verdict. Where a call finds more than one thing, the answer is the first, and
   tlscore_text has a line for each.

   An error changes nothing, and counts no line. After TLSCORE_MEMORY the same call may be made again. There is one exception: by
   TLSCORE_MEMORY of tlscore_a the beat on channel A that an earlier tlscore_line holds may have been judged; then tlscore_judged counts
   it, and tlscore_text has what was found of it.

   Nothing checks what the caller has to keep, here and of the model:
   - A board is what tlscore_new gave, and tlscore_free wasn't given it yet; a bridge is what tlbridge_new gave, in the same way.
   - One thread at a time uses a board or a bridge, also to ask: no call leaves it untouched, so none takes it as const. Different ones
     may be used by different threads at the same time; there may be any number of them, and they share nothing.
   - No call is made from a signal handler, nor in the forked child of a process with threads.
   - A text ends in a zero byte; an array is as long as is said with it, and none that is written overlaps another.
   - malloc, realloc and free are those of one allocator.

   Hand over each handshake once, in the order in which they came; in one clock in the order A, AW, AR, W, B, R, D, as for tlscore.

   Linux on x86-64. C99, and C++ from C++11 on. */
#ifndef ZULDEGEI_H
#define ZULDEGEI_H

#include <stdbool.h>
#include <stddef.h>
#include <stdint.h>

/* The version of this header; tlscore_version gives that of the library. */
#define ZULDEGEI_VERSION_MAJOR 0
#define ZULDEGEI_VERSION_MINOR 1
#define ZULDEGEI_VERSION_PATCH 0
#define ZULDEGEI_VERSION "0.1.0"

#ifdef __cplusplus
extern "C" {
#endif

/* A scoreboard, and all that it knows of one bridge. */
typedef struct tlscore tlscore;

/* What a call found. Those of a rule are these and the rule's number in docs/RULES.md: TLSCORE_REPLY + 7 is 7 PAYLOAD of replies. */
enum tlscore_verdict {
    TLSCORE_OK = 0,        /* nothing is wrong */
    TLSCORE_NO_CLIENT = 1, /* there is no such client */
    TLSCORE_REQUEST = 100, /* a request breaks a rule of channel A, from 1 OPCODE to 17 X, or 18 UNFINISHED, which tlscore_end alone finds */
    TLSCORE_REPLY = 200,   /* a reply can't be right, from 1 UNASKED to 9 UNANSWERED, which tlscore_end alone finds */
    TLSCORE_AXI = 300      /* a rule of the AXI4 port is broken, from 1 SIZE to 13 X, 14 UNANSWERED and 15 PLACE */
};

/* Why a call did nothing. */
enum tlscore_error {
    TLSCORE_NULL = -1,    /* a pointer is null that may not be */
    TLSCORE_RANGE = -2,   /* a field is out of its range */
    TLSCORE_MEMORY = -3,  /* memory was refused */
    TLSCORE_SETUP = -4,   /* the set-up is refused as a whole */
    TLSCORE_NO_BYTE = -5, /* the address lies on no good page */
    TLSCORE_WORD = -1000  /* a line is at fault: this less the number of its first wrong word, 0 being the line as a whole. A call by
                             numbers that may not stand here is at fault at word 1, a filling of other pages than good ones at 2 */
};

/* The channels of both ports. */
enum tlscore_channel { TLSCORE_A, TLSCORE_D, TLSCORE_AW, TLSCORE_W, TLSCORE_B, TLSCORE_AR, TLSCORE_R };

/* The version of the library, as ZULDEGEI_VERSION. */
const char *tlscore_version(void);

/* ---- A board */

/* A board for a bridge. SETUP has the lines that stand ahead of the first beat, `fill` lines too (docs/SCRIPT.md, "Set-up lines";
   docs/SCOREBOARD.md, "Lines"), each with a line feed, of which the last may be missing. Where the set-up is refused, or memory, the
   answer is null; then *STATUS is an enum tlscore_error, else TLSCORE_OK, and FAULT, of ROOM bytes, has what tlscore prints of it, cut
   where it doesn't fit, else nothing. STATUS may be null, and so may FAULT where ROOM is 0. A line behind the set-up that has something to
   tell, as a wrong beat or a question, is at fault at its word 1. */
tlscore *tlscore_new(const char *setup, int *status, char *fault, size_t room);

/* Gives a board back, and all that it holds. Of null it does nothing. */
void tlscore_free(tlscore *board);

/* ---- Beats. Fields are as on the wires: sizes are base-2 logarithms of bytes, LEN is the number of beats less one, BURST 1 is INCR, and
   RESP is 0 OKAY, 1 EXOKAY, 2 SLVERR or 3 DECERR. An ADDRESS is below 2^32, each other number below 256; else TLSCORE_RANGE. A client
   that the set-up hasn't is no error, but found wrong.

   DATA are the LENGTH bytes of a payload, lane 0 first. There are 8; on an AXI4 port of 32 bits (WIDTH 4 of `config`) there may be 4, on
   one of 64 bits 4 are TLSCORE_RANGE; and where a message
   carries no data (opcodes 4 and above on channel A, all but 1 on channel D) there may be 0, and DATA may be null. MASK, STROBES and
   UNKNOWN have a bit for each lane, of UNKNOWN where a digit of it is x or z; UNKNOWN and STROBES have none for lanes that aren't given. */

int tlscore_a(tlscore *board, unsigned client, unsigned opcode, unsigned param, unsigned size, unsigned source, uint64_t address,
              uint64_t mask, const uint8_t *data, size_t length, uint64_t unknown, bool corrupt);
int tlscore_d(tlscore *board, unsigned client, unsigned opcode, unsigned param, unsigned size, unsigned source, bool denied,
              const uint8_t *data, size_t length, uint64_t unknown, bool corrupt);
int tlscore_aw(tlscore *board, unsigned id, uint64_t address, unsigned len, unsigned size, unsigned burst);
int tlscore_w(tlscore *board, const uint8_t *data, size_t length, uint64_t unknown, uint64_t strobes, bool last);
int tlscore_b(tlscore *board, unsigned id, unsigned resp);
int tlscore_ar(tlscore *board, unsigned id, uint64_t address, unsigned len, unsigned size, unsigned burst);
int tlscore_r(tlscore *board, unsigned id, const uint8_t *data, size_t length, uint64_t unknown, unsigned resp, bool last);

/* A beat of which a field other than the payload is x or z. CHANNEL is an enum tlscore_channel; CLIENT is 0 on the AXI4 port. */
int tlscore_unknown(tlscore *board, unsigned channel, unsigned client);

/* ---- What isn't a beat: the lines `fill ADDRESS BYTE ..` of 1 to 32 bytes, `time T`, `= drained`, `= reset` and `= end`. A time has the
   unit that the caller likes, and is repeated with each wrong line behind it. */

int tlscore_fill(tlscore *board, uint64_t address, const uint8_t *bytes, size_t length);
int tlscore_time(tlscore *board, uint64_t time);
int tlscore_drained(tlscore *board);
int tlscore_reset(tlscore *board);
int tlscore_end(tlscore *board);

/* A line as tlscore reads it, without its line feed. A beat on channel A that comes so is judged with the next line or call, since the
   next line may withdraw it; one that tlscore_a hands over is judged at once. */
int tlscore_line(tlscore *board, const char *line);

/* ---- What was found. Each call by numbers counts as a line behind those of the set-up; numbers of lines stop at 4,294,967,294. */

/* The lines of what the last line or call that judged without an error found, as tlscore prints them, each with its line feed. They are
   written into TEXT, of ROOM bytes, cut where they don't fit, and ended by a zero byte. The answer is how many bytes all of them have
   without that, or an error. TEXT may be null where ROOM is 0. */
int64_t tlscore_text(tlscore *board, char *text, size_t room);

/* The same of the fault of the last line or call that judges: nothing where it had none. A call that is refused by TLSCORE_NULL or
   TLSCORE_RANGE leaves it as it was. */
int64_t tlscore_fault(tlscore *board, char *text, size_t room);

/* How many accepted requests have a reply that isn't over; and how many bursts are open on the AXI4 port. */
int64_t tlscore_outstanding(tlscore *board);
int64_t tlscore_open_bursts(tlscore *board);

/* How many beats were judged, and how much was found wrong; and how many of the bytes that replies told were compared. */
int tlscore_judged(tlscore *board, uint64_t *judged, uint64_t *wrong);
int tlscore_compared(tlscore *board, uint64_t *compared, uint64_t *told);

/* The byte at an address, as the requests that were judged leave it, or TLSCORE_NO_BYTE. */
int tlscore_byte(tlscore *board, uint64_t address);

/* ---- The process. From this call on it ends with status 1 where exit or main's return would have it end with 0, so that a simulator
   which takes no status from its models ends with one that says that something was wrong. It changes nothing else, may be called
   again, and by any thread. The modules of interfaces/systemverilog call it. */
void tlscore_fail(void);

/* ==== The model: a bridge and the memory behind it, one step at a time, as `tlbridge run` carries out a script (docs/SCRIPT.md,
   "Commands of run"). The caller plays the clients, and says when the bridge sends a burst and when and in which order the memory
   performs and answers it; or has that done by tlbridge_drain. Whatever it says, replies and memory are those of the accepted requests
   carried out one at a time, in order of acceptance (docs/ORDERING.md). There is no limit of steps.

   The answer of a call that makes a step is what the step gave (enum tlbridge_answer), and below 0 why none was made (enum
   tlbridge_error), which changes nothing. What else a step gives it writes through pointers: each of them may be null, and nothing is
   written where the answer isn't the one that it belongs to. Behind tlbridge_new no call takes memory. */

/* A bridge, the memory behind it, and all that is under way between them. */
typedef struct tlbridge tlbridge;

/* What a step gave. */
enum tlbridge_answer {
    TLBRIDGE_MORE,      /* the beat was taken, and more beats of its message are to come */
    TLBRIDGE_ACCEPTED,  /* it was the last: its request is accepted under a number, counted from 0 over all clients */
    TLBRIDGE_NOT_READY, /* it would complete a request, and the client has its quota of live ones: it may be offered again */
    TLBRIDGE_EXHAUSTED, /* it would complete a request, and 2^48 were accepted */
    TLBRIDGE_REFUSED,   /* it breaks a rule of channel A, from 1 OPCODE to 10 BURST_CONTROL (docs/RULES.md), and isn't taken */
    TLBRIDGE_NO_CLIENT, /* there is no such client */
    TLBRIDGE_SENT,      /* a burst was sent */
    TLBRIDGE_IDLE,      /* no request is ready to send a burst */
    TLBRIDGE_DONE,      /* the beat was performed */
    TLBRIDGE_NO_SUCH,   /* no open burst has that serial and beat */
    TLBRIDGE_ALREADY,   /* the beat was performed before */
    TLBRIDGE_B,         /* the B of a write was given */
    TLBRIDGE_R,         /* an R was given */
    TLBRIDGE_NOTHING,   /* the ID may give no answer now; or none of the client's requests is done */
    TLBRIDGE_REPLY      /* the client took a reply */
};

/* Why a call did nothing; and TLBRIDGE_OK of a call that makes no step. */
enum tlbridge_error {
    TLBRIDGE_OK = 0,       /* it has done what it is for */
    TLBRIDGE_NULL = -1,    /* a pointer is null that may not be */
    TLBRIDGE_RANGE = -2,   /* a field is out of its range, or there is no such beat or step */
    TLBRIDGE_MEMORY = -3,  /* memory was refused */
    TLBRIDGE_SETUP = -4,   /* the set-up is refused as a whole */
    TLBRIDGE_NO_BYTE = -5, /* the address lies on no good page */
    TLBRIDGE_WORD = -1000  /* a line of the set-up is at fault: this less the number of its first wrong word, 0 being the line as a whole */
};

/* A burst that the bridge sent: its serial, counted from 0, and its address beat. A write has LEN + 1 beats of W data, a read has none. */
struct tlbridge_burst {
    uint64_t serial, address;
    uint32_t is_write, id, len, size, burst, w_beats;
};

/* A beat of W data, lane 0 first. */
struct tlbridge_w {
    uint8_t data[8];
    uint32_t strobes, last;
};

/* A beat of a reply. */
struct tlbridge_d {
    uint8_t data[8];
    uint32_t opcode, param, size, source, denied, corrupt;
};

/* A step of bridge or memory. PLACE is the beat that is performed, or the ID that answers, or 0; SERIAL is that of the burst whose beat is
   performed, or 0. */
struct tlbridge_step {
    uint64_t serial;
    uint32_t kind, place;
};

/* Kinds of these steps. */
enum tlbridge_kind { TLBRIDGE_PUMP = 1, TLBRIDGE_PERFORM, TLBRIDGE_ANSWER_B, TLBRIDGE_ANSWER_R };

/* A bridge and a memory of zeros. SETUP has the lines of a script of `tlbridge run` that stand ahead of the first command (docs/SCRIPT.md,
   "Set-up lines"); any other line is at fault at its word 1. All else is as for tlscore_new. */
tlbridge *tlbridge_new(const char *setup, int *status, char *fault, size_t room);

/* Gives a bridge back, and all that it holds. Of null it does nothing. */
void tlbridge_free(tlbridge *bridge);

/* ---- The clients. Fields are as on the wires, and an ADDRESS is below 2^32, each other number below 256; else TLBRIDGE_RANGE. DATA are
   the LENGTH bytes of a payload, lane 0 first: 8, or where the message carries none (opcodes 4 and above) also 0, and DATA may be null. */

/* A client offers a beat on channel A. *NUMBER is that of the request, where it is accepted; and that of the rule, where it is refused. */
int tlbridge_offer(tlbridge *bridge, unsigned client, unsigned opcode, unsigned param, unsigned size, unsigned source, uint64_t address,
                   uint64_t mask, const uint8_t *data, size_t length, bool corrupt, uint64_t *number);

/* A client takes a reply: *NUMBER is that of its request, and *BEATS says how many D beats it has. */
int tlbridge_take(tlbridge *bridge, unsigned client, uint64_t *number, unsigned *beats);

/* D beat K, from 0, of the reply that was taken last, until another is taken. */
int tlbridge_reply_d(tlbridge *bridge, unsigned k, struct tlbridge_d *beat);

/* ---- Bridge and memory. */

/* The bridge sends a burst, the first of those that are ready. */
int tlbridge_pump(tlbridge *bridge, struct tlbridge_burst *burst);

/* W beat K, from 0, of the burst that the last step sent; of any other step there is none. */
int tlbridge_sent_w(tlbridge *bridge, unsigned k, struct tlbridge_w *beat);

/* The memory performs a beat, from 0 to 65,535, of the burst with that serial: it is written, or read. */
int tlbridge_perform(tlbridge *bridge, uint64_t serial, unsigned beat);

/* The memory gives the B, or the next R, that the ID may give. */
int tlbridge_answer_b(tlbridge *bridge, unsigned id, unsigned *resp);
int tlbridge_answer_r(tlbridge *bridge, unsigned id, uint8_t *data, unsigned *resp, bool *last);

/* Bridge and memory make steps while they can without the clients. The answer is how many, or an error. */
int64_t tlbridge_drain(tlbridge *bridge);

/* How many different steps bridge and memory can make now, without the clients; and step K of these, from 0: the Pump where a request is
   ready, then beats to perform by rising serial and beat, B by rising ID, and R by rising ID. */
int64_t tlbridge_choices(tlbridge *bridge);
int tlbridge_choose(tlbridge *bridge, uint64_t k, struct tlbridge_step *step);

/* Makes such a step. Who wants to know what it gave besides its answer makes it by the call of its kind. */
int tlbridge_make(tlbridge *bridge, const struct tlbridge_step *step);

/* ---- What can be asked. */

/* The byte of the memory at an AXI address, or TLBRIDGE_NO_BYTE. */
int tlbridge_byte(tlbridge *bridge, uint64_t address);

/* How many steps of a drain are left, and how many accepted requests aren't done. */
int64_t tlbridge_work(tlbridge *bridge);
int64_t tlbridge_in_flight(tlbridge *bridge);

#ifdef __cplusplus
}
#endif
#endif
