/* Carries out the script of `tlbridge run` on standard input by the library in the process, and prints its trace, its fault and its status.

       bridge_process calls      makes each step by the call of its kind
       bridge_process choices    makes each step that bridge or memory could choose by tlbridge_make, and drains by tlbridge_choose

   The set-up is all that stands ahead of the first command. Each step that is made by choice has to be the one that is asked for, and to
   answer as by its own call: else the status is 9. */
#define _POSIX_C_SOURCE 200809L /* getline */
#include "zuldegei.h"

#include <inttypes.h>
#include <stdio.h>
#include <stdlib.h>
#include <string.h>

enum { MOST_WORDS = 12, LONGEST = 128, RIGHT = -1 };

/* The words of a line. `wrong` is the first that isn't as it should be, RIGHT where there is none. */
typedef struct {
    int count, next, wrong;
    char *at[MOST_WORDS];
    char room[LONGEST + 1];
} words;

static bool by_choice;

/* A line without its line feed, whose one CR is dropped. Word 0 is wrong where it is too long, or has a byte that no line may have. */
static void split(words *in, const char *line, size_t length) {
    in->count = 0, in->next = 1, in->wrong = RIGHT;
    if (length && line[length - 1] == '\r') length--;
    if (length > LONGEST) in->wrong = 0, length = 0;
    for (size_t k = 0; k < length; k++) if (line[k] < 0x20 || line[k] > 0x7e) in->wrong = 0;
    memcpy(in->room, line, length), in->room[length] = 0;
    for (char *at = strtok(in->room, " "); at && in->count < MOST_WORDS; at = strtok(NULL, " ")) in->at[in->count++] = at;
}

static bool is(const words *in, const char *word) { return in->count && !strcmp(in->at[0], word); }

/* The next word as a number of a base, up to the most that it may be. */
static uint64_t number(words *in, const char *digits, int base, size_t longest, uint64_t most) {
    const char *found = in->next < in->count ? in->at[in->next] : "";
    size_t length = strlen(found);
    uint64_t value = 0;
    bool right = length && length <= longest && !found[strspn(found, digits)];
    for (size_t k = 0; right && k < length; k++) {
        uint64_t digit = (uint64_t)(found[k] <= '9' ? found[k] - '0' : (found[k] | 32) - 'a' + 10);
        if (value > (UINT64_MAX - digit) / (uint64_t)base) right = false;
        value = value * (uint64_t)base + digit;
    }
    in->next++;
    if (in->wrong == RIGHT && (!right || value > most)) in->wrong = in->next;
    return value;
}

static uint64_t decimal(words *in, uint64_t most) { return number(in, "0123456789", 10, 20, most); }
static uint64_t hexadecimal(words *in, uint64_t most) { return number(in, "0123456789abcdefABCDEF", 16, 16, most); }

/* A flag, of one digit. */
static bool flag(words *in) { return number(in, "01", 10, 1, 1) == 1; }

/* No word may be left. */
static void end(words *in) { if (in->wrong == RIGHT && in->next < in->count) in->wrong = in->next + 1; }

/* A command's fields. */
typedef struct {
    char name;
    unsigned client, opcode, param, size, source, corrupt, beat;
    uint64_t address, mask, payload, serial;
} command;

static const char *const NAMES[] = {"a", "pump", "do", "b", "r", "take", "drain", "mem", "work"};
static const char KINDS[] = "apdbrtDmw";

/* Which command's name a line begins with; 0 where it is none. */
static char named(const words *in) {
    if (in->wrong == 0) return 0;
    for (int k = 0; k < 9; k++) if (is(in, NAMES[k])) return KINDS[k];
    return 0;
}

/* The command of a line, whose words are looked at one by one. */
static command read_command(words *in) {
    command it;
    memset(&it, 0, sizeof it);
    it.name = named(in);
    switch (it.name) {
    case 'a':
        it.client = (unsigned)decimal(in, 255), it.opcode = (unsigned)decimal(in, 255), it.param = (unsigned)decimal(in, 255);
        it.size = (unsigned)decimal(in, 255), it.source = (unsigned)decimal(in, 255);
        it.address = hexadecimal(in, UINT32_MAX), it.mask = hexadecimal(in, 255), it.payload = hexadecimal(in, UINT64_MAX);
        it.corrupt = flag(in);
        break;
    case 'd': it.serial = decimal(in, UINT64_MAX), it.beat = (unsigned)decimal(in, 65535); break;
    case 'b':
    case 'r':
    case 't': it.client = (unsigned)decimal(in, 255); break;
    case 'm': it.address = hexadecimal(in, UINT32_MAX); break;
    case 0: in->wrong = in->wrong == 0 ? 0 : 1; return it;
    default: break;
    }
    end(in);
    return it;
}

/* ---- What a command prints. */

static const char *const ANSWERS[] = {"more", "accepted", "notready", "exhausted", "refused", "noclient", "sent", "idle", "done", "nosuch",
                                      "already", "B", "R", "nothing", "reply"};
static const char *const RESPONSES[] = {"OKAY", "EXOKAY", "SLVERR", "DECERR"};
static const char *const RULES[] = {"", "OPCODE", "LEVEL", "SIZE", "ATOMIC_SIZE", "ALIGN", "PARAM", "MASK", "CORRUPT", "SOURCE_BUSY",
                                    "BURST_CONTROL"};

static uint64_t payload_of(const uint8_t *data) {
    uint64_t payload = 0;
    for (int k = 0; k < 8; k++) payload |= (uint64_t)data[k] << 8 * k;
    return payload;
}

/* A call that has to do what it is for, or a choice that has to be there. */
static void sure(bool is_well, const char *why) {
    if (!is_well) fprintf(stderr, "%s\n", why), exit(9);
}

/* Makes a step by tlbridge_make, where it is one that can be chosen; the place of it is looked for from the last one back. */
static int made(tlbridge *bridge, const struct tlbridge_step *wanted) {
    struct tlbridge_step step;
    bool is_there = false;
    for (int64_t k = tlbridge_choices(bridge); k-- > 0 && !is_there;) {
        sure(tlbridge_choose(bridge, (uint64_t)k, &step) == TLBRIDGE_OK, "a choice isn't there");
        is_there = step.kind == wanted->kind && step.place == wanted->place && step.serial == wanted->serial;
    }
    int answer = tlbridge_make(bridge, wanted);
    sure(is_there == (answer == TLBRIDGE_SENT || answer == TLBRIDGE_DONE || answer == TLBRIDGE_B || answer == TLBRIDGE_R),
         "a step is made that isn't among the choices, or the other way round");
    return answer;
}

static void offer(tlbridge *bridge, const command *it) {
    uint8_t data[8];
    uint64_t found = 0;
    for (int k = 0; k < 8; k++) data[k] = (uint8_t)(it->payload >> 8 * k);
    bool has_data = it->opcode < 4 || it->payload;
    int answer = tlbridge_offer(bridge, it->client, it->opcode, it->param, it->size, it->source, it->address, it->mask,
                                has_data ? data : NULL, has_data ? 8 : 0, it->corrupt, &found);
    sure(answer >= TLBRIDGE_MORE && answer <= TLBRIDGE_NO_CLIENT, "another answer to an offer");
    printf("A %u %u %u %u %u %08" PRIx64 " %02" PRIx64 " %016" PRIx64 " %u\n= %s", it->client, it->opcode, it->param, it->size, it->source,
           it->address, it->mask, it->payload, it->corrupt, ANSWERS[answer]);
    if (answer == TLBRIDGE_ACCEPTED) printf(" %" PRIu64, found);
    if (answer == TLBRIDGE_REFUSED) printf(" %" PRIu64 " %s", found, RULES[found]);
    puts("");
}

static void pump(tlbridge *bridge) {
    struct tlbridge_burst it;
    struct tlbridge_w beat;
    int answer = tlbridge_pump(bridge, &it);
    if (answer != TLBRIDGE_SENT) {
        printf("= %s\n", ANSWERS[answer]);
        return;
    }
    printf("= sent %" PRIu64 "\n%s %u ", it.serial, it.is_write ? "AW" : "AR", it.id);
    printf("%08" PRIx64 " %u %u %u\n", it.address, it.len, it.size, it.burst);
    for (unsigned k = 0; k < it.w_beats; k++) {
        sure(tlbridge_sent_w(bridge, k, &beat) == TLBRIDGE_OK, "a W beat isn't there");
        printf("W %016" PRIx64 " %02x %u\n", payload_of(beat.data), beat.strobes, beat.last);
    }
    sure(tlbridge_sent_w(bridge, it.w_beats, &beat) == TLBRIDGE_RANGE, "a W beat too many");
}

static void perform(tlbridge *bridge, const command *it) {
    struct tlbridge_step step = {it->serial, TLBRIDGE_PERFORM, it->beat};
    printf("= %s\n", ANSWERS[by_choice ? made(bridge, &step) : tlbridge_perform(bridge, it->serial, it->beat)]);
}

static void answer_b(tlbridge *bridge, unsigned id) {
    unsigned resp = 4;
    int answer = tlbridge_answer_b(bridge, id, &resp);
    if (answer == TLBRIDGE_B) printf("B %u %s\n", id, RESPONSES[resp]);
    else printf("= %s\n", ANSWERS[answer]);
}

static void answer_r(tlbridge *bridge, unsigned id) {
    uint8_t data[8];
    unsigned resp = 4;
    bool last = false;
    int answer = tlbridge_answer_r(bridge, id, data, &resp, &last);
    if (answer == TLBRIDGE_R) printf("R %u %016" PRIx64 " %s %d\n", id, payload_of(data), RESPONSES[resp], last);
    else printf("= %s\n", ANSWERS[answer]);
}

static void take(tlbridge *bridge, unsigned client) {
    uint64_t found = 0;
    unsigned beats = 0;
    struct tlbridge_d it;
    int answer = tlbridge_take(bridge, client, &found, &beats);
    if (answer != TLBRIDGE_REPLY) {
        printf("= %s\n", ANSWERS[answer]);
        return;
    }
    printf("= reply %" PRIu64 "\n", found);
    for (unsigned k = 0; k < beats; k++) {
        sure(tlbridge_reply_d(bridge, k, &it) == TLBRIDGE_OK, "a D beat isn't there");
        printf("D %u %u %u %u %u %u %016" PRIx64 " %u\n", client, it.opcode, it.param, it.size, it.source, it.denied, payload_of(it.data),
               it.corrupt);
    }
    sure(tlbridge_reply_d(bridge, beats, &it) == TLBRIDGE_RANGE, "a D beat too many");
}

/* A drain: each time the first of the choices, which leaves as many steps as the work says. */
static int64_t drained(tlbridge *bridge) {
    struct tlbridge_step step;
    int64_t steps = 0;
    if (!by_choice) return tlbridge_drain(bridge);
    for (; tlbridge_choose(bridge, 0, &step) == TLBRIDGE_OK; steps++) sure(tlbridge_make(bridge, &step) >= 0, "a choice isn't made");
    sure(tlbridge_choices(bridge) == 0 && tlbridge_work(bridge) == 0 && tlbridge_in_flight(bridge) == 0, "a drain leaves work");
    return steps;
}

static void byte(tlbridge *bridge, uint64_t address) {
    int found = tlbridge_byte(bridge, address);
    if (found == TLBRIDGE_NO_BYTE) puts("= mem --");
    else printf("= mem %02x\n", (unsigned)found);
}

static void carry_out(tlbridge *bridge, const command *it) {
    switch (it->name) {
    case 'a': offer(bridge, it); break;
    case 'p': pump(bridge); break;
    case 'd': perform(bridge, it); break;
    case 'b': answer_b(bridge, it->client); break;
    case 'r': answer_r(bridge, it->client); break;
    case 't': take(bridge, it->client); break;
    case 'D': printf("= drained %" PRId64 "\n", drained(bridge)); break;
    case 'm': byte(bridge, it->address); break;
    default: printf("= work %" PRId64 "\n", tlbridge_work(bridge)); break;
    }
}

/* ---- A script. */

static char *line, *setup;
static size_t line_room, setup_length, setup_room;

static int ends_with(tlbridge *bridge, int status) {
    tlbridge_free(bridge), free(line), free(setup);
    return status;
}

/* The next line; its length is without its line feed, and a zero byte, which no line may have, stands as another such. */
static bool next_line(size_t *length) {
    ssize_t found = getline(&line, &line_room, stdin);
    if (found < 0) return false;
    *length = (size_t)found - (line[found - 1] == '\n');
    for (size_t k = 0; k < *length; k++) if (!line[k]) line[k] = 1;
    return true;
}

static void add_to_setup(size_t length) {
    if (setup_length + length + 2 > setup_room) setup = realloc(setup, setup_room = 2 * (setup_length + length + 2));
    memcpy(setup + setup_length, line, length);
    setup_length += length, setup[setup_length++] = '\n', setup[setup_length] = 0;
}

static int fault(tlbridge *bridge, const char *text, int status) {
    fprintf(stderr, "%s\n", text);
    return ends_with(bridge, status == TLBRIDGE_MEMORY ? 4 : 2);
}

static int script_fault(tlbridge *bridge, unsigned long at, int word) {
    fprintf(stderr, "script fault: line %lu, word %d\n", at, word);
    return ends_with(bridge, 2);
}

int main(int count, char **given) {
    unsigned long at = 0;
    size_t length = 0;
    words in;
    command first = {0};
    char text[64];
    int status;
    by_choice = count > 1 && !strcmp(given[1], "choices");
    setup = calloc(setup_room = 1, 1);
    in.wrong = RIGHT;
    while (!first.name && next_line(&length)) {
        split(&in, line, length), at++;
        if (named(&in)) first = read_command(&in);
        else add_to_setup(length);
    }
    tlbridge *bridge = tlbridge_new(setup, &status, text, sizeof text);
    if (!bridge && status <= TLBRIDGE_WORD) return fault(bridge, text, status);
    if (first.name && in.wrong != RIGHT) return script_fault(bridge, at, in.wrong);
    if (!bridge) return fault(bridge, text, status);
    if (first.name) carry_out(bridge, &first);
    while (next_line(&length)) {
        split(&in, line, length), at++;
        if (in.wrong == RIGHT && (!in.count || in.at[0][0] == '#')) continue;
        command it = read_command(&in);
        if (in.wrong != RIGHT) return script_fault(bridge, at, in.wrong);
        carry_out(bridge, &it);
    }
    return ends_with(bridge, 0);
}
