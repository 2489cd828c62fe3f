/* The calls of zuldegei.h for the model, each as the words of calls that the proved library takes: crates/bridge_calls has what they mean.
   It keeps nothing of its own: a bridge is where the library's own value lies. */
#include "calls.h"

/* The proved library. */
#ifdef __cplusplus
extern "C" {
#endif
bool tlbridge_open(void **out);
uint64_t tlbridge_call(void *at, uint64_t word);
#ifdef __cplusplus
}
#endif

/* The kinds of calls, as crates/bridge_calls/src/kinds.rt has them. */
enum {
    OFFER, PUMP, PERFORM, ANSWER_B, ANSWER_R, TAKE, DRAIN, LINE, BEGIN, CLOSE, FAULT_LENGTH, TEXT_BYTE, ANSWER_NUMBER, ANSWER_PAYLOAD,
    CHOICES, CHOICE, CHOICE_SERIAL, BYTE, WORK, IN_FLIGHT, BURST, BURST_ADDRESS, BURST_DATA, BURST_STROBES, REPLY_BEATS, REPLY_FIELDS,
    REPLY_PAYLOAD
};

/* A head has room for the place of a beat or a step up to here. */
static const uint64_t MOST_PLACE = UINT32_MAX;

static const handle_calls BRIDGE = {tlbridge_open, tlbridge_call, LINE, BEGIN, CLOSE, FAULT_LENGTH, TEXT_BYTE};

/* A part of a word: so many bits from a place on. */
static uint32_t part(uint64_t word, unsigned place, unsigned bits) { return (uint32_t)(word >> place & ((UINT64_C(1) << bits) - 1)); }
static uint32_t byte_of(uint64_t word, unsigned place) { return part(word, 8 * place, 8); }

/* A payload, lane 0 first. */
static void lanes_of(uint64_t payload, uint8_t *data) {
    for (unsigned k = 0; k < 8; k++) data[k] = (uint8_t)(payload >> 8 * k);
}

/* The call of a kind about the beat or step at a place. */
static uint64_t asked_at(tlbridge *bridge, uint64_t kind, uint64_t place) { return tlbridge_call(bridge, kind | place << 32); }

/* A number that is asked for. */
static int64_t number_of(tlbridge *bridge, uint64_t kind) {
    if (!bridge) return TLBRIDGE_NULL;
    return (int64_t)tlbridge_call(bridge, kind);
}

/* A step of a head alone. */
static int step_of(tlbridge *bridge, uint64_t head) { return status_of(tlbridge_call(bridge, head)); }

/* A step about a client or an ID. */
static int step_by(tlbridge *bridge, uint64_t kind, unsigned which) {
    if (!bridge) return TLBRIDGE_NULL;
    return which > 255 ? TLBRIDGE_RANGE : step_of(bridge, kind | byte_at(1, which));
}

tlbridge *tlbridge_new(const char *setup, int *status, char *fault, size_t room) {
    return (tlbridge *)opened(&BRIDGE, setup, status, fault, room);
}

void tlbridge_free(tlbridge *bridge) { give_back(&BRIDGE, bridge); }

int tlbridge_offer(tlbridge *bridge, unsigned client, unsigned opcode, unsigned param, unsigned size, unsigned source, uint64_t address,
                   uint64_t mask, const uint8_t *data, size_t length, bool corrupt, uint64_t *number) {
    if (!bridge || (!data && length)) return TLBRIDGE_NULL;
    if (length != 8 && (length || opcode < 4)) return TLBRIDGE_RANGE;
    if (!are_bytes(client, opcode, param, size, source) || address > UINT32_MAX || mask > 255) return TLBRIDGE_RANGE;
    tlbridge_call(bridge, OFFER | byte_at(1, client) | byte_at(2, opcode) | byte_at(3, param) | byte_at(4, size) | byte_at(5, source)
                              | byte_at(6, mask) | byte_at(7, corrupt));
    tlbridge_call(bridge, address);
    int answer = status_of(tlbridge_call(bridge, word_of(data, length, 0)));
    if (number && (answer == TLBRIDGE_ACCEPTED || answer == TLBRIDGE_REFUSED)) *number = tlbridge_call(bridge, ANSWER_NUMBER);
    return answer;
}

int tlbridge_take(tlbridge *bridge, unsigned client, uint64_t *number, unsigned *beats) {
    int answer = step_by(bridge, TAKE, client);
    if (answer != TLBRIDGE_REPLY) return answer;
    if (number) *number = tlbridge_call(bridge, ANSWER_NUMBER);
    if (beats) *beats = (unsigned)tlbridge_call(bridge, REPLY_BEATS);
    return answer;
}

int tlbridge_reply_d(tlbridge *bridge, unsigned k, struct tlbridge_d *beat) {
    if (!bridge || !beat) return TLBRIDGE_NULL;
    if (k >= tlbridge_call(bridge, REPLY_BEATS)) return TLBRIDGE_RANGE;
    uint64_t fields = asked_at(bridge, REPLY_FIELDS, k);
    lanes_of(asked_at(bridge, REPLY_PAYLOAD, k), beat->data);
    beat->opcode = byte_of(fields, 0), beat->param = byte_of(fields, 1), beat->size = byte_of(fields, 2);
    beat->source = byte_of(fields, 3), beat->denied = byte_of(fields, 4), beat->corrupt = byte_of(fields, 5);
    return TLBRIDGE_OK;
}

int tlbridge_pump(tlbridge *bridge, struct tlbridge_burst *burst) {
    if (!bridge) return TLBRIDGE_NULL;
    int answer = step_of(bridge, PUMP);
    if (answer != TLBRIDGE_SENT || !burst) return answer;
    uint64_t head = tlbridge_call(bridge, BURST);
    burst->serial = tlbridge_call(bridge, ANSWER_NUMBER), burst->address = tlbridge_call(bridge, BURST_ADDRESS);
    burst->is_write = byte_of(head, 0) == 1, burst->id = byte_of(head, 1), burst->len = byte_of(head, 2);
    burst->size = byte_of(head, 3), burst->burst = byte_of(head, 4), burst->w_beats = burst->is_write ? burst->len + 1 : 0;
    return answer;
}

int tlbridge_sent_w(tlbridge *bridge, unsigned k, struct tlbridge_w *beat) {
    if (!bridge || !beat) return TLBRIDGE_NULL;
    uint64_t head = tlbridge_call(bridge, BURST);
    if (byte_of(head, 0) != 1 || k > byte_of(head, 2)) return TLBRIDGE_RANGE;
    uint64_t strobes = asked_at(bridge, BURST_STROBES, k);
    lanes_of(asked_at(bridge, BURST_DATA, k), beat->data);
    beat->strobes = byte_of(strobes, 0), beat->last = byte_of(strobes, 1);
    return TLBRIDGE_OK;
}

int tlbridge_perform(tlbridge *bridge, uint64_t serial, unsigned beat) {
    if (!bridge) return TLBRIDGE_NULL;
    if (beat > UINT16_MAX) return TLBRIDGE_RANGE;
    tlbridge_call(bridge, PERFORM | byte_at(1, beat));
    return status_of(tlbridge_call(bridge, serial));
}

int tlbridge_answer_b(tlbridge *bridge, unsigned id, unsigned *resp) {
    int answer = step_by(bridge, ANSWER_B, id);
    if (answer == TLBRIDGE_B && resp) *resp = byte_of(tlbridge_call(bridge, ANSWER_NUMBER), 1);
    return answer;
}

int tlbridge_answer_r(tlbridge *bridge, unsigned id, uint8_t *data, unsigned *resp, bool *last) {
    int answer = step_by(bridge, ANSWER_R, id);
    if (answer != TLBRIDGE_R) return answer;
    uint64_t fields = tlbridge_call(bridge, ANSWER_NUMBER);
    if (data) lanes_of(tlbridge_call(bridge, ANSWER_PAYLOAD), data);
    if (resp) *resp = byte_of(fields, 1);
    if (last) *last = byte_of(fields, 2) == 1;
    return answer;
}

int64_t tlbridge_drain(tlbridge *bridge) { return number_of(bridge, DRAIN); }
int64_t tlbridge_choices(tlbridge *bridge) { return number_of(bridge, CHOICES); }

int tlbridge_choose(tlbridge *bridge, uint64_t k, struct tlbridge_step *step) {
    if (!bridge || !step) return TLBRIDGE_NULL;
    uint64_t head = k > MOST_PLACE ? 0 : asked_at(bridge, CHOICE, k);
    if (!head) return TLBRIDGE_RANGE;
    step->kind = byte_of(head, 0), step->place = part(head, 8, 16);
    step->serial = step->kind == TLBRIDGE_PERFORM ? asked_at(bridge, CHOICE_SERIAL, k) : 0;
    return TLBRIDGE_OK;
}

int tlbridge_make(tlbridge *bridge, const struct tlbridge_step *step) {
    if (!bridge || !step) return TLBRIDGE_NULL;
    switch (step->kind) {
    case TLBRIDGE_PUMP: return tlbridge_pump(bridge, NULL);
    case TLBRIDGE_PERFORM: return tlbridge_perform(bridge, step->serial, step->place);
    case TLBRIDGE_ANSWER_B: return tlbridge_answer_b(bridge, step->place, NULL);
    case TLBRIDGE_ANSWER_R: return tlbridge_answer_r(bridge, step->place, NULL, NULL, NULL);
    default: return TLBRIDGE_RANGE;
    }
}

int tlbridge_byte(tlbridge *bridge, uint64_t address) {
    if (!bridge) return TLBRIDGE_NULL;
    if (address > UINT32_MAX) return TLBRIDGE_RANGE;
    uint64_t answer = asked_at(bridge, BYTE, address);
    return answer < 256 ? (int)answer : TLBRIDGE_NO_BYTE;
}

int64_t tlbridge_work(tlbridge *bridge) { return number_of(bridge, WORK); }
int64_t tlbridge_in_flight(tlbridge *bridge) { return number_of(bridge, IN_FLIGHT); }
