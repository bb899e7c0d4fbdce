/* A handle, of whose requests for memory each is refused once, and its twin, of whose requests none is: after BFDD_MEMORY all is as it
 * was, outputs that weren't read too, so that both give the same from the first event to the last. */
#include "check.h"
#include "refusing.h"

enum { EVENTS = 100000 };

static uint64_t drawn = 88172645463325252u;

static uint32_t draw(uint32_t below) {
    drawn ^= drawn << 13, drawn ^= drawn >> 7, drawn ^= drawn << 17;
    return (uint32_t)(drawn >> 32) % below;
}

typedef struct {
    uint32_t kind, discr, verb;
    uint64_t ms, value;
    bfdd_packet packet;
    size_t length;
    uint8_t bytes[64]; /* a long payload has bytes behind the packet */
} event;

static event next_event(uint64_t ms) {
    static const uint32_t discrs[] = {1, 2, 5, 30, 40, 901, 77};
    event it = {.kind = draw(12), .discr = discrs[draw(7)], .verb = 1 + draw(10), .ms = ms, .value = draw(2) ? draw(9) : 10000 + draw(900000)};
    it.packet = from_peer;
    it.packet.moment = ms * 1000 + draw(1000), it.packet.port = draw(4) ? BFDD_PORT_SINGLE : 1 + draw(5), it.packet.iface = 1 + draw(2);
    it.length = draw(2) ? sizeof down : sizeof it.bytes;
    memcpy(it.bytes, down, sizeof down);
    it.bytes[1] = (uint8_t)(draw(4) << 6 | (draw(4) ? 0 : 32 >> draw(2))), it.bytes[11] = draw(3) ? 2 : 0;
    return it;
}

static uint32_t happen(bfdd_handle *engine, const event *it) {
    bfdd_complaint complaint = BFDD_COMPLAINT_INIT;
    if (it->kind < 7) return bfdd_receive(engine, &it->packet, it->bytes, it->length);
    if (it->kind < 9) return bfdd_tick(engine, it->ms);
    if (it->kind == 9) return bfdd_command(engine, it->ms * 1000, it->discr, it->verb, it->value);
    if (it->kind == 10 || it->ms % 50) return bfdd_show(engine, it->ms * 1000, it->discr);
    return open_text(engine, all_kinds, &complaint);
}

/* The next output of both is the same: whether there is one. */
static bool same_output(bfdd_handle *poor, bfdd_handle *rich) {
    bfdd_output one = BFDD_OUTPUT_INIT, other = BFDD_OUTPUT_INIT;
    uint32_t code = bfdd_next(poor, &one);
    CHECK(code, bfdd_next(rich, &other));
    CHECK(memcmp(&one, &other, sizeof one), 0);
    return code == BFDD_DONE;
}

static void same_answer(bfdd_handle *poor, bfdd_handle *rich) {
    bfdd_answered one = BFDD_ANSWERED_INIT, other = BFDD_ANSWERED_INIT;
    uint64_t due = 0, others = 0;
    CHECK(bfdd_answer(poor, &one), bfdd_answer(rich, &other));
    CHECK(memcmp(&one, &other, sizeof one), 0);
    CHECK(bfdd_due(poor, &due), bfdd_due(rich, &others));
    CHECK(due, others);
}

int main(void) {
    bfdd_handle poor = BFDD_HANDLE_INIT, rich = BFDD_HANDLE_INIT;
    bfdd_complaint complaint = BFDD_COMPLAINT_INIT;
    long ended = 0, outputs = 0;
    const long before = blocks;
    CHECK(open_text(&poor, all_kinds, &complaint), BFDD_DONE);
    CHECK(open_text(&rich, all_kinds, &complaint), BFDD_DONE);
    for (uint64_t ms = 1; ms <= EVENTS; ms++) {
        event it = next_event(ms);
        uint32_t code = BFDD_MEMORY;
        for (long at = 1; code == BFDD_MEMORY; at++) {
            const long stood = blocks;
            asked = 0, refused = at;
            code = happen(&poor, &it);
            refused = 0;
            if (code != BFDD_MEMORY) break;
            CHECK(blocks, stood);
            ended++;
            same_answer(&poor, &rich);
            outputs += same_output(&poor, &rich);
        }
        CHECK(code, BFDD_DONE);
        CHECK(happen(&rich, &it), BFDD_DONE);
        same_answer(&poor, &rich);
        for (uint32_t left = draw(4); left && same_output(&poor, &rich); left--) outputs++;
    }
    bfdd_close(&poor);
    bfdd_close(&rich);
    CHECK(blocks, before);
    CHECK(ended > EVENTS / 5, true);
    printf("%ld calls ended for memory, %ld outputs compared\n", ended, outputs);
    return 0;
}
