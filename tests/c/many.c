/* Packets and outputs many at once, beside a twin handle that gets the same one by one: answers, outputs and due ticks are the same.
 * Each request for memory is refused once: then the packets before are handled, and nothing behind them. */
#include "check.h"
#include "refusing.h"

enum { ROUNDS = 20000, MOST = BFDD_MANY + 1 };

static uint64_t drawn = 88172645463325252u;

static uint32_t draw(uint32_t below) {
    drawn ^= drawn << 13, drawn ^= drawn >> 7, drawn ^= drawn << 17;
    return (uint32_t)(drawn >> 32) % below;
}

/* A packet for one of the sessions, or for none; one in fifty has a value outside its range, one in three a long payload. */
static bfdd_arrival next_arrival(uint64_t moment, uint8_t payload[64]) {
    memset(payload, 0, 64);
    memcpy(payload, down, sizeof down);
    payload[1] = (uint8_t)(draw(4) << 6 | (draw(4) ? 0 : 32 >> draw(2))), payload[11] = draw(3) ? 2 : 0;
    bfdd_arrival it = {.packet = from_peer, .payload = payload, .length = draw(3) ? sizeof down : 64};
    it.packet.moment = moment, it.packet.iface = draw(50) ? 1 + draw(2) : 65536;
    it.packet.port = draw(4) ? BFDD_PORT_SINGLE : 1 + draw(5);
    return it;
}

static long outputs_read;

/* What is left to be read of both is the same: of one by these many places, of the other one by one. */
static void same_outputs(bfdd_handle *many, bfdd_handle *single) {
    bfdd_output out[MOST] = {[0 ... MOST - 1] = BFDD_OUTPUT_INIT}, next = BFDD_OUTPUT_INIT;
    const size_t room = 1 + draw(BFDD_MANY);
    size_t count = 77;
    uint32_t code;
    while ((code = bfdd_outputs(many, out, room, &count)) == BFDD_DONE) {
        CHECK(count > 0 && count <= room, true);
        for (size_t at = 0; at < count; at++) {
            CHECK(bfdd_next(single, &next), BFDD_DONE);
            CHECK(memcmp(&out[at], &next, sizeof next), 0);
        }
        outputs_read += (long)count;
    }
    CHECK(code, BFDD_END);
    CHECK(count, 0);
    CHECK(bfdd_next(single, &next), BFDD_END);
}

static void same_due(bfdd_handle *many, bfdd_handle *single) {
    uint64_t due = 0, others = 0;
    CHECK(bfdd_due(many, &due), bfdd_due(single, &others));
    CHECK(due, others);
}

/* The twin gets what was handled, and answers the same; only the last packet left outputs. */
static void same_packets(bfdd_handle *many, bfdd_handle *single, const bfdd_arrival *in, const bfdd_answered *answers, size_t handled) {
    bfdd_answered answer = BFDD_ANSWERED_INIT, last = BFDD_ANSWERED_INIT;
    bfdd_output out = BFDD_OUTPUT_INIT;
    for (size_t at = 0; at < handled; at++) {
        if (at) CHECK(bfdd_next(single, &out), BFDD_END);
        CHECK(bfdd_receive(single, &in[at].packet, in[at].payload, in[at].length), BFDD_DONE);
        CHECK(bfdd_answer(single, &answer), BFDD_DONE);
        CHECK(memcmp(&answer, &answers[at], sizeof answer), 0);
    }
    CHECK(bfdd_answer(many, &last), BFDD_DONE);
    CHECK(bfdd_answer(single, &answer), BFDD_DONE);
    CHECK(memcmp(&answer, &last, sizeof answer), 0);
    same_due(many, single);
}

/* A place that has bytes of its own behind its size. */
static bfdd_answered untouched(void) {
    bfdd_answered none;
    memset(&none, 0x77, sizeof none);
    none.size = sizeof none;
    return none;
}

static bool is_untouched(const bfdd_answered *answer) {
    const bfdd_answered none = untouched();
    return !memcmp(answer, &none, sizeof none);
}

static long refusals, most_handled;

/* All of a list, call after call. */
static void hand_in(bfdd_handle *many, bfdd_handle *single, const bfdd_arrival *in, size_t count) {
    bfdd_answered answers[MOST];
    for (size_t at = 0; at < MOST; at++) answers[at] = untouched();
    for (size_t at = 0, handled = 77; at < count; at += handled) {
        const long stood = blocks;
        asked = 0, refused = draw(3) ? 0 : 1 + (long)draw(3);
        const uint32_t code = bfdd_packets(many, in + at, count - at, answers + at, count - at + draw(2), &handled);
        refused = 0;
        CHECK(handled <= count - at, true);
        same_packets(many, single, in + at, answers + at, handled);
        for (size_t other = at + handled; other < MOST; other++) CHECK(is_untouched(&answers[other]), true);
        if (code == BFDD_MEMORY) CHECK(blocks >= stood - 1 && in[at + handled].length > 52, true);
        refusals += code == BFDD_MEMORY;
        if ((long)handled > most_handled) most_handled = (long)handled;
        if (code == BFDD_DONE && at + handled < count) {
            bfdd_output out = BFDD_OUTPUT_INIT, others = BFDD_OUTPUT_INIT;
            CHECK(bfdd_next(many, &out), BFDD_DONE);
            CHECK(bfdd_next(single, &others), BFDD_DONE);
            CHECK(memcmp(&out, &others, sizeof out), 0);
        }
        same_outputs(many, single);
        if (code != BFDD_RANGE) continue;
        CHECK(in[at + handled].packet.iface, 65536);
        CHECK(bfdd_receive(single, &in[at + handled].packet, down, sizeof down), BFDD_RANGE);
        handled++;
    }
}

static void codes(void) {
    bfdd_handle engine = BFDD_HANDLE_INIT;
    bfdd_arrival in[MOST];
    bfdd_answered answers[MOST];
    bfdd_output out[MOST] = {[0 ... MOST - 1] = BFDD_OUTPUT_INIT};
    uint8_t payload[64];
    size_t count = 77;
    for (int at = 0; at < MOST; at++) in[at] = next_arrival(1000, payload), in[at].packet.iface = 1, answers[at] = untouched();
    CHECK(bfdd_packets(&engine, in, 1, answers, 1, &count), BFDD_CLOSED);
    CHECK(count, 0);
    count = 77, out[0].kind = 99;
    CHECK(bfdd_outputs(&engine, out, 1, &count), BFDD_CLOSED);
    CHECK(count, 0);
    CHECK(bfdd_open_session(&engine, &pair), BFDD_DONE);
    count = 77;
    CHECK(bfdd_packets(&engine, in, MOST, answers, MOST, &count), BFDD_RANGE);
    CHECK(count, 0);
    count = 77;
    CHECK(bfdd_packets(&engine, in, 2, answers, 1, &count), BFDD_RANGE);
    CHECK(count, 0);
    /* each packet and each place with a packet's number has its size; behind too many, and before values outside their ranges */
    for (int at = 0; at < 3; at++) {
        in[2].packet.iface = 65536, in[at].packet.size++, count = 77;
        CHECK(bfdd_packets(&engine, in, 3, answers, 2, &count), BFDD_RANGE);
        CHECK(bfdd_packets(&engine, in, 3, answers, 3, &count), BFDD_SIZE);
        CHECK(count, 0);
        in[at].packet.size--, answers[at].size--, count = 77;
        CHECK(bfdd_packets(&engine, in, 3, answers, MOST, &count), BFDD_SIZE);
        CHECK(count, 0);
        answers[at].size++, in[2].packet.iface = 1;
    }
    CHECK(bfdd_packets(&engine, in, 0, answers, 0, &count), BFDD_DONE);
    for (int at = 0; at < MOST; at++) CHECK(is_untouched(&answers[at]), true);
    CHECK(count, 0);
    CHECK(bfdd_outputs(&engine, out, 1, &count), BFDD_END);
    /* each place that would get an output has its size, the others may have any */
    CHECK(bfdd_receive(&engine, &from_peer, down, sizeof down), BFDD_DONE);
    for (int at = 0; at < 2; at++) {
        out[at].size++, count = 77;
        CHECK(bfdd_outputs(&engine, out, MOST, &count), BFDD_RANGE);
        CHECK(bfdd_outputs(&engine, out, BFDD_MANY, &count), BFDD_SIZE);
        CHECK(count, 0);
        CHECK(out[0].kind, 99);
        out[at].size--;
    }
    out[2].size++;
    CHECK(bfdd_outputs(&engine, out, BFDD_MANY, &count), BFDD_DONE);
    CHECK(count, 2);
    CHECK(bfdd_outputs(&engine, out + 2, 1, &count), BFDD_END);
    out[0].kind = 99, out[1].kind = 0, out[2].size--;
    CHECK(bfdd_tick(&engine, 2000), BFDD_DONE);
    count = 77;
    CHECK(bfdd_outputs(&engine, out, 0, &count), BFDD_RANGE);
    CHECK(count, 0);
    CHECK(bfdd_outputs(&engine, out, MOST, &count), BFDD_RANGE);
    CHECK(count, 0);
    CHECK(out[0].kind, 99);
    CHECK(bfdd_outputs(&engine, out, BFDD_MANY, &count), BFDD_DONE);
    CHECK(count > 0, true);
    CHECK(out[0].kind, BFDD_SENT);
    CHECK(out[count].kind, 0);
    bfdd_close(&engine);
}

int main(void) {
    bfdd_handle many = BFDD_HANDLE_INIT, single = BFDD_HANDLE_INIT;
    bfdd_complaint complaint = BFDD_COMPLAINT_INIT;
    static bfdd_arrival in[BFDD_MANY];
    static uint8_t payloads[BFDD_MANY][64];
    const long before = blocks;
    codes();
    CHECK(open_text(&many, all_kinds, &complaint), BFDD_DONE);
    CHECK(open_text(&single, all_kinds, &complaint), BFDD_DONE);
    for (uint64_t ms = 1; ms <= ROUNDS; ms++) {
        const size_t count = draw(BFDD_MANY + 1);
        for (size_t at = 0; at < count; at++) in[at] = next_arrival(ms * 1000 + at, payloads[at]);
        hand_in(&many, &single, in, count);
        CHECK(bfdd_tick(&many, ms), BFDD_DONE);
        CHECK(bfdd_tick(&single, ms), BFDD_DONE);
        if (draw(4)) same_outputs(&many, &single);
        same_due(&many, &single);
    }
    bfdd_close(&many);
    bfdd_close(&single);
    CHECK(blocks, before);
    CHECK(most_handled > 20, true);
    CHECK(refusals > 1000, true);
    printf("%ld calls ended for memory, %ld outputs read, up to %ld packets by one call\n", refusals, outputs_read, most_handled);
    return 0;
}
