/* Random adds and removes, before events and between them: the engine does what one does that is opened anew with the same table, and
 * its sessions do what each does in a handle of its own; outputs that weren't read, and the others' timers, stay. */
#include "check.h"

#ifndef RUNS
#define RUNS 60
#endif
enum { MOST = 40, EVENTS = 600, LINES = MOST * 120 };

static uint64_t drawn = 88172645463325252u;

static uint32_t draw(uint32_t below) {
    drawn ^= drawn << 13, drawn ^= drawn >> 7, drawn ^= drawn << 17;
    return (uint32_t)(drawn >> 32) % below;
}

/* What stands: by discriminator, a session's fields or a reflector. */
static struct { bool session, reflector; bfdd_session fields; bfdd_handle alone; } at[MOST + 1];

/* The session of this discriminator; its kind and its addresses follow from that. */
static bfdd_session fields_of(uint32_t discr) {
    bfdd_session s = {.size = sizeof s, .kind = 1 + discr % 5, .discr = discr, .other = 1000 + discr, .iface = discr,
                      .local = {4, {10, 0, 0, 1}}, .remote = {4, {10, 1, 0, (uint8_t)discr}}, .active = draw(2), .tx = 50000 + draw(4) * 50000, .rx = 100000, .mult = 1 + draw(3),
                      .echo = discr % 5 == 0 && draw(2) ? 60000 : 0, .seed = draw(UINT32_MAX)};
    if (s.kind == BFDD_TAIL) s.local = (bfdd_address){4, {239, 0, 0, (uint8_t)discr}};
    if (s.kind == BFDD_HEAD) s.remote = (bfdd_address){4, {239, 0, 0, (uint8_t)discr}};
    return s;
}

/* The line of a table that has it. */
static int line_of(char *to, uint32_t d) {
    const bfdd_session *s = &at[d].fields;
    const char *role = s->active ? "active" : "passive";
    if (at[d].reflector) return sprintf(to, "reflector %u 50000 up\n", d);
    if (!at[d].session) return 0;
    switch (s->kind) {
    case BFDD_SINGLE_HOP: return sprintf(to, "p2p %u single %u 10.0.0.1 10.1.0.%u %s %u %u %u %u %u\n", d, d, d, role, s->tx, s->rx, s->mult, s->echo, s->seed);
    case BFDD_MULTIHOP: return sprintf(to, "p2p %u multi %u 10.0.0.1 10.1.0.%u %s %u %u %u 0 %u\n", d, d, d, role, s->tx, s->rx, s->mult, s->seed);
    case BFDD_INITIATOR: return sprintf(to, "sbfd %u %u %u 10.0.0.1 10.1.0.%u %u %u %u\n", d, s->other, d, d, s->tx, s->mult, s->seed);
    case BFDD_HEAD: return sprintf(to, "head %u %u 10.0.0.1 239.0.0.%u %u %u %u\n", d, d, d, s->tx, s->mult, s->seed);
    default: return sprintf(to, "tail %u %u %u 239.0.0.%u 10.1.0.%u\n", d, s->other, d, d, d);
    }
}

/* Something comes or goes, or is refused. */
static void change(bfdd_handle *engine) {
    uint32_t d = 1 + draw(MOST), there = at[d].session || at[d].reflector;
    if (draw(3) == 0 && !at[d].session) {
        CHECK(bfdd_add_reflector(engine, d, 50000, 1), there ? BFDD_TAKEN_DISCR : BFDD_DONE);
        at[d].reflector = true;
    } else if (draw(3)) {
        bfdd_session s = fields_of(d);
        CHECK(bfdd_add(engine, &s), there ? BFDD_TAKEN_DISCR : BFDD_DONE);
        if (there) return;
        CHECK(bfdd_open_session(&at[d].alone, &s), BFDD_DONE);
        at[d].session = true, at[d].fields = s;
        s.discr = 999;
        CHECK(bfdd_add(engine, &s), s.kind == BFDD_SINGLE_HOP || s.kind == BFDD_MULTIHOP || s.kind == BFDD_TAIL ? BFDD_TAKEN_ADDRESSES : BFDD_DONE);
        bfdd_remove(engine, 999);
    } else if (draw(2)) {
        CHECK(bfdd_remove(engine, d), at[d].session ? BFDD_DONE : BFDD_NOT_FOUND);
        bfdd_close(&at[d].alone);
        at[d].session = false;
    } else {
        CHECK(bfdd_remove_reflector(engine, d), at[d].reflector ? BFDD_DONE : BFDD_NOT_FOUND);
        at[d].reflector = false;
    }
}

typedef struct { uint32_t kind, discr, verb; uint64_t ms, value; bfdd_packet packet; uint8_t bytes[24]; } event;

static event next_event(uint64_t ms) {
    uint32_t d = 1 + draw(MOST);
    bfdd_session s = fields_of(d);
    event it = {.kind = draw(8), .discr = d, .verb = 1 + draw(10), .ms = ms, .value = draw(2) ? draw(9) : 50000 + draw(100000)};
    it.packet = (bfdd_packet){sizeof it.packet, BFDD_PORT_SINGLE, ms * 1000 + draw(1000), d, 49152, 255, s.remote, s.local};
    memcpy(it.bytes, down, sizeof down);
    it.bytes[1] = (uint8_t)(draw(4) << 6), it.bytes[11] = (uint8_t)(draw(3) ? d : 0);
    if (s.kind == BFDD_MULTIHOP) it.packet.port = BFDD_PORT_MULTI;
    if (s.kind == BFDD_INITIATOR) it.packet.port = BFDD_PORT_ANSWER, it.bytes[6] = (uint8_t)(s.other >> 8), it.bytes[7] = (uint8_t)s.other;
    if (s.kind == BFDD_TAIL) it.bytes[1] = (uint8_t)(draw(4) << 6 | 1), it.bytes[6] = (uint8_t)(s.other >> 8), it.bytes[7] = (uint8_t)s.other, it.bytes[11] = 0;
    if (draw(9) == 0) it.packet.port = BFDD_PORT_SBFD;
    return it;
}

static void happen(bfdd_handle *engine, const event *it) {
    CHECK(it->kind < 4 ? bfdd_receive(engine, &it->packet, it->bytes, sizeof it->bytes)
          : it->kind < 6 ? bfdd_tick(engine, it->ms)
          : it->kind == 6 ? bfdd_command(engine, it->ms * 1000, it->discr, it->verb, it->value)
          : bfdd_show(engine, it->ms * 1000, it->discr), BFDD_DONE);
}

static bool same_output(bfdd_handle *one, bfdd_handle *other) {
    bfdd_output out = BFDD_OUTPUT_INIT, its = BFDD_OUTPUT_INIT;
    uint32_t code = bfdd_next(one, &out);
    CHECK(code, bfdd_next(other, &its));
    CHECK(memcmp(&out, &its, sizeof out), 0);
    return code == BFDD_DONE;
}

static void same_answer(bfdd_handle *one, bfdd_handle *other) {
    bfdd_answered answer = BFDD_ANSWERED_INIT, its = BFDD_ANSWERED_INIT;
    CHECK(bfdd_answer(one, &answer), bfdd_answer(other, &its));
    CHECK(memcmp(&answer, &its, sizeof answer), 0);
}

/* The engine and one that is opened anew with what stands, before any event. */
static long opened_anew(void) {
    static char text[LINES];
    bfdd_handle engine = BFDD_HANDLE_INIT, anew = BFDD_HANDLE_INIT;
    bfdd_complaint complaint = BFDD_COMPLAINT_INIT;
    long outputs = 0;
    uint64_t due = 0, its = 0;
    CHECK(open_text(&engine, "bfd 2\nrun\nend\n", &complaint), BFDD_DONE);
    for (uint32_t left = 20 + draw(200); left; left--) change(&engine);
    int length = sprintf(text, "bfd 2\n");
    for (uint32_t d = MOST; d; d--) length += line_of(text + length, d);
    strcpy(text + length, "run\nend\n");
    CHECK(open_text(&anew, text, &complaint), BFDD_DONE);
    for (uint64_t ms = 0; ms < EVENTS; ms++) {
        event it = next_event(7 * ms);
        happen(&engine, &it), happen(&anew, &it);
        CHECK(bfdd_due(&engine, &due), bfdd_due(&anew, &its));
        CHECK(due, its);
        same_answer(&engine, &anew);
        while (same_output(&engine, &anew)) outputs++;
    }
    bfdd_close(&engine), bfdd_close(&anew);
    return outputs;
}

/* The next outputs of the engine are those of the session by itself, also where another comes and goes meanwhile. */
static long same_outputs(bfdd_handle *engine, uint32_t d) {
    long outputs = 0;
    bfdd_output out = BFDD_OUTPUT_INIT, its = BFDD_OUTPUT_INIT;
    bfdd_session other = fields_of(2);
    other.discr = draw(2) * 999;
    for (; bfdd_next(&at[d].alone, &its) == BFDD_DONE; outputs++) {
        CHECK(bfdd_add(engine, &other), other.discr ? BFDD_DONE : BFDD_RANGE);
        CHECK(bfdd_remove(engine, other.discr), other.discr ? BFDD_DONE : BFDD_NOT_FOUND);
        CHECK(bfdd_next(engine, &out), BFDD_DONE);
        CHECK(memcmp(&out, &its, sizeof out), 0);
    }
    return outputs;
}

/* The least tick that a session by itself needs is what the engine needs. */
static void same_due(bfdd_handle *engine) {
    uint64_t due = UINT64_MAX, its, least = UINT64_MAX;
    for (uint32_t d = 1; d <= MOST; d++)
        if (at[d].session && bfdd_due(&at[d].alone, &its) == BFDD_DONE && its < least) least = its;
    CHECK(bfdd_due(engine, &due), least == UINT64_MAX ? BFDD_END : BFDD_DONE);
    CHECK(due, least);
}

/* The engine and its sessions each in a handle of its own, with changes between the events. Packets for reflectors aren't handed in. */
static long each_alone(void) {
    bfdd_handle engine = BFDD_HANDLE_INIT;
    bfdd_complaint complaint = BFDD_COMPLAINT_INIT;
    bfdd_output out = BFDD_OUTPUT_INIT;
    bfdd_answered answer = BFDD_ANSWERED_INIT;
    long outputs = 0;
    CHECK(open_text(&engine, "bfd 2\nrun\nend\n", &complaint), BFDD_DONE);
    for (uint32_t d = 1; d <= MOST; d++) bfdd_close(&at[d].alone), at[d].session = at[d].reflector = false;
    for (uint64_t ms = 0; ms < EVENTS; ms++) {
        event it = next_event(7 * ms);
        uint32_t d = it.discr;
        bool is_tick = it.kind == 4 || it.kind == 5;
        if (it.packet.port == BFDD_PORT_SBFD) continue;
        happen(&engine, &it);
        for (uint32_t k = 1; k <= MOST; k++)
            if (at[k].session && (is_tick || k == d)) happen(&at[k].alone, &it);
        /* the first outputs that come may be read after a change of others */
        if (!is_tick && at[d].session) {
            same_answer(&engine, &at[d].alone);
            outputs += same_outputs(&engine, d);
        } else if (is_tick) {
            for (uint32_t k = 1; k <= MOST; k++)
                if (at[k].session) outputs += same_outputs(&engine, k);
        } else {
            CHECK(bfdd_answer(&engine, &answer), BFDD_DONE);
            CHECK(answer.kind, it.kind < 4 ? BFDD_DROPPED : BFDD_REFUSED);
            CHECK(answer.discr, 0);
        }
        CHECK(bfdd_next(&engine, &out), BFDD_END);
        same_due(&engine);
        for (uint32_t left = draw(3); left; left--) change(&engine);
        same_due(&engine);
    }
    bfdd_close(&engine);
    return outputs;
}

int main(void) {
    long anew = 0, alone = 0;
    for (int run = 0; run < RUNS; run++) {
        for (uint32_t d = 1; d <= MOST; d++) bfdd_close(&at[d].alone), at[d].session = at[d].reflector = false;
        anew += opened_anew();
        alone += each_alone();
    }
    for (uint32_t d = 1; d <= MOST; d++) bfdd_close(&at[d].alone);
    CHECK(anew > RUNS * 100 && alone > RUNS * 100, true);
    printf("%ld outputs as of an engine opened anew, %ld as of sessions alone\n", anew, alone);
    return 0;
}
