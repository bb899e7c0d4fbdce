/* A wrong call of each kind gets its code, and changes nothing. */
#include "check.h"

static void closed(void) {
    bfdd_handle engine = BFDD_HANDLE_INIT;
    bfdd_output out = {.size = sizeof out, .kind = 77};
    bfdd_answered answer = {.size = sizeof answer, .kind = 77};
    uint64_t due = 77;
    CHECK(bfdd_receive(&engine, &from_peer, down, sizeof down), BFDD_CLOSED);
    CHECK(bfdd_tick(&engine, 1), BFDD_CLOSED);
    CHECK(bfdd_tick(&engine, UINT64_MAX), BFDD_CLOSED);
    CHECK(bfdd_command(&engine, 0, 1, BFDD_DISABLE, 0), BFDD_CLOSED);
    CHECK(bfdd_show(&engine, 0, 1), BFDD_CLOSED);
    CHECK(bfdd_add(&engine, &pair), BFDD_CLOSED);
    CHECK(bfdd_remove(&engine, 1), BFDD_CLOSED);
    CHECK(bfdd_add_reflector(&engine, 900, 50000, 1), BFDD_CLOSED);
    CHECK(bfdd_remove_reflector(&engine, 900), BFDD_CLOSED);
    CHECK(bfdd_next(&engine, &out), BFDD_CLOSED);
    CHECK(bfdd_answer(&engine, &answer), BFDD_CLOSED);
    CHECK(bfdd_due(&engine, &due), BFDD_CLOSED);
    CHECK(out.kind, 77);
    CHECK(answer.kind, 77);
    CHECK(due, 77);
    bfdd_close(&engine);
    bfdd_close(&engine);
    CHECK(engine.is_open, false);
}

/* A struct of another size is refused: behind a closed handle, and before all else that is wrong. What stands in it stays. */
static void sizes(void) {
    bfdd_handle engine = BFDD_HANDLE_INIT, closed = BFDD_HANDLE_INIT;
    bfdd_output next = BFDD_OUTPUT_INIT;
    CHECK(bfdd_open_session(&engine, &pair), BFDD_DONE);
    CHECK(bfdd_receive(&engine, &from_peer, down, sizeof down), BFDD_DONE);
    for (int number = 0; number < 4; number++) {
#define STRANGE(type) ((const uint32_t[]){0, sizeof(type) - 1, sizeof(type) + 8, UINT32_MAX}[number])
        bfdd_complaint complaint = {STRANGE(bfdd_complaint), 77, 77};
        bfdd_session session = {.size = STRANGE(bfdd_session)};
        bfdd_packet packet = {.size = STRANGE(bfdd_packet)};
        bfdd_answered answer = {.size = STRANGE(bfdd_answered), .kind = 77}, answer_before = answer;
        bfdd_session_state state = {.size = STRANGE(bfdd_session_state), .discr = 77}, state_before = state;
        bfdd_output out = {.size = STRANGE(bfdd_output), .kind = 77}, out_before = out;
        CHECK(open_text(&engine, "no table", &complaint), BFDD_SIZE);
        CHECK(bfdd_open_session(&engine, &session), BFDD_SIZE);
        CHECK(bfdd_add(&closed, &session), BFDD_CLOSED);
        CHECK(bfdd_add(&engine, &session), BFDD_SIZE);
        CHECK(bfdd_receive(&closed, &packet, down, sizeof down), BFDD_CLOSED);
        CHECK(bfdd_receive(&engine, &packet, down, sizeof down), BFDD_SIZE);
        CHECK(bfdd_answer(&closed, &answer), BFDD_CLOSED);
        CHECK(bfdd_answer(&engine, &answer), BFDD_SIZE);
        CHECK(bfdd_state(&closed, 1, &state), BFDD_CLOSED);
        CHECK(bfdd_state(&engine, 1, &state), BFDD_SIZE);
        CHECK(bfdd_state(&engine, 9, &state), BFDD_SIZE);
        CHECK(bfdd_next(&closed, &out), BFDD_CLOSED);
        CHECK(bfdd_next(&engine, &out), BFDD_SIZE);
        CHECK(complaint.size == STRANGE(bfdd_complaint) && complaint.line == 77 && complaint.fault == 77, true);
        CHECK(memcmp(&answer, &answer_before, sizeof answer), 0);
        CHECK(memcmp(&state, &state_before, sizeof state), 0);
        CHECK(memcmp(&out, &out_before, sizeof out), 0);
        CHECK(closed.is_open, false);
    }
    CHECK(bfdd_next(&engine, &next), BFDD_DONE);
    CHECK(next.kind, BFDD_CHANGED);
    while (bfdd_next(&engine, &next) == BFDD_DONE) {}
    next.size++;
    CHECK(bfdd_next(&engine, &next), BFDD_SIZE);
    bfdd_close(&engine);
}

static void texts(void) {
    bfdd_handle engine = BFDD_HANDLE_INIT;
    bfdd_complaint complaint = {sizeof complaint, 77, 77};
    uint64_t due = 0;
    CHECK(open_text(&engine, "bfd 1\nrun\nshow 1 1\nend\n", &complaint), BFDD_TEXT);
    CHECK(complaint.line, 3);
    CHECK(complaint.fault, BFDD_NO_SUCH_SESSION);
    CHECK(open_text(&engine, "bfd 1\nrun\ntick 1\nend\n", &complaint), BFDD_TEXT);
    CHECK(complaint.fault, BFDD_ORDER);
    CHECK(open_text(&engine, "", &complaint), BFDD_TEXT);
    CHECK(complaint.line, 1);
    CHECK(complaint.fault, BFDD_MISSING_END);
    complaint.line = 77;
    CHECK(open_text(&engine, "bfd 1\np2p 1 single 1 10.0.0.1 10.0.0.2 active 1000000 1000000 3 0 0\nrun\nshow 1 1\nend\n", &complaint), BFDD_EVENTS);
    CHECK(complaint.line, 77);
    CHECK(engine.is_open, false);
    CHECK(open_text(&engine, "bfd 1\np2p 1 single 1 10.0.0.1 10.0.0.2 active 1000000 1000000 3 0 0\nrun\nend\n", &complaint), BFDD_DONE);
    CHECK(bfdd_due(&engine, &due), BFDD_DONE);
    CHECK(open_text(&engine, "bfd 1\nrun\nend", &complaint), BFDD_DONE);
    CHECK(bfdd_due(&engine, &due), BFDD_END);
    bfdd_close(&engine);
}

/* Each field of a session one outside its range; and the two ends of it. */
static void fields(void) {
    bfdd_handle engine = BFDD_HANDLE_INIT;
#define WRONG(kind_, field, value) do { \
        bfdd_session s = pair; \
        s.other = 900, s.kind = (kind_), s.field = (value); \
        CHECK(bfdd_open_session(&engine, &s), BFDD_RANGE); \
    } while (0)
#define RIGHT(kind_, field, value) do { \
        bfdd_session s = pair; \
        s.other = 900, s.kind = (kind_), s.field = (value); \
        CHECK(bfdd_open_session(&engine, &s), BFDD_DONE); \
    } while (0)
    WRONG(0, kind, 0);
    WRONG(6, kind, 6);
    for (uint32_t kind = BFDD_SINGLE_HOP; kind <= BFDD_TAIL; kind++) {
        WRONG(kind, discr, 0);
        WRONG(kind, iface, 65536);
        WRONG(kind, local.family, 5);
        WRONG(kind, remote.family, 0);
        CHECK(engine.is_open, kind > BFDD_SINGLE_HOP);
        RIGHT(kind, discr, UINT32_MAX);
        RIGHT(kind, iface, 65535);
        RIGHT(kind, local.family, 6);
        if (kind == BFDD_TAIL) continue;
        WRONG(kind, tx, 9999);
        WRONG(kind, tx, 60000001);
        WRONG(kind, mult, 0);
        WRONG(kind, mult, 256);
        RIGHT(kind, tx, 10000);
        RIGHT(kind, mult, 255);
    }
    for (uint32_t kind = BFDD_SINGLE_HOP; kind <= BFDD_MULTIHOP; kind++) {
        WRONG(kind, active, 2);
        WRONG(kind, rx, 9999);
        WRONG(kind, echo, 9999);
        WRONG(kind, auth, 6);
        WRONG(kind, auth, 1); /* a key of no bytes */
    }
    /* kinds without authentication refuse any, a good key's too */
    for (uint32_t kind = BFDD_INITIATOR; kind <= BFDD_TAIL; kind++) {
        WRONG(kind, auth, 1);
        WRONG(kind, auth, 6);
        bfdd_session keyed = pair;
        keyed.other = 900, keyed.kind = kind, keyed.auth = 5, keyed.key_len = 16;
        CHECK(bfdd_open_session(&engine, &keyed), BFDD_RANGE);
        CHECK(bfdd_add(&engine, &keyed), BFDD_RANGE);
        keyed.auth = 0;
        CHECK(bfdd_open_session(&engine, &keyed), BFDD_DONE);
    }
    WRONG(BFDD_MULTIHOP, echo, 10000);
    RIGHT(BFDD_SINGLE_HOP, echo, 10000);
    WRONG(BFDD_INITIATOR, other, 0);
    WRONG(BFDD_TAIL, other, 0);
    RIGHT(BFDD_HEAD, other, 0);
    bfdd_session s = pair;
    s.auth = 3, s.key_len = 16, s.key_id = 255;
    CHECK(bfdd_open_session(&engine, &s), BFDD_DONE);
    s.key_len = 17;
    CHECK(bfdd_open_session(&engine, &s), BFDD_RANGE);
    s.auth = 5, s.key_len = 20;
    CHECK(bfdd_open_session(&engine, &s), BFDD_DONE);
    s.key_len = 21;
    CHECK(bfdd_open_session(&engine, &s), BFDD_RANGE);
    s.key_len = 20, s.key_id = 256;
    CHECK(bfdd_open_session(&engine, &s), BFDD_RANGE);
    bfdd_close(&engine);
}

static void events(void) {
    const uint64_t bound = UINT64_C(1) << 60, most = UINT64_C(1152921504606846);
    bfdd_handle engine = BFDD_HANDLE_INIT;
    bfdd_answered answer = BFDD_ANSWERED_INIT;
    bfdd_output out = BFDD_OUTPUT_INIT, first = BFDD_OUTPUT_INIT;
    uint64_t due = 0;
    CHECK(bfdd_open_session(&engine, &pair), BFDD_DONE);
    CHECK(bfdd_next(&engine, &out), BFDD_END);
    CHECK(bfdd_receive(&engine, &from_peer, down, sizeof down), BFDD_DONE);
    /* wrong calls leave the outputs of the packet to be read */
#define WRONG_PACKET(field, value) do { \
        bfdd_packet p = from_peer; \
        p.field = (value); \
        CHECK(bfdd_receive(&engine, &p, down, sizeof down), BFDD_RANGE); \
    } while (0)
    WRONG_PACKET(moment, bound);
    WRONG_PACKET(port, 0);
    WRONG_PACKET(port, 6);
    WRONG_PACKET(iface, 65536);
    WRONG_PACKET(src.family, 0);
    WRONG_PACKET(dst.family, 5);
    CHECK(bfdd_tick(&engine, most + 1), BFDD_RANGE);
    CHECK(bfdd_show(&engine, bound, 1), BFDD_RANGE);
    CHECK(bfdd_show(&engine, 1, 0), BFDD_RANGE);
    CHECK(bfdd_command(&engine, bound, 1, BFDD_DISABLE, 0), BFDD_RANGE);
    CHECK(bfdd_command(&engine, 1, 0, BFDD_DISABLE, 0), BFDD_RANGE);
    CHECK(bfdd_command(&engine, 1, 1, 0, 0), BFDD_RANGE);
    CHECK(bfdd_command(&engine, 1, 1, 11, 0), BFDD_RANGE);
    CHECK(bfdd_next(&engine, &first), BFDD_DONE);
    CHECK(first.kind, BFDD_CHANGED);
    CHECK(first.discr, 1);
    CHECK(first.was, BFDD_DOWN);
    CHECK(first.state, BFDD_INIT);
    CHECK(bfdd_answer(&engine, &answer), BFDD_DONE);
    CHECK(answer.kind, BFDD_HANDLED);
    while (bfdd_next(&engine, &out) == BFDD_DONE) {}
    CHECK(bfdd_next(&engine, &out), BFDD_END);
    /* what is refused by a session is an answer */
    CHECK(bfdd_command(&engine, 2000, 9, BFDD_DISABLE, 0), BFDD_DONE);
    CHECK(bfdd_answer(&engine, &answer), BFDD_DONE);
    CHECK(answer.kind, BFDD_REFUSED);
    CHECK(answer.code, BFDD_UNKNOWN_SESSION);
    CHECK(strcmp(answer.name, "UnknownSession"), 0);
    bfdd_packet far = from_peer;
    far.ttl = 254;
    CHECK(bfdd_receive(&engine, &far, down, sizeof down), BFDD_DONE);
    CHECK(bfdd_answer(&engine, &answer), BFDD_DONE);
    CHECK(answer.kind, BFDD_DROPPED);
    CHECK(answer.code, BFDD_DROP_TTL);
    CHECK(strcmp(answer.name, "Ttl"), 0);
    CHECK(bfdd_show(&engine, 2000, 1), BFDD_DONE);
    CHECK(bfdd_answer(&engine, &answer), BFDD_DONE);
    CHECK(answer.kind, BFDD_SHOWN);
    CHECK(answer.remote_discr, 7);
    CHECK(answer.detect, 3000000);
    /* a tick below the due one does nothing, and that one something */
    CHECK(bfdd_due(&engine, &due), BFDD_DONE);
    CHECK(bfdd_tick(&engine, due - 1), BFDD_DONE);
    CHECK(bfdd_next(&engine, &out), BFDD_END);
    CHECK(bfdd_tick(&engine, due), BFDD_DONE);
    CHECK(bfdd_next(&engine, &out), BFDD_DONE);
    CHECK(out.kind, BFDD_SENT);
    CHECK(out.dport, 3784);
    CHECK(out.sport, 49152);
    CHECK(out.ttl, 255);
    CHECK(out.iface, 1);
    CHECK(memcmp(&out.src, &pair.local, sizeof out.src), 0);
    CHECK(memcmp(&out.dst, &pair.remote, sizeof out.dst), 0);
    CHECK(out.len, 24);
    CHECK(bfdd_tick(&engine, most), BFDD_DONE);
    bfdd_close(&engine);
}

/* Sessions and reflectors come and go, and the others stay. */
static void joining(void) {
    bfdd_handle engine = BFDD_HANDLE_INIT;
    bfdd_output out = BFDD_OUTPUT_INIT;
    bfdd_answered answer = BFDD_ANSWERED_INIT;
    bfdd_session s = pair;
    uint64_t due = 0;
    CHECK(bfdd_open_session(&engine, &s), BFDD_DONE);
    CHECK(bfdd_tick(&engine, 5000), BFDD_DONE);
    /* an output that wasn't read stays over all calls */
    CHECK(bfdd_add(&engine, &s), BFDD_TAKEN_DISCR);
    s.discr = 5;
    CHECK(bfdd_add(&engine, &s), BFDD_TAKEN_ADDRESSES);
    s.iface = 65536;
    CHECK(bfdd_add(&engine, &s), BFDD_RANGE);
    for (uint32_t discr = 40; discr > 1; discr--) {
        s.discr = discr, s.iface = discr;
        CHECK(bfdd_add(&engine, &s), BFDD_DONE);
    }
    CHECK(bfdd_remove(&engine, 41), BFDD_NOT_FOUND);
    CHECK(bfdd_remove(&engine, 0), BFDD_NOT_FOUND);
    CHECK(bfdd_remove(&engine, 7), BFDD_DONE);
    CHECK(bfdd_remove(&engine, 7), BFDD_NOT_FOUND);
    CHECK(bfdd_add_reflector(&engine, 0, 50000, 1), BFDD_RANGE);
    CHECK(bfdd_add_reflector(&engine, 900, 9999, 1), BFDD_RANGE);
    CHECK(bfdd_add_reflector(&engine, 900, 50000, 2), BFDD_RANGE);
    CHECK(bfdd_add_reflector(&engine, 8, 50000, 1), BFDD_TAKEN_DISCR);
    CHECK(bfdd_add_reflector(&engine, 900, 50000, 1), BFDD_DONE);
    CHECK(bfdd_add_reflector(&engine, 7, 50000, 0), BFDD_DONE);
    s.discr = 900;
    CHECK(bfdd_add(&engine, &s), BFDD_TAKEN_DISCR);
    CHECK(bfdd_remove(&engine, 900), BFDD_NOT_FOUND);
    CHECK(bfdd_remove_reflector(&engine, 8), BFDD_NOT_FOUND);
    CHECK(bfdd_remove_reflector(&engine, 7), BFDD_DONE);
    CHECK(bfdd_answer(&engine, &answer), BFDD_DONE);
    CHECK(answer.kind, BFDD_TICKED);
    CHECK(bfdd_next(&engine, &out), BFDD_DONE);
    CHECK(out.discr, 1);
    CHECK(bfdd_next(&engine, &out), BFDD_END);
    /* the new ones send at the next tick, each once, and the first not again */
    CHECK(bfdd_due(&engine, &due), BFDD_DONE);
    CHECK(due <= 5000, true);
    CHECK(bfdd_tick(&engine, 5001), BFDD_DONE);
    for (uint32_t discr = 2; discr <= 40; discr++) {
        if (discr == 7) continue;
        CHECK(bfdd_next(&engine, &out), BFDD_DONE);
        CHECK(out.kind, BFDD_SENT);
        CHECK(out.discr, discr);
    }
    CHECK(bfdd_next(&engine, &out), BFDD_END);
    /* a packet finds a session that came, and none that went */
    bfdd_packet packet = from_peer;
    packet.moment = 5002000, packet.iface = 30;
    CHECK(bfdd_receive(&engine, &packet, down, sizeof down), BFDD_DONE);
    CHECK(bfdd_next(&engine, &out), BFDD_DONE);
    CHECK(out.kind, BFDD_CHANGED);
    CHECK(out.discr, 30);
    packet.iface = 7;
    CHECK(bfdd_receive(&engine, &packet, down, sizeof down), BFDD_DONE);
    CHECK(bfdd_answer(&engine, &answer), BFDD_DONE);
    CHECK(answer.code, BFDD_DROP_NO_SESSION);
    for (uint32_t discr = 1; discr <= 40; discr++) CHECK(bfdd_remove(&engine, discr), discr == 7 ? BFDD_NOT_FOUND : BFDD_DONE);
    CHECK(bfdd_due(&engine, &due), BFDD_END);
    bfdd_close(&engine);
}

/* The last place is taken, and not one more. */
static void full(void) {
    enum { MOST = 65536 };
    static char text[MOST * 26 + 20];
    bfdd_handle engine = BFDD_HANDLE_INIT;
    bfdd_complaint complaint = BFDD_COMPLAINT_INIT;
    int length = sprintf(text, "bfd 2\n");
    for (int discr = 2; discr <= MOST; discr++) length += sprintf(text + length, "reflector %d 50000 up\n", discr);
    strcpy(text + length, "run\nend\n");
    CHECK(open_text(&engine, text, &complaint), BFDD_DONE);
    CHECK(bfdd_add(&engine, &pair), BFDD_DONE);
    bfdd_session s = pair;
    CHECK(bfdd_add(&engine, &s), BFDD_FULL);
    CHECK(bfdd_add_reflector(&engine, MOST + 1, 50000, 1), BFDD_FULL);
    s.mult = 0;
    CHECK(bfdd_add(&engine, &s), BFDD_RANGE);
    CHECK(bfdd_remove(&engine, 1), BFDD_DONE);
    CHECK(bfdd_add_reflector(&engine, MOST + 1, 50000, 1), BFDD_DONE);
    CHECK(bfdd_add(&engine, &pair), BFDD_FULL);
    CHECK(bfdd_remove_reflector(&engine, 2), BFDD_DONE);
    CHECK(bfdd_add(&engine, &pair), BFDD_DONE);
    bfdd_close(&engine);
}

int main(void) {
    joining();
    full();
    closed();
    sizes();
    texts();
    fields();
    events();
    return 0;
}
