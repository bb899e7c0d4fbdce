/* Each field of each struct that crosses, and each parameter of a call, has a value of its own here: two that changed places would show. */
#include "check.h"

/* A session of which no two fields have the same value, and its peer's packet: Init, Detect Mult 6, My Discriminator 11,
 * Desired Min TX 600000, Required Min RX 800000. */
static const bfdd_session whole = {
    .size = sizeof(bfdd_session), .kind = BFDD_SINGLE_HOP, .discr = 21, .other = 900, .iface = 9, .local = {4, {10, 0, 0, 1}},
    .remote = {4, {10, 0, 0, 2}}, .active = 1, .tx = 400000, .rx = 300000, .mult = 4, .echo = 0, .seed = 7, .auth = 0, .key_id = 6, .key_len = 5, .key = "abcde"};
static const char heard[] = "208006180000000b00000015000927c0000c350000000000";
static const bfdd_packet came = {sizeof(bfdd_packet), BFDD_PORT_SINGLE, 1100000, 9, 50123, 255, {4, {10, 0, 0, 2}}, {4, {10, 0, 0, 1}}};

/* A packet that is to come out: where from and where to, and its payload. */
struct sent {
    uint32_t discr, iface;
    uint16_t sport, dport;
    uint8_t ttl, src[4], dst[4];
    const char *bytes;
};

static const char *spelled(const uint8_t *bytes, uint32_t length) {
    static char text[105];
    for (uint32_t at = 0; at < length; at++) sprintf(text + 2 * at, "%02x", bytes[at]);
    text[2 * length] = 0;
    return text;
}

static uint32_t read_hex(const char *text, uint8_t *bytes) {
    uint32_t length = (uint32_t)strlen(text) / 2;
    for (uint32_t at = 0; at < length; at++) {
        unsigned byte;
        CHECK(sscanf(text + 2 * at, "%2x", &byte), 1);
        bytes[at] = (uint8_t)byte;
    }
    return length;
}

static void receive(bfdd_handle *engine, const bfdd_packet *packet, const char *text) {
    uint8_t bytes[64];
    CHECK(bfdd_receive(engine, packet, bytes, read_hex(text, bytes)), BFDD_DONE);
}

/* The next output is this packet. */
static void sends(bfdd_handle *engine, const struct sent *wanted) {
    bfdd_output out = BFDD_OUTPUT_INIT;
    CHECK(bfdd_next(engine, &out), BFDD_DONE);
    CHECK(out.size, sizeof out);
    CHECK(out.kind, BFDD_SENT);
    CHECK(out.discr, wanted->discr);
    CHECK(out.was | out.state | out.diag, 0);
    CHECK(out.ttl, wanted->ttl);
    CHECK(out.iface, wanted->iface);
    CHECK(out.sport, wanted->sport);
    CHECK(out.dport, wanted->dport);
    CHECK(out.src.family, 4);
    CHECK(memcmp(out.src.bytes, wanted->src, 4), 0);
    CHECK(out.dst.family, 4);
    CHECK(memcmp(out.dst.bytes, wanted->dst, 4), 0);
    CHECK(out.len, strlen(wanted->bytes) / 2);
    CHECK(strcmp(spelled(out.bytes, out.len), wanted->bytes), 0);
}

/* The next output is this change of state. */
static void changes(bfdd_handle *engine, uint32_t discr, uint8_t was, uint8_t state, uint8_t diag) {
    bfdd_output out = BFDD_OUTPUT_INIT;
    CHECK(bfdd_next(engine, &out), BFDD_DONE);
    CHECK(out.size, sizeof out);
    CHECK(out.kind, BFDD_CHANGED);
    CHECK(out.discr, discr);
    CHECK(out.was, was);
    CHECK(out.state, state);
    CHECK(out.diag, diag);
    CHECK(out.ttl | out.iface | out.sport | out.dport | out.len | out.src.family | out.dst.family, 0);
}

/* The last output is a packet of these bytes. */
static void ends_with(bfdd_handle *engine, const char *bytes) {
    bfdd_output out = BFDD_OUTPUT_INIT;
    while (bfdd_next(engine, &out) == BFDD_DONE) {}
    CHECK(out.kind, BFDD_SENT);
    CHECK(strcmp(spelled(out.bytes, out.len), bytes), 0);
}

/* What the last event was answered. */
static bfdd_answered answered(bfdd_handle *engine, uint32_t kind, uint32_t code, const char *name) {
    bfdd_answered answer = BFDD_ANSWERED_INIT;
    CHECK(bfdd_answer(engine, &answer), BFDD_DONE);
    CHECK(answer.size, sizeof answer);
    CHECK(answer.kind, kind);
    CHECK(answer.code, code);
    CHECK(strcmp(answer.name, name), 0);
    return answer;
}

static uint64_t due(bfdd_handle *engine) {
    uint64_t ms = 0;
    CHECK(bfdd_due(engine, &ms), BFDD_DONE);
    return ms;
}

/* What a session sends first shows its configuration: each row is one with some fields changed. */
static void configurations(void) {
    bfdd_handle engine = BFDD_HANDLE_INIT;
    struct row {
        uint32_t kind, auth;
        uint64_t first;
        uint16_t sport, dport;
        const char *bytes;
    } rows[] = {
        {BFDD_SINGLE_HOP, 0, 757, 49152, 3784, "204004180000001500000000000f4240000493e000000000"},
        {BFDD_MULTIHOP, 0, 757, 49152, 4784, "204004180000001500000000000f4240000493e000000000"},
        {BFDD_INITIATOR, 0, 757, 49152, 7784, "204204180000001500000384000f42400000000000000000"},
        {BFDD_HEAD, 0, 307, 49152, 3784, "20c30418000000150000000000061a800000000000000000"},
        {BFDD_SINGLE_HOP, 1, 757, 49152, 3784, "204404200000001500000000000f4240000493e0000000000108066162636465"},
        {BFDD_SINGLE_HOP, 3, 757, 49152, 3784,
         "204404300000001500000000000f4240000493e00000000003180600000000070f4ea17b569ff4bb74d6a358cf30cd2b"},
    };
    for (size_t at = 0; at < sizeof rows / sizeof *rows; at++) {
        bfdd_session session = whole;
        session.kind = rows[at].kind;
        session.auth = rows[at].auth;
        struct sent wanted = {21, 9, rows[at].sport, rows[at].dport, 255, {10, 0, 0, 1}, {10, 0, 0, 2}, rows[at].bytes};
        CHECK(bfdd_open_session(&engine, &session), BFDD_DONE);
        CHECK(due(&engine), rows[at].first);
        CHECK(bfdd_tick(&engine, rows[at].first), BFDD_DONE);
        sends(&engine, &wanted);
    }
    uint64_t ms = 0;
    bfdd_session session = whole;
    session.active = 0;
    CHECK(bfdd_open_session(&engine, &session), BFDD_DONE);
    CHECK(bfdd_due(&engine, &ms), BFDD_END);
    bfdd_close(&engine);
}

/* A session comes Up and shows itself, each field with a value of its own; the peer's silence takes it down. */
static void shown(void) {
    bfdd_handle engine = BFDD_HANDLE_INIT;
    const struct sent up = {21, 9, 49152, 3784, 255, {10, 0, 0, 1}, {10, 0, 0, 2}, "20c00418000000150000000b00061a80000493e000000000"};
    CHECK(bfdd_open_session(&engine, &whole), BFDD_DONE);
    CHECK(bfdd_tick(&engine, 1000), BFDD_DONE);
    receive(&engine, &came, heard);
    changes(&engine, 21, BFDD_DOWN, BFDD_UP, 0);
    sends(&engine, &up);
    CHECK(bfdd_tick(&engine, 1900), BFDD_DONE);
    bfdd_packet final = came;
    final.moment = 2000000;
    receive(&engine, &final, "209006180000000b00000015000927c0000c350000000000");
    CHECK(bfdd_command(&engine, 2100000, 21, BFDD_PATH, 6), BFDD_DONE);
    CHECK(bfdd_command(&engine, 2200000, 21, BFDD_TX, 700000), BFDD_DONE);
    answered(&engine, BFDD_HANDLED, 0, "");
    CHECK(bfdd_show(&engine, 2200000, 21), BFDD_DONE);
    bfdd_answered is = answered(&engine, BFDD_SHOWN, 0, "");
    CHECK(is.discr, 21);
    CHECK(is.state, BFDD_UP);
    CHECK(is.diag, 6);
    CHECK(is.remote_state, BFDD_INIT);
    CHECK(is.poll, 1);
    CHECK(is.remote_discr, 11);
    CHECK(is.adv_tx, 700000);
    CHECK(is.used_tx, 400000);
    CHECK(is.used_rx, 300000);
    CHECK(is.detect, 3600000);
    CHECK(bfdd_show(&engine, 2200000, 22), BFDD_DONE);
    CHECK(answered(&engine, BFDD_REFUSED, BFDD_UNKNOWN_SESSION, "UnknownSession").discr, 0);
    CHECK(bfdd_command(&engine, 2200000, 21, BFDD_TX, 0), BFDD_DONE);
    CHECK(answered(&engine, BFDD_REFUSED, BFDD_VALUE_OUT_OF_RANGE, "OutOfRange").discr, 21);
    CHECK(bfdd_tick(&engine, 5599), BFDD_DONE);
    ends_with(&engine, "26e00418000000150000000b000aae60000493e000000000");
    CHECK(bfdd_tick(&engine, 5600), BFDD_DONE);
    CHECK(answered(&engine, BFDD_TICKED, 0, "").discr, 0);
    changes(&engine, 21, BFDD_UP, BFDD_DOWN, 1);
    bfdd_close(&engine);
}

/* Each field of a packet decides whether its session hears it. */
static void packets(void) {
    bfdd_handle engine = BFDD_HANDLE_INIT;
    struct row {
        const char *field;
        bfdd_packet packet;
        uint32_t drop;
        const char *name;
    } rows[] = {
        {"none", came, 0, ""},
        {"port", came, BFDD_DROP_YOUR_UNKNOWN, "YourUnknown"},
        {"iface", came, BFDD_DROP_NO_SESSION, "NoSession"},
        {"src", came, BFDD_DROP_NO_SESSION, "NoSession"},
        {"dst", came, BFDD_DROP_NO_SESSION, "NoSession"},
        {"ttl", came, BFDD_DROP_TTL, "Ttl"},
    };
    rows[1].packet.port = BFDD_PORT_MULTI;
    rows[2].packet.iface = 8;
    rows[3].packet.src.bytes[3] = 3;
    rows[4].packet.dst.bytes[3] = 3;
    rows[5].packet.ttl = 254;
    for (size_t at = 0; at < sizeof rows / sizeof *rows; at++) {
        CHECK(bfdd_open_session(&engine, &whole), BFDD_DONE);
        bool by_discr = rows[at].drop == BFDD_DROP_YOUR_UNKNOWN;
        receive(&engine, &rows[at].packet, by_discr ? heard : "204006180000000b00000000000927c0000c350000000000");
        bfdd_answered is = answered(&engine, rows[at].drop ? BFDD_DROPPED : BFDD_HANDLED, rows[at].drop, rows[at].name);
        CHECK(is.discr, at == 0 || rows[at].drop == BFDD_DROP_TTL ? 21 : 0);
    }
    /* the moment: a packet later by 50 milliseconds is sent for later */
    for (uint64_t later = 0; later < 2; later++) {
        bfdd_packet packet = came;
        packet.moment += later * 50000;
        CHECK(bfdd_open_session(&engine, &whole), BFDD_DONE);
        CHECK(bfdd_tick(&engine, 1000), BFDD_DONE);
        receive(&engine, &packet, heard);
        CHECK(bfdd_tick(&engine, 4699 + later * 50), BFDD_DONE);
        answered(&engine, BFDD_TICKED, 0, "");
        CHECK(bfdd_show(&engine, 0, 21), BFDD_DONE);
        CHECK(answered(&engine, BFDD_SHOWN, 0, "").state, BFDD_UP);
        CHECK(bfdd_tick(&engine, 4700 + later * 50), BFDD_DONE);
        changes(&engine, 21, BFDD_UP, BFDD_DOWN, 1);
    }
    bfdd_close(&engine);
}

/* The echo interval is seen between two echo packets, a tail's head by its packet, and a sender's port by a reflector's answer. */
static void others(void) {
    bfdd_handle engine = BFDD_HANDLE_INIT;
    bfdd_complaint complaint = BFDD_COMPLAINT_INIT;
    const struct sent echo = {21, 9, 49152, 3785, 255, {10, 0, 0, 1}, {10, 0, 0, 1}, "42464465000000150000000000000000"};
    bfdd_session session = whole;
    session.echo = 200000;
    CHECK(bfdd_open_session(&engine, &session), BFDD_DONE);
    receive(&engine, &came, "208006180000000b00000015000927c0000c3500000003e8");
    CHECK(due(&engine), 1101);
    CHECK(bfdd_tick(&engine, 1101), BFDD_DONE);
    sends(&engine, &echo);
    CHECK(due(&engine), 1301);

    bfdd_packet packet = came;
    session = whole;
    session.kind = BFDD_TAIL;
    session.local.bytes[0] = 239;
    packet.dst.bytes[0] = 239;
    CHECK(bfdd_open_session(&engine, &session), BFDD_DONE);
    receive(&engine, &packet, "20c10418000003850000000000061a800000000000000000");
    CHECK(answered(&engine, BFDD_DROPPED, BFDD_DROP_NO_TAIL, "NoTail").discr, 0);
    receive(&engine, &packet, "20c10418000003840000000000061a800000000000000000");
    changes(&engine, 21, BFDD_DOWN, BFDD_UP, 0);

    const struct sent reflected = {900, 9, 7784, 50123, 255, {10, 0, 0, 1}, {10, 0, 0, 2},
                                   "20c003180000038400000005000f42400000c35000000000"};
    packet = came;
    packet.port = BFDD_PORT_SBFD;
    CHECK(open_text(&engine, "bfd 1\nreflector 900 50000 up\nrun\nend\n", &complaint), BFDD_DONE);
    receive(&engine, &packet, "204203180000000500000384000f42400000000000000000");
    sends(&engine, &reflected);
    CHECK(answered(&engine, BFDD_HANDLED, 0, "").discr, 0);
    CHECK(open_text(&engine, "bfd 1\nreflector 0 50000 up\nrun\nend\n", &complaint), BFDD_TEXT);
    CHECK(complaint.size, sizeof complaint);
    CHECK(complaint.line, 2);
    CHECK(complaint.fault, BFDD_OUT_OF_RANGE);
    bfdd_close(&engine);
}

/* What each command leaves of a session in Up: its state, diagnostic and Poll Sequence, and what it sends next. */
static void commands(void) {
    bfdd_handle engine = BFDD_HANDLE_INIT;
    struct row {
        uint32_t command;
        uint64_t value;
        uint8_t state, diag, poll;
        uint32_t adv_tx;
        const char *sent;
    } rows[] = {
        {BFDD_DISABLE, 1, BFDD_ADMIN_DOWN, 7, 1, 1000000, "27000418000000150000000b000f4240000493e000000000"},
        {BFDD_RESET, 1, BFDD_DOWN, 4, 1, 1000000, "24400418000000150000000b000f4240000493e000000000"},
        {BFDD_PATH, 8, BFDD_UP, 8, 0, 400000, "28c00418000000150000000b00061a80000493e000000000"},
        {BFDD_TX, 700000, BFDD_UP, 0, 1, 700000, "20e00418000000150000000b000aae60000493e000000000"},
        {BFDD_RX, 200000, BFDD_UP, 0, 1, 400000, "20e00418000000150000000b00061a8000030d4000000000"},
        {BFDD_MULT, 9, BFDD_UP, 0, 0, 400000, "20c00918000000150000000b00061a80000493e000000000"},
        {BFDD_DEMAND, 1, BFDD_UP, 0, 1, 400000, "20e00418000000150000000b00061a80000493e000000000"},
    };
    for (size_t at = 0; at < sizeof rows / sizeof *rows; at++) {
        const struct row *row = rows + at;
        bfdd_packet final = came;
        final.moment = 2000000;
        CHECK(bfdd_open_session(&engine, &whole), BFDD_DONE);
        receive(&engine, &came, heard);
        CHECK(bfdd_tick(&engine, 1900), BFDD_DONE);
        receive(&engine, &final, "209006180000000b00000015000927c0000c350000000000");
        CHECK(bfdd_command(&engine, 2100000, 21, row->command, row->value), BFDD_DONE);
        answered(&engine, BFDD_HANDLED, 0, "");
        bool at_once = row->state != BFDD_UP || row->command == BFDD_PATH;
        if (at_once) ends_with(&engine, row->sent);
        CHECK(bfdd_show(&engine, 2100000, 21), BFDD_DONE);
        bfdd_answered is = answered(&engine, BFDD_SHOWN, 0, "");
        CHECK(is.state, row->state);
        CHECK(is.diag, row->diag);
        CHECK(is.poll, row->poll);
        CHECK(is.adv_tx, row->adv_tx);
        if (at_once) continue;
        CHECK(bfdd_tick(&engine, 2800), BFDD_DONE);
        ends_with(&engine, row->sent);
    }
    CHECK(bfdd_command(&engine, 2900000, 22, BFDD_ENABLE, 1), BFDD_DONE);
    answered(&engine, BFDD_REFUSED, BFDD_UNKNOWN_SESSION, "UnknownSession");
    bfdd_close(&engine);
}

int main(void) {
    configurations();
    shown();
    packets();
    others();
    commands();
    return 0;
}
