/* Looks at sessions: each field with a value of its own; a look loses no output and settles nothing; and what is counted is what came
 * and went, in a random run beside counts of this program's own. */
#include "check.h"

enum { SESSIONS = 9, EVENTS = 20000 };

static bfdd_session_state look(bfdd_handle *engine, uint32_t discr) {
    bfdd_session_state state = BFDD_SESSION_STATE_INIT;
    CHECK(bfdd_state(engine, discr, &state), BFDD_DONE);
    CHECK(state.size, sizeof state);
    CHECK(state.discr, discr);
    return state;
}

static uint64_t all_dropped(const bfdd_session_state *state) {
    uint64_t sum = 0;
    for (size_t at = 0; at < sizeof state->dropped / sizeof *state->dropped; at++) sum += state->dropped[at];
    return sum;
}

static void receive(bfdd_handle *engine, uint64_t moment, uint8_t ttl, const uint8_t *bytes, size_t length) {
    bfdd_packet packet = {sizeof packet, BFDD_PORT_SINGLE, moment, 9, 50123, ttl, {4, {10, 0, 0, 2}}, {4, {10, 0, 0, 1}}};
    CHECK(bfdd_receive(engine, &packet, bytes, length), BFDD_DONE);
}

static int outputs(bfdd_handle *engine) {
    bfdd_output out = BFDD_OUTPUT_INIT;
    int count = 0;
    while (bfdd_next(engine, &out) == BFDD_DONE) count++;
    return count;
}

/* The peer: diagnostic 5, Init, D, Detect Mult 6, My Discriminator 11, Your Discriminator 21, Desired Min TX 600000, Required Min RX
 * 800000, Required Min Echo RX 100000. */
static const uint8_t heard[24] = {0x25, 0x82, 6, 24, 0, 0, 0, 11, 0, 0, 0, 21, 0, 9, 0x27, 0xc0, 0, 12, 0x35, 0, 0, 1, 0x86, 0xa0};
static const bfdd_session whole = {.size = sizeof(bfdd_session), .kind = BFDD_SINGLE_HOP, .discr = 21, .iface = 9,
                                   .local = {4, {10, 0, 0, 1}}, .remote = {4, {10, 0, 0, 2}}, .active = 1, .tx = 400000, .rx = 300000, .mult = 4, .seed = 7};

static void fields(void) {
    bfdd_handle engine = BFDD_HANDLE_INIT;
    bfdd_session_state untouched = {.size = sizeof untouched, .discr = 77, .dropped = {1, 2, 3}}, before = untouched;
    CHECK(bfdd_state(&engine, 21, &untouched), BFDD_CLOSED);
    CHECK(bfdd_open_session(&engine, &whole), BFDD_DONE);
    CHECK(bfdd_state(&engine, 22, &untouched), BFDD_NOT_FOUND);
    CHECK(memcmp(&untouched, &before, sizeof before), 0);
    bfdd_session_state is = look(&engine, 21);
    CHECK(is.state, BFDD_DOWN);
    CHECK(is.received | is.sent | is.ups | is.downs | is.heard | is.changed | is.detect_end | all_dropped(&is), 0);
    CHECK(bfdd_tick(&engine, 1000), BFDD_DONE);
    receive(&engine, 1100000, 255, heard, sizeof heard);
    is = look(&engine, 21);
    bfdd_answered answer = BFDD_ANSWERED_INIT;
    CHECK(bfdd_answer(&engine, &answer), BFDD_DONE);
    CHECK(answer.kind, BFDD_HANDLED);
    CHECK(outputs(&engine), 2); /* a look before has lost none */
    CHECK(is.state, BFDD_UP);
    CHECK(is.remote_state, BFDD_INIT);
    CHECK(is.remote_discr, 11);
    CHECK(is.detect, 3600000); /* six times the greater of 300000 and 600000 */
    CHECK(is.detect_end, 4700000);
    CHECK(is.peer_tx, 600000);
    CHECK(is.peer_rx, 800000);
    CHECK(is.peer_echo, 100000);
    CHECK(is.peer_mult, 6);
    CHECK(is.peer_diag, 5);
    CHECK(is.peer_demand, 1);
    CHECK(is.heard, 1100000);
    CHECK(is.changed, 1100000);
    CHECK(is.received, 1);
    CHECK(is.sent, 2);
    CHECK(is.ups, 1);
    CHECK(is.downs, 0);
    CHECK(all_dropped(&is), 0);

    CHECK(bfdd_show(&engine, 1100000, 21), BFDD_DONE);
    CHECK(bfdd_answer(&engine, &answer), BFDD_DONE);
    CHECK(is.state == answer.state && is.diag == answer.diag && is.remote_state == answer.remote_state && is.poll == answer.poll, 1);
    CHECK(is.remote_discr == answer.remote_discr && is.adv_tx == answer.adv_tx && is.used_tx == answer.used_tx, 1);
    CHECK(is.used_rx == answer.used_rx && is.detect == answer.detect, 1);

    uint8_t authenticated[28] = {0};
    memcpy(authenticated, heard, sizeof heard);
    authenticated[1] |= 4;
    authenticated[3] = 28;
    authenticated[24] = 1;
    authenticated[25] = 4;
    receive(&engine, 1200000, 254, heard, sizeof heard);
    for (int at = 0; at < 2; at++) receive(&engine, 1300000, 255, authenticated, sizeof authenticated);
    is = look(&engine, 21);
    CHECK(is.received, 4);
    CHECK(is.dropped[BFDD_DROP_TTL], 1);
    CHECK(is.dropped[BFDD_DROP_AUTH_UNEXPECTED], 2);
    CHECK(all_dropped(&is), 3);
    CHECK(is.heard, 1100000);

    CHECK(bfdd_command(&engine, 1400000, 21, BFDD_DISABLE, 0), BFDD_DONE);
    CHECK(bfdd_command(&engine, 1500000, 21, BFDD_ENABLE, 0), BFDD_DONE);
    is = look(&engine, 21);
    CHECK(is.state, BFDD_DOWN);
    CHECK(is.downs, 1);
    CHECK(is.changed, 1500000);
    bfdd_close(&engine);
}

/* A disabled session drops the peer's packet by the last test, and has stored its fields before it (RFC 5880 section 6.8.6). */
static void disabled(void) {
    bfdd_handle engine = BFDD_HANDLE_INIT;
    CHECK(bfdd_open_session(&engine, &whole), BFDD_DONE);
    CHECK(bfdd_tick(&engine, 1000), BFDD_DONE);
    receive(&engine, 1100000, 255, heard, sizeof heard);
    CHECK(bfdd_command(&engine, 1200000, 21, BFDD_DISABLE, 0), BFDD_DONE);
    uint8_t later[24];
    memcpy(later, heard, sizeof heard);
    later[0] = 0x27, later[1] = 0x40, later[2] = 9, later[7] = 12; /* diagnostic 7, Down, no D, Detect Mult 9, My Discriminator 12 */
    receive(&engine, 1300000, 255, later, sizeof later);
    bfdd_answered answer = BFDD_ANSWERED_INIT;
    CHECK(bfdd_answer(&engine, &answer), BFDD_DONE);
    CHECK(answer.kind, BFDD_DROPPED);
    CHECK(answer.code, BFDD_DROP_ADMIN_DOWN);
    bfdd_session_state is = look(&engine, 21);
    CHECK(is.state, BFDD_ADMIN_DOWN);
    CHECK(is.remote_state, BFDD_DOWN);
    CHECK(is.remote_discr, 12);
    CHECK(is.peer_mult, 9);
    CHECK(is.peer_diag, 7);
    CHECK(is.peer_demand, 0);
    CHECK(is.heard, 1300000);
    CHECK(is.changed, 1200000);
    CHECK(is.received, 2);
    CHECK(is.dropped[BFDD_DROP_ADMIN_DOWN], 1);
    CHECK(all_dropped(&is), 1);
    CHECK(is.ups, 1);
    CHECK(is.downs, 0);
    receive(&engine, 1400000, 254, heard, sizeof heard); /* an earlier test drops this one, and nothing of it is stored */
    is = look(&engine, 21);
    CHECK(is.remote_discr, 12);
    CHECK(is.peer_diag, 7);
    CHECK(is.heard, 1300000);
    CHECK(is.received, 3);
    CHECK(is.dropped[BFDD_DROP_TTL], 1);
    bfdd_close(&engine);
}

/* Looks settle nothing: a session whose Detection Time has passed stays Up until an event. */
static void settles_nothing(void) {
    bfdd_handle engine = BFDD_HANDLE_INIT;
    CHECK(bfdd_open_session(&engine, &whole), BFDD_DONE);
    CHECK(bfdd_tick(&engine, 1000), BFDD_DONE);
    receive(&engine, 1100000, 255, heard, sizeof heard);
    uint64_t ms = 0, ms_after = 0;
    CHECK(bfdd_due(&engine, &ms), BFDD_DONE);
    bfdd_session_state first = look(&engine, 21), second = look(&engine, 21);
    CHECK(first.state, BFDD_UP);
    CHECK(memcmp(&first, &second, sizeof first), 0);
    CHECK(bfdd_due(&engine, &ms_after), BFDD_DONE);
    CHECK(ms, ms_after);
    CHECK(bfdd_tick(&engine, 9000), BFDD_DONE);
    first = look(&engine, 21);
    CHECK(first.state, BFDD_DOWN);
    CHECK(first.downs, 1);
    CHECK(first.diag, 1);
    CHECK(first.changed, 9000000);
    CHECK(first.detect_end, 0);
    CHECK(first.heard, 1100000);
    bfdd_close(&engine);
}

struct counted {
    uint64_t received, sent, ups, downs, dropped[25];
};

static uint64_t drawn;

static uint32_t draw(uint32_t below) {
    drawn = drawn * 6364136223846793005u + 1442695040888963407u;
    return (uint32_t)(drawn >> 33) % below;
}

static void count(bfdd_handle *engine, bool is_packet, struct counted *all) {
    bfdd_answered answer = BFDD_ANSWERED_INIT;
    bfdd_output out = BFDD_OUTPUT_INIT;
    CHECK(bfdd_answer(engine, &answer), BFDD_DONE);
    if (is_packet && answer.discr) {
        all[answer.discr].received++;
        if (answer.kind == BFDD_DROPPED) all[answer.discr].dropped[answer.code]++;
    }
    while (bfdd_next(engine, &out) == BFDD_DONE) {
        struct counted *one = &all[out.discr];
        one->sent += out.kind == BFDD_SENT;
        one->ups += out.kind == BFDD_CHANGED && out.state == BFDD_UP;
        one->downs += out.kind == BFDD_CHANGED && out.state == BFDD_DOWN;
    }
}

static void packet(bfdd_handle *engine, uint64_t moment, uint32_t discr) {
    bfdd_packet packet = {sizeof packet, draw(8) ? BFDD_PORT_SINGLE : BFDD_PORT_ECHO, moment, 1, 50000, draw(9) ? 255 : 254,
                          {4, {10, 0, 0, (uint8_t)(100 + discr)}}, {4, {10, 0, 0, 1}}};
    uint8_t bytes[24] = {0x20, (uint8_t)(draw(4) << 6), 3, 24, 0, 0, 0, 7, 0, 0, 0, (uint8_t)discr, 0, 1, 0, 0, 0, 1};
    bytes[1] |= draw(12) ? 0 : 4;
    CHECK(bfdd_receive(engine, &packet, bytes, sizeof bytes), BFDD_DONE);
}

static void counts(void) {
    bfdd_handle engine = BFDD_HANDLE_INIT;
    static struct counted all[SESSIONS + 1];
    uint64_t moment = 0;
    for (uint32_t discr = SESSIONS; discr >= 1; discr--) {
        bfdd_session one = {.size = sizeof one, .kind = BFDD_SINGLE_HOP, .discr = discr, .iface = 1, .local = {4, {10, 0, 0, 1}}, .active = 1,
                            .remote = {4, {10, 0, 0, (uint8_t)(100 + discr)}}, .tx = 50000, .rx = 50000, .mult = 3, .seed = discr};
        CHECK(discr == SESSIONS ? bfdd_open_session(&engine, &one) : bfdd_add(&engine, &one), BFDD_DONE);
    }
    for (int at = 0; at < EVENTS; at++) {
        uint32_t discr = 1 + draw(SESSIONS), what = draw(20);
        moment += draw(30000);
        if (what < 6) CHECK(bfdd_tick(&engine, moment / 1000), BFDD_DONE);
        else if (what < 18) packet(&engine, moment, discr);
        else CHECK(bfdd_command(&engine, moment, discr, what == 18 && !draw(4) ? BFDD_DISABLE : BFDD_ENABLE, 0), BFDD_DONE);
        count(&engine, what >= 6 && what < 18, all);
        bfdd_session_state is = look(&engine, discr);
        struct counted counted = {is.received, is.sent, is.ups, is.downs, {0}};
        memcpy(counted.dropped, is.dropped, sizeof is.dropped);
        CHECK(memcmp(&counted, &all[discr], sizeof counted), 0);
    }
    bfdd_session_state is = look(&engine, 5);
    CHECK(is.ups > 10 && is.downs > 10 && is.sent > 100 && is.dropped[BFDD_DROP_TTL] > 10, 1);
    CHECK(bfdd_remove(&engine, 5), BFDD_DONE);
    CHECK(bfdd_state(&engine, 5, &is), BFDD_NOT_FOUND);
    is = look(&engine, 6);
    CHECK(is.received, all[6].received);
    bfdd_close(&engine);
}

int main(void) {
    fields();
    disabled();
    settles_nothing();
    counts();
    return 0;
}
