/* sessions: all on one engine.
 *
 * All are in one engine of libbfdd, which selects a packet's session by its discriminator, or by its addresses and interface. The
 * selection here comes first, for what the engine doesn't know: the least TTL over several hops, sessions of any interface, and
 * VRFs. A value that its owner changed is given to the engine by a command; while a Poll Sequence makes the engine refuse it, it
 * is tried again after each packet of the session and each second. */
#include "daemon.h"

#include <sys/random.h>

enum { BUCKETS = 4096, NAME = 160, CAUSE = 160, CHANGE = 480 };
enum { LEAST_PACKET = 24, LEAST_INTERVAL = 10000, GREATEST_INTERVAL = 60000000 };
static const uint64_t SECOND = 1000000, REPORT_AGAIN = 5000000;
static const uint8_t no_address[16];

static bfdd_handle engine = BFDD_HANDLE_INIT;
static uint64_t ticked; /* the engine's last tick, milliseconds */
static uint64_t next_chores, keep;
static session_reporter *reporter;
static struct session *by_discr[BUCKETS], *by_peer[BUCKETS], *all;

/* Finding -------------------------------------------------------------------------------------------------------------- */

static struct session **bucket_of_discr(uint32_t discr) { return &by_discr[(discr * 2654435769u) >> 20]; }

static struct session **bucket_of_peer(const bfdd_address *peer) {
    uint32_t sum = 2166136261u;
    for (size_t i = 0; i < sizeof peer->bytes; i++) sum = (sum ^ peer->bytes[i]) * 16777619u;
    return &by_peer[sum % BUCKETS];
}

struct session *sessions_find(uint32_t discr) {
    struct session *s = *bucket_of_discr(discr);
    while (s && s->wanted.discr != discr) s = s->next[BY_DISCR];
    return s;
}

/* Puts a session into the tables, or takes it out of them. */
static void enter(struct session *s, bool is_in) {
    struct session **buckets[TABLES] = {bucket_of_discr(s->wanted.discr), bucket_of_peer(&s->config.remote), &all};
    for (int table = 0; table < TABLES; table++) {
        struct session **at = buckets[table];
        while (!is_in && *at != s) at = &(*at)->next[table];
        if (is_in) s->next[table] = *at;
        *at = is_in ? s : s->next[table];
    }
}

static uint32_t get32(const uint8_t *at) { return (uint32_t)at[0] << 24 | (uint32_t)at[1] << 16 | (uint32_t)at[2] << 8 | at[3]; }

static bool is_multihop(const struct session *s) { return (s->wanted.flags & DP_MULTIHOP) != 0; }

static bool is_active(const struct session *s) { return (s->wanted.flags & DP_PASSIVE) == 0; }

static bool is_same_address(const bfdd_address *a, const bfdd_address *b) { return memcmp(a, b, sizeof *a) == 0; }

/* One of the addresses of a session in FRR's protocol. */
static bfdd_address address_of(const struct dp_session *wanted, const uint8_t bytes[16]) {
    bfdd_address address = {.family = wanted->flags & DP_IPV6 ? 6 : 4};
    memcpy(address.bytes, bytes, address.family == 4 ? 4 : 16);
    return address;
}

/* Whether a packet at a socket of this device may be for a session. */
static bool may_be_for(const struct session *s, const bfdd_packet *packet, uint32_t device) {
    bool is_its_interface = is_multihop(s) || s->path.ifindex == 0 || s->path.ifindex == packet->iface;
    return s->is_open && is_its_interface && s->path.device == device && is_multihop(s) == (packet->port == BFDD_PORT_MULTI);
}

/* The session that a packet is for, by its Your Discriminator, or where that is 0 by addresses and interface, before one of any
 * interface. The engine selects once more: a fault here can only lose a packet. */
static struct session *find_for(const bfdd_arrival *arrival, uint32_t device) {
    const bfdd_packet *packet = &arrival->packet;
    struct session *found = NULL;
    if (arrival->length < LEAST_PACKET) return NULL;
    uint32_t discr = get32(arrival->payload + 8);
    struct session *named = sessions_find(discr);
    if (discr) return named && may_be_for(named, packet, device) ? named : NULL;
    for (struct session *s = *bucket_of_peer(&packet->src); s; s = s->next[BY_PEER]) {
        bool is_between = is_same_address(&s->config.remote, &packet->src) && is_same_address(&s->config.local, &packet->dst);
        if (is_between && may_be_for(s, packet, device) && (!found || s->path.ifindex)) found = s;
    }
    return found;
}

/* Reporting ------------------------------------------------------------------------------------------------------------ */

const char *session_name(const struct session *s) {
    static char name[NAME];
    char peer[ADDRESS_TEXT];
    snprintf(name, sizeof name, "session %" PRIu32 " to %s%s%s", s->wanted.discr, address_text(&s->config.remote, peer),
             is_multihop(s) ? " multihop" : s->wanted.ifname[0] ? " on " : "", is_multihop(s) ? "" : s->wanted.ifname);
    return name;
}

/* Reports the state and the peer's values to the owner: again in the next second if there was no room, and Up every few seconds, since FRR
 * sets a session Down on its own side when one of several users leaves it. */
static void report(struct session *s, const struct session_change *change, uint64_t now) {
    bool is_reported = reporter(s, change), is_up = s->state.state == BFDD_UP;
    if (is_reported) s->reported = s->state;
    s->report_at = !is_reported ? now : is_up ? now + REPORT_AGAIN : UINT64_MAX;
}

/* Why a state changed: an expiry, which any event may find, or the command, in these words, or what the peer sent. */
static const char *cause_of(const struct session *s, const bfdd_output *out, const char *words, uint64_t now, char text[CAUSE]) {
    uint8_t diagnostic = s->state.diagnostic;
    if (out->state == BFDD_DOWN && out->diag == 1)
        snprintf(text, CAUSE, "no packet came for %.3f ms", (double)(now - s->heard) / 1000);
    else if (words)
        return words;
    else if (diagnostic == 0)
        snprintf(text, CAUSE, "the peer sent %s", state_text(s->peer_state));
    else
        snprintf(text, CAUSE, "the peer sent %s, diagnostic %u (%s)", state_text(s->peer_state), diagnostic, diagnostic_text(diagnostic));
    return text;
}

static void changed(struct session *s, const bfdd_output *out, const char *words, uint64_t now) {
    char cause[CAUSE], line[CHANGE];
    struct session_change change = {now, out->was, out->state, out->diag, cause_of(s, out, words, now, cause), line};
    snprintf(line, sizeof line, "%s: %s to %s, diagnostic %u (%s): %s", session_name(s), state_text(out->was), state_text(out->state),
             out->diag, diagnostic_text(out->diag), change.cause);
    say(LOG_INFO, "%s", line);
    if (out->was == BFDD_UP) s->up_for += now - s->since;
    if (out->state == BFDD_UP) s->ups++;
    s->state.state = out->state;
    s->since = now;
    report(s, &change, now);
}

/* Events --------------------------------------------------------------------------------------------------------------- */

/* An output goes to the session that its discriminator names: a session's outputs are read before it is removed. */
static void take_output(const bfdd_output *out, const char *words, uint64_t now) {
    struct session *s = sessions_find(out->discr);
    if (out->kind == BFDD_CHANGED) return changed(s, out, words, now);
    s->counters.packets_out++;
    s->counters.bytes_out += out->len;
    sockets_send(out, &s->path);
}

/* Passes on what an event gave. The words say what a command does; NULL: it was none, or none that changes the state. */
static void take_outputs(const char *words, uint64_t now) {
    static bfdd_output outs[BFDD_MANY] = {[0 ... BFDD_MANY - 1] = BFDD_OUTPUT_INIT};
    size_t count = 0;
    while (bfdd_outputs(&engine, outs, BFDD_MANY, &count) == BFDD_DONE)
        for (size_t i = 0; i < count; i++) take_output(&outs[i], words, now);
}

/* Gives a command. False where the engine refuses it, as while a Poll Sequence runs. */
static bool command(struct session *s, uint32_t verb, uint32_t value, const char *words, uint64_t now) {
    bfdd_answered answer = BFDD_ANSWERED_INIT;
    if (bfdd_command(&engine, now, s->wanted.discr, verb, value) != BFDD_DONE) return false;
    record_command(&s->record, now, s->wanted.discr, verb, value);
    bfdd_answer(&engine, &answer);
    take_outputs(words, now);
    return answer.kind == BFDD_HANDLED;
}

/* Gives the engine what the owner has changed, until a Poll Sequence makes it refuse. */
static void give_changes(struct session *s, uint64_t now) {
    const struct { uint32_t verb, value, *had; } values[] = {
        {BFDD_TX, s->wanted.tx, &s->config.tx}, {BFDD_RX, s->wanted.rx, &s->config.rx}, {BFDD_MULT, s->wanted.mult, &s->config.mult},
        {BFDD_DEMAND, (s->wanted.flags & DP_DEMAND) != 0, &s->demand}};
    bool is_shut = s->state.state == BFDD_ADMIN_DOWN, wants_shut = (s->wanted.flags & DP_SHUTDOWN) != 0;
    if (!s->is_open) return;
    for (size_t i = 0; i < COUNT(values); i++)
        if (*values[i].had != values[i].value && command(s, values[i].verb, values[i].value, NULL, now)) *values[i].had = values[i].value;
    if (!is_shut && wants_shut) command(s, BFDD_DISABLE, 0, "shut down here", now);
    if (is_shut && !wants_shut) command(s, BFDD_ENABLE, 0, "no longer shut down here", now);
}

/* Keeps what is reported of the peer to the owner, from a control packet that the engine accepted (RFC 5880 section 4.1); counts it. */
static void keep_peer(struct session *s, const bfdd_arrival *arrival) {
    const uint8_t *payload = arrival->payload;
    s->counters.packets_in++;
    s->counters.bytes_in += arrival->length;
    s->peer_state = payload[1] >> 6;
    s->state.diagnostic = payload[0] & 31;
    s->state.peer_flags = (payload[1] & 8 ? DP_PEER_C : 0u) | (payload[1] & 2 ? DP_PEER_DEMAND : 0u);
    s->state.peer_mult = payload[2];
    s->state.peer_discr = get32(payload + 4);
    s->state.peer_tx = get32(payload + 12);
    s->state.peer_rx = get32(payload + 16);
    s->state.peer_echo_rx = get32(payload + 20);
}

static void say_dropped(const bfdd_arrival *arrival, const char *cause) {
    char from[ADDRESS_TEXT];
    if (log_greatest == LOG_DEBUG) say(LOG_DEBUG, "a packet from %s was dropped: %s", address_text(&arrival->packet.src, from), cause);
}

/* The session that accepts a packet, which gets the session's interface and no moment before the engine's last tick. NULL: none does. */
static struct session *session_for(bfdd_arrival *arrival, uint32_t device) {
    struct session *s = find_for(arrival, device);
    bfdd_packet *packet = &arrival->packet;
    bool is_far = s && is_multihop(s) && packet->ttl < s->wanted.least_ttl;
    if (!s || is_far) {
        say_dropped(arrival, is_far ? "TTL below the least one" : "no session");
        return NULL;
    }
    packet->iface = (uint16_t)s->path.ifindex;
    if (packet->moment < ticked * 1000) packet->moment = ticked * 1000;
    return s;
}

/* The engine has handled a packet. Of several only the last one may have left outputs. */
static void handled(struct session *s, const bfdd_arrival *arrival, const bfdd_answered *answer, bool is_last) {
    uint64_t moment = arrival->packet.moment;
    bool is_taken = answer->kind == BFDD_HANDLED;
    record_packet(&s->record, arrival);
    if (is_taken) keep_peer(s, arrival);
    else say_dropped(arrival, answer->name);
    if (is_last) take_outputs(NULL, moment);
    if (is_taken) s->heard = moment;
    if (s->state.state == BFDD_UP && memcmp(&s->reported, &s->state, sizeof s->reported) != 0) report(s, NULL, moment);
}

/* Packets came. Those of sessions go to the engine, which stops behind each that leaves outputs. */
static void receive(bfdd_arrival *arrivals, size_t count, uint32_t device) {
    static bfdd_answered answers[BFDD_MANY] = {[0 ... BFDD_MANY - 1] = BFDD_ANSWERED_INIT};
    struct session *whose[BFDD_MANY];
    size_t kept = 0, done = 0;
    for (size_t i = 0; i < count; i++) {
        arrivals[kept] = arrivals[i];
        whose[kept] = session_for(&arrivals[kept], device);
        if (whose[kept]) kept++;
    }
    for (size_t at = 0; at < kept; at += done) {
        uint32_t code = bfdd_packets(&engine, arrivals + at, kept - at, answers, kept - at, &done);
        for (size_t i = 0; i < done; i++) handled(whose[at + i], &arrivals[at + i], &answers[i], i + 1 == done);
        if (code != BFDD_DONE) say_dropped(&arrivals[at + done++], "not received by the engine");
    }
    for (size_t i = 0; i < kept; i++) give_changes(whose[i], clock_now());
}

/* Opening and closing -------------------------------------------------------------------------------------------------- */

/* Says why a session can't be opened, which is tried again each second. */
static void refuse(struct session *s, const char *cause) {
    say(s->is_refused ? LOG_DEBUG : LOG_ERROR, "%s can't begin: %s; tried again each second", session_name(s), cause);
    s->is_refused = true;
}

/* Gives the session to the engine. A session's interface is a number of 16 bits there: two whose addresses are the same, and whose
 * interfaces differ by a multiple of 65,536, can't exist at the same time. */
static void add_to_engine(struct session *s, uint64_t now) {
    bfdd_session *config = &s->config;
    char interface[IF_NAMESIZE];
    config->iface = (uint16_t)s->path.ifindex;
    config->active = is_active(s);
    config->tx = s->wanted.tx;
    config->rx = s->wanted.rx;
    config->mult = s->wanted.mult;
    s->demand = 0;
    if (getrandom(&config->seed, sizeof config->seed, 0) != sizeof config->seed) config->seed = (uint32_t)now;
    uint32_t code = bfdd_add(&engine, config);
    if (code == BFDD_TAKEN_ADDRESSES) return refuse(s, "another session has its addresses");
    if (code != BFDD_DONE) return refuse(s, bfdd_name(BFDD_NAME_CODE, code));
    s->is_open = true;
    s->since = now;
    s->state = (struct dp_state){.discr = s->wanted.discr, .state = BFDD_DOWN};
    record_begin(&s->record, config, now);
    const char *device = s->path.device ? if_indextoname(s->path.device, interface) : NULL;
    say(LOG_INFO, "%s begins%s%s", session_name(s), device ? ", by sockets bound to " : "", device ? device : "");
    give_changes(s, now);
}

/* Opens a session whose hold time has passed. Where the system has no route to the peer, the next second tries again. */
static void open_session(struct session *s, uint64_t now) {
    bool has_source = memcmp(s->wanted.source, no_address, sizeof no_address) != 0;
    s->config.local = address_of(&s->wanted, s->wanted.source);
    if (!sockets_find(is_multihop(s), s->wanted.ifindex, &s->path)) return refuse(s, strerror(errno));
    if (has_source || sockets_source(&s->config.remote, &s->path, &s->config.local)) add_to_engine(s, now);
}

static void remove_from_engine(struct session *s) {
    bfdd_remove(&engine, s->wanted.discr); /* if present */
    s->is_open = false;
    record_end(&s->record);
}

/* A session ends, and sends AdminDown once. */
static void end_session(struct session *s, uint64_t now) {
    s->owner = NO_OWNER; /* FRR has ended it, and gets no more reports */
    if (s->is_open) command(s, BFDD_DISABLE, 0, "ended here", now);
    say(LOG_INFO, "%s ends", session_name(s));
}

static void free_session(struct session *s) {
    remove_from_engine(s);
    enter(s, false);
    free(s);
}

static void close_session(struct session *s, uint64_t now) {
    end_session(s, now);
    free_session(s);
}

/* Additions and removals ----------------------------------------------------------------------------------------------- */

/* Why a session can't be, or NULL. */
static const char *fault_of(const struct dp_session *wanted) {
    if (wanted->discr == 0) return "its discriminator is 0";
    if (memcmp(wanted->destination, no_address, sizeof no_address) == 0) return "it has no destination";
    if (wanted->tx < LEAST_INTERVAL || wanted->tx > GREATEST_INTERVAL || wanted->rx < LEAST_INTERVAL || wanted->rx > GREATEST_INTERVAL)
        return "an interval is below 10 ms or above 60 s";
    return wanted->mult == 0 ? "Detect Mult is 0" : NULL;
}

/* Whether both are one session to the peer, so that commands turn the one into the other. */
static bool is_same_session(const struct dp_session *a, const struct dp_session *b) {
    const uint32_t kind = DP_MULTIHOP | DP_IPV6;
    return (a->flags & kind) == (b->flags & kind) && a->ifindex == b->ifindex && !memcmp(a->source, b->source, 16)
           && !memcmp(a->destination, b->destination, 16);
}

static void add_new(uint32_t owner, const struct dp_session *wanted, const bfdd_session *keyed, uint64_t now) {
    struct session *s = calloc(1, sizeof *s);
    if (!s) return say(LOG_ERROR, "session %" PRIu32 " refused: no memory", wanted->discr);
    s->wanted = *wanted;
    if (keyed) s->config = *keyed;
    s->config.size = sizeof s->config;
    s->config.kind = is_multihop(s) ? BFDD_MULTIHOP : BFDD_SINGLE_HOP;
    s->config.discr = wanted->discr;
    s->config.remote = address_of(wanted, wanted->destination);
    s->owner = owner;
    s->ends = s->report_at = UINT64_MAX;
    s->begun = now;
    s->starts = now + (uint64_t)wanted->hold_ms * 1000;
    if (s->starts < next_chores) next_chores = s->starts;
    s->state = (struct dp_state){.discr = wanted->discr, .state = BFDD_DOWN};
    struct session *rival = *bucket_of_peer(&s->config.remote);
    while (rival && !is_same_session(&rival->wanted, wanted)) rival = rival->next[BY_PEER];
    if (rival) close_session(rival, now); /* FRR has it under another discriminator now */
    enter(s, true);
    if (wanted->flags & DP_ECHO) say(LOG_WARNING, "%s: echo packets aren't sent here; control packets alone watch it", session_name(s));
    if (s->starts <= now) open_session(s, now);
}

void sessions_add(uint32_t owner, struct dp_session wanted, const bfdd_session *keyed, uint64_t now) {
    struct session *s = sessions_find(wanted.discr);
    const char *fault = fault_of(&wanted);
    if (wanted.ifindex == 0 && wanted.ifname[0]) wanted.ifindex = if_nametoindex(wanted.ifname);
    if (fault) return say(LOG_ERROR, "session %" PRIu32 " %s: %s", wanted.discr, s ? "is left as it is" : "refused", fault);
    if (s && !is_same_session(&s->wanted, &wanted)) {
        close_session(s, now);
        s = NULL;
    }
    if (!s) return add_new(owner, &wanted, keyed, now);
    bool is_taken = s->owner != owner;
    s->wanted = wanted;
    s->owner = owner;
    s->ends = UINT64_MAX;
    say(LOG_DEBUG, "%s was given its values again", session_name(s));
    give_changes(s, now);
    if (is_taken && s->state.state == BFDD_UP) report(s, NULL, now);
}

void sessions_remove(uint32_t discr, uint64_t now) {
    struct session *s = sessions_find(discr);
    if (s) close_session(s, now);
    else say(LOG_DEBUG, "no session has the discriminator %" PRIu32, discr);
}

/* Its sessions end in the next round, or later if they are kept. */
void sessions_lost(uint32_t owner, uint64_t now) {
    for (struct session *s = all; s; s = s->next[ALL]) {
        if (s->owner != owner) continue;
        s->owner = NO_OWNER;
        s->ends = now + keep;
    }
    next_chores = now;
}

/* Time ----------------------------------------------------------------------------------------------------------------- */

/* What a second may have changed for a session: a route to its peer, its mode, room to report to its owner. */
static void second(struct session *s, uint64_t now) {
    if (s->ends <= now) return close_session(s, now);
    if (s->is_open && s->state.state == BFDD_DOWN && s->config.active != is_active(s)) remove_from_engine(s);
    if (!s->is_open && s->starts <= now) return open_session(s, now);
    give_changes(s, now);
    record_flush(&s->record);
    if (s->report_at <= now) report(s, NULL, now);
}

static void tick(uint64_t now) {
    ticked = now / 1000;
    bfdd_tick(&engine, ticked);
    for (struct session *s = record_is_on() ? all : NULL; s; s = s->next[ALL]) record_tick(&s->record, ticked);
    take_outputs(NULL, now);
}

uint64_t sessions_pass(uint64_t now) {
    uint64_t due = 0;
    if (bfdd_due(&engine, &due) == BFDD_DONE && due <= now / 1000) tick(now);
    if (next_chores <= now) {
        next_chores = now + SECOND;
        for (struct session *s = all, *next; s; s = next) {
            next = s->next[ALL];
            second(s, now);
        }
    }
    bool is_due = bfdd_due(&engine, &due) == BFDD_DONE;
    return is_due && due * 1000 < next_chores ? due * 1000 : next_chores;
}

void sessions_view(struct line line, uint64_t now) {
    for (struct session *s = all; s; s = s->next[ALL]) {
        bfdd_session_state state = BFDD_SESSION_STATE_INIT;
        if (s->is_open) bfdd_state(&engine, s->wanted.discr, &state);
        view_session(line, s, &state, now);
    }
}

void sessions_open(session_reporter *report_to_owner, uint64_t keep_for) {
    static const char none[] = "bfd 1\nrun\nend\n";
    bfdd_complaint complaint = BFDD_COMPLAINT_INIT;
    reporter = report_to_owner;
    keep = keep_for;
    if (bfdd_open(&engine, (const uint8_t *)none, sizeof none - 1, &complaint) != BFDD_DONE) fail("the sessions", "no memory");
    sockets_open(receive);
}

/* All say AdminDown; then the engine is closed as a whole, since each removal takes time linear in the sessions. */
void sessions_close(uint64_t now) {
    for (struct session *s = all; s; s = s->next[ALL]) end_session(s, now);
    bfdd_close(&engine);
    while (all) free_session(all);
}
