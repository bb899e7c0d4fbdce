/* control: the connections to FRR's bfdd: they are opened again when lost, and their messages are carried out and answered.
 *
 * FRR queues at most FRR_QUEUE bytes for a connection and loses what doesn't fit without a word; a session that it lost so
 * it gives to the next connection that is opened. So when that many bytes have come, one more connection is opened, and it
 * stays if sessions come on it. A session belongs to the connection on which it came.
 *
 * Both buffers of a connection have a fixed size, and a message is read only while there is room for its answer: where FRR doesn't
 * read, its own messages wait in the socket. */
#include "daemon.h"

enum { LINKS = 256, FRR_QUEUE = 8192, NEARLY_FULL = FRR_QUEUE - DP_SESSION_LENGTH, BUFFER = DP_LONGEST + 1 };
static const uint64_t NEVER = UINT64_MAX, PAUSE = 1000000;

/* A connection. Its place is its number for the loop, and one more than that is the owner of its sessions. */
static struct link {
    int fd;              /* -1: closed */
    bool is_open;        /* FRR has sent something */
    bool has_sessions;   /* some of which were additions */
    size_t unread, rest; /* bytes that wait to be carried out, and to be sent */
    uint8_t in[BUFFER], out[BUFFER];
} links[LINKS];
static size_t links_in_use;
static struct endpoint peer;
static int listener = -1;
static uint64_t connect_at;
static size_t received; /* bytes of sessions since the last connection was opened */
static bool is_refused; /* the last connection failed, which was said */

static uint32_t owner_of(const struct link *link) { return (uint32_t)(link - links) + 1; }

static void link_event(uint32_t place, uint64_t now);

static bool has_room(const struct link *link) { return BUFFER - link->rest >= DP_LONGEST_WRITTEN; }

static void await(struct link *link) {
    uint32_t in = has_room(link) ? EPOLLIN : 0, out = link->rest > 0 ? EPOLLOUT : 0;
    loop_await(link->fd, LOOP_LINK, owner_of(link) - 1, in | out, link_event);
}

static void refuse(const char *cause, uint64_t now) {
    say(is_refused ? LOG_DEBUG : LOG_WARNING, "no connection to FRR: %s; tried again each second", cause);
    is_refused = true;
    connect_at = now + PAUSE;
}

static void end(struct link *link, enum log_level level, const char *cause, uint64_t now) {
    close(link->fd);
    link->fd = -1;
    links_in_use--;
    if (!link->is_open) return refuse(cause, now);
    say(level, "connection %u to FRR ended: %s", owner_of(link), cause);
    sessions_lost(owner_of(link), now);
    if (listener < 0 && links_in_use == 0) connect_at = now + PAUSE;
}

/* Sends what waits. False with errno when the connection has ended. */
static bool flush(struct link *link) {
    ssize_t sent = send(link->fd, link->out, link->rest, MSG_NOSIGNAL);
    if (sent < 0) return errno == EAGAIN || errno == EINTR;
    link->rest -= (size_t)sent;
    memmove(link->out, link->out + sent, link->rest);
    return true;
}

/* Sends a message, now or when the others have gone. False, and nothing is sent, if there is no room. A connection that has
 * ended is seen at its next event. */
static bool put(struct link *link, const struct dp_message *message) {
    if (link->fd < 0 || !has_room(link)) return false;
    bool is_first = link->rest == 0;
    link->rest += dp_write(link->out + link->rest, message);
    if (is_first) flush(link);
    await(link);
    return true;
}

/* A connection of this socket, which may not be connected yet. It begins with a question: when the answer has come, so have all
 * sessions that FRR had for it at first. */
static void begin(int fd, bool is_open, uint64_t now) {
    const struct dp_message question = {.type = DP_ECHO_REQUEST, .body.echo.data_plane_time = now};
    struct link *link = links;
    while (link < links + LINKS && link->fd >= 0) link++;
    if (link == links + LINKS) {
        say(LOG_ERROR, "no more than %d connections to FRR are opened", LINKS);
        close(fd);
        return;
    }
    links_in_use++;
    link->fd = fd;
    link->is_open = is_open;
    link->has_sessions = false;
    link->unread = 0;
    link->rest = dp_write(link->out, &question); /* which goes once it is connected */
    await(link);
}

static void open_link(uint64_t now) {
    int fd = socket(peer.at.any.sa_family, SOCK_STREAM | SOCK_NONBLOCK | SOCK_CLOEXEC, 0);
    connect_at = NEVER;
    received = 0;
    if (fd >= 0 && (connect(fd, &peer.at.any, peer.length) == 0 || errno == EINPROGRESS)) return begin(fd, false, now);
    refuse(strerror(errno), now);
    if (fd >= 0) close(fd);
}

static void accept_link(uint32_t number UNUSED, uint64_t now) {
    int fd = accept4(listener, NULL, NULL, SOCK_NONBLOCK | SOCK_CLOEXEC);
    if (fd >= 0) begin(fd, true, now);
    else say(LOG_WARNING, "accept: %s", strerror(errno));
}

static void answer_counters(struct link *link, uint16_t id, uint32_t discr) {
    const struct session *s = sessions_find(discr);
    struct dp_message answer = {.type = DP_COUNTERS, .id = id};
    if (s) answer.body.counters = s->counters;
    answer.body.counters.discr = discr;
    put(link, &answer);
}

static void carry_out(struct link *link, const struct dp_message *message, uint64_t now) {
    struct dp_message reply = {.type = DP_ECHO_REPLY, .id = message->id, .body.echo = {now, message->body.echo.control_time}};
    switch (message->type) {
    case DP_ECHO_REQUEST: put(link, &reply); break;
    case DP_ECHO_REPLY: /* all that FRR had for this connection has come: if that is nothing, it isn't needed alongside another */
        if (!link->has_sessions && listener < 0 && links_in_use > 1) end(link, LOG_INFO, "no session was left for it", now);
        break;
    case DP_ADD_SESSION:
        link->has_sessions = true;
        received += message->length;
        sessions_add(owner_of(link), message->body.session, NULL, now);
        break;
    case DP_DELETE_SESSION:
        received += message->length;
        sessions_remove(message->body.session.discr, now);
        break;
    default: answer_counters(link, message->id, message->body.discr);
    }
}

/* Carries out the messages that have come, while their answers have room. */
static void carry_out_all(struct link *link, uint64_t now) {
    struct dp_message message;
    size_t at = 0, used = 1;
    while (used > 0 && link->fd >= 0 && has_room(link)) {
        enum dp_reading reading = dp_read(link->in + at, link->unread - at, &message, &used);
        at += used;
        if (reading == DP_READ) carry_out(link, &message, now);
        if (reading == DP_LOST) end(link, LOG_ERROR, "a message has a length below its header's", now);
        if (reading == DP_SKIPPED)
            say(LOG_WARNING, "skipped a message of version %d, type %d, length %d", message.version, message.type, message.length);
    }
    link->unread -= at;
    memmove(link->in, link->in + at, link->unread);
    if (received >= NEARLY_FULL && listener < 0 && connect_at == NEVER) connect_at = now;
}

/* Sends what waits, and reads what has come. NULL, or why the connection has ended. */
static const char *exchange(struct link *link) {
    if (link->rest > 0 && !flush(link)) return strerror(errno);
    if (link->unread == BUFFER) return NULL; /* messages whose answers have no room */
    ssize_t got = recv(link->fd, link->in + link->unread, BUFFER - link->unread, 0);
    if (got == 0) return "closed by FRR";
    if (got < 0) return errno == EAGAIN || errno == EINTR ? NULL : strerror(errno);
    link->unread += (size_t)got;
    return NULL;
}

static void link_event(uint32_t place, uint64_t now) {
    struct link *link = &links[place];
    if (link->fd < 0) return; /* it was closed since */
    const char *cause = exchange(link);
    if (link->unread > 0 && !link->is_open) {
        say(LOG_INFO, "connection %u to FRR is open", owner_of(link));
        link->is_open = true;
        is_refused = false;
    }
    carry_out_all(link, now);
    if (link->fd < 0) return; /* by a message */
    if (cause) return end(link, LOG_WARNING, cause, now);
    await(link);
}

void control_open(const struct endpoint *endpoint, bool listens) {
    for (size_t i = 0; i < LINKS; i++) links[i].fd = -1;
    peer = *endpoint;
    connect_at = listens ? NEVER : 0;
    if (!listens) return;
    listener = endpoint_listen(endpoint);
    loop_await(listener, LOOP_LISTENER, 0, EPOLLIN, accept_link);
}

bool control_report(const struct session *s, const struct session_change *change UNUSED) {
    const struct dp_message message = {.type = DP_STATE_CHANGE, .body.state = s->state};
    return s->owner != NO_OWNER && put(&links[s->owner - 1], &message);
}

uint64_t control_round(uint64_t now) {
    if (connect_at <= now) open_link(now);
    return connect_at;
}
