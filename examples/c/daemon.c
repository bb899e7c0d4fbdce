/* A BFD daemon on libbfdd, over UDP and IPv4.
 *
 *     daemon TABLE LOCAL [LEAST_TTL]
 *
 * TABLE is a file with the table of a packet file: `bfd 1`, table lines, `run`, `end`. LOCAL is the own address of its lines,
 * and an interface's number is that of the system. It sends what the sessions send, and writes each change of state and each
 * packet that is dropped to standard output, with the microseconds since its start. It sleeps until a packet comes or the
 * engine needs a tick, and ends by SIGINT or SIGTERM. Tails of multipoint trees aren't served: no group is joined.
 *
 * What the engine leaves to a daemon (docs/EMBEDDING.md): each session sends from a port of its own. Packets over several hops whose
 * TTL is below LEAST_TTL are discarded. A line `DISCR VERB VALUE` of standard input is a command, which waits until the Poll Sequence
 * of the one before has ended. `DISCR add IFACE REMOTE` adds a session over a single hop, and `DISCR remove` removes one. On SIGHUP
 * the table is read again, with other keys say, after each session has said AdminDown. */
#define _GNU_SOURCE
#include <arpa/inet.h>
#include <bfdd.h>
#include <errno.h>
#include <inttypes.h>
#include <netinet/in.h>
#include <poll.h>
#include <signal.h>
#include <stdio.h>
#include <stdlib.h>
#include <string.h>
#include <sys/socket.h>
#include <time.h>
#include <unistd.h>

enum { SBFD = 3, PORTS = 4, LINES = PORTS, PLACES = 64, SOURCES = 1 << 15 };
static const struct { uint16_t udp; uint32_t port; } ports[PORTS] = {
    {3784, BFDD_PORT_SINGLE}, {4784, BFDD_PORT_MULTI}, {3785, BFDD_PORT_ECHO}, {7784, BFDD_PORT_SBFD}};
static const char *const states[] = {"AdminDown", "Down", "Init", "Up"};
static const char *const verbs[] = {"disable", "enable", "reset", "path", "tx", "rx", "mult", "demand", "echo", "key", "add", "remove"};
enum { ADD = 11, REMOVE = 12 };
static struct pollfd sockets[PLACES]; /* of the ports, of standard input, and of initiators, whose answers come to their own port */
static nfds_t places = LINES + 1;
static struct { uint32_t discr; int fd; } sources[SOURCES]; /* a session and its socket; twice as many places as there are ports */
static struct { uint32_t discr, verb; uint64_t value; struct in_addr remote; } command; /* the one that waits; without one the verb is 0 */
static int lines = STDIN_FILENO; /* -1 once it has ended */
static struct in_addr local;
static unsigned least_ttl;
static volatile sig_atomic_t stopped, reread;

static void stop(int number) { (void)number, stopped = 1; }

static void read_again(int number) { (void)number, reread = 1; }

static void fail(const char *what) {
    perror(what);
    exit(1);
}

static uint64_t now(void) { /* microseconds since the first call */
    static uint64_t start;
    struct timespec t;
    clock_gettime(CLOCK_MONOTONIC, &t);
    uint64_t us = (uint64_t)t.tv_sec * 1000000 + (uint64_t)t.tv_nsec / 1000;
    if (!start) start = us;
    return us - start;
}

/* A socket on this port of the own address, or -1 where another program has it. */
static int open_socket(uint16_t udp) {
    struct sockaddr_in at = {.sin_family = AF_INET, .sin_port = htons(udp), .sin_addr = local};
    int on = 1, ttl = 255, fd = socket(AF_INET, SOCK_DGRAM | SOCK_NONBLOCK | SOCK_CLOEXEC, 0);
    if (fd < 0) fail("socket");
    if (setsockopt(fd, IPPROTO_IP, IP_TTL, &ttl, sizeof ttl) || setsockopt(fd, IPPROTO_IP, IP_RECVTTL, &on, sizeof on)
        || setsockopt(fd, IPPROTO_IP, IP_PKTINFO, &on, sizeof on))
        fail("setsockopt");
    if (!bind(fd, (struct sockaddr *)&at, sizeof at)) return fd;
    if (errno != EADDRINUSE) fail("bind");
    close(fd);
    return -1;
}

/* The socket of a session. Its port is from 49152 on, for this session alone, and the same for all that it sends (RFC 5881 section 4). */
static int source_of(uint32_t discr) {
    static uint16_t next = 49152; /* 0 behind the last */
    uint32_t at = discr * 2654435769u >> 17;
    while (sources[at].discr && sources[at].discr != discr) at = (at + 1) % SOURCES;
    if (sources[at].discr) return sources[at].fd;
    int fd = -1;
    while (fd < 0) {
        if (!next) fail("no port is left");
        fd = open_socket(next++);
    }
    sources[at].discr = discr, sources[at].fd = fd;
    return fd;
}

/* The answers to an initiator come to the port from which it asks. */
static void listen_on(int fd) {
    for (nfds_t place = LINES + 1; place < places; place++)
        if (sockets[place].fd == fd) return;
    if (places == PLACES) fail("too many initiators");
    sockets[places++] = (struct pollfd){.fd = fd, .events = POLLIN};
}

/* All that a file has, in memory that the caller frees. */
static uint8_t *read_file(const char *path, size_t *length) {
    FILE *file = fopen(path, "rb");
    if (!file) fail(path);
    size_t room = 1 << 16;
    uint8_t *text = malloc(room);
    for (*length = 0; text; text = realloc(text, room *= 2)) {
        *length += fread(text + *length, 1, room - *length, file);
        if (*length < room) break; /* the end, or an error */
    }
    if (!text || ferror(file)) fail(path);
    fclose(file);
    return text;
}

static bool open_engine(bfdd_handle *engine, const char *path) {
    bfdd_complaint complaint = BFDD_COMPLAINT_INIT;
    size_t length;
    uint8_t *text = read_file(path, &length);
    uint32_t code = bfdd_open(engine, text, length, &complaint);
    free(text);
    if (code == BFDD_TEXT) fprintf(stderr, "%s: line %" PRIu64 " has fault %" PRIu32 "\n", path, complaint.line, complaint.fault);
    else if (code != BFDD_DONE) fprintf(stderr, "%s: not opened, for code %" PRIu32 "\n", path, code);
    return code == BFDD_DONE;
}

static void send_out(const bfdd_output *out) {
    struct sockaddr_in to = {.sin_family = AF_INET, .sin_port = htons(out->dport)};
    if (out->dst.family != 4) return;
    memcpy(&to.sin_addr, out->dst.bytes, 4);
    int fd = out->sport == ports[SBFD].udp ? sockets[SBFD].fd : source_of(out->discr);
    if (out->dport == ports[SBFD].udp) listen_on(fd);
    if (sendto(fd, out->bytes, out->len, 0, (struct sockaddr *)&to, sizeof to) < 0) perror("sendto");
}

static void take_outputs(bfdd_handle *engine, uint64_t moment) {
    bfdd_output out = BFDD_OUTPUT_INIT;
    while (bfdd_next(engine, &out) == BFDD_DONE) {
        if (out.kind == BFDD_SENT) send_out(&out);
        else printf("%" PRIu64 " state %" PRIu32 " %s %s %d\n", moment, out.discr, states[out.was], states[out.state], out.diag);
    }
}

/* Whether a packet came; its TTL, its interface and its own address are in the kernel's control data. */
static bool hear(nfds_t place, bfdd_packet *packet, uint8_t *payload, size_t *length) {
    struct sockaddr_in from = {0};
    struct iovec part = {payload, *length};
    _Alignas(struct cmsghdr) char beside[256];
    struct msghdr message = {.msg_name = &from, .msg_namelen = sizeof from, .msg_iov = &part, .msg_iovlen = 1,
                             .msg_control = beside, .msg_controllen = sizeof beside};
    ssize_t got = recvmsg(sockets[place].fd, &message, 0);
    if (got < 0) return false;
    *length = (size_t)got;
    *packet = (bfdd_packet){.size = sizeof *packet, .port = place < PORTS ? ports[place].port : BFDD_PORT_ANSWER, .moment = now(),
                            .sport = ntohs(from.sin_port)};
    packet->src.family = packet->dst.family = 4;
    memcpy(packet->src.bytes, &from.sin_addr, 4);
    for (struct cmsghdr *c = CMSG_FIRSTHDR(&message); c; c = CMSG_NXTHDR(&message, c)) {
        if (c->cmsg_level == IPPROTO_IP && c->cmsg_type == IP_TTL) {
            int ttl;
            memcpy(&ttl, CMSG_DATA(c), sizeof ttl);
            packet->ttl = (uint8_t)ttl;
        } else if (c->cmsg_level == IPPROTO_IP && c->cmsg_type == IP_PKTINFO) {
            struct in_pktinfo info;
            memcpy(&info, CMSG_DATA(c), sizeof info);
            packet->iface = (uint32_t)info.ipi_ifindex;
            memcpy(packet->dst.bytes, &info.ipi_addr, 4);
        }
    }
    return true;
}

static void receive(bfdd_handle *engine, nfds_t place) {
    uint8_t payload[256];
    bfdd_packet packet = BFDD_PACKET_INIT;
    bfdd_answered answer = BFDD_ANSWERED_INIT;
    for (size_t length = sizeof payload; hear(place, &packet, payload, &length); length = sizeof payload) {
        if (packet.port == BFDD_PORT_MULTI && packet.ttl < least_ttl) continue; /* over a single hop the engine asks for 255 */
        uint32_t code = bfdd_receive(engine, &packet, payload, length);
        if (code != BFDD_DONE) {
            printf("%" PRIu64 " refused %" PRIu32 "\n", packet.moment, code);
            continue;
        }
        take_outputs(engine, packet.moment);
        if (bfdd_answer(engine, &answer) == BFDD_DONE && answer.kind == BFDD_DROPPED)
            printf("%" PRIu64 " drop %s\n", packet.moment, answer.name);
    }
}

/* The next command of standard input. */
static void read_command(void) {
    char line[100], verb[10], remote[16] = "";
    if (!fgets(line, sizeof line, stdin)) lines = -1;
    else if (sscanf(line, "%" SCNu32 " %9s %" SCNu64 " %15s", &command.discr, verb, &command.value, remote) >= 2)
        for (uint32_t i = 0; i < sizeof verbs / sizeof *verbs; i++)
            if (!strcmp(verb, verbs[i])) command.verb = i + 1;
    inet_aton(remote, &command.remote);
}

/* One more session, by the command that waits. It sends its first packet at the next tick, once the clock is past its first interval. */
static uint32_t add_session(bfdd_handle *engine) {
    bfdd_session session = {.size = sizeof session, .kind = BFDD_SINGLE_HOP, .discr = command.discr, .iface = (uint32_t)command.value,
                            .local.family = 4, .remote.family = 4, .active = 1, .tx = 100000, .rx = 100000, .mult = 3,
                            .seed = command.discr};
    memcpy(session.local.bytes, &local, 4), memcpy(session.remote.bytes, &command.remote, 4);
    return bfdd_add(engine, &session);
}

/* Removes a session, which sends AdminDown to its peer first. */
static uint32_t remove_session(bfdd_handle *engine, uint64_t moment) {
    bfdd_command(engine, moment, command.discr, BFDD_DISABLE, 0);
    take_outputs(engine, moment);
    return bfdd_remove(engine, command.discr);
}

/* Gives the command that waits; but not while the session has a Poll Sequence, which a packet will end. */
static void give_command(bfdd_handle *engine) {
    bfdd_session_state state = BFDD_SESSION_STATE_INIT;
    bfdd_answered answer = BFDD_ANSWERED_INIT;
    uint64_t moment = now();
    if (bfdd_state(engine, command.discr, &state) == BFDD_DONE && state.poll) return;
    uint32_t code = BFDD_DONE;
    if (command.verb == ADD) code = add_session(engine);
    else if (command.verb == REMOVE) code = remove_session(engine, moment);
    else if (bfdd_command(engine, moment, command.discr, command.verb, command.value) == BFDD_DONE) bfdd_answer(engine, &answer);
    take_outputs(engine, moment);
    printf("%" PRIu64 " command %" PRIu32 " %s %s\n", moment, command.discr, verbs[command.verb - 1],
           answer.kind == BFDD_REFUSED ? answer.name : code != BFDD_DONE ? bfdd_name(BFDD_NAME_CODE, code) : "done");
    command.verb = 0;
}

/* Opens the engine by the table as it is now. A peer that has received AdminDown sees no failure of the path in what follows (RFC 5882
 * section 3.2). A faulty table changes nothing. */
static void open_anew(bfdd_handle *engine, const char *path) {
    bfdd_handle next = BFDD_HANDLE_INIT;
    reread = 0;
    if (!open_engine(&next, path)) return;
    for (uint32_t at = 0; at < SOURCES; at++) {
        if (!sources[at].discr) continue;
        uint64_t moment = now();
        bfdd_command(engine, moment, sources[at].discr, BFDD_DISABLE, 0);
        take_outputs(engine, moment);
    }
    bfdd_close(engine);
    *engine = next;
}

/* Sleeps until a packet comes or a tick is due, and then makes that tick. */
static void wait_and_tick(bfdd_handle *engine, const sigset_t *awake) {
    uint64_t due = 0, moment = now();
    struct timespec sleep = {0}, *limit = NULL;
    bool needed = bfdd_due(engine, &due) == BFDD_DONE;
    if (needed) {
        uint64_t left = due * 1000 > moment ? due * 1000 - moment : 0;
        sleep = (struct timespec){.tv_sec = (time_t)(left / 1000000), .tv_nsec = (long)(left % 1000000) * 1000};
        limit = &sleep;
    }
    sockets[LINES] = (struct pollfd){.fd = command.verb ? -1 : lines, .events = POLLIN};
    if (ppoll(sockets, places, limit, awake) < 0 && errno != EINTR) fail("ppoll");
    moment = now();
    if (needed && due <= moment / 1000 && bfdd_tick(engine, moment / 1000) == BFDD_DONE) take_outputs(engine, moment);
}

int main(int count, char **words) {
    if (count < 3 || count > 4 || !inet_aton(words[2], &local)) return fprintf(stderr, "usage: daemon TABLE LOCAL [LEAST_TTL]\n"), 1;
    if (count == 4) least_ttl = (unsigned)strtoul(words[3], NULL, 10);
    sigset_t ends, awake;
    sigemptyset(&ends), sigaddset(&ends, SIGINT), sigaddset(&ends, SIGTERM), sigaddset(&ends, SIGHUP);
    sigprocmask(SIG_BLOCK, &ends, &awake);
    signal(SIGINT, stop), signal(SIGTERM, stop), signal(SIGHUP, read_again);
    setvbuf(stdout, NULL, _IOLBF, 0), setvbuf(stdin, NULL, _IONBF, 0);
    bfdd_handle engine = BFDD_HANDLE_INIT;
    if (!open_engine(&engine, words[1])) return 2;
    for (int place = 0; place < PORTS; place++) {
        sockets[place] = (struct pollfd){.fd = open_socket(ports[place].udp), .events = POLLIN};
        if (sockets[place].fd < 0) fail("bind");
    }
    while (!stopped) {
        if (reread) open_anew(&engine, words[1]);
        if (command.verb) give_command(&engine);
        wait_and_tick(&engine, &awake);
        for (nfds_t place = 0; place < places; place++)
            if (sockets[place].revents) place == LINES ? read_command() : receive(&engine, place);
    }
    bfdd_close(&engine);
    return 0;
}
