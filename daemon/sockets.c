/* sockets: the UDP sockets of BFD, and batches of packets in and out. */
#include "daemon.h"

#include <arpa/inet.h>
#include <time.h>

enum { SINGLE, MULTI, SENDER, KINDS, MOST_SOCKETS = 1024, MOST_BATCHES = 64, PAYLOAD_ROOM = 256, CONTROL_ROOM = 128 };
enum { TTL = 255, TOS = 0xc0, BUFFER = 4 << 20, PAUSE = 30000000 /* microseconds between warnings of packets that weren't sent */ };

/* The ports of each kind, of which the first free one is taken; a sender's are those of RFC 5881 section 4. FRR's bfdd holds one for
 * each session that it made before a data plane came. */
static const struct { uint32_t first, last, port; } ports[KINDS] = {
    {3784, 3784, BFDD_PORT_SINGLE}, {4784, 4784, BFDD_PORT_MULTI}, {49152, 65535, 0}};

/* What each socket is set to; of the buffers' size the system gives as much as it allows. */
static const struct { int level, option, value; } options[] = {
    {SOL_SOCKET, SO_RCVBUF, BUFFER}, {SOL_SOCKET, SO_SNDBUF, BUFFER}, {SOL_SOCKET, SO_TIMESTAMPNS, 1},
    {IPPROTO_IPV6, IPV6_V6ONLY, 0}, {IPPROTO_IPV6, IPV6_RECVPKTINFO, 1}, {IPPROTO_IPV6, IPV6_RECVHOPLIMIT, 1}, {IPPROTO_IP, IP_RECVTTL, 1},
    {IPPROTO_IPV6, IPV6_UNICAST_HOPS, TTL}, {IPPROTO_IP, IP_TTL, TTL}, {IPPROTO_IPV6, IPV6_TCLASS, TOS}, {IPPROTO_IP, IP_TOS, TOS}};

static struct udp_socket {
    int fd, kind;
    uint32_t device;
    uint64_t drained; /* when it was read empty: what comes later has come after it */
} all[MOST_SOCKETS];
static uint32_t count;
static packets_taker *take_packets;

/* The packets of one call, each with the peer's address, its payload, and the kernel's control data. */
static struct batch {
    struct mmsghdr messages[BFDD_MANY];
    struct sockaddr_in6 peers[BFDD_MANY];
    struct iovec parts[BFDD_MANY];
    uint8_t payloads[BFDD_MANY][PAYLOAD_ROOM];
    _Alignas(struct cmsghdr) char controls[BFDD_MANY][CONTROL_ROOM];
} incoming, outgoing;
static unsigned queued; /* packets of `outgoing`, */
static int sender;      /* which go by this socket */

static struct in6_addr mapped(const bfdd_address *address) {
    struct in6_addr in6 = {.s6_addr = {[10] = 255, [11] = 255}};
    memcpy(in6.s6_addr + (address->family == 4 ? 12 : 0), address->bytes, address->family == 4 ? 4 : 16);
    return in6;
}

static bfdd_address unmapped(const struct in6_addr *in6) {
    bool is_v4 = IN6_IS_ADDR_V4MAPPED(in6);
    bfdd_address address = {.family = is_v4 ? 4 : 6};
    memcpy(address.bytes, in6->s6_addr + (is_v4 ? 12 : 0), is_v4 ? 4 : 16);
    return address;
}

/* Opening -------------------------------------------------------------------------------------------------------------- */

static bool set(int fd, int level, int option, int value) { return setsockopt(fd, level, option, &value, sizeof value) == 0; }

static bool set_options(int fd) {
    for (size_t i = 0; i < COUNT(options); i++)
        if (!set(fd, options[i].level, options[i].option, options[i].value)) return false;
    return true;
}

static bool bind_to_device(int fd, uint32_t device) {
    char name[IF_NAMESIZE];
    return !device || (if_indextoname(device, name) && !setsockopt(fd, SOL_SOCKET, SO_BINDTODEVICE, name, (socklen_t)strlen(name)));
}

static bool bind_to_port(int fd, int kind) {
    struct sockaddr_in6 at = {.sin6_family = AF_INET6};
    for (uint32_t port = ports[kind].first; port <= ports[kind].last; port++) {
        at.sin6_port = htons((uint16_t)port);
        if (bind(fd, (struct sockaddr *)&at, sizeof at) == 0) return true;
        if (errno != EADDRINUSE) return false;
    }
    return false;
}

/* Opens a socket, or fails with errno. Alongside one that is bound to no device the system lets another bind to the same port only
 * if both allow that; they do so no longer than this takes, so that a second BFD daemon finds the port in use. */
static int open_one(int kind, uint32_t device) {
    int fd = socket(AF_INET6, SOCK_DGRAM | SOCK_NONBLOCK | SOCK_CLOEXEC, 0);
    if (fd < 0) return -1;
    bool is_beside = device && kind != SENDER;
    if (is_beside) set(all[kind].fd, SOL_SOCKET, SO_REUSEADDR, 1);
    set(fd, SOL_SOCKET, SO_REUSEADDR, is_beside);
    bool is_open = set_options(fd) && bind_to_device(fd, device) && bind_to_port(fd, kind);
    if (is_beside) set(all[kind].fd, SOL_SOCKET, SO_REUSEADDR, 0);
    set(fd, SOL_SOCKET, SO_REUSEADDR, 0);
    if (is_open) return fd;
    close(fd);
    return -1;
}

static void receive(uint32_t number, uint64_t now);

/* The socket of this kind and device, which is opened if it isn't yet. NULL with errno. */
static struct udp_socket *socket_of(int kind, uint32_t device) {
    struct udp_socket *it = all;
    while (it < all + count && (it->kind != kind || it->device != device)) it++;
    if (it < all + count) return it;
    errno = ENOMEM;
    int fd = count < MOST_SOCKETS ? open_one(kind, device) : -1;
    if (fd < 0) return NULL;
    *it = (struct udp_socket){.fd = fd, .kind = kind, .device = device, .drained = clock_now()};
    if (kind != SENDER) loop_await(fd, LOOP_PACKETS, count, EPOLLIN, receive);
    else set(fd, SOL_SOCKET, SO_RCVBUF, 0); /* nothing is read from it */
    count++;
    return it;
}

static void begin_batch(struct batch *batch, size_t control_room) {
    for (int i = 0; i < BFDD_MANY; i++) {
        batch->parts[i] = (struct iovec){batch->payloads[i], PAYLOAD_ROOM};
        batch->messages[i].msg_hdr = (struct msghdr){.msg_name = &batch->peers[i], .msg_namelen = sizeof batch->peers[i],
                .msg_iov = &batch->parts[i], .msg_iovlen = 1, .msg_control = batch->controls[i], .msg_controllen = control_room};
    }
}

void sockets_open(packets_taker *take) {
    take_packets = take;
    begin_batch(&incoming, CONTROL_ROOM);
    begin_batch(&outgoing, CMSG_SPACE(sizeof(struct in6_pktinfo)));
    for (int kind = 0; kind < KINDS; kind++) {
        char text[20];
        snprintf(text, sizeof text, "UDP port %u", ports[kind].first);
        if (!socket_of(kind, 0)) fail(text, strerror(errno));
    }
}

/* The master of an interface, as the VRF that it is in; 0 where it has none. */
static uint32_t master_of(uint32_t ifindex) {
    char interface[IF_NAMESIZE], path[64];
    uint32_t master = 0;
    if (!if_indextoname(ifindex, interface)) return 0;
    snprintf(path, sizeof path, "/sys/class/net/%s/master/ifindex", interface);
    FILE *file = fopen(path, "re");
    if (!file) return 0;
    if (fscanf(file, "%" SCNu32, &master) != 1) master = 0;
    fclose(file);
    return master;
}

/* The device that a session's sockets are bound to, 0 for none: where its interface has a master, over a single hop the interface and
 * over several the master, which for both is how packets of a VRF come; else over several hops the interface. */
static uint32_t device_of(uint32_t ifindex, bool is_multihop) {
    uint32_t master = master_of(ifindex);
    if (is_multihop) return master ? master : ifindex;
    return master ? ifindex : 0;
}

bool sockets_find(bool is_multihop, uint32_t ifindex, struct path *path) {
    uint32_t device = device_of(ifindex, is_multihop);
    struct udp_socket *sender = socket_of(is_multihop ? MULTI : SINGLE, device) ? socket_of(SENDER, device) : NULL;
    if (sender) *path = (struct path){ifindex, device, sender->fd};
    return sender != NULL;
}

bool sockets_source(const bfdd_address *to, const struct path *path, bfdd_address *source) {
    struct sockaddr_in6 name = {.sin6_family = AF_INET6, .sin6_port = htons(3784), .sin6_scope_id = path->ifindex, .sin6_addr = mapped(to)};
    socklen_t length = sizeof name;
    int fd = socket(AF_INET6, SOCK_DGRAM | SOCK_CLOEXEC, 0);
    bool found = fd >= 0 && bind_to_device(fd, path->ifindex) && connect(fd, (struct sockaddr *)&name, length) == 0
                 && getsockname(fd, (struct sockaddr *)&name, &length) == 0;
    if (fd >= 0) close(fd);
    if (found) *source = unmapped(&name.sin6_addr);
    return found;
}

/* Receiving ------------------------------------------------------------------------------------------------------------ */

/* What the kernel says of a packet: TTL, interface, own address, and the time of day at which it came, 0 where it says none. */
static uint64_t read_control(struct msghdr *message, bfdd_packet *packet) {
    uint64_t stamp = 0;
    for (struct cmsghdr *c = CMSG_FIRSTHDR(message); c; c = CMSG_NXTHDR(message, c)) {
        struct in6_pktinfo info;
        struct timespec time;
        int ttl;
        if (c->cmsg_level == SOL_SOCKET && c->cmsg_type == SCM_TIMESTAMPNS) {
            memcpy(&time, CMSG_DATA(c), sizeof time);
            stamp = (uint64_t)time.tv_sec * 1000000 + (uint64_t)time.tv_nsec / 1000;
        } else if (c->cmsg_level == IPPROTO_IPV6 && c->cmsg_type == IPV6_PKTINFO) {
            memcpy(&info, CMSG_DATA(c), sizeof info);
            packet->iface = info.ipi6_ifindex;
            packet->dst = unmapped(&info.ipi6_addr);
        } else if (c->cmsg_level == IPPROTO_IP ? c->cmsg_type == IP_TTL : c->cmsg_type == IPV6_HOPLIMIT) {
            memcpy(&ttl, CMSG_DATA(c), sizeof ttl);
            packet->ttl = (uint8_t)ttl;
        }
    }
    return stamp;
}

/* The packet of this number that has come to a socket. Its moment is that at which the kernel received it, so that a late reading takes
 * no session down; the clock of that time may be set, so it counts only between the last reading of the socket and now. */
static bfdd_arrival arrival_of(const struct udp_socket *it, int i, uint64_t now, uint64_t wall) {
    struct msghdr *message = &incoming.messages[i].msg_hdr;
    const struct sockaddr_in6 *peer = &incoming.peers[i];
    bfdd_packet packet = {.size = sizeof packet, .port = ports[it->kind].port, .src = unmapped(&peer->sin6_addr),
                          .sport = ntohs(peer->sin6_port), .dst.family = 4};
    uint64_t stamp = read_control(message, &packet), age = stamp > 0 && stamp < wall ? wall - stamp : 0;
    packet.moment = age < now - it->drained ? now - age : it->drained;
    message->msg_controllen = CONTROL_ROOM; /* of which the kernel has written what it used */
    return (bfdd_arrival){packet, incoming.payloads[i], incoming.messages[i].msg_len};
}

/* Passes on the packets that have come to this socket. */
static void receive(uint32_t number, uint64_t now) {
    static bfdd_arrival arrivals[BFDD_MANY];
    struct udp_socket *it = &all[number];
    int got = BFDD_MANY;
    for (int batch = 0; got == BFDD_MANY && batch < MOST_BATCHES; batch++) {
        uint64_t wall = clock_wall();
        now = clock_now();
        got = recvmmsg(it->fd, incoming.messages, BFDD_MANY, 0, NULL);
        for (int i = 0; i < got; i++) arrivals[i] = arrival_of(it, i, now, wall);
        if (got > 0) take_packets(arrivals, (size_t)got, it->device);
    }
    if (got < BFDD_MANY) it->drained = now;
}

/* Sending -------------------------------------------------------------------------------------------------------------- */

/* Says that a packet wasn't sent: a warning once in a while, since each packet to a peer may fail. */
static void say_unsent(const struct sockaddr_in6 *peer, const char *cause) {
    static uint64_t next;
    char text[ADDRESS_TEXT];
    bool warns = clock_now() >= next;
    bfdd_address to = unmapped(&peer->sin6_addr);
    say(warns ? LOG_WARNING : LOG_DEBUG, "a packet to %s wasn't sent: %s", address_text(&to, text), cause);
    if (warns) next = clock_now() + PAUSE;
}

void sockets_flush(void) {
    for (unsigned at = 0; at < queued;) {
        int sent = sendmmsg(sender, outgoing.messages + at, queued - at, 0);
        if (sent < 0) say_unsent(&outgoing.peers[at], strerror(errno));
        at += sent > 0 ? (unsigned)sent : 1;
    }
    queued = 0;
}

void sockets_send(const bfdd_output *out, const struct path *path) {
    const struct in6_pktinfo from = {.ipi6_addr = mapped(&out->src), .ipi6_ifindex = path->ifindex};
    if (queued == BFDD_MANY || sender != path->sender) sockets_flush();
    sender = path->sender;
    unsigned i = queued++;
    struct cmsghdr *c = outgoing.messages[i].msg_hdr.msg_control;
    struct sockaddr_in6 *to = &outgoing.peers[i];
    *to = (struct sockaddr_in6){.sin6_family = AF_INET6, .sin6_port = htons(out->dport), .sin6_addr = mapped(&out->dst)};
    if (IN6_IS_ADDR_LINKLOCAL(&to->sin6_addr)) to->sin6_scope_id = path->ifindex;
    *c = (struct cmsghdr){.cmsg_level = IPPROTO_IPV6, .cmsg_type = IPV6_PKTINFO, .cmsg_len = CMSG_LEN(sizeof from)};
    memcpy(CMSG_DATA(c), &from, sizeof from);
    memcpy(outgoing.payloads[i], out->bytes, out->len);
    outgoing.parts[i].iov_len = out->len;
}
