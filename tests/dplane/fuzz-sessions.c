/* A target for libFuzzer: connections of FRR, packets and time, as any bytes say, for the daemon's sessions on the library. In the place of
 * the loop and of the UDP sockets stand those below, and the clock is the target's: link it with -Wl,--wrap=clock_now. A connection is a
 * real one, by a unix socket. Where FUZZ_RECORD names a folder, the sessions are recorded there, and the files removed. */
#include "../../daemon/daemon.h"

#include <dirent.h>

int LLVMFuzzerTestOneInput(const uint8_t *bytes, size_t count);
uint64_t __wrap_clock_now(void);

enum { CLIENTS = 4, ROOM = 300 };

static uint64_t moment = 1000000; /* which the next input goes on with */
static loop_act *acts[LOOP_KINDS];
static packets_taker *take;
static struct endpoint place;
static FILE *nowhere;
static const char *folder;

uint64_t __wrap_clock_now(void) { return moment; }

/* In the place of loop.c and sockets.c ------------------------------------------------------------------------------------ */

void loop_await(int fd UNUSED, enum loop_kind kind, uint32_t number UNUSED, uint32_t events UNUSED, loop_act *act) { acts[kind] = act; }

pid_t loop_fork(void) { return -1; }

void sockets_open(packets_taker *taker) { take = taker; }

/* The interface 9 can't be had. */
bool sockets_find(bool is_multihop, uint32_t ifindex, struct path *path) {
    *path = (struct path){ifindex, is_multihop ? ifindex : 0, 3};
    errno = ENODEV;
    return ifindex != 9;
}

bool sockets_source(const bfdd_address *to, const struct path *path UNUSED, bfdd_address *source) {
    *source = (bfdd_address){.family = to->family, .bytes = {10, 0, 0, 1}};
    return to->bytes[3] != 7;
}

void sockets_send(const bfdd_output *out, const struct path *path UNUSED) {
    if (out->len > sizeof out->bytes) abort();
    for (uint32_t i = 0; i < out->len; i++) fputc(out->bytes[i], nowhere);
}

void sockets_flush(void) {}

/* The bytes of an input --------------------------------------------------------------------------------------------------- */

static const uint8_t *at;
static size_t left;

static uint8_t take_byte(void) {
    if (left == 0) return 0;
    left--;
    return *at++;
}

/* So many bytes, or all that are left, in a block of their own, so that a sanitizer sees each byte read too far. */
static uint8_t *take_block(size_t *length) {
    if (*length > left) *length = left;
    uint8_t *block = malloc(*length ? *length : 1);
    if (!block) abort();
    if (*length) memcpy(block, at, *length);
    at += *length, left -= *length;
    return block;
}

static void put32(uint8_t *to, uint32_t number) {
    for (int i = 0; i < 4; i++) to[i] = (uint8_t)(number >> (24 - 8 * i));
}

/* A few addresses, of which the sessions and the packets are. */
static void put_address(uint8_t *to, bool is_v6, uint8_t which) {
    memset(to, 0, 16);
    if (which % 5 == 4) return;
    to[0] = is_v6 ? 0xfd : 10;
    to[is_v6 ? 15 : 3] = which % 5 == 3 ? 7 : (uint8_t)(1 + which % 5);
}

static int clients[CLIENTS];

static void connect_one(int *client) {
    char unread[4096];
    if (*client >= 0) close(*client);
    *client = socket(AF_UNIX, SOCK_STREAM | SOCK_NONBLOCK, 0);
    if (*client < 0 || connect(*client, &place.at.any, place.length) != 0) abort();
    acts[LOOP_LISTENER](0, moment);
    while (read(*client, unread, sizeof unread) > 0) {}
}

/* Each connection may have an event at any time. */
static void events(void) {
    for (uint32_t link = 0; link < CLIENTS + 1; link++)
        if (acts[LOOP_LINK]) acts[LOOP_LINK](link, moment);
}

static void send_to(int client, const uint8_t *message, size_t length) {
    char unread[4096];
    if (client >= 0 && send(client, message, length, MSG_NOSIGNAL) < 0 && errno == EBADF) abort();
    events();
    while (client >= 0 && left % 3 && read(client, unread, sizeof unread) > 0) {} /* where it is 0, nobody reads */
}

static void add(int client, uint8_t type) {
    uint8_t message[DP_SESSION_LENGTH] = {1, 0, 0, type, 0, 0, 0, DP_SESSION_LENGTH}, flags = take_byte(), kind = take_byte();
    static const uint32_t intervals[] = {300000, 10000, 60000000, 9999, 1000000, UINT32_MAX, 0, 50000};
    put32(message + 8, flags);
    put_address(message + 12, flags & DP_IPV6, take_byte());
    put_address(message + 28, flags & DP_IPV6, take_byte());
    put32(message + 44, kind & 7);
    put32(message + 48, intervals[take_byte() & 7]);
    put32(message + 52, intervals[take_byte() & 7]);
    put32(message + 64, kind & 8 ? take_byte() : 0);
    message[68] = take_byte();
    message[69] = take_byte();
    put32(message + 72, kind & 16 ? take_byte() : 0);
    if (kind & 32) memset(message + 76, 'x', take_byte() & 63);
    send_to(client, message, sizeof message);
}

/* Any of the short messages. */
static void ask(int client, uint8_t type) {
    uint8_t length = type == DP_REQUEST_COUNTERS ? 12 : 24, message[24] = {1, 0, 0, type, 0, 9, 0, length};
    message[11] = take_byte() & 7;
    send_to(client, message, length);
}

/* Up to 64 packets at once; of most of them the first bytes make them one that a session may accept. */
static void packets(void) {
    bfdd_arrival arrivals[BFDD_MANY];
    uint8_t *blocks[BFDD_MANY], head = take_byte();
    size_t number = (head & 0x80 ? take_byte() % BFDD_MANY : head % 4) + 1u;
    for (size_t i = 0; i < number; i++) {
        uint8_t kind = take_byte(), addresses = take_byte();
        bool is_v6 = kind & 1;
        size_t length = kind & 64 ? take_byte() : 24;
        bfdd_packet packet = {.size = sizeof packet, .port = kind & 2 ? BFDD_PORT_MULTI : BFDD_PORT_SINGLE, .moment = moment,
                              .iface = kind & 4 ? take_byte() : 0, .sport = 49152, .ttl = kind & 8 ? take_byte() : 255,
                              .src.family = is_v6 ? 6 : 4, .dst.family = is_v6 ? 6 : 4};
        put_address(packet.src.bytes, is_v6, addresses & 15);
        put_address(packet.dst.bytes, is_v6, addresses >> 4);
        blocks[i] = take_block(&length);
        if (kind & 16 && length >= 24) {
            blocks[i][0] = (uint8_t)(32 | (blocks[i][0] & 31)), blocks[i][3] = (uint8_t)length;
            put32(blocks[i] + 8, blocks[i][11] & 7);
        }
        arrivals[i] = (bfdd_arrival){packet, blocks[i], length};
    }
    take(arrivals, number, head & 64 ? 2 : 0);
    for (size_t i = 0; i < number; i++) free(blocks[i]);
}

static void act(void) {
    uint8_t what = take_byte();
    int *client = &clients[what >> 6];
    size_t length = what == 1 ? take_byte() * 64u : take_byte();
    uint8_t *block;
    switch (what & 7) {
    case 0: connect_one(client); break;
    case 1:
        block = take_block(&length);
        send_to(*client, block, length);
        free(block);
        break;
    case 2: add(*client, what & 8 ? DP_DELETE_SESSION : DP_ADD_SESSION); break;
    case 3: packets(); break;
    case 4: moment += length * length * 500; break;
    case 5: sessions_view((struct line){nowhere, what & 8}, moment); break;
    case 6:
        if (*client >= 0) close(*client);
        *client = -1;
        events();
        break;
    default:
        if (what & 8) ask(*client, what & 16 ? DP_REQUEST_COUNTERS : what & 32 ? DP_ECHO_REPLY : DP_ECHO_REQUEST);
        else sessions_pass(moment);
    }
}

/* As bfdd-dplane reports, and in the lines of bfdd-peer. */
static bool report(const struct session *s, const struct session_change *change) {
    for (int form = 0; change && form < 2; form++) view_change((struct line){nowhere, form}, s, change);
    return control_report(s, change);
}

static void remove_place(void) { unlink(place.at.unix_path.sun_path); }

static void begin(void) {
    char path[64];
    snprintf(path, sizeof path, "/tmp/fuzz-sessions.%d", getpid());
    nowhere = fopen("/dev/null", "w");
    if (!nowhere || !endpoint_unix(path, &place)) abort();
    folder = getenv("FUZZ_RECORD");
    if (folder) record_in(folder);
    log_greatest = LOG_DEBUG;
    for (int i = 0; i < CLIENTS; i++) clients[i] = -1;
    control_open(&place, true);
    atexit(remove_place);
}

static void remove_records(void) {
    DIR *records = opendir(folder);
    for (struct dirent *it; records && (it = readdir(records));)
        if (it->d_name[0] != '.') unlinkat(dirfd(records), it->d_name, 0);
    if (records) closedir(records);
}

int LLVMFuzzerTestOneInput(const uint8_t *bytes, size_t count) {
    if (!nowhere) begin();
    at = bytes, left = count;
    sessions_open(report, left ? *bytes % 3 * 1000000u : 0);
    connect_one(&clients[0]);
    while (left) act();
    for (int i = 0; i < CLIENTS; i++) {
        if (clients[i] >= 0) close(clients[i]);
        clients[i] = -1;
    }
    events();
    sessions_pass(moment);
    sessions_close(moment);
    if (folder) remove_records();
    return 0;
}
