/* Tests daemon/protocol.c by tables of bytes that were written by hand from the description of FRR's messages: each field's
 * offset, width and order stand here as bytes. Then the reader meets random bytes, in pieces. It writes what failed to
 * standard error; the status is 1 then. */
#include "../../daemon/protocol.h"

#include <stdio.h>
#include <stdlib.h>
#include <string.h>

static int failures;

static void check(bool holds, const char *what) {
    if (holds) return;
    fprintf(stderr, "protocol: %s\n", what);
    failures++;
}

/* DP_ADD_SESSION, id 0, of a multihop IPv6 session that is passive. */
static const uint8_t add[140] = {
    0x01, 0x00, 0x00, 0x02, 0x00, 0x00, 0x00, 0x8c, /* version 1, zero, type 2, id 0, length 140 */
    0x00, 0x00, 0x00, 0x31,                         /* multihop 1, IPv6 16, passive 32 */
    0x20, 0x01, 0x0d, 0xb8, 0, 0, 0, 0, 0, 0, 0, 0, 0, 0, 0, 0x01, /* source 2001:db8::1 */
    0x20, 0x01, 0x0d, 0xb8, 0, 0, 0, 0, 0, 0, 0, 0, 0, 0, 0, 0x02, /* destination 2001:db8::2 */
    0xde, 0xad, 0xbe, 0xef,                         /* local discriminator */
    0x00, 0x04, 0x93, 0xe0,                         /* Desired Min TX 300,000 */
    0x00, 0x03, 0x0d, 0x40,                         /* Required Min RX 200,000 */
    0x00, 0x00, 0xc3, 0x50,                         /* echo TX 50,000 */
    0x00, 0x00, 0x4e, 0x20,                         /* Required Min Echo RX 20,000 */
    0x00, 0x00, 0x05, 0xdc,                         /* hold time 1,500 milliseconds */
    0xfe, 0x05, 0x00, 0x00,                         /* least TTL 254, Detect Mult 5, zero */
    0x00, 0x01, 0x00, 0x07,                         /* ifindex 65,543 */
    'e', 't', 'h', '0'};                            /* and 60 zeros */

static const uint8_t echo_request[24] = {0x01, 0x00, 0x00, 0x00, 0x12, 0x34, 0x00, 0x18, 0,    0,    0,    0,
                                         0,    0,    0,    0,    0x01, 0x02, 0x03, 0x04, 0x05, 0x06, 0x07, 0x08};
static const uint8_t counters_request[12] = {0x01, 0x00, 0x00, 0x05, 0x00, 0x09, 0x00, 0x0c, 0x00, 0x00, 0x01, 0x00};

static const uint8_t state_change[36] = {
    0x01, 0x00, 0x00, 0x04, 0x00, 0x00, 0x00, 0x24, /* type 4, id 0, length 36 */
    0xde, 0xad, 0xbe, 0xef,                         /* local discriminator */
    0x01, 0x02, 0x03, 0x04,                         /* the peer's */
    0x00, 0x00, 0x00, 0x03,                         /* the peer's C and D */
    0x00, 0x0f, 0x42, 0x40,                         /* its Desired Min TX 1,000,000 */
    0x00, 0x04, 0x93, 0xe0,                         /* its Required Min RX 300,000 */
    0x00, 0x00, 0xc3, 0x50,                         /* its Required Min Echo RX 50,000 */
    0x03, 0x01, 0x05, 0x00};                        /* Up, diagnostic 1, Detect Mult 5, zero */

static const uint8_t counters[80] = {
    0x01, 0x00, 0x00, 0x06, 0x00, 0x09, 0x00, 0x50, /* type 6, id 9, length 80 */
    0x00, 0x00, 0x01, 0x00, 0x00, 0x00, 0x00, 0x00, /* local discriminator 256, zero */
    0, 0, 0, 0, 0, 0, 0x02, 0x40,                   /* bytes in 576 */
    0, 0, 0, 0, 0, 0, 0x00, 0x18,                   /* packets in 24 */
    0, 0, 0, 0x01, 0, 0, 0, 0,                      /* bytes out 2^32 */
    0, 0, 0, 0, 0, 0, 0, 0x19};                     /* packets out 25; echo counters are zeros */

static const uint8_t echo_reply[24] = {0x01, 0x00, 0x00, 0x01, 0x12, 0x34, 0x00, 0x18, 0x11, 0x12, 0x13, 0x14,
                                       0x15, 0x16, 0x17, 0x18, 0x01, 0x02, 0x03, 0x04, 0x05, 0x06, 0x07, 0x08};

static void reads_session(void) {
    struct dp_message m;
    size_t used;
    check(dp_read(add, sizeof add, &m, &used) == DP_READ && used == 140, "an addition is read");
    const struct dp_session *s = &m.body.session;
    check(m.type == DP_ADD_SESSION && m.id == 0 && m.length == 140, "its header");
    check(s->flags == (DP_MULTIHOP | DP_IPV6 | DP_PASSIVE), "its flags");
    check(!memcmp(s->source, add + 12, 16) && !memcmp(s->destination, add + 28, 16), "its addresses");
    check(s->discr == 0xdeadbeef && s->tx == 300000 && s->rx == 200000, "its discriminator and intervals");
    check(s->echo_tx == 50000 && s->echo_rx == 20000 && s->hold_ms == 1500, "its echo intervals and hold time");
    check(s->least_ttl == 254 && s->mult == 5 && s->ifindex == 65543 && !strcmp(s->ifname, "eth0"), "its TTL, multiplier, interface");
    uint8_t full[140];
    memcpy(full, add, sizeof full);
    memset(full + 76, 'x', 64);
    check(dp_read(full, sizeof full, &m, &used) == DP_READ && strlen(s->ifname) == 63, "a name without an end is cut");
    full[3] = 3;
    check(dp_read(full, sizeof full, &m, &used) == DP_READ && m.type == DP_DELETE_SESSION && s->discr == 0xdeadbeef, "a removal");
}

static void reads_others(void) {
    struct dp_message m;
    size_t used;
    check(dp_read(echo_request, sizeof echo_request, &m, &used) == DP_READ && used == 24, "an echo request is read");
    check(m.id == 0x1234 && m.body.echo.data_plane_time == 0 && m.body.echo.control_time == 0x0102030405060708, "its times");
    check(dp_read(counters_request, sizeof counters_request, &m, &used) == DP_READ && used == 12, "a question for counters is read");
    check(m.type == DP_REQUEST_COUNTERS && m.id == 9 && m.body.discr == 256, "its discriminator");
}

static void reads_parts(void) {
    struct dp_message m;
    size_t used;
    for (size_t count = 0; count < sizeof add; count++) {
        uint8_t *part = malloc(count + 1); /* so that a sanitizer sees each byte read too far */
        if (!part) abort();
        uint8_t *end = part + 1;
        memcpy(end, add, count);
        check(dp_read(end, count, &m, &used) == DP_PARTIAL && used == 0, "a part of a message waits for the rest");
        free(part);
    }
    uint8_t two[140 + 24];
    memcpy(two, add, 140);
    memcpy(two + 140, echo_request, 24);
    check(dp_read(two, sizeof two, &m, &used) == DP_READ && used == 140, "the first of two");
    check(dp_read(two + used, sizeof two - used, &m, &used) == DP_READ && m.type == DP_ECHO_REQUEST && used == 24, "the second of two");
}

static const struct {
    uint8_t header[8];
    size_t count;
    enum dp_reading reading;
    size_t used;
    const char *what;
} faults[] = {
    {{2, 0, 0, 2, 0, 0, 0, 140}, 140, DP_SKIPPED, 140, "version 2 is skipped"},
    {{0, 0, 0, 0, 0, 0, 0, 24}, 24, DP_SKIPPED, 24, "version 0 is skipped"},
    {{2, 0, 0, 2, 0, 0, 0xff, 0xff}, 140, DP_PARTIAL, 0, "version 2 is awaited whole"},
    {{1, 0, 0, 7, 0, 0, 0, 9}, 9, DP_SKIPPED, 9, "type 7 is skipped"},
    {{1, 0, 0, 4, 0, 0, 0, 36}, 36, DP_SKIPPED, 36, "a change of state is none of FRR's messages"},
    {{1, 0, 1, 2, 0, 0, 0, 140}, 140, DP_SKIPPED, 140, "type 258 is skipped"},
    {{1, 0, 0, 2, 0, 0, 0, 139}, 140, DP_SKIPPED, 139, "a short addition is skipped"},
    {{1, 0, 0, 2, 0, 0, 0, 141}, 141, DP_SKIPPED, 141, "a long addition is skipped"},
    {{1, 0, 0, 5, 0, 0, 0, 8}, 8, DP_SKIPPED, 8, "an empty question is skipped"},
    {{1, 0, 0, 0, 0, 0, 0, 7}, 140, DP_LOST, 0, "a length of 7 ends the stream"},
    {{1, 0, 0, 0, 0, 0, 0, 0}, 8, DP_LOST, 0, "a length of 0 ends the stream"},
};

static void reads_faults(void) {
    for (size_t i = 0; i < sizeof faults / sizeof *faults; i++) {
        uint8_t bytes[160] = {0};
        struct dp_message m;
        size_t used;
        memcpy(bytes, faults[i].header, 8);
        enum dp_reading reading = dp_read(bytes, faults[i].count, &m, &used);
        check(reading == faults[i].reading && used == faults[i].used, faults[i].what);
    }
}

static void writes(void) {
    uint8_t out[DP_LONGEST_WRITTEN];
    struct dp_message m = {.type = DP_STATE_CHANGE};
    m.body.state = (struct dp_state){.discr = 0xdeadbeef, .peer_discr = 0x01020304, .peer_flags = DP_PEER_C | DP_PEER_DEMAND,
                                     .peer_tx = 1000000, .peer_rx = 300000, .peer_echo_rx = 50000, .state = 3, .diagnostic = 1, .peer_mult = 5};
    check(dp_write(out, &m) == 36 && !memcmp(out, state_change, 36), "a change of state is written");
    m = (struct dp_message){.type = DP_COUNTERS, .id = 9, .body.counters = {256, 0, 576, 24, 1ull << 32, 25, {0}}};
    check(dp_write(out, &m) == 80 && !memcmp(out, counters, 80), "counters are written");
    m = (struct dp_message){.type = DP_ECHO_REPLY, .id = 0x1234, .body.echo = {0x1112131415161718, 0x0102030405060708}};
    check(dp_write(out, &m) == 24 && !memcmp(out, echo_reply, 24), "an echo reply is written");
}

/* Random bytes, and valid messages of which random bytes were changed, read to their end: each reading moves on or stops,
 * and reads no byte past the end, which a sanitizer sees. */
static void meets_random_bytes(unsigned rounds) {
    srand(4711);
    for (unsigned round = 0; round < rounds; round++) {
        size_t count = (size_t)rand() % 400;
        uint8_t *bytes = malloc(count + !count);
        if (!bytes) abort();
        for (size_t i = 0; i < count; i++) bytes[i] = round % 2 ? (uint8_t)rand() : add[i % sizeof add];
        for (int i = 0; count && i < rand() % 4; i++) bytes[(size_t)rand() % count] = (uint8_t)rand();
        size_t at = 0, used = 1;
        while (used) {
            struct dp_message m;
            enum dp_reading reading = dp_read(bytes + at, count - at, &m, &used);
            check((used == 0) == (reading == DP_PARTIAL || reading == DP_LOST), "a reading that moves on or stops");
            check(used <= count - at, "a reading within the bytes");
            at += used;
        }
        free(bytes);
    }
}

int main(void) {
    reads_session();
    reads_others();
    reads_parts();
    reads_faults();
    writes();
    meets_random_bytes(200000);
    return failures != 0;
}
