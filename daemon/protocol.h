/* FRR's data plane protocol: messages as bytes, and nothing else.
 *
 * Each struct has the layout of its part of a message, so that reading and writing are a copy, and numbers turned between network
 * order and the machine's. Nothing is kept between calls, and nothing allocated. */
#ifndef BFDD_PROTOCOL_H
#define BFDD_PROTOCOL_H

#include <stdbool.h>
#include <stddef.h>
#include <stdint.h>

/* An addition is also the change of a session that exists. */
enum dp_type {
    DP_ECHO_REQUEST, DP_ECHO_REPLY, DP_ADD_SESSION, DP_DELETE_SESSION, DP_STATE_CHANGE, DP_REQUEST_COUNTERS, DP_COUNTERS, DP_TYPES
};

/* Lengths of the header, of the longest message that is written, and of what another version may have. */
enum dp_length { DP_HEADER = 8, DP_SESSION_LENGTH = 140, DP_LONGEST_WRITTEN = 80, DP_LONGEST = 65535 };

enum dp_session_flag { DP_MULTIHOP = 1, DP_DEMAND = 2, DP_C_BIT = 4, DP_ECHO = 8, DP_IPV6 = 16, DP_PASSIVE = 32, DP_SHUTDOWN = 64 };

/* The peer's flags in a change of state. */
enum dp_peer_flag { DP_PEER_C = 1, DP_PEER_DEMAND = 2 };

/* Times in microseconds. */
struct dp_echo {
    uint64_t data_plane_time, control_time;
};

/* Intervals in microseconds. An IPv4 address has the first four bytes; a source of zeros isn't given, nor is the ifindex 0. */
struct dp_session {
    uint32_t flags;
    uint8_t source[16], destination[16];
    uint32_t discr, tx, rx, echo_tx, echo_rx, hold_ms;
    uint8_t least_ttl, mult, zero[2];
    uint32_t ifindex;
    char ifname[64]; /* which ends with a zero here */
};

/* The own state; the other values are the peer's. */
struct dp_state {
    uint32_t discr, peer_discr, peer_flags, peer_tx, peer_rx, peer_echo_rx;
    uint8_t state, diagnostic, peer_mult, zero;
};

struct dp_counters {
    uint32_t discr, zero;
    uint64_t bytes_in, packets_in, bytes_out, packets_out, of_echo[4];
};

struct dp_message {
    uint8_t version, zero;
    uint16_t type, id, length;
    union {
        struct dp_echo echo;         /* DP_ECHO_REQUEST, DP_ECHO_REPLY */
        struct dp_session session;   /* DP_ADD_SESSION, DP_DELETE_SESSION */
        struct dp_state state;       /* DP_STATE_CHANGE */
        uint32_t discr;              /* DP_REQUEST_COUNTERS */
        struct dp_counters counters; /* DP_COUNTERS */
    } body;
};

enum dp_reading {
    DP_PARTIAL, /* the bytes end within the message */
    DP_READ,    /* a whole message that FRR may send */
    DP_SKIPPED, /* a whole one of another version, type or length: only its header was read */
    DP_LOST     /* a length below the header's: no next message can be found */
};

/* Reads the first message of the bytes. `used` is how many bytes it has: 0 for DP_PARTIAL and DP_LOST. */
enum dp_reading dp_read(const uint8_t *bytes, size_t count, struct dp_message *message, size_t *used);

/* Writes a message of this type, id and body, and returns its length. */
size_t dp_write(uint8_t *out, const struct dp_message *message);

#endif
