/* FRR's data plane protocol: see protocol.h. */
#include "protocol.h"

#include <string.h>

enum { VERSION = 1, MOST_NUMBERS = 8 };

/* A number of a message: its place, and how many bytes it has. */
struct number {
    uint8_t place, bytes;
};

#define NUMBER(field) {offsetof(struct dp_message, field), sizeof((struct dp_message *)0)->field}
#define ECHO {24, true, {NUMBER(body.echo.data_plane_time), NUMBER(body.echo.control_time)}}
#define SESSION \
    {DP_SESSION_LENGTH, true, \
     {NUMBER(body.session.flags), NUMBER(body.session.discr), NUMBER(body.session.tx), NUMBER(body.session.rx), \
      NUMBER(body.session.echo_tx), NUMBER(body.session.echo_rx), NUMBER(body.session.hold_ms), NUMBER(body.session.ifindex)}}

static const struct number header[] = {NUMBER(type), NUMBER(id), NUMBER(length)};

/* Each type, with the numbers of its body. */
static const struct {
    uint16_t length;
    bool is_from_frr;
    struct number numbers[MOST_NUMBERS];
} types[DP_TYPES] = {
    [DP_ECHO_REQUEST] = ECHO,
    [DP_ECHO_REPLY] = ECHO,
    [DP_ADD_SESSION] = SESSION,
    [DP_DELETE_SESSION] = SESSION,
    [DP_STATE_CHANGE] = {36, false,
                         {NUMBER(body.state.discr), NUMBER(body.state.peer_discr), NUMBER(body.state.peer_flags),
                          NUMBER(body.state.peer_tx), NUMBER(body.state.peer_rx), NUMBER(body.state.peer_echo_rx)}},
    [DP_REQUEST_COUNTERS] = {12, true, {NUMBER(body.discr)}},
    [DP_COUNTERS] = {80, false,
                     {NUMBER(body.counters.discr), NUMBER(body.counters.bytes_in), NUMBER(body.counters.packets_in),
                      NUMBER(body.counters.bytes_out), NUMBER(body.counters.packets_out)}}};

_Static_assert(sizeof(struct dp_session) == DP_SESSION_LENGTH - DP_HEADER, "the layout of a session");
_Static_assert(sizeof(struct dp_counters) == 72 && sizeof(struct dp_state) == 28, "the layouts of what is written");

/* Turns these numbers of a message from the one order to the other. The machine's isn't the network's: the library is for x86-64 alone. */
static void turn(struct dp_message *message, const struct number *numbers, size_t count) {
    for (size_t i = 0; i < count; i++) {
        uint8_t *bytes = (uint8_t *)message + numbers[i].place, copy[8];
        memcpy(copy, bytes, numbers[i].bytes);
        for (size_t at = 0; at < numbers[i].bytes; at++) bytes[at] = copy[numbers[i].bytes - 1 - at];
    }
}

enum dp_reading dp_read(const uint8_t *bytes, size_t count, struct dp_message *message, size_t *used) {
    *used = 0;
    memset(message, 0, sizeof *message);
    if (count < DP_HEADER) return DP_PARTIAL;
    memcpy(message, bytes, DP_HEADER);
    turn(message, header, 3);
    if (message->length < DP_HEADER) return DP_LOST;
    if (count < message->length) return DP_PARTIAL;
    *used = message->length;
    bool is_known = message->version == VERSION && message->type < DP_TYPES && types[message->type].is_from_frr;
    if (!is_known || message->length != types[message->type].length) return DP_SKIPPED;
    memcpy(&message->body, bytes + DP_HEADER, message->length - DP_HEADER);
    turn(message, types[message->type].numbers, MOST_NUMBERS);
    if (message->length == DP_SESSION_LENGTH) message->body.session.ifname[63] = 0;
    return DP_READ;
}

size_t dp_write(uint8_t *out, const struct dp_message *message) {
    struct dp_message turned = *message;
    size_t length = types[message->type].length;
    turned.version = VERSION;
    turned.length = types[message->type].length;
    turn(&turned, header, 3);
    turn(&turned, types[message->type].numbers, MOST_NUMBERS);
    memcpy(out, &turned, length);
    return length;
}
