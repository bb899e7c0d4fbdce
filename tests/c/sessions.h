/* A handle of N sessions, and the packets of their peers. */
#ifndef SESSIONS_H
#define SESSIONS_H
#include "check.h"

/* A peer's state as the first two bits of a packet's second byte, and Up with the F bit. */
enum { DOWN = 0x40, INIT = 0x80, UP = 0xc0, UP_FINAL = 0xd0 };

static uint64_t outputs; /* that were read so far */

static inline void word(uint8_t *at, uint32_t value) {
    for (int i = 0; i < 4; i++) at[i] = (uint8_t)(value >> (24 - 8 * i));
}

static inline void read_outputs(bfdd_handle *engine) {
    bfdd_output output = BFDD_OUTPUT_INIT;
    while (bfdd_next(engine, &output) == BFDD_DONE) outputs++;
}

/* A control packet of the peer of session i, with these flags, whose intervals are in microseconds. A peer in Down knows no session. */
static inline void hear(bfdd_handle *engine, uint32_t i, uint64_t moment, uint8_t flags, uint32_t interval) {
    uint8_t bytes[24] = {0x20, flags, 3, 24};
    word(bytes + 4, 1000000 + i);
    word(bytes + 8, flags == DOWN ? 0 : i);
    word(bytes + 12, interval);
    word(bytes + 16, interval);
    bfdd_packet packet = {sizeof packet, BFDD_PORT_SINGLE, moment, 1, 49152, 255,
                          {4, {10, (uint8_t)(i >> 16), (uint8_t)(i >> 8), (uint8_t)i}}, {4, {192, 0, 2, 1}}};
    CHECK(bfdd_receive(engine, &packet, bytes, sizeof bytes), BFDD_DONE);
    read_outputs(engine);
}

static inline void tick(bfdd_handle *engine, uint64_t ms) {
    CHECK(bfdd_tick(engine, ms), BFDD_DONE);
    read_outputs(engine);
}

/* The table of sessions 1 to count, with both intervals in microseconds. */
static inline char *table(uint32_t count, uint32_t interval) {
    char *text = malloc((size_t)count * 120 + 64), *at = text;
    if (!text) exit(1);
    at += sprintf(at, "bfd 1\n");
    for (uint32_t i = 1; i <= count; i++)
        at += sprintf(at, "p2p %u single 1 192.0.2.1 10.%u.%u.%u active %u %u 3 0 %u\n", i, i >> 16, i >> 8 & 255, i & 255, interval,
                      interval, i * 2654435761u);
    sprintf(at, "run\nend\n");
    return text;
}

#endif
