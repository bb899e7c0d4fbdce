/* What the tests share. */
#ifndef CHECK_H
#define CHECK_H
#include <bfdd.h>
#include <inttypes.h>
#include <stdio.h>
#include <stdlib.h>
#include <string.h>

#define CHECK(is, wanted) check(__FILE__, __LINE__, #is, (uint64_t)(is), (uint64_t)(wanted))

static inline void check(const char *file, int line, const char *what, uint64_t is, uint64_t wanted) {
    if (is == wanted) return;
    fprintf(stderr, "%s:%d: %s is %" PRIu64 ", and must be %" PRIu64 "\n", file, line, what, is, wanted);
    exit(1);
}

static inline uint32_t open_text(bfdd_handle *engine, const char *text, bfdd_complaint *complaint) {
    return bfdd_open(engine, (const uint8_t *)text, strlen(text), complaint);
}

/* A control packet of a peer in Down with My Discriminator 7, as from 10.0.0.2. */
static const uint8_t down[24] = {0x20, 0x40, 3, 24, 0, 0, 0, 7, 0, 0, 0, 0, 0, 15, 0x42, 0x40, 0, 15, 0x42, 0x40};
static const bfdd_packet from_peer = {sizeof(bfdd_packet), BFDD_PORT_SINGLE, 1500, 1, 49152, 255, {4, {10, 0, 0, 2}}, {4, {10, 0, 0, 1}}};
static const bfdd_session pair = {.size = sizeof(bfdd_session), .kind = BFDD_SINGLE_HOP, .discr = 1, .iface = 1,
                                  .local = {4, {10, 0, 0, 1}}, .remote = {4, {10, 0, 0, 2}}, .active = 1, .tx = 1000000, .rx = 1000000,
                                  .mult = 3};

/* A table with sessions of every kind, keys and a reflector. */
static const char all_kinds[] =
    "bfd 2\np2p 1 single 1 10.0.0.1 10.0.0.2 active 1000000 1000000 3 0 0\nauth 1 5 7 6b\nkey 1 8 6c\n"
    "p2p 2 single 2 10.0.0.1 10.0.0.2 passive 1000000 1000000 3 0 0\nsbfd 5 900 1 10.0.0.1 10.0.0.9 100000 3 0\n"
    "reflector 901 50000 up\nhead 40 1 10.0.0.1 239.0.0.1 100000 3 0\ntail 30 77 1 239.0.0.1 10.0.0.2\nrun\nend\n";

#endif
