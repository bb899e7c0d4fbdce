/* Four threads, each with a handle of its own: what comes out of each is what it gives alone. And a handle that is moved in memory
 * again and again, each time to where the one before was written over: what comes out is what it gives in one place. */
#include "check.h"
#include <pthread.h>

enum { THREADS = 4, TICKS = 3000 };

typedef struct {
    uint32_t seed;
    bool moves;
    uint64_t sum; /* of all outputs, in their order */
} work;

static void add(uint64_t *sum, const void *bytes, size_t length) {
    for (size_t i = 0; i < length; i++) *sum = (*sum ^ ((const uint8_t *)bytes)[i]) * UINT64_C(0x100000001b3);
}

static void take(bfdd_handle *engine, uint64_t *sum) {
    bfdd_output out = BFDD_OUTPUT_INIT;
    while (bfdd_next(engine, &out) == BFDD_DONE) add(sum, &out, sizeof out);
}

/* The handle in another block; the old one is written over and freed. */
static bfdd_handle *moved(bfdd_handle *engine) {
    bfdd_handle *block = malloc(sizeof *block);
    CHECK(block != NULL, true);
    memcpy(block, engine, sizeof *block);
    memset(engine, 0xaa, sizeof *engine);
    free(engine);
    return block;
}

/* A session that comes Up, hears its peer for a while, and then no longer. */
static void *run(void *given) {
    work *my = given;
    bfdd_handle *engine = calloc(1, sizeof *engine);
    bfdd_session session = pair;
    bfdd_packet packet = from_peer;
    uint8_t bytes[sizeof down];
    memcpy(bytes, down, sizeof down);
    session.seed = my->seed, session.tx = session.rx = 100000 + my->seed;
    CHECK(engine != NULL, true);
    CHECK(bfdd_open_session(engine, &session), BFDD_DONE);
    my->sum = 0;
    for (uint64_t ms = 1; ms <= TICKS; ms++) {
        if (my->moves) engine = moved(engine);
        CHECK(bfdd_tick(engine, ms), BFDD_DONE);
        if (my->moves) engine = moved(engine); /* with outputs that weren't read */
        take(engine, &my->sum);
        if (ms % 90 || ms > TICKS / 2) continue;
        packet.moment = ms * 1000, bytes[11] = ms > 100;
        bytes[1] = ms > 100 ? 3 << 6 : 1 << 6;
        CHECK(bfdd_receive(engine, &packet, bytes, sizeof bytes), BFDD_DONE);
        take(engine, &my->sum);
    }
    bfdd_close(engine);
    free(engine);
    return NULL;
}

int main(void) {
    pthread_t ids[THREADS];
    work alone[THREADS], beside[THREADS];
    for (uint32_t i = 0; i < THREADS; i++) {
        alone[i] = beside[i] = (work){.seed = i * 1000};
        run(&alone[i]);
    }
    CHECK(alone[0].sum != alone[1].sum, true);
    for (int i = 0; i < THREADS; i++) CHECK(pthread_create(&ids[i], NULL, run, &beside[i]), 0);
    for (int i = 0; i < THREADS; i++) CHECK(pthread_join(ids[i], NULL), 0);
    for (int i = 0; i < THREADS; i++) CHECK(beside[i].sum, alone[i].sum);
    work moving = {.seed = 1000, .moves = true};
    run(&moving);
    CHECK(moving.sum, alone[1].sum);
    return 0;
}
