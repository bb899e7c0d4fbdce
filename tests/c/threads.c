/* Two threads with a mutex: what comes out is what one thread would have had. */
#include "check.h"
#include <pthread.h>

enum { TICKS = 20000 };

static pthread_mutex_t lock = PTHREAD_MUTEX_INITIALIZER;
static bfdd_handle engine = BFDD_HANDLE_INIT;
static uint64_t ms, sent;

static bool next_tick(void) {
    bfdd_output out = BFDD_OUTPUT_INIT;
    if (ms == TICKS) return false;
    CHECK(bfdd_tick(&engine, ++ms), BFDD_DONE);
    while (bfdd_next(&engine, &out) == BFDD_DONE) sent += out.kind == BFDD_SENT;
    return true;
}

static void *work(void *none) {
    for (bool more = true; more;) {
        pthread_mutex_lock(&lock);
        more = next_tick();
        pthread_mutex_unlock(&lock);
    }
    return none;
}

static uint64_t run(int threads) {
    pthread_t ids[2];
    ms = sent = 0;
    CHECK(bfdd_open_session(&engine, &pair), BFDD_DONE);
    for (int i = 0; i < threads; i++) CHECK(pthread_create(&ids[i], NULL, work, NULL), 0);
    for (int i = 0; i < threads; i++) CHECK(pthread_join(ids[i], NULL), 0);
    bfdd_close(&engine);
    return sent;
}

int main(void) {
    uint64_t alone = run(1);
    CHECK(alone > 10, true);
    CHECK(run(2), alone);
    return 0;
}
