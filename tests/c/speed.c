/* How much of a processor the calls of one handle take while its sessions are Up: a packet of each peer in each interval, a tick each
   millisecond, and all outputs read. Sockets and clocks are the daemon's. */
#include "sessions.h"
#include <time.h>

enum { SECONDS = 3, START = 1000 };

static double processor(void) {
    struct timespec t;
    clock_gettime(CLOCK_PROCESS_CPUTIME_ID, &t);
    return (double)t.tv_sec + (double)t.tv_nsec / 1e9;
}

static void bring_up(bfdd_handle *engine, uint32_t count, uint32_t interval) {
    static const uint8_t flags[] = {DOWN, INIT, UP_FINAL};
    for (size_t at = 0; at < sizeof flags; at++)
        for (uint32_t i = 1; i <= count; i++) hear(engine, i, 1000 * START, flags[at], interval);
}

static void measure(uint32_t count, uint32_t milliseconds) {
    uint32_t interval = 1000 * milliseconds;
    bfdd_handle engine = BFDD_HANDLE_INIT;
    bfdd_complaint complaint = BFDD_COMPLAINT_INIT;
    char *text = table(count, interval);
    CHECK(open_text(&engine, text, &complaint), BFDD_DONE);
    free(text);
    bring_up(&engine, count, interval);
    outputs = 0;
    double start = processor();
    for (uint64_t ms = START; ms < START + 1000 * SECONDS; ms++) {
        for (uint32_t i = 1 + (uint32_t)(ms % milliseconds); i <= count; i += milliseconds) hear(&engine, i, 1000 * ms, UP, interval);
        tick(&engine, ms);
    }
    double share = (processor() - start) / SECONDS;
    bfdd_session_state state = BFDD_SESSION_STATE_INIT;
    for (uint32_t i = 1; i <= count; i++) CHECK((bfdd_state(&engine, i, &state), state.state), BFDD_UP);
    printf("%5u sessions at %3u ms: %5.1f %% of a processor, %.0f packets a second received and %.0f sent\n", count, milliseconds,
           100 * share, 1000.0 * count / milliseconds, (double)outputs / SECONDS);
    bfdd_close(&engine);
}

int main(void) {
    static const uint32_t counts[] = {100, 1000, 10000, 65536};
    for (size_t at = 0; at < sizeof counts / sizeof *counts; at++) measure(counts[at], 300), measure(counts[at], 50);
    return 0;
}
