/* What calls of one handle of N sessions take: instructions by callgrind, memory by mallinfo2 and the resident set.
   tests/c/instructions runs it under valgrind and prints the rows. */
#define _GNU_SOURCE
#include "sessions.h"
#include <malloc.h>
#include <unistd.h>
#include <valgrind/callgrind.h>

enum { INTERVAL = 300000 };

static void begin(void) {
    CALLGRIND_ZERO_STATS;
    CALLGRIND_TOGGLE_COLLECT;
}

/* Ends a row: what was measured, and how many times. */
static void end(const char *what, uint32_t times) {
    CALLGRIND_TOGGLE_COLLECT;
    char text[100];
    snprintf(text, sizeof text, "%s, times=%" PRIu32, what, times);
    CALLGRIND_DUMP_STATS_AT(text);
}

static long resident(void) {
    long pages, used = 0;
    FILE *file = fopen("/proc/self/statm", "r");
    if (!file || fscanf(file, "%ld %ld", &pages, &used) != 2) used = 0;
    if (file) fclose(file);
    return used * sysconf(_SC_PAGESIZE);
}

/* Some of the sessions leave, and come again. */
static void join(bfdd_handle *engine, uint32_t count) {
    uint32_t times = count < 10 ? count : 10, step = count / times;
    begin();
    for (uint32_t k = 0; k < times; k++) CHECK(bfdd_remove(engine, 1 + k * step), BFDD_DONE);
    end("a session leaves", times);
    begin();
    for (uint32_t k = 0; k < times; k++) {
        uint32_t i = 1 + k * step;
        bfdd_session s = {.size = sizeof(bfdd_session), .kind = BFDD_SINGLE_HOP, .discr = i, .iface = 1, .local = {4, {192, 0, 2, 1}},
                          .remote = {4, {10, (uint8_t)(i >> 16), (uint8_t)(i >> 8), (uint8_t)i}}, .active = 1, .tx = INTERVAL,
                          .rx = INTERVAL, .mult = 3};
        CHECK(bfdd_add(engine, &s), BFDD_DONE);
    }
    end("a session comes", times);
}

static void open_all(bfdd_handle *engine, uint32_t count) {
    char *text = table(count, INTERVAL);
    bfdd_complaint complaint = BFDD_COMPLAINT_INIT;
    struct mallinfo2 before = mallinfo2();
    long pages = resident();
    begin();
    CHECK(open_text(engine, text, &complaint), BFDD_DONE);
    end("opening from a text, a session", count);
    struct mallinfo2 after = mallinfo2();
    printf("%" PRIu32 " sessions: %zu bytes by malloc, %ld resident, each session\n", count,
           (after.uordblks + after.hblkhd - before.uordblks - before.hblkhd) / count, (resident() - pages) / (long)count);
    free(text);
}

int main(int argc, char **argv) {
    uint32_t count = argc > 1 ? (uint32_t)strtoul(argv[1], NULL, 10) : 1000, many = count < 10000 ? 10000 : count;
    uint64_t ms = 1000, due = 0;
    bfdd_handle engine = BFDD_HANDLE_INIT;
    open_all(&engine, count);
    for (uint32_t i = 1; i <= count; i++) hear(&engine, i, 1000 * ms, DOWN, INTERVAL);
    for (uint32_t i = 1; i <= count; i++) hear(&engine, i, 1000 * ms + 1, INIT, INTERVAL);
    begin();
    for (uint32_t k = 0; k < many; k++) hear(&engine, 1 + k * 7919u % count, 1000 * ms + 2, UP, INTERVAL);
    end("a packet of a session that is Up, its outputs read", many);
    tick(&engine, ms);
    begin();
    for (int k = 0; k < 100; k++) CHECK(bfdd_tick(&engine, ms), BFDD_DONE);
    end("a tick by which nothing is due", 100);
    begin();
    for (int k = 0; k < 100; k++) CHECK(bfdd_due(&engine, &due), BFDD_DONE);
    end("the due tick", 100);
    begin();
    tick(&engine, ms + INTERVAL / 1000 + 1);
    end("a tick by which all are due, with outputs, a session", count);
    join(&engine, count);
    tick(&engine, ms + 10 * INTERVAL / 1000);
    printf("%" PRIu32 " sessions: %ld bytes resident in all, %" PRIu64 " outputs\n", count, resident(), outputs);
    bfdd_close(&engine);
    return 0;
}
