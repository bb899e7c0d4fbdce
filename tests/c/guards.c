/* Each struct and each slice between two pages that may not be touched, at the end of its page and at the start: a call that reads or
 * writes a byte beside them ends the program by a signal. What a call only reads may not be written meanwhile. */
#define _GNU_SOURCE
#include "check.h"
#include <sys/mman.h>
#include <unistd.h>

static bool at_end;

/* A page with a forbidden one before it and one behind it. */
static uint8_t *fenced(void) {
    size_t page = (size_t)sysconf(_SC_PAGESIZE);
    uint8_t *pages = mmap(NULL, 3 * page, PROT_NONE, MAP_PRIVATE | MAP_ANONYMOUS, -1, 0);
    CHECK(pages != MAP_FAILED, true);
    CHECK(mprotect(pages + page, page, PROT_READ | PROT_WRITE), 0);
    return pages + page;
}

/* These bytes in that page; what isn't given is 0. */
static void *put(uint8_t *page, const void *bytes, size_t size) {
    size_t whole = (size_t)sysconf(_SC_PAGESIZE);
    CHECK(mprotect(page, whole, PROT_READ | PROT_WRITE), 0);
    uint8_t *place = at_end ? page + whole - size : page;
    if (bytes) memcpy(place, bytes, size);
    else memset(place, 0, size);
    return place;
}

/* The same, and then the page can only be read. */
static const void *give(uint8_t *page, const void *bytes, size_t size) {
    const void *place = put(page, bytes, size);
    CHECK(mprotect(page, (size_t)sysconf(_SC_PAGESIZE), PROT_READ), 0);
    return place;
}

static uint8_t *of_handle, *of_struct, *of_slice, *of_answer, *of_count;

static uint64_t read_all(bfdd_handle *engine) {
    uint64_t count = 0;
    const bfdd_output unread = BFDD_OUTPUT_INIT;
    const bfdd_answered unasked = BFDD_ANSWERED_INIT;
    bfdd_output *out = put(of_answer, &unread, sizeof *out);
    while (bfdd_next(engine, out) == BFDD_DONE) count++;
    CHECK(bfdd_answer(engine, put(of_answer, &unasked, sizeof unasked)), BFDD_DONE);
    uint32_t code = bfdd_due(engine, put(of_answer, NULL, sizeof(uint64_t)));
    CHECK(code == BFDD_DONE || code == BFDD_END, true);
    return count;
}

/* Each prefix of a table: all but the last two are refused. */
static void texts(bfdd_handle *engine) {
    size_t whole = strlen(all_kinds);
    for (size_t length = 0; length <= whole; length++) {
        const bfdd_complaint none = BFDD_COMPLAINT_INIT;
        bfdd_complaint *complaint = put(of_answer, &none, sizeof none);
        CHECK(bfdd_open(engine, give(of_slice, all_kinds, length), length, complaint), length + 1 < whole ? BFDD_TEXT : BFDD_DONE);
    }
}

/* Packets of each length and authentication type, in a form that passes the first tests. */
static uint64_t packets(bfdd_handle *engine) {
    uint64_t count = 0;
    for (uint32_t length = 0; length < 300; length++)
        for (uint8_t type = 0; type <= 6; type++) {
            uint8_t bytes[300];
            bfdd_packet packet = from_peer;
            packet.moment = 1000 * length, packet.iface = type ? 1 : 2, packet.port = 1 + length % 5;
            memset(bytes, (int)length, sizeof bytes);
            memcpy(bytes, down, sizeof down);
            bytes[3] = (uint8_t)length;
            if (type) bytes[1] |= 4, bytes[24] = type, bytes[25] = (uint8_t)(length - 24), bytes[26] = 7;
            const uint8_t *payload = give(of_slice, bytes, length);
            CHECK(bfdd_receive(engine, give(of_struct, &packet, sizeof packet), payload, length), BFDD_DONE);
            count += read_all(engine);
        }
    return count;
}

/* So many packets by one call, with a place each, and outputs in so many places. */
static uint64_t many(bfdd_handle *engine) {
    uint64_t count = 0;
    const bfdd_answered unasked[34] = {[0 ... 33] = BFDD_ANSWERED_INIT};
    const bfdd_output unread[34] = {[0 ... 33] = BFDD_OUTPUT_INIT};
    for (size_t size = 0; size <= 34; size++) {
        bfdd_arrival in[34] = {0};
        for (size_t at = 0; at < size; at++)
            in[at] = (bfdd_arrival){from_peer, give(of_slice, down, sizeof down), sizeof down}, in[at].packet.iface = 2;
        size_t *done = put(of_count, NULL, sizeof *done);
        bfdd_answered *answers = put(of_answer, unasked, size * sizeof *answers);
        CHECK(bfdd_packets(engine, give(of_struct, in, size * sizeof *in), size, answers, size, done), BFDD_DONE);
        count += *done;
        CHECK(bfdd_tick(engine, 20000 + 100 * size), BFDD_DONE);
        const size_t places = size ? size : 1;
        while (bfdd_outputs(engine, put(of_answer, unread, places * sizeof *unread), places, done) == BFDD_DONE) count += *done;
    }
    const bfdd_text none = {"", 0};
    CHECK(bfdd_find_name(BFDD_NAME_STATE, BFDD_UP, put(of_answer, &none, sizeof none)), BFDD_DONE);
    return count;
}

static uint64_t run(void) {
    bfdd_handle *engine = put(of_handle, NULL, sizeof *engine);
    *engine = (bfdd_handle)BFDD_HANDLE_INIT;
    texts(engine);
    uint64_t count = packets(engine);
    for (uint64_t ms = 0; ms < 20000; ms += 50) {
        CHECK(bfdd_tick(engine, ms), BFDD_DONE);
        count += read_all(engine);
    }
    count += many(engine);
    CHECK(bfdd_command(engine, 20000000, 2, BFDD_DISABLE, 0), BFDD_DONE);
    count += read_all(engine);
    CHECK(bfdd_show(engine, 20000000, 5), BFDD_DONE);
    count += read_all(engine);
    CHECK(bfdd_open_session(engine, give(of_struct, &pair, sizeof pair)), BFDD_DONE);
    bfdd_close(engine);
    return count;
}

int main(void) {
    of_handle = fenced(), of_struct = fenced(), of_slice = fenced(), of_answer = fenced(), of_count = fenced();
    uint64_t at_start = run();
    CHECK(at_start > 100, true);
    at_end = true;
    CHECK(run(), at_start);
    printf("%" PRIu64 " packets and outputs\n", at_start);
    return 0;
}
