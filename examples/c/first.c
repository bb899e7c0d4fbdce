/* The first example, examples/first.script, event by event: it prints that script's report but for its last line. */
#include <bfdd.h>
#include <inttypes.h>
#include <stdio.h>
#include <string.h>

static const char *const states[] = {"AdminDown", "Down", "Init", "Up"};

static void print_changes(int number, bfdd_handle *engine) {
    bfdd_output out = BFDD_OUTPUT_INIT;
    while (bfdd_next(engine, &out) == BFDD_DONE)
        if (out.kind == BFDD_CHANGED)
            printf("%d state %" PRIu32 " %s %s %d\n", number, out.discr, states[out.was], states[out.state], out.diag);
}

int main(void) {
    const char *table = "bfd 1\np2p 1 single 1 10.0.0.1 10.0.0.2 passive 1000000 1000000 3 0 0\nrun\nend\n";
    const uint8_t payload[24] = {0x20, 0x40, 3, 24, 0, 0, 0, 7, 0, 0, 0, 0, 0, 15, 0x42, 0x40};
    const bfdd_packet packet = {.size = sizeof packet, .port = BFDD_PORT_SINGLE, .moment = 1500, .iface = 1, .sport = 49152, .ttl = 255,
                                .src = {4, {10, 0, 0, 2}}, .dst = {4, {10, 0, 0, 1}}};
    bfdd_handle engine = BFDD_HANDLE_INIT;
    bfdd_complaint complaint = BFDD_COMPLAINT_INIT;
    if (bfdd_open(&engine, (const uint8_t *)table, strlen(table), &complaint) != BFDD_DONE) return 1;
    bfdd_receive(&engine, &packet, payload, sizeof payload);
    print_changes(1, &engine);
    bfdd_tick(&engine, 3001);
    print_changes(2, &engine);
    bfdd_tick(&engine, 3002);
    print_changes(3, &engine);
    bfdd_close(&engine);
    return 0;
}
