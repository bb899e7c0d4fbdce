/* Each request for memory refused in turn: the call answers BFDD_MEMORY, all is as it was, and nothing is lost. */
#include "check.h"
#include "refusing.h"

/* The call with each of its requests refused, until none was: how many requests ended it. A list that can't have the room that it
 * would like takes less, so not each one does. */
#define TRIED(call) __extension__ ({ \
        long at = 0, ended = 0, before; \
        do { \
            before = blocks, asked = 0, refused = ++at; \
            uint32_t code = (call); \
            refused = 0, ended += code == BFDD_MEMORY; \
            CHECK(code == BFDD_MEMORY ? blocks == before : code == BFDD_DONE, true); \
        } while (asked >= at); \
        ended; \
    })

int main(void) {
    bfdd_handle engine = BFDD_HANDLE_INIT;
    bfdd_complaint complaint = BFDD_COMPLAINT_INIT;
    bfdd_output out = BFDD_OUTPUT_INIT;
    const long before = blocks;
    long text = TRIED(open_text(&engine, all_kinds, &complaint));
    CHECK(text > 5, true);
    /* an open handle is as it was where opening it anew is refused: this one still has session 2 */
    long fields = 0;
    bfdd_packet packet = from_peer;
    packet.iface = 2;
    CHECK(bfdd_receive(&engine, &packet, down, sizeof down), BFDD_DONE);
    /* a payload takes memory from its 53rd byte on */
    uint8_t longer[53] = {0};
    memcpy(longer, down, sizeof down);
    asked = 0, refused = 1;
    CHECK(bfdd_receive(&engine, &packet, longer, sizeof longer), BFDD_MEMORY);
    refused = 1, asked = 0;
    CHECK(bfdd_open_session(&engine, &pair), BFDD_MEMORY);
    refused = 0;
    CHECK(bfdd_next(&engine, &out), BFDD_DONE);
    CHECK(out.discr, 2);
    CHECK(TRIED(bfdd_receive(&engine, &packet, longer, sizeof longer)), 1);
    CHECK(TRIED(bfdd_receive(&engine, &packet, down, sizeof down)), 0);
    CHECK(TRIED(bfdd_tick(&engine, 5000)), 0);
    CHECK(TRIED(bfdd_command(&engine, 5000000, 2, BFDD_DISABLE, 0)), 0);
    CHECK(TRIED(bfdd_show(&engine, 5000000, 2)), 0);
    bfdd_session more = pair;
    more.discr = 3, more.iface = 3;
    CHECK(TRIED((bfdd_remove(&engine, 3), bfdd_add(&engine, &more))) > 2, true);
    CHECK(TRIED(bfdd_remove(&engine, 3)), 0);
    long reflectors = 0;
    for (uint32_t discr = 902; discr < 1000; discr++)
        reflectors += TRIED((bfdd_remove_reflector(&engine, discr), bfdd_add_reflector(&engine, discr, 50000, 1)));
    CHECK(reflectors > 0, true);
    CHECK(TRIED(bfdd_remove_reflector(&engine, 901)), 0);
    fields = TRIED(bfdd_open_session(&engine, &pair));
    CHECK(fields > 3, true);
    bfdd_close(&engine);
    CHECK(blocks, before);
    printf("%ld requests end the opening of a text, %ld that of one session\n", text, fields);
    return 0;
}
