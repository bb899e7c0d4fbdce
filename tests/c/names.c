/* Names and the version: each name is the word that docs/FORMATS.md, docs/PROTOCOL.md and RFC 5880 section 4.1 have, and no other
 * number has one. */
#include "check.h"

static const char *const codes[] = {"Done", "Closed", "Memory", "Range", "End", "Text", "Events", "TakenDiscr",
                                    "TakenAddresses", "Full", "NotFound", "Size"};
static const char *const faults[] = {NULL, "NotAscii", "TooLong", "UnknownWord", "FieldCount", "BadNumber", "OutOfRange", "BadHex",
                                     "BadAddress", "SameDiscr", "SameAddresses", "NoSuchSession", "Order", "MissingEnd", "TooMany",
                                     NULL, "SameKey"};
static const char *const drops[] = {NULL, "Short", "Version", "LengthMin", "LengthOver", "DetectMult", "Multipoint", "MyDiscr",
                                    "YourUnknown", "YourZeroState", "NoSession", "Ttl", "AuthUnexpected", "AuthMissing", "AuthType",
                                    "AuthKey", "AuthLen", "AuthSeq", "AuthDigest", "AdminDown", "NotDemand", "MultipointYour", "NoTail",
                                    "EchoForm", "EchoStale"};
static const char *const refusals[] = {NULL, "PollBusy", "WrongState", "OutOfRange", "WrongKind", "UnknownSession"};
static const char *const states[] = {"AdminDown", "Down", "Init", "Up"};
static const char *const diagnostics[] = {"No Diagnostic", "Control Detection Time Expired", "Echo Function Failed",
                                          "Neighbor Signaled Session Down", "Forwarding Plane Reset", "Path Down",
                                          "Concatenated Path Down", "Administratively Down", "Reverse Concatenated Path Down"};
static const char *const outputs[] = {NULL, "state", "tx"};

/* The name is this one, and stands in one place; where there is none, the text of the caller stays. */
static void is_named(uint32_t named, uint32_t number, const char *wanted) {
    static const char before[] = "before";
    bfdd_text text = {before, sizeof before};
    const char *name = bfdd_name(named, number);
    CHECK(bfdd_find_name(named, number, &text), wanted ? BFDD_DONE : BFDD_RANGE);
    CHECK(name != NULL, wanted != NULL);
    if (wanted && strcmp(name, wanted)) fprintf(stderr, "%s in place of %s\n", name, wanted);
    CHECK(wanted ? strcmp(name, wanted) : 0, 0);
    CHECK(text.bytes == (wanted ? name : before), true);
    CHECK(text.length, wanted ? strlen(wanted) + 1 : sizeof before);
}

#define ALL(kind, names) do { \
        const uint32_t count = sizeof names / sizeof *names; \
        for (uint32_t number = 0; number < count; number++) is_named(kind, number, names[number]); \
        for (uint32_t number = kind == BFDD_NAME_DIAGNOSTIC ? 32 : count; number < 300; number++) is_named(kind, number, NULL); \
        is_named(kind, UINT32_MAX, NULL); \
    } while (0)

/* What the engine says is named so. */
static void said(void) {
    bfdd_handle engine = BFDD_HANDLE_INIT;
    bfdd_complaint complaint = BFDD_COMPLAINT_INIT;
    bfdd_answered answer = BFDD_ANSWERED_INIT;
    CHECK(open_text(&engine, "bfd 1\nrun\nshow 1 1\nend\n", &complaint), BFDD_TEXT);
    CHECK(strcmp(bfdd_name(BFDD_NAME_FAULT, complaint.fault), "NoSuchSession"), 0);
    CHECK(bfdd_open_session(&engine, &pair), BFDD_DONE);
    bfdd_packet packet = from_peer;
    packet.ttl = 254;
    CHECK(bfdd_receive(&engine, &packet, down, sizeof down), BFDD_DONE);
    CHECK(bfdd_answer(&engine, &answer), BFDD_DONE);
    CHECK(strcmp(bfdd_name(BFDD_NAME_DROP, answer.code), answer.name), 0);
    CHECK(bfdd_command(&engine, 2000, 9, BFDD_DISABLE, 0), BFDD_DONE);
    CHECK(bfdd_answer(&engine, &answer), BFDD_DONE);
    CHECK(strcmp(bfdd_name(BFDD_NAME_REFUSAL, answer.code), answer.name), 0);
    const char *name = bfdd_name(BFDD_NAME_STATE, BFDD_UP);
    bfdd_close(&engine);
    CHECK(strcmp(name, "Up"), 0);
}

int main(void) {
    ALL(BFDD_NAME_CODE, codes);
    ALL(BFDD_NAME_FAULT, faults);
    ALL(BFDD_NAME_DROP, drops);
    ALL(BFDD_NAME_REFUSAL, refusals);
    ALL(BFDD_NAME_STATE, states);
    ALL(BFDD_NAME_DIAGNOSTIC, diagnostics);
    ALL(BFDD_NAME_OUTPUT, outputs);
    for (uint32_t number = 9; number < 32; number++) is_named(BFDD_NAME_DIAGNOSTIC, number, "Reserved");
    for (uint32_t number = 0; number < 40; number++) {
        is_named(0, number, NULL);
        is_named(8, number, NULL);
        is_named(UINT32_MAX, number, NULL);
    }
    said();
    CHECK(bfdd_version(), BFDD_VERSION);
    return 0;
}
