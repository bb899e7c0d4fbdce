/* libbfdd: a Bidirectional Forwarding Detection engine (RFC 5880, 5881, 5883, 7880, 7881 and 8562), of which every function
 * is proved. docs/EMBEDDING.md says when to call what, and what is proved; an installation has it in PREFIX/lib/bfdd/docs.
 *
 * The library does no input, no output and no waiting, and knows no clock and no thread: the caller hands packets and ticks
 * in, and sends what comes out.
 *
 * OWNERSHIP. A handle is closed, or owns one engine. The caller keeps the handle; the engine behind it is the library's. A
 * handle begins as BFDD_HANDLE_INIT, and bfdd_close frees all that it owns. Everything else is the caller's: no call keeps a
 * pointer that it was given, and none returns one but to a name, a text that is never freed.
 *
 * UNITS. Moments are microseconds since a start that the caller chooses, below 2^60. Ticks are milliseconds since the same
 * start, at most 1,152,921,504,606,846. Intervals are microseconds. Numbers are in the machine's order, the bytes of
 * addresses in network order.
 *
 * ERRORS. A call answers BFDD_DONE, or why it did nothing: then the engine is as it was, and so is every struct but a complaint about a
 * text. bfdd_packets may have handled some packets before, and reports how many. That a packet is dropped or a command refused is an
 * answer and no error: see bfdd_answer.
 *
 * SIZES. A struct that may get fields in a later version begins with its size: the caller writes sizeof there, as its macro does
 * (BFDD_OUTPUT_INIT), and each element of an array has its own. A size that the library doesn't know is answered by BFDD_SIZE, and nothing
 * is done: so a program fits its library, or gets a code. The library keeps `size`.
 *
 * THREADS. A handle may go from thread to thread, and different handles may be used in parallel. A handle is in one call at a
 * time: what several threads share stands behind a lock of the caller.
 *
 * MOVING. Between two calls the bytes of a handle may be copied to another place, as by memcpy or by realloc of what holds it, if
 * from then on the old place isn't used, not even by bfdd_close. Nothing in the library points to a handle.
 *
 * PROCESSORS. The code runs on every x86-64 processor: it has no instruction beyond SSE2. Of the system it needs malloc, realloc,
 * free, memcpy, memmove and memset.
 *
 * WHAT THE CALLER OWES, since no proof can see it:
 * - A handle is written by the library alone, and a forged one isn't used. Of two copies of an open handle one is used and closed,
 *   and the other neither.
 * - No pointer is null, not even with length 0. It points to an object of its type, and a slice to as many bytes as its length
 *   says. No two parameters of a call overlap.
 * - Each byte of a slice and each field of a struct has been written before a call, whole arrays included, and of a struct for
 *   an answer too: let it begin by its macro. Bytes between fields count for nothing, and no struct has to be cleared for the next call.
 * - malloc, realloc and free are one allocator, with blocks aligned to 16.
 * - No call comes from a signal handler, nor from the forked child of a process that has threads.
 */
#ifndef BFDD_H
#define BFDD_H

#include <stdbool.h>
#include <stddef.h>
#include <stdint.h>

#ifdef __cplusplus
extern "C" {
#endif

/* The version of this header. What is compiled with it runs with a library of the same major version, and of this minor version or a
 * later one: bfdd_version() >> 16 == BFDD_VERSION_MAJOR && bfdd_version() >= BFDD_VERSION. */
#define BFDD_VERSION_MAJOR 2
#define BFDD_VERSION_MINOR 0
#define BFDD_VERSION (BFDD_VERSION_MAJOR * 65536 + BFDD_VERSION_MINOR)

/* The version of the library, by the same rule. */
uint32_t bfdd_version(void);

/* What a call answers. */
enum bfdd_code {
    BFDD_DONE = 0,   /* it did its work */
    BFDD_CLOSED = 1, /* the handle is closed */
    BFDD_MEMORY = 2, /* out of memory */
    BFDD_RANGE = 3,  /* a value is outside its range */
    BFDD_END = 4,    /* nothing is left to be read; no tick is needed */
    BFDD_TEXT = 5,   /* the text is no table */
    BFDD_EVENTS = 6, /* the text has event lines */
    BFDD_TAKEN_DISCR = 7, /* a session or a reflector has the discriminator already */
    BFDD_TAKEN_ADDRESSES = 8, /* a session of the kind has the selecting addresses already */
    BFDD_FULL = 9, /* there are 65,536 sessions and reflectors already */
    BFDD_NOT_FOUND = 10, /* no session, or no reflector, has the discriminator */
    BFDD_SIZE = 11 /* a struct has a size that this version doesn't know */
};

/* A handle. Its fields are the library's. */
typedef struct {
    void *kept;
    bool is_open;
} bfdd_handle;

#define BFDD_HANDLE_INIT {NULL, false}

/* An IP address. The last twelve bytes of an IPv4 address count for nothing; in what is returned they are 0. */
typedef struct {
    uint32_t family; /* 4 or 6 */
    uint8_t bytes[16];
} bfdd_address;

/* Opening ------------------------------------------------------------------------------------------------------------- */

/* What is wrong with a text. */
typedef struct {
    uint32_t size;  /* sizeof(bfdd_complaint) */
    uint32_t fault; /* an enum bfdd_fault */
    uint64_t line;  /* the first faulty line, from 1 */
} bfdd_complaint;

#define BFDD_COMPLAINT_INIT {sizeof(bfdd_complaint), 0, 0}

enum bfdd_fault {
    BFDD_NOT_ASCII = 1, BFDD_TOO_LONG = 2, BFDD_UNKNOWN_WORD = 3, BFDD_FIELD_COUNT = 4, BFDD_BAD_NUMBER = 5,
    BFDD_OUT_OF_RANGE = 6, BFDD_BAD_HEX = 7, BFDD_BAD_ADDRESS = 8, BFDD_SAME_DISCR = 9, BFDD_SAME_ADDRESSES = 10,
    BFDD_NO_SUCH_SESSION = 11, BFDD_ORDER = 12, BFDD_MISSING_END = 13, BFDD_TOO_MANY = 14, BFDD_SAME_KEY = 16
};

/* Opens a handle with the sessions and reflectors of a table: the text of a packet file (docs/FORMATS.md) without event
 * lines, as "bfd 1\np2p ..\nrun\nend\n". At most 65,536 sessions and reflectors. What the handle owned is freed, once the
 * new engine is complete. BFDD_SIZE of the complaint; BFDD_TEXT, and then `complaint` is written; BFDD_EVENTS; BFDD_MEMORY. */
uint32_t bfdd_open(bfdd_handle *handle, const uint8_t *text, size_t length, bfdd_complaint *complaint);

enum bfdd_kind {
    BFDD_SINGLE_HOP = 1, /* point-to-point over a single hop (RFC 5881) */
    BFDD_MULTIHOP = 2,   /* point-to-point over several (RFC 5883) */
    BFDD_INITIATOR = 3,  /* of seamless BFD (RFC 7880) */
    BFDD_HEAD = 4,       /* of a multipoint tree (RFC 8562) */
    BFDD_TAIL = 5
};

/* One session, by the fields of its table line. What its kind doesn't use counts for nothing, but is written. `auth` counts for each kind:
 * one that has no authentication is refused by BFDD_RANGE if it isn't 0. */
typedef struct {
    uint32_t size;  /* sizeof(bfdd_session) */
    uint32_t kind;  /* an enum bfdd_kind */
    uint32_t discr; /* the local discriminator, from 1 */
    uint32_t other; /* initiator: the reflector's discriminator; tail: the head's; from 1 */
    uint32_t iface; /* any number from 0 to 65,535 that the caller gives the interface, the one that its packets come with */
    bfdd_address local;  /* the address to send from; tail: the group */
    bfdd_address remote; /* the peer's; head: the group; tail: the head's */
    uint32_t active;  /* point-to-point: 1 active, 0 passive */
    uint32_t tx;      /* all but a tail: Desired Min TX Interval, 10,000 to 60,000,000 */
    uint32_t rx;      /* point-to-point: Required Min RX Interval, 10,000 to 60,000,000 */
    uint32_t mult;    /* all but a tail: Detect Mult, 1 to 255 */
    uint32_t echo;    /* point-to-point: 0, or over a single hop 10,000 to 60,000,000 */
    uint32_t seed;    /* all but a tail: the first draw of jitter, and the first sequence number; best a random one */
    uint32_t auth;    /* point-to-point: 0 none, 1 password, 2 and 3 MD5, 4 and 5 SHA1 (RFC 5880 section 4.1); other kinds: 0 */
    uint32_t key_id;  /* 0 to 255 */
    uint32_t key_len; /* 1 to 16, or with SHA1 to 20 */
    uint8_t key[20];
} bfdd_session;

#define BFDD_SESSION_INIT {sizeof(bfdd_session), 0, 0, 0, 0, {0, {0}}, {0, {0}}, 0, 0, 0, 0, 0, 0, 0, 0, 0, {0}}

/* Opens a handle with this session alone. Several keys, several sessions and reflectors need bfdd_open. What the handle owned
 * is freed, once the new engine is complete. BFDD_SIZE, BFDD_RANGE, BFDD_MEMORY. */
uint32_t bfdd_open_session(bfdd_handle *handle, const bfdd_session *session);

/* Sessions and reflectors come and go in an open handle: the others, their timers and the outputs that weren't read stay as they
 * are. The time is linear in the sessions; no event's is.
 *
 * One more session, with the variables of the start, at moment 0. An active session sends its first packet at the next tick, once the
 * clock is past its first interval, a second or the Desired Min TX Interval if that is greater; of a head it is that interval.
 * BFDD_CLOSED, BFDD_SIZE, BFDD_RANGE, BFDD_FULL, BFDD_TAKEN_DISCR, BFDD_TAKEN_ADDRESSES, BFDD_MEMORY. */
uint32_t bfdd_add(bfdd_handle *handle, const bfdd_session *session);

/* The session of this discriminator leaves, and sends its peer nothing. Disable it before, which makes it send AdminDown, and remove it
 * a Detection Time later: a peer that misses the only packet takes the path as failed (RFC 5880 section 6.8.16). Its state is lost: added
 * again, it knows nothing of the peer. BFDD_CLOSED, BFDD_NOT_FOUND. */
uint32_t bfdd_remove(bfdd_handle *handle, uint32_t discr);

/* One more reflector (RFC 7880 section 7.2), of this discriminator, from 1, and Required Min RX Interval, 10,000 to 60,000,000: its
 * answers say Up where `up` is 1, AdminDown where it is 0. BFDD_CLOSED, BFDD_RANGE, BFDD_FULL, BFDD_TAKEN_DISCR, BFDD_MEMORY. */
uint32_t bfdd_add_reflector(bfdd_handle *handle, uint32_t discr, uint32_t rx, uint32_t up);

/* The reflector of this discriminator leaves. BFDD_CLOSED, BFDD_NOT_FOUND. */
uint32_t bfdd_remove_reflector(bfdd_handle *handle, uint32_t discr);

/* Closes a handle, and frees all that it owns. A closed handle stays closed. */
void bfdd_close(bfdd_handle *handle);

/* Events -------------------------------------------------------------------------------------------------------------- */
/* Each event puts an answer and outputs in the place of those of the event before. */

/* On which kind of port a packet came. */
enum bfdd_port {
    BFDD_PORT_SINGLE = 1, /* UDP 3784: control packets over a single hop, and those of heads */
    BFDD_PORT_MULTI = 2,  /* UDP 4784: control packets over several hops */
    BFDD_PORT_ECHO = 3,   /* UDP 3785: echo packets that came back */
    BFDD_PORT_SBFD = 4,   /* UDP 7784: packets for a reflector */
    BFDD_PORT_ANSWER = 5  /* the source port of an initiator: answers of a reflector */
};

/* A packet that came in, but for its payload. */
typedef struct {
    uint32_t size;   /* sizeof(bfdd_packet) */
    uint32_t port;   /* an enum bfdd_port */
    uint64_t moment; /* when it came */
    uint32_t iface;  /* the number that the caller gives the interface, 0 to 65,535: an ifindex above that has to be mapped */
    uint16_t sport;  /* the sender's UDP port */
    uint8_t ttl;     /* the IP TTL or Hop Limit with which it came */
    bfdd_address src, dst;
} bfdd_packet;

#define BFDD_PACKET_INIT {sizeof(bfdd_packet), 0, 0, 0, 0, 0, {0, {0}}, {0, {0}}}

/* A packet came in. Of the payload the first 256 bytes are kept. BFDD_CLOSED, BFDD_SIZE, BFDD_RANGE, BFDD_MEMORY. */
uint32_t bfdd_receive(bfdd_handle *handle, const bfdd_packet *packet, const uint8_t *payload, size_t length);

/* The clock has reached this millisecond; one below the greatest so far counts as that. BFDD_CLOSED, BFDD_RANGE. */
uint32_t bfdd_tick(bfdd_handle *handle, uint64_t ms);

/* docs/PROTOCOL.md says what each command does, and when it's refused. */
enum bfdd_verb {
    BFDD_DISABLE = 1, BFDD_ENABLE = 2, BFDD_RESET = 3, /* the value counts for nothing */
    BFDD_PATH = 4,     /* a concatenated path: 0 none, 6 down, 8 down in reverse */
    BFDD_TX = 5, BFDD_RX = 6, BFDD_MULT = 7,
    BFDD_DEMAND = 8,   /* demand mode: 1 on, 0 off */
    BFDD_ECHO = 9,     /* the interval of the Echo function, 0 for none */
    BFDD_KEY = 10      /* the id of the key to send with */
};

/* A command to the session of this discriminator, from 1. BFDD_CLOSED; BFDD_RANGE for a moment, a discriminator or a command
 * that is none. What the session refuses is an answer, also that no session has the discriminator. */
uint32_t bfdd_command(bfdd_handle *handle, uint64_t moment, uint32_t discr, uint32_t command, uint64_t value);

/* The session of this discriminator, from 1, is to show itself: the answer has it. What has come due by the moment is done
 * first. BFDD_CLOSED, BFDD_RANGE. */
uint32_t bfdd_show(bfdd_handle *handle, uint64_t moment, uint32_t discr);

/* What an event gave ----------------------------------------------------------------------------------------------------- */

enum bfdd_answer_kind {
    BFDD_HANDLED = 0, /* the packet or the command was accepted; before the first event it is this too */
    BFDD_TICKED = 1,  /* a tick has passed */
    BFDD_DROPPED = 2, /* the packet was discarded */
    BFDD_REFUSED = 3, /* the command or the question was refused */
    BFDD_SHOWN = 4    /* what the session shows */
};

/* Why a packet was discarded: the first of these that is true of it. */
enum bfdd_drop {
    BFDD_DROP_SHORT = 1, BFDD_DROP_VERSION = 2, BFDD_DROP_LENGTH_MIN = 3, BFDD_DROP_LENGTH_OVER = 4,
    BFDD_DROP_DETECT_MULT = 5, BFDD_DROP_MULTIPOINT = 6, BFDD_DROP_MY_DISCR = 7, BFDD_DROP_YOUR_UNKNOWN = 8,
    BFDD_DROP_YOUR_ZERO_STATE = 9, BFDD_DROP_NO_SESSION = 10, BFDD_DROP_TTL = 11, BFDD_DROP_AUTH_UNEXPECTED = 12,
    BFDD_DROP_AUTH_MISSING = 13, BFDD_DROP_AUTH_TYPE = 14, BFDD_DROP_AUTH_KEY = 15, BFDD_DROP_AUTH_LEN = 16,
    BFDD_DROP_AUTH_SEQ = 17, BFDD_DROP_AUTH_DIGEST = 18, BFDD_DROP_ADMIN_DOWN = 19, BFDD_DROP_NOT_DEMAND = 20,
    BFDD_DROP_MULTIPOINT_YOUR = 21, BFDD_DROP_NO_TAIL = 22, BFDD_DROP_ECHO_FORM = 23, BFDD_DROP_ECHO_STALE = 24
};

/* Why a command or a question was refused. */
enum bfdd_refusal {
    BFDD_POLL_BUSY = 1, BFDD_WRONG_STATE = 2, BFDD_VALUE_OUT_OF_RANGE = 3, BFDD_WRONG_KIND = 4, BFDD_UNKNOWN_SESSION = 5
};

enum bfdd_state { BFDD_ADMIN_DOWN = 0, BFDD_DOWN = 1, BFDD_INIT = 2, BFDD_UP = 3 };

/* An answer. What its kind doesn't use is 0. */
typedef struct {
    uint32_t size; /* sizeof(bfdd_answered) */
    uint32_t kind; /* an enum bfdd_answer_kind */
    uint32_t code; /* dropped: an enum bfdd_drop; refused: an enum bfdd_refusal */
    char name[20]; /* dropped and refused: the cause by name, which ends with a zero */
    uint32_t discr; /* the session to which the packet, command or question came, also where it was dropped or refused by that session;
                     * 0 where it came to none or to a reflector, and of a tick */
    uint8_t state, diag, remote_state; /* shown: these and all below; states are enum bfdd_state, the diagnostic is RFC 5880's */
    uint8_t poll;   /* the Poll Sequence: 0 none, 1 requested, 2 running */
    uint32_t remote_discr;
    uint32_t adv_tx;  /* the Desired Min TX Interval that is advertised */
    uint32_t used_tx; /* the one in use */
    uint32_t used_rx; /* the Required Min RX Interval in use */
    uint64_t detect;  /* the Detection Time */
} bfdd_answered;

#define BFDD_ANSWERED_INIT {sizeof(bfdd_answered), 0, 0, {0}, 0, 0, 0, 0, 0, 0, 0, 0, 0, 0}

/* What the last event was answered; after bfdd_packets the last packet that was handled. BFDD_CLOSED, BFDD_SIZE. */
uint32_t bfdd_answer(bfdd_handle *handle, bfdd_answered *answer);

/* A look at a session. What there is none of is 0, and so is a moment 0. The peer's values are those of the last control packet that the
 * session stored: one that it handled, or that it dropped by BFDD_DROP_ADMIN_DOWN, the last of its tests. Before that they are those of
 * a new session. An initiator keeps of the peer its state, Required Min RX and diagnostic, a tail its state, Desired Min TX, Detect Mult
 * and diagnostic, a head nothing. */
typedef struct {
    uint32_t size; /* sizeof(bfdd_session_state) */
    uint32_t discr;
    uint8_t state, diag, remote_state; /* these, those down to `used_rx`, and `detect` are as in an answer of bfdd_show */
    uint8_t poll;
    uint32_t remote_discr;
    uint32_t adv_tx;
    uint32_t used_tx;
    uint32_t used_rx;
    uint32_t peer_tx;     /* the peer's Desired Min TX Interval, */
    uint32_t peer_rx;     /* its Required Min RX Interval, */
    uint32_t peer_echo;   /* its Required Min Echo RX Interval, */
    uint8_t peer_mult;    /* its Detect Mult, */
    uint8_t peer_diag;    /* its diagnostic, */
    uint8_t peer_demand;  /* and 1 where its demand mode is on */
    uint64_t detect;      /* the Detection Time of asynchronous mode, also in demand mode; of an initiator its Detect Mult times its
                             transmit interval; of a head 0 */
    uint64_t detect_end;  /* when the Detection Time in use ends, if one runs */
    uint64_t heard;       /* the moment of the last control packet that the session stored */
    uint64_t changed;     /* the moment of the last change of its state */
    uint64_t received;    /* packets that came to it since it was made, echo packets and those that it dropped too */
    uint64_t sent;        /* packets that it sent, echo packets too */
    uint64_t ups;         /* changes of its state to Up */
    uint64_t downs;       /* changes of its state to Down, from AdminDown too */
    uint64_t dropped[25]; /* packets that came to it and were discarded, by enum bfdd_drop: those before it was selected count nowhere */
} bfdd_session_state;

#define BFDD_SESSION_STATE_INIT \
    {sizeof(bfdd_session_state), 0, 0, 0, 0, 0, 0, 0, 0, 0, 0, 0, 0, 0, 0, 0, 0, 0, 0, 0, 0, 0, 0, 0, {0}}

/* A look at the session of this discriminator, as it stands after the last event. It is no event: nothing is settled, and the outputs
 * and the answer stay. A count stays at 4,294,967,295 once it reaches that. BFDD_CLOSED, BFDD_SIZE, BFDD_NOT_FOUND. */
uint32_t bfdd_state(bfdd_handle *handle, uint32_t discr, bfdd_session_state *state);

enum bfdd_output_kind { BFDD_CHANGED = 1, BFDD_SENT = 2 };

/* An output: a change of a session's state, or a packet to send. What its kind doesn't use is 0. */
typedef struct {
    uint32_t size;  /* sizeof(bfdd_output) */
    uint32_t kind;  /* an enum bfdd_output_kind */
    uint32_t discr; /* whose it is: a session's, or of a packet that answers for a reflector the reflector's */
    uint8_t was, state; /* changed: the state before and after, enum bfdd_state */
    uint8_t diag;       /* changed: the diagnostic afterwards */
    uint8_t ttl;        /* sent: this and all below */
    uint32_t iface;
    uint16_t sport, dport;
    bfdd_address src, dst;
    uint32_t len; /* how many of the bytes are the payload, at most 52 */
    uint8_t bytes[52];
} bfdd_output;

#define BFDD_OUTPUT_INIT {sizeof(bfdd_output), 0, 0, 0, 0, 0, 0, 0, 0, 0, {0, {0}}, {0, {0}}, 0, {0}}

/* The next output of the last event, in the order in which they came. BFDD_CLOSED, BFDD_SIZE; BFDD_END where all were read. What isn't
 * read before the next event is gone. */
uint32_t bfdd_next(bfdd_handle *handle, bfdd_output *output);

/* The least tick that is needed next: none below it does anything. It may lie at or below the last tick; then the next tick
 * does what is due. It changes with each event, and with bfdd_add and bfdd_remove. BFDD_CLOSED; BFDD_END where none is needed before the
 * next event. */
uint32_t bfdd_due(bfdd_handle *handle, uint64_t *ms);

/* Many in one call -------------------------------------------------------------------------------------------------------- */

/* One of many packets that came in, as by recvmmsg. It has no size but that of its packet: a payload is all that comes with one. */
typedef struct {
    bfdd_packet packet;
    const uint8_t *payload;
    size_t length; /* of the payload */
} bfdd_arrival;

enum { BFDD_MANY = 64 }; /* how many packets, and how many outputs, one call handles at most */

/* Packets came in. Each is handed in as by bfdd_receive, in their order, and its answer goes to the place with its number. `handled`
 * gets how many were handled, the first ones: none is handled behind a packet that left outputs, so that they can be read before the
 * rest is handed in. BFDD_DONE: all were handled, or the last one left outputs. Else the first of these that is so. BFDD_CLOSED.
 * BFDD_RANGE: there are more than 64 packets, or fewer places than packets. BFDD_SIZE of a packet or of a place with a packet's number:
 * none was handled. BFDD_RANGE: a value of the packet behind those that were handled is outside its range. BFDD_MEMORY: out of memory
 * for that packet. What wasn't handled has changed nothing, its place neither. */
uint32_t bfdd_packets(bfdd_handle *handle, const bfdd_arrival *arrivals, size_t count, bfdd_answered *answers, size_t places,
                      size_t *handled);

/* The next outputs of the last event, in the order in which they came: as many as there are places, or all that are left. `read` gets
 * how many these are. BFDD_CLOSED; BFDD_RANGE where there is no place, or more than 64; BFDD_END where all were read; BFDD_SIZE of a place
 * that would get an output. Then `read` is 0. */
uint32_t bfdd_outputs(bfdd_handle *handle, bfdd_output *places, size_t count, size_t *read);

/* Names ------------------------------------------------------------------------------------------------------------------- */

/* What has names. Those of faults, drops, refusals and states are the words of packet files and reports (docs/FORMATS.md). */
enum bfdd_named {
    BFDD_NAME_CODE = 1,       /* enum bfdd_code: "Done", "Closed", "Memory", "Range", "End", "Text", "Events", "TakenDiscr",
                               * "TakenAddresses", "Full", "NotFound", "Size" */
    BFDD_NAME_FAULT = 2,      /* enum bfdd_fault, as "NoSuchSession" */
    BFDD_NAME_DROP = 3,       /* enum bfdd_drop, as "AuthSeq" */
    BFDD_NAME_REFUSAL = 4,    /* enum bfdd_refusal, as "PollBusy" */
    BFDD_NAME_STATE = 5,      /* enum bfdd_state: "AdminDown", "Down", "Init", "Up" */
    BFDD_NAME_DIAGNOSTIC = 6, /* a diagnostic, in the words of RFC 5880 section 4.1; from 9 to 31 it is "Reserved" */
    BFDD_NAME_OUTPUT = 7      /* enum bfdd_output_kind: the words of a report's lines, "state" and "tx" */
};

/* A text that is never freed and never changes. The length counts the zero at its end. */
typedef struct {
    const char *bytes;
    size_t length;
} bfdd_text;

/* The name of a number, of a kind by enum bfdd_named. `text` is one before the call too, as {"", 0}. BFDD_RANGE where there is no such
 * kind, or no such number of it. */
uint32_t bfdd_find_name(uint32_t named, uint32_t number, bfdd_text *text);

/* The same as a string, or NULL. It stays as long as the program, or until the shared object is unloaded. */
static inline const char *bfdd_name(uint32_t named, uint32_t number) {
    bfdd_text text = {"", 0};
    return bfdd_find_name(named, number, &text) == BFDD_DONE ? text.bytes : NULL;
}

#ifdef __cplusplus
}
#endif

#endif
