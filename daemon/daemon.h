/* What the modules of bfdd-dplane and bfdd-peer offer each other, lowest first; each has a file of its name.
 *
 * One thread does everything. Moments are microseconds of clock_now, and the engine's clock is the same. What opens or makes
 * something at the start ends the program where it can't. */
#ifndef BFDD_DAEMON_H
#define BFDD_DAEMON_H

#define _GNU_SOURCE

#include "protocol.h"

#include <bfdd.h>
#include <errno.h>
#include <inttypes.h>
#include <net/if.h>
#include <netinet/in.h>
#include <stdio.h>
#include <stdlib.h>
#include <string.h>
#include <sys/epoll.h>
#include <sys/socket.h>
#include <sys/un.h>
#include <unistd.h>

#define COUNT(array) (sizeof(array) / sizeof *(array))
#define UNUSED __attribute__((unused))

/* words: lines on standard error, the clocks, and names, addresses and moments as text ----------------------------------- */

enum { ADDRESS_TEXT = 46, MOMENT_TEXT = 28 };
enum log_level { LOG_ERROR, LOG_WARNING, LOG_INFO, LOG_DEBUG };

/* Lines above this level aren't written. It begins as LOG_INFO. `log_up_to` sets it by its name; false where there is none. */
extern enum log_level log_greatest;
bool log_up_to(const char *name);

/* Writes one line: the program's name, the level, and this text. `fail` ends the program behind it, with status 1. */
void say(enum log_level level, const char *format, ...) __attribute__((format(printf, 2, 3)));
_Noreturn void fail(const char *what, const char *cause);

bool read_number(const char *text, uint64_t least, uint64_t greatest, uint64_t *number);

/* Microseconds of a clock that doesn't go back, since shortly before the first call, and of the time of day. */
uint64_t clock_now(void);
uint64_t clock_wall(void);

/* Each writes to `text` and returns it. A moment's text is the time of day in UTC, as 2026-11-30T10:15:00.123456Z. */
const char *address_text(const bfdd_address *address, char text[ADDRESS_TEXT]);
const char *moment_text(uint64_t moment, char text[MOMENT_TEXT]);

static inline const char *state_text(uint32_t state) { return bfdd_name(BFDD_NAME_STATE, state); }
static inline const char *diagnostic_text(uint32_t diagnostic) { return bfdd_name(BFDD_NAME_DIAGNOSTIC, diagnostic); }

/* endpoint: addresses of stream sockets, as FRR's option --dplaneaddr has them -------------------------------------------- */

struct endpoint {
    union {
        struct sockaddr any;
        struct sockaddr_un unix_path;
        struct sockaddr_in v4;
        struct sockaddr_in6 v6;
    } at;
    socklen_t length;
};

/* Read unix:PATH, ipv4:A[:PORT] or ipv6:[A][:PORT], and a path alone. The port is 50700 where none is given. */
bool endpoint_parse(const char *text, struct endpoint *endpoint);
bool endpoint_unix(const char *path, struct endpoint *endpoint);

/* A socket that listens there. A unix socket that stands there is replaced. */
int endpoint_listen(const struct endpoint *endpoint);

/* loop: sleeping until a descriptor has an event or a moment has come ----------------------------------------------------- */

/* Whose events they are. Those of a kind go to one function, and those of packets first, so that a late wake-up takes no session
 * down whose packet has come. */
enum loop_kind { LOOP_PACKETS, LOOP_TIMER, LOOP_SIGNALS, LOOP_LISTENER, LOOP_LINK, LOOP_VIEW, LOOP_KEY, LOOP_KINDS };

/* Handles an event of the descriptor that was given with this number. */
typedef void loop_act(uint32_t number, uint64_t now);

/* Lets time pass up to now, and returns the moment at which that is to be done next; UINT64_MAX is never. */
typedef uint64_t loop_round(uint64_t now);

/* Makes the loop. SIGTERM, SIGINT, SIGPIPE, SIGHUP and SIGUSR1 go to `take`, as numbers. */
void loop_open(loop_act *take);

/* Awaits these epoll events of a descriptor, and no longer others that were awaited; 0 is none. An `act` of NULL does nothing. */
void loop_await(int fd, enum loop_kind kind, uint32_t number, uint32_t events, loop_act *act);

/* Runs until it is ended. A round lets time pass, sleeps until the next moment or an event, and carries the events out. */
void loop_run(loop_round *round);
void loop_end(void);

/* As fork, but that the child has its signals again. */
pid_t loop_fork(void);

/* sockets: control packets over a single hop (UDP port 3784) and over several (4784), IPv4 and IPv6, in and out ------------ */

/* Up to 64 packets are received or sent by a call, and nothing is allocated for them. One socket of each port receives on every
 * interface, and one sends; IPv4 addresses are mapped ones there (RFC 4291 section 2.5.5.2), so the system has to know IPv6, if only
 * that. There are also sockets that are bound to a device: to an interface in a VRF, and over several hops to the VRF, or to the
 * interface that a session was given. */
struct path {
    uint32_t ifindex; /* by which a session sends; 0: none */
    uint32_t device;  /* that its sockets are bound to; 0: none */
    int sender;
};

/* Receives packets that came to one socket, at most BFDD_MANY, whose `iface` is the system's ifindex; and the device of the socket, 0 for
 * none. It may change them. */
typedef void packets_taker(bfdd_arrival *arrivals, size_t count, uint32_t device);

/* Opens the sockets that are bound to no device. From now on the loop passes on what any of them receives. */
void sockets_open(packets_taker *take);

/* Finds the sockets of a session with this interface, and opens those for a device. False with errno. */
bool sockets_find(bool is_multihop, uint32_t ifindex, struct path *path);

/* The address from which the system would send to this one, by its routing table. False where it has no route. */
bool sockets_source(const bfdd_address *to, const struct path *path, bfdd_address *source);

/* Queues a packet. The queue is sent by sockets_flush, when it is full, and before a packet of another socket. */
void sockets_send(const bfdd_output *out, const struct path *path);
void sockets_flush(void);

/* record: the life of one session as a packet file (docs/FORMATS.md), from which `bfdd replay` makes the same outputs ------- */

/* A session is what its own events and the ticks make of it, so the record has its packets, its commands, and the ticks at which
 * it had something due. An engine of the session alone, which is given the record's events, says which ticks these are. A packet
 * file has at most 200,000 events; what comes later isn't recorded. Alongside FILE stands FILE.start, with the time of day of moment 0. */
struct record {
    FILE *file; /* NULL: nothing is recorded */
    unsigned events;
    bfdd_handle alone;
};

/* Sessions that begin from now on are recorded in this folder, which is made if it is missing. */
void record_in(const char *folder);
bool record_is_on(void);

/* Each of these says in a line what fails, and then records no more of the session. A verb is an enum bfdd_verb. record_flush hands
 * over to the system what was recorded so far. */
void record_begin(struct record *record, const bfdd_session *session, uint64_t now);
void record_packet(struct record *record, const bfdd_arrival *arrival);
void record_tick(struct record *record, uint64_t ms);
void record_command(struct record *record, uint64_t moment, uint32_t discr, uint32_t verb, uint64_t value);
void record_flush(struct record *record);
void record_end(struct record *record);

/* sessions: all on one engine, each found by its discriminator ------------------------------------------------------------- */

enum { NO_OWNER = 0, BY_DISCR = 0, BY_PEER, ALL, TABLES };

/* A session, whose fields are for sessions.c to write. */
struct session {
    struct session *next[TABLES];
    struct dp_session wanted; /* by its owner */
    bfdd_session config;      /* as the engine has it, by commands too, or will have it */
    uint32_t demand;          /* likewise: 1 in demand mode */
    uint32_t owner;
    struct path path;
    bool is_open;             /* the engine has it */
    bool is_refused;          /* that it couldn't be opened was said */
    struct dp_state reported; /* what its owner has, which is Down for a new session */
    uint64_t report_at;       /* when its owner gets the next report; UINT64_MAX: never */
    uint64_t begun;           /* when it was added */
    uint64_t starts;          /* when its hold time has passed */
    uint64_t ends;            /* when it is removed, unless a connection takes it: UINT64_MAX while it has one */
    uint64_t since;           /* when the own state was last changed, or the session opened */
    uint64_t heard;           /* when the last packet came that the engine accepted; 0: none did */
    struct dp_state state;    /* the own state and what the peer last sent */
    uint8_t peer_state;
    struct dp_counters counters; /* control packets that were accepted and sent */
    uint64_t ups, up_for;        /* how often it came Up, and how long it was Up, but for the time since it last came Up */
    struct record record;
};

struct session_change {
    uint64_t moment;
    uint8_t was, state, diagnostic;
    const char *cause; /* in words */
    const char *line;  /* all but the moment, as "session 7 to 10.0.0.2 on eth0: Init to Up, diagnostic 0 (No Diagnostic): .." */
};

/* Reports this session's state to its owner, or a new value of its peer's: then there is no change, NULL. False if
 * the owner has no room for that now; then it is tried again in a second. */
typedef bool session_reporter(const struct session *s, const struct session_change *change);

/* Begins without a session, with the sockets. `keep` is for how long sessions go on without a connection. */
void sessions_open(session_reporter *report, uint64_t keep);

/* Adds a session, or changes the one of the same discriminator to these values. What is refused is reported in a line. A new one
 * has the Auth Type and the key of `keyed`, which FRR's protocol doesn't carry, and nothing else of it; NULL: none. */
void sessions_add(uint32_t owner, struct dp_session wanted, const bfdd_session *keyed, uint64_t now);

/* Each session that ends sends AdminDown first: the one of this discriminator, those whose owner's connection was lost, or all. */
void sessions_remove(uint32_t discr, uint64_t now);
void sessions_lost(uint32_t owner, uint64_t now);
void sessions_close(uint64_t now);

uint64_t sessions_pass(uint64_t now); /* a loop_round */
struct session *sessions_find(uint32_t discr);

/* A session as a line names it, as "session 7 to 10.0.0.2 on eth0", until the next call. */
const char *session_name(const struct session *s);

/* view: what a session shows, as text for a person and as JSON for a program ------------------------------------------------ */

/* Where lines go, and their form. */
struct line {
    FILE *file;
    bool is_json;
};

/* Each writes one line, or sessions_view one for each session. What the engine has of a session counts for nothing where it isn't open. */
void view_session(struct line line, const struct session *s, const bfdd_session_state *shown, uint64_t now);
void view_change(struct line line, const struct session *s, const struct session_change *change);
void sessions_view(struct line line, uint64_t now);

/* Listens on a unix socket at this path: each client that connects gets a line of JSON for each session. */
void view_listen(const char *path);

/* control: the connections to FRR's bfdd ------------------------------------------------------------------------------------ */

/* Connects to the endpoint, or listens there. Then it has its round, and reports the sessions' changes. */
void control_open(const struct endpoint *endpoint, bool listens);
uint64_t control_round(uint64_t now);
session_reporter control_report;

/* front: what both programs have in common, from the options to the last AdminDown ------------------------------------------- */

/* An option: its value, if it has one, goes to the one of `flag`, `text` and `number` that isn't NULL, a number if it is in the range. */
struct choice {
    const char *name, *value, *help; /* `value` is what the usage calls it; NULL: the option has none */
    bool *flag;
    const char **text;
    uint64_t *number, least, greatest;
};

/* What a usage has above and below the options, and those that are the program's own. */
struct program {
    const char *above, *below;
    const struct choice *choices;
    size_t count;
};

/* Reads the options, and ends the program by --help and --version. A fault ends it with the usage on standard error. */
void front_read(int count, char **words, const struct program *program);
_Noreturn void front_fault(void);

/* Begins without a session, as sessions_open does. SIGUSR1, and front_view, view them to `views`. */
void front_open(session_reporter *report, uint64_t keep, struct line views);
void front_view(uint64_t now);

/* Runs until SIGTERM or SIGINT, with this in each round too, if it isn't NULL; then ends the sessions. Before that they are viewed
 * once more, if `is_viewed`. */
void front_run(loop_round *also, bool is_viewed);

#endif
