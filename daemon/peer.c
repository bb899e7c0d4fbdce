/* bfdd-peer: BFD sessions of this host without a routing daemon, on the library libbfdd.
 *
 *     words or a table -> sessions -> libbfdd, and sockets for its packets
 *
 * Each change of a session's state is a line on standard output, and may run a command. */
#include "daemon.h"

#include <arpa/inet.h>
#include <fcntl.h>
#include <signal.h>
#include <sys/random.h>

enum { OWNER = 1, WORD = 48, TYPED = 256, MOST_ENTRIES = 65536 /* as many as a table has */ };

/* The sessions that are to be run. */
static struct entry {
    struct dp_session wanted;
    bfdd_session keyed;
} entries[MOST_ENTRIES];
static size_t count_entries;

static bool is_multihop, is_passive, is_json;
static const char *interface, *auth, *command;
static uint64_t tx = 300, rx = 300, mult = 3;

static const struct choice choices[] = {
    {"multihop", NULL, "over several hops (port 4784), not one (port 3784)", .flag = &is_multihop},
    {"interface", "IF", "the interface, which a link-local address needs", .text = &interface},
    {"tx", "MS", "Desired Min TX Interval, 10 to 60000 milliseconds; 300 if not given", .number = &tx, 10, 60000},
    {"rx", "MS", "Required Min RX Interval, likewise", .number = &rx, 10, 60000},
    {"mult", "N", "Detect Mult, 1 to 255; 3 if not given", .number = &mult, 1, 255},
    {"passive", NULL, "send nothing before the peer is heard", .flag = &is_passive},
    {"auth", "TYPE:ID:KEYFILE", "authenticate by the Auth Type 1 to 5, the key's number 0 to 255, and the key in this file", .text = &auth},
    {"json", NULL, "write lines of JSON", .flag = &is_json},
    {"on-change", "COMMAND", "run this by the shell at each change; BFDD_PEER, BFDD_STATE and others say which", .text = &command}};

static const struct program peer = {
    "usage: bfdd-peer [OPTION].. LOCAL REMOTE\n"
    "       bfdd-peer [OPTION].. TABLE\n"
    "\n"
    "Runs the BFD session of these two IPv4 or IPv6 addresses, or those of a table: a packet file without events. It writes a\n"
    "line for each change of a session's state, and goes on until SIGINT or SIGTERM; then each session sends AdminDown.\n"
    "\n",
    "\n"
    "LEVEL is warning if not given. SIGUSR1, or Enter at a terminal, writes a line for each session. See bfdd-peer(1).\n",
    choices, COUNT(choices)};

/* Sessions ------------------------------------------------------------------------------------------------------------- */

/* Reads TYPE:ID:KEYFILE. A line's end behind the key isn't part of it. */
static bool read_auth(bfdd_session *keyed) {
    uint8_t bytes[sizeof keyed->key + 2];
    int end = 0;
    if (sscanf(auth, "%1" SCNu32 ":%3" SCNu32 ":%n", &keyed->auth, &keyed->key_id, &end) != 2 || end == 0) return false;
    if (keyed->auth < 1 || keyed->auth > 5 || keyed->key_id > 255) return false;
    FILE *file = fopen(auth + end, "re");
    if (!file) fail(auth + end, strerror(errno));
    keyed->key_len = (uint32_t)fread(bytes, 1, sizeof bytes, file);
    fclose(file);
    if (keyed->key_len > 0 && bytes[keyed->key_len - 1] == '\n') keyed->key_len--;
    if (keyed->key_len < 1 || keyed->key_len > (keyed->auth < 4 ? 16 : 20)) return false;
    memcpy(keyed->key, bytes, keyed->key_len);
    return true;
}

/* The session of the options, and of two addresses of one family. */
static bool take_words(const char *local, const char *remote) {
    struct entry entry = {.wanted = {.tx = (uint32_t)tx * 1000, .rx = (uint32_t)rx * 1000, .mult = (uint8_t)mult}};
    struct dp_session *s = &entry.wanted;
    int family = strchr(remote, ':') ? AF_INET6 : AF_INET;
    s->flags = (is_multihop ? DP_MULTIHOP : 0u) | (is_passive ? DP_PASSIVE : 0u) | (family == AF_INET6 ? DP_IPV6 : 0u);
    if (interface && (s->ifindex = if_nametoindex(interface)) == 0) fail(interface, "no such interface");
    if (interface) snprintf(s->ifname, sizeof s->ifname, "%s", interface);
    if (inet_pton(family, local, s->source) != 1 || inet_pton(family, remote, s->destination) != 1) return false;
    if (family == AF_INET6 && IN6_IS_ADDR_LINKLOCAL((struct in6_addr *)s->destination) && !interface)
        fail(remote, "a link-local address needs --interface");
    if (auth && !read_auth(&entry.keyed)) return false;
    while (s->discr == 0)
        if (getrandom(&s->discr, sizeof s->discr, 0) != sizeof s->discr) fail("getrandom", strerror(errno));
    entries[count_entries++] = entry;
    return true;
}

static size_t read_hex(const char *text, uint8_t *bytes, size_t room) {
    size_t count = 0;
    while (count < room && sscanf(text + 2 * count, "%2hhx", &bytes[count]) == 1) count++;
    return count;
}

/* The flag of an address of a packet file, which is written in hexadecimal where it is one of IPv6. */
static uint32_t read_address(const char *text, uint8_t bytes[16]) {
    return inet_pton(AF_INET, text, bytes) != 1 && read_hex(text, bytes, 16) == 16 ? DP_IPV6 : 0;
}

/* A line of a table, which the engine has found to be one. */
static void take_line(const char *line) {
    struct entry entry = {0};
    struct dp_session *s = &entry.wanted;
    bfdd_session keyed = {0};
    char hops[8], local[WORD], remote[WORD], mode[8], secret[WORD];
    uint32_t detect, echo, discr;
    if (sscanf(line, "p2p %" SCNu32 " %7s %" SCNu32 " %47s %47s %7s %" SCNu32 " %" SCNu32 " %" SCNu32 " %" SCNu32, &s->discr, hops,
               &s->ifindex, local, remote, mode, &s->tx, &s->rx, &detect, &echo) == 10) {
        read_address(local, s->source);
        s->flags = read_address(remote, s->destination) | (*hops == 'm' ? DP_MULTIHOP : 0u) | (*mode == 'p' ? DP_PASSIVE : 0u)
                   | (echo ? DP_ECHO : 0u);
        s->mult = (uint8_t)detect;
        if (s->ifindex && !if_indextoname(s->ifindex, s->ifname)) fail(line, "no interface has this number");
        entries[count_entries++] = entry;
    } else if (sscanf(line, "auth %" SCNu32 " %" SCNu32 " %" SCNu32 " %47s", &discr, &keyed.auth, &keyed.key_id, secret) == 4) {
        keyed.key_len = (uint32_t)read_hex(secret, keyed.key, sizeof keyed.key);
        for (size_t i = 0; i < count_entries; i++)
            if (entries[i].wanted.discr == discr) entries[i].keyed = keyed;
    } else if (strncmp(line, "bfd ", 4) != 0 && strcmp(line, "run") != 0 && strcmp(line, "end") != 0) {
        fail(line, "only point-to-point sessions with one key are run");
    }
}

/* The sessions of a table; where the proved reader finds the text to be none, the program ends with status 2. */
static void take_table(const char *path) {
    FILE *file = fopen(path, "re");
    char *text = NULL, *rest = NULL;
    size_t room = 0;
    ssize_t length = file ? getdelim(&text, &room, 0, file) : -1;
    bfdd_handle handle = BFDD_HANDLE_INIT;
    bfdd_complaint complaint = BFDD_COMPLAINT_INIT;
    if (length < 0) fail(path, file ? "it is empty" : strerror(errno));
    fclose(file);
    uint32_t code = bfdd_open(&handle, (const uint8_t *)text, (size_t)length, &complaint);
    bfdd_close(&handle);
    if (code == BFDD_TEXT) say(LOG_ERROR, "%s: line %" PRIu64 ": %s", path, complaint.line, bfdd_name(BFDD_NAME_FAULT, complaint.fault));
    else if (code != BFDD_DONE) say(LOG_ERROR, "%s: %s", path, code == BFDD_EVENTS ? "a table has no events" : "no memory");
    if (code != BFDD_DONE) exit(2);
    for (char *line = strtok_r(text, "\n", &rest); line; line = strtok_r(NULL, "\n", &rest)) take_line(line);
    free(text);
}

/* Changes -------------------------------------------------------------------------------------------------------------- */

/* Runs the command in a process whose end isn't waited for, with nothing to read, and what it writes on standard error. */
static void run_command(const struct session *s, const struct session_change *change) {
    char time[MOMENT_TEXT], local[ADDRESS_TEXT], remote[ADDRESS_TEXT];
    const char *const variables[][2] = {
        {"BFDD_TIME", moment_text(change->moment, time)}, {"BFDD_LOCAL", address_text(&s->config.local, local)},
        {"BFDD_PEER", address_text(&s->config.remote, remote)}, {"BFDD_INTERFACE", s->wanted.ifname}, {"BFDD_WAS", state_text(change->was)},
        {"BFDD_STATE", state_text(change->state)}, {"BFDD_DIAGNOSTIC", diagnostic_text(change->diagnostic)}, {"BFDD_CAUSE", change->cause}};
    pid_t child = loop_fork();
    if (child < 0) say(LOG_ERROR, "%s: %s", command, strerror(errno));
    if (child != 0) return;
    for (size_t i = 0; i < COUNT(variables); i++) setenv(variables[i][0], variables[i][1], 1);
    signal(SIGCHLD, SIG_DFL);
    dup2(open("/dev/null", O_RDONLY), STDIN_FILENO);
    dup2(STDERR_FILENO, STDOUT_FILENO);
    execl("/bin/sh", "sh", "-c", command, (char *)NULL);
    _exit(127);
}

static bool report_change(const struct session *s, const struct session_change *change) {
    if (change) view_change((struct line){stdout, is_json}, s, change);
    if (change && command) run_command(s, change);
    return true;
}

/* A line that was typed at the terminal. */
static void take_key(uint32_t number UNUSED, uint64_t now) {
    char typed[TYPED];
    if (read(STDIN_FILENO, typed, sizeof typed) > 0) front_view(now);
    else loop_await(STDIN_FILENO, LOOP_KEY, 0, 0, take_key);
}

int main(int count, char **words) {
    log_greatest = LOG_WARNING;
    setvbuf(stdout, NULL, _IOLBF, 0);
    signal(SIGTTIN, SIG_IGN);
    front_read(count, words, &peer);
    if (optind + 1 == count) take_table(words[optind]);
    else if (optind + 2 != count || !take_words(words[optind], words[optind + 1])) front_fault();
    front_open(report_change, 0, (struct line){stdout, is_json});
    for (size_t i = 0; i < count_entries; i++) sessions_add(OWNER, entries[i].wanted, &entries[i].keyed, clock_now());
    if (isatty(STDIN_FILENO)) loop_await(STDIN_FILENO, LOOP_KEY, 0, EPOLLIN, take_key);
    front_run(NULL, true);
    return 0;
}
