/* bfdd-dplane: a data plane for FRR's bfdd, on the library libbfdd.
 *
 *     FRR's bfdd <- control -> sessions -> libbfdd, and sockets for its packets
 *
 * Nothing is allocated for a packet. */
#include "daemon.h"

static bool listens;
static uint64_t keep; /* seconds */

static const struct choice choices[] = {
    {"listen", NULL, "wait for FRR to connect, where it is started with unixc:, ipv4c: or ipv6c:", .flag = &listens},
    {"keep", "SECONDS", "let sessions go on so long after the connection to FRR was lost; 0 if not given", .number = &keep, 0, 86400}};

static const struct program dplane = {
    "usage: bfdd-dplane [OPTION].. ADDRESS\n"
    "\n"
    "A data plane for FRR: it runs the BFD sessions of FRR's bfdd, which is started with --dplaneaddr ADDRESS.\n"
    "ADDRESS is unix:PATH, ipv4:A[:PORT] or ipv6:[A][:PORT]; the port is 50700 where none is given.\n"
    "\n",
    "\n"
    "LEVEL is info if not given. SIGUSR1 writes a line for each session, SIGHUP turns the level debug on and off, SIGTERM and\n"
    "SIGINT end the program, after each session has sent AdminDown. See bfdd-dplane(8).\n",
    choices, COUNT(choices)};

/* Says to systemd that the program is ready, where it asks for that. */
static void notify_ready(void) {
    const char *path = getenv("NOTIFY_SOCKET"), text[] = "READY=1";
    struct endpoint systemd;
    if (!path || !endpoint_unix(path, &systemd)) return;
    if (*path == '@') systemd.at.unix_path.sun_path[0] = 0;
    int fd = socket(AF_UNIX, SOCK_DGRAM | SOCK_CLOEXEC, 0);
    sendto(fd, text, sizeof text - 1, 0, &systemd.at.any, systemd.length);
    close(fd);
}

int main(int count, char **words) {
    struct endpoint endpoint;
    front_read(count, words, &dplane);
    if (optind + 1 != count || !endpoint_parse(words[optind], &endpoint)) front_fault();
    front_open(control_report, keep * 1000000, (struct line){stderr, false});
    control_open(&endpoint, listens);
    notify_ready();
    front_run(control_round, false);
    return 0;
}
