/* front: what both programs have in common, from their options to the last AdminDown. */
#include "daemon.h"

#include <getopt.h>
#include <signal.h>

enum { MOST_CHOICES = 24, COLUMN = 26 };

static const struct program *program;
static struct choice choices[MOST_CHOICES]; /* the program's own, and then the common ones */
static const char *folder, *control, *level_name;
static bool wants_help, wants_version, at_terminal;
static enum log_level level;
static struct line views;
static loop_round *also;

static const struct choice common[] = {
    {"record", "FOLDER", "write each session's life to a packet file of its own there, for bfdd replay", .text = &folder},
    {"control", "PATH", "a unix socket that answers whoever connects with a line of JSON for each session", .text = &control},
    {"log", "LEVEL", "write lines up to error, warning, info or debug to standard error", .text = &level_name},
    {"help", NULL, "this text", .flag = &wants_help},
    {"version", NULL, "the version", .flag = &wants_version}};

static void print_usage(FILE *file) {
    fputs(program->above, file);
    for (const struct choice *choice = choices; choice->name; choice++) {
        int width = fprintf(file, "  --%s %s", choice->name, choice->value ? choice->value : "");
        fprintf(file, "%*s%s\n", COLUMN - width, "", choice->help);
    }
    fputs(program->below, file);
}

void front_fault(void) {
    print_usage(stderr);
    exit(1);
}

static bool take(const struct choice *choice, const char *value) {
    if (choice->flag) *choice->flag = true;
    if (choice->text) *choice->text = value;
    return !choice->number || read_number(value, choice->least, choice->greatest, choice->number);
}

void front_read(int count, char **words, const struct program *it) {
    struct option known[MOST_CHOICES] = {0};
    program = it;
    memcpy(choices, it->choices, it->count * sizeof *choices);
    memcpy(choices + it->count, common, sizeof common);
    for (int i = 0; choices[i].name; i++)
        known[i] = (struct option){choices[i].name, choices[i].value ? required_argument : no_argument, NULL, i};
    for (int option; (option = getopt_long(count, words, "", known, NULL)) >= 0;)
        if (option == '?' || !take(&choices[option], optarg)) front_fault();
    if (level_name && !log_up_to(level_name)) front_fault();
    level = log_greatest;
    if (wants_help) print_usage(stdout);
    if (wants_version) printf("%s %u.%u\n", program_invocation_short_name, bfdd_version() >> 16, bfdd_version() & 0xffff);
    if (wants_help || wants_version) exit(0);
}

static void take_signal(uint32_t signal, uint64_t now) {
    if (signal == SIGUSR1) front_view(now);
    else if (signal != SIGHUP || at_terminal) loop_end(); /* a terminal that was closed */
    else log_greatest = log_greatest == LOG_DEBUG ? level : LOG_DEBUG;
}

void front_open(session_reporter *report, uint64_t keep, struct line line) {
    views = line;
    at_terminal = isatty(STDIN_FILENO);
    signal(SIGCHLD, SIG_IGN); /* nobody waits for a child */
    if (folder) record_in(folder);
    loop_open(take_signal);
    sessions_open(report, keep);
    if (control) view_listen(control);
}

void front_view(uint64_t now) {
    sessions_view(views, now);
    fflush(views.file);
}

static uint64_t pass_time(uint64_t now) {
    uint64_t due = sessions_pass(now), other = also ? also(now) : UINT64_MAX;
    sockets_flush();
    return due < other ? due : other;
}

void front_run(loop_round *round, bool is_viewed) {
    also = round;
    loop_run(pass_time);
    if (is_viewed) front_view(clock_now());
    sessions_close(clock_now());
    sockets_flush();
}
