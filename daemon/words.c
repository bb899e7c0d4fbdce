/* words: lines, clocks and text. */
#include "daemon.h"

#include <arpa/inet.h>
#include <stdarg.h>
#include <time.h>

static const char *const names[] = {"error", "warning", "info", "debug"};
enum log_level log_greatest = LOG_INFO;

bool log_up_to(const char *name) {
    unsigned level = 0;
    while (level < COUNT(names) && strcmp(name, names[level]) != 0) level++;
    if (level < COUNT(names)) log_greatest = (enum log_level)level;
    return level < COUNT(names);
}

void say(enum log_level level, const char *format, ...) {
    char line[1024];
    va_list values;
    if (level > log_greatest) return;
    va_start(values, format);
    vsnprintf(line, sizeof line, format, values);
    va_end(values);
    fprintf(stderr, "%s: %s: %s\n", program_invocation_short_name, names[level], line);
}

void fail(const char *what, const char *cause) {
    say(LOG_ERROR, "%s: %s", what, cause);
    exit(1);
}

bool read_number(const char *text, uint64_t least, uint64_t greatest, uint64_t *number) {
    char *end;
    if (*text < '0' || *text > '9') return false;
    errno = 0;
    *number = strtoull(text, &end, 10);
    return *end == 0 && errno == 0 && *number >= least && *number <= greatest;
}

static uint64_t read_clock(clockid_t clock) {
    struct timespec t;
    clock_gettime(clock, &t);
    return (uint64_t)t.tv_sec * 1000000 + (uint64_t)t.tv_nsec / 1000;
}

uint64_t clock_now(void) {
    static uint64_t start;
    uint64_t now = read_clock(CLOCK_MONOTONIC);
    if (start == 0) start = now - 1;
    return now - start;
}

uint64_t clock_wall(void) { return read_clock(CLOCK_REALTIME); }

const char *address_text(const bfdd_address *address, char text[ADDRESS_TEXT]) {
    return inet_ntop(address->family == 4 ? AF_INET : AF_INET6, address->bytes, text, ADDRESS_TEXT);
}

const char *moment_text(uint64_t moment, char text[MOMENT_TEXT]) {
    uint64_t wall = clock_wall() - (clock_now() - moment);
    time_t seconds = (time_t)(wall / 1000000);
    struct tm day;
    size_t length = strftime(text, MOMENT_TEXT, "%Y-%m-%dT%H:%M:%S", gmtime_r(&seconds, &day));
    snprintf(text + length, MOMENT_TEXT - length, ".%06uZ", (unsigned)(wall % 1000000));
    return text;
}
