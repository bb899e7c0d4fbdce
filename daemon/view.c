/* view: what a session shows, by one table of fields, as text for a person or as JSON for a program. */
#include "daemon.h"

/* Those from MOMENT on are strings in JSON. */
enum kind { NUMBER, INTERVAL, SECONDS, MOMENT, STATE, DIAGNOSTIC };

struct field {
    const char *name;
    enum kind kind;
    uint64_t value;
};

/* Intervals are microseconds, and in text milliseconds. */
static const char *text_of(const struct field *field, bool is_json, char text[MOMENT_TEXT]) {
    double seconds = (double)field->value / 1000000;
    if (field->kind == MOMENT) return moment_text(field->value, text);
    if (field->kind == STATE) return state_text((uint32_t)field->value);
    if (field->kind == DIAGNOSTIC) return diagnostic_text((uint32_t)field->value);
    if (field->kind == SECONDS) snprintf(text, MOMENT_TEXT, "%.6f", seconds);
    else if (field->kind == INTERVAL && !is_json) snprintf(text, MOMENT_TEXT, "%g ms", seconds * 1000);
    else snprintf(text, MOMENT_TEXT, "%" PRIu64, field->value);
    return text;
}

static void put(struct line line, const char *name, const char *text, bool is_string) {
    const char *quote = line.is_json && is_string ? "\"" : "";
    fprintf(line.file, line.is_json ? ",\"%s\":%s" : ", %s %s", name, quote);
    for (; *text; text++) {
        bool is_special = (unsigned char)*text < ' ' || *text == '"' || *text == '\\';
        fprintf(line.file, line.is_json && is_special ? "\\u%04x" : "%c", (unsigned char)*text);
    }
    fputs(quote, line.file);
}

static void put_fields(struct line line, const struct field *fields, size_t count) {
    char text[MOMENT_TEXT];
    for (size_t i = 0; i < count; i++) put(line, fields[i].name, text_of(&fields[i], line.is_json, text), fields[i].kind >= MOMENT);
}

/* Begins a line with the session's name, in JSON by its parts. */
static void begin(struct line line, const struct session *s) {
    char text[ADDRESS_TEXT];
    if (!line.is_json) {
        fputs(session_name(s), line.file);
        return;
    }
    fprintf(line.file, "{\"id\":%" PRIu32 ",\"multihop\":%s", s->wanted.discr, s->wanted.flags & DP_MULTIHOP ? "true" : "false");
    if (s->is_open) put(line, "local", address_text(&s->config.local, text), true);
    put(line, "peer", address_text(&s->config.remote, text), true);
    put(line, "interface", s->wanted.ifname, true);
}

static void end(struct line line) { fputs(line.is_json ? "}\n" : "\n", line.file); }

void view_session(struct line line, const struct session *s, const bfdd_session_state *shown, uint64_t now) {
    const struct field own[] = {
        {"state", STATE, shown->state}, {"since", MOMENT, s->since}, {"diagnostic", NUMBER, shown->diag},
        {"diagnostic-text", DIAGNOSTIC, shown->diag}, {"advertised-transmit-interval", INTERVAL, shown->adv_tx},
        {"transmit-interval", INTERVAL, shown->used_tx}, {"receive-interval", INTERVAL, shown->used_rx},
        {"detection-time", INTERVAL, shown->detect}, {"detect-multiplier", NUMBER, s->wanted.mult}, {"poll", NUMBER, shown->poll},
        {"remote-state", STATE, shown->remote_state}, {"remote-id", NUMBER, shown->remote_discr}};
    const struct field peers[] = {
        {"heard", MOMENT, s->heard},
        {"remote-diagnostic", NUMBER, shown->peer_diag}, {"remote-diagnostic-text", DIAGNOSTIC, shown->peer_diag},
        {"remote-transmit-interval", INTERVAL, shown->peer_tx}, {"remote-receive-interval", INTERVAL, shown->peer_rx},
        {"remote-detect-multiplier", NUMBER, shown->peer_mult}};
    uint64_t up_for = s->up_for + (s->state.state == BFDD_UP ? now - s->since : 0);
    const struct field counts[] = {
        {"bytes-in", NUMBER, s->counters.bytes_in}, {"packets-in", NUMBER, s->counters.packets_in},
        {"bytes-out", NUMBER, s->counters.bytes_out}, {"packets-out", NUMBER, s->counters.packets_out},
        {"ups", NUMBER, s->ups}, {"seconds-up", SECONDS, up_for}, {"seconds", SECONDS, now - s->begun}};
    begin(line, s);
    put_fields(line, own, s->is_open ? COUNT(own) : 0);
    put_fields(line, peers, s->heard ? COUNT(peers) : 0);
    put_fields(line, counts, COUNT(counts));
    end(line);
}

void view_change(struct line line, const struct session *s, const struct session_change *change) {
    const struct field fields[] = {{"time", MOMENT, change->moment}, {"was", STATE, change->was}, {"state", STATE, change->state},
                                   {"diagnostic", NUMBER, change->diagnostic}, {"diagnostic-text", DIAGNOSTIC, change->diagnostic}};
    char moment[MOMENT_TEXT];
    if (!line.is_json) {
        fprintf(line.file, "%s %s\n", moment_text(change->moment, moment), change->line);
        return;
    }
    begin(line, s);
    put_fields(line, fields, COUNT(fields));
    put(line, "cause", change->cause, true);
    end(line);
}

enum { LONGEST_ANSWER = 10 /* seconds */ };

static int listener;

/* Answers each client in a child, so that a slow reader delays nothing. The child has the program's sockets too, so it ends soon even
 * if nobody reads. */
static void answer(uint32_t number UNUSED, uint64_t now) {
    int asker = accept4(listener, NULL, NULL, SOCK_CLOEXEC);
    pid_t child = asker >= 0 ? loop_fork() : -1;
    if (child == 0) {
        alarm(LONGEST_ANSWER);
        FILE *file = fdopen(asker, "w");
        if (!file) _exit(1);
        sessions_view((struct line){file, true}, now);
        _exit(fclose(file) != 0);
    }
    if (child < 0) say(LOG_WARNING, "a question wasn't answered: %s", strerror(errno));
    if (asker >= 0) close(asker);
}

void view_listen(const char *path) {
    struct endpoint endpoint;
    if (!endpoint_unix(path, &endpoint)) fail(path, "no path of a socket");
    listener = endpoint_listen(&endpoint);
    loop_await(listener, LOOP_VIEW, 0, EPOLLIN, answer);
}
