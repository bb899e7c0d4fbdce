/* record: the life of a session as a packet file. */
#include "daemon.h"

#include <sys/resource.h>
#include <sys/stat.h>

enum { MOST_EVENTS = 200000, PATH = 4096 };

static const char *folder;

void record_in(const char *path) {
    struct rlimit files; /* each record is an open file */
    getrlimit(RLIMIT_NOFILE, &files);
    files.rlim_cur = files.rlim_max;
    setrlimit(RLIMIT_NOFILE, &files);
    if (mkdir(path, 0777) != 0 && errno != EEXIST) fail(path, strerror(errno));
    folder = path;
}

bool record_is_on(void) { return folder != NULL; }

/* A new file that this user alone may read, since it has the session's key. */
static FILE *create(const char *path) {
    mode_t former = umask(077);
    FILE *file = fopen(path, "wxe");
    if (!file) say(LOG_ERROR, "%s: %s; its session isn't recorded", path, strerror(errno));
    umask(former);
    return file;
}

static void put_bytes(FILE *file, const uint8_t *bytes, size_t length) {
    if (length == 0) fputc('-', file);
    for (size_t i = 0; i < length; i++) fprintf(file, "%02x", bytes[i]);
}

static void put_address(FILE *file, const bfdd_address *address) {
    const uint8_t *b = address->bytes;
    if (address->family == 4) fprintf(file, "%u.%u.%u.%u", b[0], b[1], b[2], b[3]);
    else put_bytes(file, b, 16);
    fputc(' ', file);
}

static void put_table(FILE *file, const bfdd_session *s) {
    fprintf(file, "bfd 1\np2p %" PRIu32 " %s %" PRIu32 " ", s->discr, s->kind == BFDD_MULTIHOP ? "multi" : "single", s->iface);
    put_address(file, &s->local);
    put_address(file, &s->remote);
    fprintf(file, "%s %" PRIu32 " %" PRIu32 " %" PRIu32 " %" PRIu32 " %" PRIu32 "\n", s->active ? "active" : "passive", s->tx, s->rx,
            s->mult, s->echo, s->seed);
    if (s->auth) {
        fprintf(file, "auth %" PRIu32 " %" PRIu32 " %" PRIu32 " ", s->discr, s->auth, s->key_id);
        put_bytes(file, s->key, s->key_len);
        fputc('\n', file);
    }
    fputs("run\n", file);
}

/* The path of a session's record has the time of day and the discriminator, as FOLDER/20261130T101500.123456Z-7.script. */
void record_begin(struct record *record, const bfdd_session *session, uint64_t now) {
    char t[MOMENT_TEXT], path[PATH];
    *record = (struct record){0};
    if (!folder) return;
    moment_text(now, t);
    snprintf(path, sizeof path, "%s/%.4s%.2s%.5s%.2s%s-%" PRIu32 ".script", folder, t, t + 5, t + 8, t + 14, t + 17, session->discr);
    if (bfdd_open_session(&record->alone, session) == BFDD_DONE) record->file = create(path);
    if (!record->file) return bfdd_close(&record->alone);
    put_table(record->file, session);
    strncat(path, ".start", sizeof path - strlen(path) - 1);
    FILE *start = create(path);
    if (!start) return;
    fprintf(start, "start %s\n", moment_text(0, t));
    fclose(start);
}

static void drop(struct record *record) {
    if (record->file) fclose(record->file);
    record->file = NULL;
    bfdd_close(&record->alone);
}

/* Whether there is room for one more event. Where there is none, the record ends. */
static bool has_room(struct record *record) {
    if (!record->file) return false;
    if (record->events++ < MOST_EVENTS) return true;
    record_end(record);
    say(LOG_WARNING, "a session's record ends with its event %d, the most that a packet file has", MOST_EVENTS);
    return false;
}

void record_packet(struct record *record, const bfdd_arrival *arrival) {
    const bfdd_packet *packet = &arrival->packet;
    const char *port = packet->port == BFDD_PORT_MULTI ? "multi" : "single";
    if (!has_room(record)) return;
    bfdd_receive(&record->alone, packet, arrival->payload, arrival->length);
    fprintf(record->file, "rx %" PRIu64 " %s %" PRIu32 " ", packet->moment, port, packet->iface);
    put_address(record->file, &packet->src);
    put_address(record->file, &packet->dst);
    fprintf(record->file, "%u ", packet->ttl);
    put_bytes(record->file, arrival->payload, arrival->length);
    fputc('\n', record->file);
}

void record_tick(struct record *record, uint64_t ms) {
    uint64_t due = 0;
    if (!record->file || bfdd_due(&record->alone, &due) != BFDD_DONE || due > ms || !has_room(record)) return;
    bfdd_tick(&record->alone, ms);
    fprintf(record->file, "tick %" PRIu64 "\n", ms);
}

void record_command(struct record *record, uint64_t moment, uint32_t discr, uint32_t verb, uint64_t value) {
    static const char *const verbs[] = {"", "disable", "enable", "reset", "path", "tx", "rx", "mult", "demand", "echo", "key"};
    if (!has_room(record)) return;
    bfdd_command(&record->alone, moment, discr, verb, value);
    fprintf(record->file, "cmd %" PRIu64 " %" PRIu32 " %s", moment, discr, verbs[verb]);
    if (verb >= BFDD_PATH) fprintf(record->file, " %" PRIu64, value);
    fputc('\n', record->file);
}

void record_flush(struct record *record) {
    if (!record->file || fflush(record->file) == 0) return;
    say(LOG_ERROR, "a record can't be written, and ends: %s", strerror(errno));
    drop(record);
}

void record_end(struct record *record) {
    if (record->file) fputs("end\n", record->file);
    record_flush(record);
    drop(record);
}
