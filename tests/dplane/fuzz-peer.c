/* A target for libFuzzer: what a person gives to bfdd-peer and bfdd-dplane. Any bytes are a table, a key of TYPE:ID:KEYFILE, two addresses
 * with an interface and a key, or a socket's address. Link it with -Wl,--wrap=exit: where a program would end, the reading does, and
 * frees nothing, so leaks aren't looked for. */
#define main peer_main
#include "../../daemon/peer.c"
#undef main

#include <setjmp.h>
#include <sys/mman.h>

int LLVMFuzzerTestOneInput(const uint8_t *bytes, size_t count);
const char *__asan_default_options(void);
_Noreturn void __wrap_exit(int status);
_Noreturn void __real_exit(int status);

const char *__asan_default_options(void) { return "detect_leaks=0"; }

static jmp_buf ended;
static bool is_reading;

void __wrap_exit(int status) {
    if (!is_reading) __real_exit(status);
    longjmp(ended, 1);
}

/* A file with these bytes, by a path that is good until the next one. */
static const char *file_of(const char *bytes, size_t count) {
    static char path[32];
    static int file = -1;
    if (file >= 0) close(file);
    file = memfd_create("fuzz-peer", 0);
    if (file < 0 || write(file, bytes, count) != (ssize_t)count) abort();
    snprintf(path, sizeof path, "/proc/self/fd/%d", file);
    return path;
}

/* A text that no engine takes for a table isn't read further, and its memory is lost. */
static void read_table(const char *text, size_t length) {
    bfdd_handle handle = BFDD_HANDLE_INIT;
    bfdd_complaint complaint = BFDD_COMPLAINT_INIT;
    uint32_t code = bfdd_open(&handle, (const uint8_t *)text, length, &complaint);
    bfdd_close(&handle);
    if (code == BFDD_DONE || length % 64 == 0) take_table(file_of(text, length));
}

static void read_key(char *text, size_t length) {
    static char given[64];
    bfdd_session keyed = BFDD_SESSION_INIT;
    size_t front = strnlen(text, 10);
    snprintf(given, sizeof given, "%.10s:%s", text, file_of(text + front, length - front));
    auth = given;
    if (read_auth(&keyed) && (keyed.key_len < 1 || keyed.key_len > sizeof keyed.key || keyed.auth > 5)) abort();
}

static void read_words(char *text) {
    char *rest = NULL, *local = strtok_r(text, "\n", &rest), *remote = strtok_r(NULL, "\n", &rest);
    interface = strtok_r(NULL, "\n", &rest);
    auth = strtok_r(NULL, "\n", &rest);
    if (local && remote) take_words(local, remote);
}

static void read_endpoint(const char *text) {
    struct endpoint endpoint;
    uint64_t number = 0;
    if (endpoint_parse(text, &endpoint) && endpoint.length > sizeof endpoint.at) abort();
    if (read_number(text, 10, 60000, &number) && (number < 10 || number > 60000)) abort();
    log_up_to(text);
}

int LLVMFuzzerTestOneInput(const uint8_t *bytes, size_t count) {
    if (count == 0) return 0;
    char *text = malloc(count);
    if (!text) abort();
    memcpy(text, bytes + 1, count - 1);
    text[count - 1] = 0;
    count_entries = 0;
    log_greatest = LOG_DEBUG;
    is_reading = true;
    if (setjmp(ended) == 0) {
        switch (*bytes & 3) {
        case 0: read_table(text, count - 1); break;
        case 1: read_key(text, count - 1); break;
        case 2: read_words(text); break;
        default: read_endpoint(text);
        }
    }
    is_reading = false;
    free(text);
    return 0;
}
