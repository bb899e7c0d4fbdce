/* endpoint: addresses of stream sockets. */
#include "daemon.h"

#include <arpa/inet.h>
#include <sys/stat.h>

enum { DEFAULT_PORT = 50700 };

bool endpoint_unix(const char *path, struct endpoint *endpoint) {
    size_t length = strlen(path);
    *endpoint = (struct endpoint){.at.unix_path = {.sun_family = AF_UNIX}};
    endpoint->length = (socklen_t)(offsetof(struct sockaddr_un, sun_path) + length);
    if (length == 0 || length >= sizeof endpoint->at.unix_path.sun_path) return false;
    memcpy(endpoint->at.unix_path.sun_path, path, length + 1);
    return true;
}

bool endpoint_parse(const char *text, struct endpoint *endpoint) {
    char host[INET6_ADDRSTRLEN];
    uint64_t port = DEFAULT_PORT;
    int end = 0;
    if (strncmp(text, "unix:", 5) == 0) return endpoint_unix(text + 5, endpoint);
    *endpoint = (struct endpoint){.at.v6 = {.sin6_family = AF_INET6}};
    bool is_v4 = sscanf(text, "ipv4:%45[0-9.]%n", host, &end) == 1;
    if (!is_v4) sscanf(text, "ipv6:[%45[0-9a-fA-F:.]]%n", host, &end);
    if (end == 0 || (text[end] && (text[end] != ':' || !read_number(text + end + 1, 1, 65535, &port)))) return false;
    endpoint->at.any.sa_family = is_v4 ? AF_INET : AF_INET6;
    endpoint->length = is_v4 ? sizeof endpoint->at.v4 : sizeof endpoint->at.v6;
    endpoint->at.v6.sin6_port = htons((uint16_t)port); /* which is in the same place of an IPv4 address */
    return inet_pton(endpoint->at.any.sa_family, host, is_v4 ? (void *)&endpoint->at.v4.sin_addr : &endpoint->at.v6.sin6_addr) == 1;
}

int endpoint_listen(const struct endpoint *endpoint) {
    const char *path = endpoint->at.unix_path.sun_path;
    struct stat found;
    int on = 1, family = endpoint->at.any.sa_family, fd = socket(family, SOCK_STREAM | SOCK_NONBLOCK | SOCK_CLOEXEC, 0);
    setsockopt(fd, SOL_SOCKET, SO_REUSEADDR, &on, sizeof on);
    if (family == AF_UNIX && lstat(path, &found) == 0 && S_ISSOCK(found.st_mode)) unlink(path); /* an earlier run's */
    if (bind(fd, &endpoint->at.any, endpoint->length) != 0 || listen(fd, 8) != 0) fail("can't listen", strerror(errno));
    return fd;
}
