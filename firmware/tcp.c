#define _GNU_SOURCE /* accept4 */
#include "tcp.h"

#include <errno.h>
#include <netdb.h>
#include <netinet/in.h>
#include <netinet/tcp.h>
#include <stdio.h>
#include <string.h>
#include <sys/socket.h>
#include <unistd.h>

static void write_name(const struct sockaddr *address, socklen_t length, char *name, size_t name_bytes)
{
    char host[64];
    char port[8];
    if (getnameinfo(address, length, host, sizeof host, port, sizeof port, NI_NUMERICHOST | NI_NUMERICSERV) != 0)
        snprintf(name, name_bytes, "an unknown address");
    else
        snprintf(name, name_bytes, strchr(host, ':') == NULL ? "%s:%s" : "[%s]:%s", host, port);
}

static int listen_at(const struct addrinfo *at, char *name, size_t name_bytes)
{
    const int on = 1;
    struct sockaddr_storage bound;
    socklen_t length = sizeof bound;
    int listener = socket(at->ai_family, SOCK_STREAM | SOCK_NONBLOCK | SOCK_CLOEXEC, 0);
    if (listener < 0)
        return -1;
    if (setsockopt(listener, SOL_SOCKET, SO_REUSEADDR, &on, sizeof on) != 0 || bind(listener, at->ai_addr, at->ai_addrlen) != 0 ||
        listen(listener, SOMAXCONN) != 0 || getsockname(listener, (struct sockaddr *)&bound, &length) != 0) {
        int why = errno;
        close(listener);
        errno = why;
        return -1;
    }
    write_name((struct sockaddr *)&bound, length, name, name_bytes);
    return listener;
}

static struct addrinfo *resolve(const char *address, const char *port)
{
    const struct addrinfo wanted = {.ai_flags = AI_NUMERICHOST | AI_NUMERICSERV, .ai_socktype = SOCK_STREAM};
    struct addrinfo *at;
    return getaddrinfo(address, port, &wanted, &at) == 0 ? at : NULL;
}

bool tcp_is_address(const char *address)
{
    struct addrinfo *at = resolve(address, "0");
    if (at != NULL)
        freeaddrinfo(at);
    return at != NULL;
}

int tcp_listen(const char *address, const char *port, char *name, size_t name_bytes)
{
    struct addrinfo *at = resolve(address, port);
    if (at == NULL) {
        errno = EINVAL;
        return -1;
    }
    int listener = listen_at(at, name, name_bytes);
    int why = errno;
    freeaddrinfo(at);
    errno = why;
    return listener;
}

int tcp_accept(int listener, char *name, size_t name_bytes)
{
    const int on = 1;
    struct sockaddr_storage from;
    socklen_t length = sizeof from;
    int connection = accept4(listener, (struct sockaddr *)&from, &length, SOCK_NONBLOCK | SOCK_CLOEXEC);
    if (connection >= 0) {
        /* A reply is short and awaited: it goes at once. */
        setsockopt(connection, IPPROTO_TCP, TCP_NODELAY, &on, sizeof on);
        write_name((struct sockaddr *)&from, length, name, name_bytes);
    }
    return connection;
}
