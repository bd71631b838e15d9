/* TCP: a listening socket and the connections that it takes. */
#ifndef TCP_H
#define TCP_H

#include <stdbool.h>
#include <stddef.h>

/* Whether this is an address in numbers, IPv4 or IPv6. */
bool tcp_is_address(const char *address);

/* Listens at such an address and writes where, with the port that port 0 came to. -1, with errno, if it cannot. */
int tcp_listen(const char *address, const char *port, char *name, size_t name_bytes);

/* Takes a connection and writes where it comes from. -1, with errno, if there is none. */
int tcp_accept(int listener, char *name, size_t name_bytes);

#endif
