// SPDX-License-Identifier: MIT OR Apache-2.0
/* For osmo-msc on a kernel that has no SCTP: LD_PRELOAD=without_sctp.so osmo-msc ..
 *
 * Its SGs listener wants an SCTP socket and it doesn't start without one. Here each SCTP socket is one of TCP, and it listens
 * at a free port of 127.0.0.1: nobody uses it.
 *
 *     gcc -shared -fPIC -o without_sctp.so without_sctp.c -ldl
 */
#define _GNU_SOURCE
#include <arpa/inet.h>
#include <dlfcn.h>
#include <netinet/in.h>
#include <stdbool.h>
#include <sys/socket.h>

enum {
  MOST_SOCKETS = 65536,
  BIND_TO_LIST = 100, /* SCTP_SOCKOPT_BINDX_ADD: what sctp_bindx() asks for */
};

static bool was_sctp[MOST_SOCKETS];

int socket(int domain, int type, int protocol) {
  static int (*next)(int, int, int);
  if (!next) next = (int (*)(int, int, int))dlsym(RTLD_NEXT, "socket");
  if (protocol != IPPROTO_SCTP) return next(domain, type, protocol);
  /* one that takes messages with their sender (SOCK_SEQPACKET) has no TCP of its kind */
  int flags = type & (SOCK_CLOEXEC | SOCK_NONBLOCK);
  int made = next(domain, SOCK_STREAM | flags, IPPROTO_TCP);
  if (made >= 0 && made < MOST_SOCKETS) was_sctp[made] = true;
  return made;
}

int bind(int made, const struct sockaddr *address, socklen_t length) {
  static int (*next)(int, const struct sockaddr *, socklen_t);
  if (!next) next = (int (*)(int, const struct sockaddr *, socklen_t))dlsym(RTLD_NEXT, "bind");
  if (made < 0 || made >= MOST_SOCKETS || !was_sctp[made]) return next(made, address, length);
  if (address->sa_family == AF_INET6) {
    struct sockaddr_in6 own = {.sin6_family = AF_INET6, .sin6_addr = IN6ADDR_LOOPBACK_INIT};
    return next(made, (const struct sockaddr *)&own, sizeof own);
  }
  struct sockaddr_in own = {.sin_family = AF_INET, .sin_addr = {htonl(INADDR_LOOPBACK)}};
  return next(made, (const struct sockaddr *)&own, sizeof own);
}

int close(int made) {
  static int (*next)(int);
  if (!next) next = (int (*)(int))dlsym(RTLD_NEXT, "close");
  if (made >= 0 && made < MOST_SOCKETS) was_sctp[made] = false;
  return next(made);
}

int setsockopt(int made, int level, int option, const void *value, socklen_t length) {
  static int (*next)(int, int, int, const void *, socklen_t);
  if (!next) next = (int (*)(int, int, int, const void *, socklen_t))dlsym(RTLD_NEXT, "setsockopt");
  if (level == IPPROTO_SCTP && made >= 0 && made < MOST_SOCKETS && was_sctp[made])
    return option == BIND_TO_LIST ? bind(made, value, length) : 0;
  return next(made, level, option, value, length);
}
