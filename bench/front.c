// SPDX-License-Identifier: MIT OR Apache-2.0
/* Plays the switch and the stations of `bsc` behind its front, of `bsc` alone, or of osmo-bsc, with mobiles that have a call each,
   and measures the processes that are named. Each message is checked: on its call, once, in order, unchanged.
   Usage: run FORM STATIONS HOST SERVER OML_PORT RSL_PORTS SECONDS MESSAGES NAME=PID..; FORM is front, bsc or osmo-bsc, SERVER the
   descriptor at which the switch listens, RSL_PORTS where the stations find RSL, with commas between.
   A phase under load lasts SECONDS, and one of messages through an idle relay takes MESSAGES of them. It prints lines of a phase, a
   figure's name and its value. Nothing is waited for longer than PATIENCE. */
#define _GNU_SOURCE
#include <arpa/inet.h>
#include <dirent.h>
#include <errno.h>
#include <netinet/tcp.h>
#include <poll.h>
#include <stdarg.h>
#include <stdio.h>
#include <stdlib.h>
#include <string.h>
#include <sys/socket.h>
#include <time.h>
#include <unistd.h>

enum { MOST_STATIONS = 8, CALLS = 32, WINDOW = 16, TEXT = 20, ROOM = 1 << 18, PATIENCE = 30, MOST_NAMES = 4, MOST_MESSAGES = 100000 };
enum { RSL = 0x00, SCCP = 0xfd, CCM = 0xfe, OML = 0xff };
enum { UP = 1, DOWN = 2, REPORTS = 4 };

/* A link: what was read of it and not handled, and what is to be sent. */
struct link {
  int fd, port;
  unsigned char in[ROOM], out[ROOM];
  size_t held, left;
};
enum { LINKS = 2 * MOST_STATIONS + 1 };
static struct link links[LINKS]; /* the switch's, RSL of each station, OML of each station */
static int stations, server, is_reset, is_bsc, is_osmo, heard[MOST_STATIONS + 1], rsl_ports[MOST_STATIONS + 1];
static const char *host;
static double last; /* when a frame came */

/* A mobile's call. */
struct call {
  int station, channel, is_open;
  unsigned far; /* the relay's reference */
  unsigned up_sent, up_got, down_sent, down_got;
};
static struct call calls[CALLS];
static int opened, by_channel[MOST_STATIONS + 1][256]; /* the call, and 1 */

static struct { const char *name; int pid; double used; } processes[MOST_NAMES];
static int names;

static void fail(const char *what, ...) {
  va_list words;
  va_start(words, what);
  fprintf(stderr, "bench/front: ");
  vfprintf(stderr, what, words);
  fprintf(stderr, errno ? ": %s\n" : "\n", strerror(errno));
  exit(1);
}
static double now(void) {
  struct timespec t;
  clock_gettime(CLOCK_MONOTONIC, &t);
  return t.tv_sec + t.tv_nsec / 1e9;
}
/* A process's processor seconds, of all its threads. */
static double used(int pid) {
  char name[300];
  double sum = 0;
  snprintf(name, sizeof name, "/proc/%d/task", pid);
  DIR *folder = opendir(name);
  if (!folder) fail("process %d has ended", pid);
  for (struct dirent *one; (one = readdir(folder));) {
    unsigned long long ns = 0;
    snprintf(name, sizeof name, "/proc/%d/task/%s/schedstat", pid, one->d_name);
    FILE *file = one->d_name[0] == '.' ? NULL : fopen(name, "r");
    if (!file) continue;
    if (fscanf(file, "%llu", &ns) == 1) sum += ns / 1e9;
    fclose(file);
  }
  closedir(folder);
  return sum;
}
static void begin_measuring(void) {
  for (int one = 0; one < names; one++) processes[one].used = used(processes[one].pid);
}
/* Prints what all processes have used since then, and each of them, in seconds for 100,000 messages. */
static void print_used(const char *phase, double count) {
  double sum = 0;
  for (int one = 0; one < names; one++) {
    double seconds = (used(processes[one].pid) - processes[one].used) / count * 1e5;
    if (names > 1) printf("%s %s_seconds %.4f\n", phase, processes[one].name, seconds);
    sum += seconds;
  }
  printf("%s seconds %.4f\n", phase, sum);
}

/* ---- links */

static struct sockaddr_in address(int port) {
  struct sockaddr_in at = {.sin_family = AF_INET, .sin_port = htons(port)};
  inet_pton(AF_INET, host, &at.sin_addr);
  return at;
}
static void begin_link(int link, int fd) {
  setsockopt(fd, IPPROTO_TCP, TCP_NODELAY, &(int){1}, sizeof(int));
  if (links[link].fd > 0) close(links[link].fd);
  links[link].fd = fd;
  links[link].held = links[link].left = 0;
}
static void connect_link(int link, int port) {
  struct sockaddr_in at = address(port);
  for (double end = now() + PATIENCE; now() < end; usleep(50000)) {
    int fd = socket(AF_INET, SOCK_STREAM, 0);
    links[link].port = port;
    if (!connect(fd, (void *)&at, sizeof at)) return begin_link(link, fd);
    close(fd);
  }
  fail("nobody listens at port %d", port);
}
static void put(int link, int stream, const unsigned char *body, size_t size) {
  struct link *l = &links[link];
  if (l->left + size + 3 > ROOM) fail("too much to send over link %d", link);
  unsigned char head[3] = {size >> 8, size, stream};
  memcpy(l->out + l->left, head, 3);
  memcpy(l->out + l->left + 3, body, size);
  l->left += size + 3;
}
#define PUT(link, stream, ...) put(link, stream, (unsigned char[]){__VA_ARGS__}, sizeof((unsigned char[]){__VA_ARGS__}))
#define REF(n) (n) >> 16 & 255, (n) >> 8 & 255, (n) & 255

static void flush(void) {
  for (int link = 0; link < LINKS; link++) {
    struct link *l = &links[link];
    if (!l->left) continue;
    ssize_t sent = send(l->fd, l->out, l->left, MSG_NOSIGNAL | MSG_DONTWAIT);
    if (sent < 0 && errno != EAGAIN) fail("link %d: send", link);
    if (sent > 0) memmove(l->out, l->out + sent, l->left -= sent);
  }
}

/* ---- messages */

/* A message of call control that says whose it is, and its place; its number is what a mobile writes. */
static void write_text(unsigned char *text, int call, unsigned place, int is_up) {
  text[0] = is_up ? 0x03 : 0x83;
  text[1] = (is_up ? ((place + 1) & 3) << 6 : 0) | 0x3a;
  text[2] = call;
  for (int at = 0; at < 4; at++) text[3 + at] = place >> 8 * at;
  for (int at = 7; at < TEXT; at++) text[at] = place + at;
}
/* Takes a message that came: the next one of its call, as it was sent. */
static void check_text(int call, const unsigned char *text, size_t size, int is_up) {
  unsigned char wanted[TEXT];
  unsigned *got = is_up ? &calls[call].up_got : &calls[call].down_got;
  write_text(wanted, call, *got, is_up);
  if (size != TEXT || memcmp(text, wanted, TEXT)) fail("call %d: message %u %s isn't what was sent", call, *got, is_up ? "up" : "down");
  ++*got;
}
static void send_up(int call) {
  struct call *c = &calls[call];
  unsigned char body[9 + TEXT] = {0x03, 0x02, 0x01, c->channel, 0x02, 0x00, 0x0b, 0x00, TEXT};
  write_text(body + 9, call, c->up_sent++, 1);
  put(c->station, RSL, body, sizeof body);
}
static void send_down(int call) {
  struct call *c = &calls[call];
  unsigned char body[10 + TEXT] = {0x06, REF(c->far), 0x00, 0x01, TEXT + 3, 0x01, 0x00, TEXT};
  write_text(body + 10, call, c->down_sent++, 0);
  put(0, SCCP, body, sizeof body);
}
/* MEASUREMENT RESULT with one neighbour, which is no better. */
static void send_report(int call) {
  PUT(calls[call].station, RSL, 0x08, 0x28, 0x01, calls[call].channel, 0x1b, 0x05, 0x19, 0x03, 0x14, 0x14, 0x00, 0x04, 0x00, 0x0a, 0x28,
      0x00, 0x0b, 0x00, 0x12, 0x06, 0x15, 0x28, 0x28, 0x00, 0x54, 0x02, 0x40, 0, 0, 0, 0, 0, 0, 0, 0, 0, 0);
}

/* ---- what stations and switch answer */

static void take_ccm(int link, const unsigned char *b) {
  int station = link > stations ? link - MOST_STATIONS : link;
  if (b[0] == 0x00) PUT(link, CCM, 0x01);
  if (b[0] == 0x04 && link) PUT(link, CCM, 0x05, 0x00, 0x07, 0x08, '0' + station, '/', '0', '/', '0', 0x00);
  if (b[0] == 0x05 && !link) PUT(link, CCM, 0x06);
  if (b[0] == 0x06 && link) PUT(link, CCM, 0x06);
}
/* Each message of OML is acknowledged, by its type and 1; the one that says where RSL is has the station go there. */
static void take_oml(int link, const unsigned char *b, size_t size) {
  unsigned char body[2048];
  size_t at = b[0] == 0x10 ? 18 : 4;
  if (size > sizeof body || at >= size) fail("OML that can't be read");
  memcpy(body, b, size);
  body[at]++;
  put(link, OML, body, size);
  if (b[at] == 0xe0) connect_link(link - MOST_STATIONS, rsl_ports[link - MOST_STATIONS]);
}
static void take_rsl(int station, const unsigned char *b, size_t size) {
  int kind = (b[0] & 0xfe) << 8 | b[1];
  heard[station]++;
  if (kind == 0x0821) {
    PUT(station, RSL, 0x08, 0x22, 0x01, b[3], 0x08, 0x00, 0x00);
  } else if (kind == 0x0c16) {
    int call = b[15]; /* the last octet of the request reference */
    if (call >= CALLS || calls[call].station != station) fail("an assignment of nobody");
    calls[call].channel = b[10];
    by_channel[station][b[10]] = call + 1;
    PUT(station, RSL, 0x02, 0x06, 0x01, b[10], 0x02, 0x00, 0x0b, 0x00, 0x0d, 0x05, 0x24, 0x71, 0x03, 0x33, 0x19, 0x81, 0x05, 0xf4, 0, 0, 0,
        call);
  } else if (kind == 0x0201 && b[9] == 0x83) {
    int call = by_channel[station][b[3]];
    if (!call) fail("a message on a channel of nobody");
    check_text(call - 1, b + 9, size - 9, 0);
  }
}
/* CR: the mobile's message ends with its number. */
static void take_request(const unsigned char *b, size_t size) {
  size_t at = 6 + b[6];
  while (at + 1 < size && b[at] != 0x0f) at += 2 + b[at + 1];
  static const unsigned char own[] = {0x05, 0x24, 0x71, 0x03, 0x33, 0x19, 0x81, 0x05, 0xf4, 0, 0, 0};
  const unsigned char *found = at < size ? memmem(b + at, size - at, own, sizeof own) : NULL;
  if (!found || found[sizeof own] >= CALLS) fail("a connection request of nobody");
  struct call *c = &calls[found[sizeof own]];
  c->far = b[1] << 16 | b[2] << 8 | b[3];
  c->is_open = 1;
  opened++;
  PUT(0, SCCP, 0x02, REF(c->far), REF((unsigned)(c - calls) | 0x800000), 0x02, 0x00);
}
static void take_sccp(const unsigned char *b, size_t size) {
  if (b[0] == 0x01) {
    take_request(b, size);
  } else if (b[0] == 0x09 && size > 13 && b[size - 4] == 0x30) { /* RESET with its cause */
    is_reset = 1;
    PUT(0, SCCP, 0x09, 0x00, 0x03, 0x05, 0x07, 0x02, 0x42, 0xfe, 0x02, 0x42, 0xfe, 0x03, 0x00, 0x01, 0x31);
  } else if (b[0] == 0x06 && b[7] == 0x01) {
    unsigned call = (b[1] << 16 | b[2] << 8 | b[3]) & 0x7fffff;
    if (call >= CALLS) fail("a message over a connection of nobody");
    check_text(call, b + 10, b[9], 1);
  }
}
static void take(int link, const unsigned char *frame, size_t size) {
  last = now();
  if (frame[2] == CCM) take_ccm(link, frame + 3);
  else if (frame[2] == OML && link > stations) take_oml(link, frame + 3, size);
  else if (frame[2] == RSL && link) take_rsl(link, frame + 3, size);
  else if (frame[2] == SCCP && !link) take_sccp(frame + 3, size);
}
/* Takes all whole frames of what a link gives. One that osmo-bsc ends at its start is begun anew. */
static void take_link(int link) {
  struct link *l = &links[link];
  ssize_t got = recv(l->fd, l->in + l->held, ROOM - l->held, MSG_DONTWAIT);
  if (got < 0 && errno == EAGAIN) return;
  if (got <= 0) {
    if (opened || !is_osmo) fail("link %d ended", link);
    close(l->fd);
    l->fd = -1;
    usleep(300000);
    if (link) connect_link(link, l->port);
    return;
  }
  l->held += got;
  size_t at = 0, size;
  for (; l->held - at >= 3 && l->held - at >= (size = l->in[at] << 8 | l->in[at + 1]) + 3; at += size + 3) take(link, l->in + at, size);
  memmove(l->in, l->in + at, l->held -= at);
}
static void accept_switch(void) {
  begin_link(0, accept(server, NULL, NULL));
  if (!is_bsc) PUT(0, CCM, 0x04, 0x01, 0x01, 0x01, 0x08, 0x01, 0x00);
}
/* Waits for what comes, at most so many milliseconds, takes it, and sends what is to be sent. */
static void turn(int most) {
  struct pollfd polled[LINKS + 1];
  for (int link = 0; link < LINKS; link++)
    polled[link] = (struct pollfd){links[link].fd > 0 ? links[link].fd : -1, POLLIN | (links[link].left ? POLLOUT : 0), 0};
  polled[LINKS] = (struct pollfd){server, POLLIN, 0};
  if (poll(polled, LINKS + 1, most) < 0) fail("poll");
  if (polled[LINKS].revents) accept_switch();
  for (int link = 0; link < LINKS; link++)
    if (polled[link].revents & ~POLLOUT) take_link(link);
  flush();
}

/* ---- phases */

static int is_ready(void) {
  for (int station = 1; station <= stations; station++)
    if (!is_bsc && !heard[station]) return 0;
  return links[0].fd > 0 && (is_bsc || is_reset) && now() > last + 1.5;
}
/* Brings all links up, and a call of each mobile. */
static void begin(int oml_port) {
  last = now();
  for (int station = 1; station <= stations; station++) {
    if (is_bsc || is_osmo) connect_link(station, rsl_ports[station]);
    else connect_link(MOST_STATIONS + station, oml_port);
  }
  double end = now() + PATIENCE;
  while (!is_ready()) {
    if (now() > end) fail("the links don't come up, reset %d", is_reset);
    turn(50);
  }
  for (int call = 0; call < CALLS; call++) {
    calls[call].station = call % stations + 1;
    PUT(calls[call].station, RSL, 0x0c, 0x13, 0x01, 0x88, 0x13, 0x00, 0x00, call, 0x11, 0x00);
  }
  flush();
  while (opened < CALLS) {
    if (now() > end) fail("%d calls of %d are open", opened, CALLS);
    turn(1000);
  }
  for (double rest = now() + 0.5; now() < rest;) turn(50);
}
/* Has so many messages under way on each call, in these directions, for so long. Reports go before each message of a mobile. */
static void load(const char *phase, int what, double seconds) {
  unsigned long count = 0, reports = 0;
  for (int call = 0; call < CALLS; call++) count -= calls[call].up_got + calls[call].down_got;
  begin_measuring();
  double begin = now(), own = clock() / (double)CLOCKS_PER_SEC;
  for (int is_over = 0; !is_over;) {
    is_over = now() > begin + seconds;
    for (int call = 0; call < CALLS; call++) {
      struct call *c = &calls[call];
      while (!is_over && what & UP && c->up_sent - c->up_got < WINDOW) {
        if (what & REPORTS) send_report(call), reports++;
        send_up(call);
      }
      while (!is_over && what & DOWN && c->down_sent - c->down_got < WINDOW) send_down(call);
    }
    flush();
    for (int call = 0; is_over && call < CALLS; call++)
      is_over = calls[call].up_sent == calls[call].up_got && calls[call].down_sent == calls[call].down_got;
    if (now() > begin + seconds + PATIENCE) fail("%s: messages don't come", phase);
    turn(20);
  }
  double took = now() - begin;
  for (int call = 0; call < CALLS; call++) count += calls[call].up_got + calls[call].down_got;
  count += reports;
  printf("%s per_second %.0f\n%s generator_seconds %.4f\n", phase, count / took, phase,
         (clock() / (double)CLOCKS_PER_SEC - own) / count * 1e5);
  print_used(phase, count);
}

static int by_size(const void *a, const void *b) {
  double x = *(const double *)a, y = *(const double *)b;
  return (x > y) - (x < y);
}
/* How long a message takes through a relay that is idle, one call's after the other's. */
static void latency(const char *phase, int is_up, int count) {
  static double took[MOST_MESSAGES];
  begin_measuring();
  for (int place = 0; place < count; place++) {
    int call = place % CALLS;
    struct call *c = &calls[call];
    usleep(1000);
    if (is_up) send_up(call); else send_down(call);
    double begin = now();
    flush();
    while (c->up_got != c->up_sent || c->down_got != c->down_sent) {
      if (now() > begin + PATIENCE) fail("%s: a message doesn't come", phase);
      turn(1000);
    }
    took[place] = now() - begin;
  }
  qsort(took, count, sizeof *took, by_size);
  printf("%s p50_us %.1f\n%s p99_us %.1f\n", phase, took[count / 2] * 1e6, phase, took[count / 100 * 99] * 1e6);
  print_used(phase, count);
}

int main(int count, char **words) {
  if (count < 9) return 2;
  is_bsc = !strcmp(words[1], "bsc");
  is_osmo = !strcmp(words[1], "osmo-bsc");
  stations = atoi(words[2]);
  host = words[3];
  char *port = strtok(words[6], ",");
  double seconds = atof(words[7]);
  int messages = atoi(words[8]);
  if (stations < 1 || stations > MOST_STATIONS || messages < 100 || messages > MOST_MESSAGES) return 2;
  for (int station = 1; station <= stations && port; station++, port = strtok(NULL, ",")) rsl_ports[station] = atoi(port);
  for (int word = 9; word < count && names < MOST_NAMES; word++, names++) {
    processes[names].name = strtok(words[word], "=");
    processes[names].pid = atoi(strtok(NULL, "="));
  }
  setvbuf(stdout, NULL, _IOLBF, 0);
  server = atoi(words[4]);
  begin(atoi(words[5]));
  latency("idle_up", 1, messages);
  latency("idle_down", 0, messages);
  load("up", UP, seconds);
  load("down", DOWN, seconds);
  load("both", UP | DOWN, seconds);
  load("reports", UP | REPORTS, seconds);
  return 0;
}
