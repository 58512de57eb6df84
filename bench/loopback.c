// SPDX-License-Identifier: MIT OR Apache-2.0
/* Plays the switch and the stations of a `bsc run` over loopback, and measures it. Usage: run PROGRAM SETTINGS, where SETTINGS
   names a file that is written; with CELLS MOBILES ROUNDS behind them it measures that many rounds of so many calls alone, and
   with COUNT the latency of so many messages alone. Counts and time are bounded: a measurement ends after 60 seconds at the latest. */
#define _GNU_SOURCE
#include <arpa/inet.h>
#include <dirent.h>
#include <errno.h>
#include <fcntl.h>
#include <linux/futex.h>
#include <netinet/tcp.h>
#include <poll.h>
#include <pthread.h>
#include <signal.h>
#include <stdatomic.h>
#include <stdio.h>
#include <stdlib.h>
#include <string.h>
#include <sys/resource.h>
#include <sys/syscall.h>
#include <sys/wait.h>
#include <time.h>
#include <unistd.h>

enum { MOST_CELLS = 32, CELLS = 8, CHANNELS = 64, ROOM = 1 << 18, PATIENCE = 60, RSL = 0x00, SCCP = 0xfd };
enum { UP = 24, UPPED = 25, DOWN = 25, DOWNED = 24 }; /* octets of the frames of a message, as sent and as relayed */

/* A link: what was read of it and not handled, and what is to be sent. */
struct link {
  int fd;
  unsigned char in[ROOM], out[ROOM];
  size_t held, left;
};
static struct link links[MOST_CELLS + 1]; /* the switch's first */
static int cells;
static pid_t relay;
static unsigned numbers[MOST_CELLS + 1]; /* of a cell's one call */
static int channels[MOST_CELLS + 1];

static void fail(const char *what) {
  fprintf(stderr, "bench/loopback: %s: %s\n", what, strerror(errno));
  if (relay) kill(relay, SIGKILL);
  exit(1);
}
static double now(void) {
  struct timespec t;
  clock_gettime(CLOCK_MONOTONIC, &t);
  return t.tv_sec + t.tv_nsec / 1e9;
}
static double load(void) {
  double one = 0;
  getloadavg(&one, 1);
  return one;
}
/* The relay's processor seconds, of all its threads. */
static double used(void) {
  char name[300];
  double sum = 0;
  snprintf(name, sizeof name, "/proc/%d/task", relay);
  DIR *folder = opendir(name);
  for (struct dirent *one; folder && (one = readdir(folder));) {
    unsigned long long ns = 0;
    snprintf(name, sizeof name, "/proc/%d/task/%s/schedstat", relay, one->d_name);
    FILE *file = one->d_name[0] == '.' ? NULL : fopen(name, "r");
    if (!file) continue;
    if (fscanf(file, "%llu", &ns) == 1) sum += ns / 1e9;
    fclose(file);
  }
  if (folder) closedir(folder);
  return sum;
}
/* Those of the call worker, which has the thread that the program began with. */
static double called(void) {
  char name[64];
  unsigned long long ns = 0;
  snprintf(name, sizeof name, "/proc/%d/task/%d/schedstat", relay, relay);
  FILE *file = fopen(name, "r");
  if (file && fscanf(file, "%llu", &ns) != 1) ns = 0;
  if (file) fclose(file);
  return ns / 1e9;
}
/* A line of the relay's status in KiB: VmRSS, or VmHWM, its peak. */
static long memory(const char *what) {
  char name[64], line[200];
  long kib = 0;
  snprintf(name, sizeof name, "/proc/%d/status", relay);
  FILE *file = fopen(name, "r");
  while (file && fgets(line, sizeof line, file))
    if (!strncmp(line, what, strlen(what))) kib = atol(line + strlen(what) + 1);
  if (file) fclose(file);
  return kib;
}

static int listening(int *port) {
  struct sockaddr_in at = {.sin_family = AF_INET, .sin_addr.s_addr = htonl(INADDR_LOOPBACK)};
  socklen_t size = sizeof at;
  int fd = socket(AF_INET, SOCK_STREAM | SOCK_CLOEXEC, 0);
  if (bind(fd, (void *)&at, size) || listen(fd, 1) || getsockname(fd, (void *)&at, &size)) fail("listen");
  *port = ntohs(at.sin_port);
  return fd;
}
static int connected(int port) {
  struct sockaddr_in at = {.sin_family = AF_INET, .sin_port = htons(port), .sin_addr.s_addr = htonl(INADDR_LOOPBACK)};
  for (int tries = 0; tries < 200; tries++, usleep(50000)) {
    int fd = socket(AF_INET, SOCK_STREAM | SOCK_CLOEXEC, 0);
    if (!connect(fd, (void *)&at, sizeof at)) return fd;
    close(fd);
  }
  fail("connect");
  return -1;
}

/* What is measured beside the relay: frames that are sent on as they came, those of the switch to the station that they name. */
static int ends[MOST_CELLS + 1]; /* the forwarder's ends of the links */

static void send_on(int from, const unsigned char *octets, size_t size) {
  int to = from ? 0 : octets[6];
  if (send(ends[to], octets, size, MSG_NOSIGNAL) != (ssize_t)size) _exit(0);
}
/* One thread, which waits for all links, reads and writes. */
static void forward_alone(void) {
  unsigned char octets[4096];
  for (;;) {
    struct pollfd polled[MOST_CELLS + 1];
    for (int link = 0; link <= cells; link++) polled[link] = (struct pollfd){ends[link], POLLIN, 0};
    poll(polled, cells + 1, -1);
    for (int link = 0; link <= cells; link++) {
      if (!polled[link].revents) continue;
      ssize_t got = recv(ends[link], octets, sizeof octets, 0);
      if (got <= 0) _exit(0);
      send_on(link, octets, got);
    }
  }
}

/* Threads as the relay has them: of each link one that reads and one that writes, and one between them all. What one puts waits
   in a queue of its link, and the one that takes sleeps on a bell. */
enum { QUIET, RUNG, ASLEEP };
struct queue {
  _Atomic size_t put, taken; /* how often; one message waits at most */
  int from;
  size_t size;
  unsigned char octets[4096];
};
static struct queue inboxes[MOST_CELLS + 1], outboxes[MOST_CELLS + 1];
static _Atomic int desk, bells[MOST_CELLS + 1];

static void ring(_Atomic int *bell) {
  if (atomic_exchange(bell, RUNG) == ASLEEP) syscall(SYS_futex, bell, FUTEX_WAKE_PRIVATE, 1, NULL, NULL, 0);
}
static void await(_Atomic int *bell) {
  int quiet = QUIET;
  if (atomic_compare_exchange_strong(bell, &quiet, ASLEEP)) syscall(SYS_futex, bell, FUTEX_WAIT_PRIVATE, ASLEEP, NULL, NULL, 0);
  atomic_store(bell, QUIET);
}
static int waits(struct queue *q) { return atomic_load(&q->put) != atomic_load(&q->taken); }

static void *read_link(void *of) {
  struct queue *q = of;
  unsigned char octets[sizeof q->octets];
  for (ssize_t got; (got = recv(ends[q->from], octets, sizeof octets, 0)) > 0;) {
    while (waits(q)) sched_yield();
    memcpy(q->octets, octets, q->size = got);
    atomic_fetch_add(&q->put, 1);
    ring(&desk);
  }
  _exit(0);
}
static void *write_link(void *of) {
  struct queue *q = of;
  for (;;) {
    while (!waits(q)) await(&bells[q - outboxes]);
    send_on(q->from, q->octets, q->size);
    atomic_fetch_add(&q->taken, 1);
  }
  return NULL;
}
static void forward_threaded(void) {
  pthread_t thread;
  for (int link = 0; link <= cells; link++) {
    inboxes[link].from = link;
    if (pthread_create(&thread, NULL, read_link, &inboxes[link])) _exit(1);
    if (pthread_create(&thread, NULL, write_link, &outboxes[link])) _exit(1);
  }
  for (;;) {
    int found = 0;
    for (int link = 0; link <= cells; link++) {
      struct queue *in = &inboxes[link];
      if (!waits(in)) continue;
      int to = link ? 0 : in->octets[6];
      struct queue *out = &outboxes[to];
      while (waits(out)) sched_yield();
      out->from = link;
      out->size = in->size;
      memcpy(out->octets, in->octets, in->size);
      atomic_fetch_add(&out->put, 1);
      ring(&bells[to]);
      atomic_fetch_add(&in->taken, 1);
      found = 1;
    }
    if (!found) await(&desk);
  }
}
static const char *const forms[] = {"bsc", "forwarder of one thread", "forwarder of threads"};

/* A forwarder at these ports. */
static void forward(int form, int port, const int *ports) {
  int servers[MOST_CELLS + 1];
  ends[0] = connected(port);
  for (int cell = 1; cell <= cells; cell++) {
    struct sockaddr_in at = {.sin_family = AF_INET, .sin_port = htons(ports[cell]), .sin_addr.s_addr = htonl(INADDR_LOOPBACK)};
    servers[cell] = socket(AF_INET, SOCK_STREAM, 0);
    setsockopt(servers[cell], SOL_SOCKET, SO_REUSEADDR, &(int){1}, sizeof(int));
    if (bind(servers[cell], (void *)&at, sizeof at) || listen(servers[cell], 1)) fail("listen");
  }
  for (int cell = 1; cell <= cells; cell++) ends[cell] = accept(servers[cell], NULL, NULL);
  for (int link = 0; link <= cells; link++) setsockopt(ends[link], IPPROTO_TCP, TCP_NODELAY, &(int){1}, sizeof(int));
  if (form == 1) forward_alone(); else forward_threaded();
}

/* Starts the relay, or a forwarder, with so many cells, and opens its links. */
static void start_form(int form, const char *program, const char *settings, int count) {
  int port, ports[MOST_CELLS + 1], closed[MOST_CELLS + 1];
  cells = count;
  int server = listening(&port);
  for (int cell = 1; cell <= cells; cell++) closed[cell] = listening(&ports[cell]);
  FILE *file = fopen(settings, "w");
  if (!file) fail(settings);
  fprintf(file, "[network]\nmcc = \"001\"\nmnc = \"01\"\n[switch]\naddress = \"127.0.0.1:%d\"\n", port);
  for (int cell = 1; cell <= cells; cell++) {
    close(closed[cell]);
    fprintf(file, "[[cell]]\nlisten = \"127.0.0.1:%d\"\nlac = 1\nci = %d\narfcn = %d\nbsic = 9\nchannels = [", ports[cell], cell, cell);
    for (int channel = 0; channel < CHANNELS; channel++) fprintf(file, "%s%d", channel ? ", " : "", 0x40 + channel);
    fprintf(file, "]\n");
  }
  fclose(file);
  relay = fork();
  if (!relay) {
    if (form) forward(form, port, ports);
    setenv("BSC_LOG", "warn", 1);
    /* VALGRIND: the words before the program */
    char command[2000];
    snprintf(command, sizeof command, "exec %s %s run --config %s", getenv("VALGRIND") ? getenv("VALGRIND") : "", program, settings);
    execl("/bin/sh", "sh", "-c", command, (char *)NULL);
    _exit(127);
  }
  links[0].fd = accept4(server, NULL, NULL, SOCK_CLOEXEC);
  close(server);
  for (int cell = 1; cell <= cells; cell++) links[cell].fd = connected(ports[cell]);
  for (int link = 0; link <= cells; link++) {
    setsockopt(links[link].fd, IPPROTO_TCP, TCP_NODELAY, &(int){1}, sizeof(int));
    links[link].held = links[link].left = 0;
  }
  usleep(300000);
}
static void start(const char *program, const char *settings, int count) { start_form(0, program, settings, count); }
static void stop(void) {
  int status;
  /* what the relay still sends is taken, so that no link is reset */
  static unsigned char room[ROOM];
  for (int link = 0; link <= cells; link++) shutdown(links[link].fd, SHUT_WR);
  for (int link = 0; link <= cells; link++) {
    while (recv(links[link].fd, room, ROOM, 0) > 0) continue;
    close(links[link].fd);
  }
  waitpid(relay, &status, 0);
  if (status) fprintf(stderr, "bench/loopback: the relay ended with status %d\n", WEXITSTATUS(status));
  relay = 0;
}

static void put(int link, int stream, const unsigned char *body, size_t size) {
  struct link *l = &links[link];
  if (l->left + size + 3 > ROOM) fail("too much to send");
  unsigned char head[3] = {size >> 8, size, stream};
  memcpy(l->out + l->left, head, 3);
  memcpy(l->out + l->left + 3, body, size);
  l->left += size + 3;
}
#define PUT(link, stream, ...) put(link, stream, (unsigned char[]){__VA_ARGS__}, sizeof((unsigned char[]){__VA_ARGS__}))
#define REF(n) (n) >> 16 & 255, (n) >> 8 & 255, (n) & 255

static void flush(void) {
  for (int link = 0; link <= cells; link++) {
    struct link *l = &links[link];
    for (size_t at = 0; at < l->left;) {
      ssize_t sent = send(l->fd, l->out + at, l->left - at, MSG_NOSIGNAL);
      if (sent <= 0) fail("send");
      at += sent;
    }
    l->left = 0;
  }
}

static int accesses, ended, released; /* what was seen of a burst */

/* What stations and switch answer: each access goes on to its confirmed connection, each clearing to its end. */
static void answer(int link, const unsigned char *b, size_t size) {
  if (link == 0 && b[0] == 0x01) {
    unsigned n = b[1] << 16 | b[2] << 8 | b[3];
    numbers[b[24] <= MOST_CELLS ? b[24] : 0] = n;
    PUT(0, SCCP, 0x02, REF(n), REF(n | 0x400000), 0x02, 0x00);
    accesses++;
  } else if (link == 0 && b[0] == 0x06 && size > 9 && b[9] == 0x21) {
    unsigned far = b[1] << 16 | b[2] << 8 | b[3];
    PUT(0, SCCP, 0x04, REF(far & 0x3fffff), REF(far), 0x00, 0x00);
  } else if (link == 0 && b[0] == 0x05) {
    ended++;
  } else if (link && b[0] == 0x08 && b[1] == 0x21) {
    PUT(link, RSL, 0x08, 0x22, 0x01, b[3], 0x08, 0x00, 0x00);
  } else if (link && b[0] == 0x0c && b[1] == 0x16) {
    channels[link] = b[10];
    PUT(link, RSL, 0x02, 0x06, 0x01, b[10], 0x02, 0x00, 0x0b, 0x00, 0x03, 0x05, 0x24, 0x71);
  } else if (link && b[0] == 0x08 && b[1] == 0x2e) {
    PUT(link, RSL, 0x08, 0x33, 0x01, b[3]);
    released++;
  }
}
/* Takes what comes on all links, and answers. */
static void turn(void) {
  struct pollfd polled[MOST_CELLS + 1];
  for (int link = 0; link <= cells; link++) polled[link] = (struct pollfd){links[link].fd, POLLIN, 0};
  if (poll(polled, cells + 1, 5000) <= 0) fail("no answer for five seconds");
  for (int link = 0; link <= cells; link++) {
    struct link *l = &links[link];
    if (!polled[link].revents) continue;
    ssize_t got = recv(l->fd, l->in + l->held, ROOM - l->held, MSG_DONTWAIT);
    if (got <= 0) fail("a link ended");
    l->held += got;
    size_t at = 0, size;
    for (; l->held - at >= 3 && l->held - at >= (size = l->in[at] << 8 | l->in[at + 1]) + 3; at += size + 3)
      answer(link, l->in + at + 3, size);
    memmove(l->in, l->in + at, l->held -= at);
  }
  flush();
}
static void access_cells(int mobiles) {
  accesses = 0;
  for (int cell = 1; cell <= cells; cell++)
    for (int one = 0; one < mobiles; one++) PUT(cell, RSL, 0x0c, 0x13, 0x01, 0x88, 0x13, one, 0x01, 0x02, 0x11, 0x05);
  flush();
  while (accesses < cells * mobiles) turn();
}
/* A call in each cell. Links are independent: what a mobile sends mustn't overtake the switch's confirmation, behind which it
   would be held, and then be too much. */
static void begin_calls(void) {
  access_cells(1);
  usleep(200000);
}

static const unsigned char kinds[4] = {0x45, 0x85, 0xc5, 0x05}; /* N(SD) 1, 2, 3, 0 */
static void put_up(int cell, int place) {
  PUT(cell, RSL, 0x03, 0x02, 0x01, channels[cell], 0x02, 0x00, 0x0b, 0x00, 0x0c, 0x03, kinds[place & 3], 1, 2, 3, 4, 5, 6, 7, 8, 9, 10);
}
static void put_down(int cell) {
  PUT(0, SCCP, 0x06, REF(numbers[cell]), 0x00, 0x01, 0x0f, 0x01, 0x00, 0x0c, 0x83, 0x02, 1, 2, 3, 4, 5, 6, 7, 8, 9, 10);
}

/* Messages a second both ways, with a call in each cell. */
static void throughput(int messages) {
  enum { BLOCK = 2048 };
  size_t size[MOST_CELLS + 1], sent[MOST_CELLS + 1] = {0}, got[MOST_CELLS + 1] = {0}, wanted[MOST_CELLS + 1], all[MOST_CELLS + 1];
  begin_calls();
  for (int cell = 1; cell <= cells; cell++)
    for (int place = 0; place < BLOCK; place++) put_up(cell, place);
  for (int place = 0; place < BLOCK; place++) put_down(place % cells + 1);
  for (int link = 0; link <= cells; link++) {
    size[link] = links[link].left;
    links[link].left = 0;
    all[link] = (size_t)messages * (link ? UP : DOWN * cells);
    wanted[link] = (size_t)messages * (link ? DOWNED : UPPED * cells);
  }
  static unsigned char room[ROOM];
  double begin = now(), cpu = used(), mine = clock() / (double)CLOCKS_PER_SEC;
  int open = cells + 1;
  while (open) {
    struct pollfd polled[MOST_CELLS + 1];
    for (int link = 0; link <= cells; link++)
      polled[link] = (struct pollfd){links[link].fd, (got[link] < wanted[link] ? POLLIN : 0) | (sent[link] < all[link] ? POLLOUT : 0), 0};
    if (poll(polled, cells + 1, 5000) <= 0 || now() - begin > PATIENCE) fail("messages don't come");
    for (int link = 0; link <= cells; link++) {
      if (polled[link].revents & POLLIN) {
        ssize_t more = recv(links[link].fd, room, ROOM, MSG_DONTWAIT);
        if (more <= 0) fail("a link ended");
        got[link] += more;
        if (got[link] == wanted[link]) open--;
      }
      if (polled[link].revents & POLLOUT) {
        size_t at = sent[link] % size[link], left = size[link] - at;
        if (left > all[link] - sent[link]) left = all[link] - sent[link];
        ssize_t more = send(links[link].fd, links[link].out + at, left, MSG_DONTWAIT | MSG_NOSIGNAL);
        if (more > 0) sent[link] += more;
      }
    }
  }
  double seconds = now() - begin, count = 2.0 * messages * cells;
  cpu = used() - cpu;
  printf("%d stations: %.0f messages both ways in %.2f s, %.0f a second; %.3f processor seconds of the relay per 100,000 "
         "(the generator's %.3f); resident %ld KiB, peak %ld KiB; load %.1f\n",
         cells, count, seconds, count / seconds, cpu / count * 1e5, (clock() / (double)CLOCKS_PER_SEC - mine) / count * 1e5,
         memory("VmRSS:"), memory("VmHWM:"), load());
}

static int by_size(const void *a, const void *b) {
  double x = *(const double *)a, y = *(const double *)b;
  return (x > y) - (x < y);
}
/* How long a message takes from a station to the switch, or back, through a relay that sleeps; the stations in turn. */
static void latency(int form, int count) {
  static double took[100000];
  static unsigned char room[ROOM];
  if (form)
    for (int cell = 1; cell <= cells; cell++) numbers[cell] = cell;
  else
    begin_calls();
  for (int way = 0; way < 2; way++) {
    size_t size = way ? (form ? DOWN : DOWNED) : (form ? UP : UPPED);
    double cpu = used();
    for (int place = 0; place < count; place++) {
      int cell = place % cells + 1, to = way ? cell : 0;
      usleep(1000);
      if (way) put_down(cell); else put_up(cell, place / cells);
      double begin = now();
      flush();
      for (size_t got = 0; got < size;) {
        ssize_t more = recv(links[to].fd, room, size - got, 0);
        if (more <= 0) fail("a link ended");
        got += more;
      }
      took[place] = now() - begin;
    }
    cpu = used() - cpu;
    qsort(took, count, sizeof *took, by_size);
    printf("latency %s, %d stations, %s: p50 %.1f us, p99 %.1f us, least %.1f us; %.1f us of processor time each; load %.1f\n", way ? "down" : "up",
           cells, forms[form], took[count / 2] * 1e6, took[count / 100 * 99] * 1e6, took[0] * 1e6, cpu / count * 1e6, load());
  }
}
static void idle(int seconds) {
  double begin = used();
  sleep(seconds);
  double took = used() - begin;
  printf("idle with %d links: %.4f processor seconds in %d s, %.3f %%; resident %ld KiB; load %.1f\n", cells + 1, took, seconds,
         took / seconds * 100, memory("VmRSS:"), load());
}
/* Set-ups a second, from access to the switch's CC, in bursts of all channels. */
static void setups(int bursts) {
  double took = 0, most = 0, cpu = 0, lives = called();
  int all = cells * CHANNELS;
  for (int burst = 0; burst < bursts; burst++) {
    double begin = now(), before = used();
    access_cells(CHANNELS);
    double seconds = now() - begin;
    took += seconds;
    cpu += used() - before;
    if (seconds > most) most = seconds;
    ended = released = 0;
    for (int one = 0; one < all; one++) {
      unsigned n = burst * all + one + 1;
      PUT(0, SCCP, 0x06, REF(n), 0x00, 0x01, 0x06, 0x00, 0x04, 0x20, 0x04, 0x01, 0x09);
    }
    flush();
    while (ended < all || released < all) turn();
    usleep(20000);
  }
  printf("set-ups: %d in bursts of %d, %.0f a second, in the slowest burst %.0f; %.3f processor seconds of the relay per "
         "100,000; %.0f lives (access to clear) a processor second of the call worker; resident %ld KiB, peak %ld KiB; load %.1f\n",
         bursts * all, all, bursts * all / took, all / most, cpu / (bursts * all) * 1e5, bursts * all / (called() - lives), memory("VmRSS:"), memory("VmHWM:"), load());
}

/* Rounds of a message each way and a report, of so many calls in each cell, each awaited before the next. */
static void rounds(int mobiles, int count) {
  static unsigned char room[ROOM];
  access_cells(mobiles);
  usleep(200000);
  double cpu = called();
  for (int round = 0; round < count; round++) {
    for (int cell = 1; cell <= cells; cell++)
      for (int one = 0; one < mobiles; one++) {
        channels[cell] = 0x40 + one;
        put_up(cell, round);
        PUT(cell, RSL, 0x08, 0x28, 0x01, channels[cell], 0x1b, 0x05, 0x19, 0x03, 0x14, 0x14, 0x00, 0x04, 0x00, 0x0b, 0x00, 0x12, 0x06,
            0x15, 0x14, 0x14, 0x00, 0x54, 0x02, 0x40, 0, 0, 0, 0, 0, 0, 0, 0, 0, 0);
        numbers[cell] = (cell - 1) * mobiles + one + 1;
        put_down(cell);
      }
    flush();
    for (int link = 0; link <= cells; link++)
      for (size_t left = (size_t)mobiles * (link ? DOWNED : UPPED * cells); left;) {
        ssize_t more = recv(links[link].fd, room, left < ROOM ? left : ROOM, 0);
        if (more <= 0) fail("a link ended");
        left -= more;
      }
  }
  cpu = called() - cpu;
  printf("%d connections, %d rounds of 3 items each: %.0f items a processor second of the call worker; load %.1f\n",
         cells * mobiles, count, 3.0 * cells * mobiles * count / cpu, load());
}

int main(int count, char **words) {
  if (count < 3) return 2;
  setvbuf(stdout, NULL, _IOLBF, 0);
  if (count == 4) { /* PROGRAM SETTINGS COUNT */
    for (int which = 0; which < 2; which++)
      for (int form = 0; form < 3; form++) {
        start_form(form, words[1], words[2], which ? CELLS : 1);
        latency(form, atoi(words[3]));
        stop();
      }
    return 0;
  }
  if (count == 6) { /* PROGRAM SETTINGS CELLS MOBILES ROUNDS */
    start(words[1], words[2], atoi(words[3]));
    rounds(atoi(words[4]), atoi(words[5]));
    stop();
    return 0;
  }
  int times[2] = {1, CELLS};
  for (int which = 0; which < 2; which++) {
    start(words[1], words[2], times[which]);
    throughput(2000000 / times[which]);
    stop();
  }
  for (int which = 0; which < 2; which++)
    for (int form = 0; form < 3; form++) {
      start_form(form, words[1], words[2], times[which]);
      latency(form, 4000);
      stop();
    }
  start(words[1], words[2], CELLS);
  setups(40);
  stop();
  start(words[1], words[2], CELLS);
  idle(20);
  stop();
  return 0;
}
