// SPDX-License-Identifier: MIT OR Apache-2.0
/* Preloaded before a program: refuses the call of malloc, realloc or their kin whose number, from 1, is REFUSE, and ends the
   program at once, with status 99, at the one whose number is STOP. The write to standard output whose number, from 1, is FAIL
   fails, and those behind it work again. As the program ends it writes how many blocks were not given
   back to the file LIVE, if one is named, and how many calls there were to the file CALLS. */
#define _GNU_SOURCE
#include <dlfcn.h>
#include <errno.h>
#include <stddef.h>
#include <stdio.h>
#include <stdlib.h>
#include <unistd.h>

static long calls;
static long live;
static long refused;
static long stopped;
static int has_ended; /* what is written of the program at its end wants memory too, and isn't refused it */

static long number_in(const char *variable) {
  const char *text = getenv(variable);
  return text ? atol(text) : -1;
}
static int refuses(void) {
  if (has_ended) return 0;
  if (refused == 0) {
    refused = number_in("REFUSE");
    stopped = number_in("STOP");
  }
  long call = __atomic_add_fetch(&calls, 1, __ATOMIC_SEQ_CST);
  if (call == stopped) _exit(99);
  if (call != refused) return 0;
  errno = ENOMEM;
  return 1;
}
static void *given(void *block) {
  if (block) __atomic_add_fetch(&live, 1, __ATOMIC_SEQ_CST);
  return block;
}
void *malloc(size_t size) {
  static void *(*real)(size_t);
  if (!real) real = dlsym(RTLD_NEXT, "malloc");
  return refuses() ? NULL : given(real(size));
}
void *realloc(void *old, size_t size) {
  static void *(*real)(void *, size_t);
  if (!real) real = dlsym(RTLD_NEXT, "realloc");
  if (refuses()) return NULL;
  void *block = real(old, size);
  return old ? block : given(block);
}
void *aligned_alloc(size_t align, size_t size) {
  static void *(*real)(size_t, size_t);
  if (!real) real = dlsym(RTLD_NEXT, "aligned_alloc");
  return refuses() ? NULL : given(real(align, size));
}
int posix_memalign(void **at, size_t align, size_t size) {
  static int (*real)(void **, size_t, size_t);
  if (!real) real = dlsym(RTLD_NEXT, "posix_memalign");
  if (refuses()) return ENOMEM;
  int failed = real(at, align, size);
  if (!failed) given(*at);
  return failed;
}
void free(void *block) {
  static void (*real)(void *);
  if (!real) real = dlsym(RTLD_NEXT, "free");
  if (block) __atomic_sub_fetch(&live, 1, __ATOMIC_SEQ_CST);
  real(block);
}
static void tell(const char *variable, long count) {
  const char *name = getenv(variable);
  FILE *file = name ? fopen(name, "w") : NULL;
  if (file) {
    fprintf(file, "%ld\n", count);
    fclose(file);
  }
}
ssize_t write(int to, const void *octets, size_t size) {
  static ssize_t (*real)(int, const void *, size_t);
  static long writes;
  if (!real) real = dlsym(RTLD_NEXT, "write");
  if (to == STDOUT_FILENO && ++writes == number_in("FAIL")) {
    errno = EIO;
    return -1;
  }
  return real(to, octets, size);
}
/* A program with threads ends by `_exit`; one without returns from `main`, and then the C library runs this and calls an
   `_exit` of its own. */
__attribute__((destructor)) static void tell_all(void) {
  long left = live;
  long all = calls;
  has_ended = 1;
  tell("LIVE", left);
  tell("CALLS", all);
}
void _exit(int status) {
  static void (*real)(int) __attribute__((noreturn));
  tell_all();
  real = dlsym(RTLD_NEXT, "_exit");
  real(status);
}
