// SPDX-License-Identifier: MIT OR Apache-2.0
// Preloaded: a write to a regular file with FULL octets or more waits until the file that WRITES_GO_ON names is there, as on a device
// that doesn't answer.
#define _GNU_SOURCE
#include <stdlib.h>
#include <sys/stat.h>
#include <sys/syscall.h>
#include <unistd.h>

enum { FULL = 100000 };

ssize_t write(int file, const void *octets, size_t count) {
  struct stat status;
  const char *name = getenv("WRITES_GO_ON");
  if (name && fstat(file, &status) == 0 && S_ISREG(status.st_mode) && status.st_size >= FULL)
    while (access(name, F_OK) != 0) usleep(10000);
  return syscall(SYS_write, file, octets, count);
}
