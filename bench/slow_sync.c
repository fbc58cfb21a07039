/* Loaded before the C library: each fdatasync and fsync takes SYNC_US microseconds longer, on the thread that calls it. */
#define _GNU_SOURCE
#include <dlfcn.h>
#include <stdlib.h>
#include <time.h>

static int slowly(const char *name, int file) {
  int (*call)(int) = (int (*)(int))dlsym(RTLD_NEXT, name);
  const char *said = getenv("SYNC_US");
  long us = said ? atol(said) : 0;
  struct timespec rest = {us / 1000000, us % 1000000 * 1000};
  int result = call(file);
  nanosleep(&rest, NULL);
  return result;
}

int fdatasync(int file) { return slowly("fdatasync", file); }

int fsync(int file) { return slowly("fsync", file); }
