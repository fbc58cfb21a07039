/* The work of a target's clients by plain system calls, timed inside:
     clients FILE read|write SECTORS REQUESTS THREADS
   makes so many requests on each of so many threads, each with a descriptor and an equal part of the file's blocks of its own,
     clients hot FILE SECTORS MILLISECONDS THREADS
   has all threads ask for the same sixteen blocks so long, the first of which writes and the others read; it prints how often these were answered and the least
   of one of them,
     clients both ONE OTHER SECTORS REQUESTS
   makes so many requests, each a write to one file and then to the same place of the other,
     clients copy FROM TO
   copies as much of one file to the other as both have, a block at a time, each by one pread and one pwrite between two rounds of a lock.
   Prints the nanoseconds of all. */
#include <fcntl.h>
#include <pthread.h>
#include <stdio.h>
#include <stdlib.h>
#include <string.h>
#include <time.h>
#include <unistd.h>

enum { SECTOR = 512, BLOCK = 64 * SECTOR, MOST = 2048 * SECTOR, MOST_THREADS = 64, HOT = 16, BETWEEN_LOOKS = 16 };

static const char *path;
static int writes;
static size_t size;
static long requests, share, step;
static long long until;
static long answered[MOST_THREADS];

static void fail(const char *why) {
  fprintf(stderr, "clients: %s\n", why);
  exit(1);
}

static int opened(const char *name) {
  int file = open(name, O_RDWR);
  if (file < 0) fail("a file cannot be opened");
  return file;
}

static long blocks_of(int file) { return lseek(file, 0, SEEK_END) / BLOCK; }

static long long now(void) {
  struct timespec at;
  clock_gettime(CLOCK_MONOTONIC, &at);
  return at.tv_sec * 1000000000LL + at.tv_nsec;
}

static void *serve(void *which) {
  static _Thread_local char buffer[MOST];
  int file = opened(path);
  long first = (long)which * share;
  memset(buffer, 0x5a, sizeof buffer);
  for (long number = 0; number < requests; number++) {
    off_t where = (first + number % share) * step;
    ssize_t moved = writes ? pwrite(file, buffer, size, where) : pread(file, buffer, size, where);
    if (moved != (ssize_t)size) fail("a short call");
  }
  close(file);
  return NULL;
}

static void *serve_hot(void *which) {
  static _Thread_local char buffer[BLOCK];
  int file = opened(path);
  long number;
  memset(buffer, 0x5a, sizeof buffer);
  for (number = 0; number % BETWEEN_LOOKS || now() < until; number++) {
    off_t where = ((long)which + number) % HOT * BLOCK;
    ssize_t moved = which ? pread(file, buffer, size, where) : pwrite(file, buffer, size, where);
    if (moved != (ssize_t)size) fail("a short call");
  }
  answered[(long)which] = number;
  close(file);
  return NULL;
}

static void run_hot(long many) {
  pthread_t threads[MOST_THREADS];
  long all = 0, least = 0;
  for (long each = 0; each < many; each++)
    if (pthread_create(&threads[each], NULL, serve_hot, (void *)each)) fail("no thread");
  for (long each = 0; each < many; each++) pthread_join(threads[each], NULL);
  for (long each = 1; each < many; each++) {
    all += answered[each];
    if (each == 1 || answered[each] < least) least = answered[each];
  }
  printf("%ld %ld\n", all, least);
}

static long long copy(const char *from, const char *to) {
  static char buffer[BLOCK];
  pthread_mutex_t lock = PTHREAD_MUTEX_INITIALIZER;
  int source = opened(from), target = opened(to);
  long blocks = blocks_of(source) < blocks_of(target) ? blocks_of(source) : blocks_of(target);
  long long start = now();
  for (long block = 0; block < blocks; block++) {
    pthread_mutex_lock(&lock);
    pthread_mutex_unlock(&lock);
    if (pread(source, buffer, BLOCK, (off_t)block * BLOCK) != BLOCK) fail("a short read");
    if (pwrite(target, buffer, BLOCK, (off_t)block * BLOCK) != BLOCK) fail("a short write");
    pthread_mutex_lock(&lock);
    pthread_mutex_unlock(&lock);
  }
  return now() - start;
}

static long long write_both(const char *one, const char *other) {
  static char buffer[BLOCK];
  int first = opened(one), second = opened(other);
  long blocks = blocks_of(second);
  memset(buffer, 0x5a, sizeof buffer);
  long long start = now();
  for (long number = 0; number < requests; number++) {
    off_t where = number % blocks * BLOCK;
    if (pwrite(first, buffer, size, where) != (ssize_t)size) fail("a short write");
    if (pwrite(second, buffer, size, where) != (ssize_t)size) fail("a short write");
  }
  return now() - start;
}

int main(int argc, char **argv) {
  pthread_t threads[MOST_THREADS];
  if (argc == 6 && strcmp(argv[1], "both") == 0) {
    size = strtoul(argv[4], NULL, 10) * SECTOR;
    requests = strtol(argv[5], NULL, 10);
    printf("%lld\n", write_both(argv[2], argv[3]));
    return 0;
  }
  if (argc == 4 && strcmp(argv[1], "copy") == 0) {
    printf("%lld\n", copy(argv[2], argv[3]));
    return 0;
  }
  if (argc == 6 && strcmp(argv[1], "hot") == 0) {
    path = argv[2];
    size = strtoul(argv[3], NULL, 10) * SECTOR;
    until = now() + strtol(argv[4], NULL, 10) * 1000000LL;
    long many = strtol(argv[5], NULL, 10);
    if (size < SECTOR || size > BLOCK || many < 2 || many > MOST_THREADS) fail("1 to 64 sectors, 2 to 64 threads");
    run_hot(many);
    return 0;
  }
  if (argc != 6) fail("usage: clients FILE read|write SECTORS REQUESTS THREADS, hot FILE SECTORS MILLISECONDS THREADS, both ONE OTHER SECTORS REQUESTS, or copy FROM TO");
  path = argv[1];
  writes = strcmp(argv[2], "write") == 0;
  size = strtoul(argv[3], 0, 10) * SECTOR;
  requests = atol(argv[4]);
  long many = atol(argv[5]);
  if (size < SECTOR || size > MOST || many < 1 || many > MOST_THREADS) fail("1 to 2048 sectors, 1 to 64 threads");
  step = size > BLOCK ? size : BLOCK;
  share = blocks_of(opened(path)) / many * BLOCK / step;
  if (share < 1) fail("the file is too short");
  long long start = now();
  for (long each = 0; each < many; each++)
    if (pthread_create(&threads[each], NULL, serve, (void *)each)) fail("no thread");
  for (long each = 0; each < many; each++) pthread_join(threads[each], NULL);
  printf("%lld\n", now() - start);
  return 0;
}
