/* The requests of a script by plain system calls: script FILE read|write|both SECTORS LIST
   LIST has the first sector of each request, a line each, and is read before. One pread or pwrite a request, of both a read first and then
   in turn: nothing is parsed or printed meanwhile. It prints the nanoseconds that the requests took. */
#include <fcntl.h>
#include <stdio.h>
#include <stdlib.h>
#include <string.h>
#include <time.h>
#include <unistd.h>

enum { SECTOR = 512, MOST = 64 };

static void fail(const char *why) {
  fprintf(stderr, "script: %s\n", why);
  exit(1);
}

static long now(void) {
  struct timespec at;
  clock_gettime(CLOCK_MONOTONIC, &at);
  return at.tv_sec * 1000000000L + at.tv_nsec;
}

int main(int argc, char **argv) {
  static char buffer[MOST * SECTOR];
  if (argc != 5) fail("usage: script FILE read|write|both SECTORS LIST");
  int writes = strcmp(argv[2], "write") == 0, both = strcmp(argv[2], "both") == 0;
  long sectors = atol(argv[3]);
  if (sectors < 1 || sectors > MOST) fail("1 to 64 sectors");
  int file = open(argv[1], O_RDWR);
  if (file < 0) fail("the file cannot be opened");
  FILE *list = fopen(argv[4], "r");
  if (list == NULL) fail("the list cannot be opened");
  long count = 0, room = 1024;
  off_t *first = malloc(room * sizeof *first);
  for (long sector; first != NULL && fscanf(list, "%ld", &sector) == 1; count++) {
    if (count == room) first = realloc(first, (room *= 2) * sizeof *first);
    if (first != NULL) first[count] = sector * SECTOR;
  }
  if (first == NULL) fail("no memory");
  memset(buffer, 0x5a, sizeof buffer);
  size_t size = sectors * SECTOR;
  long begin = now();
  for (long number = 0; number < count; number++) {
    int write_now = writes || (both && number % 2 == 1);
    ssize_t moved = write_now ? pwrite(file, buffer, size, first[number]) : pread(file, buffer, size, first[number]);
    if (moved != (ssize_t)size) fail("a short call");
  }
  printf("%ld\n", now() - begin);
  return 0;
}
