/* The same requests by plain system calls: plain FILE read|write SECTORS REQUESTS [each]
   One pread or pwrite for each request, or with 'each' one for each sector of 512 bytes. Requests begin 64 sectors apart,
   or as many as they have, and begin anew at the end of the file. */
#include <fcntl.h>
#include <stdio.h>
#include <stdlib.h>
#include <string.h>
#include <sys/types.h>
#include <unistd.h>

enum { SECTOR = 512, BLOCK = 64, MOST = 2048 };

static void fail(const char *why) {
  fprintf(stderr, "plain: %s\n", why);
  exit(1);
}

int main(int argc, char **argv) {
  static char buffer[MOST * SECTOR];
  if (argc < 5) fail("usage: plain FILE read|write SECTORS REQUESTS [each]");
  int writes = strcmp(argv[2], "write") == 0;
  long sectors = atol(argv[3]), requests = atol(argv[4]);
  if (sectors < 1 || sectors > MOST) fail("1 to 2048 sectors");
  off_t apart = (sectors > BLOCK ? sectors : BLOCK) * SECTOR;
  long step = argc > 5 ? 1 : sectors;
  int file = open(argv[1], O_RDWR);
  if (file < 0) fail("the file cannot be opened");
  off_t places = lseek(file, 0, SEEK_END) / apart;
  if (places < 1) fail("the file is too short");
  memset(buffer, 0x5a, sizeof buffer);
  for (long number = 0; number < requests; number++) {
    off_t first = (number % places) * apart;
    for (long at = 0; at < sectors; at += step) {
      size_t size = step * SECTOR;
      off_t where = first + at * SECTOR;
      ssize_t moved = writes ? pwrite(file, buffer, size, where) : pread(file, buffer, size, where);
      if (moved != (ssize_t)size) fail("a short call");
    }
  }
  printf("%ld\n", requests);
  return 0;
}
