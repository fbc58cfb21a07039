/* A cleaner in plain C: ticks CACHE_BLOCKS TICKS. Each tick looks at the word of each block, whether it is dirty, and keeps the dirty one that was used
   least recently. One block is dirty. Prints the nanoseconds of all ticks. */
#include <stdint.h>
#include <stdio.h>
#include <stdlib.h>
#include <time.h>

struct block {
  uint64_t word, used;
};

int main(int argc, char **argv) {
  if (argc != 3) return 2;
  uint64_t blocks = strtoull(argv[1], 0, 10), ticks = strtoull(argv[2], 0, 10), sum = 0;
  struct block *all = calloc(blocks, sizeof *all);
  struct timespec start, end;
  if (!all || !blocks) return 1;
  for (uint64_t at = 0; at < blocks; at++) all[at] = (struct block){.word = at << 2 | 1, .used = at};
  all[blocks / 2].word |= 2;
  clock_gettime(CLOCK_MONOTONIC, &start);
  for (uint64_t tick = 0; tick < ticks; tick++) {
    uint64_t found = blocks;
    for (uint64_t at = 0; at < blocks; at++)
      if (((volatile struct block *)all)[at].word & 2 && (found == blocks || all[at].used < all[found].used)) found = at;
    sum += found;
  }
  clock_gettime(CLOCK_MONOTONIC, &end);
  if (sum != ticks * (blocks / 2)) return 1;
  printf("%lld\n", (end.tv_sec - start.tv_sec) * 1000000000LL + end.tv_nsec - start.tv_nsec);
  return 0;
}
