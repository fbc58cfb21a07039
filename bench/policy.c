/* The same admission and replacement in plain C: policy CACHE_BLOCKS ACCESSES|FILE. The sketch is that of sketch.c; recency
   is a list linked by cache block, and an array says where each origin block stands. A file has the number of a block on each
   line. Prints how many accesses were hits. */
#include <stdint.h>
#include <stdio.h>
#include <stdlib.h>
#include <string.h>

#define ORIGIN_BLOCKS 1048576

static const uint64_t rows[4] = {0x9E3779B97F4A7C15, 0xC2B2AE3D27D4EB4F, 0x165667B19E3779F9, 0xD6E8FEB86659FD93};
static const uint64_t doors[2] = {0xFF51AFD7ED558CCD, 0xC4CEB9FE1A85EC53};

static uint8_t *counters[4], *doorkeeper;
static uint64_t width, limit, sample;
static int bits;

static uint64_t place(uint32_t x, uint64_t constant, int bits_of_place) { return (x * constant) >> (64 - bits_of_place); }

static int is_known(uint32_t x) { return doorkeeper[place(x, doors[0], bits + 3)] && doorkeeper[place(x, doors[1], bits + 3)]; }

static uint8_t least(uint32_t x) {
  uint8_t found = 255;
  for (int i = 0; i < 4; i++) {
    uint8_t counter = counters[i][place(x, rows[i], bits)];
    if (counter < found) found = counter;
  }
  return found;
}

static int estimate(uint32_t x) { return least(x) + is_known(x); }

static void add(uint32_t x) {
  if (is_known(x)) {
    uint8_t low = least(x);
    for (int i = 0; i < 4 && low < 15; i++) {
      uint8_t *counter = &counters[i][place(x, rows[i], bits)];
      if (*counter == low) ++*counter;
    }
  } else {
    doorkeeper[place(x, doors[0], bits + 3)] = 1;
    doorkeeper[place(x, doors[1], bits + 3)] = 1;
  }
  if (++sample == limit) {
    sample /= 2;
    for (int i = 0; i < 4; i++)
      for (uint64_t j = 0; j < width; j++) counters[i][j] /= 2;
    memset(doorkeeper, 0, 8 * width);
  }
}

/* The list by recency: node 0 stands before the most and behind the least recent, node c + 1 is cache block c. */
static uint32_t *newer, *older, *origin, *node_of;

static void take_out(uint32_t node) {
  older[newer[node]] = older[node];
  newer[older[node]] = newer[node];
}

static void put_first(uint32_t node) {
  older[node] = older[0];
  newer[node] = 0;
  newer[older[0]] = node;
  older[0] = node;
}

static uint64_t state = 1;

static uint64_t number(void) {
  state = state * 6364136223846793005 + 1442695040888963407;
  return state >> 33;
}

/* Zipf's law with exponent 1, by powers of two. */
static uint32_t next_block(void) {
  uint64_t power = ((number() & 0xffff) * 20) >> 16;
  uint64_t first = ((uint64_t)1 << power) - 1;
  uint64_t rank = first + (number() & first);
  return rank * 0x9e3b1 & 0xfffff;
}

/* The next access of the trace, or of those that are drawn. */
static int next_access(FILE *trace, uint64_t drawn, uint64_t accesses, uint32_t *block) {
  if (trace) return fscanf(trace, "%u", block) == 1 && *block < ORIGIN_BLOCKS;
  *block = next_block();
  return drawn < accesses;
}

int main(int argc, char **argv) {
  if (argc != 3) return 2;
  char *end;
  uint64_t cache = strtoull(argv[1], 0, 10), accesses = strtoull(argv[2], &end, 10), hits = 0, taken = 0;
  FILE *trace = *end ? fopen(argv[2], "r") : NULL;
  uint32_t block;
  if (*end && !trace) return 1;
  for (bits = 4, width = 16; width < cache; bits++) width *= 2;
  limit = 8 * cache > 64 ? 8 * cache : 64;
  for (int i = 0; i < 4; i++) counters[i] = calloc(width, 1);
  doorkeeper = calloc(8 * width, 1);
  newer = calloc(cache + 1, 4);
  older = calloc(cache + 1, 4);
  origin = calloc(cache + 1, 4);
  node_of = calloc(ORIGIN_BLOCKS, 4);
  for (uint64_t i = 0; next_access(trace, i, accesses, &block); i++) {
    add(block);
    if (node_of[block]) {
      hits++;
      take_out(node_of[block]);
      put_first(node_of[block]);
    } else if (estimate(block) >= 2) {
      uint32_t node = 0;
      if (taken < cache) {
        node = ++taken;
      } else if (estimate(block) > estimate(origin[newer[0]])) {
        node = newer[0];
        node_of[origin[node]] = 0;
        take_out(node);
      }
      if (node) {
        origin[node] = block;
        node_of[block] = node;
        put_first(node);
      }
    }
  }
  printf("%llu\n", (unsigned long long)hits);
  return 0;
}
