// Refuses the N-th request for memory of a test program, N being the environment's FAIL_ALLOC, and notes in the file FAIL_ALLOC_NOTE
// that it did. A library to be loaded before the C library: see fail-alloc.sh.
#define _GNU_SOURCE
#include <errno.h>
#include <fcntl.h>
#include <stdatomic.h>
#include <stdlib.h>
#include <string.h>
#include <unistd.h>

void *__libc_malloc(size_t);
void *__libc_calloc(size_t, size_t);
void *__libc_realloc(void *, size_t);
void *__libc_memalign(size_t, size_t);

static atomic_long asked;
static long refused = -1;

// Only in a program of tests: the one that runs each of them is loaded with this library, too.
__attribute__((constructor)) static void begin(void) {
  char program[4096];
  ssize_t length = readlink("/proc/self/exe", program, sizeof program - 1);
  const char *number = getenv("FAIL_ALLOC");
  if (number == NULL || length < 6 || memcmp(program + length - 6, "_tests", 6) != 0) return;
  atomic_store(&asked, 0);
  refused = atol(number);
}

static int refuse(void) {
  if (refused < 0 || atomic_fetch_add(&asked, 1) + 1 != refused) return 0;
  const char *note = getenv("FAIL_ALLOC_NOTE");
  int file = note == NULL ? -1 : open(note, O_WRONLY | O_CREAT | O_APPEND, 0600);
  if (file >= 0) {
    if (write(file, "x", 1) != 1) abort();
    close(file);
  }
  errno = ENOMEM;
  return 1;
}

void *malloc(size_t size) { return refuse() ? NULL : __libc_malloc(size); }
void *calloc(size_t count, size_t size) { return refuse() ? NULL : __libc_calloc(count, size); }
void *realloc(void *old, size_t size) { return refuse() ? NULL : __libc_realloc(old, size); }
void *memalign(size_t alignment, size_t size) { return refuse() ? NULL : __libc_memalign(alignment, size); }
void *aligned_alloc(size_t alignment, size_t size) { return memalign(alignment, size); }

int posix_memalign(void **given, size_t alignment, size_t size) {
  void *memory = memalign(alignment, size);
  if (memory == NULL) return ENOMEM;
  *given = memory;
  return 0;
}
