// Bad weather for a program, loaded before the C library. What the environment asks for:
//   WEATHER_FILE=NAME WEATHER_CALL=N  the N-th read, write or sync of the file of this name fails, as a broken device's
//   WEATHER_ON=1                      with it, each later one of that file fails, too
//   WEATHER_SHORT=SEED                a read or write of a file or a stream takes only a part of what was asked
//   WEATHER_SIGNALS=1 or -N           one of a stream is interrupted now and then, or the N-th one
//   WEATHER_ALLOC=N                   the N-th request for memory is refused
//   WEATHER_DURABLE=1                 a file that was synced is copied beside itself, under its name with .durable behind it
//   WEATHER_LANDS=1                   a write that fails lands all the same
//   WEATHER_JOURNAL=FILE              each write `w`, sync that begins `b` and ended `s`, and answer `a` (of standard output) is noted there in the order
//                                     in which they came: this letter, the first one of the file's name, offset (of a sync: whose it is), size, bytes
//   WEATHER_SLOW=N                    with a journal, a sync takes so many microseconds more
//   WEATHER_NOTE=FILE                 this file is made once that has happened
// It has no header, since the kit's clang has none: what it uses of the C library on 64-bit Linux is declared here.
typedef unsigned long size_t;
typedef long ssize_t, off_t;
void *dlsym(void *, const char *);
char *getenv(const char *);
long atol(const char *);
int strcmp(const char *, const char *);
int *__errno_location(void);
int sched_yield(void);
int usleep(unsigned);
#define NULL ((void *)0)
#define RTLD_NEXT ((void *)-1l)
#define errno (*__errno_location())
enum { EINTR = 4, EIO = 5, ENOMEM = 12, O_WRONLY = 1, O_CREAT = 0100, O_APPEND = 02000, O_CLOEXEC = 02000000 };
void *__libc_malloc(size_t);
void *__libc_calloc(size_t, size_t);
void *__libc_realloc(void *, size_t);

static int (*real_open)(const char *, int, ...);
static int (*real_close)(int), (*real_fdatasync)(int), (*real_fsync)(int);
static ssize_t (*real_pread)(int, void *, size_t, off_t), (*real_pwrite)(int, const void *, size_t, off_t);
static ssize_t (*real_read)(int, void *, size_t), (*real_write)(int, const void *, size_t);

static const char *file, *note;
static long failing, refused, signals, durable, on, lands, slow;
static unsigned long seed;
static long calls, requests;
static unsigned long turns;
static char is_bad[1024];
static char names[1024][64];
static int journal = -1, is_noting;

static long next(long *count) { return __atomic_add_fetch(count, 1, __ATOMIC_SEQ_CST); }
static int is_marked(int fd) { return fd >= 0 && fd < 1024 && __atomic_load_n(&is_bad[fd], __ATOMIC_SEQ_CST); }
static void mark(int fd, char bad) {
  if (fd >= 0 && fd < 1024) __atomic_store_n(&is_bad[fd], bad, __ATOMIC_SEQ_CST);
}

static long number(const char *name) {
  const char *text = getenv(name);
  return text == NULL ? 0 : atol(text);
}

__attribute__((constructor)) static void begin(void) {
  real_open = dlsym(RTLD_NEXT, "open");
  real_close = dlsym(RTLD_NEXT, "close");
  real_fdatasync = dlsym(RTLD_NEXT, "fdatasync");
  real_fsync = dlsym(RTLD_NEXT, "fsync");
  real_pread = dlsym(RTLD_NEXT, "pread");
  real_pwrite = dlsym(RTLD_NEXT, "pwrite");
  real_read = dlsym(RTLD_NEXT, "read");
  real_write = dlsym(RTLD_NEXT, "write");
  file = getenv("WEATHER_FILE");
  note = getenv("WEATHER_NOTE");
  failing = number("WEATHER_CALL");
  seed = number("WEATHER_SHORT");
  on = number("WEATHER_ON");
  lands = number("WEATHER_LANDS");
  slow = number("WEATHER_SLOW");
  signals = number("WEATHER_SIGNALS");
  durable = number("WEATHER_DURABLE");
  const char *path = getenv("WEATHER_JOURNAL");
  if (path != NULL) journal = real_open(path, O_WRONLY | O_CREAT | O_APPEND | O_CLOEXEC, 0600);
  refused = number("WEATHER_ALLOC");
  requests = 0;
}

static void tell(void) {
  int made = note == NULL ? -1 : real_open(note, O_WRONLY | O_CREAT | O_APPEND | O_CLOEXEC, 0600);
  if (made >= 0) real_close(made);
}

static int fails(int fd) {
  if (!is_marked(fd) || failing == 0) return 0;
  long call = next(&calls);
  if (call < failing || (call > failing && !on)) return 0;
  tell();
  errno = EIO;
  return 1;
}

// A number that hangs on the seed and on the turn.
static unsigned long dice(void) {
  unsigned long x = seed * 0x9E3779B97F4A7C15u + __atomic_add_fetch(&turns, 1, __ATOMIC_SEQ_CST) * 0xD6E8FEB86659FD93u;
  x ^= x >> 32;
  x *= 0xD6E8FEB86659FD93u;
  return x ^ x >> 32;
}

static size_t part(size_t size) { return seed == 0 || size < 2 ? size : 1 + dice() % size; }

int open(const char *path, int flags, ...) {
  __builtin_va_list rest;
  __builtin_va_start(rest, flags);
  int mode = flags & O_CREAT ? __builtin_va_arg(rest, int) : 0;
  __builtin_va_end(rest);
  int fd = real_open(path, flags, mode);
  mark(fd, file != NULL && strcmp(path, file) == 0);
  for (int i = 0; (durable || journal >= 0) && fd >= 0 && fd < 1024 && i < 63 && (names[fd][i] = path[i]) != 0; i++) {
  }
  return fd;
}

int close(int fd) {
  mark(fd, 0);
  return real_close(fd);
}

// One thread at a time writes, answers or notes, so that the journal has the order in which that was.
static void lock(void) {
  while (journal >= 0 && __atomic_exchange_n(&is_noting, 1, __ATOMIC_ACQUIRE)) sched_yield();
}
static void unlock(void) { __atomic_store_n(&is_noting, 0, __ATOMIC_RELEASE); }

// Notes a step on a file, or an answer. Whose a sync is tells an address that each thread has to itself.
static void enter(char kind, int fd, const void *data, long size, long at) {
  if (journal < 0 || size < 0 || fd < 0 || fd >= 1024) return;
  long numbers[2] = {at, size};
  char front[2] = {kind, names[fd][0]};
  if (real_write(journal, front, 2) + real_write(journal, numbers, 16) + real_write(journal, data, size) != 18 + size)
    real_write(2, "weather: no journal\n", 20);
}

static void enter_sync(char kind, int fd) {
  lock();
  enter(kind, fd, "", 0, (long)&errno);
  unlock();
  if (kind == 'b' && slow > 0) usleep(slow);
}

// Keeps what is durable now. Names have fewer than 50 letters.
static int keep(int fd, int synced) {
  if (synced == 0) enter_sync('s', fd);
  if (!durable || synced != 0 || fd < 0 || fd >= 1024) return synced;
  static char piece[1 << 20];
  char name[72];
  int length = 0;
  while ((name[length] = names[fd][length]) != 0) length++;
  for (int i = 0; i < 9; i++) name[length + i] = ".durable"[i];
  int copy = real_open(name, O_WRONLY | O_CREAT | O_CLOEXEC, 0600);
  ssize_t size = real_pread(fd, piece, sizeof piece, 0);
  if (copy < 0 || size < 0 || real_pwrite(copy, piece, size, 0) != size) real_write(2, "weather: no copy\n", 17);
  real_close(copy);
  return 0;
}

int fdatasync(int fd) {
  if (fails(fd)) return -1;
  enter_sync('b', fd);
  return keep(fd, real_fdatasync(fd));
}
int fsync(int fd) {
  if (fails(fd)) return -1;
  enter_sync('b', fd);
  return keep(fd, real_fsync(fd));
}
ssize_t pread(int fd, void *to, size_t size, off_t at) { return fails(fd) ? -1 : real_pread(fd, to, part(size), at); }

ssize_t pwrite(int fd, const void *from, size_t size, off_t at) {
  int failed = fails(fd);
  if (failed && !lands) return -1;
  lock();
  ssize_t written = real_pwrite(fd, from, failed ? size : part(size), at);
  enter('w', fd, from, written, at);
  unlock();
  if (!failed) return written;
  errno = EIO;
  return -1;
}

static int is_interrupted(void) {
  static long transfers;
  if (signals == 0 || (signals > 0 ? dice() % 4 != 0 : next(&transfers) != -signals)) return 0;
  tell();
  errno = EINTR;
  return 1;
}

ssize_t read(int fd, void *to, size_t size) { return is_interrupted() ? -1 : real_read(fd, to, part(size)); }
ssize_t write(int fd, const void *from, size_t size) {
  if (is_interrupted()) return -1;
  if (journal < 0 || fd != 1) return real_write(fd, from, part(size));
  lock();
  ssize_t written = real_write(fd, from, part(size));
  if (written > 0) enter('a', fd, "", 0, written);
  unlock();
  return written;
}

static int refuse(void) {
  if (refused == 0 || next(&requests) != refused) return 0;
  tell();
  errno = ENOMEM;
  return 1;
}

void *malloc(size_t size) { return refuse() ? NULL : __libc_malloc(size); }
void *calloc(size_t count, size_t size) { return refuse() ? NULL : __libc_calloc(count, size); }
void *realloc(void *old, size_t size) { return refuse() ? NULL : __libc_realloc(old, size); }
