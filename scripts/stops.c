// A sector that cannot be read, a lock that cannot be had, or a kill at a step, for a program over files; loaded before the C library. What the
// environment asks for:
//   STOPS_AT=N                   the program is killed before its N-th read, write or sync of a file opened by a name with '.img' at its end
//   STOPS_BAD=NAME STOPS_FROM=N STOPS_TO=M      a read of the file of this name fails that touches a byte from N to before M
//   STOPS_LOCKS=1                no file can be locked: the system has no locks left
// It has no header, since the kit's clang has none: what it uses of the C library on 64-bit Linux is declared here.
typedef unsigned long size_t;
typedef long ssize_t, off_t;
void *dlsym(void *, const char *);
char *getenv(const char *);
long atol(const char *);
int strcmp(const char *, const char *);
size_t strlen(const char *);
int *__errno_location(void);
int getpid(void), kill(int, int);
#define NULL ((void *)0)
#define RTLD_NEXT ((void *)-1l)
enum { EIO = 5, ENOLCK = 37, SIGKILL = 9, O_CREAT = 0100 };

static int (*real_open)(const char *, int, ...);
static int (*real_close)(int), (*real_fdatasync)(int), (*real_fsync)(int), (*real_flock)(int, int);
static ssize_t (*real_pread)(int, void *, size_t, off_t), (*real_pwrite)(int, const void *, size_t, off_t);
static const char *bad;
static long stop, from, to, steps, has_no_locks;
static char is_image[1024], is_bad[1024];

static long number(const char *name) {
  const char *text = getenv(name);
  return text == NULL ? 0 : atol(text);
}

__attribute__((constructor)) static void begin(void) {
  real_open = dlsym(RTLD_NEXT, "open");
  real_close = dlsym(RTLD_NEXT, "close");
  real_fdatasync = dlsym(RTLD_NEXT, "fdatasync");
  real_fsync = dlsym(RTLD_NEXT, "fsync");
  real_flock = dlsym(RTLD_NEXT, "flock");
  real_pread = dlsym(RTLD_NEXT, "pread");
  real_pwrite = dlsym(RTLD_NEXT, "pwrite");
  bad = getenv("STOPS_BAD");
  stop = number("STOPS_AT");
  from = number("STOPS_FROM");
  to = number("STOPS_TO");
  has_no_locks = number("STOPS_LOCKS");
}

static void step(int fd) {
  if (stop == 0 || fd < 0 || fd >= 1024 || !is_image[fd]) return;
  if (__atomic_add_fetch(&steps, 1, __ATOMIC_SEQ_CST) == stop) kill(getpid(), SIGKILL);
}

int open(const char *path, int flags, ...) {
  __builtin_va_list rest;
  __builtin_va_start(rest, flags);
  int mode = flags & O_CREAT ? __builtin_va_arg(rest, int) : 0;
  __builtin_va_end(rest);
  int fd = real_open(path, flags, mode);
  size_t length = strlen(path);
  if (fd >= 0 && fd < 1024) {
    is_image[fd] = length > 4 && strcmp(path + length - 4, ".img") == 0;
    is_bad[fd] = bad != NULL && strcmp(path, bad) == 0;
  }
  return fd;
}

int close(int fd) {
  if (fd >= 0 && fd < 1024) is_image[fd] = is_bad[fd] = 0;
  return real_close(fd);
}

int flock(int fd, int how) {
  if (has_no_locks) {
    *__errno_location() = ENOLCK;
    return -1;
  }
  return real_flock(fd, how);
}

int fdatasync(int fd) {
  step(fd);
  return real_fdatasync(fd);
}
int fsync(int fd) {
  step(fd);
  return real_fsync(fd);
}
ssize_t pread(int fd, void *into, size_t size, off_t at) {
  step(fd);
  if (fd >= 0 && fd < 1024 && is_bad[fd] && at < to && from < at + (off_t)size) {
    *__errno_location() = EIO;
    return -1;
  }
  return real_pread(fd, into, size, at);
}
ssize_t pwrite(int fd, const void *out, size_t size, off_t at) {
  step(fd);
  return real_pwrite(fd, out, size, at);
}
