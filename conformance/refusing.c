/* A library that stands before the C library (LD_PRELOAD) and does to the program what a bad day does. refusing.py builds it. The
   environment says what it does:

   REFUSE  WHAT NUMBER HOW
           allocation N once   the allocation N, from 1, is refused
           allocation N on     this one and all behind it
           call N once         the call N, from 1, of open, lseek, read and write fails
           transfer 0 short    a read and a write do one byte at a time
           transfer 0 broken   a read and a write are interrupted by a signal first, each time
   FAIL    DEVICE NUMBER, a pair behind the other: the calls of these numbers, from 0, of a device fail: `store` is asked by each
           open, `stdin` by each read of descriptor 0, `stdout` and `stderr` by each write of descriptor 1 and 2
   CALLS   the file into which the calls are told at the end: a line `allocations N`, and for each call of the system a line
           `NAME DESCRIPTOR`, where open has the one that it gave */
#define _GNU_SOURCE
#include <errno.h>
#include <fcntl.h>
#include <stdarg.h>
#include <stdio.h>
#include <stdlib.h>
#include <string.h>
#include <sys/syscall.h>
#include <unistd.h>

enum { DEVICES = 4, STORE = 3, MOST_CALLS = 64, LINE = 48 };

void *__libc_malloc(size_t size);
void *__libc_realloc(void *from, size_t size);

static const char *const names[DEVICES] = {"stdin", "stdout", "stderr", "store"};
static char to_fail[DEVICES][MOST_CALLS];
static unsigned long asked[DEVICES];
static char what[16], how[16];
static unsigned long number, allocations, calls;
static int interrupted;
static char told[1 << 20];
static size_t length;

__attribute__((constructor)) static void begin(void) {
  const char *refuse = getenv("REFUSE"), *fail = getenv("FAIL");
  char device[16];
  unsigned call;
  int read;
  if (refuse != NULL) sscanf(refuse, "%15s %lu %15s", what, &number, how);
  for (; fail != NULL && sscanf(fail, "%15s %u%n", device, &call, &read) == 2; fail += read)
    for (int at = 0; at < DEVICES; at++)
      if (strcmp(device, names[at]) == 0 && call < MOST_CALLS) to_fail[at][call] = 1;
  allocations = 0;
}

__attribute__((destructor)) static void end(void) {
  const char *path = getenv("CALLS");
  if (path == NULL) return;
  int file = syscall(SYS_openat, AT_FDCWD, path, O_WRONLY | O_CREAT | O_TRUNC, 0600);
  char line[LINE];
  int size = snprintf(line, sizeof line, "allocations %lu\n", allocations);
  if (syscall(SYS_write, file, line, size) != size || syscall(SYS_write, file, told, length) != (long)length) abort();
}

static int is(const char *kind, const char *manner) { return strcmp(what, kind) == 0 && strcmp(how, manner) == 0; }

static int refused(void) {
  allocations++;
  if (!(is("allocation", "once") && allocations == number) && !(is("allocation", "on") && allocations >= number)) return 0;
  errno = ENOMEM;
  return 1;
}

void *malloc(size_t size) { return refused() ? NULL : __libc_malloc(size); }

void *realloc(void *from, size_t size) { return refused() ? NULL : __libc_realloc(from, size); }

static void tell(const char *name, int descriptor) {
  if (length < sizeof told - LINE) length += snprintf(told + length, LINE, "%s %d\n", name, descriptor);
}

/* Whether this call of the system fails, with this error, as far as its number goes. */
static int call_fails(int error) {
  calls++;
  if (!is("call", "once") || calls != number) return 0;
  errno = error;
  return 1;
}

/* Whether this call of the system fails, with this error, by its device. */
static int device_fails(int device, int error) {
  if (device >= DEVICES || asked[device] >= MOST_CALLS || !to_fail[device][asked[device]++]) return 0;
  errno = error;
  return 1;
}

/* Whether this read or write is interrupted: every second one is. */
static int breaks(void) {
  if (!is("transfer", "broken")) return 0;
  interrupted = !interrupted;
  if (interrupted) errno = EINTR;
  return interrupted;
}

static size_t part(size_t size) { return is("transfer", "short") && size > 1 ? 1 : size; }

int open(const char *path, int flags, ...) {
  va_list rest;
  va_start(rest, flags);
  int mode = flags & O_CREAT ? va_arg(rest, int) : 0;
  va_end(rest);
  int fails = call_fails(EMFILE) || device_fails(STORE, EIO);
  int file = fails ? -1 : (int)syscall(SYS_openat, AT_FDCWD, path, flags, mode);
  tell("open", file);
  return file;
}

off_t lseek(int file, off_t place, int from) {
  tell("lseek", file);
  return call_fails(ESPIPE) ? -1 : syscall(SYS_lseek, file, place, from);
}

ssize_t read(int file, void *to, size_t size) {
  if (breaks()) return -1;
  tell("read", file);
  return call_fails(EIO) || (file == 0 && device_fails(file, EIO)) ? -1 : syscall(SYS_read, file, to, part(size));
}

ssize_t write(int file, const void *from, size_t size) {
  if (breaks()) return -1;
  tell("write", file);
  int fails = call_fails(ENOSPC) || ((file == 1 || file == 2) && device_fails(file, ENOSPC));
  return fails ? -1 : syscall(SYS_write, file, from, part(size));
}

ssize_t __write(int file, const void *from, size_t size) { return write(file, from, size); }
