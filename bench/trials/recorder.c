/* In front of the system's calls on files: writes each call, its answer and its bytes to the file that RECORD names. */
#define _GNU_SOURCE
#include <fcntl.h>
#include <stdarg.h>
#include <stdio.h>
#include <stdlib.h>
#include <string.h>
#include <sys/syscall.h>
#include <unistd.h>

static int record = -1;

__attribute__((constructor)) static void begin(void) {
  const char *path = getenv("RECORD");
  if (path) record = syscall(SYS_openat, AT_FDCWD, path, O_WRONLY | O_CREAT | O_APPEND, 0600);
}

/* one line for a call, and the bytes that belong to it */
static long note(char what, int fd, long result, const void *bytes, long count) {
  char head[80];
  int length = snprintf(head, sizeof head, "%c %d %ld %ld\n", what, fd, result, count);
  if (record >= 0 && result >= 0) {
    syscall(SYS_write, record, head, length);
    syscall(SYS_write, record, bytes, count);
  }
  return result;
}

int open(const char *path, int flags, ...) {
  va_list rest;
  va_start(rest, flags);
  int mode = flags & O_CREAT ? va_arg(rest, int) : 0;
  va_end(rest);
  int fd = syscall(SYS_openat, AT_FDCWD, path, flags, mode);
  note('o', fd, fd, path, strlen(path));
  return fd;
}

ssize_t write(int fd, const void *bytes, size_t count) {
  long done = syscall(SYS_write, fd, bytes, count);
  return note('w', fd, done, bytes, done > 0 ? done : 0);
}

/* recorded as a step to the place and a write there */
ssize_t pwrite(int fd, const void *bytes, size_t count, off_t at) {
  long done = syscall(SYS_pwrite64, fd, bytes, count, at);
  if (done >= 0) note('l', fd, at, "", 0);
  return note('w', fd, done, bytes, done > 0 ? done : 0);
}

ssize_t pwrite64(int fd, const void *bytes, size_t count, off_t at) { return pwrite(fd, bytes, count, at); }
ssize_t __write(int fd, const void *bytes, size_t count) { return write(fd, bytes, count); }
ssize_t read(int fd, void *bytes, size_t count) { return note('r', fd, syscall(SYS_read, fd, bytes, count), "", 0); }
off_t lseek(int fd, off_t at, int whence) { return note('l', fd, syscall(SYS_lseek, fd, at, whence), "", 0); }
int ftruncate(int fd, off_t length) { return note('t', fd, syscall(SYS_ftruncate, fd, length) < 0 ? -1 : length, "", 0) < 0 ? -1 : 0; }
int fsync(int fd) { return note('s', fd, syscall(SYS_fsync, fd), "", 0); }
int fdatasync(int fd) { return note('s', fd, syscall(SYS_fdatasync, fd), "", 0); }
int close(int fd) { return note('c', fd, syscall(SYS_close, fd), "", 0); }
