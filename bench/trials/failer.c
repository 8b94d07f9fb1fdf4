/* In front of the system's calls on files: fails the call whose number REFUSED has, writes it and each later one to the file that RECORD
   names, and how many there were to the file that COUNT names. */
#define _GNU_SOURCE
#include <errno.h>
#include <fcntl.h>
#include <stdarg.h>
#include <stdio.h>
#include <stdlib.h>
#include <sys/stat.h>
#include <sys/syscall.h>
#include <unistd.h>

static unsigned long count, refused;
static int record = -1;

__attribute__((constructor)) static void begin(void) {
  const char *at = getenv("REFUSED"), *path = getenv("RECORD");
  refused = at ? strtoul(at, 0, 10) : 0;
  if (path) record = syscall(SYS_openat, AT_FDCWD, path, O_WRONLY | O_CREAT | O_TRUNC, 0600);
}

__attribute__((destructor)) static void end(void) {
  const char *path = getenv("COUNT");
  FILE *file = path ? fopen(path, "w") : 0;
  if (file) {
    fprintf(file, "%lu", count);
    fclose(file);
  }
}

static int is_refused(const char *what, int fd) {
  ++count;
  if (refused && count >= refused && record >= 0) {
    char line[80];
    int length = snprintf(line, sizeof line, "%s %d\n", what, fd);
    syscall(SYS_write, record, line, length);
  }
  if (count != refused) return 0;
  errno = EIO;
  return 1;
}

int open(const char *path, int flags, ...) {
  va_list rest;
  va_start(rest, flags);
  int mode = flags & O_CREAT ? va_arg(rest, int) : 0;
  va_end(rest);
  return is_refused("open", -1) ? -1 : syscall(SYS_openat, AT_FDCWD, path, flags, mode);
}

int mkdir(const char *path, mode_t mode) { return is_refused("mkdir", -1) ? -1 : syscall(SYS_mkdirat, AT_FDCWD, path, mode); }
int statx(int fd, const char *path, int flags, unsigned mask, struct statx *out) {
  return is_refused("statx", fd) ? -1 : syscall(SYS_statx, fd, path, flags, mask, out);
}
ssize_t read(int fd, void *bytes, size_t n) { return is_refused("read", fd) ? -1 : syscall(SYS_read, fd, bytes, n); }
ssize_t pread(int fd, void *bytes, size_t n, off_t at) { return is_refused("pread", fd) ? -1 : syscall(SYS_pread64, fd, bytes, n, at); }
ssize_t write(int fd, const void *bytes, size_t n) { return is_refused("write", fd) ? -1 : syscall(SYS_write, fd, bytes, n); }
ssize_t __write(int fd, const void *bytes, size_t n) { return write(fd, bytes, n); }
ssize_t pwrite(int fd, const void *bytes, size_t n, off_t at) { return is_refused("pwrite", fd) ? -1 : syscall(SYS_pwrite64, fd, bytes, n, at); }
int ftruncate(int fd, off_t length) { return is_refused("ftruncate", fd) ? -1 : syscall(SYS_ftruncate, fd, length); }
int fsync(int fd) { return is_refused("fsync", fd) ? -1 : syscall(SYS_fsync, fd); }
int fdatasync(int fd) { return is_refused("fdatasync", fd) ? -1 : syscall(SYS_fdatasync, fd); }
