/* Loaded before the C library (LD_PRELOAD): counts the calls that write, rename, truncate, sync, make or remove, writes
 * each to a log once it is done, and stops the program before one of them or makes that one fail.
 *
 *   SHIM_LOG   the log: a line a call
 *   SHIM_AT    the call to stop before, from 1; 0 none
 *   SHIM_HOW   kill: the process ends there. EIO: that call fails. ENOSPC: the disk is full from there on, and of a write
 *              that meets it half is done.
 */
#define _GNU_SOURCE
#include <errno.h>
#include <fcntl.h>
#include <limits.h>
#include <signal.h>
#include <stdarg.h>
#include <stdint.h>
#include <stdio.h>
#include <stdlib.h>
#include <string.h>
#include <sys/stat.h>
#include <sys/syscall.h>
#include <sys/types.h>
#include <sys/uio.h>
#include <unistd.h>

static long count, stop_at;
static int log_fd = -1, kill_there, fail_with, full;

__attribute__((constructor)) static void start(void) {
  const char *path = getenv("SHIM_LOG"), *at = getenv("SHIM_AT"), *how = getenv("SHIM_HOW");
  if (path) log_fd = (int)syscall(SYS_openat, AT_FDCWD, path, O_WRONLY | O_CREAT | O_APPEND | O_CLOEXEC, 0666);
  stop_at = at ? atol(at) : 0;
  kill_there = how && !strcmp(how, "kill");
  fail_with = how && !strcmp(how, "EIO") ? EIO : ENOSPC;
}

/* Before a call: 0 to go on, or the error that it fails with. */
static int before(void) {
  if (++count != stop_at) return 0;
  if (kill_there) {
    syscall(SYS_kill, getpid(), SIGKILL);
    for (;;) pause();
  }
  full = fail_with == ENOSPC;
  return fail_with;
}

static void put(const char *text, size_t size) {
  if (log_fd >= 0) syscall(SYS_write, log_fd, text, size);
}

static void note(const char *format, ...) {
  char line[3 * PATH_MAX];
  va_list words;
  va_start(words, format);
  int size = vsnprintf(line, sizeof line, format, words);
  va_end(words);
  put(line, (size_t)size);
}

/* The path of an open file; empty where it is no file or folder. */
static const char *path_of(int fd, char path[PATH_MAX]) {
  char link[64];
  snprintf(link, sizeof link, "/proc/self/fd/%d", fd);
  ssize_t size = readlink(link, path, PATH_MAX - 1);
  path[size > 0 ? size : 0] = 0;
  if (path[0] != '/' || !strncmp(path, "/dev/", 5)) {
    if (strncmp(path, "/dev/shm/", 9)) path[0] = 0;
  }
  return path;
}

static const char *full_path(int folder, const char *name, char path[PATH_MAX]) {
  char front[PATH_MAX];
  if (name[0] == '/') front[0] = 0;
  else if (folder == AT_FDCWD) { if (!getcwd(front, sizeof front)) front[0] = 0; }
  else path_of(folder, front);
  snprintf(path, PATH_MAX, "%.2000s%s%.2000s", front, name[0] == '/' ? "" : "/", name);
  return path;
}

static int opened(int folder, const char *name, int flags, mode_t mode) {
  int changes = flags & (O_CREAT | O_TRUNC);
  if (!changes) return (int)syscall(SYS_openat, folder, name, flags, mode);
  struct stat old;
  int was = fstatat(folder, name, &old, 0) == 0, error = before();
  if (!error && full && !was) error = ENOSPC;
  if (error) { errno = error; return -1; }
  int fd = (int)syscall(SYS_openat, folder, name, flags, mode);
  char path[PATH_MAX];
  if (fd < 0) note("none\n");
  else if (!was) note("create %s\n", path_of(fd, path));
  else if (flags & O_TRUNC) note("cut %s 0\n", path_of(fd, path));
  else note("none\n");
  return fd;
}

#define OPEN(name)                                             \
  int name(const char *path, int flags, ...) {                       \
    va_list words;                                                   \
    va_start(words, flags);                                          \
    mode_t mode = flags & (O_CREAT | O_TMPFILE) ? va_arg(words, mode_t) : 0; \
    va_end(words);                                                   \
    return opened(AT_FDCWD, path, flags, mode);                      \
  }
OPEN(open)
OPEN(open64)
#define OPENAT(name)                                                 \
  int name(int folder, const char *path, int flags, ...) {           \
    va_list words;                                                   \
    va_start(words, flags);                                          \
    mode_t mode = flags & (O_CREAT | O_TMPFILE) ? va_arg(words, mode_t) : 0; \
    va_end(words);                                                   \
    return opened(folder, path, flags, mode);                        \
  }
OPENAT(openat)
OPENAT(openat64)
int creat(const char *path, mode_t mode) { return opened(AT_FDCWD, path, O_WRONLY | O_CREAT | O_TRUNC, mode); }
int creat64(const char *path, mode_t mode) { return creat(path, mode); }

static void note_write(int fd, off_t at, const uint8_t *bytes, ssize_t size) {
  char path[PATH_MAX], hex[64];
  struct stat kind;
  if (size < 0 || fstat(fd, &kind) || !S_ISREG(kind.st_mode) || !*path_of(fd, path)) { note("none\n"); return; }
  note("write %s %lld ", path, (long long)at);
  for (ssize_t i = 0; i < size; i++) put(hex, (size_t)snprintf(hex, sizeof hex, "%02x", bytes[i]));
  note("\n");
}

static off_t place_of(int fd) {
  struct stat kind;
  int flags = fcntl(fd, F_GETFL);
  if (flags >= 0 && flags & O_APPEND && !fstat(fd, &kind)) return kind.st_size;
  return lseek(fd, 0, SEEK_CUR);
}

/* A write to be made: the bytes of it that there is room for. */
static int room(int fd, size_t *size) {
  struct stat kind;
  int was = full, error = before(), disk = !fstat(fd, &kind) && S_ISREG(kind.st_mode);
  if (error == EIO || (was && disk)) { errno = was ? ENOSPC : EIO; return 0; }
  if (error == ENOSPC && *size > 1) *size /= 2;
  else if (error) { errno = error; return 0; }
  return 1;
}

ssize_t write(int fd, const void *bytes, size_t size) {
  if (!room(fd, &size)) return -1;
  off_t at = place_of(fd);
  ssize_t done = syscall(SYS_write, fd, bytes, size);
  int error = errno;
  note_write(fd, at, bytes, done);
  errno = error;
  return done;
}

ssize_t pwrite64(int fd, const void *bytes, size_t size, off_t at) {
  if (!room(fd, &size)) return -1;
  ssize_t done = syscall(SYS_pwrite64, fd, bytes, size, at);
  int error = errno;
  note_write(fd, at, bytes, done);
  errno = error;
  return done;
}
ssize_t pwrite(int fd, const void *bytes, size_t size, off_t at) { return pwrite64(fd, bytes, size, at); }

/* The first part alone: a short write, which the caller goes on from. */
ssize_t writev(int fd, const struct iovec *parts, int parts_count) {
  for (int i = 0; i < parts_count; i++)
    if (parts[i].iov_len) return write(fd, parts[i].iov_base, parts[i].iov_len);
  return 0;
}

/* Calls that fail as told, or are made and written down. */
#define CALL(result, text, ...)                                      \
  do {                                                               \
    int error = before();                                            \
    if (error) { errno = error; return -1; }                         \
    int done = (int)(result);                                        \
    int kept = errno;                                                \
    if (done) note("none\n");                                        \
    else note(text "\n", __VA_ARGS__);                               \
    errno = kept;                                                    \
    return done;                                                     \
  } while (0)

int fsync(int fd) { char path[PATH_MAX]; CALL(syscall(SYS_fsync, fd), "sync %s", path_of(fd, path)); }
int fdatasync(int fd) { char path[PATH_MAX]; CALL(syscall(SYS_fdatasync, fd), "sync %s", path_of(fd, path)); }
int ftruncate64(int fd, off_t size) {
  char path[PATH_MAX];
  CALL(syscall(SYS_ftruncate, fd, size), "cut %s %lld", path_of(fd, path), (long long)size);
}
int ftruncate(int fd, off_t size) { return ftruncate64(fd, size); }
int truncate64(const char *name, off_t size) {
  char path[PATH_MAX];
  CALL(syscall(SYS_truncate, name, size), "cut %s %lld", full_path(AT_FDCWD, name, path), (long long)size);
}
int truncate(const char *name, off_t size) { return truncate64(name, size); }
int renameat2(int a, const char *old, int b, const char *new, unsigned flags) {
  char from[PATH_MAX], to[PATH_MAX];
  CALL(syscall(SYS_renameat2, a, old, b, new, flags), "move %s %s", full_path(a, old, from), full_path(b, new, to));
}
int renameat(int a, const char *old, int b, const char *new) { return renameat2(a, old, b, new, 0); }
int rename(const char *old, const char *new) { return renameat2(AT_FDCWD, old, AT_FDCWD, new, 0); }
int unlinkat(int folder, const char *name, int flags) {
  char path[PATH_MAX];
  CALL(syscall(SYS_unlinkat, folder, name, flags), "remove %s", full_path(folder, name, path));
}
int unlink(const char *name) { return unlinkat(AT_FDCWD, name, 0); }
int rmdir(const char *name) { return unlinkat(AT_FDCWD, name, AT_REMOVEDIR); }
int remove(const char *name) { return unlinkat(AT_FDCWD, name, 0); }
int mkdirat(int folder, const char *name, mode_t mode) {
  char path[PATH_MAX];
  if (full) { errno = ENOSPC; return -1; }
  CALL(syscall(SYS_mkdirat, folder, name, mode), "folder %s", full_path(folder, name, path));
}
int fchmod(int fd, mode_t mode) { CALL(syscall(SYS_fchmod, fd, mode), "%s", "none"); }
int mkdir(const char *name, mode_t mode) { return mkdirat(AT_FDCWD, name, mode); }

/* Calls that the model of the disk has no place for: a program that uses one must be looked at. */
#define UNKNOWN(name)                                                \
  int unknown_##name(void) __asm__(#name);                           \
  int unknown_##name(void) { note("unknown " #name "\n"); errno = ENOSYS; return -1; }
UNKNOWN(link)
UNKNOWN(linkat)
UNKNOWN(symlink)
UNKNOWN(symlinkat)
UNKNOWN(fallocate)
UNKNOWN(fallocate64)
UNKNOWN(posix_fallocate)
UNKNOWN(posix_fallocate64)
UNKNOWN(copy_file_range)
UNKNOWN(sendfile)
UNKNOWN(sendfile64)
UNKNOWN(splice)
UNKNOWN(pwritev)
UNKNOWN(pwritev64)
UNKNOWN(pwritev2)
UNKNOWN(sync_file_range)
UNKNOWN(chmod)
