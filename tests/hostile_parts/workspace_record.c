/* Preloaded into yt: each call that writes or names a file, makes it last, or tells something is written down in order, after it was done.

   RECORD_TO=FILE    gets an entry for each call: a line, and after it the bytes that were moved
   RECORD_PIECE=N    a write at a place moves N bytes at most, so that more of them are needed

   make FILE PATH     a new file, a number, has the name     name FILE PATH     a file has it by a link, or by a new name
   gone PATH          the name is gone                       folder             the names that a folder has are synced
   write FILE AT N    N bytes at a place of a file           size FILE N        the file has N bytes
   sync FILE          the file is synced                     told N             N bytes were written to the output */
#define _GNU_SOURCE
#include <dlfcn.h>
#include <linux/fcntl.h>
#include <stdarg.h>
#include <stdint.h>
#include <stdio.h>
#include <stdlib.h>
#include <sys/stat.h>
#include <sys/syscall.h>
#include <sys/uio.h>
#include <unistd.h>

#define REAL(NAME) ((__typeof__(&NAME))dlsym(RTLD_NEXT, #NAME))

/* One more entry: a line of this form, and the bytes. */
static void enter(const void *bytes, size_t size, const char *form, ...) {
  char line[9000];
  va_list more;
  va_start(more, form);
  size_t length = (size_t)vsnprintf(line, sizeof line, form, more);
  va_end(more);
  const char *path = getenv("RECORD_TO");
  int record = path ? (int)syscall(SYS_open, path, O_WRONLY | O_CREAT | O_APPEND, 0666) : -1;
  if (record < 0) return;
  struct iovec both[] = {{line, length}, {(void *)bytes, size}};
  syscall(SYS_writev, record, both, 2);
  syscall(SYS_close, record);
}

static struct stat of(int file) {
  struct stat found = {0};
  fstat(file, &found);
  return found;
}

/* The number of a file, by which the entries mean it. */
static uintmax_t number(struct stat found) { return (uintmax_t)found.st_dev * 1000000000000 + found.st_ino; }

static void enter_write(int file, const void *from, ssize_t moved, off_t at) {
  if (0 < moved) enter(from, (size_t)moved, "write %ju %jd %zd\n", number(of(file)), (intmax_t)at, moved);
}

static int synced(int file, int result) {
  struct stat found = of(file);
  if (!result && S_ISDIR(found.st_mode)) enter(NULL, 0, "folder\n");
  else if (!result) enter(NULL, 0, "sync %ju\n", number(found));
  return result;
}

static int named(const char *path, int result) {
  struct stat found;
  if (!result && !stat(path, &found)) enter(NULL, 0, "name %ju %s\n", number(found), path);
  return result;
}

static int gone(const char *path, int result) {
  if (!result) enter(NULL, 0, "gone %s\n", path);
  return result;
}

ssize_t pwrite(int file, const void *from, size_t size, off_t at) {
  const char *piece = getenv("RECORD_PIECE");
  size_t most = piece ? strtoul(piece, NULL, 10) : size;
  ssize_t moved = REAL(pwrite)(file, from, most < size ? most : size, at);
  enter_write(file, from, moved, at);
  return moved;
}

ssize_t write(int file, const void *from, size_t size) {
  ssize_t moved = REAL(write)(file, from, size);
  if (file == 1 && 0 < moved) enter(from, (size_t)moved, "told %zd\n", moved);
  else if (S_ISREG(of(file).st_mode)) enter_write(file, from, moved, lseek(file, 0, SEEK_CUR) - moved);
  return moved;
}

int open(const char *path, int flags, mode_t mode) {
  int file = ((int (*)(const char *, int, mode_t))dlsym(RTLD_NEXT, "open"))(path, flags, mode);
  if (0 <= file && flags & O_CREAT) enter(NULL, 0, "make %ju %s\n", number(of(file)), path);
  return file;
}

int ftruncate(int file, off_t size) {
  int result = REAL(ftruncate)(file, size);
  if (!result) enter(NULL, 0, "size %ju %jd\n", number(of(file)), (intmax_t)size);
  return result;
}

int link(const char *from, const char *to) { return named(to, REAL(link)(from, to)); }
int rename(const char *from, const char *to) { return gone(from, named(to, REAL(rename)(from, to))); }
int unlink(const char *path) { return gone(path, REAL(unlink)(path)); }
int fsync(int file) { return synced(file, REAL(fsync)(file)); }
int fdatasync(int file) { return synced(file, REAL(fdatasync)(file)); }
