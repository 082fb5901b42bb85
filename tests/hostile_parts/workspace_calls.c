/* Preloaded into yt: at its N-th call of the system it is killed, or that call fails; or its N-th request of memory is refused. What was
   done is told in a file, so that whoever counts N up knows when yt ends before its N-th call.

   CALLS_AT=N        the call, from 1 on; 0 or none: all calls go through
   CALLS_DO=kill     SIGKILL in place of the call; `killed`: right after it
   CALLS_DO=E        the call fails with the error of this number, and does nothing
   CALLS_DO=short    the call, a read or a write, moves one byte
   CALLS_DO=memory   requests of memory are counted instead, and the N-th is refused
   CALLS_LASTING=1   the later calls of the same name fail too, or all later requests
   CALLS_TOLD=FILE   gets the name of the call */
#define _GNU_SOURCE
#include <dlfcn.h>
#include <errno.h>
#include <linux/fcntl.h>
#include <signal.h>
#include <stdbool.h>
#include <stdlib.h>
#include <string.h>
#include <sys/stat.h>
#include <sys/syscall.h>
#include <unistd.h>

static long left;               /* calls until the one that is meant; 0: it was, or none is */
static bool lasting, of_memory;
static const char *what, *met;  /* what to do; the name of the call that was met */

__attribute__((constructor)) static void begin(void) {
  const char *at = getenv("CALLS_AT");
  left = at ? atol(at) : 0;
  what = getenv("CALLS_DO");
  lasting = getenv("CALLS_LASTING") != NULL;
  of_memory = what && !strcmp(what, "memory");
}

/* Whether this is the call that is meant; it is told. Nothing of this is counted. */
static bool is_meant(const char *name) {
  if (!left || --left) return lasting && met && !strcmp(met, name);
  met = name;
  const char *path = getenv("CALLS_TOLD");
  int told = path ? (int)syscall(SYS_open, path, O_WRONLY | O_CREAT | O_TRUNC, 0666) : -1;
  if (0 <= told) {
    syscall(SYS_write, told, name, strlen(name));
    syscall(SYS_close, told);
  }
  return true;
}

static void die(void) { syscall(SYS_kill, getpid(), SIGKILL); }

/* The call NAME by its ARGUMENTS, unless it is the one that is meant. MOVED is how many bytes it would move. */
#define CALL(TYPE, NAME, PARAMETERS, ARGUMENTS, MOVED, ONE)                    \
  TYPE NAME PARAMETERS {                                                       \
    static TYPE(*real) PARAMETERS;                                             \
    if (!real) real = (TYPE(*) PARAMETERS)dlsym(RTLD_NEXT, #NAME);             \
    if (of_memory || !is_meant(#NAME)) return real ARGUMENTS;                  \
    if (!strcmp(what, "kill")) die();                                          \
    if (!strcmp(what, "killed")) { real ARGUMENTS; die(); }                    \
    if (!strcmp(what, "short")) return (MOVED) ? real ONE : real ARGUMENTS;    \
    errno = atoi(what);                                                        \
    return -1;                                                                 \
  }
#define PLAIN(NAME, PARAMETERS, ARGUMENTS) CALL(int, NAME, PARAMETERS, ARGUMENTS, 0, ARGUMENTS)

CALL(ssize_t, read, (int file, void *into, size_t size), (file, into, size), size, (file, into, 1))
CALL(ssize_t, write, (int file, const void *from, size_t size), (file, from, size), size, (file, from, 1))
CALL(ssize_t, pwrite, (int file, const void *from, size_t size, off_t at), (file, from, size, at), size, (file, from, 1, at))
CALL(off_t, lseek, (int file, off_t by, int from), (file, by, from), 0, (file, by, from))
PLAIN(open, (const char *path, int flags, mode_t mode), (path, flags, mode))
PLAIN(close, (int file), (file))
PLAIN(flock, (int file, int how), (file, how))
PLAIN(fsync, (int file), (file))
PLAIN(fdatasync, (int file), (file))
PLAIN(ftruncate, (int file, off_t size), (file, size))
PLAIN(link, (const char *from, const char *to), (from, to))
PLAIN(rename, (const char *from, const char *to), (from, to))
PLAIN(unlink, (const char *path), (path))
PLAIN(chmod, (const char *path, mode_t mode), (path, mode))
PLAIN(fchmod, (int file, mode_t mode), (file, mode))
PLAIN(statx, (int folder, const char *restrict path, int flags, unsigned int mask, struct statx *restrict into), (folder, path, flags, mask, into))

extern void *__libc_malloc(size_t), *__libc_realloc(void *, size_t);

void *malloc(size_t size) { return of_memory && is_meant("memory") ? NULL : __libc_malloc(size); }
void *realloc(void *place, size_t size) { return of_memory && is_meant("memory") ? NULL : __libc_realloc(place, size); }
