/* Faults from outside, preloaded into a program: for N = 1, 2, .. the program is run with its N-th call of one kind refused, up to
   the first N that it does not come to, or at which it hangs. What each run tells is compared with what the row tells undisturbed,
   and with what is said of that kind of fault. The last line on the standard output is 'N passed, M failed, U undisturbed': of the
   refused calls.

   FAULTS=memory|thread|read|write|told   the kind: requests of memory, starts of threads, reads of the input, writes to out or err
   FAULTS_ROW=FOLDER   `out`, `err` and `status` there are what the program tells undisturbed; the input is a file
   FAULTS_LASTING=1    from the N-th call on all are refused
   FAULTS_MOST=M       N goes up to M at most
   FAULTS_PIECE=P      each read and write moves at most P bytes
   FAULTS_ERROR=E      the number of the error that a refused read or write tells; 0: a write takes nothing
   FAULTS_MUTE=1       all writes to err are refused besides
   FAULTS_WANTING=L    what is told on err where memory is wanting, with the status 1, of another program than youtopia
   FAULTS_INSIDE=1     for programs with one thread: instead of a run from the start for each N, the one run is split in two at each call,
                       and the half in which the call is refused is taken to its end first
   FAULTS_REPLIES=FILE of yt_live, which replies while it reads: a line 'IN OUT' of the file for each line of the input says that with
                       these IN bytes read, OUT bytes are told. After each refused call there is what was told before it, which has what
                       was due at the last read; after a refused read all that is due, after a refused request whole replies

   FAULTS_SHAKE=S      without FAULTS: nothing is refused, but threads sleep a moment at some of their requests of memory, by numbers
                       drawn with the seed S, so that they meet in other orders */
#define _GNU_SOURCE
#include <dlfcn.h>
#include <errno.h>
#include <fcntl.h>
#include <limits.h>
#include <pthread.h>
#include <signal.h>
#include <stdarg.h>
#include <stdatomic.h>
#include <stdbool.h>
#include <stdio.h>
#include <stdlib.h>
#include <string.h>
#include <sys/mman.h>
#include <sys/sendfile.h>
#include <sys/syscall.h>
#include <sys/wait.h>
#include <unistd.h>

enum kind { MEMORY, THREAD, READ, WRITE, TOLD, KINDS };
static const char *const NAMES[KINDS] = {"memory", "thread", "read", "write", "told"};

enum { SECONDS = 60, SHOWN = 20, HUNG = 1000 + SIGALRM, MOST_REPLIES = 4096 };

/* What a run tells. */
struct telling {
  int status;
  const char *out, *err;
  size_t out_size, err_size;
};

static enum kind kind = KINDS;      /* KINDS: nothing is counted */
static bool lasting, mute, inside;
static size_t piece;
static int error = EIO;
static struct telling own;
static const char *wanting;
static const char *program = "youtopia";
static struct { size_t in, out; } replies[MOST_REPLIES];
static int reply_count;             /* 0: the program tells nothing before it has read all */

static bool attacked;               /* this is a run with a refused call */
static long target;                 /* the number of that call */
static long most;                   /* the last call that is attacked */
static atomic_long calls;
static struct {
  size_t in, out, last;             /* how many came of the input, went to out, and had come before the last read */
} bytes;
static struct {
  atomic_bool reached;
  size_t in, out, last;
} *at;                              /* shared with the run: whether it came to the call, and with how many bytes */
static long passed, failed, undisturbed;
static int report = -1;

extern void *__libc_malloc(size_t), *__libc_calloc(size_t, size_t), *__libc_realloc(void *, size_t), *__libc_memalign(size_t, size_t);

/* ---- telling ---- */

static void say(const char *form, ...) {
  char line[400];
  va_list values;
  va_start(values, form);
  int size = vsnprintf(line, sizeof line, form, values);
  va_end(values);
  syscall(SYS_write, report, line, size < (int)sizeof line ? size : (int)sizeof line);
}

static void give_up(const char *what) {
  say("FAILED faults.c: %s: %s\n0 passed, 1 failed, 0 undisturbed\n", what, strerror(errno));
  _exit(99);
}

/* All bytes of a file. */
static const char *bytes_of(int file, size_t *size) {
  off_t end = lseek(file, 0, SEEK_END);
  if (end < 0) give_up("no file");
  *size = end;
  if (end == 0) return "";
  void *all = mmap(NULL, end, PROT_READ, MAP_PRIVATE, file, 0);
  if (all == MAP_FAILED) give_up("mmap");
  return all;
}

static const char *stored(const char *folder, const char *name, size_t *size) {
  char path[4096];
  snprintf(path, sizeof path, "%s/%s", folder, name);
  int file = open(path, O_RDONLY | O_CLOEXEC);
  if (file < 0) give_up(path);
  const char *all = bytes_of(file, size);
  close(file);
  return all;
}

/* ---- judging ---- */

static bool same(const struct telling *told, const struct telling *wanted) {
  size_t err_size = mute ? 0 : wanted->err_size;
  return told->status == wanted->status && told->out_size == wanted->out_size && told->err_size == err_size
    && memcmp(told->out, wanted->out, told->out_size) == 0 && memcmp(told->err, wanted->err, err_size) == 0;
}

/* What is told with a status on err, after these bytes on out. */
static struct telling failure(int status, size_t out_size, const char *why) {
  static char line[100];
  snprintf(line, sizeof line, "%s: %s\n", program, why);
  return (struct telling){status, own.out, line, out_size, strlen(line)};
}

/* How many bytes are told with so many read. */
static size_t due_with(size_t read) {
  size_t due = 0;
  for (int i = 0; i < reply_count && replies[i].in <= read; i++) due = replies[i].out;
  return due;
}

/* Whether so many bytes on out are a number of whole replies. */
static bool is_whole(size_t size) {
  if (size == 0 || size == own.out_size) return true;
  for (int i = 0; i < reply_count; i++)
    if (replies[i].out == size) return true;
  return false;
}

/* Whether this is what has to be told where call N was refused. */
static bool is_right(const struct telling *told, long number) {
  size_t taken = piece * (number - 1);
  struct telling wanted = own;
  switch (kind) {
  case READ:
    wanted = failure(5, due_with(at->in), "read fault");
    return same(told, &wanted);
  case WRITE:
    if (reply_count) taken = at->out;
    wanted = failure(6, taken, "write fault");
    return taken < own.out_size && due_with(at->last) <= taken && same(told, &wanted);
  case TOLD:
    wanted.err_size = taken;
    return taken < own.err_size && same(told, &wanted);
  default:
    if (same(told, &own)) {
      undisturbed++;
      return true;
    }
    wanted = failure(7, reply_count ? at->out : 0, "out of memory");
    if (wanting != NULL) wanted = (struct telling){1, own.out, wanting, 0, strlen(wanting)};
    return is_whole(wanted.out_size) && due_with(at->last) <= wanted.out_size && same(told, &wanted);
  }
}

static void sum_up(void) {
  static bool done;
  if (done) return;
  done = true;
  say("%ld passed, %ld failed, %ld undisturbed\n", passed, failed, undisturbed);
}

static void judge(const struct telling *told, long number) {
  bool right = at->reached ? is_right(told, number) : same(told, &own);
  if (right) {
    passed += at->reached;
  } else if (failed++ < SHOWN) {
    say("FAILED %s %ld%s: status %d, %zu bytes on out, on err: %.*s\n", NAMES[kind], number, at->reached ? "" : ", which was not reached",
        told->status, told->out_size, (int)(told->err_size < 100 ? told->err_size : 100), told->err);
  }
  if (told->status == HUNG) {
    sum_up();
    _exit(1);
  }
}

/* ---- running ---- */

/* Has a stream go on in a file, after what it was told so far in the run that is split. */
static void go_on(int stream, int file) {
  off_t start = 0, size = inside ? lseek(stream, 0, SEEK_CUR) : 0;
  if (size > 0 && sendfile(file, stream, &start, size) != size) give_up("sendfile");
  dup2(file, stream);
}

/* In the run that is to be attacked: its streams, and its clock. */
static void begin(long number, int out, int err) {
  attacked = true;
  target = number;
  go_on(1, out);
  go_on(2, err);
  alarm(SECONDS);
}

static int ended(pid_t run) {
  int status;
  while (waitpid(run, &status, 0) < 0)
    if (errno != EINTR) give_up("waitpid");
  return WIFEXITED(status) ? WEXITSTATUS(status) : 1000 + WTERMSIG(status);
}

/* Tells with how many bytes the run came to the call. */
static void note_bytes(void) {
  at->in = bytes.in;
  at->out = bytes.out;
  at->last = bytes.last;
}

/* Splits: answers true in the new run whose call of this number is to be refused, and false after it. */
static bool attack(long number) {
  int out = memfd_create("out", MFD_CLOEXEC), err = memfd_create("err", MFD_CLOEXEC);
  off_t place = lseek(0, 0, SEEK_CUR);
  at->reached = inside;
  note_bytes();
  pid_t run = fork();
  if (out < 0 || err < 0 || run < 0) give_up("fork");
  if (run == 0) {
    begin(number, out, err);
    return true;
  }
  struct telling end = {.status = ended(run)};
  end.out = bytes_of(out, &end.out_size);
  end.err = bytes_of(err, &end.err_size);
  judge(&end, number);
  if (end.out_size) munmap((void *)end.out, end.out_size);
  if (end.err_size) munmap((void *)end.err, end.err_size);
  close(out);
  close(err);
  lseek(0, place, SEEK_SET);
  return false;
}

/* Whether this call, of this kind, is to be refused. */
static bool refuses(enum kind which) {
  if (which != kind) return false;
  long number = atomic_fetch_add(&calls, 1) + 1;
  if (!attacked) return inside && number <= most && attack(number);
  if (number < target || (number > target && !lasting)) return false;
  if (number == target) {
    at->reached = true;
    note_bytes();
  }
  return true;
}

/* ---- shaking ---- */

static unsigned long shaken;        /* the seed; 0: threads are let alone */

/* Every eighth time or so, sleeps up to 60 microseconds. */
static void shake(void) {
  static _Thread_local unsigned long drawn;
  if (drawn == 0) drawn = (shaken + (unsigned long)atomic_fetch_add(&calls, 1)) * 0x9E3779B97F4A7C15 | 1;
  drawn ^= drawn << 13;
  drawn ^= drawn >> 7;
  drawn ^= drawn << 17;
  if (drawn % 8 == 0) usleep(drawn / 8 % 60);
}

/* ---- starting ---- */

static bool says(const char *name) {
  return getenv(name) != NULL;
}

static void read_replies(const char *path) {
  FILE *file = fopen(path, "re");
  if (file == NULL) give_up(path);
  while (reply_count < MOST_REPLIES && fscanf(file, "%zu %zu", &replies[reply_count].in, &replies[reply_count].out) == 2) reply_count++;
  if (reply_count == 0 || !feof(file)) give_up(path);
  fclose(file);
}

static void read_plan(const char *kind_name) {
  lasting = says("FAULTS_LASTING");
  mute = says("FAULTS_MUTE");
  inside = says("FAULTS_INSIDE");
  piece = says("FAULTS_PIECE") ? strtoul(getenv("FAULTS_PIECE"), NULL, 10) : 0;
  wanting = getenv("FAULTS_WANTING");
  if (says("FAULTS_REPLIES")) {
    program = "yt_live";
    read_replies(getenv("FAULTS_REPLIES"));
  }
  most = says("FAULTS_MOST") ? atol(getenv("FAULTS_MOST")) : LONG_MAX;
  error = says("FAULTS_ERROR") ? atoi(getenv("FAULTS_ERROR")) : EIO;
  size_t size;
  const char *row = getenv("FAULTS_ROW");
  if (row == NULL) give_up("FAULTS_ROW");
  own.out = stored(row, "out", &own.out_size);
  own.err = stored(row, "err", &own.err_size);
  own.status = atoi(stored(row, "status", &size));
  at = mmap(NULL, sizeof *at, PROT_READ | PROT_WRITE, MAP_SHARED | MAP_ANONYMOUS, -1, 0);
  if (at == MAP_FAILED) give_up("mmap");
  for (enum kind each = MEMORY; each < KINDS; each++)
    if (strcmp(kind_name, NAMES[each]) == 0) kind = each;
  if (kind == KINDS) give_up(kind_name);
}

/* Before main: all runs from the start, or the beginning of the one that is split. */
__attribute__((constructor)) static void start(void) {
  const char *kind_name = getenv("FAULTS");
  if (says("FAULTS_SHAKE")) shaken = strtoul(getenv("FAULTS_SHAKE"), NULL, 10);
  if (kind_name == NULL) return;
  report = fcntl(1, F_DUPFD_CLOEXEC, 100);
  read_plan(kind_name);
  if (inside) {
    dup2(memfd_create("out", MFD_CLOEXEC), 1);
    dup2(memfd_create("err", MFD_CLOEXEC), 2);
    return;
  }
  long number = 1;
  do {
    lseek(0, 0, SEEK_SET);
    if (attack(number++)) return;
  } while (at->reached && number <= most);
  sum_up();
  _exit(failed > 0);
}

/* After main: the end of the one that is split, which has told what the row tells. */
__attribute__((destructor)) static void stop(void) {
  if (!inside || attacked || kind == KINDS) return;
  struct telling end = {.status = own.status};
  end.out = bytes_of(1, &end.out_size);
  end.err = bytes_of(2, &end.err_size);
  mute = false;
  at->reached = false;
  judge(&end, 0);
  sum_up();
}

/* So ends a program with threads, without its destructors. */
void _exit(int status) {
  stop();
  syscall(SYS_exit_group, status);
  __builtin_unreachable();
}

/* ---- the calls ---- */

static void *none(void) {
  errno = ENOMEM;
  return NULL;
}

void *malloc(size_t size) {
  if (shaken) shake();
  return refuses(MEMORY) ? none() : __libc_malloc(size);
}

void *calloc(size_t count, size_t size) {
  return refuses(MEMORY) ? none() : __libc_calloc(count, size);
}

void *realloc(void *old, size_t size) {
  return refuses(MEMORY) ? none() : __libc_realloc(old, size);
}

void *aligned_alloc(size_t alignment, size_t size) {
  return refuses(MEMORY) ? none() : __libc_memalign(alignment, size);
}

int posix_memalign(void **place, size_t alignment, size_t size) {
  if (refuses(MEMORY)) return ENOMEM;
  void *made = __libc_memalign(alignment, size);
  if (made == NULL) return ENOMEM;
  *place = made;
  return 0;
}

int pthread_create(pthread_t *thread, const pthread_attr_t *attributes, void *(*run)(void *), void *value) {
  static int (*real)(pthread_t *, const pthread_attr_t *, void *(*)(void *), void *);
  if (refuses(THREAD)) return EAGAIN;
  if (real == NULL) real = dlsym(RTLD_NEXT, "pthread_create");
  return real(thread, attributes, run, value);
}

static ssize_t refused(void) {
  errno = error;
  return error == 0 ? 0 : -1;
}

ssize_t read(int file, void *into, size_t room) {
  if (file == 0 && refuses(READ)) return refused();
  ssize_t came = syscall(SYS_read, file, into, file == 0 && piece && piece < room ? piece : room);
  if (file == 0 && came >= 0) {
    bytes.last = bytes.in;
    bytes.in += came;
  }
  return came;
}

ssize_t write(int file, const void *from, size_t size) {
  bool counts = file == 1 || file == 2;
  if ((file == 1 && refuses(WRITE)) || (file == 2 && (refuses(TOLD) || (mute && attacked)))) return refused();
  ssize_t went = syscall(SYS_write, file, from, counts && piece && piece < size ? piece : size);
  if (file == 1 && went > 0) bytes.out += went;
  return went;
}
