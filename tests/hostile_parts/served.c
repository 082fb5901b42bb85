/* Preloaded into a program: runs it once for each of many inputs, each time in a process of its own that is split off before main,
   which takes half the time of a start.

   SERVED=1   the standard input has the inputs, each after its length; to the standard output goes for each of them the status of its
              run, or 1000 and the number of the signal that ended it, then the length of what the run wrote to out, then that. Numbers
              have four bytes. A run is ended after SECONDS. */
#define _GNU_SOURCE
#include <fcntl.h>
#include <stdint.h>
#include <stdlib.h>
#include <sys/mman.h>
#include <sys/sendfile.h>
#include <sys/stat.h>
#include <sys/wait.h>
#include <unistd.h>

enum { SECONDS = 60, FAILED = 99 };

static void give_up(void) {
  _exit(FAILED);
}

/* Takes so many bytes; answers false at the end of the input. */
static int take(int from, void *into, size_t size) {
  for (size_t taken = 0; taken < size;) {
    ssize_t came = read(from, (char *)into + taken, size - taken);
    if (came < 0 || (came == 0 && taken > 0)) give_up();
    if (came == 0) return 0;
    taken += came;
  }
  return 1;
}

static void put(int to, const void *from, size_t size) {
  if (write(to, from, size) != (ssize_t)size) give_up();
}

/* Sends a file from its beginning to its end. */
static void send_all(int to, int file, size_t size) {
  off_t place = 0;
  while ((size_t)place < size)
    if (sendfile(to, file, &place, size - place) <= 0) give_up();
}

static void empty(int file) {
  if (ftruncate(file, 0) || lseek(file, 0, SEEK_SET)) give_up();
}

/* Puts the next input into a file; answers false if there is none. */
static int take_input(int from, int file) {
  uint32_t size;
  if (!take(from, &size, sizeof size)) return 0;
  char *data = malloc(size + 1);
  if (data == NULL || (size && !take(from, data, size))) give_up();
  empty(file);
  put(file, data, size);
  lseek(file, 0, SEEK_SET);
  free(data);
  return 1;
}

/* Tells how a run ended, and what it wrote. */
static void tell(int to, pid_t run, int out) {
  int ended;
  struct stat stat;
  if (waitpid(run, &ended, 0) != run || fstat(out, &stat)) give_up();
  uint32_t head[] = {WIFEXITED(ended) ? WEXITSTATUS(ended) : 1000 + WTERMSIG(ended), stat.st_size};
  put(to, head, sizeof head);
  send_all(to, out, stat.st_size);
}

__attribute__((constructor)) static void start(void) {
  if (getenv("SERVED") == NULL) return;
  int from = fcntl(0, F_DUPFD_CLOEXEC, 100), to = fcntl(1, F_DUPFD_CLOEXEC, 100);
  int input = memfd_create("in", MFD_CLOEXEC), out = memfd_create("out", MFD_CLOEXEC), err = open("/dev/null", O_WRONLY | O_CLOEXEC);
  if (from < 0 || to < 0 || input < 0 || out < 0 || err < 0) give_up();
  while (take_input(from, input)) {
    empty(out);
    pid_t run = fork();
    if (run < 0) give_up();
    if (run == 0) {
      dup2(input, 0);
      dup2(out, 1);
      dup2(err, 2);
      alarm(SECONDS);
      return;
    }
    tell(to, run, out);
  }
  _exit(0);
}
