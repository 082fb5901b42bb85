// Feeds yt with what a fuzzer makes, many inputs in one process: the program is linked in, its main by the name program_main, its words come from
// here, and its branches count into the fuzzer's map. The kind of input is KIND in the environment: `scripts`, `files`, `records`, `workspaces` or `words`. Each input
// has a workspace of its own in an empty folder. It aborts, which the fuzzer keeps, if the status is none that such an input can have, if a second
// of processor passes, if a reply in JSON is no line of its own, or if the workspace cannot be read afterwards. It leaves out inputs that ask for
// 10,000 steps or more, which may take longer.
#define _GNU_SOURCE
#include <ctype.h>
#include <dirent.h>
#include <fcntl.h>
#include <openssl/sha.h>
#include <stdint.h>
#include <stdio.h>
#include <stdlib.h>
#include <string.h>
#include <sys/mman.h>
#include <sys/stat.h>
#include <time.h>
#include <unistd.h>

#define FILE_NAME "w.yt"
#define ROWS_NAME "rows.csv"
#define LOOKS "show\nlog\nquestions\nviolations\nstatus\n"
#define BEGIN                                                                                                                              \
  "relation A(x*, y)\nrelation B(name, town, born)\ninsert A(1, ?), A(\"a\", \"Utrecht\")\nmapping m: B(n, t, b) -> A(n, u)\n"
enum { MOST_WORDS = 40, MOST_RECORDS = 200, SEAL = 16, HEAD = 4 + SEAL + 1, SECOND = 1000000, MOST_DIGITS = 4 };

int program_main(int argc, char **argv);

static const char *kind;
static char **said;        // the words of the command line
static size_t said_count;
static int streams[3];     // files in memory, in place of the standard streams
static int told;           // the stream of faults that the harness was started with

// In place of the program's own, which have the words that the process was started with.
size_t rattle_arg_count(void) {
  return said_count;
}

long rattle_arg(size_t number, char *at, size_t room) {
  if (number >= said_count) return -1;
  size_t length = strlen(said[number]);
  if (length > room) return -2;
  memcpy(at, said[number], length);
  return length;
}

static void fails(const char *why, int status) {
  dprintf(told, "guided: %s, status %d\n", why, status);
  abort();
}

static void rewind_to(int file, const void *data, size_t size) {
  if (ftruncate(file, 0) || pwrite(file, data, size, 0) != (ssize_t)size || lseek(file, 0, SEEK_SET)) fails("no room", 0);
}

// Removes all that stands in the folder.
static void clear(void) {
  DIR *folder = opendir(".");
  for (struct dirent *entry; (entry = readdir(folder));) unlink(entry->d_name);
  closedir(folder);
}

static void put(const char *name, const void *data, size_t size) {
  int file = open(name, O_WRONLY | O_CREAT | O_TRUNC, 0666);
  rewind_to(file, data, size);
  close(file);
}

static long worked(void) {
  struct timespec now;
  clock_gettime(CLOCK_PROCESS_CPUTIME_ID, &now);
  return now.tv_sec * SECOND + now.tv_nsec / 1000;
}

// Whether each line of what was written is an object.
static int has_objects(void) {
  struct stat stat;
  fstat(streams[1], &stat);
  if (!stat.st_size) return 1;
  char *text = mmap(NULL, stat.st_size, PROT_READ, MAP_PRIVATE, streams[1], 0);
  int fits = text[0] == '{' && text[stat.st_size - 1] == '\n';
  for (off_t place = 0; fits && place < stat.st_size; place++)
    fits = text[place] == '\n' ? text[place - 1] == '}' && (place + 1 == stat.st_size || text[place + 1] == '{') : (unsigned char)text[place] >= ' ';
  munmap(text, stat.st_size);
  return fits;
}

// The status of yt with these words and this input; it is one of those that can be.
static int run(char **words, const void *data, size_t size, const char *can_be) {
  for (said = words, said_count = 0; words[said_count]; said_count++) continue;
  rewind_to(streams[0], data, size);
  rewind_to(streams[1], "", 0);
  rewind_to(streams[2], "", 0);
  long start = worked();
  int status = program_main(said_count, words);
  if (worked() - start > SECOND) fails("more than a second", status);
  char name[16];
  snprintf(name, sizeof name, " %d ", status);
  if (!strstr(can_be, name)) fails("such an input cannot have this status", status);
  return status;
}

static void looks(const char *can_be) {
  char *words[] = {"yt", "--json", "--keep-going", FILE_NAME, NULL};
  if (access(FILE_NAME, F_OK)) return;
  run(words, LOOKS, strlen(LOOKS), can_be);
  if (!has_objects()) fails("a reply is no object", 0);
}

// Lines on a new workspace; after a comment `# json` the replies are objects.
static void scripts(const uint8_t *data, size_t size) {
  int json = size > 6 && !memcmp(data, "# json", 6);
  char *words[] = {"yt", "--no-files", "--keep-going", FILE_NAME, json ? "--json" : NULL, NULL};
  run(words, data, size, " 0 1 2 3 14 ");
  if (json && !has_objects()) fails("a reply is no object", 0);
  looks(" 0 ");
}

// The first line has a relation's name and options of `load`, the other bytes are the file.
static void files(const uint8_t *data, size_t size) {
  const uint8_t *end = memchr(data, '\n', size);
  if (!end || end - data > 200) return;
  int name = strcspn((const char *)data, " \n");
  char script[1000], *words[] = {"yt", "--keep-going", FILE_NAME, NULL};
  int length = snprintf(script, sizeof script, BEGIN "load %.*s " ROWS_NAME "%.*s\n" LOOKS, name, data, (int)(end - data) - name, data + name);
  put(ROWS_NAME, end + 1, data + size - end - 1);
  run(words, script, length, " 0 1 2 3 5 14 ");
  looks(" 0 ");
}

// Puts a record there: its length, its seal, a line feed, its text. The seal is made of that of the record before, if there is one, and the text.
static void put_record(char *at, const char *before, const uint8_t *text, size_t size) {
  unsigned char sum[SHA256_DIGEST_LENGTH];
  memcpy(at + HEAD, text, size);
  if (before) memcpy(at + HEAD - SEAL, before, SEAL);
  SHA256((unsigned char *)at + HEAD - (before ? SEAL : 0), size + (before ? SEAL : 0), sum);
  for (int byte = 0; byte < 4; byte++) at[byte] = (size + HEAD - 4) >> (24 - 8 * byte);
  for (int byte = 0; byte < SEAL / 2; byte++) sprintf(at + 4 + 2 * byte, "%02x", sum[byte]);
  at[HEAD - 1] = '\n';
}

// The texts of records, between them bytes 0, each with its right seal.
static void records(const uint8_t *data, size_t size) {
  char *file = malloc(size + (HEAD + 1) * MOST_RECORDS + 1), *at = file, *before = NULL;
  for (int count = 0; count < MOST_RECORDS; count++) {
    const uint8_t *end = memchr(data, 0, size);
    size_t length = end ? (size_t)(end - data) : size;
    if (before) *at++ = 1;
    put_record(at, before, data, length);
    before = at + 4;
    at += HEAD + length;
    if (!end) break;
    data = end + 1;
    size -= length + 1;
  }
  *at++ = 0;
  put(FILE_NAME, file, at - file);
  free(file);
  looks(" 0 3 12 ");
}

// A file as it is.
static void workspaces(const uint8_t *data, size_t size) {
  put(FILE_NAME, data, size);
  looks(" 0 3 12 ");
}

// Each line is a word of the command line, over a workspace that is there. None leads out of the folder.
static void words(const uint8_t *data, size_t size) {
  static char made[] = BEGIN "insert B(\"b\", ?, 3)\n";
  char *first[] = {"yt", FILE_NAME, NULL}, *words[MOST_WORDS + 2] = {"yt"}, *text = strndup((const char *)data, size);
  run(first, made, strlen(made), " 0 ");
  put(ROWS_NAME, "x,y\n1,2\n", 8);
  int count = 1;
  for (char *rest = text, *word; count <= MOST_WORDS && (word = strsep(&rest, "\n"));) words[count++] = word;
  words[count] = NULL;
  if (!strchr(text, '/')) run(words, LOOKS, strlen(LOOKS), " 0 1 2 3 4 5 6 12 13 14 ");
  free(text);
}

static const struct {
  const char *kind;
  void (*feed)(const uint8_t *, size_t);
} kinds[] = {{"scripts", scripts}, {"files", files}, {"records", records}, {"workspaces", workspaces}, {"words", words}};

int LLVMFuzzerInitialize(int *argc, char ***argv) {
  char folder[4096];
  snprintf(folder, sizeof folder, "%s/guided-XXXXXX", getenv("TMPDIR"));
  kind = getenv("KIND");
  told = fcntl(2, F_DUPFD_CLOEXEC, 100);
  for (int place = 0; place < 3; place++) {
    streams[place] = fcntl(memfd_create("stream", MFD_CLOEXEC), F_DUPFD_CLOEXEC, 100);
    dup2(streams[place], place);
  }
  setenv("YT_TIME", "2026-11-30T09:00:00Z", 1);
  setenv("YT_CURATOR", "ann", 1);
  return (void)argc, (void)argv, !kind || !mkdtemp(folder) || chdir(folder);
}

// Whether a number of steps has more digits than a second is enough for.
static int has_many_steps(const uint8_t *data, size_t size) {
  static const char steps[] = "steps";
  const uint8_t *end = data + size, *at = data;
  while ((at = memmem(at, end - at, steps, strlen(steps)))) {
    int digits = 0;
    for (at += strlen(steps); at < end && isspace(*at); at++) continue;
    for (; at < end && isdigit(*at); at++) digits += digits || *at != '0';
    if (digits > MOST_DIGITS) return 1;
  }
  return 0;
}

int LLVMFuzzerTestOneInput(const uint8_t *data, size_t size) {
  if (has_many_steps(data, size)) return 0;
  clear();
  for (size_t number = 0; number < sizeof kinds / sizeof *kinds; number++)
    if (!strcmp(kind, kinds[number].kind)) kinds[number].feed(data, size);
  return 0;
}
