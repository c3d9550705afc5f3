// Stands between the program and the C library, and refuses, fails or shortens calls as the environment asks.
// Built as a shared object and loaded before the program (LD_PRELOAD). N counts the calls of each kind from 1.
//   REFUSE=N         the Nth request for memory is refused
//   REFUSE_FROM=N    the Nth and all later requests for memory are refused
//   FAIL_INPUT=N:E   the Nth read of standard input fails with error number E
//   FAIL_OUTPUT=N:E, FAIL_ERRORS=N:E    so does the Nth write of standard output, or of standard error; with 0 for E it takes
//                    no byte and tells no error
//   SHORT_INPUT=N, SHORT_OUTPUT=N, SHORT_ERRORS=N    the Nth read or write moves one byte at most
//   SHORT=1          each read and write does so
//   COUNTS=FILE      at the end FILE gets the number of requests for memory, of reads, and of writes of each kind
//   MARKED=1         requests are counted and refused only from the first write of the line `begin` to the first of `end`
//   CASES=FILE       each of the cases above but SHORT=1 is tried for each call N, in a child that is forked at that call and
//                    goes on from there, while the process itself goes on with nothing refused. For each case FILE gets a line
//                    with the status of the child (of one that a signal N ended: -N), how many bytes it wrote to standard
//                    output and standard error, and the case; and then these bytes. All three streams have to be ordinary files
//                    that can be read. While there are threads nothing is tried: a fork copies only the one that calls.
//   KINDS=..         which kinds of calls CASES tries: words of MEMORY INPUT OUTPUT ERRORS
//   EACH=N           of each kind only the first call is tried, and each Nth after it
#define _GNU_SOURCE
#include <errno.h>
#include <fcntl.h>
#include <stddef.h>
#include <stdio.h>
#include <stdlib.h>
#include <string.h>
#include <sys/mman.h>
#include <sys/sendfile.h>
#include <sys/stat.h>
#include <sys/syscall.h>
#include <sys/types.h>
#include <sys/wait.h>
#include <unistd.h>

extern void *__libc_malloc(size_t);
extern void *__libc_calloc(size_t, size_t);
extern void *__libc_realloc(void *, size_t);
extern void *__libc_memalign(size_t, size_t);

enum { INPUT, OUTPUT, ERRORS, STREAMS };
static const char *const names[STREAMS] = {"INPUT", "OUTPUT", "ERRORS"};
// How a call fails that is tried; a read that takes no byte has not failed.
static const unsigned long errors[] = {EIO, EINTR, 0};
// A child that has not ended after so many seconds is ended.
static const unsigned most_seconds = 60;

// The calls on a stream so far, and which of them fails, with which error, and which moves one byte.
struct stream {
  unsigned long calls, failing, error, shortened;
};
static struct stream streams[STREAMS];
static unsigned long requests, refuse, refuse_from, is_short, each;
// Whether requests are counted: from the start on, or between the marks, of which each counts once.
static int is_counting, is_begun, is_ended;
static const char *counts, *kinds;
// The file of the cases, or -1 where none is tried; and the files in memory that each child writes to in turn.
static int cases = -1, outputs[STREAMS];

// The number that the environment gives to a name, and the one behind its colon; 0 where there is none.
static unsigned long asked(const char *name, const char *stream, unsigned long *second) {
  char whole[32];
  snprintf(whole, sizeof whole, "%s%s", name, stream);
  char *text = getenv(whole);
  unsigned long number = text ? strtoul(text, &text, 10) : 0;
  *second = text && *text == ':' ? strtoul(text + 1, 0, 10) : 0;
  return number;
}

__attribute__((constructor)) static void begin(void) {
  unsigned long none;
  refuse = asked("REFUSE", "", &none), refuse_from = asked("REFUSE_FROM", "", &none), is_short = asked("SHORT", "", &none);
  for (int file = INPUT; file < STREAMS; file++) {
    streams[file].failing = asked("FAIL_", names[file], &streams[file].error);
    streams[file].shortened = asked("SHORT_", names[file], &none);
  }
  counts = getenv("COUNTS"), kinds = getenv("KINDS");
  const char *name = getenv("CASES");
  if (name && kinds) {
    each = asked("EACH", "", &none);
    cases = open(name, O_WRONLY | O_CREAT | O_TRUNC, 0600);
    for (int file = OUTPUT; file < STREAMS; file++) outputs[file] = memfd_create(names[file], 0);
  }
  is_counting = !asked("MARKED", "", &none);
  is_begun = is_ended = is_counting;
}

__attribute__((destructor)) static void end(void) {
  char text[128];
  if (!counts) return;
  int length = snprintf(text, sizeof text, "%lu %lu %lu %lu\n", requests, streams[INPUT].calls, streams[OUTPUT].calls,
                        streams[ERRORS].calls);
  int file = open(counts, O_WRONLY | O_CREAT | O_TRUNC, 0600);
  if (file >= 0) syscall(SYS_write, file, text, length), close(file);
}

// A program that may start threads ends so, and no destructor is called then.
void _exit(int status) {
  end();
  for (;;) syscall(SYS_exit_group, status);
}

// Cases that are tried.

static off_t size_of(int file) {
  struct stat it;
  if (fstat(file, &it)) abort();
  return it.st_size;
}

static void copy(int to, int from) {
  off_t at = 0, size = size_of(from);
  while (at < size)
    if (sendfile(to, from, &at, size - at) <= 0) abort();
}

static int is_tried(const char *kind, unsigned long nth) {
  if (cases < 0 || !strstr(kinds, kind) || (each && (nth - 1) % each)) return 0;
  struct stat it; // (the folder has a link for each thread, and two of its own)
  return stat("/proc/self/task", &it) == 0 && it.st_nlink == 3;
}

// A child has streams of its own, which begin where those of its parent are.
static void begin_child(void) {
  int input = open("/proc/self/fd/0", O_RDONLY);
  if (input < 0 || lseek(input, lseek(INPUT, 0, SEEK_CUR), SEEK_SET) < 0 || dup2(input, INPUT) < 0) abort();
  for (int file = OUTPUT; file < STREAMS; file++)
    if (dup2(outputs[file], file) < 0) abort();
  close(input);
  cases = -1, counts = 0;
  alarm(most_seconds);
}

// Forks, and records what comes of the child; returns 1 in the child, which is to meet this case, and then 0 in its parent.
static int is_child(const char *name, const char *stream, unsigned long nth, const char *how) {
  for (int file = OUTPUT; file < STREAMS; file++) {
    if (ftruncate(outputs[file], 0) || lseek(outputs[file], 0, SEEK_SET)) abort();
    copy(outputs[file], file);
  }
  int status;
  pid_t child = fork();
  if (child == 0) return begin_child(), 1;
  if (child < 0 || waitpid(child, &status, 0) != child) abort();
  status = WIFEXITED(status) ? WEXITSTATUS(status) : -WTERMSIG(status);
  char line[128]; // (dprintf asks for memory)
  int length = snprintf(line, sizeof line, "%d %ld %ld %s%s=%lu%s\n", status, (long)size_of(outputs[OUTPUT]),
                        (long)size_of(outputs[ERRORS]), name, stream, nth, how);
  if (syscall(SYS_write, cases, line, length) != length) abort();
  for (int file = OUTPUT; file < STREAMS; file++) copy(cases, outputs[file]);
  return 0;
}

static void try_request(unsigned long nth) {
  if (!is_tried("MEMORY", nth)) return;
  if (is_child("REFUSE", "", nth, ""))
    refuse = nth;
  else if (is_child("REFUSE_FROM", "", nth, ""))
    refuse_from = nth;
}

static void try_call(int file, struct stream *it) {
  char how[16];
  if (!is_tried(names[file], it->calls)) return;
  for (size_t i = 0; i < sizeof errors / sizeof *errors; i++) {
    if (file == INPUT && !errors[i]) continue;
    snprintf(how, sizeof how, ":%lu", errors[i]);
    if (is_child("FAIL_", names[file], it->calls, how)) {
      it->failing = it->calls, it->error = errors[i];
      return;
    }
  }
  if (!is_short && is_child("SHORT_", names[file], it->calls, "")) it->shortened = it->calls;
}

// The calls.

// What the program asks for before its own start, by the C library alone, is neither counted nor refused.
static int is_refused(void) {
  if (!__atomic_load_n(&is_counting, __ATOMIC_SEQ_CST)) return 0;
  unsigned long nth = __atomic_add_fetch(&requests, 1, __ATOMIC_SEQ_CST);
  try_request(nth);
  if (nth != refuse && (!refuse_from || nth < refuse_from)) return 0;
  errno = ENOMEM;
  return 1;
}

void *malloc(size_t size) { return is_refused() ? 0 : __libc_malloc(size); }
void *calloc(size_t count, size_t size) { return is_refused() ? 0 : __libc_calloc(count, size); }
void *realloc(void *old, size_t size) { return is_refused() ? 0 : __libc_realloc(old, size); }
void *aligned_alloc(size_t align, size_t size) { return is_refused() ? 0 : __libc_memalign(align, size); }
int posix_memalign(void **to, size_t align, size_t size) {
  *to = is_refused() ? 0 : __libc_memalign(align, size);
  return *to ? 0 : ENOMEM;
}

static int is_line(const char *line, const void *from, size_t size) {
  return size == strlen(line) && memcmp(line, from, size) == 0;
}

// A mark is counted from its write on, whether or not that fails.
static void look_for_marks(const void *from, size_t size) {
  if (!is_begun && is_line("begin\n", from, size)) {
    is_begun = 1;
    __atomic_store_n(&is_counting, 1, __ATOMIC_SEQ_CST);
  } else if (is_begun && !is_ended && is_line("end\n", from, size)) {
    is_ended = 1;
    __atomic_store_n(&is_counting, 0, __ATOMIC_SEQ_CST);
  }
}

static int fails(int file) {
  struct stream *it = &streams[file];
  it->calls++;
  try_call(file, it);
  return it->calls == it->failing;
}

static ssize_t failed(int file) {
  errno = (int)streams[file].error;
  return errno ? -1 : 0;
}

static size_t at_most(size_t size, int file) {
  const struct stream *it = &streams[file];
  return (is_short || it->calls == it->shortened) && size > 1 ? 1 : size;
}

ssize_t read(int file, void *to, size_t size) {
  if (file != INPUT) return syscall(SYS_read, file, to, size);
  return fails(file) ? failed(file) : syscall(SYS_read, file, to, at_most(size, file));
}

ssize_t write(int file, const void *from, size_t size) {
  if (file != OUTPUT && file != ERRORS) return syscall(SYS_write, file, from, size);
  if (file == OUTPUT) look_for_marks(from, size);
  return fails(file) ? failed(file) : syscall(SYS_write, file, from, at_most(size, file));
}

ssize_t __write(int file, const void *from, size_t size) { return write(file, from, size); }
