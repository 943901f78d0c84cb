/* Loaded into a program by LD_PRELOAD, this runs it again and again, each time in a process of its
   own, and refuses requests for memory. Each run begins with a fork, before `main`, so that the
   program is loaded only once.

   tests/parts/again.py writes the runs to descriptor 198, one at a time. A run is its number, the
   seconds after which SIGALRM ends it, the number of the first request that is refused, that of the
   last one, 0 and 0 for none, and the words of the program, each with a zero byte behind it. It has
   as many words as the program was started with, and at most 4,096 bytes, which a pipe hands over
   whole. The answer on descriptor 199 is the run's number, the exit status, or the number of the
   signal below 0, and whether a request was refused.

   The program and the C library get all their memory by these functions: the program itself calls
   malloc, realloc and free alone. */

#include <errno.h>
#include <stdio.h>
#include <stdlib.h>
#include <string.h>
#include <sys/mman.h>
#include <sys/wait.h>
#include <unistd.h>

enum { RUNS = 198, ANSWERS = 199, LONGEST = 4096 };

/* The functions of glibc that take their places. */
extern void *__libc_malloc(size_t);
extern void *__libc_calloc(size_t, size_t);
extern void *__libc_realloc(void *, size_t);
extern void *__libc_memalign(size_t, size_t);

struct run { unsigned long number, seconds, first, last; };

static unsigned long first, last, requests;
/* Shared by the processes. */
static int *has_refused;

static int is_refused(void) {
  requests++;
  if (requests < first || requests > last) return 0;
  *has_refused = 1;
  errno = ENOMEM;
  return 1;
}

void *malloc(size_t size) { return is_refused() ? NULL : __libc_malloc(size); }
void *calloc(size_t count, size_t size) { return is_refused() ? NULL : __libc_calloc(count, size); }
void *realloc(void *old, size_t size) { return is_refused() ? NULL : __libc_realloc(old, size); }
void *memalign(size_t to, size_t size) { return is_refused() ? NULL : __libc_memalign(to, size); }
void *aligned_alloc(size_t to, size_t size) { return memalign(to, size); }

int posix_memalign(void **place, size_t to, size_t size) {
  void *memory = memalign(to, size);
  if (memory == NULL) return ENOMEM;
  *place = memory;
  return 0;
}

/* Reads the next run, whose words take the places of the program's. */
static struct run read_run(char *text, int count, char **words) {
  ssize_t length = read(RUNS, text, LONGEST);
  if (length == 0) _exit(0);
  if (length < 0 || text[length - 1] != '\0') _exit(1);
  struct run it;
  char *at = text;
  it.number = strtoul(at, &at, 10);
  it.seconds = strtoul(at, &at, 10);
  it.first = strtoul(at, &at, 10);
  it.last = strtoul(at, &at, 10);
  for (int word = 1; word < count; word++) {
    at += strlen(at) + 1;
    words[word] = at;
  }
  return it;
}

/* Answers how the run of this number has ended. */
static void answer(unsigned long number, int ended) {
  char text[64];
  int status = WIFEXITED(ended) ? WEXITSTATUS(ended) : -WTERMSIG(ended);
  int length = snprintf(text, sizeof text, "%lu %d %d\n", number, status, *has_refused);
  if (write(ANSWERS, text, length) != length) _exit(1);
}

/* Returns into `main` in the process of each run. One that does not end is ended by a signal. */
__attribute__((constructor)) static void serve(int count, char **words) {
  static char text[LONGEST];
  int access = PROT_READ | PROT_WRITE, kind = MAP_SHARED | MAP_ANONYMOUS;
  has_refused = mmap(NULL, sizeof *has_refused, access, kind, -1, 0);
  if (has_refused == MAP_FAILED) _exit(1);
  for (;;) {
    int ended;
    struct run run = read_run(text, count, words);
    *has_refused = 0;
    lseek(STDIN_FILENO, 0, SEEK_SET);
    pid_t child = fork();
    if (child < 0) _exit(1);
    if (child == 0) {
      close(RUNS);
      close(ANSWERS);
      alarm(run.seconds);
      requests = 0, first = run.first, last = run.last;
      return;
    }
    if (waitpid(child, &ended, 0) != child) _exit(1);
    answer(run.number, ended);
  }
}
