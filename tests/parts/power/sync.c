/* Loaded into a node by LD_PRELOAD, this notes what the node may rely on if the power fails now:
   for tests/power.

   POWER_RECORD is the path of the node's record, and POWER_NOTES a file to which a line is appended
   for each of these calls that succeeds: the time in seconds as CLOCK_MONOTONIC has it, the kind, a
   length in bytes and a path.

     sync LENGTH PATH     fsync or fdatasync of the file or folder at PATH, which then has this
                          length
     rename 0 PATH        a file got this name
     answer LENGTH PATH   the node is about to send a datagram or to show a byte, while its record
                          at PATH has another length than at the answer before

   The note of a sync or a rename is made when it is done, and that of an answer before it. If
   POWER_DELAY is not 0, this many microseconds pass before each sync of the record or its second
   file: as much time as a busy machine may take between a write and the sync. */

#define _GNU_SOURCE
#include <dlfcn.h>
#include <fcntl.h>
#include <limits.h>
#include <signal.h>
#include <stdio.h>
#include <stdlib.h>
#include <string.h>
#include <sys/prctl.h>
#include <sys/socket.h>
#include <sys/stat.h>
#include <sys/syscall.h>
#include <time.h>
#include <unistd.h>

static const char *record, *notes;
static unsigned delay;
static int output = -1;
static off_t answered = -1;

__attribute__((constructor)) static void begin(void) {
  record = getenv("POWER_RECORD");
  notes = getenv("POWER_NOTES");
  const char *microseconds = getenv("POWER_DELAY");
  if (record == NULL || notes == NULL || microseconds == NULL) _exit(1);
  delay = (unsigned)atoi(microseconds);
  /* No node outlives the test, also where a signal kills it. */
  prctl(PR_SET_PDEATHSIG, SIGKILL);
  output = open(notes, O_WRONLY | O_CREAT | O_APPEND | O_CLOEXEC, 0600);
  if (output < 0) _exit(1);
}

static void note(const char *kind, off_t length, const char *path) {
  char line[PATH_MAX + 80];
  struct timespec now;
  clock_gettime(CLOCK_MONOTONIC, &now);
  int size = snprintf(
    line, sizeof line, "%ld.%09ld %s %ld %s\n", (long)now.tv_sec, now.tv_nsec, kind, (long)length,
    path
  );
  /* Not by `write`, which is one of the functions below. */
  if (syscall(SYS_write, output, line, (size_t)size) != size) _exit(1);
}

/* Notes an answer that relies on a record of another length than the last. */
static void note_answer(void) {
  struct stat now;
  if (stat(record, &now) == 0 && now.st_size != answered) {
    answered = now.st_size;
    note("answer", answered, record);
  }
}

static int sync_and_note(int file, const char *name) {
  int (*real)(int) = (int (*)(int))dlsym(RTLD_NEXT, name);
  char link[64], path[PATH_MAX];
  struct stat now;
  snprintf(link, sizeof link, "/proc/self/fd/%d", file);
  ssize_t size = readlink(link, path, sizeof path - 1);
  if (size < 0) _exit(1);
  path[size] = '\0';
  /* The second file has the record's name and more. */
  if (delay > 0 && strncmp(path, record, strlen(record)) == 0) usleep(delay);
  int result = real(file);
  if (result == 0 && fstat(file, &now) == 0) note("sync", now.st_size, path);
  return result;
}

int fsync(int file) { return sync_and_note(file, "fsync"); }
int fdatasync(int file) { return sync_and_note(file, "fdatasync"); }

int rename(const char *from, const char *to) {
  typedef int renaming(const char *, const char *);
  renaming *real = (renaming *)dlsym(RTLD_NEXT, "rename");
  int result = real(from, to);
  if (result == 0) note("rename", 0, to);
  return result;
}

ssize_t sendto(
  int handle, const void *data, size_t size, int flags, const struct sockaddr *to, socklen_t length
) {
  note_answer();
  return syscall(SYS_sendto, handle, data, size, flags, to, length);
}

ssize_t write(int file, const void *data, size_t size) {
  if (file == STDOUT_FILENO) note_answer();
  return syscall(SYS_write, file, data, size);
}

/* The name by which the standard library of the node's program may call it. */
ssize_t __write(int file, const void *data, size_t size) { return write(file, data, size); }
