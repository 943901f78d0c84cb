/* Loaded into a program by LD_PRELOAD, this writes down its calls of the system at the files of a
   folder, what it sends, and what it writes on standard output, in their order. It can let calls at
   the folder fail or do less, or end the process there.

   The environment has
     DISK_FOLDER   the folder, as a path from the root on. Calls at it and at what is below it are
                   numbered from 1 on
     DISK_TRACE    the file that gets a line for each call
     DISK_PLAN     what happens at which calls, apart by spaces: `fails:7:5` lets call 7 fail with
                   error 5

   What can happen at a call, with a value:
     fails ERROR   it fails and is not made
     after ERROR   it is made, and yet is said to fail
     most BYTES    a write takes at most so many bytes. For number 0 each one does
     exit STATUS   the process ends before the call
     left STATUS   the process ends after the call
     lost 0        it is said to succeed, but is neither made nor written down

   A line has the call's number, or a hyphen for what is sent or shown; its name; its words; what
   the program is told; and what was done. Either is what the call returns, or an error below 0.
   What was not done is a hyphen. Bytes are in hexadecimal digits. A path at the folder begins
   there.

   The lines are written and the calls made by `syscall`, which nothing here takes the place of. */

#define _GNU_SOURCE
#include <errno.h>
#include <fcntl.h>
#include <stdarg.h>
#include <stdio.h>
#include <stdlib.h>
#include <string.h>
#include <sys/socket.h>
#include <sys/stat.h>
#include <sys/syscall.h>
#include <sys/uio.h>
#include <unistd.h>

enum { TRACE = 197, MOST_HANDLES = 1024, MOST_BYTES = 4096, LONGEST_PATH = 4096, MOST_PLANS = 8 };
enum { LINE = 2 * MOST_BYTES + 2 * LONGEST_PATH + 64 };

struct plan {
  char what[8];
  unsigned long number;
  long value;
};

static struct plan plans[MOST_PLANS];
static int count_of_plans;
static unsigned long calls;
static const char *folder;
/* Which descriptors are of files at the folder. */
static char is_there[MOST_HANDLES];

__attribute__((constructor)) static void begin(void) {
  const char *path = getenv("DISK_TRACE"), *at = getenv("DISK_PLAN");
  folder = getenv("DISK_FOLDER");
  if (folder == NULL || path == NULL) return;
  int trace = syscall(SYS_openat, AT_FDCWD, path, O_WRONLY | O_CREAT | O_APPEND, 0666);
  if (trace < 0 || syscall(SYS_dup3, trace, TRACE, O_CLOEXEC) < 0) _exit(1);
  syscall(SYS_close, trace);
  struct plan *plan = plans;
  int length;
  while (at && count_of_plans < MOST_PLANS) {
    const char *form = " %7[a-z]:%lu:%ld%n";
    if (sscanf(at, form, plan->what, &plan->number, &plan->value, &length) != 3) break;
    at += length, plan++, count_of_plans++;
  }
}

/* Returns the value of the plan for what is to happen at the call with this number, or -1. */
static long planned(const char *what, unsigned long number) {
  for (int at = 0; at < count_of_plans; at++) {
    const struct plan *plan = &plans[at];
    int is_of_call = plan->number == number || plan->number == 0;
    if (is_of_call && strcmp(plan->what, what) == 0) return plan->value;
  }
  return -1;
}

static int is_of_folder(int handle) {
  return handle >= 0 && handle < MOST_HANDLES && is_there[handle];
}

/* Writes a path from the root on. Returns whether it is at the folder. */
static int is_path_there(const char *path, char out[LONGEST_PATH]) {
  out[0] = '\0';
  if (folder == NULL || path[0] == '\0') return 0;
  if (path[0] != '/' && getcwd(out, LONGEST_PATH - 1) == NULL) return 0;
  if (path[0] != '/') strcat(out, "/");
  strncat(out, path, LONGEST_PATH - 1 - strlen(out));
  size_t length = strlen(folder);
  return strncmp(out, folder, length) == 0 && (out[length] == '/' || out[length] == '\0');
}

/* Returns a path as it is written down: one that is at the folder from there on. */
static const char *name_of(const char *path) {
  size_t length = strlen(folder);
  if (strncmp(path, folder, length) != 0) return path;
  return path[length] == '\0' ? "." : path + length + 1;
}

/* Writes a line of the trace. `number` is 0 for what is sent or shown. */
static void note(unsigned long number, const char *text, long told, int is_done, long done) {
  static char line[LINE];
  char begin[24] = "-", end[24] = "-";
  if (number) snprintf(begin, sizeof begin, "%lu", number);
  if (is_done) snprintf(end, sizeof end, "%ld", done);
  int length = snprintf(line, sizeof line, "%s %s = %ld %s\n", begin, text, told, end);
  if (length >= LINE || syscall(SYS_write, TRACE, line, length) != length) _exit(1);
}

/* Returns what the function of the C library does after this. */
static long answered(long told) {
  if (told >= 0) return told;
  errno = -told;
  return -1;
}

/* What a call of the system returns, or its error below 0. */
#define MADE(...) \
  ({ \
    long made = syscall(__VA_ARGS__); \
    made < 0 ? -errno : made; \
  })

/* Makes a call at the folder as the plan says, and writes it down. `lost` is what one that is lost
   is said to return. */
#define PLANNED(lost, text, ...) \
  ({ \
    unsigned long number = ++calls; \
    long fails = planned("fails", number), after = planned("after", number); \
    long told = lost; \
    if (planned("exit", number) >= 0) _exit(planned("exit", number)); \
    if (planned("lost", number) < 0) { \
      long done = fails >= 0 ? 0 : MADE(__VA_ARGS__); \
      told = fails >= 0 ? -fails : after >= 0 ? -after : done; \
      note(number, text, told, fails < 0, done); \
    } \
    if (planned("left", number) >= 0) _exit(planned("left", number)); \
    told; \
  })

/* Writes the name of a call, a descriptor, and bytes. */
static const char *with_bytes(const char *name, int handle, const void *bytes, size_t count) {
  static char text[LINE];
  int at = snprintf(text, sizeof text, "%s %d ", name, handle);
  if (count > MOST_BYTES) _exit(1);
  const unsigned char *data = bytes;
  for (size_t byte = 0; byte < count; byte++) at += sprintf(text + at, "%02x", data[byte]);
  if (count == 0) strcat(text, "-");
  return text;
}

static const char *with_number(const char *name, int handle) {
  static char text[64];
  snprintf(text, sizeof text, "%s %d", name, handle);
  return text;
}

static int opened(int from, const char *path, int flags, mode_t mode) {
  char whole[LONGEST_PATH], text[LINE];
  if (!is_path_there(path, whole)) return answered(MADE(SYS_openat, from, path, flags, mode));
  snprintf(text, sizeof text, "open %s %d", name_of(whole), flags);
  long told = PLANNED(0, text, SYS_openat, from, path, flags, mode);
  if (told >= 0 && told < MOST_HANDLES) is_there[told] = 1;
  return answered(told);
}

/* The mode is there only where a file may be made. */
#define OPENED(from) \
  va_list rest; \
  va_start(rest, flags); \
  mode_t mode = flags & O_CREAT || (flags & O_TMPFILE) == O_TMPFILE ? va_arg(rest, mode_t) : 0; \
  va_end(rest); \
  return opened(from, path, flags, mode)

int open(const char *path, int flags, ...) { OPENED(AT_FDCWD); }
int open64(const char *path, int flags, ...) { OPENED(AT_FDCWD); }
int openat(int from, const char *path, int flags, ...) { OPENED(from); }
int openat64(int from, const char *path, int flags, ...) { OPENED(from); }
int creat(const char *path, mode_t mode) {
  return opened(AT_FDCWD, path, O_WRONLY | O_CREAT | O_TRUNC, mode);
}

ssize_t read(int handle, void *bytes, size_t count) {
  if (!is_of_folder(handle)) return answered(MADE(SYS_read, handle, bytes, count));
  return answered(PLANNED(0, with_number("read", handle), SYS_read, handle, bytes, count));
}

ssize_t write(int handle, const void *bytes, size_t count) {
  if (handle == STDOUT_FILENO && folder != NULL) {
    long told = MADE(SYS_write, handle, bytes, count);
    note(0, with_bytes("show", handle, bytes, count), told, 1, told);
    return answered(told);
  }
  if (!is_of_folder(handle)) return answered(MADE(SYS_write, handle, bytes, count));
  long most = planned("most", calls + 1);
  size_t some = most >= 0 && (size_t)most < count ? (size_t)most : count;
  const char *text = with_bytes("write", handle, bytes, count);
  return answered(PLANNED(count, text, SYS_write, handle, bytes, some));
}

ssize_t __write(int handle, const void *bytes, size_t count) { return write(handle, bytes, count); }

/* A call with a descriptor, of which the trace has no more words. */
#define OF_HANDLE(name, ...) \
  { \
    if (!is_of_folder(handle)) return answered(MADE(__VA_ARGS__)); \
    return answered(PLANNED(0, with_number(name, handle), __VA_ARGS__)); \
  }

int fsync(int handle) OF_HANDLE("fsync", SYS_fsync, handle)
int fdatasync(int handle) OF_HANDLE("fdatasync", SYS_fdatasync, handle)
int ftruncate(int handle, off_t length) OF_HANDLE("ftruncate", SYS_ftruncate, handle, length)
int ftruncate64(int handle, off_t length) OF_HANDLE("ftruncate", SYS_ftruncate, handle, length)
off_t lseek(int handle, off_t offset, int from) OF_HANDLE("lseek", SYS_lseek, handle, offset, from)
off_t lseek64(int handle, off_t offset, int from)
  OF_HANDLE("lseek", SYS_lseek, handle, offset, from)
ssize_t pwrite(int handle, const void *bytes, size_t count, off_t at)
  OF_HANDLE("pwrite", SYS_pwrite64, handle, bytes, count, at)
ssize_t pwrite64(int handle, const void *bytes, size_t count, off_t at)
  OF_HANDLE("pwrite", SYS_pwrite64, handle, bytes, count, at)
ssize_t writev(int handle, const struct iovec *parts, int count)
  OF_HANDLE("writev", SYS_writev, handle, parts, count)

int close(int handle) {
  if (!is_of_folder(handle)) return answered(MADE(SYS_close, handle));
  is_there[handle] = 0;
  return answered(PLANNED(0, with_number("close", handle), SYS_close, handle));
}

int statx(int from, const char *path, int flags, unsigned mask, struct statx *found) {
  char whole[LONGEST_PATH], text[LINE];
  if (path[0] == '\0' && is_of_folder(from)) {
    const char *by_handle = with_number("stat", from);
    return answered(PLANNED(0, by_handle, SYS_statx, from, path, flags, mask, found));
  }
  if (!is_path_there(path, whole)) return answered(MADE(SYS_statx, from, path, flags, mask, found));
  snprintf(text, sizeof text, "stat %s", name_of(whole));
  return answered(PLANNED(0, text, SYS_statx, from, path, flags, mask, found));
}

/* A call with two paths, or with one and an empty one. */
#define OF_PATHS(name, first, second, ...) \
  { \
    char one[LONGEST_PATH], other[LONGEST_PATH], text[LINE]; \
    int is_none = !is_path_there(first, one) & !is_path_there(second, other); \
    if (is_none) return answered(MADE(__VA_ARGS__)); \
    snprintf(text, sizeof text, "%s %s %s", name, name_of(one), name_of(other)); \
    return answered(PLANNED(0, text, __VA_ARGS__)); \
  }

int rename(const char *old, const char *new)
  OF_PATHS("rename", old, new, SYS_renameat2, AT_FDCWD, old, AT_FDCWD, new, 0)
int renameat(int from, const char *old, int to, const char *new)
  OF_PATHS("rename", old, new, SYS_renameat2, from, old, to, new, 0)
int link(const char *old, const char *new)
  OF_PATHS("link", old, new, SYS_linkat, AT_FDCWD, old, AT_FDCWD, new, 0)
int unlink(const char *path) OF_PATHS("unlink", path, "", SYS_unlinkat, AT_FDCWD, path, 0)
int remove(const char *path) OF_PATHS("unlink", path, "", SYS_unlinkat, AT_FDCWD, path, 0)
int truncate(const char *path, off_t length)
  OF_PATHS("truncate", path, "", SYS_truncate, path, length)

ssize_t sendto(
  int handle, const void *bytes, size_t count, int flags, const struct sockaddr *to, socklen_t size
) {
  long told = MADE(SYS_sendto, handle, bytes, count, flags, to, size);
  if (folder != NULL) note(0, with_bytes("send", handle, bytes, count), told, 1, told);
  return answered(told);
}

ssize_t send(int handle, const void *bytes, size_t count, int flags) {
  return sendto(handle, bytes, count, flags, NULL, 0);
}

/* The bytes are the first part's. */
ssize_t sendmsg(int handle, const struct msghdr *message, int flags) {
  long told = MADE(SYS_sendmsg, handle, message, flags);
  const struct iovec *part = message->msg_iov;
  if (folder != NULL) {
    note(0, with_bytes("send", handle, part->iov_base, part->iov_len), told, 1, told);
  }
  return answered(told);
}
