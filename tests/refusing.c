/* Loaded before the C library (LD_PRELOAD), this refuses one call of a program: the one whose number, from 1, is in the variable
   REFUSE_ALLOCATION, REFUSE_READ or REFUSE_WRITE. An allocation returns NULL, and a read or write fails with EIO. Later calls
   succeed, so that a program which tries a call again is noticed. If a call was refused, the file that REFUSED names is created. */
#define _GNU_SOURCE
#include <dlfcn.h>
#include <errno.h>
#include <fcntl.h>
#include <stdlib.h>
#include <unistd.h>

static int is_turn(const char *variable, long *calls) {
  const char *turn = getenv(variable);
  if (!turn || ++*calls != atol(turn)) return 0;
  const char *mark = getenv("REFUSED");
  if (mark) close(open(mark, O_CREAT | O_WRONLY, 0600));
  return 1;
}

static long allocations, reads, writes;

void *malloc(size_t size) {
  static void *(*next)(size_t);
  if (!next) next = dlsym(RTLD_NEXT, "malloc");
  if (is_turn("REFUSE_ALLOCATION", &allocations)) return NULL;
  return next(size);
}

void *realloc(void *old, size_t size) {
  static void *(*next)(void *, size_t);
  if (!next) next = dlsym(RTLD_NEXT, "realloc");
  if (is_turn("REFUSE_ALLOCATION", &allocations)) return NULL;
  return next(old, size);
}

ssize_t read(int file, void *bytes, size_t count) {
  static ssize_t (*next)(int, void *, size_t);
  if (!next) next = dlsym(RTLD_NEXT, "read");
  if (is_turn("REFUSE_READ", &reads)) return errno = EIO, -1;
  return next(file, bytes, count);
}

ssize_t write(int file, const void *bytes, size_t count) {
  static ssize_t (*next)(int, const void *, size_t);
  if (!next) next = dlsym(RTLD_NEXT, "write");
  if (file == 1 && is_turn("REFUSE_WRITE", &writes)) return errno = EIO, -1;
  return next(file, bytes, count);
}
