/* A program that runs with this library before the C library (LD_PRELOAD) meets a file system that is slow, full or broken:
   each write to a file but standard error takes LETTER_EACH bytes at most; once LETTER_ROOM bytes are taken, one more is
   refused for want of room; a read of a regular file from LETTER_BREAK bytes on gives an error. The names of the calls
   `fsync` and `rename` are appended to the file LETTER_LOG, in order. What is not set does nothing. */
#define _GNU_SOURCE
#include <dlfcn.h>
#include <errno.h>
#include <fcntl.h>
#include <stdlib.h>
#include <string.h>
#include <sys/stat.h>
#include <unistd.h>

static ssize_t (*next_write)(int, const void *, size_t);
static ssize_t (*next_read)(int, void *, size_t);
static int (*next_fsync)(int);
static int (*next_rename)(const char *, const char *);
static size_t each, room, broken, taken;
static size_t given[1024];
static const char *record;

static size_t number(const char *name) {
  const char *text = getenv(name);
  return text ? strtoul(text, NULL, 10) : (size_t)-1;
}

__attribute__((constructor)) static void start(void) {
  next_write = dlsym(RTLD_NEXT, "write");
  next_read = dlsym(RTLD_NEXT, "read");
  next_fsync = dlsym(RTLD_NEXT, "fsync");
  next_rename = dlsym(RTLD_NEXT, "rename");
  each = number("LETTER_EACH");
  room = number("LETTER_ROOM");
  broken = number("LETTER_BREAK");
  record = getenv("LETTER_LOG");
}

static void note(const char *name) {
  if (!record) return;
  int file = open(record, O_WRONLY | O_CREAT | O_APPEND, 0600);
  if (file < 0) return;
  if (next_write(file, name, strlen(name)) < 0) _exit(120);
  close(file);
}

ssize_t write(int file, const void *bytes, size_t count) {
  if (file == STDERR_FILENO) return next_write(file, bytes, count);
  if (count > each) count = each;
  if (room != (size_t)-1) {
    if (count > 0 && taken >= room) {
      errno = ENOSPC;
      return -1;
    }
    if (count > room - taken) count = room - taken;
  }
  ssize_t wrote = next_write(file, bytes, count);
  if (wrote > 0) taken += wrote;
  return wrote;
}

ssize_t read(int file, void *bytes, size_t count) {
  struct stat found;
  if (broken == (size_t)-1 || file < 0 || file >= 1024 || fstat(file, &found) != 0 || !S_ISREG(found.st_mode))
    return next_read(file, bytes, count);
  if (given[file] >= broken) {
    errno = EIO;
    return -1;
  }
  if (count > broken - given[file]) count = broken - given[file];
  ssize_t got = next_read(file, bytes, count);
  if (got > 0) given[file] += got;
  return got;
}

int fsync(int file) {
  note("fsync\n");
  return next_fsync(file);
}

int rename(const char *from, const char *to) {
  note("rename\n");
  return next_rename(from, to);
}
