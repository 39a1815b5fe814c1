/* A program that runs with this library before the C library (LD_PRELOAD) is refused one allocation: that of the number
   REFUSE_AT, counted from 1 over the calls that the program itself makes; where REFUSE_ALL is set, each later one too. A
   byte is then written to the file REFUSE_MARK, so a run that ends before that number leaves the file as it was. */
#define _GNU_SOURCE
#include <dlfcn.h>
#include <errno.h>
#include <fcntl.h>
#include <link.h>
#include <stdint.h>
#include <stdlib.h>
#include <sys/mman.h>
#include <unistd.h>

static unsigned long refused_at, count;
static int all;
static const char *mark;
static uintptr_t from, to;

static void *(*next_malloc)(size_t);
static void *(*next_realloc)(void *, size_t);
static void *(*next_aligned_alloc)(size_t, size_t);
static int (*next_posix_memalign)(void **, size_t, size_t);
static void *(*next_mmap)(void *, size_t, int, int, int, off_t);

/* The first object is the program. */
static int program(struct dl_phdr_info *info, size_t size, void *data) {
  (void)size;
  (void)data;
  for (int i = 0; i < info->dlpi_phnum; i++) {
    if (info->dlpi_phdr[i].p_type == PT_LOAD) {
      uintptr_t start = info->dlpi_addr + info->dlpi_phdr[i].p_vaddr;
      if (from == 0 || start < from) from = start;
      if (start + info->dlpi_phdr[i].p_memsz > to) to = start + info->dlpi_phdr[i].p_memsz;
    }
  }
  return 1;
}

static void find(void) {
  next_malloc = dlsym(RTLD_NEXT, "malloc");
  next_realloc = dlsym(RTLD_NEXT, "realloc");
  next_aligned_alloc = dlsym(RTLD_NEXT, "aligned_alloc");
  next_posix_memalign = dlsym(RTLD_NEXT, "posix_memalign");
  next_mmap = dlsym(RTLD_NEXT, "mmap");
}

__attribute__((constructor)) static void start(void) {
  const char *at = getenv("REFUSE_AT");
  find();
  mark = getenv("REFUSE_MARK");
  all = getenv("REFUSE_ALL") != NULL;
  refused_at = at ? strtoul(at, NULL, 10) : 0;
  dl_iterate_phdr(program, NULL);
}

/* Whether this call, which returns there, is one that is refused. */
static int refuse(void *back) {
  uintptr_t place = (uintptr_t)back;
  if (place < from || place >= to) return 0;
  unsigned long number = __atomic_add_fetch(&count, 1, __ATOMIC_SEQ_CST);
  if (refused_at == 0 || number < refused_at || (number > refused_at && !all)) return 0;
  if (mark && number == refused_at) {
    int file = open(mark, O_WRONLY | O_CREAT | O_APPEND, 0600);
    if (file >= 0) {
      if (write(file, "x", 1) != 1) _exit(120);
      close(file);
    }
  }
  errno = ENOMEM;
  return 1;
}

void *malloc(size_t size) {
  if (refuse(__builtin_return_address(0))) return NULL;
  if (!next_malloc) find();
  return next_malloc(size);
}

void *realloc(void *old, size_t size) {
  if (refuse(__builtin_return_address(0))) return NULL;
  if (!next_realloc) find();
  return next_realloc(old, size);
}

void *aligned_alloc(size_t align, size_t size) {
  if (refuse(__builtin_return_address(0))) return NULL;
  if (!next_aligned_alloc) find();
  return next_aligned_alloc(align, size);
}

int posix_memalign(void **place, size_t align, size_t size) {
  if (refuse(__builtin_return_address(0))) return ENOMEM;
  if (!next_posix_memalign) find();
  return next_posix_memalign(place, align, size);
}

void *mmap(void *place, size_t size, int guard, int flags, int file, off_t offset) {
  if (refuse(__builtin_return_address(0))) return MAP_FAILED;
  if (!next_mmap) find();
  return next_mmap(place, size, guard, flags, file, offset);
}
