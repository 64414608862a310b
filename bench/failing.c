// Preloaded into the program by bench/faults: counts its calls of one kind, and makes one of them fail or move one byte only.
// KIND is memory, outside or short; FAILING the number of that call, from 1 on; COUNTED a file of eight bytes in which the count is kept.
#define _GNU_SOURCE
#include <dlfcn.h>
#include <errno.h>
#include <fcntl.h>
#include <stdarg.h>
#include <stdint.h>
#include <stdlib.h>
#include <string.h>
#include <sys/mman.h>
#include <sys/types.h>
#include <unistd.h>

static uint64_t own_count, *count = &own_count, failing;
static enum { NONE, MEMORY, OUTSIDE, SHORT } kind;

__attribute__((constructor)) static void begin(void) {
  const char *name = getenv("COUNTED"), *number = getenv("FAILING"), *which = getenv("KIND");
  if (!name || !number || !which)
    return;
  int (*opening)(const char *, int, ...) = dlsym(RTLD_NEXT, "open");
  int file = opening(name, O_RDWR);
  void *at = file < 0 ? MAP_FAILED : mmap(NULL, sizeof *count, PROT_READ | PROT_WRITE, MAP_SHARED, file, 0);
  if (at == MAP_FAILED)
    abort();
  close(file);
  count = at;
  failing = strtoull(number, NULL, 10);
  kind = !strcmp(which, "memory") ? MEMORY : !strcmp(which, "outside") ? OUTSIDE : SHORT;
}

// One more call of a kind: whether it is the one that fails.
static int due(int of) { return kind == of && ++*count == failing; }

#define NEXT(type, name, ...) ((type(*)(__VA_ARGS__))dlsym(RTLD_NEXT, name))

void *malloc(size_t size) {
  extern void *__libc_malloc(size_t);
  if (due(MEMORY)) {
    errno = ENOMEM;
    return NULL;
  }
  return __libc_malloc(size);
}

void *realloc(void *old, size_t size) {
  extern void *__libc_realloc(void *, size_t);
  if (due(MEMORY)) {
    errno = ENOMEM;
    return NULL;
  }
  return __libc_realloc(old, size);
}

// Whether a call of the outside fails; then its cause is told.
static int fails(void) {
  if (!due(OUTSIDE))
    return 0;
  errno = EIO;
  return 1;
}

// How many bytes a call moves.
static size_t moved(size_t size) { return size > 1 && due(SHORT) ? 1 : size; }

#define OPENS(name)                                                                                                    \
  int name(const char *path, int flags, ...) {                                                                         \
    va_list rest;                                                                                                      \
    va_start(rest, flags);                                                                                             \
    mode_t mode = va_arg(rest, mode_t);                                                                                \
    va_end(rest);                                                                                                      \
    return fails() ? -1 : NEXT(int, #name, const char *, int, ...)(path, flags, mode);                                \
  }
OPENS(open)
OPENS(open64)

#define OPENS_AT(name)                                                                                                 \
  int name(int folder, const char *path, int flags, ...) {                                                             \
    va_list rest;                                                                                                      \
    va_start(rest, flags);                                                                                             \
    mode_t mode = va_arg(rest, mode_t);                                                                                \
    va_end(rest);                                                                                                      \
    return fails() ? -1 : NEXT(int, #name, int, const char *, int, ...)(folder, path, flags, mode);                   \
  }
OPENS_AT(openat)
OPENS_AT(openat64)

#define READS_AT(name)                                                                                                 \
  ssize_t name(int file, void *into, size_t size, off_t at) {                                                          \
    return fails() ? -1 : NEXT(ssize_t, #name, int, void *, size_t, off_t)(file, into, moved(size), at);              \
  }
READS_AT(pread)
READS_AT(pread64)

ssize_t read(int file, void *into, size_t size) {
  return fails() ? -1 : NEXT(ssize_t, "read", int, void *, size_t)(file, into, moved(size));
}

#define WRITES(name)                                                                                                   \
  ssize_t name(int file, const void *bytes, size_t size) {                                                             \
    return fails() ? -1 : NEXT(ssize_t, #name, int, const void *, size_t)(file, bytes, moved(size));                  \
  }
WRITES(write)
WRITES(__write)
