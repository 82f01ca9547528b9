/* Loaded before the C library by tests/run: calls to the system fail in the program etm, and in no other program.
 *
 * FAILING names the calls: memory, open, read, write or close, or input, which is a read of standard input. The call of
 * number FAILS_AT among them fails with the error number ERROR, and where LASTING is set all after it do. How many were made
 * is written to the file COUNT_IN, and how many bytes of standard input were read to the file READ_IN. Where ONE_BYTE is
 * set, no read and no write moves more than a byte; PIECE is the most bytes that a read of standard input moves. */
#define _GNU_SOURCE
#include <dlfcn.h>
#include <errno.h>
#include <stdio.h>
#include <stdlib.h>
#include <string.h>
#include <sys/mman.h>
#include <unistd.h>

static const char *failing = "";
static long fails_at, made, piece, taken;
static int error, is_lasting, is_one_byte;

static long number(const char *variable) {
  const char *text = getenv(variable);
  return text == NULL ? 0 : atol(text);
}

__attribute__((constructor)) static void read_variables(void) {
  if (strcmp(program_invocation_short_name, "etm") != 0 || getenv("FAILING") == NULL) return;
  fails_at = number("FAILS_AT");
  error = (int)number("ERROR");
  is_lasting = getenv("LASTING") != NULL;
  is_one_byte = getenv("ONE_BYTE") != NULL;
  piece = number("PIECE");
  failing = getenv("FAILING");
}

static void write_number(const char *variable, long value) {
  const char *name = getenv(variable);
  FILE *file = name == NULL ? NULL : fopen(name, "w");
  if (file == NULL) return;
  fprintf(file, "%ld\n", value);
  fclose(file);
}

__attribute__((destructor)) static void write_counts(void) {
  long calls = made, bytes = taken; /* before this function makes calls of its own */
  if (*failing == 0) return;
  failing = "none";
  write_number("COUNT_IN", calls);
  write_number("READ_IN", bytes);
}

static int fails(const char *calls) {
  if (strcmp(failing, calls) != 0) return 0;
  made++;
  if (fails_at == 0 || (is_lasting ? made < fails_at : made != fails_at)) return 0;
  errno = error;
  return 1;
}

static size_t moved(size_t size) { return is_one_byte && size > 1 ? 1 : size; }

/* A call of the C library that fails where it is to, with the answer `failed`. */
#define CALL(calls, type, failed, name, parameters, arguments)            \
  type name parameters {                                                  \
    static type(*next) parameters;                                        \
    if (next == NULL) next = (type(*) parameters)dlsym(RTLD_NEXT, #name); \
    return fails(#calls) ? (failed) : next arguments;                     \
  }

CALL(memory, void *, NULL, malloc, (size_t size), (size))
CALL(memory, void *, NULL, calloc, (size_t count, size_t size), (count, size))
CALL(memory, void *, NULL, realloc, (void *old, size_t size), (old, size))
CALL(memory, void *, NULL, aligned_alloc, (size_t alignment, size_t size), (alignment, size))
CALL(memory, int, ENOMEM, posix_memalign, (void **to, size_t alignment, size_t size), (to, alignment, size))
CALL(memory, void *, MAP_FAILED, mmap, (void *at, size_t size, int uses, int flags, int file, off_t from),
     (at, size, uses, flags, file, from))
CALL(open, int, -1, open, (const char *name, int flags, int mode), (name, flags, mode))
CALL(write, ssize_t, -1, write, (int file, const void *from, size_t size), (file, from, moved(size)))
CALL(close, int, -1, close, (int file), (file))

ssize_t read(int file, void *to, size_t size) {
  static ssize_t (*next)(int, void *, size_t);
  if (next == NULL) next = (ssize_t(*)(int, void *, size_t))dlsym(RTLD_NEXT, "read");
  if (fails("read") || (file == STDIN_FILENO && fails("input"))) return -1;
  if (file != STDIN_FILENO) return next(file, to, moved(size));
  ssize_t count = next(file, to, piece > 0 && size > (size_t)piece ? (size_t)piece : moved(size));
  if (count > 0) taken += count;
  return count;
}
