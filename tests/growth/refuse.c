// Refuses one allocation of the program into which it is loaded (LD_PRELOAD): the one whose number, from 1, stands in
// REFUSE, counted from the first write to standard output on, or from the start where REFUSE_FROM_START is set. It tells
// a refusal by a byte on the descriptor REFUSE_TOLD.
#define _GNU_SOURCE
#include <errno.h>
#include <stdatomic.h>
#include <stddef.h>
#include <stdlib.h>
#include <sys/syscall.h>
#include <unistd.h>

extern void *__libc_malloc(size_t);
extern void *__libc_calloc(size_t, size_t);
extern void *__libc_realloc(void *, size_t);

static atomic_int is_counting;
static atomic_long count;
static long refused = -1;
static int told = 2;

__attribute__((constructor)) static void begin(void) {
  const char *number = getenv("REFUSE"), *descriptor = getenv("REFUSE_TOLD");
  if (number) refused = atol(number);
  if (descriptor) told = atoi(descriptor);
  if (getenv("REFUSE_FROM_START")) atomic_store(&is_counting, 1);
}

static int is_refused(void) {
  if (!atomic_load(&is_counting) || atomic_fetch_add(&count, 1) + 1 != refused) return 0;
  syscall(SYS_write, told, "x", 1);
  errno = ENOMEM;
  return 1;
}

void *malloc(size_t size) { return is_refused() ? NULL : __libc_malloc(size); }
void *calloc(size_t many, size_t size) { return is_refused() ? NULL : __libc_calloc(many, size); }
void *realloc(void *old, size_t size) { return is_refused() ? NULL : __libc_realloc(old, size); }

ssize_t write(int to, const void *bytes, size_t size) {
  ssize_t written = syscall(SYS_write, to, bytes, size);
  if (to == 1) atomic_store(&is_counting, 1);
  return written;
}
