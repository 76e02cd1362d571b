// Counts the live memory of the program into which it is loaded (LD_PRELOAD): at its end it writes a line "SIZE COUNT"
// for each size of which blocks are live, to the file that COUNT_TO names. A size is what the C library holds for the
// block.
#define _GNU_SOURCE
#include <malloc.h>
#include <pthread.h>
#include <stdio.h>
#include <stdlib.h>
#include <sys/syscall.h>
#include <unistd.h>

extern void *__libc_malloc(size_t);
extern void *__libc_calloc(size_t, size_t);
extern void *__libc_realloc(void *, size_t);
extern void __libc_free(void *);

// Small blocks are counted by size, and of large ones each size has a place of its own.
enum { STEP = 8, SMALL = 8192, LARGE = 4096, HEAD = 8 };
static long small[SMALL];
static struct {
  size_t size;
  long count;
} large[LARGE];
static pthread_mutex_t lock = PTHREAD_MUTEX_INITIALIZER;

static void count(size_t size, int more) {
  if (size == 0) return;
  pthread_mutex_lock(&lock);
  if (size / STEP < SMALL) {
    small[size / STEP] += more;
  } else {
    int place = 0;
    while (place < LARGE - 1 && large[place].count != 0 && large[place].size != size) place++;
    large[place].size = size;
    large[place].count += more;
  }
  pthread_mutex_unlock(&lock);
}

static void *made(void *block) {
  count(malloc_usable_size(block), 1);
  return block;
}

void *malloc(size_t size) { return made(__libc_malloc(size)); }
void *calloc(size_t many, size_t size) { return made(__libc_calloc(many, size)); }
void free(void *block) {
  count(malloc_usable_size(block), -1);
  __libc_free(block);
}
void *realloc(void *old, size_t size) {
  size_t before = malloc_usable_size(old);
  void *block = __libc_realloc(old, size);
  if (block || size == 0) count(before, -1);
  return made(block);
}

static void tell(void) {
  const char *name = getenv("COUNT_TO");
  FILE *file = name ? fopen(name, "w") : NULL;
  if (!file) return;
  for (int size = 0; size < SMALL; size++)
    if (small[size]) fprintf(file, "%d %ld\n", size * STEP + HEAD, small[size]);
  for (int place = 0; place < LARGE; place++)
    if (large[place].count) fprintf(file, "%zu %ld\n", large[place].size + HEAD, large[place].count);
  fclose(file);
}

// The program ends by this call.
void _exit(int status) {
  tell();
  for (;;) syscall(SYS_exit_group, status);
}
