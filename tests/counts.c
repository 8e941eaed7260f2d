/* Stands between a program and the C library (LD_PRELOAD): once the program ends, it says on
 * descriptor 3 how often memory was taken in threads other than the first, and how often freed.
 * Built by cc -shared -fPIC, with -ldl -pthread. */
#define _GNU_SOURCE
#include <dlfcn.h>
#include <pthread.h>
#include <stdio.h>
#include <stdlib.h>

/* what dlsym itself asks for while the next functions are looked up */
static char early[4096];
static size_t early_end;

static void *(*next_malloc)(size_t);
static void *(*next_calloc)(size_t, size_t);
static void *(*next_realloc)(void *, size_t);
static void *(*next_aligned_alloc)(size_t, size_t);
static int (*next_posix_memalign)(void **, size_t, size_t);
static void (*next_free)(void *);
static void (*next_exit)(int);

static pthread_t first;
static int is_begun;
static long taken, freed;

static void begin(void) {
  static int is_beginning;
  if (is_begun || is_beginning)
    return;
  is_beginning = 1;
  first = pthread_self();
  next_malloc = dlsym(RTLD_NEXT, "malloc");
  next_calloc = dlsym(RTLD_NEXT, "calloc");
  next_realloc = dlsym(RTLD_NEXT, "realloc");
  next_aligned_alloc = dlsym(RTLD_NEXT, "aligned_alloc");
  next_posix_memalign = dlsym(RTLD_NEXT, "posix_memalign");
  next_free = dlsym(RTLD_NEXT, "free");
  next_exit = dlsym(RTLD_NEXT, "_exit");
  is_begun = 1;
}

static void count(long *number) {
  begin();
  if (is_begun && !pthread_equal(pthread_self(), first))
    __sync_add_and_fetch(number, 1);
}

static int is_early(void *place) {
  return (char *)place >= early && (char *)place < early + sizeof early;
}

static void *take_early(size_t size) {
  void *place = early + early_end;
  size_t room = (size + 15) / 16 * 16;
  if (room > sizeof early - early_end)
    return NULL;
  early_end += room;
  return place;
}

void *malloc(size_t size) {
  count(&taken);
  return next_malloc ? next_malloc(size) : take_early(size);
}

void *calloc(size_t many, size_t size) {
  count(&taken);
  return next_calloc ? next_calloc(many, size) : take_early(many * size);
}

void *realloc(void *place, size_t size) {
  count(&taken);
  return next_realloc(place, size);
}

void *aligned_alloc(size_t align, size_t size) {
  count(&taken);
  return next_aligned_alloc(align, size);
}

int posix_memalign(void **place, size_t align, size_t size) {
  count(&taken);
  return next_posix_memalign(place, align, size);
}

void free(void *place) {
  if (!place || is_early(place))
    return;
  count(&freed);
  next_free(place);
}

__attribute__((destructor)) static void tell(void) {
  static int is_told;
  if (!__sync_lock_test_and_set(&is_told, 1))
    dprintf(3, "%ld and %ld\n", taken, freed);
}

/* a program with threads ends so, without its destructors */
void _exit(int status) {
  begin();
  tell();
  next_exit(status);
  __builtin_unreachable();
}
