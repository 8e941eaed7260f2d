/* Stands between a program and the C library (LD_PRELOAD): of all allocations it refuses those from
 * number FIRST_REFUSED to LAST_REFUSED of the environment, and once the program ends it says on
 * descriptor 3 how many were asked for. Built by cc -shared -fPIC, with -ldl. */
#define _GNU_SOURCE
#include <dlfcn.h>
#include <errno.h>
#include <stdio.h>
#include <stdlib.h>

static long asked;

static long number_in(const char *name) {
  const char *text = getenv(name);
  return text ? atol(text) : 0;
}

static int is_refused(void) {
  long n = __sync_add_and_fetch(&asked, 1);
  if (n < number_in("FIRST_REFUSED") || n > number_in("LAST_REFUSED"))
    return 0;
  errno = ENOMEM;
  return 1;
}

void *malloc(size_t size) {
  static void *(*next)(size_t);
  if (!next)
    next = dlsym(RTLD_NEXT, "malloc");
  return is_refused() ? NULL : next(size);
}

void *realloc(void *place, size_t size) {
  static void *(*next)(void *, size_t);
  if (!next)
    next = dlsym(RTLD_NEXT, "realloc");
  return is_refused() ? NULL : next(place, size);
}

void *aligned_alloc(size_t align, size_t size) {
  static void *(*next)(size_t, size_t);
  if (!next)
    next = dlsym(RTLD_NEXT, "aligned_alloc");
  return is_refused() ? NULL : next(align, size);
}

int posix_memalign(void **place, size_t align, size_t size) {
  static int (*next)(void **, size_t, size_t);
  if (!next)
    next = dlsym(RTLD_NEXT, "posix_memalign");
  return is_refused() ? ENOMEM : next(place, align, size);
}

__attribute__((destructor)) static void tell(void) {
  static int told;
  if (!__sync_lock_test_and_set(&told, 1))
    dprintf(3, "%ld\n", asked);
}

/* a program with threads ends so, without its destructors */
void _exit(int status) {
  static void (*next)(int);
  tell();
  if (!next)
    next = dlsym(RTLD_NEXT, "_exit");
  next(status);
  __builtin_unreachable();
}
