/* In front of the system's allocator: refuses the allocation whose number REFUSED has, and writes how many
   there were to the file that COUNT names. */
#define _GNU_SOURCE
#include <dlfcn.h>
#include <errno.h>
#include <stddef.h>
#include <stdio.h>
#include <stdlib.h>

extern void *__libc_malloc(size_t), *__libc_calloc(size_t, size_t), *__libc_realloc(void *, size_t), *__libc_memalign(size_t, size_t);

static unsigned long count, refused;
static int ready;

__attribute__((constructor)) static void begin(void) {
  const char *at = getenv("REFUSED");
  refused = at ? strtoul(at, 0, 10) : 0;
  ready = 1;
}

__attribute__((destructor)) static void end(void) {
  const char *path = getenv("COUNT");
  ready = 0;
  FILE *file = path ? fopen(path, "w") : 0;
  if (file) {
    fprintf(file, "%lu", count);
    fclose(file);
  }
}

static int is_refused(void) {
  if (!ready || ++count != refused) return 0;
  errno = ENOMEM;
  return 1;
}

void *malloc(size_t size) { return is_refused() ? 0 : __libc_malloc(size); }
void *calloc(size_t n, size_t size) { return is_refused() ? 0 : __libc_calloc(n, size); }
void *realloc(void *old, size_t size) { return is_refused() ? 0 : __libc_realloc(old, size); }
void *aligned_alloc(size_t align, size_t size) { return is_refused() ? 0 : __libc_memalign(align, size); }
void *memalign(size_t align, size_t size) { return is_refused() ? 0 : __libc_memalign(align, size); }
int posix_memalign(void **out, size_t align, size_t size) {
  if (is_refused()) return ENOMEM;
  *out = __libc_memalign(align, size);
  return *out ? 0 : ENOMEM;
}
