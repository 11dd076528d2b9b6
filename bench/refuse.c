/* Refuses requests for memory of a program that is run with this library in front: the one with the number in REFUSED, counted from 1, or all from
   the one in REFUSED_FROM on. It writes how many there were to the file in COUNTED. */
#define _GNU_SOURCE
#include <dlfcn.h>
#include <errno.h>
#include <fcntl.h>
#include <stddef.h>
#include <stdlib.h>
#include <unistd.h>

static unsigned long count, refused, refused_from;
static int is_ready;

__attribute__((constructor)) static void begin(void) {
  const char *one = getenv("REFUSED"), *from = getenv("REFUSED_FROM");
  if (one) refused = strtoul(one, 0, 10);
  if (from) refused_from = strtoul(from, 0, 10);
  is_ready = 1;
}

__attribute__((destructor)) static void end(void) {
  const char *name = getenv("COUNTED");
  char digits[24];
  int at = sizeof digits, file;
  unsigned long left = count;
  if (!name || (file = open(name, O_WRONLY | O_CREAT | O_TRUNC, 0644)) < 0) return;
  do digits[--at] = '0' + left % 10; while (left /= 10);
  if (write(file, digits + at, sizeof digits - at) < 0) _exit(99);
  close(file);
}

/* Requests before `main` are the system's own. */
static int is_refused(void) {
  if (!is_ready) return 0;
  count++;
  if (count != refused && (!refused_from || count < refused_from)) return 0;
  errno = ENOMEM;
  return 1;
}

extern void *__libc_malloc(size_t), *__libc_calloc(size_t, size_t), *__libc_realloc(void *, size_t), *__libc_memalign(size_t, size_t);

void *malloc(size_t size) { return is_refused() ? NULL : __libc_malloc(size); }
void *calloc(size_t many, size_t size) { return is_refused() ? NULL : __libc_calloc(many, size); }
void *realloc(void *old, size_t size) { return is_refused() ? NULL : __libc_realloc(old, size); }
void *aligned_alloc(size_t to, size_t size) { return is_refused() ? NULL : __libc_memalign(to, size); }
void *memalign(size_t to, size_t size) { return is_refused() ? NULL : __libc_memalign(to, size); }

int posix_memalign(void **into, size_t to, size_t size) {
  if (is_refused()) return ENOMEM;
  void *made = __libc_memalign(to, size);
  if (!made) return ENOMEM;
  *into = made;
  return 0;
}
