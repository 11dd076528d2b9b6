#include "save.h"
#include <stdio.h>

static int put(void *to, const void *bytes, size_t size) { return fwrite(bytes, 1, size, to) == size; }

static void explain(const struct w2c_coredump *c, enum coredump_state state) {
  if (state == COREDUMP_NONE) fprintf(stderr, "no dump: the module made no calls\n");
  if (state == COREDUMP_TORN) fprintf(stderr, "no dump: torn calls at %u\n", (unsigned)c->calls);
  if (state == COREDUMP_NO_ROOM)
    fprintf(stderr, "no dump: room for %zu values and %llu bytes is needed\n", c->needed_values, (unsigned long long)c->needed_bytes);
  if (state == COREDUMP_NOT_WRITTEN) fprintf(stderr, "no dump: the file could not be written\n");
}

int save_dump(struct w2c_coredump *c, const uint8_t *memory, size_t size, const char *name) {
  FILE *file = fopen(name, "wb");
  if (!file) {
    perror(name);
    return 0;
  }
  enum coredump_state state = coredump_take(c, memory, size, "module", put, file);
  if (fclose(file) != 0 && state == COREDUMP_WHOLE) state = COREDUMP_NOT_WRITTEN;
  if (state == COREDUMP_WHOLE) return 1;
  explain(c, state);
  return 0;
}
