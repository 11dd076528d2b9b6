/* random_calls SCRIPT ANSWERS: makes the calls of a script at collector.c, and writes what each `take` of it came to. A list without room is
 * made again with the room that the collector said would have sufficed, which has to be so. random_calls.mjs writes the scripts. */
#include "collector.h"
#include <inttypes.h>
#include <stdio.h>
#include <stdlib.h>
#include <string.h>

enum { PAGE = 65536, MOST = 8192 };

struct call { char kind; uint64_t words[4]; };

struct bytes { uint8_t *at; size_t size; };

static int put(void *to, const void *bytes, size_t size) {
  struct bytes *all = to;
  if (size == 0) return 1;
  all->at = realloc(all->at, all->size + size);
  memcpy(all->at + all->size, bytes, size);
  all->size += size;
  return 1;
}

/* Room of just that size on the heap, so that a sanitizer sees each byte beside it. */
static struct w2c_coredump roomy(size_t most_values, size_t most_bytes) {
  struct w2c_coredump c = {.most_values = most_values, .most_bytes = most_bytes};
  c.values = malloc(most_values * sizeof *c.values);
  c.frames = malloc(most_bytes);
  return c;
}

static void give_back(struct w2c_coredump *c) {
  free(c->values);
  free(c->frames);
}

static void make(struct w2c_coredump *c, const struct call *call) {
  const uint64_t *w = call->words;
  if (call->kind == 'v') w2c_coredump_value_i32(c, (uint32_t)w[0]);
  else if (call->kind == 'w') w2c_coredump_value_i64(c, w[0]);
  else if (call->kind == 'f') w2c_coredump_frame(c, (uint32_t)w[0], (uint32_t)w[1], (uint32_t)w[2], (uint32_t)w[3]);
  else coredump_clear(c);
}

/* Takes the dump, with a memory of so many pages, of which each has its number as last byte. */
static enum coredump_state take(struct w2c_coredump *c, size_t pages, struct bytes *dump) {
  uint8_t *memory = pages ? calloc(pages, PAGE) : NULL;
  for (size_t page = 0; page < pages; page++) memory[(page + 1) * PAGE - 1] = (uint8_t)page;
  enum coredump_state state = coredump_take(c, memory, pages * PAGE, "a name", put, dump);
  free(memory);
  return state;
}

/* The same calls with the room that was told. */
static enum coredump_state again(const struct w2c_coredump *told, const struct call *calls, size_t count, size_t pages, struct bytes *dump) {
  struct w2c_coredump c = roomy(told->needed_values, (size_t)told->needed_bytes);
  for (size_t index = 0; index < count; index++) make(&c, &calls[index]);
  enum coredump_state state = take(&c, pages, dump);
  give_back(&c);
  return state;
}

static void answer(struct w2c_coredump *c, const struct call *calls, size_t count, size_t pages, FILE *answers) {
  struct bytes dump = {NULL, 0};
  enum coredump_state state = take(c, pages, &dump);
  int lacked = state == COREDUMP_NO_ROOM;
  if (lacked) state = again(c, calls, count, pages, &dump);
  if (state == COREDUMP_NO_ROOM || state == COREDUMP_NOT_WRITTEN) {
    fprintf(stderr, "the room that was told does not suffice\n");
    exit(1);
  }
  const char *said = (const char *[]){"none", "whole", "torn"}[state];
  fprintf(answers, "%s%s %" PRIu32 " %" PRIu32 "\n", said, lacked ? " without room" : "", c->calls, c->kind);
  fwrite(dump.at, 1, dump.size, answers);
  free(dump.at);
}

static int next(FILE *script, struct call *call) {
  uint64_t *w = call->words;
  return fscanf(script, " %c %" SCNu64 " %" SCNu64 " %" SCNu64 " %" SCNu64, &call->kind, &w[0], &w[1], &w[2], &w[3]) == 5;
}

int main(int count, char **words) {
  FILE *script = count == 3 ? fopen(words[1], "r") : NULL, *answers = count == 3 ? fopen(words[2], "wb") : NULL;
  if (!script || !answers) return 2;
  struct w2c_coredump c = roomy(0, 0);
  static struct call calls[MOST];
  struct call now = {0};
  size_t made = 0;
  while (next(script, &now)) {
    if (now.kind == 'r') {
      give_back(&c);
      c = roomy((size_t)now.words[0], (size_t)now.words[1]);
      made = 0;
    } else if (now.kind == 't') {
      answer(&c, calls, made, (size_t)now.words[0], answers);
      made = 0;
    } else if (made < MOST) {
      make(&c, &now);
      calls[made++] = now;
    }
  }
  give_back(&c);
  fclose(script);
  return fclose(answers);
}
