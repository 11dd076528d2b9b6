/* record_ends FOLDER: as record_ends.mjs, by the recorder in C and without a module: each file has a reply of 5, and then what no reply can be. */
#include "record.h"
#include <stdio.h>
#include <string.h>

enum { PAGE = 65536 };

static uint8_t memory[2 * PAGE], copy[PAGE];

static int put(void *to, const void *bytes, size_t size) { return fwrite(bytes, 1, size, to) == size; }

static void traps(struct replies *r) { (void)r; }
static void grows(struct replies *r) { replies_i32(r, memory, 2 * PAGE, 1); }
static void lends_more(struct replies *r) { replies_lend(r, memory, 0, 1), replies_i32(r, memory, PAGE, 1); }

static void calls(struct replies *r) {
  replies_stop(r, "the host called the module");
  replies_i32(r, memory, PAGE, 9);
}

static void fits(struct replies *r) {
  memory[PAGE - 3] = 1, memory[PAGE - 1] = 2;
  replies_i32(r, memory, PAGE, (uint32_t)-1);
}

static int record(const char *folder, const char *name, void (*way)(struct replies *)) {
  char file[4096];
  snprintf(file, sizeof file, "%s/%s", folder, name);
  struct replies r = {.put = put, .to = fopen(file, "wb"), .copy = copy, .most_bytes = sizeof copy};
  if (!r.to) return 0;
  memset(memory, 0, sizeof memory);
  replies_begin(&r, PAGE), replies_i32(&r, memory, PAGE, 5);
  replies_begin(&r, PAGE), replies_lend(&r, memory, 0, PAGE), way(&r);
  replies_close(&r);
  return fclose(r.to) == 0 && !r.failed;
}

int main(int count, char **words) {
  if (count != 2) return 2;
  const char *folder = words[1];
  return !(record(folder, "c.traps", traps) && record(folder, "c.grows", grows) && record(folder, "c.lends_more", lends_more) &&
           record(folder, "c.calls", calls) && record(folder, "c.fits", fits));
}
