#include "record.h"
#include <inttypes.h>
#include <stdio.h>
#include <string.h>

enum { MOST_BYTES = 16777216, LONGEST_END = 200, NUMBER = 24 };

static void text_out(struct replies *r, const char *text) {
  size_t size = strlen(text);
  if (!r->failed) r->failed = !r->put(r->to, text, size);
  r->bytes += (uint32_t)size;
}

void replies_stop(struct replies *r, const char *why) {
  char end[LONGEST_END];
  if (r->is_over) return;
  snprintf(end, sizeof end, "# the record ends here: %.120s, call %" PRIu32 "\n", why, r->calls);
  text_out(r, end);
  r->is_over = 1;
}

void replies_begin(struct replies *r, size_t size) {
  if (r->is_serving) replies_stop(r, "another call while the host served one");
  r->is_serving = 1, r->size = size, r->copied = 0, r->range_count = 0;
}

void replies_lend(struct replies *r, const uint8_t *memory, size_t address, size_t size) {
  if (r->is_over) return;
  if (address > r->size || size > r->size - address) size = 0; /* the import can't change what is not there */
  if (r->range_count == REPLIES_MOST_RANGES || size > r->most_bytes - r->copied) {
    replies_stop(r, "no room for a copy of what the host may change");
    return;
  }
  r->ranges[r->range_count++] = (struct replies_range){address, size, r->copied};
  if (size > 0) memcpy(r->copy + r->copied, memory + address, size);
  r->copied += size;
}

/* Bytes of a write as it will be put: a space, the address, `=`, and two digits a byte. */
static void write_out(struct replies *r, const uint8_t *bytes, size_t address, size_t size) {
  char part[NUMBER];
  snprintf(part, sizeof part, " %zu=", address);
  text_out(r, part);
  for (; size > 0; size--, bytes++) {
    snprintf(part, sizeof part, "%02x", *bytes);
    text_out(r, part);
  }
}

/* Calls `tell` with each run of bytes that changed. */
typedef void each_run(struct replies *, const uint8_t *bytes, size_t address, size_t size);

static void runs(struct replies *r, const uint8_t *memory, each_run *tell) {
  for (size_t index = 0; index < r->range_count; index++) {
    struct replies_range range = r->ranges[index];
    const uint8_t *before = r->copy + range.at, *now = memory + range.address;
    for (size_t at = 0; at < range.size; at++) {
      size_t from = at;
      while (at < range.size && before[at] != now[at]) at++;
      if (at > from) tell(r, now + from, range.address + from, at - from);
    }
  }
}

/* Counts what a write takes up, in place of the bytes that were copied, which nobody needs any more. */
static void count_run(struct replies *r, const uint8_t *bytes, size_t address, size_t size) {
  (void)bytes, (void)address;
  r->copied += NUMBER + 2 * size;
}

static void reply(struct replies *r, const uint8_t *memory, size_t size, const char *value) {
  r->is_serving = 0;
  if (r->is_over) return;
  if (size != r->size) {
    replies_stop(r, "the host grew the memory");
    return;
  }
  r->copied = 0;
  runs(r, memory, count_run);
  if (r->bytes + r->copied + LONGEST_END + 2 * NUMBER > MOST_BYTES) {
    replies_stop(r, "a file of replies has no room for more");
    return;
  }
  text_out(r, value);
  runs(r, memory, write_out);
  text_out(r, "\n");
  r->calls++;
}

void replies_none(struct replies *r, const uint8_t *memory, size_t size) { reply(r, memory, size, "none"); }

void replies_i32(struct replies *r, const uint8_t *memory, size_t size, uint32_t value) {
  char text[NUMBER];
  snprintf(text, sizeof text, "i32:%" PRId32, (int32_t)value);
  reply(r, memory, size, text);
}

void replies_i64(struct replies *r, const uint8_t *memory, size_t size, uint64_t value) {
  char text[NUMBER + 4];
  snprintf(text, sizeof text, "i64:%" PRId64, (int64_t)value);
  reply(r, memory, size, text);
}

void replies_close(struct replies *r) {
  if (r->is_serving) replies_stop(r, "the host did not come back from a call");
}
