#include "collector.h"
#include <string.h>

enum { PAGE = 65536, LAST = 255, I32 = 0x7f, NUMBER = 10, MOST_CALLS = 134217728, FRAME = 2 + 4 * NUMBER, VALUE = 1 + NUMBER, STACK = 512 };

static size_t put_unsigned(uint8_t *at, uint64_t value) {
  size_t size = 0;
  for (; value >= 0x80; value >>= 7) at[size++] = (uint8_t)(value | 0x80);
  at[size++] = (uint8_t)value;
  return size;
}

static size_t put_signed(uint8_t *at, int64_t value) {
  size_t size = 0;
  for (; value < -0x40 || value >= 0x40; value = (value - (value & 0x7f)) / 0x80) at[size++] = (uint8_t)(value | 0x80);
  at[size++] = (uint8_t)(value & 0x7f);
  return size;
}

void coredump_clear(struct w2c_coredump *c) {
  *c = (struct w2c_coredump){.values = c->values, .most_values = c->most_values, .frames = c->frames, .most_bytes = c->most_bytes};
}

/* Uses more of the stack than any call here: where the host makes a trap of its end, the first call of a frame fails and no other one, so
 * that nothing of an unfinished frame comes into the next list. */
static void reach(void) {
  volatile uint8_t stack[STACK];
  stack[0] = stack[STACK - 1] = 0;
}

/* Before a call: one behind a list that was closed or taken begins a new list. */
static void begin(struct w2c_coredump *c) {
  int over = c->is_closed || c->is_taken;
  if (over || c->value_count == 0) reach();
  if (over) coredump_clear(c);
}

/* Counts a call that fits, unless one before it did not. */
static int counted(struct w2c_coredump *c, int fits) {
  if (!fits || c->calls >= MOST_CALLS) c->is_torn = 1;
  if (!c->is_torn) c->calls++;
  return !c->is_torn;
}

/* A value without room is counted all the same, so that the room can be told that would have sufficed. */
static void add_value(struct w2c_coredump *c, uint8_t type, int64_t bits) {
  begin(c);
  if (!counted(c, 1)) return;
  if (c->value_count < c->most_values) c->values[c->value_count] = (struct coredump_value){bits, type};
  else c->lacks_room = 1;
  c->value_count++;
  if (c->needed_values < c->value_count) c->needed_values = c->value_count;
}

void COREDUMP(value_i32)(struct w2c_coredump *c, uint32_t value) { add_value(c, I32, (int32_t)value); }
void COREDUMP(value_i64)(struct w2c_coredump *c, uint64_t value) { add_value(c, I32 - 1, (int64_t)value); }

static size_t put_values(uint8_t *at, const struct coredump_value *values, size_t count) {
  size_t size = put_unsigned(at, count);
  for (; count > 0; count--, values++) {
    at[size++] = values->type;
    size += put_signed(at + size, values->bits);
  }
  return size;
}

static void put_frame(struct w2c_coredump *c, uint32_t function, uint32_t offset, size_t below) {
  size_t most = FRAME + c->value_count * VALUE;
  c->needed_bytes += most;
  if (most > c->most_bytes - c->frame_bytes) c->lacks_room = 1;
  if (!c->lacks_room) {
    uint8_t *at = c->frames + c->frame_bytes;
    size_t size = 2;
    at[0] = at[1] = 0; /* a frame, of instance 0 */
    size += put_unsigned(at + size, function);
    size += put_unsigned(at + size, offset);
    size += put_values(at + size, c->values + below, c->value_count - below);
    size += put_values(at + size, c->values, below);
    c->frame_bytes += size;
  }
  c->frame_count++, c->value_count = 0;
}

/* A list begins before the last one was closed, of which nothing stays but the values of its first frame. */
static void restart(struct w2c_coredump *c) {
  c->calls = (uint32_t)c->value_count;
  c->needed_values = c->value_count, c->needed_bytes = 0;
  c->frame_count = 0, c->frame_bytes = 0;
  c->lacks_room = c->value_count > c->most_values;
}

void COREDUMP(frame)(struct w2c_coredump *c, uint32_t kind, uint32_t function, uint32_t offset, uint32_t locals) {
  begin(c);
  int innermost = kind >= 1 && kind <= 7, last = kind == LAST;
  if (innermost && !c->is_torn && c->frame_count > 0) restart(c);
  int first = c->frame_count == 0;
  int closes = !first && function == 0 && offset == 0 && locals == c->value_count;
  int goes_on = (first ? innermost : kind == 0) && locals <= c->value_count;
  if (!counted(c, last ? closes : goes_on)) return;
  if (first) c->kind = kind;
  if (last) c->is_closed = 1;
  else put_frame(c, function, offset, c->value_count - locals);
}

/* What a dump is made of, and where its bytes go: a section is written twice, first without `put`, which gives its size. */
struct dump {
  const struct w2c_coredump *c;
  const uint8_t *memory;
  size_t memory_size;
  const char *name;
  coredump_put *put;
  void *to;
  uint64_t size;
  int failed;
};
typedef void contents(struct dump *);

static void bytes_out(struct dump *d, const void *bytes, size_t size) {
  if (d->put && !d->failed) d->failed = !d->put(d->to, bytes, size);
  d->size += size;
}

static void number_out(struct dump *d, uint64_t value) {
  uint8_t bytes[NUMBER];
  bytes_out(d, bytes, put_unsigned(bytes, value));
}

static void name_out(struct dump *d, const char *name) {
  number_out(d, strlen(name));
  bytes_out(d, name, strlen(name));
}

static void core(struct dump *d) { name_out(d, "core"), bytes_out(d, "\0", 1), name_out(d, d->name); }
static void modules(struct dump *d) { name_out(d, "coremodules"), bytes_out(d, "\1\0", 2), name_out(d, d->name); }
static void memory(struct dump *d) { bytes_out(d, "\1\0", 2), number_out(d, d->memory_size / PAGE); }

static void instances(struct dump *d) {
  name_out(d, "coreinstances");
  bytes_out(d, d->memory ? "\1\0\0\1\0" : "\1\0\0\0", d->memory ? 5 : 4);
  number_out(d, d->c->value_count);
  for (size_t index = 0; index < d->c->value_count; index++) number_out(d, index);
}

static void stack(struct dump *d) {
  name_out(d, "corestack"), bytes_out(d, "\0", 1), name_out(d, "main");
  number_out(d, d->c->frame_count);
  bytes_out(d, d->c->frames, d->c->frame_bytes);
}

static void globals(struct dump *d) {
  number_out(d, d->c->value_count);
  for (size_t index = 0; index < d->c->value_count; index++) {
    struct coredump_value value = d->c->values[index];
    uint8_t bytes[4 + NUMBER] = {value.type, 0, value.type == I32 ? 0x41 : 0x42};
    size_t size = 3 + put_signed(bytes + 3, value.bits);
    bytes[size++] = 0x0b;
    bytes_out(d, bytes, size);
  }
}

static int is_zero(const uint8_t *page) { return page[0] == 0 && memcmp(page, page + 1, PAGE - 1) == 0; }

static size_t page_count(const struct dump *d) {
  size_t count = 0;
  for (size_t at = 0; at < d->memory_size; at += PAGE) count += !is_zero(d->memory + at);
  return count;
}

static void segments(struct dump *d) {
  number_out(d, page_count(d));
  for (size_t at = 0; at < d->memory_size; at += PAGE) {
    if (is_zero(d->memory + at)) continue;
    uint8_t head[3 + 2 * NUMBER] = {0, 0x41};
    size_t size = 2 + put_signed(head + 2, (int32_t)at);
    head[size++] = 0x0b;
    bytes_out(d, head, size + put_unsigned(head + size, PAGE));
    bytes_out(d, d->memory + at, PAGE);
  }
}

static void section(struct dump *d, uint8_t id, contents *write) {
  struct dump measure = *d;
  measure.put = NULL, measure.size = 0, write(&measure);
  bytes_out(d, &id, 1), number_out(d, measure.size), write(d);
}

static void dump_out(struct dump *d) {
  bytes_out(d, "\0asm\1\0\0\0", 8);
  section(d, 0, core), section(d, 0, modules), section(d, 0, instances), section(d, 0, stack);
  if (d->memory) section(d, 5, memory);
  if (d->c->value_count > 0) section(d, 6, globals);
  if (page_count(d) > 0) section(d, 11, segments);
}

static enum coredump_state state_of(const struct w2c_coredump *c) {
  if (c->is_taken || (c->calls == 0 && !c->is_torn)) return COREDUMP_NONE;
  if (c->is_torn || !c->is_closed) return COREDUMP_TORN;
  return c->lacks_room ? COREDUMP_NO_ROOM : COREDUMP_WHOLE;
}

enum coredump_state coredump_take(struct w2c_coredump *c, const uint8_t *bytes, size_t size, const char *name, coredump_put *put, void *to) {
  struct dump d = {c, bytes, bytes ? size : 0, name, put, to, 0, 0};
  enum coredump_state state = state_of(c);
  if (state == COREDUMP_WHOLE) dump_out(&d);
  if (d.failed) return COREDUMP_NOT_WRITTEN;
  c->is_taken = 1;
  return state;
}
