/* Collects the calls by which a rewritten module hands over its state at a trap, and gives the bytes of the core dump.
 * For modules that wasm2c turned into C, and for embedders of engines; README.md says how to embed it. Nothing is allocated. */
#ifndef COREDUMP_COLLECTOR_H
#define COREDUMP_COLLECTOR_H
#include <stddef.h>
#include <stdint.h>

#ifdef __cplusplus
extern "C" {
#endif

/* wasm2c up to 1.0.32 names what a module imports in another way than later ones. */
#ifdef COREDUMP_OLD_NAMES
#define COREDUMP(NAME) Z_coredumpZ_##NAME
#define w2c_coredump Z_coredump_instance_t
#else
#define COREDUMP(NAME) w2c_coredump_##NAME
#endif

enum coredump_state {
  COREDUMP_NONE,       /* there were no calls */
  COREDUMP_WHOLE,      /* the dump was put */
  COREDUMP_TORN,       /* `calls` is the first call that does not fit, or their number where more were to come */
  COREDUMP_NO_ROOM,    /* whole calls, for which `needed_values` and `needed_bytes` would have sufficed */
  COREDUMP_NOT_WRITTEN /* whole calls, but not all bytes could be put; they stay, to be taken again */
};

struct coredump_value { int64_t bits; uint8_t type; };

struct w2c_coredump {
  /* Set by the embedder: room for the values of one frame or all globals, and for the frames of a dump: 42 bytes a frame and 11 a value
   * always suffice. */
  struct coredump_value *values;
  size_t most_values;
  uint8_t *frames;
  size_t most_bytes;
  /* All 0 before the first call. Of the last list these are told until the next one begins, behind `coredump_take` too: */
  uint32_t kind;  /* of the trap: 1 to 7 */
  uint32_t calls; /* those that fit */
  size_t needed_values;
  uint64_t needed_bytes;
  /* Of the collector itself. */
  size_t value_count, frame_count, frame_bytes;
  uint8_t is_torn, is_closed, is_taken, lacks_room;
};

/* Takes bytes of the dump, in order, and answers whether it could: behind a 0 it is not called again. */
typedef int coredump_put(void *to, const void *bytes, size_t size);

/* Puts the dump where the calls are whole, and tells what they are. `memory` is what the module exports as coredump.memory, whole
 * pages of 65,536 bytes, and NULL where it has none. Then the collector is ready for the next trap. */
enum coredump_state coredump_take(struct w2c_coredump *, const uint8_t *memory, size_t size, const char *name, coredump_put *, void *to);

/* Forgets the calls so far. */
void coredump_clear(struct w2c_coredump *);

void COREDUMP(value_i32)(struct w2c_coredump *, uint32_t value);
void COREDUMP(value_i64)(struct w2c_coredump *, uint64_t value);
void COREDUMP(frame)(struct w2c_coredump *, uint32_t kind, uint32_t function, uint32_t offset, uint32_t locals);

#ifdef __cplusplus
}
#endif
#endif
