/* Records what a host replies to the calls of a module's imports, as a file of replies that `pm run --replies` and `pm replay` read. An
 * import of the embedder begins a reply, says which bytes of the memory it may change, does its work, and ends the reply by its value;
 * README.md has an example. Nothing is allocated. */
#ifndef COREDUMP_RECORD_H
#define COREDUMP_RECORD_H
#include "collector.h"

#ifdef __cplusplus
extern "C" {
#endif

enum { REPLIES_MOST_RANGES = 8 };

struct replies_range { size_t address, size, at; };

struct replies {
  /* Set by the embedder: where the lines go, and room for a copy of the bytes that one call may change. */
  coredump_put *put;
  void *to;
  uint8_t *copy;
  size_t most_bytes;
  /* All 0 before the first call. */
  uint32_t calls; /* those that were recorded */
  uint32_t bytes; /* of the file */
  uint8_t is_over, is_serving, failed; /* `failed`: something could not be put */
  size_t size, copied, range_count;
  struct replies_range ranges[REPLIES_MOST_RANGES];
};

/* A call of an import begins; `size` is that of the memory, 0 where there is none. */
void replies_begin(struct replies *, size_t size);
/* The call may change these bytes: all of the memory where nothing better is known. What it does not name is not recorded. */
void replies_lend(struct replies *, const uint8_t *memory, size_t address, size_t size);
/* The call ends without a value, or with one. */
void replies_none(struct replies *, const uint8_t *memory, size_t size);
void replies_i32(struct replies *, const uint8_t *memory, size_t size, uint32_t value);
void replies_i64(struct replies *, const uint8_t *memory, size_t size, uint64_t value);
/* What comes now fits no reply, such as a call of the module while it is served: the record ends by a line that says so. */
void replies_stop(struct replies *, const char *why);
/* Behind the run: a call that did not come back, because the host trapped in it, ends the record too. */
void replies_close(struct replies *);

#ifdef __cplusplus
}
#endif
#endif
