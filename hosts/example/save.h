/* What the examples in C do with a dump. */
#ifndef SAVE_H
#define SAVE_H
#include "collector.h"

/* Writes the dump of the last calls to a file, or says why there is none. Answers whether it is written. */
int save_dump(struct w2c_coredump *, const uint8_t *memory, size_t size, const char *file);
#endif
