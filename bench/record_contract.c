/* record_contract REPLIES DUMP KEY,SUM ..: the host of bench/programs/contract.c in C, which does as that in record_contract.mjs, around the
 * rewritten module as wasm2c made it. */
#include "plugin.h"
#include "record.h"
#include "save.h"
#include "wasm-rt-impl.h"
#include <stdio.h>
#include <string.h>

#ifdef COREDUMP_OLD_NAMES
#define NAME(FUNCTION) Z_envZ_##FUNCTION
#define ENV struct Z_env_instance_t
#define PLUGIN Z_plugin_instance_t
#define INSTANTIATE(PLUGIN_AT, COLLECTOR, HOST) (Z_plugin_init_module(), Z_plugin_instantiate(PLUGIN_AT, COLLECTOR, HOST))
#define RUN Z_pluginZ_run
#define MEMORY Z_pluginZ_memory
#else
#include "wasm-rt-exceptions.h"
#define NAME(FUNCTION) w2c_env_##FUNCTION
#define ENV struct w2c_env
#define PLUGIN w2c_plugin
#define INSTANTIATE wasm2c_plugin_instantiate
#define RUN w2c_plugin_run
#define MEMORY w2c_plugin_memory
#endif

enum { KEYS = 3, BYTES = 16 };

struct account { uint64_t balance; uint32_t holders; };

static struct coredump_value values[1024];
static uint8_t frames[65536], copy[64];
static struct w2c_coredump collector = {.values = values, .most_values = 1024, .frames = frames, .most_bytes = sizeof frames};
static struct replies record = {.copy = copy, .most_bytes = sizeof copy};
static struct account books[KEYS] = {{0, 0}, {1000, 4}, {5, 0}};
static uint64_t next_caller = 0x7fffffffffffffff;
static PLUGIN plugin;

#define LENT MEMORY(&plugin)->data
#define SIZE MEMORY(&plugin)->size

u64 NAME(caller)(ENV *env) {
  (void)env;
  replies_begin(&record, SIZE);
  replies_i64(&record, LENT, SIZE, next_caller);
  return next_caller++;
}

u32 NAME(read)(ENV *env, u32 key, u32 to) {
  (void)env;
  int stands = key == 1 || key == 2;
  replies_begin(&record, SIZE);
  replies_lend(&record, LENT, to, BYTES);
  if (stands) memcpy(LENT + to, &books[key].balance, 8), memcpy(LENT + to + 8, &books[key].holders, 4);
  replies_i32(&record, LENT, SIZE, (uint32_t)stands);
  return (u32)stands;
}

void NAME(write)(ENV *env, u32 key, u32 from) {
  (void)env;
  replies_begin(&record, SIZE);
  memcpy(&books[key].balance, LENT + from, 8), memcpy(&books[key].holders, LENT + from + 8, 4);
  replies_none(&record, LENT, SIZE);
}

void NAME(note)(ENV *env, u32 text, u32 size) {
  (void)env, (void)text, (void)size;
  replies_begin(&record, SIZE);
  replies_none(&record, LENT, SIZE);
}

static int put(void *to, const void *bytes, size_t size) { return fwrite(bytes, 1, size, to) == size; }

int main(int count, char **words) {
  static int index; /* static, as a trap jumps back here */
  static unsigned key, sum;
  record.put = put, record.to = count > 3 ? fopen(words[1], "wb") : NULL;
  if (!record.to) return 2;
  wasm_rt_init();
  INSTANTIATE(&plugin, &collector, NULL);
  for (index = 3; index < count; index++) {
    if (sscanf(words[index], "%u,%u", &key, &sum) != 2) return 2;
    if (wasm_rt_impl_try() == WASM_RT_TRAP_NONE) {
      printf("finished i32:%d\n", (int)RUN(&plugin, key, sum));
    } else {
      printf("trap %u\n", (unsigned)collector.kind);
      if (!save_dump(&collector, LENT, SIZE, words[2])) return 1;
    }
  }
  replies_close(&record);
  return fclose(record.to) != 0 || record.failed;
}
