/* embed DUMP A B: runs the export `run` of a rewritten module, which `wasm2c -n plugin` turned into C, on A and B, and writes the dump of
 * its trap. Define COREDUMP_OLD_NAMES for wasm2c up to 1.0.32, and PLUGIN_WITHOUT_MEMORY where the module has none. */
#include "plugin.h"
#include "save.h"
#include "wasm-rt-impl.h"
#include <stdio.h>
#include <stdlib.h>

#ifdef COREDUMP_OLD_NAMES
#define PLUGIN Z_plugin_instance_t
#define PLUGIN_PREPARE Z_plugin_init_module
#define PLUGIN_INSTANTIATE Z_plugin_instantiate
#define PLUGIN_RUN Z_pluginZ_run
#define PLUGIN_MEMORY Z_pluginZ_coredumpZ2Ememory
#else
#include "wasm-rt-exceptions.h"
#define PLUGIN w2c_plugin
#define PLUGIN_PREPARE() (void)0
#define PLUGIN_INSTANTIATE wasm2c_plugin_instantiate
#define PLUGIN_RUN w2c_plugin_run
#define PLUGIN_MEMORY w2c_plugin_coredump0x2Ememory
#endif

/* Static, as a trap jumps back into `main`: what a function changes in its own variables before that may be lost. */
static struct coredump_value values[1024];
static uint8_t frames[65536];
static struct w2c_coredump collector = {.values = values, .most_values = 1024, .frames = frames, .most_bytes = sizeof frames};
static PLUGIN plugin;

static int save(const char *file) {
#ifdef PLUGIN_WITHOUT_MEMORY
  return save_dump(&collector, NULL, 0, file);
#else
  wasm_rt_memory_t *memory = PLUGIN_MEMORY(&plugin);
  return save_dump(&collector, memory->data, memory->size, file);
#endif
}

int main(int count, char **words) {
  if (count != 4) return 2;
  wasm_rt_init();
  PLUGIN_PREPARE();
  wasm_rt_trap_t trap = wasm_rt_impl_try();
  if (trap == WASM_RT_TRAP_NONE) {
    PLUGIN_INSTANTIATE(&plugin, &collector); /* under the try, as a start function may trap */
    printf("%u\n", PLUGIN_RUN(&plugin, (u32)strtoul(words[2], NULL, 10), (u32)strtoul(words[3], NULL, 10)));
    return 0;
  }
  fprintf(stderr, "%s, kind %u\n", wasm_rt_strerror(trap), (unsigned)collector.kind);
  return save(words[1]) ? 0 : 1;
}
