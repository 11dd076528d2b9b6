/* A module that wasm2c turned into C, which traps as many calls deep as its argument says, run up to the end of the program's own stack and
 * past it: though nobody calls `coredump_take` or `coredump_clear` behind that, the next trap's dump is the right one. Needs the stack's end
 * to be told as a trap, as a runtime does that counts no calls. */
#include "collector.h"
#include "plugin.h"
#include "wasm-rt-impl.h"
#include <stdio.h>
#include <stdlib.h>
#include <string.h>

#ifdef COREDUMP_OLD_NAMES
#define PLUGIN Z_plugin_instance_t
#define PLUGIN_PREPARE Z_plugin_init_module
#define PLUGIN_INSTANTIATE Z_plugin_instantiate
#define PLUGIN_RUN Z_pluginZ_run
#else
#include "wasm-rt-exceptions.h"
#define PLUGIN w2c_plugin
#define PLUGIN_PREPARE() (void)0
#define PLUGIN_INSTANTIATE wasm2c_plugin_instantiate
#define PLUGIN_RUN w2c_plugin_run
#endif

enum { RUNS = 300, SHALLOW = 3, MOST = 1 << 16 };

/* Static, as a trap jumps back: what a function changes in its own variables before that may be lost. */
static struct coredump_value values[64];
static uint8_t frames[MOST];
static struct w2c_coredump collector = {.values = values, .most_values = 64, .frames = frames, .most_bytes = sizeof frames};
static PLUGIN plugin;
static struct { uint8_t bytes[MOST]; size_t size; } dumps[2];

static int put(void *to, const void *bytes, size_t size) {
  size_t *have = &dumps[*(int *)to].size;
  if (size > MOST - *have) return 0;
  memcpy(dumps[*(int *)to].bytes + *have, bytes, size);
  *have += size;
  return 1;
}

/* The trap of a run: `unreachable` is the module's own, in front of which it handed over its state. */
static wasm_rt_trap_t trap_at(uint32_t depth) {
  wasm_rt_trap_t trap = wasm_rt_impl_try();
  if (trap == WASM_RT_TRAP_NONE) PLUGIN_RUN(&plugin, depth, 0);
  return trap;
}

static int is_dump_at(uint32_t depth, int which) {
  dumps[which].size = 0;
  return trap_at(depth) == WASM_RT_TRAP_UNREACHABLE && coredump_take(&collector, NULL, 0, "module", put, &which) == COREDUMP_WHOLE;
}

static int fail(const char *text, uint32_t depth) { return printf("%s at depth %u\n", text, depth) > 0; }

int main(void) {
  static uint32_t depth = 1, step = 1, past, left;
  wasm_rt_init();
  PLUGIN_PREPARE();
  PLUGIN_INSTANTIATE(&plugin, &collector);
  if (!is_dump_at(SHALLOW, 0)) return fail("no dump", SHALLOW);
  for (int run = 0; run < RUNS; run++) {
    coredump_clear(&collector);
    wasm_rt_trap_t trap = trap_at(depth + step);
    if (trap == WASM_RT_TRAP_UNREACHABLE) {
      depth += step;
      step *= 2;
    } else if (trap == WASM_RT_TRAP_EXHAUSTION) {
      past++;
      left += collector.calls > 0;
      if (step == 1) depth--;
      step = 1;
    } else {
      return fail(wasm_rt_strerror(trap), depth + step);
    }
    if (!is_dump_at(SHALLOW, 1)) return fail("no dump", depth + step);
    if (dumps[0].size != dumps[1].size || memcmp(dumps[0].bytes, dumps[1].bytes, dumps[0].size) != 0) return fail("another dump behind one", depth + step);
  }
  if (!past) return fail("the end of the stack was not met", depth);
  return printf("%u runs met the end of the stack, at some %u calls, %u left calls, and the next dump is right\n", past, depth, left) < 0;
}
