/* wasmedge MODULE DUMP A B: runs the export `run` of a rewritten module on A and B, by the C API of WasmEdge 0.14, and writes the dump of
 * its trap. */
#include "save.h"
#include <stdio.h>
#include <stdlib.h>
#include <wasmedge/wasmedge.h>

enum { PAGE = 65536 };

static struct coredump_value values[1024];
static uint8_t frames[65536];
static struct w2c_coredump collector = {.values = values, .most_values = 1024, .frames = frames, .most_bytes = sizeof frames};

#define WORD(INDEX) ((uint32_t)WasmEdge_ValueGetI32(in[INDEX]))

static WasmEdge_Result value_i32(void *c, const WasmEdge_CallingFrameContext *caller, const WasmEdge_Value *in, WasmEdge_Value *out) {
  (void)caller, (void)out;
  w2c_coredump_value_i32(c, WORD(0));
  return WasmEdge_Result_Success;
}

static WasmEdge_Result value_i64(void *c, const WasmEdge_CallingFrameContext *caller, const WasmEdge_Value *in, WasmEdge_Value *out) {
  (void)caller, (void)out;
  w2c_coredump_value_i64(c, (uint64_t)WasmEdge_ValueGetI64(in[0]));
  return WasmEdge_Result_Success;
}

static WasmEdge_Result frame(void *c, const WasmEdge_CallingFrameContext *caller, const WasmEdge_Value *in, WasmEdge_Value *out) {
  (void)caller, (void)out;
  w2c_coredump_frame(c, WORD(0), WORD(1), WORD(2), WORD(3));
  return WasmEdge_Result_Success;
}

/* Text that the program ends with: nothing is given back. */
static WasmEdge_String text(const char *name) { return WasmEdge_StringCreateByCString(name); }

static void add(WasmEdge_ModuleInstanceContext *host, const char *name, WasmEdge_HostFunc_t call, WasmEdge_ValType of, uint32_t count) {
  const WasmEdge_ValType types[4] = {of, of, of, of};
  WasmEdge_FunctionTypeContext *type = WasmEdge_FunctionTypeCreate(types, count, NULL, 0);
  WasmEdge_ModuleInstanceAddFunction(host, text(name), WasmEdge_FunctionInstanceCreate(type, call, &collector, 0));
  WasmEdge_FunctionTypeDelete(type);
}

static WasmEdge_ModuleInstanceContext *collector_module(void) {
  WasmEdge_ModuleInstanceContext *host = WasmEdge_ModuleInstanceCreate(text("coredump"));
  add(host, "value_i32", value_i32, WasmEdge_ValTypeGenI32(), 1);
  add(host, "value_i64", value_i64, WasmEdge_ValTypeGenI64(), 1);
  add(host, "frame", frame, WasmEdge_ValTypeGenI32(), 4);
  return host;
}

/* Whether that went well; else it says how not. */
static int passed(WasmEdge_Result result) {
  if (!WasmEdge_ResultOK(result)) fprintf(stderr, "%s, kind %u\n", WasmEdge_ResultGetMessage(result), (unsigned)collector.kind);
  return WasmEdge_ResultOK(result);
}

static WasmEdge_ModuleInstanceContext *plugin_of(WasmEdge_ExecutorContext *executor, const char *file) {
  WasmEdge_StoreContext *store = WasmEdge_StoreCreate();
  WasmEdge_ASTModuleContext *module;
  WasmEdge_ModuleInstanceContext *plugin;
  int stands = passed(WasmEdge_ExecutorRegisterImport(executor, store, collector_module())) &&
               passed(WasmEdge_LoaderParseFromFile(WasmEdge_LoaderCreate(NULL), &module, file)) &&
               passed(WasmEdge_ValidatorValidate(WasmEdge_ValidatorCreate(NULL), module)) &&
               passed(WasmEdge_ExecutorInstantiate(executor, &plugin, store, module));
  return stands ? plugin : NULL;
}

static int save(const WasmEdge_ModuleInstanceContext *plugin, const char *file) {
  WasmEdge_MemoryInstanceContext *memory = WasmEdge_ModuleInstanceFindMemory(plugin, text("coredump.memory"));
  uint32_t size = memory ? WasmEdge_MemoryInstanceGetPageSize(memory) * PAGE : 0;
  return save_dump(&collector, memory ? WasmEdge_MemoryInstanceGetPointerConst(memory, 0, size) : NULL, size, file);
}

static WasmEdge_Value number(const char *word) { return WasmEdge_ValueGenI32((int32_t)strtoul(word, NULL, 10)); }

int main(int count, char **words) {
  if (count != 5) return 2;
  WasmEdge_LogOff();
  WasmEdge_ExecutorContext *executor = WasmEdge_ExecutorCreate(NULL, NULL);
  WasmEdge_ModuleInstanceContext *plugin = plugin_of(executor, words[1]);
  if (!plugin) return 1;
  WasmEdge_Value out[1], in[2] = {number(words[3]), number(words[4])};
  if (!passed(WasmEdge_ExecutorInvoke(executor, WasmEdge_ModuleInstanceFindFunction(plugin, text("run")), in, 2, out, 1)))
    return save(plugin, words[2]) ? 0 : 1;
  printf("%u\n", (unsigned)WasmEdge_ValueGetI32(out[0]));
  return 0;
}
