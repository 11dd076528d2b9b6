/* capi MODULE DUMP A B: runs the export `run` of a rewritten module on A and B, in any engine that has the standard C API of WebAssembly
 * (wasm.h), and writes the dump of its trap. */
#include "save.h"
#include <wasm.h>
#include <stdio.h>
#include <stdlib.h>
#include <string.h>

static struct coredump_value values[1024];
static uint8_t frames[65536];
static struct w2c_coredump collector = {.values = values, .most_values = 1024, .frames = frames, .most_bytes = sizeof frames};

#define WORD(INDEX) ((uint32_t)in->data[INDEX].of.i32)

static wasm_trap_t *value_i32(void *c, const wasm_val_vec_t *in, wasm_val_vec_t *out) {
  (void)out;
  w2c_coredump_value_i32(c, WORD(0));
  return NULL;
}

static wasm_trap_t *value_i64(void *c, const wasm_val_vec_t *in, wasm_val_vec_t *out) {
  (void)out;
  w2c_coredump_value_i64(c, (uint64_t)in->data[0].of.i64);
  return NULL;
}

static wasm_trap_t *frame(void *c, const wasm_val_vec_t *in, wasm_val_vec_t *out) {
  (void)out;
  w2c_coredump_frame(c, WORD(0), WORD(1), WORD(2), WORD(3));
  return NULL;
}

static int is(const wasm_name_t *name, const char *text) { return name->size == strlen(text) && memcmp(name->data, text, name->size) == 0; }

/* What serves an import, and NULL where it is none of the collector's. */
static wasm_extern_t *served(wasm_store_t *store, const wasm_importtype_t *import) {
  const wasm_name_t *name = wasm_importtype_name(import);
  if (!is(wasm_importtype_module(import), "coredump")) return NULL;
  wasm_func_callback_with_env_t call = is(name, "value_i32") ? value_i32 : is(name, "value_i64") ? value_i64 : is(name, "frame") ? frame : NULL;
  const wasm_functype_t *type = wasm_externtype_as_functype_const(wasm_importtype_type(import));
  return call ? wasm_func_as_extern(wasm_func_new_with_env(store, type, call, &collector, NULL)) : NULL;
}

static wasm_instance_t *instance_of(wasm_store_t *store, const wasm_module_t *module, wasm_trap_t **trap) {
  wasm_importtype_vec_t imports;
  wasm_extern_vec_t given;
  wasm_module_imports(module, &imports);
  wasm_extern_vec_new_uninitialized(&given, imports.size);
  for (size_t index = 0; index < imports.size; index++)
    if (!(given.data[index] = served(store, imports.data[index]))) return NULL;
  return wasm_instance_new(store, module, &given, trap);
}

static wasm_extern_t *found(const wasm_module_t *module, const wasm_extern_vec_t *have, const char *name) {
  wasm_exporttype_vec_t exports;
  wasm_module_exports(module, &exports);
  for (size_t index = 0; index < exports.size; index++)
    if (is(wasm_exporttype_name(exports.data[index]), name)) return have->data[index];
  return NULL;
}

static wasm_module_t *module_of(wasm_store_t *store, const char *name) {
  FILE *file = fopen(name, "rb");
  if (!file || fseek(file, 0, SEEK_END) != 0) return NULL;
  wasm_byte_vec_t bytes;
  wasm_byte_vec_new_uninitialized(&bytes, (size_t)ftell(file));
  rewind(file);
  size_t size = fread(bytes.data, 1, bytes.size, file);
  return fclose(file) == 0 && size == bytes.size ? wasm_module_new(store, &bytes) : NULL;
}

static wasm_val_t number(const char *word) { return (wasm_val_t)WASM_I32_VAL((int32_t)strtoul(word, NULL, 10)); }

static void tell(const wasm_trap_t *trap) {
  wasm_message_t message;
  wasm_trap_message(trap, &message);
  fprintf(stderr, "%.*s, kind %u\n", (int)message.size, message.data, (unsigned)collector.kind);
}

int main(int count, char **words) {
  if (count != 5) return 2;
  wasm_store_t *store = wasm_store_new(wasm_engine_new());
  wasm_module_t *module = module_of(store, words[1]);
  wasm_trap_t *trap = NULL;
  wasm_extern_vec_t exports;
  wasm_instance_t *instance = module ? instance_of(store, module, &trap) : NULL;
  if (trap) tell(trap); /* the start function's, behind which this API gives no instance, and so no memory to dump */
  if (!instance) return 1;
  wasm_instance_exports(instance, &exports);
  wasm_extern_t *run = found(module, &exports, "run"), *kept = found(module, &exports, "coredump.memory");
  wasm_val_t in[2] = {number(words[3]), number(words[4])}, out[1] = {WASM_INIT_VAL};
  wasm_val_vec_t arguments = WASM_ARRAY_VEC(in), results = WASM_ARRAY_VEC(out);
  trap = wasm_func_call(wasm_extern_as_func(run), &arguments, &results);
  if (!trap) return printf("%u\n", (unsigned)out[0].of.i32) < 0;
  tell(trap);
  wasm_memory_t *memory = kept ? wasm_extern_as_memory(kept) : NULL;
  return !save_dump(&collector, memory ? (const uint8_t *)wasm_memory_data(memory) : NULL, memory ? wasm_memory_data_size(memory) : 0, words[2]);
}
