/* The standard C API of today over that of wabt 1.0.32, which takes arrays in place of vectors: as much of it as capi.c needs. */
#ifndef OLDER_WASM_H
#define OLDER_WASM_H
#include <wabt/wasm.h>

#define WASM_I32_VAL(VALUE) {.kind = WASM_I32, .of = {.i32 = (VALUE)}}
#define WASM_INIT_VAL {.kind = WASM_ANYREF, .of = {.ref = NULL}}
#define WASM_ARRAY_VEC(ARRAY) {sizeof(ARRAY) / sizeof *(ARRAY), ARRAY}

typedef wasm_trap_t *(*older_callback)(void *, const wasm_val_vec_t *, wasm_val_vec_t *);
struct older_call { older_callback call; void *with; size_t parameters, results; };

static wasm_trap_t *older_called(void *with, const wasm_val_t in[], wasm_val_t out[]) {
  const struct older_call *made = with;
  wasm_val_vec_t arguments = {made->parameters, (wasm_val_t *)in}, results = {made->results, out};
  return made->call(made->with, &arguments, &results);
}

static wasm_func_t *older_func(wasm_store_t *store, const wasm_functype_t *type, older_callback call, void *with) {
  static struct older_call made[16];
  static size_t count;
  struct older_call *one = &made[count++];
  *one = (struct older_call){call, with, wasm_functype_params(type)->size, wasm_functype_results(type)->size};
  return (wasm_func_new_with_env)(store, type, older_called, one, NULL);
}

#define wasm_func_callback_with_env_t older_callback
#define wasm_func_new_with_env(STORE, TYPE, CALL, WITH, END) older_func(STORE, TYPE, CALL, WITH)
#define wasm_func_call(FUNC, IN, OUT) (wasm_func_call)(FUNC, (IN)->data, (OUT)->data)
#define wasm_instance_new(STORE, MODULE, GIVEN, TRAP) \
  (wasm_instance_new)(STORE, MODULE, (const wasm_extern_t *const *)(GIVEN)->data, TRAP)
#endif
