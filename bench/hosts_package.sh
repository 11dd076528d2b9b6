# The packages, of hosts.sh, which reads this file: what is installed is used by the examples.

# The declarations against a program in TypeScript, and what the compiler made of that against the same program by hand.
try_types() {
  tsc --strict --noEmit --target es2022 --module node16 --moduleResolution node16 "$example/embed.ts"
  echo 'the declarations pass tsc --strict'
}

# The library that CMake installs, in a program that contains the example that was rewritten by hand.
try_cmake() {
  wat2wasm "$example/original.wat" -o original.wasm
  wat2wasm "$example/rewritten.wat" -o rewritten.wasm
  "$pm" run original.wasm run i32:7 i32:0 --dump run.core > text || test $? = 1
  for host in $hosts; do
    case $host in wasm2c.*) ;; *) continue ;; esac
    build_plugin "$host" rewritten.wasm "$example/embed.c" "$example/save.c" "$top/hosts/collector.c"
    pair=$(cat "$host") old=OFF
    if grep -q Z_plugin_instance_t "$host.sources/plugin.h"; then old=ON; fi
    {
      cmake -S "$top/hosts" -B "$host.library" -DCMAKE_INSTALL_PREFIX="$work/$host.installed" -DCOREDUMP_OLD_NAMES=$old
      cmake --build "$host.library" --target install
      cmake -S "$example" -B "$host.embed" -DCMAKE_PREFIX_PATH="$work/$host.installed" -DPLUGIN="$work/$host.sources" -DRUNTIME="${pair#*=}"
      cmake --build "$host.embed"
    } > built 2>&1 || { cat built; exit 1; }
    "./$host.embed/embed" host.core 7 0 2> host.said
    cmp run.core host.core
    echo "CMake's target: the same dump in $host"
  done
}
