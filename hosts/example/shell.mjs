// gjs -m shell.mjs MODULE DUMP A B, or jsc -m shell.mjs -- MODULE DUMP A B: as embed.mjs, in shells of SpiderMonkey and of JavaScriptCore.
import { Collector } from '../collector.mjs';

const ofGjs = () => {
  const { GLib } = globalThis.imports.gi;
  return { words: globalThis.ARGV, read: (name) => GLib.file_get_contents(name)[1], write: (name, bytes) => GLib.file_set_contents(name, bytes) };
};
const ofJsc = () => ({ words: globalThis.arguments, read: (name) => readFile(name, 'binary'), write: writeFile });

const { words, read, write } = globalThis.imports?.gi ? ofGjs() : ofJsc();
const [module, file, ...args] = words;
const collector = new Collector();
const instance = new WebAssembly.Instance(new WebAssembly.Module(read(module)), collector.imports);
try {
  print(instance.exports.run(...args.map(Number)));
} catch (trap) {
  const dump = collector.take(instance.exports['coredump.memory']);
  if (dump === null) throw trap;
  write(file, dump);
}
