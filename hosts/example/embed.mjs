// node embed.mjs MODULE DUMP A B: runs the export `run` of a rewritten module on A and B, and writes the dump of its trap.
import { readFileSync, writeFileSync } from 'node:fs';
import { Collector } from 'pm-collector';

const [module, file, ...args] = process.argv.slice(2);
const collector = new Collector();
const { instance } = await WebAssembly.instantiate(readFileSync(module), collector.imports);
try {
  console.log(instance.exports.run(...args.map(Number)));
} catch (trap) {
  const dump = collector.take(instance.exports['coredump.memory']);
  if (dump === null) throw trap;
  writeFileSync(file, dump);
}
