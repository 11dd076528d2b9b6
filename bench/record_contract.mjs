// node record_contract.mjs MODULE REPLIES DUMP KEY,SUM ..: the host of bench/programs/contract.c in JavaScript. It runs the rewritten module on
// each pair, one behind the other, prints what came, and writes what it replied, and the dump of a trap, which is the last one.
import { readFileSync, writeFileSync } from 'node:fs';
import { Collector } from '../hosts/collector.mjs';
import { Recorder } from '../hosts/record.mjs';

const [module, replies, dumped, ...pairs] = process.argv.slice(2);
const BYTES = 16; // of an account

const bytes = readFileSync(module);
const recorder = new Recorder(bytes);
const collector = new Collector();
const books = new Map([[1, { balance: 1000n, holders: 4 }], [2, { balance: 5n, holders: 0 }]]);
let caller = 0x7fffffffffffffffn;
let plugin = null;
const view = () => new DataView(plugin.exports.memory.buffer);

const env = {
  caller: () => BigInt.asIntN(64, caller++),
  read: (key, to) => {
    if (!books.has(key)) return 0;
    view().setBigUint64(to, books.get(key).balance, true);
    view().setUint32(to + 8, books.get(key).holders, true);
    return 1;
  },
  write: (key, from) => { books.set(key, { balance: view().getBigUint64(from, true), holders: view().getUint32(from + 8, true) }); },
  note: () => 'nothing that a reply has',
};
// `read` alone changes the memory, and only an account of it.
recorder.ranges = (_, name, args) => (name === 'read' ? [[args[1], BYTES]] : []);

const { instance } = await WebAssembly.instantiate(bytes, { ...recorder.imports({ env }), ...collector.imports });
plugin = recorder.attach(instance);
for (const pair of pairs) {
  try {
    console.log(`finished i32:${plugin.exports.run(...pair.split(',').map(Number))}`);
  } catch (trap) {
    writeFileSync(dumped, collector.take(instance.exports['coredump.memory']));
    console.log(`trap ${collector.kind}`);
  }
}
writeFileSync(replies, recorder.text());
