// node record_ends.mjs MODULE FOLDER: a module calls its import twice. The host answers 5, and does then what no reply can be: it throws, grows
// the memory, or calls the module. Writes the record of each as a file of the folder; a last one is of a run in which nothing of that happens.
import { readFileSync, writeFileSync } from 'node:fs';
import { join } from 'node:path';
import { Recorder } from '../hosts/record.mjs';

const [module, folder] = process.argv.slice(2);
const bytes = readFileSync(module);

const ways = {
  throws: () => { throw new Error('the host fails'); },
  grows: ({ exports }) => exports.memory.grow(1),
  calls: ({ exports }) => exports.other(),
  fits: ({ exports }) => {
    new Uint8Array(exports.memory.buffer).set([1, 0, 2], 65533);
    return -1;
  },
};

for (const [name, way] of Object.entries(ways)) {
  const recorder = new Recorder(bytes);
  let calls = 0;
  let plugin = null;
  const ask = () => {
    calls += 1;
    return calls === 2 ? way(plugin) : 5;
  };
  const { instance } = await WebAssembly.instantiate(bytes, recorder.imports({ env: { ask } }));
  plugin = recorder.attach(instance);
  try {
    plugin.exports.run();
  } catch (thrown) {
    if (name !== 'throws') throw thrown;
  }
  if ((recorder.ended === null) !== (name === 'fits')) throw new Error(`${name}: ${recorder.ended}`);
  writeFileSync(join(folder, name), recorder.text());
}
