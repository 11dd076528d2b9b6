// node record.mjs MODULE REPLIES DUMP [WORD ...]: runs a rewritten program of WASI on words in node, and writes what its host replied; where it
// traps, the dump too. `pm run` of the original with these replies then does the same.
import { readFileSync, writeFileSync } from 'node:fs';
import { WASI } from 'node:wasi';
import { Collector } from 'pm-collector';
import { Recorder } from 'pm-collector/record';

const [file, replies, dumped, ...words] = process.argv.slice(2);
const bytes = readFileSync(file);
const wasi = new WASI({ version: 'preview1', args: [file, ...words], returnOnExit: true });
const recorder = new Recorder(bytes);
const collector = new Collector();
const imports = { ...recorder.imports({ wasi_snapshot_preview1: wasi.wasiImport }), ...collector.imports };
const { instance } = await WebAssembly.instantiate(bytes, imports);
try {
  wasi.start(recorder.attach(instance));
} catch (trap) {
  const dump = collector.take(instance.exports['coredump.memory']);
  if (dump === null) throw trap;
  writeFileSync(dumped, dump);
} finally {
  writeFileSync(replies, recorder.text());
}
