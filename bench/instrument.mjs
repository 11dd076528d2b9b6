// node instrument.mjs NAME ORIGINAL OURS ASYNCIFY ..: bytes, and the least time of a call of the export `run` in rounds that take turns, of a
// module and of what it was rewritten to, each beside the original; and of ours beside asyncify's. All results must be the same. In gjs -m too.
import { Collector } from '../hosts/collector.mjs';
import { read, say, words } from './shell.mjs';

const ROUNDS = 15;
const ROUND = 100; // milliseconds at least
const clock = globalThis.performance ?? Date;

const timed = (run) => {
  let calls = 0;
  const start = clock.now();
  let now = start;
  for (; now - start < ROUND; now = clock.now()) {
    run();
    calls += 1;
  }
  return (now - start) / calls;
};

// gjs has no promises of WebAssembly.
const load = (file) => {
  const bytes = read(file);
  const instance = new WebAssembly.Instance(new WebAssembly.Module(bytes), new Collector().imports);
  return { size: bytes.length, run: instance.exports.run, result: instance.exports.run(), least: Infinity };
};

const [name, ...files] = words;
const modules = files.map(load);
for (let round = 0; round < ROUNDS; round += 1) {
  for (const module of modules) module.least = Math.min(module.least, timed(module.run));
}
if (modules.some((module) => module.result !== modules[0].result)) throw new Error(`${name}: other results`);
const [original, ours, asyncify] = modules;
const ratio = (a, b) => (a / b).toFixed(2);
const row = (rewritten, module) =>
  say(`  ${rewritten}: ${module.size} bytes (${ratio(module.size, original.size)}), ${module.least.toFixed(2)} ms (${ratio(module.least, original.least)})`);
say(name);
row('original', original);
row('pm instrument', ours);
row('asyncify', asyncify);
say(`  ours beside asyncify: ${ratio(ours.size, asyncify.size)} of the bytes, ${ratio(ours.least, asyncify.least)} of the time`);
