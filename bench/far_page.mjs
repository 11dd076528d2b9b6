// node far_page.mjs DUMP: the dump of a trap with a memory of 2 GiB and a page, of which the last page alone is not zero, by collector.mjs. Says
// how long a look at 256 MB of zeros takes.
import { closeSync, openSync, writeSync } from 'node:fs';
import { Collector } from '../hosts/collector.mjs';

const PAGE = 65536;

const dumpOf = (pages, fill) => {
  const memory = new WebAssembly.Memory({ initial: pages });
  fill(memory);
  const collector = new Collector();
  collector.imports.coredump.frame(1, 0, 1, 0);
  collector.imports.coredump.frame(255, 0, 0, 0);
  const start = performance.now();
  const pieces = collector.takePieces(memory);
  return { pieces, time: performance.now() - start };
};

const file = openSync(process.argv[2], 'w');
for (const piece of dumpOf(32769, ({ buffer }) => { new Uint8Array(buffer)[32769 * PAGE - 1] = 1; }).pieces) writeSync(file, piece);
closeSync(file);
const times = Array.from({ length: 5 }, () => dumpOf(4096, () => {}).time);
console.log(`256 MB of zeros: ${Math.min(...times).toFixed(0)} ms`);
