// node process.mjs MODULE CALLS: so many calls of the export `run`, and its last result.
import { readFileSync } from 'node:fs';
import { Collector } from '../hosts/collector.mjs';

const [file, calls] = process.argv.slice(2);
const { instance } = await WebAssembly.instantiate(readFileSync(file), new Collector().imports);
let result;
for (let call = 0; call < Number(calls); call += 1) result = instance.exports.run();
console.log(result);
