// A rewritten module whose host makes its memory grow behind its back: between calls, in an import, in an import that it calls by a table, and in
// a call back. Each call, by an export or an entry of the table, has to answer what the original answers, and to trap where it traps, with a dump,
// and with the memory of the original. Runs in node, gjs -m and jsc -m; the words behind it are the module of grown.wat and what it is rewritten to.
import { Collector } from '../hosts/collector.mjs';
import { name, read, say, words } from './shell.mjs';

const PAGE = 65536;
const [original, rewritten] = words.map((file) => new WebAssembly.Module(read(file)));

/** A list of calls: the pages by which the host grows the memory, or an export, or an entry of the table, with its arguments. */
const LISTS = {
  'between calls': [['load', PAGE - 4], ['load', PAGE - 3], 1, ['load', PAGE - 3], ['store', 2 * PAGE - 4, 5], ['load', 2 * PAGE - 3]],
  'between calls by the table': [[2, PAGE - 4], [2, PAGE - 3], 1, [2, PAGE - 3], [2, 2 * PAGE - 4], [2, 2 * PAGE - 3]],
  'bulk instructions': [['fill', PAGE - 8, 16], 2, ['fill', PAGE - 8, 16], ['fill', 3 * PAGE - 8, 9], ['copy', 2 * PAGE, PAGE], ['copy', 2 * PAGE + 1, PAGE]],
  'inside': [['inside', 1, 2 * PAGE - 4], ['inside', 1, 3 * PAGE - 3], ['inside', 20, 4 * PAGE - 4], ['load', 3 * PAGE - 4]],
  'in an import': [['by_import', 1, 2 * PAGE - 4], ['by_import', 0, 2 * PAGE - 3], ['by_import', 2, 4 * PAGE - 4], ['store', 4 * PAGE - 4, 3]],
  'in an import by the table': [['by_table', 1, 2 * PAGE - 4, 0], ['by_table', 1, 3 * PAGE - 3, 0], ['load', 3 * PAGE - 4]],
  'in a function of the table': [['by_table', 1, 2 * PAGE - 4, 1], ['by_table', 1, 3 * PAGE - 3, 1], ['by_table', 0, 3 * PAGE - 4, 1]],
  'in a called function': [['by_call', 1, 2 * PAGE - 4], ['by_call', 1, 3 * PAGE - 3], ['by_call', 0, 3 * PAGE - 4]],
  'in a call back': [['by_call_back', 1, 2 * PAGE - 4], ['by_call_back', 1, 3 * PAGE - 3], ['by_call_back', 1, 4 * PAGE - 4], ['load', 4 * PAGE - 4]],
};

const instanceOf = (module) => {
  const collector = new Collector();
  const env = {
    grow: (pages) => instance.exports.memory.grow(pages),
    back: (pages, at) => instance.exports.inside(pages, at),
  };
  const instance = new WebAssembly.Instance(module, { env, ...collector.imports });
  return { collector, exports: instance.exports };
};

const answer = ({ collector, exports }, row) => {
  try {
    if (!Array.isArray(row)) return exports.memory.grow(row);
    const [called, ...values] = row;
    return (exports[called] ?? exports.table.get(called))(...values);
  } catch {
    const dumps = 'coredump.memory' in exports;
    return collector.take(exports.memory) || !dumps ? 'a trap' : 'a trap without a dump';
  }
};

/** A number for the bytes of a memory. */
const sumOf = ({ buffer }) => new Uint32Array(buffer).reduce((sum, word, at) => (Math.imul(sum, 31) + word + at) | 0, buffer.byteLength);

let traps = 0;
for (const [list, rows] of Object.entries(LISTS)) {
  const left = instanceOf(original);
  const right = instanceOf(rewritten);
  for (const row of rows) {
    const wanted = answer(left, row);
    const came = answer(right, row);
    if (came !== wanted) throw new Error(`${list}, ${row}: ${came}, and not ${wanted}`);
    if (sumOf(left.exports.memory) !== sumOf(right.exports.memory)) throw new Error(`${list}, ${row}: another memory`);
    if (wanted === 'a trap') traps += 1;
  }
}
say(`${name}: ${Object.keys(LISTS).length} lists of calls over memories that hosts grow, ${traps} traps, as the original`);
