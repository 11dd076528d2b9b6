// What an embedder can forget or get wrong with collector.mjs, on the example that was rewritten by hand. Runs in node, gjs -m and jsc -m; the
// words behind it are that module, the dump of the second one of `run 7 0` and `run 9 0` on one instance, and the name in that dump.
import { Collector } from '../hosts/collector.mjs';
import { name, read, say, words } from './shell.mjs';

const [module, file, given] = words;
const right = Array.from(read(file)).join();

const fresh = () => {
  const collector = new Collector();
  const { exports } = new WebAssembly.Instance(new WebAssembly.Module(read(module)), collector.imports);
  const trap = (a) => {
    try {
      exports.run(a, 0);
    } catch {
      return;
    }
    throw new Error('no trap');
  };
  return { collector, trap, memory: exports['coredump.memory'] };
};

const is = (what, truth) => {
  if (!truth) throw new Error(what);
};

// Nobody took the first dump, and calls stand behind it that no list ends.
const first = fresh();
first.trap(7);
first.collector.imports.coredump.value_i32(1);
first.collector.imports.coredump.frame(3, 1, 1, 1);
first.trap(9);
is('the kind', first.collector.kind === 2);
is('a dump behind lists that nobody took', first.collector.take(first.memory, given)?.join() === right);
is('the kind behind take', first.collector.kind === 2 && first.collector.torn === null);
is('nothing more to take', first.collector.take(first.memory) === null);

// Torn calls throw nothing in the embedder's `catch`, and the next list is whole.
const second = fresh();
second.trap(7);
second.collector.clear();
second.collector.imports.coredump.frame(2, 0, 0, 1);
is('torn calls', second.collector.take(second.memory) === null && second.collector.torn === 0);
second.trap(9);
const pieces = second.collector.takePieces(second.memory, given);
is('the pieces', pieces.map((piece) => piece.join()).join() === right);
is('pages that are lent', pieces.some((piece) => piece.buffer === second.memory.buffer));
say(`${name}: the collector as it should`);
