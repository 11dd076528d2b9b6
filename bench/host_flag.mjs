// A rewritten module in a host that calls its functions by an exported table, and that calls it back while it serves an import: behind a trap
// that was handled, both have to do what the original does, and a trap by an entry of the table has to give a whole dump. Runs in node,
// gjs -m and jsc -m; the words behind it are the rewritten module of flag/original.wat, and the dumps of `run 7 0`, of its divides on 7 and 0, and
// of `through 1 7 0` and `through 2 7 0`.
import { Collector } from '../hosts/collector.mjs';
import { name, read, say, words } from './shell.mjs';

const [module, ...files] = words;
const [ofRun, ofDivides, ofThrough, ofUndefined] = files.map((file) => Array.from(read(file)).join());
const STORED = 8; // where `plain` stores 3

const fresh = () => {
  const collector = new Collector();
  const host = { back: () => {} };
  const env = { back: () => host.back() };
  const { exports } = new WebAssembly.Instance(new WebAssembly.Module(read(module)), { env, ...collector.imports });
  return { collector, exports, host };
};

const same = (what, came, right) => {
  if (came !== right) throw new Error(`${what}: ${came}, and not ${right}`);
};

/** The dump of a call that traps. */
const dumpOf = ({ collector, exports }, call) => {
  try {
    call();
  } catch {
    return String(collector.take(exports['coredump.memory'])?.join());
  }
  throw new Error('no trap');
};

const cases = {
  'a call by the table behind a trap': () => {
    const plugin = fresh();
    const { exports } = plugin;
    const dumpOfRun = () => dumpOf(plugin, () => exports.run(7, 0));
    same('the first dump', dumpOfRun(), ofRun);
    same('its result', exports.table.get(0)(), 3);
    const bytes = new Uint8Array(exports.memory.buffer);
    same('its effect', bytes[STORED], 3);
    bytes[STORED] = 0;
    same('the next dump', dumpOfRun(), ofRun);
  },
  'a call back that traps': () => {
    const plugin = fresh();
    const { exports, host } = plugin;
    let inner = null;
    host.back = () => { inner = dumpOf(plugin, () => exports.run(7, 0)); };
    same('the result', exports.asks(), 3);
    same('the inner dump', inner, ofRun);
    same('the next dump', dumpOf(plugin, () => exports.run(7, 0)), ofRun);
  },
  'a trap by the table': () => {
    const plugin = fresh();
    const { exports } = plugin;
    const divides = exports.table.get(1);
    same('its dump', dumpOf(plugin, () => divides(7, 0)), ofDivides);
    same('its result', divides(7, 2), 3);
    same('the dump of run', dumpOf(plugin, () => exports.run(7, 0)), ofRun);
    same('the dump through the table', dumpOf(plugin, () => exports.through(1, 7, 0)), ofThrough);
    same('the result through the table', exports.through(1, 7, 2), 3);
    same('the dump behind the end', dumpOf(plugin, () => exports.through(2, 7, 0)), ofUndefined);
  },
};

const wrong = [];
for (const [what, run] of Object.entries(cases)) {
  try {
    run();
  } catch (error) {
    wrong.push(`${what}: ${error.message.slice(0, 100)}`);
  }
}
say([`${name}: ${Object.keys(cases).length - wrong.length} of ${Object.keys(cases).length} as they should`, ...wrong].join('\n  '));
if (wrong.length > 0) throw new Error('not all as they should');
