// A module that traps as many calls deep as its argument says, run up to the end of the engine's own stack and past it: whatever was thrown
// there, and though nobody calls `take` or `clear` behind it, the next trap's dump is the right one. Runs in node, gjs -m and jsc -m; the word
// behind it is the rewritten module.
import { Collector } from '../hosts/collector.mjs';
import { name, read, say, words } from './shell.mjs';

const RUNS = 60;
const SHALLOW = 3;

const collector = new Collector();
const instance = new WebAssembly.Instance(new WebAssembly.Module(read(words[0])), collector.imports);

/** What a trap at a depth leaves: whether the module itself made it, which it tells by a list that is closed. */
const traps = (depth) => {
  try {
    instance.exports.run(depth, 0);
  } catch (trap) {
    return trap instanceof WebAssembly.RuntimeError && trap.message !== 'Maximum call stack size exceeded.';
  }
  throw new Error('no trap');
};

const dumpAt = (depth) => {
  traps(depth);
  return collector.take().join();
};

// Steps of growing width lead past the end, and from the last run that trapped by itself on again: an engine moves the end as it compiles.
const right = dumpAt(SHALLOW);
let [depth, step, past, left] = [1, 1, 0, 0];
for (let run = 0; run < RUNS; run += 1) {
  collector.clear();
  if (traps(depth + step)) {
    depth += step;
    step *= 2;
  } else {
    past += 1;
    if (collector.calls > 0) left += 1;
    if (step === 1) depth -= 1;
    step = 1;
  }
  if (dumpAt(SHALLOW) !== right) throw new Error(`another dump behind depth ${depth + step}`);
}
if (past === 0) throw new Error('the end of the stack was not met');
say(`${name}: ${past} runs met the end of the stack, ${left} left calls, and the next dump is right`);
