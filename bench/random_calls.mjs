// node random_calls.mjs PM LISTS JUDGED: random lists of calls, most of them not whole, at collector.mjs and, under the address and
// undefined-behaviour sanitizers, at collector.c: both have to answer the same, byte for byte, with little room in C too. Then so many lists are
// made by a module each, in one call of it, and `pm run --collect` has to say the same of them. Needs clang and wabt.
import { execFileSync, spawnSync } from 'node:child_process';
import { existsSync, mkdtempSync, readFileSync, rmSync, writeFileSync } from 'node:fs';
import { tmpdir } from 'node:os';
import { dirname, join } from 'node:path';
import { fileURLToPath } from 'node:url';
import { Collector } from '../hosts/collector.mjs';

const HERE = dirname(fileURLToPath(import.meta.url));
const HOSTS = join(HERE, '..', 'hosts');
const PAGE = 65536;
const LAST = 255;
const LARGE = [31n, 32n, 62n, 63n, 64n].flatMap((width) => [2n ** width - 1n, 2n ** width]);
const EDGES = [0n, 1n, 63n, 64n, 127n, 128n, 255n, 8191n, 8192n, 16384n, ...LARGE];

// Numbers of a linear congruence, so that each run makes the same lists.
let seed = 20240501n;
const below = (limit) => {
  seed = (seed * 6364136223846793005n + 1442695040888963407n) % 2n ** 64n;
  return Number((seed >> 33n) % BigInt(limit));
};
const oneOf = (list) => list[below(list.length)];
const chance = (percent) => below(100) < percent;
const wide = () => (chance(60) ? oneOf(EDGES) : (BigInt(below(2 ** 31)) << 33n) ^ BigInt(below(2 ** 31)));
const narrow = () => Number(BigInt.asUintN(32, wide()));

// A call is a letter and four numbers: v value_i32, w value_i64, f frame, c clear, t take (pages), r room (values, bytes).
const value = () => (chance(60) ? ['v', narrow(), 0, 0, 0] : ['w', BigInt.asUintN(64, wide()), 0, 0, 0]);
const values = () => Array.from({ length: chance(3) ? 200 : below(5) }, value);

const wholeList = () => {
  const calls = [];
  const count = chance(2) ? 100 : 1 + below(4);
  for (let index = 0; index < count; index += 1) {
    const part = values();
    calls.push(...part, ['f', index === 0 ? 1 + below(7) : 0, narrow(), narrow(), below(part.length + 1)]);
  }
  const globals = values();
  return [...calls, ...globals, ['f', LAST, 0, 0, globals.length]];
};

const spoilt = (calls) => {
  const at = below(calls.length);
  const call = [...calls[at]];
  const others = { drop: [], double: [call, call], clear: [['c', 0, 0, 0, 0], call], taken: [['t', below(3), 0, 0, 0], call] };
  const field = 1 + below(4);
  call[field] = call[0] === 'f' ? oneOf([0, 1, 7, 8, 254, 255, 256, narrow()]) : call[field];
  return [...calls.slice(0, at), ...(others[oneOf(['drop', 'double', 'clear', 'taken', 'change', 'change'])] ?? [call]), ...calls.slice(at + 1)];
};

const randomList = () => {
  let calls = wholeList();
  while (chance(40)) calls = spoilt(calls);
  return chance(10) ? calls.slice(0, below(calls.length)) : calls;
};

const memoryOf = (pages) => {
  if (pages === 0) return undefined;
  const bytes = new Uint8Array(pages * PAGE);
  for (let page = 0; page < pages; page += 1) bytes[(page + 1) * PAGE - 1] = page;
  return bytes;
};

const make = (collector, [kind, a, b, c, d]) => {
  const { value_i32, value_i64, frame } = collector.imports.coredump;
  if (kind === 'v') value_i32(a | 0); // an engine gives the numbers signed
  else if (kind === 'w') value_i64(BigInt.asIntN(64, a));
  else if (kind === 'f') frame(a | 0, b | 0, c | 0, d | 0);
  else collector.clear();
};

/** What `take` came to; `torn` tells of the last list, so it says something new only where there were calls. */
const taken = (collector, wasCalled, pages) => {
  const dump = collector.take(memoryOf(pages), 'a name');
  if (dump !== null) return { said: 'whole', dump };
  return { said: wasCalled && collector.torn !== null ? 'torn' : 'none', dump: Buffer.alloc(0) };
};

// ---- against C

/** What the room of a list has to be, by its calls as they were made: a whole list's values of a frame at most, and 42 bytes a frame and 11
 *  a value. */
const needed = (calls) => {
  let [most, bytes, since] = [0, 0, 0];
  for (const [kind, first] of calls) {
    if (kind !== 'f') since += 1;
    most = Math.max(most, since);
    if (kind !== 'f') continue;
    if (first !== LAST) bytes += 42 + 11 * since;
    since = 0;
  }
  return [most, bytes];
};

/** Lists with room that is too small now and then, and a `take` behind each, but not behind all. */
const scripted = (count) => {
  const script = [];
  for (let index = 0; index < count; index += 1) {
    const list = randomList();
    const [most, bytes] = needed(list);
    const [less, fewer] = chance(30) ? [below(most + 1), below(bytes + 1)] : [most, bytes];
    script.push(['r', less, fewer, 0, 0], ...list);
    if (chance(80)) script.push(['t', below(3), 0, 0, 0], ['t', below(3), 0, 0, 0]);
  }
  return script;
};

const answersOf = (script) => {
  const collector = new Collector();
  const answers = [];
  let wasCalled = false;
  for (const call of script) {
    if (call[0] === 't') {
      const { said, dump } = taken(collector, wasCalled, call[1]);
      answers.push({ line: `${said} ${collector.calls} ${collector.kind}`, dump: Buffer.from(dump) });
    } else {
      make(collector, call[0] === 'r' ? ['c'] : call);
    }
    wasCalled = 'vwf'.includes(call[0]);
  }
  return answers;
};

const compareWithC = (work, count) => {
  const program = join(work, 'random_calls');
  const flags = ['-std=c99', '-g', '-O1', '-fsanitize=address,undefined', '-fno-sanitize-recover=all', `-I${HOSTS}`];
  execFileSync('clang', [...flags, '-o', program, join(HERE, 'random_calls.c'), join(HOSTS, 'collector.c')]);
  const script = scripted(count);
  writeFileSync(join(work, 'script'), script.map((call) => `${call.join(' ')}\n`).join(''));
  execFileSync(program, [join(work, 'script'), join(work, 'answers')]);
  const came = readFileSync(join(work, 'answers'));
  const sums = { whole: 0, torn: 0, none: 0, short: 0 };
  let at = 0;
  for (const [index, { line, dump }] of answersOf(script).entries()) {
    const end = came.indexOf('\n', at);
    const words = came.toString('latin1', at, end);
    if (words.replace(' without room', '') !== line) throw new Error(`take ${index}: ${words} in C, ${line} in JavaScript`);
    if (!came.subarray(end + 1, end + 1 + dump.length).equals(dump)) throw new Error(`take ${index}: other bytes`);
    at = end + 1 + dump.length;
    sums[line.split(' ')[0]] += 1;
    if (words.includes('without room')) sums.short += 1;
  }
  if (at !== came.length) throw new Error('more answers in C');
  const short = `${sums.short} of them with too little room at first`;
  console.log(`${count} lists, the same in C and JavaScript: ${sums.whole} whole, ${short}, ${sums.torn} torn`);
};

// ---- against the program

const CALLS = { v: 'value_i32', w: 'value_i64', f: 'frame' };

const moduleOf = (calls, pages) => {
  const code = calls.map(([kind, ...words]) => {
    const given = words.slice(0, kind === 'f' ? 4 : 1).map((word) => `${kind === 'w' ? 'i64' : 'i32'}.const ${word}`);
    return `${given.join(' ')} call $${CALLS[kind]}`;
  });
  const ends = Array.from({ length: pages }, (_, page) => `(data (i32.const ${(page + 1) * PAGE - 1}) "\\${page.toString(16).padStart(2, '0')}")`);
  return `(module
    (import "coredump" "value_i32" (func $value_i32 (param i32)))
    (import "coredump" "value_i64" (func $value_i64 (param i64)))
    (import "coredump" "frame" (func $frame (param i32 i32 i32 i32)))
    ${pages > 0 ? `(memory (export "coredump.memory") ${pages}) ${ends.join(' ')}` : ''}
    (func (export "run") ${code.join('\n')} unreachable))`;
};

/** What the program says of a list of one call, in the words of `taken`, and the first call that does not fit. */
const judged = (work, pm, calls, pages) => {
  const file = (name) => join(work, name);
  writeFileSync(file('list.wat'), moduleOf(calls, pages));
  execFileSync('wat2wasm', [file('list.wat'), '-o', file('list.wasm')]);
  rmSync(file('list.core'), { force: true });
  const words = ['run', file('list.wasm'), '--collect', '--dump', file('list.core'), '--name', 'a name', 'run'];
  const { stdout, stderr } = spawnSync(pm, words, { encoding: 'utf8' });
  if (existsSync(file('list.core'))) return { said: 'whole', dump: readFileSync(file('list.core')) };
  const torn = /^torn calls at (\d+)$/m.exec(stdout + stderr);
  return { said: torn ? 'torn' : 'none', dump: Buffer.alloc(0), at: torn ? Number(torn[1]) : null };
};

/** The program looks at one call of a module by itself, so a list in which another one begins is nothing that it can judge here. */
const isOneList = (calls) => {
  let [frames, closed] = [0, false];
  for (const [kind, first] of calls) {
    if (closed || kind === 't' || kind === 'c') return false;
    if (kind !== 'f') continue;
    if (frames > 0 && first >= 1 && first <= 7) return false;
    closed = first === LAST;
    frames += 1;
  }
  return true;
};

const compareWithProgram = (work, pm, count) => {
  const sums = { whole: 0, torn: 0, none: 0 };
  while (sums.whole + sums.torn + sums.none < count) {
    const calls = randomList();
    if (!isOneList(calls)) continue;
    const pages = below(3);
    const collector = new Collector();
    for (const call of calls) make(collector, call);
    const ours = taken(collector, calls.length > 0, pages);
    const theirs = judged(work, pm, calls, pages);
    const same = ours.said === theirs.said && theirs.dump.equals(ours.dump) && (ours.said !== 'torn' || theirs.at === collector.torn);
    const list = calls.map((call) => call.join(' ')).join('; ');
    if (!same) throw new Error(`${list}: ${ours.said} ${collector.torn}, and of the program ${theirs.said} ${theirs.at}`);
    sums[ours.said] += 1;
  }
  console.log(`${count} lists, the same of the program: ${sums.whole} whole, ${sums.torn} torn`);
};

const [pm, lists, count] = process.argv.slice(2);
const work = mkdtempSync(join(tmpdir(), 'calls-'));
try {
  compareWithC(work, Number(lists));
  compareWithProgram(work, pm, Number(count));
} finally {
  rmSync(work, { recursive: true, force: true });
}
