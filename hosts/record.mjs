// Records what a host replies to the calls of a module's imports, as a file of replies that `pm run --replies` and `pm replay` read.
// Works in every JavaScript engine with WebAssembly; README.md says how to embed it.

const TYPES = 1; // sections of a module
const IMPORTS = 2;
const FUNCTION = 0; // a kind of import
const WORDS = new Map([[0x7f, 'i32'], [0x7e, 'i64']]);
const COLLECTOR = 'coredump';
const MOST_BYTES = 16777216; // of a file of replies
const LONGEST_END = 200;

class Reading {
  constructor(bytes) {
    this.bytes = bytes;
    this.at = 0;
  }

  byte() {
    this.at += 1;
    return this.bytes[this.at - 1];
  }

  number() {
    let value = 0;
    for (let shift = 0; ; shift += 7) {
      const byte = this.byte();
      value += (byte & 0x7f) * 2 ** shift;
      if (byte < 0x80) return value;
    }
  }

  skip() {
    const size = this.number();
    this.at += size;
  }

  list(read) {
    return Array.from({ length: this.number() }, () => read(this));
  }
}

/** The result of a function type: none, i32 or i64, and null for what no reply can be. */
const resultOf = (reading) => {
  reading.byte();
  reading.list((params) => params.byte());
  const results = reading.list((part) => part.byte());
  if (results.length === 0) return 'none';
  return results.length === 1 ? WORDS.get(results[0]) ?? null : null;
};

/** The type of an imported function, by its index. */
const importOf = (reading) => {
  reading.skip();
  reading.skip();
  if (reading.byte() !== FUNCTION) throw new Error('the module imports other things than functions');
  return reading.number();
};

/** The results of the functions that a valid module imports, in their order: the interface of JavaScript does not tell types. */
const importedResults = (bytes) => {
  const reading = new Reading(bytes);
  reading.at = 8;
  let [types, imports] = [[], []];
  while (reading.at < bytes.length) {
    const id = reading.byte();
    const end = reading.number() + reading.at;
    if (id === TYPES) types = reading.list(resultOf);
    if (id === IMPORTS) imports = reading.list(importOf);
    reading.at = end;
  }
  return imports.map((type) => types[type]);
};

const hex = (bytes) => Array.from(bytes, (byte) => byte.toString(16).padStart(2, '0')).join('');

/** The first place from `at` on where bytes differ, or their end. Of a whole memory it looks at words. */
const firstChange = (before, now, from) => {
  let at = from;
  const differs = () => at < now.length && before[at] !== now[at];
  while (at % 4 !== 0 && !differs()) at += 1;
  if (now.byteOffset === 0 && at % 4 === 0) {
    const [old, fresh] = [before, now].map((bytes) => new Int32Array(bytes.buffer, 0, bytes.length >> 2));
    let index = at / 4;
    while (index < old.length && old[index] === fresh[index]) index += 1;
    at = 4 * index;
  }
  while (at < now.length && !differs()) at += 1;
  return at;
};

/** A write for each run of bytes that changed. */
const writesOf = ({ address, before }, buffer) => {
  const now = new Uint8Array(buffer, address, before.length);
  const writes = [];
  for (let at = firstChange(before, now, 0); at < now.length; ) {
    let end = at;
    while (end < now.length && before[end] !== now[end]) end += 1;
    writes.push(`${address + at}=${hex(now.subarray(at, end))}`);
    at = firstChange(before, now, end);
  }
  return writes;
};

export class Recorder {
  #results;
  #wanted; // the module's imports
  #memory = null;
  #lines = [];
  #size = 0;
  #serving = null; // the name of the import whose call is under way

  /** Why the record ended before the run did, and null where it did not. */
  ended = null;

  /** Which bytes an import may change, where the embedder knows, by its module, its name and its arguments: a list of `[address, size]`, or
   *  null for the whole memory. */
  ranges = () => null;

  /** `bytes` are those of the module, and `module` is what they were compiled to, where that was done. */
  constructor(bytes, module = new WebAssembly.Module(bytes)) {
    this.#results = importedResults(new Uint8Array(bytes.buffer ?? bytes, bytes.byteOffset ?? 0, bytes.byteLength));
    this.#wanted = WebAssembly.Module.imports(module);
  }

  /** The imports of the module out of `own`, each recorded, but those of the collector. */
  imports(own) {
    const wrapped = {};
    this.#wanted.forEach(({ module, name }, index) => {
      if (module === COLLECTOR) return;
      wrapped[module] ??= {};
      wrapped[module][name] = this.#recorded(module, name, this.#results[index], own[module][name]);
    });
    return wrapped;
  }

  /** Call the module by the exports of what is answered: so the recorder sees where the host calls it while it serves a call. */
  attach(instance) {
    const exports = {};
    for (const [name, thing] of Object.entries(instance.exports)) {
      if (thing instanceof WebAssembly.Memory) this.#memory = thing;
      exports[name] = typeof thing === 'function' ? this.#watched(thing) : thing;
    }
    return { exports };
  }

  /** The file of replies. */
  text() {
    const end = this.ended === null ? [] : [`# the record ends here: ${this.ended}`];
    return [...this.#lines, ...end].map((line) => `${line}\n`).join('');
  }

  #end(why) {
    this.ended ??= `${why}, call ${this.#lines.length}`;
  }

  #watched(call) {
    return (...args) => {
      if (this.#serving !== null) this.#end(`the host called the module while it served ${this.#serving}`);
      return call(...args);
    };
  }

  #recorded(module, name, result, call) {
    return (...args) => {
      if (this.ended !== null) return call(...args);
      const size = this.#memory?.buffer.byteLength;
      const lent = this.#lent(module, name, args);
      this.#serving = JSON.stringify(`${module}.${name}`);
      try {
        const value = call(...args);
        this.#add(result, value, lent, size);
        return value;
      } catch (thrown) {
        this.#end(`the host threw in ${this.#serving}`);
        throw thrown;
      } finally {
        this.#serving = null;
      }
    };
  }

  /** Copies of what a call may change. Before there is an instance no host has its memory. */
  #lent(module, name, args) {
    if (this.#memory === null) return [];
    const { buffer } = this.#memory;
    const ranges = this.ranges(module, name, args) ?? [[0, buffer.byteLength]];
    const inside = ranges.map(([address, size]) => [address >>> 0, size]).filter(([address, size]) => address + size <= buffer.byteLength);
    return inside.map(([address, size]) => ({ address, before: new Uint8Array(buffer, address, size).slice() }));
  }

  #add(result, value, lent, size) {
    if (this.ended !== null) return;
    if (result === null) this.#end(`no reply has the result of ${this.#serving}`);
    else if (this.#memory?.buffer.byteLength !== size) this.#end(`the host grew the memory in ${this.#serving}`);
    else this.#push([this.#valueOf(result, value), ...lent.flatMap((part) => writesOf(part, this.#memory.buffer))].join(' '));
  }

  /** The value that the engine makes of what a host function returned. */
  #valueOf(result, value) {
    if (result === 'none') return 'none';
    return result === 'i64' ? `i64:${BigInt.asIntN(64, value)}` : `i32:${value | 0}`;
  }

  #push(line) {
    this.#size += line.length + 1;
    if (this.#size + LONGEST_END > MOST_BYTES) this.#end('a file of replies has no room for more');
    else this.#lines.push(line);
  }
}
