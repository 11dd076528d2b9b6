// Collects the calls by which a rewritten module hands over its state at a trap, and makes the core dump of them.
// Works in every JavaScript engine with WebAssembly and BigInt; README.md says how to embed it.

const PAGE = 65536;
const LAST = 255; // the kind of the call that closes the list
const MOST_CALLS = 134217728;
const DEEPEST = 64; // more calls than anything here nests

const unsigned = (value) => {
  const bytes = [];
  for (; value >= 0x80; value = Math.floor(value / 0x80)) bytes.push((value % 0x80) | 0x80);
  bytes.push(value);
  return bytes;
};

const signed = (value) => {
  const bytes = [];
  for (let left = BigInt(value); ; left >>= 7n) {
    const low = Number(left & 0x7fn);
    if ((left >> 6n) === 0n || (left >> 6n) === -1n) return [...bytes, low];
    bytes.push(low | 0x80);
  }
};

/** The UTF-8 of a name. `TextEncoder` is no part of the language: audio worklets and bare engines lack it. */
const utf8 = (name) => [...name].flatMap((character) => {
  const point = character.codePointAt(0);
  const code = point >= 0xd800 && point <= 0xdfff ? 0xfffd : point; // half of a pair stands for nothing
  const tail = (shift) => 0x80 | ((code >> shift) & 0x3f);
  if (code < 0x80) return [code];
  if (code < 0x800) return [0xc0 | (code >> 6), tail(0)];
  if (code < 0x10000) return [0xe0 | (code >> 12), tail(6), tail(0)];
  return [0xf0 | (code >> 18), tail(12), tail(6), tail(0)];
});

const sized = (bytes) => [...unsigned(bytes.length), ...bytes];
const named = (name) => sized(utf8(name));
const isWide = (value) => typeof value === 'bigint';
const seen = (value) => [isWide(value) ? 0x7e : 0x7f, ...signed(value)];
const listed = (values) => [...unsigned(values.length), ...values.flatMap(seen)];
const global = (value) => [isWide(value) ? 0x7e : 0x7f, 0, isWide(value) ? 0x42 : 0x41, ...signed(value), 0x0b];

/** Eight 32-bit words at once, in a plain loop: so it takes a fraction of the time of `every` or of 64-bit words, which are `BigInt`s. */
const isZero = (words) => {
  let any = 0;
  for (let at = 0; at < words.length && any === 0; at += 8) {
    any = words[at] | words[at + 1] | words[at + 2] | words[at + 3] | words[at + 4] | words[at + 5] | words[at + 6] | words[at + 7];
  }
  return any === 0;
};

/** The pieces of a section: its id, its size, and its contents. */
const section = (id, pieces) => [[id, ...unsigned(pieces.reduce((sum, piece) => sum + piece.length, 0))], ...pieces];
const custom = (name, pieces) => section(0, [named(name), ...pieces]);

/** Two pieces for each page that is not all zero: the head of its segment, and its bytes, which are lent and not copied. */
const segments = (buffer) => {
  const pieces = [];
  for (let at = 0; at < buffer.byteLength; at += PAGE) {
    if (isZero(new Int32Array(buffer, at, PAGE / 4))) continue;
    // An i32 constant: from 2 GiB on it is negative.
    pieces.push([0, 0x41, ...signed(at | 0), 0x0b, ...unsigned(PAGE)], new Uint8Array(buffer, at, PAGE));
  }
  return pieces.length === 0 ? [] : section(11, [unsigned(pieces.length / 2), ...pieces]);
};

const joined = (pieces) => {
  const bytes = new Uint8Array(pieces.reduce((sum, piece) => sum + piece.length, 0));
  let at = 0;
  for (const piece of pieces) {
    bytes.set(piece, at);
    at += piece.length;
  }
  return bytes;
};

const asBytes = (piece) => (piece instanceof Uint8Array ? piece : Uint8Array.from(piece));

/** Fails where the engine's stack has no room for so many calls. */
const reach = (calls) => (calls === 0 ? 0 : 1 + reach(calls - 1));

export class Collector {
  #values; // since the last frame
  #frames; // the bytes of each
  #globals; // those that the closing call told, till they are taken
  #over; // the next call begins a new list

  constructor() {
    /** Import these beside the module's own: `WebAssembly.instantiate(bytes, { ...own, ...collector.imports })`. */
    this.imports = {
      coredump: {
        value_i32: (value) => this.#value(value),
        value_i64: (value) => this.#value(value),
        frame: (kind, func, offset, locals) => this.#frame(kind >>> 0, func >>> 0, offset >>> 0, locals >>> 0),
      },
    };
    this.clear();
  }

  /** Forgets the calls so far. Of the last list `kind`, `calls` and `torn` are told until the next one begins, behind `take` too. */
  clear() {
    this.kind = 0; // of the trap: 1 unreachable, 2 integer divide by zero, ..., 7 indirect call type mismatch
    this.calls = 0; // those that fit
    this.torn = null; // the first call that does not fit
    this.#over = false;
    this.#forget();
  }

  /** The dump as bytes. It is null where there were no calls, where they are torn, which `torn` tells then, and where the engine has no
   *  room for the bytes: then the calls stay, for `takePieces`. `memory` is the export `coredump.memory`, where the module has one, and
   *  `name` the name inside the dump. */
  take(memory = undefined, name = 'module') {
    let bytes = null;
    try {
      bytes = this.#isWhole() ? joined(this.#pieces(memory, name)) : null;
    } catch {
      return null;
    }
    this.#end();
    return bytes;
  }

  /** As `take`, but gives the dump in pieces, for a `Blob` or a stream, and copies no page: pieces are views of the module's memory, so
   *  they are to be used before the module runs again. */
  takePieces(memory = undefined, name = 'module') {
    const pieces = this.#isWhole() ? this.#pieces(memory, name).map(asBytes) : null;
    this.#end();
    return pieces;
  }

  #isWhole() {
    return this.torn === null && this.#globals !== null;
  }

  #forget() {
    this.#values = [];
    this.#frames = [];
    this.#globals = null;
  }

  /** The list was taken: it is torn where it was still going on. */
  #end() {
    if (!this.#over && this.calls > 0) this.torn ??= this.calls;
    this.#over = true;
    this.#forget();
  }

  /** Before a call. At the end of the engine's stack the first call of a frame fails, and no other one: those that were made stand for
   *  whole frames, so that nothing of them comes into the next list's first frame. */
  #begin() {
    if (this.#values.length === 0) reach(DEEPEST);
    if (this.#over) this.clear();
  }

  /** Counts a call that fits, unless one before it did not. */
  #counted(fits) {
    if (this.torn !== null) return false;
    if (!fits || this.calls >= MOST_CALLS) this.torn = this.calls;
    else this.calls += 1;
    return this.torn === null;
  }

  #value(value) {
    this.#begin();
    if (this.#counted(true)) this.#values.push(value);
  }

  #frame(kind, func, offset, locals) {
    this.#begin();
    const values = this.#values;
    const innermost = kind >= 1 && kind <= 7;
    if (innermost && this.#frames.length > 0) this.#restart();
    const first = this.#frames.length === 0;
    const closes = !first && func === 0 && offset === 0 && locals === values.length;
    const goesOn = (first ? innermost : kind === 0) && locals <= values.length;
    if (!this.#counted(kind === LAST ? closes : goesOn)) return;
    if (first) this.kind = kind;
    if (kind === LAST) this.#close();
    else this.#push(func, offset, values, values.length - locals);
  }

  /** A list begins before the last one was closed, of which nothing stays but the values of its first frame. */
  #restart() {
    if (this.torn !== null) return;
    this.#frames = [];
    this.calls = this.#values.length;
  }

  #close() {
    this.#globals = this.#values;
    this.#values = [];
    this.#over = true;
  }

  #push(func, offset, values, below) {
    this.#frames.push([0, 0, ...unsigned(func), ...unsigned(offset), ...listed(values.slice(below)), ...listed(values.slice(0, below))]);
    this.#values = [];
  }

  #pieces(memory, name) {
    const globals = this.#globals;
    const buffer = memory?.buffer;
    const indices = [...unsigned(globals.length), ...globals.flatMap((_, index) => unsigned(index))];
    const pages = buffer === undefined ? [] : section(5, [[1, 0, ...unsigned(buffer.byteLength / PAGE)]]);
    return [
      [0x00, 0x61, 0x73, 0x6d, 0x01, 0x00, 0x00, 0x00],
      ...custom('core', [[0], named(name)]),
      ...custom('coremodules', [[1, 0], named(name)]),
      ...custom('coreinstances', [[1, 0, 0], buffer === undefined ? [0] : [1, 0], indices]),
      ...custom('corestack', [[0], named('main'), unsigned(this.#frames.length), ...this.#frames]),
      ...pages,
      ...(globals.length === 0 ? [] : section(6, [unsigned(globals.length), globals.flatMap(global)])),
      ...(buffer === undefined ? [] : segments(buffer)),
    ];
  }
}
