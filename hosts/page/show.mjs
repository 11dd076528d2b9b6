// The text that `pm show` prints of a core dump. A dump that can't be read makes an error, which says where reading stopped.

const I32 = 0x7f;
const I64 = 0x7e;
const MISSING = 0x01;

class Reader {
  constructor(bytes) {
    this.bytes = bytes;
    this.at = 0;
  }

  fail(at) {
    throw new Error(`the dump can't be read at ${at}`);
  }

  byte() {
    if (this.at >= this.bytes.length) this.fail(this.at);
    this.at += 1;
    return this.bytes[this.at - 1];
  }

  expect(...bytes) {
    for (const byte of bytes) if (this.byte() !== byte) this.fail(this.at - 1);
  }

  /** The bits of a number in LEB128 of at most so many bytes, and how many they are. */
  bits(most) {
    const start = this.at;
    let value = 0n;
    for (let index = 0n; ; index += 1n) {
      if (index === BigInt(most)) this.fail(start);
      const byte = this.byte();
      value |= BigInt(byte & 0x7f) << (7n * index);
      if (byte < 0x80) return [value, 7 * Number(index + 1n)];
    }
  }

  unsigned() {
    const start = this.at;
    const [value] = this.bits(5);
    if (value >> 32n !== 0n) this.fail(start);
    return Number(value);
  }

  signed(width) {
    const start = this.at;
    const [bits, count] = this.bits(width === 32 ? 5 : 10);
    const value = BigInt.asIntN(count, bits);
    if (BigInt.asIntN(width, value) !== value) this.fail(start);
    return value;
  }

  take(size) {
    if (size > this.bytes.length - this.at) this.fail(this.at);
    this.at += size;
    return this.bytes.subarray(this.at - size, this.at);
  }

  name() {
    return this.take(this.unsigned());
  }

  list(read) {
    return Array.from({ length: this.unsigned() }, read);
  }

  number(type) {
    if (type === I32) return `i32:${this.signed(32)}`;
    if (type === I64) return `i64:${this.signed(64)}`;
    return this.fail(this.at - 1);
  }

  value() {
    const type = this.byte();
    return type === MISSING ? '?' : this.number(type);
  }
}

const decoded = (bytes) => {
  try {
    return new TextDecoder('utf-8', { fatal: true, ignoreBOM: true }).decode(bytes);
  } catch {
    return null;
  }
};

const hex = (code) => `\\${code.toString(16).padStart(2, '0')}`;

/** A name in quotes: one that is no UTF-8 has each byte from 80 on as two digits, as control characters have. */
const quoted = (bytes) => {
  const text = decoded(bytes);
  const characters = text === null ? [...bytes].map((byte) => (byte < 0x80 ? String.fromCharCode(byte) : hex(byte))) : [...text];
  const shown = characters.map((character) => {
    if (character === '"' || character === '\\') return `\\${character}`;
    return character < ' ' || character === '\x7f' ? hex(character.charCodeAt(0)) : character;
  });
  return `"${shown.join('')}"`;
};

const frame = (reader) => {
  reader.expect(0);
  const [instance, func, offset] = [reader.unsigned(), reader.unsigned(), reader.unsigned()];
  const values = () => reader.list(() => reader.value()).join(' ') || '-';
  const [locals, operands] = [values(), values()];
  return `instance ${instance} function ${func} offset ${offset} locals ${locals} operands ${operands}`;
};

const custom = (dump, reader) => {
  const name = decoded(reader.name());
  if (name === 'core') {
    reader.expect(0);
    dump.name = quoted(reader.name());
  } else if (name === 'corestack') {
    reader.expect(0);
    reader.name();
    dump.frames = reader.list(() => frame(reader));
  }
};

const memory = (dump, reader) => {
  if (reader.unsigned() === 0) return;
  reader.byte();
  dump.pages = reader.unsigned();
};

const global = (reader) => {
  const type = reader.byte();
  reader.byte();
  reader.expect(type === I32 ? 0x41 : 0x42);
  const value = reader.number(type);
  reader.expect(0x0b);
  return value;
};

const section = (dump, reader) => {
  const id = reader.byte();
  const size = reader.unsigned();
  const end = reader.at + size;
  if (end > reader.bytes.length) reader.fail(reader.at);
  if (id === 0) custom(dump, reader);
  if (id === 5) memory(dump, reader);
  if (id === 6) dump.globals = reader.list(() => global(reader));
  reader.at = end;
};

/** The lines of `pm show`, of a dump's bytes. */
export const show = (bytes) => {
  const reader = new Reader(bytes);
  const dump = { name: null, frames: [], pages: null, globals: [] };
  reader.expect(0x00, 0x61, 0x73, 0x6d, 0x01, 0x00, 0x00, 0x00);
  while (reader.at < bytes.length) section(dump, reader);
  if (dump.name === null) reader.fail(bytes.length);
  return [
    `dump ${dump.name} frames ${dump.frames.length}`,
    ...dump.frames.map((text, index) => `#${index} ${text}`),
    ...(dump.pages === null ? [] : [`memory ${dump.pages}`]),
    ...dump.globals.map((value, index) => `global ${index} ${value}`),
  ].join('\n') + '\n';
};
