// What the shells of three engines do in different ways: node, gjs -m and jsc -m. `words` are those behind the script.
// jsc gives each byte of a word as a character.
const ofBytes = (word) => decodeURIComponent(escape(word));

const shells = {
  node: async () => ({ words: process.argv.slice(2), read: (await import('node:fs')).readFileSync, say: console.log }),
  gjs: async () => ({ words: globalThis.ARGV, read: (file) => globalThis.imports.gi.GLib.file_get_contents(file)[1], say: print }),
  jsc: async () => ({ words: globalThis.arguments.map(ofBytes), read: (file) => readFile(file, 'binary'), say: print }),
};

export const name = globalThis.process ? 'node' : globalThis.imports?.gi ? 'gjs' : 'jsc';
export const { words, read, say } = await shells[name]();
