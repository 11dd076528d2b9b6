/** Records what a host replies to the calls of a module's imports, as a file of replies. */
export class Recorder {
  /** `bytes` are those of the module, and `module` is what they were compiled to, where that was done. */
  constructor(bytes: Uint8Array | ArrayBuffer, module?: WebAssembly.Module);
  /** Why the record ended before the run did, and null where it did not. */
  readonly ended: string | null;
  /** Which bytes an import may change, where the embedder knows: `[address, size]` of each range, or null for the whole memory. */
  ranges: (module: string, name: string, args: (number | bigint)[]) => [number, number][] | null;
  /** The imports of the module out of `own`, each recorded, but those of the collector. */
  imports(own: WebAssembly.Imports): WebAssembly.Imports;
  /** Call the module by the exports of what is answered. */
  attach(instance: WebAssembly.Instance): { exports: WebAssembly.Exports };
  /** The file of replies. */
  text(): string;
}
