/** Collects the calls by which a rewritten module hands over its state at a trap. */
export class Collector {
  constructor();
  /** Import these beside the module's own. */
  readonly imports: {
    coredump: {
      value_i32(value: number): void;
      value_i64(value: bigint): void;
      frame(kind: number, func: number, offset: number, locals: number): void;
    };
  };
  /** Of the last list of calls, until the next one begins, behind `take` too: the kind of the trap, 1 unreachable to 7 indirect call type
   *  mismatch, and 0 where there is none. */
  kind: number;
  /** How many of its calls fit. */
  calls: number;
  /** The first one that does not fit, or their number where more were to come; null where nothing is wrong. */
  torn: number | null;
  /** Forgets the calls so far. */
  clear(): void;
  /** The dump. It is null where there were no calls, where they are torn, and where the engine has no room for the bytes: then the calls
   *  stay, for `takePieces`. `memory` is the export `coredump.memory`, where the module has one. */
  take(memory?: WebAssembly.Memory | null, name?: string): Uint8Array | null;
  /** As `take`, but in pieces, of which those of pages are views of the memory: to be used before the module runs again. */
  takePieces(memory?: WebAssembly.Memory | null, name?: string): Uint8Array[] | null;
}
