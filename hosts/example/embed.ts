// As embed.mjs, for a page: what a run of a plugin came to, its result or a dump, with the replies of its host.
import { Collector } from 'pm-collector';
import { Recorder } from 'pm-collector/record';

export interface Outcome {
  result: number | null;
  dump: Blob | null;
  kind: number;
  replies: string;
}

export const runPlugin = async (bytes: Uint8Array, own: WebAssembly.Imports, args: number[]): Promise<Outcome> => {
  const collector = new Collector();
  const recorder = new Recorder(bytes);
  const { instance } = await WebAssembly.instantiate(bytes, { ...recorder.imports(own), ...collector.imports });
  const run = recorder.attach(instance).exports.run as (...args: number[]) => number;
  try {
    const result = run(...args);
    return { result, dump: null, kind: 0, replies: recorder.text() };
  } catch (trap) {
    const pieces = collector.takePieces(instance.exports['coredump.memory'] as WebAssembly.Memory | undefined);
    if (pieces === null) throw trap;
    return { result: null, dump: new Blob(pieces), kind: collector.kind, replies: recorder.text() };
  }
};
