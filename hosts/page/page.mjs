// A page that shows core dumps: one that is dropped onto it, and that of a plugin's trap. `index.html?module=FILE&args=A,B` runs the export
// `run` of a rewritten module on A and B, as a page would run a plugin.
import { Collector } from '../collector.mjs';
import { show } from './show.mjs';

const part = (id) => document.getElementById(id);
const say = (text) => { part('state').textContent = text; };

const clear = () => {
  part('text').textContent = '';
  part('dump').hidden = true;
  if (part('dump').href) URL.revokeObjectURL(part('dump').href);
};

/** Shows what is in a dump, and says why not where it can't be read. */
const present = async (blob, said) => {
  clear();
  try {
    part('text').textContent = show(new Uint8Array(await blob.arrayBuffer()));
    say(said);
  } catch (error) {
    say(`${said}: ${error.message}`);
  }
};

const offer = (blob) => {
  part('dump').href = URL.createObjectURL(blob);
  part('dump').hidden = false;
};

const run = async (file, args) => {
  const collector = new Collector();
  const { instance } = await WebAssembly.instantiate(await (await fetch(file)).arrayBuffer(), collector.imports);
  try {
    say(`run answered ${instance.exports.run(...args)}`);
  } catch (trap) {
    // In pieces: the blob copies the memory's pages, and nothing else has to.
    const pieces = collector.takePieces(instance.exports['coredump.memory']);
    if (pieces === null) throw trap;
    const dump = new Blob(pieces, { type: 'application/wasm' });
    await present(dump, `trap of kind ${collector.kind}`);
    offer(dump);
  }
};

const opened = (files) => {
  if (files.length > 0) present(files[0], files[0].name);
};

const over = (event, stands) => {
  event.preventDefault();
  document.body.classList.toggle('over', stands);
};

document.addEventListener('dragover', (event) => over(event, true));
document.addEventListener('dragleave', (event) => over(event, false));
document.addEventListener('drop', (event) => {
  over(event, false);
  opened(event.dataTransfer.files);
});
part('choice').addEventListener('change', (event) => opened(event.target.files));

const words = new URLSearchParams(location.search);
if (words.has('module')) {
  run(words.get('module'), (words.get('args') ?? '').split(',').map(Number)).catch((error) => say(`${error}`));
}
