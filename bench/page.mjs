// node page.mjs CHROMIUM CASES: whether the page of hosts/page, in headless Chromium under its content security policy, gives the dumps that
// stand in the folders of CASES. A folder has `rewritten.wasm`, `words` (A and B), `run.core`, and `shown`, which is what `pm show` prints of
// it. The page runs the module, has to show those lines, and its link is clicked and the file compared. Then the dump is dropped onto
// a new page, which has to show the same lines.
import { spawn } from 'node:child_process';
import { mkdtempSync, readFileSync, readdirSync, rmSync } from 'node:fs';
import { tmpdir } from 'node:os';
import { join, resolve } from 'node:path';
import { fail, serve, until } from './page_serve.mjs';

const SCREEN = 100; // a place inside the page

/** A browser, and its protocol over a pipe: `ask` sends a command, and `told` has the events so far. */
const launch = (chromium, profile) => {
  const words = ['--headless', '--no-sandbox', '--disable-gpu', '--remote-debugging-pipe', `--user-data-dir=${profile}`, 'about:blank'];
  const child = spawn(chromium, words, { stdio: ['ignore', 'ignore', 'ignore', 'pipe', 'pipe'] });
  const [, , , to, from] = child.stdio;
  const waiting = new Map();
  const told = [];
  let rest = '';
  from.setEncoding('utf8');
  from.on('data', (text) => {
    const messages = (rest + text).split('\0');
    rest = messages.pop();
    for (const message of messages.map((part) => JSON.parse(part))) {
      if (message.id === undefined) told.push(message);
      else waiting.get(message.id)(message);
    }
  });
  const ask = (method, params = {}, sessionId = undefined) => new Promise((done, refuse) => {
    const id = waiting.size + 1;
    waiting.set(id, (answer) => (answer.error ? refuse(new Error(`${method}: ${answer.error.message}`)) : done(answer.result)));
    to.write(`${JSON.stringify({ id, method, params, sessionId })}\0`);
  });
  return { child, ask, told };
};

/** A new page at an address, and what evaluates there. */
const open = async (browser, address) => {
  const { targetId } = await browser.ask('Target.createTarget', { url: 'about:blank' });
  const { sessionId } = await browser.ask('Target.attachToTarget', { targetId, flatten: true });
  const ask = (method, params) => browser.ask(method, params, sessionId);
  const evaluate = async (expression) => (await ask('Runtime.evaluate', { expression, returnByValue: true })).result.value;
  await ask('Log.enable');
  await ask('Page.enable');
  await ask('Page.navigate', { url: address });
  await until(() => evaluate('document.readyState === "complete" && document.getElementById("text") !== null'), address);
  return { ask, evaluate, close: () => browser.ask('Target.closeTarget', { targetId }) };
};

const textOf = (page) => page.evaluate('document.getElementById("text").textContent');

const runsPlugin = async (browser, place, name, files, downloads) => {
  const page = await open(browser, `${place}/page/index.html?module=/cases/${name}/rewritten.wasm&args=${files.words.trim().replace(' ', ',')}`);
  await until(() => page.evaluate('!document.getElementById("dump").hidden'), `the dump of ${name}`);
  if (await textOf(page) !== files.shown) fail(`${name}: the page shows ${await textOf(page)}`);
  const file = join(downloads, 'core.wasm');
  rmSync(file, { force: true });
  const from = browser.told.length;
  await page.evaluate('document.getElementById("dump").click()');
  const isDone = (event) => event.method === 'Browser.downloadProgress' && event.params.state === 'completed';
  await until(() => browser.told.slice(from).some(isDone), `the file of ${name}`);
  if (!readFileSync(file).equals(files.dump)) fail(`${name}: another dump`);
  await page.close();
};

const takesDropped = async (browser, place, name, path, files) => {
  const page = await open(browser, `${place}/page/index.html`);
  const data = { items: [], files: [path], dragOperationsMask: 1 };
  for (const type of ['dragEnter', 'dragOver', 'drop']) await page.ask('Input.dispatchDragEvent', { type, x: SCREEN, y: SCREEN, data });
  await until(async () => (await textOf(page)) !== '', `what was dropped of ${name}`);
  if (await textOf(page) !== files.shown) fail(`${name}: the page shows ${await textOf(page)} of what was dropped`);
  await page.close();
};

const tryAll = async (browser, place, cases, downloads) => {
  await browser.ask('Browser.setDownloadBehavior', { behavior: 'allow', downloadPath: downloads, eventsEnabled: true });
  for (const name of readdirSync(cases)) {
    const read = (file, coding) => readFileSync(join(cases, name, file), coding);
    const files = { dump: read('run.core'), shown: read('shown', 'utf8'), words: read('words', 'utf8') };
    await runsPlugin(browser, place, name, files, downloads);
    await takesDropped(browser, place, name, join(cases, name, 'run.core'), files);
  }
  const wrong = browser.told.filter((event) => event.method === 'Log.entryAdded' && !event.params.entry.url?.endsWith('favicon.ico'));
  if (wrong.length > 0) fail(`the browser says: ${wrong.map((event) => event.params.entry.text).join('; ')}`);
  return readdirSync(cases).length;
};

const [chromium, cases] = process.argv.slice(2);
const kept = mkdtempSync(join(tmpdir(), 'page-'));
const server = await serve(resolve(cases));
const browser = launch(chromium, join(kept, 'profile'));
try {
  const count = await tryAll(browser, `http://127.0.0.1:${server.address().port}`, resolve(cases), kept);
  console.log(`${count} dumps shown and given by the page`);
} finally {
  const ended = new Promise((done) => { browser.child.on('exit', done); });
  await browser.ask('Browser.close');
  await ended;
  server.closeAllConnections();
  server.close();
  rmSync(kept, { recursive: true, force: true });
}
