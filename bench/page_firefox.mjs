// node --experimental-websocket page_firefox.mjs FIREFOX CASES: as page.mjs, in headless Firefox, by WebDriver BiDi. The page runs the module of
// each case, has to show the lines of `shown`, and its link is clicked and the file compared; then the dump is chosen in a new page.
import { spawn } from 'node:child_process';
import { existsSync, mkdtempSync, readFileSync, readdirSync, rmSync, writeFileSync } from 'node:fs';
import { tmpdir } from 'node:os';
import { join, resolve } from 'node:path';
import { fail, serve, until } from './page_serve.mjs';

const PREFERENCES = { 'browser.download.folderList': 2, 'browser.download.always_ask_before_handling_new_types': false,
  'browser.download.useDownloadDir': true, 'browser.download.alwaysOpenPanel': false };

/** A browser, and its protocol: `ask` sends a command. */
const launch = async (firefox, kept) => {
  const lines = Object.entries({ ...PREFERENCES, 'browser.download.dir': kept });
  writeFileSync(join(kept, 'user.js'), lines.map(([name, value]) => `user_pref("${name}", ${JSON.stringify(value)});\n`).join(''));
  const child = spawn(firefox, ['--headless', '--no-remote', '--profile', kept, '--remote-debugging-port', '0', 'about:blank'],
    { stdio: ['ignore', 'ignore', 'pipe'] });
  let said = '';
  child.stderr.on('data', (text) => { said += text; });
  const address = await until(() => /listening on (ws:\S+)/.exec(said)?.[1], 'the browser');
  const socket = new WebSocket(`${address}/session`);
  await new Promise((done) => { socket.onopen = done; });
  const waiting = new Map();
  socket.onmessage = ({ data }) => {
    const message = JSON.parse(data);
    waiting.get(message.id)?.(message);
  };
  const ask = (method, params = {}) => new Promise((done, refuse) => {
    const id = waiting.size + 1;
    waiting.set(id, (answer) => (answer.type === 'error' ? refuse(new Error(`${method}: ${answer.message}`)) : done(answer.result)));
    socket.send(JSON.stringify({ id, method, params }));
  });
  await ask('session.new', { capabilities: {} });
  return { child, ask };
};

/** A new page at an address, and what evaluates there. */
const open = async (browser, address) => {
  const { context } = await browser.ask('browsingContext.create', { type: 'tab' });
  const raw = async (expression) => (await browser.ask('script.evaluate',
    { expression, target: { context }, awaitPromise: false, userActivation: true })).result;
  await browser.ask('browsingContext.navigate', { context, url: address, wait: 'complete' });
  return { context, raw, evaluate: async (expression) => (await raw(expression)).value };
};

const textOf = (page) => page.evaluate('document.getElementById("text").textContent');

const shows = async (page, shown, what) => {
  await until(async () => (await textOf(page)) !== '', what);
  if (await textOf(page) !== shown) fail(`${what}: the page shows ${await textOf(page)}`);
};

const [firefox, cases] = process.argv.slice(2);
const kept = mkdtempSync(join(tmpdir(), 'page-'));
const server = await serve(resolve(cases));
const browser = await launch(firefox, kept);
try {
  const place = `http://127.0.0.1:${server.address().port}`;
  for (const name of readdirSync(cases)) {
    const read = (file, coding) => readFileSync(join(cases, name, file), coding);
    const page = await open(browser, `${place}/page/index.html?module=/cases/${name}/rewritten.wasm&args=${read('words', 'utf8').trim().replace(' ', ',')}`);
    await shows(page, read('shown', 'utf8'), `the plugin of ${name}`);
    const file = join(kept, 'core.wasm');
    rmSync(file, { force: true });
    await until(() => page.evaluate('!document.getElementById("dump").hidden'), `the dump of ${name}`);
    await page.evaluate('document.getElementById("dump").click()');
    await until(() => existsSync(file) && readFileSync(file).equals(read('run.core')), `the file of ${name}`);
    const chosen = await open(browser, `${place}/page/index.html`);
    const { sharedId } = await chosen.raw('document.getElementById("choice")');
    await browser.ask('input.setFiles', { context: chosen.context, element: { sharedId }, files: [resolve(cases, name, 'run.core')] });
    await shows(chosen, read('shown', 'utf8'), `what was chosen of ${name}`);
    for (const { context } of [page, chosen]) await browser.ask('browsingContext.close', { context });
  }
  console.log(`${readdirSync(cases).length} dumps shown and given by the page in Firefox`);
} finally {
  const ended = new Promise((done) => { browser.child.on('exit', done); });
  browser.ask('browser.close').catch(() => browser.child.kill());
  await ended;
  server.closeAllConnections();
  server.close();
  rmSync(kept, { recursive: true, force: true });
}
