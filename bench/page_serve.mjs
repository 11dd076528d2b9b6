// What page.mjs and page_firefox.mjs share: a server of hosts/, under the page's content security policy, and waiting.
import { existsSync, readFileSync } from 'node:fs';
import { createServer } from 'node:http';
import { dirname, join, normalize } from 'node:path';
import { fileURLToPath } from 'node:url';

const HOSTS = join(dirname(fileURLToPath(import.meta.url)), '..', 'hosts');
const POLICY = "default-src 'none'; script-src 'self' 'wasm-unsafe-eval'; style-src 'self'; connect-src 'self'";
const TYPES = { html: 'text/html', css: 'text/css', mjs: 'text/javascript', wasm: 'application/wasm' };
const LONGEST = 20000; // milliseconds

export const fail = (text) => { throw new Error(text); };
const sleep = (milliseconds) => new Promise((done) => { setTimeout(done, milliseconds); });

export const until = async (what, text) => {
  const end = Date.now() + LONGEST;
  for (;;) {
    const value = await what();
    if (value) return value;
    if (Date.now() > end) fail(`waited too long for ${text}`);
    await sleep(20);
  }
};

/** Serves hosts/, and the cases below /cases/. */
export const serve = (cases) => new Promise((done) => {
  const server = createServer((request, response) => {
    const path = normalize(decodeURIComponent(new URL(request.url, 'http://localhost').pathname));
    const file = path.startsWith('/cases/') ? join(cases, path.slice('/cases/'.length)) : join(HOSTS, path);
    const stands = existsSync(file);
    response.writeHead(stands ? 200 : 404, { 'Content-Type': TYPES[file.split('.').pop()] ?? 'text/plain', 'Content-Security-Policy': POLICY });
    response.end(stands ? readFileSync(file) : '');
  });
  server.listen(0, '127.0.0.1', () => done(server));
});
