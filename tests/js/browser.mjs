// browser.mjs CHROMIUM: has a browser load the package from a server that this starts, and run the messages and packed bytes of
// tests/library/rows there. The last line is `N passed, M failed`.
import { spawn } from 'node:child_process';
import { mkdtempSync, readFileSync, rmSync } from 'node:fs';
import { createServer } from 'node:http';
import { tmpdir } from 'node:os';
import { extname, join, normalize } from 'node:path';

const TOP = new URL('../..', import.meta.url).pathname;
const TYPES = { '.js': 'text/javascript', '.html': 'text/html', '.txt': 'text/plain', '.wasm': 'application/octet-stream' };
const profile = mkdtempSync(join(tmpdir(), 'browser-'));
let browser;

function done(text) {
  console.log(text.trim());
  clearTimeout(timer);
  browser.kill();
  server.close();
  server.closeAllConnections?.();
  process.exitCode = /^\d+ passed, 0 failed$/.test(text.trim().split('\n').at(-1)) ? 0 : 1;
}

const server = createServer((request, response) => {
  if (request.method === 'POST') {
    let text = '';
    request.on('data', (it) => (text += it)).on('end', () => {
      response.end();
      done(text);
    });
    return;
  }
  const path = normalize(new URL(request.url, 'http://localhost').pathname);
  try {
    response.setHeader('content-type', TYPES[extname(path)] ?? 'text/plain');
    response.end(readFileSync(join(TOP, path)));
  } catch {
    response.statusCode = 404;
    response.end();
  }
});
const timer = setTimeout(() => done('the browser says nothing\n0 passed, 1 failed'), 60000);
server.listen(0, '127.0.0.1', () => {
  const page = `http://127.0.0.1:${server.address().port}/tests/js/browser.html`;
  const words = ['--headless', '--no-sandbox', '--disable-gpu', '--disable-dev-shm-usage', `--user-data-dir=${profile}`, page];
  browser = spawn(process.argv[2], words, { stdio: 'ignore' });
  browser.on('error', (error) => done(`${error}\n0 passed, 1 failed`));
  browser.on('exit', () => rmSync(profile, { recursive: true, force: true, maxRetries: 20 }));
});
