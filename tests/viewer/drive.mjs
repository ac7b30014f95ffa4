// drive.mjs PAGE [SHOTS]: opens the page, a file or a URL, in headless Chromium, tries it as a user would, and prints
// `N passed, M failed`. With SHOTS it writes screenshots to that folder. CHROMIUM names the browser, PARTS the parts that
// are tried, and LOOPS how many loops over 60 MB a large message may take (30), which the page runs before and after. Node 20 needs --experimental-websocket, node 22 doesn't.
import assert from 'node:assert/strict';
import { spawn } from 'node:child_process';
import { mkdtempSync, readFileSync, rmSync, writeFileSync } from 'node:fs';
import { tmpdir } from 'node:os';
import { join, resolve } from 'node:path';
import { setTimeout as wait } from 'node:timers/promises';
import { pathToFileURL } from 'node:url';
import { gzipSync } from 'node:zlib';

const [, , given, shots] = process.argv;
const page = /^https?:/.test(given) ? given : pathToFileURL(resolve(given)).href;
const HERE = import.meta.dirname ?? new URL('.', import.meta.url).pathname;
const linesOf = (name) => readFileSync(join(HERE, '../library/rows', name), 'utf-8').split('\n').filter((it) => it && it[0] !== '#').map((it) => it.split(' '));
const rows = Object.fromEntries(linesOf('messages.txt').map((it) => [it[0], it])), packed = Object.fromEntries(linesOf('packed.txt').map((it) => [it[0], it]));

// ---- the browser

const folder = mkdtempSync(join(tmpdir(), 'capnp-viewer-'));
const chrome = spawn(process.env.CHROMIUM ?? 'chromium', ['--headless=new', '--no-sandbox', '--disable-gpu', '--hide-scrollbars', `--user-data-dir=${folder}/profile`, '--remote-debugging-port=0', '--window-size=1280,900', 'about:blank'], { stdio: ['ignore', 'ignore', 'pipe'] });
const port = await new Promise((done, fail) => {
  let said = '';
  chrome.on('error', fail);
  chrome.on('exit', () => fail(new Error(`the browser ended: ${said}`)));
  chrome.stderr.on('data', (it) => {
    said += it;
    const found = /DevTools listening on ws:\/\/[^:]+:(\d+)/.exec(said);
    if (found) done(found[1]);
  });
});
const targets = await (await fetch(`http://127.0.0.1:${port}/json`)).json();
const socket = new WebSocket(targets.find((it) => it.type === 'page').webSocketDebuggerUrl);
await new Promise((done) => socket.addEventListener('open', done));
const waiting = new Map(), errors = [], requests = [];
let number = 0, isExpected = false;
socket.addEventListener('message', ({ data }) => {
  const it = JSON.parse(data);
  if (it.id) waiting.get(it.id)(it), waiting.delete(it.id);
  if (it.method === 'Runtime.exceptionThrown') errors.push(it.params.exceptionDetails.exception?.description ?? it.params.exceptionDetails.text);
  if (it.method === 'Log.entryAdded' && it.params.entry.level === 'error' && !isExpected) errors.push(it.params.entry.text);
  if (it.method === 'Network.requestWillBeSent') requests.push(it.params.request.url);
});
const send = (method, params = {}) => new Promise((done, fail) => {
  waiting.set(++number, (it) => (it.error ? fail(new Error(`${method}: ${JSON.stringify(it.error)}`)) : done(it.result)));
  socket.send(JSON.stringify({ id: number, method, params }));
});
const evaluate = async (expression) => {
  const it = await send('Runtime.evaluate', { expression, awaitPromise: true, returnByValue: true });
  if (it.exceptionDetails) throw new Error(it.exceptionDetails.exception?.description);
  return it.result.value;
};
for (const it of ['Page', 'Runtime', 'Log', 'DOM', 'Network', 'Accessibility']) await send(`${it}.enable`);

async function shot(name) {
  if (shots) writeFileSync(join(shots, `${name}.png`), Buffer.from((await send('Page.captureScreenshot')).data, 'base64'));
}

/** Waits until an expression is true. */
async function until(expression, seconds = 10) {
  for (const end = Date.now() + 1000 * seconds; Date.now() < end; await wait(20)) if (await evaluate(expression).catch(() => false)) return true;
  return false;
}

const settled = () => evaluate('new Promise((done) => requestAnimationFrame(() => setTimeout(done, 30)))');

async function goto(fragment) {
  await send('Page.navigate', { url: 'about:blank' });
  await send('Page.navigate', { url: `${page}#${fragment}` });
  await until(`document.readyState === 'complete' && document.getElementById('version')?.textContent && (document.querySelector('#copy .body').textContent || !document.getElementById('note').classList.contains('hidden'))`);
  await settled();
}

const media = (features) => send('Emulation.setEmulatedMedia', { features: Object.entries(features).map(([name, value]) => ({ name, value })) });
const size = (width, height) => send('Emulation.setDeviceMetricsOverride', { width, height, deviceScaleFactor: 1, mobile: false });
const text = (id) => evaluate(`document.getElementById('${id}').innerText`);
const title = () => evaluate(`document.querySelector('#verdict h2').textContent + '|' + document.querySelector('#verdict .says').textContent`);
const click = (id) => evaluate(`document.getElementById('${id}').click()`);

async function press(id, ...keys) {
  await evaluate(`document.getElementById('${id}').focus()`);
  for (const key of keys) for (const type of ['keyDown', 'keyUp']) await send('Input.dispatchKeyEvent', { type, key, code: key, windowsVirtualKeyCode: { ArrowDown: 40, ArrowUp: 38, ArrowLeft: 37, ArrowRight: 39, Home: 36, End: 35, Enter: 13 }[key] });
  await settled();
}

async function put(given) {
  await evaluate(`(() => { const it = document.getElementById('paste'); it.value = ${JSON.stringify(given)}; it.dispatchEvent(new Event('input')); })()`);
  await wait(150);
  await settled();
}

/** Gives the page files, as names and bytes in turn. Returns how long it took until all is shown, in milliseconds. */
async function open(...given) {
  const files = [];
  for (let at = 0; at < given.length; at += 2) {
    files.push(join(folder, given[at]));
    writeFileSync(files[files.length - 1], given[at + 1]);
  }
  const { root } = await send('DOM.getDocument'), { nodeId } = await send('DOM.querySelector', { nodeId: root.nodeId, selector: '#file' });
  await evaluate(`document.querySelector('#copy .body').replaceChildren()`);
  const begun = Date.now();
  await send('DOM.setFileInputFiles', { files, nodeId });
  await until(`document.querySelector('#copy .body').textContent !== ''`, 60);
  await settled();
  return Date.now() - begun;
}

// ---- what is tried

let passed = 0, failed = 0;
function check(what, got, wanted) {
  try {
    if (wanted instanceof RegExp) assert.match(got, wanted);
    else assert.deepEqual(got, wanted);
    passed++;
  } catch (error) {
    failed++;
    console.log(`${what}: ${error.message.slice(0, 600)}`);
  }
}

const bytesOf = (hex) => Buffer.from(hex, 'hex');
function frame(...segments) {
  const table = new Uint32Array(segments.length + 1 + ((segments.length + 1) % 2));
  table[0] = segments.length - 1;
  segments.forEach((it, at) => (table[at + 1] = it.length / 8));
  return Buffer.concat([Buffer.from(table.buffer), ...segments]);
}
const words = (...row) => Buffer.from(BigUint64Array.from(row).buffer);

/** Where the pointer is at which the value of a message is refused; nothing if the bytes are no frame. */
function placeOf(name) {
  const place = linesOf('places.txt').find(([it, , reading, nesting, limit]) => it === name && reading === '0' && nesting === '64' && limit === '8388608');
  return place ? ` at segment ${place[6]}, word ${place[7]}` : '';
}

async function messages() {
  for (const [name, [, given, copy, flat, canonical]] of Object.entries(rows)) {
    if (given === '-') continue;
    await goto(given);
    const said = await title(), body = await text('copy');
    if (/^[A-Z]/.test(canonical)) check(name, said, new RegExp(`^Refused\\|${canonical}${placeOf(name)}: `));
    else if (canonical === 'yes') check(name, said, /^Canonical\|/);
    else check(name, said, new RegExp(`^Not canonical\\|.*segment ${canonical.split(',')[1]}, word ${canonical.split(',')[2]}\\.$`));
    if (copy === 'Done') check(`${name}, canonical form`, body, new RegExp(`${(flat.length / 16).toLocaleString('en')} words?, .*SHA-256`, 's'));
    else check(`${name}, canonical form`, body, new RegExp(copy));
  }
}

async function views() {
  await goto(rows.book[1]);
  check('digest', await text('digest'), '13e04c24be07d4bdca5c6566c50fd5449ef204b3d82062bafabe877c1c8083dd');
  await click('ascanonical');
  check('canonical words', await text('map'), /segment 0: 55 words/);
  await click('next');
  check('the fault is marked', await evaluate(`document.querySelectorAll('.word.fault').length`), 1);
  check('about the fault', await text('about'), /Here it isn’t canonical: a list of structs with more data words than any element needs/);
  check('zeros that canonical form drops', await evaluate(`getComputedStyle(document.querySelector('.word .r12')).textDecorationLine`), 'line-through');
  await shot('fault');
  await goto(rows.out_of_bounds[1]);
  check('a broken pointer', await evaluate(`document.querySelectorAll('.word .r13').length`), 8);
  check('a broken pointer in the tree', await text('tree'), /broken.*outside its segment/s);
  await goto(frame(words(0xfffffffcn, 0x4242n)).toString('hex'));
  check('a word that nothing leads to', await evaluate(`document.querySelectorAll('.word .r0').length`), 8);
  check('a word that nothing leads to, counted', await text('verdict'), /1 word that nothing leads to/);
  await goto(rows.cut_short?.[1] ?? rows.book[1].slice(0, 200));
  check('a frame that is cut short', await text('verdict'), /Truncated/);
  await goto(rows.book_in_segments[1]);
  check('segments', await text('map'), /segment 0: .*segment 1: /s);
  await evaluate(`[...document.querySelectorAll('#tree .node')].find((it) => it.innerText.includes('“first”')).click()`);
  await settled();
  check('the words of a text', await text('about'), /text \(a guess\)/);
  await shot('segments');
}

async function comparing() {
  await goto(rows.book[1]);
  await evaluate(`[...document.querySelectorAll('#copy button')].find((it) => it.textContent === 'Keep to compare').click()`);
  await put(rows.book_in_segments[1]);
  check('two messages of one value', await text('compared'), /^Equal to the pasted message/);
  const other = bytesOf(rows.book[1]);
  other[8 + 8 * 67] ^= 1;
  await put(other.toString('hex'));
  check('another value', await text('compared'), /^Another value than the pasted message: they differ first at word 54 of the canonical words, in root\.p1: 51656f706c650000 here, 50656f706c650000 there/);
  await evaluate(`document.querySelector('#compared a').click()`);
  await settled();
  check('the word that differs', await evaluate(`document.querySelector('.word.on')?.dataset.word`), '54');
  await shot('compare');
  await open('one.bin', bytesOf(rows.book[1]), 'two.bin', other);
  await until(`document.getElementById('compared')?.textContent`);
  await wait(300);
  check('two files', await text('compared'), /^Another value than one\.bin: /);
}

async function inputs() {
  for (let at = 0; at < 8; at++) {
    await evaluate(`(() => { const it = document.getElementById('example'); it.value = '${at}'; it.onchange(); })()`);
    await wait(150);
    check(`example ${at}`, await title(), /\|/);
  }
  check('packed', await text('note'), /looks like packed messages/);
  const book = bytesOf(rows.book[1]), flat = bytesOf(rows.book[3]);
  await put(book.toString('base64'));
  check('base64', await text('copy'), /55 words/);
  // these letters are hex digits too
  await put(frame(words(0n)).toString('base64url'));
  check('base64 that may be hex', await text('copy'), /1 word, 8 bytes/);
  await put('no message, surely');
  check('text', await text('note'), /neither hex digits nor base64/);
  await open('book.gz', gzipSync(book));
  check('gzip', await text('note'), /compressed by gzip/);
  check('gzip, canonical form', await text('copy'), /55 words/);
  await open('book.txt', `${book.toString('hex').replace(/.{16}/g, '$& ')}\n`);
  check('a file of hex digits', `${await text('note')} ${await text('copy')}`, /hex digits or base64.*55 words/s);
  await open('words.bin', flat);
  check('raw words', `${await text('note')} ${await title()}`, /raw canonical words.* Canonical\|/s);
  await open('stream.bin', Buffer.concat([book, bytesOf(rows.zero_word[1]), book]));
  check('a stream', await text('of'), 'of 3');
  await evaluate(`(() => { const it = document.getElementById('number'); it.value = 2; it.oninput(); })()`);
  await settled();
  check('its second message', await title(), /^Not canonical\|/);
  await open('packed.bin', bytesOf(packed.friends[1]));
  check('a packed file', await text('note'), /packed messages/);
}

async function links() {
  await goto(rows.book[1]);
  await press('map', 'ArrowRight', 'ArrowDown');
  await click('link');
  const link = await evaluate('location.hash');
  check('a link', link, `#${rows.book[1]}@0:2`);
  await goto(link.slice(1));
  check('a link leads to its word', await evaluate(`document.querySelector('.word.on')?.dataset.word`), '2');
}

async function keys() {
  await goto(rows.book[1]);
  const active = () => evaluate(`document.getElementById(document.getElementById('tree').getAttribute('aria-activedescendant'))?.innerText ?? ''`);
  const lines = () => evaluate(`document.getElementById('tree').children.length`);
  await press('tree', 'ArrowDown');
  check('the first line', await active(), /^▼?\s*root/);
  const before = await lines();
  await press('tree', 'ArrowLeft');
  check('folded', await lines(), 1);
  await press('tree', 'ArrowRight');
  check('unfolded', await lines(), before);
  await press('tree', 'ArrowDown', 'ArrowDown', 'ArrowDown');
  check('further down', await active(), /pointer|data/);
  await press('tree', 'End');
  check('the last line', await evaluate(`document.getElementById('tree').lastElementChild.classList.contains('on')`), true);
  await press('map', 'Home', 'ArrowRight', 'ArrowRight', 'ArrowDown');
  check('a word', await evaluate(`document.querySelector('.word.on')?.dataset.word`), '4');
  await press('map', 'End');
  check('the last word', await text('about'), /^Segment 0, word \d+/);
}

/** Each control has a name for a screen reader. */
async function names() {
  await goto(rows.book[1]);
  const { nodes } = await send('Accessibility.getFullAXTree');
  const roles = new Set(['button', 'combobox', 'textbox', 'spinbutton', 'tree', 'treeitem', 'link', 'searchbox', 'checkbox']);
  const controls = nodes.filter((it) => !it.ignored && roles.has(it.role?.value));
  check('controls', controls.length > 20, true);
  check('controls without a name', controls.filter((it) => !it.name?.value).map((it) => it.role.value), []);
  check('headings', nodes.filter((it) => it.role?.value === 'heading' && !it.ignored).map((it) => it.name.value).slice(0, 1), ["Cap'n Proto message viewer"]);
  check('what isn’t proved', await evaluate(`document.querySelector('footer').innerText`), /aren’t proved/);
}

async function screens() {
  await goto(rows.book[1]);
  await click('next');
  for (const [name, features] of Object.entries({ dark: { 'prefers-color-scheme': 'dark' }, contrast: { 'prefers-contrast': 'more' }, contrast_dark: { 'prefers-contrast': 'more', 'prefers-color-scheme': 'dark' }, forced: { 'forced-colors': 'active' } })) {
    await media(features);
    await settled();
    const [back, front] = await evaluate(`(() => { const it = getComputedStyle(document.body); return [it.backgroundColor, it.color]; })()`);
    check(`${name}: text differs from its ground`, contrast(back, front) > 7, true);
    await shot(name);
  }
  await media({});
  for (const width of [400, 320]) {
    await size(width, 900);
    await goto(rows.book[1]);
    check(`${width} pixels: nothing is wider`, await evaluate(`[...document.querySelectorAll('body *')].filter((it) => it.getBoundingClientRect().right > ${width} && !it.closest('#map, #tree')).map((it) => it.tagName + it.id).concat(document.documentElement.scrollWidth).join(' ')`), String(width));
    check(`${width} pixels: a word a line`, await evaluate(`document.querySelectorAll('#map .line:nth-child(2) .word').length`), 1);
    if (width === 400) await shot('narrow');
    if (width === 400) await evaluate(`document.getElementById('map').scrollIntoView()`), await settled(), await shot('narrow_words');
  }
  await size(1280, 900);
  await goto(rows.book[1]);
  check('1280 pixels: nothing is wider', await evaluate('document.documentElement.scrollWidth'), 1280);
  await shot('wide');
}

function contrast(...colours) {
  const [a, b] = colours.map((it) => {
    const [red, green, blue] = it.match(/[\d.]+/g).slice(0, 3).map((one) => (one / 255 <= 0.03928 ? one / 255 / 12.92 : ((one / 255 + 0.055) / 1.055) ** 2.4));
    return 0.2126 * red + 0.7152 * green + 0.0722 * blue + 0.05;
  });
  return Math.max(a, b) / Math.min(a, b);
}

/** How long a loop over 60 MB takes in the page, in milliseconds: the mean of four. */
const loop = () => evaluate(`(() => {
  const bytes = new Uint8Array(60 << 20), begun = performance.now();
  let sum = 0;
  for (let times = 0; times < 4; times++) for (let at = 0; at < bytes.length; at++) sum = Math.imul(sum, 31) + bytes[at] | 0;
  return (performance.now() - begun) / 4 + 0 * sum;
})()`);

async function large() {
  await goto('');
  const before = await loop();
  const data = Buffer.alloc(60 << 20, 'Cap’n Proto ');
  const took = { data: await open('large.bin', frame(Buffer.concat([words(BigInt(data.length) << 35n | 2n << 32n | 1n), data]))) };
  check('60 MB, canonical form', await text('copy'), /7,864,321 words/);
  const structs = 1 << 16, list = Buffer.concat([words(BigInt(structs * 3) << 35n | 7n << 32n | 1n, 1n << 48n | 2n << 32n | BigInt(structs) << 2n), Buffer.alloc(structs * 24, 1)]);
  for (let at = 0; at < structs; at++) list.writeBigUInt64LE(0n, 16 + 24 * at + 16);
  took.structs = await open('structs.bin', frame(list));
  check('65,536 structs', await text('tree'), /list of 65,536 structs/);
  // many lists over the same words: the walk has to stop by itself
  const many = 60000, overlapping = Buffer.alloc(8 * (many + 1) + 800000);
  overlapping.writeBigUInt64LE(BigInt(many) << 35n | 6n << 32n | 1n, 0);
  for (let at = 0; at < many; at++) overlapping.writeBigUInt64LE(BigInt(790000 - at) << 35n | 2n << 32n | BigInt(4 * (many - at - 1)) | 1n, 8 + 8 * at);
  took.overlapping = await open('overlapping.bin', frame(overlapping));
  check('overlapping lists', await text('verdict'), /the rest of the tree is left out/);
  const one = Math.max(before, await loop()), most = Number(process.env.LOOPS ?? 30);
  for (const [name, ms] of Object.entries(took)) {
    console.log(`${name}: ${ms} ms, ${(ms / one).toFixed(1)} loops over 60 MB`);
    check(`${name}: within ${most} loops`, ms <= most * one, true);
  }
}

async function network() {
  await goto(rows.book[1]);
  isExpected = true;
  await evaluate(`window.violated = []; document.addEventListener('securitypolicyviolation', (it) => window.violated.push(it.effectiveDirective))`);
  check('no request gets out', await evaluate(`fetch('http://127.0.0.1:${port}/json/version').then(() => 'sent', () => 'refused')`), 'refused');
  check('no picture gets out', await evaluate(`new Promise((done) => { const it = new Image(); it.onload = () => done('sent'); it.onerror = () => done('refused'); it.src = 'http://127.0.0.1:${port}/'; })`), 'refused');
  await wait(100);
  check('by the policy of the page', await evaluate('window.violated'), ['connect-src', 'img-src']);
  check('only the page is loaded', [...new Set(requests.map((it) => it.split('#')[0]).filter((it) => !it.startsWith(`http://127.0.0.1:${port}/`)))].filter((it) => it !== page && it !== 'about:blank'), []);
  // code and styles that a message might bring aren't used
  const policy = await evaluate(`document.querySelector('meta[http-equiv=Content-Security-Policy]').content`);
  check('a policy without unsafe-inline', policy, /^default-src 'none'; script-src 'sha256-[\w+/]{43}=' 'wasm-unsafe-eval'; style-src 'sha256-[\w+/]{43}=';/);
  await evaluate(`(() => {
    window.blocked = [];
    document.addEventListener('securitypolicyviolation', (it) => window.blocked.push(it.effectiveDirective));
    const box = document.body.appendChild(document.createElement('div'));
    box.innerHTML = '<img src="data:," onerror="window.ran = 1"><b id="injected" style="color: rgb(1, 2, 3)" onclick="window.ran = 2">b</b><style>#injected { font-size: 77px }</style>';
    document.getElementById('injected').click();
    const script = document.createElement('script');
    script.textContent = 'window.ran = 3';
    box.append(script);
  })()`);
  await wait(100);
  const shown = await evaluate(`(({ color, fontSize }) => [window.ran ?? 0, color === 'rgb(1, 2, 3)', fontSize === '77px'].join())(getComputedStyle(document.getElementById('injected')))`);
  check('code and styles of others', shown, '0,false,false');
  check('by the policy too', await evaluate(`['script-src-attr', 'script-src-elem', 'style-src-attr', 'style-src-elem'].every((it) => window.blocked.includes(it))`), true);
}

try {
  await size(1280, 900);
  const chosen = process.env.PARTS?.split(' ');
  for (const part of [messages, views, comparing, inputs, links, keys, names, screens, large, network]) {
    if (chosen && !chosen.includes(part.name)) continue;
    try {
      await part();
    } catch (error) {
      failed++;
      console.log(`${part.name}: ${error.stack}`);
    }
  }
  for (const it of errors) {
    failed++;
    console.log('error in the page:', it.slice(0, 500));
  }
} finally {
  socket.close();
  const ended = new Promise((done) => chrome.on('exit', done));
  chrome.kill();
  await ended;
  rmSync(folder, { recursive: true, force: true, maxRetries: 20 });
}
console.log(`${passed} passed, ${failed} failed`);
process.exit(failed || !passed ? 1 : 0);
