// The repository's test data.
import { execFileSync } from 'node:child_process';
import { readFileSync } from 'node:fs';
import { join } from 'node:path';
import { CanonicalError } from '../../bindings/js/node.js';

export const TESTS = new URL('..', import.meta.url).pathname;

export const hex = (text) => (text === '-' || text === '.' ? new Uint8Array(0) : new Uint8Array(Buffer.from(text, 'hex')));
export const hexOf = (bytes) => Buffer.from(bytes).toString('hex') || '-';

const rows = (text) => text.split('\n').filter((it) => it && !it.startsWith('#')).map((it) => it.split(' '));

export const rowsOf = (name) => rows(readFileSync(join(TESTS, name), 'utf-8'));
export const jsonl = (name) => readFileSync(join(TESTS, name), 'utf-8').trim().split('\n').map((it) => JSON.parse(it));

/** The vectors that calls of the library answer: command, nesting, words, segments, answer (tests/release/lines.py). */
export function vectors() {
  return rows(execFileSync('python3', ['-B', join(TESTS, 'release/lines.py')], { encoding: 'utf-8', maxBuffer: 1 << 28 }));
}

/** What a call returns, or `!` and the name of its refusal. */
export function said(run) {
  try {
    return run();
  } catch (error) {
    if (error instanceof CanonicalError) return `!${error.code}`;
    throw error;
  }
}

/** The frame of segments. */
export function framed(parts) {
  const table = Math.ceil((4 + 4 * parts.length) / 8) * 8;
  const all = new Uint8Array(table + parts.reduce((sum, it) => sum + it.length, 0)), view = new DataView(all.buffer);
  view.setUint32(0, parts.length - 1, true);
  let at = table;
  parts.forEach((it, number) => {
    view.setUint32(4 + 4 * number, it.length / 8, true);
    all.set(it, at);
    at += it.length;
  });
  return all;
}

/** Says how many cases passed. run.sh adds these up. */
export const passed = (what, count) => console.log(`${what}: ${count} passed`);
