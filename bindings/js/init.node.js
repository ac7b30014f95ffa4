// init.js for node, deno and bun, which read the module from the file.
import { readFile } from 'node:fs/promises';
import { initFrom } from './loading.js';

export const init = initFrom(() => readFile(new URL('./capnp_canonical.wasm', import.meta.url)));
export * from './calls.js';
