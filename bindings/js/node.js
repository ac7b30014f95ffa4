// The package for node: the module is read from the file, so `import` and, from node 22 on, `require` work.
import { readFileSync } from 'node:fs';
import { use } from './library.js';

use(new WebAssembly.Module(readFileSync(new URL('./capnp_canonical.wasm', import.meta.url))));

export * from './calls.js';
