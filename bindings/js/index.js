// The package for browsers, workers, deno and bun: the module is fetched from the same folder.
import { use } from './library.js';

const answer = await fetch(new URL('./capnp_canonical.wasm', import.meta.url));
if (!answer.ok) throw new Error(`${answer.url}: ${answer.status} ${answer.statusText}`);
use(await WebAssembly.compile(await answer.arrayBuffer()));

export * from './calls.js';
