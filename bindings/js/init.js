// The package for places where nothing may be awaited while it is imported, such as service workers: `await init()` first.
import { initFrom } from './loading.js';

export const init = initFrom(() => fetch(new URL('./capnp_canonical.wasm', import.meta.url)));
export * from './calls.js';
