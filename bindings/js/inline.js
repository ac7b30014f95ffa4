// The package in one piece, for bundlers that leave the module out, and where nothing can be fetched: `await init()` first.
import { initFrom } from './loading.js';
import { module } from './module.js';

export const init = initFrom(() => Uint8Array.from(atob(module), (it) => it.charCodeAt(0)));
export * from './calls.js';
