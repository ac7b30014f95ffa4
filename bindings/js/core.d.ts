/** The package with a module of your own: pass capnp_canonical.wasm, compiled, to `use` before the first call. */
export * from './index.js';

/** Sets the module that all calls run. */
export function use(module: WebAssembly.Module): void;
