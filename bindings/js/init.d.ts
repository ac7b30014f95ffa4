/** The package where the module has to be loaded first: `await init()` before the first call. Nothing happens on import. */
export * from './index.js';

/** What `init` takes: the module, compiled or in bytes, an answer to `fetch` that has it, or its address. */
export type ModuleSource = WebAssembly.Module | ArrayBufferView | ArrayBuffer | URL | string | {
  readonly ok: boolean; readonly url: string; readonly status: number; readonly statusText: string; arrayBuffer(): Promise<ArrayBuffer>;
};

/**
 * Loads the module, once: later calls return the first promise, unless it was rejected. Without an argument, loads the package's own
 * module.
 */
export function init(source?: ModuleSource | PromiseLike<ModuleSource>): Promise<void>;
