// Loads the module for the entries that have to be awaited.
import { use } from './library.js';

/** The compiled module that something stands for: a module, its bytes, an answer to `fetch`, an address of it, or a promise of one. */
async function compiled(source) {
  const given = await source;
  if (given instanceof WebAssembly.Module) return given;
  if (typeof given === 'string' || given instanceof URL) return compiled(fetch(given));
  if (typeof given?.arrayBuffer !== 'function') return WebAssembly.compile(given);
  if (!given.ok) throw new Error(`${given.url}: ${given.status} ${given.statusText}`);
  return WebAssembly.compile(await given.arrayBuffer());
}

/** An `init` that loads the module from what it gets, or else from what `usual` returns, and does so once. */
export function initFrom(usual) {
  let ready;
  const load = async (source) => {
    try {
      use(await compiled(source ?? usual()));
    } catch (error) {
      // the next call tries again
      ready = undefined;
      throw error;
    }
  };
  return (source) => (ready ??= load(source));
}
