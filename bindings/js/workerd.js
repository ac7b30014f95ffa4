// The package for workerd, which imports a module compiled, and compiles none itself.
import module from './capnp_canonical.wasm';
import { use } from './library.js';

use(module);

/** There is nothing to load, except another module than the package's own, compiled. */
export const init = async (other) => {
  if (other) use(await other);
};
export * from './calls.js';
