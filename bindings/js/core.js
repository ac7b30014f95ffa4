// The package for places where neither index.js nor node.js can load the module: pass it to `use` before the first call.
export { use } from './library.js';
export * from './calls.js';
