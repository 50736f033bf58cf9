// The entry of the package in Node: it loads the module from its file, so a caller need not wait.
import { readFileSync } from 'node:fs';
import { loadSync } from './ixdtf.mjs';

loadSync(readFileSync(new URL('./ixdtf.wasm', import.meta.url)));
export * from './ixdtf.mjs';
