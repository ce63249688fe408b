// Runs all tests of the package, or those of the files whose names follow.
import { all } from './harness.mjs';

const FILES = ['values', 'vectors', 'faults', 'lines', 'misuse', 'page', 'browsers'];
const named = process.argv.slice(2);

for (const name of named.length ? named : FILES) await import(`./${name}.mjs`);
const { passed, failed } = await all();
console.log(`${passed} passed, ${failed} failed`);
process.exit(failed ? 1 : 0);
