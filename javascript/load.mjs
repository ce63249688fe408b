// Reads the files of dist/, from the disk in node and Deno, and over HTTP in a browser.
import { PLACE } from './place.mjs';

/** The octets of a file. */
export async function octetsOf(name) {
    const url = new URL(name, PLACE);
    if (url.protocol === 'file:') return (await import('node:fs/promises')).readFile(url);
    const response = await fetch(url);
    if (!response.ok) throw new Error(`${url} can't be read: status ${response.status}`);
    return new Uint8Array(await response.arrayBuffer());
}

/** The instance of a module that imports nothing. */
export async function instanceOf(name) {
    return (await WebAssembly.instantiate(await octetsOf(name), {})).instance;
}
