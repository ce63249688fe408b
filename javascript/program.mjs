// The program scard: all that its words do, by its module.
import { octetsOf as fileOf } from './load.mjs';
import { octetsOf } from './library.mjs';
import { PLACE } from './place.mjs';

let loaded = null;

/** The function that runs the program. It is made once, and again after an error. */
async function runner() {
    const { octetsOf: wordsOf, program } = await import(new URL('scard.mjs', PLACE));
    return { run: program(await fileOf('scard.wasm')), wordsOf };
}

/** A function that reads octets piece by piece, in the form that the program takes. */
function reading(octets) {
    let at = 0;
    return (room) => {
        const part = octets.subarray(at, at + room.length);
        room.set(part);
        at += part.length;
        return part.length;
    };
}

/** The octets of parts. */
function joined(parts) {
    const octets = new Uint8Array(parts.reduce((sum, it) => sum + it.length, 0));
    let at = 0;
    for (const part of parts) {
        octets.set(part, at);
        at += part.length;
    }
    return octets;
}

/**
 * Runs the program on an array of words, with a text or octets as standard input. Returns the exit status, and what it
 * writes to standard output as text and as octets.
 */
export async function answer(words, input = '') {
    if (words.some((word) => typeof word !== 'string' || word.includes('\0'))) {
        throw new TypeError('a word is a text without a character 0');
    }
    const given = typeof input === 'string' ? new TextEncoder().encode(input) : octetsOf(input).slice();
    loaded ??= runner();
    const parts = [];
    try {
        const { run, wordsOf } = await loaded;
        const write = (part) => parts.push(part.slice()) && part.length;
        const status = run(wordsOf(['scard', ...words]), reading(given), write);
        const octets = joined(parts);
        return { status, text: new TextDecoder().decode(octets), octets };
    } catch (error) {
        loaded = null;
        throw error;
    }
}
