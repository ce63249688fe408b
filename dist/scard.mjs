// The program scard in node, over its module, which lies beside this file: node scard.mjs WORD..
//
// Another script calls `program`, in node or in another host, and hands over two functions for the streams. This file
// decides nothing about octets: it hands words, input and text from one side to the other.

const NOTICE = 'scard: reading standard input, which is this terminal, up to its end (Ctrl-D)\n';
const WAIT = 5;

/**
 * Prepares a module. Returns a function of the words, as octets with 0 between two; of `read`, which fills the front of
 * an array and returns how many octets, 0 at the end, or -1 if that failed; and of `write`, which takes the front of an
 * array and returns how many octets, or -1. It returns the exit status.
 */
export function program(octets) {
    const streams = {};
    const view = (at, count) => new Uint8Array(scard.memory.buffer, Number(at), Number(count));
    const env = {
        read: (_, at, count) => BigInt(streams.read(view(at, count))),
        write: (_, at, count) => BigInt(streams.write(view(at, count))),
    };
    const scard = new WebAssembly.Instance(new WebAssembly.Module(octets), { env }).exports;
    return (words, read, write) => {
        const room = scard.scard_room(BigInt(words.length));
        if (!room) throw new Error('there is no memory for the words');
        view(room, words.length).set(words);
        Object.assign(streams, { read, write });
        return scard.scard_answer(room, BigInt(words.length));
    };
}

/** The octets of words. */
export function octetsOf(words) {
    return new TextEncoder().encode(words.join('\0'));
}

// Calls a stream, again if it isn't ready.
function moved(call) {
    for (;;) {
        try {
            return call();
        } catch (error) {
            if (error.code === 'EOF') return 0;
            if (error.code !== 'EAGAIN') return -1;
            Atomics.wait(new Int32Array(new SharedArrayBuffer(4)), 0, 0, WAIT);
        }
    }
}

async function main(words) {
    const { readFileSync, readSync, writeSync } = await import('node:fs');
    const { isatty } = await import('node:tty');
    const answer = program(readFileSync(new URL('scard.wasm', import.meta.url)));
    let isRead = false;
    const read = (octets) => {
        if (!isRead && isatty(0)) process.stderr.write(NOTICE);
        isRead = true;
        return moved(() => readSync(0, octets));
    };
    return answer(octetsOf(['scard', ...words]), read, (octets) => moved(() => writeSync(1, octets)));
}

// Whether this file is what node runs.
async function isRun() {
    if (!globalThis.process?.versions?.node || !process.argv[1]) return false;
    const { realpathSync } = await import('node:fs');
    const { fileURLToPath } = await import('node:url');
    return import.meta.url.startsWith('file:') && realpathSync(process.argv[1]) === fileURLToPath(import.meta.url);
}

if (await isRun()) process.exitCode = await main(process.argv.slice(2));
