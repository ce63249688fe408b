// Runs the program's module again and again, for tools/gate/try-module: node served.mjs SCARD.MJS MODULE
//
// Each line of standard input is a run, in parts with a tab between two: its words and the pieces of its input, in
// hexadecimal, the pieces with commas between them; how many octets a call of `write` takes at most; and after how many
// octets a call of `read` and one of `write` fails. Each line of standard output is a status, a text, microseconds, and
// how many pages of memory the module has.
import { readFileSync } from 'node:fs';
import { createInterface } from 'node:readline';
import { pathToFileURL } from 'node:url';

const [script, module] = process.argv.slice(2);
const { program } = await import(pathToFileURL(script));
const PAGE = 65536;
const answer = program(readFileSync(module));
let memory;

// The functions of the streams of a run, and the text that was written.
function streams(pieces, step, readFails, writeFails) {
    const left = pieces.split(',').map((it) => Buffer.from(it, 'hex')).filter((it) => it.length);
    const text = [];
    let read = 0, written = 0;
    return {
        text,
        read(room) {
            if (read >= readFails) return -1;
            if (!left.length) return 0;
            const count = Math.min(left[0].length, room.length, readFails - read);
            room.set(left[0].subarray(0, count));
            left[0] = left[0].subarray(count);
            if (!left[0].length) left.shift();
            read += count;
            return count;
        },
        write(octets) {
            memory = octets.buffer;
            const count = Math.min(octets.length, step, writeFails - written);
            if (!count && octets.length) return -1;
            text.push(Buffer.from(octets.subarray(0, count)));
            written += count;
            return count;
        },
    };
}

for await (const line of createInterface({ input: process.stdin })) {
    const [words, pieces, ...numbers] = line.split('\t');
    const { text, read, write } = streams(pieces, ...numbers.map(Number));
    const began = process.hrtime.bigint();
    const status = answer(Buffer.from(words, 'hex'), read, write);
    const took = (process.hrtime.bigint() - began) / 1000n;
    process.stdout.write(`${status}\t${Buffer.concat(text).toString('hex')}\t${took}\t${memory ? memory.byteLength / PAGE : 0}\n`);
}
