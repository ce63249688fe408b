// Measures calls of the program's module within one process, for tools/release/program-times:
// node within.mjs SCARD.MJS MODULE TURNS WORD.. <FILE
//
// The process makes the same run again and again, each from the beginning of FILE. Only the text of the first run goes
// to standard output. Standard error gets the seconds of a processor that the shortest run took, and the octets of the
// module's memory at the end.
import { openSync, readFileSync, readSync, writeSync } from 'node:fs';
import { pathToFileURL } from 'node:url';

const [script, module, turns, ...words] = process.argv.slice(2);
const { octetsOf, program } = await import(pathToFileURL(script));
const answer = program(readFileSync(module));
const nowhere = openSync('/dev/null', 'w');
let memory;

// Makes the run once, and returns its seconds.
function ran(output) {
    let at = 0;
    const read = (room) => {
        const count = readSync(0, room, 0, room.length, at);
        at += count;
        return count;
    };
    const write = (octets) => {
        memory = octets.buffer.byteLength;
        return writeSync(output, octets);
    };
    const before = process.cpuUsage();
    process.exitCode = answer(octetsOf(['scard', ...words]), read, write);
    const { user, system } = process.cpuUsage(before);
    return (user + system) / 1e6;
}

const took = Array.from({ length: Number(turns) }, (_, turn) => ran(turn ? nowhere : 1));
process.stderr.write(`${Math.min(...took)} ${memory}\n`);
