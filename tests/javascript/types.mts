// Uses the package as a program in TypeScript does. Its compiler has to take this file, and to refuse each line that
// follows a `@ts-expect-error`. tools/gate/check-types calls the compiler.
import * as scard from 'scard';
import { Block, type Octets, type Turn } from 'scard';

const octets: Octets = scard.fromHex('00000500A4040000A5');
const block: Block = Block.decode(octets, 254);
const inf: Uint8Array = block.inf;
const number: number | null = block.number;
const about: 3 = scard.About.WTX;
const name: string = scard.nameOf(scard.Rule, scard.Rule.SEQUENCE_NUMBER);
const made: Uint8Array = Block.r(1, scard.Fault.REDUNDANCY, { nad: 0 }).encode();

const atr = scard.Atr.decode(new DataView(new ArrayBuffer(9)));
const t1: scard.T1 = atr.t1();
const terminal = new scard.Terminal(t1, { commandRoom: 300 });
const turn: Turn = terminal.transmit(octets);
const forest = scard.Tlv.decode(new Uint8Array(2), 1024n);
const tags: string[] = [...forest.walk()].map(String);
const value: Uint8Array | undefined = forest.find('6F/A5/9F65')?.value;
const built: scard.Tlv = scard.Tlv.build([{ tag: '6F', value: [{ tag: octets, value: octets }] }]);
const asked: scard.Dol = scard.Dol.build([{ tag: '9F02', length: 6 }]);
console.log(built.count, asked.entries);
const filled: Uint8Array = scard.Dol.decode(octets).fill([{ tag: octets, value: octets, format: scard.Format.OTHER }]);
const answered: { status: number; text: string } = await scard.answer(['check', 'block', '00'], 'text');

try {
    new scard.Judge(32).block(scard.End.TERMINAL, octets, scard.Arrival.CAME, octets);
} catch (error) {
    if (error instanceof scard.Refused) console.log(error.place, error.reason, error.sentence);
}
console.log(inf, number, about, name, made, turn.octets, tags, value, filled, answered);

// @ts-expect-error a text isn't octets
Block.decode('00000500A4040000A5');
// @ts-expect-error a field can't be changed
block.inf = inf;
// @ts-expect-error the size is a number
Block.decode(octets, '254');
// @ts-expect-error no such number
console.log(scard.Rule.SEQUENCE);
// @ts-expect-error it may be null
const certain: Uint8Array = terminal.answer;
// @ts-expect-error an answer is a promise
console.log(scard.answer(['check']).status);
// @ts-expect-error the words are several texts
scard.answer('check block 00');
// @ts-expect-error the parameters of T=1 are missing
new scard.Terminal({ ifsc: 32 });
// @ts-expect-error no such option
new scard.BlockReader({ ifs: 32 });
console.log(certain);
