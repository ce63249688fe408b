// Sessions over a line with faults, in virtual time: an AsyncSession and an AsyncCardSession over a mocked line. No
// answer may be wrong, and the card may get no command that nobody sent. A reader by LEN, which takes the first 4 + LEN
// octets for a block, has to be caught over the same line.
import assert from 'node:assert/strict';
import * as scard from '../../javascript/index.mjs';
import { draws, same, test, VirtualTime } from './harness.mjs';
import { BWT, CWT, exchanged, FAULTS, isInOrder, joined, LATE, replyTo, T1, tried } from './wire.mjs';

const EXCHANGES = Number(process.env.SCARD_EXCHANGES ?? 200);
/** The faults of one octet, for each place. */
const OF_ONE_OCTET = ['oneChanged', 'oneLost', 'oneAdded', 'oneRepeated', 'paused', 'damaged', 'restLate'];

/** A terminal whose reader believes LEN, over the same line. */
class ByLen {
    #terminal = new scard.Terminal(T1);

    constructor(line) {
        this.line = line;
    }

    async exchange(command) {
        let turn = this.#terminal.transmit(command);
        while (turn.kind === scard.TurnKind.SEND) {
            await this.line.write(turn.octets);
            const block = await this.block(turn.wait * BWT);
            turn = block.length ? this.#terminal.received(block) : this.#terminal.quiet();
        }
        if (turn.kind !== scard.TurnKind.DONE) throw new scard.NoAnswer(turn.kind);
        return this.#terminal.answer;
    }

    /** Octets up to the length that LEN says, or up to a silence. */
    async block(wait) {
        const octets = [];
        for (let left = wait; octets.length < 3 || octets.length < 4 + octets[2]; left = CWT) {
            const more = await this.within(left + LATE);
            if (!more) break;
            octets.push(...more);
        }
        return Uint8Array.from(octets.slice(0, octets.length > 2 ? 4 + octets[2] : 3));
    }

    async within(wait) {
        this.reading ??= this.line.read();
        const octets = await Promise.race([this.reading, new Promise((done) => setTimeout(done, wait, null))]);
        if (octets) this.reading = null;
        return octets;
    }

    close() {
        this.#terminal.close();
    }
}

/** An exchange in which one octet of one block has a fault, at each place and in the block of each end. */
async function atEachPlace(name) {
    let places = 0, wrong = 0;
    const command = Uint8Array.from([0, 0xA4, 1, 2, 0x40, 9, 7, 8]);
    for (const [side, count] of [[0, 4 + command.length], [1, 4 + replyTo(command).length]]) {
        for (let at = 0; at < count; at += 1) {
            let left = 1;
            const line = joined(draws(`${name} ${side} ${at}`), () => {}, scard.AsyncSession);
            const draw = draws(at);
            places += 1;
            wrong += await oneFault(line, command, side, (octets) => left-- > 0 && FAULTS[name](draw, octets, at));
        }
    }
    return { places, wrong };
}

/** Counts 1 unless one exchange with a fault and one without bring the right answers, or none. */
async function oneFault(line, command, side, fault) {
    line.ends[side].fault = fault;
    for (const one of [command, Uint8Array.from([...command, 1])]) {
        const answer = await exchanged(line, one);
        if (typeof answer !== 'number' && !same(answer, replyTo(one))) return 1;
    }
    line.session.close();
    return isInOrder(line) ? 0 : 1;
}

test('a good line', async () => {
    const counts = await new VirtualTime().run(() => tried('oneChanged', EXCHANGES, { rate: 0 }));
    assert.deepEqual(counts, { right: EXCHANGES, wrong: 0, none: 0, foreign: 0, faults: 0 });
});

for (const name of Object.keys(FAULTS)) {
    test(`the fault ${name}`, async () => {
        const counts = await new VirtualTime().run(() => tried(name, EXCHANGES));
        if (process.env.SCARD_EXCHANGES) console.log(`${name}: ${JSON.stringify(counts)}`);
        assert.ok(counts.right > EXCHANGES * 3 / 4 && counts.faults > EXCHANGES / 20, JSON.stringify(counts));
        assert.deepEqual([counts.wrong, counts.foreign], [0, 0]);
    });
}

for (const name of OF_ONE_OCTET) {
    test(`the fault ${name} at each octet`, async () => {
        const { places, wrong } = await new VirtualTime().run(() => atEachPlace(name));
        assert.ok(places > 20);
        assert.equal(wrong, 0);
    });
}

test('a reader by LEN is caught', async () => {
    const counts = await new VirtualTime().run(() => tried('oneChanged', 5000, { Session: ByLen, untilWrong: true }));
    assert.equal(counts.wrong, 1, JSON.stringify(counts));
});
