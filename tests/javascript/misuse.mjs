// Tests misuse: closed objects, wrong types, numbers out of range, huge sizes, and memory that stays constant. Each has
// to be an error with a name, and the library has to go on.
import assert from 'node:assert/strict';
import { setFlagsFromString } from 'node:v8';
import { runInNewContext } from 'node:vm';
import * as scard from '../../javascript/index.mjs';
import { measure } from '../../javascript/library.mjs';
import { draws, octetsBy, test, thrown } from './harness.mjs';

const T1 = { ifsc: 32, bwi: 4, cwi: 5 };
const MANY = Number(process.env.SCARD_MISUSES ?? 4000);
const TERMINALS = 10000;
const NONE = new Uint8Array();
const JUDGE = new scard.Judge(32);
const NAMED = [scard.ScardError, TypeError, RangeError];

/** An object of each class that holds memory, and the calls on it. */
const OBJECTS = {
    Terminal: [() => new scard.Terminal(T1),
        { transmit: [NONE], received: [NONE], quiet: [], askIfs: [9], answer: null }],
    Card: [() => new scard.Card(T1), { received: [NONE], reply: [NONE], moreTime: [1], askIfs: [9], command: null }],
    SessionSteps: [() => new scard.SessionSteps({ t1: T1 }),
        { exchange: [NONE, 0], askIfs: [9, 0], resync: [0], step: [0, NONE, 0], bwt: null }],
    CardSessionSteps: [() => new scard.CardSessionSteps({ t1: T1 }),
        { serve: [0], reply: [NONE, 0], moreTime: [1, 0], askIfs: [9, 0], step: [0, NONE, 0], granted: null }],
    Framer: [() => new scard.Framer(), { begin: [], feed: [NONE], wait: [{ first: 1, inside: 1, after: 1 }],
        isWhole: null, count: null, burst: null }],
    AtrReader: [() => new scard.AtrReader(), { feed: [NONE], finish: [], value: null }],
    BlockReader: [() => new scard.BlockReader(), { feed: [NONE], finish: [], value: null }],
    Receiver: [() => new scard.Receiver({ most: 100 }), { feed: [NONE], finish: [], message: null }],
    TlvReader: [() => new scard.TlvReader(), { feed: [NONE], finish: [] }],
    Judge: [() => new scard.Judge(32), { block: [0, NONE], exercise: [0, NONE], quiet: [], finish: [] }],
    Times: [() => new scard.Times(T1, 3571200), { block: [JUDGE, 0, NONE] }],
};
/** What a call may get in the place of any argument. */
const ODD = [undefined, null, -1, 0.5, NaN, Infinity, 2 ** 32, 2 ** 53, 2n ** 64n, -1n, '', 'AA', {}, [], [1], true,
    Symbol('a'), () => 1, new Uint8Array(70000), new ArrayBuffer(3), 255, 256, 17, NONE, new Date(), /a/];

const asked = (object, name, words) => (words ? object[name](...words) : object[name]);

for (const [name, [made, calls]] of Object.entries(OBJECTS)) {
    test(`a closed ${name}`, async () => {
        const object = made();
        object.close();
        object.close();
        for (const [call, words] of Object.entries(calls)) await thrown(scard.Closed, () => asked(object, call, words));
    });
}

test('wrong arguments at random', () => {
    const draw = draws('misuse');
    const begun = measure();
    let refused = 0;
    for (let left = MANY; left > 0; left -= 1) {
        const [made, calls] = Object.values(OBJECTS)[draw(Object.keys(OBJECTS).length)];
        const object = made();
        const [call, words] = Object.entries(calls)[draw(Object.keys(calls).length)];
        if (draw(20) === 0) object.close();
        try {
            asked(object, call, words?.map((it) => (draw(2) ? ODD[draw(ODD.length)] : it)));
        } catch (error) {
            assert.ok(NAMED.some((Kind) => error instanceof Kind), error.stack);
            refused += 1;
        }
        object.close();
    }
    assert.ok(refused > MANY / 10);
    assert.deepEqual([measure().all - measure().free, NONE.length], [begun.all - begun.free, 0]);
});

test('wrong arguments of values at random', () => {
    const draw = draws('values');
    const calls = [scard.Atr.decode, scard.Atr.check, scard.Block.decode, scard.Block.check, scard.Block.i,
        scard.Block.r, scard.Block.request, scard.Block.response, scard.cut, scard.Command.of, scard.Command.decode,
        scard.Response.decode, scard.Tlv.decode, scard.Tlv.check, scard.Dol.decode, scard.lrc, scard.isText,
        scard.fromHex, scard.toHex, scard.note, scard.reasons, scard.ruleText,
        (...words) => new scard.Terminal(...words).close(), (...words) => new scard.SessionSteps(...words).close(),
        (...words) => new scard.Judge(...words).close(), (...words) => new scard.BlockReader(...words).close(),
        (most) => new scard.Receiver({ most }).close(),
        (data, sw1) => new scard.Response({ data, sw1, sw2: 0 }).encode(),
        (shape, le) => new scard.Command({ cla: 0, ins: 0, p1: 0, p2: 0, shape, le }).encode(),
        (path) => scard.Tlv.decode(Uint8Array.of(0x84, 0)).find(path)];
    for (let left = MANY; left > 0; left -= 1) {
        const words = Array.from({ length: draw(4) }, () => ODD[draw(ODD.length)]);
        try {
            calls[draw(calls.length)](...words);
        } catch (error) {
            assert.ok(NAMED.some((Kind) => error instanceof Kind), error.stack);
        }
    }
    assert.equal(scard.lrc(Uint8Array.of(1, 2)), 3);
});

test('random octets to every decoder', () => {
    const draw = draws('octets');
    for (let left = MANY; left > 0; left -= 1) {
        const octets = octetsBy(draw, draw(40));
        for (const Kind of [scard.Atr, scard.Block, scard.Command, scard.Response, scard.Tlv, scard.Dol]) {
            try {
                Kind.decode(octets);
            } catch (error) {
                assert.ok(error instanceof scard.Refused || error instanceof scard.Short, error.stack);
                assert.ok(error.place <= octets.length);
            }
        }
    }
});

test('10,000 terminals opened and closed in constant memory', () => {
    new scard.Terminal(T1).close();
    const begun = measure();
    for (let left = TERMINALS; left > 0; left -= 1) new scard.Terminal(T1).close();
    assert.deepEqual(measure(), begun);
});

test('the memory of objects that nothing refers to is freed', async () => {
    setFlagsFromString('--expose-gc');
    const collect = runInNewContext('gc');
    const used = () => measure().all - measure().free;
    collect();
    await new Promise((done) => setTimeout(done, 10));
    const begun = used();
    for (let left = 50; left > 0; left -= 1) new scard.Terminal(T1);
    assert.ok(used() > begun);
    for (let left = 100; left > 0 && used() > begun; left -= 1) {
        collect();
        await new Promise((done) => setTimeout(done, 10));
    }
    assert.ok(used() <= begun);
});

test('objects of many sizes, closed in any order, leave no memory behind', () => {
    const draw = draws('sizes');
    const begun = measure();
    const open = [];
    for (let left = 2000; left > 0; left -= 1) {
        if (draw(2) || !open.length) open.push(new scard.Receiver({ most: 1 + draw(5000) }));
        else open.splice(draw(open.length), 1)[0].close();
    }
    for (const one of open) one.close();
    assert.equal(measure().all - measure().free, begun.all - begun.free);
});

test('a refused constructor leaves no memory', async () => {
    const begun = measure();
    for (const made of [() => new scard.Terminal({ ifsc: 0, bwi: 0, cwi: 0 }), () => new scard.Judge(255),
        () => new scard.Times(T1, 0), () => new scard.BlockReader(0), () => new scard.Receiver({ number: 2 }), () => new scard.TlvReader(2 ** 30),
        () => new scard.SessionSteps({ t1: T1, hertz: 999 }), () => new scard.SessionSteps({ t1: T1, silence: 1e9 }),
        () => new scard.CardSessionSteps({ t1: T1, di: 65 }), () => new scard.AsyncSession({}, { t1: T1, fi: 0 })]) {
        await thrown(scard.InvalidArgument, made);
    }
    for (const made of [() => new scard.Terminal(T1, { commandRoom: 65545 }), () => new scard.Judge(256),
        () => new scard.SessionSteps({ t1: T1, fi: 65536 }), () => new scard.SessionSteps({ t1: T1, hertz: 2 ** 32 }),
        () => new scard.Terminal({ ...T1, bwi: -1 }), () => new scard.SessionSteps({ t1: T1, silence: 2n ** 64n })]) {
        await thrown(RangeError, made);
    }
    assert.equal(measure().all - measure().free, begun.all - begun.free);
});

test('what is closed is overwritten', async () => {
    const { viewOf } = await import('../../javascript/library.mjs');
    const terminal = new scard.Terminal(T1);
    const secret = new TextEncoder().encode('a secret of many letters');
    terminal.transmit(secret);
    const all = () => Buffer.from(viewOf(0, measure().all)).includes(secret);
    assert.ok(all());
    terminal.close();
    assert.ok(!all());
    scard.Response.decode(Uint8Array.from([...secret, 0x90, 0]));
    assert.ok(!all());
});

test('octets that change after a call change nothing', () => {
    const octets = scard.fromHex('00000500A4040000A5');
    const block = scard.Block.decode(octets);
    const forest = scard.Tlv.decode(octets.subarray(0, 2));
    octets.fill(0xFF);
    assert.deepEqual([scard.toHex(block.inf), scard.toHex(forest.octets)], ['00A4040000', '0000']);
    forest.octets.fill(1);
    assert.equal(scard.toHex(forest.octets), '0000');
});

test('a buffer that was handed over', async () => {
    const octets = new Uint8Array(9);
    structuredClone(octets.buffer, { transfer: [octets.buffer] });
    await thrown(TypeError, () => scard.Block.decode(octets));
});
