// Tests sessions over lines: mocked ones with `write` and `read`, a mocked port of Web Serial and a mocked CCID reader,
// each with faults, and lines that fail. tests/javascript/faults.mjs has each fault of a line.
import assert from 'node:assert/strict';
import * as scard from '../../javascript/index.mjs';
import { waiting } from '../../javascript/clock.mjs';
import { MockPort, MockReader } from './mocks.mjs';
import { draws, octetsBy, same, test, thrown, VirtualTime } from './harness.mjs';
import { FAULTS, isInOrder, joined, OCTET, pair, replyTo, T1, tried } from './wire.mjs';

const { fromHex, Kind, TurnKind } = scard;
const EXCHANGES = Number(process.env.SCARD_EXCHANGES ?? 60);
const PACKETS = { t1: T1, silence: Infinity };
const COMMAND = fromHex('00A4040000');
const RIGHT = scard.Block.i(0, fromHex('9000')).encode();
const NONE = new Uint8Array();

/** Runs a test in virtual time. */
const timed = (name, work) => test(name, () => new VirtualTime().run(work));

/** A line that answers each block by what is next in a list: octets, null for its end, an error, or nothing. */
function answering(answers) {
    const [came, sent] = [[], []];
    let wakes = null;
    return {
        sent,
        async write(octets) {
            sent.push(octets);
            const next = answers.shift();
            if (next !== undefined) came.push(next);
            wakes?.();
        },
        async read() {
            while (!came.length) await new Promise((done) => (wakes = done));
            const next = came.shift();
            if (next instanceof Error) throw next;
            return next;
        },
    };
}

timed('exchanges of all sizes, and requests of both ends', async () => {
    const { session, got } = joined(draws(1), () => {}, scard.AsyncSession);
    for (const count of [5, 31, 32, 33, 300]) {
        const command = octetsBy(draws(count), count).fill(0, 0, 6);
        assert.deepEqual(await session.exchange(command), replyTo(command));
    }
    await session.askIfs(254);
    assert.deepEqual(await session.exchange(fromHex('0000')), fromHex('6700'));
    assert.equal((await thrown(scard.CallRefused, () => session.askIfs(0))).kind, TurnKind.REFUSED_RESERVED);
    assert.equal(got.length, 5);
    await session.resync();
    session.close();
    await thrown(scard.Closed, () => session.exchange(COMMAND));
});

timed('requests of the host, and its end', async () => {
    const ends = pair(draws(2), () => {});
    const granted = [];
    const said = [new scard.MoreTime(2), new scard.AskIfs(64), fromHex('9000')];
    const host = (command, count) => {
        granted.push(count);
        return command[0] === 0xFF ? null : Promise.resolve(said[count]);
    };
    const card = new scard.AsyncCardSession(ends[1], { t1: T1 });
    const ended = card.serve(host);
    const terminal = new scard.AsyncSession(ends[0], { t1: T1 });
    await thrown(scard.InUse, () => card.serve(host));
    assert.throws(() => card.close(), scard.InUse);
    for (const _ of [1, 2]) assert.deepEqual(await terminal.exchange(COMMAND), fromHex('9000'));
    assert.deepEqual(granted, [0, 1, 2, 0, 1, 2]);
    const last = thrown(scard.NoAnswer, () => terminal.exchange(fromHex('FF00000000')));
    await ended;
    card.close();
    await last;
});

timed('what a host may not say', async () => {
    for (const [words, Kinds] of [[new Uint8Array(65539), scard.CallRefused], [new scard.AskIfs(0), scard.CallRefused],
        [new scard.MoreTime(256), RangeError], ['9000', TypeError], [undefined, TypeError]]) {
        const line = { async write() {}, read: async () => scard.Block.i(0, COMMAND).encode() };
        await thrown(Kinds, () => new scard.AsyncCardSession(line, PACKETS).serve(() => words));
    }
    const line = { async write() {}, read: async () => scard.Block.i(0, COMMAND).encode() };
    await thrown(SyntaxError, () => new scard.AsyncCardSession(line, PACKETS).serve(() => {
        throw new SyntaxError('no such file');
    }));
});

timed('how an exchange ends', async () => {
    const ends = async (answers, kind, setup = PACKETS) => {
        const session = new scard.AsyncSession(answering(answers), setup);
        const error = await thrown(scard.NoAnswer, () => session.exchange(COMMAND));
        assert.equal(scard.nameOf(TurnKind, error.kind), kind);
        return { session, error };
    };
    await ends([], 'DEAD');
    await ends([scard.Block.i(0, Uint8Array.of(1)).encode()], 'SESSION_NO_STATUS');
    await ends(Array(99).fill(Uint8Array.of(1)), 'SESSION_USED_UP', { ...PACKETS, mostBlocks: 2 });
    for (const failure of [null, NONE, new Error('gone'), 'no octets']) {
        const { session, error } = await ends([failure], 'SESSION_FAILED');
        assert.ok(error.cause instanceof Error);
        assert.equal((await thrown(scard.CallRefused, () => session.exchange(COMMAND))).kind, TurnKind.REFUSED_BUSY);
    }
    const resynched = scard.Block.response(scard.About.RESYNCH).encode();
    const { session } = await ends([null, resynched, RIGHT], 'SESSION_FAILED');
    await session.resync();
    assert.deepEqual(await session.exchange(COMMAND), fromHex('9000'));
});

timed('a write that fails', async () => {
    const line = { write: () => Promise.reject(new Error('gone')), read: () => new Promise(() => {}) };
    const error = await thrown(scard.NoAnswer, () => new scard.AsyncSession(line, PACKETS).exchange(COMMAND));
    assert.deepEqual([error.kind, error.cause.message], [TurnKind.SESSION_FAILED, 'gone']);
});

timed('a block of which an octet had a wrong parity is asked for again, even if its check octet is right', async () => {
    const line = answering([scard.Garbled.from(RIGHT), RIGHT]);
    assert.deepEqual(await new scard.AsyncSession(line, PACKETS).exchange(COMMAND), fromHex('9000'));
    assert.deepEqual(line.sent.map((it) => scard.Block.decode(it).kind), [Kind.I, Kind.R]);
});

timed('a line that returns what is sent on it', async () => {
    for (const echo of [true, false]) {
        const { ends, session } = joined(draws(5), () => {}, scard.AsyncSession);
        session.close();
        const line = {
            late: ends[0].late,
            read: () => ends[0].read(),
            async write(octets) {
                const begun = performance.now();
                const echoes = [...octets].map((value, at) => ({ value, at: begun + OCTET * (at + 1) }));
                ends[0].came.push(...echoes);
                ends[0].wakes();
                await ends[0].write(octets);
            },
        };
        const terminal = new scard.AsyncSession(line, { t1: T1, echo });
        for (const [at, command] of [fromHex('00A4040000AA'), fromHex('00A4040000BB')].entries()) {
            const answer = await terminal.exchange(command).catch((error) => error.kind);
            const refused = [TurnKind.SESSION_ECHO, TurnKind.REFUSED_BUSY][at];
            assert.deepEqual(answer, echo ? replyTo(command) : refused);
        }
    }
});

timed('an exchange ends early if its line is closed', async () => {
    const { ends } = joined(draws(6), () => {}, scard.AsyncSession);
    const line = new scard.WebSerialLine(new MockPort(ends[0]));
    const session = new scard.AsyncSession(line, { t1: new scard.T1({ ...T1, bwi: 9 }) });
    const exchange = session.exchange(COMMAND).catch((error) => error);
    await waiting(30000).over;
    ends[0].came.length = 0;
    await line.close();
    assert.equal((await exchange).kind, TurnKind.SESSION_FAILED);
    session.close();
});

timed('a line that waits by itself', async () => {
    const answers = [[null, scard.Garbled.from(RIGHT)], [], [null, null, RIGHT]];
    const [sent, waits] = [[], []];
    const line = {
        write: async (octets) => sent.push(octets),
        async receive(microseconds, multiple) {
            waits.push(multiple);
            const came = answers[sent.length - 1] ?? [];
            const octets = came.length ? came.shift() : NONE;
            if (octets === NONE) await waiting(microseconds).over;
            return octets;
        },
    };
    const session = new scard.AsyncSession(line, PACKETS);
    assert.deepEqual(await session.exchange(COMMAND), fromHex('9000'));
    assert.deepEqual(sent.map((it) => scard.Block.decode(it).kind), [Kind.I, Kind.R, Kind.R]);
    assert.ok(waits.every((it) => it === 0 || it === 1), `${waits}`);
});

timed('a second call', async () => {
    const session = new scard.AsyncSession(answering([RIGHT]), PACKETS);
    const first = session.exchange(COMMAND);
    for (const call of [() => session.exchange(COMMAND), () => session.resync(), () => session.askIfs(9)]) {
        await thrown(scard.InUse, call);
    }
    assert.throws(() => session.close(), scard.InUse);
    assert.deepEqual(await first, fromHex('9000'));
    session.close();
});

timed('a read that no octet ended within its wait goes on, also in the next session', async () => {
    let came = null;
    const line = { count: 0, async write() {}, read: () => new Promise((done) => (line.count += 1, came = done)) };
    const first = new scard.AsyncSession(line, PACKETS);
    assert.equal((await thrown(scard.NoAnswer, () => first.exchange(COMMAND))).kind, TurnKind.DEAD);
    first.close();
    const next = new scard.AsyncSession(line, PACKETS).exchange(COMMAND);
    setTimeout(() => came(RIGHT), 50);
    assert.deepEqual(await next, fromHex('9000'));
    assert.equal(line.count, 1);
});

timed('no wait ends early', async () => {
    for (const microseconds of [0, 1, 999, 1000, 1001, 2500.5, 2 ** 31 * 1000, 2 ** 33 * 1000]) {
        const begun = performance.now();
        await waiting(microseconds).over;
        assert.ok(performance.now() - begun >= microseconds / 1000, `${microseconds}`);
    }
});

test('no wait ends early, by the clock of the machine', async () => {
    for (const microseconds of [1, 900, 1000, 1100, 3700]) {
        const begun = performance.now();
        await waiting(microseconds).over;
        assert.ok(performance.now() - begun >= microseconds / 1000, `${microseconds}`);
    }
});

test('octets that came while the program did not run are no silence', async () => {
    const time = new VirtualTime();
    await time.run(async () => {
        // the octets are there after 300 ms, and the program doesn't run from then until 400 ms: both timers are late
        const line = {
            sent: 0,
            async write() {
                line.sent += 1;
                setTimeout(() => (time.now = 400), 5);
            },
            read: () => new Promise((done) => setTimeout(done, 300, RIGHT)),
        };
        const t1 = new scard.T1({ ifsc: 32, bwi: 1, cwi: 5 });
        const session = new scard.AsyncSession(line, { t1, silence: Infinity });
        assert.deepEqual(await session.exchange(COMMAND), fromHex('9000'));
        assert.equal(line.sent, 1);
    });
});

for (const name of Object.keys(FAULTS)) {
    timed(`Web Serial with the fault ${name}`, async () => {
        const lineOf = (end) => new scard.WebSerialLine(new MockPort(end));
        const counts = await tried(name, EXCHANGES, { lineOf });
        assert.ok(counts.right > EXCHANGES * 0.7 && counts.faults > EXCHANGES / 20, JSON.stringify(counts));
        assert.deepEqual([counts.wrong, counts.foreign], [0, 0]);
    });
}

timed('a parity error of Web Serial is an event, and the port goes on', async () => {
    const { ends } = joined(draws(3), () => {}, scard.AsyncSession);
    for (const name of ['ParityError', 'FramingError', 'BreakError', 'BufferOverrunError']) {
        const port = new MockPort(ends[0]);
        port.damage = name;
        const line = await scard.WebSerialLine.open(port, { baudRate: 9600 });
        const { bufferSize, ...options } = port.options;
        assert.deepEqual(options, { baudRate: 9600, dataBits: 8, parity: 'even', stopBits: 2 });
        assert.ok(bufferSize > scard.BLOCK_ROOM);
        ends[0].came = [1, 2, 3].map((value) => ({ value, at: 0, isDamaged: value === 2 }));
        const read = [];
        while (read.length < 3) {
            const octets = await line.read();
            read.push(...Array.from(octets, (it) => (octets instanceof scard.Garbled ? 'damaged' : it)));
        }
        assert.deepEqual(read, [1, 'damaged', 3]);
        await line.close();
        assert.equal(await line.read(), null);
        await thrown(Error, () => line.write(RIGHT));
    }
});

timed('a port of Web Serial that is gone', async () => {
    const { ends } = joined(draws(4), () => {}, scard.AsyncSession);
    const port = new MockPort(ends[0]);
    const session = new scard.AsyncSession(new scard.WebSerialLine(port), { t1: T1 });
    const exchange = session.exchange(COMMAND).catch((error) => error);
    await waiting(20000).over;
    port.disconnect();
    const error = await exchange;
    assert.deepEqual([error.kind, error.cause.name], [TurnKind.SESSION_FAILED, 'NetworkError']);
});

/** Exchanges by a mocked reader with faults. */
async function byReader(name, exchanges) {
    const draw = draws(name);
    const counts = { right: 0, wrong: 0, none: 0 };
    const device = new MockReader(draw, name, replyTo);
    const sent = [];
    for (let left = exchanges; left > 0;) {
        const line = await scard.CcidLine.open(device);
        const atr = scard.Atr.decode(await line.powerOn());
        await line.setT1(atr);
        const session = new scard.AsyncSession(line, { t1: atr.t1(), silence: Infinity, refusesEmpty: true });
        for (let goesOn = true; goesOn && left > 0; left -= 1) {
            const command = Uint8Array.from([0, 0xA4, ...octetsBy(draw, 4 + draw(70))]);
            sent.push(command);
            const answer = await session.exchange(command).catch((error) => error);
            const kind = answer instanceof Error ? 'none' : same(answer, replyTo(command)) ? 'right' : 'wrong';
            counts[kind] += 1;
            goesOn = kind !== 'none' || answer.kind === TurnKind.GIVEN_UP;
        }
        session.close();
        await line.close();
    }
    return { ...counts, faults: device.faults, isInOrder: isInOrder({ got: device.got, sent }) };
}

for (const name of ['none', 'changed', 'changedBefore', 'lost', 'lostBefore', 'damaged', 'overrun', 'cut', 'lengthened',
    'moreTime', 'moreTimeOfCard']) {
    timed(`a CCID reader with the fault ${name}`, async () => {
        const counts = await byReader(name, EXCHANGES);
        assert.ok(counts.right > EXCHANGES * 0.7, JSON.stringify(counts));
        assert.ok(name === 'none' || counts.faults > EXCHANGES / 20, JSON.stringify(counts));
        assert.equal(counts.wrong, 0);
        assert.ok(counts.isInOrder);
    });
}

for (const name of ['stall', 'otherSequence', 'otherSlot', 'otherType', 'shortMessage', 'otherLength', 'refused',
    'unplugged']) {
    timed(`a CCID reader that fails by ${name}`, async () => {
        const device = new MockReader(draws(1), 'none', replyTo);
        const line = await scard.CcidLine.open(device);
        const { t1 } = { t1: scard.Atr.decode(await line.powerOn()).t1() };
        const session = new scard.AsyncSession(line, { t1, silence: Infinity });
        assert.deepEqual(await session.exchange(fromHex('00A4040000AA')), replyTo(fromHex('00A4040000AA')));
        device.fails = name;
        const error = await thrown(scard.NoAnswer, () => session.exchange(COMMAND));
        assert.equal(error.kind, TurnKind.SESSION_FAILED);
        assert.ok(error.cause.message);
    });
}

test('a device that is no CCID reader', async () => {
    const device = new MockReader(draws(1), 'none', replyTo);
    device.configuration.interfaces[0].alternates[0].interfaceClass = 3;
    await thrown(Error, () => scard.CcidLine.open(device));
});
