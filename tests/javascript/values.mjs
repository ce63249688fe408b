// Tests the values of the package: what decodes, what encodes, what is refused, and what each refusal says.
import assert from 'node:assert/strict';
import { readFileSync } from 'node:fs';
import * as scard from '../../javascript/index.mjs';
import { api, call, within } from '../../javascript/library.mjs';
import { draws, octetsBy, test, thrown } from './harness.mjs';

const { fromHex, toHex } = scard;

test('the module has each call of api.json that needs no memory, and its structs', () => {
    const module = new WebAssembly.Module(readFileSync(new URL('../../dist/libscard.wasm', import.meta.url)));
    const calls = Object.entries(api.calls).filter(([, it]) => !it.memory).map(([name]) => name);
    const exports = WebAssembly.Module.exports(module).map((it) => it.name);
    assert.deepEqual(exports.sort(), [...calls, 'memory', '__heap_base'].sort());
    assert.deepEqual(WebAssembly.Module.imports(module), []);
    for (const [name, number] of Object.entries(api.enums.scard_struct)) {
        const struct = api.structs[`scard_${name.slice('SCARD_STRUCT_'.length).toLowerCase()}`];
        assert.equal(within((take) => call('scard_struct_size', take, number)), struct.size['64'], name);
    }
});

test('which rules a block exercises, and when it is late', async () => {
    const { End, OffTime, Owed, Rule } = scard;
    const [request, response] = [fromHex('00C000C0'), fromHex('00E000E0')];
    const judge = new scard.Judge(32);
    const times = new scard.Times({ ifsc: 32, bwi: 4, cwi: 5 }, 3571200);
    const first = judge.exercise(End.TERMINAL, request);
    assert.deepEqual([first.broken, first.due], [null, Owed.NEW_MESSAGE]);
    assert.deepEqual(first.kept, [Rule.NODE_ADDRESS, Rule.CONTROL_OCTET, Rule.LENGTH, Rule.RESERVED_SIZE,
        Rule.FIELD_SIZE, Rule.FOREIGN_REQUEST, Rule.SEQUENCE_NUMBER, Rule.BLOCK_DUE, Rule.UNASKED, Rule.NO_CHAIN,
        Rule.CHECK_OCTET]);
    assert.deepEqual(judge.exercise(End.CARD, response), { kept: [], broken: Rule.TURN, due: null });
    assert.equal(times.block(judge, End.TERMINAL, request, { first: 0 }).off, OffTime.NO);
    judge.block(End.TERMINAL, request);
    assert.deepEqual(times.block(judge, End.CARD, response, { first: 1614585 }),
        { elapsed: 1614585, limit: 1614584, off: OffTime.LATE, over: true });
    judge.block(End.CARD, response);
    await thrown(scard.InvalidArgument, () => times.block(judge, End.TERMINAL, request, { first: 1614584 }));
    judge.close();
    times.close();
});

test('octets in each kind of buffer', () => {
    const octets = fromHex('00000500A4040000');
    const wide = new Uint8Array([9, ...octets, 9]);
    for (const given of [octets, octets.buffer, new DataView(octets.buffer), new Uint16Array(octets.buffer),
        wide.subarray(1, 9), Buffer.from(octets), new SharedArrayBuffer(8)]) {
        assert.equal(scard.lrc(given), given instanceof SharedArrayBuffer ? 0 : 0xA5);
    }
    assert.equal(toHex(fromHex('a0Ff')), 'A0FF');
    assert.deepEqual(fromHex(''), new Uint8Array());
    assert.deepEqual([scard.isText(new TextEncoder().encode('1PAY')), scard.isText(Uint8Array.of(7))], [true, false]);
});

test('a refusal has its place, reason, codec, and what was expected', async () => {
    const refused = await thrown(scard.Refused, () => scard.Block.decode(fromHex('00000500A4040000A4')));
    assert.deepEqual([refused.place, refused.reason, refused.codec], [8, 'BadLrc', scard.Codec.BLOCK]);
    assert.equal(refused.message, 'refused at 8: BadLrc');
    assert.equal(refused.sentence, 'LRC is wrong.');
    assert.match(await refused.expected(), /exclusive-or of all octets of the block must be 00/);
    const short = await thrown(scard.Short, () => scard.Command.decode(fromHex('00A4')));
    assert.deepEqual([short.place, short.codec, short.name, short.least], [2, scard.Codec.COMMAND, 'Short', 2]);
    assert.match(await short.expected(), /at least 2 more must come/);
    const over = await thrown(scard.Refused, () => scard.Block.decode(fromHex('00000500A4040000A5'), 4));
    assert.equal(over.reason, 'OverIfs');
    assert.match(await over.expected(), /octet 2 is 05/);
    const digit = await thrown(scard.Refused, () => fromHex('0G'));
    assert.deepEqual([digit.place, digit.reason, await digit.expected()], [1, 'Digit', null]);
    assert.equal(digit.sentence, "A character isn't a hexadecimal digit.");
    for (const codec of Object.values(scard.Codec).filter(Boolean)) {
        for (const reason of scard.reasons(codec)) {
            assert.match(new scard.Refused(0, reason, codec).sentence, /^[A-Z].*\.$/);
        }
    }
    const piece = new scard.AtrReader();
    const said = await thrown(scard.Refused, () => piece.feed(fromHex('3C')));
    assert.deepEqual([said.reason, await said.expected()], ['BadTs', null]);
    piece.close();
    assert.ok(refused instanceof scard.ScardError && refused instanceof Error);
});

test('answers to reset', async () => {
    const atr = scard.Atr.decode(fromHex('3B858131FE458073800140BCFFFF'));
    assert.deepEqual([atr.protocols, toHex(atr.historical)], [[1, 1], '8073800140']);
    assert.deepEqual([atr.tck, atr.isInverse], [0xBC, false]);
    assert.deepEqual({ ...atr.t1() }, { ifsc: 254, bwi: 4, cwi: 5 });
    assert.deepEqual([atr.t1().cwt, atr.t1().bwt(), atr.t1().bwt(512, 8)], [43, 5718012, 45716992]);
    assert.deepEqual(atr.indicated[1].interface, { ta: 254, tb: 69, tc: null });
    assert.equal(toHex(new scard.Atr({ indicated: [{ protocol: 1, interface: {} }] }).encode()), '3B800181');
    assert.deepEqual(scard.Atr.decode(fromHex('3F00')).rates(), { fi: 372, di: 1 });
    assert.equal((await thrown(scard.NoT1, () => scard.Atr.decode(fromHex('3B00')).t1())).fault, scard.T1Fault.NO_T1);
    await thrown(scard.InvalidArgument, () => new scard.Atr({ historical: new Uint8Array(16) }).encode());
    await thrown(scard.InvalidArgument, () => new scard.Atr({ indicated: [{ protocol: 16, interface: {} }] }).t1());
    await thrown(RangeError, () => new scard.Atr({ first: { ta: 256 } }).encode());
    await thrown(scard.InvalidArgument, () => new scard.T1({ ifsc: 0, bwi: 4, cwi: 5 }).cwt);
    assert.throws(() => (atr.tck = 1), TypeError);
});

test('blocks and chains', async () => {
    const kinds = [scard.Block.i(1, fromHex('AA'), { more: true }), scard.Block.r(0, scard.Fault.OTHER),
        scard.Block.request(scard.About.IFS, fromHex('20')), scard.Block.response(scard.About.WTX, fromHex('00'))];
    assert.deepEqual(kinds.map((it) => toHex(it.encode())), ['006001AACB', '00820082', '00C10120E0', '00E30100E2']);
    assert.deepEqual(kinds.map((it) => it.kind), Object.values(scard.Kind));
    assert.deepEqual(kinds.map(({ number, more, fault, about }) => [number, more, fault, about]),
        [[1, true, null, null], [0, false, 2, null], [null, false, null, 1], [null, false, null, 3]]);
    assert.equal(scard.Block.i(0, new Uint8Array(), { nad: 0x21 }).nad, 0x21);
    await thrown(scard.InvalidArgument, () => new scard.Block({ pcb: 0xFF }).kind);
    await thrown(scard.InvalidArgument, () => new scard.Block({ pcb: 0xFF }).encode());
    await thrown(scard.InvalidArgument, () => scard.Block.i(2));
    await thrown(scard.InvalidArgument, () => scard.Block.i(0, new Uint8Array(255)));
    await thrown(scard.InvalidArgument, () => scard.cut(new Uint8Array(3), 0));
    await thrown(scard.InvalidArgument, () => scard.cut(new Uint8Array(131073), 254));
    const message = octetsBy(draws(1), 1000);
    for (const ifs of [1, 32, 254]) {
        const receiver = new scard.Receiver({ ifs });
        for (const number of [0, 1]) {
            receiver.restart(number);
            for (const block of scard.cut(message, ifs, number)) receiver.feed(block.encode());
            assert.deepEqual(receiver.message, message);
        }
        await thrown(scard.InvalidArgument, () => receiver.restart(2));
        receiver.close();
        await thrown(scard.Closed, () => receiver.restart());
    }
});

test('commands and responses', async () => {
    const command = scard.Command.decode(fromHex('00A4040002A00000'));
    assert.deepEqual([command.shape, command.le, toHex(command.data)], [scard.Shape.CASE_4_SHORT, 256, 'A000']);
    for (const [options, shape] of [[{}, 'CASE_1'], [{ le: 256 }, 'CASE_2_SHORT'], [{ le: 257 }, 'CASE_2_LONG'],
        [{ data: new Uint8Array(255) }, 'CASE_3_SHORT'], [{ data: new Uint8Array(256) }, 'CASE_3_LONG'],
        [{ data: new Uint8Array(1), le: 1, extended: true }, 'CASE_4_LONG']]) {
        const made = scard.Command.of(0, 0xB0, 1, 2, options);
        assert.equal(scard.nameOf(scard.Shape, made.shape), shape);
        assert.deepEqual({ ...scard.Command.decode(made.encode()) }, { ...made });
    }
    await thrown(scard.InvalidArgument, () => scard.Command.of(0, 0xB0, 0, 0, { le: 65537 }));
    await thrown(RangeError, () => scard.Command.of(256, 0, 0, 0));
    const response = scard.Response.decode(fromHex('01026A82'));
    assert.deepEqual([response.sw, response.statusClass, response.note, toHex(response.data)],
        [0x6A82, scard.StatusClass.CHECKING, 'file or application not found', '0102']);
    assert.equal(command.note, 'SELECT');
});

test('data objects', async () => {
    const forest = scard.Tlv.decode(fromHex('006F0AA5059F650201028401AA50005F2001AA'));
    assert.deepEqual([...forest].map(String), ['6F', '50', '5F20']);
    const found = forest.find('6F/A5/9F65');
    assert.deepEqual([found.start, found.place, found.end, found.depth, found.lengthOctets], [5, 8, 10, 3, 1]);
    assert.deepEqual([toHex(found.value), toHex(found.octets)], ['0102', '9F65020102']);
    assert.equal(forest.find([fromHex('6F'), fromHex('A5'), fromHex('84')]), null);
    assert.equal(forest.find([fromHex('6F'), fromHex('84')]).start, 10);
    assert.equal(toHex(forest.find('6F').find('84').value), 'AA');
    assert.deepEqual([...forest.find('6F')].map(String), ['A5', '84']);
    assert.deepEqual(forest.find('6F/A5').find('84'), null);
    assert.deepEqual([...forest.walk()].map((it) => it.index), [0, 1, 2, 3, 4, 5]);
    assert.deepEqual(forest.find('6F/A5/9F65').objects, []);
    assert.equal(toHex(scard.Tlv.decode(fromHex('008481020102')).tidy()), '84020102');
    assert.equal((await thrown(scard.Refused, () => scard.Tlv.decode(fromHex('6F03500241')))).reason, 'Overrun');
    await thrown(scard.Refused, () => scard.Tlv.decode(new Uint8Array(5), 4));
    await thrown(scard.InvalidArgument, () => scard.Tlv.decode(new Uint8Array(5), scard.LARGEST + 1));
    await thrown(scard.InvalidArgument, () => forest.find([new Uint8Array(4)]));
    assert.equal(scard.Tlv.decode(new Uint8Array()).find('6F'), null);
});

/** Objects as `Tlv.build` takes them. */
const partsOf = (objects) => [...objects].map((it) =>
    ({ tag: it.tag, value: it.isConstructed ? partsOf(it.objects) : it.value }));

test('objects and lists that are built', async () => {
    const long = '7000848180'.padEnd(270, '0');
    for (const digits of ['', '006F0AA5059F650201028401AA50005F2001AA', '008481020102', long]) {
        const forest = scard.Tlv.decode(fromHex(digits));
        assert.deepEqual(scard.Tlv.build(partsOf(forest)).octets, forest.tidy());
    }
    const list = scard.Dol.build([{ tag: '9F02', length: 6 }, { tag: fromHex('95'), length: 255 }]);
    assert.equal(toHex(list.octets), '9F020695FF');
    for (const tag of ['', '00', '9F', '8401', '9F00', '1F8001', '9F8180', '9F818101']) {
        await thrown(scard.InvalidArgument, () => scard.Tlv.build([{ tag, value: new Uint8Array() }]));
        await thrown(scard.InvalidArgument, () => scard.Dol.build([{ tag, length: 1 }]));
    }
    const filled = (count) => scard.Tlv.build([{ tag: '84', value: new Uint8Array(count) }]);
    await thrown(scard.Refused, () => filled(scard.LARGEST));
    await thrown(scard.InvalidArgument, () => filled(scard.LARGEST + 1));
    await thrown(scard.Refused, () => scard.Tlv.build([{ tag: '6F', value: fromHex('84') }]));
    await thrown(RangeError, () => scard.Dol.build([{ tag: '84', length: 256 }]));
});

test('a large forest', () => {
    const one = fromHex('70059F6502AABB'.slice(0, 4) + '9F6502AABB');
    const octets = new Uint8Array(one.length * 20000);
    for (let at = 0; at < octets.length; at += one.length) octets.set(one, at);
    const forest = scard.Tlv.decode(octets);
    assert.deepEqual([forest.count, forest.objects.length], [40000, 20000]);
    assert.equal(forest.find('70/9F65').place, 5);
});

test('data object lists', async () => {
    const dol = scard.Dol.decode(fromHex('9F02069F1A029505'));
    assert.deepEqual(dol.entries.map((it) => [toHex(it.tag), it.length]), [['9F02', 6], ['9F1A', 2], ['95', 5]]);
    const amount = { tag: fromHex('9F02'), value: fromHex('1000'), format: scard.Format.NUMERIC };
    assert.equal(toHex(dol.fill([amount, { tag: fromHex('95'), value: fromHex('8000') }])),
        '000000001000' + '0000' + '8000000000');
    await thrown(scard.Duplicate, () => dol.fill([amount, amount]));
    await thrown(scard.InvalidArgument, () => dol.fill([{ ...amount, format: 3 }]));
    assert.equal((await thrown(scard.Refused, () => scard.Dol.decode(fromHex('0000')))).reason, 'TagZero');
});

test('both ends as steps', async () => {
    const t1 = { ifsc: 32, bwi: 4, cwi: 13 };
    const [terminal, card] = [new scard.Terminal(t1), new scard.Card(t1)];
    for (const command of [fromHex('00A4040000'), octetsBy(draws(2), 300)]) {
        let turn = terminal.transmit(command);
        while (turn.kind === scard.TurnKind.SEND) {
            let answer = card.received(turn.octets);
            if (answer.kind === scard.TurnKind.DONE) {
                assert.deepEqual(card.command, command);
                answer = card.reply(command);
            }
            turn = terminal.received(answer.octets);
        }
        assert.deepEqual(terminal.answer, command);
    }
    assert.equal((await thrown(scard.CallRefused, () => terminal.quiet())).kind, scard.TurnKind.REFUSED_IDLE);
    const small = new scard.Terminal(t1, { commandRoom: 4, answerRoom: 0 });
    await thrown(scard.CallRefused, () => small.transmit(new Uint8Array(5)));
    for (const one of [terminal, card, small]) one.close();
});

test('sessions as steps', () => {
    const steps = new scard.SessionSteps({ t1: { ifsc: 32, bwi: 4, cwi: 13 } });
    const none = new Uint8Array();
    assert.equal(steps.exchange(fromHex('00A4040000'), 0).wait, 0);
    assert.equal(steps.step(scard.Event.SILENT, none, 0.9).wait, 2292);
    assert.equal(toHex(steps.step(scard.Event.SILENT, none, 2292).octets), '00000500A4040000A5');
    assert.equal(steps.step(scard.Event.SENT, none, 13542n).wait, 1601146);
    assert.equal(steps.bwt, 1601146);
    assert.equal(steps.step(scard.Event.SENT, none, 0).kind, scard.TurnKind.REFUSED_ORDER);
    steps.close();
    const card = new scard.CardSessionSteps({ t1: { ifsc: 32, bwi: 4, cwi: 13 }, hostTakesShort: true },
        { hasClock: false });
    assert.deepEqual([card.serve(0).wait, card.granted], [Infinity, 0]);
    card.close();
});

test('the program', async () => {
    assert.deepEqual(await scard.answer(['check', 'block', '00000500A4040000A5']), { status: 0, text: 'ok 9 octets\n',
        octets: new TextEncoder().encode('ok 9 octets\n') });
    const { status, text } = await scard.answer(['check', '--stdin', 'lines', 'atr'], '3B00\n3A\n');
    assert.deepEqual([status, text], [1, 'ok 2 octets\nrefused at 0: BadTs\n']);
    await thrown(TypeError, () => scard.answer(['check\0']));
    await thrown(TypeError, () => scard.answer([1]));
    const large = 'AA'.repeat(1 << 20);
    const both = await Promise.all([scard.answer(['check', 'tlv', '--stdin', 'hex'], large), scard.answer([])]);
    assert.deepEqual(both.map((it) => it.status), [1, 2]);
});

test('names', () => {
    assert.deepEqual(scard.reasons(scard.Codec.ATR), ['BadTs', 'TooLong', 'BadTck']);
    assert.equal(scard.note(scard.Noted.CLASS, 0x03), 'no secure messaging, channel 3');
    assert.equal(scard.note(200, 0), null);
    assert.deepEqual([scard.ruleText(8), scard.ruleText(200)], ['sequence number', '']);
    assert.match(scard.version(), /^\d+\.\d+\.\d+$/);
    assert.equal(scard.nameOf(scard.TurnKind, 68), 'SESSION_WAIT');
});
