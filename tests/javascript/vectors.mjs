// Runs the vectors of the folder `vectors` through the package, in the format of docs/VECTORS.md: each line of `check`,
// also octet by octet if there is a reader, each line of `build` without standard input, every next block of a trace
// through the judge, and a part of all lines through the program.
import assert from 'node:assert/strict';
import { readdirSync, readFileSync } from 'node:fs';
import * as scard from '../../javascript/index.mjs';
import { test } from './harness.mjs';

const FOLDER = new URL('../../vectors/', import.meta.url);
const FILES = 'atr block chain command response tlv dol'.split(' ').flatMap((it) => [it, `${it}.changes`]);
const LEAST = 6000;
/** Of the lines of all files, every so many run through the program. The variable SCARD_VECTORS=all takes each. */
const EACH = process.env.SCARD_VECTORS === 'all' ? 1 : 25;
const PARTS = { n: '\n', t: '\t', s: ' ', e: '' };
const FORMATS = { n: scard.Format.NUMERIC, c: scard.Format.COMPRESSED_NUMERIC, o: scard.Format.OTHER };

/** The octets of a field, as characters of one octet each. */
function charactersOf(field) {
    return field === '-' ? '' : field.replace(/\\(x..|.)/g, (_, part) =>
        (part[0] === 'x' ? String.fromCharCode(parseInt(part.slice(1), 16)) : PARTS[part]));
}

const octetsOf = (characters) => Uint8Array.from(characters, (it) => it.charCodeAt(0));
const textOf = (characters) => new TextDecoder().decode(octetsOf(characters));

/** The cases of a file: its line, words, input, status and text. */
function* cases(name) {
    const lines = readFileSync(new URL(name, FOLDER), 'latin1').split('\n');
    for (const [at, line] of lines.entries()) {
        const fields = line.split('\t');
        if (fields.length !== 4 || line.startsWith('#')) continue;
        const words = fields[0] === '-' ? [] : fields[0].split(' ').map(charactersOf);
        yield { where: `${name}:${at + 1}`, words, input: charactersOf(fields[1]), status: Number(fields[2]),
            text: charactersOf(fields[3]) };
    }
}

/** The cases that need no standard input, and whose words have a form. */
const plainCases = (name) => [...cases(name)].filter((it) => !it.input && it.status !== 2);

const digits = (word) => (word === 'none' || word === '' ? new Uint8Array() : scard.fromHex(word));

/** The words without options, and the information size and number that these have. */
function withoutOptions(words) {
    const options = { ifs: 254, number: 0 };
    const joined = words.join(' ').replace(/ --(ifs|number)[ =]\+?(\d+)/g, (_, name, value) => {
        options[name] = Number(value);
        return '';
    });
    return { plain: joined.split(' '), ...options };
}

function chainOf(octets, ifs, number) {
    const reader = new scard.Receiver({ ifs, number });
    try {
        const came = reader.feed(octets);
        reader.finish();
        return came;
    } finally {
        reader.close();
    }
}

function forestOf(octets) {
    scard.Tlv.check(octets);
    return scard.Tlv.decode(octets).octets.length;
}

const allOf = (decode) => (octets) => (decode(octets), octets.length);
const CHECKS = {
    atr: scard.Atr.check, block: scard.Block.check, chain: chainOf, command: allOf(scard.Command.decode),
    response: allOf(scard.Response.decode), tlv: allOf(forestOf), dol: allOf(scard.Dol.decode),
};
const READERS = {
    atr: () => new scard.AtrReader(), block: (ifs) => new scard.BlockReader(ifs),
    chain: (ifs, number) => new scard.Receiver({ ifs, number }), tlv: () => new scard.TlvReader(),
};

/** What the program prints for a check: the count of octets, or the refusal. */
function said(call, ...words) {
    try {
        return `ok ${call(...words)} octets\n`;
    } catch (error) {
        if (!(error instanceof scard.Refused || error instanceof scard.Short)) throw error;
        return `${error.message}\n`;
    }
}

/** The same by a reader, octet by octet. */
function inPieces(kind, octets, ifs, number) {
    const reader = READERS[kind](ifs, number);
    try {
        let [place, came] = [0, null];
        while (came === null && place < octets.length) {
            came = reader.feed(octets.subarray(place, place + 1));
            place += 1;
        }
        reader.finish();
        return place;
    } finally {
        reader.close();
    }
}

const lineOf = (octets) => `${scard.toHex(octets) || 'none'}\n`;

/** What a line of `build fill` prints. The library decides on the list before it looks at what is known. */
function filled(words) {
    const known = (word) => {
        const [how, tag, value] = word.split(':');
        return { tag: digits(tag), value: digits(value), format: FORMATS[how] };
    };
    return lineOf(scard.Dol.decode(digits(words[0])).fill(words.slice(1).map(known)));
}

/** What a line of `build` prints. */
function built([what, ...words]) {
    try {
        if (what === 'tidy') return lineOf(scard.Tlv.decode(digits(words[0])).tidy());
        if (what === 'fill') return filled(words);
        const blocks = scard.cut(digits(words[2]), Number(words[0]), Number(words[1]));
        return blocks.map((it) => lineOf(it.encode())).join('');
    } catch (error) {
        if (error instanceof scard.Duplicate) return 'refused: Duplicate\n';
        if (!(error instanceof scard.Refused || error instanceof scard.Short)) throw error;
        return `${error.message}\n`;
    }
}

test('the vectors of check', () => {
    let tried = 0;
    for (const { where, words, text } of FILES.flatMap(plainCases)) {
        const { plain, ifs, number } = withoutOptions(words);
        if (plain[0] !== 'check') continue;
        const octets = digits(plain[2]);
        assert.equal(said(CHECKS[plain[1]], octets, ifs, number), text, where);
        if (READERS[plain[1]]) assert.equal(said(inPieces, plain[1], octets, ifs, number), text, where);
        tried += 1;
    }
    assert.ok(tried > LEAST, `${tried}`);
});

test('a value is refused as its check refuses it', () => {
    for (const [name, decode] of [['atr', scard.Atr.decode], ['block', scard.Block.decode]]) {
        for (const { where, words, text } of [...plainCases(name), ...plainCases(`${name}.changes`)]) {
            const { plain, ifs } = withoutOptions(words);
            if (plain[0] !== 'check' || text.startsWith('ok')) continue;
            assert.equal(said(decode, digits(plain[2]), ifs), text, where);
        }
    }
});

test('what decodes encodes to the same octets', () => {
    const kinds = { atr: scard.Atr, block: scard.Block, command: scard.Command, response: scard.Response };
    for (const [name, Kind] of Object.entries(kinds)) {
        for (const { where, words, text } of [...plainCases(name), ...plainCases(`${name}.changes`)]) {
            const count = /^ok (\d+) octets\n$/.exec(text);
            if (words[0] !== 'check' || !count || words.length !== 3) continue;
            const octets = digits(words[2]).subarray(0, Number(count[1]));
            assert.deepEqual(Kind.decode(octets).encode(), octets, where);
        }
    }
});

test('the vectors of build', () => {
    const tried = plainCases('build').filter(({ words }) => words[0] === 'build');
    for (const { where, words, text } of tried) assert.equal(built(words.slice(1)), text, where);
    assert.ok(tried.length > 20);
});

const SIDES = { t: scard.End.TERMINAL, c: scard.End.CARD };
const NAMES = { t: 'terminal', c: 'card' };

/** The beginning and the end of each line of the program about the blocks of a trace that deviate. */
function judged(trace) {
    let judge = new scard.Judge(32);
    let number = 0;
    const lines = [];
    for (const line of trace.split('\n').filter(Boolean)) {
        const [word, octets, how, came] = line.split(/\s+/);
        if (word === 'reset') {
            judge.close();
            judge = new scard.Judge(32);
        } else if (word === 'quiet') {
            judge.quiet();
        } else {
            number += 1;
            const arrival = how === 'lost' ? scard.Arrival.LOST : scard.Arrival.CAME;
            const { rule, verdict } =
                judge.block(SIDES[word], digits(octets), arrival, digits(how === 'lost' ? '' : came));
            if (rule) lines.push([`block ${number} ${NAMES[word]}: ${scard.ruleText(rule)}, due `,
                `  (${scard.clauseText(rule)})`]);
            if (verdict === scard.Judged.ELSEWHERE) lines.push([
                `block ${number} ${NAMES[word]}: another logical connection, not judged`, '  (11.3.2.1)']);
        }
    }
    judge.close();
    return lines;
}

test('every next block through the judge', () => {
    const tried = [...cases('judge.next')];
    for (const { where, input, text } of tried) {
        const wanted = text.split('\n').filter((it) => it.startsWith('block '));
        const lines = judged(input);
        assert.equal(lines.length, wanted.length, where);
        lines.forEach(([before, after], at) => assert.ok(wanted[at].startsWith(before) && wanted[at].endsWith(after),
            `${where}: ${before} ${after}`));
    }
    assert.ok(tried.length > 2000);
});

test('a part of all vectors through the program', async () => {
    const every = readdirSync(FOLDER).sort().flatMap((name) => [...cases(name)]);
    const chosen = every.filter((_, at) => at % EACH === 0);
    for (const { where, words, input, status, text } of chosen) {
        const found = await scard.answer(words.map(textOf), octetsOf(input));
        assert.deepEqual([found.status, found.octets], [status, octetsOf(text)], where);
    }
    if (EACH === 1) console.log(`through the program: ${chosen.length} vectors, 0 differ`);
    assert.ok(chosen.length > 400);
});
