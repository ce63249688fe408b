// Runs the examples of docs/JAVASCRIPT.md and javascript/README.md, compares the types of javascript/index.d.ts with
// the package, and imports what javascript/pack writes.
import assert from 'node:assert/strict';
import { spawnSync } from 'node:child_process';
import { mkdtempSync, readFileSync, rmSync, writeFileSync } from 'node:fs';
import { tmpdir } from 'node:os';
import { join } from 'node:path';
import { fileURLToPath, pathToFileURL } from 'node:url';
import { inspect } from 'node:util';
import * as scard from '../../javascript/index.mjs';
import { test } from './harness.mjs';

const TOP = new URL('../../', import.meta.url);
const textOf = (name) => readFileSync(new URL(name, TOP), 'utf8');
const INDEX = new URL('javascript/index.mjs', TOP).href;

/** Calls `work` with a folder that is deleted then. */
async function inFolder(work) {
    const folder = mkdtempSync(join(tmpdir(), 'scard-'));
    try {
        return await work(folder);
    } finally {
        rmSync(folder, { recursive: true });
    }
}

/** The examples of a page as a script that hands each value that a remark follows to a function, with that remark. */
function scriptOf(page) {
    const blocks = [...textOf(page).matchAll(/^```js\n(.*?)^```$/gms)].map((it) => it[1]);
    return blocks.join('\n').replace(/^import \* as scard from .*$/m, `import * as scard from '${INDEX}';`)
        .replace(/^(.*); \/\/ (.*)$/gm, (_, value, said) => `globalThis.tried(${value}, ${JSON.stringify(said)});`);
}

for (const [page, least] of [['docs/JAVASCRIPT.md', 20], ['javascript/README.md', 1]]) {
    test(`the examples of ${page}`, () => inFolder(async (folder) => {
        let count = 0;
        globalThis.tried = (value, said) => {
            count += 1;
            assert.equal(inspect(value, { breakLength: Infinity }), said);
        };
        writeFileSync(join(folder, 'page.mjs'), scriptOf(page));
        await import(pathToFileURL(join(folder, 'page.mjs')));
        assert.ok(count >= least, `${count}`);
    }));
}

test('what javascript/pack writes', () => inFolder(async (folder) => {
    const place = join(folder, 'package');
    const packed = spawnSync('python3', ['-B', fileURLToPath(new URL('javascript/pack', TOP)), place]);
    assert.equal(packed.status, 0, String(packed.stderr));
    const other = await import(pathToFileURL(join(place, 'index.mjs')));
    assert.deepEqual(Object.keys(other), Object.keys(scard));
    assert.equal((await other.answer(['check', 'atr', '3B00'])).text, 'ok 2 octets\n');
    assert.equal(other.lrc(Uint8Array.of(1, 2)), 3);
    assert.equal(JSON.parse(readFileSync(join(place, 'package.json'))).version, scard.version());
}));

const TYPES = textOf('javascript/index.d.ts').replace(/\/\*\*.*?\*\//gs, '');

/** How many arguments of a declaration have no question mark. */
function required(words) {
    let depth = 0;
    const parts = [...words].reduce((found, letter) => {
        depth += '([{<'.includes(letter) - ')]}>'.includes(letter);
        if (letter === ',' && depth === 0) found.push('');
        else found[found.length - 1] += letter;
        return found;
    }, ['']);
    return parts.filter((it) => /^\s*\w+:/.test(it)).length;
}

/** The classes of the types: the functions of each with their arguments, and its fields. */
function classes() {
    return [...TYPES.matchAll(/^export declare class (\w+)[^{]*\{\n(.*?)^\}/gms)].map(([, name, body]) => ({ name,
        calls: [...body.matchAll(/^ {4}(static )?(\w+)\(((?:[^()]|\([^()]*\))*)\):/gm)],
        fields: [...body.matchAll(/^ {4}readonly (\w+):/gm)].map((it) => it[1]) }));
}

test('the types have each name of the package', () => {
    const names = [...TYPES.matchAll(/^export declare (?:class|const|function) (\w+)/gm)].map((it) => it[1]);
    assert.deepEqual([...new Set(names)].sort(), Object.keys(scard).sort());
});

test('the types have the functions of each class, with as many arguments', () => {
    let count = 0;
    for (const { name, calls } of classes()) {
        for (const [, isStatic, call, words] of calls) {
            const made = isStatic ? scard[name][call] : scard[name].prototype[call];
            assert.equal(typeof made, 'function', `${name}.${call}`);
            assert.equal(made.length, required(words), `${name}.${call}`);
            count += 1;
        }
    }
    assert.ok(count > 80, `${count}`);
});

test('the types have the functions of the package, with as many arguments', () => {
    const calls = [...TYPES.matchAll(/^export declare function (\w+)\(((?:[^()]|\([^()]*\))*)\):/gm)];
    assert.ok(calls.length > 10);
    for (const [, name, words] of calls) assert.equal(scard[name].length, required(words), name);
});

test('the types have the numbers of each enum', () => {
    const enums = [...TYPES.matchAll(/^export declare const (\w+): \{(.*?)\};$/gms)];
    assert.ok(enums.length > 15);
    for (const [, name, body] of enums) {
        const rows = [...body.matchAll(/readonly (\w+): (?:(\d+)|'(.*?)')/g)];
        const said = Object.fromEntries(rows.map((it) => [it[1], it[3] ?? Number(it[2])]));
        assert.deepEqual(said, { ...scard[name] }, name);
    }
});

test('the types have the fields of each value', () => {
    const t1 = new scard.T1({ ifsc: 32, bwi: 4, cwi: 5 });
    const values = { T1: t1, Atr: scard.Atr.decode(scard.fromHex('3B00')), Block: scard.Block.r(0),
        Command: scard.Command.of(0, 0, 0, 0), Response: new scard.Response({ sw1: 0x90, sw2: 0 }),
        Tlv: scard.Tlv.decode(scard.fromHex('8400')), DataObject: scard.Tlv.decode(scard.fromHex('8400')).objects[0],
        Dol: scard.Dol.decode(scard.fromHex('8401')), Framer: new scard.Framer(), Terminal: new scard.Terminal(t1),
        SessionSteps: new scard.SessionSteps({ t1 }), CardSessionSteps: new scard.CardSessionSteps({ t1 }),
        MoreTime: new scard.MoreTime(1), AskIfs: new scard.AskIfs(1), WebSerialLine: new scard.WebSerialLine({}) };
    for (const { name, fields } of classes().filter((it) => values[it.name])) {
        for (const field of fields) assert.ok(field in values[name], `${name}.${field}`);
        const own = Object.keys(values[name]);
        assert.deepEqual(own.filter((it) => !fields.includes(it)), [], name);
        values[name].close?.call?.(values[name])?.catch?.(() => {});
    }
});
