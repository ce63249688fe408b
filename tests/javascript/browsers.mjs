// Uses the package in Chromium and Firefox, if they are there: what javascript/pack writes, from a server of files.
import assert from 'node:assert/strict';
import { execFileSync, spawnSync } from 'node:child_process';
import { mkdtempSync, readFileSync, rmSync, writeFileSync } from 'node:fs';
import { createServer } from 'node:http';
import { tmpdir } from 'node:os';
import { extname, join } from 'node:path';
import { fileURLToPath } from 'node:url';
import { Page as Chromium } from '../web/chromium.mjs';
import { Page as Firefox } from '../web/firefox.mjs';
import { test } from './harness.mjs';

const KINDS = { '.mjs': 'text/javascript', '.wasm': 'application/wasm', '.json': 'application/json',
    '.html': 'text/html' };
const LONGEST = 60000;
const PAGE = '<!doctype html><title>scard</title><link rel="icon" href="data:,">';

/** What runs in the browser. Exchanges go between a terminal and a card over two queues of octets. */
async function used(scard) {
    const joined = () => {
        const ends = [0, 1].map(() => ({ came: [], comes() {}, late: 20000 }));
        ends.forEach((end, at) => Object.assign(end, {
            async write(octets) {
                ends[1 - at].came.push(octets);
                ends[1 - at].comes();
            },
            async read() {
                if (!end.came.length) await new Promise((resolve) => (end.comes = resolve));
                return end.came.shift();
            },
        }));
        return ends;
    };
    const setup = { t1: { ifsc: 32, bwi: 2, cwi: 5 }, hertz: 30000000, silence: Infinity };
    const [mine, yours] = joined();
    const [session, card] = [new scard.AsyncSession(mine, setup), new scard.AsyncCardSession(yours, setup)];
    const serving = card.serve((command) => (command[0] === 0xFF ? null : command));
    const answers = [];
    for (let count = 4; count < 100; count += 19) {
        answers.push((await session.exchange(new Uint8Array(count))).length);
    }
    let refused;
    try {
        scard.Block.decode(scard.fromHex('00000500A4040000A4'));
    } catch (error) {
        refused = [error.message, await error.expected()];
    }
    void serving;
    const { status, text } = await scard.answer(['check', 'atr', '3B00']);
    return { answers, refused, program: [status, text], version: scard.version(),
        found: String(scard.Tlv.decode(scard.fromHex('6F0484020102')).find('6F/84')) };
}

const found = (names) => names.find((name) => spawnSync('sh', ['-c', `command -v ${name}`]).status === 0);

/** A server of the files of a folder. */
function serving(folder) {
    return new Promise((resolve) => {
        const server = createServer(({ url }, response) => {
            const file = join(folder, url === '/' ? 'page.html' : url);
            response.writeHead(200, { 'content-type': KINDS[extname(file)] ?? 'text/plain' });
            response.end(readFileSync(file));
        }).listen(0, '127.0.0.1', () => resolve(server));
    });
}

async function inBrowser(page, folder) {
    const server = await serving(folder);
    const late = setTimeout(() => page.kill(), LONGEST);
    try {
        await page.open(join(folder, 'page.html'));
        await page.load(`http://127.0.0.1:${server.address().port}/`);
        const said = await page.value(`import('/index.mjs').then(${used})`);
        assert.deepEqual(said, { answers: [4, 23, 42, 61, 80, 99],
            refused: ['refused at 8: BadLrc', 'octet 8 is A4: the exclusive-or of all octets of the block must be 00'],
            program: [0, 'ok 2 octets\n'], version: said.version, found: '84' });
        assert.deepEqual(page.complaints(), []);
    } finally {
        clearTimeout(late);
        await page.close();
        server.close();
    }
}

for (const [name, Page, names] of [['Chromium', Chromium, ['chromium', 'chromium-browser', 'google-chrome']],
    ['Firefox', Firefox, ['firefox-esr', 'firefox']]]) {
    const command = found(names);
    if (!command || (Page === Firefox && !globalThis.WebSocket)) {
        console.log(`javascript: the package in ${name}: left out: ${command ? 'this node has no WebSocket' :
            `there is no command ${names[0]}`}`);
        continue;
    }
    test(`the package in ${name}`, async () => {
        const folder = mkdtempSync(join(tmpdir(), 'scard-'));
        try {
            const pack = fileURLToPath(new URL('../../javascript/pack', import.meta.url));
            execFileSync('python3', ['-B', pack, join(folder, 'package')]);
            writeFileSync(join(folder, 'package/page.html'), PAGE);
            await inBrowser(new Page(command), join(folder, 'package'));
        } finally {
            rmSync(folder, { recursive: true });
        }
    });
}
