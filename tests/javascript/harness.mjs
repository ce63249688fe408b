// What the tests share: a list of tests, octets from digits, draws, and time that passes at once.
import assert from 'node:assert/strict';

const tests = [];

/** Adds a test. */
export function test(name, work) {
    tests.push({ name, work });
}

/** Runs all tests, prints those that fail, and returns how many passed and failed. */
export async function all() {
    const counts = { passed: 0, failed: 0 };
    for (const { name, work } of tests) {
        try {
            await work();
            counts.passed += 1;
        } catch (error) {
            counts.failed += 1;
            console.log(`javascript: ${name} failed: ${error.stack}`);
        }
    }
    return counts;
}

/** Numbers that look random, the same for the same seed: each call returns a whole number below a limit. */
export function draws(seed) {
    let state = [...String(seed)].reduce((sum, letter) => Math.imul(sum, 31) + letter.charCodeAt(0) | 0, 7);
    return (limit) => {
        state = state + 0x6D2B79F5 | 0;
        let mixed = Math.imul(state ^ state >>> 15, 1 | state);
        mixed = mixed + Math.imul(mixed ^ mixed >>> 7, 61 | mixed) ^ mixed;
        return Math.floor(((mixed ^ mixed >>> 14) >>> 0) / 2 ** 32 * limit);
    };
}

/** Random octets. */
export const octetsBy = (draw, count) => Uint8Array.from({ length: count }, () => draw(256));

/** The error that a call throws or its promise rejects with, which has to be of a class. */
export async function thrown(Kind, work) {
    try {
        await work();
    } catch (error) {
        assert.ok(error instanceof Kind, `${error.stack} isn't ${Kind.name}`);
        return error;
    }
    return assert.fail(`no ${Kind.name} was thrown`);
}

/** Whether two lists of octets are the same. */
export function same(one, other) {
    return one.length === other.length && one.every((octet, at) => octet === other[at]);
}

const { setTimeout: realTimeout, clearTimeout: realClear, performance: realClock } = globalThis;

/** Sets the timers and the clock that programs have. */
function sets(setTimeout, clearTimeout, performance) {
    for (const [name, value] of Object.entries({ setTimeout, clearTimeout, performance })) {
        Object.defineProperty(globalThis, name, { value, configurable: true, writable: true });
    }
}

/** Timers and a clock whose time passes as soon as nothing else happens. */
export class VirtualTime {
    now = 0;
    #timers = new Map();
    #last = 0;

    /** Calls `work` under this time, and returns what its promise has. */
    async run(work) {
        const begin = (call, after = 0, ...words) => this.#begin(() => call(...words), after);
        sets(begin, (timer) => this.#timers.delete(timer), { now: () => this.now });
        try {
            return await this.#until(work());
        } finally {
            sets(realTimeout, realClear, realClock);
        }
    }

    #begin(call, after) {
        this.#last += 1;
        this.#timers.set(this.#last, { call, at: this.now + Math.max(0, after) });
        return this.#last;
    }

    async #until(promise) {
        let isOver = false;
        const mark = () => (isOver = true);
        promise.then(mark, mark);
        for (;;) {
            await new Promise((done) => setImmediate(done));
            if (isOver) return promise;
            this.#next();
        }
    }

    #next() {
        const [first] = [...this.#timers].sort(([, one], [, other]) => one.at - other.at);
        if (!first) throw new Error('nothing goes on');
        this.#timers.delete(first[0]);
        this.now = Math.max(this.now, first[1].at);
        first[1].call();
    }
}
