// A mocked line with faults, its two ends, and exchanges over it that are counted. Each answer has to be the card's to
// that command, and the card has to get each command at most once and in order.
import * as scard from '../../javascript/index.mjs';
import { draws, octetsBy, same } from './harness.mjs';

export const T1 = new scard.T1({ ifsc: 32, bwi: 0, cwi: 5 });
export const SETUP = { t1: T1, refusesEmpty: true };
/** 12 etu at 9,600 bits a second, and waiting times of T1, in milliseconds. */
export const OCTET = 1.25, CWT = 4.48, BWT = 103.125;
/** How much later than the one before it an octet may reach the program. */
export const LATE = 3 * OCTET;
const ENDED = [scard.TurnKind.DEAD, scard.TurnKind.SESSION_FAILED, scard.TurnKind.SESSION_USED_UP];
const MOST_ON_A_LINE = 200;
const octet = (value, pause = 0) => ({ value, pause, isDamaged: false });

/** What happens to the octets of a block. Each has a value, a pause before it, and whether its parity is wrong. */
export const FAULTS = {
    oneChanged(draw, octets, at = draw(10) < 4 ? 2 : draw(octets.length)) {
        octets[at].value ^= 1 + draw(255);
    },
    oneLost(draw, octets, at = draw(octets.length)) {
        octets.splice(at, 1);
    },
    oneAdded(draw, octets, at = draw(octets.length + 1)) {
        octets.splice(at, 0, octet(draw(256)));
    },
    oneRepeated(draw, octets, at = draw(octets.length)) {
        octets.splice(at, 0, octet(octets[at].value));
    },
    paused(draw, octets, at = draw(octets.length)) {
        octets[at].pause = draw(5000) / 1000 * CWT;
    },
    damaged(draw, octets, at = draw(octets.length)) {
        Object.assign(octets[at], { value: 0, isDamaged: true });
    },
    allLost(draw, octets) {
        octets.length = 0;
    },
    late(draw, octets) {
        octets[0].pause = draw(1000) / 1000 * BWT / 2;
    },
    restLate(draw, octets, at = draw(octets.length)) {
        octets[at].pause = CWT + draw(1000) / 1000 * (BWT / 2 - CWT);
    },
    allChanged(draw, octets) {
        octets.forEach((one) => (one.value = draw(256)));
    },
    zerosAdded(draw, octets) {
        octets.push(...Array.from({ length: 1 + draw(6) }, () => octet(0)));
    },
    partRepeated(draw, octets) {
        const [at, count] = [draw(octets.length), 1 + draw(6)];
        octets.splice(at, 0, ...octets.slice(at, at + count).map((it) => octet(it.value)));
    },
};

/** One end of a mocked line. Octets come in any pieces, and up to LATE later than they were on the line. */
export class End {
    late = LATE * 1000;
    came = [];
    #waits = null;

    constructor(draw, fault) {
        this.draw = draw;
        this.fault = fault;
    }

    async write(octets) {
        const sent = [...octets].map((value) => octet(value));
        this.fault(sent);
        let at = Math.max(performance.now(), this.other.came.at(-1)?.at ?? 0);
        for (const one of sent) {
            at += OCTET + one.pause;
            this.other.came.push({ ...one, at });
        }
        this.other.wakes();
        await new Promise((done) => setTimeout(done, OCTET * octets.length));
    }

    wakes() {
        this.#waits?.();
    }

    /** The next octets, with what became of each. */
    async take() {
        while (!this.came.length) await new Promise((done) => (this.#waits = done));
        const until = this.came[0].at + this.draw(LATE * 1000) / 1000;
        await new Promise((done) => setTimeout(done, Math.max(0, until - performance.now())));
        const there = this.came.filter((it) => it.at <= performance.now()).length;
        return this.came.splice(0, 1 + this.draw(there));
    }

    async read() {
        const taken = await this.take();
        const octets = taken.map((it) => it.value);
        return taken.some((it) => it.isDamaged) ? scard.Garbled.from(octets) : Uint8Array.from(octets);
    }
}

/** The reply of a host: each front of it passes for a block if LEN becomes smaller. So a reader by LEN takes it. */
export function replyTo(command) {
    let check = command[4] & 0x40;
    const octets = [];
    for (let at = 0; at < command[5] % 28; at += 1) {
        octets.push(check ^ at);
        check ^= octets.at(-1);
    }
    return Uint8Array.from([...octets, ...command.slice(0, 6), 0x90, 0]);
}

/** The two ends of a new line. */
export function pair(draw, fault) {
    const ends = [new End(draw, fault), new End(draw, fault)];
    [ends[0].other, ends[1].other] = [ends[1], ends[0]];
    return ends;
}

/** A new line with a terminal at one end and a card at the other, and the commands that the card got. */
export function joined(draw, fault, Session, lineOf = (end) => end) {
    const ends = pair(draw, fault);
    const card = new scard.AsyncCardSession(ends[1], SETUP);
    const got = [];
    const host = (command) => {
        got.push(command);
        return replyTo(command);
    };
    const serving = card.serve(host).catch((error) => error);
    return { ends, session: new Session(lineOf(ends[0]), SETUP), card, serving, got, sent: [] };
}

/** Whether what came is a part of what was sent, in its order. */
export function isInOrder({ got, sent }) {
    let at = 0;
    return got.every((command) => {
        while (at < sent.length && !same(sent[at], command)) at += 1;
        at += 1;
        return at <= sent.length;
    });
}

/** The answer of one exchange, or the kind of its end. */
export async function exchanged(line, command) {
    line.sent.push(command);
    try {
        return await line.session.exchange(command);
    } catch (error) {
        if (!(error instanceof scard.TurnError)) throw error;
        return error.kind;
    }
}

function commandBy(draw, number) {
    const length = [0, 3, 60][draw(3)];
    return Uint8Array.from([0, 0xA4, number >> 8, number & 255, draw(256), draw(256), ...octetsBy(draw, length)]);
}

/** Exchanges over lines with a fault in some blocks. Counts right, wrong and missing answers, and faults. */
export async function tried(name, exchanges, options = {}) {
    const { rate = 0.08, Session = scard.AsyncSession, lineOf, untilWrong = false } = options;
    const [draw, counts] = [draws(name), { right: 0, wrong: 0, none: 0, foreign: 0, faults: 0 }];
    const fault = (octets) => {
        if (draw(1e6) >= rate * 1e6) return;
        FAULTS[name](draw, octets);
        counts.faults += 1;
    };
    let line = null;
    for (let number = 0; number < exchanges && !(untilWrong && counts.wrong); number += 1) {
        line ??= joined(draw, fault, Session, lineOf);
        const command = commandBy(draw, number);
        const answer = await exchanged(line, command);
        if (typeof answer === 'number') counts.none += 1;
        else counts[same(answer, replyTo(command)) ? 'right' : 'wrong'] += 1;
        if (ENDED.includes(answer) || line.sent.length >= MOST_ON_A_LINE || number + 1 === exchanges) {
            counts.foreign += isInOrder(line) ? 0 : 1;
            line.session.close();
            line = null;
        }
    }
    return counts;
}
