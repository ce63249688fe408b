// A port of Web Serial and a CCID reader over WebUSB, mocked as their specifications describe them.
import * as scard from '../../javascript/index.mjs';

/** A port of Web Serial over one end of a mocked line. A damaged character ends the stream of octets with an error. */
export class MockPort {
    damage = 'ParityError';
    #readable = null;
    #writable = null;
    #isGone = false;
    #fails = null;

    constructor(end) {
        this.end = end;
    }

    async open(options) {
        this.options = options;
        this.#isGone = false;
    }

    get readable() {
        if (this.#isGone) return null;
        this.#readable ??= new ReadableStream({ pull: (controller) => this.#pull(controller) }, { highWaterMark: 0 });
        return this.#readable;
    }

    async #pull(controller) {
        const gone = new Promise((_, reject) => (this.#fails = reject));
        try {
            const taken = await Promise.race([this.end.take(), gone]);
            const at = taken.findIndex((it) => it.isDamaged);
            const right = at < 0 ? taken : taken.slice(0, at);
            if (right.length) controller.enqueue(Uint8Array.from(right, (it) => it.value));
            // what was damaged, and what came after it, is for the next call
            if (right.length && at >= 0) this.end.came.unshift(...taken.slice(at));
            if (right.length) return;
            this.end.came.unshift(...taken.slice(1));
            throw new DOMException('a character was damaged', this.damage);
        } catch (error) {
            this.#readable = null;
            controller.error(error);
        }
    }

    get writable() {
        if (this.#isGone) return null;
        let sending = null;
        this.#writable ??= new WritableStream({
            write: (octets) => {
                sending = this.end.write(octets.slice());
            },
            close: async () => {
                await sending;
                this.#writable = null;
            },
        });
        return this.#writable;
    }

    /** The device is pulled out. */
    disconnect() {
        this.#isGone = true;
        this.#fails?.(new DOMException('the device is gone', 'NetworkError'));
    }

    async close() {
        if (this.#readable?.locked || this.#writable?.locked) throw new TypeError('a stream of the port is in use');
        this.#isGone = true;
    }
}

const ATR = '3B808131204555';
const OK = { status: 'ok' };

/** A CCID reader with a card, whose host replies by a function. One transfer of some has the fault of a name. */
export class MockReader {
    faults = 0;
    fails = null;
    configuration = null;
    got = [];
    #answers = [];

    constructor(draw, fault, replyTo) {
        Object.assign(this, { draw, fault, replyTo });
        const endpoint = (type, direction, endpointNumber) => ({ type, direction, endpointNumber });
        const alternates = [{ interfaceClass: 0x0B,
            endpoints: [endpoint('interrupt', 'in', 3), endpoint('bulk', 'out', 1), endpoint('bulk', 'in', 2)] }];
        this.configuration = { interfaces: [{ interfaceNumber: 0, alternates }] };
    }

    async open() {
        this.isOpen = true;
    }

    async selectConfiguration() {}

    async claimInterface(number) {
        this.claimed = number;
    }

    async close() {
        this.isOpen = false;
    }

    /** A message of the reader. */
    #message(type, [slot, sequence], status, reason, data) {
        const message = new Uint8Array(10 + data.length);
        message.set([type, 0, 0, 0, 0, slot, sequence, status << 6, reason]);
        new DataView(message.buffer).setUint32(1, data.length, true);
        message.set(data, 10);
        this.#answers.push(message);
    }

    async transferOut(endpoint, octets) {
        if (this.fails === 'unplugged') throw new DOMException('the device is gone', 'NetworkError');
        if (endpoint !== 1 || !this.isOpen) throw new TypeError('the device takes no such message');
        const [type, id, data] = [octets[0], [octets[5], octets[6]], octets.slice(10)];
        if (type === 0x62) this.#reset(id);
        else if (type === 0x61) this.#message(0x82, id, 0, 0, data);
        else if (type === 0x63) this.#message(0x81, id, 0, 0, new Uint8Array());
        else this.#transfers(id, data, octets[7]);
        return this.fails === 'stall' ? { status: 'stall' } : OK;
    }

    #reset(id) {
        this.card?.close();
        this.card = new scard.Card(new scard.T1({ ifsc: 32, bwi: 4, cwi: 5 }));
        this.asks = 1;
        this.#message(0x80, id, 0, 0, scard.fromHex(ATR));
    }

    /** A block goes to the card, and its answer comes back. */
    #transfers(id, block, multiple) {
        const isHit = this.fault !== 'none' && this.draw(100) < 15;
        this.faults += isHit ? 1 : 0;
        const fault = isHit ? this.fault : 'none';
        if (this.asks > 1 && multiple !== this.asks) throw new Error('the wait was not extended');
        this.asks = 1;
        if (fault === 'lostBefore') return this.#message(0x80, id, 1, 0xFE, new Uint8Array());
        const spoiled = block.slice();
        if (fault === 'changedBefore') spoiled[this.draw(block.length)] ^= 1 + this.draw(255);
        const answer = this.#answerOf(spoiled, fault);
        if (fault === 'moreTime') this.#message(0x80, id, 2, 1, new Uint8Array());
        return this.#delivers(id, answer, fault);
    }

    /** The card's answer to a block. The host asks for more time if that is the fault. */
    #answerOf(block, fault) {
        let turn = this.card.received(block);
        if (turn.kind === scard.TurnKind.DONE) {
            const { command } = this.card;
            if (fault === 'moreTimeOfCard') {
                this.asks = 3;
                return this.card.moreTime(3).octets;
            }
            this.got.push(command);
            turn = this.card.reply(this.replyTo(command));
        }
        return turn.octets;
    }

    #delivers(id, answer, fault) {
        const data = answer.slice();
        if (fault === 'lost') return this.#message(0x80, id, 1, 0xFE, new Uint8Array());
        if (fault === 'damaged') return this.#message(0x80, id, 1, 0xFD, new Uint8Array());
        if (fault === 'overrun') return this.#message(0x80, id, 1, 0xFC, new Uint8Array());
        if (fault === 'changed') data[this.draw(data.length)] ^= 1 + this.draw(255);
        if (fault === 'cut') return this.#message(0x80, id, 0, 0, data.slice(0, this.draw(data.length)));
        if (fault === 'lengthened') return this.#message(0x80, id, 0, 0, Uint8Array.from([...data, this.draw(256)]));
        return this.#message(0x80, id, 0, 0, data);
    }

    async transferIn(endpoint, room) {
        const message = this.#answers.shift();
        if (endpoint !== 2 || !message || room < message.length) throw new TypeError('the device has no such message');
        const { fails } = this;
        if (fails === 'otherSequence') message[6] ^= 1;
        if (fails === 'otherSlot') message[5] ^= 1;
        if (fails === 'otherType') message[0] = 0x82;
        if (fails === 'otherLength') message[1] ^= 1;
        if (fails === 'refused') message.set([1 << 6, 0xFB], 7);
        const octets = fails === 'shortMessage' ? message.slice(0, 5) : message;
        return { ...OK, data: new DataView(octets.buffer) };
    }
}
