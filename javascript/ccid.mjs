// A smart card reader of the class CCID over WebUSB as a line. The reader exchanges whole blocks (TPDU level) and times
// the card itself. Messages and numbers are those of the CCID specification, revision 1.1.
import { waiting } from './clock.mjs';
import { Garbled } from './session.mjs';

const CLASS = 0x0B;
const HEADER = 10;
/** Room for the longest message of a reader: more than a block has, and a multiple of each packet size. */
const ROOM = 4096;
const POWER_ON = 0x62, POWER_OFF = 0x63, SET_PARAMETERS = 0x61, TRANSFER = 0x6F;
const DATA = 0x80, SLOT_STATUS = 0x81, PARAMETERS = 0x82;
/** What a reader says of a command, in the two highest bits of bStatus. */
const FAILED = 1, MORE_TIME = 2;
/** Reasons of a failed command: no answer of the card, a wrong parity, an overrun. */
const MUTE = 0xFE, DAMAGED = [0xFD, 0xFC];
const NONE = new Uint8Array();

/** The interface of a reader, and its endpoints for data. */
function interfaceOf(device) {
    for (const { interfaceNumber, alternates } of device.configuration.interfaces) {
        const alternate = alternates.find((it) => it.interfaceClass === CLASS);
        const endpoint = (direction) => alternate?.endpoints.find((it) => it.type === 'bulk'
            && it.direction === direction)?.endpointNumber;
        if (alternate) return { interfaceNumber, into: endpoint('in'), out: endpoint('out') };
    }
    throw new Error('the device has no interface of the class CCID');
}

/** A CCID reader as a line of an AsyncSession, whose setup has `silence: Infinity`: the line delivers whole blocks. */
export class CcidLine {
    #device;
    #ends;
    #slot;
    #sequence = 0;
    #unsent = null;

    constructor(device, ends, { slot = 0 } = {}) {
        this.#device = device;
        this.#ends = ends;
        this.#slot = slot;
    }

    /** Opens a USB device, claims the reader's interface, and makes a line of it. */
    static async open(device, options = {}) {
        await device.open();
        if (!device.configuration) await device.selectConfiguration(1);
        const ends = interfaceOf(device);
        await device.claimInterface(ends.interfaceNumber);
        return new CcidLine(device, ends, options);
    }

    /** Sends a message to the reader. */
    async #send(type, parameters, data) {
        const message = new Uint8Array(HEADER + data.length);
        this.#sequence = (this.#sequence + 1) & 0xFF;
        message.set([type, 0, 0, 0, 0, this.#slot, this.#sequence, ...parameters]);
        new DataView(message.buffer).setUint32(1, data.length, true);
        message.set(data, HEADER);
        const { status } = await this.#device.transferOut(this.#ends.out, message);
        if (status !== 'ok') throw new Error(`the reader didn't take a message: ${status}`);
    }

    /** The next message of the reader. */
    async #message(type) {
        const { status, data } = await this.#device.transferIn(this.#ends.into, ROOM);
        if (status !== 'ok') throw new Error(`the reader sent no message: ${status}`);
        const octets = new Uint8Array(data.buffer, data.byteOffset, data.byteLength);
        if (octets.length < HEADER || data.getUint32(1, true) !== octets.length - HEADER) {
            throw new Error('the reader sent a message of a wrong length');
        }
        if (octets[0] !== type || octets[5] !== this.#slot || octets[6] !== this.#sequence) {
            throw new Error('the reader sent another message than the one that is due');
        }
        return { status: octets[7] >> 6, reason: octets[8], data: octets.slice(HEADER) };
    }

    /** Sends a command, and waits for its answer as long as the reader asks for more time. */
    async #command(type, answer, parameters = [0, 0, 0], data = NONE) {
        await this.#send(type, parameters, data);
        for (;;) {
            const message = await this.#message(answer);
            if (message.status !== MORE_TIME) return message;
        }
    }

    /** The same, if the command may not fail. */
    async #done(...words) {
        const { status, reason, data } = await this.#command(...words);
        if (status === FAILED) throw new Error(`the reader refused a command: reason ${reason}`);
        return data;
    }

    /** Resets the card, and returns its answer to reset. Begin a new session then. */
    powerOn() {
        this.#unsent = null;
        return this.#done(POWER_ON, DATA);
    }

    /** Has the reader use T=1 with the parameters of an answer to reset, F = 372 and D = 1. */
    async setT1(atr) {
        const { ifsc, bwi, cwi } = atr.t1();
        const convention = atr.isInverse ? 0x12 : 0x10;
        const data = Uint8Array.of(0x11, convention, atr.first.tc ?? 0, bwi << 4 | cwi, 0, ifsc, 0);
        await this.#done(SET_PARAMETERS, PARAMETERS, [1, 0, 0], data);
    }

    /** Keeps a block until `receive`: to the reader a block and the wait for its answer are one command. */
    async write(octets) {
        this.#unsent = octets.slice();
    }

    /**
     * Sends the block that was written, and returns the answer of the card, or no octets if there is none. `multiple`
     * is the wait in block waiting times. Without a block nothing can come, and the call only waits.
     */
    async receive(microseconds, multiple = 1) {
        const rest = waiting(microseconds);
        const block = this.#unsent;
        this.#unsent = null;
        const came = block ? await this.#exchange(block, multiple).catch((error) => {
            rest.cancel();
            throw error;
        }) : NONE;
        if (came.length) rest.cancel();
        else await rest.over;
        return came;
    }

    async #exchange(block, multiple) {
        const extended = multiple > 1 ? Math.min(multiple, 0xFF) : 0;
        const { status, reason, data } = await this.#command(TRANSFER, DATA, [extended, 0, 0], block);
        if (status !== FAILED) return data;
        if (reason === MUTE) return NONE;
        if (DAMAGED.includes(reason)) return Garbled.of(0);
        throw new Error(`the reader refused a block: reason ${reason}`);
    }

    /** Switches the card off, and closes the device. */
    async close() {
        await this.#command(POWER_OFF, SLOT_STATUS).catch(() => {});
        await this.#device.close();
    }
}
