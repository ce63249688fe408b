// Commands and responses (ISO/IEC 7816-3, clause 12, and ISO/IEC 7816-4, clause 5.1).
import { InvalidArgument } from './errors.mjs';
import { call, octetsOf, readStruct, structSize, within, writeStruct } from './library.mjs';
import { Codec, note, Noted, Shape } from './names.mjs';
import { encoded, placeOf } from './octets.mjs';

const NONE = new Uint8Array();
/** The cases by whether there are a data field and an Le field: with short length fields, and with extended ones. */
const SHAPES = {
    'false,false': [Shape.CASE_1], 'false,true': [Shape.CASE_2_SHORT, Shape.CASE_2_LONG],
    'true,false': [Shape.CASE_3_SHORT, Shape.CASE_3_LONG], 'true,true': [Shape.CASE_4_SHORT, Shape.CASE_4_LONG],
};
/** The most octets that the header and the length fields of a command have. */
const BESIDE_DATA = 9;

/**
 * A command: its header, its case, its data field, and the most octets that it expects in the response, or null without
 * an Le field.
 */
export class Command {
    constructor({ cla, ins, p1, p2, shape, data = NONE, le = null }) {
        Object.assign(this, { cla, ins, p1, p2, shape, data: octetsOf(data).slice(), le });
        Object.freeze(this);
    }

    /**
     * A command in the case that its data field and Le make. Its length fields are short if they can express these
     * values and `extended` is false. Throws InvalidArgument if no length field can.
     */
    static of(cla, ins, p1, p2, { data = NONE, le = null, extended = false } = {}) {
        const shapes = SHAPES[[octetsOf(data).length > 0, le !== null]];
        for (const shape of extended ? shapes.slice(-1) : shapes) {
            const command = new Command({ cla, ins, p1, p2, shape, data, le });
            if (hasOctets(command)) return command;
        }
        throw new InvalidArgument('no length field can express these values');
    }

    /** The command that all of the octets are. */
    static decode(octets) {
        const held = octetsOf(octets);
        return within((take) => {
            const out = take(structSize('scard_command'));
            placeOf(call('scard_command_decode', take, held, out), Codec.COMMAND, held);
            const { cla, ins, p1, p2, shape, has_le, le, data_place, data_len } = readStruct('scard_command', out);
            const data = held.subarray(data_place, data_place + data_len);
            return new Command({ cla, ins, p1, p2, shape, data, le: has_le ? le : null });
        });
    }

    /** The octets of the command. */
    encode() {
        return within((take) => {
            const place = take(structSize('scard_command'));
            const { cla, ins, p1, p2, shape, le } = this;
            writeStruct('scard_command', place, { cla, ins, p1, p2, shape, has_le: le !== null, le: le ?? 0 });
            return encoded('scard_command_encode', this.data.length + BESIDE_DATA, place, this.data);
        });
    }

    /** What the standard says of CLA and INS, or null. */
    get note() {
        return note(Noted.INSTRUCTION, this.cla, this.ins);
    }
}

function hasOctets(command) {
    try {
        return command.encode().length > 0;
    } catch (error) {
        if (error instanceof InvalidArgument) return false;
        throw error;
    }
}

/** A response: its data field and its two status bytes. */
export class Response {
    constructor({ data = NONE, sw1, sw2 }) {
        Object.assign(this, { data: octetsOf(data).slice(), sw1, sw2 });
        Object.freeze(this);
    }

    /** The response that all of the octets are. */
    static decode(octets) {
        const held = octetsOf(octets);
        return within((take) => {
            const out = take(structSize('scard_response'));
            placeOf(call('scard_response_decode', take, held, out), Codec.RESPONSE, held);
            const { sw1, sw2, data_len } = readStruct('scard_response', out);
            return new Response({ data: held.subarray(0, data_len), sw1, sw2 });
        });
    }

    /** The octets of the response. */
    encode() {
        return encoded('scard_response_encode', this.data.length + 2, this.data, this.sw1, this.sw2);
    }

    /** Both status bytes as one number, SW1 first. */
    get sw() {
        return this.sw1 * 256 + this.sw2;
    }

    /** The class of the status bytes, a StatusClass. */
    get statusClass() {
        return within((take) => call('scard_status_class', take, this.sw1, this.sw2));
    }

    /** What the standard says of the status bytes, or null. */
    get note() {
        return note(Noted.STATUS, this.sw1, this.sw2);
    }
}
