// Blocks of T=1 (ISO/IEC 7816-3, clause 11.3), and messages cut into chains of them (clause 11.6).
import { InvalidArgument } from './errors.mjs';
import { api, call, octetsOf, readStruct, structSize, within } from './library.mjs';
import { Codec, Fault, Kind } from './names.mjs';
import { encoded, placeOf } from './octets.mjs';

/** The most octets of a block. */
export const BLOCK_ROOM = api.constants.SCARD_BLOCK_ROOM;
/** The most octets of an information field. */
export const LONGEST_FIELD = BLOCK_ROOM - 4;

const NONE = new Uint8Array();

/** A block: its node address, its control octet, and its information field. */
export class Block {
    constructor({ nad = 0, pcb, inf = NONE }) {
        Object.assign(this, { nad, pcb, inf: octetsOf(inf).slice() });
        Object.freeze(this);
    }

    /**
     * The block at the start of octets. An I-block has at most `ifs` octets of information. Octets after the block are
     * left out.
     */
    static decode(octets, ifs = LONGEST_FIELD) {
        return decoded(octetsOf(octets), ifs).block;
    }

    /** How many octets the block at the start of octets takes. Throws as `decode` does. */
    static check(octets, ifs = LONGEST_FIELD) {
        return decoded(octetsOf(octets), ifs).count;
    }

    /** An I-block. `more` says that more blocks of its chain follow. */
    static i(number, inf = NONE, { more = false, nad = 0 } = {}) {
        return made('scard_block_i', nad, number, more, octetsOf(inf));
    }

    /** An R-block that expects the I-block with a number. */
    static r(number, fault = Fault.FREE, { nad = 0 } = {}) {
        return made('scard_block_r', nad, number, fault);
    }

    /** An S-block that requests. */
    static request(about, inf = NONE, { nad = 0 } = {}) {
        return made('scard_block_s_request', nad, about, octetsOf(inf));
    }

    /** An S-block that responds. */
    static response(about, inf = NONE, { nad = 0 } = {}) {
        return made('scard_block_s_response', nad, about, octetsOf(inf));
    }

    /** The octets of the block. */
    encode() {
        return encoded('scard_block_encode', BLOCK_ROOM, this.nad, this.pcb, this.inf);
    }

    /** What the control octet says, of `kind`, `number`, `more`, `fault` and `about`. */
    get control() {
        return controlOf(this.pcb);
    }

    /** Whether it is an I-block, an R-block, or an S-block that requests or responds. */
    get kind() {
        return this.control.kind;
    }

    /** The number of an I-block, or the one that an R-block expects. Null at an S-block. */
    get number() {
        return this.control.number;
    }

    /** Whether more blocks of an I-block's chain follow. */
    get more() {
        return this.control.more;
    }

    /** What an R-block reports. Null at another block. */
    get fault() {
        return this.control.fault;
    }

    /** What an S-block is about. Null at another block. */
    get about() {
        return this.control.about;
    }
}

/** The kinds of blocks, from number 1 of the library on. */
const KINDS = [Kind.I, Kind.R, Kind.REQUEST, Kind.RESPONSE];

/** What the library says of a control octet. A part that the kind of block lacks is null, and `more` is false. */
function controlOf(pcb) {
    const said = within((take) => {
        const out = take(structSize('scard_pcb'));
        call('scard_block_parts', take, pcb, out);
        return readStruct('scard_pcb', out);
    });
    const kind = KINDS[said.kind - 1];
    if (!kind) throw new InvalidArgument('no block has this control octet');
    const isNumbered = kind === Kind.I || kind === Kind.R;
    return Object.freeze({ kind, number: isNumbered ? said.number : null, more: said.more !== 0,
        fault: kind === Kind.R ? said.fault : null, about: isNumbered ? null : said.about });
}

function decoded(held, ifs) {
    return within((take) => {
        const out = take(structSize('scard_block'));
        const verdict = call('scard_block_decode', take, held, ifs, out);
        const count = placeOf(verdict, Codec.BLOCK, held, ['--ifs', String(ifs)]);
        const { nad, pcb, inf_place, inf_len } = readStruct('scard_block', out);
        return { count, block: new Block({ nad, pcb, inf: held.subarray(inf_place, inf_place + inf_len) }) };
    });
}

function made(name, ...values) {
    return Block.decode(encoded(name, BLOCK_ROOM, ...values));
}

/**
 * The chain of a message, as an array of blocks. Each field has `ifs` octets, except the last, which may have fewer.
 * `number` is that of the first block.
 */
export function cut(message, ifs, number = 0) {
    const held = octetsOf(message);
    const blocks = [];
    let left = encoded('scard_chain_cut', roomOf(held.length, ifs), held, ifs, number);
    while (left.length) {
        const { block, count } = decoded(left.subarray(0, BLOCK_ROOM), LONGEST_FIELD);
        blocks.push(block);
        left = left.subarray(count);
    }
    return blocks;
}

/** The room of a chain: the message, and 4 octets for each block. */
function roomOf(count, ifs) {
    return count + 4 * (Math.ceil(count / Math.max(1, Number(ifs))) + 1);
}
