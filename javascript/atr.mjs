// Answers to reset (ISO/IEC 7816-3, clause 8).
import { InvalidArgument, NoT1 } from './errors.mjs';
import { api, call, octetsOf, readStruct, structSize, within, writeStruct } from './library.mjs';
import { Codec, nameOf, Status, T1Fault } from './names.mjs';
import { encoded, placeOf } from './octets.mjs';

const ROOM = api.constants.SCARD_ATR_ROOM;

/** The parameters of T=1: the field size of the card in octets, and the indexes of its two waiting times. */
export class T1 {
    constructor({ ifsc, bwi, cwi }) {
        Object.assign(this, { ifsc, bwi, cwi });
        Object.freeze(this);
    }

    /** The character waiting time in etu (clause 11.4). */
    get cwt() {
        return this.#time('scard_t1_cwt');
    }

    /** The block waiting time in clock cycles divided by `di`, with the integers in use. */
    bwt(fi = 372, di = 1) {
        return this.#time('scard_t1_bwt', fi, di);
    }

    #time(name, ...values) {
        const time = within((take) => {
            const place = take(structSize('scard_t1'));
            writeStruct('scard_t1', place, this);
            return call(name, take, place, ...values);
        });
        if (!time) throw new InvalidArgument('no card has these parameters of T=1');
        return time;
    }
}

/** Interface bytes, of which one that is absent is null. */
const frozen = ({ ta = null, tb = null, tc = null }) => Object.freeze({ ta, tb, tc });

const bytesOf = ({ has_ta, ta, has_tb, tb, has_tc, tc }) => ({ ta: has_ta ? ta : null, tb: has_tb ? tb : null,
    tc: has_tc ? tc : null });

const membersOf = ({ ta, tb, tc }) => ({ has_ta: ta !== null, ta: ta ?? 0, has_tb: tb !== null,
    tb: tb ?? 0, has_tc: tc !== null, tc: tc ?? 0 });

/**
 * An answer to reset. `first` has TA1, TB1 and TC1, and `indicated` the TDs: a protocol each, and the interface bytes
 * after it. A byte that is absent is null. Encoding computes `tck` and leaves this one out.
 */
export class Atr {
    constructor({ isInverse = false, first = {}, indicated = [], historical = new Uint8Array(), tck = null }) {
        const held = indicated.map(({ protocol, interface: bytes }) =>
            Object.freeze({ protocol, interface: frozen(bytes) }));
        Object.assign(this, { isInverse, first: frozen(first), indicated: Object.freeze(held),
            historical: octetsOf(historical).slice(), tck });
        Object.freeze(this);
    }

    /** The answer to reset at the start of octets. Octets after it are left out. */
    static decode(octets) {
        const held = octetsOf(octets);
        return within((take) => {
            const out = take(structSize('scard_atr'));
            placeOf(call('scard_atr_decode', take, held, out), Codec.ATR, held);
            return Atr.#of(readStruct('scard_atr', out));
        });
    }

    static #of(made) {
        const indicated = made.indicated.slice(0, made.indicated_count).map(({ protocol, bytes }) =>
            ({ protocol, interface: bytesOf(bytes) }));
        return new Atr({ isInverse: Boolean(made.convention), first: bytesOf(made.first), indicated, historical: made.historical.slice(0, made.historical_count),
            tck: made.has_tck ? made.tck : null });
    }

    /** How many octets the answer at the start of octets takes. Throws as `decode` does. */
    static check(octets) {
        const held = octetsOf(octets);
        return within((take) => placeOf(call('scard_atr_check', take, held), Codec.ATR, held));
    }

    /** Writes the answer to the module's memory, and returns its place. */
    #placed(take) {
        const most = (name) => api.structs.scard_atr.members.find((it) => it.name === name).count;
        if (this.indicated.length > most('indicated') || this.historical.length > most('historical')) {
            throw new InvalidArgument('no answer to reset has as many octets');
        }
        const place = take(structSize('scard_atr'));
        const indicated = this.indicated.map((it) => ({ protocol: it.protocol, bytes: membersOf(it.interface) }));
        writeStruct('scard_atr', place, { convention: this.isInverse, first: membersOf(this.first),
            indicated_count: indicated.length, indicated, historical_count: this.historical.length,
            historical: this.historical, has_tck: 0, tck: 0 });
        return place;
    }

    /** The octets of the answer. */
    encode() {
        return within((take) => encoded('scard_atr_encode', ROOM, this.#placed(take)));
    }

    /** The protocols that the TDs indicate, in their order. */
    get protocols() {
        return this.indicated.map((it) => it.protocol);
    }

    /** The parameters of T=1 (clause 11.4). Throws NoT1 if the answer has none that this stack can use. */
    t1() {
        return within((take) => {
            const out = take(structSize('scard_t1'));
            const fault = call('scard_atr_t1_params', take, this.#placed(take), out);
            if (fault === T1Fault.USABLE) return new T1(readStruct('scard_t1', out));
            if (fault === Status.ARGUMENT) throw new InvalidArgument('no octets are this answer to reset');
            throw new NoT1(fault, nameOf(T1Fault, fault));
        });
    }

    /** The integers Fi and Di of TA1 (clause 8.3). A reserved one is 0. */
    rates() {
        return within((take) => {
            const out = take(structSize('scard_rates'));
            const status = call('scard_atr_rates', take, this.#placed(take), out);
            if (status !== Status.OK) throw new InvalidArgument('no octets are this answer to reset');
            return readStruct('scard_rates', out);
        });
    }
}
