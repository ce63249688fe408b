// The errors of the package. Each kind has a class, and all are a ScardError.
import { Codec, nameOf, sentenceOf, TurnKind } from './names.mjs';

/** What every error of this package is. */
export class ScardError extends Error {
    get name() {
        return this.constructor.name;
    }
}

const EXPLAINED = { [Codec.ATR]: 'atr', [Codec.BLOCK]: 'block', [Codec.CHAIN]: 'chain', [Codec.COMMAND]: 'command',
    [Codec.RESPONSE]: 'response', [Codec.TLV]: 'tlv', [Codec.DOL]: 'dol' };

/** Octets that a codec refused: `place`, `codec`, and what the program says of them. */
class Undecoded extends ScardError {
    #octets;
    #options;

    constructor(message, place, codec, octets, options) {
        super(message);
        this.place = place;
        this.codec = codec;
        this.#octets = octets;
        this.#options = options;
    }

    /**
     * What was expected, in a sentence of the program `scard`, or null if it has none. The first call loads the
     * program's module.
     */
    async expected() {
        if (!this.#octets || !EXPLAINED[this.codec]) return null;
        const { answer } = await import('./program.mjs');
        const digits = Array.from(this.#octets, (octet) => octet.toString(16).padStart(2, '0')).join('');
        const words = ['check', EXPLAINED[this.codec], digits || 'none', '--explain', ...this.#options];
        const lines = (await answer(words)).text.split('\n');
        return lines[0] === this.message ? lines[1] : null;
    }
}

/**
 * Octets are invalid. `place` is the first octet after which no encoding can continue, and `reason` the library's name
 * of the reason. `codec` says what the octets were decoded as.
 */
export class Refused extends Undecoded {
    constructor(place, reason, codec, octets, options = []) {
        super(`refused at ${place}: ${reason}`, place, codec, octets, options);
        this.reason = reason;
    }

    /** What is wrong with the octet at `place`, in a sentence of the library. */
    get sentence() {
        return sentenceOf(this.codec, this.reason);
    }
}

/**
 * Octets end too early: there are `place` of them, and more could still complete a value. `least` says how many more
 * must come at least: no value ends before, and some value ends then. It is null if a reader throws the error, since a
 * reader doesn't keep the octets.
 */
export class Short extends Undecoded {
    constructor(place, codec, octets, options = [], least = null) {
        super(`short at ${place}`, place, codec, octets, options);
        this.least = least;
    }
}

/** The library takes no such argument, or no octets encode such a value. */
export class InvalidArgument extends ScardError {}

/** Two known values of a data object list have the same tag. */
export class Duplicate extends ScardError {
    constructor() {
        super('two known values have the same tag');
    }
}

/** The object was closed before the call. */
export class Closed extends ScardError {
    constructor(what) {
        super(`the ${what} is closed`);
    }
}

/** Another call uses the session at the same time. */
export class InUse extends ScardError {
    constructor() {
        super('another call uses the session');
    }
}

/** An answer to reset has no parameters of T=1 that this stack can use. `fault` says why. */
export class NoT1 extends ScardError {
    constructor(fault, name) {
        super(name);
        this.fault = fault;
    }
}

/** An end or a session has no answer. `kind` says why. */
export class TurnError extends ScardError {
    constructor(kind, options) {
        super(nameOf(TurnKind, kind), options);
        this.kind = kind;
    }
}

/** An end or a session refused the call, and nothing changed. */
export class CallRefused extends TurnError {}

/** An exchange ended without an answer. */
export class NoAnswer extends TurnError {}
