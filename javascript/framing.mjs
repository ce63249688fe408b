// Octets that arrive in pieces: bursts, and readers of one value each.
import { Atr } from './atr.mjs';
import { Block, LONGEST_FIELD } from './block.mjs';
import { Held } from './held.mjs';
import { call, copyOf, numberOf, octetsOf, readField, structSize, within } from './library.mjs';
import { Codec, Status } from './names.mjs';
import { placeOf } from './octets.mjs';
import { LARGEST } from './tlv.mjs';

/** A time in microseconds that has no limit. */
export const FOREVER = Infinity;
/** The most octets of a message that a receiver of chains takes. */
export const LONGEST_MESSAGE = 131072;

const FRAMER = 'scard_lent_framer';

/** A burst: octets that came without a silence long enough to end it. A block is always a whole burst. */
export class Framer {
    #held = new Held('framer', structSize(FRAMER));

    constructor() {
        this.begin();
    }

    #call(name, ...values) {
        return within((take) => call(`${FRAMER}_${name}`, take, this.#held.place, ...values));
    }

    /** Begins a burst without octets. */
    begin() {
        this.#call('begin');
    }

    /** Appends octets that arrived. */
    feed(octets) {
        this.#call('feed', octetsOf(octets));
    }

    /** Whether the burst so far is a whole block, with nothing after it. */
    get isWhole() {
        return Boolean(this.#call('is_whole'));
    }

    /** How many octets came, including those that the framer doesn't keep. */
    get count() {
        return readField(FRAMER, 'count', this.#held.place);
    }

    /** The octets to pass to an end once the burst has ended, at most 259. */
    get burst() {
        return readField(FRAMER, 'octets', this.#held.place).slice(0, this.#call('burst'));
    }

    /**
     * How long a silence now ends the burst: `first` before the first octet, `after` once the burst is a whole block,
     * and `inside` otherwise.
     */
    wait({ first, inside, after }) {
        return this.#call('wait', first, inside, after);
    }

    /** Frees the memory of the framer. After it, other calls throw Closed. */
    close() {
        this.#held.close();
    }
}

/** A reader of one value whose octets come in pieces. `feed` says whether the value is complete. */
class Reader {
    #held;
    #name;
    #codec;
    #room;
    #size;

    constructor(name, codec, room, ...values) {
        const struct = `scard_lent_${name}`;
        this.#name = name;
        this.#codec = codec;
        this.#room = room;
        this.#size = structSize(struct);
        this.#held = new Held('reader', this.#size + room);
        try {
            const verdict = within((take) => call(`${struct}_begin`, take, this.#held.place, ...values));
            if (verdict) placeOf(verdict);
        } catch (error) {
            this.close();
            throw error;
        }
    }

    /** The place of the state, and after it the place and the size of the caller's buffer, if there is one. */
    get state() {
        const { place } = this.#held;
        return this.#room ? [place, place + this.#size, this.#room] : [place];
    }

    /** Calls the library on the state. */
    verdict(name, ...values) {
        return within((take) => call(`scard_lent_${this.#name}_${name}`, take, ...this.state, ...values));
    }

    /**
     * Takes the next octets. Returns how many of this piece completed the value, or null if more have to come. Throws
     * Refused with the place in all octets; later calls throw it again.
     */
    feed(octets) {
        const verdict = this.verdict('feed', octetsOf(octets));
        return verdict.status === Status.MORE ? null : placeOf(verdict, this.#codec);
    }

    /** Throws Short unless the value is complete, or Refused. */
    finish() {
        placeOf(this.verdict('finish'), this.#codec);
    }

    /** Frees the memory of the reader, and overwrites what it held. After it, other calls throw Closed. */
    close() {
        this.#held.close();
    }
}

/** The octets of a reader that keeps them in its state, once the value is complete. */
function octetsIn(reader, name, out) {
    const count = within((take) => placeOf(call(`scard_lent_${name}_value`, take, ...reader.state,
        take(structSize(out)))));
    return readField(`scard_lent_${name}`, 'octets', reader.state[0]).slice(0, count);
}

/** A reader of one answer to reset. */
export class AtrReader extends Reader {
    constructor() {
        super('atr_reader', Codec.ATR, 0);
    }

    /** The answer to reset, once it is complete. */
    get value() {
        return Atr.decode(octetsIn(this, 'atr_reader', 'scard_atr'));
    }
}

/**
 * A reader of one block, by LEN. On a line where octets can be lost or damaged, use a Framer: there LEN may be the
 * octet that is wrong.
 */
export class BlockReader extends Reader {
    constructor(ifs = LONGEST_FIELD) {
        super('block_reader', Codec.BLOCK, 0, ifs);
    }

    /** The block, once it is complete. */
    get value() {
        return Block.decode(octetsIn(this, 'block_reader', 'scard_block'));
    }
}

/** A receiver of one chain of blocks, whose message has at most `most` octets. */
export class Receiver extends Reader {
    constructor({ ifs = LONGEST_FIELD, number = 0, most = LONGEST_MESSAGE } = {}) {
        const room = Math.max(1, Math.min(Number(numberOf('size_t', most)), LONGEST_MESSAGE));
        super('receiver', Codec.CHAIN, room, ifs, number, most);
    }

    /** Begins anew, for a chain whose first block has a number. The octets of the last message are overwritten. */
    restart(number = 0) {
        placeOf(this.verdict('restart', number));
    }

    /** The message, once the chain is complete. */
    get message() {
        const count = placeOf(this.verdict('message'));
        return copyOf(this.state[1], count);
    }
}

/**
 * A check of a forest whose octets come in pieces. It keeps none of them. `feed` always returns null, since a forest
 * has no end of its own.
 */
export class TlvReader extends Reader {
    constructor(most = LARGEST) {
        super('check', Codec.TLV, 0, most);
    }
}
