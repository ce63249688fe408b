// A judge of the blocks on a line, and the times of the line (docs/JUDGE.md).
import { Held } from './held.mjs';
import { call, octetsOf, readStruct, structSize, within, writeStruct } from './library.mjs';
import { Arrival, Judged, Rule } from './names.mjs';
import { placeOf } from './octets.mjs';

const NONE = new Uint8Array();
const RULES = Object.values(Rule);
/** The rates before an exchange of PPS. */
const RATES = Object.freeze({ fi: 372, di: 1 });
/** Where the state of a judge is. */
let stateOf;

/** A judge from a reset of the card on. `ifsc` is the largest field that the card accepts, 1 to 254 octets. */
export class Judge {
    #held = new Held('judge', structSize('scard_lent_judge'));

    static {
        stateOf = (judge) => judge.#held.place;
    }

    constructor(ifsc) {
        try {
            placeOf(within((take) => call('scard_lent_judge_begin', take, this.#held.place, ifsc)));
        } catch (error) {
            this.close();
            throw error;
        }
    }

    /** The judgment that a call writes. `rule` and `due` are null unless the block is a deviation. */
    #judgment(name, ...values) {
        return within((take) => {
            const out = take(structSize('scard_judgment'));
            const verdict = call(`scard_lent_judge_${name}`, take, this.#held.place, ...values, out);
            if (verdict) placeOf(verdict);
            const { rule, due, ...made } = readStruct('scard_judgment', out);
            const deviates = made.verdict === Judged.DEVIATION;
            return Object.freeze({ ...made, rule: deviates ? rule : null, due: deviates ? Object.freeze(due) : null });
        });
    }

    /**
     * Judges the octets that were on the line as one block of an end. `came` is what arrived, if `arrival` is CAME.
     */
    block(end, octets, arrival = Arrival.UNSAID, came = NONE) {
        return this.#judgment('block', end, octetsOf(octets), arrival, octetsOf(came));
    }

    /**
     * Says which rules the block keeps, or which one it breaks, and what was due. The judge doesn't take it: `block`
     * does, with the same arguments. `broken` and `due` are null if there is none.
     */
    exercise(end, octets, arrival = Arrival.UNSAID, came = NONE) {
        return within((take) => {
            const out = take(structSize('scard_exercise'));
            placeOf(call('scard_lent_judge_exercise', take, this.#held.place, end, octetsOf(octets), arrival,
                octetsOf(came), out));
            const { kept, broken, due } = readStruct('scard_exercise', out);
            const rules = Object.freeze(RULES.filter((rule) => (kept >>> rule) & 1));
            return Object.freeze({ kept: rules, broken: broken || null, due: due || null });
        });
    }

    /** Takes a timeout of the terminal. The judgment says whether the card owed a block and sent none. */
    quiet() {
        return this.#judgment('quiet');
    }

    /** Says whether the card owes a block now. Nothing changes. */
    finish() {
        return this.#judgment('finish');
    }

    /** Frees the memory of the judge. After it, other calls throw Closed. */
    close() {
        this.#held.close();
    }
}

/** The moments of a block as the library takes them. One that is null isn't known. */
const momentsOf = (first, last) => ({ first: first ?? 0, last: last ?? 0, has_first: first !== null,
    has_last: last !== null });

/**
 * The times of a line from a reset of the card on, or from an exchange of PPS on. `t1` and `rates` are those in force,
 * and `hertz` is the frequency of the card's clock. A rate of 0 isn't known, and then no block is late or early.
 */
export class Times {
    #held = new Held('times', structSize('scard_lent_times'));

    constructor(t1, hertz, rates = RATES) {
        try {
            within((take) => {
                const [params, inForce] = [take(structSize('scard_t1')), take(structSize('scard_rates'))];
                writeStruct('scard_t1', params, t1);
                writeStruct('scard_rates', inForce, rates);
                placeOf(call('scard_lent_times_begin', take, this.#held.place, params, inForce, hertz));
            });
        } catch (error) {
            this.close();
            throw error;
        }
    }

    /**
     * Takes a block before the judge takes it, and says whether it came too late or too early. `first` and `last` are
     * when its first and its last octet began, in microseconds, or null. Call `block` of the judge next.
     */
    block(judge, end, octets, { first = null, last = null, arrival = Arrival.UNSAID, came = NONE } = {}) {
        return within((take) => {
            const [moments, out] = [take(structSize('scard_moments')), take(structSize('scard_timed'))];
            writeStruct('scard_moments', moments, momentsOf(first, last));
            placeOf(call('scard_lent_times_block', take, this.#held.place, stateOf(judge), end, octetsOf(octets),
                arrival, octetsOf(came), moments, out));
            const { over, ...timed } = readStruct('scard_timed', out);
            return Object.freeze({ ...timed, over: over === 1 });
        });
    }

    /** Frees the memory of the times. After it, other calls throw Closed. */
    close() {
        this.#held.close();
    }
}
