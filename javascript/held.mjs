// Memory of the module that an object holds.
import { Closed } from './errors.mjs';
import { freed, taken } from './library.mjs';

const forgotten = new FinalizationRegistry((piece) => freed(...piece));

/** Memory that an object holds until it is closed, or until nothing refers to it any more. */
export class Held {
    #place;
    #count;
    #what;

    constructor(what, count) {
        this.#what = what;
        this.#count = count;
        this.#place = taken(count);
        forgotten.register(this, [this.#place, count], this);
    }

    /** Where the memory is. Throws Closed after `close`. */
    get place() {
        if (!this.#place) throw new Closed(this.#what);
        return this.#place;
    }

    /** Overwrites the memory with zeros, and frees it. */
    close() {
        if (!this.#place) return;
        forgotten.unregister(this);
        freed(this.#place, this.#count);
        this.#place = 0;
    }
}
