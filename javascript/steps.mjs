// Sessions of T=1 as steps: an end with the times, bursts and limits of its line. The library decides all of it. The
// steps do no input and no output.
import { Buffers, begun } from './ends.mjs';
import { octetsOf, readField, structSize, within, writeStruct } from './library.mjs';
import { TurnKind } from './names.mjs';

const GOES_ON = [TurnKind.SEND, TurnKind.SESSION_WAIT];
/** Where the octets of a step are, by its kind, at a terminal and at a card. */
const HAS_OCTETS = { [TurnKind.DONE]: ['answer', 'command'], [TurnKind.SESSION_NO_STATUS]: ['answer', 'command'],
    [TurnKind.SEND]: ['block', 'block'] };

/** The numbers of a setup as the library takes them. */
function membersOf({ t1, fi = 372, di = 1, hertz = 3571200, silence = 0, mostMicroseconds = 0, mostBlocks = 0,
    echo = false, refusesEmpty = false, hostTakesShort = false }, hasClock) {
    const { ifsc, bwi, cwi } = t1;
    return { silence, most_time: mostMicroseconds, most_blocks: mostBlocks, hertz, fi, di, ifsc, bwi, cwi,
        has_clock: hasClock, has_echo: echo, refuses_empty: refusesEmpty, host_takes_short: hostTakesShort };
}

/** A time as the library takes it: whole microseconds. */
const timeOf = (now) => (typeof now === 'number' ? Math.floor(now) : now);

/** What the steps of both ends have in common. */
class Steps {
    #buffers;
    #struct;
    #setup;
    #isCard;

    constructor(what, struct, isCard, setup, { hasClock = true } = {}) {
        this.#buffers = new Buffers(what, struct, setup);
        this.#struct = struct;
        this.#isCard = isCard;
        begun(this.#buffers, (take) => {
            this.#setup = membersOf(setup, hasClock);
            return this.#buffers.call('begin', take, this.setup(take));
        });
    }

    /** Writes the setup to the module's memory, and returns its place. */
    setup(take) {
        const place = take(structSize('scard_lent_setup'));
        writeStruct('scard_lent_setup', place, this.#setup);
        return place;
    }

    /** Drives the session, and returns what to do next. `values` are numbers, octets, or a function that makes one. */
    next(name, now, ...values) {
        return this.stepOf((take) => this.#buffers.drive(name, take, ...values.map((it) => (typeof it === 'function' ?
            it(take) : it)), timeOf(now)));
    }

    /** What a call of the library says to do next. */
    stepOf(work) {
        const { kind, count, wait } = within((take) => work(take, this.#buffers));
        const part = HAS_OCTETS[kind]?.[Number(this.#isCard)] ?? 'block';
        const octets = this.#buffers.front(part, HAS_OCTETS[kind] ? count : 0);
        return Object.freeze({ kind, wait, octets, rests: !GOES_ON.includes(kind) });
    }

    /** A named member of the session's state. */
    field(name) {
        return readField(this.#struct, name, this.#buffers.place('state'));
    }

    /** The block waiting time in microseconds. */
    get bwt() {
        return this.field('line').rules.bwt;
    }

    /** Takes what happened, an Event. Only CAME and GARBLED have octets. */
    step(event, octets, now) {
        return this.next('step', now, event, octetsOf(octets));
    }

    /** Tells the other end the largest field that this one accepts, 1 to 254 octets. */
    askIfs(size, now) {
        return this.next('ask_ifs', now, size);
    }

    /** Overwrites the last messages, and frees the memory of the session. After it, other calls throw Closed. */
    close() {
        this.#buffers.close();
    }
}

/**
 * A terminal's session as steps, for a program with a loop of its own. `now` is the program's clock in microseconds.
 * Without a clock, pass 0 each time, and set `hasClock` to false.
 */
export class SessionSteps extends Steps {
    constructor(setup, options) {
        super('session', 'scard_lent_session', false, setup, options);
    }

    /** Begins to send a command. */
    exchange(command, now) {
        return this.next('exchange', now, octetsOf(command));
    }

    /** Begins again with a card that can't be reset. */
    resync(now) {
        return this.next('resync', now, (take) => this.setup(take));
    }
}

/** A card's session as steps. At DONE its host owes a reply to the command in `octets`. */
export class CardSessionSteps extends Steps {
    constructor(setup, options) {
        super('session', 'scard_lent_card_session', true, setup, options);
    }

    /** Begins to serve the terminal, or goes on after the line failed. */
    serve(now) {
        return this.stepOf((take, buffers) => buffers.call('serve', take, timeOf(now)));
    }

    /** Takes the reply of the host. */
    reply(octets, now) {
        return this.next('reply', now, octetsOf(octets));
    }

    /** Asks the terminal for a number of block waiting times. */
    moreTime(multiple, now) {
        return this.next('more_time', now, multiple);
    }

    /** How many requests of the host about the present command the terminal granted. If 0, the command is new. */
    get granted() {
        return this.field('granted');
    }
}
