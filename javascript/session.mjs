// Sessions of T=1 over a line. The steps of the library decide when to send, how long to wait, and what a burst is. The
// classes here only send, wait, and say what happened.
import { clock, waiting } from './clock.mjs';
import { CallRefused, InUse, NoAnswer } from './errors.mjs';
import { octetsOf } from './library.mjs';
import { Event, isRefusal, TurnKind } from './names.mjs';
import { CardSessionSteps, SessionSteps } from './steps.mjs';

const NONE = new Uint8Array();

/** Octets of which the receiver found one damaged, by its parity for example. A line may return them. */
export class Garbled extends Uint8Array {}

/** What a host returns that needs a number of block waiting times. */
export class MoreTime {
    constructor(multiple) {
        this.multiple = multiple;
    }
}

/** What a host returns so that its card accepts fields of another size from now on. */
export class AskIfs {
    constructor(size) {
        this.size = size;
    }
}

/** The reads of lines that no octet ended within their wait. They go on, so no octet is lost. */
const reads = new WeakMap();

/** The read of a line that goes on, or a new one. Its result is there once it has one. */
function readOf(line) {
    if (!reads.has(line)) {
        const read = { result: null };
        const kept = (result) => (read.result = result);
        read.over = Promise.resolve(line.read()).then((octets) => kept({ octets }), (error) => kept({ error }));
        reads.set(line, read);
    }
    return reads.get(line);
}

/** What a line has within a wait, or no octets. */
async function readWithin(line, microseconds) {
    const read = readOf(line);
    const timer = microseconds === Infinity ? null : waiting(microseconds + (line.late ?? 0));
    await Promise.race(timer ? [read.over, timer.over] : [read.over]);
    timer?.cancel();
    // A program that didn't run for a while sees its timer before the octets that came meanwhile: it looks once more.
    if (!read.result) await waiting(0).over;
    if (!read.result) return NONE;
    reads.delete(line);
    const { octets, error } = read.result;
    if (error) throw error;
    if (!octets?.byteLength) throw new Error('the line has ended');
    return octets;
}

/** The loop of both ends. */
class OverLine {
    #line;
    #steps;
    #now;
    #isUsed = false;

    constructor(line, steps, { now = clock } = {}) {
        this.#line = line;
        this.#steps = steps;
        this.#now = now;
    }

    /** Begins something by the steps, and goes on until the session rests. */
    async rest(begin) {
        let step = begin(this.#steps, this.#now());
        while (!step.rests) {
            let happened;
            try {
                happened = await this.#happens(step);
            } catch (cause) {
                throw new NoAnswer(this.#steps.step(Event.FAILED, NONE, this.#now()).kind, { cause });
            }
            step = this.#steps.step(...happened, this.#now());
        }
        return step;
    }

    /** Does what a step says, and returns what happened. */
    async #happens({ kind, octets, wait }) {
        if (kind === TurnKind.SEND) {
            await this.#line.write(octets);
            return [Event.SENT, NONE];
        }
        const came = await (this.#line.receive ? this.#line.receive(wait, Math.ceil(wait / this.#steps.bwt)) :
            readWithin(this.#line, wait));
        if (!came?.byteLength) return [came ? Event.SILENT : Event.CAME, NONE];
        return [came instanceof Garbled ? Event.GARBLED : Event.CAME, octetsOf(came)];
    }

    /** Does something unless another call uses the session. */
    async alone(work) {
        if (this.#isUsed) throw new InUse();
        this.#isUsed = true;
        try {
            return await work();
        } finally {
            this.#isUsed = false;
        }
    }

    /**
     * Overwrites the last messages, and frees the memory of the session. After it, other calls throw Closed. The line
     * stays open.
     */
    close() {
        if (this.#isUsed) throw new InUse();
        this.#steps.close();
    }
}

/** A step of the wanted kind. Throws for any other. */
function wanted(step, kind) {
    if (isRefusal(step.kind)) throw new CallRefused(step.kind);
    if (step.kind !== kind) throw new NoAnswer(step.kind);
    return step;
}

/** A terminal's session over a line. Begin it at a reset of the card: never a new terminal at a card that goes on. */
export class AsyncSession extends OverLine {
    constructor(line, setup, options) {
        super(line, new SessionSteps(setup), options);
    }

    #until(kind, begin) {
        return this.alone(async () => wanted(await this.rest(begin), kind));
    }

    /**
     * Sends a command, and returns its answer. Throws NoAnswer, whose `kind` says how the exchange ended: after
     * GIVEN_UP and SESSION_NO_STATUS the session goes on, and after another one it doesn't.
     */
    async exchange(command) {
        const octets = octetsOf(command).slice();
        return (await this.#until(TurnKind.DONE, (steps, now) => steps.exchange(octets, now))).octets;
    }

    /** Tells the card the largest field that the terminal accepts, 1 to 254 octets. */
    async askIfs(size) {
        await this.#until(TurnKind.IFS_SET, (steps, now) => steps.askIfs(size, now));
    }

    /** Begins again with a card that can't be reset, or after a session that isn't over. */
    async resync() {
        await this.#until(TurnKind.GIVEN_UP, (steps, now) => steps.resync(now));
    }
}

/** The step after what a host said. */
function said(steps, words, now) {
    const step = words instanceof MoreTime ? steps.moreTime(words.multiple, now) :
        words instanceof AskIfs ? steps.askIfs(words.size, now) : steps.reply(octetsOf(words), now);
    if (isRefusal(step.kind)) throw new CallRefused(step.kind);
    return step;
}

/** A card's session over a line. Begin it at a reset of the card. */
export class AsyncCardSession extends OverLine {
    #steps;

    constructor(line, setup, options) {
        const steps = new CardSessionSteps(setup);
        super(line, steps, options);
        this.#steps = steps;
    }

    /**
     * Serves the terminal until the host returns null. The host is a function, which may return a promise. It gets a
     * command, and how many of its requests about it the terminal granted: 0 at a new command. It returns a reply, a
     * MoreTime, an AskIfs, or null. Throws NoAnswer if the line failed. It may be called again then.
     */
    serve(host) {
        return this.alone(async () => {
            let begin = (steps, now) => steps.serve(now);
            for (;;) {
                const { octets } = wanted(await this.rest(begin), TurnKind.DONE);
                const words = await host(octets, this.#steps.granted);
                if (words === null) return;
                begin = (steps, now) => said(steps, words, now);
            }
        });
    }
}
