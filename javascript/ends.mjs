// Both ends of T=1, step by step (ISO/IEC 7816-3, clause 11.6). They do no input and no output: each call says what to
// do next.
import { BLOCK_ROOM } from './block.mjs';
import { CallRefused } from './errors.mjs';
import { Held } from './held.mjs';
import { call, copyOf, octetsOf, structSize, within } from './library.mjs';
import { isRefusal, Status, TurnKind } from './names.mjs';
import { placeOf } from './octets.mjs';

/** The most octets of a command that an end takes. */
export const LONGEST_COMMAND = 65544;
/** The most octets of an answer that an end takes. */
export const LONGEST_ANSWER = 65538;

/** A room for messages: a whole number up to the longest message. */
function roomOf(room, longest) {
    if (!Number.isInteger(room) || room < 0 || room > longest) {
        throw new RangeError(`a room is a whole number of octets up to ${longest}`);
    }
    return room;
}

/** The memory of an end or of a session: its state, the buffers of commands and answers, and that of a block. */
export class Buffers {
    #held;
    #prefix;
    #rooms;

    constructor(what, struct, { commandRoom = LONGEST_COMMAND, answerRoom = LONGEST_ANSWER } = {}) {
        const rooms = [roomOf(commandRoom, LONGEST_COMMAND), roomOf(answerRoom, LONGEST_ANSWER)];
        this.#prefix = struct;
        this.#rooms = { state: structSize(struct), command: rooms[0], answer: rooms[1], block: BLOCK_ROOM };
        this.#held = new Held(what, Object.values(this.#rooms).reduce((sum, it) => sum + it, 0));
    }

    /** Where a part begins. */
    place(part) {
        const before = Object.keys(this.#rooms).slice(0, Object.keys(this.#rooms).indexOf(part));
        return before.reduce((sum, it) => sum + this.#rooms[it], this.#held.place);
    }

    /** Calls the library with the state and the two buffers. */
    call(name, take, ...values) {
        const { command, answer } = this.#rooms;
        return call(`${this.#prefix}_${name}`, take, this.place('state'), this.place('command'), command,
            this.place('answer'), answer, ...values);
    }

    /** The same with the buffer of a block as the last argument. */
    drive(name, take, ...values) {
        return this.call(name, take, ...values, this.place('block'), BLOCK_ROOM);
    }

    /** A copy of the front of a part. */
    front(part, count) {
        return copyOf(this.place(part), count);
    }

    /** Overwrites all of it, and frees it. */
    close() {
        this.#held.close();
    }
}

/** Calls what begins an end or a session, and frees its memory if that fails. */
export function begun(buffers, work) {
    try {
        placeOf(within(work));
    } catch (error) {
        buffers.close();
        throw error;
    }
}

/** What both ends have in common. */
class End {
    #buffers;

    constructor(what, { ifsc, bwi, cwi }, rooms) {
        this.#buffers = new Buffers(what, `scard_lent_${what}`, rooms);
        begun(this.#buffers, (take) => this.#buffers.call('begin', take, ifsc, bwi, cwi));
    }

    /** Drives the end. Returns a turn: its `kind`, `wait`, and at SEND the octets to send. */
    turn(name, ...values) {
        const { kind, wait, count } = within((take) => this.#buffers.drive(name, take, ...values));
        if (isRefusal(kind)) throw new CallRefused(kind);
        const sends = kind === TurnKind.SEND;
        return Object.freeze({ kind, wait, octets: this.#buffers.front('block', sends ? count : 0) });
    }

    /** A message of the end, or null if there is none. */
    message(name, part) {
        const { status, place } = within((take) => this.#buffers.call(name, take));
        return status === Status.OK ? this.#buffers.front(part, place) : null;
    }

    /** Takes what the line delivered as one block, valid or not. */
    received(octets) {
        return this.turn('received', octetsOf(octets));
    }

    /** Tells the other end the largest field that this one accepts, 1 to 254 octets. */
    askIfs(size) {
        return this.turn('ask_ifs', size);
    }

    /** Overwrites the last messages, and frees the memory of the end. After it, other calls throw Closed. */
    close() {
        this.#buffers.close();
    }
}

/**
 * A terminal. Begin it at a reset of its card, and at no other time. `commandRoom` and `answerRoom` are the most octets
 * of its messages.
 */
export class Terminal extends End {
    constructor(t1, rooms = {}) {
        super('terminal', t1, rooms);
    }

    /** Begins an exchange with a command. */
    transmit(command) {
        return this.turn('transmit', octetsOf(command));
    }

    /**
     * Says that nothing came within the wait of the last turn. Never call it earlier: what is proved of both ends rests
     * on their taking turns.
     */
    quiet() {
        return this.turn('quiet');
    }

    /** The answer, from the turn DONE until the next command. Otherwise null. */
    get answer() {
        return this.message('answer', 'answer');
    }
}

/** A card. Begin it at its reset. At the turn DONE its host has to reply to `command`. */
export class Card extends End {
    constructor(t1, rooms = {}) {
        super('card', t1, rooms);
    }

    /** Takes the reply of the host. */
    reply(octets) {
        return this.turn('reply', octetsOf(octets));
    }

    /** Asks the terminal for a number of block waiting times. */
    moreTime(multiple) {
        return this.turn('more_time', multiple);
    }

    /** The command to which the host has to reply. Otherwise null. */
    get command() {
        return this.message('command', 'command');
    }
}
