// The library: its calls over the memory of the module. The structs and parameters are those of api.json, where the
// module's pointers have 64 bits, as in its 64-bit form. This file moves numbers and octets, and decides nothing about
// them.
import { instanceOf, octetsOf as fileOf } from './load.mjs';

const [instance, file] = await Promise.all([instanceOf('libscard.wasm'), fileOf('api.json')]);
const module = instance.exports;

/** What api.json says of the library. */
export const api = JSON.parse(new TextDecoder().decode(file));

const WIDTH = '64';
const GRAIN = 16;
const PAGE = 65536;
/** Octets and largest value of each type of a number. */
const NUMBERS = {
    uint8_t: [1, 2n ** 8n], bool: [1, 2n], char: [1, 2n ** 8n], uint16_t: [2, 2n ** 16n], uint32_t: [4, 2n ** 32n],
    uint64_t: [8, 2n ** 64n], size_t: [8, 2n ** 64n], scard_size: [8, 2n ** 64n],
};
/** A time without a limit is Infinity here, and the largest number of 64 bits in the library. */
const UNLIMITED = 2n ** 64n - 1n;

/** The octets of a buffer: an ArrayBuffer, or a view of one, such as a Uint8Array. */
export function octetsOf(value) {
    if (ArrayBuffer.isView(value)) return new Uint8Array(value.buffer, value.byteOffset, value.byteLength);
    const kind = Object.prototype.toString.call(value);
    if (kind === '[object ArrayBuffer]' || kind === '[object SharedArrayBuffer]') return new Uint8Array(value);
    throw new TypeError('octets are an ArrayBuffer or a view of one, such as a Uint8Array');
}

/** A number as the library takes it: a whole number of a type. Infinity is a time without a limit. */
export function numberOf(type, value) {
    if (type === 'bool' || typeof value === 'boolean') return BigInt(Boolean(value));
    if (typeof value !== 'bigint' && typeof value !== 'number') throw new TypeError(`${value} isn't a number`);
    const made = value === Infinity && NUMBERS[type][0] === 8 ? UNLIMITED : whole(value);
    if (made < 0n || made >= NUMBERS[type][1]) throw new RangeError(`${value} is too large, or below 0`);
    return made;
}

function whole(value) {
    if (typeof value === 'bigint' || Number.isSafeInteger(value)) return BigInt(value);
    throw new RangeError(`${value} isn't a whole number`);
}

/** A number of the library as JavaScript has it: a time without a limit is Infinity. */
export function plain(value) {
    return value === UNLIMITED ? Infinity : Number(value);
}

/** The memory after the module's own data, as free pieces in the order of their places. */
class Heap {
    #pieces = [];

    constructor() {
        const begin = Math.ceil(Number(module.__heap_base.value) / GRAIN) * GRAIN;
        this.free(begin, module.memory.buffer.byteLength - begin);
    }

    /** Takes a piece of at least so many octets, and returns its place. */
    take(count) {
        const size = sizeOf(count);
        const at = this.#pieces.findIndex((it) => it.size >= size);
        if (at < 0) {
            this.free(PAGE * module.memory.grow(Math.ceil(size / PAGE)), PAGE * Math.ceil(size / PAGE));
            return this.take(count);
        }
        const piece = this.#pieces[at];
        piece.size -= size;
        if (!piece.size) this.#pieces.splice(at, 1);
        return piece.place + piece.size;
    }

    /** Overwrites a piece with zeros and frees it, joined with its free neighbours. */
    free(place, count) {
        const size = sizeOf(count);
        new Uint8Array(module.memory.buffer, place, size).fill(0);
        let at = this.#pieces.findIndex((it) => it.place > place);
        if (at < 0) at = this.#pieces.length;
        const [before, after] = [this.#pieces[at - 1], this.#pieces[at]];
        const joins = after && place + size === after.place;
        if (before && before.place + before.size === place) {
            before.size += size + (joins ? after.size : 0);
            if (joins) this.#pieces.splice(at, 1);
        } else if (joins) {
            Object.assign(after, { place, size: after.size + size });
        } else {
            this.#pieces.splice(at, 0, { place, size });
        }
    }

    /** How many octets are free, and how many the memory has. */
    measure() {
        return { free: this.#pieces.reduce((sum, it) => sum + it.size, 0), all: module.memory.buffer.byteLength };
    }
}

function sizeOf(count) {
    return Math.max(GRAIN, Math.ceil(count / GRAIN) * GRAIN);
}

const heap = new Heap();

/** How many octets of the module's memory are free, and how many there are. */
export const measure = () => heap.measure();

/** Takes memory, and returns its place. */
export const taken = (count) => heap.take(count);

/** Overwrites memory that was taken with zeros, and frees it. */
export const freed = (place, count) => heap.free(place, count);

/** Octets of the module's memory, as a view that is valid until the next call of the library. */
export const viewOf = (place, count) => new Uint8Array(module.memory.buffer, place, count);

/** A copy of octets of the module's memory. */
export const copyOf = (place, count) => viewOf(place, count).slice();

/** The memory that one call needs. All of it is overwritten and free again once `work` is over. */
export function within(work) {
    const pieces = [];
    const take = (count) => {
        const place = heap.take(count);
        pieces.push([place, count]);
        return place;
    };
    try {
        return work(take);
    } finally {
        for (const piece of pieces) heap.free(...piece);
    }
}

/** The size of a struct. */
export const structSize = (name) => api.structs[name].size[WIDTH];

const structOf = (type) => (type.startsWith('struct ') ? type.slice('struct '.length) : null);

function elementSize(member) {
    if (member.pointer) return 8;
    const struct = structOf(member.type);
    return struct ? structSize(struct) : NUMBERS[member.type][0];
}

const memoryView = () => new DataView(module.memory.buffer);

function loaded(view, place, size) {
    if (size === 8) return view.getBigUint64(place, true);
    return size === 4 ? view.getUint32(place, true) : size === 2 ? view.getUint16(place, true) : view.getUint8(place);
}

function stored(view, place, size, value) {
    if (size === 8) view.setBigUint64(place, value, true);
    else if (size === 4) view.setUint32(place, Number(value), true);
    else if (size === 2) view.setUint16(place, Number(value), true);
    else view.setUint8(place, Number(value));
}

function readOne(member, place, view) {
    const struct = member.pointer ? null : structOf(member.type);
    return struct ? readStruct(struct, place, view) : plain(loaded(view, place, elementSize(member)));
}

/** The member of a struct at a place: a number, an object or an array. */
function readMember(member, place, view) {
    const at = place + member.offset[WIDTH];
    if (member.count === undefined) return readOne(member, at, view);
    const size = elementSize(member);
    if (size === 1) return new Uint8Array(view.buffer, view.byteOffset + at, member.count).slice();
    return Array.from({ length: member.count }, (_, index) => readOne(member, at + index * size, view));
}

/** The struct at a place of the module's memory, or of other octets, as an object with its members. */
export function readStruct(name, place, view = memoryView()) {
    const made = {};
    for (const member of api.structs[name].members) made[member.name] = readMember(member, place, view);
    return made;
}

/** What api.json says of a member of a struct. */
export const memberOf = (name, field) => api.structs[name].members.find((it) => it.name === field);

/** A named member of a struct at a place. */
export const readField = (name, field, place) => readMember(memberOf(name, field), place, memoryView());

function writeOne(member, place, value, view) {
    const struct = member.pointer ? null : structOf(member.type);
    if (struct) writeStruct(struct, place, value, view);
    else stored(view, place, elementSize(member), numberOf(member.pointer ? 'size_t' : member.type, value));
}

/** Writes the members that an object has to a struct at a place. Elements that an array lacks stay as they are. */
export function writeStruct(name, place, value, view = memoryView()) {
    for (const member of api.structs[name].members.filter((it) => value[it.name] !== undefined)) {
        const at = place + member.offset[WIDTH];
        const size = elementSize(member);
        if (member.count === undefined) writeOne(member, at, value[member.name], view);
        else value[member.name].forEach((one, index) => writeOne(member, at + index * size, one, view));
    }
}

/** Arguments as the module takes them: octets are copied to its memory, and become a place and their number. */
function lent(parameters, values, take) {
    const made = [];
    for (const value of values) {
        const parameter = parameters[made.length];
        if (value instanceof Uint8Array) {
            const place = take(value.length);
            viewOf(place, value.length).set(value);
            made.push(BigInt(place), BigInt(value.length));
        } else if (parameter.pointer || NUMBERS[parameter.type][0] === 8) {
            made.push(numberOf('size_t', value));
        } else {
            made.push(Number(numberOf(parameter.type, value)));
        }
    }
    return made;
}

/**
 * Calls the library. Octets stand in the place of a pointer and its length; a place of the module's memory in that of
 * another pointer. Returns a number, or the members of a struct.
 */
export function call(name, take, ...values) {
    const { result, parameters } = api.calls[name];
    const words = lent(parameters, values, take);
    if (words.length !== parameters.length) throw new TypeError(`${name} takes ${parameters.length} arguments`);
    const struct = structOf(result);
    if (!struct) {
        const made = module[name](...words);
        return typeof made === 'bigint' ? plain(BigInt.asUintN(64, made)) : result === 'uint32_t' ? made >>> 0 : made;
    }
    const place = take(structSize(struct));
    module[name](BigInt(place), ...words);
    return readStruct(struct, place);
}

/** The text of a struct scard_text that a call writes. */
export function textOf(name, ...numbers) {
    return within((take) => {
        const out = take(structSize('scard_text'));
        call(name, take, ...numbers, out);
        const { text, size } = readStruct('scard_text', out);
        return new TextDecoder().decode(copyOf(text, size - 1));
    });
}
