// Data objects and data object lists (EMV 4.3 Book 3, Annex B and clause 5.4).
import { InvalidArgument } from './errors.mjs';
import { api, call, copyOf, memberOf, octetsOf, readStruct, structSize, viewOf, within, writeStruct } from
    './library.mjs';
import { Codec, Format, note, Noted, Status } from './names.mjs';
import { encoded, fromHex, placeOf, toHex } from './octets.mjs';

/** The most octets of a forest. */
export const LARGEST = api.constants.SCARD_TLV_LARGEST;

const PART = structSize('scard_part');
const TAG = structSize('scard_tag');
const LONGEST_TAG = memberOf('scard_tag', 'octets').count;
/** The most octets of a header: a tag, and the length of the largest forest. */
const HEADER_ROOM = 7;

/** A tag as the library takes it. */
function tagMembers(octets) {
    const held = octetsOf(octets);
    if (held.length > LONGEST_TAG) throw new InvalidArgument(`a tag has at most ${LONGEST_TAG} octets`);
    return { octets: [...held, 0, 0, 0].slice(0, LONGEST_TAG), count: held.length };
}

/** The octets of a tag, which is given as octets or as digits. */
const tagOctets = (tag) => (typeof tag === 'string' ? fromHex(tag) : octetsOf(tag));

/** Calls an encoder that takes a tag and a length. */
function tagged(name, tag, length) {
    return within((take) => {
        const said = take(TAG);
        writeStruct('scard_tag', said, tagMembers(tagOctets(tag)));
        return encoded(name, HEADER_ROOM, said, length);
    });
}

/** Octets one after the other. */
function joined(pieces) {
    const all = new Uint8Array(pieces.reduce((sum, it) => sum + it.length, 0));
    pieces.reduce((place, it) => (all.set(it, place), place + it.length), 0);
    return all;
}

/** The octets of data objects, with the shortest length fields. */
const built = (objects) => joined([...objects].flatMap(({ tag, value }) => {
    const octets = Array.isArray(value) ? built(value) : octetsOf(value);
    return [tagged('scard_tlv_header', tag, octets.length), octets];
}));

const tagOf = ({ octets, count }) => octets.slice(0, count);

/** The tags of a path: digits with a slash between two tags, or an array of the octets of each. */
const pathOf = (path) => (typeof path === 'string' ? path.split('/').map(fromHex) : [...path]);

/** The index of the first object on a path in the list of one forest, or its length. */
function firstOf(parts, path) {
    const tags = pathOf(path).map(tagMembers);
    return within((take) => {
        const at = take(parts.length);
        viewOf(at, parts.length).set(parts);
        const said = take(tags.length * TAG);
        tags.forEach((tag, index) => writeStruct('scard_tag', said + index * TAG, tag));
        return call('scard_tlv_first', take, at, parts.length / PART, said, tags.length);
    });
}

/**
 * A forest: a list of data objects. It is decoded once, and its objects are made when they are read. So a large forest
 * costs little if few of its objects are read.
 */
export class Tlv {
    #octets;
    #parts;
    #view;
    #count;
    #most;

    constructor(octets, most = LARGEST) {
        this.#octets = octetsOf(octets).slice();
        this.#most = most;
        within((take) => {
            const place = take(this.#octets.length);
            viewOf(place, this.#octets.length).set(this.#octets);
            this.#listed(take, place);
        });
    }

    /** Lists the objects: how many there are, and then all of them. */
    #listed(take, place) {
        const given = [place, this.#octets.length, this.#most];
        const list = (parts, room) => call('scard_tlv_parts', take, ...given, parts, room);
        const first = list(take(0), 0);
        this.#count = first.status === Status.ARGUMENT ? first.place : placeOf(first, Codec.TLV, this.#octets);
        const parts = take(this.#count * PART);
        placeOf(list(parts, this.#count), Codec.TLV, this.#octets);
        this.#parts = copyOf(parts, this.#count * PART);
        this.#view = new DataView(this.#parts.buffer);
    }

    /** The forest that all of the octets are, of at most `most` octets. */
    static decode(octets, most = LARGEST) {
        return new Tlv(octets, most);
    }

    /**
     * The forest of these objects, with the shortest length fields. An object has a `tag`, digits or octets, and a
     * `value`: octets, or an array of the objects inside it.
     */
    static build(objects) {
        return new Tlv(built(objects));
    }

    /** Throws as `decode` does, and makes nothing. */
    static check(octets, most = LARGEST) {
        const held = octetsOf(octets);
        within((take) => placeOf(call('scard_tlv_check', take, held, most), Codec.TLV, held));
    }

    /** A copy of the octets of the forest. */
    get octets() {
        return this.#octets.slice();
    }

    /** A copy of a part of the octets of the forest. */
    slice(start, end) {
        return this.#octets.slice(start, end);
    }

    /** How many objects there are, those inside others too. */
    get count() {
        return this.#count;
    }

    /** What the library says of the object with an index, in the order in which their tags come. */
    part(index) {
        return readStruct('scard_part', index * PART, this.#view);
    }

    /** The list of the objects inside one, as the library has it for the forest that its value is. */
    partsInside({ index, depth, place }) {
        let end = index + 1;
        while (end < this.#count && this.part(end).depth > depth) end += 1;
        const parts = this.#parts.slice((index + 1) * PART, end * PART);
        const view = new DataView(parts.buffer);
        for (let at = 0; at < parts.length; at += PART) {
            const part = readStruct('scard_part', at, view);
            writeStruct('scard_part', at, { depth: part.depth - depth, place: part.place - place }, view);
        }
        return parts;
    }

    /** The outermost objects. */
    get objects() {
        return insideOf(this, 0, 1);
    }

    [Symbol.iterator]() {
        return this.objects[Symbol.iterator]();
    }

    /** All objects, each before those inside it. */
    * walk() {
        for (let index = 0; index < this.#count; index += 1) yield new DataObject(this, index);
    }

    /** The first object on a path of tags, such as "6F/A5/9F65", or null. */
    find(path) {
        const index = firstOf(this.#parts, path);
        return index < this.#count ? new DataObject(this, index) : null;
    }

    /** The shortest encoding of the same objects. */
    tidy() {
        return encoded('scard_tlv_tidy', this.#octets.length, this.#octets, this.#most);
    }
}

/** The objects of a depth from an index on, up to the next one that is further out. */
function insideOf(forest, from, depth) {
    const found = [];
    for (let index = from; index < forest.count; index += 1) {
        const part = forest.part(index);
        if (part.depth < depth) break;
        if (part.depth === depth) found.push(new DataObject(forest, index));
    }
    return found;
}

/** An object of a forest. Its places are offsets in the octets of the forest. */
export class DataObject {
    constructor(forest, index) {
        const { tag, depth, is_constructed, len_octets, place, len } = forest.part(index);
        Object.assign(this, { forest, index, tag: tagOf(tag), depth, isConstructed: Boolean(is_constructed),
            lengthOctets: len_octets, place, length: len });
        Object.freeze(this);
    }

    /** The tag in hexadecimal digits. */
    toString() {
        return toHex(this.tag);
    }

    /** The offset of the first octet of the tag. */
    get start() {
        return this.place - this.lengthOctets - this.tag.length;
    }

    /** The offset after the last octet of the value. */
    get end() {
        return this.place + this.length;
    }

    /** The octets of the value. */
    get value() {
        return this.forest.slice(this.place, this.end);
    }

    /** All octets of the object. */
    get octets() {
        return this.forest.slice(this.start, this.end);
    }

    /** The objects directly inside. There are none in a primitive object. */
    get objects() {
        return insideOf(this.forest, this.index + 1, this.depth + 1);
    }

    [Symbol.iterator]() {
        return this.objects[Symbol.iterator]();
    }

    /** The first object on a path of tags inside this one, or null. */
    find(path) {
        const parts = this.forest.partsInside(this);
        const found = firstOf(parts, path);
        return found < parts.length / PART ? new DataObject(this.forest, this.index + 1 + found) : null;
    }

    /** What the standard says of the tag's first octet, or null. */
    get note() {
        return note(Noted.TAG, this.tag[0]);
    }
}

/** A data object list: tags, and the length of the value that the list asks for. */
export class Dol {
    constructor(octets) {
        const held = octetsOf(octets).slice();
        const entries = within((take) => {
            const each = structSize('scard_entry');
            const room = Math.ceil(held.length / 2);
            const place = take(room * each);
            const count = placeOf(call('scard_dol_entries', take, held, place, room), Codec.DOL, held);
            return Array.from({ length: count }, (_, index) => readStruct('scard_entry', place + index * each));
        });
        this.octets = held;
        this.entries = Object.freeze(entries.map(({ tag, len }) => Object.freeze({ tag: tagOf(tag), length: len })));
        Object.freeze(this);
    }

    /** The list that all of the octets are. */
    static decode(octets) {
        return new Dol(octets);
    }

    /** The list of these entries, each with a `tag`, digits or octets, and a `length`. */
    static build(entries) {
        return new Dol(joined([...entries].map(({ tag, length }) => tagged('scard_dol_entry', tag, length))));
    }

    /**
     * The octets that the list asks for. Each known value is an object with `tag`, `value` and `format`, which is
     * Format.OTHER by default. A tag that isn't known has zeros.
     */
    fill(known) {
        const values = [...known];
        return within((take) => {
            const each = structSize('scard_known');
            const place = take(values.length * each);
            values.forEach(({ tag, value, format = Format.OTHER }, index) => {
                const held = octetsOf(value);
                const at = take(held.length);
                viewOf(at, held.length).set(held);
                writeStruct('scard_known', place + index * each, { tag: tagMembers(tag), format, value: at,
                    count: held.length });
            });
            const room = this.entries.reduce((sum, it) => sum + it.length, 0);
            return encoded('scard_dol_fill', room, this.octets, place, values.length);
        });
    }
}
