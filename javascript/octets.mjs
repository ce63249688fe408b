// Verdicts of the library as errors, and octets as hexadecimal text.
import { Duplicate, InvalidArgument, Refused, Short } from './errors.mjs';
import { call, copyOf, octetsOf, within } from './library.mjs';
import { Codec, nameOf, reasonOf, Status } from './names.mjs';

/** How many more octets must come at least for a value that begins with these, or null without octets. */
function leastOf(codec, octets) {
    return octets ? within((take) => Number(call('scard_least', take, codec, octets))) : null;
}

/** The place of a verdict that is OK. Throws what any other one says of octets. */
export function placeOf(verdict, codec = null, octets = null, options = []) {
    switch (verdict.status) {
        case Status.OK: return verdict.place;
        case Status.SHORT: throw new Short(verdict.place, codec, octets?.slice(), options, leastOf(codec, octets));
        case Status.AT:
            throw new Refused(verdict.place, reasonOf(codec, verdict.reason), codec, octets?.slice(), options);
        case Status.DUPLICATE: throw new Duplicate();
        default: throw new InvalidArgument(`the library takes no such argument (${nameOf(Status, verdict.status)})`);
    }
}

/** Calls an encoder whose last arguments are a buffer and its room. Returns what it wrote. */
export function encoded(name, room, ...values) {
    return within((take) => {
        const out = take(room);
        return copyOf(out, placeOf(call(name, take, ...values, out, room)));
    });
}

/** The check octet of a block: the exclusive-or of octets. */
export function lrc(octets) {
    return within((take) => call('scard_lrc', take, octetsOf(octets)));
}

/** Whether octets are text that can be shown beside their hexadecimal digits: 1 to 40 octets, each 20 to 7E. */
export function isText(octets) {
    return Boolean(within((take) => call('scard_is_text', take, octetsOf(octets))));
}

/** The octets of hexadecimal digits. */
export function fromHex(text) {
    const digits = new TextEncoder().encode(text);
    return within((take) => {
        const out = take(digits.length);
        const verdict = call('scard_hex_decode', take, digits, out, digits.length);
        return copyOf(out, placeOf(verdict, Codec.HEX, digits));
    });
}

/** Octets as hexadecimal digits in upper case. */
export function toHex(octets) {
    const held = octetsOf(octets);
    return new TextDecoder().decode(encoded('scard_hex_encode', 2 * held.length, held));
}
