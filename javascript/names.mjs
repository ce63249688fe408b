// The kinds of blocks, and what the library says of some numbers.
import { call, copyOf, readStruct, structSize, textOf, within } from './library.mjs';
import { TurnKind } from './numbers.mjs';

export * from './numbers.mjs';
/** The kind of a block. */
export const Kind = Object.freeze({ I: 'I-block', R: 'R-block', REQUEST: 'S-block, request',
    RESPONSE: 'S-block, response' });

/** The name of a number in one of these enums, or the number as text. */
export function nameOf(names, number) {
    return Object.keys(names).find((it) => names[it] === number) ?? String(number);
}

/** Whether a call was refused, and nothing changed. */
export function isRefusal(kind) {
    return /^(REFUSED_|NO_END$|NO_ROOM$)/.test(nameOf(TurnKind, kind));
}

/** The library's name of a reason. */
export const reasonOf = (codec, reason) => textOf('scard_reason_text', codec, reason);

/** What is wrong with the octet that is refused for a reason, in a sentence of the library, or "". */
export function sentenceOf(codec, name) {
    const number = Array.from({ length: 255 }, (_, index) => index + 1).find((it) => reasonOf(codec, it) === name);
    return textOf('scard_reason_sentence_text', codec, number ?? 0);
}

/** The names of the reasons for which a codec refuses octets, by their numbers from 1 on. */
export function reasons(codec) {
    return Array.from({ length: 255 }, (_, index) => reasonOf(codec, index + 1)).filter(Boolean);
}

/** What breaks a rule, in the library's words. */
export const ruleText = (rule) => textOf('scard_judge_rule_text', rule);

/** A rule's clause in ISO/IEC 7816-3:2006, in the library's words. */
export const clauseText = (rule) => textOf('scard_judge_clause_text', rule);

/** What the standards say of one or two octets, or null if they have no words for them. */
export function note(about, first, second = 0) {
    return within((take) => {
        const out = take(structSize('scard_note'));
        call('scard_note_of', take, about, first, second, out);
        const made = readStruct('scard_note', out);
        const text = (place, count) => new TextDecoder().decode(copyOf(place, count));
        const number = made.has_number ? String(made.number) : '';
        return text(made.before, made.before_size) + number + text(made.after, made.after_size) || null;
    });
}

/** The version of the library, as text. */
export function version() {
    const number = within((take) => call('scard_version', take));
    return [Math.floor(number / 1e6), Math.floor(number / 1e3) % 1e3, number % 1e3].join('.');
}
