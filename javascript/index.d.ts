// The types of the package scard. docs/JAVASCRIPT.md of the sources describes it.

/** Octets go in as any of these, and come out as a Uint8Array. */
export type Octets = ArrayBuffer | SharedArrayBuffer | ArrayBufferView;
/** A whole number, or Infinity for a time without a limit. */
export type Whole = number | bigint;

// ---- numbers of the library by their names, made by tools/release/names ----

export declare const Codec: {
    readonly ATR: 1; readonly BLOCK: 2; readonly CHAIN: 3; readonly COMMAND: 4; readonly RESPONSE: 5; readonly TLV: 6;
    readonly DOL: 7; readonly HEX: 8;
};
export declare const T1Fault: { readonly USABLE: 0; readonly NO_T1: 1; readonly RESERVED_IFSC: 2; readonly CRC: 3 };
export declare const Fault: { readonly FREE: 0; readonly REDUNDANCY: 1; readonly OTHER: 2 };
export declare const About: { readonly RESYNCH: 0; readonly IFS: 1; readonly ABORT: 2; readonly WTX: 3 };
export declare const Shape: {
    readonly CASE_1: 1; readonly CASE_2_SHORT: 2; readonly CASE_3_SHORT: 3; readonly CASE_4_SHORT: 4;
    readonly CASE_2_LONG: 5; readonly CASE_3_LONG: 6; readonly CASE_4_LONG: 7;
};
export declare const StatusClass: {
    readonly NORMAL: 1; readonly WARNING: 2; readonly EXECUTION: 3; readonly CHECKING: 4; readonly PROPRIETARY: 5;
    readonly INVALID: 6;
};
export declare const Format: { readonly NUMERIC: 0; readonly COMPRESSED_NUMERIC: 1; readonly OTHER: 2 };
export declare const Noted: {
    readonly STATUS: 1; readonly INSTRUCTION: 2; readonly CLASS: 3; readonly PCB: 4; readonly NAD: 5; readonly TD: 6;
    readonly TA2: 7; readonly TAG: 8;
};
export declare const TurnKind: {
    readonly SEND: 0; readonly DONE: 1; readonly IFS_SET: 2; readonly GIVEN_UP: 3; readonly DEAD: 4;
    readonly REFUSED_DEAD: 16; readonly REFUSED_BUSY: 17; readonly REFUSED_TOO_LONG: 18; readonly REFUSED_RESERVED: 19;
    readonly REFUSED_IDLE: 20; readonly REFUSED_ORDER: 21; readonly NO_END: 32; readonly NO_ROOM: 33;
    readonly SESSION_FAILED: 64; readonly SESSION_USED_UP: 65; readonly SESSION_NO_STATUS: 66;
    readonly SESSION_ECHO: 67; readonly SESSION_WAIT: 68;
};
export declare const Event: {
    readonly SENT: 0; readonly CAME: 1; readonly GARBLED: 2; readonly SILENT: 3; readonly FAILED: 4;
};
export declare const End: { readonly TERMINAL: 0; readonly CARD: 1 };
export declare const Arrival: { readonly UNSAID: 0; readonly LOST: 1; readonly CAME: 2 };
export declare const Judged: {
    readonly PERMITTED: 0; readonly DAMAGE: 1; readonly UNSEEN: 2; readonly DEVIATION: 3; readonly ELSEWHERE: 4;
};
export declare const Silence: { readonly NO: 0; readonly POSSIBLE: 1; readonly CERTAIN: 2 };
export declare const OffTime: { readonly NO: 0; readonly LATE: 1; readonly EARLY: 2 };
export declare const Rule: {
    readonly NODE_ADDRESS: 1; readonly CONTROL_OCTET: 2; readonly LENGTH: 3; readonly RESERVED_SIZE: 4;
    readonly FIELD_SIZE: 5; readonly TURN: 6; readonly FOREIGN_REQUEST: 7; readonly SEQUENCE_NUMBER: 8;
    readonly BLOCK_DUE: 9; readonly ACKNOWLEDGMENT_DUE: 10; readonly ERROR_CODE: 11; readonly REPEAT_DUE: 12;
    readonly REPEATED_OCTETS: 13; readonly CORRECTION_DUE: 14; readonly REQUEST_DUE: 15; readonly RESPONSE_DUE: 16;
    readonly RESPONSE_OCTET: 17; readonly UNASKED: 18; readonly NO_CHAIN: 19; readonly EARLY_RESYNCH: 20;
    readonly TOO_MANY_REPEATS: 21; readonly SILENCE: 22; readonly CHECK_OCTET: 23;
};
export declare const Owed: {
    readonly NOTHING_SAID: 0; readonly NEW_MESSAGE: 1; readonly NEXT_BLOCK: 2; readonly ACKNOWLEDGMENT: 3;
    readonly SAME_BLOCK: 4; readonly CORRECTION: 5; readonly REFUSAL: 6; readonly SAME_REQUEST: 7;
    readonly RESYNCH_RESPONSE: 8; readonly IFS_RESPONSE: 9; readonly ABORT_RESPONSE: 10; readonly WTX_RESPONSE: 11;
    readonly EITHER_BLOCK: 12; readonly ANY_BLOCK: 13; readonly MESSAGE_OR_CORRECTION: 14;
    readonly MESSAGE_OR_REFUSAL: 15; readonly ACKNOWLEDGMENT_OR_REFUSAL: 16;
};
export declare const Asked: {
    readonly NOTHING: 0; readonly IFS: 1; readonly WTX: 2; readonly ABORT: 3; readonly RESYNCH: 4;
};

// ---- names ----

/** What a block is. */
export declare const Kind: {
    readonly I: 'I-block'; readonly R: 'R-block'; readonly REQUEST: 'S-block, request';
    readonly RESPONSE: 'S-block, response';
};
/** The name of a number in an enum, or the number as text. */
export declare function nameOf(names: Readonly<Record<string, number | string>>, number: number): string;
/** Whether a call was refused, and nothing changed. */
export declare function isRefusal(kind: number): boolean;
/** The names of the reasons for which a codec refuses octets. */
export declare function reasons(codec: number): string[];
/** What breaks a rule, and its clause in ISO/IEC 7816-3:2006. */
export declare function ruleText(rule: number): string;
export declare function clauseText(rule: number): string;
/** What the standards say of one or two octets, or null. */
export declare function note(about: number, first: number, second?: number): string | null;
/** The version of the library. */
export declare function version(): string;

// ---- errors ----

export declare class ScardError extends Error {}
export declare class Refused extends ScardError {
    readonly place: number;
    readonly codec: number;
    readonly reason: string;
    readonly sentence: string;
    expected(): Promise<string | null>;
}
export declare class Short extends ScardError {
    readonly place: number;
    readonly codec: number;
    readonly least: number | null;
    expected(): Promise<string | null>;
}
export declare class InvalidArgument extends ScardError {}
export declare class Duplicate extends ScardError {}
export declare class Closed extends ScardError {}
export declare class InUse extends ScardError {}
export declare class NoT1 extends ScardError {
    readonly fault: number;
}
export declare class TurnError extends ScardError {
    readonly kind: number;
}
export declare class CallRefused extends TurnError {}
export declare class NoAnswer extends TurnError {}

// ---- octets ----

export declare function lrc(octets: Octets): number;
export declare function isText(octets: Octets): boolean;
export declare function fromHex(text: string): Uint8Array;
export declare function toHex(octets: Octets): string;

// ---- values ----

export interface InterfaceBytes {
    readonly ta: number | null;
    readonly tb: number | null;
    readonly tc: number | null;
}
export interface Indicated {
    readonly protocol: number;
    readonly interface: InterfaceBytes;
}
export declare class T1 {
    constructor(members: { ifsc: number; bwi: number; cwi: number });
    readonly ifsc: number;
    readonly bwi: number;
    readonly cwi: number;
    readonly cwt: number;
    bwt(fi?: number, di?: number): number;
}
export declare class Atr {
    constructor(members: {
        isInverse?: boolean; first?: Partial<InterfaceBytes>;
        indicated?: readonly { protocol: number; interface: Partial<InterfaceBytes> }[]; historical?: Octets;
        tck?: number | null;
    });
    static decode(octets: Octets): Atr;
    static check(octets: Octets): number;
    readonly isInverse: boolean;
    readonly first: InterfaceBytes;
    readonly indicated: readonly Indicated[];
    readonly historical: Uint8Array;
    readonly tck: number | null;
    readonly protocols: number[];
    encode(): Uint8Array;
    t1(): T1;
    rates(): { fi: number; di: number };
}

export interface Control {
    readonly kind: string;
    readonly number: number | null;
    readonly more: boolean;
    readonly fault: number | null;
    readonly about: number | null;
}
export declare const BLOCK_ROOM: number;
export declare class Block {
    constructor(members: { nad?: number; pcb: number; inf?: Octets });
    static decode(octets: Octets, ifs?: number): Block;
    static check(octets: Octets, ifs?: number): number;
    static i(number: number, inf?: Octets, options?: { more?: boolean; nad?: number }): Block;
    static r(number: number, fault?: number, options?: { nad?: number }): Block;
    static request(about: number, inf?: Octets, options?: { nad?: number }): Block;
    static response(about: number, inf?: Octets, options?: { nad?: number }): Block;
    readonly nad: number;
    readonly pcb: number;
    readonly inf: Uint8Array;
    readonly control: Control;
    readonly kind: string;
    readonly number: number | null;
    readonly more: boolean;
    readonly fault: number | null;
    readonly about: number | null;
    encode(): Uint8Array;
}
export declare function cut(message: Octets, ifs: number, number?: number): Block[];

export declare class Command {
    constructor(members: {
        cla: number; ins: number; p1: number; p2: number; shape: number; data?: Octets; le?: number | null;
    });
    static of(cla: number, ins: number, p1: number, p2: number,
        options?: { data?: Octets; le?: number | null; extended?: boolean }): Command;
    static decode(octets: Octets): Command;
    readonly cla: number;
    readonly ins: number;
    readonly p1: number;
    readonly p2: number;
    readonly shape: number;
    readonly data: Uint8Array;
    readonly le: number | null;
    readonly note: string | null;
    encode(): Uint8Array;
}
export declare class Response {
    constructor(members: { data?: Octets; sw1: number; sw2: number });
    static decode(octets: Octets): Response;
    readonly data: Uint8Array;
    readonly sw1: number;
    readonly sw2: number;
    readonly sw: number;
    readonly statusClass: number;
    readonly note: string | null;
    encode(): Uint8Array;
}

/** Tags from the outside in: digits with a slash between two tags, or the octets of each. */
export type Path = string | Iterable<Octets>;
export declare const LARGEST: number;
/** A data object to build: its tag, digits or octets, and its value, octets or the objects inside it. */
export interface Built {
    tag: string | Octets;
    value: Octets | readonly Built[];
}
export declare class Tlv implements Iterable<DataObject> {
    constructor(octets: Octets, most?: Whole);
    static decode(octets: Octets, most?: Whole): Tlv;
    static build(objects: Iterable<Built>): Tlv;
    static check(octets: Octets, most?: Whole): void;
    readonly octets: Uint8Array;
    readonly count: number;
    readonly objects: DataObject[];
    [Symbol.iterator](): Iterator<DataObject>;
    slice(start: number, end: number): Uint8Array;
    walk(): IterableIterator<DataObject>;
    find(path: Path): DataObject | null;
    tidy(): Uint8Array;
}
export declare class DataObject implements Iterable<DataObject> {
    constructor(forest: Tlv, index: number);
    readonly forest: Tlv;
    readonly index: number;
    readonly tag: Uint8Array;
    readonly depth: number;
    readonly isConstructed: boolean;
    readonly lengthOctets: number;
    readonly place: number;
    readonly length: number;
    readonly start: number;
    readonly end: number;
    readonly value: Uint8Array;
    readonly octets: Uint8Array;
    readonly objects: DataObject[];
    readonly note: string | null;
    [Symbol.iterator](): Iterator<DataObject>;
    find(path: Path): DataObject | null;
    toString(): string;
}
export interface Entry {
    readonly tag: Uint8Array;
    readonly length: number;
}
export interface Known {
    tag: Octets;
    value: Octets;
    format?: number;
}
export declare class Dol {
    constructor(octets: Octets);
    static decode(octets: Octets): Dol;
    static build(entries: Iterable<{ tag: string | Octets; length: number }>): Dol;
    readonly octets: Uint8Array;
    readonly entries: readonly Entry[];
    fill(known: Iterable<Known>): Uint8Array;
}

// ---- octets in pieces ----

export declare const FOREVER: number;
export declare const LONGEST_MESSAGE: number;
export declare class Framer {
    constructor();
    readonly isWhole: boolean;
    readonly count: number;
    readonly burst: Uint8Array;
    begin(): void;
    feed(octets: Octets): void;
    wait(times: { first: Whole; inside: Whole; after: Whole }): number;
    close(): void;
}
interface Reader {
    feed(octets: Octets): number | null;
    finish(): void;
    close(): void;
}
export declare class AtrReader implements Reader {
    constructor();
    readonly value: Atr;
    feed(octets: Octets): number | null;
    finish(): void;
    close(): void;
}
export declare class BlockReader implements Reader {
    constructor(ifs?: number);
    readonly value: Block;
    feed(octets: Octets): number | null;
    finish(): void;
    close(): void;
}
export declare class Receiver implements Reader {
    constructor(options?: { ifs?: number; number?: number; most?: Whole });
    restart(number?: number): void;
    readonly message: Uint8Array;
    feed(octets: Octets): number | null;
    finish(): void;
    close(): void;
}
export declare class TlvReader implements Reader {
    constructor(most?: Whole);
    feed(octets: Octets): number | null;
    finish(): void;
    close(): void;
}

// ---- both ends as steps ----

export declare const LONGEST_COMMAND: number;
export declare const LONGEST_ANSWER: number;
export interface Rooms {
    commandRoom?: number;
    answerRoom?: number;
}
export interface Turn {
    readonly kind: number;
    readonly wait: number;
    readonly octets: Uint8Array;
}
type T1Members = { ifsc: number; bwi: number; cwi: number };
export declare class Terminal {
    constructor(t1: T1Members, rooms?: Rooms);
    readonly answer: Uint8Array | null;
    transmit(command: Octets): Turn;
    received(octets: Octets): Turn;
    quiet(): Turn;
    askIfs(size: number): Turn;
    close(): void;
}
export declare class Card {
    constructor(t1: T1Members, rooms?: Rooms);
    readonly command: Uint8Array | null;
    received(octets: Octets): Turn;
    reply(octets: Octets): Turn;
    moreTime(multiple: number): Turn;
    askIfs(size: number): Turn;
    close(): void;
}

// ---- sessions ----

export interface Setup extends Rooms {
    t1: T1Members;
    fi?: number;
    di?: number;
    hertz?: number;
    silence?: Whole;
    mostMicroseconds?: Whole;
    mostBlocks?: number;
    echo?: boolean;
    refusesEmpty?: boolean;
    hostTakesShort?: boolean;
}
export interface Step {
    readonly kind: number;
    readonly wait: number;
    readonly octets: Uint8Array;
    readonly rests: boolean;
}
export declare class SessionSteps {
    constructor(setup: Setup, options?: { hasClock?: boolean });
    readonly bwt: number;
    exchange(command: Octets, now: Whole): Step;
    askIfs(size: number, now: Whole): Step;
    resync(now: Whole): Step;
    step(event: number, octets: Octets, now: Whole): Step;
    close(): void;
}
export declare class CardSessionSteps {
    constructor(setup: Setup, options?: { hasClock?: boolean });
    readonly bwt: number;
    readonly granted: number;
    serve(now: Whole): Step;
    reply(octets: Octets, now: Whole): Step;
    moreTime(multiple: number, now: Whole): Step;
    askIfs(size: number, now: Whole): Step;
    step(event: number, octets: Octets, now: Whole): Step;
    close(): void;
}
export declare class Garbled extends Uint8Array {}
export declare class MoreTime {
    constructor(multiple: number);
    readonly multiple: number;
}
export declare class AskIfs {
    constructor(size: number);
    readonly size: number;
}
/** A line whose read waits without limit. Null, or no octets, is its end. */
export interface ReadLine {
    readonly late?: number;
    write(octets: Uint8Array): Promise<unknown>;
    read(): Promise<Octets | null>;
}
/** A line that waits by itself. No octets are a timeout, and null is an interrupted wait. */
export interface ReceiveLine {
    write(octets: Uint8Array): Promise<unknown>;
    receive(microseconds: number, multiple: number): Promise<Octets | null>;
}
export type Line = ReadLine | ReceiveLine;
export declare class AsyncSession {
    constructor(line: Line, setup: Setup, options?: { now?: () => Whole });
    exchange(command: Octets): Promise<Uint8Array>;
    askIfs(size: number): Promise<void>;
    resync(): Promise<void>;
    close(): void;
}
export type Said = Octets | MoreTime | AskIfs | null;
export declare class AsyncCardSession {
    constructor(line: Line, setup: Setup, options?: { now?: () => Whole });
    serve(host: (command: Uint8Array, granted: number) => Said | Promise<Said>): Promise<void>;
    close(): void;
}

// ---- adapters: `port` is a SerialPort of Web Serial, and `device` a USBDevice of WebUSB ----

export declare class WebSerialLine implements ReadLine {
    constructor(port: any, options?: { baudRate?: number; late?: number });
    static open(port: any, options?: { baudRate?: number; late?: number; [name: string]: unknown }):
        Promise<WebSerialLine>;
    readonly late: number;
    write(octets: Uint8Array): Promise<void>;
    read(): Promise<Uint8Array | null>;
    close(): Promise<void>;
}
export declare class CcidLine implements ReceiveLine {
    static open(device: any, options?: { slot?: number }): Promise<CcidLine>;
    powerOn(): Promise<Uint8Array>;
    setT1(atr: Atr): Promise<void>;
    write(octets: Uint8Array): Promise<void>;
    receive(microseconds: number, multiple?: number): Promise<Uint8Array>;
    close(): Promise<void>;
}

// ---- a judge ----

export interface Due {
    readonly owed: number;
    readonly octet: number;
    readonly next: number;
    readonly expects: number;
    readonly asked: number;
}
export interface Judgment {
    readonly number: number;
    readonly before: number;
    readonly unanswered: number;
    readonly verdict: number;
    readonly silence: number;
    readonly rule: number | null;
    readonly due: Due | null;
}
export interface Exercise {
    readonly kept: readonly number[];
    readonly broken: number | null;
    readonly due: number | null;
}
export interface Timed {
    readonly off: number;
    readonly elapsed: number;
    readonly limit: number;
    readonly over: boolean;
}
export declare class Judge {
    constructor(ifsc: number);
    block(end: number, octets: Octets, arrival?: number, came?: Octets): Judgment;
    exercise(end: number, octets: Octets, arrival?: number, came?: Octets): Exercise;
    quiet(): Judgment;
    finish(): Judgment;
    close(): void;
}
export declare class Times {
    constructor(t1: { readonly ifsc: number; readonly bwi: number; readonly cwi: number }, hertz: number,
        rates?: { readonly fi: number; readonly di: number });
    block(judge: Judge, end: number, octets: Octets,
        how?: { first?: number | null; last?: number | null; arrival?: number; came?: Octets }): Timed;
    close(): void;
}

// ---- the program ----

/** Runs the program scard on words. */
export declare function answer(words: readonly string[], input?: string | Octets):
    Promise<{ status: number; text: string; octets: Uint8Array }>;
