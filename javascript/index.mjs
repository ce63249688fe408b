// scard: a proved smart card stack for contact cards with T=1. docs/JAVASCRIPT.md of the sources describes it.
export { CallRefused, Closed, Duplicate, InUse, InvalidArgument, NoAnswer, NoT1, Refused, ScardError, Short,
    TurnError } from './errors.mjs';
export { About, Arrival, Asked, clauseText, Codec, End, Event, Fault, Format, isRefusal, Judged, Kind, nameOf, note,
    Noted, OffTime, Owed, reasons, Rule, ruleText, Shape, Silence, StatusClass, T1Fault, TurnKind,
    version } from './names.mjs';
export { fromHex, isText, lrc, toHex } from './octets.mjs';
export { Atr, T1 } from './atr.mjs';
export { Block, BLOCK_ROOM, cut } from './block.mjs';
export { Command, Response } from './apdu.mjs';
export { DataObject, Dol, LARGEST, Tlv } from './tlv.mjs';
export { AtrReader, BlockReader, FOREVER, Framer, LONGEST_MESSAGE, Receiver, TlvReader } from './framing.mjs';
export { Card, LONGEST_ANSWER, LONGEST_COMMAND, Terminal } from './ends.mjs';
export { CardSessionSteps, SessionSteps } from './steps.mjs';
export { AskIfs, AsyncCardSession, AsyncSession, Garbled, MoreTime } from './session.mjs';
export { CcidLine } from './ccid.mjs';
export { Judge, Times } from './judge.mjs';
export { WebSerialLine } from './serial.mjs';
export { answer } from './program.mjs';
