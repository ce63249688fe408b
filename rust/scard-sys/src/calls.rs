// Made by tools/release/rust from dist/api.json. Change neither by hand.
use core::mem::{align_of, size_of};

pub const SCARD_VERSION_MAJOR: usize = 1;
pub const SCARD_VERSION_MINOR: usize = 5;
pub const SCARD_VERSION_PATCH: usize = 0;
pub const SCARD_BLOCK_ROOM: usize = 258;
pub const SCARD_TLV_LARGEST: usize = 1048576;
pub const SCARD_ATR_ROOM: usize = 33;
pub const SCARD_BURST_ROOM: usize = 259;
pub const SCARD_BURST_MOST: usize = 65536;
pub const SCARD_MOST_INTERRUPTS: usize = 1000000;
pub const SCARD_MOST_ECHOES: usize = 8;
pub const SCARD_OK: u8 = 0;
pub const SCARD_SHORT: u8 = 1;
pub const SCARD_AT: u8 = 2;
pub const SCARD_MEMORY: u8 = 3;
pub const SCARD_ARGUMENT: u8 = 4;
pub const SCARD_DUPLICATE: u8 = 5;
pub const SCARD_MORE: u8 = 6;
pub const SCARD_CODEC_ATR: u8 = 1;
pub const SCARD_CODEC_BLOCK: u8 = 2;
pub const SCARD_CODEC_CHAIN: u8 = 3;
pub const SCARD_CODEC_COMMAND: u8 = 4;
pub const SCARD_CODEC_RESPONSE: u8 = 5;
pub const SCARD_CODEC_TLV: u8 = 6;
pub const SCARD_CODEC_DOL: u8 = 7;
pub const SCARD_CODEC_HEX: u8 = 8;
pub const SCARD_ATR_BAD_TS: u8 = 1;
pub const SCARD_ATR_TOO_LONG: u8 = 2;
pub const SCARD_ATR_BAD_TCK: u8 = 3;
pub const SCARD_BLOCK_BAD_PCB: u8 = 1;
pub const SCARD_BLOCK_BAD_LEN: u8 = 2;
pub const SCARD_BLOCK_OVER_IFS: u8 = 3;
pub const SCARD_BLOCK_BAD_IFS: u8 = 4;
pub const SCARD_BLOCK_BAD_LRC: u8 = 5;
pub const SCARD_CHAIN_BAD_NAD: u8 = 1;
pub const SCARD_CHAIN_BAD_PCB: u8 = 2;
pub const SCARD_CHAIN_NOT_INFO: u8 = 3;
pub const SCARD_CHAIN_BAD_SEQUENCE: u8 = 4;
pub const SCARD_CHAIN_TOO_MANY_BLOCKS: u8 = 5;
pub const SCARD_CHAIN_BAD_LEN: u8 = 6;
pub const SCARD_CHAIN_OVER_IFS: u8 = 7;
pub const SCARD_CHAIN_TOO_LONG: u8 = 8;
pub const SCARD_CHAIN_BAD_LRC: u8 = 9;
pub const SCARD_COMMAND_TRAILING: u8 = 1;
pub const SCARD_RESPONSE_TOO_LONG: u8 = 1;
pub const SCARD_TLV_TOO_DEEP: u8 = 1;
pub const SCARD_TLV_TAG_SECOND: u8 = 2;
pub const SCARD_TLV_TAG_LONG: u8 = 3;
pub const SCARD_TLV_LENGTH_FORM: u8 = 4;
pub const SCARD_TLV_OVERRUN: u8 = 5;
pub const SCARD_TLV_TOO_LONG: u8 = 6;
pub const SCARD_DOL_TAG_ZERO: u8 = 1;
pub const SCARD_DOL_TAG_SECOND: u8 = 2;
pub const SCARD_DOL_TAG_LONG: u8 = 3;
pub const SCARD_HEX_DIGIT: u8 = 1;
pub const SCARD_HEX_ODD: u8 = 2;
pub const SCARD_NOTED_STATUS: u8 = 1;
pub const SCARD_NOTED_INSTRUCTION: u8 = 2;
pub const SCARD_NOTED_CLASS: u8 = 3;
pub const SCARD_NOTED_PCB: u8 = 4;
pub const SCARD_NOTED_NAD: u8 = 5;
pub const SCARD_NOTED_TD: u8 = 6;
pub const SCARD_NOTED_TA2: u8 = 7;
pub const SCARD_NOTED_TAG: u8 = 8;
pub const SCARD_T1_USABLE: u8 = 0;
pub const SCARD_T1_NO_T1: u8 = 1;
pub const SCARD_T1_RESERVED_IFSC: u8 = 2;
pub const SCARD_T1_CRC: u8 = 3;
pub const SCARD_FAULT_FREE: u8 = 0;
pub const SCARD_FAULT_REDUNDANCY: u8 = 1;
pub const SCARD_FAULT_OTHER: u8 = 2;
pub const SCARD_S_RESYNCH: u8 = 0;
pub const SCARD_S_IFS: u8 = 1;
pub const SCARD_S_ABORT: u8 = 2;
pub const SCARD_S_WTX: u8 = 3;
pub const SCARD_BLOCK_NONE: u8 = 0;
pub const SCARD_BLOCK_I: u8 = 1;
pub const SCARD_BLOCK_R: u8 = 2;
pub const SCARD_BLOCK_S_REQUEST: u8 = 3;
pub const SCARD_BLOCK_S_RESPONSE: u8 = 4;
pub const SCARD_CASE_1: u8 = 1;
pub const SCARD_CASE_2_SHORT: u8 = 2;
pub const SCARD_CASE_3_SHORT: u8 = 3;
pub const SCARD_CASE_4_SHORT: u8 = 4;
pub const SCARD_CASE_2_LONG: u8 = 5;
pub const SCARD_CASE_3_LONG: u8 = 6;
pub const SCARD_CASE_4_LONG: u8 = 7;
pub const SCARD_CLASS_NORMAL: u8 = 1;
pub const SCARD_CLASS_WARNING: u8 = 2;
pub const SCARD_CLASS_EXECUTION: u8 = 3;
pub const SCARD_CLASS_CHECKING: u8 = 4;
pub const SCARD_CLASS_PROPRIETARY: u8 = 5;
pub const SCARD_CLASS_INVALID: u8 = 6;
pub const SCARD_NUMERIC: u8 = 0;
pub const SCARD_COMPRESSED_NUMERIC: u8 = 1;
pub const SCARD_OTHER: u8 = 2;
pub const SCARD_SEND: u8 = 0;
pub const SCARD_DONE: u8 = 1;
pub const SCARD_IFS_SET: u8 = 2;
pub const SCARD_GIVEN_UP: u8 = 3;
pub const SCARD_DEAD: u8 = 4;
pub const SCARD_REFUSED_DEAD: u8 = 16;
pub const SCARD_REFUSED_BUSY: u8 = 17;
pub const SCARD_REFUSED_TOO_LONG: u8 = 18;
pub const SCARD_REFUSED_RESERVED: u8 = 19;
pub const SCARD_REFUSED_IDLE: u8 = 20;
pub const SCARD_REFUSED_ORDER: u8 = 21;
pub const SCARD_NO_END: u8 = 32;
pub const SCARD_NO_ROOM: u8 = 33;
pub const SCARD_EVENT_SENT: u8 = 0;
pub const SCARD_EVENT_CAME: u8 = 1;
pub const SCARD_EVENT_GARBLED: u8 = 2;
pub const SCARD_EVENT_SILENT: u8 = 3;
pub const SCARD_EVENT_FAILED: u8 = 4;
pub const SCARD_NEXT_SEND: u8 = 0;
pub const SCARD_NEXT_WAIT: u8 = 1;
pub const SCARD_NEXT_HEARD: u8 = 2;
pub const SCARD_NEXT_QUIET: u8 = 3;
pub const SCARD_NEXT_FAILED: u8 = 4;
pub const SCARD_NEXT_USED_UP: u8 = 5;
pub const SCARD_NEXT_ECHO: u8 = 6;
pub const SCARD_NEXT_ORDER: u8 = 7;
pub const SCARD_SESSION_FAILED: u8 = 64;
pub const SCARD_SESSION_USED_UP: u8 = 65;
pub const SCARD_SESSION_NO_STATUS: u8 = 66;
pub const SCARD_SESSION_ECHO: u8 = 67;
pub const SCARD_SESSION_WAIT: u8 = 68;
pub const SCARD_END_TERMINAL: u8 = 0;
pub const SCARD_END_CARD: u8 = 1;
pub const SCARD_ARRIVAL_UNSAID: u8 = 0;
pub const SCARD_ARRIVAL_LOST: u8 = 1;
pub const SCARD_ARRIVAL_CAME: u8 = 2;
pub const SCARD_JUDGED_PERMITTED: u8 = 0;
pub const SCARD_JUDGED_DAMAGE: u8 = 1;
pub const SCARD_JUDGED_UNSEEN: u8 = 2;
pub const SCARD_JUDGED_DEVIATION: u8 = 3;
pub const SCARD_JUDGED_ELSEWHERE: u8 = 4;
pub const SCARD_SILENCE_NO: u8 = 0;
pub const SCARD_SILENCE_POSSIBLE: u8 = 1;
pub const SCARD_SILENCE_CERTAIN: u8 = 2;
pub const SCARD_RULE_NODE_ADDRESS: u8 = 1;
pub const SCARD_RULE_CONTROL_OCTET: u8 = 2;
pub const SCARD_RULE_LENGTH: u8 = 3;
pub const SCARD_RULE_RESERVED_SIZE: u8 = 4;
pub const SCARD_RULE_FIELD_SIZE: u8 = 5;
pub const SCARD_RULE_TURN: u8 = 6;
pub const SCARD_RULE_FOREIGN_REQUEST: u8 = 7;
pub const SCARD_RULE_SEQUENCE_NUMBER: u8 = 8;
pub const SCARD_RULE_BLOCK_DUE: u8 = 9;
pub const SCARD_RULE_ACKNOWLEDGMENT_DUE: u8 = 10;
pub const SCARD_RULE_ERROR_CODE: u8 = 11;
pub const SCARD_RULE_REPEAT_DUE: u8 = 12;
pub const SCARD_RULE_REPEATED_OCTETS: u8 = 13;
pub const SCARD_RULE_CORRECTION_DUE: u8 = 14;
pub const SCARD_RULE_REQUEST_DUE: u8 = 15;
pub const SCARD_RULE_RESPONSE_DUE: u8 = 16;
pub const SCARD_RULE_RESPONSE_OCTET: u8 = 17;
pub const SCARD_RULE_UNASKED: u8 = 18;
pub const SCARD_RULE_NO_CHAIN: u8 = 19;
pub const SCARD_RULE_EARLY_RESYNCH: u8 = 20;
pub const SCARD_RULE_TOO_MANY_REPEATS: u8 = 21;
pub const SCARD_RULE_SILENCE: u8 = 22;
pub const SCARD_RULE_CHECK_OCTET: u8 = 23;
pub const SCARD_OWED_NOTHING_SAID: u8 = 0;
pub const SCARD_OWED_NEW_MESSAGE: u8 = 1;
pub const SCARD_OWED_NEXT_BLOCK: u8 = 2;
pub const SCARD_OWED_ACKNOWLEDGMENT: u8 = 3;
pub const SCARD_OWED_SAME_BLOCK: u8 = 4;
pub const SCARD_OWED_CORRECTION: u8 = 5;
pub const SCARD_OWED_REFUSAL: u8 = 6;
pub const SCARD_OWED_SAME_REQUEST: u8 = 7;
pub const SCARD_OWED_RESYNCH_RESPONSE: u8 = 8;
pub const SCARD_OWED_IFS_RESPONSE: u8 = 9;
pub const SCARD_OWED_ABORT_RESPONSE: u8 = 10;
pub const SCARD_OWED_WTX_RESPONSE: u8 = 11;
pub const SCARD_OWED_EITHER_BLOCK: u8 = 12;
pub const SCARD_OWED_ANY_BLOCK: u8 = 13;
pub const SCARD_OWED_MESSAGE_OR_CORRECTION: u8 = 14;
pub const SCARD_OWED_MESSAGE_OR_REFUSAL: u8 = 15;
pub const SCARD_OWED_ACKNOWLEDGMENT_OR_REFUSAL: u8 = 16;
pub const SCARD_ASKED_NOTHING: u8 = 0;
pub const SCARD_ASKED_IFS: u8 = 1;
pub const SCARD_ASKED_WTX: u8 = 2;
pub const SCARD_ASKED_ABORT: u8 = 3;
pub const SCARD_ASKED_RESYNCH: u8 = 4;
pub const SCARD_OFF_TIME_NO: u8 = 0;
pub const SCARD_OFF_TIME_LATE: u8 = 1;
pub const SCARD_OFF_TIME_EARLY: u8 = 2;
pub const SCARD_STRUCT_VERDICT: u8 = 1;
pub const SCARD_STRUCT_INTERFACE: u8 = 2;
pub const SCARD_STRUCT_INDICATED: u8 = 3;
pub const SCARD_STRUCT_ATR: u8 = 4;
pub const SCARD_STRUCT_T1: u8 = 5;
pub const SCARD_STRUCT_RATES: u8 = 6;
pub const SCARD_STRUCT_BLOCK: u8 = 7;
pub const SCARD_STRUCT_COMMAND: u8 = 8;
pub const SCARD_STRUCT_RESPONSE: u8 = 9;
pub const SCARD_STRUCT_TURN: u8 = 10;
pub const SCARD_STRUCT_TAG: u8 = 11;
pub const SCARD_STRUCT_PART: u8 = 12;
pub const SCARD_STRUCT_KNOWN: u8 = 13;
pub const SCARD_STRUCT_HANDLE: u8 = 14;
pub const SCARD_STRUCT_LENT_TERMINAL: u8 = 15;
pub const SCARD_STRUCT_LENT_CARD: u8 = 16;
pub const SCARD_STRUCT_LENT_HEADER: u8 = 17;
pub const SCARD_STRUCT_LENT_CHECK: u8 = 18;
pub const SCARD_STRUCT_LENT_RECEIVER: u8 = 19;
pub const SCARD_STRUCT_TEXT: u8 = 20;
pub const SCARD_STRUCT_ENTRY: u8 = 21;
pub const SCARD_STRUCT_NOTE: u8 = 22;
pub const SCARD_STRUCT_LENT_FRAMER: u8 = 23;
pub const SCARD_STRUCT_LENT_BLOCK_READER: u8 = 24;
pub const SCARD_STRUCT_LENT_ATR_READER: u8 = 25;
pub const SCARD_STRUCT_LENT_SENDER: u8 = 26;
pub const SCARD_STRUCT_LENT_HEARD: u8 = 27;
pub const SCARD_STRUCT_LENT_WATCHED: u8 = 28;
pub const SCARD_STRUCT_LENT_JUDGE: u8 = 29;
pub const SCARD_STRUCT_DUE: u8 = 30;
pub const SCARD_STRUCT_JUDGMENT: u8 = 31;
pub const SCARD_STRUCT_LENT_LINE_RULES: u8 = 32;
pub const SCARD_STRUCT_LENT_LINE_PROGRESS: u8 = 33;
pub const SCARD_STRUCT_LENT_LINE: u8 = 34;
pub const SCARD_STRUCT_LINE_NEXT: u8 = 35;
pub const SCARD_STRUCT_LENT_SETUP: u8 = 36;
pub const SCARD_STRUCT_LENT_SESSION: u8 = 37;
pub const SCARD_STRUCT_LENT_CARD_SESSION: u8 = 38;
pub const SCARD_STRUCT_SESSION_NEXT: u8 = 39;
pub const SCARD_STRUCT_PCB: u8 = 40;
pub const SCARD_STRUCT_EXERCISE: u8 = 41;
pub const SCARD_STRUCT_LENT_TIMES: u8 = 42;
pub const SCARD_STRUCT_MOMENTS: u8 = 43;
pub const SCARD_STRUCT_TIMED: u8 = 44;

#[repr(C)]
#[derive(Clone, Copy)]
pub struct scard_verdict {
    pub status: u8,
    pub reason: u8,
    pub place: u64,
}
const _: () = assert!(size_of::<scard_verdict>() == 16);
const _: () = assert!(align_of::<scard_verdict>() == 8);
#[repr(C)]
#[derive(Clone, Copy)]
pub struct scard_text {
    pub text: *const u8,
    pub size: u64,
}
const _: () = assert!(size_of::<scard_text>() == 16);
const _: () = assert!(align_of::<scard_text>() == 8);
#[repr(C)]
#[derive(Clone, Copy)]
pub struct scard_note {
    pub before: *const u8,
    pub before_size: u64,
    pub after: *const u8,
    pub after_size: u64,
    pub number: u32,
    pub has_number: u8,
}
const _: () = assert!(size_of::<scard_note>() == 40);
const _: () = assert!(align_of::<scard_note>() == 8);
#[repr(C)]
#[derive(Clone, Copy)]
pub struct scard_interface {
    pub has_ta: u8,
    pub ta: u8,
    pub has_tb: u8,
    pub tb: u8,
    pub has_tc: u8,
    pub tc: u8,
}
const _: () = assert!(size_of::<scard_interface>() == 6);
const _: () = assert!(align_of::<scard_interface>() == 1);
#[repr(C)]
#[derive(Clone, Copy)]
pub struct scard_indicated {
    pub protocol: u8,
    pub bytes: scard_interface,
}
const _: () = assert!(size_of::<scard_indicated>() == 7);
const _: () = assert!(align_of::<scard_indicated>() == 1);
#[repr(C)]
#[derive(Clone, Copy)]
pub struct scard_atr {
    pub convention: u8,
    pub first: scard_interface,
    pub indicated_count: u8,
    pub indicated: [scard_indicated; 31],
    pub historical_count: u8,
    pub historical: [u8; 15],
    pub has_tck: u8,
    pub tck: u8,
}
const _: () = assert!(size_of::<scard_atr>() == 243);
const _: () = assert!(align_of::<scard_atr>() == 1);
#[repr(C)]
#[derive(Clone, Copy)]
pub struct scard_t1 {
    pub ifsc: u8,
    pub bwi: u8,
    pub cwi: u8,
}
const _: () = assert!(size_of::<scard_t1>() == 3);
const _: () = assert!(align_of::<scard_t1>() == 1);
#[repr(C)]
#[derive(Clone, Copy)]
pub struct scard_rates {
    pub fi: u16,
    pub di: u16,
}
const _: () = assert!(size_of::<scard_rates>() == 4);
const _: () = assert!(align_of::<scard_rates>() == 2);
#[repr(C)]
#[derive(Clone, Copy)]
pub struct scard_block {
    pub nad: u8,
    pub pcb: u8,
    pub inf_place: u8,
    pub inf_len: u8,
}
const _: () = assert!(size_of::<scard_block>() == 4);
const _: () = assert!(align_of::<scard_block>() == 1);
#[repr(C)]
#[derive(Clone, Copy)]
pub struct scard_pcb {
    pub kind: u8,
    pub number: u8,
    pub more: u8,
    pub fault: u8,
    pub about: u8,
}
const _: () = assert!(size_of::<scard_pcb>() == 5);
const _: () = assert!(align_of::<scard_pcb>() == 1);
#[repr(C)]
#[derive(Clone, Copy)]
pub struct scard_command {
    pub cla: u8,
    pub ins: u8,
    pub p1: u8,
    pub p2: u8,
    pub shape: u8,
    pub has_le: u8,
    pub le: u32,
    pub data_place: u64,
    pub data_len: u64,
}
const _: () = assert!(size_of::<scard_command>() == 32);
const _: () = assert!(align_of::<scard_command>() == 8);
#[repr(C)]
#[derive(Clone, Copy)]
pub struct scard_response {
    pub sw1: u8,
    pub sw2: u8,
    pub data_len: u64,
}
const _: () = assert!(size_of::<scard_response>() == 16);
const _: () = assert!(align_of::<scard_response>() == 8);
#[repr(C)]
#[derive(Clone, Copy)]
pub struct scard_tag {
    pub octets: [u8; 3],
    pub count: u8,
}
const _: () = assert!(size_of::<scard_tag>() == 4);
const _: () = assert!(align_of::<scard_tag>() == 1);
#[repr(C)]
#[derive(Clone, Copy)]
pub struct scard_part {
    pub depth: u8,
    pub is_constructed: u8,
    pub len_octets: u8,
    pub tag: scard_tag,
    pub place: u64,
    pub len: u64,
}
const _: () = assert!(size_of::<scard_part>() == 24);
const _: () = assert!(align_of::<scard_part>() == 8);
#[repr(C)]
#[derive(Clone, Copy)]
pub struct scard_entry {
    pub tag: scard_tag,
    pub len: u8,
}
const _: () = assert!(size_of::<scard_entry>() == 5);
const _: () = assert!(align_of::<scard_entry>() == 1);
#[repr(C)]
#[derive(Clone, Copy)]
pub struct scard_known {
    pub tag: scard_tag,
    pub format: u8,
    pub value: *const u8,
    pub count: u64,
}
const _: () = assert!(size_of::<scard_known>() == 24);
const _: () = assert!(align_of::<scard_known>() == 8);
#[repr(C)]
#[derive(Clone, Copy)]
pub struct scard_turn {
    pub kind: u8,
    pub wait: u8,
    pub count: u64,
}
const _: () = assert!(size_of::<scard_turn>() == 16);
const _: () = assert!(align_of::<scard_turn>() == 8);
#[repr(C)]
#[derive(Clone, Copy)]
pub struct scard_lent_terminal {
    pub number: u8,
    pub expected: u8,
    pub failures: u8,
    pub ifsc: u8,
    pub ifsd: u8,
    pub first_ifsc: u8,
    pub wait: u8,
    pub size: u8,
    pub is_answered: u8,
    pub place: u64,
    pub most_command: u64,
    pub most_answer: u64,
    pub command_len: u64,
    pub answer_len: u64,
}
const _: () = assert!(size_of::<scard_lent_terminal>() == 56);
const _: () = assert!(align_of::<scard_lent_terminal>() == 8);
#[repr(C)]
#[derive(Clone, Copy)]
pub struct scard_lent_card {
    pub number: u8,
    pub expected: u8,
    pub has_saved: u8,
    pub saved_size: u8,
    pub ifsc: u8,
    pub ifsd: u8,
    pub first_ifsc: u8,
    pub wait: u8,
    pub size: u8,
    pub saved_place: u64,
    pub place: u64,
    pub most_command: u64,
    pub most_reply: u64,
    pub command_len: u64,
    pub reply_len: u64,
}
const _: () = assert!(size_of::<scard_lent_card>() == 64);
const _: () = assert!(align_of::<scard_lent_card>() == 8);
#[repr(C)]
#[derive(Clone, Copy)]
pub struct scard_lent_header {
    pub kind: u8,
    pub tag: [u8; 3],
    pub tag_count: u8,
    pub form: u8,
    pub read: u8,
    pub number: u32,
}
const _: () = assert!(size_of::<scard_lent_header>() == 12);
const _: () = assert!(align_of::<scard_lent_header>() == 4);
#[repr(C)]
#[derive(Clone, Copy)]
pub struct scard_lent_check {
    pub max: u32,
    pub count: u32,
    pub value_left: u32,
    pub header: scard_lent_header,
    pub ends: [u32; 16],
    pub level: u8,
    pub refused: u8,
}
const _: () = assert!(size_of::<scard_lent_check>() == 92);
const _: () = assert!(align_of::<scard_lent_check>() == 4);
#[repr(C)]
#[derive(Clone, Copy)]
pub struct scard_lent_receiver {
    pub refused_at: u64,
    pub max: u32,
    pub blocks: u32,
    pub joined: u32,
    pub ifs: u8,
    pub number: u8,
    pub part: u8,
    pub more: u8,
    pub len: u8,
    pub came: u8,
    pub done: u8,
    pub refused: u8,
}
const _: () = assert!(size_of::<scard_lent_receiver>() == 32);
const _: () = assert!(align_of::<scard_lent_receiver>() == 8);
#[repr(C)]
#[derive(Clone, Copy)]
pub struct scard_lent_block_reader {
    pub count: u32,
    pub ifs: u8,
    pub octets: [u8; 258],
}
const _: () = assert!(size_of::<scard_lent_block_reader>() == 264);
const _: () = assert!(align_of::<scard_lent_block_reader>() == 4);
#[repr(C)]
#[derive(Clone, Copy)]
pub struct scard_lent_atr_reader {
    pub count: u32,
    pub octets: [u8; 33],
}
const _: () = assert!(size_of::<scard_lent_atr_reader>() == 40);
const _: () = assert!(align_of::<scard_lent_atr_reader>() == 4);
#[repr(C)]
#[derive(Clone, Copy)]
pub struct scard_lent_framer {
    pub count: u64,
    pub octets: [u8; 259],
}
const _: () = assert!(size_of::<scard_lent_framer>() == 272);
const _: () = assert!(align_of::<scard_lent_framer>() == 8);
#[repr(C)]
#[derive(Clone, Copy)]
pub struct scard_lent_line_rules {
    pub bwt: u64,
    pub cwt: u64,
    pub bgt: u64,
    pub after: u64,
    pub octet: u64,
    pub most_time: u64,
    pub most_blocks: u32,
    pub has_clock: u8,
    pub has_echo: u8,
    pub refuses_empty: u8,
    pub is_card: u8,
}
const _: () = assert!(size_of::<scard_lent_line_rules>() == 56);
const _: () = assert!(align_of::<scard_lent_line_rules>() == 8);
#[repr(C)]
#[derive(Clone, Copy)]
pub struct scard_lent_line_progress {
    pub owed: u64,
    pub first: u64,
    pub asked: u64,
    pub asked_at: u64,
    pub began: u64,
    pub spent: u64,
    pub late: u64,
    pub own: u32,
    pub interrupts: u32,
    pub blocks: u32,
    pub left: u32,
    pub phase: u8,
    pub is_cut: u8,
    pub is_quick: u8,
    pub began_at: u8,
    pub is_spoiled: u8,
    pub is_whole: u8,
    pub echoes: u8,
}
const _: () = assert!(size_of::<scard_lent_line_progress>() == 80);
const _: () = assert!(align_of::<scard_lent_line_progress>() == 8);
#[repr(C)]
#[derive(Clone, Copy)]
pub struct scard_lent_line {
    pub rules: scard_lent_line_rules,
    pub progress: scard_lent_line_progress,
    pub framer: scard_lent_framer,
}
const _: () = assert!(size_of::<scard_lent_line>() == 408);
const _: () = assert!(align_of::<scard_lent_line>() == 8);
#[repr(C)]
#[derive(Clone, Copy)]
pub struct scard_line_next {
    pub kind: u8,
    pub count: u64,
    pub wait: u64,
}
const _: () = assert!(size_of::<scard_line_next>() == 24);
const _: () = assert!(align_of::<scard_line_next>() == 8);
#[repr(C)]
#[derive(Clone, Copy)]
pub struct scard_lent_setup {
    pub silence: u64,
    pub most_time: u64,
    pub most_blocks: u32,
    pub hertz: u32,
    pub fi: u16,
    pub di: u16,
    pub ifsc: u8,
    pub bwi: u8,
    pub cwi: u8,
    pub has_clock: u8,
    pub has_echo: u8,
    pub refuses_empty: u8,
    pub host_takes_short: u8,
}
const _: () = assert!(size_of::<scard_lent_setup>() == 40);
const _: () = assert!(align_of::<scard_lent_setup>() == 8);
#[repr(C)]
#[derive(Clone, Copy)]
pub struct scard_lent_session {
    pub terminal: scard_lent_terminal,
    pub line: scard_lent_line,
    pub most_time: u64,
    pub most_blocks: u32,
    pub own: u32,
}
const _: () = assert!(size_of::<scard_lent_session>() == 480);
const _: () = assert!(align_of::<scard_lent_session>() == 8);
#[repr(C)]
#[derive(Clone, Copy)]
pub struct scard_lent_card_session {
    pub card: scard_lent_card,
    pub line: scard_lent_line,
    pub granted: u64,
    pub own: u32,
    pub host_takes_short: u8,
}
const _: () = assert!(size_of::<scard_lent_card_session>() == 488);
const _: () = assert!(align_of::<scard_lent_card_session>() == 8);
#[repr(C)]
#[derive(Clone, Copy)]
pub struct scard_session_next {
    pub kind: u8,
    pub count: u64,
    pub wait: u64,
}
const _: () = assert!(size_of::<scard_session_next>() == 24);
const _: () = assert!(align_of::<scard_session_next>() == 8);
#[repr(C)]
#[derive(Clone, Copy)]
pub struct scard_due {
    pub owed: u8,
    pub octet: u8,
    pub next: u8,
    pub expects: u8,
    pub asked: u8,
}
const _: () = assert!(size_of::<scard_due>() == 5);
const _: () = assert!(align_of::<scard_due>() == 1);
#[repr(C)]
#[derive(Clone, Copy)]
pub struct scard_judgment {
    pub number: u64,
    pub before: u64,
    pub unanswered: u64,
    pub verdict: u8,
    pub rule: u8,
    pub silence: u8,
    pub due: scard_due,
}
const _: () = assert!(size_of::<scard_judgment>() == 32);
const _: () = assert!(align_of::<scard_judgment>() == 8);
#[repr(C)]
#[derive(Clone, Copy)]
pub struct scard_lent_sender {
    pub side: u8,
    pub next: u8,
    pub expects: u8,
    pub pending: u8,
    pub asked: u8,
    pub asked_octet: u8,
    pub before: u8,
    pub before_octet: u8,
    pub tries: u8,
    pub repeats: u8,
    pub corrections: u8,
    pub room: u8,
    pub first_room: u8,
    pub largest_room: u8,
    pub known: u8,
    pub aborted: u8,
}
const _: () = assert!(size_of::<scard_lent_sender>() == 16);
const _: () = assert!(align_of::<scard_lent_sender>() == 1);
#[repr(C)]
#[derive(Clone, Copy)]
pub struct scard_lent_heard {
    pub kind: u8,
    pub block: u8,
    pub about: u8,
    pub detail: u8,
    pub octet: u8,
}
const _: () = assert!(size_of::<scard_lent_heard>() == 5);
const _: () = assert!(align_of::<scard_lent_heard>() == 1);
#[repr(C)]
#[derive(Clone, Copy)]
pub struct scard_lent_watched {
    pub number: u64,
    pub sender: scard_lent_sender,
    pub heard: scard_lent_heard,
    pub doubt: u8,
    pub last_len: u8,
    pub last: [u8; 254],
}
const _: () = assert!(size_of::<scard_lent_watched>() == 288);
const _: () = assert!(align_of::<scard_lent_watched>() == 8);
#[repr(C)]
#[derive(Clone, Copy)]
pub struct scard_lent_judge {
    pub terminal: scard_lent_watched,
    pub card: scard_lent_watched,
    pub blocks: u64,
    pub has_nad: u8,
    pub nad: u8,
    pub pairs: u8,
    pub other: u8,
    pub last: u8,
}
const _: () = assert!(size_of::<scard_lent_judge>() == 592);
const _: () = assert!(align_of::<scard_lent_judge>() == 8);
#[repr(C)]
#[derive(Clone, Copy)]
pub struct scard_exercise {
    pub kept: u32,
    pub broken: u8,
    pub due: u8,
}
const _: () = assert!(size_of::<scard_exercise>() == 8);
const _: () = assert!(align_of::<scard_exercise>() == 4);
#[repr(C)]
#[derive(Clone, Copy)]
pub struct scard_lent_times {
    pub least: u64,
    pub sent_moment: u64,
    pub sent_octets: u64,
    pub came_moment: u64,
    pub came_octets: u64,
    pub hertz: u32,
    pub fi: u16,
    pub di: u16,
    pub has_sent: u8,
    pub has_came: u8,
    pub ifsc: u8,
    pub bwi: u8,
    pub cwi: u8,
}
const _: () = assert!(size_of::<scard_lent_times>() == 56);
const _: () = assert!(align_of::<scard_lent_times>() == 8);
#[repr(C)]
#[derive(Clone, Copy)]
pub struct scard_moments {
    pub first: u64,
    pub last: u64,
    pub has_first: u8,
    pub has_last: u8,
}
const _: () = assert!(size_of::<scard_moments>() == 24);
const _: () = assert!(align_of::<scard_moments>() == 8);
#[repr(C)]
#[derive(Clone, Copy)]
pub struct scard_timed {
    pub elapsed: u64,
    pub limit: u64,
    pub off: u8,
    pub over: u8,
}
const _: () = assert!(size_of::<scard_timed>() == 24);
const _: () = assert!(align_of::<scard_timed>() == 8);

extern "C" {
    pub fn scard_version() -> u32;
    pub fn scard_status_text(status: u8, out: *mut scard_text);
    pub fn scard_turn_text(kind: u8, out: *mut scard_text);
    pub fn scard_reason_text(codec: u8, reason: u8, out: *mut scard_text);
    pub fn scard_status_class_text(kind: u8, out: *mut scard_text);
    pub fn scard_shape_text(shape: u8, out: *mut scard_text);
    pub fn scard_s_block_text(about: u8, out: *mut scard_text);
    pub fn scard_reason_sentence_text(codec: u8, reason: u8, out: *mut scard_text);
    pub fn scard_least(codec: u8, octets: *const u8, count: usize) -> usize;
    pub fn scard_note_of(about: u8, first: u8, second: u8, out: *mut scard_note);
    pub fn scard_is_text(octets: *const u8, count: usize) -> bool;
    pub fn scard_lrc(octets: *const u8, count: usize) -> u8;
    pub fn scard_hex_encode(octets: *const u8, count: usize, text: *mut u8, room: usize) -> scard_verdict;
    pub fn scard_hex_decode(text: *const u8, length: usize, out: *mut u8, room: usize) -> scard_verdict;
    pub fn scard_atr_check(octets: *const u8, count: usize) -> scard_verdict;
    pub fn scard_atr_decode(octets: *const u8, count: usize, out: *mut scard_atr) -> scard_verdict;
    pub fn scard_atr_encode(atr: *const scard_atr, out: *mut u8, room: usize) -> scard_verdict;
    pub fn scard_atr_t1_params(atr: *const scard_atr, out: *mut scard_t1) -> u8;
    pub fn scard_atr_rates(atr: *const scard_atr, out: *mut scard_rates) -> u8;
    pub fn scard_t1_cwt(params: *const scard_t1) -> u32;
    pub fn scard_t1_bwt(params: *const scard_t1, fi: u16, di: u16) -> u64;
    pub fn scard_block_decode(octets: *const u8, count: usize, ifs: u8, out: *mut scard_block) -> scard_verdict;
    pub fn scard_block_i(nad: u8, ns: u8, more: bool, inf: *const u8, count: usize, out: *mut u8, room: usize) -> scard_verdict;
    pub fn scard_block_r(nad: u8, nr: u8, fault: u8, out: *mut u8, room: usize) -> scard_verdict;
    pub fn scard_block_s_request(nad: u8, about: u8, inf: *const u8, count: usize, out: *mut u8, room: usize) -> scard_verdict;
    pub fn scard_block_s_response(nad: u8, about: u8, inf: *const u8, count: usize, out: *mut u8, room: usize) -> scard_verdict;
    pub fn scard_block_encode(nad: u8, pcb: u8, inf: *const u8, count: usize, out: *mut u8, room: usize) -> scard_verdict;
    pub fn scard_block_parts(pcb: u8, out: *mut scard_pcb);
    pub fn scard_chain_block(message: *const u8, count: usize, start: usize, ifs: u8, ns: u8, out: *mut u8, room: usize) -> scard_verdict;
    pub fn scard_chain_cut(message: *const u8, count: usize, ifs: u8, ns: u8, out: *mut u8, room: usize) -> scard_verdict;
    pub fn scard_command_decode(octets: *const u8, count: usize, out: *mut scard_command) -> scard_verdict;
    pub fn scard_response_decode(octets: *const u8, count: usize, out: *mut scard_response) -> scard_verdict;
    pub fn scard_command_encode(command: *const scard_command, data: *const u8, count: usize, out: *mut u8, room: usize) -> scard_verdict;
    pub fn scard_response_encode(data: *const u8, count: usize, sw1: u8, sw2: u8, out: *mut u8, room: usize) -> scard_verdict;
    pub fn scard_status_class(sw1: u8, sw2: u8) -> u8;
    pub fn scard_tlv_check(octets: *const u8, count: usize, max: usize) -> scard_verdict;
    pub fn scard_tlv_tidy(octets: *const u8, count: usize, max: usize, out: *mut u8, room: usize) -> scard_verdict;
    pub fn scard_tlv_parts(octets: *const u8, count: usize, max: usize, parts: *mut scard_part, room: usize) -> scard_verdict;
    pub fn scard_tlv_first(parts: *const scard_part, count: usize, path: *const scard_tag, tags: usize) -> usize;
    pub fn scard_tlv_header(tag: *const scard_tag, len: usize, out: *mut u8, room: usize) -> scard_verdict;
    pub fn scard_dol_check(octets: *const u8, count: usize) -> scard_verdict;
    pub fn scard_dol_entries(octets: *const u8, count: usize, entries: *mut scard_entry, room: usize) -> scard_verdict;
    pub fn scard_dol_entry(tag: *const scard_tag, len: u8, out: *mut u8, room: usize) -> scard_verdict;
    pub fn scard_dol_fill(list: *const u8, count: usize, known: *const scard_known, known_count: usize, out: *mut u8, room: usize) -> scard_verdict;
    pub fn scard_lent_terminal_begin(state: *mut scard_lent_terminal, command: *mut u8, command_room: usize, answer: *mut u8, answer_room: usize, ifsc: u8, bwi: u8, cwi: u8) -> scard_verdict;
    pub fn scard_lent_card_begin(state: *mut scard_lent_card, command: *mut u8, command_room: usize, reply: *mut u8, reply_room: usize, ifsc: u8, bwi: u8, cwi: u8) -> scard_verdict;
    pub fn scard_lent_terminal_transmit(state: *mut scard_lent_terminal, command: *mut u8, command_room: usize, answer: *mut u8, answer_room: usize, octets: *const u8, count: usize, out: *mut u8, room: usize) -> scard_turn;
    pub fn scard_lent_terminal_received(state: *mut scard_lent_terminal, command: *mut u8, command_room: usize, answer: *mut u8, answer_room: usize, octets: *const u8, count: usize, out: *mut u8, room: usize) -> scard_turn;
    pub fn scard_lent_terminal_quiet(state: *mut scard_lent_terminal, command: *mut u8, command_room: usize, answer: *mut u8, answer_room: usize, out: *mut u8, room: usize) -> scard_turn;
    pub fn scard_lent_terminal_ask_ifs(state: *mut scard_lent_terminal, command: *mut u8, command_room: usize, answer: *mut u8, answer_room: usize, size: u8, out: *mut u8, room: usize) -> scard_turn;
    pub fn scard_lent_card_received(state: *mut scard_lent_card, command: *mut u8, command_room: usize, reply: *mut u8, reply_room: usize, octets: *const u8, count: usize, out: *mut u8, room: usize) -> scard_turn;
    pub fn scard_lent_card_reply(state: *mut scard_lent_card, command: *mut u8, command_room: usize, reply: *mut u8, reply_room: usize, octets: *const u8, count: usize, out: *mut u8, room: usize) -> scard_turn;
    pub fn scard_lent_card_more_time(state: *mut scard_lent_card, command: *mut u8, command_room: usize, reply: *mut u8, reply_room: usize, multiple: u8, out: *mut u8, room: usize) -> scard_turn;
    pub fn scard_lent_card_ask_ifs(state: *mut scard_lent_card, command: *mut u8, command_room: usize, reply: *mut u8, reply_room: usize, size: u8, out: *mut u8, room: usize) -> scard_turn;
    pub fn scard_lent_terminal_answer(state: *const scard_lent_terminal, command: *const u8, command_room: usize, answer: *const u8, answer_room: usize) -> scard_verdict;
    pub fn scard_lent_card_command(state: *const scard_lent_card, command: *const u8, command_room: usize, reply: *const u8, reply_room: usize) -> scard_verdict;
    pub fn scard_lent_check_begin(state: *mut scard_lent_check, max: usize) -> scard_verdict;
    pub fn scard_lent_check_feed(state: *mut scard_lent_check, octets: *const u8, count: usize) -> scard_verdict;
    pub fn scard_lent_check_finish(state: *const scard_lent_check) -> scard_verdict;
    pub fn scard_lent_receiver_begin(state: *mut scard_lent_receiver, ifs: u8, ns: u8, max: usize) -> scard_verdict;
    pub fn scard_lent_receiver_feed(state: *mut scard_lent_receiver, message: *mut u8, room: usize, octets: *const u8, count: usize) -> scard_verdict;
    pub fn scard_lent_receiver_finish(state: *const scard_lent_receiver, message: *const u8, room: usize) -> scard_verdict;
    pub fn scard_lent_receiver_message(state: *const scard_lent_receiver, message: *const u8, room: usize) -> scard_verdict;
    pub fn scard_lent_receiver_restart(state: *mut scard_lent_receiver, message: *mut u8, room: usize, ns: u8) -> scard_verdict;
    pub fn scard_lent_block_reader_begin(state: *mut scard_lent_block_reader, ifs: u8) -> scard_verdict;
    pub fn scard_lent_atr_reader_begin(state: *mut scard_lent_atr_reader);
    pub fn scard_lent_block_reader_feed(state: *mut scard_lent_block_reader, octets: *const u8, count: usize) -> scard_verdict;
    pub fn scard_lent_block_reader_finish(state: *const scard_lent_block_reader) -> scard_verdict;
    pub fn scard_lent_atr_reader_feed(state: *mut scard_lent_atr_reader, octets: *const u8, count: usize) -> scard_verdict;
    pub fn scard_lent_atr_reader_finish(state: *const scard_lent_atr_reader) -> scard_verdict;
    pub fn scard_lent_block_reader_value(state: *const scard_lent_block_reader, out: *mut scard_block) -> scard_verdict;
    pub fn scard_lent_atr_reader_value(state: *const scard_lent_atr_reader, out: *mut scard_atr) -> scard_verdict;
    pub fn scard_lent_framer_begin(framer: *mut scard_lent_framer);
    pub fn scard_lent_framer_feed(framer: *mut scard_lent_framer, octets: *const u8, count: usize);
    pub fn scard_lent_framer_is_whole(framer: *const scard_lent_framer) -> bool;
    pub fn scard_lent_framer_wait(framer: *const scard_lent_framer, first: u64, inside: u64, after: u64) -> u64;
    pub fn scard_lent_framer_burst(framer: *const scard_lent_framer) -> usize;
    pub fn scard_lent_line_begin(line: *mut scard_lent_line, rules: *const scard_lent_line_rules);
    pub fn scard_lent_line_exchange(line: *mut scard_lent_line, first: u64, now: u64) -> scard_line_next;
    pub fn scard_lent_line_clear(line: *mut scard_lent_line, first: u64, now: u64) -> scard_line_next;
    pub fn scard_lent_line_talk(line: *mut scard_lent_line, first: u64, now: u64) -> scard_line_next;
    pub fn scard_lent_line_serve(line: *mut scard_lent_line, now: u64) -> scard_line_next;
    pub fn scard_lent_line_step(line: *mut scard_lent_line, event: u8, octets: *const u8, count: usize, now: u64, block: *const u8, block_count: usize) -> scard_line_next;
    pub fn scard_lent_session_begin(session: *mut scard_lent_session, command: *mut u8, command_room: usize, answer: *mut u8, answer_room: usize, setup: *const scard_lent_setup) -> scard_verdict;
    pub fn scard_lent_card_session_begin(session: *mut scard_lent_card_session, command: *mut u8, command_room: usize, reply: *mut u8, reply_room: usize, setup: *const scard_lent_setup) -> scard_verdict;
    pub fn scard_lent_session_exchange(session: *mut scard_lent_session, command: *mut u8, command_room: usize, answer: *mut u8, answer_room: usize, octets: *const u8, count: usize, now: u64, out: *mut u8, room: usize) -> scard_session_next;
    pub fn scard_lent_session_ask_ifs(session: *mut scard_lent_session, command: *mut u8, command_room: usize, answer: *mut u8, answer_room: usize, size: u8, now: u64, out: *mut u8, room: usize) -> scard_session_next;
    pub fn scard_lent_session_resync(session: *mut scard_lent_session, command: *mut u8, command_room: usize, answer: *mut u8, answer_room: usize, setup: *const scard_lent_setup, now: u64, out: *mut u8, room: usize) -> scard_session_next;
    pub fn scard_lent_session_step(session: *mut scard_lent_session, command: *mut u8, command_room: usize, answer: *mut u8, answer_room: usize, event: u8, octets: *const u8, count: usize, now: u64, out: *mut u8, room: usize) -> scard_session_next;
    pub fn scard_lent_card_session_serve(session: *mut scard_lent_card_session, command: *const u8, command_room: usize, reply: *const u8, reply_room: usize, now: u64) -> scard_session_next;
    pub fn scard_lent_card_session_reply(session: *mut scard_lent_card_session, command: *mut u8, command_room: usize, reply: *mut u8, reply_room: usize, octets: *const u8, count: usize, now: u64, out: *mut u8, room: usize) -> scard_session_next;
    pub fn scard_lent_card_session_more_time(session: *mut scard_lent_card_session, command: *mut u8, command_room: usize, reply: *mut u8, reply_room: usize, multiple: u8, now: u64, out: *mut u8, room: usize) -> scard_session_next;
    pub fn scard_lent_card_session_ask_ifs(session: *mut scard_lent_card_session, command: *mut u8, command_room: usize, reply: *mut u8, reply_room: usize, size: u8, now: u64, out: *mut u8, room: usize) -> scard_session_next;
    pub fn scard_lent_card_session_step(session: *mut scard_lent_card_session, command: *mut u8, command_room: usize, reply: *mut u8, reply_room: usize, event: u8, octets: *const u8, count: usize, now: u64, out: *mut u8, room: usize) -> scard_session_next;
    pub fn scard_lent_judge_begin(state: *mut scard_lent_judge, ifsc: u8) -> scard_verdict;
    pub fn scard_lent_judge_block(state: *mut scard_lent_judge, from_end: u8, octets: *const u8, count: usize, arrival: u8, came: *const u8, came_count: usize, out: *mut scard_judgment) -> scard_verdict;
    pub fn scard_lent_judge_quiet(state: *mut scard_lent_judge, out: *mut scard_judgment);
    pub fn scard_lent_judge_finish(state: *const scard_lent_judge, out: *mut scard_judgment);
    pub fn scard_lent_judge_exercise(state: *const scard_lent_judge, from_end: u8, octets: *const u8, count: usize, arrival: u8, came: *const u8, came_count: usize, out: *mut scard_exercise) -> scard_verdict;
    pub fn scard_lent_times_begin(times: *mut scard_lent_times, params: *const scard_t1, rates: *const scard_rates, hertz: u32) -> scard_verdict;
    pub fn scard_lent_times_block(times: *mut scard_lent_times, judge: *const scard_lent_judge, from_end: u8, octets: *const u8, count: usize, arrival: u8, came: *const u8, came_count: usize, moments: *const scard_moments, out: *mut scard_timed) -> scard_verdict;
    pub fn scard_judge_rule_text(rule: u8, out: *mut scard_text);
    pub fn scard_judge_clause_text(rule: u8, out: *mut scard_text);
    pub fn scard_struct_size(number: u8) -> usize;
}
