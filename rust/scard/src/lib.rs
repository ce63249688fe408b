//! A smart card stack for contact cards with T=1, over C that was made of proved code: answers to reset, blocks, commands
//! and responses, data objects, a framer, both ends of T=1 as steps, sessions as steps, and a judge of the blocks on a
//! line. The crate converts values and decides nothing about octets. It needs no allocator and no system.
//!
//! ```
//! use scard::{Block, Ifs};
//! let (block, count) = Block::decode(&[0, 0, 5, 0, 0xA4, 4, 0, 0, 0xA5], Ifs::MOST).unwrap();
//! assert_eq!((block.inf, count), (&[0, 0xA4, 4, 0, 0][..], 9));
//! let refused = Block::decode(&[0, 0, 5, 0, 0xA4, 4, 0, 0, 0xA4], Ifs::MOST).unwrap_err();
//! assert_eq!(format!("{refused}"), "refused at 8: BadLrc");
//! ```
#![no_std]

mod apdu;
mod atr;
mod block;
mod ends;
mod error;
mod framing;
mod judge;
mod session;
mod tlv;

pub use apdu::{Command, Response, Shape, StatusClass};
pub use atr::{Atr, Interface, Rates, T1Fault, T1};
pub use block::{cut, About, Block, Control, Cut, Fault, Ifs, Octets, BLOCK_ROOM};
pub use ends::{Card, CallRefused, Terminal, Turn, LONGEST_ANSWER, LONGEST_COMMAND};
pub use error::{
    AtrReason, BlockReason, ChainReason, CommandReason, DolReason, Failure, Reason, Refusal, ResponseReason, TlvReason,
};
pub use framing::{AtrReader, BlockReader, Framer, Progress, Receiver, TlvCheck};
pub use judge::{
    Arrival, End, Exercise, Falls, Judge, Judged, Judgment, Moments, OffTime, Owed, Rule, Rules, Seen, Silence, Timed,
    Times,
};
pub use session::{CardSession, Event, Session, Setup, Step};
pub use tlv::{
    check, dol_entry, entries, fill, tidy, tlv_header, Entry, Forest, Format, Known, Part, Tag, HEADER_ROOM,
    TLV_LARGEST,
};

/// The longitudinal redundancy check of octets: their exclusive-or (ISO/IEC 7816-3, clause 11.3).
pub fn lrc(octets: &[u8]) -> u8 {
    // SAFETY: the call reads the octets of the slice, and keeps no pointer.
    unsafe { scard_sys::scard_lrc(octets.as_ptr(), octets.len()) }
}

/// The examples of the page on this crate.
#[cfg(doctest)]
#[doc = include_str!("../../../docs/RUST.md")]
pub struct Page;
