//! Why octets are refused, and why a value has no octets.

use core::fmt;
use core::mem::zeroed;
use scard_sys as c;

/// The reasons of one kind of value. Their names are those of the library.
pub trait Reason: Copy + fmt::Debug + Eq {
    /// The reason with the library's number.
    #[doc(hidden)]
    fn of(number: u8) -> Option<Self>;
    /// The library's name of the reason.
    fn name(self) -> &'static str;
    /// What is wrong with the refused octet, in a sentence of the library.
    ///
    /// ```
    /// use scard::{AtrReason, Reason};
    /// assert_eq!(AtrReason::BadTck.sentence(), "TCK is wrong.");
    /// ```
    fn sentence(self) -> &'static str;
    /// How many more octets a value of this kind needs at least, if it begins with these.
    #[doc(hidden)]
    fn least(octets: &[u8]) -> usize;
}

/// Declares the reasons of one codec.
macro_rules! reasons {
    ($(#[$note:meta])* $name:ident of $codec:ident { $($variant:ident = $number:ident),* }) => {
        $(#[$note])*
        #[derive(Clone, Copy, Debug, PartialEq, Eq, Hash)]
        #[repr(u8)]
        pub enum $name { $(#[allow(missing_docs)] $variant = c::$number),* }

        impl Reason for $name {
            fn of(number: u8) -> Option<Self> {
                match number { $(c::$number => Some(Self::$variant),)* _ => None }
            }

            fn name(self) -> &'static str {
                // SAFETY: the call writes the struct.
                text_of(|text| unsafe { c::scard_reason_text(c::$codec, self as u8, text) })
            }

            fn sentence(self) -> &'static str {
                // SAFETY: as above.
                text_of(|text| unsafe { c::scard_reason_sentence_text(c::$codec, self as u8, text) })
            }

            fn least(octets: &[u8]) -> usize {
                // SAFETY: the call reads so many octets.
                unsafe { c::scard_least(c::$codec, octets.as_ptr(), octets.len()) }
            }
        }
    };
}

reasons!(/// Why octets begin no answer to reset.
    AtrReason of SCARD_CODEC_ATR {
        BadTs = SCARD_ATR_BAD_TS, TooLong = SCARD_ATR_TOO_LONG, BadTck = SCARD_ATR_BAD_TCK
    });
reasons!(/// Why octets begin no block.
    BlockReason of SCARD_CODEC_BLOCK {
        BadPcb = SCARD_BLOCK_BAD_PCB, BadLen = SCARD_BLOCK_BAD_LEN, OverIfs = SCARD_BLOCK_OVER_IFS,
        BadIfs = SCARD_BLOCK_BAD_IFS, BadLrc = SCARD_BLOCK_BAD_LRC
    });
reasons!(/// Why octets begin no chain.
    ChainReason of SCARD_CODEC_CHAIN {
        BadNad = SCARD_CHAIN_BAD_NAD, BadPcb = SCARD_CHAIN_BAD_PCB, NotInfo = SCARD_CHAIN_NOT_INFO,
        BadSequence = SCARD_CHAIN_BAD_SEQUENCE, TooManyBlocks = SCARD_CHAIN_TOO_MANY_BLOCKS,
        BadLen = SCARD_CHAIN_BAD_LEN, OverIfs = SCARD_CHAIN_OVER_IFS, TooLong = SCARD_CHAIN_TOO_LONG,
        BadLrc = SCARD_CHAIN_BAD_LRC
    });
reasons!(/// Why octets are no command.
    CommandReason of SCARD_CODEC_COMMAND { Trailing = SCARD_COMMAND_TRAILING });
reasons!(/// Why octets are no response.
    ResponseReason of SCARD_CODEC_RESPONSE { TooLong = SCARD_RESPONSE_TOO_LONG });
reasons!(/// Why octets are no forest of data objects.
    TlvReason of SCARD_CODEC_TLV {
        TooDeep = SCARD_TLV_TOO_DEEP, TagSecond = SCARD_TLV_TAG_SECOND, TagLong = SCARD_TLV_TAG_LONG,
        LengthForm = SCARD_TLV_LENGTH_FORM, Overrun = SCARD_TLV_OVERRUN, TooLong = SCARD_TLV_TOO_LONG
    });
reasons!(/// Why octets are no data object list.
    DolReason of SCARD_CODEC_DOL {
        TagZero = SCARD_DOL_TAG_ZERO, TagSecond = SCARD_DOL_TAG_SECOND, TagLong = SCARD_DOL_TAG_LONG
    });

/// A text of the library, by a call that writes where it is.
pub(crate) fn text_of(call: impl FnOnce(&mut c::scard_text)) -> &'static str {
    // SAFETY: a struct of zeros is valid, and the call writes it. The text is a constant of the library, in ASCII, and
    // its size counts the 0 at its end.
    unsafe {
        let mut text: c::scard_text = zeroed();
        call(&mut text);
        let octets = core::slice::from_raw_parts(text.text, (text.size as usize).saturating_sub(1));
        core::str::from_utf8(octets).unwrap_or("")
    }
}

/// Why octets have no value.
#[derive(Clone, Copy, Debug, PartialEq, Eq)]
pub enum Refusal<R> {
    /// The octets end too early. There are `place` octets, and more could still complete a value.
    Short {
        /// How many octets there are.
        place: usize,
    },
    /// No encoding can continue after the octet at `place`.
    At {
        /// The first octet after which no encoding can continue.
        place: usize,
        /// Why.
        reason: R,
    },
}

/// Why a call wrote nothing.
#[derive(Clone, Copy, Debug, PartialEq, Eq)]
pub enum Failure<R> {
    /// The octets have no value.
    Refused(Refusal<R>),
    /// The buffer is too small: so much is needed.
    Room(usize),
    /// No octets express these values.
    Values,
    /// Two known values have the same tag.
    Duplicate,
}

impl<R: Reason> Refusal<R> {
    /// How many more octets must come at least after those that were short: no value ends before, and some value ends
    /// then. A program that reads a serial port can request that many. It is 0 if the octets were refused.
    ///
    /// ```
    /// use scard::{Block, Ifs};
    /// let octets = [0, 0, 5, 0, 0xA4];
    /// assert_eq!(Block::decode(&octets, Ifs::MOST).unwrap_err().least(&octets), 4);
    /// ```
    pub fn least(&self, octets: &[u8]) -> usize {
        match self {
            Refusal::Short { .. } => R::least(octets),
            Refusal::At { .. } => 0,
        }
    }
}

impl<R: Reason> fmt::Display for Refusal<R> {
    fn fmt(&self, f: &mut fmt::Formatter<'_>) -> fmt::Result {
        match self {
            Refusal::Short { place } => write!(f, "short at {place}"),
            Refusal::At { place, reason } => write!(f, "refused at {place}: {}", reason.name()),
        }
    }
}

impl<R: Reason> fmt::Display for Failure<R> {
    fn fmt(&self, f: &mut fmt::Formatter<'_>) -> fmt::Result {
        match self {
            Failure::Refused(refusal) => refusal.fmt(f),
            Failure::Room(needed) => write!(f, "the buffer needs room for {needed}"),
            Failure::Values => f.write_str("no octets express these values"),
            Failure::Duplicate => f.write_str("refused: Duplicate"),
        }
    }
}

/// The place of a verdict: OK, or why not.
pub(crate) fn written<R: Reason>(verdict: c::scard_verdict) -> Result<usize, Failure<R>> {
    let place = verdict.place as usize;
    match (verdict.status, R::of(verdict.reason)) {
        (c::SCARD_OK, _) => Ok(place),
        (c::SCARD_SHORT, _) => Err(Failure::Refused(Refusal::Short { place })),
        (c::SCARD_AT, Some(reason)) => Err(Failure::Refused(Refusal::At { place, reason })),
        (c::SCARD_DUPLICATE, _) => Err(Failure::Duplicate),
        _ if place > 0 => Err(Failure::Room(place)),
        _ => Err(Failure::Values),
    }
}

/// The place of a verdict on octets, by a call all of whose other arguments are valid.
pub(crate) fn decided<R: Reason>(verdict: c::scard_verdict) -> Result<usize, Refusal<R>> {
    written(verdict).map_err(|failure| match failure {
        Failure::Refused(refusal) => refusal,
        other => unreachable!("the types leave no such argument: {other:?}"),
    })
}
