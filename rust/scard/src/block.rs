//! Blocks of T=1 (ISO/IEC 7816-3, clause 11.3), and messages cut into chains of them (clause 11.6).

use crate::error::{decided, written, BlockReason, Failure, Refusal};
use core::mem::zeroed;
use core::ops::Deref;
use scard_sys as c;

/// The most octets of a block.
pub const BLOCK_ROOM: usize = c::SCARD_BLOCK_ROOM;

/// The largest information field that an end accepts, 1 to 254 octets.
#[derive(Clone, Copy, Debug, PartialEq, Eq, Hash)]
pub struct Ifs(u8);

impl Ifs {
    /// The largest size.
    pub const MOST: Ifs = Ifs(254);

    /// The size of so many octets, or None: 0 and 255 are reserved.
    pub fn new(size: u8) -> Option<Ifs> {
        (1..=254).contains(&size).then_some(Ifs(size))
    }

    /// How many octets it is.
    pub fn get(self) -> u8 {
        self.0
    }
}

/// Octets of at most `N`, as an encoder returns them.
#[derive(Clone, Copy, Debug, PartialEq, Eq)]
pub struct Octets<const N: usize> {
    octets: [u8; N],
    count: usize,
}

impl<const N: usize> Octets<N> {
    /// What a call writes into a buffer of `N`.
    pub(crate) fn written<R: crate::Reason>(
        write: impl FnOnce(&mut [u8; N]) -> c::scard_verdict,
    ) -> Result<Self, Failure<R>> {
        let mut octets = [0; N];
        let count = written(write(&mut octets))?;
        Ok(Octets { octets, count })
    }
}

impl<const N: usize> Deref for Octets<N> {
    type Target = [u8];

    fn deref(&self) -> &[u8] {
        &self.octets[..self.count]
    }
}

/// What an R-block reports about the block that it answers.
#[derive(Clone, Copy, Debug, PartialEq, Eq, Hash)]
#[repr(u8)]
pub enum Fault {
    /// No error.
    Free = c::SCARD_FAULT_FREE,
    /// A redundancy or parity error.
    Redundancy = c::SCARD_FAULT_REDUNDANCY,
    /// Another error.
    Other = c::SCARD_FAULT_OTHER,
}

/// The kind of an S-block. IFS and WTX carry one octet, the others none.
#[derive(Clone, Copy, Debug, PartialEq, Eq, Hash)]
#[repr(u8)]
pub enum About {
    /// Resynchronization.
    Resynch = c::SCARD_S_RESYNCH,
    /// An information field size.
    Ifs = c::SCARD_S_IFS,
    /// The end of a chain.
    Abort = c::SCARD_S_ABORT,
    /// More time.
    Wtx = c::SCARD_S_WTX,
}

impl Fault {
    /// The error with the library's number.
    fn of(number: u8) -> Fault {
        [Fault::Free, Fault::Redundancy, Fault::Other][number as usize]
    }
}

impl About {
    /// The kind with the library's number.
    fn of(number: u8) -> About {
        [About::Resynch, About::Ifs, About::Abort, About::Wtx][number as usize]
    }
}

/// What a control octet says.
///
/// ```
/// use scard::{About, Control};
/// assert_eq!(Control::of(0x60), Some(Control::I { number: true, more: true }));
/// assert_eq!(Control::of(0xE3), Some(Control::Response(About::Wtx)));
/// assert_eq!(Control::of(0x83), None);
/// ```
#[derive(Clone, Copy, Debug, PartialEq, Eq, Hash)]
pub enum Control {
    /// An I-block.
    I {
        /// Its number.
        number: bool,
        /// Whether more blocks of its chain follow.
        more: bool,
    },
    /// An R-block.
    R {
        /// The number of the I-block that it expects.
        number: bool,
        /// What it reports.
        fault: Fault,
    },
    /// An S-block that requests.
    Request(About),
    /// An S-block that responds.
    Response(About),
}

impl Control {
    /// What a control octet says, or None if no block has it.
    pub fn of(pcb: u8) -> Option<Control> {
        // SAFETY: a struct of zeros is valid, and the call writes it.
        let parts = unsafe {
            let mut parts: c::scard_pcb = zeroed();
            c::scard_block_parts(pcb, &mut parts);
            parts
        };
        let number = parts.number != 0;
        match parts.kind {
            c::SCARD_BLOCK_I => Some(Control::I { number, more: parts.more != 0 }),
            c::SCARD_BLOCK_R => Some(Control::R { number, fault: Fault::of(parts.fault) }),
            c::SCARD_BLOCK_S_REQUEST => Some(Control::Request(About::of(parts.about))),
            c::SCARD_BLOCK_S_RESPONSE => Some(Control::Response(About::of(parts.about))),
            _ => None,
        }
    }
}

/// A block: its node address, its control octet, and its information field.
#[derive(Clone, Copy, Debug, PartialEq, Eq)]
pub struct Block<'a> {
    /// The node address.
    pub nad: u8,
    /// The control octet.
    pub pcb: u8,
    /// The information field.
    pub inf: &'a [u8],
}

impl<'a> Block<'a> {
    /// The block at the start of octets, and how many octets it takes. An I-block has at most `ifs` octets of
    /// information.
    pub fn decode(octets: &'a [u8], ifs: Ifs) -> Result<(Block<'a>, usize), Refusal<BlockReason>> {
        // SAFETY: a struct of zeros is valid. The call reads the slice and writes the struct.
        let (block, verdict) = unsafe {
            let mut block: c::scard_block = zeroed();
            let verdict = c::scard_block_decode(octets.as_ptr(), octets.len(), ifs.0, &mut block);
            (block, verdict)
        };
        let count = decided(verdict)?;
        let place = block.inf_place as usize;
        let inf = &octets[place..place + block.inf_len as usize];
        Ok((Block { nad: block.nad, pcb: block.pcb, inf }, count))
    }

    /// The octets of the block.
    pub fn encode(&self) -> Result<Octets<BLOCK_ROOM>, Failure<BlockReason>> {
        // SAFETY: the call reads the field and writes at most the room.
        Octets::written(|out| unsafe {
            let (inf, count) = (self.inf.as_ptr(), self.inf.len());
            c::scard_block_encode(self.nad, self.pcb, inf, count, out.as_mut_ptr(), out.len())
        })
    }

    /// The octets of an I-block. `more` says that more blocks of its chain follow.
    pub fn i(nad: u8, number: bool, more: bool, inf: &[u8]) -> Result<Octets<BLOCK_ROOM>, Failure<BlockReason>> {
        // SAFETY: as above.
        Octets::written(|out| unsafe {
            c::scard_block_i(nad, number.into(), more, inf.as_ptr(), inf.len(), out.as_mut_ptr(), out.len())
        })
    }

    /// The octets of an R-block that expects the I-block with a number.
    pub fn r(nad: u8, number: bool, fault: Fault) -> Octets<BLOCK_ROOM> {
        // SAFETY: as above.
        let made: Result<_, Failure<BlockReason>> = Octets::written(|out| unsafe {
            c::scard_block_r(nad, number.into(), fault as u8, out.as_mut_ptr(), out.len())
        });
        made.expect("there is an R-block with each of these values")
    }

    /// The octets of an S-block that requests.
    pub fn request(nad: u8, about: About, inf: &[u8]) -> Result<Octets<BLOCK_ROOM>, Failure<BlockReason>> {
        // SAFETY: as above.
        Octets::written(|out| unsafe {
            c::scard_block_s_request(nad, about as u8, inf.as_ptr(), inf.len(), out.as_mut_ptr(), out.len())
        })
    }

    /// The octets of an S-block that responds.
    pub fn response(nad: u8, about: About, inf: &[u8]) -> Result<Octets<BLOCK_ROOM>, Failure<BlockReason>> {
        // SAFETY: as above.
        Octets::written(|out| unsafe {
            c::scard_block_s_response(nad, about as u8, inf.as_ptr(), inf.len(), out.as_mut_ptr(), out.len())
        })
    }
}

/// The blocks of a message's chain, one after another.
#[derive(Clone, Debug)]
pub struct Cut<'a> {
    message: &'a [u8],
    start: Option<usize>,
    ifs: Ifs,
    number: bool,
}

/// The chain of a message. Each field has `ifs` octets, except the last, which may have fewer. `number` is that of the
/// first block.
pub fn cut(message: &[u8], ifs: Ifs, number: bool) -> Cut<'_> {
    Cut { message, start: Some(0), ifs, number }
}

impl Iterator for Cut<'_> {
    type Item = Octets<BLOCK_ROOM>;

    fn next(&mut self) -> Option<Self::Item> {
        let start = self.start?;
        let (message, count) = (self.message.as_ptr(), self.message.len());
        // SAFETY: the call reads the message and writes at most the room.
        let made: Result<Octets<BLOCK_ROOM>, Failure<BlockReason>> = Octets::written(|out| unsafe {
            c::scard_chain_block(message, count, start, self.ifs.0, self.number.into(), out.as_mut_ptr(), out.len())
        });
        let next = start + self.ifs.0 as usize;
        self.start = (next < count).then_some(next);
        self.number = !self.number;
        made.ok()
    }
}
