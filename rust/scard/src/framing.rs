//! Octets that come in pieces: bursts, and readers of one value each.

use crate::atr::Atr;
use crate::block::{Block, Ifs};
use crate::error::{decided, AtrReason, BlockReason, ChainReason, Failure, Reason, Refusal, TlvReason};
use core::mem::zeroed;
use scard_sys as c;

/// A burst: octets that came without a silence long enough to end it. A block is always a whole burst.
#[derive(Clone, Copy)]
pub struct Framer(c::scard_lent_framer);

impl Default for Framer {
    fn default() -> Self {
        Framer::new()
    }
}

impl Framer {
    /// A burst without octets.
    pub fn new() -> Framer {
        let mut framer = c::scard_lent_framer { count: 0, octets: [0; c::SCARD_BURST_ROOM] };
        // SAFETY: the call writes the struct.
        unsafe { c::scard_lent_framer_begin(&mut framer) };
        Framer(framer)
    }

    /// Appends octets that came.
    pub fn feed(&mut self, octets: &[u8]) {
        // SAFETY: the call reads the slice and writes the struct.
        unsafe { c::scard_lent_framer_feed(&mut self.0, octets.as_ptr(), octets.len()) }
    }

    /// Whether the burst so far is a whole block, with nothing after it.
    pub fn is_whole(&self) -> bool {
        // SAFETY: the call reads the struct.
        unsafe { c::scard_lent_framer_is_whole(&self.0) }
    }

    /// How long a silence now ends the burst: `first` before the first octet, `after` once it is a whole block, and
    /// `inside` otherwise.
    pub fn wait(&self, first: u64, inside: u64, after: u64) -> u64 {
        // SAFETY: the call reads the struct.
        unsafe { c::scard_lent_framer_wait(&self.0, first, inside, after) }
    }

    /// The octets to pass to an end once the burst has ended, at most 259.
    pub fn burst(&self) -> &[u8] {
        // SAFETY: the call reads the struct.
        let count = unsafe { c::scard_lent_framer_burst(&self.0) };
        &self.0.octets[..count.min(c::SCARD_BURST_ROOM)]
    }
}

/// What a reader says of a piece.
#[derive(Clone, Copy, Debug, PartialEq, Eq)]
pub enum Progress {
    /// The value is complete, and took so many octets of this piece.
    Complete(usize),
    /// More octets have to come.
    More,
}

/// The verdict on a piece.
fn fed<R: Reason>(verdict: c::scard_verdict) -> Result<Progress, Refusal<R>> {
    if verdict.status == c::SCARD_MORE {
        return Ok(Progress::More);
    }
    decided(verdict).map(Progress::Complete)
}

/// A reader of one answer to reset.
#[derive(Clone, Copy)]
pub struct AtrReader(c::scard_lent_atr_reader);

impl Default for AtrReader {
    fn default() -> Self {
        AtrReader::new()
    }
}

impl AtrReader {
    /// A reader without octets.
    pub fn new() -> AtrReader {
        let mut reader = c::scard_lent_atr_reader { count: 0, octets: [0; c::SCARD_ATR_ROOM] };
        // SAFETY: the call writes the struct.
        unsafe { c::scard_lent_atr_reader_begin(&mut reader) };
        AtrReader(reader)
    }

    /// Takes the next octets.
    pub fn feed(&mut self, octets: &[u8]) -> Result<Progress, Refusal<AtrReason>> {
        // SAFETY: the call reads the slice and writes the struct.
        fed(unsafe { c::scard_lent_atr_reader_feed(&mut self.0, octets.as_ptr(), octets.len()) })
    }

    /// The verdict on all octets.
    pub fn finish(&self) -> Result<(), Refusal<AtrReason>> {
        // SAFETY: the call reads the struct.
        decided(unsafe { c::scard_lent_atr_reader_finish(&self.0) }).map(|_| ())
    }

    /// The answer to reset, once it is complete.
    pub fn value(&self) -> Option<Atr> {
        Atr::decode(&self.0.octets[..(self.0.count as usize).min(c::SCARD_ATR_ROOM)]).ok().map(|it| it.0)
    }
}

/// A reader of one block, by LEN. On a line where octets can be lost or damaged, use a [`Framer`]: there LEN may be the
/// octet that is wrong.
#[derive(Clone, Copy)]
pub struct BlockReader(c::scard_lent_block_reader, Ifs);

impl BlockReader {
    /// A reader without octets.
    pub fn new(ifs: Ifs) -> BlockReader {
        let mut reader = c::scard_lent_block_reader { count: 0, ifs: 0, octets: [0; c::SCARD_BLOCK_ROOM] };
        // SAFETY: the call writes the struct. Each size of this type is one that it takes.
        unsafe { c::scard_lent_block_reader_begin(&mut reader, ifs.get()) };
        BlockReader(reader, ifs)
    }

    /// Takes the next octets.
    pub fn feed(&mut self, octets: &[u8]) -> Result<Progress, Refusal<BlockReason>> {
        // SAFETY: the call reads the slice and writes the struct.
        fed(unsafe { c::scard_lent_block_reader_feed(&mut self.0, octets.as_ptr(), octets.len()) })
    }

    /// The verdict on all octets.
    pub fn finish(&self) -> Result<(), Refusal<BlockReason>> {
        // SAFETY: the call reads the struct.
        decided(unsafe { c::scard_lent_block_reader_finish(&self.0) }).map(|_| ())
    }

    /// The block, once it is complete.
    pub fn value(&self) -> Option<Block<'_>> {
        let count = (self.0.count as usize).min(c::SCARD_BLOCK_ROOM);
        Block::decode(&self.0.octets[..count], self.1).ok().map(|it| it.0)
    }
}

/// A receiver of one chain, over a buffer for its message.
pub struct Receiver<'a> {
    state: c::scard_lent_receiver,
    message: &'a mut [u8],
}

impl<'a> Receiver<'a> {
    /// A receiver whose first block has a number. The message has at most the octets of the buffer, and 131,072.
    pub fn new(ifs: Ifs, number: bool, message: &'a mut [u8]) -> Receiver<'a> {
        // SAFETY: a struct of zeros is valid, and the call writes it. Each of these arguments is one that it takes.
        let state = unsafe {
            let mut state: c::scard_lent_receiver = zeroed();
            c::scard_lent_receiver_begin(&mut state, ifs.get(), number.into(), message.len().min(131_072));
            state
        };
        Receiver { state, message }
    }

    /// Begins anew, for a chain whose first block has a number. Every octet of the buffer is set to 0.
    ///
    /// ```
    /// use scard::{cut, Ifs, Receiver};
    /// let mut message = [0; 4];
    /// let mut receiver = Receiver::new(Ifs::MOST, false, &mut message);
    /// receiver.feed(&cut(b"PIN", Ifs::MOST, false).next().unwrap()).unwrap();
    /// assert_eq!(receiver.message(), Some(&b"PIN"[..]));
    /// receiver.restart(true);
    /// assert!(receiver.message().is_none());
    /// assert_eq!(message, [0; 4]);
    /// ```
    pub fn restart(&mut self, number: bool) {
        let (message, room) = (self.message.as_mut_ptr(), self.message.len());
        // SAFETY: the call writes the struct and the buffer, which is borrowed alone. It takes each of these arguments.
        unsafe { c::scard_lent_receiver_restart(&mut self.state, message, room, number.into()) };
    }

    /// Takes the next octets.
    pub fn feed(&mut self, octets: &[u8]) -> Result<Progress, Refusal<ChainReason>> {
        let (message, room) = (self.message.as_mut_ptr(), self.message.len());
        // SAFETY: the call reads the octets, and writes the struct and the buffer, which is borrowed alone.
        fed(unsafe { c::scard_lent_receiver_feed(&mut self.state, message, room, octets.as_ptr(), octets.len()) })
    }

    /// The verdict on all octets.
    pub fn finish(&self) -> Result<(), Refusal<ChainReason>> {
        let (message, room) = (self.message.as_ptr(), self.message.len());
        // SAFETY: the call reads the struct and the buffer.
        decided(unsafe { c::scard_lent_receiver_finish(&self.state, message, room) }).map(|_| ())
    }

    /// The message, once the chain is complete.
    pub fn message(&self) -> Option<&[u8]> {
        let (message, room) = (self.message.as_ptr(), self.message.len());
        // SAFETY: the call reads the struct and the buffer.
        let verdict = unsafe { c::scard_lent_receiver_message(&self.state, message, room) };
        let count: Result<usize, Failure<ChainReason>> = crate::error::written(verdict);
        count.ok().map(|count| &self.message[..count])
    }
}

/// A check of a forest whose octets come in pieces. It keeps none of them.
#[derive(Clone, Copy)]
pub struct TlvCheck(c::scard_lent_check);

impl TlvCheck {
    /// A check of a forest of at most so many octets, and [`crate::TLV_LARGEST`].
    pub fn new(most: usize) -> TlvCheck {
        // SAFETY: a struct of zeros is valid, and the call writes it.
        unsafe {
            let mut state: c::scard_lent_check = zeroed();
            c::scard_lent_check_begin(&mut state, most.min(crate::TLV_LARGEST));
            TlvCheck(state)
        }
    }

    /// Takes the next octets. A forest has no end of its own, so more can always come.
    pub fn feed(&mut self, octets: &[u8]) -> Result<Progress, Refusal<TlvReason>> {
        // SAFETY: the call reads the slice and writes the struct.
        fed(unsafe { c::scard_lent_check_feed(&mut self.0, octets.as_ptr(), octets.len()) })
    }

    /// The verdict on all octets.
    pub fn finish(&self) -> Result<(), Refusal<TlvReason>> {
        // SAFETY: the call reads the struct.
        decided(unsafe { c::scard_lent_check_finish(&self.0) }).map(|_| ())
    }
}
