//! Both ends of T=1 as steps (ISO/IEC 7816-3, clause 11.6). They do no input and no output: each call says what to do
//! next.

use crate::atr::T1;
use crate::block::{Ifs, BLOCK_ROOM};
use core::mem::zeroed;
use scard_sys as c;

/// The most octets of a command that an end takes.
pub const LONGEST_COMMAND: usize = 65_544;
/// The most octets of an answer that an end takes.
pub const LONGEST_ANSWER: usize = 65_538;

/// Why an end refused a call. Nothing changed.
#[derive(Clone, Copy, Debug, PartialEq, Eq, Hash)]
pub enum CallRefused {
    /// The card no longer answers.
    Dead,
    /// An exchange is in progress, or one isn't over.
    Busy,
    /// The message has too many octets, or more than the buffer of the end.
    TooLong,
    /// The terminal isn't waiting for a block.
    Idle,
    /// It isn't the turn of the card's host, or it is, and a block came. At a session: the event doesn't fit.
    Order,
}

/// What an end does next.
#[derive(Clone, Copy, Debug, PartialEq, Eq)]
pub enum Turn<'a> {
    /// Send octets. Then a terminal waits `wait` times BWT for the other end to begin, and a card without limit.
    Send {
        /// The octets of a block.
        octets: &'a [u8],
        /// How many times BWT, or 0: without limit.
        wait: u8,
    },
    /// A terminal has an answer, or a card's host owes a reply to a command.
    Done(&'a [u8]),
    /// The card accepted the information size.
    IfsSet,
    /// Both ends resynchronized, and the terminal gave up what it did.
    GivenUp,
    /// The card no longer answers.
    Dead,
}

/// The refusal with the library's number, if it is one.
pub(crate) fn refusal(kind: u8) -> Option<CallRefused> {
    match kind {
        c::SCARD_REFUSED_DEAD => Some(CallRefused::Dead),
        c::SCARD_REFUSED_BUSY => Some(CallRefused::Busy),
        c::SCARD_REFUSED_TOO_LONG => Some(CallRefused::TooLong),
        c::SCARD_REFUSED_IDLE => Some(CallRefused::Idle),
        c::SCARD_REFUSED_ORDER => Some(CallRefused::Order),
        _ => None,
    }
}

/// A turn as a value. `message` is the buffer of the message that is done, with its length.
fn turn<'a>(turn: c::scard_turn, out: &'a [u8], message: &'a [u8], len: u64) -> Result<Turn<'a>, CallRefused> {
    match turn.kind {
        c::SCARD_SEND => Ok(Turn::Send { octets: &out[..turn.count as usize], wait: turn.wait }),
        c::SCARD_DONE => Ok(Turn::Done(&message[..len as usize])),
        c::SCARD_IFS_SET => Ok(Turn::IfsSet),
        c::SCARD_GIVEN_UP => Ok(Turn::GivenUp),
        c::SCARD_DEAD => Ok(Turn::Dead),
        kind => Err(refusal(kind).expect("the state and the buffers are those of an end")),
    }
}

/// The pointer and the length of a buffer.
pub(crate) type Room = (*mut u8, usize);

/// Declares an end: its state, over two buffers that it overwrites when it is dropped.
macro_rules! end {
    ($(#[$note:meta])* $name:ident, $state:ident, $begin:ident, $length:ident, $owner:ident) => {
        $(#[$note])*
        pub struct $name<'a> {
            state: c::$state,
            command: &'a mut [u8],
            answer: &'a mut [u8],
            out: [u8; BLOCK_ROOM],
        }

        impl<'a> $name<'a> {
            /// Begins the end at a reset of the card, and at no other time, over buffers for its messages.
            pub fn new(t1: T1, command: &'a mut [u8], answer: &'a mut [u8]) -> Self {
                let (ifsc, bwi, cwi) = (t1.ifsc().get(), t1.bwi(), t1.cwi());
                // SAFETY: a struct of zeros is valid. The call writes it and both buffers.
                let state = unsafe {
                    let mut state: c::$state = zeroed();
                    let (to, to_room) = (command.as_mut_ptr(), command.len());
                    let (from, from_room) = (answer.as_mut_ptr(), answer.len());
                    let verdict = c::$begin(&mut state, to, to_room, from, from_room, ifsc, bwi, cwi);
                    debug_assert_eq!(verdict.status, c::SCARD_OK);
                    state
                };
                Self { state, command, answer, out: [0; BLOCK_ROOM] }
            }

            /// One call of the library over this end, and its turn.
            fn drive(
                &mut self,
                call: impl FnOnce(&mut c::$state, Room, Room, Room) -> c::scard_turn,
            ) -> Result<Turn<'_>, CallRefused> {
                let command = (self.command.as_mut_ptr(), self.command.len());
                let answer = (self.answer.as_mut_ptr(), self.answer.len());
                let out = (self.out.as_mut_ptr(), self.out.len());
                let next = call(&mut self.state, command, answer, out);
                turn(next, &self.out, self.$owner, self.state.$length)
            }
        }

        impl Drop for $name<'_> {
            fn drop(&mut self) {
                self.command.fill(0);
                self.answer.fill(0);
                self.out.fill(0);
            }
        }
    };
}

end!(
    /// A terminal.
    ///
    /// A message that an end lent can't outlive the next call:
    ///
    /// ```compile_fail,E0499
    /// # use scard::*;
    /// let (mut command, mut answer) = ([0; 300], [0; 300]);
    /// let mut terminal = Terminal::new(T1::new(Ifs::MOST, 4, 5).unwrap(), &mut command, &mut answer);
    /// let turn = terminal.transmit(&[0, 0xA4, 4, 0]).unwrap();
    /// terminal.quiet().unwrap();
    /// println!("{turn:?}");
    /// ```
    ///
    /// Nor can a program write to its buffers meanwhile:
    ///
    /// ```compile_fail,E0506
    /// # use scard::*;
    /// let (mut command, mut answer) = ([0; 300], [0; 300]);
    /// let mut terminal = Terminal::new(T1::new(Ifs::MOST, 4, 5).unwrap(), &mut command, &mut answer);
    /// answer[0] = 1;
    /// terminal.quiet().ok();
    /// ```
    Terminal, scard_lent_terminal, scard_lent_terminal_begin, answer_len, answer
);
end!(
    /// A card. At the turn `Done` its host has to reply.
    Card, scard_lent_card, scard_lent_card_begin, command_len, command
);

impl Terminal<'_> {
    /// Begins an exchange with a command.
    pub fn transmit(&mut self, command: &[u8]) -> Result<Turn<'_>, CallRefused> {
        // SAFETY: the call reads the command, and writes this end, which is borrowed alone.
        self.drive(|state, to, from, out| unsafe {
            let (octets, count) = (command.as_ptr(), command.len());
            c::scard_lent_terminal_transmit(state, to.0, to.1, from.0, from.1, octets, count, out.0, out.1)
        })
    }

    /// Takes what the line delivered as one block, valid or not.
    pub fn received(&mut self, octets: &[u8]) -> Result<Turn<'_>, CallRefused> {
        // SAFETY: as above.
        self.drive(|state, to, from, out| unsafe {
            let (octets, count) = (octets.as_ptr(), octets.len());
            c::scard_lent_terminal_received(state, to.0, to.1, from.0, from.1, octets, count, out.0, out.1)
        })
    }

    /// Says that nothing came within the wait of the last turn. Never call it earlier: what is proved of both ends
    /// rests on their taking turns.
    pub fn quiet(&mut self) -> Result<Turn<'_>, CallRefused> {
        // SAFETY: as above.
        self.drive(|state, to, from, out| unsafe {
            c::scard_lent_terminal_quiet(state, to.0, to.1, from.0, from.1, out.0, out.1)
        })
    }

    /// Tells the card the largest field that the terminal accepts.
    pub fn ask_ifs(&mut self, size: Ifs) -> Result<Turn<'_>, CallRefused> {
        // SAFETY: as above.
        self.drive(|state, to, from, out| unsafe {
            c::scard_lent_terminal_ask_ifs(state, to.0, to.1, from.0, from.1, size.get(), out.0, out.1)
        })
    }
}

impl Card<'_> {
    /// Takes what the line delivered as one block, valid or not.
    pub fn received(&mut self, octets: &[u8]) -> Result<Turn<'_>, CallRefused> {
        // SAFETY: the call reads the octets, and writes this end, which is borrowed alone.
        self.drive(|state, to, from, out| unsafe {
            let (octets, count) = (octets.as_ptr(), octets.len());
            c::scard_lent_card_received(state, to.0, to.1, from.0, from.1, octets, count, out.0, out.1)
        })
    }

    /// Takes the reply of the host.
    pub fn reply(&mut self, octets: &[u8]) -> Result<Turn<'_>, CallRefused> {
        // SAFETY: as above.
        self.drive(|state, to, from, out| unsafe {
            let (octets, count) = (octets.as_ptr(), octets.len());
            c::scard_lent_card_reply(state, to.0, to.1, from.0, from.1, octets, count, out.0, out.1)
        })
    }

    /// Asks the terminal for a number of block waiting times.
    pub fn more_time(&mut self, multiple: u8) -> Result<Turn<'_>, CallRefused> {
        // SAFETY: as above.
        self.drive(|state, to, from, out| unsafe {
            c::scard_lent_card_more_time(state, to.0, to.1, from.0, from.1, multiple, out.0, out.1)
        })
    }

    /// Tells the terminal the largest field that the card accepts.
    pub fn ask_ifs(&mut self, size: Ifs) -> Result<Turn<'_>, CallRefused> {
        // SAFETY: as above.
        self.drive(|state, to, from, out| unsafe {
            c::scard_lent_card_ask_ifs(state, to.0, to.1, from.0, from.1, size.get(), out.0, out.1)
        })
    }
}
