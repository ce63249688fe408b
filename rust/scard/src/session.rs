//! Sessions as steps: an end and its line in one value. It does no input and no output, and measures no time.

use crate::atr::T1;
use crate::block::{Ifs, BLOCK_ROOM};
use crate::ends::{refusal, CallRefused, Room};
use core::mem::zeroed;
use scard_sys as c;

/// The numbers of a session. Times are in microseconds.
#[derive(Clone, Copy)]
pub struct Setup(c::scard_lent_setup);

impl Setup {
    /// The setup of a session with these parameters, whose card has a clock of so many hertz. An etu is `fi` / `di` of
    /// its cycles.
    pub fn new(t1: T1, hertz: u32, fi: u16, di: u16) -> Setup {
        // SAFETY: a struct of zeros is valid.
        let mut setup: c::scard_lent_setup = unsafe { zeroed() };
        (setup.ifsc, setup.bwi, setup.cwi) = (t1.ifsc().get(), t1.bwi(), t1.cwi());
        (setup.hertz, setup.fi, setup.di, setup.has_clock) = (hertz, fi, di, 1);
        Setup(setup)
    }

    /// The silence that ends a burst which is a whole block. None: the line delivers whole bursts. By default it is BGT.
    pub fn silence(mut self, silence: Option<u64>) -> Setup {
        self.0.silence = silence.unwrap_or(u64::MAX);
        self
    }

    /// The limits of one exchange of a terminal: its time, or None for no limit, and its blocks.
    pub fn limits(mut self, most_time: Option<u64>, most_blocks: u32) -> Setup {
        (self.0.most_time, self.0.most_blocks) = (most_time.unwrap_or(u64::MAX), most_blocks);
        self
    }

    /// Says that the line returns what is sent on it, as a UART on one wire does.
    pub fn with_echo(mut self) -> Setup {
        self.0.has_echo = 1;
        self
    }

    /// Says that the program has no clock: then `now` is 0 in each call.
    pub fn without_clock(mut self) -> Setup {
        self.0.has_clock = 0;
        self
    }
}

/// What happened on the line.
#[derive(Clone, Copy, Debug, PartialEq, Eq)]
pub enum Event<'a> {
    /// The last bit of the octets is on the line.
    Sent,
    /// Octets came.
    Came(&'a [u8]),
    /// Octets came, and one of them had a wrong parity.
    Garbled(&'a [u8]),
    /// No octet came within the wait.
    Silent,
    /// The line failed.
    Failed,
}

/// What to do next, or how a call ended.
#[derive(Clone, Copy, Debug, PartialEq, Eq)]
pub enum Step<'a> {
    /// Send octets. Then comes the event `Sent` or `Failed`.
    Send(&'a [u8]),
    /// Wait for octets, at most so many microseconds, or without limit. Then comes one of the other events.
    Wait(Option<u64>),
    /// The answer of the card.
    Answer(&'a [u8]),
    /// The card's host owes a reply to a command. `granted` counts its requests about it that the terminal granted; at
    /// 0 the command is new.
    Command {
        /// The command.
        octets: &'a [u8],
        /// How many requests were granted.
        granted: u64,
    },
    /// The card accepted the information size.
    IfsSet,
    /// Both ends resynchronized, and the terminal gave up what it did.
    GivenUp,
    /// The card no longer answers.
    Dead,
    /// The line failed.
    Failed,
    /// The exchange has used up its blocks or its time.
    UsedUp,
    /// The card answered with fewer than two octets.
    NoStatus(usize),
    /// The line returns what is sent on it, and the setup doesn't say so.
    Echo,
}

/// The library's number of an event, with its octets.
fn parts_of(event: Event<'_>) -> (u8, &[u8]) {
    match event {
        Event::Sent => (c::SCARD_EVENT_SENT, &[]),
        Event::Came(octets) => (c::SCARD_EVENT_CAME, octets),
        Event::Garbled(octets) => (c::SCARD_EVENT_GARBLED, octets),
        Event::Silent => (c::SCARD_EVENT_SILENT, &[]),
        Event::Failed => (c::SCARD_EVENT_FAILED, &[]),
    }
}

/// A step as a value. `done` makes the value of a message that is complete.
fn step<'a>(
    next: c::scard_session_next,
    out: &'a [u8],
    done: impl FnOnce(usize) -> Step<'a>,
) -> Result<Step<'a>, CallRefused> {
    let count = next.count as usize;
    match next.kind {
        c::SCARD_SEND => Ok(Step::Send(&out[..count])),
        c::SCARD_SESSION_WAIT => Ok(Step::Wait((next.wait != u64::MAX).then_some(next.wait))),
        c::SCARD_DONE => Ok(done(count)),
        c::SCARD_IFS_SET => Ok(Step::IfsSet),
        c::SCARD_GIVEN_UP => Ok(Step::GivenUp),
        c::SCARD_DEAD => Ok(Step::Dead),
        c::SCARD_SESSION_FAILED => Ok(Step::Failed),
        c::SCARD_SESSION_USED_UP => Ok(Step::UsedUp),
        c::SCARD_SESSION_NO_STATUS => Ok(Step::NoStatus(count)),
        c::SCARD_SESSION_ECHO => Ok(Step::Echo),
        kind => Err(refusal(kind).expect("the state and the buffers are those of a session")),
    }
}

/// Declares a session: its state, over two buffers that it overwrites when it is dropped.
macro_rules! session {
    ($(#[$note:meta])* $name:ident, $state:ident, $begin:ident, $done:expr) => {
        $(#[$note])*
        pub struct $name<'a> {
            state: c::$state,
            command: &'a mut [u8],
            answer: &'a mut [u8],
            out: [u8; BLOCK_ROOM],
        }

        impl<'a> $name<'a> {
            /// Begins the session at a reset of the card, over buffers for its messages. None: the clock, Fi, Di or the
            /// silence is out of range.
            pub fn new(setup: &Setup, command: &'a mut [u8], answer: &'a mut [u8]) -> Option<Self> {
                // SAFETY: a struct of zeros is valid. The call writes it and both buffers.
                let (state, verdict) = unsafe {
                    let mut state: c::$state = zeroed();
                    let (to, to_room) = (command.as_mut_ptr(), command.len());
                    let (from, from_room) = (answer.as_mut_ptr(), answer.len());
                    let verdict = c::$begin(&mut state, to, to_room, from, from_room, &setup.0);
                    (state, verdict)
                };
                let is_begun = verdict.status == c::SCARD_OK;
                is_begun.then(move || Self { state, command, answer, out: [0; BLOCK_ROOM] })
            }

            /// One call of the library over this session, and its step.
            fn drive(
                &mut self,
                call: impl FnOnce(&mut c::$state, Room, Room, Room) -> c::scard_session_next,
            ) -> Result<Step<'_>, CallRefused> {
                let command = (self.command.as_mut_ptr(), self.command.len());
                let answer = (self.answer.as_mut_ptr(), self.answer.len());
                let out = (self.out.as_mut_ptr(), self.out.len());
                let next = call(&mut self.state, command, answer, out);
                let this = &*self;
                step(next, &this.out, |count| $done(this, count))
            }
        }

        impl Drop for $name<'_> {
            fn drop(&mut self) {
                self.command.fill(0);
                self.answer.fill(0);
                self.out.fill(0);
            }
        }
    };
}

/// The answer of a terminal's session.
fn answer<'b>(session: &'b Session<'_>, count: usize) -> Step<'b> {
    Step::Answer(&session.answer[..count])
}

/// The command of a card's session.
fn command<'b>(session: &'b CardSession<'_>, count: usize) -> Step<'b> {
    Step::Command { octets: &session.command[..count], granted: session.state.granted }
}

session!(
    /// A terminal's session.
    Session, scard_lent_session, scard_lent_session_begin, answer
);
session!(
    /// A card's session. Call [`CardSession::serve`] first.
    CardSession, scard_lent_card_session, scard_lent_card_session_begin, command
);

impl Session<'_> {
    /// Sends a command, and waits for its answer.
    pub fn exchange(&mut self, command: &[u8], now: u64) -> Result<Step<'_>, CallRefused> {
        let (octets, count) = (command.as_ptr(), command.len());
        // SAFETY: the call reads the command, and writes this session, which is borrowed alone.
        self.drive(|state, to, from, out| unsafe {
            c::scard_lent_session_exchange(state, to.0, to.1, from.0, from.1, octets, count, now, out.0, out.1)
        })
    }

    /// Tells the card the largest field that the terminal accepts.
    pub fn ask_ifs(&mut self, size: Ifs, now: u64) -> Result<Step<'_>, CallRefused> {
        // SAFETY: as above.
        self.drive(|state, to, from, out| unsafe {
            c::scard_lent_session_ask_ifs(state, to.0, to.1, from.0, from.1, size.get(), now, out.0, out.1)
        })
    }

    /// Begins again with a card that can't be reset. None: as for [`Session::new`].
    pub fn resync(&mut self, setup: &Setup, now: u64) -> Option<Step<'_>> {
        let mut is_begun = true;
        // SAFETY: as above.
        let found = self.drive(|state, to, from, out| unsafe {
            let next = c::scard_lent_session_resync(state, to.0, to.1, from.0, from.1, &setup.0, now, out.0, out.1);
            is_begun = next.kind != c::SCARD_NO_END;
            let dead = c::scard_session_next { kind: c::SCARD_DEAD, count: 0, wait: 0 };
            if is_begun { next } else { dead }
        });
        if is_begun { found.ok() } else { None }
    }

    /// Takes what happened.
    pub fn step(&mut self, event: Event<'_>, now: u64) -> Result<Step<'_>, CallRefused> {
        let (kind, octets) = parts_of(event);
        let (octets, count) = (octets.as_ptr(), octets.len());
        // SAFETY: as above.
        self.drive(|state, to, from, out| unsafe {
            c::scard_lent_session_step(state, to.0, to.1, from.0, from.1, kind, octets, count, now, out.0, out.1)
        })
    }
}

impl CardSession<'_> {
    /// Begins to serve the terminal, or goes on after the line failed.
    pub fn serve(&mut self, now: u64) -> Result<Step<'_>, CallRefused> {
        // SAFETY: the call writes this session, which is borrowed alone.
        self.drive(|state, to, from, _| unsafe {
            c::scard_lent_card_session_serve(state, to.0, to.1, from.0, from.1, now)
        })
    }

    /// Takes the reply of the host.
    pub fn reply(&mut self, reply: &[u8], now: u64) -> Result<Step<'_>, CallRefused> {
        let (octets, count) = (reply.as_ptr(), reply.len());
        // SAFETY: the call reads the reply, and writes this session.
        self.drive(|state, to, from, out| unsafe {
            c::scard_lent_card_session_reply(state, to.0, to.1, from.0, from.1, octets, count, now, out.0, out.1)
        })
    }

    /// Asks the terminal for a number of block waiting times.
    pub fn more_time(&mut self, multiple: u8, now: u64) -> Result<Step<'_>, CallRefused> {
        // SAFETY: as above.
        self.drive(|state, to, from, out| unsafe {
            c::scard_lent_card_session_more_time(state, to.0, to.1, from.0, from.1, multiple, now, out.0, out.1)
        })
    }

    /// Tells the terminal the largest field that the card accepts.
    pub fn ask_ifs(&mut self, size: Ifs, now: u64) -> Result<Step<'_>, CallRefused> {
        // SAFETY: as above.
        self.drive(|state, to, from, out| unsafe {
            c::scard_lent_card_session_ask_ifs(state, to.0, to.1, from.0, from.1, size.get(), now, out.0, out.1)
        })
    }

    /// Takes what happened.
    pub fn step(&mut self, event: Event<'_>, now: u64) -> Result<Step<'_>, CallRefused> {
        let (kind, octets) = parts_of(event);
        let (octets, count) = (octets.as_ptr(), octets.len());
        // SAFETY: as above.
        self.drive(|state, to, from, out| unsafe {
            c::scard_lent_card_session_step(state, to.0, to.1, from.0, from.1, kind, octets, count, now, out.0, out.1)
        })
    }
}
