//! A judge of the blocks on a line (ISO/IEC 7816-3:2006, clause 11.6), and the times of the line (11.4.3).

use crate::atr::{Rates, T1};
use crate::block::Ifs;
use crate::error::text_of;
use core::mem::zeroed;
use core::num::NonZeroU32;
use scard_sys as c;

/// Declares an enum with the numbers of the library.
macro_rules! numbers {
    ($(#[$note:meta])* $name:ident { $($variant:ident = $number:ident),* $(,)? }) => {
        $(#[$note])*
        #[derive(Clone, Copy, Debug, PartialEq, Eq, Hash)]
        #[repr(u8)]
        pub enum $name { $(#[allow(missing_docs)] $variant = c::$number),* }

        impl $name {
            fn of(number: u8) -> Option<Self> {
                match number { $(c::$number => Some(Self::$variant),)* _ => None }
            }
        }
    };
}

/// An end of a line.
#[derive(Clone, Copy, Debug, PartialEq, Eq, Hash)]
#[repr(u8)]
pub enum End {
    /// The terminal.
    Terminal = c::SCARD_END_TERMINAL,
    /// The card.
    Card = c::SCARD_END_CARD,
}

numbers!(/// What a judge says of a block.
    Judged {
        Permitted = SCARD_JUDGED_PERMITTED, Damage = SCARD_JUDGED_DAMAGE, Unseen = SCARD_JUDGED_UNSEEN,
        Deviation = SCARD_JUDGED_DEVIATION, Elsewhere = SCARD_JUDGED_ELSEWHERE
    });
numbers!(/// Whether the card owed a block and sent none.
    Silence { No = SCARD_SILENCE_NO, Possible = SCARD_SILENCE_POSSIBLE, Certain = SCARD_SILENCE_CERTAIN });
numbers!(/// A rule of T=1 that a judge knows.
    Rule {
        NodeAddress = SCARD_RULE_NODE_ADDRESS, ControlOctet = SCARD_RULE_CONTROL_OCTET, Length = SCARD_RULE_LENGTH,
        ReservedSize = SCARD_RULE_RESERVED_SIZE, FieldSize = SCARD_RULE_FIELD_SIZE, Turn = SCARD_RULE_TURN,
        ForeignRequest = SCARD_RULE_FOREIGN_REQUEST, SequenceNumber = SCARD_RULE_SEQUENCE_NUMBER,
        BlockDue = SCARD_RULE_BLOCK_DUE, AcknowledgmentDue = SCARD_RULE_ACKNOWLEDGMENT_DUE,
        ErrorCode = SCARD_RULE_ERROR_CODE, RepeatDue = SCARD_RULE_REPEAT_DUE,
        RepeatedOctets = SCARD_RULE_REPEATED_OCTETS, CorrectionDue = SCARD_RULE_CORRECTION_DUE,
        RequestDue = SCARD_RULE_REQUEST_DUE, ResponseDue = SCARD_RULE_RESPONSE_DUE,
        ResponseOctet = SCARD_RULE_RESPONSE_OCTET, Unasked = SCARD_RULE_UNASKED, NoChain = SCARD_RULE_NO_CHAIN,
        EarlyResynch = SCARD_RULE_EARLY_RESYNCH, TooManyRepeats = SCARD_RULE_TOO_MANY_REPEATS,
        Silence = SCARD_RULE_SILENCE, CheckOctet = SCARD_RULE_CHECK_OCTET
    });
numbers!(/// The block that an end owed.
    Owed {
        NewMessage = SCARD_OWED_NEW_MESSAGE, NextBlock = SCARD_OWED_NEXT_BLOCK,
        Acknowledgment = SCARD_OWED_ACKNOWLEDGMENT, SameBlock = SCARD_OWED_SAME_BLOCK,
        Correction = SCARD_OWED_CORRECTION, Refusal = SCARD_OWED_REFUSAL, SameRequest = SCARD_OWED_SAME_REQUEST,
        ResynchResponse = SCARD_OWED_RESYNCH_RESPONSE, IfsResponse = SCARD_OWED_IFS_RESPONSE,
        AbortResponse = SCARD_OWED_ABORT_RESPONSE, WtxResponse = SCARD_OWED_WTX_RESPONSE,
        EitherBlock = SCARD_OWED_EITHER_BLOCK, AnyBlock = SCARD_OWED_ANY_BLOCK,
        MessageOrCorrection = SCARD_OWED_MESSAGE_OR_CORRECTION, MessageOrRefusal = SCARD_OWED_MESSAGE_OR_REFUSAL,
        AcknowledgmentOrRefusal = SCARD_OWED_ACKNOWLEDGMENT_OR_REFUSAL
    });

impl Rule {
    /// What breaks the rule, in the library's words.
    pub fn text(self) -> &'static str {
        // SAFETY: the call writes the struct.
        text_of(|text| unsafe { c::scard_judge_rule_text(self as u8, text) })
    }

    /// Its clause in ISO/IEC 7816-3:2006.
    pub fn clause(self) -> &'static str {
        // SAFETY: the call writes the struct.
        text_of(|text| unsafe { c::scard_judge_clause_text(self as u8, text) })
    }
}

/// How octets reached the other end.
#[derive(Clone, Copy, Debug, PartialEq, Eq)]
pub enum Arrival<'a> {
    /// Nobody knows.
    Unsaid,
    /// They didn't arrive.
    Lost,
    /// They arrived as these octets.
    Came(&'a [u8]),
}

/// Octets that an end put on the line as one block.
#[derive(Clone, Copy, Debug, PartialEq, Eq)]
pub struct Seen<'a> {
    /// The end that sent them.
    pub end: End,
    /// The octets.
    pub octets: &'a [u8],
    /// How they reached the other end.
    pub arrival: Arrival<'a>,
}

impl Seen<'_> {
    /// The number of the arrival, and what arrived.
    fn came(&self) -> (u8, &[u8]) {
        match self.arrival {
            Arrival::Unsaid => (c::SCARD_ARRIVAL_UNSAID, &[]),
            Arrival::Lost => (c::SCARD_ARRIVAL_LOST, &[]),
            Arrival::Came(octets) => (c::SCARD_ARRIVAL_CAME, octets),
        }
    }
}

/// The judgment of a block, and of a silence of the card before it. The numbers of blocks start at 1.
#[derive(Clone, Copy, Debug, PartialEq, Eq)]
pub struct Judgment {
    /// The number of this block.
    pub number: u64,
    /// The number of the other end's last block, or 0.
    pub before: u64,
    /// The number of the block that the card didn't answer, or 0.
    pub unanswered: u64,
    /// What the judge says of the block.
    pub verdict: Judged,
    /// The rule that it breaks.
    pub rule: Option<Rule>,
    /// What was due, if the block breaks a rule.
    pub due: Option<Owed>,
    /// Whether the card was silent before the block.
    pub silence: Silence,
}

/// A set of rules.
#[derive(Clone, Copy, Debug, PartialEq, Eq, Hash)]
pub struct Rules(u32);

impl Rules {
    /// Whether a rule is one of these.
    pub fn contains(self, rule: Rule) -> bool {
        self.0 >> rule as u8 & 1 == 1
    }

    /// The rules, by their numbers in the library.
    pub fn iter(self) -> impl Iterator<Item = Rule> {
        (0..32).filter(move |number| self.0 >> number & 1 == 1).filter_map(Rule::of)
    }
}

/// What a block exercises.
#[derive(Clone, Copy, Debug, PartialEq, Eq)]
pub struct Exercise {
    /// The rules that it keeps: its sender could break each with some block then. None if it breaks one.
    pub kept: Rules,
    /// The rule that it breaks.
    pub broken: Option<Rule>,
    /// What was due from its sender, if it was its turn.
    pub due: Option<Owed>,
}

/// A judge of the blocks on a line.
///
/// ```
/// use scard::{Arrival, End, Ifs, Judge, Judged, Rule, Seen};
/// let mut judge = Judge::new(Ifs::new(32).unwrap());
/// let block = Seen { end: End::Terminal, octets: &[0, 0, 5, 0, 0xA4, 4, 0, 0, 0xA5], arrival: Arrival::Unsaid };
/// assert!(judge.exercise(&block).kept.contains(Rule::SequenceNumber));
/// assert_eq!(judge.block(&block).verdict, Judged::Permitted);
/// let answer = Seen { end: End::Card, octets: &[0, 0, 2, 0x90, 0, 0x92], ..block };
/// assert_eq!(judge.block(&answer).verdict, Judged::Permitted);
/// let wrong = judge.block(&block).rule.unwrap();
/// assert_eq!((wrong.text(), wrong.clause()), ("sequence number", "11.6.2.3 rule 2.1, 11.6.3.2 rule 7.1"));
/// ```
#[derive(Clone, Copy)]
pub struct Judge(c::scard_lent_judge);

impl Judge {
    /// Begins at a reset of a card that takes fields of up to so many octets.
    pub fn new(ifsc: Ifs) -> Judge {
        // SAFETY: a struct of zeros is valid. The call writes it.
        unsafe {
            let mut judge: c::scard_lent_judge = zeroed();
            let verdict = c::scard_lent_judge_begin(&mut judge, ifsc.get());
            debug_assert_eq!(verdict.status, c::SCARD_OK);
            Judge(judge)
        }
    }

    /// Judges a block.
    pub fn block(&mut self, seen: &Seen<'_>) -> Judgment {
        let (octets, (arrival, came)) = (seen.octets, seen.came());
        // SAFETY: the call reads both slices and writes both structs.
        unsafe {
            let mut out: c::scard_judgment = zeroed();
            let verdict = c::scard_lent_judge_block(
                &mut self.0, seen.end as u8, octets.as_ptr(), octets.len(), arrival, came.as_ptr(), came.len(),
                &mut out,
            );
            debug_assert_eq!(verdict.status, c::SCARD_OK);
            judgment(&out)
        }
    }

    /// Which rules a block keeps or breaks, and what was due. The judge doesn't take it.
    pub fn exercise(&self, seen: &Seen<'_>) -> Exercise {
        let (octets, (arrival, came)) = (seen.octets, seen.came());
        // SAFETY: the call reads both slices and the state, and writes the other struct.
        let out = unsafe {
            let mut out: c::scard_exercise = zeroed();
            let verdict = c::scard_lent_judge_exercise(
                &self.0, seen.end as u8, octets.as_ptr(), octets.len(), arrival, came.as_ptr(), came.len(), &mut out,
            );
            debug_assert_eq!(verdict.status, c::SCARD_OK);
            out
        };
        Exercise { kept: Rules(out.kept), broken: Rule::of(out.broken), due: Owed::of(out.due) }
    }

    /// Takes a timeout of the terminal.
    pub fn quiet(&mut self) -> Judgment {
        // SAFETY: the call writes both structs.
        unsafe {
            let mut out: c::scard_judgment = zeroed();
            c::scard_lent_judge_quiet(&mut self.0, &mut out);
            judgment(&out)
        }
    }

    /// Whether the card owes a block now.
    pub fn finish(&self) -> Judgment {
        // SAFETY: the call reads the state and writes the other struct.
        unsafe {
            let mut out: c::scard_judgment = zeroed();
            c::scard_lent_judge_finish(&self.0, &mut out);
            judgment(&out)
        }
    }
}

fn judgment(it: &c::scard_judgment) -> Judgment {
    Judgment {
        number: it.number,
        before: it.before,
        unanswered: it.unanswered,
        verdict: Judged::of(it.verdict).expect("the library's numbers are those of its header"),
        rule: Rule::of(it.rule),
        due: Owed::of(it.due.owed),
        silence: Silence::of(it.silence).expect("the library's numbers are those of its header"),
    }
}

/// The moments of a block in microseconds, each if it is known.
#[derive(Clone, Copy, Debug, Default, PartialEq, Eq)]
pub struct Moments {
    /// When its first octet began.
    pub first: Option<u64>,
    /// When its last octet began.
    pub last: Option<u64>,
}

/// Whether a block came too late or too early.
#[derive(Clone, Copy, Debug, PartialEq, Eq)]
pub enum OffTime {
    /// Neither, or too little is known.
    No,
    /// A card's block that came so many microseconds after the block before, and at most so many are permitted.
    Late {
        /// Microseconds since the block before.
        elapsed: u64,
        /// The most that are permitted.
        most: u64,
    },
    /// A terminal's block that came so many microseconds after the block before, and at least so many are permitted.
    Early {
        /// Microseconds since the block before.
        elapsed: u64,
        /// The least that are permitted.
        least: u64,
    },
}

/// What is said about the time of a block.
#[derive(Clone, Copy, Debug, PartialEq, Eq)]
pub struct Timed {
    /// Whether it came too late or too early.
    pub off: OffTime,
    /// Whether the card's waiting time was over when the block began.
    pub over: bool,
}

/// A moment is below an earlier one. Nothing changed.
#[derive(Clone, Copy, Debug, PartialEq, Eq)]
pub struct Falls;

/// The times of a line.
///
/// ```
/// use core::num::NonZeroU32;
/// use scard::{Arrival, End, Ifs, Judge, Moments, OffTime, Rates, Seen, Times, T1};
/// let t1 = T1::new(Ifs::new(32).unwrap(), 4, 5).unwrap();
/// let mut judge = Judge::new(t1.ifsc());
/// let mut times = Times::new(t1, Rates { fi: 372, di: 1 }, NonZeroU32::new(3_571_200).unwrap());
/// let request = Seen { end: End::Terminal, octets: &[0, 0xC0, 0, 0xC0], arrival: Arrival::Unsaid };
/// let response = Seen { end: End::Card, octets: &[0, 0xE0, 0, 0xE0], ..request };
/// let at = |first| Moments { first: Some(first), last: None };
/// assert_eq!(times.block(&judge, &request, at(0)).unwrap().off, OffTime::No);
/// judge.block(&request);
/// let late = times.block(&judge, &response, at(2_000_000)).unwrap();
/// assert_eq!(late.off, OffTime::Late { elapsed: 2_000_000, most: 1_614_584 });
/// judge.block(&response);
/// assert!(times.block(&judge, &request, at(1)).is_err());
/// ```
#[derive(Clone, Copy)]
pub struct Times(c::scard_lent_times);

impl Times {
    /// Begins at a reset of the card or after an exchange of PPS, with the parameters and rates in force, and the
    /// frequency of the card's clock. A rate of 0 isn't known, and then no block is late or early.
    pub fn new(t1: T1, rates: Rates, hertz: NonZeroU32) -> Times {
        let params = c::scard_t1 { ifsc: t1.ifsc().get(), bwi: t1.bwi(), cwi: t1.cwi() };
        let rates = c::scard_rates { fi: rates.fi, di: rates.di };
        // SAFETY: a struct of zeros is valid. The call writes it.
        unsafe {
            let mut times: c::scard_lent_times = zeroed();
            let verdict = c::scard_lent_times_begin(&mut times, &params, &rates, hertz.get());
            debug_assert_eq!(verdict.status, c::SCARD_OK);
            Times(times)
        }
    }

    /// Takes a block before the judge takes it, and says whether it came too late or too early. Call [`Judge::block`]
    /// next.
    pub fn block(&mut self, judge: &Judge, seen: &Seen<'_>, moments: Moments) -> Result<Timed, Falls> {
        let (octets, (arrival, came)) = (seen.octets, seen.came());
        let moments = c::scard_moments {
            first: moments.first.unwrap_or(0),
            last: moments.last.unwrap_or(0),
            has_first: moments.first.is_some().into(),
            has_last: moments.last.is_some().into(),
        };
        // SAFETY: the call reads both slices and two structs, and writes the other two.
        let (verdict, out) = unsafe {
            let mut out: c::scard_timed = zeroed();
            let verdict = c::scard_lent_times_block(
                &mut self.0, &judge.0, seen.end as u8, octets.as_ptr(), octets.len(), arrival, came.as_ptr(),
                came.len(), &moments, &mut out,
            );
            (verdict, out)
        };
        if verdict.status == c::SCARD_OK { Ok(timed(&out)) } else { Err(Falls) }
    }
}

fn timed(it: &c::scard_timed) -> Timed {
    let off = match it.off {
        c::SCARD_OFF_TIME_LATE => OffTime::Late { elapsed: it.elapsed, most: it.limit },
        c::SCARD_OFF_TIME_EARLY => OffTime::Early { elapsed: it.elapsed, least: it.limit },
        _ => OffTime::No,
    };
    Timed { off, over: it.over == 1 }
}
