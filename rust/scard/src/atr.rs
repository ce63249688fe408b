//! Answers to reset (ISO/IEC 7816-3, clause 8).

use crate::block::{Ifs, Octets};
use crate::error::{decided, AtrReason, Failure, Refusal};
use core::fmt;
use core::mem::zeroed;
use scard_sys as c;

/// An answer to reset.
#[derive(Clone, Copy)]
pub struct Atr(pub(crate) c::scard_atr);

/// The interface bytes TA, TB and TC.
#[derive(Clone, Copy, Debug, PartialEq, Eq, Hash)]
pub struct Interface {
    /// TA.
    pub ta: Option<u8>,
    /// TB.
    pub tb: Option<u8>,
    /// TC.
    pub tc: Option<u8>,
}

/// The parameters of T=1: the field size of the card, and the indexes of its two waiting times, 0 to 15.
#[derive(Clone, Copy, Debug, PartialEq, Eq, Hash)]
pub struct T1 {
    ifsc: Ifs,
    bwi: u8,
    cwi: u8,
}

/// Why an answer has no parameters of T=1 that this stack can use.
#[derive(Clone, Copy, Debug, PartialEq, Eq, Hash)]
pub enum T1Fault {
    /// The answer doesn't offer T=1.
    NoT1,
    /// IFSC is 00 or FF.
    ReservedIfsc,
    /// The answer asks for the CRC.
    Crc,
}

/// The integers Fi and Di of TA1. A reserved one is 0.
#[derive(Clone, Copy, Debug, PartialEq, Eq, Hash)]
pub struct Rates {
    /// Fi.
    pub fi: u16,
    /// Di.
    pub di: u16,
}

impl T1 {
    /// The parameters with these values, or None if an index is above 15.
    pub fn new(ifsc: Ifs, bwi: u8, cwi: u8) -> Option<T1> {
        (bwi <= 15 && cwi <= 15).then_some(T1 { ifsc, bwi, cwi })
    }

    /// The field size of the card.
    pub fn ifsc(self) -> Ifs {
        self.ifsc
    }

    /// BWI.
    pub fn bwi(self) -> u8 {
        self.bwi
    }

    /// CWI.
    pub fn cwi(self) -> u8 {
        self.cwi
    }

    /// The character waiting time in etu (clause 11.4).
    pub fn cwt(self) -> u32 {
        // SAFETY: the call reads the struct.
        unsafe { c::scard_t1_cwt(&self.plain()) }
    }

    /// The block waiting time in clock cycles divided by `di`, with the integers in use.
    pub fn bwt(self, fi: u16, di: u16) -> u64 {
        // SAFETY: the call reads the struct.
        unsafe { c::scard_t1_bwt(&self.plain(), fi, di) }
    }

    fn plain(self) -> c::scard_t1 {
        c::scard_t1 { ifsc: self.ifsc.get(), bwi: self.bwi, cwi: self.cwi }
    }
}

/// Interface bytes as values.
fn interface(bytes: &c::scard_interface) -> Interface {
    let byte = |has: u8, value: u8| (has != 0).then_some(value);
    Interface {
        ta: byte(bytes.has_ta, bytes.ta),
        tb: byte(bytes.has_tb, bytes.tb),
        tc: byte(bytes.has_tc, bytes.tc),
    }
}

impl Atr {
    /// The answer to reset at the start of octets, and how many octets it takes.
    pub fn decode(octets: &[u8]) -> Result<(Atr, usize), Refusal<AtrReason>> {
        // SAFETY: a struct of zeros is valid. The call reads the slice and writes the struct.
        let (atr, verdict) = unsafe {
            let mut atr: c::scard_atr = zeroed();
            let verdict = c::scard_atr_decode(octets.as_ptr(), octets.len(), &mut atr);
            (atr, verdict)
        };
        decided(verdict).map(|count| (Atr(atr), count))
    }

    /// The octets of the answer.
    pub fn encode(&self) -> Octets<{ c::SCARD_ATR_ROOM }> {
        // SAFETY: the call reads the struct and writes at most the room.
        let made: Result<_, Failure<AtrReason>> =
            Octets::written(|out| unsafe { c::scard_atr_encode(&self.0, out.as_mut_ptr(), out.len()) });
        made.expect("a decoded answer has octets")
    }

    /// Whether TS says the inverse convention.
    pub fn is_inverse(&self) -> bool {
        self.0.convention != 0
    }

    /// TA1, TB1 and TC1.
    pub fn first(&self) -> Interface {
        interface(&self.0.first)
    }

    /// The protocols that the TDs indicate, with the interface bytes after each.
    pub fn indicated(&self) -> impl Iterator<Item = (u8, Interface)> + '_ {
        let count = (self.0.indicated_count as usize).min(self.0.indicated.len());
        self.0.indicated[..count].iter().map(|it| (it.protocol, interface(&it.bytes)))
    }

    /// The historical bytes.
    pub fn historical(&self) -> &[u8] {
        &self.0.historical[..(self.0.historical_count as usize).min(self.0.historical.len())]
    }

    /// The parameters of T=1 (clause 11.4).
    pub fn t1(&self) -> Result<T1, T1Fault> {
        let mut t1 = c::scard_t1 { ifsc: 0, bwi: 0, cwi: 0 };
        // SAFETY: the call reads one struct and writes the other.
        match unsafe { c::scard_atr_t1_params(&self.0, &mut t1) } {
            c::SCARD_T1_USABLE => {
                Ok(Ifs::new(t1.ifsc).and_then(|ifsc| T1::new(ifsc, t1.bwi, t1.cwi)).expect("usable parameters"))
            }
            c::SCARD_T1_RESERVED_IFSC => Err(T1Fault::ReservedIfsc),
            c::SCARD_T1_CRC => Err(T1Fault::Crc),
            _ => Err(T1Fault::NoT1),
        }
    }

    /// Fi and Di of TA1 (clause 8.3).
    pub fn rates(&self) -> Rates {
        let mut rates = c::scard_rates { fi: 0, di: 0 };
        // SAFETY: the call reads one struct and writes the other.
        let status = unsafe { c::scard_atr_rates(&self.0, &mut rates) };
        debug_assert_eq!(status, c::SCARD_OK);
        Rates { fi: rates.fi, di: rates.di }
    }
}

impl PartialEq for Atr {
    fn eq(&self, other: &Atr) -> bool {
        self.encode() == other.encode()
    }
}

impl Eq for Atr {}

impl fmt::Debug for Atr {
    fn fmt(&self, f: &mut fmt::Formatter<'_>) -> fmt::Result {
        let octets = self.encode();
        write!(f, "Atr({:02X?})", &octets[..])
    }
}
