//! Commands and responses (ISO/IEC 7816-3, clause 12, and ISO/IEC 7816-4, clause 5.1).

use crate::error::{decided, written, CommandReason, Failure, Refusal, ResponseReason};
use core::mem::zeroed;
use scard_sys as c;

/// The case of a command.
#[derive(Clone, Copy, Debug, PartialEq, Eq, Hash)]
#[repr(u8)]
pub enum Shape {
    /// No body after the header.
    Case1 = c::SCARD_CASE_1,
    /// Le, 1 to 256.
    Case2Short = c::SCARD_CASE_2_SHORT,
    /// A data field of 1 to 255 octets.
    Case3Short = c::SCARD_CASE_3_SHORT,
    /// Both.
    Case4Short = c::SCARD_CASE_4_SHORT,
    /// Le, 1 to 65,536.
    Case2Long = c::SCARD_CASE_2_LONG,
    /// A data field of 1 to 65,535 octets.
    Case3Long = c::SCARD_CASE_3_LONG,
    /// Both.
    Case4Long = c::SCARD_CASE_4_LONG,
}

/// The case with the library's number.
fn shape_of(number: u8) -> Shape {
    match number {
        c::SCARD_CASE_2_SHORT => Shape::Case2Short,
        c::SCARD_CASE_3_SHORT => Shape::Case3Short,
        c::SCARD_CASE_4_SHORT => Shape::Case4Short,
        c::SCARD_CASE_2_LONG => Shape::Case2Long,
        c::SCARD_CASE_3_LONG => Shape::Case3Long,
        c::SCARD_CASE_4_LONG => Shape::Case4Long,
        _ => Shape::Case1,
    }
}

/// A command: its header, its case, its data field, and the most octets that it expects in the response.
#[derive(Clone, Copy, Debug, PartialEq, Eq)]
pub struct Command<'a> {
    /// CLA.
    pub cla: u8,
    /// INS.
    pub ins: u8,
    /// P1.
    pub p1: u8,
    /// P2.
    pub p2: u8,
    /// The case.
    pub shape: Shape,
    /// The data field.
    pub data: &'a [u8],
    /// Le.
    pub le: Option<u32>,
}

impl<'a> Command<'a> {
    /// The command that all of the octets are.
    pub fn decode(octets: &'a [u8]) -> Result<Command<'a>, Refusal<CommandReason>> {
        // SAFETY: a struct of zeros is valid. The call reads the slice and writes the struct.
        let (it, verdict) = unsafe {
            let mut command: c::scard_command = zeroed();
            let verdict = c::scard_command_decode(octets.as_ptr(), octets.len(), &mut command);
            (command, verdict)
        };
        decided(verdict)?;
        let place = it.data_place as usize;
        let data = &octets[place..place + it.data_len as usize];
        let le = (it.has_le != 0).then_some(it.le);
        Ok(Command { cla: it.cla, ins: it.ins, p1: it.p1, p2: it.p2, shape: shape_of(it.shape), data, le })
    }

    /// Writes the octets of the command to a buffer, which needs room for the data field and 9 more at most.
    pub fn encode<'o>(&self, out: &'o mut [u8]) -> Result<&'o [u8], Failure<CommandReason>> {
        let command = c::scard_command {
            cla: self.cla,
            ins: self.ins,
            p1: self.p1,
            p2: self.p2,
            shape: self.shape as u8,
            has_le: self.le.is_some().into(),
            le: self.le.unwrap_or(0),
            data_place: 0,
            data_len: 0,
        };
        let (data, count) = (self.data.as_ptr(), self.data.len());
        // SAFETY: the call reads the struct and the data field, and writes at most the room.
        let verdict = unsafe { c::scard_command_encode(&command, data, count, out.as_mut_ptr(), out.len()) };
        written(verdict).map(move |count| &out[..count])
    }
}

/// The class of two status bytes.
#[derive(Clone, Copy, Debug, PartialEq, Eq, Hash)]
pub enum StatusClass {
    /// Normal processing.
    Normal,
    /// A warning.
    Warning,
    /// An execution error.
    Execution,
    /// A checking error.
    Checking,
    /// Proprietary.
    Proprietary,
    /// Not a value of status bytes.
    Invalid,
}

/// A response: its data field and its two status bytes.
#[derive(Clone, Copy, Debug, PartialEq, Eq)]
pub struct Response<'a> {
    /// The data field.
    pub data: &'a [u8],
    /// SW1.
    pub sw1: u8,
    /// SW2.
    pub sw2: u8,
}

impl<'a> Response<'a> {
    /// The response that all of the octets are.
    pub fn decode(octets: &'a [u8]) -> Result<Response<'a>, Refusal<ResponseReason>> {
        let mut it = c::scard_response { sw1: 0, sw2: 0, data_len: 0 };
        // SAFETY: the call reads the slice and writes the struct.
        decided(unsafe { c::scard_response_decode(octets.as_ptr(), octets.len(), &mut it) })?;
        Ok(Response { data: &octets[..it.data_len as usize], sw1: it.sw1, sw2: it.sw2 })
    }

    /// Writes the octets of the response to a buffer, which needs room for the data field and 2 more.
    pub fn encode<'o>(&self, out: &'o mut [u8]) -> Result<&'o [u8], Failure<ResponseReason>> {
        let (data, count) = (self.data.as_ptr(), self.data.len());
        // SAFETY: the call reads the data field and writes at most the room.
        let verdict =
            unsafe { c::scard_response_encode(data, count, self.sw1, self.sw2, out.as_mut_ptr(), out.len()) };
        written(verdict).map(move |count| &out[..count])
    }

    /// The class of the status bytes.
    pub fn status_class(&self) -> StatusClass {
        // SAFETY: the call takes two numbers.
        match unsafe { c::scard_status_class(self.sw1, self.sw2) } {
            c::SCARD_CLASS_NORMAL => StatusClass::Normal,
            c::SCARD_CLASS_WARNING => StatusClass::Warning,
            c::SCARD_CLASS_EXECUTION => StatusClass::Execution,
            c::SCARD_CLASS_CHECKING => StatusClass::Checking,
            c::SCARD_CLASS_PROPRIETARY => StatusClass::Proprietary,
            _ => StatusClass::Invalid,
        }
    }
}
