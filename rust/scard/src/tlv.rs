//! Data objects and data object lists (EMV 4.3 Book 3, Annex B and clause 5.4).

use crate::block::Octets;
use crate::error::{decided, written, DolReason, Failure, Refusal, TlvReason};
use scard_sys as c;

/// The most octets of a forest.
pub const TLV_LARGEST: usize = c::SCARD_TLV_LARGEST;

/// The most octets of a header: a tag, and the length of the largest forest.
pub const HEADER_ROOM: usize = 7;

/// A tag of one to three octets.
#[derive(Clone, Copy)]
#[repr(transparent)]
pub struct Tag(c::scard_tag);

impl Tag {
    /// The tag with these octets, or None unless there are one to three.
    pub fn new(octets: &[u8]) -> Option<Tag> {
        let mut tag = c::scard_tag { octets: [0; 3], count: octets.len().min(4) as u8 };
        tag.octets.get_mut(..octets.len())?.copy_from_slice(octets);
        (!octets.is_empty()).then_some(Tag(tag))
    }

    /// The octets of the tag.
    pub fn octets(&self) -> &[u8] {
        &self.0.octets[..(self.0.count as usize).min(3)]
    }
}

impl PartialEq for Tag {
    fn eq(&self, other: &Tag) -> bool {
        self.octets() == other.octets()
    }
}

impl Eq for Tag {}

impl core::fmt::Debug for Tag {
    fn fmt(&self, f: &mut core::fmt::Formatter<'_>) -> core::fmt::Result {
        write!(f, "Tag({:02X?})", self.octets())
    }
}

/// A data object of a forest.
#[derive(Clone, Copy)]
#[repr(transparent)]
pub struct Part(c::scard_part);

impl Part {
    /// A place in an array, before a forest is decoded into it.
    pub const NONE: Part = Part(c::scard_part {
        depth: 0,
        is_constructed: 0,
        len_octets: 0,
        tag: c::scard_tag { octets: [0; 3], count: 0 },
        place: 0,
        len: 0,
    });

    /// The tag.
    pub fn tag(&self) -> Tag {
        Tag(self.0.tag)
    }

    /// 1 for an outermost object, at most 16.
    pub fn depth(&self) -> u8 {
        self.0.depth
    }

    /// Whether the value consists of data objects.
    pub fn is_constructed(&self) -> bool {
        self.0.is_constructed != 0
    }

    /// Where the object begins in the forest.
    pub fn start(&self) -> usize {
        self.place() - self.0.len_octets as usize - self.tag().octets().len()
    }

    /// Where the value begins in the forest.
    pub fn place(&self) -> usize {
        self.0.place as usize
    }

    /// Where the value ends.
    pub fn end(&self) -> usize {
        self.place() + self.0.len as usize
    }
}

/// A forest, decoded: its octets, and its objects, each before the objects inside it.
#[derive(Clone, Copy)]
pub struct Forest<'a> {
    octets: &'a [u8],
    parts: &'a [Part],
}

impl<'a> Forest<'a> {
    /// The forest that all of the octets are. Its objects go into an array; half as many as octets suffice.
    pub fn decode(octets: &'a [u8], room: &'a mut [Part]) -> Result<Forest<'a>, Failure<TlvReason>> {
        // SAFETY: Part has the form of the library's struct. The call reads the octets, and writes at most the array.
        let verdict = unsafe {
            let parts = room.as_mut_ptr().cast();
            c::scard_tlv_parts(octets.as_ptr(), octets.len(), TLV_LARGEST, parts, room.len())
        };
        let count = written(verdict)?;
        Ok(Forest { octets, parts: &room[..count] })
    }

    /// The objects.
    pub fn parts(&self) -> &'a [Part] {
        self.parts
    }

    /// The value of an object of this forest, or None if it is of a longer one.
    pub fn value(&self, part: &Part) -> Option<&'a [u8]> {
        self.octets.get(part.place()..part.end())
    }

    /// The first object on a path of tags, from the outside in.
    pub fn find(&self, path: &[Tag]) -> Option<&'a Part> {
        let (parts, count) = (self.parts.as_ptr().cast(), self.parts.len());
        // SAFETY: both types have the form of the library's structs. The call reads both arrays.
        let found = unsafe { c::scard_tlv_first(parts, count, path.as_ptr().cast(), path.len()) };
        self.parts.get(found)
    }
}

/// Says how many octets a forest has, if all of the octets are one.
pub fn check(octets: &[u8]) -> Result<usize, Refusal<TlvReason>> {
    // SAFETY: the call reads the slice.
    decided(unsafe { c::scard_tlv_check(octets.as_ptr(), octets.len(), TLV_LARGEST) })
}

/// Writes the shortest encoding of a forest to a buffer. Room for as many octets suffices.
pub fn tidy<'o>(octets: &[u8], out: &'o mut [u8]) -> Result<&'o [u8], Failure<TlvReason>> {
    // SAFETY: the call reads one slice and writes the other.
    let verdict =
        unsafe { c::scard_tlv_tidy(octets.as_ptr(), octets.len(), TLV_LARGEST, out.as_mut_ptr(), out.len()) };
    written(verdict).map(move |count| &out[..count])
}

/// The header of a data object: its tag, and the shortest length field for a value of so many octets.
///
/// ```
/// let tag = scard::Tag::new(&[0x9F, 0x02]).unwrap();
/// assert_eq!(&*scard::tlv_header(tag, 0x80).unwrap(), &[0x9F, 0x02, 0x81, 0x80]);
/// assert_eq!(&*scard::dol_entry(tag, 6).unwrap(), &[0x9F, 0x02, 6]);
/// assert!(scard::tlv_header(scard::Tag::new(&[0x9F]).unwrap(), 1).is_err());
/// ```
pub fn tlv_header(tag: Tag, len: usize) -> Result<Octets<HEADER_ROOM>, Failure<TlvReason>> {
    // SAFETY: the call reads the tag and writes at most the room.
    Octets::written(|out| unsafe { c::scard_tlv_header(&tag.0, len, out.as_mut_ptr(), out.len()) })
}

/// The octets of an entry of a data object list: a tag, and the length of the value that the list requests.
pub fn dol_entry(tag: Tag, len: u8) -> Result<Octets<HEADER_ROOM>, Failure<DolReason>> {
    // SAFETY: as above.
    Octets::written(|out| unsafe { c::scard_dol_entry(&tag.0, len, out.as_mut_ptr(), out.len()) })
}

/// An entry of a data object list.
#[derive(Clone, Copy)]
#[repr(transparent)]
pub struct Entry(c::scard_entry);

impl Entry {
    /// A place in an array, before a list is decoded into it.
    pub const NONE: Entry = Entry(c::scard_entry { tag: c::scard_tag { octets: [0; 3], count: 0 }, len: 0 });

    /// The tag.
    pub fn tag(&self) -> Tag {
        Tag(self.0.tag)
    }

    /// How many octets the list requests.
    pub fn len(&self) -> u8 {
        self.0.len
    }

    /// Whether the list requests no octet.
    pub fn is_empty(&self) -> bool {
        self.0.len == 0
    }
}

/// The entries of a data object list. They go into an array; half as many as octets suffice.
pub fn entries<'o>(list: &[u8], room: &'o mut [Entry]) -> Result<&'o [Entry], Failure<DolReason>> {
    // SAFETY: Entry has the form of the library's struct. The call reads the list, and writes at most the array.
    let verdict =
        unsafe { c::scard_dol_entries(list.as_ptr(), list.len(), room.as_mut_ptr().cast(), room.len()) };
    written(verdict).map(move |count| &room[..count])
}

/// How a value is cut or padded to the length that a list requests.
#[derive(Clone, Copy, Debug, PartialEq, Eq, Hash)]
#[repr(u8)]
pub enum Format {
    /// Cut at the left, padded with leading 00.
    Numeric = c::SCARD_NUMERIC,
    /// Cut at the right, padded with trailing FF.
    CompressedNumeric = c::SCARD_COMPRESSED_NUMERIC,
    /// Cut at the right, padded with trailing 00.
    Other = c::SCARD_OTHER,
}

/// The value of a tag.
#[derive(Clone, Copy)]
#[repr(transparent)]
pub struct Known<'a>(c::scard_known, core::marker::PhantomData<&'a [u8]>);

impl<'a> Known<'a> {
    /// The value of a tag, with its format.
    pub fn new(tag: Tag, format: Format, value: &'a [u8]) -> Known<'a> {
        let (octets, count) = (value.as_ptr(), value.len() as u64);
        Known(c::scard_known { tag: tag.0, format: format as u8, value: octets, count }, core::marker::PhantomData)
    }
}

/// Writes the octets that a data object list requests to a buffer.
pub fn fill<'o>(list: &[u8], known: &[Known<'_>], out: &'o mut [u8]) -> Result<&'o [u8], Failure<DolReason>> {
    let (values, count) = (known.as_ptr().cast(), known.len());
    // SAFETY: Known has the form of the library's struct, and its value lives. The call writes at most the buffer.
    let verdict =
        unsafe { c::scard_dol_fill(list.as_ptr(), list.len(), values, count, out.as_mut_ptr(), out.len()) };
    written(verdict).map(move |count| &out[..count])
}
