//! Page lists with their bytes, and helpers for whoever fills them.

use crate::state::Width;
use std::error::Error;
use std::fmt;

/// How many bytes a page has.
pub const PAGE_BYTES: usize = 4096;

/// How many pages a list has at most. More are refusal 1.
pub const MOST_PAGES: usize = 16;

/// The part of an entry that holds the kind.
const KIND_MASK: u64 = PAGE_BYTES as u64 - 1;

/// What a page is for.
#[derive(Clone, Copy, Debug, PartialEq, Eq)]
pub enum Kind {
    /// Number 1: the shadow stack of user code.
    UserShadow = 1,
    /// Number 2: the shadow stack of supervisor code.
    SupervisorShadow = 2,
    /// Number 3: ordinary memory.
    Ordinary = 3,
}

impl Kind {
    /// The number of this kind.
    pub fn number(self) -> u64 {
        self as u64
    }

    /// The kind of this number.
    pub fn from_number(number: u64) -> Option<Kind> {
        match number {
            1 => Some(Kind::UserShadow),
            2 => Some(Kind::SupervisorShadow),
            3 => Some(Kind::Ordinary),
            _ => None,
        }
    }
}

impl fmt::Display for Kind {
    fn fmt(&self, out: &mut fmt::Formatter<'_>) -> fmt::Result {
        out.write_str(match self {
            Kind::UserShadow => "user shadow",
            Kind::SupervisorShadow => "supervisor shadow",
            Kind::Ordinary => "ordinary",
        })
    }
}

/// How many bytes a number takes in memory.
#[derive(Clone, Copy, Debug, PartialEq, Eq)]
pub enum Size {
    /// Four bytes.
    Four = 4,
    /// Eight bytes.
    Eight = 8,
}

impl Size {
    /// The number of bytes.
    pub fn bytes(self) -> u64 {
        self as u64
    }

    /// A number, cut to this size.
    pub fn cut(self, value: u64) -> u64 {
        match self {
            Size::Four => value % (1 << 32),
            Size::Eight => value,
        }
    }
}

/// Why a page list could not be filled as asked.
#[derive(Clone, Copy, Debug, PartialEq, Eq)]
pub enum PageError {
    /// No page starts at this address: it is not a multiple of 4,096.
    NotAPageAddress(u64),
    /// The byte at this address lies on no page of the list.
    NoPage(u64),
}

impl fmt::Display for PageError {
    fn fmt(&self, out: &mut fmt::Formatter<'_>) -> fmt::Result {
        match self {
            PageError::NotAPageAddress(address) => {
                write!(out, "{address:#x} is not a multiple of 0x1000")
            }
            PageError::NoPage(address) => write!(out, "no page holds {address:#x}"),
        }
    }
}

impl Error for PageError {}

/// A page list with its bytes.
///
/// It may hold what the library refuses: too many pages, one page twice, an
/// address that is not canonical. [`PageList::from_parts`] takes anything at
/// all.
#[derive(Clone, Debug, Default, PartialEq, Eq)]
pub struct PageList {
    entries: Vec<u64>,
    bytes: Vec<u8>,
}

impl PageList {
    /// A list with no page.
    pub fn new() -> PageList {
        PageList::default()
    }

    /// A list of these entries and bytes, whatever they are and however many.
    pub fn from_parts(entries: Vec<u64>, bytes: Vec<u8>) -> PageList {
        PageList { entries, bytes }
    }

    /// Adds a page of zero bytes.
    pub fn push(&mut self, address: u64, kind: Kind) -> Result<(), PageError> {
        self.push_bytes(address, kind, &[0; PAGE_BYTES])
    }

    /// Adds a page with these bytes.
    pub fn push_bytes(
        &mut self,
        address: u64,
        kind: Kind,
        bytes: &[u8; PAGE_BYTES],
    ) -> Result<(), PageError> {
        if address & KIND_MASK != 0 {
            return Err(PageError::NotAPageAddress(address));
        }
        self.entries.push(address | kind.number());
        self.bytes.extend_from_slice(bytes);
        Ok(())
    }

    /// The entries: each a page address with the kind in its low 12 bits.
    pub fn entries(&self) -> &[u64] {
        &self.entries
    }

    /// The pages as addresses and kinds. A kind that is none comes back as its
    /// number.
    pub fn pages(&self) -> impl Iterator<Item = (u64, Result<Kind, u64>)> {
        self.entries.iter().map(|entry| {
            let number = entry & KIND_MASK;
            (entry & !KIND_MASK, Kind::from_number(number).ok_or(number))
        })
    }

    /// The bytes of all pages, one page after the other in the list's order.
    pub fn bytes(&self) -> &[u8] {
        &self.bytes
    }

    /// The same bytes, to be filled.
    pub fn bytes_mut(&mut self) -> &mut [u8] {
        &mut self.bytes
    }

    /// Entries and bytes for a run.
    pub(crate) fn parts_mut(&mut self) -> (&[u64], &mut [u8]) {
        (&self.entries, &mut self.bytes)
    }

    /// The number at an address, its low byte first, on pages of any kind.
    /// Nothing comes back if one of its bytes lies on no page.
    pub fn read(&self, address: u64, size: Size) -> Option<u64> {
        self.read_wrapped(address, size, Width::Bits64)
    }

    /// Puts the low bytes of a number at an address, the lowest first, on pages
    /// of any kind. If one of them lies on no page, nothing is put.
    pub fn write(&mut self, address: u64, size: Size, value: u64) -> Result<(), PageError> {
        self.write_wrapped(address, size, Width::Bits64, value)
    }

    /// [`PageList::read`] with addresses that start again where the width says.
    pub(crate) fn read_wrapped(&self, address: u64, size: Size, width: Width) -> Option<u64> {
        let places = self.places(address, size, width).ok()?;
        let high_first = places.iter().rev();
        Some(high_first.fold(0, |above, &place| above << 8 | u64::from(self.bytes[place])))
    }

    /// [`PageList::write`] with addresses that start again where the width
    /// says.
    pub(crate) fn write_wrapped(
        &mut self,
        address: u64,
        size: Size,
        width: Width,
        value: u64,
    ) -> Result<(), PageError> {
        let places = self.places(address, size, width)?;
        for (place, byte) in places.into_iter().zip(value.to_le_bytes()) {
            self.bytes[place] = byte;
        }
        Ok(())
    }

    /// The places of the bytes from an address up, among all bytes.
    fn places(&self, address: u64, size: Size, width: Width) -> Result<Vec<usize>, PageError> {
        (0..size.bytes())
            .map(|step| width.wrap(address.wrapping_add(step)))
            .map(|byte| self.place(byte).ok_or(PageError::NoPage(byte)))
            .collect()
    }

    /// The place of the byte with this address.
    fn place(&self, address: u64) -> Option<usize> {
        let page = address & !KIND_MASK;
        let index = self
            .entries
            .iter()
            .position(|entry| entry & !KIND_MASK == page)?;
        let place = index * PAGE_BYTES + (address & KIND_MASK) as usize;
        (place < self.bytes.len()).then_some(place)
    }
}

#[cfg(test)]
mod tests {
    use super::*;

    /// Three pages, two of which are neighbours though the list parts them.
    fn three() -> PageList {
        let mut pages = PageList::new();
        pages.push(0x1000, Kind::UserShadow).unwrap();
        pages.push(0x5000, Kind::Ordinary).unwrap();
        pages.push(0x2000, Kind::SupervisorShadow).unwrap();
        pages
    }

    #[test]
    fn entries_carry_address_and_kind() {
        let pages = three();
        assert_eq!(pages.entries(), [0x1001, 0x5003, 0x2002]);
        assert_eq!(pages.bytes().len(), 3 * PAGE_BYTES);
        let last = pages.pages().last();
        assert_eq!(last, Some((0x2000, Ok(Kind::SupervisorShadow))));
        let odd = PageList::from_parts(vec![0x1009], Vec::new());
        assert_eq!(odd.pages().next(), Some((0x1000, Err(9))));
    }

    #[test]
    fn a_page_address_that_is_none_adds_nothing() {
        let mut pages = three();
        let refused = pages.push(0x3001, Kind::UserShadow);
        assert_eq!(refused, Err(PageError::NotAPageAddress(0x3001)));
        assert_eq!(pages, three());
    }

    #[test]
    fn numbers_lie_low_byte_first_across_pages() {
        let mut pages = three();
        pages
            .write(0x1ffc, Size::Eight, 0x0807_0605_0403_0201)
            .unwrap();
        assert_eq!(pages.bytes()[0xffc..0x1000], [1, 2, 3, 4]);
        assert_eq!(pages.bytes()[0x2000..0x2004], [5, 6, 7, 8]);
        assert_eq!(pages.read(0x1ffc, Size::Eight), Some(0x0807_0605_0403_0201));
        assert_eq!(pages.read(0x1ffe, Size::Four), Some(0x0605_0403));
    }

    #[test]
    fn a_byte_on_no_page_puts_nothing() {
        let mut pages = three();
        let refused = pages.write(0x2ffc, Size::Eight, u64::MAX);
        assert_eq!(refused, Err(PageError::NoPage(0x3000)));
        assert_eq!(pages, three());
        assert_eq!(pages.read(0x2ffc, Size::Eight), None);
        assert_eq!(pages.read(0x2ffc, Size::Four), Some(0));
    }

    #[test]
    fn addresses_start_again_with_the_width() {
        let mut pages = PageList::new();
        pages.push(0, Kind::UserShadow).unwrap();
        pages.push(0xffff_f000, Kind::UserShadow).unwrap();
        pages
            .write_wrapped(0xffff_fffc, Size::Eight, Width::Bits32, u64::MAX)
            .unwrap();
        assert_eq!(pages.read(0, Size::Four), Some(0xffff_ffff));
        assert_eq!(pages.read(0xffff_fffc, Size::Eight), None);
        pages.push(u64::MAX - 0xfff, Kind::UserShadow).unwrap();
        assert_eq!(
            pages.read(u64::MAX - 3, Size::Eight),
            Some(0xffff_ffff << 32)
        );
    }

    #[test]
    fn bytes_that_are_not_there_are_on_no_page() {
        let short = PageList::from_parts(vec![0x1001], vec![7; 6]);
        assert_eq!(short.read(0x1000, Size::Four), Some(0x0707_0707));
        assert_eq!(short.read(0x1000, Size::Eight), None);
    }

    #[test]
    fn texts() {
        assert_eq!(
            PageError::NoPage(0x3000).to_string(),
            "no page holds 0x3000"
        );
        assert_eq!(Kind::SupervisorShadow.to_string(), "supervisor shadow");
        for number in 1..=3 {
            let kind = Kind::from_number(number);
            assert_eq!(kind.map(Kind::number), Some(number));
        }
        assert_eq!(Kind::from_number(0), None);
    }
}
