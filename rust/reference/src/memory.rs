//! Lent pages: what can be reached there, loads, and the bytes stored since.

use crate::address::{Width, is_canonical};
use crate::pages::{Atlas, Kind, Refusal, Spot};
use std::collections::BTreeMap;

/// How many bytes an access touches.
#[derive(Clone, Copy, Debug, PartialEq, Eq)]
pub enum Size {
    /// Four bytes.
    Four,
    /// Eight bytes.
    Eight,
}

impl Size {
    /// The number of bytes.
    pub fn bytes(self) -> i128 {
        match self {
            Size::Four => 4,
            Size::Eight => 8,
        }
    }
}

/// Which bytes are wanted, and what is asked of them.
#[derive(Clone, Copy, Debug, PartialEq, Eq)]
pub struct Access {
    /// The kind of page that every byte must lie on.
    pub kind: Kind,
    /// Where addresses start again at 0.
    pub width: Width,
    /// Whether every byte must have a canonical address.
    pub canonical: bool,
    /// How many bytes.
    pub size: Size,
    /// The address of the first byte, before its reduction.
    pub first: u64,
}

impl Access {
    /// The addresses of the bytes, from the first one up.
    pub fn addresses(&self) -> Vec<u64> {
        (0..self.size.bytes())
            .map(|step| self.width.reduce(i128::from(self.first) + step))
            .collect()
    }
}

/// Why an access can't be done.
#[derive(Clone, Copy, Debug, PartialEq, Eq)]
pub enum Obstacle {
    /// Some byte has no canonical address, though all must.
    NotCanonical,
    /// The byte at this address lies on no listed page.
    NoPage(u64),
    /// The byte at this address lies on a page of another kind.
    WrongKind(u64),
}

/// Lent bytes on a good page list, with what was stored since.
///
/// The lent bytes stay as they came. What is stored lies in a map above them,
/// from places to bytes, and hides what is below.
#[derive(Clone, Debug, PartialEq, Eq)]
pub struct Memory {
    atlas: Atlas,
    lent: Vec<u8>,
    stored: BTreeMap<u64, u8>,
}

impl Memory {
    /// Takes a page list with its lent bytes, unless it is to be sent back.
    pub fn new(entries: &[u64], lent: Vec<u8>) -> Result<Memory, Refusal> {
        let atlas = Atlas::build(entries, lent.len() as u64)?;
        Ok(Memory {
            atlas,
            lent,
            stored: BTreeMap::new(),
        })
    }

    /// Where an address lies.
    pub fn find(&self, address: u64) -> Option<Spot> {
        self.atlas.find(address)
    }

    /// The number at the bytes of an access, its lowest byte first.
    pub fn load(&self, access: &Access) -> Result<u64, Obstacle> {
        let places = self.places(access)?;
        let highest_first = places.into_iter().rev();
        Ok(highest_first.fold(0, |above, place| above << 8 | u64::from(self.byte(place))))
    }

    /// All lent bytes in their order, as they are now.
    pub fn into_bytes(self) -> Vec<u8> {
        let mut bytes = self.lent;
        for (place, byte) in self.stored {
            bytes[index(place)] = byte;
        }
        bytes
    }

    /// Puts bytes at places, both taken from a store that can be done.
    pub(crate) fn put(&mut self, bytes: impl IntoIterator<Item = (u64, u8)>) {
        self.stored.extend(bytes);
    }

    /// The byte at a place, as it is now.
    pub(crate) fn byte(&self, place: u64) -> u8 {
        match self.stored.get(&place) {
            Some(&byte) => byte,
            None => self.lent[index(place)],
        }
    }

    /// The places of all bytes of an access, or what stands against it.
    pub(crate) fn places(&self, access: &Access) -> Result<Vec<u64>, Obstacle> {
        let addresses = access.addresses();
        if access.canonical && !addresses.iter().copied().all(is_canonical) {
            return Err(Obstacle::NotCanonical);
        }
        addresses
            .into_iter()
            .map(|address| self.place(access.kind, address))
            .collect()
    }

    /// The place of one byte that must lie on a page of this kind.
    fn place(&self, kind: Kind, address: u64) -> Result<u64, Obstacle> {
        match self.find(address) {
            None => Err(Obstacle::NoPage(address)),
            Some(spot) if spot.kind != kind => Err(Obstacle::WrongKind(address)),
            Some(spot) => Ok(spot.place),
        }
    }
}

/// A place as an index of the lent bytes.
fn index(place: u64) -> usize {
    usize::try_from(place).expect("a place is an index of the lent bytes")
}

#[cfg(test)]
mod tests {
    use super::*;

    /// Lent bytes that count up: 0, 1, 2 and so on, page after page.
    fn memory(entries: &[u64]) -> Memory {
        let lent = (0..entries.len() * 4096).map(|place| place as u8).collect();
        Memory::new(entries, lent).unwrap()
    }

    /// Eight bytes of kind 1, addresses of 64 bits, canonical or not.
    fn eight(first: u64) -> Access {
        Access {
            kind: Kind::UserShadow,
            width: Width::Eight,
            canonical: false,
            size: Size::Eight,
            first,
        }
    }

    #[test]
    fn addresses_of_an_access_start_again() {
        let wide = eight(u64::MAX - 1);
        assert_eq!(wide.addresses(), [u64::MAX - 1, u64::MAX, 0, 1, 2, 3, 4, 5]);
        let narrow = Access {
            width: Width::Four,
            size: Size::Four,
            ..wide
        };
        assert_eq!(narrow.addresses(), [0xffff_fffe, 0xffff_ffff, 0, 1]);
    }

    #[test]
    fn the_lowest_byte_lies_first() {
        let memory = memory(&[0x1001]);
        assert_eq!(memory.load(&eight(0x1001)), Ok(0x0807_0605_0403_0201));
        let four = Access {
            size: Size::Four,
            ..eight(0x1ffc)
        };
        assert_eq!(memory.load(&four), Ok(0xfffe_fdfc));
    }

    #[test]
    fn an_access_crosses_to_the_neighbour_in_either_order() {
        let up = memory(&[0x1001, 0x2001]);
        let down = memory(&[0x2001, 0x1001]);
        // Places ffc to 1003 in one, 1ffc to 1fff and 0 to 3 in the other: the
        // bytes repeat every 100, so both hold the same.
        assert_eq!(up.load(&eight(0x1ffc)), Ok(0x0302_0100_fffe_fdfc));
        assert_eq!(down.load(&eight(0x1ffc)), Ok(0x0302_0100_fffe_fdfc));
    }

    #[test]
    fn the_first_bad_byte_is_named() {
        let memory = memory(&[0x1001, 0x2003]);
        for (kind, first, wanted) in [
            (Kind::UserShadow, 0xffd, Obstacle::NoPage(0xffd)),
            (Kind::UserShadow, 0x1ff9, Obstacle::WrongKind(0x2000)),
            (Kind::UserShadow, 0x1ffc, Obstacle::WrongKind(0x2000)),
            (Kind::UserShadow, 0x2ffe, Obstacle::WrongKind(0x2ffe)),
            (Kind::Ordinary, 0x2ffe, Obstacle::NoPage(0x3000)),
        ] {
            let access = Access {
                kind,
                ..eight(first)
            };
            assert_eq!(memory.load(&access), Err(wanted));
        }
    }

    #[test]
    fn a_byte_in_the_hole_goes_before_all_else() {
        // No page is listed at all, but the last byte is in the hole.
        let memory = memory(&[]);
        let asked = Access {
            canonical: true,
            ..eight(0x0000_7fff_ffff_fff9)
        };
        assert_eq!(memory.load(&asked), Err(Obstacle::NotCanonical));
        let below = Access {
            first: 0x0000_7fff_ffff_fff8,
            ..asked
        };
        assert_eq!(
            memory.load(&below),
            Err(Obstacle::NoPage(0x0000_7fff_ffff_fff8))
        );
        let not_asked = Access {
            canonical: false,
            ..asked
        };
        assert_eq!(
            memory.load(&not_asked),
            Err(Obstacle::NoPage(0x0000_7fff_ffff_fff9))
        );
    }
}
