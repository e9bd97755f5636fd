//! Several accesses to memory that take effect together or not at all.

use crate::memory::{Access, Memory, Obstacle};
use std::collections::BTreeMap;

/// What an access is made for.
#[derive(Clone, Copy, Debug, PartialEq, Eq)]
pub enum Purpose {
    /// To load a number.
    Load,
    /// To store one.
    Store,
}

/// A way to find the places of the bytes of an access, or what stands against
/// it. There is one right way; others are for programs that are wrong on
/// purpose.
pub type Search<'run> = dyn Fn(&Memory, &Access, Purpose) -> Result<Vec<u64>, Obstacle> + 'run;

/// The right way.
pub fn by_the_rules(memory: &Memory, access: &Access, _: Purpose) -> Result<Vec<u64>, Obstacle> {
    memory.places(access)
}

/// Accesses that belong together.
///
/// Stores wait here until all of them are committed. A transaction that is
/// dropped before leaves the memory as it was.
pub struct Transaction<'memory> {
    memory: &'memory mut Memory,
    search: &'memory Search<'memory>,
    waiting: BTreeMap<u64, u8>,
}

impl<'memory> Transaction<'memory> {
    /// Begins with no store waiting.
    pub fn begin(memory: &'memory mut Memory, search: &'memory Search<'memory>) -> Self {
        Transaction {
            memory,
            search,
            waiting: BTreeMap::new(),
        }
    }

    /// The number at the bytes of an access, its lowest byte first. Bytes that
    /// wait to be stored are seen as if they were.
    pub fn load(&self, access: &Access) -> Result<u64, Obstacle> {
        let places = (self.search)(self.memory, access, Purpose::Load)?;
        let weights = (0..).step_by(8);
        Ok(places
            .iter()
            .zip(weights)
            .map(|(place, weight)| u64::from(self.byte(*place)) << weight)
            .sum())
    }

    /// Lets the low bytes of a number wait, if they can be stored there.
    pub fn store(&mut self, access: &Access, value: u64) -> Result<(), Obstacle> {
        let places = (self.search)(self.memory, access, Purpose::Store)?;
        self.waiting
            .extend(places.into_iter().zip(value.to_le_bytes()));
        Ok(())
    }

    /// Stores all that waits.
    pub fn commit(self) {
        self.memory.put(self.waiting);
    }

    /// The byte at a place, as this transaction sees it.
    fn byte(&self, place: u64) -> u8 {
        let waiting = self.waiting.get(&place).copied();
        waiting.unwrap_or_else(|| self.memory.byte(place))
    }
}

#[cfg(test)]
mod tests {
    use super::*;
    use crate::address::Width;
    use crate::memory::Size;
    use crate::pages::Kind;

    /// The upper of two user shadow pages first, all zero.
    fn memory() -> Memory {
        Memory::new(&[0x2001, 0x1001], vec![0; 8192]).unwrap()
    }

    fn access(size: Size, first: u64) -> Access {
        Access {
            kind: Kind::UserShadow,
            width: Width::Eight,
            canonical: true,
            size,
            first,
        }
    }

    #[test]
    fn stores_are_seen_at_once_inside_and_later_outside() {
        let mut memory = memory();
        let mut transaction = Transaction::begin(&mut memory, &by_the_rules);
        let eight = access(Size::Eight, 0x1ffc);
        let four = access(Size::Four, 0x1ffa);
        transaction.store(&eight, 0x8877_6655_4433_2211).unwrap();
        transaction.store(&four, 0xffff_ffff_ddcc_bbaa).unwrap();
        assert_eq!(transaction.load(&eight), Ok(0x8877_6655_4433_ddcc));
        assert_eq!(transaction.load(&four), Ok(0xddcc_bbaa));
        assert_eq!(transaction.memory.load(&eight), Ok(0));
        transaction.commit();
        assert_eq!(memory.load(&eight), Ok(0x8877_6655_4433_ddcc));
        let mut bytes = vec![0; 8192];
        bytes[..4].copy_from_slice(&[0x55, 0x66, 0x77, 0x88]);
        bytes[0x1ffa..].copy_from_slice(&[0xaa, 0xbb, 0xcc, 0xdd, 0x33, 0x44]);
        assert_eq!(memory.into_bytes(), bytes);
    }

    #[test]
    fn dropping_undoes_all() {
        let mut memory = memory();
        let before = memory.clone();
        let mut transaction = Transaction::begin(&mut memory, &by_the_rules);
        transaction.store(&access(Size::Eight, 0x1ff8), 1).unwrap();
        assert_eq!(
            transaction.store(&access(Size::Eight, 0x2ffc), 1),
            Err(Obstacle::NoPage(0x3000))
        );
        drop(transaction);
        assert_eq!(memory, before);
    }
}
