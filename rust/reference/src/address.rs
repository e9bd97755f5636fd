//! Addresses: exact sums, their reduction, and the canonical ranges.

/// The first address of the canonical hole.
pub const HOLE: u64 = 0x0000_8000_0000_0000;

/// The first address above the canonical hole.
pub const ABOVE_HOLE: u64 = 0xffff_8000_0000_0000;

/// The first address of the last page of all.
pub const LAST_PAGE: u64 = 0xffff_ffff_ffff_f000;

/// How far addresses go before they start again at 0.
#[derive(Clone, Copy, Debug, PartialEq, Eq)]
pub enum Width {
    /// Four bytes: addresses start again at 2^32.
    Four,
    /// Eight bytes: addresses start again at 2^64.
    Eight,
}

impl Width {
    /// The number of different addresses.
    pub fn modulus(self) -> i128 {
        match self {
            Width::Four => 1 << 32,
            Width::Eight => 1 << 64,
        }
    }

    /// Whether a number is an address as it stands, without a reduction.
    pub fn holds(self, number: u64) -> bool {
        i128::from(number) < self.modulus()
    }

    /// Brings an exact number, of either sign, into the range of addresses.
    pub fn reduce(self, exact: i128) -> u64 {
        let rest = exact.rem_euclid(self.modulus());
        u64::try_from(rest).expect("a remainder modulo 2^64 or less has 64 bits")
    }

    /// The reduced sum of two numbers.
    pub fn plus(self, left: u64, right: u64) -> u64 {
        self.reduce(i128::from(left) + i128::from(right))
    }

    /// The reduced difference of two numbers.
    pub fn minus(self, left: u64, right: u64) -> u64 {
        self.reduce(i128::from(left) - i128::from(right))
    }
}

/// Whether an address is canonical.
///
/// Read as a signed number, an address has its bits 63 to 47 all equal just
/// when it lies from -2^47 up to, but not including, 2^47.
pub fn is_canonical(address: u64) -> bool {
    let reach = 1_i128 << 47;
    (-reach..reach).contains(&i128::from(address.cast_signed()))
}

#[cfg(test)]
mod tests {
    use super::*;

    #[test]
    fn numbers_below_the_modulus_are_addresses() {
        assert!(Width::Four.holds(0));
        assert!(Width::Four.holds(0xffff_ffff));
        assert!(!Width::Four.holds(0x1_0000_0000));
        assert!(!Width::Four.holds(u64::MAX));
        assert!(Width::Eight.holds(0x1_0000_0000));
        assert!(Width::Eight.holds(u64::MAX));
    }

    #[test]
    fn sums_start_again_at_the_modulus() {
        assert_eq!(Width::Eight.plus(u64::MAX, 1), 0);
        assert_eq!(Width::Eight.plus(u64::MAX, u64::MAX), u64::MAX - 1);
        assert_eq!(Width::Eight.plus(0xffff_ffff, 1), 0x1_0000_0000);
        assert_eq!(Width::Four.plus(0xffff_ffff, 1), 0);
        assert_eq!(Width::Four.plus(0x1_0000_0005, 3), 8);
        assert_eq!(Width::Four.plus(u64::MAX, u64::MAX), 0xffff_fffe);
    }

    #[test]
    fn differences_start_again_below_zero() {
        assert_eq!(Width::Eight.minus(0, 1), u64::MAX);
        assert_eq!(Width::Eight.minus(0, u64::MAX), 1);
        assert_eq!(Width::Eight.minus(5, 5), 0);
        assert_eq!(Width::Four.minus(0, 1), 0xffff_ffff);
        assert_eq!(Width::Four.minus(0, u64::MAX), 1);
        assert_eq!(Width::Four.minus(0x1_0000_0000, 1), 0xffff_ffff);
    }

    #[test]
    fn the_canonical_ranges_end_at_the_hole() {
        assert!(is_canonical(0));
        assert!(is_canonical(0x0000_7fff_ffff_ffff));
        assert!(!is_canonical(0x0000_8000_0000_0000));
        assert!(!is_canonical(0x8000_0000_0000_0000));
        assert!(!is_canonical(0x7fff_ffff_ffff_ffff));
        assert!(!is_canonical(0xffff_7fff_ffff_ffff));
        assert!(is_canonical(0xffff_8000_0000_0000));
        assert!(is_canonical(u64::MAX));
    }

    #[test]
    fn canonical_agrees_with_the_seventeen_bits() {
        let by_bits = |address: u64| {
            let ones = (47..64).filter(|bit| address >> bit & 1 == 1).count();
            ones == 0 || ones == 17
        };
        for low in [0, 1, 0x7fff_ffff_ffff] {
            for high in 0..1_u64 << 17 {
                let address = high << 47 | low;
                assert_eq!(is_canonical(address), by_bits(address), "{address:x}");
            }
        }
    }
}
