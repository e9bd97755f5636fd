//! Why a RET or a WRUSS faulted, in words for a person.
//!
//! This judges nothing. The fault is the library's; here the first step of the
//! instruction is found that gives one.

use driftpocket::{Fault, Instruction, Kind, PageList, Size, State, Vector};

/// The error code of RET's #CP.
const NEAR_RET: u64 = 1;

/// What is wrong with a step of an instruction.
#[derive(Clone, Debug, PartialEq, Eq)]
pub struct Reason {
    /// The fault that this gives.
    pub fault: Fault,
    /// What is wrong.
    pub words: String,
}

/// Why an instruction faults in this state and on these pages, if it is a RET
/// or a WRUSS and does.
pub fn reason(instruction: &Instruction, state: &State, pages: &PageList) -> Option<Reason> {
    let scene = Scene { state, pages };
    match instruction.mnemonic() {
        "RET" => scene.ret(),
        "WRUSSD" => scene.wruss(instruction.a, Size::Four),
        "WRUSSQ" => scene.wruss(instruction.a, Size::Eight),
        _ => None,
    }
}

/// A reason for a fault that has neither error code nor address.
fn because(vector: Vector, words: String) -> Reason {
    let fault = Fault {
        vector,
        error_code: 0,
        address: 0,
    };
    Reason { fault, words }
}

/// Whether bits 63 to 47 of an address are all equal.
fn is_canonical(address: u64) -> bool {
    matches!(address >> 47, 0 | 0x1_ffff)
}

/// Bytes that an instruction is to load or store.
#[derive(Clone, Copy)]
struct Span {
    /// What their addresses are called.
    place: &'static str,
    /// The kind of page that they must be on.
    kind: Kind,
    /// The address of the first.
    first: u64,
    /// How many they are.
    size: Size,
}

impl Span {
    /// A reason that starts with these bytes.
    fn because(&self, vector: Vector, words: &str) -> Reason {
        let Span { place, first, .. } = self;
        let size = self.size.bytes();
        let words = format!("the {size} bytes at {place} {first:#x}: {words}");
        because(vector, words)
    }
}

/// What an instruction starts from.
struct Scene<'run> {
    state: &'run State,
    pages: &'run PageList,
}

impl Scene<'_> {
    /// The steps of RET.
    fn ret(&self) -> Option<Reason> {
        let size = match self.state.is_long() {
            true => Size::Eight,
            false => Size::Four,
        };
        let ordinary = Span {
            place: "ordinary",
            kind: Kind::Ordinary,
            first: self.state.sp,
            size,
        };
        let shadow = Span {
            place: "shadow",
            kind: self.own_kind(),
            first: self.state.ssp,
            size,
        };
        let shadow = self.state.is_enabled().then_some(&shadow);
        self.not_popped(&ordinary)
            .or_else(|| self.not_reached(&ordinary))
            .or_else(|| self.not_shadow(shadow?))
            .or_else(|| self.not_returned(&ordinary, shadow))
    }

    /// The steps of WRUSS.
    fn wruss(&self, address: u64, size: Size) -> Option<Reason> {
        let State { mode, cpl, cet, .. } = *self.state;
        let span = Span {
            place: "user shadow",
            kind: Kind::UserShadow,
            first: address,
            size,
        };
        if mode == 0 {
            let words = "there is no WRUSS in mode 0".to_string();
            Some(because(Vector::InvalidOpcode, words))
        } else if cet == 0 {
            let words = "CR4.CET is 0, and must be 1".to_string();
            Some(because(Vector::InvalidOpcode, words))
        } else if cpl != 0 {
            let words = format!("CPL is {cpl}, and must be 0");
            Some(because(Vector::Protection, words))
        } else if !address.is_multiple_of(size.bytes()) {
            let size = size.bytes();
            let words = format!("the address {address:#x} is no multiple of {size}");
            Some(because(Vector::Protection, words))
        } else {
            self.not_shadow(&span)
        }
    }

    /// The kind of page that shadow accesses of this CPL go to.
    fn own_kind(&self) -> Kind {
        match self.state.cpl {
            3 => Kind::UserShadow,
            _ => Kind::SupervisorShadow,
        }
    }

    /// Why bytes cannot be popped off the ordinary stack, wherever they are.
    fn not_popped(&self, span: &Span) -> Option<Reason> {
        if self.state.is_long() {
            self.not_canonical(span, Vector::Stack)
        } else {
            let past = span.first.saturating_add(span.size.bytes()) > 1 << 32;
            past.then(|| span.because(Vector::Stack, "they run past 2^32"))
        }
    }

    /// Why bytes of a shadow stack cannot be loaded or stored.
    fn not_shadow(&self, span: &Span) -> Option<Reason> {
        let canonical = match self.state.is_long() {
            true => self.not_canonical(span, Vector::Protection),
            false => None,
        };
        canonical.or_else(|| self.not_reached(span))
    }

    /// The fault of bytes that are not all canonical.
    fn not_canonical(&self, span: &Span, vector: Vector) -> Option<Reason> {
        let byte = self.bytes(span).find(|byte| !is_canonical(*byte))?;
        let words = format!("{byte:#x} is not canonical");
        Some(span.because(vector, &words))
    }

    /// The page fault of bytes that are not all on pages of their kind.
    fn not_reached(&self, span: &Span) -> Option<Reason> {
        let is_off = |byte: &u64| self.kind(*byte) != Some(span.kind);
        let address = self.bytes(span).find(is_off)?;
        let words = match self.kind(address) {
            Some(kind) => format!("{address:#x} is on a page of another kind, {kind}"),
            None => format!("{address:#x} is on no page"),
        };
        let mut reason = span.because(Vector::Page, &words);
        reason.fault.address = address;
        Some(reason)
    }

    /// Why a RET does not go where its return address says, both of which can be
    /// loaded.
    fn not_returned(&self, ordinary: &Span, shadow: Option<&Span>) -> Option<Reason> {
        let target = self.value(ordinary)?;
        let other = shadow.filter(|span| self.value(span) != Some(target));
        let Some(shadow) = other else {
            return self.no_target(target);
        };
        let place = |span: &Span| {
            let value = self.value(span).unwrap_or_default();
            format!("{value:#x} at {} {:#x}", span.place, span.first)
        };
        let words = format!(
            "the return addresses differ, {} and {}",
            place(ordinary),
            place(shadow)
        );
        let mut reason = because(Vector::ControlProtection, words);
        reason.fault.error_code = NEAR_RET;
        Some(reason)
    }

    /// Why there is nothing to return to.
    fn no_target(&self, target: u64) -> Option<Reason> {
        let State { mode, limit, .. } = *self.state;
        let words = match mode {
            2 if !is_canonical(target) => format!("the target {target:#x} is not canonical"),
            1 if target > limit => {
                format!("the target {target:#x} is above the code limit {limit:#x}")
            }
            _ => return None,
        };
        Some(because(Vector::Protection, words))
    }

    /// The addresses of bytes.
    fn bytes(&self, span: &Span) -> impl Iterator<Item = u64> {
        let (first, width) = (span.first, self.state.width());
        (0..span.size.bytes()).map(move |step| width.wrap(first.wrapping_add(step)))
    }

    /// What bytes hold. Their addresses wrap as in mode 2; in mode 1 no return
    /// address that can be popped goes past 2^32.
    fn value(&self, span: &Span) -> Option<u64> {
        self.pages.read(span.first, span.size)
    }

    /// The kind of the page that a byte is on.
    fn kind(&self, address: u64) -> Option<Kind> {
        let page = address & !0xfff;
        let mut pages = self.pages.pages();
        pages.find(|(start, _)| *start == page)?.1.ok()
    }
}

#[cfg(test)]
mod tests {
    use super::*;
    use driftpocket::{Answer, run};
    use std::collections::BTreeSet;

    /// Addresses at the edges of everything.
    const ADDRESSES: [u64; 15] = [
        0,
        0x1ff0,
        0x1ffc,
        0x2ff8,
        0x2ffc,
        0x5008,
        0x500c,
        0x5018,
        0x5ffc,
        0xffff_fff8,
        0xffff_fffc,
        0xffff_ff00_0000,
        (1 << 47) - 4,
        1 << 47,
        0xffff_7fff_ffff_fffc,
    ];

    /// Pages 1000 (user shadow), 2000 (supervisor shadow) and 5000 (ordinary),
    /// with return addresses on them.
    fn pages() -> PageList {
        let mut pages = PageList::new();
        pages.push(0x1000, Kind::UserShadow).unwrap();
        pages.push(0x2000, Kind::SupervisorShadow).unwrap();
        pages.push(0x5000, Kind::Ordinary).unwrap();
        let numbers = [
            (0x1ff0, 0x40_0005),
            (0x2ff8, 1 << 47),
            (0x5008, 0x40_0005),
            (0x5010, 1 << 47),
            (0x5018, 0x40_0004),
        ];
        for (address, value) in numbers {
            pages.write(address, Size::Eight, value).unwrap();
        }
        pages
    }

    /// A state of each mode, level and register.
    fn states(mode: u64, cpl: u64) -> impl Iterator<Item = State> {
        (0..4).map(move |case| State {
            mode,
            cpl,
            cet: case & 1,
            ucet: case >> 1,
            scet: case >> 1,
            limit: 0x40_0004,
            ..State::default()
        })
    }

    /// Holds the reason of an instruction to what the library answers. Gives
    /// its words, without their numbers.
    fn held(instruction: &Instruction, state: &State) -> Option<String> {
        let before = pages();
        let found = reason(instruction, state, &before);
        let (mut after, mut pages) = (*state, before);
        let list = std::slice::from_ref(instruction);
        let answer = run(&mut after, &mut pages, list).answer;
        let wanted = match answer {
            Answer::Completed => None,
            Answer::Faulted(fault) => Some(fault),
            // What is sent back is not explained here.
            _ => return None,
        };
        let said = found.as_ref().map(|reason| reason.fault);
        assert_eq!(said, wanted, "{instruction} from {state:?}: {found:?}");
        let reason = found?;
        let words = reason.words.split_whitespace();
        Some(words.filter(|word| !word.starts_with("0x")).collect())
    }

    #[test]
    fn there_is_a_reason_exactly_where_a_return_faults() {
        let mut seen = BTreeSet::new();
        let levels = (0..3).flat_map(|mode| [(mode, 0), (mode, 3)]);
        for state in levels.flat_map(|(mode, cpl)| states(mode, cpl)) {
            for sp in ADDRESSES
                .iter()
                .flat_map(|first| [*first, first + 1, first + 8])
            {
                for ssp in ADDRESSES {
                    let state = State { sp, ssp, ..state };
                    seen.extend(held(&Instruction::ret(1), &state));
                    seen.extend(held(&Instruction::ret_count(3, 8), &state));
                }
            }
        }
        assert_eq!(seen.len(), 20, "{seen:#?}");
    }

    #[test]
    fn there_is_a_reason_exactly_where_a_write_faults() {
        let mut seen = BTreeSet::new();
        let levels = (0..3).flat_map(|mode| [(mode, 0), (mode, 1), (mode, 3)]);
        for state in levels.flat_map(|(mode, cpl)| states(mode, cpl)) {
            for address in ADDRESSES.iter().flat_map(|first| [*first, first + 2]) {
                seen.extend(held(&Instruction::wrussd(6, address, 7), &state));
                seen.extend(held(&Instruction::wrussq(7, address, 7), &state));
            }
        }
        assert_eq!(seen.len(), 14, "{seen:#?}");
    }

    /// The words of a reason.
    fn said(instruction: Instruction, state: State) -> String {
        reason(&instruction, &state, &pages()).unwrap().words
    }

    /// What is said of a RET by user code, with these two pointers.
    fn ret(mode: u64, sp: u64, ssp: u64) -> String {
        let state = State {
            mode,
            cpl: 3,
            cet: 1,
            ucet: u64::from(ssp != 0),
            sp,
            ssp,
            limit: 0x40_0004,
            ..State::default()
        };
        said(Instruction::ret(1), state)
    }

    #[test]
    fn returns_in_words() {
        assert_eq!(
            ret(2, 0x5ffc, 0x1ff0),
            "the 8 bytes at ordinary 0x5ffc: 0x6000 is on no page"
        );
        assert_eq!(
            ret(2, 0x5008, 0x2ff8),
            "the 8 bytes at shadow 0x2ff8: 0x2ff8 is on a page of another kind, supervisor shadow"
        );
        assert_eq!(
            ret(2, 0x5010, 0x1ff0),
            "the return addresses differ, 0x800000000000 at ordinary 0x5010 and 0x400005 at shadow 0x1ff0"
        );
        assert_eq!(
            ret(2, 0x5010, 0),
            "the target 0x800000000000 is not canonical"
        );
        assert_eq!(
            ret(2, 0x7fff_ffff_fffc, 0x1ff0),
            "the 8 bytes at ordinary 0x7ffffffffffc: 0x800000000000 is not canonical"
        );
        assert_eq!(
            ret(1, 0x5008, 0x1ff0),
            "the target 0x400005 is above the code limit 0x400004"
        );
        assert_eq!(
            ret(1, 0xffff_fffd, 0x1ff0),
            "the 4 bytes at ordinary 0xfffffffd: they run past 2^32"
        );
    }

    #[test]
    fn writes_in_words() {
        let kernel = State {
            mode: 2,
            cet: 1,
            ..State::default()
        };
        let write = |address, state| said(Instruction::wrussq(7, address, 7), state);
        let user = State { cpl: 3, ..kernel };
        assert_eq!(write(0x1ff0, user), "CPL is 3, and must be 0");
        let off = State { cet: 0, ..kernel };
        assert_eq!(write(0x1ff0, off), "CR4.CET is 0, and must be 1");
        let real = State { mode: 0, ..kernel };
        assert_eq!(write(0x1ff0, real), "there is no WRUSS in mode 0");
        assert_eq!(
            write(0x1ff4, kernel),
            "the address 0x1ff4 is no multiple of 8"
        );
        assert_eq!(
            write(0x2ff8, kernel),
            "the 8 bytes at user shadow 0x2ff8: 0x2ff8 is on a page of another kind, supervisor shadow"
        );
    }
}
