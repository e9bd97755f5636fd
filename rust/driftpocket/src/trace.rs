//! What an instruction loaded and stored, to be shown to a person.
//!
//! This judges nothing. Whether an instruction completes, faults or is refused
//! is the library's word alone: [`of`] asks it, and then lists loads and stores
//! in the order of the instruction's steps. [`accounts_for`] holds such a list
//! to the bytes that the library left.

use crate::answer::{Answer, Vector};
use crate::instruction::{Instruction, code};
use crate::pages::{PageList, Size};
use crate::state::{State, Width};
use std::fmt;

/// Whether an access loads or stores.
#[derive(Clone, Copy, Debug, PartialEq, Eq)]
pub enum Action {
    /// It loads.
    Load,
    /// It stores.
    Store,
}

/// Which stack an access belongs to.
#[derive(Clone, Copy, Debug, PartialEq, Eq)]
pub enum Stack {
    /// The shadow stack of this CPL.
    Shadow,
    /// A shadow stack of user code, reached from CPL 0 as user code would
    /// reach it.
    UserShadow,
    /// The ordinary stack.
    Ordinary,
}

/// One load or store.
#[derive(Clone, Copy, Debug, PartialEq, Eq)]
pub struct Access {
    /// Whether it loads or stores.
    pub action: Action,
    /// Which stack it belongs to.
    pub stack: Stack,
    /// The address of its first byte.
    pub address: u64,
    /// How many bytes it has.
    pub size: Size,
    /// Where the addresses of its bytes start again at 0.
    pub width: Width,
    /// What was loaded or stored.
    pub value: u64,
}

impl fmt::Display for Access {
    fn fmt(&self, out: &mut fmt::Formatter<'_>) -> fmt::Result {
        let (action, way) = match self.action {
            Action::Load => ("load", "from"),
            Action::Store => ("store", "to"),
        };
        let stack = match self.stack {
            Stack::Shadow => "shadow",
            Stack::UserShadow => "user shadow",
            Stack::Ordinary => "ordinary",
        };
        let (bytes, address, value) = (self.size.bytes(), self.address, self.value);
        write!(
            out,
            "{action} {value:#x}, {bytes} bytes, {way} {stack} {address:#x}"
        )
    }
}

/// What an instruction loads and stores from this state and these pages.
///
/// The library is asked first, on copies. If it completes the instruction, all
/// of its loads and stores come back. If it does not, nothing was stored, and no
/// store comes back; a #CP comes with what it was found in, which are the two
/// return addresses of RET and the token of RSTORSSP, and any other end with
/// nothing at all.
///
/// There is no list if the library completes an instruction that this crate does
/// not know, or one that loads a byte on no page. It is of another version then.
pub fn of(instruction: &Instruction, state: &State, pages: &PageList) -> Option<Vec<Access>> {
    let list = List {
        state,
        pages,
        accesses: Vec::new(),
    };
    match list.answer(instruction) {
        Answer::Completed => list.all(instruction),
        Answer::Faulted(fault) if fault.vector == Vector::ControlProtection => {
            let mut accesses = list.all(instruction)?;
            accesses.retain(|access| access.action == Action::Load);
            Some(accesses)
        }
        _ => Some(Vec::new()),
    }
}

/// Whether a list of accesses tells all that happened to the bytes: each load
/// gives what they held at that moment, and the stores, made in order on the
/// pages before, give the pages after, byte for byte.
pub fn accounts_for(before: &PageList, after: &PageList, accesses: &[Access]) -> bool {
    let mut pages = before.clone();
    accesses.iter().all(|access| repeat(access, &mut pages)) && pages == *after
}

/// Makes an access once more. Gives whether it can be made and, for a load,
/// whether its value is the same.
fn repeat(access: &Access, pages: &mut PageList) -> bool {
    let Access {
        address,
        size,
        width,
        value,
        ..
    } = *access;
    match access.action {
        Action::Load => pages.read_wrapped(address, size, width) == Some(value),
        Action::Store => pages.write_wrapped(address, size, width, value).is_ok(),
    }
}

/// How many bytes a return address has in this state.
fn return_size(state: &State) -> Size {
    match state.width() {
        Width::Bits32 => Size::Four,
        Width::Bits64 => Size::Eight,
    }
}

/// A list in the making. No operation loads a byte that it stored before, so
/// every load reads the pages as they were.
struct List<'run> {
    state: &'run State,
    pages: &'run PageList,
    accesses: Vec<Access>,
}

impl List<'_> {
    /// What the library answers to the instruction, on copies.
    fn answer(&self, instruction: &Instruction) -> Answer {
        let (mut state, mut pages) = (*self.state, self.pages.clone());
        let one = std::slice::from_ref(instruction);
        crate::run(&mut state, &mut pages, one).answer
    }

    /// The loads and stores of an instruction that makes all of them.
    fn all(mut self, instruction: &Instruction) -> Option<Vec<Access>> {
        let Instruction { length, a, b, .. } = *instruction;
        match instruction.code {
            code::INCSSPD => self.incssp(Size::Four, b)?,
            code::INCSSPQ => self.incssp(Size::Eight, b)?,
            code::RSTORSSP => self.rstorssp(a)?,
            code::SAVEPREVSSP => self.saveprevssp()?,
            code::WRSSD => self.store(Stack::Shadow, Size::Four, a, b),
            code::WRSSQ => self.store(Stack::Shadow, Size::Eight, a, b),
            code::CALL_RELATIVE | code::CALL_ABSOLUTE => {
                self.call(self.state.next(length), instruction.leaves_frame());
            }
            code::RET | code::RET_COUNT => self.ret()?,
            code::WRUSSD => self.store(Stack::UserShadow, Size::Four, a, b),
            code::WRUSSQ => self.store(Stack::UserShadow, Size::Eight, a, b),
            _ => return None,
        }
        Some(self.accesses)
    }

    /// INCSSP: the first element and, if any is dropped, the last of them.
    fn incssp(&mut self, size: Size, count: u64) -> Option<()> {
        let range = count % 256;
        self.load(Stack::Shadow, size, self.state.ssp)?;
        if let Some(others) = range.checked_sub(1) {
            let last = self.state.ssp.wrapping_add(size.bytes() * others);
            self.load(Stack::Shadow, size, last)?;
        }
        Some(())
    }

    /// RSTORSSP: the token, which becomes one of the old pointer.
    fn rstorssp(&mut self, address: u64) -> Option<()> {
        self.load(Stack::Shadow, Size::Eight, address)?;
        let old = self.state.ssp.wrapping_add(self.long_bit() + 2);
        self.store(Stack::Shadow, Size::Eight, address, self.wrap(old));
        Some(())
    }

    /// SAVEPREVSSP: the token, the hole above it if CF is set, and what goes
    /// to the previous stack.
    fn saveprevssp(&mut self) -> Option<()> {
        let ssp = self.state.ssp;
        let token = self.load(Stack::Shadow, Size::Eight, ssp)?;
        if self.state.carry() {
            self.load(Stack::Shadow, Size::Four, ssp.wrapping_add(8))?;
        }
        let old = token & !3;
        let place = (old & !7).wrapping_sub(8);
        self.store(Stack::Shadow, Size::Four, old.wrapping_sub(4), 0);
        self.store(Stack::Shadow, Size::Eight, place, old + self.long_bit());
        Some(())
    }

    /// CALL: the return address, on the ordinary stack and, if enabled, as a
    /// frame on the shadow stack, unless the call leaves none.
    fn call(&mut self, next: u64, frame: bool) {
        let size = return_size(self.state);
        let below = |pointer: u64| pointer.wrapping_sub(size.bytes());
        self.store(Stack::Ordinary, size, below(self.state.sp), next);
        if self.state.is_enabled() && frame {
            self.store(Stack::Shadow, size, below(self.state.ssp), next);
        }
    }

    /// RET: the return address, from the ordinary stack and, if enabled, from
    /// the shadow stack. The bytes that a count releases are not loaded.
    fn ret(&mut self) -> Option<()> {
        let size = return_size(self.state);
        self.load(Stack::Ordinary, size, self.state.sp)?;
        if self.state.is_enabled() {
            self.load(Stack::Shadow, size, self.state.ssp)?;
        }
        Some(())
    }

    /// The mark of tokens in 64-bit mode.
    fn long_bit(&self) -> u64 {
        u64::from(self.state.is_long())
    }

    /// A number, reduced as the mode does.
    fn wrap(&self, number: u64) -> u64 {
        self.state.width().wrap(number)
    }

    /// Lists a load, and gives what it loads.
    fn load(&mut self, stack: Stack, size: Size, address: u64) -> Option<u64> {
        let address = self.wrap(address);
        let width = self.state.width();
        let value = self.pages.read_wrapped(address, size, width)?;
        self.list(Action::Load, stack, size, address, value);
        Some(value)
    }

    /// Lists a store.
    fn store(&mut self, stack: Stack, size: Size, address: u64, value: u64) {
        let address = self.wrap(address);
        self.list(Action::Store, stack, size, address, size.cut(value));
    }

    /// Lists an access.
    fn list(&mut self, action: Action, stack: Stack, size: Size, address: u64, value: u64) {
        self.accesses.push(Access {
            action,
            stack,
            address,
            size,
            width: self.state.width(),
            value,
        });
    }
}

#[cfg(test)]
mod tests {
    use super::*;
    use crate::Kind;

    /// Pages 1000 and 2000 of user shadow stacks, and 5000.
    fn pages() -> PageList {
        let mut pages = PageList::new();
        pages.push(0x1000, Kind::UserShadow).unwrap();
        pages.push(0x2000, Kind::UserShadow).unwrap();
        pages.push(0x5000, Kind::Ordinary).unwrap();
        pages
    }

    /// A state of user code with shadow stacks enabled.
    fn state(mode: u64, ssp: u64) -> State {
        State {
            mode,
            cpl: 3,
            cet: 1,
            ucet: 1,
            ip: 0x40_0000,
            sp: 0x5010,
            ssp,
            limit: 0xffff_ffff,
            ..State::default()
        }
    }

    /// The accesses as text.
    fn texts(instruction: Instruction, state: &State, pages: &PageList) -> Vec<String> {
        let accesses = of(&instruction, state, pages).unwrap();
        accesses.iter().map(Access::to_string).collect()
    }

    #[test]
    fn increments_load_the_first_and_the_last_element() {
        let mut pages = pages();
        pages.write(0x1fe0, Size::Eight, 0x1_0000_0002).unwrap();
        let state = state(2, 0x1fe0);
        let first = "load 0x100000002, 8 bytes, from shadow 0x1fe0";
        let none = texts(Instruction::incsspq(5, 0x100), &state, &pages);
        assert_eq!(none, [first]);
        let three = texts(Instruction::incsspq(5, 0x103), &state, &pages);
        assert_eq!(three, [first, "load 0x0, 8 bytes, from shadow 0x1ff0"]);
        let two = texts(Instruction::incsspd(4, 2), &state, &pages);
        assert_eq!(
            two,
            [
                "load 0x2, 4 bytes, from shadow 0x1fe0",
                "load 0x1, 4 bytes, from shadow 0x1fe4"
            ]
        );
    }

    #[test]
    fn a_switch_and_back() {
        let mut pages = pages();
        pages.write(0x2ff0, Size::Eight, 0x2ff9).unwrap();
        let restore = texts(Instruction::rstorssp(5, 0x2ff0), &state(2, 0x1ff4), &pages);
        assert_eq!(
            restore,
            [
                "load 0x2ff9, 8 bytes, from shadow 0x2ff0",
                "store 0x1ff7, 8 bytes, to shadow 0x2ff0"
            ]
        );
        pages.write(0x2ff0, Size::Eight, 0x1ff7).unwrap();
        let save = texts(Instruction::saveprevssp(4), &state(2, 0x2ff0), &pages);
        assert_eq!(
            save,
            [
                "load 0x1ff7, 8 bytes, from shadow 0x2ff0",
                "store 0x0, 4 bytes, to shadow 0x1ff0",
                "store 0x1ff5, 8 bytes, to shadow 0x1fe8"
            ]
        );
    }

    #[test]
    fn a_hole_is_loaded_where_the_carry_flag_is_set() {
        let mut pages = pages();
        pages.write(0x2fe0, Size::Eight, 0x1ff2).unwrap();
        let state = State {
            flags: 1,
            ..state(1, 0x2fe0)
        };
        let save = texts(Instruction::saveprevssp(4), &state, &pages);
        assert_eq!(
            save,
            [
                "load 0x1ff2, 8 bytes, from shadow 0x2fe0",
                "load 0x0, 4 bytes, from shadow 0x2fe8",
                "store 0x0, 4 bytes, to shadow 0x1fec",
                "store 0x1ff0, 8 bytes, to shadow 0x1fe8"
            ]
        );
    }

    #[test]
    fn calls_and_writes() {
        let call = Instruction::call_relative(5, 0x10);
        let enabled = state(2, 0x1ff0);
        let both = texts(call, &enabled, &pages());
        let ordinary = "store 0x400005, 8 bytes, to ordinary 0x5008";
        assert_eq!(
            both,
            [ordinary, "store 0x400005, 8 bytes, to shadow 0x1fe8"]
        );
        let off = State { ucet: 0, ..enabled };
        assert_eq!(texts(call, &off, &pages()), [ordinary]);
        let narrow = texts(call, &State { mode: 1, ..off }, &pages());
        assert_eq!(narrow, ["store 0x400005, 4 bytes, to ordinary 0x500c"]);
        let write = Instruction::wrssd(6, 0x2ff4, 0x1_0000_0007);
        let permitted = State { ucet: 3, ..enabled };
        let written = texts(write, &permitted, &pages());
        assert_eq!(written, ["store 0x7, 4 bytes, to shadow 0x2ff4"]);
    }

    #[test]
    fn calls_of_the_next_line() {
        let relative = Instruction::call_relative(5, 0);
        let absolute = Instruction::call_absolute(5, 0x40_0005);
        let ordinary = "store 0x400005, 8 bytes, to ordinary 0x5008";
        let shadow = "store 0x400005, 8 bytes, to shadow 0x1fe8";
        let enabled = state(2, 0x1ff0);
        assert_eq!(texts(relative, &enabled, &pages()), [ordinary]);
        assert_eq!(texts(absolute, &enabled, &pages()), [ordinary, shadow]);
        let narrow = texts(relative, &state(1, 0x1ff0), &pages());
        assert_eq!(narrow, ["store 0x400005, 4 bytes, to ordinary 0x500c"]);
    }

    #[test]
    fn returns() {
        let mut pages = pages();
        pages.write(0x5010, Size::Eight, 0x1_0040_0005).unwrap();
        pages.write(0x1ff0, Size::Eight, 0x2_0040_0005).unwrap();
        let enabled = state(2, 0x1ff0);
        let ordinary = "load 0x100400005, 8 bytes, from ordinary 0x5010";
        let shadow = "load 0x200400005, 8 bytes, from shadow 0x1ff0";
        for ret in [Instruction::ret(1), Instruction::ret_count(3, 0xffff)] {
            assert_eq!(texts(ret, &enabled, &pages), [ordinary, shadow]);
            let off = State { cet: 0, ..enabled };
            assert_eq!(texts(ret, &off, &pages), [ordinary]);
            let narrow = texts(ret, &State { mode: 1, ..enabled }, &pages);
            assert_eq!(
                narrow,
                [
                    "load 0x400005, 4 bytes, from ordinary 0x5010",
                    "load 0x400005, 4 bytes, from shadow 0x1ff0"
                ]
            );
        }
    }

    #[test]
    fn writes_to_the_stacks_of_user_code() {
        let kernel = State {
            cpl: 0,
            ucet: 0,
            ..state(2, 0)
        };
        let value = 0x1_0000_0007;
        let four = texts(Instruction::wrussd(6, 0x2ff4, value), &kernel, &pages());
        assert_eq!(four, ["store 0x7, 4 bytes, to user shadow 0x2ff4"]);
        let eight = texts(Instruction::wrussq(7, 0x2ff8, value), &kernel, &pages());
        let wanted = "store 0x100000007, 8 bytes, to user shadow 0x2ff8";
        assert_eq!(eight, [wanted]);
    }

    #[test]
    fn a_control_protection_fault_comes_with_its_loads() {
        let mut pages = pages();
        pages.write(0x2ff0, Size::Eight, 0x2ffb).unwrap();
        let restore = texts(Instruction::rstorssp(5, 0x2ff0), &state(2, 0x1ff0), &pages);
        assert_eq!(restore, ["load 0x2ffb, 8 bytes, from shadow 0x2ff0"]);
        pages.write(0x5010, Size::Eight, 0x41_4141).unwrap();
        let ret = texts(Instruction::ret(1), &state(2, 0x1ff0), &pages);
        assert_eq!(
            ret,
            [
                "load 0x414141, 8 bytes, from ordinary 0x5010",
                "load 0x0, 8 bytes, from shadow 0x1ff0"
            ]
        );
    }

    #[test]
    fn what_did_not_complete_stored_nothing() {
        let kernel = State {
            cpl: 0,
            ..state(2, 0x1ff0)
        };
        let user = |ssp| State {
            ucet: 3,
            ..state(2, ssp)
        };
        for (instruction, state) in [
            (Instruction::incsspq(5, 0), user(0x3000)),
            (Instruction::incsspd(5, 2), user(0x2ffc)),
            (Instruction::rstorssp(5, 0x2ff4), user(0x1ff0)),
            (Instruction::saveprevssp(4), user(0x1ff0)),
            (Instruction::wrssd(6, 0x2ff4, 7), state(2, 0x1ff0)),
            (Instruction::wrssq(7, 0x2ff4, 7), user(0x1ff0)),
            (Instruction::call_relative(5, 0x10), user(0x1004)),
            (Instruction::call_absolute(5, 1 << 47), user(0x1ff0)),
            (Instruction::ret(1), user(0x3000)),
            (Instruction::ret_count(3, 8), user(1 << 47)),
            (Instruction::wrussd(6, 0x2ff4, 7), user(0x1ff0)),
            (Instruction::wrussq(7, 0x2ff4, 7), kernel),
            (Instruction::from_words([13, 1, 0, 0]), user(0x1ff0)),
            (Instruction::wrssq(16, 0x2ff0, 7), user(0x1ff0)),
            (Instruction::wrssq(7, 0x2ff0, 7), user(0x1ff2)),
        ] {
            let nothing = of(&instruction, &state, &pages());
            assert_eq!(nothing, Some(Vec::new()), "{instruction}");
        }
    }

    #[test]
    fn a_list_is_held_to_the_bytes() {
        let mut before = pages();
        before.write(0x2ff0, Size::Eight, 0x2ff9).unwrap();
        let restore = Instruction::rstorssp(5, 0x2ff0);
        let accesses = of(&restore, &state(2, 0x1ff0), &before).unwrap();
        let mut after = before.clone();
        assert!(!accounts_for(&before, &after, &accesses));
        after.write(0x2ff0, Size::Eight, 0x1ff3).unwrap();
        assert!(accounts_for(&before, &after, &accesses));
        assert!(!accounts_for(&after, &after, &accesses));
        assert!(!accounts_for(&before, &after, &accesses[..1]));
        after.write(0x5000, Size::Four, 1).unwrap();
        assert!(!accounts_for(&before, &after, &accesses));
        assert!(!accounts_for(&PageList::new(), &after, &accesses));
    }
}
