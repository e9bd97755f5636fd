//! The plain replay: the rules (docs/RULES.md) in ordinary Rust, without a proof. It is what the
//! proved replay is measured against, so it spends nothing needlessly, and it has no index and no
//! cache: each byte of an access is looked up by walking the page list from the front. It has the
//! codes that the measured runs have, 1 to 8, and panics where another one comes.

const PAGE_SIZE: usize = 4096;
const MAX_PAGES: usize = 16;
const MAX_INSTRUCTIONS: usize = 1024;
const OFFSET: u64 = 0xFFF;
const LOW_32: u64 = 0xFFFF_FFFF;

const USER_SHADOW: u64 = 1;
const SUPERVISOR_SHADOW: u64 = 2;
const ORDINARY: u64 = 3;

const SH_STK_EN: u64 = 1;
const WR_SHSTK_EN: u64 = 2;
const CARRY: u64 = 1;
/// CF, PF, AF, ZF, SF and OF.
const STATUS_FLAGS: u64 = 1 | 1 << 2 | 1 << 4 | 1 << 6 | 1 << 7 | 1 << 11;

/// Why a run ends before its last instruction.
#[derive(Clone, Copy)]
enum Stop {
    Refused(u64),
    Fault {
        vector: u64,
        error: u64,
        address: u64,
    },
}

const UD: Stop = fault(6, 0);
const SS: Stop = fault(12, 0);
const GP: Stop = fault(13, 0);
const CP_RSTORSSP: Stop = fault(21, 4);

const fn fault(vector: u64, error: u64) -> Stop {
    Stop::Fault {
        vector,
        error,
        address: 0,
    }
}

/// `Err(stop)` unless the condition holds.
fn ensure(condition: bool, stop: Stop) -> Result<(), Stop> {
    if condition { Ok(()) } else { Err(stop) }
}

fn is_canonical(address: u64) -> bool {
    let top = address >> 47;
    top == 0 || top == 0x1_FFFF
}

/// The gap between the canonical halves is wider than any access: both ends tell for all bytes.
fn are_canonical(first: u64, size: usize) -> bool {
    is_canonical(first) && is_canonical(first.wrapping_add(size as u64 - 1))
}

#[derive(Clone, Copy)]
struct State {
    mode: u64,
    cpl: u64,
    cet: u64,
    u_cet: u64,
    s_cet: u64,
    ip: u64,
    sp: u64,
    ssp: u64,
    rflags: u64,
    code_limit: u64,
}

impl State {
    fn from_words(words: &[u64]) -> Option<State> {
        let &[
            mode,
            cpl,
            cet,
            u_cet,
            s_cet,
            ip,
            sp,
            ssp,
            rflags,
            code_limit,
        ] = words
        else {
            return None;
        };
        Some(State {
            mode,
            cpl,
            cet,
            u_cet,
            s_cet,
            ip,
            sp,
            ssp,
            rflags,
            code_limit,
        })
    }

    /// The fields that a run can change go back; the others stay as they were handed in.
    fn write_back(&self, words: &mut [u64]) {
        words[5..9].copy_from_slice(&[self.ip, self.sp, self.ssp, self.rflags]);
    }

    fn is_in_range(&self) -> bool {
        let pointers_fit = [self.ip, self.sp, self.ssp]
            .iter()
            .all(|&pointer| pointer <= LOW_32);
        self.mode <= 2
            && self.cpl <= 3
            && self.cet <= 1
            && (self.is_64_bit() || pointers_fit)
            && self.ssp.is_multiple_of(4)
            && self.code_limit <= LOW_32
    }

    fn is_64_bit(&self) -> bool {
        self.mode == 2
    }

    /// L of the rules.
    fn long_bit(&self) -> u64 {
        u64::from(self.is_64_bit())
    }

    fn wrap(&self, address: u64) -> u64 {
        if self.is_64_bit() {
            address
        } else {
            address & LOW_32
        }
    }

    fn plus(&self, pointer: u64, by: u64) -> u64 {
        self.wrap(pointer.wrapping_add(by))
    }

    fn minus(&self, pointer: u64, by: u64) -> u64 {
        self.wrap(pointer.wrapping_sub(by))
    }

    /// The CET register of this CPL.
    fn cet_register(&self) -> u64 {
        if self.cpl == 3 {
            self.u_cet
        } else {
            self.s_cet
        }
    }

    fn is_enabled(&self) -> bool {
        self.cet == 1 && self.cet_register() & SH_STK_EN != 0
    }

    fn shadow_kind(&self) -> u64 {
        if self.cpl == 3 {
            USER_SHADOW
        } else {
            SUPERVISOR_SHADOW
        }
    }

    /// How many bytes a call pushes.
    fn return_size(&self) -> usize {
        if self.is_64_bit() { 8 } else { 4 }
    }

    /// Whether a call may go there.
    fn is_target(&self, target: u64) -> bool {
        if self.is_64_bit() {
            is_canonical(target)
        } else {
            target <= self.code_limit
        }
    }
}

struct Instruction {
    code: u64,
    length: u64,
    a: u64,
    b: u64,
}

impl Instruction {
    /// Refusal 6 is for those that this does not allow.
    fn is_allowed(&self, mode: u64) -> bool {
        let unused = match self.code {
            1 | 2 => self.a,
            3 | 7 | 8 => self.b,
            4 => self.a | self.b,
            5 | 6 => 0,
            code => panic!("the plain replay has no code {code}"),
        };
        let fits_mode = match mode {
            0 => !matches!(self.code, 7 | 8),
            1 => !matches!(self.code, 2 | 6) && self.a <= LOW_32 && self.b <= LOW_32,
            _ => true,
        };
        let is_narrow = self.code != 7 || self.a <= LOW_32;
        (1..=15).contains(&self.length) && unused == 0 && fits_mode && is_narrow
    }
}

/// Where each byte of an access lies among the lent bytes.
struct Span {
    places: [usize; 8],
    size: usize,
}

impl Span {
    fn places(&self) -> &[usize] {
        &self.places[..self.size]
    }
}

struct Machine<'a> {
    state: State,
    pages: &'a [u64],
    bytes: &'a mut [u8],
}

impl Machine<'_> {
    fn place(&self, address: u64, kind: u64) -> Option<usize> {
        let page = address & !OFFSET;
        let index = self
            .pages
            .iter()
            .position(|entry| entry & !OFFSET == page)?;
        let is_reached = self.pages[index] & OFFSET == kind;
        is_reached.then_some(index * PAGE_SIZE + (address & OFFSET) as usize)
    }

    fn span(&self, kind: u64, first: u64, size: usize) -> Result<Span, Stop> {
        let mut places = [0; 8];
        for (step, place) in places[..size].iter_mut().enumerate() {
            let address = self.state.plus(first, step as u64);
            *place = self.place(address, kind).ok_or(Stop::Fault {
                vector: 14,
                error: 0,
                address,
            })?;
        }
        Ok(Span { places, size })
    }

    fn shadow(&self, first: u64, size: usize) -> Result<Span, Stop> {
        ensure(!self.state.is_64_bit() || are_canonical(first, size), GP)?;
        self.span(self.state.shadow_kind(), first, size)
    }

    /// The bytes of an ordinary push, `first` being the moved stack pointer.
    fn ordinary(&self, first: u64, size: usize) -> Result<Span, Stop> {
        let is_good = if self.state.is_64_bit() {
            are_canonical(first, size)
        } else {
            first + size as u64 <= LOW_32 + 1
        };
        ensure(is_good, SS)?;
        self.span(ORDINARY, first, size)
    }

    fn load(&self, span: &Span) -> u64 {
        let high_first = span.places().iter().rev();
        high_first.fold(0, |value, &place| value << 8 | u64::from(self.bytes[place]))
    }

    fn store(&mut self, span: &Span, value: u64) {
        for (&place, byte) in span.places().iter().zip(value.to_le_bytes()) {
            self.bytes[place] = byte;
        }
    }

    fn incssp(&mut self, size: usize, count: u64) -> Result<(), Stop> {
        let state = self.state;
        ensure(state.is_enabled(), UD)?;
        let range = count & 0xFF;
        self.shadow(state.ssp, size)?;
        if range > 0 {
            self.shadow(state.plus(state.ssp, size as u64 * (range - 1)), size)?;
        }
        self.state.ssp = state.plus(state.ssp, size as u64 * range);
        Ok(())
    }

    fn rstorssp(&mut self, address: u64) -> Result<(), Stop> {
        let state = self.state;
        ensure(state.is_enabled(), UD)?;
        ensure(address.is_multiple_of(8), GP)?;
        let span = self.shadow(address, 8)?;
        let token = self.load(&span);
        let is_good = token & 3 == state.long_bit()
            && state.wrap(token) == token
            && (token & !1).wrapping_sub(8) & !7 == address;
        ensure(is_good, CP_RSTORSSP)?;
        self.store(&span, state.ssp + state.long_bit() + 2);
        self.state.ssp = address;
        self.state.rflags = state.rflags & !STATUS_FLAGS | token >> 2 & CARRY;
        Ok(())
    }

    fn saveprevssp(&mut self) -> Result<(), Stop> {
        let state = self.state;
        ensure(state.is_enabled(), UD)?;
        ensure(state.ssp.is_multiple_of(8), GP)?;
        let token = self.load(&self.shadow(state.ssp, 8)?);
        let mut ssp = state.plus(state.ssp, 8);
        if state.rflags & CARRY != 0 {
            ensure(!state.is_64_bit(), GP)?;
            ensure(self.load(&self.shadow(ssp, 4)?) == 0, GP)?;
            ssp = state.plus(ssp, 4);
        }
        ensure(token & 2 != 0 && state.wrap(token) == token, GP)?;
        let old = token & !3;
        let hole = self.shadow(state.minus(old, 4), 4)?;
        let saved = self.shadow(state.minus(old & !7, 8), 8)?;
        self.store(&hole, 0);
        self.store(&saved, old + state.long_bit());
        self.state.ssp = ssp;
        Ok(())
    }

    fn wrss(&mut self, size: usize, address: u64, value: u64) -> Result<(), Stop> {
        ensure(self.state.is_enabled(), UD)?;
        ensure(self.state.cet_register() & WR_SHSTK_EN != 0, UD)?;
        ensure(address.is_multiple_of(size as u64), GP)?;
        let span = self.shadow(address, size)?;
        self.store(&span, value);
        Ok(())
    }

    /// `has_frame` is false for a relative call of the next line, which has nothing to do with the
    /// shadow stack.
    fn call(&mut self, next: u64, target: u64, has_frame: bool) -> Result<(), Stop> {
        let state = self.state;
        let size = state.return_size();
        ensure(state.is_target(target), GP)?;
        let sp = state.minus(state.sp, size as u64);
        let ordinary = self.ordinary(sp, size)?;
        if state.is_enabled() && has_frame {
            let ssp = state.minus(state.ssp, size as u64);
            let shadow = self.shadow(ssp, size)?;
            self.store(&shadow, next);
            self.state.ssp = ssp;
        }
        self.store(&ordinary, next);
        self.state.sp = sp;
        Ok(())
    }

    /// One instruction. Nothing has changed where it stops.
    fn step(&mut self, instruction: &Instruction) -> Result<(), Stop> {
        let state = self.state;
        ensure(instruction.is_allowed(state.mode), Stop::Refused(6))?;
        ensure(state.mode != 0, UD)?;
        let Instruction { code, length, a, b } = *instruction;
        let next = state.plus(state.ip, length);
        let ip = match code {
            7 => state.wrap(next.wrapping_add_signed(i64::from(a as u32 as i32))),
            8 => a,
            _ => next,
        };
        match code {
            1 => self.incssp(4, b)?,
            2 => self.incssp(8, b)?,
            3 => self.rstorssp(a)?,
            4 => self.saveprevssp()?,
            5 => self.wrss(4, a, b)?,
            6 => self.wrss(8, a, b)?,
            7 => self.call(next, ip, a != 0)?,
            _ => self.call(next, ip, true)?,
        }
        self.state.ip = ip;
        Ok(())
    }
}

/// Refusals 1 to 4.
fn check_pages(pages: &[u64], bytes: &[u8]) -> Result<(), Stop> {
    let is_whole = pages.len() <= MAX_PAGES && bytes.len() == pages.len() * PAGE_SIZE;
    ensure(is_whole, Stop::Refused(1))?;
    let are_kinds = pages
        .iter()
        .all(|entry| (1..=3).contains(&(entry & OFFSET)));
    ensure(are_kinds, Stop::Refused(2))?;
    ensure(
        pages.iter().all(|&entry| is_canonical(entry)),
        Stop::Refused(3),
    )?;
    let are_distinct = pages.iter().enumerate().all(|(index, entry)| {
        let same = |other: &u64| (entry ^ other) & !OFFSET == 0;
        !pages[..index].iter().any(same)
    });
    ensure(are_distinct, Stop::Refused(4))
}

/// The whole run, with the number of completed instructions counted into `count`.
fn run(
    state: &mut [u64],
    pages: &[u64],
    bytes: &mut [u8],
    words: &[u64],
    count: &mut u64,
) -> Result<(), Stop> {
    check_pages(pages, bytes)?;
    let opening = State::from_words(state)
        .filter(State::is_in_range)
        .ok_or(Stop::Refused(5))?;
    let (instructions, rest) = words.as_chunks::<4>();
    let is_list = rest.is_empty() && instructions.len() <= MAX_INSTRUCTIONS;
    ensure(is_list, Stop::Refused(7))?;
    let mut machine = Machine {
        state: opening,
        pages,
        bytes,
    };
    let result = instructions.iter().try_for_each(|&[code, length, a, b]| {
        machine.step(&Instruction { code, length, a, b })?;
        *count += 1;
        Ok(())
    });
    machine.state.write_back(state);
    result
}

/// Replays a run; the shape is that of the C function. Returns 0 when all instructions completed,
/// the refusal (1 to 7), or 256 plus the vector of a fault. `report` gets count, refusal, vector,
/// error code and address.
///
/// # Panics
///
/// Where an instruction has a code other than 1 to 8, or `report` fewer than five words: of these
/// the plain replay has no rules.
pub fn run_raw(
    state: &mut [u64],
    pages: &[u64],
    bytes: &mut [u8],
    words: &[u64],
    report: &mut [u64],
) -> u64 {
    let report = report.first_chunk_mut::<5>();
    let report = report.expect("the plain replay needs a report of five words");
    let mut count = 0;
    let result = run(state, pages, bytes, words, &mut count);
    let (answer, refusal, vector, error, address) = match result {
        Ok(()) => (0, 0, 0, 0, 0),
        Err(Stop::Refused(refusal)) => (refusal, refusal, 0, 0, 0),
        Err(Stop::Fault {
            vector,
            error,
            address,
        }) => (256 + vector, 0, vector, error, address),
    };
    *report = [count, refusal, vector, error, address];
    answer
}
