//! Makes the runs that are measured: 16 pages and 1,024 instructions, all of which complete. The
//! same seed makes the same run. Instructions come in small groups; each group leaves SSP on a
//! user shadow page with room on both sides, so that any group can follow.

/// The number of instructions in a run.
pub const INSTRUCTIONS: usize = 1024;

const PAGES: usize = 16;
const PAGE_SIZE: u64 = 4096;
/// How near to either end of its page SSP may come.
const MARGIN: u64 = 64;
/// The instructions of the longest group.
const LONGEST_GROUP: usize = 4;
/// Calls jump about in this many bytes of code, from `CODE` on.
const CODE_SIZE: u64 = 1 << 20;
const CODE: u64 = 0x40_0000;

/// How the accesses of a run lie.
#[derive(Clone, Copy, PartialEq, Eq)]
pub enum Spread {
    /// On all pages that the run can reach.
    Random,
    /// Fifteen of sixteen shadow addresses on one page; ordinary pushes on one other.
    Repeated,
}

/// A run as the replays take it.
pub struct Run {
    /// The ten words of the opening state.
    pub state: [u64; 10],
    /// The page list.
    pub pages: Vec<u64>,
    /// The lent bytes.
    pub bytes: Vec<u8>,
    /// The instructions, four words each.
    pub words: Vec<u64>,
}

/// SplitMix64.
struct Random(u64);

impl Random {
    fn next(&mut self) -> u64 {
        self.0 = self.0.wrapping_add(0x9E37_79B9_7F4A_7C15);
        let mixed = (self.0 ^ self.0 >> 30).wrapping_mul(0xBF58_476D_1CE4_E5B9);
        let mixed = (mixed ^ mixed >> 27).wrapping_mul(0x94D0_49BB_1331_11EB);
        mixed ^ mixed >> 31
    }

    fn below(&mut self, limit: u64) -> u64 {
        self.next() % limit
    }

    fn pick(&mut self, items: &[u64]) -> u64 {
        items[self.below(items.len() as u64) as usize]
    }

    fn shuffle(&mut self, items: &mut [u64]) {
        for last in (1..items.len()).rev() {
            items.swap(last, self.below(last as u64 + 1) as usize);
        }
    }

    /// An address of a page, with room for the next page above it; in mode 1 below 2^32.
    fn page(&mut self, mode: u64) -> u64 {
        let bits = if mode == 2 { 46 } else { 31 };
        let low = self.next() >> (64 - bits) & !(PAGE_SIZE - 1);
        let is_high_half = mode == 2 && self.below(2) == 1;
        if is_high_half { low | !0 << 47 } else { low }
    }
}

/// The pages of a run: twelve user shadow, two supervisor shadow, and two ordinary neighbours.
struct Layout {
    shadow: Vec<u64>,
    supervisor: Vec<u64>,
    stack: u64,
}

impl Layout {
    fn new(random: &mut Random, mode: u64) -> Layout {
        let stack = random.page(mode);
        let mut taken = vec![stack, stack + PAGE_SIZE];
        while taken.len() < PAGES {
            let page = random.page(mode);
            if !taken.contains(&page) {
                taken.push(page);
            }
        }
        Layout {
            shadow: taken[2..14].to_vec(),
            supervisor: taken[14..].to_vec(),
            stack,
        }
    }

    /// The page list in any order, but with the first shadow page at the given position.
    fn list(&self, random: &mut Random, position: usize) -> Vec<u64> {
        let shadow = self.shadow[1..].iter().map(|page| page | 1);
        let supervisor = self.supervisor.iter().map(|page| page | 2);
        let ordinary = [self.stack | 3, (self.stack + PAGE_SIZE) | 3];
        let mut list: Vec<u64> = shadow.chain(supervisor).chain(ordinary).collect();
        random.shuffle(&mut list);
        list.insert(position, self.shadow[0] | 1);
        list
    }
}

/// Writes a run, and knows the registers that the instructions so far leave.
struct Writer {
    random: Random,
    layout: Layout,
    spread: Spread,
    mode: u64,
    ip: u64,
    sp: u64,
    ssp: u64,
    words: Vec<u64>,
}

impl Writer {
    fn new(mode: u64, spread: Spread, seed: u64) -> Writer {
        let mut random = Random(seed);
        let layout = Layout::new(&mut random, mode);
        // Random runs cross from one page of the ordinary stack into the other.
        let room = match spread {
            Spread::Random => PAGE_SIZE + PAGE_SIZE / 8,
            Spread::Repeated => 2 * PAGE_SIZE,
        };
        Writer {
            sp: layout.stack + room,
            ssp: layout.shadow[0] + PAGE_SIZE / 2,
            ip: CODE,
            random,
            layout,
            spread,
            mode,
            words: Vec::new(),
        }
    }

    fn left(&self) -> usize {
        INSTRUCTIONS - self.words.len() / 4
    }

    /// Bytes of a pushed address.
    fn slot(&self) -> u64 {
        if self.mode == 2 { 8 } else { 4 }
    }

    fn push(&mut self, code: u64, a: u64, b: u64) {
        let length = 1 + self.random.below(15);
        self.words.extend([code, length, a, b]);
        self.ip += length;
    }

    fn shadow_page(&mut self) -> u64 {
        let is_hot = self.spread == Spread::Repeated && self.random.below(16) != 0;
        if is_hot {
            self.layout.shadow[0]
        } else {
            self.random.pick(&self.layout.shadow)
        }
    }

    /// A store anywhere on a shadow page.
    fn write(&mut self) {
        let size = self.random.pick(&[4, self.slot()]);
        let address = self.shadow_page() + self.random.below(PAGE_SIZE / size) * size;
        let value = self.random.next() >> (64 - 8 * size);
        self.push(if size == 8 { 6 } else { 5 }, address, value);
    }

    /// Writes a token, switches to it and, mostly, saves the old pointer.
    fn switch(&mut self) {
        let places = (PAGE_SIZE - 2 * MARGIN) / 8 - 1;
        let page = self.shadow_page();
        let address = page + MARGIN + 8 * self.random.below(places);
        if self.mode == 2 {
            self.push(6, address, address + 8 + 1);
        } else {
            self.push(5, address, address + 8);
            self.push(5, address + 4, 0);
        }
        self.push(3, address, 0);
        self.ssp = address;
        if self.random.below(4) != 0 {
            self.push(4, 0, 0);
            self.ssp += 8;
        }
    }

    /// Moves SSP up, by at most as much as the page has room for.
    fn rise(&mut self) {
        let size = self.random.pick(&[4, self.slot()]);
        let room = PAGE_SIZE - MARGIN - self.ssp % PAGE_SIZE;
        let range = self.random.below(256.min(room / size + 1));
        self.push(if size == 8 { 2 } else { 1 }, 0, range);
        self.ssp += size * range;
    }

    /// A call to anywhere in the code. A displacement of 0 is seldom drawn; it leaves SSP alone.
    fn call(&mut self) {
        let target = CODE + self.random.below(CODE_SIZE);
        let mut frame = self.slot();
        if self.random.below(2) == 0 {
            self.push(8, target, 0);
        } else {
            // The length is drawn by `push`, and the displacement counts from what follows.
            self.push(7, 0, 0);
            let displacement = target.wrapping_sub(self.ip) & 0xFFFF_FFFF;
            let operand = self.words.len() - 2;
            self.words[operand] = displacement;
            if displacement == 0 {
                frame = 0;
            }
        }
        self.ip = target;
        self.sp -= self.slot();
        self.ssp -= frame;
    }

    fn can_call(&self) -> bool {
        let has_shadow_room = self.ssp % PAGE_SIZE >= MARGIN + self.slot();
        has_shadow_room && self.sp >= self.layout.stack + self.slot()
    }

    fn group(&mut self) {
        match self.random.below(8) {
            _ if self.left() < LONGEST_GROUP => self.write(),
            0..3 if self.can_call() => self.call(),
            3 => self.rise(),
            4 | 5 => self.switch(),
            _ => self.write(),
        }
    }
}

/// Makes a run in mode 1 or 2, CPL 3, with CR4.CET and both bits of U_CET set. The page that a
/// repeated run is on stands at list position `seed` modulo 16, so that sixteen seeds in a row
/// have it once at each position.
pub fn make(mode: u64, spread: Spread, seed: u64) -> Run {
    let mut writer = Writer::new(mode, spread, seed);
    let (sp, ssp) = (writer.sp, writer.ssp);
    while writer.left() > 0 {
        writer.group();
    }
    let position = (seed % PAGES as u64) as usize;
    let pages = writer.layout.list(&mut writer.random, position);
    let bytes = (0..PAGES as u64 * PAGE_SIZE / 8)
        .flat_map(|_| writer.random.next().to_le_bytes())
        .collect();
    Run {
        state: [mode, 3, 1, 3, 0, CODE, sp, ssp, 0, 0xFFFF_FFFF],
        pages,
        bytes,
        words: writer.words,
    }
}
