//! Pages, states and tokens for a random run, mostly close to an edge.

use crate::case::{Case, FOUR_GIB, PAGE, REPORT_WORDS, field};
use driftpocket_reference::address::{ABOVE_HOLE, HOLE, LAST_PAGE, is_canonical};
use driftpocket_reference::dice::Dice;
use driftpocket_reference::pages::{MOST_PAGES, PAGE_BYTES};

/// Page addresses with an edge of 64-bit mode close by.
const WIDE_HOMES: [u64; 8] = [
    0x1000,
    0,
    LAST_PAGE,
    FOUR_GIB - PAGE_BYTES,
    HOLE - PAGE_BYTES,
    HOLE - 2 * PAGE_BYTES,
    ABOVE_HOLE,
    LAST_PAGE - PAGE_BYTES,
];

/// Page addresses with an edge of the other modes close by.
const NARROW_HOMES: [u64; 5] = [
    0x1000,
    0,
    FOUR_GIB - PAGE_BYTES,
    FOUR_GIB - 2 * PAGE_BYTES,
    FOUR_GIB / 2 - PAGE_BYTES,
];

/// Addresses where something ends or begins.
pub const LANDMARKS: [u64; 6] = [0, 1 << 31, FOUR_GIB, HOLE, ABOVE_HOLE, LAST_PAGE];

/// What a run takes place in.
#[derive(Clone, Debug)]
pub struct World {
    /// The mode.
    pub mode: u64,
    /// The privilege level.
    pub cpl: u64,
    /// Whether shadow stacks are enabled.
    pub enabled: bool,
    /// The code limit.
    pub limit: u64,
    /// The pages that shadow accesses reach; there is always one, even if the
    /// list does not hold it.
    pub shadow: Vec<u64>,
    /// The ordinary pages, just so.
    pub ordinary: Vec<u64>,
    /// The pages that WRUSS reaches, just so. At CPL 3 they are those that other
    /// shadow accesses reach.
    pub user: Vec<u64>,
    /// Where tokens to restore may lie.
    pub tokens: Vec<u64>,
}

impl World {
    /// A world, and a case in it that has no instruction yet.
    pub fn make(dice: &mut Dice) -> (World, Case) {
        let mode = dice.one_of(&[0, 1, 1, 1, 1, 2, 2, 2, 2, 2]);
        let cpl = dice.one_of(&[0, 0, 1, 1, 2, 2, 3, 3, 3, 3]);
        let mut world = World {
            mode,
            cpl,
            enabled: !dice.once_in(4),
            limit: world_limit(dice),
            shadow: Vec::new(),
            ordinary: Vec::new(),
            user: Vec::new(),
            tokens: Vec::new(),
        };
        let mut case = Case {
            state: Vec::new(),
            pages: world.choose_pages(dice),
            bytes: Vec::new(),
            words: Vec::new(),
            room: REPORT_WORDS,
        };
        case.bytes = background(dice, case.pages.len());
        world.plant_tokens(dice, &mut case);
        case.state = world.choose_state(dice);
        if dice.once_in(4) {
            world.plant_frame(dice, &mut case);
        } else {
            world.plant_at_top(dice, &mut case);
        }
        (world, case)
    }

    /// Whether this is 64-bit mode.
    pub fn is_wide(&self) -> bool {
        self.mode == 2
    }

    /// The mark of 64-bit mode in tokens.
    pub fn mark(&self) -> u64 {
        u64::from(self.is_wide())
    }

    /// Reduces a number to the addresses of the mode.
    pub fn cut(&self, number: u64) -> u64 {
        if self.is_wide() {
            number
        } else {
            number % FOUR_GIB
        }
    }

    /// The kind that shadow accesses reach.
    fn shadow_kind(&self) -> u64 {
        if self.cpl == 3 { 1 } else { 2 }
    }

    /// Chooses a page list in no particular order.
    fn choose_pages(&mut self, dice: &mut Dice) -> Vec<u64> {
        let mut list = Vec::new();
        self.shadow.push(self.home(dice));
        add(&mut list, self.shadow[0], self.shadow_kind());
        if !dice.once_in(3) {
            let next = self.neighbour(dice, self.shadow[0]);
            add(&mut list, next, self.shadow_kind());
            self.shadow.push(self.cut(next));
        }
        let ordinary = self.ordinary_home(dice);
        self.ordinary.push(ordinary);
        add(&mut list, ordinary, 3);
        if dice.once_in(3) {
            let next = self.neighbour(dice, ordinary);
            add(&mut list, next, 3);
        }
        self.choose_user_page(dice, &mut list);
        if dice.once_in(4) {
            let page = dice.one_of(&list) & !0xfff;
            let decoy = dice.one_of(&[
                page.wrapping_add(PAGE_BYTES),
                page.wrapping_sub(PAGE_BYTES),
                page.wrapping_add(FOUR_GIB),
            ]);
            add(&mut list, decoy, dice.between(1, 3));
        }
        if dice.once_in(50) {
            let count = dice.between(5, MOST_PAGES as u64) as usize;
            while list.len() < count {
                add(&mut list, self.home(dice), dice.between(1, 3));
            }
        }
        if dice.once_in(60) {
            list.truncate(dice.index(2));
        }
        dice.shuffle(&mut list);
        list
    }

    /// Chooses a page that WRUSS reaches, and puts it on the list in most of the
    /// worlds in which that can be seen.
    fn choose_user_page(&mut self, dice: &mut Dice, list: &mut Vec<u64>) {
        if self.cpl == 3 {
            self.user = self.shadow.clone();
            return;
        }
        let page = self.home(dice);
        self.user.push(page);
        if self.cpl == 0 && !dice.once_in(6) {
            add(list, page, 1);
        }
    }

    /// A page address, mostly beside an edge.
    fn home(&self, dice: &mut Dice) -> u64 {
        let any = dice.any() & !0xfff;
        if self.is_wide() {
            let high = any | ABOVE_HOLE;
            let canonical = dice.one_of(&[any % HOLE, high]);
            let home = dice.one_of(&WIDE_HOMES);
            dice.one_of(&[home, home, home, canonical])
        } else {
            let home = dice.one_of(&NARROW_HOMES);
            dice.one_of(&[home, home, home, any % FOUR_GIB])
        }
    }

    /// A page address for the ordinary stack, apart from the shadow stacks.
    fn ordinary_home(&self, dice: &mut Dice) -> u64 {
        loop {
            let home = self.home(dice);
            if !self.shadow.contains(&home) {
                return home;
            }
        }
    }

    /// The page after a page, as the mode counts or, seldom, just not.
    fn neighbour(&self, dice: &mut Dice, page: u64) -> u64 {
        let next = page.wrapping_add(PAGE_BYTES);
        match next {
            HOLE => ABOVE_HOLE,
            FOUR_GIB if dice.once_in(4) => next,
            _ => self.cut(next),
        }
    }

    /// Chooses the ten fields.
    fn choose_state(&self, dice: &mut Dice) -> Vec<u64> {
        let permitted = dice.one_of(&[0, 2, 2]);
        let own = self.own_switch(dice);
        let rest = dice.any() & !3;
        let own_register = own.1 + permitted + dice.one_of(&[0, 0, rest]);
        let any = dice.any();
        let other_register = dice.one_of(&[0, 1, 2, 3, any]);
        let (user, supervisor) = if self.cpl == 3 {
            (own_register, other_register)
        } else {
            (other_register, own_register)
        };
        let flags = dice.any();
        let carry = u64::from(dice.once_in(if self.is_wide() { 5 } else { 2 }));
        vec![
            self.mode,
            self.cpl,
            own.0,
            user,
            supervisor,
            self.choose_ip(dice),
            self.choose_sp(dice),
            self.choose_ssp(dice),
            (dice.one_of(&[0, 0, flags]) & !1) + carry,
            self.limit,
        ]
    }

    /// CR4.CET and bit 0 of the register of this privilege level.
    fn own_switch(&self, dice: &mut Dice) -> (u64, u64) {
        if self.enabled {
            (1, 1)
        } else {
            dice.one_of(&[(0, 1), (0, 0), (1, 0)])
        }
    }

    /// An instruction pointer.
    fn choose_ip(&self, dice: &mut Dice) -> u64 {
        let any = dice.any();
        let near = dice.one_of(&LANDMARKS).wrapping_sub(dice.below(40));
        self.cut(dice.one_of(&[0x40_0000, 0x40_0000, any, near, self.limit]))
    }

    /// An ordinary stack pointer.
    fn choose_sp(&self, dice: &mut Dice) -> u64 {
        let page = dice.one_of(&self.ordinary);
        let deep = dice.between(40, PAGE_BYTES / 8) * 8;
        let sp = match dice.below(18) {
            0 => dice.below(10),
            1 => dice.one_of(&[HOLE, ABOVE_HOLE]) + dice.below(10),
            2 => page.wrapping_add(dice.below(12)),
            3 => page.wrapping_add(PAGE_BYTES + dice.below(30)),
            4 => page.wrapping_add(dice.below(PAGE_BYTES)),
            5 => page.wrapping_add(deep - dice.below(8)),
            6 if self.is_wide() => {
                let end = dice.one_of(&[0, HOLE, ABOVE_HOLE]);
                end.wrapping_sub(dice.below(10))
            }
            6 => FOUR_GIB - dice.between(1, 4),
            _ => page.wrapping_add(deep),
        };
        self.cut(sp)
    }

    /// A shadow stack pointer.
    fn choose_ssp(&self, dice: &mut Dice) -> u64 {
        let page = dice.one_of(&self.shadow);
        match dice.below(25) {
            0..4 => self.near_shadow(dice, 4),
            4 | 5 => page + (PAGE_BYTES - 8),
            6 => self.useless_ssp(dice),
            _ => {
                let steps = dice.between(4, PAGE_BYTES / 8 - 8);
                page + 8 * steps + dice.one_of(&[0, 0, 4])
            }
        }
    }

    /// A shadow stack pointer below which nothing can be pushed.
    fn useless_ssp(&self, dice: &mut Dice) -> u64 {
        let inside = dice.one_of(&self.ordinary) + PAGE_BYTES / 2;
        let start = dice.one_of(&self.shadow);
        let hole = dice.one_of(&[HOLE + 4, HOLE + PAGE_BYTES, ABOVE_HOLE]);
        let ssp = dice.one_of(&[inside, start, hole, 0]);
        self.cut(ssp + dice.one_of(&[0, 4]))
    }

    /// An address on or close to a page of the shadow stacks, a multiple of
    /// some step.
    pub fn near_shadow(&self, dice: &mut Dice, step: u64) -> u64 {
        self.near(dice, &self.shadow, step)
    }

    /// The same with one of these pages.
    pub fn near(&self, dice: &mut Dice, pages: &[u64], step: u64) -> u64 {
        let page = dice.one_of(pages);
        let near = step * dice.below(4);
        let address = match dice.below(12) {
            0 => page.wrapping_add(near),
            1 => page.wrapping_sub(near),
            2 => page.wrapping_add(PAGE_BYTES - near),
            3 => page.wrapping_add(PAGE_BYTES + near),
            4 => dice.one_of(&LANDMARKS).wrapping_add(near),
            5 => dice.one_of(&LANDMARKS).wrapping_sub(near),
            _ => page.wrapping_add(step * dice.below(PAGE_BYTES / step)),
        };
        self.cut(address)
    }

    /// A token to restore at an address, right but for one thing at most.
    pub fn restore_token(&self, dice: &mut Dice, at: u64) -> u64 {
        let gap = dice.one_of(&[0, 0, 4]);
        let good = at.wrapping_add(8 + gap + self.mark());
        match dice.below(16) {
            0 => good ^ 1,
            1 => good ^ 2,
            2 => good.wrapping_add(8),
            3 => good.wrapping_sub(8),
            4 | 5 => good ^ (1 << dice.between(32, 63)),
            6 => self.cut(good),
            _ => good,
        }
    }

    /// A token of a previous pointer, right but for one thing at most.
    pub fn previous_token(&self, dice: &mut Dice) -> u64 {
        let old = if dice.once_in(3) {
            let start = dice.one_of(&self.shadow);
            self.cut(start.wrapping_add(dice.one_of(&[0, 4, 8, 12])))
        } else {
            self.near_shadow(dice, 4)
        };
        let good = old.wrapping_add(2 + self.mark());
        match dice.below(16) {
            0 => good ^ 1,
            1 => good ^ 2,
            2 => good ^ (1 << dice.between(32, 63)),
            _ => good,
        }
    }

    /// Sets tokens to restore into the bytes.
    fn plant_tokens(&mut self, dice: &mut Dice, case: &mut Case) {
        for _ in 0..dice.between(1, 5) {
            let at = self.near_shadow(dice, 8);
            let token = self.restore_token(dice, at);
            set(case, at, token);
            if token % 8 > 3 && !dice.once_in(4) {
                set(case, self.cut(at.wrapping_add(8)), 0);
            }
            self.tokens.push(at);
        }
    }

    /// Sets a return address where SP is and the same, or nearly, where SSP is.
    fn plant_frame(&self, dice: &mut Dice, case: &mut Case) {
        let near = dice.one_of(&LANDMARKS).wrapping_add(dice.below(3));
        let limit = self.limit + dice.below(2);
        let low = dice.below(0x80_0000);
        let target = dice.one_of(&[near.wrapping_sub(1), limit, low, low]);
        let other = match dice.below(8) {
            0 => target ^ (1 << dice.below(32)),
            1 => target ^ (1 << dice.between(32, 63)),
            _ => target,
        };
        set(case, case.state[field::SSP], other);
        set(case, case.state[field::SP], target);
    }

    /// Sets a token of a previous pointer where SSP is, now and then.
    fn plant_at_top(&self, dice: &mut Dice, case: &mut Case) {
        let ssp = case.state[field::SSP];
        if dice.once_in(2) {
            set(case, ssp, self.previous_token(dice));
            if dice.once_in(2) {
                set(case, self.cut(ssp.wrapping_add(8)), 0);
            }
        }
    }
}

/// A code limit.
fn world_limit(dice: &mut Dice) -> u64 {
    let any = dice.below(FOUR_GIB);
    dice.one_of(&[FOUR_GIB - 1, FOUR_GIB - 1, 0x80_0000, any])
}

/// Adds a page to a list, if it can stand there.
fn add(list: &mut Vec<u64>, page: u64, kind: u64) {
    let listed = list.iter().any(|entry| entry & !0xfff == page);
    if is_canonical(page) && !listed {
        list.push(page + kind);
    }
}

/// Sets eight bytes of a case, as far as their pages are listed.
fn set(case: &mut Case, address: u64, value: u64) {
    for (step, byte) in (0..).zip(value.to_le_bytes()) {
        if let Some(place) = case.place(address.wrapping_add(step)) {
            case.bytes[place] = byte;
        }
    }
}

/// Bytes for so many pages.
fn background(dice: &mut Dice, pages: usize) -> Vec<u8> {
    if dice.once_in(3) {
        return vec![0; pages * PAGE];
    }
    (0..pages * PAGE / 8)
        .flat_map(|_| dice.any().to_le_bytes())
        .collect()
}
