//! Parts that look for the bytes of a number in a wrong way.
//!
//! Each is the second program with another search in it. Most of them act like
//! one that looks up the page of a number once, where it takes the number to be
//! whole on a page, and are wrong about when, about the page, or about the bytes.

use super::Named;
use driftpocket_compare::answer::Answer;
use driftpocket_compare::case::{FOUR_GIB, Part, Seen};
use driftpocket_compare::rows::Row;
use driftpocket_reference::address::{Width, is_canonical};
use driftpocket_reference::memory::{Access, Memory, Obstacle};
use driftpocket_reference::pages::{Kind, PAGE_BYTES, Spot};
use driftpocket_reference::runs::{self, Input};
use driftpocket_reference::transaction::{Purpose, by_the_rules};
use std::cell::Cell;

/// The places of all bytes, or what stands against it.
type Found = Result<Vec<u64>, Obstacle>;

/// All that a search may look at.
struct Look<'run> {
    memory: &'run Memory,
    access: &'run Access,
    purpose: Purpose,
    pages: &'run [u64],
    /// How many accesses came before in this run.
    turn: u64,
    /// The page and the place of the first byte of the last one, if there was
    /// one.
    last: Option<(u64, u64)>,
}

impl Look<'_> {
    /// What the rules say.
    fn right(&self) -> Found {
        by_the_rules(self.memory, self.access, self.purpose)
    }

    /// What they say of another access.
    fn right_of(&self, access: &Access) -> Found {
        by_the_rules(self.memory, access, self.purpose)
    }

    /// How many bytes the number has.
    fn size(&self) -> u64 {
        self.access.addresses().len() as u64
    }

    /// The addresses of the first byte and of the last one.
    fn ends(&self) -> (u64, u64) {
        let all = self.access.addresses();
        (all[0], all[all.len() - 1])
    }

    /// How far into its page the number begins.
    fn offset(&self) -> u64 {
        self.ends().0 % PAGE_BYTES
    }

    /// Whether all of its bytes are on one page.
    fn is_whole(&self) -> bool {
        self.offset() + self.size() <= PAGE_BYTES
    }

    /// The test that comes before all others.
    fn canonical(&self) -> Result<(), Obstacle> {
        let all = self.access.addresses();
        if self.access.canonical && !all.into_iter().all(is_canonical) {
            return Err(Obstacle::NotCanonical);
        }
        Ok(())
    }

    /// Where the first byte lies, on a page of some kind.
    fn any_spot(&self) -> Result<Spot, Obstacle> {
        self.canonical()?;
        let (first, _) = self.ends();
        self.memory.find(first).ok_or(Obstacle::NoPage(first))
    }

    /// The same on a page of the right kind.
    fn spot(&self) -> Result<Spot, Obstacle> {
        match self.any_spot()? {
            spot if spot.kind == self.access.kind => Ok(spot),
            _ => Err(Obstacle::WrongKind(self.ends().0)),
        }
    }

    /// So many places from one on. Behind the last lent byte the first comes
    /// again, so that even a wrong search stays among the lent bytes.
    fn run(&self, place: u64, count: u64) -> Vec<u64> {
        let lent = self.pages.len() as u64 * PAGE_BYTES;
        (place..place + count).map(|place| place % lent).collect()
    }

    /// All places of the number, if one follows the other.
    fn row(&self, place: u64) -> Vec<u64> {
        self.run(place, self.size())
    }

    /// The places as they should be, changed if the number is whole.
    fn whole_but(&self, change: impl FnOnce(&mut Vec<u64>)) -> Found {
        let mut places = self.right()?;
        if self.is_whole() {
            change(&mut places);
        }
        Ok(places)
    }

    /// Goes on among the lent bytes from the first one, or does it rightly.
    fn goes_on_if(&self, goes_on: bool) -> Found {
        if goes_on {
            return Ok(self.row(self.spot()?.place));
        }
        self.right()
    }

    /// The same on a page of any kind.
    fn takes_any_kind_if(&self, any_kind: bool) -> Found {
        if any_kind {
            return Ok(self.row(self.any_spot()?.place));
        }
        self.right()
    }

    /// Leaves the test for the hole out, or does it rightly.
    fn skips_the_hole_if(&self, skips: bool) -> Found {
        self.right_of(&Access {
            canonical: self.access.canonical && !skips,
            ..*self.access
        })
    }

    /// The page fault as it should be, but for its address.
    fn at_another_address(&self, address: u64) -> Found {
        self.right().map_err(|obstacle| match obstacle {
            Obstacle::NotCanonical => obstacle,
            _ => Obstacle::NoPage(address),
        })
    }
}

/// A run of the second program with another search.
fn search_wrongly(
    state: &mut [u64],
    pages: &[u64],
    bytes: &mut [u8],
    words: &[u64],
    report: &mut [u64],
    search: impl Fn(&Look) -> Found,
) -> u64 {
    let past = Cell::new((0, None));
    let input = Input {
        state,
        pages,
        bytes,
        words,
    };
    let run = runs::run_with(&input, &|memory, access, purpose| {
        let (turn, last) = past.get();
        let look = Look {
            memory,
            access,
            purpose,
            pages,
            turn,
            last,
        };
        let found = search(&look)?;
        let page = look.ends().0 - look.offset();
        past.set((turn + 1, Some((page, found[0]))));
        Ok(found)
    });
    let answer = Answer::of(&run.ending);
    let Some(report) = report.first_chunk_mut() else {
        return answer.unreported();
    };
    state.copy_from_slice(&run.moment.state);
    bytes.copy_from_slice(&run.moment.bytes);
    *report = answer.report(run.count);
    answer.returned()
}

/// A part with another search.
macro_rules! wrong_search {
    ($name:ident, $search:expr) => {
        wrong_run!($name, |state, pages, bytes, words, report| search_wrongly(
            state, pages, bytes, words, report, $search
        ));
    };
}

/// A search by itself.
pub struct Search(fn(&Look) -> Found);

impl Search {
    /// Whether a row notices it if only one access of a run is searched so,
    /// counted from 0.
    pub fn is_noticed(&self, row: &Row, turn: u64) -> bool {
        let Search(wrong) = self;
        let search = |look: &Look| {
            if look.turn == turn {
                return wrong(look);
            }
            look.right()
        };
        let case = &row.case;
        let mut seen = Seen::untouched(case, 0);
        seen.returned = search_wrongly(
            &mut seen.state,
            &case.pages,
            &mut seen.bytes,
            &case.words,
            &mut seen.report,
            search,
        );
        seen != row.wanted
    }
}

/// Goes on among the lent bytes, whether the page ends or not.
pub const GOING_ON: Search = Search(|look| look.goes_on_if(true));

/// Takes the third byte of a whole number for its second too.
pub const MISSING_A_BYTE: Search = Search(|look| look.whole_but(|places| places[1] = places[2]));

/// Asks no kind of a page that has a whole number on it.
pub const ASKING_NO_KIND: Search = Search(|look| look.takes_any_kind_if(look.is_whole()));

/// Names the last byte of a number at a page fault, not the first one that
/// can't be reached.
pub const NAMING_THE_LAST: Search = Search(|look| look.at_another_address(look.ends().1));

// Wrong about when a number is whole on a page.

wrong_search!(always_goes_on, GOING_ON.0);

wrong_search!(goes_on_by_one_byte, |look| {
    look.goes_on_if(look.offset() + look.size() <= PAGE_BYTES + 1)
});

wrong_search!(goes_on_if_half_of_it_fits, |look| {
    look.goes_on_if(look.offset() + look.size() / 2 <= PAGE_BYTES)
});

wrong_search!(goes_on_with_four_bytes, |look| look
    .goes_on_if(look.size() == 4));

wrong_search!(goes_on_in_an_entry_of_the_right_kind, |look| {
    let entry = look.spot()?.place / PAGE_BYTES;
    let next = look.pages.get(entry as usize + 1);
    let kind = next.map(|entry| entry % PAGE_BYTES);
    look.goes_on_if(kind == Some(look.access.kind.number()))
});

wrong_search!(starts_the_page_again, |look| {
    let spot = look.spot()?;
    let start = spot.place - look.offset();
    let turn = |place: u64| start + (place - start) % PAGE_BYTES;
    Ok((spot.place..spot.place + look.size()).map(turn).collect())
});

wrong_search!(never_crosses, |look| {
    let (_, last) = look.ends();
    match look.right() {
        Ok(_) if !look.is_whole() => Err(Obstacle::NoPage(last - last % PAGE_BYTES)),
        found => found,
    }
});

wrong_search!(crosses_to_the_next_entry_alone, |look| {
    let (_, last) = look.ends();
    let places = look.right()?;
    if places == look.row(places[0]) {
        return Ok(places);
    }
    Err(Obstacle::NoPage(last - last % PAGE_BYTES))
});

wrong_search!(counts_on_behind_the_end, |look| {
    let mut places = look.right()?;
    let left = PAGE_BYTES - look.offset();
    let behind = places.iter_mut().skip(left as usize);
    behind.for_each(|place| *place += left);
    Ok(places)
});

// Wrong about the bytes of a number that is whole on a page.

wrong_search!(misses_the_second_byte, MISSING_A_BYTE.0);

wrong_search!(turns_the_bytes_round, |look| look
    .whole_but(|places| places.reverse()));

wrong_search!(counts_the_kind_into_the_place, |look| {
    let kind = look.access.kind.number();
    look.whole_but(|places| *places = look.row(places[0] + kind))
});

wrong_search!(forgets_the_base_of_the_page, |look| look
    .whole_but(|places| *places = look.row(places[0] % PAGE_BYTES)));

wrong_search!(keeps_three_bits_of_the_entry, |look| look
    .whole_but(|places| *places = look.row(places[0] % (8 * PAGE_BYTES))));

wrong_search!(stores_eight_bytes_for_four, |look| {
    let wide = look.purpose == Purpose::Store && look.offset() + 8 <= PAGE_BYTES;
    look.whole_but(|places| {
        if wide {
            *places = look.run(places[0], 8);
        }
    })
});

wrong_search!(loads_eight_bytes_for_four, |look| {
    let wide = look.purpose == Purpose::Load && look.offset() + 8 <= PAGE_BYTES;
    look.whole_but(|places| {
        if wide {
            *places = look.run(places[0], 8);
        }
    })
});

wrong_search!(stores_four_bytes_for_eight, |look| look.whole_but(
    |places| {
        if look.purpose == Purpose::Store {
            places.truncate(4);
        }
    }
));

// Wrong about the page.

wrong_search!(asks_no_kind, ASKING_NO_KIND.0);

wrong_search!(asks_the_kind_once, |look| {
    look.takes_any_kind_if(look.is_whole() && look.turn > 0)
});

wrong_search!(asks_the_kind_of_loads_alone, |look| {
    look.takes_any_kind_if(look.is_whole() && look.purpose == Purpose::Store)
});

wrong_search!(asks_the_kind_of_stores_alone, |look| {
    look.takes_any_kind_if(look.is_whole() && look.purpose == Purpose::Load)
});

wrong_search!(asks_no_kind_behind_the_end, |look| {
    look.spot()?;
    let find = |address| {
        let spot = look.memory.find(address).ok_or(Obstacle::NoPage(address))?;
        Ok(spot.place)
    };
    look.access.addresses().into_iter().map(find).collect()
});

wrong_search!(takes_any_shadow_page, |look| {
    let found = look.any_spot()?.kind;
    let shadow = |kind| kind != Kind::Ordinary;
    look.takes_any_kind_if(look.is_whole() && shadow(found) && shadow(look.access.kind))
});

wrong_search!(remembers_the_page_but_not_its_kind, |look| {
    let page = look.ends().0 - look.offset();
    let known = look.last.is_some_and(|(last, _)| last == page);
    look.takes_any_kind_if(look.is_whole() && known)
});

wrong_search!(remembers_the_base_but_not_the_page, |look| {
    let places = look.right()?;
    match look.last {
        Some((_, place)) if look.is_whole() => {
            Ok(look.row(place - place % PAGE_BYTES + look.offset()))
        }
        _ => Ok(places),
    }
});

wrong_search!(compares_32_bits_of_the_page, |look| {
    look.canonical()?;
    let wanted = (look.ends().0 - look.offset()) % FOUR_GIB;
    let alike = |entry: &u64| *entry % FOUR_GIB == wanted + look.access.kind.number();
    match look.pages.iter().position(alike) {
        Some(page) if look.is_whole() => Ok(look.row(page as u64 * PAGE_BYTES + look.offset())),
        _ => look.right(),
    }
});

wrong_search!(takes_the_page_below, |look| {
    look.canonical()?;
    let (first, _) = look.ends();
    let below = (1..4).map(|pages| first.wrapping_sub(pages * PAGE_BYTES));
    let mut below = below.filter_map(|address| look.memory.find(address));
    match (look.memory.find(first), below.next()) {
        (None, Some(spot)) if spot.kind == look.access.kind => Ok(look.row(spot.place)),
        _ => look.right(),
    }
});

// Wrong about the addresses of a number on two pages.

wrong_search!(wraps_at_32_bits, |look| {
    let (first, last) = look.ends();
    if first >= FOUR_GIB || last < FOUR_GIB {
        return look.right();
    }
    look.right_of(&Access {
        width: Width::Four,
        ..*look.access
    })
});

wrong_search!(ends_at_64_bits, |look| {
    let (first, last) = look.ends();
    match look.right() {
        Ok(_) if last < first => Err(Obstacle::NoPage(0)),
        found => found,
    }
});

// Wrong about the hole.

wrong_search!(tests_the_first_byte_for_the_hole, |look| {
    look.skips_the_hole_if(is_canonical(look.ends().0))
});

wrong_search!(tests_the_last_byte_for_the_hole, |look| {
    look.skips_the_hole_if(is_canonical(look.ends().1))
});

wrong_search!(looks_for_the_page_before_the_hole, |look| {
    look.skips_the_hole_if(true)?;
    look.right()
});

// Wrong about the address of a fault.

wrong_search!(names_the_last_byte, NAMING_THE_LAST.0);

wrong_search!(names_the_first_byte, |look| look
    .at_another_address(look.ends().0));

wrong_search!(names_the_page_of_the_first_byte, |look| {
    let page = look.ends().0 - look.offset();
    look.at_another_address(page)
});

wrong_search!(looks_at_the_second_page_first, |look| {
    look.canonical()?;
    let (_, last) = look.ends();
    let page = last - last % PAGE_BYTES;
    match look.memory.find(last) {
        Some(spot) if spot.kind == look.access.kind => look.right(),
        _ if look.is_whole() => look.right(),
        _ => Err(Obstacle::NoPage(page)),
    }
});

wrong_search!(unspoiled, |look| look.right());

/// The second program with the right search.
pub const UNSPOILED: Part = unspoiled;

/// All of them with their names.
pub const ALL: &[Named] = &[
    ("always goes on behind the page", always_goes_on),
    ("goes on behind the page by one byte", goes_on_by_one_byte),
    (
        "goes on behind the page if half of it fits",
        goes_on_if_half_of_it_fits,
    ),
    (
        "goes on behind the page with four bytes",
        goes_on_with_four_bytes,
    ),
    (
        "goes on in an entry of the right kind",
        goes_on_in_an_entry_of_the_right_kind,
    ),
    ("starts the page again", starts_the_page_again),
    ("never crosses", never_crosses),
    (
        "crosses to the next entry alone",
        crosses_to_the_next_entry_alone,
    ),
    ("counts on behind the end", counts_on_behind_the_end),
    ("misses the second byte", misses_the_second_byte),
    ("turns the bytes round", turns_the_bytes_round),
    (
        "counts the kind into the place",
        counts_the_kind_into_the_place,
    ),
    ("forgets the base of the page", forgets_the_base_of_the_page),
    (
        "keeps three bits of the entry",
        keeps_three_bits_of_the_entry,
    ),
    ("stores eight bytes for four", stores_eight_bytes_for_four),
    ("loads eight bytes for four", loads_eight_bytes_for_four),
    ("stores four bytes for eight", stores_four_bytes_for_eight),
    ("asks no kind", asks_no_kind),
    ("asks the kind once", asks_the_kind_once),
    ("asks the kind of loads alone", asks_the_kind_of_loads_alone),
    (
        "asks the kind of stores alone",
        asks_the_kind_of_stores_alone,
    ),
    ("asks no kind behind the end", asks_no_kind_behind_the_end),
    ("takes any shadow page", takes_any_shadow_page),
    (
        "remembers the page but not its kind",
        remembers_the_page_but_not_its_kind,
    ),
    (
        "remembers the base but not the page",
        remembers_the_base_but_not_the_page,
    ),
    ("compares 32 bits of the page", compares_32_bits_of_the_page),
    ("takes the page below", takes_the_page_below),
    ("wraps at 32 bits", wraps_at_32_bits),
    ("ends at 64 bits", ends_at_64_bits),
    (
        "tests the first byte for the hole",
        tests_the_first_byte_for_the_hole,
    ),
    (
        "tests the last byte for the hole",
        tests_the_last_byte_for_the_hole,
    ),
    (
        "looks for the page before the hole",
        looks_for_the_page_before_the_hole,
    ),
    ("names the last byte", names_the_last_byte),
    ("names the first byte", names_the_first_byte),
    (
        "names the page of the first byte",
        names_the_page_of_the_first_byte,
    ),
    (
        "looks at the second page first",
        looks_at_the_second_page_first,
    ),
];
