//! Which answers came from which code, and which can't come from it.
//!
//! A cell is a place in this table: mode, CPL and whether shadow stacks are
//! enabled, what the answer came from, and the answer. The rules say which
//! cells stay empty for ever. All others must be hit, for at each CPL there is
//! the same to be hit, WRUSS aside: the level chooses a register and a kind of
//! page, and either can be had at any level. WRUSS is for CPL 0 alone.

use crate::answer::{CP, GP, PF, SS, UD};
use crate::case::{Case, Seen, field, is_enabled, own_controls};
use crate::operations;
use std::collections::BTreeMap;
use std::fmt::{self, Write};

/// Where a processor stands.
#[derive(Clone, Copy, Debug, PartialEq, Eq, PartialOrd, Ord)]
pub struct Column {
    /// The mode.
    pub mode: u64,
    /// Whether shadow stacks are enabled.
    pub enabled: bool,
    /// The privilege level.
    pub cpl: u64,
}

/// What an answer came from.
#[derive(Clone, Copy, Debug, PartialEq, Eq, PartialOrd, Ord)]
pub enum Source {
    /// No instruction: it came before any step, or there was none to make.
    Start,
    /// An instruction with this code, from 1 to 12.
    Code(u64),
    /// An instruction with another code.
    OtherCode,
}

/// An answer without error code and address.
#[derive(Clone, Copy, Debug, PartialEq, Eq, PartialOrd, Ord)]
pub enum Class {
    /// Completed.
    Completed,
    /// The refusal that has this number.
    Refused(u64),
    /// A fault with this vector.
    Faulted(u64),
}

/// A place in the table. Without a column are states whose mode, CPL or
/// CR4.CET is out of its range, or that have not ten fields.
#[derive(Clone, Copy, Debug, PartialEq, Eq, PartialOrd, Ord)]
pub struct Cell {
    /// Where the processor stood.
    pub column: Option<Column>,
    /// What the answer came from.
    pub source: Source,
    /// The answer.
    pub class: Class,
}

/// A reason why some cells stay empty.
pub(crate) struct Law {
    reason: &'static str,
    forbids: fn(&Cell) -> bool,
}

/// A law in one expression.
pub(crate) const fn law(reason: &'static str, forbids: fn(&Cell) -> bool) -> Law {
    Law { reason, forbids }
}

/// All reasons why cells stay empty, but for those of one operation alone.
const LAWS: &[Law] = &[
    law(
        "refusals are 1 to 7, vectors 6, 12, 13, 14 and 21",
        |cell| !CLASSES.contains(&cell.class),
    ),
    law("refusal 6 and faults need a step", |cell| {
        cell.source == Source::Start && (cell.is_form() || cell.vector().is_some())
    }),
    law("refusals but 6 come before any step", |cell| {
        cell.source != Source::Start && cell.is_early()
    }),
    law("a state out of its range makes no step", |cell| {
        cell.column.is_none() && cell.source != Source::Start
    }),
    law(
        "5 is tested before 7, and completion comes after both",
        |cell| cell.column.is_none() && matches!(cell.class, Class::Refused(7) | Class::Completed),
    ),
    law("a code that does not exist breaks its form", |cell| {
        cell.source == Source::OtherCode && !cell.is_form()
    }),
    law("mode 0 refuses calls and returns", |cell| {
        cell.mode() == Some(0) && (cell.is_call() || cell.is_return()) && !cell.is_form()
    }),
    law("mode 0 gives #UD for codes 1 to 6, 11 and 12", |cell| {
        let known = cell.is_shadow() || cell.is_user_write();
        cell.mode() == Some(0) && known && !cell.is_form_or(UD)
    }),
    law("mode 1 refuses codes 2, 6 and 12", |cell| {
        let wide = matches!(cell.source, Source::Code(2 | 6 | 12));
        cell.mode() == Some(1) && wide && !cell.is_form()
    }),
    law("not enabled, codes 1 to 6 give #UD", |cell| {
        !cell.is_enabled() && cell.is_shadow() && !cell.is_form_or(UD)
    }),
    law("enabled, only WRSS asks for a permission", |cell| {
        cell.is_enabled()
            && cell.mode() > Some(0)
            && matches!(cell.source, Source::Code(1..=4))
            && cell.vector() == Some(UD)
    }),
    law("a call or return is no invalid opcode", |cell| {
        (cell.is_call() || cell.is_return()) && cell.vector() == Some(UD)
    }),
    law("only RSTORSSP and RET give #CP", |cell| {
        cell.source != Source::Code(3) && !cell.is_return() && cell.vector() == Some(CP)
    }),
    law(
        "only the ordinary stack of calls and returns gives #SS",
        |cell| !cell.is_call() && !cell.is_return() && cell.vector() == Some(SS),
    ),
];

/// All answers there are.
const CLASSES: [Class; 13] = [
    Class::Completed,
    Class::Refused(1),
    Class::Refused(2),
    Class::Refused(3),
    Class::Refused(4),
    Class::Refused(5),
    Class::Refused(6),
    Class::Refused(7),
    Class::Faulted(UD),
    Class::Faulted(SS),
    Class::Faulted(GP),
    Class::Faulted(PF),
    Class::Faulted(CP),
];

impl Source {
    /// The source that a code is.
    fn of_code(code: u64) -> Source {
        match code {
            1..=12 => Source::Code(code),
            _ => Source::OtherCode,
        }
    }

    /// All sources there are.
    fn all() -> impl Iterator<Item = Source> {
        let codes = (1..=12).map(Source::Code);
        [Source::Start, Source::OtherCode].into_iter().chain(codes)
    }
}

impl Column {
    /// The column of a state, in its range or not.
    fn of(state: &[u64]) -> Option<Column> {
        own_controls(state)?;
        let (mode, cpl, cet) = (state[field::MODE], state[field::CPL], state[field::CET]);
        (mode < 3 && cpl < 4 && cet < 2).then(|| Column {
            mode,
            enabled: is_enabled(state),
            cpl,
        })
    }

    /// All columns of a mode.
    fn of_mode(mode: u64) -> impl Iterator<Item = Column> {
        (0..8).map(move |number| Column {
            mode,
            enabled: number > 3,
            cpl: number % 4,
        })
    }
}

impl Cell {
    /// Why this cell stays empty, if it does.
    pub fn forbidden(&self) -> Option<&'static str> {
        let mut laws = LAWS.iter().chain(operations::laws());
        Some(laws.find(|law| (law.forbids)(self))?.reason)
    }

    pub(crate) fn mode(&self) -> Option<u64> {
        self.column.map(|column| column.mode)
    }

    pub(crate) fn is_enabled(&self) -> bool {
        self.column.is_some_and(|column| column.enabled)
    }

    /// Refusal 6.
    fn is_form(&self) -> bool {
        self.class == Class::Refused(6)
    }

    /// Another refusal.
    fn is_early(&self) -> bool {
        matches!(self.class, Class::Refused(_)) && !self.is_form()
    }

    fn is_form_or(&self, vector: u64) -> bool {
        self.is_form() || self.vector() == Some(vector)
    }

    pub(crate) fn vector(&self) -> Option<u64> {
        match self.class {
            Class::Faulted(vector) => Some(vector),
            _ => None,
        }
    }

    /// Near CALL.
    fn is_call(&self) -> bool {
        matches!(self.source, Source::Code(7 | 8))
    }

    /// Near RET.
    pub(crate) fn is_return(&self) -> bool {
        matches!(self.source, Source::Code(9 | 10))
    }

    /// WRUSS.
    pub(crate) fn is_user_write(&self) -> bool {
        matches!(self.source, Source::Code(11 | 12))
    }

    /// An operation on the level's own shadow stacks alone.
    fn is_shadow(&self) -> bool {
        matches!(self.source, Source::Code(1..=6))
    }

    /// All cells that the rules leave open.
    pub fn open() -> impl Iterator<Item = Cell> {
        let columns = (0..3).flat_map(Column::of_mode).map(Some).chain([None]);
        let cells = columns.flat_map(|column| {
            Source::all().flat_map(move |source| {
                CLASSES.into_iter().map(move |class| Cell {
                    column,
                    source,
                    class,
                })
            })
        });
        cells.filter(|cell| cell.forbidden().is_none())
    }
}

/// How often each cell was hit.
#[derive(Clone, Debug, Default)]
pub struct Table {
    hits: BTreeMap<Cell, u64>,
    /// Runs that could not report anything.
    unreported: u64,
}

impl Table {
    /// Counts all answers of a run.
    pub fn count(&mut self, case: &Case, seen: &Seen) {
        let Some(answer) = seen.answer() else {
            self.unreported += 1;
            return;
        };
        let column = Column::of(&case.state);
        let completed = seen.count();
        for instruction in 0..completed {
            match case.code(instruction) {
                Some(code) => self.hit(column, Source::of_code(code), Class::Completed),
                None => break,
            }
        }
        let last = || case.code(completed).map_or(Source::Start, Source::of_code);
        match (answer.refusal, answer.vector) {
            (0, 0) if case.words.is_empty() => self.hit(column, Source::Start, Class::Completed),
            (0, 0) => {}
            (0, vector) => self.hit(column, last(), Class::Faulted(vector)),
            (6, _) => self.hit(column, last(), Class::Refused(6)),
            (refusal, _) => self.hit(column, Source::Start, Class::Refused(refusal)),
        }
    }

    fn hit(&mut self, column: Option<Column>, source: Source, class: Class) {
        let cell = Cell {
            column,
            source,
            class,
        };
        *self.hits.entry(cell).or_default() += 1;
    }

    /// Adds what another table has counted.
    pub fn add(&mut self, other: &Table) {
        for (&cell, hits) in &other.hits {
            *self.hits.entry(cell).or_default() += hits;
        }
        self.unreported += other.unreported;
    }

    /// How often a cell was hit.
    pub fn hits(&self, cell: &Cell) -> u64 {
        self.hits.get(cell).copied().unwrap_or(0)
    }

    /// What is wrong with this table: open cells that were not hit, and others
    /// that were.
    pub fn complaints(&self) -> Vec<String> {
        let missed = Cell::open()
            .filter(|cell| self.hits(cell) == 0)
            .map(|cell| format!("never hit: {cell}"));
        let forbidden = self.hits.keys().filter_map(|cell| {
            let reason = cell.forbidden()?;
            Some(format!("hit, though {reason}: {cell}"))
        });
        missed.chain(forbidden).collect()
    }

    /// The part of the table that belongs to a mode: a line for each answer of
    /// each source that can come there.
    fn write_mode(&self, text: &mut fmt::Formatter, mode: u64) -> fmt::Result {
        writeln!(
            text,
            "\nmode {mode:<19}{:-^44}  {:-^44}",
            " not enabled, CPL 0 to 3 ", " enabled, CPL 0 to 3 "
        )?;
        for source in Source::all() {
            for class in CLASSES {
                let cells = Column::of_mode(mode).map(|column| Cell {
                    column: Some(column),
                    source,
                    class,
                });
                let row: Vec<Cell> = cells.collect();
                if row
                    .iter()
                    .any(|cell| cell.forbidden().is_none() || self.hits(cell) > 0)
                {
                    self.write_row(text, &row)?;
                }
            }
        }
        Ok(())
    }

    /// One line: a number for each cell, or a dash where none can come.
    fn write_row(&self, text: &mut fmt::Formatter, row: &[Cell]) -> fmt::Result {
        let mut line = format!(
            "{:<11}{:<12}",
            row[0].source.to_string(),
            row[0].class.to_string()
        );
        for (place, cell) in row.iter().enumerate() {
            let number = match (self.hits(cell), cell.forbidden()) {
                (0, Some(_)) => "-".to_string(),
                (hits, _) => hits.to_string(),
            };
            let gap = if place == 4 { "  " } else { "" };
            write!(line, "{gap}{number:>11}")?;
        }
        writeln!(text, "{line}")
    }
}

impl fmt::Display for Table {
    fn fmt(&self, text: &mut fmt::Formatter) -> fmt::Result {
        writeln!(text, "room too short for a report: {}", self.unreported)?;
        for (cell, hits) in self.hits.iter().filter(|(cell, _)| cell.column.is_none()) {
            writeln!(text, "state without a column, {}: {hits}", cell.class)?;
        }
        for mode in 0..3 {
            self.write_mode(text, mode)?;
        }
        Ok(())
    }
}

impl fmt::Display for Source {
    fn fmt(&self, text: &mut fmt::Formatter) -> fmt::Result {
        match self {
            Source::Start => write!(text, "no step"),
            Source::Code(code) => write!(text, "code {code}"),
            Source::OtherCode => write!(text, "other code"),
        }
    }
}

impl fmt::Display for Class {
    fn fmt(&self, text: &mut fmt::Formatter) -> fmt::Result {
        match self {
            Class::Completed => write!(text, "completed"),
            Class::Refused(number) => write!(text, "refusal {number}"),
            Class::Faulted(UD) => write!(text, "#UD"),
            Class::Faulted(SS) => write!(text, "#SS"),
            Class::Faulted(GP) => write!(text, "#GP"),
            Class::Faulted(PF) => write!(text, "#PF"),
            Class::Faulted(CP) => write!(text, "#CP"),
            Class::Faulted(other) => write!(text, "vector {other}"),
        }
    }
}

impl fmt::Display for Cell {
    fn fmt(&self, text: &mut fmt::Formatter) -> fmt::Result {
        write!(text, "{} from {}", self.class, self.source)?;
        match self.column {
            Some(Column { mode, enabled, cpl }) => {
                write!(text, ", mode {mode}, CPL {cpl}, enabled: {enabled}")
            }
            None => write!(text, ", state without a column"),
        }
    }
}

#[cfg(test)]
mod tests {
    use super::*;
    use crate::case::foretell;
    use crate::rows::plain;

    fn cell(mode: u64, enabled: bool, code: u64, class: Class) -> Cell {
        cell_at(3, mode, enabled, code, class)
    }

    fn cell_at(cpl: u64, mode: u64, enabled: bool, code: u64, class: Class) -> Cell {
        let column = Column { mode, enabled, cpl };
        Cell {
            column: Some(column),
            source: Source::Code(code),
            class,
        }
    }

    /// The answers that a code can give in a mode to user code.
    fn answers(mode: u64, enabled: bool, code: u64) -> Vec<Class> {
        answers_at(3, mode, enabled, code)
    }

    /// The answers that a code can give in a mode at a level.
    fn answers_at(cpl: u64, mode: u64, enabled: bool, code: u64) -> Vec<Class> {
        let at = |class: &Class| cell_at(cpl, mode, enabled, code, *class);
        let can_come = |class: &Class| at(class).forbidden().is_none();
        CLASSES.into_iter().filter(can_come).collect()
    }

    #[test]
    fn answers_of_codes() {
        use Class::{Completed, Faulted, Refused};
        let form = Refused(6);
        let [ud, ss, gp, pf, cp] = [UD, SS, GP, PF, CP].map(Faulted);
        for enabled in [false, true] {
            assert_eq!(answers(0, enabled, 7), [form]);
            assert_eq!(answers(1, enabled, 6), [form]);
            assert_eq!(answers(0, enabled, 6), [form, ud]);
            for mode in [1, 2] {
                assert_eq!(answers(mode, enabled, 8), [Completed, form, ss, gp, pf]);
            }
        }
        assert_eq!(answers(1, false, 2), [form]);
        assert_eq!(answers(2, false, 2), [form, ud]);
        assert_eq!(answers(1, true, 1), [Completed, form, pf]);
        assert_eq!(answers(2, true, 1), [Completed, form, gp, pf]);
        assert_eq!(answers(1, true, 3), [Completed, form, gp, pf, cp]);
        assert_eq!(answers(2, true, 4), [Completed, form, gp, pf]);
        assert_eq!(answers(2, true, 6), [Completed, form, ud, gp, pf]);
    }

    #[test]
    fn answers_of_returns_and_user_writes() {
        use Class::{Completed, Faulted, Refused};
        let form = Refused(6);
        let [ud, ss, gp, pf, cp] = [UD, SS, GP, PF, CP].map(Faulted);
        for (code, enabled) in [(9, false), (9, true), (10, false), (10, true)] {
            assert_eq!(answers(0, enabled, code), [form]);
            let mut all = vec![Completed, form, ss, gp, pf, cp];
            if !enabled {
                all.pop();
            }
            for mode in [1, 2] {
                assert_eq!(answers(mode, enabled, code), all);
            }
        }
        for cpl in 0..4 {
            for enabled in [false, true] {
                assert_eq!(answers_at(cpl, 1, enabled, 12), [form]);
                for code in [11, 12] {
                    assert_eq!(answers_at(cpl, 0, enabled, code), [form, ud]);
                }
            }
            for (mode, code) in [(1, 11), (2, 11), (2, 12)] {
                let (off, on) = match cpl {
                    0 => (
                        vec![Completed, form, ud, gp, pf],
                        vec![Completed, form, gp, pf],
                    ),
                    _ => (vec![form, ud, gp], vec![form, gp]),
                };
                assert_eq!(answers_at(cpl, mode, false, code), off);
                assert_eq!(answers_at(cpl, mode, true, code), on);
            }
        }
    }

    #[test]
    fn each_level_has_the_same_open_cells_but_for_wruss() {
        let open: Vec<Cell> = Cell::open().collect();
        let at = |cpl| {
            let here = |cell: &&Cell| cell.column.is_some_and(|column| column.cpl == cpl);
            open.iter().filter(here).count()
        };
        assert!((2..4).all(|cpl| at(cpl) == at(1)));
        // At CPL 0 it completes and gives #PF, enabled or not: code 11 in two
        // modes, code 12 in one.
        assert_eq!(at(0), at(1) + 2 * 2 * 3);
        // Refusals 1 to 5 need no column.
        assert_eq!(open.len(), at(0) + 3 * at(1) + 5);
    }

    #[test]
    fn completed_instructions_and_the_end_are_counted() {
        let case = plain(&[[7, 5, 0x10, 0], [1, 3, 0, 1], [3, 3, 4, 0], [4, 4, 0, 0]]);
        let mut table = Table::default();
        table.count(&case, &foretell(&case));
        let hit: Vec<Cell> = table.hits.keys().copied().collect();
        let wanted = [
            cell(2, true, 1, Class::Completed),
            cell(2, true, 3, Class::Faulted(GP)),
            cell(2, true, 7, Class::Completed),
        ];
        assert_eq!(hit, wanted);
        let open = Cell::open().count();
        assert_eq!(table.complaints().len(), open - 3);
    }

    #[test]
    fn what_can_not_come_is_complained_of() {
        let mut table = Table::default();
        for open in Cell::open() {
            table.hit(open.column, open.source, open.class);
        }
        assert_eq!(table.complaints(), [""; 0]);
        let wrong = cell(1, true, 2, Class::Completed);
        table.hit(wrong.column, wrong.source, wrong.class);
        let strange = cell(2, true, 2, Class::Faulted(99));
        table.hit(strange.column, strange.source, strange.class);
        let complaints = table.complaints();
        assert_eq!(complaints.len(), 2);
        let words = "hit, though mode 1 refuses codes 2, 6 and 12: ";
        assert!(complaints[0].starts_with(words), "{complaints:?}");
    }
}
