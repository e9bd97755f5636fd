//! The text for a person: a run, its steps, and how it ended.

use crate::form;
use crate::input::Run;
use crate::steps::{Replay, Step};
use driftpocket::{Answer, Fault, Outcome, PageList, Refusal, Sheet, Size, State};

/// How many numbers are shown of one page at most.
const MOST_NUMBERS: usize = 16;

/// How a page is divided to be shown.
const NUMBERS_OF_A_PAGE: u64 = 512;

/// The run of a sheet with its replay.
pub fn sheet(run: &Run, replay: &Replay) -> String {
    let mut lines = replayed(run, replay);
    lines.extend(result(run, replay));
    text_of(lines)
}

/// A run up to its last step.
fn replayed(run: &Run, replay: &Replay) -> Vec<String> {
    let mut lines = vec![run.title.clone()];
    lines.extend(start(&run.state).map(indented));
    lines.extend(pages(&run.pages).into_iter().map(indented));
    for one in &replay.steps {
        lines.push(String::new());
        lines.extend(step(one).into_iter().map(indented));
    }
    lines.push(String::new());
    lines
}

/// Lines as one text.
fn text_of(lines: Vec<String>) -> String {
    lines.into_iter().map(|line| line + "\n").collect()
}

/// A line below a title.
fn indented(line: String) -> String {
    format!("  {line}")
}

/// The state at the start.
fn start(state: &State) -> [String; 2] {
    let State {
        mode,
        cpl,
        cet,
        ucet,
        scet,
        limit,
        ..
    } = state;
    let name = match mode {
        0 => "real or virtual-8086",
        1 => "32-bit protected or compatibility",
        2 => "64-bit",
        _ => "none",
    };
    [
        format!(
            "mode {mode} ({name}), CPL {cpl}, CR4.CET {cet}, U_CET {ucet:#x}, S_CET {scet:#x}, code limit {limit:#x}"
        ),
        format!("starts with {}", registers(state)),
    ]
}

/// The registers that instructions change.
fn registers(state: &State) -> String {
    let State {
        ip, sp, ssp, flags, ..
    } = state;
    let carry = u8::from(state.carry());
    format!("SSP {ssp:#x}, IP {ip:#x}, SP {sp:#x}, RFLAGS {flags:#x} (CF {carry})")
}

/// The pages, each with the numbers on it that are not zero.
fn pages(pages: &PageList) -> Vec<String> {
    let mut lines = Vec::new();
    for (address, kind) in pages.pages() {
        lines.push(match kind {
            Ok(kind) => format!("page {address:#x}, {kind}"),
            Err(number) => format!("page {address:#x}, kind {number}"),
        });
        let mut numbers = numbers(pages, address);
        let hidden = numbers.len().saturating_sub(MOST_NUMBERS);
        numbers.truncate(MOST_NUMBERS);
        lines.extend(numbers);
        if hidden > 0 {
            lines.push(format!("     and {hidden} more numbers that are not zero"));
        }
    }
    lines
}

/// The numbers of a page, 8 bytes each, that are not zero.
fn numbers(pages: &PageList, page: u64) -> Vec<String> {
    (0..NUMBERS_OF_A_PAGE)
        .map(|place| page | (place * Size::Eight.bytes()))
        .filter_map(|address| Some((address, pages.read(address, Size::Eight)?)))
        .filter(|&(_, value)| value != 0)
        .map(|(address, value)| format!("     {address:#x} holds {value:#x}"))
        .collect()
}

/// One instruction.
fn step(step: &Step) -> Vec<String> {
    let length = match step.instruction.length {
        1 => "1 byte".to_string(),
        length => format!("{length} bytes"),
    };
    let mut lines = vec![format!("{}. {} ({length})", step.number, step.instruction)];
    if step.answer.is_completed() {
        lines.extend(moves(step));
        lines.extend(step.accesses.iter().map(|access| format!("   {access}")));
    } else {
        let State { ssp, ip, .. } = step.before;
        lines.push(format!("   SSP {ssp:#x} and IP {ip:#x} stay"));
        lines.push(format!("   {}", step.answer));
    }
    lines.extend(step.account.iter().map(|line| format!("   {line}")));
    lines
}

/// The registers before and after an instruction: SSP and IP, and those others
/// that changed.
fn moves(step: &Step) -> Vec<String> {
    let (before, after) = (&step.before, &step.after);
    let always = [("SSP", before.ssp, after.ssp), ("IP", before.ip, after.ip)];
    let others = [
        ("SP", before.sp, after.sp),
        ("RFLAGS", before.flags, after.flags),
    ];
    let changed = others.into_iter().filter(|(_, old, new)| old != new);
    always
        .into_iter()
        .chain(changed)
        .map(|(name, old, new)| format!("   {name} {}", change(old, new)))
        .collect()
}

/// A register before and after.
fn change(old: u64, new: u64) -> String {
    if old == new {
        format!("{old:#x} stays")
    } else {
        format!("{old:#x} -> {new:#x}")
    }
}

/// What does not fit together.
fn doubts(replay: &Replay) -> impl Iterator<Item = String> {
    let doubts = replay.doubts.iter();
    doubts.map(|doubt| format!("DOES NOT AGREE: {doubt}"))
}

/// How the run of a sheet ended: what does not fit together, the count, the
/// answer in numbers and in words, and the state as a line of a sheet.
fn result(run: &Run, replay: &Replay) -> Vec<String> {
    let Outcome { count, answer } = replay.outcome;
    let words = match answer {
        Answer::Completed => "every instruction completed".to_string(),
        _ => stop(&in_its_line(run, count + 1), &answer),
    };
    let mut lines: Vec<_> = doubts(replay).collect();
    lines.push(format!("count: {count} of {}", run.instructions.len()));
    lines.push(format!("answer: {}", numbers_of(&answer)));
    lines.push(format!("in words: {words}"));
    lines.extend(broken_form(replay));
    lines.push(state_line(&replay.state));
    lines
}

/// An instruction by its number and its line.
fn in_its_line(run: &Run, number: usize) -> String {
    match run.line(number) {
        Some(line) => format!("instruction {number} (line {line})"),
        None => format!("instruction {number}"),
    }
}

/// What the last instruction breaks, if it breaks its form.
fn broken_form(replay: &Replay) -> Vec<String> {
    let last = replay.steps.last();
    let broken = last.filter(|step| step.answer == Answer::Refused(Refusal::Form));
    let reason = broken.and_then(|step| form::reason(&step.instruction, step.before.mode));
    reason
        .map(|reason| reason.lines().into())
        .unwrap_or_default()
}

/// An answer in numbers: as a whole, and its parts.
fn numbers_of(answer: &Answer) -> String {
    let (refusal, vector, code, address) = match answer {
        Answer::Refused(refusal) => (refusal.number(), 0, 0, 0),
        Answer::Faulted(fault) => (0, fault.vector.number(), fault.error_code, fault.address),
        Answer::Completed | Answer::Unknown(_) => (0, 0, 0, 0),
    };
    format!(
        "{} (refusal {refusal}, vector {vector}, error code {code}, address {address:#x})",
        answer.number()
    )
}

/// The `state` line of a sheet, by the library's own writer.
fn state_line(state: &State) -> String {
    let sheet = Sheet {
        state: *state,
        ..Sheet::default()
    };
    match sheet.write() {
        Ok(text) => String::from_utf8_lossy(&text)
            .lines()
            .find(|line| line.starts_with("state\t"))
            .unwrap_or_default()
            .to_string(),
        Err(refusal) => format!("no state line: {refusal}"),
    }
}

/// Why the run stopped at an instruction, or before the first.
fn stop(instruction: &str, answer: &Answer) -> String {
    match answer {
        Answer::Completed => String::new(),
        Answer::Refused(Refusal::Form) => format!("{instruction} is sent back, {answer}"),
        Answer::Refused(_) => format!("the run is sent back before any step, {answer}"),
        Answer::Faulted(fault) => {
            format!("{instruction} faults, {fault} ({})", details(fault))
        }
        Answer::Unknown(_) => format!("{answer}: the library is of another version"),
    }
}

/// All of a fault, in words and numbers.
fn details(fault: &Fault) -> String {
    let Fault {
        vector,
        error_code,
        address,
    } = fault;
    let (name, number) = (vector.description(), vector.number());
    format!("{name}: vector {number}, error code {error_code}, address {address:#x}")
}

#[cfg(test)]
mod tests {
    use super::*;
    use crate::steps;
    use driftpocket::{Instruction, Kind};

    /// The text of a run.
    fn text(one: &Run) -> String {
        sheet(one, &steps::replay(one))
    }

    /// Its last four lines.
    fn last_lines(one: &Run) -> Vec<String> {
        let text = text(one);
        let lines: Vec<_> = text.lines().map(str::to_string).collect();
        lines[lines.len() - 4..].to_vec()
    }

    #[test]
    fn a_switch_in_full() {
        let wanted = "\
worked/p04
  mode 2 (64-bit), CPL 3, CR4.CET 1, U_CET 0x1, S_CET 0x0, code limit 0xffffffff
  starts with SSP 0x1ff0, IP 0x400000, SP 0x5010, RFLAGS 0x0 (CF 0)
  page 0x1000, user shadow
  page 0x2000, user shadow
       0x2ff0 holds 0x2ff9
  page 0x5000, ordinary

  1. RSTORSSP 0x2ff0 (5 bytes)
     SSP 0x1ff0 -> 0x2ff0
     IP 0x400000 -> 0x400005
     load 0x2ff9, 8 bytes, from shadow 0x2ff0
     store 0x1ff3, 8 bytes, to shadow 0x2ff0

count: 1 of 1
";
        assert!(text(&Run::stored("worked/p04")).starts_with(wanted));
    }

    #[test]
    fn ends_in_words() {
        let mut run = Run::stored("worked/p01");
        run.instructions
            .push(Instruction::from_words([13, 1, 0, 0]));
        assert!(text(&run).contains(
            "count: 1 of 2\nanswer: 6 (refusal 6, vector 0, error code 0, address 0x0)\n\
             in words: instruction 2 (line 7) is sent back, \
             refusal 6: the instruction breaks its form\n"
        ));
        run.state.mode = 3;
        assert!(text(&run).contains("mode 3 (none)"));
        assert!(text(&run).contains(
            "count: 0 of 2\nanswer: 5 (refusal 5, vector 0, error code 0, address 0x0)\n\
             in words: the run is sent back before any step, \
             refusal 5: a field of the state is out of its range\n"
        ));
    }

    #[test]
    fn the_end_of_a_sheet() {
        let completed = last_lines(&Run::stored("worked/p01"));
        assert_eq!(
            completed[..3],
            [
                "count: 1 of 1",
                "answer: 0 (refusal 0, vector 0, error code 0, address 0x0)",
                "in words: every instruction completed",
            ]
        );
        assert_eq!(
            completed[3],
            "state\tx0000000000000002\tx0000000000000003\tx0000000000000001\tx0000000000000001\
             \tx0000000000000000\tx0000000000400005\tx0000000000005010\tx0000000000001ff8\
             \tx0000000000000000\tx00000000ffffffff"
        );
        let faulted = last_lines(&Run::stored("worked/p02"));
        assert_eq!(
            faulted[..3],
            [
                "count: 0 of 1",
                "answer: 270 (refusal 0, vector 14, error code 0, address 0x3000)",
                "in words: instruction 1 (line 6) faults, #PF at 0x3000 \
                 (page fault: vector 14, error code 0, address 0x3000)",
            ]
        );
    }

    #[test]
    fn the_end_of_a_sheet_with_an_instruction_that_breaks_its_form() {
        let mut refused = Run::stored("worked/p01");
        refused.instructions[0].length = 16;
        assert_eq!(
            last_lines(&refused)[..3],
            [
                "in words: instruction 1 (line 6) is sent back, \
                 refusal 6: the instruction breaks its form",
                "  there: field 3 (length) 0x10",
                "  expected: 1 to 15",
            ]
        );
    }

    #[test]
    fn a_pointer_that_stays_is_said_to() {
        let write = text(&Run::stored("worked/p09-second"));
        assert!(write.contains("     SSP 0x1ff0 stays\n     IP 0x400000 -> 0x400006\n"));
    }

    #[test]
    fn an_account_follows_the_loads_and_stores() {
        let mut run = Run::stored("worked/p10");
        run.instructions.push(Instruction::ret(1));
        assert!(text(&run).contains(
            "  2. RET (1 byte)
     SSP 0x1fe8 -> 0x1ff0
     IP 0x400015 -> 0x400005
     SP 0x5008 -> 0x5010
     load 0x400005, 8 bytes, from ordinary 0x5008
     load 0x400005, 8 bytes, from shadow 0x1fe8
     compared: both return addresses are 0x400005
     popped: SP moves up by 8 bytes, SSP by 8
"
        ));
        run.instructions.push(Instruction::ret(1));
        run.pages.write(0x5010, Size::Four, 0x1234).unwrap();
        assert!(text(&run).contains(
            "  3. RET (1 byte)
     SSP 0x1ff0 and IP 0x400005 stay
     #CP(NEAR-RET), error code 1
     why: the return addresses differ, 0x1234 at ordinary 0x5010 and 0x0 at shadow 0x1ff0
"
        ));
    }

    #[test]
    fn a_full_page_is_cut_short() {
        let mut full = PageList::new();
        full.push_bytes(0x1000, Kind::Ordinary, &[1; 4096]).unwrap();
        let lines = pages(&full);
        assert_eq!(lines.len(), MOST_NUMBERS + 2);
        assert_eq!(lines[1], "     0x1000 holds 0x101010101010101");
        assert_eq!(
            lines.last().unwrap(),
            "     and 496 more numbers that are not zero"
        );
    }

    #[test]
    fn pages_that_are_none_are_shown_too() {
        let odd = PageList::from_parts(vec![0x1009, u64::MAX], vec![1; 3]);
        let lines = pages(&odd);
        let wanted = ["page 0x1000, kind 9", "page 0xfffffffffffff000, kind 4095"];
        assert_eq!(lines, wanted);
    }
}
