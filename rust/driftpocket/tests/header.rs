//! The numbers of the C header are those of this crate.

mod common;

use driftpocket::sheet::{MOST_TEXT, READ_REPORT_WORDS, WRITE_REPORT_WORDS};
use driftpocket::{
    INSTRUCTION_WORDS, Instruction, Kind, MOST_INSTRUCTIONS, MOST_PAGES, PAGE_BYTES, REPORT_WORDS,
    Refusal, STATE_WORDS, Sheet, Size, State, Vector, run_raw, sheet_read_raw, sheet_write_raw,
};
use std::collections::BTreeMap;

/// The header.
const HEADER: &str = include_str!("../../../include/driftpocket.h");

/// The numbers that the header defines, by their names without the prefix.
fn numbers() -> BTreeMap<&'static str, u64> {
    HEADER
        .lines()
        .filter_map(|line| line.strip_prefix("#define DRIFTPOCKET_"))
        .filter_map(|line| {
            let mut parts = line.split_whitespace();
            Some((parts.next()?, parts.next()?.parse().ok()?))
        })
        .collect()
}

/// Holds some of the header's numbers to these.
fn expect(wanted: &[(&str, u64)]) {
    let numbers = numbers();
    for (name, number) in wanted {
        assert_eq!(numbers.get(name), Some(number), "{name}");
    }
}

#[test]
fn sizes_and_limits() {
    expect(&[
        ("STATE_WORDS", STATE_WORDS as u64),
        ("REPORT_WORDS", REPORT_WORDS as u64),
        ("READ_REPORT_WORDS", READ_REPORT_WORDS as u64),
        ("WRITE_REPORT_WORDS", WRITE_REPORT_WORDS as u64),
        ("INSTRUCTION_WORDS", INSTRUCTION_WORDS as u64),
        ("PAGE_BYTES", PAGE_BYTES as u64),
        ("MOST_PAGES", MOST_PAGES as u64),
        ("MOST_INSTRUCTIONS", MOST_INSTRUCTIONS as u64),
        ("MOST_TEXT", MOST_TEXT as u64),
    ]);
}

#[test]
fn kinds_codes_and_bits() {
    let code = |instruction: Instruction| instruction.code;
    expect(&[
        ("USER_SHADOW", Kind::UserShadow.number()),
        ("SUPERVISOR_SHADOW", Kind::SupervisorShadow.number()),
        ("ORDINARY", Kind::Ordinary.number()),
        ("INCSSPD", code(Instruction::incsspd(1, 0))),
        ("INCSSPQ", code(Instruction::incsspq(1, 0))),
        ("RSTORSSP", code(Instruction::rstorssp(1, 0))),
        ("SAVEPREVSSP", code(Instruction::saveprevssp(1))),
        ("WRSSD", code(Instruction::wrssd(1, 0, 0))),
        ("WRSSQ", code(Instruction::wrssq(1, 0, 0))),
        ("CALL_RELATIVE", code(Instruction::call_relative(1, 0))),
        ("CALL_ABSOLUTE", code(Instruction::call_absolute(1, 0))),
        ("RET", code(Instruction::ret(1))),
        ("RET_COUNT", code(Instruction::ret_count(1, 0))),
        ("WRUSSD", code(Instruction::wrussd(1, 0, 0))),
        ("WRUSSQ", code(Instruction::wrussq(1, 0, 0))),
        ("SH_STK_EN", 1),
        ("WR_SHSTK_EN", 2),
        ("MODE_REAL", 0),
        ("MODE_PROTECTED", 1),
        ("MODE_LONG", 2),
    ]);
}

#[test]
fn fields_of_the_state() {
    let names = [
        "MODE", "CPL", "CET", "U_CET", "S_CET", "IP", "SP", "SSP", "RFLAGS", "LIMIT",
    ];
    let places: Vec<_> = names.into_iter().zip(0..).collect();
    expect(&places);
    let state = State {
        ssp: 7,
        ..State::default()
    };
    assert_eq!(state.to_words()[numbers()["SSP"] as usize], 7);
}

#[test]
fn refusals_and_vectors() {
    expect(&[
        ("COMPLETED", 0),
        ("REFUSED_PAGES", Refusal::PageCount.number()),
        ("REFUSED_KIND", Refusal::PageKind.number()),
        ("REFUSED_ADDRESS", Refusal::PageAddress.number()),
        ("REFUSED_REPEATED", Refusal::PageRepeated.number()),
        ("REFUSED_STATE", Refusal::State.number()),
        ("REFUSED_FORM", Refusal::Form.number()),
        ("REFUSED_WORDS", Refusal::Words.number()),
        ("REFUSED_ROOM", Refusal::Room.number()),
        ("REFUSED_SHEET", Refusal::Sheet.number()),
        ("FAULT", 256),
        ("UD", Vector::InvalidOpcode.number()),
        ("SS", Vector::Stack.number()),
        ("GP", Vector::Protection.number()),
        ("PF", Vector::Page.number()),
        ("CP", Vector::ControlProtection.number()),
        ("CP_NEAR_RET", 1),
        ("CP_RSTORSSP", 4),
    ]);
}

/// The answer to one instruction of user code, and the report.
fn answer(instruction: Instruction, sp: u64, ssp: u64) -> (u64, [u64; REPORT_WORDS]) {
    let mut list = common::pages(&[(0x1000, Kind::UserShadow), (0x5000, Kind::Ordinary)]);
    list.write(0x1ff0, Size::Eight, 0x40_0005).unwrap();
    let state = State {
        sp,
        ..common::user(ssp)
    };
    let mut report = [9; REPORT_WORDS];
    let answer = run_raw(
        &mut state.to_words(),
        list.entries(),
        &mut list.bytes().to_vec(),
        &instruction.to_words(),
        &mut report,
    );
    (answer, report)
}

#[test]
fn error_codes() {
    let numbers = numbers();
    let wanted = |code| {
        let vector = numbers["CP"];
        (numbers["FAULT"] + vector, [0, 0, vector, numbers[code], 0])
    };
    let ret = answer(Instruction::ret(1), 0x5008, 0x1ff0);
    assert_eq!(ret, wanted("CP_NEAR_RET"));
    let switch = answer(Instruction::rstorssp(5, 0x1ff0), 0x5008, 0x1ff0);
    assert_eq!(switch, wanted("CP_RSTORSSP"));
}

#[test]
fn codes_are_named_without_a_gap() {
    let named = HEADER.split("---- The instructions: `words` ----").nth(1);
    let named = named.unwrap().split("---- What is refused ----").next();
    let lines = named.unwrap().lines();
    let codes = lines
        .filter(|line| line.starts_with("#define "))
        .filter_map(|line| line.split_whitespace().nth(2)?.parse().ok());
    assert_eq!(codes.collect::<Vec<u64>>(), (1..=12).collect::<Vec<_>>());
    let refused = |code| answer(Instruction::from_words([code, 1, 0, 0]), 0x5008, 0x1ff0).0;
    let form = numbers()["REFUSED_FORM"];
    assert!((1..=12).all(|code| refused(code) != form));
    assert_eq!([refused(0), refused(13)], [form; 2]);
}

#[test]
fn places_in_the_report() {
    let mut state = common::user(0x3000).to_words();
    let words = Instruction::incsspq(5, 0).to_words();
    let list = common::pages(&[(0x2000, Kind::UserShadow)]);
    let mut bytes = list.bytes().to_vec();
    let mut report = [9; REPORT_WORDS];
    let answer = run_raw(&mut state, list.entries(), &mut bytes, &words, &mut report);
    let numbers = numbers();
    let of_report = |name: &str| report[numbers[name] as usize];
    assert_eq!(answer, numbers["FAULT"] + numbers["PF"]);
    assert_eq!(of_report("REPORT_COUNT"), 0);
    assert_eq!(of_report("REPORT_REFUSAL"), 0);
    assert_eq!(of_report("REPORT_VECTOR"), numbers["PF"]);
    assert_eq!(of_report("REPORT_CODE"), 0);
    assert_eq!(of_report("REPORT_ADDRESS"), 0x3000);
}

#[test]
fn places_in_the_report_of_a_read() {
    let numbers = numbers();
    let read = |text: &[u8]| {
        let mut report = [9; READ_REPORT_WORDS];
        let answer = sheet_read_raw(text, &mut [], &mut [], &mut [], &mut [], &mut report);
        let names = ["REFUSAL", "LINE", "PAGES", "BYTES", "WORDS"];
        let places = names.map(|name| numbers[format!("READ_{name}").as_str()] as usize);
        (answer, places.map(|place| report[place]))
    };
    let sheet = Sheet {
        state: common::user(0x1ff0),
        pages: common::pages(&[(0x1000, Kind::UserShadow), (0x2000, Kind::Ordinary)]),
        instructions: vec![Instruction::incsspq(5, 0)],
    };
    let text = sheet.write().unwrap();
    let room = numbers["REFUSED_ROOM"];
    assert_eq!(read(&text), (room, [room, 0, 2, 8192, 4]));
    let none = numbers["REFUSED_SHEET"];
    assert_eq!(read(b"sheet\n"), (none, [none, 1, 0, 0, 0]));
}

#[test]
fn places_in_the_report_of_a_write() {
    let numbers = numbers();
    let mut report = [9; WRITE_REPORT_WORDS];
    let state = common::user(0x3000).to_words();
    let answer = sheet_write_raw(&state, &[], &[], &[], &mut [], &mut report);
    assert_eq!(answer, numbers["REFUSED_ROOM"]);
    assert_eq!(report[numbers["WRITE_REFUSAL"] as usize], answer);
    assert_eq!(report[numbers["WRITE_LENGTH"] as usize], 24 + 186);
}
