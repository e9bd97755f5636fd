//! WRSS and WRUSS.

use super::*;

/// The four codes with their sizes.
const WRITES: [(u64, u64); 4] = [(WRSSD, 4), (WRSSQ, 8), (WRUSSD, 4), (WRUSSQ, 8)];

/// Code that may write to its own shadow stack and to that of user code: CPL 0,
/// all permitted.
fn kernel() -> Bench {
    Bench::of_each_kind().with(CPL, 0).with(S_CET, 3)
}

/// The page that a code reaches at CPL 0.
fn page(code: u64) -> u64 {
    if code < WRUSSD { 0x2000 } else { 0x1000 }
}

#[test]
fn writes_ask_for_permission_after_enabling() {
    for (cpl, user, supervisor) in [(3, 1, 3), (0, 3, 1), (1, 3, 1), (2, 3, 1)] {
        let bench = Bench::of_each_kind().with(CPL, cpl);
        let mut bench = bench.with(U_CET, user).with(S_CET, supervisor);
        for code in [WRSSD, WRSSQ] {
            assert_eq!(bench.fault(code, 1, 0), Fault::WritesNotPermitted);
        }
        let mut bench = bench.with(U_CET, supervisor).with(S_CET, user);
        let place = if cpl == 3 { 0x1000 } else { 0x2000 };
        bench.completes(WRSSQ, place, 7);
        assert_eq!(bench.word_at(place), 7);
    }
}

#[test]
fn the_low_bytes_are_written_at_multiples_of_the_size() {
    for (code, size) in WRITES {
        for low in 0..16 {
            let at = page(code) + 0xff0 + low;
            let mut bench = kernel();
            if low % size != 0 {
                assert_eq!(bench.fault(code, at, u64::MAX), Fault::Misaligned);
                continue;
            }
            bench.completes(code, at, u64::MAX);
            let written = bench.bytes.iter().filter(|&&byte| byte == 0xff).count();
            assert_eq!(written as u64, size);
            assert_eq!(bench.bytes[bench.place(at)], 0xff);
        }
    }
}

#[test]
fn writes_reach_one_kind_of_page() {
    for (code, size) in WRITES {
        let part = if code < WRUSSD {
            Part::Value
        } else {
            Part::UserValue
        };
        for at in [0x1000, 0x2000, 0x5000, 0x9000] {
            let mut bench = kernel();
            if at == page(code) {
                bench.completes(code, at, 1);
            } else {
                assert_eq!(bench.fault(code, at, 1), Fault::Page(part, at));
            }
        }
        let kind = if code < WRUSSD { 2 } else { 1 };
        let pages = BESIDE_HOLE.map(|page| page + kind);
        let bench = || Bench::on(&pages).with(CPL, 0).with(S_CET, 3);
        let in_hole = Fault::ShadowNotCanonical(part);
        assert_eq!(bench().fault(code, HOLE, 1), in_hole);
        assert_eq!(bench().fault(code, ABOVE_HOLE - size, 1), in_hole);
        assert_eq!(bench().fault(code, HOLE + 1, 1), Fault::Misaligned);
        bench().completes(code, HOLE - size, 1);
        bench().completes(code, ABOVE_HOLE, 1);
    }
}

#[test]
fn the_checks_of_a_write_for_user_code_come_in_their_order() {
    for mode in [1, 2] {
        for (user, supervisor) in [(0, 0), (1, 2), (3, 3)] {
            let mut bench = Bench::of_each_kind()
                .with(MODE, mode)
                .with(U_CET, user)
                .with(S_CET, supervisor)
                .with(CET, 0);
            assert_eq!(bench.fault(WRUSSD, 0x9001, 0), Fault::CetIsOff);
            for cpl in 1..4 {
                bench = bench.with(CET, 1).with(CPL, cpl);
                assert_eq!(bench.fault(WRUSSD, 0x9001, 0), Fault::LevelAboveZero);
            }
            bench = bench.with(CPL, 0);
            assert_eq!(bench.fault(WRUSSD, 0x9001, 0), Fault::Misaligned);
            let missing = Fault::Page(Part::UserValue, 0x9000);
            assert_eq!(bench.fault(WRUSSD, 0x9000, 0), missing);
            bench.completes(WRUSSD, 0x1ffc, 7);
        }
    }
}
