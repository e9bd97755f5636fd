//! INCSSP, RSTORSSP and SAVEPREVSSP.

use super::*;

#[test]
fn increments_of_both_sizes() {
    for (code, size) in [(INCSSPD, 4), (INCSSPQ, 8)] {
        for range in [0, 1, 2, 255] {
            // The last element ends with the pages.
            let ssp = 0x3000 - size * u64::max(range, 1);
            for count in [range, range + 0x100, range + 0xffff_ff00] {
                let mut bench = Bench::worked().with(SSP, ssp);
                bench.completes(code, 0, count);
                assert_eq!(bench.fields[SSP], ssp + size * range);
            }
            let mut one_up = Bench::worked().with(SSP, ssp + size);
            let part = if range < 2 {
                Part::FirstElement
            } else {
                Part::LastElement
            };
            assert_eq!(one_up.fault(code, 0, range), Fault::Page(part, 0x3000));
        }
    }
}

#[test]
fn increments_that_start_again_at_0() {
    let narrow = |pages: &[u64]| Bench::on(pages).with(MODE, 1).with(SSP, 0xffff_fffc);
    let missing = Fault::Page(Part::LastElement, 0);
    assert_eq!(narrow(&[NARROW_TOP + 1]).fault(INCSSPD, 0, 2), missing);
    let mut bench = narrow(&[NARROW_TOP + 1, 1]);
    assert_eq!(bench.completes(INCSSPD, 0, 3).fields[SSP], 8);
    let wide = |pages: &[u64]| Bench::on(pages).with(SSP, u64::MAX - 3);
    let missing = Fault::Page(Part::FirstElement, 0);
    assert_eq!(wide(&[TOP + 1]).fault(INCSSPQ, 0, 0), missing);
    let mut bench = wide(&[TOP + 1, 1]);
    assert_eq!(bench.completes(INCSSPQ, 0, 2).fields[SSP], 12);
}

#[test]
fn increments_beside_the_hole() {
    let bench = |ssp| Bench::on(&BESIDE_HOLE.map(|page| page + 1)).with(SSP, ssp);
    for (code, ssp, range, part) in [
        (INCSSPQ, HOLE - 8, 2, Part::LastElement),
        (INCSSPD, HOLE, 0, Part::FirstElement),
        (INCSSPQ, HOLE - 4, 0, Part::FirstElement),
        (INCSSPD, ABOVE_HOLE - 4, 0, Part::FirstElement),
        (INCSSPQ, ABOVE_HOLE - 4, 0, Part::FirstElement),
    ] {
        let fault = Fault::ShadowNotCanonical(part);
        assert_eq!(bench(ssp).fault(code, 0, range), fault, "{ssp:x}");
    }
    assert_eq!(bench(HOLE - 8).completes(INCSSPQ, 0, 1).fields[SSP], HOLE);
    bench(ABOVE_HOLE).completes(INCSSPQ, 0, 1);
}

#[test]
fn only_two_tokens_are_good() {
    for (mode, mark) in [(1, 0), (2, 1)] {
        for token in 0x2fe0..0x3020 {
            let mut bench = Bench::worked().with(MODE, mode).word(0x2ff0, token);
            let good = token == 0x2ff8 + mark || token == 0x2ffc + mark;
            if !good {
                let fault = bench.fault(RSTORSSP, 0x2ff0, 0);
                let by_mark = token % 4 != mark;
                assert_eq!(fault == Fault::RestoreMark, by_mark, "{token:x}");
                assert_eq!(fault == Fault::RestorePlace, !by_mark, "{token:x}");
                continue;
            }
            bench.completes(RSTORSSP, 0x2ff0, 0);
            assert_eq!(bench.fields[SSP], 0x2ff0);
            assert_eq!(bench.fields[FLAGS], u64::from(token > 0x2ffa));
            assert_eq!(bench.word_at(0x2ff0), 0x1ff2 + mark);
        }
    }
}

#[test]
fn tokens_of_more_than_32_bits() {
    for high in [1_u64 << 32, 1 << 63] {
        let bench = |mode, token| Bench::worked().with(MODE, mode).word(0x2ff0, high + token);
        let wide = bench(2, 0x2ff9).fault(RSTORSSP, 0x2ff0, 0);
        assert_eq!(wide, Fault::RestorePlace);
        let narrow = bench(1, 0x2ff8).fault(RSTORSSP, 0x2ff0, 0);
        assert_eq!(narrow, Fault::RestoreHigh);
    }
}

#[test]
fn tokens_at_the_upper_ends() {
    let top = u64::MAX - 7;
    for (token, carry) in [(1, 0), (5, 1)] {
        let mut bench = Bench::on(&[TOP + 1]).word(top, token);
        bench.completes(RSTORSSP, top, 0);
        assert_eq!((bench.fields[SSP], bench.fields[FLAGS]), (top, carry));
    }
    // The last place of the low 4 GiB is good for no token of 32 bits.
    let narrow = || Bench::on(&[NARROW_TOP + 1]).with(MODE, 1);
    for (token, wanted) in [
        (0, Fault::RestorePlace),
        (4, Fault::RestorePlace),
        (0x1_0000_0000, Fault::RestoreHigh),
        (0x1_0000_0004, Fault::RestoreHigh),
    ] {
        let mut bench = narrow().word(0xffff_fff8, token);
        assert_eq!(bench.fault(RSTORSSP, 0xffff_fff8, 0), wanted);
    }
    // Previous pointers at the very top.
    let mut bench = narrow().with(SSP, 0xffff_fffc);
    bench = bench.word(0xffff_fff0, 0xffff_fffc);
    bench.completes(RSTORSSP, 0xffff_fff0, 0);
    assert_eq!(bench.word_at(0xffff_fff0), 0xffff_fffe);
    let mut bench = Bench::on(&[0x1001]).with(SSP, u64::MAX - 3);
    bench = bench.word(0x1000, 0x1009);
    bench.completes(RSTORSSP, 0x1000, 0);
    assert_eq!(bench.word_at(0x1000), u64::MAX);
}

#[test]
fn where_a_token_can_not_be_loaded() {
    for (at, wanted) in [
        (0x3000, Fault::Page(Part::Token, 0x3000)),
        (0x5000, Fault::Page(Part::Token, 0x5000)),
        (HOLE, Fault::ShadowNotCanonical(Part::Token)),
        (HOLE - 8, Fault::Page(Part::Token, HOLE - 8)),
        (HOLE + 1, Fault::Misaligned),
    ] {
        assert_eq!(Bench::worked().fault(RSTORSSP, at, 0), wanted);
    }
}

/// A processor whose SSP is at a token.
fn saver(mode: u64, flags: u64, token: u64) -> Bench {
    Bench::worked()
        .with(MODE, mode)
        .with(FLAGS, flags)
        .with(SSP, 0x2fe0)
        .word(0x2fe0, token)
}

#[test]
fn the_checks_of_saving_come_in_their_order() {
    // Everything is wrong; from step to step one thing less is.
    let bad = 0x1_0000_0ffc;
    let mut bench = saver(1, 1, bad).word(0x2fe8, 0x8000_0000);
    for (ssp, wanted) in [
        (0x3004, Fault::Misaligned),
        (0x3000, Fault::Page(Part::Token, 0x3000)),
        (0x2ff8, Fault::Page(Part::Gap, 0x3000)),
        (0x2fe0, Fault::GapNotZero),
    ] {
        bench = bench.with(SSP, ssp);
        assert_eq!(bench.fault(SAVEPREVSSP, 0, 0), wanted);
    }
    bench = bench.word(0x2fe8, 0);
    for (token, wanted) in [
        (bad, Fault::PreviousMark),
        (bad + 2, Fault::PreviousHigh),
        (0x0ffe, Fault::Page(Part::Zeros, 0xff8)),
        (0x1006, Fault::Page(Part::NewToken, 0xff8)),
    ] {
        bench = bench.word(0x2fe0, token);
        assert_eq!(bench.fault(SAVEPREVSSP, 0, 0), wanted);
    }
    bench = bench.word(0x2fe0, 0x100a);
    assert_eq!(bench.completes(SAVEPREVSSP, 0, 0).fields[SSP], 0x2fec);
    assert_eq!(bench.word_at(0x1000), 0x1008);
}

#[test]
fn neither_other_flags_nor_the_mark_of_the_mode_are_asked_for() {
    let mut bench = saver(1, !1, 0x1ff3).word(0x2fe8, u64::MAX);
    bench.completes(SAVEPREVSSP, 0, 0);
    assert_eq!((bench.fields[SSP], bench.fields[FLAGS]), (0x2fe8, !1));
    assert_eq!(bench.word_at(0x1fe8), 0x1ff0);
    let mut bench = saver(2, 0, 0x1ff2);
    bench.completes(SAVEPREVSSP, 0, 0);
    assert_eq!(bench.word_at(0x1fe8), 0x1ff1);
    // The mark of the mode does not stand in for bit 1.
    let mut bench = saver(2, 0, 0x1ff1);
    assert_eq!(bench.fault(SAVEPREVSSP, 0, 0), Fault::PreviousMark);
}

#[test]
fn saving_below_0() {
    let pages = [0x2001, NARROW_TOP + 1, TOP + 1];
    for (mode, place) in [(1, 0xffff_fff8), (2, u64::MAX - 7)] {
        let mark = mode - 1;
        let save = |token| {
            let bench = Bench::on(&pages).with(MODE, mode).with(SSP, 0x2000);
            bench.word(0x2000, token + mark)
        };
        let mut bench = save(2);
        bench.completes(SAVEPREVSSP, 0, 0);
        assert_eq!(bench.word_at(place), mark);
        // With a gap the four zeros go on page 0, which is not there.
        let missing = Fault::Page(Part::Zeros, 0);
        assert_eq!(save(6).fault(SAVEPREVSSP, 0, 0), missing);
    }
}

#[test]
fn saving_beside_the_hole() {
    let pages = [0x2001, BESIDE_HOLE[0] + 1, BESIDE_HOLE[1] + 1];
    let save = |old: u64| Bench::on(&pages).with(SSP, 0x2000).word(0x2000, old + 3);
    for (old, part) in [
        (ABOVE_HOLE, Part::Zeros),
        (ABOVE_HOLE + 4, Part::NewToken),
        (HOLE + 4, Part::Zeros),
    ] {
        let fault = Fault::ShadowNotCanonical(part);
        assert_eq!(save(old).fault(SAVEPREVSSP, 0, 0), fault);
    }
    save(ABOVE_HOLE + 8).completes(SAVEPREVSSP, 0, 0);
    save(HOLE).completes(SAVEPREVSSP, 0, 0);
}
