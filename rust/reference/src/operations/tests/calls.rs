//! CALL and RET.

use super::*;

/// A processor in a mode and at a level, SSP on a page of its kind.
fn at(mode: u64, cpl: u64) -> Bench {
    let ssp = if cpl == 3 { 0x1ff0 } else { 0x2ff0 };
    Bench::of_each_kind()
        .with(MODE, mode)
        .with(CPL, cpl)
        .with(SSP, ssp)
}

/// The modes that have calls, each with every level.
fn modes_and_levels() -> impl Iterator<Item = (u64, u64)> {
    (0..8).map(|number| (1 + number / 4, number % 4))
}

/// A processor whose stacks hold this return address.
fn returner(mode: u64, target: u64) -> Bench {
    at(mode, 3).word(0x5010, target).word(0x1ff0, target)
}

#[test]
fn displacements_have_a_sign() {
    for (displacement, narrow, wide) in [
        (1, 0x40_0006, 0x40_0006),
        (0x7fff_ffff, 0x8040_0004, 0x8040_0004),
        (0x8000_0000, 0x8040_0005, 0xffff_ffff_8040_0005),
        (0xffff_ffff, 0x40_0004, 0x40_0004),
        (0xffff_fffb, 0x40_0000, 0x40_0000),
    ] {
        for (mode, wanted) in [(1, narrow), (2, wide)] {
            let mut bench = at(mode, 3);
            bench.completes(CALL, displacement, 0);
            assert_eq!(bench.fields[IP], wanted);
            assert_eq!(bench.fields[SSP], 0x1ff0 - size(mode));
        }
    }
}

#[test]
fn next_may_start_again_at_0() {
    for (mode, ip) in [(1, 0xffff_fffe), (2, u64::MAX - 1)] {
        for (code, a, pushed) in [(CALL, 0, 0), (CALL_TO, 3, size(mode))] {
            let mut bench = at(mode, 3).with(IP, ip);
            bench.completes(code, a, 0);
            assert_eq!(bench.fields[IP], 3);
            assert_eq!(bench.fields[SSP], 0x1ff0 - pushed);
        }
    }
}

#[test]
fn targets_at_the_limit_and_beside_the_hole() {
    let above = Fault::TargetAboveLimit;
    let in_hole = Fault::TargetNotCanonical;
    for (mode, target, wanted) in [
        (1, 0x9000, None),
        (1, 0x9001, Some(above)),
        (1, 0xffff_ffff, Some(above)),
        (2, 0x9001, None),
        (2, HOLE - 1, None),
        (2, HOLE, Some(in_hole)),
        (2, ABOVE_HOLE - 1, Some(in_hole)),
        (2, ABOVE_HOLE, None),
    ] {
        for cet in [0, 1] {
            let bench = || returner(mode, target).with(LIMIT, 0x9000).with(CET, cet);
            for (code, a) in [(CALL_TO, target), (RET, 0)] {
                match wanted {
                    Some(fault) => assert_eq!(bench().fault(code, a, 0), fault),
                    None => assert_eq!(bench().completes(code, a, 0).fields[IP], target),
                }
            }
        }
    }
    // Next may lie in the hole if the target does not.
    let mut edge = at(2, 3).with(IP, HOLE - 5);
    assert_eq!(edge.fault(CALL, 0, 0), in_hole);
    edge.completes(CALL, 0xffff_ffff, 0);
    assert_eq!(edge.word_at(0x5008), HOLE);
}

#[test]
fn the_checks_of_a_call_come_in_their_order() {
    for (mode, target, outside, wanted) in [
        (1, 0x9001, 3, [Fault::TargetAboveLimit, Fault::PushPastEnd]),
        (
            2,
            HOLE,
            HOLE + 1,
            [Fault::TargetNotCanonical, Fault::PushNotCanonical],
        ),
    ] {
        let mut bench = at(mode, 3).with(LIMIT, 0x9000).with(IP, 0x8ffb);
        bench = bench.with(SP, outside).with(SSP, 0x9000);
        assert_eq!(bench.fault(CALL_TO, target, 0), wanted[0]);
        assert_eq!(bench.fault(CALL_TO, 0x9000, 0), wanted[1]);
        bench = bench.with(SP, 0x6000 + size(mode));
        let missing = Fault::Page(Part::OrdinaryPush, 0x6000);
        assert_eq!(bench.fault(CALL_TO, 0x9000, 0), missing);
        bench = bench.with(SP, 0x6000);
        let missing = Fault::Page(Part::ShadowPush, 0x9000 - size(mode));
        assert_eq!(bench.fault(CALL_TO, 0x9000, 0), missing);
        // Without a frame nothing is asked of the shadow stack.
        bench.completes(CALL, 0, 0);
    }
}

#[test]
fn the_checks_of_a_return_come_in_their_order() {
    for (mode, target, outside, wanted) in [
        (
            1,
            0x9001,
            0xffff_fffd,
            [Fault::PopPastEnd, Fault::TargetAboveLimit],
        ),
        (
            2,
            HOLE,
            HOLE - 7,
            [Fault::PopNotCanonical, Fault::TargetNotCanonical],
        ),
    ] {
        let mut bench = returner(mode, target).with(LIMIT, 0x9000);
        bench = bench.word(0x1ff0, target + 1).with(SSP, 0x9000);
        for (sp, wanted) in [
            (outside, wanted[0]),
            (0x6000, Fault::Page(Part::OrdinaryPop, 0x6000)),
            (0x5010, Fault::Page(Part::ShadowPop, 0x9000)),
        ] {
            bench = bench.with(SP, sp);
            assert_eq!(bench.fault(RET, 0, 0), wanted);
        }
        bench = bench.with(SSP, 0x1ff0);
        assert_eq!(bench.fault(RET, 0, 0), Fault::ReturnsDiffer);
        bench = bench.word(0x1ff0, target);
        assert_eq!(bench.fault(RET_COUNT, 8, 0), wanted[1]);
    }
}

#[test]
fn one_bit_makes_a_difference() {
    for bit in 0..64 {
        for mode in [1, 2] {
            let mut bench = returner(mode, 0x1234).word(0x1ff0, 0x1234 ^ 1 << bit);
            if bit < 8 * size(mode) {
                assert_eq!(bench.fault(RET, 0, 0), Fault::ReturnsDiffer);
            } else {
                assert_eq!(bench.completes(RET, 0, 0).fields[IP], 0x1234);
            }
        }
    }
}

#[test]
fn each_level_has_its_own_shadow_stack() {
    for (mode, cpl) in modes_and_levels() {
        let mut bench = at(mode, cpl);
        let before = bench.fields;
        bench.completes(CALL, 0x10, 0).completes(RET, 0, 0);
        assert_eq!(bench.fields[SP..], before[SP..]);
        let other = 0x4fe0 - before[SSP];
        let first = other - size(mode);
        bench = bench.with(SSP, other).word(0x5010, 0x1234);
        let push = bench.fault(CALL, 0x10, 0);
        assert_eq!(push, Fault::Page(Part::ShadowPush, first));
        let pop = bench.fault(RET, 0, 0);
        assert_eq!(pop, Fault::Page(Part::ShadowPop, other));
    }
}

#[test]
fn only_a_displacement_of_0_leaves_the_shadow_stack_alone() {
    for (mode, cpl) in modes_and_levels() {
        let own = at(mode, cpl).fields[SSP];
        for ssp in [own, 0x4fe0 - own, 0x5ff0, 0x9000, 0, 4] {
            let mut bench = at(mode, cpl).with(SSP, ssp);
            bench.completes(CALL, 0, 0);
            assert_eq!(bench.fields[SP..=SSP], [0x5010 - size(mode), ssp]);
            let mut absolute = at(mode, cpl).with(SSP, ssp);
            let outcome = absolute.step(CALL_TO, 0x40_0005, 0);
            assert_eq!(matches!(outcome, Outcome::Completed(_)), ssp == own);
        }
        let mut bench = at(mode, cpl);
        bench.completes(CALL, 0, 0);
        assert_eq!(bench.fault(RET, 0, 0), Fault::ReturnsDiffer);
    }
    for ssp in [HOLE + 4, HOLE + 8, ABOVE_HOLE, ABOVE_HOLE + 4, 1 << 63] {
        at(2, 0).with(SSP, ssp).completes(CALL, 0, 0);
        let fault = at(2, 0).with(SSP, ssp).fault(CALL, 1, 0);
        assert_eq!(fault, Fault::ShadowNotCanonical(Part::ShadowPush));
    }
}

#[test]
fn without_shadow_stacks_only_the_ordinary_one_counts() {
    for (mode, cpl) in modes_and_levels() {
        for (cet, user, supervisor) in [(0, 3, 3), (1, 2, 2)] {
            let bench = at(mode, cpl).with(CET, cet).with(U_CET, user);
            let mut bench = bench.with(S_CET, supervisor).with(SSP, 0x9000);
            bench.completes(CALL_TO, 0x1234, 0).completes(RET, 0, 0);
            assert_eq!(bench.fields[IP..=SSP], [0x40_0005, 0x5010, 0x9000]);
        }
    }
}

#[test]
fn the_ordinary_stack_at_the_ends_of_memory() {
    let pages = [3, NARROW_TOP + 3, TOP + 3];
    for near in 0..8 {
        // Four bytes may not run past 2^32.
        let narrow = |sp| Bench::on(&pages).with(MODE, 1).with(CET, 0).with(SP, sp);
        let pushed = narrow(near).step(CALL_TO, 0x1234, 0);
        let past = pushed == Outcome::Faulted(Fault::PushPastEnd);
        assert_eq!(past, (1..4).contains(&near));
        let popped = narrow(0xffff_fff8 + near).step(RET, 0, 0);
        let past = popped == Outcome::Faulted(Fault::PopPastEnd);
        assert_eq!(past, near > 4);
        // Eight bytes may lie at both ends.
        let mut wide = Bench::on(&pages).with(CET, 0).with(SP, near);
        wide.completes(CALL_TO, 0x1234, 0);
        assert_eq!(wide.fields[SP], near.wrapping_sub(8));
        assert_eq!(wide.word_at(near.wrapping_sub(8)), 0x40_0005);
        wide.completes(RET, 0, 0);
        assert_eq!((wide.fields[IP], wide.fields[SP]), (0x40_0005, near));
    }
    // What the count drops is not looked at, and may lie past the end.
    for (mode, sp) in [(1, 0xffff_fff8), (2, u64::MAX - 11)] {
        for (count, wanted) in [(4, 0), (5, 1), (0xffff, 0xfffb)] {
            let bench = Bench::on(&pages).with(MODE, mode).with(CET, 0);
            let mut bench = bench.with(SP, sp);
            assert_eq!(bench.completes(RET_COUNT, count, 0).fields[SP], wanted);
        }
    }
}

#[test]
fn the_ordinary_stack_beside_the_hole() {
    let bench = |sp| {
        let pages = BESIDE_HOLE.map(|page| page + 3);
        Bench::on(&pages).with(CET, 0).with(SP, sp)
    };
    for (first, good) in [
        (HOLE - 8, true),
        (HOLE - 7, false),
        (HOLE, false),
        (ABOVE_HOLE - 8, false),
        (ABOVE_HOLE - 1, false),
        (ABOVE_HOLE, true),
    ] {
        let push = bench(first + 8).step(CALL_TO, 0x1234, 0);
        let outside = push == Outcome::Faulted(Fault::PushNotCanonical);
        assert_eq!(outside, !good, "{first:x}");
        let pop = bench(first).step(RET, 0, 0);
        let outside = pop == Outcome::Faulted(Fault::PopNotCanonical);
        assert_eq!(outside, !good, "{first:x}");
    }
    // The count may lead into the hole.
    let mut bench = bench(HOLE - 8);
    assert_eq!(bench.completes(RET_COUNT, 9, 0).fields[SP], HOLE + 9);
}

#[test]
fn the_shadow_stack_at_the_ends_of_memory() {
    for (ssp, pushed, popped) in [
        (0xffc, 0xff4, 0xffc),
        (0x3004, 0x3000, 0x3004),
        (u64::MAX - 3, u64::MAX - 11, u64::MAX - 3),
    ] {
        let mut bench = Bench::worked().with(SSP, ssp);
        let push = bench.fault(CALL_TO, 0x1234, 0);
        assert_eq!(push, Fault::Page(Part::ShadowPush, pushed));
        let pop = bench.fault(RET, 0, 0);
        assert_eq!(pop, Fault::Page(Part::ShadowPop, popped));
    }
    for ssp in [HOLE - 4, HOLE, ABOVE_HOLE - 4] {
        let pop = Bench::worked().with(SSP, ssp).fault(RET, 0, 0);
        assert_eq!(pop, Fault::ShadowNotCanonical(Part::ShadowPop));
    }
    // There and back over the end.
    let pages = [1, NARROW_TOP + 1, TOP + 1, 0x5003];
    for (mode, ssp, below) in [
        (1, 0, 0xffff_fffc),
        (2, 0, u64::MAX - 7),
        (2, 4, u64::MAX - 3),
    ] {
        let mut bench = Bench::on(&pages).with(MODE, mode).with(SSP, ssp);
        assert_eq!(bench.completes(CALL_TO, 0x1234, 0).fields[SSP], below);
        assert_eq!(bench.completes(RET, 0, 0).fields[SSP], ssp);
    }
}
