//! The cases of document 01's "Both sides of each edge", as document 02 (M-101, M-105, M-106) leaves them.

use partner::check::{check, Verdict};
use partner::decode::{decode, Refusal};
use partner::machine::{Machine, CODE_BASE, DATA_BASE};
use partner::run::{run, Outcome};

/// A machine at the code's start with flags 0002h and all registers 0.
const START: Machine = Machine { regs: [0; 8], eip: CODE_BASE, flags: 0x0002, singles: [0; 8] };

/// START with some registers, by number, and flags.
fn machine(registers: &[(usize, u32)], flags: u32) -> Machine {
    let mut machine = Machine { flags, ..START };
    for &(number, value) in registers {
        machine.regs[number] = value;
    }
    machine
}

/// One step without data.
fn one_step(code: &[u8], machine: Machine) -> Outcome {
    run(machine, code, &[], &mut [], 1)
}

#[test]
fn case_1_add_wraps_to_zero() {
    let outcome = one_step(&[0x04, 0x01], machine(&[(0, 0xFF)], 2));
    assert_eq!(outcome.machine, Machine { eip: CODE_BASE + 2, ..machine(&[(0, 0x00)], 0x0057) });
}

#[test]
fn case_2_add_overflows() {
    let outcome = one_step(&[0x04, 0x01], machine(&[(0, 0x7F)], 2));
    assert_eq!(outcome.machine, Machine { eip: CODE_BASE + 2, ..machine(&[(0, 0x80)], 0x0892) });
}

#[test]
fn case_3_dec_keeps_carry() {
    let outcome = one_step(&[0x48], machine(&[], 0x0003));
    assert_eq!(outcome.machine, Machine { eip: CODE_BASE + 1, ..machine(&[(0, 0xFFFF_FFFF)], 0x0097) });
}

#[test]
fn case_4_div_quotient_too_large() {
    let before = machine(&[(2, 1), (0, 0), (1, 1)], 2);
    let outcome = one_step(&[0xF7, 0xF1], before);
    assert_eq!((outcome.machine, outcome.steps, outcome.number, outcome.address), (before, 0, 7, CODE_BASE));
}

#[test]
fn case_5_idiv_of_the_least_dividend() {
    let before = machine(&[(2, 0x8000_0000), (0, 0), (1, 0xFFFF_FFFF)], 2);
    let outcome = one_step(&[0xF7, 0xF9], before);
    assert_eq!((outcome.machine, outcome.number), (before, 7));
}

#[test]
fn case_6_idiv_truncates_toward_zero() {
    let outcome = one_step(&[0xF7, 0xF9], machine(&[(2, 0xFFFF_FFFF), (0, 0xFFFF_FFF9), (1, 2)], 2));
    assert_eq!(outcome.machine.regs[0], 0xFFFF_FFFD);
    assert_eq!(outcome.machine.regs[2], 0xFFFF_FFFF);
}

#[test]
fn case_7_rol_by_one() {
    let outcome = one_step(&[0xD0, 0xC0], machine(&[(0, 0x80)], 2));
    assert_eq!(outcome.machine, Machine { eip: CODE_BASE + 2, ..machine(&[(0, 0x01)], 0x0803) });
}

#[test]
fn case_8_rotates_that_do_not_move_the_value() {
    // OF is undefined there, and so cleared (document 02, M-101).
    for (flags, after) in [(0x0002, 0x0002), (0x0003, 0x0003), (0x0802, 0x0002), (0x0803, 0x0003)] {
        let outcome = one_step(&[0xC0, 0xD0, 0x09], machine(&[(0, 0xA5)], flags));
        assert_eq!(outcome.machine, Machine { eip: CODE_BASE + 3, ..machine(&[(0, 0xA5)], after) });
    }
    let outcome = one_step(&[0xC0, 0xC0, 0x08], machine(&[(0, 0x01)], 2));
    assert_eq!(outcome.machine, Machine { eip: CODE_BASE + 3, ..machine(&[(0, 0x01)], 0x0003) });
}

#[test]
fn case_9_effective_address_wraps() {
    let outcome = one_step(&[0x8D, 0x04, 0x8D, 0x10, 0, 0, 0], machine(&[(1, 0xC000_0001)], 2));
    assert_eq!(outcome.machine.regs[0], 0x14);
}

/// The machine of cases 10 and 11.
fn copying() -> Machine {
    machine(&[(1, 25), (6, DATA_BASE), (7, DATA_BASE + 0x100)], 2)
}

#[test]
fn case_10_repeated_moves_stopped_and_resumed() {
    let mut data: Vec<u8> = (0..512).map(|place| place as u8).collect();
    let whole = data[..100].to_vec();
    let first = run(copying(), &[0xF3, 0xA5], &[], &mut data, 10);
    assert_eq!((first.number, first.machine.eip, first.machine.regs[1]), (0, CODE_BASE, 15));
    assert_eq!(first.machine.regs[6], 0x0010_0028);
    let second = run(first.machine, &[0xF3, 0xA5], &[], &mut data, 15);
    assert_eq!((second.number, second.machine.eip, second.machine.regs[1]), (0, CODE_BASE + 2, 0));
    assert_eq!(second.machine.regs[7], 0x0010_0164);
    assert_eq!(data[0x100..0x164], whole);
}

#[test]
fn case_11_repeated_moves_past_the_data() {
    let mut data = vec![1; 352];
    let outcome = run(copying(), &[0xF3, 0xA5], &[], &mut data, 100);
    assert_eq!((outcome.steps, outcome.number, outcome.address), (24, 6, 0x0010_0160));
    assert_eq!(outcome.machine.regs[1], 1);
}

#[test]
fn case_12_reads_at_the_data_s_end() {
    let mut data = [1, 2, 3, 4, 5, 6, 7, 8];
    let inside = run(machine(&[(6, 0x0010_0004)], 2), &[0x8B, 0x06], &[], &mut data, 1);
    assert_eq!((inside.number, inside.machine.regs[0]), (0, 0x0807_0605));
    let across = run(machine(&[(6, 0x0010_0005)], 2), &[0x8B, 0x06], &[], &mut data, 1);
    assert_eq!((across.number, across.address, across.steps), (5, 0x0010_0008, 0));
}

#[test]
fn case_13_cut_or_no_such_instruction() {
    for cut in [
        &[0x66][..],
        &[0x0F],
        &[0xF3],
        &[0xF2],
        &[0x66, 0x0F],
        &[0x66, 0xF3],
        &[0xF3, 0x66],
        &[0x66, 0xFF],
        &[0xF3, 0x0F],
    ] {
        assert_eq!(decode(cut), Err(Refusal::Cut), "{cut:02X?}");
        assert_eq!(one_step(cut, START).number, 3);
    }
    for none in [
        &[0x66, 0xE8][..],
        &[0x82],
        &[0xF3, 0x90],
        &[0x8D, 0xC0],
        &[0x66, 0x66],
        &[0xF2, 0x0F],
        &[0x66, 0xFF, 0x10],
        &[0xF2, 0xF3],
        &[0xF3, 0x66, 0xA4],
        &[0xF2, 0xA5],
        &[0xC0, 0x30],
        &[0xF6, 0x08],
        &[0x66, 0x0F, 0xB7],
    ] {
        assert_eq!(decode(none), Err(Refusal::NoSuch), "{none:02X?}");
        assert_eq!(one_step(none, START).number, 4);
    }
    for one in [&[0xF3, 0x66, 0xA5][..], &[0x66, 0xF3, 0xA5]] {
        assert_eq!(decode(one).map(|instruction| instruction.length), Ok(3));
    }
}

/// Checks code with a mark area of its length that begins with 7s.
fn checked(code: &[u8]) -> (Verdict, Vec<u8>) {
    let mut marks = vec![7; code.len()];
    (check(code, &mut marks), marks)
}

#[test]
fn case_14_block_checks() {
    assert_eq!(checked(&[0xEB, 0xFE]), (Verdict { number: 0, answer: 1 }, vec![1, 0]));
    assert_eq!(checked(&[0xEB, 0x00]), (Verdict { number: 23, answer: 0 }, vec![0, 0]));
    assert_eq!(checked(&[0xEB, 0xFF, 0x90]), (Verdict { number: 23, answer: 0 }, vec![0, 0, 0]));
    assert_eq!(checked(&[0xEB, 0xFF, 0xC0]), (Verdict { number: 21, answer: 2 }, vec![0, 0, 0]));
}

#[test]
fn listing_example_is_accepted() {
    assert_eq!(checked(&[0xEB, 0x01, 0x90, 0xC3]), (Verdict { number: 0, answer: 3 }, vec![1, 0, 1, 1]));
}
