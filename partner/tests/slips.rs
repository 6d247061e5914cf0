//! A program that slips in a bit test, scan, double shift or conditional move, in undefined flags or in parity, is found out.

mod carry_out;
mod common;

use carry_out::{program, CarryOut};
use partner::compare::compare;
use partner::decode::{BitTest, DoubleShift, Instruction, Operand, Operation, Scan, Shift};
use partner::machine::{Machine, Width, ECX, PF, STATUS};
use partner::step::{condition, execute, Step};

/// Puts another operation into the instruction's place.
type Slip = fn(&Machine, Width, Operation) -> Operation;

/// Gives a finished step's flags another value.
type FlagSlip = fn(&Machine, &Instruction, &Step) -> u32;

/// Defined and policy disagreements with a program that carries out instructions so, in 6,000 cases.
fn disagreements(carry_out: &CarryOut) -> (u64, u64) {
    let program = program(carry_out);
    let comparison = compare(&program, 3, 6_000, 0);
    (comparison.defined, comparison.policy)
}

/// The slip is found at least five times.
fn is_found(slip: Slip) {
    let (found, _) = disagreements(&move |machine, instruction, constants, data| {
        let operation = slip(machine, instruction.width, instruction.operation);
        execute(machine, &Instruction { operation, ..*instruction }, constants, data)
    });
    assert!(found >= 5, "{found}");
}

/// Defined and policy disagreements with a program that slips in flags.
fn flag_disagreements(slip: FlagSlip) -> (u64, u64) {
    disagreements(&move |machine, instruction, constants, data| {
        let mut step = execute(machine, instruction, constants, data)?;
        step.machine.flags = slip(machine, instruction, &step);
        Ok(step)
    })
}

/// A finished step's flags, the undefined ones as they were before.
fn kept(machine: &Machine, step: &Step) -> u32 {
    step.machine.flags | machine.flags & step.flags.undefined
}

/// A bit test of memory, its unit so many bytes further on.
fn moved(kind: BitTest, base: Operand, offset: Operand, by: u32) -> Operation {
    match base {
        Operand::Memory(address) => Operation::BitTest(kind, Operand::Memory(address.moved(by)), offset),
        _ => Operation::BitTest(kind, base, offset),
    }
}

/// The masked count of a shift, rotate or double shift.
fn masked(machine: &Machine, count: Operand) -> u32 {
    match count {
        Operand::Immediate(value) => value % 32,
        _ => machine.register(ECX, Width::Byte) % 32,
    }
}

#[test]
fn no_slip_agrees() {
    assert_eq!(disagreements(&execute), (0, 0));
}

#[test]
fn a_conditional_move_that_does_not_read_is_found() {
    is_found(|machine, _, operation| match operation {
        Operation::Cmov(number, to, _) if !condition(machine, number) => {
            Operation::Cmov(number, to, Operand::Register(to))
        }
        _ => operation,
    });
}

#[test]
fn an_unsigned_bit_offset_is_found() {
    is_found(|machine, width, operation| match operation {
        Operation::BitTest(kind, base, Operand::Register(register))
            if machine.register(register, width) & width.sign() != 0 =>
        {
            let whole = if width == Width::Word { 0x2000 } else { 0x2000_0000 };
            moved(kind, base, Operand::Register(register), whole)
        }
        _ => operation,
    });
}

#[test]
fn a_bit_offset_divided_toward_zero_is_found() {
    is_found(|machine, width, operation| match operation {
        Operation::BitTest(kind, base, Operand::Register(register)) => {
            let offset = width.signed(machine.register(register, width));
            let inexact = offset < 0 && offset % i64::from(width.bits()) != 0;
            moved(kind, base, Operand::Register(register), if inexact { width.bytes() } else { 0 })
        }
        _ => operation,
    });
}

#[test]
fn an_immediate_offset_that_leaves_the_unit_is_found() {
    is_found(|_, width, operation| match operation {
        Operation::BitTest(kind, base, Operand::Immediate(offset)) => {
            moved(kind, base, Operand::Immediate(offset), offset / width.bits() * width.bytes())
        }
        _ => operation,
    });
}

#[test]
fn a_reverse_scan_from_the_wrong_end_is_found() {
    is_found(|_, _, operation| match operation {
        Operation::Scan(_, to, from) => Operation::Scan(Scan::Bsf, to, from),
        _ => operation,
    });
}

#[test]
fn a_double_shift_filled_with_zeros_is_found() {
    is_found(|_, _, operation| match operation {
        Operation::DoubleShift(DoubleShift::Shrd, to, _, count) => Operation::Shift(Shift::Shr, to, count),
        _ => operation,
    });
}

#[test]
fn a_double_shift_over_the_width_by_the_rest_is_found() {
    is_found(|machine, width, operation| match operation {
        Operation::DoubleShift(kind, to, filler, count) if masked(machine, count) > width.bits() => {
            Operation::DoubleShift(kind, to, filler, Operand::Immediate(masked(machine, count) - width.bits()))
        }
        _ => operation,
    });
}

#[test]
fn a_double_shift_by_the_width_that_does_nothing_is_found() {
    is_found(|machine, width, operation| match operation {
        Operation::DoubleShift(kind, to, filler, count) if masked(machine, count) == width.bits() => {
            Operation::DoubleShift(kind, to, filler, Operand::Immediate(0))
        }
        _ => operation,
    });
}

#[test]
fn undefined_flags_that_are_kept_are_found_as_policy() {
    let (_, found) = flag_disagreements(|machine, _, step| kept(machine, step));
    assert!(found >= 500, "{found}");
}

#[test]
fn flags_kept_by_a_double_shift_over_the_width_are_found_as_policy() {
    let (_, found) = flag_disagreements(|machine, instruction, step| match instruction.operation {
        Operation::DoubleShift(.., count) if masked(machine, count) > instruction.width.bits() => kept(machine, step),
        _ => step.machine.flags,
    });
    assert!(found >= 5, "{found}");
}

#[test]
fn flags_cleared_by_a_count_of_0_are_found() {
    let (found, _) = flag_disagreements(|machine, instruction, step| match instruction.operation {
        Operation::Shift(_, _, count) | Operation::DoubleShift(.., count) if masked(machine, count) == 0 => {
            step.machine.flags & !STATUS
        }
        _ => step.machine.flags,
    });
    assert!(found >= 5, "{found}");
}

#[test]
fn a_parity_of_16_bits_is_found() {
    let (found, _) = flag_disagreements(|_, instruction, step| match instruction.operation {
        // An odd number of ones above the low byte turns PF.
        Operation::Inc(Operand::Register(to)) | Operation::Dec(Operand::Register(to)) => {
            let above = step.machine.register(to, instruction.width) >> 8 & 0xFF;
            step.machine.flags ^ PF * (above.count_ones() % 2)
        }
        _ => step.machine.flags,
    });
    assert!(found >= 5, "{found}");
}
