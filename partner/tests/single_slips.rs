//! A program that slips in a single is found out.

mod carry_out;
mod common;

use carry_out::program;
use common::Program;
use partner::cases::{Case, Generator, RunCase, Size};
use partner::compare::{compare, singles, Comparison, Other};
use partner::decode::{decode, Instruction, Operand, Operation, Single};
use partner::machine::{Machine, AF, CF, CODE_BASE, DF, OF, PF, SF, STATUS, ZF};
use partner::singles::{calculate, class, is_nan, Class, INDEFINITE, QUIET};
use partner::step::{execute, fetch, Step, Stop};

/// Gives a calculation of both operands another result.
type Slip = fn(Single, u32, u32) -> u32;

/// Puts others in place of bytes that begin no instruction.
type Mend = fn(&[u8]) -> Option<Vec<u8>>;

/// Gives a finished step another machine.
type StepSlip = fn(&Machine, &Instruction, &Step) -> Machine;

/// Disagreements in so many of these runs.
fn in_runs(other: &dyn Other, mut next: impl FnMut(&mut Generator) -> RunCase) -> u64 {
    let mut generator = Generator::new(3, Size::Large);
    let mut comparison = Comparison::new(other, std::iter::empty(), 0);
    for _ in 0..6_000 {
        comparison.case(&Case::Run(next(&mut generator)));
    }
    comparison.defined
}

/// Disagreements in 6,000 cases, runs with singles and calculations, with a program that slips in steps.
fn disagreements(slip: impl Fn(&Machine, &Instruction, &Step) -> Machine + 'static) -> [u64; 3] {
    let carry_out = move |machine: &Machine, instruction: &Instruction, constants: &[u8], data: &mut [u8]| {
        let step = execute(machine, instruction, constants, data)?;
        Ok(Step { machine: slip(machine, instruction, &step), ..step })
    };
    let program = program(&carry_out);
    let cases = compare(&program, 3, 6_000, 0);
    assert_eq!(cases.policy, 0);
    [cases.defined, in_runs(&program, Generator::singles), singles(&program, 3, 6_000, 0).defined]
}

/// The slip is found at least five times in runs with singles, and in calculations.
fn is_found(slip: Slip) {
    let found = disagreements(move |_, instruction, step| {
        let mut machine = step.machine;
        if let (Operation::Single(kind, to, _), Some((first, second))) = (instruction.operation, step.operands) {
            machine.singles[usize::from(to)] = slip(kind, first, second);
        }
        machine
    });
    assert!(found[1..].iter().all(|&found| found >= 5), "{found:?}");
}

/// The slip is found at least five times in cases.
fn is_found_in_cases(slip: StepSlip) {
    let [found, ..] = disagreements(slip);
    assert!(found >= 5, "{found}");
}

/// Whether the calculation rounds.
fn rounds(kind: Single) -> bool {
    !matches!(kind, Single::Minss | Single::Maxss)
}

/// The result in double precision, if both operands are numbers and the calculation rounds.
fn double(kind: Single, first: u32, second: u32) -> Option<f64> {
    let number = |bits| (!is_nan(bits)).then(|| f64::from(f32::from_bits(bits)));
    let (first, second) = (number(first)?, number(second)?);
    match kind {
        Single::Addss => Some(first + second),
        Single::Mulss => Some(first * second),
        Single::Subss => Some(first - second),
        Single::Divss => Some(first / second),
        _ => None,
    }
}

/// The result changed by how it lies to the double one, which isn't exact.
fn corrected(kind: Single, first: u32, second: u32, change: fn(u32, f64) -> u32) -> u32 {
    let result = calculate(kind, first, second);
    match double(kind, first, second) {
        Some(exact) if exact.is_finite() && !is_nan(result) => change(result, exact),
        _ => result,
    }
}

/// How far the result's magnitude lies above the double one.
fn excess(result: u32, exact: f64) -> f64 {
    f64::from(f32::from_bits(result)).abs() - exact.abs()
}

#[test]
fn no_slip_agrees() {
    assert_eq!(disagreements(|_, _, step| step.machine), [0, 0, 0]);
}

#[test]
fn other_nans_are_found() {
    // The second of two, the larger of two, not made quiet, always the indefinite.
    is_found(|kind, first, second| match is_nan(first) && is_nan(second) && rounds(kind) {
        true => second | QUIET,
        false => calculate(kind, first, second),
    });
    is_found(|kind, first, second| match is_nan(first) && is_nan(second) && rounds(kind) {
        true => first.max(second) | QUIET,
        false => calculate(kind, first, second),
    });
    is_found(|kind, first, second| match calculate(kind, first, second) {
        _ if is_nan(first) => first,
        _ if is_nan(second) => second,
        result => result,
    });
    is_found(|kind, first, second| match calculate(kind, first, second) {
        result if is_nan(result) && rounds(kind) => INDEFINITE,
        result => result,
    });
    // The first quiet one before a signalling one.
    is_found(|kind, first, second| match (class(first), class(second)) {
        (Class::Signalling, Class::Quiet) if rounds(kind) => second,
        _ => calculate(kind, first, second),
    });
}

#[test]
fn another_indefinite_is_found() {
    is_found(|kind, first, second| match calculate(kind, first, second) {
        INDEFINITE if !is_nan(first) && !is_nan(second) => 0x7FC0_0000,
        result => result,
    });
    // For one operation only.
    for only in [Single::Addss, Single::Mulss, Single::Subss, Single::Divss] {
        let found = disagreements(move |_, instruction, step| {
            let mut machine = step.machine;
            if let (Operation::Single(kind, to, _), Some((first, second))) = (instruction.operation, step.operands) {
                let invalid = !is_nan(first) && !is_nan(second) && calculate(kind, first, second) == INDEFINITE;
                machine.singles[usize::from(to)] ^= u32::from(invalid && kind == only) << 31;
            }
            machine
        });
        assert!(found[2] >= 5, "{found:?} {only:?}");
    }
}

#[test]
fn choices_otherwise_made_are_found() {
    // The first beside a NaN, of two zeros, of equal ones of both signs; a NaN made quiet; the number beside a NaN.
    is_found(|kind, first, second| match is_nan(first) && !rounds(kind) {
        true => first,
        false => calculate(kind, first, second),
    });
    is_found(|kind, first, second| match is_nan(second) && !rounds(kind) {
        true => first,
        false => calculate(kind, first, second),
    });
    is_found(|kind, first, second| match (class(first), class(second)) {
        (Class::Zero, Class::Zero) if !rounds(kind) => first,
        _ => calculate(kind, first, second),
    });
    is_found(|kind, first, second| match (class(first), class(second), kind) {
        (Class::Zero, Class::Zero, Single::Minss) => first | second,
        (Class::Zero, Class::Zero, Single::Maxss) => first & second,
        _ => calculate(kind, first, second),
    });
    is_found(|kind, first, second| match is_nan(second) && !rounds(kind) {
        true => second | QUIET,
        false => calculate(kind, first, second),
    });
    // By their bits as signed numbers.
    is_found(|kind, first, second| match kind {
        Single::Minss if !is_nan(first) && !is_nan(second) => (first as i32).min(second as i32) as u32,
        Single::Maxss if !is_nan(first) && !is_nan(second) => (first as i32).max(second as i32) as u32,
        _ => calculate(kind, first, second),
    });
}

#[test]
fn denormals_lost_are_found() {
    // Results, and operands, flushed to zero.
    is_found(|kind, first, second| match calculate(kind, first, second) {
        result if class(result) == Class::Denormal => result & 1 << 31,
        result => result,
    });
    is_found(|kind, first, second| {
        let flushed = |bits| if class(bits) == Class::Denormal { bits & 1 << 31 } else { bits };
        calculate(kind, flushed(first), flushed(second))
    });
}

#[test]
fn other_roundings_are_found() {
    // Toward zero, away from it, ties away from zero.
    is_found(|kind, first, second| {
        corrected(kind, first, second, |result, exact| match excess(result, exact) {
            above if above > 0.0 => result - 1,
            _ => result,
        })
    });
    is_found(|kind, first, second| {
        corrected(kind, first, second, |result, exact| match excess(result, exact) {
            above if above < 0.0 => result + 1,
            _ => result,
        })
    });
    is_found(|kind, first, second| {
        corrected(kind, first, second, |result, exact| match excess(result + 1, exact) {
            above if above == -excess(result, exact) => result + 1,
            _ => result,
        })
    });
    // The product with its lower half cut off.
    is_found(|kind, first, second| match double(kind, first, second) {
        Some(exact) if kind == Single::Mulss && exact.is_finite() => {
            (f64::from_bits(exact.to_bits() & !0 << 29) as f32).to_bits()
        }
        _ => calculate(kind, first, second),
    });
}

#[test]
fn overflow_otherwise_is_found() {
    // To the largest number; a quotient by zero as if it were invalid.
    is_found(|kind, first, second| {
        corrected(kind, first, second, |result, _| if class(result) == Class::Infinity { result - 1 } else { result })
    });
    is_found(|kind, first, second| match (class(first), class(second), kind) {
        (Class::Denormal | Class::Normal, Class::Zero, Single::Divss) => INDEFINITE,
        _ => calculate(kind, first, second),
    });
}

#[test]
fn zeros_with_another_sign_are_found() {
    is_found(|kind, first, second| match calculate(kind, first, second) {
        0x8000_0000 if rounds(kind) => 0,
        result => result,
    });
    is_found(|kind, first, second| match calculate(kind, first, second) {
        0 if matches!(kind, Single::Addss | Single::Subss) => 0x8000_0000,
        result => result,
    });
}

#[test]
fn swapped_operands_are_found() {
    is_found(|kind, first, second| calculate(kind, second, first));
    for only in [Single::Addss, Single::Mulss, Single::Minss, Single::Maxss] {
        let found = disagreements(move |_, instruction, step| {
            let mut machine = step.machine;
            if let (Operation::Single(kind, to, _), Some((first, second))) = (instruction.operation, step.operands) {
                if kind == only {
                    machine.singles[usize::from(to)] = calculate(kind, second, first);
                }
            }
            machine
        });
        assert!(found[2] >= 5, "{found:?} {only:?}");
    }
}

/// COMISS with other flags is found at least five times in runs with singles, and in comparisons.
fn flags_are_found(slip: fn(u32, u32, &Machine, u32) -> u32) {
    let found = disagreements(move |before, instruction, step| {
        let mut machine = step.machine;
        if let (Operation::Comiss(..), Some((first, second))) = (instruction.operation, step.operands) {
            machine.flags = slip(first, second, before, machine.flags);
        }
        machine
    });
    assert!(found[1..].iter().all(|&found| found >= 5), "{found:?}");
}

#[test]
fn other_flags_of_comiss_are_found() {
    // OF, SF, AF or PF kept; DF cleared; unordered as equal, less or without PF; zeros of both signs as unequal.
    for flag in [OF, SF, AF] {
        let kept: fn(u32, u32, &Machine, u32) -> u32 = match flag {
            OF => |_, _, before, flags| flags | before.flags & OF,
            SF => |_, _, before, flags| flags | before.flags & SF,
            _ => |_, _, before, flags| flags | before.flags & AF,
        };
        flags_are_found(kept);
    }
    flags_are_found(|_, _, _, flags| flags & !DF);
    flags_are_found(|first, second, _, flags| if is_nan(first) || is_nan(second) { flags & !(PF | CF) } else { flags });
    flags_are_found(|first, second, _, flags| if is_nan(first) || is_nan(second) { flags & !(PF | ZF) } else { flags });
    flags_are_found(|first, _, _, flags| if is_nan(first) { flags & !STATUS } else { flags });
    flags_are_found(|first, second, _, flags| match (class(first), class(second)) {
        (Class::Zero, Class::Zero) if first != second => flags & !ZF | CF,
        _ => flags,
    });
    // By their bits as signed numbers.
    flags_are_found(|first, second, _, flags| match (first as i32).cmp(&(second as i32)) {
        _ if is_nan(first) || is_nan(second) => flags,
        std::cmp::Ordering::Less => flags & !STATUS | CF,
        std::cmp::Ordering::Greater => flags & !STATUS,
        std::cmp::Ordering::Equal => flags & !STATUS | ZF,
    });
}

#[test]
fn moves_otherwise_made_are_found() {
    // NaNs made quiet; the wrong way between registers; a register's neighbour.
    is_found_in_cases(|_, instruction, step| {
        let mut machine = step.machine;
        if let Operation::Movss(Operand::Xmm(to), _) = instruction.operation {
            let bits = &mut machine.singles[usize::from(to)];
            *bits |= if is_nan(*bits) { QUIET } else { 0 };
        }
        machine
    });
    is_found_in_cases(|before, instruction, step| match instruction.operation {
        Operation::Movss(Operand::Xmm(to), Operand::Xmm(from)) => {
            let mut singles = before.singles;
            singles[usize::from(from)] = singles[usize::from(to)];
            Machine { singles, ..step.machine }
        }
        _ => step.machine,
    });
    // A move between registers that clears all others; flags cleared by a calculation.
    is_found_in_cases(|_, instruction, step| match instruction.operation {
        Operation::Movss(Operand::Xmm(to), Operand::Xmm(_)) => {
            let mut singles = [0; 8];
            singles[usize::from(to)] = step.machine.singles[usize::from(to)];
            Machine { singles, ..step.machine }
        }
        _ => step.machine,
    });
    is_found_in_cases(|_, instruction, step| match instruction.operation {
        Operation::Single(..) => Machine { flags: step.machine.flags & !STATUS, ..step.machine },
        _ => step.machine,
    });
    // An integer instruction that clears a single: the doubleword move.
    is_found_in_cases(|_, instruction, step| match instruction.operation {
        Operation::Mov(..) => Machine { singles: [0; 8], ..step.machine },
        _ => step.machine,
    });
}

/// Disagreements in 6,000 runs of near misses with a program that takes some bytes that begin no instruction for others.
fn with_grammar(mend: Mend) -> u64 {
    let program = Program(move |mut machine: Machine, code: &[u8], constants: &[u8], data: &mut [u8], budget| {
        for steps in 0..budget {
            let fetched = fetch(&machine, code).map(|(instruction, _)| instruction).or_else(|stop| {
                if !matches!(stop, Stop::Cut | Stop::NoSuch) {
                    return Err(stop);
                }
                let bytes = &code[(machine.eip - CODE_BASE) as usize..];
                mend(bytes).and_then(|bytes| decode(&bytes).ok()).ok_or(stop)
            });
            match fetched.and_then(|instruction| execute(&machine, &instruction, constants, data)) {
                Ok(step) => machine = step.machine,
                Err(stop) => return (machine, steps, stop.number(), stop.address(machine.eip)),
            }
        }
        (machine, budget, 0, machine.eip)
    });
    in_runs(&program, Generator::near_miss_run)
}

/// The bytes with others in place of those in front.
fn front(bytes: &[u8], wrong: &[u8], right: &[u8]) -> Option<Vec<u8>> {
    bytes.strip_prefix(wrong).map(|rest| [right, rest].concat())
}

#[test]
fn wrong_prefixes_taken_are_found() {
    let mends: [Mend; 6] = [
        |bytes| front(bytes, &[0x0F], &[0xF3, 0x0F]),
        |bytes| front(bytes, &[0xF2, 0x0F], &[0xF3, 0x0F]),
        |bytes| front(bytes, &[0x66, 0xF3, 0x0F], &[0xF3, 0x0F]),
        |bytes| front(bytes, &[0xF3, 0x66, 0x0F], &[0xF3, 0x0F]),
        |bytes| front(bytes, &[0xF3, 0x0F], &[0x0F]),
        |bytes| front(bytes, &[0x66, 0x0F], &[0xF3, 0x0F]),
    ];
    let found = mends.map(with_grammar);
    assert!(found.iter().all(|&found| found >= 5), "{found:?}");
}
