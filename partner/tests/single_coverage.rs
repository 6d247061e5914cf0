//! The coverage counts operands' classes, results and places of singles, flags before COMISS, and near misses.

use partner::check::check;
use partner::coverage::Coverage;
use partner::machine::{Machine, ALWAYS, CODE_BASE, CONSTANTS_BASE, DATA_BASE, DF, STATUS};
use partner::run::{run, run_observed};

const CLASSES: &str = "classes of singles";
const RESULTS: &str = "results of singles";
const OPERANDS: &str = "operands of singles";
const FLAGS: &str = "flags before COMISS";
const MISSES: &str = "near misses of singles";

const ONE: u32 = 0x3F80_0000;
const TWO: u32 = 0x4000_0000;
const THREE: u32 = 0x4040_0000;
const HALF: u32 = 0x3F00_0000;
const MINUS: u32 = 0x8000_0000;
const LARGEST: u32 = 0x7F7F_FFFF;
const INFINITY: u32 = 0x7F80_0000;
const SIGNALLING: u32 = 0x7F80_0001;
const QUIET: u32 = 0x7FC0_0000;

/// Mnemonics with their opcodes.
const CALCULATIONS: [(&str, u8); 6] =
    [("ADDSS", 0x58), ("MULSS", 0x59), ("SUBSS", 0x5C), ("MINSS", 0x5D), ("DIVSS", 0x5E), ("MAXSS", 0x5F)];

/// The shapes of a group that never came.
fn holes(coverage: &Coverage, title: &str) -> Vec<String> {
    let report = coverage.to_string();
    let line = report.lines().find(|line| line.contains(title)).expect("the group has a line");
    let (_, holes) = line.split_once(", holes: ").expect("one step doesn't fill a group");
    holes.split(", ").map(str::to_string).collect()
}

/// The shapes of a group that came.
fn came(coverage: &Coverage, title: &str) -> Vec<String> {
    let missing = holes(coverage, title);
    let all = holes(&Coverage::new(std::iter::empty()), title);
    all.into_iter().filter(|shape| !missing.contains(shape)).collect()
}

/// What one step with these singles in XMM0 and XMM1, ESI and flags counts.
fn counted(code: &[u8], (first, second): (u32, u32), esi: u32, flags: u32, title: &str) -> Vec<String> {
    let mut coverage = Coverage::new(std::iter::empty());
    let (mut regs, mut singles) = ([0; 8], [0; 8]);
    (regs[6], singles[0], singles[1]) = (esi, first, second);
    let machine = Machine { regs, eip: CODE_BASE, flags: ALWAYS | flags, singles };
    run_observed(machine, code, &[0; 8], &mut [0; 8], 1, |seen| {
        assert!(coverage.is_new(&seen));
        coverage.saw(&seen);
        assert!(!coverage.is_new(&seen));
    });
    assert!(!coverage.has_all_singles() && !coverage.has_all_misses());
    came(&coverage, title)
}

/// The calculation of XMM0 and XMM1, or their comparison, counts this result.
fn comes_to(opcode: u8, first: u32, second: u32, shape: &str) {
    let code = [0xF3, 0x0F, opcode, 0xC1];
    let code = if opcode == 0x2F { &code[1..] } else { &code };
    assert_eq!(counted(code, (first, second), 0, 0, RESULTS), [shape], "{first:X} {second:X}");
}

#[test]
fn classes_are_counted() {
    let singles = [
        (0, "zero"),
        (MINUS, "zero"),
        (1, "denormal"),
        (0x807F_FFFF, "denormal"),
        (0x0080_0000, "normal"),
        (MINUS | LARGEST, "normal"),
        (INFINITY, "infinity"),
        (MINUS | INFINITY, "infinity"),
        (SIGNALLING, "signalling"),
        (0xFFBF_FFFF, "signalling"),
        (QUIET, "quiet"),
        (0xFFFF_FFFF, "quiet"),
    ];
    for (first, left) in singles {
        for (second, right) in singles {
            for (name, opcode) in CALCULATIONS {
                let shapes = counted(&[0xF3, 0x0F, opcode, 0xC1], (first, second), 0, 0, CLASSES);
                assert_eq!(shapes, [format!("{name} {left} {right}")]);
            }
            let shapes = counted(&[0x0F, 0x2F, 0xC1], (first, second), 0, 0, CLASSES);
            assert_eq!(shapes, [format!("COMISS {left} {right}")]);
        }
    }
    // A step that stops, and MOVSS.
    assert!(counted(&[0xF3, 0x0F, 0x58, 0x06], (ONE, ONE), 0, 0, CLASSES).is_empty());
    assert!(counted(&[0xF3, 0x0F, 0x10, 0xC1], (ONE, ONE), 0, 0, CLASSES).is_empty());
}

#[test]
fn rounded_results_are_counted() {
    comes_to(0x58, ONE, ONE, "ADDSS exact");
    comes_to(0x58, ONE, 0x3380_0000, "ADDSS by a tie");
    comes_to(0x58, ONE | 1, 0x3380_0000, "ADDSS by a tie");
    comes_to(0x58, ONE, 0x3380_0001, "ADDSS rounded up");
    comes_to(0x58, ONE, 0x337F_FFFF, "ADDSS rounded down");
    comes_to(0x58, MINUS | ONE, 0xB380_0001, "ADDSS rounded up");
    comes_to(0x58, MINUS | ONE, 0xB37F_FFFF, "ADDSS rounded down");
    // So far apart that 53 bits don't hold the sum.
    comes_to(0x58, ONE, 1, "ADDSS rounded down");
    comes_to(0x58, ONE, MINUS | 1, "ADDSS rounded up");
    comes_to(0x58, 1, MINUS | LARGEST, "ADDSS rounded up");
    comes_to(0x5C, ONE, 0x3300_0000, "SUBSS by a tie");
    comes_to(0x5C, ONE, 0x3300_0001, "SUBSS rounded down");
    comes_to(0x5C, ONE, 1, "SUBSS rounded up");
    comes_to(0x5C, THREE, TWO, "SUBSS exact");
    comes_to(0x59, THREE, THREE, "MULSS exact");
    comes_to(0x59, ONE | 1, ONE | 1, "MULSS rounded down");
    comes_to(0x59, ONE | 1, MINUS | ONE | 1, "MULSS rounded down");
    comes_to(0x59, 0x3F7F_FFFF, 0x3F7F_FFFF, "MULSS rounded down");
    comes_to(0x59, 0x4580_0800, 0x4580_0800, "MULSS by a tie");
    comes_to(0x59, 0x3DCC_CCCD, 0x3DCC_CCCD, "MULSS rounded up");
    comes_to(0x5E, THREE, TWO, "DIVSS exact");
    comes_to(0x5E, ONE, THREE, "DIVSS rounded up");
    comes_to(0x5E, ONE, MINUS | THREE, "DIVSS rounded up");
    comes_to(0x5E, 0x40A0_0000, THREE, "DIVSS rounded down");
}

#[test]
fn small_and_large_results_are_counted() {
    comes_to(0x58, ONE, MINUS | ONE, "ADDSS exact zero");
    comes_to(0x5C, 0x0080_0000, 1, "SUBSS exact denormal");
    comes_to(0x59, 0x0080_0000, HALF, "MULSS exact denormal");
    comes_to(0x59, 0, ONE, "MULSS exact zero");
    comes_to(0x59, 1, HALF, "MULSS underflow to zero by a tie");
    comes_to(0x59, MINUS | 1, HALF, "MULSS underflow to zero by a tie");
    comes_to(0x59, 1, 1, "MULSS underflow to zero");
    comes_to(0x59, 3, HALF, "MULSS underflow by a tie");
    comes_to(0x59, 3, 0x3EFF_FFFF, "MULSS underflow rounded down");
    comes_to(0x59, 1, HALF | 1, "MULSS underflow rounded up");
    // To the smallest normal number.
    comes_to(0x59, 0x0080_0000, 0x3F7F_FFFF, "MULSS underflow by a tie");
    comes_to(0x59, 0x0080_0001, 0x3F7F_FFFE, "MULSS underflow rounded up");
    comes_to(0x5E, 0x00FF_FFFF, TWO, "DIVSS underflow by a tie");
    comes_to(0x5E, 1, TWO, "DIVSS underflow to zero by a tie");
    comes_to(0x5E, 1, THREE, "DIVSS underflow to zero");
    comes_to(0x5E, 2, THREE, "DIVSS underflow rounded up");
    comes_to(0x5E, 4, MINUS | THREE, "DIVSS underflow rounded down");
    comes_to(0x5E, 0, THREE, "DIVSS exact zero");
    comes_to(0x5E, ONE, INFINITY, "DIVSS exact zero");
    comes_to(0x58, LARGEST, LARGEST, "ADDSS overflow");
    comes_to(0x58, LARGEST, 0x72FF_FFFF, "ADDSS rounded down");
    comes_to(0x5E, LARGEST, HALF, "DIVSS overflow");
    comes_to(0x5E, LARGEST, 0, "DIVSS infinity by zero");
    comes_to(0x5E, INFINITY, 0, "DIVSS infinity of an infinity");
    comes_to(0x59, INFINITY, 1, "MULSS infinity of an infinity");
    comes_to(0x5C, ONE, INFINITY, "SUBSS infinity of an infinity");
    comes_to(0x5C, INFINITY, INFINITY, "SUBSS invalid");
    comes_to(0x59, 0, INFINITY, "MULSS invalid");
    comes_to(0x5E, 0, 0, "DIVSS invalid");
}

#[test]
fn nans_and_comparisons_are_counted() {
    for (name, opcode) in CALCULATIONS.into_iter().chain([("COMISS", 0x2F)]) {
        comes_to(opcode, QUIET, ONE, &format!("{name} first a NaN"));
        comes_to(opcode, INFINITY, SIGNALLING, &format!("{name} second a NaN"));
        comes_to(opcode, SIGNALLING, QUIET, &format!("{name} both NaNs"));
    }
    for (name, opcode) in [("MINSS", 0x5D), ("MAXSS", 0x5F), ("COMISS", 0x2F)] {
        comes_to(opcode, TWO, ONE, &format!("{name} greater"));
        comes_to(opcode, MINUS | 1, 0, &format!("{name} less"));
        comes_to(opcode, INFINITY, INFINITY, &format!("{name} equal"));
        comes_to(opcode, 0, 0, &format!("{name} equal zeros"));
        comes_to(opcode, MINUS, MINUS, &format!("{name} equal zeros"));
        comes_to(opcode, 0, MINUS, &format!("{name} zero and its negative"));
        comes_to(opcode, MINUS, 0, &format!("{name} negative zero and zero"));
    }
}

#[test]
fn places_of_operands_are_counted() {
    let moves = [("MOVSS 10", 0x10), ("MOVSS 11", 0x11)];
    for (name, opcode) in moves.into_iter().chain(CALCULATIONS).chain([("COMISS", 0x2F)]) {
        for (modrm, esi, place) in [
            (0xC0, 0, "same register"),
            (0xFF, 0, "same register"),
            (0xC1, 0, "other register"),
            (0x06, DATA_BASE + 4, "in data"),
            (0x06, CONSTANTS_BASE, "in constants"),
            (0x06, DATA_BASE + 5, "in neither"),
            (0x06, CONSTANTS_BASE - 1, "in neither"),
        ] {
            let code = [0xF3, 0x0F, opcode, modrm];
            let code = if opcode == 0x2F { &code[1..] } else { &code };
            assert_eq!(counted(code, (ONE, ONE), esi, 0, OPERANDS), [format!("{name} {place}")]);
        }
    }
}

#[test]
fn flags_before_comiss_are_counted() {
    for (first, second, answer) in
        [(TWO, ONE, "greater"), (ONE, TWO, "less"), (0, MINUS, "equal"), (QUIET, ONE, "unordered")]
    {
        for (flags, states) in [(0, ["clear", "clear"]), (STATUS, ["set", "clear"]), (DF, ["clear", "set"])] {
            let shapes = counted(&[0x0F, 0x2F, 0xC1], (first, second), 0, flags, FLAGS);
            let status = ["CF", "PF", "AF", "ZF", "SF", "OF"].map(|flag| format!("{answer} {flag} {}", states[0]));
            let all: Vec<String> = status.into_iter().chain([format!("{answer} DF {}", states[1])]).collect();
            assert_eq!(shapes, all);
        }
    }
}

/// The near misses that a run and a check of the code count.
fn misses(code: &[u8]) -> Vec<String> {
    let mut coverage = Coverage::new(std::iter::empty());
    let machine = Machine { regs: [0; 8], eip: CODE_BASE, flags: ALWAYS, singles: [0; 8] };
    let outcome = run(machine, code, &[], &mut [], 9);
    coverage.ran(&outcome, code);
    let verdict = check(code, &mut vec![0; code.len()]);
    coverage.checked(code, verdict);
    came(&coverage, MISSES)
}

#[test]
fn near_misses_are_counted() {
    let addss = [0xF3, 0x0F, 0x58, 0xC0];
    for (bytes, miss) in [
        (&[0xF3, 0x0F][..], "F3 0F cut"),
        (&[0xF3, 0x0F, 0x5F], "F3 0F xx cut"),
        (&[0xF3, 0x0F, 0x10, 0x40], "F3 0F xx cut in its operand"),
        (&[0x0F, 0x2F], "0F 2F cut"),
        (&[0x0F, 0x2F, 0x05, 1], "0F 2F cut in its operand"),
        (&[0x0F, 0x10, 0xC0], "0F 10"),
        (&[0x0F, 0x5F], "0F 5F"),
        (&[0x66, 0x0F, 0x58, 0xC0], "66 0F xx"),
        (&[0xF2, 0x0F, 0x59, 0xC0], "F2 0F xx"),
        (&[0x66, 0xF3, 0x0F, 0x58, 0xC0], "66 F3 0F xx"),
        (&[0xF3, 0x66, 0x0F, 0x58, 0xC0], "F3 66 0F xx"),
        (&[0x66, 0xF2, 0x0F, 0x58], "66 F2 0F xx"),
        (&[0xF2, 0x66, 0x0F, 0x58], "F2 66 0F xx"),
        (&[0xF3, 0xF3, 0x0F, 0x58], "F3 F3 0F xx"),
        (&[0x66, 0x0F, 0x2F, 0xC0], "66 0F 2F"),
        (&[0xF2, 0x0F, 0x2F, 0xC0], "F2 0F 2F"),
        (&[0xF3, 0x0F, 0x2F, 0xC0], "F3 0F 2F"),
        (&[0xF3, 0x0F, 0xAF, 0xC0], "F3 0F with an opcode without F3"),
        (&[0xF3, 0x0F, 0xC8], "F3 0F with an opcode without F3"),
        (&[0xF3, 0x0F, 0x51, 0xC0], "F3 0F with no opcode"),
    ] {
        let both = [format!("{miss} in a run"), format!("{miss} in a check")];
        assert_eq!(misses(bytes), both);
        assert_eq!(misses(&[&addss, bytes].concat()), both);
    }
    for other in [&[0xF3][..], &[0x0F], &[0x66, 0xF3], &[0x0F, 0x0B], &[0xF3, 0x90], &[0x0F, 0xAF], &addss] {
        assert!(misses(other).is_empty(), "{other:02X?}");
    }
}
