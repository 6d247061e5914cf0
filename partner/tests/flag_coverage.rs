//! The coverage counts flags left undefined and flags kept by a count of 0, by how they stood before, and the ones that
//! decide PF.

use partner::coverage::Coverage;
use partner::machine::{Machine, AF, ALWAYS, CF, CODE_BASE, OF, PF, SF, STATUS, ZF};
use partner::run::run_observed;

const LEFT: &str = "flags left undefined";
const KEPT: &str = "flags kept by a count of 0";
const ONES: &str = "counts of ones that decide PF";

/// The shapes of a group that never came.
fn holes(coverage: &Coverage, title: &str) -> Vec<String> {
    let report = coverage.to_string();
    let line = report.lines().find(|line| line.contains(title)).expect("the group has a line");
    let (_, holes) = line.split_once(", holes: ").expect("one step doesn't fill a group");
    holes.split(", ").map(str::to_string).collect()
}

/// One step with EAX 7, this ECX and these flags counts just these shapes of the operation in the group.
fn counts(title: &str, code: &[u8], ecx: u32, flags: u32, operation: &str, shapes: &[&str]) {
    let mut coverage = Coverage::new(std::iter::empty());
    let all = holes(&coverage, title);
    let regs = [7, ecx, 0, 0, 0, 0, 0, 0];
    let machine = Machine { regs, eip: CODE_BASE, flags: ALWAYS | flags, singles: [0; 8] };
    run_observed(machine, code, &[], &mut [], 1, |seen| {
        assert!(coverage.is_new(&seen) || shapes.is_empty());
        coverage.saw(&seen);
        assert!(!coverage.is_new(&seen));
    });
    let missing = holes(&coverage, title);
    let came: Vec<String> = all.into_iter().filter(|shape| !missing.contains(shape)).collect();
    let expected: Vec<String> = shapes.iter().map(|shape| format!("{operation} {shape}")).collect();
    assert_eq!(came, expected, "{code:02X?}");
    assert!(!coverage.has_all_undefined() && !coverage.has_all_parities());
}

#[test]
fn logic_is_counted() {
    // AND, OR, XOR and TEST EAX, ECX.
    counts(LEFT, &[0x21, 0xC8], 0, 0, "AND", &["AF clear"]);
    counts(LEFT, &[0x09, 0xC8], 0, AF, "OR", &["AF set"]);
    counts(LEFT, &[0x31, 0xC8], 0, OF, "XOR", &["AF clear"]);
    counts(LEFT, &[0x85, 0xC8], 0, STATUS, "TEST", &["AF set"]);
    // ADD EAX, ECX leaves nothing undefined.
    counts(LEFT, &[0x01, 0xC8], 0, STATUS, "ADD", &[]);
}

#[test]
fn shifts_are_counted() {
    // Of AL by 1, CL and immediates.
    counts(LEFT, &[0xD0, 0xE0], 0, AF, "SHL by 1", &["AF set"]);
    counts(LEFT, &[0xD2, 0xE8], 0x21, 0, "SHR by 1", &["AF clear"]);
    counts(LEFT, &[0xC0, 0xE8, 7], 0, OF, "SHR below the width", &["AF clear", "OF set"]);
    counts(LEFT, &[0xC0, 0xE0, 8], 0, CF | OF, "SHL from the width on", &["CF set", "AF clear", "OF set"]);
    // SAR AX, 15 and 16.
    counts(LEFT, &[0x66, 0xC1, 0xF8, 15], 0, AF, "SAR below the width", &["AF set", "OF clear"]);
    counts(LEFT, &[0x66, 0xC1, 0xF8, 16], 0, OF, "SAR from the width on", &["AF clear", "OF set"]);
}

#[test]
fn rotates_are_counted() {
    // Of AL by an immediate; RCR AX, CL.
    counts(LEFT, &[0xC0, 0xC0, 7], 0, OF, "ROL by more", &["OF set"]);
    counts(LEFT, &[0xC0, 0xC8, 8], 0, 0, "ROR all the way round", &["OF clear"]);
    counts(LEFT, &[0xC0, 0xD0, 8], 0, OF, "RCL by more", &["OF set"]);
    counts(LEFT, &[0xC0, 0xD0, 9], 0, OF, "RCL all the way round", &["OF set"]);
    counts(LEFT, &[0x66, 0xD3, 0xD8], 17, 0, "RCR all the way round", &["OF clear"]);
    // By 1 nothing is undefined.
    counts(LEFT, &[0xD0, 0xC0], 0, STATUS, "ROL by 1", &[]);
}

#[test]
fn products_and_divisions_are_counted() {
    for (code, operation) in [
        (&[0xF6, 0xE1][..], "MUL"),
        (&[0xF6, 0xE9], "IMUL of one operand"),
        (&[0x0F, 0xAF, 0xC1], "IMUL of two operands"),
        (&[0x6B, 0xC1, 7], "IMUL of three operands"),
    ] {
        counts(LEFT, code, 3, AF | SF, operation, &["PF clear", "AF set", "ZF clear", "SF set"]);
    }
    let six = ["CF set", "PF clear", "AF clear", "ZF set", "SF clear", "OF clear"];
    for (modrm, operation) in [(0xF1, "DIV"), (0xF9, "IDIV")] {
        counts(LEFT, &[0xF6, modrm], 3, CF | ZF, operation, &six);
        // By 0 there is no finished step.
        counts(LEFT, &[0xF6, modrm], 0, CF | ZF, operation, &[]);
    }
}

#[test]
fn bit_tests_and_scans_are_counted() {
    // Of EAX by ECX, of ECX.
    for (opcode, operation) in [(0xA3, "BT"), (0xAB, "BTS"), (0xB3, "BTR"), (0xBB, "BTC")] {
        let shapes = ["PF clear", "AF clear", "ZF clear", "SF clear", "OF set"];
        counts(LEFT, &[0x0F, opcode, 0xC8], 0, CF | OF, operation, &shapes);
    }
    for (opcode, operation) in [(0xBC, "BSF"), (0xBD, "BSR")] {
        let shapes = ["CF clear", "PF set", "AF clear", "SF clear", "OF clear"];
        counts(LEFT, &[0x0F, opcode, 0xC1], 0, ZF | PF, operation, &shapes);
    }
}

#[test]
fn double_shifts_are_counted() {
    // Of AX and CX by an immediate.
    for (opcode, name) in [(0xA4, "SHLD"), (0xAC, "SHRD")] {
        let counts = |count, flags, part: &str, shapes: &[&str]| {
            counts(LEFT, &[0x66, 0x0F, opcode, 0xC8, count], 0, flags, &format!("{name} {part}"), shapes);
        };
        counts(33, AF, "by 1", &["AF set"]);
        counts(2, OF, "up to the width", &["AF clear", "OF set"]);
        counts(16, AF, "up to the width", &["AF set", "OF clear"]);
        let six = ["CF clear", "PF set", "AF set", "ZF set", "SF set", "OF set"];
        counts(17, STATUS & !CF, "over the width", &six);
    }
}

#[test]
fn counts_of_0_are_counted() {
    let shapes = ["CF clear", "PF set", "AF clear", "ZF clear", "SF clear", "OF set"];
    for (reg, name) in [(0, "ROL"), (1, "ROR"), (2, "RCL"), (3, "RCR"), (4, "SHL"), (5, "SHR"), (7, "SAR")] {
        let modrm = 0xC0 | reg << 3;
        counts(KEPT, &[0xC0, modrm, 0], 1, OF | PF, &format!("{name} by 0"), &shapes);
        counts(KEPT, &[0xD3, modrm], 0x120, OF | PF, &format!("{name} by 0"), &shapes);
    }
    for (opcode, name) in [(0xA4, "SHLD"), (0xAC, "SHRD")] {
        counts(KEPT, &[0x0F, opcode, 0xC8, 32], 1, OF | PF, &format!("{name} by 0"), &shapes);
        counts(KEPT, &[0x0F, opcode + 1, 0xC8], 0x40, OF | PF, &format!("{name} by 0"), &shapes);
    }
}

#[test]
fn ones_that_decide_pf_are_counted() {
    // ADD AL, 0 of 7; ADD AX, CX and ADD EAX, ECX with ones above the low byte.
    counts(ONES, &[0x04, 0], 0, 0, "3", &["in a byte"]);
    counts(ONES, &[0x66, 0x01, 0xC8], 0x0001_0300, 0, "3", &["in a word below an even number"]);
    counts(ONES, &[0x66, 0x01, 0xC8], 0x0001_0100, 0, "3", &["in a word below an odd number"]);
    counts(ONES, &[0x01, 0xC8], 0x0001_0100, 0, "3", &["in a doubleword below an even number"]);
    counts(ONES, &[0x01, 0xC8], 0x0000_00F9, 0, "0", &["in a doubleword below an odd number"]);
    // INC, DEC and NEG EAX, SHL EAX, 8, SHLD EAX, ECX, 8.
    counts(ONES, &[0x40], 0, 0, "1", &["in a doubleword below an even number"]);
    counts(ONES, &[0x48], 0, 0, "2", &["in a doubleword below an even number"]);
    counts(ONES, &[0xF7, 0xD8], 0, 0, "6", &["in a doubleword below an even number"]);
    counts(ONES, &[0xC1, 0xE0, 8], 0, 0, "0", &["in a doubleword below an odd number"]);
    counts(ONES, &[0x0F, 0xA4, 0xC8, 8], 0xFF00_0000, 0, "8", &["in a doubleword below an odd number"]);
    // CMP leaves no result, MOV no PF, a count of 0 the PF that was; after MUL it is undefined.
    for code in [&[0x39, 0xC8][..], &[0x89, 0xC8], &[0xC1, 0xE0, 0], &[0xF7, 0xE1]] {
        counts(ONES, code, 1, PF, "", &[]);
    }
}
