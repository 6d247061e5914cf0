//! The coverage counts accesses in data and constants and beside them, numbers of constants, and refusals together.

mod counted;

use counted::{case, counts};
use partner::cases::RunCase;
use partner::coverage::Coverage;
use partner::machine::{Machine, CODE_BASE, CONSTANTS_BASE, DATA_BASE};

const KINDS: &str = "accesses in data and constants";
const PAIRS: &str = "pairs of accesses";
const LENGTHS: &str = "numbers of constants";
const REFUSALS: &str = "refusals that apply together";

/// Address of the first constant.
const FIRST: u32 = CONSTANTS_BASE;

/// A read of EAX, [ESI] with so many constants and data counts just these places.
fn reads(address: u32, constants: usize, data: usize, places: &[&str]) {
    let shapes: Vec<String> = places.iter().map(|place| format!("operand read {place}")).collect();
    let shapes: Vec<&str> = shapes.iter().map(String::as_str).collect();
    counts(KINDS, &case(&[0x8B, 0x06], &[(6, address)], constants, data), &shapes);
}

#[test]
fn places_are_counted() {
    reads(DATA_BASE, 8, 8, &["in data"]);
    reads(FIRST + 1, 8, 8, &["amid constants"]);
    reads(FIRST, 8, 8, &["from the first constant"]);
    reads(FIRST + 4, 8, 8, &["up to the last constant"]);
    reads(FIRST, 4, 8, &["from the first constant", "up to the last constant"]);
    reads(FIRST + 5, 8, 8, &["one byte over the last constant gives 5"]);
    reads(FIRST - 1, 8, 8, &["one byte below the first constant gives 5"]);
    reads(FIRST + 3, 0, 8, &["where constants would be gives 5"]);
    reads(FIRST + 4, 6, 8, &["past the constants at an offset that data have gives 5"]);
    reads(DATA_BASE + 6, 16, 6, &["past the data at an offset that constants have gives 5"]);
    reads(DATA_BASE + 5, 8, 8, &["from data over its end gives 5"]);
    reads(DATA_BASE + 7, 8, 8, &["from data over its end gives 5"]);
    reads(DATA_BASE - 1, 8, 8, &["from below data into it gives 5"]);
    reads(DATA_BASE - 3, 8, 8, &["from below data into it gives 5"]);
    reads(FIRST + 0x1_0004, 8, 8, &["64 KiB past a constant gives 5"]);
    reads(0xFFFF_FFFC, 8, 8, &["up to 2^32 gives 5"]);
    reads(0xFFFF_FFFD, 8, 8, &["across 2^32 gives 5"]);
    for address in [0, CODE_BASE, FIRST + 8, FIRST - 4, DATA_BASE + 8, DATA_BASE - 4, FIRST + 0x1_0005] {
        reads(address, 8, 8, &["elsewhere gives 5"]);
    }
}

#[test]
fn kinds_are_counted() {
    let (first, top) = ("from the first constant", "up to the last constant gives 6");
    // With ECX and all addresses at the first constant, ESP behind the last.
    let registers = [(1, 0), (3, FIRST), (4, FIRST + 4), (5, FIRST), (6, FIRST), (7, FIRST)];
    for (code, kind, place) in [
        (&[0x8A, 0x03][..], "operand read", first),
        (&[0x38, 0x03], "operand read", first),
        (&[0x0F, 0xBA, 0x23, 1], "operand read", first),
        (&[0x00, 0x03], "operand changed", "from the first constant gives 6"),
        (&[0x86, 0x03], "operand changed", "from the first constant gives 6"),
        (&[0xD0, 0x03], "operand changed", "from the first constant gives 6"),
        (&[0x66, 0x0F, 0xA5, 0x03], "operand changed", "from the first constant gives 6"),
        (&[0x66, 0x0F, 0xBA, 0x2B, 1], "operand changed", "from the first constant gives 6"),
        (&[0x88, 0x03], "operand written", "from the first constant gives 6"),
        (&[0x0F, 0x90, 0x03], "operand written", "from the first constant gives 6"),
        (&[0x66, 0x0F, 0xA3, 0x0B], "bit read", first),
        (&[0x66, 0x0F, 0xAB, 0x0B], "bit changed", "from the first constant gives 6"),
        (&[0xFF, 0x23], "target read", first),
        (&[0x50], "PUSH", "from the first constant gives 6"),
        (&[0xE8, 0, 0, 0, 0], "CALL", "from the first constant gives 6"),
        (&[0xC9], "LEAVE", first),
        (&[0xAA], "STOS", "from the first constant gives 6"),
        (&[0xAC], "LODS", first),
        (&[0xAE], "SCAS", first),
    ] {
        counts(KINDS, &case(code, &registers, 8, 4), &[&format!("{kind} {place}")]);
    }
    for (code, kind) in [(&[0x58][..], "POP"), (&[0xC3], "RET")] {
        counts(KINDS, &case(code, &registers, 8, 4), &[&format!("{kind} up to the last constant")]);
    }
    counts(KINDS, &case(&[0x50], &[(4, FIRST + 8)], 8, 4), &[&format!("PUSH {top}")]);
    // LEA, a register operand and a repeated instruction with count 0 access nothing.
    for code in [&[0x8D, 0x03][..], &[0x01, 0xC0], &[0xF3, 0xA4]] {
        counts(KINDS, &case(code, &registers, 8, 4), &[]);
    }
}

#[test]
fn an_access_counts_only_if_it_is_come_to() {
    // MOVSB and CMPSB from and to constants, and from neither.
    let (both, none) = ([(6, FIRST + 1), (7, FIRST + 2)], [(6, 0), (7, FIRST + 2)]);
    counts(KINDS, &case(&[0xA4], &both, 8, 4), &["MOVS from amid constants", "MOVS to amid constants gives 6"]);
    counts(KINDS, &case(&[0xA4], &none, 8, 4), &["MOVS from elsewhere gives 5"]);
    counts(KINDS, &case(&[0xA6], &both, 8, 4), &["CMPS from amid constants", "CMPS to amid constants"]);
    counts(KINDS, &case(&[0xA6], &none, 8, 4), &["CMPS from elsewhere gives 5"]);
    // A division by a constant that doesn't finish has read it: DIV byte [ESI] of AX 0400h.
    let divide = case(&[0xF6, 0x36], &[(0, 0x0400), (6, FIRST + 1)], 8, 4);
    counts(KINDS, &divide, &["operand read amid constants"]);
}

#[test]
fn pairs_are_counted() {
    let places = [(DATA_BASE, "data"), (FIRST, "constants"), (0, "neither")];
    for (from, first) in places {
        for (to, second) in places {
            let pair = |code: &[u8], registers: &[(usize, u32)], name: &str| {
                counts(PAIRS, &case(code, registers, 4, 4), &[&format!("{name} from {first} to {second}")]);
            };
            pair(&[0xFF, 0x33], &[(3, from), (4, to.wrapping_add(4))], "PUSH of memory");
            pair(&[0xFF, 0x13], &[(3, from), (4, to.wrapping_add(4))], "CALL through memory");
            pair(&[0xA5], &[(6, from), (7, to)], "MOVS");
            pair(&[0xA7], &[(6, from), (7, to)], "CMPS");
        }
    }
    counts(PAIRS, &case(&[0xAD], &[(6, FIRST)], 4, 4), &[]);
}

#[test]
fn numbers_of_constants_are_counted() {
    for (constants, name) in [
        (0, "none"),
        (1, "1"),
        (2, "2 or 3"),
        (3, "2 or 3"),
        (4, "4 to 65,534"),
        (65_534, "4 to 65,534"),
        (65_535, "65,535"),
        (65_536, "65,536"),
        (65_537, "65,537"),
        (65_538, "more"),
    ] {
        counts(LENGTHS, &case(&[0x90], &[], constants, 4), &[name]);
    }
}

#[test]
fn refusals_that_apply_together_are_counted() {
    let sound = case(&[0x90], &[], 4, 4);
    counts(REFUSALS, &sound, &[]);
    let flags = Machine { flags: 0, ..sound.machine };
    let many = vec![0; 65_537];
    let long = RunCase { constants: many.clone(), ..sound.clone() };
    counts(REFUSALS, &long, &["15"]);
    counts(REFUSALS, &RunCase { machine: flags, ..long.clone() }, &["15 12"]);
    counts(REFUSALS, &RunCase { budget: 1_000_001, ..long.clone() }, &["15 13"]);
    counts(REFUSALS, &RunCase { data: many.clone(), ..long.clone() }, &["11 15"]);
    counts(REFUSALS, &RunCase { code: vec![], ..long.clone() }, &["10 15"]);
    counts(REFUSALS, &RunCase { machine: flags, budget: 1_000_001, ..sound.clone() }, &["12 13"]);
    let all = RunCase { machine: flags, code: many.clone(), data: many, budget: u64::MAX, ..long };
    counts(REFUSALS, &all, &["10 11 15 12 13"]);
}

#[test]
fn resumed_runs_that_read_constants_are_counted() {
    // REP LODSB of three, stopped after one round, from constants and from data.
    for (source, expected) in [(FIRST, 1), (DATA_BASE, 0)] {
        let mut coverage = Coverage::new(std::iter::empty());
        let first = case(&[0xF3, 0xAC], &[(1, 3), (6, source)], 8, 8);
        let machine = coverage.run(&first, &mut first.data.clone()).machine;
        coverage.resume();
        coverage.run(&RunCase { machine, ..first.clone() }, &mut first.data.clone());
        assert!(coverage.to_string().contains(&format!("\n{expected}\t\tresumed so, with constants read\n")));
        assert!(coverage.to_string().contains("\n1\t\tresumed inside a repeated instruction\n"));
    }
}
