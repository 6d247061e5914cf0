//! The coverage counts accesses around the ends of data, of constants and of all addresses.

mod counted;

use counted::{case, counts};
use partner::machine::{CONSTANTS_BASE, DATA_BASE};

const ENDS: &str = "accesses at the ends of data and constants";
const LONG_ENDS: &str = "accesses at the ends of 65,536 data";
const SHORT: &str = "accesses at areas shorter than they are";
const TOPS: &str = "accesses at the last address";

/// Address of the first constant.
const FIRST: u32 = CONSTANTS_BASE;

/// MOV from and to [ESI]: use, code, bits and bytes.
const MOVES: [(&str, &[u8], u32, u32); 6] = [
    ("read", &[0x8A, 0x06], 8, 1),
    ("read", &[0x66, 0x8B, 0x06], 16, 2),
    ("read", &[0x8B, 0x06], 32, 4),
    ("write", &[0x88, 0x06], 8, 1),
    ("write", &[0x66, 0x89, 0x06], 16, 2),
    ("write", &[0x89, 0x06], 32, 4),
];

#[test]
fn ends_are_counted() {
    for (title, area, base, constants, data) in [
        (ENDS, "few data", DATA_BASE, 8, 8),
        (ENDS, "few constants", FIRST, 8, 8),
        (ENDS, "65,536 constants", FIRST, 65_536, 8),
        (LONG_ENDS, "65,536 data", DATA_BASE, 8, 65_536),
    ] {
        let length = if base == FIRST { constants } else { data };
        let end = base + length as u32;
        for (usage, code, bits, bytes) in MOVES {
            let counted = |at, shapes: &[&str]| counts(title, &case(code, &[(6, at)], constants, data), shapes);
            for count in 0..=bytes {
                counted(base - count, &[&format!("{usage} at {area}: {bits} bits {count} below the first")]);
                counted(end + count - bytes, &[&format!("{usage} at {area}: {bits} bits {count} over the last")]);
            }
            for at in [base - bytes - 1, base + 1, end + 1] {
                counted(at, &[]);
            }
        }
    }
    // An area just as long as the access has both ends.
    let both = ["read at few data: 32 bits 0 below the first", "read at few data: 32 bits 0 over the last"];
    counts(ENDS, &case(&[0x8B, 0x06], &[(6, DATA_BASE)], 0, 4), &both);
}

#[test]
fn short_areas_are_counted() {
    for (area, base) in [("data", DATA_BASE), ("constants", FIRST)] {
        for (usage, code, bits, _) in MOVES {
            let counted = |at, length, shapes: &[&str]| {
                let (constants, data) = if base == FIRST { (length, 8) } else { (8, length) };
                counts(SHORT, &case(code, &[(6, at)], constants, data), shapes);
            };
            let shape = |what| format!("{usage} at {area}: {bits} bits {what}");
            counted(base, 0, &[&shape("at none")]);
            counted(base + 1, 0, &[]);
            counted(base - 1, 0, &[]);
            match bits {
                8 => counted(base, 1, &[]),
                16 => {
                    counted(base, 1, &[&shape("from the first of fewer")]);
                    counted(base - 1, 1, &[]);
                    counted(base, 2, &[]);
                }
                _ => {
                    for length in 1..4 {
                        counted(base, length, &[&shape("from the first of fewer")]);
                        counted(base + length as u32, length, &[]);
                    }
                    counted(base + 1, 2, &[&shape("from a later one of fewer")]);
                    counted(base + 2, 3, &[&shape("from a later one of fewer")]);
                    counted(base - 1, 1, &[&shape("across all of fewer")]);
                    counted(base - 2, 1, &[&shape("across all of fewer")]);
                    counted(base - 3, 1, &[]);
                    counted(base - 1, 2, &[&shape("across all of fewer")]);
                    counted(base - 1, 3, &[]);
                    counted(base, 4, &[]);
                }
            }
        }
    }
}

#[test]
fn last_addresses_are_counted() {
    for (usage, code, bits, bytes) in MOVES {
        for over in 0..bytes {
            let at = case(code, &[(6, over.wrapping_sub(bytes))], 8, 8);
            counts(TOPS, &at, &[&format!("{usage} {bits} bits {over} over")]);
        }
        counts(TOPS, &case(code, &[(6, 0u32.wrapping_sub(bytes + 1))], 8, 8), &[]);
        counts(TOPS, &case(code, &[(6, 0)], 8, 8), &[]);
    }
}

#[test]
fn a_changed_operand_is_read_and_then_written() {
    // ADD [ESI], EAX at the end of data, over it, at the end of constants, over it.
    for (at, shapes) in [
        (
            DATA_BASE + 4,
            &["read at few data: 32 bits 0 over the last", "write at few data: 32 bits 0 over the last"][..],
        ),
        (DATA_BASE + 5, &["read at few data: 32 bits 1 over the last"]),
        (
            FIRST + 4,
            &["read at few constants: 32 bits 0 over the last", "write at few constants: 32 bits 0 over the last"],
        ),
        (FIRST + 5, &["read at few constants: 32 bits 1 over the last"]),
    ] {
        counts(ENDS, &case(&[0x01, 0x06], &[(6, at)], 8, 8), shapes);
    }
}

#[test]
fn an_access_counts_only_if_it_is_come_to() {
    let (over, below) = ("read at few data: 16 bits 1 over the last", "write at few data: 16 bits 1 below the first");
    // MOVSW whose read is refused, and whose read is allowed; MOVZX EAX, word [ESI]; PUSH EAX.
    let movs: &[u8] = &[0x66, 0xA5];
    counts(ENDS, &case(movs, &[(6, DATA_BASE + 7), (7, DATA_BASE - 1)], 8, 8), &[over]);
    counts(ENDS, &case(movs, &[(6, DATA_BASE + 1), (7, DATA_BASE - 1)], 8, 8), &[below]);
    counts(ENDS, &case(&[0x0F, 0xB7, 0x06], &[(6, DATA_BASE + 7)], 8, 8), &[over]);
    let pushed = case(&[0x50], &[(4, DATA_BASE + 10)], 8, 8);
    counts(ENDS, &pushed, &["write at few data: 32 bits 2 over the last"]);
    // LEA and a repeated instruction with count 0 access nothing.
    for code in [&[0x8D, 0x06][..], &[0xF3, 0xA4]] {
        counts(ENDS, &case(code, &[(6, DATA_BASE), (7, DATA_BASE)], 8, 8), &[]);
    }
}
