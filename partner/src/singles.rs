//! Calculations with singles by their bits (document 02, M-106): numbers as IEEE 754 rounds them, to nearest even, NaNs
//! as the bits say.

use crate::decode::Single;
use crate::machine::{FlagEffect, CF, PF, STATUS, ZF};

/// All bits but the sign.
const MAGNITUDE: u32 = 0x7FFF_FFFF;
/// The positive infinity; what is above it without its sign is a NaN.
pub const INFINITY: u32 = 0x7F80_0000;
/// The bit that tells a quiet NaN from a signalling one.
pub const QUIET: u32 = 1 << 22;
/// The smallest normal number.
const SMALLEST_NORMAL: u32 = 0x0080_0000;
/// What an invalid operation on numbers gives.
pub const INDEFINITE: u32 = 0xFFC0_0000;

/// Kinds of singles.
#[derive(Clone, Copy, PartialEq, Eq, Debug)]
pub enum Class {
    Zero,
    Denormal,
    Normal,
    Infinity,
    Quiet,
    Signalling,
}

/// The kind of the single with these bits.
pub fn class(bits: u32) -> Class {
    match bits & MAGNITUDE {
        0 => Class::Zero,
        magnitude if magnitude < SMALLEST_NORMAL => Class::Denormal,
        magnitude if magnitude < INFINITY => Class::Normal,
        INFINITY => Class::Infinity,
        magnitude if magnitude & QUIET != 0 => Class::Quiet,
        _ => Class::Signalling,
    }
}

/// Whether the bits are those of a NaN.
pub fn is_nan(bits: u32) -> bool {
    bits & MAGNITUDE > INFINITY
}

/// Both numbers, unless an operand is a NaN.
pub fn numbers(first: u32, second: u32) -> Option<(f32, f32)> {
    (!is_nan(first) && !is_nan(second)).then(|| (f32::from_bits(first), f32::from_bits(second)))
}

/// Sum, product, difference or quotient of numbers, rounded once.
fn rounded(kind: Single, first: f32, second: f32) -> f32 {
    match kind {
        Single::Addss => first + second,
        Single::Mulss => first * second,
        Single::Subss => first - second,
        _ => first / second,
    }
}

/// The first operand's bits if it is the lesser or the greater one, as wanted, else the second's: so also of two zeros
/// and beside a NaN (003: MINSS, MAXSS).
fn chosen(first: u32, second: u32, wanted: fn(&f32, &f32) -> bool) -> u32 {
    match numbers(first, second) {
        Some((left, right)) if wanted(&left, &right) => first,
        _ => second,
    }
}

/// The result of a calculation, first operand before second (003: ADDSS, MULSS, SUBSS, MINSS, DIVSS, MAXSS).
pub fn calculate(kind: Single, first: u32, second: u32) -> u32 {
    match (kind, numbers(first, second)) {
        (Single::Minss, _) => chosen(first, second, f32::lt),
        (Single::Maxss, _) => chosen(first, second, f32::gt),
        (_, Some((left, right))) => {
            let result = rounded(kind, left, right);
            if result.is_nan() {
                INDEFINITE
            } else {
                result.to_bits()
            }
        }
        (_, None) if is_nan(first) => first | QUIET,
        (_, None) => second | QUIET,
    }
}

/// ZF, PF and CF by how the first operand compares; OF, SF and AF are cleared (003: COMISS).
pub fn compare(first: u32, second: u32) -> FlagEffect {
    let values = match numbers(first, second) {
        None => ZF | PF | CF,
        Some((left, right)) if left > right => 0,
        Some((left, right)) if left < right => CF,
        Some(_) => ZF,
    };
    FlagEffect { written: STATUS, values, undefined: 0 }
}
