//! Groups of steps with singles, by their operands' classes, their results, where the operands lie and the flags before,
//! and of near misses of their opcodes.

use std::cmp::Ordering;
use std::collections::BTreeMap;

use super::accesses::accesses;
use super::bits::Grid;
use super::Group;
use crate::decode::{decode, Operand, Operation, Refusal, Single};
use crate::machine::{AF, CF, DF, OF, PF, SF, ZF};
use crate::run::Seen;
use crate::singles::{calculate, class, numbers, Class};
use crate::text::prefixes;

/// In the order of `Single`, then COMISS.
const OPERATIONS: [&str; 7] = ["ADDSS", "MULSS", "SUBSS", "MINSS", "DIVSS", "MAXSS", "COMISS"];
/// COMISS's place in `OPERATIONS`.
const COMISS: usize = 6;
/// In the order of `Class`.
const CLASSES: [&str; 6] = ["zero", "denormal", "normal", "infinity", "quiet", "signalling"];

/// Those of `OPERATIONS` that round, that may underflow, that choose by comparing or only compare, and all.
const ROUNDING: &[usize] = &[0, 1, 2, 4];
const UNDERFLOWING: &[usize] = &[1, 4];
const COMPARING: &[usize] = &[3, 5, COMISS];
const ALL: &[usize] = &[0, 1, 2, 3, 4, 5, COMISS];

const EXACT: &str = "exact";
const DOWN: &str = "rounded down";
const UP: &str = "rounded up";
const TIE: &str = "by a tie";
const EXACT_ZERO: &str = "exact zero";
const EXACT_DENORMAL: &str = "exact denormal";
const UNDERFLOW_DOWN: &str = "underflow rounded down";
const UNDERFLOW_UP: &str = "underflow rounded up";
const UNDERFLOW_TIE: &str = "underflow by a tie";
const TO_ZERO: &str = "underflow to zero";
const TO_ZERO_TIE: &str = "underflow to zero by a tie";
const OVERFLOW: &str = "overflow";
const OF_INFINITY: &str = "infinity of an infinity";
const BY_ZERO: &str = "infinity by zero";
const INVALID: &str = "invalid";
const FIRST_NAN: &str = "first a NaN";
const SECOND_NAN: &str = "second a NaN";
const BOTH_NANS: &str = "both NaNs";
const GREATER: &str = "greater";
const LESS: &str = "less";
const EQUAL: &str = "equal";
const ZEROS: &str = "equal zeros";
const PLUS_MINUS: &str = "zero and its negative";
const MINUS_PLUS: &str = "negative zero and zero";

/// Results, or what is found by comparing, and which operations have them.
const RESULTS: [(&str, &[usize]); 24] = [
    (EXACT, ROUNDING),
    (DOWN, ROUNDING),
    (UP, ROUNDING),
    (TIE, &[0, 1, 2]),
    (EXACT_ZERO, ROUNDING),
    (EXACT_DENORMAL, ROUNDING),
    (UNDERFLOW_DOWN, UNDERFLOWING),
    (UNDERFLOW_UP, UNDERFLOWING),
    (UNDERFLOW_TIE, UNDERFLOWING),
    (TO_ZERO, UNDERFLOWING),
    (TO_ZERO_TIE, UNDERFLOWING),
    (OVERFLOW, ROUNDING),
    (OF_INFINITY, ROUNDING),
    (BY_ZERO, &[4]),
    (INVALID, ROUNDING),
    (FIRST_NAN, ALL),
    (SECOND_NAN, ALL),
    (BOTH_NANS, ALL),
    (GREATER, COMPARING),
    (LESS, COMPARING),
    (EQUAL, COMPARING),
    (ZEROS, COMPARING),
    (PLUS_MINUS, COMPARING),
    (MINUS_PLUS, COMPARING),
];

/// Instructions with singles: MOVSS by its opcodes, then `OPERATIONS`.
const INSTRUCTIONS: [&str; 9] =
    ["MOVSS 10", "MOVSS 11", "ADDSS", "MULSS", "SUBSS", "MINSS", "DIVSS", "MAXSS", "COMISS"];
/// Where the operand of the r/m field lies; memory in the order of `Holder`.
const OPERANDS: [&str; 5] = ["same register", "other register", "in data", "in constants", "in neither"];

/// COMISS's answers.
const ANSWERS: [(&str, u32); 4] = [("greater", 0), ("less", CF), ("equal", ZF), ("unordered", ZF | PF | CF)];
const ANSWER_NAMES: [&str; 4] = [ANSWERS[0].0, ANSWERS[1].0, ANSWERS[2].0, ANSWERS[3].0];
/// Flags before COMISS, which writes all but the last.
const FLAGS: [u32; 7] = [CF, PF, AF, ZF, SF, OF, DF];
const FLAG_NAMES: [&str; 7] = ["CF", "PF", "AF", "ZF", "SF", "OF", "DF"];
const STATES: [&str; 2] = ["clear", "set"];

/// Opcodes after 0F that ask for F3.
const OPCODES: [u8; 8] = [0x10, 0x11, 0x58, 0x59, 0x5C, 0x5D, 0x5E, 0x5F];
/// Prefixes that these opcodes don't have, other than none, in the order of `NEAR_MISSES`.
const WRONG_PREFIXES: [&[u8]; 7] =
    [&[0x66], &[0xF2], &[0x66, 0xF3], &[0xF3, 0x66], &[0x66, 0xF2], &[0xF2, 0x66], &[0xF3, 0xF3]];
/// The place in `NEAR_MISSES` of the first of `OPCODES` without F3, and of the first of `WRONG_PREFIXES`.
const WITHOUT_F3: usize = 5;
const WRONG: usize = WITHOUT_F3 + OPCODES.len();
/// The place behind those.
const OTHER: usize = WRONG + WRONG_PREFIXES.len();
/// Bytes that are nearly an instruction with singles; xx is one of `OPCODES`.
const NEAR_MISSES: [&str; OTHER + 5] = [
    "F3 0F cut",
    "F3 0F xx cut",
    "F3 0F xx cut in its operand",
    "0F 2F cut",
    "0F 2F cut in its operand",
    "0F 10",
    "0F 11",
    "0F 58",
    "0F 59",
    "0F 5C",
    "0F 5D",
    "0F 5E",
    "0F 5F",
    "66 0F xx",
    "F2 0F xx",
    "66 F3 0F xx",
    "F3 66 0F xx",
    "66 F2 0F xx",
    "F2 66 0F xx",
    "F3 F3 0F xx",
    "66 0F 2F",
    "F2 0F 2F",
    "F3 0F 2F",
    "F3 0F with an opcode without F3",
    "F3 0F with no opcode",
];
const STOPS: [&str; 2] = ["in a run", "in a check"];

/// What stopped at a near miss, in the order of `STOPS`.
#[derive(Clone, Copy)]
pub(super) enum Stopped {
    Run,
    Check,
}

/// The groups of steps but for the results, in the order in which they are shown.
#[derive(Clone, Copy)]
enum Kind {
    Classes,
    Operands,
    Flags,
}

/// How the exact result of a calculation with finite numbers compares with a value of at most 25 bits: each value that
/// is worked out for it is exact in 53 bits, or its error is.
fn against(kind: Single, first: f32, second: f32, value: f64) -> Ordering {
    let (first, second) = (f64::from(first), f64::from(second));
    let order = |left: f64, right: f64| left.partial_cmp(&right).expect("both are numbers");
    let sum = |second: f64| {
        let sum = first + second;
        let part = sum - first;
        let error = (first - (sum - part)) + (second - part);
        order(sum, value).then(order(error, 0.0))
    };
    match kind {
        Single::Addss => sum(second),
        Single::Subss => sum(-second),
        Single::Mulss => order(first * second, value),
        // The divisor's sign turns the comparison of the dividend with the value times the divisor.
        _ if second < 0.0 => order(value * second, first),
        _ => order(first, value * second),
    }
}

/// How a finite result of finite numbers was rounded, down meaning toward zero.
fn rounding(kind: Single, first: f32, second: f32, result: u32) -> &'static str {
    let number = |bits: u32| f64::from(f32::from_bits(bits));
    let order = against(kind, first, second, number(result));
    if order == Ordering::Equal {
        return EXACT;
    }
    let negative = result >> 31 == 1;
    let down = (order == Ordering::Greater) != negative;
    let next = if down { result + 1 } else { result - 1 };
    let between = (number(result) + number(next)) / 2.0;
    match down {
        _ if class(next) != Class::Infinity && against(kind, first, second, between) == Ordering::Equal => TIE,
        true => DOWN,
        false => UP,
    }
}

/// The same, with underflow told apart: the exact result lies below the normal numbers.
fn with_underflow(rounding: &'static str, result: u32) -> &'static str {
    let lowest = f32::from_bits(result).abs() == f32::MIN_POSITIVE;
    match (rounding, class(result)) {
        (EXACT, Class::Zero) => EXACT_ZERO,
        (TIE, Class::Zero) => TO_ZERO_TIE,
        (_, Class::Zero) => TO_ZERO,
        (EXACT, Class::Denormal) => EXACT_DENORMAL,
        (DOWN, Class::Denormal) => UNDERFLOW_DOWN,
        (UP, Class::Denormal) => UNDERFLOW_UP,
        (_, Class::Denormal) => UNDERFLOW_TIE,
        (UP, _) if lowest => UNDERFLOW_UP,
        (TIE, _) if lowest => UNDERFLOW_TIE,
        _ => rounding,
    }
}

/// What a calculation with numbers that rounds comes to.
fn calculated(kind: Single, (first, second): (f32, f32), result: u32) -> &'static str {
    match class(result) {
        Class::Quiet => INVALID,
        _ if first.is_infinite() => OF_INFINITY,
        Class::Infinity if second.is_infinite() => OF_INFINITY,
        Class::Infinity if kind == Single::Divss && second == 0.0 => BY_ZERO,
        Class::Infinity => OVERFLOW,
        _ if second.is_infinite() => EXACT_ZERO,
        _ => with_underflow(rounding(kind, first, second, result), result),
    }
}

/// What an operation that chooses or compares finds in numbers.
fn compared((first, second): (f32, f32)) -> &'static str {
    match (first.is_sign_negative(), second.is_sign_negative()) {
        _ if first > second => GREATER,
        _ if first < second => LESS,
        _ if first != 0.0 => EQUAL,
        (false, true) => PLUS_MINUS,
        (true, false) => MINUS_PLUS,
        _ => ZEROS,
    }
}

/// The result of a calculation, or what a comparison without one finds.
fn result(kind: Option<Single>, first: u32, second: u32) -> &'static str {
    let is_nan = |bits| matches!(class(bits), Class::Quiet | Class::Signalling);
    match (numbers(first, second), kind) {
        (None, _) if !is_nan(second) => FIRST_NAN,
        (None, _) if !is_nan(first) => SECOND_NAN,
        (None, _) => BOTH_NANS,
        (Some(both), None | Some(Single::Minss | Single::Maxss)) => compared(both),
        (Some(both), Some(kind)) => calculated(kind, both, calculate(kind, first, second)),
    }
}

/// An instruction with singles: its place in `INSTRUCTIONS`, its calculation, if it has one, and its operands, the one of
/// the reg field first.
fn parts(seen: &Seen) -> Option<(usize, Option<Single>, u8, Operand)> {
    match seen.instruction.operation {
        Operation::Movss(Operand::Xmm(own), other) if seen.instruction.opcode == 0x0F10 => Some((0, None, own, other)),
        Operation::Movss(other, Operand::Xmm(own)) => Some((1, None, own, other)),
        Operation::Single(kind, own, other) => Some((2 + kind as usize, Some(kind), own, other)),
        Operation::Comiss(own, other) => Some((2 + COMISS, None, own, other)),
        _ => None,
    }
}

/// Both operands of a finished calculation or comparison.
fn operands(seen: &Seen) -> Option<(u32, u32)> {
    seen.stepped.ok()?.operands
}

/// Where the operand of the r/m field lies.
fn operand_place(seen: &Seen, own: u8, other: Operand) -> usize {
    match (other, &accesses(seen)[..]) {
        (Operand::Xmm(number), _) => usize::from(number != own),
        (_, accesses) => 2 + accesses[0].holder(seen) as usize,
    }
}

/// The answer and the flags before a finished COMISS.
fn flag_places(seen: &Seen) -> Vec<(Kind, Vec<usize>)> {
    let (Operation::Comiss(..), Ok(step)) = (seen.instruction.operation, seen.stepped) else { return vec![] };
    let answer = ANSWERS.iter().position(|answer| answer.1 == step.flags.values).expect("there are four answers");
    let flags = FLAGS.iter().enumerate();
    flags.map(|(place, &flag)| (Kind::Flags, vec![answer, place, usize::from(seen.before.flag(flag))])).collect()
}

/// Which near miss the bytes are, if they begin no instruction.
fn near_miss(bytes: &[u8]) -> Option<usize> {
    let front = prefixes(bytes);
    let [0x0F, rest @ ..] = &bytes[front.len()..] else { return None };
    let asking = rest.first().and_then(|first| OPCODES.iter().position(|opcode| opcode == first));
    match (front, rest, asking) {
        ([0xF3], [], _) => Some(0),
        ([0xF3], [_], Some(_)) => Some(1),
        ([0xF3], _, Some(_)) => Some(2),
        ([], [0x2F], _) => Some(3),
        ([], [0x2F, ..], _) => Some(4),
        ([], _, Some(opcode)) => Some(WITHOUT_F3 + opcode),
        (_, _, Some(_)) => WRONG_PREFIXES.iter().position(|wrong| *wrong == front).map(|place| WRONG + place),
        ([0x66], [0x2F, ..], _) => Some(OTHER),
        ([0xF2], [0x2F, ..], _) => Some(OTHER + 1),
        ([0xF3], [0x2F, ..], _) => Some(OTHER + 2),
        ([0xF3], [opcode, ..], _) => Some(OTHER + 3 + usize::from(decode(&[0x0F, *opcode]) == Err(Refusal::NoSuch))),
        _ => None,
    }
}

/// Counts of steps with singles and of near misses.
pub(super) struct Singles {
    grids: [Grid; 3],
    /// The places of operations with results in their group.
    rows: BTreeMap<(usize, &'static str), usize>,
    results: Group,
    misses: Grid,
}

impl Singles {
    /// Nothing counted yet.
    pub(super) fn new() -> Self {
        let rows = (0..OPERATIONS.len()).flat_map(|operation| {
            let having = RESULTS.iter().filter(move |(_, operations)| operations.contains(&operation));
            having.map(move |(result, _)| (operation, *result))
        });
        let rows: Vec<(usize, &'static str)> = rows.collect();
        let shapes = rows.iter().map(|(operation, result)| format!("{} {result}", OPERATIONS[*operation]));
        Singles {
            grids: [
                Grid::new("classes of singles", &[&OPERATIONS, &CLASSES, &CLASSES]),
                Grid::new("operands of singles", &[&INSTRUCTIONS, &OPERANDS]),
                Grid::new("flags before COMISS", &[&ANSWER_NAMES, &FLAG_NAMES, &STATES]),
            ],
            results: Group::new("results of singles".to_string(), shapes),
            rows: rows.iter().enumerate().map(|(place, row)| (*row, place)).collect(),
            misses: Grid::new("near misses of singles", &[&NEAR_MISSES, &STOPS]),
        }
    }

    /// The groups but for the results, and the places on their axes, of an instruction that a run came to.
    fn places(seen: &Seen) -> Vec<(Kind, Vec<usize>)> {
        let Some((instruction, _, own, other)) = parts(seen) else { return vec![] };
        let mut places = flag_places(seen);
        places.push((Kind::Operands, vec![instruction, operand_place(seen, own, other)]));
        if let Some((first, second)) = operands(seen) {
            places.push((Kind::Classes, vec![instruction - 2, class(first) as usize, class(second) as usize]));
        }
        places
    }

    /// The place of a finished step's result.
    fn result_place(&self, seen: &Seen) -> Option<usize> {
        let (first, second) = operands(seen)?;
        let (instruction, kind, ..) = parts(seen)?;
        Some(self.rows[&(instruction - 2, result(kind, first, second))])
    }

    /// Counts an instruction that a run came to.
    pub(super) fn saw(&mut self, seen: &Seen) {
        for (kind, places) in Self::places(seen) {
            let grid = &mut self.grids[kind as usize];
            let place = grid.place(&places);
            grid.group.count(place);
        }
        if let Some(place) = self.result_place(seen) {
            self.results.count(place);
        }
    }

    /// Whether the instruction has a shape that never came.
    pub(super) fn is_new(&self, seen: &Seen) -> bool {
        let mut places = Self::places(seen).into_iter();
        let result = self.result_place(seen).is_some_and(|place| self.results.shapes[place].1 == 0);
        result || places.any(|(kind, places)| self.grids[kind as usize].is_new(&places))
    }

    /// Counts the bytes at which a run or a check stopped, if they are a near miss.
    pub(super) fn missed(&mut self, bytes: &[u8], stopped: Stopped) {
        if let Some(miss) = near_miss(bytes) {
            let place = self.misses.place(&[miss, stopped as usize]);
            self.misses.group.count(place);
        }
    }

    /// Whether the bytes at which a run or a check stopped are a near miss that never came.
    pub(super) fn is_new_miss(&self, bytes: &[u8], stopped: Stopped) -> bool {
        near_miss(bytes).is_some_and(|miss| self.misses.is_new(&[miss, stopped as usize]))
    }

    /// How often each operation came, and each of its results.
    pub(super) fn counts(&self) -> Vec<(String, u64)> {
        let operations = OPERATIONS.iter().enumerate().map(|(operation, name)| {
            let rows = self.rows.iter().filter(|((row, _), _)| *row == operation);
            (name.to_string(), rows.map(|(_, &place)| self.results.shapes[place].1).sum())
        });
        operations.chain(self.results.shapes.iter().cloned()).collect()
    }

    /// The groups of steps.
    pub(super) fn steps(&self) -> impl Iterator<Item = &Group> {
        self.grids.iter().map(|grid| &grid.group).chain([&self.results])
    }

    /// The group of near misses.
    pub(super) fn misses(&self) -> &Group {
        &self.misses.group
    }
}
