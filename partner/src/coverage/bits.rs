//! Groups of bit tests, scans, double shifts and conditional moves.

use super::{masked, Group};
use crate::arithmetic::bit_place;
use crate::decode::{Operand, Operation};
use crate::machine::{Machine, Width, CF, ZF};
use crate::run::Seen;
use crate::step::condition;
use crate::text::CONDITIONS;

/// In the order of `BitTest`.
const BIT_TESTS: [&str; 4] = ["BT", "BTS", "BTR", "BTC"];
/// In the order of `Scan`.
const SCANS: [&str; 2] = ["BSF", "BSR"];
/// In the order of `DoubleShift`.
const DOUBLE_SHIFTS: [&str; 2] = ["SHLD", "SHRD"];
const WIDTHS: [&str; 2] = ["16", "32"];
const OPERANDS: [&str; 2] = ["register", "memory"];
const ENDS: [&str; 2] = ["finished", "stopped"];
/// Where a bit's unit lies, seen from the operand's address.
const UNITS: [&str; 5] = ["farthest below", "below", "at", "above", "farthest above"];
/// Which bit a scan found.
const INDEXES: [&str; 4] = ["none", "0", "between", "top"];
/// Widths with counts.
const COUNTS: [&str; 8] = ["16 by 0", "16 by 1", "16 below", "16 at", "16 over", "32 by 0", "32 by 1", "32 below"];

/// A group whose shapes are all combinations of one word of each axis.
pub(super) struct Grid {
    axes: &'static [&'static [&'static str]],
    pub(super) group: Group,
}

impl Grid {
    /// Nothing counted yet.
    pub(super) fn new(title: &str, axes: &'static [&'static [&'static str]]) -> Self {
        let shapes = axes.iter().fold(vec![String::new()], |shapes, axis| {
            shapes.iter().flat_map(|shape| axis.iter().map(move |word| format!("{shape} {word}"))).collect()
        });
        let shapes = shapes.iter().map(|shape| shape.trim_start().to_string());
        Grid { axes, group: Group::new(title.to_string(), shapes) }
    }

    /// The place of the combination with these places on the axes.
    pub(super) fn place(&self, places: &[usize]) -> usize {
        self.axes.iter().zip(places).fold(0, |place, (axis, at)| place * axis.len() + at)
    }

    /// Whether the combination with these places on the axes never came.
    pub(super) fn is_new(&self, places: &[usize]) -> bool {
        self.group.shapes[self.place(places)].1 == 0
    }
}

/// The groups, in the order in which they are shown.
#[derive(Clone, Copy)]
enum Kind {
    Tests,
    Units,
    Scans,
    Shifts,
    Moves,
}

/// The width's place on its axis.
fn width_place(width: Width) -> usize {
    usize::from(width == Width::Dword)
}

/// The operand's place on its axis.
fn operand_place(operand: &Operand) -> usize {
    usize::from(matches!(operand, Operand::Memory(_)))
}

/// Where the unit lies that holds the bit at a signed offset.
fn unit_place(offset: u32, width: Width) -> usize {
    let distance = |offset| bit_place(offset, width).0 as i32;
    let [lowest, highest] = [width.sign(), width.sign() - 1].map(distance);
    match distance(offset) {
        by if by == lowest => 0,
        by if by == highest => 4,
        ..0 => 1,
        0 => 2,
        _ => 3,
    }
}

/// Where a scan's result lies in the source.
fn index_place(after: &Machine, register: u8, width: Width) -> usize {
    match after.register(register, width) {
        _ if after.flag(ZF) => 0,
        0 => 1,
        index if index == width.bits() - 1 => 3,
        _ => 2,
    }
}

/// Where a masked count lies on the axis of counts.
fn count_place(count: u32, width: Width) -> usize {
    let place = match count {
        0 | 1 => count as usize,
        _ if count < width.bits() => 2,
        _ if count == width.bits() => 3,
        _ => 4,
    };
    5 * width_place(width) + place
}

/// The shapes of an instruction that a run came to: the group, and the places on its axes.
fn shapes(seen: &Seen) -> Vec<(Kind, Vec<usize>)> {
    let width = seen.instruction.width;
    let end = usize::from(seen.stepped.is_err());
    match (seen.instruction.operation, seen.stepped) {
        (Operation::BitTest(kind, base, offset), stepped) => {
            let unit = match (base, offset) {
                (Operand::Memory(_), Operand::Register(register)) => {
                    let unit = unit_place(seen.before.register(register, width), width);
                    Some((Kind::Units, vec![width_place(width), unit, end]))
                }
                _ => None,
            };
            let tested = stepped.ok().map(|step| {
                let set = usize::from(step.machine.flag(CF));
                (Kind::Tests, vec![kind as usize, operand_place(&base), set])
            });
            unit.into_iter().chain(tested).collect()
        }
        (Operation::Scan(kind, to, _), Ok(step)) => {
            vec![(Kind::Scans, vec![kind as usize, width_place(width), index_place(&step.machine, to, width)])]
        }
        (Operation::DoubleShift(kind, to, _, count), Ok(_)) => {
            let count = count_place(masked(count, seen.before), width);
            vec![(Kind::Shifts, vec![kind as usize, operand_place(&to), count])]
        }
        (Operation::Cmov(number, ..), _) => {
            let unmet = usize::from(!condition(seen.before, number));
            vec![(Kind::Moves, vec![usize::from(number), unmet, end])]
        }
        _ => vec![],
    }
}

/// Counts of the shapes of all these instructions.
pub(super) struct Bits {
    grids: [Grid; 5],
}

impl Bits {
    /// Nothing counted yet.
    pub(super) fn new() -> Self {
        let grids = [
            Grid::new("bits tested", &[&BIT_TESTS, &OPERANDS, &["clear", "set"]]),
            Grid::new("units of a register's bit offset", &[&WIDTHS, &UNITS, &ENDS]),
            Grid::new("indexes of scans", &[&SCANS, &WIDTHS, &INDEXES]),
            Grid::new("counts of double shifts", &[&DOUBLE_SHIFTS, &OPERANDS, &COUNTS]),
            Grid::new("conditional moves", &[&CONDITIONS, &["met", "not met"], &ENDS]),
        ];
        Bits { grids }
    }

    /// Counts an instruction that a run came to.
    pub(super) fn saw(&mut self, seen: &Seen) {
        for (kind, places) in shapes(seen) {
            let grid = &mut self.grids[kind as usize];
            let place = grid.place(&places);
            grid.group.count(place);
        }
    }

    /// Whether the instruction has a shape that never came.
    pub(super) fn is_new(&self, seen: &Seen) -> bool {
        shapes(seen).into_iter().any(|(kind, places)| self.grids[kind as usize].is_new(&places))
    }

    /// The groups of shapes.
    pub(super) fn groups(&self) -> impl Iterator<Item = &Group> {
        self.grids.iter().map(|grid| &grid.group)
    }
}
