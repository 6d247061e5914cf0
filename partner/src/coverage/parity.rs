//! The group of results that PF is taken from, by the ones in the low byte and whether those above it are even or odd.

use super::Group;
use crate::decode::{Alu, Instruction, Operand, Operation};
use crate::machine::{Width, PF};
use crate::run::Seen;

/// Where ones of a low byte are counted.
const SORTS: [&str; 5] = [
    "in a byte",
    "in a word below an even number",
    "in a word below an odd number",
    "in a doubleword below an even number",
    "in a doubleword below an odd number",
];

/// How many different counts a low byte has.
const COUNTS: usize = 9;

/// The register that an operation leaves its result in.
fn destination(operation: Operation) -> Option<u8> {
    match operation {
        Operation::Alu(Alu::Cmp, ..) => None,
        Operation::Alu(_, Operand::Register(to), _)
        | Operation::Inc(Operand::Register(to))
        | Operation::Dec(Operand::Register(to))
        | Operation::Neg(Operand::Register(to))
        | Operation::Shift(_, Operand::Register(to), _)
        | Operation::DoubleShift(_, Operand::Register(to), ..) => Some(to),
        _ => None,
    }
}

/// The place of a finished step that leaves in a register the result by which it writes PF.
fn place(seen: &Seen) -> Option<usize> {
    let Instruction { operation, width, .. } = *seen.instruction;
    let step = seen.stepped.ok().filter(|step| step.flags.written & PF != 0)?;
    let result = step.machine.register(destination(operation)?, width);
    let odd = (result >> 8).count_ones() as usize % 2;
    let sort = match width {
        Width::Byte => 0,
        Width::Word => 1 + odd,
        Width::Dword => 3 + odd,
    };
    Some(COUNTS * sort + (result as u8).count_ones() as usize)
}

/// Counts of results by their ones.
pub(super) struct Parity {
    group: Group,
}

impl Parity {
    /// Nothing counted yet.
    pub(super) fn new() -> Self {
        let shapes = SORTS.iter().flat_map(|sort| (0..COUNTS).map(move |ones| format!("{ones} {sort}")));
        Parity { group: Group::new("counts of ones that decide PF".to_string(), shapes) }
    }

    /// Counts an instruction that a run came to.
    pub(super) fn saw(&mut self, seen: &Seen) {
        if let Some(place) = place(seen) {
            self.group.count(place);
        }
    }

    /// Whether the instruction has a shape that never came.
    pub(super) fn is_new(&self, seen: &Seen) -> bool {
        place(seen).is_some_and(|place| self.group.shapes[place].1 == 0)
    }

    /// The group of shapes.
    pub(super) fn group(&self) -> &Group {
        &self.group
    }
}
