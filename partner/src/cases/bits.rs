//! Bit tests, scans, double shifts and conditional moves: offsets, sources and counts.

use super::{give, Areas, Generator, RunCase};
use crate::arithmetic::bit_place;
use crate::decode::{Instruction, Operand, Operation};
use crate::machine::{Machine, Width, ECX};

/// Parts of the names of forms, bit tests three times as often as the others.
const KINDS: [&str; 8] = [" BT", " BT", " BT", " BSF ", " BSR ", " SHLD ", " SHRD ", " CMOV"];
/// Double shift counts around 0 and both widths.
const COUNTS: [u8; 12] = [0, 1, 1, 2, 7, 15, 16, 16, 17, 18, 30, 31];
/// The bits of a count that don't count.
const IGNORED: u8 = 0xE0;

impl Generator {
    /// A bit test, scan, double shift or conditional move.
    pub fn bits(&mut self) -> RunCase {
        let kind = self.random.pick(&KINDS);
        let form = self.form_with(kind);
        self.single_of(form)
    }

    /// A signed bit offset: in the first unit, around units on either side, up to 512 bytes away, around both ends of
    /// the signed numbers, or any.
    fn bit_offset(&mut self, width: Width) -> u32 {
        let near = (self.random.below(5) as u32).wrapping_sub(2);
        match self.random.below(10) {
            0 | 1 => self.random.below(width.bits() as usize) as u32,
            2..=5 => (self.random.below(9) as u32).wrapping_sub(4).wrapping_mul(width.bits()).wrapping_add(near),
            6 => (self.random.below(8192) as u32).wrapping_sub(4096),
            7 | 8 => width.sign().wrapping_add(near),
            _ => self.value(),
        }
    }

    /// Gives a bit test's register an offset into memory, and tells how far from the operand's address to aim: mostly
    /// as far as the unit with the bit lies.
    pub(super) fn aim_bit(&mut self, instruction: &Instruction, machine: &mut Machine) -> u32 {
        let Operation::BitTest(_, Operand::Memory(_), Operand::Register(register)) = instruction.operation else {
            return 0;
        };
        let offset = self.bit_offset(instruction.width);
        machine.set_register(register, instruction.width, offset);
        if self.random.percent(75) {
            bit_place(offset, instruction.width).0
        } else {
            0
        }
    }

    /// Gives a scan a source with no bit, one bit or few bits.
    pub(super) fn aim_scan(&mut self, source: &Operand, width: Width, machine: &mut Machine, areas: &mut Areas) {
        let bit = 1 << self.random.below(width.bits() as usize);
        let value = match self.random.below(6) {
            0 | 1 => 0,
            2 => 1,
            3 => width.sign(),
            4 => bit,
            _ => bit | 1 << self.random.below(width.bits() as usize),
        };
        give(source, width, value, machine, areas);
    }

    /// Gives a double shift a count around 0, its width or 32.
    pub(super) fn aim_count(&mut self, count: &Operand, code: &mut [u8], machine: &mut Machine) {
        let ignored = if self.random.percent(30) { self.random.byte() & IGNORED } else { 0 };
        let value = self.random.pick(&COUNTS) | ignored;
        match count {
            Operand::Register(_) => machine.set_register(ECX, Width::Byte, u32::from(value)),
            _ => *code.last_mut().expect("an instruction has bytes") = value,
        }
    }
}
