//! Constants: how many there are, and accesses aimed at them, at their ends and beside them.

use super::{Generator, RunCase, Size};
use crate::machine::{write, Width, CONSTANTS_BASE, DATA_BASE, DF, ECX, EDI, ESI, MAX_BYTES};

/// Parts of the names of forms: operands read, changed and written, bit tests, targets, the stack, string instructions.
const KINDS: [&str; 24] = [
    ",m",
    " m",
    " MOV m",
    " SET",
    " BT m16,r",
    " BT m32,r",
    " BTS m16,r",
    " BTC m32,r",
    " JMP m",
    " CALL m",
    " CALL",
    " PUSH m",
    " PUSH",
    " POP",
    " RET",
    " LEAVE",
    " LODS",
    " SCAS",
    " STOS",
    " MOVSB",
    " MOVSW",
    " MOVSD",
    " CMPS",
    " CMPS",
];
/// A share by which about as many accesses are aimed at constants as at data.
pub(super) const HALF: usize = 45;
/// Bytes at an end of long constants that aren't all 0.
const END_BYTES: usize = 16;
/// Most constants of small cases that aren't all 0.
const SHORT: usize = 64;

/// The lent areas of a run's operands, and what accesses are aimed at.
pub(super) struct Areas {
    pub(super) constants: Vec<u8>,
    pub(super) data: Vec<u8>,
    /// In how many of a hundred cases an access is aimed around an end of an area.
    pub(super) ends: usize,
    /// In how many of a hundred other cases it is aimed at the constants.
    pub(super) share: usize,
}

impl Areas {
    /// Gives the bytes of an access a value, if they lie wholly in one of the areas.
    pub(super) fn plant(&mut self, address: u32, width: Width, value: u32) {
        if write(&mut self.data, address, width, value).is_err() {
            // As if the constants lay where data do.
            let moved = address.wrapping_sub(CONSTANTS_BASE - DATA_BASE);
            let _ = write(&mut self.constants, moved, width, value);
        }
    }
}

impl Generator {
    /// A number of constants for this size of case.
    fn constants_length(&mut self) -> usize {
        match (self.size, self.random.below(10)) {
            (_, 0 | 1) => 0,
            (_, 2) => self.random.between(1, 5),
            (Size::Small, 3) => self.random.below(65),
            (Size::Small, _) => self.random.between(4, 16),
            (Size::Large, _) => self.random.below(300),
        }
    }

    /// Areas with data of this length; few accesses are aimed at the constants, none around all ends.
    pub(super) fn areas(&mut self, length: usize) -> Areas {
        let constants = self.constants_length();
        Areas { constants: self.bytes(constants), data: self.bytes(length), ends: 0, share: 10 }
    }

    /// So many constants, all 0 but at their start and, in large cases, at their end.
    pub(super) fn long_constants(&mut self, length: usize) -> Vec<u8> {
        let mut constants = vec![0; length];
        let bytes = self.bytes(END_BYTES);
        constants[..END_BYTES].copy_from_slice(&bytes);
        if self.size == Size::Large {
            constants[length - END_BYTES..].copy_from_slice(&bytes);
        }
        constants
    }

    /// An address at the constants: inside them, around their ends, or beside them where a slip could find a byte.
    pub(super) fn constant_address(&mut self, areas: &Areas) -> u32 {
        let length = areas.constants.len() as u32;
        let end = CONSTANTS_BASE + length;
        let width = self.random.pick(&[1, 2, 4, 4]);
        match self.random.below(20) {
            0..=3 if length >= width => CONSTANTS_BASE + self.random.below((length - width + 1) as usize) as u32,
            4 | 5 => CONSTANTS_BASE,
            6 | 7 => end - width,
            8 | 9 => end + 1 - width,
            10 | 11 => end - self.random.below(4) as u32,
            12 => CONSTANTS_BASE - 1,
            13 | 14 => CONSTANTS_BASE - self.random.between(1, 4) as u32,
            // At an offset that only the other area has.
            15 => CONSTANTS_BASE + self.random.below(areas.data.len() + 1) as u32,
            16 => DATA_BASE + self.random.below(areas.constants.len() + 1) as u32,
            17 => CONSTANTS_BASE + MAX_BYTES as u32 + self.random.below(areas.constants.len() + 1) as u32,
            18 => 0u32.wrapping_sub(self.random.between(1, 5) as u32),
            19 => 0u32.wrapping_sub(width),
            _ => CONSTANTS_BASE + self.random.below(8) as u32,
        }
    }

    /// An instruction whose accesses are mostly aimed at constants, at times at as many as there may be.
    pub fn at_constants(&mut self) -> RunCase {
        let length = self.data_length();
        let mut areas = Areas { share: 85, ..self.areas(length) };
        if self.random.percent(15) {
            let most = self.random.pick(&[MAX_BYTES - 1, MAX_BYTES, MAX_BYTES, MAX_BYTES]);
            areas.constants = self.long_constants(most);
        }
        self.accessing(&KINDS, areas)
    }

    /// An instruction of one of these kinds with these areas; in small cases only few constants aren't 0.
    pub(super) fn accessing(&mut self, kinds: &[&str], areas: Areas) -> RunCase {
        let kind = self.random.pick(kinds);
        let form = self.form_with(kind);
        let mut case = self.single_in(form, areas);
        if self.size == Size::Small {
            case.constants.iter_mut().skip(SHORT).for_each(|byte| *byte = 0);
        }
        case
    }

    /// A repeated string instruction with room for some rounds, mostly from constants, and a budget for a few of them.
    pub(super) fn rounds(&mut self) -> RunCase {
        let form = self.form_with(" REP");
        let areas = Areas { constants: self.bytes(32), ..self.areas(32) };
        let mut case = self.aimed(form, areas);
        let bases = [CONSTANTS_BASE, CONSTANTS_BASE, DATA_BASE];
        let registers = &mut case.machine.regs;
        registers[usize::from(ECX)] = self.random.between(3, 6) as u32;
        registers[usize::from(ESI)] = self.random.pick(&bases) + self.random.below(8) as u32;
        registers[usize::from(EDI)] = DATA_BASE + self.random.between(8, 15) as u32;
        case.machine.flags &= !DF;
        case.budget = self.random.between(1, 3) as u64;
        case
    }
}
