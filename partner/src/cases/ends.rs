//! Accesses aimed around the ends of data, of constants and of all addresses.

use super::constants::Areas;
use super::{Generator, RunCase, Size};
use crate::machine::{CONSTANTS_BASE, DATA_BASE, MAX_BYTES};

/// Parts of the names of forms: operands read, changed and written, bit tests, targets, the stack, string instructions;
/// twice those that few forms have.
const KINDS: [&str; 31] = [
    ",m8", ",m16", ",m32", " m8", " m16", " m32", " MOV m8", " MOV m16", " MOV m16", " MOV m32", " BT m", " BTS m",
    " JMP m", " CALL", " PUSH", " POP", " RET", " LEAVE", " LODS", " SCAS", " STOSB", " STOSW", " STOSW", " STOSD",
    " MOVSB", " MOVSW", " MOVSW", " MOVSD", " MOVSD", " CMPS", " CMPS",
];

/// Lengths of areas shorter than some accesses.
const HARDLY_ANY: [usize; 5] = [0, 1, 1, 2, 3];

impl Generator {
    /// An address of an access that may lie in part beyond an end.
    pub(super) fn end_address(&mut self, areas: &Areas) -> u32 {
        let data_end = DATA_BASE + areas.data.len() as u32;
        let constants_end = CONSTANTS_BASE + areas.constants.len() as u32;
        let end = self.random.pick(&[DATA_BASE, data_end, CONSTANTS_BASE, constants_end, 0]);
        end.wrapping_sub(self.random.below(5) as u32)
    }

    /// An instruction whose accesses are mostly aimed around ends, at times of areas with hardly any byte or with as
    /// many as there may be.
    pub fn at_ends(&mut self) -> RunCase {
        let length = self.data_length();
        let mut areas = Areas { ends: 70, ..self.areas(length) };
        match self.random.below(4) {
            0 => areas.data.truncate(self.random.pick(&HARDLY_ANY)),
            1 if self.size == Size::Large => areas.data = vec![0; MAX_BYTES],
            _ => {}
        }
        match self.random.below(4) {
            0 => areas.constants.truncate(self.random.pick(&HARDLY_ANY)),
            1 => areas.constants = self.long_constants(MAX_BYTES),
            _ => {}
        }
        self.accessing(&KINDS, areas)
    }
}
