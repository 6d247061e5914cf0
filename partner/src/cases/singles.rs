//! Singles: their bits in XMM registers and memory, pairs of operands, near misses of their opcodes, and blocks that mix
//! them with other instructions.

use super::{give, Areas, Case, CheckCase, Generator, RunCase, Size};
use crate::decode::{Instruction, Operation, Single};
use crate::machine::{Machine, Width, CONSTANTS_BASE, DATA_BASE, EDI, ESI, ESP};
use crate::singles::{Class, INFINITY, QUIET};

/// Parts of the names of forms, MOVSS twice as often as the others.
const KINDS: [&str; 9] = [" MOVSS", " MOVSS", " ADDSS", " MULSS", " SUBSS", " MINSS", " DIVSS", " MAXSS", " COMISS"];
/// Opcodes after F3 0F: MOVSS, then calculations.
const OPCODES: [u8; 8] = [0x10, 0x11, 0x58, 0x59, 0x5C, 0x5D, 0x5E, 0x5F];
/// COMISS's opcode after 0F, which has no F3.
const COMISS: u8 = 0x2F;
/// Other opcodes after 0F, which mean something elsewhere under F3 or exist here without it.
const OTHERS: [u8; 14] = [0x2A, 0x2C, 0x2D, 0x2E, 0x51, 0x5A, 0x5B, 0x6F, 0xAF, 0xB6, 0xBC, 0xBD, 0xC2, 0xC8];
/// Prefixes that no opcode of a single has.
const WRONG_PREFIXES: [&[u8]; 7] =
    [&[0x66], &[0xF2], &[0x66, 0xF3], &[0xF3, 0x66], &[0x66, 0xF2], &[0xF2, 0x66], &[0xF3, 0xF3]];

const CLASSES: [Class; 6] =
    [Class::Zero, Class::Denormal, Class::Normal, Class::Infinity, Class::Quiet, Class::Signalling];
/// Denormals at their ends and amid them.
const DENORMALS: [u32; 7] = [1, 1, 2, 3, 0x0040_0000, 0x007F_FFFE, 0x007F_FFFF];
/// Normal numbers at their ends, around 1, 2^23, 2^24 and 2^64, and 1/2, 3/2, 2, 3, 1/3, 1/10.
const NORMALS: [u32; 24] = [
    0x0080_0000,
    0x0080_0001,
    0x00FF_FFFF,
    0x0100_0000,
    0x3F00_0000,
    0x3F7F_FFFE,
    0x3F7F_FFFF,
    0x3F80_0000,
    0x3F80_0001,
    0x3FC0_0000,
    0x4000_0000,
    0x4040_0000,
    0x3EAA_AAAB,
    0x3DCC_CCCD,
    0x4AFF_FFFF,
    0x4B00_0000,
    0x4B7F_FFFF,
    0x4B80_0000,
    0x5F7F_FFFF,
    0x5F80_0000,
    0x7EFF_FFFF,
    0x7F00_0000,
    0x7F7F_FFFE,
    0x7F7F_FFFF,
];
/// Payloads of NaNs.
const PAYLOADS: [u32; 6] = [1, 2, 0x0020_0000, 0x0012_3456, 0x003F_FFFE, 0x003F_FFFF];
/// Pairs without signs: zeros and infinities, around overflow, with ties at the denormals' lower end, around the normal
/// numbers' lower end, and 1 and 3.
const PAIRS: [(u32, u32); 15] = [
    (0, INFINITY),
    (INFINITY, 0),
    (INFINITY, INFINITY),
    (0x7F7F_FFFF, 0x7300_0000),
    (0x7F7F_FFFF, 0x72FF_FFFF),
    (0x7F7F_FFFF, 0x3F80_0001),
    (0x7F7F_FFFF, 0x3F7F_FFFF),
    (0x0000_0001, 0x3F00_0000),
    (0x0000_0003, 0x3F00_0000),
    (0x0000_0001, 0x4000_0000),
    (0x0000_0003, 0x4000_0000),
    (0x0080_0000, 0x3F7F_FFFF),
    (0x0080_0001, 0x3F7F_FFFE),
    (0x00FF_FFFF, 0x4000_0000),
    (0x3F80_0000, 0x4040_0000),
];
/// Bits of a significand after its first.
const FRACTION: u32 = 23;
/// The exponent field of numbers from 1 to 2.
const ONE: i32 = 127;

/// The number with this exponent field, if numbers have it, else the nearest, and these lower bits.
fn number(exponent: i32, fraction: u32) -> u32 {
    (exponent.clamp(0, 254) as u32) << FRACTION | fraction & ((1 << FRACTION) - 1)
}

impl Generator {
    /// One of the edges, or else a number from first to last.
    fn edge_or_between(&mut self, edges: &[u32], first: u32, last: u32) -> u32 {
        if self.random.percent(50) {
            self.random.pick(edges)
        } else {
            self.random.between(first as usize, last as usize) as u32
        }
    }

    /// A significand's lower bits: few, or any.
    fn fraction(&mut self) -> u32 {
        let bits = self.random.word() & ((1 << FRACTION) - 1);
        match self.random.below(4) {
            0 => bits >> 11 << 11,
            1 => self.random.pick(&[0, 1, 2, 0x0040_0000, 0x007F_FFFE, 0x007F_FFFF]),
            _ => bits,
        }
    }

    /// Bits of a single of this class, of either sign.
    fn single_bits_of(&mut self, class: Class) -> u32 {
        let sign = self.random.word() & 1 << 31;
        let bits = match class {
            Class::Zero => 0,
            Class::Denormal => self.edge_or_between(&DENORMALS, 1, 0x007F_FFFF),
            Class::Normal if self.random.percent(50) => {
                let (exponent, fraction) = (self.random.between(97, 157), self.fraction());
                number(exponent as i32, fraction)
            }
            Class::Normal => self.edge_or_between(&NORMALS, 0x0080_0000, 0x7F7F_FFFF),
            Class::Infinity => INFINITY,
            Class::Quiet => INFINITY | QUIET | self.edge_or_between(&PAYLOADS, 0, 0x003F_FFFF),
            Class::Signalling => INFINITY | self.edge_or_between(&PAYLOADS, 1, 0x003F_FFFF),
        };
        sign | bits
    }

    /// Bits of a single: mostly of a normal number, often of another class, at times any.
    pub(super) fn single_bits(&mut self) -> u32 {
        match self.random.below(10) {
            0 => self.random.word(),
            1..=4 => self.single_bits_of(Class::Normal),
            _ => {
                let class = self.random.pick(&CLASSES);
                self.single_bits_of(class)
            }
        }
    }

    /// Two numbers whose product, or else quotient, has about this exponent field.
    fn at_exponent(&mut self, wanted: i32, divides: bool) -> (u32, u32) {
        let first = self.random.between(1, 254) as i32;
        let second = if divides { first + ONE - wanted } else { wanted + ONE - first };
        (number(first, self.fraction()), number(second, self.fraction()))
    }

    /// A number and about half a unit in its last place.
    fn about_half_a_unit(&mut self) -> (u32, u32) {
        let exponent = self.random.between(26, 254) as i32;
        let fraction = self.fraction();
        let near = self.random.pick(&[0, 0, 0, 1, u32::MAX]);
        let half = number(exponent - FRACTION as i32 - 1, 0).wrapping_add(near);
        (number(exponent, fraction), half)
    }

    /// Two numbers with few bits, whose product is exact or lies just between two singles.
    fn few_bits(&mut self) -> (u32, u32) {
        let short = |generator: &mut Self, bits: u32| {
            let fraction = (generator.random.word() >> (33 - bits) | 1) << (FRACTION + 1 - bits);
            number(generator.random.between(117, 137) as i32, fraction)
        };
        let (first, second) = (self.random.between(2, 13) as u32, self.random.between(2, 13) as u32);
        (short(self, first), short(self, second))
    }

    /// Two operands that belong together, without signs of their own.
    fn pair(&mut self, divides: bool) -> (u32, u32) {
        match self.random.below(10) {
            0 | 1 => self.about_half_a_unit(),
            2 => {
                let exponent = self.random.between(0, 28) as i32 - 26;
                self.at_exponent(exponent, divides)
            }
            3 => {
                let exponent = self.random.between(252, 257) as i32;
                self.at_exponent(exponent, divides)
            }
            4 => self.few_bits(),
            5 => (0, 0),
            _ => self.random.pick(&PAIRS),
        }
    }

    /// First and second operand of a calculation or comparison.
    fn operands(&mut self, divides: bool) -> (u32, u32) {
        let bits = self.single_bits();
        match self.random.below(16) {
            0..=4 => {
                let (first, second) = (self.random.pick(&CLASSES), self.random.pick(&CLASSES));
                (self.single_bits_of(first), self.single_bits_of(second))
            }
            5 => (bits, bits),
            6 => (bits, bits ^ 1 << 31),
            7 => (bits, bits.wrapping_add(self.random.below(5) as u32).wrapping_sub(2)),
            8..=13 => {
                let (first, second) = self.pair(divides);
                let signs = self.random.word();
                (first | signs & 1 << 31, second | signs << 1 & 1 << 31)
            }
            _ => (bits, self.single_bits()),
        }
    }

    /// Gives an instruction with singles two operands, MOVSS one.
    pub(super) fn aim_single(&mut self, instruction: &Instruction, machine: &mut Machine, areas: &mut Areas) {
        let (divides, first, second) = match instruction.operation {
            Operation::Movss(_, from) => {
                let bits = self.single_bits();
                return give(&from, Width::Dword, bits, machine, areas);
            }
            Operation::Single(kind, first, second) => (kind == Single::Divss, first, second),
            Operation::Comiss(first, second) => (false, first, second),
            _ => return,
        };
        let (left, right) = self.operands(divides);
        machine.singles[usize::from(first)] = left;
        give(&second, Width::Dword, right, machine, areas);
    }

    /// One instruction with singles, its memory operand at times in constants or around ends.
    pub fn singles(&mut self) -> RunCase {
        let length = self.data_length();
        let areas = Areas { ends: 10, share: 35, ..self.areas(length) };
        self.accessing(&KINDS, areas)
    }

    /// A calculation or comparison of singles in two XMM registers, without data.
    pub fn calculation(&mut self) -> RunCase {
        let opcode = self.random.pick(&[&OPCODES[2..], &[COMISS]].concat());
        let to = self.random.below(8);
        let from = (to + self.random.between(1, 7)) % 8;
        let code = with_front(opcode, &[0xC0 | (to << 3 | from) as u8]);
        let mut machine = self.machine();
        (machine.singles[to], machine.singles[from]) = self.operands(opcode == 0x5E);
        RunCase { machine, code, constants: vec![], data: vec![], budget: 1 }
    }

    /// An instruction with singles for a block: between XMM registers, or at data or constants.
    fn singles_instruction(&mut self, length: usize) -> Vec<u8> {
        let opcode = self.random.pick(&[&OPCODES[..], &[0x10, 0x11, COMISS]].concat());
        let register = (self.random.below(8) as u8) << 3;
        let operand = match self.random.below(10) {
            0..=4 => vec![0xC0 | register | self.random.below(8) as u8],
            5..=8 => {
                let base = self.random.pick(&[DATA_BASE, DATA_BASE, CONSTANTS_BASE]);
                let aligned = if self.random.percent(75) { !3 } else { !0 };
                let offset = self.random.below(length - 3) as u32 & aligned;
                [&[0x05 | register][..], &(base + offset).to_le_bytes()].concat()
            }
            _ => vec![register | self.random.pick(&[ESI, EDI])],
        };
        with_front(opcode, &operand)
    }

    /// Some instructions with singles and others, after COMISS mostly one that looks at the flags.
    fn singles_parts(&mut self, length: usize) -> Vec<Vec<u8>> {
        let most = if self.size == Size::Small { 4 } else { 30 };
        let mut parts = Vec::new();
        for _ in 0..self.random.between(2, most) {
            if self.random.percent(30) {
                parts.push(self.block_instruction(length));
                continue;
            }
            let bytes = self.singles_instruction(length);
            if bytes[1] == COMISS && self.random.percent(70) {
                let condition = 0x90 + self.random.below(16) as u8;
                parts.push(bytes);
                parts.push(vec![0x0F, condition, 0xC0 | self.random.below(8) as u8]);
            } else {
                parts.push(bytes);
            }
        }
        parts
    }

    /// A block of them, whose data and constants hold singles.
    pub(super) fn singles_block(&mut self) -> RunCase {
        let length = if self.size == Size::Small { 32 } else { 4 * self.random.between(8, 75) };
        let mut parts = self.singles_parts(length);
        parts.push(vec![0xC3]);
        self.shorten(&mut parts);
        let code = self.linked(parts, 3);
        let mut case = self.with_stack(code, length);
        let top = case.machine.regs[usize::from(ESP)] - DATA_BASE;
        for word in case.data[..top as usize].chunks_exact_mut(4).chain(case.constants.chunks_exact_mut(4)) {
            word.copy_from_slice(&self.single_bits().to_le_bytes());
        }
        case.budget = self.random.below(if self.size == Size::Small { 13 } else { 200 }) as u64;
        case
    }

    /// A block of them, stopped by its budget and resumed.
    pub(super) fn singles_resumed(&mut self) -> Case {
        let mut case = self.singles_block();
        case.budget = self.random.below(12) as u64;
        Case::Resume(case, self.random.below(24) as u64)
    }

    /// Bytes that are nearly an instruction with singles: cut, without F3, with wrong prefixes, or with another opcode.
    fn near_miss(&mut self) -> Vec<u8> {
        let length = self.random.pick(&[0, 1, 2, 5, 6]);
        let operand = self.bytes(length);
        let front = self.random.pick(&WRONG_PREFIXES);
        match self.random.below(8) {
            0 => vec![0xF3, 0x0F],
            1 | 2 => {
                let kind = self.random.pick(&KINDS);
                let form = self.form_with(kind);
                let bytes = self.instruction_of(form);
                bytes[..self.random.between(2, bytes.len() - 1)].to_vec()
            }
            3 => [0x0F, self.random.pick(&OPCODES)].into_iter().chain(operand).collect(),
            4 | 5 => [front, &[0x0F, self.random.pick(&OPCODES)], &operand].concat(),
            6 => [self.random.pick(&[0x66, 0xF2, 0xF3]), 0x0F, COMISS].into_iter().chain(operand).collect(),
            _ => [0xF3, 0x0F, self.random.pick(&OTHERS)].into_iter().chain(operand).collect(),
        }
    }

    /// Code that ends with such bytes, after instructions with singles that finish.
    fn near_miss_code(&mut self) -> Vec<u8> {
        let opcodes = [&OPCODES[..], &[COMISS]].concat();
        let mut parts = Vec::new();
        for _ in 0..self.random.below(3) {
            let (opcode, operand) = (self.random.pick(&opcodes), 0xC0 | self.random.byte());
            parts.push(with_front(opcode, &[operand]));
        }
        parts.push(self.near_miss());
        self.shorten(&mut parts);
        parts.concat()
    }

    /// A run of such code.
    pub fn near_miss_run(&mut self) -> RunCase {
        let code = self.near_miss_code();
        let length = self.data_length();
        let Areas { constants, data, .. } = self.areas(length);
        RunCase { machine: self.machine(), code, constants, data, budget: self.random.between(1, 12) as u64 }
    }

    /// A check of such code.
    pub fn near_miss_check(&mut self) -> CheckCase {
        let code = self.near_miss_code();
        let marks = self.bytes(code.len());
        CheckCase { code, marks }
    }
}

/// The opcode after 0F and, where it asks for it, F3, and its operand.
fn with_front(opcode: u8, operand: &[u8]) -> Vec<u8> {
    let front: &[u8] = if opcode == COMISS { &[0x0F] } else { &[0xF3, 0x0F] };
    [front, &[opcode], operand].concat()
}
