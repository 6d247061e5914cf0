//! Random cases: single instructions, whole blocks, refused inputs, broken code, block checks and hex files.

mod bits;
mod constants;
mod ends;
mod hex;
mod rooms;
mod singles;

use std::collections::BTreeMap;

use self::constants::{Areas, HALF};
use crate::decode::{decode, Address, Instruction, Operand, Operation, Text, PREFIXES};
use crate::machine::{
    write, Machine, Width, ALWAYS, CODE_BASE, CONSTANTS_BASE, DATA_BASE, DF, EAX, EBP, ECX, EDI, EDX, ESI, ESP, HOME,
    KNOWN, MAX_BUDGET, MAX_BYTES,
};
use crate::random::Random;
use crate::run::run;
use crate::step::effective_address;
use crate::text::form;

/// Inputs of one run.
#[derive(Clone, Debug)]
pub struct RunCase {
    pub machine: Machine,
    pub code: Vec<u8>,
    pub constants: Vec<u8>,
    pub data: Vec<u8>,
    pub budget: u64,
}

/// Inputs of one block check.
#[derive(Clone, Debug)]
pub struct CheckCase {
    pub code: Vec<u8>,
    pub marks: Vec<u8>,
}

/// Inputs of one reading of a hex file.
#[derive(Clone, Debug)]
pub struct HexCase {
    pub text: Vec<u8>,
    /// The lent code area.
    pub area: Vec<u8>,
}

/// One random case.
#[derive(Clone, Debug)]
pub enum Case {
    Run(RunCase),
    /// A run of the budget, then one of so many more steps, beside one run of both together.
    Resume(RunCase, u64),
    Check(CheckCase),
    /// A run whose state area has so many words, not 20.
    StateLength(RunCase, usize),
    /// A check whose answer area has so many words, not 1.
    AnswerLength(CheckCase, usize),
    Hex(HexCase),
    /// A reading whose answer area has so many words, not 1.
    HexAnswerLength(HexCase, usize),
}

/// One instruction form with all byte strings, up to the byte after the opcode, that begin it.
#[derive(Default)]
struct Form {
    name: String,
    starts: Vec<Vec<u8>>,
    /// Those of the starts that a SIB byte follows.
    with_sib: Vec<Vec<u8>>,
}

/// How big the cases are.
#[derive(Clone, Copy, PartialEq, Eq)]
pub enum Size {
    /// Code up to 16 bytes, data and constants up to 64, budgets up to 12; longer only if refused for it, and then all
    /// 0, or constants that are 0 from the 65th byte on. Hex files up to 220 characters, with areas that hold only
    /// zeros from the 65th byte on.
    Small,
    /// Data and constants up to a few hundred bytes, at times as many as there may be, blocks of many instructions,
    /// code that goes round in more than 64 bytes, hex files that fill the whole block.
    Large,
}

/// A seeded source of cases.
pub struct Generator {
    random: Random,
    forms: Vec<Form>,
    size: Size,
    made: usize,
    hexes: usize,
}

/// Edge values of 32 bits; their low parts are edges of 8 and 16 bits.
const EDGES: [u32; 20] = [
    0,
    1,
    2,
    0x7F,
    0x80,
    0xFF,
    0x100,
    0x7FFF,
    0x8000,
    0xFFFF,
    0x0001_0000,
    0x7FFF_FFFF,
    0x8000_0000,
    0x8000_0001,
    0xFFFF_FF7F,
    0xFFFF_FF80,
    0xFFFF_7FFF,
    0xFFFF_8000,
    0xFFFF_FFFE,
    0xFFFF_FFFF,
];

/// Longest byte string that may follow a form's start.
const LONGEST_TAIL: usize = 11;

/// All instruction forms, found by trying every prefix order, opcode and next byte.
fn all_forms() -> Vec<Form> {
    let mut forms: BTreeMap<String, Form> = BTreeMap::new();
    let opcodes = (0..=0xFFu8).map(|byte| vec![byte]).chain((0..=0xFFu8).map(|byte| vec![0x0F, byte]));
    for opcode in opcodes {
        for prefixes in PREFIXES {
            for next in 0..=0xFFu8 {
                let mut bytes = [prefixes, &opcode, &[next]].concat();
                let start = bytes.len();
                bytes.extend([0; LONGEST_TAIL]);
                if matches!(opcode[0], 0x66 | 0xF2 | 0xF3) {
                    continue;
                }
                if let Ok(instruction) = decode(&bytes) {
                    bytes.truncate(start.min(instruction.length as usize));
                    let name = form(&bytes, &instruction);
                    let form = forms.entry(name.clone()).or_insert(Form { name, ..Form::default() });
                    if form.starts.last() == Some(&bytes) {
                        continue;
                    }
                    let scaled = next < 0xC0 && next & 7 == ESP && !matches!(opcode[0], 0xA0..=0xA3);
                    if scaled && instruction.memory().is_some() {
                        form.with_sib.push(bytes.clone());
                    }
                    form.starts.push(bytes);
                }
            }
        }
    }
    forms.into_values().collect()
}

impl Generator {
    /// A source that gives the same cases for the same seed and size.
    pub fn new(seed: u64, size: Size) -> Self {
        Generator { random: Random::new(seed), forms: all_forms(), size, made: 0, hexes: 0 }
    }

    /// The names of all instruction forms.
    pub fn form_names(&self) -> impl Iterator<Item = &str> {
        self.forms.iter().map(|form| form.name.as_str())
    }

    /// The next case, at least one in seven a hex file; single instructions go through all forms in turn.
    pub fn next_case(&mut self) -> Case {
        // Vectors have steps for each form beside these cases, so among these more are hex files and checks.
        let kinds = if self.size == Size::Small { 1960 } else { 1600 };
        match self.random.below(kinds) {
            0..=99 if self.size == Size::Small => Case::Check(self.check_whole()),
            100..=119 if self.size == Size::Small => Case::Check(self.check_lengths()),
            0..=589 => Case::Run(self.single()),
            590..=649 | 1325..=1344 => Case::Run(self.bits()),
            700..=719 if self.size == Size::Large => Case::Run(self.rooms()),
            720..=729 if self.size == Size::Large => self.rooms_resumed(),
            650..=729 => Case::Run(self.block_run()),
            730..=779 => self.resumed(),
            780..=809 => Case::Run(self.random_bytes()),
            810..=829 => Case::Run(self.division()),
            830..=859 => Case::Run(self.cut_off()),
            860..=889 => Case::Run(self.odd_eip()),
            890..=909 => Case::Run(self.refused()),
            910..=914 if self.size == Size::Large => Case::Run(self.at_limits()),
            910..=914 => Case::Run(self.refused()),
            915..=939 => Case::Check(self.check_whole()),
            940..=969 => Case::Check(self.check_broken()),
            970..=989 => Case::Check(self.check_lengths()),
            990..=994 => {
                let length = self.random.pick(&[0, 1, 12, 18, 19, 21, 40]);
                Case::StateLength(self.single(), length)
            }
            995..=999 => {
                let length = self.random.pick(&[0, 2, 3]);
                Case::AnswerLength(self.check_whole(), length)
            }
            1000..=1004 => {
                let length = self.random.pick(&[0, 2, 3]);
                Case::HexAnswerLength(self.hex(), length)
            }
            1005..=1084 => Case::Run(self.at_constants()),
            1085..=1164 | 1345..=1364 => Case::Run(self.at_ends()),
            1165..=1264 => Case::Run(self.singles()),
            1265..=1279 => Case::Run(self.singles_block()),
            1280..=1294 => self.singles_resumed(),
            1295..=1309 => Case::Run(self.near_miss_run()),
            1310..=1324 => Case::Check(self.near_miss_check()),
            _ => Case::Hex(self.hex()),
        }
    }

    /// An edge value, a value near one, or any value.
    fn value(&mut self) -> u32 {
        match self.random.below(10) {
            0..=3 => self.random.pick(&EDGES),
            4 => self.random.pick(&EDGES).wrapping_add(self.random.below(5) as u32).wrapping_sub(2),
            5 => self.random.below(300) as u32,
            _ => self.random.word(),
        }
    }

    /// Bytes that are random, all alike, or mostly edges.
    fn bytes(&mut self, length: usize) -> Vec<u8> {
        let same = self.random.byte();
        match self.random.below(4) {
            0 => vec![same; length],
            1 => (0..length).map(|_| self.random.pick(&[same, same, same, 0, 0xFF])).collect(),
            2 => (0..length).map(|_| self.random.pick(&[0, 1, 0x7F, 0x80, 0xFF, same])).collect(),
            _ => (0..length).map(|_| self.random.byte()).collect(),
        }
    }

    /// A valid flags word.
    fn flags(&mut self) -> u32 {
        self.random.word() & KNOWN | ALWAYS
    }

    /// A data length for this size of case.
    fn data_length(&mut self) -> usize {
        match (self.size, self.random.below(10)) {
            (_, 0) => self.random.below(5),
            (Size::Small, 1) => self.random.below(65),
            (Size::Small, _) => self.random.between(4, 16),
            (Size::Large, _) => self.random.below(300),
        }
    }

    /// A machine with random registers and singles at the code's start.
    fn machine(&mut self) -> Machine {
        let mut regs = [0; 8];
        for value in &mut regs {
            *value = self.value();
        }
        let mut singles = [0; 8];
        for bits in &mut singles {
            *bits = self.single_bits();
        }
        Machine { regs, eip: CODE_BASE, flags: self.flags(), singles }
    }

    /// An address for an access: by their shares around ends or at the constants, else mostly inside the data, often
    /// across an end of it, at times far away.
    fn address(&mut self, areas: &Areas) -> u32 {
        if self.random.percent(areas.ends) {
            return self.end_address(areas);
        }
        if self.random.percent(areas.share) {
            return self.constant_address(areas);
        }
        let length = areas.data.len();
        let width = self.random.pick(&[1usize, 2, 4]);
        let end = DATA_BASE + length as u32;
        match self.random.below(20) {
            0..=11 if length >= width => DATA_BASE + self.random.below(length - width + 1) as u32,
            12 | 13 => end.wrapping_sub(self.random.below(6) as u32),
            14 | 15 => end - width as u32,
            16 => DATA_BASE.wrapping_sub(self.random.below(5) as u32),
            17 => 0u32.wrapping_sub(self.random.below(5) as u32),
            18 => CODE_BASE + self.random.below(8) as u32,
            19 => self.value(),
            _ => DATA_BASE,
        }
    }

    /// A random instruction of a form, with random displacement and immediate.
    fn instruction_of(&mut self, form: usize) -> Vec<u8> {
        let pick = self.random.below(self.forms[form].starts.len());
        self.completed(self.forms[form].starts[pick].clone())
    }

    /// The same, if the form has memory operands often with any SIB byte.
    fn instruction_with_sib_of(&mut self, form: usize) -> Vec<u8> {
        let count = self.forms[form].with_sib.len();
        if count == 0 || self.random.percent(60) {
            return self.instruction_of(form);
        }
        let mut bytes = self.forms[form].with_sib[self.random.below(count)].clone();
        bytes.push(self.random.byte());
        self.completed(bytes)
    }

    /// The instruction that begins so, with random bytes behind.
    fn completed(&mut self, mut bytes: Vec<u8>) -> Vec<u8> {
        let tail = match self.random.below(3) {
            0 => (0..LONGEST_TAIL).map(|_| self.random.byte()).collect(),
            1 => self.bytes(LONGEST_TAIL),
            _ => (0..3).flat_map(|_| self.value().to_le_bytes()).collect(),
        };
        bytes.extend(tail);
        let length = decode(&bytes).expect("a form's start begins an instruction").length;
        bytes.truncate(length as usize);
        bytes
    }

    /// A random form whose name has this part.
    fn form_with(&mut self, part: &str) -> usize {
        let having: Vec<usize> = (0..self.forms.len()).filter(|&form| self.forms[form].name.contains(part)).collect();
        self.random.pick(&having)
    }

    /// A random instruction of any form.
    fn instruction(&mut self) -> Vec<u8> {
        let form = self.random.below(self.forms.len());
        self.instruction_of(form)
    }

    /// One instruction of the next form in turn.
    pub fn single(&mut self) -> RunCase {
        let form = self.made % self.forms.len();
        self.made += 1;
        self.single_of(form)
    }

    /// A single instruction of the form that finishes its step.
    pub fn finishing(&mut self, form: usize) -> RunCase {
        loop {
            let case = RunCase { budget: 1, ..self.single_of(form) };
            if run(case.machine, &case.code, &case.constants, &mut case.data.clone(), 1).steps == 1 {
                return case;
            }
        }
    }

    /// One instruction of the next form in turn, alone in its code, with data and constants of the given length.
    pub fn alone(&mut self, length: usize) -> RunCase {
        let form = self.made % self.forms.len();
        self.made += 1;
        let areas = Areas { constants: self.bytes(length), ..self.areas(length) };
        self.aimed(form, areas)
    }

    /// One instruction alone in its code, with registers and areas that give it something to do.
    fn aimed(&mut self, form: usize, mut areas: Areas) -> RunCase {
        let mut code = self.instruction_with_sib_of(form);
        let mut machine = self.machine();
        self.aim(&mut code, &mut machine, &mut areas);
        let Areas { constants, data, .. } = areas;
        RunCase { machine, code, constants, data, budget: 1 }
    }

    /// One instruction, at times with other bytes before or behind it.
    fn single_of(&mut self, form: usize) -> RunCase {
        let length = self.data_length();
        let areas = self.areas(length);
        self.single_in(form, areas)
    }

    /// One instruction with these areas, at times with other bytes before or behind it.
    fn single_in(&mut self, form: usize, areas: Areas) -> RunCase {
        let RunCase { mut machine, mut code, constants, data, .. } = self.aimed(form, areas);
        let room = if self.size == Size::Small { 4 } else { 20 };
        if self.random.percent(20) {
            let before = self.random.below(room);
            let front = self.bytes(before);
            machine.eip += before as u32;
            code.splice(0..0, front);
        }
        if self.random.percent(30) {
            let after = self.random.below(room);
            code.extend(self.bytes(after));
        }
        code.truncate(if self.size == Size::Small { 16 } else { code.len() });
        let budget = match self.random.below(20) {
            0 => 0,
            1..=14 => 1,
            _ => self.random.between(2, 12) as u64,
        };
        RunCase { machine, code, constants, data, budget }
    }

    /// Changes displacement, registers and areas so that the instruction's accesses are interesting.
    fn aim(&mut self, code: &mut [u8], machine: &mut Machine, areas: &mut Areas) {
        let instruction = decode(code).expect("the code is an instruction");
        match instruction.operation {
            Operation::Shift(_, _, Operand::Register(ECX)) if self.random.percent(70) => {
                machine.set_register(ECX, Width::Byte, u32::from(self.random.byte()));
            }
            Operation::Push(_) | Operation::Call(_) => {
                machine.regs[usize::from(ESP)] = self.address(areas).wrapping_add(4);
            }
            Operation::Pop(_) | Operation::Ret(_) => {
                let top = self.address(areas);
                machine.regs[usize::from(ESP)] = top;
                let word = self.random.pick(&[HOME, CODE_BASE, CODE_BASE + 1, DATA_BASE]);
                if self.random.percent(70) {
                    areas.plant(top, Width::Dword, word);
                }
            }
            Operation::Leave => machine.regs[usize::from(EBP)] = self.address(areas),
            Operation::Text(_) => self.aim_text(&instruction, machine, areas),
            Operation::Loop(..) => machine.regs[usize::from(ECX)] = self.random.pick(&[0, 1, 2, 0xFFFF_FFFF]),
            _ => {}
        }
        let distance = self.aim_bit(&instruction, machine);
        if let Some(address) = instruction.memory() {
            self.aim_memory(&address, distance, code, machine, areas);
        }
        match instruction.operation {
            Operation::Div(operand) | Operation::Idiv(operand) if self.random.percent(60) => {
                self.aim_division(&instruction, &operand, machine, areas);
            }
            Operation::Scan(_, _, source) if self.random.percent(60) => {
                self.aim_scan(&source, instruction.width, machine, areas);
            }
            Operation::DoubleShift(.., count) if self.random.percent(80) => self.aim_count(&count, code, machine),
            Operation::Movss(..) | Operation::Single(..) | Operation::Comiss(..) if self.random.percent(90) => {
                self.aim_single(&instruction, machine, areas);
            }
            _ => {}
        }
    }

    /// Points ESI and EDI at the areas and makes ECX a small count.
    fn aim_text(&mut self, instruction: &Instruction, machine: &mut Machine, areas: &Areas) {
        let destination = self.address(areas);
        machine.regs[usize::from(ESI)] = self.address(areas);
        machine.regs[usize::from(EDI)] = destination;
        if self.random.percent(85) {
            machine.regs[usize::from(ECX)] = self.random.below(20) as u32;
        }
        let compares = instruction.operation == Operation::Text(Text::Scas);
        let bytes = if destination < CONSTANTS_BASE { &areas.data } else { &areas.constants };
        if compares && !bytes.is_empty() && self.random.percent(50) {
            let byte = u32::from(bytes[self.random.below(bytes.len())]);
            machine.regs[usize::from(EAX)] = byte * 0x0101_0101;
        }
    }

    /// Moves a memory operand so that the access, so far from the operand's address, is at an interesting one.
    fn aim_memory(&mut self, address: &Address, distance: u32, code: &mut [u8], machine: &mut Machine, areas: &Areas) {
        let wanted = self.address(areas).wrapping_sub(distance);
        let missing = |machine: &Machine| wanted.wrapping_sub(effective_address(machine, address));
        match address.base {
            Some(base) if self.random.percent(90) => {
                // A base that is the index too stands in the sum 1 + scale times.
                let times = address.index.filter(|&(index, _)| index == base).map_or(1, |(_, scale)| 1 + scale);
                machine.regs[usize::from(base)] = 0;
                machine.regs[usize::from(base)] = part(missing(machine), times);
            }
            _ => {
                let old = address.displacement;
                replace_displacement(code, old, old.wrapping_add(missing(machine)));
            }
        }
    }

    /// Picks divisor, quotient and remainder and makes the dividend from them.
    fn aim_division(&mut self, instruction: &Instruction, operand: &Operand, machine: &mut Machine, areas: &mut Areas) {
        let width = instruction.width;
        let signed = matches!(instruction.operation, Operation::Idiv(_));
        let divisor = self.value() & width.mask();
        if !matches!(operand, Operand::Register(EAX | EDX)) {
            give(operand, width, divisor, machine, areas);
        }
        let half = 1i128 << (width.bits() - 1);
        let near = self.random.below(5) as i128 - 2;
        let (by, quotient) = if signed {
            (i128::from(width.signed(divisor)), self.random.pick(&[-half, half, 0, half / 2]) + near)
        } else {
            (i128::from(divisor), self.random.pick(&[2 * half, half, 0]) + near)
        };
        let rest = i128::from(self.random.word()) % by.abs().max(1);
        let product = by * quotient;
        let dividend = if product < 0 { product - rest } else { product + rest };
        machine.set_register(EAX, width, dividend as u32);
        let high = (dividend >> width.bits()) as u32;
        match width {
            Width::Byte => machine.set_register(EAX, Width::Word, dividend as u32 & 0xFFFF),
            _ => machine.set_register(EDX, width, high),
        }
    }

    /// Instructions whose relative jumps land on starts, or miss in so many of a hundred cases.
    fn linked(&mut self, mut instructions: Vec<Vec<u8>>, misses: usize) -> Vec<u8> {
        let starts: Vec<usize> = instructions
            .iter()
            .scan(0, |at, bytes| {
                let start = *at;
                *at += bytes.len();
                Some(start)
            })
            .collect();
        for (bytes, start) in instructions.iter_mut().zip(&starts) {
            let instruction = decode(bytes).expect("every part is an instruction");
            if instruction.displacement().is_none() || self.random.percent(misses) {
                continue;
            }
            let next = (start + bytes.len()) as i64;
            let size = if matches!(instruction.opcode, 0xE8 | 0xE9 | 0x0F80..=0x0F8F) { 4 } else { 1 };
            let near: Vec<i64> = starts
                .iter()
                .map(|&target| target as i64 - next)
                .filter(|&by| size == 4 || i8::try_from(by).is_ok())
                .collect();
            let mut by = self.random.pick(&near);
            if self.random.percent(misses) {
                by += self.random.pick(&[-1, 1]);
            }
            let at = bytes.len() - size;
            bytes[at..].copy_from_slice(&(by as u32).to_le_bytes()[..size]);
        }
        instructions.concat()
    }

    /// An instruction for a block; its memory operand mostly lies in the data, at times in the constants.
    fn block_instruction(&mut self, length: usize) -> Vec<u8> {
        let mut bytes = match self.random.below(10) {
            0 => self.flow_instruction(),
            _ => self.instruction(),
        };
        let instruction = decode(&bytes).expect("the bytes are an instruction");
        let Some(address) = instruction.memory() else { return bytes };
        let absolute = address.base.is_none() && address.index.is_none();
        if absolute && self.random.percent(90) {
            let base = if self.random.percent(10) { CONSTANTS_BASE } else { DATA_BASE };
            let wanted = base + self.random.below(length.max(5) - 4) as u32;
            replace_displacement(&mut bytes, address.displacement, wanted);
            return bytes;
        }
        // Other addressing forms mostly stop a block, so most of them are drawn again.
        if !absolute && self.random.percent(85) {
            return self.block_instruction(length);
        }
        bytes
    }

    /// A jump, call, loop or return.
    fn flow_instruction(&mut self) -> Vec<u8> {
        let opcode: &[u8] = self.random.pick(&[
            &[0xE8][..],
            &[0xE9],
            &[0xEB],
            &[0xC3],
            &[0xE2],
            &[0xE0],
            &[0xE1],
            &[0xE3],
            &[0x0F, 0x85],
            &[0x75],
            &[0x72],
            &[0x7C],
        ]);
        let mut bytes = [opcode, &[0; 4]].concat();
        let length = decode(&bytes).expect("the bytes are an instruction").length;
        bytes.truncate(length as usize);
        bytes
    }

    /// Leaves out the first parts of a small case's code that has more than 16 bytes.
    fn shorten(&self, parts: &mut Vec<Vec<u8>>) {
        while self.size == Size::Small && parts.iter().map(Vec::len).sum::<usize>() > 16 {
            parts.remove(0);
        }
    }

    /// A whole block with a stack whose top holds home.
    fn block_run(&mut self) -> RunCase {
        let length = if self.size == Size::Small { 32 } else { self.random.between(32, 300) };
        let most = if self.size == Size::Small { 4 } else { 40 };
        let count = self.random.between(1, most);
        let mut parts: Vec<Vec<u8>> = (0..count).map(|_| self.block_instruction(length)).collect();
        if self.random.percent(80) {
            parts.push(vec![0xC3]);
        }
        self.shorten(&mut parts);
        let code = self.linked(parts, 3);
        let mut case = self.with_stack(code, length);
        case.budget = match (self.size, self.random.below(2000)) {
            (Size::Small, _) => self.random.below(13) as u64,
            (_, 0) => MAX_BUDGET,
            (_, 1..=500) => self.random.below(30) as u64,
            _ => self.random.below(2000) as u64,
        };
        case
    }

    /// The code with data in which a stack's top holds home, and EBP, ESI and EDI point, ESI at times into as many
    /// constants; no budget yet.
    fn with_stack(&mut self, code: Vec<u8>, length: usize) -> RunCase {
        let mut machine = self.machine();
        let mut data = self.bytes(length);
        let top = DATA_BASE + length as u32 - 4 * self.random.between(1, 4) as u32;
        machine.regs[usize::from(ESP)] = top;
        write(&mut data, top, Width::Dword, HOME).expect("the stack lies in the data");
        for register in [EBP, ESI, EDI] {
            machine.regs[usize::from(register)] = DATA_BASE + self.random.below(length) as u32;
        }
        if self.random.percent(25) {
            machine.regs[usize::from(ESI)] = CONSTANTS_BASE + self.random.below(length) as u32;
        }
        machine.regs[usize::from(ECX)] = self.random.below(30) as u32;
        RunCase { machine, code, constants: self.bytes(length), data, budget: 0 }
    }

    /// A repeated string instruction or a block, stopped by its budget and resumed.
    fn resumed(&mut self) -> Case {
        let mut case = match self.random.below(10) {
            0..=2 => self.block_run(),
            3..=5 => return Case::Resume(self.rounds(), self.random.below(24) as u64),
            _ => {
                let form = self.form_with(" REP");
                let length = self.data_length().max(8);
                let areas = Areas { share: HALF, ..self.areas(length) };
                let mut case = self.aimed(form, areas);
                case.machine.flags &= if self.random.percent(60) { !DF } else { u32::MAX };
                case
            }
        };
        case.budget = self.random.below(12) as u64;
        Case::Resume(case, self.random.below(24) as u64)
    }

    /// A division, signed or not.
    fn division(&mut self) -> RunCase {
        let form = self.form_with("DIV ");
        self.single_of(form)
    }

    /// Random bytes as code.
    fn random_bytes(&mut self) -> RunCase {
        let longest = if self.size == Size::Small { 16 } else { 40 };
        let length = self.random.between(1, longest);
        let mut code: Vec<u8> = (0..length).map(|_| self.random.byte()).collect();
        if self.random.percent(40) {
            let front = [0x66, 0xF2, 0xF3, 0x0F];
            for byte in code.iter_mut().take(2) {
                *byte = self.random.pick(&front);
            }
        }
        let length = self.data_length();
        let Areas { constants, data, .. } = self.areas(length);
        RunCase { machine: self.machine(), code, constants, data, budget: self.random.between(1, 12) as u64 }
    }

    /// Code that ends inside an instruction.
    fn cut_off(&mut self) -> RunCase {
        let mut case = self.single();
        let mut code = self.instruction();
        let keep = self.random.between(1, code.len());
        code.truncate(keep);
        case.machine.eip = CODE_BASE;
        case.code = code;
        case
    }

    /// EIP at home, outside the code, at its ends, or inside an instruction.
    fn odd_eip(&mut self) -> RunCase {
        let long = self.size == Size::Large && self.random.percent(20);
        let mut case = if long { self.rooms() } else { self.single() };
        let end = CODE_BASE + case.code.len() as u32;
        let kinds = if self.size == Size::Small { 10 } else { 20 };
        case.machine.eip = match self.random.below(kinds) {
            0..=2 => HOME,
            3 => HOME.wrapping_add(self.random.pick(&[1, u32::MAX])),
            4 => end,
            5 => end - 1,
            6 => CODE_BASE - 1,
            7 => self.value(),
            8 | 9 => CODE_BASE + self.random.below(case.code.len() + 1) as u32,
            _ => self.outside(case.code.len()),
        };
        case
    }

    /// Inputs that numbers 10 to 13 and 15 refuse, alone or together.
    pub fn refused(&mut self) -> RunCase {
        let mut case = self.single();
        let which = match self.random.below(7) {
            0 | 1 => self.random.between(1, 31),
            only => 1 << (only - 2),
        };
        if which & 1 != 0 {
            let length = self.random.pick(&[0, 0, MAX_BYTES + 1, MAX_BYTES + 3]);
            case.code = vec![0; length];
        }
        if which & 2 != 0 {
            case.data = vec![0; self.random.pick(&[MAX_BYTES + 1, MAX_BYTES + 2])];
        }
        if which & 4 != 0 {
            case.machine.flags = match self.random.below(3) {
                0 => case.machine.flags & !ALWAYS,
                1 => case.machine.flags | 1 << self.random.pick(&[3, 5, 8, 9, 12, 13, 14, 15, 16, 21, 31]),
                _ => self.random.word() | 8,
            };
        }
        if which & 8 != 0 {
            case.budget = self.random.pick(&[MAX_BUDGET + 1, MAX_BUDGET + 2, 1 << 32, u64::MAX]);
        }
        if which & 16 != 0 {
            case.constants = vec![0; self.random.pick(&[MAX_BYTES + 1, MAX_BYTES + 1, MAX_BYTES + 2, MAX_BYTES + 4])];
        }
        case
    }

    /// Code, data and constants of exactly the most bytes allowed, used at their ends.
    fn at_limits(&mut self) -> RunCase {
        let mut case = self.single();
        let mut code = self.instruction();
        let constants = self.long_constants(MAX_BYTES);
        let mut areas = Areas { constants, data: vec![0; MAX_BYTES], share: HALF, ends: 0 };
        self.aim(&mut code, &mut case.machine, &mut areas);
        let offset = MAX_BYTES - code.len() + self.random.below(2);
        let mut whole = vec![0; offset];
        whole.extend(code);
        whole.truncate(MAX_BYTES);
        let Areas { constants, data, .. } = areas;
        let machine = Machine { eip: CODE_BASE + offset as u32, ..case.machine };
        RunCase { machine, code: whole, constants, data, budget: 1 }
    }

    /// Instructions for a block check.
    fn check_parts(&mut self) -> Vec<Vec<u8>> {
        let most = match self.size {
            Size::Small => 4,
            Size::Large if self.random.percent(1) => 3000,
            Size::Large => 40,
        };
        let count = self.random.between(1, most);
        let mut parts: Vec<Vec<u8>> = (0..count)
            .map(|_| if self.random.percent(30) { self.flow_instruction() } else { self.instruction() })
            .collect();
        self.shorten(&mut parts);
        parts
    }

    /// A block that cuts; at times a displacement misses.
    fn check_whole(&mut self) -> CheckCase {
        let parts = self.check_parts();
        let misses = self.random.pick(&[0, 0, 10]);
        let code = self.linked(parts, misses);
        let marks = self.bytes(code.len());
        CheckCase { code, marks }
    }

    /// A block with a changed byte, a missing end or random bytes behind.
    fn check_broken(&mut self) -> CheckCase {
        let CheckCase { mut code, .. } = self.check_whole();
        let at = self.random.below(code.len());
        match self.random.below(4) {
            0 => code[at] = self.random.byte(),
            1 => code[at] = code[at].wrapping_add(self.random.pick(&[1, 0xFF])),
            2 => code.truncate(at.max(1)),
            _ => {
                let keep = code.len().min(13);
                code.truncate(keep);
                code.extend((0..3).map(|_| self.random.byte()));
            }
        }
        let marks = self.bytes(code.len());
        CheckCase { code, marks }
    }

    /// A block whose code or marks have an odd length.
    fn check_lengths(&mut self) -> CheckCase {
        let mut case = self.check_whole();
        let right = case.code.len();
        match self.random.below(8) {
            0 => case.code.clear(),
            1 => case.code = vec![0; MAX_BYTES + 1],
            2 if self.size == Size::Large => {
                case.code = vec![0x90; MAX_BYTES];
                case.marks = vec![7; MAX_BYTES];
            }
            3 => case.marks.clear(),
            _ => {
                let length = self.random.pick(&[right + 1, right - 1, right + 7]);
                case.marks = self.bytes(length);
            }
        }
        case
    }
}

/// Gives an operand a value, if it is a register or lies in one of the areas.
fn give(operand: &Operand, width: Width, value: u32, machine: &mut Machine, areas: &mut Areas) {
    match *operand {
        Operand::Register(number) => machine.set_register(number, width, value),
        Operand::Xmm(number) => machine.singles[usize::from(number)] = value,
        Operand::Memory(address) => areas.plant(effective_address(machine, &address), width, value),
        Operand::Immediate(_) => {}
    }
}

/// The value that taken so many times (2 or odd) gives the whole modulo 2^32; twice, one more than an odd whole.
pub fn part(whole: u32, times: u32) -> u32 {
    if times == 2 {
        return whole.wrapping_add(1) / 2;
    }
    // An odd number is its own inverse modulo 8; each round doubles the bits that are right.
    let inverse = (0..4).fold(times, |inverse, _| inverse.wrapping_mul(2u32.wrapping_sub(times.wrapping_mul(inverse))));
    whole.wrapping_mul(inverse)
}

/// Replaces a 4-byte displacement in an instruction's bytes, if they hold one and stay an instruction.
fn replace_displacement(code: &mut [u8], old: u32, new: u32) {
    let Some(at) = code.windows(4).rposition(|bytes| bytes == old.to_le_bytes()) else { return };
    let mut patched = code.to_vec();
    patched[at..at + 4].copy_from_slice(&new.to_le_bytes());
    if decode(&patched).is_ok_and(|instruction| instruction.length as usize == code.len()) {
        code.copy_from_slice(&patched);
    }
}
