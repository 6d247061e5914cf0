//! The decoder: prefixes, opcode, ModR/M, SIB, displacement, immediate.

use crate::machine::{Width, EAX, EBP, ECX, ESP};

/// All orders of prefixes that an instruction may begin with.
pub const PREFIXES: [&[u8]; 8] =
    [&[], &[0x66], &[0xF3], &[0xF2], &[0x66, 0xF3], &[0xF3, 0x66], &[0x66, 0xF2], &[0xF2, 0x66]];

/// Why bytes are no instruction.
#[derive(Clone, Copy, PartialEq, Eq, Debug)]
pub enum Refusal {
    /// The bytes are a proper prefix of some instruction.
    Cut,
    /// The bytes neither begin with an instruction nor are such a prefix.
    NoSuch,
}

/// An index register with its scale.
pub type Index = (u8, u32);

/// A memory operand: base + index * scale + displacement.
#[derive(Clone, Copy, PartialEq, Eq, Debug)]
pub struct Address {
    pub base: Option<u8>,
    pub index: Option<Index>,
    pub displacement: u32,
}

impl Address {
    /// The operand so many bytes further on.
    pub fn moved(self, by: u32) -> Self {
        Address { displacement: self.displacement.wrapping_add(by), ..self }
    }
}

/// Something an instruction reads or writes.
#[derive(Clone, Copy, PartialEq, Eq, Debug)]
pub enum Operand {
    Register(u8),
    /// The single in an XMM register.
    Xmm(u8),
    Memory(Address),
    Immediate(u32),
}

/// The eight two-operand calculations of opcodes 00 to 3D and 80 to 83.
#[derive(Clone, Copy, PartialEq, Eq, Debug)]
pub enum Alu {
    Add,
    Or,
    Adc,
    Sbb,
    And,
    Sub,
    Xor,
    Cmp,
}

/// The seven shifts and rotates.
#[derive(Clone, Copy, PartialEq, Eq, Debug)]
pub enum Shift {
    Rol,
    Ror,
    Rcl,
    Rcr,
    Shl,
    Shr,
    Sar,
}

/// The four bit tests.
#[derive(Clone, Copy, PartialEq, Eq, Debug)]
pub enum BitTest {
    Bt,
    Bts,
    Btr,
    Btc,
}

/// The two bit scans.
#[derive(Clone, Copy, PartialEq, Eq, Debug)]
pub enum Scan {
    Bsf,
    Bsr,
}

/// The two double precision shifts.
#[derive(Clone, Copy, PartialEq, Eq, Debug)]
pub enum DoubleShift {
    Shld,
    Shrd,
}

/// The six calculations with singles.
#[derive(Clone, Copy, PartialEq, Eq, Debug)]
pub enum Single {
    Addss,
    Mulss,
    Subss,
    Minss,
    Divss,
    Maxss,
}

/// The four instructions that look at ECX and jump.
#[derive(Clone, Copy, PartialEq, Eq, Debug)]
pub enum Loop {
    Loopne,
    Loope,
    Loop,
    Jecxz,
}

/// The five string instructions.
#[derive(Clone, Copy, PartialEq, Eq, Debug)]
pub enum Text {
    Movs,
    Cmps,
    Stos,
    Lods,
    Scas,
}

/// A repeat prefix, or F3 where an opcode asks for it.
#[derive(Clone, Copy, PartialEq, Eq, Debug)]
pub enum Repeat {
    /// F3: REP, or REPE before CMPS and SCAS.
    WhileEqual,
    /// F2: REPNE.
    WhileNotEqual,
}

/// Where a call or jump goes.
#[derive(Clone, Copy, PartialEq, Eq, Debug)]
pub enum Target {
    /// Displacement from the next instruction.
    Relative(u32),
    /// Address held in a register or in memory.
    Absolute(Operand),
}

/// What an instruction does, with its operands.
#[derive(Clone, Copy, PartialEq, Eq, Debug)]
pub enum Operation {
    Alu(Alu, Operand, Operand),
    Test(Operand, Operand),
    Mov(Operand, Operand),
    Xchg(Operand, Operand),
    Lea(u8, Address),
    /// MOVZX: register, source and the source's width.
    Movzx(u8, Operand, Width),
    /// MOVSX: register, source and the source's width.
    Movsx(u8, Operand, Width),
    Inc(Operand),
    Dec(Operand),
    Not(Operand),
    Neg(Operand),
    Mul(Operand),
    /// IMUL with one operand.
    ImulWide(Operand),
    /// IMUL with a register as destination and two factors.
    Imul(u8, Operand, Operand),
    Div(Operand),
    Idiv(Operand),
    /// Shift or rotate; the count is an immediate or CL.
    Shift(Shift, Operand, Operand),
    /// SHLD or SHRD: destination, register that gives the bits, count (an immediate or CL).
    DoubleShift(DoubleShift, Operand, u8, Operand),
    /// Bit test: bit base and bit offset (an immediate or a register).
    BitTest(BitTest, Operand, Operand),
    Scan(Scan, u8, Operand),
    Push(Operand),
    Pop(u8),
    Leave,
    /// RET with the number of bytes released.
    Ret(u32),
    Call(Target),
    Jmp(Target),
    /// Jcc with its condition number.
    Jcc(u8, u32),
    Loop(Loop, u32),
    /// SETcc with its condition number.
    Setcc(u8, Operand),
    /// CMOVcc with its condition number.
    Cmov(u8, u8, Operand),
    Bswap(u8),
    /// CBW or CWDE.
    ExtendAccumulator,
    /// CWD or CDQ.
    ExtendIntoEdx,
    Sahf,
    Lahf,
    Cmc,
    Clc,
    Stc,
    Cld,
    Std,
    Text(Text),
    /// MOVSS: destination and source.
    Movss(Operand, Operand),
    /// A calculation with singles: the XMM register that is first operand and destination, and the second operand.
    Single(Single, u8, Operand),
    /// COMISS: the XMM register that is compared, and what with.
    Comiss(u8, Operand),
}

/// One decoded instruction.
#[derive(Clone, Copy, PartialEq, Eq, Debug)]
pub struct Instruction {
    pub length: u32,
    /// Opcode byte, or 0F00h plus the byte after 0F.
    pub opcode: u16,
    /// Size of the operands, unless the operation says otherwise.
    pub width: Width,
    /// None where F3 belongs to the opcode.
    pub repeat: Option<Repeat>,
    pub operation: Operation,
}

impl Instruction {
    /// Displacement of a jump, call or loop that has one.
    pub fn displacement(&self) -> Option<u32> {
        match self.operation {
            Operation::Call(Target::Relative(by)) | Operation::Jmp(Target::Relative(by)) => Some(by),
            Operation::Jcc(_, by) | Operation::Loop(_, by) => Some(by),
            _ => None,
        }
    }

    /// The memory operand that a ModR/M byte or an address gives.
    pub fn memory(&self) -> Option<Address> {
        let operands = match self.operation {
            Operation::Alu(_, to, from) | Operation::Mov(to, from) => vec![to, from],
            Operation::Test(left, right) | Operation::Xchg(left, right) => vec![left, right],
            Operation::Imul(_, left, right) => vec![left, right],
            Operation::Lea(_, address) => vec![Operand::Memory(address)],
            Operation::Movzx(_, from, _) | Operation::Movsx(_, from, _) => vec![from],
            Operation::Inc(one) | Operation::Dec(one) | Operation::Not(one) | Operation::Neg(one) => vec![one],
            Operation::Mul(one) | Operation::ImulWide(one) | Operation::Div(one) | Operation::Idiv(one) => vec![one],
            Operation::Shift(_, to, _) | Operation::DoubleShift(_, to, ..) | Operation::Setcc(_, to) => vec![to],
            Operation::BitTest(_, base, _) => vec![base],
            Operation::Scan(_, _, from) | Operation::Cmov(_, _, from) => vec![from],
            Operation::Push(from) => vec![from],
            Operation::Call(Target::Absolute(operand)) | Operation::Jmp(Target::Absolute(operand)) => vec![operand],
            Operation::Movss(to, from) => vec![to, from],
            Operation::Single(_, _, from) | Operation::Comiss(_, from) => vec![from],
            _ => vec![],
        };
        operands.into_iter().find_map(|operand| match operand {
            Operand::Memory(address) => Some(address),
            _ => None,
        })
    }
}

/// Bytes not yet decoded.
struct Reader<'a> {
    bytes: &'a [u8],
    at: usize,
}

impl Reader<'_> {
    /// The next byte; running out of bytes is a cut.
    fn byte(&mut self) -> Result<u8, Refusal> {
        let byte = *self.bytes.get(self.at).ok_or(Refusal::Cut)?;
        self.at += 1;
        Ok(byte)
    }

    /// An immediate of the width, without sign extension.
    fn immediate(&mut self, width: Width) -> Result<u32, Refusal> {
        let mut value = 0;
        for place in 0..width.bytes() {
            value |= u32::from(self.byte()?) << (8 * place);
        }
        Ok(value)
    }

    /// An immediate byte extended by sign.
    fn signed_byte(&mut self) -> Result<u32, Refusal> {
        Ok(Width::Byte.signed(self.immediate(Width::Byte)?) as u32)
    }

    /// A ModR/M byte whose reg field satisfies the test.
    fn modrm_with(&mut self, allowed: impl Fn(u8) -> bool) -> Result<ModRm, Refusal> {
        let byte = self.byte()?;
        let reg = (byte >> 3) & 7;
        if !allowed(reg) {
            return Err(Refusal::NoSuch);
        }
        let rm = self.operand(byte >> 6, byte & 7)?;
        Ok(ModRm { reg, rm })
    }

    /// A ModR/M byte whose reg field, and whose r/m field if that is no memory, are XMM registers.
    fn modrm_xmm(&mut self) -> Result<ModRm, Refusal> {
        let ModRm { reg, rm } = self.modrm()?;
        let rm = match rm {
            Operand::Register(number) => Operand::Xmm(number),
            memory => memory,
        };
        Ok(ModRm { reg, rm })
    }

    /// A ModR/M byte with any reg field.
    fn modrm(&mut self) -> Result<ModRm, Refusal> {
        self.modrm_with(|_| true)
    }

    /// The r/m operand (003, table 2-2).
    fn operand(&mut self, mode: u8, rm: u8) -> Result<Operand, Refusal> {
        if mode == 3 {
            return Ok(Operand::Register(rm));
        }
        let (base, index) = match (mode, rm) {
            (_, ESP) => self.sib(mode)?,
            (0, EBP) => (None, None),
            _ => (Some(rm), None),
        };
        let displacement = match mode {
            1 => self.signed_byte()?,
            2 => self.immediate(Width::Dword)?,
            _ if base.is_none() => self.immediate(Width::Dword)?,
            _ => 0,
        };
        Ok(Operand::Memory(Address { base, index, displacement }))
    }

    /// Base and scaled index (003, table 2-3).
    fn sib(&mut self, mode: u8) -> Result<(Option<u8>, Option<Index>), Refusal> {
        let byte = self.byte()?;
        let (scale, index, base) = (1u32 << (byte >> 6), (byte >> 3) & 7, byte & 7);
        let base = if base == EBP && mode == 0 { None } else { Some(base) };
        let index = if index == ESP { None } else { Some((index, scale)) };
        Ok((base, index))
    }
}

/// A ModR/M byte with what follows it.
struct ModRm {
    reg: u8,
    rm: Operand,
}

/// Where prefix 66 is allowed, by documents 01 and 02; FF is narrowed by its reg field later.
fn allows_word(opcode: u16) -> bool {
    match opcode {
        0x00..=0x3F => matches!(opcode & 7, 1 | 3 | 5),
        0x40..=0x4F | 0x69 | 0x6B | 0x81 | 0x83 | 0x85 | 0x87 | 0x89 | 0x8B | 0x90..=0x99 => true,
        0xA1 | 0xA3 | 0xA5 | 0xA7 | 0xA9 | 0xAB | 0xAD | 0xAF | 0xB8..=0xBF => true,
        0xC1 | 0xC7 | 0xD1 | 0xD3 | 0xF7 | 0xFF => true,
        0x0FAF | 0x0FB6 | 0x0FBE => true,
        0x0F40..=0x0F4F | 0x0FA3..=0x0FA5 | 0x0FAB..=0x0FAD | 0x0FB3 | 0x0FBA..=0x0FBD => true,
        _ => false,
    }
}

/// Opcodes that are asked to have F3, by document 02 (M-106).
fn asks_f3(opcode: u16) -> bool {
    matches!(opcode, 0x0F10 | 0x0F11 | 0x0F58 | 0x0F59 | 0x0F5C..=0x0F5F)
}

/// Whether some opcode after 0F may have these prefixes.
fn allows_escape(word: bool, repeat: Option<Repeat>) -> bool {
    match repeat {
        None => true,
        Some(Repeat::WhileEqual) => !word,
        Some(Repeat::WhileNotEqual) => false,
    }
}

/// Where F2 or F3 is allowed, by documents 01 and 02.
fn allows_repeat(opcode: u16, repeat: Repeat) -> bool {
    match repeat {
        Repeat::WhileEqual => matches!(opcode, 0xA4..=0xA7 | 0xAA..=0xAF) || asks_f3(opcode),
        Repeat::WhileNotEqual => matches!(opcode, 0xA6 | 0xA7 | 0xAE | 0xAF),
    }
}

/// The calculation with this number in opcode bits 3 to 5 or in the reg field.
fn alu(number: u8) -> Alu {
    match number {
        0 => Alu::Add,
        1 => Alu::Or,
        2 => Alu::Adc,
        3 => Alu::Sbb,
        4 => Alu::And,
        5 => Alu::Sub,
        6 => Alu::Xor,
        _ => Alu::Cmp,
    }
}

/// The shift with this number in the reg field; 6 has been refused before.
fn shift(number: u8) -> Shift {
    match number {
        0 => Shift::Rol,
        1 => Shift::Ror,
        2 => Shift::Rcl,
        3 => Shift::Rcr,
        4 => Shift::Shl,
        5 => Shift::Shr,
        _ => Shift::Sar,
    }
}

/// The bit test with this number in opcode bits 3 and 4 or in the low bits of the reg field.
fn bit_test(number: u8) -> BitTest {
    match number & 3 {
        0 => BitTest::Bt,
        1 => BitTest::Bts,
        2 => BitTest::Btr,
        _ => BitTest::Btc,
    }
}

/// The calculation with singles that this opcode gives.
fn single(opcode: u16) -> Single {
    match opcode {
        0x0F58 => Single::Addss,
        0x0F59 => Single::Mulss,
        0x0F5C => Single::Subss,
        0x0F5D => Single::Minss,
        0x0F5E => Single::Divss,
        _ => Single::Maxss,
    }
}

/// Decodes the instruction that the bytes begin with.
pub fn decode(bytes: &[u8]) -> Result<Instruction, Refusal> {
    let mut reader = Reader { bytes, at: 0 };
    let mut word = false;
    let mut repeat = None;
    let first = loop {
        match reader.byte()? {
            0x66 if !word => word = true,
            0xF2 if repeat.is_none() => repeat = Some(Repeat::WhileNotEqual),
            0xF3 if repeat.is_none() => repeat = Some(Repeat::WhileEqual),
            byte => break byte,
        }
    };
    let opcode = match first {
        0x0F if !allows_escape(word, repeat) => return Err(Refusal::NoSuch),
        0x0F => 0x0F00 | u16::from(reader.byte()?),
        byte => u16::from(byte),
    };
    if word && !allows_word(opcode) || repeat.is_some_and(|kind| !allows_repeat(opcode, kind)) {
        return Err(Refusal::NoSuch);
    }
    // F3 before these belongs to the opcode and repeats nothing.
    if asks_f3(opcode) && repeat.take().is_none() {
        return Err(Refusal::NoSuch);
    }
    let (width, operation) = body(&mut reader, opcode, word)?;
    Ok(Instruction { length: reader.at as u32, opcode, width, repeat, operation })
}

/// Decodes what follows the opcode.
fn body(reader: &mut Reader, opcode: u16, word: bool) -> Result<(Width, Operation), Refusal> {
    use Operand::{Immediate, Register, Xmm};
    use Width::{Byte, Dword, Word};

    let full = if word { Word } else { Dword };
    // In most pairs of opcodes the even one works on bytes.
    let sized = if opcode & 1 == 0 { Byte } else { full };
    let low = (opcode & 7) as u8;
    let condition = (opcode & 15) as u8;

    Ok(match opcode {
        0x00..=0x3F => {
            let kind = alu((opcode >> 3) as u8);
            match low {
                0 | 1 => {
                    let m = reader.modrm()?;
                    (sized, Operation::Alu(kind, m.rm, Register(m.reg)))
                }
                2 | 3 => {
                    let m = reader.modrm()?;
                    (sized, Operation::Alu(kind, Register(m.reg), m.rm))
                }
                4 | 5 => {
                    let value = reader.immediate(sized)?;
                    (sized, Operation::Alu(kind, Register(EAX), Immediate(value)))
                }
                _ => return Err(Refusal::NoSuch),
            }
        }
        0x40..=0x47 => (full, Operation::Inc(Register(low))),
        0x48..=0x4F => (full, Operation::Dec(Register(low))),
        0x50..=0x57 => (Dword, Operation::Push(Register(low))),
        0x58..=0x5F => (Dword, Operation::Pop(low)),
        0x68 => (Dword, Operation::Push(Immediate(reader.immediate(Dword)?))),
        0x6A => (Dword, Operation::Push(Immediate(reader.signed_byte()?))),
        0x69 => {
            let m = reader.modrm()?;
            let value = reader.immediate(full)?;
            (full, Operation::Imul(m.reg, m.rm, Immediate(value)))
        }
        0x6B => {
            let m = reader.modrm()?;
            let value = reader.signed_byte()?;
            (full, Operation::Imul(m.reg, m.rm, Immediate(value)))
        }
        0x70..=0x7F => (Dword, Operation::Jcc(condition, reader.signed_byte()?)),
        0x80 | 0x81 => {
            let m = reader.modrm()?;
            let value = reader.immediate(sized)?;
            (sized, Operation::Alu(alu(m.reg), m.rm, Immediate(value)))
        }
        0x83 => {
            let m = reader.modrm()?;
            let value = reader.signed_byte()?;
            (full, Operation::Alu(alu(m.reg), m.rm, Immediate(value)))
        }
        0x84 | 0x85 => {
            let m = reader.modrm()?;
            (sized, Operation::Test(m.rm, Register(m.reg)))
        }
        0x86 | 0x87 => {
            let m = reader.modrm()?;
            (sized, Operation::Xchg(m.rm, Register(m.reg)))
        }
        0x88 | 0x89 => {
            let m = reader.modrm()?;
            (sized, Operation::Mov(m.rm, Register(m.reg)))
        }
        0x8A | 0x8B => {
            let m = reader.modrm()?;
            (sized, Operation::Mov(Register(m.reg), m.rm))
        }
        0x8D => {
            let m = reader.modrm()?;
            match m.rm {
                Operand::Memory(address) => (Dword, Operation::Lea(m.reg, address)),
                _ => return Err(Refusal::NoSuch),
            }
        }
        // 90 itself is NOP, the exchange of EAX with EAX.
        0x90..=0x97 => (full, Operation::Xchg(Register(EAX), Register(low))),
        0x98 => (full, Operation::ExtendAccumulator),
        0x99 => (full, Operation::ExtendIntoEdx),
        0x9E => (Byte, Operation::Sahf),
        0x9F => (Byte, Operation::Lahf),
        0xA0..=0xA3 => {
            let displacement = reader.immediate(Dword)?;
            let memory = Operand::Memory(Address { base: None, index: None, displacement });
            if opcode < 0xA2 {
                (sized, Operation::Mov(Register(EAX), memory))
            } else {
                (sized, Operation::Mov(memory, Register(EAX)))
            }
        }
        0xA4 | 0xA5 => (sized, Operation::Text(Text::Movs)),
        0xA6 | 0xA7 => (sized, Operation::Text(Text::Cmps)),
        0xA8 | 0xA9 => {
            let value = reader.immediate(sized)?;
            (sized, Operation::Test(Register(EAX), Immediate(value)))
        }
        0xAA | 0xAB => (sized, Operation::Text(Text::Stos)),
        0xAC | 0xAD => (sized, Operation::Text(Text::Lods)),
        0xAE | 0xAF => (sized, Operation::Text(Text::Scas)),
        0xB0..=0xB7 => (Byte, Operation::Mov(Register(low), Immediate(reader.immediate(Byte)?))),
        0xB8..=0xBF => (full, Operation::Mov(Register(low), Immediate(reader.immediate(full)?))),
        0xC0 | 0xC1 => {
            let m = reader.modrm_with(|reg| reg != 6)?;
            let count = reader.immediate(Byte)?;
            (sized, Operation::Shift(shift(m.reg), m.rm, Immediate(count)))
        }
        0xC2 => (Dword, Operation::Ret(reader.immediate(Word)?)),
        0xC3 => (Dword, Operation::Ret(0)),
        0xC6 | 0xC7 => {
            let m = reader.modrm_with(|reg| reg == 0)?;
            let value = reader.immediate(sized)?;
            (sized, Operation::Mov(m.rm, Immediate(value)))
        }
        0xC9 => (Dword, Operation::Leave),
        0xD0 | 0xD1 => {
            let m = reader.modrm_with(|reg| reg != 6)?;
            (sized, Operation::Shift(shift(m.reg), m.rm, Immediate(1)))
        }
        0xD2 | 0xD3 => {
            let m = reader.modrm_with(|reg| reg != 6)?;
            (sized, Operation::Shift(shift(m.reg), m.rm, Register(ECX)))
        }
        0xE0..=0xE3 => {
            let kind = match low {
                0 => Loop::Loopne,
                1 => Loop::Loope,
                2 => Loop::Loop,
                _ => Loop::Jecxz,
            };
            (Dword, Operation::Loop(kind, reader.signed_byte()?))
        }
        0xE8 => (Dword, Operation::Call(Target::Relative(reader.immediate(Dword)?))),
        0xE9 => (Dword, Operation::Jmp(Target::Relative(reader.immediate(Dword)?))),
        0xEB => (Dword, Operation::Jmp(Target::Relative(reader.signed_byte()?))),
        0xF5 => (Byte, Operation::Cmc),
        0xF6 | 0xF7 => {
            let m = reader.modrm_with(|reg| reg != 1)?;
            let operation = match m.reg {
                0 => Operation::Test(m.rm, Immediate(reader.immediate(sized)?)),
                2 => Operation::Not(m.rm),
                3 => Operation::Neg(m.rm),
                4 => Operation::Mul(m.rm),
                5 => Operation::ImulWide(m.rm),
                6 => Operation::Div(m.rm),
                _ => Operation::Idiv(m.rm),
            };
            (sized, operation)
        }
        0xF8 => (Byte, Operation::Clc),
        0xF9 => (Byte, Operation::Stc),
        0xFC => (Byte, Operation::Cld),
        0xFD => (Byte, Operation::Std),
        0xFE => {
            let m = reader.modrm_with(|reg| reg <= 1)?;
            (Byte, if m.reg == 0 { Operation::Inc(m.rm) } else { Operation::Dec(m.rm) })
        }
        0xFF => {
            let m = reader.modrm_with(|reg| matches!(reg, 0 | 1) || matches!(reg, 2 | 4 | 6) && !word)?;
            let operation = match m.reg {
                0 => Operation::Inc(m.rm),
                1 => Operation::Dec(m.rm),
                2 => Operation::Call(Target::Absolute(m.rm)),
                4 => Operation::Jmp(Target::Absolute(m.rm)),
                _ => Operation::Push(m.rm),
            };
            (full, operation)
        }
        0x0F10 | 0x0F11 => {
            let m = reader.modrm_xmm()?;
            let (load, store) = (Operation::Movss(Xmm(m.reg), m.rm), Operation::Movss(m.rm, Xmm(m.reg)));
            (Dword, if opcode == 0x0F10 { load } else { store })
        }
        0x0F2F => {
            let m = reader.modrm_xmm()?;
            (Dword, Operation::Comiss(m.reg, m.rm))
        }
        0x0F40..=0x0F4F => {
            let m = reader.modrm()?;
            (full, Operation::Cmov(condition, m.reg, m.rm))
        }
        0x0F58 | 0x0F59 | 0x0F5C..=0x0F5F => {
            let m = reader.modrm_xmm()?;
            (Dword, Operation::Single(single(opcode), m.reg, m.rm))
        }
        0x0F80..=0x0F8F => (Dword, Operation::Jcc(condition, reader.immediate(Dword)?)),
        0x0F90..=0x0F9F => (Byte, Operation::Setcc(condition, reader.modrm()?.rm)),
        0x0FA3 | 0x0FAB | 0x0FB3 | 0x0FBB => {
            let m = reader.modrm()?;
            (full, Operation::BitTest(bit_test((opcode >> 3) as u8), m.rm, Register(m.reg)))
        }
        0x0FA4 | 0x0FA5 | 0x0FAC | 0x0FAD => {
            let m = reader.modrm()?;
            let kind = if opcode < 0x0FA8 { DoubleShift::Shld } else { DoubleShift::Shrd };
            let count = if opcode & 1 == 0 { Immediate(reader.immediate(Byte)?) } else { Register(ECX) };
            (full, Operation::DoubleShift(kind, m.rm, m.reg, count))
        }
        0x0FAF => {
            let m = reader.modrm()?;
            (full, Operation::Imul(m.reg, Register(m.reg), m.rm))
        }
        0x0FB6 | 0x0FB7 | 0x0FBE | 0x0FBF => {
            let m = reader.modrm()?;
            let from = if opcode & 1 == 0 { Byte } else { Word };
            let operation =
                if opcode < 0x0FB8 { Operation::Movzx(m.reg, m.rm, from) } else { Operation::Movsx(m.reg, m.rm, from) };
            (full, operation)
        }
        0x0FBA => {
            let m = reader.modrm_with(|reg| reg >= 4)?;
            let offset = reader.immediate(Byte)?;
            (full, Operation::BitTest(bit_test(m.reg), m.rm, Immediate(offset)))
        }
        0x0FBC | 0x0FBD => {
            let m = reader.modrm()?;
            let kind = if opcode == 0x0FBC { Scan::Bsf } else { Scan::Bsr };
            (full, Operation::Scan(kind, m.reg, m.rm))
        }
        0x0FC8..=0x0FCF => (Dword, Operation::Bswap(low)),
        _ => return Err(Refusal::NoSuch),
    })
}
