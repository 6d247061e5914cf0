//! One step: fetch an instruction and carry it out.

use crate::arithmetic::{
    add, bit_place, bit_test, divide, divide_signed, double_shift, keep_carry, logic, multiply, multiply_signed, scan,
    shift, subtract, DIVISION_FLAGS,
};
use crate::decode::{
    decode, Address, Alu, BitTest, Instruction, Loop, Operand, Operation, Refusal, Repeat, Target, Text,
};
use crate::machine::{
    read, write, FlagEffect, Machine, Refused, Width, AF, AH, ALWAYS, CF, CODE_BASE, DF, EAX, EBP, ECX, EDI, EDX, ESI,
    ESP, HOME, OF, PF, SF, ZF,
};
use crate::singles::{calculate, compare};

/// Why a step can't be taken.
#[derive(Clone, Copy, PartialEq, Eq, Debug)]
pub enum Stop {
    Home,
    Outside,
    Cut,
    NoSuch,
    /// A read that isn't allowed.
    Read(Refused),
    /// A write that isn't allowed.
    Write(Refused),
    Divide,
}

impl Stop {
    /// Document 01's number.
    pub fn number(self) -> u32 {
        match self {
            Stop::Home => 1,
            Stop::Outside => 2,
            Stop::Cut => 3,
            Stop::NoSuch => 4,
            Stop::Read(_) => 5,
            Stop::Write(_) => 6,
            Stop::Divide => 7,
        }
    }

    /// The address given back for a stop at this EIP.
    pub fn address(self, eip: u32) -> u32 {
        match self {
            Stop::Read(refused) | Stop::Write(refused) => refused.outside,
            _ => eip,
        }
    }
}

/// A finished step.
#[derive(Clone, Copy, PartialEq, Eq, Debug)]
pub struct Step {
    pub machine: Machine,
    /// What the step did to the flags, and which of them 003 leaves undefined.
    pub flags: FlagEffect,
    /// The destination, if 003 leaves it undefined; it keeps its value, as document 02 says.
    pub kept: Option<Operand>,
    /// First and second operand of a calculation with singles or of a comparison of them.
    pub operands: Option<(u32, u32)>,
}

/// The instruction at EIP and its bytes.
pub fn fetch<'a>(machine: &Machine, code: &'a [u8]) -> Result<(Instruction, &'a [u8]), Stop> {
    if machine.eip == HOME {
        return Err(Stop::Home);
    }
    let offset = machine.eip.wrapping_sub(CODE_BASE) as usize;
    if machine.eip < CODE_BASE || offset >= code.len() {
        return Err(Stop::Outside);
    }
    match decode(&code[offset..]) {
        Ok(instruction) => Ok((instruction, &code[offset..offset + instruction.length as usize])),
        Err(Refusal::Cut) => Err(Stop::Cut),
        Err(Refusal::NoSuch) => Err(Stop::NoSuch),
    }
}

/// The effective address with the registers as they are.
pub fn effective_address(machine: &Machine, address: &Address) -> u32 {
    let base = address.base.map_or(0, |base| machine.regs[usize::from(base)]);
    let index = address.index.map_or(0, |(index, scale)| machine.regs[usize::from(index)].wrapping_mul(scale));
    base.wrapping_add(index).wrapping_add(address.displacement)
}

/// Whether the condition with this number holds (003: Jcc, SETcc, CMOVcc).
pub fn condition(machine: &Machine, number: u8) -> bool {
    let less = machine.flag(SF) != machine.flag(OF);
    let holds = match number >> 1 {
        0 => machine.flag(OF),
        1 => machine.flag(CF),
        2 => machine.flag(ZF),
        3 => machine.flag(CF) || machine.flag(ZF),
        4 => machine.flag(SF),
        5 => machine.flag(PF),
        6 => less,
        _ => machine.flag(ZF) || less,
    };
    holds != (number & 1 == 1)
}

/// A step under way: operands are read from `before`, results go to `after` and last to the data.
struct Execution<'a> {
    before: Machine,
    after: Machine,
    constants: &'a [u8],
    data: &'a mut [u8],
    width: Width,
    flags: FlagEffect,
    kept: Option<Operand>,
    operands: Option<(u32, u32)>,
}

/// Carries out one instruction; a stop has no effect on the data.
pub fn execute(machine: &Machine, instruction: &Instruction, constants: &[u8], data: &mut [u8]) -> Result<Step, Stop> {
    let mut execution = Execution {
        before: *machine,
        after: *machine,
        constants,
        data,
        width: instruction.width,
        flags: FlagEffect::default(),
        kept: None,
        operands: None,
    };
    execution.after.eip = machine.eip.wrapping_add(instruction.length);
    match (instruction.operation, instruction.repeat) {
        (Operation::Text(text), Some(repeat)) => execution.repeated(text, repeat)?,
        (operation, _) => execution.operate(operation)?,
    }
    let Execution { mut after, flags, kept, operands, .. } = execution;
    after.apply(flags);
    Ok(Step { machine: after, flags, kept, operands })
}

impl Execution<'_> {
    /// A general register before the step.
    fn old(&self, register: u8) -> u32 {
        self.before.regs[usize::from(register)]
    }

    /// Gives a general register a new value.
    fn set(&mut self, register: u8, value: u32) {
        self.after.regs[usize::from(register)] = value;
    }

    /// Reads data or constants at an address.
    fn load(&self, address: u32, width: Width) -> Result<u32, Stop> {
        read(self.constants, self.data, address, width).map_err(Stop::Read)
    }

    /// Writes data at an address.
    fn store(&mut self, address: u32, width: Width, value: u32) -> Result<(), Stop> {
        write(self.data, address, width, value).map_err(Stop::Write)
    }

    /// Reads an operand at the given width.
    fn value_at(&self, operand: Operand, width: Width) -> Result<u32, Stop> {
        match operand {
            Operand::Register(number) => Ok(self.before.register(number, width)),
            Operand::Xmm(number) => Ok(self.before.singles[usize::from(number)]),
            Operand::Memory(address) => self.load(effective_address(&self.before, &address), width),
            Operand::Immediate(value) => Ok(value & width.mask()),
        }
    }

    /// Reads an operand at the instruction's width.
    fn value(&self, operand: Operand) -> Result<u32, Stop> {
        self.value_at(operand, self.width)
    }

    /// Writes a register or memory operand at the instruction's width; a single has all its bits.
    fn put(&mut self, operand: Operand, value: u32) -> Result<(), Stop> {
        match operand {
            Operand::Register(number) => self.after.set_register(number, self.width, value),
            Operand::Xmm(number) => self.after.singles[usize::from(number)] = value,
            Operand::Memory(address) => {
                self.store(effective_address(&self.before, &address), self.width, value)?;
            }
            Operand::Immediate(_) => unreachable!("no instruction writes an immediate"),
        }
        Ok(())
    }

    /// Writes a result with its flags.
    fn put_result(&mut self, operand: Operand, (result, flags): (u32, FlagEffect)) -> Result<(), Stop> {
        self.flags = flags;
        self.put(operand, result)
    }

    /// Writes a result with its flags; where 003 leaves it undefined, the operand's old value is written.
    fn put_or_keep(&mut self, operand: Operand, (result, flags): (Option<u32>, FlagEffect)) -> Result<(), Stop> {
        self.kept = result.is_none().then_some(operand);
        let value = result.map_or_else(|| self.value(operand), Ok)?;
        self.put_result(operand, (value, flags))
    }

    /// The operand that holds the bit, and the bit's place in it; only a register's offset moves a memory operand.
    fn bit(&self, base: Operand, offset: Operand) -> Result<(Operand, u32), Stop> {
        let (distance, bit) = bit_place(self.value(offset)?, self.width);
        Ok(match (base, offset) {
            (Operand::Memory(address), Operand::Register(_)) => (Operand::Memory(address.moved(distance)), bit),
            _ => (base, bit),
        })
    }

    /// The single in an XMM register and the second operand beside it, which are noted.
    fn both(&mut self, first: u8, second: Operand) -> Result<(u32, u32), Stop> {
        let operands = (self.value(Operand::Xmm(first))?, self.value(second)?);
        self.operands = Some(operands);
        Ok(operands)
    }

    /// Sets the given flags to the given bits.
    fn set_flags(&mut self, written: u32, values: u32) {
        self.flags = FlagEffect { written, values, undefined: 0 };
    }

    /// Moves EIP by a displacement from the next instruction.
    fn jump_by(&mut self, displacement: u32) {
        self.after.eip = self.after.eip.wrapping_add(displacement);
    }

    /// Pushes a doubleword (003: PUSH, and Push in section 3.1.2).
    fn push(&mut self, value: u32) -> Result<(), Stop> {
        let top = self.old(ESP).wrapping_sub(4);
        self.set(ESP, top);
        self.store(top, Width::Dword, value)
    }

    /// Pops the doubleword at an address, which leaves ESP behind it (003: POP, and Pop in section 3.1.2).
    fn pop_at(&mut self, top: u32) -> Result<u32, Stop> {
        let value = self.load(top, Width::Dword)?;
        self.set(ESP, top.wrapping_add(4));
        Ok(value)
    }

    /// The dividend's or product's low and high half: AL and AH, AX and DX, or EAX and EDX.
    fn accumulator(&self) -> (u32, u32) {
        let low = self.before.register(EAX, self.width);
        match self.width {
            Width::Byte => (low, self.before.register(AH, self.width)),
            _ => (low, self.before.register(EDX, self.width)),
        }
    }

    /// Writes the same pair of registers.
    fn put_accumulator(&mut self, low: u32, high: u32) {
        self.after.set_register(EAX, self.width, low);
        match self.width {
            Width::Byte => self.after.set_register(AH, self.width, high),
            _ => self.after.set_register(EDX, self.width, high),
        }
    }

    /// Carries out one operation.
    fn operate(&mut self, operation: Operation) -> Result<(), Stop> {
        let width = self.width;
        let carry = u32::from(self.before.flag(CF));
        match operation {
            // 003: ADD, OR, ADC, SBB, AND, SUB, XOR, CMP.
            Operation::Alu(kind, to, from) => {
                let left = self.value(to)?;
                let right = self.value(from)?;
                let result = match kind {
                    Alu::Add => add(left, right, 0, width),
                    Alu::Or => logic(left | right, width),
                    Alu::Adc => add(left, right, carry, width),
                    Alu::Sbb => subtract(left, right, carry, width),
                    Alu::And => logic(left & right, width),
                    Alu::Sub | Alu::Cmp => subtract(left, right, 0, width),
                    Alu::Xor => logic(left ^ right, width),
                };
                if kind == Alu::Cmp {
                    self.flags = result.1;
                } else {
                    self.put_result(to, result)?;
                }
            }
            // 003: TEST.
            Operation::Test(left, right) => {
                self.flags = logic(self.value(left)? & self.value(right)?, width).1;
            }
            // 003: MOV.
            Operation::Mov(to, from) => {
                let value = self.value(from)?;
                self.put(to, value)?;
            }
            // 003: XCHG, NOP.
            Operation::Xchg(first, second) => {
                let (one, two) = (self.value(first)?, self.value(second)?);
                self.put(first, two)?;
                self.put(second, one)?;
            }
            // 003: LEA.
            Operation::Lea(to, address) => {
                self.set(to, effective_address(&self.before, &address));
            }
            // 003: MOVZX.
            Operation::Movzx(to, from, narrow) => {
                let value = self.value_at(from, narrow)?;
                self.put(Operand::Register(to), value)?;
            }
            // 003: MOVSX.
            Operation::Movsx(to, from, narrow) => {
                let value = narrow.signed(self.value_at(from, narrow)?) as u32;
                self.put(Operand::Register(to), value)?;
            }
            // 003: INC.
            Operation::Inc(to) => {
                let result = keep_carry(add(self.value(to)?, 1, 0, width));
                self.put_result(to, result)?;
            }
            // 003: DEC.
            Operation::Dec(to) => {
                let result = keep_carry(subtract(self.value(to)?, 1, 0, width));
                self.put_result(to, result)?;
            }
            // 003: NOT.
            Operation::Not(to) => {
                let value = self.value(to)?;
                self.put(to, !value)?;
            }
            // 003: NEG, "equivalent to subtracting the operand from 0".
            Operation::Neg(to) => {
                let result = subtract(0, self.value(to)?, 0, width);
                self.put_result(to, result)?;
            }
            // 003: MUL.
            Operation::Mul(from) => {
                let (low, high, flags) = multiply(self.accumulator().0, self.value(from)?, width);
                self.put_accumulator(low, high);
                self.flags = flags;
            }
            // 003: IMUL, one-operand form.
            Operation::ImulWide(from) => {
                let (low, high, flags) = multiply_signed(self.accumulator().0, self.value(from)?, width);
                self.put_accumulator(low, high);
                self.flags = flags;
            }
            // 003: IMUL, two- and three-operand forms.
            Operation::Imul(to, left, right) => {
                let (low, _, flags) = multiply_signed(self.value(left)?, self.value(right)?, width);
                self.put_result(Operand::Register(to), (low, flags))?;
            }
            // 003: DIV.
            Operation::Div(from) => {
                let divisor = self.value(from)?;
                let (low, high) = self.accumulator();
                let (quotient, remainder) = divide(low, high, divisor, width).ok_or(Stop::Divide)?;
                self.put_accumulator(quotient, remainder);
                self.flags = DIVISION_FLAGS;
            }
            // 003: IDIV.
            Operation::Idiv(from) => {
                let divisor = self.value(from)?;
                let (low, high) = self.accumulator();
                let (quotient, remainder) = divide_signed(low, high, divisor, width).ok_or(Stop::Divide)?;
                self.put_accumulator(quotient, remainder);
                self.flags = DIVISION_FLAGS;
            }
            // 003: RCL/RCR/ROL/ROR, SAL/SAR/SHL/SHR.
            Operation::Shift(kind, to, count) => {
                let count = self.value_at(count, Width::Byte)?;
                let result = shift(kind, self.value(to)?, count, carry == 1, width);
                self.put_result(to, result)?;
            }
            // 003: SHLD, SHRD.
            Operation::DoubleShift(kind, to, filler, count) => {
                let count = self.value_at(count, Width::Byte)?;
                let filler = self.before.register(filler, width);
                let result = double_shift(kind, self.value(to)?, filler, count, width);
                self.put_or_keep(to, result)?;
            }
            // 003: BT, BTC, BTR, BTS.
            Operation::BitTest(kind, base, offset) => {
                let (holder, bit) = self.bit(base, offset)?;
                let result = bit_test(kind, self.value(holder)?, bit);
                if kind == BitTest::Bt {
                    self.flags = result.1;
                } else {
                    self.put_result(holder, result)?;
                }
            }
            // 003: BSF, BSR.
            Operation::Scan(kind, to, from) => {
                let result = scan(kind, self.value(from)?, width);
                self.put_or_keep(Operand::Register(to), result)?;
            }
            // 003: PUSH, which stores ESP as it was before.
            Operation::Push(from) => {
                let value = self.value(from)?;
                self.push(value)?;
            }
            // 003: POP, which moves ESP before the popped word is written.
            Operation::Pop(to) => {
                let value = self.pop_at(self.old(ESP))?;
                self.set(to, value);
            }
            // 003: LEAVE.
            Operation::Leave => {
                let frame = self.pop_at(self.old(EBP))?;
                self.set(EBP, frame);
            }
            // 003: RET, near return.
            Operation::Ret(released) => {
                let top = self.old(ESP);
                self.after.eip = self.pop_at(top)?;
                self.set(ESP, top.wrapping_add(4).wrapping_add(released));
            }
            // 003: CALL, near call.
            Operation::Call(target) => {
                let back = self.after.eip;
                self.jump(target)?;
                self.push(back)?;
            }
            // 003: JMP, near and short jump.
            Operation::Jmp(target) => self.jump(target)?,
            // 003: Jcc.
            Operation::Jcc(number, displacement) => {
                if condition(&self.before, number) {
                    self.jump_by(displacement);
                }
            }
            // 003: LOOP/LOOPcc, and JECXZ under Jcc.
            Operation::Loop(kind, displacement) => {
                let count = self.old(ECX).wrapping_sub(1);
                let zero = self.before.flag(ZF);
                let jumps = match kind {
                    Loop::Loopne => count != 0 && !zero,
                    Loop::Loope => count != 0 && zero,
                    Loop::Loop => count != 0,
                    Loop::Jecxz => self.old(ECX) == 0,
                };
                if kind != Loop::Jecxz {
                    self.set(ECX, count);
                }
                if jumps {
                    self.jump_by(displacement);
                }
            }
            // 003: SETcc.
            Operation::Setcc(number, to) => {
                let value = u32::from(condition(&self.before, number));
                self.put(to, value)?;
            }
            // 003: CMOVcc; the source is read even if the condition is false (document 02).
            Operation::Cmov(number, to, from) => {
                let value = self.value(from)?;
                if condition(&self.before, number) {
                    self.put(Operand::Register(to), value)?;
                }
            }
            // 003: BSWAP.
            Operation::Bswap(to) => self.set(to, self.old(to).swap_bytes()),
            // 003: CBW/CWDE.
            Operation::ExtendAccumulator => {
                let narrow = if width == Width::Word { Width::Byte } else { Width::Word };
                let value = narrow.signed(self.old(EAX)) as u32;
                self.put(Operand::Register(EAX), value)?;
            }
            // 003: CWD/CDQ.
            Operation::ExtendIntoEdx => {
                let value = (width.signed(self.old(EAX)) >> 32) as u32;
                self.put(Operand::Register(EDX), value)?;
            }
            // 003: SAHF.
            Operation::Sahf => {
                let high = self.before.register(AH, Width::Byte);
                self.set_flags(SF | ZF | AF | PF | CF, high);
            }
            // 003: LAHF.
            Operation::Lahf => {
                let low = self.before.flags & (SF | ZF | AF | PF | CF) | ALWAYS;
                self.after.set_register(AH, Width::Byte, low);
            }
            // 003: CMC.
            Operation::Cmc => self.set_flags(CF, !self.before.flags),
            // 003: CLC.
            Operation::Clc => self.set_flags(CF, 0),
            // 003: STC.
            Operation::Stc => self.set_flags(CF, CF),
            // 003: CLD.
            Operation::Cld => self.set_flags(DF, 0),
            // 003: STD.
            Operation::Std => self.set_flags(DF, DF),
            Operation::Text(text) => self.round(text)?,
            // 003: MOVSS.
            Operation::Movss(to, from) => {
                let value = self.value(from)?;
                self.put(to, value)?;
            }
            // 003: ADDSS, MULSS, SUBSS, MINSS, DIVSS, MAXSS.
            Operation::Single(kind, to, from) => {
                let (first, second) = self.both(to, from)?;
                self.put(Operand::Xmm(to), calculate(kind, first, second))?;
            }
            // 003: COMISS.
            Operation::Comiss(left, right) => {
                let (first, second) = self.both(left, right)?;
                self.flags = compare(first, second);
            }
        }
        Ok(())
    }

    /// Moves EIP to the target of a call or jump.
    fn jump(&mut self, target: Target) -> Result<(), Stop> {
        match target {
            Target::Relative(displacement) => self.jump_by(displacement),
            Target::Absolute(operand) => self.after.eip = self.value_at(operand, Width::Dword)?,
        }
        Ok(())
    }

    /// Moves ESI or EDI on by one element, up or down by DF.
    fn advance(&mut self, register: u8) {
        let by = self.width.bytes();
        let old = self.old(register);
        let new = if self.before.flag(DF) { old.wrapping_sub(by) } else { old.wrapping_add(by) };
        self.set(register, new);
    }

    /// One element of a string instruction.
    fn round(&mut self, text: Text) -> Result<(), Stop> {
        let width = self.width;
        let (source, destination) = (self.old(ESI), self.old(EDI));
        match text {
            // 003: MOVS.
            Text::Movs => {
                let value = self.load(source, width)?;
                self.store(destination, width, value)?;
                self.advance(ESI);
                self.advance(EDI);
            }
            // 003: CMPS.
            Text::Cmps => {
                let left = self.load(source, width)?;
                let right = self.load(destination, width)?;
                self.flags = subtract(left, right, 0, width).1;
                self.advance(ESI);
                self.advance(EDI);
            }
            // 003: STOS.
            Text::Stos => {
                self.store(destination, width, self.old(EAX))?;
                self.advance(EDI);
            }
            // 003: LODS.
            Text::Lods => {
                let value = self.load(source, width)?;
                self.after.set_register(EAX, width, value);
                self.advance(ESI);
            }
            // 003: SCAS.
            Text::Scas => {
                let right = self.load(destination, width)?;
                self.flags = subtract(self.old(EAX), right, 0, width).1;
                self.advance(EDI);
            }
        }
        Ok(())
    }

    /// One step of a repeated string instruction (003: REP/REPE/REPNE).
    fn repeated(&mut self, text: Text, repeat: Repeat) -> Result<(), Stop> {
        let count = self.old(ECX);
        if count == 0 {
            return Ok(());
        }
        self.round(text)?;
        self.set(ECX, count - 1);
        let equal = self.flags.values & ZF != 0;
        let ended = match (text, repeat) {
            (Text::Cmps | Text::Scas, Repeat::WhileEqual) => !equal,
            (Text::Cmps | Text::Scas, Repeat::WhileNotEqual) => equal,
            _ => false,
        };
        if count - 1 != 0 && !ended {
            self.after.eip = self.before.eip;
        }
        Ok(())
    }
}
