//! Instructions as text: disassembly for reports and form names for counting.

use crate::decode::{decode, Address, Instruction, Loop, Operand, Operation, Refusal, Repeat, Target, Text};
use crate::machine::{Machine, Width};

const DWORD_NAMES: [&str; 8] = ["EAX", "ECX", "EDX", "EBX", "ESP", "EBP", "ESI", "EDI"];
const WORD_NAMES: [&str; 8] = ["AX", "CX", "DX", "BX", "SP", "BP", "SI", "DI"];
const BYTE_NAMES: [&str; 8] = ["AL", "CL", "DL", "BL", "AH", "CH", "DH", "BH"];
/// The conditions' names by number.
pub const CONDITIONS: [&str; 16] =
    ["O", "NO", "B", "AE", "E", "NE", "BE", "A", "S", "NS", "P", "NP", "L", "GE", "LE", "G"];

/// The register's name at a width.
fn register_name(number: u8, width: Width) -> &'static str {
    let names = match width {
        Width::Byte => BYTE_NAMES,
        Width::Word => WORD_NAMES,
        Width::Dword => DWORD_NAMES,
    };
    names[usize::from(number)]
}

/// A memory operand in brackets.
fn address_text(address: &Address) -> String {
    let mut parts = Vec::new();
    if let Some(base) = address.base {
        parts.push(register_name(base, Width::Dword).to_string());
    }
    if let Some((index, scale)) = address.index {
        parts.push(format!("{}*{scale}", register_name(index, Width::Dword)));
    }
    let signed = address.displacement as i32;
    match (parts.is_empty(), signed) {
        (true, _) => format!("[{:X}h]", address.displacement),
        (_, 0) => format!("[{}]", parts.join("+")),
        (_, 1..) => format!("[{}+{signed:X}h]", parts.join("+")),
        _ => format!("[{}-{:X}h]", parts.join("+"), signed.unsigned_abs()),
    }
}

/// An operand in full.
fn operand_text(operand: &Operand, width: Width) -> String {
    match operand {
        Operand::Register(number) => register_name(*number, width).to_string(),
        Operand::Xmm(number) => format!("XMM{number}"),
        Operand::Memory(address) => {
            let size = match width {
                Width::Byte => "byte",
                Width::Word => "word",
                Width::Dword => "dword",
            };
            format!("{size} {}", address_text(address))
        }
        Operand::Immediate(value) => format!("{:X}h", value & width.mask()),
    }
}

/// An operand's kind: r or m with its bits, xmm or imm.
fn operand_kind(operand: &Operand, width: Width) -> String {
    match operand {
        Operand::Register(_) => format!("r{}", width.bits()),
        Operand::Xmm(_) => "xmm".to_string(),
        Operand::Memory(_) => format!("m{}", width.bits()),
        Operand::Immediate(_) => "imm".to_string(),
    }
}

/// Mnemonic and operands with their widths.
fn parts(instruction: &Instruction) -> (String, Vec<(Operand, Width)>) {
    let width = instruction.width;
    let suffix = match width {
        Width::Byte => "B",
        Width::Word => "W",
        Width::Dword => "D",
    };
    let register = |number: u8| (Operand::Register(number), width);
    let upper = |name: String| name.to_uppercase();
    match instruction.operation {
        Operation::Alu(kind, to, from) => (upper(format!("{kind:?}")), vec![(to, width), (from, width)]),
        Operation::Test(left, right) => ("TEST".into(), vec![(left, width), (right, width)]),
        Operation::Mov(to, from) => ("MOV".into(), vec![(to, width), (from, width)]),
        Operation::Xchg(..) if instruction.opcode == 0x90 && width == Width::Dword => ("NOP".into(), vec![]),
        Operation::Xchg(first, second) => ("XCHG".into(), vec![(first, width), (second, width)]),
        Operation::Lea(to, address) => ("LEA".into(), vec![register(to), (Operand::Memory(address), width)]),
        Operation::Movzx(to, from, narrow) => ("MOVZX".into(), vec![register(to), (from, narrow)]),
        Operation::Movsx(to, from, narrow) => ("MOVSX".into(), vec![register(to), (from, narrow)]),
        Operation::Inc(to) => ("INC".into(), vec![(to, width)]),
        Operation::Dec(to) => ("DEC".into(), vec![(to, width)]),
        Operation::Not(to) => ("NOT".into(), vec![(to, width)]),
        Operation::Neg(to) => ("NEG".into(), vec![(to, width)]),
        Operation::Mul(from) => ("MUL".into(), vec![(from, width)]),
        Operation::ImulWide(from) => ("IMUL".into(), vec![(from, width)]),
        Operation::Imul(to, left, right) => ("IMUL".into(), vec![register(to), (left, width), (right, width)]),
        Operation::Div(from) => ("DIV".into(), vec![(from, width)]),
        Operation::Idiv(from) => ("IDIV".into(), vec![(from, width)]),
        Operation::Shift(kind, to, count) => (upper(format!("{kind:?}")), vec![(to, width), (count, Width::Byte)]),
        Operation::DoubleShift(kind, to, filler, count) => {
            (upper(format!("{kind:?}")), vec![(to, width), register(filler), (count, Width::Byte)])
        }
        Operation::BitTest(kind, base, offset) => (upper(format!("{kind:?}")), vec![(base, width), (offset, width)]),
        Operation::Scan(kind, to, from) => (upper(format!("{kind:?}")), vec![register(to), (from, width)]),
        Operation::Push(from) => ("PUSH".into(), vec![(from, width)]),
        Operation::Pop(to) => ("POP".into(), vec![register(to)]),
        Operation::Leave => ("LEAVE".into(), vec![]),
        Operation::Ret(_) if instruction.opcode == 0xC3 => ("RET".into(), vec![]),
        Operation::Ret(released) => ("RET".into(), vec![(Operand::Immediate(released), Width::Word)]),
        Operation::Call(target) => ("CALL".into(), vec![(target_operand(target), width)]),
        Operation::Jmp(target) => ("JMP".into(), vec![(target_operand(target), width)]),
        Operation::Jcc(number, by) => {
            (format!("J{}", CONDITIONS[usize::from(number)]), vec![(Operand::Immediate(by), width)])
        }
        Operation::Loop(kind, by) => {
            let name = match kind {
                Loop::Loopne => "LOOPNE",
                Loop::Loope => "LOOPE",
                Loop::Loop => "LOOP",
                Loop::Jecxz => "JECXZ",
            };
            (name.into(), vec![(Operand::Immediate(by), width)])
        }
        Operation::Setcc(number, to) => (format!("SET{}", CONDITIONS[usize::from(number)]), vec![(to, width)]),
        Operation::Cmov(number, to, from) => {
            (format!("CMOV{}", CONDITIONS[usize::from(number)]), vec![register(to), (from, width)])
        }
        Operation::Bswap(to) => ("BSWAP".into(), vec![register(to)]),
        Operation::ExtendAccumulator => ((if width == Width::Word { "CBW" } else { "CWDE" }).into(), vec![]),
        Operation::ExtendIntoEdx => ((if width == Width::Word { "CWD" } else { "CDQ" }).into(), vec![]),
        Operation::Sahf
        | Operation::Lahf
        | Operation::Cmc
        | Operation::Clc
        | Operation::Stc
        | Operation::Cld
        | Operation::Std => (upper(format!("{:?}", instruction.operation)), vec![]),
        Operation::Text(text) => {
            let repeat = match (instruction.repeat, text) {
                (None, _) => "",
                (Some(Repeat::WhileEqual), Text::Cmps | Text::Scas) => "REPE ",
                (Some(Repeat::WhileEqual), _) => "REP ",
                (Some(Repeat::WhileNotEqual), _) => "REPNE ",
            };
            (upper(format!("{repeat}{text:?}{suffix}")), vec![])
        }
        Operation::Movss(to, from) => ("MOVSS".into(), vec![(to, width), (from, width)]),
        Operation::Single(kind, to, from) => {
            (upper(format!("{kind:?}")), vec![(Operand::Xmm(to), width), (from, width)])
        }
        Operation::Comiss(left, right) => ("COMISS".into(), vec![(Operand::Xmm(left), width), (right, width)]),
    }
}

/// A call's or jump's target as an operand.
fn target_operand(target: Target) -> Operand {
    match target {
        Target::Relative(by) => Operand::Immediate(by),
        Target::Absolute(operand) => operand,
    }
}

/// The instruction's name, with a repeat prefix before it.
pub fn mnemonic(instruction: &Instruction) -> String {
    parts(instruction).0
}

/// The instruction in assembler notation; relative targets are shown as displacements.
pub fn disassembly(instruction: &Instruction) -> String {
    let (mnemonic, operands) = parts(instruction);
    let operands: Vec<String> = operands.iter().map(|(operand, width)| operand_text(operand, *width)).collect();
    format!("{mnemonic} {}", operands.join(", ")).trim_end().to_string()
}

/// What the bytes begin with, as text.
pub fn describe(bytes: &[u8]) -> String {
    match decode(bytes) {
        Ok(instruction) => disassembly(&instruction),
        Err(Refusal::Cut) => "(cut)".to_string(),
        Err(Refusal::NoSuch) => "(no such instruction)".to_string(),
    }
}

/// The prefixes that an instruction's bytes begin with.
pub fn prefixes(bytes: &[u8]) -> &[u8] {
    let count = bytes.iter().take_while(|byte| matches!(byte, 0x66 | 0xF2 | 0xF3)).count();
    &bytes[..count]
}

/// The instruction's form: prefixes and opcode in hex, mnemonic, kinds of operands.
pub fn form(bytes: &[u8], instruction: &Instruction) -> String {
    let prefixes: String = prefixes(bytes).iter().map(|byte| format!("{byte:02X} ")).collect();
    let (mnemonic, operands) = parts(instruction);
    let kinds: Vec<String> = operands.iter().map(|(operand, width)| operand_kind(operand, *width)).collect();
    let opcode = match instruction.opcode {
        byte @ 0..=0xFF => format!("{byte:02X}"),
        pair => format!("{pair:04X}"),
    };
    format!("{prefixes}{opcode} {mnemonic} {}", kinds.join(",")).trim_end().to_string()
}

/// Bytes as hex digits, or `-` for none.
pub fn hex(bytes: &[u8]) -> String {
    if bytes.is_empty() {
        return "-".to_string();
    }
    bytes.iter().map(|byte| format!("{byte:02X}")).collect()
}

/// The eight registers, EIP, flags and the eight singles on one line.
pub fn machine_text(machine: &Machine) -> String {
    let mut text = String::new();
    for (name, value) in DWORD_NAMES.iter().zip(machine.regs) {
        text += &format!("{name}={value:08X} ");
    }
    text += &format!("EIP={:08X} flags={:08X}", machine.eip, machine.flags);
    for (number, bits) in machine.singles.iter().enumerate() {
        text += &format!(" XMM{number}={bits:08X}");
    }
    text
}
