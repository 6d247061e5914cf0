//! The accesses of a step: their kinds, addresses and widths, and which of them it came to.

use crate::arithmetic::bit_place;
use crate::decode::{Alu, BitTest, Operand, Operation, Text};
use crate::machine::{place, Width, EBP, ECX, EDI, ESI, ESP};
use crate::run::Seen;
use crate::step::{effective_address, Stop};

/// What an access does.
#[derive(Clone, Copy, PartialEq, Eq)]
pub(super) enum Use {
    Reads,
    /// Reads, then writes.
    Changes,
    Writes,
}

/// Kinds of accesses, in the order of `KINDS`.
#[derive(Clone, Copy)]
pub(super) enum Kind {
    Read,
    Change,
    Write,
    BitRead,
    BitChange,
    Target,
    Push,
    Call,
    Pop,
    Ret,
    Leave,
    MovsFrom,
    MovsTo,
    CmpsFrom,
    CmpsTo,
    Stos,
    Lods,
    Scas,
}

/// Each kind's name and use; a bit is one at a register's offset into memory.
pub(super) const KINDS: [(&str, Use); 18] = [
    ("operand read", Use::Reads),
    ("operand changed", Use::Changes),
    ("operand written", Use::Writes),
    ("bit read", Use::Reads),
    ("bit changed", Use::Changes),
    ("target read", Use::Reads),
    ("PUSH", Use::Writes),
    ("CALL", Use::Writes),
    ("POP", Use::Reads),
    ("RET", Use::Reads),
    ("LEAVE", Use::Reads),
    ("MOVS from", Use::Reads),
    ("MOVS to", Use::Writes),
    ("CMPS from", Use::Reads),
    ("CMPS to", Use::Reads),
    ("STOS", Use::Writes),
    ("LODS", Use::Reads),
    ("SCAS", Use::Reads),
];

/// One access of a step.
pub(super) struct Access {
    pub(super) kind: Kind,
    pub(super) address: u32,
    pub(super) width: Width,
}

impl Access {
    /// What the access does.
    pub(super) fn usage(&self) -> Use {
        KINDS[self.kind as usize].1
    }

    /// Whether it lies wholly in an area of this length from the base on.
    pub(super) fn is_in(&self, base: u32, length: usize) -> bool {
        place(base, length, self.address, self.width).is_some()
    }

    /// How far its start lies above the first byte of an area of this length from the base on, and its end above the
    /// area's end.
    pub(super) fn distances(&self, base: u32, length: usize) -> (i64, i64) {
        let start = i64::from(self.address) - i64::from(base);
        (start, start + i64::from(self.width.bytes()) - length as i64)
    }

    /// The number with which the step stopped at this access, 0 if it didn't.
    pub(super) fn number(&self, seen: &Seen) -> u32 {
        match (seen.stepped, self.usage()) {
            (Err(stop @ Stop::Read(refused)), Use::Reads | Use::Changes)
            | (Err(stop @ Stop::Write(refused)), Use::Changes | Use::Writes)
                if refused.address == self.address =>
            {
                stop.number()
            }
            _ => 0,
        }
    }
}

/// The kind of the access to a memory operand.
fn operand_kind(operation: Operation) -> Kind {
    match operation {
        Operation::BitTest(BitTest::Bt, _, Operand::Register(_)) => Kind::BitRead,
        Operation::BitTest(_, _, Operand::Register(_)) => Kind::BitChange,
        Operation::Alu(Alu::Cmp, ..) | Operation::BitTest(BitTest::Bt, ..) => Kind::Read,
        Operation::Alu(_, Operand::Memory(_), _) | Operation::Xchg(..) | Operation::BitTest(..) => Kind::Change,
        Operation::Inc(_) | Operation::Dec(_) | Operation::Not(_) | Operation::Neg(_) => Kind::Change,
        Operation::Shift(..) | Operation::DoubleShift(..) => Kind::Change,
        Operation::Mov(Operand::Memory(_), _) | Operation::Movss(Operand::Memory(_), _) => Kind::Write,
        Operation::Setcc(..) => Kind::Write,
        Operation::Call(_) | Operation::Jmp(_) => Kind::Target,
        _ => Kind::Read,
    }
}

/// The access to a memory operand; LEA has none.
fn operand_access(seen: &Seen) -> Option<Access> {
    let operation = seen.instruction.operation;
    let address = seen.instruction.memory().filter(|_| !matches!(operation, Operation::Lea(..)))?;
    let width = match operation {
        Operation::Movzx(.., narrow) | Operation::Movsx(.., narrow) => narrow,
        _ => seen.instruction.width,
    };
    let distance = match operation {
        Operation::BitTest(_, _, Operand::Register(offset)) => bit_place(seen.before.register(offset, width), width).0,
        _ => 0,
    };
    let address = effective_address(seen.before, &address).wrapping_add(distance);
    Some(Access { kind: operand_kind(operation), address, width })
}

/// The accesses by ESP, EBP, ESI and EDI.
fn register_accesses(seen: &Seen) -> Vec<Access> {
    let value = |register: u8| seen.before.regs[usize::from(register)];
    let width = seen.instruction.width;
    let at = |kind, register| Access { kind, address: value(register), width };
    let pushed = |kind| Access { kind, address: value(ESP).wrapping_sub(4), width };
    match seen.instruction.operation {
        Operation::Push(_) => vec![pushed(Kind::Push)],
        Operation::Call(_) => vec![pushed(Kind::Call)],
        Operation::Pop(_) => vec![at(Kind::Pop, ESP)],
        Operation::Ret(_) => vec![at(Kind::Ret, ESP)],
        Operation::Leave => vec![at(Kind::Leave, EBP)],
        // A repeated one whose count is 0 has no round.
        Operation::Text(_) if seen.instruction.repeat.is_some() && value(ECX) == 0 => vec![],
        Operation::Text(Text::Movs) => vec![at(Kind::MovsFrom, ESI), at(Kind::MovsTo, EDI)],
        Operation::Text(Text::Cmps) => vec![at(Kind::CmpsFrom, ESI), at(Kind::CmpsTo, EDI)],
        Operation::Text(Text::Stos) => vec![at(Kind::Stos, EDI)],
        Operation::Text(Text::Lods) => vec![at(Kind::Lods, ESI)],
        Operation::Text(Text::Scas) => vec![at(Kind::Scas, EDI)],
        _ => vec![],
    }
}

/// The accesses of a step in their order, as if none were refused.
pub(super) fn accesses(seen: &Seen) -> Vec<Access> {
    operand_access(seen).into_iter().chain(register_accesses(seen)).collect()
}

/// Those of a step's accesses that it came to, up to the one at which it stopped.
pub(super) fn come_to<'a>(accesses: &'a [Access], seen: &Seen) -> &'a [Access] {
    let refused = accesses.iter().position(|access| access.number(seen) != 0);
    &accesses[..refused.map_or(accesses.len(), |at| at + 1)]
}
