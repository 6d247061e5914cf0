//! The machine: registers, flags, singles, operand widths and the access rules of data and constants.

/// Address of the first code byte.
pub const CODE_BASE: u32 = 0x0001_0000;
/// Address of the first data byte.
pub const DATA_BASE: u32 = 0x0010_0000;
/// Address of the first constant.
pub const CONSTANTS_BASE: u32 = 0x0020_0000;
/// Address that a finished block returns to.
pub const HOME: u32 = 0xFFFF_0000;
/// Most bytes that code, data or constants may have.
pub const MAX_BYTES: usize = 65_536;
/// Most steps that a budget may give.
pub const MAX_BUDGET: u64 = 1_000_000;

/// Carry flag.
pub const CF: u32 = 1 << 0;
/// Parity flag.
pub const PF: u32 = 1 << 2;
/// Auxiliary carry flag.
pub const AF: u32 = 1 << 4;
/// Zero flag.
pub const ZF: u32 = 1 << 6;
/// Sign flag.
pub const SF: u32 = 1 << 7;
/// Direction flag.
pub const DF: u32 = 1 << 10;
/// Overflow flag.
pub const OF: u32 = 1 << 11;
/// Bit 1 of the flags word, which is always set.
pub const ALWAYS: u32 = 1 << 1;
/// The six status flags.
pub const STATUS: u32 = CF | PF | AF | ZF | SF | OF;
/// Every bit that a flags word may have.
pub const KNOWN: u32 = STATUS | DF | ALWAYS;

/// Register numbers, as in table 3-1 of 003.
pub const EAX: u8 = 0;
pub const ECX: u8 = 1;
pub const EDX: u8 = 2;
pub const EBX: u8 = 3;
pub const ESP: u8 = 4;
pub const EBP: u8 = 5;
pub const ESI: u8 = 6;
pub const EDI: u8 = 7;
/// Byte register number of AH.
pub const AH: u8 = 4;

/// Size of an operand.
#[derive(Clone, Copy, PartialEq, Eq, Debug)]
pub enum Width {
    Byte,
    Word,
    Dword,
}

impl Width {
    /// Number of bytes.
    pub fn bytes(self) -> u32 {
        match self {
            Width::Byte => 1,
            Width::Word => 2,
            Width::Dword => 4,
        }
    }

    /// Number of bits.
    pub fn bits(self) -> u32 {
        8 * self.bytes()
    }

    /// All bits of this width set.
    pub fn mask(self) -> u32 {
        u32::MAX >> (32 - self.bits())
    }

    /// The top bit of this width.
    pub fn sign(self) -> u32 {
        1 << (self.bits() - 1)
    }

    /// The value's low bits read as a signed number.
    pub fn signed(self, value: u32) -> i64 {
        let low = i64::from(value & self.mask());
        if value & self.sign() != 0 {
            low - (1i64 << self.bits())
        } else {
            low
        }
    }
}

/// What an instruction does to the flags.
#[derive(Clone, Copy, PartialEq, Eq, Debug, Default)]
pub struct FlagEffect {
    /// Flags that take their bit from `values`.
    pub written: u32,
    /// The new bits of the written flags.
    pub values: u32,
    /// Flags that 003 leaves undefined here.
    pub undefined: u32,
}

/// Registers, instruction pointer, flags and singles.
#[derive(Clone, Copy, PartialEq, Eq, Debug)]
pub struct Machine {
    /// EAX, ECX, EDX, EBX, ESP, EBP, ESI, EDI.
    pub regs: [u32; 8],
    pub eip: u32,
    pub flags: u32,
    /// XMM0 to XMM7, of which only the low single is kept, by its bits.
    pub singles: [u32; 8],
}

impl Machine {
    /// The register's value; byte registers 4 to 7 are AH, CH, DH, BH.
    pub fn register(&self, number: u8, width: Width) -> u32 {
        let n = usize::from(number);
        match width {
            Width::Byte if n >= 4 => (self.regs[n - 4] >> 8) & 0xFF,
            _ => self.regs[n] & width.mask(),
        }
    }

    /// Writes the register and leaves the other bits of its 32-bit register alone.
    pub fn set_register(&mut self, number: u8, width: Width, value: u32) {
        let n = usize::from(number);
        match width {
            Width::Byte if n >= 4 => {
                self.regs[n - 4] = (self.regs[n - 4] & !0xFF00) | ((value & 0xFF) << 8);
            }
            _ => self.regs[n] = (self.regs[n] & !width.mask()) | (value & width.mask()),
        }
    }

    /// Whether the flag is set.
    pub fn flag(&self, flag: u32) -> bool {
        self.flags & flag != 0
    }

    /// Writes the written flags and clears the undefined ones (document 02, M-101); all others keep their value.
    pub fn apply(&mut self, effect: FlagEffect) {
        self.flags = (self.flags & !(effect.written | effect.undefined)) | (effect.values & effect.written);
    }
}

/// Place of an access in an area of this length from the base on, if it lies wholly there.
pub fn place(base: u32, length: usize, address: u32, width: Width) -> Option<usize> {
    let start = u64::from(address);
    let end = start + u64::from(width.bytes());
    let base = u64::from(base);
    if base <= start && end <= base + length as u64 {
        Some((start - base) as usize)
    } else {
        None
    }
}

/// An access that isn't allowed.
#[derive(Clone, Copy, PartialEq, Eq, Debug)]
pub struct Refused {
    pub address: u32,
    pub width: Width,
    /// The first byte, upward from the address, outside the area meant (document 02, M-105).
    pub outside: u32,
}

/// Place of an access in the area meant, if it lies wholly there.
fn allowed(base: u32, length: usize, address: u32, width: Width) -> Result<usize, Refused> {
    place(base, length, address, width).ok_or_else(|| {
        let mut bytes = (0..width.bytes()).map(|byte| address.wrapping_add(byte));
        let outside = bytes.find(|&byte| place(base, length, byte, Width::Byte).is_none());
        Refused { address, width, outside: outside.expect("not all of the access lies in the area") }
    })
}

/// The area that a read means: the one that holds its first byte; where neither does, that byte is outside of both.
fn meant<'a>(constants: &'a [u8], data: &'a [u8], address: u32) -> (u32, &'a [u8]) {
    match place(CONSTANTS_BASE, constants.len(), address, Width::Byte) {
        Some(_) => (CONSTANTS_BASE, constants),
        None => (DATA_BASE, data),
    }
}

/// Reads a little-endian value, if the access is allowed.
pub fn read(constants: &[u8], data: &[u8], address: u32, width: Width) -> Result<u32, Refused> {
    let (base, area) = meant(constants, data, address);
    let at = allowed(base, area.len(), address, width)?;
    let bytes = &area[at..at + width.bytes() as usize];
    Ok(bytes.iter().rev().fold(0, |value, &byte| (value << 8) | u32::from(byte)))
}

/// Writes a little-endian value, if the access is allowed; only data are written.
pub fn write(data: &mut [u8], address: u32, width: Width, value: u32) -> Result<(), Refused> {
    let at = allowed(DATA_BASE, data.len(), address, width)?;
    let count = width.bytes() as usize;
    data[at..at + count].copy_from_slice(&value.to_le_bytes()[..count]);
    Ok(())
}
