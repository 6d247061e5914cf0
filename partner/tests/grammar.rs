//! The decoder beside the grammar of documents 01 and 02, written down a second time as lengths.

use partner::decode::{decode, Refusal};
use partner::random::Random;

/// What may follow an opcode.
#[derive(Clone, Copy)]
struct Shape {
    modrm: bool,
    /// Bytes of the immediate without and with prefix 66.
    immediate: (usize, usize),
}

/// Opcodes whose immediate is one byte.
fn byte_immediate(opcode: usize) -> bool {
    opcode < 0x40 && opcode % 8 == 4
        || [0x6A, 0x6B, 0x80, 0x83, 0xA8, 0xC0, 0xC1, 0xC6, 0xEB].contains(&opcode)
        || (0x70..0x80).contains(&opcode)
        || (0xB0..0xB8).contains(&opcode)
        || (0xE0..0xE4).contains(&opcode)
        || [0x1A4, 0x1AC, 0x1BA].contains(&opcode)
}

/// Opcodes whose immediate is "v".
fn sized_immediate(opcode: usize) -> bool {
    opcode < 0x40 && opcode % 8 == 5 || [0x69, 0x81, 0xA9, 0xC7].contains(&opcode) || (0xB8..0xC0).contains(&opcode)
}

/// Opcodes with four bytes that prefix 66 doesn't narrow.
fn dword_immediate(opcode: usize) -> bool {
    [0x68, 0xE8, 0xE9].contains(&opcode) || (0xA0..0xA4).contains(&opcode) || (0x180..0x190).contains(&opcode)
}

/// Opcodes with a ModR/M byte.
fn has_modrm(opcode: usize) -> bool {
    opcode < 0x40 && opcode % 8 < 4
        || [0x69, 0x6B, 0x80, 0x81, 0x83, 0x8D, 0xC0, 0xC1, 0xC6, 0xC7, 0xF6, 0xF7, 0xFE, 0xFF].contains(&opcode)
        || (0x84..0x8C).contains(&opcode)
        || (0xD0..0xD4).contains(&opcode)
        || (0x190..0x1A0).contains(&opcode)
        || [0x1AF, 0x1B6, 0x1B7, 0x1BE, 0x1BF].contains(&opcode)
        || is_bit_or_conditional_move(opcode)
        || needs_f3(opcode)
        || opcode == 0x12F
}

/// M-106: MOVSS, ADDSS, MULSS, SUBSS, MINSS, DIVSS, MAXSS.
fn needs_f3(opcode: usize) -> bool {
    [0x110, 0x111, 0x158, 0x159, 0x15C, 0x15D, 0x15E, 0x15F].contains(&opcode)
}

/// M-100: CMOVcc, then bit tests, scans and double shifts.
fn is_bit_or_conditional_move(opcode: usize) -> bool {
    (0x140..0x150).contains(&opcode)
        || [0x1A3, 0x1AB, 0x1B3, 0x1BB, 0x1BA, 0x1BC, 0x1BD, 0x1A4, 0x1A5, 0x1AC, 0x1AD].contains(&opcode)
}

/// Opcodes with nothing behind them.
fn is_bare(opcode: usize) -> bool {
    (0x40..0x60).contains(&opcode)
        || (0x90..0x9A).contains(&opcode)
        || (0xA4..0xA8).contains(&opcode)
        || (0xAA..0xB0).contains(&opcode)
        || (0x1C8..0x1D0).contains(&opcode)
        || [0x9E, 0x9F, 0xC3, 0xC9, 0xF5, 0xF8, 0xF9, 0xFC, 0xFD].contains(&opcode)
}

/// The opcode's shape; opcodes after 0F are numbered from 100h.
fn shape(opcode: usize) -> Option<Shape> {
    let immediate = match opcode {
        0xC2 => (2, 2),
        _ if byte_immediate(opcode) => (1, 1),
        _ if sized_immediate(opcode) => (4, 2),
        _ if dword_immediate(opcode) => (4, 4),
        _ => (0, 0),
    };
    let modrm = has_modrm(opcode);
    (modrm || immediate.0 > 0 || is_bare(opcode)).then_some(Shape { modrm, immediate })
}

/// The reg fields that the opcode takes.
fn takes_reg(opcode: usize, reg: u8) -> bool {
    match opcode {
        0xC0 | 0xC1 | 0xD0..=0xD3 => reg != 6,
        0xC6 | 0xC7 => reg == 0,
        0xF6 | 0xF7 => reg != 1,
        0xFE => reg < 2,
        0xFF => [0, 1, 2, 4, 6].contains(&reg),
        0x1BA => [4, 5, 6, 7].contains(&reg),
        _ => true,
    }
}

/// Whether 66 may stand before the opcode with this reg field.
fn takes_66(opcode: usize, reg: u8) -> bool {
    const ODD: [usize; 25] = [
        0x69, 0x6B, 0x81, 0x83, 0x85, 0x87, 0x89, 0x8B, 0xA1, 0xA3, 0xA5, 0xA7, 0xA9, 0xAB, 0xAD, 0xAF, 0xC1, 0xC7,
        0xD1, 0xD3, 0xF7, 0x1AF, 0x1B6, 0x1BE, 0xFF,
    ];
    opcode < 0x40 && [1, 3, 5].contains(&(opcode % 8))
        || (0x40..0x50).contains(&opcode)
        || (0x90..0x9A).contains(&opcode)
        || (0xB8..0xC0).contains(&opcode)
        || ODD.contains(&opcode) && (opcode != 0xFF || reg < 2)
        || is_bit_or_conditional_move(opcode)
}

/// Bytes of a ModR/M byte with SIB and displacement.
fn modrm_length(modrm: u8, sib: u8) -> usize {
    let (mode, rm) = (modrm >> 6, modrm & 7);
    let sib_bytes = usize::from(mode != 3 && rm == 4);
    let displacement = match mode {
        0 if rm == 5 || rm == 4 && sib & 7 == 5 => 4,
        1 => 1,
        2 => 4,
        _ => 0,
    };
    1 + sib_bytes + displacement
}

/// Length of the instruction that the bytes begin with; the bytes are long enough for any.
fn length(bytes: &[u8]) -> Option<usize> {
    let prefixes = bytes.iter().take_while(|byte| [0x66, 0xF2, 0xF3].contains(byte)).count();
    let count = |wanted: &[u8]| bytes[..prefixes].iter().filter(|byte| wanted.contains(byte)).count();
    let (words, repeats) = (count(&[0x66]), count(&[0xF2, 0xF3]));
    let escaped = bytes[prefixes] == 0x0F;
    let at = prefixes + usize::from(escaped);
    let opcode = usize::from(bytes[at]) + if escaped { 0x100 } else { 0 };
    let (modrm, sib) = (bytes[at + 1], bytes[at + 2]);
    let reg = modrm >> 3 & 7;
    let shape = shape(opcode)?;
    let string = (0xA4..0xA8).contains(&opcode) || (0xAA..0xB0).contains(&opcode);
    let compares = [0xA6, 0xA7, 0xAE, 0xAF].contains(&opcode);
    let allowed = words <= 1
        && repeats <= 1
        && (words == 0 || takes_66(opcode, reg))
        && (count(&[0xF3]) == 0 || string || needs_f3(opcode))
        && (count(&[0xF3]) == 1 || !needs_f3(opcode))
        && (count(&[0xF2]) == 0 || compares)
        && (!shape.modrm || takes_reg(opcode, reg))
        && !(opcode == 0x8D && modrm >= 0xC0);
    let mut immediate = if words == 1 { shape.immediate.1 } else { shape.immediate.0 };
    if [0xF6, 0xF7].contains(&opcode) && reg == 0 {
        immediate = match (opcode, words) {
            (0xF6, _) => 1,
            (_, 0) => 4,
            _ => 2,
        };
    }
    let operand = if shape.modrm { modrm_length(modrm, sib) } else { 0 };
    allowed.then_some(at + 1 + operand + immediate)
}

/// What the decoder says, as a length.
fn decoded(bytes: &[u8]) -> Option<usize> {
    decode(bytes).ok().map(|instruction| instruction.length as usize)
}

#[test]
fn lengths_are_those_of_the_grammar() {
    let prefixes: [&[u8]; 12] = [
        &[],
        &[0x66],
        &[0xF2],
        &[0xF3],
        &[0x66, 0xF2],
        &[0x66, 0xF3],
        &[0xF2, 0x66],
        &[0xF3, 0x66],
        &[0x66, 0x66],
        &[0xF2, 0xF3],
        &[0xF3, 0xF3],
        &[0x66, 0xF3, 0x66],
    ];
    for front in prefixes {
        for escape in [&[][..], &[0x0F]] {
            for rest in 0..1u32 << 24 {
                let [_, opcode, modrm, sib] = rest.to_be_bytes();
                // Without prefixes every SIB byte is tried, else only some.
                if !front.is_empty() && sib & 0x3A != 0 {
                    continue;
                }
                let mut bytes = [0; 24];
                let head = front.iter().chain(escape).copied().chain([opcode, modrm, sib]);
                for (byte, value) in bytes.iter_mut().zip(head) {
                    *byte = value;
                }
                let found = decoded(&bytes);
                assert_eq!(found, length(&bytes), "{bytes:02X?}");
                assert!(found.is_none_or(|length| length <= 11));
            }
        }
    }
}

/// Whether some byte behind these makes an instruction or a longer prefix of one.
fn can_go_on(bytes: &[u8]) -> bool {
    (0..=0xFF).any(|next| decode(&[bytes, &[next]].concat()) != Err(Refusal::NoSuch))
}

#[test]
fn short_bytes_are_cut_exactly_if_some_instruction_begins_so() {
    let all = (1..=2usize).flat_map(|length| (0..1u32 << (8 * length)).map(move |value| (length, value)));
    let escaped = (0x0F_0000..0x10_0000).map(|value| (3, value));
    let with_f3 = (0xF3_0F00..0xF3_1000).map(|value| (3, value));
    let narrowed = [0x66_F30F, 0xF3_660F, 0x66_F20F, 0xF2_660F, 0xF3_F30F].map(|value| (3, value));
    for (length, value) in all.chain(escaped).chain(with_f3).chain(narrowed) {
        let bytes = &value.to_be_bytes()[4 - length..];
        match decode(bytes) {
            Err(Refusal::Cut) => assert!(can_go_on(bytes), "{bytes:02X?}"),
            Err(Refusal::NoSuch) => assert!(!can_go_on(bytes), "{bytes:02X?}"),
            Ok(instruction) => assert!(instruction.length as usize <= length),
        }
    }
}

#[test]
fn bit_and_conditional_move_instructions_unknown_and_cut() {
    for cut in [
        &[0x0F, 0xA4, 0xC0][..],
        &[0x0F, 0xBA],
        &[0x0F, 0xBA, 0xE0],
        &[0x0F, 0xBA, 0x24],
        &[0x0F, 0xBA, 0x2D, 0, 0, 0, 0],
        &[0x0F, 0x40],
        &[0x66, 0x0F, 0x4F, 0x80, 0, 0, 0],
        &[0x66, 0x0F, 0xAC, 0x44, 0x24, 0],
        &[0x0F, 0xBC],
    ] {
        assert_eq!(decode(cut), Err(Refusal::Cut), "{cut:02X?}");
    }
    for none in [
        &[0x0F, 0xBA, 0xC0, 0x01][..],
        &[0x0F, 0xBA, 0xC0],
        &[0x0F, 0xBA, 0x1C],
        &[0x66, 0x0F, 0xBA, 0xD8, 0],
        &[0xF3, 0x0F, 0xBC, 0xC0],
        &[0xF3, 0x0F, 0xBD, 0xC0],
        &[0xF2, 0x0F, 0x40, 0xC0],
        &[0x66, 0xF3, 0x0F, 0xA3, 0xC0],
        &[0x66, 0x66, 0x0F, 0xA3, 0xC0],
        &[0x0F, 0x3F, 0xC0],
        &[0x0F, 0x50, 0xC0],
        &[0x0F, 0xA2],
        &[0x0F, 0xA6, 0xC0],
        &[0x0F, 0xAA],
        &[0x0F, 0xAE, 0xC0],
        &[0x0F, 0xB2, 0xC0],
        &[0x0F, 0xB9, 0xC0],
    ] {
        assert_eq!(decode(none), Err(Refusal::NoSuch), "{none:02X?}");
    }
    for (one, length) in [
        (&[0x0F, 0x4F, 0xC8][..], 3),
        (&[0x0F, 0xA3, 0x03], 3),
        (&[0x66, 0x0F, 0xBA, 0x7C, 0x24, 4, 9], 7),
        (&[0x0F, 0xBD, 0x05, 0, 0, 0, 0], 7),
        (&[0x0F, 0xA5, 0xC0], 3),
        (&[0x66, 0x0F, 0xA4, 0x84, 0x24, 0, 0, 0, 0, 5], 10),
    ] {
        assert_eq!(decoded(one), Some(length), "{one:02X?}");
    }
}

#[test]
fn every_proper_prefix_of_an_instruction_is_cut() {
    let mut random = Random::new(11);
    for _ in 0..300_000 {
        let mut bytes = [0; 16];
        bytes.fill_with(|| random.byte());
        if random.percent(30) {
            bytes[0] = random.pick(&[0x66, 0xF3, 0xF2, 0x0F]);
        }
        if let Ok(instruction) = decode(&bytes) {
            for end in 0..instruction.length as usize {
                assert_eq!(decode(&bytes[..end]), Err(Refusal::Cut));
            }
        }
    }
}
