//! Document 02's M-105: numbers 5 and 6 give the first byte of the access, upward from its address, outside the area.

use partner::cases::{Generator, RunCase, Size};
use partner::machine::{Machine, Refused, CODE_BASE, CONSTANTS_BASE, DATA_BASE, DF};
use partner::run::{run, run_observed, Outcome};
use partner::step::Stop;

const EAX: usize = 0;
const ECX: usize = 1;
const EBX: usize = 3;
const ESP: usize = 4;
const EBP: usize = 5;
const ESI: usize = 6;
const EDI: usize = 7;

/// Address of the first byte of data.
const DATA: u32 = 0x0010_0000;
/// Address behind six bytes of data.
const DATA_END: u32 = 0x0010_0006;
/// Address of the first constant.
const FIRST: u32 = 0x0020_0000;
/// Address behind nine constants.
const LAST: u32 = 0x0020_0009;

/// A machine at the code's start with some registers and flags.
fn machine(registers: &[(usize, u32)], flags: u32) -> Machine {
    let mut regs = [0; 8];
    for &(number, value) in registers {
        regs[number] = value;
    }
    Machine { regs, eip: CODE_BASE, flags: flags | 2, singles: [0; 8] }
}

/// One step with so many constants and data; a refused one leaves machine and data.
fn step(code: &[u8], registers: &[(usize, u32)], constants: usize, data: usize) -> Outcome {
    let before = machine(registers, 0);
    let mut bytes = vec![0x5A; data];
    let outcome = run(before, code, &vec![1; constants], &mut bytes, 1);
    if outcome.number != 0 {
        assert_eq!((outcome.machine, outcome.steps), (before, 0), "{code:02X?} {registers:X?}");
        assert_eq!(bytes, vec![0x5A; data], "{code:02X?} {registers:X?}");
    }
    outcome
}

/// The step stops with this number at this address beside nine constants and six bytes of data.
fn stops(code: &[u8], registers: &[(usize, u32)], number: u32, address: u32) {
    let outcome = step(code, registers, 9, 6);
    assert_eq!((outcome.number, outcome.address), (number, address), "{code:02X?} {registers:X?}");
}

/// Accesses of 8, 16 and 32 bits at ESI stop with this number at these addresses, or finish where there is none.
fn widths(codes: [&[u8]; 3], number: u32, at: u32, given: [Option<u32>; 3]) {
    for (code, given) in codes.into_iter().zip(given) {
        let outcome = step(code, &[(ESI, at)], 9, 6);
        let expected = given.map_or((0, CODE_BASE + code.len() as u32), |address| (number, address));
        assert_eq!((outcome.number, outcome.address), expected, "{code:02X?} at {at:08X}");
    }
}

/// MOV AL, [ESI]; MOV AX, [ESI]; MOV EAX, [ESI].
const READS: [&[u8]; 3] = [&[0x8A, 0x06], &[0x66, 0x8B, 0x06], &[0x8B, 0x06]];
/// MOV [ESI], AL; MOV [ESI], AX; MOV [ESI], EAX.
const WRITES: [&[u8]; 3] = [&[0x88, 0x06], &[0x66, 0x89, 0x06], &[0x89, 0x06]];
/// Addresses whose byte no area holds.
const NOWHERE: [u32; 18] = [
    0,
    CODE_BASE,
    DATA - 4,
    DATA - 3,
    DATA - 2,
    DATA - 1,
    DATA_END,
    DATA_END + 1,
    FIRST - 4,
    FIRST - 3,
    FIRST - 2,
    FIRST - 1,
    LAST,
    LAST + 1,
    0xFFFF_FFFC,
    0xFFFF_FFFD,
    0xFFFF_FFFE,
    0xFFFF_FFFF,
];

#[test]
fn an_access_that_starts_nowhere_gives_its_own_address() {
    for at in NOWHERE {
        widths(READS, 5, at, [Some(at); 3]);
        widths(WRITES, 6, at, [Some(at); 3]);
    }
}

#[test]
fn a_read_gives_the_end_of_the_area_that_it_starts_in() {
    for (end, first) in [(DATA_END, DATA), (LAST, FIRST)] {
        widths(READS, 5, first, [None, None, None]);
        widths(READS, 5, end - 4, [None, None, None]);
        widths(READS, 5, end - 3, [None, None, Some(end)]);
        widths(READS, 5, end - 2, [None, None, Some(end)]);
        widths(READS, 5, end - 1, [None, Some(end), Some(end)]);
    }
}

#[test]
fn a_write_means_data_wherever_it_starts() {
    widths(WRITES, 6, DATA, [None, None, None]);
    widths(WRITES, 6, DATA_END - 4, [None, None, None]);
    widths(WRITES, 6, DATA_END - 3, [None, None, Some(DATA_END)]);
    widths(WRITES, 6, DATA_END - 2, [None, None, Some(DATA_END)]);
    widths(WRITES, 6, DATA_END - 1, [None, Some(DATA_END), Some(DATA_END)]);
    for at in FIRST..LAST {
        widths(WRITES, 6, at, [Some(at); 3]);
    }
}

#[test]
fn areas_shorter_than_the_access() {
    for length in 0..4 {
        let [data, constants] = [(0, length, DATA), (length, 0, FIRST)];
        for (constants, data, first) in [data, constants] {
            let end = first + length as u32;
            let read = |at| step(READS[2], &[(ESI, at)], constants, data).address;
            let write = |at| step(WRITES[2], &[(ESI, at)], constants, data).address;
            // From its bytes, and from where the first would be.
            for at in first..=end {
                assert_eq!(read(at), end, "{length} at {at:08X}");
                assert_eq!(write(at), if first == DATA { end } else { at }, "{length} at {at:08X}");
            }
            // From below it, at times over all of it.
            for at in first - 3..first {
                assert_eq!((read(at), write(at)), (at, at), "{length}");
            }
        }
    }
}

#[test]
fn areas_of_65_536_bytes() {
    for (code, at, number, address) in [
        (READS[2], 0x0010_FFFD, 5, 0x0011_0000),
        (READS[1], 0x0010_FFFF, 5, 0x0011_0000),
        (READS[0], 0x0011_0000, 5, 0x0011_0000),
        (READS[2], 0x0020_FFFE, 5, 0x0021_0000),
        (READS[1], 0x0020_FFFF, 5, 0x0021_0000),
        (WRITES[2], 0x0010_FFFF, 6, 0x0011_0000),
        (WRITES[1], 0x0010_FFFF, 6, 0x0011_0000),
        (WRITES[2], 0x0020_FFFE, 6, 0x0020_FFFE),
        (WRITES[2], 0x0020_FFFC, 6, 0x0020_FFFC),
    ] {
        let outcome = step(code, &[(ESI, at)], 65_536, 65_536);
        assert_eq!((outcome.number, outcome.address), (number, address), "{code:02X?} at {at:08X}");
    }
}

#[test]
fn operands_read() {
    // ADD, CMP and TEST; MOVSX and MOVZX of a word; IMUL, MUL and DIV; CMOVE, not met; BSF; BT by an immediate.
    for code in [
        &[0x03, 0x03][..],
        &[0x3B, 0x03],
        &[0x39, 0x03],
        &[0x85, 0x03],
        &[0x0F, 0xBF, 0x03],
        &[0x0F, 0xB7, 0x03],
        &[0x6B, 0x03, 2],
        &[0xF7, 0x23],
        &[0xF7, 0x33],
        &[0x0F, 0x44, 0x03],
        &[0x0F, 0xBC, 0x03],
        &[0x0F, 0xBA, 0x23, 99],
    ] {
        stops(code, &[(EBX, DATA_END - 1)], 5, DATA_END);
        stops(code, &[(EBX, LAST - 1)], 5, LAST);
        stops(code, &[(EBX, DATA - 1)], 5, DATA - 1);
        stops(code, &[(EBX, 0xFFFF_FFFF)], 5, 0xFFFF_FFFF);
    }
    // MOV EAX, [00100004h] and [00200008h]; MOVZX EAX, byte [EBX] in the last byte and behind it.
    stops(&[0xA1, 4, 0, 0x10, 0], &[], 5, DATA_END);
    stops(&[0xA1, 8, 0, 0x20, 0], &[], 5, LAST);
    assert_eq!(step(&[0x0F, 0xB6, 0x03], &[(EBX, DATA_END - 1)], 9, 6).number, 0);
    stops(&[0x0F, 0xB6, 0x03], &[(EBX, DATA_END)], 5, DATA_END);
}

#[test]
fn operands_written() {
    // MOV [EBX], EAX and 1; MOV [00100003h], EAX and [00200008h], EAX.
    for code in [&[0x89, 0x03][..], &[0xC7, 0x03, 1, 0, 0, 0]] {
        stops(code, &[(EBX, DATA_END - 3)], 6, DATA_END);
        stops(code, &[(EBX, LAST - 3)], 6, LAST - 3);
    }
    stops(&[0xA3, 3, 0, 0x10, 0], &[], 6, DATA_END);
    stops(&[0xA3, 8, 0, 0x20, 0], &[], 6, LAST - 1);
    // SETO [EBX].
    stops(&[0x0F, 0x90, 0x03], &[(EBX, DATA_END)], 6, DATA_END);
    stops(&[0x0F, 0x90, 0x03], &[(EBX, LAST - 1)], 6, LAST - 1);
}

#[test]
fn operands_changed() {
    // ADD and XCHG [EBX], EAX; INC, NOT and NEG [EBX]; SHL [EBX], 0; SHLD [EBX], EAX, 1; BTC [EBX], 0.
    for code in [
        &[0x01, 0x03][..],
        &[0x87, 0x03],
        &[0xFF, 0x03],
        &[0xF7, 0x13],
        &[0xF7, 0x1B],
        &[0xC1, 0x23, 0],
        &[0x0F, 0xA4, 0x03, 1],
        &[0x0F, 0xBA, 0x3B, 0],
    ] {
        // The read is refused.
        stops(code, &[(EBX, DATA_END - 3)], 5, DATA_END);
        stops(code, &[(EBX, LAST - 3)], 5, LAST);
        stops(code, &[(EBX, FIRST - 3)], 5, FIRST - 3);
        // The read is allowed and the write refused.
        stops(code, &[(EBX, FIRST)], 6, FIRST);
        stops(code, &[(EBX, LAST - 4)], 6, LAST - 4);
    }
}

#[test]
fn bits_at_a_register_s_offset() {
    let (long, word): (&[u8], &[u8]) = (&[0x0F, 0xA3, 0x0B], &[0x66, 0x0F, 0xA3, 0x0B]);
    // BT [EBX], ECX: the unit, not the operand, decides.
    stops(long, &[(EBX, DATA), (ECX, 32)], 5, DATA_END);
    stops(long, &[(EBX, DATA_END + 2), (ECX, 0xFFFF_FFFF)], 5, DATA_END);
    stops(long, &[(EBX, DATA + 2), (ECX, 0xFFFF_FFFF)], 5, DATA - 2);
    stops(long, &[(EBX, FIRST + 2), (ECX, 63)], 5, LAST);
    // From an operand in constants down to data, and up from data.
    stops(long, &[(EBX, FIRST + 5), (ECX, 0xFF80_0000)], 5, DATA_END);
    stops(long, &[(EBX, DATA + 7), (ECX, 0x0080_0000)], 5, LAST);
    stops(word, &[(EBX, DATA + 3), (ECX, 16)], 5, DATA_END);
    stops(word, &[(EBX, FIRST), (ECX, 64)], 5, LAST);
    // BTS [EBX], ECX.
    stops(&[0x0F, 0xAB, 0x0B], &[(EBX, FIRST), (ECX, 32)], 6, FIRST + 4);
    stops(&[0x0F, 0xAB, 0x0B], &[(EBX, FIRST + 4), (ECX, 32)], 5, LAST);
    stops(&[0x0F, 0xAB, 0x0B], &[(EBX, DATA + 1), (ECX, 32)], 5, DATA_END);
}

#[test]
fn the_stack() {
    // PUSH EAX and 1; CALL +0 and EAX: the top is four bytes below ESP.
    for code in [&[0x50][..], &[0x6A, 1], &[0xE8, 0, 0, 0, 0], &[0xFF, 0xD0]] {
        for (esp, address) in [
            (DATA_END + 1, DATA_END),
            (DATA_END + 3, DATA_END),
            (DATA_END + 4, DATA_END),
            (DATA + 3, DATA - 1),
            (FIRST + 4, FIRST),
            (LAST + 3, LAST - 1),
            (2, 0xFFFF_FFFE),
        ] {
            stops(code, &[(ESP, esp)], 6, address);
        }
    }
    // POP ECX, RET and RET 4; LEAVE.
    for (code, register) in [(&[0x59][..], ESP), (&[0xC3], ESP), (&[0xC2, 4, 0], ESP), (&[0xC9], EBP)] {
        for (top, address) in [
            (DATA_END - 3, DATA_END),
            (DATA_END - 1, DATA_END),
            (DATA - 2, DATA - 2),
            (LAST - 3, LAST),
            (LAST - 1, LAST),
            (0xFFFF_FFFE, 0xFFFF_FFFE),
        ] {
            stops(code, &[(register, top)], 5, address);
        }
    }
    // PUSH [EBX] and CALL [EBX]: the read first, then the write.
    for code in [&[0xFF, 0x33][..], &[0xFF, 0x13]] {
        stops(code, &[(EBX, LAST - 2), (ESP, DATA_END + 2)], 5, LAST);
        stops(code, &[(EBX, DATA_END - 2), (ESP, 0)], 5, DATA_END);
        stops(code, &[(EBX, LAST - 4), (ESP, DATA_END + 2)], 6, DATA_END);
        stops(code, &[(EBX, DATA), (ESP, LAST + 2)], 6, LAST - 2);
    }
    // JMP [EBX].
    stops(&[0xFF, 0x23], &[(EBX, LAST - 2)], 5, LAST);
}

#[test]
fn strings() {
    // MOVSD and MOVSW.
    for code in [&[0xA5][..], &[0x66, 0xA5]] {
        stops(code, &[(ESI, DATA_END - 1), (EDI, LAST - 1)], 5, DATA_END);
        stops(code, &[(ESI, LAST - 1), (EDI, DATA_END - 1)], 5, LAST);
        stops(code, &[(ESI, FIRST), (EDI, DATA_END - 1)], 6, DATA_END);
        stops(code, &[(ESI, DATA), (EDI, LAST - 1)], 6, LAST - 1);
        stops(code, &[(ESI, DATA), (EDI, DATA - 1)], 6, DATA - 1);
    }
    // CMPSD and CMPSW.
    for code in [&[0xA7][..], &[0x66, 0xA7]] {
        stops(code, &[(ESI, LAST - 1), (EDI, DATA_END - 1)], 5, LAST);
        stops(code, &[(ESI, FIRST), (EDI, DATA_END - 1)], 5, DATA_END);
        stops(code, &[(ESI, DATA), (EDI, LAST - 1)], 5, LAST);
        stops(code, &[(ESI, DATA), (EDI, FIRST - 1)], 5, FIRST - 1);
    }
    // LODSD and SCASD; STOSD.
    for (end, at) in [(DATA_END, DATA_END - 2), (LAST, LAST - 2)] {
        stops(&[0xAD], &[(ESI, at)], 5, end);
        stops(&[0xAF], &[(EDI, at)], 5, end);
    }
    stops(&[0xAB], &[(EDI, DATA_END - 2)], 6, DATA_END);
    stops(&[0xAB], &[(EDI, LAST - 2)], 6, LAST - 2);
}

#[test]
fn repeated_strings_keep_their_finished_rounds() {
    // REP STOSW upward from the second byte: two rounds, then one of the last byte and one behind it.
    let mut data = [0; 6];
    let before = machine(&[(EAX, 0x7777), (ECX, 9), (EDI, DATA + 1)], 0);
    let up = run(before, &[0xF3, 0x66, 0xAB], &[], &mut data, 100);
    assert_eq!((up.steps, up.number, up.address), (2, 6, DATA_END));
    assert_eq!((up.machine.regs[ECX], up.machine.regs[EDI]), (7, DATA + 5));
    assert_eq!(data, [0, 0x77, 0x77, 0x77, 0x77, 0]);
    // REP STOSW downward from the second byte: one round, then one from below.
    let before = machine(&[(ECX, 9), (EDI, DATA + 1)], DF);
    let down = run(before, &[0xF3, 0x66, 0xAB], &[], &mut data, 100);
    assert_eq!((down.steps, down.number, down.address), (1, 6, DATA - 1));
    // LODSD downward from the last bytes: the bytes of an access go upward all the same.
    let over = run(machine(&[(ESI, LAST - 1)], DF), &[0xAD], &[1; 9], &mut data, 1);
    assert_eq!((over.number, over.address), (5, LAST));
}

/// The address that document 02 gives a refused access beside so many constants and data.
fn expected(writes: bool, access: Refused, constants: usize, data: usize) -> u32 {
    let end = |base: u32, length: usize| {
        let end = base + length as u32;
        (base <= access.address && access.address < end).then_some(end)
    };
    let constants = if writes { None } else { end(CONSTANTS_BASE, constants) };
    end(DATA_BASE, data).or(constants).unwrap_or(access.address)
}

#[test]
fn random_refused_accesses() {
    let mut generator = Generator::new(5, Size::Large);
    let (mut ends, mut starts) = (0, 0);
    for _ in 0..20_000 {
        let RunCase { machine, code, constants, mut data, budget } = generator.at_ends();
        let (constants_length, data_length) = (constants.len(), data.len());
        let mut refused = None;
        let outcome = run_observed(machine, &code, &constants, &mut data, budget, |seen| match seen.stepped {
            Err(Stop::Read(access)) => refused = Some((false, access)),
            Err(Stop::Write(access)) => refused = Some((true, access)),
            _ => {}
        });
        let Some((writes, access)) = refused else { continue };
        let given = expected(writes, access, constants_length, data_length);
        assert_eq!((outcome.number, outcome.address), (if writes { 6 } else { 5 }, given));
        if given == access.address {
            starts += 1;
        } else {
            ends += 1;
        }
    }
    assert!(ends > 2_000 && starts > 2_000, "{ends} {starts}");
}
