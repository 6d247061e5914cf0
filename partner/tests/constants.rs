//! Document 02's M-104: reads of constants, writes that they refuse, and number 15, worked out by hand; the address of a
//! refused access is its first byte outside (M-105).

use partner::machine::{Machine, AF, CF, CODE_BASE, DATA_BASE, DF, HOME, OF, PF, SF, ZF};
use partner::run::{run, Outcome};

const EAX: usize = 0;
const ECX: usize = 1;
const EDX: usize = 2;
const EBX: usize = 3;
const ESP: usize = 4;
const EBP: usize = 5;
const ESI: usize = 6;
const EDI: usize = 7;

/// Address of the first constant.
const FIRST: u32 = 0x0020_0000;
/// Eight constants.
const EIGHT: [u8; 8] = [0x11, 0x22, 0x33, 0x44, 0x55, 0x66, 0x77, 0x88];

/// A machine at the code's start with some registers and flags.
fn machine(registers: &[(usize, u32)], flags: u32) -> Machine {
    let mut regs = [0; 8];
    for &(number, value) in registers {
        regs[number] = value;
    }
    Machine { regs, eip: CODE_BASE, flags: flags | 2, singles: [0; 8] }
}

/// One step without flags set, with the eight constants and the data.
fn step(code: &[u8], registers: &[(usize, u32)], data: &mut [u8]) -> Outcome {
    run(machine(registers, 0), code, &EIGHT, data, 1)
}

/// The step finishes with these registers and flags, and leaves four bytes of data alone.
fn finishes(code: &[u8], registers: &[(usize, u32)], after: &[(usize, u32)], flags: u32) {
    let mut data = [0x5A; 4];
    let outcome = step(code, registers, &mut data);
    assert_eq!((outcome.number, outcome.steps), (0, 1), "{code:02X?} {registers:X?}");
    let expected = Machine { eip: CODE_BASE + code.len() as u32, ..machine(after, flags) };
    assert_eq!(outcome.machine, expected, "{code:02X?} {registers:X?}");
    assert_eq!(data, [0x5A; 4]);
}

/// The step stops with this number at this address, and leaves the machine and four bytes of data.
fn stops(code: &[u8], registers: &[(usize, u32)], number: u32, address: u32) {
    let mut data = [0x5A; 4];
    let outcome = step(code, registers, &mut data);
    let before = machine(registers, 0);
    assert_eq!((outcome.number, outcome.address, outcome.steps), (number, address, 0), "{code:02X?} {registers:X?}");
    assert_eq!((outcome.machine, outcome.undefined), (before, 0), "{code:02X?} {registers:X?}");
    assert_eq!(data, [0x5A; 4]);
}

#[test]
fn reads_of_each_width_reach_to_the_last_constant() {
    // MOV AL, [ESI]; MOV AX, [ESI]; MOV EAX, [ESI].
    let (byte, word, long): (&[u8], &[u8], &[u8]) = (&[0x8A, 0x06], &[0x66, 0x8B, 0x06], &[0x8B, 0x06]);
    for (code, offset, value) in [
        (byte, 0, 0x11),
        (byte, 7, 0x88),
        (word, 0, 0x2211),
        (word, 6, 0x8877),
        (long, 0, 0x4433_2211),
        (long, 1, 0x5544_3322),
        (long, 4, 0x8877_6655),
    ] {
        finishes(code, &[(ESI, FIRST + offset)], &[(ESI, FIRST + offset), (EAX, value)], 0);
    }
    // One byte over the last, and all the way past it.
    for (code, offset) in [(byte, 8), (word, 7), (word, 8), (long, 5), (long, 6), (long, 7), (long, 8)] {
        stops(code, &[(ESI, FIRST + offset)], 5, FIRST + 8);
    }
    // One byte below the first, and all the way below it.
    for (code, below) in [(byte, 1), (word, 1), (word, 2), (long, 1), (long, 2), (long, 3), (long, 4)] {
        stops(code, &[(ESI, FIRST - below)], 5, FIRST - below);
    }
}

#[test]
fn addresses_do_not_wrap_into_an_area() {
    // MOV AL, AX and EAX, [ESI] at the end of all addresses, and one that goes on at 0.
    for (code, address) in [
        (&[0x8A, 0x06][..], 0xFFFF_FFFF),
        (&[0x66, 0x8B, 0x06], 0xFFFF_FFFF),
        (&[0x66, 0x8B, 0x06], 0xFFFF_FFFE),
        (&[0x8B, 0x06], 0xFFFF_FFFD),
        (&[0x8B, 0x06], 0xFFFF_FFFC),
        (&[0x8B, 0x06], 0),
    ] {
        stops(code, &[(ESI, address)], 5, address);
    }
    // An effective address itself does: MOV EAX, [ESI+ECX], MOV EAX, [ESI-1].
    let sum = [(ESI, 0xFFFF_FFFF), (ECX, FIRST + 3)];
    finishes(&[0x8B, 0x04, 0x0E], &sum, &[sum[0], sum[1], (EAX, 0x6655_4433)], 0);
    finishes(&[0x8B, 0x46, 0xFF], &[(ESI, FIRST + 1)], &[(ESI, FIRST + 1), (EAX, 0x4433_2211)], 0);
}

#[test]
fn each_area_has_its_own_length() {
    // MOV EAX, [ESI] with 8 data and 4 constants, and the other way round.
    let read = |constants: &[u8], data: &mut [u8], address| {
        let outcome = run(machine(&[(ESI, address)], 0), &[0x8B, 0x06], constants, data, 1);
        (outcome.number, outcome.address)
    };
    assert_eq!(read(&[1; 4], &mut [2; 8], FIRST + 4), (5, FIRST + 4));
    assert_eq!(read(&[1; 4], &mut [2; 8], DATA_BASE + 4), (0, CODE_BASE + 2));
    assert_eq!(read(&[1; 8], &mut [2; 4], FIRST + 4), (0, CODE_BASE + 2));
    assert_eq!(read(&[1; 8], &mut [2; 4], DATA_BASE + 4), (5, DATA_BASE + 4));
    // Without constants, and 64 KiB past them.
    assert_eq!(read(&[], &mut [2; 8], FIRST), (5, FIRST));
    assert_eq!(read(&[1; 8], &mut [2; 8], FIRST + 0x1_0000), (5, FIRST + 0x1_0000));
    assert_eq!(read(&[1; 8], &mut [2; 8], DATA_BASE + 0x1_0000), (5, DATA_BASE + 0x1_0000));
    // As many constants as there may be.
    let most = vec![7; 65_536];
    assert_eq!(read(&most, &mut [], 0x0020_FFFC), (0, CODE_BASE + 2));
    assert_eq!(read(&most, &mut [], 0x0020_FFFD), (5, 0x0021_0000));
    assert_eq!(read(&most, &mut [], 0x0021_0000), (5, 0x0021_0000));
}

#[test]
fn operands_are_read_from_constants() {
    // ADD ECX, [ESI]; CMP [ESI], CL; CMP CL, [ESI]; TEST [ESI], CL.
    let from = [(ESI, FIRST), (ECX, 0x0100_0011)];
    finishes(&[0x03, 0x0E], &from, &[(ESI, FIRST), (ECX, 0x4533_2222)], PF);
    finishes(&[0x38, 0x0E], &from, &from, ZF | PF);
    finishes(&[0x3A, 0x0E], &from, &from, ZF | PF);
    finishes(&[0x84, 0x0E], &from, &from, PF);
    // MOVZX EDX, byte [ESI+7]; MOVSX EDX, byte and word [ESI+7] and [ESI+6].
    finishes(&[0x0F, 0xB6, 0x56, 7], &[(ESI, FIRST)], &[(ESI, FIRST), (EDX, 0x88)], 0);
    finishes(&[0x0F, 0xBE, 0x56, 7], &[(ESI, FIRST)], &[(ESI, FIRST), (EDX, 0xFFFF_FF88)], 0);
    finishes(&[0x0F, 0xBF, 0x56, 6], &[(ESI, FIRST)], &[(ESI, FIRST), (EDX, 0xFFFF_8877)], 0);
    stops(&[0x0F, 0xBF, 0x56, 7], &[(ESI, FIRST)], 5, FIRST + 8);
    // MOV EAX, [00200004h] and [00200005h].
    finishes(&[0xA1, 4, 0, 0x20, 0], &[], &[(EAX, 0x8877_6655)], 0);
    stops(&[0xA1, 5, 0, 0x20, 0], &[], 5, FIRST + 8);
    // IMUL EAX, [ESI], 2 of a word; MUL byte [ESI].
    finishes(&[0x66, 0x6B, 0x06, 2], &[(ESI, FIRST)], &[(ESI, FIRST), (EAX, 0x4422)], 0);
    finishes(&[0xF6, 0x26], &[(ESI, FIRST), (EAX, 2)], &[(ESI, FIRST), (EAX, 0x22)], 0);
    // DIV byte [ESI] of 35 and of 4097h, whose quotient doesn't fit.
    finishes(&[0xF6, 0x36], &[(ESI, FIRST), (EAX, 35)], &[(ESI, FIRST), (EAX, 0x0102)], 0);
    stops(&[0xF6, 0x36], &[(ESI, FIRST), (EAX, 0x4097)], 7, CODE_BASE);
    // CMOVE EDX, [ESI] with its condition not met reads all the same.
    finishes(&[0x0F, 0x44, 0x16], &[(ESI, FIRST + 4)], &[(ESI, FIRST + 4)], 0);
    stops(&[0x0F, 0x44, 0x16], &[(ESI, FIRST + 5)], 5, FIRST + 8);
    // BSF and BSR EDX, [ESI].
    finishes(&[0x0F, 0xBC, 0x16], &[(ESI, FIRST)], &[(ESI, FIRST), (EDX, 0)], 0);
    finishes(&[0x0F, 0xBD, 0x16], &[(ESI, FIRST)], &[(ESI, FIRST), (EDX, 30)], 0);
}

#[test]
fn a_bit_s_unit_may_lie_in_constants() {
    // BT [ESI], ECX: bit 36 is bit 4 of 55h, bit -1 the top bit of the unit below.
    finishes(&[0x0F, 0xA3, 0x0E], &[(ESI, FIRST), (ECX, 36)], &[(ESI, FIRST), (ECX, 36)], CF);
    stops(&[0x0F, 0xA3, 0x0E], &[(ESI, FIRST), (ECX, 64)], 5, FIRST + 8);
    stops(&[0x0F, 0xA3, 0x0E], &[(ESI, FIRST), (ECX, 0xFFFF_FFFF)], 5, FIRST - 4);
    let below = [(ESI, FIRST + 8), (ECX, 0xFFFF_FFFF)];
    finishes(&[0x0F, 0xA3, 0x0E], &below, &below, CF);
    // From an operand in data: 1 MiB on is bit 00800000h.
    let far = [(ESI, DATA_BASE), (ECX, 0x0080_0000)];
    finishes(&[0x0F, 0xA3, 0x0E], &far, &far, CF);
    // BTS, BTR and BTC there; BTS [ESI], 0.
    for opcode in [0xAB, 0xB3, 0xBB] {
        stops(&[0x0F, opcode, 0x0E], &far, 6, FIRST);
        stops(&[0x0F, opcode, 0x0E], &[(ESI, FIRST), (ECX, 64)], 5, FIRST + 8);
    }
    stops(&[0x0F, 0xBA, 0x2E, 0], &[(ESI, FIRST)], 6, FIRST);
}

#[test]
fn a_memory_destination_in_constants_gives_6() {
    // MOV [EBX], AL, AX and EAX; MOV byte and dword [EBX], 1; SETO [EBX].
    for code in [
        &[0x88, 0x03][..],
        &[0x66, 0x89, 0x03],
        &[0x89, 0x03],
        &[0xC6, 0x03, 1],
        &[0xC7, 0x03, 1, 0, 0, 0],
        &[0x0F, 0x90, 0x03],
    ] {
        // Amid the constants, at both ends, across them and beside them.
        for place in [FIRST, FIRST + 2, FIRST + 4, FIRST + 5, FIRST + 7, FIRST + 8, FIRST - 1, FIRST - 4, 0xFFFF_FFFE] {
            stops(code, &[(EBX, place)], 6, place);
        }
    }
    // MOV [00200004h], EAX.
    stops(&[0xA3, 4, 0, 0x20, 0], &[], 6, FIRST + 4);
}

#[test]
fn a_changed_operand_in_constants_is_read_and_then_gives_6() {
    // ADD and XCHG [EBX], EAX; INC, DEC, NOT and NEG [EBX]; SHL [EBX], 0 and 1; SHLD [EBX], EAX, 1; ADC [EBX], 1.
    for code in [
        &[0x01, 0x03][..],
        &[0x87, 0x03],
        &[0xFF, 0x03],
        &[0xFF, 0x0B],
        &[0xF7, 0x13],
        &[0xF7, 0x1B],
        &[0xC1, 0x23, 0],
        &[0xD1, 0x23],
        &[0x0F, 0xA4, 0x03, 1],
        &[0x81, 0x13, 1, 0, 0, 0],
    ] {
        for inside in [FIRST, FIRST + 1, FIRST + 4] {
            stops(code, &[(EBX, inside)], 6, inside);
        }
        // Where the read itself isn't allowed.
        for beside in [FIRST - 4, FIRST - 1, FIRST + 8, 0xFFFF_FFFD] {
            stops(code, &[(EBX, beside)], 5, beside);
        }
        stops(code, &[(EBX, FIRST + 5)], 5, FIRST + 8);
    }
    // SHLD [EBX], AX, 17, which keeps its destination, still writes it.
    stops(&[0x66, 0x0F, 0xA4, 0x03, 17], &[(EBX, FIRST)], 6, FIRST);
}

#[test]
fn the_stack_is_read_in_constants_and_not_written() {
    // PUSH EAX, imm8 and ECX; CALL +0 and EAX.
    for code in [&[0x50][..], &[0x6A, 1], &[0x51], &[0xE8, 0, 0, 0, 0], &[0xFF, 0xD0]] {
        for top in [FIRST + 4, FIRST + 8, FIRST + 9, FIRST + 3, FIRST] {
            stops(code, &[(ESP, top)], 6, top - 4);
        }
    }
    // POP EDX, and POP ESP.
    finishes(&[0x5A], &[(ESP, FIRST + 4)], &[(ESP, FIRST + 8), (EDX, 0x8877_6655)], 0);
    finishes(&[0x5C], &[(ESP, FIRST)], &[(ESP, 0x4433_2211)], 0);
    stops(&[0x5A], &[(ESP, FIRST + 5)], 5, FIRST + 8);
    stops(&[0x5A], &[(ESP, FIRST - 1)], 5, FIRST - 1);
    // LEAVE.
    finishes(&[0xC9], &[(EBP, FIRST + 4)], &[(EBP, 0x8877_6655), (ESP, FIRST + 8)], 0);
    stops(&[0xC9], &[(EBP, FIRST + 5)], 5, FIRST + 8);
    // RET and RET 4 to an address in constants; a block so ends at home.
    for (code, released) in [(&[0xC3][..], 0), (&[0xC2, 4, 0], 4)] {
        let outcome = step(code, &[(ESP, FIRST + 4)], &mut []);
        assert_eq!((outcome.number, outcome.machine.eip), (0, 0x8877_6655));
        assert_eq!(outcome.machine.regs[ESP], FIRST + 8 + released);
        stops(code, &[(ESP, FIRST + 5)], 5, FIRST + 8);
    }
    let home = run(machine(&[(ESP, FIRST)], 0), &[0xC3], &HOME.to_le_bytes(), &mut [], 9);
    assert_eq!((home.number, home.address, home.steps), (1, HOME, 1));
}

#[test]
fn targets_and_pushed_words_are_read_from_constants_first() {
    // JMP [EBX], CALL [EBX] and PUSH [EBX] with a stack in data.
    let jump = step(&[0xFF, 0x23], &[(EBX, FIRST)], &mut []);
    assert_eq!((jump.number, jump.machine.eip), (0, 0x4433_2211));
    let mut data = [0; 4];
    let call = step(&[0xFF, 0x13], &[(EBX, FIRST + 4), (ESP, DATA_BASE + 4)], &mut data);
    assert_eq!((call.number, call.machine.eip, data), (0, 0x8877_6655, (CODE_BASE + 2).to_le_bytes()));
    let push = step(&[0xFF, 0x33], &[(EBX, FIRST + 2), (ESP, DATA_BASE + 4)], &mut data);
    assert_eq!((push.number, push.machine.regs[ESP], data), (0, DATA_BASE, [0x33, 0x44, 0x55, 0x66]));
    // The stack is in constants, the word there, in data, or nowhere.
    for code in [&[0xFF, 0x13][..], &[0xFF, 0x33]] {
        stops(code, &[(EBX, FIRST), (ESP, FIRST + 8)], 6, FIRST + 4);
        stops(code, &[(EBX, DATA_BASE), (ESP, FIRST + 8)], 6, FIRST + 4);
        stops(code, &[(EBX, FIRST + 5), (ESP, FIRST + 8)], 5, FIRST + 8);
        stops(code, &[(EBX, FIRST + 5), (ESP, DATA_BASE + 4)], 5, FIRST + 8);
    }
    stops(&[0xFF, 0x23], &[(EBX, FIRST + 5)], 5, FIRST + 8);
}

#[test]
fn string_instructions_read_constants_and_do_not_write_them() {
    // MOVSD to data, to constants, across their end, and from beside them.
    let mut data = [0; 4];
    let moved = step(&[0xA5], &[(ESI, FIRST + 4), (EDI, DATA_BASE)], &mut data);
    assert_eq!((moved.number, data), (0, [0x55, 0x66, 0x77, 0x88]));
    assert_eq!((moved.machine.regs[ESI], moved.machine.regs[EDI]), (FIRST + 8, DATA_BASE + 4));
    stops(&[0xA5], &[(ESI, FIRST), (EDI, FIRST)], 6, FIRST);
    stops(&[0xA5], &[(ESI, DATA_BASE), (EDI, FIRST + 4)], 6, FIRST + 4);
    stops(&[0xA5], &[(ESI, FIRST + 4), (EDI, FIRST + 5)], 6, FIRST + 5);
    stops(&[0xA5], &[(ESI, FIRST + 5), (EDI, FIRST + 4)], 5, FIRST + 8);
    // STOSB, STOSW, STOSD.
    for code in [&[0xAA][..], &[0x66, 0xAB], &[0xAB]] {
        for place in [FIRST, FIRST + 4, FIRST + 8, FIRST - 1] {
            stops(code, &[(EDI, place)], 6, place);
        }
    }
    // LODSB and LODSD.
    finishes(&[0xAC], &[(ESI, FIRST + 7)], &[(ESI, FIRST + 8), (EAX, 0x88)], 0);
    finishes(&[0xAD], &[(ESI, FIRST)], &[(ESI, FIRST + 4), (EAX, 0x4433_2211)], 0);
    stops(&[0xAD], &[(ESI, FIRST + 5)], 5, FIRST + 8);
    // SCASB of 22h with AL 11h: 11h - 22h = EFh borrows and has seven ones.
    let after = [(EDI, FIRST + 2), (EAX, 0x11)];
    finishes(&[0xAE], &[(EDI, FIRST + 1), (EAX, 0x11)], &after, SF | AF | CF);
    stops(&[0xAF], &[(EDI, FIRST + 5)], 5, FIRST + 8);
    // CMPSB of 88h in constants and 5Ah in data: 2Eh, which overflows, borrows in the low digit and has four ones.
    let places = [(ESI, FIRST + 7), (EDI, DATA_BASE)];
    finishes(&[0xA6], &places, &[(ESI, FIRST + 8), (EDI, DATA_BASE + 1)], OF | AF | PF);
    // And of two constants, 11h less 33h: DEh, six ones.
    let both = [(ESI, FIRST), (EDI, FIRST + 2)];
    finishes(&[0xA6], &both, &[(ESI, FIRST + 1), (EDI, FIRST + 3)], SF | AF | PF | CF);
    stops(&[0xA6], &[(ESI, FIRST + 8), (EDI, FIRST + 9)], 5, FIRST + 8);
    stops(&[0xA6], &[(ESI, FIRST), (EDI, FIRST + 8)], 5, FIRST + 8);
}

#[test]
fn repeated_copies_from_constants_stop_at_their_ends() {
    // REP MOVSB of ten from the third constant: six rounds, then the read past the last.
    let mut data = [0; 12];
    let before = machine(&[(ECX, 10), (ESI, FIRST + 2), (EDI, DATA_BASE)], 0);
    let up = run(before, &[0xF3, 0xA4], &EIGHT, &mut data, 100);
    assert_eq!((up.steps, up.number, up.address, up.machine.regs[ECX]), (6, 5, FIRST + 8, 4));
    assert_eq!(data, [0x33, 0x44, 0x55, 0x66, 0x77, 0x88, 0, 0, 0, 0, 0, 0]);
    // REP LODSD downward: two rounds, then the read below the first.
    let before = machine(&[(ECX, 3), (ESI, FIRST + 4)], DF);
    let down = run(before, &[0xF3, 0xAD], &EIGHT, &mut data, 100);
    assert_eq!((down.steps, down.number, down.address), (2, 5, FIRST - 4));
    assert_eq!((down.machine.regs[ECX], down.machine.regs[EAX]), (1, 0x4433_2211));
    // REP STOSB from just below the first constant: already the first round is refused.
    let before = machine(&[(ECX, 2), (EDI, FIRST - 1)], 0);
    let stored = run(before, &[0xF3, 0xAA], &EIGHT, &mut data, 100);
    assert_eq!((stored.steps, stored.number, stored.address), (0, 6, FIRST - 1));
}

#[test]
fn a_run_goes_on_with_the_same_constants() {
    // Case 10 of document 01 with its source in constants.
    let constants: Vec<u8> = (1..=100).collect();
    let before = machine(&[(ECX, 25), (ESI, FIRST), (EDI, DATA_BASE + 0x100)], 0);
    let mut data = [0; 512];
    let first = run(before, &[0xF3, 0xA5], &constants, &mut data, 10);
    assert_eq!((first.number, first.machine.eip, first.machine.regs[ECX]), (0, CODE_BASE, 15));
    assert_eq!(first.machine.regs[ESI], FIRST + 0x28);
    let second = run(first.machine, &[0xF3, 0xA5], &constants, &mut data, 15);
    assert_eq!((second.number, second.machine.eip, second.machine.regs[ECX]), (0, CODE_BASE + 2, 0));
    assert_eq!(data[0x100..0x164], constants);
    // In one run; and with other constants in the second, where the law says nothing.
    let mut whole = [0; 512];
    let both = run(before, &[0xF3, 0xA5], &constants, &mut whole, 25);
    assert_eq!((both.machine, both.steps, whole), (second.machine, first.steps + second.steps, data));
    let none = run(first.machine, &[0xF3, 0xA5], &[], &mut whole, 15);
    assert_eq!((none.number, none.address), (5, FIRST + 0x28));
}

#[test]
fn too_many_constants_give_15_after_11_and_before_12() {
    let (code, long) = ([0x90], vec![0x90; 65_537]);
    let mut data = vec![9; 65_537];
    let bad = Machine { flags: 0, ..machine(&[(EAX, 5)], 0) };
    let good = machine(&[(EAX, 5)], 0);
    let refused = |machine, code: &[u8], constants: usize, data: &mut [u8], budget| {
        let outcome = run(machine, code, &vec![3; constants], data, budget);
        assert_eq!(outcome, Outcome { machine, steps: 0, number: outcome.number, address: 0, undefined: 0 });
        outcome.number
    };
    for constants in [65_537, 65_538, 65_540, 131_072] {
        assert_eq!(refused(good, &code, constants, &mut data[..8], 1), 15);
        assert_eq!(refused(good, &code, constants, &mut [], 0), 15);
        assert_eq!(refused(good, &code, constants, &mut data[..65_536], 1_000_000), 15);
        // With a bad flags word, too large a budget, and both.
        assert_eq!(refused(bad, &code, constants, &mut data[..8], 1), 15);
        assert_eq!(refused(good, &code, constants, &mut data[..8], 1_000_001), 15);
        assert_eq!(refused(bad, &code, constants, &mut data[..8], u64::MAX), 15);
        // With too much data, and no code or too much.
        assert_eq!(refused(good, &code, constants, &mut data, 1), 11);
        assert_eq!(refused(bad, &code, constants, &mut data, 1_000_001), 11);
        assert_eq!(refused(good, &[], constants, &mut data[..8], 1), 10);
        assert_eq!(refused(bad, &long, constants, &mut data, 1_000_001), 10);
        // EIP at home or outside isn't looked at.
        assert_eq!(refused(Machine { eip: HOME, ..good }, &code, constants, &mut [], 1), 15);
    }
    // As many as there may be are taken, and the others are refused as before.
    assert_eq!(run(good, &code, &vec![3; 65_536], &mut data[..8], 1).steps, 1);
    assert_eq!(refused(bad, &code, 65_536, &mut data[..8], 1_000_001), 12);
    assert_eq!(refused(good, &code, 65_536, &mut data[..8], 1_000_001), 13);
    assert!(data.iter().all(|&byte| byte == 9));
}

#[test]
fn constants_are_no_code_and_code_is_no_constant() {
    // EIP in constants; a read at the code's address.
    let there = run(Machine { eip: FIRST, ..machine(&[], 0) }, &[0x90], &[0x90; 8], &mut [], 1);
    assert_eq!((there.number, there.address), (2, FIRST));
    stops(&[0x8A, 0x06], &[(ESI, CODE_BASE)], 5, CODE_BASE);
}
