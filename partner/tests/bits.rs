//! Document 02's M-100: conditional moves, bit tests, scans and double shifts, worked out by hand from 003; flags that
//! it leaves undefined are clear (M-101).

use partner::machine::{Machine, AF, CF, CODE_BASE, DATA_BASE, OF, PF, SF, STATUS, ZF};
use partner::run::{run, Outcome};

const EAX: usize = 0;
const ECX: usize = 1;
const EDX: usize = 2;
const EBX: usize = 3;

/// Flags that a bit test leaves undefined.
const NOT_CF: u32 = OF | SF | ZF | AF | PF;
/// Flags that a scan leaves undefined.
const NOT_ZF: u32 = OF | SF | CF | AF | PF;

/// A machine at the code's start with some registers and flags.
fn machine(registers: &[(usize, u32)], flags: u32) -> Machine {
    let mut regs = [0; 8];
    for &(number, value) in registers {
        regs[number] = value;
    }
    Machine { regs, eip: CODE_BASE, flags: flags | 2, singles: [0; 8] }
}

/// One step with the data.
fn step(code: &[u8], registers: &[(usize, u32)], flags: u32, data: &mut [u8]) -> Outcome {
    run(machine(registers, flags), code, &[], data, 1)
}

/// The outcome of one step without data: registers and flags after, and the flags left undefined.
fn finished(
    code: &[u8],
    registers: &[(usize, u32)],
    flags: u32,
    after: &[(usize, u32)],
    flags_after: u32,
    undefined: u32,
) {
    let outcome = step(code, registers, flags, &mut []);
    let expected = Machine { eip: CODE_BASE + code.len() as u32, ..machine(after, flags_after) };
    assert_eq!((outcome.machine, outcome.undefined), (expected, undefined), "{code:02X?} {registers:X?} {flags:X}");
    assert_eq!((outcome.steps, outcome.number), (1, 0));
}

/// The step stops with this number at this address and leaves the machine and the data.
fn stopped(code: &[u8], registers: &[(usize, u32)], flags: u32, length: usize, number: u32, address: u32) {
    let mut data = vec![0x5A; length];
    let outcome = step(code, registers, flags, &mut data);
    assert_eq!((outcome.number, outcome.address, outcome.steps), (number, address, 0), "{code:02X?}");
    assert_eq!((outcome.machine, outcome.undefined), (machine(registers, flags), 0));
    assert!(data.iter().all(|&byte| byte == 0x5A));
}

#[test]
fn conditional_moves_follow_their_conditions() {
    for combination in 0..32 {
        let bit = |place: u32, flag| if combination >> place & 1 == 1 { flag } else { 0 };
        let flags = bit(0, OF) | bit(1, CF) | bit(2, ZF) | bit(3, SF) | bit(4, PF);
        let [of, cf, zf, sf, pf] = [OF, CF, ZF, SF, PF].map(|flag| flags & flag != 0);
        let met = [
            of,
            !of,
            cf,
            !cf,
            zf,
            !zf,
            cf || zf,
            !cf && !zf,
            sf,
            !sf,
            pf,
            !pf,
            sf != of,
            sf == of,
            zf || sf != of,
            !zf && sf == of,
        ];
        for (number, met) in met.into_iter().enumerate() {
            // CMOVcc EAX, ECX.
            let code = [0x0F, 0x40 + number as u8, 0xC1];
            let before = [(EAX, 0x1111_2222), (ECX, 0x3333_4444)];
            let eax = if met { 0x3333_4444 } else { 0x1111_2222 };
            finished(&code, &before, flags, &[(EAX, eax), (ECX, 0x3333_4444)], flags, 0);
            // Under 66 the high half stays.
            let word = [0x66, 0x0F, 0x40 + number as u8, 0xC1];
            let eax = if met { 0x1111_4444 } else { 0x1111_2222 };
            finished(&word, &before, flags, &[(EAX, eax), (ECX, 0x3333_4444)], flags, 0);
        }
    }
}

#[test]
fn a_conditional_move_reads_even_if_its_condition_is_false() {
    // CMOVE EAX, [EBX], and with 66.
    for code in [&[0x0F, 0x44, 0x03][..], &[0x66, 0x0F, 0x44, 0x03]] {
        for flags in [0, ZF] {
            for address in [DATA_BASE - 1, DATA_BASE + 8, 0xFFFF_FFFE, CODE_BASE] {
                stopped(code, &[(EAX, 7), (EBX, address)], flags, 8, 5, address);
            }
            stopped(code, &[(EAX, 7), (EBX, DATA_BASE + 7)], flags, 8, 5, DATA_BASE + 8);
        }
    }
    let mut data = [1, 2, 3, 4, 5, 6];
    for (code, flags, eax) in [
        (&[0x0F, 0x44, 0x03][..], 0, 0xAAAA_AAAA),
        (&[0x0F, 0x44, 0x03], ZF, 0x0605_0403),
        (&[0x66, 0x0F, 0x44, 0x03], 0, 0xAAAA_AAAA),
        (&[0x66, 0x0F, 0x44, 0x03], ZF, 0xAAAA_0403),
    ] {
        let outcome = step(code, &[(EAX, 0xAAAA_AAAA), (EBX, DATA_BASE + 2)], flags, &mut data);
        assert_eq!((outcome.number, outcome.machine.regs[EAX]), (0, eax));
    }
    assert_eq!(data, [1, 2, 3, 4, 5, 6]);
}

#[test]
fn bits_of_registers_go_modulo_the_width() {
    for old in [0, STATUS] {
        // BT EAX, ECX: bit 2 of 4 by 2, 34 and -30, bit 3 by 3.
        for (offset, carry) in [(2, CF), (34, CF), (0xFFFF_FFE2, CF), (3, 0), (0xFFFF_FFFF, 0)] {
            let registers = [(EAX, 4), (ECX, offset)];
            finished(&[0x0F, 0xA3, 0xC8], &registers, old, &registers, carry, NOT_CF);
        }
        // BT AX, CX: 17 is bit 1, 16 is bit 0, whatever the high halves hold.
        for (offset, carry) in [(17, CF), (16, 0), (0xFFFF_0001, CF), (0xFFF1, CF)] {
            let registers = [(EAX, 0x0001_0002), (ECX, offset)];
            finished(&[0x66, 0x0F, 0xA3, 0xC8], &registers, old, &registers, carry, NOT_CF);
        }
        // BTS, BTR and BTC EAX, ECX at bit 31, clear and set.
        for (opcode, from_clear, from_set) in [(0xAB, 0x8000_0001, 0x8000_0001), (0xB3, 1, 1), (0xBB, 0x8000_0001, 1)] {
            for (eax, result, carry) in [(1, from_clear, 0), (0x8000_0001, from_set, CF)] {
                let code = [0x0F, opcode, 0xC8];
                finished(&code, &[(EAX, eax), (ECX, 63)], old, &[(EAX, result), (ECX, 63)], carry, NOT_CF);
            }
        }
        // BTC EAX, 63; BTS AX, 255; BTR AX, 16.
        finished(&[0x0F, 0xBA, 0xF8, 63], &[(EAX, 1)], old, &[(EAX, 0x8000_0001)], 0, NOT_CF);
        finished(&[0x66, 0x0F, 0xBA, 0xE8, 255], &[], old, &[(EAX, 0x8000)], 0, NOT_CF);
        finished(&[0x66, 0x0F, 0xBA, 0xF0, 16], &[(EAX, 0x1_0001)], old, &[(EAX, 0x1_0000)], CF, NOT_CF);
        // BTS ECX, ECX uses the offset before.
        finished(&[0x0F, 0xAB, 0xC9], &[(ECX, 5)], old, &[(ECX, 0x25)], 0, NOT_CF);
    }
}

/// BTS [EBX], ECX, at 16 bits under 66, sets exactly this bit of zeroed data.
fn sets(word: bool, ebx: u32, ecx: u32, length: usize, byte: usize, bit: u8) {
    let code: &[u8] = if word { &[0x66, 0x0F, 0xAB, 0x0B] } else { &[0x0F, 0xAB, 0x0B] };
    let mut expected = vec![0; length];
    let mut data = expected.clone();
    expected[byte] = 1 << bit;
    for carry in [0, CF] {
        let outcome = step(code, &[(EBX, ebx), (ECX, ecx)], 0, &mut data);
        assert_eq!((outcome.number, outcome.machine.flags), (0, 2 | carry), "{word} {ebx:X} {ecx:X}");
        assert_eq!(data, expected, "{word} {ebx:X} {ecx:X}");
    }
}

#[test]
fn a_register_s_offset_into_memory_is_signed() {
    let at = |distance: u32| DATA_BASE.wrapping_add(distance);
    // Inside the first unit and above it.
    sets(false, at(0), 0, 8, 0, 0);
    sets(false, at(0), 31, 8, 3, 7);
    sets(false, at(0), 32, 8, 4, 0);
    sets(false, at(1), 33, 9, 5, 1);
    // -1 is bit 31 one unit below; -32 is bit 0 there; -33 is bit 31 two units below.
    sets(false, at(4), 0xFFFF_FFFF, 8, 3, 7);
    sets(false, at(4), 0xFFFF_FFE0, 8, 0, 0);
    sets(false, at(8), 0xFFFF_FFDF, 12, 3, 7);
    sets(false, at(8), 0xFFFF_FFDE, 12, 3, 6);
    // Units of 2 bytes under 66, whatever the offset's high half holds.
    sets(true, at(0), 15, 4, 1, 7);
    sets(true, at(0), 0xABCD_0010, 4, 2, 0);
    sets(true, at(2), 0x0000_FFFF, 4, 1, 7);
    sets(true, at(2), 0x1234_FFF0, 4, 0, 0);
    sets(true, at(4), 0x0000_FFEF, 6, 1, 7);
    // 8000h is -32,768 under 66, 4096 bytes below, and 32,768 without it, 4096 bytes above.
    sets(true, at(4096), 0x8000, 2, 0, 0);
    sets(true, at(4096), 0x800F, 2, 1, 7);
    sets(true, at(0u32.wrapping_sub(4094)), 0x7FFF, 2, 1, 7);
    sets(false, at(0u32.wrapping_sub(4096)), 0x8000, 4, 0, 0);
    // 80000000h lies 2^28 bytes below, 7FFFFFFFh in the last unit above.
    sets(false, at(0x1000_0000), 0x8000_0000, 4, 0, 0);
    sets(false, at(4u32.wrapping_sub(0x1000_0000)), 0x7FFF_FFFF, 4, 3, 7);
    // FFFFFFFCh and 40001h units of 4 bytes wrap to the data's start.
    sets(false, 0xFFFF_FFFC, 0x0080_0020, 4, 0, 0);
}

#[test]
fn bit_tests_access_one_whole_unit() {
    // BT, BTS, BTR and BTC [EBX], ECX read first.
    for opcode in [0xA3, 0xAB, 0xB3, 0xBB] {
        let (long, word) = ([0x0F, opcode, 0x0B], [0x66, 0x0F, opcode, 0x0B]);
        // Below the data by -1 and -33; as unsigned numbers they would lie elsewhere.
        stopped(&long, &[(EBX, DATA_BASE), (ECX, 0xFFFF_FFFF)], 0, 8, 5, 0x000F_FFFC);
        stopped(&long, &[(EBX, DATA_BASE + 4), (ECX, 0xFFFF_FFDF)], STATUS, 8, 5, 0x000F_FFFC);
        stopped(&word, &[(EBX, DATA_BASE), (ECX, 0x8000)], 0, 8, 5, 0x000F_F000);
        stopped(&word, &[(EBX, DATA_BASE + 2), (ECX, 0xFFEF)], 0, 8, 5, 0x000F_FFFE);
        // The bit's own byte lies in the data, but not its unit.
        stopped(&long, &[(EBX, DATA_BASE), (ECX, 32)], 0, 7, 5, 0x0010_0007);
        stopped(&word, &[(EBX, DATA_BASE), (ECX, 16)], 0, 3, 5, 0x0010_0003);
        stopped(&long, &[(EBX, DATA_BASE - 1), (ECX, 8)], 0, 8, 5, 0x000F_FFFF);
    }
    // BT [EBX], BX: 13h is bit 3 of the next unit.
    let mut data = [0; 0x17];
    data[0x15] = 8;
    let outcome = step(&[0x66, 0x0F, 0xA3, 0x1B], &[(EBX, DATA_BASE + 0x13)], 0, &mut data);
    assert_eq!((outcome.number, outcome.machine.flags), (0, 3));
}

#[test]
fn bit_tests_change_one_bit_of_memory() {
    // BT, BTS, BTR, BTC [EBX], ECX with ECX 37: bit 5 of the second unit.
    for (opcode, from_set, from_clear) in
        [(0xA3, 0xFF, 0x00), (0xAB, 0xFF, 0x20), (0xB3, 0xDF, 0x00), (0xBB, 0xDF, 0x20)]
    {
        for (fill, result, carry) in [(0xFF, from_set, CF), (0x00, from_clear, 0)] {
            let mut data = [fill; 8];
            let outcome = step(&[0x0F, opcode, 0x0B], &[(EBX, DATA_BASE), (ECX, 37)], ZF | OF, &mut data);
            assert_eq!((outcome.machine.flags, outcome.undefined), (2 | carry, NOT_CF));
            let expected = [fill, fill, fill, fill, result, fill, fill, fill];
            assert_eq!(data, expected, "{opcode:X} {fill:X}");
        }
    }
}

#[test]
fn an_immediate_offset_stays_in_the_unit() {
    // BTS dword [EBX], imm8 and BTS word [EBX], imm8.
    for (word, offset, byte, bit) in [
        (false, 33, 0, 1),
        (false, 255, 3, 7),
        (false, 24, 3, 0),
        (true, 33, 0, 1),
        (true, 24, 1, 0),
        (true, 255, 1, 7),
        (true, 16, 0, 0),
    ] {
        let code: &[u8] = if word { &[0x66, 0x0F, 0xBA, 0x2B, offset] } else { &[0x0F, 0xBA, 0x2B, offset] };
        let (mut data, mut expected) = ([0; 12], [0; 12]);
        expected[4 + byte] = 1 << bit;
        let outcome = step(code, &[(EBX, DATA_BASE + 4)], 0, &mut data);
        assert_eq!((outcome.number, outcome.machine.flags, data), (0, 2, expected), "{code:02X?}");
    }
    // BT dword [EBX], 0 reads four bytes, BT word [EBX], 0 two.
    stopped(&[0x0F, 0xBA, 0x23, 0], &[(EBX, DATA_BASE + 5)], 0, 8, 5, 0x0010_0008);
    stopped(&[0x66, 0x0F, 0xBA, 0x23, 0], &[(EBX, DATA_BASE + 7)], 0, 8, 5, 0x0010_0008);
}

#[test]
fn scans_give_the_index_of_the_first_bit_set() {
    for old in [0, STATUS] {
        // BSF and BSR EAX, ECX.
        for (source, forward, reverse) in [
            (1, 0, 0),
            (0x8000_0000, 31, 31),
            (0xC000_0010, 4, 31),
            (0x0001_8000, 15, 16),
            (0xFFFF_FFFF, 0, 31),
            (6, 1, 2),
        ] {
            for (opcode, index) in [(0xBC, forward), (0xBD, reverse)] {
                let before = [(EAX, 0xAAAA_AAAA), (ECX, source)];
                finished(&[0x0F, opcode, 0xC1], &before, old, &[(EAX, index), (ECX, source)], 0, NOT_ZF);
            }
        }
        // BSF and BSR AX, CX see the low half and leave EAX's high half.
        for (source, forward, reverse) in [(0x0001_8000, 15, 15), (0xFFFF_0001, 0, 0), (0x8000_0110, 4, 8)] {
            for (opcode, index) in [(0xBC, forward), (0xBD, reverse)] {
                let before = [(EAX, 0xAAAA_BBBB), (ECX, source)];
                let after = [(EAX, 0xAAAA_0000 + index), (ECX, source)];
                finished(&[0x66, 0x0F, opcode, 0xC1], &before, old, &after, 0, NOT_ZF);
            }
        }
        // A zero source sets ZF and leaves the destination, at 16 bits too.
        for opcode in [0xBC, 0xBD] {
            let zero = [(EAX, 0xAAAA_BBBB)];
            finished(&[0x0F, opcode, 0xC1], &zero, old, &zero, ZF, NOT_ZF);
            let low_zero = [(EAX, 0xAAAA_BBBB), (ECX, 0xFFFF_0000)];
            finished(&[0x66, 0x0F, opcode, 0xC1], &low_zero, old, &low_zero, ZF, NOT_ZF);
        }
    }
}

#[test]
fn scans_read_memory() {
    let mut data = [0, 0, 0x40, 0x02, 0];
    // BSF EAX, [EBX] and BSR EAX, [EBX]: 02400000h has bits 22 and 25.
    for (opcode, index) in [(0xBC, 22), (0xBD, 25)] {
        let outcome = step(&[0x0F, opcode, 0x03], &[(EBX, DATA_BASE)], ZF, &mut data);
        assert_eq!((outcome.machine.regs[EAX], outcome.machine.flags), (index, 2));
        stopped(&[0x0F, opcode, 0x03], &[(EBX, DATA_BASE + 2)], 0, 5, 5, DATA_BASE + 5);
        stopped(&[0x66, 0x0F, opcode, 0x03], &[(EBX, DATA_BASE + 4)], 0, 5, 5, DATA_BASE + 5);
    }
}

/// SHLD (A4h) or SHRD (ACh) EAX, EDX by an immediate and (one opcode on) by CL, from all flags clear and all set.
fn shifts_double(opcode: u8, (eax, edx): (u32, u32), count: u8, result: u32, flags: u32, undefined: u32) {
    for old in [0, STATUS] {
        let after = if count & 31 == 0 { old } else { flags };
        let (before, expected) = ([(EAX, eax), (EDX, edx)], [(EAX, result), (EDX, edx)]);
        finished(&[0x0F, opcode, 0xD0, count], &before, old, &expected, after, undefined);
        let cl = (ECX, u32::from(count) | 0xFFFF_FF00);
        let (before, expected) = ([before[0], before[1], cl], [expected[0], expected[1], cl]);
        finished(&[0x0F, opcode + 1, 0xD0], &before, old, &expected, after, undefined);
    }
}

#[test]
fn double_shifts_of_32_bits() {
    let (shld, shrd) = (0xA4, 0xAC);
    let both = (0x1234_5678, 0x9ABC_DEF1);
    for count in [0, 32, 64, 224] {
        shifts_double(shld, both, count, 0x1234_5678, 0, 0);
        shifts_double(shrd, both, count, 0x1234_5678, 0, 0);
    }
    // By 1, and by 33, which is 1: OF tells that the sign changed.
    for count in [1, 33] {
        shifts_double(shld, both, count, 0x2468_ACF1, 0, AF);
        shifts_double(shld, (0x4000_0000, 0), count, 0x8000_0000, OF | SF | PF, AF);
        shifts_double(shld, (0x8000_0000, 0), count, 0, CF | OF | ZF | PF, AF);
        shifts_double(shld, (0xC000_0000, 0x8000_0000), count, 0x8000_0001, CF | SF, AF);
        shifts_double(shrd, both, count, 0x891A_2B3C, OF | SF | PF, AF);
        shifts_double(shrd, (1, 1), count, 0x8000_0000, CF | OF | SF | PF, AF);
        shifts_double(shrd, (0x8000_0000, 0), count, 0x4000_0000, OF | PF, AF);
        shifts_double(shrd, (0x8000_0001, 1), count, 0xC000_0000, CF | SF | PF, AF);
        shifts_double(shrd, (1, 2), count, 0, CF | ZF | PF, AF);
    }
    // By 4: the last bit out is bit 28 or bit 3.
    shifts_double(shld, both, 4, 0x2345_6789, CF, AF | OF);
    shifts_double(shrd, both, 4, 0x1123_4567, CF, AF | OF);
    // By 31: the last bit out is bit 1 or bit 30.
    shifts_double(shld, (3, 0x9ABC_DEF0), 31, 0xCD5E_6F78, CF | SF | PF, AF | OF);
    shifts_double(shld, (1, 0x9ABC_DEF0), 31, 0xCD5E_6F78, SF | PF, AF | OF);
    shifts_double(shrd, (0xC000_0000, 0x1234_5678), 31, 0x2468_ACF1, CF, AF | OF);
    shifts_double(shrd, (0x8000_0000, 0x1234_5678), 31, 0x2468_ACF1, 0, AF | OF);
}

/// SHLD or SHRD AX, CX by an immediate under 66, from all flags set; the high halves stay.
fn shifts_double_word(opcode: u8, (ax, cx): (u32, u32), count: u8, result: u32, flags: u32, undefined: u32) {
    let (before, expected) =
        ([(EAX, 0x5555_0000 | ax), (ECX, 0x6666_0000 | cx)], [(EAX, 0x5555_0000 | result), (ECX, 0x6666_0000 | cx)]);
    finished(&[0x66, 0x0F, opcode, 0xC8, count], &before, STATUS, &expected, flags, undefined);
}

#[test]
fn double_shifts_of_16_bits_below_at_and_over_the_width() {
    let (shld, shrd) = (0xA4, 0xAC);
    for opcode in [shld, shrd] {
        shifts_double_word(opcode, (0x1237, 0xABCD), 0, 0x1237, STATUS, 0);
        shifts_double_word(opcode, (0x1237, 0xABCD), 32, 0x1237, STATUS, 0);
    }
    shifts_double_word(shld, (0x4000, 0x8000), 1, 0x8001, OF | SF, AF);
    shifts_double_word(shrd, (0x8002, 0x0001), 1, 0xC001, SF, AF);
    shifts_double_word(shld, (0x1237, 0xABCD), 15, 0xD5E6, CF | SF, AF | OF);
    shifts_double_word(shrd, (0xC000, 0xABCD), 15, 0x579B, CF, AF | OF);
    // At 16, and at 48, which is 16, the second operand replaces the first, whose bit 0 or bit 15 is CF.
    for count in [16, 48] {
        shifts_double_word(shld, (0x1237, 0xABCD), count, 0xABCD, CF | SF, AF | OF);
        shifts_double_word(shld, (0x1236, 0xABCD), count, 0xABCD, SF, AF | OF);
        shifts_double_word(shrd, (0xC000, 0xABCD), count, 0xABCD, CF | SF, AF | OF);
        shifts_double_word(shrd, (0x4001, 0xABCD), count, 0xABCD, SF, AF | OF);
        shifts_double_word(shld, (0x8000, 0), count, 0, ZF | PF, AF | OF);
    }
    // Over 16 the destination keeps its value, and all six flags are cleared.
    for count in [17, 24, 31, 49] {
        for opcode in [shld, shrd] {
            shifts_double_word(opcode, (0x1237, 0xABCD), count, 0x1237, 0, STATUS);
        }
    }
    // From clear flags they stay clear.
    let before = [(EAX, 0x5555_1237), (ECX, 0x6666_ABCD)];
    finished(&[0x66, 0x0F, 0xA4, 0xC8, 17], &before, 0, &before, 0, STATUS);
    finished(&[0x66, 0x0F, 0xAC, 0xC8, 17], &before, 0, &before, 0, STATUS);
}

#[test]
fn double_shifts_read_and_write_memory() {
    // SHLD word [EBX], CX, CL with CX 0004h.
    let mut data = [0x34, 0x12, 9];
    let outcome = step(&[0x66, 0x0F, 0xA5, 0x0B], &[(EBX, DATA_BASE), (ECX, 4)], 0, &mut data);
    assert_eq!((outcome.machine.flags, data), (2 | CF, [0x40, 0x23, 9]));
    // SHRD dword [EBX], ECX, CL with ECX 108h.
    let mut data = [0x80, 0xCC, 0xBB, 0xAA];
    let outcome = step(&[0x0F, 0xAD, 0x0B], &[(EBX, DATA_BASE), (ECX, 0x108)], 0, &mut data);
    assert_eq!((outcome.machine.flags, data), (2 | CF | PF, [0xCC, 0xBB, 0xAA, 0x08]));
    // SHLD EAX, EAX, 8 rotates.
    finished(&[0x0F, 0xA4, 0xC0, 8], &[(EAX, 0x1234_5678)], 0, &[(EAX, 0x3456_7812)], PF, AF | OF);
    // By 0 and over the width memory is still accessed, and keeps its value.
    for opcode in [0xA4, 0xAC] {
        for (count, flags) in [(0, STATUS), (17, 0)] {
            let code = [0x66, 0x0F, opcode, 0x0B, count];
            stopped(&code, &[(EBX, DATA_BASE + 3)], STATUS, 4, 5, DATA_BASE + 4);
            let mut data = [1, 2, 3, 4];
            let outcome = step(&code, &[(EBX, DATA_BASE + 1), (ECX, 0xFFFF)], STATUS, &mut data);
            assert_eq!((outcome.number, outcome.machine.flags, data), (0, 2 | flags, [1, 2, 3, 4]));
        }
        stopped(&[0x0F, opcode, 0x0B, 0], &[(EBX, DATA_BASE + 1)], STATUS, 4, 5, DATA_BASE + 4);
    }
}
