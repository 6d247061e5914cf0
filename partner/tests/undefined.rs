//! Document 02's M-101: a flag that 003 leaves undefined is cleared. Values and lists are worked out by hand from the
//! "Flags Affected" of each page.

use partner::cases::{Case, Generator, Size};
use partner::machine::{Machine, AF, CF, CODE_BASE, DATA_BASE, DF, OF, PF, SF, STATUS, ZF};
use partner::run::{run, Outcome};

const EAX: usize = 0;
const ECX: usize = 1;
const EDX: usize = 2;
const EBX: usize = 3;
const ESI: usize = 6;

/// Flags that a rotate leaves alone.
const BESIDE_ROTATES: u32 = SF | ZF | AF | PF;
/// Flags that MUL and IMUL leave undefined.
const BESIDE_PRODUCTS: u32 = SF | ZF | AF | PF;

/// Every flags word of the six status flags and DF.
fn all_flags() -> impl Iterator<Item = u32> {
    let flags = [CF, PF, AF, ZF, SF, OF, DF];
    (0..1 << flags.len()).map(move |choice| {
        let chosen = flags.iter().enumerate().filter(|(place, _)| choice >> place & 1 == 1);
        chosen.fold(2, |word, (_, flag)| word | flag)
    })
}

/// One step from the code's start with some registers and a flags word.
fn step(code: &[u8], registers: &[(usize, u32)], flags: u32, data: &mut [u8]) -> Outcome {
    let mut regs = [0; 8];
    for &(number, value) in registers {
        regs[number] = value;
    }
    run(Machine { regs, eip: CODE_BASE, flags, singles: [0; 8] }, code, &[], data, 1)
}

/// From every flags word the step leaves `alone` and DF as they were, gives all other flags these values, and tells
/// which of them are undefined.
fn ends(code: &[u8], registers: &[(usize, u32)], alone: u32, values: u32, undefined: u32) {
    assert_eq!(values & undefined, 0, "an undefined flag is clear");
    for flags in all_flags() {
        let outcome = step(code, registers, flags, &mut []);
        let expected = 2 | flags & (alone | DF) | values;
        assert_eq!((outcome.machine.flags, outcome.undefined), (expected, undefined), "{code:02X?} {flags:X}");
        assert_eq!((outcome.number, outcome.steps), (0, 1));
    }
}

#[test]
fn logic_clears_af() {
    // AND EAX, ECX: 4. AND AL, 0Fh: 3.
    ends(&[0x21, 0xC8], &[(EAX, 0xC), (ECX, 6)], 0, 0, AF);
    ends(&[0x24, 0x0F], &[(EAX, 0x33)], 0, PF, AF);
    // OR EAX, ECX: 80000001h. OR AX, 1: 8001h.
    ends(&[0x09, 0xC8], &[(EAX, 0x8000_0000), (ECX, 1)], 0, SF, AF);
    ends(&[0x66, 0x83, 0xC8, 1], &[(EAX, 0x8000)], 0, SF, AF);
    // XOR EAX, EAX: 0. XOR AL, FFh: 80h.
    ends(&[0x31, 0xC0], &[(EAX, 5)], 0, ZF | PF, AF);
    ends(&[0x34, 0xFF], &[(EAX, 0x7F)], 0, SF, AF);
    // TEST AL, 81h: 81h. TEST EAX, ECX: 0. TEST CL, 1: 1.
    ends(&[0xA8, 0x81], &[(EAX, 0xC3)], 0, SF | PF, AF);
    ends(&[0x85, 0xC8], &[(EAX, 1), (ECX, 2)], 0, ZF | PF, AF);
    ends(&[0xF6, 0xC1, 1], &[(ECX, 3)], 0, 0, AF);
}

#[test]
fn shifts_by_1_clear_af() {
    // SHL AL, 1: 82h. SHR AL, 1: 40h. SAR AL, 1: C1h.
    for (reg, al, values) in [(0xE0, 0x41, OF | SF | PF), (0xE8, 0x81, CF | OF), (0xF8, 0x82, SF)] {
        ends(&[0xD0, reg], &[(EAX, al)], 0, values, AF);
        ends(&[0xC0, reg, 33], &[(EAX, al)], 0, values, AF);
        ends(&[0xD2, reg], &[(EAX, al), (ECX, 1)], 0, values, AF);
    }
}

#[test]
fn shifts_by_more_clear_af_and_of() {
    // SHL AL, 3: 08h, bit 5 out. SHR AL, 3: 11h, bit 2 out. SAR AL, 3: F0h, bit 2 out.
    for (reg, al, values) in [(0xE0, 0x21, CF), (0xE8, 0x8C, CF | PF), (0xF8, 0x83, SF | PF)] {
        ends(&[0xC0, reg, 3], &[(EAX, al)], 0, values, AF | OF);
        ends(&[0xD2, reg], &[(EAX, al), (ECX, 0x23)], 0, values, AF | OF);
    }
    // SHL EAX, 31 is below the width: bit 1 out.
    ends(&[0xC1, 0xE0, 31], &[(EAX, 2)], 0, CF | ZF | PF, AF | OF);
    // SAR's carry is defined from the width on, too: copies of the sign.
    for count in [8, 9, 31] {
        ends(&[0xC0, 0xF8, count], &[(EAX, 0x80)], 0, CF | SF | PF, AF | OF);
        ends(&[0xC0, 0xF8, count], &[(EAX, 0x7F)], 0, ZF | PF, AF | OF);
    }
}

#[test]
fn shifts_by_the_width_or_more_clear_cf_too() {
    // SHL and SHR of FFh and FFFFh.
    for reg in [0xE0, 0xE8] {
        for count in [8, 9, 16, 31, 0xE8] {
            ends(&[0xC0, reg, count], &[(EAX, 0xFF)], 0, ZF | PF, CF | AF | OF);
        }
        for count in [16, 17, 31] {
            ends(&[0x66, 0xC1, reg, count], &[(EAX, 0xFFFF)], 0, ZF | PF, CF | AF | OF);
        }
    }
    // Just below the width CF is the last bit out.
    ends(&[0xC0, 0xE0, 7], &[(EAX, 2)], 0, CF | ZF | PF, AF | OF);
    ends(&[0xC0, 0xE8, 7], &[(EAX, 0x40)], 0, CF | ZF | PF, AF | OF);
}

#[test]
fn rotates_by_more_clear_of() {
    // By 2, ROL AL: 05h, ROR AL: 80h; through carry bit 6 or bit 1 comes out last.
    for (reg, al) in [(0xC0, 0x41), (0xC8, 0x02), (0xD0, 0x40), (0xD8, 0x02)] {
        ends(&[0xC0, reg, 2], &[(EAX, al)], BESIDE_ROTATES, CF, OF);
        ends(&[0xD2, reg], &[(EAX, al), (ECX, 0x22)], BESIDE_ROTATES, CF, OF);
    }
    // All the way round CF is an end bit.
    for count in [8, 16, 24] {
        ends(&[0xC0, 0xC0, count], &[(EAX, 0x01)], BESIDE_ROTATES, CF, OF);
        ends(&[0xC0, 0xC8, count], &[(EAX, 0x01)], BESIDE_ROTATES, 0, OF);
    }
    // By 1 OF is defined: ROL and RCL of 40h, ROR of 80h and 02h.
    for (reg, al, values) in [(0xC0, 0x40, OF), (0xD0, 0x40, OF), (0xC8, 0x80, OF), (0xC8, 0x02, 0)] {
        ends(&[0xD0, reg], &[(EAX, al)], BESIDE_ROTATES, values, 0);
    }
}

#[test]
fn rotates_through_carry_all_the_way_round_clear_only_of() {
    for reg in [0xD0, 0xD8] {
        for count in [9, 18, 27, 0xE9] {
            ends(&[0xC0, reg, count], &[(EAX, 0xA5)], BESIDE_ROTATES | CF, 0, OF);
            assert_eq!(step(&[0xC0, reg, count], &[(EAX, 0xA5)], 0x0803, &mut []).machine.regs[EAX], 0xA5);
        }
        ends(&[0x66, 0xC1, reg, 17], &[(EAX, 0xA5A5)], BESIDE_ROTATES | CF, 0, OF);
    }
}

#[test]
fn products_clear_sf_zf_af_and_pf() {
    let fits = [(EAX, 2), (ECX, 3)];
    let large = [(EAX, 0x4040_4040), (ECX, 0x4040_4040)];
    for code in [
        // MUL CL, CX, ECX; IMUL CL, CX, ECX; IMUL AX, CX and EAX, ECX; IMUL AX, CX, 7 and EAX, ECX, 7.
        &[0xF6, 0xE1][..],
        &[0x66, 0xF7, 0xE1],
        &[0xF7, 0xE1],
        &[0xF6, 0xE9],
        &[0x66, 0xF7, 0xE9],
        &[0xF7, 0xE9],
        &[0x66, 0x0F, 0xAF, 0xC1],
        &[0x0F, 0xAF, 0xC1],
        &[0x66, 0x6B, 0xC1, 7],
        &[0x6B, 0xC1, 7],
        &[0x66, 0x69, 0xC1, 7, 0],
        &[0x69, 0xC1, 7, 0, 0, 0],
    ] {
        ends(code, &fits, 0, 0, BESIDE_PRODUCTS);
        ends(code, &large, 0, CF | OF, BESIDE_PRODUCTS);
    }
}

#[test]
fn divisions_clear_all_six() {
    // DIV and IDIV by CL, CX, ECX: 7 by 3.
    for modrm in [0xF1, 0xF9] {
        for code in [&[0xF6, modrm][..], &[0x66, 0xF7, modrm], &[0xF7, modrm]] {
            ends(code, &[(EAX, 7), (ECX, 3)], 0, 0, STATUS);
        }
    }
}

#[test]
fn a_division_that_stops_changes_nothing() {
    for modrm in [0xF1, 0xF9] {
        for code in [&[0xF6, modrm][..], &[0x66, 0xF7, modrm], &[0xF7, modrm]] {
            // By 0, and with quotients that don't fit.
            for registers in [[(EAX, 7), (EDX, 0), (ECX, 0)], [(EAX, 0x7FFF), (EDX, 0x7FFF_7FFF), (ECX, 1)]] {
                for flags in all_flags() {
                    let outcome = step(code, &registers, flags, &mut []);
                    let mut regs = [0; 8];
                    registers.iter().for_each(|&(number, value)| regs[number] = value);
                    assert_eq!(outcome.machine, Machine { regs, eip: CODE_BASE, flags, singles: [0; 8] });
                    assert_eq!((outcome.number, outcome.steps, outcome.undefined), (7, 0, 0), "{code:02X?}");
                }
            }
        }
    }
}

#[test]
fn bit_tests_clear_all_but_cf() {
    // BT, BTS, BTR and BTC EAX, ECX, and by an immediate, of bit 2 of 4 and bit 3.
    for (opcode, modrm) in [(0xA3, 0xE0), (0xAB, 0xE8), (0xB3, 0xF0), (0xBB, 0xF8)] {
        for (bit, values) in [(2, CF), (3, 0)] {
            let registers = [(EAX, 4), (ECX, bit)];
            for code in [&[0x0F, opcode, 0xC8][..], &[0x66, 0x0F, opcode, 0xC8], &[0x0F, 0xBA, modrm, bit as u8]] {
                ends(code, &registers, 0, values, OF | SF | ZF | AF | PF);
            }
        }
    }
}

#[test]
fn scans_clear_all_but_zf() {
    // BSF and BSR EAX, ECX of one bit, of two and of none.
    for opcode in [0xBC, 0xBD] {
        for (source, values) in [(8, 0), (0x8001, 0), (0, ZF)] {
            ends(&[0x0F, opcode, 0xC1], &[(ECX, source)], 0, values, CF | OF | SF | AF | PF);
            ends(&[0x66, 0x0F, opcode, 0xC1], &[(ECX, source)], 0, values, CF | OF | SF | AF | PF);
        }
    }
}

#[test]
fn double_shifts_up_to_the_width_clear_af_and_of() {
    let ends = |opcode: u8, (eax, edx), count, values, undefined| {
        ends(&[0x0F, opcode, 0xD0, count], &[(EAX, eax), (EDX, edx)], 0, values, undefined);
    };
    // By 1: 80000000h.
    ends(0xA4, (0x4000_0000, 0), 1, OF | SF | PF, AF);
    ends(0xAC, (1, 1), 1, CF | OF | SF | PF, AF);
    // By 4: 0, bit 28 out; F0000000h, bit 3 out.
    ends(0xA4, (0x1000_0000, 0), 4, CF | ZF | PF, AF | OF);
    ends(0xAC, (8, 0xF), 4, CF | SF | PF, AF | OF);
}

#[test]
fn double_shifts_at_and_over_the_width() {
    for (opcode, ax) in [(0xA4, 0x0001), (0xAC, 0x8000)] {
        // At 16 the result is DX, 3, and the last bit out is bit 0 or bit 15.
        let registers = [(EAX, ax), (EDX, 3)];
        ends(&[0x66, 0x0F, opcode, 0xD0, 16], &registers, 0, CF | PF, AF | OF);
        // Over 16 AX stays.
        for count in [17, 24, 31, 0xF1] {
            let code = [0x66, 0x0F, opcode, 0xD0, count];
            ends(&code, &registers, 0, 0, STATUS);
            assert_eq!(step(&code, &registers, 2, &mut []).machine.regs[EAX], ax);
            let by_cl = [(EAX, ax), (EDX, 3), (ECX, u32::from(count))];
            ends(&[0x66, 0x0F, opcode + 1, 0xD0], &by_cl, 0, 0, STATUS);
        }
    }
}

/// From every flags word the step keeps it, the registers and the data.
fn keeps(code: &[u8], ecx: u32) {
    for flags in all_flags() {
        let mut data = [0xA5, 0x5A, 0xC3, 0x3C];
        let registers = [(EAX, 0x8765_4321), (ECX, ecx), (EDX, 0xFFFF_FFFF), (EBX, DATA_BASE)];
        let outcome = step(code, &registers, flags, &mut data);
        assert_eq!((outcome.machine.flags, outcome.undefined, outcome.number), (flags, 0, 0), "{code:02X?}");
        assert_eq!(outcome.machine.regs, [0x8765_4321, ecx, 0xFFFF_FFFF, DATA_BASE, 0, 0, 0, 0], "{code:02X?}");
        assert_eq!(data, [0xA5, 0x5A, 0xC3, 0x3C]);
    }
}

#[test]
fn counts_of_0_keep_every_flag() {
    for count in [0, 32, 64, 224] {
        let cl = u32::from(count);
        // ROL, ROR, RCL, RCR, SHL, SHR, SAR of EAX's part and of [EBX].
        for reg in [0, 1, 2, 3, 4, 5, 7] {
            for modrm in [0xC0 | reg << 3, 0x03 | reg << 3] {
                keeps(&[0xC0, modrm, count], 1);
                keeps(&[0xC1, modrm, count], 1);
                keeps(&[0x66, 0xC1, modrm, count], 1);
                keeps(&[0xD2, modrm], cl);
                keeps(&[0xD3, modrm], cl);
                keeps(&[0x66, 0xD3, modrm], cl);
            }
        }
        // SHLD and SHRD EAX or [EBX], EDX.
        for opcode in [0xA4, 0xAC] {
            for modrm in [0xD0, 0x13] {
                keeps(&[0x0F, opcode, modrm, count], 1);
                keeps(&[0x66, 0x0F, opcode, modrm, count], 1);
                keeps(&[0x0F, opcode + 1, modrm], cl);
                keeps(&[0x66, 0x0F, opcode + 1, modrm], cl);
            }
        }
    }
}

#[test]
fn blocks_that_differ_only_in_order_end_with_equal_flags() {
    // ADD EBX, EBX and SUB ESI, ESI in either order, then DIV ECX.
    let (add, sub, div) = ([0x01, 0xDB], [0x29, 0xF6], [0xF7, 0xF1]);
    let mut regs = [0; 8];
    (regs[EAX], regs[ECX], regs[EBX], regs[ESI]) = (7, 3, 0xC000_0000, 9);
    let start = Machine { regs, eip: CODE_BASE, flags: 2, singles: [0; 8] };
    let ends = [[add, sub, div], [sub, add, div]].map(|parts| run(start, &parts.concat(), &[], &mut [], 3).machine);
    assert_eq!((ends[0], ends[0].flags), (ends[1], 2));
}

#[test]
fn undefined_flags_are_clear_at_the_end_of_every_run() {
    let mut generator = Generator::new(7, Size::Large);
    let mut left = 0;
    for _ in 0..20_000 {
        let Case::Run(mut case) = generator.next_case() else { continue };
        let outcome = run(case.machine, &case.code, &case.constants, &mut case.data, case.budget);
        assert_eq!(outcome.machine.flags & outcome.undefined, 0);
        left |= outcome.undefined;
    }
    assert_eq!(left, STATUS);
}
