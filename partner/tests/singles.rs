//! Document 02's M-106: instructions with singles, bits worked out by hand from 003 and IEEE 754.

use partner::cases::{Case, Generator, Size};
use partner::check::{check, Verdict};
use partner::decode::{decode, Operation, Refusal};
use partner::machine::{Machine, AF, CF, CODE_BASE, CONSTANTS_BASE, DATA_BASE, DF, OF, PF, SF, STATUS, ZF};
use partner::run::{run, run_observed, Outcome};
use partner::text::{disassembly, form, mnemonic};

const ADDSS: u8 = 0x58;
const MULSS: u8 = 0x59;
const SUBSS: u8 = 0x5C;
const MINSS: u8 = 0x5D;
const DIVSS: u8 = 0x5E;
const MAXSS: u8 = 0x5F;
const CALCULATIONS: [u8; 6] = [ADDSS, MULSS, SUBSS, MINSS, DIVSS, MAXSS];
/// Opcodes that ask for F3.
const OPCODES: [u8; 8] = [0x10, 0x11, ADDSS, MULSS, SUBSS, MINSS, DIVSS, MAXSS];

const ESI: usize = 6;

const HALF: u32 = 0x3F00_0000;
const ONE: u32 = 0x3F80_0000;
const TWO: u32 = 0x4000_0000;
const THREE: u32 = 0x4040_0000;
const MINUS: u32 = 0x8000_0000;
const LARGEST: u32 = 0x7F7F_FFFF;
const INFINITY: u32 = 0x7F80_0000;
const INDEFINITE: u32 = 0xFFC0_0000;
/// A signalling NaN, and the same made quiet.
const SIGNALLING: u32 = 0x7F80_0001;
const QUIETED: u32 = 0x7FC0_0001;
/// A quiet NaN.
const QUIET: u32 = 0xFFC1_2345;

/// Singles before a step, all different.
const SINGLES: [u32; 8] = [0x11, 0x7F80_0022, 0x33, 0x4444_4444, 0xFFFF_FF55, 0x66, 0x77, 0x8888_8888];

/// A machine at the code's start with these singles, ESI and flags.
fn machine(singles: [u32; 8], esi: u32, flags: u32) -> Machine {
    let mut regs = [1, 2, 3, 4, 5, 6, 7, 8];
    regs[ESI] = esi;
    Machine { regs, eip: CODE_BASE, flags: flags | 2, singles }
}

/// SINGLES with some of them replaced.
fn with(replaced: &[(usize, u32)]) -> [u32; 8] {
    let mut singles = SINGLES;
    for &(number, bits) in replaced {
        singles[number] = bits;
    }
    singles
}

/// The step finishes and changes nothing but EIP, these singles and the flags.
fn finishes(code: &[u8], before: Machine, after: &[(usize, u32)], flags: u32, constants: &[u8], data: &mut [u8]) {
    let mut singles = before.singles;
    after.iter().for_each(|&(number, bits)| singles[number] = bits);
    let outcome = run(before, code, constants, data, 1);
    let expected = Machine { eip: CODE_BASE + code.len() as u32, flags: flags | 2, singles, ..before };
    assert_eq!((outcome.machine, outcome.undefined), (expected, 0), "{code:02X?}");
    assert_eq!((outcome.steps, outcome.number), (1, 0));
}

/// The calculation gives these bits from both registers, from data and from constants, and leaves the flags.
fn gives(opcode: u8, first: u32, second: u32, result: u32) {
    for flags in [0, STATUS | DF] {
        // XMM2, XMM5.
        let before = machine(with(&[(2, first), (5, second)]), 0, flags);
        finishes(&[0xF3, 0x0F, opcode, 0xD5], before, &[(2, result)], flags, &[], &mut []);
        // XMM2, [ESI], at odd addresses.
        let bytes = [&[9, 9, 9][..], &second.to_le_bytes(), &[9]].concat();
        let from = |base: u32| machine(with(&[(2, first)]), base + 3, flags);
        let code = [0xF3, 0x0F, opcode, 0x16];
        finishes(&code, from(DATA_BASE), &[(2, result)], flags, &[], &mut bytes.clone());
        finishes(&code, from(CONSTANTS_BASE), &[(2, result)], flags, &bytes, &mut []);
    }
    if first == second {
        // XMM3, XMM3.
        let before = machine(with(&[(3, first)]), 0, 0);
        finishes(&[0xF3, 0x0F, opcode, 0xDB], before, &[(3, result)], 0, &[], &mut []);
    }
}

#[test]
fn sums_are_rounded_to_nearest_even() {
    gives(ADDSS, ONE, TWO, THREE);
    // 0.1 + 0.2: CCCCCDh times 3 is 2666667h, whose last two bits of 26 round up.
    gives(ADDSS, 0x3DCC_CCCD, 0x3E4C_CCCD, 0x3E99_999A);
    // 2^24 + 1 lies between 2^24 and 2^24 + 2, and 2^24 + 3 between that and 2^24 + 4.
    gives(ADDSS, 0x4B80_0000, ONE, 0x4B80_0000);
    gives(ADDSS, 0x4B80_0001, ONE, 0x4B80_0002);
    // 1 and half a unit in its last place; a little more.
    gives(ADDSS, ONE, 0x3380_0000, ONE);
    gives(ADDSS, ONE | 1, 0x3380_0000, ONE | 2);
    gives(ADDSS, ONE, 0x3380_0001, ONE | 1);
    // 1 less a quarter of a unit, half a unit of the numbers below it.
    gives(SUBSS, ONE, 0x3300_0000, ONE);
    gives(SUBSS, ONE, 0x3300_0001, 0x3F7F_FFFF);
    // Far apart.
    gives(ADDSS, LARGEST, 1, LARGEST);
    gives(SUBSS, 1, LARGEST, MINUS | LARGEST);
    gives(SUBSS, THREE, TWO, ONE);
    gives(SUBSS, TWO, THREE, MINUS | ONE);
}

#[test]
fn products_and_quotients_are_rounded_to_nearest_even() {
    // (1 + 2^-23)^2 is 1 + 2^-22 and a little more.
    gives(MULSS, ONE | 1, ONE | 1, ONE | 2);
    // 4097 times 4097 is 2^24 + 2^13 + 1, between two singles.
    gives(MULSS, 0x4580_0800, 0x4580_0800, 0x4B80_1000);
    // 4097 times 4099 is 2^24 + 2^14 + 3.
    gives(MULSS, 0x4580_0800, 0x4580_1800, 0x4B80_2002);
    gives(MULSS, THREE, MINUS | HALF, 0xBFC0_0000);
    gives(DIVSS, ONE, THREE, 0x3EAA_AAAB);
    gives(DIVSS, MINUS | TWO, THREE, 0xBF2A_AAAB);
    gives(DIVSS, THREE, TWO, 0x3FC0_0000);
    gives(DIVSS, ONE, 0x4120_0000, 0x3DCC_CCCD);
}

#[test]
fn denormals_are_kept() {
    gives(ADDSS, 1, 1, 2);
    gives(ADDSS, 0x007F_FFFF, 1, 0x0080_0000);
    gives(SUBSS, 0x0080_0000, 1, 0x007F_FFFF);
    gives(SUBSS, 1, 2, MINUS | 1);
    gives(MULSS, 0x0080_0000, HALF, 0x0040_0000);
    gives(DIVSS, 0x0080_0000, TWO, 0x0040_0000);
    gives(MULSS, 1, ONE, 1);
    // Half of the smallest lies between 0 and it, of three times it between it and twice it.
    gives(MULSS, 1, HALF, 0);
    gives(MULSS, MINUS | 1, HALF, MINUS);
    gives(MULSS, 3, HALF, 2);
    gives(DIVSS, 1, TWO, 0);
    gives(DIVSS, 3, TWO, 2);
    gives(DIVSS, 3, MINUS | TWO, MINUS | 2);
    // A little more than half of it.
    gives(MULSS, 1, HALF | 1, 1);
    // 2^-126 less 2^-150 lies between the largest denormal and the smallest normal number.
    gives(MULSS, 0x0080_0000, 0x3F7F_FFFF, 0x0080_0000);
    gives(DIVSS, 0x00FF_FFFF, TWO, 0x0080_0000);
    gives(MULSS, 1, 1, 0);
    gives(DIVSS, 1, LARGEST, 0);
    gives(MINSS, 1, 2, 1);
    gives(MAXSS, 1, 2, 2);
    gives(MAXSS, 0, MINUS | 1, 0);
}

#[test]
fn overflow_gives_an_infinity() {
    gives(ADDSS, LARGEST, LARGEST, INFINITY);
    gives(SUBSS, MINUS | LARGEST, LARGEST, MINUS | INFINITY);
    // Half a unit over the largest number goes to the even one above it, less stays.
    gives(ADDSS, LARGEST, 0x7300_0000, INFINITY);
    gives(ADDSS, LARGEST, 0x72FF_FFFF, LARGEST);
    gives(MULSS, LARGEST, TWO, INFINITY);
    gives(MULSS, LARGEST, MINUS | TWO, MINUS | INFINITY);
    gives(DIVSS, LARGEST, HALF, INFINITY);
    // Division by zero is masked.
    gives(DIVSS, ONE, 0, INFINITY);
    gives(DIVSS, ONE, MINUS, MINUS | INFINITY);
    gives(DIVSS, MINUS | 1, 0, MINUS | INFINITY);
}

#[test]
fn infinities_are_numbers() {
    gives(ADDSS, INFINITY, ONE, INFINITY);
    gives(ADDSS, INFINITY, INFINITY, INFINITY);
    gives(SUBSS, ONE, INFINITY, MINUS | INFINITY);
    gives(MULSS, INFINITY, MINUS | 1, MINUS | INFINITY);
    gives(DIVSS, INFINITY, 0, INFINITY);
    gives(DIVSS, INFINITY, MINUS | ONE, MINUS | INFINITY);
    gives(DIVSS, ONE, INFINITY, 0);
    gives(DIVSS, MINUS | ONE, INFINITY, MINUS);
    gives(MINSS, INFINITY, MINUS | INFINITY, MINUS | INFINITY);
    gives(MAXSS, INFINITY, LARGEST, INFINITY);
}

#[test]
fn invalid_operations_give_the_indefinite() {
    gives(SUBSS, INFINITY, INFINITY, INDEFINITE);
    gives(SUBSS, MINUS | INFINITY, MINUS | INFINITY, INDEFINITE);
    gives(ADDSS, INFINITY, MINUS | INFINITY, INDEFINITE);
    gives(ADDSS, MINUS | INFINITY, INFINITY, INDEFINITE);
    for zero in [0, MINUS] {
        for infinity in [INFINITY, MINUS | INFINITY] {
            gives(MULSS, zero, infinity, INDEFINITE);
            gives(MULSS, infinity, zero, INDEFINITE);
            gives(DIVSS, infinity, INFINITY, INDEFINITE);
        }
        gives(DIVSS, zero, 0, INDEFINITE);
        gives(DIVSS, zero, MINUS, INDEFINITE);
    }
}

#[test]
fn nans_are_settled_from_their_bits() {
    for opcode in [ADDSS, MULSS, SUBSS, DIVSS] {
        for number in [0, MINUS, 1, ONE, LARGEST, INFINITY, MINUS | INFINITY] {
            gives(opcode, SIGNALLING, number, QUIETED);
            gives(opcode, number, SIGNALLING, QUIETED);
            gives(opcode, number, MINUS | SIGNALLING, MINUS | QUIETED);
            gives(opcode, QUIET, number, QUIET);
            gives(opcode, number, QUIET, QUIET);
        }
        gives(opcode, SIGNALLING, QUIET, QUIETED);
        gives(opcode, QUIET, SIGNALLING, QUIET);
        gives(opcode, SIGNALLING, 0xFFBF_FFFF, QUIETED);
        gives(opcode, 0xFFBF_FFFF, SIGNALLING, 0xFFFF_FFFF);
        gives(opcode, SIGNALLING, SIGNALLING, QUIETED);
    }
    for opcode in [MINSS, MAXSS] {
        for number in [0, MINUS, 1, ONE, LARGEST, INFINITY, MINUS | INFINITY] {
            for nan in [SIGNALLING, MINUS | SIGNALLING, QUIET, INDEFINITE] {
                gives(opcode, nan, number, number);
                gives(opcode, number, nan, nan);
            }
        }
        gives(opcode, SIGNALLING, QUIET, QUIET);
        gives(opcode, QUIET, SIGNALLING, SIGNALLING);
    }
}

#[test]
fn zeros_have_signs() {
    gives(ADDSS, MINUS, 0, 0);
    gives(ADDSS, 0, MINUS, 0);
    gives(ADDSS, MINUS, MINUS, MINUS);
    gives(SUBSS, MINUS, 0, MINUS);
    gives(SUBSS, 0, 0, 0);
    gives(SUBSS, MINUS, MINUS, 0);
    gives(SUBSS, ONE, ONE, 0);
    gives(ADDSS, MINUS | ONE, ONE, 0);
    gives(MULSS, MINUS, ONE, MINUS);
    gives(MULSS, MINUS, MINUS | ONE, 0);
    gives(DIVSS, 0, MINUS | ONE, MINUS);
    for opcode in [MINSS, MAXSS] {
        for first in [0, MINUS] {
            for second in [0, MINUS] {
                gives(opcode, first, second, second);
            }
        }
    }
}

#[test]
fn the_least_and_the_greatest_are_chosen() {
    gives(MINSS, ONE, TWO, ONE);
    gives(MINSS, TWO, ONE, ONE);
    gives(MAXSS, ONE, TWO, TWO);
    gives(MAXSS, TWO, ONE, TWO);
    gives(MINSS, MINUS | ONE, MINUS | TWO, MINUS | TWO);
    gives(MAXSS, MINUS | ONE, MINUS | TWO, MINUS | ONE);
    gives(MINSS, ONE, MINUS | TWO, MINUS | TWO);
    gives(MAXSS, ONE, ONE, ONE);
}

/// COMISS gives ZF, PF and CF so, clears OF, SF and AF, and changes nothing else.
fn compares(first: u32, second: u32, flags: u32) {
    for before in [0, STATUS, DF, STATUS | DF, ZF | SF, PF | CF | OF, AF | DF] {
        let after = flags | before & DF;
        let registers = machine(with(&[(2, first), (5, second)]), 0, before);
        finishes(&[0x0F, 0x2F, 0xD5], registers, &[], after, &[], &mut []);
        let bytes = second.to_le_bytes();
        let from = |esi| machine(with(&[(2, first)]), esi, before);
        finishes(&[0x0F, 0x2F, 0x16], from(DATA_BASE), &[], after, &[], &mut bytes.clone());
        finishes(&[0x0F, 0x2F, 0x16], from(CONSTANTS_BASE), &[], after, &bytes, &mut []);
    }
}

#[test]
fn comiss_sets_the_flags() {
    let (unordered, greater, less, equal) = (ZF | PF | CF, 0, CF, ZF);
    compares(0x4110_0000, 0x40C0_0000, greater);
    compares(TWO, 0x40C0_0000, less);
    compares(0x40C0_0000, 0x40C0_0000, equal);
    compares(0, MINUS, equal);
    compares(MINUS, 0, equal);
    compares(1, 0, greater);
    compares(MINUS | 1, MINUS, less);
    compares(MINUS | ONE, MINUS | TWO, greater);
    compares(INFINITY, LARGEST, greater);
    compares(MINUS | INFINITY, MINUS | LARGEST, less);
    compares(INFINITY, INFINITY, equal);
    for nan in [SIGNALLING, MINUS | SIGNALLING, QUIET, INDEFINITE] {
        for other in [0, ONE, INFINITY, MINUS | INFINITY, nan, QUIET] {
            compares(nan, other, unordered);
            compares(other, nan, unordered);
        }
    }
}

#[test]
fn movss_moves_all_bits() {
    let before = machine(SINGLES, 0, STATUS);
    // XMM1, XMM0 by 10 and XMM0, XMM1 by 11, which has the same ModR/M byte.
    finishes(&[0xF3, 0x0F, 0x10, 0xC8], before, &[(1, SINGLES[0])], STATUS, &[], &mut []);
    finishes(&[0xF3, 0x0F, 0x11, 0xC8], before, &[(0, SINGLES[1])], STATUS, &[], &mut []);
    finishes(&[0xF3, 0x0F, 0x10, 0xFF], before, &[], STATUS, &[], &mut []);
    for bits in [SIGNALLING, 1, MINUS, QUIET, 0xDEAD_BEEF] {
        let bytes = [&[7][..], &bits.to_le_bytes(), &[8]].concat();
        // XMM6, [ESI].
        let from = |base: u32| machine(SINGLES, base + 1, DF);
        finishes(&[0xF3, 0x0F, 0x10, 0x36], from(DATA_BASE), &[(6, bits)], DF, &[], &mut bytes.clone());
        finishes(&[0xF3, 0x0F, 0x10, 0x36], from(CONSTANTS_BASE), &[(6, bits)], DF, &bytes, &mut []);
        // [ESI], XMM4.
        let mut data = [7, 0, 0, 0, 0, 8];
        let before = machine(with(&[(4, bits)]), DATA_BASE + 1, DF);
        finishes(&[0xF3, 0x0F, 0x11, 0x26], before, &[], DF, &[], &mut data);
        assert_eq!(data[..], bytes);
    }
}

/// The step stops with this number and address, and changes nothing.
fn stops(code: &[u8], esi: u32, constants: usize, data: usize, number: u32, address: u32) {
    let before = machine(SINGLES, esi, STATUS | DF);
    let mut bytes = vec![0x5A; data];
    let outcome = run(before, code, &vec![0xA5; constants], &mut bytes, 1);
    assert_eq!((outcome.number, outcome.address, outcome.steps), (number, address, 0), "{code:02X?} {esi:X}");
    assert_eq!((outcome.machine, outcome.undefined), (before, 0));
    assert!(bytes.iter().all(|&byte| byte == 0x5A));
}

#[test]
fn reads_and_writes_of_four_bytes_stop_outside() {
    let reads = [0x10, ADDSS, MULSS, SUBSS, MINSS, DIVSS, MAXSS].map(|opcode| vec![0xF3, 0x0F, opcode, 0x06]);
    for code in reads.into_iter().chain([vec![0x0F, 0x2F, 0x06]]) {
        // From data or constants over their end, from below, and nowhere.
        stops(&code, DATA_BASE + 5, 8, 8, 5, DATA_BASE + 8);
        stops(&code, DATA_BASE, 8, 3, 5, DATA_BASE + 3);
        stops(&code, CONSTANTS_BASE + 7, 8, 8, 5, CONSTANTS_BASE + 8);
        stops(&code, DATA_BASE - 1, 8, 8, 5, DATA_BASE - 1);
        stops(&code, CONSTANTS_BASE, 0, 8, 5, CONSTANTS_BASE);
        stops(&code, 0xFFFF_FFFE, 8, 8, 5, 0xFFFF_FFFE);
        stops(&code, CODE_BASE, 8, 8, 5, CODE_BASE);
    }
    let store = [0xF3, 0x0F, 0x11, 0x06];
    stops(&store, DATA_BASE + 5, 8, 8, 6, DATA_BASE + 8);
    stops(&store, CONSTANTS_BASE, 8, 8, 6, CONSTANTS_BASE);
    stops(&store, CONSTANTS_BASE + 7, 8, 8, 6, CONSTANTS_BASE + 7);
    stops(&store, DATA_BASE - 3, 8, 8, 6, DATA_BASE - 3);
}

/// A refused run gives back the machine.
fn refused(before: Machine, code: &[u8], budget: u64, number: u32) {
    let outcome = run(before, code, &[], &mut [], budget);
    assert_eq!((outcome.machine, outcome.number, outcome.steps, outcome.address), (before, number, 0, 0));
}

#[test]
fn refusals_leave_singles() {
    let code = [0xF3, 0x0F, 0x58, 0xC0];
    refused(machine(SINGLES, 0, 8), &code, 1, 12);
    refused(machine(SINGLES, 0, 0), &code, 1_000_001, 13);
    refused(machine(SINGLES, 0, 0), &[], 1, 10);
}

#[test]
fn a_pause_amid_singles_changes_nothing() {
    // MOVSS XMM0, [ESI]; MULSS XMM0, [ESI+4]; ADDSS XMM1, XMM0; COMISS XMM1, XMM2; JB to the first; MOVSS [ESI], XMM1.
    let code = [
        &[0xF3, 0x0F, 0x10, 0x06, 0xF3, 0x0F, 0x59, 0x46, 0x04, 0xF3, 0x0F, 0x58, 0xC8][..],
        &[0x0F, 0x2F, 0xCA, 0x72, 0xEE, 0xF3, 0x0F, 0x11, 0x0E],
    ]
    .concat();
    // 1.5 times 2 is added to 1 until that isn't below 9: 4, 7, 10.
    let before = machine(with(&[(1, ONE), (2, 0x4110_0000)]), DATA_BASE, 0);
    let data = [0x3FC0_0000u32, TWO].map(u32::to_le_bytes).concat();
    let whole = |budget: u64| {
        let mut data = data.clone();
        (run(before, &code, &[], &mut data, budget), data)
    };
    let (outcome, after) = whole(16);
    assert_eq!((outcome.steps, outcome.number), (16, 0));
    assert_eq!(
        (outcome.machine.singles, outcome.machine.flags),
        (with(&[(0, THREE), (1, 0x4120_0000), (2, 0x4110_0000)]), 2)
    );
    assert_eq!(after, [0x4120_0000u32, TWO].map(u32::to_le_bytes).concat());
    for first in 0..=16 {
        let (paused, mut data) = whole(first);
        let rest = run(paused.machine, &code, &[], &mut data, 16 - first);
        assert_eq!((rest.machine, data), (outcome.machine, after.clone()));
    }
}

/// Whether the instruction may change a single.
fn may_change_singles(operation: Operation) -> bool {
    matches!(operation, Operation::Movss(..) | Operation::Single(..))
}

#[test]
fn other_instructions_leave_singles() {
    let mut generator = Generator::new(5, Size::Large);
    let (mut others, mut changed) = (0, 0);
    for _ in 0..20_000 {
        let Case::Run(mut case) = generator.next_case() else { continue };
        run_observed(case.machine, &case.code, &case.constants, &mut case.data, case.budget, |seen| {
            let Ok(step) = seen.stepped else { return };
            if may_change_singles(seen.instruction.operation) {
                let same = (0..8).filter(|&at| step.machine.singles[at] == seen.before.singles[at]).count();
                assert!(same >= 7);
                changed += u64::from(same == 7);
            } else {
                assert_eq!(step.machine.singles, seen.before.singles);
                others += 1;
            }
        });
        assert!(case.machine.singles.iter().any(|&bits| bits != 0));
    }
    assert!(others > 10_000 && changed > 500, "{others} {changed}");
}

/// What the bytes are: a length, or why they are none.
fn decoded(bytes: &[u8]) -> Result<u32, Refusal> {
    decode(bytes).map(|instruction| instruction.length)
}

/// The number of one step at the code's start.
fn stop_number(code: &[u8]) -> Outcome {
    run(machine(SINGLES, 0, 0), code, &[], &mut [], 1)
}

#[test]
fn f3_is_asked_for() {
    for opcode in OPCODES {
        assert_eq!(decoded(&[0xF3, 0x0F, opcode, 0xC0]), Ok(4));
        assert_eq!(decoded(&[0xF3, 0x0F, opcode, 0x44, 0x24, 4]), Ok(6));
        assert_eq!(decoded(&[0xF3, 0x0F, opcode, 0x84, 0x88, 1, 2, 3, 4]), Ok(9));
        for front in [
            &[][..],
            &[0x66],
            &[0xF2],
            &[0x66, 0xF3],
            &[0xF3, 0x66],
            &[0x66, 0xF2],
            &[0xF2, 0x66],
            &[0xF3, 0xF3],
            &[0xF2, 0xF3],
            &[0xF3, 0xF2],
        ] {
            let bytes = [front, &[0x0F, opcode, 0xC0]].concat();
            assert_eq!(decoded(&bytes), Err(Refusal::NoSuch), "{bytes:02X?}");
            assert_eq!(decoded(&bytes[..bytes.len() - 1]), Err(Refusal::NoSuch), "{bytes:02X?}");
            assert_eq!(stop_number(&bytes).number, 4);
        }
    }
    assert_eq!(decoded(&[0x0F, 0x2F, 0xC0]), Ok(3));
    assert_eq!(decoded(&[0x0F, 0x2F, 0x05, 0, 0, 0, 0]), Ok(7));
    for front in [&[0x66][..], &[0xF2], &[0xF3], &[0x66, 0xF3], &[0xF3, 0x66]] {
        assert_eq!(decoded(&[front, &[0x0F, 0x2F, 0xC0]].concat()), Err(Refusal::NoSuch), "{front:02X?}");
    }
    for opcode in (0..=0xFF).filter(|opcode| !OPCODES.contains(opcode)) {
        assert_eq!(decoded(&[0xF3, 0x0F, opcode, 0xC0, 0, 0, 0, 0]), Err(Refusal::NoSuch), "{opcode:02X}");
        assert_eq!(decoded(&[0xF3, 0x0F, opcode]), Err(Refusal::NoSuch), "{opcode:02X}");
    }
}

#[test]
fn proper_prefixes_are_cut() {
    for cut in [
        &[0xF3, 0x0F][..],
        &[0xF3, 0x0F, 0x10],
        &[0xF3, 0x0F, 0x5F],
        &[0xF3, 0x0F, 0x58, 0x04],
        &[0xF3, 0x0F, 0x58, 0x05, 0, 0, 0],
        &[0xF3, 0x0F, 0x11, 0x84, 0x24, 0, 0, 0],
        &[0x0F, 0x2F],
        &[0x0F, 0x2F, 0x40],
    ] {
        assert_eq!(decoded(cut), Err(Refusal::Cut), "{cut:02X?}");
        assert_eq!(stop_number(cut).number, 3);
        let mut marks = vec![7; cut.len()];
        assert_eq!(check(cut, &mut marks), Verdict { number: 21, answer: 0 });
    }
    // 66 F3, F3 66, F2 and their like have no opcode after 0F.
    for none in [&[0x66, 0xF3, 0x0F][..], &[0xF3, 0x66, 0x0F], &[0xF2, 0x0F], &[0x66, 0xF2, 0x0F], &[0xF2, 0x66, 0x0F]]
    {
        assert_eq!(decoded(none), Err(Refusal::NoSuch), "{none:02X?}");
    }
}

#[test]
fn checks_read_the_longer_grammar() {
    let verdict = |code: &[u8]| {
        let mut marks = vec![7; code.len()];
        (check(code, &mut marks), marks)
    };
    // ADDSS XMM0, XMM1; COMISS XMM0, XMM1; a jump to the first.
    let code = [0xF3, 0x0F, 0x58, 0xC1, 0x0F, 0x2F, 0xC1, 0x72, 0xF7];
    assert_eq!(verdict(&code), (Verdict { number: 0, answer: 3 }, vec![1, 0, 0, 0, 1, 0, 0, 1, 0]));
    // A jump behind F3.
    let code = [0xF3, 0x0F, 0x58, 0xC1, 0x72, 0xFB];
    assert_eq!(verdict(&code), (Verdict { number: 23, answer: 4 }, vec![0; 6]));
    // The second without F3, and with 66 beside it.
    assert_eq!(verdict(&[0xF3, 0x0F, 0x58, 0xC1, 0x0F, 0x58, 0xC1]).0, Verdict { number: 22, answer: 4 });
    assert_eq!(verdict(&[0x0F, 0x2F, 0xC1, 0x66, 0xF3, 0x0F, 0x58, 0xC1]).0, Verdict { number: 22, answer: 3 });
    assert_eq!(verdict(&[0x0F, 0x2F, 0xC1, 0xF3, 0x0F]).0, Verdict { number: 21, answer: 3 });
}

#[test]
fn text_names_registers_and_forms() {
    for (bytes, text, name) in [
        (&[0xF3, 0x0F, 0x10, 0xCA][..], "MOVSS XMM1, XMM2", "F3 0F10 MOVSS xmm,xmm"),
        (&[0xF3, 0x0F, 0x11, 0x0E], "MOVSS dword [ESI], XMM1", "F3 0F11 MOVSS m32,xmm"),
        (&[0xF3, 0x0F, 0x5E, 0x7E, 4], "DIVSS XMM7, dword [ESI+4h]", "F3 0F5E DIVSS xmm,m32"),
        (&[0x0F, 0x2F, 0xC7], "COMISS XMM0, XMM7", "0F2F COMISS xmm,xmm"),
    ] {
        let instruction = decode(bytes).expect("the bytes are an instruction");
        assert_eq!((disassembly(&instruction), form(bytes, &instruction)), (text.to_string(), name.to_string()));
        assert_eq!(instruction.repeat, None);
    }
    let names = CALCULATIONS
        .map(|opcode| mnemonic(&decode(&[0xF3, 0x0F, opcode, 0xC0]).expect("the bytes are an instruction")));
    assert_eq!(names, ["ADDSS", "MULSS", "SUBSS", "MINSS", "DIVSS", "MAXSS"]);
}
