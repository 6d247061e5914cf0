//! The sentences of document 01's "Numbers that come back", "Effects worth writing out" and "Easy slips".

use partner::cases::{Case, Generator, Size};
use partner::check::{check, Verdict};
use partner::machine::{write, Machine, Width, AF, CF, CODE_BASE, DATA_BASE, DF, HOME, KNOWN, OF, PF, SF, STATUS, ZF};
use partner::run::{run, Outcome};

const EAX: usize = 0;
const ECX: usize = 1;
const EDX: usize = 2;
const EBX: usize = 3;
const ESP: usize = 4;
const EBP: usize = 5;
const ESI: usize = 6;
const EDI: usize = 7;

/// A machine at the code's start with some registers and flags.
fn machine(registers: &[(usize, u32)], flags: u32) -> Machine {
    let mut regs = [0; 8];
    for &(number, value) in registers {
        regs[number] = value;
    }
    Machine { regs, eip: CODE_BASE, flags: flags | 2, singles: [0; 8] }
}

/// One step with the data.
fn step(code: &[u8], machine: Machine, data: &mut [u8]) -> Outcome {
    run(machine, code, &[], data, 1)
}

/// A shift of AL by an immediate count: reg field 0 ROL, 1 ROR, 2 RCL, 3 RCR, 4 SHL, 5 SHR, 7 SAR.
fn shift_al(kind: u8, value: u32, count: u8, flags: u32) -> Outcome {
    step(&[0xC0, 0xC0 | kind << 3, count], machine(&[(EAX, value)], flags), &mut [])
}

#[test]
fn refusals_come_in_order_and_change_nothing() {
    let bad = Machine { flags: 0, ..machine(&[(EAX, 5)], 0) };
    let (long, budget) = (vec![0x90; 65_537], 1_000_001);
    let mut data = vec![9; 65_537];
    for code in [&[][..], &long] {
        let outcome = run(bad, code, &[], &mut data, budget);
        assert_eq!(outcome, Outcome { machine: bad, steps: 0, number: 10, address: 0, undefined: 0 });
    }
    assert_eq!(run(bad, &[0x90], &[], &mut data, budget).number, 11);
    assert_eq!(run(bad, &[0x90], &[], &mut data[..65_536], budget).number, 12);
    assert_eq!(run(machine(&[], 0), &[0x90], &[], &mut data[..65_536], budget).number, 13);
    assert_eq!(run(machine(&[], 0), &long[..65_536], &[], &mut data[..65_536], 1_000_000).steps, 65_536);
    assert!(data.iter().all(|&byte| byte == 9));
}

#[test]
fn flags_words_with_unknown_bits_are_refused() {
    for bit in 0..32 {
        let flags = 2 | 1 << bit;
        let outcome = run(Machine { flags, ..machine(&[], 0) }, &[0x90], &[], &mut [], 1);
        assert_eq!(outcome.number == 12, 0x0CD7 & (1u32 << bit) == 0, "bit {bit}");
    }
    assert_eq!(KNOWN, 0x0CD7);
}

#[test]
fn budget_zero_gives_zero_even_at_home() {
    let home = Machine { eip: HOME, ..machine(&[], 0) };
    let none = run(home, &[0x90], &[], &mut [], 0);
    assert_eq!((none.number, none.address, none.steps), (0, HOME, 0));
    let one = run(home, &[0x90], &[], &mut [], 1);
    assert_eq!((one.number, one.address, one.steps), (1, HOME, 0));
}

#[test]
fn eip_outside_the_code() {
    for eip in [CODE_BASE - 1, CODE_BASE + 1, 0, 0xFFFF_FFFF, HOME - 1, HOME + 1, DATA_BASE] {
        let outcome = run(Machine { eip, ..machine(&[], 0) }, &[0x90], &[], &mut [0; 16], 1);
        assert_eq!((outcome.number, outcome.address), (2, eip));
    }
}

#[test]
fn undefined_flags_are_cleared_and_reported() {
    // Document 02's M-101 stands in place of document 01's sentence.
    for old in [0, STATUS] {
        // AND EAX, ECX.
        let and = step(&[0x21, 0xC8], machine(&[(EAX, 1), (ECX, 1)], old), &mut []);
        assert_eq!((and.undefined, and.machine.flags), (AF, 2));
        // MUL ECX.
        let mul = step(&[0xF7, 0xE1], machine(&[(EAX, 2), (ECX, 3)], old), &mut []);
        assert_eq!((mul.undefined, mul.machine.flags), (SF | ZF | AF | PF, 2));
        // DIV ECX.
        let div = step(&[0xF7, 0xF1], machine(&[(EAX, 7), (ECX, 3)], old), &mut []);
        assert_eq!((div.undefined, div.machine.flags), (STATUS, 2));
        // SHL AL, 8.
        let shl = shift_al(4, 1, 8, old);
        assert_eq!((shl.undefined, shl.machine.flags), (CF | AF | OF, 2 | ZF | PF));
        // SHR AL, 2.
        let shr = shift_al(5, 0xFF, 2, old);
        assert_eq!((shr.undefined, shr.machine.flags), (AF | OF, 2 | CF | PF));
        // SAR AL, 31 has a defined carry.
        let sar = shift_al(7, 0x80, 31, old);
        assert_eq!((sar.undefined, sar.machine.regs[EAX], sar.machine.flags), (AF | OF, 0xFF, 2 | CF | SF | PF));
    }
}

#[test]
fn a_flag_written_again_is_defined_again() {
    // MUL ECX, then ADD EAX, EAX.
    let outcome = run(machine(&[(ECX, 3)], 0), &[0xF7, 0xE1, 0x01, 0xC0], &[], &mut [], 2);
    assert_eq!((outcome.steps, outcome.undefined), (2, 0));
}

#[test]
fn addresses_wrap_and_use_the_registers_before() {
    let mut data = [1, 2, 3, 4, 5, 6, 7, 8];
    // MOV EAX, [EAX+20h].
    let outcome = step(&[0x8B, 0x40, 0x20], machine(&[(EAX, DATA_BASE - 0x20)], 0), &mut data);
    assert_eq!(outcome.machine.regs[EAX], 0x0403_0201);
    // MOV EAX, [EBX+ECX*8] with a product and a sum that wrap.
    let registers = [(ECX, 0xFFFF_FFFF), (EBX, DATA_BASE + 8)];
    assert_eq!(step(&[0x8B, 0x04, 0xCB], machine(&registers, 0), &mut data).machine.regs[EAX], 0x0403_0201);
    // XCHG [EAX], EAX.
    let outcome = step(&[0x87, 0x00], machine(&[(EAX, DATA_BASE)], 0), &mut data);
    assert_eq!((outcome.machine.regs[EAX], &data[..4]), (0x0403_0201, &DATA_BASE.to_le_bytes()[..]));
    // POP EAX at the top of the address space reads there.
    let outcome = step(&[0x58], machine(&[(ESP, 0xFFFF_FFFE)], 0), &mut data);
    assert_eq!((outcome.number, outcome.address), (5, 0xFFFF_FFFE));
    // PUSH EAX from ESP 2 writes at FFFFFFFEh.
    let outcome = step(&[0x50], machine(&[(ESP, 2)], 0), &mut data);
    assert_eq!((outcome.number, outcome.address), (6, 0xFFFF_FFFE));
}

#[test]
fn sib_index_4_is_no_index() {
    let registers = [(ESP, 0x1000), (EBX, 0x20), (EBP, 0x300)];
    // LEA EAX, [EBX], by SIB 23h and by SIB E3h.
    for sib in [0x23, 0xE3] {
        assert_eq!(step(&[0x8D, 0x04, sib], machine(&registers, 0), &mut []).machine.regs[EAX], 0x20);
    }
    // LEA EAX, [ESP+EBP*2].
    assert_eq!(step(&[0x8D, 0x04, 0x6C], machine(&registers, 0), &mut []).machine.regs[EAX], 0x1600);
    // LEA EAX, [5+EBX*1], base 5 with mode 0.
    let absolute = [0x8D, 0x04, 0x1D, 5, 0, 0, 0];
    assert_eq!(step(&absolute, machine(&registers, 0), &mut []).machine.regs[EAX], 0x25);
    // LEA EAX, [EBP+EBX*1+5], base 5 with mode 1.
    assert_eq!(step(&[0x8D, 0x44, 0x1D, 5], machine(&registers, 0), &mut []).machine.regs[EAX], 0x325);
}

#[test]
fn inc_and_dec_keep_carry_neg_sets_it_not_changes_none() {
    for old in [0, STATUS] {
        // INC EAX, DEC EAX.
        for code in [0x40, 0x48] {
            let flags = step(&[code], machine(&[(EAX, 0xFFFF_FFFF)], old), &mut []).machine.flags;
            assert_eq!(flags & CF, old & CF);
        }
        // NEG EAX.
        for (value, carry) in [(0, 0), (1, CF), (0x8000_0000, CF)] {
            let outcome = step(&[0xF7, 0xD8], machine(&[(EAX, value)], old), &mut []);
            assert_eq!(outcome.machine.flags & CF, carry);
            assert_eq!(outcome.machine.regs[EAX], 0u32.wrapping_sub(value));
        }
        // NOT EAX.
        let outcome = step(&[0xF7, 0xD0], machine(&[(EAX, 5)], old), &mut []);
        assert_eq!((outcome.machine.flags, outcome.machine.regs[EAX]), (2 | old, !5));
    }
}

#[test]
fn parity_looks_at_the_low_byte_only() {
    // ADD EAX, 0 with one bit above the low byte.
    let outcome = step(&[0x05, 0, 0, 0, 0], machine(&[(EAX, 0x100)], 0), &mut []);
    assert_eq!(outcome.machine.flags & PF, PF);
}

#[test]
fn shift_counts_are_taken_modulo_32() {
    for kind in [0, 1, 2, 3, 4, 5, 7] {
        for count in [0, 32, 64, 224] {
            let outcome = shift_al(kind, 0x5A, count, STATUS);
            assert_eq!((outcome.machine.regs[EAX], outcome.machine.flags), (0x5A, 2 | STATUS));
            assert_eq!((outcome.undefined, outcome.machine.eip), (0, CODE_BASE + 3));
        }
        assert_eq!(shift_al(kind, 0x5A, 33, 0), shift_al(kind, 0x5A, 1, 0));
    }
}

#[test]
fn count_zero_still_reads_memory() {
    // SHL byte [EBX], 0.
    let outcome = step(&[0xC0, 0x23, 0], machine(&[(EBX, DATA_BASE)], 0), &mut []);
    assert_eq!((outcome.number, outcome.address), (5, DATA_BASE));
}

#[test]
fn rotates_copy_the_end_bit_and_rotate_through_carry_by_nine() {
    // ROL AL, 8, 16, 24 and ROR AL the same: the value stays, CF is an end bit.
    for count in [8, 16, 24] {
        assert_eq!(shift_al(0, 0x01, count, 0).machine.flags & CF, CF);
        assert_eq!(shift_al(0, 0x80, count, CF).machine.flags & CF, 0);
        assert_eq!(shift_al(1, 0x80, count, 0).machine.flags & CF, CF);
        assert_eq!(shift_al(1, 0x01, count, CF).machine.flags & CF, 0);
    }
    // RCL AL by 9, 18 and 27 only clears OF, which is undefined there.
    for count in [9, 18, 27] {
        let outcome = shift_al(2, 0x96, count, OF | CF);
        assert_eq!((outcome.machine.regs[EAX], outcome.machine.flags), (0x96, 2 | CF));
        assert_eq!(outcome.undefined, OF);
    }
    // RCL AL by 10 is a rotate by 1 whose OF is undefined.
    let ten = shift_al(2, 0x80, 10, 0);
    assert_eq!((ten.machine.regs[EAX], ten.machine.flags, ten.undefined), (0x00, 2 | CF, OF));
    let one = shift_al(2, 0x80, 1, 0);
    assert_eq!((one.machine.regs[EAX], one.machine.flags, one.undefined), (0x00, 2 | CF | OF, 0));
    // RCR AX by 17 changes nothing.
    let word = step(&[0x66, 0xC1, 0xD8, 17], machine(&[(EAX, 0x1234)], CF), &mut []);
    assert_eq!((word.machine.regs[EAX], word.machine.flags), (0x1234, 2 | CF));
    // RCL EAX by 31 moves all but two of the 33 bits.
    let long = step(&[0xC1, 0xD0, 31], machine(&[(EAX, 1)], 0), &mut []);
    assert_eq!((long.machine.regs[EAX], long.machine.flags & CF), (0x8000_0000, 0));
}

#[test]
fn overflow_of_one_bit_shifts() {
    let of = |kind, value| shift_al(kind, value, 1, 0).machine.flags & OF != 0;
    assert!(of(4, 0x40) && of(4, 0x80) && !of(4, 0xC0) && !of(4, 0x20));
    assert!(of(5, 0x80) && !of(5, 0x40));
    assert!(!of(7, 0x80) && !of(7, 0x40));
    assert!(of(1, 0x01) && of(1, 0x80) && !of(1, 0x81));
    assert!(of(3, 0x80) && !of(3, 0x40));
}

#[test]
fn products_and_their_carry() {
    // MUL CL.
    let mul = |left, right| step(&[0xF6, 0xE1], machine(&[(EAX, left), (ECX, right)], 0), &mut []).machine;
    assert_eq!((mul(0x10, 0x0F).regs[EAX], mul(0x10, 0x0F).flags & (CF | OF)), (0xF0, 0));
    assert_eq!((mul(0x10, 0x10).regs[EAX], mul(0x10, 0x10).flags & (CF | OF)), (0x100, CF | OF));
    // IMUL CL: 64 * 2 = 128 fits AX's low half only without its sign.
    let imul = |left, right| step(&[0xF6, 0xE9], machine(&[(EAX, left), (ECX, right)], 0), &mut []).machine;
    assert_eq!((imul(0x40, 2).regs[EAX], imul(0x40, 2).flags & (CF | OF)), (0x80, CF | OF));
    assert_eq!((imul(0xFF, 1).regs[EAX], imul(0xFF, 1).flags & (CF | OF)), (0xFFFF, 0));
    // IMUL EAX, ECX, 7 and IMUL AX, CX, -1.
    let three = step(&[0x6B, 0xC1, 7], machine(&[(ECX, 0x2000_0000)], 0), &mut []).machine;
    assert_eq!((three.regs[EAX], three.flags & (CF | OF)), (0xE000_0000, CF | OF));
    let word = step(&[0x66, 0x6B, 0xC1, 0xFF], machine(&[(EAX, 0xABCD_0000), (ECX, 5)], 0), &mut []).machine;
    assert_eq!((word.regs[EAX], word.flags & (CF | OF)), (0xABCD_FFFB, 0));
}

#[test]
fn divisions_at_their_limits() {
    // IDIV CL: quotients 127, 128, -128 and -129.
    let idiv = |dividend: i32, divisor: i32| {
        let registers = [(EAX, dividend as u32 & 0xFFFF), (ECX, divisor as u32 & 0xFF)];
        step(&[0xF6, 0xF9], machine(&registers, 0), &mut [])
    };
    assert_eq!(idiv(255, 2).machine.regs[EAX], 0x017F);
    assert_eq!(idiv(256, 2).number, 7);
    assert_eq!(idiv(-257, 2).machine.regs[EAX], 0xFF80);
    assert_eq!(idiv(-258, 2).number, 7);
    assert_eq!(idiv(-7, 2).machine.regs[EAX], 0xFFFD);
    assert_eq!(idiv(7, -2).machine.regs[EAX], 0x01FD);
    assert_eq!(idiv(7, 0).number, 7);
    // A divisor that can't be read comes before the divide error.
    let outcome = step(&[0xF7, 0x33], machine(&[(EBX, DATA_BASE)], 0), &mut [0; 3]);
    assert_eq!((outcome.number, outcome.address), (5, DATA_BASE + 3));
}

#[test]
fn stack_instructions() {
    let mut data = [0; 16];
    // PUSH ESP stores the old ESP.
    let pushed = step(&[0x54], machine(&[(ESP, DATA_BASE + 16)], 0), &mut data);
    assert_eq!(pushed.machine.regs[ESP], DATA_BASE + 12);
    assert_eq!(data[12..], (DATA_BASE + 16).to_le_bytes());
    // POP ESP ends with the popped word.
    let popped = step(&[0x5C], pushed.machine_at_start(), &mut data);
    assert_eq!(popped.machine.regs[ESP], DATA_BASE + 16);
    // PUSH [ESP] reads at the old ESP.
    let again = step(&[0xFF, 0x34, 0x24], machine(&[(ESP, DATA_BASE + 12)], 0), &mut data);
    assert_eq!((again.number, &data[8..12]), (0, &(DATA_BASE + 16).to_le_bytes()[..]));
    // LEAVE pops at EBP.
    let left = step(&[0xC9], machine(&[(EBP, DATA_BASE + 12)], 0), &mut data);
    assert_eq!((left.machine.regs[ESP], left.machine.regs[EBP]), (DATA_BASE + 16, DATA_BASE + 16));
    // RET FFFFh releases 65,535 bytes.
    let returned = step(&[0xC2, 0xFF, 0xFF], machine(&[(ESP, DATA_BASE + 12)], 0), &mut data);
    assert_eq!((returned.machine.regs[ESP], returned.machine.eip), (DATA_BASE + 16 + 0xFFFF, DATA_BASE + 16));
}

/// Takes an outcome's machine back to the code's start.
trait AtStart {
    fn machine_at_start(&self) -> Machine;
}

impl AtStart for Outcome {
    fn machine_at_start(&self) -> Machine {
        Machine { eip: CODE_BASE, ..self.machine }
    }
}

#[test]
fn calls_and_jumps_through_memory_read_first() {
    let mut data = [0; 8];
    write(&mut data, DATA_BASE + 4, Width::Dword, HOME).expect("the word lies in the data");
    // CALL [ESP-4]: the target is read before the return address covers it.
    let called = step(&[0xFF, 0x54, 0x24, 0xFC], machine(&[(ESP, DATA_BASE + 8)], 0), &mut data);
    assert_eq!((called.number, called.machine.eip), (0, HOME));
    assert_eq!(data[4..], (CODE_BASE + 4).to_le_bytes());
    // CALL [EBX] with neither access allowed: the read is refused.
    let refused = step(&[0xFF, 0x13], machine(&[(EBX, 3), (ESP, 5)], 0), &mut data);
    assert_eq!((refused.number, refused.address), (5, 3));
    // CALL ESP goes to the old ESP.
    let through = step(&[0xFF, 0xD4], machine(&[(ESP, DATA_BASE + 8)], 0), &mut data);
    assert_eq!((through.machine.eip, through.machine.regs[ESP]), (DATA_BASE + 8, DATA_BASE + 4));
}

#[test]
fn repeated_with_zero_count_only_moves_eip() {
    for code in [&[0xF3, 0xA4][..], &[0xF3, 0xA6], &[0xF2, 0xAE], &[0xF3, 0x66, 0xAB], &[0xF3, 0xAC]] {
        let before = machine(&[(ESI, 1), (EDI, 2), (EAX, 3)], STATUS);
        let outcome = step(code, before, &mut []);
        assert_eq!(outcome.machine, Machine { eip: CODE_BASE + code.len() as u32, ..before });
        assert_eq!((outcome.steps, outcome.number), (1, 0));
    }
}

#[test]
fn repeated_instructions_take_one_step_a_round() {
    for code in [&[0xF3, 0xA4][..], &[0xF3, 0xAA], &[0xF3, 0xAC]] {
        for count in [1, 2, 7] {
            let before = machine(&[(ECX, count), (ESI, DATA_BASE), (EDI, DATA_BASE + 8)], 0);
            let outcome = run(before, code, &[], &mut [5; 16], 100);
            assert_eq!((outcome.steps, outcome.number, outcome.machine.regs[ECX]), (u64::from(count), 2, 0));
        }
    }
}

#[test]
fn repeated_comparisons_end_by_zf() {
    let mut data = [1, 2, 3, 4, 1, 2, 9, 4];
    let before = machine(&[(ECX, 4), (ESI, DATA_BASE), (EDI, DATA_BASE + 4)], 0);
    // REPE CMPSB ends after the third byte.
    let same = run(before, &[0xF3, 0xA6], &[], &mut data, 10);
    assert_eq!((same.steps, same.machine.regs[ECX], same.machine.regs[ESI]), (3, 1, DATA_BASE + 3));
    assert_eq!((same.number, same.machine.eip), (2, CODE_BASE + 2));
    // REPNE CMPSB ends after the first.
    let other = run(before, &[0xF2, 0xA6], &[], &mut data, 10);
    assert_eq!((other.steps, other.machine.regs[ECX]), (1, 3));
    // REPNE SCASB downward finds the 2 at offset 1.
    let scan = machine(&[(EAX, 2), (ECX, 9), (EDI, DATA_BASE + 3)], DF);
    let found = run(scan, &[0xF2, 0xAE], &[], &mut data, 10);
    assert_eq!((found.steps, found.machine.regs[EDI], found.machine.regs[ECX]), (3, DATA_BASE, 6));
}

#[test]
fn a_round_that_faults_keeps_ecx() {
    let mut data = [7; 8];
    // REP STOSD with the second round past the data.
    let outcome = run(machine(&[(ECX, 3), (EDI, DATA_BASE + 4)], 0), &[0xF3, 0xAB], &[], &mut data, 10);
    assert_eq!((outcome.steps, outcome.number, outcome.address), (1, 6, DATA_BASE + 8));
    assert_eq!((outcome.machine.regs[ECX], outcome.machine.eip), (2, CODE_BASE));
}

#[test]
fn movs_and_cmps_look_at_esi_first() {
    for code in [0xA4, 0xA6] {
        let outcome = step(&[code], machine(&[(ESI, 1), (EDI, 2)], 0), &mut [0; 4]);
        assert_eq!((outcome.number, outcome.address), (5, 1));
    }
    // MOVSB with only the write refused, CMPSB with only EDI's read refused.
    let moved = step(&[0xA4], machine(&[(ESI, DATA_BASE), (EDI, 2)], 0), &mut [0; 4]);
    assert_eq!((moved.number, moved.address), (6, 2));
    let compared = step(&[0xA6], machine(&[(ESI, DATA_BASE), (EDI, 2)], 0), &mut [0; 4]);
    assert_eq!((compared.number, compared.address), (5, 2));
    // MOVSB with only the read refused writes nothing.
    let mut data = [9; 4];
    step(&[0xA4], machine(&[(ESI, 1), (EDI, DATA_BASE)], 0), &mut data);
    assert_eq!(data, [9; 4]);
}

#[test]
fn runs_of_n_and_m_make_one_of_both() {
    let mut generator = Generator::new(5, Size::Large);
    let mut resumed = 0;
    while resumed < 2000 {
        let Case::Resume(case, more) = generator.next_case() else { continue };
        resumed += 1;
        let (mut data, mut together) = (case.data.clone(), case.data.clone());
        let first = run(case.machine, &case.code, &case.constants, &mut data, case.budget);
        let second = run(first.machine, &case.code, &case.constants, &mut data, more);
        let both = run(case.machine, &case.code, &case.constants, &mut together, case.budget + more);
        assert_eq!((second.machine, first.steps + second.steps, &data), (both.machine, both.steps, &together));
        if more > 0 {
            assert_eq!((second.number, second.address), (both.number, both.address));
        }
    }
}

#[test]
fn jump_targets_must_be_starts() {
    let verdict = |code: &[u8]| check(code, &mut vec![7; code.len()]);
    // JMP into the middle of MOV EAX, imm32.
    assert_eq!(verdict(&[0xEB, 0x01, 0xB8, 0x90, 0x90, 0x90, 0x90]), Verdict { number: 23, answer: 0 });
    // LOOP back to the start, CALL to the start, JZ near to the start.
    assert_eq!(verdict(&[0x90, 0xE2, 0xFD]), Verdict { number: 0, answer: 2 });
    assert_eq!(verdict(&[0xE8, 0xFB, 0xFF, 0xFF, 0xFF]), Verdict { number: 0, answer: 1 });
    assert_eq!(verdict(&[0x0F, 0x84, 0xFA, 0xFF, 0xFF, 0xFF]), Verdict { number: 0, answer: 1 });
    // The first of two misses counts; a miss counts only if all code cuts.
    assert_eq!(verdict(&[0x90, 0xEB, 0x7F, 0xEB, 0x7F]), Verdict { number: 23, answer: 1 });
    assert_eq!(verdict(&[0xEB, 0x7F, 0x82]), Verdict { number: 22, answer: 2 });
    // An indirect jump has no displacement.
    assert_eq!(verdict(&[0xFF, 0xE0]), Verdict { number: 0, answer: 1 });
}

#[test]
fn check_lengths_come_first_and_leave_the_marks() {
    let mut marks = [7; 3];
    assert_eq!(check(&[], &mut marks), Verdict { number: 10, answer: 0 });
    assert_eq!(check(&[0x90; 65_537], &mut marks), Verdict { number: 10, answer: 0 });
    assert_eq!(check(&[0x90; 4], &mut marks), Verdict { number: 14, answer: 0 });
    assert_eq!(marks, [7; 3]);
}

#[test]
fn conversions_copy_the_sign() {
    // CWD, CDQ, CBW, CWDE.
    let wide = |code: &[u8], eax| step(code, machine(&[(EAX, eax), (EDX, 0x1234_5678)], 0), &mut []).machine;
    assert_eq!(wide(&[0x66, 0x99], 0x8000).regs[EDX], 0x1234_FFFF);
    assert_eq!(wide(&[0x99], 0x8000).regs[EDX], 0);
    assert_eq!(wide(&[0x66, 0x98], 0xABCD_0080).regs[EAX], 0xABCD_FF80);
    assert_eq!(wide(&[0x98], 0xABCD_8000).regs[EAX], 0xFFFF_8000);
}
