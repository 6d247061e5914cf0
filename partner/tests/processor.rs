//! The processor's own instructions give the same singles and flags, where this machine has them.
#![cfg(target_arch = "x86_64")]

use std::arch::asm;

use partner::cases::{Generator, Size};
use partner::decode::{decode, Operation, Single};
use partner::machine::STATUS;
use partner::run::run;

/// Both operands by this instruction, first operand and destination first.
macro_rules! carried_out {
    ($name:literal, $first:expr, $second:expr) => {{
        let (mut first, second) = ($first, $second);
        // Only XMM registers are used.
        unsafe {
            asm!(
                "movd xmm0, {first:e}",
                "movd xmm1, {second:e}",
                concat!($name, " xmm0, xmm1"),
                "movd {first:e}, xmm0",
                first = inout(reg) first,
                second = in(reg) second,
                out("xmm0") _,
                out("xmm1") _,
                options(nostack)
            );
        }
        first
    }};
}

/// The processor's result of a calculation.
fn calculated(kind: Single, first: u32, second: u32) -> u32 {
    match kind {
        Single::Addss => carried_out!("addss", first, second),
        Single::Mulss => carried_out!("mulss", first, second),
        Single::Subss => carried_out!("subss", first, second),
        Single::Minss => carried_out!("minss", first, second),
        Single::Divss => carried_out!("divss", first, second),
        Single::Maxss => carried_out!("maxss", first, second),
    }
}

/// The processor's flags after COMISS.
fn compared(first: u32, second: u32) -> u32 {
    let flags: u64;
    // Only XMM registers are used, and the stack for the flags.
    unsafe {
        asm!(
            "movd xmm0, {first:e}",
            "movd xmm1, {second:e}",
            "comiss xmm0, xmm1",
            "pushfq",
            "pop {flags}",
            first = in(reg) first,
            second = in(reg) second,
            flags = out(reg) flags,
            out("xmm0") _,
            out("xmm1") _
        );
    }
    flags as u32 & STATUS
}

#[test]
fn the_processor_agrees() {
    let mut generator = Generator::new(7, Size::Large);
    for _ in 0..1_000_000 {
        let case = generator.calculation();
        let before = case.machine.singles;
        let outcome = run(case.machine, &case.code, &[], &mut [], 1);
        let modrm = usize::from(*case.code.last().expect("there is a ModR/M byte"));
        let (to, from) = (modrm >> 3 & 7, modrm & 7);
        let (first, second) = (before[to], before[from]);
        match decode(&case.code).expect("the code is an instruction").operation {
            Operation::Single(kind, ..) => {
                let result = outcome.machine.singles[to];
                assert_eq!(result, calculated(kind, first, second), "{kind:?} {first:08X} {second:08X}");
                assert_eq!(outcome.machine.flags, case.machine.flags);
            }
            _ => {
                assert_eq!(outcome.machine.flags & STATUS, compared(first, second), "{first:08X} {second:08X}");
                assert_eq!(outcome.machine.singles, before);
            }
        }
    }
}
