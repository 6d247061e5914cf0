//! A program that keeps decoded instructions by their offsets modulo 64, and takes one for another, is found out.

mod common;

use common::{Ended, Program};
use partner::compare::{compare, Comparison};
use partner::decode::{decode, Instruction};
use partner::machine::Machine;
use partner::step::{execute, fetch};

/// The partner with 64 kept instructions.
struct Keeper {
    fault: Fault,
}

/// Which places the keeper mixes up.
#[derive(Clone, Copy, PartialEq)]
enum Fault {
    None,
    /// All that are equal modulo 64.
    Modulo64,
    /// Those that are equal modulo 1024.
    Modulo1024,
    /// Those whose low 16 bits are equal, inside the code or not.
    Low16,
    /// 0 and a place that nothing is kept for.
    Empty,
}

impl Fault {
    /// Whether what is kept for the place is used at EIP.
    fn uses(self, place: u32, eip: u32) -> bool {
        match self {
            Fault::None | Fault::Empty => place == eip,
            Fault::Modulo64 => place % 64 == eip % 64,
            Fault::Modulo1024 => place % 1024 == eip % 1024,
            Fault::Low16 => place & 0xFFFF == eip & 0xFFFF,
        }
    }

    /// What is kept at first: nothing, or a NOP for EIP 0.
    fn nothing(self) -> Option<(u32, Instruction)> {
        (self == Fault::Empty).then(|| (0, decode(&[0x90]).expect("NOP is an instruction")))
    }
}

impl Keeper {
    /// Steps until a stop or the budget's end.
    fn steps(&self, mut machine: Machine, code: &[u8], constants: &[u8], data: &mut [u8], budget: u64) -> Ended {
        let mut kept = [self.fault.nothing(); 64];
        for steps in 0..budget {
            let slot = &mut kept[machine.eip as usize % 64];
            let found = slot.filter(|&(place, _)| self.fault.uses(place, machine.eip));
            let fetched = found.map_or_else(|| fetch(&machine, code).map(|(fetched, _)| fetched), |(_, kept)| Ok(kept));
            let stepped = fetched.and_then(|instruction| {
                *slot = Some((machine.eip, instruction));
                execute(&machine, &instruction, constants, data)
            });
            match stepped {
                Ok(step) => machine = step.machine,
                Err(stop) => return (machine, steps, stop.number(), stop.address(machine.eip)),
            }
        }
        (machine, budget, 0, machine.eip)
    }
}

/// What comes of comparing a keeper.
fn compared<T>(fault: Fault, look: impl Fn(&Comparison) -> T) -> T {
    let keeper = Keeper { fault };
    let program = Program(|machine, code: &[u8], constants: &[u8], data: &mut [u8], budget| {
        keeper.steps(machine, code, constants, data, budget)
    });
    look(&compare(&program, 3, 20_000, 0))
}

#[test]
fn exact_keeping_agrees_and_no_way_is_a_hole() {
    let (found, report) =
        compared(Fault::None, |comparison| ((comparison.defined, comparison.policy), comparison.coverage.to_string()));
    assert_eq!(found, (0, 0));
    for group in ["3 of 3 ways of going round", "6 of 6 starts outside the code", "6 of 6 ways out of the code"] {
        assert!(report.contains(group), "no \"{group}\" in:\n{report}");
    }
}

#[test]
fn every_mix_up_is_found() {
    for (fault, least) in [(Fault::Modulo64, 300), (Fault::Modulo1024, 50), (Fault::Low16, 20), (Fault::Empty, 20)] {
        let found = compared(fault, |comparison| comparison.defined);
        assert!(found >= least, "{found} of at least {least}");
    }
}
