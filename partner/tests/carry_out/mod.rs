//! A program that carries out each instruction in a way of its own.

use partner::compare::Other;
use partner::decode::Instruction;
use partner::machine::Machine;
use partner::step::{fetch, Step, Stop};

use crate::common::{Ended, Program};

/// Carries out one instruction.
pub type CarryOut = dyn Fn(&Machine, &Instruction, &[u8], &mut [u8]) -> Result<Step, Stop>;

/// Steps of instructions so carried out.
pub fn steps(
    carry_out: &CarryOut,
    mut machine: Machine,
    code: &[u8],
    constants: &[u8],
    data: &mut [u8],
    budget: u64,
) -> Ended {
    for steps in 0..budget {
        let stepped =
            fetch(&machine, code).and_then(|(instruction, _)| carry_out(&machine, &instruction, constants, data));
        match stepped {
            Ok(step) => machine = step.machine,
            Err(stop) => return (machine, steps, stop.number(), stop.address(machine.eip)),
        }
    }
    (machine, budget, 0, machine.eip)
}

/// A program that carries out instructions so.
pub fn program(carry_out: &CarryOut) -> impl Other + '_ {
    Program(move |machine, code: &[u8], constants: &[u8], data: &mut [u8], budget| {
        steps(carry_out, machine, code, constants, data, budget)
    })
}
