//! A run: the entry refusals, then steps until a stop or the budget's end.

use crate::decode::Instruction;
use crate::machine::{Machine, ALWAYS, KNOWN, MAX_BUDGET, MAX_BYTES};
use crate::step::{execute, fetch, Step, Stop};

/// What a run gives back beside the data.
#[derive(Clone, Copy, PartialEq, Eq, Debug)]
pub struct Outcome {
    pub machine: Machine,
    pub steps: u64,
    pub number: u32,
    pub address: u32,
    /// Flags that the last instruction to touch them left undefined by 003.
    pub undefined: u32,
}

/// An instruction that a run came to.
pub struct Seen<'a> {
    pub instruction: &'a Instruction,
    /// The instruction's own bytes.
    pub bytes: &'a [u8],
    /// The machine before the step.
    pub before: &'a Machine,
    /// How many constants there are.
    pub constants: usize,
    /// How many bytes of data there are.
    pub data: usize,
    /// The finished step, or the stop.
    pub stepped: Result<Step, Stop>,
}

/// Numbers that refuse a run before any step, in the order in which they are tested.
pub const REFUSALS: [u32; 5] = [10, 11, 15, 12, 13];

/// All of these numbers that apply, in that order; the first decides.
pub fn refusals(machine: &Machine, code: &[u8], constants: &[u8], data: &[u8], budget: u64) -> Vec<u32> {
    let applies = |number: &u32| match number {
        10 => code.is_empty() || code.len() > MAX_BYTES,
        11 => data.len() > MAX_BYTES,
        15 => constants.len() > MAX_BYTES,
        12 => machine.flags & ALWAYS == 0 || machine.flags & !KNOWN != 0,
        _ => budget > MAX_BUDGET,
    };
    REFUSALS.into_iter().filter(applies).collect()
}

/// Runs the code from the machine's EIP.
pub fn run(machine: Machine, code: &[u8], constants: &[u8], data: &mut [u8], budget: u64) -> Outcome {
    run_observed(machine, code, constants, data, budget, |_| {})
}

/// Runs the code and shows each instruction that it comes to.
pub fn run_observed(
    machine: Machine,
    code: &[u8],
    constants: &[u8],
    data: &mut [u8],
    budget: u64,
    mut observe: impl FnMut(Seen),
) -> Outcome {
    let mut outcome = Outcome { machine, steps: 0, number: 0, address: 0, undefined: 0 };
    if let Some(&number) = refusals(&machine, code, constants, data, budget).first() {
        outcome.number = number;
        return outcome;
    }
    while outcome.steps < budget {
        let stepped = fetch(&outcome.machine, code).and_then(|(instruction, bytes)| {
            let stepped = execute(&outcome.machine, &instruction, constants, data);
            let (before, constants, data) = (&outcome.machine, constants.len(), data.len());
            observe(Seen { instruction: &instruction, bytes, before, constants, data, stepped });
            stepped
        });
        match stepped {
            Ok(step) => {
                outcome.machine = step.machine;
                outcome.undefined = (outcome.undefined & !step.flags.written) | step.flags.undefined;
                outcome.steps += 1;
            }
            Err(stop) => {
                outcome.number = stop.number();
                outcome.address = stop.address(outcome.machine.eip);
                return outcome;
            }
        }
    }
    outcome.address = outcome.machine.eip;
    outcome
}
