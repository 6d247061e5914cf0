//! The programs under the clock, each run from a new state and new data.

use partner::cases::RunCase;
use partner::compare::{machine_in, state_words, Other};
use partner::machine::Machine;
use partner::run::run;
use partner::sangolid::Sangolid;

/// What a program ended with.
pub struct End {
    pub registers: [u32; 8],
    pub data: Vec<u8>,
    /// What only an emulator of document 01 tells.
    pub told: Option<Told>,
}

/// The rest of a run's outcome.
#[derive(Clone, Copy, PartialEq, Eq)]
pub struct Told {
    pub eip: u32,
    pub flags: u32,
    pub singles: [u32; 8],
    pub number: u32,
    pub steps: u64,
    pub address: u32,
}

impl End {
    /// All that an emulator of document 01 tells.
    fn told(machine: Machine, data: Vec<u8>, number: u32, steps: u64, address: u32) -> End {
        let Machine { regs, eip, flags, singles } = machine;
        End { registers: regs, data, told: Some(Told { eip, flags, singles, number, steps, address }) }
    }

    /// Whether both ended alike, in so far as both tell.
    pub fn agrees(&self, other: &End) -> bool {
        let told = self.told.zip(other.told).is_none_or(|(ours, theirs)| ours == theirs);
        told && self.registers == other.registers && self.data == other.data
    }
}

/// A program that carries out blocks.
pub trait Program {
    /// Runs the case from its beginning.
    fn run(&mut self, case: &RunCase) -> End;
}

impl Program for Sangolid {
    fn run(&mut self, case: &RunCase) -> End {
        let mut state = state_words(&case.machine, 0, 0);
        let mut data = case.data.clone();
        let number = Other::run(self, &mut state, &case.code, &case.constants, &mut data, case.budget);
        let [.., steps, address] = state;
        End::told(machine_in(&state), data, number, u64::from(steps), address)
    }
}

/// The partner.
pub struct Partner;

impl Program for Partner {
    fn run(&mut self, case: &RunCase) -> End {
        let mut data = case.data.clone();
        let outcome = run(case.machine, &case.code, &case.constants, &mut data, case.budget);
        End::told(outcome.machine, data, outcome.number, outcome.steps, outcome.address)
    }
}
