//! A program that slips in reads of constants, in writes to them or in number 15 is found out.

mod carry_out;
mod common;

use std::cell::RefCell;
use std::collections::BTreeMap;

use carry_out::{program, steps, CarryOut};
use common::Program;
use partner::cases::{Case, Generator, Size};
use partner::compare::{compare, machine_in, Comparison, Other, STATE_WORDS};
use partner::decode::{Instruction, Operation, Text};
use partner::machine::{place, FlagEffect, Machine, Width, CONSTANTS_BASE, DATA_BASE, MAX_BYTES};
use partner::run::refusals;
use partner::step::{execute, Step, Stop};

/// The number that refuses a run, of all that apply in their order, with so many constants.
type Refuse = fn(&[u32], usize) -> Option<u32>;

/// Disagreements with the other program in 5,000 cases.
fn disagreements(other: &dyn Other) -> u64 {
    let comparison = compare(other, 3, 5_000, 0);
    assert_eq!(comparison.policy, 0);
    comparison.defined
}

/// The slip is found at least five times.
fn is_found(slip: &CarryOut) {
    let found = disagreements(&program(slip));
    assert!(found >= 5, "{found}");
}

/// Disagreements with the other program in 5,000 runs around constants, each beside a refused one if asked for.
fn disagreements_at_constants(other: &dyn Other, refused: bool) -> u64 {
    let mut generator = Generator::new(3, Size::Large);
    let mut comparison = Comparison::new(other, std::iter::empty(), 0);
    for _ in 0..5_000 {
        comparison.case(&Case::Run(generator.at_constants()));
        if refused {
            comparison.case(&Case::Run(generator.refused()));
        }
    }
    comparison.defined
}

/// The slip is found at least five times in runs around constants.
fn is_found_at_constants(slip: &CarryOut) {
    let found = disagreements_at_constants(&program(slip), false);
    assert!(found >= 5, "{found}");
}

/// Whether the byte at the address is one of the constants.
fn is_constant(address: u32, constants: &[u8]) -> bool {
    place(CONSTANTS_BASE, constants.len(), address, Width::Byte).is_some()
}

/// The constants with zero bytes behind them, so many in all.
fn longer(constants: &[u8], length: usize) -> Vec<u8> {
    let mut longer = constants.to_vec();
    longer.resize(length.max(constants.len()), 0);
    longer
}

/// Carries out an instruction as if one area reached from the first byte of data to the last constant.
fn execute_in_one_area(
    machine: &Machine,
    instruction: &Instruction,
    constants: &[u8],
    data: &mut [u8],
) -> Result<Step, Stop> {
    let mut whole = longer(data, (CONSTANTS_BASE - DATA_BASE) as usize);
    whole.extend(constants);
    let stepped = execute(machine, instruction, &[], &mut whole);
    data.copy_from_slice(&whole[..data.len()]);
    stepped
}

#[test]
fn no_slip_agrees() {
    assert_eq!(disagreements(&program(&execute)), 0);
}

#[test]
fn a_read_across_the_last_constant_is_found() {
    is_found(&|machine, instruction, constants, data| match execute(machine, instruction, constants, data) {
        Err(Stop::Read(read)) if is_constant(read.address, constants) => {
            execute(machine, instruction, &longer(constants, constants.len() + 3), data)
        }
        stepped => stepped,
    });
}

#[test]
fn a_read_across_the_first_constant_is_found() {
    is_found(&|machine, instruction, constants, data| match execute(machine, instruction, constants, data) {
        Err(Stop::Read(read))
            if read.address < CONSTANTS_BASE && is_constant(read.address + read.width.bytes() - 1, constants) =>
        {
            execute_in_one_area(machine, instruction, constants, data)
        }
        stepped => stepped,
    });
}

#[test]
fn one_constant_too_many_or_too_few_is_found() {
    is_found(&|machine, instruction, constants, data| {
        execute(machine, instruction, &longer(constants, constants.len() + 1), data)
    });
    is_found(&|machine, instruction, constants, data| {
        execute(machine, instruction, &constants[..constants.len().saturating_sub(1)], data)
    });
}

#[test]
fn a_write_let_into_constants_is_found() {
    is_found(&|machine, instruction, constants, data| match execute(machine, instruction, constants, data) {
        Err(Stop::Write(write)) if is_constant(write.address, constants) => {
            execute_in_one_area(machine, instruction, constants, data)
        }
        stepped => stepped,
    });
}

#[test]
fn a_destination_in_constants_that_gives_5_is_found() {
    is_found(&|machine, instruction, constants, data| match execute(machine, instruction, constants, data) {
        Err(Stop::Write(write)) if is_constant(write.address, constants) => Err(Stop::Read(write)),
        stepped => stepped,
    });
}

#[test]
fn a_changed_operand_in_constants_that_gives_5_is_found() {
    is_found(&|machine, instruction, constants, data| match execute(machine, instruction, constants, data) {
        // Without constants its read isn't allowed.
        Err(Stop::Write(_)) => execute(machine, instruction, &[], data),
        stepped => stepped,
    });
}

#[test]
fn a_changed_operand_across_the_last_constant_that_gives_6_is_found() {
    is_found_at_constants(
        &|machine, instruction, constants, data| match execute(machine, instruction, constants, data) {
            Err(Stop::Read(read)) if is_constant(read.address, constants) => {
                let longer = longer(constants, constants.len() + 3);
                match execute(machine, instruction, &longer, &mut data.to_vec()) {
                    Err(Stop::Write(write)) if write.address == read.address => Err(Stop::Write(write)),
                    _ => Err(Stop::Read(read)),
                }
            }
            stepped => stepped,
        },
    );
}

#[test]
fn constants_at_another_base_are_found() {
    // One byte lower, one byte higher, and far away.
    is_found(&|machine, instruction, constants, data| {
        execute(machine, instruction, constants.get(1..).unwrap_or(&[]), data)
    });
    is_found(&|machine, instruction, constants, data| execute(machine, instruction, &[&[0], constants].concat(), data));
    is_found(&|machine, instruction, _, data| execute(machine, instruction, &[], data));
}

#[test]
fn constants_that_come_again_after_64_kib_are_found() {
    is_found_at_constants(
        &|machine, instruction, constants, data| match execute(machine, instruction, constants, data) {
            Err(Stop::Read(read)) if is_constant(read.address.wrapping_sub(MAX_BYTES as u32), constants) => {
                let twice = [longer(constants, MAX_BYTES), constants.to_vec()].concat();
                execute(machine, instruction, &twice, data)
            }
            stepped => stepped,
        },
    );
}

#[test]
fn reads_whose_end_wraps_are_found() {
    // At 2^32 the end comes to 0, and so lies before the end of constants; nothing is read there.
    is_found(&|machine, instruction, constants, data| match execute(machine, instruction, constants, data) {
        Err(Stop::Read(read)) if read.address.checked_add(read.width.bytes()).is_none() => {
            let eip = machine.eip.wrapping_add(instruction.length);
            let machine = Machine { eip, ..*machine };
            Ok(Step { machine, flags: FlagEffect::default(), kept: None, operands: None })
        }
        stepped => stepped,
    });
    // As an offset the end comes to 0 right below the first constant.
    is_found(&|machine, instruction, constants, data| match execute(machine, instruction, constants, data) {
        Err(Stop::Read(read)) if read.address.wrapping_add(read.width.bytes()) == CONSTANTS_BASE => {
            execute_in_one_area(machine, instruction, constants, data)
        }
        stepped => stepped,
    });
}

#[test]
fn the_length_of_the_other_area_is_found() {
    // Never more constants than data; as many constants as data; as much data as constants.
    is_found(&|machine, instruction, constants, data| {
        execute(machine, instruction, &constants[..constants.len().min(data.len())], data)
    });
    is_found(&|machine, instruction, constants, data| {
        execute(machine, instruction, &longer(constants, data.len()), data)
    });
    is_found(&|machine, instruction, constants, data| {
        let mut more = longer(data, constants.len());
        let stepped = execute(machine, instruction, constants, &mut more);
        data.copy_from_slice(&more[..data.len()]);
        stepped
    });
}

#[test]
fn reads_that_look_only_at_data_are_found() {
    let kinds: [fn(Operation) -> bool; 10] = [
        |operation| matches!(operation, Operation::Pop(_)),
        |operation| matches!(operation, Operation::Ret(_)),
        |operation| matches!(operation, Operation::Leave),
        |operation| matches!(operation, Operation::Push(_)),
        |operation| matches!(operation, Operation::Jmp(_) | Operation::Call(_)),
        |operation| matches!(operation, Operation::BitTest(..)),
        |operation| matches!(operation, Operation::Text(Text::Movs)),
        |operation| matches!(operation, Operation::Text(Text::Cmps)),
        |operation| matches!(operation, Operation::Text(Text::Lods)),
        |operation| matches!(operation, Operation::Text(Text::Scas)),
    ];
    for only_data in kinds {
        is_found_at_constants(&move |machine, instruction, constants, data| {
            let constants = if only_data(instruction.operation) { &[] } else { constants };
            execute(machine, instruction, constants, data)
        });
    }
}

#[test]
fn constants_kept_from_another_call_are_found() {
    // From the first call with as many.
    let kept: RefCell<BTreeMap<usize, Vec<u8>>> = RefCell::default();
    let found = disagreements(&Program(|machine, code: &[u8], constants: &[u8], data: &mut [u8], budget| {
        let mut kept = kept.borrow_mut();
        let constants = kept.entry(constants.len()).or_insert_with(|| constants.to_vec());
        steps(&execute, machine, code, constants, data, budget)
    }));
    assert!(found >= 5, "{found}");
}

/// A program before which other refusals stand.
struct Refuser<P: Other> {
    refuse: Refuse,
    program: P,
}

impl<P: Other> Other for Refuser<P> {
    fn run(&self, state: &mut [u32], code: &[u8], constants: &[u8], area: &mut [u8], budget: u64) -> u32 {
        assert_eq!(state.len(), STATE_WORDS);
        let applying = refusals(&machine_in(state), code, constants, area, budget);
        if let Some(number) = (self.refuse)(&applying, constants.len()) {
            state[18..].fill(0);
            return number;
        }
        self.program.run(state, code, &constants[..constants.len().min(MAX_BYTES)], area, budget)
    }

    fn check(&self, _: &[u8], _: &mut [u8], _: &mut [u32]) -> u32 {
        unreachable!("only runs are compared")
    }

    fn hex(&self, _: &[u8], _: &mut [u8], _: &mut [u32]) -> u32 {
        unreachable!("only runs are compared")
    }
}

/// Disagreements with these refusals.
fn refused_otherwise(refuse: Refuse) -> u64 {
    disagreements_at_constants(&Refuser { refuse, program: program(&execute) }, true)
}

/// The first number of this order that applies.
fn first_in(order: &[u32], applying: &[u32]) -> Option<u32> {
    order.iter().copied().find(|number| applying.contains(number))
}

#[test]
fn refusals_in_another_order_are_found() {
    let orders: [Refuse; 5] = [
        |applying, _| first_in(&[10, 11, 15, 12, 13], applying),
        |applying, _| first_in(&[10, 11, 12, 15, 13], applying),
        |applying, _| first_in(&[10, 11, 12, 13, 15], applying),
        |applying, _| first_in(&[10, 15, 11, 12, 13], applying),
        |applying, _| first_in(&[15, 10, 11, 12, 13], applying),
    ];
    let [right, wrong @ ..] = orders.map(refused_otherwise);
    assert_eq!(right, 0);
    assert!(wrong.iter().all(|&found| found >= 5), "{wrong:?}");
}

#[test]
fn another_limit_or_number_for_constants_is_found() {
    let limits: [Refuse; 3] = [
        // Any number of constants is taken.
        |applying, _| first_in(&[10, 11, 12, 13], applying),
        // 65,536 are refused.
        |applying, constants| match first_in(&[10, 11, 15, 12, 13], applying) {
            Some(number @ (10 | 11)) => Some(number),
            _ if constants >= MAX_BYTES => Some(15),
            other => other,
        },
        // They are refused as data are.
        |applying, _| applying.first().map(|&number| if number == 15 { 11 } else { number }),
    ];
    let found = limits.map(refused_otherwise);
    assert!(found.iter().all(|&found| found >= 5), "{found:?}");
}
