//! The comparer finds what differs and nothing else.

use partner::check::check;
use partner::compare::{compare, machine_in, singles, state_words, Other, ANSWER_WORDS, STATE_WORDS, WRONG_AREA};
use partner::hex::read;
use partner::machine::{Machine, AF};
use partner::run::run;

/// The partner itself behind the C interface, with a fault of choice.
struct Mirror {
    fault: Fault,
}

/// What the mirror does wrong.
#[derive(PartialEq)]
enum Fault {
    None,
    /// Sets an undefined AF.
    UndefinedFlag,
    /// Reports one step too many for budgets used up.
    Steps,
    /// Takes wrong area lengths.
    AreaLength,
    /// Loses XMM7.
    LastSingle,
    /// Changes XMM0 in refused runs.
    RefusedSingle,
    /// Changes XMM2 in steps that stop with 5.
    StoppedSingle,
    /// Leaves a mark at the first byte of refused code.
    Marks,
    /// Takes wrong answer lengths for hex files.
    HexAnswer,
    /// Changes the last byte of the area of a refused hex file.
    HexArea,
    /// Gives a line with number 37.
    HexLine,
}

impl Other for Mirror {
    fn run(&self, state: &mut [u32], code: &[u8], constants: &[u8], area: &mut [u8], budget: u64) -> u32 {
        if state.len() != STATE_WORDS {
            return if self.fault == Fault::AreaLength { 0 } else { WRONG_AREA };
        }
        let outcome = run(machine_in(state), code, constants, area, budget);
        let steps = outcome.steps as u32 + u32::from(self.fault == Fault::Steps && outcome.number == 0);
        state.copy_from_slice(&state_words(&outcome.machine, steps, outcome.address));
        if self.fault == Fault::UndefinedFlag && outcome.undefined & AF != 0 {
            state[9] |= AF;
        }
        match self.fault {
            Fault::LastSingle => state[17] = 0,
            Fault::RefusedSingle if outcome.number >= 10 => state[10] ^= 1,
            Fault::StoppedSingle if outcome.number == 5 => state[12] ^= 1,
            _ => {}
        }
        outcome.number
    }

    fn check(&self, code: &[u8], marks: &mut [u8], answer: &mut [u32]) -> u32 {
        if answer.len() != ANSWER_WORDS {
            return WRONG_AREA;
        }
        let verdict = check(code, marks);
        answer[0] = verdict.answer;
        if self.fault == Fault::Marks && verdict.number > 20 {
            marks[0] = 1;
        }
        verdict.number
    }

    fn hex(&self, text: &[u8], code: &mut [u8], answer: &mut [u32]) -> u32 {
        if answer.len() != ANSWER_WORDS {
            return if self.fault == Fault::HexAnswer { 0 } else { WRONG_AREA };
        }
        let reading = read(text, code);
        answer[0] = reading.answer + u32::from(self.fault == Fault::HexLine && reading.number == 37);
        if let (Fault::HexArea, Some(byte), 1..) = (&self.fault, code.last_mut(), reading.number) {
            *byte ^= 1;
        }
        reading.number
    }
}

/// Defined and policy disagreements beside a mirror with the fault.
fn disagreements(fault: Fault) -> (u64, u64) {
    let mirror = Mirror { fault };
    let comparison = compare(&mirror, 3, 20_000, 2);
    assert!(comparison.reports.len() <= 2);
    (comparison.defined, comparison.policy)
}

#[test]
fn agreement_is_found() {
    let mirror = Mirror { fault: Fault::None };
    let comparison = compare(&mirror, 3, 80_000, 2);
    assert_eq!((comparison.defined, comparison.policy), (0, 0));
    assert_eq!(comparison.coverage.holes(), Vec::<String>::new());
    let coverage = comparison.coverage;
    assert!(
        coverage.has_all_bits()
            && coverage.has_all_undefined()
            && coverage.has_all_parities()
            && coverage.has_all_accesses()
            && coverage.has_all_ends()
            && coverage.has_all_singles()
            && coverage.has_all_misses()
            && coverage.has_all_cases()
            && coverage.has_all_hex(),
        "{coverage}"
    );
    for long in ["4 of 4 hex files too long for a vector line", "40 of 40 accesses at the ends of 65,536 data"] {
        assert!(coverage.to_string().contains(long), "no \"{long}\" in:\n{coverage}");
    }
}

#[test]
fn every_fault_is_found() {
    assert!(matches!(disagreements(Fault::UndefinedFlag), (0, 1..)));
    assert!(matches!(disagreements(Fault::Steps), (1.., 0)));
    assert!(matches!(disagreements(Fault::AreaLength), (1.., 0)));
    assert!(matches!(disagreements(Fault::LastSingle), (1.., 0)));
    assert!(matches!(disagreements(Fault::RefusedSingle), (1.., 0)));
    assert!(matches!(disagreements(Fault::StoppedSingle), (1.., 0)));
    assert!(matches!(disagreements(Fault::Marks), (1.., 0)));
    assert!(matches!(disagreements(Fault::HexAnswer), (1.., 0)));
    assert!(matches!(disagreements(Fault::HexArea), (1.., 0)));
    assert!(matches!(disagreements(Fault::HexLine), (1.., 0)));
}

#[test]
fn the_state_area_has_its_words_in_order() {
    let machine =
        Machine { regs: [1, 2, 3, 4, 5, 6, 7, 8], eip: 9, flags: 10, singles: [11, 12, 13, 14, 15, 16, 17, 18] };
    let words = state_words(&machine, 19, 20);
    assert_eq!(words.to_vec(), (1..=20).collect::<Vec<u32>>());
    assert_eq!(machine_in(&words), machine);
}

#[test]
fn singles_are_compared_by_themselves() {
    let mirror = Mirror { fault: Fault::None };
    let comparison = singles(&mirror, 3, 50_000, 2);
    assert_eq!((comparison.defined, comparison.policy), (0, 0));
    let counts = comparison.coverage.single_counts();
    assert_eq!(counts[..7].iter().map(|(_, count)| count).sum::<u64>(), 50_000);
    assert_eq!(counts[7..].iter().map(|(_, count)| count).sum::<u64>(), 50_000);
    assert_eq!(counts[..2].iter().map(|(name, _)| name.as_str()).collect::<Vec<_>>(), ["ADDSS", "MULSS"]);
    assert!(counts.iter().all(|(_, count)| *count > 0), "{counts:?}");
    let lost = Mirror { fault: Fault::LastSingle };
    assert!(singles(&lost, 3, 1_000, 2).defined > 0);
}
