//! Comparison with another program behind Sangolid's C interface.

use crate::cases::{Case, CheckCase, Generator, HexCase, RunCase, Size};
use crate::check::{check, Verdict};
use crate::coverage::Coverage;
use crate::decode::PREFIXES;
use crate::hex::{read, Reading};
use crate::machine::{Machine, CODE_BASE};
use crate::run::{run, Outcome};
use crate::text::{describe, hex, machine_text};

/// Words of the state area: eight registers, EIP, flags, eight singles, steps, address.
pub const STATE_WORDS: usize = 20;
/// Words of a check's or a reading's answer area.
pub const ANSWER_WORDS: usize = 1;
/// Number for a state or answer area of another length.
pub const WRONG_AREA: u32 = 90;
/// Most steps looked through for the first one that differs.
const STEPS_SEARCHED: u64 = 5000;

/// A program with Sangolid's C interface.
pub trait Other {
    /// `sangolid_run`.
    fn run(&self, state: &mut [u32], code: &[u8], constants: &[u8], area: &mut [u8], budget: u64) -> u32;
    /// `sangolid_check`.
    fn check(&self, code: &[u8], marks: &mut [u8], answer: &mut [u32]) -> u32;
    /// `sangolid_hex`.
    fn hex(&self, text: &[u8], code: &mut [u8], answer: &mut [u32]) -> u32;
}

/// How two outcomes differ.
#[derive(Clone, Copy, PartialEq, Eq, Debug)]
pub enum Difference {
    /// In something other than flags that 003 leaves undefined.
    Defined,
    /// Only in flags that 003 leaves undefined, and that are 0 by document 02 (M-101).
    Policy,
}

/// A run's whole result.
#[derive(Clone, PartialEq, Eq, Debug)]
pub(crate) struct RunResult {
    pub(crate) outcome: Outcome,
    pub(crate) data: Vec<u8>,
}

/// The partner's result.
fn partner_run(case: &RunCase, coverage: Option<&mut Coverage>) -> RunResult {
    let mut data = case.data.clone();
    let outcome = match coverage {
        None => run(case.machine, &case.code, &case.constants, &mut data, case.budget),
        Some(coverage) => coverage.run(case, &mut data),
    };
    RunResult { outcome, data }
}

/// What steps, address and answers begin with, and what must be replaced.
const FILLER: u32 = 0xA5A5_A5A5;

/// The state area for a machine, with steps and address.
pub fn state_words(machine: &Machine, steps: u32, address: u32) -> [u32; STATE_WORDS] {
    let Machine { regs, eip, flags, singles } = machine;
    let mut state = [0; STATE_WORDS];
    state[..8].copy_from_slice(regs);
    (state[8], state[9]) = (*eip, *flags);
    state[10..18].copy_from_slice(singles);
    (state[18], state[19]) = (steps, address);
    state
}

/// The machine in a state area.
pub fn machine_in(state: &[u32]) -> Machine {
    let (mut regs, mut singles) = ([0; 8], [0; 8]);
    regs.copy_from_slice(&state[..8]);
    singles.copy_from_slice(&state[10..18]);
    Machine { regs, eip: state[8], flags: state[9], singles }
}

/// The other program's result.
pub(crate) fn other_run(case: &RunCase, other: &dyn Other) -> RunResult {
    let mut state = state_words(&case.machine, FILLER, FILLER);
    let mut data = case.data.clone();
    let number = other.run(&mut state, &case.code, &case.constants, &mut data, case.budget);
    let [steps, address] = [state[18], state[19]];
    let outcome = Outcome { machine: machine_in(&state), steps: u64::from(steps), number, address, undefined: 0 };
    RunResult { outcome, data }
}

/// The other program's verdict and marks.
pub(crate) fn other_check(case: &CheckCase, other: &dyn Other) -> (Verdict, Vec<u8>) {
    let mut marks = case.marks.clone();
    let mut answer = [FILLER; ANSWER_WORDS];
    let number = other.check(&case.code, &mut marks, &mut answer);
    (Verdict { number, answer: answer[0] }, marks)
}

/// The other program's reading and area.
pub(crate) fn other_hex(case: &HexCase, other: &dyn Other) -> (Reading, Vec<u8>) {
    let mut area = case.area.clone();
    let mut answer = [FILLER; ANSWER_WORDS];
    let number = other.hex(&case.text, &mut area, &mut answer);
    (Reading { number, answer: answer[0] }, area)
}

/// How the other program's result differs from the partner's.
fn difference(partner: &RunResult, other: &RunResult) -> Option<Difference> {
    let masked = |result: &RunResult| {
        let mut result = result.clone();
        result.outcome.machine.flags &= !partner.outcome.undefined;
        result.outcome.undefined = 0;
        result
    };
    if masked(partner) != masked(other) {
        Some(Difference::Defined)
    } else if partner.outcome.machine.flags != other.outcome.machine.flags {
        Some(Difference::Policy)
    } else {
        None
    }
}

/// One result as text.
fn result_text(result: &RunResult) -> String {
    let Outcome { machine, steps, number, address, undefined } = result.outcome;
    format!(
        "number {number} steps {steps} address {address:08X} undefined {undefined:03X}\n      {}\n      data {}",
        machine_text(&machine),
        hex(&result.data)
    )
}

/// The inputs and both results, with the first step that differs.
fn run_report(case: &RunCase, kind: Difference, other: &dyn Other) -> String {
    let ours = partner_run(case, None);
    let most = case.budget.min(ours.outcome.steps + 1).min(STEPS_SEARCHED);
    let first = (0..=most).find(|&budget| {
        let shorter = RunCase { budget, ..case.clone() };
        difference(&partner_run(&shorter, None), &other_run(&shorter, other)).is_some()
    });
    let step = match first {
        None => "no shorter budget differs".to_string(),
        Some(budget) => {
            let before = partner_run(&RunCase { budget: budget.saturating_sub(1), ..case.clone() }, None);
            let eip = before.outcome.machine.eip;
            let rest = case.code.get(eip.wrapping_sub(CODE_BASE) as usize..).unwrap_or(&[]);
            format!("first at budget {budget}, EIP {eip:08X}: {}  {}", hex(&rest[..rest.len().min(11)]), describe(rest))
        }
    };
    format!(
        "{kind:?} disagreement in a run, {step}\n  code  {}\n  constants {}\n  data  {}\n  budget {:X}\n  in    {}\
         \n  ours  {}\n  other {}",
        hex(&case.code),
        hex(&case.constants),
        hex(&case.data),
        case.budget,
        machine_text(&case.machine),
        result_text(&ours),
        result_text(&other_run(case, other))
    )
}

/// The text, both readings, and the first byte in which the areas differ.
fn hex_report(case: &HexCase, ours: &(Reading, Vec<u8>), theirs: &(Reading, Vec<u8>)) -> String {
    let byte = match (0..case.area.len()).find(|&at| ours.1[at] != theirs.1[at]) {
        None => "the areas are alike".to_string(),
        Some(at) => format!(
            "first at offset {at:X}: {:02X} before, ours {:02X}, other {:02X}",
            case.area[at], ours.1[at], theirs.1[at]
        ),
    };
    format!(
        "disagreement in a hex file\n  text  {}\n  area of {} bytes, {byte}\n  ours  {:?}\n  other {:?}",
        case.text.escape_ascii(),
        case.area.len(),
        ours.0,
        theirs.0
    )
}

/// Disagreements found so far.
pub struct Comparison<'a> {
    other: &'a dyn Other,
    pub coverage: Coverage,
    pub defined: u64,
    pub policy: u64,
    /// The first disagreements in full.
    pub reports: Vec<String>,
    limit: usize,
}

impl<'a> Comparison<'a> {
    /// Nothing compared yet; so many disagreements are kept in full.
    pub fn new<'b>(other: &'a dyn Other, form_names: impl Iterator<Item = &'b str>, limit: usize) -> Self {
        Comparison { other, coverage: Coverage::new(form_names), defined: 0, policy: 0, reports: Vec::new(), limit }
    }

    /// Counts a disagreement and keeps its report.
    fn disagree(&mut self, kind: Difference, report: impl FnOnce() -> String) {
        match kind {
            Difference::Defined => self.defined += 1,
            Difference::Policy => self.policy += 1,
        }
        if self.reports.len() < self.limit {
            self.reports.push(report());
        }
    }

    /// Compares one run and gives back the partner's result.
    fn run(&mut self, case: &RunCase) -> RunResult {
        let ours = partner_run(case, Some(&mut self.coverage));
        let theirs = other_run(case, self.other);
        if let Some(kind) = difference(&ours, &theirs) {
            let other = self.other;
            self.disagree(kind, || run_report(case, kind, other));
        }
        ours
    }

    /// Compares one block check.
    pub fn check(&mut self, case: &CheckCase) {
        let mut our_marks = case.marks.clone();
        let ours = check(&case.code, &mut our_marks);
        self.coverage.checked(&case.code, ours);
        let (theirs, their_marks) = other_check(case, self.other);
        if ours != theirs || our_marks != their_marks {
            self.disagree(Difference::Defined, || {
                format!(
                    "disagreement in a check\n  code  {}\n  marks {}\n  ours  {ours:?} marks {}\n  other {theirs:?} marks {}",
                    hex(&case.code),
                    hex(&case.marks),
                    hex(&our_marks),
                    hex(&their_marks)
                )
            });
        }
    }

    /// Compares one hex file.
    fn hex(&mut self, case: &HexCase) {
        let mut area = case.area.clone();
        let ours = (read(&case.text, &mut area), area);
        self.coverage.read(&case.text, case.area.len());
        let theirs = other_hex(case, self.other);
        if ours != theirs {
            self.disagree(Difference::Defined, || hex_report(case, &ours, &theirs));
        }
    }

    /// Compares one case.
    pub fn case(&mut self, case: &Case) {
        match case {
            Case::Run(case) => {
                self.run(case);
            }
            Case::Resume(case, more) => {
                let first = self.run(case);
                let rest = RunCase { machine: first.outcome.machine, data: first.data, budget: *more, ..case.clone() };
                self.coverage.resume();
                self.run(&rest);
                self.run(&RunCase { budget: case.budget + more, ..case.clone() });
            }
            Case::Check(case) => self.check(case),
            Case::StateLength(case, length) => {
                let words = state_words(&case.machine, FILLER, FILLER);
                let given: Vec<u32> = words.into_iter().cycle().take(*length).collect();
                let (mut state, mut data) = (given.clone(), case.data.clone());
                let number = self.other.run(&mut state, &case.code, &case.constants, &mut data, case.budget);
                if number != WRONG_AREA || state != given || data != case.data {
                    self.disagree(Difference::Defined, || {
                        format!("state area of {length} words: number {number}, given {given:X?}, back {state:X?}")
                    });
                }
            }
            Case::AnswerLength(case, length) => {
                let given = vec![FILLER; *length];
                let (mut answer, mut marks) = (given.clone(), case.marks.clone());
                let number = self.other.check(&case.code, &mut marks, &mut answer);
                if number != WRONG_AREA || answer != given || marks != case.marks {
                    self.disagree(Difference::Defined, || {
                        format!("answer area of {length} words: number {number}, back {answer:X?}")
                    });
                }
            }
            Case::Hex(case) => self.hex(case),
            Case::HexAnswerLength(case, length) => {
                let given = vec![FILLER; *length];
                let (mut answer, mut area) = (given.clone(), case.area.clone());
                let number = self.other.hex(&case.text, &mut area, &mut answer);
                if number != WRONG_AREA || answer != given || area != case.area {
                    self.disagree(Difference::Defined, || {
                        format!("answer area of {length} words for a hex file: number {number}, back {answer:X?}")
                    });
                }
            }
        }
    }
}

/// Compares so many random cases.
pub fn compare(other: &dyn Other, seed: u64, count: u64, limit: usize) -> Comparison<'_> {
    let mut generator = Generator::new(seed, Size::Large);
    let names: Vec<String> = generator.form_names().map(str::to_string).collect();
    let mut comparison = Comparison::new(other, names.iter().map(String::as_str), limit);
    for _ in 0..count {
        let case = generator.next_case();
        comparison.case(&case);
    }
    comparison
}

/// Compares so many calculations and comparisons of singles in two XMM registers.
pub fn singles(other: &dyn Other, seed: u64, count: u64, limit: usize) -> Comparison<'_> {
    let mut generator = Generator::new(seed, Size::Large);
    let mut comparison = Comparison::new(other, std::iter::empty(), limit);
    for _ in 0..count {
        comparison.run(&generator.calculation());
    }
    comparison
}

/// Compares the block check on every code of 1 to 3 bytes, and on every order of prefixes with 0F and two more bytes,
/// alone and with zero bytes behind.
pub fn sweep(other: &dyn Other, limit: usize) -> Comparison<'_> {
    const ZEROS: usize = 10;
    let mut comparison = Comparison::new(other, std::iter::empty(), limit);
    let short = (1..=3usize).map(|length| (vec![], length));
    let orders = PREFIXES.into_iter().filter(|order| !order.is_empty());
    let escaped = orders.map(|order| ([order, &[0x0F]].concat(), 2));
    for (front, length) in short.chain(escaped) {
        for value in 0..1u32 << (8 * length) {
            let code = [&front, &value.to_be_bytes()[4 - length..]].concat();
            comparison.check(&CheckCase { marks: vec![7; code.len()], code: code.clone() });
            let longer = [code, vec![0; ZEROS]].concat();
            comparison.check(&CheckCase { marks: vec![7; longer.len()], code: longer });
        }
    }
    comparison
}
