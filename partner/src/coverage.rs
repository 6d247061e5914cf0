//! Counts of what a set of cases came to.

mod accesses;
mod bits;
mod constants;
mod hex;
mod outside;
mod parity;
mod singles;
mod undefined;

use std::collections::BTreeMap;
use std::fmt::{self, Display, Formatter};

use self::bits::Bits;
use self::constants::{reads_constants, Constants};
use self::hex::Hex;
use self::outside::Outside;
use self::parity::Parity;
use self::singles::{Singles, Stopped};
use self::undefined::Undefined;
use crate::cases::{CheckCase, RunCase};
use crate::check::{check, Verdict};
use crate::decode::{Instruction, Operand, Operation, PREFIXES};
use crate::machine::{Machine, Width, CODE_BASE, ECX, HOME, MAX_BYTES};
use crate::run::{run, run_observed, Outcome, Seen};
use crate::step::Step;
use crate::text::{form, prefixes};

/// How often a form finished a step and how often it stopped one.
#[derive(Clone, Copy, Default)]
struct Count {
    finished: u64,
    stopped: u64,
}

/// How often a run must come to a place to have gone round there.
const OFTEN: u32 = 16;

/// Ways of going round.
const LOOPS: [&str; 3] =
    ["a place often", "back after a place equal modulo 64", "back after a place equal modulo 1024"];

/// Places outside the code.
const NO_CODE: [&str; 6] =
    ["0", "FFFFFFFF", "just below the code", "home", "just past the code", "64 KiB past a place of the code"];

/// Which of the places outside the code an address is.
fn no_code(address: u32, length: u32) -> Option<usize> {
    let places = [0, u32::MAX, CODE_BASE - 1, HOME, CODE_BASE + length];
    let past = address.wrapping_sub(CODE_BASE + MAX_BYTES as u32) < length;
    places.iter().position(|&place| place == address).or(past.then_some(places.len()))
}

/// The bytes that stopped a run because they begin no instruction.
fn bytes_at_stop<'a>(outcome: &Outcome, code: &'a [u8]) -> &'a [u8] {
    match outcome.number {
        3 | 4 => &code[(outcome.address - CODE_BASE) as usize..],
        _ => &[],
    }
}

/// The bytes for which a check refused the code because they begin no instruction.
fn bytes_refused(code: &[u8], verdict: Verdict) -> &[u8] {
    match verdict.number {
        21 | 22 => &code[verdict.answer as usize..],
        _ => &[],
    }
}

/// The masked count of a shift, rotate or double shift.
fn masked(count: Operand, before: &Machine) -> u32 {
    match count {
        Operand::Immediate(value) => value % 32,
        _ => before.register(ECX, Width::Byte) % 32,
    }
}

/// Finished steps, runs or hex files by the shapes of one group.
struct Group {
    title: String,
    shapes: Vec<(String, u64)>,
}

impl Group {
    /// Nothing counted yet.
    fn new(title: String, shapes: impl Iterator<Item = String>) -> Self {
        Group { title, shapes: shapes.map(|shape| (shape, 0)).collect() }
    }

    /// Whether every shape came.
    fn is_full(&self) -> bool {
        self.shapes.iter().all(|shape| shape.1 > 0)
    }

    /// Counts the shape at this place.
    fn count(&mut self, place: usize) {
        self.shapes[place].1 += 1;
    }
}

impl Display for Group {
    fn fmt(&self, out: &mut Formatter) -> fmt::Result {
        let holes: Vec<&str> = self.shapes.iter().filter(|shape| shape.1 == 0).map(|shape| shape.0.as_str()).collect();
        let all = self.shapes.len();
        let least = self.shapes.iter().map(|shape| shape.1).min().unwrap_or(0);
        write!(out, "{} of {all} {}, least {least}", all - holes.len(), self.title)?;
        if !holes.is_empty() {
            write!(out, ", holes: {}", holes.join(", "))?;
        }
        Ok(())
    }
}

/// What the run under way did.
#[derive(Default)]
struct Course {
    /// The run goes on from inside a repeated instruction.
    resumed: bool,
    /// The last step left its repeated instruction unfinished.
    inside: bool,
    /// A step read constants.
    constants: bool,
    /// Address of the jump that the last step took.
    jump: Option<u32>,
    /// A jump was taken to another instruction, which finished.
    jumped: bool,
    /// The last step's place.
    at: Option<u32>,
    /// How often each place was come to.
    visits: BTreeMap<u32, u32>,
    /// The last place of each remainder modulo 64.
    latest: BTreeMap<u32, u32>,
    /// The ways of going round that were met.
    loops: [bool; LOOPS.len()],
}

impl Course {
    /// Goes on by a finished step.
    fn follow(&mut self, seen: &Seen, step: &Step) {
        let Instruction { operation, length, repeat, .. } = *seen.instruction;
        let (at, next) = (seen.before.eip, step.machine.eip);
        let jumps = matches!(operation, Operation::Jmp(_) | Operation::Jcc(..) | Operation::Loop(..));
        self.jumped |= self.jump.is_some_and(|from| from != at);
        self.jump = (jumps && next != at.wrapping_add(length)).then_some(at);
        self.inside = repeat.is_some() && next == at;
        self.constants |= reads_constants(seen);
        if self.at.replace(at) != Some(at) {
            self.come_to(at);
        }
    }

    /// Comes to a place from another one.
    fn come_to(&mut self, place: u32) {
        let visits = self.visits.entry(place).or_default();
        *visits += 1;
        let before = self.latest.insert(place % 64, place).filter(|&before| before != place && *visits > 1);
        self.loops[0] |= *visits >= OFTEN;
        self.loops[1] |= before.is_some();
        self.loops[2] |= before.is_some_and(|before| before % 1024 == place % 1024);
    }
}

/// Counts by instruction form, number, course and shape.
pub struct Coverage {
    forms: BTreeMap<String, Count>,
    runs: BTreeMap<u32, u64>,
    checks: BTreeMap<u32, u64>,
    readings: BTreeMap<u32, u64>,
    course: Course,
    /// The last run ended inside a repeated instruction.
    inside: bool,
    resumed: u64,
    resumed_with_constants: u64,
    jumped: u64,
    modrm: Group,
    sib: [Group; 3],
    prefixes: Group,
    bits: Bits,
    undefined: Undefined,
    parity: Parity,
    constants: Constants,
    outside: Outside,
    singles: Singles,
    loops: Group,
    starts: Group,
    ends: Group,
    hex: Hex,
}

/// The ModR/M byte and what follows, if it gave memory that was used; LEA finishes with any address.
fn modrm<'a>(seen: &Seen<'a>) -> Option<&'a [u8]> {
    let opcode = seen.instruction.opcode;
    if seen.instruction.memory().is_none() || matches!(opcode, 0x8D | 0xA0..=0xA3) {
        return None;
    }
    let before = prefixes(seen.bytes).len() + if opcode > 0xFF { 2 } else { 1 };
    Some(&seen.bytes[before..])
}

/// An order of prefixes as text.
fn prefix_name(prefixes: &&[u8]) -> String {
    match prefixes {
        [] => "none".to_string(),
        _ => prefixes.iter().map(|byte| format!("{byte:02X}")).collect::<Vec<String>>().join(" "),
    }
}

impl Coverage {
    /// Nothing counted yet; every form, number and shape that exists is listed.
    pub fn new<'a>(form_names: impl Iterator<Item = &'a str>) -> Self {
        let zero = |numbers: &[u32]| numbers.iter().map(|&number| (number, 0)).collect();
        let modrm = (0..24).map(|place| format!("mod {} r/m {}", place / 8, place % 8));
        let runs = |title: &str, names: &[&str]| Group::new(title.to_string(), names.iter().map(ToString::to_string));
        let sib = |mode| Group::new(format!("SIB bytes with mod {mode}"), (0..=0xFF).map(|byte| format!("{byte:02X}")));
        Coverage {
            forms: form_names.map(|name| (name.to_string(), Count::default())).collect(),
            runs: zero(&[0, 1, 2, 3, 4, 5, 6, 7, 10, 11, 12, 13, 15]),
            checks: zero(&[0, 10, 14, 21, 22, 23]),
            readings: zero(&[0, 30, 31, 32, 33, 34, 35, 36, 37]),
            course: Course::default(),
            inside: false,
            resumed: 0,
            resumed_with_constants: 0,
            jumped: 0,
            modrm: Group::new("ModR/M shapes of memory".to_string(), modrm),
            sib: [0, 1, 2].map(sib),
            prefixes: Group::new("prefix orders".to_string(), PREFIXES.iter().map(prefix_name)),
            bits: Bits::new(),
            undefined: Undefined::new(),
            parity: Parity::new(),
            constants: Constants::new(),
            outside: Outside::new(),
            singles: Singles::new(),
            loops: runs("ways of going round", &LOOPS),
            starts: runs("starts outside the code", &NO_CODE),
            ends: runs("ways out of the code", &NO_CODE),
            hex: Hex::new(),
        }
    }

    /// Runs the case, and counts what it came to.
    pub fn run(&mut self, case: &RunCase, data: &mut [u8]) -> Outcome {
        self.constants.took(case);
        let RunCase { machine, code, constants, budget, .. } = case;
        let outcome = run_observed(*machine, code, constants, data, *budget, |seen| self.saw(&seen));
        self.ran(&outcome, code);
        outcome
    }

    /// Counts an instruction that a run came to.
    pub fn saw(&mut self, seen: &Seen) {
        self.bits.saw(seen);
        self.undefined.saw(seen);
        self.parity.saw(seen);
        self.constants.saw(seen);
        self.outside.saw(seen);
        self.singles.saw(seen);
        let count = self.forms.entry(form(seen.bytes, seen.instruction)).or_default();
        match seen.stepped {
            Ok(step) => {
                count.finished += 1;
                self.shapes(seen);
                self.course.follow(seen, &step);
            }
            Err(_) => count.stopped += 1,
        }
    }

    /// Whether the instruction has a shape that never came, of the groups of M-100, M-101 and M-103 to M-106.
    pub fn is_new(&self, seen: &Seen) -> bool {
        let flags = self.undefined.is_new(seen) || self.parity.is_new(seen);
        let accesses = self.constants.is_new(seen) || self.outside.is_new(seen);
        self.bits.is_new(seen) || flags || accesses || self.singles.is_new(seen)
    }

    /// Whether the case has a number of constants, or refusals that apply together, that never came.
    pub fn is_new_case(&self, case: &RunCase) -> bool {
        self.constants.is_new_case(case)
    }

    /// Whether every shape of bit tests, scans, double shifts and conditional moves came.
    pub fn has_all_bits(&self) -> bool {
        self.bits.groups().all(Group::is_full)
    }

    /// Whether every shape of flags left undefined and of flags kept by a count of 0 came.
    pub fn has_all_undefined(&self) -> bool {
        self.undefined.groups().all(Group::is_full)
    }

    /// Whether every count of ones that decides PF came.
    pub fn has_all_parities(&self) -> bool {
        self.parity.group().is_full()
    }

    /// Whether every shape of accesses at constants came.
    pub fn has_all_accesses(&self) -> bool {
        self.constants.accesses().all(Group::is_full)
    }

    /// Whether every shape of accesses around ends came that a vector line has room for.
    pub fn has_all_ends(&self) -> bool {
        self.outside.has_all_short()
    }

    /// Whether every shape of steps with singles came.
    pub fn has_all_singles(&self) -> bool {
        self.singles.steps().all(Group::is_full)
    }

    /// Whether every near miss of an opcode of singles came, in a run and in a check.
    pub fn has_all_misses(&self) -> bool {
        self.singles.misses().is_full()
    }

    /// Whether the run stops at a near miss that never came.
    pub fn is_new_run_miss(&self, case: &RunCase) -> bool {
        let RunCase { machine, code, constants, data, budget } = case;
        let outcome = run(*machine, code, constants, &mut data.clone(), *budget);
        self.singles.is_new_miss(bytes_at_stop(&outcome, code), Stopped::Run)
    }

    /// Whether the check stops at a near miss that never came.
    pub fn is_new_check_miss(&self, case: &CheckCase) -> bool {
        let verdict = check(&case.code, &mut case.marks.clone());
        self.singles.is_new_miss(bytes_refused(&case.code, verdict), Stopped::Check)
    }

    /// How often each operation with singles came, and each of its results, with their names.
    pub fn single_counts(&self) -> Vec<(String, u64)> {
        self.singles.counts()
    }

    /// Whether every number of constants and all refusals that apply together came.
    pub fn has_all_cases(&self) -> bool {
        self.constants.cases().all(Group::is_full)
    }

    /// Counts the shapes of a finished step.
    fn shapes(&mut self, seen: &Seen) {
        let order = PREFIXES.iter().position(|order| *order == prefixes(seen.bytes));
        self.prefixes.count(order.expect("no instruction has other prefixes"));
        if let Some(bytes) = modrm(seen) {
            let (mode, rm) = (usize::from(bytes[0] >> 6), usize::from(bytes[0] & 7));
            self.modrm.count(8 * mode + rm);
            if rm == 4 {
                self.sib[mode].count(usize::from(bytes[1]));
            }
        }
    }

    /// Counts the number and the course of a run of the code.
    pub fn ran(&mut self, outcome: &Outcome, code: &[u8]) {
        *self.runs.entry(outcome.number).or_default() += 1;
        let course = std::mem::take(&mut self.course);
        self.inside = course.inside;
        self.resumed += u64::from(course.resumed && outcome.steps > 0);
        self.resumed_with_constants += u64::from(course.resumed && course.constants);
        self.jumped += u64::from(course.jumped);
        self.singles.missed(bytes_at_stop(outcome, code), Stopped::Run);
        for (place, _) in course.loops.iter().enumerate().filter(|(_, met)| **met) {
            self.loops.count(place);
        }
        if let (1 | 2, Some(place)) = (outcome.number, no_code(outcome.address, code.len() as u32)) {
            let group = if outcome.steps == 0 { &mut self.starts } else { &mut self.ends };
            group.count(place);
        }
    }

    /// Notes that the next run goes on from the last one's end.
    pub fn resume(&mut self) {
        self.course.resumed = self.inside;
    }

    /// Counts the verdict that a check of the code gave.
    pub fn checked(&mut self, code: &[u8], verdict: Verdict) {
        *self.checks.entry(verdict.number).or_default() += 1;
        self.singles.missed(bytes_refused(code, verdict), Stopped::Check);
    }

    /// Counts a hex file read with an area of this length.
    pub fn read(&mut self, text: &[u8], length: usize) {
        let number = self.hex.read(text, length);
        *self.readings.entry(number).or_default() += 1;
    }

    /// Whether the hex file, read with an area of this length, has a shape that never came.
    pub fn is_new_hex(&self, text: &[u8], length: usize) -> bool {
        self.hex.is_new(text, length)
    }

    /// Whether every shape of hex files came that a vector line has room for.
    pub fn has_all_hex(&self) -> bool {
        self.hex.has_all_short()
    }

    /// The counts of courses with their names.
    fn courses(&self) -> [(u64, &'static str); 3] {
        [
            (self.resumed, "resumed inside a repeated instruction"),
            (self.resumed_with_constants, "resumed so, with constants read"),
            (self.jumped, "block with a jump taken"),
        ]
    }

    /// Each kind of case with its numbers and how often they came.
    fn numbers(&self) -> impl Iterator<Item = (&'static str, u32, u64)> + '_ {
        [("run", &self.runs), ("check", &self.checks), ("hex", &self.readings)]
            .into_iter()
            .flat_map(|(kind, counts)| counts.iter().map(move |(&number, &count)| (kind, number, count)))
    }

    /// The groups of shapes.
    fn groups(&self) -> impl Iterator<Item = &Group> {
        let runs = [&self.loops, &self.starts, &self.ends];
        let steps = [&self.modrm].into_iter().chain(&self.sib).chain([&self.prefixes]);
        let flags = self.undefined.groups().chain([self.parity.group()]);
        let constants = self.constants.accesses().chain(self.constants.cases());
        let accesses = constants.chain(self.outside.groups());
        let singles = self.singles.steps().chain([self.singles.misses()]);
        let instructions = steps.chain(self.bits.groups()).chain(flags).chain(accesses).chain(singles);
        instructions.chain(runs).chain(self.hex.groups())
    }

    /// Forms that never finished a step, and numbers and courses that never came.
    pub fn holes(&self) -> Vec<String> {
        let forms = self.forms.iter().filter(|(_, count)| count.finished == 0).map(|(name, _)| name.clone());
        let numbers = self.numbers().filter(|(_, _, count)| *count == 0);
        let numbers = numbers.map(|(kind, number, _)| format!("{kind} number {number}"));
        let courses = self.courses().into_iter().filter(|(count, _)| *count == 0).map(|(_, name)| name.to_string());
        forms.chain(numbers).chain(courses).collect()
    }
}

impl Display for Coverage {
    fn fmt(&self, out: &mut Formatter) -> fmt::Result {
        writeln!(out, "finished\tstopped\tform")?;
        for (name, count) in &self.forms {
            writeln!(out, "{}\t{}\t{name}", count.finished, count.stopped)?;
        }
        for (kind, number, count) in self.numbers() {
            writeln!(out, "{count}\t\t{kind} number {number}")?;
        }
        for (count, name) in self.courses() {
            writeln!(out, "{count}\t\t{name}")?;
        }
        let holes = self.holes();
        writeln!(out, "{} forms, {} holes", self.forms.len(), holes.len())?;
        for hole in holes {
            writeln!(out, "hole: {hole}")?;
        }
        for group in self.groups() {
            writeln!(out, "{group}")?;
        }
        Ok(())
    }
}
