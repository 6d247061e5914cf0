//! Cases with expected results, one a line.

use std::io::{self, Write};

use crate::cases::{Case, CheckCase, Generator, HexCase, RunCase, Size};
use crate::check::check;
use crate::compare::{other_check, other_hex, other_run, Other};
use crate::coverage::Coverage;
use crate::hex::read;
use crate::machine::Machine;
use crate::run::{run_observed, Outcome};
use crate::text::hex;

/// The header: names of the columns.
pub const HEADER: &str =
    "kind\teax\tecx\tedx\tebx\tesp\tebp\tesi\tedi\teip\tflags\tbudget\tcode_len\tcode\tarea_len\tarea\
\tnumber\tsteps\taddress\teax_out\tecx_out\tedx_out\tebx_out\tesp_out\tebp_out\tesi_out\tedi_out\teip_out\tflags_out\
\tundefined\tarea_out\tconstants_len\tconstants\txmm0\txmm1\txmm2\txmm3\txmm4\txmm5\txmm6\txmm7\
\txmm0_out\txmm1_out\txmm2_out\txmm3_out\txmm4_out\txmm5_out\txmm6_out\txmm7_out";

/// Bytes as hex without the zero bytes at their end.
fn sparse(bytes: &[u8]) -> String {
    let end = bytes.iter().rposition(|&byte| byte != 0).map_or(0, |last| last + 1);
    hex(&bytes[..end])
}

/// Words in hex, tab-parted.
fn columns<'a>(words: impl IntoIterator<Item = &'a u32>) -> String {
    words.into_iter().map(|word| format!("{word:X}")).collect::<Vec<String>>().join("\t")
}

/// The ten words of a machine, tab-parted, without its singles.
fn machine_columns(machine: &Machine) -> String {
    columns(machine.regs.iter().chain([&machine.eip, &machine.flags]))
}

/// Ten columns that a check or a hex file doesn't use.
const NO_MACHINE: &str = "-\t-\t-\t-\t-\t-\t-\t-\t-\t-";

/// The columns of constants and singles, which a check or a hex file doesn't use.
const NO_MORE: &str = "-\t-\t-\t-\t-\t-\t-\t-\t-\t-\t-\t-\t-\t-\t-\t-\t-\t-";

/// Where lines go, whose results they hold (none: the partner's own), and what they cover.
struct Lines<'a, W: Write> {
    out: &'a mut W,
    other: Option<&'a dyn Other>,
    coverage: Coverage,
}

/// Writes the line of a run and gives back the case that goes on from its end.
fn write_run(lines: &mut Lines<impl Write>, case: &RunCase) -> io::Result<RunCase> {
    let Lines { out, other, coverage } = lines;
    let mut data = case.data.clone();
    let mut outcome = coverage.run(case, &mut data);
    if let Some(other) = other {
        let theirs = other_run(case, *other);
        outcome = Outcome { undefined: outcome.undefined, ..theirs.outcome };
        data = theirs.data;
    }
    writeln!(
        out,
        "run\t{}\t{:X}\t{:X}\t{}\t{:X}\t{}\t{:X}\t{:X}\t{:X}\t{}\t{:X}\t{}\t{:X}\t{}\t{}\t{}",
        machine_columns(&case.machine),
        case.budget,
        case.code.len(),
        sparse(&case.code),
        case.data.len(),
        sparse(&case.data),
        outcome.number,
        outcome.steps,
        outcome.address,
        machine_columns(&outcome.machine),
        outcome.undefined,
        sparse(&data),
        case.constants.len(),
        sparse(&case.constants),
        columns(&case.machine.singles),
        columns(&outcome.machine.singles)
    )?;
    Ok(RunCase { machine: outcome.machine, data, ..case.clone() })
}

/// Writes the line of a check; its count or offset stands in the address column.
fn write_check(lines: &mut Lines<impl Write>, case: &CheckCase) -> io::Result<()> {
    let Lines { out, other, coverage } = lines;
    let mut marks = case.marks.clone();
    let mut verdict = check(&case.code, &mut marks);
    coverage.checked(&case.code, verdict);
    if let Some(other) = other {
        (verdict, marks) = other_check(case, *other);
    }
    writeln!(
        out,
        "check\t{NO_MACHINE}\t-\t{:X}\t{}\t{:X}\t{}\t{:X}\t-\t{:X}\t{NO_MACHINE}\t-\t{}\t{NO_MORE}",
        case.code.len(),
        sparse(&case.code),
        case.marks.len(),
        sparse(&case.marks),
        verdict.number,
        verdict.answer,
        sparse(&marks)
    )
}

/// Writes the line of a hex file: the text stands as the code, its length of code or line in the address column.
fn write_hex(lines: &mut Lines<impl Write>, case: &HexCase) -> io::Result<()> {
    let Lines { out, other, coverage } = lines;
    let mut area = case.area.clone();
    let mut reading = read(&case.text, &mut area);
    coverage.read(&case.text, case.area.len());
    if let Some(other) = other {
        (reading, area) = other_hex(case, *other);
    }
    writeln!(
        out,
        "hex\t{NO_MACHINE}\t-\t{:X}\t{}\t{:X}\t{}\t{:X}\t-\t{:X}\t{NO_MACHINE}\t-\t{}\t{NO_MORE}",
        case.text.len(),
        sparse(&case.text),
        case.area.len(),
        sparse(&case.area),
        reading.number,
        reading.answer,
        sparse(&area)
    )
}

/// Whether the case's first step has a shape of the groups of M-100, M-101 and M-103 to M-106 that never came.
fn adds(case: &RunCase, coverage: &Coverage) -> bool {
    let mut new = false;
    let RunCase { machine, code, constants, data, .. } = case;
    run_observed(*machine, code, constants, &mut data.clone(), 1, |seen| new |= coverage.is_new(&seen));
    new
}

/// Writes at most so many steps with shapes that never came, until none is missing, and gives back how many.
fn write_missing(
    lines: &mut Lines<impl Write>,
    most: u64,
    has_all: fn(&Coverage) -> bool,
    mut next: impl FnMut() -> RunCase,
) -> io::Result<u64> {
    let mut written = 0;
    while written < most && !has_all(&lines.coverage) {
        let case = RunCase { budget: 1, ..next() };
        if adds(&case, &lines.coverage) {
            write_run(lines, &case)?;
            written += 1;
        }
    }
    Ok(written)
}

/// Writes at most so many runs with numbers of constants or refusals together that never came, until none is missing,
/// and gives back how many.
fn write_missing_cases(lines: &mut Lines<impl Write>, most: u64, generator: &mut Generator) -> io::Result<u64> {
    let mut written = 0;
    while written < most && !lines.coverage.has_all_cases() {
        for case in [generator.at_constants(), generator.refused()] {
            if written < most && lines.coverage.is_new_case(&case) {
                write_run(lines, &case)?;
                written += 1;
            }
        }
    }
    Ok(written)
}

/// Writes at most so many runs and checks that stop at near misses of singles that never came, until none is missing, and
/// gives back how many.
fn write_missing_misses(lines: &mut Lines<impl Write>, most: u64, generator: &mut Generator) -> io::Result<u64> {
    let mut written = 0;
    while written < most && !lines.coverage.has_all_misses() {
        let case = generator.near_miss_run();
        if lines.coverage.is_new_run_miss(&case) {
            write_run(lines, &case)?;
            written += 1;
        }
        let case = generator.near_miss_check();
        if written < most && lines.coverage.is_new_check_miss(&case) {
            write_check(lines, &case)?;
            written += 1;
        }
    }
    Ok(written)
}

/// Writes at most so many hex files with shapes that never came, until none is missing, and gives back how many.
fn write_missing_hex(lines: &mut Lines<impl Write>, most: u64, generator: &mut Generator) -> io::Result<u64> {
    let mut written = 0;
    while written < most && !lines.coverage.has_all_hex() {
        let case = generator.hex();
        if lines.coverage.is_new_hex(&case.text, case.area.len()) {
            write_hex(lines, &case)?;
            written += 1;
        }
    }
    Ok(written)
}

/// Writes the header and so many lines, first one finished step of each form, then steps for the shapes of M-100's,
/// M-101's, M-103's, M-104's, M-105's and M-106's groups still missing, then runs and checks for M-106's near misses, then
/// runs for M-104's, then hex files for the shapes of M-102's, then random cases, and gives back what they cover. With
/// another program the results are its own, but for the undefined flags.
pub fn write_vectors(out: &mut impl Write, other: Option<&dyn Other>, seed: u64, count: u64) -> io::Result<Coverage> {
    let mut generator = Generator::new(seed, Size::Small);
    let names: Vec<String> = generator.form_names().map(str::to_string).collect();
    let mut lines = Lines { out, other, coverage: Coverage::new(names.iter().map(String::as_str)) };
    writeln!(lines.out, "{HEADER}")?;
    let mut written = 0;
    for form in (0..names.len()).take(count as usize) {
        write_run(&mut lines, &generator.finishing(form))?;
        written += 1;
    }
    written += write_missing(&mut lines, count - written, Coverage::has_all_bits, || generator.bits())?;
    written += write_missing(&mut lines, count - written, Coverage::has_all_undefined, || generator.single())?;
    written += write_missing(&mut lines, count - written, Coverage::has_all_parities, || generator.single())?;
    written += write_missing(&mut lines, count - written, Coverage::has_all_accesses, || generator.at_constants())?;
    written += write_missing(&mut lines, count - written, Coverage::has_all_ends, || generator.at_ends())?;
    written += write_missing(&mut lines, count - written, Coverage::has_all_singles, || generator.singles())?;
    written += write_missing_misses(&mut lines, count - written, &mut generator)?;
    written += write_missing_cases(&mut lines, count - written, &mut generator)?;
    written += write_missing_hex(&mut lines, count - written, &mut generator)?;
    while written < count {
        match generator.next_case() {
            Case::Run(case) => {
                write_run(&mut lines, &case)?;
                written += 1;
            }
            Case::Resume(case, more) => {
                let rest = write_run(&mut lines, &case)?;
                written += 1;
                if written < count {
                    lines.coverage.resume();
                    write_run(&mut lines, &RunCase { budget: more, ..rest })?;
                    written += 1;
                }
            }
            Case::Check(case) => {
                write_check(&mut lines, &case)?;
                written += 1;
            }
            Case::Hex(case) => {
                write_hex(&mut lines, &case)?;
                written += 1;
            }
            // The C areas' lengths are no part of a run, check or reading.
            Case::StateLength(..) | Case::AnswerLength(..) | Case::HexAnswerLength(..) => {}
        }
    }
    Ok(lines.coverage)
}
