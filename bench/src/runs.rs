//! The table of runs.

use std::hint::black_box;

use partner::sangolid::Sangolid;

use crate::programs::{End, Partner, Program};
use crate::rows::{rows, Row};
use crate::timing::{best, Work};

/// The programs in the table's order, Sangolid first.
const NAMES: [&str; 4] = ["Sangolid", "partner", "Unicorn", "libx86emu"];

/// A program of the table, or none if its library was not found when this program was built.
type Entry = Option<Box<dyn Program>>;

/// Unicorn for this row.
#[cfg(unicorn)]
fn unicorn(row: &Row) -> Entry {
    Some(crate::engines::program::<crate::unicorn::Unicorn>(row))
}

/// No Unicorn was found.
#[cfg(not(unicorn))]
fn unicorn(_row: &Row) -> Entry {
    None
}

/// libx86emu for this row.
#[cfg(x86emu)]
fn x86emu(row: &Row) -> Entry {
    Some(crate::engines::program::<crate::x86emu::X86emu>(row))
}

/// No libx86emu was found.
#[cfg(not(x86emu))]
fn x86emu(_row: &Row) -> Entry {
    None
}

/// The programs by their names' order.
fn programs(row: &Row) -> [Entry; 4] {
    let [unicorn, x86emu] = if row.singles { [None, None] } else { [unicorn(row), x86emu(row)] };
    [Some(Box::new(Sangolid)), Some(Box::new(Partner)), unicorn, x86emu]
}

/// Names of the programs that don't end as Sangolid does.
fn differing(ends: &[Option<End>; 4]) -> Vec<&'static str> {
    let agrees = |end: &End| ends[0].as_ref().is_some_and(|first| end.agrees(first));
    NAMES.into_iter().zip(ends).filter(|(_, end)| !end.as_ref().is_none_or(agrees)).map(|(name, _)| name).collect()
}

/// The row's times a step in nanoseconds.
fn times_a_step(row: &Row, programs: &mut [Entry; 4], steps: u64) -> [Option<f64>; 4] {
    let case = &row.case;
    let mut works: Vec<Work> = programs
        .iter_mut()
        .flatten()
        .map(|program| {
            Box::new(move || {
                black_box(program.run(black_box(case)));
            }) as Work
        })
        .collect();
    let mut times = best(&mut works, row.fresh_runs.unwrap_or(1)).into_iter().map(|time| time / steps as f64);
    drop(works);
    programs.each_ref().map(|program| program.as_ref().and_then(|_| times.next()))
}

/// A number for the table, or a dash.
fn cell(number: Option<f64>) -> String {
    number.map_or("-".to_string(), |number| format!("{number:.2}"))
}

/// Prints one line of the table: the programs' times, then the ratios of all but Sangolid's to it.
fn print_line(name: &str, steps: &str, times: [&str; 4], ratios: [&str; 3], ends: &str) {
    let times = times.map(|cell| format!("{cell:>10}")).concat();
    let ratios = ratios.map(|cell| format!("{cell:>20}")).concat();
    println!("{name:<40}{steps:>9}{times}{ratios}  {ends}");
}

/// Compares the programs' ends and times the row if they agree; tells whether they do.
fn print_row(row: &Row) -> bool {
    let mut programs = programs(row);
    let ends = programs.each_mut().map(|program| program.as_mut().map(|program| program.run(&row.case)));
    let steps = ends[0].as_ref().and_then(|end| end.told).map_or(0, |told| told.steps);
    let differing = differing(&ends);
    if !differing.is_empty() {
        let ends = format!("DIFFER: {}", differing.join(", "));
        print_line(row.name, &steps.to_string(), ["-"; 4], ["-"; 3], &ends);
        return false;
    }
    let times = times_a_step(row, &mut programs, steps);
    let ratios = [1, 2, 3].map(|place| times[place].zip(times[0]).map(|(time, first)| time / first)).map(cell);
    let times = times.map(cell);
    print_line(
        row.name,
        &steps.to_string(),
        times.each_ref().map(String::as_str),
        ratios.each_ref().map(String::as_str),
        "same",
    );
    true
}

/// Prints the table of runs and tells whether all programs agree.
pub fn print_runs() -> bool {
    println!("Runs: nanoseconds a step, best of several. Before a row is timed, the programs' ends are compared with");
    println!("Sangolid's: registers, EIP, flags, singles, number, steps, address and data; for Unicorn and libx86emu");
    println!("registers and data. These two are not asked for the loop of singles.");
    for (found, name) in [(cfg!(unicorn), "Unicorn"), (cfg!(x86emu), "libx86emu")] {
        if !found {
            println!("{name} is skipped: it was not found when this program was built.");
        }
    }
    println!();
    let ratios = ["partner/Sangolid", "Unicorn/Sangolid", "libx86emu/Sangolid"];
    print_line("", "steps", NAMES, ratios, "ends");
    let mut all_agree = true;
    for row in rows() {
        all_agree &= print_row(&row);
    }
    all_agree
}
