//! Times Sangolid beside the partner, Unicorn and libx86emu. Being slow is no failure; ending differently is one.
//!
//! From this folder: `SANGOLID_LIB=../target/staticlib cargo run --release`.

mod checks;
#[cfg(any(unicorn, x86emu))]
mod engines;
mod programs;
mod rows;
mod runs;
mod timing;
#[cfg(unicorn)]
mod unicorn;
#[cfg(x86emu)]
mod x86emu;

use std::process::ExitCode;

fn main() -> ExitCode {
    let runs_agree = runs::print_runs();
    println!();
    let checks_agree = checks::print_checks();
    if runs_agree && checks_agree {
        ExitCode::SUCCESS
    } else {
        ExitCode::FAILURE
    }
}
