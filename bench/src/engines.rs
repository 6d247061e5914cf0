//! Other emulators under the clock: an engine is opened for a case, which it then runs.

use std::marker::PhantomData;

use partner::cases::RunCase;

use crate::programs::{End, Program};
use crate::rows::Row;

/// An emulator's engine.
pub trait Engine {
    /// Opens an engine that holds the case's code.
    fn open(case: &RunCase) -> Self;
    /// Runs the case: writes data and registers, starts, reads back.
    fn run(&mut self, case: &RunCase) -> End;
}

/// One engine that is kept from run to run.
struct Kept<E>(E);

impl<E: Engine> Program for Kept<E> {
    fn run(&mut self, case: &RunCase) -> End {
        self.0.run(case)
    }
}

/// An engine opened and closed for each run.
struct Fresh<E>(PhantomData<E>);

impl<E: Engine> Program for Fresh<E> {
    fn run(&mut self, case: &RunCase) -> End {
        E::open(case).run(case)
    }
}

/// The emulator as a program for this row.
pub fn program<E: Engine + 'static>(row: &Row) -> Box<dyn Program> {
    match row.fresh_runs {
        Some(_) => Box::new(Fresh::<E>(PhantomData)),
        None => Box::new(Kept(E::open(&row.case))),
    }
}
