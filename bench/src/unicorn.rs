//! Unicorn's C interface, and Unicorn as a program under the clock.

use std::ffi::{c_int, c_void};

use partner::cases::RunCase;
use partner::machine::{CODE_BASE, CONSTANTS_BASE, DATA_BASE, HOME};

use crate::engines::Engine;
use crate::programs::End;

extern "C" {
    fn uc_open(architecture: c_int, mode: c_int, engine: *mut *mut c_void) -> c_int;
    fn uc_close(engine: *mut c_void) -> c_int;
    fn uc_mem_map(engine: *mut c_void, address: u64, size: usize, permissions: u32) -> c_int;
    fn uc_mem_write(engine: *mut c_void, address: u64, bytes: *const c_void, size: usize) -> c_int;
    fn uc_mem_read(engine: *mut c_void, address: u64, bytes: *mut c_void, size: usize) -> c_int;
    fn uc_reg_write(engine: *mut c_void, register: c_int, value: *const c_void) -> c_int;
    fn uc_reg_read(engine: *mut c_void, register: c_int, value: *mut c_void) -> c_int;
    fn uc_emu_start(engine: *mut c_void, begin: u64, until: u64, timeout: u64, count: usize) -> c_int;
}

const ARCHITECTURE_X86: c_int = 4;
const MODE_32: c_int = 1 << 2;
const READ: u32 = 1;
const READ_WRITE: u32 = 3;
const READ_EXECUTE: u32 = 5;
/// Unicorn maps whole pages of so many bytes.
const PAGE: usize = 4096;
/// Unicorn's numbers of EAX, ECX, EDX, EBX, ESP, EBP, ESI, EDI.
const REGISTERS: [c_int; 8] = [19, 22, 24, 21, 30, 20, 29, 23];
/// Unicorn's number of EFLAGS.
const FLAGS: c_int = 25;

/// Panics unless Unicorn says that all went well.
fn expect_done(error: c_int) {
    assert_eq!(error, 0, "Unicorn's error number");
}

/// An engine with a case's code and constants written and room for its data.
pub struct Unicorn(*mut c_void);

impl Unicorn {
    /// Maps the pages that so many bytes need.
    fn map(&self, address: u32, bytes: usize, permissions: u32) {
        // The engine is open.
        expect_done(unsafe { uc_mem_map(self.0, u64::from(address), bytes.next_multiple_of(PAGE), permissions) });
    }

    /// Writes bytes to memory.
    fn write(&self, address: u32, bytes: &[u8]) {
        // Pointer and length describe one whole slice.
        expect_done(unsafe { uc_mem_write(self.0, u64::from(address), bytes.as_ptr().cast(), bytes.len()) });
    }

    /// Reads so many bytes of data.
    fn data(&self, length: usize) -> Vec<u8> {
        let mut data = vec![0; length];
        // Pointer and length describe the whole vector.
        expect_done(unsafe { uc_mem_read(self.0, u64::from(DATA_BASE), data.as_mut_ptr().cast(), length) });
        data
    }

    /// Writes one register.
    fn set_register(&self, register: c_int, word: u32) {
        let word = u64::from(word);
        // The pointer is to 8 live bytes.
        expect_done(unsafe { uc_reg_write(self.0, register, std::ptr::from_ref(&word).cast()) });
    }

    /// Reads one register.
    fn register(&self, register: c_int) -> u32 {
        let mut word = 0u64;
        // The pointer is to 8 live bytes.
        expect_done(unsafe { uc_reg_read(self.0, register, std::ptr::from_mut(&mut word).cast()) });
        word as u32
    }
}

impl Engine for Unicorn {
    fn open(case: &RunCase) -> Self {
        let mut opened = std::ptr::null_mut();
        // The pointer is to a live variable.
        expect_done(unsafe { uc_open(ARCHITECTURE_X86, MODE_32, &mut opened) });
        let engine = Unicorn(opened);
        engine.map(CODE_BASE, case.code.len(), READ_EXECUTE);
        engine.map(DATA_BASE, case.data.len(), READ_WRITE);
        engine.map(HOME, PAGE, READ_EXECUTE);
        engine.write(CODE_BASE, &case.code);
        if !case.constants.is_empty() {
            engine.map(CONSTANTS_BASE, case.constants.len(), READ);
            engine.write(CONSTANTS_BASE, &case.constants);
        }
        engine
    }

    fn run(&mut self, case: &RunCase) -> End {
        self.write(DATA_BASE, &case.data);
        for (register, word) in REGISTERS.iter().zip(case.machine.regs) {
            self.set_register(*register, word);
        }
        self.set_register(FLAGS, case.machine.flags);
        let (begin, until) = (u64::from(case.machine.eip), u64::from(HOME));
        // The engine is open.
        expect_done(unsafe { uc_emu_start(self.0, begin, until, 0, case.budget as usize) });
        End {
            registers: REGISTERS.map(|register| self.register(register)),
            data: self.data(case.data.len()),
            told: None,
        }
    }
}

impl Drop for Unicorn {
    fn drop(&mut self) {
        // The engine was opened by `open` and is closed once.
        unsafe { uc_close(self.0) };
    }
}
