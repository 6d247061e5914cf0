//! libx86emu's C interface, and libx86emu as a program under the clock.

use std::ffi::{c_uint, c_void};

use partner::cases::RunCase;
use partner::machine::{CODE_BASE, CONSTANTS_BASE, DATA_BASE, HOME};

use crate::engines::Engine;
use crate::programs::End;

/// A segment register, `sel_t`.
#[repr(C)]
#[derive(Clone, Copy)]
struct Segment {
    base: u32,
    limit: u32,
    selector: u16,
    access: u16,
}

/// `x86emu_t` up to its limit of instructions; the build script compares the places with the header's.
#[repr(C)]
struct State {
    /// EAX, EBX, ECX, EDX, ESP, EBP, ESI, EDI.
    registers: [u32; 8],
    eip: u32,
    flags: u32,
    xmm: [u8; 128],
    segments: [Segment; 8],
    tables_and_control: [u32; 26],
    model_registers: *mut u64,
    rest: [u64; 190],
    most_instructions: u64,
}

extern "C" {
    fn x86emu_new(memory: c_uint, ports: c_uint) -> *mut State;
    fn x86emu_done(state: *mut State) -> *mut State;
    fn x86emu_set_perm(state: *mut State, start: c_uint, end: c_uint, permissions: c_uint);
    fn x86emu_set_page(state: *mut State, address: c_uint, bytes: *mut c_void);
    fn x86emu_run(state: *mut State, flags: c_uint) -> c_uint;
}

const READ: c_uint = 1;
const READ_WRITE: c_uint = 3;
const READ_EXECUTE: c_uint = 5;
/// `X86EMU_RUN_MAX_INSTR`.
const COUNTED: c_uint = 2;
/// The model register in which libx86emu counts instructions.
const COUNTER: usize = 0x10;
/// Present, 32 bits, code that can be read.
const CODE_32: u16 = 0xC9B;
/// Present, 32 bits, data that can be written.
const DATA_32: u16 = 0xC93;
/// The place of CS among the segments.
const CS: usize = 1;
/// libx86emu maps whole pages of so many bytes.
const PAGE: usize = 4096;
/// HLT, which lies at home.
const HALT: [u8; 1] = [0xF4];
/// The places of EAX, ECX, EDX, EBX, ESP, EBP, ESI, EDI among libx86emu's registers.
const REGISTERS: [usize; 8] = [0, 2, 3, 1, 4, 5, 6, 7];

/// A lent part of memory: whole pages that begin with the part's bytes.
struct Area(Vec<u8>);

impl Area {
    /// Lends the bytes at the address; accesses beyond them are refused.
    fn lend(state: *mut State, address: u32, bytes: &[u8], permissions: c_uint) -> Self {
        let mut pages = bytes.to_vec();
        pages.resize(bytes.len().next_multiple_of(PAGE), 0);
        // The state is open.
        unsafe { x86emu_set_perm(state, address, address + bytes.len() as u32 - 1, permissions) };
        for (page, place) in pages.chunks_mut(PAGE).zip((address..).step_by(PAGE)) {
            // The pages live as long as the engine that lends them.
            unsafe { x86emu_set_page(state, place, page.as_mut_ptr().cast()) };
        }
        Area(pages)
    }
}

/// An emulation with a case's code, constants, data and home lent to it.
pub struct X86emu {
    state: *mut State,
    data: Area,
    /// Code, constants and home, which are lent and not used again.
    _lent: Vec<Area>,
}

impl Engine for X86emu {
    /// Opens an emulation of flat 32-bit segments for the case.
    fn open(case: &RunCase) -> Self {
        // No memory and no port may be used unless it is lent.
        let state = unsafe { x86emu_new(0, 0) };
        assert!(!state.is_null(), "libx86emu opens");
        let data = Area::lend(state, DATA_BASE, &case.data, READ_WRITE);
        let code = Area::lend(state, CODE_BASE, &case.code, READ_EXECUTE);
        let home = Area::lend(state, HOME, &HALT, READ_EXECUTE);
        let mut lent = vec![code, home];
        if !case.constants.is_empty() {
            lent.push(Area::lend(state, CONSTANTS_BASE, &case.constants, READ));
        }
        let flat = |access| Segment { base: 0, limit: u32::MAX, selector: 0, access };
        // The state is open.
        let segments = unsafe { &mut (*state).segments };
        *segments = [flat(DATA_32); 8];
        segments[CS] = flat(CODE_32);
        X86emu { state, data, _lent: lent }
    }

    fn run(&mut self, case: &RunCase) -> End {
        let length = case.data.len();
        self.data.0[..length].copy_from_slice(&case.data);
        // The state is open, and its model registers are as many as the counter's number needs.
        let state = unsafe { &mut *self.state };
        unsafe { *state.model_registers.add(COUNTER) = 0 };
        for (place, word) in REGISTERS.iter().zip(case.machine.regs) {
            state.registers[*place] = word;
        }
        state.eip = case.machine.eip;
        state.flags = case.machine.flags;
        state.most_instructions = case.budget;
        // The state is open.
        let stopped = unsafe { x86emu_run(state, COUNTED) };
        assert_eq!(stopped, 0, "libx86emu halts at home");
        End {
            registers: REGISTERS.map(|place| state.registers[place]),
            data: self.data.0[..length].to_vec(),
            told: None,
        }
    }
}

impl Drop for X86emu {
    fn drop(&mut self) {
        // The state was opened by `open` and is closed once.
        unsafe { x86emu_done(self.state) };
    }
}
