//! Checks the partner beside Unicorn on random single instructions but those with singles, undefined flags masked.

use std::cell::UnsafeCell;
use std::collections::BTreeMap;
use std::ffi::{c_int, c_void};
use std::process::ExitCode;

use partner::cases::{Generator, RunCase, Size};
use partner::decode::{decode, Operand, Operation};
use partner::machine::{Machine, Width, CODE_BASE, CONSTANTS_BASE, DATA_BASE, KNOWN};
use partner::step::{effective_address, execute, fetch, Stop};
use partner::text::{describe, form, hex, machine_text};

extern "C" {
    fn uc_open(architecture: c_int, mode: c_int, engine: *mut *mut c_void) -> c_int;
    fn uc_close(engine: *mut c_void) -> c_int;
    fn uc_mem_map(engine: *mut c_void, address: u64, size: usize, permissions: u32) -> c_int;
    fn uc_mem_write(engine: *mut c_void, address: u64, bytes: *const c_void, size: usize) -> c_int;
    fn uc_mem_read(engine: *mut c_void, address: u64, bytes: *mut c_void, size: usize) -> c_int;
    fn uc_reg_write(engine: *mut c_void, register: c_int, value: *const c_void) -> c_int;
    fn uc_reg_read(engine: *mut c_void, register: c_int, value: *mut c_void) -> c_int;
    fn uc_emu_start(engine: *mut c_void, begin: u64, until: u64, timeout: u64, count: usize) -> c_int;
    fn uc_emu_stop(engine: *mut c_void) -> c_int;
    fn uc_hook_add(
        engine: *mut c_void,
        hook: *mut usize,
        kind: c_int,
        callback: *mut c_void,
        user: *mut c_void,
        begin: u64,
        end: u64,
        ...
    ) -> c_int;
}

/// Notes an exception or interrupt and ends the run.
extern "C" fn on_interrupt(engine: *mut c_void, number: u32, noted: *mut c_void) {
    // The pointer given to `uc_hook_add` outlives the engine.
    unsafe {
        *noted.cast::<u32>() = number;
        uc_emu_stop(engine);
    }
}

const ARCHITECTURE_X86: c_int = 4;
const MODE_32: c_int = 1 << 2;
const HOOK_INTERRUPT: c_int = 1;
/// No exception or interrupt noted.
const NO_INTERRUPT: u32 = u32::MAX;
/// The divide error's vector (003, table 3-2).
const DIVIDE_ERROR: u32 = 0;
const READ: u32 = 1;
const READ_WRITE: u32 = 3;
const EXECUTE: u32 = 4;
/// Unicorn's numbers of EAX, ECX, EDX, EBX, ESP, EBP, ESI, EDI, EIP, EFLAGS.
const REGISTERS: [c_int; 10] = [19, 22, 24, 21, 30, 20, 29, 23, 26, 25];

/// Code bytes; each instruction has a slot of its own, so that no translation is used twice.
const CODE_BYTES: usize = 65_536;
const SLOT: usize = 16;
/// Fills the rest of each slot and ends what Unicorn translates at once.
const RET: u8 = 0xC3;
/// One page of data, and one of constants, which Unicorn can only read.
const DATA_BYTES: usize = 4096;

/// How one instruction ended.
#[derive(Clone, Copy, PartialEq, Eq, Debug)]
enum End {
    Finished,
    Read,
    Write,
    Divide,
    Unknown(c_int),
}

/// One instruction's result.
#[derive(Clone, PartialEq, Eq, Debug)]
struct Result {
    end: End,
    machine: Machine,
    data: Vec<u8>,
}

/// One engine with code, data and constants mapped.
struct Engine {
    engine: *mut c_void,
    /// The last interrupt's vector.
    interrupt: Box<UnsafeCell<u32>>,
}

impl Engine {
    /// Opens an engine and writes its code.
    fn new(code: &[u8]) -> Self {
        let mut engine = std::ptr::null_mut();
        let mut hook = 0;
        let interrupt = Box::new(UnsafeCell::new(NO_INTERRUPT));
        // All pointers are to live memory of the sizes given.
        unsafe {
            assert_eq!(uc_open(ARCHITECTURE_X86, MODE_32, &mut engine), 0);
            assert_eq!(uc_mem_map(engine, u64::from(CODE_BASE), CODE_BYTES, EXECUTE), 0);
            assert_eq!(uc_mem_map(engine, u64::from(DATA_BASE), DATA_BYTES, READ_WRITE), 0);
            assert_eq!(uc_mem_map(engine, u64::from(CONSTANTS_BASE), DATA_BYTES, READ), 0);
            assert_eq!(uc_mem_write(engine, u64::from(CODE_BASE), code.as_ptr().cast(), code.len()), 0);
            let (callback, noted) = (on_interrupt as *mut c_void, interrupt.get().cast());
            assert_eq!(uc_hook_add(engine, &mut hook, HOOK_INTERRUPT, callback, noted, 1, 0), 0);
        }
        Engine { engine, interrupt }
    }

    /// Carries out one instruction, a repeated one with all its rounds.
    fn run(&self, case: &RunCase, repeated: bool, next: u32) -> Result {
        let words: Vec<u64> = case
            .machine
            .regs
            .iter()
            .chain([&case.machine.eip, &case.machine.flags])
            .map(|&word| u64::from(word))
            .collect();
        let mut data = vec![0; DATA_BYTES];
        let mut back = [0u64; 10];
        // All pointers are to live memory of the sizes given.
        let (error, interrupt) = unsafe {
            *self.interrupt.get() = NO_INTERRUPT;
            uc_mem_write(self.engine, u64::from(DATA_BASE), case.data.as_ptr().cast(), DATA_BYTES);
            uc_mem_write(self.engine, u64::from(CONSTANTS_BASE), case.constants.as_ptr().cast(), DATA_BYTES);
            for (register, word) in REGISTERS.iter().zip(&words) {
                uc_reg_write(self.engine, *register, std::ptr::from_ref(word).cast());
            }
            let (until, count) = if repeated { (u64::from(next), 0) } else { (u64::MAX, 1) };
            let error = uc_emu_start(self.engine, u64::from(case.machine.eip), until, 0, count);
            for (register, word) in REGISTERS.iter().zip(&mut back) {
                uc_reg_read(self.engine, *register, std::ptr::from_mut(word).cast());
            }
            uc_mem_read(self.engine, u64::from(DATA_BASE), data.as_mut_ptr().cast(), DATA_BYTES);
            (error, *self.interrupt.get())
        };
        // A refused fetch comes from the instruction after this one.
        let end = match (error, interrupt) {
            (_, DIVIDE_ERROR) => End::Divide,
            (0 | 8 | 14, NO_INTERRUPT) => End::Finished,
            (6 | 13, NO_INTERRUPT) => End::Read,
            (7 | 12, NO_INTERRUPT) => End::Write,
            (error, _) => End::Unknown(error),
        };
        let mut regs = [0; 8];
        for (register, word) in regs.iter_mut().zip(back) {
            *register = word as u32;
        }
        let (eip, flags) = (back[8] as u32, back[9] as u32 & KNOWN);
        Result { end, machine: Machine { regs, eip, flags, singles: case.machine.singles }, data }
    }
}

impl Drop for Engine {
    fn drop(&mut self) {
        // The engine was opened by `new` and is closed once.
        unsafe { uc_close(self.engine) };
    }
}

/// The partner's result and what 003 leaves open.
struct Ours {
    result: Result,
    /// Flags that 003 leaves undefined.
    undefined: u32,
    /// The destination, if 003 leaves it undefined.
    kept: Option<Operand>,
    /// The address of a refused access.
    refused: Option<u32>,
}

/// Carries out one instruction by the partner, a repeated one with all its rounds.
fn partner_run(case: &RunCase, code: &[u8]) -> Ours {
    let (mut undefined, mut kept, mut refused) = (0, None, None);
    let mut data = case.data.clone();
    let mut machine = case.machine;
    let end = loop {
        let (instruction, _) = fetch(&machine, code).expect("every slot holds an instruction");
        match execute(&machine, &instruction, &case.constants, &mut data) {
            Err(Stop::Read(access)) => {
                refused = Some(access.address);
                break End::Read;
            }
            Err(Stop::Write(access)) => {
                refused = Some(access.address);
                break End::Write;
            }
            Err(_) => break End::Divide,
            Ok(step) => {
                machine = step.machine;
                (undefined, kept) = (step.flags.undefined, step.kept);
                if instruction.repeat.is_none() || machine.eip != case.machine.eip {
                    break End::Finished;
                }
            }
        }
    };
    Ours { result: Result { end, machine, data }, undefined, kept, refused }
}

/// Unicorn lets data accesses reach the code's pages, which document 01 doesn't.
fn in_code(address: u32) -> bool {
    (CODE_BASE - 3..CODE_BASE + CODE_BYTES as u32).contains(&address)
}

/// Takes back the part of a refused write that Unicorn does before it meets the page's end.
fn undo_partial_write(theirs: &mut Result, case: &RunCase, refused: Option<u32>) {
    let Some(start) = refused.and_then(|address| address.checked_sub(DATA_BASE)) else { return };
    if theirs.end == End::Write && (start as usize) < DATA_BYTES {
        theirs.data[start as usize..].copy_from_slice(&case.data[start as usize..]);
    }
}

/// Whether both results agree; after a stop EIP and flags aren't looked at.
fn agree(ours: &Result, theirs: &Result, undefined: u32) -> bool {
    let same = ours.end == theirs.end && ours.machine.regs == theirs.machine.regs && ours.data == theirs.data;
    let flags = (ours.machine.flags ^ theirs.machine.flags) & !undefined == 0;
    same && (ours.end != End::Finished || flags && ours.machine.eip == theirs.machine.eip)
}

/// Unicorn's result with the partner's value in the destination.
fn with_destination(theirs: &Result, ours: &Result, case: &RunCase, destination: Operand, width: Width) -> Result {
    let mut theirs = theirs.clone();
    match destination {
        Operand::Register(number) => {
            theirs.machine.set_register(number, width, ours.machine.register(number, width));
        }
        Operand::Memory(address) => {
            let start = (effective_address(&case.machine, &address) - DATA_BASE) as usize;
            let place = start..start + width.bytes() as usize;
            theirs.data[place.clone()].copy_from_slice(&ours.data[place]);
        }
        Operand::Xmm(_) | Operand::Immediate(_) => {}
    }
    theirs
}

/// An instruction alone in its code that has no single.
fn without_singles(generator: &mut Generator) -> RunCase {
    loop {
        let case = generator.alone(DATA_BYTES);
        let operation = decode(&case.code).expect("the code is an instruction").operation;
        if !matches!(operation, Operation::Movss(..) | Operation::Single(..) | Operation::Comiss(..)) {
            return case;
        }
    }
}

/// Indexes and values where two data areas differ.
fn data_difference(ours: &[u8], theirs: &[u8]) -> String {
    let differing = ours.iter().zip(theirs).enumerate().filter(|(_, (one, two))| one != two);
    differing.take(8).map(|(at, (one, two))| format!("[{at:X}] {one:02X}/{two:02X} ")).collect()
}

fn main() -> ExitCode {
    let numbers: Vec<u64> = std::env::args().skip(1).map_while(|argument| argument.parse().ok()).collect();
    let [seed, count] = numbers[..] else {
        eprintln!("usage: beside_unicorn SEED COUNT");
        return ExitCode::from(2);
    };
    let mut generator = Generator::new(seed, Size::Large);
    let mut differing: BTreeMap<String, u64> = BTreeMap::new();
    let mut done = 0;
    while done < count {
        let mut code = vec![RET; CODE_BYTES];
        let cases: Vec<RunCase> = (0..CODE_BYTES / SLOT)
            .map(|slot| {
                let mut case = without_singles(&mut generator);
                code[slot * SLOT..][..case.code.len()].copy_from_slice(&case.code);
                case.machine.eip = CODE_BASE + (slot * SLOT) as u32;
                case
            })
            .collect();
        let mut engine = Engine::new(&code);
        for case in cases.iter().take((count - done) as usize) {
            let (instruction, bytes) = fetch(&case.machine, &code).expect("every slot holds an instruction");
            let next = case.machine.eip + instruction.length;
            let Ours { result: ours, undefined, kept, refused } = partner_run(case, &code);
            done += 1;
            if refused.is_some_and(in_code) {
                continue;
            }
            let mut theirs = engine.run(case, instruction.repeat.is_some(), next);
            undo_partial_write(&mut theirs, case, refused);
            // A second divide error in one engine would be a double fault.
            if theirs.end == End::Divide {
                engine = Engine::new(&code);
            }
            if !agree(&ours, &theirs, undefined) {
                let only_there = kept.is_some_and(|kept| {
                    agree(&ours, &with_destination(&theirs, &ours, case, kept, instruction.width), undefined)
                });
                let open = if only_there { ", only in a destination that 003 leaves undefined" } else { "" };
                let kind = format!("{}, {:?} beside {:?}{open}", form(bytes, &instruction), ours.end, theirs.end);
                let times = differing.entry(kind).or_default();
                *times += 1;
                if *times == 1 {
                    println!("{} {} undefined {undefined:03X}", hex(bytes), describe(bytes));
                    println!("  in      {}", machine_text(&case.machine));
                    println!("  partner {:?} {}", ours.end, machine_text(&ours.machine));
                    println!("  unicorn {:?} {}", theirs.end, machine_text(&theirs.machine));
                    println!("  data    {}", data_difference(&ours.data, &theirs.data));
                }
            }
        }
    }
    for (kind, times) in &differing {
        println!("{times}\t{kind}");
    }
    println!("{done} instructions, {} differ", differing.values().sum::<u64>());
    if differing.is_empty() {
        ExitCode::SUCCESS
    } else {
        ExitCode::FAILURE
    }
}
