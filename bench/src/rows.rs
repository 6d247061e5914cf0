//! What is timed: blocks with their registers and data.

use partner::cases::RunCase;
use partner::machine::{
    write, Machine, Width, ALWAYS, CODE_BASE, CONSTANTS_BASE, DATA_BASE, HOME, MAX_BUDGET, MAX_BYTES,
};

/// One row of the table.
pub struct Row {
    pub name: &'static str,
    /// The inputs; every row's block ends at home before the budget does.
    pub case: RunCase,
    /// Fewest runs in one measurement if each is a fresh one, for which Unicorn and libx86emu open a new engine.
    pub fresh_runs: Option<u32>,
    /// Whether the block computes with singles, which Unicorn and libx86emu are not asked for.
    pub singles: bool,
}

/// Bytes of data of a row that needs little.
const FEW_BYTES: usize = 64;
/// Hours of the day on which the clocks go back.
const HOURS: usize = 25;
/// Most steps that a fresh run may take.
const FRESH_BUDGET: u64 = 1_000;
/// Rounds of the register loop.
const ROUNDS: u32 = 200_000;
/// Times that the register loop's instructions stand in the code of the long one.
const COPIES: usize = 80;
/// Words of 2 bytes that fill the data, half of them moved from and half to.
const MOVED_WORDS: u32 = 16_384;

/// ADD, XOR, DEC, JNZ on registers.
const REGISTER_LOOP: &[u8] = &[
    0x01, 0xD8, // 0: ADD EAX, EBX
    0x31, 0xC2, // 2: XOR EDX, EAX
    0x49, // 4: DEC ECX
    0x75, 0xF9, // 5: JNZ 0
    0xC3, // 7: RET
];

/// The register loop's instructions in 8 bytes; the jump leads to what comes next.
const REGISTER_COPY: &[u8] = &[
    0x01, 0xD8, // 0: ADD EAX, EBX
    0x31, 0xC2, // 2: XOR EDX, EAX
    0xFF, 0xC9, // 4: DEC ECX
    0x75, 0x00, // 6: JNZ 8
];

/// A word added to, one stored and one compared in each round.
const MEMORY_LOOP: &[u8] = &[
    0x8B, 0x06, // 0: MOV EAX, [ESI]
    0x01, 0x46, 0x04, // 2: ADD [ESI+4], EAX
    0x89, 0x54, 0x8F, 0xFC, // 5: MOV [EDI+ECX*4-4], EDX
    0x83, 0x3E, 0x00, // 9: CMP dword [ESI], 0
    0x4B, // 12: DEC EBX
    0x75, 0xF1, // 13: JNZ 0
    0xC3, // 15: RET
];

/// The memory loop with the word that it reads first, and compares, elsewhere than the one that it adds to.
const CONSTANT_LOOP: &[u8] = &[
    0x8B, 0x02, // 0: MOV EAX, [EDX]
    0x01, 0x46, 0x04, // 2: ADD [ESI+4], EAX
    0x89, 0x54, 0x8F, 0xFC, // 5: MOV [EDI+ECX*4-4], EDX
    0x83, 0x3A, 0x00, // 9: CMP dword [EDX], 0
    0x4B, // 12: DEC EBX
    0x75, 0xF1, // 13: JNZ 0
    0xC3, // 15: RET
];

/// A repeated move; the data has no room for a stack, so the block jumps home.
const MOVE: &[u8] = &[
    0xF3, 0x66, 0xA5, // 0: REP MOVSW
    0xFF, 0xE0, // 3: JMP EAX
];

/// A routine called in each round.
const CALL_LOOP: &[u8] = &[
    0xE8, 0x04, 0x00, 0x00, 0x00, // 0: CALL 9
    0x49, // 5: DEC ECX
    0x75, 0xF8, // 6: JNZ 0
    0xC3, // 8: RET
    0x40, // 9: INC EAX
    0xC3, // 10: RET
];

/// A product divided again in each round.
const PRODUCT_LOOP: &[u8] = &[
    0xF7, 0xE3, // 0: MUL EBX
    0xF7, 0xF6, // 2: DIV ESI
    0x01, 0xF8, // 4: ADD EAX, EDI
    0x49, // 6: DEC ECX
    0x75, 0xF7, // 7: JNZ 0
    0xC3, // 9: RET
];

/// A reading scaled, added up and stored in each round, with singles.
const SINGLE_LOOP: &[u8] = &[
    0xF3, 0x0F, 0x10, 0x06, // 0: MOVSS XMM0, [ESI]
    0xF3, 0x0F, 0x59, 0xC1, // 4: MULSS XMM0, XMM1
    0xF3, 0x0F, 0x58, 0xD0, // 8: ADDSS XMM2, XMM0
    0xF3, 0x0F, 0x11, 0x17, // 12: MOVSS [EDI], XMM2
    0x49, // 16: DEC ECX
    0x75, 0xED, // 17: JNZ 0
    0xC3, // 19: RET
];

/// The sum of a day's readings.
const DAY: &[u8] = &[
    0x31, 0xC0, // 0: XOR EAX, EAX
    0x03, 0x06, // 2: ADD EAX, [ESI]
    0x83, 0xC6, 0x04, // 4: ADD ESI, 4
    0xE2, 0xF9, // 7: LOOP 2
    0xC3, // 9: RET
];

/// A return and nothing else.
const RETURN: &[u8] = &[0xC3]; // 0: RET

/// A machine at the code's start with these of EAX, ECX, EDX, EBX, ESI, EDI.
fn machine([eax, ecx, edx, ebx, esi, edi]: [u32; 6]) -> Machine {
    Machine { regs: [eax, ecx, edx, ebx, 0, 0, esi, edi], eip: CODE_BASE, flags: ALWAYS, singles: [0; 8] }
}

/// A case without constants whose data's last word becomes the stack, which holds home.
fn returning(code: &[u8], mut machine: Machine, mut data: Vec<u8>, budget: u64) -> RunCase {
    let top = DATA_BASE + data.len() as u32 - 4;
    machine.regs[4] = top;
    write(&mut data, top, Width::Dword, HOME).expect("the stack lies in the data");
    RunCase { machine, code: code.to_vec(), constants: Vec::new(), data, budget }
}

/// The case with as many constants as may be.
fn with_constants(case: RunCase) -> RunCase {
    RunCase { constants: (0..MAX_BYTES).map(|at| (at % 251) as u8).collect(), ..case }
}

/// A row of long runs.
fn long(name: &'static str, case: RunCase) -> Row {
    Row { name, case, fresh_runs: None, singles: false }
}

/// The register loop in this code with so many bytes of data.
fn register_loop(code: &[u8], length: usize) -> RunCase {
    let start = machine([1, ROUNDS, 2, 0x9E37_79B9, 0, 0]);
    returning(code, start, vec![0; length], MAX_BUDGET)
}

/// The register loop's instructions again and again, the last jump leading to the start: before the run comes back to a
/// place it has been at all others whose offsets are equal modulo 64.
fn long_register_code() -> Vec<u8> {
    let mut code = REGISTER_COPY.repeat(COPIES);
    code.truncate(code.len() - 2);
    let length = code.len() as i32 + 6;
    code.extend([0x0F, 0x85]); // JNZ 0
    code.extend((-length).to_le_bytes());
    code.extend(RETURN);
    code
}

/// The memory loop over a few words, or the one with its word at EDX.
fn memory_loop(code: &[u8], edx: u32) -> RunCase {
    let start = machine([0, 4, edx, 150_000, DATA_BASE, DATA_BASE + 16]);
    returning(code, start, (1..=FEW_BYTES as u8).collect(), MAX_BUDGET)
}

/// The repeated move through all of the data.
fn repeated_move() -> RunCase {
    let machine = machine([HOME, MOVED_WORDS, 0, 0, DATA_BASE, DATA_BASE + 2 * MOVED_WORDS]);
    let data = (0..MAX_BYTES).map(|at| (at % 251) as u8).collect();
    RunCase { machine, code: MOVE.to_vec(), constants: Vec::new(), data, budget: MAX_BUDGET }
}

/// The loop of calls.
fn call_loop() -> RunCase {
    returning(CALL_LOOP, machine([0, 190_000, 0, 0, 0, 0]), vec![0; FEW_BYTES], MAX_BUDGET)
}

/// The loop of multiplications and divisions; the divisor is the larger one, so that every quotient fits.
fn product_loop() -> RunCase {
    let start = machine([123_456_789, 190_000, 0, 1_000_003, 1_000_033, 100_000]);
    returning(PRODUCT_LOOP, start, vec![0; FEW_BYTES], MAX_BUDGET)
}

/// The loop of singles; a reading of 100, the factor 1/10.
fn single_loop() -> RunCase {
    let mut start = machine([0, 150_000, 0, 0, DATA_BASE, DATA_BASE + 4]);
    start.singles[1] = 0.1f32.to_bits();
    let data = 100f32.to_le_bytes().into_iter().chain([0; FEW_BYTES - 4]).collect();
    returning(SINGLE_LOOP, start, data, MAX_BUDGET)
}

/// The day's readings and their sum.
fn day() -> RunCase {
    let readings = (0..HOURS as u32).map(|hour| 1000 + 17 * hour);
    let stack = 0;
    let data = readings.chain([stack]).flat_map(u32::to_le_bytes).collect();
    returning(DAY, machine([0, HOURS as u32, 0, 0, DATA_BASE, 0]), data, FRESH_BUDGET)
}

/// One step, home.
fn one_return() -> RunCase {
    returning(RETURN, machine([0; 6]), vec![0; FEW_BYTES], FRESH_BUDGET)
}

/// All rows in the table's order.
pub fn rows() -> Vec<Row> {
    vec![
        long("register loop, 64 bytes of data", register_loop(REGISTER_LOOP, FEW_BYTES)),
        long("register loop, 64 KiB of data", register_loop(REGISTER_LOOP, MAX_BYTES)),
        long("register loop over 645 bytes of code", register_loop(&long_register_code(), FEW_BYTES)),
        long("memory loop", memory_loop(MEMORY_LOOP, 7)),
        long("memory loop beside 64 KiB of constants", with_constants(memory_loop(MEMORY_LOOP, 7))),
        long("memory loop, its word in data", memory_loop(CONSTANT_LOOP, DATA_BASE)),
        long("memory loop, its word in constants", with_constants(memory_loop(CONSTANT_LOOP, CONSTANTS_BASE))),
        long("REP MOVSW of 16,384 words", repeated_move()),
        long("call and return loop", call_loop()),
        long("multiply and divide loop", product_loop()),
        Row { singles: true, ..long("loop of singles", single_loop()) },
        Row { name: "1,000 fresh runs of a 25-hour day", case: day(), fresh_runs: Some(1_000), singles: false },
        Row { name: "1,000 fresh runs of one RET", case: one_return(), fresh_runs: Some(1_000), singles: false },
    ]
}
